/* Holds the windows of a store open: before each of the calls that SLOW names, a wait of up to SLOW_US microseconds. */
#define _GNU_SOURCE
#include <dlfcn.h>
#include <fcntl.h>
#include <stdlib.h>
#include <string.h>
#include <sys/stat.h>
#include <sys/types.h>
#include <unistd.h>

static unsigned seed;

static void held(const char *call)
{
	const char *calls = getenv("SLOW"), *most = getenv("SLOW_US");

	if (!calls || !most || !strstr(calls, call))
		return;
	if (!seed)
		seed = (unsigned)getpid();
	usleep(rand_r(&seed) % (unsigned)atoi(most));
}

int rename(const char *from, const char *to)
{
	int (*real)(const char *, const char *) = dlsym(RTLD_NEXT, "rename");

	held("rename");
	return real(from, to);
}

int fsync(int fd)
{
	int (*real)(int) = dlsym(RTLD_NEXT, "fsync");

	held("fsync");
	return real(fd);
}

int fchown(int fd, uid_t owner, gid_t group)
{
	int (*real)(int, uid_t, gid_t) = dlsym(RTLD_NEXT, "fchown");

	held("chown");
	return real(fd, owner, group);
}

int lchown(const char *path, uid_t owner, gid_t group)
{
	int (*real)(const char *, uid_t, gid_t) = dlsym(RTLD_NEXT, "lchown");

	held("chown");
	return real(path, owner, group);
}

int fchmod(int fd, mode_t mode)
{
	int (*real)(int, mode_t) = dlsym(RTLD_NEXT, "fchmod");

	held("chmod");
	return real(fd, mode);
}

/* A look at a name itself, which a store begins with. */
int statx(int folder, const char *path, int flags, unsigned mask, struct statx *found)
{
	int (*real)(int, const char *, int, unsigned, struct statx *) = dlsym(RTLD_NEXT, "statx");

	if (flags & AT_SYMLINK_NOFOLLOW)
		held("lstat");
	return real(folder, path, flags, mask, found);
}
