// Makes the k-th allocation fail (FAIL_ALLOC=k), or the k-th call that touches files and streams (FAIL_IO=k), counted from 0, in a program that it is
// preloaded into; FAIL_TOLD names a file that gets both numbers of calls at the end. bench/failing.py builds and uses it.
#define _GNU_SOURCE
#include <dlfcn.h>
#include <errno.h>
#include <stdarg.h>
#include <stdlib.h>
#include <stdio.h>
#include <string.h>
#include <unistd.h>
#include <fcntl.h>
#include <sys/stat.h>
#include <sys/syscall.h>
static long kal = -2, kio = -2, nal, nio;
static void init(void) {
    if (kal != -2) return;
    const char *a = getenv("FAIL_ALLOC"), *i = getenv("FAIL_IO");
    kal = a ? atol(a) : -1; kio = i ? atol(i) : -1;
}
// Threads count in turn.
static int al(void) { init(); return __atomic_fetch_add(&nal, 1, __ATOMIC_SEQ_CST) == kal; }
static int io(void) { init(); return __atomic_fetch_add(&nio, 1, __ATOMIC_SEQ_CST) == kio; }
extern void *__libc_malloc(size_t); extern void *__libc_realloc(void*, size_t); extern void *__libc_calloc(size_t,size_t); extern void *__libc_memalign(size_t,size_t);
void *malloc(size_t n) { if (al()) { errno = ENOMEM; return 0; } return __libc_malloc(n); }
void *realloc(void *p, size_t n) { if (al()) { errno = ENOMEM; return 0; } return __libc_realloc(p, n); }
void *calloc(size_t a, size_t b) { if (al()) { errno = ENOMEM; return 0; } return __libc_calloc(a, b); }
int posix_memalign(void **p, size_t a, size_t n) { if (al()) return ENOMEM; *p = __libc_memalign(a, n); return *p ? 0 : ENOMEM; }
void *aligned_alloc(size_t a, size_t n) { if (al()) { errno = ENOMEM; return 0; } return __libc_memalign(a, n); }
#define REAL(name) static __typeof__(&name) real; if (!real) real = (__typeof__(&name)) dlsym(RTLD_NEXT, #name)
int open(const char *p, int f, ...) { va_list v; va_start(v, f); mode_t m = va_arg(v, int); va_end(v); REAL(open); if (io()) { errno = EIO; return -1; } return real(p, f, m); }
int open64(const char *p, int f, ...) { va_list v; va_start(v, f); mode_t m = va_arg(v, int); va_end(v); REAL(open64); if (io()) { errno = EIO; return -1; } return real(p, f, m); }
ssize_t read(int d, void *b, size_t n) { REAL(read); if (io()) { errno = EIO; return -1; } return real(d, b, n); }
ssize_t write(int d, const void *b, size_t n) { REAL(write); if (io()) { errno = EIO; return -1; } return real(d, b, n); }
int rename(const char *a, const char *b) { REAL(rename); if (io()) { errno = EIO; return -1; } return real(a, b); }
int unlink(const char *a) { REAL(unlink); if (io()) { errno = EIO; return -1; } return real(a); }
int fsync(int d) { REAL(fsync); if (io()) { errno = EIO; return -1; } return real(d); }
int ftruncate(int d, off_t n) { REAL(ftruncate); if (io()) { errno = EIO; return -1; } return real(d, n); }
int fchmod(int d, mode_t m) { REAL(fchmod); if (io()) { errno = EIO; return -1; } return real(d, m); }
int chmod(const char *d, mode_t m) { REAL(chmod); if (io()) { errno = EIO; return -1; } return real(d, m); }
int close(int d) { REAL(close); if (io()) { int r = real(d); (void) r; errno = EIO; return -1; } return real(d); }
static void tell(void) {
    const char *t = getenv("FAIL_TOLD"); if (!t) return; long a = nal, i = nio; kal = kio = -1;
    char line[64]; int n = snprintf(line, sizeof line, "%ld %ld\n", a, i);
    REAL(open); int d = real(t, O_WRONLY|O_CREAT|O_TRUNC, 0600); if (d >= 0) { if (write(d, line, n)) {} }
}
__attribute__((destructor)) static void end(void) { tell(); }
// A program with threads ends by this call, after which no destructor runs.
void _exit(int status) { tell(); syscall(SYS_exit_group, status); __builtin_unreachable(); }
int fdatasync(int d) { REAL(fdatasync); if (io()) { errno = EIO; return -1; } return real(d); }
int lchown(const char *p, uid_t u, gid_t g) { REAL(lchown); if (io()) { errno = EIO; return -1; } return real(p, u, g); }
ssize_t readlink(const char *p, char *b, size_t n) { REAL(readlink); if (io()) { errno = EIO; return -1; } return real(p, b, n); }
int statx(int d, const char *p, int f, unsigned m, struct statx *s) { REAL(statx); if (io()) { errno = EIO; return -1; } return real(d, p, f, m, s); }
