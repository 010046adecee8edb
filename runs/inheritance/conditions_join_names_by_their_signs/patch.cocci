virtual v, w

@one depends on v && !w@
@@
- a();

@two depends on w || v@
@@
- b();

@three depends on w && v || v@
@@
- c();

@four depends on !w && w@
@@
- d();

@five depends on never one@
@@
- e();

@six depends on never four && ever one@
@@
- g();
