@@
statement S;
@@
+ enter();
  S
