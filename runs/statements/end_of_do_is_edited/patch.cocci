@@
expression E;
statement S;
@@
  do S
- while (E);
+ while (!E);
