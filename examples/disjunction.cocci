@@
expression x;
@@
(
- release_now(x);
+ release(x, NOW);
|
- release_later(x);
+ release(x, LATER);
)
