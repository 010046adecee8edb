@@
declarer d;
@@
- f(d);
