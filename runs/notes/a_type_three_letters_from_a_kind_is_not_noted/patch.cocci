@@
expresn e;
@@
- f(e);
