@@
expresion e, g;
@@
- f(e);
