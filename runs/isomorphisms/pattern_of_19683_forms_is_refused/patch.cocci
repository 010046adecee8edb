@@
expression E1, E2, E3, E4, E5, E6, E7, E8, E9;
@@
* f(E1 == NULL, E2 == NULL, E3 == NULL, E4 == NULL, E5 == NULL, E6 == NULL, E7 == NULL, E8 == NULL, E9 == NULL)
