virtual fix
@r depends on fix@
@@
* a();
