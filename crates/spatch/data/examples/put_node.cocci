@@
@@
- of_node_put(np);
