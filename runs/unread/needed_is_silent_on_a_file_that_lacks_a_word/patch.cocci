@@
@@
- put(dev);
+ get(dev);
