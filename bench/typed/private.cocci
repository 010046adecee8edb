// A structure's tag: names, calls, casts and fields that are such pointers.
@@
struct net_device *dev;
@@
- netdev_priv
+ netdev_private
  (dev)
