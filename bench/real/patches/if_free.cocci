// After scripts/coccinelle/free/ifnullfree: the calls take NULL.
@@
expression x;
@@
- if (x)
(
  kfree(x);
|
  vfree(x);
|
  kvfree(x);
|
  debugfs_remove(x);
|
  debugfs_remove_recursive(x);
|
  usb_free_urb(x);
|
  mempool_destroy(x);
|
  kmem_cache_destroy(x);
|
  dma_pool_destroy(x);
|
  dev_kfree_skb(x);
|
  kfree_skb(x);
|
  clk_put(x);
)
