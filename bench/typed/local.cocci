// A name that the function itself declares, of a type.
@@
local idexpression struct sk_buff *skb;
@@
- kfree_skb
+ kfree_local_skb
  (skb)
