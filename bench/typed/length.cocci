// A field of a pointer to a structure that headers define.
@@
struct sk_buff *skb;
@@
  skb->
- len
+ length
