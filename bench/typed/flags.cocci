// A type of basic words.
@@
expression lock;
unsigned long flags;
@@
- spin_lock_irqsave
+ spin_lock_saving
  (lock, flags)
