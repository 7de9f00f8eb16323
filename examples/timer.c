static unsigned char count;
__attribute__((signal)) void __vector_9(void) { count = 1; }
unsigned char ticks(void)
{
  unsigned char flag;
  unsigned char n;
  flag = irq_save();
  n = count;
  count = 0;
  irq_restore(flag);
  return n;
}
