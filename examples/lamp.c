extern volatile unsigned char led;
unsigned char ticks(void);
static unsigned char lit;
int main(void)
{
  unsigned char seen;
  unsigned char now;
  irq_on();
  while (1) {
    seen = ticks();
    if (seen) {
      now = lit;
      lit = !now;
      led = now;
    }
  }
}
