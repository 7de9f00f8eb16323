void irq_on(void);
extern volatile unsigned char led;
__attribute__((signal)) void __vector_9(void);
int main(void);
unsigned char ticked; static unsigned char lit;
void __vector_9(void) { ticked = 1; }
int main(void)
{
  unsigned char seen;
  unsigned char now;
  lit = 0;
  irq_on();
  while (1) {
    seen = ticked;
    if (seen) {
      ticked = 0;
      now = lit;
      if (now) { lit = 0; } else { lit = 1; }
      now = lit;
      led = now;
    }
  }
}
