extern volatile unsigned char keys;
extern volatile unsigned char shown;
unsigned char events;
__attribute__((signal)) void tick(void) { events = events | 2; }
int main(void)
{
  unsigned char noted;
  irq_on();
  noted = events;
  if (keys) noted = noted | 1;
  events = noted;
  shown = events;
  return 0;
}
