#include <avr/interrupt.h>
static volatile unsigned char ticks;
ISR(TIMER0_OVF_vect, ISR_NOBLOCK) { ticks++; }
int main(void) { sei(); while (1) { } }
