# 0 "fan.c"
# 0 "<built-in>"
# 0 "<command-line>"
# 1 "fan.c"
# 1 "fan.h" 1
# 2 "fan.c" 2

static unsigned char speed;

int main(void)
{
 while (1) {
  if ((*(volatile unsigned char *)0x36) > 90)
   goto stop;
  (*(volatile unsigned char *)0x38) = speed;
 }
stop:
 (*(volatile unsigned char *)0x38) = 0;
 return 0;
}
