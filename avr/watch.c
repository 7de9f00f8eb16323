/* Runs a program for a chip in simavr, gives it inputs, and prints what its ports and its serial line showed.
 *
 *   watch MCU HERTZ CYCLES INPUTS PROGRAM
 *
 * INPUTS has lines CYCLE,NAME,VALUE in ascending order of cycles: PB0 and so on set a pin to 0 or 1, UART0 sends a byte
 * to the chip, ADC0 to ADC7 set a pin's voltage in millivolts. Each line that is printed is PORTx,VALUE or UART0,VALUE:
 * a value that was written to it, in hexadecimal. A value that a port has already is not printed again.
 */
#include <simavr/sim_avr.h>
#include <simavr/sim_elf.h>
#include <simavr/avr_adc.h>
#include <simavr/avr_ioport.h>
#include <simavr/avr_uart.h>
#include <stdio.h>
#include <stdlib.h>
#include <string.h>

struct seen {
  char name[8];
  int last;
};

static void no_log(struct avr_t *avr, const int level, const char *format, va_list args)
{
  (void)avr;
  if (level <= LOG_ERROR)
    vfprintf(stderr, format, args);
}

/* The time that the chip sleeps need not pass here. */
static void no_sleep(avr_t *avr, avr_cycle_count_t cycles)
{
  (void)avr;
  (void)cycles;
}

static void on_port(struct avr_irq_t *irq, uint32_t value, void *param)
{
  struct seen *seen = param;
  (void)irq;
  if (seen->last == (int)value)
    return;
  seen->last = value;
  printf("%s,%02x\n", seen->name, (unsigned)value);
}

static void on_byte(struct avr_irq_t *irq, uint32_t value, void *param)
{
  (void)irq;
  (void)param;
  printf("UART0,%02x\n", (unsigned)value & 0xff);
}

static void give(avr_t *avr, const char *name, unsigned value)
{
  avr_irq_t *irq = NULL;
  if (name[0] == 'P' && name[1] && name[2] >= '0' && name[2] <= '7')
    irq = avr_io_getirq(avr, AVR_IOCTL_IOPORT_GETIRQ(name[1]), name[2] - '0');
  else if (!strcmp(name, "UART0"))
    irq = avr_io_getirq(avr, AVR_IOCTL_UART_GETIRQ('0'), UART_IRQ_INPUT);
  else if (!strncmp(name, "ADC", 3) && name[3] >= '0' && name[3] <= '7')
    irq = avr_io_getirq(avr, AVR_IOCTL_ADC_GETIRQ, ADC_IRQ_ADC0 + (name[3] - '0'));
  if (!irq) {
    fprintf(stderr, "watch: the chip has no %s\n", name);
    exit(2);
  }
  avr_raise_irq(irq, value);
}

int main(int count, char **words)
{
  static struct seen ports[12];
  if (count != 6) {
    fputs("usage: watch MCU HERTZ CYCLES INPUTS PROGRAM\n", stderr);
    return 2;
  }
  elf_firmware_t firmware = { 0 };
  avr_global_logger_set(no_log);
  avr_t *avr = avr_make_mcu_by_name(words[1]);
  if (!avr || avr_init(avr) || elf_read_firmware(words[5], &firmware)) {
    fprintf(stderr, "watch: simavr has no %s, or %s is no program\n", words[1], words[5]);
    return 2;
  }
  firmware.frequency = strtoul(words[2], NULL, 10);
  avr_load_firmware(avr, &firmware);
  avr->sleep = no_sleep;
  for (int i = 0; i < 12; i++) {
    avr_irq_t *irq = avr_io_getirq(avr, AVR_IOCTL_IOPORT_GETIRQ('A' + i), IOPORT_IRQ_REG_PORT);
    snprintf(ports[i].name, sizeof ports[i].name, "PORT%c", 'A' + i);
    if (irq)
      avr_irq_register_notify(irq, on_port, &ports[i]);
  }
  avr_irq_t *line = avr_io_getirq(avr, AVR_IOCTL_UART_GETIRQ('0'), UART_IRQ_OUTPUT);
  uint32_t flags = 0;
  if (line) {
    avr_irq_register_notify(line, on_byte, NULL);
    avr_ioctl(avr, AVR_IOCTL_UART_GET_FLAGS('0'), &flags);
    flags &= ~AVR_UART_FLAG_STDIO;
    avr_ioctl(avr, AVR_IOCTL_UART_SET_FLAGS('0'), &flags);
  }
  FILE *inputs = fopen(words[4], "r");
  if (!inputs) {
    fprintf(stderr, "watch: cannot read %s\n", words[4]);
    return 2;
  }
  unsigned long long last = strtoull(words[3], NULL, 10), at = 0;
  char name[16];
  unsigned value = 0;
  int more = fscanf(inputs, "%llu,%15[^,],%u", &at, name, &value) == 3;
  while (avr->cycle < last) {
    while (more && avr->cycle >= at) {
      give(avr, name, value);
      more = fscanf(inputs, "%llu,%15[^,],%u", &at, name, &value) == 3;
    }
    int state = avr_run(avr);
    if (state == cpu_Done || state == cpu_Crashed)
      break;
  }
  fclose(inputs);
  return 0;
}
