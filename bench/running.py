#!/usr/bin/env python3
"""Processor time and peak memory of runs with handlers every 50 turns: python3 bench/running.py [PROGRAM]

PROGRAM is that of crates/ccomp_main, which `./ccomp` at the top builds where none is given. A row is printed for each number of
steps. It ends with status 1 where the largest, 1,000,000 steps, takes 3 seconds or longer, or a doubling more than 2.3 times.
"""
import os
import resource
import subprocess
import sys
import tempfile

TOP = os.path.dirname(os.path.dirname(os.path.abspath(__file__)))
MOST_SECONDS, MOST_RATIO = 3.0, 2.3
# what is too short to be measured against a doubling, in seconds
SHORT = 0.05

# a timer that counts, a key that is debounced, a ring of samples and a state machine, as firmware has them
SOURCE = """
extern volatile unsigned char key;
extern volatile unsigned char adc;
extern volatile unsigned char lamp;
enum { IDLE, PRESSED, HELD };
struct sample { unsigned char value; unsigned char age; };
static struct sample ring[8];
static unsigned char head;
static volatile unsigned char ticks;
static unsigned char state;
static void (*task)(void);
static void sample(void);
static void blink(void);
__attribute__((signal)) void tick(void) { if (ticks < 200) ticks++; else ticks = 0; }
static void sample(void)
{
  ring[head].value = adc;
  ring[head].age = 0;
  head = (head + 1) & 7;
  task = blink;
}
static void blink(void)
{
  unsigned char i;
  unsigned sum = 0;
  for (i = 0; i < 8; i++) { sum += ring[i].value; ring[i].age++; }
  lamp = sum >> 3;
  task = sample;
}
int main(void)
{
  task = sample;
  irq_on();
  while (1) {
    unsigned char s = irq_save();
    unsigned char due = ticks;
    ticks = 0;
    irq_restore(s);
    switch (state) {
    case IDLE: if (key) state = PRESSED; break;
    case PRESSED: state = key ? HELD : IDLE; break;
    default: if (!key) state = IDLE; break;
    }
    if (due) task();
  }
}
"""


def measure(program, folder, steps):
    """Seconds and bytes of a run."""
    with open(os.path.join(folder, "arrivals"), "w") as file:
        file.write("".join(f"{turn},tick\n" for turn in range(50, steps, 50)))
    before = resource.getrusage(resource.RUSAGE_CHILDREN)
    with open(os.path.join(folder, "trace"), "w") as trace:
        subprocess.run([program, "run", "-", "inputs", "arrivals", str(steps), "s.c"], cwd=folder, stdout=trace, check=True)
    after = resource.getrusage(resource.RUSAGE_CHILDREN)
    with open(os.path.join(folder, "trace")) as trace:
        lines = trace.read().splitlines()
    if lines[-1] != "end,going," or sum(line == "enter,tick," for line in lines) < steps // 100:
        sys.exit(f"the run of {steps} steps ended with {lines[-1]}")
    return after.ru_utime + after.ru_stime - before.ru_utime - before.ru_stime, after.ru_maxrss * 1024


def main():
    program = os.path.abspath(sys.argv[1]) if sys.argv[1:] else os.path.join(TOP, "crates", "ccomp_main", "out", "ccomp_main")
    bad, before = False, None
    with tempfile.TemporaryDirectory() as folder:
        with open(os.path.join(folder, "s.c"), "w") as file:
            file.write(SOURCE)
        with open(os.path.join(folder, "inputs"), "w") as file:
            file.write("".join(f"{n % 7 % 2 + n % 3}\n" for n in range(300000)))
        for steps in (125000, 250000, 500000, 1000000):
            seconds, peak = measure(program, folder, steps)
            ratio = seconds / before if before and before > SHORT else None
            print(f"{steps:8} steps {seconds:7.2f} s {peak >> 20:6} MB" + (f"  {ratio:.2f} times" if ratio else ""))
            bad = bad or ratio is not None and ratio > MOST_RATIO
            before = seconds
    return bad or before >= MOST_SECONDS


if __name__ == "__main__":
    sys.exit(main())
