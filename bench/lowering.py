#!/usr/bin/env python3
"""Processor time and peak memory of lowering large sources: python3 bench/lowering.py [PROGRAM]

PROGRAM is that of crates/ccomp_main, which `rt run` in its folder builds where none is given. A row is printed for each kind of
source and each of its sizes, the largest of some 1 MiB: what `pack` takes, reading and printing included. It ends with status 1
where a doubling costs more than 2.3 times, a row takes more than 2 seconds or 300 MB, or what is said is not what the row wants.
A program that would take more than 4 GiB is told that there is no more.
"""
import os
import resource
import subprocess
import sys
import tempfile

TOP = os.path.dirname(os.path.dirname(os.path.abspath(__file__)))
MOST_RATIO, MOST_SECONDS, MOST_BYTES = 2.3, 2.0, 300 << 20
ALL_BYTES = 4 << 30
# what is too short to be measured against a doubling, in seconds
SHORT = 0.05
FRONT = "extern volatile unsigned char in, out; unsigned char a, b, t[8]; int f(int x) { return x; } "


def straight(n):
    return FRONT + "int main(void) { " + "t[a++ & 7] = b + in; " * n + "return 0; }"


def high(n):
    """Expressions that are 120 high, to the left and to the right."""
    one = "a = " + "+".join(["b"] * 60) + " + " + "(b ^ " * 50 + "in" + ")" * 50 + "; "
    return FRONT + "int main(void) { " + one * n + "return 0; }"


def huge(n):
    """One expression, some 125 high, of as many parts as stand in it."""
    inner = "(" + "+".join(["t[(a ^ b) & 7]"] * 39) + ")"
    middle = "(" + "+".join([inner] * 39) + ")"
    return FRONT + "int main(void) { a = " + "+".join([middle] * n) + "; return 0; }"


def branches(n):
    return FRONT + "int main(void) { int i; i = 0; " + "i = a && in || b ? i++ : f(i) + (i = 2); if (a && in) b = 1; " * n + "return i; }"


def functions(n):
    return FRONT + "".join(f"int f{i}(int x) {{ while (x-- && in) {{ if (a) continue; t[x] += b; }} return f(x) + a; }} " for i in range(n)) + "int main(void) { return 0; }"


def continues(n):
    return FRONT + "int main(void) { for (a = 0; a < 9; a += b) { " + "if(in)continue;" * n + "} return 0; }"


def steps(n):
    """A `for` with a step of 700 bytes in front of each `continue`: what is printed would be above its limit."""
    return FRONT + "int main(void) { for (a = 0; a < 9; " + ", ".join(["a += b"] * 100) + ") { " + "if(in)continue;" * n + "} return 0; }"


def locals_of(n):
    return FRONT + "int main(void) { " + "".join(f"int i{i}; " for i in range(n)) + "".join(f"i{i} = b; " for i in range(n)) + "return 0; }"


def cases(n):
    return FRONT + "int main(void) { switch (f(in)) { " + "".join(f"case {i}: a = b; break; " for i in range(n)) + "} return 0; }"


def arguments(n):
    """Calls with many arguments, each of which assigns a register."""
    count = 100
    params = ", ".join(["int"] * count)
    return FRONT + f"int g({', '.join(f'int x{i}' for i in range(count))}) {{ return x0; }} int main(void) {{ int i; i = 0; " + f"i = g({', '.join(['i = i + a'] * count)}); " * n + "return i; }"


ROWS = ((straight, 48000), (high, 2400), (huge, 40), (branches, 15000), (functions, 4094), (continues, 60000), (steps, 60000),
        (locals_of, 40000), (cases, 30000), (arguments, 900))
# what is said where it is not nothing, but for the number behind it
SAID = {steps: "ccomp: limit out"}


def program():
    if len(sys.argv) > 1:
        return os.path.abspath(sys.argv[1])
    crate = os.path.join(TOP, "crates", "ccomp_main")
    subprocess.run(["rt", "run"], cwd=crate, check=True, stdout=subprocess.DEVNULL)
    return os.path.join(crate, "out", "ccomp_main")


def measured(name, source):
    with open("s.c", "w") as file:
        file.write(source)
    before = resource.getrusage(resource.RUSAGE_CHILDREN).ru_utime
    limit = lambda: resource.setrlimit(resource.RLIMIT_AS, (ALL_BYTES, ALL_BYTES))
    ended = subprocess.run(["/usr/bin/time", "-f", "%M", name, "pack", "-", "o.c", "-", "-", "s.c"], capture_output=True, text=True, preexec_fn=limit)
    seconds = resource.getrusage(resource.RUSAGE_CHILDREN).ru_utime - before
    return seconds, int(ended.stderr.split()[-1]) << 10, ended.returncode, ended.stderr.split("\n")[0]


def main():
    name, failed = program(), False
    with tempfile.TemporaryDirectory(prefix="ccomp-lowering.") as room:
        os.chdir(room)
        for kind, most in ROWS:
            last = None
            for n in (most // 8, most // 4, most // 2, most):
                source = kind(n)
                seconds, taken, status, said = measured(name, source)
                wanted = SAID.get(kind, "")
                bad = (seconds > MOST_SECONDS or taken > MOST_BYTES or last and last > SHORT and seconds > MOST_RATIO * last
                       or (not said.startswith(wanted) if wanted else status != 0))
                failed |= bool(bad)
                print(f"{kind.__name__:10} {n:6} {len(source):8} bytes {seconds:6.2f} s {taken >> 20:5} MB" + (f"  {said}" if status else "") + "  TOO MUCH" * bool(bad))
                last = seconds
    return failed


if __name__ == "__main__":
    sys.exit(main())
