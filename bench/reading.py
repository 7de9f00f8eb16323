#!/usr/bin/env python3
"""Processor time and peak memory of reading 64 sources whose names clash: python3 bench/reading.py [PROGRAM]

PROGRAM is that of crates/cases_read, which `rt run` in its folder builds where none is given. A row is printed for each number
of functions; the largest has 4,096 of them and 10,000 objects. It ends with status 1 where a doubling costs more than 2.3 times.
"""
import os
import subprocess
import sys
import tempfile

TOP = os.path.dirname(os.path.dirname(os.path.abspath(__file__)))
SOURCES = 64
MOST_RATIO = 2.3
# what is too short to be measured against a doubling, in seconds
SHORT = 0.02


def statics(source, count):
    """The same static names in each source."""
    objects = "".join(f"static unsigned char n{i}; " for i in range(count * 5 // 2))
    return objects + "".join(
        f"static unsigned char f{i}(unsigned char n{i}) {{ {f'n{i + 1} = n{i + 1} + n{i}; ' * 40}return n{i + 1}; }} "
        for i in range(count))


def one_name(source, count):
    """One name of static locals in each function."""
    return "".join(f"unsigned char g{source}_{i}(unsigned char m) {{ static unsigned char n; n = n + m; return n; }} "
                   for i in range(count))


def externals(source, count):
    """Names that are defined here, used in the next source and declared in both."""
    before = (source - 1) % SOURCES
    declared = "".join(f"extern unsigned char x{before}_{i}; unsigned char g{before}_{i}(void); " for i in range(count))
    return declared + "".join(
        f"unsigned char x{source}_{i}; unsigned char g{source}_{i}(void) {{ return x{before}_{i}; }} " for i in range(count))


def structures(source, count):
    """Structures of one tag, with equal members in each source but for every fourth."""
    return "".join(f"struct s{i} {{ struct s{i} *next; unsigned char a{source if i % 4 == 0 else 0}; }}; "
                   f"static struct s{i} x{i}; " for i in range(count))


def case(made, count):
    sources = [made(i, count) for i in range(SOURCES)]
    sources[0] += "int main(void) { return 0; }"
    return " <> ".join(sources)


def measured(program, text):
    """The least processor time of five runs in seconds, and the peak memory in bytes, but at least that of this script."""
    best, peak = None, 0
    with tempfile.TemporaryFile("w+") as script:
        script.write(text + "\n")
        for _ in range(5):
            script.seek(0)
            child = subprocess.Popen([program], stdin=script, stdout=subprocess.PIPE)
            written = child.stdout.read()
            _, status, usage = os.wait4(child.pid, 0)
            took = usage.ru_utime + usage.ru_stime
            if os.waitstatus_to_exitcode(status) or b" | F: " not in written and b"F: main" not in written:
                sys.exit(f"the program ended with {os.waitstatus_to_exitcode(status)}: {written[-300:]}")
            best = took if best is None else min(best, took)
            peak = max(peak, usage.ru_maxrss * 1024)
    return best, peak


def program():
    if sys.argv[1:]:
        return sys.argv[1]
    folder = os.path.join(TOP, "crates", "cases_read")
    if subprocess.run(["rt", "run"], cwd=folder, stdin=subprocess.DEVNULL, capture_output=True).returncode:
        sys.exit("cases_read was not built")
    return os.path.join(folder, "out", "cases_read")


def main():
    failed, run = False, program()
    idle, ground = measured(run, "int main(void) { return 0; }")
    print(f"nothing: {idle:.3f} s, {ground >> 10} KiB")
    for made in (statics, one_name, externals, structures):
        before = None
        for count in (8, 16, 32, 64):
            text = case(made, count)
            total, peak = measured(run, text)
            took = max(total - idle, SHORT)
            ratio = took / before if before else 0
            before = took
            print(f"{made.__name__} {SOURCES} x {len(text) // SOURCES}: {total:.3f} s, x{ratio:.2f}, {peak >> 10} KiB, "
                  f"{(peak - ground) // len(text)} bytes a byte")
            failed = failed or ratio > MOST_RATIO
    sys.exit(1 if failed else 0)


if __name__ == "__main__":
    main()
