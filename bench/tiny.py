#!/usr/bin/env python3
"""Time and peak memory of `ccomp pack` on sources from 64 KiB to 1 MiB.

It builds the program once through ./ccomp and prints a row a source. It ends with status 1 where a
doubling costs more than 2.3 times, or memory more than 300 bytes for each byte of a source in normal form, or
more than 1,000 for each byte of ordinary C, which is not in normal form.
"""
import os
import subprocess
import sys
import tempfile
import time

TOP = os.path.dirname(os.path.dirname(os.path.abspath(__file__)))
MOST_RATIO = 2.3
DONE, LATER = 0, 13
# what is too short to be measured against a doubling, in seconds
SHORT = 0.01


def statements(size):
    """One list of statements."""
    front = "extern volatile unsigned char in;\nint main(void) {\n  unsigned char t;\n"
    line = "t=in;\n"
    return front + line * ((size - len(front) - 3) // len(line)) + "}\n"


def names(size):
    """Many objects, each used once."""
    lines, used, length = [], [], 60
    while True:
        line = f"unsigned char object{len(lines)};\n"
        use = f"  object{len(lines)} = t;\n"
        length += len(line) + len(use)
        if length > size:
            break
        lines.append(line)
        used.append(use)
    return "".join(lines) + "int main(void) {\n  unsigned char t;\n" + "".join(used) + "}\n"


def functions(size):
    """Functions, at most 4,096, each with nested blocks."""
    parts, length = [], 40
    while True:
        part = (
            f"__attribute__((signal)) void handler{len(parts)}(void) {{\n  unsigned char t;\n"
            + "  while (1) { t = 1; if (t) { while (1) { break; } } else { irq_on(); } }\n" * 3 + "}\n"
        )
        length += len(part)
        if length > size:
            return "".join(parts) + "int main(void) { }\n"
        parts.append(part)


def ordinary(size):
    """Functions of ordinary C, behind linemarkers."""
    front = (
        "typedef unsigned char uint8_t;\ntypedef unsigned short uint16_t;\n"
        "void log_text(const char *text, unsigned value) { }\n"
    )
    parts, length = [front], len(front) + 30
    while True:
        part = (
            f"# {len(parts) + 1} \"part.c\"\n/* sums up a buffer */\n"
            f"static uint16_t sum{len(parts)}(const uint8_t *from, uint8_t count)\n{{\n"
            "  uint16_t sum = 0x1021u;\n  for (uint8_t i = 0; i < count; i++) {\n"
            "    sum = (sum << 1) ^ from[i]; // one byte\n"
            "    if (sum >= 0x8000UL && from[i] != '\\n') { log_text(\"high\\t%u\", sum); }\n  }\n"
            "  return sum;\n}\n"
        )
        length += len(part)
        if length > size:
            return "".join(parts) + "int main(void) { return 0; }\n"
        parts.append(part)


# how a source is made, how the run ends, and the most bytes of memory for a byte of source
KINDS = (
    (statements, DONE, 300),
    (names, DONE, 300),
    (functions, DONE, 300),
    (ordinary, LATER, 1000),
)


def measured(folder, source, expected):
    """The least time of nine runs in seconds, and the peak memory in bytes."""
    with open(os.path.join(folder, "s.c"), "w") as file:
        file.write(source)
    best, peak = None, 0
    for _ in range(9):
        begun = time.monotonic()
        words = [os.path.join(TOP, "ccomp"), "pack", "-", "o.c", "-", "-", "s.c"]
        child = subprocess.Popen(words, cwd=folder, stderr=subprocess.DEVNULL)
        _, status, usage = os.wait4(child.pid, 0)
        took = time.monotonic() - begun
        if os.waitstatus_to_exitcode(status) != expected:
            sys.exit(f"the program ended with {os.waitstatus_to_exitcode(status)}")
        best = took if best is None else min(best, took)
        peak = max(peak, usage.ru_maxrss * 1024)
    return best, peak


def main():
    failed = False
    with tempfile.TemporaryDirectory() as folder:
        measured(folder, "int main(void) { }\n", DONE)
        idle, ground = measured(folder, "int main(void) { }\n", DONE)
        print(f"nothing: {idle:.3f} s, {ground >> 10} KiB")
        for made, expected, most_bytes in KINDS:
            before = None
            for shift in range(16, 21):
                source = made(1 << shift)
                total, peak = measured(folder, source, expected)
                took = max(total - idle, SHORT)
                each = max(peak - ground, 0) / len(source)
                ratio = took / before if before else 0
                before = took
                print(
                    f"{made.__name__} {len(source)}: {total:.3f} s, x{ratio:.2f}, "
                    f"{peak >> 10} KiB, {each:.0f} bytes a byte"
                )
                failed = failed or ratio > MOST_RATIO or each > most_bytes
    sys.exit(1 if failed else 0)


if __name__ == "__main__":
    main()
