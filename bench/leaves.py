#!/usr/bin/env python3
"""Time of calls that no command makes yet, by the programs of cases.

It builds each program by `rt run` in its crate's folder, which proves it, and prints a row a case: the processor time of the
program, its start and the making of what it works on included. It ends with status 1 where a case takes a second,
two seconds for a million turns of a run, three where handlers enter, or a fifth of one for calls of a domain that are worked many times: 200
microseconds for an operator of two sets of 64 members, 4 for one of 8, and 2 for a join.
"""
import os
import resource
import subprocess
import sys

TOP = os.path.dirname(os.path.dirname(os.path.abspath(__file__)))
MOST = 1.0
MOST_OF_TURNS = 2.0
MOST_OF_ENTRIES = 3.0
MOST_OF_CALLS = 0.2

# a loop over ten statements: scalars, elements, `if`, `?:`, postfix and compound assignment, and an empty statement
LOOP = (
    "small uchar object:n uchar array:4 object:a uchar name:i local:0 0:uchar assign do 1:int {"
    " static:0 local:0 load assign do local:0 static:0 load conv:int 1:int add:int conv:uchar assign do"
    " static:1 local:0 load conv:int 3:int and:int element static:0 load assign do"
    " local:0 load conv:int 7:int eq:int { static:0 2:uchar assign do } { static:0 3:uchar assign do } if local:0 after:up do"
    " static:0 local:0 load conv:int change:add:int do static:1 0:int element static:1 1:int element load assign do empty"
    " local:0 static:0 load conv:int 3:int gt:int 1:int 2:int choose conv:uchar assign do"
    " static:0 static:1 local:0 load element load assign do } while int fun:main:0"
)

# the same with a handler that arrives every 50 turns
HANDLED = LOOP.replace("object:a uchar name:i", "object:a static:0 after:up do signal void fun:tick:0 uchar name:i on do")
ARRIVALS = " ".join(f"{turn},tick" for turn in range(50, 1000001, 50))

# the program, the setting, the case, and what its answer begins with
ROWS = (
    ("cases_leaves", "many", "65536 8 8", "65536 words, 65536 fields"),
    ("cases_leaves", "many", "65536 5 3", "32768 words, 65536 fields"),
    ("cases_leaves", "many", "65536 5 4", "49152 words, 65536 fields"),
    ("cases_leaves", "many", "65536 1 1", "8192 words, 65536 fields"),
    ("cases_leaves", "many", "65536 9 7", "32768 words, 65536 fields"),
    ("cases_leaves", "many", "65536 16 1", "4096 words, 32768 fields"),
    ("cases_leaves", "nests", "65535 1", "65536 points"),
    ("cases_leaves", "nests", "65535 128", "65536 points"),
    ("cases_domains", "often 1000", "Add 0..63 0..63 ULongLong", "58000"),
    ("cases_domains", "often 1000", "Rem 0..63 0..63 ULongLong", "60000"),
    ("cases_domains", "often 1000", "And 0..63 0..63 ULongLong", "59000"),
    ("cases_domains", "often 1000", "Xor 0..63 0..63 ULongLong", "59000"),
    ("cases_domains", "often 1000", "Rem -32..31 -32..31 LongLong", "60000"),
    ("cases_domains", "often 1000", "And -32..31 -32..31 LongLong", "59000"),
    ("cases_domains", "often 1000", "Mul -32..31 -32..31 LongLong", "53000"),
    ("cases_domains", "often 1000", "Div -32..31 -32..31 LongLong", "58000"),
    ("cases_domains", "often 50000", "Rem 0..7 0..7 ULongLong", "5800000"),
    ("cases_domains", "often 50000", "Xor 0..7 0..7 ULongLong", "5750000"),
    ("cases_domains", "often 100000", "join 0..31 32..63", "5900000"),
    ("cases_meaning", "trace", f"{LOOP} | | | 1000000", "end,going,"),
    ("cases_meaning", "trace", f"{HANDLED} | | {ARRIVALS} | 1000000", "enter,tick, enter,tick,"),
)


def built(crate):
    """The program of a crate."""
    folder = os.path.join(TOP, "crates", crate)
    if subprocess.run(["rt", "run"], cwd=folder, stdin=subprocess.DEVNULL, capture_output=True).returncode:
        sys.exit(f"{crate} was not built")
    return os.path.join(folder, "out", crate)


def spent():
    """The processor time of all programs that have ended."""
    usage = resource.getrusage(resource.RUSAGE_CHILDREN)
    return usage.ru_utime + usage.ru_stime


def measured(program, setting, case, wanted):
    """The least processor time of nine runs in seconds."""
    script = f"== a case\n$ {setting}\n{case}\n"
    best = None
    for _ in range(9):
        begun = spent()
        run = subprocess.run([program], input=script, text=True, capture_output=True)
        took = spent() - begun
        if run.returncode or f"{case} => {wanted}" not in run.stdout:
            sys.exit(f"{case}: the program ended with {run.returncode} and wrote {run.stdout[:300]}")
        best = took if best is None else min(best, took)
    return best


def most_of(setting, wanted):
    """The seconds that a case may take."""
    if wanted.startswith("enter"):
        return MOST_OF_ENTRIES
    if setting.startswith("often"):
        return MOST_OF_CALLS
    return MOST_OF_TURNS if setting == "trace" else MOST


def main():
    programs = {crate: built(crate) for crate in sorted({row[0] for row in ROWS})}
    failed = False
    for crate, setting, case, wanted in ROWS:
        took = measured(programs[crate], setting, case, wanted)
        print(f"{crate}, {setting} {case if len(case) < 40 else case[-20:]}: {took:.3f} s")
        failed = failed or took >= most_of(setting, wanted)
    sys.exit(1 if failed else 0)


if __name__ == "__main__":
    main()
