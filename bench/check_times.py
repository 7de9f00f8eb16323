#!/usr/bin/env python3
"""check_times.py CRATE [LINES]: what each function costs a check of the crate from nothing, in processor seconds.

The libraries below the crate have to be built (`rt check CRATE` builds them). The check runs alone at one job into an
empty folder, and writes a file for each module that it has checked; the time between two files is that of the later
one. Beside the sum of a function stand its parts: Lts is what the front end made of its body, Proof the obligations of
its contract, Tie what joins the two; a line without parts is a module of definitions or of lemmas.
"""
import bisect
import collections
import os
import pathlib
import re
import resource
import subprocess
import sys
import tempfile
import threading
import time

TOP = pathlib.Path(__file__).resolve().parent.parent
KIT = pathlib.Path(os.environ.get("RATTLE_KIT", "/opt/rattle"))
PARTS = ("Lts", "Proof", "Tie", "Code", "Kinds", "Statement", "Met", "Goals", "View", "Mir")
TICK = os.sysconf("SC_CLK_TCK")


def libraries():
    """The libraries that each crate names, by crates.txt."""
    lines = (line.split("#")[0] for line in (TOP / "crates.txt").read_text().splitlines())
    pairs = (line.split(":", 1) for line in lines if ":" in line)
    return {name.strip(): names.split() for name, names in pairs}


def below(crate, named, seen):
    """The libraries below a crate, the lowest first."""
    for name in named.get(crate, []):
        if name not in seen:
            below(name, named, seen)
            seen.append(name)
    return seen


def command(crate, folder):
    """The check of a crate into a folder."""
    named = libraries()
    root = "src/main.rt" if (TOP / "crates" / crate / "src/main.rt").exists() else "src/lib.rt"
    words = [KIT / "bin/rattle", "check", "--crate-name", crate, root, "--extern", f"std={KIT}/rlibs/std.rlib", "-L", f"dependency={KIT}/rlibs"]
    for name in below(crate, named, []):
        rlib = f"{TOP}/crates/{name}/out/rlib/{name}.rlib" if name in named else f"{KIT}/rlibs/{name}.rlib"
        if name in named[crate] or root.endswith("main.rt"):
            words += ["--extern", f"{name}={rlib}"]
        words += ["-L", f"dependency={os.path.dirname(rlib)}"]
    words += ["--antt-project", KIT / "rattle/logic/antt-project.json", "--logic-built", KIT / "logic_built"]
    return words + ["--jobs", "1", "--incremental", folder]


def clock(process, times):
    """Notes the processor time of a process beside that of the clock, until it ends."""
    while process.poll() is None:
        try:
            words = pathlib.Path(f"/proc/{process.pid}/stat").read_text().rsplit(")", 1)[1].split()
            times.append((time.time(), (int(words[11]) + int(words[12])) / TICK))
        except OSError:
            return
        time.sleep(0.2)


def modules(folder, times):
    """The modules that were checked, each with the processor time at its end."""
    clocks = [at for at, _ in times]
    for file in pathlib.Path(folder).rglob("*.oantt"):
        at = bisect.bisect_left(clocks, file.stat().st_mtime)
        if 0 < at < len(times):
            (early, low), (late, high) = times[at - 1 : at + 1]
            yield low + (high - low) * (file.stat().st_mtime - early) / (late - early), file.stem


def costs(crate, folder, times):
    """What each function costs, by its parts."""
    table, before = collections.defaultdict(collections.Counter), None
    for end, module in sorted(modules(folder, times)):
        path = re.sub(rf"^Rattle-{crate}-?", "", module.removesuffix(".decls")).split(".")
        at = next((k for k, word in enumerate(path) if word in PARTS), len(path))
        table[".".join(path[:at])][path[at] if at < len(path) else ""] += end - (end if before is None else before)
        before = end
    return table


def main():
    crate, lines = sys.argv[1], int(sys.argv[2]) if len(sys.argv) > 2 else 25
    times = []
    with tempfile.TemporaryDirectory() as folder, tempfile.TemporaryFile("w+") as told:
        process = subprocess.Popen(command(crate, folder), cwd=TOP / "crates" / crate, stdout=told, stderr=told)
        watch = threading.Thread(target=clock, args=(process, times))
        watch.start()
        status = process.wait()
        watch.join()
        table = costs(crate, folder, times)
        told.seek(0)
        print(told.read().splitlines()[-1])
    used = resource.getrusage(resource.RUSAGE_CHILDREN)
    print(f"{crate}: {used.ru_utime + used.ru_stime:.1f} processor seconds, {used.ru_maxrss >> 10} MB")
    for name, parts in sorted(table.items(), key=lambda it: -it[1].total())[:lines]:
        shown = "  ".join(f"{part} {cost:.1f}" for part, cost in parts.most_common() if part and cost >= 0.1)
        print(f"{parts.total():7.1f}  {name or '(the root)'}  {shown}")
    return status


if __name__ == "__main__":
    sys.exit(main())
