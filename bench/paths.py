#!/usr/bin/env python3
"""paths.py: how many paths lead through crates.txt, and what makes them many.

`rt` takes a sum of all files below a library once for each path that leads to them, so the gate pays for each path. Prints their
number, the crates with the most below them, and the libraries that a crate lists though one that it lists too passes them on."""
import functools
import pathlib
import re

TOP = pathlib.Path(__file__).resolve().parent.parent


def listed():
    """The crates that each crate lists, without the kit's libraries."""
    lines = (line.split("#")[0] for line in (TOP / "crates.txt").read_text().splitlines())
    pairs = [line.split(":", 1) for line in lines if ":" in line]
    names = {name.strip() for name, _ in pairs}
    return {name.strip(): [it for it in deps.split() if it in names] for name, deps in pairs}


def passed_on(crate):
    """The crates of which a crate passes something on."""
    text = (TOP / "crates" / crate / "src" / "lib.rt").read_text()
    found = re.findall(r"^pub use (\w+) as \w+;", text, re.M)
    files = (path for part in ("specs", "proofs") for path in (TOP / "crates" / crate / part).glob("Cc*.antt"))
    return {*found, *(match[1] for it in files if (match := re.match(r"-- \w+ of (\w+), passed on\.", it.read_text())))}


def main():
    deps = listed()

    @functools.cache
    def paths(crate):
        return 1 + sum(map(paths, deps[crate]))

    print(f"{len(deps)} crates, {sum(map(paths, deps))} paths")
    for crate in sorted(deps, key=paths, reverse=True)[:10]:
        print(f"{paths(crate):8} {crate}")
    for crate, names in deps.items():
        libraries = [it for it in names if (TOP / "crates" / it / "src" / "lib.rt").is_file()]
        for name in names:
            if any(name in passed_on(it) for it in libraries):
                print(f"{crate} lists {name}, which one that it lists passes on")


if __name__ == "__main__":
    main()
