#!/usr/bin/env python3
"""What sources are lowered to: lowered.py < crates/cases_lower/stdin

Sources are read by the means of linked.py and typed_units.py, lowered by those of lowering.py and printed by those of printing.py,
from C99 and the documentation alone. crates/cases_lower/src/main.rt says what a case is."""
import sys

from c_types import Target
from linked import Linked, Refused
from lowering import lower
from printing import Text
from traces import Read, Settings
from typed_units import written

sys.setrecursionlimit(100000)


class Source(Read):
    """A program as traces.py reads it, with what its text has besides."""

    def __init__(self, linked, settings):
        super().__init__(linked, settings)
        self.ports = [self.port(t) for t in linked.devices]
        self.distance = linked.target.difference_type()

    def port(self, thing):
        known = thing.mentions[0][1]
        return thing.name if known.name else None, known.type.shape[1], known.type.const, known.number

    def function(self, thing):
        entries = {k.entry for _, k in thing.mentions} - {None}
        kind = "signal" if "signal" in entries else "interrupt" if entries else None
        return dict(super().function(thing), kind=kind)


def lowered(sources, rows):
    settings = Settings(rows)
    p = Source(Linked(sources, [], Target(**settings.target)), settings)
    return Text(p, lower(p)).whole_text()


def main_of(text):
    """From the definition of main on, without its first line and its last."""
    return text[text.rindex("int main(void) {\n"):].split("\n", 1)[1].rsplit("}\n", 1)[0]


def outcome(source):
    try:
        return lowered([written(t) for t in source.split(" <> ")], "")
    except Refused:
        return None


def main():
    judged, front = 0, ""
    for line in sys.stdin.read().split("\n")[:-1]:
        print(line)
        if line.startswith("$ "):
            front = line[2:]
        elif line and not line.startswith("== "):
            text = outcome(f"{front} int main(void) {{ {line} }}" if front else line)
            print("refused\n" if text is None else main_of(text) if front else text, end="")
            judged += 1
    print(f"cases: {judged}")
    print(judged, file=sys.stderr)


if __name__ == "__main__":
    main()
