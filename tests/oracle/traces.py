#!/usr/bin/env python3
"""What the lines `trace` of crates/cases_ccomp give: traces.py < crates/cases_ccomp/stdin

Sources are read by the means of linked.py and typed_units.py and run by those of meaning.py, from C99 and the documentation
alone. All other lines are written as they stand in crates/cases_ccomp/stdout. How many are judged is told on standard error.
"""
import os
import sys

from c_operands import Broken
from c_types import Target, kind
from linked import Linked, Refused
from meaning import Run

FOLDER = os.path.join(os.path.dirname(os.path.dirname(os.path.dirname(os.path.abspath(__file__)))), "crates", "cases_ccomp")
BINARY = {"+": "add", "-": "sub", "*": "mul", "/": "div", "%": "rem", "&": "and", "|": "or", "^": "xor", "<<": "shl", ">>": "shr",
          "<": "lt", "<=": "le", ">": "gt", ">=": "ge", "==": "eq", "!=": "ne"}
UNARY = {"-": "neg", "~": "not", "!": "lnot"}


class Settings:
    """What the rows of a profile say; handlers and intrinsics have their own names here."""

    def __init__(self, rows):
        self.target, self.levels = {}, {}
        for row in rows.split():
            key, first, second = row.split(",")
            if key == "level":
                self.levels[first] = int(second)
            else:
                self.target[{"int": "int_bytes", "pointer": "pointer_bytes"}[key]] = int(first)


class Read:
    """A program as meaning.py runs it, of sources that are linked."""

    def __init__(self, linked, settings):
        self.linked, self.levels = linked, settings.levels
        self.int_bytes = linked.target.int_bytes
        self.number = {}
        for things in (linked.objects, linked.functions, linked.devices):
            self.number.update((id(t), i) for i, t in enumerate(things))
        self.structures = [(linked.tags[id(s)], [(n, self.type(t)) for n, t in s.members or []]) for s in linked.firsts]
        self.devices = [(linked.spelled(t).split("/")[0], t.mentions[0][1].type.shape[1]) for t in linked.devices]
        self.objects = [self.object(t) for t in linked.objects]
        self.funcs = [self.function(t) for t in linked.functions]
        self.main = next(i for i, t in enumerate(linked.functions) if t.is_main())

    # ---- things

    def thing(self, known):
        return self.number[id(self.linked.thing_of[id(known)])]

    def type(self, t):
        what, *of = t.shape
        if what in ("ptr", "array"):
            shape = (what, self.type(of[0]), *of[1:])
        elif what == "struct":
            shape = ("struct", next(i for i, s in enumerate(self.linked.firsts) if s is self.linked.class_of[id(of[0])]))
        elif what == "func":
            shape = ("func", self.type(of[0]), [self.type(p) for p in of[1]])
        else:
            shape = tuple(t.shape)
        return {"const": t.const, "volatile": t.volatile, "shape": shape}

    def object(self, thing):
        known = thing.defining()[1]
        return thing.name, self.type(known.type), [self.leaf(x) for x in known.leaves]

    def leaf(self, leaf):
        if isinstance(leaf, int):
            return str(leaf)
        if leaf[0] == "null":
            return "null"
        if leaf[0] == "func":
            return f"func:{self.thing(leaf[1])}"
        known, path, index, count = leaf
        return f"at:{self.thing(known)}:{index}:{count}" + self.path(known.type, path)

    def path(self, t, path):
        steps = []
        for step in path:
            if step.startswith("["):
                steps.append(f"i{step[1:-1]}")
                t = t.shape[1]
            else:
                names = [n for n, _ in t.shape[1].members]
                number = names.index(step[1:]) if step[1:] in names else int(step[1:])
                steps.append(f"m{number}")
                t = t.shape[1].members[number][1]
        return ":" + ",".join(steps) if steps else ""

    def function(self, thing):
        known = thing.defining()[1]
        entries = {k.entry for _, k in thing.mentions} - {None}
        return {"name": thing.name, "result": self.type(known.type.shape[1]), "params": [self.type(p) for p in known.type.shape[2]],
                "entry": "signal" if entries else None, "locals": [(n, self.type(t)) for n, t in self.linked.locals[id(thing)]],
                "body": self.statements(known.body)}

    # ---- places and expressions

    def place(self, p):
        what, *of = p
        if what == "local":
            return p
        if what in ("static", "device"):
            return what, self.thing(of[0])
        if what == "element":
            return what, self.place(of[0]), self.expr(of[1])
        return (what, self.place(of[0]), of[1]) if what == "member" else (what, self.expr(of[0]))

    def expr(self, e):
        what, *of = e
        if what == "const":
            return e
        if what == "null":
            return what, self.type(of[0])
        if what == "fun":
            return "func", self.thing(of[0])
        if what in ("load", "addr"):
            return what, self.place(of[0])
        if what == "after":
            return what, self.place(of[0]), of[1] == "--"
        if what == "assign":
            return what, self.place(of[0]), self.expr(of[1])
        if what == "change":
            return what, self.place(of[0]), BINARY[of[1]], of[2], self.expr(of[3])
        if what == "call":
            return what, self.expr(of[0]), [self.expr(a) for a in of[1]]
        if what == "intr":
            return "intrinsic", of[0], None if of[1] is None else self.expr(of[1])
        if what == "un":
            return "unary", UNARY[of[0]], of[1], self.expr(of[2])
        if what == "bin":
            return "binary", BINARY[of[0]], of[1], self.expr(of[2]), self.expr(of[3])
        if what == "conv":
            return what, of[0], self.expr(of[1])
        if what == "qualify":
            return what, self.type(of[0]), self.expr(of[1])
        if what == "move":
            return "back" if of[2] else "move", self.expr(of[0]), self.expr(of[1])
        if what == "cmp":
            return what, BINARY[of[0]], self.expr(of[1]), self.expr(of[2])
        return (what, *(self.expr(x) for x in of))

    # ---- statements

    def statements(self, list):
        return [self.statement(s) for s in list]

    def maybe(self, e):
        return None if e is None else self.expr(e)

    def statement(self, s):
        what, *of = s
        if what == "do":
            return what, self.expr(of[0])
        if what == "block":
            return what, self.statements(of[0])
        if what == "if":
            return what, self.expr(of[0]), self.statements(of[1]), self.statements(of[2])
        if what == "while":
            return what, self.expr(of[0]), self.statements(of[1])
        if what == "until":
            return "dowhile", self.expr(of[1]), self.statements(of[0])
        if what == "for":
            return (what, *(self.maybe(e) for e in of[:3]), self.statements(of[3]))
        if what == "switch":
            return what, self.expr(of[0]), [(["default" if n is None else str(n) for n in labels], self.statements(body)) for labels, body in of[1]]
        if what == "return":
            return what, self.maybe(of[0])
        return (what,)

    # ---- integers and scalars, as meaning.py asks for them

    from programs import Program as _of
    bits, limits, convert, exact, apply, apply_one, scalars = (
        _of.bits, _of.limits, _of.convert, _of.exact, _of.apply, _of.apply_one, _of.scalars)


def outcome(sources, line):
    most, inputs, arrivals, profile = [part.strip() for part in (line.split("|") + ["", "", ""])[:4]]
    settings = Settings(profile)
    p = Read(Linked(sources, [], Target(**settings.target)), settings)
    numbers = {f["name"]: i for i, f in enumerate(p.funcs)}
    due = {int(turn): numbers[name] for turn, name in (row.split(",") for row in arrivals.split())}
    run = Run(p, [int(n) for n in inputs.split()])
    turns = 0
    while run.end is None and turns < int(most):
        turns += 1
        run.take(due.get(turns))
    return " ".join(run.trace + [f"end,{run.end or 'going,'}"])


def cases(lines):
    """The lines `trace`, each with the sources of its case."""
    sources = []
    for line in lines:
        word, _, rest = line.partition(" ")
        if word == "==":
            sources = []
        elif word == "file":
            sources.append("")
        elif word in ("text", "line"):
            text = rest[rest.index('"') + 1:rest.rindex('"')] + "\n" * (word == "line")
            sources = (sources or [""])[:-1] + [(sources or [""])[-1] + text]
        elif word == "trace":
            yield line, sources, rest


def main():
    wanted = [f"{line} => {outcome(sources, rest)}" for line, sources, rest in cases(sys.stdin.read().split("\n"))]
    with open(os.path.join(FOLDER, "stdout")) as file:
        lines = file.read().split("\n")
    places = [i for i, line in enumerate(lines) if line.startswith("trace ")]
    if len(places) != len(wanted):
        sys.exit(f"the script has {len(wanted)} traces, and crates/cases_ccomp/stdout {len(places)}")
    for i, line in zip(places, wanted):
        lines[i] = line
    print("\n".join(lines), end="")
    print(len(wanted), file=sys.stderr)


if __name__ == "__main__":
    main()
