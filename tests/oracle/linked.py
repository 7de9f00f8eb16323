#!/usr/bin/env python3
"""What the cases of crates/cases_read give: linked.py < crates/cases_read/stdin

Translation units are answered by typed_units.py. Sources are read by its means and linked here from C99 (6.2.2, 6.2.7, 6.9)
and the documentation alone: things are Python's objects, structures of several sources are compared pair by pair, and names
are sets of texts. What is no sentence is not judged: such a case is answered as it stands in crates/cases_read/stdout. How many
are judged is told on standard error."""
import os
import re
import sys
from c_operands import Broken
from c_sentences import sentence
from c_types import INT, Target, kind
from c_units import Unit
from typed_units import outcome as outcome_of_unit, setting, written

INTRINSICS = ["irq_off", "irq_on", "irq_save", "irq_restore"]


class Refused(Exception):
    pass


class Thing:
    """All mentions of one object, device or function: pairs of a text and what is known of it there."""

    def __init__(self):
        self.mentions, self.name, self.number = [], None, None

    def defining(self):
        return next(((i, k) for i, k in self.mentions if count(k)), None)

    def is_device(self):
        return any(k.what == "device" for _, k in self.mentions) and self.defining() is None

    def is_there(self):
        return self.defining() is not None or self.is_device()

    def is_external(self):
        return any(k.linkage == "external" for _, k in self.mentions)

    def is_function(self):
        return any(k.what == "func" for _, k in self.mentions)

    def source_name(self):
        return self.mentions[0][1].name

    def is_main(self):
        return self.is_external() and self.is_function() and self.source_name() == "main"


def count(known):
    return known.given or int(known.tentative)


def tag_of(structure):
    return structure.tag or structure.alias


# ---- what bodies and first values speak of, in the order of the tree

def of_place(p):
    if p[0] in ("static", "device"):
        return [p[1]]
    if p[0] == "element":
        return of_place(p[1]) + of_expr(p[2])
    if p[0] == "member":
        return of_place(p[1])
    return of_expr(p[1]) if p[0] == "deref" else []


def of_expr(e):
    what, *of = e
    if what in ("const", "null"):
        return []
    if what == "fun":
        return [of[0]]
    if what in ("load", "addr", "after"):
        return of_place(of[0])
    if what == "assign":
        return of_place(of[0]) + of_expr(of[1])
    if what == "change":
        return of_place(of[2] if isinstance(of[2], tuple) and not isinstance(of[0], tuple) else of[0]) + of_expr(of[3])
    if what == "call":
        return of_expr(of[0]) + [k for a in of[1] for k in of_expr(a)]
    if what == "intr":
        return [] if of[1] is None else of_expr(of[1])
    if what in ("un", "conv", "qualify"):
        return of_expr(of[-1])
    if what == "bin":
        return of_expr(of[2]) + of_expr(of[3])
    if what == "move":
        return of_expr(of[0]) + of_expr(of[1])
    if what == "cmp":
        return of_expr(of[1]) + of_expr(of[2])
    return [k for part in of for k in of_expr(part)]


def of_list(statements):
    return [k for s in statements for k in of_statement(s)]


def of_statement(s):
    what, *of = s
    if what == "block":
        return of_list(of[0])
    if what == "until":
        return of_list(of[0]) + of_expr(of[1])
    found = []
    for part in of:
        if isinstance(part, tuple):
            found += of_expr(part)
        elif isinstance(part, list) and what == "switch":
            found += [k for _, body in part for k in of_list(body)]
        elif isinstance(part, list):
            found += of_list(part)
    return found


def of_leaf(leaf):
    if isinstance(leaf, int) or leaf[0] == "null":
        return []
    return [leaf[1] if leaf[0] == "func" else leaf[0]]


def spoken_of(known):
    return of_list(known.body) if known.body is not None else [k for leaf in known.leaves for k in of_leaf(leaf)]


class Linked:
    def __init__(self, texts, handlers, target):
        self.handlers, self.target = handlers, target
        self.units, self.identifiers = [], set()
        for text in texts:
            items = tree(text)
            try:
                self.units.append(Unit(target).unit(items))
            except Broken as broken:
                raise Refused((f"{len(self.units)} " if self.units else "") + f"broken {broken.rule} {broken.at}")
            self.identifiers |= identifiers(text)
        self.find_things()
        self.find_structures()
        self.judge_names()
        self.give_names()
        self.judge_handlers()

    # ---- things
    def find_things(self):
        self.things, self.thing_of, by_identity = [], {}, {}
        for i, unit in enumerate(self.units):
            for known in unit.names:
                if known.linkage == "external":
                    identity = known.name
                elif known.what == "device":
                    identity = (known.number, known.type.shape[1], known.type.const)
                else:
                    identity = (i, id(known))
                if identity not in by_identity:
                    by_identity[identity] = Thing()
                    self.things.append(by_identity[identity])
                by_identity[identity].mentions.append((i, known))
                self.thing_of[id(known)] = by_identity[identity]
        self.used = {id(self.thing_of[id(k)]) for unit in self.units for known in unit.names for k in spoken_of(known)}

    # ---- structures: those of one tag in two texts are one type where their members agree (6.2.7)
    def find_structures(self):
        self.all = [(i, s) for i, unit in enumerate(self.units) for s in unit.structures]
        same = {(id(s), id(u)) for i, s in self.all for j, u in self.all if i != j and tag_of(s) and tag_of(s) == tag_of(u)
                and (s.members is None) == (u.members is None)}
        shrunk = True
        while shrunk:
            self.same = same
            kept = {p for p in same if self.agree(p)}
            shrunk, same = len(kept) < len(same), kept
        self.same, self.firsts, self.class_of = same, [], {}
        for i, s in self.all:
            first = next((f for f in self.firsts if (id(f), id(s)) in same), None)
            if first is None:
                self.firsts.append(s)
                first = s
            self.class_of[id(s)] = first
        self.firsts = [s for s in self.firsts if s.members is None] + [s for s in self.firsts if s.members is not None]

    def agree(self, pair):
        by_id = {id(s): s for _, s in self.all}
        s, u = by_id[pair[0]], by_id[pair[1]]
        return s.members is None or len(s.members) == len(u.members) and all(
            n == m and self.alike(t, v) for (n, t), (m, v) in zip(s.members, u.members))

    def alike(self, t, v):
        if (t.const, t.volatile) != (v.const, v.volatile) or kind(t) != kind(v):
            return False
        if kind(t) == "struct":
            return t.shape[1] is v.shape[1] or (id(t.shape[1]), id(v.shape[1])) in self.same
        if kind(t) == "ptr":
            return self.alike(t.shape[1], v.shape[1])
        if kind(t) == "array":
            return t.shape[2] == v.shape[2] and self.alike(t.shape[1], v.shape[1])
        if kind(t) == "func":
            return len(t.shape[2]) == len(v.shape[2]) and self.alike(t.shape[1], v.shape[1]) and all(
                self.alike(a, b) for a, b in zip(t.shape[2], v.shape[2]))
        return t.shape == v.shape

    # ---- causes
    def judge_names(self):
        for thing in self.things:
            (_, first), *others = thing.mentions
            if any(not self.alike(first.type, k.type) or (first.what == "func") != (k.what == "func") for _, k in others):
                raise Refused(f"typesdiffer {thing.source_name()}")
        for thing in self.things:
            if sum(count(k) for _, k in thing.mentions) > 1:
                raise Refused(f"twice {thing.source_name()}")
        for thing in self.things:
            if id(thing) in self.used and not thing.is_there():
                raise Refused(f"undefined {thing.source_name()}")
        if not any(t.is_main() and t.defining() for t in self.things):
            raise Refused("nomain")

    def judge_handlers(self):
        for thing in self.things:
            known = thing.mentions[0][1]
            marked = any(k.entry for _, k in thing.mentions)
            if thing.is_device() or not marked and not (thing.is_there() and thing.name in self.handlers):
                continue
            is_void = kind(known.type) == "func" and kind(known.type.shape[1]) == "void" and not known.type.shape[2]
            if not is_void or not thing.defining() or thing.is_main() or id(thing) in self.used:
                raise Refused(f"badhandler {thing.name or thing.source_name()}")
        named = {t.name for t in self.things if t.is_there() and not t.is_device()}
        for name in self.handlers:
            if name not in named:
                raise Refused(f"badhandler {name}")

    # ---- numbers and names
    def by_definition(self, things):
        return sorted(things, key=lambda t: (t.defining()[0], t.defining()[1].first))

    def give_names(self):
        self.made = set()
        there = [t for t in self.things if t.is_there()]
        self.devices = [t for t in there if t.is_device()]
        defined = [t for t in there if not t.is_device()]
        self.functions = self.by_definition(t for t in defined if t.is_function())
        self.objects = self.by_definition(t for t in defined if not t.is_function())
        tags, self.tags = set(), {}
        for s in self.firsts:
            self.tags[id(s)] = self.new_name(tag_of(s), "anon", tags)
        taken = set()
        for t in there:
            if t.is_external():
                t.name = t.source_name()
                taken.add(t.name)
        for t in self.by_definition(t for t in defined if not t.is_external()):
            t.name = self.new_name(t.source_name(), "text", taken)
        self.locals = {}
        for t in self.functions:
            mine = set(taken)
            self.locals[id(t)] = [(self.new_name(n, "text", mine), v) for n, v in t.defining()[1].locals]

    def new_name(self, name, stem, taken):
        """The name itself, or where it clashes or there is none, the least numbered one that is free."""
        if name is None or name in taken:
            front, k = (stem, 1) if name is None else (name, 2)
            while f"{front}__{k}" in self.identifiers | set(INTRINSICS) | self.made:
                k += 1
            name = f"{front}__{k}"
            self.made.add(name)
        taken.add(name)
        return name

    # ---- as it is written
    def numbered(self, name, t):
        while kind(t) in ("ptr", "array"):
            t = t.shape[1]
        if kind(t) != "struct":
            return name
        return f"{name}:{[id(s) for s in self.firsts].index(id(self.class_of[id(t.shape[1])]))}"

    def spelled(self, thing):
        known = thing.mentions[0][1]
        if known.what == "device" and known.name is None:
            return f"@{known.number}/{known.type.shape[1].replace('llong', 'longlong')}" + "/const" * known.type.const
        return thing.name

    def leaf(self, leaf):
        if isinstance(leaf, int):
            return str(leaf)
        if leaf[0] == "null":
            return "null"
        return "&" + self.spelled(self.thing_of[id(of_leaf(leaf)[0])])

    def object(self, t):
        known = t.defining()[1]
        leaves = [self.leaf(leaf) for leaf in known.leaves]
        return self.numbered(t.name, known.type) + ("=" + ",".join(leaves) if set(leaves) - {"0", "null"} else "")

    def function(self, t):
        known = t.defining()[1]
        listed = " ".join(self.numbered(n, v) for n, v in self.locals[id(t)])
        spoken = " ".join(self.spelled(self.thing_of[id(k)]) for k in spoken_of(known))
        entries = {k.entry for _, k in t.mentions} - {None}
        entry = "signal" if "signal" in entries else "interrupt" if entries else "listed" * (t.name in self.handlers)
        return t.name + f"({listed})" * bool(listed) + f"{{{spoken}}}" * bool(spoken) + f"!{entry}" * bool(entry)

    def structure(self, s):
        members = " ".join(name for name, _ in s.members or [])
        return self.tags[id(s)] + f"{{{members}}}" * bool(members)

    def whole(self):
        parts = [("S", [self.structure(s) for s in self.firsts]), ("D", [self.spelled(t) for t in self.devices]),
                 ("O", [self.object(t) for t in self.objects]), ("F", [self.function(t) for t in self.functions])]
        return " | ".join(f"{title}: {' '.join(listed)}" for title, listed in parts if listed)


def tree(text):
    try:
        items = sentence(text)
    except ValueError:
        items = None
    if items is None:
        raise Refused("no tree")
    return items


def identifiers(text):
    """The names among the tokens: what stands in comments, strings and skipped lines is none."""
    text = re.sub(r"/\*.*?\*/", " ", text, flags=re.S)
    text = re.sub(r"//[^\n]*", " ", text)
    text = re.sub(r'"(\\.|[^"\\])*"|\'(\\.|[^\'\\])*\'', " ", text)
    text = re.sub(r"^[ \t]*#[^\n]*", " ", text, flags=re.M)
    return set(re.findall(r"(?<![0-9A-Za-z_])[A-Za-z_][0-9A-Za-z_]*", text))


def outcome(case):
    handlers, rest = re.fullmatch(r"(?:\[([^\]]*)\] )?(.*)", case, flags=re.S).groups()
    try:
        return Linked([written(t) for t in rest.split(" <> ")], (handlers or "").split(), Target()).whole()
    except Refused as refused:
        return str(refused)


def main():
    folder = os.path.join(os.path.dirname(os.path.dirname(os.path.dirname(os.path.abspath(__file__)))), "crates", "cases_read")
    with open(os.path.join(folder, "stdout")) as file:
        stand = dict(line.rsplit(" => ", 1) for line in file.read().split("\n") if " => " in line)
    settings, cases, judged = None, 0, 0
    for line in sys.stdin.read().split("\n")[:-1]:
        if line.startswith("== "):
            settings = None
        if line.startswith("$ "):
            settings = {} if settings is None else setting(settings, line[2:])
        if not line or line[:2] in ("==", "$ "):
            print(line)
            continue
        found = outcome(line) if settings is None else outcome_of_unit(settings, line)
        is_judged = not found.endswith("no tree")
        print(f"{line} => {found if is_judged else stand.get(line, found)}")
        cases += 1
        judged += is_judged
    print(f"cases: {cases}")
    print(judged, file=sys.stderr)


if __name__ == "__main__":
    main()
