#!/usr/bin/env python3
"""Questions on facts about programs: judged.py < crates/cases_facts/stdin

Each line `$ SOURCE`, or `$ [PROFILE ROWS] SOURCE`, is a program, and the lines behind it ask of its least facts, or of those with
changes in them behind ` : `. `facts` writes them; `judge` says whether they have the shape of the program's, and the first constraint that
they break, with what they have and what it needs; `hold TURNS INPUT TURN,HANDLER ..` says up to which turn the states of a run lie in
them. In front of each, `span` asks the same over intervals in place of explicit sets and ranges. The facts are those of facts.py."""
import sys

from abstract import Span, Vals
from facts import LISTS, least_facts
from lies import turns_held
from linked import Refused
from places import Set, listing


# ---- changed facts

class Change:
    def __init__(self, system, facts):
        self.system, self.facts, self.d = system, facts, system.d
        self.is_short, self.added = False, {}

    def make(self, words):
        word, _, rest = words.partition(" ")
        if word == "short":
            self.is_short = True
        elif word in ("main", "handler", "reads", "writes"):
            marks = getattr(self.facts, LISTS[word])
            marks[int(rest)] = not marks[int(rest)]
        elif word in ("levels", "from", "read_levels", "write_levels"):
            n, levels = rest.split()
            getattr(self.facts, LISTS[word])[int(n)] = int(levels)
        elif word in ("whole", "result"):
            self.change(getattr(self.facts, LISTS[word]), rest)
        else:
            self.at_point(word, *rest.partition(" ")[::2])

    def at_point(self, word, n, rest):
        here = self.facts.at[int(n)]
        if word == "unreached":
            self.facts.at[int(n)] = None
        elif word == "flag":
            here.off, here.on = rest in ("off", "both"), rest in ("on", "both")
        elif word == "same":
            self.added.setdefault(int(n), sorted(here.same)).append(tuple(map(int, rest.split())))
            here.same.add(tuple(map(int, rest.split())))
        else:
            self.change(here.locals if word == "local" else here.cells, rest)

    def change(self, sets, words):
        n, _, how = words.partition(" ")
        sets[int(n)] = self.changed(sets[int(n)], how)

    def changed(self, s, how):
        if how in ("ints", "addrs"):
            return Set() if how == "addrs" else self.d.none
        mark, number = how.split()
        if isinstance(s, Set):
            return Set(a for i, a in enumerate(sorted(s.members, key=listing)) if i != int(number))
        one = self.d.hull([int(number)])
        return self.d.keep("Ne", s, one) if mark == "-" else one if mark == "=" else self.d.join(s, one)

    # ---- the shape of facts of the program

    def is_shaped(self):
        f, s = self.facts, self.system
        marks = all(f.by_main[g] or f.by_handler[g] or f.levels[g] == f.from_[g] == 0 for g in range(len(s.p.funcs))) and all(
            f.handler_reads[k] or f.handler_writes[k] or f.read_levels[k] == f.write_levels[k] == 0 for k in range(len(s.keys)))
        return not self.is_short and marks and all(self.is_of(s.key_type(key), x) for key, x in zip(s.keys, f.whole)) and all(
            self.is_of(g["result"], x) for g, x in zip(s.p.funcs, f.results)) and all(
            self.is_point(n, here) for n, here in enumerate(f.at) if here is not None)

    def is_point(self, n, here):
        s, func = self.system, self.system.flow.points[n].func
        types = [s.p.funcs[func]["locals"][i][1] for i in s.registers[func]]
        cells = [s.p.objects[i][1] for i in s.tracked]
        pairs = self.added.get(n, sorted(here.same))
        return (here.off or here.on) and all(map(self.is_of, types, here.locals)) and all(map(self.is_of, cells, here.cells)) and \
            all(p < q for p, q in zip(pairs, pairs[1:])) and all(r < len(types) and j < len(cells) for r, j in pairs)

    def is_of(self, t, s):
        """Whether a set has values of a type alone. An address stands here only where it stood before, so it may."""
        shape = t["shape"]
        if isinstance(s, Set) or shape[0] == "ptr":
            return isinstance(s, Set) and shape[0] == "ptr"
        ends = self.d.bounds(s)
        if shape[0] == "void":
            return ends is None
        whole = self.d.bounds(self.system.values[0].whole(shape[1]))
        return ends is None or whole[0] <= ends[0] and ends[1] <= whole[1]


# ---- cases

def written_facts(system, facts):
    f, text = facts, lambda x: "{" + system.set_text(x) + "}"
    marked = lambda *pairs: [word for word, mark in pairs if mark]
    for g, result in enumerate(f.results):
        yield ["function", g, *marked(("main", f.by_main[g]), ("handler", f.by_handler[g])), f.levels[g], f.from_[g], text(result)]
    for k, (kind, *numbers) in enumerate(system.keys):
        key = f"{kind.capitalize()}({', '.join(map(str, numbers))})"
        yield ["key", key, *marked(("read", f.handler_reads[k]), ("write", f.handler_writes[k])), f.read_levels[k], f.write_levels[k], text(f.whole[k])]
    for n, here in enumerate(f.at):
        if here is not None:
            flag = ["both", "off", "on"][0 if here.off and here.on else 1 if here.off else 2]
            yield ["point", n, flag, "|", *map(text, here.locals), "|", *map(text, here.cells), "|", *(f"{r}={j}" for r, j in sorted(here.same))]


class Asked:
    """The programs and least facts of the settings of a script."""

    def __init__(self):
        self.known = {}

    def answer(self, setting, case):
        domain, case = (Span, case[len("span "):]) if case.startswith("span ") else (Vals, case)
        if (setting, domain) not in self.known:
            rows, source = setting[1:].split("] ", 1) if setting.startswith("[") else ("", setting)
            self.known[setting, domain] = least_facts(source, rows, domain)
        _, system, least = self.known[setting, domain]
        question, _, changes = case.partition(" : ")
        change = Change(system, least.copy())
        for words in changes.split(", ") if changes else []:
            change.make(words)
        if not change.is_shaped():
            return "of another shape"
        word, *words = question.split()
        return getattr(self, word)(system, change.facts, *words)

    def facts(self, system, facts):
        return "".join("\n  " + " ".join(map(str, line)) for line in written_facts(system, facts))

    def judge(self, system, facts):
        broken = system.first_broken(facts)
        if broken is None:
            return "none; taken"
        rule, n, have, need = broken
        return f"rule {rule} at {n} has {{{have}}} needs {{{need}}}; denied by rule {rule}"

    def hold(self, system, facts, most, input, *arrivals):
        due = {int(turn): int(h) for turn, h in (x.split(",") for x in arrivals)}
        fits, turn = turns_held(system, facts, [int(input)] * int(most), due, int(most))
        return f"{'hold to' if fits else 'fail at'} turn {turn}"


def main():
    asked, setting, count = Asked(), "", 0
    for line in sys.stdin.read().split("\n")[:-1]:
        if line.startswith("$ "):
            setting = line[2:]
        if not line or line[:2] in ("==", "$ "):
            print(line)
            continue
        try:
            print(f"{line} => {asked.answer(setting, line)}")
        except Refused:
            print(f"{line} => refused")
        count += 1
    print(f"cases: {count}")
    print(count, file=sys.stderr)


if __name__ == "__main__":
    main()
