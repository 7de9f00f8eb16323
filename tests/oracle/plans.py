#!/usr/bin/env python3
"""What is planned for sources: plans.py < crates/cases_slots/stdin

Sources are read by the means of linked.py, lowered by those of lowering.py, and what is known of their runs is worked out by facts.py;
slots.py says which variables may be told by few bits. Here are what codes cost, which are chosen, where they stand, and whether a
plan is legal, from the documentation alone, apart from crates/cc_plan and the crates below it.

A line `$ rows ROWS` gives a profile; `$ table BYTES` asks of the sources behind it for the table of the plan, where RAM comes to so many bytes;
`$ slots` for the slots, and `$ legal CHANGES` for the first slot that breaks a rule once the plan is changed so."""
import re
import sys

from c_types import Target
from codes import cost, ranked
from known import Known
from linked import Linked, Refused
from lowered import Source
from lowering import lower, names_of
from slots import Layouts, REASONS, Slots, end_of, words_of_array
from typed_units import written

sys.setrecursionlimit(100000)
KEYS = {"int": "int_bytes", "pointer": "pointer_bytes", "align": "align"}
MOST_BYTES = 65536
LISTS = ["field", "const", "array", "budget", "dissolved"]


class Profile:
    def __init__(self, rows):
        self.target, self.levels, self.handlers, self.counts, self.atomic = {}, {}, [], {}, 1
        self.weights, self.budgets = {"code": 1, "time": 1}, {"code": None, "time": None}
        for row in rows:
            self.read(*row.split(","))

    def read(self, key, first, second):
        if key in KEYS:
            self.target[KEYS[key]] = int(first)
        elif key == "char":
            self.target["char_signed"] = first == "signed"
        elif key == "atomic":
            self.atomic = int(first)
        elif key == "handler":
            self.handlers.append(first)
        else:
            {"level": self.levels, "count": self.counts, "weight": self.weights, "budget": self.budgets}[key][first] = int(second)


class Program(Source):
    """A program with the signedness of its plain char."""

    def limits(self, t):
        return self.linked.target.range(t)


class Planned:
    """A program with its slots, and what is chosen of them."""

    def __init__(self, source, rows):
        self.profile = Profile(rows)
        target = Target(**self.profile.target)
        texts = [without_markers(written(t)) for t in source.split(" <> ")]
        self.p = Program(Linked(texts, self.profile.handlers, target), self.profile)
        self.p.funcs = lower(self.p)
        self.slots = Slots(self.p, target, Known(self.p, target), self.profile.atomic)
        self.all = self.slots.all
        for slot in self.all:
            self.price(slot)
        self.choose()

    # ---- what codes cost

    def count_of(self, access):
        return self.profile.counts.get(self.p.funcs[access.func]["name"], 1)

    def is_guarded(self, slot, access):
        """As if the slot's word held one more, which is accessed as it is itself."""
        counts = self.slots.counts_at
        is_wide = (16 if self.bits_taken(slot) > 8 else 8) > 8 * self.profile.atomic
        if is_wide and slot.kind != "lone" and counts(access.point, slot, False):
            return True
        is_part = not slot.is_array or self.bits_taken(slot) < 8
        return is_part and access.is_write and slot.kind == "written" and counts(access.point, slot, True)

    def bits_taken(self, slot):
        return words_of_array(slot.bits, slot.elements)[0] if slot.is_array else slot.bits

    def price(self, slot):
        if slot.reason:
            return
        guarded = [a for a in slot.reads + slot.writes if self.is_guarded(slot, a)]
        lists = (slot.reads, slot.writes, guarded)
        what = ("array" if slot.is_array else "scalar", slot.coding.capitalize().split("(")[0], slot.values.size)
        slot.code = cost(*map(len, lists), *what)[0]
        slot.time = cost(*(sum(map(self.count_of, found)) for found in lists), *what)[1]
        slot.rom = slot.values.size * slot.bytes if slot.coding == "table" else 0
        slot.gain = (8 * slot.bytes - self.bits_taken(slot)) * slot.count

    # ---- which are coded, and where

    def choose(self):
        free = [slot for slot in self.all if not slot.reason]
        pairs = [tuple(settings[k] for k in ("code", "time")) for settings in (self.profile.weights, self.profile.budgets)]
        taken = ranked(*pairs, [(slot.number, slot.gain, slot.code + slot.rom, slot.time) for slot in free])
        self.words = []
        for slot in free:
            slot.fate, slot.word = "budget", None
            if slot.number in taken:
                slot.fate = "const" if slot.coding == "const" else "array" if slot.is_array else "field"
        fields = [slot for slot in free if slot.fate == "field"]
        for group in sorted({slot.group for slot in fields}):
            self.place([slot for slot in fields if slot.group == group])

    def place(self, slots):
        """Those of a group, into the first word with room."""
        words = []
        for slot in sorted(slots, key=lambda slot: (-slot.bits, slot.number)):
            word = next((w for w in words if w["used"] + slot.bits <= w["bits"]), None)
            if word is None:
                word = {"bits": 16 if slot.bits > 8 else 8, "used": 0, "slots": []}
                words.append(word)
            slot.word, slot.shift = word, word["used"]
            word["used"] += slot.bits
            word["slots"].append(slot)
        for word in words:
            if word["bits"] // 8 >= sum(slot.bytes for slot in word["slots"]):
                for slot in word["slots"]:
                    slot.fate = "dissolved"
            else:
                self.words.append(word)

    def coded(self):
        return [slot for slot in self.all if not slot.reason and slot.fate in ("field", "const", "array")]

    # ---- RAM

    def before(self):
        layouts = Layouts(self.p, self.slots.target)
        return end_of([layouts.of(t) for _, t, _ in self.p.objects if not is_const(t)])

    def after(self):
        """By alignment descending, of objects and of the members of structures that are changed."""
        plain, of_words = self.slots.target, [(w["bits"] // 8, w["slots"][0].key) for w in self.words]
        word = lambda size: (size, min(size, plain.align))
        gone = {slot.key for slot in self.coded()}
        layouts = Layouts(self.p, plain)
        for s, (_, members) in enumerate(self.p.structures):
            if any(("member", s, m) in gone for m in range(len(members))):
                parts = [layouts.of(t) for m, (_, t) in enumerate(members) if ("member", s, m) not in gone]
                parts += [word(size) for size, key in of_words if key[:2] == ("member", s)]
                layouts.changed[s] = sorted(parts, key=lambda part: -part[1])
        parts = [layouts.of(t) for n, (_, t, _) in enumerate(self.p.objects) if not is_const(t) and ("object", n) not in gone]
        parts += [word(size) for size, key in of_words if key[0] == "object"]
        for slot in self.coded():
            if slot.fate == "array":
                bits, size = words_of_array(slot.bits, slot.elements)
                parts.append((size, word(2)[1] if bits == 16 else 1))
        return end_of(sorted(parts, key=lambda part: -part[1]))

    # ---- texts

    def word_names(self):
        names, made, k = names_of(self.p), [], 0
        for _ in self.words:
            k = next(n for n in range(k + 1, k + 2 + len(names)) if f"w__{n}" not in names)
            made.append(f"w__{k}")
        return made

    def row(self, slot, names):
        reason = slot.reason or (slot.fate if slot.fate in ("budget", "dissolved") else "")
        values = bits = coding = word = ""
        if reason not in ("volatile", "const"):
            values, bits = slot.values.spelled(), str(slot.bits)
        if not reason:
            coding = slot.coding
            if slot.fate == "array":
                word = f"{slot.name}/{self.bits_taken(slot)}"
            elif slot.fate == "field":
                word = f"{names[[w is slot.word for w in self.words].index(True)]}:{slot.shift}"
        return ",".join([slot.name, slot.kind, values, bits, coding, word, reason])

    def table(self, after):
        if int(after) != self.after():
            raise SystemExit(f"the script has {after} bytes, and there are {self.after()}: {self.p.objects}")
        coded = self.coded()
        sums = [sum(getattr(slot, what) for slot in coded) for what in ("rom", "code", "time")]
        rows = [self.row(slot, self.word_names()) for slot in self.all]
        total = ",".join(map(str, ["total", self.before(), self.after(), *sums, len(coded)]))
        return ["slot,class,values,bits,coding,word,reason", *rows, total]

    def listed(self, _):
        return [f"{s.name} {s.kind} {s.count}*{s.bytes} {s.bits} reads" + "".join(f" {a.point}" for a in s.reads)
                + " writes" + "".join(f" {a.point}" for a in s.writes) + f" {s.reason or 'free'}" for s in self.all]

    # ---- whether a plan is legal

    def legal(self, items):
        plan = {"word": [], "field": [], "const": [], "array": [], "budget": [], "dissolved": []}
        for item in items.split():
            kind, _, rest = item.partition(":")
            if kind == "field":
                slot, _, rest = rest.partition("@")
                word, _, shift = rest.partition(".")
                rest = (int(slot), int(word), int(shift))
            elif kind == "word":
                rest = tuple(map(int, rest.split(":")))
            else:
                rest = (int(rest),)
            plan[kind].append(rest)
        if not is_plan(plan):
            return ["refused"]
        for slot in self.all:
            broken = self.broken(plan, slot)
            if broken:
                return ["slot {} breaks rule {}: has {}, needs {}".format(slot.number, *broken)]
        return ["legal"]

    def broken(self, plan, slot):
        stands = [name for name in LISTS if any(entry[0] == slot.number for entry in plan[name])]
        if not stands:
            return None
        if slot.reason:
            return 1, REASONS.index(slot.reason) + 1, 0
        if "field" in stands:
            broken = self.broken_in_word(plan, slot)
            if broken:
                return broken
        right = 1 if slot.coding == "const" else 2 if slot.is_array else 0
        for i, name in enumerate(LISTS[:3]):
            if name in stands and i != right:
                return 7, i, right
        return (8, len(stands), 1) if len(stands) > 1 else None

    def broken_in_word(self, plan, slot):
        number, word, shift = next(f for f in plan["field"] if f[0] == slot.number)
        group, bits = plan["word"][word]
        if group != slot.group:
            return 2, group, slot.group
        those = [(self.all[n], s) for n, w, s in plan["field"] if w == word]
        for other, s in those:
            if other is not slot and shift < s + other.bits and s < shift + slot.bits:
                return 3, shift, s
        if shift + slot.bits > bits:
            return 4, shift + slot.bits, bits
        most = max(other.bits for other, _ in those)
        if bits not in (8, 16) or bits == 16 and most <= 8:
            return 5, bits, most
        together = sum(other.bytes for other, _ in those)
        return (6, bits // 8, together) if bits // 8 >= together else None


def without_markers(text):
    """With blanks in place of the lines that a preprocessor leaves."""
    return re.sub(r"^#[^\n]*", lambda line: " " * len(line[0]), text, flags=re.M)


def is_plan(plan):
    """Each list ascends by slot, each field's word is there, and each word has a field."""
    ascend = all(a[0] < b[0] for name in LISTS for a, b in zip(plan[name], plan[name][1:]))
    return ascend and {w for _, w, _ in plan["field"]} == set(range(len(plan["word"])))


def is_const(t):
    while t["shape"][0] == "array":
        t = t["shape"][1]
    return t["const"]


def outcome(rows, question, source):
    word, _, rest = question.partition(" ")
    try:
        planned = Planned(source, rows)
    except Refused:
        return ["refused"]
    if planned.before() > MOST_BYTES:
        return ["refused"]
    return {"table": planned.table, "slots": planned.listed, "legal": planned.legal}[word](rest)


def main():
    judged, rows, question = 0, [], ""
    for line in sys.stdin.read().split("\n")[:-1]:
        print(line)
        if line.startswith("== "):
            rows, question = [], ""
        elif line.startswith("$ rows "):
            rows = rows + line[7:].split()
        elif line.startswith("$ "):
            question = line[2:]
        elif line:
            print("\n".join(outcome(rows, question, line)))
            judged += 1
    print(f"cases: {judged}")
    print(judged, file=sys.stderr)


if __name__ == "__main__":
    main()
