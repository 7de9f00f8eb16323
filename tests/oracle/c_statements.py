"""Statements and blocks of C99 (6.8), for typed_units.py."""
from c_operands import Broken, of_constants
from c_types import TRAP, is_integer, kind


class Statements:
    def lines(self, nodes):
        found = []
        for node in nodes:
            found += self.line(node)
        return found

    def line(self, node):
        if node.kind == "declaration":
            return [("do", e) for e in self.declaration(*node.parts, "block")]
        if node.kind not in ("if", "while", "do", "for", "switch"):
            return getattr(self, node.kind + "_line")(node.at, *node.parts)
        self.enter()
        found = getattr(self, node.kind + "_line")(node.at, *node.parts)
        self.leave()
        return found

    def in_block(self, nodes):
        self.enter()
        found = self.lines(nodes)
        self.leave()
        return found

    def block_line(self, at, nodes):
        return [("block", self.in_block(nodes))]

    def body(self, node, jumps):
        """A body that is a block gives its own list."""
        before, self.jumps = self.jumps, jumps
        self.enter()
        found = self.lines(node.parts[0]) if node.kind == "block" else self.line(node)
        self.leave()
        self.jumps = before
        return found

    def expression_line(self, at, node):
        return [("empty",) if node is None else ("do", self.effect(node))]

    def condition(self, node):
        return None if node is None else self.value_of(node)

    def is_condition(self, x, at):
        if x is not None:
            self.scalar(x, at)
        return x and x.what

    def if_line(self, at, test, then, other):
        x = self.condition(test)
        these = self.body(then, self.jumps)
        those = [] if other is None else self.body(other, self.jumps)
        return [("if", self.is_condition(x, at), these, those)]

    def while_line(self, at, test, body):
        x = self.condition(test)
        found = self.body(body, {"break", "continue"})
        return [("while", self.is_condition(x, at), found)]

    def do_line(self, at, body, test):
        found = self.body(body, {"break", "continue"})
        return [("until", found, self.is_condition(self.condition(test), at))]

    def for_line(self, at, first, test, step, body):
        if first.kind == "declaration":
            start = None
            for e in self.declaration(*first.parts, "for"):
                start = e if start is None else ("seq", start, e)
        else:
            start = self.effect(first.parts[0])
        x = self.condition(test)
        move = self.effect(step)
        found = self.body(body, {"break", "continue"})
        return [("for", start, self.is_condition(x, at), move, found)]

    def effect(self, node):
        """An expression of which the value is dropped."""
        if node is None:
            return None
        x = self.value_of(node)
        if kind(x.type) == "struct":
            raise Broken(9, node.at)
        return x.what

    def switch_line(self, at, test, body):
        x = self.value_of(test)
        if body.kind != "block":
            self.body(body, self.jumps | {"break"})
            raise Broken(36, at)
        word = self.target.promoted(x.type.shape[1]) if is_integer(x.type) else None
        before, self.jumps = self.jumps, self.jumps | {"break"}
        self.enter()
        cases, is_early = self.cases(body.parts[0], word)
        self.leave()
        self.jumps = before
        if word is None or is_early:
            raise Broken(36, at)
        return [("switch", self.converted(x.what, x.type.shape[1], word), cases)]

    def cases(self, nodes, word):
        """Its cases, and whether something stands before the first label."""
        cases, is_early, known = [], False, []
        for node in nodes:
            if node.kind == "case":
                cases.append(self.labelled(node, word, known))
                continue
            found = self.line(node)
            if cases:
                cases[-1][1].extend(found)
            else:
                is_early = is_early or node.kind != "declaration" or found != []
        return cases, is_early

    def labelled(self, node, word, known):
        """The labels of a case and its first statements. A label is judged behind its statement, and is known in it."""
        label, behind = node.parts
        x = None if label is None else self.value_of(label)
        number = None if label is None else self.number(x, word)
        is_twice = number in known
        known.append(number)
        if behind.kind == "case":
            labels, body = self.labelled(behind, word, known)
        else:
            is_empty = behind.kind == "expression" and behind.parts[0] is None
            labels, body = [], [] if is_empty else self.line(behind)
        if number == TRAP:
            raise Broken(13, node.at)
        if number == "none" or is_twice:
            raise Broken(35, node.at)
        return [number] + labels, body

    def number(self, x, word):
        """That of a label, converted to the type of the switch."""
        if x.what is None or not is_integer(x.type) or not of_constants(x.what):
            return "none"
        if x.what[0] != "const":
            return TRAP
        return x.what[1] if word is None else self.target.convert(x.what[1], word)

    def case_line(self, at, label, behind):
        if label is not None:
            self.value_of(label)
        self.line(behind)
        raise Broken(35, at)

    def break_line(self, at):
        if "break" not in self.jumps:
            raise Broken(33, at)
        return [("break",)]

    def continue_line(self, at):
        if "continue" not in self.jumps:
            raise Broken(34, at)
        return [("continue",)]

    def return_line(self, at, node):
        x = None if node is None else self.value_of(node)
        if (x is None) != (kind(self.result) == "void"):
            raise Broken(37, at)
        return [("return", None if x is None else self.assigned(x, self.result, at))]
