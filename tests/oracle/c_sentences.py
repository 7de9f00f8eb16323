"""Sentences of the subset of C99 as trees, for typed_units.py. A node is Node(kind, at, parts): `at` is the offset at
which it begins."""
import re

SPEC_WORDS = set("typedef extern static auto register const volatile restrict inline void char short int long signed "
                 "unsigned _Bool __extension__ struct enum __attribute__".split())
KEYWORDS = SPEC_WORDS | set("break case continue default do else for if return sizeof switch while".split())
SAME = {"__inline": "inline", "__inline__": "inline", "__const": "const", "__const__": "const",
        "__volatile": "volatile", "__volatile__": "volatile", "__signed": "signed", "__signed__": "signed",
        "__restrict": "restrict", "__restrict__": "restrict", "__attribute": "__attribute__"}
MARKS = ("<<= >>= -> ++ -- << >> <= >= == != && || *= /= %= += -= &= ^= |= "
         "[ ] ( ) { } . & * + - ~ ! / % < > ^ | ? : ; = ,").split()
ESCAPES = {"'": 39, '"': 34, "?": 63, "\\": 92, "a": 7, "b": 8, "f": 12, "n": 10, "r": 13, "t": 9, "v": 11}
LEVELS = [["||"], ["&&"], ["|"], ["^"], ["&"], ["==", "!="], ["<", ">", "<=", ">="], ["<<", ">>"], ["+", "-"],
          ["*", "/", "%"]]
ASSIGNMENTS = "= *= /= %= += -= <<= >>= &= ^= |=".split()
PREFIXES = "& * + - ~ !".split()


class NoSentence(Exception):
    pass


class Node:
    def __init__(self, kind, at, *parts):
        self.kind, self.at, self.parts = kind, at, parts

    def __iter__(self):
        return iter(self.parts)


# ---- tokens: (kind, value, offset)

def literal(text, at, close):
    """The bytes of a literal behind its quote, and the offset behind it."""
    content = []
    while text[at] != close:
        if text[at] != "\\":
            content.append(ord(text[at]))
            at += 1
            continue
        octal = re.compile(r"[0-7]{1,3}").match(text, at + 1)
        hexadecimal = re.compile(r"x[0-9a-fA-F]+").match(text, at + 1)
        found = octal or hexadecimal
        if found:
            content.append(int(found.group(0).lstrip("x"), 8 if octal else 16))
            at = found.end()
        else:
            content.append(ESCAPES[text[at + 1]])
            at += 2
    return content, at + 1


def number(word):
    found = re.fullmatch(r"(0[xX][0-9a-fA-F]+|0[bB][01]+|[0-9]+)([uUlL]*)", word)
    if not found:
        raise NoSentence(word)
    digits, suffix = found.group(1), found.group(2).lower()
    octal = digits[0] == "0" and digits.isdigit()
    return (int(digits, 8) if octal else int(digits, 0)), digits[0] != "0", "u" in suffix, suffix.count("l")


def tokens_of(text):
    tokens, at = [], 0
    while at < len(text):
        c = text[at]
        if c.isspace():
            at += 1
            continue
        word = re.compile(r"[A-Za-z_0-9]+").match(text, at)
        if word and not c.isdigit():
            name = SAME.get(word.group(0), word.group(0))
            tokens.append(("word" if name in KEYWORDS else "name", name, at))
            at = word.end()
        elif word:
            tokens.append(("number", number(word.group(0)), at))
            at = word.end()
        elif c in "'\"":
            content, end = literal(text, at + 1, c)
            tokens.append(("text" if c == '"' else "character", content, at))
            at = end
        else:
            mark = next((m for m in MARKS if text.startswith(m, at)), None)
            if mark is None:
                raise NoSentence(c)
            tokens.append(("mark", mark, at))
            at += len(mark)
    return tokens + [("end", None, len(text))]


# ---- trees

class Parser:
    def __init__(self, text):
        self.tokens, self.i, self.typedefs = tokens_of(text), 0, [{}]

    # which tokens stand here
    def at(self):
        return self.tokens[self.i][2]

    def here(self, ahead=0):
        kind, value, _ = self.tokens[min(self.i + ahead, len(self.tokens) - 1)]
        return value if kind in ("mark", "word") else None

    def is_typedef(self, ahead=0):
        kind, value, _ = self.tokens[min(self.i + ahead, len(self.tokens) - 1)]
        return kind == "name" and next((s[value] for s in reversed(self.typedefs) if value in s), False)

    def is_spec(self, ahead=0):
        return self.here(ahead) in SPEC_WORDS or self.is_typedef(ahead)

    def take(self, *wanted):
        if self.here() in wanted and self.here() is not None:
            self.i += 1
            return self.tokens[self.i - 1][1]
        return None

    def need(self, wanted):
        if not self.take(wanted):
            raise NoSentence(f"{wanted} at {self.at()}")

    def name(self):
        kind, value, _ = self.tokens[self.i]
        if kind != "name":
            raise NoSentence(f"a name at {self.at()}")
        self.i += 1
        return value

    def listed(self, read):
        found = [read()]
        while self.take(","):
            found.append(read())
        return found

    # expressions
    def expr(self):
        left = self.assign()
        while self.take(","):
            left = Node("comma", left.at, left, self.assign())
        return left

    def assign(self):
        left, is_unary = self.cond_or_unary()
        if self.here() in ASSIGNMENTS:
            if not is_unary:
                raise NoSentence(f"an assignment at {self.at()}")
            return Node("assign", left.at, self.take(*ASSIGNMENTS), left, self.assign())
        return left

    def cond(self):
        return self.cond_or_unary()[0]

    def cond_or_unary(self):
        test = self.binary(0)
        if self.take("?"):
            then = self.expr()
            self.need(":")
            return Node("choose", test.at, test, then, self.cond()), False
        return test, test.kind not in ("binary", "cast")

    def binary(self, level):
        if level == len(LEVELS):
            return self.cast()
        left = self.binary(level + 1)
        while self.here() in LEVELS[level]:
            op = self.take(*LEVELS[level])
            left = Node("binary", left.at, op, left, self.binary(level + 1))
        return left

    def cast(self):
        if self.here() == "(" and self.is_spec(1):
            at = self.at()
            self.need("(")
            to = self.type_name()
            self.need(")")
            return Node("cast", at, to, self.cast())
        return self.unary()

    def unary(self):
        at = self.at()
        op = self.take("++", "--")
        if op:
            return Node("prefix", at, op, self.unary())
        op = self.take(*PREFIXES)
        if op:
            return Node("prefix", at, op, self.cast())
        if self.take("__extension__"):
            return Node("paren", at, self.cast())
        if self.take("sizeof"):
            if self.here() == "(" and self.is_spec(1):
                self.need("(")
                named = self.type_name()
                self.need(")")
                return Node("sizeof_type", at, named)
            return Node("sizeof", at, self.unary())
        return self.postfix()

    def postfix(self):
        left = self.primary()
        while self.here() in ("[", "(", ".", "->", "++", "--"):
            op = self.take("[", "(", ".", "->", "++", "--")
            if op == "[":
                left = Node("subscript", left.at, left, self.expr())
                self.need("]")
            elif op == "(":
                args = [] if self.here() == ")" else self.listed(self.assign)
                self.need(")")
                left = Node("call", left.at, left, args)
            elif op in (".", "->"):
                left = Node("dot" if op == "." else "arrow", left.at, left, self.name())
            else:
                left = Node("postfix", left.at, op, left)
        return left

    def primary(self):
        kind, value, at = self.tokens[self.i]
        if self.take("("):
            inner = self.expr()
            self.need(")")
            return Node("paren", at, inner)
        if kind == "name" and not self.is_typedef():
            return Node("name", at, self.name())
        if kind in ("number", "character"):
            self.i += 1
            return Node(kind, at, value)
        if kind == "text":
            content = []
            while self.tokens[self.i][0] == "text":
                content += self.tokens[self.i][1]
                self.i += 1
            return Node("text", at, content)
        raise NoSentence(f"an expression at {at}")

    # declarations
    def type_name(self):
        at = self.at()
        return Node("type_name", at, self.specs(), self.declarator("none"))

    def specs(self):
        found = []
        while self.is_spec():
            at = self.at()
            if self.is_typedef():
                found.append(Node("named", at, self.name()))
                continue
            word = self.take(*SPEC_WORDS)
            if word == "struct":
                found.append(self.structure(at))
            elif word == "enum":
                found.append(self.enumeration(at))
            elif word == "__attribute__":
                found.append(self.attribute(at))
            elif word != "__extension__":
                found.append(Node("word", at, word))
        if not found:
            raise NoSentence(f"specifiers at {self.at()}")
        return found

    def attribute(self, at):
        words = []
        self.need("(")
        self.need("(")
        while self.here() != ")":
            name, arg = self.name(), None
            if self.take("("):
                arg = self.name()
                self.need(")")
            words.append((name, arg))
            if not self.take(","):
                break
        self.need(")")
        self.need(")")
        return Node("attribute", at, words)

    def attributes(self):
        found = []
        while self.here() == "__attribute__":
            at = self.at()
            self.need("__attribute__")
            found.append(self.attribute(at))
        return found

    def structure(self, at):
        before = self.attributes()
        tag = self.name() if self.tokens[self.i][0] == "name" else None
        if not self.take("{"):
            return Node("struct", at, tag, None, before, [])
        members = []
        while not self.take("}"):
            begin, specs = self.at(), self.specs()
            members.append(Node("member", begin, specs, self.listed(lambda: self.declarator("name"))))
            self.need(";")
        return Node("struct", at, tag, members, before, self.attributes())

    def enumeration(self, at):
        tag = self.name() if self.tokens[self.i][0] == "name" else None
        if not self.take("{"):
            return Node("enum", at, tag, None)
        constants = []
        while self.here() != "}":
            begin, name = self.at(), self.name()
            self.typedefs[-1][name] = False
            constants.append(Node("constant", begin, name, self.cond() if self.take("=") else None))
            if not self.take(","):
                break
        self.need("}")
        return Node("enum", at, tag, constants)

    def declarator(self, names):
        """`names` says whether a name stands in it: "name", "none" or "either"."""
        at = self.at()
        if self.take("*"):
            qualifiers = []
            while self.here() in ("const", "volatile", "restrict"):
                qualifiers.append(self.take("const", "volatile", "restrict"))
            return Node("pointer", at, qualifiers, self.declarator(names))
        return self.direct(names)

    def direct(self, names):
        at = self.at()
        is_name = self.tokens[self.i][0] == "name" and not self.is_typedef()
        if names != "none" and is_name:
            inner = Node("named", at, self.name())
        elif self.here() == "(" and (names == "name" or not (self.is_spec(1) or self.here(1) == ")")):
            self.need("(")
            inner = Node("paren", at, self.declarator(names))
            self.need(")")
        elif names == "name":
            raise NoSentence(f"a declarator at {at}")
        else:
            inner = Node("nothing", at)
        while self.here() in ("[", "("):
            if self.take("["):
                bound = None if self.here() == "]" else self.cond()
                self.need("]")
                inner = Node("array", at, inner, bound)
            else:
                self.need("(")
                inner = Node("function", at, inner, self.params())
                self.need(")")
        return inner

    def params(self):
        if self.here() == ")":
            return []
        if self.here() == "void" and self.here(1) == ")":
            self.need("void")
            return []
        self.typedefs.append({})
        found = self.listed(self.param)
        self.typedefs.pop()
        return found

    def param(self):
        at, specs = self.at(), self.specs()
        declarator = self.declarator("either")
        if name_in(declarator):
            self.typedefs[-1][name_in(declarator)] = False
        return Node("param", at, specs, declarator)

    def declaration(self):
        at, specs = self.at(), self.specs()
        inits = []
        if self.here() != ";":
            is_typedef = any(s.kind == "word" and s.parts[0] == "typedef" for s in specs)
            inits = self.listed(lambda: self.init(is_typedef))
        self.need(";")
        return Node("declaration", at, specs, inits)

    def init(self, is_typedef):
        declarator = self.declarator("name")
        attributes = self.attributes()
        self.typedefs[-1][name_in(declarator)] = is_typedef
        return Node("init", declarator.at, declarator, attributes, self.given() if self.take("=") else None)

    def given(self):
        at = self.at()
        if not self.take("{"):
            return Node("one", at, self.assign())
        found = []
        while not found or self.here() != "}":
            found.append(self.given())
            if not self.take(","):
                break
        self.need("}")
        return Node("many", at, found)

    # statements
    def block(self):
        self.need("{")
        self.typedefs.append({})
        found = []
        while not self.take("}"):
            found.append(self.declaration() if self.is_declaration() else self.statement())
        self.typedefs.pop()
        return found

    def is_declaration(self):
        ahead = 0
        while self.here(ahead) == "__extension__":
            ahead += 1
        return self.is_spec(ahead)

    def maybe(self, end):
        found = None if self.here() == end else self.expr()
        self.need(end)
        return found

    def condition(self):
        self.need("(")
        return self.maybe(")") if self.here() != ")" else self.expr()

    def statement(self):
        at = self.at()
        if self.here() == "{":
            return Node("block", at, self.block())
        word = self.take("if", "while", "do", "for", "switch", "case", "default", "break", "continue", "return")
        if word is None:
            return Node("expression", at, self.maybe(";"))
        return getattr(self, word + "_statement")(at)

    def if_statement(self, at):
        test, then = self.condition(), self.statement()
        return Node("if", at, test, then, self.statement() if self.take("else") else None)

    def while_statement(self, at):
        return Node("while", at, self.condition(), self.statement())

    def do_statement(self, at):
        body = self.statement()
        self.need("while")
        test = self.condition()
        self.need(";")
        return Node("do", at, body, test)

    def for_statement(self, at):
        self.need("(")
        self.typedefs.append({})
        first = self.declaration() if self.is_declaration() else Node("expression", self.at(), self.maybe(";"))
        test = self.maybe(";")
        step = self.maybe(")")
        body = self.statement()
        self.typedefs.pop()
        return Node("for", at, first, test, step, body)

    def switch_statement(self, at):
        return Node("switch", at, self.condition(), self.statement())

    def case_statement(self, at):
        label = self.cond()
        self.need(":")
        return Node("case", at, label, self.statement())

    def default_statement(self, at):
        self.need(":")
        return Node("case", at, None, self.statement())

    def break_statement(self, at):
        self.need(";")
        return Node("break", at)

    def continue_statement(self, at):
        self.need(";")
        return Node("continue", at)

    def return_statement(self, at):
        return Node("return", at, self.maybe(";"))

    # units
    def unit(self):
        items = []
        while self.tokens[self.i][0] != "end":
            at, specs = self.at(), self.specs()
            if self.take(";"):
                items.append(Node("declaration", at, specs, []))
                continue
            is_typedef = any(s.kind == "word" and s.parts[0] == "typedef" for s in specs)
            declarator = self.declarator("name")
            attributes = self.attributes()
            if self.here() == "{":
                self.typedefs[-1][name_in(declarator)] = False
                items.append(Node("definition", at, specs, declarator, attributes, self.body(declarator)))
                continue
            self.typedefs[-1][name_in(declarator)] = is_typedef
            inits = [Node("init", declarator.at, declarator, attributes, self.given() if self.take("=") else None)]
            while self.take(","):
                inits.append(self.init(is_typedef))
            self.need(";")
            items.append(Node("declaration", at, specs, inits))
        return items

    def body(self, declarator):
        """The names of parameters hide typedef names in the body."""
        self.typedefs.append({name: False for name in parameter_names(declarator)})
        found = self.block()
        self.typedefs.pop()
        return found


def name_in(declarator):
    while declarator.kind not in ("named", "nothing"):
        declarator = declarator.parts[1] if declarator.kind == "pointer" else declarator.parts[0]
    return declarator.parts[0] if declarator.kind == "named" else None


def parameter_names(declarator):
    """Those of the derivation next to the name."""
    found = []
    while declarator.kind not in ("named", "nothing"):
        if declarator.kind == "function":
            found = [name_in(p.parts[1]) for p in declarator.parts[1]]
        elif declarator.kind != "paren":
            found = []
        declarator = declarator.parts[1] if declarator.kind == "pointer" else declarator.parts[0]
    return [name for name in found if name]


def sentence(text):
    """The items of a text, or None where it is no sentence."""
    try:
        return Parser(text).unit()
    except (NoSentence, KeyError, IndexError):
        return None
