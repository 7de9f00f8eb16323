"""What the names of a unit of C99 stand for (6.2.1 to 6.2.4), its specifiers and its declarators (6.7.1 to 6.7.5), for
typed_units.py."""
from c_operands import Broken, Operators, of_constants, worked_out
from c_types import (INT, MOST_BYTES, TRAP, VOID, Structure, Type, integer, is_integer, is_object, kind, plain, pointer,
                     qualified, unqualified)

WORDS = {("void",): VOID}
for spelled, word in {"char": "char", "signed char": "schar", "unsigned char": "uchar", "_Bool": "bool",
                      "short": "short", "signed short": "short", "short int": "short", "signed short int": "short",
                      "unsigned short": "ushort", "unsigned short int": "ushort", "int": "int", "signed": "int",
                      "signed int": "int", "unsigned": "uint", "unsigned int": "uint", "long": "long",
                      "signed long": "long", "long int": "long", "signed long int": "long", "unsigned long": "ulong",
                      "unsigned long int": "ulong", "long long": "llong", "signed long long": "llong",
                      "long long int": "llong", "signed long long int": "llong", "unsigned long long": "ullong",
                      "unsigned long long int": "ullong"}.items():
    WORDS[tuple(sorted(spelled.split()))] = integer(word)

STORAGE = {"typedef", "extern", "static", "auto", "register"}
# where which storage classes have a meaning, beside those of functions in blocks
MEANT = {"file": {"typedef", "extern", "static"}, "block": STORAGE, "for": {"auto", "register"}, "param": {"register"},
         "member": set(), "type": set(), "definition": {"extern", "static"}}
MODES = {"QI": 1, "HI": 2, "SI": 4, "DI": 8}
# what attributes are about
ABOUT = {"signal": {"function"}, "interrupt": {"function"}, "noinline": {"function"}, "always_inline": {"function"},
         "used": {"function", "static"}, "externally_visible": {"function", "static"},
         "unused": {"function", "static", "local", "param", "member", "typedef", "structure"}, "mode": {"typedef"}}


class Known:
    """An object, a device or a function with a place in memory."""

    def __init__(self, name, linkage, t, what):
        self.name, self.linkage, self.type, self.what = name, linkage, t, what
        self.first, self.given, self.tentative, self.leaves, self.entry, self.body = None, 0, False, [], None, None
        self.number, self.locals, self.params = 0, [], 0


class Specified:
    def __init__(self, storage, word_at, t, marks, alone):
        self.storage, self.word_at, self.type, self.marks, self.alone = storage, word_at, t, marks, alone


def plain_word(word):
    return word[2:-2] if len(word) > 4 and word.startswith("__") and word.endswith("__") else word


class Scopes(Operators):
    def __init__(self, target, named=None):
        """Of intrinsics that have other names, `named` has each by what it does."""
        super().__init__(target)
        self.scopes, self.tags = [{}], [{}]
        self.names, self.linked, self.structures, self.completed, self.locals = [], {}, [], [], []
        self.intrinsics = {(named or {}).get(what, "irq_" + what): what for what in ("off", "on", "save", "restore")}
        self.defined, self.unfinished = set(), None

    # scopes
    def enter(self, names=None, tags=None):
        self.scopes.append({} if names is None else names)
        self.tags.append({} if tags is None else tags)

    def leave(self):
        return self.scopes.pop(), self.tags.pop()

    def visible(self, name):
        return next((s[name] for s in reversed(self.scopes) if name in s), None)

    def declare(self, name, at, meaning):
        """A name without linkage (6.7, 3)."""
        if name in self.intrinsics:
            raise Broken(39, at)
        if name in self.scopes[-1]:
            raise Broken(2, at)
        self.scopes[-1][name] = meaning

    # constants that are needed (6.6)
    def needed(self, node, rule, at):
        """The value of an integer constant expression, of which the construct at `at` asks."""
        x = self.used(self.expr(node))
        if x.what is None or not is_integer(x.type) or not of_constants(x.what):
            raise Broken(rule, at)
        found = worked_out(self.target, x.what)
        if found == TRAP:
            raise Broken(13, at)
        return found

    # attributes
    def attributes(self, nodes, about):
        """What attributes say of things of these kinds: (handler or None, bytes of a mode or None)."""
        marks = []
        for node in nodes:
            for word, arg in node.parts[0]:
                word = plain_word(word)
                arg = arg and plain_word(arg)
                is_known = word in ABOUT and (arg in MODES if word == "mode" else arg is None)
                if not is_known or not about or any(a not in ABOUT[word] for a in about):
                    raise Broken(11, node.at)
                marks.append((word, arg, node.at))
        return marks

    # specifiers (6.7.1 to 6.7.3)
    def specified(self, nodes, where, about, is_given=False, functions=False, declares=False):
        storage, word_at, words, types, const, volatile, marks, alone = None, None, [], [], False, False, [], None
        for node in nodes:
            if node.kind == "word" and node.parts[0] in STORAGE:
                self.storage_word(node, storage, where, is_given, functions)
                storage, word_at = node.parts[0], node.at
            elif node.kind == "word":
                const, volatile = const or node.parts[0] == "const", volatile or node.parts[0] == "volatile"
                words += [w for w in node.parts if w not in ("const", "volatile", "restrict", "inline")]
            elif node.kind == "attribute":
                marks += self.attributes([node], about)
            elif node.kind == "named":
                types.append(self.visible(node.parts[0])[1])
            elif node.kind == "struct":
                found, new = self.structure(node, declares)
                types.append(found)
                alone = found.shape[1] if new and node.parts[0] is None else None
            else:
                types.append(self.enumeration(node))
        if words:
            types.append(WORDS.get(tuple(sorted(words))))
        if len(types) != 1 or types[0] is None:
            raise Broken(3, nodes[0].at)
        return Specified(storage, word_at, qualified(types[0], const, volatile), marks, alone)

    def storage_word(self, node, before, where, is_given, functions):
        word = node.parts[0]
        if before or word not in MEANT[where]:
            raise Broken(4, node.at)
        if where == "block" and functions and word in ("static", "auto", "register"):
            raise Broken(4, node.at)
        if is_given and (word == "typedef" or where == "block" and word == "extern"):
            raise Broken(4, node.at)

    # structures and enumerations (6.7.2.1 to 6.7.2.3)
    def structure(self, node, declares):
        """The type, and whether its members stand here."""
        tag, members, before, behind = node.parts
        self.attributes(before, ["structure"])
        if members is None:
            return plain("struct", self.named_structure(node, tag, declares)), False
        found = self.tags[-1].get(tag) if tag else None
        if found in ("enum", "open"):
            raise Broken(2, node.at)
        if found is None:
            found = self.new_structure(tag)
        listed = self.members(members)
        self.attributes(behind, ["structure"])
        if found.members is not None:
            raise Broken(6, node.at)
        found.members = listed
        self.completed.append(found)
        if self.target.size(plain("struct", found)) > MOST_BYTES:
            raise Broken(6, node.at)
        return plain("struct", found), True

    def new_structure(self, tag):
        found = Structure(tag)
        self.structures.append(found)
        if tag:
            self.tags[-1][tag] = found
        return found

    def named_structure(self, node, tag, declares):
        """`struct s;` alone declares it in this scope; elsewhere one that is visible is spoken of."""
        found = self.tags[-1].get(tag)
        if not declares and found is None:
            found = next((t[tag] for t in reversed(self.tags) if tag in t), None)
        if found in ("enum", "open"):
            raise Broken(2, node.at)
        return found or self.new_structure(tag)

    def members(self, nodes):
        listed = []
        for node in nodes:
            specs, declarators = node.parts
            base = self.specified(specs, "member", ["member"])
            for declarator in declarators:
                name, t, _ = self.declared(declarator, base.type, "member")
                if not is_object(t):
                    raise Broken(6, declarator.at)
                if self.target.size(t) > MOST_BYTES:
                    raise Broken(6, declarator.at)
                if any(other == name for other, _ in listed):
                    raise Broken(7, declarator.at)
                listed.append((name, t))
        return listed

    def enumeration(self, node):
        tag, constants = node.parts
        if constants is None:
            found = next((t[tag] for t in reversed(self.tags) if tag in t), None)
            if found != "enum":
                raise Broken(2 if isinstance(self.tags[-1].get(tag), Structure) else 1, node.at)
            return INT
        is_declared = tag in self.tags[-1]
        if tag and not is_declared:
            self.tags[-1][tag] = "open"
        next_value = 0
        for constant in constants:
            name, given = constant.parts
            if given is not None:
                next_value = self.needed(given, 12, constant.at)
            if not self.target.holds("int", next_value):
                raise Broken(12, constant.at)
            self.declare(name, constant.at, ("enum", next_value))
            next_value += 1
        if tag and is_declared:
            raise Broken(2, node.at)
        if tag:
            self.tags[-1][tag] = "enum"
        return INT

    # declarators (6.7.5)
    def derivations(self, node, where, is_given, found):
        """What a declarator derives, the nearest to the name first; each as (kind, node, what it needs)."""
        if node.kind in ("named", "nothing"):
            return node.parts[0] if node.kind == "named" else None
        if node.kind == "paren":
            return self.derivations(node.parts[0], where, is_given, found)
        name = self.derivations(node.parts[1] if node.kind == "pointer" else node.parts[0], where, is_given, found)
        if node.kind == "array" and found and found[-1][0] == "func":
            raise Broken(10, node.at)
        if node.kind == "function" and found and found[-1][0] in ("func", "array"):
            raise Broken(10 if found[-1][0] == "func" else 6, node.at)
        if node.kind == "pointer":
            found.append(("ptr", node, node.parts[0]))
        elif node.kind == "array":
            if node.parts[1] is None:
                if found or not (is_given or where == "param"):
                    raise Broken(5, node.at)
                found.append(("array", node, None))
            else:
                bound = self.needed(node.parts[1], 5, node.at)
                if not 1 <= bound <= 65535:
                    raise Broken(5, node.at)
                found.append(("array", node, bound))
        else:
            named = where == "definition" and not found
            found.append(("func", node, self.parameters(node.parts[1], named)))
        return name

    def declared(self, node, base, where, is_given=False):
        """The name and the type of a declarator, and its derivations."""
        found = []
        name = self.derivations(node, where, is_given, found)
        t = base
        for i in reversed(range(len(found))):
            what, part, needs = found[i]
            t = self.derived(t, what, part, needs)
            if where == "param" and i == 0 and what == "array":
                t = pointer(t.shape[1])
        if where == "param" and kind(t) == "array":
            t = pointer(t.shape[1])
        if where == "param" and kind(t) == "func":
            t = pointer(t)
        return name, t, found

    def derived(self, t, what, part, needs):
        if what == "ptr":
            if kind(t) == "void":
                raise Broken(8, part.at)
            return Type(("ptr", t), "const" in needs, "volatile" in needs)
        if what == "array":
            if not is_object(t):
                raise Broken(6, part.at)
            if needs is not None and self.target.size(t) * needs > MOST_BYTES:
                raise Broken(6, part.at)
            return plain("array", t, needs)
        if kind(t) == "struct":
            raise Broken(9, part.at)
        if kind(t) in ("array", "func"):
            raise Broken(10, part.at)
        return plain("func", t, tuple(unqualified(p) for _, p in needs[0]))

    def parameters(self, nodes, are_named):
        """Their names and types, and their scope."""
        self.enter()
        listed = []
        for node in nodes:
            specs, declarator = node.parts
            base = self.specified(specs, "param", ["param"])
            name, t, _ = self.declared(declarator, base.type, "param")
            if kind(t) == "struct":
                raise Broken(9, declarator.at)
            if kind(t) == "void":
                raise Broken(6, declarator.at)
            if name is not None:
                self.declare(name, declarator.at, ("local", len(listed), t))
            elif are_named:
                raise Broken(2, declarator.at)
            listed.append((name, t))
        return listed, self.leave()

    def type_named(self, node):
        specs, declarator = node.parts
        base = self.specified(specs, "type", [])
        return self.declared(declarator, base.type, "type")[1]

    # linkage (6.2.2)
    def linked_as(self, name, at, storage):
        """The linkage of a name that is declared by `static`, by `extern`, or at file scope by neither."""
        before = self.visible(name)
        if storage == "static":
            linkage = "internal"
        elif storage == "extern" and before and before[0] == "known" and before[1].linkage != "local":
            linkage = before[1].linkage
        else:
            linkage = "external"
        here = self.scopes[-1].get(name)
        if here and (here[0] != "known" or here[1].linkage == "local"):
            raise Broken(2, at)
        if name in self.linked and self.linked[name].linkage != linkage:
            raise Broken(2, at)
        return linkage

    def declare_linked(self, name, at, storage, t, what):
        linkage = self.linked_as(name, at, storage)
        found = self.linked.get(name)
        if found is None:
            found = Known(name, linkage, t, what)
            self.names.append(found)
            self.linked[name] = found
        elif found.type != t:
            raise Broken(2, at)
        self.scopes[-1][name] = ("known", found)
        return found
