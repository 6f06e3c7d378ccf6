"""The declarations of a topic, in the language of RFC 4506, section 6: as much of it as the kinds need."""

import re
from dataclasses import dataclass

from generator.table import Trouble, read_text

TOKEN = re.compile(r"/\*.*?\*/|[A-Za-z_]\w*|-?\d+|[{}\[\]<>();:,=*]|\S", re.S)

# RFC 4506's words for the items, and the names that kinds.txt has for them.
ITEMS = {
    ("unsigned", "int"): "u32",
    ("unsigned", "hyper"): "u64",
    ("uint32",): "u32",
    ("uint64",): "u64",
    ("bool",): "bool",
}

# What so many of a type are that a count says, which stands before them.
COUNTED = {"opaque": "opaque", "string": "opaque", "u32": "words", "int": "words"}


@dataclass(frozen=True)
class Field:
    type: str  # an item, `opaque`, `words`, or the name of a type
    name: str


@dataclass(frozen=True)
class Declared:
    """What a file declares: an alias, an enumeration, a record, a value that a flag says is there, a union on a status, or a program."""

    shape: str  # alias, enum, struct, optional, status or program
    name: str
    parts: tuple  # of an enumeration: (name, number); of a program: its procedures; otherwise fields, of a union on a status those behind success and a failure
    comment: str
    tag: str = ""  # of a union on a status: the type of that,
    ok: str = ""  # and its name for success


@dataclass(frozen=True)
class Procedure:
    name: str
    number: int
    arguments: str  # a type
    results: str


def types_of(declared):
    """The types that a declaration speaks of."""
    if declared.shape == "enum":
        return []
    if declared.shape == "program":
        return [type for part in declared.parts for type in (part.arguments, part.results)]
    return [part.type for part in declared.parts] + [declared.tag] * bool(declared.tag)


@dataclass(frozen=True)
class Topic:
    crate: str
    name: str
    path: str  # of the declarations, from the root
    head: str  # the first comment of the file
    declared: tuple


class Reader:
    """Tokens of one file, taken one after another."""

    def __init__(self, text, path):
        self.path = path
        self.tokens = [(m.group(), text.count("\n", 0, m.start()) + 1) for m in TOKEN.finditer(text)]
        self.at = 0
        self.comment = ""

    def trouble(self, why):
        line = self.tokens[min(self.at, len(self.tokens) - 1)][1] if self.tokens else 1
        return Trouble(f"{self.path}:{line}: {why}")

    def peek(self):
        while self.at < len(self.tokens) and self.tokens[self.at][0].startswith("/*"):
            self.comment = words(self.tokens[self.at][0])
            self.at += 1
        return self.tokens[self.at][0] if self.at < len(self.tokens) else ""

    def take(self, *wanted):
        token = self.peek()
        if wanted and token not in wanted:
            raise self.trouble(f"`{' or '.join(wanted)}` is to stand here, and not `{token or 'the end'}`")
        self.at += 1
        return token

    def word(self):
        token = self.take()
        if not re.fullmatch(r"[A-Za-z_]\w*", token):
            raise self.trouble(f"a name is to stand here, and not `{token}`")
        return token

    def number(self):
        token = self.take()
        if not token.isdigit() or int(token) >= 1 << 32:
            raise self.trouble(f"a number of 32 bits is to stand here, and not `{token}`")
        return int(token)


def words(comment):
    return " ".join(comment.strip("/*").split())


def read_topic(root, path):
    """The topic that a file declares."""
    place = str(path.relative_to(root))
    reader = Reader(read_text(path, root), place)
    if not reader.tokens or not reader.tokens[0][0].startswith("/*"):
        raise reader.trouble("a file of declarations begins with a comment: what they are, and of which RFC")
    head = words(reader.tokens.pop(0)[0])
    declared = []
    while reader.peek():
        declared.append(declaration(reader))
        reader.comment = ""
    names = [one.name for one in declared]
    for name in names:
        if names.count(name) > 1:
            raise Trouble(f"{place}: {name} is declared twice")
    return Topic(path.parent.parent.name, path.stem, place, head, tuple(declared))


def declaration(reader):
    kind = reader.take("typedef", "enum", "struct", "union", "program")
    comment = reader.comment
    if kind == "typedef":
        field = read_field(reader)
        return Declared("alias", field.name, (field,), comment)
    name = reader.word()
    if kind == "enum":
        parts = read_cases(reader)
    elif kind == "struct":
        parts = read_fields(reader)
    elif kind == "program":
        parts = read_program(reader)
    else:
        kind, parts, *on = read_union(reader)
        reader.take(";")
        return Declared(kind, name, tuple(parts), comment, *on)
    reader.take(";")
    return Declared(kind, name, tuple(parts), comment)


def read_cases(reader):
    reader.take("{")
    cases = []
    while True:
        name = reader.word()
        reader.take("=")
        cases.append((name, reader.number()))
        if reader.take(",", "}") == "}":
            return cases


def read_fields(reader):
    reader.take("{")
    fields = []
    while reader.peek() != "}":
        fields.append(read_field(reader))
    reader.take("}")
    return fields


def read_program(reader):
    """The procedures of a program (RFC 5531, section 12), which has one version."""
    for token in ("{", "version"):
        reader.take(token)
    reader.word()
    reader.take("{")
    parts = []
    while reader.peek() != "}":
        results, name = reader.word(), reader.word()
        reader.take("(")
        arguments = reader.word()
        for token in (")", "="):
            reader.take(token)
        parts.append(Procedure(name, reader.number(), arguments, results))
        reader.take(";")
    for token in ("}", "="):
        reader.take(token)
    reader.number()
    for token in (";", "}", "="):
        reader.take(token)
    reader.number()
    return parts


def read_union(reader):
    """A union on a flag whose FALSE has nothing, or on the status of a result. There is no other so far."""
    for token in ("switch", "("):
        reader.take(token)
    tag = reader.word()
    reader.word()
    for token in (")", "{", "case"):
        reader.take(token)
    ok = reader.take("TRUE") if tag == "bool" else reader.word()
    reader.take(":")
    parts = [read_field(reader)]
    if tag == "bool":
        shape = "optional"
        if reader.take("case", "default") == "case":
            reader.take("FALSE")
        reader.take(":")
    else:
        shape = "status"
        for token in ("default", ":"):
            reader.take(token)
        if reader.peek() != "void":
            parts.append(read_field(reader))
    if shape == "optional" or len(parts) == 1:
        for token in ("void", ";"):
            reader.take(token)
    reader.take("}")
    return (shape, parts) if shape == "optional" else (shape, parts, tag, ok)


def read_field(reader):
    """A type and a name. A bound on a length is read and set aside: docs/SCOPE.md, tolerance 7."""
    first = reader.word()
    if first == "unsigned":
        first = ITEMS[("unsigned", reader.take("int", "hyper"))]
    elif (first,) in ITEMS:
        first = ITEMS[(first,)]
    name = reader.word()
    counted = COUNTED.get(first)
    # An int is no item so far, and a list of them is one of words.
    if first in ("opaque", "string", "int") or counted and reader.peek() == "<":
        first = counted
        reader.take("<")
        if reader.peek() != ">":
            reader.take()
        reader.take(">")
    reader.take(";")
    return Field(first, name)
