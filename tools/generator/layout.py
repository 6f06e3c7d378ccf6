"""Lines of code as `rt fmt` lays them out. Nothing of the kit is needed for that, so that what is made can be checked without it."""

import re

from generator.table import Trouble

# How wide a line may be: that of a `use` with its names in braces, a line of names below it, and any other.
WIDE_USE, WIDE_NAMES, WIDE = 98, 99, 100

# With more names than these in a row of `use` lines, each name has its own.
MOST_JOINED = 100

# How wide the arguments of a call may be in one line, the fields of a value or a pattern, and those that a case declares.
WIDE_ARGUMENTS, WIDE_FIELDS, WIDE_CASE = 60, 18, 35

# Arguments that are all as short stand behind one another where a call is broken.
SHORT = 10


def in_order(names):
    """In the order of `rt fmt`: _ before digits before letters, and numbers by their size."""
    return sorted(names, key=place)


def place(name):
    signs = re.findall(r"\d+|\D", name)
    return [(0, 0) if sign == "_" else (1, int(sign)) if sign.isdigit() else (2, ord(sign)) for sign in signs]


def use_lines(paths, start="use "):
    """The `use` lines of paths: a line for each module, in whose braces its names stand, and which then stands behind the modules in it."""
    paths, modules = set(paths), {}
    if len(paths) > MOST_JOINED:
        return [f"{start}{path};" for path in sorted(paths, key=lambda path: [place(part) for part in path.split("::")])]
    for path in paths:
        module, _, name = path.rpartition("::")
        modules.setdefault(module, []).append(name)

    def key(module):
        names = modules[module]
        return [place(part) for part in module.split("::")] + [place(names[0]) if len(names) == 1 else [(3, 0)]]

    return [line for module in sorted(modules, key=key) for line in use_of(f"{start}{module}::", in_order(modules[module]))]


def use_of(start, names):
    if len(names) == 1:
        return [f"{start}{names[0]};"]
    line = f"{start}{{{', '.join(names)}}};"
    if len(line) <= WIDE_USE:
        return [line]
    return [f"{start}{{", *filled(names), "};"]


def filled(names):
    """Names behind one another, with a comma each, in lines of four blanks before them."""
    rows = ["   "]
    for name in names:
        if len(f"{rows[-1]} {name},") > WIDE_NAMES:
            rows.append("   ")
        rows[-1] += f" {name},"
    return rows


def call(indent, head, arguments, end, broken=False):
    """A call, broken where it or its arguments are too wide. If its one argument is a call, that is broken in its place."""
    joined = ", ".join(arguments)
    if not broken and len(joined) <= WIDE_ARGUMENTS and len(f"{indent}{head}({joined}){end}") <= WIDE:
        return [f"{indent}{head}({joined}){end}"]
    alone = re.fullmatch(r"([\w:]+)\((.*)\)", arguments[0]) if len(arguments) == 1 else None
    if alone:
        return call(indent, f"{head}({alone[1]}", parted(alone[2]), f"){end}", broken=True)
    if all(len(argument) <= SHORT for argument in arguments):
        arguments = [", ".join(arguments)]
    return [f"{indent}{head}(", *(f"{indent}    {argument}," for argument in arguments), f"{indent}){end}"]


def signature(head, parameters, result):
    """The head of a function, with its result as ` -> T`."""
    line = f"{head}({', '.join(parameters)}){result}"
    if len(line) <= WIDE:
        return [line]
    indent = blanks(head)
    return [f"{head}(", *(f"{indent}    {parameter}," for parameter in parameters), f"{indent}){result}"]


# ---------------------------------------------------------------- lines that are too wide


def laid_out(text):
    """Code whose lines are as wide as they come, in the lines of `rt fmt`. Contracts and comments stay as wide as they are."""
    return "\n".join(row for line in text.split("\n") for row in laid(line))


def laid(line):
    if re.match(r" *(//|#|ensures |$)", line):
        return [line]
    head = re.fullmatch(r"( *(?:pub )?fn \w+)\((.*)\)( -> .+)?", line)
    if head:
        return signature(head[1], parted(head[2]), head[3] or "")
    for broken in (broken_braces, broken_sum, broken_call):
        rows = broken(line)
        if rows:
            return rows
    if len(line) > WIDE:
        raise Trouble(f"tools/generator/layout.py: it is not known how `rt fmt` breaks this line: {line.strip()}")
    return [line]


def broken_braces(line):
    """The first value, pattern or case whose fields are too wide for one line."""
    indent = blanks(line)
    wide = WIDE_CASE if re.fullmatch(r" +\w+ \{ .* \},", line) else WIDE_FIELDS
    for brace in re.finditer(r"(?<=\w) \{ ", line):
        close = closing(line, brace.end() - 2)
        fields, behind = line[brace.end() : close].strip(), line[close + 1 :]
        if len(fields) > wide:
            inner = [row for field in parted(fields) for row in laid(f"{indent}    {field},")]
            return [line[: brace.end() - 1], *inner, *laid_behind(indent, behind)]
    return None


def laid_behind(indent, behind):
    """What stands behind a closing brace: the `else` of a `let` is a line of its own."""
    if behind.endswith(" else {"):
        return [f"{indent}}}{behind.removesuffix(' else {')}", f"{indent}else {{"]
    return laid(f"{indent}}}{behind}")


def broken_call(line):
    """A call that ends the line, and whose arguments or whole is too wide."""
    for opened in re.finditer(r"(?<=\w)\(", line):
        close = closing(line, opened.start())
        arguments, behind = line[opened.end() : close], line[close + 1 :]
        if behind in ("", ",", ";", "?;") and (len(arguments) > WIDE_ARGUMENTS or len(line) > WIDE):
            case, arrow, result = line.partition(" => ")
            if arrow and opened.end() > WIDE:
                return [f"{case} =>", *laid(f"{blanks(line)}    {result}")]
            return call(blanks(line), line[: opened.start()].strip(), parted(arguments), behind)
    return None


def broken_sum(line):
    """A sum, or what is joined by &."""
    if len(line) <= WIDE:
        return None
    head, *more = parted(line, r" (?=[+&] )")
    return [head, *(f"{blanks(line)}    {part}" for part in more)] if more else None


def blanks(line):
    return " " * (len(line) - len(line.lstrip()))


def closing(line, start):
    """Where the bracket at a place is closed."""
    depth = 0
    for at in range(start, len(line)):
        depth += {"(": 1, "{": 1, "[": 1, ")": -1, "}": -1, "]": -1}.get(line[at], 0)
        if depth == 0:
            return at
    return len(line)


def parted(text, sign=", "):
    """The parts of a text between the signs that stand outside its brackets."""
    parts, start = [], 0
    for found in re.finditer(sign, text):
        if sum(map(text[: found.start()].count, "({[")) == sum(map(text[: found.start()].count, ")}]")):
            parts.append(text[start : found.start()])
            start = found.end()
    return parts + [text[start:]]
