"""The table kinds.txt: the kinds, and the door's groups of them."""

import re
from dataclasses import dataclass

# A group is proved arm by arm, in one step of the checker; more arms than these are slow.
MOST_IN_A_GROUP = 12


class Trouble(Exception):
    """One line: a file, and why nothing can be made from it."""


@dataclass(frozen=True)
class Kind:
    number: int
    name: str
    crate: str
    exact: bool  # the meaning is a codec, and stands behind `exactly`
    meaning: str  # without `exactly`

    @property
    def format(self):
        """The format as an argument."""
        return f"(exactly {self.meaning})" if self.exact else self.meaning


@dataclass(frozen=True)
class Group:
    first: int
    function: str
    list: str
    comment: str
    kinds: tuple


def read_text(path, root):
    try:
        return path.read_text(encoding="utf-8")
    except OSError as error:
        raise Trouble(f"{path.relative_to(root)}: {error.strerror}")


def read_uses(root):
    """The crates of crates.txt, and the crates that each uses. Behind a crate's name may stand what is built of it."""
    uses = {}
    for line in read_text(root / "crates.txt", root).splitlines():
        crate, colon, used = line.partition(":")
        if colon and not line.startswith("#"):
            uses[crate.split()[0]] = used.split()
    return uses


def read_table(root):
    """The kinds and the groups of kinds.txt."""
    kinds, heads = [], []
    for at, line in enumerate(read_text(root / "kinds.txt", root).splitlines(), 1):
        if line.startswith("# group: "):
            heads.append(read_group(at, line))
        elif line.strip() and not line.startswith("#"):
            kinds.append(read_row(at, line, len(kinds)))
    if not kinds:
        raise Trouble("kinds.txt: there is no kind")
    return tuple(kinds), filled(heads, kinds)


def columns(line):
    return [column.strip() for column in line.split("|")]


def read_row(at, line, number):
    row = columns(line)
    if len(row) != 6:
        raise Trouble(f"kinds.txt:{at}: a row has six columns, and this has {len(row)}")
    if row[0] != str(number):
        raise Trouble(f"kinds.txt:{at}: the number is {row[0]}, and the next one is {number}")
    meaning = re.fullmatch(r"(exactly )?([a-z][a-z0-9_-]*)", row[3])
    if not meaning:
        raise Trouble(f"kinds.txt:{at}: no meaning: {row[3]}")
    return Kind(number, row[1], row[2], bool(meaning[1]), meaning[2])


def read_group(at, line):
    head = columns(line[len("# group: "):])
    if (
        len(head) != 4
        or not head[0].isdigit()
        or not re.fullmatch(r"copy_[a-z0-9_]+", head[1])
        or not re.fullmatch(r"[a-z]+_kinds", head[2])
    ):
        raise Trouble(f"kinds.txt:{at}: a group is `# group: NUMBER | copy_NAME | NAME_kinds | COMMENT`")
    return Group(int(head[0]), head[1], head[2], head[3], ())


def filled(heads, kinds):
    """The groups with their kinds: each up to the next one's first number."""
    firsts = [head.first for head in heads]
    if not firsts or firsts[0] != 0 or firsts != sorted(set(firsts)) or firsts[-1] >= len(kinds):
        raise Trouble("kinds.txt: the first group begins at 0, and each other one at a kind behind the group before")
    groups = []
    for head, end in zip(heads, firsts[1:] + [len(kinds)]):
        group = Group(head.first, head.function, head.list, head.comment, tuple(kinds[head.first : end]))
        if len(group.kinds) > MOST_IN_A_GROUP:
            raise Trouble(
                f"kinds.txt: the group {group.function} has {len(group.kinds)} kinds, and a group has at most"
                f" {MOST_IN_A_GROUP}: add a line `# group:` that begins at {group.first + MOST_IN_A_GROUP} or before"
            )
        groups.append(group)
    return tuple(groups)


# The most marks that xdr's type Marks has room for.
MOST_PIECES = 2


def read_pieces(root, kinds):
    """The pieces of each kind that has any: (kind, names of fields) for each of its cases."""
    by_name, found = {kind.name: kind for kind in kinds}, []
    for at, line in enumerate(read_text(root / "kinds.txt", root).splitlines(), 1):
        if not line.startswith("# pieces: "):
            continue
        name, *cases = columns(line[len("# pieces: "):])
        if name not in by_name or not cases or not all(cases):
            raise Trouble(f"kinds.txt:{at}: pieces are `# pieces: KIND | FIELD ..`, with a list for each case")
        cases = [tuple(case.split()) for case in cases]
        counts = [len(case) for case in cases]
        if len(set(counts)) != len(counts) or max(counts) > MOST_PIECES:
            raise Trouble(f"kinds.txt:{at}: the cases of {name} have 1 to {MOST_PIECES} pieces, each another count")
        found += [(by_name[name], case) for case in cases]
    names = [kind.name for kind, _ in found]
    if sorted(set(names), key=lambda name: by_name[name].number) != list(dict.fromkeys(names)):
        raise Trouble("kinds.txt: the lines of pieces are in the order of the kinds, one for each")
    return found
