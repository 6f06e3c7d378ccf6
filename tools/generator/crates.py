"""What the crates say of each kind: its reader, its writer, its meaning, and the laws about them."""

import re
from collections import defaultdict
from dataclasses import dataclass

from generator.table import Kind, Trouble, read_text, read_uses

READER = re.compile(r"^pub fn read_(\w+)\(\s*src: &\[u8\],\s*at: usize,?\s*\) -> Result<Took<(\w+)>, Refusal>\s+ensures .* \(view result\)", re.M)
WRITER = re.compile(r"^pub fn write_(\w+)\(\s*(src: )?", re.M)
PASSED_ON = re.compile(r"^pub use (\w+)::(\w+|\{[^}]*\});", re.M)
DECLARED = re.compile(r"^(?:([a-z]+) )?pub (\S+) : (.*)$", re.M)
# Also inside a module that has parameters, as the kinds over a reading are.
UNFOLDABLE = re.compile(r"^ *unfoldable pub (\S+) : (.*)$", re.M)
USED = re.compile(r"^use Rattle\.(\w+)\.(specs\.Meaning\.\w+)\.", re.M)
# The values whose types the door names as they are.
PLAIN_VALUES = {"bool", "i32", "i64", "u32", "u64", "Piece"}
CODEC = re.compile(r"^(\S+) = record \{ codec = ([^;]+);", re.M)


@dataclass(frozen=True)
class Name:
    """A name of the specifications: the module that declares it, and its type."""

    crate: str
    module: str
    name: str
    type: str


@dataclass(frozen=True)
class Facts:
    """What the lists need to know of a kind."""

    kind: Kind
    called: str  # the crate that the door calls its reader and its writer of
    value: str  # what the code holds of a message, as the door names its type
    source: bool  # the writer takes the source that the pieces are of
    meaning: Name
    within: Name
    bound: int  # of `within`
    bounded: Name | None  # the law that the kind is another one under a bound that is refused
    marked: Name  # what its marks tell, or that it has no padding
    marks: Name | None  # if it is held as a piece: which mark it has
    still: Name | None  # the law of the door that it has no loose forms
    unfoldable: tuple  # what can be unfolded in the module of the meaning: names


class Index:
    """The declarations of one crate. Each has a list of those with its name, so that a second one is noticed."""

    def __init__(self, root, crate):
        self.crate = crate
        self.readers = defaultdict(list)
        self.writers = defaultdict(list)
        self.meanings = defaultdict(list)
        self.within = defaultdict(list)
        self.bounded = defaultdict(list)
        self.marked = defaultdict(list)
        self.marks = defaultdict(list)
        self.still = defaultdict(list)
        self.unfoldable = defaultdict(list)
        self.used = defaultdict(list)
        self.codecs = {}
        self.passed_on = set()
        folder = root / "crates" / crate
        for path in sorted((folder / "src").rglob("*.rt")):
            self.add_code(path.relative_to(folder), read_text(path, root))
        for path in sorted((folder / "specs").rglob("*.antt")):
            self.add_specs(path.relative_to(folder), read_text(path, root))

    def add_code(self, path, text):
        for name, value in READER.findall(text):
            self.readers[name].append((path.parts[1:-1], value))
        for name, source in WRITER.findall(text):
            self.writers[name].append(bool(source))
        if path.name == "lib.rt":
            self.passed_on.update((module, name) for module, names in PASSED_ON.findall(text) for name in re.findall(r"\w+", names))

    def add_specs(self, path, text):
        module = f"Rattle.{self.crate}." + ".".join(path.with_suffix("").parts)
        for _, name, type in DECLARED.findall(text):
            found = Name(self.crate, module, name, type)
            if path.parts[1] == "Meaning":
                self.meanings[name].append(found)
            if type.startswith("Within "):
                _, bound, measured = type.split(" ", 2)
                self.within[measured].append((found, bound))
            elif type.startswith("Marked ") or type.startswith("Unpadded "):
                self.marked[type.split(" ", 1)[1]].append(found)
            elif re.match(r"\(x : Piece\) .* MarksAre (\S+) x l$", type):
                self.marks[type.split()[-3]].append(found)
            elif type.startswith("Bounded "):
                self.bounded[type.split()[-1]].append(found)
            elif type.startswith("Still "):
                self.still[type.split(" ", 1)[1]].append(found)
        self.unfoldable[module] = [Name(self.crate, module, name, type) for name, type in UNFOLDABLE.findall(text)]
        self.used[module] = [f"Rattle.{crate}.{used}" for crate, used in USED.findall(text) if crate == self.crate]
        self.codecs.update(CODEC.findall(text))

    def unfolded(self, module):
        """What can be unfolded in a module of meanings, and in those of the same crate that it uses: what a kind of it is made of."""
        return tuple(name for found in (module, *dict.fromkeys(self.used[module])) for name in self.unfoldable[found])


class Crates:
    def __init__(self, root):
        self.root = root
        self.uses = read_uses(root)
        self.indexes = {}

    def index(self, crate):
        if crate not in self.indexes:
            self.indexes[crate] = Index(self.root, crate)
        return self.indexes[crate]

    def reached(self, crate):
        """The crate, and those of this repository that it uses, nearest first."""
        found = [crate]
        for name in found:
            found += [used for used in self.uses.get(name, ()) if used in self.uses and used not in found]
        return found

    def find(self, crate, what, key):
        """The one declaration of a key, in the crate or in the nearest that it uses; none if there is none."""
        for name in self.reached(crate):
            found = getattr(self.index(name), what)[key]
            if len(found) > 1:
                raise Trouble(f"crates/{name}: {key} is declared {len(found)} times")
            if found:
                return found[0]
        return None

    def need(self, crate, what, key, words):
        found = self.find(crate, what, key)
        if found is None:
            raise Trouble(f"crates/{crate}: there is no {words}")
        return found

    def named_by(self, crate, item):
        """The crate by which others name an item: the one that passes it on, or else its own."""
        for other, uses in self.uses.items():
            if crate in uses and (crate, item) in self.index(other).passed_on:
                return other
        return crate

    def measured(self, kind):
        """What a law of the kind's lengths may be about. A format that has none has that of its codec."""
        if kind.exact:
            return [f"{kind.meaning}.kind"]
        codecs = [self.index(crate).codecs.get(kind.meaning) for crate in self.reached(kind.crate)]
        return [f"{kind.meaning}.codec.kind"] + [f"{codec}.kind" for codec in codecs if codec]

    def length_law(self, kind):
        for measured in self.measured(kind):
            found = self.find(kind.crate, "within", measured)
            if found:
                return found
        raise Trouble(f"crates/{kind.crate}/specs: there is no law of lengths (`Within`) of {kind.meaning}")

    def mark_law(self, kind):
        """What a kind's marks tell, or that it has none."""
        if kind.exact:
            return self.need(kind.crate, "marked", f"{kind.meaning}.kind", f"law `Unpadded` of {kind.meaning}")
        return self.need(kind.crate, "marked", f"{kind.meaning}.held", f"law `Marked` of {kind.meaning}")

    def facts(self, kind):
        crate = kind.crate
        if crate not in self.uses:
            raise Trouble(f"kinds.txt: there is no crate {crate} in crates.txt")
        modules, value = self.need(crate, "readers", kind.name, f"`pub fn read_{kind.name}(src, at)` with a contract")
        called = self.named_by(crate, f"read_{kind.name}")
        meaning = self.need(crate, "meanings", kind.meaning, f"meaning {kind.meaning}")
        within, bound = self.length_law(kind)
        return Facts(
            kind=kind,
            called=called,
            value=value if value in PLAIN_VALUES else "::".join((called, *modules, value)),
            source=self.need(crate, "writers", kind.name, f"`pub fn write_{kind.name}`"),
            meaning=meaning,
            within=within,
            bound=int(bound),
            bounded=self.find(crate, "bounded", kind.meaning),
            marked=self.mark_law(kind),
            marks=self.find(crate, "marks", kind.meaning),
            still=self.find("door", "still", kind.meaning if kind.exact else f"{kind.meaning}.codec"),
            unfoldable=self.index(meaning.crate).unfolded(meaning.module),
        )
