"""The files of each topic: crates/CRATE/rfc/TOPIC.x has its declarations, and all else is made from them."""

import re

from generator.enumeration import Enumeration, Statuses
from generator.known import ITEMS, VERIFIER, Known, Words, camel, escaped, law_head, stem
from generator.language import read_topic, types_of
from generator.layout import laid_out, use_lines
from generator.optional import Optional
from generator.program import Program
from generator.record import MOST_FIELDS, Record
from generator.status import NFS, Result
from generator.table import Trouble, read_table, read_text, read_uses

HEADER = "made by tools/generate from "

# Eight fixed bytes, which the code holds as the number that they write.
VERIFIERS = {"cookieverf3", "createverf3", "writeverf3"}


def outputs(root):
    """What is made of every topic: (path, text) for a whole file, (path, name, text) for a region."""
    topics = [read_topic(root, path) for path in sorted(root.glob("crates/*/rfc/*.x"))]
    library = Library(root, topics)
    files, regions = {}, []
    for crate in dict.fromkeys(topic.crate for topic in topics):
        own = [library.made[topic.path] for topic in topics if topic.crate == crate]
        for made in own:
            files.update(made.files())
        regions += crate_regions(crate, own)
    return list(files.items()) + regions


def crate_regions(crate, topics):
    """The lines of a crate's own files that bring its topics in."""
    base = f"crates/{crate}"
    names = [made.topic.name for made in topics]
    passed_on = [f"{made.topic.name}::{name}" for made in topics for name in made.passed_on()]
    # `rt fmt` wants an empty line before a comment of the specifications.
    titles = "".join(f"pub mod {camel(name)}\n" for name in names) + "\n"
    return [
        (f"{base}/src/lib.rt", "modules", "".join(f"pub mod {name};\n" for name in names)),
        (f"{base}/src/lib.rt", "names", "".join(f"{line}\n" for line in use_lines(passed_on, "pub use "))),
        (f"{base}/specs/Meaning.antt", "meanings", titles),
        (f"{base}/specs/Laws.antt", "laws", titles),
        (f"{base}/proofs/Lib.antt", "ranges", "".join(f"pub mod {camel(made.topic.name)}Ranges\n" for made in topics if made.has_ranges()) + "\n"),
    ]


class Library:
    """Every kind that a field may have, and the topics."""

    def __init__(self, root, topics):
        self.root = root
        self.kinds = {kind.name: kind for kind in read_table(root)[0]}
        self.below = read_uses(root)
        self.known = dict(ITEMS)
        self.aliases = {}
        self.code, self.specs, self.sizes, self.bounds = {}, {}, {}, {}
        for crate in self.below:
            self.scan(crate)
        self.statuses = {NFS.type: NFS}
        self.switched = {one.tag for topic in topics for one in topic.declared if one.tag}
        self.made = {}
        for topic in self.ordered(topics):
            self.made[topic.path] = Made(self, topic)

    def scan(self, crate):
        """What a crate declares by hand: names of the code by their paths, names of the specifications by their modules."""
        folder = self.root / "crates" / crate
        code, specs = self.code.setdefault(crate, {}), self.specs.setdefault(crate, {})
        for path in sorted((folder / "src").rglob("*.rt")):
            module = path.relative_to(folder / "src").with_suffix("").parts
            text = read_text(path, self.root)
            if text.startswith(f"// {HEADER}"):
                continue
            where = "::".join((crate, *module)) if module != ("lib",) else crate
            for name in re.findall(r"^pub (?:fn|struct|enum|type|const) (\w+)", text, re.M):
                code.setdefault(name, f"{where}::{name}")
            for name in re.findall(r"^pub (?:struct|enum) (\w+)", text, re.M):
                specs.setdefault(escaped(name), f"Rattle.{crate}.specs.declared.{'.'.join(module)}.{name}")
            for name, alias in re.findall(r"^pub type (\w+) = (\w+);", text, re.M):
                self.aliases.setdefault(name, {"Piece": "opaque"}.get(alias, alias))
            for name, size in re.findall(r"^impl (\w+) {\n    pub const SIZE: usize = (\d+);", text, re.M):
                self.sizes[(crate, name)] = int(size)
        for part in ("specs", "proofs"):
            for path in sorted((folder / part).rglob("*.antt")):
                if path.name == "Proof.antt":
                    continue
                text = read_text(path, self.root)
                if text.startswith(f"-- {HEADER}"):
                    continue
                module = f"Rattle.{crate}." + ".".join(path.relative_to(folder).with_suffix("").parts)
                for name in re.findall(r"^(?:abbrev |unfoldable )?pub (?:record |ruleset )?(\S+)", text, re.M):
                    specs.setdefault(name, module)
                for name, least, most in re.findall(r"^pub (\S+)-between : .* Between (\d+) (\d+) ", text, re.M):
                    self.bounds[(crate, name)] = (int(least), int(most))

    def ordered(self, topics):
        """The topics whose kinds others have for fields come first."""
        left = list(topics)
        while left:
            for topic in left:
                names = {one.name for other in left if other is not topic for one in other.declared}
                if not names & {type for one in topic.declared for type in types_of(one)}:
                    yield topic
                    left.remove(topic)
                    break
            else:
                raise Trouble(f"{left[0].path}: the topics need one another")

    def kind_of(self, type, topic):
        """The kind that a field of a type has."""
        if type in VERIFIERS:
            return VERIFIER
        while type in self.aliases:
            type = self.aliases[type]
        if type not in self.known:
            self.known[type] = self.by_hand(type, topic)
        return self.known[type]

    def by_hand(self, name, topic):
        """A kind whose text is not made: what its crate says of it."""
        row = self.kinds.get(name)
        if row is None:
            raise Trouble(f"{topic.path}: there is no kind {name} in kinds.txt, and no topic declares it")
        reader, size, head = f"{name}_at", self.sizes.get((row.crate, name), 0), law_head(row.meaning)
        if reader not in self.code[row.crate]:
            raise Trouble(f"crates/{row.crate}/src: there is no `pub fn {reader}`")
        between = self.bounds.get((row.crate, head), (0, 0))
        if not size and not any(between):
            raise Trouble(f"crates/{row.crate}/specs/Laws: there is no law {head}-between, and {name} has no constant SIZE")
        if not row.exact:
            raise Trouble(f"{topic.path}: {name} has pieces and is written by hand, which no field may be yet")
        return Known(name, name, True, row.meaning, escaped(name), escaped(name), size, f"{head}-good", *between)


class Made:
    """A topic, and the text of its files."""

    def __init__(self, library, topic):
        self.library, self.topic = library, topic
        self.kinds, self.types = [], []
        for declared in topic.declared:
            if declared.shape == "alias":
                self.add_alias(declared)
            else:
                kind = self.kind(declared)
                kind.public = stem(declared.name) in library.kinds
                if isinstance(kind, Statuses):
                    library.statuses[declared.name] = kind.status
                self.kinds.append(kind)
                if kind.known:
                    library.known[kind.code_type] = kind.known
        self.register()

    def add_alias(self, declared):
        field = declared.parts[0]
        self.types.append((declared, self.code_type(field.type)))
        self.library.aliases[declared.name] = field.type

    def code_type(self, type):
        return ITEMS[type].type if type in ITEMS else type

    def kind(self, declared):
        if declared.shape == "program":
            kinds = [[self.library.kind_of(type, self.topic) for type in (part.arguments, part.results)] for part in declared.parts]
            return Program(declared, self.topic, kinds)
        meaning = self.meaning(declared.name)
        if declared.shape == "enum":
            return (Statuses if declared.name in self.library.switched else Enumeration)(declared, meaning, self.topic)
        fields = [self.library.kind_of(part.type, self.topic) for part in declared.parts]
        types = [self.code_type(part.type) for part in declared.parts]
        if declared.shape == "optional":
            if fields[0].codec and not fields[0].fixed:
                raise Trouble(f"{self.topic.path}: {declared.name}: a value behind a flag has pieces or a fixed size, so far")
            return Optional(declared, meaning, self.topic, fields[0], types[0])
        if declared.shape == "status":
            return Result(declared, meaning, self.topic, self.status(declared), (fields + [None])[:2], (types + [""])[:2])
        if len(fields) > MOST_FIELDS:
            raise Trouble(f"{self.topic.path}: {declared.name} has {len(fields)} fields, and {MOST_FIELDS} are the most: make groups of them")
        if not fields:
            raise Trouble(f"{self.topic.path}: {declared.name} has no field")
        return Record(declared, meaning, self.topic, fields, types)

    def status(self, declared):
        """The status that a union switches on."""
        status = self.library.statuses.get(declared.tag)
        if status is None:
            raise Trouble(f"{self.topic.path}: {declared.name} switches on {declared.tag}, which is neither bool nor a status that is declared before")
        if declared.ok != status.ok:
            raise Trouble(f"{self.topic.path}: {declared.name}: the first case of {declared.tag} is {status.ok}, and not {declared.ok}")
        return status

    def meaning(self, name):
        row = self.library.kinds.get(stem(name))
        meaning = row.meaning if row else re.sub("3(?=[a-z])", "_", re.sub("3(?=_|$)", "", stem(name)))
        if meaning == name:
            meaning = meaning.replace("_", "-")
        if meaning in Words().specs:
            raise Trouble(f"{self.topic.path}: {name} cannot be called {meaning}, which is a name of the laws already")
        if meaning == escaped(name):
            raise Trouble(f"{self.topic.path}: {name} needs a row in kinds.txt with another word for its meaning: the type has this one")
        return meaning

    # ------------------------------------------------ where its names are

    def module(self, part, title=None):
        crate = self.topic.crate
        return f"Rattle.{crate}.{part}.{title or camel(self.topic.name)}"

    def register(self):
        """Its own names, for itself and for the topics above."""
        crate, name = self.topic.crate, self.topic.name
        code, specs = self.library.code[crate], self.library.specs[crate]
        for declared, _ in self.types:
            code[declared.name] = f"{crate}::{name}::{declared.name}"
        texts = {"specs.Meaning": self.meaning_parts(), "specs.Laws": self.law_parts()}
        for part, parts in texts.items():
            for found in re.findall(r"^(?:abbrev |unfoldable )?pub (?:record )?(\S+)", "\n".join(parts), re.M):
                specs[found] = self.module(part)
        for kind in self.kinds:
            for found in re.findall(r"^pub (?:fn|struct|enum) (\w+)", "\n\n".join(kind.code()), re.M):
                code[found] = f"{crate}::{name}::{found}"
            for type in re.findall(r"^pub (?:struct|enum) (\w+)", "\n\n".join(kind.code()), re.M):
                specs[escaped(type)] = f"Rattle.{crate}.specs.declared.{name}.{type}"
            for good in kind.goods():
                specs[good] = self.module("proofs", f"{camel(name)}Ranges")

    def words(self):
        """The names, as this crate writes where they are."""
        crate = self.topic.crate
        words = Words()
        for one in [crate] + self.library.below[crate]:
            for name, path in self.library.code.get(one, {}).items():
                words.code.setdefault(name, re.sub(rf"^{crate}::", "crate::", path))
            for name, module in self.library.specs.get(one, {}).items():
                words.specs.setdefault(name, module)
        return words

    def passed_on(self):
        names = [declared.name for declared, _ in self.types]
        for kind in self.kinds:
            names += kind.passed_on()
        return names

    # ------------------------------------------------ the files

    def files(self):
        crate, name, title = self.topic.crate, self.topic.name, camel(self.topic.name)
        base = f"crates/{crate}"
        words = self.words()
        files = {
            f"{base}/src/{name}.rt": self.code_file(words),
            f"{base}/specs/Meaning/{title}.antt": self.spec_file(words, self.topic.head, self.meaning_parts(), "Meaning"),
            f"{base}/specs/Laws/{title}.antt": self.spec_file(words, f"What follows for the kinds of {self.topic.name}: how they are read, how many bytes they have, and what is laid of them.", self.law_parts(), "Laws"),
        }
        if self.has_ranges():
            files[f"{base}/proofs/{title}Ranges.antt"] = self.ranges_file(words)
        for kind in self.kinds:
            for function, proof in kind.proofs().items():
                module = f"Rattle.{crate}.proofs.{name}.{function.replace('/', '.')}"
                files[f"{base}/proofs/{name}/{function}/{proof.file}"] = f"-- {HEADER}{self.topic.path}\n" + proof.text(function, module, words)
        return files

    def code_file(self, words):
        parts = []
        for declared, type in self.types:
            comment = f"// {declared.comment}\n" if declared.comment else ""
            parts.append(f"{comment}pub type {declared.name} = {type};")
        for kind in self.kinds:
            parts += kind.code()
        text = "\n\n".join(parts)
        contracts = " ".join(re.findall(r"ensures \{(.*)\}$", text, re.M))
        own = set(re.findall(r"^\s*(?:pub )?(?:fn|struct|enum|type) (\w+)", text, re.M))
        ghosts = words.spec_lines(contracts, ghost=True)
        code = re.sub(r"ensures \{.*\}|//.*", "", text)
        uses = use_lines(words.code_paths(code, own))
        head = f"// {HEADER}{self.topic.path}\n// {self.topic.head}\n"
        return head + "\n".join([*ghosts, "", *uses]) + "\n\n" + laid_out(text) + "\n"

    def meaning_parts(self):
        return [part for kind in self.kinds for part in kind.meanings()]

    def law_parts(self):
        return [part for kind in self.kinds for part in kind.laws()]

    def aliases(self, text):
        """The cases of a type stand behind a short name of it."""
        crate, name = self.topic.crate, self.topic.name
        lines = []
        for kind in self.kinds:
            for alias, type in kind.aliased().items():
                if re.search(rf"(?<![\w·-]){alias}\.[A-Z«a-z]", text):
                    lines.append(f"use Rattle.{crate}.specs.declared.{name}.{type}.TheVariants as {alias}")
        return lines

    def spec_file(self, words, comment, parts, part):
        text = "\n\n".join(parts)
        own = set(re.findall(r"^(?:abbrev |unfoldable )?pub (?:record )?(\S+)", text, re.M))
        lines = words.spec_lines(text, own) + self.aliases(text)
        return f"-- {HEADER}{self.topic.path}\n-- {comment}\n-- Assumes nothing.\n" + "\n".join(lines) + "\n\n" + text + "\n"

    def has_ranges(self):
        return any(kind.goods() for kind in self.kinds)

    def ranges_file(self, words):
        plain, held = [], []
        for kind in self.kinds:
            first, second = kind.ranges()
            plain += first
            held += second
        parts = list(plain)
        if held:
            inner = "\n\n".join(held)
            parts.append("module _ (s : List ℕ) (h : Bytes s) (k : length s ≤ most) where\n" + "\n".join(f"  {line}" if line else "" for line in inner.split("\n")))
        text = "\n\n".join(parts)
        own = {good for kind in self.kinds for good in kind.goods()}
        lines = words.spec_lines(text, own, proofs=True) + self.aliases(text)
        for kind in self.kinds:
            if kind.known and f"{kind.dashed}·.the_row" in text:
                lines.append(f"use Rattle.{self.topic.crate}.specs.contracts.{self.topic.name}.{kind.code_type} as {kind.dashed}·")
        head = "Ranges: every value of a declared type means a message in range."
        return f"-- {HEADER}{self.topic.path}\n-- {head}\n-- Assumes nothing.\n" + "\n".join(lines) + "\n\n" + text + "\n"
