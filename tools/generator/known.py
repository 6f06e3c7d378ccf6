"""What the text of a kind says of the kinds of its fields, and where each name that it uses is declared."""

import re
from dataclasses import dataclass, replace

# Words of the specifications' language, which a name there may not be.
RESERVED = {"abbrev", "as", "data", "in", "let", "mod", "module", "pub", "record", "ruleset", "use", "where"}


def escaped(name):
    """A name of the code, as the specifications write it."""
    return f"«{name}»" if name in RESERVED else name


def bracket(text):
    """A text as an argument."""
    return f"({text})" if " " in text and not bracketed(text) else text


def bracketed(text):
    """Whether a text is one pair of brackets, and what stands in them."""
    depth = 0
    for at, sign in enumerate(text):
        depth += {"(": 1, ")": -1}.get(sign, 0)
        if depth == 0:
            return sign == ")" and at == len(text) - 1
    return False


def camel(name):
    return "".join(part[:1].upper() + part[1:] for part in re.split("[_-]", name))


def law_head(meaning):
    """How the names of a meaning's laws begin: those of nfs_fh with `nfs-fh`."""
    return meaning.replace("_", "-")


def stem(name):
    """The name of a type as functions and kinds.txt have it: that of READ3res is read3res."""
    return name.lower()


@dataclass(frozen=True)
class Held:
    """What is held as a piece: the code and the laws of its size and of where it lies."""

    size: str  # how many bytes it has, by its count
    inside: str  # whether it lies inside
    lies: str  # what that means,
    held: str  # and what is unfolded to see it
    writer: str  # the law of its size,
    small: str  # that this is no large number,
    sum: str  # and the same for a sum; none if the sums' own rule set has it
    within: str
    marked: str  # what its mark tells


PIECES = {
    "opaque": Held("opaque_size", "inside", "is_inside", "piece_held", "bytes-writer", "size_small", "", "opaque-within", "bytes-marked"),
    "words": Held("words_size", "words_inside", "are_inside", "words_held", "words-writer", "words_small", "by-words", "words-within", "words-marked"),
}


@dataclass(frozen=True)
class Known:
    """A kind, as one sees it that has it for a field."""

    name: str
    type: str  # of the code
    codec: bool  # the code holds the message itself; else it holds something in place of bytes
    meaning: str
    message: str  # the type of its message, in the specifications
    held: str  # the type of what the code holds, there
    fixed: int  # how many bytes every one has, or 0
    good: str  # the law that every value of the type is in range
    least: int = 0  # if the bytes vary: from how many
    most: int = 0  # to how many
    defined: str = ""  # what definitions call the meaning, if they have another name for it
    inside: bool = False  # it is in range only if it lies inside: a list of words, and what has one
    paths: tuple | None = ()  # where its pieces are, each by the names of fields; none if that depends on a case
    seen: tuple = ()  # what is unfolded to see them

    @property
    def piece(self):
        return PIECES.get(self.name)

    @property
    def head(self):
        return law_head(self.meaning)

    @property
    def format(self):
        return f"exactly {self.meaning}" if self.codec else self.meaning

    @property
    def reader(self):
        return f"{self.name}_at"

    @property
    def writer(self):
        """The law that says how many bytes are written."""
        if self.fixed:
            return f"(fixed-writer {self.head}-fixed)"
        if self.codec:
            return f"(codec-writer {self.meaning})"
        return self.piece.writer if self.piece else f"{self.head}-writer"

    @property
    def bound(self):
        """The law that its size is no large number."""
        if self.fixed:
            return ""
        if self.piece:
            return self.piece.sum
        return f"{self.head}-small" if self.codec else f"{self.head}-most"

    @property
    def within(self):
        return self.piece.within if self.piece else f"{self.head}-within"

    @property
    def marked(self):
        """What its marks tell: a codec has no padding."""
        if self.codec:
            return f"plain-marked {self.unpadded}"
        return self.piece.marked if self.piece else f"{self.head}-marked"

    @property
    def unpadded(self):
        return f"{self.head}-unpadded"

    def small(self, value):
        """The law that the size of a value is no large number, if it varies."""
        if self.piece:
            return f"{self.piece.small} {value}.count"
        return f"{self.head}-{'between' if self.codec else 'bound'} {value}"

    def lies(self, value):
        """Whether the pieces of a value lie inside the source s, in the specifications."""
        return f"{self.piece.lies if self.piece else f'{self.meaning}.held.inside'} s {value}"

    def size_of(self, value):
        """The code that says how many bytes a value has."""
        if self.name in ITEMS and self.fixed:
            return str(self.fixed)
        if self.fixed:
            return f"{self.type}::SIZE"
        return f"{self.piece.size}({value}.count)" if self.piece else f"{self.name}_size({value})"

    def inside_of(self, value):
        return f"{self.piece.inside if self.piece else f'{self.name}_inside'}(src, {value})"

    def put_of(self, value, out):
        return f"put_{self.name}({value}, {out})" if self.codec else f"put_{self.name}(src, {value}, {out})"


ITEMS = {
    "u32": Known("u32", "u32", True, "word", "ℕ", "ℕ", 4, "word_good"),
    "u64": Known("u64", "u64", True, "hyper", "ℕ", "ℕ", 8, "hyper-good"),
    "bool": Known("bool", "bool", True, "flag", "Bool", "Bool", 4, "flag-good"),
    "opaque": Known("opaque", "Piece", False, "bytes", "List ℕ", "Piece", 0, "piece-good", 4, 1 << 21, paths=((),), seen=("piece_held",)),
    "words": Known("words", "Piece", False, "word_list", "List ℕ", "Piece", 0, "words-good", 4, 1 << 23, inside=True, paths=((),), seen=("words_held",)),
}

OPAQUE = ITEMS["opaque"]

# Read, written and proved as a hyper.
VERIFIER = replace(ITEMS["u64"], defined="verifier")

# Where the names stand that every text may use, in the order of a file's `use` lines. IN_PROOFS has where those of the library
# stand that a proof uses which walks the code.
XDR = "Rattle.xdr.specs."
PRELUDE = "Rattle.std.specs.Prelude"
COMMON = "Rattle.std.proofs.Common"
SPECS = (
    (PRELUDE, "≡ refl"),
    (COMMON, "sym ap ap₂ ∙"),
    (PRELUDE, "Bool true false &&"),
    ("Rattle.std.proofs.Math.Bool", "and-true"),
    ("Rattle.std.proofs.Math.Option", "Option none some"),
    (PRELUDE, "List [] ∷"),
    (PRELUDE, "ℕ + ≤"),
    (PRELUDE, "Some None"),
    (PRELUDE + " as std", "std"),
    (COMMON, "arith"),
    (PRELUDE, "length"),
    ("mir.Val", "Val"),
    ("denote.Laws", "Is"),
    (COMMON, "rules"),
    (XDR + "Meaning.Answer", "Answer most Written"),
    (XDR + "Meaning.Bytes", "Bytes"),
    (XDR + "Meaning.Kind", "Codec"),
    (XDR + "Meaning.Combinators", "means among"),
    (XDR + "Meaning.Codecs", "⨾ mapped void"),
    (XDR + "Meaning.Items", "word hyper verifier flag closed"),
    (XDR + "Meaning.Format", "Format Renaming exactly ⨟ named optional flagged if_format"),
    (XDR + "Meaning.Formats", "bytes piece_held word_list words_held"),
    (XDR + "Meaning.Cases", "Cases maybe maybe_held case_names"),
    (XDR + "Meaning.Status", "Status Result ok failed Arms on_status"),
    (XDR + "Meaning.Programs", "Procedure procedure AnswersFor AnswersBy"),
    (XDR + "Meaning.Pieces", "is_inside size_up_to are_inside"),
    (XDR + "Meaning.Sizes", "OfSize"),
    (XDR + "Meaning.Public", "Answers Writes output laid laid_of"),
    (XDR + "Meaning.Marks", "Marked MarksAre"),
    (XDR + "Meaning.Views", "view view_found view_marks view_wrote"),
    (XDR + "Laws.Padding", "size_small words_small"),
    (XDR + "Laws.Marks", "and_left and_right"),
    (XDR + "Laws.Pieces", "piece-good"),
    (XDR + "Laws.Words", "words-good"),
    (XDR + "Laws.Ranges", "word_good hyper-good flag-good"),
    (XDR + "Laws.Closed", "by_number"),
    (XDR + "Laws.Fixed", "Fixed word-fixed hyper-fixed flag-fixed pair-fixed seen-fixed of_size"),
    (XDR + "Laws.One", "told"),
    (XDR + "Laws.Plans", "Planned planned plan at then next asks optionally reads"),
    (XDR + "Laws.Records", "ByPlan by-plan fields one still"),
    (XDR + "Laws.Tags", "tag-lost tag-none tag_is"),
    (XDR + "Laws.Numbers", "found_at found_none numbered"),
    (XDR + "Laws.Lengths", "Within void-within chain-within pair-within view-within mapped-within closed-within no_default word-within hyper-within flag-within opaque-within words-within"),
    (XDR + "Laws.Write", "Ready of-long"),
    (XDR + "Laws.Writers", "Writer bytes-writer words-writer put-outside put-short write-off write-place write-on write-in plain-on"),
    (XDR + "Laws.Lays", "sums by-words lays rooms size_is fixed_on"),
    (XDR + "Laws.Fields", "fixed-writer codec-writer pair-writer pair-sized named-sized Lays lays-of lays-codec lays-none lays-both lays-named lays_all lays-plain"),
    (XDR + "Laws.Optional", "Between maybe-plan maybe-between maybe-within held-within Optional OptionalHeld lays-void lays-value none-bytes none-size some_word some-hyper some_size option-writer option_size void-inside value-inside held-void held-value held-sized void-size value-size void-marks value-marks"),
    (XDR + "Laws.Status", "OnStatus ok-inside failed-inside alone-inside ok-marks failed-marks alone-marks ok-lays failed-lays alone-lays result_size status-sized ok-size failed-size alone-size ok-fixed failed-fixed status-within status-lost status-took"),
    (XDR + "Laws.Unpadded", "Unpadded void-unpadded pair-unpadded view-unpadded closed-unpadded word-unpadded hyper-unpadded flag-unpadded no-marks"),
    (XDR + "Laws.Marked", "plain-marked pair-marked named-marked status-marked bytes-marked words-marked piece-marks words-marks"),
    (XDR + "Laws.Programs", "for-lost for-took by-procedure by-none"),
    (XDR + "Laws.Answers", "tries exit exits"),
    ("Rattle.xdr.proofs.Refused", "plain-off fixed_off"),
    ("Rattle.xdr.proofs.Flagged", "option-unpadded maybe-marked"),
    (XDR + "declared.piece.Piece", "Piece"),
    (XDR + "declared.answer.Took", "Took"),
    (XDR + "declared.refusal.Refusal", "Refusal"),
)
IN_PROOFS = {
    name: module
    for module, names in (
        ("mathlib.Core.Path", "≡ refl sym ap ap₂ ∙"),
        ("mathlib.Core.Bool", "Bool true false && and-true"),
        ("mathlib.Core.Option", "Option none some"),
        ("mathlib.Core.List", "List [] ∷"),
        ("Prim.Native.Nat", "ℕ + ≤"),
        ("native.Mathlib.Omega", "arith"),
        ("lib.ListN", "length"),
        ("borrow.Author.Rules", "rules"),
    )
    for name in names.split()
}
CODE = {
    "xdr": "MOST Marks Piece Refusal Took inside words_inside write_u32",
    "xdr::inner": "u32_at u64_at bool_at opaque_at opaque_size words_at words_size put_u32 put_u64 put_u32_pair put_u32_u64 put_bool put_opaque put_words",
    "xdr::order": "open_at place room",
}


class Words:
    """The names that are declared somewhere, and the lines that bring them."""

    def __init__(self):
        self.specs = {name: module for module, names in SPECS for name in names.split()}
        self.code = {name: f"{path}::{name}" for path, names in CODE.items() for name in names.split()}

    def spec_lines(self, text, own=(), ghost=False, proofs=False):
        """`use` lines for the names of a text, in the order of the list above, and then of the crates."""
        used = [name for name in spec_names(text) if name in self.specs and name not in own and not (ghost and name in PARAMETERS)]
        order = {name: at for at, (_, names) in enumerate(SPECS) for name in names.split()}
        used.sort(key=lambda name: (order.get(name, len(SPECS)), "" if name in order else self.specs[name]))
        found = {}
        for name in used:
            module = IN_PROOFS.get(name, self.specs[name]) if proofs else self.specs[name]
            found.setdefault(module, []).append(operator(name))
        start, end = ("ghost use ", ";") if ghost else ("use ", "")
        return [f"{start}{module}{end}" if " as " in module else f"{start}{module}.{{{', '.join(names)}}}{end}" for module, names in found.items()]

    def code_paths(self, text, own=()):
        """The paths of the names of a text of code."""
        return {self.code[name] for name in re.findall(r"[A-Za-z_]\w*", text) if name in self.code and name not in own}


# What the contracts call the parameters of a function.
PARAMETERS = {"at", "out", "procedure", "src", "self", "f", "v", "x", "result"}


def operator(name):
    return f"◌{name}◌" if name in {"≡", "∙", "&&", "∷", "+", "≤", "⨾", "⨟", "then", "next"} else name


def spec_names(text):
    """The names that a text of the specifications uses, in order: not the fields and cases that stand behind a dot, or are set."""
    text = re.sub(r"--.*", "", text)
    text = re.sub(r"([{;]\s*)[«\w'·-]+»?(?= = )", r"\1", text)
    text = re.sub(r"\.(?=[«\w])[«\w'·-]+»?", " ", text)
    return list(dict.fromkeys(re.findall(r"[^\s(){};,.]+", text)))
