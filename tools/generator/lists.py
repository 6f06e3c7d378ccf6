"""The lists of kinds: the kinds of the crate door and their proofs, and a region of each other file that lists the kinds. And the
version, which stands in the file VERSION.

Not made here: the oracle's lists, which must not come from the same hand as what they judge, and what the oracle makes.
"""

import re
import textwrap

from generator.crates import Crates, Name
from generator.known import stem
from generator.language import read_topic
from generator.layout import in_order, signature, use_lines
from generator.table import MOST_PIECES, Trouble, read_pieces, read_table, read_text

HEADER = "made by tools/generate from kinds.txt"

# The files of the door's kinds: a name, what the first comment says, and the crates whose kinds they have.
FILES = (
    ("items", "Each item, as a kind.", ("xdr",)),
    ("messages", "Each kind of RFC 5531, as a kind.", ("rpc",)),
    ("files", "Each kind of RFC 1813, as a kind.", ("nfsattr", "nfs")),
    ("procedures", "The arguments and results of procedures of RFC 1813, as a kind.", ("nfsfile", "nfsdata")),
    ("mounts", "Each kind of the mount protocol and of the port mapper, as a kind.", ("mount",)),
)

# The kinds that take no word 00000002, so that their second message is of zeros: bool, and the closed enumerations without a 2. Those of
# the topics are found by themselves.
BY_ZERO = {"bool", "msg_type", "reply_stat", "reject_stat"}

# The lists, in which a word 00000001 again and again has no end: their messages are an end, and one entry of zeros.
BY_LIST = {"exports"}

# What else a reading unfolds, besides what the modules of the meanings declare.
UNFOLDED = ("opened", "part_of", "words_part_of")

# What the C header says of a kind, with the blanks before it.
NOTES = {
    "eight": "  /* eight bytes without a length: [u8; 8] */",
    "opaque": " /* Vec<u8> */",
    "words": " /* a counted list of words: Vec<u32> */",
}

C_HEADER = "include/yugerzat.h"

# What copying takes.
PARAMETERS = ("src: &[u8]", "at: usize", "out: &mut [u8]", "start: usize")

EXACTLY = "Rattle.xdr.specs.Meaning.Format.{exactly}"

RULES = "borrow.Author.Rules.{rules}"
COPY_LAWS = "Rattle.door.specs.Laws.Copy"

# What is read of a kind without loose forms is plain.
STILL = Name("door", "Rattle.door.specs.Laws.Still", "still-plain", "")

# Eight fixed bytes are no codec, and have no pieces.
EIGHT = "eight_bytes"

# No rewriting is longer than the larger of this and the bytes read (`every_length`).
LONGEST = 40


def outputs(root):
    """What is made: (path, text) of a whole file, (path, name, text) of a region."""
    kinds, groups = read_table(root)
    crates = Crates(root)
    facts = [crates.facts(kind) for kind in kinds]
    order = list(crates.uses)
    plain = {fact.kind.name for fact in facts if fact.still}
    made = []
    for file, comment, of in FILES:
        own = [fact for fact in facts if fact.kind.crate in of]
        made.append((f"crates/door/src/{file}.rt", kinds_of_file(comment, own, order)))
        made += [answer for fact in own for answer in kind_answers(file, fact)]
    made += [(f"crates/door/src/{export.name}.rt", export_file(export, kinds, plain)) for export in EXPORTS]
    made += [(f"crates/door_c/src/{export.name}.rt", c_file(export, kinds)) for export in EXPORTS]
    made += [answer for export in EXPORTS for answer in export_answers(export)]
    made.append(("crates/door/src/lib.rt", "kinds", modules()))
    made.append(("crates/door/src/kinds.rt", kinds_file(kinds, groups, plain)))
    made.append(("crates/door/proofs/kinds/copy_kind/Answers.antt", chooser_answers(groups)))
    made += door_meanings(facts, groups, order)
    made += worked_answers(facts, order)
    made += worked_marks(facts, order)
    made += worked_kinds(facts, order, BY_ZERO | without_two(root))
    made += header_lists(kinds)
    made += procedure_lists(root)
    made += piece_lists(read_pieces(root, kinds))
    made += versions(root)
    made.append(("rust/yugerzat/src/kind.rs", "kinds", rust_list(kinds)))
    rows = (f"    yugerzat_rewrite_{kind.name} yugerzat_judge_{kind.name}," for kind in kinds)
    made.append(("rust/yugerzat/src/sys.rs", "functions of each kind", lines("of_each_kind! {", *rows, "}")))
    made.append(("crates/answers/src/kinds.rt", "kinds", words_list(kinds)))
    made.append(("crates/answers/src/usage.rt", "names", usage_list(kinds)))
    return made


# ---------------------------------------------------------------- names and imports


def path_of(kind):
    """Where the door has the type that stands for a kind."""
    for file, _, of in FILES:
        if kind.crate in of:
            return f"crate::{file}::{struct_of(kind)}"
    raise Trouble(f"tools/generator/lists.py: FILES has no file for the kinds of the crate {kind.crate}")


def camel_case(name):
    return "".join(part[:1].upper() + part[1:] for part in name.split("_"))


def uses(names, order):
    """MODULE.{NAME, ..} for each module of the names: crate by crate, and else as they come first."""
    modules = {}
    for name in names:
        found = modules.setdefault((order.index(name.crate), name.module), [])
        if name.name not in found:
            found.append(name.name)
    in_order = sorted(modules.items(), key=lambda item: item[0][0])
    return [f"{module}.{{{', '.join(found)}}}" for (_, module), found in in_order]


def lines(*parts):
    return "".join(f"{line}\n" for line in parts)


def definition(*parts):
    """Lines of a region of .antt. `rt fmt` wants an empty line between a definition and the comment that ends the region."""
    return lines(*parts, "")


# ---------------------------------------------------------------- the kinds of the door


def has_pieces(fact):
    """Whether what the code holds has pieces, or its type a case that has: it then says which marks it has."""
    return not fact.kind.exact and fact.kind.meaning != EIGHT


def struct_of(kind):
    """The type that stands for a kind in the code."""
    return camel_case(kind.name)


def kinds_of_file(comment, facts, order):
    """The kinds of some crates, each as a type that copying takes."""
    ghosts = [EXACTLY] if any(fact.kind.exact for fact in facts) else []
    ghosts += uses([fact.meaning for fact in facts], order)
    ghosts.append("Rattle.door.specs.Meaning.Copy.{held_as}")
    still = [fact.still for fact in facts if fact.still]
    ghosts += uses([STILL, *still], order) if still else []
    items = ["crate::kind::Kind", "xdr::Marks", "xdr::Refusal", "xdr::Took"]
    items += ["crate::kind::Plain"] if still else []
    items += ["crate::kind::Loose"] if len(still) < len(facts) else []
    items += ["xdr::Piece"] if any(fact.value == "Piece" for fact in facts) else []
    return lines(
        f"// {HEADER}",
        f"// {comment}",
        *(f"ghost use {ghost};" for ghost in ghosts),
        "",
        *use_lines(items),
    ) + "".join("\n" + kind_code(fact) for fact in facts)


def kind_code(fact):
    """What the code says of a kind, and behind it how the kind is written anew, or that it has no loose forms."""
    kind, value, name = fact.kind, fact.value, struct_of(fact.kind)
    x, marks = ("x", "x.marks()") if has_pieces(fact) else ("_x", "Marks::None")
    return lines(
        f"pub(crate) struct {name};",
        "",
        f"impl Kind for {name} {{",
        f"    type Value = {value};",
        "",
        f"    ghost number = {{ {kind.number} }};",
        "",
        f"    ghost held = {{ held_as {kind.format} }};",
        "",
        "    ghost listed = { λ s at start o c o' d. d };",
        "",
        *signature("    fn read", ("src: &[u8]", "at: usize"), f" -> Result<Took<{value}>, Refusal> {{"),
        f"        {fact.called}::read_{kind.name}(src, at)",
        "    }",
        "",
        *signature("    fn marks", (f"{x}: {value}",), " -> Marks {"),
        f"        {marks}",
        "    }",
        "}",
        "",
        *(plain_code(fact) if fact.still else loose_code(fact)),
    )


def plain_code(fact):
    return [
        f"impl Plain for {struct_of(fact.kind)} {{",
        f"    ghost plain = {{ {STILL.name} {fact.kind.format} {fact.still.name} }};",
        "}",
    ]


def loose_code(fact):
    source, given = ("src", "src, ") if fact.source else ("_src", "")
    return [
        f"impl Loose for {struct_of(fact.kind)} {{",
        *signature("    fn write", (f"{source}: &[u8]", f"x: {fact.value}", "out: &mut [u8]", "at: usize"), " -> Result<usize, Refusal> {"),
        f"        {fact.called}::write_{fact.kind.name}({given}x, out, at)",
        "    }",
        "}",
    ]


def kind_answers(file, fact):
    """The files of answers of a kind's functions that are not proved by themselves: (path, text)."""
    found = {}
    written = f"c.requires c.write_{fact.kind.name}.ensures"
    if fact.still:
        pass
    elif fact.bounded:
        imports = [f"{fact.bounded.module}.{{{fact.bounded.name}}}", f"{COPY_LAWS}.{{bounded}}"]
        found["Loose", "write"] = imports, f"bounded {fact.bounded.name} _ _ _ {written}"
    elif not fact.source:
        # A writer that takes no source writes alike with any.
        found["Loose", "write"] = [RULES, f"{COPY_LAWS}.{{unsourced}}"], f"unsourced _ _ _ _ {written} (search rules)"
    if fact.kind.meaning == EIGHT:
        found["Kind", "marks"] = [RULES, "Rattle.door.specs.Laws.Span.{eight-marks}"], "search (rules, eight-marks)"
    if fact.marks:
        found["Kind", "marks"] = [RULES, f"{fact.marks.module}.{{{fact.marks.name}}}"], f"search (rules, {fact.marks.name})"
    for (trait, function), (imports, term) in found.items():
        name = f"{struct_of(fact.kind)}{trait}"
        text = answers(f"{file}.{name}.{function}", imports, {"returns": ("c", term)})
        yield f"crates/door/proofs/{file}/{name}/{function}/Answers.antt", text


def answers(function, imports, terms):
    """A file of answers: its imports, what each goal takes and is answered by."""
    return lines(
        f"-- {HEADER}",
        *(f"use {name}" for name in imports),
        f"use Rattle.door.proofs.{function}.Goals as goal",
        *(line for goal, (taken, term) in terms.items() for line in ("", f"pub {goal} : goal.{goal}", f"{goal} {taken} = {term}")),
    )


def modules():
    return lines(*(f"mod {name};" for name in in_order([file for file, _, _ in FILES] + ["kind", "kinds"])))


# ---------------------------------------------------------------- the functions of each kind for other programs


class Export:
    """A function that the door has for each kind, and one that takes a kind's number and calls that of the kind. The crate door_c
    exports them for C."""

    def __init__(self, name, comment, of_each, does, called, tell, out):
        self.name, self.comment, self.of_each, self.does, self.called, self.tell, self.out = name, comment, of_each, does, called, tell, out
        self.given = ("src", "at", *(["out"] if out else []), "info")
        self.parameters = ("src: &[u8]", "at: usize", *(["out: &mut [u8]"] if out else []), "info: &mut [u64]")

    @property
    def of_numbers(self):
        return f"yugerzat_{self.name}"

    def function(self, kind):
        return f"yugerzat_{self.name}_{kind.name}"

    def promise(self, number):
        out = ("out.old ", "out.new ") if self.out else ("", "")
        return f"{self.called} {number} src.now at {out[0]}info.old result {out[1]}info.new"


EXPORTS = (
    Export(
        "rewrite",
        "Rewriting, by the number of a kind and for each kind by itself.",
        "What is read of a kind, written anew from the start of a buffer.",
        (
            "Reads a message of a kind from place `at` of src, and writes it in published form from the start of out. 0: info holds the place after",
            "what was read, 1 if that was in published form and else 0, and the count of bytes written. A refusal of the reading: info holds its",
            "place, how many bytes it wants, and 0. A refusal of the writing: two zeros, and how many bytes are needed (5), or 0.",
        ),
        "RewriteCalled",
        "tell_copied",
        True,
    ),
    Export(
        "judge",
        "Judging, by the number of a kind and for each kind by itself.",
        "What is read of a kind, and nothing written.",
        (
            "Reads a message of a kind from place `at` of src, and writes nothing. 0: info holds the place after what was read, 1 if that was in",
            "published form and else 0, and how many bytes its rewriting has. A refusal: its place, how many bytes it wants, and 0.",
        ),
        "JudgeCalled",
        "tell_judged",
        False,
    ),
)


# Kinds that a function written by hand rewrites or judges, and its file: it is quicker than reading the message and writing what was read.
BY_HAND = {("rewrite", "sattr3"): "settle"}


# How a kind is copied: what copies it, and what it is for that.
LOOSE, PLAIN = ("", "Loose"), ("_plain", "Plain")


def way_of(kind, plain):
    """How a kind is copied, given the names of those without loose forms."""
    return PLAIN if kind.name in plain else LOOSE


def export_file(export, kinds, plain):
    by_hand = {name: file for (what, name), file in BY_HAND.items() if what == export.name}
    called = {path_of(kind) for kind in kinds if kind.name not in by_hand}
    called |= {f"crate::{file}::{export.name}_{name}" for name, file in by_hand.items()}
    called |= {f"crate::exports::{name}" for name in ("SHORT_LIST", f"{export.name}_any", export.tell)}
    items = called | {f"crate::kind::{name}" for way, trait in (LOOSE, PLAIN) for name in (trait, f"copy{way}")}
    return lines(
        f"// {HEADER}",
        f"// {export.comment}",
        f"ghost use Rattle.door.specs.Meaning.Exports.{{{export.called}}};",
        "",
        *use_lines(items),
        *export_of_any(export, LOOSE, export.of_each),
        *export_of_any(export, PLAIN, "The same of a kind without loose forms."),
        *export_by_number(export, kinds),
        *(line for kind in kinds for line in export_function(export, kind, plain)),
    )


def export_of_any(export, way, comment):
    """What each function of a kind calls."""
    suffix, trait = way
    return [
        "",
        f"// {comment}",
        *signature(f"fn {export.name}{suffix}<K: {trait}>", export.parameters, " -> u32"),
        f"    ensures {{ {export.promise('K.number')} }}",
        "{",
        "    if info.len() < 3 {",
        "        return SHORT_LIST;",
        "    }",
        f"    let c = copy{suffix}::<K>(src, at, {'out' if export.out else '&mut []'}, 0);",
        f"    {export.tell}(c, info)",
        "}",
    ]


def by_number(export, kinds):
    """The functions that find a kind by its number: (name, kinds, who is asked for other numbers). A proof over all kinds is too large."""
    third = len(kinds) // 3
    return (
        (export.of_numbers, kinds[:third], f"{export.name}_more"),
        (f"{export.name}_more", kinds[third : 2 * third], f"{export.name}_rest"),
        (f"{export.name}_rest", kinds[2 * third :], f"{export.name}_any"),
    )


def export_by_number(export, kinds):
    """A match each, which the compiler joins: a kind is found by one jump, and a call saves no more than that of its kind does."""
    parameters = ("kind: u32", *export.parameters)
    made = []
    for name, own, others in by_number(export, kinds):
        exported = name == export.of_numbers
        made += [
            "",
            *(f"// {line}" for line in export.does if exported),
            *signature(f"{'pub ' if exported else ''}fn {name}", parameters, " -> u32"),
            f"    ensures {{ {export.promise('kind')} }}",
            "{",
            "    match kind {",
            *(f"        {kind.number} => {export.function(kind)}({', '.join(export.given)})," for kind in own),
            f"        _ => {others}(kind, {', '.join(export.given)}),",
            "    }",
            "}",
        ]
    return made


def c_file(export, kinds):
    """The functions of an export by their C names: each calls the door's own."""
    parts = [c_function(export, export.of_numbers, "kind", ("kind: u32", *export.parameters), ("kind", *export.given))]
    parts += [c_function(export, export.function(kind), kind.number, export.parameters, export.given) for kind in kinds]
    return lines(
        f"// {HEADER}",
        f"// {export.comment}",
        f"ghost use Rattle.door.specs.Meaning.Exports.{{{export.called}}};",
        *(line for part in parts for line in part),
    )


def c_function(export, name, number, parameters, given):
    return [
        "",
        "#[unsafe(no_mangle)]",
        *signature(f'pub extern "C" fn {name}', parameters, " -> u32"),
        f"    ensures {{ {export.promise(number)} }}",
        "{",
        f"    door::{export.name}::{name}({', '.join(given)})",
        "}",
    ]


def export_function(export, kind, plain):
    suffix, _ = way_of(kind, plain)
    called = f"_{kind.name}" if (export.name, kind.name) in BY_HAND else f"{suffix}::<{struct_of(kind)}>"
    return [
        "",
        *signature(f"pub fn {export.function(kind)}", export.parameters, " -> u32"),
        f"    ensures {{ {export.promise(kind.number)} }}",
        "{",
        f"    {export.name}{called}({', '.join(export.given)})",
        "}",
    ]


def export_answers(export):
    """Those of what each function of a kind calls: the kind stands in the list under its number."""
    short, told = f"{export.name}-short", f"{export.name}-told"
    for suffix, _ in (LOOSE, PLAIN):
        text = answers(
            f"{export.name}.{export.name}{suffix}",
            [RULES, f"Rattle.door.specs.Laws.Exports.{{{short}, {told}}}"],
            {
                "returns-then-info-lt3": ("g c", f"search ({short}, rules)"),
                "returns": ("g c", f"search ({told}, rules, g.met.K.Kind.listed)"),
            },
        )
        yield f"crates/door/proofs/{export.name}/{export.name}{suffix}/Answers.antt", text


# ---------------------------------------------------------------- the kinds by their numbers


def kinds_file(kinds, groups, plain):
    lists = ", ".join(group.list for group in groups)
    return lines(
        f"// {HEADER}",
        "// A message of a kind that is named by its number.",
        "ghost use Rattle.door.specs.Meaning.Copy.{view_copied};",
        f"ghost use Rattle.door.specs.Meaning.Kinds.{{{lists}, kinds, CopiesOf, CopiesIn}};",
        "",
        *use_lines({"crate::copy::Copied", *(f"crate::kind::copy{suffix}" for suffix, _ in (LOOSE, PLAIN)), *map(path_of, kinds)}),
        *(line for group in groups for line in group_function(group, plain)),
        "",
        *chooser(groups),
    )


def group_function(group, plain):
    arms = [f"        {at} => copy{way_of(kind, plain)[0]}::<{struct_of(kind)}>(src, at, out, start)," for at, kind in enumerate(group.kinds)]
    return [
        "",
        f"// {group.comment[:1].upper()}{group.comment[1:]}.",
        *signature(f"fn {group.function}", ("kind: u32", *PARAMETERS), " -> Copied"),
        f"    ensures {{ CopiesIn {group.list} kind src.now at start out.old (view_copied result) out.new }}",
        "{",
        "    match kind {",
        *arms,
        "        _ => Copied::Unknown,",
        "    }",
        "}",
    ]


def chooser(groups):
    body = []
    for group, following in zip(groups, groups[1:]):
        body += [f"    if kind < {following.first} {{", f"        return {group_call(group)};", "    }"]
    return [
        "// Reads a message of the kind from a place of one buffer and writes it, in published form, from a place of another.",
        *signature("pub fn copy_kind", ("kind: u32", *PARAMETERS), " -> Copied"),
        "    ensures { CopiesOf kinds kind src.now at start out.old (view_copied result) out.new }",
        "{",
        *body,
        f"    {group_call(groups[-1])}",
        "}",
    ]


def group_call(group):
    kind = f"kind - {group.first}" if group.first else "kind"
    return f"{group.function}({kind}, src, at, out, start)"


def chooser_answers(groups):
    """What copy_kind returns is the kind of the joined list: a law for the first group, for each amid, and for the last."""
    lists = [group.list for group in groups]
    terms = {}
    for at, group in enumerate(groups):
        last = at + 1 == len(groups)
        name = "returns" if last else f"returns-then-kind-lt{groups[at + 1].first}"
        before, behind = joined(lists[:at]), joined(lists[at + 1 :])
        given = f"c.{group.function}.ensures"
        if at == 0:
            law = f"kind-first {group.list} {behind} {given} (omega arith)"
        elif last:
            law = f"kind-last {before} {group.list} _ {group.first} {given} (omega arith) refl"
        else:
            law = f"kind-amid {before} {group.list} _ {group.first} {behind} {given} (omega arith) (omega arith) refl"
        terms[name] = "c", law
    imports = [
        "Rattle.std.proofs.Common.{refl, ◌++◌, arith}",
        f"Rattle.door.specs.Meaning.Kinds.{{{', '.join(lists)}}}",
        f"{COPY_LAWS}.{{kind-first, kind-amid, kind-last}}",
    ]
    return answers("kinds.copy_kind", imports, terms)


def joined(lists):
    """Lists behind one another, as an argument."""
    return lists[0] if len(lists) == 1 else f"({' ++ '.join(lists)})"


def door_meanings(facts, groups, order):
    path = "crates/door/specs/Meaning/Kinds.antt"
    text = "".join(group_list(group) for group in groups)
    text += definition("abbrev pub kinds : List Branch", f"kinds = {' ++ '.join(group.list for group in groups)}")
    return [
        (path, "meanings", lines(*(f"use {use}" for use in uses([fact.meaning for fact in facts], order)))),
        (path, "lists", text),
    ]


def group_list(group):
    entries = [f"branch {kind.format}" for kind in group.kinds] + ["[]"]
    return definition(
        f"-- {group.comment}",
        f"abbrev pub {group.list} : List Branch",
        f"{group.list} =",
        *chain("∷", entries),
    )


def chain(sign, entries):
    """Entries below one another, each but the first behind a sign."""
    return [f"    {entries[0]}", *(f"    {sign} {entry}" for entry in entries[1:])]


# ---------------------------------------------------------------- the laws of every kind


def worked_answers(facts, order):
    path = "crates/worked/specs/EveryAnswer.antt"
    lengths = [within(fact) for fact in facts] + ["tt"]
    return [
        (path, "uses", lines(*(f"use {use}" for use in uses([fact.within for fact in facts], order)))),
        (path, "every_within", definition("every_within : EachWithin kinds", "every_within =", *chain("also", lengths))),
    ]


def worked_marks(facts, order):
    path = "crates/worked/specs/EveryMark.antt"
    entries = [f"plain-marked {fact.marked.name}" if fact.kind.exact else fact.marked.name for fact in facts] + ["tt"]
    return [
        (path, "uses", lines(*(f"use {use}" for use in uses([fact.marked for fact in facts], order)))),
        (path, "every_marked", definition("every_marked : EachMarked kinds", "every_marked =", *chain("also", entries))),
    ]


def within(fact):
    return fact.within.name if fact.bound == LONGEST else f"weaken (omega arith) {fact.within.name}"


def without_two(root):
    """The enumerations of the topics that do not declare 2."""
    declared = [one for path in sorted(root.glob("crates/*/rfc/*.x")) for one in read_topic(root, path).declared]
    return {one.name for one in declared if one.shape == "enum" and 2 not in dict(one.parts).values()}


def sampled(name, by_zero):
    """The law that has two messages of a kind."""
    if name in BY_LIST:
        return "by_list"
    return "by_zero" if name in by_zero else "by_two"


def worked_kinds(facts, order, by_zero):
    path = "crates/worked/specs/EveryKind.antt"
    unfoldable = {name.name: name for fact in facts for name in fact.unfoldable if name.name not in UNFOLDED}
    entries = [f"({sampled(fact.kind.name, by_zero)} _ refl refl refl, " for fact in facts]
    return [
        (path, "meanings", lines(*(f"use {use}" for use in uses(unfoldable.values(), order)))),
        (
            path,
            "every_kind",
            definition(
                "pub every_kind : Each kinds",
                f"unfolding {' '.join([*UNFOLDED, *unfoldable])}",
                "every_kind =",
                f"    {''.join(entries)}tt{')' * len(entries)}",
            ),
        ),
    ]


# ---------------------------------------------------------------- the lists of names


def header_lists(kinds):
    """The enumeration of the kinds with their count, their names in the same order, and the functions of each."""
    rows = [f"    YUGERZAT_KIND_{kind.name.upper()} = {kind.number},{NOTES.get(kind.name, '')}" for kind in kinds]
    count = f"#define YUGERZAT_KINDS {len(kinds)} /* how many there are: their numbers are below this */"
    names = [f'        "{kind.name}",' for kind in kinds]
    return [
        (C_HEADER, "kinds", lines("enum yugerzat_kind YUGERZAT_32_BITS {", *rows, "};", count)),
        (C_HEADER, "kind names", lines(*names)),
        ("include/yugerzat_list.h", "each kind", each_kind(kinds)),
    ]


def each_kind(kinds):
    """A macro over the names of the kinds, whose lines end in one column."""
    rows = ["#define YUGERZAT_EACH_KIND(with)", *(f"    with({kind.name})" for kind in kinds)]
    width = max(map(len, rows[:-1])) + 1
    comment = "/* Each kind by its name, in the order of the numbers: with(bool) with(i32) .. */"
    return lines("/* clang-format off */", comment, *(f"{row:{width}}\\" for row in rows[:-1]), rows[-1], "/* clang-format on */")


def piece_lists(pieces):
    """The names of the pieces of each kind, and of each of its cases."""
    c = [f"        {{YUGERZAT_KIND_{kind.name.upper()}, {len(names)}, {{{', '.join(quoted(names) + ['NULL'] * (MOST_PIECES - len(names)))}}}}}," for kind, names in pieces]
    rust = [f"    (Kind::{camel_case(kind.name)}, &[{', '.join(quoted(names))}])," for kind, names in pieces]
    return [(C_HEADER, "pieces", lines(*c)), ("rust/yugerzat/src/marks.rs", "pieces", lines(*rust))]


def quoted(names):
    return [f'"{name}"' for name in names]


def procedure_lists(root):
    """The procedures by their numbers, and the kinds of their arguments and results."""
    declared = [one for path in sorted(root.glob("crates/*/rfc/*.x")) for one in read_topic(root, path).declared if one.shape == "program"]
    numbers, cases, rows = [], [], []
    for part in (part for one in declared for part in one.parts):
        name = part.name.split("_", 1)[-1]
        arguments, results = stem(part.arguments), stem(part.results)
        numbers.append(f"    YUGERZAT_PROCEDURE_{name} = {part.number},")
        cases += [
            f"    case YUGERZAT_PROCEDURE_{name}:",
            f"        *arguments = YUGERZAT_KIND_{arguments.upper()};",
            f"        *results = YUGERZAT_KIND_{results.upper()};",
            "        return true;",
        ]
        rows.append(f'    {name.capitalize()} "{name}" {part.number} {camel_case(arguments)} {camel_case(results)},')
    return [
        (C_HEADER, "procedures", lines("enum yugerzat_procedure YUGERZAT_32_BITS {", *numbers, "};")),
        (C_HEADER, "procedure kinds", lines(*cases)),
        ("rust/yugerzat/src/procedure.rs", "procedures", lines("procedures! {", *rows, "}")),
    ]


def rust_list(kinds):
    return lines("kinds! {", *(f'    {camel_case(kind.name)} "{kind.name}",' for kind in kinds), "}")


def words_list(kinds):
    return lines(f'        b"{" ".join(kind.name for kind in kinds)}",')


def usage_list(kinds):
    """The names, for the help of the answering program, in lines of its width."""
    names = " ".join(kind.name for kind in kinds)
    rows = textwrap.wrap(names, 100, initial_indent="  ", subsequent_indent="  ")
    return lines('        b"The kinds:', *rows, '",')


# ---------------------------------------------------------------- the version


def versions(root):
    """The version of the project, which the C header and the Rust crate show."""
    version = read_text(root / "VERSION", root)
    if not re.fullmatch(r"\d+\.\d+\.\d+\n", version):
        raise Trouble("VERSION: it has one line, the version, as 1.2.3")
    version = version.strip()
    return [
        (C_HEADER, "version", lines(f'#define YUGERZAT_VERSION "{version}"')),
        ("rust/yugerzat/Cargo.toml", "[package] version", lines(f'version = "{version}"')),
    ]
