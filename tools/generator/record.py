"""The text of a record: fields one after another."""

from itertools import takewhile

from generator.kind import COPIED, RULES, Answers, Kind, Proof, bracket, folded, least_of, most_of, nested, plan_answers, product, projections, rules
from generator.known import OPAQUE, Known, camel, escaped
from generator.table import Trouble

# More calls than these in one reader, and its proof is not found.
MOST_FIELDS = 6

# The bytes that say how many an opaque has.
LENGTH_WORD = 4

# The cases of xdr's type Marks, by how many marks each has.
MARKS = ("None", "One", "Two")


def projected(value, field):
    """A field of a value, which may be a term."""
    return f"{bracket(value)}.{field}"


class Record(Kind):
    """Fields one after another."""

    def __init__(self, declared, meaning, topic, fields, types):
        super().__init__(declared, meaning, topic)
        self.fields = fields  # the kind of each
        self.types = types  # as the declaration writes them
        self.names = [field.name for field in declared.parts]
        codec = all(field.codec for field in fields)
        fixed = sum(field.fixed for field in fields) if all(field.fixed for field in fields) else 0
        message = self.type if codec else camel(meaning)
        least, most = sum(map(least_of, fields)), sum(map(most_of, fields))
        inside = any(field.inside for field in fields)
        paths, seen = self.piece_paths(), (meaning, *dict.fromkeys(name for field in fields for name in field.seen))
        self.known = Known(self.name, self.code_type, codec, meaning, message, self.type, fixed, f"{self.head}-good", least, most, inside=inside, paths=paths, seen=() if codec else seen)
        self.variable = "v" if codec else "x"
        self.locals = [f"f{at}" for at in range(1, len(fields) + 1)]

    def piece_paths(self):
        """Where its pieces are, in the order of its fields."""
        by_case = [name for name, field in zip(self.names, self.fields) if field.paths is None]
        if by_case:
            raise Trouble(f"{self.topic.path}: {self.code_type}: which pieces {by_case[0]} has depends on a case, and no field may be so yet")
        paths = tuple((name, *path) for name, field in zip(self.names, self.fields) for path in field.paths)
        if len(paths) > len(MARKS) - 1:
            raise Trouble(f"{self.topic.path}: {self.code_type} has {len(paths)} pieces, and the type Marks of xdr has room for {len(MARKS) - 1}")
        return paths

    @property
    def formats(self):
        return " ⨟ ".join(field.format for field in self.fields)

    @property
    def defined(self):
        """The fields as the definition names them."""
        if self.known.codec:
            return " ⨾ ".join(field.defined or field.meaning for field in self.fields)
        return " ⨟ ".join(f"exactly {field.defined}" if field.defined else field.format for field in self.fields)

    def tail(self, at):
        """The formats of the fields from one on."""
        return " ⨟ ".join(field.format for field in self.fields[at:])

    @property
    def codecs(self):
        return " ⨾ ".join(field.meaning for field in self.fields)

    # ------------------------------------------------ code

    def code(self):
        parts = [self.struct_code()]
        if self.known.fixed:
            parts.append(self.size_code())
        parts.append(self.at_code())
        if not self.known.codec:
            parts += [self.marks_code(), self.inside_code()]
        if not self.known.fixed:
            parts.append(self.sum_code())
        parts += [self.link_code(at) for at in reversed(range(len(self.fields) - 1))]
        parts += [self.put_code(), *self.public_code()]
        return parts

    def struct_code(self):
        lines = "".join(f"    pub {name}: {type},\n" for name, type in zip(self.names, self.types))
        comment = f"// {self.declared.comment}\n" if self.declared.comment else ""
        return f"{comment}{COPIED}pub struct {self.code_type} {{\n{lines}}}"

    @property
    def run(self):
        """Behind a field whose size varies, four or more whose sizes do not, up to the length word of an opaque: behind which field, and how many
        bytes they are. Where all are there, one test of room will do for them: the compiler then drops the others. For three that gains nothing."""
        for at, field in enumerate(self.fields):
            if field.fixed:
                continue
            sizes = list(takewhile(bool, (next.fixed for next in self.fields[at + 1 :])))
            behind = self.fields[at + 1 + len(sizes) :]
            sizes += [LENGTH_WORD] if behind and behind[0] is OPAQUE else []
            return (at + 1, sum(sizes)) if len(sizes) >= 4 else None
        return None

    def at_code(self):
        if not self.run:
            return self.steps_code(self.at_head())
        cut = self.at_head().replace("pub fn", "fn").replace(f"{self.name}_at(", f"{self.name}_cut(")
        return f"// Where not all of its fields are there.\n{self.steps_code(cut)}\n\n{self.steps_code(self.at_head(), self.run)}"

    def steps_code(self, head, run=None):
        steps = ""
        place = "at"
        for at, (name, field) in enumerate(zip(self.names, self.fields), 1):
            steps += f"    let {name} = {field.reader}(src, {place})?;\n"
            place = f"{name}.next"
            if run and run[0] == at:
                steps += f"""    if src.len() < {run[1]} {{
        return {self.name}_cut(src, at);
    }}
    if src.len() - {run[1]} < {place} {{
        return {self.name}_cut(src, at);
    }}
"""
        values = ", ".join(f"{name}: {name}.value" for name in self.names)
        plain = " & ".join(f"{name}.plain" for name in self.names)
        return f"{head}\n{{\n{steps}    Ok(Took {{ value: {self.code_type} {{ {values} }}, next: {place}, plain: {plain} }})\n}}"

    def marks_code(self):
        """The mark of each piece, reached field by field."""
        lets, marks, made = "", [], {}
        for path in self.known.paths:
            value = "self"
            for depth in range(1, len(path) + 1):
                if path[:depth] not in made:
                    made[path[:depth]] = f"f{len(made) + 1}"
                    lets += f"        let {made[path[:depth]]} = {value}.{path[depth - 1]};\n"
                value = made[path[:depth]]
            marks.append(f"{value}.clean")
        values = f"({', '.join(marks)})" if marks else ""
        return f"impl {self.code_type} {{\n{self.marks_head()}\n    {{\n{lets}        Marks::{MARKS[len(marks)]}{values}\n    }}\n}}"

    def lets(self, wanted):
        return "".join(f"    let {local} = {self.variable}.{name};\n" for local, name, field in zip(self.locals, self.names, self.fields) if wanted(field))

    def inside_code(self):
        tests = [field.inside_of(local) for local, field in zip(self.locals, self.fields) if not field.codec]
        joined = tests[-1]
        for test in reversed(tests[:-1]):
            joined = f"{test} & ({joined})" if "&" in joined else f"{test} & {joined}"
        return f"{self.inside_head()}\n{{\n{self.lets(lambda field: not field.codec)}    {joined}\n}}"

    def sizes(self):
        """The sizes that vary, and the sum of the others."""
        varying = [field.size_of(local) for local, field in zip(self.locals, self.fields) if not field.fixed]
        return varying, sum(field.fixed for field in self.fields)

    def sum_code(self):
        varying, fixed = self.sizes()
        total = " + ".join(varying + ([str(fixed)] if fixed else []))
        return f"{self.size_head()}\n{{\n{self.lets(lambda field: not field.fixed)}    {total}\n}}"

    def arguments(self, at):
        return "".join(f"{local}: {type}, " for local, type in zip(self.locals[at:], self.types[at:]))

    @property
    def source(self):
        return "[]" if self.known.codec else "src.now"

    def link_code(self, at):
        """The field, and the others behind it."""
        field, local = self.fields[at], self.locals[at]
        values = nested(self.locals[at:])
        src, give = ("", "") if self.known.codec else ("src: &[u8], ", "src, ")
        size, let = field.size_of(local), ""
        if not field.fixed:
            size, let = "n", f"    let n = {size};\n"
        rest = f"put_{self.name}_{at + 2}({give}{', '.join(self.locals[at + 1:])}, &mut out[{size}..])"
        if at + 2 == len(self.fields):
            rest = self.fields[-1].put_of(self.locals[-1], f"&mut out[{size}..]")
        return f"""fn put_{self.name}_{at + 1}({src}{self.arguments(at)}out: &mut [u8])
    ensures {{ Lays ({self.tail(at)}) {self.source} {values} out.old out.new }}
{{
{let}    if out.len() < {size} {{
        return;
    }}
    {field.put_of(local, "&mut out[0..]")};
    {rest};
}}"""

    def put_code(self):
        lets = self.lets(lambda field: True)
        if len(self.fields) == 1:
            return f"{self.put_head()}\n{{\n{lets}    {self.fields[0].put_of(self.locals[0], 'out')};\n}}"
        give = "" if self.known.codec else "src, "
        return f"{self.put_head()}\n{{\n{self.tests_code()}{lets}    put_{self.name}_1({give}{', '.join(self.locals)}, out);\n}}"

    # ------------------------------------------------ meaning

    @property
    def names_of(self):
        """The fields by their names: what its format is `named` by."""
        return f"{self.start}_names"

    def meanings(self):
        m, names = self.meaning, [escaped(name) for name in self.names]
        fields = [f"{name} = {value}" for name, value in zip(names, projections("x", len(names)))]
        to = f"λ x. record {{ {'; '.join(fields)} }}"
        back = f"λ m. {nested([f'm.{name}' for name in names])}"
        if self.known.codec:
            return [f"""-- {self.code_type}
unfoldable pub {m} : Codec {self.type}
{m} = mapped ({self.defined}) ({to}) ({back}) (λ x. refl) (λ m. refl)"""]  # fmt: skip
        names_of = self.names_of
        messages = [field.message for field in self.fields]
        record = "".join(f"  pub {name} : {message}\n" for name, message in zip(names, messages))
        hold = to.replace("= x", "= y").replace("λ x.", "λ y.")
        held = product([field.held for field in self.fields])
        return [
            f"-- {self.code_type}\npub record {self.known.message} : Type 0 where\n{record.rstrip()}",
            f"""abbrev pub {names_of} : Renaming {bracket(product(messages))} {self.known.message} {bracket(held)} {self.type}
{names_of} =
    record {{
      to = {to};
      from = {back};
      from_to = λ x. refl;
      to_from = λ m. refl;
      hold = {hold};
      pieces = {back.replace("m.", "y.")};
      pieces_hold = λ y. refl;
    }}""",
            f"unfoldable pub {m} : Format {self.known.message} {self.type}\n{m} = named {bracket(self.defined)} {names_of}",
        ]

    # ------------------------------------------------ laws

    def laws(self):
        return [self.plan_law(), self.within_law(), *self.mark_laws()] + (self.codec_laws() if self.known.codec else self.held_laws())

    def plan_law(self):
        m, law = self.meaning, self.head
        if self.known.codec:
            plan = " next ".join(f"one {field.meaning}" for field in self.fields)
            return f"-- {self.code_type}\nabbrev pub {law}-plan : ByPlan {m}\nunfolding {m}\n{law}-plan = fields ({plan}) _ _ _ _"
        plan = " then ".join(f"at {bracket(field.format)}" for field in self.fields)
        return f"-- {self.code_type}\nabbrev pub {law}-plan : Planned {m}.held.read\nunfolding {m}\n{law}-plan = plan ({plan}) _"

    def within_law(self):
        m, law = self.meaning, self.head
        parts = folded("pair-within", [field.within for field in self.fields])
        if self.known.codec:
            return f"pub {law}-within : Within 0 {m}.kind\nunfolding {m}\n{law}-within = mapped-within ({self.codecs}) _ _ _ _ {bracket(parts)}"
        return f"""pub {law}-within : Within 0 {m}.codec.kind
unfolding {m}
{law}-within = view-within _ _ {bracket(self.formats)}.codec.laws {bracket(parts)} (λ x m l u w e s f. no_default s)"""

    def mark_laws(self):
        """What its marks tell, and which they are."""
        m, law = self.meaning, self.head
        if self.known.codec:
            return [self.unpadded_law(f"view-unpadded (λ x. refl) {bracket(folded('pair-unpadded', [field.unpadded for field in self.fields]))}")]
        parts = bracket(folded("pair-marked", [field.marked for field in self.fields]))
        marks = " ∷ ".join([f"x.{'.'.join(map(escaped, path))}.clean" for path in self.known.paths] + ["[]"])
        return [
            self.marked_law(f"named-marked {bracket(self.formats)} {self.names_of} {parts}"),
            f"pub {law}-marks : (x : {self.type}) → MarksAre {m} x ({marks})\nunfolding {' '.join(self.known.seen)}\n{law}-marks x = record {{ are = λ s. refl }}",
        ]

    def link_laws(self):
        """The writer of the fields from each on."""
        found = []
        for at in reversed(range(len(self.fields) - 1)):
            rest = self.rest(at + 1)
            found.append(f"abbrev pub {self.head}-{at + 1} : Writer ({self.tail(at)})\n{self.head}-{at + 1} = pair-writer {self.fields[at].writer} {rest}")
        return found

    def rest(self, at):
        return self.fields[-1].writer if at == len(self.fields) - 1 else f"{self.head}-{at + 1}"

    def values(self, variable):
        return nested([f"{variable}.{escaped(name)}" for name in self.names])

    def held_laws(self):
        m, law, size, T = self.meaning, self.head, f"{self.start}_size", self.type
        names = self.names_of
        writer = self.rest(0)
        bounds = [field.small(f"x.{escaped(name)}") for name, field in zip(self.names, self.fields) if not field.fixed]
        laws = self.link_laws() + [
            f"abbrev pub {size} : {T} → ℕ\n{size} x = {projected(writer, 'size')} {self.values('x')}",
            f"""pub {law}-sized : (s : List ℕ) (x : {T}) → Ready {m} s x → length (output {m} s x) ≡ {size} x
unfolding {m}
{law}-sized s x r = named-sized _ {names} {writer} s x (record {{ short = r.short; inside = r.inside }})""",
            f"abbrev pub {law}-writer : Writer {m}\n{law}-writer = record {{ size = {size}; sized = {law}-sized }}",
            f"pub {law}-bound : (x : {T}) → {size} x ≤ {self.known.most}\n{law}-bound x = omega (arith, {', '.join(bounds)})",
            self.most_law(size),
            self.inside_law(),
        ]
        if len(self.fields) == 1:
            return laws + [
                f"""pub {law}-laid : (s : List ℕ) (x : {T}) (o z : List ℕ) → z ≡ laid_of {self.formats} s {self.values('x')} o → z ≡ laid_of {m} s x o
unfolding {m} laid_of
{law}-laid s x o z e = e"""
            ]
        return laws + [
            f"""pub {law}-lays : (s : List ℕ) (x : {T}) (o z : List ℕ) → Lays ({self.formats}) s {self.values('x')} o z → Lays {m} s x o z
unfolding {m}
{law}-lays s x o z a = lays-named _ {names} s x o z a"""
        ]

    def inside_law(self):
        m, law = self.meaning, self.head
        held = [(name, field) for name, field in zip(self.names, self.fields) if not field.codec]
        letters = "abcdef"[: len(held)]
        premises, proofs = [], []
        for letter, (name, field) in zip(letters, held):
            inside = field.lies(f"x.{escaped(name)}")
            premises.append(f"{letter} ≡ {inside}")
            proofs.append(f"e{letter}")
            last = inside
        if self.fields[-1].codec:
            proofs[-1] = f"({proofs[-1]} ∙ sym (and-true ({last})))"
        joined, proof = letters[-1], proofs[-1]
        for letter, one in zip(reversed(letters[:-1]), reversed(proofs[:-1])):
            joined = f"({letter} && {joined})"
            proof = f"ap₂ (λ a b. a && b) {one} {bracket(proof)}"
        hypotheses = " ".join(f"e{letter}" for letter in letters)
        return f"""pub {law}-inside : (s : List ℕ) (x : {self.type}) ({' '.join(letters)} : Bool) → {' → '.join(premises)} → {joined} ≡ {m}.held.inside s x
unfolding {m} {self.pieces(OPAQUE, *self.fields)}
{law}-inside s x {' '.join(letters)} {hypotheses} = {proof}"""

    def codec_laws(self):
        m, law, T = self.meaning, self.head, self.type
        if len(self.fields) == 1:
            laid = f"""pub {law}-laid : (v : {T}) (o z : List ℕ) → z ≡ laid ({self.fields[0].meaning}.kind.write {self.values('v')}) o → z ≡ laid ({m}.kind.write v) o
unfolding {m}
{law}-laid v o z e = e"""
        else:
            laid = f"""pub {law}-lays : (v : {T}) (o z : List ℕ) → Lays ({self.formats}) [] {self.values('v')} o z → Lays (exactly {m}) [] v o z
unfolding {m}
{law}-lays v o z a = record {{ put = λ r h. a.put (record {{ short = r.short; inside = refl }}) h }}"""
        if self.known.fixed:
            parts = folded("pair-fixed", [f"{field.head}-fixed" for field in self.fields])
            return [f"pub {law}-fixed : Fixed {self.known.fixed} {m}\nunfolding {m}\n{law}-fixed = seen-fixed {bracket(parts)} _ _ _ _"] + self.link_laws() + [laid]
        writer = self.rest(0)
        bounds = ", ".join(["arith", f"{law}-sized v"] + [f"{field.head}-between v.{escaped(name)}" for name, field in zip(self.names, self.fields) if not field.fixed])
        return self.link_laws() + [
            f"""pub {law}-sized : (v : {T}) → length ({m}.kind.write v) ≡ {projected(writer, 'size')} {self.values('v')}
unfolding {m}
{law}-sized v = {projected(writer, 'sized')} [] {self.values('v')} (record {{ short = omega arith; inside = refl }})""",
            f"""pub {law}-between : (v : {T}) → Between {self.known.least} {self.known.most} (length ({m}.kind.write v))
{law}-between v = record {{ least = omega ({bounds}); greatest = omega ({bounds}) }}""",
            self.small_law(),
            self.size_law(),
            laid,
        ]

    def size_law(self):
        """The sum that the code makes."""
        m, law = self.meaning, self.head
        held = [(letter, name, field) for letter, (name, field) in zip("abcdef", ((n, f) for n, f in zip(self.names, self.fields) if not f.fixed))]
        letters = " ".join(letter for letter, _, _ in held)
        premises = " → ".join(f"{letter} ≡ length ({field.meaning}.kind.write v.{escaped(name)})" for letter, name, field in held)
        fixed = sum(field.fixed for field in self.fields)
        total = " + ".join([letter for letter, _, _ in held] + ([str(fixed)] if fixed else []))
        proofs = " ".join(f"e{letter}" for letter, _, _ in held)
        return f"""pub {law}-size : (v : {self.type}) ({letters} : ℕ) → {premises} → {total} ≡ length ({m}.kind.write v)
{law}-size v {letters} {proofs} = omega (arith, {law}-sized v)"""

    # ------------------------------------------------ ranges

    def ranges(self):
        m, law = self.meaning, self.head
        if self.known.codec:
            goods = ", ".join(dict.fromkeys(field.good for field in self.fields))
            return [f"""pub {law}-good : (m : {self.type}) {{vs : List Val}} → Is {self.dashed}·.the_row m vs → {m}.kind.Good m
unfolding {m}
{law}-good m p = search ({goods})"""], []  # fmt: skip
        goods = [self.good_at(at) for at in range(len(self.fields))]
        return [], [f"""{self.good_head("m")}
unfolding {m} {self.pieces(OPAQUE, *self.fields)}
{law}-good m p{" i" * self.known.inside} = {nested(goods)}"""]  # fmt: skip

    def good_at(self, at):
        """That a field is in range."""
        values = [f"m.{escaped(name)}" for name in self.names]
        return self.good_value(self.fields[at], values[at], self.inside_at(at, values))

    def inside_at(self, at, values):
        """That a field lies inside, as i says it of all of them: those without pieces do so in any case."""
        lies = [field.lies(value) if not field.codec else "true" for field, value in zip(self.fields, values)]
        behind = [lies[-1]]
        for one in reversed(lies[:-1]):
            behind.insert(0, behind[0] if one == "true" else f"{one} && {bracket(behind[0])}")
        proof = "i"
        for before in range(at):
            if lies[before] != "true":
                proof = f"and_right {bracket(lies[before])} {bracket(behind[before + 1])} {bracket(proof)}"
        return proof if at == len(lies) - 1 else f"and_left {bracket(lies[at])} {bracket(behind[at + 1])} {bracket(proof)}"

    # ------------------------------------------------ proofs

    def proofs(self):
        m, law, count = self.meaning, self.head, len(self.fields)
        by = f"by-plan {law}-plan" if self.known.codec else f"planned {law}-plan"
        proofs = {f"{self.name}_at": Answers(plan_answers(by, self.names), m)}
        if self.run:
            proofs[f"{self.name}_cut"] = proofs[f"{self.name}_at"]
        if not self.known.fixed:
            varying, fixed = self.sizes()
            bounds = ", ".join(dict.fromkeys(["sums"] + [field.bound for field in self.fields if field.bound]))
            add = f"(λ c. search ({bounds}))" if "," in bounds else f"(λ c. search {bounds})"
            end = f"(λ c. search {law}-size)" if self.known.codec else "(λ c. omega arith)"
            parts = rules(1) + [part for _ in varying[1:] for part in (RULES, add)] + ([add] if fixed else []) + [end]
            proofs[f"{self.name}_size"] = Proof(parts)
        if not self.known.codec:
            held = [field for field in self.fields if not field.codec]
            proofs[f"{self.name}_inside"] = Proof(rules(len(held)) + [f"(λ c. search {law}-inside)"])
        for at in range(count - 1):
            field, rest = self.fields[at], self.rest(at + 1)
            first = [] if field.fixed else rules(1)
            proofs[f"put_{self.name}_{at + 1}"] = Proof(
                first + [f"(λ c. search (lays-none {field.writer} {rest}))"] + rules(9)
                + [f"(λ c. search (lays-both {field.writer} {rest}, lays-of, lays-codec))"]
            )  # fmt: skip
        if count == 1:
            proofs[f"put_{self.name}"] = Proof(rules(2) + [f"(λ c. search {law}-laid)"])
        elif not self.known.codec:
            proofs[f"put_{self.name}"] = Proof(
                ["(λ c. search of-long)", RULES, f"(λ c. search (put-outside {law}-writer))", RULES, f"(λ c. search (put-short {law}-writer))"]
                + rules(2) + [f"(λ c. search (lays_all {law}-writer, {law}-lays))"]
            )  # fmt: skip
        elif self.known.fixed:
            proofs[f"put_{self.name}"] = Proof([f"(λ c. search (lays, size_is {law}-fixed))"] + rules(2) + [f"(λ c. search (rules, lays-plain, {law}-lays, size_is {law}-fixed))"])
        else:
            proofs[f"put_{self.name}"] = Proof(rules(1) + ["(λ c. search lays)"] + rules(2) + [f"(λ c. search (rules, lays-plain, {law}-lays))"])
        if not self.known.codec:
            proofs.update(self.marks_proof([f"(λ c. search {law}-marks)"]))
        return {**proofs, **self.common_proofs()}
