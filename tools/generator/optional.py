"""The text of a value that a flag says is there."""

from generator.kind import COPIED, RULES, Answers, Kind, Proof, bracket, exit_by_plan, exit_of, lower, most_of, rules, search_by_plan, told_by
from generator.known import OPAQUE, Known, escaped


# A number is written in one step with its flag: by what, and the law of that.
WITH_FLAG = {"u32": ("put_u32_pair", "some_word"), "u64": ("put_u32_u64", "some-hyper")}


class Optional(Kind):
    def __init__(self, declared, meaning, topic, field, type):
        super().__init__(declared, meaning, topic)
        self.field = field
        self.value = declared.parts[0].name
        self.value_type = type
        message = self.type if field.codec else f"Option {bracket(field.message)}"
        self.known = Known(self.name, self.code_type, field.codec, meaning, message, self.type, 0, f"{self.head}-good", 4, 4 + most_of(field), inside=field.inside, paths=() if field.codec else None)
        self.variable = "v" if field.codec else "x"
        self.cases = f"{self.start}_cases"
        self.variants = f"{lower(meaning)}Is"

    def aliased(self):
        return {self.variants: self.code_type}

    def code(self):
        parts = [self.enum_code(), self.at_code()]
        if not self.known.codec:
            parts += [self.marks_code(), self.inside_code()]
        links = [] if self.number else [self.link_code()]
        return parts + [self.sum_code(), *links, self.put_code(), *self.public_code()]

    @property
    def number(self):
        return self.field.name in WITH_FLAG

    def enum_code(self):
        comment = f"// {self.declared.comment}\n" if self.declared.comment else ""
        return f"{comment}{COPIED}pub enum {self.code_type} {{\n    Void,\n    {self.value}({self.value_type}),\n}}"

    def at_code(self):
        return f"""{self.at_head()}
{{
    let follows = bool_at(src, at)?;
    if !follows.value {{
        return Ok(Took {{ value: {self.code_type}::Void, next: follows.next, plain: follows.plain }});
    }}
    let v = {self.field.reader}(src, follows.next)?;
    Ok(Took {{ value: {self.code_type}::{self.value}(v.value), next: v.next, plain: follows.plain & v.plain }})
}}"""

    def match_code(self, void, some, binder="f"):
        return f"""    match {self.variable} {{
        {self.code_type}::Void => {void},
        {self.code_type}::{self.value}({binder}) => {some},
    }}"""

    def marks_code(self):
        cases = self.match_code("Marks::None", "f.marks()").replace(f"match {self.variable} ", "match self ").replace("\n", "\n    ")
        return f"impl {self.code_type} {{\n{self.marks_head()}\n    {{\n    {cases}\n    }}\n}}"

    def inside_code(self):
        return f"{self.inside_head()}\n{{\n{self.match_code('true', self.field.inside_of('f'))}\n}}"

    def sum_code(self):
        size = str(4 + self.field.fixed) if self.number else f"4 + {self.field.size_of('f')}"
        return f"{self.size_head()}\n{{\n{self.match_code('4', size, '_' if self.field.fixed else 'f')}\n}}"

    def link_code(self):
        src = "" if self.known.codec else "src: &[u8], "
        source = "[]" if self.known.codec else "src.now"
        return f"""fn put_{self.name}_1({src}f: {self.value_type}, out: &mut [u8])
    ensures {{ Lays (exactly flag ⨟ {self.field.format}) {source} (true, f) out.old out.new }}
{{
    if out.len() < 4 {{
        return;
    }}
    put_bool(true, &mut out[0..]);
    {self.field.put_of("f", "&mut out[4..]")};
}}"""

    def put_code(self):
        if self.number:
            put, _ = WITH_FLAG[self.field.name]
            return f"{self.put_head()}\n{{\n{self.match_code('put_bool(false, out)', f'{put}(1, f, out)')}\n}}"
        give = "" if self.known.codec else "src, "
        return f"{self.put_head()}\n{{\n{self.tests_code()}{self.match_code('put_bool(false, out)', f'put_{self.name}_1({give}f, out)')}\n}}"

    def meanings(self):
        m, T, held = self.meaning, self.type, self.field.held
        start, name, case, variants = self.start, escaped(self.value), f"{self.variants}.Void", self.variants
        some = f"({variants}.{name} f)"
        made = "Codec" if self.known.codec else f"Format (Option {bracket(self.field.message)})"
        how = "maybe" if self.known.codec else "maybe_held"
        return [
            f"-- {self.code_type}\nabbrev pub {start}_to : Option {bracket(held)} → {T}\n{start}_to none = {case}\n{start}_to (some f) = {some[1:-1]}",
            f"abbrev pub {start}_from : {T} → Option {bracket(held)}\n{start}_from {case} = none\n{start}_from {some} = some f",
            f"pub {start}_from_to : (x : Option {bracket(held)}) → {start}_from ({start}_to x) ≡ x\n{start}_from_to none = refl\n{start}_from_to (some f) = refl",
            f"pub {start}_to_from : (y : {T}) → {start}_to ({start}_from y) ≡ y\n{start}_to_from {case} = refl\n{start}_to_from {some} = refl",
            f"""abbrev pub {self.cases} : Cases {bracket(held)} {T}
{self.cases} = record {{ to = {start}_to; from = {start}_from; from_to = {start}_from_to; to_from = {start}_to_from }}""",
            f"unfoldable pub {m} : {made} {T}\n{m} = {how} {self.field.meaning} {self.cases}",
        ]

    def laws(self):
        m, law, T, field = self.meaning, self.head, self.type, self.field
        if self.known.codec:
            plan = f"-- {self.code_type}\nabbrev pub {law}-plan : ByPlan {m}\nunfolding {m}\n{law}-plan = maybe-plan {field.meaning} {self.cases}"
            within = f"pub {law}-within : Within 0 {m}.kind\nunfolding {m}\n{law}-within = maybe-within {field.meaning} {self.cases} {field.within}"
            own = [
                f"pub {law}-optional : Optional {field.meaning} {self.cases} {m}\nunfolding {m}\n{law}-optional = record {{ is = refl }}",
                f"""pub {law}-between : (v : {T}) → Between 4 {self.known.most} (length ({m}.kind.write v))
unfolding {m}
{law}-between v = maybe-between {field.meaning} {self.cases} {field.head}-fixed v""",
                self.small_law(),
                self.unpadded_law(f"view-unpadded (λ x. refl) (option-unpadded {field.meaning} {field.unpadded})"),
            ]
        else:
            plan = f"-- {self.code_type}\nabbrev pub {law}-plan : Planned {m}.held.read\nunfolding {m}\n{law}-plan = plan (optionally (at {bracket(field.format)})) _"
            within = f"""pub {law}-within : Within 0 {m}.codec.kind
unfolding {m}
{law}-within = held-within {field.meaning} {self.cases} {field.within}"""
            size = f"{self.start}_size"
            own = [
                f"pub {law}-optional : OptionalHeld {field.meaning} {self.cases} {m}\nunfolding {m}\n{law}-optional = record {{ is = refl }}",
                f"abbrev pub {size} : {T} → ℕ\n{size} x = option_size {field.writer} ({self.start}_from x)",
                f"abbrev pub {law}-writer : Writer {m}\n{law}-writer = record {{ size = {size}; sized = held-sized {law}-optional {field.writer} }}",
                f"""pub {law}-bound : (x : {T}) → {size} x ≤ {self.known.most}
{law}-bound {self.variants}.Void = omega arith
{law}-bound ({self.variants}.{escaped(self.value)} f) = omega (arith, {field.small("f")})""",
                self.most_law(size),
                self.marked_law(f"maybe-marked {bracket(field.format)} {bracket(field.marked)} {self.cases}"),
            ]
        return [plan, within] + own

    def ranges(self):
        m, law, T, field = self.meaning, self.head, self.type, self.field
        variants, value = self.variants, escaped(self.value)
        if self.known.codec:
            return [f"""pub {law}-good : (m : {T}) {{vs : List Val}} → Is {self.dashed}·.the_row m vs → {m}.kind.Good m
unfolding {m}
{law}-good {variants}.Void p = search flag-good
{law}-good ({variants}.{value} f) p = search (flag-good, {field.good})"""], []  # fmt: skip
        i = " i" * field.inside
        return [], [f"""{self.good_head("m")}
unfolding {m} {self.pieces(OPAQUE, field)}
{law}-good {variants}.Void p{i} = (flag-good false, tt)
{law}-good ({variants}.{value} f) p{i} = (flag-good true, {self.good_value(field, "f", "i")})"""]  # fmt: skip

    def proofs(self):
        m, law, field = self.meaning, self.head, self.field
        by = f"by-plan {law}-plan" if self.known.codec else f"planned {law}-plan"
        answers = {
            exit_of("follows"): exit_by_plan(by, [], "follows", first=True),
            "returns-then-not-follows": search_by_plan(by, told_by(["follows"])),
            exit_of("v"): exit_by_plan(by, ["follows"], "v", first=False),
            "returns": search_by_plan(by, told_by(["follows", "v"])),
        }
        proofs = {f"{self.name}_at": Answers(answers, m)}
        if self.number:
            _, some = WITH_FLAG[field.name]
            proofs[f"{self.name}_size"] = Proof(
                rules(2) + [f"(λ c. search (none-size {law}-optional))", f"(λ c. search (some_size {law}-optional {field.head}-fixed))"]
            )
            proofs[f"put_{self.name}"] = Proof(
                rules(5) + [f"(λ c. search (lays, none-bytes {law}-optional))", RULES, f"(λ c. search (lays, {some} {law}-optional))"]
            )
            return {**proofs, **self.common_proofs()}
        flag = "(fixed-writer flag-fixed)"
        proofs[f"put_{self.name}_1"] = Proof(
            [f"(λ c. search (lays-none {flag} {field.writer}))"] + rules(9) + [f"(λ c. search (lays-both {flag} {field.writer}, lays-of, lays-codec))"]
        )
        add = f"(λ c. search (sums, {field.bound}))" if field.bound else "(λ c. search sums)"
        if self.known.codec:
            proofs[f"{self.name}_size"] = Proof(rules(3) + [f"(λ c. search (none-size {law}-optional))", f"(λ c. search (some_size {law}-optional {field.head}-fixed))"])
            proofs[f"put_{self.name}"] = Proof(
                rules(1) + ["(λ c. search lays)"] + rules(5)
                + [f"(λ c. search (rules, lays-plain, lays-void {law}-optional))", RULES, f"(λ c. search (rules, lays-plain, lays-value {law}-optional))"]
            )  # fmt: skip
        else:
            value = "piece-marks" if field.name == "opaque" else "words-marks" if field.name == "words" else ""
            some = ", ".join([f"value-marks {law}-optional"] + [value] * bool(value))
            proofs.update(self.marks_proof(rules(3) + [f"(λ c. search (void-marks {law}-optional))", f"(λ c. search ({some}))"]))
            proofs[f"{self.name}_inside"] = Proof(
                rules(3) + [f"(λ c. search (void-inside {law}-optional))", f"(λ c. search (value-inside {law}-optional))"], unfolding=self.pieces(field)
            )
            proofs[f"{self.name}_size"] = Proof(
                rules(3) + [add, f"(λ c. search (void-size {law}-optional {field.writer}))", f"(λ c. search (value-size {law}-optional {field.writer}))"]
            )
            proofs[f"put_{self.name}"] = Proof(
                ["(λ c. search of-long)", RULES, f"(λ c. search (put-outside {law}-writer))", RULES, f"(λ c. search (put-short {law}-writer))"]
                + rules(5) + [f"(λ c. search (lays_all {law}-writer, held-void {law}-optional))", RULES, f"(λ c. search (lays_all {law}-writer, held-value {law}-optional))"]
            )  # fmt: skip
        return {**proofs, **self.common_proofs()}
