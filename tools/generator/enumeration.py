"""The text of a closed enumeration."""

from generator.kind import COPIED, Answers, Kind, Proof, exit_of, first_exit, lower, rules, of_definitions
from generator.known import Known, escaped
from generator.status import Status
from generator.table import Trouble


class Enumeration(Kind):
    """Names for numbers. Any other number is refused."""

    def __init__(self, declared, meaning, topic):
        super().__init__(declared, meaning, topic)
        self.known = Known(self.name, self.code_type, True, meaning, self.type, self.type, 4, f"{self.head}-good")
        self.number, self.all, self.each = f"{self.start}_number", f"{self.start}_all", f"each_{self.start}"
        self.variants = f"{lower(meaning)}Is"

    def aliased(self):
        return {self.variants: self.code_type}

    def code(self):
        return [
            self.enum_code(),
            self.numbers_code(),
            f"""{self.at_head()}
{{
    let v = u32_at(src, at)?;
    let Some(x) = {self.code_type}::of(v.value) else {{
        return Err(Refusal::Undeclared(at));
    }};
    Ok(Took {{ value: x, next: v.next, plain: true }})
}}""",
            f"{self.put_head()}\n{{\n    put_u32(v.number(), out);\n}}",
            *self.public_code(),
        ]

    def write_code(self):
        return f"{self.write_head()}\n{{\n    write_u32(v.number(), out, at)\n}}"

    def enum_code(self):
        comment = f"// {self.declared.comment}\n" if self.declared.comment else ""
        cases = "".join(f"    {name},\n" for name, _ in self.declared.parts)
        return f"{comment}{COPIED}pub enum {self.code_type} {{\n{cases}}}"

    def numbers_code(self):
        cases = "".join(f"            {number} => Some({self.case_code(name)}),\n" for name, number in self.declared.parts)
        size = self.size_code().rstrip("}").rstrip()
        return f"""{size}

{self.number_code(self.number, self.numbers())}

    pub fn of(v: u32) -> Option<{self.code_type}>
        ensures {{ view_found result ≡ among {self.number} {self.all} v }}
    {{
        match v {{
{cases}            _ => None,
        }}
    }}
}}"""

    def numbers(self):
        """Each case, and its number."""
        return [(self.case_code(name), number) for name, number in self.declared.parts]

    def number_code(self, meaning, cases):
        """The function that says the number."""
        numbers = "".join(f"            {case} => {number},\n" for case, number in cases)
        return f"""    pub fn number(self) -> u32
        ensures {{ result ≡ {meaning} self }}
    {{
        match self {{
{numbers}        }}
    }}"""

    def case_code(self, name):
        return f"{self.code_type}::{name}"

    def variant(self, name):
        return f"{self.variants}.{escaped(name)}"

    def meanings(self):
        m, T = self.meaning, self.type
        names = [self.variant(name) for name, _ in self.declared.parts]
        numbers = "\n".join(f"{self.number} {self.variant(name)} = {number}" for name, number in self.declared.parts)
        each = "\n".join(f"{self.each} {name} = refl" for name in names)
        every = " ∷ ".join([name.strip("()") for name in names] + ["[]"])
        return [
            f"-- {self.code_type}\nabbrev pub {self.number} : {T} → ℕ\n{numbers}",
            f"abbrev pub {self.all} : List {T}\n{self.all} = {every}",
            f"pub {self.each} : (a : {T}) → among {self.number} {self.all} ({self.number} a) ≡ means a []\n{each}",
            f"unfoldable pub {m} : Codec {T}\n{m} = closed {self.number} {self.all} {self.each}",
        ]

    def laws(self):
        m, law, T = self.meaning, self.head, self.type
        of = f"{self.number} {self.all} {self.each}"
        return [
            f"-- {self.code_type}\npub {law}-within : Within 0 {m}.kind\nunfolding {m}\n{law}-within = closed-within {of}",
            self.unpadded_law(f"closed-unpadded {of}"),
            f"pub {law}-fixed : Fixed 4 {m}\nunfolding {m}\n{law}-fixed = seen-fixed word-fixed _ _ _ _",
            f"""pub {law}-writes : (a : {T}) {{v : ℕ}} (at : ℕ) (o : List ℕ) {{w : Written}} {{o' : List ℕ}} → v ≡ {self.number} a → Writes (exactly word) [] v at o w o'
    → Writes (exactly {m}) [] a at o w o'
unfolding {m}
{law}-writes = by_number {of}""",
            f"""pub {law}-bytes : (n : ℕ) (a : {T}) → n ≡ {self.number} a → word.kind.write n ≡ {m}.kind.write a
unfolding {m}
{law}-bytes n a e = ap word.kind.write e""",
        ]

    def ranges(self):
        m, law = self.meaning, self.head
        cases = "\n".join(f"{law}-good {self.variant(name)} = word_good _ (omega arith)" for name, _ in self.declared.parts)
        return [f"pub {law}-good : (a : {self.type}) → {m}.kind.Good a\nunfolding {m}\n{cases}"], []

    def proofs(self):
        m, law = self.meaning, self.head
        tags = f"{self.number} {self.all} {self.each}"
        return {
            f"{self.name}_at": Answers(
                {
                    exit_of("v"): f"search (tag-lost {tags}, tries, {first_exit()})",
                    "returns-in_default": f"search (tag-none {tags}, tries)",
                    "returns": f"search (tag_is {tags}, tries)",
                },
                m,
            ),
            f"put_{self.name}": Proof(rules(3) + [f"(λ c. search (lays, {law}-bytes))"]),
            **self.common_proofs(),
        }

    def write_proof(self):
        return Proof(rules(3) + [f"(λ c. search {self.head}-writes)"])


class Statuses(Enumeration):
    """A closed enumeration that results begin with: its 0 is success, and the others are failures, which have a type of their own."""

    def __init__(self, declared, meaning, topic):
        super().__init__(declared, meaning, topic)
        (self.ok, first), *self.failing = declared.parts
        if first != 0 or not self.failing:
            raise Trouble(f"{topic.path}: a union switches on {self.code_type}, so its first number is 0, for success, and others follow")
        self.failures, failing = (name.replace("stat", "fail") for name in (self.code_type, meaning))
        if self.failures == self.code_type or failing == meaning:
            raise Trouble(f"{topic.path}: {self.code_type} has no `stat` in its name or its meaning, in whose place its failures have `fail`")
        self.failing_number, self.failing_variants = f"{of_definitions(failing)}_number", f"{lower(failing)}Is"
        start = self.start
        self.failure, self.status = f"{start}_failure", Status(self.code_type, self.ok, self.failures, meaning, f"{start}_or", f"{start}_for")

    def passed_on(self):
        return [self.failures, *super().passed_on()]

    def aliased(self):
        return {**super().aliased(), self.failing_variants: self.failures}

    # ------------------------------------------------ code

    def enum_code(self):
        comment = f"// {self.declared.comment}\n" if self.declared.comment else ""
        cases = "".join(f"    {name},\n" for name, _ in self.failing)
        return f"""// The failures of {self.code_type}: a type of their own, so that the failing arm of a result can hold no success.
{COPIED}pub enum {self.failures} {{
{cases}}}

{comment}{COPIED}pub enum {self.code_type} {{
    {self.ok},
    Failed({self.failures}),
}}"""

    def case_code(self, name):
        return f"{self.code_type}::{name}" if name == self.ok else f"{self.code_type}::Failed({self.failures}::{name})"

    def numbers_code(self):
        cases = [(f"{self.failures}::{name}", number) for name, number in self.failing]
        return f"impl {self.failures} {{\n{self.number_code(self.failing_number, cases)}\n}}\n\n{super().numbers_code()}"

    def numbers(self):
        return [(self.case_code(self.ok), 0), (f"{self.code_type}::Failed(f)", "f.number()")]

    # ------------------------------------------------ specifications

    def variant(self, name):
        if name == self.ok:
            return super().variant(name)
        return f"({self.variants}.Failed {self.failing_variants}.{escaped(name)})"

    def meanings(self):
        start, T, E, status = self.start, self.type, escaped(self.failures), self.status
        ok, failed = super().variant(self.ok), f"{self.variants}.Failed f"
        return super().meanings() + [
            f"abbrev pub {self.failing_number} : {E} → ℕ\n{self.failing_number} f = {self.number} ({failed})",
            f"-- success, or a failure: what a result is by its status\nabbrev pub {self.failure} : {T} → Option {E}\n{self.failure} {ok} = none\n{self.failure} ({failed}) = some f",
            f"abbrev pub {status.to} : Option {E} → {T}\n{status.to} none = {ok}\n{status.to} (some f) = {failed}",
            f"pub {start}_to_of : (a : {T}) → {status.to} ({self.failure} a) ≡ a\n{start}_to_of {ok} = refl\n{start}_to_of ({failed}) = refl",
            f"pub {start}_of_to : (o : Option {E}) → {self.failure} ({status.to} o) ≡ o\n{start}_of_to none = refl\n{start}_of_to (some f) = refl",
            f"""abbrev pub {status.success} : Status {T} {E}
{status.success} = record {{ of = {self.failure}; to = {status.to}; to_of = {start}_to_of; of_to = {start}_of_to }}""",
        ]

    # ------------------------------------------------ proofs

    def proofs(self):
        count = len(self.failing)
        return {
            **super().proofs(),
            f"{self.failures}/number": Proof(rules(count) + [f"(λ c. search (numbered {self.failing_number}))"] * count, name="number"),
            f"{self.code_type}/number": Proof(rules(3) + [f"(λ c. search (numbered {self.number}))"] * 2, name="number"),
        }
