"""The text that every declared kind has: its public functions, and what follows from them."""

from generator.known import bracket, camel, escaped, law_head, stem

RULES = "(search rules)"

# How deep a plan is followed.
DEEP = "depth 20"

# Before each type: its values are plain, so they are copied, and may be let go.
COPIED = "#[derive(Clone, Copy)]\n"


def lower(meaning):
    """A meaning as the first part of a name in camel case: `nfs_fh` is nfsFh."""
    name = camel(meaning)
    return name[:1].lower() + name[1:]


def of_definitions(meaning):
    """A meaning as the first part of a definition's name: dashes are for laws."""
    return meaning.replace("-", "_")


def nested(parts):
    """Parts as pairs of pairs: (a, (b, c))."""
    return parts[0] if len(parts) == 1 else f"({parts[0]}, {nested(parts[1:])})"


def product(types):
    return types[0] if len(types) == 1 else f"{bracket(types[0])} × {product(types[1:])}" if len(types) == 2 else f"{bracket(types[0])} × ({product(types[1:])})"


def folded(function, parts):
    """f a (f b c)."""
    return bracket(parts[0]) if len(parts) == 1 else f"{function} {bracket(parts[0])} {bracket(folded(function, parts[1:]))}"


def projections(variable, count):
    """What the fields of a nested tuple are: x.0, x.1.0, x.1.1."""
    if count == 1:
        return [variable]
    return [f"{variable}{'.1' * at}{'.0' if at < count - 1 else ''}" for at in range(count)]


def rules(count):
    return [RULES] * count


def least_of(field):
    return field.fixed or field.least


def most_of(field):
    return field.fixed or field.most


class Kind:
    """A kind that a topic declares. Its shape (record, optional value, enumeration, result) adds the text of its own."""

    # Whether kinds.txt has it. If not, it is a part of others: it has no public reader and writer.
    public = True

    def __init__(self, declared, meaning, topic):
        self.declared = declared
        self.code_type = declared.name
        self.name = stem(declared.name)  # as the functions and kinds.txt have it
        self.meaning = meaning
        self.start = of_definitions(meaning)  # how the names of its definitions begin
        self.head = law_head(meaning)  # how those of its laws do
        self.topic = topic
        self.type = escaped(declared.name)
        self.dashed = self.name.replace("_", "-")

    # ------------------------------------------------ what others see

    def passed_on(self):
        """The names that the crate passes on."""
        return [self.code_type, f"read_{self.name}", f"write_{self.name}"] if self.public else [self.code_type]

    def aliased(self):
        """Short names for types whose cases the specifications name."""
        return {}

    def goods(self):
        """The laws that every value is in range."""
        return [self.known.good]

    # ------------------------------------------------ the code that all have

    @property
    def format(self):
        return f"exactly {self.meaning}" if self.known.codec else self.meaning

    @property
    def read_by(self):
        return f"{self.meaning}.kind.read" if self.known.codec else f"{self.meaning}.held.read"

    @property
    def answer(self):
        """What a reader returns."""
        return f"Result<Took<{self.code_type}>, Refusal>"

    def at_head(self):
        return f"""pub fn {self.name}_at(src: &[u8], at: usize) -> {self.answer}
    ensures {{ view result ≡ {self.read_by} src.now at }}"""

    def public_code(self):
        return [self.read_code(), self.write_code()] if self.public else []

    def read_code(self):
        return f"""pub fn read_{self.name}(src: &[u8], at: usize) -> {self.answer}
    ensures {{ Answers {bracket(self.format)} src.now at (view result) }}
{{
    open_at(src, at)?;
    {self.name}_at(src, at)
}}"""

    def write_code(self):
        """Behind the tests of the order of refusals, the inner writer."""
        if self.known.codec:
            return f"""{self.write_head()}
{{
    let end = room(out.len(), at, {self.known.size_of("v")})?;
    put_{self.name}(v, &mut out[at..]);
    Ok(end)
}}"""
        return f"""{self.write_head()}
{{
    let end = place(src.len(), {self.name}_inside(src, x), {self.name}_size(x), out.len(), at)?;
    put_{self.name}(src, x, &mut out[at..]);
    Ok(end)
}}"""

    def write_head(self):
        if self.known.codec:
            return f"""pub fn write_{self.name}(v: {self.code_type}, out: &mut [u8], at: usize) -> Result<usize, Refusal>
    ensures {{ Writes (exactly {self.meaning}) [] v at out.old (view_wrote result) out.new }}"""
        return f"""pub fn write_{self.name}(src: &[u8], x: {self.code_type}, out: &mut [u8], at: usize) -> Result<usize, Refusal>
    ensures {{ Writes {self.meaning} src.now x at out.old (view_wrote result) out.new }}"""

    def size_code(self):
        """The constant of a fixed kind, and the contract that holds it to the kind."""
        return f"""impl {self.code_type} {{
    pub const SIZE: usize = {self.known.fixed};

    pub fn size() -> usize
        ensures {{ OfSize result {self.meaning} }}
    {{
        {self.code_type}::SIZE
    }}
}}"""

    def put_head(self):
        if self.known.codec:
            return f"""pub fn put_{self.name}(v: {self.code_type}, out: &mut [u8])
    ensures {{ out.new ≡ laid ({self.meaning}.kind.write v) out.old }}"""
        return f"""pub fn put_{self.name}(src: &[u8], x: {self.code_type}, out: &mut [u8])
    ensures {{ out.new ≡ laid_of {self.meaning} src.now x out.old }}"""

    def tests_code(self):
        """What is tested before all is laid."""
        if self.known.codec:
            return f"    if out.len() < {self.known.size_of('v')} {{\n        return;\n    }}\n"
        return f"""    if MOST < src.len() {{
        return;
    }}
    if !{self.name}_inside(src, x) {{
        return;
    }}
    if out.len() < {self.name}_size(x) {{
        return;
    }}
"""

    def size_head(self):
        if self.known.codec:
            return f"""pub fn {self.name}_size(v: {self.code_type}) -> usize
    ensures {{ result ≡ length ({self.meaning}.kind.write v) }}"""
        return f"""pub fn {self.name}_size(x: {self.code_type}) -> usize
    ensures {{ result ≡ {self.start}_size x }}"""

    def inside_head(self):
        return f"""pub fn {self.name}_inside(src: &[u8], x: {self.code_type}) -> bool
    ensures {{ result ≡ {self.meaning}.held.inside src.now x }}"""

    def marks_head(self):
        return f"""    pub fn marks(self) -> Marks
        ensures {{ MarksAre {self.meaning} self (view_marks result) }}"""

    def unpadded_law(self, proof):
        m, law = self.meaning, self.head
        return f"pub {law}-unpadded : Unpadded {m}.kind\nunfolding {m}\n{law}-unpadded = {proof}"

    def marked_law(self, proof):
        m, law = self.meaning, self.head
        return f"pub {law}-marked : Marked {m}.held\nunfolding {m}\n{law}-marked = {proof}"

    def marks_proof(self, answers):
        return {f"{self.code_type}/marks": Proof(answers, name="marks")}

    # ------------------------------------------------ the specifications that all have

    def good_of(self, field):
        """The law of a field's range. That of a kind with pieces has the source, unless it stands in the same module."""
        own = field.type in {declared.name for declared in self.topic.declared}
        return field.good if field.codec or own else f"({field.good} s h k)"

    def good_head(self, value):
        """That every value of a kind with pieces is in range: if it lies inside, where that is needed."""
        m = self.meaning
        inside = f" → {m}.held.inside s {value} ≡ true" if self.known.inside else ""
        return f"pub {self.head}-good : ({value} : {self.type}) {{vs : List Val}} → Is {self.dashed}·.the_row {value} vs{inside} → {m}.codec.kind.Good ({m}.held.mean s {value})"

    def good_value(self, field, value, inside):
        """That a field's value is in range; `inside` proves that it lies inside."""
        if field.name == "opaque":
            return f"piece-good s {bracket(value)} h k"
        if field.name == "words":
            return f"words-good s {bracket(value)} h k {bracket(inside)}"
        if field.inside:
            return f"(let e : {field.lies(value)} ≡ true = {inside} in search {self.good_of(field)})"
        return f"search {self.good_of(field)}"

    def pieces(self, *fields):
        """What is unfolded to see the pieces among fields."""
        return " ".join(dict.fromkeys(field.piece.held for field in fields if field and field.piece))

    def small_law(self):
        law = self.head
        return f"pub {law}-small : (v : {self.type}) → length ({self.meaning}.kind.write v) ≤ most\n{law}-small v = omega (arith, {law}-between v)"

    def most_law(self, size):
        """Its size in a sum."""
        law = self.head
        return f"pub {law}-most : (n : ℕ) (x : {self.type}) → n ≡ {size} x → n ≤ 4294967296\n{law}-most n x e = omega (arith, {law}-bound x)"

    # ------------------------------------------------ the proofs that all have

    def common_proofs(self):
        proofs = self.public_proofs() if self.public else {}
        if self.known.fixed:
            proofs[f"{self.code_type}/size"] = Proof([f"(λ c. of_size {self.head}-fixed)"], name="size")
        return proofs

    def public_proofs(self):
        return {f"read_{self.name}": Answers({exit_of("open_at"): f"search (reads, tries, {first_exit()})", "returns": "search (reads, tries)"}), f"write_{self.name}": self.write_proof()}

    def write_proof(self):
        """That of a writer behind the tests: what it refuses, that the place is in the buffer, and what it writes."""
        m, law, good = self.meaning, self.head, self.known.good
        if not self.known.codec:
            off, place, on = f"write-off {law}-writer", f"write-place {law}-writer", f"{'write-in' if self.known.inside else 'write-on'} {law}-writer"
        elif self.known.fixed:
            off, place, on = f"fixed_off {law}-fixed, rules", "rooms", f"fixed_on {law}-fixed, rules"
        else:
            off, place, on = f"plain-off {m} {law}-small", "rooms", f"plain-on {m} {law}-small"
        return Answers(
            {
                exit_of("end"): f"search ({off}, tries, {first_exit()})",
                f"slice_bounds-put_{self.name}-count": f"search ({place}, c.in_ok-end.was)",
                f"slice_bounds-put_{self.name}-start": f"search ({place}, c.in_ok-end.was)",
                "returns": f"search ({on}, {good}, tries)",
            }
        )


class Proof:
    """The proof of one function: what answers each need, in the order of the code."""

    file = "Proof.antt"

    def __init__(self, answers, unfolding="", name=""):
        self.answers = answers if isinstance(answers, str) else "tie.spec " + " ".join(answers)
        self.unfolding = unfolding
        self.name = name

    def text(self, function, module, words):
        name = self.name or function.split("/")[-1]
        unfolding = f"unfolding {self.unfolding}\n" if self.unfolding else ""
        body = f"pub {name}_spec : {{M : Type 1}} → statement M\n{unfolding}{name}_spec = tie.close ({self.answers})\n"
        lines = words.spec_lines(unfolding + self.answers, proofs=True)
        lines += [f"use {module}.Statement.{{statement}}", f"use {module}.Tie as tie"]
        return "\n".join(lines) + "\n\n" + body


class Answers:
    """What answers the goals of one function that are not answered by themselves."""

    file = "Answers.antt"

    def __init__(self, answers, unfolding=""):
        self.answers = answers  # by the names of the goals
        self.unfolding = unfolding

    def text(self, function, module, words):
        unfolding = f"unfolding {self.unfolding}\n" if self.unfolding else ""
        lines = words.spec_lines(" ".join([unfolding, *self.answers.values()])) + [f"use {module}.Goals as goal"]
        answers = [f"pub {goal} : goal.{goal}\n{unfolding}{goal} c = {answer}\n" for goal, answer in self.answers.items()]
        return "\n".join(lines) + "\n\n" + "\n".join(answers)


def exit_of(call):
    """The goal of a `?`: that what it returns is as the contract says."""
    return f"returns-in_err-{call}"


def first_exit():
    """That the first `?` returns the refusal that it was handed."""
    return "exit c.from_residual.ensures.1"


def told_by(calls):
    """What each call has told where it took something."""
    return [f"c.in_ok-{call}.ensures" for call in calls]


def plan_answers(plan, calls):
    """The answers of a reader that makes the calls one after another: what each exit refuses, and what it takes in the end."""
    answers = {exit_of(call): exit_by_plan(plan, calls[:at], call, at == 0) for at, call in enumerate(calls)}
    return {**answers, "returns": search_by_plan(plan, told_by(calls))}


def exit_by_plan(plan, before, call, first):
    """That what a `?`, which may be the first, returns is the refusal of the plan, after the calls before it."""
    residual = "c.from_residual" if first else f"c.from_residual-in_err-{call}"
    return f"exits _ {residual}.ensures.1 ({search_by_plan(plan, [*told_by(before), f'c.in_err-{call}.ensures'])})"


def search_by_plan(plan, facts):
    """A plan followed. With its facts named, the search is found among many steps."""
    return f"search ({', '.join([plan, 'asks', *facts])}) {DEEP}"
