"""The text of a union on a status: what follows success, or a failure and what follows it."""

from dataclasses import dataclass

from generator.kind import COPIED, RULES, Answers, Kind, Proof, bracket, exit_by_plan, exit_of, first_exit, least_of, lower, most_of, rules, search_by_plan, told_by
from generator.known import OPAQUE, Known, escaped, law_head, stem

# The bytes of a status.
BYTES = 4
NOTHING = "(Unit {0})"


@dataclass(frozen=True)
class Status:
    """The status that a result begins with: its type, as one sees it that has it before two arms."""

    type: str
    ok: str  # its case of success
    failures: str  # the type of all others
    meaning: str
    success: str  # that one case is success, and each other one is a failure
    to: str  # the status of a failure, or of none

    @property
    def name(self):
        return stem(self.type)

    @property
    def head(self):
        return law_head(self.meaning)


# The one that is written by hand.
NFS = Status("nfsstat3", "NFS3_OK", "nfsfail3", "nfsstat", "success_or", "status_for")


class Result(Kind):
    """A status, and behind it one of two arms: that of success, which is a field, or that of a failure, which may be nothing."""

    def __init__(self, declared, meaning, topic, status, arms, types):
        super().__init__(declared, meaning, topic)
        self.status = status
        self.arms = arms  # the kind of each; None for a failure that nothing follows
        self.types = types
        there = [arm for arm in arms if arm]
        sizes = [(least_of(arm), most_of(arm)) if arm else (0, 0) for arm in arms]
        message = f"Result {escaped(status.failures)} {' '.join(bracket(arm.message) if arm else NOTHING for arm in arms)}"
        least, most = BYTES + min(size[0] for size in sizes), BYTES + max(size[1] for size in sizes)
        self.known = Known(self.name, self.code_type, False, meaning, message, self.type, 0, f"{self.head}-good", least, most, inside=any(arm.inside for arm in there), paths=None)
        self.variants = f"{lower(meaning)}Is"
        self.law = f"{self.head}-status"

    # ------------------------------------------------ code

    def aliased(self):
        return {self.variants: self.code_type}

    def code(self):
        links = [self.link_code(at) for at in (0, 1) if self.arms[at]]
        return [self.enum_code(), self.at_code(), self.marks_code(), self.inside_code(), self.sum_code(), *links, self.put_code(), *self.public_code()]

    def enum_code(self):
        comment = f"// {self.declared.comment}\n" if self.declared.comment else ""
        failed = f", {self.types[1]}" if self.arms[1] else ""
        return f"{comment}{COPIED}pub enum {self.code_type} {{\n    {self.status.ok}({self.types[0]}),\n    Failed({self.status.failures}{failed}),\n}}"

    def arm_code(self, at, value):
        """An arm's own value, in the code."""
        if at == 0:
            return f"{self.code_type}::{self.status.ok}({value})"
        return f"{self.code_type}::Failed(e" + (f", {value})" if self.arms[1] else ")")

    def statuses(self):
        """The status of each arm, in the code."""
        return f"{self.status.type}::{self.status.ok}", f"{self.status.type}::Failed(e)"

    def at_code(self):
        arms = "".join(f"        {status} => {{\n{self.follow_code(at)}        }}\n" for at, status in enumerate(self.statuses()))
        return f"""{self.at_head()}
{{
    let status = {self.status.name}_at(src, at)?;
    match status.value {{
{arms}    }}
}}"""

    def follow_code(self, at):
        """What follows the status, read."""
        field = self.arms[at]
        if not field:
            return f"            Ok(Took {{ value: {self.arm_code(at, '')}, next: status.next, plain: status.plain }})\n"
        return f"""            let v = {field.reader}(src, status.next)?;
            Ok(Took {{ value: {self.arm_code(at, "v.value")}, next: v.next, plain: status.plain & v.plain }})
"""

    def marks_code(self):
        marks = [("f.marks()", True) if field and not field.codec else ("Marks::None", False) for field in self.arms]
        cases = self.match_code(marks).replace("match x ", "match self ").replace("\n", "\n    ")
        return f"impl {self.code_type} {{\n{self.marks_head()}\n    {{\n    {cases}\n    }}\n}}"

    def inside_code(self):
        tests = [(field.inside_of("f"), True) if field and not field.codec else ("true", False) for field in self.arms]
        return f"{self.inside_head()}\n{{\n{self.match_code(tests)}\n}}"

    def match_code(self, results):
        """A result for each arm, and whether it uses the arm's value."""
        patterns = [self.arm_code(at, "f" if used else "_") for at, (_, used) in enumerate(results)]
        patterns[1] = patterns[1].replace("Failed(e", "Failed(_")
        arms = "".join(f"        {pattern} => {result},\n" for pattern, (result, _) in zip(patterns, results))
        return f"    match x {{\n{arms}    }}"

    def sum_code(self):
        sizes = []
        for field in self.arms:
            if field and not field.fixed:
                sizes.append((f"{BYTES} + {field.size_of('f')}", True))
            else:
                sizes.append((str(BYTES + (field.fixed if field else 0)), False))
        return f"{self.size_head()}\n{{\n{self.match_code(sizes)}\n}}"

    def link_code(self, at):
        field = self.arms[at]
        return f"""fn put_{self.name}_{at + 1}(src: &[u8], status: {self.status.type}, f: {self.types[at]}, out: &mut [u8])
    ensures {{ Lays (exactly {self.status.meaning} ⨟ {field.format}) src.now (status, f) out.old out.new }}
{{
    if out.len() < {BYTES} {{
        return;
    }}
    put_{self.status.name}(status, &mut out[0..]);
    {field.put_of("f", f"&mut out[{BYTES}..]")};
}}"""

    def put_code(self):
        arms = ""
        for at, status in enumerate(self.statuses()):
            put = f"put_{self.name}_{at + 1}(src, {status}, f, out)" if self.arms[at] else f"put_{self.status.name}({status}, out)"
            arms += f"        {self.arm_code(at, 'f')} => {put},\n"
        return f"{self.put_head()}\n{{\n{self.tests_code()}    match x {{\n{arms}    }}\n}}"

    # ------------------------------------------------ meaning

    def formats(self):
        return " ".join(bracket(arm.format) if arm else "(exactly void)" for arm in self.arms)

    def held(self):
        return f"{escaped(self.status.failures)} {' '.join(bracket(arm.held) if arm else NOTHING for arm in self.arms)}"

    def cases(self):
        """The two cases: of what is held, as it is taken and as it is made, and of the type."""
        ok = ("(ok f)", "(ok f)", f"({self.variants}.{escaped(self.status.ok)} f)")
        if self.arms[1]:
            return [ok, ("(failed e f)", "(failed e f)", f"({self.variants}.Failed e f)")]
        return [ok, ("(failed e u)", "(failed e tt)", f"({self.variants}.Failed e)")]

    def meanings(self):
        m, T, start, cases = self.meaning, self.type, self.start, self.cases()
        to = "".join(f"\n{start}_to {taken} = {own.strip('()')}" for taken, _, own in cases)
        back = "".join(f"\n{start}_from {own} = {made.strip('()')}" for _, made, own in cases)
        from_to = "".join(f"\n{start}_from_to {taken} = refl" for taken, _, _ in cases)
        to_from = "".join(f"\n{start}_to_from {own} = refl" for _, _, own in cases)
        held = f"Result {self.held()}"
        return [
            f"-- {self.code_type}\nabbrev pub {start}_to : {held} → {T}{to}",
            f"abbrev pub {start}_from : {T} → {held}{back}",
            f"pub {start}_from_to : (x : {held}) → {start}_from ({start}_to x) ≡ x{from_to}",
            f"pub {start}_to_from : (y : {T}) → {start}_to ({start}_from y) ≡ y{to_from}",
            f"""abbrev pub {start}_arms : Arms {self.held()} {T}
{start}_arms = record {{ to = {start}_to; from = {start}_from; from_to = {start}_from_to; to_from = {start}_to_from }}""",
            f"unfoldable pub {m} : Format ({self.known.message}) {T}\n{m} = on_status {self.status.meaning} {self.status.success} {self.formats()} {start}_arms",
        ]

    # ------------------------------------------------ laws

    def writers(self):
        return " ".join(arm.writer if arm else "(codec-writer void)" for arm in self.arms)

    def laws(self):
        m, law, T, start = self.meaning, self.head, self.type, self.start
        size = f"{start}_size"
        of = f"{self.status.meaning} {self.status.success} {self.formats()} {start}_arms"
        within = " ".join(arm.within if arm else "void-within" for arm in self.arms)
        marked = " ".join(bracket(arm.marked if arm else "plain-marked void-unpadded") for arm in self.arms)
        bounds = ""
        for arm, (_, _, own) in zip(self.arms, self.cases()):
            small = arm.small("f") if arm and not arm.fixed else ""
            bounds += f"\n{law}-bound {own} = omega {f'(arith, {small})' if small else 'arith'}"
        return [
            f"-- {self.code_type}\npub {self.law} : OnStatus {of} {m}\nunfolding {m}\n{self.law} = record {{ is = refl }}",
            self.marked_law(f"status-marked {of} {self.status.head}-unpadded {marked}"),
            f"pub {law}-within : Within 0 {m}.codec.kind\nunfolding {m}\n{law}-within = status-within {of} {self.status.head}-within {within}",
            f"abbrev pub {size} : {T} → ℕ\n{size} x = result_size {self.sizes()} ({start}_from x)",
            f"abbrev pub {law}-writer : Writer {m}\n{law}-writer = record {{ size = {size}; sized = status-sized {self.sizes()} }}",
            f"pub {law}-bound : (x : {T}) → {size} x ≤ {self.known.most}{bounds}",
            self.most_law(size),
        ]

    def sizes(self):
        return f"{self.law} {self.status.head}-fixed {self.writers()}"

    # ------------------------------------------------ ranges

    def ranges(self):
        m, law, goods = self.meaning, self.head, []
        for arm, status, (_, _, own) in zip(self.arms, ("none", "(some e)"), self.cases()):
            good = self.good_value(arm, "f", "i") if arm else "tt"
            goods.append(f"{law}-good {own} p{' i' * self.known.inside} = ({self.status.head}-good ({self.status.to} {status}), {good})")
        return [], [f"""{self.good_head("m")}
unfolding {m} {self.pieces(OPAQUE, *self.arms)}
{chr(10).join(goods)}"""]  # fmt: skip

    # ------------------------------------------------ proofs

    def proofs(self):
        head, count = self.head, len(self.arms)
        status = f"(fixed-writer {self.status.head}-fixed)"
        proofs = {f"{self.name}_at": self.at_proof()}
        asked = [bool(arm and not arm.codec) for arm in self.arms]
        proofs[f"{self.name}_inside"] = Proof(
            rules(count + sum(asked)) + [f"(λ c. search ({law}-inside {self.law}))" for law in self.told], unfolding=self.pieces(*self.arms)
        )
        proofs[f"{self.name}_size"] = Proof(self.size_proof())
        ends = [f"(λ c. search ({', '.join([f'{law}-marks {self.law}'] + ['no-marks'] * bool(arm and arm.codec))}))" for arm, law in zip(self.arms, self.told)]
        proofs.update(self.marks_proof(rules(count + sum(asked)) + ends))
        for at, arm in enumerate(self.arms):
            if arm:
                proofs[f"put_{self.name}_{at + 1}"] = Proof(
                    [f"(λ c. search (lays-none {status} {arm.writer}))"] + rules(9) + [f"(λ c. search (lays-both {status} {arm.writer}, lays-of, lays-codec))"]
                )
        ends = [f"(λ c. search (lays_all {head}-writer, {law}-lays {self.law}))" for law in self.told]
        proofs[f"put_{self.name}"] = Proof(
            ["(λ c. search of-long)", RULES, f"(λ c. search (put-outside {head}-writer))", RULES, f"(λ c. search (put-short {head}-writer))"]
            + rules(5) + [ends[0], RULES, ends[1]]
        )  # fmt: skip
        return {**proofs, **self.common_proofs()}

    @property
    def told(self):
        """How the laws of each arm begin."""
        return ["ok", "failed" if self.arms[1] else "alone"]

    def at_proof(self):
        """The status, each arm with its own refusal, and in the end what each took."""
        took = f"status-took {self.law}"
        answers = {exit_of("status"): f"search (status-lost {self.law}, tries, {first_exit()})"}
        for arm, case in zip(self.arms, (self.status.ok, "Failed")):
            value = f"v-in-{case}"
            if arm:
                answers[exit_of(value)] = exit_by_plan(took, [], value, first=False)
                answers[f"returns-in_ok-{value}"] = search_by_plan(took, told_by([value]))
            else:
                answers[f"returns-in-{case}"] = search_by_plan(took, ["still"])
        return Answers(answers)

    def size_proof(self):
        answers = []
        for arm in self.arms:
            answers += rules(1)
            if arm and not arm.fixed:
                answers += rules(1) + [f"(λ c. search (sums, {arm.bound}))" if arm.bound else "(λ c. search sums)"]
        for arm, law in zip(self.arms, self.told):
            how = f"{law}-size" if law == "alone" or not arm.fixed else f"{law}-fixed"
            answers.append(f"(λ c. search ({how} {self.sizes()}))")
        return answers
