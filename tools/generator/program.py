"""The text of a program's procedures: their arguments, and their results, read by the number of the procedure."""

from generator.kind import COPIED, RULES, Answers, exit_of, first_exit
from generator.known import escaped

# A type for all arguments, and one for all results: the type, what a field of it is called, and what the comment of its reader says.
HALVES = (
    ("Arguments", "arguments", "The arguments of a call, by the number of its procedure, from a place on"),
    ("Results", "results", "The results of a call, by the number of the call's procedure, from a place on"),
)


class Program:
    known = None

    def __init__(self, declared, topic, kinds):
        self.code_type = declared.name
        self.topic = topic
        self.entries = [(part.name.split("_", 1)[-1], part.number) for part in declared.parts]
        self.kinds = kinds  # for each: the kind of its arguments, and that of its results

    def halves(self):
        """Each half: its names, and its procedures with their kinds."""
        for at, names in enumerate(HALVES):
            yield (*names, [(name, number, kinds[at]) for (name, number), kinds in zip(self.entries, self.kinds)])

    # ------------------------------------------------ what others see

    def passed_on(self):
        return [name for T, stem, _, _ in self.halves() for name in (T, f"read_{stem}")]

    def aliased(self):
        return {f"{stem}Is": T for T, stem, _, _ in self.halves()}

    def goods(self):
        return []

    # ------------------------------------------------ code

    def code(self):
        parts = []
        for T, stem, comment, entries in self.halves():
            cases = "".join(f"    {name}({kind.type}),\n" for name, _, kind in entries)
            parts.append(f"{COPIED}pub enum {T} {{\n{cases}}}")
            parts += [self.one_code(T, stem, name, kind) for name, _, kind in entries]
            arms = "".join(f"        {number} => Some({stem}_of_{name.lower()}(src, at)),\n" for name, number, _ in entries)
            parts.append(f"""// {comment}; `None` if no procedure of this number is known here.
pub fn read_{stem}(procedure: u32, src: &[u8], at: usize) -> Option<Result<Took<{T}>, Refusal>>
    ensures {{ AnswersBy {stem}_by_number procedure src.now at (view_{stem} result) }}
{{
    match procedure {{
{arms}        _ => None,
    }}
}}""")
        return parts

    def one_code(self, T, stem, name, kind):
        return f"""fn {stem}_of_{name.lower()}(src: &[u8], at: usize) -> Result<Took<{T}>, Refusal>
    ensures {{ AnswersFor {name.lower()}_{stem} src.now at (some (view result)) }}
{{
    let v = read_{kind.name}(src, at)?;
    Ok(Took {{ value: {T}::{name}(v.value), next: v.next, plain: v.plain }})
}}"""

    # ------------------------------------------------ specifications

    def meanings(self):
        parts = []
        for T, stem, _, entries in self.halves():
            parts += [f"abbrev pub {name.lower()}_{stem} : Procedure {T}\n{name.lower()}_{stem} = procedure {number} {self.argument(kind)} {stem}Is.{escaped(name)}" for name, number, kind in entries]
            listed = " ∷ ".join([f"{name.lower()}_{stem}" for name, _, _ in entries] + ["[]"])
            parts.append(f"abbrev pub {stem}_by_number : List (Procedure {T})\n{stem}_by_number = {listed}")
            parts.append(f"""abbrev pub view_{stem} : {self.answer(T)} → Option (Answer {T})
view_{stem} None = none
view_{stem} (Some r) = some (view r)""")
        return parts

    def answer(self, T):
        """What a reader by number returns, in the specifications."""
        return f"std.Option (std.Result (Took {T}) Refusal)"

    def argument(self, kind):
        return f"(exactly {kind.meaning})" if kind.codec else kind.meaning

    def laws(self):
        """The views lose nothing."""
        parts = []
        for T, stem, _, _ in self.halves():
            parts.append(f"""pub {stem}-told : (a b : {self.answer(T)}) → view_{stem} a ≡ view_{stem} b → a ≡ b
{stem}-told None None e = cc
{stem}-told None (Some y) e = cc
{stem}-told (Some x) None e = cc
{stem}-told (Some x) (Some y) e = ap Some (told x y cc)""")
        return parts

    def ranges(self):
        return [], []

    def proofs(self):
        proofs = {}
        for T, stem, _, entries in self.halves():
            for name, _, kind in entries:
                of = f"{name.lower()}_{stem} (λ a. a)"
                proofs[f"{stem}_of_{name.lower()}"] = Answers(
                    {
                        exit_of("v"): f"rw ({first_exit()}) (for-lost {of} _ _ _ _ _ c.in_err-v.ensures refl refl)",
                        "returns": f"for-took {of} _ _ _ _ _ _ _ c.in_ok-v.ensures refl refl",
                    }
                )
            proofs[f"read_{stem}"] = Answers({"returns-in_default": f"by-none {stem}_by_number _ _ _ _ {RULES} c.in_default.in_default-own.rest"})
        return proofs
