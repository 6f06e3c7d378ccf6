//! One case asked of both sides.
use std::fmt::{self, Display, Formatter};

use crate::answers::{
    Fed, Piece, Refusal, State, Told, Took, ASK_FIGURES, CHOOSE_FIGURES, COMPLETE, DONE, FEED_FIGURES, MARKS_FIGURES, MORE,
    PART_FIGURES, READ_FIGURES, REPLY, SAME_FIGURES, STATE_FIGURES, UNKNOWN_KIND, WRITE_FIGURES,
};
use crate::cases::{bare_call, call_with, Case, Cut, Lending, Question, Room, BODY};
use crate::lent::{bytes, list, Left};
use crate::lines::{self, hex};
use crate::model::Model;
use crate::proved::Proved;
use crate::shapes::{kind, Reading, KINDS};
use crate::tally::Tally;
use crate::truth::Truth;
use crate::values::{Value, Walk, Writer};
use crate::wanting::{broken, Said};
use crate::yielded::Yielded;

pub struct Sides {
    truth: Truth,
    proved: Proved,
    tally: Tally,
    /// What the proved side told last.
    said: Said,
}

/// So many entries of an export list, and names of each, are walked one by one.
const WALKED: usize = 24;

/// A case on which the sides differ.
pub struct Difference {
    pub proved: String,
    pub expected: String,
}

impl Sides {
    pub fn new() -> Sides {
        Sides { truth: Truth::new(), proved: Proved::new(), tally: Tally::default(), said: Said::default() }
    }

    /// Whether the proved side has as many kinds as there are shapes.
    pub fn has_all_kinds(&self) -> bool {
        let is_known = |kind: usize| self.proved.judge(kind as u32, &[], 0, &mut [0; READ_FIGURES]) != UNKNOWN_KIND;
        is_known(KINDS.len() - 1) && !is_known(KINDS.len())
    }

    /// What was due so far.
    pub fn tally(&self) -> Tally {
        let mut tally = self.tally.clone();
        tally.judged = self.truth.judged;
        tally
    }

    /// Asks both sides.
    pub fn differ(&mut self, case: &Case) -> Option<Difference> {
        let lending = &case.lending;
        match &case.question {
            Question::Read { kind, at, message, room } => self.read(*kind, *at, message, *room, lending),
            Question::Value { value, at, message } => self.value(*value, *at, message, lending),
            Question::AuthUnix { at, count, message } => self.auth_unix(*at, *count, message, lending),
            Question::Write { writer, sources, fields, room, start } => {
                self.write(*writer, sources.both(), fields, *room, *start, lending)
            },
            Question::Part { message, at, count } => self.part(message, *at, *count, lending),
            Question::Choose { reading, seen, room, message } => self.choose(*reading, *seen, *room, message, lending),
            Question::Ask { seen, room, message } => self.ask(*seen, *room, message, lending),
            Question::Walk { walk, at, message } => self.walk(*walk, *at, message, lending),
            Question::Path { source, path, room, start } => self.write_path(source, *path, *room, *start, lending),
            Question::List { source, list, room, start } => self.write_list(source, *list, *room, *start, lending),
            Question::Same { sources, lists } => self.same_lists(sources.both(), *lists, lending),
            Question::Feed { capacity, runs } => self.feed(*capacity, runs, lending),
            Question::Stream { capacity, stream, cuttings } => self.stream(*capacity, stream, cuttings),
            Question::State { state, length, run } => self.state(*state, *length, run, lending),
            Question::Fragment { message, room, start } => self.fragment(message, *room, *start, lending),
            Question::Cuts { cut, message } => self.cuts(*cut, message, lending),
        }
    }

    /// Rewritten, and judged without writing.
    fn read(&mut self, kind: u32, at: usize, message: &[u8], room: Room, lending: &Lending) -> Option<Difference> {
        let known = (kind as usize) < KINDS.len();
        let expected = known.then(|| self.truth.read(kind as usize, message, at));
        let length = expected.map_or(0, |answer| answer.map_or(0, |took| took.length));
        let room = match room {
            Room::Ample => message.len().max(40) + 9,
            Room::Over(more) => length + more,
            Room::Under(fewer) => length.saturating_sub(fewer),
        };
        let mut due = Left::new(room, lending.info.length(READ_FIGURES));
        let mut got = due.clone();
        if due.info.get().len() >= READ_FIGURES {
            due.tell(&expected.map_or_else(|| Told::unknown_kind(READ_FIGURES), |answer| Told::rewritten(&answer, room)));
            if let (Some(Ok(took)), 0) = (expected, due.answer) {
                self.tally.took(took.plain);
                due.out.slice()[..took.length].copy_from_slice(&self.truth.rewriting);
            }
        }
        got.answer = self.proved.rewrite(kind, message, at, got.out.slice(), got.info.slice());
        self.same("rewrite", &got, &due).or_else(|| self.judge(kind, at, message, expected, lending))
    }

    fn judge(
        &mut self,
        kind: u32,
        at: usize,
        message: &[u8],
        expected: Option<Result<Took, Refusal>>,
        lending: &Lending,
    ) -> Option<Difference> {
        let mut due = Left::new(0, lending.info.length(READ_FIGURES));
        let mut got = due.clone();
        if due.info.get().len() >= READ_FIGURES {
            due.tell(&expected.map_or_else(|| Told::unknown_kind(READ_FIGURES), |answer| Told::judged(&answer)));
        }
        got.answer = self.proved.judge(kind, message, at, got.info.slice());
        self.same("judge", &got, &due).or_else(|| self.marks(kind, at, message, expected, lending))
    }

    /// The crate has no marks: the model alone has them.
    fn marks(
        &mut self,
        kind: u32,
        at: usize,
        message: &[u8],
        expected: Option<Result<Took, Refusal>>,
        lending: &Lending,
    ) -> Option<Difference> {
        let mut due = Left::new(0, lending.info.length(MARKS_FIGURES));
        let mut got = due.clone();
        if due.info.get().len() >= MARKS_FIGURES {
            due.tell(
                &expected
                    .map_or_else(|| Told::unknown_kind(MARKS_FIGURES), |answer| Told::marked(&answer, &self.truth.marks)),
            );
            if expected.is_some_and(|answer| answer.is_ok()) {
                self.tally.marks(&self.truth.marks);
            }
        }
        got.answer = self.proved.marks(kind, message, at, got.info.slice());
        self.same("marks", &got, &due)
    }

    /// The reader of the value; and, so that all readers of its kind are seen to agree, rewriting and judging of the same.
    fn value(&mut self, value: Value, at: usize, message: &[u8], lending: &Lending) -> Option<Difference> {
        let mut due = Left::new(0, lending.info.length(value.figures()));
        let mut got = due.clone();
        if due.info.get().len() >= value.figures() {
            let expected = self.truth.value(value, message, at);
            if let Ok(figures) = &expected {
                self.tally.took(figures[1] == 1);
            }
            due.tell(&expected.map_or_else(|refusal| Told::refused(&refusal, value.figures()), Told::done));
        }
        got.answer = self.proved.value(value, message, at, got.info.slice());
        let kind = kind(value.kind()).expect("the kind is known") as u32;
        self.same(value.reader(), &got, &due).or_else(|| self.read(kind, at, message, Room::Ample, &Lending::ENOUGH))
    }

    fn auth_unix(&mut self, at: usize, count: usize, message: &[u8], lending: &Lending) -> Option<Difference> {
        let figures = Value::AuthUnix.figures();
        let mut due = Left::new(0, lending.info.length(figures));
        let mut got = due.clone();
        if due.info.get().len() >= figures {
            let expected = self.truth.auth_unix_in(message, at, count);
            due.tell(&expected.map_or_else(|refusal| Told::refused(&refusal, figures), Told::done));
        }
        got.answer = self.proved.auth_unix(message, at, count, got.info.slice());
        self.same(Value::AuthUnix.reader(), &got, &due)
    }

    fn write(
        &mut self,
        writer: Writer,
        sources: [&[u8]; 2],
        fields: &[u64],
        room: usize,
        start: usize,
        lending: &Lending,
    ) -> Option<Difference> {
        let fields = list(fields, lending.given.length(writer.fields()));
        let mut due = Left::new(room, lending.info.length(WRITE_FIGURES));
        let mut got = due.clone();
        if fields.get().len() >= writer.fields() && due.info.get().len() >= WRITE_FIGURES {
            let wrote = self.truth.write(writer, sources, fields.get(), due.out.slice(), start);
            due.tell(&Told::wrote(&wrote));
        }
        let (out, info) = (got.out.slice(), got.info.slice());
        got.answer = self.proved.write(writer, sources, fields.get(), out, start, info);
        self.same(writer.name(), &got, &due)
    }

    fn part(&mut self, message: &[u8], at: usize, count: usize, lending: &Lending) -> Option<Difference> {
        let mut due = Left::new(0, lending.info.length(PART_FIGURES));
        let mut got = due.clone();
        if due.info.get().len() >= PART_FIGURES {
            let inside = at.checked_add(count).is_some_and(|end| end <= message.len());
            due.tell(&Told::part(inside, at, count));
        }
        got.answer = self.proved.part(message, at, count, got.info.slice());
        self.same("part", &got, &due)
    }

    fn choose(
        &mut self,
        reading: Reading,
        seen: bool,
        room: usize,
        message: &[u8],
        lending: &Lending,
    ) -> Option<Difference> {
        let mut due = Left::new(room, lending.info.length(CHOOSE_FIGURES));
        let mut got = due.clone();
        if due.info.get().len() >= CHOOSE_FIGURES {
            let choice = self.truth.choose(reading, message, seen, due.out.slice());
            due.tell(&Told::chose(&choice));
        }
        let number = if seen { (lending.yes as u32).max(1) } else { 0 };
        got.answer = self.proved.choose(reading, message, number, got.out.slice(), got.info.slice());
        let name = match reading {
            Reading::Crate => "choose",
            Reading::Current => "current_choose",
        };
        self.same(name, &got, &due)
    }

    fn ask(&mut self, seen: bool, room: usize, message: &[u8], lending: &Lending) -> Option<Difference> {
        let mut due = Left::new(room, lending.info.length(ASK_FIGURES));
        let mut got = due.clone();
        if due.info.get().len() >= ASK_FIGURES {
            let asked = self.truth.ask(message, seen, due.out.slice());
            due.tell(&Told::asked(&asked));
        }
        let number = if seen { (lending.yes as u32).max(1) } else { 0 };
        got.answer = self.proved.ask(message, number, got.out.slice(), got.info.slice());
        self.same("ask", &got, &due)
    }

    /// What reads a list, or what stands at a place of one. A list that is taken is then walked, entry by entry, and each
    /// entry name by name.
    fn walk(&mut self, walk: Walk, at: usize, message: &[u8], lending: &Lending) -> Option<Difference> {
        let mut due = Left::new(0, lending.info.length(walk.figures()));
        let mut got = due.clone();
        if due.info.get().len() >= walk.figures() {
            let expected = self.truth.walk(walk, message, at);
            if let Ok(figures) = &expected {
                self.tally.took(figures[1] == 1);
            }
            due.tell(&expected.map_or_else(|refusal| Told::refused(&refusal, walk.figures()), Told::done));
        }
        got.answer = self.proved.walk(walk, message, at, got.info.slice());
        let said = self.same(walk.reader(), &got, &due);
        if said.is_some() || due.answer != DONE {
            return said;
        }
        let figure = |index: usize| due.info.get()[index] as usize;
        let whole = self.said;
        let (inner, mut at, count) = match walk {
            Walk::Exports => (Walk::Export, at, figure(3)),
            Walk::Export if figure(2) == 1 => (Walk::Group, figure(5), figure(6)),
            Walk::Export | Walk::Group => return None,
        };
        // The last one is the end.
        for _ in 0..(count + 1).min(WALKED) {
            let difference = self.walk(inner, at, message, &Lending::ENOUGH);
            if difference.is_some() {
                return difference;
            }
            // What it told as its place is the next one, for it was done.
            at = self.said.place as usize;
        }
        self.said = whole;
        None
    }

    fn write_path(
        &mut self,
        source: &[u8],
        path: Piece,
        room: usize,
        start: usize,
        lending: &Lending,
    ) -> Option<Difference> {
        let mut due = Left::new(room, lending.info.length(WRITE_FIGURES));
        let mut got = due.clone();
        if due.info.get().len() >= WRITE_FIGURES {
            let wrote = self.truth.write_path(source, path, due.out.slice(), start);
            due.tell(&Told::wrote(&wrote));
        }
        got.answer = self.proved.write_path(source, path, got.out.slice(), start, got.info.slice());
        self.same("write_dirpath", &got, &due)
    }

    fn write_list(
        &mut self,
        source: &[u8],
        list: Piece,
        room: usize,
        start: usize,
        lending: &Lending,
    ) -> Option<Difference> {
        let mut due = Left::new(room, lending.info.length(WRITE_FIGURES));
        let mut got = due.clone();
        if due.info.get().len() >= WRITE_FIGURES {
            let wrote = self.truth.write_list(source, list, due.out.slice(), start);
            due.tell(&Told::wrote(&wrote));
        }
        got.answer = self.proved.write_list(source, list, got.out.slice(), start, got.info.slice());
        self.same("write_exports", &got, &due)
    }

    fn same_lists(&mut self, sources: [&[u8]; 2], lists: [Piece; 2], lending: &Lending) -> Option<Difference> {
        let mut due = Left::new(0, lending.info.length(SAME_FIGURES));
        let mut got = due.clone();
        if due.info.get().len() >= SAME_FIGURES {
            let same = self.truth.same(sources, lists);
            if let Ok(is_same) = same {
                self.tally.compared(is_same);
            }
            due.tell(&Told::same(same));
        }
        got.answer = self.proved.same(sources, lists, got.info.slice());
        self.same("same_exports", &got, &due)
    }

    /// Each feed is compared with the model's, and the records with those of the crate.
    fn feed(&mut self, capacity: usize, runs: &[Vec<u8>], lending: &Lending) -> Option<Difference> {
        let mut model = State::fresh(capacity as u64);
        let mut due = Left::new(0, lending.info.length(FEED_FIGURES));
        due.out = bytes(capacity);
        due.state = list(&model.numbers(), lending.given.length(STATE_FIGURES));
        let mut got = due.clone();
        let enough = due.info.get().len() >= FEED_FIGURES && due.state.get().len() >= STATE_FIGURES;
        if !enough {
            let run: &[u8] = runs.first().map_or(&[], |run| run);
            got.answer = self.proved.feed(got.state.slice(), run, got.out.slice(), got.info.slice());
            return self.same("feed", &got, &due);
        }
        let (records, too_long) = self.truth.records(&runs.concat(), capacity);
        let mut complete = records.complete.iter();
        let mut used_in_all = 0;
        for run in runs {
            let mut rest: &[u8] = run;
            loop {
                got.info = list(&[], got.info.get().len());
                due.info = got.info.clone();
                got.answer = self.proved.feed(got.state.slice(), rest, got.out.slice(), got.info.slice());
                let expected = Model::FAULTLESS.feed(&mut model, rest, due.out.slice());
                due.tell(&Told::fed(&expected));
                due.state.slice()[..STATE_FIGURES].copy_from_slice(&model.numbers());
                self.tally.due("feed", due.answer);
                if got.answer != due.answer || got.info != due.info || got.state != due.state {
                    return Some(differ("feed", &got, &due));
                }
                match expected {
                    Fed::More { .. } => {
                        used_in_all += rest.len();
                        break;
                    },
                    Fed::Complete { length, used } => {
                        used_in_all += used;
                        let (record, of_crate) = (&got.out.get()[..length], complete.next());
                        if of_crate.is_none_or(|(bytes, end)| record != *bytes || used_in_all != *end) {
                            return Some(record_otherwise(Some((record, used_in_all)), of_crate));
                        }
                        rest = &rest[used..];
                        if rest.is_empty() {
                            break;
                        }
                    },
                    Fed::Refused { used, .. } => {
                        used_in_all += used;
                        let at = too_long.map(|header| header + 4);
                        if at != Some(used_in_all) || complete.next().is_some() {
                            return Some(Difference {
                                proved: format!("refused after {used_in_all}"),
                                expected: format!("a fragment that is too long, after {at:?}"),
                            });
                        }
                        return (got.out != due.out).then(|| differ("feed", &got, &due));
                    },
                }
            }
        }
        if let Some(record) = complete.next() {
            return Some(record_otherwise(None, Some(record)));
        }
        if got.out != due.out {
            return Some(differ("feed", &got, &due));
        }
        // A fragment cut short stands in the crate's record at its full length.
        let placed = model.placed as usize;
        let same = too_long.is_none()
            && records.begun.len() as u64 == model.placed + model.left
            && got.out.get()[..placed] == records.begun[..placed];
        (!same).then(|| Difference {
            proved: got.to_string(),
            expected: format!("begun {} of {}, too long {too_long:?}", hex(&records.begun), records.begun.len()),
        })
    }

    /// Two cuttings of one stream are compared with each other, and then with what the stream must yield. (Single feeds, and
    /// lists that are too short, are other questions.)
    fn stream(&mut self, capacity: usize, stream: &[u8], cuttings: &[Vec<usize>; 2]) -> Option<Difference> {
        let [first, second] = cuttings.each_ref().map(|lengths| self.in_all(capacity, stream, lengths));
        let mut due = InAll::new(capacity, "whole", self.truth.yielded(stream, capacity));
        let mut model = State::fresh(capacity as u64);
        Yielded::by(stream, &[], due.left.out.slice(), |run, record| Model::FAULTLESS.feed(&mut model, run, record));
        due.left.state.slice().copy_from_slice(&model.numbers());
        self.tally.stream(due.yielded.refused.is_some());
        let unlike = [(&second, &first), (&first, &due)].into_iter().find(|(got, due)| !got.is_same(due));
        unlike.map(|(got, due)| Difference { proved: got.to_string(), expected: due.to_string() })
    }

    /// What the proved side yields for a stream in runs of these lengths.
    fn in_all(&self, capacity: usize, stream: &[u8], lengths: &[usize]) -> InAll {
        let mut all = InAll::new(capacity, &format!("runs of {lengths:?}"), Yielded::default());
        let Left { out, info, state, .. } = &mut all.left;
        all.yielded = Yielded::by(stream, lengths, out.slice(), |run, record| {
            let answer = self.proved.feed(state.slice(), run, record, info.slice());
            let [used, length] = [0, 1].map(|index| std::mem::take(&mut info.slice()[index]) as usize);
            match answer {
                MORE => Fed::More { used },
                COMPLETE => Fed::Complete { length, used },
                number => Fed::Refused { number, used },
            }
        });
        all
    }

    /// The crate has no states: the model is the judge.
    fn state(&mut self, state: State, length: usize, run: &[u8], lending: &Lending) -> Option<Difference> {
        let mut numbers = state.numbers();
        numbers[5] *= lending.yes;
        numbers[6] *= lending.yes;
        let mut due = Left::new(length, lending.info.length(FEED_FIGURES));
        due.state = list(&numbers, lending.given.length(STATE_FIGURES));
        let mut got = due.clone();
        if due.info.get().len() >= FEED_FIGURES && due.state.get().len() >= STATE_FIGURES {
            let mut model = State::of(numbers);
            let fed = Model::FAULTLESS.feed(&mut model, run, due.out.slice());
            due.tell(&Told::fed(&fed));
            // The numbers for yes come back as 1, also where the state does not fit.
            due.state.slice()[..STATE_FIGURES].copy_from_slice(&model.numbers());
        }
        got.answer = self.proved.feed(got.state.slice(), run, got.out.slice(), got.info.slice());
        self.same("feed", &got, &due)
    }

    fn fragment(&mut self, message: &[u8], room: usize, start: usize, lending: &Lending) -> Option<Difference> {
        let mut due = Left::new(room, lending.info.length(WRITE_FIGURES));
        let mut got = due.clone();
        if due.info.get().len() >= WRITE_FIGURES {
            let wrote = self.truth.fragment(message, due.out.slice(), start);
            due.tell(&Told::wrote(&wrote));
        }
        got.answer = self.proved.fragment(message, got.out.slice(), start, got.info.slice());
        self.same("fragment", &got, &due)
    }

    /// Each cut of a whole message is compared; then all that the proved side told of them is held against each other.
    fn cuts(&mut self, cut: Cut, message: &[u8], lending: &Lending) -> Option<Difference> {
        let (at, whole) = match cut {
            Cut::Kind { at, .. } => (at, [&vec![0; at], message].concat()),
            Cut::Body | Cut::Credential(_) => (BODY, call_with(message)),
            Cut::Call(_) => (0, call_with(message)),
            Cut::Mnt => (0, bare_call(100_005, 3, 1, message)),
            Cut::Getport => (0, bare_call(100_000, 2, 3, message)),
        };
        let longest = if let Cut::Call(_) | Cut::Mnt | Cut::Getport = cut { whole.len() } else { message.len() };
        let mut said = Vec::new();
        for length in 0..=longest {
            let difference = match cut {
                Cut::Kind { kind, at } => self.kind(kind, at, &whole[..at + length], lending),
                Cut::Body => self.auth_unix(at, length, &whole, lending),
                Cut::Credential(reading) => self.choose(reading, false, REPLY, &call_with(&message[..length]), lending),
                Cut::Call(reading) => self.choose(reading, false, REPLY, &whole[..length], lending),
                Cut::Mnt | Cut::Getport => self.ask(false, 0, &whole[..length], lending),
            };
            if let Some(Difference { proved, expected }) = difference {
                let at_length = |text: String| format!("cut to {length}: {text}");
                return Some(Difference { proved: at_length(proved), expected: at_length(expected) });
            }
            said.push(self.said);
        }
        if let Some((length, what)) = broken(at, &said) {
            let expected = String::from("exactly what is wanting, and no less, finishes the item");
            return Some(Difference { proved: format!("cut to {length}: {what}"), expected });
        }
        self.tally.cut(cut.name(), longest);
        None
    }

    /// All readers of a kind.
    fn kind(&mut self, kind: usize, at: usize, message: &[u8], lending: &Lending) -> Option<Difference> {
        let read = match Value::PLACED.into_iter().find(|value| value.kind() == KINDS[kind].0) {
            Some(value) => self.value(value, at, message, lending),
            None => self.read(kind as u32, at, message, Room::Ample, lending),
        };
        read.or_else(|| (KINDS[kind].0 == "exports").then(|| self.walk(Walk::Exports, at, message, lending))?)
    }

    /// Whether the answer and all that was lent are the same, what lies around it too.
    fn same(&mut self, function: &'static str, got: &Left, due: &Left) -> Option<Difference> {
        let figure = |index: usize| got.info.get().get(index).copied().unwrap_or_default();
        self.said = Said { answer: got.answer, place: figure(0), wanting: figure(1) };
        self.tally.due(function, due.answer);
        (got != due).then(|| differ(function, got, due))
    }
}

/// What a stream yields in one cutting, and what stands then in the state and in the record buffer.
struct InAll {
    cutting: String,
    yielded: Yielded,
    left: Left,
}

impl InAll {
    /// With a fresh state of a capacity, and a buffer of as many bytes. (Figures are taken out of their list after each feed.)
    fn new(capacity: usize, cutting: &str, yielded: Yielded) -> InAll {
        let mut left = Left::new(capacity, FEED_FIGURES);
        left.info.slice().fill(0);
        left.state = list(&State::fresh(capacity as u64).numbers(), STATE_FIGURES);
        InAll { cutting: cutting.to_owned(), yielded, left }
    }

    fn is_same(&self, other: &InAll) -> bool {
        (&self.yielded, &self.left) == (&other.yielded, &other.left)
    }
}

impl Display for InAll {
    fn fmt(&self, f: &mut Formatter<'_>) -> fmt::Result {
        write!(f, "{}: {}{}", self.cutting, lines::yielded(&self.yielded), self.left.standing())
    }
}

fn differ(function: &str, got: &Left, due: &Left) -> Difference {
    Difference { proved: format!("{function} {got}"), expected: format!("{function} {due}") }
}

fn record_otherwise(got: Option<(&[u8], usize)>, due: Option<&(Vec<u8>, usize)>) -> Difference {
    let text = |record: Option<(&[u8], usize)>| {
        record.map_or(String::from("no record"), |(bytes, end)| format!("record {} ending at {end}", hex(bytes)))
    };
    Difference { proved: text(got), expected: text(due.map(|(bytes, end)| (bytes.as_slice(), *end))) }
}
