//! The cases: what both sides are asked.
mod damage;
mod messages;
mod mounting;
mod numbers;
mod replies;
mod streams;
mod values;

pub use damage::damage;
pub use messages::{append_call, append_message, bare_call, call_with, with_pieces, Style, BODY};
pub use replies::{ACCEPTED, ACCEPT_STATS, AUTH_STATS, DENIED};
pub use streams::{cuts, cutting, run_lengths, state, stream};

use damage::beside;
use messages::Word;

use crate::answers::{Piece, State, BOUND};
use crate::random::Random;
use crate::shapes::{kind, Reading, Shape, AUTH_UNIX, KINDS};
use crate::values::{Value, Walk, Writer};

/// A question, and what is lent with it.
#[derive(Clone, Debug)]
pub struct Case {
    pub question: Question,
    pub lending: Lending,
}

/// What is asked. Most could be put to `answers` as a line. (A stream is cut in two ways; its line has the first.)
#[derive(Clone, Debug)]
pub enum Question {
    Read { kind: u32, at: usize, message: Vec<u8>, room: Room },
    Value { value: Value, at: usize, message: Vec<u8> },
    AuthUnix { at: usize, count: usize, message: Vec<u8> },
    Write { writer: Writer, sources: Sources, fields: Vec<u64>, room: usize, start: usize },
    Part { message: Vec<u8>, at: usize, count: usize },
    Choose { reading: Reading, seen: bool, room: usize, message: Vec<u8> },
    Ask { seen: bool, room: usize, message: Vec<u8> },
    Walk { walk: Walk, at: usize, message: Vec<u8> },
    Path { source: Vec<u8>, path: Piece, room: usize, start: usize },
    List { source: Vec<u8>, list: Piece, room: usize, start: usize },
    Same { sources: Sources, lists: [Piece; 2] },
    Feed { capacity: usize, runs: Vec<Vec<u8>> },
    Stream { capacity: usize, stream: Vec<u8>, cuttings: [Vec<usize>; 2] },
    State { state: State, length: usize, run: Vec<u8> },
    Fragment { message: Vec<u8>, room: usize, start: usize },
    Cuts { cut: Cut, message: Vec<u8> },
}

/// What the pieces of a writer are of, or two lists that are compared. A writer without pieces is lent none of it.
#[derive(Clone, Debug)]
pub enum Sources {
    /// One buffer, lent once or twice.
    Same(Vec<u8>),
    Two(Vec<u8>, Vec<u8>),
}

impl Sources {
    pub fn both(&self) -> [&[u8]; 2] {
        match self {
            Sources::Same(source) => [source, source],
            Sources::Two(first, second) => [first, second],
        }
    }
}

/// What a whole message is, and who reads it, where it is cut at every byte.
#[derive(Clone, Copy, Debug, PartialEq, Eq)]
pub enum Cut {
    /// A message of that kind, behind so many other bytes.
    Kind { kind: usize, at: usize },
    /// An `auth_unix`: `read_auth_unix` reads it in a body that ends early, and the call goes on behind.
    Body,
    /// The same, where the choice of program reads a whole call with a body that ends early.
    Credential(Reading),
    /// The same, where the call ends early.
    Call(Reading),
    /// A path, in a call of MNT that ends early.
    Mnt,
    /// A mapping, in a call of GETPORT that ends early.
    Getport,
}

impl Cut {
    pub fn name(self) -> &'static str {
        match self {
            Cut::Kind { kind, .. } => KINDS[kind].0,
            Cut::Body => "body",
            Cut::Credential(Reading::Crate) => "credential",
            Cut::Credential(Reading::Current) => "current credential",
            Cut::Call(Reading::Crate) => "call",
            Cut::Call(Reading::Current) => "current call",
            Cut::Mnt => "MNT",
            Cut::Getport => "GETPORT",
        }
    }

    /// The shape of the message that is cut.
    fn shape(self) -> &'static Shape {
        match self {
            Cut::Kind { kind, .. } => &KINDS[kind].1,
            Cut::Body | Cut::Credential(_) | Cut::Call(_) => &AUTH_UNIX,
            Cut::Mnt => &KINDS[kind("dirpath").expect("the kind is known")].1,
            Cut::Getport => &KINDS[kind("mapping").expect("the kind is known")].1,
        }
    }
}

/// What a line cannot say: the lengths of the lists, and the number that stands for yes.
#[derive(Clone, Copy, Debug)]
pub struct Lending {
    /// The list for the figures.
    pub info: List,
    /// The list of a writer's fields, or of the assembler's state.
    pub given: List,
    pub yes: u64,
}

impl Lending {
    pub const ENOUGH: Lending = Lending { info: List::Over(1), given: List::Over(1), yes: 1 };

    fn any(random: &mut Random) -> Lending {
        let yes = random.pick(&[1, 1, 1, 2, 1 << 31, 0xFFFF_FFFF, 1 << 32, u64::MAX]);
        Lending { info: List::any(random), given: List::any(random), yes }
    }
}

/// How long a list is.
#[derive(Clone, Copy, Debug, PartialEq, Eq)]
pub enum List {
    /// So many more than the function has figures.
    Over(usize),
    /// So many fewer (or none).
    Under(usize),
}

impl List {
    fn any(random: &mut Random) -> List {
        if random.once_in(40) {
            List::Under(random.between(1, 19))
        } else {
            List::Over(random.below(4))
        }
    }

    pub fn length(self, figures: usize) -> usize {
        match self {
            List::Over(more) => figures + more,
            List::Under(fewer) => figures.saturating_sub(fewer),
        }
    }
}

/// The room that a rewriting gets.
#[derive(Clone, Copy, Debug, PartialEq, Eq)]
pub enum Room {
    /// More than any rewriting takes.
    Ample,
    /// So many bytes more than it takes.
    Over(usize),
    /// So many bytes fewer than it takes (or none).
    Under(usize),
}

/// So many cases in a row are one message cut at every place; every eighth such row of cases is one.
const CUTS: u64 = 128;

/// The last of so many cases is a message that is cut at every byte. (It is never in such a row.)
const EVERYWHERE: u64 = 512;

/// The case of that number. It depends on the seed and the number alone.
pub fn case(seed: u64, number: u64) -> Case {
    let (row, index) = (number / CUTS, number % CUTS);
    if row % 8 == 0 {
        return cut(&mut Random::of(!seed, row), index as usize);
    }
    let random = &mut Random::of(seed, number);
    if number % EVERYWHERE == EVERYWHERE - 1 {
        return Case { question: cut_everywhere(random, (number / EVERYWHERE) as usize), lending: Lending::ENOUGH };
    }
    let question = any(random);
    Case { question, lending: Lending::any(random) }
}

/// A whole message. All kinds take turns, then what is read of a credential, and then two calls with arguments; every other
/// round they are plain and have pieces, if they may have any.
fn cut_everywhere(random: &mut Random, turn: usize) -> Question {
    const LONGEST: usize = 300;
    let others = [
        Cut::Body,
        Cut::Credential(Reading::Crate),
        Cut::Call(Reading::Crate),
        Cut::Credential(Reading::Current),
        Cut::Call(Reading::Current),
        Cut::Mnt,
        Cut::Getport,
    ];
    let turns = KINDS.len() + others.len();
    let cut = match turn % turns {
        kind if kind < KINDS.len() => Cut::Kind { kind, at: random.below(9) },
        other => others[other - KINDS.len()],
    };
    let shape = cut.shape();
    if turn / turns % 2 == 0 {
        return Question::Cuts { cut, message: with_pieces(random, shape, Style::Plain, LONGEST) };
    }
    let style = Style::any(random);
    loop {
        let mut message = Vec::new();
        append_message(random, shape, style, &mut message, &mut Vec::new());
        if message.len() <= LONGEST {
            return Question::Cuts { cut, message };
        }
    }
}

/// A message cut to that length, or with so many bytes behind it that it has that length.
fn cut(random: &mut Random, length: usize) -> Case {
    let (mut bytes, mut words) = (Vec::new(), Vec::new());
    let question = match random.below(9) {
        8 => {
            mounting::append_mount_call(random, &mut bytes, &mut words);
            bytes.resize(length, 0);
            Question::Ask { seen: random.once_in(12), room: 32, message: bytes }
        },
        0 | 1 => {
            let reading = reading(random);
            append_call(random, reading, &mut bytes, &mut words);
            bytes.resize(length, 0);
            Question::Choose { reading, seen: random.once_in(4), room: 24, message: bytes }
        },
        2 => {
            let value = random.pick(&Value::PLACED);
            let style = Style::any(random);
            let kind = kind(value.kind()).expect("the kind is known");
            append_message(random, &KINDS[kind].1, style, &mut bytes, &mut words);
            bytes.resize(length, 0);
            Question::Value { value, at: 0, message: bytes }
        },
        _ => {
            let kind = random.below(KINDS.len());
            let style = Style::any(random);
            append_message(random, &KINDS[kind].1, style, &mut bytes, &mut words);
            bytes.resize(length, 0);
            Question::Read { kind: kind as u32, at: 0, message: bytes, room: Room::Ample }
        },
    };
    Case { question, lending: Lending::ENOUGH }
}

/// The crate's reading twice as often: there the crate is a judge.
fn reading(random: &mut Random) -> Reading {
    if random.once_in(3) {
        Reading::Current
    } else {
        Reading::Crate
    }
}

fn any(random: &mut Random) -> Question {
    match random.below(126) {
        100..=105 => mounting::read(random),
        106..=114 => mounting::ask(random),
        115..=117 => mounting::walk(random),
        118..=119 => mounting::path(random),
        120..=122 => mounting::list(random),
        123..=125 => mounting::same(random),
        0..=39 => read(random),
        40..=44 => replies::reply(random),
        45..=57 => values::value(random),
        58..=61 => values::auth_unix(random),
        62..=77 => values::write(random),
        78..=79 => values::part(random),
        80..=89 => choose(random),
        90..=92 => {
            let (stream, capacity) = stream(random);
            Question::Feed { capacity, runs: cuts(random, &stream) }
        },
        93..=94 => {
            let (stream, capacity) = stream(random);
            let cuttings = [0; 2].map(|_| cutting(random, stream.len()));
            Question::Stream { capacity, stream, cuttings }
        },
        95..=97 => state(random),
        _ => fragment(random),
    }
}

fn read(random: &mut Random) -> Question {
    // Records and unions have more to go wrong than words.
    let first_record = 18;
    let kind = if random.once_in(3) { random.below(KINDS.len()) } else { random.between(first_record, KINDS.len() - 1) };
    let (message, at) = message(random, kind);
    let room = match random.below(16) {
        0 => Room::Under(random.between(1, 9)),
        1..=7 => Room::Over(random.below(9)),
        _ => Room::Ample,
    };
    let kind = if random.once_in(200) { unknown(random) } else { kind as u32 };
    Question::Read { kind, at, message, room }
}

/// The number of a kind that is not there; some have the low bits of one that is.
fn unknown(random: &mut Random) -> u32 {
    let first = KINDS.len() as u32;
    let known = random.below(KINDS.len()) as u32;
    let some = random.word();
    random.pick(&[first, first + 1, 255, 256 + known, 65_536 + known, 1 << 31 | known, u32::MAX, some]).max(first)
}

/// A message of a kind behind some bytes, mostly damaged, and the place to read it from.
fn message(random: &mut Random, kind: usize) -> (Vec<u8>, usize) {
    let at = match random.below(8) {
        0 | 1 => random.between(1, 20),
        2 => 4 * random.between(1, 9),
        _ => 0,
    };
    let (mut message, mut words) = (Vec::new(), Vec::new());
    random.append(at, &mut message);
    let style = Style::any(random);
    append_message(random, &KINDS[kind].1, style, &mut message, &mut words);
    if random.once_in(4_000) {
        return at_the_bound(random, kind, at, message, &words);
    }
    match random.below(12) {
        0..=3 => {},
        4 => beside(random, &mut message, &words),
        _ => damage(random, at, &mut message, &mut words),
    }
    let at = match random.below(400) {
        0 => message.len(),
        1 => message.len() + random.between(1, 5),
        2 => usize::MAX - random.below(9),
        _ => at.min(message.len()),
    };
    (message, at)
}

/// Messages about as long as refusal 3 allows: with bytes behind the message, before it, in its last opaque (READ and WRITE
/// have their data there), or in an opaque that begins it.
fn at_the_bound(random: &mut Random, asked: usize, at: usize, mut message: Vec<u8>, words: &[Word]) -> (Vec<u8>, usize) {
    let length = random.between(BOUND - 5, BOUND + 4);
    let spare = length - message.len().min(length);
    let opaques = ["opaque", "nfsstring", "nfs_fh3", "diropargs3"].map(|name| kind(name).expect("the kind is known"));
    match (random.below(4), words.last()) {
        (0, _) => message.resize(length, 0xA5),
        (1, _) => {
            message.splice(0..0, std::iter::repeat_n(0x5A, spare));
            return (message, at + spare);
        },
        (2, Some(Word::Length(place))) => {
            let left = length as u32 - *place as u32 - 4;
            message[*place..place + 4].copy_from_slice(&(left - random.below(9) as u32).to_be_bytes());
            message.resize(length, 0);
        },
        _ if opaques.contains(&asked) || random.once_in(2) => {
            message.clear();
            message.extend_from_slice(&(length as u32 - 4 - random.below(9) as u32).to_be_bytes());
            message.resize(length, 0);
            return (message, 0);
        },
        _ => message.resize(length, 0),
    }
    (message, at)
}

fn choose(random: &mut Random) -> Question {
    let mut message = Vec::new();
    let mut words = Vec::new();
    let reading = reading(random);
    append_call(random, reading, &mut message, &mut words);
    if random.once_in(4_000) {
        message.resize(random.between(BOUND - 2, BOUND + 2), 0);
    } else if random.once_in(3) {
        damage(random, 0, &mut message, &mut words);
    }
    let room = if random.once_in(4) { random.below(40) } else { 24 };
    Question::Choose { reading, seen: random.once_in(4), room, message }
}

fn fragment(random: &mut Random) -> Question {
    let mut message = Vec::new();
    let length = match random.below(2_000) {
        0 => random.between(BOUND - 2, BOUND + 2),
        1..=40 => random.below(5_000),
        _ => random.below(40),
    };
    random.append(length, &mut message);
    let (room, start) = place_to_write(random, length + 4);
    Question::Fragment { message, room, start }
}

/// Room for so many bytes and a place in it: mostly enough, just enough or too little; or a place past the end.
fn place_to_write(random: &mut Random, length: usize) -> (usize, usize) {
    let start = random.below(12);
    let room = match random.below(8) {
        0 => random.below(start + 1),
        1 => start + random.below(length),
        2 => start + length,
        _ => start + length + random.below(9),
    };
    (room, if random.once_in(200) { usize::MAX - random.below(9) } else { start })
}
