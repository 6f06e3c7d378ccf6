//! Messages made by the shape of their kind, so that most of what both sides are asked has meaning.
use super::numbers::{count, length, path_length, telling, true_flag, word, SERVED, UNSERVED};
use crate::random::Random;
use crate::shapes::{Reading, Shape, Undeclared, AUTH_UNIX};

/// How tidy a message is.
#[derive(Clone, Copy, Debug, PartialEq, Eq)]
pub enum Style {
    /// As the RFC has it.
    Plain,
    /// With odd flags, dirty padding and undeclared tags, all of which the crate takes.
    Loose,
}

impl Style {
    pub fn any(random: &mut Random) -> Style {
        if random.once_in(2) {
            Style::Plain
        } else {
            Style::Loose
        }
    }

    fn strays(self, random: &mut Random) -> bool {
        self == Style::Loose && random.once_in(2)
    }
}

/// The place of a word that steers the reading: the likeliest place for damage to matter.
#[derive(Clone, Copy, Debug)]
pub enum Word {
    Length(usize),
    Number(usize),
}

/// Appends a message of that shape, and notes its steering words.
pub fn append_message(random: &mut Random, shape: &Shape, style: Style, bytes: &mut Vec<u8>, words: &mut Vec<Word>) {
    match shape {
        Shape::Word => put(bytes, word(random)),
        Shape::Hyper => {
            put(bytes, word(random));
            put(bytes, word(random));
        },
        Shape::Eight => random.append(8, bytes),
        Shape::Flag => {
            flag(random, style, bytes, words);
        },
        Shape::Opaque => {
            let length = length(random);
            opaque(random, length, style, bytes, words);
        },
        Shape::Path => {
            let length = path_length(random);
            opaque(random, length, style, bytes, words);
        },
        Shape::Chain(value) => {
            while random.once_in(2) {
                link(random, style, bytes, words);
                append_message(random, value, style, bytes, words);
            }
            words.push(Word::Number(bytes.len()));
            put(bytes, 0);
        },
        Shape::WordList => {
            let count = count(random);
            words.push(Word::Length(bytes.len()));
            put(bytes, count as u32);
            random.append(4 * count, bytes);
        },
        Shape::Closed(declared) => {
            words.push(Word::Number(bytes.len()));
            put(bytes, random.pick(declared));
        },
        Shape::Record(fields) => fields.iter().for_each(|field| append_message(random, field, style, bytes, words)),
        Shape::Optional(value) => {
            if flag(random, style, bytes, words) {
                append_message(random, value, style, bytes, words);
            }
        },
        Shape::Union { arms, undeclared } => {
            words.push(Word::Number(bytes.len()));
            if matches!(undeclared, Undeclared::WrittenAs(_)) && style == Style::Loose && random.once_in(4) {
                let highest = arms.last().map_or(0, |(tag, _)| *tag);
                put(bytes, if random.once_in(2) { highest + 1 } else { telling(random).max(highest + 1) });
                return;
            }
            let (tag, arm) = random.pick(arms);
            put(bytes, tag);
            append_message(random, arm, style, bytes, words);
        },
        Shape::Status { of, ok, fail } => {
            words.push(Word::Number(bytes.len()));
            // Half are successes: they have the most to tell.
            let status = if random.once_in(2) { 0 } else { random.pick(&of[1..]) };
            put(bytes, status);
            append_message(random, if status == 0 { ok } else { fail }, style, bytes, words);
        },
    }
}

/// A message of at most so many bytes. Where the shape may have pieces it has one, and all have content; the length of each
/// is no multiple of four, so that an opaque has padding.
pub fn with_pieces(random: &mut Random, shape: &Shape, style: Style, longest: usize) -> Vec<u8> {
    loop {
        let (mut bytes, mut words) = (Vec::new(), Vec::new());
        append_message(random, shape, style, &mut bytes, &mut words);
        let mut lengths = words.iter().filter_map(|word| match word {
            Word::Length(at) => Some(bytes[at + 3]),
            Word::Number(_) => None,
        });
        let pieces = lengths.clone().count();
        if bytes.len() <= longest && (pieces > 0 || !shape.has_pieces()) && lengths.all(|length| length % 4 != 0) {
            return bytes;
        }
    }
}

/// Where the credential's body of a call stands.
pub const BODY: usize = 32;

/// A call of the null procedure of NFS whose credential is AUTH_UNIX and has that body. The null verifier stands behind it.
pub fn call_with(body: &[u8]) -> Vec<u8> {
    let mut bytes = Vec::new();
    for number in [42, 0, 2, 100_003, 3, 0, 1, body.len() as u32] {
        put(&mut bytes, number);
    }
    bytes.extend_from_slice(body);
    bytes.resize(bytes.len().next_multiple_of(4), 0);
    put(&mut bytes, 0);
    put(&mut bytes, 0);
    bytes
}

/// A call as it reaches the choice of program (or, rarely, any other message of that reading).
pub fn append_call(random: &mut Random, reading: Reading, bytes: &mut Vec<u8>, words: &mut Vec<Word>) {
    if random.once_in(10) {
        let style = Style::any(random);
        return append_message(random, reading.rpc_msg(), style, bytes, words);
    }
    let xid = random.word();
    let version = if random.once_in(6) { word(random) } else { 2 };
    let program = if random.once_in(4) { random.pick(UNSERVED) } else { random.pick(SERVED) };
    let numbers = [xid, 0, version, program, word(random), random.below(22) as u32];
    append_header(random, numbers, bytes, words);
    let arguments = random.below(30);
    random.append(arguments, bytes);
}

/// A call up to its arguments: these words, a credential and a verifier.
pub fn append_header(random: &mut Random, numbers: [u32; 6], bytes: &mut Vec<u8>, words: &mut Vec<Word>) {
    numbers.iter().for_each(|number| put(bytes, *number));
    credential(random, bytes, words);
    let flavor = random.below(4) as u32;
    verifier(random, flavor, bytes, words);
}

/// A call of that procedure without a credential, and its arguments.
pub fn bare_call(program: u32, version: u32, procedure: u32, arguments: &[u8]) -> Vec<u8> {
    let mut bytes = Vec::new();
    for number in [42, 0, 2, program, version, procedure, 0, 0, 0, 0] {
        put(&mut bytes, number);
    }
    bytes.extend_from_slice(arguments);
    bytes
}

fn credential(random: &mut Random, bytes: &mut Vec<u8>, words: &mut Vec<Word>) {
    if random.once_in(4) {
        let flavor = random.pick(&[0, 0, 0, 1, 2, 3]);
        return verifier(random, flavor, bytes, words);
    }
    put(bytes, 1);
    let (mut body, mut inner) = (Vec::new(), Vec::new());
    let style = Style::any(random);
    append_message(random, &AUTH_UNIX, style, &mut body, &mut inner);
    match random.below(6) {
        0 => super::damage(random, 0, &mut body, &mut inner),
        1 => random.append(3, &mut body),
        2 => body.truncate(body.len() - random.below(5)),
        _ => {},
    }
    words.push(Word::Length(bytes.len()));
    put(bytes, body.len() as u32);
    words.extend(inner.iter().map(|word| match word {
        Word::Length(at) => Word::Length(bytes.len() + at),
        Word::Number(at) => Word::Number(bytes.len() + at),
    }));
    bytes.extend_from_slice(&body);
    pad(random, style, body.len(), bytes);
}

pub fn verifier(random: &mut Random, flavor: u32, bytes: &mut Vec<u8>, words: &mut Vec<Word>) {
    words.push(Word::Number(bytes.len()));
    put(bytes, flavor);
    append_message(random, &Shape::Opaque, Style::Loose, bytes, words);
}

pub fn put(bytes: &mut Vec<u8>, number: u32) {
    bytes.extend_from_slice(&number.to_be_bytes());
}

fn flag(random: &mut Random, style: Style, bytes: &mut Vec<u8>, words: &mut Vec<Word>) -> bool {
    words.push(Word::Number(bytes.len()));
    let number = match random.below(3) {
        0 => 0,
        _ if style.strays(random) => telling(random),
        _ => 1,
    };
    put(bytes, number);
    number != 0
}

/// The true flag before a value of a list.
pub fn link(random: &mut Random, style: Style, bytes: &mut Vec<u8>, words: &mut Vec<Word>) {
    words.push(Word::Number(bytes.len()));
    let number = if style.strays(random) { true_flag(random) } else { 1 };
    put(bytes, number);
}

fn opaque(random: &mut Random, length: usize, style: Style, bytes: &mut Vec<u8>, words: &mut Vec<Word>) {
    words.push(Word::Length(bytes.len()));
    put(bytes, length as u32);
    random.append(length, bytes);
    pad(random, style, length, bytes);
}

/// An opaque of that content.
pub fn append_opaque(random: &mut Random, content: &[u8], style: Style, bytes: &mut Vec<u8>, words: &mut Vec<Word>) {
    words.push(Word::Length(bytes.len()));
    put(bytes, content.len() as u32);
    bytes.extend_from_slice(content);
    pad(random, style, content.len(), bytes);
}

fn pad(random: &mut Random, style: Style, length: usize, bytes: &mut Vec<u8>) {
    let pad = length.next_multiple_of(4) - length;
    if style.strays(random) {
        random.append(pad, bytes);
    } else {
        bytes.resize(bytes.len() + pad, 0);
    }
}
