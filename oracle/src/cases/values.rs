//! Questions to the readers and writers of single values.
use super::{append_call, append_message, damage, message, place_to_write, reading, Question, Sources, Style};
use crate::answers::BOUND;
use crate::model::Model;
use crate::random::Random;
use crate::shapes::{kind, Reading, AUTH_UNIX, KINDS};
use crate::values::{Value, Writer};

pub fn value(random: &mut Random) -> Question {
    // Headers have the most to tell.
    let value = if random.once_in(3) { Value::Message(reading(random)) } else { random.pick(&Value::PLACED) };
    let (message, at) = message(random, kind(value.kind()).expect("the kind is known"));
    Question::Value { value, at, message }
}

/// An `auth_unix` in a body somewhere in a message, damaged or not. The body may end early or late, or not lie inside.
pub fn auth_unix(random: &mut Random) -> Question {
    let (mut body, mut words) = (Vec::new(), Vec::new());
    let style = Style::any(random);
    append_message(random, &AUTH_UNIX, style, &mut body, &mut words);
    if random.once_in(2) {
        damage(random, 0, &mut body, &mut words);
    }
    let (before, behind) = (random.below(20), random.below(20));
    let mut message = Vec::new();
    random.append(before, &mut message);
    message.extend_from_slice(&body);
    random.append(behind, &mut message);
    if random.once_in(2_000) {
        let length = random.between(BOUND - 2, BOUND + 2);
        message.resize(length, 0);
    }
    let (at, count) = (before, body.len());
    let (at, count) = match random.below(16) {
        0 => (at, count.saturating_sub(random.between(1, 4))),
        1 => (at, count + random.between(1, 4)),
        2 => (at, random.below(count + 1)),
        3 => (at, message.len().saturating_sub(at)),
        4 => (at, message.len().saturating_sub(at) + 1),
        5 => (message.len(), random.below(2)),
        6 => (message.len() + random.between(1, 4), 0),
        7 if random.once_in(4) => (usize::MAX - random.below(4), count),
        8 if random.once_in(4) => (at, usize::MAX - at + random.below(at + 1)),
        _ => (at, count),
    };
    Question::AuthUnix { at, count, message }
}

/// The fields of a message as its reader gives them, with the message as the source; or the second piece with another
/// message as its source. Then, mostly, some fields are changed.
pub fn write(random: &mut Random) -> Question {
    let writer = random.pick(&Writer::ALL);
    let (source, mut fields) = given(random, writer);
    let mut sources = Sources::Same(source.clone());
    if let (&[_, second], false) = (writer.pieces(), random.once_in(3)) {
        let (other, others) = given(random, writer);
        fields[second.at..second.at + 2].copy_from_slice(&others[second.at..second.at + 2]);
        sources = Sources::Two(source, other);
    }
    if random.once_in(2) {
        for _ in 0..random.between(1, 2) {
            change(random, writer, &sources, &mut fields);
        }
    }
    if random.once_in(200) {
        at_the_bound(random, writer, &mut sources, &mut fields);
    }
    let length = Model::FAULTLESS.written(writer, sources.both(), &fields).map_or(40, |bytes| bytes.len());
    let (room, start) = place_to_write(random, length);
    Question::Write { writer, sources, fields, room, start }
}

fn given(random: &mut Random, writer: Writer) -> (Vec<u8>, Vec<u64>) {
    loop {
        let value = writer.value();
        let mut source = Vec::new();
        let at = random.below(9);
        random.append(at, &mut source);
        if writer == Writer::Call && random.once_in(2) {
            append_call(random, Reading::Crate, &mut source, &mut Vec::new());
        } else {
            let (shape, style) = (&KINDS[kind(value.kind()).expect("the kind is known")].1, Style::any(random));
            append_message(random, shape, style, &mut source, &mut Vec::new());
        }
        let figures = Model::FAULTLESS.value(value, &source, at).answer.expect("a message that was made is taken");
        if let Some(fields) = writer.fields_of(&figures) {
            return (source, fields);
        }
    }
}

/// Changes one field: to a number that is near a border of its type or, for a piece, of a source, mostly its own.
fn change(random: &mut Random, writer: Writer, sources: &Sources, fields: &mut [u64]) {
    let at = random.below(writer.fields());
    let piece = writer.pieces().iter().find(|piece| (piece.at..piece.at + 2).contains(&at));
    // Where a reply is not accepted, these fields are numbers.
    if let Some(piece) = piece.filter(|_| !matches!(writer, Writer::Reply(_)) || random.once_in(2)) {
        let of = if random.once_in(4) { 1 - piece.source } else { piece.source };
        let length = sources.both()[of].len();
        let place = random.below(length + 1);
        let rest = (length - place) / piece.width;
        let (place, count) = match random.below(9) {
            0 => (place as u64, rest as u64 + 1),
            1 => (length as u64 + 1, 0),
            2 => (u64::MAX - random.below(3) as u64, random.below(5) as u64),
            3 => (place as u64, u64::MAX - random.below(place + 1) as u64),
            4 => (place as u64, rest as u64),
            5 => (length as u64, 0),
            // Four times such a count wraps.
            6 => (place as u64, random.pick(&[1 << 62, (1 << 62) + 1, 3 << 62])),
            _ => (place as u64, random.below(rest + 1) as u64),
        };
        fields[piece.at] = place;
        fields[piece.at + 1] = count;
        return;
    }
    let some = random.next();
    let small = random.below(17) as u64;
    let numbers = [0, 1, 2, 3, 4, 5, 6, 7, 8, small, 0xFFFF_FFFF, 1 << 32, (1 << 32) + 1, (1 << 32) + 2, u64::MAX, some];
    fields[at] = random.pick(&numbers);
}

/// Sources about as long as refusal 3 allows, both or one of them; and pieces that make what is written about as long, or
/// are not inside.
fn at_the_bound(random: &mut Random, writer: Writer, sources: &mut Sources, fields: &mut [u64]) {
    let length = random.pick(&[BOUND - 1, BOUND, BOUND, BOUND + 1, BOUND + 2]);
    match sources {
        Sources::Same(source) => source.resize(length, 0x5A),
        Sources::Two(first, second) => match random.below(3) {
            0 => first.resize(length, 0x5A),
            1 => second.resize(length, 0x5A),
            _ => {
                first.resize(length, 0x5A);
                second.resize(random.pick(&[BOUND - 1, BOUND, BOUND + 1]), 0xA5);
            },
        },
    }
    if random.once_in(4) {
        return;
    }
    if let Writer::Reply(_) = writer {
        fields[1] = 1;
    }
    // What is written besides the pieces. They share what is left of the bound, a little more or less.
    let words = match writer {
        Writer::Call => 40,
        Writer::Reply(_) => 24,
        Writer::AuthUnix => 20,
        Writer::Diropargs3 => 8,
        Writer::Fattr3 | Writer::Sattr3 => return,
    };
    let mut left = (BOUND - words + random.below(9)).saturating_sub(5);
    for (index, piece) in writer.pieces().iter().enumerate() {
        let longest = sources.both()[piece.source].len();
        let is_last = index + 1 == writer.pieces().len();
        let bytes = if is_last { left } else { random.below(left.min(longest)) };
        left -= bytes;
        fields[piece.at] =
            if random.once_in(8) { longest + 1 } else { random.below(longest.saturating_sub(bytes) + 1) } as u64;
        fields[piece.at + 1] = (bytes / piece.width) as u64;
    }
}

pub fn part(random: &mut Random) -> Question {
    let length = random.below(40);
    let mut message = Vec::new();
    random.append(length, &mut message);
    let at = random.below(length + 1);
    let rest = length - at;
    let (at, count) = match random.below(10) {
        0 => (at, rest + 1),
        1 => (at, rest),
        2 => (length, 0),
        3 => (length + 1, 0),
        4 => (usize::MAX - random.below(3), random.below(5)),
        5 => (at, usize::MAX - random.below(at + 1)),
        // The sum wraps to a place inside.
        6 if at > 0 => (at, usize::MAX - at + 1 + random.below(at)),
        _ => (at, random.below(rest + 1)),
    };
    Question::Part { message, at, count }
}
