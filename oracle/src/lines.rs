//! The lines of the program `answers`: cases and answers as text.
use std::fmt::Write;

use crate::answers::{Asked, Call, Choice, Fed, Marks, Piece, Refusal, State, Took, Wrote, LONG_PATH};
use crate::cases::{Cut, Question};
use crate::shapes::KINDS;
use crate::yielded::Yielded;

/// The longest line that is read: a message of 1,048,576 bytes has room in it.
pub const LONGEST: usize = 2_200_000;

/// Bytes in hex, `-` for none.
pub fn hex(bytes: &[u8]) -> String {
    if bytes.is_empty() {
        return String::from("-");
    }
    let mut text = String::with_capacity(2 * bytes.len());
    for byte in bytes {
        write!(text, "{byte:02x}").expect("a string can be written");
    }
    text
}

/// A refusal of a reading.
pub fn refusal(refusal: &Refusal) -> String {
    let Refusal { number, place, wanting } = refusal;
    match number {
        1 => format!("refused 1 {place} {wanting}"),
        2 | &LONG_PATH => format!("refused {number} {place}"),
        _ => format!("refused {number}"),
    }
}

pub fn reading(answer: &Result<Took, Refusal>, rewriting: &[u8]) -> String {
    match answer {
        Ok(took) => format!("took {} {} {}", took.next, if took.plain { "plain" } else { "loose" }, hex(rewriting)),
        Err(refused) => refusal(refused),
    }
}

/// A reading with its marks: a letter for each piece.
pub fn marking(answer: &Result<Took, Refusal>, marks: &Marks) -> String {
    match answer {
        Ok(took) => {
            let letters: String = marks.each().iter().map(|clean| if *clean { 'c' } else { 'd' }).collect();
            let letters = if letters.is_empty() { "-" } else { &letters };
            format!("took {} {} {letters}", took.next, if took.plain { "plain" } else { "loose" })
        },
        Err(refused) => refusal(refused),
    }
}

/// The choice, with the output buffer as it then is.
pub fn choice(choice: &Choice, out: &[u8]) -> String {
    let text = match choice {
        Choice::HandOver { program, version, procedure, arguments, auth_unix } => {
            let auth_unix = auth_unix.map_or(String::from("none"), |a| {
                let (name, gids) = (a.name, a.gids);
                format!("unix {} {} {} {} {} {} {}", a.stamp, name.place, name.count, a.uid, a.gid, gids.place, gids.count)
            });
            format!("handover {program} {version} {procedure} {arguments} {auth_unix}")
        },
        Choice::Reply => String::from("reply 24"),
        Choice::Silence => String::from("silence"),
        Choice::Refused(refused) => refusal(refused),
    };
    format!("{text} {}", hex(out))
}

/// What is answered to a message for all programs, with the output buffer as it then is.
pub fn asked(asked: &Asked, out: &[u8]) -> String {
    let text = match asked {
        Asked::HandOver { program, version, procedure, arguments, auth_unix } => {
            let (program, version, procedure) = (*program, *version, *procedure);
            let (arguments, auth_unix) = (*arguments, *auth_unix);
            return choice(&Choice::HandOver { program, version, procedure, arguments, auth_unix }, out);
        },
        Asked::Reply(length) => format!("reply {length}"),
        Asked::Silence => String::from("silence"),
        Asked::Refused(refused) => refusal(refused),
        Asked::Call { call, next, .. } => match call {
            Call::Mnt(Piece { place, count }) => format!("mnt {place} {count} {next}"),
            Call::Umnt(Piece { place, count }) => format!("umnt {place} {count} {next}"),
            Call::Export => format!("export {next}"),
            Call::Getport([program, version, protocol, port]) => {
                format!("getport {program} {version} {protocol} {port} {next}")
            },
        },
    };
    format!("{text} {}", hex(out))
}

/// A feed's answer; `record` is given where a complete record is shown.
pub fn fed(fed: &Fed, record: Option<&[u8]>) -> String {
    match fed {
        Fed::More { used } => format!("more {used}"),
        Fed::Refused { number, used } => format!("refused {number} {used}"),
        Fed::Complete { length, used } => match record {
            Some(record) => format!("complete {length} {used} {}", hex(record)),
            None => format!("complete {length} {used}"),
        },
    }
}

/// What a stream yields, but for the state and the buffer that it leaves.
pub fn yielded(yielded: &Yielded) -> String {
    let Yielded { records, refused, used } = yielded;
    let mut text: Vec<String> =
        records.iter().map(|(record, _)| format!("record {} {}", record.len(), hex(record))).collect();
    text.extend(refused.map(|(number, after)| format!("refused {number} {after}")));
    text.push(format!("used {used}"));
    text.join("; ")
}

/// The line of a stream that is fed in runs of these lengths.
pub fn stream(capacity: usize, stream: &[u8], lengths: &[usize]) -> String {
    let mut line = format!("stream {capacity} {}", hex(stream));
    for length in lengths {
        write!(line, " {length}").expect("a string can be written");
    }
    line
}

/// What a line about the assembler ends with.
pub fn state_and_buffer(state: &State, record: &[u8]) -> String {
    let State { capacity, placed, count, value, left, last, stopped } = state;
    let (last, stopped) = (u8::from(*last), u8::from(*stopped));
    format!("; state {capacity} {placed} {count} {value} {left} {last} {stopped}; buffer {}", hex(record))
}

/// What a writing into a buffer answers.
pub fn wrote(answer: Wrote, out: &[u8]) -> String {
    match answer {
        Ok(next) => format!("wrote {next} {}", hex(out)),
        Err(unwritten) => format!("refused {} {}", unwritten.number, hex(out)),
    }
}

impl Question {
    /// The line by which the program `answers` can be asked the same. Where there is none, the function's name and what it
    /// is given, in the order of include/yugerzat.h.
    pub fn line(&self) -> String {
        match self {
            Question::Read { kind, at, message, .. } => {
                let name = KINDS.get(*kind as usize).map_or(kind.to_string(), |(name, _)| String::from(*name));
                format!("read {name} {at} {}", hex(message))
            },
            Question::Value { value, at, message } => format!("{} {} {at}", value.reader(), hex(message)),
            Question::AuthUnix { at, count, message } => format!("read_auth_unix {} {at} {count}", hex(message)),
            Question::Write { writer, sources, fields, room, start } => {
                let lent: String = sources.both().iter().take(writer.sources()).map(|source| hex(source) + " ").collect();
                format!("{} {lent}{fields:?} {room} {start}", writer.name())
            },
            Question::Part { message, at, count } => format!("part {} {at} {count}", hex(message)),
            Question::Choose { reading, seen, room, message } => {
                format!("{}choose {} {room} {}", reading.prefix(), u8::from(*seen), hex(message))
            },
            Question::Ask { seen, room, message } => format!("ask {} {room} {}", u8::from(*seen), hex(message)),
            Question::Walk { walk, at, message } => format!("{} {} {at}", walk.reader(), hex(message)),
            Question::Path { source, path, room, start } => {
                format!("path {} {} {} {room} {start}", hex(source), path.place, path.count)
            },
            Question::List { source, list, room, start } => {
                format!("list {} {} {} {room} {start}", hex(source), list.place, list.count)
            },
            Question::Same { sources, lists: [first, second] } => {
                let [a, b] = sources.both().map(hex);
                format!("same_exports {a} {} {} {b} {} {}", first.place, first.count, second.place, second.count)
            },
            Question::Feed { capacity, runs } => {
                let mut line = format!("feed {capacity}");
                for run in runs.iter().filter(|run| !run.is_empty()) {
                    line += " ";
                    line += &hex(run);
                }
                line
            },
            Question::Stream { capacity, stream: bytes, cuttings: [lengths, _] } => stream(*capacity, bytes, lengths),
            Question::State { state, length, run } => {
                let State { capacity, placed, count, value, left, last, stopped } = state;
                let (last, stopped) = (u8::from(*last), u8::from(*stopped));
                format!("state {capacity} {placed} {count} {value} {left} {last} {stopped} {length} {}", hex(run))
            },
            Question::Fragment { message, room, start } => format!("fragment {} {room} {start}", hex(message)),
            Question::Cuts { cut: Cut::Kind { kind, at }, message } => {
                format!("cut everywhere: read {} {at} {}{}", KINDS[*kind].0, "00".repeat(*at), hex(message))
            },
            Question::Cuts { cut, message } => format!("cut everywhere: {} {}", cut.name(), hex(message)),
        }
    }
}
