//! Replies with the numbers in which the readings differ, and with those beside them.
use super::messages::{put, verifier};
use super::{Question, Room};
use crate::random::Random;
use crate::shapes::{kind, Reading};
use crate::values::Value;

/// Accept statuses: all that either reading declares, and others.
pub const ACCEPT_STATS: &[u32] = &[0, 1, 2, 3, 4, 5, 6, 7, 0x8000_0005, 0xFFFF_FFFF];

/// Authentication numbers likewise.
pub const AUTH_STATS: &[u32] = &[0, 1, 2, 3, 4, 5, 6, 7, 8, 9, 10, 11, 12, 13, 14, 15, 16, 0x8000_000D, 0xFFFF_FFFF];

/// The kinds with an accept status, by their names in the crate's reading. Where a verifier stands before it, the words before
/// that.
pub const ACCEPTED: [(&str, Option<&[u32]>); 6] = [
    ("accept_stat", None),
    ("accept_body", None),
    ("accepted_reply", Some(&[])),
    ("reply_body", Some(&[0])),
    ("rpc_body", Some(&[1, 0])),
    ("rpc_msg", Some(&[42, 1, 0])),
];

/// The kinds with an authentication number, and the words before it.
pub const DENIED: [(&str, &[u32]); 5] = [
    ("auth_stat", &[]),
    ("rejected_reply", &[1]),
    ("reply_body", &[1, 1]),
    ("rpc_body", &[1, 1, 1]),
    ("rpc_msg", &[42, 1, 1, 1]),
];

/// Such a reply, to all that read it in one of the readings. A few are cut.
pub fn reply(random: &mut Random) -> Question {
    let reading = random.pick(&Reading::BOTH);
    let mut message = Vec::new();
    let name = if random.once_in(2) {
        let (name, before) = random.pick(&ACCEPTED);
        if let Some(words) = before {
            words.iter().for_each(|word| put(&mut message, *word));
            let flavor = random.below(4) as u32;
            verifier(random, flavor, &mut message, &mut Vec::new());
        }
        put(&mut message, random.pick(ACCEPT_STATS));
        name
    } else {
        let (name, words) = random.pick(&DENIED);
        words.iter().for_each(|word| put(&mut message, *word));
        put(&mut message, random.pick(AUTH_STATS));
        name
    };
    // Versions, which only one status has, or results.
    let behind = random.below(13);
    random.append(behind, &mut message);
    if random.once_in(8) {
        message.truncate(random.below(message.len()));
    }
    match random.below(3) {
        0 if name == "rpc_msg" => Question::Value { value: Value::Message(reading), at: 0, message },
        1 if name == "rpc_msg" => Question::Choose { reading, seen: random.once_in(4), room: 24, message },
        _ => {
            let kind = kind(&[reading.prefix(), name].concat()).expect("the kind is known") as u32;
            Question::Read { kind, at: 0, message, room: Room::Ample }
        },
    }
}
