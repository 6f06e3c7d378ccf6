//! The chosen lines about the mount protocol and the port mapper: a modest set, for the program that is asked them is slow.
use crate::answers::Piece;
use crate::cases::{append_message, bare_call, damage, Question, Style};
use crate::lines::hex;
use crate::list::{bytes_of, made, read_line, SEED, SHORT};
use crate::random::Random;
use crate::shapes::{kind, KINDS, MOUNTING, MOUNTSTAT3};

const PORT_MAPPER: u32 = 100_000;
const MOUNT: u32 = 100_005;

/// "/vault" with a name, "/mem" with two, and a path without any: in published form.
const LIST: &str = concat!(
    "00000001000000062f7661756c740000",
    "00000001000000046e6f7661",
    "00000000",
    "00000001000000042f6d656d",
    "000000010000000161000000",
    "00000001000000026263000000000000",
    "0000000100000003612f6200",
    "00000000",
    "00000000",
);

/// The same with odd flags and dirty padding.
const LOOSE_LIST: &str = concat!(
    "ffffffff000000062f7661756c740001",
    "80000000000000046e6f7661",
    "00000000",
    "00000002000000042f6d656d",
    "010000000000000161ffffff",
    "00000100000000026263a5a500000000",
    "0000000300000003612f62ee",
    "00000000",
    "00000000",
);

/// How many entries they have.
const ENTRIES: usize = 3;

pub fn lines() -> Vec<String> {
    let mut list = Vec::new();
    for name in MOUNTING {
        some_of(kind(name).expect("the kind is known"), &mut list);
    }
    statuses(&mut list);
    list.extend(WORKED.iter().map(|line| String::from(*line)));
    lists(&mut list);
    bounds(&mut list);
    calls(&mut list);
    list
}

/// Some messages of a kind.
fn some_of(kind: usize, list: &mut Vec<String>) {
    let random = &mut Random::of(SEED, kind as u64);
    let (name, shape) = &KINDS[kind];
    for style in [Style::Plain, Style::Loose] {
        for _ in 0..2 {
            list.push(read_line(kind, 0, &made(random, shape, style)));
        }
    }
    let mut behind = vec![0xA5; random.between(1, 9)];
    let at = behind.len();
    behind.extend(made(random, shape, Style::Loose));
    behind.extend([0x5A; 3]);
    list.push(read_line(kind, at, &behind));
    list.push(read_line(kind, behind.len() + 1, &behind));
    for _ in 0..3 {
        let (mut bytes, mut words) = (Vec::new(), Vec::new());
        append_message(random, shape, Style::Loose, &mut bytes, &mut words);
        damage(random, 0, &mut bytes, &mut words);
        bytes.truncate(SHORT);
        list.push(read_line(kind, 0, &bytes));
    }
    let source = made(random, shape, Style::Loose);
    for (room, start) in [(source.len() + 4, 3), (source.len() - 1, 0)] {
        list.push(format!("write {name} 0 {} {room} {start}", hex(&source)));
    }
}

/// Every status, and numbers beside them that NFS has, or no one.
fn statuses(list: &mut Vec<String>) {
    let [status, result] = ["mountstat3", "mountres3"].map(|name| kind(name).expect("the kind is known"));
    let others = [3, 6, 21, 70, 10_003, 10_005, 10_007, 1 << 31];
    list.extend(MOUNTSTAT3.iter().chain(&others).map(|number| read_line(status, 0, &number.to_be_bytes())));
    // Before what a success has.
    for number in [0, 5, 3, 10_006] {
        list.push(read_line(result, 0, &bytes_of(&[number, 1, 0xAA00_0000, 2, 0, 1])));
    }
}

/// What is easily misread of these kinds.
const WORKED: &[&str] = &[
    "read dirpath 0 00000000",
    "read dirpath 0 000000022f61ffff",
    "read dirpath 0 000000022f6100",
    "read dirpath 0 00000401",
    "read dirpath 0 ffffffff",
    "read mountres3 0 0000000000000001550000ff00000000",
    "read mountres3 0 00000000000000010000",
    "read mapping 0 000186a50000000300000006",
    "read exports 0 00000000",
    "read exports 0 00000001",
    "read exports 0 0000000100000000",
    "read exports 0 00000001000000000000000100000000",
    "read exports 0 000000010000000000000000ffffffff",
    // A name that claims very much, where another is due.
    "read exports 0 000000010000000000000001fffffffd",
    // A path and a piece of no bytes.
    "path - 0 0 4 0",
    "path 002f6100 1 2 9 1",
    "path 002f6100 1 3 7 0",
    "path 002f6100 1 4 9 1",
    "path 002f6100 1 18446744073709551615 9 1",
    "path 002f6100 18446744073709551615 2 9 1",
    "path 002f6100 5 0 9 1",
    "path 002f6100 4 0 9 5",
    "path 002f6100 4 0 9 6",
    "path 002f6100 1 4 9 10",
    // Over the bound, and not inside.
    "path 002f6100 0 1025 9 1",
    "path 002f6100 0 1025 9 10",
    "list 00000000 0 0 4 0",
    "list 00000000 0 0 3 0",
    "list 00000000 0 0 0 1",
    "list 00000000 0 1 4 0",
    "list 00000000 4 0 4 0",
    "list 00000000 5 0 4 0",
    "list 00000000 18446744073709551612 0 4 0",
    "list 00000001 0 1 4 0",
    "list - 0 0 4 0",
    // These have not the form of any line.
    "ask 2 24 0000002a00000002",
    "ask 0 24",
    "ask 0 1048577 -",
    "path 002f6100 1 2 9",
    "path 002f610 1 2 9 1",
    "path 002f6100 1 2 1048577 1",
    "list 00000000 0 x 4 0",
    "list 00000000 0 0 4 0 0",
    "lists 00000000 0 0 4 0",
];

/// Two forms of one list, and a list that is cut.
fn lists(list: &mut Vec<String>) {
    let exports = kind("exports").expect("the kind is known");
    let bytes = LIST.len() / 2;
    for form in [LIST, LOOSE_LIST] {
        list.push(format!("read exports 0 {form}"));
        list.push(format!("read exports 1 ab{form}cd"));
        list.push(format!("write exports 0 {form} {} 2", bytes + 3));
        list.push(format!("list {form} 0 {ENTRIES} {bytes} 0"));
        list.push(format!("list abcdef{form}01 3 {ENTRIES} {} 5", bytes + 7));
    }
    let line = |place: usize, count: usize, room: usize, start: usize| {
        let (source, list) = (unhex(LOOSE_LIST), Piece { place, count });
        Question::List { source, list, room, start }.line()
    };
    // Counts that are off, places that are off, too little room, and the rests of the list.
    for count in [0, 2, 4, usize::MAX] {
        list.push(line(0, count, bytes, 0));
    }
    for place in [1, 4, 16, bytes - 4, bytes, bytes + 1] {
        list.push(line(place, ENTRIES, bytes, 0));
    }
    list.push(line(32, ENTRIES - 1, bytes, 0));
    list.push(line(bytes - 4, 0, 4, 0));
    list.push(line(0, ENTRIES, bytes - 1, 0));
    list.push(line(0, ENTRIES, bytes, 1));
    list.push(line(0, 9, 1, 2));
    // (tests/cuts cuts one at every byte.)
    let cut = unhex("00000001000000022f6100000000000100000001620000000000000000000000");
    list.extend((0..cut.len()).step_by(3).map(|end| read_line(exports, 0, &cut[..end])));
}

/// Paths of 1,024 bytes and of 1,025: read, in lists, written, and in calls.
fn bounds(list: &mut Vec<String>) {
    let [most, over] = [1_024, 1_025].map(|length: usize| {
        format!("{length:08x}{}{}", "5a".repeat(length), "00".repeat(length.next_multiple_of(4) - length))
    });
    list.push(format!("read dirpath 0 {most}"));
    list.push(format!("read dirpath 1 ee{over}"));
    // What is wanting comes first: of the path, and behind it.
    list.push(format!("read dirpath 0 {}", &over[..over.len() - 2]));
    list.push(format!("read exports 0 00000001{over}0000000000000001"));
    list.push(format!("read exports 0 00000001{most}0000000000000002{over}00000000ffffffff{over}0000000000000000"));
    list.push(format!("path {over} 4 1025 1 0"));
    list.push(format!("list 00000001{over}0000000000000000 0 1 1 0"));
    list.push(format!("list 00000001{over}0000000000000000 0 2 1 0"));
    list.push(ask(false, 0, MOUNT, 3, 1, &over));
}

/// Each procedure in the version that is served and in those beside it; the arguments, whole and cut; and room for replies.
fn calls(list: &mut Vec<String>) {
    let path = "000000022f61ffff00";
    let mapping = "000186a500000003000000060000080100";
    for (program, served, arguments) in [(MOUNT, 3, path), (PORT_MAPPER, 2, mapping)] {
        for procedure in 0..=6 {
            list.push(ask(false, 32, program, served, procedure, arguments));
        }
        for (version, procedure) in [(served - 1, 0), (served + 1, 3), (0, 9), (u32::MAX, 1)] {
            list.push(ask(false, 32, program, version, procedure, arguments));
        }
        for (room, version, procedure) in [(31, 1, 3), (24, 1, 0), (23, served, 0), (24, served, 0), (23, served, 2)] {
            list.push(ask(false, room, program, version, procedure, arguments));
        }
        // Room is not looked at where no reply is due.
        list.push(ask(false, 0, program, served, 3, arguments));
        list.push(ask(true, 0, program, served, 3, arguments));
        for digits in [0, 6, 8, arguments.len() - 4] {
            list.push(ask(false, 1, program, served, 3, &arguments[..digits]));
        }
    }
    // NFS, another program, another version of RPC, and a reply.
    list.push(ask(false, 24, 100_003, 2, 1, path));
    list.push(ask(false, 24, 100_004, 3, 1, path));
    list.push(String::from("ask 0 24 0000002a00000002"));
    list.push(String::from("ask 0 24 0000002a0000000100000000000000000000000000000000"));
    // A credential is looked at before all that: one that is cut short, and a whole one.
    let credential = "0000002a0000000000000002000186a5000000090000000000000001";
    list.push(format!("ask 0 32 {credential}0000000000000000000000000000"));
    list.push(format!("ask 0 32 {credential}0000001400000001000000000000000200000003000000000000000000000000"));
}

fn ask(seen: bool, room: usize, program: u32, version: u32, procedure: u32, arguments: &str) -> String {
    Question::Ask { seen, room, message: bare_call(program, version, procedure, &unhex(arguments)) }.line()
}

fn unhex(digits: &str) -> Vec<u8> {
    let byte = |at: usize| u8::from_str_radix(&digits[at..at + 2], 16).expect("these are digits");
    (0..digits.len()).step_by(2).map(byte).collect()
}
