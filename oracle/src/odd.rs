//! Odd lines: what the program `answers` may be given, beside lines that have a meaning.
use crate::answers::BOUND;
use crate::cases::{case, Question};
use crate::lines::{hex, LONGEST};
use crate::random::Random;
use crate::shapes::KINDS;
use crate::values::Writer;

/// Most random lines are at most so long.
const SHORT: usize = 600;

/// All lines that were thought of, and so many random ones.
pub fn lines(count: u64, seed: u64) -> Vec<Vec<u8>> {
    let mut lines: Vec<Vec<u8>> = THOUGHT_OF.iter().map(|line| line.to_vec()).collect();
    lines.extend(words_alone());
    lines.extend(rooms());
    lines.extend(long());
    lines.extend(whole());
    let questions = (0..).map(|number| case(seed, number).question).filter_map(|question| line(&question));
    let questions = questions.filter(|line| line.len() <= SHORT).take(count as usize);
    lines.extend(questions.enumerate().map(|(number, line)| {
        let random = &mut Random::of(!seed, number as u64);
        let mut line = said_otherwise(random, line).into_bytes();
        for _ in 0..random.below(3) {
            damage(random, &mut line);
        }
        line
    }));
    // A line's end would make two of one.
    lines.iter_mut().flatten().filter(|byte| **byte == b'\n').for_each(|byte| *byte = b' ');
    lines
}

const THOUGHT_OF: &[&[u8]] = &[
    b"",
    b" ",
    b"  ",
    b"                                                                                ",
    b"-",
    b"?",
    b"\t",
    b"\r",
    b"\0",
    b"\xff\xfe",
    b"\xc3\xa9 \xc3\xa9 \xc3\xa9",
    b" read bool 0 00000000",
    b"read bool 0 00000000 ",
    b"read bool 0 00000000  ",
    b"read  bool 0 00000000",
    b"read\tbool\t0\t00000000",
    b"READ bool 0 00000000",
    b"read BOOL 0 00000000",
    b"read bool 0 00000000\r",
    b"read bool 0 00000000\0",
    b"read bool 0 0000000",
    b"read bool 0 0000000g",
    b"read bool 0 0x00000000",
    b"read bool 0 \xff\xff",
    b"read bool 0 --",
    b"read bool 0 -00000000",
    b"read bool 0 -",
    b"read bool  00000000",
    b"read bool +0 00000000",
    b"read bool -0 00000000",
    b"read bool 0. 00000000",
    b"read bool 0x0 00000000",
    b"read bool 00000000000000000000000000000000000000000 00000000",
    b"read bool 18446744073709551615 00000000",
    b"read bool 18446744073709551616 00000000",
    b"read bool 99999999999999999999 00000000",
    b"read bool 340282366920938463463374607431768211456 00000000",
    b"read bool 00018446744073709551615 00000000",
    b"read 0 0 00000000",
    b"read bools 0 00000000",
    b"read boo 0 00000000",
    b"read  0 00000000",
    b"read bool i32 0 00000000",
    b"read symlinkdata3 0 -",
    b"read symlinkdata 0 -",
    b"read stable_how 0 00000003",
    b"read getattr3 0 00000001",
    b"read write3res 0 -",
    b"read write3re 0 -",
    b"read write3res3 0 -",
    b"read read3args read3res 0 -",
    b"read opaque 0 FfFfFfFf",
    b"feed 1",
    b"feed 1 ",
    b"feed 1 -",
    b"feed 1 - ",
    b"feed 1 - -",
    b"feed 1  -",
    b"feed 0 -",
    b"feed 0 80000000 -",
    b"feed 0 - 80000000",
    b"feed 0 80000001 -",
    b"feed 0 80000001 zz",
    b"feed 0 8000000080000000",
    b"feed 0 800000008000000000",
    b"feed 3 80000004 00",
    b"feed 3 8000000480000000",
    b"feed 1048577 -",
    b"feed 1048577 zz",
    b"feed 1048577",
    b"feed 18446744073709551615 -",
    b"feed 18446744073709551616 -",
    b"stream 1",
    b"stream 1 ",
    b"stream 1 -",
    b"stream 1 - ",
    b"stream 1 -  ",
    b"stream 1 - 0",
    b"stream 1 - 0 ",
    b"stream 1 - 0  0",
    b"stream 1  - 0",
    b"stream 1  0",
    b"stream  1 - 0",
    b"stream 0 -",
    b"stream 0 80000000 -",
    b"stream 0 80000000 4 x",
    b"stream 0 80000001 4 x",
    b"stream 0 80000001 4 4",
    b"stream 0 8000000180000000 3 3 3",
    b"stream 0 8000000080000000",
    b"stream 0 800000008000000000 4 0 0 9",
    b"stream 3 8000000401020304 8",
    b"stream 3 00000003010203800000010480000000 6 0 6",
    b"stream 3 8000000301020380000002aabb800000 18446744073709551615 18446744073709551615",
    b"stream 3 80000003010203 18446744073709551616",
    b"stream 3 80000003010203 00000000000000000000000000000000000000003",
    b"stream 3 80000003010203 +1",
    b"stream 3 80000003010203 1\r",
    b"stream 3 80000003010203 1,2",
    b"stream 3 80000003010203 \xff",
    b"stream 3 80000003 01 02",
    b"stream 3 80000003 0102zz",
    b"stream 3 FfFfFfFf 1",
    b"stream 1048577",
    b"stream 1048577 -",
    b"stream 1048577 zz",
    b"stream 1048577 - 1 zz",
    b"stream 1048577 - 1 ",
    b"stream 18446744073709551615 - 1",
    b"stream 18446744073709551616 - 1",
    b"Stream 1 -",
    b"streams 1 -",
    b"strea 1 -",
    b"state 0 0 0 0 0 0 0 0 -",
    b"state 0 0 0 0 0 0 0 0",
    b"state 0 0 0 0 0 0 0 0 - -",
    b"state 0 0 0 0 0 00 0 0 -",
    b"state 0 0 0 0 0 0 01 0 -",
    b"state 0 0 0 0 0 2 0 0 -",
    b"state 0 0 0 0 0 - 0 0 -",
    b"state 0 0 0 0 0 1 0 0 -",
    b"state 0 0 0 0 0 0 1 0 00",
    b"state 0 0 0 1 0 0 0 0 00",
    b"state 18446744073709551615 18446744073709551615 18446744073709551615 18446744073709551615 18446744073709551615 1 1 0 00",
    b"choose 0 0 -",
    b"choose 00 0 -",
    b"choose 2 0 -",
    b"choose yes 0 -",
    b"choose  0 -",
    b"choose 1 24 0000002A00000002",
    b"current_choose 0 0 -",
    b"current_choose 00 0 -",
    b"current_choose  0 -",
    b"current_choose 1 24 0000002A00000002",
    b"current_choose 1 24 0000002A00000002 -",
    b"current_choos 0 24 0000002A00000002",
    b"current_chooses 0 24 0000002A00000002",
    b"current choose 0 24 0000002A00000002",
    b"CURRENT_CHOOSE 0 24 0000002A00000002",
    b"current_read bool 0 00000000",
    b"read current_accept_stat 0 00000005",
    b"read current_accept_sta 0 00000005",
    b"read current_accept_stats 0 00000005",
    b"read current_bool 0 00000000",
    b"read current_ 0 00000000",
    b"read current_rpc_msg 0 -",
    b"ask 0 0 -",
    b"ask 00 0 -",
    b"ask 2 0 -",
    b"ask yes 0 -",
    b"ask  0 -",
    b"ask 0  -",
    b"ask 0 24  ",
    b"ask 0 24 0000002A00000002 ",
    b"ask 1 24 0000002A00000002",
    b"ask 1 24 0000002A00000002 -",
    b"ask 0 24 0000002A0000000g",
    b"ask 0 24 0000002A0000000",
    b"ask 0 +24 0000002A00000002",
    b"ask 0 18446744073709551616 -",
    b"ask 0 18446744073709551615 -",
    b"ask 0 18446744073709551615 0",
    b"Ask 0 24 0000002A00000002",
    b"as 0 24 0000002A00000002",
    b"asks 0 24 0000002A00000002",
    b"ask_ 0 24 0000002A00000002",
    b"current_ask 0 24 0000002A00000002",
    b"path - 0 0 0 0",
    b"path - 0 0 4 0",
    b"path - 0 0 4 0 ",
    b"path - 0 0 4 0 0",
    b"path - 0 0 4",
    b"path - 0 0 4 ",
    b"path - 0  4 0",
    b"path  0 0 4 0",
    b"path -- 0 0 4 0",
    b"path - - 0 4 0",
    b"path - 0 -0 4 0",
    b"path 00 0 00000000000000000000001 4 0",
    b"path 00 0 18446744073709551615 4 0",
    b"path 00 0 18446744073709551616 4 0",
    b"path 00 18446744073709551615 1 4 0",
    b"path 00 18446744073709551615 18446744073709551615 18446744073709551615 18446744073709551615",
    b"path 00 18446744073709551615 18446744073709551615 4 18446744073709551615",
    b"path 0 0 0 1048577 0",
    b"path 00 0 0 1048577 x",
    b"path FfaA 0 2 8 0",
    b"paths 00 0 1 8 0",
    b"pat 00 0 1 8 0",
    b"Path 00 0 1 8 0",
    b"list - 0 0 0 0",
    b"list - 0 0 0 0 ",
    b"list 00000000 0 0 4 0",
    b"list 00000000 0 0 4 0 ",
    b"list 00000000 0 0 4 0 -",
    b"list 00000000 0 0 4",
    b"list 00000000 0 0  0",
    b"list 00000000  0 4 0",
    b"list  0 0 4 0",
    b"list 0000000g 0 0 4 0",
    b"list 0000000 0 0 1048577 0",
    b"list 00000000 0 0 1048577 0 0",
    b"list 00000000 0 0 1048577",
    b"list 00000000 0 0 4 \xff",
    b"list 00000000 18446744073709551615 0 4 0",
    b"list 00000000 18446744073709551613 0 4 0",
    b"list 00000000 0 18446744073709551615 4 0",
    b"list 00000000 0 4294967296 4 0",
    b"list 00000000 0 0 4 18446744073709551615",
    b"list FFFFFFFF00000000000000000000000000 0 1 16 0",
    b"lists 00000000 0 0 4 0",
    b"lis 00000000 0 0 4 0",
    b"LIST 00000000 0 0 4 0",
    b"read dirpath 0 00000000",
    b"read dirpat 0 00000000",
    b"read dirpaths 0 00000000",
    b"read export 0 00000000",
    b"read exportnode 0 00000000",
    b"read groups 0 00000000",
    b"read mountres3_ok 0 0000000000000000",
    b"read mountstat 0 00000000",
    b"read mappings 0 -",
    b"write exports 0 00000000 4 0",
    b"write exports 0 - 4 0",
    b"part - 0 0",
    b"part - 0 1",
    b"part - 18446744073709551615 18446744073709551615",
    b"part - 1 18446744073709551615",
    b"part 00 18446744073709551615 2",
    b"words 00000000 18446744073709551613 1",
    b"words 00000000 0 4611686018427387904",
    b"words 00000000 4 4611686018427387904",
    b"words 00000000 0 18446744073709551615",
    b"words - 0 0",
    b"fragment - 4 0",
    b"fragment - 3 0",
    b"fragment - 0 18446744073709551615",
    b"fragment 00 18446744073709551615 18446744073709551615",
    b"write bool 0 00000001 4 18446744073709551615",
    b"write bool 0 - 1048577 0",
    b"write bool 5 00000001 1048577 0",
    b"write bool 5 00000001 4 5",
    b"write none 0 00000001 4 0",
];

/// Each first word with few words behind it.
fn words_alone() -> Vec<Vec<u8>> {
    let firsts = [
        "read",
        "write",
        "fragment",
        "feed",
        "stream",
        "state",
        "choose",
        "current_choose",
        "ask",
        "path",
        "list",
        "part",
        "words",
        "reads",
        "rea",
    ];
    let rests = ["", " ", " -", " 0", " 0 0", " - 0", " 0 -", " bool", " bool 0", " 0 0 0 0 0 0 0 0 0 0 0 0 0"];
    firsts.iter().flat_map(|first| rests.map(|rest| [*first, rest].concat().into_bytes())).collect()
}

/// Rooms about the bound, and starts about the rooms.
fn rooms() -> Vec<Vec<u8>> {
    let mut lines = Vec::new();
    for room in [0, 1, BOUND - 1, BOUND, BOUND + 1, 1 << 31, 1 << 32, 1 << 62, usize::MAX] {
        lines.push(format!("choose 0 {room} 0000002a00000002"));
        lines.push(format!("current_choose 0 {room} 0000002a00000002"));
        lines.push(format!("ask 0 {room} 0000002a00000002"));
        lines.push(format!("state {room} 0 0 0 0 0 0 {room} 80000001aa"));
        lines.push(format!("feed {room} 80000001aa"));
        lines.push(format!("stream {room} 80000001aa80000002bbcc {room} 1 0 {room}"));
        for start in [0, room.saturating_sub(4), room, room.saturating_add(1)] {
            lines.push(format!("write bool 0 00000002 {room} {start}"));
            lines.push(format!("write bool 0 000000 {room} {start}"));
            lines.push(format!("fragment - {room} {start}"));
            lines.push(format!("path 2f 0 0 {room} {start}"));
            lines.push(format!("list 00000000 0 0 {room} {start}"));
            lines.push(format!("list 00000000 0 1 {room} {start}"));
        }
    }
    lines.into_iter().map(String::into_bytes).collect()
}

/// Long lines, with and without a meaning: of 65,536 characters, as long as is read, and one character longer than either.
fn long() -> Vec<Vec<u8>> {
    let mut lines = vec![vec![b'x'; 2 * LONGEST + 5]];
    for length in [65_536, 65_537, LONGEST, LONGEST + 1] {
        for (front, filling, end) in [
            ("read opaque 0 00007f00", "5a", ""),
            ("part 00 ", "0", "1 0"),
            ("part 00 0 1", " ", ""),
            ("", "x", ""),
            ("", " ", ""),
            ("feed 8 ", "- ", "-"),
            ("feed 70000 8000ffff", "0", " -"),
            ("stream 70000 8000ffff", "0", " 3 0 70000"),
            ("stream 16 80000000", "80000000", " 1 1"),
            ("stream 8 00000001aa80000002bbcc80 ", "1 ", "0"),
            ("stream 8 80000009 ", "0 ", "-"),
            ("path ", "2f", " 0 1024 1028 0"),
            ("list 00000001000000000000000000000000", "00", " 0 1 16 0"),
            ("ask 0 8 0000002a", "0", ""),
        ] {
            let mut line = filling.repeat((length - front.len() - end.len()).div_ceil(filling.len()));
            line.truncate(length - front.len() - end.len());
            lines.push([front, &line, end].concat().into_bytes());
        }
    }
    lines
}

/// Messages as long as refusal 3 allows, and of one byte more.
fn whole() -> Vec<Vec<u8>> {
    let mut lines = Vec::new();
    for length in [BOUND, BOUND + 1] {
        let bytes = format!("{:08x}{}", length - 4, "5a".repeat(length - 4));
        lines.push(format!("read opaque 0 {bytes}"));
        lines.push(format!("read bool {} {bytes}", length - 4));
        lines.push(format!("write nfs_fh3 0 {bytes} {BOUND} 0"));
        lines.push(format!("fragment {bytes} {BOUND} 0"));
        lines.push(format!("fragment {bytes} 3 4"));
        lines.push(format!("part {bytes} {} 4", length - 4));
        lines.push(format!("words {bytes} 1 {}", length / 4));
        lines.push(format!("choose 0 24 0000002a00000000{}", &bytes[16..]));
        lines.push(format!("current_choose 0 24 0000002a00000000{}", &bytes[16..]));
        lines.push(format!("feed {BOUND} 80{}", &bytes[2..]));
        lines.push(format!("stream {BOUND} 80{} 3 0 {} 1", &bytes[2..], length / 2));
        lines.push(format!("stream {} 80{} 1 1 1 1 {BOUND}", length - 5, &bytes[2..]));
        lines.push(format!("stream {BOUND} 00{}80000000 {BOUND}", &bytes[2..]));
        lines.push(format!("state {BOUND} 0 0 0 {BOUND} 1 0 {BOUND} {bytes}"));
        lines.push(format!("ask 0 24 0000002a00000000{}", &bytes[16..]));
        lines.push(format!("path {bytes} {} 1024 1028 0", length - 1_024));
        lines.push(format!("path {bytes} {} 1025 1028 0", length - 1_024));
        // A list with a name that fills the source, and one with a path that does.
        let (name, path) = (length - 24, length - 16);
        let named = format!("000000010000000000000001{name:08x}{}0000000000000000", "5a".repeat(name));
        lines.push(format!("list {named} 0 1 {BOUND} 0"));
        lines.push(format!("read exports 0 {named}"));
        let long = format!("00000001{path:08x}{}0000000000000000", "5a".repeat(path));
        lines.push(format!("list {long} 0 1 {BOUND} 0"));
        // Entries without paths or names, as many as there are.
        let many = "000000010000000000000000".repeat(length / 12);
        lines.push(format!("list {many}00000000 0 {} {BOUND} 0", length / 12));
        // READ's and WRITE's data, which end what is read.
        let (read, write) = (length - 20, length - 24);
        lines.push(format!("read read3res 0 {}{read:08x}{}", "00000000".repeat(4), "5a".repeat(read)));
        lines.push(format!("write write3args 0 {}{write:08x}{} {BOUND} 0", "00000000".repeat(5), "5a".repeat(write)));
    }
    lines.into_iter().map(String::into_bytes).collect()
}

/// The line of a question, if it has one.
fn line(question: &Question) -> Option<String> {
    match question {
        Question::Read { kind, .. } if *kind as usize >= KINDS.len() => None,
        Question::Value { .. } | Question::AuthUnix { .. } | Question::Cuts { .. } => None,
        Question::Walk { .. } | Question::Same { .. } => None,
        // `write` reads what it writes.
        Question::Write { writer, sources, room, start, .. } => {
            let [source, _] = sources.both();
            let at = source.len().min(if *writer == Writer::Fattr3 { 0 } else { start % 9 });
            Some(format!("write {} {at} {} {room} {start}", writer.value().kind(), hex(source)))
        },
        _ => Some(question.line()),
    }
}

/// The same with capital digits, or with another first word or kind.
fn said_otherwise(random: &mut Random, line: String) -> String {
    match random.below(12) {
        0 => {
            let at = line.rfind(' ').unwrap_or(0);
            line[..at].to_owned() + &line[at..].to_uppercase()
        },
        1 => line.replacen("part ", "words ", 1).replacen("path ", "list ", 1),
        2 if line.starts_with("read ") => {
            let mut words: Vec<&str> = line.split(' ').collect();
            words[1] = random.pick(&KINDS.each_ref().map(|(name, _)| *name));
            words.join(" ")
        },
        6 | 7 if line.starts_with("choose ") => line.replacen("choose ", "ask ", 1),
        3 if line.starts_with("feed ") => line.replacen(' ', " 0", 1) + " -",
        4 if line.starts_with("feed ") => {
            let mut words: Vec<&str> = line.split(' ').collect();
            words.insert(random.between(2, words.len()), "-");
            words.join(" ")
        },
        3 if line.starts_with("stream ") => line.replacen(' ', " 0", 1) + " 0",
        4 | 5 if line.starts_with("stream ") => {
            let mut words: Vec<&str> = line.split(' ').collect();
            let length = random.pick(&["0", "00", "01", "1", "1048577", "18446744073709551615"]);
            words.insert(random.between(3, words.len()), length);
            words.join(" ")
        },
        _ => line,
    }
}

/// Damages a line once: its words, or its bytes.
fn damage(random: &mut Random, line: &mut Vec<u8>) {
    const WORDS: [&str; 20] = [
        "",
        "-",
        "--",
        "0",
        "1",
        "2",
        "00",
        "07",
        "+1",
        "-1",
        "1e3",
        "0x10",
        "zz",
        "abc",
        "1048576",
        "1048577",
        "bool",
        "18446744073709551615",
        "18446744073709551616",
        "\u{e9}",
    ];
    let mut words: Vec<Vec<u8>> = line.split(|byte| *byte == b' ').map(<[u8]>::to_vec).collect();
    let at = random.below(words.len());
    match random.below(10) {
        0 => {
            words.remove(at);
        },
        1 => words.insert(at, random.pick(&WORDS).into()),
        2..=4 => words[at] = random.pick(&WORDS).into(),
        5 => words.swap(at, 0),
        6 => {
            let again = words[at].clone();
            words.push(again);
        },
        7 => {
            let place = random.below(words[at].len() + 1);
            let byte = random.pick(b"0123456789abcdefABCDEFgG xX-+.,;?\t\r\0\x7f\xff");
            words[at].insert(place, byte);
        },
        8 => {
            words[at].pop();
        },
        _ => {
            if let Some(byte) = words[at].first_mut() {
                *byte ^= 1 << random.below(8);
            }
        },
    }
    *line = words.join(&b' ');
}
