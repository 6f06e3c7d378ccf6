//! A chosen list of lines: some of every kind and of every sort of line, each answer and each limit among them.
use std::collections::HashSet;
use std::io;
use std::path::Path;

use crate::answers::State;
use crate::captured;
use crate::cases::{
    append_call, append_message, call_with, cuts, damage, run_lengths, state, stream, with_pieces, Question, Room, Style,
    ACCEPTED, ACCEPT_STATS, AUTH_STATS, DENIED,
};
use crate::lines::{self, hex};
use crate::mounted;
use crate::questions::answer;
use crate::random::Random;
use crate::shapes::{Reading, Shape, AUTH_UNIX, KINDS, NFSSTAT3};
use crate::truth::Truth;

/// The list is the same each time.
pub const SEED: u64 = 4506;

/// The kinds that were there first share one row of random numbers. Each later one has its own, so that the lines
/// before stay as they are.
const FIRST_KINDS: usize = 47;

/// The kinds from this one on have their lines in `mounted`.
const MOUNTING_KINDS: usize = 67;

/// Most messages of the list are short, so that a person can read them.
pub const SHORT: usize = 160;

/// Those that are cut at every byte are shorter, for each is as many lines.
const CUT: usize = 120;

/// All lines, none of them twice; those of the captures below a folder are the last.
pub fn lines(captures: &Path) -> io::Result<Vec<String>> {
    let random = &mut Random::of(SEED, 0);
    let mut list: Vec<String> = WORKED.iter().chain(ODD_LINES).map(|line| String::from(*line)).collect();
    for kind in 0..MOUNTING_KINDS {
        let mut own = Random::of(SEED, kind as u64);
        let random = if kind < FIRST_KINDS { &mut *random } else { &mut own };
        readings(random, kind, &mut list);
        writings(random, kind, &mut list);
    }
    list.extend(CALLS_AND_RESULTS.iter().chain(BOTH_READINGS).map(|line| String::from(*line)));
    replies(&mut list);
    lengths(&mut list);
    choices(random, Reading::Crate, 420, &mut list);
    // Numbers of their own, so that the lines behind stay as they are.
    choices(&mut Random::of(SEED, 2), Reading::Current, 180, &mut list);
    streams(random, &mut list);
    cut_streams(&mut Random::of(SEED, 3), &mut list);
    pieces(random, &mut list);
    example(&mut list);
    cut_everywhere(&mut list);
    list.extend(mounted::lines());
    list.extend(captured::lines(captures)?);
    list.extend(MARKS.iter().map(|line| String::from(*line)));
    list.extend(marked(&list));
    let mut met = HashSet::new();
    list.retain(|line| met.insert(line.clone()));
    Ok(list)
}

/// The worked bytes of docs/SCOPE.md, and its traps.
const WORKED: &[&str] = &[
    "read bool 0 00000100",
    "read opaque 0 0000000568656C6C6F000000",
    "read opaque 0 0000000568656C6C6F000001",
    "read opaque 0 00000000",
    "read opaque 0 00000001AA0000",
    "read words 0 00000003000000010000",
    "read u64 0 -",
    "read i32 0 FFFFFFFF",
    "read i32 0 80000000",
    "read set_atime 0 00000003",
    "read sattr3 0 000000000000000000000000FFFFFFFF00000000000000000000000000000000",
    "read rpc_msg 0 0000002A00000002",
    "read rpc_msg 0 0000002A0000000100000000000000000000000000000005",
    "read rpc_msg 0 0000002A0000000100000002",
    "read rpc_msg 0 0000002A000000010000000100000002",
    "read rpc_msg 0 0000002A00000001000000010000000100000006",
    "write bool 0 00000100 6 1",
    "feed 10 0000000080000002ABCD",
    "feed 10 0000000080000002ABCD80000000",
    "feed 0 80000000",
    "feed 3 80000004",
    "feed 4 80000004",
    "feed 1048577 00",
    "stream 10 0000000080000002ABCD 1 0 7",
    "stream 3 8000000401020304 2",
    "stream 4 80000004AA",
    "stream 4 -",
    "stream 4 - 0 18446744073709551615",
    "stream 0 8000000080000000 9",
    "stream 1048577 80000000 1",
    "stream 18446744073709551615 -",
    "choose 0 24 0000002A00000002",
    "choose 0 23 0000002A00000002",
    "choose 1 24 0000002A00000002",
    "choose 0 24 0000002A0000000100000000000000000000000000000000",
    // rpcvers 3 with a credential that is cut short: the credential comes first.
    "choose 0 24 0000002A0000000000000003000186A3000000030000000000000001000000000000000000000000",
    "choose 0 24 0000002A0000000000000002000186A3000000030000000000000000000000000000000000000000",
    "choose 1 24 0000002A0000000000000002000186A3000000030000000000000000000000000000000000000000",
    "choose 0 0 0000002A0000000000000002000186A3000000030000000000000000000000000000000000000000",
    "part 0011223344 1 3",
    "part 0011223344 3 3",
];

/// What is easily misread of the kinds that nfsserve lacks.
const CALLS_AND_RESULTS: &[&str] = &[
    // A guard whose flag is neither 0 nor 1, and one that is cut.
    "read sattrguard3 0 800000000000000700000008",
    "read sattrguard3 0 0000000100000007",
    // Nothing stands behind a failure of GETATTR; 29 is no status.
    "read getattr3res 0 00000001",
    "read getattr3res 0 0000001D",
    "read getattr3res 0 00000000",
    // READ's count is not the length of its data, its eof is 2, and its padding is dirty.
    "read read3res 0 0000000000000000000000050000000200000001AA000001",
    // WRITE's stable is 3.
    "read write3args 0 000000000000000000000007000000010000000300000000",
    // WRITE's committed is 2, and 3; and what a success has stands behind a failure.
    "read write3res 0 000000000000000000000000000000050000000201020304FFFFFFFF",
    "read write3res 0 000000000000000000000000000000050000000301020304FFFFFFFF",
    "read write3res 0 000000050000000000000000000000050000000201020304FFFFFFFF",
];

/// Where the two readings differ, and where they do not.
const BOTH_READINGS: &[&str] = &[
    // SYSTEM_ERR, and a status that neither has.
    "read accept_stat 0 00000005",
    "read current_accept_stat 0 00000005",
    "read accept_body 0 00000005",
    "read current_accept_body 0 00000005",
    "read accept_body 0 00000006",
    "read current_accept_body 0 00000006",
    "read rpc_msg 0 0000002A0000000100000000000000000000000000000005",
    "read current_rpc_msg 0 0000002A0000000100000000000000000000000000000005",
    "read rpc_msg 0 0000002A0000000100000000000000000000000000000006",
    "read current_rpc_msg 0 0000002A0000000100000000000000000000000000000006",
    "write accept_body 0 00000005 6 1",
    "write current_accept_body 0 00000005 6 1",
    "write current_accept_body 0 00000006 6 1",
    // Nothing stands behind SYSTEM_ERR; and what is dirty before it is cleaned.
    "read current_accept_body 0 000000050000000200000002",
    "read current_accepted_reply 0 0000000100000001AA00000100000005",
    "write current_accepted_reply 0 0000000100000001AA00000100000005 16 0",
    // RPCSEC_GSS_CREDPROBLEM, and the ends of both lists.
    "read auth_stat 0 0000000D",
    "read current_auth_stat 0 0000000D",
    "read auth_stat 0 00000000",
    "read current_auth_stat 0 00000000",
    "read current_auth_stat 0 0000000E",
    "read current_auth_stat 0 0000000F",
    "read rpc_msg 0 0000002A0000000100000001000000010000000D",
    "read current_rpc_msg 0 0000002A0000000100000001000000010000000D",
    "read current_rpc_msg 0 0000002A0000000100000001000000010000000F",
    // Undeclared tags are the same in both.
    "read current_rejected_reply 0 00000002",
    "read current_reply_body 0 00000002",
    "read current_rpc_body 0 00000002",
    "read current_rpc_msg 0 0000002A00000002",
    "read current_rpc_msg 0 0000002A0000000100000002",
    "read current_rpc_msg 0 0000002A000000010000000100000002",
    // The reply to another version of RPC, with room, without, and seen before; rpcvers 3; and a credential that is cut short.
    "current_choose 0 24 0000002A00000002",
    "current_choose 0 23 0000002A00000002",
    "current_choose 1 24 0000002A00000002",
    "choose 0 24 0000002A0000000000000003000186A3000000030000000000000000000000000000000000000000",
    "current_choose 0 24 0000002A0000000000000003000186A3000000030000000000000000000000000000000000000000",
    "current_choose 0 24 0000002A0000000000000003000186A3000000030000000000000001000000000000000000000000",
    // Another program, a hand-over, and silence: all the same in both.
    "choose 0 24 0000002A000000000000000200018783000000030000000000000000000000000000000000000000",
    "current_choose 0 24 0000002A000000000000000200018783000000030000000000000000000000000000000000000000",
    "current_choose 0 24 0000002A0000000000000002000186A3000000030000000000000000000000000000000000000000",
    "current_choose 1 24 0000002A0000000000000002000186A3000000030000000000000000000000000000000000000000",
    // A reply gets refusal 8, if its reading takes it.
    "choose 0 24 0000002A0000000100000000000000000000000000000005",
    "current_choose 0 24 0000002A0000000100000000000000000000000000000005",
    "choose 0 24 0000002A0000000100000001000000010000000D",
    "current_choose 0 24 0000002A0000000100000001000000010000000D",
    "choose 0 24 0000002A0000000100000001000000010000000F",
    "current_choose 0 24 0000002A0000000100000001000000010000000F",
];

/// Which field was dirty: the examples, and what is easily misread.
const MARKS: &[&str] = &[
    "marks diropargs3 0 00000001AA00000000000001BB0000CC",
    "marks diropargs3 0 00000001AA01000000000001BB000000",
    "marks bool 0 00000100",
    "marks rpc_msg 0 0000002A00000002",
    "marks reply_body 0 00000002",
    "marks words 0 0000000100000007",
    "marks mountres3 0 0000000000000001AA0000FF0000000100000001",
    "marks exports 0 FFFFFFFF000000012F0000000000000000000000",
    "marks exports 0 00000001000000012F000000000000010000000162000001000000000000000000000000",
    "marks",
    "marks bool 0",
    "marks boolean 0 00000000",
    "marks bool x 00000000",
    "marks bool 0 00000000 0",
];

/// Every third reading of a kind with pieces, asked for its marks.
fn marked(list: &[String]) -> Vec<String> {
    let has_pieces = |line: &str| {
        let name = line.split(' ').nth(1).unwrap_or_default();
        KINDS.iter().any(|(kind, shape)| *kind == name && shape.has_pieces())
    };
    let readings = list.iter().filter_map(|line| line.strip_prefix("read ").map(|rest| format!("marks {rest}")));
    readings.filter(|line| has_pieces(line)).step_by(3).collect()
}

/// Lines that have not the form of any, for every reason but two: no line here is too long, and none can spell too many
/// bytes.
const ODD_LINES: &[&str] = &[
    "?",
    "read",
    "read bool 0",
    "read bool 0 0000000",
    "read bool 0 0000000g",
    "read bool -1 00000000",
    "read bool 18446744073709551616 00000000",
    "read bool x 00000000",
    "read Bool 0 00000000",
    "read boolean 0 00000000",
    "read  bool 0 00000000",
    "read bool 0 00000000 ",
    "reads bool 0 00000000",
    "write bool 0 00000000 4",
    "fragment abcd 6",
    "choose 2 24 0000002a00000002",
    "state 0 0 0 0 0 2 0 0 -",
    "part 00 0",
    "",
    " read bool 0 00000000",
    "read\tbool 0 00000000",
    "a_first_word_of_more_than_32_characters 0 -",
    "read sattr 0 -",
    "read a_kind_of_more_than_thirty-two_characters 0 -",
    "read bool",
    "read bool  00000000",
    "read bool 0 ",
    "read bool 0 0123456789abcdef0123456789abcdefg",
    "read bool 0 000000000",
    "write bool 0 00000000 4 0 0",
    "write bool 0 00000001 1048577 0",
    "fragment - 1048577 0",
    "fragment - 1048577",
    "feed",
    "feed 8",
    "feed 8 80000000 ",
    "feed 8 80000000 -- 0",
    "feed 1048577 0",
    "stream",
    "stream  80000000 1",
    "stream -1 80000000 1",
    "stream 8",
    "stream 8  1",
    "stream 8 8000000g x",
    "stream 8 8000000 x",
    "stream 8 80000000 ",
    "stream 8 80000000 1  1",
    "stream 8 80000000 1 x",
    "stream 8 80000000 1 -",
    "stream 8 80000000 18446744073709551616",
    "stream 1048577 0 x",
    "stream 1048577 80000000 1 x",
    "streams 8 80000000",
    "state 0 0 0 0 0",
    "state 0 0 0 0 0 0 0 1048577 -",
    "choose",
    "choose 1048577 0 -",
    "choose 0 1048577 -",
    "current_choose",
    "current_choose 2 24 0000002a00000002",
    "current_choose 0 1048577 -",
    "current_choos 0 24 -",
    "currentchoose 0 24 -",
    "read current_auth 0 00000000",
    "read current_opaque_auth 0 0000000000000000",
    "part 00 0 0 0",
    "words 00 0 1048577x",
];

pub fn made(random: &mut Random, shape: &Shape, style: Style) -> Vec<u8> {
    loop {
        let mut bytes = Vec::new();
        append_message(random, shape, style, &mut bytes, &mut Vec::new());
        if bytes.len() <= SHORT {
            return bytes;
        }
    }
}

pub fn read_line(kind: usize, at: usize, message: &[u8]) -> String {
    Question::Read { kind: kind as u32, at, message: message.to_vec(), room: Room::Ample }.line()
}

fn readings(random: &mut Random, kind: usize, list: &mut Vec<String>) {
    let shape = &KINDS[kind].1;
    for style in [Style::Plain, Style::Loose] {
        for _ in 0..4 {
            list.push(read_line(kind, 0, &made(random, shape, style)));
        }
        let mut behind = vec![0xA5; random.between(1, 9)];
        let at = behind.len();
        behind.extend(made(random, shape, style));
        list.push(read_line(kind, at, &behind));
        behind.extend([0x5A; 3]);
        list.push(read_line(kind, at, &behind));
        list.push(read_line(kind, behind.len(), &behind));
        list.push(read_line(kind, behind.len() + 1, &behind));
    }
    let whole = made(random, shape, Style::Loose);
    let step = whole.len().div_ceil(14).max(1);
    for end in (0..whole.len()).step_by(step) {
        list.push(read_line(kind, 0, &whole[..end]));
    }
    list.push(read_line(kind, 0, &whole[..whole.len() - 1]));
    for _ in 0..14 {
        let (mut bytes, mut words) = (Vec::new(), Vec::new());
        let style = Style::any(random);
        append_message(random, shape, style, &mut bytes, &mut words);
        damage(random, 0, &mut bytes, &mut words);
        bytes.truncate(2 * SHORT);
        list.push(read_line(kind, 0, &bytes));
    }
    match shape {
        Shape::Closed(declared) => {
            list.extend(about(declared).map(|number| read_line(kind, 0, &number.to_be_bytes())));
        },
        Shape::Status { ok, .. } => {
            // Before two words of zeros: so much any failure may have.
            list.extend(about(NFSSTAT3).map(|number| read_line(kind, 0, &[number, 0, 0].map(u32::to_be_bytes).concat())));
            // Failures, and numbers that are no status, before what a success has.
            let success = made(random, ok, Style::Plain);
            for number in [1_u32, 3, 70, 10_008, 10_009] {
                list.push(read_line(kind, 0, &[&number.to_be_bytes(), &success[..]].concat()));
            }
        },
        _ => {},
    }
}

/// Every number that is declared, those beside it, and the sign bit.
fn about(declared: &[u32]) -> impl Iterator<Item = u32> + '_ {
    declared.iter().flat_map(|n| [n.wrapping_sub(1), *n, n + 1, n | 1 << 31])
}

fn writings(random: &mut Random, kind: usize, list: &mut Vec<String>) {
    let source = made(random, &KINDS[kind].1, Style::Loose);
    let mut line = |room: usize, start: usize| {
        list.push(format!("write {} 0 {} {room} {start}", KINDS[kind].0, hex(&source)));
    };
    let enough = source.len().max(40);
    line(enough, 0);
    line(enough + 6, 3);
    line(source.len().saturating_sub(1), 0);
    line(source.len(), 1);
    line(5, 5);
    line(5, 6);
}

/// All accept statuses and authentication numbers, and those beside them, in every kind of either reading; three of them are
/// written too. What is accepted has a verifier with dirty padding, and two words behind its status.
fn replies(list: &mut Vec<String>) {
    for reading in Reading::BOTH {
        let mut line = |name: &str, message: Vec<u8>, is_written: bool| {
            let words = format!("{}{name} 0 {}", reading.prefix(), hex(&message));
            list.push(format!("read {words}"));
            if is_written {
                list.push(format!("write {words} 40 3"));
            }
        };
        for (name, before) in ACCEPTED {
            for status in ACCEPT_STATS {
                line(name, accepted(before, 0x5A, &[*status, 2, 3]), [5, 6].contains(status));
            }
        }
        for (name, before) in DENIED {
            for reason in AUTH_STATS {
                line(name, bytes_of(&[before, &[*reason]].concat()), *reason == 13);
            }
        }
    }
}

pub fn bytes_of(words: &[u32]) -> Vec<u8> {
    words.iter().flat_map(|word| word.to_be_bytes()).collect()
}

/// These words; before them, if there is one, a verifier of three bytes and that pad, and what stands before it.
fn accepted(before: Option<&[u32]>, pad: u8, words: &[u32]) -> Vec<u8> {
    let verifier = [0, 0, 0, 1, 0, 0, 0, 3, 0xAA, 0xBB, 0xCC, pad];
    let mut bytes = before.map_or(Vec::new(), |before| [&bytes_of(before)[..], &verifier].concat());
    bytes.extend(bytes_of(words));
    bytes
}

/// What only the current reading takes as it is, of a kind of that name: a reply with SYSTEM_ERR, and one with
/// RPCSEC_GSS_CREDPROBLEM.
fn only_current(name: &str) -> Vec<Vec<u8>> {
    let Some(name) = name.strip_prefix(Reading::Current.prefix()) else { return Vec::new() };
    let accepted = ACCEPTED.iter().filter(|(of, _)| *of == name).map(|(_, before)| accepted(*before, 0, &[5]));
    accepted
        .chain(DENIED.iter().filter(|(of, _)| *of == name).map(|(_, before)| bytes_of(&[before, &[13][..]].concat())))
        .collect()
}

/// Lengths and counts about the bounds of the RFCs, about 2^31 and 2^32, and some long ones.
fn lengths(list: &mut Vec<String>) {
    let bodies: [(&str, &[usize]); 4] = [
        ("opaque", &[3, 4, 5, 255, 256, 399, 400, 401, 32_000]),
        ("nfs_fh3", &[63, 64, 65]),
        ("words", &[15, 16, 17, 8_000]),
        ("getattr3args", &[63, 64, 65]),
    ];
    for (name, lengths) in bodies {
        for length in lengths {
            let bytes = if name == "words" { 4 * length } else { length.next_multiple_of(4) };
            let content = "5a".repeat(bytes);
            list.push(format!("read {name} 0 {length:08x}{content}"));
            list.push(format!("read {name} 0 {length:08x}{}", &content[2..]));
        }
    }
    // What stands before the length: of READ's and WRITE's data all other fields do.
    for (name, before) in [
        ("opaque", ""),
        ("nfsstring", ""),
        ("nfs_fh3", ""),
        ("words", ""),
        ("diropargs3", ""),
        ("getattr3args", ""),
        ("read3res", "00000000000000000000000500000001"),
        ("write3args", "0000000000000000000000070000000500000002"),
    ] {
        for length in
            [0x3FFF_FFFF_u32, 0x4000_0000, 0x7FFF_FFFF, 0x8000_0000, 0xFFFF_FFFB, 0xFFFF_FFFC, 0xFFFF_FFFD, u32::MAX]
        {
            list.push(format!("read {name} 0 {before}{length:08x}"));
            list.push(format!("read {name} 2 abcd{before}{length:08x}00000000"));
        }
    }
}

fn choices(random: &mut Random, reading: Reading, count: usize, list: &mut Vec<String>) {
    let mut left = count;
    while left > 0 {
        let (mut bytes, mut words) = (Vec::new(), Vec::new());
        append_call(random, reading, &mut bytes, &mut words);
        if random.once_in(3) {
            damage(random, 0, &mut bytes, &mut words);
        }
        if bytes.len() > 2 * SHORT {
            continue;
        }
        left -= 1;
        let room = if random.once_in(3) { random.below(40) } else { 24 };
        list.push(Question::Choose { reading, seen: random.once_in(4), room, message: bytes }.line());
    }
}

fn streams(random: &mut Random, list: &mut Vec<String>) {
    let mut left = 300;
    while left > 0 {
        let (bytes, capacity) = stream(random);
        if bytes.is_empty() || bytes.len() > SHORT || capacity > SHORT {
            continue;
        }
        left -= 1;
        list.push(Question::Feed { capacity, runs: cuts(random, &bytes) }.line());
    }
    let mut left = 200;
    while left > 0 {
        let case = state(random);
        // The header's count and value are kept to what a word can hold.
        if let Question::State { state: State { count, value, .. }, length, .. } = &case {
            if *count <= u64::from(u32::MAX) && *value <= u64::from(u32::MAX) && *length <= SHORT {
                left -= 1;
                list.push(case.line());
            }
        }
    }
    for length in [0, 1, 2, 3, 4, 5, 17, 255, 256] {
        let mut message = Vec::new();
        random.append(length, &mut message);
        for (room, start) in
            [(length + 4, 0), (length + 9, 3), (length + 3, 0), (length + 6, 3), (3, 3), (3, 4), (0, 0), (0, 1)]
        {
            list.push(Question::Fragment { message: message.clone(), room, start }.line());
        }
    }
}

/// Streams in five cuttings each: whole, byte by byte, and three at random.
fn cut_streams(random: &mut Random, list: &mut Vec<String>) {
    const LEAST: usize = 12;
    let mut truth = Truth::new();
    let mut left = 40;
    while left > 0 {
        let (mut bytes, capacity) = stream(random);
        // Shorter ones have few cuttings.
        if bytes.len() < LEAST || bytes.len() > SHORT || capacity > SHORT {
            continue;
        }
        left -= 1;
        // Else few would end inside a header or a fragment.
        if left % 2 == 0 {
            bytes.truncate(random.between(LEAST, bytes.len()));
        }
        let mut cuttings = vec![Vec::new(), vec![1; bytes.len()]];
        cuttings.extend((0..3).map(|_| run_lengths(random, bytes.len())));
        list.extend(alike(&mut truth, capacity, &bytes, &cuttings));
    }
}

/// A line for each cutting of a stream. They must all get the same answer.
pub fn alike(truth: &mut Truth, capacity: usize, bytes: &[u8], cuttings: &[Vec<usize>]) -> Vec<String> {
    let lines: Vec<String> = cuttings.iter().map(|lengths| lines::stream(capacity, bytes, lengths)).collect();
    let answers: Vec<String> = lines.iter().map(|line| answer(truth, line.as_bytes())).collect();
    for (line, said) in lines.iter().zip(&answers) {
        assert_eq!(*said, answers[0], "every cutting of a stream yields the same: {line}");
    }
    lines
}

fn pieces(random: &mut Random, list: &mut Vec<String>) {
    for length in [0, 1, 8, 21] {
        let mut bytes = Vec::new();
        random.append(length, &mut bytes);
        let text = hex(&bytes);
        for place in [0, 1, length / 2, length, length + 1, usize::MAX] {
            let rest = length.saturating_sub(place);
            for count in [0, 1, rest, rest + 1, usize::MAX] {
                list.push(format!("part {text} {place} {count}"));
            }
            for count in [0, 1, rest / 4, rest / 4 + 1, 1 << 62, usize::MAX] {
                list.push(format!("words {text} {place} {count}"));
            }
        }
    }
}

/// The file "sillyprog" of RFC 4506, section 7, item by item: its name, its kind, the interpreter, the owner and the data.
/// (RFC 5531 and RFC 1813 have no example in bytes.)
const EXAMPLE: &str = "0000000973696c6c7970726f6700000000000002000000046c697370000000046a6f686e000000062871756974290000";

fn example(list: &mut Vec<String>) {
    for (name, at) in [("nfsstring", 0), ("u32", 16), ("i32", 16), ("nfsstring", 20), ("nfsstring", 28), ("opaque", 36)] {
        list.push(format!("read {name} {at} {EXAMPLE}"));
    }
    for (place, count) in [(4, 9), (24, 4), (32, 4), (40, 6)] {
        list.push(format!("part {EXAMPLE} {place} {count}"));
    }
}

/// A message of each kind, plain and with pieces where it may have them, cut at every byte; of a result a success and a
/// failure; and replies that only the current reading takes. A `write` line refuses what is cut likewise. Then the body of a
/// call's credential: what is wanting there is wanting in the body.
fn cut_everywhere(list: &mut Vec<String>) {
    // Numbers of their own, so that the lines before stay as they are.
    let random = &mut Random::of(SEED, 1);
    for (kind, (name, shape)) in KINDS.iter().enumerate().take(MOUNTING_KINDS) {
        let mut own = Random::of(!SEED, kind as u64);
        let random = if kind < FIRST_KINDS { &mut *random } else { &mut own };
        let mut messages = match shape {
            Shape::Status { ok, fail, .. } => {
                let mut result = |status: u32, arm| [&status.to_be_bytes(), &longest(random, arm)[..]].concat();
                vec![result(0, ok), result(1, fail)]
            },
            _ => vec![longest(random, shape)],
        };
        messages.extend(only_current(name));
        for message in messages {
            list.extend((0..=message.len()).map(|end| read_line(kind, 0, &message[..end])));
            let (room, cut) = (message.len(), &message[..message.len() - 1]);
            list.push(format!("write {name} 0 {} {room} 0", hex(cut)));
        }
    }
    let body = with_pieces(random, &AUTH_UNIX, Style::Plain, CUT);
    for reading in Reading::BOTH {
        for end in 0..=body.len() {
            list.push(Question::Choose { reading, seen: false, room: 24, message: call_with(&body[..end]) }.line());
        }
    }
}

/// The longest of a few messages, which has most of what it may have.
fn longest(random: &mut Random, shape: &Shape) -> Vec<u8> {
    let few = (0..4).map(|_| with_pieces(random, shape, Style::Plain, CUT));
    few.max_by_key(Vec::len).expect("there are a few")
}
