//! Every example prints what its first comment says.
#![cfg(feature = "std")]
use yugerzat::{append_fragment, LIMIT};

#[allow(dead_code)]
#[path = "../examples/judge_stream.rs"]
mod judge_stream;
#[allow(dead_code)]
#[path = "../examples/pass_setattr.rs"]
mod pass_setattr;
#[allow(dead_code)]
#[path = "../examples/relay.rs"]
mod relay;

/// What an example's comment says that it prints: the lines of its text block behind the command.
fn said(source: &str) -> String {
    let block = source.split("//! ```text\n").nth(1).and_then(|rest| rest.split("//! ```\n").next()).expect("a text block");
    let mut lines = block.lines().map(|line| line.strip_prefix("//! ").expect("a line of the comment"));
    assert!(lines.next().expect("a command").starts_with("$ cargo run --example "));
    lines.map(|line| format!("{line}\n")).collect()
}

/// A record of each list of words.
fn stream(messages: &[&[u32]]) -> Vec<u8> {
    let mut stream = Vec::new();
    for message in messages {
        let message: Vec<u8> = message.iter().flat_map(|word| word.to_be_bytes()).collect();
        append_fragment(&message, &mut stream).unwrap();
    }
    stream
}

#[test]
fn judge_stream_prints_what_it_says() {
    let (get, look) = ([1, 0, 2, 100_003, 3, 1], [2, 0, 2, 100_003, 3, 3]);
    let unix = |pad: u32| [1, 24, 7, 3, 0x6162_6300 + pad, 1000, 100, 0, 0, 0];
    let lookup = [4, 0x0A0B_0C0D, 5, 0x6E6F_7465, 0x7300_0000];
    let mut stream = stream(&[
        &[&get[..], &[0, 0, 0, 0, 4, 0x0A0B_0C0D]].concat(),
        &[&look[..], &unix(0), &lookup].concat(),
        &[&[3], &look[1..], &unix(0xFF), &lookup].concat(),
        &[3, 1, 0, 0, 0, 9],
        &[4, 1, 0, 0, 0, 5],
        &[5, 1, 1, 1, 5],
        &[6, 0, 2, 100_003, 3, 1, 6, 0, 0, 0],
        &[7, 0, 2],
    ]);
    stream.extend([0x80, 0, 0, 8, 1, 2, 3]);
    let mut says = Vec::new();
    assert!(!judge_stream::judge(&stream[..], &mut says).unwrap());
    assert_eq!(String::from_utf8(says).unwrap(), said(include_str!("../examples/judge_stream.rs")));
}

#[test]
fn pass_setattr_prints_what_it_says() {
    let mut says = Vec::new();
    pass_setattr::show(&mut says).unwrap();
    assert_eq!(String::from_utf8(says).unwrap(), said(include_str!("../examples/pass_setattr.rs")));
}

#[test]
fn pass_setattr_passes_a_guard_on() {
    let call = [42, 0, 2, 100_003, 3, 2, 0, 0, 0, 0, 4, 0x0A0B_0C0D, 0, 0, 0, 0, 0, 0];
    let bytes = |words: &[u32]| words.iter().flat_map(|word| word.to_be_bytes()).collect::<Vec<u8>>();
    let passed = |guard: &[u32]| pass_setattr::pass(&bytes(&[&call, guard].concat()), &mut std::io::sink());
    assert_eq!(passed(&[0]).unwrap(), bytes(&[&call[..], &[0]].concat()));
    assert_eq!(passed(&[7, 8, 9]).unwrap(), bytes(&[&call[..], &[1, 8, 9]].concat()));
    assert!(passed(&[]).is_err() && passed(&[1, 8]).is_err());
    // A reply, and a GETATTR.
    assert!(pass_setattr::pass(&bytes(&[42, 1, 0, 0, 0, 0]), &mut std::io::sink()).is_err());
    assert!(pass_setattr::pass(&bytes(&[42, 0, 2, 100_003, 3, 1, 0, 0, 0, 0, 0]), &mut std::io::sink()).is_err());
}

#[test]
fn relay_prints_what_it_says() {
    let null = [0, 2, 100_003, 3, 0];
    let setattr = |flag: u32| [0, 2, 100_003, 3, 2, 0, 0, 0, 0, 4, 0x0A0B_0C0D, 0, 0, 0, flag, 0, 0, 0, 0, 0];
    let calls = stream(&[
        &[&[1], &null[..], &[0, 0, 0, 0, 77]].concat(),
        &[&[2], &null[..], &[2, 1, 0xAA00_0001, 0, 0, 78]].concat(),
        &[&[3], &setattr(u32::MAX)[..]].concat(),
        &[&[4], &null[..], &[6, 0, 0, 0, 79]].concat(),
        &[5, 1, 0, 0, 0, 0],
        &[6, 0, 2, 100_003, 3, 6, 0, 0, 0, 0, 4, 0x0A0B_0C0D],
        &[&[7], &null[..], &[0, 0, 0, 0]].concat(),
    ]);
    let (mut clean, mut says) = (Vec::new(), Vec::new());
    assert!(!relay::relay(&calls[..], &mut clean, &mut says).unwrap());
    assert_eq!(String::from_utf8(says).unwrap(), said(include_str!("../examples/relay.rs")));
    let due = stream(&[
        &[&[1], &null[..], &[0, 0, 0, 0, 77]].concat(),
        &[&[2], &null[..], &[2, 1, 0xAA00_0000, 0, 0, 78]].concat(),
        &[&[3], &setattr(1)[..]].concat(),
        &[&[7], &null[..], &[0, 0, 0, 0]].concat(),
    ]);
    assert_eq!(clean, due);

    // What is clean passes again as it is.
    let (mut again, mut says) = (Vec::new(), Vec::new());
    assert!(relay::relay(&clean[..], &mut again, &mut says).unwrap());
    assert_eq!((again, says), (clean, vec![]));
}

/// The relay's answer to one call: what goes out, if it does, and whether it was called loose.
fn relayed(call: &[u32]) -> (Vec<u8>, bool) {
    let (mut clean, mut says) = (Vec::new(), Vec::new());
    relay::relay(&stream(&[call])[..], &mut clean, &mut says).unwrap();
    (clean, says.ends_with(b"loose\n"))
}

#[test]
fn relay_cleans_the_arguments_of_every_known_procedure() {
    // Behind the header: a handle of one byte with dirty padding, and what else the procedure takes.
    let arguments: [(u32, &[u32]); 5] = [
        (1, &[]),
        (2, &[0, 0, 0, 0, 0, 0, 0]),
        (3, &[4, 0x6E6F_7465]),
        (6, &[0, 0, 512]),
        (7, &[0, 0, 4, 2, 4, 0x6461_7461]),
    ];
    for (procedure, arguments) in arguments {
        let call = |program: u32, version: u32, pad: u32| {
            let header = [42, 0, 2, program, version, procedure, 0, 0, 0, 0];
            [&header[..], &[1, 0xAA00_0000 + pad], arguments].concat()
        };
        assert_eq!(relayed(&call(100_003, 3, 0xFF)), (stream(&[&call(100_003, 3, 0)]), true), "{procedure}");
        assert_eq!(relayed(&call(100_003, 3, 0)), (stream(&[&call(100_003, 3, 0)]), false), "{procedure}");
        // Words behind the arguments go out as they came.
        let more = |pad: u32| [&call(100_003, 3, pad)[..], &[u32::MAX]].concat();
        assert_eq!(relayed(&more(1)), (stream(&[&more(0)]), true), "{procedure}");
        // Another program or version has the number for another procedure.
        for (program, version) in [(100_003, 2), (100_003, 4), (100_005, 3), (100_000, 2)] {
            let other = call(program, version, 0xFF);
            assert_eq!(relayed(&other), (stream(&[&other]), false), "{procedure} of {program}, {version}");
        }
    }
    // ACCESS is not known here: a handle and a word, as they came.
    let access = [42, 0, 2, 100_003, 3, 4, 0, 0, 0, 0, 1, 0xAA00_00FF, 63];
    assert_eq!(relayed(&access), (stream(&[&access]), false));
}

#[test]
fn relay_refuses_a_call_that_grows_over_the_limit() {
    // Eight bytes of header become forty: the record has room for them, or not.
    for (length, passes) in [(LIMIT - 32, true), (LIMIT - 31, false)] {
        let mut record = vec![0; length];
        record[7] = 2;
        let (mut calls, mut clean) = (Vec::new(), Vec::new());
        append_fragment(&record, &mut calls).unwrap();
        assert_eq!(relay::relay(&calls[..], &mut clean, &mut std::io::sink()).unwrap(), passes);
        assert_eq!(clean.len(), if passes { LIMIT + 4 } else { 0 });
    }
}

#[test]
fn relay_stops_where_the_stream_is_cut() {
    let calls = stream(&[&[1, 0, 2, 100_003, 3, 0, 0, 0, 0, 0], &[2, 0, 2, 100_003, 3, 0, 0, 0, 0, 0]]);
    for cut in 0..calls.len() {
        let mut clean = Vec::new();
        let ended = relay::relay(&calls[..cut], &mut clean, &mut std::io::sink());
        assert_eq!(ended.is_ok(), cut % 44 == 0, "{cut}");
        assert_eq!(clean, calls[..cut / 44 * 44]);
    }
}

#[test]
fn the_relay_is_short() {
    let code = include_str!("../examples/relay.rs").lines().map(str::trim);
    let code = code.filter(|line| !line.is_empty() && !line.starts_with("//")).count();
    println!("the relay has {code} lines of code");
    assert!(code <= 50);
}
