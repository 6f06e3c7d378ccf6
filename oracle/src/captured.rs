//! Lines from what clients and servers really sent. A capture is a folder of streams: `NAME-c2s.bin` is what the client of a
//! connection sent and `NAME-s2c.bin` what its server did, fragment headers and all.
use std::collections::HashMap;
use std::fs;
use std::io;
use std::path::{Path, PathBuf};

use crate::answers::{Asked, Choice, Piece, BOUND};
use crate::cases::{run_lengths, Question, Room};
use crate::list::{alike, SEED};
use crate::random::Random;
use crate::shapes::{kind, Reading};
use crate::truth::Truth;
use crate::values::Walk;

/// A longer stream is not cut into bytes, because its line would have a length for each of them, and the list is to stay
/// small.
const CUT_INTO_BYTES: usize = 4_000;

/// Kinds that stand one after another.
type Form = &'static [&'static str];

/// What stands behind the `rpc_msg`, by program, version and procedure: the forms of a call's arguments, and those of its
/// results, of which the last is the form of a failure.
type Body = ([u32; 3], &'static [Form], &'static [Form]);

const BODIES: &[Body] = &[
    // portmap: NULL, GETPORT, GETADDR
    ([100_000, 2, 0], &[&[]], &[&[]]),
    ([100_000, 2, 3], &[&["u32", "u32", "u32", "u32"]], &[&["u32"]]),
    ([100_000, 4, 3], &[&["u32", "u32", "nfsstring", "nfsstring", "nfsstring"]], &[&["nfsstring"]]),
    // nfs: NULL, GETATTR, SETATTR, LOOKUP, ACCESS, READ, WRITE, CREATE, FSINFO, COMMIT
    ([100_003, 3, 0], &[&[]], &[&[]]),
    ([100_003, 3, 1], &[&["nfs_fh3"]], &[&["nfsstat3", "fattr3"], &["nfsstat3"]]),
    (
        [100_003, 3, 2],
        &[&["nfs_fh3", "sattr3", "bool"], &["nfs_fh3", "sattr3", "bool", "nfstime3"]],
        &[&["nfsstat3", "wcc_data"]],
    ),
    (
        [100_003, 3, 3],
        &[&["diropargs3"]],
        &[&["nfsstat3", "nfs_fh3", "post_op_attr", "post_op_attr"], &["nfsstat3", "post_op_attr"]],
    ),
    ([100_003, 3, 4], &[&["nfs_fh3", "u32"]], &[&["nfsstat3", "post_op_attr", "u32"], &["nfsstat3", "post_op_attr"]]),
    (
        [100_003, 3, 6],
        &[&["nfs_fh3", "u64", "u32"]],
        &[&["nfsstat3", "post_op_attr", "u32", "bool", "opaque"], &["nfsstat3", "post_op_attr"]],
    ),
    (
        [100_003, 3, 7],
        &[&["nfs_fh3", "u64", "u32", "u32", "opaque"]],
        &[&["nfsstat3", "wcc_data", "u32", "u32", "eight"], &["nfsstat3", "wcc_data"]],
    ),
    (
        [100_003, 3, 8],
        &[&["diropargs3", "u32", "sattr3"], &["diropargs3", "u32", "eight"]],
        &[&["nfsstat3", "post_op_fh3", "post_op_attr", "wcc_data"], &["nfsstat3", "wcc_data"]],
    ),
    ([100_003, 3, 19], &[&["nfs_fh3"]], &[&["nfsstat3", "fsinfo3"], &["nfsstat3", "post_op_attr"]]),
    ([100_003, 3, 21], &[&["nfs_fh3", "u64", "u32"]], &[&["nfsstat3", "wcc_data", "eight"], &["nfsstat3", "wcc_data"]]),
    // mount: NULL, MNT, a DUMP of nothing, and EXPORT
    ([100_005, 3, 0], &[&[]], &[&[]]),
    ([100_005, 3, 1], &[&["nfsstring"]], &[&["u32", "nfs_fh3", "words"], &["u32"]]),
    ([100_005, 3, 2], &[&[]], &[&["bool"]]),
    ([100_005, 3, 5], &[&[]], &[&["exports"]]),
];

/// The kinds that the arguments and the results of a procedure are as a whole, where there are such. The crate lacks these,
/// but it has the kinds of the forms, which must end at the same place.
const WHOLE: &[([u32; 3], [&str; 2])] = &[
    ([100_003, 3, 1], ["getattr3args", "getattr3res"]),
    ([100_003, 3, 2], ["setattr3args", "setattr3res"]),
    ([100_003, 3, 3], ["lookup3args", "lookup3res"]),
    ([100_003, 3, 6], ["read3args", "read3res"]),
    ([100_003, 3, 7], ["write3args", "write3res"]),
    ([100_000, 2, 3], ["mapping", "u32"]),
    ([100_005, 3, 1], ["dirpath", "mountres3"]),
];

/// The programs that are answered for besides NFS, and the room that the longest reply to one takes.
const ANSWERED: [u32; 2] = [100_000, 100_005];
const ROOM: usize = 32;
const ARGUMENTS: usize = 0;
const RESULTS: usize = 1;

/// The lines of all captures below a folder.
pub fn lines(folder: &Path) -> io::Result<Vec<String>> {
    let mut list = Vec::new();
    for capture in sorted(folder)?.into_iter().filter(|path| path.is_dir()) {
        for client in sorted(&capture)? {
            let Some(name) = client.to_str().and_then(|path| path.strip_suffix("-c2s.bin")) else { continue };
            connection(&fs::read(&client)?, &fs::read(format!("{name}-s2c.bin"))?, &mut list);
        }
    }
    Ok(list)
}

fn sorted(folder: &Path) -> io::Result<Vec<PathBuf>> {
    let mut paths = fs::read_dir(folder)?.map(|entry| Ok(entry?.path())).collect::<io::Result<Vec<PathBuf>>>()?;
    paths.sort();
    Ok(paths)
}

/// Both streams of one connection. What a reply answers is known by the call of the same `xid`.
fn connection(sent: &[u8], answered: &[u8], list: &mut Vec<String>) {
    let mut truth = Truth::new();
    let (mut calls, mut replies) = (HashMap::new(), HashMap::new());
    for call in stream(&mut truth, sent, list) {
        let arguments = judged(&mut truth, &call, list);
        for (reading, seen, room) in [
            (Reading::Crate, false, 24),
            (Reading::Crate, true, 24),
            (Reading::Crate, false, 0),
            (Reading::Current, false, 24),
        ] {
            list.push(Question::Choose { reading, seen, room, message: call.clone() }.line());
        }
        let [choice, in_current] = Reading::BOTH.map(|reading| truth.choose(reading, &call, false, &mut [0; 24]));
        assert_eq!(choice, in_current, "both readings choose the same for a captured call");
        if let Choice::HandOver { program, version, procedure, .. } = choice {
            if ANSWERED.contains(&program) {
                let mut out = [0; ROOM];
                let asked = truth.ask(&call, false, &mut out);
                list.push(Question::Ask { seen: false, room: ROOM, message: call.clone() }.line());
                if let (Asked::Reply(length), 0) = (asked, procedure) {
                    replies.insert(call[..4].to_vec(), out[..length].to_vec());
                }
            }
            if let Some(body) = BODIES.iter().find(|body| body.0 == [program, version, procedure]) {
                all_of(&mut truth, &call, arguments, body.1, list);
                as_one(&mut truth, &call, arguments, body.0, ARGUMENTS, list);
                let before = calls.insert(call[..4].to_vec(), body);
                assert!(before.is_none(), "no two calls of a captured connection have one xid");
            }
        }
    }
    for reply in stream(&mut truth, answered, list) {
        let results = judged(&mut truth, &reply, list);
        let in_current = read(&mut truth, &reply, 0, "current_rpc_msg", list);
        assert_eq!(results, in_current, "both readings of a captured reply end at the same place");
        list.push(Question::Choose { reading: Reading::Crate, seen: false, room: 24, message: reply.clone() }.line());
        if let Some(due) = replies.get(&reply[..4]) {
            assert_eq!(reply, *due, "what a captured server answers to procedure 0 is what is answered here");
        }
        if let Some(body) = calls.get(&reply[..4]) {
            if body.0 == [100_005, 3, 5] {
                let whole = truth.walk(Walk::Exports, &reply, results).expect("a captured list is taken");
                let list_of = Piece { place: results, count: whole[3] as usize };
                let room = reply.len() - results;
                list.push(Question::List { source: reply.clone(), list: list_of, room, start: 0 }.line());
            }
            all_of(&mut truth, &reply, results, body.2, list);
            as_one(&mut truth, &reply, results, body.0, RESULTS, list);
        }
    }
}

/// A stream fed whole, in runs of several lengths, byte by byte, and into a buffer that is one byte too short; and what it
/// yields in several cuttings, into both buffers. Gives its records: the crate's.
fn stream(truth: &mut Truth, bytes: &[u8], list: &mut Vec<String>) -> Vec<Vec<u8>> {
    let (records, too_long) = truth.records(bytes, BOUND);
    assert_eq!(too_long, None, "a captured record is not too long");
    let records: Vec<Vec<u8>> = records.complete.into_iter().map(|(record, _)| record).collect();
    let longest = records.iter().map(Vec::len).max().expect("a captured stream has a record");
    for lengths in [&[bytes.len()][..], &[1], &[3], &[5, 1, 64, 2, 7], &[97, 4, 1]] {
        list.push(Question::Feed { capacity: longest, runs: runs(bytes, lengths) }.line());
    }
    list.push(Question::Feed { capacity: longest - 1, runs: vec![bytes.to_vec()] }.line());
    // Numbers that depend on nothing but this stream, so that the lines of other captures stay as they are.
    let random = &mut Random::of(SEED, bytes.len() as u64);
    for capacity in [longest, longest - 1] {
        let mut cuttings = vec![Vec::new(), run_lengths(random, bytes.len())];
        if bytes.len() <= CUT_INTO_BYTES {
            cuttings.push(vec![1; bytes.len()]);
        }
        list.extend(alike(truth, capacity, bytes, &cuttings));
    }
    records
}

/// The bytes cut into runs of these lengths, in turn.
fn runs(mut bytes: &[u8], lengths: &[usize]) -> Vec<Vec<u8>> {
    let mut runs = Vec::new();
    for length in lengths.iter().cycle() {
        if bytes.is_empty() {
            break;
        }
        let (run, rest) = bytes.split_at(bytes.len().min(*length));
        runs.push(run.to_vec());
        bytes = rest;
    }
    runs
}

/// A record, read as an `rpc_msg` and written as a fragment again. Gives the place behind the `rpc_msg`.
fn judged(truth: &mut Truth, record: &[u8], list: &mut Vec<String>) -> usize {
    let next = read(truth, record, 0, "rpc_msg", list);
    list.push(Question::Fragment { message: record.to_vec(), room: record.len() + 4, start: 0 }.line());
    next
}

/// The first of these forms that is the rest of the record, kind by kind.
fn all_of(truth: &mut Truth, record: &[u8], place: usize, forms: &[Form], list: &mut Vec<String>) {
    let form = forms.iter().find(|form| end(truth, record, place, form) == Some(record.len()));
    let mut at = place;
    for name in *form.expect("what a captured call or reply says has a form, and nothing stands behind it") {
        at = read(truth, record, at, name, list);
    }
}

/// The rest of the record as one kind, where there is one for it.
fn as_one(truth: &mut Truth, record: &[u8], place: usize, procedure: [u32; 3], which: usize, list: &mut Vec<String>) {
    if let Some((_, kinds)) = WHOLE.iter().find(|(of, _)| *of == procedure) {
        let next = read(truth, record, place, kinds[which], list);
        assert_eq!(next, record.len(), "nothing stands behind what a captured call or reply says");
    }
}

/// Where these kinds end, one after another, if all are taken.
fn end(truth: &mut Truth, record: &[u8], place: usize, form: Form) -> Option<usize> {
    form.iter().try_fold(place, |at, name| {
        let took = truth.read(kind(name).expect("the kind is known"), record, at);
        took.ok().map(|took| took.next)
    })
}

/// One kind at a place; real peers send the published form. Gives the next place.
fn read(truth: &mut Truth, record: &[u8], at: usize, name: &str, list: &mut Vec<String>) -> usize {
    let kind = kind(name).expect("the kind is known");
    let took = truth.read(kind, record, at).expect("what was captured is taken");
    assert!(took.plain, "what was captured is in published form");
    list.push(Question::Read { kind: kind as u32, at, message: record.to_vec(), room: Room::Ample }.line());
    took.next
}
