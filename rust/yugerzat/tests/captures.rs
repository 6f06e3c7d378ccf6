//! The relay of `examples/relay.rs` over what real programs sent: every call passes byte for byte, as plain. Only where
//! fragments begin may change. Arguments and results are read into their types, and written back as they came. Both readings
//! of replies take all of them alike.
//!
//! The captures are those of the folder that CAPTURES names, or else of `captures` in the folder `shared` beside the
//! repository. Where they are not there, the test says so and ends.
#![cfg(feature = "std")]
use std::collections::{BTreeMap, HashMap};
use std::fs;

use yugerzat::mount::{ask, Asked, Dirpath, Exports, Mapping, Mountres3, LONGEST_REPLY};
use yugerzat::{
    choose, current, judge, AcceptStat, Arguments, AuthFlavor, AuthUnix, Body, Kind, Message, Reading, Records, Reply,
    Results,
};

use common::files;

mod common;

#[allow(dead_code)]
#[path = "../examples/relay.rs"]
mod relay;

/// The records of a stream, without the help of the library; and how many fragments there were.
fn records(mut stream: &[u8]) -> (Vec<Vec<u8>>, usize) {
    let (mut records, mut record, mut fragments) = (Vec::new(), Vec::new(), 0);
    while !stream.is_empty() {
        let header = u32::from_be_bytes([stream[0], stream[1], stream[2], stream[3]]);
        let (fragment, rest) = stream[4..].split_at((header & 0x7FFF_FFFF) as usize);
        record.extend(fragment);
        stream = rest;
        fragments += 1;
        if header >> 31 == 1 {
            records.push(std::mem::take(&mut record));
        }
    }
    assert!(record.is_empty());
    (records, fragments)
}

#[test]
fn captured_calls_pass_the_relay_byte_for_byte() {
    let (mut calls, mut pieces, mut callers) = (0, 0, 0);
    let files = match files("c2s") {
        Some(files) => files,
        None => return,
    };
    for file in &files {
        let stream = fs::read(file).unwrap();
        let (due, fragments) = records(&stream);
        let found: Vec<Vec<u8>> = Records::new(&stream[..]).map(Result::unwrap).collect();
        assert_eq!(found, due, "{}", file.display());

        let (mut clean, mut says) = (Vec::new(), Vec::new());
        assert!(relay::relay(&stream[..], &mut clean, &mut says).unwrap(), "{}", file.display());
        assert_eq!(String::from_utf8(says).unwrap(), "", "{}: none is loose or refused", file.display());
        assert_eq!(records(&clean), (due.clone(), due.len()), "{}", file.display());

        for record in &due {
            match Message::read(record, 0).unwrap().value.body {
                Body::Call(call) if call.cred.flavor == AuthFlavor::Unix => {
                    assert!(AuthUnix::read(call.cred.body).unwrap().plain, "{}", file.display());
                    callers += 1;
                },
                Body::Call(_) => {},
                Body::Reply(_) => panic!("{}: a client sent a reply", file.display()),
            }
        }
        calls += due.len();
        pieces += fragments;
    }
    println!("{calls} calls in {pieces} fragments of {} files, {callers} of them by AUTH_UNIX: all passed", files.len());
}

#[test]
fn captured_replies_are_written_as_they_were_read() {
    let mut replies = 0;
    let files = match files("s2c") {
        Some(files) => files,
        None => return,
    };
    for file in &files {
        for record in records(&fs::read(file).unwrap()).0 {
            let read = Message::read(&record, 0).unwrap();
            assert!(read.plain && matches!(read.value.body, Body::Reply(_)), "{}", file.display());
            let mut written = Vec::new();
            read.value.append(&mut written).unwrap();
            assert_eq!(written, record[..read.next], "{}", file.display());
            replies += 1;
        }
    }
    println!("{replies} replies of {} files: all headers came back", files.len());
}

#[test]
fn captured_arguments_and_results_are_written_as_they_were_read() {
    let files = match files("c2s") {
        Some(files) => files,
        None => return,
    };
    // How many calls of each procedure there were, and how many of their results.
    let mut seen = BTreeMap::new();
    for file in &files {
        let mut called = HashMap::new();
        for record in records(&fs::read(file).unwrap()).0 {
            let header = Message::read(&record, 0).unwrap();
            let procedure = match header.value.body {
                Body::Call(call) => call.procedure(),
                Body::Reply(_) => panic!("{}: a client sent a reply", file.display()),
            };
            if let Some(procedure) = procedure {
                let arguments = Arguments::read(procedure, &record, header.next).unwrap();
                assert!(arguments.plain && arguments.next == record.len(), "{}: {arguments:?}", file.display());
                let mut written = Vec::new();
                arguments.value.append(&mut written).unwrap();
                assert_eq!(written, record[header.next..], "{}", file.display());
                seen.entry(procedure).or_insert((0, 0)).0 += 1;
                called.insert(header.value.xid, procedure);
            }
        }
        let replies = file.to_string_lossy().replace("-c2s.bin", "-s2c.bin");
        for record in records(&fs::read(&replies).unwrap()).0 {
            let header = Message::read(&record, 0).unwrap();
            let procedure = match header.value.body {
                Body::Reply(Reply::Accepted { stat: AcceptStat::Success, .. }) => called.get(&header.value.xid),
                _ => None,
            };
            if let Some(procedure) = procedure {
                let results = Results::read(*procedure, &record, header.next).unwrap();
                assert!(results.plain && results.next == record.len(), "{replies}: {results:?}");
                let mut written = Vec::new();
                results.value.append(&mut written).unwrap();
                assert_eq!(written, record[header.next..], "{replies}");
                seen.entry(*procedure).or_insert((0, 0)).1 += 1;
            }
        }
    }
    for (procedure, (calls, replies)) in &seen {
        println!("{procedure}: {calls} calls and {replies} results came back");
    }
    assert!(!seen.is_empty(), "the captures have no call of a known procedure");
}

#[test]
fn captured_mounts_and_ports_are_written_as_they_were_read() {
    let files = match files("c2s") {
        Some(files) => files,
        None => return,
    };
    // How many calls of each procedure there were, and how many of their results.
    let mut seen = BTreeMap::new();
    for file in &files {
        let mut called = HashMap::new();
        for record in records(&fs::read(file).unwrap()).0 {
            let mut made = [0; LONGEST_REPLY];
            let asked = ask(&record, false, &mut made).unwrap();
            let mut written = Vec::new();
            let (name, xid, arguments) = match asked {
                Asked::Mnt { xid, path, next, .. } => {
                    Dirpath { path }.append(&mut written).unwrap();
                    ("MNT", xid, next)
                },
                Asked::Export { xid, next, .. } => ("EXPORT", xid, next),
                Asked::Getport { xid, mapping, next, .. } => {
                    assert!([Mapping::TCP, Mapping::UDP].contains(&mapping.prot), "{}: {mapping:?}", file.display());
                    mapping.append(&mut written).unwrap();
                    ("GETPORT", xid, next)
                },
                Asked::Replied { length } => {
                    assert!(Message::read(&made[..length], 0).unwrap().plain, "{}", file.display());
                    continue;
                },
                Asked::HandOver { prog: 100_003, .. } => continue,
                other => panic!("{}: {other:?}", file.display()),
            };
            assert_eq!(
                (&record[arguments - written.len()..], arguments),
                (&written[..], record.len()),
                "{}",
                file.display()
            );
            seen.entry(name).or_insert((0, 0)).0 += 1;
            called.insert(xid, name);
        }
        let replies = file.to_string_lossy().replace("-c2s.bin", "-s2c.bin");
        for record in records(&fs::read(&replies).unwrap()).0 {
            let header = Message::read(&record, 0).unwrap();
            let mut written = Vec::new();
            let name = match called.get(&header.value.xid) {
                Some(name) => *name,
                None => continue,
            };
            match name {
                "MNT" => {
                    let result = Mountres3::read(&record, header.next).unwrap();
                    assert!(result.plain && matches!(result.value, Mountres3::Ok { .. }), "{replies}: {result:?}");
                    result.value.append(&mut written).unwrap();
                },
                "EXPORT" => {
                    let list = Exports::read(&record, header.next).unwrap();
                    assert!(list.plain && !list.value.is_empty(), "{replies}: {list:?}");
                    written = list.value.to_vec().unwrap();
                },
                _ => written.extend_from_slice(&record[header.next..header.next + 4]),
            }
            assert_eq!(written, record[header.next..], "{replies}");
            seen.entry(name).or_insert((0, 0)).1 += 1;
        }
    }
    for (name, (calls, replies)) in &seen {
        println!("{name}: {calls} calls and {replies} results came back");
    }
    assert!(!seen.is_empty(), "the captures have no call of mounts or ports");
}

#[test]
fn captured_messages_are_the_same_in_both_readings() {
    let mut messages = 0;
    for direction in ["c2s", "s2c"] {
        for file in files(direction).unwrap_or_default() {
            for record in records(&fs::read(&file).unwrap()).0 {
                let Reading { value, next, plain } = Message::read(&record, 0).unwrap();
                let read = current::Message::read(&record, 0).unwrap();
                assert_eq!(read, Reading { value: value.into(), next, plain }, "{}", file.display());
                let mut written = Vec::new();
                read.value.append(&mut written).unwrap();
                assert_eq!(written, record[..next], "{}", file.display());
                assert_eq!(judge(Kind::CurrentRpcMsg, &record, 0), judge(Kind::RpcMsg, &record, 0), "{}", file.display());
                for seen in [false, true] {
                    assert_eq!(current::choose(&record, seen), choose(&record, seen), "{}", file.display());
                }
                messages += 1;
            }
        }
    }
    println!("{messages} messages are the same in both readings");
}
