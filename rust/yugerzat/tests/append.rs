//! What needs the feature `std`, but for streams: writing to the end of a `Vec`, and errors as std knows them.
#![cfg(feature = "std")]
use std::error::Error;
use std::io::{self, ErrorKind};

use yugerzat::*;

fn words(numbers: &[u32]) -> Vec<u8> {
    numbers.iter().flat_map(|n| n.to_be_bytes()).collect()
}

/// Appends to vectors of several lengths, one of them over the limit of a message, and compares with what `write` writes.
fn appends(
    append: impl Fn(&mut Vec<u8>) -> Result<(), Refusal>,
    write: impl Fn(&mut [u8], usize) -> Result<usize, Refusal>,
) {
    let mut due = [0xEE; 200];
    let size = write(&mut due, 0).expect("there is room");
    for before in [0, 1, 7, LIMIT + 3] {
        let mut out = vec![0x55; before];
        append(&mut out).expect("a vector has room");
        assert!(out[..before].iter().all(|byte| *byte == 0x55));
        assert_eq!(out[before..], due[..size]);
    }
}

/// Tries to append what is too long.
fn refuses(append: impl Fn(&mut Vec<u8>) -> Result<(), Refusal>) {
    let mut out = vec![0x55; 3];
    assert_eq!(append(&mut out), Err(Refusal::TooLong));
    assert_eq!(out, [0x55; 3]);
}

#[test]
fn values_are_appended_as_they_are_written() {
    let gids = words(&[27, 29]);
    let caller = AuthUnix { stamp: 7, machinename: b"abc", uid: 1000, gid: 100, gids: Words::new(&gids).unwrap() };
    let verf = Auth { flavor: AuthFlavor::Short, body: &[9; 5] };
    let call = Call { rpcvers: 2, prog: 100_003, vers: 3, proc: 6, cred: verf, verf };
    let reply = Reply::Accepted { verf, stat: AcceptStat::ProgMismatch { low: 2, high: 4 } };
    let failed = current::Reply::Accepted { verf, stat: current::AcceptStat::SystemErr };
    let name = Diropargs3 { dir: &[1; 7], name: b"notes" };
    let change = Sattr3 { size: Some(9), atime: SetTime::ToServerTime, ..Sattr3::default() };
    let attributes = Fattr3::read(&words(&[2, 1, 2, 3, 4, 5, 6, 7, 8, 9, 10, 11, 12, 13, 14, 15, 16, 17, 18, 19, 20]), 0);
    let attributes = attributes.unwrap().value;
    appends(|out| attributes.append(out), |out, start| attributes.write(out, start));
    appends(|out| change.append(out), |out, start| change.write(out, start));
    appends(|out| name.append(out), |out, start| name.write(out, start));
    appends(|out| caller.append(out), |out, start| caller.write(out, start));
    appends(|out| call.append(42, out), |out, start| call.write(42, out, start));
    appends(|out| reply.append(42, out), |out, start| reply.write(42, out, start));
    for body in [Body::Call(call), Body::Reply(reply)] {
        let message = Message { xid: 42, body };
        appends(|out| message.append(out), |out, start| message.write(out, start));
    }
    appends(|out| failed.append(42, out), |out, start| failed.write(42, out, start));
    for body in [current::Body::Call(call), current::Body::Reply(failed)] {
        let message = current::Message { xid: 42, body };
        appends(|out| message.append(out), |out, start| message.write(out, start));
    }
    let failed = Read3res::Failed(Nfsfail3::Io, Read3resfail { file_attributes: Some(attributes) });
    appends(|out| failed.append(out), |out, start| failed.write(out, start));
    let looked = Lookup3args { what: name };
    appends(|out| looked.append(out), |out, start| looked.write(out, start));
    for message in [&b""[..], b"abc"] {
        appends(|out| append_fragment(message, out), |out, start| write_fragment(message, out, start));
    }
}

/// The arguments and results in kinds.txt, as they are and through the enums over all procedures.
#[test]
fn arguments_and_results_are_appended_as_they_are_written() {
    let message = |kind: Kind| -> Vec<u8> {
        let table = include_str!("../../../kinds.txt").lines().filter(|line| !line.starts_with('#'));
        let mut rows = table.map(|row| row.split('|').map(str::trim).collect::<Vec<_>>());
        let row = rows.find(|row| row.get(1) == Some(&kind.name())).expect("every kind has a row");
        let digits: Vec<u8> = row[5].bytes().map(|digit| (digit as char).to_digit(16).expect("hex") as u8).collect();
        digits.chunks(2).map(|two| two[0] << 4 | two[1]).collect()
    };
    for procedure in Procedure::all() {
        let bytes = message(procedure.arguments());
        let arguments = Arguments::read(procedure, &bytes, 0).unwrap().value;
        appends(|out| arguments.append(out), |out, start| arguments.write(out, start));
        match arguments {
            Arguments::Getattr(value) => appends(|out| value.append(out), |out, start| value.write(out, start)),
            Arguments::Setattr(value) => appends(|out| value.append(out), |out, start| value.write(out, start)),
            Arguments::Lookup(value) => appends(|out| value.append(out), |out, start| value.write(out, start)),
            Arguments::Read(value) => appends(|out| value.append(out), |out, start| value.write(out, start)),
            Arguments::Write(value) => appends(|out| value.append(out), |out, start| value.write(out, start)),
            other => panic!("{other:?}"),
        }
        let bytes = message(procedure.results());
        let results = Results::read(procedure, &bytes, 0).unwrap().value;
        appends(|out| results.append(out), |out, start| results.write(out, start));
        match results {
            Results::Getattr(value) => appends(|out| value.append(out), |out, start| value.write(out, start)),
            Results::Setattr(value) => appends(|out| value.append(out), |out, start| value.write(out, start)),
            Results::Lookup(value) => appends(|out| value.append(out), |out, start| value.write(out, start)),
            Results::Read(value) => appends(|out| value.append(out), |out, start| value.write(out, start)),
            Results::Write(value) => appends(|out| value.append(out), |out, start| value.write(out, start)),
            other => panic!("{other:?}"),
        }
    }
}

#[test]
fn what_is_too_long_leaves_a_vector_as_it_was() {
    let long = vec![0; LIMIT + 4];
    let verf = Auth { flavor: AuthFlavor::Null, body: &long };
    refuses(|out| Diropargs3 { dir: &long[..LIMIT], name: b"" }.append(out));
    refuses(|out| AuthUnix { gids: Words::new(&long[..LIMIT]).unwrap(), ..AuthUnix::default() }.append(out));
    refuses(|out| Call { verf, ..Call::default() }.append(42, out));
    refuses(|out| Reply::Accepted { verf, stat: AcceptStat::Success }.append(42, out));
    refuses(|out| Message { xid: 42, body: Body::Call(Call { verf, ..Call::default() }) }.append(out));
    let failed = current::Reply::Accepted { verf, stat: current::AcceptStat::SystemErr };
    refuses(|out| failed.append(42, out));
    refuses(|out| current::Message { xid: 42, body: current::Body::Reply(failed) }.append(out));
    refuses(|out| Getattr3args { object: &long[..LIMIT] }.append(out));
    refuses(|out| Setattr3args { object: &long[..LIMIT], ..Setattr3args::default() }.append(out));
    refuses(|out| Lookup3args { what: Diropargs3 { dir: b"", name: &long[..LIMIT] } }.append(out));
    refuses(|out| Lookup3res::Ok(Lookup3resok { object: &long[..LIMIT], ..Lookup3resok::default() }).append(out));
    refuses(|out| Read3args { file: &long[..LIMIT], ..Read3args::default() }.append(out));
    refuses(|out| Read3res::Ok(Read3resok { data: &long[..LIMIT], ..Read3resok::default() }).append(out));
    let write = Write3args { file: b"", offset: 0, count: 0, stable: StableHow::Unstable, data: &long[..LIMIT] };
    refuses(|out| write.append(out));
    refuses(|out| Arguments::Write(write).append(out));
    refuses(|out| append_fragment(&long, out));
    refuses(|out| append_rewriting(Kind::U32, &long, 0, out).map(drop));
}

#[test]
fn rewritings_are_appended() {
    // A flag, a name and two headers, all of them loose; the first of these grows.
    let cases = [
        (Kind::Bool, words(&[0, 0xFFFF_FFFF]), words(&[1])),
        (Kind::Nfsstring, words(&[0, 1, 0x6101_0203]), words(&[1, 0x6100_0000])),
        (Kind::RpcMsg, words(&[0, 42, 2]), words(&[42, 0, 0, 0, 0, 0, 0, 0, 0, 0])),
        (Kind::CurrentRpcMsg, words(&[0, 42, 1, 0, 0, 0, 6]), words(&[42, 1, 0, 0, 0, 4])),
    ];
    for (kind, message, due) in cases {
        let mut out = vec![0x55; 3];
        let done = append_rewriting(kind, &message, 4, &mut out).unwrap();
        assert_eq!(done, Rewritten { next: message.len(), plain: false, size: due.len() });
        assert_eq!((&out[..3], &out[3..]), (&[0x55; 3][..], &due[..]));
        // What is in published form stays as it is.
        let again = append_rewriting(kind, &out.clone(), 3, &mut out).unwrap();
        assert_eq!(again, Rewritten { next: 3 + due.len(), plain: true, size: due.len() });
        assert_eq!(out[3..3 + due.len()], out[3 + due.len()..]);

        let before = out.clone();
        assert_eq!(append_rewriting(kind, &message, message.len() + 1, &mut out), Err(Refusal::PastEnd));
        let ends = append_rewriting(kind, &message, message.len(), &mut out);
        assert_eq!(ends, Err(Refusal::Ends { place: message.len(), wanting: 4 }));
        assert_eq!(out, before);
    }
}

#[test]
fn refusals_are_errors() {
    let cases = [
        (Refusal::Ends { place: 0, wanting: 1 }, ErrorKind::UnexpectedEof),
        (Refusal::Undeclared { place: 0 }, ErrorKind::InvalidData),
        (Refusal::TooLong, ErrorKind::InvalidData),
        (Refusal::Outside, ErrorKind::InvalidInput),
        (Refusal::NoRoom { needed: 4 }, ErrorKind::WriteZero),
        (Refusal::StateDoesNotFit, ErrorKind::InvalidInput),
        (Refusal::FragmentTooLong, ErrorKind::InvalidData),
        (Refusal::ReplyCame, ErrorKind::InvalidData),
        (Refusal::PastEnd, ErrorKind::InvalidInput),
        (Refusal::LongPath { place: Some(4) }, ErrorKind::InvalidData),
        (Refusal::LongPath { place: None }, ErrorKind::InvalidInput),
    ];
    for (refusal, kind) in cases {
        let error = io::Error::from(refusal);
        assert_eq!((error.kind(), error.to_string()), (kind, refusal.to_string()));
        // The refusal is not lost in it.
        let inner = error.get_ref().and_then(|inner| inner.downcast_ref::<Refusal>());
        assert_eq!(inner, Some(&refusal));
    }
    let fed = FeedError { refusal: Refusal::FragmentTooLong, used: 4 };
    assert_eq!(fed.source().map(ToString::to_string), Some(Refusal::FragmentTooLong.to_string()));
    assert_eq!(io::Error::from(fed).kind(), ErrorKind::InvalidData);
    let unknown: Box<dyn Error> = "sattr".parse::<Kind>().unwrap_err().into();
    assert_eq!(unknown.to_string(), "there is no kind of message of that name or number");
    let unknown: Box<dyn Error> = Procedure::try_from(0).unwrap_err().into();
    assert_eq!(unknown.to_string(), "there is no known procedure of that number");
    let unknown: Box<dyn Error> = Nfsfail3::try_from(0).unwrap_err().into();
    assert_eq!(unknown.to_string(), "that number is not declared");
    let new: Box<dyn Error> = AcceptStat::try_from(current::AcceptStat::SystemErr).unwrap_err().into();
    assert_eq!(new.to_string(), "that is a case of the current reading alone");
    let failure: Box<dyn Error> = Nfsfail3::Stale.into();
    assert_eq!(failure.to_string(), "NFS3ERR_STALE");
}
