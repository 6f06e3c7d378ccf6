//! Which field was dirty: each kind with pieces, with the padding of each piece dirty by itself.
use yugerzat::{judge, marks, rewrite, Kind, Refusal};

/// Bytes from hex, spaces ignored.
fn hex(text: &str) -> Vec<u8> {
    let digits: Vec<u8> = text.bytes().filter(|b| *b != b' ').collect();
    let number = |two: &[u8]| u8::from_str_radix(std::str::from_utf8(two).unwrap(), 16).unwrap();
    digits.chunks(2).map(number).collect()
}

/// A message of each case with pieces, in published form: of each piece with padding its name, and where its padding begins and ends.
const MESSAGES: &[(Kind, &str, &[(&str, usize, usize)])] = &[
    (Kind::Opaque, "00000001 AA000000", &[("opaque", 5, 8)]),
    (Kind::Nfsstring, "00000002 AABB0000", &[("nfsstring", 6, 8)]),
    (
        Kind::AuthUnix,
        "00000001 00000003 61626300 00000002 00000003 00000001 00000004",
        &[("machinename", 11, 12)],
    ),
    (Kind::OpaqueAuth, "00000001 00000001 AA000000", &[("body", 9, 12)]),
    (
        Kind::RpcMsg,
        "0000002A 00000000 00000002 000186A3 00000003 00000001 00000001 00000001 AA000000 00000000 00000002 BBCC0000",
        &[("cred.body", 33, 36), ("verf.body", 46, 48)],
    ),
    (
        Kind::RpcMsg,
        "0000002A 00000001 00000000 00000000 00000001 AA000000 00000000",
        &[("verf.body", 21, 24)],
    ),
    (
        Kind::CurrentRpcMsg,
        "0000002A 00000001 00000000 00000000 00000001 AA000000 00000005",
        &[("verf.body", 21, 24)],
    ),
    (Kind::NfsFh3, "00000003 AABBCC00", &[("data", 7, 8)]),
    (Kind::PostOpFh3, "00000001 00000003 AABBCC00", &[("handle.data", 11, 12)]),
    (Kind::Diropargs3, "00000001 AA000000 00000001 BB000000", &[("dir.data", 5, 8), ("name", 13, 16)]),
    (Kind::Getattr3args, "00000001 AA000000", &[("object.data", 5, 8)]),
    (
        Kind::Lookup3args,
        "00000001 AA000000 00000001 BB000000",
        &[("what.dir.data", 5, 8), ("what.name", 13, 16)],
    ),
    (
        Kind::Lookup3res,
        "00000000 00000001 AA000000 00000000 00000000",
        &[("object.data", 9, 12)],
    ),
    (
        Kind::Read3res,
        "00000000 00000000 00000001 00000001 00000001 AA000000",
        &[("data", 21, 24)],
    ),
    (
        Kind::Write3args,
        "00000001 AA000000 0000000000000000 00000001 00000002 00000001 BB000000",
        &[("file.data", 5, 8), ("data", 29, 32)],
    ),
    (Kind::Dirpath, "00000002 2F610000", &[("dirpath", 6, 8)]),
    (
        Kind::Mountres3,
        "00000000 00000001 AA000000 00000001 00000001",
        &[("fhandle", 9, 12)],
    ),
    (
        Kind::Exports,
        "00000001 00000001 2F000000 00000001 00000001 62000000 00000000 00000000",
        &[("exports", 9, 12), ("exports", 21, 24)],
    ),
];

#[test]
fn just_the_dirty_field_is_named() {
    for (kind, message, pieces) in MESSAGES {
        let message = hex(message);
        let found = marks(*kind, &message, 0).expect("a message");
        assert_eq!((found.next, found.plain), (message.len(), true), "{kind}");
        assert_eq!(found.dirty_fields().count(), 0, "{kind}");
        for (name, from, to) in *pieces {
            assert!(found.pieces().any(|piece| piece == (*name, true)), "{kind}: {name}");
            for place in *from..*to {
                let mut dirty = message.clone();
                dirty[place] = 1;
                let found = marks(*kind, &dirty, 0).expect("a message");
                assert_eq!((found.next, found.plain), (message.len(), false), "{kind}: {name}");
                assert!(found.dirty_fields().eq([*name]), "{kind}: {name}");
                // The mark is no part of the message.
                let mut out = vec![0; message.len()];
                assert_eq!(rewrite(*kind, &dirty, 0, &mut out).map(|done| done.size), Ok(message.len()));
                assert_eq!(out, message, "{kind}: {name}");
            }
        }
    }
}

#[test]
fn of_an_odd_flag_or_a_stray_tag_no_field_is_dirty() {
    for (kind, message, pieces) in [
        (Kind::Bool, "00000002", 0),
        (Kind::PostOpFh3, "FFFFFFFF 00000003 AABBCC00", 1),
        (Kind::RpcMsg, "0000002A 00000002", 2),
        (Kind::ReplyBody, "00000002", 1),
        (Kind::Exports, "00000005 00000001 2F000000 00000000 00000000", 1),
    ] {
        let found = marks(kind, &hex(message), 0).expect("a message");
        assert!(!found.plain && found.dirty_fields().next().is_none(), "{kind}");
        assert_eq!(found.pieces().count(), pieces, "{kind}");
    }
}

#[test]
fn words_are_always_clean() {
    let found = marks(Kind::Words, &hex("00000001 00000007"), 0).expect("a list");
    assert!(found.plain && found.pieces().eq([("words", true)]));
    let found = marks(Kind::Mountres3, &hex("00000000 00000001 AA0000FF 00000001 00000001"), 0).expect("a result");
    assert!(found.pieces().eq([("fhandle", false), ("auth_flavors", true)]));
}

#[test]
fn marking_answers_as_judging_does() {
    for kind in Kind::all() {
        for message in ["", "00000001", "00000001 AA0000FF", "00000002 00000002 00000002 00000002"] {
            let message = hex(message);
            for at in 0..=message.len() + 1 {
                let (judged, marked) = (judge(kind, &message, at), marks(kind, &message, at));
                assert_eq!(judged.map(|found| (found.next, found.plain)), marked.map(|found| (found.next, found.plain)), "{kind} at {at}");
            }
        }
    }
    assert_eq!(marks(Kind::Opaque, &[0, 0, 0, 1, 2], 0), Err(Refusal::Ends { place: 0, wanting: 3 }));
}
