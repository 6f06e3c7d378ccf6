//! Every function at its limits, with every byte of a lent buffer looked at.
use yugerzat::*;

/// Bytes from hex, spaces ignored.
fn hex(text: &str) -> Vec<u8> {
    let digits: Vec<u8> = text.bytes().filter(|b| *b != b' ').collect();
    let number = |two: &[u8]| u8::from_str_radix(std::str::from_utf8(two).unwrap(), 16).unwrap();
    digits.chunks(2).map(number).collect()
}

fn words(numbers: &[u32]) -> Vec<u8> {
    numbers.iter().flat_map(|n| n.to_be_bytes()).collect()
}

fn refused<T: std::fmt::Debug>(answer: Result<T, Refusal>, due: Refusal) {
    assert_eq!(answer.expect_err("a refusal is due"), due);
}

fn ended<T: std::fmt::Debug>(answer: Result<T, Refusal>, place: usize, wanting: usize) {
    refused(answer, Refusal::Ends { place, wanting });
}

/// The rows of kinds.txt: number, name, and a message in published form.
fn table() -> impl Iterator<Item = (u32, &'static str, Vec<u8>)> {
    let rows = include_str!("../../../kinds.txt").lines().filter(|line| !line.is_empty() && !line.starts_with('#'));
    rows.map(|row| match row.split('|').map(str::trim).collect::<Vec<_>>()[..] {
        [number, name, _, _, _, message] => (number.parse().expect("a number"), name, hex(message)),
        _ => panic!("a row has six columns: {row}"),
    })
}

const FATTR3: &str = "00000002 000001ED 00000003 00000004 00000005 0000000000000006 0000000000000007 00000008 00000009 \
    000000000000000A 000000000000000B 0000000C 0000000D 0000000E 0000000F 00000010 00000011";
const SATTR3: &str =
    "00000001 000001A4 00000001 000003E8 00000001 000003E9 00000001 0000000000001000 00000002 00000007 00000008 \
    00000002 00000009 0000000A";

#[test]
fn kinds_have_their_numbers_and_names() {
    assert!(Kind::all().map(|kind| (kind.number(), kind.name())).eq(table().map(|(number, name, _)| (number, name))));
    assert_eq!(Kind::Bool.to_string(), "bool");
    assert_eq!(format!("{:>8}|{:<8}", Kind::Bool, Kind::RpcMsg), "    bool|rpc_msg ");
    assert_eq!((Kind::RpcMsg.number(), Kind::RpcMsg.name()), (20, "rpc_msg"));
    assert_eq!((Kind::Symlinkdata3.number(), Kind::Symlinkdata3.name()), (46, "symlinkdata3"));
    assert_eq!((Kind::Write3res.number(), Kind::Write3res.name()), (58, "write3res"));
    assert_eq!((Kind::CurrentRpcMsg.number(), Kind::CurrentRpcMsg.name()), (66, "current_rpc_msg"));
    assert_eq!((Kind::Dirpath.number(), Kind::Dirpath.name()), (67, "dirpath"));
    assert_eq!((Kind::Mapping.number(), Kind::Mapping.name()), (71, "mapping"));
}

#[test]
fn kinds_are_found_by_number_and_name() {
    assert_eq!(Kind::all().len(), table().count());
    for kind in Kind::all() {
        assert_eq!(Kind::try_from(kind.number()), Ok(kind));
        assert_eq!(kind.name().parse(), Ok(kind));
    }
    for number in [Kind::all().len() as u32, 255, u32::MAX] {
        assert!(Kind::try_from(number).is_err());
    }
    for name in ["", "sattr", "sattr33", "Sattr3", "SATTR3", " sattr3", "44"] {
        assert!(name.parse::<Kind>().is_err(), "{name:?}");
    }
    let unknown = Kind::try_from(72).unwrap_err();
    assert_eq!(unknown.to_string(), "there is no kind of message of that name or number");
    assert_eq!(Kind::all().next_back(), Some(Kind::Mapping));
}

#[test]
fn every_kind_is_judged_and_rewritten() {
    for (kind, (_, _, message)) in Kind::all().zip(table()) {
        let size = message.len();
        let mut out = vec![0xEE; size + 1];
        assert_eq!(judge(kind, &message, 0), Ok(Judged { next: size, plain: true, size }), "{kind}");
        assert_eq!(rewrite(kind, &message, 0, &mut out), Ok(Rewritten { next: size, plain: true, size }), "{kind}");
        assert_eq!((&out[..size], out[size]), (&message[..], 0xEE), "{kind}");

        let mut out = vec![0xEE; size - 1];
        for room in 0..size {
            refused(rewrite(kind, &message, 0, &mut out[..room]), Refusal::NoRoom { needed: size });
        }
        for cut in 0..size {
            let refusal = rewrite(kind, &message[..cut], 0, &mut out).expect_err("it is cut");
            assert_eq!(judge(kind, &message[..cut], 0), Err(refusal), "{kind} cut at {cut}");
            match refusal {
                Refusal::Ends { place, wanting } => {
                    assert!(place <= cut && (1..=size - cut).contains(&wanting), "{kind} cut at {cut}: {refusal}");
                },
                other => panic!("{kind} cut at {cut}: {other}"),
            }
        }
        // A kind begins with a word or with eight bytes; `what_is_wanting_finishes_the_item` sees which.
        let first = judge(kind, &[], 0).expect_err("it is empty").wanting();
        let first =
            first.filter(|count| [4, 8].contains(count)).unwrap_or_else(|| panic!("{kind} wants {first:?} of nothing"));
        ended(judge(kind, &[], 0), 0, first);
        ended(judge(kind, &message, size), size, first);
        ended(rewrite(kind, &[], 0, &mut out), 0, first);
        ended(rewrite(kind, &message, size, &mut out), size, first);
        for past in [size + 1, usize::MAX] {
            refused(judge(kind, &message, past), Refusal::PastEnd);
            refused(rewrite(kind, &message, past, &mut out), Refusal::PastEnd);
        }
        assert!(out.iter().all(|b| *b == 0xEE), "{kind}: a refusal writes nothing");
    }
}

#[test]
fn refusals_say_how_many_bytes_are_wanting() {
    let cases = [
        (Kind::U32, "000000", 1),
        (Kind::U64, "", 8),
        (Kind::Eight, "01020304 05", 3),
        (Kind::Opaque, "0000", 2),
        (Kind::Opaque, "00000001 AA0000", 1),
        (Kind::Opaque, "FFFFFFFF", 4_294_967_296),
        (Kind::Words, "000000", 1),
        (Kind::Words, "00000003 00000001 0000", 6),
        (Kind::Words, "FFFFFFFF", 17_179_869_180),
    ];
    for (kind, message, wanting) in cases {
        ended(judge(kind, &hex(message), 0), 0, wanting);
        ended(rewrite(kind, &hex(message), 0, &mut [0; 8]), 0, wanting);
    }
}

/// Cuts a message at every place; its bytes are read from place `first` on. As long as fewer bytes have come than are
/// wanting, the others are. Once all have come, the item is whole, and what was read ends there, or the next item begins
/// there; or only the length word is, where that was cut.
fn finishes(what: &str, message: &[u8], first: usize, read: impl Fn(&[u8]) -> Result<usize, Refusal>) {
    for cut in 0..message.len() {
        let (place, wanting) = match read(&message[..cut]) {
            Err(Refusal::Ends { place, wanting }) => (place, wanting),
            other => panic!("{what} cut at {cut}: {other:?}"),
        };
        for more in 1..wanting {
            ended(read(&message[..cut + more]), place, wanting - more);
        }
        let end = first + cut + wanting;
        match read(&message[..cut + wanting]) {
            Ok(next) => assert_eq!(next, end, "{what} cut at {cut}"),
            Err(Refusal::Ends { place: then, .. }) => {
                assert!(then == end || then == place && end == place + 4, "{what} cut at {cut}: then at {then}");
            },
            Err(refusal) => panic!("{what} cut at {cut}: {refusal}"),
        }
    }
}

#[test]
fn what_is_wanting_finishes_the_item() {
    for (kind, (_, name, message)) in Kind::all().zip(table()) {
        finishes(name, &message, 0, |bytes| rewrite(kind, bytes, 0, &mut [0; 160]).map(|done| done.next));
        finishes(name, &message, 0, |bytes| judge(kind, bytes, 0).map(|judged| judged.next));
    }
    let sample = |kind: Kind| table().nth(kind.number() as usize).expect("every kind has a row").2;
    finishes("Fattr3", &hex(FATTR3), 0, |bytes| Fattr3::read(bytes, 0).map(|read| read.next));
    finishes("Sattr3", &hex(SATTR3), 0, |bytes| Sattr3::read(bytes, 0).map(|read| read.next));
    finishes("Diropargs3", &sample(Kind::Diropargs3), 0, |bytes| Diropargs3::read(bytes, 0).map(|read| read.next));
    finishes("Message", &sample(Kind::RpcMsg), 0, |bytes| Message::read(bytes, 0).map(|read| read.next));
    for kind in [Kind::RpcMsg, Kind::CurrentRpcMsg] {
        finishes("current::Message", &sample(kind), 0, |bytes| current::Message::read(bytes, 0).map(|read| read.next));
    }
    let message = sample(Kind::Dirpath);
    finishes("Dirpath", &message, 0, |bytes| mount::Dirpath::read(bytes, 0).map(|read| read.next));
    let message = sample(Kind::Mountres3);
    finishes("Mountres3", &message, 0, |bytes| mount::Mountres3::read(bytes, 0).map(|read| read.next));
    let message = sample(Kind::Exports);
    finishes("Exports", &message, 0, |bytes| mount::Exports::read(bytes, 0).map(|read| read.next));
    let message = sample(Kind::Mapping);
    finishes("Mapping", &message, 0, |bytes| mount::Mapping::read(bytes, 0).map(|read| read.next));
    for procedure in Procedure::all() {
        let (arguments, results) = (sample(procedure.arguments()), sample(procedure.results()));
        finishes(procedure.name(), &arguments, 0, |bytes| Arguments::read(procedure, bytes, 0).map(|read| read.next));
        finishes(procedure.name(), &results, 0, |bytes| Results::read(procedure, bytes, 0).map(|read| read.next));
    }

    // A call with this body of an AUTH_UNIX credential, and a null verifier.
    let call = |body: &[u8]| {
        let mut message = words(&[42, 0, 2, 100_003, 3, 6, 1, body.len() as u32]);
        message.extend(body);
        message.resize((message.len() + 3) / 4 * 4 + 8, 0);
        message
    };
    let caller = sample(Kind::AuthUnix);
    finishes("choose", &call(&caller), 0, |bytes| {
        choose(bytes, false).map(|choice| match choice {
            Choice::HandOver { arguments, .. } => arguments,
            other => panic!("a call of NFS is handed over: {other:?}"),
        })
    });
    // Where the body alone is cut, the bytes are wanting in the body. Places are places of the body, or of the message.
    finishes("AuthUnix", &caller, 0, |body| AuthUnix::read(body).map(|read| read.next));
    finishes("choose by AUTH_UNIX", &caller, 32, |body| choose(&call(body), false).map(|_| 32 + body.len()));
}

#[test]
fn a_message_has_a_largest_size() {
    let mut message = vec![0; LIMIT + 1];
    message[3] = 1;
    let mut out = [0xEE; 4];
    assert_eq!(rewrite(Kind::U32, &message[..LIMIT], 0, &mut out), Ok(Rewritten { next: 4, plain: true, size: 4 }));
    assert_eq!(judge(Kind::U32, &message[..LIMIT], LIMIT - 4), Ok(Judged { next: LIMIT, plain: true, size: 4 }));
    refused(judge(Kind::U32, &message, 0), Refusal::TooLong);
    refused(rewrite(Kind::U32, &message, 0, &mut out), Refusal::TooLong);
    refused(Fattr3::read(&message, 0), Refusal::TooLong);
    refused(Sattr3::read(&message, 0), Refusal::TooLong);
    refused(Diropargs3::read(&message, 0), Refusal::TooLong);
    refused(Message::read(&message, 0), Refusal::TooLong);
    refused(current::Message::read(&message, 0), Refusal::TooLong);
    refused(AuthUnix::read(&message), Refusal::TooLong);
    refused(choose(&message, false), Refusal::TooLong);
    refused(current::choose(&message, false), Refusal::TooLong);
    refused(mount::ask(&message, false, &mut out), Refusal::TooLong);
    refused(mount::Dirpath::read(&message, 0), Refusal::TooLong);
    refused(mount::Mountres3::read(&message, 0), Refusal::TooLong);
    refused(mount::Exports::read(&message, 0), Refusal::TooLong);
    refused(mount::Mapping::read(&message, 0), Refusal::TooLong);
    refused(write_fragment(&message, &mut out, 0), Refusal::TooLong);
    refused(Assembler::new(LIMIT + 1), Refusal::TooLong);
    refused(Assembler::new(usize::MAX), Refusal::TooLong);
    assert!(Assembler::new(LIMIT).is_ok());
}

#[test]
fn a_whole_write_call_fills_the_limit() {
    // Header, handle, offset, count, FILE_SYNC and the length of the data: 68 bytes.
    let count = LIMIT as u32 - 68;
    let mut message = words(&[42, 0, 2, 100_003, 3, 7, 0, 0, 0, 0, 4, 0x0A0B_0C0D, 0, 512, count, 2, count]);
    message.resize(LIMIT, 0xAB);
    let arguments = match choose(&message, false) {
        Ok(Choice::HandOver { proc: 7, arguments, .. }) => arguments,
        other => panic!("{other:?}"),
    };
    let read = Write3args::read(&message, arguments).unwrap();
    assert_eq!((read.next, read.plain, read.value.data.len()), (LIMIT, true, LIMIT - 68));

    // One byte past it, and the message is too long for both.
    message.push(0);
    refused(choose(&message, false), Refusal::TooLong);
    refused(Write3args::read(&message, arguments), Refusal::TooLong);
}

#[test]
fn what_is_written_has_a_largest_size() {
    let long = vec![0; LIMIT + 4];
    let mut out = vec![0xEE; LIMIT + 8];
    let auth = |count: usize| Auth { flavor: AuthFlavor::Short, body: &long[..count] };
    // The largest of each: the limit less what stands around it.
    let call = |cred: usize, verf: usize| Call { cred: auth(cred), verf: auth(verf), ..Call::default() };
    let reply = |verf: usize| Reply::Accepted { verf: auth(verf), stat: AcceptStat::Success };
    let current = |verf: usize| current::Reply::Accepted { verf: auth(verf), stat: current::AcceptStat::SystemErr };
    let unix = |name: usize, gids: usize| AuthUnix {
        machinename: &long[..name],
        gids: Words::new(&long[..gids * 4]).expect("whole words"),
        ..AuthUnix::default()
    };
    let dir = |dir: usize, name: usize| Diropargs3 { dir: &long[..dir], name: &long[..name] };
    let half = LIMIT / 2;
    assert_eq!(call(LIMIT - 40, 0).write(1, &mut out, 0), Ok(LIMIT));
    assert_eq!(call(0, LIMIT - 40).write(1, &mut out, 1), Ok(LIMIT + 1));
    assert_eq!(call(half - 20, half - 20).write(1, &mut out, 0), Ok(LIMIT));
    assert_eq!(reply(LIMIT - 24).write(1, &mut out, 0), Ok(LIMIT));
    assert_eq!(current(LIMIT - 24).write(1, &mut out, 0), Ok(LIMIT));
    assert_eq!(unix(LIMIT - 20, 0).write(&mut out, 0), Ok(LIMIT));
    assert_eq!(unix(0, LIMIT / 4 - 5).write(&mut out, 0), Ok(LIMIT));
    assert_eq!(dir(LIMIT - 8, 0).write(&mut out, 0), Ok(LIMIT));
    assert_eq!(dir(half - 4, half - 4).write(&mut out, 0), Ok(LIMIT));
    assert_eq!(out[LIMIT + 1..], [0xEE; 7]);
    for (what, answer) in [
        ("cred", call(LIMIT - 39, 0).write(1, &mut out, 0)),
        ("verf", call(0, LIMIT - 39).write(1, &mut out, 0)),
        ("both", call(half - 20, half - 19).write(1, &mut out, 0)),
        ("cred alone", call(LIMIT + 1, 0).write(1, &mut out, 0)),
        ("verf alone", call(0, LIMIT + 1).write(1, &mut out, 0)),
        ("reply", reply(LIMIT - 23).write(1, &mut out, 0)),
        ("reply's verf", reply(LIMIT + 1).write(1, &mut out, 0)),
        ("current reply", current(LIMIT - 23).write(1, &mut out, 0)),
        ("current reply's verf", current(LIMIT + 1).write(1, &mut out, 0)),
        ("name", unix(LIMIT - 19, 0).write(&mut out, 0)),
        ("name alone", unix(LIMIT + 1, 0).write(&mut out, 0)),
        ("gids", unix(0, LIMIT / 4 - 4).write(&mut out, 0)),
        ("gids alone", unix(0, LIMIT / 4 + 1).write(&mut out, 0)),
        ("dir", dir(LIMIT - 7, 0).write(&mut out, 0)),
        ("dir alone", dir(LIMIT + 1, 0).write(&mut out, 0)),
        ("file", dir(0, LIMIT + 1).write(&mut out, 0)),
    ] {
        assert_eq!(answer, Err(Refusal::TooLong), "{what}");
    }
    // Without room it is the same: what is too long can have none.
    refused(dir(LIMIT, 0).write(&mut [], 0), Refusal::TooLong);
    refused(dir(LIMIT, 0).write(&mut [], 1), Refusal::PastEnd);
}

#[test]
fn loose_messages_are_taken_as_meant() {
    let mut out = [0; 64];
    let flag = rewrite(Kind::Bool, &hex("FFFFFFFF"), 0, &mut out).unwrap();
    assert_eq!((flag.plain, &out[..4]), (false, &[0, 0, 0, 1][..]));
    let dirty = rewrite(Kind::Opaque, &hex("00000005 68656C6C 6F000001"), 0, &mut out).unwrap();
    assert_eq!((dirty.plain, dirty.size, out[11]), (false, 12, 0));
    let denied = words(&[42, 1, 1, 7]);
    let denied = Message::read(&denied, 0).unwrap();
    let due = Body::Reply(Reply::RpcMismatch { low: 0, high: 0 });
    assert_eq!((denied.value.body, denied.plain), (due, false));
    // The longest that a rewriting grows: eight bytes become forty.
    let stray = words(&[42, 2]);
    assert_eq!(judge(Kind::RpcMsg, &stray, 0), Ok(Judged { next: 8, plain: false, size: 40 }));
}

#[test]
fn attributes_are_read_and_written() {
    let message = hex(FATTR3);
    let read = Fattr3::read(&message, 0).unwrap();
    let due = Fattr3 {
        ftype: Ftype3::Dir,
        mode: 0o755,
        nlink: 3,
        uid: 4,
        gid: 5,
        size: 6,
        used: 7,
        rdev: Specdata3 { specdata1: 8, specdata2: 9 },
        fsid: 10,
        fileid: 11,
        atime: Nfstime3 { seconds: 12, nseconds: 13 },
        mtime: Nfstime3 { seconds: 14, nseconds: 15 },
        ctime: Nfstime3 { seconds: 16, nseconds: 17 },
    };
    assert_eq!(read, Reading { value: due, next: 84, plain: true });
    let mut out = [0xEE; 90];
    assert_eq!(due.write(&mut out, 3), Ok(87));
    assert_eq!((&out[..3], &out[3..87], &out[87..]), (&[0xEE; 3][..], &message[..], &[0xEE; 3][..]));
    let mut short = [0xEE; 86];
    refused(due.write(&mut short, 3), Refusal::NoRoom { needed: 84 });
    refused(due.write(&mut short, 87), Refusal::PastEnd);
    refused(due.write(&mut [], 0), Refusal::NoRoom { needed: 84 });
    assert_eq!(short, [0xEE; 86]);
    refused(Fattr3::read(&words(&[9, 8]), 4), Refusal::Undeclared { place: 4 });
    ended(Fattr3::read(&message[..83], 0), 80, 1);
    for number in 1..=7 {
        let mut other = message.clone();
        other[3] = number;
        let read = Fattr3::read(&other, 0).unwrap();
        assert_eq!(read.value.ftype as u8, number);
        assert_eq!(read.value.write(&mut out, 0), Ok(84));
        assert_eq!(out[..84], other);
    }
    // Every field at its largest.
    let most = Nfstime3 { seconds: u32::MAX, nseconds: u32::MAX };
    let most = Fattr3 {
        ftype: Ftype3::Fifo,
        mode: u32::MAX,
        nlink: u32::MAX,
        uid: u32::MAX,
        gid: u32::MAX,
        size: u64::MAX,
        used: u64::MAX,
        rdev: Specdata3 { specdata1: u32::MAX, specdata2: u32::MAX },
        fsid: u64::MAX,
        fileid: u64::MAX,
        atime: most,
        mtime: most,
        ctime: most,
    };
    assert_eq!(most.write(&mut out, 0), Ok(84));
    assert!(out[4..84].iter().all(|byte| *byte == 0xFF));
    assert_eq!(Fattr3::read(&out, 0).unwrap().value, most);
}

#[test]
fn changes_are_read_and_written() {
    let message = hex(SATTR3);
    let due = Sattr3 {
        mode: Some(0o644),
        uid: Some(1000),
        gid: Some(1001),
        size: Some(4096),
        atime: SetTime::ToClientTime(Nfstime3 { seconds: 7, nseconds: 8 }),
        mtime: SetTime::ToClientTime(Nfstime3 { seconds: 9, nseconds: 10 }),
    };
    assert_eq!(Sattr3::read(&message, 0), Ok(Reading { value: due, next: 60, plain: true }));
    let mut out = [0xEE; 61];
    assert_eq!(due.write(&mut out, 0), Ok(60));
    assert_eq!((&out[..60], out[60]), (&message[..], 0xEE));
    refused(due.write(&mut [0; 59], 0), Refusal::NoRoom { needed: 60 });
    refused(due.write(&mut [0; 60], 61), Refusal::PastEnd);

    // Every choice of what is set, there and back.
    for set in 0..144_u32 {
        let on = |bit: u32| (set % 16) >> bit & 1 == 1;
        let time = |how: u32| match how {
            0 => SetTime::DontChange,
            1 => SetTime::ToServerTime,
            _ => SetTime::ToClientTime(Nfstime3 { seconds: u32::MAX, nseconds: set }),
        };
        let change = Sattr3 {
            mode: on(0).then_some(u32::MAX),
            uid: on(1).then_some(set),
            gid: on(2).then_some(0),
            size: on(3).then_some(u64::MAX),
            atime: time(set / 16 % 3),
            mtime: time(set / 48),
        };
        let end = change.write(&mut out, 0).unwrap();
        assert_eq!(Sattr3::read(&out[..end], 0), Ok(Reading { value: change, next: end, plain: true }));
    }
    refused(Sattr3::read(&words(&[0, 0, 0, 0, 0, 3]), 0), Refusal::Undeclared { place: 20 });
}

#[test]
fn names_are_read_and_written() {
    let message = hex("00000004 0A0B0C0D 00000005 68656C6C 6F0000FF");
    let read = Diropargs3::read(&message, 0).unwrap();
    let due = Diropargs3 { dir: &[10, 11, 12, 13], name: b"hello" };
    assert_eq!(read, Reading { value: due, next: 20, plain: false });
    // Nothing is copied: the pieces lie in the message.
    assert!(std::ptr::eq(read.value.dir, &message[4..8]) && std::ptr::eq(read.value.name, &message[12..17]));
    let mut out = [0xEE; 20];
    assert_eq!(due.write(&mut out, 0), Ok(20));
    assert_eq!(out[..], hex("00000004 0A0B0C0D 00000005 68656C6C 6F000000"));
    refused(due.write(&mut [0; 19], 0), Refusal::NoRoom { needed: 20 });
    refused(due.write(&mut [0; 19], 20), Refusal::PastEnd);
    // From two buffers, of which one is empty.
    let (dir, name) = (vec![7; 3], Vec::new());
    assert_eq!(Diropargs3 { dir: &dir, name: &name }.write(&mut out, 8), Ok(20));
    assert_eq!(out[8..], hex("00000003 07070700 00000000"));
    assert_eq!(Diropargs3::default().write(&mut out, 12), Ok(20));
    assert_eq!(out[12..], [0; 8]);
}

#[test]
fn words_are_whole() {
    let bytes = [0, 0, 0, 7, 0xFF, 0xFF, 0xFF, 0xFE, 0, 0, 1, 0];
    for count in 0..=bytes.len() {
        let found = Words::new(&bytes[..count]);
        assert_eq!(found.is_some(), count % 4 == 0, "{count}");
        assert_eq!(found.map_or(0, Words::len), if count % 4 == 0 { count / 4 } else { 0 });
    }
    let all = Words::new(&bytes).unwrap();
    assert_eq!(all.as_bytes(), bytes);
    assert!(all.iter().eq([7, 0xFFFF_FFFE, 256]));
    assert!(all.iter().rev().eq([256, 0xFFFF_FFFE, 7]));
    assert!(all.into_iter().skip(1).eq([0xFFFF_FFFE, 256]));
    assert_eq!((all.iter().len(), all.is_empty(), Words::default().is_empty()), (3, false, true));
    assert_eq!(format!("{all:?}"), "[7, 4294967294, 256]");
}

#[test]
fn headers_are_read_and_written() {
    let null = Auth::default();
    let short = Auth { flavor: AuthFlavor::Short, body: &[1, 2, 3] };
    let accepted = |stat: AcceptStat| Reply::Accepted { verf: null, stat };
    let cases = [
        (vec![42, 1, 0, 0, 0, 0], accepted(AcceptStat::Success)),
        (vec![42, 1, 0, 0, 0, 1], accepted(AcceptStat::ProgUnavail)),
        (vec![42, 1, 0, 0, 0, 2, 3, u32::MAX], accepted(AcceptStat::ProgMismatch { low: 3, high: u32::MAX })),
        (vec![42, 1, 0, 0, 0, 3], accepted(AcceptStat::ProcUnavail)),
        (vec![42, 1, 0, 0, 0, 4], accepted(AcceptStat::GarbageArgs)),
        (vec![42, 1, 0, 2, 3, 0x0102_0300, 0], Reply::Accepted { verf: short, stat: AcceptStat::Success }),
        (vec![42, 1, 1, 0, 2, 3], Reply::RpcMismatch { low: 2, high: 3 }),
        (vec![42, 1, 1, 1, 1], Reply::AuthError(AuthStat::BadCred)),
        (vec![42, 1, 1, 1, 2], Reply::AuthError(AuthStat::RejectedCred)),
        (vec![42, 1, 1, 1, 3], Reply::AuthError(AuthStat::BadVerf)),
        (vec![42, 1, 1, 1, 4], Reply::AuthError(AuthStat::RejectedVerf)),
        (vec![42, 1, 1, 1, 5], Reply::AuthError(AuthStat::TooWeak)),
    ];
    for (numbers, reply) in cases {
        let message = words(&numbers);
        let due = Message { xid: 42, body: Body::Reply(reply) };
        assert_eq!(Message::read(&message, 0), Ok(Reading { value: due, next: message.len(), plain: true }));

        let mut out = vec![0xEE; message.len() + 3];
        assert_eq!(reply.write(42, &mut out, 2), Ok(message.len() + 2));
        assert_eq!((&out[..2], &out[2..message.len() + 2], out[message.len() + 2]), (&[0xEE; 2][..], &message[..], 0xEE));
        let mut again = vec![0xEE; message.len()];
        assert_eq!(due.write(&mut again, 0), Ok(message.len()));
        assert_eq!(again, message);

        let mut untouched = vec![0xEE; message.len()];
        refused(reply.write(42, &mut untouched, 1), Refusal::NoRoom { needed: message.len() });
        refused(reply.write(42, &mut untouched, message.len() + 1), Refusal::PastEnd);
        assert!(untouched.iter().all(|byte| *byte == 0xEE));
    }
    refused(Message::read(&words(&[42, 1, 1, 1, 6]), 0), Refusal::Undeclared { place: 16 });
    refused(Message::read(&words(&[42, 0, 2, 7, 1, 0, 4, 0, 0, 0]), 0), Refusal::Undeclared { place: 24 });
    ended(Message::read(&words(&[42, 0, 2]), 0), 12, 4);
    refused(Message::read(&words(&[42]), 5), Refusal::PastEnd);
}

#[test]
fn calls_are_written_from_two_sources_and_their_callers_read() {
    let gids = words(&[27, 29]);
    let caller = AuthUnix { stamp: 7, machinename: b"abc", uid: 1000, gid: 100, gids: Words::new(&gids).unwrap() };
    let mut body = [0xEE; 34];
    assert_eq!(caller.write(&mut body, 1), Ok(33));
    assert_eq!(body[..], hex("EE 00000007 00000003 61626300 000003E8 00000064 00000002 0000001B 0000001D EE"));
    refused(caller.write(&mut body, 3), Refusal::NoRoom { needed: 32 });
    refused(caller.write(&mut body, 35), Refusal::PastEnd);
    let body = &body[1..33];
    assert_eq!(AuthUnix::read(body), Ok(Reading { value: caller, next: 32, plain: true }));

    let token = vec![9; 5];
    let call = Call {
        rpcvers: 2,
        prog: 100_003,
        vers: 3,
        proc: 6,
        cred: Auth { flavor: AuthFlavor::Unix, body },
        verf: Auth { flavor: AuthFlavor::Short, body: &token },
    };
    let mut out = [0xEE; 82];
    assert_eq!(call.write(u32::MAX, &mut out, 1), Ok(81));
    assert_eq!((out[0], out[81]), (0xEE, 0xEE));
    let mut due = words(&[u32::MAX, 0, 2, 100_003, 3, 6, 1, 32]);
    due.extend(body);
    due.extend(words(&[2, 5, 0x0909_0909, 0x0900_0000]));
    assert_eq!(out[1..81], due);

    let read = Message::read(&out, 1).unwrap();
    let message = Message { xid: u32::MAX, body: Body::Call(call) };
    assert_eq!(read, Reading { value: message, next: 81, plain: true });
    let mut again = [0; 80];
    assert_eq!(message.write(&mut again, 0), Ok(80));
    assert_eq!(again[..], due);
    match read.value.body {
        Body::Call(back) => assert_eq!(AuthUnix::read(back.cred.body).unwrap().value, caller),
        Body::Reply(_) => panic!("{read:?}"),
    }

    ended(AuthUnix::read(&body[..31]), 20, 1);
    ended(AuthUnix::read(&[]), 0, 4);
    // Bytes left over in the body are ignored, and dirt in the name's padding is seen.
    let mut dirty = body.to_vec();
    dirty[11] = 1;
    dirty.extend([1, 2, 3]);
    assert_eq!(AuthUnix::read(&dirty), Ok(Reading { value: caller, next: 32, plain: false }));

    refused(call.write(0, &mut out[..79], 0), Refusal::NoRoom { needed: 80 });
    refused(call.write(0, &mut out, 3), Refusal::NoRoom { needed: 80 });
    refused(call.write(0, &mut out, 83), Refusal::PastEnd);
    assert_eq!(out[1..81], due);
}

#[test]
fn programs_are_chosen() {
    let nfs = words(&[42, 0, 2, 100_003, 3, 6, 0, 0, 0, 0]);
    let due = Choice::HandOver { prog: 100_003, vers: 3, proc: 6, arguments: 40, caller: None };
    assert_eq!(choose(&nfs, false), Ok(due));
    assert_eq!(choose(&nfs, true), Ok(Choice::Silence));
    let unix = words(&[42, 0, 2, 100_005, 3, 1, 1, 32, 9, 2, 0x6869_0000, 1, 2, 2, 4, 5, 0, 0]);
    let gids = words(&[4, 5]);
    let caller = AuthUnix { stamp: 9, machinename: b"hi", uid: 1, gid: 2, gids: Words::new(&gids).unwrap() };
    let due = Choice::HandOver { prog: 100_005, vers: 3, proc: 1, arguments: 72, caller: Some(caller) };
    assert_eq!(choose(&unix, false), Ok(due));

    let reply = |numbers: &[u32]| Ok(Choice::Reply(words(numbers).try_into().expect("24 bytes")));
    assert_eq!(choose(&words(&[42, 0, 2, 7, 3, 6, 0, 0, 0, 0]), false), reply(&[42, 1, 0, 0, 0, 1]));
    assert_eq!(choose(&words(&[42, 0, 3, 100_003, 3, 6, 0, 0, 0, 0]), true), reply(&[42, 1, 1, 0, 0, 0]));
    refused(choose(&words(&[42, 1, 0, 0, 0, 0]), false), Refusal::ReplyCame);
    refused(choose(&words(&[42, 0, 2, 7, 3, 6, 4, 0, 0, 0]), false), Refusal::Undeclared { place: 24 });
    ended(choose(&words(&[42, 0]), false), 8, 4);
    // The credential's body lacks its list of groups, and the message lacks nothing.
    let short = words(&[42, 0, 2, 100_005, 3, 1, 1, 16, 9, 0, 1, 2, 0, 0]);
    ended(choose(&short, false), 48, 4);
    assert_eq!(Message::read(&short, 0).map(|read| read.next), Ok(short.len()));
}

#[test]
fn records_are_assembled_however_the_stream_is_cut() {
    let stream = hex("00000002 ABCD 00000000 80000001 EF 80000000 77");
    for first in 0..stream.len() {
        for second in first..stream.len() {
            let mut buf = [0xEE; 3];
            let mut assembler = Assembler::new(3).unwrap();
            let mut records = Vec::new();
            for mut run in [&stream[..first], &stream[first..second], &stream[second..]] {
                loop {
                    match assembler.feed(run, &mut buf).unwrap() {
                        Fed::More { used } => {
                            assert_eq!(used, run.len());
                            break;
                        },
                        Fed::Complete { length, used } => {
                            records.push(buf[..length].to_vec());
                            run = &run[used..];
                        },
                    }
                }
            }
            assert_eq!(records, [hex("ABCDEF"), vec![]]);
        }
    }
}

#[test]
fn an_assembler_says_what_is_wanting() {
    let stream = hex("00000002 ABCD 80000001 EF");
    // Bytes wanting and placed, and header bytes, after each byte.
    let due = [(3, 0, 1), (2, 0, 2), (1, 0, 3), (2, 0, 0), (1, 1, 0), (4, 2, 0), (3, 2, 1), (2, 2, 2), (1, 2, 3), (1, 2, 0)];
    let mut buf = [0; 3];
    let mut assembler = Assembler::new(3).unwrap();
    assert_eq!((assembler.wanting(), assembler.placed(), assembler.header()), (4, 0, 0));
    for (byte, due) in stream.iter().zip(due) {
        assert_eq!(assembler.feed(&[*byte], &mut buf), Ok(Fed::More { used: 1 }));
        assert_eq!((assembler.wanting(), assembler.placed(), assembler.header()), due);
    }
    assert_eq!(assembler.feed(&stream[10..], &mut buf), Ok(Fed::Complete { length: 3, used: 1 }));
    assert_eq!(assembler, Assembler::new(3).unwrap());
}

#[test]
fn a_fragment_that_is_too_long_stops_the_assembler() {
    let mut buf = [0xEE; 4];
    let mut assembler = Assembler::new(4).unwrap();
    assert_eq!(assembler.capacity(), 4);
    let (six, seven) = (Refusal::StateDoesNotFit, Refusal::FragmentTooLong);
    assert_eq!(assembler.feed(&[0x80], &mut buf[..3]), Err(FeedError { refusal: six, used: 0 }));
    assert!(!assembler.is_stopped());
    let stopped = assembler.feed(&hex("00000002 ABCD 80000003 01"), &mut buf);
    assert_eq!(stopped, Err(FeedError { refusal: seven, used: 10 }));
    assert_eq!((assembler.placed(), assembler.is_stopped(), assembler.wanting()), (2, true, 0));
    assert_eq!(buf, [0xAB, 0xCD, 0xEE, 0xEE]);
    assert_eq!(assembler.feed(&[0x80], &mut buf), Err(FeedError { refusal: seven, used: 0 }));
    let stopped = stopped.unwrap_err();
    assert_eq!(stopped.to_string(), "refusal 7: a fragment would pass the end of the record buffer, after 10 bytes");
    assert_eq!(Refusal::from(stopped), seven);
}

#[test]
fn what_is_written_as_a_fragment_is_assembled() {
    let message: Vec<u8> = (0..LIMIT).map(|n| (n % 251) as u8).collect();
    let mut out = vec![0xEE; LIMIT + 5];
    assert_eq!(write_fragment(&message, &mut out, 0), Ok(LIMIT + 4));
    assert_eq!(out[LIMIT + 4], 0xEE);
    let mut buf = vec![0; LIMIT];
    let mut assembler = Assembler::new(LIMIT).unwrap();
    assert_eq!(assembler.feed(&out, &mut buf), Ok(Fed::Complete { length: LIMIT, used: LIMIT + 4 }));
    assert!(buf == message);
    assert_eq!(write_fragment(&[], &mut out, 1), Ok(5));
    refused(write_fragment(&[1], &mut [0; 4], 0), Refusal::NoRoom { needed: 5 });
    refused(write_fragment(&[1], &mut [0; 4], 5), Refusal::PastEnd);
}

#[test]
fn refusals_say_what_they_mean() {
    let all = [
        Refusal::Ends { place: 4, wanting: 3 },
        Refusal::Undeclared { place: 8 },
        Refusal::TooLong,
        Refusal::Outside,
        Refusal::NoRoom { needed: 24 },
        Refusal::StateDoesNotFit,
        Refusal::FragmentTooLong,
        Refusal::ReplyCame,
        Refusal::PastEnd,
        Refusal::LongPath { place: Some(40) },
    ];
    assert!(all.iter().map(|refusal| refusal.number()).eq(1..=10));
    let places = [Some(4), Some(8)].into_iter().chain([None; 7]).chain([Some(40)]);
    assert!(all.iter().map(|refusal| refusal.place()).eq(places));
    assert!(all.iter().map(|refusal| refusal.wanting()).eq([Some(3)].into_iter().chain([None; 9])));
    let said: Vec<String> = all.iter().map(Refusal::to_string).collect();
    assert!(said.iter().zip(all).all(|(said, refusal)| said.contains(refusal.meaning())));
    assert_eq!(said[0], "refusal 1 at place 4: the message ends inside an item, 3 bytes are wanting");
    assert_eq!(said[1], "refusal 2 at place 8: a number that must be declared is not");
    assert_eq!(said[4], "refusal 5: too little room from the asked place on, 24 bytes are needed");
    assert_eq!(said[8], "refusal 9: a start place is past the end");
    assert_eq!(said[9], "refusal 10 at place 40: a path is above 1,024 bytes");
    let written = Refusal::LongPath { place: None };
    assert_eq!((written.number(), written.place()), (10, None));
    assert_eq!(written.to_string(), "refusal 10: a path is above 1,024 bytes");
    let one = Refusal::Ends { place: 4, wanting: 1 };
    assert_eq!(one.to_string(), "refusal 1 at place 4: the message ends inside an item, 1 byte is wanting");
    assert_eq!(Refusal::Unknown { answer: 254 }.number(), 254);
}
