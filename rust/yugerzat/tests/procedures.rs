//! Arguments and results of procedures: each message of kinds.txt as RFC 1813 lays it out, loose ones, every cut, every
//! refusal, every failure.
use std::fmt::Debug;

use yugerzat::*;

/// Bytes from hex, spaces ignored.
fn hex(text: &str) -> Vec<u8> {
    let digits: Vec<u8> = text.bytes().filter(|b| *b != b' ').collect();
    let number = |two: &[u8]| u8::from_str_radix(std::str::from_utf8(two).unwrap(), 16).unwrap();
    digits.chunks(2).map(number).collect()
}

fn words(numbers: &[u32]) -> Vec<u8> {
    numbers.iter().flat_map(|n| n.to_be_bytes()).collect()
}

/// The message that kinds.txt has of a kind.
fn message(kind: Kind) -> Vec<u8> {
    let rows = include_str!("../../../kinds.txt").lines().filter(|line| !line.is_empty() && !line.starts_with('#'));
    let mut rows = rows.map(|row| row.split('|').map(str::trim).collect::<Vec<_>>());
    hex(rows.find(|row| row[1] == kind.name()).expect("every kind has a row")[5])
}

/// Readers and writers of one type.
type Read<'a, T> = fn(&'a [u8], usize) -> Result<Reading<T>, Refusal>;
type Write<T> = fn(&T, &mut [u8], usize) -> Result<usize, Refusal>;

/// A message and what it means, in all that is owed: it is read and written, at any place; every cut is refused as `judge`
/// refuses it; writing is refused in its order, and then leaves `out` as it was.
fn holds<'a, T: PartialEq + Debug>(kind: Kind, message: &'a [u8], due: &T, read: Read<'a, T>, write: Write<T>) {
    let size = message.len();
    let found = read(message, 0).unwrap_or_else(|refusal| panic!("{kind}: {refusal}"));
    assert_eq!((&found.value, found.next, found.plain), (due, size, true), "{kind}");

    for start in 0..5 {
        let mut out = vec![0xEE; size + start + 1];
        assert_eq!(write(due, &mut out, start), Ok(start + size), "{kind}");
        assert_eq!(out[start..start + size], message[..], "{kind}");
        assert!(out[..start].iter().chain(&out[start + size..]).all(|byte| *byte == 0xEE), "{kind}");
    }
    for cut in 0..size {
        let refusal = read(&message[..cut], 0).expect_err("it is cut");
        assert_eq!(Err(refusal), judge(kind, &message[..cut], 0), "{kind} cut at {cut}");
        assert!(matches!(refusal, Refusal::Ends { .. }), "{kind} cut at {cut}: {refusal}");
    }
    for past in [size + 1, usize::MAX] {
        assert_eq!(read(message, past).expect_err("it is past the end"), Refusal::PastEnd, "{kind}");
    }
    let mut out = vec![0xEE; size + 1];
    for room in 0..size {
        assert_eq!(write(due, &mut out[..room], 0), Err(Refusal::NoRoom { needed: size }), "{kind}");
        assert_eq!(write(due, &mut out, size + 1 - room), Err(Refusal::NoRoom { needed: size }), "{kind}");
    }
    for past in [size + 2, usize::MAX] {
        assert_eq!(write(due, &mut out, past), Err(Refusal::PastEnd), "{kind}");
    }
    assert!(out.iter().all(|byte| *byte == 0xEE), "{kind}: a refusal writes nothing");
}

/// A message that means the same as one in published form, and is not in that form.
fn loose<'a, T: PartialEq + Debug>(kind: Kind, came: &'a [u8], clean: &[u8], due: &T, read: Read<'a, T>, write: Write<T>) {
    let found = read(came, 0).unwrap_or_else(|refusal| panic!("{kind}: {refusal}"));
    assert_eq!((&found.value, found.next, found.plain), (due, came.len(), false), "{kind} {came:02x?}");
    let mut out = vec![0xEE; clean.len()];
    assert_eq!(write(&found.value, &mut out, 0), Ok(clean.len()), "{kind}");
    assert_eq!(out, clean, "{kind}");
}

/// Tries the message of kinds.txt, and it with every flag and every padding loosened: `flags` are the places of flags that
/// are true, `pads` of bytes of padding.
macro_rules! tried {
    ($type:ident, $due:expr, flags $flags:expr, pads $pads:expr) => {{
        let (kind, clean, due) = (Kind::$type, message(Kind::$type), $due);
        holds(kind, &clean, &due, $type::read, $type::write);
        let (flags, pads): (&[usize], &[usize]) = (&$flags, &$pads);
        for place in flags {
            assert_eq!(clean[*place..place + 4], [0, 0, 0, 1], "{kind}: a flag stands at {place}");
            for flag in [2, 0x100, 0x8000_0000, u32::MAX] {
                let mut came = clean.clone();
                came[*place..place + 4].copy_from_slice(&words(&[flag]));
                loose(kind, &came, &clean, &due, $type::read, $type::write);
            }
        }
        for place in pads {
            assert_eq!(clean[*place], 0, "{kind}: padding stands at {place}");
            for dirt in [1, 0x80, 0xFF] {
                let mut came = clean.clone();
                came[*place] = dirt;
                loose(kind, &came, &clean, &due, $type::read, $type::write);
            }
        }
        // All at once.
        if flags.len() + pads.len() > 0 {
            let mut came = clean.clone();
            for place in flags {
                came[*place..place + 4].fill(0xFF);
            }
            for place in pads {
                came[*place] = 0xFF;
            }
            loose(kind, &came, &clean, &due, $type::read, $type::write);
        }
    }};
}

const HANDLE: &[u8] = &[10, 11, 12, 13];

/// The `fattr3` of the messages in kinds.txt, of some type.
fn attributes(ftype: Ftype3) -> Fattr3 {
    Fattr3 {
        ftype,
        mode: 0o755,
        nlink: 3,
        uid: 4,
        gid: 5,
        size: 6,
        used: 7,
        rdev: Specdata3 { specdata1: 8, specdata2: 9 },
        fsid: 10,
        fileid: 11,
        atime: Nfstime3 { seconds: 12, nseconds: 13 },
        mtime: Nfstime3 { seconds: 14, nseconds: 15 },
        ctime: Nfstime3 { seconds: 16, nseconds: 17 },
    }
}

/// The `wcc_attr` of the messages in kinds.txt.
const BEFORE: WccAttr =
    WccAttr { size: 1, mtime: Nfstime3 { seconds: 2, nseconds: 3 }, ctime: Nfstime3 { seconds: 4, nseconds: 5 } };

#[test]
fn getattr_is_read_and_written() {
    tried!(Getattr3args, Getattr3args { object: HANDLE }, flags [], pads []);
    tried!(Getattr3res, Getattr3res::Ok(Getattr3resok { obj_attributes: attributes(Ftype3::Dir) }), flags [], pads []);
}

#[test]
fn setattr_is_read_and_written() {
    let due = Setattr3args {
        object: HANDLE,
        new_attributes: Sattr3 {
            mode: Some(0o644),
            uid: Some(1000),
            gid: Some(1001),
            size: Some(4096),
            atime: SetTime::ToClientTime(Nfstime3 { seconds: 7, nseconds: 8 }),
            mtime: SetTime::ToClientTime(Nfstime3 { seconds: 9, nseconds: 10 }),
        },
        guard: Some(Nfstime3 { seconds: 7, nseconds: 8 }),
    };
    tried!(Setattr3args, due, flags [8, 16, 24, 32, 68], pads []);
    let obj_wcc = WccData { before: Some(BEFORE), after: None };
    tried!(Setattr3res, Setattr3res::Ok(Setattr3resok { obj_wcc }), flags [4], pads []);

    // A guard, or none.
    let change = [0; 6];
    for (guard, due) in [(&[0][..], None), (&[1, u32::MAX, 9], Some(Nfstime3 { seconds: u32::MAX, nseconds: 9 }))] {
        let bytes = words(&[&[0], &change[..], guard].concat());
        let due = Setattr3args { guard: due, ..Setattr3args::default() };
        holds(Kind::Setattr3args, &bytes, &due, Setattr3args::read, Setattr3args::write);
    }
    // How a time is set is declared, or refused.
    let undeclared = Setattr3args::read(&words(&[0, 0, 0, 0, 0, 0, 3, 0]), 0).map(drop);
    assert_eq!(undeclared, Err(Refusal::Undeclared { place: 24 }));
}

#[test]
fn lookup_is_read_and_written() {
    let what = Diropargs3 { dir: HANDLE, name: b"hello" };
    tried!(Lookup3args, Lookup3args { what }, flags [], pads [17, 18, 19]);
    let due = Lookup3resok { object: &[0x55, 0x66], obj_attributes: None, dir_attributes: Some(attributes(Ftype3::Dir)) };
    tried!(Lookup3res, Lookup3res::Ok(due), flags [16], pads [10, 11]);

    // Which attributes are there is told apart.
    let fattr3 = message(Kind::Fattr3);
    let both = [&words(&[0, 0, 1])[..], &fattr3, &words(&[1]), &words(&[5]), &fattr3[4..]].concat();
    let due = Lookup3resok {
        object: &[],
        obj_attributes: Some(attributes(Ftype3::Dir)),
        dir_attributes: Some(attributes(Ftype3::Lnk)),
    };
    holds(Kind::Lookup3res, &both, &Lookup3res::Ok(due), Lookup3res::read, Lookup3res::write);
    let one = [&words(&[0, 0, 1])[..], &fattr3, &words(&[0])].concat();
    let due = Lookup3resok { dir_attributes: None, obj_attributes: Some(attributes(Ftype3::Dir)), ..due };
    holds(Kind::Lookup3res, &one, &Lookup3res::Ok(due), Lookup3res::read, Lookup3res::write);
}

#[test]
fn read_is_read_and_written() {
    tried!(Read3args, Read3args { file: HANDLE, offset: 4096, count: 512 }, flags [], pads []);
    let due = Read3resok { file_attributes: None, count: 5, eof: true, data: b"hello" };
    tried!(Read3res, Read3res::Ok(due), flags [12], pads [25, 26, 27]);

    // With attributes, which do not say what the flag behind them is. The count is as it came.
    let fattr3 = message(Kind::Fattr3);
    let bytes = [&words(&[0, 1])[..], &fattr3, &words(&[77, 0, 0])].concat();
    let due = Read3resok { file_attributes: Some(attributes(Ftype3::Dir)), count: 77, eof: false, data: &[] };
    holds(Kind::Read3res, &bytes, &Read3res::Ok(due), Read3res::read, Read3res::write);
}

#[test]
fn write_is_read_and_written() {
    let due = Write3args { file: HANDLE, offset: 4096, count: 5, stable: StableHow::FileSync, data: b"hello" };
    tried!(Write3args, due, flags [], pads [33, 34, 35]);
    let file_wcc = WccData { before: Some(BEFORE), after: None };
    let due = Write3resok { file_wcc, count: 5, committed: StableHow::FileSync, verf: [1, 2, 3, 4, 5, 6, 7, 8] };
    tried!(Write3res, Write3res::Ok(due), flags [4], pads []);

    // Attributes after, and none before.
    let bytes = [&words(&[0, 0, 1])[..], &message(Kind::Fattr3), &words(&[0, 0, 0x0807_0605, 0x0403_0201])].concat();
    let file_wcc = WccData { before: None, after: Some(attributes(Ftype3::Dir)) };
    let due = Write3resok { file_wcc, count: 0, committed: StableHow::Unstable, verf: [8, 7, 6, 5, 4, 3, 2, 1] };
    holds(Kind::Write3res, &bytes, &Write3res::Ok(due), Write3res::read, Write3res::write);
}

#[test]
fn stable_how_is_declared() {
    let names = ["UNSTABLE", "DATA_SYNC", "FILE_SYNC"];
    for (number, stable) in [StableHow::Unstable, StableHow::DataSync, StableHow::FileSync].into_iter().enumerate() {
        let number = number as u32;
        assert_eq!((stable.number(), stable.name()), (number, names[number as usize]));
        assert_eq!((StableHow::try_from(number), stable.to_string()), (Ok(stable), stable.name().to_string()));
        let call = words(&[0, 0, 0, 9, number, 0]);
        let due = Write3args { file: &[], offset: 0, count: 9, stable, data: &[] };
        holds(Kind::Write3args, &call, &due, Write3args::read, Write3args::write);
        let reply = words(&[0, 0, 0, 9, number, 0, 0]);
        let due = Write3resok { file_wcc: WccData::default(), count: 9, committed: stable, verf: [0; 8] };
        holds(Kind::Write3res, &reply, &Write3res::Ok(due), Write3res::read, Write3res::write);
    }
    for number in [3, 4, 0x0100_0000, u32::MAX] {
        assert_eq!(
            StableHow::try_from(number).map_err(|unknown| unknown.to_string()),
            Err("that number is not declared".into())
        );
        let call = Write3args::read(&words(&[0, 0, 0, 9, number, 0]), 0).map(drop);
        assert_eq!(call, Err(Refusal::Undeclared { place: 16 }));
        let reply = Write3res::read(&words(&[0, 0, 0, 9, number, 0, 0]), 0).map(drop);
        assert_eq!(reply, Err(Refusal::Undeclared { place: 16 }));
    }
}

/// RFC 1813, section 2.6.
const FAILURES: [(u32, &str, Nfsfail3); 28] = [
    (1, "NFS3ERR_PERM", Nfsfail3::Perm),
    (2, "NFS3ERR_NOENT", Nfsfail3::NoEnt),
    (5, "NFS3ERR_IO", Nfsfail3::Io),
    (6, "NFS3ERR_NXIO", Nfsfail3::Nxio),
    (13, "NFS3ERR_ACCES", Nfsfail3::Acces),
    (17, "NFS3ERR_EXIST", Nfsfail3::Exist),
    (18, "NFS3ERR_XDEV", Nfsfail3::Xdev),
    (19, "NFS3ERR_NODEV", Nfsfail3::NoDev),
    (20, "NFS3ERR_NOTDIR", Nfsfail3::NotDir),
    (21, "NFS3ERR_ISDIR", Nfsfail3::IsDir),
    (22, "NFS3ERR_INVAL", Nfsfail3::Inval),
    (27, "NFS3ERR_FBIG", Nfsfail3::Fbig),
    (28, "NFS3ERR_NOSPC", Nfsfail3::NoSpc),
    (30, "NFS3ERR_ROFS", Nfsfail3::Rofs),
    (31, "NFS3ERR_MLINK", Nfsfail3::Mlink),
    (63, "NFS3ERR_NAMETOOLONG", Nfsfail3::NameTooLong),
    (66, "NFS3ERR_NOTEMPTY", Nfsfail3::NotEmpty),
    (69, "NFS3ERR_DQUOT", Nfsfail3::Dquot),
    (70, "NFS3ERR_STALE", Nfsfail3::Stale),
    (71, "NFS3ERR_REMOTE", Nfsfail3::Remote),
    (10001, "NFS3ERR_BADHANDLE", Nfsfail3::BadHandle),
    (10002, "NFS3ERR_NOT_SYNC", Nfsfail3::NotSync),
    (10003, "NFS3ERR_BAD_COOKIE", Nfsfail3::BadCookie),
    (10004, "NFS3ERR_NOTSUPP", Nfsfail3::NotSupp),
    (10005, "NFS3ERR_TOOSMALL", Nfsfail3::TooSmall),
    (10006, "NFS3ERR_SERVERFAULT", Nfsfail3::ServerFault),
    (10007, "NFS3ERR_BADTYPE", Nfsfail3::BadType),
    (10008, "NFS3ERR_JUKEBOX", Nfsfail3::Jukebox),
];

#[test]
fn failures_have_their_numbers_and_names() {
    for (number, name, failure) in FAILURES {
        assert_eq!((failure.number(), failure.name()), (number, name));
        assert_eq!(failure.to_string(), name);
        assert_eq!(Nfsfail3::try_from(number), Ok(failure));
    }
    assert_eq!(format!("{:>14}|{:<14}|", Nfsfail3::Perm, Nfsfail3::Io), "  NFS3ERR_PERM|NFS3ERR_IO    |");
    // The library has the same list, and 0, which is no failure.
    let mut declared = 0;
    for number in (0..12_000).chain([u32::MAX - 1, u32::MAX]) {
        let known = FAILURES.iter().any(|(declared, ..)| *declared == number);
        assert_eq!(Nfsfail3::try_from(number).is_ok(), known, "{number}");
        assert_eq!(judge(Kind::Nfsstat3, &words(&[number]), 0).is_ok(), known || number == 0, "{number}");
        declared += u32::from(known);
    }
    assert_eq!(declared, 28);
}

#[test]
fn every_failure_is_read_and_written() {
    let fattr3 = message(Kind::Fattr3);
    let attributes = attributes(Ftype3::Dir);
    let before = [0, 1, 2, 3, 4, 5];
    let with = |words_before: &[u32], fattr3: &[u8]| [&words(words_before)[..], fattr3].concat();
    for (number, _, failure) in FAILURES {
        holds(Kind::Getattr3res, &words(&[number]), &Getattr3res::Failed(failure), Getattr3res::read, Getattr3res::write);
        for (bytes, after) in [(words(&[number, 0]), None), (with(&[number, 1], &fattr3), Some(attributes))] {
            let due = Lookup3res::Failed(failure, Lookup3resfail { dir_attributes: after });
            holds(Kind::Lookup3res, &bytes, &due, Lookup3res::read, Lookup3res::write);
            let due = Read3res::Failed(failure, Read3resfail { file_attributes: after });
            holds(Kind::Read3res, &bytes, &due, Read3res::read, Read3res::write);
        }
        for (bytes, before, after) in [
            (words(&[number, 0, 0]), None, None),
            (words(&[&[number, 1], &before[..], &[0]].concat()), Some(BEFORE), None),
            (with(&[number, 0, 1], &fattr3), None, Some(attributes)),
            (with(&[&[number, 1], &before[..], &[1]].concat(), &fattr3), Some(BEFORE), Some(attributes)),
        ] {
            let wcc = WccData { before, after };
            let due = Setattr3res::Failed(failure, Setattr3resfail { obj_wcc: wcc });
            holds(Kind::Setattr3res, &bytes, &due, Setattr3res::read, Setattr3res::write);
            let due = Write3res::Failed(failure, Write3resfail { file_wcc: wcc });
            holds(Kind::Write3res, &bytes, &due, Write3res::read, Write3res::write);
        }
    }
}

#[test]
fn what_is_not_declared_is_refused() {
    for number in [3, 4, 7, 72, 10000, 10009, 0x0100_0000, u32::MAX] {
        let bytes = words(&[&[9, number], &[0; 40][..]].concat());
        for procedure in Procedure::all() {
            let refusal = Results::read(procedure, &bytes, 4).expect_err("the status is not declared");
            assert_eq!(refusal, Refusal::Undeclared { place: 4 }, "{procedure} {number}");
        }
    }
    // The type of a file, behind whatever comes before it.
    for (ftype, known) in [(0, false), (1, true), (7, true), (8, false)] {
        let fattr3 = [&[ftype], &[0; 20][..]].concat();
        for (procedure, before, after) in [
            (Procedure::Getattr, &[0][..], &[][..]),
            (Procedure::Setattr, &[5, 0, 1], &[]),
            (Procedure::Lookup, &[0, 0, 0, 1], &[]),
            (Procedure::Read, &[0, 1], &[0, 0, 0]),
            (Procedure::Write, &[0, 0, 1], &[0, 0, 0, 0]),
        ] {
            let read = Results::read(procedure, &words(&[before, &fattr3, after].concat()), 0).map(|read| read.plain);
            let refused = Err(Refusal::Undeclared { place: before.len() * 4 });
            assert_eq!(read, if known { Ok(true) } else { refused }, "{procedure} {ftype}");
        }
    }
}

#[test]
fn pieces_lie_in_the_message() {
    let bytes = message(Kind::Write3args);
    let call = Write3args::read(&bytes, 0).unwrap().value;
    assert!(std::ptr::eq(call.file, &bytes[4..8]) && std::ptr::eq(call.data, &bytes[28..33]));
    let bytes = message(Kind::Read3res);
    match Read3res::read(&bytes, 0).unwrap().value {
        Read3res::Ok(ok) => assert!(std::ptr::eq(ok.data, &bytes[20..25])),
        other => panic!("{other:?}"),
    }
    let bytes = message(Kind::Lookup3res);
    match Lookup3res::read(&bytes, 0).unwrap().value {
        Lookup3res::Ok(ok) => assert!(std::ptr::eq(ok.object, &bytes[8..10])),
        other => panic!("{other:?}"),
    }
}

/// Writes what has a piece of so many bytes, `around` of them around it: the largest that is lawful, and one byte more.
fn largest<T>(what: &str, around: usize, value: impl Fn(usize) -> T, write: Write<T>) {
    let mut out = vec![0xEE; LIMIT + 8];
    assert_eq!(write(&value(LIMIT - around), &mut out, 1), Ok(LIMIT + 1), "{what}");
    assert_eq!((out[0], &out[LIMIT + 1..]), (0xEE, &[0xEE; 7][..]), "{what}");
    out.fill(0xEE);
    for count in [LIMIT - around + 1, LIMIT, LIMIT + 1] {
        assert_eq!(write(&value(count), &mut out, 0), Err(Refusal::TooLong), "{what} of {count}");
        // Without room it is the same: what is too long can have none.
        assert_eq!(write(&value(count), &mut [], 0), Err(Refusal::TooLong), "{what} of {count}");
        assert_eq!(write(&value(count), &mut [], 1), Err(Refusal::PastEnd), "{what} of {count}");
    }
    let none = Refusal::NoRoom { needed: LIMIT };
    assert_eq!(write(&value(LIMIT - around), &mut out[..LIMIT - 1], 0), Err(none), "{what}");
    assert_eq!(write(&value(LIMIT - around), &mut out, 9 + LIMIT), Err(Refusal::PastEnd), "{what}");
    assert!(out.iter().all(|byte| *byte == 0xEE), "{what}: a refusal writes nothing");
}

#[test]
fn what_is_written_has_a_largest_size() {
    let long = vec![0; LIMIT + 1];
    let bytes = |count: usize| &long[..count];
    largest("GETATTR's handle", 4, |count| Getattr3args { object: bytes(count) }, Getattr3args::write);
    let setattr = |count| Setattr3args { object: bytes(count), ..Setattr3args::default() };
    largest("SETATTR's handle", 4 + 24 + 4, setattr, Setattr3args::write);
    let lookup = |count| Lookup3args { what: Diropargs3 { dir: bytes(count), name: b"" } };
    largest("LOOKUP's directory", 8, lookup, Lookup3args::write);
    let lookup = |count| Lookup3args { what: Diropargs3 { dir: b"", name: bytes(count) } };
    largest("LOOKUP's name", 8, lookup, Lookup3args::write);
    let lookup = |count| Lookup3res::Ok(Lookup3resok { object: bytes(count), ..Lookup3resok::default() });
    largest("what LOOKUP gives", 16, lookup, Lookup3res::write);
    let read = |count| Read3args { file: bytes(count), ..Read3args::default() };
    largest("READ's handle", 16, read, Read3args::write);
    let read = |count| Read3res::Ok(Read3resok { data: bytes(count), ..Read3resok::default() });
    largest("what READ gives", 20, read, Read3res::write);
    let write = Write3args { file: b"", offset: 0, count: 0, stable: StableHow::Unstable, data: b"" };
    largest("WRITE's handle", 24, |count| Write3args { file: bytes(count), ..write }, Write3args::write);
    largest("WRITE's data", 24, |count| Write3args { data: bytes(count), ..write }, Write3args::write);
    // Two that are lawful each, and not both.
    let half = LIMIT / 2;
    let both = |count: usize| Write3args { file: bytes(half - 12), data: bytes(count), ..write };
    let mut out = vec![0xEE; LIMIT];
    assert_eq!(both(half - 11).write(&mut out, 0), Err(Refusal::TooLong));
    assert_eq!(both(half - 12).write(&mut out, 0), Ok(LIMIT));
}

#[test]
fn what_is_read_has_a_largest_size() {
    let mut bytes = vec![0; LIMIT + 1];
    for procedure in Procedure::all() {
        assert_eq!(Arguments::read(procedure, &bytes, 0).map(drop), Err(Refusal::TooLong), "{procedure}");
        assert_eq!(Results::read(procedure, &bytes, LIMIT + 2).map(drop), Err(Refusal::TooLong), "{procedure}");
    }
    // The longest data that a READ can give: status, no attributes, count, flag, length, bytes.
    bytes.pop();
    bytes[16..20].copy_from_slice(&words(&[LIMIT as u32 - 20]));
    bytes[20..].fill(0xAB);
    match Read3res::read(&bytes, 0).unwrap() {
        Reading { value: Read3res::Ok(ok), next: LIMIT, plain: true } => {
            assert!(ok.data.len() == LIMIT - 20 && ok.data.iter().all(|byte| *byte == 0xAB));
        },
        other => panic!("it ends at {}", other.next),
    }
    bytes[16..20].copy_from_slice(&words(&[u32::MAX]));
    let wanting = 4_294_967_296 - (LIMIT - 20);
    assert_eq!(Read3res::read(&bytes, 0).map(drop), Err(Refusal::Ends { place: 16, wanting }));
}

#[test]
fn procedures_have_their_numbers_names_and_kinds() {
    let due = [
        (1, "GETATTR", Procedure::Getattr, Kind::Getattr3args, Kind::Getattr3res),
        (2, "SETATTR", Procedure::Setattr, Kind::Setattr3args, Kind::Setattr3res),
        (3, "LOOKUP", Procedure::Lookup, Kind::Lookup3args, Kind::Lookup3res),
        (6, "READ", Procedure::Read, Kind::Read3args, Kind::Read3res),
        (7, "WRITE", Procedure::Write, Kind::Write3args, Kind::Write3res),
    ];
    assert!(Procedure::all().eq(due.iter().map(|row| row.2)));
    assert_eq!((Procedure::all().len(), Procedure::all().next_back()), (5, Some(Procedure::Write)));
    for (number, name, procedure, arguments, results) in due {
        assert_eq!((procedure.number(), procedure.name(), procedure.to_string()), (number, name, name.to_string()));
        assert_eq!((procedure.arguments(), procedure.results()), (arguments, results));
    }
    assert_eq!(format!("{:>8}|", Procedure::Read), "    READ|");
    for number in (0..100).chain([u32::MAX]) {
        let known = due.iter().find(|row| row.0 == number).map(|row| row.2);
        assert_eq!(Procedure::try_from(number).ok(), known, "{number}");
        let call = Call { rpcvers: 2, prog: 100_003, vers: 3, proc: number, ..Call::default() };
        assert_eq!(call.procedure(), known, "{number}");
        let others = [
            Call { rpcvers: 1, ..call },
            Call { prog: 100_005, ..call },
            Call { vers: 2, ..call },
            Call { vers: 4, ..call },
        ];
        assert!(others.iter().all(|other| other.procedure().is_none()), "{number}");
    }
    assert_eq!(Procedure::try_from(0).unwrap_err().to_string(), "there is no known procedure of that number");
}

#[test]
fn arguments_and_results_are_found_by_procedure() {
    for procedure in Procedure::all() {
        let bytes = message(procedure.arguments());
        let read = Arguments::read(procedure, &bytes, 0).unwrap();
        assert_eq!((read.value.procedure(), read.next, read.plain), (procedure, bytes.len(), true));
        let mut out = vec![0xEE; bytes.len()];
        assert_eq!(read.value.write(&mut out, 0), Ok(bytes.len()));
        assert_eq!(out, bytes, "{procedure}");
        assert_eq!(read.value.write(&mut out, 1), Err(Refusal::NoRoom { needed: bytes.len() }));
        let same = match read.value {
            Arguments::Getattr(value) => Getattr3args::read(&bytes, 0).map(|read| read.value) == Ok(value),
            Arguments::Setattr(value) => Setattr3args::read(&bytes, 0).map(|read| read.value) == Ok(value),
            Arguments::Lookup(value) => Lookup3args::read(&bytes, 0).map(|read| read.value) == Ok(value),
            Arguments::Read(value) => Read3args::read(&bytes, 0).map(|read| read.value) == Ok(value),
            Arguments::Write(value) => Write3args::read(&bytes, 0).map(|read| read.value) == Ok(value),
            _ => false,
        };
        assert!(same, "{procedure}");

        let bytes = message(procedure.results());
        let read = Results::read(procedure, &bytes, 0).unwrap();
        assert_eq!((read.value.procedure(), read.next, read.plain), (procedure, bytes.len(), true));
        let mut out = vec![0xEE; bytes.len()];
        assert_eq!(read.value.write(&mut out, 0), Ok(bytes.len()));
        assert_eq!(out, bytes, "{procedure}");
        assert_eq!(read.value.write(&mut out, 1), Err(Refusal::NoRoom { needed: bytes.len() }));
        let same = match read.value {
            Results::Getattr(value) => Getattr3res::read(&bytes, 0).map(|read| read.value) == Ok(value),
            Results::Setattr(value) => Setattr3res::read(&bytes, 0).map(|read| read.value) == Ok(value),
            Results::Lookup(value) => Lookup3res::read(&bytes, 0).map(|read| read.value) == Ok(value),
            Results::Read(value) => Read3res::read(&bytes, 0).map(|read| read.value) == Ok(value),
            Results::Write(value) => Write3res::read(&bytes, 0).map(|read| read.value) == Ok(value),
            _ => false,
        };
        assert!(same, "{procedure}");

        // A refusal is that of the kind.
        for cut in 0..bytes.len() {
            let refusal = judge(procedure.results(), &bytes[..cut], 0).unwrap_err();
            assert_eq!(Results::read(procedure, &bytes[..cut], 0), Err(refusal), "{procedure} cut at {cut}");
        }
    }
}
