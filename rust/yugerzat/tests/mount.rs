//! Mounts and ports: every answer of `ask`; paths at their bound; results, mappings and lists of exports as the RFCs lay
//! them out, loose ones, every cut, every refusal, every failure.
use std::collections::hash_map::DefaultHasher;
use std::fmt::Debug;
use std::hash::{Hash, Hasher};

use yugerzat::mount::*;
use yugerzat::*;

fn words(numbers: &[u32]) -> Vec<u8> {
    numbers.iter().flat_map(|n| n.to_be_bytes()).collect()
}

/// A length word, the bytes, and padding.
fn opaque(bytes: &[u8]) -> Vec<u8> {
    let mut opaque = words(&[bytes.len() as u32]);
    opaque.extend(bytes);
    opaque.resize((opaque.len() + 3) / 4 * 4, 0);
    opaque
}

/// Readers and writers of one type.
type Read<'a, T> = fn(&'a [u8], usize) -> Result<Reading<T>, Refusal>;
type Write<T> = fn(&T, &mut [u8], usize) -> Result<usize, Refusal>;

/// A message and what it means, in all that is owed: it is read and written, at any place; every cut is refused as `judge`
/// refuses it; writing is refused in its order, and then leaves `out` as it was.
fn holds<'a, T: PartialEq + Debug>(kind: Kind, message: &'a [u8], due: &T, read: Read<'a, T>, write: Write<T>) {
    let size = message.len();
    let found = read(message, 0).unwrap_or_else(|refusal| panic!("{kind}: {refusal}"));
    assert_eq!((&found.value, found.next, found.plain), (due, size, true), "{kind}");

    for start in 0..5 {
        let mut out = vec![0xEE; size + start + 1];
        assert_eq!(write(due, &mut out, start), Ok(start + size), "{kind}");
        assert_eq!(out[start..start + size], message[..], "{kind}");
        assert!(out[..start].iter().chain(&out[start + size..]).all(|byte| *byte == 0xEE), "{kind}");
    }
    for cut in 0..size {
        let refusal = read(&message[..cut], 0).expect_err("it is cut");
        assert_eq!(Err(refusal), judge(kind, &message[..cut], 0), "{kind} cut at {cut}");
        assert!(matches!(refusal, Refusal::Ends { .. }), "{kind} cut at {cut}: {refusal}");
    }
    for past in [size + 1, usize::MAX] {
        assert_eq!(read(message, past).expect_err("it is past the end"), Refusal::PastEnd, "{kind}");
    }
    let mut out = vec![0xEE; size + 1];
    for room in 0..size {
        assert_eq!(write(due, &mut out[..room], 0), Err(Refusal::NoRoom { needed: size }), "{kind}");
        assert_eq!(write(due, &mut out, size + 1 - room), Err(Refusal::NoRoom { needed: size }), "{kind}");
    }
    for past in [size + 2, usize::MAX] {
        assert_eq!(write(due, &mut out, past), Err(Refusal::PastEnd), "{kind}");
    }
    assert!(out.iter().all(|byte| *byte == 0xEE), "{kind}: a refusal writes nothing");
}

/// A message that means the same as one in published form, and is not in that form.
fn loose<'a, T: PartialEq + Debug>(kind: Kind, came: &'a [u8], clean: &[u8], due: &T, read: Read<'a, T>, write: Write<T>) {
    let found = read(came, 0).unwrap_or_else(|refusal| panic!("{kind}: {refusal}"));
    assert_eq!((&found.value, found.next, found.plain), (due, came.len(), false), "{kind} {came:02x?}");
    let mut out = vec![0xEE; clean.len()];
    assert_eq!(write(&found.value, &mut out, 0), Ok(clean.len()), "{kind}");
    assert_eq!(out, clean, "{kind}");
}

// ---- paths, results, mappings

#[test]
fn paths_are_read_and_written() {
    for (message, path) in [(&[0, 0, 0, 0][..], &b""[..]), (&[0, 0, 0, 5, 47, 101, 120, 112, 111, 0, 0, 0], b"/expo")] {
        holds(Kind::Dirpath, message, &Dirpath { path }, Dirpath::read, Dirpath::write);
    }
    let clean = opaque(b"/expo");
    for place in 9..12 {
        let mut came = clean.clone();
        came[place] = 0x80;
        loose(Kind::Dirpath, &came, &clean, &Dirpath { path: b"/expo" }, Dirpath::read, Dirpath::write);
    }
    // The bytes lie in the message.
    assert!(std::ptr::eq(Dirpath::read(&clean, 0).unwrap().value.path, &clean[4..9]));
    assert_eq!(Dirpath::default(), Dirpath { path: b"" });
}

#[test]
fn paths_have_a_bound() {
    let long = vec![b'p'; LIMIT + 1];
    let path = |count: usize| Dirpath { path: &long[..count] };
    let longest = opaque(&long[..MNTPATHLEN]);
    holds(Kind::Dirpath, &longest, &path(MNTPATHLEN), Dirpath::read, Dirpath::write);
    for count in [MNTPATHLEN + 1, MNTPATHLEN + 2, 5000, LIMIT - 8] {
        let message = [&words(&[7])[..], &opaque(&long[..count])].concat();
        let refusal = Refusal::LongPath { place: Some(4) };
        assert_eq!(Dirpath::read(&message, 4), Err(refusal), "{count}");
        // It has to be there first.
        let cut = Dirpath::read(&message[..message.len() - 1], 4);
        assert_eq!(cut, Err(Refusal::Ends { place: 4, wanting: 1 }), "{count}");
    }
    let mut out = vec![0xEE; 2000];
    for (count, refusal) in [
        (MNTPATHLEN + 1, Refusal::LongPath { place: None }),
        (LIMIT, Refusal::LongPath { place: None }),
        (LIMIT + 1, Refusal::TooLong),
    ] {
        assert_eq!(path(count).write(&mut out, 0), Err(refusal), "{count}");
        assert_eq!(path(count).write(&mut [], 0), Err(refusal), "{count}");
        assert_eq!(path(count).write(&mut out, 2001), Err(Refusal::PastEnd), "{count}");
    }
    assert!(out.iter().all(|byte| *byte == 0xEE), "a refusal writes nothing");
}

/// RFC 1813, section 5.1.5.
const FAILURES: [(u32, &str, Mountfail3); 9] = [
    (1, "MNT3ERR_PERM", Mountfail3::Perm),
    (2, "MNT3ERR_NOENT", Mountfail3::NoEnt),
    (5, "MNT3ERR_IO", Mountfail3::Io),
    (13, "MNT3ERR_ACCES", Mountfail3::Acces),
    (20, "MNT3ERR_NOTDIR", Mountfail3::NotDir),
    (22, "MNT3ERR_INVAL", Mountfail3::Inval),
    (63, "MNT3ERR_NAMETOOLONG", Mountfail3::NameTooLong),
    (10004, "MNT3ERR_NOTSUPP", Mountfail3::NotSupp),
    (10006, "MNT3ERR_SERVERFAULT", Mountfail3::ServerFault),
];

#[test]
fn failures_have_their_numbers_and_names() {
    for (number, name, failure) in FAILURES {
        assert_eq!((failure.number(), failure.name(), failure.to_string()), (number, name, name.to_string()));
        assert_eq!(Mountfail3::try_from(number), Ok(failure));
        let status = Mountstat3::Failed(failure);
        assert_eq!((status.number(), status.name(), status.to_string()), (number, name, name.to_string()));
        assert_eq!(Mountstat3::try_from(number), Ok(status));
        holds(Kind::Mountstat3, &words(&[number]), &status, Mountstat3::read, Mountstat3::write);
        let result = Mountres3::Failed(failure);
        assert_eq!(result.status(), status);
        holds(Kind::Mountres3, &words(&[number]), &result, Mountres3::read, Mountres3::write);
    }
    let status = Mountstat3::Ok;
    assert_eq!((status.number(), status.name(), Mountstat3::try_from(0)), (0, "MNT3_OK", Ok(status)));
    assert_eq!(format!("{:>9}|{:<16}|", status, Mountfail3::Io), "  MNT3_OK|MNT3ERR_IO      |");
    holds(Kind::Mountstat3, &words(&[0]), &status, Mountstat3::read, Mountstat3::write);
    // The library has the same list, and 0, which is no failure.
    let mut declared = 0;
    for number in (0..12_000).chain([u32::MAX - 1, u32::MAX]) {
        let known = FAILURES.iter().any(|(declared, ..)| *declared == number);
        assert_eq!(Mountfail3::try_from(number).is_ok(), known, "{number}");
        assert_eq!(Mountstat3::try_from(number).is_ok(), known || number == 0, "{number}");
        assert_eq!(judge(Kind::Mountstat3, &words(&[number]), 0).is_ok(), known || number == 0, "{number}");
        if !known && number != 0 {
            let undeclared = Err(Refusal::Undeclared { place: 4 });
            assert_eq!(Mountres3::read(&words(&[0, number, 0, 0]), 4).map(drop), undeclared, "{number}");
            assert_eq!(Mountstat3::read(&words(&[0, number]), 4).map(drop), undeclared, "{number}");
        }
        declared += u32::from(known);
    }
    assert_eq!(declared, 9);
    assert_eq!(Mountfail3::try_from(0).unwrap_err().to_string(), "that number is not declared");
}

#[test]
fn results_are_read_and_written() {
    let flavors = words(&[1, u32::MAX, 6]);
    for (fhandle, count) in [(&b""[..], 0), (b"seat", 1), (b"seats", 3), (&[0xAB; 64], 2), (&[0xCD; 65], 0)] {
        let auth_flavors = Words::new(&flavors[..count * 4]).unwrap();
        let message = [words(&[0]), opaque(fhandle), words(&[count as u32]), flavors[..count * 4].to_vec()].concat();
        let due = Mountres3::Ok { fhandle, auth_flavors };
        assert_eq!(due.status(), Mountstat3::Ok);
        holds(Kind::Mountres3, &message, &due, Mountres3::read, Mountres3::write);
        for place in 8 + fhandle.len()..message.len() - 4 - count * 4 {
            let mut came = message.clone();
            came[place] = 1;
            loose(Kind::Mountres3, &came, &message, &due, Mountres3::read, Mountres3::write);
        }
        match Mountres3::read(&message, 0).unwrap().value {
            Mountres3::Ok { fhandle: found, auth_flavors } => {
                assert!(std::ptr::eq(found, &message[8..8 + fhandle.len()]));
                assert!(std::ptr::eq(auth_flavors.as_bytes(), &message[message.len() - count * 4..]));
            },
            other => panic!("{other:?}"),
        }
    }
    // What comes behind a failure is not looked at.
    assert_eq!(Mountres3::read(&words(&[13, u32::MAX]), 0).map(|read| read.next), Ok(4));
    let claims = Mountres3::read(&words(&[0, 0, u32::MAX]), 0).map(drop);
    assert_eq!(claims, Err(Refusal::Ends { place: 8, wanting: 17_179_869_180 }));
}

#[test]
fn results_have_a_largest_size() {
    let long = vec![0; LIMIT + 4];
    let handle = |count: usize| Mountres3::Ok { fhandle: &long[..count], auth_flavors: Words::default() };
    let flavors = |count: usize| Mountres3::Ok { fhandle: b"", auth_flavors: Words::new(&long[..count * 4]).unwrap() };
    let mut out = vec![0xEE; LIMIT + 1];
    assert_eq!(handle(LIMIT - 12).write(&mut out, 1), Ok(LIMIT + 1));
    assert_eq!(flavors(LIMIT / 4 - 3).write(&mut out, 0), Ok(LIMIT));
    out.fill(0xEE);
    for result in [handle(LIMIT - 11), handle(LIMIT + 1), flavors(LIMIT / 4 - 2), flavors(LIMIT / 4 + 1)] {
        assert_eq!(result.write(&mut out, 0), Err(Refusal::TooLong));
        assert_eq!(result.write(&mut [], 0), Err(Refusal::TooLong));
        assert_eq!(result.write(&mut [], 1), Err(Refusal::PastEnd));
    }
    assert!(out.iter().all(|byte| *byte == 0xEE), "a refusal writes nothing");
}

#[test]
fn mappings_are_read_and_written() {
    let most = Mapping { prog: u32::MAX, vers: u32::MAX, prot: u32::MAX, port: u32::MAX };
    let nfs = Mapping { prog: 100_003, vers: 3, prot: Mapping::TCP, port: 2049 };
    for (message, due) in [([0; 4], Mapping::default()), ([u32::MAX; 4], most), ([100_003, 3, 6, 2049], nfs)] {
        let message = words(&message);
        assert_eq!(message.len(), Mapping::SIZE);
        holds(Kind::Mapping, &message, &due, Mapping::read, Mapping::write);
    }
    assert_eq!((Mapping::TCP, Mapping::UDP), (6, 17));
}

// ---- lists of exports

/// A list as the RFC lays it out: flags are 1 and padding is 0, or what `odd` says.
fn list(entries: &[Entry<'_>], mut flag: impl FnMut() -> u32, mut pad: impl FnMut() -> u8) -> Vec<u8> {
    let mut bytes = Vec::new();
    let mut field = |bytes: &mut Vec<u8>, content: &[u8], flag: u32| {
        bytes.extend(words(&[flag, content.len() as u32]));
        bytes.extend(content);
        while bytes.len() % 4 > 0 {
            bytes.push(pad());
        }
    };
    for entry in entries {
        field(&mut bytes, entry.dir, flag());
        for name in entry.groups {
            field(&mut bytes, name, flag());
        }
        bytes.extend([0; 4]);
    }
    bytes.extend([0; 4]);
    bytes
}

fn clean(entries: &[Entry<'_>]) -> Vec<u8> {
    list(entries, || 1, || 0)
}

const ENTRIES: &[Entry<'_>] = &[
    Entry { dir: b"/expo", groups: &[b"ab", b"hello"] },
    Entry { dir: b"/", groups: &[b""] },
    Entry { dir: b"", groups: &[] },
];

/// A list has just these entries.
fn has(exports: Exports<'_>, entries: &[Entry<'_>]) {
    assert_eq!((exports.len(), exports.is_empty()), (entries.len(), entries.is_empty()));
    let mut walk = exports.iter();
    for (left, entry) in entries.iter().enumerate().map(|(n, entry)| (entries.len() - n, entry)) {
        assert_eq!((walk.len(), walk.size_hint()), (left, (left, Some(left))));
        let export = walk.next().expect("an entry");
        assert_eq!(export.dir, entry.dir);
        assert_eq!((export.groups.len(), export.groups.is_empty()), (entry.groups.len(), entry.groups.is_empty()));
        assert!(export.groups.iter().eq(entry.groups.iter().copied()));
        assert_eq!(export.groups.iter().len(), entry.groups.len());
    }
    assert_eq!((walk.len(), walk.next(), walk.next()), (0, None, None));
    assert_eq!(exports.into_iter().count(), entries.len());
}

fn hash(value: impl Hash) -> u64 {
    let mut hasher = DefaultHasher::new();
    value.hash(&mut hasher);
    hasher.finish()
}

#[test]
fn lists_are_read_walked_and_written() {
    for entries in [&[][..], &ENTRIES[..1], &ENTRIES[1..], ENTRIES] {
        let message = clean(entries);
        let read = Exports::read(&message, 0).unwrap();
        assert_eq!((read.next, read.plain, read.value.as_bytes()), (message.len(), true, &message[..]));
        has(read.value, entries);
        holds(Kind::Exports, &message, &read.value, Exports::read, Exports::write);
        // Behind other bytes, and before others.
        let inside = [&[0xEE; 5][..], &message, &[1, 2, 3]].concat();
        let found = Exports::read(&inside, 5).unwrap();
        assert_eq!((found.value, found.next, found.plain), (read.value, 5 + message.len(), true));
        assert!(std::ptr::eq(found.value.as_bytes(), &inside[5..5 + message.len()]));
    }
    let message = clean(ENTRIES);
    let first = Exports::read(&message, 0).unwrap().value.iter().next().unwrap();
    assert!(std::ptr::eq(first.dir, &message[8..13]));
    assert!(std::ptr::eq(first.groups.into_iter().nth(1).unwrap(), &message[36..41]));

    let empty = Exports::default();
    has(empty, &[]);
    assert_eq!((empty, empty.as_bytes()), (Exports::read(&[0; 4], 0).unwrap().value, &[0; 4][..]));
    assert_eq!(Export::default(), Export { dir: b"", groups: Groups::default() });
    assert!(Groups::default().is_empty() && Groups::default().iter().next().is_none());
    let one = clean(&[Entry { dir: b"a", groups: &[b"b"] }]);
    let shown = format!("{:?}", Exports::read(&one, 0).unwrap().value);
    assert_eq!(shown, "[Export { dir: [97], groups: [[98]] }]");
}

#[test]
fn lists_are_equal_if_they_mean_the_same() {
    let message = clean(ENTRIES);
    let due = Exports::read(&message, 0).unwrap().value;
    // Every flag and every byte of padding, alone and all at once.
    let mut loosened = vec![list(ENTRIES, || u32::MAX, || 0xFF)];
    for (place, flag) in [(0, true), (13, false), (15, false), (16, true), (26, false), (28, true), (41, false), (48, true)]
    {
        let mut came = message.clone();
        came[place] = if flag { 0x80 } else { 1 };
        loosened.push(came);
    }
    for came in &loosened {
        loose(Kind::Exports, came, &message, &due, Exports::read, Exports::write);
        let read = Exports::read(came, 0).unwrap().value;
        has(read, ENTRIES);
        assert_eq!(hash(read), hash(due));
        assert_ne!(read.as_bytes(), due.as_bytes());
    }
    let (ab, hello) = (&b"ab"[..], &b"hello"[..]);
    let first = |dir, groups| -> [Entry<'_>; 3] { [Entry { dir, groups }, ENTRIES[1], ENTRIES[2]] };
    let others = [
        clean(&[]),
        clean(&ENTRIES[..2]),
        clean(&ENTRIES[1..]),
        clean(&[ENTRIES[1], ENTRIES[0], ENTRIES[2]]),
        clean(&first(b"/expp", &[ab, hello])),
        clean(&first(b"/expo\0", &[ab, hello])),
        clean(&first(b"/expo", &[hello, ab])),
        clean(&first(b"/expo", &[ab])),
        clean(&first(b"/expo", &[ab, hello, b""])),
        clean(&first(b"/expo", &[ab, b"hellp"])),
    ];
    for (number, other) in others.iter().enumerate() {
        let (copy, other) = (other.clone(), Exports::read(other, 0).unwrap().value);
        assert_eq!(other, Exports::read(&copy, 0).unwrap().value, "{number}");
        assert_ne!(other, due, "{number}");
        assert_ne!(due, other, "{number}");
        assert!(!other.iter().eq(due.iter()), "{number}");
    }
}

#[test]
fn paths_in_lists_have_a_bound_and_names_have_none() {
    let long = vec![b'p'; LIMIT + 1];
    let names: &[&[u8]] = &[&long[..5000]];
    let entry = |count: usize| Entry { dir: &long[..count], groups: names };
    let entries = [ENTRIES[1], entry(MNTPATHLEN), ENTRIES[2]];
    let message = clean(&entries);
    has(Exports::read(&message, 0).unwrap().value, &entries);
    let mut out = vec![0xEE; message.len() + 2];
    assert_eq!(write_entries(&entries, &mut out, 1), Ok(message.len() + 1));
    assert_eq!((out[0], &out[1..=message.len()], out[message.len() + 1]), (0xEE, &message[..], 0xEE));

    // A list has to be there to its end; then the first path is told that is too long.
    let message = clean(&[ENTRIES[1], entry(MNTPATHLEN + 1), entry(MNTPATHLEN + 1)]);
    let refusal = Refusal::LongPath { place: Some(28) };
    assert_eq!(Exports::read(&message, 0), Err(refusal));
    assert_eq!(judge(Kind::Exports, &message, 0), Err(refusal));
    let last = message.len() - 1;
    assert_eq!(Exports::read(&message[..last], 0), Err(Refusal::Ends { place: last - 3, wanting: 1 }));
    assert_eq!(Exports::read(&[&message[..], &[0]].concat(), message.len() + 2), Err(Refusal::PastEnd));

    // Making one: the order of the refusals.
    let huge: &[&[u8]] = &[&long];
    let most: &[&[u8]] = &[&long[..LIMIT]];
    let too_long = Entry { dir: &long[..MNTPATHLEN + 1], groups: &[] };
    let mut out = vec![0xEE; 100];
    for (entries, refusal) in [
        (&[too_long, Entry { dir: b"", groups: huge }][..], Refusal::TooLong),
        (&[Entry { dir: &long, groups: &[] }], Refusal::TooLong),
        (&[Entry { dir: b"", groups: most }, too_long], Refusal::LongPath { place: None }),
        (&[Entry { dir: &long[..LIMIT], groups: &[] }], Refusal::LongPath { place: None }),
        (&[Entry { dir: b"", groups: most }], Refusal::TooLong),
        (&[Entry { dir: &long[..MNTPATHLEN], groups: &[] }], Refusal::NoRoom { needed: 4 + 1028 + 8 }),
    ] {
        assert_eq!(write_entries(entries, &mut out, 101), Err(Refusal::PastEnd));
        for room in [0, 100] {
            assert_eq!(write_entries(entries, &mut out[..room], 0), Err(refusal));
        }
    }
    assert!(out.iter().all(|byte| *byte == 0xEE), "a refusal writes nothing");
    // As long as may be, and a byte longer: three flags and two length words around the name.
    let mut out = vec![0; LIMIT];
    let name = |count: usize| -> [&[u8]; 1] { [&long[..count]] };
    assert_eq!(write_entries(&[Entry { dir: b"", groups: &name(LIMIT - 24) }], &mut out, 0), Ok(LIMIT));
    let refused = write_entries(&[Entry { dir: b"", groups: &name(LIMIT - 23) }], &mut out, 0);
    assert_eq!(refused, Err(Refusal::TooLong));
}

#[test]
fn a_list_can_fill_a_message() {
    let entries = vec![Entry::default(); (LIMIT - 4) / 12];
    let message = clean(&entries);
    assert_eq!(message.len(), LIMIT);
    let exports = Exports::read(&message, 0).unwrap().value;
    assert_eq!((exports.len(), exports.iter().count()), (87_381, 87_381));
    let mut out = vec![0; LIMIT];
    assert_eq!(exports.write(&mut out, 0), Ok(LIMIT));
    assert!(out == message && exports == Exports::read(&out, 0).unwrap().value);
    assert_eq!(write_entries(&entries, &mut out, 0), Ok(LIMIT));
    assert_eq!(Exports::read(&[&message[..], &[0]].concat(), 0), Err(Refusal::TooLong));
}

/// Numbers that are the same in every run.
struct Random(u64);

impl Random {
    fn next(&mut self) -> u32 {
        self.0 ^= self.0 << 13;
        self.0 ^= self.0 >> 7;
        self.0 ^= self.0 << 17;
        (self.0 >> 24) as u32
    }

    fn below(&mut self, limit: u32) -> usize {
        (self.next() % limit) as usize
    }

    fn bytes(&mut self) -> Vec<u8> {
        (0..self.below(9)).map(|_| self.next() as u8).collect()
    }
}

#[test]
fn random_lists_come_back() {
    let mut random = Random(0x9E37_79B9_7F4A_7C15);
    for _ in 0..20_000 {
        let owned: Vec<(Vec<u8>, Vec<Vec<u8>>)> =
            (0..random.below(5)).map(|_| (random.bytes(), (0..random.below(4)).map(|_| random.bytes()).collect())).collect();
        let names: Vec<Vec<&[u8]>> = owned.iter().map(|(_, names)| names.iter().map(|name| &name[..]).collect()).collect();
        let entries: Vec<Entry<'_>> = owned.iter().zip(&names).map(|((dir, _), groups)| Entry { dir, groups }).collect();
        let due = clean(&entries);
        let mut out = vec![0xEE; due.len()];
        assert_eq!(write_entries(&entries, &mut out, 0), Ok(due.len()));
        assert_eq!(out, due);
        let mut flags = Random(u64::from(random.next()) + 1);
        let mut pads = Random(u64::from(random.next()) + 1);
        let came = list(&entries, || flags.next() % 2 * (flags.next() >> 1) + 1, || (pads.next() % 3) as u8);
        let read = Exports::read(&came, 0).unwrap();
        assert_eq!((read.next, read.plain), (due.len(), came == due));
        has(read.value, &entries);
        assert_eq!(read.value, Exports::read(&due, 0).unwrap().value);
        assert_eq!(read.value.write(&mut out, 0), Ok(due.len()));
        assert_eq!(out, due);

        // Damaged, it is read or refused as `judge` says, and written as `rewrite` does.
        let mut damaged = came;
        for _ in 0..=random.below(3) {
            let place = random.below(damaged.len() as u32);
            damaged[place] = [0, 1, 2, 4, 0x80, 0xFF][random.below(6)];
        }
        damaged.truncate(damaged.len() - random.below(8).min(damaged.len()));
        let mut whole = vec![0xEE; damaged.len() + 8];
        match (Exports::read(&damaged, 0), rewrite(Kind::Exports, &damaged, 0, &mut whole)) {
            (Ok(read), Ok(done)) => {
                assert_eq!((read.next, read.plain), (done.next, done.plain));
                let mut parts = vec![0xEE; whole.len()];
                assert_eq!(read.value.write(&mut parts, 0), Ok(done.size));
                assert_eq!(parts, whole);
                let entries: Vec<_> = read.value.iter().map(|export| (export.dir, export.groups)).collect();
                let names: Vec<Vec<&[u8]>> = entries.iter().map(|(_, groups)| groups.iter().collect()).collect();
                let again: Vec<Entry<'_>> =
                    entries.iter().zip(&names).map(|((dir, _), groups)| Entry { dir, groups }).collect();
                assert_eq!(clean(&again), whole[..done.size]);
            },
            (Err(one), Err(other)) => assert_eq!(one, other),
            (one, other) => panic!("{one:?}, but {other:?}"),
        }
    }
}

#[cfg(feature = "std")]
#[test]
fn what_is_appended_is_what_is_written() {
    let long = vec![0; LIMIT + 4];
    let message = clean(ENTRIES);
    let exports = Exports::read(&message, 0).unwrap().value;
    let mut out = vec![0x55];
    exports.append(&mut out).unwrap();
    append_entries(ENTRIES, &mut out).unwrap();
    append_entries(&[], &mut out).unwrap();
    Dirpath { path: b"/exp" }.append(&mut out).unwrap();
    Mountstat3::Ok.append(&mut out).unwrap();
    Mountres3::Failed(Mountfail3::Perm).append(&mut out).unwrap();
    Mapping { prog: 1, vers: 2, prot: 3, port: 4 }.append(&mut out).unwrap();
    let rest = words(&[0, 4, 0x2F65_7870, 0, 1, 1, 2, 3, 4]);
    assert_eq!(out, [&[0x55][..], &message, &message, &rest].concat());
    assert_eq!(exports.to_vec().as_ref(), Ok(&message));
    let before = out.clone();
    let too_long = Entry { dir: &long[..MNTPATHLEN + 1], groups: &[] };
    let refusals = [
        Dirpath { path: &long[..MNTPATHLEN + 1] }.append(&mut out),
        append_entries(&[too_long], &mut out),
        Dirpath { path: &long }.append(&mut out),
        Mountres3::Ok { fhandle: &long[..LIMIT], auth_flavors: Words::default() }.append(&mut out),
    ];
    let (path, long) = (Err(Refusal::LongPath { place: None }), Err(Refusal::TooLong));
    assert_eq!(refusals, [path, path, long, long]);
    assert_eq!(out, before);
}

// ---- what is asked

/// By no credential, and by AUTH_UNIX.
const AUTHS: [&[u32]; 2] = [&[0, 0, 0, 0], &[1, 32, 9, 2, 0x6869_0000, 1, 2, 2, 4, 5, 0, 0]];

fn call(program: [u32; 3], auth: &[u32], arguments: &[u8]) -> Vec<u8> {
    [words(&[42, 0, 2]), words(&program), words(auth), arguments.to_vec()].concat()
}

/// What is asked by both credentials, given the place where the arguments begin, and where they end. Into no room at all.
fn asks(program: [u32; 3], arguments: &[u8], due: impl Fn(usize, usize, Option<AuthUnix<'static>>) -> Asked<'static>) {
    static GIDS: [u8; 8] = [0, 0, 0, 4, 0, 0, 0, 5];
    let unix = AuthUnix { stamp: 9, machinename: b"hi", uid: 1, gid: 2, gids: Words::new(&GIDS).unwrap() };
    for (auth, caller) in AUTHS.into_iter().zip([None, Some(unix)]) {
        let message = call(program, auth, arguments);
        let at = message.len() - arguments.len();
        let due = due(at, message.len(), caller);
        assert_eq!(ask(&message, false, &mut []), Ok(due));
        let mut out = [0xEE; 40];
        assert_eq!(ask(&[&message[..], &[1, 2, 3]].concat(), false, &mut out), Ok(due));
        assert_eq!(ask(&message, true, &mut out), Ok(Asked::Silent));
        for cut in 0..message.len() {
            match ask(&message[..cut], false, &mut out) {
                Err(Refusal::Ends { place, wanting }) => {
                    assert!(place <= cut && (1..=message.len() - cut).contains(&wanting), "cut at {cut}");
                },
                other => panic!("cut at {cut}: {other:?}"),
            }
        }
        assert_eq!(out, [0xEE; 40]);
    }
}

#[test]
fn calls_are_asked() {
    let (mnt, umnt, export, getport) = ([100_005, 3, 1], [100_005, 3, 3], [100_005, 3, 5], [100_000, 2, 3]);
    for path in [&b"/expo"[..], b""] {
        let path: &'static [u8] = path;
        let arguments = opaque(path);
        asks(mnt, &arguments, |_, next, caller| Asked::Mnt { xid: 42, path, next, caller });
        asks(umnt, &arguments, |_, next, caller| Asked::Umnt { xid: 42, path, next, caller });
    }
    asks(export, &[], |_, next, caller| Asked::Export { xid: 42, next, caller });
    let mapping = Mapping { prog: 100_003, vers: 3, prot: 6, port: u32::MAX };
    let arguments = words(&[100_003, 3, 6, u32::MAX]);
    asks(getport, &arguments, |_, next, caller| Asked::Getport { xid: 42, mapping, next, caller });
    for vers in [0, 2, 3, 4] {
        let due = |arguments, _, caller| Asked::HandOver { xid: 42, prog: 100_003, vers, proc: 6, arguments, caller };
        asks([100_003, vers, 6], &[], due);
    }
    // Dirty padding does not matter; the path lies in the message.
    let message = call(mnt, AUTHS[0], &[0, 0, 0, 1, b'/', 1, 2, 3]);
    match ask(&message, false, &mut []) {
        Ok(Asked::Mnt { path, next: 48, .. }) => assert!(std::ptr::eq(path, &message[44..45])),
        other => panic!("{other:?}"),
    }
}

#[test]
fn some_calls_get_a_reply() {
    let mismatch = |version: u32| vec![42, 1, 0, 0, 0, 2, version, version];
    let stat = |stat: u32| vec![42, 1, 0, 0, 0, stat];
    let mut cases = vec![([100_005, 3, 0], stat(0)), ([100_000, 2, 0], stat(0)), ([7, 3, 1], stat(1))];
    cases.extend([2, 4, 6, u32::MAX].map(|proc| ([100_005, 3, proc], stat(3))));
    cases.extend([1, 2, 4, 5, 6].map(|proc| ([100_000, 2, proc], stat(3))));
    for proc in [0, 1, 3, 5, 7] {
        cases.extend([0, 1, 2, 4, u32::MAX].map(|vers| ([100_005, vers, proc], mismatch(3))));
        cases.extend([0, 1, 3, 4, u32::MAX].map(|vers| ([100_000, vers, proc], mismatch(2))));
    }
    for (program, due) in cases {
        let due = words(&due);
        for auth in AUTHS {
            let message = call(program, auth, b"arguments");
            for room in 0..=LONGEST_REPLY + 1 {
                let mut out = vec![0xEE; room];
                let asked = ask(&message, false, &mut out);
                if room < due.len() {
                    assert_eq!(asked, Err(Refusal::NoRoom { needed: LONGEST_REPLY }), "{program:?}");
                    assert!(out.iter().all(|byte| *byte == 0xEE));
                } else {
                    assert_eq!(asked, Ok(Asked::Replied { length: due.len() }), "{program:?}");
                    assert_eq!(out[..due.len()], due, "{program:?}");
                    assert!(out[due.len()..].iter().all(|byte| *byte == 0xEE));
                }
            }
            assert_eq!(ask(&message, true, &mut []), Ok(Asked::Silent));
        }
    }
}

#[test]
fn some_calls_are_refused() {
    let mut out = [0xEE; 40];
    let long = vec![b'p'; MNTPATHLEN + 1];
    for (auth, place) in AUTHS.into_iter().zip([40, 72]) {
        for proc in [1, 3] {
            let message = call([100_005, 3, proc], auth, &opaque(&long[..MNTPATHLEN]));
            assert!(ask(&message, false, &mut out).is_ok());
            let message = call([100_005, 3, proc], auth, &opaque(&long));
            assert_eq!(ask(&message, false, &mut out), Err(Refusal::LongPath { place: Some(place) }));
            assert_eq!(ask(&message, true, &mut out), Ok(Asked::Silent));
            let cut = ask(&message[..message.len() - 1], false, &mut out);
            assert_eq!(cut, Err(Refusal::Ends { place, wanting: 1 }));
        }
    }
    assert_eq!(ask(&words(&[42, 1, 0, 0, 0, 0]), false, &mut out), Err(Refusal::ReplyCame));
    let flavor = call([100_005, 3, 5], &[4, 0, 0, 0], &[]);
    assert_eq!(ask(&flavor, false, &mut out), Err(Refusal::Undeclared { place: 24 }));
    // The credential's body lacks its list of groups.
    let body = call([100_005, 3, 5], &[1, 16, 9, 0, 1, 2, 0, 0], &[]);
    assert_eq!(ask(&body, false, &mut out), Err(Refusal::Ends { place: 48, wanting: 4 }));
    let mut whole = call([100_005, 3, 1], AUTHS[0], &opaque(b"/expo"));
    whole.resize(LIMIT, 0);
    assert!(matches!(ask(&whole, false, &mut out), Ok(Asked::Mnt { next: 52, .. })));
    whole.push(0);
    assert_eq!(ask(&whole, false, &mut out), Err(Refusal::TooLong));
    assert_eq!(out, [0xEE; 40]);
}

/// What `choose` does not hand over is answered as it does; what it does is asked, or refused for its arguments, or gets a
/// reply of its own.
#[test]
fn asking_goes_on_from_the_choice() {
    let mut random = Random(0x1234_5678_9ABC_DEF1);
    let (mut handed, mut asked, mut replies, mut refused) = (0, 0, 0, 0);
    for _ in 0..200_000 {
        let program = [[100_005, 100_000, 100_003, 7][random.below(4)], random.next() % 5, random.next() % 7];
        let mut message = call(program, AUTHS[random.below(2)], &words(&[random.next() % 9, random.next(), 3, 4]));
        if random.below(3) == 0 {
            let place = random.below(message.len() as u32);
            message[place] = [0, 1, 2, 3, 0x80, 0xFF][random.below(6)];
        }
        message.truncate(message.len() - random.below(30));
        let seen = random.below(8) == 0;
        let mut out = [0xEE; 40];
        let found = ask(&message, seen, &mut out);
        match choose(&message, seen) {
            Err(refusal) => assert_eq!(found, Err(refusal)),
            Ok(Choice::Silence) => assert_eq!(found, Ok(Asked::Silent)),
            Ok(Choice::Reply(reply)) => {
                assert_eq!((found, &out[..24]), (Ok(Asked::Replied { length: 24 }), &reply[..]));
                continue;
            },
            Ok(Choice::HandOver { prog, vers, proc, arguments, caller }) => {
                let xid = u32::from_be_bytes(message[..4].try_into().unwrap());
                let due = match (prog, vers, proc) {
                    (100_003, ..) => Ok(Asked::HandOver { xid, prog, vers, proc, arguments, caller }),
                    (100_005, 3, 1) => Dirpath::read(&message, arguments).map(|read| Asked::Mnt {
                        xid,
                        path: read.value.path,
                        next: read.next,
                        caller,
                    }),
                    (100_005, 3, 3) => Dirpath::read(&message, arguments).map(|read| Asked::Umnt {
                        xid,
                        path: read.value.path,
                        next: read.next,
                        caller,
                    }),
                    (100_005, 3, 5) => Ok(Asked::Export { xid, next: arguments, caller }),
                    (100_000, 2, 3) => Mapping::read(&message, arguments).map(|read| Asked::Getport {
                        xid,
                        mapping: read.value,
                        next: read.next,
                        caller,
                    }),
                    (100_005, 3, _) | (100_000, 2, _) => Ok(Asked::Replied { length: 24 }),
                    _ => Ok(Asked::Replied { length: 32 }),
                };
                assert_eq!(found, due, "{message:02x?}");
                match due {
                    Ok(Asked::HandOver { .. }) => handed += 1,
                    Ok(Asked::Replied { length }) => {
                        assert!(Message::read(&out[..length], 0).unwrap().plain);
                        replies += 1;
                        continue;
                    },
                    Ok(_) => asked += 1,
                    Err(_) => refused += 1,
                }
            },
        }
        assert_eq!(out, [0xEE; 40]);
    }
    println!("{handed} were handed over, {asked} asked, {replies} got a reply, {refused} were refused");
    assert!(handed > 1000 && asked > 1000 && replies > 1000 && refused > 1000);
}
