//! Random arguments and results, laid out here by hand as RFC 1813 has them: their fields are read as they were laid, plain
//! or loose, and written back in published form. Where such a message is damaged, reading and writing agree with [`judge`]
//! and [`rewrite`].
use yugerzat::*;

const ROUNDS: u32 = 20_000;

/// A message under way. Each function lays a field of some value, and gives the value.
struct Lay {
    random: u64,
    /// In published form.
    clean: Vec<u8>,
    /// The same, perhaps with odd flags and dirty padding.
    came: Vec<u8>,
}

impl Lay {
    /// Numbers that are the same in every run.
    fn random(&mut self) -> u32 {
        self.random ^= self.random << 13;
        self.random ^= self.random >> 7;
        self.random ^= self.random << 17;
        (self.random >> 24) as u32
    }

    fn below(&mut self, limit: u32) -> u32 {
        self.random() % limit
    }

    fn number(&mut self, number: u32) {
        self.clean.extend(number.to_be_bytes());
        self.came.extend(number.to_be_bytes());
    }

    fn word(&mut self) -> u32 {
        let word = match self.below(8) {
            0 => 0,
            1 => u32::MAX,
            2..=4 => self.below(9),
            _ => self.random(),
        };
        self.number(word);
        word
    }

    fn hyper(&mut self) -> u64 {
        u64::from(self.word()) << 32 | u64::from(self.word())
    }

    fn flag(&mut self) -> bool {
        let flag = self.below(2);
        self.clean.extend(flag.to_be_bytes());
        let odd = if flag == 1 && self.below(4) == 0 { self.random().max(1) } else { flag };
        self.came.extend(odd.to_be_bytes());
        flag == 1
    }

    fn optional<T>(&mut self, value: impl FnOnce(&mut Lay) -> T) -> Option<T> {
        self.flag().then(|| value(self))
    }

    fn opaque(&mut self) -> Vec<u8> {
        let count = self.below(13);
        let content: Vec<u8> = (0..count).map(|_| self.random() as u8).collect();
        self.number(count);
        self.clean.extend(&content);
        self.came.extend(&content);
        let dirty = self.below(4) == 0;
        while self.clean.len() % 4 > 0 {
            self.clean.push(0);
            let dirt = if dirty { self.random() as u8 } else { 0 };
            self.came.push(dirt);
        }
        content
    }

    fn time(&mut self) -> Nfstime3 {
        Nfstime3 { seconds: self.word(), nseconds: self.word() }
    }

    fn set_time(&mut self) -> SetTime {
        let how = self.below(3);
        self.number(how);
        match how {
            0 => SetTime::DontChange,
            1 => SetTime::ToServerTime,
            _ => SetTime::ToClientTime(self.time()),
        }
    }

    fn sattr3(&mut self) -> Sattr3 {
        Sattr3 {
            mode: self.optional(Lay::word),
            uid: self.optional(Lay::word),
            gid: self.optional(Lay::word),
            size: self.optional(Lay::hyper),
            atime: self.set_time(),
            mtime: self.set_time(),
        }
    }

    fn fattr3(&mut self) -> Fattr3 {
        let types = [Ftype3::Reg, Ftype3::Dir, Ftype3::Blk, Ftype3::Chr, Ftype3::Lnk, Ftype3::Sock, Ftype3::Fifo];
        let ftype = self.below(7);
        self.number(ftype + 1);
        Fattr3 {
            ftype: types[ftype as usize],
            mode: self.word(),
            nlink: self.word(),
            uid: self.word(),
            gid: self.word(),
            size: self.hyper(),
            used: self.hyper(),
            rdev: Specdata3 { specdata1: self.word(), specdata2: self.word() },
            fsid: self.hyper(),
            fileid: self.hyper(),
            atime: self.time(),
            mtime: self.time(),
            ctime: self.time(),
        }
    }

    fn wcc_data(&mut self) -> WccData {
        WccData {
            before: self.optional(|lay| WccAttr { size: lay.hyper(), mtime: lay.time(), ctime: lay.time() }),
            after: self.optional(Lay::fattr3),
        }
    }

    fn stable(&mut self) -> StableHow {
        let stable = self.below(3);
        self.number(stable);
        [StableHow::Unstable, StableHow::DataSync, StableHow::FileSync][stable as usize]
    }

    /// A status: no failure, or one of some.
    fn failure(&mut self) -> Option<Nfsfail3> {
        let statuses = [
            (0, None),
            (1, Some(Nfsfail3::Perm)),
            (13, Some(Nfsfail3::Acces)),
            (70, Some(Nfsfail3::Stale)),
            (10008, Some(Nfsfail3::Jukebox)),
        ];
        let (number, failure) = statuses[self.below(8).saturating_sub(3) as usize];
        self.number(number);
        failure
    }

    /// What came, with a byte or a word changed, or cut.
    fn damaged(&mut self) -> Vec<u8> {
        let mut bytes = self.came.clone();
        let place = self.below(bytes.len() as u32) as usize;
        match self.below(3) {
            0 => bytes[place] = self.random() as u8,
            1 => {
                let word = match self.below(3) {
                    0 => self.below(9),
                    1 => self.below(40),
                    _ => self.random(),
                };
                bytes[place / 4 * 4..][..4].copy_from_slice(&word.to_be_bytes());
            },
            _ => bytes.truncate(place),
        }
        bytes
    }
}

/// Compares what came of a damaged message (the next place, whether it was plain, and what was written) with judging and
/// rewriting it. Gives whether it was taken.
fn agree(kind: Kind, bytes: &[u8], read: Result<(usize, bool, Vec<u8>), Refusal>) -> bool {
    let mut out = vec![0xEE; 400];
    assert_eq!(read.as_ref().map_err(|refusal| *refusal).map(|read| (read.0, read.1)), {
        judge(kind, bytes, 0).map(|judged| (judged.next, judged.plain))
    });
    match (rewrite(kind, bytes, 0, &mut out), read) {
        (Ok(rewritten), Ok((next, plain, written))) => {
            assert_eq!(written, out[..rewritten.size], "{kind} {bytes:02x?}");
            assert_eq!(plain, written == bytes[..next], "{kind} {bytes:02x?}");
            true
        },
        (Err(one), Err(other)) => {
            assert_eq!(one, other, "{kind} {bytes:02x?}");
            false
        },
        (one, other) => panic!("{kind} {bytes:02x?}: {one:?}, but {other:?}"),
    }
}

/// Lays values of a type, and tries each. `$fields` lays what is borrowed, and `$value` is the value over it.
macro_rules! tried {
    ($type:ident, |$lay:ident| $fields:expr, $borrowed:pat => $value:expr) => {{
        let (mut lay, mut loose, mut taken) = (Lay { random: 0x9E37_79B9_7F4A_7C15, clean: vec![], came: vec![] }, 0, 0);
        for _ in 0..ROUNDS {
            lay.clean.clear();
            lay.came.clear();
            let fields = {
                let $lay = &mut lay;
                $fields
            };
            let $borrowed = &fields;
            let value: $type = $value;

            let (size, plain) = (lay.clean.len(), lay.came == lay.clean);
            let read = $type::read(&lay.came, 0).unwrap_or_else(|refusal| panic!("{refusal}: {value:?}"));
            assert_eq!(read, Reading { value, next: size, plain });
            let mut out = vec![0xEE; size + 2];
            assert_eq!(value.write(&mut out, 1), Ok(size + 1));
            assert_eq!((out[0], &out[1..=size], out[size + 1]), (0xEE, &lay.clean[..], 0xEE), "{value:?}");
            assert_eq!($type::read(&out, 1), Ok(Reading { value, next: size + 1, plain: true }));
            loose += u32::from(!plain);

            let damaged = lay.damaged();
            let read = $type::read(&damaged, 0).map(|read| {
                let mut out = vec![0xEE; 400];
                let size = read.value.write(&mut out, 0).expect("there is room");
                (read.next, read.plain, out[..size].to_vec())
            });
            taken += u32::from(agree(Kind::$type, &damaged, read));
        }
        println!("{loose} of {ROUNDS} were loose; {taken} of {ROUNDS} damaged ones were taken");
        assert!(taken > 1000 && taken < ROUNDS);
        loose
    }};
}

#[test]
fn getattr_has_its_fields() {
    let loose = tried!(Getattr3args, |lay| lay.opaque(), object => Getattr3args { object });
    assert!(loose > 1000);
    let loose = tried!(
        Getattr3res,
        |lay| match lay.failure() {
            None => Getattr3res::Ok(Getattr3resok { obj_attributes: lay.fattr3() }),
            Some(failure) => Getattr3res::Failed(failure),
        },
        value => *value
    );
    // Nothing in it can be loose.
    assert_eq!(loose, 0);
}

#[test]
fn setattr_has_its_fields() {
    let loose = tried!(
        Setattr3args,
        |lay| (lay.opaque(), lay.sattr3(), lay.optional(Lay::time)),
        (object, new_attributes, guard) => Setattr3args { object, new_attributes: *new_attributes, guard: *guard }
    );
    assert!(loose > 1000);
    let loose = tried!(
        Setattr3res,
        |lay| match (lay.failure(), lay.wcc_data()) {
            (None, obj_wcc) => Setattr3res::Ok(Setattr3resok { obj_wcc }),
            (Some(failure), obj_wcc) => Setattr3res::Failed(failure, Setattr3resfail { obj_wcc }),
        },
        value => *value
    );
    assert!(loose > 1000);
}

#[test]
fn lookup_has_its_fields() {
    let loose = tried!(
        Lookup3args,
        |lay| (lay.opaque(), lay.opaque()),
        (dir, name) => Lookup3args { what: Diropargs3 { dir, name } }
    );
    assert!(loose > 1000);
    let loose = tried!(
        Lookup3res,
        |lay| match lay.failure() {
            None => Ok((lay.opaque(), lay.optional(Lay::fattr3), lay.optional(Lay::fattr3))),
            Some(failure) => Err((failure, lay.optional(Lay::fattr3))),
        },
        fields => match fields {
            Ok((object, obj_attributes, dir_attributes)) => Lookup3res::Ok(Lookup3resok {
                object,
                obj_attributes: *obj_attributes,
                dir_attributes: *dir_attributes,
            }),
            Err((failure, dir_attributes)) => {
                Lookup3res::Failed(*failure, Lookup3resfail { dir_attributes: *dir_attributes })
            },
        }
    );
    assert!(loose > 1000);
}

#[test]
fn read_has_its_fields() {
    let loose = tried!(
        Read3args,
        |lay| (lay.opaque(), lay.hyper(), lay.word()),
        (file, offset, count) => Read3args { file, offset: *offset, count: *count }
    );
    assert!(loose > 1000);
    let loose = tried!(
        Read3res,
        |lay| match (lay.failure(), lay.optional(Lay::fattr3)) {
            (None, file_attributes) => Ok((file_attributes, lay.word(), lay.flag(), lay.opaque())),
            (Some(failure), file_attributes) => Err((failure, file_attributes)),
        },
        fields => match fields {
            Ok((file_attributes, count, eof, data)) => {
                Read3res::Ok(Read3resok { file_attributes: *file_attributes, count: *count, eof: *eof, data })
            },
            Err((failure, file_attributes)) => {
                Read3res::Failed(*failure, Read3resfail { file_attributes: *file_attributes })
            },
        }
    );
    assert!(loose > 1000);
}

#[test]
fn write_has_its_fields() {
    let loose = tried!(
        Write3args,
        |lay| (lay.opaque(), lay.hyper(), lay.word(), lay.stable(), lay.opaque()),
        (file, offset, count, stable, data) => {
            Write3args { file, offset: *offset, count: *count, stable: *stable, data }
        }
    );
    assert!(loose > 1000);
    let loose = tried!(
        Write3res,
        |lay| match (lay.failure(), lay.wcc_data()) {
            (None, file_wcc) => Write3res::Ok(Write3resok {
                file_wcc,
                count: lay.word(),
                committed: lay.stable(),
                verf: lay.hyper().to_be_bytes(),
            }),
            (Some(failure), file_wcc) => Write3res::Failed(failure, Write3resfail { file_wcc }),
        },
        value => *value
    );
    assert!(loose > 1000);
}
