use crate::names::{figure, figures};
use crate::{part, reading, sys, written, Reading, Refusal};

/// The type of a file.
#[allow(missing_docs)]
#[derive(Clone, Copy, Debug, PartialEq, Eq, Hash)]
#[repr(u32)]
pub enum Ftype3 {
    Reg = 1,
    Dir = 2,
    Blk = 3,
    Chr = 4,
    Lnk = 5,
    Sock = 6,
    Fifo = 7,
}

impl Ftype3 {
    fn of(number: u64) -> Option<Ftype3> {
        Some(match number {
            1 => Ftype3::Reg,
            2 => Ftype3::Dir,
            3 => Ftype3::Blk,
            4 => Ftype3::Chr,
            5 => Ftype3::Lnk,
            6 => Ftype3::Sock,
            7 => Ftype3::Fifo,
            _ => return None,
        })
    }
}

/// A device's two numbers.
#[allow(missing_docs)]
#[derive(Clone, Copy, Debug, Default, PartialEq, Eq, Hash)]
pub struct Specdata3 {
    pub specdata1: u32,
    pub specdata2: u32,
}

/// A time since 1970.
#[allow(missing_docs)]
#[derive(Clone, Copy, Debug, Default, PartialEq, Eq, Hash, PartialOrd, Ord)]
pub struct Nfstime3 {
    pub seconds: u32,
    pub nseconds: u32,
}

/// The attributes of a file: `fattr3`.
#[allow(missing_docs)]
#[derive(Clone, Copy, Debug, PartialEq, Eq, Hash)]
pub struct Fattr3 {
    pub ftype: Ftype3,
    pub mode: u32,
    pub nlink: u32,
    pub uid: u32,
    pub gid: u32,
    pub size: u64,
    pub used: u64,
    pub rdev: Specdata3,
    pub fsid: u64,
    pub fileid: u64,
    pub atime: Nfstime3,
    pub mtime: Nfstime3,
    pub ctime: Nfstime3,
}

impl Fattr3 {
    /// The bytes of every `fattr3`.
    pub const SIZE: usize = 84;

    /// Reads from place `at` of `bytes`. Every `fattr3` that is read is plain.
    ///
    /// # Errors
    /// `Ends`, `Undeclared` (the type), `TooLong` and `PastEnd`.
    pub fn read(bytes: &[u8], at: usize) -> Result<Reading<Fattr3>, Refusal> {
        let mut info = [0; figures::FATTR3];
        let answer = sys::read_fattr3(bytes, at, &mut info);
        let word = |place: usize| info[place] as u32;
        let time = |seconds, nseconds| Nfstime3 { seconds: word(seconds), nseconds: word(nseconds) };
        reading(answer, &info, || {
            Some(Fattr3 {
                ftype: Ftype3::of(info[figure::FATTR3_TYPE])?,
                mode: word(figure::FATTR3_MODE),
                nlink: word(figure::FATTR3_NLINK),
                uid: word(figure::FATTR3_UID),
                gid: word(figure::FATTR3_GID),
                size: info[figure::FATTR3_SIZE],
                used: info[figure::FATTR3_USED],
                rdev: Specdata3 { specdata1: word(figure::FATTR3_SPECDATA1), specdata2: word(figure::FATTR3_SPECDATA2) },
                fsid: info[figure::FATTR3_FSID],
                fileid: info[figure::FATTR3_FILEID],
                atime: time(figure::FATTR3_ATIME_SECONDS, figure::FATTR3_ATIME_NSECONDS),
                mtime: time(figure::FATTR3_MTIME_SECONDS, figure::FATTR3_MTIME_NSECONDS),
                ctime: time(figure::FATTR3_CTIME_SECONDS, figure::FATTR3_CTIME_NSECONDS),
            })
        })
    }

    /// Writes from place `start` of `out`, and gives the place after it. All other bytes stay.
    ///
    /// ```
    /// use yugerzat::{Fattr3, Ftype3, Nfstime3, Specdata3};
    ///
    /// let now = Nfstime3 { seconds: 1_800_000_000, nseconds: 0 };
    /// let attributes = Fattr3 {
    ///     ftype: Ftype3::Reg, mode: 0o644, nlink: 1, uid: 1000, gid: 1000, size: 12, used: 4096,
    ///     rdev: Specdata3::default(), fsid: 1, fileid: 7, atime: now, mtime: now, ctime: now,
    /// };
    /// let mut reply = [0; 100];
    /// assert_eq!(attributes.write(&mut reply, 4)?, 4 + Fattr3::SIZE);
    /// assert_eq!(Fattr3::read(&reply, 4)?.value, attributes);
    /// # Ok::<(), yugerzat::Refusal>(())
    /// ```
    ///
    /// # Errors
    /// `PastEnd` and `NoRoom`.
    pub fn write(&self, out: &mut [u8], start: usize) -> Result<usize, Refusal> {
        let mut list = [0; figures::FATTR3];
        list[figure::FATTR3_TYPE] = self.ftype as u64;
        list[figure::FATTR3_MODE] = self.mode.into();
        list[figure::FATTR3_NLINK] = self.nlink.into();
        list[figure::FATTR3_UID] = self.uid.into();
        list[figure::FATTR3_GID] = self.gid.into();
        list[figure::FATTR3_SIZE] = self.size;
        list[figure::FATTR3_USED] = self.used;
        list[figure::FATTR3_SPECDATA1] = self.rdev.specdata1.into();
        list[figure::FATTR3_SPECDATA2] = self.rdev.specdata2.into();
        list[figure::FATTR3_FSID] = self.fsid;
        list[figure::FATTR3_FILEID] = self.fileid;
        list[figure::FATTR3_ATIME_SECONDS] = self.atime.seconds.into();
        list[figure::FATTR3_ATIME_NSECONDS] = self.atime.nseconds.into();
        list[figure::FATTR3_MTIME_SECONDS] = self.mtime.seconds.into();
        list[figure::FATTR3_MTIME_NSECONDS] = self.mtime.nseconds.into();
        list[figure::FATTR3_CTIME_SECONDS] = self.ctime.seconds.into();
        list[figure::FATTR3_CTIME_NSECONDS] = self.ctime.nseconds.into();
        let mut info = [0; figures::WRITTEN];
        written(sys::write_fattr3(&list[figure::FIELDS..], out, start, &mut info), info)
    }
}

/// How a time is set: `set_atime` and `set_mtime`.
#[derive(Clone, Copy, Debug, Default, PartialEq, Eq, Hash)]
pub enum SetTime {
    /// It stays.
    #[default]
    DontChange,
    /// To the server's time.
    ToServerTime,
    /// To this time.
    ToClientTime(Nfstime3),
}

impl SetTime {
    fn of(how: u64, seconds: u64, nseconds: u64) -> Option<SetTime> {
        Some(match how {
            0 => SetTime::DontChange,
            1 => SetTime::ToServerTime,
            2 => SetTime::ToClientTime(Nfstime3 { seconds: seconds as u32, nseconds: nseconds as u32 }),
            _ => return None,
        })
    }

    fn figures(self) -> [u64; 3] {
        match self {
            SetTime::DontChange => [0; 3],
            SetTime::ToServerTime => [1, 0, 0],
            SetTime::ToClientTime(time) => [2, time.seconds.into(), time.nseconds.into()],
        }
    }
}

/// A change of attributes, what is set: `sattr3`.
#[allow(missing_docs)]
#[derive(Clone, Copy, Debug, Default, PartialEq, Eq, Hash)]
pub struct Sattr3 {
    pub mode: Option<u32>,
    pub uid: Option<u32>,
    pub gid: Option<u32>,
    pub size: Option<u64>,
    pub atime: SetTime,
    pub mtime: SetTime,
}

impl Sattr3 {
    /// Reads from place `at` of `bytes`. Every flag but 0 says that a value is set; it is plain if all are 0 or 1.
    ///
    /// # Errors
    /// `Ends`, `Undeclared` (how a time is set), `TooLong` and `PastEnd`.
    pub fn read(bytes: &[u8], at: usize) -> Result<Reading<Sattr3>, Refusal> {
        let mut info = [0; figures::SATTR3];
        let answer = sys::read_sattr3(bytes, at, &mut info);
        let set = |flag: usize, value: usize| (info[flag] != 0).then_some(info[value]);
        let word = |flag: usize, value: usize| (info[flag] != 0).then_some(info[value] as u32);
        let time = |how: usize, seconds: usize, nseconds: usize| SetTime::of(info[how], info[seconds], info[nseconds]);
        reading(answer, &info, || {
            Some(Sattr3 {
                mode: word(figure::SATTR3_MODE_SET, figure::SATTR3_MODE),
                uid: word(figure::SATTR3_UID_SET, figure::SATTR3_UID),
                gid: word(figure::SATTR3_GID_SET, figure::SATTR3_GID),
                size: set(figure::SATTR3_SIZE_SET, figure::SATTR3_SIZE),
                atime: time(figure::SATTR3_ATIME_HOW, figure::SATTR3_ATIME_SECONDS, figure::SATTR3_ATIME_NSECONDS)?,
                mtime: time(figure::SATTR3_MTIME_HOW, figure::SATTR3_MTIME_SECONDS, figure::SATTR3_MTIME_NSECONDS)?,
            })
        })
    }

    /// Writes from place `start` of `out`, 24 to 60 bytes, and gives the place after it. All other bytes stay.
    ///
    /// ```
    /// use yugerzat::{Sattr3, SetTime};
    ///
    /// let change = Sattr3 { mode: Some(0o600), mtime: SetTime::ToServerTime, ..Sattr3::default() };
    /// let mut out = [0; 60];
    /// assert_eq!(change.write(&mut out, 0)?, 28);
    /// assert_eq!(Sattr3::read(&out, 0)?.value, change);
    /// # Ok::<(), yugerzat::Refusal>(())
    /// ```
    ///
    /// # Errors
    /// `PastEnd` and `NoRoom`.
    pub fn write(&self, out: &mut [u8], start: usize) -> Result<usize, Refusal> {
        let mut list = [0; figures::SATTR3];
        let values = [
            (figure::SATTR3_MODE_SET, figure::SATTR3_MODE, self.mode.map(u64::from)),
            (figure::SATTR3_UID_SET, figure::SATTR3_UID, self.uid.map(u64::from)),
            (figure::SATTR3_GID_SET, figure::SATTR3_GID, self.gid.map(u64::from)),
            (figure::SATTR3_SIZE_SET, figure::SATTR3_SIZE, self.size),
        ];
        for (flag, place, value) in values {
            list[flag] = value.is_some().into();
            list[place] = value.unwrap_or(0);
        }
        list[figure::SATTR3_ATIME_HOW..=figure::SATTR3_ATIME_NSECONDS].copy_from_slice(&self.atime.figures());
        list[figure::SATTR3_MTIME_HOW..=figure::SATTR3_MTIME_NSECONDS].copy_from_slice(&self.mtime.figures());
        let mut info = [0; figures::WRITTEN];
        written(sys::write_sattr3(&list[figure::FIELDS..], out, start, &mut info), info)
    }
}

/// A name in a directory: `diropargs3`.
#[derive(Clone, Copy, Debug, Default, PartialEq, Eq, Hash)]
pub struct Diropargs3<'a> {
    /// The bytes of the directory's handle.
    pub dir: &'a [u8],
    /// The bytes of the name.
    pub name: &'a [u8],
}

impl<'a> Diropargs3<'a> {
    /// Reads from place `at` of `bytes`. It is plain if all padding is zero.
    ///
    /// ```
    /// use yugerzat::Diropargs3;
    ///
    /// let message = [0, 0, 0, 1, 0xAA, 0, 0, 0, 0, 0, 0, 2, b'h', b'i', 0, 0];
    /// let read = Diropargs3::read(&message, 0)?;
    /// assert_eq!(read.value, Diropargs3 { dir: &[0xAA], name: b"hi" });
    ///
    /// let mut out = [0; 16];
    /// assert_eq!(read.value.write(&mut out, 0)?, 16);
    /// assert_eq!(out, message);
    /// # Ok::<(), yugerzat::Refusal>(())
    /// ```
    ///
    /// # Errors
    /// `Ends`, `TooLong` and `PastEnd`.
    pub fn read(bytes: &'a [u8], at: usize) -> Result<Reading<Diropargs3<'a>>, Refusal> {
        let mut info = [0; figures::DIROPARGS3];
        let answer = sys::read_diropargs3(bytes, at, &mut info);
        reading(answer, &info, || {
            Some(Diropargs3 {
                dir: part(bytes, info[figure::DIROPARGS3_DIR_AT], info[figure::DIROPARGS3_DIR_COUNT])?,
                name: part(bytes, info[figure::DIROPARGS3_NAME_AT], info[figure::DIROPARGS3_NAME_COUNT])?,
            })
        })
    }

    /// Writes from place `start` of `out`, and gives the place after it. All other bytes stay.
    ///
    /// # Errors
    /// `PastEnd`, `TooLong` (the handle, the name or the whole) and `NoRoom`.
    pub fn write(&self, out: &mut [u8], start: usize) -> Result<usize, Refusal> {
        let mut list = [0; figures::DIROPARGS3];
        list[figure::DIROPARGS3_DIR_COUNT] = self.dir.len() as u64;
        list[figure::DIROPARGS3_NAME_COUNT] = self.name.len() as u64;
        let mut info = [0; figures::WRITTEN];
        written(sys::write_diropargs3(self.dir, self.name, &list[figure::FIELDS..], out, start, &mut info), info)
    }
}
