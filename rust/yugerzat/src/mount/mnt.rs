use core::fmt;

use crate::names::figures;
use crate::procedures::fields::{taken, whole, Laying, Taking, Whole};
use crate::procedures::status::enumeration;
use crate::{sys, written, Kind, Reading, Refusal, UnknownNumber, Words};

/// The most bytes that a path may have.
pub const MNTPATHLEN: usize = 1024;

/// A path: `dirpath`, the arguments of MNT and UMNT.
///
/// ```
/// use yugerzat::mount::Dirpath;
///
/// let message = [0, 0, 0, 4, b'/', b'e', b'x', b'p'];
/// let read = Dirpath::read(&message, 0)?;
/// assert_eq!((read.value, read.next, read.plain), (Dirpath { path: b"/exp" }, 8, true));
///
/// let mut out = [0; 8];
/// assert_eq!(read.value.write(&mut out, 0)?, 8);
/// assert_eq!(out, message);
/// # Ok::<(), yugerzat::Refusal>(())
/// ```
#[derive(Clone, Copy, Debug, Default, PartialEq, Eq, Hash)]
pub struct Dirpath<'a> {
    /// Its bytes, at most [`MNTPATHLEN`].
    pub path: &'a [u8],
}

impl<'a> Dirpath<'a> {
    /// Reads from place `at` of `bytes`. It is plain if its padding is zero. Refusals, `next` and `plain` are those of
    /// [`judge`](crate::judge), which is proved; that the bytes are those of the message is tested.
    ///
    /// # Errors
    /// `Ends`, `LongPath`, `TooLong` and `PastEnd`.
    pub fn read(bytes: &'a [u8], at: usize) -> Result<Reading<Dirpath<'a>>, Refusal> {
        taken(Kind::Dirpath, bytes, at, |from| Ok(Dirpath { path: from.opaque()? }))
    }

    /// Writes from place `start` of `out`, and gives the place after it. All other bytes stay.
    ///
    /// # Errors
    /// `PastEnd`, `TooLong`, `LongPath` and `NoRoom`, in this order.
    pub fn write(&self, out: &mut [u8], start: usize) -> Result<usize, Refusal> {
        let mut info = [0; figures::WRITTEN];
        written(sys::write_dirpath(self.path, self.path.len(), out, start, &mut info), info)
    }
}

enumeration! {
    /// Why a MNT failed: `mountstat3` without `MNT3_OK` (RFC 1813, section 5.1.5), so that no failure can be a success.
    ///
    /// ```
    /// use yugerzat::mount::Mountfail3;
    ///
    /// assert_eq!(Mountfail3::try_from(13), Ok(Mountfail3::Acces));
    /// assert_eq!((Mountfail3::Acces.name(), Mountfail3::Acces.number()), ("MNT3ERR_ACCES", 13));
    /// assert!(Mountfail3::try_from(0).is_err() && Mountfail3::try_from(3).is_err());
    /// ```
    Mountfail3:
    Perm "MNT3ERR_PERM" 1 "the caller is not the owner",
    NoEnt "MNT3ERR_NOENT" 2 "there is no such file or directory",
    Io "MNT3ERR_IO" 5 "a device failed",
    Acces "MNT3ERR_ACCES" 13 "the caller may not do this",
    NotDir "MNT3ERR_NOTDIR" 20 "it is not a directory",
    Inval "MNT3ERR_INVAL" 22 "an argument is not valid",
    NameTooLong "MNT3ERR_NAMETOOLONG" 63 "the name is too long",
    NotSupp "MNT3ERR_NOTSUPP" 10004 "the server does not do this",
    ServerFault "MNT3ERR_SERVERFAULT" 10006 "the server failed",
}

#[cfg(feature = "std")]
impl std::error::Error for Mountfail3 {}

/// The status that the results of MNT begin with: `mountstat3`.
#[derive(Clone, Copy, Debug, PartialEq, Eq, Hash)]
pub enum Mountstat3 {
    /// `MNT3_OK`
    Ok,
    /// Why it failed.
    Failed(Mountfail3),
}

impl Mountstat3 {
    /// The number that RFC 1813 has for it.
    #[must_use]
    pub const fn number(self) -> u32 {
        match self {
            Mountstat3::Ok => 0,
            Mountstat3::Failed(failure) => failure.number(),
        }
    }

    /// The name that RFC 1813 has for it.
    #[must_use]
    pub const fn name(self) -> &'static str {
        match self {
            Mountstat3::Ok => "MNT3_OK",
            Mountstat3::Failed(failure) => failure.name(),
        }
    }
}

impl fmt::Display for Mountstat3 {
    fn fmt(&self, f: &mut fmt::Formatter<'_>) -> fmt::Result {
        f.pad(self.name())
    }
}

impl TryFrom<u32> for Mountstat3 {
    type Error = UnknownNumber;

    /// That of a number, as RFC 1813 has it.
    fn try_from(number: u32) -> Result<Mountstat3, UnknownNumber> {
        match number {
            0 => Ok(Mountstat3::Ok),
            number => Mountfail3::try_from(number).map(Mountstat3::Failed),
        }
    }
}

whole!(Mountstat3, "`Ends`, `Undeclared`, `TooLong` and `PastEnd`.", "`PastEnd` and `NoRoom`.");

impl Whole<'_> for Mountstat3 {
    const KIND: Kind = Kind::Mountstat3;

    fn take(from: &mut Taking<'_>) -> Result<Self, Refusal> {
        from.number()
    }

    fn lay(&self, to: &mut Laying<'_>) -> Result<(), Refusal> {
        to.word(self.number())
    }
}

/// The results of MNT: `mountres3`.
///
/// ```
/// use yugerzat::mount::{Mountfail3, Mountres3};
///
/// let read = Mountres3::read(&[0, 0, 0, 13], 0)?;
/// assert_eq!(read.value, Mountres3::Failed(Mountfail3::Acces));
/// # Ok::<(), yugerzat::Refusal>(())
/// ```
#[derive(Clone, Copy, Debug, PartialEq, Eq, Hash)]
pub enum Mountres3<'a> {
    /// `MNT3_OK`: the directory can be used.
    Ok {
        /// The bytes of its handle.
        fhandle: &'a [u8],
        /// The flavors of credentials that a client may use with it.
        auth_flavors: Words<'a>,
    },
    /// Why it failed.
    Failed(Mountfail3),
}

impl Mountres3<'_> {
    /// The status that it begins with.
    #[must_use]
    pub const fn status(&self) -> Mountstat3 {
        match self {
            Mountres3::Ok { .. } => Mountstat3::Ok,
            Mountres3::Failed(failure) => Mountstat3::Failed(*failure),
        }
    }
}

whole!(
    Mountres3<'a>,
    "`Ends`, `Undeclared` (the status), `TooLong` and `PastEnd`.",
    "`PastEnd`, `TooLong` (the handle, the flavors or the whole) and `NoRoom`."
);

impl<'a> Whole<'a> for Mountres3<'a> {
    const KIND: Kind = Kind::Mountres3;

    fn take(from: &mut Taking<'a>) -> Result<Self, Refusal> {
        Ok(match from.number()? {
            Mountstat3::Ok => Mountres3::Ok { fhandle: from.opaque()?, auth_flavors: from.words()? },
            Mountstat3::Failed(failure) => Mountres3::Failed(failure),
        })
    }

    fn lay(&self, to: &mut Laying<'_>) -> Result<(), Refusal> {
        to.word(self.status().number())?;
        match self {
            Mountres3::Ok { fhandle, auth_flavors } => {
                to.opaque(fhandle)?;
                to.words(*auth_flavors)
            },
            Mountres3::Failed(_) => Ok(()),
        }
    }
}
