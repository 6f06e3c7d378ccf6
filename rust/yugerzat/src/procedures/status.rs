use core::fmt;

/// An enumeration of RFC 1813: numbers, names, and what they mean.
macro_rules! enumeration {
    ($(#[$about:meta])* $type:ident: $($value:ident $name:literal $number:literal $meaning:literal,)*) => {
        $(#[$about])*
        #[derive(Clone, Copy, Debug, PartialEq, Eq, Hash, PartialOrd, Ord)]
        #[repr(u32)]
        pub enum $type {
            $(
                #[doc = concat!("`", $name, "`, ", $number, ": ", $meaning, ".")]
                $value = $number,
            )*
        }

        impl $type {
            /// The number that RFC 1813 has for it.
            #[must_use]
            pub const fn number(self) -> u32 {
                self as u32
            }

            /// The name that RFC 1813 has for it.
            #[must_use]
            pub const fn name(self) -> &'static str {
                match self {
                    $($type::$value => $name,)*
                }
            }
        }

        impl fmt::Display for $type {
            fn fmt(&self, f: &mut fmt::Formatter<'_>) -> fmt::Result {
                f.pad(self.name())
            }
        }

        impl TryFrom<u32> for $type {
            type Error = UnknownNumber;

            /// That of a number, as RFC 1813 has it.
            fn try_from(number: u32) -> Result<$type, UnknownNumber> {
                match number {
                    $($number => Ok($type::$value),)*
                    _ => Err(UnknownNumber),
                }
            }
        }
    };
}

pub(crate) use enumeration;

enumeration! {
    /// Why a procedure failed: `nfsstat3` without `NFS3_OK` (RFC 1813, section 2.6), so that no failure can be a success.
    ///
    /// ```
    /// use yugerzat::Nfsfail3;
    ///
    /// assert_eq!(Nfsfail3::try_from(70), Ok(Nfsfail3::Stale));
    /// assert_eq!((Nfsfail3::Stale.name(), Nfsfail3::Stale.number()), ("NFS3ERR_STALE", 70));
    /// assert!(Nfsfail3::try_from(0).is_err() && Nfsfail3::try_from(3).is_err());
    /// ```
    Nfsfail3:
    Perm "NFS3ERR_PERM" 1 "the caller is neither the owner nor privileged",
    NoEnt "NFS3ERR_NOENT" 2 "there is no such file or directory",
    Io "NFS3ERR_IO" 5 "a device failed",
    Nxio "NFS3ERR_NXIO" 6 "there is no such device or address",
    Acces "NFS3ERR_ACCES" 13 "the caller may not do this",
    Exist "NFS3ERR_EXIST" 17 "the file exists already",
    Xdev "NFS3ERR_XDEV" 18 "a hard link cannot lead to another device",
    NoDev "NFS3ERR_NODEV" 19 "there is no such device",
    NotDir "NFS3ERR_NOTDIR" 20 "it is not a directory",
    IsDir "NFS3ERR_ISDIR" 21 "it is a directory",
    Inval "NFS3ERR_INVAL" 22 "an argument is not valid, or not supported for this object",
    Fbig "NFS3ERR_FBIG" 27 "the file would be larger than the server can have it",
    NoSpc "NFS3ERR_NOSPC" 28 "there is no space left",
    Rofs "NFS3ERR_ROFS" 30 "the file system can only be read",
    Mlink "NFS3ERR_MLINK" 31 "there are too many hard links",
    NameTooLong "NFS3ERR_NAMETOOLONG" 63 "the name is too long",
    NotEmpty "NFS3ERR_NOTEMPTY" 66 "the directory is not empty",
    Dquot "NFS3ERR_DQUOT" 69 "the user's quota is used up",
    Stale "NFS3ERR_STALE" 70 "the handle's file is gone, or no longer to be had by it",
    Remote "NFS3ERR_REMOTE" 71 "the handle's file is on a file system that is not the server's own",
    BadHandle "NFS3ERR_BADHANDLE" 10001 "the handle is not one of the server's",
    NotSync "NFS3ERR_NOT_SYNC" 10002 "the guard of a SETATTR does not hold",
    BadCookie "NFS3ERR_BAD_COOKIE" 10003 "the cookie of a READDIR or READDIRPLUS is stale",
    NotSupp "NFS3ERR_NOTSUPP" 10004 "the server does not do this",
    TooSmall "NFS3ERR_TOOSMALL" 10005 "a buffer or a request is too small",
    ServerFault "NFS3ERR_SERVERFAULT" 10006 "none of the others fits what happened on the server",
    BadType "NFS3ERR_BADTYPE" 10007 "the server cannot make an object of this type",
    Jukebox "NFS3ERR_JUKEBOX" 10008 "it takes longer; the call is to be made again later, with a new xid",
}

#[cfg(feature = "std")]
impl std::error::Error for Nfsfail3 {}

enumeration! {
    /// How safely a WRITE stores its data: `stable_how` (RFC 1813, section 3.3.7).
    StableHow:
    Unstable "UNSTABLE" 0 "as the server likes",
    DataSync "DATA_SYNC" 1 "the data is on stable storage, and what is needed to find it",
    FileSync "FILE_SYNC" 2 "the data and all attributes of the file are on stable storage",
}

/// RFC 1813 does not declare that number.
#[derive(Clone, Copy, Debug, PartialEq, Eq, Hash)]
#[non_exhaustive]
pub struct UnknownNumber;

impl fmt::Display for UnknownNumber {
    fn fmt(&self, f: &mut fmt::Formatter<'_>) -> fmt::Result {
        f.write_str("that number is not declared")
    }
}

#[cfg(feature = "std")]
impl std::error::Error for UnknownNumber {}
