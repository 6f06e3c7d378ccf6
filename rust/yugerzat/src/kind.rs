use core::fmt;
use core::iter::FusedIterator;
use core::str::FromStr;

use crate::names::{answer, figure, figures};
use crate::{sys, Refusal};

macro_rules! kinds {
    ($($kind:ident $name:literal,)*) => {
        /// A kind of message, under the name of its RFC. More may be added. Those whose names begin with `Current` are of
        /// the [current reading](crate::current) of replies.
        ///
        /// ```
        /// use yugerzat::Kind;
        ///
        /// assert_eq!("sattr3".parse(), Ok(Kind::Sattr3));
        /// assert_eq!(Kind::try_from(44), Ok(Kind::Sattr3));
        /// assert_eq!((Kind::Sattr3.name(), Kind::Sattr3.number()), ("sattr3", 44));
        /// assert_eq!(Kind::all().next(), Some(Kind::Bool));
        /// assert!("sattr".parse::<Kind>().is_err());
        /// ```
        #[derive(Clone, Copy, Debug, PartialEq, Eq, Hash, PartialOrd, Ord)]
        #[non_exhaustive]
        #[repr(u32)]
        pub enum Kind {
            $(
                #[doc = concat!("`", $name, "`")]
                $kind,
            )*
        }

        impl Kind {
            /// In the order of their numbers.
            const ALL: [Kind; [$($name),*].len()] = [$(Kind::$kind),*];

            /// The name that the RFC and the crate nfsserve have for it, with `current_` before it in the current reading.
            #[must_use]
            pub const fn name(self) -> &'static str {
                match self {
                    $(Kind::$kind => $name,)*
                }
            }
        }
    };
}

// In the order of kinds.txt, which numbers them.
// made by tools/generate: kinds
kinds! {
    Bool "bool",
    I32 "i32",
    I64 "i64",
    U32 "u32",
    U64 "u64",
    Eight "eight",
    Opaque "opaque",
    Nfsstring "nfsstring",
    Words "words",
    MsgType "msg_type",
    ReplyStat "reply_stat",
    AcceptStat "accept_stat",
    RejectStat "reject_stat",
    AuthStat "auth_stat",
    AuthFlavor "auth_flavor",
    TimeHow "time_how",
    Nfsstat3 "nfsstat3",
    Ftype3 "ftype3",
    AuthUnix "auth_unix",
    OpaqueAuth "opaque_auth",
    RpcMsg "rpc_msg",
    RpcBody "rpc_body",
    CallBody "call_body",
    ReplyBody "reply_body",
    AcceptedReply "accepted_reply",
    AcceptBody "accept_body",
    RejectedReply "rejected_reply",
    MismatchInfo "mismatch_info",
    Specdata3 "specdata3",
    NfsFh3 "nfs_fh3",
    Nfstime3 "nfstime3",
    Fattr3 "fattr3",
    Fsinfo3 "fsinfo3",
    WccAttr "wcc_attr",
    PreOpAttr "pre_op_attr",
    PostOpAttr "post_op_attr",
    WccData "wcc_data",
    PostOpFh3 "post_op_fh3",
    SetMode3 "set_mode3",
    SetUid3 "set_uid3",
    SetGid3 "set_gid3",
    SetSize3 "set_size3",
    SetAtime "set_atime",
    SetMtime "set_mtime",
    Sattr3 "sattr3",
    Diropargs3 "diropargs3",
    Symlinkdata3 "symlinkdata3",
    StableHow "stable_how",
    Sattrguard3 "sattrguard3",
    Getattr3args "getattr3args",
    Getattr3res "getattr3res",
    Setattr3args "setattr3args",
    Setattr3res "setattr3res",
    Lookup3args "lookup3args",
    Lookup3res "lookup3res",
    Read3args "read3args",
    Read3res "read3res",
    Write3args "write3args",
    Write3res "write3res",
    CurrentAcceptStat "current_accept_stat",
    CurrentAuthStat "current_auth_stat",
    CurrentAcceptBody "current_accept_body",
    CurrentAcceptedReply "current_accepted_reply",
    CurrentRejectedReply "current_rejected_reply",
    CurrentReplyBody "current_reply_body",
    CurrentRpcBody "current_rpc_body",
    CurrentRpcMsg "current_rpc_msg",
    Dirpath "dirpath",
    Mountstat3 "mountstat3",
    Mountres3 "mountres3",
    Exports "exports",
    Mapping "mapping",
}
// end of kinds

impl Kind {
    /// The number that C programs have for it.
    #[must_use]
    pub const fn number(self) -> u32 {
        self as u32
    }

    /// Every kind, in the order of their numbers.
    #[must_use]
    pub fn all() -> impl ExactSizeIterator<Item = Kind> + DoubleEndedIterator + FusedIterator + Clone {
        Kind::ALL.into_iter()
    }
}

impl fmt::Display for Kind {
    fn fmt(&self, f: &mut fmt::Formatter<'_>) -> fmt::Result {
        f.pad(self.name())
    }
}

/// There is no kind of that name or number.
#[derive(Clone, Copy, Debug, PartialEq, Eq, Hash)]
#[non_exhaustive]
pub struct UnknownKind;

impl fmt::Display for UnknownKind {
    fn fmt(&self, f: &mut fmt::Formatter<'_>) -> fmt::Result {
        f.write_str("there is no kind of message of that name or number")
    }
}

#[cfg(feature = "std")]
impl std::error::Error for UnknownKind {}

impl FromStr for Kind {
    type Err = UnknownKind;

    /// The kind of a name, as [`Kind::name`] has it.
    fn from_str(name: &str) -> Result<Kind, UnknownKind> {
        Kind::all().find(|kind| kind.name() == name).ok_or(UnknownKind)
    }
}

impl TryFrom<u32> for Kind {
    type Error = UnknownKind;

    /// The kind of a number, as [`Kind::number`] has it.
    fn try_from(number: u32) -> Result<Kind, UnknownKind> {
        Kind::all().find(|kind| kind.number() == number).ok_or(UnknownKind)
    }
}

/// What [`judge`] found.
#[derive(Clone, Copy, Debug, PartialEq, Eq, Hash)]
pub struct Judged {
    /// The place after what was read.
    pub next: usize,
    /// Whether that was in published form.
    pub plain: bool,
    /// How many bytes its rewriting has.
    pub size: usize,
}

/// Reads a message of a kind from place `at` of `bytes`, and says whether it is plain and how long its rewriting is. Nothing
/// is written.
///
/// ```
/// use yugerzat::{judge, Judged, Kind, Refusal};
///
/// assert_eq!(judge(Kind::Bool, &[0, 0, 1, 0], 0), Ok(Judged { next: 4, plain: false, size: 4 }));
/// assert_eq!(judge(Kind::Bool, &[0, 0], 0), Err(Refusal::Ends { place: 0, wanting: 2 }));
/// ```
///
/// # Errors
/// `Ends`, `Undeclared`, `TooLong` and `PastEnd`, and `LongPath` of the kinds that hold paths.
#[inline]
pub fn judge(kind: Kind, bytes: &[u8], at: usize) -> Result<Judged, Refusal> {
    let mut info = [0; figures::JUDGE];
    match sys::judge(kind, bytes, at, &mut info) {
        answer::DONE => Ok(Judged {
            next: info[figure::NEXT] as usize,
            plain: info[figure::PLAIN] == 1,
            size: info[figure::JUDGE_SIZE] as usize,
        }),
        answer => Err(Refusal::of(answer, info[figure::PLACE], info[figure::WANTING], 0)),
    }
}

/// What [`rewrite`] did.
#[derive(Clone, Copy, Debug, PartialEq, Eq, Hash)]
pub struct Rewritten {
    /// The place after what was read.
    pub next: usize,
    /// Whether that was in published form.
    pub plain: bool,
    /// How many bytes were written.
    pub size: usize,
}

/// Reads a message of a kind from place `at` of `bytes`, and writes it in published form from the start of `out`.
///
/// Two messages of a kind are the same exactly when their rewritings are equal bytes, and a rewriting is its own
/// rewriting. It is never longer than the larger of 40 bytes and the bytes read.
///
/// ```
/// use yugerzat::{rewrite, Kind, Rewritten};
///
/// let mut out = [0xEE; 6];
/// let done = rewrite(Kind::Bool, &[0, 0, 1, 0], 0, &mut out)?;
/// assert_eq!(done, Rewritten { next: 4, plain: false, size: 4 });
/// assert_eq!(out, [0, 0, 0, 1, 0xEE, 0xEE]);
/// # Ok::<(), yugerzat::Refusal>(())
/// ```
///
/// # Errors
/// Those of [`judge`], and `NoRoom` where `out` is too short.
#[inline]
pub fn rewrite(kind: Kind, bytes: &[u8], at: usize, out: &mut [u8]) -> Result<Rewritten, Refusal> {
    let mut info = [0; figures::REWRITE];
    match sys::rewrite(kind, bytes, at, out, &mut info) {
        answer::DONE => Ok(Rewritten {
            next: info[figure::NEXT] as usize,
            plain: info[figure::PLAIN] == 1,
            size: info[figure::REWRITE_SIZE] as usize,
        }),
        answer => Err(Refusal::of(answer, info[figure::PLACE], info[figure::WANTING], info[figure::REWRITE_SIZE])),
    }
}
