//! The kinds of message, as docs/SCOPE.md and the RFCs lay them out. The model reads by these shapes, and the cases are
//! made by them. They are written from the documents and not from the crate, so that a misreading of either shows.

/// How a message is laid out.
pub enum Shape {
    /// Four bytes.
    Word,
    /// Eight bytes, a number.
    Hyper,
    /// Eight bytes, no number.
    Eight,
    /// A word; every number but 0 is true.
    Flag,
    /// A length word, so many bytes, and padding to a multiple of four.
    Opaque,
    /// A count word, and so many words.
    WordList,
    /// A word, with the numbers it may be.
    Closed(&'static [u32]),
    /// One after another.
    Record(&'static [&'static Shape]),
    /// A flag, then the value if it is true.
    Optional(&'static Shape),
    /// A tag, then the value of its arm.
    Union { arms: &'static [(u32, &'static Shape)], undeclared: Undeclared },
    /// A status out of a list, then the one value if it is 0, and the other if it is a failure.
    Status { of: &'static [u32], ok: &'static Shape, fail: &'static Shape },
    /// An opaque that has at most `MNTPATHLEN` bytes. A longer one is refused once the whole message is read.
    Path,
    /// Values, each behind a true flag, and a false flag behind the last.
    Chain(&'static Shape),
}

/// The longest path of the mount protocol, in bytes.
pub const MNTPATHLEN: usize = 1_024;

impl Shape {
    /// Whether a message of it may have an opaque or a word list.
    pub fn has_pieces(&self) -> bool {
        match self {
            Shape::Opaque | Shape::WordList | Shape::Path => true,
            Shape::Record(fields) => fields.iter().any(|field| field.has_pieces()),
            Shape::Optional(value) | Shape::Chain(value) => value.has_pieces(),
            Shape::Union { arms, .. } => arms.iter().any(|(_, arm)| arm.has_pieces()),
            Shape::Status { ok, fail, .. } => ok.has_pieces() || fail.has_pieces(),
            Shape::Word | Shape::Hyper | Shape::Eight | Shape::Flag | Shape::Closed(_) => false,
        }
    }
}

impl Shape {
    /// How many pieces a message of it has that has no further case to choose.
    pub fn pieces(&self) -> usize {
        match self {
            Shape::Opaque | Shape::WordList | Shape::Path | Shape::Chain(_) => 1,
            Shape::Record(fields) => fields.iter().map(|field| field.pieces()).sum(),
            _ => 0,
        }
    }
}

/// What a tag without an arm is.
pub enum Undeclared {
    /// Refusal 2.
    Refused,
    /// A message that is written as these words; nothing more is read.
    WrittenAs(&'static [u32]),
}

use Shape::{Chain, Closed, Eight, Flag, Hyper, Opaque, Optional, Path, Record, Status, Union, Word, WordList};

const TWO: &[u32] = &[0, 1];
/// The success comes first.
pub const NFSSTAT3: &[u32] = &[
    0, 1, 2, 5, 6, 13, 17, 18, 19, 20, 21, 22, 27, 28, 30, 31, 63, 66, 69, 70, 71, 10001, 10002, 10003, 10004, 10005, 10006,
    10007, 10008,
];
/// The success comes first here too.
pub const MOUNTSTAT3: &[u32] = &[0, 1, 2, 5, 13, 20, 22, 63, 10004, 10006];

pub const NOTHING: Shape = Record(&[]);
const AUTH_FLAVOR: Shape = Closed(&[0, 1, 2, 3]);
const FTYPE3: Shape = Closed(&[1, 2, 3, 4, 5, 6, 7]);
pub const AUTH_UNIX: Shape = Record(&[&Word, &Opaque, &Word, &Word, &WordList]);
const OPAQUE_AUTH: Shape = Record(&[&AUTH_FLAVOR, &Opaque]);
const CALL_BODY: Shape = Record(&[&Word, &Word, &Word, &Word, &OPAQUE_AUTH, &OPAQUE_AUTH]);
pub const TWO_WORDS: Shape = Record(&[&Word, &Word]);

/// How replies are read: which of the numbers of RFC 5531 are declared in them.
#[derive(Clone, Copy, Debug, PartialEq, Eq)]
pub enum Reading {
    /// As nfsserve reads them, by older lists.
    Crate,
    /// As RFC 5531 has them. nfsserve has no such reading.
    Current,
}

impl Reading {
    pub const BOTH: [Reading; 2] = [Reading::Crate, Reading::Current];

    /// From 0 on, without a gap.
    pub const fn accept_stats(self) -> &'static [u32] {
        match self {
            Reading::Crate => &[0, 1, 2, 3, 4],
            Reading::Current => &[0, 1, 2, 3, 4, 5],
        }
    }

    pub const fn auth_stats(self) -> &'static [u32] {
        match self {
            Reading::Crate => &[1, 2, 3, 4, 5],
            Reading::Current => &[0, 1, 2, 3, 4, 5, 6, 7, 8, 9, 10, 11, 12, 13, 14],
        }
    }

    /// What the reply to a call of another version of RPC names as the lowest version served, and as the highest.
    pub const fn version(self) -> u32 {
        match self {
            Reading::Crate => 0,
            Reading::Current => 2,
        }
    }

    pub fn rpc_msg(self) -> &'static Shape {
        match self {
            Reading::Crate => &Crate::RPC_MSG,
            Reading::Current => &Current::RPC_MSG,
        }
    }

    pub const fn other(self) -> Reading {
        match self {
            Reading::Crate => Reading::Current,
            Reading::Current => Reading::Crate,
        }
    }

    /// What the names of its kinds and functions begin with.
    pub const fn prefix(self) -> &'static str {
        match self {
            Reading::Crate => "",
            Reading::Current => "current_",
        }
    }
}

/// The kinds that are not the same in both readings, over a reading. Nothing else of them differs.
struct Replies<const CURRENT: bool>;
type Crate = Replies<false>;
type Current = Replies<true>;

/// What the statuses of an accepted reply announce, in the order of their numbers.
const ACCEPTED: &[(u32, &Shape)] =
    &[(0, &NOTHING), (1, &NOTHING), (2, &TWO_WORDS), (3, &NOTHING), (4, &NOTHING), (5, &NOTHING)];

impl<const CURRENT: bool> Replies<CURRENT> {
    const READING: Reading = if CURRENT { Reading::Current } else { Reading::Crate };
    const ACCEPT_STAT: Shape = Closed(Self::READING.accept_stats());
    const AUTH_STAT: Shape = Closed(Self::READING.auth_stats());
    const ACCEPT_BODY: Shape =
        Union { arms: ACCEPTED.split_at(Self::READING.accept_stats().len()).0, undeclared: Undeclared::WrittenAs(&[4]) };
    const ACCEPTED_REPLY: Shape = Record(&[&OPAQUE_AUTH, &Self::ACCEPT_BODY]);
    const REJECTED_REPLY: Shape =
        Union { arms: &[(0, &TWO_WORDS), (1, &Self::AUTH_STAT)], undeclared: Undeclared::WrittenAs(&[0, 0, 0]) };
    const REPLY_BODY: Shape = Union {
        arms: &[(0, &Self::ACCEPTED_REPLY), (1, &Self::REJECTED_REPLY)],
        undeclared: Undeclared::WrittenAs(&[0, 0, 0, 0]),
    };
    const RPC_BODY: Shape = Union {
        arms: &[(0, &CALL_BODY), (1, &Self::REPLY_BODY)],
        undeclared: Undeclared::WrittenAs(&[0, 0, 0, 0, 0, 0, 0, 0, 0]),
    };
    const RPC_MSG: Shape = Record(&[&Word, &Self::RPC_BODY]);
}

const FATTR3: Shape = Record(&[
    &FTYPE3, &Word, &Word, &Word, &Word, &Hyper, &Hyper, &TWO_WORDS, &Hyper, &Hyper, &TWO_WORDS, &TWO_WORDS, &TWO_WORDS,
]);
const WCC_ATTR: Shape = Record(&[&Hyper, &TWO_WORDS, &TWO_WORDS]);
const PRE_OP_ATTR: Shape = Optional(&WCC_ATTR);
const POST_OP_ATTR: Shape = Optional(&FATTR3);
const FSINFO3: Shape = Record(&[&POST_OP_ATTR, &Word, &Word, &Word, &Word, &Word, &Word, &Word, &Hyper, &TWO_WORDS, &Word]);
const SET_WORD: Shape = Optional(&Word);
const SET_SIZE3: Shape = Optional(&Hyper);
const SET_TIME: Shape = Union { arms: &[(0, &NOTHING), (1, &NOTHING), (2, &TWO_WORDS)], undeclared: Undeclared::Refused };
const SATTR3: Shape = Record(&[&SET_WORD, &SET_WORD, &SET_WORD, &SET_SIZE3, &SET_TIME, &SET_TIME]);
const DIROPARGS3: Shape = Record(&[&Opaque, &Opaque]);
const WCC_DATA: Shape = Record(&[&PRE_OP_ATTR, &POST_OP_ATTR]);
const STABLE_HOW: Shape = Closed(&[0, 1, 2]);
const SATTRGUARD3: Shape = Optional(&TWO_WORDS);
const LOOKUP3RESOK: Shape = Record(&[&Opaque, &POST_OP_ATTR, &POST_OP_ATTR]);
const READ3RESOK: Shape = Record(&[&POST_OP_ATTR, &Word, &Flag, &Opaque]);
const WRITE3RESOK: Shape = Record(&[&WCC_DATA, &Word, &STABLE_HOW, &Eight]);
const MOUNTRES3OK: Shape = Record(&[&Opaque, &WordList]);
/// An entry of an export list behind its flag: a path, and names.
const EXPORT: Shape = Record(&[&Path, &Chain(&Opaque)]);

/// The kinds in the order of kinds.txt; a kind's number is its index.
pub static KINDS: [(&str, Shape); 72] = [
    ("bool", Flag),
    ("i32", Word),
    ("i64", Hyper),
    ("u32", Word),
    ("u64", Hyper),
    ("eight", Eight),
    ("opaque", Opaque),
    ("nfsstring", Opaque),
    ("words", WordList),
    ("msg_type", Closed(TWO)),
    ("reply_stat", Closed(TWO)),
    ("accept_stat", Crate::ACCEPT_STAT),
    ("reject_stat", Closed(TWO)),
    ("auth_stat", Crate::AUTH_STAT),
    ("auth_flavor", AUTH_FLAVOR),
    ("time_how", Closed(&[0, 1, 2])),
    ("nfsstat3", Closed(NFSSTAT3)),
    ("ftype3", FTYPE3),
    ("auth_unix", AUTH_UNIX),
    ("opaque_auth", OPAQUE_AUTH),
    ("rpc_msg", Crate::RPC_MSG),
    ("rpc_body", Crate::RPC_BODY),
    ("call_body", CALL_BODY),
    ("reply_body", Crate::REPLY_BODY),
    ("accepted_reply", Crate::ACCEPTED_REPLY),
    ("accept_body", Crate::ACCEPT_BODY),
    ("rejected_reply", Crate::REJECTED_REPLY),
    ("mismatch_info", TWO_WORDS),
    ("specdata3", TWO_WORDS),
    ("nfs_fh3", Opaque),
    ("nfstime3", TWO_WORDS),
    ("fattr3", FATTR3),
    ("fsinfo3", FSINFO3),
    ("wcc_attr", WCC_ATTR),
    ("pre_op_attr", PRE_OP_ATTR),
    ("post_op_attr", POST_OP_ATTR),
    ("wcc_data", WCC_DATA),
    ("post_op_fh3", Optional(&Opaque)),
    ("set_mode3", SET_WORD),
    ("set_uid3", SET_WORD),
    ("set_gid3", SET_WORD),
    ("set_size3", SET_SIZE3),
    ("set_atime", SET_TIME),
    ("set_mtime", SET_TIME),
    ("sattr3", SATTR3),
    ("diropargs3", DIROPARGS3),
    ("symlinkdata3", Record(&[&SATTR3, &Opaque])),
    ("stable_how", STABLE_HOW),
    ("sattrguard3", SATTRGUARD3),
    ("getattr3args", Opaque),
    ("getattr3res", Status { of: NFSSTAT3, ok: &FATTR3, fail: &NOTHING }),
    ("setattr3args", Record(&[&Opaque, &SATTR3, &SATTRGUARD3])),
    ("setattr3res", Status { of: NFSSTAT3, ok: &WCC_DATA, fail: &WCC_DATA }),
    ("lookup3args", DIROPARGS3),
    ("lookup3res", Status { of: NFSSTAT3, ok: &LOOKUP3RESOK, fail: &POST_OP_ATTR }),
    ("read3args", Record(&[&Opaque, &Hyper, &Word])),
    ("read3res", Status { of: NFSSTAT3, ok: &READ3RESOK, fail: &POST_OP_ATTR }),
    ("write3args", Record(&[&Opaque, &Hyper, &Word, &STABLE_HOW, &Opaque])),
    ("write3res", Status { of: NFSSTAT3, ok: &WRITE3RESOK, fail: &WCC_DATA }),
    ("current_accept_stat", Current::ACCEPT_STAT),
    ("current_auth_stat", Current::AUTH_STAT),
    ("current_accept_body", Current::ACCEPT_BODY),
    ("current_accepted_reply", Current::ACCEPTED_REPLY),
    ("current_rejected_reply", Current::REJECTED_REPLY),
    ("current_reply_body", Current::REPLY_BODY),
    ("current_rpc_body", Current::RPC_BODY),
    ("current_rpc_msg", Current::RPC_MSG),
    ("dirpath", Path),
    ("mountstat3", Closed(MOUNTSTAT3)),
    ("mountres3", Status { of: MOUNTSTAT3, ok: &MOUNTRES3OK, fail: &NOTHING }),
    ("exports", Chain(&EXPORT)),
    ("mapping", Record(&[&Word, &Word, &Word, &Word])),
];

/// The kinds that are not in nfsserve's list. The RFCs decide what they are. The model is the only judge of all but those of
/// `MOUNTING`.
pub const LACKED: [&str; 25] = [
    "stable_how",
    "sattrguard3",
    "getattr3args",
    "getattr3res",
    "setattr3args",
    "setattr3res",
    "lookup3args",
    "lookup3res",
    "read3args",
    "read3res",
    "write3args",
    "write3res",
    "current_accept_stat",
    "current_auth_stat",
    "current_accept_body",
    "current_accepted_reply",
    "current_rejected_reply",
    "current_reply_body",
    "current_rpc_body",
    "current_rpc_msg",
    "dirpath",
    "mountstat3",
    "mountres3",
    "exports",
    "mapping",
];

/// The kinds of the mount protocol and of the port mapper. nfsserve has every item of them, which can be asked one by one.
pub const MOUNTING: [&str; 5] = ["dirpath", "mountstat3", "mountres3", "exports", "mapping"];

/// The number of a kind.
pub fn kind(name: &str) -> Option<usize> {
    KINDS.iter().position(|(n, _)| *n == name)
}
