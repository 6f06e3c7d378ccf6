//! Writing to the end of a `Vec`: each function asks how many bytes are needed, makes room for them, and writes.
use std::vec::Vec;

use crate::mount::{Dirpath, Exports, Mapping, Mountres3, Mountstat3};
use crate::{
    current, judge, rewrite, write_fragment, Arguments, AuthUnix, Call, Diropargs3, Fattr3, Getattr3args, Getattr3res, Kind,
    Lookup3args, Lookup3res, Message, Read3args, Read3res, Refusal, Reply, Results, Rewritten, Sattr3, Setattr3args,
    Setattr3res, Write3args, Write3res,
};

/// Makes room for `size` bytes at the end of `out` and has them written. A refusal leaves `out` as it was.
fn fill<T>(out: &mut Vec<u8>, size: usize, write: impl Fn(&mut [u8]) -> Result<T, Refusal>) -> Result<T, Refusal> {
    let start = out.len();
    out.resize(start + size, 0);
    let done = write(&mut out[start..]);
    if done.is_err() {
        out.truncate(start);
    }
    done
}

/// Appends what `write` writes from the start of a slice.
pub(crate) fn append(out: &mut Vec<u8>, write: impl Fn(&mut [u8]) -> Result<usize, Refusal>) -> Result<(), Refusal> {
    // Whatever is written has bytes, so that writing without room is refused, and the refusal says how many are needed.
    match write(&mut []) {
        Err(Refusal::NoRoom { needed }) => fill(out, needed, write).map(drop),
        other => other.map(drop),
    }
}

macro_rules! appending {
    ($($type:ty: $errors:literal;)*) => { $(
        impl $type {
            /// Appends it to `out`, as `write` would write it. A refusal leaves `out` as it was.
            ///
            /// # Errors
            #[doc = $errors]
            pub fn append(&self, out: &mut Vec<u8>) -> Result<(), Refusal> {
                append(out, |room| self.write(room, 0))
            }
        }
    )* };
}
appending! {
    Fattr3: "None in practice: there is always room.";
    Sattr3: "None in practice: there is always room.";
    Diropargs3<'_>: "`TooLong`: the handle, the name or the whole.";
    AuthUnix<'_>: "`TooLong`: the name, the groups or the whole.";
    Message<'_>: "`TooLong`: a body or the whole.";
    current::Message<'_>: "`TooLong`: a body or the whole.";
    Getattr3args<'_>: "`TooLong`: the handle or the whole.";
    Getattr3res: "None in practice: there is always room.";
    Setattr3args<'_>: "`TooLong`: the handle or the whole.";
    Setattr3res: "None in practice: there is always room.";
    Lookup3args<'_>: "`TooLong`: the handle, the name or the whole.";
    Lookup3res<'_>: "`TooLong`: the handle or the whole.";
    Read3args<'_>: "`TooLong`: the handle or the whole.";
    Read3res<'_>: "`TooLong`: the data or the whole.";
    Write3args<'_>: "`TooLong`: the handle, the data or the whole.";
    Write3res: "None in practice: there is always room.";
    Arguments<'_>: "`TooLong`: a part or the whole.";
    Results<'_>: "`TooLong`: a part or the whole.";
    Dirpath<'_>: "`TooLong` and `LongPath`.";
    Mountstat3: "None in practice: there is always room.";
    Mountres3<'_>: "`TooLong`: the handle, the flavors or the whole.";
    Exports<'_>: "None in practice: there is always room.";
    Mapping: "None in practice: there is always room.";
}

impl Call<'_> {
    /// Appends an `rpc_msg` with this call to `out`; the arguments go behind it. A refusal leaves `out` as it was.
    ///
    /// ```
    /// use yugerzat::{Call, Diropargs3, Lookup3args, Procedure};
    ///
    /// let mut message = Vec::new();
    /// let proc = Procedure::Lookup.number();
    /// Call { rpcvers: 2, prog: 100_003, vers: 3, proc, ..Call::default() }.append(42, &mut message)?;
    /// Lookup3args { what: Diropargs3 { dir: &[1, 2, 3, 4], name: b"notes" } }.append(&mut message)?;
    /// assert_eq!(message.len(), 40 + 8 + 12);
    /// # Ok::<(), yugerzat::Refusal>(())
    /// ```
    ///
    /// # Errors
    /// `TooLong`: a body or the whole.
    pub fn append(&self, xid: u32, out: &mut Vec<u8>) -> Result<(), Refusal> {
        append(out, |room| self.write(xid, room, 0))
    }
}

/// Replies of both readings.
macro_rules! appending_replies {
    ($($type:ty),*) => { $(
        impl $type {
            /// Appends an `rpc_msg` with this reply to `out`; the results of a `Success` go behind it. A refusal leaves
            /// `out` as it was.
            ///
            /// # Errors
            /// `TooLong`: the verifier's body or the whole.
            pub fn append(&self, xid: u32, out: &mut Vec<u8>) -> Result<(), Refusal> {
                append(out, |room| self.write(xid, room, 0))
            }
        }
    )* };
}
appending_replies!(Reply<'_>, current::Reply<'_>);

/// Reads a message of a kind from place `at` of `bytes`, and appends it to `out` in published form; as [`rewrite`], which
/// has more about it. A refusal leaves `out` as it was.
///
/// ```
/// use yugerzat::{append_rewriting, Kind};
///
/// let mut out = vec![0x77];
/// let done = append_rewriting(Kind::Bool, &[0xFF, 0xFF, 0xFF, 0xFF], 0, &mut out)?;
/// assert!(!done.plain);
/// assert_eq!(out, [0x77, 0, 0, 0, 1]);
/// # Ok::<(), yugerzat::Refusal>(())
/// ```
///
/// # Errors
/// Those of [`judge`].
pub fn append_rewriting(kind: Kind, bytes: &[u8], at: usize, out: &mut Vec<u8>) -> Result<Rewritten, Refusal> {
    let judged = judge(kind, bytes, at)?;
    fill(out, judged.size, |room| rewrite(kind, bytes, at, room))
}

/// Appends a message to `out` as a record's only fragment: a header of four bytes, and the message. A refusal leaves `out`
/// as it was.
///
/// ```
/// let mut out = Vec::new();
/// yugerzat::append_fragment(b"abc", &mut out)?;
/// assert_eq!(out, [0x80, 0, 0, 3, b'a', b'b', b'c']);
/// # Ok::<(), yugerzat::Refusal>(())
/// ```
///
/// # Errors
/// `TooLong`.
pub fn append_fragment(message: &[u8], out: &mut Vec<u8>) -> Result<(), Refusal> {
    append(out, |room| write_fragment(message, room, 0))
}
