use crate::kind::Kind;
use crate::names::{answer, figure, figures};
use crate::{sys, Refusal};

/// The pieces of each kind, in the order of its fields, for each case that has any.
#[rustfmt::skip]
const PIECES: &[(Kind, &[&str])] = &[
    // made by tools/generate: pieces
    (Kind::Opaque, &["opaque"]),
    (Kind::Nfsstring, &["nfsstring"]),
    (Kind::Words, &["words"]),
    (Kind::AuthUnix, &["machinename", "gids"]),
    (Kind::OpaqueAuth, &["body"]),
    (Kind::RpcMsg, &["cred.body", "verf.body"]),
    (Kind::RpcMsg, &["verf.body"]),
    (Kind::RpcBody, &["cred.body", "verf.body"]),
    (Kind::RpcBody, &["verf.body"]),
    (Kind::CallBody, &["cred.body", "verf.body"]),
    (Kind::ReplyBody, &["verf.body"]),
    (Kind::AcceptedReply, &["verf.body"]),
    (Kind::NfsFh3, &["data"]),
    (Kind::PostOpFh3, &["handle.data"]),
    (Kind::Diropargs3, &["dir.data", "name"]),
    (Kind::Symlinkdata3, &["symlink_data"]),
    (Kind::Getattr3args, &["object.data"]),
    (Kind::Setattr3args, &["object.data"]),
    (Kind::Lookup3args, &["what.dir.data", "what.name"]),
    (Kind::Lookup3res, &["object.data"]),
    (Kind::Read3args, &["file.data"]),
    (Kind::Read3res, &["data"]),
    (Kind::Write3args, &["file.data", "data"]),
    (Kind::CurrentAcceptedReply, &["verf.body"]),
    (Kind::CurrentReplyBody, &["verf.body"]),
    (Kind::CurrentRpcBody, &["cred.body", "verf.body"]),
    (Kind::CurrentRpcBody, &["verf.body"]),
    (Kind::CurrentRpcMsg, &["cred.body", "verf.body"]),
    (Kind::CurrentRpcMsg, &["verf.body"]),
    (Kind::Dirpath, &["dirpath"]),
    (Kind::Mountres3, &["fhandle", "auth_flavors"]),
    (Kind::Exports, &["exports"]),
    // end of pieces
];

/// What [`marks`] found.
#[derive(Clone, Copy, Debug, PartialEq, Eq, Hash)]
pub struct Marked {
    /// The place after what was read.
    pub next: usize,
    /// Whether that was in published form.
    pub plain: bool,
    kind: Kind,
    pieces: usize,
    clean: [bool; 2],
}

impl Marked {
    /// The pieces of the message, in the order of its fields, each with its mark: whether it is clean, which is that the
    /// padding behind it was all zero. A field of a field has the names of both: `dir.data`. What is one piece itself, as an
    /// `opaque` is, has the name of its kind.
    ///
    /// ```
    /// use yugerzat::{marks, Kind};
    ///
    /// // A directory's handle, AA, and a name, BB, with dirt behind it.
    /// let came = [0, 0, 0, 1, 0xAA, 0, 0, 0, 0, 0, 0, 1, 0xBB, 0, 0, 0xCC];
    /// let found = marks(Kind::Diropargs3, &came, 0)?;
    /// assert!(found.pieces().eq([("dir.data", true), ("name", false)]));
    /// # Ok::<(), yugerzat::Refusal>(())
    /// ```
    pub fn pieces(&self) -> impl Iterator<Item = (&'static str, bool)> {
        names(self.kind, self.pieces).iter().copied().zip(self.clean)
    }

    /// The names of the dirty fields. If there are none and the message is not [`plain`](Marked::plain), a flag in it is odd,
    /// or a tag is not declared.
    ///
    /// ```
    /// use yugerzat::{marks, Kind};
    ///
    /// let came = [0, 0, 0, 1, 0xAA, 0, 0, 0, 0, 0, 0, 1, 0xBB, 0, 0, 0xCC];
    /// assert!(marks(Kind::Diropargs3, &came, 0)?.dirty_fields().eq(["name"]));
    /// # Ok::<(), yugerzat::Refusal>(())
    /// ```
    pub fn dirty_fields(&self) -> impl Iterator<Item = &'static str> {
        self.pieces().filter(|piece| !piece.1).map(|piece| piece.0)
    }
}

/// The names of the pieces of a kind that has so many.
fn names(kind: Kind, pieces: usize) -> &'static [&'static str] {
    PIECES.iter().find(|row| row.0 == kind && row.1.len() == pieces).map_or(&[], |row| row.1)
}

/// Reads a message of a kind from place `at` of `bytes`, and says of each of its pieces (names, handles, credentials: opaque
/// bytes) whether the padding behind it was all zero. Nothing is written.
///
/// A mark is no part of the message. Where no flag is odd and no tag undeclared, the message is plain exactly if no piece is
/// dirty. A list of words is always clean, and an export list is one piece over all its entries.
///
/// # Errors
/// Those of [`judge`](crate::judge).
pub fn marks(kind: Kind, bytes: &[u8], at: usize) -> Result<Marked, Refusal> {
    let mut info = [0; figures::MARKS];
    match sys::marks(kind.number(), bytes, at, &mut info) {
        answer::DONE => Ok(Marked {
            next: info[figure::NEXT] as usize,
            plain: info[figure::PLAIN] == 1,
            kind,
            pieces: info[figure::MARKS_PIECES] as usize,
            clean: [info[figure::MARKS_FIRST] == 1, info[figure::MARKS_SECOND] == 1],
        }),
        answer => Err(Refusal::of(answer, info[figure::PLACE], info[figure::WANTING], 0)),
    }
}
