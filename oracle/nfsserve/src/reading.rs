//! Reading a message with the crate, and writing again what it read.
use std::io::ErrorKind;

use crate::nfs::*;
use crate::rpc::*;
use crate::xdr::XDR;

#[derive(Clone, Copy, Debug, PartialEq, Eq)]
pub enum Reading {
    /// Taken; so many bytes were used.
    Took(usize),
    /// `UnexpectedEof`: refusal 1.
    Short,
    /// `InvalidData`: refusal 2.
    Undeclared,
    /// Any other error: docs/SCOPE.md has no refusal for it.
    Other(ErrorKind),
}

/// `value` is what an unread message of the kind is: the crate reads into it.
pub(crate) fn read_into<T: XDR>(mut value: T, source: &[u8], rewriting: &mut Vec<u8>) -> Reading {
    let mut rest = source;
    rewriting.clear();
    match value.deserialize(&mut rest) {
        Ok(()) => {
            value.serialize(rewriting).expect("a vector can be written");
            Reading::Took(source.len() - rest.len())
        },
        Err(error) => refusal(error.kind()),
    }
}

pub(crate) fn refusal(kind: ErrorKind) -> Reading {
    match kind {
        ErrorKind::UnexpectedEof => Reading::Short,
        ErrorKind::InvalidData => Reading::Undeclared,
        other => Reading::Other(other),
    }
}

macro_rules! kinds {
    ($($name:literal $fresh:expr;)*) => {
        /// The kinds that the crate has, in the order of kinds.txt.
        pub const KINDS: &[&str] = &[$($name),*];

        type ReadOne = fn(&[u8], &mut Vec<u8>) -> Reading;
        const READERS: &[ReadOne] = &[$(|source, rewriting| read_into($fresh, source, rewriting)),*];
    };
}

/// Reads a message of a kind, by its index in `KINDS`, at the start of `source`. Where it is taken, `rewriting` holds what
/// the crate writes for it.
pub fn read(kind: usize, source: &[u8], rewriting: &mut Vec<u8>) -> Reading {
    READERS[kind](source, rewriting)
}

kinds! {
    "bool" false;
    "i32" 0_i32;
    "i64" 0_i64;
    "u32" 0_u32;
    "u64" 0_u64;
    "eight" [0_u8; 8];
    "opaque" Vec::<u8>::new();
    "nfsstring" nfsstring::default();
    "words" Vec::<u32>::new();
    "msg_type" _msg_type::CALL;
    "reply_stat" _reply_stat::MSG_ACCEPTED;
    "accept_stat" _accept_stat::SUCCESS;
    "reject_stat" _reject_stat::RPC_MISMATCH;
    "auth_stat" auth_stat::default();
    "auth_flavor" auth_flavor::AUTH_NULL;
    "time_how" _time_how::DONT_CHANGE;
    "nfsstat3" nfsstat3::NFS3_OK;
    "ftype3" ftype3::default();
    "auth_unix" auth_unix::default();
    "opaque_auth" opaque_auth::default();
    "rpc_msg" rpc_msg::default();
    "rpc_body" rpc_body::default();
    "call_body" call_body::default();
    "reply_body" reply_body::default();
    "accepted_reply" accepted_reply::default();
    "accept_body" accept_body::default();
    "rejected_reply" rejected_reply::default();
    "mismatch_info" mismatch_info::default();
    "specdata3" specdata3::default();
    "nfs_fh3" nfs_fh3::default();
    "nfstime3" nfstime3::default();
    "fattr3" fattr3::default();
    "fsinfo3" fsinfo3::default();
    "wcc_attr" wcc_attr::default();
    "pre_op_attr" pre_op_attr::default();
    "post_op_attr" post_op_attr::default();
    "wcc_data" wcc_data::default();
    "post_op_fh3" post_op_fh3::default();
    "set_mode3" set_mode3::Void;
    "set_uid3" set_uid3::Void;
    "set_gid3" set_gid3::Void;
    "set_size3" set_size3::Void;
    "set_atime" set_atime::DONT_CHANGE;
    "set_mtime" set_mtime::DONT_CHANGE;
    "sattr3" sattr3::default();
    "diropargs3" diropargs3::default();
    "symlinkdata3" symlinkdata3::default();
}
