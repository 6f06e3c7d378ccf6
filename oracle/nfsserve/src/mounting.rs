//! What the crate has of the mount protocol and of the port mapper: two types, which are not among its kinds, and replies.
use crate::mount::mountstat3;
use crate::portmap::mapping;
use crate::reading::{read_into, Reading};
use crate::rpc::{make_success_reply, proc_unavail_reply_message, prog_mismatch_reply_message};
use crate::xdr::XDR;

pub use crate::mount::VERSION as MOUNT_VERSION;
pub use crate::portmap::VERSION as PORT_MAPPER_VERSION;

/// Reads a message of one of the two types at the start of `source`; none if the crate has no type of that name.
pub fn read_beside(name: &str, source: &[u8], rewriting: &mut Vec<u8>) -> Option<Reading> {
    match name {
        "mountstat3" => Some(read_into(mountstat3::MNT3_OK, source, rewriting)),
        "mapping" => Some(read_into(mapping::default(), source, rewriting)),
        _ => None,
    }
}

/// The replies of a program that is served.
#[derive(Clone, Copy, Debug, PartialEq, Eq)]
pub enum Reply {
    /// To another version of the program than this.
    AnotherVersion(u32),
    Success,
    ProcedureUnavailable,
}

/// What the crate writes for a reply.
pub fn reply(reply: Reply, xid: u32) -> Vec<u8> {
    let message = match reply {
        Reply::AnotherVersion(version) => prog_mismatch_reply_message(xid, version),
        Reply::Success => make_success_reply(xid),
        Reply::ProcedureUnavailable => proc_unavail_reply_message(xid),
    };
    let mut bytes = Vec::new();
    message.serialize(&mut bytes).expect("a vector can be written");
    bytes
}
