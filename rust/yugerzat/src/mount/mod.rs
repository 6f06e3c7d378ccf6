//! Mounts and ports: what one box needs beside NFS so that clients find and mount it.
//!
//! | Procedure | Arguments | Results | |
//! |---|---|---|---|
//! | MNT | [`Dirpath`] | [`Mountres3`] | of mount version 3, program 100005 (RFC 1813, appendix I) |
//! | UMNT | [`Dirpath`] | none | |
//! | EXPORT | none | [`Exports`] | |
//! | GETPORT | [`Mapping`] | a word | of the port mapper version 2, program 100000 (RFC 1057, appendix A) |
//!
//! A server lends each message to [`ask`]. It answers by itself what needs no thought (wrong versions, procedures that are
//! not served, procedure 0), and hands over the arguments of the four calls. The results go behind the header of a reply:
//!
//! ```
//! # #[cfg(feature = "std")]
//! # fn main() -> Result<(), yugerzat::Refusal> {
//! use yugerzat::mount::{append_entries, ask, Asked, Entry, Exports, Mountfail3, Mountres3, LONGEST_REPLY};
//! use yugerzat::{AcceptStat, Auth, Refusal, Reply, Words};
//!
//! /// The reply to a message, if it gets one.
//! fn answer(message: &[u8]) -> Result<Vec<u8>, Refusal> {
//!     let success = Reply::Accepted { verf: Auth::default(), stat: AcceptStat::Success };
//!     let (mut made, mut reply) = ([0; LONGEST_REPLY], Vec::new());
//!     match ask(message, false, &mut made)? {
//!         Asked::Mnt { xid, path, .. } => {
//!             success.append(xid, &mut reply)?;
//!             let result = match path {
//!                 // A handle, and the flavor AUTH_UNIX.
//!                 b"/theatre" => Mountres3::Ok { fhandle: b"seat", auth_flavors: Words::new(&[0, 0, 0, 1]).unwrap() },
//!                 _ => Mountres3::Failed(Mountfail3::NoEnt),
//!             };
//!             result.append(&mut reply)?;
//!         },
//!         Asked::Export { xid, .. } => {
//!             success.append(xid, &mut reply)?;
//!             append_entries(&[Entry { dir: b"/theatre", groups: &[b"stage", b"lobby"] }], &mut reply)?;
//!         },
//!         Asked::Replied { length } => reply.extend_from_slice(&made[..length]),
//!         other => println!("left out here: {other:?}"),
//!     }
//!     Ok(reply)
//! }
//!
//! // xid 42, a call of RPC version 2, mount version 3, EXPORT, no credential, no verifier
//! let call: Vec<u8> = [42, 0, 2, 100_005, 3, 5, 0, 0, 0, 0].iter().flat_map(|word: &u32| word.to_be_bytes()).collect();
//! let reply = answer(&call)?;
//! let exports = Exports::read(&reply, 24)?.value;
//! let theatre = exports.iter().next().unwrap();
//! assert_eq!((exports.len(), theatre.dir), (1, &b"/theatre"[..]));
//! assert!(theatre.groups.iter().eq([b"stage", b"lobby"]));
//! # Ok(())
//! # }
//! # #[cfg(not(feature = "std"))]
//! # fn main() {}
//! ```
//!
//! Paths have at most [`MNTPATHLEN`] bytes; a longer one is [`LongPath`](crate::Refusal::LongPath), after all other refusals
//! of that message. Names and handles have no bound.
//!
//! # What is proved
//!
//! [`ask`], and what reads, walks, compares and writes [`Exports`], and what writes a [`Dirpath`], are the library's own
//! functions, and proved; the types over their figures are tested. For all else it is as for the arguments and results of
//! NFS: the library's verdict on what is read, and on what was written, is proved, and that the fields are the message's is
//! tested.
mod asked;
mod exports;
mod mnt;
mod portmap;

pub use asked::{ask, Asked, LONGEST_REPLY};
#[cfg(feature = "std")]
pub use exports::append_entries;
pub use exports::{write_entries, Entry, Export, Exports, ExportsIter, Groups, GroupsIter};
pub use mnt::{Dirpath, Mountfail3, Mountres3, Mountstat3, MNTPATHLEN};
pub use portmap::Mapping;
