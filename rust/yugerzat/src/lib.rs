//! A wire layer for NFS version 3, proved: it reads and writes the messages of XDR (RFC 4506), ONC RPC (RFC 5531) and NFS
//! (RFC 1813), assembles records from a stream, and chooses the program that a call is for. It also answers for
//! [mounts and ports](mount). These are safe functions over a static library whose every function is proved against its
//! specification.
//!
//! # What it is for
//!
//! Clients bend the rules, and servers don't always forgive. An old client sets a file's size with a flag of `FFFFFFFF`,
//! where RFC 1813 has 1. The change is taken as meant, and passed on as the RFC has it:
//!
//! ```
//! use yugerzat::Sattr3;
//!
//! // What to change: nothing but the size, which becomes 0.
//! let mut came = [0; 32];
//! came[12..16].fill(0xFF);
//!
//! let read = Sattr3::read(&came, 0)?;
//! assert_eq!(read.value, Sattr3 { size: Some(0), ..Sattr3::default() });
//! assert_eq!(read.next, 32);
//! assert!(!read.plain);
//!
//! let mut out = [0; 60];
//! let end = read.value.write(&mut out, 0)?;
//! assert_eq!(out[12..16], [0, 0, 0, 1]);
//! assert!(Sattr3::read(&out[..end], 0)?.plain);
//! # Ok::<(), yugerzat::Refusal>(())
//! ```
//!
//! Reading gives one of three answers:
//!
//! - **Plain**: the message is in published form, which is how the RFCs write it. Every flag is 0 or 1, every byte of
//!   padding is zero, and every tag (a number that says what follows) is declared.
//! - **Loose**: the message is taken, but is not plain. What is taken is what the crate nfsserve 0.11.0 takes.
//! - A [`Refusal`], a numbered "no": no message of that kind begins there. Where the message ends too soon, it says how many
//!   bytes are **wanting**: still missing to finish the item (a number, a run of bytes, a list) that is cut.
//!
//! Writing gives published form only. What is written reads back as itself, and is plain.
//!
//! # Where to begin
//!
//! | You have | You call |
//! |---|---|
//! | a stream of records | `Records`, or [`Assembler`] where you read yourself |
//! | a message of any [kind](Kind) | [`judge`]: is it plain? [`rewrite`]: what is its published form? [`marks`]: which field was dirty? |
//! | a call or a reply | [`Message::read`], then [`AuthUnix::read`] for the caller |
//! | a reply, and you look for the cause | [`current::Message::read`]: [two readings](#two-readings-of-replies) |
//! | a [procedure](Procedure)'s arguments or results | [`Arguments`], [`Results`], or the one type: [`Setattr3args`] |
//! | attributes, a change, a name in a directory | [`Fattr3`], [`Sattr3`], [`Diropargs3`] |
//! | a call to be served | [`choose`]: hand it over, answer it, or keep silent |
//! | the same, for a box that is to be found and mounted | [`mount::ask`]: also MNT, UMNT, EXPORT and GETPORT |
//! | a message to be sent | `write` into a slice or `append` to a `Vec`, then [`write_fragment`] |
//!
//! Readers take bytes and a place, which is an offset into them. They give a [`Reading`]: the value, the `next` place, and
//! whether it was plain. Values borrow their bytes from the message, and nothing is copied.
//!
//! A relay passes calls on in published form, the header and, where the [`Procedure`] is known, the arguments:
//!
//! ```
//! # #[cfg(feature = "std")]
//! # fn main() -> Result<(), Box<dyn std::error::Error>> {
//! use yugerzat::{append_fragment, append_rewriting, Body, Message, Records};
//!
//! // One record: a GETATTR, with dirt behind the handle. Any std::io::Read can be the stream.
//! let mut stream = vec![0x80, 0, 0, 48, 0, 0, 0, 42, 0, 0, 0, 0, 0, 0, 0, 2, 0, 1, 0x86, 0xA3, 0, 0, 0, 3, 0, 0, 0, 1];
//! stream.resize(44, 0);
//! stream.extend([0, 0, 0, 1, 0xAA, 0, 0, 0xFF]);
//!
//! let mut out = Vec::new();
//! for record in Records::new(&stream[..]) {
//!     let (record, mut message) = (record?, Vec::new());
//!     let header = Message::read(&record, 0)?;
//!     header.value.append(&mut message)?;
//!     let mut next = header.next;
//!     if let Body::Call(call) = header.value.body {
//!         if let Some(procedure) = call.procedure() {
//!             next = append_rewriting(procedure.arguments(), &record, next, &mut message)?.next;
//!         }
//!     }
//!     message.extend_from_slice(&record[next..]);
//!     append_fragment(&message, &mut out)?;
//! }
//! assert_eq!((&out[..51], out[51]), (&stream[..51], 0));
//! # Ok(())
//! # }
//! # #[cfg(not(feature = "std"))]
//! # fn main() {}
//! ```
//!
//! The folder `examples/` has such a relay, a program that judges a stream, and one that passes on a SETATTR of the old
//! client, and says what it sets.
//!
//! # Two readings of replies
//!
//! nfsserve's lists of two numbers in a reply are older than RFC 5531's: it takes an accept status of 5, `SYSTEM_ERR`, for
//! `GARBAGE_ARGS`, and of the fifteen `auth_stat`s it takes 1 to 5 and no others. The types and functions at the top of this
//! crate do as nfsserve does. Those of the module [`current`] have the RFC's lists, and [`current::choose`] names RPC version
//! 2 in its reply to a call of another, where nfsserve has 0.
//!
//! If you must answer just as nfsserve does, use those at the top. If you pass replies on, or look for the cause of a
//! failure, use [`current`]: the server's failed disk is then not taken for your mistake.
//!
//! ```
//! use yugerzat::{current, AcceptStat, Auth, Body, Message, Reply};
//!
//! // xid 42, REPLY, MSG_ACCEPTED, AUTH_NULL, no body, and status 5
//! let came = [0, 0, 0, 42, 0, 0, 0, 1, 0, 0, 0, 0, 0, 0, 0, 0, 0, 0, 0, 0, 0, 0, 0, 5];
//! let verf = Auth::default();
//!
//! let read = Message::read(&came, 0)?;
//! assert_eq!(read.value.body, Body::Reply(Reply::Accepted { verf, stat: AcceptStat::GarbageArgs }));
//! assert!(!read.plain);
//!
//! let read = current::Message::read(&came, 0)?;
//! let stat = current::AcceptStat::SystemErr;
//! assert_eq!(read.value.body, current::Body::Reply(current::Reply::Accepted { verf, stat }));
//! assert!(read.plain);
//! # Ok::<(), yugerzat::Refusal>(())
//! ```
//!
//! # Which field was dirty
//!
//! A message that is not plain has an odd flag, an undeclared tag, or dirty padding. [`marks`] says which of its fields had
//! the padding:
//!
//! ```
//! use yugerzat::{marks, Kind};
//!
//! // A LOOKUP of the name BB, with dirt behind it.
//! let came = [0, 0, 0, 1, 0xAA, 0, 0, 0, 0, 0, 0, 1, 0xBB, 0, 0, 0xCC];
//! let found = marks(Kind::Lookup3args, &came, 0)?;
//! assert!(!found.plain);
//! assert!(found.dirty_fields().eq(["what.name"]));
//! # Ok::<(), yugerzat::Refusal>(())
//! ```
//!
//! If no field is dirty, it was a flag or a tag. A mark is no part of the message: writing never looks at it.
//!
//! # What plain does not say
//!
//! **Plain is not "what a strict server takes".** No upper bounds are held against a message, as nfsserve has none: a
//! credential's body over 400 bytes, a machine name over 255, more than 16 groups and a file handle over 64 bytes are all
//! plain, and servers that hold to the RFCs refuse them. If you pass calls on to one, test these four lengths; they are
//! lengths of slices. (Only the paths of [`mount`] have a bound, 1,024 bytes.)
//!
//! Plain covers the bytes that were used, and no others. The header of a call does not cover its arguments, nor what stands
//! inside its credential: dirt inside an `AUTH_UNIX` body is seen by [`AuthUnix::read`] alone.
//!
//! Plain says nothing about sense. The `count` of a WRITE, or of what a READ gives, is not compared with the length of the
//! data.
//!
//! # Limits
//!
//! A message has at most [`LIMIT`] bytes. Credentials of flavors above 3 are refused, `RPCSEC_GSS` among them, because
//! nfsserve does not know them. So are `auth_stat`s other than 1 to 5; the [`current`] reading has 0 to 14.
//!
//! # What is promised
//!
//! No function panics or touches memory that was not lent, and every byte string and every place gets an answer. A refusal
//! leaves every buffer as it was; the one exception is [`Assembler::feed`], which says so. However a stream is cut, the same
//! records come of it. What is proved, and of what, stands in docs/SCOPE.md. What this crate adds, its types over the
//! library's lists of numbers, is tested and not proved.
//!
//! For arguments and results the library has no such lists. The verdict is still its own: [`judge`] is asked first, so that
//! refusals, `next` and `plain` are the proved ones. It is asked again about what was written, which is handed over only if
//! it is plain. That the fields of [`Read3res`] and its like are those of the message is tested.
//!
//! # The library
//!
//! The build links the static library that the script `library`, at the top of the repository, proves and builds for this
//! machine. Run it once before `cargo build`: it takes a while and says how far it is, which a build script cannot. Or let
//! the environment variable `YUGERZAT_LIB` name an archive; a relative path is taken from the folder where cargo was called,
//! or else from that of this crate. To compile for another machine, `YUGERZAT_LIB` must name an archive that was built
//! there.
//!
//! # Features
//!
//! `std`, which is on by default, brings `Records`, `append` and its like, which write to a `Vec`, and `std::error::Error`
//! with conversions to `std::io::Error`. Without it the crate is `no_std` and allocates nothing. It depends on no other
//! crate.
#![no_std]
#![deny(missing_docs, unsafe_op_in_unsafe_fn)]
#![warn(clippy::pedantic)]
// Figures are 64-bit numbers of which the library has proved that they fit their fields.
#![allow(clippy::cast_possible_truncation)]

#[cfg(any(feature = "std", test))]
extern crate std;

#[cfg(not(target_pointer_width = "64"))]
compile_error!("the library is built for machines with 64-bit addresses");

#[cfg(feature = "std")]
mod append;
mod attributes;
mod choice;
pub mod current;
mod kind;
mod marks;
mod message;
pub mod mount;
mod names;
mod procedure;
mod procedures;
mod record;
#[cfg(feature = "std")]
mod records;
mod refusal;
mod sys;
mod words;

#[cfg(feature = "std")]
pub use append::{append_fragment, append_rewriting};
pub use attributes::{Diropargs3, Fattr3, Ftype3, Nfstime3, Sattr3, SetTime, Specdata3};
pub use choice::{choose, Choice};
pub use kind::{judge, rewrite, Judged, Kind, Rewritten, UnknownKind};
pub use marks::{marks, Marked};
pub use message::{AcceptStat, Auth, AuthFlavor, AuthStat, AuthUnix, Body, Call, Message, Reply};
pub use procedure::{Procedure, UnknownProcedure};
pub use procedures::{
    Arguments, Getattr3args, Getattr3res, Getattr3resok, Lookup3args, Lookup3res, Lookup3resfail, Lookup3resok, Nfsfail3,
    Read3args, Read3res, Read3resfail, Read3resok, Results, Setattr3args, Setattr3res, Setattr3resfail, Setattr3resok,
    StableHow, UnknownNumber, WccAttr, WccData, Write3args, Write3res, Write3resfail, Write3resok,
};
pub use record::{write_fragment, Assembler, Fed, FeedError};
#[cfg(feature = "std")]
pub use records::{RecordError, Records};
pub use refusal::Refusal;
pub use words::{Words, WordsIter};

use names::{answer, figure, figures};

/// A message, a source, an assembler's capacity and what is written have at most so many bytes.
pub const LIMIT: usize = 1_048_576;

/// What a reader gives.
#[derive(Clone, Copy, Debug, PartialEq, Eq, Hash)]
pub struct Reading<T> {
    /// What was read.
    pub value: T,
    /// The place after it.
    pub next: usize,
    /// Whether it came in published form: all flags 0 or 1, all padding zero, all tags declared.
    pub plain: bool,
}

/// What a reader answered. There is no value where the figures are none that this version of the library gives.
fn reading<T>(answer: u32, info: &[u64], value: impl FnOnce() -> Option<T>) -> Result<Reading<T>, Refusal> {
    if answer != answer::DONE {
        return Err(Refusal::of(answer, info[figure::PLACE], info[figure::WANTING], 0));
    }
    let value = value().ok_or(Refusal::Unknown { answer })?;
    Ok(Reading { value, next: info[figure::NEXT] as usize, plain: info[figure::PLAIN] == 1 })
}

/// What a writer answered: the place after what was written.
fn written(answer: u32, info: [u64; figures::WRITTEN]) -> Result<usize, Refusal> {
    match answer {
        answer::DONE => Ok(info[figure::WRITTEN_AFTER] as usize),
        answer => Err(Refusal::of_writing(answer, info[figure::WRITTEN_NEEDED])),
    }
}

/// The bytes that a piece names: its place in the message, and how many. The library has proved that they lie in the
/// message.
fn part(bytes: &[u8], at: u64, count: u64) -> Option<&[u8]> {
    bytes.get(at as usize..)?.get(..count as usize)
}
