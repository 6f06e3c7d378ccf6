use super::Mapping;
use crate::choice::caller;
use crate::names::{answer, figure, figures};
use crate::{part, sys, AuthUnix, Refusal};

/// The bytes of the longest reply that [`ask`] writes.
pub const LONGEST_REPLY: usize = 32;

/// What is asked. `xid` is the call's, which its reply has to have too; `caller` is who calls, where the credential is
/// `AUTH_UNIX`; `next` is the place after the arguments.
#[allow(missing_docs)]
#[derive(Clone, Copy, Debug, PartialEq, Eq, Hash)]
pub enum Asked<'a> {
    /// It is a call for NFS (100003), whose arguments begin at a place.
    HandOver { xid: u32, prog: u32, vers: u32, proc: u32, arguments: usize, caller: Option<AuthUnix<'a>> },
    /// A reply is to be sent back: so many bytes at the start of `out`.
    Replied { length: usize },
    /// The call was seen before.
    Silent,
    /// MNT: the directory of this path is to be mounted.
    Mnt { xid: u32, path: &'a [u8], next: usize, caller: Option<AuthUnix<'a>> },
    /// UMNT: the directory of this path is no longer mounted.
    Umnt { xid: u32, path: &'a [u8], next: usize, caller: Option<AuthUnix<'a>> },
    /// EXPORT: what is exported? It has no arguments, so `next` is where they would begin.
    Export { xid: u32, next: usize, caller: Option<AuthUnix<'a>> },
    /// GETPORT: which port has this program? The port of the mapping says nothing.
    Getport { xid: u32, mapping: Mapping, next: usize, caller: Option<AuthUnix<'a>> },
}

/// Chooses what to do with a message, as [`choose`](crate::choose) does, for a server that answers for mounts and ports too.
/// `seen` says whether the call came before.
///
/// A reply is written to the start of `out`, which should have [`LONGEST_REPLY`] bytes, and is untouched otherwise. It is
/// due where mount or the port mapper is called in another version than 3 or 2 (it names that one), by procedure 0, which
/// succeeds, or by a procedure that is none of the four; and where `choose` replies.
///
/// ```
/// use yugerzat::mount::{ask, Asked, LONGEST_REPLY};
///
/// // xid 42, a call of RPC version 2, mount version 3, MNT, no credential, no verifier, the path "/exp"
/// let words = [42, 0, 2, 100_005, 3, 1, 0, 0, 0, 0, 4, 0x2F65_7870];
/// let call: Vec<u8> = words.iter().flat_map(|word: &u32| word.to_be_bytes()).collect();
/// let mut out = [0; LONGEST_REPLY];
/// let asked = ask(&call, false, &mut out)?;
/// assert_eq!(asked, Asked::Mnt { xid: 42, path: b"/exp", next: 48, caller: None });
/// # Ok::<(), yugerzat::Refusal>(())
/// ```
///
/// # Errors
/// Those of [`choose`](crate::choose), and then `Ends` and `LongPath` of the arguments. `NoRoom` where a reply is due and
/// `out` is too short for it; it asks for [`LONGEST_REPLY`] bytes.
pub fn ask<'a>(message: &'a [u8], seen: bool, out: &mut [u8]) -> Result<Asked<'a>, Refusal> {
    let mut info = [0; figures::ASK];
    let answer = sys::ask(message, seen, out, &mut info);
    asked(answer, message, &info)
        .ok_or_else(|| Refusal::of(answer, info[figure::PLACE], info[figure::WANTING], LONGEST_REPLY as u64))
}

/// What an answer that is no refusal hands over.
fn asked<'a>(answer: u32, message: &'a [u8], info: &[u64; figures::ASK]) -> Option<Asked<'a>> {
    match answer {
        answer::REPLY => return Some(Asked::Replied { length: info[figure::ASK_REPLY_LENGTH] as usize }),
        answer::SILENCE => return Some(Asked::Silent),
        _ => {},
    }
    let word = |place: usize| info[place] as u32;
    let next = info[figure::ASK_NEXT] as usize;
    // The first word of every call: the library has read it, but does not hand it over.
    let xid = u32::from_be_bytes(message.get(..4)?.try_into().ok()?);
    let path = || part(message, info[figure::ASK_PATH_AT], info[figure::ASK_PATH_COUNT]);
    let caller = match info[figure::ASK_UNIX] {
        0 => None,
        // From there on the caller's figures have the places that they have in a choice.
        _ => Some(caller(message, info[figure::ASK_UNIX - figure::CHOOSE_UNIX..].try_into().ok()?)?),
    };
    Some(match answer {
        answer::HAND_OVER => Asked::HandOver {
            xid,
            prog: word(figure::ASK_PROG),
            vers: word(figure::ASK_VERS),
            proc: word(figure::ASK_PROC),
            arguments: info[figure::ASK_ARGUMENTS] as usize,
            caller,
        },
        answer::MNT => Asked::Mnt { xid, path: path()?, next, caller },
        answer::UMNT => Asked::Umnt { xid, path: path()?, next, caller },
        answer::EXPORT => Asked::Export { xid, next, caller },
        answer::GETPORT => {
            let mapping = Mapping {
                prog: word(figure::ASK_MAPPING_PROG),
                vers: word(figure::ASK_MAPPING_VERS),
                prot: word(figure::ASK_MAPPING_PROT),
                port: word(figure::ASK_MAPPING_PORT),
            };
            Asked::Getport { xid, mapping, next, caller }
        },
        _ => return None,
    })
}
