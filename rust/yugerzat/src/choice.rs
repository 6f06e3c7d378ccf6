use crate::names::{answer, figure, figures};
use crate::{part, sys, AuthUnix, Refusal, Words};

/// What to do with a message that came in.
#[derive(Clone, Copy, Debug, PartialEq, Eq, Hash)]
pub enum Choice<'a> {
    /// It is a call for NFS (100003), the port mapper (100000) or mount (100005).
    HandOver {
        /// The program.
        prog: u32,
        /// Its version.
        vers: u32,
        /// The procedure.
        proc: u32,
        /// The place where the arguments begin.
        arguments: usize,
        /// Who calls, where the credential is `AUTH_UNIX`.
        caller: Option<AuthUnix<'a>>,
    },
    /// This reply is to be sent back: the RPC version is not 2, or the program is not served.
    Reply([u8; 24]),
    /// The call was seen before.
    Silence,
}

/// Chooses what to do with a message. `seen` says whether the call came before. [`current::choose`](crate::current::choose)
/// is the same for a server that names the RPC version it serves.
///
/// ```
/// use yugerzat::{choose, Choice};
///
/// // xid 42, and a body tag that is not declared
/// let answer = choose(&[0, 0, 0, 42, 0, 0, 0, 2], false)?;
/// // xid 42, REPLY, MSG_DENIED, RPC_MISMATCH, 0, 0
/// let reply = [0, 0, 0, 42, 0, 0, 0, 1, 0, 0, 0, 1, 0, 0, 0, 0, 0, 0, 0, 0, 0, 0, 0, 0];
/// assert_eq!(answer, Choice::Reply(reply));
/// # Ok::<(), yugerzat::Refusal>(())
/// ```
///
/// # Errors
/// `TooLong`, `Ends`, `Undeclared`, `ReplyCame`, and `Ends` of the credential. What that one wants is wanting in the
/// credential's body, and more bytes behind the message do not help; [`Message::read`](crate::Message::read) tells them
/// apart, since it takes a message whose credential ends too soon.
pub fn choose(message: &[u8], seen: bool) -> Result<Choice<'_>, Refusal> {
    choose_by(sys::choose, message, seen)
}

/// Chooses by a function of the library, in whichever reading it is.
pub(crate) fn choose_by(
    choose: impl Fn(&[u8], bool, &mut [u8], &mut [u64]) -> u32,
    message: &[u8],
    seen: bool,
) -> Result<Choice<'_>, Refusal> {
    let mut reply = [0; 24];
    let mut info = [0; figures::CHOOSE];
    let answer = choose(message, seen, &mut reply, &mut info);
    let choice = match answer {
        answer::HAND_OVER => hand_over(message, &info),
        answer::REPLY if info[figure::CHOOSE_REPLY_LENGTH] == 24 => Some(Choice::Reply(reply)),
        answer::SILENCE => Some(Choice::Silence),
        _ => None,
    };
    choice.ok_or_else(|| Refusal::of(answer, info[figure::PLACE], info[figure::WANTING], 24))
}

fn hand_over<'a>(message: &'a [u8], info: &[u64; figures::CHOOSE]) -> Option<Choice<'a>> {
    let word = |place: usize| info[place] as u32;
    Some(Choice::HandOver {
        prog: word(figure::CHOOSE_PROG),
        vers: word(figure::CHOOSE_VERS),
        proc: word(figure::CHOOSE_PROC),
        arguments: info[figure::CHOOSE_ARGUMENTS] as usize,
        caller: match info[figure::CHOOSE_UNIX] {
            0 => None,
            _ => Some(caller(message, info)?),
        },
    })
}

/// Who calls, by an `AUTH_UNIX` credential.
pub(crate) fn caller<'a>(message: &'a [u8], info: &[u64; figures::CHOOSE]) -> Option<AuthUnix<'a>> {
    Some(AuthUnix {
        stamp: info[figure::CHOOSE_STAMP] as u32,
        machinename: part(message, info[figure::CHOOSE_NAME_AT], info[figure::CHOOSE_NAME_COUNT])?,
        uid: info[figure::CHOOSE_UID] as u32,
        gid: info[figure::CHOOSE_GID] as u32,
        gids: Words::of(message, info[figure::CHOOSE_GIDS_AT], info[figure::CHOOSE_GIDS_COUNT])?,
    })
}
