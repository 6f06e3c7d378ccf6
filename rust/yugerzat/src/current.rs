//! The current reading of replies: RFC 5531's own lists, where nfsserve has older ones.
//!
//! | In a reply | At the top of this crate, as nfsserve | Here |
//! |---|---|---|
//! | `accept_stat` 5, `SYSTEM_ERR` | read as `GarbageArgs`, not plain | [`SystemErr`](AcceptStat::SystemErr) |
//! | `accept_stat` above 5 | read as `GarbageArgs`, not plain | the same |
//! | `auth_stat` 0, and 6 to 14 | [`Undeclared`](Refusal::Undeclared) | a case of [`AuthStat`] |
//! | `auth_stat` above 14 | [`Undeclared`](Refusal::Undeclared) | the same |
//! | the versions that [`choose`] names to a call of another RPC version | 0 and 0 | 2 and 2 |
//!
//! All else is the same in both, and so are the types that do not depend on these lists: [`Call`], [`Auth`],
//! [`AuthUnix`](crate::AuthUnix), [`Choice`] and [`Refusal`]. Whatever the types at the top can hold, those here can too:
//! `From` leads here, and `TryFrom` back, which fails on what is new ([`OnlyCurrent`]).
//!
//! ```
//! use yugerzat::current::{AcceptStat, AuthStat, Reply};
//!
//! let denied = yugerzat::Reply::AuthError(yugerzat::AuthStat::TooWeak);
//! assert_eq!(Reply::from(denied), Reply::AuthError(AuthStat::TooWeak));
//! assert_eq!(yugerzat::Reply::try_from(Reply::from(denied)), Ok(denied));
//! assert!(yugerzat::AcceptStat::try_from(AcceptStat::SystemErr).is_err());
//! ```
//!
//! The [kinds](crate::Kind) of this reading have names that begin with `Current`: [`judge`](crate::judge) and
//! [`rewrite`](crate::rewrite) take them as they take the others.
// The types here hold every value of those at the top. So the library's figures are taken apart, and put together, here
// for both readings, and the functions at the top convert.
use core::fmt;

use crate::choice::choose_by;
use crate::names::{figure, figures, tag};
use crate::{reading, sys, written, Auth, Call, Choice, Reading, Refusal};

/// What became of an accepted call: `accept_stat`, with the versions where it has them. A status above 5 is read as
/// `GarbageArgs`.
#[allow(missing_docs)]
#[derive(Clone, Copy, Debug, PartialEq, Eq, Hash)]
pub enum AcceptStat {
    Success,
    ProgUnavail,
    ProgMismatch {
        low: u32,
        high: u32,
    },
    ProcUnavail,
    GarbageArgs,
    /// `SYSTEM_ERR`: the call was right, and the server failed at it; its memory ran out, or its disk failed.
    SystemErr,
}

impl AcceptStat {
    fn of(number: u64, low: u64, high: u64) -> Option<AcceptStat> {
        Some(match number {
            0 => AcceptStat::Success,
            1 => AcceptStat::ProgUnavail,
            2 => AcceptStat::ProgMismatch { low: low as u32, high: high as u32 },
            3 => AcceptStat::ProcUnavail,
            4 => AcceptStat::GarbageArgs,
            5 => AcceptStat::SystemErr,
            _ => return None,
        })
    }

    /// The number, and the versions or zeros.
    pub(crate) fn figures(self) -> [u64; 3] {
        match self {
            AcceptStat::Success => [0; 3],
            AcceptStat::ProgUnavail => [1, 0, 0],
            AcceptStat::ProgMismatch { low, high } => [2, low.into(), high.into()],
            AcceptStat::ProcUnavail => [3, 0, 0],
            AcceptStat::GarbageArgs => [4, 0, 0],
            AcceptStat::SystemErr => [5, 0, 0],
        }
    }
}

/// Why authentication failed: `auth_stat`, all fifteen of RFC 5531. Others are refused
/// ([`Undeclared`](Refusal::Undeclared)).
#[derive(Clone, Copy, Debug, PartialEq, Eq, Hash)]
#[repr(u32)]
pub enum AuthStat {
    /// `AUTH_OK`: it did not fail.
    Ok = 0,
    /// `AUTH_BADCRED`: the credential is bad.
    BadCred = 1,
    /// `AUTH_REJECTEDCRED`: the client has to begin a new session.
    RejectedCred = 2,
    /// `AUTH_BADVERF`: the verifier is bad.
    BadVerf = 3,
    /// `AUTH_REJECTEDVERF`: the verifier has expired, or came before.
    RejectedVerf = 4,
    /// `AUTH_TOOWEAK`: the flavor is not safe enough for the server.
    TooWeak = 5,
    /// `AUTH_INVALIDRESP`: the verifier of the response is bad.
    InvalidResp = 6,
    /// `AUTH_FAILED`: the reason is not known.
    Failed = 7,
    /// `AUTH_KERB_GENERIC`: some failure of Kerberos.
    KerbGeneric = 8,
    /// `AUTH_TIMEEXPIRE`: the credential's time is over.
    TimeExpire = 9,
    /// `AUTH_TKT_FILE`: something is wrong with the ticket file.
    TktFile = 10,
    /// `AUTH_DECODE`: the authenticator cannot be decoded.
    Decode = 11,
    /// `AUTH_NET_ADDR`: the ticket has a wrong network address.
    NetAddr = 12,
    /// `RPCSEC_GSS_CREDPROBLEM`: the user has no credentials.
    RpcsecGssCredProblem = 13,
    /// `RPCSEC_GSS_CTXPROBLEM`: something is wrong with the security context.
    RpcsecGssCtxProblem = 14,
}

impl AuthStat {
    fn of(number: u64) -> Option<AuthStat> {
        Some(match number {
            0 => AuthStat::Ok,
            1 => AuthStat::BadCred,
            2 => AuthStat::RejectedCred,
            3 => AuthStat::BadVerf,
            4 => AuthStat::RejectedVerf,
            5 => AuthStat::TooWeak,
            6 => AuthStat::InvalidResp,
            7 => AuthStat::Failed,
            8 => AuthStat::KerbGeneric,
            9 => AuthStat::TimeExpire,
            10 => AuthStat::TktFile,
            11 => AuthStat::Decode,
            12 => AuthStat::NetAddr,
            13 => AuthStat::RpcsecGssCredProblem,
            14 => AuthStat::RpcsecGssCtxProblem,
            _ => return None,
        })
    }
}

/// The header of a reply, without its xid: `reply_body`.
#[derive(Clone, Copy, Debug, PartialEq, Eq, Hash)]
pub enum Reply<'a> {
    /// The call was accepted: `MSG_ACCEPTED`.
    Accepted {
        /// The server's verifier.
        verf: Auth<'a>,
        /// What became of the call.
        stat: AcceptStat,
    },
    /// The call was denied because of its RPC version: `MSG_DENIED`, `RPC_MISMATCH`.
    RpcMismatch {
        /// The lowest version served.
        low: u32,
        /// The highest.
        high: u32,
    },
    /// The call was denied because of its credential: `MSG_DENIED`, `AUTH_ERROR`.
    AuthError(AuthStat),
}

impl Reply<'_> {
    /// Writes an `rpc_msg` with this reply from place `start` of `out`, and gives the place after it, where the results of a
    /// `Success` go. All other bytes stay.
    ///
    /// ```
    /// use yugerzat::current::{AuthStat, Reply};
    ///
    /// let mut out = [0xEE; 20];
    /// assert_eq!(Reply::AuthError(AuthStat::RpcsecGssCtxProblem).write(42, &mut out, 0)?, 20);
    /// // xid 42, REPLY, MSG_DENIED, AUTH_ERROR, RPCSEC_GSS_CTXPROBLEM
    /// assert_eq!(out, [0, 0, 0, 42, 0, 0, 0, 1, 0, 0, 0, 1, 0, 0, 0, 1, 0, 0, 0, 14]);
    /// # Ok::<(), yugerzat::Refusal>(())
    /// ```
    ///
    /// # Errors
    /// `PastEnd`, `TooLong` (the verifier's body or the whole) and `NoRoom`.
    pub fn write(&self, xid: u32, out: &mut [u8], start: usize) -> Result<usize, Refusal> {
        self.write_by(sys::write_current_reply, xid, out, start)
    }

    /// Writes by a function of the library, in whichever reading it is.
    pub(crate) fn write_by(
        &self,
        write: impl Fn(&[u8], &[u64], &mut [u8], usize, &mut [u64]) -> u32,
        xid: u32,
        out: &mut [u8],
        start: usize,
    ) -> Result<usize, Refusal> {
        let mut list = [0; figure::FIELDS + figures::WRITE_REPLY];
        list[figure::RPC_MSG_XID] = xid.into();
        let mut body: &[u8] = &[];
        match *self {
            Reply::Accepted { verf, stat } => {
                body = verf.body;
                let [number, low, high] = stat.figures();
                list[figure::RPC_MSG_TAG] = tag::ACCEPTED;
                list[figure::RPC_MSG_ACCEPTED_VERF_FLAVOR] = verf.flavor as u64;
                list[figure::RPC_MSG_ACCEPTED_VERF_COUNT] = verf.body.len() as u64;
                list[figure::RPC_MSG_ACCEPTED_STAT] = number;
                list[figure::RPC_MSG_ACCEPTED_LOW] = low;
                list[figure::RPC_MSG_ACCEPTED_HIGH] = high;
            },
            Reply::RpcMismatch { low, high } => {
                list[figure::RPC_MSG_TAG] = tag::DENIED_VERSION;
                list[figure::RPC_MSG_DENIED_LOW] = low.into();
                list[figure::RPC_MSG_DENIED_HIGH] = high.into();
            },
            Reply::AuthError(why) => {
                list[figure::RPC_MSG_TAG] = tag::DENIED_AUTH;
                list[figure::RPC_MSG_DENIED_AUTH_STAT] = why as u64;
            },
        }
        let mut info = [0; figures::WRITTEN];
        written(write(body, &list[figure::FIELDS..], out, start, &mut info), info)
    }
}

/// What a message is.
#[derive(Clone, Copy, Debug, PartialEq, Eq, Hash)]
pub enum Body<'a> {
    /// A call.
    Call(Call<'a>),
    /// A reply.
    Reply(Reply<'a>),
}

impl<'a> Body<'a> {
    fn of(bytes: &'a [u8], info: &[u64; figures::RPC_MSG]) -> Option<Body<'a>> {
        let word = |place: usize| info[place] as u32;
        let auth = |flavor: usize, at: usize, count: usize| Auth::of(bytes, info[flavor], info[at], info[count]);
        Some(match info[figure::RPC_MSG_TAG] {
            tag::CALL => Body::Call(Call {
                rpcvers: word(figure::RPC_MSG_CALL_RPCVERS),
                prog: word(figure::RPC_MSG_CALL_PROG),
                vers: word(figure::RPC_MSG_CALL_VERS),
                proc: word(figure::RPC_MSG_CALL_PROC),
                cred: auth(figure::RPC_MSG_CALL_CRED_FLAVOR, figure::RPC_MSG_CALL_CRED_AT, figure::RPC_MSG_CALL_CRED_COUNT)?,
                verf: auth(figure::RPC_MSG_CALL_VERF_FLAVOR, figure::RPC_MSG_CALL_VERF_AT, figure::RPC_MSG_CALL_VERF_COUNT)?,
            }),
            tag::ACCEPTED => Body::Reply(Reply::Accepted {
                verf: auth(
                    figure::RPC_MSG_ACCEPTED_VERF_FLAVOR,
                    figure::RPC_MSG_ACCEPTED_VERF_AT,
                    figure::RPC_MSG_ACCEPTED_VERF_COUNT,
                )?,
                stat: AcceptStat::of(
                    info[figure::RPC_MSG_ACCEPTED_STAT],
                    info[figure::RPC_MSG_ACCEPTED_LOW],
                    info[figure::RPC_MSG_ACCEPTED_HIGH],
                )?,
            }),
            tag::DENIED_VERSION => Body::Reply(Reply::RpcMismatch {
                low: word(figure::RPC_MSG_DENIED_LOW),
                high: word(figure::RPC_MSG_DENIED_HIGH),
            }),
            tag::DENIED_AUTH => Body::Reply(Reply::AuthError(AuthStat::of(info[figure::RPC_MSG_DENIED_AUTH_STAT])?)),
            _ => return None,
        })
    }
}

/// The header of a call or a reply: `rpc_msg`.
#[derive(Clone, Copy, Debug, PartialEq, Eq, Hash)]
pub struct Message<'a> {
    /// The number that a reply shares with its call.
    pub xid: u32,
    /// The rest of the header.
    pub body: Body<'a>,
}

impl<'a> Message<'a> {
    /// Reads from place `at` of `bytes`. The arguments of a call, or the results of a reply, begin at `next`.
    ///
    /// It is plain if the header's padding is zero and its tags are declared. A credential's body stays opaque: dirt inside
    /// is not seen here, but by [`AuthUnix::read`](crate::AuthUnix::read).
    ///
    /// ```
    /// use yugerzat::current::{AuthStat, Body, Message, Reply};
    ///
    /// // xid 42, REPLY, MSG_DENIED, AUTH_ERROR, RPCSEC_GSS_CREDPROBLEM
    /// let read = Message::read(&[0, 0, 0, 42, 0, 0, 0, 1, 0, 0, 0, 1, 0, 0, 0, 1, 0, 0, 0, 13], 0)?;
    /// let body = Body::Reply(Reply::AuthError(AuthStat::RpcsecGssCredProblem));
    /// assert_eq!(read.value, Message { xid: 42, body });
    /// assert!(read.plain);
    /// # Ok::<(), yugerzat::Refusal>(())
    /// ```
    ///
    /// # Errors
    /// `Ends`, `Undeclared`, `TooLong` and `PastEnd`.
    pub fn read(bytes: &'a [u8], at: usize) -> Result<Reading<Message<'a>>, Refusal> {
        Message::read_by(sys::read_current_rpc_msg, bytes, at)
    }

    /// Reads by a function of the library, in whichever reading it is.
    pub(crate) fn read_by<T: TryFrom<Message<'a>>>(
        read: impl Fn(&[u8], usize, &mut [u64]) -> u32,
        bytes: &'a [u8],
        at: usize,
    ) -> Result<Reading<T>, Refusal> {
        let mut info = [0; figures::RPC_MSG];
        let answer = read(bytes, at, &mut info);
        reading(answer, &info, || {
            T::try_from(Message { xid: info[figure::RPC_MSG_XID] as u32, body: Body::of(bytes, &info)? }).ok()
        })
    }

    /// Writes from place `start` of `out`, and gives the place after it; as [`Call::write`] and [`Reply::write`].
    ///
    /// # Errors
    /// `PastEnd`, `TooLong` (a body or the whole) and `NoRoom`.
    pub fn write(&self, out: &mut [u8], start: usize) -> Result<usize, Refusal> {
        match self.body {
            Body::Call(call) => call.write(self.xid, out, start),
            Body::Reply(reply) => reply.write(self.xid, out, start),
        }
    }
}

/// Chooses what to do with a message, as [`choose`](crate::choose) does, for a server that serves RPC version 2 and says so:
/// its reply to a call of another version names 2 and 2.
///
/// ```
/// use yugerzat::{current, Choice};
///
/// // xid 42, and a body tag that is not declared
/// let answer = current::choose(&[0, 0, 0, 42, 0, 0, 0, 2], false)?;
/// // xid 42, REPLY, MSG_DENIED, RPC_MISMATCH, 2, 2
/// let reply = [0, 0, 0, 42, 0, 0, 0, 1, 0, 0, 0, 1, 0, 0, 0, 0, 0, 0, 0, 2, 0, 0, 0, 2];
/// assert_eq!(answer, Choice::Reply(reply));
/// # Ok::<(), yugerzat::Refusal>(())
/// ```
///
/// # Errors
/// As those of [`choose`](crate::choose). A reply whose `auth_stat` is 0 or 6 to 14 is `ReplyCame` here, and `Undeclared`
/// there.
pub fn choose(message: &[u8], seen: bool) -> Result<Choice<'_>, Refusal> {
    choose_by(sys::current_choose, message, seen)
}

/// It is a case of the current reading alone: [`SystemErr`](AcceptStat::SystemErr), or an [`AuthStat`] other than 1 to 5.
#[derive(Clone, Copy, Debug, PartialEq, Eq, Hash)]
#[non_exhaustive]
pub struct OnlyCurrent;

impl fmt::Display for OnlyCurrent {
    fn fmt(&self, f: &mut fmt::Formatter<'_>) -> fmt::Result {
        f.write_str("that is a case of the current reading alone")
    }
}

#[cfg(feature = "std")]
impl std::error::Error for OnlyCurrent {}

/// Conversions of a list in both directions, by the cases that both readings have.
macro_rules! shared_cases {
    ($type:ident: $($case:ident $({ $($field:ident),* })?,)*) => {
        impl From<crate::$type> for $type {
            fn from(value: crate::$type) -> $type {
                match value {
                    $(crate::$type::$case $({ $($field),* })? => $type::$case $({ $($field),* })?,)*
                }
            }
        }

        impl TryFrom<$type> for crate::$type {
            type Error = OnlyCurrent;

            fn try_from(value: $type) -> Result<crate::$type, OnlyCurrent> {
                match value {
                    $($type::$case $({ $($field),* })? => Ok(crate::$type::$case $({ $($field),* })?),)*
                    _ => Err(OnlyCurrent),
                }
            }
        }
    };
}
shared_cases! { AcceptStat: Success, ProgUnavail, ProgMismatch { low, high }, ProcUnavail, GarbageArgs, }
shared_cases! { AuthStat: BadCred, RejectedCred, BadVerf, RejectedVerf, TooWeak, }

impl<'a> From<crate::Reply<'a>> for Reply<'a> {
    fn from(reply: crate::Reply<'a>) -> Reply<'a> {
        match reply {
            crate::Reply::Accepted { verf, stat } => Reply::Accepted { verf, stat: stat.into() },
            crate::Reply::RpcMismatch { low, high } => Reply::RpcMismatch { low, high },
            crate::Reply::AuthError(why) => Reply::AuthError(why.into()),
        }
    }
}

impl<'a> TryFrom<Reply<'a>> for crate::Reply<'a> {
    type Error = OnlyCurrent;

    fn try_from(reply: Reply<'a>) -> Result<crate::Reply<'a>, OnlyCurrent> {
        Ok(match reply {
            Reply::Accepted { verf, stat } => crate::Reply::Accepted { verf, stat: stat.try_into()? },
            Reply::RpcMismatch { low, high } => crate::Reply::RpcMismatch { low, high },
            Reply::AuthError(why) => crate::Reply::AuthError(why.try_into()?),
        })
    }
}

impl<'a> From<crate::Body<'a>> for Body<'a> {
    fn from(body: crate::Body<'a>) -> Body<'a> {
        match body {
            crate::Body::Call(call) => Body::Call(call),
            crate::Body::Reply(reply) => Body::Reply(reply.into()),
        }
    }
}

impl<'a> TryFrom<Body<'a>> for crate::Body<'a> {
    type Error = OnlyCurrent;

    fn try_from(body: Body<'a>) -> Result<crate::Body<'a>, OnlyCurrent> {
        Ok(match body {
            Body::Call(call) => crate::Body::Call(call),
            Body::Reply(reply) => crate::Body::Reply(reply.try_into()?),
        })
    }
}

impl<'a> From<crate::Message<'a>> for Message<'a> {
    fn from(message: crate::Message<'a>) -> Message<'a> {
        Message { xid: message.xid, body: message.body.into() }
    }
}

impl<'a> TryFrom<Message<'a>> for crate::Message<'a> {
    type Error = OnlyCurrent;

    fn try_from(message: Message<'a>) -> Result<crate::Message<'a>, OnlyCurrent> {
        Ok(crate::Message { xid: message.xid, body: message.body.try_into()? })
    }
}
