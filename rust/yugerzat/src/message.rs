use crate::names::{figure, figures};
use crate::{current, part, reading, sys, written, Reading, Refusal, Words};

/// The flavor of a credential or verifier. Others are refused ([`Undeclared`](Refusal::Undeclared)), `RPCSEC_GSS` among
/// them.
#[allow(missing_docs)]
#[derive(Clone, Copy, Debug, Default, PartialEq, Eq, Hash)]
#[repr(u32)]
pub enum AuthFlavor {
    #[default]
    Null = 0,
    Unix = 1,
    Short = 2,
    Des = 3,
}

impl AuthFlavor {
    fn of(number: u64) -> Option<AuthFlavor> {
        Some(match number {
            0 => AuthFlavor::Null,
            1 => AuthFlavor::Unix,
            2 => AuthFlavor::Short,
            3 => AuthFlavor::Des,
            _ => return None,
        })
    }
}

/// A credential or verifier: `opaque_auth`. The default one is `AUTH_NULL` without a body.
#[derive(Clone, Copy, Debug, Default, PartialEq, Eq, Hash)]
pub struct Auth<'a> {
    /// How to read the body.
    pub flavor: AuthFlavor,
    /// The body, which a reading of the header does not look into; see [`AuthUnix::read`].
    pub body: &'a [u8],
}

impl<'a> Auth<'a> {
    pub(crate) fn of(bytes: &'a [u8], flavor: u64, at: u64, count: u64) -> Option<Auth<'a>> {
        Some(Auth { flavor: AuthFlavor::of(flavor)?, body: part(bytes, at, count)? })
    }
}

/// The header of a call, without its xid: `call_body`.
#[allow(missing_docs)]
#[derive(Clone, Copy, Debug, Default, PartialEq, Eq, Hash)]
pub struct Call<'a> {
    pub rpcvers: u32,
    pub prog: u32,
    pub vers: u32,
    pub proc: u32,
    pub cred: Auth<'a>,
    pub verf: Auth<'a>,
}

impl Call<'_> {
    /// Writes an `rpc_msg` with this call from place `start` of `out`, and gives the place after it, where the arguments
    /// go. All other bytes stay. The bodies of credential and verifier may lie anywhere.
    ///
    /// ```
    /// use yugerzat::{Body, Call, Message};
    ///
    /// let call = Call { rpcvers: 2, prog: 100_003, vers: 3, proc: 1, ..Call::default() };
    /// let mut out = [0; 64];
    /// assert_eq!(call.write(42, &mut out, 0)?, 40);
    /// assert_eq!(Message::read(&out, 0)?.value, Message { xid: 42, body: Body::Call(call) });
    /// # Ok::<(), yugerzat::Refusal>(())
    /// ```
    ///
    /// # Errors
    /// `PastEnd`, `TooLong` (a body or the whole) and `NoRoom`.
    pub fn write(&self, xid: u32, out: &mut [u8], start: usize) -> Result<usize, Refusal> {
        let mut fields = [0; figures::WRITE_CALL];
        fields[figure::WRITE_CALL_XID] = xid.into();
        fields[figure::WRITE_CALL_RPCVERS] = self.rpcvers.into();
        fields[figure::WRITE_CALL_PROG] = self.prog.into();
        fields[figure::WRITE_CALL_VERS] = self.vers.into();
        fields[figure::WRITE_CALL_PROC] = self.proc.into();
        fields[figure::WRITE_CALL_CRED_FLAVOR] = self.cred.flavor as u64;
        fields[figure::WRITE_CALL_CRED_COUNT] = self.cred.body.len() as u64;
        fields[figure::WRITE_CALL_VERF_FLAVOR] = self.verf.flavor as u64;
        fields[figure::WRITE_CALL_VERF_COUNT] = self.verf.body.len() as u64;
        let mut info = [0; figures::WRITTEN];
        written(sys::write_call(self.cred.body, self.verf.body, &fields, out, start, &mut info), info)
    }
}

/// What became of an accepted call: `accept_stat`, with the versions where it has them. A status above 4 is read as
/// `GarbageArgs`; [`current::AcceptStat`] has `SystemErr`.
#[allow(missing_docs)]
#[derive(Clone, Copy, Debug, PartialEq, Eq, Hash)]
pub enum AcceptStat {
    Success,
    ProgUnavail,
    ProgMismatch { low: u32, high: u32 },
    ProcUnavail,
    GarbageArgs,
}

/// Why authentication failed: `auth_stat`. Others are refused ([`Undeclared`](Refusal::Undeclared));
/// [`current::AuthStat`] has all of RFC 5531's.
#[allow(missing_docs)]
#[derive(Clone, Copy, Debug, PartialEq, Eq, Hash)]
#[repr(u32)]
pub enum AuthStat {
    BadCred = 1,
    RejectedCred = 2,
    BadVerf = 3,
    RejectedVerf = 4,
    TooWeak = 5,
}

/// The header of a reply, without its xid: `reply_body`.
#[derive(Clone, Copy, Debug, PartialEq, Eq, Hash)]
pub enum Reply<'a> {
    /// The call was accepted: `MSG_ACCEPTED`.
    Accepted {
        /// The server's verifier.
        verf: Auth<'a>,
        /// What became of the call.
        stat: AcceptStat,
    },
    /// The call was denied because of its RPC version: `MSG_DENIED`, `RPC_MISMATCH`.
    RpcMismatch {
        /// The lowest version served.
        low: u32,
        /// The highest.
        high: u32,
    },
    /// The call was denied because of its credential: `MSG_DENIED`, `AUTH_ERROR`.
    AuthError(AuthStat),
}

impl Reply<'_> {
    /// Writes an `rpc_msg` with this reply from place `start` of `out`, and gives the place after it, where the results of a
    /// `Success` go. All other bytes stay.
    ///
    /// ```
    /// use yugerzat::{AcceptStat, Auth, Reply};
    ///
    /// let reply = Reply::Accepted { verf: Auth::default(), stat: AcceptStat::ProcUnavail };
    /// let mut out = [0xEE; 24];
    /// assert_eq!(reply.write(42, &mut out, 0)?, 24);
    /// // xid 42, REPLY, MSG_ACCEPTED, AUTH_NULL, no body, PROC_UNAVAIL
    /// assert_eq!(out, [0, 0, 0, 42, 0, 0, 0, 1, 0, 0, 0, 0, 0, 0, 0, 0, 0, 0, 0, 0, 0, 0, 0, 3]);
    /// # Ok::<(), yugerzat::Refusal>(())
    /// ```
    ///
    /// # Errors
    /// `PastEnd`, `TooLong` (the verifier's body or the whole) and `NoRoom`.
    pub fn write(&self, xid: u32, out: &mut [u8], start: usize) -> Result<usize, Refusal> {
        current::Reply::from(*self).write_by(sys::write_reply, xid, out, start)
    }
}

/// What a message is.
#[derive(Clone, Copy, Debug, PartialEq, Eq, Hash)]
pub enum Body<'a> {
    /// A call.
    Call(Call<'a>),
    /// A reply.
    Reply(Reply<'a>),
}

/// The header of a call or a reply: `rpc_msg`.
#[derive(Clone, Copy, Debug, PartialEq, Eq, Hash)]
pub struct Message<'a> {
    /// The number that a reply shares with its call.
    pub xid: u32,
    /// The rest of the header.
    pub body: Body<'a>,
}

impl<'a> Message<'a> {
    /// Reads from place `at` of `bytes`. The arguments of a call, or the results of a reply, begin at `next`.
    ///
    /// It is plain if the header's padding is zero and its tags are declared. A credential's body stays opaque: dirt inside
    /// is not seen here, but by [`AuthUnix::read`].
    ///
    /// ```
    /// use yugerzat::{Body, Call, Message};
    ///
    /// // A body tag that is not declared: taken as a call of zeros, as nfsserve takes it.
    /// let read = Message::read(&[0, 0, 0, 42, 0, 0, 0, 2], 0)?;
    /// assert_eq!(read.value, Message { xid: 42, body: Body::Call(Call::default()) });
    /// assert!(!read.plain);
    /// # Ok::<(), yugerzat::Refusal>(())
    /// ```
    ///
    /// # Errors
    /// `Ends`, `Undeclared`, `TooLong` and `PastEnd`.
    pub fn read(bytes: &'a [u8], at: usize) -> Result<Reading<Message<'a>>, Refusal> {
        current::Message::read_by(sys::read_rpc_msg, bytes, at)
    }

    /// Writes from place `start` of `out`, and gives the place after it; as [`Call::write`] and [`Reply::write`].
    ///
    /// # Errors
    /// `PastEnd`, `TooLong` (a body or the whole) and `NoRoom`.
    pub fn write(&self, out: &mut [u8], start: usize) -> Result<usize, Refusal> {
        match self.body {
            Body::Call(call) => call.write(self.xid, out, start),
            Body::Reply(reply) => reply.write(self.xid, out, start),
        }
    }
}

/// Who calls, as the body of an `AUTH_UNIX` credential says: `auth_unix`.
#[derive(Clone, Copy, Debug, Default, PartialEq, Eq, Hash)]
pub struct AuthUnix<'a> {
    /// An arbitrary number of the caller.
    pub stamp: u32,
    /// The bytes of the caller's machine name.
    pub machinename: &'a [u8],
    /// The caller's user.
    pub uid: u32,
    /// The caller's group.
    pub gid: u32,
    /// The caller's other groups.
    pub gids: Words<'a>,
}

impl<'a> AuthUnix<'a> {
    /// Reads the `auth_unix` that a credential's body begins with. It is plain if the padding of the name is zero. Bytes
    /// left over in the body are ignored; they begin at `next`.
    ///
    /// ```
    /// use yugerzat::{Auth, AuthFlavor, AuthUnix, Body, Call, Message};
    ///
    /// let message: Vec<u8> = [42, 0, 2, 100_003, 3, 0, 1, 24, 7, 0, 1000, 100, 1, 27, 0, 0]
    ///     .iter().flat_map(|word: &u32| word.to_be_bytes()).collect();
    /// match Message::read(&message, 0)?.value.body {
    ///     Body::Call(Call { cred: Auth { flavor: AuthFlavor::Unix, body }, .. }) => {
    ///         let caller = AuthUnix::read(body)?.value;
    ///         assert_eq!((caller.uid, caller.gid), (1000, 100));
    ///         assert!(caller.gids.iter().eq([27]));
    ///     },
    ///     other => panic!("{other:?}"),
    /// }
    /// # Ok::<(), yugerzat::Refusal>(())
    /// ```
    ///
    /// # Errors
    /// `Ends` and `TooLong`. Places are places of the body, and the bytes that `Ends` wants are wanting in the body: more
    /// bytes behind the message do not help.
    pub fn read(body: &'a [u8]) -> Result<Reading<AuthUnix<'a>>, Refusal> {
        let mut info = [0; figures::AUTH_UNIX];
        let answer = sys::read_auth_unix(body, &mut info);
        reading(answer, &info, || {
            Some(AuthUnix {
                stamp: info[figure::AUTH_UNIX_STAMP] as u32,
                machinename: part(body, info[figure::AUTH_UNIX_NAME_AT], info[figure::AUTH_UNIX_NAME_COUNT])?,
                uid: info[figure::AUTH_UNIX_UID] as u32,
                gid: info[figure::AUTH_UNIX_GID] as u32,
                gids: Words::of(body, info[figure::AUTH_UNIX_GIDS_AT], info[figure::AUTH_UNIX_GIDS_COUNT])?,
            })
        })
    }

    /// Writes from place `start` of `out`, and gives the place after it. All other bytes stay. This is what stands in the
    /// body of a credential; [`Auth`] and [`Call`] put the flavor and the length around it.
    ///
    /// ```
    /// use yugerzat::{AuthUnix, Words};
    ///
    /// let gids: Vec<u8> = [27_u32, 100].iter().flat_map(|gid| gid.to_be_bytes()).collect();
    /// let gids = Words::new(&gids).expect("whole words");
    /// let caller = AuthUnix { stamp: 7, machinename: b"abc", uid: 1000, gid: 100, gids };
    /// let mut body = [0; 32];
    /// assert_eq!(caller.write(&mut body, 0)?, 32);
    /// assert_eq!(AuthUnix::read(&body)?.value, caller);
    /// # Ok::<(), yugerzat::Refusal>(())
    /// ```
    ///
    /// # Errors
    /// `PastEnd`, `TooLong` (the name, the groups or the whole) and `NoRoom`.
    pub fn write(&self, out: &mut [u8], start: usize) -> Result<usize, Refusal> {
        let mut list = [0; figures::AUTH_UNIX];
        list[figure::AUTH_UNIX_STAMP] = self.stamp.into();
        list[figure::AUTH_UNIX_NAME_COUNT] = self.machinename.len() as u64;
        list[figure::AUTH_UNIX_UID] = self.uid.into();
        list[figure::AUTH_UNIX_GID] = self.gid.into();
        list[figure::AUTH_UNIX_GIDS_COUNT] = self.gids.len() as u64;
        let (name, gids) = (self.machinename, self.gids.as_bytes());
        let mut info = [0; figures::WRITTEN];
        written(sys::write_auth_unix(name, gids, &list[figure::FIELDS..], out, start, &mut info), info)
    }
}
