//! The arguments and results of procedures (RFC 1813, section 3.3).
pub(crate) mod fields;
mod getattr;
mod lookup;
mod read;
mod setattr;
pub(crate) mod status;
mod wcc;
mod write;

pub use getattr::{Getattr3args, Getattr3res, Getattr3resok};
pub use lookup::{Lookup3args, Lookup3res, Lookup3resfail, Lookup3resok};
pub use read::{Read3args, Read3res, Read3resfail, Read3resok};
pub use setattr::{Setattr3args, Setattr3res, Setattr3resfail, Setattr3resok};
pub use status::{Nfsfail3, StableHow, UnknownNumber};
pub use wcc::{WccAttr, WccData};
pub use write::{Write3args, Write3res, Write3resfail, Write3resok};

use crate::{Procedure, Reading, Refusal};

macro_rules! by_procedure {
    ($(#[$about:meta])* $type:ident: $($procedure:ident($value:ty) $name:literal,)*) => {
        $(#[$about])*
        #[derive(Clone, Copy, Debug, PartialEq, Eq, Hash)]
        #[non_exhaustive]
        pub enum $type<'a> {
            $(
                #[doc = concat!("Those of ", $name, ".")]
                $procedure($value),
            )*
        }

        impl<'a> $type<'a> {
            /// Reads those of a procedure from place `at` of `bytes`.
            ///
            /// # Errors
            /// `Ends`, `Undeclared`, `TooLong` and `PastEnd`.
            pub fn read(procedure: Procedure, bytes: &'a [u8], at: usize) -> Result<Reading<$type<'a>>, Refusal> {
                match procedure {
                    $(Procedure::$procedure => {
                        let Reading { value, next, plain } = <$value>::read(bytes, at)?;
                        Ok(Reading { value: $type::$procedure(value), next, plain })
                    },)*
                }
            }

            /// Writes from place `start` of `out`, and gives the place after it. All other bytes stay.
            ///
            /// # Errors
            /// `PastEnd`, `TooLong` (a part or the whole) and `NoRoom`.
            pub fn write(&self, out: &mut [u8], start: usize) -> Result<usize, Refusal> {
                match self {
                    $($type::$procedure(value) => value.write(out, start),)*
                }
            }

            /// The procedure whose they are.
            #[must_use]
            pub const fn procedure(&self) -> Procedure {
                match self {
                    $($type::$procedure(_) => Procedure::$procedure,)*
                }
            }
        }
    };
}

by_procedure! {
    /// The arguments of a call. More may be added.
    ///
    /// They follow the header of the call, whose [`procedure`](crate::Call::procedure) says which they are:
    ///
    /// ```
    /// use yugerzat::{Arguments, Body, Diropargs3, Lookup3args, Message};
    ///
    /// // xid 42, a call of RPC version 2, NFS version 3, LOOKUP, no credential, no verifier; and "hi" in a directory
    /// let came: Vec<u8> = [42, 0, 2, 100_003, 3, 3, 0, 0, 0, 0, 4, 0x0A0B_0C0D, 2, 0x6869_0000]
    ///     .iter().flat_map(|word: &u32| word.to_be_bytes()).collect();
    /// let header = Message::read(&came, 0)?;
    /// let procedure = match header.value.body {
    ///     Body::Call(call) => call.procedure(),
    ///     Body::Reply(_) => None,
    /// };
    /// match procedure {
    ///     Some(procedure) => match Arguments::read(procedure, &came, header.next)?.value {
    ///         Arguments::Lookup(Lookup3args { what: Diropargs3 { name, .. } }) => assert_eq!(name, b"hi"),
    ///         other => panic!("{other:?}"),
    ///     },
    ///     None => panic!("a reply, or another procedure, whose arguments begin at {}", header.next),
    /// }
    /// # Ok::<(), yugerzat::Refusal>(())
    /// ```
    Arguments:
    Getattr(Getattr3args<'a>) "GETATTR",
    Setattr(Setattr3args<'a>) "SETATTR",
    Lookup(Lookup3args<'a>) "LOOKUP",
    Read(Read3args<'a>) "READ",
    Write(Write3args<'a>) "WRITE",
}

by_procedure! {
    /// The results of a call. More may be added.
    ///
    /// They follow the header of a reply that says [`Success`](crate::AcceptStat::Success). Which procedure it answers, a
    /// reply does not say: its xid is that of the call.
    ///
    /// ```
    /// use yugerzat::{Getattr3res, Nfsfail3, Procedure, Results};
    ///
    /// let read = Results::read(Procedure::Getattr, &[0, 0, 0, 70], 0)?;
    /// assert_eq!(read.value, Results::Getattr(Getattr3res::Failed(Nfsfail3::Stale)));
    /// # Ok::<(), yugerzat::Refusal>(())
    /// ```
    Results:
    Getattr(Getattr3res) "GETATTR",
    Setattr(Setattr3res) "SETATTR",
    Lookup(Lookup3res<'a>) "LOOKUP",
    Read(Read3res<'a>) "READ",
    Write(Write3res) "WRITE",
}
