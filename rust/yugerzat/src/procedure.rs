use core::fmt;
use core::iter::FusedIterator;

use crate::{Call, Kind};

macro_rules! procedures {
    ($($procedure:ident $name:literal $number:literal $arguments:ident $results:ident,)*) => {
        /// A procedure of NFS version 3 (RFC 1813, section 3) whose arguments and results are [kinds](Kind) here. More may
        /// be added.
        ///
        /// ```
        /// use yugerzat::{Kind, Procedure};
        ///
        /// assert_eq!(Procedure::try_from(2), Ok(Procedure::Setattr));
        /// assert_eq!(Procedure::Setattr.arguments(), Kind::Setattr3args);
        /// assert_eq!(Procedure::Setattr.results(), Kind::Setattr3res);
        /// assert_eq!((Procedure::Write.name(), Procedure::Write.number()), ("WRITE", 7));
        /// assert_eq!(Procedure::all().next(), Some(Procedure::Getattr));
        /// assert!(Procedure::try_from(4).is_err());
        /// ```
        #[derive(Clone, Copy, Debug, PartialEq, Eq, Hash, PartialOrd, Ord)]
        #[non_exhaustive]
        #[repr(u32)]
        pub enum Procedure {
            $(
                #[doc = concat!("`", $name, "`")]
                $procedure = $number,
            )*
        }

        impl Procedure {
            /// In the order of their numbers.
            const ALL: [Procedure; [$($number),*].len()] = [$(Procedure::$procedure),*];

            /// The name that RFC 1813 has for it.
            #[must_use]
            pub const fn name(self) -> &'static str {
                match self {
                    $(Procedure::$procedure => $name,)*
                }
            }

            /// The kind of its arguments, which follow the header of a call.
            #[must_use]
            pub const fn arguments(self) -> Kind {
                match self {
                    $(Procedure::$procedure => Kind::$arguments,)*
                }
            }

            /// The kind of its results, which follow the header of a reply.
            #[must_use]
            pub const fn results(self) -> Kind {
                match self {
                    $(Procedure::$procedure => Kind::$results,)*
                }
            }
        }

        impl TryFrom<u32> for Procedure {
            type Error = UnknownProcedure;

            /// The procedure of a number, as a call has it.
            fn try_from(number: u32) -> Result<Procedure, UnknownProcedure> {
                match number {
                    $($number => Ok(Procedure::$procedure),)*
                    _ => Err(UnknownProcedure),
                }
            }
        }
    };
}

// made by tools/generate: procedures
procedures! {
    Getattr "GETATTR" 1 Getattr3args Getattr3res,
    Setattr "SETATTR" 2 Setattr3args Setattr3res,
    Lookup "LOOKUP" 3 Lookup3args Lookup3res,
    Read "READ" 6 Read3args Read3res,
    Write "WRITE" 7 Write3args Write3res,
}
// end of procedures

impl Procedure {
    /// The number that a call has for it.
    #[must_use]
    pub const fn number(self) -> u32 {
        self as u32
    }

    /// Every procedure, in the order of their numbers.
    #[must_use]
    pub fn all() -> impl ExactSizeIterator<Item = Procedure> + DoubleEndedIterator + FusedIterator + Clone {
        Procedure::ALL.into_iter()
    }
}

impl fmt::Display for Procedure {
    fn fmt(&self, f: &mut fmt::Formatter<'_>) -> fmt::Result {
        f.pad(self.name())
    }
}

/// There is no procedure of that number here: its arguments and results are not known, or RFC 1813 has none.
#[derive(Clone, Copy, Debug, PartialEq, Eq, Hash)]
#[non_exhaustive]
pub struct UnknownProcedure;

impl fmt::Display for UnknownProcedure {
    fn fmt(&self, f: &mut fmt::Formatter<'_>) -> fmt::Result {
        f.write_str("there is no known procedure of that number")
    }
}

#[cfg(feature = "std")]
impl std::error::Error for UnknownProcedure {}

impl Call<'_> {
    /// The procedure that is called, where the call is for NFS version 3 by RPC version 2, and its arguments are known.
    ///
    /// ```
    /// use yugerzat::{Call, Procedure};
    ///
    /// let call = Call { rpcvers: 2, prog: 100_003, vers: 3, proc: 6, ..Call::default() };
    /// assert_eq!(call.procedure(), Some(Procedure::Read));
    /// // Number 6 of mount is another procedure.
    /// assert_eq!(Call { prog: 100_005, ..call }.procedure(), None);
    /// ```
    #[must_use]
    pub fn procedure(&self) -> Option<Procedure> {
        match (self.rpcvers, self.prog, self.vers) {
            (2, 100_003, 3) => Procedure::try_from(self.proc).ok(),
            _ => None,
        }
    }
}
