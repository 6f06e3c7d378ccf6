use crate::procedures::fields::{whole, Laying, Taking, Whole};
use crate::{Kind, Refusal};

/// A program and its port: `mapping`, the arguments of GETPORT, whose result is a word: the port, or 0 where there is none.
///
/// ```
/// use yugerzat::mount::Mapping;
///
/// let mapping = Mapping { prog: 100_005, vers: 3, prot: Mapping::TCP, port: 0 };
/// let mut out = [0xEE; Mapping::SIZE];
/// assert_eq!(mapping.write(&mut out, 0)?, 16);
/// assert_eq!(Mapping::read(&out, 0)?.value, mapping);
/// # Ok::<(), yugerzat::Refusal>(())
/// ```
#[derive(Clone, Copy, Debug, Default, PartialEq, Eq, Hash)]
pub struct Mapping {
    /// The program.
    pub prog: u32,
    /// Its version.
    pub vers: u32,
    /// The protocol: [`TCP`](Mapping::TCP) or [`UDP`](Mapping::UDP).
    pub prot: u32,
    /// The port, which says nothing in the arguments of GETPORT.
    pub port: u32,
}

impl Mapping {
    /// The bytes of every mapping.
    pub const SIZE: usize = 16;
    /// `IPPROTO_TCP`
    pub const TCP: u32 = 6;
    /// `IPPROTO_UDP`
    pub const UDP: u32 = 17;
}

whole!(Mapping, "`Ends`, `TooLong` and `PastEnd`.", "`PastEnd` and `NoRoom`.");

impl Whole<'_> for Mapping {
    const KIND: Kind = Kind::Mapping;

    fn take(from: &mut Taking<'_>) -> Result<Self, Refusal> {
        Ok(Mapping { prog: from.word()?, vers: from.word()?, prot: from.word()?, port: from.word()? })
    }

    fn lay(&self, to: &mut Laying<'_>) -> Result<(), Refusal> {
        to.word(self.prog)?;
        to.word(self.vers)?;
        to.word(self.prot)?;
        to.word(self.port)
    }
}
