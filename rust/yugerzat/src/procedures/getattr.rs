use super::fields::{whole, Laying, Taking, Whole};
use crate::{Fattr3, Kind, Nfsfail3, Refusal};

/// The arguments of GETATTR: `GETATTR3args` (RFC 1813, section 3.3.1).
#[derive(Clone, Copy, Debug, Default, PartialEq, Eq, Hash)]
pub struct Getattr3args<'a> {
    /// The bytes of the file's handle.
    pub object: &'a [u8],
}

whole!(Getattr3args<'a>, "`Ends`, `TooLong` and `PastEnd`.", "`PastEnd`, `TooLong` (the handle or the whole) and `NoRoom`.");

impl<'a> Whole<'a> for Getattr3args<'a> {
    const KIND: Kind = Kind::Getattr3args;

    fn take(from: &mut Taking<'a>) -> Result<Self, Refusal> {
        Ok(Getattr3args { object: from.opaque()? })
    }

    fn lay(&self, to: &mut Laying<'_>) -> Result<(), Refusal> {
        to.opaque(self.object)
    }
}

/// The results of GETATTR: `GETATTR3res`.
#[derive(Clone, Copy, Debug, PartialEq, Eq, Hash)]
pub enum Getattr3res {
    /// `NFS3_OK`
    Ok(Getattr3resok),
    /// Why it failed.
    Failed(Nfsfail3),
}

/// What a GETATTR gives: `GETATTR3resok`.
#[derive(Clone, Copy, Debug, PartialEq, Eq, Hash)]
pub struct Getattr3resok {
    /// The file's attributes.
    pub obj_attributes: Fattr3,
}

whole!(
    Getattr3res,
    "`Ends`, `Undeclared` (the status, the file's type), `TooLong` and `PastEnd`.",
    "`PastEnd` and `NoRoom`."
);

impl Whole<'_> for Getattr3res {
    const KIND: Kind = Kind::Getattr3res;

    fn take(from: &mut Taking<'_>) -> Result<Self, Refusal> {
        Ok(match from.failure()? {
            None => Getattr3res::Ok(Getattr3resok { obj_attributes: from.part(Fattr3::read)? }),
            Some(failure) => Getattr3res::Failed(failure),
        })
    }

    fn lay(&self, to: &mut Laying<'_>) -> Result<(), Refusal> {
        match self {
            Getattr3res::Ok(ok) => {
                to.success()?;
                to.part(|out, start| ok.obj_attributes.write(out, start))
            },
            Getattr3res::Failed(failure) => to.failure(*failure),
        }
    }
}
