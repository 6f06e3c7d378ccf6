use super::fields::{whole, Laying, Taking, Whole};
use crate::{Diropargs3, Fattr3, Kind, Nfsfail3, Refusal};

/// The arguments of LOOKUP: `LOOKUP3args` (RFC 1813, section 3.3.3).
#[derive(Clone, Copy, Debug, Default, PartialEq, Eq, Hash)]
pub struct Lookup3args<'a> {
    /// The directory and the name in it.
    pub what: Diropargs3<'a>,
}

whole!(
    Lookup3args<'a>,
    "`Ends`, `TooLong` and `PastEnd`.",
    "`PastEnd`, `TooLong` (the handle, the name or the whole) and `NoRoom`."
);

impl<'a> Whole<'a> for Lookup3args<'a> {
    const KIND: Kind = Kind::Lookup3args;

    fn take(from: &mut Taking<'a>) -> Result<Self, Refusal> {
        Ok(Lookup3args { what: from.part(Diropargs3::read)? })
    }

    fn lay(&self, to: &mut Laying<'_>) -> Result<(), Refusal> {
        to.part(|out, start| self.what.write(out, start))
    }
}

/// The results of LOOKUP: `LOOKUP3res`.
#[derive(Clone, Copy, Debug, PartialEq, Eq, Hash)]
pub enum Lookup3res<'a> {
    /// `NFS3_OK`
    Ok(Lookup3resok<'a>),
    /// Why it failed, and what comes with that.
    Failed(Nfsfail3, Lookup3resfail),
}

/// What a LOOKUP gives: `LOOKUP3resok`.
#[derive(Clone, Copy, Debug, Default, PartialEq, Eq, Hash)]
pub struct Lookup3resok<'a> {
    /// The bytes of the handle of what was found.
    pub object: &'a [u8],
    /// Its attributes.
    pub obj_attributes: Option<Fattr3>,
    /// The attributes of the directory.
    pub dir_attributes: Option<Fattr3>,
}

/// What a LOOKUP that failed gives: `LOOKUP3resfail`.
#[derive(Clone, Copy, Debug, Default, PartialEq, Eq, Hash)]
pub struct Lookup3resfail {
    /// The attributes of the directory.
    pub dir_attributes: Option<Fattr3>,
}

whole!(
    Lookup3res<'a>,
    "`Ends`, `Undeclared` (the status, a file's type), `TooLong` and `PastEnd`.",
    "`PastEnd`, `TooLong` (the handle or the whole) and `NoRoom`."
);

impl<'a> Whole<'a> for Lookup3res<'a> {
    const KIND: Kind = Kind::Lookup3res;

    fn take(from: &mut Taking<'a>) -> Result<Self, Refusal> {
        Ok(match from.failure()? {
            None => Lookup3res::Ok(Lookup3resok {
                object: from.opaque()?,
                obj_attributes: from.attributes()?,
                dir_attributes: from.attributes()?,
            }),
            Some(failure) => Lookup3res::Failed(failure, Lookup3resfail { dir_attributes: from.attributes()? }),
        })
    }

    fn lay(&self, to: &mut Laying<'_>) -> Result<(), Refusal> {
        match self {
            Lookup3res::Ok(ok) => {
                to.success()?;
                to.opaque(ok.object)?;
                to.attributes(ok.obj_attributes.as_ref())?;
                to.attributes(ok.dir_attributes.as_ref())
            },
            Lookup3res::Failed(failure, fail) => {
                to.failure(*failure)?;
                to.attributes(fail.dir_attributes.as_ref())
            },
        }
    }
}
