use super::fields::{whole, Laying, Taking, Whole};
use crate::{Kind, Nfsfail3, Nfstime3, Refusal, Sattr3, WccData};

/// The arguments of SETATTR: `SETATTR3args` (RFC 1813, section 3.3.2).
///
/// ```
/// use yugerzat::{Sattr3, Setattr3args};
///
/// // Handle, change and guard, as an old client sends them: the flag of the size is FFFFFFFF, where RFC 1813 has 1.
/// let mut came = [0; 44];
/// came[..8].copy_from_slice(&[0, 0, 0, 4, 10, 11, 12, 13]);
/// came[20..24].fill(0xFF);
///
/// let read = Setattr3args::read(&came, 0)?;
/// let due = Setattr3args {
///     object: &[10, 11, 12, 13],
///     new_attributes: Sattr3 { size: Some(0), ..Sattr3::default() },
///     guard: None,
/// };
/// assert_eq!((read.value, read.next, read.plain), (due, 44, false));
///
/// let mut out = [0; 44];
/// assert_eq!(read.value.write(&mut out, 0)?, 44);
/// assert_eq!(out[20..24], [0, 0, 0, 1]);
/// # Ok::<(), yugerzat::Refusal>(())
/// ```
#[derive(Clone, Copy, Debug, Default, PartialEq, Eq, Hash)]
pub struct Setattr3args<'a> {
    /// The bytes of the file's handle.
    pub object: &'a [u8],
    /// What to change.
    pub new_attributes: Sattr3,
    /// If there is one, the change is made only if the file's ctime is this: `sattrguard3`.
    pub guard: Option<Nfstime3>,
}

whole!(
    Setattr3args<'a>,
    "`Ends`, `Undeclared` (how a time is set), `TooLong` and `PastEnd`.",
    "`PastEnd`, `TooLong` (the handle or the whole) and `NoRoom`."
);

impl<'a> Whole<'a> for Setattr3args<'a> {
    const KIND: Kind = Kind::Setattr3args;

    fn take(from: &mut Taking<'a>) -> Result<Self, Refusal> {
        Ok(Setattr3args {
            object: from.opaque()?,
            new_attributes: from.part(Sattr3::read)?,
            guard: from.optional(Taking::time)?,
        })
    }

    fn lay(&self, to: &mut Laying<'_>) -> Result<(), Refusal> {
        to.opaque(self.object)?;
        to.part(|out, start| self.new_attributes.write(out, start))?;
        to.optional(self.guard, Laying::time)
    }
}

/// The results of SETATTR: `SETATTR3res`.
#[derive(Clone, Copy, Debug, PartialEq, Eq, Hash)]
pub enum Setattr3res {
    /// `NFS3_OK`
    Ok(Setattr3resok),
    /// Why it failed, and what comes with that.
    Failed(Nfsfail3, Setattr3resfail),
}

/// What a SETATTR gives: `SETATTR3resok`.
#[derive(Clone, Copy, Debug, Default, PartialEq, Eq, Hash)]
pub struct Setattr3resok {
    /// The file's attributes before and after.
    pub obj_wcc: WccData,
}

/// What a SETATTR that failed gives: `SETATTR3resfail`.
#[derive(Clone, Copy, Debug, Default, PartialEq, Eq, Hash)]
pub struct Setattr3resfail {
    /// The file's attributes before and after.
    pub obj_wcc: WccData,
}

whole!(
    Setattr3res,
    "`Ends`, `Undeclared` (the status, the file's type), `TooLong` and `PastEnd`.",
    "`PastEnd` and `NoRoom`."
);

impl Whole<'_> for Setattr3res {
    const KIND: Kind = Kind::Setattr3res;

    fn take(from: &mut Taking<'_>) -> Result<Self, Refusal> {
        Ok(match from.failure()? {
            None => Setattr3res::Ok(Setattr3resok { obj_wcc: WccData::take(from)? }),
            Some(failure) => Setattr3res::Failed(failure, Setattr3resfail { obj_wcc: WccData::take(from)? }),
        })
    }

    fn lay(&self, to: &mut Laying<'_>) -> Result<(), Refusal> {
        match self {
            Setattr3res::Ok(ok) => {
                to.success()?;
                ok.obj_wcc.lay(to)
            },
            Setattr3res::Failed(failure, fail) => {
                to.failure(*failure)?;
                fail.obj_wcc.lay(to)
            },
        }
    }
}
