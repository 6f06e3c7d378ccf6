use super::fields::{whole, Laying, Taking, Whole};
use crate::{Kind, Nfsfail3, Refusal, StableHow, WccData};

/// The arguments of WRITE: `WRITE3args` (RFC 1813, section 3.3.7). `count` and the length of `data` should be the same, and
/// are not compared.
#[derive(Clone, Copy, Debug, PartialEq, Eq, Hash)]
pub struct Write3args<'a> {
    /// The bytes of the file's handle.
    pub file: &'a [u8],
    /// Where in the file the data goes.
    pub offset: u64,
    /// How many bytes are to be written.
    pub count: u32,
    /// How safely they are to be stored before the reply.
    pub stable: StableHow,
    /// The bytes.
    pub data: &'a [u8],
}

whole!(
    Write3args<'a>,
    "`Ends`, `Undeclared` (`stable`), `TooLong` and `PastEnd`.",
    "`PastEnd`, `TooLong` (the handle, the data or the whole) and `NoRoom`."
);

impl<'a> Whole<'a> for Write3args<'a> {
    const KIND: Kind = Kind::Write3args;

    fn take(from: &mut Taking<'a>) -> Result<Self, Refusal> {
        Ok(Write3args {
            file: from.opaque()?,
            offset: from.hyper()?,
            count: from.word()?,
            stable: from.number()?,
            data: from.opaque()?,
        })
    }

    fn lay(&self, to: &mut Laying<'_>) -> Result<(), Refusal> {
        to.opaque(self.file)?;
        to.hyper(self.offset)?;
        to.word(self.count)?;
        to.word(self.stable.number())?;
        to.opaque(self.data)
    }
}

/// The results of WRITE: `WRITE3res`.
#[derive(Clone, Copy, Debug, PartialEq, Eq, Hash)]
pub enum Write3res {
    /// `NFS3_OK`
    Ok(Write3resok),
    /// Why it failed, and what comes with that.
    Failed(Nfsfail3, Write3resfail),
}

/// What a WRITE gives: `WRITE3resok`.
#[derive(Clone, Copy, Debug, PartialEq, Eq, Hash)]
pub struct Write3resok {
    /// The file's attributes before and after.
    pub file_wcc: WccData,
    /// How many bytes were written.
    pub count: u32,
    /// How safely they are stored.
    pub committed: StableHow,
    /// The server's cookie, which changes when it may have lost what was not stored: `writeverf3`.
    pub verf: [u8; 8],
}

/// What a WRITE that failed gives: `WRITE3resfail`.
#[derive(Clone, Copy, Debug, Default, PartialEq, Eq, Hash)]
pub struct Write3resfail {
    /// The file's attributes before and after.
    pub file_wcc: WccData,
}

whole!(
    Write3res,
    "`Ends`, `Undeclared` (the status, the file's type, `committed`), `TooLong` and `PastEnd`.",
    "`PastEnd` and `NoRoom`."
);

impl Whole<'_> for Write3res {
    const KIND: Kind = Kind::Write3res;

    fn take(from: &mut Taking<'_>) -> Result<Self, Refusal> {
        Ok(match from.failure()? {
            None => Write3res::Ok(Write3resok {
                file_wcc: WccData::take(from)?,
                count: from.word()?,
                committed: from.number()?,
                verf: from.fixed()?,
            }),
            Some(failure) => Write3res::Failed(failure, Write3resfail { file_wcc: WccData::take(from)? }),
        })
    }

    fn lay(&self, to: &mut Laying<'_>) -> Result<(), Refusal> {
        match self {
            Write3res::Ok(ok) => {
                to.success()?;
                ok.file_wcc.lay(to)?;
                to.word(ok.count)?;
                to.word(ok.committed.number())?;
                to.bytes(&ok.verf)
            },
            Write3res::Failed(failure, fail) => {
                to.failure(*failure)?;
                fail.file_wcc.lay(to)
            },
        }
    }
}
