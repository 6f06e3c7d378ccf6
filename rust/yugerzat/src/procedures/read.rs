use super::fields::{whole, Laying, Taking, Whole};
use crate::{Fattr3, Kind, Nfsfail3, Refusal};

/// The arguments of READ: `READ3args` (RFC 1813, section 3.3.6).
#[derive(Clone, Copy, Debug, Default, PartialEq, Eq, Hash)]
pub struct Read3args<'a> {
    /// The bytes of the file's handle.
    pub file: &'a [u8],
    /// Where in the file the data begins.
    pub offset: u64,
    /// How many bytes are asked for.
    pub count: u32,
}

whole!(Read3args<'a>, "`Ends`, `TooLong` and `PastEnd`.", "`PastEnd`, `TooLong` (the handle or the whole) and `NoRoom`.");

impl<'a> Whole<'a> for Read3args<'a> {
    const KIND: Kind = Kind::Read3args;

    fn take(from: &mut Taking<'a>) -> Result<Self, Refusal> {
        Ok(Read3args { file: from.opaque()?, offset: from.hyper()?, count: from.word()? })
    }

    fn lay(&self, to: &mut Laying<'_>) -> Result<(), Refusal> {
        to.opaque(self.file)?;
        to.hyper(self.offset)?;
        to.word(self.count)
    }
}

/// The results of READ: `READ3res`.
///
/// ```
/// use yugerzat::{Nfsfail3, Read3res, Read3resfail, Read3resok};
///
/// // NFS3_OK, no attributes, 5 bytes, the end of the file, data
/// let came = [0, 0, 0, 0, 0, 0, 0, 0, 0, 0, 0, 5, 0, 0, 0, 1, 0, 0, 0, 5, b'h', b'e', b'l', b'l', b'o', 0, 0, 0];
/// match Read3res::read(&came, 0)?.value {
///     Read3res::Ok(Read3resok { count: 5, eof: true, data, .. }) => assert_eq!(data, b"hello"),
///     other => panic!("{other:?}"),
/// }
///
/// let failed = Read3res::Failed(Nfsfail3::Stale, Read3resfail { file_attributes: None });
/// let mut out = [0xEE; 8];
/// assert_eq!(failed.write(&mut out, 0)?, 8);
/// assert_eq!(out, [0, 0, 0, 70, 0, 0, 0, 0]);
/// # Ok::<(), yugerzat::Refusal>(())
/// ```
#[derive(Clone, Copy, Debug, PartialEq, Eq, Hash)]
pub enum Read3res<'a> {
    /// `NFS3_OK`
    Ok(Read3resok<'a>),
    /// Why it failed, and what comes with that.
    Failed(Nfsfail3, Read3resfail),
}

/// What a READ gives: `READ3resok`. `count` and the length of `data` should be the same, and are not compared.
#[derive(Clone, Copy, Debug, Default, PartialEq, Eq, Hash)]
pub struct Read3resok<'a> {
    /// The file's attributes.
    pub file_attributes: Option<Fattr3>,
    /// How many bytes were read.
    pub count: u32,
    /// Whether they end where the file ends.
    pub eof: bool,
    /// The bytes.
    pub data: &'a [u8],
}

/// What a READ that failed gives: `READ3resfail`.
#[derive(Clone, Copy, Debug, Default, PartialEq, Eq, Hash)]
pub struct Read3resfail {
    /// The file's attributes.
    pub file_attributes: Option<Fattr3>,
}

whole!(
    Read3res<'a>,
    "`Ends`, `Undeclared` (the status, the file's type), `TooLong` and `PastEnd`.",
    "`PastEnd`, `TooLong` (the data or the whole) and `NoRoom`."
);

impl<'a> Whole<'a> for Read3res<'a> {
    const KIND: Kind = Kind::Read3res;

    fn take(from: &mut Taking<'a>) -> Result<Self, Refusal> {
        Ok(match from.failure()? {
            None => Read3res::Ok(Read3resok {
                file_attributes: from.attributes()?,
                count: from.word()?,
                eof: from.flag()?,
                data: from.opaque()?,
            }),
            Some(failure) => Read3res::Failed(failure, Read3resfail { file_attributes: from.attributes()? }),
        })
    }

    fn lay(&self, to: &mut Laying<'_>) -> Result<(), Refusal> {
        match self {
            Read3res::Ok(ok) => {
                to.success()?;
                to.attributes(ok.file_attributes.as_ref())?;
                to.word(ok.count)?;
                to.flag(ok.eof)?;
                to.opaque(ok.data)
            },
            Read3res::Failed(failure, fail) => {
                to.failure(*failure)?;
                to.attributes(fail.file_attributes.as_ref())
            },
        }
    }
}
