use super::fields::{Laying, Taking};
use crate::{Fattr3, Nfstime3, Refusal};

/// Some attributes of a file before an operation: `wcc_attr`.
#[allow(missing_docs)]
#[derive(Clone, Copy, Debug, Default, PartialEq, Eq, Hash)]
pub struct WccAttr {
    pub size: u64,
    pub mtime: Nfstime3,
    pub ctime: Nfstime3,
}

/// The attributes of a file around an operation, as far as the server has them: `wcc_data`.
#[derive(Clone, Copy, Debug, Default, PartialEq, Eq, Hash)]
pub struct WccData {
    /// Some of them before the operation: `pre_op_attr`.
    pub before: Option<WccAttr>,
    /// All of them after it: `post_op_attr`.
    pub after: Option<Fattr3>,
}

impl WccData {
    pub(super) fn take(from: &mut Taking<'_>) -> Result<WccData, Refusal> {
        Ok(WccData {
            before: from.optional(|from| Ok(WccAttr { size: from.hyper()?, mtime: from.time()?, ctime: from.time()? }))?,
            after: from.attributes()?,
        })
    }

    pub(super) fn lay(&self, to: &mut Laying<'_>) -> Result<(), Refusal> {
        to.optional(self.before, |to, before| {
            to.hyper(before.size)?;
            to.time(before.mtime)?;
            to.time(before.ctime)
        })?;
        to.attributes(self.after.as_ref())
    }
}
