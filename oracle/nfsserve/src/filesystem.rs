//! A file system that is never reached: a context must name one, and the spies never ask it.
use async_trait::async_trait;

use crate::nfs::*;
use crate::vfs::{NFSFileSystem, ReadDirResult, VFSCapabilities};

pub struct Unreached;

#[async_trait]
#[rustfmt::skip]
impl NFSFileSystem for Unreached {
    fn capabilities(&self) -> VFSCapabilities { unreachable!() }
    fn root_dir(&self) -> fileid3 { unreachable!() }
    async fn lookup(&self, _: fileid3, _: &filename3) -> Result<fileid3, nfsstat3> { unreachable!() }
    async fn getattr(&self, _: fileid3) -> Result<fattr3, nfsstat3> { unreachable!() }
    async fn setattr(&self, _: fileid3, _: sattr3) -> Result<fattr3, nfsstat3> { unreachable!() }
    async fn read(&self, _: fileid3, _: u64, _: u32) -> Result<(Vec<u8>, bool), nfsstat3> { unreachable!() }
    async fn write(&self, _: fileid3, _: u64, _: &[u8]) -> Result<fattr3, nfsstat3> { unreachable!() }
    async fn create(&self, _: fileid3, _: &filename3, _: sattr3) -> Result<(fileid3, fattr3), nfsstat3> { unreachable!() }
    async fn create_exclusive(&self, _: fileid3, _: &filename3) -> Result<fileid3, nfsstat3> { unreachable!() }
    async fn mkdir(&self, _: fileid3, _: &filename3) -> Result<(fileid3, fattr3), nfsstat3> { unreachable!() }
    async fn remove(&self, _: fileid3, _: &filename3) -> Result<(), nfsstat3> { unreachable!() }
    async fn rename(&self, _: fileid3, _: &filename3, _: fileid3, _: &filename3) -> Result<(), nfsstat3> { unreachable!() }
    async fn readdir(&self, _: fileid3, _: fileid3, _: usize) -> Result<ReadDirResult, nfsstat3> { unreachable!() }
    async fn symlink(&self, _: fileid3, _: &filename3, _: &nfspath3, _: &sattr3) -> Result<(fileid3, fattr3), nfsstat3> { unreachable!() }
    async fn readlink(&self, _: fileid3) -> Result<nfspath3, nfsstat3> { unreachable!() }
}
