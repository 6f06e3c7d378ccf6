//! Where the captures are.
use std::path::{Path, PathBuf};
use std::{env, fs};

/// The files of one direction, `c2s` or `s2c`, in all folders of the captures: of those in the folder that CAPTURES names,
/// or else in `captures` of the folder `shared` beside the repository. Where that is not there, it is said.
pub fn files(direction: &str) -> Option<Vec<PathBuf>> {
    let folder = match env::var_os("CAPTURES") {
        Some(folder) => PathBuf::from(folder),
        None => Path::new(env!("CARGO_MANIFEST_DIR")).join("../../../shared/captures"),
    };
    if !folder.is_dir() && env::var_os("CAPTURES").is_none() {
        println!("there are no captures at {}, so none were tried; CAPTURES can name others", folder.display());
        return None;
    }
    let list = |folder: &Path| -> Vec<PathBuf> {
        let entries = fs::read_dir(folder).unwrap_or_else(|e| panic!("{} cannot be read: {e}", folder.display()));
        entries.map(|entry| entry.unwrap().path()).collect()
    };
    let runs = list(&folder).into_iter().filter(|path| path.is_dir());
    let mut files: Vec<PathBuf> = runs.flat_map(|run| list(&run)).collect();
    files.retain(|path| path.to_string_lossy().ends_with(&format!("-{direction}.bin")));
    files.sort();
    assert!(!files.is_empty(), "{} has no captures", folder.display());
    Some(files)
}
