//! Links the proved library: the archive that YUGERZAT_LIB names, or else the one that the script `library` at the top of
//! the repository built for this machine. Nothing is proved here: cargo would show nothing of it for many minutes, and a
//! build script writes only into OUT_DIR.
use std::path::{Path, PathBuf};
use std::time::SystemTime;
use std::{env, fs, process};

fn main() {
    if let Err(why) = link() {
        eprintln!("yugerzat: {why}");
        process::exit(1);
    }
}

fn link() -> Result<(), String> {
    println!("cargo:rerun-if-changed=build.rs");
    println!("cargo:rerun-if-env-changed=YUGERZAT_LIB");
    if cargo("CARGO_CFG_TARGET_POINTER_WIDTH")? != "64" {
        return Err(format!("the library needs 64-bit addresses, which {} does not have", cargo("TARGET")?));
    }
    let archive = match env::var_os("YUGERZAT_LIB") {
        Some(path) => named(Path::new(&path))?,
        None => built()?,
    };
    println!("cargo:rerun-if-changed={}", archive.display());
    let bytes = fs::read(&archive).map_err(|e| format!("the library {} cannot be read: {e}", archive.display()))?;
    if !bytes.starts_with(b"!<arch>\n") {
        return Err(format!("{} is no static library", archive.display()));
    }
    // The newest function. Older archives lack it, and kinds; in the oldest, functions have other parameters.
    let name = b"yugerzat_marks";
    if !bytes.windows(name.len()).any(|bytes| bytes == name) {
        return Err(format!("{} is not the library of version {}", archive.display(), cargo("CARGO_PKG_VERSION")?));
    }
    // Under its own name, so that an archive of any name can be given.
    let folder = PathBuf::from(cargo("OUT_DIR")?);
    let copy = folder.join("libyugerzat.a");
    fs::write(&copy, bytes).map_err(|e| format!("{} cannot be written: {e}", copy.display()))?;
    println!("cargo:rustc-link-search=native={}", folder.display());
    println!("cargo:rustc-link-lib=static=yugerzat");
    Ok(())
}

/// What cargo tells a build script.
fn cargo(name: &str) -> Result<String, String> {
    env::var(name).map_err(|_| format!("{name} is not set; cargo sets it where it runs this script"))
}

/// The archive that YUGERZAT_LIB names. A relative path begins at the folder where cargo was called, or else at this
/// crate's.
fn named(path: &Path) -> Result<PathBuf, String> {
    if path.is_absolute() {
        return Ok(path.to_owned());
    }
    // Cargo runs this script in the crate's folder. The shell has left its own in PWD.
    println!("cargo:rerun-if-env-changed=PWD");
    let called = PathBuf::from(env::var_os("PWD").unwrap_or_default()).join(path);
    let here = PathBuf::from(cargo("CARGO_MANIFEST_DIR")?).join(path);
    if called.exists() {
        Ok(called)
    } else if here.exists() {
        Ok(here)
    } else {
        Err(format!("YUGERZAT_LIB names neither {} nor {}: there are no such files", called.display(), here.display()))
    }
}

/// The archive that the script `library` built.
fn built() -> Result<PathBuf, String> {
    let (host, target) = (cargo("HOST")?, cargo("TARGET")?);
    if host.split('-').next() != target.split('-').next() || cargo("CARGO_CFG_TARGET_OS")? != "linux" {
        return Err(format!(
            "the script library builds for this machine, {host}; YUGERZAT_LIB must name an archive that was \
             built for {target}"
        ));
    }
    let root = PathBuf::from(cargo("CARGO_MANIFEST_DIR")?).join("../..");
    let root = root.canonicalize().map_err(|e| format!("{} cannot be read: {e}", root.display()))?;
    let (script, archive) = (root.join("library"), root.join("build/libyugerzat.a"));
    let age = fs::metadata(&archive).and_then(|data| data.modified()).map_err(|_| {
        // Cargo runs this script again while the file is missing.
        println!("cargo:rerun-if-changed={}", archive.display());
        format!(
            "the proved library is not built yet. Run {} once (it proves for some minutes and says how far it is) and then \
             cargo again, or let YUGERZAT_LIB name an archive",
            script.display()
        )
    })?;
    // The script looks at what the files hold, and this only at their times; so it is a warning.
    for folder in sources(&root) {
        println!("cargo:rerun-if-changed={}", folder.display());
        if let Some(file) = newer(&folder, age) {
            println!(
                "cargo:warning={} changed after the library was built; {} builds it anew",
                file.display(),
                script.display()
            );
        }
    }
    Ok(archive)
}

/// The code of the crates that the library is made of: `door_c` and what it uses, as crates.txt has it.
fn sources(root: &Path) -> Vec<PathBuf> {
    let list = fs::read_to_string(root.join("crates.txt")).unwrap_or_default();
    let mut names = vec!["door_c"];
    let mut seen = 0;
    while seen < names.len() {
        // Before the colon other words may stand behind the name.
        let uses = list.lines().filter_map(|line| line.split_once(':'));
        let uses = uses.filter(|(crate_, _)| crate_.split_whitespace().next() == Some(names[seen]));
        for name in uses.flat_map(|(_, uses)| uses.split_whitespace()).collect::<Vec<_>>() {
            if !names.contains(&name) {
                names.push(name);
            }
        }
        seen += 1;
    }
    // What is not here belongs to the kit.
    names.iter().map(|name| root.join("crates").join(name).join("src")).filter(|folder| folder.is_dir()).collect()
}

/// A file of a folder that is newer than that.
fn newer(folder: &Path, age: SystemTime) -> Option<PathBuf> {
    let files = fs::read_dir(folder).ok()?.filter_map(|entry| entry.ok().map(|entry| entry.path()));
    for file in files {
        let data = fs::metadata(&file).ok()?;
        if data.is_dir() {
            if let Some(found) = newer(&file, age) {
                return Some(found);
            }
        } else if data.modified().ok()? > age {
            return Some(file);
        }
    }
    None
}
