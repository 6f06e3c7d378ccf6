//! The build script, compiled and run by itself in folders of its own: it takes the archive that it is told to take, writes
//! only into OUT_DIR, and fails with a sentence.
use std::path::{Path, PathBuf};
use std::process::{self, Command};
use std::time::Duration;
use std::{env, fs, thread};

const ARCHIVE: &[u8] = b"!<arch>\nyugerzat_choose yugerzat_marks yugerzat_rewrite";
const HERE: &str = "aarch64-unknown-linux-gnu";

/// A folder with a repository in it: the crate, the script `library`, sources, and an archive as if it were built.
struct Place {
    folder: PathBuf,
}

impl Place {
    fn new() -> Place {
        let folder = Path::new(env!("CARGO_TARGET_TMPDIR")).join(format!("build-script-{}", process::id()));
        let _ = fs::remove_dir_all(&folder);
        for inside in
            ["repo/rust/yugerzat", "repo/build", "repo/crates/door/src", "repo/crates/xdr/src/deep", "out", "called"]
        {
            fs::create_dir_all(folder.join(inside)).unwrap();
        }
        let place = Place { folder: folder.canonicalize().unwrap() };
        place.put("repo/library", b"#!/bin/sh");
        place.put("repo/crates.txt", b"xdr: bytes\ndoor: xdr\ndoor_c staticlib: door\nanswers: door\n");
        place.put("repo/crates/door/src/lib.rt", b"");
        place.put("repo/crates/xdr/src/deep/items.rt", b"");
        place.put("repo/build/libyugerzat.a", ARCHIVE);
        place
    }

    fn path(&self, inside: &str) -> PathBuf {
        self.folder.join(inside)
    }

    fn put(&self, inside: &str, bytes: &[u8]) {
        fs::write(self.path(inside), bytes).unwrap();
    }

    /// Every file, with its bytes, but those in `out`.
    fn files(&self) -> Vec<(PathBuf, Vec<u8>)> {
        fn list(folder: &Path, found: &mut Vec<(PathBuf, Vec<u8>)>) {
            for entry in fs::read_dir(folder).unwrap() {
                let path = entry.unwrap().path();
                if path.is_dir() {
                    list(&path, found);
                } else {
                    found.push((path.clone(), fs::read(path).unwrap()));
                }
            }
        }
        let mut found = Vec::new();
        list(&self.folder, &mut found);
        found.retain(|(path, _)| !path.starts_with(self.path("out")));
        found.sort();
        found
    }

    /// Compiles the build script.
    fn compile(&self) -> PathBuf {
        let script = self.path("script");
        let source = Path::new(env!("CARGO_MANIFEST_DIR")).join("build.rs");
        let compiler = env::var_os("RUSTC").unwrap_or_else(|| "rustc".into());
        let done = Command::new(&compiler).args(["--edition", "2021", "-o"]).arg(&script).arg(source).status();
        assert!(done.unwrap_or_else(|e| panic!("{compiler:?} cannot be run: {e}")).success());
        script
    }

    /// Runs the build script for a target: what it said to cargo, or what it failed with.
    fn run(&self, script: &Path, target: &str, library: Option<&str>) -> Result<String, String> {
        let before = self.files();
        let here = self.path("repo/rust/yugerzat");
        let part = |number: usize| target.split('-').nth(number).unwrap();
        let mut command = Command::new(script);
        command.env_clear().current_dir(&here);
        command.env("CARGO_MANIFEST_DIR", &here).env("OUT_DIR", self.path("out")).env("PWD", self.path("called"));
        command
            .env("CARGO_PKG_VERSION", "0.2.0")
            .env("HOST", HERE)
            .env("TARGET", target)
            .env("CARGO_CFG_TARGET_OS", part(2));
        command.env("CARGO_CFG_TARGET_POINTER_WIDTH", if part(0).ends_with("64") { "64" } else { "32" });
        if let Some(library) = library {
            command.env("YUGERZAT_LIB", library);
        }
        let output = command.output().unwrap();
        assert_eq!(self.files(), before, "it writes only into OUT_DIR");
        let (says, fails) = (String::from_utf8(output.stdout).unwrap(), String::from_utf8(output.stderr).unwrap());
        if output.status.success() {
            assert_eq!(fails, "");
            assert!(says.contains(&format!("\ncargo:rustc-link-search=native={}\n", self.path("out").display())));
            assert!(says.ends_with("\ncargo:rustc-link-lib=static=yugerzat\n"));
            assert_eq!(fs::read(self.path("out/libyugerzat.a")).unwrap(), ARCHIVE);
            fs::remove_file(self.path("out/libyugerzat.a")).unwrap();
            Ok(says)
        } else {
            assert_eq!(output.status.code(), Some(1));
            assert!(!self.path("out/libyugerzat.a").exists());
            let sentence = fails.strip_prefix("yugerzat: ").and_then(|sentence| sentence.strip_suffix('\n'));
            let sentence =
                sentence.filter(|sentence| !sentence.contains('\n')).unwrap_or_else(|| panic!("no sentence: {fails}"));
            Err(sentence.to_string())
        }
    }
}

impl Drop for Place {
    fn drop(&mut self) {
        let _ = fs::remove_dir_all(&self.folder);
    }
}

#[test]
fn the_build_script_finds_the_library_or_says_why_not() {
    let place = Place::new();
    let script = place.compile();
    let shown = |inside: &str| place.path(inside).display().to_string();

    // What the script `library` built.
    let says = place.run(&script, HERE, None).unwrap();
    assert!(says.contains(&format!("cargo:rerun-if-changed={}\n", shown("repo/build/libyugerzat.a"))));
    assert!(says.contains(&format!("cargo:rerun-if-changed={}\n", shown("repo/crates/xdr/src"))));
    assert!(!says.contains("cargo:warning"), "{says}");
    assert!(place.run(&script, "aarch64-unknown-linux-musl", None).is_ok());

    // It is older than a file that it was made from.
    thread::sleep(Duration::from_millis(50));
    place.put("repo/crates/xdr/src/deep/items.rt", b"");
    let says = place.run(&script, HERE, None).unwrap();
    let warning =
        format!("cargo:warning={} changed after the library was built", shown("repo/crates/xdr/src/deep/items.rt"));
    assert!(says.contains(&warning), "{says}");

    // It is for this machine.
    for target in ["x86_64-unknown-linux-gnu", "aarch64-apple-darwin"] {
        let other = place.run(&script, target, None).unwrap_err();
        assert!(
            other.starts_with(&format!("the script library builds for this machine, {HERE}; YUGERZAT_LIB must name ")),
            "{other}"
        );
        assert!(other.ends_with(&format!(" built for {target}")), "{other}");
        assert!(place.run(&script, target, Some(&shown("repo/build/libyugerzat.a"))).is_ok());
    }
    let narrow = place.run(&script, "armv7-unknown-linux-gnueabihf", Some(&shown("repo/build/libyugerzat.a")));
    assert_eq!(narrow, Err("the library needs 64-bit addresses, which armv7-unknown-linux-gnueabihf does not have".into()));

    // It is not built.
    fs::rename(place.path("repo/build/libyugerzat.a"), place.path("called/other.a")).unwrap();
    let missing = place.run(&script, HERE, None).unwrap_err();
    let due = format!("the proved library is not built yet. Run {} once", shown("repo/library"));
    assert!(missing.starts_with(&due) && missing.contains("YUGERZAT_LIB"), "{missing}");

    // A path that is named: absolute, from the folder where cargo was called, from this crate's, and from nowhere.
    assert!(place.run(&script, HERE, Some(&shown("called/other.a"))).is_ok());
    assert!(place.run(&script, HERE, Some("other.a")).unwrap().contains("cargo:rerun-if-env-changed=PWD\n"));
    assert!(place.run(&script, HERE, Some("../../../called/other.a")).is_ok());
    let neither = place.run(&script, HERE, Some("another.a")).unwrap_err();
    let (called, here) = (shown("called/another.a"), shown("repo/rust/yugerzat/another.a"));
    assert_eq!(neither, format!("YUGERZAT_LIB names neither {called} nor {here}: there are no such files"));
    let nowhere = place.run(&script, HERE, Some("/nowhere/other.a")).unwrap_err();
    assert!(nowhere.starts_with("the library /nowhere/other.a cannot be read: "), "{nowhere}");

    // What is no archive, and one of an older version.
    let folder = place.run(&script, HERE, Some(".")).unwrap_err();
    assert!(folder.contains("cannot be read: "), "{folder}");
    place.put("called/text", b"yugerzat_marks");
    let text = place.run(&script, HERE, Some("text"));
    assert_eq!(text, Err(format!("{} is no static library", shown("called/text"))));
    for names in ["yugerzat_read yugerzat_judge", "yugerzat_choose yugerzat_rewrite", "yugerzat_current_choose"] {
        place.put("called/old.a", format!("!<arch>\n{names}").as_bytes());
        let old = place.run(&script, HERE, Some("old.a"));
        assert_eq!(old, Err(format!("{} is not the library of version 0.2.0", shown("called/old.a"))));
    }
}
