//! Links the proved library, unless the model stands in for it.
use std::env;
use std::path::PathBuf;

fn main() {
    println!("cargo:rerun-if-env-changed=DOOR_LIB");
    if env::var_os("CARGO_FEATURE_MODEL").is_some() {
        return;
    }
    let here = PathBuf::from(env::var("CARGO_MANIFEST_DIR").expect("cargo names this folder"));
    let library = env::var("DOOR_LIB").map_or_else(|_| here.join("../build/libyugerzat.a"), PathBuf::from);
    let library = library.canonicalize().unwrap_or_else(|e| panic!("no library at {}: {e}", library.display()));
    println!("cargo:rerun-if-changed={}", library.display());
    println!("cargo:rustc-link-arg-bins={}", library.display());
}
