//! Writes the module lines that take the crate's sources from where they lie. They are neither copied nor changed:
//! a module line with `#[path]` wants a fixed text, and only a generated file can name a folder that is a parameter.
use std::path::{Path, PathBuf};
use std::{env, fs};

const MODULES: [&str; 8] = ["context", "mount", "nfs", "portmap", "rpc", "transaction_tracker", "vfs", "xdr"];

/// The handlers whose places the spies have, under other names.
const HANDLERS: [&str; 2] = ["mount_handlers", "portmap_handlers"];

fn main() {
    println!("cargo:rerun-if-env-changed=NFSSERVE_SRC");
    let here = PathBuf::from(env::var("CARGO_MANIFEST_DIR").expect("cargo names this folder"));
    let source = env::var("NFSSERVE_SRC").map_or_else(|_| here.join("../../../shared/docs/src"), PathBuf::from).join("src");
    let source = source.canonicalize().unwrap_or_else(|e| panic!("no sources of nfsserve at {}: {e}", source.display()));

    let mut lines = String::new();
    for name in MODULES {
        lines += &format!("#[path = {:?}]\npub mod {name};\n", file(&source, name));
    }
    for name in HANDLERS {
        lines += &format!("#[path = {:?}]\nmod own_{name};\n", file(&source, name));
    }
    // rpcwire's functions are private: what asks them has to stand in the same module.
    lines += &format!(
        "mod rpcwire {{\n    include!({:?});\n    include!({:?});\n}}\n",
        file(&source, "rpcwire"),
        here.join("src/wire.rs")
    );

    let out = Path::new(&env::var("OUT_DIR").expect("cargo names the output folder")).join("modules.rs");
    fs::write(out, lines).expect("the output folder can be written");
}

fn file(source: &Path, name: &str) -> PathBuf {
    let path = source.join(name).with_extension("rs");
    println!("cargo:rerun-if-changed={}", path.display());
    path
}
