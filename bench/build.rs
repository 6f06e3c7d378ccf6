//! Links the proved library, and the C code that bench/run has compiled.
use std::env;

fn main() {
    for name in ["YUGERZAT_LIB", "BENCH_C_LIB"] {
        println!("cargo:rerun-if-env-changed={name}");
        let archive =
            env::var(name).unwrap_or_else(|_| panic!("{name} names no archive: start the benchmark with bench/run"));
        println!("cargo:rerun-if-changed={archive}");
        println!("cargo:rustc-link-arg-bins={archive}");
    }
    // The static ones: no call then goes through a table.
    println!("cargo:rustc-link-arg-bins=-l:libtirpc.a");
    println!("cargo:rustc-link-arg-bins=-l:libnfs.a");
}
