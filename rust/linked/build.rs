//! Finds libpool_c.a: in the directory named by POOL_C_LIB, else in crates/pool_c/out of the repository.
use std::env;
use std::path::PathBuf;

fn main() {
    println!("cargo:rerun-if-env-changed=POOL_C_LIB");
    let beside = || PathBuf::from(env!("CARGO_MANIFEST_DIR")).join("../../crates/pool_c/out");
    let directory = env::var_os("POOL_C_LIB").map_or_else(beside, PathBuf::from);
    println!("cargo:rerun-if-changed={}", directory.join("libpool_c.a").display());
    let directory = match directory.join("libpool_c.a").canonicalize() {
        Ok(archive) => archive.parent().unwrap().to_path_buf(),
        Err(e) => panic!("{}/libpool_c.a: {e}; build it with `rt lib --cpu x86-64` in crates/pool_c", directory.display()),
    };
    println!("cargo:rustc-link-search=native={}", directory.display());
    println!("cargo:rustc-link-lib=static=pool_c");
    println!("cargo:rustc-env=POOL_C_ARCHIVE={}", directory.join("libpool_c.a").display());
}
