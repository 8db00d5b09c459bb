//! Links the archive that `tools/build pool_bench` makes, from the folder of the port's archive.

use std::env;
use std::path::PathBuf;

fn main() {
    println!("cargo::rerun-if-env-changed=BUFFER_POOL_LIB");
    let here = env::var_os("CARGO_MANIFEST_DIR").expect("cargo names the package's folder");
    let default = || PathBuf::from(&here).join("../../target/staticlib");
    let folder = env::var_os("BUFFER_POOL_LIB").map_or_else(default, PathBuf::from);
    println!("cargo::rerun-if-changed={}", folder.join("libpool_bench.a").display());
    println!("cargo::rustc-link-search=native={}", folder.display());
    println!("cargo::rustc-link-lib=static=pool_bench");
}
