//! Links the archive that `tools/build buffer_pool_c` makes. BUFFER_POOL_LIB names another folder
//! that holds it.

use std::env;
use std::path::PathBuf;

fn main() {
    println!("cargo::rerun-if-env-changed=BUFFER_POOL_LIB");
    let folder = env::var_os("BUFFER_POOL_LIB").map_or_else(default_folder, PathBuf::from);
    let archive = folder.join("libbuffer_pool_c.a");
    println!("cargo::rerun-if-changed={}", archive.display());
    if !archive.exists() {
        println!(
            "cargo::error={} is missing: run `tools/build buffer_pool_c` in the repository, \
             or name the folder of libbuffer_pool_c.a in BUFFER_POOL_LIB",
            archive.display()
        );
    }
    println!("cargo::rustc-link-search=native={}", folder.display());
    println!("cargo::rustc-link-lib=static=buffer_pool_c");
}

/// Where `tools/build` puts archives.
fn default_folder() -> PathBuf {
    let here = env::var_os("CARGO_MANIFEST_DIR").expect("cargo names the package's folder");
    PathBuf::from(here).join("../../target/staticlib")
}
