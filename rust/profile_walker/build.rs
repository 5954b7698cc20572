//! Finds the archive of the proved library and tells cargo to link it.

use std::env;
use std::path::PathBuf;

const ARCHIVE: &str = "libprofile_walker.a";

fn main() {
    println!("cargo::rerun-if-env-changed=PROFILE_WALKER_LIB");
    let package = PathBuf::from(env::var_os("CARGO_MANIFEST_DIR").unwrap_or_default());
    let named = env::var_os("PROFILE_WALKER_LIB").filter(|folder| !folder.is_empty());
    let folder = package.join(named.unwrap_or_else(|| "../../crates/profile_walker/out".into()));
    let archive = folder.join(ARCHIVE);
    println!("cargo::rerun-if-changed={}", archive.display());
    if !archive.is_file() {
        println!(
            "cargo::error={} is missing: run `rt lib` in the repository's folder \
             crates/profile_walker, or name the folder of {ARCHIVE} in PROFILE_WALKER_LIB",
            archive.display()
        );
        return;
    }
    println!("cargo::rustc-link-search=native={}", folder.display());
    println!("cargo::rustc-link-lib=static=profile_walker");
}
