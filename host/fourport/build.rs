//! Links the desk's archive: the one that FOURPORT_ARCHIVE names, else the one that `host/archive` makes.
//!
//! Without an archive there is a warning that says how to make it. Documents and checks need none; what is linked then fails by the library's name.

use std::path::PathBuf;
use std::{env, fs};

fn main() {
    println!("cargo::rerun-if-env-changed=FOURPORT_ARCHIVE");
    if let Err(sentence) = copied() {
        println!("cargo::warning={sentence}");
    }
    println!("cargo::rustc-link-search=native={}", folder().display());
    println!("cargo::rustc-link-lib=static=fourport");
}

fn folder() -> PathBuf {
    PathBuf::from(env::var_os("OUT_DIR").unwrap_or_default())
}

/// A copy of the archive in the build's own folder, so that it may have any name.
fn copied() -> Result<(), String> {
    let home = PathBuf::from(env::var_os("CARGO_MANIFEST_DIR").unwrap_or_default());
    let archive = env::var_os("FOURPORT_ARCHIVE").map_or_else(|| home.join("../../target/staticlib/libfourport.a"), PathBuf::from);
    println!("cargo::rerun-if-changed={}", archive.display());
    let copy = folder().join("libfourport.a");
    // a copy of an archive that is no longer there is not to be linked
    let _ = fs::remove_file(&copy);
    if env::var("CARGO_CFG_TARGET_ARCH").as_deref() != Ok("x86_64") {
        return Err("the desk's archive links into x86-64 programs only: programs for this machine cannot be linked".into());
    }
    fs::copy(&archive, copy).map(|_| ()).map_err(|_| {
        format!(
            "there is no archive of the desk at {}: no program that uses fourport can be linked. `host/archive`, run in the repository's root, makes \
             the archive; FOURPORT_ARCHIVE, a whole path from the root of the file system, names one that stands elsewhere",
            archive.display()
        )
    })
}
