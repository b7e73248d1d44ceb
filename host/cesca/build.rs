//! Links the proved library: `libboundary.a`, `libruns.a`, `libadmission.a`, `libsource.a`,
//! `libdraw.a`, `libbusy.a`, `libturns.a` and `libshelf.a`.
//!
//! They are looked for in `../../target/staticlib`, or in the directory that `CESCA_LIB` names. A
//! relative one is taken from this package's directory, `host/cesca`.

use std::env;
use std::path::{Path, PathBuf};

/// The crates whose archives are linked.
const CRATES: [&str; 8] =
    ["boundary", "runs", "admission", "source", "draw", "busy", "turns", "shelf"];

fn main() {
    println!("cargo:rerun-if-env-changed=CESCA_LIB");
    let directory = directory();
    println!("cargo:rustc-link-search=native={}", directory.display());
    for name in CRATES {
        link(&directory, name);
    }
}

/// Links the archive of a crate, which must be there.
fn link(directory: &Path, name: &str) {
    let archive = directory.join(format!("lib{name}.a"));
    println!("cargo:rerun-if-changed={}", archive.display());
    assert!(
        archive.is_file(),
        "{} is missing: run `bash host/build` first, \
         or name the archives' directory in CESCA_LIB",
        archive.display()
    );
    println!("cargo:rustc-link-lib=static={name}");
}

/// The directory in which the archives should be.
fn directory() -> PathBuf {
    let package = env::var("CARGO_MANIFEST_DIR").expect("cargo names the package's directory");
    let named = env::var("CESCA_LIB").unwrap_or_else(|_| "../../target/staticlib".to_string());
    Path::new(&package).join(named)
}
