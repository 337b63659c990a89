//! For the build scripts of the wrappers: where the proved archives stand.
//!
//! They are in `target/staticlib` at the root of the repository, or in the
//! folder that the environment variable `LAGUNEDO_STATICLIB` names by its
//! absolute path.

use std::env;
use std::path::{Path, PathBuf};

const FOLDER: &str = "LAGUNEDO_STATICLIB";

/// Links the crate being built with `lib{name}.a`, and builds it again when
/// that archive changes.
///
/// # Panics
///
/// Where the archive is missing, since nothing can be linked then.
pub fn link(name: &str) {
    let folder = folder();
    let archive = folder.join(format!("lib{name}.a"));
    println!("cargo::rerun-if-env-changed={FOLDER}");
    println!("cargo::rerun-if-changed={}", archive.display());
    assert!(
        archive.is_file(),
        "{} is missing: run `make libraries` at the root of the repository",
        archive.display()
    );
    println!("cargo::rustc-link-search=native={}", folder.display());
    println!("cargo::rustc-link-lib=static={name}");
}

fn folder() -> PathBuf {
    let named = env::var_os(FOLDER).map(PathBuf::from);
    let folder = named.unwrap_or_else(|| {
        let manifest = env::var_os("CARGO_MANIFEST_DIR").expect("cargo names the manifest");
        Path::new(&manifest).join("../../../target/staticlib")
    });
    folder.canonicalize().unwrap_or(folder)
}
