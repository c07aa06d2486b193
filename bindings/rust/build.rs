//! Links liblaspidru.a: of the folder that LASPIDRU_LIB_DIR names, else the target's in this package's folder lib, else the installed one.

use std::env;
use std::fs;
use std::path::{Path, PathBuf};
use std::process::Command;

const ARCHIVE: &str = "liblaspidru.a";

/// The folder lib of this package, with a folder for each target. The crate that `make packages` makes has it, the repository doesn't.
fn packaged() -> PathBuf {
    Path::new(&env::var_os("CARGO_MANIFEST_DIR").unwrap_or_default()).join("lib")
}

/// The folder of the installed library.
fn installed() -> Option<PathBuf> {
    let found = Command::new("pkg-config").args(["--variable=libdir", "laspidru"]).output().ok()?;
    let folder = String::from_utf8(found.stdout).ok()?;
    found.status.success().then(|| folder.trim().into())
}

fn folder() -> Option<PathBuf> {
    if let Some(folder) = env::var_os("LASPIDRU_LIB_DIR") {
        // (cargo runs this elsewhere)
        assert!(Path::new(&folder).is_absolute(), "LASPIDRU_LIB_DIR must be an absolute path");
        return Some(folder.into());
    }
    let Ok(found) = fs::read_dir(packaged()) else { return installed() };
    let targets: Vec<String> = found.flatten().map(|it| it.file_name().to_string_lossy().into()).collect();
    let target = env::var("TARGET").unwrap_or_default();
    assert!(targets.contains(&target), "laspidru's library is for {} here, and this is built for {target}", targets.join(", "));
    Some(packaged().join(target))
}

fn main() {
    println!("cargo:rerun-if-env-changed=LASPIDRU_LIB_DIR");
    println!("cargo:rerun-if-env-changed=PKG_CONFIG_PATH");
    let folder = folder();
    // A program is linked anew once the archive is another. While there is none, cargo runs this again at each build.
    let archive = folder.clone().unwrap_or_else(packaged).join(ARCHIVE);
    println!("cargo:rerun-if-changed={}", archive.display());
    if !archive.exists() {
        println!("cargo:warning=no {ARCHIVE}: set LASPIDRU_LIB_DIR to its folder, or install the library");
    }
    if let Some(folder) = folder {
        println!("cargo:rustc-link-search=native={}", folder.display());
    }
    println!("cargo:rustc-link-lib=static=laspidru");
}
