//! Links `libtansyattic.a`: from the folder that `TANSYATTIC_LIB_DIR` names, or else from where pkg-config knows it
//! to be (`ffi/install` tells it), or else from where `ffi/build` leaves it in the tree.

use std::path::{Path, PathBuf};
use std::process::Command;
use std::{env, str};

const ARCHIVE: &str = "libtansyattic.a";
const FOLDER: &str = "TANSYATTIC_LIB_DIR";

/// The folder that pkg-config names, if it knows the library.
fn folder_of_pkg_config() -> Option<PathBuf> {
    let program = env::var_os("PKG_CONFIG").unwrap_or_else(|| "pkg-config".into());
    let said = Command::new(program)
        .args(["--variable=libdir", "tansyattic"])
        .output()
        .ok()?;
    let folder = str::from_utf8(&said.stdout).ok()?.trim_end();
    (said.status.success() && !folder.is_empty()).then(|| folder.into())
}

/// The folders in which the archive may lie, the first of them that has it first.
fn folders() -> Vec<PathBuf> {
    if let Some(folder) = env::var_os(FOLDER) {
        return vec![folder.into()];
    }
    let tree = Path::new(env!("CARGO_MANIFEST_DIR")).join("../../crates/tansyattic/out");
    folder_of_pkg_config().into_iter().chain([tree]).collect()
}

fn main() {
    for name in [FOLDER, "PKG_CONFIG", "PKG_CONFIG_PATH"] {
        println!("cargo::rerun-if-env-changed={name}");
    }
    let folders = folders();
    for folder in &folders {
        println!("cargo::rerun-if-changed={}", folder.join(ARCHIVE).display());
    }
    let Some(folder) = folders.iter().find(|folder| folder.join(ARCHIVE).is_file()) else {
        for folder in &folders {
            println!("cargo::error={ARCHIVE} isn't in {}", folder.display());
        }
        println!(
            "cargo::error=ffi/build in the tree makes it; or set {FOLDER} to the folder that has it"
        );
        return;
    };
    println!("cargo::rustc-link-search=native={}", folder.display());
    println!("cargo::rustc-link-lib=static=tansyattic");
}
