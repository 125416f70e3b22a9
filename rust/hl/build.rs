//! Finds `libhl.a`, which `./hl install` makes: in the folder `HL_DIR`, by pkg-config, in the installed folder that this
//! crate lies in, or where `./hl install` puts it without a word.

use std::path::{Path, PathBuf};
use std::process::Command;

fn main() {
    println!("cargo:rerun-if-env-changed=HL_DIR");
    println!("cargo:rerun-if-env-changed=PKG_CONFIG_PATH");
    let here = PathBuf::from(std::env::var_os("CARGO_MANIFEST_DIR").expect("cargo names the crate's folder"));
    let Some(folder) = named().or_else(by_pkg_config).or_else(|| beside(&here)) else {
        panic!("no libhl.a was found: run `./hl install FOLDER`, and set HL_DIR to that folder");
    };
    println!("cargo:rerun-if-changed={}", folder.join("libhl.a").display());
    println!("cargo:rustc-link-search=native={}", folder.display());
    println!("cargo:rustc-link-lib=static=hl");
}

/// The folder that `HL_DIR` names; where there is no library, nothing else is tried.
fn named() -> Option<PathBuf> {
    let prefix = std::env::var_os("HL_DIR").filter(|prefix| !prefix.is_empty())?;
    let folder = Path::new(&prefix).join("lib");
    assert!(
        folder.join("libhl.a").exists(),
        "HL_DIR has no lib/libhl.a: {}",
        folder.display()
    );
    Some(folder)
}

fn by_pkg_config() -> Option<PathBuf> {
    let wanted = concat!("hl = ", env!("CARGO_PKG_VERSION"));
    let told = Command::new("pkg-config")
        .args(["--variable=libdir", wanted])
        .output()
        .ok()?;
    let folder = PathBuf::from(String::from_utf8(told.stdout).ok()?.trim());
    folder.join("libhl.a").exists().then_some(folder)
}

fn beside(here: &Path) -> Option<PathBuf> {
    ["../../../lib", "../../out/install/lib"]
        .iter()
        .map(|place| here.join(place))
        .find(|folder| folder.join("libhl.a").exists())
}
