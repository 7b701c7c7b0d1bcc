//! Finds the proved library to link: the archive that the environment variable `SGQ_LIB` names, or else
//! target/staticlib/libhost.a of the repository around this package, where `tools/build host` writes it, or else the
//! archive that `make install` has installed and pkg-config knows.

use std::env;
use std::path::{Path, PathBuf};
use std::process::Command;

const BUILT: &str = "target/staticlib/libhost.a";

fn main() {
    println!("cargo::rerun-if-env-changed=SGQ_LIB");
    println!("cargo::rerun-if-env-changed=PKG_CONFIG_PATH");
    let library = named().or_else(built).or_else(installed);
    match library {
        Some(library) if library.is_file() => link(&library),
        lost => {
            let missing = lost.map_or(BUILT.into(), |library| library.display().to_string());
            let help = "'tools/build host' in the repository writes target/staticlib/libhost.a, 'make install' installs it, or let SGQ_LIB name it";
            println!("cargo::error=there is no {missing}: {help}");
        }
    }
}

fn named() -> Option<PathBuf> {
    let name = env::var_os("SGQ_LIB").filter(|name| !name.is_empty())?;
    std::path::absolute(name).ok()
}

/// In the nearest folder around the package that has one: a package that is tried before it is published stands below
/// the repository's bindings/rust/target.
fn built() -> Option<PathBuf> {
    let package = PathBuf::from(env::var_os("CARGO_MANIFEST_DIR").expect("cargo sets it"));
    let around = package.ancestors().map(|folder| folder.join(BUILT));
    around.into_iter().find(|library| library.is_file())
}

fn installed() -> Option<PathBuf> {
    let asked = Command::new("pkg-config")
        .args(["--variable=archive", "sgq"])
        .output()
        .ok()?;
    let path = String::from_utf8(asked.stdout).ok()?;
    let path = path.trim();
    (!path.is_empty()).then(|| path.into())
}

/// By the file's own name, so that any archive may be named.
fn link(library: &Path) {
    let folder = library.parent().expect("a file stands in a folder");
    let file = library.file_name().expect("a file has a name");
    println!("cargo::rerun-if-changed={}", library.display());
    println!("cargo::rustc-link-search=native={}", folder.display());
    println!(
        "cargo::rustc-link-lib=static:+verbatim={}",
        file.to_string_lossy()
    );
}
