//! Links libbarcovento.a: from BARCOVENTO_LIBDIR, else from the repository's target/library, else from
//! where pkg-config finds the installed library.
use std::env;
use std::path::PathBuf;
use std::process::Command;

const ARCHIVE: &str = "libbarcovento.a";

fn installed() -> Option<PathBuf> {
    let answer =
        Command::new("pkg-config").args(["--variable=libdir", "barcovento"]).output().ok()?;
    let directory = String::from_utf8(answer.stdout).ok()?;
    Some(PathBuf::from(directory.trim_end())).filter(|path| path.join(ARCHIVE).exists())
}

fn directory() -> Option<PathBuf> {
    if let Ok(directory) = env::var("BARCOVENTO_LIBDIR") {
        return Some(PathBuf::from(directory));
    }
    let package = PathBuf::from(env::var("CARGO_MANIFEST_DIR").ok()?);
    let built = package.join("../../target/library");
    if built.join(ARCHIVE).exists() {
        return Some(built);
    }
    installed()
}

fn main() {
    println!("cargo:rerun-if-changed=build.rs");
    println!("cargo:rerun-if-env-changed=BARCOVENTO_LIBDIR");
    println!("cargo:rerun-if-env-changed=PKG_CONFIG_PATH");
    if env::var("CARGO_FEATURE_LINK").is_err() {
        return;
    }
    let Some(directory) = directory() else {
        panic!("{ARCHIVE} is not there: run ./install, or set BARCOVENTO_LIBDIR to its folder");
    };
    println!("cargo:rustc-link-search=native={}", directory.display());
    println!("cargo:rustc-link-lib=static=barcovento");
    println!("cargo:rerun-if-changed={}", directory.join(ARCHIVE).display());
}
