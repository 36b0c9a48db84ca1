//! Links the archive of proved functions, from `target/staticlib` at the
//! repository root or from the folder that `ROOMSCRIPT_LIB_DIR` names.

use std::env;
use std::path::{Path, PathBuf};

const FOLDER: &str = "ROOMSCRIPT_LIB_DIR";
const ARCHIVE: &str = "libroomscript.a";

fn main() {
    println!("cargo::rerun-if-env-changed={FOLDER}");
    let named = env::var_os(FOLDER).filter(|folder| !folder.is_empty());
    let folder = named.as_ref().map_or_else(built, PathBuf::from);
    let archive = folder.join(ARCHIVE);
    // An archive that is not there yet also counts as changed, so the next
    // build after it is made finds it.
    println!("cargo::rerun-if-changed={}", archive.display());
    if folder.is_relative() {
        let folder = folder.display();
        println!("cargo::error={FOLDER} must be an absolute path, but is {folder}");
    } else if !archive.is_file() {
        println!("cargo::error={}", missing(&archive, named.is_some()));
    } else {
        println!("cargo::rustc-link-search=native={}", folder.display());
        println!("cargo::rustc-link-lib=static=roomscript");
    }
}

/// Where the archive is made.
fn built() -> PathBuf {
    let package = PathBuf::from(env::var_os("CARGO_MANIFEST_DIR").unwrap_or_default());
    let root = package.parent().unwrap_or(&package);
    root.join("target").join("staticlib")
}

fn missing(archive: &Path, is_named: bool) -> String {
    let archive = archive.display();
    let remedy = if is_named {
        format!("{FOLDER} names its folder: put the archive there, or unset the variable")
    } else {
        "make it at the repository root with: bash tools/build roomscript".to_owned()
    };
    format!("{archive} is missing; {remedy}")
}
