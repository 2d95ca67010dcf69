//! Links the library from the folder that MORPHELAI_LIB names, `../target/staticlib` where it names none: the proved
//! archive where it is there, else (for development only) a shared library of the same exports.

use std::env;
use std::path::{Path, PathBuf};
use std::process::exit;

/// What makes the archive.
const MAKE: &str = "`tools/archive` makes it in target/staticlib";

fn main() {
    println!("cargo:rerun-if-env-changed=MORPHELAI_LIB");
    let named = env::var_os("MORPHELAI_LIB").filter(|named| !named.is_empty());
    let named = named.map_or_else(|| PathBuf::from("../target/staticlib"), PathBuf::from);
    let folder = match named.canonicalize() {
        Ok(folder) => folder,
        Err(error) => fail(&format!("the library's folder {}: {error}; {MAKE}", named.display())),
    };
    println!("cargo:rustc-link-search=native={}", folder.display());
    link(&folder);
}

fn link(folder: &Path) {
    let archive = folder.join("libmorphelai.a");
    let shared = folder.join("libmorphelai.so");
    println!("cargo:rerun-if-changed={}", folder.display());
    if archive.is_file() {
        println!("cargo:rerun-if-changed={}", archive.display());
        println!("cargo:rustc-link-lib=static=morphelai");
    } else if shared.is_file() {
        println!("cargo:rerun-if-changed={}", shared.display());
        println!("cargo:rustc-link-lib=dylib=morphelai");
        println!("cargo:rustc-link-arg=-Wl,-rpath,{}", folder.display());
    } else {
        fail(&format!("no libmorphelai.a in {}; {MAKE}", folder.display()));
    }
}

fn fail(text: &str) -> ! {
    eprintln!("morphelai: {text}");
    exit(1)
}
