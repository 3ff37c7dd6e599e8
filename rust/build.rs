//! Links the library for C: libbearoff.a from the folder that BEAROFF_LIBRARY_DIR names, from `lib`
//! beside this crate's folder, as in a release, or from where the system keeps libraries. In a
//! checkout that has none of these it is what `make unproved` compiled, with a warning. A warning
//! says where it is missing, too.

use std::path::{Path, PathBuf};
use std::process::Command;
use std::{env, fs};

const ARCHIVE: &str = "libbearoff.a";

/// Whether the linker finds the library by itself.
fn is_installed() -> bool {
    match Command::new("cc").arg(format!("-print-file-name={}", ARCHIVE)).output() {
        Ok(done) => Path::new(String::from_utf8_lossy(&done.stdout).trim()).is_absolute(),
        Err(_) => false,
    }
}

/// The folder of the library, or none where the linker finds it by itself.
fn folder() -> Option<PathBuf> {
    if let Some(named) = env::var_os("BEAROFF_LIBRARY_DIR") {
        return Some(named.into());
    }
    let own =
        PathBuf::from(env::var_os("CARGO_MANIFEST_DIR").expect("cargo says where the crate is"));
    let beside = own.join("../lib");
    if beside.join(ARCHIVE).is_file() {
        return Some(beside);
    }
    if is_installed() {
        return None;
    }
    Some(own.join("../out/unproved/library"))
}

fn main() {
    println!("cargo:rerun-if-env-changed=BEAROFF_LIBRARY_DIR");
    println!("cargo:rustc-link-lib=static=bearoff");
    let folder = match folder() {
        Some(folder) => folder,
        None => return,
    };
    let archive = folder.join(ARCHIVE);
    println!("cargo:rerun-if-changed={}", archive.display());
    println!("cargo:rustc-link-search=native={}", folder.display());
    match fs::read(&archive) {
        Ok(bytes) => {
            if bytes.windows(16).any(|it| it == b"BEAROFF_UNPROVED") {
                println!("cargo:warning={} is NOT PROVED", archive.display());
            }
        }
        Err(error) => {
            println!("cargo:warning={} can't be read: {}", archive.display(), error);
            println!(
                "cargo:warning=set BEAROFF_LIBRARY_DIR to the folder of {}; in a checkout, \
                 `make unproved` compiles it",
                ARCHIVE
            );
        }
    }
}
