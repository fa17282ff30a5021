//! Links the engine's static archive: `libzombirels.a` as it is installed, or
//! `libabi.a` as it is built.

use std::path::{Path, PathBuf};
use std::{env, fs, process};

/// The archive as it is installed, and as it is built.
const NAMES: [&str; 2] = ["libzombirels.a", "libabi.a"];

fn main() {
    println!("cargo:rerun-if-env-changed=ZOMBIRELS_LIB");
    let folder = archive_folder();
    let paths = NAMES.map(|name| folder.join(name));
    let Some(archive) = paths.iter().find(|path| path.is_file()) else {
        let built = paths[1].display();
        fail(&format!(
            "{built} is missing: run `rt lib` in crates/abi first\n\
             note: ZOMBIRELS_LIB may name another folder, with {} or {}",
            NAMES[0], NAMES[1]
        ));
    };
    println!("cargo:rerun-if-changed={}", archive.display());
    link(archive);
}

/// The folder in ZOMBIRELS_LIB, else the one where the archive is built.
fn archive_folder() -> PathBuf {
    match env::var_os("ZOMBIRELS_LIB") {
        Some(folder) => PathBuf::from(folder),
        None => {
            let manifest = env::var_os("CARGO_MANIFEST_DIR").unwrap_or_default();
            PathBuf::from(manifest).join("../crates/abi/out")
        }
    }
}

/// Links the archive by its installed name, from a copy.
fn link(archive: &Path) {
    let out = PathBuf::from(env::var_os("OUT_DIR").unwrap_or_default());
    // its bytes alone: an installed archive may be read-only
    let copied = fs::read(archive).and_then(|bytes| fs::write(out.join(NAMES[0]), bytes));
    if let Err(error) = copied {
        fail(&format!("{} can't be copied: {error}", archive.display()));
    }
    println!("cargo:rustc-link-search=native={}", out.display());
    println!("cargo:rustc-link-lib=static=zombirels");
}

fn fail(message: &str) -> ! {
    eprintln!("error: {message}");
    process::exit(1);
}
