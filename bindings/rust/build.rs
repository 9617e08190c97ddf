//! Links the engine's archive: from the folder in `TEZQULOM_LIB_DIR`, else from the repository's `target/staticlib`. It
//! is `libcapi.a`, as `bindings/archive` writes it, or `libtezqulom.a`, as `bindings/install` installs it. Where the
//! archive has `tezqulom_quote` or `tezqulom_escape`, a flag of that name is set for the crate's code.

use std::env;
use std::fs;
use std::path::{Path, PathBuf};

const FOLDER: &str = "TEZQULOM_LIB_DIR";
const LIBRARIES: [&str; 2] = ["capi", "tezqulom"];
const WRITERS: [&str; 2] = ["tezqulom_quote", "tezqulom_escape"];

fn main() {
    let folder = env::var_os(FOLDER).map_or_else(in_repository, PathBuf::from);
    println!("cargo:rerun-if-env-changed={FOLDER}");
    for writer in WRITERS {
        println!("cargo:rustc-check-cfg=cfg({writer})");
    }
    for library in LIBRARIES {
        let archive = folder.join(format!("lib{library}.a"));
        println!("cargo:rerun-if-changed={}", archive.display());
        if let Ok(octets) = fs::read(&archive) {
            link(&folder, library, &octets);
            return;
        }
    }
    eprintln!("there is no libcapi.a or libtezqulom.a that can be read in {}", folder.display());
    eprintln!("build it by `bindings/archive` of the repository, or set {FOLDER} to its folder");
    std::process::exit(1);
}

fn in_repository() -> PathBuf {
    let package = env::var_os("CARGO_MANIFEST_DIR").expect("cargo sets CARGO_MANIFEST_DIR");
    Path::new(&package).join("../../target/staticlib")
}

fn link(folder: &Path, library: &str, archive: &[u8]) {
    println!("cargo:rustc-link-search=native={}", folder.display());
    println!("cargo:rustc-link-lib=static={library}");
    for writer in WRITERS {
        if has_symbol(archive, format!("{writer}\0").as_bytes()) {
            println!("cargo:rustc-cfg={writer}");
        }
    }
}

/// An archive lists its symbols' names, each with a zero after it.
fn has_symbol(archive: &[u8], name: &[u8]) -> bool {
    archive.windows(name.len()).any(|octets| octets == name)
}
