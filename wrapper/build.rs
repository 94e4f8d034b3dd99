//! Links the archive of the proved core.

use std::env;
use std::path::{Path, PathBuf};

fn main() {
    let manifest = PathBuf::from(env::var_os("CARGO_MANIFEST_DIR").expect("cargo sets it"));
    // Relative to this folder, whatever the folder in which cargo was called.
    let folder = env::var_os("ZELWYDRO_LIB").map_or_else(|| PathBuf::from("../target/staticlib"), PathBuf::from);
    let folder = manifest.join(folder);
    let archive = folder.join("libhost.a");
    println!("cargo:rerun-if-env-changed=ZELWYDRO_LIB");
    println!("cargo:rerun-if-changed={}", archive.display());
    demand(&archive);
    println!("cargo:rustc-link-search=native={}", folder.display());
    println!("cargo:rustc-link-lib=static=host");
    // For the test that links a program in C.
    println!("cargo:rustc-env=ZELWYDRO_ARCHIVE={}", archive.display());
}

/// Ends the build with what to do, where the linker would only say that a file is missing.
fn demand(archive: &Path) {
    if !archive.is_file() {
        eprintln!("There is no {}.", archive.display());
        eprintln!("Run `wrapper/archive`, or set ZELWYDRO_LIB to the folder of libhost.a.");
        std::process::exit(1);
    }
}
