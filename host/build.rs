//! Links the archive that `tools/build.sh cobalnis` makes: from the folder that COBALNIS_LIB names,
//! else from ../target/staticlib beside this folder.

use std::env;
use std::path::{Path, PathBuf};
use std::process::exit;

const ARCHIVE: &str = "libcobalnis.a";

fn main() {
    println!("cargo:rerun-if-env-changed=COBALNIS_LIB");
    let here = PathBuf::from(env::var_os("CARGO_MANIFEST_DIR").expect("cargo sets it"));
    let folder = match env::var_os("COBALNIS_LIB") {
        Some(named) => PathBuf::from(named),
        None => here.join("../target/staticlib"),
    };
    let archive = folder.join(ARCHIVE);
    println!("cargo:rerun-if-changed={}", archive.display());
    if !archive.is_file() {
        stop(&archive);
    }
    let folder = folder.canonicalize().expect("it holds a file");
    println!("cargo:rustc-link-search=native={}", folder.display());
    println!("cargo:rustc-link-lib=static=cobalnis");
    // For the build script of a package that depends on this one: DEP_COBALNIS_INCLUDE, the folder
    // of the header that belongs to the archive.
    println!("cargo:include={}", here.join("include").display());
    // For the tests in C, which link the same archive.
    println!(
        "cargo:rustc-env=COBALNIS_ARCHIVE={}",
        folder.join(ARCHIVE).display()
    );
}

fn stop(archive: &Path) -> ! {
    eprintln!("{} isn't there.", archive.display());
    eprintln!("Run `tools/build.sh cobalnis` at the repository's top,");
    eprintln!("or name the archive's folder in COBALNIS_LIB.");
    exit(1)
}
