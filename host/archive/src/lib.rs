//! Finds a static library of the proved crates for a build script, so that it is linked: in the folder that SPRONDILU_LIB
//! names, or where `tools/library` writes it.

use std::path::{Path, PathBuf};
use std::{env, process};

/// Has the library of this name linked, and says where its archive is. Without one the build script ends here.
pub fn link(name: &str) -> PathBuf {
    println!("cargo:rerun-if-env-changed=SPRONDILU_LIB");
    let folder = env::var_os("SPRONDILU_LIB").map_or_else(usual_folder, PathBuf::from);
    let archive = folder.join(format!("lib{}.a", name));
    println!("cargo:rerun-if-changed={}", archive.display());
    if !archive.is_file() {
        eprintln!(
            "There is no {}. `tools/library {}`, at the top of the repository, proves the library and writes it to \
             target/staticlib; SPRONDILU_LIB, if set, names another folder to take it from, by its whole path.",
            archive.display(),
            name
        );
        process::exit(1);
    }
    println!("cargo:rustc-link-search=native={}", folder.display());
    println!("cargo:rustc-link-lib=static={}", name);
    archive
}

/// The build scripts run on the machine that has the repository, so that this crate's folder there leads to it.
fn usual_folder() -> PathBuf {
    Path::new(env!("CARGO_MANIFEST_DIR")).join("../../target/staticlib")
}
