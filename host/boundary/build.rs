//! Has the static library of the proved calls linked.

fn main() {
    let archive = archive::link("sprondilu");
    // The tests of the C header link the same archive.
    println!("cargo:rustc-env=SPRONDILU_ARCHIVE={}", archive.display());
}
