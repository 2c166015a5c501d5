//! Links the static library: the one that stands in CITRONREEF_LIB, or the one that `rt lib` leaves in crates/citronreef/out.
use std::env;
use std::path::PathBuf;
use std::process::exit;

fn main() {
    println!("cargo:rerun-if-env-changed=CITRONREEF_LIB");
    let folder = folder();
    let library = folder.join("libcitronreef.a");
    println!("cargo:rerun-if-changed={}", library.display());
    if !library.exists() {
        eprintln!(
            "There is no {}. Run `bash tools/build` at the top of the repository first, \
             or name the folder of an installed libcitronreef.a in CITRONREEF_LIB.",
            library.display()
        );
        exit(1);
    }
    println!("cargo:rustc-link-search=native={}", folder.display());
    println!("cargo:rustc-link-lib=static=citronreef");
}

/// The folder of the library. A relative one is refused, since it would be read from this package's folder.
fn folder() -> PathBuf {
    let written = concat!(env!("CARGO_MANIFEST_DIR"), "/../../crates/citronreef/out");
    let folder = env::var_os("CITRONREEF_LIB").map_or_else(|| PathBuf::from(written), PathBuf::from);
    if folder.is_relative() {
        eprintln!("CITRONREEF_LIB={} does not start with /. Name the whole path of the library's folder.", folder.display());
        exit(1);
    }
    folder
}
