//! A C program over include/citronreef.h and the static library: compiled with all warnings as errors, and run.

use std::path::Path;
use std::process::Command;

const PRINTED: &str = "\
0.1.0 0 1 0
14 0 0 0 0 0
0 0 2 14436 0 1
24060 -9624 -1
0 98782138
15 0
0 10000000153
0 0 950000 950100 1 7 2406
12 1 0 0 0 0 0
0 0
1 0
0
11 IR 3 18 24060 AUD
12 IR 3 18 -9624 AUD
total AUD 14436
total NZD 0
resent 1
";

#[test]
fn c_program() {
    let crate_folder = Path::new(env!("CARGO_MANIFEST_DIR"));
    let root = crate_folder.ancestors().nth(2).expect("the crate stands in the repository");
    let program = Path::new(env!("CARGO_TARGET_TMPDIR")).join("header");
    let compiled = Command::new("cc")
        .args(["-std=c11", "-Wall", "-Wextra", "-Werror", "-I"])
        .arg(root.join("include"))
        .arg(crate_folder.join("tests/header.c"))
        .arg(root.join("crates/citronreef/out/libcitronreef.a"))
        .arg("-o")
        .arg(&program)
        .status()
        .expect("a C compiler by the name of cc");
    assert!(compiled.success());
    let run = Command::new(program).output().expect("the program runs");
    assert_eq!(String::from_utf8_lossy(&run.stdout), PRINTED);
}
