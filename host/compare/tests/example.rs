//! The C program of `host/c/` against the header and the archive.

use std::path::Path;
use std::process::Command;

#[test]
fn the_c_example_prints_its_answers() {
    let root = Path::new(env!("CARGO_MANIFEST_DIR")).join("../..");
    let program = Path::new(env!("CARGO_TARGET_TMPDIR")).join("example");
    let compiled = Command::new("gcc")
        .args(["-std=c99", "-Wall", "-Wextra", "-Werror", "-pedantic", "-I"])
        .arg(root.join("include"))
        .arg("-o")
        .arg(&program)
        .arg(root.join("host/c/example.c"))
        .arg(root.join("target/staticlib/libmalquindo.a"))
        .status()
        .expect("gcc runs");
    assert!(compiled.success());
    let run = Command::new(&program).output().expect("the example runs");
    assert!(run.status.success());
    assert_eq!(
        String::from_utf8_lossy(&run.stdout),
        "9000\n9000\n5F44035553419000\n5F44035553419000\n\
         9000\ncertificate 1, card: 7F21C1\ncertificate 2, desk: 7F21C2\n\
         certificate 3 is missing\n\
         9000\nrecord 2, by the index: 5F4403465241\n5F44034652419000\n\
         stamp of UTO, certificate 2, no mode\nno stamp: a wrong value at 8\n\
         rights: 030F01\na bad extension: 000000\nan extension twice: 000000\n"
    );
}
