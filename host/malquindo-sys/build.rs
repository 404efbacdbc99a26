//! Links the proved library's archive, and has it made where it is missing or older than the code.

use std::env;
use std::path::{Path, PathBuf};
use std::process::Command;
use std::time::SystemTime;

/// Where the archive lies, from the repository's root.
const ARCHIVE_DIR: &str = "target/staticlib";
const ARCHIVE: &str = "libmalquindo.a";
/// What makes it.
const MAKER: &str = "scripts/archive";
/// Where the crates lie that it is made of, the folder of each one's code, and how the files of code end.
const CRATES_DIR: &str = "crates";
const CODE_DIR: &str = "src";
const CODE: &str = "rt";

fn main() {
    let root = repository_root();
    let dir = root.join(ARCHIVE_DIR);
    let archive = dir.join(ARCHIVE);
    let code = code_dirs(&root.join(CRATES_DIR));
    if Some(changed(&archive)) < code.iter().map(|dir| newest(dir)).max() {
        make_archive(&root);
    }
    assert!(
        archive.is_file(),
        "`{MAKER}` ended well, yet {ARCHIVE_DIR}/{ARCHIVE} is not there"
    );
    println!("cargo:rerun-if-changed=build.rs");
    println!("cargo:rerun-if-changed={}", archive.display());
    for dir in code {
        println!("cargo:rerun-if-changed={}", dir.display());
    }
    println!("cargo:rustc-link-search=native={}", dir.display());
    println!("cargo:rustc-link-lib=static=malquindo");
}

/// The folder above `host/`, of which this crate is a member.
fn repository_root() -> PathBuf {
    let crate_dir = env::var_os("CARGO_MANIFEST_DIR").expect("cargo tells a crate's folder");
    Path::new(&crate_dir).join("../..")
}

/// When a file was last changed; for one that is not there, before all others.
fn changed(file: &Path) -> SystemTime {
    file.metadata()
        .and_then(|about| about.modified())
        .unwrap_or(SystemTime::UNIX_EPOCH)
}

/// The folders of code, one for each crate. What `rt` keeps beside them is none.
fn code_dirs(crates: &Path) -> Vec<PathBuf> {
    let Ok(entries) = crates.read_dir() else {
        return Vec::new();
    };
    entries
        .flatten()
        .map(|entry| entry.path().join(CODE_DIR))
        .filter(|dir| dir.is_dir())
        .collect()
}

/// When the newest file of code in a folder was changed. A folder that cannot be read has none.
fn newest(dir: &Path) -> SystemTime {
    let Ok(entries) = dir.read_dir() else {
        return SystemTime::UNIX_EPOCH;
    };
    entries
        .flatten()
        .map(|entry| entry.path())
        .map(|path| match path.extension() {
            _ if path.is_dir() => newest(&path),
            Some(end) if end == CODE => changed(&path),
            _ => SystemTime::UNIX_EPOCH,
        })
        .max()
        .unwrap_or(SystemTime::UNIX_EPOCH)
}

fn make_archive(root: &Path) {
    let outcome = Command::new(root.join(MAKER)).status();
    match outcome {
        Ok(status) if status.success() => {}
        Ok(status) => panic!("`{MAKER}`, which makes {ARCHIVE_DIR}/{ARCHIVE} with the Rattle kit's `rt`, failed: {status}"),
        Err(error) => panic!("`{MAKER}`, which makes {ARCHIVE_DIR}/{ARCHIVE}, cannot be run: {error}"),
    }
}
