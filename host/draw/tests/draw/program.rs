//! The program: its arguments, its files and how it ends.

use crate::cards;
use std::fs;
use std::path::{Path, PathBuf};
use std::process::Command;

fn folder(name: &str) -> PathBuf {
    let folder = Path::new(env!("CARGO_TARGET_TMPDIR")).join(name);
    let _ = fs::remove_dir_all(&folder);
    fs::create_dir_all(&folder).expect("a folder");
    folder
}

/// The status that the program ends with, and what it says.
fn run(folder: &Path, arguments: &str) -> (Option<i32>, String) {
    let output = Command::new(env!("CARGO_BIN_EXE_draw"))
        .args(arguments.split(' ').filter(|word| !word.is_empty()))
        .current_dir(folder)
        .output()
        .expect("the program runs");
    assert!(output.stdout.is_empty());
    let said = String::from_utf8_lossy(&output.stderr).into_owned();
    (output.status.code(), said)
}

#[test]
fn it_draws() {
    let here = folder("draws");
    fs::write(here.join("card.image"), cards::to_try()).expect("written");
    assert_eq!(run(&here, "card.image card.svg"), (Some(0), String::new()));
    let list = "--move 0101 100 0102 40 011A 40";
    assert_eq!(
        run(&here, &format!("card.image moved.svg {list}")),
        (Some(0), String::new())
    );
    for (name, title) in [
        ("card.svg", "<title>A card image of 138 bytes</title>"),
        ("moved.svg", "138 bytes before, 198 bytes after</title>"),
    ] {
        let drawn = fs::read_to_string(here.join(name)).expect("a picture");
        assert!(drawn.contains(title), "{name}");
    }
    assert_eq!(
        fs::read(here.join("card.image")).expect("a card"),
        cards::to_try()
    );
}

#[test]
fn it_says_what_is_wrong() {
    let here = folder("says");
    fs::write(here.join("card.image"), cards::to_try()).expect("written");
    fs::write(here.join("torn.image"), &cards::to_try()[1..]).expect("written");
    fs::write(here.join("long.image"), vec![0; 300_000]).expect("written");
    for (arguments, status, words) in [
        ("", 1, "usage"),
        ("card.image", 1, "usage"),
        ("card.image card.svg --mvoe", 1, "usage"),
        ("card.image card.image", 1, ".svg"),
        ("card.image card.svg --move 0101 forty", 1, "forty"),
        ("card.image card.svg --move", 1, "refused (11)"),
        ("card.image card.svg --move 0101 40", 1, "refused (10)"),
        (
            "card.image card.svg --move 0101 39 0102 40 011A 40",
            1,
            "refused (12)",
        ),
        (". card.svg", 2, "directory"),
        ("none.image card.svg", 2, "none.image"),
        ("torn.image card.svg", 2, "not well formed"),
        ("long.image card.svg", 2, "not well formed"),
        ("card.image none/card.svg", 2, "none/card.svg"),
    ] {
        let (ended, said) = run(&here, arguments);
        assert_eq!(ended, Some(status), "{arguments}: {said}");
        assert!(
            said.starts_with("! ") && said.contains(words),
            "{arguments}: {said}"
        );
    }
    assert!(!here.join("card.svg").exists());
}
