//! The program as a process: its exit statuses and messages, and what a stop leaves.

use crate::mock::{append, folder, travel_card, Slot, SELECT};
use compare::random::Random;
use std::ffi::OsStr;
use std::fs;
use std::path::Path;
use std::process::{Child, Command, Output, Stdio};
use std::thread;
use std::time::{Duration, Instant};

fn program() -> Command {
    let mut command = Command::new(env!("CARGO_BIN_EXE_reader"));
    command.stdout(Stdio::piped()).stderr(Stdio::piped());
    command
}

fn run(arguments: &[&OsStr]) -> Output {
    program()
        .args(arguments)
        .output()
        .expect("the program runs")
}

/// Status, standard output, and standard error.
fn ended(output: &Output) -> (Option<i32>, String, String) {
    let text = |bytes: &[u8]| String::from_utf8_lossy(bytes).into_owned();
    (
        output.status.code(),
        text(&output.stdout),
        text(&output.stderr),
    )
}

/// Ends with this status, prints nothing, and says why in these words.
fn assert_fails(arguments: &[&OsStr], status: i32, words: &str) {
    let (code, out, why) = ended(&run(arguments));
    assert_eq!((code, out.as_str()), (Some(status), ""), "{why}");
    assert!(why.starts_with("! ") && why.contains(words), "{why}");
}

fn start(card: &Path, slot: &Slot) -> Child {
    start_with(&[], card, slot)
}

fn start_with(options: &[&str], card: &Path, slot: &Slot) -> Child {
    program()
        .args(options)
        .arg(card)
        .args(["--port", &slot.port().to_string()])
        .spawn()
        .expect("the program runs")
}

#[test]
fn help() {
    let (code, out, why) = ended(&run(&["--help".as_ref()]));
    assert_eq!((code, why.as_str()), (Some(0), ""));
    assert!(out.starts_with("usage: reader CARD") && out.contains("all rights"));
}

#[test]
fn what_is_wrong_is_said() {
    let folder = folder("wrong");
    let (good, bad, none) = (folder.join("good"), folder.join("bad"), folder.join("none"));
    fs::write(&good, travel_card(40)).expect("a card");
    fs::write(&bad, [0]).expect("no card");
    let long = folder.join("long");
    fs::write(&long, vec![0; 262_145]).expect("no card");
    // No reader listens at port 1.
    let port: [&OsStr; 2] = ["--port".as_ref(), "1".as_ref()];
    assert_fails(&[], 1, "the card's file is not given");
    assert_fails(
        &[good.as_ref(), port[0], port[1]],
        1,
        "no virtual reader at port",
    );
    assert_fails(&[none.as_ref()], 2, "none cannot be read: No such file");
    assert_fails(&[folder.as_ref()], 2, "cannot be read: Is a directory");
    assert_fails(
        &[bad.as_ref()],
        2,
        "bad is no card: the image is not well formed",
    );
    assert_fails(
        &[long.as_ref()],
        2,
        "long is no card: the image is not well formed",
    );
}

#[test]
fn the_reader_goes() {
    let card = folder("goes").join("card.image");
    fs::write(&card, travel_card(40)).expect("a card");
    let slot = Slot::new();
    let child = start(&card, &slot);
    let mut reader = slot.insert();
    assert_eq!(reader.ask(&SELECT), [0x90, 0x00]);
    drop(reader);
    let (code, out, why) = ended(&child.wait_with_output().expect("it ends"));
    assert_eq!((code, why.as_str()), (Some(0), ""));
    assert!(out.ends_with("the reader has gone; the card is kept\n"));
}

#[test]
fn rights_are_those_of_the_command_line() {
    let card = folder("given_rights").join("card.image");
    fs::write(&card, travel_card(40)).expect("a card");
    // The flag of travel is off in the first certificate.
    let lacking = format!("FE{}", "FF".repeat(59));
    for (options, answer) in [
        (vec![], [0x90, 0x00]),
        (vec!["--rights", &lacking], [0x69, 0x82]),
    ] {
        let slot = Slot::new();
        let child = start_with(&options, &card, &slot);
        assert_eq!(slot.insert().ask(&SELECT), answer);
        assert_eq!(
            ended(&child.wait_with_output().expect("it ends")).0,
            Some(0)
        );
    }
}

/// A change that cannot be kept gets no answer, and the file is as it was.
#[test]
fn a_file_that_cannot_be_written() {
    let card = folder("unwritable").join("card.image");
    fs::write(&card, travel_card(40)).expect("a card");
    // Where the new card would be written there is a folder already.
    fs::create_dir(card.with_file_name("card.image.next")).expect("a folder");
    let slot = Slot::new();
    let child = start(&card, &slot);
    let mut reader = slot.insert();
    assert_eq!(reader.ask(&SELECT), [0x90, 0x00]);
    assert_eq!(reader.try_ask(&append(&[7])), None);
    let (code, _, why) = ended(&child.wait_with_output().expect("it ends"));
    assert_eq!(code, Some(2), "{why}");
    assert!(why.starts_with("! the card's file") && why.contains("cannot be written"));
    assert_eq!(fs::read(&card).expect("the card's file"), travel_card(40));
}

/// Starts the program, stops it at a random moment amid changes 1, 2, 3 and so on, and answers how
/// many of these were answered, and what is in the file then.
fn stopped(
    random: &mut Random,
    card: &Path,
    select: &[u8],
    change: impl Fn(u8) -> Vec<u8>,
) -> (usize, Vec<u8>) {
    let slot = Slot::new();
    let child = start(card, &slot);
    let mut reader = slot.insert();
    assert_eq!(reader.ask(select), [0x90, 0x00]);
    let mut done = |number: &u8| reader.try_ask(&change(*number)) == Some(vec![0x90, 0x00]);
    let first = random.between(1, 10) as u8;
    let began = Instant::now();
    assert!((1..=first).all(|number| done(&number)));
    // Anywhere in the next three changes, however long one takes on this machine.
    let moment = began.elapsed() * random.between(0, 300) as u32 / 100 / u32::from(first);
    let stopper = thread::spawn(move || stop_after(moment, child));
    let more = (first + 1..=254).take_while(done).count();
    stopper.join().expect("no panic");
    let image = fs::read(card).expect("the card's file");
    (usize::from(first) + more, image)
}

fn stop_after(moment: Duration, mut child: Child) {
    thread::sleep(moment);
    child.kill().expect("a process to stop");
    child.wait().expect("its end");
}

/// Of a hundred stops amid appends, each leaves all records that were answered, and perhaps the
/// next.
#[test]
fn a_stop_loses_no_answered_record() {
    let card = folder("stop_append").join("card.image");
    let mut random = Random::new(1);
    for _ in 0..100 {
        fs::write(&card, travel_card(60_000)).expect("a card");
        let (answered, image) = stopped(&mut random, &card, &SELECT, |n| append(&[n; 200]));
        let kept = usize::from(image[6]);
        assert!((answered..=answered + 1).contains(&kept));
        let records = (1..=kept).flat_map(|number| [&[200, 0][..], &[number as u8; 200]].concat());
        assert!(records.eq(image[8..8 + 202 * kept].iter().copied()));
    }
}

/// Of fifty stops amid writes over bytes that can be read, none leaves a part of a write.
#[test]
fn a_stop_leaves_no_half_of_a_write() {
    let card = folder("stop_update").join("card.image");
    // The biometrics certificates, empty; Biometrics 1, Deactivated, its room of 1,000 bytes written.
    let empty = [
        &[2, 0, 0, 0, 0x1A, 0x03, 0, 0][..],
        &[0xED, 3, 0, 0, 0x01, 0x04, 0, 0xE8, 3, 0, 0],
        &[0; 1_000],
    ]
    .concat();
    let select = [0x00, 0xA4, 0x04, 0x0C, 7, 0xA0, 0, 0, 2, 0x47, 0x20, 3];
    let head = [
        0x00, 0xD7, 0x02, 0x01, 0, 3, 0xEF, 0x54, 1, 0, 0x53, 0x82, 3, 0xE8,
    ];
    let write = |number| [&head[..], &[number; 1_000]].concat();
    let mut random = Random::new(2);
    for _ in 0..50 {
        fs::write(&card, &empty).expect("a card");
        let (answered, image) = stopped(&mut random, &card, &select, write);
        let written = &image[19..];
        assert!((answered..=answered + 1).contains(&written[0].into()));
        assert!(written.iter().all(|byte| *byte == written[0]));
        assert_eq!((&image[..19], written.len()), (&empty[..19], 1_000));
    }
}
