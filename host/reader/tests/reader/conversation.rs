//! The conversation with the reader, whose part the tests play over a connection of their own.

use crate::mock::{append, folder, travel_card, Reader, Slot, SELECT};
use compare::make::{self, LARGEST_ROOM};
use compare::talk::{Talk, Turn};
use reader::atr::ATR;
use reader::card::Card;
use reader::connection::Connection;
use reader::fault::Fault;
use reader::serve;
use std::fs;
use std::os::unix::fs::MetadataExt;
use std::path::Path;
use std::thread;

const OFF: [u8; 1] = [0];
const ON: [u8; 1] = [1];
const RESET: [u8; 1] = [2];
const GET_ATR: [u8; 1] = [4];

const ALL_RIGHTS: [u8; 60] = [0xFF; 60];
/// READ RECORD of EntryRecords, which has the short id 01, from record 1 to the last.
const READ_ALL: [u8; 7] = [0x00, 0xB2, 0x01, 0x0D, 0, 0, 0];

/// Puts a card into a reader that `play` plays. Answers how the card's side ended, which it does
/// when the reader is dropped.
fn with_card(
    test: &str,
    image: &[u8],
    rights: &[u8],
    play: impl FnOnce(Reader, &Path),
) -> Result<(), Fault> {
    let name = folder(test).join("card.image");
    fs::write(&name, image).expect("the card's file");
    let slot = Slot::new();
    let port = slot.port();
    thread::scope(|scope| {
        let card_side = scope.spawn(|| {
            let mut card = Card::open(&name, rights)?;
            serve::serve(&mut Connection::open(port)?, &mut card)
        });
        play(slot.insert(), &name);
        card_side.join().expect("no panic")
    })
}

fn bytes(digits: &str) -> Vec<u8> {
    (0..digits.len() / 2)
        .map(|at| u8::from_str_radix(&digits[2 * at..2 * at + 2], 16).expect("digits"))
        .collect()
}

/// Clause T1 of docs/RULES.md, m1 to m10.
#[test]
fn the_card_to_try() {
    let search = |offset: &str| {
        let (head, tail) = (
            "00A200F81C7F7619510101A10B800100B0060201",
            "020103A307B105810346524100",
        );
        format!("{head}{offset}{tail}")
    };
    let append = |length: usize| {
        let head = match length {
            0..=255 => format!("00E20008{length:02X}"),
            _ => format!("00E2000800{length:04X}"),
        };
        head + &"A5".repeat(length)
    };
    let exchanges = [
        ("00A4040C07A0000002472001".to_string(), "9000"),
        ("00E20008065F4403555341".to_string(), "9000"),
        ("00E20008065F4403465241".to_string(), "9000"),
        ("00B20105000000".to_string(), "5F44035553415F44034652419000"),
        ("00B20304000000".to_string(), "6A83"),
        (search("03"), "7F76065101010201029000"),
        (search("02"), "6282"),
        (
            "805E0107045102010100".to_string(),
            "7F78098101228201008301029000",
        ),
        (append(21), "6A84"),
        (append(20), "9000"),
        (append(392), "6700"),
        (append(391), "6A84"),
        ("00B2010400".to_string(), "6700"),
    ];
    let ended = with_card("to_try", &travel_card(40), &ALL_RIGHTS, |mut reader, _| {
        reader.tell(&ON);
        for (command, answer) in &exchanges {
            assert_eq!(reader.ask(&bytes(command)), bytes(answer), "{command}");
        }
    });
    assert_eq!(ended, Ok(()));
}

#[test]
fn the_atr_is_answered_with_power_and_without() {
    let ended = with_card("atr", &travel_card(40), &ALL_RIGHTS, |mut reader, _| {
        for control in [None, Some(ON), Some(RESET), Some(OFF)] {
            if let Some(control) = control {
                reader.tell(&control);
            }
            assert_eq!(reader.ask(&GET_ATR), ATR);
        }
    });
    assert_eq!(ended, Ok(()));
}

#[test]
fn power_and_reset_open_a_new_session() {
    let ended = with_card("session", &travel_card(40), &ALL_RIGHTS, |mut reader, _| {
        let before = reader.ask(&READ_ALL);
        assert_ne!(before, [0x6A, 0x83]);
        for control in [ON, RESET, OFF] {
            assert_eq!(reader.ask(&SELECT), [0x90, 0x00]);
            assert_eq!(reader.ask(&READ_ALL), [0x6A, 0x83]);
            reader.tell(&control);
            assert_eq!(reader.ask(&READ_ALL), before);
        }
    });
    assert_eq!(ended, Ok(()));
}

/// A record in two links; where power or a reset comes amid them, the last link is a command of its own.
#[test]
fn power_and_reset_drop_a_chain() {
    let first = [0x10, 0xE2, 0x00, 0x08, 2, 0xAA, 0xBB];
    let last = [0x00, 0xE2, 0x00, 0x08, 1, 0xCC];
    let ended = with_card("chain", &travel_card(40), &ALL_RIGHTS, |mut reader, _| {
        assert_eq!(reader.ask(&SELECT), [0x90, 0x00]);
        assert_eq!(reader.ask(&first), [0x90, 0x00]);
        assert_eq!(reader.ask(&last), [0x90, 0x00]);
        assert_eq!(reader.ask(&READ_ALL), [0xAA, 0xBB, 0xCC, 0x90, 0x00]);
        for control in [ON, RESET, OFF] {
            assert_eq!(reader.ask(&first), [0x90, 0x00]);
            reader.tell(&control);
            assert_eq!(reader.ask(&SELECT), [0x90, 0x00]);
            assert_eq!(reader.ask(&last), [0x90, 0x00]);
        }
        let records = [0xAA, 0xBB, 0xCC, 0xCC, 0xCC, 0xCC, 0x90, 0x00];
        assert_eq!(reader.ask(&READ_ALL), records);
    });
    assert_eq!(ended, Ok(()));
}

#[test]
fn the_sessions_have_the_rights_given() {
    let mut rights = ALL_RIGHTS;
    rights[20] = 0xFE;
    let ended = with_card("rights", &travel_card(40), &rights, |mut reader, _| {
        for control in [ON, RESET] {
            reader.tell(&control);
            assert_eq!(reader.ask(&SELECT), [0x69, 0x82]);
        }
    });
    assert_eq!(ended, Ok(()));
}

#[test]
fn a_change_is_in_the_file_when_the_answer_comes() {
    let ended = with_card(
        "kept",
        &travel_card(900),
        &ALL_RIGHTS,
        |mut reader, name| {
            reader.ask(&SELECT);
            for number in 1..=254 {
                assert_eq!(reader.ask(&append(&[number])), [0x90, 0x00]);
                let image = fs::read(name).expect("the card's file");
                let at = 6 + 2 + 3 * usize::from(number - 1);
                assert_eq!(
                    (image[6], &image[at..at + 3]),
                    (number, &[1, 0, number][..])
                );
                assert_eq!(image.len(), 3 * 906);
            }
        },
    );
    assert_eq!(ended, Ok(()));
}

#[test]
fn a_command_that_changes_nothing_leaves_the_file_alone() {
    let ended = with_card(
        "alone",
        &travel_card(40),
        &ALL_RIGHTS,
        |mut reader, name| {
            let file = || {
                let about = fs::metadata(name).expect("the card's file");
                (about.ino(), about.mtime_nsec())
            };
            let before = file();
            reader.ask(&SELECT);
            reader.ask(&READ_ALL);
            reader.ask(&append(&[7; 200]));
            assert_eq!(file(), before);
            reader.ask(&append(&[7]));
            assert_ne!(file(), before);
        },
    );
    assert_eq!(ended, Ok(()));
}

/// A change goes through a link to the file, which stays a link.
#[test]
fn a_link_stays_a_link() {
    let folder = folder("link");
    let (file, link) = (folder.join("card.image"), folder.join("link"));
    fs::write(&file, travel_card(40)).expect("the card's file");
    std::os::unix::fs::symlink("card.image", &link).expect("a link");
    let mut card = Card::open(&link, &ALL_RIGHTS).expect("a card");
    card.answer(&SELECT).expect("an answer");
    card.answer(&append(&[7])).expect("an answer");
    assert!(link.is_symlink() && !file.is_symlink());
    assert_eq!(
        fs::read(&file).expect("the card's file")[6..11],
        [1, 0, 1, 0, 7]
    );
}

#[test]
fn messages_that_are_no_commands_of_iso_are_answered() {
    let ended = with_card("odd", &travel_card(40), &ALL_RIGHTS, |mut reader, _| {
        let longest = [
            &[0x00, 0xE2, 0x00, 0x08, 0x00, 0xFF, 0xF8][..],
            &[7; 0xFFF8],
        ]
        .concat();
        assert_eq!(longest.len(), 0xFFFF);
        for message in [&[][..], &[3], &[0, 0], &longest] {
            assert_eq!(reader.ask(message), [0x67, 0x00]);
        }
    });
    assert_eq!(ended, Ok(()));
}

#[test]
fn a_message_may_come_in_pieces_or_with_others() {
    let ended = with_card("pieces", &travel_card(40), &ALL_RIGHTS, |mut reader, _| {
        for byte in [&[0, 12][..], &SELECT].concat() {
            reader.raw(&[byte]).expect("the card reads");
        }
        assert_eq!(reader.answer().expect("an answer"), [0x90, 0x00]);
        let two = [&[0, 1, 2, 0, 1, 4, 0, 12][..], &SELECT].concat();
        reader.raw(&two).expect("the card reads");
        assert_eq!(reader.answer().expect("an answer"), ATR);
        assert_eq!(reader.answer().expect("an answer"), [0x90, 0x00]);
    });
    assert_eq!(ended, Ok(()));
}

#[test]
fn a_reader_that_breaks_off_inside_a_message() {
    let ended = with_card("broken", &travel_card(40), &ALL_RIGHTS, |mut reader, _| {
        reader.raw(&[0, 12, 0x00, 0xA4]).expect("the card reads");
    });
    assert_eq!(ended.expect_err("an error").status(), 1);
}

#[test]
fn a_reader_that_goes_before_it_reads_the_answer() {
    let ended = with_card("gone", &travel_card(40), &ALL_RIGHTS, |mut reader, _| {
        reader.tell(&SELECT);
        reader.tell(&append(&[7]));
    });
    assert_eq!(ended, Ok(()));
}

/// Biometrics 1 in the largest room, full.
fn largest_file() -> Vec<u8> {
    let content: Vec<u8> = (0..LARGEST_ROOM).map(|at| (at ^ at >> 8) as u8).collect();
    let file = make::section(0x0401, &make::biometrics(0, LARGEST_ROOM, &content));
    [make::section(0x031A, &[0; 2]), file].concat()
}

/// READ BINARY B1 and UPDATE BINARY at the end of the largest file, which only three bytes reach.
#[test]
fn the_end_of_the_largest_file() {
    let image = largest_file();
    let ended = with_card("largest", &image, &ALL_RIGHTS, |mut reader, name| {
        assert_eq!(reader.ask(&bytes("00A4040C07A0000002472003")), [0x90, 0x00]);
        let longest = reader.ask(&bytes("00B10201000005540301F8040000"));
        let wanted = [
            &[0x53, 0x82, 0x07, 0xFC],
            &image[image.len() - 2_044..],
            &[0x90, 0x00],
        ];
        assert_eq!(longest, wanted.concat());
        assert_eq!(
            reader.ask(&bytes("00D7000008540301FFFF5301A5")),
            [0x90, 0x00]
        );
        assert_eq!(
            reader.ask(&bytes("00B1000005540301FFFF00")),
            bytes("5301A59000")
        );
        let kept = fs::read(name).expect("the card's file");
        assert_eq!((kept.len(), kept.last()), (image.len(), Some(&0xA5)));
    });
    assert_eq!(ended, Ok(()));
}

/// Random commands on ten cards: the answers and the file are those of the library.
#[test]
fn as_the_library_called_directly() {
    let mut changed = 0;
    for number in 0..10 {
        let talk = Talk::new(14, number, 200);
        let test = format!("talk{number}");
        let ended = with_card(&test, &talk.image, &talk.rights, |mut reader, name| {
            for turn in &talk.turns {
                match turn {
                    Turn::Reset => reader.tell(&RESET),
                    Turn::Command { command, answer } => {
                        assert_eq!(&reader.ask(command), answer, "{command:02X?}");
                    }
                }
            }
            assert_eq!(fs::read(name).expect("the card's file"), talk.after);
        });
        assert_eq!(ended, Ok(()));
        changed += u32::from(talk.image != talk.after);
    }
    assert!(changed >= 5, "only {changed} of ten cards were changed");
}
