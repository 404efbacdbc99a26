//! The comparison itself, and that it sees a difference where there is one.

use compare::make::SESSION_LEN;
use compare::sample::{self, Sample, LONGEST};
use compare::scene;
use compare::sides::{
    compare, compare_machines, Certificate, Command, File, Machine, MoveCard, PROVED, REFERENCE,
};
use compare::stamp_faults::Reason;
use compare::step::{IndexCall, Step};
use compare::view;

/// A seed whose first 20,000 calls have each sort often enough.
const SEED: u64 = 20_223;

#[test]
fn twenty_thousand_calls() {
    let tally = compare(SEED, 20_000).unwrap_or_else(|difference| panic!("{difference}"));
    assert_eq!(tally.calls(), 20_000);
    let missing = tally.missing(10, 10);
    assert!(missing.is_empty(), "{}\n{tally}", missing.join("\n"));
    assert!(tally.index.long_bodies >= 3, "{tally}");
}

#[test]
fn a_session_has_as_many_bytes_on_both_sides() {
    assert_eq!(malquindo_sys::session_len(), SESSION_LEN);
    assert_eq!(reference::SESSION_LEN, SESSION_LEN);
}

/// The reference, each time with something changed that the rules leave alone.
const WRONG: [Command; 5] = [
    |image, session, command, response| {
        let result = reference::command(image, session, command, response);
        flip(image, 100);
        result
    },
    |image, session, command, response| {
        let result = reference::command(image, session, command, response);
        flip(session, SESSION_LEN + 5);
        result
    },
    |image, session, command, response| {
        let result = reference::command(image, session, command, response);
        flip(session, SESSION_LEN - 1);
        result
    },
    |image, session, command, response| {
        let result = reference::command(image, session, command, response);
        flip(response, 2_090);
        result
    },
    |image, session, command, response| {
        let result = reference::command(image, session, command, response);
        result ^ u64::from(command.len() == 7)
    },
];

fn flip(bytes: &mut [u8], at: usize) {
    if let Some(byte) = bytes.get_mut(at) {
        *byte ^= 1;
    }
}

#[test]
fn a_difference_is_seen_and_repeats() {
    for command in WRONG {
        let wrong = Machine {
            command,
            ..REFERENCE
        };
        let find = || {
            let found = compare_machines(SEED, 20_000, &wrong, &REFERENCE);
            found.err().expect("a difference").to_string()
        };
        assert!(find().starts_with("DIFFERENCE seed 20223 sequence "));
        assert_eq!(find(), find());
    }
}

#[test]
fn a_difference_of_opening_is_seen() {
    let wrong = Machine {
        open: |rights, session| {
            let result = reference::open(rights, session);
            flip(session, 19);
            result
        },
        ..PROVED
    };
    let found = compare_machines(SEED, 20_000, &wrong, &REFERENCE).err();
    assert!(found.is_some_and(|difference| matches!(difference.step, Step::Open(_))));
}

/// The reference's move, each time with something changed that the rules leave alone, or with
/// something left out.
const WRONG_MOVES: [MoveCard; 6] = [
    // A refusal that touches the target.
    |old, list, target| {
        let result = reference::move_card(old, list, target);
        if result >> 32 != 0 {
            flip(target, 0);
        }
        result
    },
    // A tail that does not stay.
    |old, list, target| {
        let result = reference::move_card(old, list, target);
        flip(target, result as u32 as usize);
        result
    },
    // Free bytes that stay, as where the content alone is written.
    |old, list, target| {
        let before = target.to_vec();
        let result = reference::move_card(old, list, target);
        match (target.last_mut(), before.last()) {
            (Some(last), Some(byte)) if result as usize == before.len() => *last = *byte,
            _ => {}
        }
        result
    },
    // 13 before the other refusals.
    |old, list, target| {
        let result = reference::move_card(old, list, target);
        match (result >> 32, target.len()) {
            (1.., 0) => 13 << 32,
            _ => result,
        }
    },
    // A list that is cut to whole rows.
    |old, list, target| reference::move_card(old, &list[..list.len() / 6 * 6], target),
    // A length of 16 bits.
    |old, list, target| reference::move_card(old, list, target) & !0x000F_0000,
];

#[test]
fn a_difference_of_a_move_is_seen() {
    for move_card in WRONG_MOVES {
        let wrong = Machine {
            move_card,
            ..REFERENCE
        };
        let found = compare_machines(SEED, 20_000, &wrong, &REFERENCE).err();
        let found = found.expect("a difference");
        assert!(matches!(found.step, Step::Move { .. }));
        assert!(found.to_string().contains("\nREFERENCE target   "));
    }
}

/// The reference's file, each time with something wrong.
const WRONG_FILES: [File; 6] = [
    // A length without the free bytes.
    |image, kind| {
        let result = reference::file(image, kind);
        let rooms = view::rooms(image);
        let room = rooms.iter().find(|room| room.kind == kind && result != 0);
        room.map_or(result, |room| result >> 32 << 32 | room.held as u64)
    },
    // A file of a malformed image.
    |image, kind| {
        let sections = view::sections(image);
        let section = sections.iter().find(|(found, _)| *found == kind);
        section.map_or(0, |(_, body)| (body.start as u64) << 32 | body.len() as u64)
    },
    // The place of the section's head.
    |image, kind| match reference::file(image, kind) {
        0 => 0,
        result => result - (6 << 32),
    },
    // A length of 16 bits.
    |image, kind| reference::file(image, kind) & !0x000F_0000,
    // A file by its id.
    |image, kind| match kind {
        0x0103 => reference::file(image, 0x0203),
        _ => reference::file(image, kind),
    },
    // A kind by its low byte alone, where the whole is not there.
    |image, kind| match reference::file(image, kind) {
        0 => reference::file(image, 0x0100 | kind & 0x00FF),
        result => result,
    },
];

#[test]
fn a_difference_of_a_file_is_seen() {
    for file in WRONG_FILES {
        let wrong = Machine { file, ..REFERENCE };
        let found = compare_machines(SEED, 20_000, &wrong, &REFERENCE).err();
        let found = found.expect("a difference");
        assert!(matches!(found.step, Step::File(_)));
        assert!(found.to_string().contains("\nREFERENCE result "));
    }
}

const EMPTY: [u8; 2] = [0, 0];

/// The reference's certificate, each time with something wrong.
const WRONG_CERTIFICATES: [Certificate; 11] = [
    // The desk's copy preferred.
    |card, desk, reference| exchanged(reference::certificate(desk, card, reference)),
    // One number too far: the next record.
    |card, desk, reference| reference::certificate(card, desk, reference.wrapping_add(1)),
    // FF found: the card's last record.
    |card, desk, reference| match (reference, card.first()) {
        (0xFF, Some(count)) => reference::certificate(card, desk, *count),
        _ => reference::certificate(card, desk, reference),
    },
    // 00 found: the first record.
    |card, desk, reference| reference::certificate(card, desk, reference.max(1)),
    // FE, the last number that there is, not found.
    |card, desk, reference| match reference {
        0xFE => reference::certificate(card, desk, 0xFF),
        _ => reference::certificate(card, desk, reference),
    },
    // A damaged desk body accepted when the card has the number.
    |card, desk, reference| match reference::certificate(card, &EMPTY, reference) {
        alone if alone >> 28 == 1 => alone,
        _ => reference::certificate(card, desk, reference),
    },
    // A damaged card body taken for an empty one.
    |card, desk, reference| match reference::certificate(card, &EMPTY, reference) >> 32 {
        0 => reference::certificate(card, desk, reference),
        _ => reference::certificate(&EMPTY, desk, reference),
    },
    // 00 and FF missing before the bodies are tested.
    |card, desk, reference| match reference {
        0x00 | 0xFF => 0,
        _ => reference::certificate(card, desk, reference),
    },
    // The place of the record's length.
    |card, desk, reference| match reference::certificate(card, desk, reference) {
        result if result >> 28 == 1 || result >> 28 == 2 => result - (2 << 10),
        result => result,
    },
    // A length of 8 bits.
    |card, desk, reference| reference::certificate(card, desk, reference) & !0x0000_0300,
    // Which, place and length of the card's where the call is refused.
    |card, desk, reference| {
        let result = reference::certificate(card, desk, reference);
        match reference::certificate(card, &EMPTY, reference) {
            alone if alone >> 28 == 1 => result | alone,
            _ => result,
        }
    },
];

/// The result with the card's and the desk's body in each other's place.
fn exchanged(result: u64) -> u64 {
    match result >> 28 {
        1 => result + (1 << 28),
        2 => result - (1 << 28),
        _ => result,
    }
}

#[test]
fn a_difference_of_a_certificate_is_seen() {
    for certificate in WRONG_CERTIFICATES {
        let wrong = Machine {
            certificate,
            ..REFERENCE
        };
        let found = compare_machines(SEED, 20_000, &wrong, &REFERENCE).err();
        let found = found.expect("a difference");
        assert!(matches!(found.step, Step::Certificates { .. }));
        assert!(found.to_string().contains("\nREFERENCE reference "));
    }
}

/// Each answer of a step counts: one that is wrong in the middle is seen, and shown alone.
#[test]
fn a_difference_of_one_reference_is_seen() {
    let wrong = Machine {
        certificate: |card, desk, reference| match reference {
            0x80 => reference::certificate(card, desk, reference) ^ 1,
            _ => reference::certificate(card, desk, reference),
        },
        ..REFERENCE
    };
    let found = compare_machines(SEED, 20_000, &wrong, &REFERENCE).err();
    let text = found.expect("a difference").to_string();
    assert_eq!(text.matches("PROVED reference ").count(), 1);
    assert!(text.contains("\nPROVED reference 80 result "));
}

/// The scene's outcomes stand in the first lines of the sample, which begins with it.
#[test]
fn the_scene_ends_as_it_says() {
    let sample = Sample::generate(sample::SEED);
    let mut printed = sample.stdout.lines();
    for (step, outcome) in scene::lines() {
        let calls = match step {
            Step::Image(_) | Step::Session(_) => 0,
            Step::Certificates { first, last, .. } => usize::from(last - first) + 1,
            Step::Index {
                call: IndexCall::Read { first, last },
                ..
            } => last - first + 1,
            _ => 1,
        };
        let lines: Vec<&str> = printed.by_ref().take(calls).collect();
        assert_eq!(lines.len(), calls, "a line for each call");
        let said: Vec<String> = lines.iter().map(|line| said(&step, line)).collect();
        assert_eq!(said.join(", "), outcome);
    }
}

/// What a line of the sample says, in the words of the scene.
fn said(step: &Step, line: &str) -> String {
    let (result, rest) = line.split_once(' ').expect("a result and more");
    let result: u64 = result.parse().expect("a number");
    let (refusal, place) = (result >> 32, result >> 10 & 0x3FFFF);
    match step {
        Step::Cut { .. } if refusal == 0 => format!("{result} stores, image {rest}"),
        Step::Cut { .. } => format!("refusal {refusal}, image {rest}"),
        Step::Move { .. } if refusal == 0 => format!("{result} bytes"),
        Step::Move { .. } => format!("refusal {refusal}"),
        Step::Command { .. } if refusal == 0 => {
            rest.split(' ').next().unwrap_or_default().to_string()
        }
        Step::Command { .. } => format!("refusal {refusal}"),
        Step::File(_) if result == 0 => "none".to_string(),
        Step::File(_) => format!("{} bytes at {}", result as u32, result >> 32),
        Step::Certificates { .. } => match result >> 28 {
            _ if result == 0 => "missing".to_string(),
            1 => format!("card {place} {rest}"),
            2 => format!("desk {place} {rest}"),
            _ => format!("refusal {refusal}"),
        },
        Step::Index { call, .. } => match call {
            IndexCall::Read { .. } if refusal == 0 => rest.to_string(),
            IndexCall::Read { .. } => format!("refusal {refusal}"),
            _ if refusal == 0 => format!("{result} places, list {rest}"),
            _ => format!("refusal {refusal}, list {rest}"),
        },
        Step::Stamp { .. } => match Reason::of(result) {
            None if result == 0 => format!("stamp, list {rest}"),
            None => format!("refusal {refusal}, list {rest}"),
            Some(reason) => format!("{} at {}, list {rest}", reason.name(), result as u32),
        },
        Step::Rights { .. } if refusal == 0 => format!("rights {rest}"),
        Step::Rights { .. } => format!("refusal {refusal} {rest}"),
        Step::Image(_) | Step::Session(_) | Step::Open(_) => String::new(),
    }
}

#[test]
fn the_sample_covers_what_it_should() {
    let sample = Sample::generate(sample::SEED);
    assert!(sample.stdin.len() <= LONGEST);
    assert!(sample.tally.commands >= 2_000);
    assert_eq!(sample.tally.missing(3, 20), Vec::<String>::new());
    assert!((60..=140).contains(&sample.tally.moves));
    assert!((300..=600).contains(&sample.tally.index.calls()));
    assert!((200..=400).contains(&sample.tally.cut.calls()));
    assert!((1_000..=1_200).contains(&sample.tally.stamp.calls()));
    assert!((400..=500).contains(&sample.tally.extension.calls()));
    let lines = sample.stdout.lines().count() as u64;
    assert_eq!(lines, sample.tally.calls());
    assert_eq!(Sample::generate(sample::SEED).stdin, sample.stdin);
}
