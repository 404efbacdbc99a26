//! That the comparison sees where a cut is wrong, or what comes behind one; that its cuts are of
//! every sort; and that the reference keeps the promise about them.

#[path = "cut/wrong.rs"]
mod wrong;

use compare::cut_scene;
use compare::hex::{fnv, hex};
use compare::make::SHORTEST_RESPONSE;
use compare::sides::{compare_machines, compare_without_scene, Cut, Machine, REFERENCE};
use compare::step::{State, Step};
use compare::view::{self, View};
use wrong::{all_wrong, done, file, is_append, list, places, with_list};

const SEED: u64 = 20_000;

fn machine(cut: Cut) -> Machine {
    Machine { cut, ..REFERENCE }
}

#[test]
fn a_difference_is_seen() {
    for (what, cut) in all_wrong() {
        let found = compare_machines(SEED, 20_000, &machine(cut), &REFERENCE).err();
        let found = found.unwrap_or_else(|| panic!("{what} is not seen"));
        assert!(matches!(found.step, Step::Cut { .. }), "{what}");
        assert!(found.to_string().contains("\nREFERENCE result "));
        assert!(found.to_string().contains(" stores\n"));
    }
}

/// What is made up sees each without the scene.
#[test]
fn a_difference_is_seen_without_the_scene() {
    for (what, cut) in all_wrong() {
        let found = compare_without_scene(SEED, 60_000, &machine(cut), &REFERENCE).err();
        let found = found.unwrap_or_else(|| panic!("{what} is not seen"));
        assert!(matches!(found.step, Step::Cut { .. }), "{what}");
    }
}

/// The list that the wrong orders are made from is the reference's.
#[test]
fn the_right_list_is_no_difference() {
    let same = machine(|image, session, command, stores| {
        with_list((image, session, command), stores, |_| {})
    });
    let found = compare_machines(SEED, 20_000, &same, &REFERENCE).err();
    assert!(found.is_none_or(|difference| panic!("{difference}")));
}

// ---------------------------------------------------------------- behind a cut

/// An append that is put behind what looks like a record in the free room, which then counts in
/// its place.
fn behind_the_torn(
    image: &mut [u8],
    session: &mut [u8],
    command: &[u8],
    response: &mut [u8],
) -> u64 {
    let list = match response.len() {
        SHORTEST_RESPONSE.. if is_append(command) => list(image, session, command),
        _ => vec![],
    };
    let (before, view) = (image.to_vec(), View::new(image, session));
    let result = reference::command(image, session, command, response);
    let Some(&(free, _)) = list.first() else {
        return result;
    };
    let [_, _, end] = places(&before, file(&view, command).expect("a file")).expect("a body");
    let room = &before[free..end];
    let torn = 2 + room
        .first_chunk()
        .map_or(0, |length| usize::from(u16::from_le_bytes(*length)));
    let written = list.len() - 2;
    if torn > 2 && torn + written <= room.len() {
        image[free..end].copy_from_slice(room);
        for (place, byte) in &list[..written] {
            image[place + torn] = *byte;
        }
    }
    result
}

#[test]
fn an_append_behind_the_torn_record_is_seen() {
    let wrong = Machine {
        command: behind_the_torn,
        ..REFERENCE
    };
    for compare in [compare_machines, compare_without_scene] {
        let found = compare(SEED, 20_000, &wrong, &REFERENCE).err();
        let found = found.expect("a difference");
        assert!(matches!(&found.step, Step::Command { command, .. } if is_append(command)));
    }
}

/// In the scene only a cut leaves what looks like a record, so that the first difference is behind
/// the first cut that does.
#[test]
fn the_scene_shows_an_append_behind_the_torn_record() {
    let (mut state, mut other) = (State::default(), State::default());
    let mut cuts = Vec::new();
    for (step, _) in cut_scene::lines() {
        said(&mut state, &step, REFERENCE.cut);
        if let Step::Command { command, .. } = &step {
            let State { image, session, .. } = &mut other;
            behind_the_torn(image, session, command, &mut [0; SHORTEST_RESPONSE]);
        } else {
            said(&mut other, &step, REFERENCE.cut);
        }
        if let Step::Cut { stores, .. } = step {
            cuts.push(stores);
        }
        if state.image != other.image {
            break;
        }
    }
    // Behind one store the length's high byte is not stored yet.
    assert_eq!(cuts, [0, 1, 2]);
}

// ---------------------------------------------------------------- the promise

/// The records of every file, and state and bytes of every biometrics file, as far as they count.
fn held(image: &[u8]) -> Vec<(u16, Vec<u8>)> {
    let rooms = view::rooms(image).into_iter();
    let bodies = rooms.map(|room| {
        let body = view::body(image, room.kind).expect("a body");
        (room.kind, image[body][..room.held].to_vec())
    });
    bodies.collect()
}

/// The reference's cut, which has to keep the promise: the image is well formed, it holds what it
/// held before or what it holds behind the command, the latter exactly where the last store was
/// made, and the session still fits.
const PROMISED: Cut = |image, session, command, stores| {
    let before = image.to_vec();
    let result = reference::cut(image, session, command, stores);
    if result >> 32 != 0 || result == 0 {
        assert!(image == before);
        return result;
    }
    let after = done(&before, session, command).expect("a command that is done");
    let expected = match stores as u64 >= result {
        true => &after,
        false => &before,
    };
    assert!(held(image) == held(expected));
    assert!(held(&before) != held(&after));
    // A cut of no command is refused where the image is not well formed or the session does not fit.
    assert_eq!(reference::cut(image, session, &[], 0), 0);
    result
};

#[test]
fn the_promise_is_kept() {
    let found = compare_machines(SEED, 20_000, &machine(PROMISED), &REFERENCE).err();
    assert!(found.is_none());
}

// ---------------------------------------------------------------- the scene and the tally

/// What a cut, and the reference otherwise, does with a line, in the words of the scene.
fn said(state: &mut State, step: &Step, cut: Cut) -> String {
    let State { image, session, .. } = state;
    match step {
        Step::Image(new) => image.clone_from(new),
        Step::Session(new) => session.clone_from(new),
        Step::Open(rights) => state.result = reference::open(rights, session),
        Step::Command { command, .. } => {
            let mut response = [0; SHORTEST_RESPONSE];
            let result = reference::command(image, session, command, &mut response);
            return hex(&response[..usize::from((result >> 16) as u16)]);
        }
        Step::Cut { stores, command } => {
            let result = cut(image, session, command, *stores);
            let outcome = match result >> 32 {
                0 => format!("{result} stores"),
                number => format!("refusal {number}"),
            };
            return format!("{outcome}, image {}", fnv(image));
        }
        _ => panic!("no other step is in this scene"),
    }
    String::new()
}

#[test]
fn the_scene_ends_as_it_says() {
    let mut state = State::default();
    for (at, (step, outcome)) in cut_scene::lines().into_iter().enumerate() {
        assert_eq!(said(&mut state, &step, REFERENCE.cut), outcome, "line {at}");
    }
}

/// The scene shows each wrong machine.
#[test]
fn the_scene_alone_shows_each() {
    let shows = |cut: Cut| {
        let mut state = State::default();
        let mut lines = cut_scene::lines().into_iter();
        lines.any(|(step, outcome)| said(&mut state, &step, cut) != outcome)
    };
    let unseen: Vec<&str> = all_wrong()
        .filter(|(_, cut)| !shows(*cut))
        .map(|(what, _)| what)
        .collect();
    assert_eq!(unseen, Vec::<&str>::new());
}

/// About one call in twenty-five is a cut, and cuts fall everywhere.
#[test]
fn cuts_of_every_sort() {
    for compare in [compare_machines, compare_without_scene] {
        let tally = compare(SEED, 20_000, &REFERENCE, &REFERENCE).ok();
        let tally = tally.expect("no difference");
        let cuts = tally.cut.calls();
        assert!((600..=1_100).contains(&cuts), "{cuts} cuts");
        for (what, count, wanted) in tally.cut.wanted(15) {
            assert!(count >= wanted, "{what}: {count} times\n{}", tally.cut);
        }
    }
}
