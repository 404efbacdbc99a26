//! That the comparison sees where a machine is wrong about commands in links; that its chains are of
//! every sort; and that the reference keeps what is promised of them.

#[path = "chain/wrong.rs"]
mod wrong;

use compare::chain_scene;
use compare::chain_tally;
use compare::hex::{fnv, hex};
use compare::make::{Apdu, MORE, SESSION_LEN, SHORTEST_RESPONSE, STANDING_LEN};
use compare::sides::{compare_machines, compare_without_scene, Command, Machine, REFERENCE};
use compare::step::{State, Step};
use compare::view::Chain;
use wrong::{all_wrong, RIGHT};

const SEED: u64 = 20_000;

#[test]
fn a_difference_is_seen() {
    for (what, machine) in all_wrong() {
        let found = compare_machines(SEED, 20_000, &machine, &REFERENCE).err();
        let found = found.unwrap_or_else(|| panic!("{what} is not seen"));
        assert!(found.to_string().contains("\nREFERENCE session "), "{what}");
    }
}

/// What is made up sees each without the scene.
#[test]
fn a_difference_is_seen_without_the_scene() {
    let unseen: Vec<&str> = all_wrong()
        .into_iter()
        .filter(|(_, machine)| compare_without_scene(SEED, 300_000, machine, &REFERENCE).is_ok())
        .map(|(what, _)| what)
        .collect();
    assert_eq!(unseen, Vec::<&str>::new());
}

/// The parts that the wrong machines are made from are right by themselves.
#[test]
fn the_right_parts_are_no_difference() {
    for command in RIGHT {
        let same = Machine {
            command,
            ..REFERENCE
        };
        let found = compare_machines(SEED, 40_000, &same, &REFERENCE).err();
        assert!(found.is_none_or(|difference| panic!("{difference}")));
    }
}

// ---------------------------------------------------------------- the promises

/// The reference, which has to keep what is promised: only 9000 changes the image, and the session
/// but for a chain, which another status drops; a link changes the chain alone; what it leaves is a
/// session that fits; and a last link ends as the whole command does.
const PROMISED: Command = |image, session, command, response| {
    let (image_before, before) = (image.to_vec(), session.to_vec());
    let result = reference::command(image, session, command, response);
    if result >> 32 != 0 {
        assert!(image == image_before && session == before);
        return result;
    }
    let chain = Chain::of(&before);
    let link = command.first().is_some_and(|cla| cla & MORE != 0);
    let (done, amid) = (result as u16 == 0x9000, Chain::of(session));
    assert_eq!(amid.is_some(), link && done);
    if link || !done {
        assert_eq!(session[..STANDING_LEN], before[..STANDING_LEN]);
        assert!(image == image_before);
        assert_eq!(result >> 16, 2);
    }
    assert_eq!(session[SESSION_LEN..], before[SESSION_LEN..]);
    assert_eq!(reference::cut(&mut image.to_vec(), session, &[], 0), 0);
    if let (Some(chain), Some(whole)) = (chain, Apdu::read(command)) {
        if !link && whole.header() == chain.header && whole.cla & 0x7F == 0 {
            as_the_whole(
                (&image_before, &before),
                &chain,
                whole,
                (image, session),
                result,
            );
        }
    }
    result
};

/// The same command with the join for its data, from the session without the chain, ends in the
/// same result, image and session.
fn as_the_whole(
    (image, session): (&[u8], &[u8]),
    chain: &Chain,
    mut command: Apdu,
    after: (&[u8], &[u8]),
    result: u64,
) {
    let ne = command.ne();
    let join = [&chain.data[..], command.data.as_deref().unwrap_or_default()].concat();
    // The Ne of a short Le is one that an extended Le can say too, but for what is asked of its
    // bytes.
    if join.len() > 255 && !command.extended && ne.is_some() {
        return;
    }
    command.data = Some(join);
    let (mut image, mut session) = (image.to_vec(), session.to_vec());
    session[STANDING_LEN..SESSION_LEN].fill(0);
    let mut response = [0; SHORTEST_RESPONSE];
    let whole = reference::command(&mut image, &mut session, &command.bytes(), &mut response);
    assert_eq!(whole, result);
    assert!((&image[..], &session[..]) == after);
}

#[test]
fn the_promises_are_kept() {
    let machine = Machine {
        command: PROMISED,
        ..REFERENCE
    };
    let found = compare_machines(SEED, 40_000, &machine, &REFERENCE).err();
    assert!(found.is_none());
}

// ---------------------------------------------------------------- the scene and the tally

/// What a machine does with a line, in the words of the scene.
fn said(state: &mut State, step: &Step, machine: &Machine) -> String {
    let State { image, session, .. } = state;
    match step {
        Step::Image(new) => image.clone_from(new),
        Step::Session(new) => session.clone_from(new),
        Step::Open(rights) => state.result = (machine.open)(rights, session),
        Step::Command {
            command,
            response_len,
            ..
        } => {
            let mut response = vec![0; *response_len];
            let result = (machine.command)(image, session, command, &mut response);
            return match result >> 32 {
                0 => hex(&response[..usize::from((result >> 16) as u16)]),
                number => format!("refusal {number}"),
            };
        }
        Step::Cut { stores, command } => {
            let result = (machine.cut)(image, session, command, *stores);
            let outcome = match result >> 32 {
                0 => format!("{result} stores"),
                number => format!("refusal {number}"),
            };
            return format!("{outcome}, image {}", fnv(image));
        }
        _ => panic!("no other step is in this scene"),
    }
    String::new()
}

#[test]
fn the_scene_ends_as_it_says() {
    let mut state = State::default();
    for (at, (step, outcome)) in chain_scene::lines().into_iter().enumerate() {
        let command = match &step {
            Step::Command { command, .. } => hex(command),
            _ => String::new(),
        };
        let said = said(&mut state, &step, &REFERENCE);
        assert_eq!(said, outcome, "line {at} {command}");
    }
}

/// The scene shows each wrong machine, by an answer, an image or a session.
#[test]
fn the_scene_alone_shows_each() {
    let shows = |machine: &Machine| {
        let (mut state, mut other) = (State::default(), State::default());
        chain_scene::lines().into_iter().any(|(step, outcome)| {
            said(&mut state, &step, &REFERENCE);
            let said = said(&mut other, &step, machine);
            said != outcome || state != other
        })
    };
    let unseen: Vec<&str> = all_wrong()
        .into_iter()
        .filter(|(_, machine)| !shows(machine))
        .map(|(what, _)| what)
        .collect();
    assert_eq!(unseen, Vec::<&str>::new());
}

/// The scene has each sort by itself, so that every run and the sample do.
#[test]
fn the_scene_has_every_sort() {
    let mut tally = chain_tally::ChainTally::default();
    let mut state = State::default();
    for (step, _) in chain_scene::lines() {
        let before = state.clone();
        let State { image, session, .. } = &mut state;
        state.result = match &step {
            Step::Open(rights) => reference::open(rights, session),
            Step::Command {
                command,
                response_len,
                ..
            } => reference::command(image, session, command, &mut vec![0; *response_len]),
            Step::Cut { stores, command } => reference::cut(image, session, command, *stores),
            _ => {
                said(&mut state, &step, &REFERENCE);
                0
            }
        };
        tally.step(&step, &before, state.results(&step));
    }
    let missing: Vec<_> = tally
        .wanted(3)
        .into_iter()
        .filter(|(_, count, wanted)| count < wanted)
        .collect();
    assert_eq!(missing, vec![], "{tally}");
}

/// A run has each sort, with the scene and without.
#[test]
fn chains_of_every_sort() {
    for compare in [compare_machines, compare_without_scene] {
        let tally = compare(SEED, 300_000, &REFERENCE, &REFERENCE).ok();
        let tally = tally.expect("no difference");
        for (what, count, wanted) in tally.chain.wanted(15) {
            assert!(count >= wanted, "{what}: {count} times\n{}", tally.chain);
        }
    }
}
