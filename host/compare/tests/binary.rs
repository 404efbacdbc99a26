//! That the comparison sees where READ BINARY B1 is wrong, and what else large files bring; and
//! that its commands are made up and counted as they should.

use compare::binary_scene;
use compare::hex::hex;
use compare::line::Line;
use compare::make::{self, Apdu, LARGEST_ROOM};
use compare::scene;
use compare::sides::{
    compare_machines, compare_without_scene, Command, Machine, MoveCard, REFERENCE,
};
use compare::step::{State, Step};
use compare::view::{self, View};

const SEED: u64 = 20_000;

/// The reference's answer to another command than the one that came.
fn instead(
    image: &mut [u8],
    session: &mut [u8],
    command: &[u8],
    response: &mut [u8],
    other: impl FnOnce(Apdu) -> Option<Apdu>,
) -> u64 {
    let changed = Apdu::read(command).and_then(other);
    let command = changed.map_or(command.to_vec(), |apdu| apdu.bytes());
    reference::command(image, session, &command, response)
}

/// An answer of this data and status, in place of the one that was written.
fn answer(response: &mut [u8], data: &[u8], status: u16) -> u64 {
    let bytes = [data, &status.to_be_bytes()].concat();
    response[..bytes.len()].copy_from_slice(&bytes);
    (bytes.len() as u64) << 16 | u64::from(status)
}

fn is(command: &[u8], ins: u8) -> bool {
    command.starts_with(&[0x00, ins])
}

/// The file bytes in a reply of B1 that is answered 9000.
fn file_bytes(command: &[u8], result: u64, response: &[u8]) -> Option<Vec<u8>> {
    if !is(command, 0xB1) || result as u32 as u16 != 0x9000 || result >> 32 != 0 {
        return None;
    }
    let reply = &response[..usize::from((result >> 16) as u16) - 2];
    Some(make::value(&[0x53], reply)?.0.to_vec())
}

/// The bytes of the offset, where the data begins with the object 54.
fn offset(apdu: &Apdu) -> Option<&[u8]> {
    Some(make::value(&[0x54], apdu.data.as_deref()?)?.0)
}

/// The command with other bytes in its first object, the offset.
fn with_offset(apdu: &Apdu, bytes: &[u8]) -> Option<Apdu> {
    let (_, rest) = make::value(&[0x54], apdu.data.as_deref()?)?;
    let data = [&make::object(&[0x54], bytes)[..], rest].concat();
    Some(apdu.clone().data(data))
}

/// The command with this Ne, in extended form.
fn with_ne(apdu: Apdu, ne: usize) -> Option<Apdu> {
    Some(apdu.le(ne as u16).extended(true))
}

/// A wrong machine: what is wrong with it, the instruction that shows it, its command.
type Wrong = (&'static str, u8, Command);

const WRONG_REPLIES: [Wrong; 9] = [
    ("unwrapped", 0xB1, |image, session, command, response| {
        let result = reference::command(image, session, command, response);
        match file_bytes(command, result, response) {
            Some(bytes) => answer(response, &bytes, 0x9000),
            None => result,
        }
    }),
    (
        "a long form of the length below 128",
        0xB1,
        |image, session, command, response| {
            let result = reference::command(image, session, command, response);
            match file_bytes(command, result, response) {
                Some(bytes) if bytes.len() < 0x80 => {
                    let head = [0x53, 0x81, bytes.len() as u8];
                    answer(response, &[&head[..], &bytes].concat(), 0x9000)
                }
                _ => result,
            }
        },
    ),
    (
        "a long form of the length below 256",
        0xB1,
        |image, session, command, response| {
            let result = reference::command(image, session, command, response);
            match file_bytes(command, result, response) {
                Some(bytes) if (0x80..0x100).contains(&bytes.len()) => {
                    let head = [0x53, 0x82, 0x00, bytes.len() as u8];
                    answer(response, &[&head[..], &bytes].concat(), 0x9000)
                }
                _ => result,
            }
        },
    ),
    (
        "one byte too many at 128",
        0xB1,
        |image, session, command, response| {
            instead(image, session, command, response, |apdu| {
                match apdu.ne()? {
                    130 if apdu.ins == 0xB1 => with_ne(apdu, 131),
                    _ => None,
                }
            })
        },
    ),
    (
        "one byte too many at 256",
        0xB1,
        |image, session, command, response| {
            instead(image, session, command, response, |apdu| {
                match apdu.ne()? {
                    259 if apdu.ins == 0xB1 => with_ne(apdu, 260),
                    _ => None,
                }
            })
        },
    ),
    (
        "one byte too few where the form of the length changes",
        0xB1,
        |image, session, command, response| {
            instead(image, session, command, response, |apdu| {
                match apdu.ne()? {
                    ne @ (131 | 260) if apdu.ins == 0xB1 => with_ne(apdu, ne - 1),
                    _ => None,
                }
            })
        },
    ),
    (
        "Ne counts the file bytes alone",
        0xB1,
        |image, session, command, response| {
            instead(image, session, command, response, |apdu| {
                match apdu.ne()? {
                    ne @ ..2_044 if apdu.ins == 0xB1 => {
                        with_ne(apdu, 1 + make::length(ne).len() + ne)
                    }
                    _ => None,
                }
            })
        },
    ),
    (
        "2,047 bytes at the most",
        0xB1,
        |image, session, command, response| {
            instead(image, session, command, response, |apdu| {
                match apdu.ne()? {
                    2_048.. if apdu.ins == 0xB1 => with_ne(apdu, 2_047),
                    _ => None,
                }
            })
        },
    ),
    (
        "0000 taken for 256",
        0xB1,
        |image, session, command, response| {
            instead(image, session, command, response, |apdu| {
                match apdu.ne()? {
                    0x1_0000 if apdu.ins == 0xB1 => with_ne(apdu, 256),
                    _ => None,
                }
            })
        },
    ),
];

const WRONG_ORDERS: [Wrong; 6] = [
    (
        "6700 before 6B00",
        0xB1,
        |image, session, command, response| {
            let result = reference::command(image, session, command, response);
            let ne = Apdu::read(command).and_then(|apdu| apdu.ne());
            match result as u32 as u16 {
                0x6B00 if is(command, 0xB1) && ne.is_some_and(|ne| ne < 3) => {
                    answer(response, &[], 0x6700)
                }
                _ => result,
            }
        },
    ),
    (
        "Ne under 3 taken for 3",
        0xB1,
        |image, session, command, response| {
            instead(image, session, command, response, |apdu| {
                match apdu.ne()? {
                    ..3 if apdu.ins == 0xB1 => with_ne(apdu, 3),
                    _ => None,
                }
            })
        },
    ),
    (
        "the size itself taken for an offset",
        0xB1,
        |image, session, command, response| {
            let result = reference::command(image, session, command, response);
            if !is(command, 0xB1) || result as u32 as u16 != 0x6B00 {
                return result;
            }
            let again = instead(image, session, command, response, |apdu| {
                let number = offset(&apdu)?
                    .iter()
                    .fold(0, |all, byte| all << 8 | usize::from(*byte));
                with_offset(&apdu, &make::number(number.checked_sub(1)?, 3))
            });
            match again as u16 {
                0x9000 => answer(response, &[0x53, 0x00], 0x9000),
                _ => answer(response, &[], 0x6B00),
            }
        },
    ),
    (
        "Le may be missing",
        0xB1,
        |image, session, command, response| {
            instead(image, session, command, response, |apdu| match apdu.le {
                None if apdu.ins == 0xB1 => Some(apdu.le(0)),
                _ => None,
            })
        },
    ),
    (
        "Lc may be missing",
        0xB1,
        |image, session, command, response| {
            instead(image, session, command, response, |apdu| match apdu.data {
                None if apdu.ins == 0xB1 => Some(apdu.data(vec![0x54, 0x01, 0x00])),
                _ => None,
            })
        },
    ),
    (
        "the file is not set",
        0xB1,
        |image, session, command, response| {
            let before = session.to_vec();
            let result = reference::command(image, session, command, response);
            if is(command, 0xB1) {
                session.copy_from_slice(&before);
            }
            result
        },
    ),
];

const WRONG_OFFSETS: [Wrong; 9] = [
    (
        "6B00 from 32,768 on",
        0xB1,
        |image, session, command, response| {
            instead(image, session, command, response, |apdu| {
                let number = offset(&apdu)?
                    .iter()
                    .fold(0, |n, &byte| n << 8 | u64::from(byte));
                match number {
                    0x8000..=0xFF_FFFF if apdu.ins == 0xB1 => with_offset(&apdu, &[0xFF; 3]),
                    _ => None,
                }
            })
        },
    ),
    (
        "no file but the current one has an id",
        0xB1,
        |image, session, command, response| {
            let current = session.get(22..24).map(|id| [id[1], id[0]]);
            instead(image, session, command, response, |apdu| {
                let named = [apdu.p1, apdu.p2];
                let other = named != [0, 0] && Some(named) != current;
                (apdu.ins == 0xB1 && other).then_some(Apdu {
                    p1: 0xFF,
                    p2: 0xFF,
                    ..apdu
                })
            })
        },
    ),
    (
        "an offset cut to two bytes",
        0xB1,
        |image, session, command, response| {
            instead(image, session, command, response, |apdu| {
                match offset(&apdu)? {
                    [_, high, low] if apdu.ins == 0xB1 => with_offset(&apdu, &[*high, *low]),
                    _ => None,
                }
            })
        },
    ),
    (
        "an offset cut to 15 bits",
        0xB1,
        |image, session, command, response| {
            instead(image, session, command, response, |apdu| {
                match offset(&apdu)? {
                    [high @ 0x80..=0xFF, low] if apdu.ins == 0xB1 => {
                        with_offset(&apdu, &[high & 0x7F, *low])
                    }
                    _ => None,
                }
            })
        },
    ),
    (
        "an offset of four bytes accepted",
        0xB1,
        |image, session, command, response| {
            instead(image, session, command, response, |apdu| {
                match offset(&apdu)? {
                    [_, rest @ ..] if rest.len() == 3 && apdu.ins == 0xB1 => {
                        with_offset(&apdu, rest)
                    }
                    _ => None,
                }
            })
        },
    ),
    (
        "an offset of no bytes accepted",
        0xB1,
        |image, session, command, response| {
            instead(image, session, command, response, |apdu| {
                match offset(&apdu)? {
                    [] if apdu.ins == 0xB1 => with_offset(&apdu, &[0]),
                    _ => None,
                }
            })
        },
    ),
    (
        "zeros in front of an offset refused",
        0xB1,
        |image, session, command, response| {
            instead(image, session, command, response, |apdu| {
                match offset(&apdu)? {
                    [0, _, ..] if apdu.ins == 0xB1 => with_offset(&apdu, &[]),
                    _ => None,
                }
            })
        },
    ),
    (
        "an update's offset cut to two bytes",
        0xD7,
        |image, session, command, response| {
            instead(image, session, command, response, |apdu| {
                match offset(&apdu)? {
                    [1..=0xFF, high, low] if apdu.ins == 0xD7 => with_offset(&apdu, &[*high, *low]),
                    _ => None,
                }
            })
        },
    ),
    (
        "an update's offset of three bytes refused",
        0xD7,
        |image, session, command, response| {
            instead(image, session, command, response, |apdu| {
                match offset(&apdu)? {
                    [_, _, _] if apdu.ins == 0xD7 => with_offset(&apdu, &[]),
                    _ => None,
                }
            })
        },
    ),
];

const WRONG_ELSEWHERE: [Wrong; 5] = [
    (
        "a window of three bytes accepted",
        0xA2,
        |image, session, command, response| {
            instead(image, session, command, response, |apdu| {
                let data = apdu.data.clone()?;
                let search = make::search_parts(&data)?;
                let [offset, number] = search.window.map(|number| match number {
                    [0, rest @ ..] if rest.len() == 2 => rest,
                    _ => number,
                });
                let window = [offset, number];
                let data =
                    make::search(make::object, search.file, search.how, window, search.string);
                (apdu.ins == 0xA2).then(|| apdu.data(data))
            })
        },
    ),
    (
        "a total of two bytes",
        0x5E,
        |image, session, command, response| {
            let result = reference::command(image, session, command, response);
            match response {
                [0x7F, 0x78, length, 0x81, 0x03, ..] if command.get(1) == Some(&0x5E) => {
                    *length -= 1;
                    response[4] = 2;
                }
                _ => {}
            }
            result
        },
    ),
    (
        "no room above 65,535",
        0x00,
        |image, session, command, response| {
            let large = |room: &view::Room| room.kind > 0x0400 && room.length > 5 + 0xFFFF;
            match view::rooms(image).iter().any(large) {
                true if response.len() >= 2_050 => 2 << 32,
                _ => reference::command(image, session, command, response),
            }
        },
    ),
    (
        "a room one byte too large accepted",
        0x00,
        |image, session, command, response| {
            let above = |room: &view::Room| room.kind > 0x0400 && room.length == 6 + LARGEST_ROOM;
            match reference::command(image, session, command, response) {
                0x2_0000_0000 if view::rooms(image).iter().any(above) => {
                    answer(response, &[], 0x6700)
                }
                result => result,
            }
        },
    ),
    (
        "a written length of two bytes",
        0x00,
        |image, session, command, response| {
            let large = View::new(image, session)
                .files
                .iter()
                .any(|file| file.size() > 0xFFFF);
            match large {
                true if response.len() >= 2_050 => 2 << 32,
                _ => reference::command(image, session, command, response),
            }
        },
    ),
];

fn all_wrong() -> impl Iterator<Item = Wrong> {
    let replies = WRONG_REPLIES.into_iter().chain(WRONG_ORDERS);
    replies.chain(WRONG_OFFSETS).chain(WRONG_ELSEWHERE)
}

/// The instruction of a step that is a command.
fn instruction(step: &Step) -> Option<u8> {
    match step {
        Step::Command { command, .. } => command.get(1).copied(),
        _ => None,
    }
}

#[test]
fn a_difference_is_seen() {
    for (what, ins, command) in all_wrong() {
        let wrong = Machine {
            command,
            ..REFERENCE
        };
        let found = compare_machines(SEED, 20_000, &wrong, &REFERENCE).err();
        let found = found.unwrap_or_else(|| panic!("{what} is not seen"));
        let seen = instruction(&found.step);
        assert!(ins == 0x00 || seen == Some(ins), "{what}: {seen:02X?}");
    }
}

/// What is made up sees each without the scene.
#[test]
fn a_difference_is_seen_without_the_scene() {
    for (what, _, command) in all_wrong() {
        let wrong = Machine {
            command,
            ..REFERENCE
        };
        let found = compare_without_scene(SEED, 60_000, &wrong, &REFERENCE);
        assert!(found.is_err(), "{what} is not seen");
    }
}

/// The body of a biometrics file in the largest room.
const LARGEST_BODY: usize = 5 + LARGEST_ROOM;

/// The reference's move, with this body of a biometrics file taken for another.
fn move_with(old: &[u8], list: &[u8], target: &mut [u8], body: usize, other: usize) -> u64 {
    let mut list = list.to_vec();
    for row in list.chunks_exact_mut(make::SECTION_HEADER) {
        if row[5] == 0x04 && row[..4] == (body as u32).to_le_bytes() {
            row[..4].copy_from_slice(&(other as u32).to_le_bytes());
        }
    }
    reference::move_card(old, &list, target)
}

/// The largest room refused, and a room of one byte more accepted.
const WRONG_MOVES: [MoveCard; 2] = [
    |old, list, target| move_with(old, list, target, LARGEST_BODY, LARGEST_BODY + 1),
    |old, list, target| move_with(old, list, target, LARGEST_BODY + 1, LARGEST_BODY),
];

#[test]
fn a_difference_of_a_move_is_seen() {
    for move_card in WRONG_MOVES {
        let wrong = Machine {
            move_card,
            ..REFERENCE
        };
        for compare in [compare_machines, compare_without_scene] {
            let found = compare(SEED, 20_000, &wrong, &REFERENCE).err();
            let found = found.expect("a difference");
            assert!(matches!(found.step, Step::Move { .. }));
        }
    }
}

/// What the reference does with a line, in the words of the scene.
fn said(state: &mut State, step: &Step) -> String {
    match step {
        Step::Image(image) => state.image.clone_from(image),
        Step::Session(session) => state.session.clone_from(session),
        Step::Open(rights) => state.result = reference::open(rights, &mut state.session),
        Step::Command { command, .. } => {
            let mut response = vec![0; make::SHORTEST_RESPONSE];
            let State { image, session, .. } = state;
            let result = reference::command(image, session, command, &mut response);
            return hex(&response[..usize::from((result >> 16) as u16)]);
        }
        Step::Move { target_len, list } => {
            let mut target = vec![0; *target_len];
            state.result = reference::move_card(&state.image, list, &mut target);
            state.take_moved(&target);
            return match state.refusal() {
                0 => format!("{} bytes", state.result),
                number => format!("refusal {number}"),
            };
        }
        _ => panic!("no other step is in this scene"),
    }
    String::new()
}

fn ends_as_it_says(lines: Vec<Line>) {
    let mut state = State::default();
    for (at, (step, outcome)) in lines.into_iter().enumerate() {
        assert_eq!(said(&mut state, &step), outcome, "line {at}");
    }
}

#[test]
fn the_scenes_end_as_they_say() {
    ends_as_it_says(binary_scene::lines());
}

/// The scene of the sample shows each wrong machine but one: it has no card with a room that is too
/// large, which would take a quarter of the sample.
#[test]
fn the_scene_alone_shows_each() {
    let unseen: Vec<&str> = all_wrong()
        .filter(|(_, _, command)| !shows(*command))
        .map(|(what, ..)| what)
        .collect();
    assert_eq!(unseen, ["a room one byte too large accepted"]);
}

/// Whether some command of the scene is answered otherwise.
fn shows(wrong: Command) -> bool {
    let (mut state, mut other) = (State::default(), State::default());
    scene::lines().into_iter().any(|(step, _)| {
        let Step::Command { command, .. } = &step else {
            if matches!(
                step,
                Step::Image(_) | Step::Session(_) | Step::Open(_) | Step::Move { .. }
            ) {
                said(&mut state, &step);
                said(&mut other, &step);
            }
            return false;
        };
        let mut responses = [[0; make::SHORTEST_RESPONSE]; 2];
        let [right, answered] = &mut responses;
        let State { image, session, .. } = &mut state;
        let result = reference::command(image, session, command, right);
        let State { image, session, .. } = &mut other;
        result != wrong(image, session, command, answered)
            || right != answered
            || state.session != other.session
    })
}

/// A command in each of the seven shapes is read as it was made.
#[test]
fn commands_are_read_as_they_are_made() {
    let plain = Apdu::new(0x00, 0xB1, 0x02, 0x01);
    let data = plain.clone().data(vec![0x54, 0x01, 0x00]);
    let extended = |apdu: &Apdu| apdu.clone().extended(true);
    let shapes = [
        plain.clone(),
        plain.clone().le(9),
        data.clone(),
        data.clone().le(9),
        extended(&plain).le(9),
        extended(&data),
        extended(&data).le(9),
    ];
    for apdu in shapes {
        assert_eq!(Apdu::read(&apdu.bytes()), Some(apdu));
    }
    assert_eq!(plain.clone().le(0).ne(), Some(256));
    assert_eq!(extended(&plain).le(0).ne(), Some(65_536));
    assert_eq!(plain.ne(), None);
    for torn in [
        &[][..],
        &[0; 3],
        &[0, 0xB1, 0, 0, 0, 0],
        &[0, 0xB1, 0, 0, 2, 7],
    ] {
        assert_eq!(Apdu::read(torn), None);
    }
}
