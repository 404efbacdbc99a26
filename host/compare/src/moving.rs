//! Made-up moves: rooms for the files of the card at hand, good ones and such that the move is
//! refused, and a target.

use crate::card::Size;
use crate::make::{self, BIOMETRICS_KIND, LARGEST_ROOM, LONGEST_IMAGE, RULES, SECTION_HEADER};
use crate::random::Random;
use crate::step::Step;
use crate::view::{self, Room};

/// The shortest body of a biometrics file: state and written length.
const BIOMETRICS_HEADER: usize = 5;
/// The longest target where cards are to stay small.
const SMALL_TARGET: usize = 8_192;

/// How the new rooms compare to the old ones.
#[derive(Clone, Copy)]
enum Rooms {
    Same,
    Grown,
    /// As long as the content.
    Exact,
    /// Some of each.
    Mixed,
}

/// What is wrong with a list, if anything is.
#[derive(Clone, Copy)]
enum Fault {
    None,
    /// A room of one byte less than its content.
    Small,
    /// A row is missing, or all those of one application.
    Dropped,
    Repeated,
    Exchanged,
    /// A kind that no file has, or another file's.
    Kind,
    /// A length at the border of what the kind may have.
    Border,
    /// A biometrics file in the largest room, or in one of a byte more.
    Largest,
    Huge,
    /// All sections together are as long as an image may be, or about so.
    Limit,
}

/// A move of a card to rooms that are derived from those of an image, its own or another's.
pub fn step(random: &mut Random, image: &[u8], size: Size) -> Step {
    let rooms = view::rooms(image);
    let mut rows = new_rooms(random, &rooms, size);
    if random.one_in(3) {
        add_files(random, &mut rows);
    }
    for _ in 0..random.weighted(&[(11, 0), (8, 1), (1, 2)]) {
        let fault = some_fault(random);
        spoil(random, &mut rows, &rooms, fault);
    }
    let target_len = target_len(random, &rows, size);
    let mut list = make::list(&rows);
    match random.below(40) {
        0 => random.spoil(&mut list),
        1 => list.truncate(random.below(rows.len() * SECTION_HEADER + 1)),
        2 => list.push(random.byte()),
        3 if random.one_in(4) => list.clear(),
        _ => {}
    }
    Step::Move { target_len, list }
}

/// Rows for the files there are, none of them too small.
fn new_rooms(random: &mut Random, rooms: &[Room], size: Size) -> Vec<(u16, usize)> {
    let how = random.weighted(&[
        (2, Rooms::Same),
        (5, Rooms::Grown),
        (2, Rooms::Exact),
        (3, Rooms::Mixed),
    ]);
    rooms
        .iter()
        .map(|room| (room.kind, new_length(random, room, how, size)))
        .collect()
}

fn new_length(random: &mut Random, room: &Room, how: Rooms, size: Size) -> usize {
    let length = match (how, size) {
        (Rooms::Same, _) => room.length,
        (Rooms::Exact, _) => room.held,
        (Rooms::Grown, Size::Small) => room.length + random.below(60),
        (Rooms::Grown, Size::Any) => room.length + random.pick(&[0, 1, 30, 400, 2_000]),
        (Rooms::Mixed, _) => match random.below(4) {
            0 => room.held,
            1 => random.between(room.held, room.length),
            2 => room.length,
            _ => room.held + random.below(90),
        },
    };
    if room.kind > BIOMETRICS_KIND {
        length.min(BIOMETRICS_HEADER + LARGEST_ROOM)
    } else {
        length
    }
}

/// Rows for an application that is not there, or for one biometrics file more.
fn add_files(random: &mut Random, rows: &mut Vec<(u16, usize)>) {
    let application = random.between(1, 3) as u8;
    for rule in RULES.iter().filter(|rule| rule.application == application) {
        if rows.iter().all(|(kind, _)| *kind != rule.kind) {
            rows.push((rule.kind, 2 + random.below(80)));
        }
    }
    let kind = BIOMETRICS_KIND + random.between(1, 64) as u16;
    if application == 3 && rows.iter().all(|(other, _)| *other != kind) {
        rows.push((kind, BIOMETRICS_HEADER + random.below(80)));
    }
    rows.sort_unstable();
}

fn some_fault(random: &mut Random) -> Fault {
    random.weighted(&[
        (1, Fault::None),
        (6, Fault::Small),
        (5, Fault::Dropped),
        (1, Fault::Repeated),
        (1, Fault::Exchanged),
        (2, Fault::Kind),
        (3, Fault::Border),
        (3, Fault::Largest),
        (1, Fault::Huge),
        (2, Fault::Limit),
    ])
}

/// Puts a fault into the rows. A list without rows has none to change.
fn spoil(random: &mut Random, rows: &mut Vec<(u16, usize)>, rooms: &[Room], fault: Fault) {
    if rows.is_empty() {
        return;
    }
    let at = random.below(rows.len());
    match fault {
        Fault::None => {}
        Fault::Small => make_small(random, rows, rooms),
        Fault::Dropped if random.coin() => drop(rows.remove(at)),
        Fault::Dropped => {
            // The biometrics files belong to the application of 031A.
            let application = |kind: u16| (kind >> 8).min(3);
            let gone = application(rows[at].0);
            rows.retain(|(kind, _)| application(*kind) != gone);
        }
        Fault::Repeated => rows.insert(at, rows[at]),
        Fault::Exchanged => {
            let other = random.below(rows.len());
            rows.swap(at, other);
        }
        Fault::Kind => {
            rows[at].0 = random.pick(&[
                0x0000, 0x0100, 0x0103, 0x0201, 0x0301, 0x0400, 0x0401, 0x0440, 0x0441, 0xFFFF,
            ]);
        }
        Fault::Border => rows[at].1 = border(random, rows[at].0),
        Fault::Largest => {
            let files = rows.iter_mut().filter(|(kind, _)| *kind > BIOMETRICS_KIND);
            if let Some((_, length)) = files.last() {
                *length = BIOMETRICS_HEADER + LARGEST_ROOM + random.pick(&[0, 1, 1]);
            }
        }
        Fault::Huge => {
            rows[at].1 = random.pick(&[0xFFFF_FFFF, 0xFFFF_FFFA, 0x8000_0000, 0x0100_0000]);
        }
        Fault::Limit => fill_up(random, rows, at),
    }
}

/// One room of one byte less than the file there needs; of an empty file, of less than any has.
fn make_small(random: &mut Random, rows: &mut [(u16, usize)], rooms: &[Room]) {
    let full: Vec<&Room> = rooms.iter().filter(|room| room.held > 5).collect();
    let from = if full.is_empty() {
        rooms.iter().collect()
    } else {
        full
    };
    if from.is_empty() {
        return;
    }
    let room = random.pick(&from);
    for (kind, length) in rows {
        if *kind == room.kind {
            *length = room.held.saturating_sub(1);
        }
    }
}

/// A length that an empty file of this kind just may have, or just may not.
fn border(random: &mut Random, kind: u16) -> usize {
    if kind > BIOMETRICS_KIND {
        let least = BIOMETRICS_HEADER;
        random.pick(&[
            0,
            least - 1,
            least,
            least + LARGEST_ROOM,
            least + LARGEST_ROOM + 1,
        ])
    } else {
        random.pick(&[0, 1, 2])
    }
}

/// Makes a record file so large that the image is as long as an image may be, or one byte shorter
/// or longer.
fn fill_up(random: &mut Random, rows: &mut [(u16, usize)], from: usize) {
    let total = total(rows);
    let wanted = random.near(LONGEST_IMAGE);
    let record_file = rows[..=from]
        .iter()
        .rposition(|(kind, _)| *kind < BIOMETRICS_KIND);
    if let Some(at) = record_file.filter(|_| total < wanted) {
        rows[at].1 += wanted - total;
    }
}

/// The length of the image of these rows.
fn total(rows: &[(u16, usize)]) -> usize {
    rows.iter().map(|(_, length)| SECTION_HEADER + length).sum()
}

/// As long as the new image mostly; else longer, one byte too short, empty or any.
fn target_len(random: &mut Random, rows: &[(u16, usize)], size: Size) -> usize {
    let total = total(rows);
    if total > LONGEST_IMAGE + 1 {
        // It cannot be enough, and nothing is written to it.
        return random.below(400);
    }
    let length = match random.below(16) {
        0 => total.saturating_sub(1),
        1 => random.pick(&[0, total / 2]),
        2..=4 => total + random.between(1, 40),
        _ => total,
    };
    match size {
        Size::Small => length.min(SMALL_TARGET),
        Size::Any => length,
    }
}
