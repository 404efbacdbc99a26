//! Made-up cuts: mostly of appends and of ACTIVATE that are answered 9000, at each of their stores;
//! else of any command.

use crate::card::Size;
use crate::command;
use crate::make::{self, Apdu, Rule, SHORTEST_RESPONSE};
use crate::random::Random;
use crate::step::Step;
use crate::view::{Content, File, View};

/// A cut for the card and session in view, with what selects its file, and at times with an append
/// to that file behind it.
pub fn steps(random: &mut Random, view: &View, image: &[u8], size: Size) -> Vec<Step> {
    let steps = match random.below(16) {
        0 | 1 => None,
        2..=5 => activation(random, view).or_else(|| append_and_more(random, view, size)),
        _ => append_and_more(random, view, size).or_else(|| activation(random, view)),
    };
    steps.unwrap_or_else(|| vec![of_any(random, view, image, size)])
}

/// A cut alone, of an append where the selected application has a file for one; else of any
/// command.
pub fn step(random: &mut Random, view: &View, image: &[u8], size: Size) -> Step {
    match room_here(random, view) {
        Some(room) if !random.one_in(4) => append(random, &room, size),
        _ => of_any(random, view, image, size),
    }
}

/// A cut of any command. Most have no store.
fn of_any(random: &mut Random, view: &View, image: &[u8], size: Size) -> Step {
    let command = command::command(random, view, image, size);
    let stores = random.pick(&[0, 1, 2, 9, usize::MAX]);
    Step::Cut { stores, command }
}

/// A record file that has room for a record.
pub struct Room {
    rule: &'static Rule,
    /// How many bytes the record may have.
    left: usize,
    current: bool,
}

impl Room {
    fn of(view: &View, file: &File) -> Option<Self> {
        let Content::Records {
            rule,
            free,
            records,
        } = &file.content
        else {
            return None;
        };
        let left = free.saturating_sub(2).min(rule.longest);
        let here = file.application == view.application;
        (left > 0 && records.len() < rule.most).then_some(Self {
            rule,
            left,
            current: here && view.current == Some(file.id),
        })
    }

    /// The room of the file of this rule, if it has some.
    pub fn of_rule(view: &View, rule: &Rule) -> Option<Self> {
        let mut rooms = view.files.iter().filter_map(|file| Self::of(view, file));
        rooms.find(|room| room.rule.kind == rule.kind)
    }
}

/// A file of the selected application that has room.
fn room_here(random: &mut Random, view: &View) -> Option<Room> {
    let rooms = view.here().filter_map(|file| Room::of(view, file));
    any_of(random, rooms.collect())
}

/// A file of any application that has room.
fn room_anywhere(random: &mut Random, view: &View) -> Option<Room> {
    let rooms = view.files.iter().filter_map(|file| Room::of(view, file));
    any_of(random, rooms.collect())
}

fn any_of(random: &mut Random, mut rooms: Vec<Room>) -> Option<Room> {
    match rooms.len() {
        0 => None,
        count => Some(rooms.swap_remove(random.below(count))),
    }
}

/// The cut of an append, and at times more with that file: an append that is done, or cut again.
fn append_and_more(random: &mut Random, view: &View, size: Size) -> Option<Vec<Step>> {
    let (mut steps, room) = match room_here(random, view) {
        Some(room) => (vec![], room),
        None => {
            let room = room_anywhere(random, view)?;
            (vec![select_application(room.rule.application)], room)
        }
    };
    steps.push(append(random, &room, size));
    match random.below(4) {
        0 => steps.push(append(random, &room, size)),
        1 | 2 => {
            let (_, command) = some_append(random, &room, size);
            steps.push(run(command));
        }
        _ => {}
    }
    Some(steps)
}

/// The cut of an append to this file.
pub fn append(random: &mut Random, room: &Room, size: Size) -> Step {
    let (length, command) = some_append(random, room, size);
    let stores = some_stores(random, length);
    Step::Cut { stores, command }
}

/// An append to this file, by its short id or as the current one; and how many bytes it has.
fn some_append(random: &mut Random, room: &Room, size: Size) -> (usize, Vec<u8>) {
    let length = match (size, random.below(8)) {
        (_, 0) if room.left < 60 => room.left,
        (Size::Any, 1) => room.left,
        (Size::Any, 2 | 3) => random.between(1, room.left),
        _ => random.between(1, room.left.min(12)),
    };
    let p2 = match room.current && random.one_in(3) {
        true => 0,
        false => room.rule.short_id << 3,
    };
    let apdu = Apdu::new(0x00, 0xE2, 0x00, p2)
        .data(random.text(length))
        .extended(random.one_in(4));
    (length, apdu.bytes())
}

/// How many stores of an append of so many bytes are made: none, those of the length, some of the
/// bytes, all but those of the count or about that, or more than there are.
fn some_stores(random: &mut Random, length: usize) -> usize {
    match random.below(14) {
        at @ 0..=3 => at,
        at @ 4..=7 => length + at - 2,
        8 | 9 => random.between(3, length + 2),
        10 => usize::MAX,
        11 => random.pick(&[1 << 32, usize::MAX - 1, 1 << 63]),
        // Few stores, but for 2^32.
        12 => (1 << 32) + random.below(length + 4),
        _ => random.between(0, length + 6),
    }
}

/// The cut of ACTIVATE, on the current file or on one that is selected for it.
fn activation(random: &mut Random, view: &View) -> Option<Vec<Step>> {
    let mut steps = vec![];
    if !view.current_file().is_some_and(File::is_open) {
        let open: Vec<&File> = view.files.iter().filter(|file| file.is_open()).collect();
        if open.is_empty() {
            return None;
        }
        if view.application != 3 {
            steps.push(select_application(3));
        }
        steps.push(select_file(random.pick(&open).id));
    }
    let stores = random.pick(&[0, 0, 1, 1, 2, 1 << 32, usize::MAX]);
    let command = Apdu::new(0x00, 0x44, 0x00, 0x00).bytes();
    steps.push(Step::Cut { stores, command });
    Some(steps)
}

fn select_application(application: u8) -> Step {
    let aid = make::aid(application).to_vec();
    run(Apdu::new(0x00, 0xA4, 0x04, 0x0C).data(aid).bytes())
}

fn select_file(id: u16) -> Step {
    let id = id.to_be_bytes().to_vec();
    run(Apdu::new(0x00, 0xA4, 0x02, 0x0C).data(id).bytes())
}

fn run(command: Vec<u8>) -> Step {
    Step::Command {
        response_len: SHORTEST_RESPONSE,
        command,
        record: None,
    }
}
