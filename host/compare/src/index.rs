//! Made-up calls of an index: bodies of each kind, good ones and damaged ones; lists that fit them
//! and lists that do not; numbers to extend by and to read.

use crate::bodies;
use crate::card::Size;
use crate::make::{self, Rule, RULES};
use crate::random::Random;
use crate::step::{IndexCall, Step};
use crate::view;
use std::ops::Range;

/// The most entries that a made-up list has: about twice as many as any file has records.
const LONGEST_LIST: usize = 512;

/// A call that means something for the body, which now and then is that of the image.
pub fn step(random: &mut Random, image: &[u8], size: Size) -> Step {
    let rule = &RULES[random.below(RULES.len())];
    let body = match (random.below(6), view::body(image, rule.kind)) {
        (0, Some(body)) => image[body].to_vec(),
        (1, _) => bodies::wrong(random, rule, size),
        _ => bodies::body(random, rule, size),
    };
    match random.below(10) {
        0..=2 => build(random, rule, body),
        3..=6 => extend(random, rule, body),
        _ => read(random, rule, body, size),
    }
}

fn build(random: &mut Random, rule: &Rule, body: Vec<u8>) -> Step {
    let kind = some_kind(random, rule);
    let length = some_length(random, view::count(&body));
    Step::Index {
        call: IndexCall::Build { kind },
        places: made_up(random, length),
        body,
    }
}

/// The entries before the n-th are the places of the body's records, or any.
fn extend(random: &mut Random, rule: &'static Rule, body: Vec<u8>) -> Step {
    let kind = some_kind(random, rule);
    let count = view::count(&body);
    let n = some_n(random, count);
    // A list for the largest n cannot be made.
    let needed = if n < LONGEST_LIST { n + 1 } else { 0 };
    let length = some_length(random, needed.max(count));
    let mut list = made_up(random, length);
    if random.coin() {
        for (entry, place) in list.iter_mut().zip(places(rule, &body)).take(n) {
            *entry = place;
        }
    }
    Step::Index {
        call: IndexCall::Extend { kind, n },
        places: list,
        body,
    }
}

/// Where the lengths of a body's records stand.
pub fn places(rule: &'static Rule, body: &[u8]) -> Vec<u32> {
    view::records(rule, body).iter().map(place).collect()
}

fn place(record: &Range<usize>) -> u32 {
    record.start as u32 - 2
}

/// Entries to be written over, or to stay.
pub fn made_up(random: &mut Random, length: usize) -> Vec<u32> {
    (0..length).map(|_| random.draw() as u32).collect()
}

/// The rule's kind, mostly; else another record file's, a biometrics file's or none that there is.
fn some_kind(random: &mut Random, rule: &Rule) -> u16 {
    match random.below(10) {
        0 => RULES[random.below(RULES.len())].kind,
        1 => make::BIOMETRICS_KIND + random.between(1, 64) as u16,
        2 => random.pick(&[
            0x0000, 0x0100, 0x0103, 0x0119, 0x011B, 0x0400, 0x0441, 0x1A01, 0x2F00, 0xFFFF,
        ]),
        _ => rule.kind,
    }
}

/// How many entries a list has that needs so many: as many, more, one less or fewer.
fn some_length(random: &mut Random, needed: usize) -> usize {
    let length = match random.below(9) {
        0 => needed.saturating_sub(1),
        1 => random.below(needed.max(1)),
        2..=4 => needed,
        _ => needed + random.between(1, 9),
    };
    length.min(LONGEST_LIST)
}

/// One below the count, mostly: for an empty body that is the largest number, if one counts on
/// from 0 to it. Else one too large or too small, the largest, one that is right but for 2^32.
fn some_n(random: &mut Random, count: usize) -> usize {
    match random.below(14) {
        0 => count,
        1 => count.wrapping_sub(2),
        2 => usize::MAX,
        3 => count.wrapping_sub(1).wrapping_add(1 << 32),
        4 => random.below(300),
        _ => count.wrapping_sub(1),
    }
}

/// What is read.
#[derive(Clone, Copy)]
enum Way {
    /// By the places of the body's records.
    Built,
    /// And the list has more entries.
    More,
    /// One entry is another.
    Changed,
    /// The body ends amid a record, or where one begins or ends.
    Cut,
    /// A record's length is another.
    Length,
    /// By other places alone.
    Foreign,
    /// By numbers of 32 bits.
    Any,
    /// By no place.
    Empty,
}

fn read(random: &mut Random, rule: &'static Rule, mut body: Vec<u8>, size: Size) -> Step {
    let records = view::records(rule, &body);
    let mut list: Vec<u32> = records.iter().map(place).collect();
    let at = random.below(list.len().max(1));
    match some_way(random) {
        Way::More => {
            let more = random.between(1, 5);
            list.extend(made_up(random, more));
        }
        Way::Changed => {
            let place = some_place(random, &body, &records);
            if let Some(entry) = list.get_mut(at) {
                *entry = place;
            }
        }
        Way::Cut => cut(random, &mut body, records.get(at)),
        Way::Length => {
            if size == Size::Any && random.coin() {
                // More bytes are left than any record of a file has.
                body.resize(body.len() + random.between(900, 2_000), 0x22);
            }
            change_length(random, &mut body, records.get(at));
        }
        Way::Foreign => {
            let length = random.between(1, 6);
            list = (0..length)
                .map(|_| some_place(random, &body, &records))
                .collect();
        }
        Way::Any => {
            let length = random.between(1, 6);
            list = made_up(random, length);
        }
        Way::Empty => list.clear(),
        Way::Built => {}
    }
    let (first, last) = some_numbers(random, list.len(), at + 1);
    Step::Index {
        call: IndexCall::Read { first, last },
        places: list,
        body,
    }
}

fn some_way(random: &mut Random) -> Way {
    random.weighted(&[
        (6, Way::Built),
        (2, Way::More),
        (6, Way::Changed),
        (5, Way::Cut),
        (8, Way::Length),
        (5, Way::Foreign),
        (1, Way::Any),
        (1, Way::Empty),
    ])
}

/// A place for which the body was not made: at its end, in it, inside a record, or far behind it.
fn some_place(random: &mut Random, body: &[u8], records: &[Range<usize>]) -> u32 {
    let end = body.len();
    let inside = match records.len() {
        0 => 0,
        count => {
            let record = &records[random.below(count)];
            random.between(record.start - 1, record.end)
        }
    };
    match random.below(8) {
        0 => u32::MAX - random.below(4) as u32,
        1 => end as u32,
        2 => end.saturating_sub(1) as u32,
        3 => end.saturating_sub(2) as u32,
        4 => random.below(end + 4) as u32,
        5 => random.draw() as u32,
        _ => inside as u32,
    }
}

/// Ends the body where a record's length begins, amid it or behind it; or where its bytes end, or
/// one byte before.
fn cut(random: &mut Random, body: &mut Vec<u8>, record: Option<&Range<usize>>) {
    if let Some(&Range { start, end }) = record {
        let length = random.pick(&[start - 2, start - 1, start, end - 1, end]);
        body.truncate(length);
    }
}

/// Sets a record's length: to 0, to what is left of the body or almost, to one more, or to more.
fn change_length(random: &mut Random, body: &mut [u8], record: Option<&Range<usize>>) {
    if let Some(&Range { start, .. }) = record {
        let left = body.len() - start;
        let almost = left.saturating_sub(1);
        let length = random.pick(&[0, almost, left, left, left + 1, left + 1, 0xFFFF]);
        let length = length.min(0xFFFF);
        body[start - 2..start].copy_from_slice(&(length as u16).to_le_bytes());
    }
}

/// The first number to read and the last, in a list of so many entries: mostly one that is meant
/// for it, or all; else 0, one too large, the largest, one that is right but for 2^32.
fn some_numbers(random: &mut Random, entries: usize, meant: usize) -> (usize, usize) {
    match random.below(20) {
        0 => (0, 1),
        1 => (entries, entries + 1),
        2 => (usize::MAX, usize::MAX),
        3 => {
            let large = meant.wrapping_add(1 << 32);
            (large, large)
        }
        4 => {
            let above = entries + random.between(2, 300);
            (above, above)
        }
        5..=8 if entries <= 12 => (0, entries + 1),
        _ => (meant, meant),
    }
}
