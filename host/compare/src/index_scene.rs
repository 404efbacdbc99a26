//! Calls of an index that every run begins with: bodies of each kind, each refusal alone, and
//! lists that were not built from the body.

use crate::hex::{fnv_of_places, hex};
use crate::make::{self, Rule, RULES};
use crate::step::{IndexCall, Step};
use std::ops::RangeInclusive;

/// A step and what comes of it: how many places the list holds, or `refusal 6`, and then a hash
/// of all its entries; of each number that is read the record, or `refusal 6`, with a comma
/// between them.
type Line = (Step, String);

pub fn lines() -> Vec<Line> {
    // EntryRecords, VisaRecords and biometrics certificates, which have different limits.
    let of_rules = |lines: fn(&Rule) -> Vec<Line>| [0, 3, 5].map(|at| lines(&RULES[at])).concat();
    [
        RULES.iter().flat_map(every_kind).collect(),
        other_kinds(),
        of_rules(damaged_bodies),
        of_rules(bodies_at_the_border),
        of_rules(short_lists),
        of_rules(wrong_n),
        full_bodies(),
        numbers(),
        ends_of_the_body(),
        foreign_lists(),
    ]
    .concat()
}

/// Entries to be written over, or to stay. No body is so long that one could be a place.
fn made_up(entries: usize) -> Vec<u32> {
    (0..entries).map(|at| 0xEE00_0000 + at as u32).collect()
}

fn line(call: IndexCall, places: Vec<u32>, body: &[u8], outcome: String) -> Line {
    let body = body.to_vec();
    (Step::Index { call, places, body }, outcome)
}

/// Building in a list of so many entries: the first are then these places.
pub fn built(kind: u16, body: &[u8], entries: usize, places: &[u32]) -> Line {
    let (list, count) = (made_up(entries), places.len());
    let after = [places, &list[count..]].concat();
    let outcome = format!("{count} places, list {}", fnv_of_places(&after));
    line(IndexCall::Build { kind }, list, body, outcome)
}

fn not_built(kind: u16, body: &[u8], entries: usize) -> Line {
    let list = made_up(entries);
    let outcome = format!("refusal 6, list {}", fnv_of_places(&list));
    line(IndexCall::Build { kind }, list, body, outcome)
}

/// Extending a list of so many entries: the n-th, from 0, is then this place.
pub fn extended(kind: u16, body: &[u8], entries: usize, n: usize, place: u32) -> Line {
    let list = made_up(entries);
    let mut after = list.clone();
    after[n] = place;
    let outcome = format!("{} places, list {}", n + 1, fnv_of_places(&after));
    line(IndexCall::Extend { kind, n }, list, body, outcome)
}

pub fn not_extended(kind: u16, body: &[u8], entries: usize, n: usize) -> Line {
    let list = made_up(entries);
    let outcome = format!("refusal 6, list {}", fnv_of_places(&list));
    line(IndexCall::Extend { kind, n }, list, body, outcome)
}

/// Reading of these numbers: a record each, or a refusal where there is none.
pub fn read(
    body: &[u8],
    places: &[u32],
    numbers: RangeInclusive<usize>,
    records: &[Option<&[u8]>],
) -> Line {
    let call = IndexCall::Read {
        first: *numbers.start(),
        last: *numbers.end(),
    };
    let outcome = |record: &Option<&[u8]>| record.map_or("refusal 6".to_string(), hex);
    let outcomes: Vec<String> = records.iter().map(outcome).collect();
    line(call, places.to_vec(), body, outcomes.join(", "))
}

/// Reading by one place alone.
fn read_at(body: &[u8], place: u32, record: Option<&[u8]>) -> Line {
    read(body, &[place], 1..=1, &[record])
}

/// A body of records of one length.
fn alike(count: usize, length: usize) -> Vec<u8> {
    make::records(&vec![vec![7; length]; count])
}

/// Three records, and free bytes behind them that look like one more; and the records' places.
const THREE: [u8; 17] = [
    3, 0, 1, 0, 0xA1, 3, 0, 0xA2, 0xA2, 0xA2, 2, 0, 0xA3, 0xA3, 1, 0, 0xEE,
];
const PLACES: [u32; 3] = [2, 5, 10];

fn every_kind(rule: &Rule) -> Vec<Line> {
    let kind = rule.kind;
    vec![
        built(kind, &THREE, 3, &PLACES),
        built(kind, &THREE, 6, &PLACES),
        built(kind, &[0, 0], 0, &[]),
        built(kind, &[0, 0, 1, 0, 0xEE], 2, &[]),
        extended(kind, &THREE, 3, 2, 10),
        extended(kind, &THREE, 6, 2, 10),
        extended(kind, &alike(1, 1), 1, 0, 2),
    ]
}

fn other_kinds() -> Vec<Line> {
    let unknown = [0x0000, 0x0103, 0x0400, 0x0441, 0x1A01, 0xFFFF];
    let biometrics = [0x0401, 0x0405, 0x0440];
    let of_kind = |kind| [not_built(kind, &THREE, 4), not_extended(kind, &THREE, 4, 2)];
    unknown
        .into_iter()
        .chain(biometrics)
        .flat_map(of_kind)
        .collect()
}

/// Each way to be damaged. The list has room, and n is one below the count.
fn damaged_bodies(rule: &Rule) -> Vec<Line> {
    let torn = THREE.len() - 4;
    let bodies: [(usize, &[u8]); 9] = [
        // No count, half of one; one of a record that is not there.
        (1, &[]),
        (1, &[0]),
        (1, &[1, 0]),
        // Half a length, a length of 0, a record that leaves the body by one byte.
        (1, &[1, 0, 1]),
        (1, &[1, 0, 0, 0]),
        (3, &THREE[..torn]),
        // One record too many, one byte too many, a length of 0 before another record.
        (rule.most + 1, &alike(rule.most + 1, 1)),
        (1, &alike(1, rule.longest + 1)),
        (2, &[&[2, 0, 0, 0], &THREE[2..5]].concat()),
    ];
    let of_body = |(count, body): (usize, &[u8])| {
        [
            not_built(rule.kind, body, count),
            not_extended(rule.kind, body, count + 1, count - 1),
        ]
    };
    bodies.into_iter().flat_map(of_body).collect()
}

/// What is just not damaged.
fn bodies_at_the_border(rule: &Rule) -> Vec<Line> {
    let longest = alike(1, rule.longest);
    vec![
        built(rule.kind, &longest, 1, &[2]),
        extended(rule.kind, &longest, 1, 0, 2),
        built(rule.kind, &THREE[..14], 3, &PLACES),
    ]
}

/// One entry too few, and fewer.
fn short_lists(rule: &Rule) -> Vec<Line> {
    let of_entries = |entries| {
        [
            not_built(rule.kind, &THREE, entries),
            not_extended(rule.kind, &THREE, entries, 2),
        ]
    };
    [0, 1, 2].into_iter().flat_map(of_entries).collect()
}

/// The count is 3, and then 0.
fn wrong_n(rule: &Rule) -> Vec<Line> {
    let large = 1 << 32;
    let of_three = [1, 3, 0, 4, usize::MAX, large + 2];
    let of_none = [0, usize::MAX, large - 1];
    let three = of_three.map(|n| not_extended(rule.kind, &THREE, 6, n));
    let none = of_none.map(|n| not_extended(rule.kind, &[0, 0], 2, n));
    [&three[..], &none].concat()
}

fn full_bodies() -> Vec<Line> {
    let (full, kind) = (alike(254, 1), 0x0203);
    let places: Vec<u32> = (0..254).map(|before| 2 + 3 * before).collect();
    let (last, no_more) = (Some(&[7][..]), None);
    vec![
        built(kind, &full, 254, &places),
        built(kind, &full, 258, &places),
        not_built(kind, &full, 253),
        extended(kind, &full, 254, 253, 761),
        not_extended(kind, &full, 256, 254),
        read(&full, &places, 253..=255, &[last, last, no_more]),
        built(0x031A, &alike(64, 1), 64, &places[..64]),
    ]
}

fn numbers() -> Vec<Line> {
    let records = [&THREE[4..5], &THREE[7..10], &THREE[12..14]].map(Some);
    let all = [&[None][..], &records, &[None]].concat();
    let more = [&PLACES[..], &[14]].concat();
    let large = 1 << 32;
    vec![
        read(&THREE, &PLACES, 0..=4, &all),
        read(&THREE, &PLACES[..1], 0..=2, &[None, records[0], None]),
        read(&THREE, &more, 3..=5, &[records[2], Some(&[0xEE]), None]),
        read(&THREE, &PLACES, usize::MAX..=usize::MAX, &[None]),
        read(&THREE, &PLACES, large..=large + 1, &[None; 2]),
        read(&THREE, &PLACES, 253..=256, &[None; 4]),
        read(&THREE, &[], 0..=1, &[None; 2]),
        read(&THREE, &[], usize::MAX..=usize::MAX, &[None]),
        read(&[], &[], 0..=1, &[None; 2]),
        read(&[], &PLACES, large + 3..=large + 3, &[None]),
        read(&[], &[0], usize::MAX..=usize::MAX, &[None]),
        read(&[], &[0], large + 1..=large + 1, &[None]),
    ]
}

/// A body that ends amid the second record, and places at a body's end.
fn ends_of_the_body() -> Vec<Line> {
    let (first, second) = (Some(&THREE[4..5]), Some(&THREE[7..10]));
    let of_length =
        |length: usize, second| read(&THREE[..length], &PLACES, 1..=3, &[first, second, None]);
    let at_the_end = [15, 16, 17, 18];
    let mut lines = vec![
        of_length(10, second),
        of_length(9, None),
        of_length(8, None),
        of_length(7, None),
        of_length(6, None),
        of_length(5, None),
        // The length at 15 is 256 * 0xEE.
        read(&THREE, &at_the_end, 1..=4, &[None; 4]),
        read(
            &[0, 0],
            &[0, 1, 2, 3],
            1..=4,
            &[Some(&[]), None, None, None],
        ),
        read_at(&[], 0, None),
        read_at(&[0], 0, None),
        read_at(&[1, 0], 0, None),
        read_at(&[1, 0, 7], 0, Some(&[7])),
    ];
    let far: Vec<u32> = (u32::MAX - 3..=u32::MAX).collect();
    for body in [&THREE[..], &[], &[0, 0, 0, 0]] {
        lines.push(read(body, &far, 1..=4, &[None; 4]));
    }
    lines
}

/// Lists that were not built from the body.
fn foreign_lists() -> Vec<Line> {
    let record = |places| Some(&THREE[places]);
    let nothing = Some(&[][..]);
    // Lengths above that of any record of a file.
    let long = [&[0xA2, 0x03][..], &[7; 930]].concat();
    let longer = [&[0, 0, 0, 4][..], &[7; 1_024]].concat();
    vec![
        // One entry is that of the next record, is inside a record, or is far behind.
        read(
            &THREE,
            &[2, 10, 10],
            1..=3,
            &[record(4..5), record(12..14), record(12..14)],
        ),
        read(
            &THREE,
            &[2, 7, 10],
            1..=3,
            &[record(4..5), None, record(12..14)],
        ),
        read(
            &THREE,
            &[2, 0xEE00_0000, 10],
            1..=3,
            &[record(4..5), None, record(12..14)],
        ),
        read(&THREE, &[5, 5, 10], 1..=2, &[record(7..10), record(7..10)]),
        read(&THREE, &[2, 5, 12], 2..=3, &[record(7..10), None]),
        read(&[1, 0, 3, 0, 1, 0, 9], &[4], 1..=1, &[Some(&[9])]),
        // The count taken for a length.
        read_at(&THREE, 0, record(2..5)),
        read_at(&[0, 0, 0], 0, nothing),
        read_at(&[0xFF, 0, 0], 1, nothing),
        read_at(&[1, 0, 0, 0], 2, nothing),
        // Bodies that are not well formed.
        read_at(&[0xFF, 0xFF, 1, 0, 7], 2, Some(&[7])),
        read_at(&long, 0, Some(&[7; 930])),
        read_at(&long[..931], 0, None),
        read_at(&longer, 2, Some(&[7; 1_024])),
        read_at(&longer[..1_027], 2, None),
        read(
            &longer,
            &[0, 2, 1],
            1..=3,
            &[nothing, Some(&[7; 1_024]), nothing],
        ),
        read_at(&[&longer[..], &[9]].concat(), 2, Some(&[7; 1_024])),
    ]
}
