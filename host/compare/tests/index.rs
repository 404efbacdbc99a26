//! That the comparison sees where an index is wrong, and that its calls are of the sorts that they
//! are counted as.

use compare::card::Size;
use compare::index;
use compare::index_scene;
use compare::make;
use compare::random::Random;
use compare::sides::{
    compare_machines, Difference, IndexBuild, IndexExtend, IndexRead, Machine, REFERENCE,
};
use compare::sort;
use compare::step::{IndexCall, Step};
use compare::view;

const SEED: u64 = 20_000;
const REFUSED: u64 = 6 << 32;

/// How many places a list holds by this result; none where it is a refusal.
fn held(result: u64) -> usize {
    if result >> 32 == 0 {
        result as usize
    } else {
        0
    }
}

fn length_at(body: &[u8], place: u32) -> Option<usize> {
    let bytes = body.get(place as usize..)?.first_chunk()?;
    Some(usize::from(u16::from_le_bytes(*bytes)))
}

/// Where the length behind this record stands.
fn next(body: &[u8], place: u32) -> u32 {
    let length = length_at(body, place).unwrap_or(0);
    place.wrapping_add(2 + length as u32)
}

/// The places of the records that can be seen, also in a damaged body.
fn seen(body: &[u8]) -> Vec<u32> {
    index::places(make::travel_certificates(), body)
}

/// The place that a list has for a number.
fn listed(places: &[u32], number: usize) -> Option<u32> {
    places.get(number.checked_sub(1)?).copied()
}

/// A place one record on.
const ONE_ON: IndexBuild = |kind, body, places| {
    let result = reference::index_build(kind, body, places);
    for place in &mut places[..held(result)] {
        *place = next(body, *place);
    }
    result
};

/// The place of the record before.
const ONE_BACK: IndexExtend = |kind, body, places, n| {
    let result = reference::index_extend(kind, body, places, n);
    if result >> 32 == 0 {
        places[n] = seen(body)[n.saturating_sub(1)];
    }
    result
};

/// The last of the list refused.
const NOT_THE_LAST: IndexRead = |body, places, number| match places.len() {
    entries if number == entries => REFUSED,
    _ => reference::index_read(body, places, number),
};

/// The reference's building, each time with something wrong.
const WRONG_BUILDS: [IndexBuild; 12] = [
    ONE_ON,
    // The place of the record's first byte.
    |kind, body, places| {
        let result = reference::index_build(kind, body, places);
        for place in &mut places[..held(result)] {
            *place += 2;
        }
        result
    },
    // A place of 16 bits.
    |kind, body, places| {
        let result = reference::index_build(kind, body, places);
        for place in &mut places[..held(result)] {
            *place &= 0xFFFF;
        }
        result
    },
    // Entries that are written before all is tested.
    |kind, body, places| {
        for (entry, place) in places.iter_mut().zip(seen(body)) {
            *entry = place;
        }
        reference::index_build(kind, body, places)
    },
    // Entries behind those written that become zero.
    |kind, body, places| {
        let result = reference::index_build(kind, body, places);
        if result >> 32 == 0 {
            places[held(result)..].fill(0);
        }
        result
    },
    // The last entry left out.
    |kind, body, places| {
        let last = view::count(body).saturating_sub(1);
        let before = places.get(last).copied();
        let result = reference::index_build(kind, body, places);
        if let Some(entry) = before {
            places[last] = entry;
        }
        result
    },
    // A list that is too short, filled as far as it goes.
    |kind, body, places| {
        let mut all = [0; 254];
        let result = reference::index_build(kind, body, &mut all);
        for (entry, place) in places.iter_mut().zip(&all[..held(result)]) {
            *entry = *place;
        }
        result
    },
    // A kind of biometrics taken for one of records.
    |kind, body, places| match kind {
        0x0401..=0x0440 => reference::index_build(0x011A, body, places),
        _ => reference::index_build(kind, body, places),
    },
    // The longest record of another file.
    |kind, body, places| match kind {
        0x0203 => reference::index_build(0x011A, body, places),
        _ => reference::index_build(kind, body, places),
    },
    // The most records of another file.
    |kind, body, places| match kind {
        0x031A => reference::index_build(0x021A, body, places),
        _ => reference::index_build(kind, body, places),
    },
    // A torn body that ends before the tear.
    |kind, body, places| {
        let mut whole = body.to_vec();
        if let Some(count) = whole.first_chunk_mut() {
            *count = (seen(body).len() as u16).to_le_bytes();
        }
        reference::index_build(kind, &whole, places)
    },
    // The count where the call is refused.
    |kind, body, places| match reference::index_build(kind, body, places) {
        REFUSED => REFUSED | view::count(body) as u64,
        result => result,
    },
];

/// The reference's extending, each time with something wrong.
const WRONG_EXTENDS: [IndexExtend; 11] = [
    // The entry behind the one that is meant.
    |kind, body, places, n| {
        let mut list = places.to_vec();
        let result = reference::index_extend(kind, body, &mut list, n);
        if let (0, Some(entry)) = (result >> 32, places.get_mut(n.wrapping_add(1))) {
            *entry = list[n];
        }
        result
    },
    // n ignored.
    |kind, body, places, _| {
        let n = view::count(body).wrapping_sub(1);
        reference::index_extend(kind, body, places, n)
    },
    // Earlier entries that are written again.
    |kind, body, places, n| {
        let result = reference::index_extend(kind, body, places, n);
        if result >> 32 == 0 {
            reference::index_build(kind, body, places);
        }
        result
    },
    // Entries behind the one written that become zero.
    |kind, body, places, n| {
        let result = reference::index_extend(kind, body, places, n);
        if result >> 32 == 0 {
            places[n + 1..].fill(0);
        }
        result
    },
    // A place by the entry before.
    |kind, body, places, n| {
        let result = reference::index_extend(kind, body, places, n);
        if let (0, Some(before)) = (result >> 32, listed(places, n)) {
            places[n] = next(body, before);
        }
        result
    },
    ONE_BACK,
    // Any n below the count.
    |kind, body, places, n| {
        let mut all = [0; 254];
        let count = held(reference::index_build(kind, body, &mut all));
        match places.get_mut(n) {
            Some(entry) if n < count => {
                *entry = all[n];
                n as u64 + 1
            }
            _ => REFUSED,
        }
    },
    // n of 32 bits.
    |kind, body, places, n| reference::index_extend(kind, body, places, n as u32 as usize),
    // An n that goes on from the largest number to 0, the count.
    |kind, body, places, n| match n.wrapping_add(1) {
        0 if body.starts_with(&[0, 0]) => 0,
        _ => reference::index_extend(kind, body, places, n),
    },
    // An entry that is written where the call is refused.
    |kind, body, places, n| {
        let result = reference::index_extend(kind, body, places, n);
        if let (1.., Some(entry)) = (result >> 32, places.get_mut(n)) {
            *entry = 0;
        }
        result
    },
    // The places before it.
    |kind, body, places, n| match reference::index_extend(kind, body, places, n) {
        REFUSED => REFUSED,
        result => result - 1,
    },
];

/// The reference's reading, each time with something wrong.
const WRONG_READS: [IndexRead; 13] = [
    // The list trusted: bytes that leave the body.
    |body, places, number| {
        let place = listed(places, number);
        let length = place.and_then(|place| length_at(body, place));
        length.map_or(REFUSED, |length| length as u64)
    },
    // Bytes that leave the body by one.
    |body, places, number| {
        let longer = [body, &[0]].concat();
        match listed(places, number).and_then(|place| length_at(body, place)) {
            Some(_) => reference::index_read(&longer, places, number),
            None => REFUSED,
        }
    },
    // A record at the body's end refused.
    |body, places, number| {
        let end = body.len().saturating_sub(1);
        reference::index_read(&body[..end], places, number)
    },
    // A length of 0 refused.
    |body, places, number| match reference::index_read(body, places, number) {
        0 => REFUSED,
        result => result,
    },
    // A length above the longest record refused.
    |body, places, number| match reference::index_read(body, places, number) {
        930.. => REFUSED,
        result => result,
    },
    // A body that is not well formed refused.
    |body, places, number| match reference::index_build(0x011A, body, &mut [0; 254]) {
        REFUSED => REFUSED,
        _ => reference::index_read(body, places, number),
    },
    // Numbers from 0.
    |body, places, number| reference::index_read(body, places, number.wrapping_add(1)),
    // Number 0 taken for 1.
    |body, places, number| reference::index_read(body, places, number.max(1)),
    // A number of 32 bits.
    |body, places, number| reference::index_read(body, places, number as u32 as usize),
    NOT_THE_LAST,
    // A place of 16 bits.
    |body, places, number| {
        let low: Vec<u32> = places.iter().map(|place| place & 0xFFFF).collect();
        reference::index_read(body, &low, number)
    },
    // A place that goes on from 2^32 to the body's start.
    |body, places, number| match listed(places, number) {
        Some(place) if place > u32::MAX - 2 => 0,
        _ => reference::index_read(body, places, number),
    },
    // A length of 8 bits.
    |body, places, number| reference::index_read(body, places, number) & !0xFF00,
];

/// The difference that the comparison finds between a wrong machine and the reference.
fn difference(wrong: &Machine) -> Box<Difference> {
    let found = compare_machines(SEED, 20_000, wrong, &REFERENCE).err();
    let found = found.expect("a difference");
    assert!(found.to_string().contains("\nREFERENCE list "));
    found
}

/// The call at which the difference is found.
fn call(found: &Difference) -> IndexCall {
    match found.step {
        Step::Index { call, .. } => call,
        _ => panic!("{found}"),
    }
}

#[test]
fn a_difference_of_building_is_seen() {
    for index_build in WRONG_BUILDS {
        let found = difference(&Machine {
            index_build,
            ..REFERENCE
        });
        assert!(matches!(call(&found), IndexCall::Build { .. }));
    }
}

#[test]
fn a_difference_of_extending_is_seen() {
    for index_extend in WRONG_EXTENDS {
        let found = difference(&Machine {
            index_extend,
            ..REFERENCE
        });
        assert!(matches!(call(&found), IndexCall::Extend { .. }));
    }
}

#[test]
fn a_difference_of_reading_is_seen() {
    for index_read in WRONG_READS {
        let found = difference(&Machine {
            index_read,
            ..REFERENCE
        });
        assert!(matches!(call(&found), IndexCall::Read { .. }));
        assert!(found.to_string().contains("\nREFERENCE number "));
    }
}

/// Where both sides are wrong in the same way, READ RECORD tells: an index that was built or
/// extended wrongly, or that reads the wrong record, does not read what READ RECORD does.
#[test]
fn an_index_that_reads_otherwise_is_seen() {
    let wrong = [
        Machine {
            index_build: ONE_ON,
            ..REFERENCE
        },
        Machine {
            index_extend: ONE_BACK,
            ..REFERENCE
        },
        Machine {
            index_read: NOT_THE_LAST,
            ..REFERENCE
        },
    ];
    for machine in wrong {
        let found = compare_machines(SEED, 20_000, &machine, &machine).err();
        let found = found.expect("a difference");
        let Step::Command { record, .. } = &found.step else {
            panic!("{found}");
        };
        assert!(record.is_some());
        assert!(found.to_string().contains(" by an index\n"));
    }
}

/// A call is of a sort that is done exactly where the reference does it.
#[test]
fn the_sorts_are_what_the_reference_does() {
    let mut random = Random::new(SEED);
    let made_up = (0..5_000).map(|_| index::step(&mut random, &[], Size::Any));
    let scene = index_scene::lines().into_iter().map(|(step, _)| step);
    for step in made_up.chain(scene) {
        let Step::Index { call, places, body } = step else {
            panic!("a call of an index");
        };
        let mut list = places.clone();
        let results = match call {
            IndexCall::Build { kind } => vec![reference::index_build(kind, &body, &mut list)],
            IndexCall::Extend { kind, n } => {
                vec![reference::index_extend(kind, &body, &mut list, n)]
            }
            IndexCall::Read { first, last } => (first..=last)
                .map(|number| reference::index_read(&body, &list, number))
                .collect(),
        };
        for (at, result) in results.into_iter().enumerate() {
            let (_, sort) = sort::sort(call, &places, &body, at);
            assert_eq!(sort.is_done(), result >> 32 == 0, "{}", sort.name());
        }
    }
}
