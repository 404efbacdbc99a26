//! That the comparison sees where the reading of a stamp is wrong, that each fault is told as its
//! maker says, and that the sample has each fault at each field.

use compare::card::Size;
use compare::random::Random;
use compare::sample::{self, Sample};
use compare::sides::{compare_stamp_readers, compare_stamps, Machine, StampRead, REFERENCE};
use compare::stamp::{self, Draft, Place, Set, FIELDS, NUMBERS, PLACES};
use compare::stamp_faults::{self, Reason};
use compare::stamp_scene;
use compare::stamp_sort::{self, Sort, Wrong};
use compare::stamps;
use compare::step::Step;
use reference::stamp::read_call;
use std::collections::HashSet;

const SEED: u64 = 20_000;
const REFUSED: u64 = 15 << 32;

/// What the reference reads: the result, the place of the fault and what is wrong there. For a
/// stamp and for a list that is too short there is no fault.
fn read(record: &[u8], places: &mut [u32]) -> (u64, Option<(Place, Wrong)>) {
    let result = read_call(record, places);
    match stamp_sort::sort(record, result) {
        Sort::Fault(place, wrong) => (result, Some((place, wrong))),
        Sort::Stamp | Sort::ShortList => (result, None),
    }
}

/// Where the object at fault begins.
fn offset(result: u64) -> usize {
    result as u32 as usize
}

/// A result with another reason.
fn with_reason(result: u64, reason: Reason) -> u64 {
    (reason as u64) << 32 | u64::from(result as u32)
}

/// Reads the record with other bytes in the place of these, from `at` on.
fn replaced(record: &[u8], at: usize, old: usize, new: &[u8], places: &mut [u32]) -> u64 {
    let end = (at + old).min(record.len());
    read_call(&[&record[..at], new, &record[end..]].concat(), places)
}

/// The reference's reading, each time with something wrong in what it accepts.
const ACCEPT: [StampRead; 16] = [
    // The outer State not compared.
    |record, places| match read(record, places) {
        (result, Some((_, Wrong::States))) => {
            replaced(record, offset(result) + 3, 3, &record[3..6], places)
        }
        (result, _) => result,
    },
    // States compared without regard to case.
    |record, places| match read(record, places) {
        (result, Some((_, Wrong::States))) => {
            let at = offset(result) + 3;
            if record[at..at + 3].eq_ignore_ascii_case(&record[3..6]) {
                replaced(record, at, 3, &record[3..6], places)
            } else {
                result
            }
        }
        (result, _) => result,
    },
    // Two letters of the States compared.
    |record, places| match read(record, places) {
        (result, Some((_, Wrong::States))) => {
            replaced(record, offset(result) + 5, 1, &record[5..6], places)
        }
        (result, _) => result,
    },
    // Reference 00 accepted.
    |record, places| match read(record, places) {
        (result, Some((_, Wrong::Number00))) => {
            replaced(record, offset(result) + 3, 1, &[1], places)
        }
        (result, _) => result,
    },
    // Reference FF accepted.
    |record, places| match read(record, places) {
        (result, Some((_, Wrong::NumberFF))) => {
            replaced(record, offset(result) + 3, 1, &[1], places)
        }
        (result, _) => result,
    },
    // Reference FE refused.
    |record, places| match (read_call(record, places), record) {
        (0, [before @ .., 0x5F, 0x38, 0x01, 0xFE]) => {
            with_reason(before.len() as u64, Reason::Content)
        }
        (result, _) => result,
    },
    // A byte behind accepted.
    |record, places| match read(record, places) {
        (result, Some((Place::End, _))) => read_call(&record[..offset(result)], places),
        (result, _) => result,
    },
    // A surplus inside `73` accepted, where the lengths are of one byte.
    |record, places| match read(record, places) {
        (result, Some((Place::SignedEnd, _))) if record[7] < 0x80 => {
            let at = offset(result);
            let behind = &record[8 + usize::from(record[7])..];
            let head = [&record[..7], &[at as u8 - 8]].concat();
            match read_call(&[&head, &record[8..at], behind].concat(), places) {
                0 => 0,
                _ => result,
            }
        }
        (result, _) => result,
    },
    // The form 81 accepted where it is not the shortest.
    |record, places| match read(record, places) {
        (result, Some((place, Wrong::NotShortest))) => {
            let at = offset(result) + place.tag().len();
            match record[at] {
                0x81 => replaced(record, at, 1, &[], places),
                _ => result,
            }
        }
        (result, _) => result,
    },
    // The form 82 accepted where it is not the shortest.
    |record, places| match read(record, places) {
        (result, Some((place, Wrong::NotShortest))) => {
            let at = offset(result) + place.tag().len();
            match record[at..] {
                [0x82, _, ..=0x7F, ..] => replaced(record, at, 2, &[], places),
                [0x82, ..] => replaced(record, at, 2, &[0x81], places),
                _ => result,
            }
        }
        (result, _) => result,
    },
    // An optional field of no byte accepted.
    |record, places| match read(record, places) {
        (_, Some((place, Wrong::Zero))) if place.is_optional() => 0,
        (result, _) => result,
    },
    // A value that is too long accepted.
    |record, places| match read(record, places) {
        (_, Some((_, Wrong::TooLong))) => 0,
        (result, _) => result,
    },
    // A digit accepted as the mode.
    |record, places| match read(record, places) {
        (result, Some((Place::Field(8), Wrong::Byte))) => {
            let at = offset(result) + 3;
            match record[at] {
                b'0'..=b'9' => replaced(record, at, 1, b"A", places),
                _ => result,
            }
        }
        (result, _) => result,
    },
    // A letter accepted in a date.
    |record, places| match read(record, places) {
        (result, Some((Place::Field(3), Wrong::Byte))) => {
            let at = offset(result) + 3;
            if record[at..at + 8].iter().all(u8::is_ascii_alphanumeric) {
                replaced(record, at, 8, b"00000000", places)
            } else {
                result
            }
        }
        (result, _) => result,
    },
    // The longest stamp refused.
    |record, places| match (read_call(record, places), record.len()) {
        (0, 391) => 2 << 32,
        (result, _) => result,
    },
    // A signature that is no text refused.
    |record, places| match read_call(record, places) {
        0 => {
            let [at, length] = [places[22] as usize, places[23] as usize];
            let text = |byte: &u8| Set::Text.has(*byte);
            if record[at..at + length].iter().all(text) {
                0
            } else {
                with_reason(at as u64 - 3, Reason::Content)
            }
        }
        result => result,
    },
];

/// Each time with something wrong in the fault that it tells.
const TELL: [StampRead; 14] = [
    // The inner State's fault told at the outer one.
    |record, places| match read(record, places) {
        (result, Some((_, Wrong::States))) => result >> 32 << 32,
        (result, _) => result,
    },
    // A fault behind an earlier one: what is inside `73` before the outer State.
    |record, places| match read(record, places) {
        (result, Some((Place::Field(0), Wrong::Byte))) => {
            let inner = record.get(11..14).unwrap_or(b"ABC");
            match replaced(record, 3, 3, inner, &mut [0; NUMBERS]) {
                0 => result,
                later => later,
            }
        }
        (result, _) => result,
    },
    // The reference before the signature.
    |record, places| match (read(record, places), record) {
        ((_, Some((Place::Field(11), _))), [before @ .., 0x5F, 0x38, 0x01, 0x00 | 0xFF]) => {
            with_reason(before.len() as u64, Reason::Content)
        }
        ((result, _), _) => result,
    },
    // Length before tag in one object.
    |record, places| match read(record, places) {
        (result, Some((_, Wrong::Foreign))) => match record[offset(result)..] {
            [_, _, 0x81, ..=0x7F, ..] => with_reason(result, Reason::Length),
            _ => result,
        },
        (result, _) => result,
    },
    // Content before tag in one object.
    |record, places| match read(record, places) {
        (result, Some((_, Wrong::Foreign))) => match record[offset(result)..] {
            [0x7F, _, _, 0x00, ..] => with_reason(result, Reason::Content),
            _ => result,
        },
        (result, _) => result,
    },
    // Content before length in one object.
    |record, places| match read(record, places) {
        (result, Some((_, Wrong::NotShortest))) => match record[offset(result)..] {
            [_, _, 0x81, _, 0x00, ..] => with_reason(result, Reason::Content),
            _ => result,
        },
        (result, _) => result,
    },
    // What is wrong with the signature before what is missing at the end of `73`.
    |record, places| match read(record, places) {
        (result, Some((Place::Field(1..=6), Wrong::Nothing))) => match record[offset(result)..] {
            [0x5F, 0x37, 0x81, ..=0x7F, ..] => with_reason(result, Reason::Length),
            _ => result,
        },
        (result, _) => result,
    },
    // Half a tag told as a length.
    |record, places| match read(record, places) {
        (result, Some((_, Wrong::HalfTag))) => with_reason(result, Reason::Length),
        (result, _) => result,
    },
    // A tag without its length told as a tag.
    |record, places| match read(record, places) {
        (result, Some((_, Wrong::NoLength))) => with_reason(result, Reason::Tag),
        (result, _) => result,
    },
    // Another form of the length told as a content.
    |record, places| match read(record, places) {
        (result, Some((_, Wrong::OtherForm))) => with_reason(result, Reason::Content),
        (result, _) => result,
    },
    // What is missing inside `73` told at `73`.
    |record, places| match read(record, places) {
        (result, Some((Place::Field(1..=6), Wrong::Nothing))) => {
            with_reason(6, Reason::of(result).unwrap_or(Reason::Tag))
        }
        (result, _) => result,
    },
    // The offset of the value.
    |record, places| match read(record, places) {
        (result, Some((_, Wrong::Byte))) => result + 3,
        (result, _) => result,
    },
    // An offset that counts from the first byte inside `73`.
    |record, places| match read(record, places) {
        (result, Some((Place::Field(1..=10), _))) => result.saturating_sub(8),
        (result, _) => result,
    },
    // Surplus at the end of `73` told as a length of `73`.
    |record, places| match read(record, places) {
        (_, Some((Place::SignedEnd, _))) => with_reason(6, Reason::Length),
        (result, _) => result,
    },
];

/// Each time with something wrong in the list.
const LIST: [StampRead; 9] = [
    // An absent field with the place where it would stand.
    |record, places| {
        let result = read_call(record, places);
        if result == 0 && places[4] == 0 {
            places[4] = places[2] + places[3];
        }
        result
    },
    // The offset of the object.
    |record, places| {
        let result = read_call(record, places);
        if result == 0 {
            places[0] -= 3;
        }
        result
    },
    // The length of the object.
    |record, places| {
        let result = read_call(record, places);
        if result == 0 {
            places[25] += 3;
        }
        result
    },
    // A list of 25 entries filled as far as it goes.
    |record, places| {
        let mut all = [0; NUMBERS];
        if let (0, 25) = (read_call(record, &mut all), places.len()) {
            places.copy_from_slice(&all[..25]);
        }
        read_call(record, places)
    },
    // The record tested before the list.
    |record, places| match read_call(record, &mut [0; NUMBERS]) {
        0 => read_call(record, places),
        result => result,
    },
    // Entries behind the places that become zero.
    |record, places| {
        let result = read_call(record, places);
        if result == 0 {
            places[NUMBERS..].fill(0);
        }
        result
    },
    // Places that are written before all is tested.
    |record, places| {
        let result = read_call(record, places);
        if let (1..=3, Some(entries)) = (result >> 32, places.get_mut(..2)) {
            entries.copy_from_slice(&[3, 3]);
        }
        result
    },
    // A list of 26 entries refused.
    |record, places| match places.len() {
        NUMBERS => REFUSED,
        _ => read_call(record, places),
    },
    // Refusal 15 with an offset.
    |record, places| match read_call(record, places) {
        REFUSED => REFUSED | places.len() as u64,
        result => result,
    },
];

#[test]
fn a_difference_of_a_stamp_is_seen() {
    let wrong = ACCEPT.into_iter().chain(TELL).chain(LIST);
    for (number, stamp_read) in wrong.enumerate() {
        let machine = Machine {
            stamp_read,
            ..REFERENCE
        };
        let found = compare_stamp_readers(SEED, 20_000, &machine, &REFERENCE).err();
        let found = found.unwrap_or_else(|| panic!("no difference by function {number}"));
        assert!(matches!(found.step, Step::Stamp { .. }));
        assert!(found.to_string().contains("\nREFERENCE list "));
    }
}

#[test]
fn twenty_thousand_stamps() {
    let tally = compare_stamps(SEED, 20_000).unwrap_or_else(|difference| panic!("{difference}"));
    assert_eq!(tally.calls(), 20_000);
    assert_eq!(tally.stamp.calls(), 20_000);
    for (what, count, wanted) in tally.stamp.wanted(60, 500) {
        assert!(count >= wanted, "{what}: {count} times, {wanted} wanted");
    }
}

#[test]
fn the_shortest_and_the_longest() {
    let shortest = Draft::new(&stamp::shortest(|_| false));
    assert_eq!(shortest.bytes().len(), 45);
    let longest = Draft::new(&stamp::longest());
    assert_eq!(longest.bytes().len(), 391);
}

/// Each fault that can be made is told for the reason and at the offset that its maker says. In
/// each of three stamps there is one at every place for every reason that is possible there.
#[test]
fn every_fault_is_told() {
    for values in [
        stamp::shortest(|_| false),
        stamp::shortest(|_| true),
        stamp::longest(),
    ] {
        for place in PLACES {
            for fault in stamp_faults::all(place) {
                let mut draft = Draft::new(&values);
                let Some(told) = stamp_faults::make(&mut draft, place, fault) else {
                    continue;
                };
                let result = read_call(&draft.bytes(), &mut [0; NUMBERS]);
                let expected = with_reason(told.at as u64, told.reason);
                assert_eq!(result, expected, "{fault:?} at {}", place.name());
            }
        }
    }
}

/// What is counted as wrong at a place may be wrong there.
#[test]
fn the_sorts_are_what_may_be() {
    let mut random = Random::new(SEED);
    let made_up = (0..5_000).map(|_| stamps::step(&mut random, Size::Any));
    let scene = stamp_scene::lines().into_iter().map(|(step, _)| step);
    for step in made_up.chain(scene) {
        let Step::Stamp { record, entries } = step else {
            panic!("a stamp");
        };
        let result = read_call(&record, &mut vec![0; entries]);
        match stamp_sort::sort(&record, result) {
            Sort::Stamp => assert_eq!(result, 0),
            Sort::ShortList => assert_eq!((result, entries < NUMBERS), (REFUSED, true)),
            Sort::Fault(place, wrong) => {
                assert_eq!(Some(wrong.reason()), Reason::of(result));
                let possible = stamp_sort::may_be_wrong(place, wrong.reason());
                assert!(possible, "{} at {}", wrong.name(), place.name());
            }
        }
    }
}

/// The records that the scene, and so each sample, reads with a list of 26 entries.
fn records_of_the_scene() -> HashSet<Vec<u8>> {
    let record = |(step, _)| match step {
        Step::Stamp {
            record,
            entries: NUMBERS,
        } => Some(record),
        _ => None,
    };
    stamp_scene::lines()
        .into_iter()
        .filter_map(record)
        .collect()
}

/// Each fault of a tag and of a length stands in the scene at each place where it can be made, and
/// some content at each field that has a set.
#[test]
fn the_scene_has_every_fault_at_every_place() {
    let records = records_of_the_scene();
    let is_there = |place, fault| {
        let mut draft = Draft::new(&stamp_scene::short(place));
        let told = stamp_faults::make(&mut draft, place, fault);
        told.map(|_| records.contains(&draft.bytes()))
    };
    for place in PLACES {
        for fault in stamp_faults::TAGS.into_iter().chain(stamp_faults::LENGTHS) {
            let there = is_there(place, fault).unwrap_or(true);
            assert!(there, "{fault:?} at {}", place.name());
        }
        let contents = stamp_faults::contents(place);
        let there = contents
            .iter()
            .filter(|fault| is_there(place, **fault) == Some(true));
        let wanted = match place {
            Place::Field(field) => FIELDS[field].set.others().len(),
            _ => 0,
        };
        assert!(there.count() >= wanted, "contents at {}", place.name());
    }
}

/// Each reason at each place where it is possible, and at no other.
#[test]
fn the_sample_has_every_reason_at_every_place() {
    let tally = Sample::generate(sample::SEED).tally.stamp;
    for place in PLACES {
        for reason in [Reason::Tag, Reason::Length, Reason::Content] {
            let count = tally.at(place, reason);
            let possible = stamp_sort::may_be_wrong(place, reason);
            let what = format!("{} at {}: {count} times", reason.name(), place.name());
            assert!(if possible { count >= 3 } else { count == 0 }, "{what}");
        }
    }
    assert!(tally.accepted() >= 100);
}
