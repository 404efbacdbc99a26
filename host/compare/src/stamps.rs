//! Made-up records to read as stamps: stamps, stamps with one fault or two, and other bytes.

use crate::card::Size;
use crate::random::Random;
use crate::stamp::{Draft, Object, Values, FIELDS, NUMBERS, PLACES, SIGNED_TAG, STATE, STATE_COPY};
use crate::stamp_faults;
use crate::step::Step;
use std::array::from_fn;

/// The most entries that a made-up list has.
const LONGEST_LIST: usize = 512;

/// What a record is made to be.
#[derive(Clone, Copy)]
enum Form {
    Stamp,
    /// A stamp with one thing wrong.
    Single,
    /// With two, at any places.
    Double,
    /// With some bytes changed, dropped or added.
    Spoiled,
    /// It ends somewhere.
    Cut,
    /// The objects of a stamp, some of them, in any order.
    Shuffled,
    Bytes,
}

/// How long the values of a stamp are.
#[derive(Clone, Copy)]
enum Sizes {
    /// Each as short as it may be.
    Shortest,
    /// Each as long.
    Longest,
    Any,
}

/// A record to read, and a list that has room for the places, mostly.
pub fn step(random: &mut Random, size: Size) -> Step {
    Step::Stamp {
        record: record(random, size),
        entries: entries(random),
    }
}

fn entries(random: &mut Random) -> usize {
    match random.below(20) {
        0 => random.below(NUMBERS),
        1 => NUMBERS - 1,
        2..=6 => NUMBERS + random.between(1, 9),
        7 => random.between(NUMBERS, LONGEST_LIST),
        _ => NUMBERS,
    }
}

fn record(random: &mut Random, size: Size) -> Vec<u8> {
    let form = random.weighted(&[
        (5, Form::Stamp),
        (9, Form::Single),
        (5, Form::Double),
        (4, Form::Spoiled),
        (2, Form::Cut),
        (1, Form::Shuffled),
        (1, Form::Bytes),
    ]);
    let mut draft = Draft::new(&values(random, size));
    match form {
        Form::Single => spoil(random, &mut draft),
        Form::Double => {
            spoil(random, &mut draft);
            spoil(random, &mut draft);
        }
        Form::Shuffled => shuffle(random, &mut draft.objects),
        Form::Stamp | Form::Spoiled | Form::Cut | Form::Bytes => {}
    }
    let mut record = draft.bytes();
    match form {
        Form::Spoiled => random.spoil(&mut record),
        Form::Cut => record.truncate(random.below(record.len())),
        Form::Bytes => {
            let length = random.below(60);
            record = random.bytes(length);
        }
        Form::Stamp | Form::Single | Form::Double | Form::Shuffled => {}
    }
    record
}

/// Some values that Table 11 allows; short ones where all is to stay small.
fn values(random: &mut Random, size: Size) -> Values {
    let all = random.one_in(6);
    let sizes = random.weighted(&[(2, Sizes::Shortest), (1, Sizes::Longest), (5, Sizes::Any)]);
    let mut values: Values = from_fn(|field| {
        let present = !FIELDS[field].optional || all || random.coin();
        present.then(|| value(random, field, sizes, size))
    });
    values[STATE] = values[STATE_COPY].clone();
    values
}

fn value(random: &mut Random, field: usize, sizes: Sizes, size: Size) -> Vec<u8> {
    let (shortest, longest) = (FIELDS[field].shortest, FIELDS[field].longest);
    let most = match size {
        Size::Small => longest.min(shortest + 4),
        Size::Any => longest,
    };
    let length = match (sizes, random.below(4)) {
        (Sizes::Shortest, _) | (Sizes::Any, 0) => shortest,
        (Sizes::Longest, _) | (Sizes::Any, 1) if size == Size::Any => longest,
        _ => random.between(shortest, most),
    };
    let bytes = FIELDS[field].set.bytes();
    // The first and the last of the bytes that it may have are more frequent.
    (0..length)
        .map(|_| match random.below(6) {
            0 => bytes[0],
            1 => bytes[bytes.len() - 1],
            _ => random.pick(&bytes),
        })
        .collect()
}

/// Does one thing wrong.
fn spoil(random: &mut Random, draft: &mut Draft) {
    // Each sort of fault is as frequent as the others, though there are more contents than tags.
    for _ in 0..20 {
        let place = random.pick(&PLACES);
        let faults = match random.below(3) {
            0 => stamp_faults::TAGS.to_vec(),
            1 => stamp_faults::LENGTHS.to_vec(),
            _ => stamp_faults::contents(place),
        };
        if faults.is_empty() {
            continue;
        }
        let fault = random.pick(&faults);
        if stamp_faults::make(draft, place, fault).is_some() {
            return;
        }
    }
}

/// Leaves some objects out and puts the others into any order, also those inside `73`.
fn shuffle(random: &mut Random, objects: &mut Vec<Object>) {
    for _ in 0..random.below(3) {
        if !objects.is_empty() {
            objects.remove(random.below(objects.len()));
        }
    }
    for _ in 0..random.below(3) {
        if !objects.is_empty() {
            let (one, other) = (random.below(objects.len()), random.below(objects.len()));
            objects.swap(one, other);
        }
    }
    let signed = objects
        .iter_mut()
        .find(|object| object.tag == [SIGNED_TAG] && !object.inside.is_empty());
    if let Some(signed) = signed {
        let mut inside = std::mem::take(&mut signed.inside);
        shuffle(random, &mut inside);
        signed.inside = inside;
    }
}
