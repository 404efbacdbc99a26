//! Made-up bodies of record files, good ones and damaged ones.

use crate::card::Size;
use crate::make::{self, Rule, LONGEST_IMAGE};
use crate::random::Random;
use crate::view;

/// What a body is made to be. Free bytes or damage may make it another.
#[derive(Clone, Copy)]
enum Form {
    Empty,
    /// Too short for a count.
    Short,
    Few,
    /// As many records as a body may have.
    Full,
    /// One record more.
    Overfull,
    /// With a record of the greatest length.
    Longest,
    /// With a record of one byte more.
    TooLong,
    /// With a record of no byte.
    NoByte,
    /// The last record leaves the body by one byte.
    Torn,
    /// The count is one too large.
    Count,
}

/// A body of a file of this rule.
pub fn body(random: &mut Random, rule: &'static Rule, size: Size) -> Vec<u8> {
    let form = some_form(random, size);
    of_form(random, rule, size, form)
}

/// A body that is not well formed, but where further damage mends it.
pub fn wrong(random: &mut Random, rule: &'static Rule, size: Size) -> Vec<u8> {
    let form = random.pick(&[
        Form::Short,
        Form::Overfull,
        Form::TooLong,
        Form::NoByte,
        Form::Torn,
    ]);
    of_form(random, rule, size, form)
}

fn of_form(random: &mut Random, rule: &'static Rule, size: Size, form: Form) -> Vec<u8> {
    let mut body = make::records(&records(random, rule, form, size));
    match form {
        Form::Short => body.truncate(random.below(2)),
        Form::Torn => drop(body.pop()),
        Form::Count => body[0] += 1,
        _ => {}
    }
    if !matches!(form, Form::Short | Form::Torn) {
        body.extend(free(random));
    }
    if random.one_in(10) {
        damage(random, rule, &mut body);
    }
    if size == Size::Any && random.one_in(60) {
        // Longer than any image.
        body.resize(LONGEST_IMAGE + random.between(1, 2_000), 0x11);
    }
    body
}

/// Long bodies are rare where all is to stay small.
fn some_form(random: &mut Random, size: Size) -> Form {
    let long = match size {
        Size::Small => 1,
        Size::Any => 3,
    };
    random.weighted(&[
        (6, Form::Empty),
        (2, Form::Short),
        (18, Form::Few),
        (3 * long, Form::Full),
        (long, Form::Overfull),
        (long, Form::Longest),
        (long, Form::TooLong),
        (2, Form::NoByte),
        (3, Form::Torn),
        (2, Form::Count),
    ])
}

fn records(random: &mut Random, rule: &Rule, form: Form, size: Size) -> Vec<Vec<u8>> {
    let strange = match form {
        Form::Empty | Form::Short => return vec![],
        Form::Full => return many(random, rule, rule.most, size),
        Form::Overfull => return many(random, rule, rule.most + 1, size),
        Form::Few | Form::Torn | Form::Count => return few(random, rule, size),
        Form::NoByte => 0,
        Form::Longest => rule.longest,
        Form::TooLong => rule.longest + 1,
    };
    let mut records = few(random, rule, size);
    let at = random.below(records.len() + 1);
    records.insert(at, random.bytes(strange));
    records
}

/// One to nine records.
pub fn few(random: &mut Random, rule: &Rule, size: Size) -> Vec<Vec<u8>> {
    let longest = match size {
        Size::Small => 8,
        Size::Any => random.pick(&[1, 8, 40, 400]),
    };
    let count = random.between(1, 9);
    some(random, count, longest.min(rule.longest))
}

/// So many records, now and then as long as they may be.
fn many(random: &mut Random, rule: &Rule, count: usize, size: Size) -> Vec<Vec<u8>> {
    if size == Size::Any && random.one_in(12) {
        return (0..count).map(|_| random.bytes(rule.longest)).collect();
    }
    some(random, count, 2)
}

fn some(random: &mut Random, count: usize, longest: usize) -> Vec<Vec<u8>> {
    (0..count)
        .map(|_| {
            let length = random.between(1, longest);
            random.bytes(length)
        })
        .collect()
}

/// Free bytes behind the last record: none, any, or such that look like one record more.
pub fn free(random: &mut Random) -> Vec<u8> {
    let length = random.between(1, 9);
    match random.below(4) {
        0 => random.bytes(length),
        // A body of one record, without its count.
        1 => make::records(&[random.bytes(length)]).split_off(2),
        _ => vec![],
    }
}

/// Another byte in the count, in a record's length or anywhere.
pub fn damage(random: &mut Random, rule: &'static Rule, body: &mut [u8]) {
    let places = view::records(rule, body);
    let at = match random.below(4) {
        0 => random.below(2),
        1 | 2 if !places.is_empty() => {
            let record = &places[random.below(places.len())];
            record.start - 2 + random.below(2)
        }
        _ => random.below(body.len() + 1),
    };
    if let Some(byte) = body.get_mut(at) {
        let any = random.byte();
        *byte = random.pick(&[0, 0xFF, any, *byte ^ 1, byte.wrapping_add(1)]);
    }
}
