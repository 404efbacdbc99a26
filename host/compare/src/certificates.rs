//! Made-up bodies of travel certificates, the card's and the desk's, good ones and damaged ones,
//! and the references to ask for.

use crate::bodies;
use crate::card::Size;
use crate::make;
use crate::random::Random;
use crate::step::Step;
use crate::view;
use std::ops::Range;

/// How the desk's body compares to the card's.
#[derive(Clone, Copy)]
enum Desk {
    Independent,
    /// The card's as it was when it had fewer records.
    Earlier,
    Equal,
    /// The card's and more.
    More,
    Damaged,
}

/// Two bodies, the card's often that of the image, and references that mean something for them.
pub fn step(random: &mut Random, image: &[u8], size: Size) -> Step {
    let rule = make::travel_certificates();
    let card = match view::body(image, rule.kind) {
        Some(body) if random.coin() => image[body].to_vec(),
        _ => bodies::body(random, rule, size),
    };
    let desk = desk(random, &card, size);
    let (first, last) = references(random, &card, &desk);
    Step::Certificates {
        card,
        desk,
        first,
        last,
    }
}

/// Where the certificates lie in a body.
fn places(body: &[u8]) -> Vec<Range<usize>> {
    view::records(make::travel_certificates(), body)
}

fn desk(random: &mut Random, card: &[u8], size: Size) -> Vec<u8> {
    let rule = make::travel_certificates();
    let how = random.weighted(&[
        (6, Desk::Independent),
        (4, Desk::Earlier),
        (2, Desk::Equal),
        (5, Desk::More),
        (3, Desk::Damaged),
    ]);
    let mut records: Vec<Vec<u8>> = places(card)
        .into_iter()
        .map(|place| card[place].to_vec())
        .collect();
    match how {
        Desk::Independent => return bodies::body(random, rule, size),
        Desk::Equal => return card.to_vec(),
        Desk::Damaged => {
            let mut copy = card.to_vec();
            bodies::damage(random, rule, &mut copy);
            return copy;
        }
        Desk::Earlier => records.truncate(random.below(records.len() + 1)),
        Desk::More => records.extend(bodies::few(random, rule, size)),
    }
    let mut body = make::records(&records);
    body.extend(bodies::free(random));
    body
}

/// The first reference to ask for, and the last: often those around the number of records.
fn references(random: &mut Random, card: &[u8], desk: &[u8]) -> (u8, u8) {
    let counts = [card, desk].map(|body| places(body).len());
    let around = random.pick(&counts);
    let inside = random.between(1, counts[0].max(counts[1]).max(1)) as u8;
    let any = random.byte();
    match random.below(100) {
        0 => (0x00, 0xFF),
        1..=6 => (0x00, 0x01),
        7..=12 => (0xFE, 0xFF),
        13..=24 => (any, any),
        25..=54 => (inside, inside),
        _ => (around.saturating_sub(1) as u8, around as u8 + 1),
    }
}
