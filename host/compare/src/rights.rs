//! Made-up rights and sessions.

use crate::make::{self, CERTIFICATE_LEN, RULES, SESSION_LEN, STANDING_LEN};
use crate::random::Random;
use crate::view::View;

/// The rights of a chain, as opening takes them; mostly all of them.
pub fn chain(random: &mut Random) -> Vec<u8> {
    let mut rights = vec![0xFF; make::RIGHTS_LEN];
    match random.below(20) {
        0 => rights.fill(0),
        1 => random.fill(&mut rights),
        2 | 3 => {
            // The same in all three, so that half of the bits stay.
            let one = random.bytes(CERTIFICATE_LEN);
            rights = one.repeat(3);
            if random.coin() {
                set_flags(&mut rights, 0xFF);
            }
        }
        4 => {
            let at = random.below(make::RIGHTS_LEN);
            rights[at] ^= 1 << random.below(8);
        }
        5 => {
            rights.fill(0);
            let (at, bit) = (random.below(CERTIFICATE_LEN), 1 << random.below(8));
            for certificate in rights.chunks_mut(CERTIFICATE_LEN) {
                certificate[at] |= bit;
            }
            set_flags(&mut rights, 0x07);
        }
        6 => rights[CERTIFICATE_LEN * random.below(3)] &= !(1 << random.below(3)),
        7 => return no_chain(random),
        8 => {
            // Biometrics files while Deactivated only, or while Activated only.
            let bits = random.pick(&[0xAA, 0x55]);
            for certificate in rights.chunks_mut(CERTIFICATE_LEN) {
                certificate[4..].fill(bits);
            }
        }
        _ => {}
    }
    rights
}

/// Rights of another length than opening takes.
pub fn no_chain(random: &mut Random) -> Vec<u8> {
    let length = random.pick(&[0, 1, 20, 40, 59, 61, 75, 120]);
    vec![0xFF; length]
}

fn set_flags(rights: &mut [u8], flags: u8) {
    for certificate in rights.chunks_mut(CERTIFICATE_LEN) {
        certificate[0] = flags;
    }
}

/// A session buffer that no opening and no command left: a byte of the given one changed, another
/// length, or all made up.
pub fn session(random: &mut Random, view: &View, given: &[u8]) -> Vec<u8> {
    let mut session = given.to_vec();
    if session.len() < SESSION_LEN {
        session.resize(SESSION_LEN, 0);
    }
    match random.below(8) {
        0 => {
            // The chain has most of the bytes, and its own makers.
            let at = match random.one_in(4) {
                true => random.below(SESSION_LEN),
                false => random.below(STANDING_LEN),
            };
            session[at] ^= 1 << random.below(8);
        }
        1 => session[20] = random.below(5) as u8,
        2 => session[24] = random.byte(),
        3 => {
            let length = match random.coin() {
                true => random.near(SESSION_LEN),
                false => random.below(41),
            };
            session.resize(length, 0xA5);
        }
        4 => {
            let length = random.pick(&[0, 24, 25, SESSION_LEN, SESSION_LEN + 1]);
            session = made_up(random, length);
        }
        _ => put_place(random, view, &mut session),
    }
    session
}

/// A buffer of so many bytes. Mostly only its first are made up, so that a sample has room for it.
pub fn made_up(random: &mut Random, length: usize) -> Vec<u8> {
    let some = match random.one_in(12) {
        true => length,
        false => length.min(40),
    };
    let mut session = random.bytes(some);
    session.resize(length, 0);
    session
}

/// A place of a file that is there, mostly, with a record that is there, mostly.
fn put_place(random: &mut Random, view: &View, session: &mut [u8]) {
    let file = &view.files[random.below(view.files.len())];
    let record = match random.below(6) {
        0 => 0,
        1 => file.records().len() as u8,
        2 => (file.records().len() as u8).wrapping_add(1),
        3 => random.byte(),
        _ => 1,
    };
    let place = random.weighted(&[(1, 0), (3, 1), (6, 2), (1, 3)]);
    let id = match random.below(8) {
        0 => RULES[random.below(RULES.len())].id,
        _ => file.id,
    };
    session[20] = file.application;
    session[21] = place;
    session[22..24].copy_from_slice(&id.to_le_bytes());
    session[24] = record;
    // What a place does not use is zero, mostly.
    if place < 2 && !random.one_in(4) {
        session[24] = 0;
    }
    if place == 0 && !random.one_in(4) {
        session[22..24].fill(0);
    }
}
