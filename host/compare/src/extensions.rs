//! Made-up runs of extensions to read rights from: well-formed ones, ones with one fault or two,
//! and other bytes.

use crate::card::Size;
use crate::extension::{self, Extension, Runs, KNOWN, ORDERS, RUNS};
use crate::extension_faults::{self, Fault};
use crate::make::RIGHTS_LEN;
use crate::random::Random;
use crate::stamp::{bytes_of, Object};
use crate::step::Step;

/// The most bytes that a made-up buffer has.
const LONGEST_BUFFER: usize = 300;

/// What the runs are made to be.
#[derive(Clone, Copy)]
enum Form {
    Good,
    /// One thing is wrong.
    Single,
    /// Two, anywhere.
    Double,
    /// A known one for the second time, in which something else may be wrong.
    Second,
    /// Some bytes of one run are changed, dropped or added.
    Spoiled,
    /// One run ends somewhere.
    Cut,
    /// One run has any bytes.
    Bytes,
}

/// Runs to read, and a buffer that has room for the rights, mostly.
pub fn step(random: &mut Random, size: Size) -> Step {
    Step::Rights {
        runs: runs(random, size),
        room: room(random),
    }
}

/// Runs that give rights to open a session with, mostly all of them.
pub fn chain(random: &mut Random, size: Size) -> Step {
    let runs = std::array::from_fn(|_| {
        let order = match random.below(8) {
            0 => random.pick(&ORDERS),
            _ => random.pick(&ORDERS[10..]),
        };
        let mut run: Vec<Extension> = order.iter().map(|k| Extension::known(*k, 0)).collect();
        let all = !random.one_in(6);
        for extension in &mut run {
            random.fill(&mut extension.rights);
            if all {
                extension.rights.fill(0xFF);
            }
        }
        add_unknown(random, size, &mut run);
        extension::run(&run)
    });
    Step::Rights {
        runs,
        room: RIGHTS_LEN,
    }
}

fn room(random: &mut Random) -> usize {
    match random.below(20) {
        0 => random.below(RIGHTS_LEN),
        1 => RIGHTS_LEN - 1,
        2..=5 => RIGHTS_LEN + random.between(1, 9),
        6 => random.between(RIGHTS_LEN, LONGEST_BUFFER),
        _ => RIGHTS_LEN,
    }
}

fn runs(random: &mut Random, size: Size) -> Runs {
    let form = random.weighted(&[
        (6, Form::Good),
        (9, Form::Single),
        (5, Form::Double),
        (3, Form::Second),
        (4, Form::Spoiled),
        (2, Form::Cut),
        (1, Form::Bytes),
    ]);
    let mut drafts: [Vec<Object>; RUNS] =
        std::array::from_fn(|_| extension::objects(&extensions(random, size)));
    match form {
        Form::Single => make_wrong(random, &mut drafts),
        Form::Double => {
            make_wrong(random, &mut drafts);
            make_wrong(random, &mut drafts);
        }
        Form::Second => make_second(random, &mut drafts),
        Form::Good | Form::Spoiled | Form::Cut | Form::Bytes => {}
    }
    let mut runs = drafts.map(|draft| bytes_of(&draft));
    let run = &mut runs[random.below(RUNS)];
    match form {
        Form::Spoiled => random.spoil(run),
        Form::Cut => run.truncate(random.below(run.len() + 1)),
        Form::Bytes => {
            let length = random.below(40);
            *run = random.bytes(length);
        }
        Form::Good | Form::Single | Form::Double | Form::Second => {}
    }
    runs
}

/// Some known ones in some order, and unknown ones among them.
fn extensions(random: &mut Random, size: Size) -> Vec<Extension> {
    let order = random.pick(&ORDERS);
    let mut run: Vec<Extension> = order
        .iter()
        .map(|known| {
            let mut extension = Extension::known(*known, 0);
            random.fill(&mut extension.rights);
            extension
        })
        .collect();
    add_unknown(random, size, &mut run);
    run
}

fn add_unknown(random: &mut Random, size: Size, run: &mut Vec<Extension>) {
    for _ in 0..random.pick(&[0, 0, 0, 1, 1, 2, 3]) {
        let identifier = unknown_identifier(random);
        let bytes = match (random.below(8), size) {
            (0, Size::Any) => random.pick(&[100, 127, 128, 129, 255, 256, 257, 400]),
            // The run then has more than 65,535 bytes, mostly.
            (1, Size::Any) if random.one_in(40) => random.between(65_450, 65_520),
            (2, _) => random.below(30),
            _ => random.pick(&[0, 1, 2, 16, 17, 18]),
        };
        let mut extension = Extension::unknown(&identifier, bytes);
        random.fill(&mut extension.rights);
        run.insert(random.below(run.len() + 1), extension);
    }
}

/// An identifier that is none of the known ones: like one of them, mostly.
fn unknown_identifier(random: &mut Random) -> Vec<u8> {
    let mut identifier = extension::identifier(random.below(KNOWN.len()));
    match random.below(6) {
        0 => identifier.clear(),
        1 => identifier.truncate(random.below(8)),
        2 => identifier.push(random.byte()),
        3 => identifier.insert(0, random.byte()),
        _ => identifier[random.below(8)] ^= 1 << random.below(8),
    }
    match extension::which(&identifier) {
        None => identifier,
        Some(_) => vec![],
    }
}

/// Makes one thing wrong.
fn make_wrong(random: &mut Random, drafts: &mut [Vec<Object>; RUNS]) {
    let faults = extension_faults::all();
    for _ in 0..40 {
        let draft = &mut drafts[random.below(RUNS)];
        let number = random.below(draft.len() + 1);
        // What a known one alone has is more frequent than by its share.
        let fault = match random.below(6) {
            0 => Fault::Twice,
            1 => Fault::TwiceApart,
            2 => Fault::Size(random.pick(&[0, 1, 2, 16, 17, 18])),
            _ => random.pick(&faults),
        };
        if extension_faults::make(draft, number, fault).is_some() {
            return;
        }
    }
}

/// A known one for the second time, in any run that has one; mostly with something else wrong.
fn make_second(random: &mut Random, drafts: &mut [Vec<Object>; RUNS]) {
    let faults = extension_faults::all();
    for _ in 0..40 {
        let draft = &mut drafts[random.below(RUNS)];
        let number = random.below(draft.len() + 1);
        if extension_faults::make(draft, number, Fault::Twice).is_some() {
            for _ in 0..random.below(4) {
                extension_faults::make(draft, number + 1, random.pick(&faults));
            }
            return;
        }
    }
}
