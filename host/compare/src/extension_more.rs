//! More readings of rights, for which a sample has no room: each order alone, each fault at each
//! extension, more of two faults at a time, buffers of each length with each refusal, and long
//! runs.

use crate::extension::{self, Extension, Runs, KNOWN, ORDERS, RUNS};
use crate::extension_faults::{self, Fault, Part, BAD, SECOND};
use crate::extension_scene::{
    accepted, base, both_of_one_extension, buffers, bytes_behind, filled, identifiers, known, line,
    lines, long_forms, looking_like_another, other_long_forms, refused, several_unknown,
    two_in_one_run, unknown_of, Line, LONGEST,
};
use crate::make::RIGHTS_LEN;
use crate::stamp::bytes_of;
use crate::step::Step;
use std::collections::HashSet;

/// Those that a run of rights alone has behind [`lines`].
pub fn more_lines() -> Vec<Line> {
    let mut there: HashSet<Step> = lines().into_iter().map(|(step, _)| step).collect();
    let mut more = all_lines();
    more.retain(|(step, _)| there.insert(step.clone()));
    more
}

/// All of them; some stand in [`lines`], too, and some here twice.
fn all_lines() -> Vec<Line> {
    [
        orders_alone(),
        [0x00, 0x0F, 0xF0, 0xFF]
            .map(|byte| filled([byte; RUNS]))
            .to_vec(),
        identifiers(1, 256),
        sizes(),
        several_unknown(|run, count| count != 2 * run + 1),
        one_looking_like_another(),
        buffers(|what, room| room % 4 != what),
        faults(),
        sizes_of_known_ones(),
        ends(),
        bytes_behind(&[]),
        both_of_one_extension(&extension_faults::all()),
        two_in_one_run(|at, run| at != run),
        long_forms(&[126, 129, 254, 257]),
        other_long_forms(&[127, 128, 255, 256], &[0x80, 0x81, 0x82, 0x83, 0x84]),
        long_runs(),
        many_extensions(),
    ]
    .concat()
}

/// A run of this one, with short ones of known extensions as the other two.
fn among(run: usize, bytes: Vec<u8>) -> Runs {
    let mut runs = std::array::from_fn(|other| extension::run(&known(&[other % 2], other)));
    runs[run] = bytes;
    runs
}

/// Each order in each run, where the other two are empty.
fn orders_alone() -> Vec<Line> {
    let mut lines = Vec::new();
    for order in ORDERS {
        for run in 0..RUNS {
            let mut alone = [vec![], vec![], vec![]];
            alone[run] = known(order, run);
            lines.push(accepted(&alone));
        }
    }
    lines
}

/// A known run with an unknown extension at this place.
fn with_unknown(unknown: &Extension, place: usize, run: usize) -> Vec<Extension> {
    let mut extensions = known(&[2, 0, 1], run);
    extensions.insert(place, unknown.clone());
    extensions
}

/// Unknown ones with rights of each size, at each place among known ones.
fn sizes() -> Vec<Line> {
    let mut lines = Vec::new();
    for (at, size) in [0, 1, 2, 16, 17, 18, 83, 115, 127].into_iter().enumerate() {
        let identifier = extension::identifier(0)[..at % 8].to_vec();
        let unknown = Extension::unknown(&identifier, size);
        let chain = [0, 1, 2].map(|run| with_unknown(&unknown, (at + run) % 4, run));
        lines.push(accepted(&chain));
    }
    lines
}

/// Unknown ones that look like something else, one at a time.
fn one_looking_like_another() -> Vec<Line> {
    looking_like_another()
        .into_iter()
        .map(|unknown| {
            let run = |run| [vec![unknown.clone()], known(&[2], run)].concat();
            accepted(&[run(0), vec![unknown.clone()], known(&[0], 2)])
        })
        .collect()
}

/// Each fault in each extension of each run, where it can be made.
fn faults() -> Vec<Line> {
    let mut lines = Vec::new();
    for fault in extension_faults::all() {
        for (run, number) in (0..RUNS).flat_map(|run| (0..3).map(move |number| (run, number))) {
            let mut objects = base(run);
            if let Some(refusal) = extension_faults::make(&mut objects, number, fault) {
                lines.push(refused(among(run, bytes_of(&objects)), refusal));
            }
        }
    }
    lines
}

/// Each known one with rights of each size up to eighteen.
fn sizes_of_known_ones() -> Vec<Line> {
    let mut lines = Vec::new();
    for (which, known) in KNOWN.iter().enumerate() {
        for size in (0..=18).chain([127, 128]) {
            let mut extension = Extension::known(which, 0x0F);
            extension.rights.resize(size, 0x0F);
            let mut chain = [vec![], vec![], vec![]];
            chain[size % RUNS] = vec![extension];
            if size == known.size {
                lines.push(accepted(&chain));
            } else {
                lines.push(refused(
                    chain.each_ref().map(|run| extension::run(run)),
                    BAD,
                ));
            }
        }
    }
    lines
}

/// A run of two that ends at each place.
fn ends() -> Vec<Line> {
    let both = known(&[0, 1], 0);
    let bytes = extension::run(&both);
    let borders = [0, 15, 30];
    (0..=bytes.len())
        .map(|length| {
            let mut runs = Runs::default();
            runs[length % RUNS] = bytes[..length].to_vec();
            match borders.iter().position(|border| *border == length) {
                None => refused(runs, BAD),
                Some(count) => {
                    let mut chain = [vec![], vec![], vec![]];
                    chain[length % RUNS] = both[..count].to_vec();
                    accepted(&chain)
                }
            }
        })
        .collect()
}

/// Runs of more than 65,535 bytes: in each place, with each refusal behind so many, with lengths
/// that go past the end or are not the shortest.
fn long_runs() -> Vec<Line> {
    let mut lines = Vec::new();
    for run in 0..RUNS {
        let long = [vec![unknown_of(LONGEST)], known(&[0, 1, 2], run)].concat();
        let bytes = extension::run(&long);
        let mut chain = [0, 1, 2].map(|other| known(&[0, 2], other));
        chain[run].clone_from(&long);
        lines.push(accepted(&chain));
        let twice = [&bytes[..], &extension::run(&known(&[0], run))].concat();
        lines.push(refused(among(run, twice), SECOND));
        lines.push(refused(among(run, bytes[..bytes.len() - 1].to_vec()), BAD));
        lines.push(refused(among(run, bytes[..LONGEST].to_vec()), BAD));
        lines.push(refused(among(run, [&bytes[..], &[0x73]].concat()), BAD));
        let forms = [0x83, 0x84].map(|form| Fault::Form(Part::Extension, form));
        let longer = [Fault::Longer(Part::Rights), Fault::Shorter(Part::Rights)];
        for fault in forms.into_iter().chain(longer) {
            let mut objects = extension::objects(&long);
            if let Some(refusal) = extension_faults::make(&mut objects, 0, fault) {
                lines.push(refused(among(run, bytes_of(&objects)), refusal));
            }
        }
    }
    // All three; lengths in the middle, where the highest bit of two bytes changes.
    let long = [0, 1, 2].map(|run| [vec![unknown_of(LONGEST)], known(&[run], run)].concat());
    lines.push(accepted(&long));
    lines.push(the_longest_identifiers());
    for inside in [32_767, 32_768, 65_534] {
        let run = [vec![unknown_of(inside)], known(&[0], 0)].concat();
        lines.push(accepted(&[run, vec![], vec![]]));
    }
    lines
}

/// Identifiers that are as long as they can be, with no byte of rights: six bytes inside `73` are
/// their heads. They begin as known ones do, which stand behind them.
fn the_longest_identifiers() -> Line {
    accepted(&[0, 1, 2].map(|run| {
        let mut identifier = extension::identifier(run);
        identifier.resize(LONGEST - 6, 0x00);
        [vec![Extension::unknown(&identifier, 0)], known(&[run], run)].concat()
    }))
}

/// Runs of many extensions, more than one byte or two could count.
fn many_extensions() -> Vec<Line> {
    let visa = known(&[1], 1);
    let rights = [[0; 20], extension::certificate(&visa), [0; 20]].concat();
    let (visa, unknown) = (extension::run(&visa), [Extension::unknown(&[], 0)]);
    let mut lines = Vec::new();
    for count in [255, 256, 257, 65_536] {
        let run = [extension::run(&unknown).repeat(count), visa.clone()].concat();
        let twice = [&visa[..], &run].concat();
        lines.push(refused(among(1, twice), SECOND));
        lines.push(line([vec![], run, vec![]], RIGHTS_LEN, 0, &rights));
    }
    lines
}
