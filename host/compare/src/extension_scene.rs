//! Readings of rights that every run begins with: the known extensions in every order, unknown ones
//! among them, each fault in each run, two faults at a time, long length forms, and buffers of each
//! length. What comes of each follows from how it is made.

use crate::extension::{self, Extension, Runs, KNOWN, ORDERS, RUNS, TAGS};
use crate::extension_faults::{self, Fault, Part, BAD, SECOND};
use crate::hex::hex;
use crate::make::{self, RIGHTS_LEN};
use crate::stamp::{bytes_of, Object};
use crate::step::Step;

/// What a sample's buffer holds before each reading.
pub const FILL: u8 = 0xA5;

/// A step and what comes of it: `rights`, or `refusal` and its number; and then all bytes of the
/// buffer in hexadecimal, which held [`FILL`] before.
pub type Line = (Step, String);

/// The refusal of a buffer that is too short.
const SHORT: u64 = 1;
/// The most bytes that `73` can have inside.
pub(crate) const LONGEST: usize = 65_535;

/// Rights for the travel application in each run, or with something missing in one.
pub fn travel_chain(missing: bool) -> Line {
    let travel = |_| vec![Extension::known(0, 0x0F)];
    let mut chain = [0, 1, 2].map(travel);
    if missing {
        chain[1].clear();
    }
    accepted(&chain)
}

/// The same with the last byte cut off, which is refused.
pub fn torn_chain() -> Line {
    let mut runs = [0, 1, 2].map(|_| extension::run(&[Extension::known(0, 0x0F)]));
    runs[2].pop();
    refused(runs, BAD)
}

/// Those that a sample has, too; it has not much room.
pub fn lines() -> Vec<Line> {
    [
        orders(),
        identifiers(5, 12),
        several_unknown(|run, count| count == 2 * run + 1),
        three_looking_like_another(),
        buffers(|what, room| room % 4 == what),
        faults(),
        each_known_one_twice(),
        bytes_behind(&extension::run(&known(&[0, 1], 0))),
        both_of_one_extension(&BOTH),
        two_in_one_run(|at, run| at == run),
        the_same_twice(),
        two_runs(),
        long_forms(&[127, 128, 255, 256]),
        other_long_forms(&[128], &[0x82]),
        the_longest(),
    ]
    .concat()
}

pub(crate) fn line(runs: Runs, room: usize, refusal: u64, rights: &[u8]) -> Line {
    let mut buffer = vec![FILL; room];
    buffer[..rights.len()].copy_from_slice(rights);
    let outcome = match refusal {
        0 => format!("rights {}", hex(&buffer)),
        _ => format!("refusal {refusal} {}", hex(&buffer)),
    };
    (Step::Rights { runs, room }, outcome)
}

/// The rights of these runs, in a buffer of so many bytes.
fn accepted_in(chain: &[Vec<Extension>; RUNS], room: usize) -> Line {
    let rights = chain.each_ref().map(|run| extension::certificate(run));
    let runs = chain.each_ref().map(|run| extension::run(run));
    line(runs, room, 0, &rights.concat())
}

pub(crate) fn accepted(chain: &[Vec<Extension>; RUNS]) -> Line {
    accepted_in(chain, RIGHTS_LEN)
}

fn refused_in(runs: Runs, room: usize, refusal: u64) -> Line {
    match refusal {
        SHORT => line(runs, room, refusal, &[]),
        _ => line(runs, room, refusal, &[0; RIGHTS_LEN]),
    }
}

pub(crate) fn refused(runs: Runs, refusal: u64) -> Line {
    refused_in(runs, RIGHTS_LEN, refusal)
}

/// Known ones in this order; their rights differ by the run.
pub(crate) fn known(order: &[usize], run: usize) -> Vec<Extension> {
    let first = |which| 0x11 + 0x40 * run as u8 + 0x11 * which as u8;
    order
        .iter()
        .map(|which| Extension::known(*which, first(*which)))
        .collect()
}

/// A run of these bytes; the next has a short one of a known extension, and the other one is empty.
pub(crate) fn beside(run: usize, bytes: Vec<u8>) -> Runs {
    let next = (run + 1) % RUNS;
    let mut runs = Runs::default();
    runs[run] = bytes;
    runs[next] = extension::run(&known(&[next % 2], next));
    runs
}

/// Each order in each run, beside other orders, with an unknown one among those of one run.
fn orders() -> Vec<Line> {
    let mut lines = Vec::new();
    for at in 0..ORDERS.len() {
        let mut chain = [0, 1, 2].map(|run| known(ORDERS[(at + 5 * run) % ORDERS.len()], run));
        let identifier = &extension::identifier(at % KNOWN.len())[..at % 8];
        let size = [0, 1, 2, 3, 16, 17, 18, 83][at / 2];
        let run = &mut chain[at % RUNS];
        let place = at / RUNS % (run.len() + 1);
        run.insert(place, Extension::unknown(identifier, size));
        lines.push(accepted(&chain));
    }
    lines.push(filled([0x00, 0xF0, 0xFF]));
    lines
}

/// All known ones in each run; each byte of their rights is this one.
pub(crate) fn filled(bytes: [u8; RUNS]) -> Line {
    let mut chain = [0, 1, 2].map(|run| known(&[0, 1, 2], run));
    for (run, byte) in chain.iter_mut().zip(bytes) {
        for extension in run {
            extension.rights.fill(byte);
        }
    }
    accepted(&chain)
}

/// Identifiers that are unknown, so many in each run: of each length up to twelve and of some
/// above, but no longer than this; and with one bit unlike a known one.
pub(crate) fn identifiers(in_each_run: usize, longest: usize) -> Vec<Line> {
    let mut unknown: Vec<Vec<u8>> = Vec::new();
    for length in (0..=12).chain([127, 128, 255, 256]) {
        let mut identifier = extension::identifier(length % KNOWN.len());
        let is_known = length == identifier.len();
        identifier.resize(length, 0x00);
        if !is_known && length <= longest {
            unknown.push(identifier);
        }
    }
    for at in 0..8 {
        for bit in 0..8 {
            let mut identifier = extension::identifier((at + bit) % KNOWN.len());
            identifier[at] ^= 1 << bit;
            // One bit makes travel of biometrics, and visa of it.
            if extension::which(&identifier).is_none() {
                unknown.push(identifier);
            }
        }
    }
    let mut reversed = extension::identifier(0);
    reversed.reverse();
    unknown.extend([reversed, vec![0x00; 8], vec![0xFF; 8]]);
    let one = |identifier: &Vec<u8>| Extension::unknown(identifier, identifier.len() % 2 + 1);
    unknown
        .chunks(RUNS * in_each_run)
        .map(|some| {
            let mut chain: [Vec<Extension>; RUNS] = std::array::from_fn(|_| vec![]);
            for (run, identifiers) in chain.iter_mut().zip(some.chunks(in_each_run)) {
                *run = identifiers.iter().map(one).collect();
            }
            accepted(&chain)
        })
        .collect()
}

/// More than one unknown one, the same before a known one and behind it: so many as are asked for,
/// by the run and how many.
pub(crate) fn several_unknown(wanted: impl Fn(usize, usize) -> bool) -> Vec<Line> {
    let mut lines = Vec::new();
    for run in 0..RUNS {
        for count in (1..=5).filter(|count| wanted(run, *count)) {
            let mut chain = [vec![], vec![], vec![]];
            let unknown = vec![Extension::unknown(&[0x2A], count); count];
            chain[run] = [unknown.clone(), known(&[1], run), unknown].concat();
            lines.push(accepted(&chain));
        }
    }
    lines
}

/// Unknown ones whose rights or identifiers look like known extensions, or like the objects around
/// them.
pub(crate) fn looking_like_another() -> Vec<Extension> {
    let travel = extension::run(&known(&[0], 0));
    let inside = travel[2..].to_vec();
    let longer = |start: &[u8], end: &[u8]| {
        let identifier = [start, &extension::identifier(1), end].concat();
        Extension::unknown(&identifier, 1)
    };
    let holding = |rights: &[u8]| Extension {
        identifier: vec![0x06],
        rights: rights.to_vec(),
    };
    let named = |identifier: &[u8]| Extension::unknown(identifier, 1);
    vec![
        holding(&travel),
        holding(&inside),
        holding(&travel.repeat(2)),
        holding(&[0x53, 0x01, 0x0F]),
        named(&travel),
        named(&inside),
        named(&[0x53, 0x01, 0x0F]),
        longer(&[0x67], &[]),
        longer(&[], &[0x03]),
        longer(&[], &[0x00]),
    ]
}

/// Three of them at a time, each before known ones.
fn three_looking_like_another() -> Vec<Line> {
    looking_like_another()
        .chunks(RUNS)
        .map(|three| {
            let mut chain = [0, 1, 2].map(|run| known(&[0, 1], run));
            for (run, unknown) in chain.iter_mut().zip(three) {
                run.insert(0, unknown.clone());
            }
            accepted(&chain)
        })
        .collect()
}

/// Buffers of each length up to what is needed, and longer ones; with rights (0), with no extension
/// (1) and with each refusal (2 and 3), as is asked for.
pub(crate) fn buffers(wanted: impl Fn(usize, usize) -> bool) -> Vec<Line> {
    let mut lines = Vec::new();
    for room in (0..=RIGHTS_LEN + 2).chain([82, 103, 1_000]) {
        for what in (0..4).filter(|what| wanted(*what, room)) {
            lines.push(in_a_buffer(what, room));
        }
    }
    lines
}

fn in_a_buffer(what: usize, room: usize) -> Line {
    let chain = match what {
        1 => [vec![], vec![], vec![]],
        _ => [known(&[0], 0), vec![], known(&[1], 2)],
    };
    let mut runs = chain.each_ref().map(|run| extension::run(run));
    let refusal = match what {
        2 => {
            runs[1] = vec![TAGS[0]];
            BAD
        }
        3 => {
            runs[0] = runs[0].repeat(2);
            SECOND
        }
        _ => 0,
    };
    match refusal {
        _ if room < RIGHTS_LEN => refused_in(runs, room, SHORT),
        0 => accepted_in(&chain, room),
        _ => refused_in(runs, room, refusal),
    }
}

/// The run that faults are made in: a known one, an unknown one and a known one.
pub fn base(run: usize) -> Vec<Object> {
    let order: [usize; 2] = [[0, 2], [1, 0], [2, 1]][run];
    let unknown = Extension::unknown(&[0x2A, 0x03], 2);
    let [first, last] = order.map(|which| known(&[which], run));
    extension::objects(&[first, vec![unknown], last].concat())
}

/// The run in which a sample has a fault, and the number of the extension that it is made in. What
/// an unknown one can have, too, is made in a known one with an unknown one behind it, in an
/// unknown one among known ones, and in a known one behind an unknown one.
pub fn draft(run: usize, fault: Fault) -> (Vec<Object>, usize) {
    let one = |which| extension::objects(&known(&[which], run));
    match fault {
        Fault::Size(size) => {
            let mut which = (run..).map(|which| which % KNOWN.len());
            let which = which.find(|which| KNOWN[*which].size != size);
            (one(which.unwrap_or(run)), 0)
        }
        Fault::Twice => (one(run), 0),
        Fault::TwiceApart => (base(run), 0),
        _ => {
            let (part, number) = [(0..2, 0), (0..3, 1), (1..3, 1)][run].clone();
            (base(run)[part].to_vec(), number)
        }
    }
}

/// Each fault in each run.
fn faults() -> Vec<Line> {
    let mut lines = Vec::new();
    for fault in extension_faults::all() {
        for run in 0..RUNS {
            let (mut objects, number) = draft(run, fault);
            if let Some(refusal) = extension_faults::make(&mut objects, number, fault) {
                lines.push(refused(beside(run, bytes_of(&objects)), refusal));
            }
        }
    }
    lines
}

/// Each known one twice in each run, of which the faults have one; and one with another between.
fn each_known_one_twice() -> Vec<Line> {
    let mut lines = Vec::new();
    for run in 0..RUNS {
        let [one, other] = [1, 2].map(|more| (run + more) % KNOWN.len());
        for order in [&[one, one][..], &[other, other], &[0, 1, 0]] {
            let twice = extension::run(&known(order, run));
            lines.push(refused(beside(run, twice), SECOND));
        }
    }
    lines
}

/// One byte behind these.
pub(crate) fn bytes_behind(start: &[u8]) -> Vec<Line> {
    let mut lines = Vec::new();
    for run in 0..RUNS {
        for byte in [0x00, TAGS[0]] {
            let behind = [start, &[byte]].concat();
            lines.push(refused(beside(run, behind), BAD));
        }
    }
    lines
}

/// What a sample has wrong with a known one for the second time: travel, visa and biometrics by
/// turns, so that each has rights of the wrong size.
const BOTH: [Fault; 7] = [
    Fault::Tag(Part::Rights, 0x52),
    Fault::Form(Part::Rights, 0x81),
    Fault::Size(18),
    Fault::Size(0),
    Fault::Size(0),
    Fault::Missing(Part::Rights),
    Fault::Third(0x53),
];

/// A known one for the second time that is not well formed, either: 7 comes before 8.
pub(crate) fn both_of_one_extension(faults: &[Fault]) -> Vec<Line> {
    let mut lines = Vec::new();
    for fault in faults {
        // A third one would be another extension, and a stray byte stands before the second.
        if matches!(fault, Fault::Twice | Fault::TwiceApart | Fault::Stray(_)) {
            continue;
        }
        let run = lines.len() % RUNS;
        let mut objects = extension::objects(&known(&[run, run], run));
        if let Some(refusal) = extension_faults::make(&mut objects, 1, *fault) {
            lines.push(refused(beside(run, bytes_of(&objects)), refusal));
        }
    }
    lines
}

/// Faults of both refusals in one run: the first one is told. Of the pairs those are taken that are
/// asked for, by their number and the run.
pub(crate) fn two_in_one_run(wanted: impl Fn(usize, usize) -> bool) -> Vec<Line> {
    use Fault::{Empty, Exchanged, Form, Shorter, Size, Tag};
    let bad = [
        Tag(Part::Extension, 0x72),
        Form(Part::Rights, 0x81),
        Shorter(Part::Extension),
        Empty,
        Exchanged,
        Size(0),
    ];
    let mut lines = Vec::new();
    for (at, fault) in bad.into_iter().enumerate() {
        for run in (0..RUNS).filter(|run| wanted(at, *run)) {
            // A second one, then one that is not well formed; and the other way round.
            for (order, number, told) in [
                ([0, 0, 1], 2, SECOND),
                ([0, 1, 0], 1, BAD),
                ([0, 1, 1], 0, BAD),
            ] {
                let mut objects = extension::objects(&known(&order, run));
                if extension_faults::make(&mut objects, number, fault).is_some() {
                    lines.push(refused(beside(run, bytes_of(&objects)), told));
                }
            }
        }
    }
    lines
}

/// Two faults of the same refusal in one run.
fn the_same_twice() -> Vec<Line> {
    let mut lines = Vec::new();
    for run in 0..RUNS {
        let twice = extension::run(&known(&[0, 1, 1, 0], run));
        lines.push(refused(beside(run, twice), SECOND));
        let bad = [&extension::run(&known(&[0], run))[1..], &[0x73, 0x00]].concat();
        lines.push(refused(beside(run, bad), BAD));
    }
    lines
}

/// Faults in two runs: that of the earlier run is told, though the later one's stands further in
/// front. The third run is without a fault.
fn two_runs() -> Vec<Line> {
    let bad = vec![0x73];
    let twice = |run| extension::run(&known(&[0, 1, 0], run));
    let behind = |run| [extension::run(&known(&[0, 1, 2], run)), bad.clone()].concat();
    let mut lines = Vec::new();
    for (one, other) in [(0, 1), (0, 2), (1, 2)] {
        let third = RUNS - one - other;
        for (first, second, told) in [
            (twice(one), bad.clone(), SECOND),
            (bad.clone(), twice(other), BAD),
            (behind(one), twice(other), BAD),
            (twice(one), twice(other), SECOND),
            (bad.clone(), bad.clone(), BAD),
        ] {
            let mut runs = Runs::default();
            runs[one] = first;
            runs[other] = second;
            runs[third] = extension::run(&known(&[third % 2], third));
            lines.push(refused(runs, told));
        }
    }
    lines.push(refused([twice(0), bad.clone(), twice(2)], SECOND));
    lines.push(refused([bad.clone(), twice(1), bad], BAD));
    lines
}

/// An unknown extension with so many bytes inside `73`, two of them the object of an identifier
/// without bytes.
pub(crate) fn unknown_of(inside: usize) -> Extension {
    let head = (2..=4)
        .find(|head| make::object(&[TAGS[2]], &vec![0; inside - 2 - head]).len() == inside - 2)
        .expect("a length of one, two or three bytes");
    Extension::unknown(&[], inside - 2 - head)
}

/// Lengths of `73`, `06` and `53` around those where the form changes, one in each run.
pub(crate) fn long_forms(sizes: &[usize]) -> Vec<Line> {
    let mut lines = Vec::new();
    for (at, size) in sizes.iter().enumerate() {
        let named = Extension::unknown(&vec![0x2A; *size], 1);
        let holding = Extension::unknown(&[0x2A], *size);
        // With an empty identifier `73` cannot have 132 or 261 bytes; neither is asked for.
        let mut long = [named, holding, unknown_of(*size)];
        long.rotate_left(at % RUNS);
        let mut chain = [0, 1, 2].map(|run| known(&[0], run));
        for (run, extension) in chain.iter_mut().zip(long) {
            run.insert(0, extension);
        }
        lines.push(accepted(&chain));
    }
    lines
}

/// Other forms of such lengths.
pub(crate) fn other_long_forms(sizes: &[usize], forms: &[u8]) -> Vec<Line> {
    let mut lines = Vec::new();
    for size in sizes {
        for (part, extension) in [
            (Part::Extension, unknown_of(*size)),
            (Part::Identifier, Extension::unknown(&vec![0x2A; *size], 0)),
            (Part::Rights, Extension::unknown(&[], *size)),
        ] {
            for form in forms {
                let mut objects = vec![extension.object()];
                let fault = Fault::Form(part, *form);
                if let Some(refusal) = extension_faults::make(&mut objects, 0, fault) {
                    let mut runs = Runs::default();
                    runs[lines.len() % RUNS] = bytes_of(&objects);
                    lines.push(refused(runs, refusal));
                }
            }
        }
    }
    lines
}

/// An unknown one that is as long as it can be, in a run that is longer.
fn the_longest() -> Vec<Line> {
    let longest = vec![unknown_of(LONGEST)];
    let run = [longest, known(&[2, 0], 1)].concat();
    vec![accepted(&[known(&[1], 0), run, known(&[0], 2)])]
}
