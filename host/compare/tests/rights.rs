//! That the comparison sees where the reading of rights is wrong, that each fault gets the refusal
//! that its maker says, and that the sample has each fault.

use compare::card::Size;
use compare::extension::{self, Extension, KNOWN, ORDERS, RUNS};
use compare::extension_faults::{self, BAD, SECOND};
use compare::extension_more;
use compare::extension_scene::{self, Line};
use compare::extension_sort::{self, walk};
use compare::extensions;
use compare::hex::hex;
use compare::make::{CERTIFICATE_LEN, RIGHTS_LEN};
use compare::random::Random;
use compare::sample::{self, Sample};
use compare::sides::{
    compare_machines, compare_rights, compare_rights_readers, Machine, Rights, REFERENCE,
};
use compare::stamp::bytes_of;
use compare::step::Step;
use std::collections::HashSet;

const SEED: u64 = 20_000;

/// A reader of rights with one thing that may be wrong.
#[derive(Clone, Copy, PartialEq, Eq)]
enum Slip {
    Right,
    // What is read.
    LaterOverwrites,
    EarlierStays,
    SecondOfUnknown,
    TwiceAcrossRuns,
    TwiceNextToEachOther,
    UnknownSizeTested,
    UnknownNotLookedInto,
    UnknownWithoutIdentifier,
    IdentifierByItsEnd,
    IdentifierByItsStart,
    IdentifierWithoutItsFirst,
    LongerRightsCut,
    ShorterRightsFilled,
    TravelOfTwoBytes,
    BiometricsOfSixteen,
    // The objects.
    Form81,
    Form82,
    Form83,
    Form80,
    NoForm82,
    LengthOf15Bits,
    PastTheEnd,
    OuterTag,
    IdentifierTag,
    RightsTag,
    AnyOrder,
    Surplus,
    NoRights,
    NoIdentifier,
    EmptyExtension,
    TrailingByte,
    TrailingBytes,
    LongRun,
    EmptyRun,
    OneOrder,
    FourExtensions,
    // The bytes that are given.
    FlagsExchanged,
    NoVisaFlag,
    NoBiometricsFlag,
    FirstTwoRunsExchanged,
    SecondRunInTheFirstPlace,
    NoThirdRun,
    AbsentStays,
    RightsCleared,
    BiometricsReversed,
    RefusedKept,
    RefusedOnlyItsPart,
    RefusedOthersKept,
    RefusedUntouched,
    BehindZero,
    // The refusals.
    SecondBeforeBad,
    SecondOfAllFirst,
    LastRunFirst,
    Exchanged,
    OnlyBad,
    LowBits,
    BufferOf60,
    BufferOf59,
    ShortBufferZero,
    BufferLast,
}

use Slip::*;

/// The value of the object that the bytes begin with, and what is behind it.
fn object(bytes: &[u8], tag: u8, any_tag: bool, slip: Slip) -> Option<(&[u8], &[u8])> {
    let (first, rest) = bytes.split_first()?;
    if *first != tag && !any_tag {
        return None;
    }
    let two = |high, low| usize::from(u16::from_be_bytes([high, low]));
    let (head, size) = match *rest {
        [size @ ..=0x7F, ..] => (1, usize::from(size)),
        [0x81, size, ..] if size >= 0x80 || slip == Form81 => (2, usize::from(size)),
        [0x82, ..] if slip == NoForm82 => return None,
        [0x82, high, low, ..] if high > 0 || slip == Form82 => (3, two(high, low)),
        [0x83, 0x00, high, low, ..] if slip == Form83 => (4, two(high, low)),
        [0x80, ..] if slip == Form80 => (1, rest.len() - 1),
        _ => return None,
    };
    if slip == LengthOf15Bits && size > 0x7FFF {
        return None;
    }
    let behind = &rest[head..];
    match behind.split_at_checked(size) {
        None if slip == PastTheEnd => Some((behind, &[])),
        parts => parts,
    }
}

/// Identifier and rights of the extension that the bytes begin with, and what is behind it.
fn extension(bytes: &[u8], slip: Slip) -> Option<([&[u8]; 2], &[u8])> {
    let (inside, behind) = object(bytes, 0x73, slip == OuterTag, slip)?;
    let parts = match inside {
        [] if slip == EmptyExtension => Some([&[][..], &[]]),
        [0x53, ..] if slip == AnyOrder => {
            let (rights, rest) = object(inside, 0x53, false, slip)?;
            let (identifier, rest) = object(rest, 0x06, false, slip)?;
            rest.is_empty().then_some([identifier, rights])
        }
        [0x53, ..] if slip == NoIdentifier => Some([&[][..], &[]]),
        _ => in_order(inside, slip),
    };
    Some((parts?, behind))
}

fn in_order(inside: &[u8], slip: Slip) -> Option<[&[u8]; 2]> {
    let (identifier, rest) = object(inside, 0x06, slip == IdentifierTag, slip)?;
    let unknown = extension::which(identifier).is_none();
    if rest.is_empty() && slip == NoRights || unknown && slip == UnknownNotLookedInto {
        return Some([identifier, &[]]);
    }
    let (rights, rest) = object(rest, 0x53, slip == RightsTag, slip)?;
    (rest.is_empty() || slip == Surplus).then_some([identifier, rights])
}

/// Which known one has this identifier.
fn which(identifier: &[u8], slip: Slip) -> Option<usize> {
    (0..KNOWN.len()).find(|which| {
        let known = extension::identifier(*which);
        match slip {
            IdentifierByItsEnd => identifier.ends_with(&known[6..]),
            IdentifierByItsStart => identifier.starts_with(&known),
            IdentifierWithoutItsFirst => identifier.get(1..) == Some(&known[1..]),
            _ => identifier == known,
        }
    })
}

/// What a run gives, and the refusal, 0 for none.
struct Certificate {
    rights: [u8; CERTIFICATE_LEN],
    refusal: u64,
    seen: Vec<Vec<u8>>,
}

fn run(mut bytes: &[u8], seen: Vec<Vec<u8>>, slip: Slip) -> Certificate {
    let mut read = Certificate {
        rights: [0; CERTIFICATE_LEN],
        refusal: 0,
        seen,
    };
    if slip == EmptyRun && bytes.is_empty() || slip == LongRun && bytes.len() > 65_535 {
        read.refusal = BAD;
    }
    while read.refusal == 0 && !bytes.is_empty() {
        if slip == TrailingByte && bytes.len() == 1 || slip == TrailingBytes && bytes[0] != 0x73 {
            break;
        }
        match extension(bytes, slip) {
            Some(([identifier, rights], behind)) => {
                read.refusal = take(&mut read, identifier, rights, slip);
                bytes = behind;
            }
            None => read.refusal = malformed(bytes, &read, slip),
        }
        if slip == FourExtensions && read.seen.len() > 3 {
            read.refusal = BAD;
        }
    }
    read
}

/// The refusal of what is not well formed. With one slip the identifier is looked at first.
fn malformed(bytes: &[u8], read: &Certificate, slip: Slip) -> u64 {
    let identifier = object(bytes, 0x73, false, Right)
        .and_then(|(inside, _)| object(inside, 0x06, false, Right));
    match identifier {
        Some((known, _)) if slip == SecondBeforeBad && which(known, slip).is_some() => {
            let second = read.seen.iter().any(|seen| seen == known);
            [BAD, SECOND][usize::from(second)]
        }
        _ => BAD,
    }
}

/// Takes a well-formed extension. The refusal is 0 where nothing else is wrong with it.
fn take(read: &mut Certificate, identifier: &[u8], rights: &[u8], slip: Slip) -> u64 {
    let second = match slip {
        TwiceNextToEachOther => read.seen.last().is_some_and(|last| last == identifier),
        _ => read.seen.iter().any(|seen| seen == identifier),
    };
    read.seen.push(identifier.to_vec());
    let Some(known) = which(identifier, slip) else {
        return match slip {
            UnknownSizeTested if !matches!(rights.len(), 1 | 17) => BAD,
            UnknownWithoutIdentifier if identifier.is_empty() => BAD,
            SecondOfUnknown if second => SECOND,
            _ => 0,
        };
    };
    let size = rights.len();
    let fits = match (slip, known) {
        (LongerRightsCut, _) => size >= KNOWN[known].size,
        (ShorterRightsFilled | NoRights, _) => size <= KNOWN[known].size,
        (TravelOfTwoBytes, 0) => matches!(size, 1 | 2),
        (BiometricsOfSixteen, 2) => matches!(size, 16 | 17),
        _ => size == KNOWN[known].size,
    };
    let out_of_order = slip == OneOrder && read.rights[0] >> known != 0;
    match (fits && !out_of_order, second) {
        (false, true) if slip == SecondBeforeBad => return SECOND,
        (false, _) => return BAD,
        (true, true) if slip == EarlierStays => return 0,
        (true, true) if slip != LaterOverwrites => return SECOND,
        _ => {}
    }
    put(read, known, rights, slip);
    0
}

/// Puts the rights of a known one into those of the certificate.
fn put(read: &mut Certificate, known: usize, rights: &[u8], slip: Slip) {
    let flag = match (slip, known) {
        (FlagsExchanged, 0) => 2,
        (FlagsExchanged, 1) => 1,
        (NoVisaFlag, 1) | (NoBiometricsFlag, 2) => 0,
        _ => 1 << known,
    };
    read.rights[0] |= flag;
    let mut rights = rights.to_vec();
    match slip {
        RightsCleared if known < 2 => rights.iter_mut().for_each(|byte| *byte &= 0x0F),
        BiometricsReversed => rights.reverse(),
        _ => {}
    }
    let at = [1, 2, 3][known];
    let size = rights.len().min(KNOWN[known].size);
    read.rights[at..at + size].copy_from_slice(&rights[..size]);
}

/// Reads the rights of three runs, with a slip.
fn read(runs: [&[u8]; RUNS], buffer: &mut [u8], slip: Slip) -> u64 {
    let least = match slip {
        BufferOf60 => RIGHTS_LEN + 1,
        BufferOf59 => RIGHTS_LEN - 1,
        _ => RIGHTS_LEN,
    };
    let certificates = certificates(runs, slip);
    let refusal = first_refusal(&certificates, slip);
    if buffer.len() < least {
        if slip == ShortBufferZero {
            buffer.fill(0);
        }
        return match refusal {
            BAD | SECOND if slip == BufferLast => refusal << 32,
            _ => 1 << 32,
        };
    }
    let given = given(&certificates, refusal, buffer, slip);
    let room = buffer.len().min(RIGHTS_LEN);
    buffer[..room].copy_from_slice(&given[..room]);
    if slip == BehindZero {
        buffer[room..].fill(0);
    }
    match (refusal, slip) {
        (0, LowBits) => RIGHTS_LEN as u64,
        (BAD, Exchanged) => SECOND << 32,
        (SECOND, Exchanged | OnlyBad) => BAD << 32,
        _ => refusal << 32,
    }
}

fn certificates(runs: [&[u8]; RUNS], slip: Slip) -> Vec<Certificate> {
    let mut seen = vec![];
    let mut all = Vec::new();
    for bytes in runs {
        let before = match slip {
            TwiceAcrossRuns => std::mem::take(&mut seen),
            _ => vec![],
        };
        let certificate = run(bytes, before, slip);
        seen.clone_from(&certificate.seen);
        all.push(certificate);
    }
    match slip {
        FirstTwoRunsExchanged => all.swap(0, 1),
        SecondRunInTheFirstPlace => all[0].rights = all[1].rights,
        NoThirdRun => all[2].rights = [0; CERTIFICATE_LEN],
        _ => {}
    }
    all
}

fn first_refusal(certificates: &[Certificate], slip: Slip) -> u64 {
    let mut refusals: Vec<u64> = certificates.iter().map(|one| one.refusal).collect();
    match slip {
        LastRunFirst => refusals.reverse(),
        SecondOfAllFirst => refusals.sort_by_key(|refusal| *refusal != SECOND),
        FirstTwoRunsExchanged => refusals.swap(0, 1),
        _ => {}
    }
    let mut found = refusals.into_iter().filter(|refusal| *refusal != 0);
    found.next().unwrap_or(0)
}

/// The bytes for the buffer.
fn given(certificates: &[Certificate], refusal: u64, buffer: &[u8], slip: Slip) -> Vec<u8> {
    let mut given: Vec<u8> = certificates.iter().flat_map(|one| one.rights).collect();
    let untouched = |at: usize| buffer.get(at).copied().unwrap_or(0);
    let at_fault = certificates.iter().position(|one| one.refusal != 0);
    match (refusal, slip) {
        (0, AbsentStays) => {
            for (at, byte) in given.iter_mut().enumerate() {
                if at % CERTIFICATE_LEN > 0 && *byte == 0 {
                    *byte = untouched(at);
                }
            }
        }
        (0, _) | (_, RefusedKept) => {}
        (_, RefusedUntouched) => given = (0..RIGHTS_LEN).map(untouched).collect(),
        (_, RefusedOnlyItsPart) => {
            given = (0..RIGHTS_LEN).map(untouched).collect();
            let at = CERTIFICATE_LEN * at_fault.unwrap_or(0);
            given[at..at + CERTIFICATE_LEN].fill(0);
        }
        (_, RefusedOthersKept) => {
            let at = CERTIFICATE_LEN * at_fault.unwrap_or(0);
            given[at..at + CERTIFICATE_LEN].fill(0);
        }
        _ => given.fill(0),
    }
    given
}

/// A function for each slip.
macro_rules! slips {
    ($($slip:ident),* $(,)?) => {
        [$((stringify!($slip), |a, b, c, rights| read([a, b, c], rights, $slip)),)*]
    };
}

const WRONG: &[(&str, Rights)] = &slips![
    LaterOverwrites,
    EarlierStays,
    SecondOfUnknown,
    TwiceAcrossRuns,
    TwiceNextToEachOther,
    UnknownSizeTested,
    UnknownNotLookedInto,
    UnknownWithoutIdentifier,
    IdentifierByItsEnd,
    IdentifierByItsStart,
    IdentifierWithoutItsFirst,
    LongerRightsCut,
    ShorterRightsFilled,
    TravelOfTwoBytes,
    BiometricsOfSixteen,
    Form81,
    Form82,
    Form83,
    Form80,
    NoForm82,
    LengthOf15Bits,
    PastTheEnd,
    OuterTag,
    IdentifierTag,
    RightsTag,
    AnyOrder,
    Surplus,
    NoRights,
    NoIdentifier,
    EmptyExtension,
    TrailingByte,
    TrailingBytes,
    LongRun,
    EmptyRun,
    OneOrder,
    FourExtensions,
    FlagsExchanged,
    NoVisaFlag,
    NoBiometricsFlag,
    FirstTwoRunsExchanged,
    SecondRunInTheFirstPlace,
    NoThirdRun,
    AbsentStays,
    RightsCleared,
    BiometricsReversed,
    RefusedKept,
    RefusedOnlyItsPart,
    RefusedOthersKept,
    RefusedUntouched,
    BehindZero,
    SecondBeforeBad,
    SecondOfAllFirst,
    LastRunFirst,
    Exchanged,
    OnlyBad,
    LowBits,
    BufferOf60,
    BufferOf59,
    ShortBufferZero,
    BufferLast,
];

/// A machine that reads rights with this function.
fn machine(rights: Rights) -> Machine {
    Machine {
        rights,
        ..REFERENCE
    }
}

/// Without a slip the reader is right, so that each of the others has but one thing wrong.
#[test]
fn without_a_slip_nothing_differs() {
    let [(_, right)]: [(&str, Rights); 1] = slips![Right];
    let compared = compare_rights_readers(SEED, 20_000, &machine(right), &REFERENCE);
    compared.unwrap_or_else(|difference| panic!("{difference}"));
}

#[test]
fn a_difference_of_rights_is_seen() {
    for (name, rights) in WRONG {
        let found = compare_rights_readers(SEED, 20_000, &machine(*rights), &REFERENCE).err();
        let found = found.unwrap_or_else(|| panic!("no difference by {name}"));
        assert!(matches!(found.step, Step::Rights { .. }));
        assert!(found.to_string().contains("\nREFERENCE rights   "));
    }
}

/// Runs of many sorts of call have rights among them: some of the wrong functions are tried there.
#[test]
fn a_difference_is_seen_among_other_calls() {
    for (name, rights) in WRONG.iter().step_by(6) {
        let found = compare_machines(SEED, 20_000, &machine(*rights), &REFERENCE).err();
        let found = found.unwrap_or_else(|| panic!("no difference by {name}"));
        assert!(matches!(found.step, Step::Rights { .. }));
    }
}

/// Whether a reader gives something else than the reference.
fn differs(wrong: Rights, step: &Step) -> bool {
    let Step::Rights { runs, room } = step else {
        panic!("rights");
    };
    let [first, second, third] = runs;
    let mut buffers = [vec![0xC3; *room], vec![0xC3; *room]];
    let [one, other] = &mut buffers;
    let results = [
        wrong(first, second, third, one),
        reference::rights(first, second, third, other),
    ];
    results[0] != results[1] || one != other
}

/// What is made up sees each slip without the scene.
#[test]
fn a_difference_is_seen_without_the_scene() {
    let mut random = Random::new(SEED);
    let made_up = (0..20_000).map(|_| extensions::step(&mut random, Size::Any));
    let steps: Vec<Step> = made_up.collect();
    for (name, wrong) in WRONG {
        let differs = steps.iter().any(|step| differs(*wrong, step));
        assert!(differs, "no difference by {name}");
    }
}

/// Rights that a session has after a refusal are seen, even where both sides give them.
#[test]
fn rights_after_a_refusal_are_seen() {
    let keeps = || {
        machine(|first, second, third, rights| {
            let result = reference::rights(first, second, third, rights);
            if let (BAD, Some(rights)) = (result >> 32, rights.get_mut(..RIGHTS_LEN)) {
                rights.fill(0xFF);
            }
            result
        })
    };
    let found = compare_rights_readers(SEED, 20_000, &keeps(), &keeps()).err();
    let text = found.expect("rights").to_string();
    assert!(text.contains("\nPROVED opened   070f0f03ff"));
}

#[test]
fn twenty_thousand_rights() {
    let tally = compare_rights(SEED, 20_000).unwrap_or_else(|difference| panic!("{difference}"));
    assert_eq!(tally.calls(), 20_000);
    assert_eq!(tally.extension.calls(), 20_000);
    for (what, count, wanted) in tally.extension.wanted(90, 500) {
        assert!(count >= wanted, "{what}: {count} times, {wanted} wanted");
    }
}

/// What a reading gives, in the words of the scene.
fn said(step: &Step) -> String {
    let Step::Rights { runs, room } = step else {
        panic!("rights");
    };
    let [first, second, third] = runs;
    let mut buffer = vec![extension_scene::FILL; *room];
    let result = reference::rights(first, second, third, &mut buffer);
    match result >> 32 {
        0 => format!("rights {}", hex(&buffer)),
        refusal => format!("refusal {refusal} {}", hex(&buffer)),
    }
}

#[test]
fn the_scene_ends_as_it_says() {
    let lines = [extension_scene::lines(), extension_more::more_lines()].concat();
    for (number, (step, outcome)) in lines.iter().enumerate() {
        assert_eq!(said(step), *outcome, "line {number}");
    }
}

/// Each fault that can be made gets the refusal that its maker says, in each extension of a run.
#[test]
fn every_fault_is_refused() {
    let mut random = Random::new(SEED);
    let long = Extension::unknown(&[0x2A; 200], 300);
    for fault in extension_faults::all() {
        let mut made = 0;
        for order in ORDERS {
            let mut run: Vec<Extension> = order.iter().map(|k| Extension::known(*k, 7)).collect();
            run.insert(random.below(run.len() + 1), long.clone());
            for number in 0..run.len() {
                let mut objects = extension::objects(&run);
                if let Some(refusal) = extension_faults::make(&mut objects, number, fault) {
                    made += 1;
                    let bytes = bytes_of(&objects);
                    let result = reference::rights(&[], &bytes, &[], &mut [0; RIGHTS_LEN]);
                    assert_eq!(result >> 32, refusal, "{fault:?} at {number}");
                }
            }
        }
        assert!(made >= 5, "{fault:?}");
    }
}

/// What is found in a run is what the reference tells of it.
#[test]
fn the_sorts_are_what_is_told() {
    let mut random = Random::new(SEED);
    let made_up = (0..5_000).map(|_| extensions::step(&mut random, Size::Any));
    let scene = extension_scene::lines().into_iter().map(|(step, _)| step);
    for step in made_up.chain(scene) {
        let Step::Rights { runs, .. } = step else {
            panic!("rights");
        };
        for run in runs {
            let result = reference::rights(&run, &[], &[], &mut [0; RIGHTS_LEN]);
            let found = walk(&run).found;
            assert_eq!(result >> 32, found.map_or(0, |found| found.what.refusal()));
        }
    }
}

/// The runs of these lines in each place.
fn runs_of(lines: Vec<Line>) -> [HashSet<Vec<u8>>; RUNS] {
    let mut all: [HashSet<Vec<u8>>; RUNS] = Default::default();
    for (step, _) in lines {
        if let Step::Rights { runs, .. } = step {
            for (all, run) in all.iter_mut().zip(runs) {
                all.insert(run);
            }
        }
    }
    all
}

/// Each fault stands in the sample's part of the scene in each run.
#[test]
fn the_sample_has_every_fault_in_every_run() {
    let sample = runs_of(extension_scene::lines());
    for fault in extension_faults::all() {
        for (run, runs) in sample.iter().enumerate() {
            let (mut objects, number) = extension_scene::draft(run, fault);
            let made = extension_faults::make(&mut objects, number, fault);
            assert!(made.is_some(), "{fault:?} in run {run}");
            let there = runs.contains(&bytes_of(&objects));
            assert!(there, "{fault:?} in run {run}");
        }
    }
}

/// The sample's part of the scene alone shows each slip.
#[test]
fn a_difference_is_seen_by_the_sample() {
    let lines = extension_scene::lines();
    for (name, wrong) in WRONG {
        let differs = lines.iter().any(|(step, _)| differs(*wrong, step));
        assert!(differs, "no difference by {name}");
    }
}

/// Each order stands in the sample's part of the scene in each run that is accepted.
#[test]
fn the_sample_has_every_order_in_every_run() {
    let mut seen: [HashSet<Vec<usize>>; RUNS] = Default::default();
    for (step, outcome) in extension_scene::lines() {
        if let (Step::Rights { runs, .. }, true) = (step, outcome.starts_with("rights")) {
            for (seen, run) in seen.iter_mut().zip(runs) {
                let known = walk(&run).seen;
                let known = known
                    .iter()
                    .filter_map(|one| extension::which(one.identifier));
                seen.insert(known.collect());
            }
        }
    }
    assert_eq!(seen.map(|orders| orders.len()), [ORDERS.len(); RUNS]);
}

/// Each fault stands in the scene in each run and at each extension where it can be made.
#[test]
fn the_scene_has_every_fault_at_every_place() {
    let scene = runs_of([extension_scene::lines(), extension_more::more_lines()].concat());
    for fault in extension_faults::all() {
        for (run, runs) in scene.iter().enumerate() {
            for number in 0..3 {
                let mut objects = extension_scene::base(run);
                if extension_faults::make(&mut objects, number, fault).is_some() {
                    let there = runs.contains(&bytes_of(&objects));
                    assert!(there, "{fault:?} in run {run} at {number}");
                }
            }
        }
    }
}

/// In each run the scene has an identifier that is as long as it can be.
#[test]
fn the_scene_has_the_longest_identifiers() {
    let start = [0x73, 0x82, 0xFF, 0xFF, 0x06, 0x82, 0xFF, 0xF9];
    for runs in runs_of(extension_more::more_lines()) {
        let mut longest = runs.iter().filter(|run| run.starts_with(&start));
        assert_eq!(
            longest.next().map(|run| run[65_537..65_539].to_vec()),
            Some(vec![0x53, 0x00])
        );
    }
}

/// No reading stands in the scene twice.
#[test]
fn the_scene_has_nothing_twice() {
    let mut seen = HashSet::new();
    let lines = [extension_scene::lines(), extension_more::more_lines()].concat();
    for (number, (step, _)) in lines.into_iter().enumerate() {
        assert!(seen.insert(step), "line {number}");
    }
}

/// Each thing that may be wrong, each refusal, and one run of more than 65,535 bytes with an
/// extension that is as long as it can be.
#[test]
fn the_sample_has_every_fault() {
    let sample = Sample::generate(sample::SEED);
    let tally = &sample.tally.extension;
    for what in extension_sort::all() {
        assert!(tally.fault(what) >= 2, "{}", what.name());
    }
    for refusal in [0, 1, BAD, SECOND] {
        assert!(tally.ended(refusal) >= 30, "refusal {refusal}");
    }
    let longest = [0x73, 0x82, 0xFF, 0xFF, 0x06, 0x00, 0x53, 0x82];
    let parts = sample.stdin.windows(longest.len());
    assert_eq!(parts.filter(|part| **part == longest).count(), 1);
}
