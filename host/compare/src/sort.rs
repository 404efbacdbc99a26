//! What sort of call of an index it is, by its arguments alone: what it does, or why it is
//! refused.

use crate::make::{self, Rule, RULES};
use crate::step::IndexCall;
use crate::view;

#[derive(Clone, Copy, Debug, PartialEq, Eq, PartialOrd, Ord)]
pub enum Op {
    Build,
    Extend,
    Read,
}

use Op::*;

#[derive(Clone, Copy, Debug, PartialEq, Eq, PartialOrd, Ord)]
pub enum Sort {
    // Built or extended.
    Just,
    Longer,
    // By the kind.
    UnknownKind,
    BiometricsKind,
    // By the body.
    NoCount,
    TooMany,
    NoByte,
    TooLong,
    Torn,
    // By the list.
    OneShort,
    Shorter,
    // By n.
    NBelow,
    NAbove,
    NLargest,
    NIn32Bits,
    OtherN,
    // Read.
    Record,
    Nothing,
    Long,
    // By the number.
    Zero,
    OneAbove,
    Largest,
    In32Bits,
    Above,
    // By the place.
    LengthByOne,
    LengthByTwo,
    BytesByOne,
    Bytes,
    Behind,
    FarBehind,
    /// For more than one reason.
    Several,
}

use Sort::*;

/// The sorts that there are of each call, but for those that are refused for several reasons.
pub const SORTS: [(Op, &[Sort]); 3] = [
    (
        Build,
        &[
            Just,
            Longer,
            UnknownKind,
            BiometricsKind,
            NoCount,
            TooMany,
            NoByte,
            TooLong,
            Torn,
            OneShort,
            Shorter,
        ],
    ),
    (
        Extend,
        &[
            Just,
            Longer,
            UnknownKind,
            BiometricsKind,
            NoCount,
            TooMany,
            NoByte,
            TooLong,
            Torn,
            OneShort,
            Shorter,
            NBelow,
            NAbove,
            NLargest,
            NIn32Bits,
            OtherN,
        ],
    ),
    (
        Read,
        &[
            Record,
            Nothing,
            Long,
            Zero,
            OneAbove,
            Largest,
            In32Bits,
            Above,
            LengthByOne,
            LengthByTwo,
            BytesByOne,
            Bytes,
            Behind,
            FarBehind,
        ],
    ),
];

impl Op {
    pub fn name(self) -> &'static str {
        match self {
            Build => "build",
            Extend => "extend",
            Read => "read",
        }
    }
}

impl Sort {
    pub fn name(self) -> &'static str {
        match self {
            Just => "done, the list just long enough",
            Longer => "done, with entries behind",
            UnknownKind => "an unknown kind",
            BiometricsKind => "a kind of biometrics",
            NoCount => "a body without a count",
            TooMany => "a count above the most",
            NoByte => "a record of no byte",
            TooLong => "a record above the longest",
            Torn => "a body that is torn",
            OneShort => "a list one entry too short",
            Shorter => "a list shorter than that",
            NBelow => "n one too small",
            NAbove => "n one too large",
            NLargest => "n the largest number",
            NIn32Bits => "n right but for 2^32",
            OtherN => "another n",
            Record => "a record",
            Nothing => "no byte",
            Long => "more bytes than a record has",
            Zero => "number 0",
            OneAbove => "a number one too large",
            Largest => "the largest number",
            In32Bits => "a number right but for 2^32",
            Above => "another number above the list",
            LengthByOne => "a length that leaves the body by one byte",
            LengthByTwo => "a length that leaves the body by two",
            BytesByOne => "bytes that leave the body by one",
            Bytes => "bytes that leave the body by more",
            Behind => "a place behind the body",
            FarBehind => "a place near 2^32",
            Several => "more than one reason",
        }
    }

    /// Whether a call of this sort is done, and not refused.
    pub fn is_done(self) -> bool {
        matches!(self, Just | Longer | Record | Nothing | Long)
    }
}

/// What is called, and the sort of the call at this place of a step.
pub fn sort(call: IndexCall, places: &[u32], body: &[u8], at: usize) -> (Op, Sort) {
    match call {
        IndexCall::Build { kind } => (Build, build(kind, places, body)),
        IndexCall::Extend { kind, n } => (Extend, extend(kind, places, body, n)),
        IndexCall::Read { first, .. } => (Read, read(first + at, places, body)),
    }
}

fn build(kind: u16, places: &[u32], body: &[u8]) -> Sort {
    let count = view::count(body);
    let mut reasons = kind_and_body(kind, body);
    reasons.extend(shortness(places, count));
    judged(&reasons, places.len() == count)
}

fn extend(kind: u16, places: &[u32], body: &[u8], n: usize) -> Sort {
    let count = view::count(body);
    let mut reasons = kind_and_body(kind, body);
    // A body without a count has none that n could be below.
    if !reasons.contains(&NoCount) {
        let wrong = wrong_n(n, count);
        // No list is long enough for the largest numbers.
        let needed = match wrong {
            Some(NLargest | NIn32Bits) => count,
            _ => n + 1,
        };
        reasons.extend(wrong);
        reasons.extend(shortness(places, needed));
    }
    judged(&reasons, places.len() == count)
}

/// The one reason, or how it is done where there is none.
fn judged(reasons: &[Sort], just: bool) -> Sort {
    match reasons {
        [] if just => Just,
        [] => Longer,
        [reason] => *reason,
        _ => Several,
    }
}

fn kind_and_body(kind: u16, body: &[u8]) -> Vec<Sort> {
    let biometrics = make::BIOMETRICS_KIND + 1..=make::BIOMETRICS_KIND + 64;
    match RULES.iter().find(|rule| rule.kind == kind) {
        Some(rule) => faults(rule, body),
        None => {
            let reason = if biometrics.contains(&kind) {
                BiometricsKind
            } else {
                UnknownKind
            };
            // The body is good by the rule that allows most, or that is a reason too.
            let faults = faults(make::travel_certificates(), body);
            [vec![reason], faults].concat()
        }
    }
}

/// What is wrong with a body, each but once.
fn faults(rule: &Rule, body: &[u8]) -> Vec<Sort> {
    let mut faults = Vec::new();
    if body.len() < 2 {
        return vec![NoCount];
    }
    let count = view::count(body);
    if count > rule.most {
        faults.push(TooMany);
    }
    let mut at = 2;
    for _ in 0..count {
        let Some(length) = length_at(body, at).filter(|length| at + 2 + length <= body.len())
        else {
            faults.push(Torn);
            break;
        };
        match length {
            0 => faults.push(NoByte),
            _ if length > rule.longest => faults.push(TooLong),
            _ => {}
        }
        at += 2 + length;
    }
    faults.sort_unstable();
    faults.dedup();
    faults
}

fn length_at(body: &[u8], at: usize) -> Option<usize> {
    let bytes = body.get(at..at + 2)?;
    Some(usize::from(u16::from_le_bytes([bytes[0], bytes[1]])))
}

fn shortness(places: &[u32], needed: usize) -> Option<Sort> {
    match needed.checked_sub(places.len())? {
        0 => None,
        1 => Some(OneShort),
        _ => Some(Shorter),
    }
}

fn wrong_n(n: usize, count: usize) -> Option<Sort> {
    match n.checked_add(1) {
        Some(next) if next == count => None,
        None => Some(NLargest),
        Some(next) if next as u32 as usize == count => Some(NIn32Bits),
        Some(_) if n == count => Some(NAbove),
        Some(next) if next.checked_add(1) == Some(count) => Some(NBelow),
        Some(_) => Some(OtherN),
    }
}

fn read(number: usize, places: &[u32], body: &[u8]) -> Sort {
    let Some(before) = number.checked_sub(1) else {
        return Zero;
    };
    let Some(place) = places.get(before) else {
        return match number {
            usize::MAX => Largest,
            _ if before == places.len() => OneAbove,
            _ if (1..=places.len()).contains(&(number as u32 as usize)) => In32Bits,
            _ => Above,
        };
    };
    let place = *place as usize;
    match body.len().checked_sub(place) {
        None if place > u32::MAX as usize - 4 => FarBehind,
        None => Behind,
        Some(0) => LengthByTwo,
        Some(1) => LengthByOne,
        Some(left) => of_length(length_at(body, place).unwrap_or(0), left - 2),
    }
}

/// What a length says that has so many bytes behind it.
fn of_length(length: usize, left: usize) -> Sort {
    match length {
        _ if length == left + 1 => BytesByOne,
        _ if length > left => Bytes,
        0 => Nothing,
        _ if length > make::travel_certificates().longest => Long,
        _ => Record,
    }
}
