//! What sort of read it is, by the record and the result: a stamp, a list that is too short, or
//! what is wrong at which place.

use crate::stamp::{Place, Set, FIELDS, PLACES};
use crate::stamp_faults::Reason;

#[derive(Clone, Copy, Debug, PartialEq, Eq, PartialOrd, Ord)]
pub enum Sort {
    Stamp,
    ShortList,
    /// What is wrong, and what should stand there.
    Fault(Place, Wrong),
}

/// What is wrong.
#[derive(Clone, Copy, Debug, PartialEq, Eq, PartialOrd, Ord)]
pub enum Wrong {
    // By what stands there.
    Nothing,
    HalfTag,
    /// An object of a stamp that belongs elsewhere.
    Known(Place),
    Foreign,
    // By the length.
    NoLength,
    HalfLength,
    NotShortest,
    OtherForm,
    Past,
    Zero,
    TooShort,
    TooLong,
    // By the value.
    Byte,
    Number00,
    NumberFF,
    States,
}

use Wrong::*;

/// What may be wrong with a tag, a length and a content.
pub const WRONG: [(Reason, &[Wrong]); 3] = [
    (Reason::Tag, &[Nothing, HalfTag, Foreign]),
    (
        Reason::Length,
        &[
            NoLength,
            HalfLength,
            NotShortest,
            OtherForm,
            Past,
            Zero,
            TooShort,
            TooLong,
        ],
    ),
    (Reason::Content, &[Byte, Number00, NumberFF, States]),
];

impl Wrong {
    pub fn reason(self) -> Reason {
        match self {
            Nothing | HalfTag | Known(_) | Foreign => Reason::Tag,
            NoLength | HalfLength | NotShortest | OtherForm | Past | Zero | TooShort | TooLong => {
                Reason::Length
            }
            Byte | Number00 | NumberFF | States => Reason::Content,
        }
    }

    pub fn name(self) -> &'static str {
        match self {
            Nothing => "nothing stands there",
            HalfTag => "half a tag",
            Known(_) => "an object that belongs elsewhere",
            Foreign => "a tag that no stamp has",
            NoLength => "no length",
            HalfLength => "half a length",
            NotShortest => "a form that is not the shortest",
            OtherForm => "another form",
            Past => "past the container",
            Zero => "no byte",
            TooShort => "too short",
            TooLong => "too long",
            Byte => "a byte outside the set",
            Number00 => "reference 00",
            NumberFF => "reference FF",
            States => "States that differ",
        }
    }
}

/// The sort of a read that had this result.
pub fn sort(record: &[u8], result: u64) -> Sort {
    match Reason::of(result) {
        None if result == 0 => Sort::Stamp,
        None => Sort::ShortList,
        Some(reason) => {
            let (place, end) = walk(record, result as u32 as usize, &mut vec![]);
            let there = &record[(result as u32 as usize).min(end)..end];
            let wrong = match reason {
                Reason::Tag => standing(there, place),
                Reason::Length => length(there, place),
                Reason::Content => content(there, place),
            };
            Sort::Fault(place, wrong)
        }
    }
}

/// The fields that a stamp has.
pub fn present(record: &[u8]) -> Vec<usize> {
    let mut seen = Vec::new();
    walk(record, usize::MAX, &mut seen);
    seen.iter()
        .filter_map(|place| match place {
            Place::Field(field) => Some(*field),
            _ => None,
        })
        .collect()
}

/// The place of the object at this offset, or of the first that is not where it should be; and
/// where its container ends. The places before it are noted.
fn walk(record: &[u8], at: usize, seen: &mut Vec<Place>) -> (Place, usize) {
    let (mut here, mut end) = (0, record.len());
    for place in PLACES {
        let there = &record[here..end];
        match place {
            Place::End => break,
            Place::SignedEnd if there.is_empty() => {
                end = record.len();
                continue;
            }
            _ if place.is_optional() && !there.starts_with(place.tag()) => continue,
            _ => {}
        }
        let is_here = place != Place::SignedEnd && there.starts_with(place.tag());
        let value = value_of(&there[place.tag().len().min(there.len())..]);
        let Some((head, length)) = value.filter(|_| is_here && here != at) else {
            return (place, end);
        };
        seen.push(place);
        here += place.tag().len() + head;
        match place {
            Place::Signed => end = here + length,
            _ => here += length,
        }
    }
    (Place::End, end)
}

/// How many bytes a length has, and what it says; none where the value is not there.
fn value_of(bytes: &[u8]) -> Option<(usize, usize)> {
    let (head, length) = match *bytes {
        [length @ ..=0x7F, ..] => (1, usize::from(length)),
        [0x81, length, ..] => (2, usize::from(length)),
        [0x82, high, low, ..] => (3, usize::from(u16::from_be_bytes([high, low]))),
        _ => return None,
    };
    (bytes.len() - head >= length).then_some((head, length))
}

/// What stands where a tag is wrong. A State is the one of the container.
fn standing(there: &[u8], place: Place) -> Wrong {
    let known = PLACES.iter().filter(|known| {
        let state = FIELDS[0].tag == known.tag();
        !known.tag().is_empty()
            && there.starts_with(known.tag())
            && (!state || known.container() == place.container())
    });
    match (there, known.copied().next()) {
        ([], _) => Nothing,
        ([0x5F], _) => HalfTag,
        (_, Some(known)) => Known(known),
        _ => Foreign,
    }
}

fn length(there: &[u8], place: Place) -> Wrong {
    let bytes = &there[place.tag().len().min(there.len())..];
    match *bytes {
        [] => return NoLength,
        [0x81 | 0x82] | [0x82, _] => return HalfLength,
        [0x81, ..=0x7F, ..] | [0x82, 0x00, ..] => return NotShortest,
        [0x80 | 0x83.., ..] => return OtherForm,
        _ => {}
    }
    match (value_of(bytes), place) {
        (None, _) => Past,
        (Some((_, 0)), _) => Zero,
        (Some((_, size)), Place::Field(field)) if size < FIELDS[field].shortest => TooShort,
        _ => TooLong,
    }
}

fn content(there: &[u8], place: Place) -> Wrong {
    let Place::Field(field) = place else {
        return Byte;
    };
    let set = FIELDS[field].set;
    let value = there.get(3..).unwrap_or_default();
    match (set, value) {
        (Set::Number, [0x00, ..]) => Number00,
        (Set::Number, _) => NumberFF,
        (Set::Letters, [a, b, c, ..]) if [a, b, c].iter().all(|byte| set.has(**byte)) => States,
        _ => Byte,
    }
}

/// Whether something may be wrong at a place for this reason: that an object is missing there or
/// one is too many; that its own length or content is wrong.
pub fn may_be_wrong(place: Place, reason: Reason) -> bool {
    let end = matches!(place, Place::SignedEnd | Place::End);
    match reason {
        Reason::Tag => !place.is_optional(),
        Reason::Length => !end,
        Reason::Content => {
            matches!(place, Place::Field(field) if FIELDS[field].set != Set::Any)
        }
    }
}
