//! What stands in a run of extensions up to its end or its first fault, and what that fault is.

use crate::extension::{which, KNOWN};
use crate::extension_faults::{Part, BAD, SECOND};

/// What is wrong with an object.
#[derive(Clone, Copy, Debug, PartialEq, Eq, PartialOrd, Ord)]
pub enum Wrong {
    Nothing,
    Tag,
    NoLength,
    HalfLength,
    NotShortest,
    OtherForm,
    Past,
}

pub const WRONG: [Wrong; 7] = [
    Wrong::Nothing,
    Wrong::Tag,
    Wrong::NoLength,
    Wrong::HalfLength,
    Wrong::NotShortest,
    Wrong::OtherForm,
    Wrong::Past,
];

impl Wrong {
    pub fn name(self) -> &'static str {
        match self {
            Self::Nothing => "nothing stands there",
            Self::Tag => "another tag",
            Self::NoLength => "no length",
            Self::HalfLength => "half a length",
            Self::NotShortest => "a form that is not the shortest",
            Self::OtherForm => "another form",
            Self::Past => "past the end",
        }
    }
}

/// What is wrong with an extension. A known one is told by its place in [`KNOWN`].
#[derive(Clone, Copy, Debug, PartialEq, Eq, PartialOrd, Ord)]
pub enum What {
    Object(Part, Wrong),
    /// Something stands behind `53`.
    Surplus,
    /// The rights of a known one are shorter than they should be.
    Short(usize),
    Long(usize),
    Twice(usize),
}

impl What {
    pub fn refusal(self) -> u64 {
        match self {
            Self::Twice(_) => SECOND,
            _ => BAD,
        }
    }

    pub fn name(self) -> String {
        match self {
            Self::Object(part, wrong) => format!("{}: {}", part.name(), wrong.name()),
            Self::Surplus => "something behind 53".to_string(),
            Self::Short(known) => format!("{}: too short", KNOWN[known].name),
            Self::Long(known) => format!("{}: too long", KNOWN[known].name),
            Self::Twice(known) => format!("{}: twice", KNOWN[known].name),
        }
    }
}

/// All that may be wrong.
pub fn all() -> Vec<What> {
    let objects = [Part::Extension, Part::Identifier, Part::Rights];
    let objects = objects.into_iter().flat_map(|part| {
        let wrong = WRONG
            .into_iter()
            // A run may end where an extension could stand.
            .filter(move |wrong| part != Part::Extension || *wrong != Wrong::Nothing);
        wrong.map(move |wrong| What::Object(part, wrong))
    });
    let known = (0..KNOWN.len()).flat_map(|k| [What::Short(k), What::Long(k), What::Twice(k)]);
    objects.chain([What::Surplus]).chain(known).collect()
}

/// An extension without a fault.
#[derive(Clone, Copy)]
pub struct Seen<'b> {
    pub identifier: &'b [u8],
    pub rights: &'b [u8],
    /// How many bytes are inside `73`.
    pub inside: usize,
}

/// What is wrong with a run.
#[derive(Clone, Copy)]
pub struct Found {
    /// How many extensions stand before the one at fault.
    pub number: usize,
    pub what: What,
    /// Whether this is refusal 7 of a known one that stands there for the second time, so that
    /// both are true of it.
    pub also_second: bool,
    /// What is wrong next behind the extension at fault. None, too, where its `73` cannot be read,
    /// so that nothing tells where it ends.
    pub behind: Option<What>,
}

/// What stands in a run.
pub struct Walk<'b> {
    pub seen: Vec<Seen<'b>>,
    pub found: Option<Found>,
}

/// Reads a run up to its end or its first fault.
pub fn walk(run: &[u8]) -> Walk<'_> {
    let mut seen = Vec::new();
    let found = first_fault(run, &mut seen).map(|(what, rest)| {
        let number = seen.len();
        let also_second = what.refusal() == BAD && is_second(rest, &seen);
        let behind = object(rest, Part::Extension).ok();
        let behind = behind.and_then(|(_, behind)| first_fault(behind, &mut seen));
        seen.truncate(number);
        Found {
            number,
            what,
            also_second,
            behind: behind.map(|(what, _)| what),
        }
    });
    Walk { seen, found }
}

/// What is first wrong with the extensions that these bytes should be, and the bytes from that
/// one on. Those before it join what was seen.
fn first_fault<'b>(mut bytes: &'b [u8], seen: &mut Vec<Seen<'b>>) -> Option<(What, &'b [u8])> {
    while !bytes.is_empty() {
        match extension(bytes, seen) {
            Ok((next, behind)) => {
                seen.push(next);
                bytes = behind;
            }
            Err(what) => return Some((what, bytes)),
        }
    }
    None
}

/// The extension that the bytes begin with, and what is behind it.
fn extension<'b>(bytes: &'b [u8], seen: &[Seen<'_>]) -> Result<(Seen<'b>, &'b [u8]), What> {
    let (inside, behind) = object(bytes, Part::Extension)?;
    let (identifier, rest) = object(inside, Part::Identifier)?;
    let (rights, surplus) = object(rest, Part::Rights)?;
    if !surplus.is_empty() {
        return Err(What::Surplus);
    }
    if let Some(known) = which(identifier) {
        match rights.len() {
            size if size < KNOWN[known].size => return Err(What::Short(known)),
            size if size > KNOWN[known].size => return Err(What::Long(known)),
            _ if seen.iter().any(|one| one.identifier == identifier) => {
                return Err(What::Twice(known));
            }
            _ => {}
        }
    }
    let seen = Seen {
        identifier,
        rights,
        inside: inside.len(),
    };
    Ok((seen, behind))
}

/// Whether the bytes begin with an extension whose identifier can be read, is known and was seen.
fn is_second(bytes: &[u8], seen: &[Seen<'_>]) -> bool {
    object(bytes, Part::Extension)
        .and_then(|(inside, _)| object(inside, Part::Identifier))
        .is_ok_and(|(identifier, _)| {
            which(identifier).is_some() && seen.iter().any(|one| one.identifier == identifier)
        })
}

/// The value of the object that the bytes begin with, and what is behind it.
fn object(bytes: &[u8], part: Part) -> Result<(&[u8], &[u8]), What> {
    let wrong = |wrong| What::Object(part, wrong);
    let (tag, rest) = bytes.split_first().ok_or(wrong(Wrong::Nothing))?;
    if *tag != part.tag() {
        return Err(wrong(Wrong::Tag));
    }
    let (head, size) = match *rest {
        [size @ ..=0x7F, ..] => (1, usize::from(size)),
        [0x81, size @ 0x80..=0xFF, ..] => (2, usize::from(size)),
        [0x82, high @ 0x01..=0xFF, low, ..] => (3, usize::from(u16::from_be_bytes([high, low]))),
        [] => return Err(wrong(Wrong::NoLength)),
        [0x81 | 0x82] | [0x82, _] => return Err(wrong(Wrong::HalfLength)),
        [0x81 | 0x82, ..] => return Err(wrong(Wrong::NotShortest)),
        _ => return Err(wrong(Wrong::OtherForm)),
    };
    rest[head..]
        .split_at_checked(size)
        .ok_or(wrong(Wrong::Past))
}
