//! What may be wrong with a stamp: one thing at one place, and how a reader must tell it.

use crate::make::length as length_of;
use crate::stamp::{Container, Draft, Object, Place, FIELDS, STATE, STATE_COPY};

/// What is done to the object of a place.
#[derive(Clone, Copy, Debug, PartialEq, Eq, PartialOrd, Ord)]
pub enum Fault {
    // Wrong tags.
    /// It is left out.
    Missing,
    /// Its container ends before it.
    Ended,
    /// It changes places with the next of its container.
    Exchanged,
    /// It stands on the other side of the head or the end of `73`.
    Moved,
    Doubled,
    /// An object that no stamp has stands before it.
    Foreign,
    /// A byte that begins no tag stands before it.
    Byte,
    FirstTagByte,
    SecondTagByte,
    /// Its container ends amid its tag.
    HalfTag,
    // Wrong lengths.
    /// Its container ends behind its tag.
    NoLength,
    /// Its container ends behind these bytes of its length.
    Half81,
    Half82,
    Half8201,
    Zero,
    Below,
    Above,
    /// It lacks its last byte, and its container ends there.
    Torn,
    /// Its length is one more than what its container has.
    Past,
    // Forms of its length.
    Form81,
    Form82,
    Form80,
    Form83,
    Form84,
    FormFF,
    // Wrong content.
    /// Another byte, first in the value.
    First(u8),
    /// And last.
    Last(u8),
    /// Another letter in one State, which the other State has not.
    Letter(usize),
    /// The same letter in the other case.
    Case(usize),
}

use Fault::*;

/// Those of the tag.
pub const TAGS: [Fault; 10] = [
    Missing,
    Ended,
    Exchanged,
    Moved,
    Doubled,
    Foreign,
    Byte,
    FirstTagByte,
    SecondTagByte,
    HalfTag,
];

/// Those of the length.
pub const LENGTHS: [Fault; 15] = [
    NoLength, Half81, Half82, Half8201, Zero, Below, Above, Torn, Past, Form81, Form82, Form80,
    Form83, Form84, FormFF,
];

/// Those of the content of a field.
pub fn contents(place: Place) -> Vec<Fault> {
    let Place::Field(field) = place else {
        return vec![];
    };
    let others = FIELDS[field].set.others();
    let mut faults: Vec<Fault> = others.iter().map(|byte| First(*byte)).collect();
    if FIELDS[field].longest > 1 {
        faults.extend(others.iter().map(|byte| Last(*byte)));
    }
    if matches!(field, STATE_COPY | STATE) {
        faults.extend((0..3).flat_map(|at| [Letter(at), Case(at)]));
    }
    faults
}

/// All that may be wrong at a place.
pub fn all(place: Place) -> Vec<Fault> {
    [&TAGS[..], &LENGTHS, &contents(place)].concat()
}

/// Why a record is no stamp. The numbers are those of the results.
#[derive(Clone, Copy, Debug, PartialEq, Eq, PartialOrd, Ord)]
pub enum Reason {
    Tag = 1,
    Length = 2,
    Content = 3,
}

impl Reason {
    pub fn name(self) -> &'static str {
        match self {
            Self::Tag => "tag",
            Self::Length => "length",
            Self::Content => "content",
        }
    }

    /// The reason of a result; none where it is no fault.
    pub fn of(result: u64) -> Option<Self> {
        match result >> 32 {
            1 => Some(Self::Tag),
            2 => Some(Self::Length),
            3 => Some(Self::Content),
            _ => None,
        }
    }
}

/// What a reader must tell.
#[derive(Clone, Copy, Debug, PartialEq, Eq)]
pub struct Told {
    pub reason: Reason,
    pub at: usize,
}

/// Does one thing wrong in a stamp. None, and the stamp as it was, where this cannot be done here,
/// or is not wrong.
pub fn make(draft: &mut Draft, place: Place, fault: Fault) -> Option<Told> {
    let before = draft.find(place)?;
    let (reason, at) = match fault {
        Missing | Ended | Exchanged | Moved | Doubled | Foreign | Byte | FirstTagByte
        | SecondTagByte | HalfTag => {
            let (container, before) = wrong_tag(draft, place, before, fault)?;
            (Reason::Tag, draft.offset(container, before))
        }
        First(_) | Last(_) | Letter(_) | Case(_) => {
            let place = wrong_content(draft, place, before, fault)?;
            let before = draft.find(place)?;
            (Reason::Content, draft.offset(place.container(), before))
        }
        // What is missing then stands inside.
        Zero if place == Place::Signed => {
            draft.objects[before].inside.clear();
            (Reason::Tag, draft.offset(Container::Signed, 0))
        }
        _ => {
            wrong_length(draft, place, before, fault)?;
            (Reason::Length, draft.offset(place.container(), before))
        }
    };
    Some(Told { reason, at })
}

/// An object that no stamp has.
fn foreign() -> Object {
    Object::new(&[0x5F, 0x4F], b"F")
}

/// Bytes that are no object.
fn torn(bytes: &[u8]) -> Object {
    Object {
        length: Some(vec![]),
        ..Object::new(bytes, &[])
    }
}

/// Where the tag is wrong: a container, and how many of its objects stand before.
fn wrong_tag(
    draft: &mut Draft,
    place: Place,
    before: usize,
    fault: Fault,
) -> Option<(Container, usize)> {
    let container = place.container();
    let list = draft.list(container)?;
    match fault {
        Foreign => list.insert(before, foreign()),
        Byte => list.insert(before, torn(&[0x00])),
        HalfTag if place == Place::Signed => return None,
        HalfTag => {
            list.truncate(before);
            list.push(torn(&[0x5F]));
        }
        _ if matches!(place, Place::SignedEnd | Place::End) => return None,
        _ => return wrong_tag_of_object(draft, place, before, fault),
    }
    Some((container, before))
}

/// The same of faults that need an object at this place.
fn wrong_tag_of_object(
    draft: &mut Draft,
    place: Place,
    before: usize,
    fault: Fault,
) -> Option<(Container, usize)> {
    let container = place.container();
    let optional = place.is_optional();
    let list = draft.list(container)?;
    match fault {
        Missing if optional => return None,
        Missing => drop(list.remove(before)),
        // Behind these all are optional.
        Ended if matches!(place, Place::Field(7..=10)) => return None,
        Ended => list.truncate(before),
        Exchanged => {
            if before + 1 == list.len() {
                return None;
            }
            list.swap(before, before + 1);
            return Some((container, before + usize::from(optional)));
        }
        Moved => return moved(draft, place, before),
        Doubled => {
            list.insert(before + 1, list[before].clone());
            return Some((container, before + 1));
        }
        FirstTagByte => list[before].tag[0] ^= 0x20,
        SecondTagByte => *list[before].tag.get_mut(1)? |= 0x80,
        _ => return None,
    }
    Some((container, before))
}

/// From before `73` to its first place, from inside to behind it, from behind to its last place.
fn moved(draft: &mut Draft, place: Place, before: usize) -> Option<(Container, usize)> {
    let signed = draft.find(Place::Signed)?;
    match (place, place.container()) {
        (Place::Signed, _) => None,
        (_, Container::Signed) => {
            let object = draft.objects[signed].inside.remove(before);
            draft.objects.insert(signed + 1, object);
            // An optional one is wrong where it stands now, and not where it stood.
            Some(if place.is_optional() {
                (Container::Record, signed + 1)
            } else {
                (Container::Signed, before)
            })
        }
        (Place::Field(STATE_COPY), _) => {
            let object = draft.objects.remove(before);
            draft.list(Container::Signed)?.insert(0, object);
            Some((Container::Record, before))
        }
        _ => {
            let object = draft.objects.remove(before);
            let inside = draft.list(Container::Signed)?;
            inside.push(object);
            Some((Container::Signed, inside.len() - 1))
        }
    }
}

fn wrong_length(draft: &mut Draft, place: Place, before: usize, fault: Fault) -> Option<()> {
    let list = draft.list(place.container())?;
    if before == list.len() {
        return None;
    }
    let behind: usize = list[before..]
        .iter()
        .map(|object| object.bytes().len())
        .sum();
    let whole = list[before].bytes().len();
    let content = list[before].content().len();
    let low = u8::try_from(content).ok()?;
    let form = |bytes: &[u8]| Some(bytes.to_vec());
    match fault {
        NoLength => return ended_amid(list, before, &[]),
        Half81 => return ended_amid(list, before, &[0x81]),
        Half82 => return ended_amid(list, before, &[0x82]),
        Half8201 => return ended_amid(list, before, &[0x82, 0x01]),
        Torn => return torn_apart(list, before, place),
        Zero | Below | Above => return wrong_size(&mut list[before], place, fault),
        _ => {}
    }
    list[before].length = match fault {
        Past => form(&length_of(behind - whole + content + 1)),
        Form81 if low < 0x80 => form(&[0x81, low]),
        Form82 => form(&[0x82, 0x00, low]),
        Form80 => form(&[0x80]),
        Form83 => form(&[0x83, 0x00, 0x00, low]),
        Form84 => form(&[0x84, 0x00, 0x00, 0x00, low]),
        FormFF => form(&[0xFF]),
        _ => return None,
    };
    Some(())
}

/// The container ends behind the object's tag and these bytes of its length.
fn ended_amid(list: &mut Vec<Object>, before: usize, length: &[u8]) -> Option<()> {
    list.truncate(before + 1);
    let object = &mut list[before];
    object.length = Some(length.to_vec());
    object.inside.clear();
    object.value.clear();
    Some(())
}

/// The container ends one byte before the object does. Its length is one that the table allows.
fn torn_apart(list: &mut Vec<Object>, before: usize, place: Place) -> Option<()> {
    list.truncate(before + 1);
    let object = &mut list[before];
    let mut content = object.content();
    if let Place::Field(field) = place {
        // Of two bytes, where there may be two, one is then left.
        let length = content.len().max(2).min(FIELDS[field].longest);
        let byte = content.first().copied().unwrap_or(b'A');
        content.resize(length, byte);
    }
    object.length = Some(length_of(content.len()));
    content.pop();
    object.inside.clear();
    object.value = content;
    Some(())
}

/// A value of a size that the table does not allow.
fn wrong_size(object: &mut Object, place: Place, fault: Fault) -> Option<()> {
    let Place::Field(field) = place else {
        return None;
    };
    let (shortest, longest) = (FIELDS[field].shortest, FIELDS[field].longest);
    let size = match fault {
        Zero => 0,
        Below if shortest > 1 => shortest - 1,
        Above => longest + 1,
        _ => return None,
    };
    let byte = object.value.first().copied().unwrap_or(b'A');
    object.value.resize(size, byte);
    Some(())
}

/// At which place the content is wrong.
fn wrong_content(draft: &mut Draft, place: Place, before: usize, fault: Fault) -> Option<Place> {
    let Place::Field(field) = place else {
        return None;
    };
    let list = draft.list(place.container())?;
    let value = &mut list[before].value;
    let state = matches!(field, STATE_COPY | STATE);
    let wrong = |byte: u8| !FIELDS[field].set.has(byte);
    match fault {
        First(byte) if wrong(byte) => *value.first_mut()? = byte,
        Last(byte) if wrong(byte) => *value.last_mut()? = byte,
        Letter(at) if state => {
            let letter = value.get_mut(at)?;
            *letter = if *letter == b'Q' { b'X' } else { b'Q' };
            return Some(Place::Field(STATE));
        }
        Case(at) if state => {
            *value.get_mut(at)? ^= 0x20;
            return Some(Place::Field(STATE));
        }
        _ => return None,
    }
    Some(place)
}
