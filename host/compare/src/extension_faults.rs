//! What may be wrong with an extension: one thing in one extension of a run, and the refusal that
//! it gets.

use crate::extension::{which, KNOWN, TAGS};
use crate::make::length as length_of;
use crate::stamp::Object;

/// The objects of an extension.
#[derive(Clone, Copy, Debug, PartialEq, Eq, PartialOrd, Ord)]
pub enum Part {
    /// `73`.
    Extension,
    /// `06`.
    Identifier,
    /// `53`.
    Rights,
}

pub const PARTS: [Part; 3] = [Part::Extension, Part::Identifier, Part::Rights];

impl Part {
    pub fn tag(self) -> u8 {
        TAGS[self as usize]
    }

    pub fn name(self) -> String {
        format!("{:02X}", self.tag())
    }
}

/// What is done to an extension, or to one of its objects.
#[derive(Clone, Copy, Debug, PartialEq, Eq)]
pub enum Fault {
    // Of one object.
    Tag(Part, u8),
    /// Its length is in this form, given by its first byte.
    Form(Part, u8),
    /// Its length says one byte more than it has.
    Longer(Part),
    /// And one less.
    Shorter(Part),
    /// What it stands in ends behind its tag.
    NoLength(Part),
    /// And behind these bytes of its length.
    Half(Part, &'static [u8]),
    /// It lacks its last byte, and what it stands in ends there.
    Torn(Part),
    // Of what is inside `73`.
    /// The object of this part is left out.
    Missing(Part),
    Empty,
    /// `53` stands before `06`.
    Exchanged,
    /// An object of this tag stands before `06`.
    Before(u8),
    /// And behind `53`.
    Third(u8),
    /// A byte stands behind `53`.
    Byte(u8),
    // Of the run.
    /// A byte stands before the extension.
    Stray(u8),
    // Of a known one.
    /// Its rights have so many bytes.
    Size(usize),
    /// It stands there once more, right behind, with other rights.
    Twice,
    /// And last in the run.
    TwiceApart,
}

use Fault::*;

/// What may be wrong with one object.
fn of_object(part: Part) -> Vec<Fault> {
    let tags: &[u8] = match part {
        Part::Extension => &[0x00, 0x06, 0x53, 0x72, 0x33, 0x7F, 0xF3],
        Part::Identifier => &[0x00, 0x02, 0x07, 0x53, 0x73, 0x86],
        Part::Rights => &[0x00, 0x06, 0x13, 0x52, 0x73, 0x5F],
    };
    let mut faults: Vec<Fault> = tags.iter().map(|tag| Tag(part, *tag)).collect();
    faults.extend([0x80, 0x81, 0x82, 0x83, 0x84, 0xFF].map(|form| Form(part, form)));
    faults.extend([Longer(part), Shorter(part), NoLength(part), Torn(part)]);
    let halves: [&'static [u8]; 3] = [&[0x81], &[0x82], &[0x82, 0x01]];
    faults.extend(halves.map(|half| Half(part, half)));
    faults
}

/// All that may be wrong with one extension.
pub fn all() -> Vec<Fault> {
    let mut faults: Vec<Fault> = PARTS.into_iter().flat_map(of_object).collect();
    faults.extend([Missing(Part::Identifier), Missing(Part::Rights), Empty]);
    faults.extend([Exchanged, Before(0x53), Before(0x04)]);
    faults.extend([Third(0x06), Third(0x53), Third(0x04), Third(0x73)]);
    faults.extend([Byte(0x00), Byte(0x53), Stray(0x00), Stray(0x73)]);
    faults.extend([0, 1, 2, 16, 17, 18].map(Size));
    faults.extend([Twice, TwiceApart]);
    faults
}

/// Bad nesting or size.
pub const BAD: u64 = 7;
/// A known one for the second time.
pub const SECOND: u64 = 8;

/// Makes one thing wrong in the extension of this number, from 0, and tells the refusal of a run
/// in which nothing else is wrong. None, and the run as it was, where this cannot be done here, or
/// is not wrong.
pub fn make(run: &mut Vec<Object>, number: usize, fault: Fault) -> Option<u64> {
    run.get(number).filter(|object| is_whole(object))?;
    match fault {
        Tag(part, _)
        | Form(part, _)
        | Longer(part)
        | Shorter(part)
        | NoLength(part)
        | Half(part, _)
        | Torn(part) => in_object(run, number, part, fault)?,
        Stray(byte) => run.insert(number, torn(byte)),
        Twice | TwiceApart => return twice(run, number, fault),
        Size(size) => {
            let [identifier, rights] = &mut run[number].inside[..] else {
                return None;
            };
            let known = &KNOWN[which(&identifier.value)?];
            if size == known.size {
                return None;
            }
            rights.value.resize(size, 0x0F);
        }
        Missing(_) | Empty | Exchanged | Before(_) | Third(_) | Byte(_) => {
            inside(&mut run[number].inside, fault);
        }
    }
    Some(BAD)
}

/// Whether nothing is wrong with an extension yet.
fn is_whole(object: &Object) -> bool {
    let [identifier, rights] = &object.inside[..] else {
        return false;
    };
    let tags = [object, identifier, rights].map(|object| object.tag.clone());
    let lengths = [object, identifier, rights].map(|object| object.length.is_none());
    tags == TAGS.map(|tag| vec![tag]) && lengths == [true; 3] && object.value.is_empty()
}

/// A byte that is no object.
fn torn(byte: u8) -> Object {
    Object {
        length: Some(vec![]),
        ..Object::new(&[byte], &[])
    }
}

/// What is inside `73`.
fn inside(inside: &mut Vec<Object>, fault: Fault) {
    match fault {
        Missing(Part::Identifier) => drop(inside.remove(0)),
        Missing(_) => drop(inside.remove(1)),
        Empty => inside.clear(),
        Exchanged => inside.swap(0, 1),
        Before(tag) => inside.insert(0, Object::new(&[tag], &[0x0F])),
        Third(tag) => inside.push(Object::new(&[tag], &[0x0F])),
        Byte(byte) => inside.push(torn(byte)),
        _ => {}
    }
}

/// A known one for the second time.
fn twice(run: &mut Vec<Object>, number: usize, fault: Fault) -> Option<u64> {
    let mut second = run[number].clone();
    let identifier = second.inside[0].value.clone();
    which(&identifier)?;
    let same = |object: &&Object| is_whole(object) && object.inside[0].value == identifier;
    if run.iter().filter(same).count() > 1 {
        return None;
    }
    for byte in &mut second.inside[1].value {
        *byte = !*byte;
    }
    match fault {
        Twice => run.insert(number + 1, second),
        _ => run.push(second),
    }
    Some(SECOND)
}

/// What is wrong with one object of an extension.
fn in_object(run: &mut Vec<Object>, number: usize, part: Part, fault: Fault) -> Option<()> {
    let (list, at) = match part {
        Part::Extension => (run, number),
        Part::Identifier => (&mut run[number].inside, 0),
        Part::Rights => (&mut run[number].inside, 1),
    };
    let size = list[at].content().len();
    match fault {
        Tag(_, tag) => {
            if list[at].tag == [tag] {
                return None;
            }
            list[at].tag = vec![tag];
        }
        Form(_, form) => list[at].length = Some(other_form(size, form)?),
        // What stands behind then begins where no object does; the bytes of a length are no tag.
        Longer(_) => {
            let behind = list.get(at + 1).map(|next| next.content().len());
            if part == Part::Identifier && behind == Some(usize::from(Part::Rights.tag())) {
                return None;
            }
            list[at].length = Some(length_of(size + 1));
        }
        Shorter(_) => {
            let last = list[at].content().last().copied()?;
            if part == Part::Identifier && last == Part::Rights.tag() {
                return None;
            }
            list[at].length = Some(length_of(size - 1));
        }
        NoLength(_) => ended_amid(list, at, &[]),
        Half(_, length) => ended_amid(list, at, length),
        Torn(_) => return torn_apart(list, at),
        _ => return None,
    }
    Some(())
}

/// What an object stands in ends one byte before the object does.
fn torn_apart(list: &mut Vec<Object>, at: usize) -> Option<()> {
    let mut content = list[at].content();
    let length = length_of(content.len());
    content.pop()?;
    list.truncate(at + 1);
    list[at].length = Some(length);
    list[at].inside.clear();
    list[at].value = content;
    Some(())
}

/// A length in the form that begins with this byte; none where that is the right one, or where it
/// cannot say the length.
fn other_form(size: usize, form: u8) -> Option<Vec<u8>> {
    let bytes = size.to_be_bytes();
    match form {
        0x81..=0x84 => {
            let count = usize::from(form - 0x80);
            let (cut, number) = bytes.split_at(bytes.len() - count);
            let length = [&[form], number].concat();
            let says = cut.iter().all(|byte| *byte == 0) && length != length_of(size);
            says.then_some(length)
        }
        _ => Some(vec![form]),
    }
}

/// What an object stands in ends behind its tag and these bytes of its length.
fn ended_amid(list: &mut Vec<Object>, at: usize, length: &[u8]) {
    list.truncate(at + 1);
    list[at].length = Some(length.to_vec());
    list[at].inside.clear();
    list[at].value.clear();
}
