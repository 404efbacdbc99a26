//! What a stamp says: a travel record read by Table 11 of the LDS2 report (clause 3.5).
//!
//! The objects are found first, those of the record and then those inside `73`. Then each is held
//! against its row of the table. All that is wrong on the way is collected, and the smallest of it
//! is told: by offset, then by reason. Behind a wrong tag, or a length that cannot be followed, no
//! object can be found in the same container, so nothing there counts.

use std::array::from_fn;
use std::ops::{Range, RangeInclusive};

use crate::objects::split_length;
use crate::Refusal;

/// How many fields a stamp can have.
pub const COUNT: usize = 13;

/// How many numbers [`read_call`] writes: two for each field.
pub const NUMBERS: usize = 2 * COUNT;

/// What is wrong with an object of a stamp.
#[derive(Clone, Copy, Debug, PartialEq, Eq, PartialOrd, Ord)]
pub enum Reason {
    /// It is missing, out of order or surplus.
    Tag = 1,
    /// Its length is absent, not in its shortest form, past the container's end, or not one that
    /// the table allows.
    Length = 2,
    /// Its value has a byte that the table does not allow, or the State is not its copy.
    Content = 3,
}

impl Reason {
    /// The number of a reason, which is no refusal's number.
    pub fn number(self) -> u64 {
        self as u64
    }
}

/// The first fault: the offset of its object's first byte, and why. A missing object has the
/// offset of what stands in its place, or of its container's end.
///
/// The smaller of two faults is the one to tell: offsets are compared before reasons.
#[derive(Clone, Copy, Debug, PartialEq, Eq, PartialOrd, Ord)]
pub struct StampFault {
    pub at: usize,
    pub reason: Reason,
}

/// Where a field's value stands in the record: the offset of its first byte, and its length. Both
/// are 0 where the field is absent.
#[derive(Clone, Copy, Debug, Default, PartialEq, Eq)]
pub struct Place {
    pub at: usize,
    pub len: usize,
}

/// A row of Table 11 that has a value of its own; all but `73`.
#[derive(Clone, Debug)]
pub struct Field {
    pub name: &'static str,
    pub tag: [u8; 2],
    pub optional: bool,
    /// How many bytes the value can have.
    pub sizes: RangeInclusive<usize>,
    /// Whether a byte can stand in the value.
    pub allows: fn(u8) -> bool,
}

/// The fields in the table's order. The first and the last two stand in the record itself, those
/// between them inside `73`.
pub static FIELDS: [Field; COUNT] = [
    mandatory("State (copy)", [0x5F, 0x44], 3..=3, alpha),
    mandatory("State", [0x5F, 0x44], 3..=3, alpha),
    optional("visa approvals", [0x5F, 0x4C], 1..=50, text),
    mandatory("date", [0x5F, 0x45], 8..=8, numeric),
    mandatory("authority", [0x5F, 0x4B], 1..=10, text),
    mandatory("location", [0x5F, 0x46], 1..=10, text),
    mandatory("inspector", [0x5F, 0x4A], 1..=20, text),
    optional("result", [0x5F, 0x4D], 1..=50, text),
    optional("mode", [0x5F, 0x49], 1..=1, alpha),
    optional("duration", [0x5F, 0x48], 1..=2, binary),
    optional("conditions", [0x5F, 0x4E], 1..=50, text),
    mandatory("signature", [0x5F, 0x37], 1..=140, binary),
    mandatory("certificate reference", [0x5F, 0x38], 1..=1, record_number),
];

/// The tag of the signed part, which holds ten fields and has no size of its own.
const SIGNED: [u8; 1] = [0x73];

const fn mandatory(
    name: &'static str,
    tag: [u8; 2],
    sizes: RangeInclusive<usize>,
    allows: fn(u8) -> bool,
) -> Field {
    Field {
        name,
        tag,
        optional: false,
        sizes,
        allows,
    }
}

const fn optional(
    name: &'static str,
    tag: [u8; 2],
    sizes: RangeInclusive<usize>,
    allows: fn(u8) -> bool,
) -> Field {
    Field {
        name,
        tag,
        optional: true,
        sizes,
        allows,
    }
}

/// A of the table's note: a to z, A to Z.
fn alpha(byte: u8) -> bool {
    byte.is_ascii_alphabetic()
}

/// N of the table's note: 0 to 9.
fn numeric(byte: u8) -> bool {
    byte.is_ascii_digit()
}

/// A, N, S of the table's note.
fn text(byte: u8) -> bool {
    alpha(byte) || numeric(byte) || matches!(byte, b'<' | b' ')
}

/// B of the table's note, which is any byte: the bytes of letters and digits stand in signatures
/// too.
fn binary(_: u8) -> bool {
    true
}

/// The number of a certificate's record.
fn record_number(byte: u8) -> bool {
    matches!(byte, 0x01..=0xFE)
}

/// The places of a stamp's fields, in the order of [`FIELDS`]; or the first fault.
pub fn read(record: &[u8]) -> Result<[Place; COUNT], StampFault> {
    let mut faults = Vec::new();
    let objects = find_fields(record, &mut faults);

    for (field, object) in FIELDS.iter().zip(&objects) {
        let Some(object) = object else {
            continue;
        };
        let value = object.value_in(record);
        if !field.sizes.contains(&value.len()) {
            faults.push(object.fault(Reason::Length));
        }
        if !value.iter().all(|byte| (field.allows)(*byte)) {
            faults.push(object.fault(Reason::Content));
        }
    }
    if let [Some(copy), Some(state), ..] = &objects {
        if state.value_in(record) != copy.value_in(record) {
            faults.push(state.fault(Reason::Content));
        }
    }

    match faults.into_iter().min() {
        Some(first) => Err(first),
        None => Ok(objects.map(|object| object.map_or(Place::default(), Object::place))),
    }
}

/// Reads a stamp, and puts two numbers for each field into the list: the offset of its value's
/// first byte and its length, both 0 where it is absent. The entries behind these 26 stay; on a
/// fault or a refusal all do.
///
/// The result is 0, or reason * 2^32 + offset of the first fault. A list of fewer than 26 entries
/// is refusal 15, before all.
pub fn read_call(record: &[u8], places: &mut [u32]) -> u64 {
    let Some(list) = places.get_mut(..NUMBERS) else {
        return Refusal::Short.result();
    };
    match read(record) {
        Ok(fields) => {
            for (numbers, field) in list.chunks_exact_mut(2).zip(fields) {
                // A stamp has at most 391 bytes.
                numbers[0] = field.at as u32;
                numbers[1] = field.len as u32;
            }
            0
        }
        Err(fault) => (fault.reason.number() << 32) | fault.at as u64,
    }
}

/// What a container can have in one place.
struct Row {
    tag: &'static [u8],
    optional: bool,
}

impl Row {
    fn of(field: &'static Field) -> Self {
        Self {
            tag: &field.tag,
            optional: field.optional,
        }
    }
}

/// An object that was found: the offset of its first byte, and where its value stands.
struct Object {
    at: usize,
    value: Range<usize>,
}

impl Object {
    fn value_in<'a>(&self, record: &'a [u8]) -> &'a [u8] {
        &record[self.value.clone()]
    }

    fn fault(&self, reason: Reason) -> StampFault {
        StampFault {
            at: self.at,
            reason,
        }
    }

    fn place(self) -> Place {
        Place {
            at: self.value.start,
            len: self.value.len(),
        }
    }
}

/// Finds the objects of all fields. There is none for a field that is absent or missing, or that
/// stands where nothing can be found.
fn find_fields(record: &[u8], faults: &mut Vec<StampFault>) -> [Option<Object>; COUNT] {
    let [copy_row, inner_rows @ .., signature_row, reference_row] = FIELDS.each_ref().map(Row::of);
    let signed_row = Row {
        tag: &SIGNED,
        optional: false,
    };

    let rows = [copy_row, signed_row, signature_row, reference_row];
    let [copy, signed, signature, reference] = find(record, 0..record.len(), &rows, faults);
    let inner: [Option<Object>; COUNT - 3] = match signed {
        Some(signed) => find(record, signed.value, &inner_rows, faults),
        None => from_fn(|_| None),
    };

    let mut fields = [copy]
        .into_iter()
        .chain(inner)
        .chain([signature, reference]);
    from_fn(|_| fields.next().flatten())
}

/// Finds the objects of one container: one for each row in the order of the rows, and nothing
/// behind the last. Stops at an object of which it cannot tell what it is or where it ends.
fn find<const N: usize>(
    record: &[u8],
    container: Range<usize>,
    rows: &[Row; N],
    faults: &mut Vec<StampFault>,
) -> [Option<Object>; N] {
    let mut objects = from_fn(|_| None);
    let mut at = container.start;
    for (row, object) in rows.iter().zip(&mut objects) {
        if !record[at..container.end].starts_with(row.tag) {
            if row.optional {
                continue;
            }
            let reason = Reason::Tag;
            faults.push(StampFault { at, reason });
            return objects;
        }
        let behind_tag = at + row.tag.len()..container.end;
        let Some(value) = find_value(record, behind_tag) else {
            let reason = Reason::Length;
            faults.push(StampFault { at, reason });
            return objects;
        };
        let behind = value.end;
        *object = Some(Object { at, value });
        at = behind;
    }
    if at < container.end {
        let reason = Reason::Tag;
        faults.push(StampFault { at, reason });
    }
    objects
}

/// Where a value stands, from what its container has behind the tag. There is none if the length
/// is absent or not in its one form, or if the value leaves the container.
fn find_value(record: &[u8], behind_tag: Range<usize>) -> Option<Range<usize>> {
    let end = behind_tag.end;
    let (length, behind_length) = split_length(&record[behind_tag])?;
    let start = end - behind_length.len();
    (length <= behind_length.len()).then_some(start..start + length)
}
