//! Stamps by Table 11: what each field may be, and the objects that make up a record.

use crate::make;
use std::array::from_fn;

/// Which bytes a value may have.
#[derive(Clone, Copy, PartialEq, Eq)]
pub enum Set {
    Letters,
    Digits,
    /// Letters, digits, `<` and space.
    Text,
    /// 01 to FE.
    Number,
    Any,
}

impl Set {
    pub fn has(self, byte: u8) -> bool {
        match self {
            Self::Letters => byte.is_ascii_alphabetic(),
            Self::Digits => byte.is_ascii_digit(),
            Self::Text => byte.is_ascii_alphanumeric() || matches!(byte, b'<' | b' '),
            Self::Number => !matches!(byte, 0x00 | 0xFF),
            Self::Any => true,
        }
    }

    pub fn bytes(self) -> Vec<u8> {
        (0x00..=0xFF).filter(|byte| self.has(*byte)).collect()
    }

    /// Bytes that it has not: those beside the ones that it has, and those of other sets.
    pub fn others(self) -> &'static [u8] {
        match self {
            Self::Letters => b"@[`{0< \x00\xC1",
            Self::Digits => b"/:A< \x00\xB0",
            Self::Text => b"/:;=@[`{\x1F!\x00\x7F\xC3\xFF",
            Self::Number => b"\x00\xFF",
            Self::Any => b"",
        }
    }
}

/// A row of the table that has a value of its own.
pub struct Field {
    pub name: &'static str,
    pub tag: [u8; 2],
    pub optional: bool,
    pub shortest: usize,
    pub longest: usize,
    pub set: Set,
}

const fn row(name: &'static str, low: u8, sizes: [usize; 2], set: Set) -> Field {
    let [shortest, longest] = sizes;
    Field {
        name,
        tag: [0x5F, low],
        optional: false,
        shortest,
        longest,
        set,
    }
}

const fn optional(name: &'static str, low: u8, sizes: [usize; 2], set: Set) -> Field {
    Field {
        optional: true,
        ..row(name, low, sizes, set)
    }
}

/// How many fields a stamp may have.
pub const COUNT: usize = 13;
/// How many numbers tell their places.
pub const NUMBERS: usize = 2 * COUNT;

/// The fields in the table's order. Those from [`STATE`] to [`CONDITIONS`] stand inside `73`.
pub static FIELDS: [Field; COUNT] = [
    row("State, copy", 0x44, [3, 3], Set::Letters),
    row("State", 0x44, [3, 3], Set::Letters),
    optional("visas", 0x4C, [1, 50], Set::Text),
    row("date", 0x45, [8, 8], Set::Digits),
    row("authority", 0x4B, [1, 10], Set::Text),
    row("location", 0x46, [1, 10], Set::Text),
    row("inspector", 0x4A, [1, 20], Set::Text),
    optional("result", 0x4D, [1, 50], Set::Text),
    optional("mode", 0x49, [1, 1], Set::Letters),
    optional("duration", 0x48, [1, 2], Set::Any),
    optional("conditions", 0x4E, [1, 50], Set::Text),
    row("signature", 0x37, [1, 140], Set::Any),
    row("reference", 0x38, [1, 1], Set::Number),
];

pub const STATE_COPY: usize = 0;
pub const STATE: usize = 1;
pub const INSPECTOR: usize = 6;
pub const CONDITIONS: usize = 10;
pub const SIGNATURE: usize = 11;
pub const SIGNED_TAG: u8 = 0x73;

/// The optional fields.
pub const OPTIONAL: [usize; 5] = [2, 7, 8, 9, 10];

/// Where something stands or should stand.
#[derive(Clone, Copy, Debug, PartialEq, Eq, PartialOrd, Ord)]
pub enum Place {
    /// The object of a field, by its place in [`FIELDS`].
    Field(usize),
    /// `73`.
    Signed,
    /// Behind the last object inside `73`.
    SignedEnd,
    /// Behind the last object of the record.
    End,
}

/// All places in their order.
pub const PLACES: [Place; COUNT + 3] = [
    Place::Field(STATE_COPY),
    Place::Signed,
    Place::Field(STATE),
    Place::Field(2),
    Place::Field(3),
    Place::Field(4),
    Place::Field(5),
    Place::Field(INSPECTOR),
    Place::Field(7),
    Place::Field(8),
    Place::Field(9),
    Place::Field(CONDITIONS),
    Place::SignedEnd,
    Place::Field(SIGNATURE),
    Place::Field(12),
    Place::End,
];

impl Place {
    pub fn name(self) -> &'static str {
        match self {
            Self::Field(field) => FIELDS[field].name,
            Self::Signed => "73",
            Self::SignedEnd => "the end of 73",
            Self::End => "the end",
        }
    }

    /// The tag of what stands here; none at an end.
    pub fn tag(self) -> &'static [u8] {
        match self {
            Self::Field(field) => &FIELDS[field].tag,
            Self::Signed => &[SIGNED_TAG],
            Self::SignedEnd | Self::End => &[],
        }
    }

    pub fn container(self) -> Container {
        match self {
            Self::Field(STATE..=CONDITIONS) | Self::SignedEnd => Container::Signed,
            Self::Field(_) | Self::Signed | Self::End => Container::Record,
        }
    }

    /// Whether a stamp may have nothing here. An end is always there.
    pub fn is_optional(self) -> bool {
        matches!(self, Self::Field(field) if FIELDS[field].optional)
    }
}

/// What objects stand in.
#[derive(Clone, Copy, PartialEq, Eq)]
pub enum Container {
    Record,
    /// `73`.
    Signed,
}

/// A data object, which may be wrong.
#[derive(Clone, Default)]
pub struct Object {
    pub tag: Vec<u8>,
    /// The length's bytes; none for the shortest form of the length that the value has.
    pub length: Option<Vec<u8>>,
    /// The objects that the value begins with.
    pub inside: Vec<Object>,
    /// The value's bytes behind them.
    pub value: Vec<u8>,
}

impl Object {
    pub fn new(tag: &[u8], value: &[u8]) -> Self {
        Self {
            tag: tag.to_vec(),
            value: value.to_vec(),
            ..Self::default()
        }
    }

    /// The bytes of the value, also of one with objects inside.
    pub fn content(&self) -> Vec<u8> {
        let mut content = bytes_of(&self.inside);
        content.extend(&self.value);
        content
    }

    pub fn bytes(&self) -> Vec<u8> {
        let content = self.content();
        match &self.length {
            None => make::object(&self.tag, &content),
            Some(length) => [&self.tag[..], length, &content].concat(),
        }
    }

    /// How many bytes stand before the value.
    fn head(&self) -> usize {
        self.bytes().len() - self.content().len()
    }
}

/// The bytes of objects, one behind the other.
pub fn bytes_of(objects: &[Object]) -> Vec<u8> {
    let each: Vec<Vec<u8>> = objects.iter().map(Object::bytes).collect();
    each.concat()
}

/// The values of a stamp's fields; none for one that is absent.
pub type Values = [Option<Vec<u8>>; COUNT];

/// A value that its field may have, of so many bytes.
pub fn value(field: usize, length: usize) -> Vec<u8> {
    let bytes = FIELDS[field].set.bytes();
    // Texts that differ by field; both States are equal.
    let start = match FIELDS[field].set {
        Set::Text => field,
        _ => 0,
    };
    bytes.into_iter().cycle().skip(start).take(length).collect()
}

/// The shortest values, of all mandatory fields and of those optional ones that are asked for.
pub fn shortest(present: impl Fn(usize) -> bool) -> Values {
    from_fn(|field| {
        let row = &FIELDS[field];
        (!row.optional || present(field)).then(|| value(field, row.shortest))
    })
}

/// All fields, each as long as it may be.
pub fn longest() -> Values {
    from_fn(|field| Some(value(field, FIELDS[field].longest)))
}

/// The objects of a record, which may be wrong.
#[derive(Clone)]
pub struct Draft {
    pub objects: Vec<Object>,
}

impl Draft {
    /// The stamp of these values.
    pub fn new(values: &Values) -> Self {
        let of_fields = |fields: std::ops::RangeInclusive<usize>| -> Vec<Object> {
            fields
                .filter_map(|field| {
                    let value = values[field].as_ref()?;
                    Some(Object::new(&FIELDS[field].tag, value))
                })
                .collect()
        };
        let signed = Object {
            inside: of_fields(STATE..=CONDITIONS),
            ..Object::new(&[SIGNED_TAG], &[])
        };
        let mut objects = of_fields(STATE_COPY..=STATE_COPY);
        objects.push(signed);
        objects.extend(of_fields(SIGNATURE..=COUNT - 1));
        Self { objects }
    }

    pub fn bytes(&self) -> Vec<u8> {
        bytes_of(&self.objects)
    }

    fn signed(&self) -> Option<usize> {
        self.objects
            .iter()
            .position(|object| object.tag == [SIGNED_TAG])
    }

    /// The objects of a container; none where the record has no `73`.
    pub fn list(&mut self, container: Container) -> Option<&mut Vec<Object>> {
        match container {
            Container::Record => Some(&mut self.objects),
            Container::Signed => {
                let signed = self.signed()?;
                Some(&mut self.objects[signed].inside)
            }
        }
    }

    /// How many objects of its container stand before a place; none where it is not there.
    pub fn find(&mut self, place: Place) -> Option<usize> {
        let list = self.list(place.container())?;
        match place {
            Place::SignedEnd | Place::End => Some(list.len()),
            Place::Field(_) | Place::Signed => {
                list.iter().position(|object| object.tag == place.tag())
            }
        }
    }

    /// Where an object begins in the record, by how many objects of its container stand before it.
    pub fn offset(&self, container: Container, before: usize) -> usize {
        match container {
            Container::Record => bytes_of(&self.objects[..before]).len(),
            Container::Signed => {
                let signed = self.signed().unwrap_or(0);
                let object = &self.objects[signed];
                let inside = bytes_of(&object.inside[..before]).len();
                self.offset(Container::Record, signed) + object.head() + inside
            }
        }
    }

    /// The places of the fields, as two numbers each.
    pub fn places(&mut self) -> Vec<u32> {
        let mut places = Vec::new();
        for field in 0..COUNT {
            let place = Place::Field(field);
            let container = place.container();
            let [start, length] = match self.find(place) {
                None => [0, 0],
                Some(before) => {
                    let offset = self.offset(container, before);
                    let list = self.list(container).expect("the object is in it");
                    [offset + list[before].head(), list[before].value.len()]
                }
            };
            places.extend([start as u32, length as u32]);
        }
        places
    }
}
