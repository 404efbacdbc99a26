//! Reads of stamps that every run begins with: stamps at the borders of Table 11, each fault at
//! each place of a short stamp, two faults at a time, and lists of each length.

use crate::hex::fnv_of_places;
use crate::make;
use crate::stamp::{
    self, Draft, Object, Place, Set, Values, CONDITIONS, COUNT, FIELDS, INSPECTOR, NUMBERS,
    OPTIONAL, PLACES, SIGNATURE, STATE, STATE_COPY,
};
use crate::stamp_faults::{self, Fault, Reason, Told};
use crate::step::Step;
use std::ops::RangeInclusive;

/// What a sample's list holds before each read.
pub const FILL: u32 = 0xA5A5_A5A5;

/// A step and what comes of it: `stamp`, or the reason and the offset of the first fault, or
/// `refusal 15`; and then a hash of all entries of the list, which held [`FILL`] before.
type Line = (Step, String);

pub fn lines() -> Vec<Line> {
    [
        combinations(),
        sizes(),
        characters(),
        lists(),
        faults(),
        tags_among_all_fields(),
        surplus(),
        lengths_of_73(),
        long_forms(),
        in_the_longest(),
        equal_offsets(),
        two_faults(),
        ends(),
    ]
    .concat()
}

fn line(record: Vec<u8>, list: &[u32], entries: usize, outcome: &str) -> Line {
    let mut after = list.to_vec();
    after.resize(entries, FILL);
    let outcome = format!("{outcome}, list {}", fnv_of_places(&after));
    (Step::Stamp { record, entries }, outcome)
}

/// The stamp of these values, in a list of so many entries.
fn accepted_in(values: &Values, entries: usize) -> Line {
    let mut draft = Draft::new(values);
    line(draft.bytes(), &draft.places(), entries, "stamp")
}

fn accepted(values: &Values) -> Line {
    accepted_in(values, NUMBERS)
}

fn refused(record: Vec<u8>, entries: usize) -> Line {
    line(record, &[], entries, "refusal 15")
}

fn told_in(record: Vec<u8>, told: Told, entries: usize) -> Line {
    let outcome = format!("{} at {}", told.reason.name(), told.at);
    line(record, &[], entries, &outcome)
}

fn told(record: Vec<u8>, reason: Reason, at: usize) -> Line {
    told_in(record, Told { reason, at }, NUMBERS)
}

/// The shortest stamp, which has no optional field.
fn shortest() -> Values {
    stamp::shortest(|_| false)
}

/// The shortest stamp that has something at this place.
fn with(place: Place) -> Values {
    stamp::shortest(|field| place == Place::Field(field))
}

/// A stamp with all fields, each of them as short as it may be.
fn all_fields() -> Values {
    stamp::shortest(|_| true)
}

/// A stamp with one value in the place of another.
fn changed(mut values: Values, field: usize, value: Vec<u8>) -> Values {
    if field == STATE_COPY {
        values[STATE] = Some(value.clone());
    }
    values[field] = Some(value);
    values
}

/// Each combination of optional fields.
fn combinations() -> Vec<Line> {
    (0..32)
        .map(|bits| {
            let bit = |field| OPTIONAL.iter().position(|optional| *optional == field);
            let present = |field| bit(field).is_some_and(|bit| bits >> bit & 1 != 0);
            accepted(&stamp::shortest(present))
        })
        .collect()
}

/// The longest stamp; each field as long as it may be and one byte shorter; lengths of `73` and of
/// the signature around those where the form of the length changes.
fn sizes() -> Vec<Line> {
    let mut lines = vec![accepted(&stamp::longest())];
    for (field, row) in FIELDS.iter().enumerate() {
        let values = with(Place::Field(field));
        for length in [row.longest - 1, row.longest] {
            if length > row.shortest {
                let value = stamp::value(field, length);
                lines.push(accepted(&changed(values.clone(), field, value)));
            }
        }
    }
    for length in 126..=129 {
        let value = stamp::value(SIGNATURE, length);
        lines.push(accepted(&changed(shortest(), SIGNATURE, value)));
        lines.push(accepted(&signed_of(length)));
    }
    lines
}

/// A stamp whose `73` has so many bytes inside, two texts among them.
fn signed_of(length: usize) -> Values {
    let mut values = stamp::shortest(|field| matches!(field, 2 | 7));
    // Without the mandatory fields (29 bytes), two tags and lengths, and the first text.
    let rest = length - 29 - 6 - 50;
    values[2] = Some(stamp::value(2, 50));
    values[7] = Some(stamp::value(7, rest));
    values
}

/// Every letter in the States and as the mode, every digit in a date, every character in each text,
/// references at the borders and others, and every byte in a signature.
fn characters() -> Vec<Line> {
    let letters = Set::Letters.bytes();
    let mut lines: Vec<Line> = letters
        .iter()
        .map(|letter| {
            let at = usize::from(letter % 3);
            let mut state = stamp::value(STATE, 3);
            state[at] = *letter;
            let values = changed(with(Place::Field(8)), STATE_COPY, state);
            accepted(&changed(values, 8, vec![*letter]))
        })
        .collect();
    for date in [b"01234567", b"98765432", b"00000000", b"99999999"] {
        lines.push(accepted(&changed(shortest(), 3, date.to_vec())));
    }
    for (field, row) in FIELDS.iter().enumerate() {
        let bytes = match row.set {
            Set::Text => row.set.bytes(),
            Set::Any => vec![0x00, 0x7F, 0x80, 0xFF],
            Set::Number => vec![0x01, 0x02, 0x5F, 0x73, 0x7F, 0x80, 0xFD, 0xFE],
            Set::Letters | Set::Digits => continue,
        };
        for value in bytes.chunks(row.longest.min(32)) {
            let values = changed(with(Place::Field(field)), field, value.to_vec());
            lines.push(accepted(&values));
        }
    }
    let every: Vec<u8> = (0x00..=0xFF).collect();
    for value in every.chunks(128) {
        lines.push(accepted(&changed(shortest(), SIGNATURE, value.to_vec())));
    }
    // A signature that looks like the objects around it.
    let like = Draft::new(&all_fields()).bytes();
    lines.push(accepted(&changed(shortest(), SIGNATURE, like)));
    lines
}

/// Lists of each length up to what is needed, and longer ones; with a stamp, with a fault, and
/// with no byte.
fn lists() -> Vec<Line> {
    let stamp = Draft::new(&shortest()).bytes();
    let mut lines: Vec<Line> = (0..NUMBERS)
        .map(|entries| refused(stamp.clone(), entries))
        .collect();
    for entries in [NUMBERS, NUMBERS + 1, NUMBERS + 4, 100, 512] {
        lines.push(accepted_in(&all_fields(), entries));
        lines.push(accepted_in(&shortest(), entries));
    }
    for entries in [0, 1, NUMBERS - 1] {
        lines.push(refused(vec![], entries));
        lines.push(refused(stamp[..44].to_vec(), entries));
        lines.push(refused(Draft::new(&stamp::longest()).bytes(), entries));
    }
    for entries in [NUMBERS, NUMBERS + 1, 512] {
        let reason = Reason::Tag;
        lines.push(told_in(vec![], Told { reason, at: 0 }, entries));
        let at = stamp.len();
        let behind = [&stamp[..], &[0]].concat();
        lines.push(told_in(behind, Told { reason, at }, entries));
    }
    lines
}

/// The line of one fault at one place, where it can be made.
fn one(values: &Values, place: Place, fault: Fault) -> Option<Line> {
    let mut draft = Draft::new(values);
    let found = stamp_faults::make(&mut draft, place, fault)?;
    Some(told(draft.bytes(), found.reason, found.at))
}

/// The shortest stamp that has something at this place, with two bytes there where there may be two,
/// so that the first is not the last.
pub fn short(place: Place) -> Values {
    let values = with(place);
    match place {
        Place::Field(field) if FIELDS[field].longest > FIELDS[field].shortest => {
            changed(values, field, stamp::value(field, 2))
        }
        _ => values,
    }
}

/// Whether a byte is tried where the fault has it. Of the bytes that a field may not have every
/// second one is tried as its first, the others as its last; of the next field it is the other way
/// round.
fn is_tried(place: Place, fault: Fault) -> bool {
    let (byte, last) = match fault {
        Fault::First(byte) => (byte, 0),
        Fault::Last(byte) => (byte, 1),
        _ => return true,
    };
    let Place::Field(field) = place else {
        return true;
    };
    let others = FIELDS[field].set.others();
    let turn = others.iter().take_while(|other| **other != byte).count();
    FIELDS[field].longest == 1 || (turn + field) % 2 == last
}

/// Each fault at each place, in a stamp that has no other optional field.
fn faults() -> Vec<Line> {
    let of_place = |place| {
        stamp_faults::all(place)
            .into_iter()
            .filter(move |fault| is_tried(place, *fault))
            .filter_map(move |fault| one(&short(place), place, fault))
    };
    PLACES.into_iter().flat_map(of_place).collect()
}

/// Objects that are left out or stand elsewhere, in a stamp that has all fields.
fn tags_among_all_fields() -> Vec<Line> {
    use Fault::{Doubled, Ended, Exchanged, Missing, Moved};
    let of_place = |place| {
        [Missing, Ended, Exchanged, Moved, Doubled]
            .into_iter()
            .filter_map(move |fault| one(&all_fields(), place, fault))
    };
    PLACES.into_iter().flat_map(of_place).collect()
}

/// An object of each field, and `73`, behind the last one inside `73` and behind the last of all.
fn surplus() -> Vec<Line> {
    let stamp = Draft::new(&all_fields());
    let objects = stamp.objects.iter().chain(&stamp.objects[1].inside);
    let of_object = |object: &Object| {
        [Place::SignedEnd, Place::End].map(|place| {
            let mut draft = stamp.clone();
            let container = place.container();
            let list = draft.list(container).expect("both are there");
            list.push(object.clone());
            let at = list.len() - 1;
            told(draft.bytes(), Reason::Tag, draft.offset(container, at))
        })
    };
    objects.flat_map(of_object).collect()
}

/// The shortest stamp, with each length that its `73` could have: it ends amid the fields inside,
/// or goes on into those behind it.
fn lengths_of_73() -> Vec<Line> {
    let stamp = Draft::new(&shortest()).bytes();
    // Where the objects inside begin.
    let inside = [8, 14, 25, 29, 33];
    let of_length = |length: u8| {
        let mut record = stamp.clone();
        record[7] = length;
        let end = 8 + usize::from(length);
        let object = inside.into_iter().rev().find(|start| *start <= end);
        let start = object.unwrap_or(8);
        match end {
            37 => accepted(&shortest()),
            38..=45 => told(record, Reason::Tag, 37),
            46.. => told(record, Reason::Length, 6),
            // Nothing or half a tag where an object should stand.
            _ if end - start < 2 => told(record, Reason::Tag, start),
            _ => told(record, Reason::Length, start),
        }
    };
    (0..=39).map(of_length).collect()
}

/// Wrong lengths of what has more than 127 bytes: `73` and the signature. A length of 82 is not
/// the shortest there, either.
fn long_forms() -> Vec<Line> {
    use Fault::{Above, Form80, Form82, Form83, FormFF, Past, Torn};
    let faults = [Above, Torn, Past, Form80, Form82, Form83, FormFF];
    let of = |values: Values, place| {
        faults
            .into_iter()
            .filter_map(move |fault| one(&values, place, fault))
    };
    let signature = changed(shortest(), SIGNATURE, stamp::value(SIGNATURE, 140));
    let mut lines: Vec<Line> = of(signature, Place::Field(SIGNATURE)).collect();
    lines.extend(of(signed_of(129), Place::Signed));
    lines
}

/// Faults of the longest stamp: at its end, in its States, and such that `73` or the signature
/// then has more than 255 bytes.
fn in_the_longest() -> Vec<Line> {
    use Fault::{Above, Byte, Case, Doubled, First};
    let reference = Place::Field(COUNT - 1);
    let faults = [
        (reference, First(0x00)),
        (reference, First(0xFF)),
        (Place::End, Byte),
        (Place::Field(SIGNATURE), Above),
        (Place::Field(STATE), Case(2)),
        (Place::Field(CONDITIONS), Above),
        (Place::Field(CONDITIONS), Doubled),
    ];
    let mut lines: Vec<Line> = faults
        .into_iter()
        .filter_map(|(place, fault)| one(&stamp::longest(), place, fault))
        .collect();
    // References that no certificate has, beside all fields.
    for byte in [0x00, 0xFF] {
        lines.extend(one(&all_fields(), reference, First(byte)));
        lines.extend(one(&signed_of(128), reference, First(byte)));
    }
    let long = Draft::new(&changed(shortest(), SIGNATURE, vec![7; 256]));
    lines.push(told(long.bytes(), Reason::Length, 37));
    lines
}

/// A tag, a length form and a content that are wrong, each alone and in its place.
const IN_PLACE: [(Reason, Fault); 3] = [
    (Reason::Tag, Fault::FirstTagByte),
    (Reason::Length, Fault::Form81),
    (Reason::Content, Fault::First(0x00)),
];

/// More than one fault in one object: tag before length before content. What is missing at the end
/// of `73` comes before what is wrong behind it.
fn equal_offsets() -> Vec<Line> {
    let [tag, length, content] = IN_PLACE;
    let mut lines = Vec::new();
    for place in PLACES {
        for (one, other) in [(tag, length), (tag, content), (length, content)] {
            lines.extend(two(place, one, place, other));
        }
    }
    for fault in stamp_faults::all(Place::Field(SIGNATURE)) {
        let mut draft = Draft::new(&shortest());
        let first = stamp_faults::make(&mut draft, Place::Field(INSPECTOR), Fault::Missing);
        let second = stamp_faults::make(&mut draft, Place::Field(SIGNATURE), fault);
        if let (Some(first), Some(_)) = (first, second) {
            // A signature that moves into `73` stands where the inspector should.
            lines.push(told(draft.bytes(), first.reason, first.at));
        }
    }
    lines
}

/// Two faults in their places; the first is told.
fn two(first: Place, one: (Reason, Fault), second: Place, other: (Reason, Fault)) -> Option<Line> {
    let present = |field| [first, second].contains(&Place::Field(field));
    let mut draft = Draft::new(&stamp::shortest(present));
    // From behind, since an object with a wrong tag is found no more.
    stamp_faults::make(&mut draft, second, other.1)?;
    let found = stamp_faults::make(&mut draft, first, one.1)?;
    Some(told(draft.bytes(), one.0, found.at))
}

/// Each reason at each place, with each reason at the next place, and with a wrong reference.
fn two_faults() -> Vec<Line> {
    let places: Vec<Place> = PLACES
        .into_iter()
        .filter(|place| !place.tag().is_empty())
        .collect();
    let last = Place::Field(COUNT - 1);
    let reference = (Reason::Content, Fault::First(0xFF));
    let mut lines = Vec::new();
    for pair in places.windows(2) {
        for one in IN_PLACE {
            for other in IN_PLACE {
                lines.extend(two(pair[0], one, pair[1], other));
            }
            if pair[1] != last {
                lines.extend(two(pair[0], one, last, reference));
            }
        }
    }
    lines
}

/// The shortest stamp that ends at each place: before `73`, amid it, behind it.
fn ends() -> Vec<Line> {
    let stamp = Draft::new(&shortest()).bytes();
    let cut = |lengths: RangeInclusive<usize>, reason: Reason, at| {
        lengths.map({
            let stamp = &stamp;
            move |length| told(stamp[..length].to_vec(), reason, at)
        })
    };
    let (tag, length) = (Reason::Tag, Reason::Length);
    let mut lines: Vec<Line> = cut(0..=1, tag, 0).collect();
    lines.extend(cut(2..=5, length, 0));
    lines.extend(cut(6..=6, tag, 6));
    lines.extend(cut(7..=36, length, 6));
    lines.extend(cut(37..=38, tag, 37));
    lines.extend(cut(39..=40, length, 37));
    lines.extend(cut(41..=42, tag, 41));
    lines.extend(cut(43..=44, length, 41));
    // The fields without `73` around them, and `73` alone.
    let bare = make::object(&[0x5F, 0x44], b"ABC").repeat(2);
    lines.push(told(bare, tag, 6));
    lines.push(told(stamp[6..37].to_vec(), tag, 0));
    lines
}
