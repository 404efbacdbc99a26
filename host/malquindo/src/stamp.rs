//! What a stamp says.

use std::fmt;

/// How many numbers tell the places of a stamp's fields: two for each.
const PLACES: usize = 2 * StampField::ALL.len();

/// A field of a stamp. The order is that of Table 11.
#[derive(Clone, Copy, Debug, PartialEq, Eq, PartialOrd, Ord, Hash)]
pub enum StampField {
    /// The State before the signed part (the object 73). It is the same as the one inside.
    StateCopy,
    /// The State inside the signed part. 3 letters.
    State,
    /// Approvals, refusals and revocations of visas; optional. 1 to 50 characters.
    Visas,
    /// The date. 8 digits, which the library looks up in no calendar.
    Date,
    /// The inspection authority. 1 to 10 characters.
    Authority,
    /// The inspection location. 1 to 10 characters.
    Location,
    /// The inspector. 1 to 20 characters.
    Inspector,
    /// The result of the inspection; optional. 1 to 50 characters.
    Result,
    /// The mode of travel; optional. 1 letter, any.
    Mode,
    /// The duration of stay; optional. 1 or 2 bytes: days, the high byte first. Table 11's example
    /// 00FF is 255. The library does not look into it.
    Duration,
    /// Conditions that the holder has to observe; optional. 1 to 50 characters.
    Conditions,
    /// The signature over the signed part. 1 to 140 bytes, which the library does not check.
    Signature,
    /// The number of a travel certificate. 1 byte, 01 to FE.
    Reference,
}

impl StampField {
    /// All fields in their order.
    pub const ALL: [Self; 13] = [
        Self::StateCopy,
        Self::State,
        Self::Visas,
        Self::Date,
        Self::Authority,
        Self::Location,
        Self::Inspector,
        Self::Result,
        Self::Mode,
        Self::Duration,
        Self::Conditions,
        Self::Signature,
        Self::Reference,
    ];

    /// Whether a stamp may be without this field.
    pub fn is_optional(self) -> bool {
        matches!(
            self,
            Self::Visas | Self::Result | Self::Mode | Self::Duration | Self::Conditions
        )
    }
}

impl fmt::Display for StampField {
    fn fmt(&self, f: &mut fmt::Formatter<'_>) -> fmt::Result {
        f.write_str(match self {
            Self::StateCopy => "State (copy)",
            Self::State => "State",
            Self::Visas => "visa approvals",
            Self::Date => "date",
            Self::Authority => "authority",
            Self::Location => "location",
            Self::Inspector => "inspector",
            Self::Result => "result",
            Self::Mode => "mode",
            Self::Duration => "duration",
            Self::Conditions => "conditions",
            Self::Signature => "signature",
            Self::Reference => "certificate reference",
        })
    }
}

/// Why a record is no stamp. [`StampReason::number`] is the number that the library answers. A
/// reason is no [`Refusal`](crate::Refusal), though some numbers are the same.
#[derive(Clone, Copy, Debug, PartialEq, Eq)]
pub enum StampReason {
    /// 1, a wrong tag: an object is missing, out of order or too many; or half a tag stands at the
    /// end of its container.
    Tag,
    /// 2, a wrong length: there is no length byte, or not all of them; the length has a form other
    /// than the three, or not the shortest; it goes past the end of its container, or is one that
    /// the table does not allow.
    Length,
    /// 3, a wrong content: a value has a byte that the table does not allow; or the two States
    /// differ, which is told at the one inside 73.
    Content,
    /// Any other number. The library that this crate was written for answers none; one of
    /// another version may.
    Unknown(u32),
}

impl StampReason {
    /// The number that the library answers for this reason.
    pub fn number(self) -> u32 {
        match self {
            Self::Tag => 1,
            Self::Length => 2,
            Self::Content => 3,
            Self::Unknown(number) => number,
        }
    }

    /// The reason of this number, which is not 0.
    fn of_number(number: u32) -> Self {
        match number {
            1 => Self::Tag,
            2 => Self::Length,
            3 => Self::Content,
            other => Self::Unknown(other),
        }
    }
}

impl fmt::Display for StampReason {
    fn fmt(&self, f: &mut fmt::Formatter<'_>) -> fmt::Result {
        f.write_str(match self {
            Self::Tag => "an object is missing, out of order or too many",
            Self::Length => "a length goes too far, is not the shortest form or is not allowed",
            Self::Content => "a value is not allowed, or the two States differ",
            Self::Unknown(number) => return write!(f, "reason {number}, which is not known here"),
        })
    }
}

/// The first thing that is wrong with a record that is no stamp.
#[derive(Clone, Copy, Debug, PartialEq, Eq)]
pub struct StampFault {
    /// Where the object at fault begins in the record, or where a missing one should stand.
    pub at: usize,
    /// What is wrong there.
    pub reason: StampReason,
}

impl fmt::Display for StampFault {
    fn fmt(&self, f: &mut fmt::Formatter<'_>) -> fmt::Result {
        let Self { at, reason } = self;
        write!(f, "no stamp, at offset {at}: {reason}")
    }
}

impl std::error::Error for StampFault {}

/// A record that is a stamp. Each value is a part of the record.
#[derive(Clone, Copy, Debug, PartialEq, Eq)]
pub struct Stamp<'r> {
    record: &'r [u8],
    places: [u32; PLACES],
}

/// Reads a record as a stamp: a travel record by Table 11 of ICAO's LDS2 report, as EntryRecords
/// and ExitRecords hold them.
///
/// ```
/// use malquindo::{StampField, StampReason};
///
/// let mut record = b"\x5F\x44\x03UTO\x73\x23\x5F\x44\x03UTO\x5F\x45\x0820261116\
///     \x5F\x4B\x03UBP\x5F\x46\x03AIR\x5F\x4A\x03I07\
///     \x5F\x37\x02\xA5\x5A\x5F\x38\x01\x02"
///     .to_vec();
/// let stamp = malquindo::read_stamp(&record)?;
/// assert_eq!(stamp.state(), b"UTO");
/// assert_eq!(stamp.date(), b"20261116");
/// assert_eq!(stamp.reference(), 2);
/// assert_eq!(stamp.value(StampField::Inspector), Some(&b"I07"[..]));
/// assert_eq!(stamp.mode(), None);
///
/// // The State before the signed part is another.
/// record[3] = b'A';
/// let fault = malquindo::read_stamp(&record).unwrap_err();
/// assert_eq!((fault.reason, fault.at), (StampReason::Content, 8));
/// # Ok::<(), malquindo::StampFault>(())
/// ```
pub fn read_stamp(record: &[u8]) -> Result<Stamp<'_>, StampFault> {
    let mut places = [0; PLACES];
    let result = malquindo_sys::stamp_read(record, &mut places);
    match fault_of(result) {
        None => Ok(Stamp { record, places }),
        Some(fault) => Err(fault),
    }
}

/// The fault that a result tells; none where the record is a stamp.
fn fault_of(result: u64) -> Option<StampFault> {
    let number = (result >> 32) as u32;
    (number != 0).then(|| StampFault {
        at: result as u32 as usize,
        reason: StampReason::of_number(number),
    })
}

impl<'r> Stamp<'r> {
    /// The value of a field; none where an optional one is absent.
    pub fn value(&self, field: StampField) -> Option<&'r [u8]> {
        let [at, length] = [0, 1].map(|number| self.places[2 * field as usize + number] as usize);
        // A value has at least one byte.
        (length != 0).then(|| &self.record[at..at + length])
    }

    /// The fields that the stamp has, in their order, with their values.
    pub fn fields(&self) -> impl Iterator<Item = (StampField, &'r [u8])> {
        let stamp = *self;
        StampField::ALL
            .into_iter()
            .filter_map(move |field| Some((field, stamp.value(field)?)))
    }

    /// The bytes that were read.
    pub fn record(&self) -> &'r [u8] {
        self.record
    }

    /// The State, 3 letters. The copy before the signed part is the same.
    pub fn state(&self) -> &'r [u8] {
        self.mandatory(StampField::State)
    }

    /// Approvals, refusals and revocations of visas, 1 to 50 characters.
    pub fn visas(&self) -> Option<&'r [u8]> {
        self.value(StampField::Visas)
    }

    /// The date, 8 digits. The library looks it up in no calendar.
    pub fn date(&self) -> &'r [u8] {
        self.mandatory(StampField::Date)
    }

    /// The inspection authority, 1 to 10 characters.
    pub fn authority(&self) -> &'r [u8] {
        self.mandatory(StampField::Authority)
    }

    /// The inspection location, 1 to 10 characters.
    pub fn location(&self) -> &'r [u8] {
        self.mandatory(StampField::Location)
    }

    /// The inspector, 1 to 20 characters.
    pub fn inspector(&self) -> &'r [u8] {
        self.mandatory(StampField::Inspector)
    }

    /// The result of the inspection, 1 to 50 characters.
    pub fn result(&self) -> Option<&'r [u8]> {
        self.value(StampField::Result)
    }

    /// The mode of travel, any letter.
    pub fn mode(&self) -> Option<u8> {
        self.value(StampField::Mode).map(|letter| letter[0])
    }

    /// The duration of stay, 1 or 2 bytes: days, the high byte first. Table 11's example 00FF is
    /// 255. The library does not look into it.
    pub fn duration(&self) -> Option<&'r [u8]> {
        self.value(StampField::Duration)
    }

    /// Conditions that the holder has to observe, 1 to 50 characters.
    pub fn conditions(&self) -> Option<&'r [u8]> {
        self.value(StampField::Conditions)
    }

    /// The signature over the signed part, 1 to 140 bytes. The library does not check it.
    pub fn signature(&self) -> &'r [u8] {
        self.mandatory(StampField::Signature)
    }

    /// The number of the travel certificate that the stamp names, for
    /// [`certificate`](crate::certificate).
    pub fn reference(&self) -> u8 {
        self.mandatory(StampField::Reference)[0]
    }

    fn mandatory(&self, field: StampField) -> &'r [u8] {
        self.value(field).expect("a stamp has this field")
    }
}

#[cfg(test)]
mod tests {
    use super::*;

    /// The shortest stamp, the parts of a longer one, and that one.
    const SHORTEST: &[u8] = b"\x5F\x44\x03UTO\x73\x1D\x5F\x44\x03UTO\x5F\x45\x0820261116\
        \x5F\x4B\x01A\x5F\x46\x01L\x5F\x4A\x01I\x5F\x37\x01\xA5\x5F\x38\x01\x01";
    const VALUES: [&[u8]; 13] = [
        b"UTO",
        b"UTO",
        b"V 1",
        b"20261116",
        b"UBP",
        b"AIR<7",
        b"I07",
        b"OK",
        b"A",
        b"\x00\x5A",
        b"NO WORK",
        b"\x00\xFF\x73",
        b"\xFE",
    ];
    const TAGS: [u8; 13] = [
        0x44, 0x44, 0x4C, 0x45, 0x4B, 0x46, 0x4A, 0x4D, 0x49, 0x48, 0x4E, 0x37, 0x38,
    ];

    fn object(tag: &[u8], value: &[u8]) -> Vec<u8> {
        let length = match value.len() {
            n @ ..=0x7F => vec![n as u8],
            n => vec![0x81, n as u8],
        };
        [tag, &length, value].concat()
    }

    /// The stamp with these values; an empty one is left out.
    fn stamp_of(values: [&[u8]; 13]) -> Vec<u8> {
        let field = |at: usize| match values[at] {
            [] => vec![],
            value => object(&[0x5F, TAGS[at]], value),
        };
        let inside: Vec<u8> = (1..=10).flat_map(field).collect();
        [field(0), object(&[0x73], &inside), field(11), field(12)].concat()
    }

    fn fault(record: &[u8]) -> (StampReason, usize) {
        let fault = read_stamp(record).unwrap_err();
        (fault.reason, fault.at)
    }

    #[test]
    fn all_fields() {
        let record = stamp_of(VALUES);
        let stamp = read_stamp(&record).unwrap();
        let read: Vec<&[u8]> = stamp.fields().map(|(_, value)| value).collect();
        assert_eq!(read, VALUES);
        assert!(stamp.fields().map(|(field, _)| field).eq(StampField::ALL));
        assert_eq!(stamp.record(), record);
        assert_eq!(stamp.state(), VALUES[1]);
        assert_eq!(stamp.visas(), Some(VALUES[2]));
        assert_eq!(stamp.date(), VALUES[3]);
        assert_eq!(stamp.authority(), VALUES[4]);
        assert_eq!(stamp.location(), VALUES[5]);
        assert_eq!(stamp.inspector(), VALUES[6]);
        assert_eq!(stamp.result(), Some(VALUES[7]));
        assert_eq!(stamp.mode(), Some(b'A'));
        assert_eq!(stamp.duration(), Some(VALUES[9]));
        assert_eq!(stamp.conditions(), Some(VALUES[10]));
        assert_eq!(stamp.signature(), VALUES[11]);
        assert_eq!(stamp.reference(), 0xFE);
    }

    #[test]
    fn the_shortest_and_the_longest() {
        let stamp = read_stamp(SHORTEST).unwrap();
        let present = stamp.fields().map(|(field, _)| field);
        assert!(present.eq(StampField::ALL
            .into_iter()
            .filter(|field| !field.is_optional())));
        assert_eq!((stamp.mode(), stamp.duration()), (None, None));
        let long = [3, 3, 50, 8, 10, 10, 20, 50, 1, 2, 50, 140, 1];
        let values = long.map(|length| vec![b'7'; length]);
        let mut values = values.each_ref().map(Vec::as_slice);
        values[..2].fill(b"UTO");
        values[8] = b"A";
        let record = stamp_of(values);
        assert_eq!(record.len(), crate::STAMP_LEN);
        assert_eq!(read_stamp(&record).unwrap().signature(), [b'7'; 140]);
        assert_eq!(SHORTEST.len(), 45);
    }

    /// Each combination of optional fields: those that are absent are none.
    #[test]
    fn optional_fields() {
        for bits in 0..1 << 13 {
            let absent = |field: &StampField| bits >> *field as usize & 1 != 0;
            if StampField::ALL
                .iter()
                .any(|f| absent(f) && !f.is_optional())
            {
                continue;
            }
            let mut values = VALUES;
            for field in StampField::ALL.iter().filter(|field| absent(field)) {
                values[*field as usize] = b"";
            }
            let record = stamp_of(values);
            let stamp = read_stamp(&record).unwrap();
            for field in StampField::ALL {
                let value = stamp.value(field).unwrap_or_default();
                assert_eq!(value, values[field as usize], "{field}");
            }
        }
    }

    /// Where a value lies in memory: a copy would lie elsewhere.
    #[test]
    fn a_value_is_a_part_of_the_record() {
        let record = stamp_of(VALUES);
        let stamp = read_stamp(&record).unwrap();
        for (_, value) in stamp.fields() {
            assert!(record.as_ptr_range().contains(&value.as_ptr()));
        }
        let end = record.len();
        let last = stamp.value(StampField::Reference).unwrap();
        assert_eq!(last.as_ptr_range(), record[end - 1..].as_ptr_range());
    }

    #[test]
    fn wrong_tags() {
        assert_eq!(fault(&[]), (StampReason::Tag, 0));
        assert_eq!(fault(&SHORTEST[6..]), (StampReason::Tag, 0));
        // No reference, half its tag; a byte behind it.
        assert_eq!(fault(&SHORTEST[..41]), (StampReason::Tag, 41));
        assert_eq!(fault(&SHORTEST[..42]), (StampReason::Tag, 41));
        assert_eq!(fault(&[SHORTEST, &[0]].concat()), (StampReason::Tag, 45));
        // No inspector: the signature stands where the signed part ends.
        let mut values = VALUES;
        values[6..11].fill(b"");
        let record = stamp_of(values);
        let signature = record.len() - 4 - 6;
        assert_eq!(fault(&record), (StampReason::Tag, signature));
        // The signed part goes on into the signature.
        let mut record = SHORTEST.to_vec();
        record[7] += 4;
        assert_eq!(fault(&record), (StampReason::Tag, 37));
    }

    #[test]
    fn wrong_lengths() {
        assert_eq!(fault(&SHORTEST[..44]), (StampReason::Length, 41));
        assert_eq!(fault(&SHORTEST[..43]), (StampReason::Length, 41));
        assert_eq!(fault(&SHORTEST[..30]), (StampReason::Length, 6));
        for (at, size) in [3, 3, 50, 8, 10, 10, 20, 50, 1, 2, 50, 140, 1]
            .into_iter()
            .enumerate()
        {
            let long = vec![b'7'; size + 1];
            let mut values = VALUES;
            values[at] = &long;
            let fault = read_stamp(&stamp_of(values)).unwrap_err();
            assert_eq!(fault.reason, StampReason::Length);
        }
        // A length of the signed part that is not the shortest form.
        let record = [&SHORTEST[..7], &[0x81], &SHORTEST[7..]].concat();
        assert_eq!(fault(&record), (StampReason::Length, 6));
    }

    #[test]
    fn wrong_contents() {
        let with = |at: usize, byte: u8| {
            let mut record = SHORTEST.to_vec();
            record[at] = byte;
            fault(&record)
        };
        assert_eq!(with(44, 0x00), (StampReason::Content, 41));
        assert_eq!(with(44, 0xFF), (StampReason::Content, 41));
        assert_eq!(with(3, b'1'), (StampReason::Content, 0));
        // The two States differ.
        assert_eq!(with(3, b'u'), (StampReason::Content, 8));
        assert_eq!(with(13, b'A'), (StampReason::Content, 8));
        assert_eq!(with(17, b'A'), (StampReason::Content, 14));
        assert_eq!(with(28, b'-'), (StampReason::Content, 25));
    }

    #[test]
    fn reasons_and_words() {
        let reasons = [StampReason::Tag, StampReason::Length, StampReason::Content];
        assert_eq!(reasons.map(StampReason::number), [1, 2, 3]);
        assert_eq!([1, 2, 3].map(StampReason::of_number), reasons);
        let fault = read_stamp(&SHORTEST[..41]).unwrap_err();
        let words = "no stamp, at offset 41: an object is missing, out of order or too many";
        assert_eq!(fault.to_string(), words);
        assert_eq!(StampField::Reference.to_string(), "certificate reference");
    }

    /// A library of another version may answer other reasons.
    #[test]
    fn a_reason_that_is_not_known() {
        assert_eq!(fault_of(0), None);
        let fault = fault_of(99 << 32 | 7).unwrap();
        assert_eq!((fault.reason, fault.at), (StampReason::Unknown(99), 7));
        assert_eq!(fault.reason.number(), 99);
        let words = "no stamp, at offset 7: reason 99, which is not known here";
        assert_eq!(fault.to_string(), words);
    }

    /// What the header says of a stamp by this name.
    fn in_header(name: &str) -> usize {
        let header = include_str!("../../../include/malquindo.h");
        let start = format!("#define MALQUINDO_STAMP_{name} ");
        let mut lines = header.lines();
        let number = lines.find_map(|line| line.strip_prefix(&start)?.split(' ').next());
        number.expect(name).parse().expect(name)
    }

    #[test]
    fn the_numbers_are_those_of_the_header() {
        assert_eq!(in_header("LEN"), crate::STAMP_LEN);
        assert_eq!(in_header("PLACES"), PLACES);
        for (number, field) in StampField::ALL.into_iter().enumerate() {
            let name = match field {
                StampField::StateCopy => "STATE_COPY".to_string(),
                _ => format!("{field:?}").to_uppercase(),
            };
            assert_eq!((in_header(&name), field as usize), (number, number));
        }
        for reason in [StampReason::Tag, StampReason::Length, StampReason::Content] {
            let name = format!("WRONG_{reason:?}").to_uppercase();
            assert_eq!(in_header(&name), reason.number() as usize);
        }
    }

    /// A stamp that was appended to a card, read by the index, and the certificate that it names.
    #[test]
    fn of_a_card() {
        let rooms = [(0x0101, 100), (0x0102, 2), (0x011A, 40)];
        let mut image = vec![0; 160];
        crate::move_card(&[], &rooms, &mut image).unwrap();
        let mut session = crate::open(&[0xFF; 60]).unwrap();
        let mut response = [0; crate::RESPONSE_LEN];
        let select = [0x00, 0xA4, 0x04, 0x0C, 7, 0xA0, 0, 0, 2, 0x47, 0x20, 1];
        let append = [&[0x00, 0xE2, 0x00, 0x08, 45], SHORTEST].concat();
        let certificate = [0x00, 0xE2, 0x00, 0xD0, 1, 0xC1];
        for command in [&select[..], &append, &certificate] {
            let answer = crate::command(&mut image, &mut session, command, &mut response).unwrap();
            assert_eq!(answer.status, 0x9000);
        }
        let body = &image[crate::file(&image, 0x0101).unwrap()];
        let index = crate::Index::build(0x0101, body).unwrap();
        let stamp = read_stamp(index.read(body, 1).unwrap()).unwrap();
        let card = &image[crate::file(&image, 0x011A).unwrap()];
        let named = crate::certificate(card, &[0, 0], stamp.reference()).unwrap();
        assert_eq!(named.unwrap().bytes, [0xC1]);
    }
}
