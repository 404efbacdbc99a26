//! An index of a file's records.

use crate::{accepted, Refusal, RECORDS};

/// The places of a file's records: a record is read by its place, without a walk over those
/// before it.
///
/// A place is where the record's length stands in the file's body. Build the index once. After
/// each APPEND RECORD to the file that is answered 9000, extend it. Then it has the place of every
/// record, whatever other commands are run. A move changes no place: lend the body of the new
/// image from then on.
///
/// A card without records, and then with one:
///
/// ```
/// use malquindo::{Index, Refusal};
///
/// let mut image = [0; 138];
/// let rooms = [(0x0101, 40), (0x0102, 40), (0x011A, 40)];
/// malquindo::move_card(&[], &rooms, &mut image)?;
/// let body = malquindo::file(&image, 0x0101).expect("the card has this file");
/// let mut index = Index::build(0x0101, &image[body.clone()])?;
/// assert!(index.is_empty());
///
/// let mut session = malquindo::open(&[0xFF; 60])?;
/// let mut response = [0; malquindo::RESPONSE_LEN];
/// let select = [0x00, 0xA4, 0x04, 0x0C, 7, 0xA0, 0x00, 0x00, 0x02, 0x47, 0x20, 0x01];
/// let append = [0x00, 0xE2, 0x00, 0x08, 6, 0x5F, 0x44, 0x03, 0x55, 0x53, 0x41];
/// for command in [&select[..], &append] {
///     let answer = malquindo::command(&mut image, &mut session, command, &mut response)?;
///     assert_eq!(answer.status, 0x9000);
/// }
///
/// let body = &image[body];
/// index.extend(body)?;
/// assert_eq!(index.places(), [2]);
/// assert_eq!(index.read(body, 1)?, [0x5F, 0x44, 0x03, 0x55, 0x53, 0x41]);
/// assert_eq!(index.read(body, 2), Err(Refusal::BadIndex));
/// # Ok::<(), malquindo::Refusal>(())
/// ```
#[derive(Clone, Debug, PartialEq, Eq)]
pub struct Index {
    kind: u16,
    places: Vec<u32>,
}

impl Index {
    /// The index of all records of a body. The kind is that of the file's section, such as 0x0101
    /// for EntryRecords.
    ///
    /// Refused where the kind is not that of a record file, or the body is not well formed for it.
    pub fn build(kind: u16, body: &[u8]) -> Result<Self, Refusal> {
        let mut places = vec![0; RECORDS];
        let count = accepted(malquindo_sys::index_build(kind, body, &mut places))?;
        places.truncate(count as usize);
        Ok(Self { kind, places })
    }

    /// An index of any places, such as those that were kept from an earlier one. Nothing is
    /// tested here.
    pub fn from_places(kind: u16, places: Vec<u32>) -> Self {
        Self { kind, places }
    }

    /// Adds the place of the record that was appended to the body.
    ///
    /// Refused where [`build`](Self::build) is, and where the body has not one record more than
    /// the index has places: after two appends, build anew. The index then stays as it is.
    pub fn extend(&mut self, body: &[u8]) -> Result<(), Refusal> {
        let n = self.places.len();
        self.places.push(0);
        let result = malquindo_sys::index_extend(self.kind, body, &mut self.places, n);
        let extended = accepted(result);
        if extended.is_err() {
            self.places.truncate(n);
        }
        extended.map(drop)
    }

    /// The record of this number, counted from 1: the part of the body that its place says.
    ///
    /// Nothing else of the body is looked at. With places that were not built from this body, the
    /// record is what stands at its place, and may have no byte or more than any record of a file.
    ///
    /// Refused where the index has no such number, or the record at its place goes past the body's
    /// end.
    #[inline]
    pub fn read<'b>(&self, body: &'b [u8], number: usize) -> Result<&'b [u8], Refusal> {
        let length = accepted(malquindo_sys::index_read(body, &self.places, number))?;
        // The record stands behind its length, which has two bytes.
        let start = self.places[number - 1] as usize + 2;
        Ok(&body[start..start + length as usize])
    }

    /// How many places the index has: as many as the body had records when the index was last built
    /// or extended.
    pub fn len(&self) -> usize {
        self.places.len()
    }

    /// Whether it has no place.
    pub fn is_empty(&self) -> bool {
        self.places.is_empty()
    }

    /// The kind of the file that it is of.
    pub fn kind(&self) -> u16 {
        self.kind
    }

    /// The place of each record, in their order.
    pub fn places(&self) -> &[u32] {
        &self.places
    }
}

#[cfg(test)]
mod tests {
    use super::*;

    const REFUSED: Refusal = Refusal::BadIndex;
    const ENTRY: u16 = 0x0101;
    /// Two records, and three with a free byte behind them.
    const TWO: [u8; 9] = [2, 0, 1, 0, 0xA1, 2, 0, 0xA2, 0xA2];
    const THREE: [u8; 13] = [3, 0, 1, 0, 0xA1, 2, 0, 0xA2, 0xA2, 1, 0, 0xA3, 0xEE];
    const NONE: [u8; 2] = [0, 0];

    /// A body of records of one length.
    fn alike(count: u8, length: u16) -> Vec<u8> {
        let one = [&length.to_le_bytes()[..], &vec![7; usize::from(length)]].concat();
        [&[count, 0][..], &one.repeat(usize::from(count))].concat()
    }

    #[test]
    fn a_place_for_each_record() {
        assert_eq!(Index::build(ENTRY, &NONE).unwrap().places(), []);
        assert_eq!(Index::build(ENTRY, &TWO).unwrap().places(), [2, 5]);
        let index = Index::build(ENTRY, &THREE).unwrap();
        assert_eq!(index.places(), [2, 5, 9]);
        assert_eq!((index.len(), index.is_empty()), (3, false));
        assert_eq!(index.kind(), ENTRY);
        assert!(Index::build(ENTRY, &NONE).unwrap().is_empty());
    }

    /// A list of [`RECORDS`] entries does for any file, and the last place of the longest is where
    /// it should be.
    #[test]
    fn full_files() {
        let most = |kind, count, longest: u16| {
            let body = alike(count, longest);
            let index = Index::build(kind, &body).unwrap();
            let last = 2 + (u32::from(count) - 1) * (2 + u32::from(longest));
            assert_eq!(index.places().last(), Some(&last));
            assert_eq!(index.len(), usize::from(count));
            assert_eq!(
                index.read(&body, index.len()).unwrap().as_ptr_range(),
                body[last as usize + 2..].as_ptr_range()
            );
            let one_more = Index::build(kind, &alike(count + 1, 1));
            assert_eq!(one_more, Err(REFUSED));
            let longer = Index::build(kind, &alike(1, longest + 1));
            assert_eq!(longer, Err(REFUSED));
        };
        most(0x0101, 254, 391);
        most(0x0102, 254, 391);
        most(0x011A, 254, 929);
        most(0x0203, 254, 512);
        most(0x021A, 254, 929);
        most(0x031A, 64, 929);
        assert_eq!(RECORDS, 254);
    }

    /// Kinds that no record file has, and bodies that are not well formed.
    const BAD_KINDS: [u16; 6] = [0x0000, 0x0103, 0x0401, 0x0440, 0x1A01, 0xFFFF];
    const BAD_BODIES: [&[u8]; 8] = [
        &[],
        &[0],
        &[255, 0],
        &[0, 1],
        &[1, 0],
        &[1, 0, 1],
        &[1, 0, 0, 0],
        &[1, 0, 2, 0, 7],
    ];

    #[test]
    fn refused_kinds_and_bodies() {
        for kind in BAD_KINDS {
            assert_eq!(Index::build(kind, &NONE), Err(REFUSED));
            assert_eq!(Index::build(kind, &TWO), Err(REFUSED));
            let before = Index::from_places(kind, vec![2]);
            let mut index = before.clone();
            assert_eq!(index.extend(&TWO), Err(REFUSED));
            assert_eq!(index, before);
        }
        for body in BAD_BODIES {
            assert_eq!(Index::build(ENTRY, body), Err(REFUSED));
            for places in [vec![], vec![2], vec![2; 254]] {
                let before = Index::from_places(ENTRY, places);
                let mut index = before.clone();
                assert_eq!(index.extend(body), Err(REFUSED));
                assert_eq!(index, before);
            }
        }
    }

    #[test]
    fn extended_by_the_last_record() {
        let mut index = Index::build(ENTRY, &NONE).unwrap();
        assert_eq!(index.extend(&alike(1, 391)), Ok(()));
        assert_eq!(index.places(), [2]);
        let mut index = Index::build(ENTRY, &TWO).unwrap();
        assert_eq!(index.extend(&THREE), Ok(()));
        assert_eq!(Ok(index), Index::build(ENTRY, &THREE));
        // The places before are not looked at.
        let mut index = Index::from_places(ENTRY, vec![7, u32::MAX]);
        assert_eq!(index.extend(&THREE), Ok(()));
        assert_eq!(index.places(), [7, u32::MAX, 9]);
        // To the last record that a file may have.
        let full = alike(254, 1);
        let built = Index::build(ENTRY, &full).unwrap();
        let mut index = Index::from_places(ENTRY, built.places()[..253].to_vec());
        assert_eq!(index.extend(&full), Ok(()));
        assert_eq!(index, built);
    }

    #[test]
    fn extended_by_no_other() {
        for places in [
            vec![],
            vec![2],
            vec![2, 5, 9],
            vec![2, 5, 9, 12],
            vec![0; 300],
        ] {
            let before = Index::from_places(ENTRY, places);
            let mut index = before.clone();
            assert_eq!(index.extend(&THREE), Err(REFUSED));
            assert_eq!(index, before);
        }
        let mut index = Index::build(ENTRY, &NONE).unwrap();
        assert_eq!(index.extend(&NONE), Err(REFUSED));
        assert!(index.is_empty());
    }

    /// Where a record lies in memory: a copy would lie elsewhere.
    #[test]
    fn a_record_is_a_part_of_the_body() {
        let index = Index::build(ENTRY, &THREE).unwrap();
        let body = THREE;
        for (number, part) in [(1, 4..5), (2, 7..9), (3, 11..12)] {
            let record = index.read(&body, number).unwrap();
            assert_eq!(record.as_ptr_range(), body[part].as_ptr_range());
        }
    }

    #[test]
    fn numbers_that_are_not_there() {
        let index = Index::build(ENTRY, &THREE).unwrap();
        for number in [0, 4, 255, (1 << 32) + 1, usize::MAX] {
            assert_eq!(index.read(&THREE, number), Err(REFUSED));
        }
        let empty = Index::build(ENTRY, &NONE).unwrap();
        for number in [0, 1, usize::MAX] {
            assert_eq!(empty.read(&NONE, number), Err(REFUSED));
        }
    }

    /// Places that were not built from the body: what the length at each says, or a refusal.
    #[test]
    fn a_foreign_list() {
        let read = |place: u32, body: &[u8]| {
            let record = Index::from_places(ENTRY, vec![place]).read(body, 1);
            record.map(<[u8]>::len)
        };
        // The count taken for a length, and half of it; a length of no bytes.
        assert_eq!(read(0, &TWO), Ok(2));
        assert_eq!(read(1, &TWO), Err(REFUSED));
        assert_eq!(read(0, &NONE), Ok(0));
        assert_eq!(read(2, &[9, 9, 0, 0]), Ok(0));
        // More bytes than any record of a file has.
        let long = [&[0xFF, 0xFF][..], &[7; 65_535]].concat();
        assert_eq!(read(0, &long), Ok(65_535));
        // A record that leaves the body by one byte; a length that does so by one and by two.
        assert_eq!(read(0, &long[..65_536]), Err(REFUSED));
        assert_eq!(read(5, &TWO), Ok(2));
        assert_eq!(read(5, &TWO[..8]), Err(REFUSED));
        assert_eq!(read(8, &TWO), Err(REFUSED));
        assert_eq!(read(9, &TWO), Err(REFUSED));
        for place in u32::MAX - 4..=u32::MAX {
            assert_eq!(read(place, &TWO), Err(REFUSED));
            assert_eq!(read(place, &[]), Err(REFUSED));
        }
        // One entry that is wrong spoils no other.
        let index = Index::from_places(0x0000, vec![2, u32::MAX, 9]);
        assert_eq!(index.read(&THREE, 1), Ok(&THREE[4..5]));
        assert_eq!(index.read(&THREE, 2), Err(REFUSED));
        assert_eq!(index.read(&THREE, 3), Ok(&THREE[11..12]));
    }

    /// Appends by the machine itself: the index reads what READ RECORD reads.
    #[test]
    fn beside_a_card() {
        let rooms = [(0x0101, 400), (0x0102, 2), (0x011A, 2)];
        let mut image = vec![0; 422];
        crate::move_card(&[], &rooms, &mut image).unwrap();
        let mut session = crate::open(&[0xFF; 60]).unwrap();
        let mut run = |image: &mut [u8], command: &[u8]| {
            let mut response = [0; crate::RESPONSE_LEN];
            let answer = crate::command(image, &mut session, command, &mut response).unwrap();
            (answer.status, answer.data.to_vec())
        };
        let select = [0x00, 0xA4, 0x04, 0x0C, 7, 0xA0, 0, 0, 2, 0x47, 0x20, 1];
        assert_eq!(run(&mut image, &select), (0x9000, vec![]));
        let body = crate::file(&image, ENTRY).unwrap();
        let mut index = Index::build(ENTRY, &image[body.clone()]).unwrap();
        for number in 1..=20 {
            let record = vec![number; usize::from(number)];
            let append = [&[0x00, 0xE2, 0x00, 0x08, number], &record[..]].concat();
            assert_eq!(run(&mut image, &append), (0x9000, vec![]));
            assert_eq!(index.extend(&image[body.clone()]), Ok(()));
        }
        for number in 1..=20 {
            let read = [0x00, 0xB2, number, 0x0C, 0, 0, 0];
            let (status, record) = run(&mut image, &read);
            assert_eq!(status, 0x9000);
            let body = &image[body.clone()];
            assert_eq!(index.read(body, usize::from(number)), Ok(&record[..]));
        }
        assert_eq!(Ok(index), Index::build(ENTRY, &image[body]));
    }
}
