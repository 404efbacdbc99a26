//! The proved file machine for passport chips (LDS2): command bytes, rights and card image in;
//! response, status word and image out.
//!
//! A card with the three files of the travel application: select it, append two records, read
//! them back.
//!
//! ```
//! // Sections 0101, 0102 and 011A, each a body of 40 bytes with no records.
//! let mut image = Vec::new();
//! for kind in [0x0101_u16, 0x0102, 0x011A] {
//!     image.extend(40_u32.to_le_bytes());
//!     image.extend(kind.to_le_bytes());
//!     image.extend([0; 40]);
//! }
//! let mut session = malquindo::open(&[0xFF; 60])?;
//! let mut response = [0; malquindo::RESPONSE_LEN];
//! let mut run = |command: &[u8]| {
//!     malquindo::command(&mut image, &mut session, command, &mut response)
//!         .map(|answer| (answer.data.to_vec(), answer.status))
//! };
//!
//! let select = [0x00, 0xA4, 0x04, 0x0C, 7, 0xA0, 0x00, 0x00, 0x02, 0x47, 0x20, 0x01];
//! let usa = [0x5F, 0x44, 0x03, 0x55, 0x53, 0x41];
//! let fra = [0x5F, 0x44, 0x03, 0x46, 0x52, 0x41];
//! let append = |record: &[u8; 6]| [&[0x00, 0xE2, 0x00, 0x08, 6], &record[..]].concat();
//! let read_all = [0x00, 0xB2, 0x01, 0x05, 0x00, 0x00, 0x00];
//!
//! assert_eq!(run(&select)?, (vec![], 0x9000));
//! assert_eq!(run(&append(&usa))?, (vec![], 0x9000));
//! assert_eq!(run(&append(&fra))?, (vec![], 0x9000));
//! assert_eq!(run(&read_all)?, ([usa, fra].concat(), 0x9000));
//! # Ok::<(), malquindo::Refusal>(())
//! ```
//!
//! [`rights`] reads the rights to open with from the extensions of three certificates.
//!
//! [`chained`] splits a command with much data into links, for readers that cannot send it whole.
//! [`Session::chain`] tells what came in the links so far.
//!
//! [`cut`] is for testers: it leaves a card as one that was taken away in the middle of a command.
//!
//! [`move_card`] writes a card anew, with other rooms. [`file`](fn@file) finds a file's body in an
//! image, and [`certificate`] the certificate that a stamp names. An [`Index`] reads a record
//! without a walk over those before it. [`read_stamp`] tells what a stamp says.

#![forbid(unsafe_code)]

mod chain;
mod index;
mod rights;
mod stamp;

pub use chain::{chained, Chain, CHAIN_LEN};
pub use index::Index;
pub use rights::{rights, RightsRefusal};
pub use stamp::{read_stamp, Stamp, StampFault, StampField, StampReason};

use std::fmt;
use std::ops::Range;

/// How many bytes the rights of three certificates have.
pub const RIGHTS_LEN: usize = 60;
/// How many bytes a session has.
pub const SESSION_LEN: usize = 1_054;
/// How many bytes the response buffer of a command has at least.
pub const RESPONSE_LEN: usize = 2_050;
/// How many records a file has at most.
pub const RECORDS: usize = 254;
/// How many bytes a stamp has at most.
pub const STAMP_LEN: usize = 391;

/// A session: 20 rights bytes, application, place, file id and record number; then the chain that
/// is open, with its length, INS, P1 and P2, and 1,024 bytes. What is not used is zero.
///
/// It can be made of any 1,054 bytes. Each command tests whether they are a session, and whether it
/// fits the image.
#[derive(Clone, Debug, PartialEq, Eq)]
pub struct Session([u8; SESSION_LEN]);

impl Session {
    pub fn from_bytes(bytes: [u8; SESSION_LEN]) -> Self {
        Self(bytes)
    }

    pub fn as_bytes(&self) -> &[u8; SESSION_LEN] {
        &self.0
    }
}

/// Why a call was refused. [`Refusal::number`] is the number that the library answers. The header
/// has three more: 7 and 8, which [`rights`] tells as a [`RightsRefusal`], and 15, for a list that
/// is too short for a stamp; that of [`read_stamp`] never is.
#[derive(Clone, Copy, Debug, PartialEq, Eq)]
pub enum Refusal {
    /// 1: the response buffer is shorter than [`RESPONSE_LEN`] bytes.
    ShortBuffer,
    /// 2: the image is not well formed.
    BadImage,
    /// 3: the rights are not 60 bytes.
    BadRights,
    /// 4: the session does not fit the image, or its bytes are malformed.
    BadSession,
    /// 6: the body, the index or the number does not fit; the functions of [`Index`] say when.
    BadIndex,
    /// 9: the card's body or the desk's is no well-formed body of travel certificates.
    BadCertificates,
    /// 10: the list of rooms lays out no valid image.
    BadList,
    /// 11: the list has no room for a file of the old card.
    MissingKind,
    /// 12: a room is too small for what the file holds.
    SmallRoom,
    /// 13: the target is shorter than the new image.
    ShortTarget,
    /// Any other number. The library that this crate was written for answers none; one of
    /// another version may.
    Unknown(u32),
}

impl Refusal {
    /// The number that the library answers for this refusal.
    pub fn number(self) -> u32 {
        match self {
            Self::ShortBuffer => 1,
            Self::BadImage => 2,
            Self::BadRights => 3,
            Self::BadSession => 4,
            Self::BadIndex => 6,
            Self::BadCertificates => 9,
            Self::BadList => 10,
            Self::MissingKind => 11,
            Self::SmallRoom => 12,
            Self::ShortTarget => 13,
            Self::Unknown(number) => number,
        }
    }

    /// The refusal of this number, which is not 0.
    fn of_number(number: u32) -> Self {
        match number {
            1 => Self::ShortBuffer,
            2 => Self::BadImage,
            3 => Self::BadRights,
            4 => Self::BadSession,
            6 => Self::BadIndex,
            9 => Self::BadCertificates,
            10 => Self::BadList,
            11 => Self::MissingKind,
            12 => Self::SmallRoom,
            13 => Self::ShortTarget,
            other => Self::Unknown(other),
        }
    }
}

impl fmt::Display for Refusal {
    fn fmt(&self, f: &mut fmt::Formatter<'_>) -> fmt::Result {
        f.write_str(match self {
            Self::ShortBuffer => "the response buffer is shorter than 2,050 bytes",
            Self::BadImage => "the image is not well formed",
            Self::BadRights => "the rights are not 60 bytes",
            Self::BadSession => "the session does not fit the image, or is malformed",
            Self::BadIndex => "the body, the index or the number does not fit",
            Self::BadCertificates => "a body of travel certificates is not well formed",
            Self::BadList => "the list of rooms lays out no valid image",
            Self::MissingKind => "a file of the old card has no room in the list",
            Self::SmallRoom => "a room is too small for its content",
            Self::ShortTarget => "the target is shorter than the new image",
            Self::Unknown(number) => return write!(f, "refusal {number}, which is not known here"),
        })
    }
}

impl std::error::Error for Refusal {}

/// The low 32 bits of a result, or the refusal that its high 32 bits say.
#[inline]
fn accepted(result: u64) -> Result<u32, Refusal> {
    match (result >> 32) as u32 {
        0 => Ok(result as u32),
        number => Err(Refusal::of_number(number)),
    }
}

/// What a command answers that is not refused.
#[derive(Clone, Copy, Debug, PartialEq, Eq)]
pub struct Answer<'r> {
    /// 256 * SW1 + SW2.
    pub status: u16,
    /// The data in front of the status word, in the response buffer.
    pub data: &'r [u8],
}

/// Opens a session with the rights of three certificates of 20 bytes each, such as [`rights`] reads.
pub fn open(rights: &[u8]) -> Result<Session, Refusal> {
    let mut session = [0; SESSION_LEN];
    accepted(malquindo_sys::open(rights, &mut session))?;
    Ok(Session(session))
}

/// One command on a card image. Unless the status is 9000, the image stays as it came, and so does
/// the session, but for an open chain ([`Session::chain`]): every other status drops it. A refusal
/// keeps it.
///
/// The data of a command may come in links, as [`chained`] makes them. A link but the last is answered
/// 9000 without data, and changes nothing but the session's chain. With an open chain, a command
/// with another INS, P1 or P2 gets 6883.
///
/// A biometrics file has up to 131,072 bytes. READ BINARY with INS B0 reads from offsets up to
/// 32,767, with INS B1 from any. P1-P2 of B1 are the file's id, or 0000 for the current file; it
/// has Lc and Le, and an Le of 1 or 2 gets 6700. Its data is the object `54` with an offset of one
/// to three bytes, as in UPDATE BINARY, and its reply is the object `53` with the file's bytes.
///
/// A file that is written and then read by B1:
///
/// ```
/// let mut image = [0; 8 + 11 + 16];
/// malquindo::move_card(&[], &[(0x031A, 2), (0x0401, 5 + 16)], &mut image)?;
/// let mut session = malquindo::open(&[0xFF; 60])?;
/// let mut response = [0; malquindo::RESPONSE_LEN];
/// let mut run = |command: &[u8]| {
///     malquindo::command(&mut image, &mut session, command, &mut response)
///         .map(|answer| (answer.data.to_vec(), answer.status))
/// };
///
/// run(&[0x00, 0xA4, 0x04, 0x0C, 7, 0xA0, 0x00, 0x00, 0x02, 0x47, 0x20, 0x03])?;
/// let update = [0x00, 0xD7, 0x02, 0x01, 7, 0x54, 1, 0, 0x53, 2, 0xAA, 0xBB];
/// assert_eq!(run(&update)?, (vec![], 0x9000));
/// // The offset 1, in three bytes; Le 00.
/// let read = [0x00, 0xB1, 0x02, 0x01, 5, 0x54, 3, 0, 0, 1, 0x00];
/// assert_eq!(run(&read)?, (vec![0x53, 1, 0xBB], 0x9000));
/// # Ok::<(), malquindo::Refusal>(())
/// ```
pub fn command<'r>(
    image: &mut [u8],
    session: &mut Session,
    command: &[u8],
    response: &'r mut [u8],
) -> Result<Answer<'r>, Refusal> {
    let result = malquindo_sys::command(image, &mut session.0, command, response);
    let low = accepted(result)?;
    // The length counts the two bytes of the status word.
    let length = (low >> 16) as usize;
    Ok(Answer {
        status: low as u16,
        data: &response[..length - 2],
    })
}

/// For testers: what a card is that was taken away in the middle of a command. The image is then as a cut
/// behind so many of the command's stores leaves it, and the answer is how many it has in all.
///
/// APPEND RECORD of n bytes has n + 4 stores, of one byte each: the record's length, its bytes, and
/// last the file's count. ACTIVATE has one, that of the state. All are made where `stores` is
/// as many or more; short of that the card holds what it held before. Any other command has none,
/// and neither have these two where [`command`] would not answer 9000: the image stays then, and the
/// answer is 0. UPDATE BINARY is among the others, though it writes.
///
/// Of an append in links the last one has the stores of all the data, and a link before it has none.
///
/// The session is only read: it is the one before the command, with its chain. A refusal is
/// [`Refusal::BadImage`] or [`Refusal::BadSession`], and the image stays.
///
/// A record of one byte, cut before its last store; the next append takes its room:
///
/// ```
/// let mut image = [0; 138];
/// let rooms = [(0x0101, 40), (0x0102, 40), (0x011A, 40)];
/// malquindo::move_card(&[], &rooms, &mut image)?;
/// let mut session = malquindo::open(&[0xFF; 60])?;
/// let mut response = [0; malquindo::RESPONSE_LEN];
/// let select = [0x00, 0xA4, 0x04, 0x0C, 7, 0xA0, 0x00, 0x00, 0x02, 0x47, 0x20, 0x01];
/// malquindo::command(&mut image, &mut session, &select, &mut response)?;
///
/// let append = |byte| [0x00, 0xE2, 0x00, 0x08, 1, byte];
/// assert_eq!(malquindo::cut(&mut image, &session, &append(0x55), 4)?, 5);
/// // The record's length and its byte lie in free room: no record is counted.
/// assert_eq!(image[6..11], [0, 0, 1, 0, 0x55]);
/// assert_eq!(malquindo::cut(&mut image, &session, &append(0x66), 5)?, 5);
/// assert_eq!(image[6..11], [1, 0, 1, 0, 0x66]);
/// // SELECT has no store.
/// assert_eq!(malquindo::cut(&mut image, &session, &select, 5)?, 0);
/// # Ok::<(), malquindo::Refusal>(())
/// ```
pub fn cut(
    image: &mut [u8],
    session: &Session,
    command: &[u8],
    stores: usize,
) -> Result<usize, Refusal> {
    let all = accepted(malquindo_sys::cut(image, &session.0, command, stores))?;
    Ok(all as usize)
}

/// Moves a card to rooms of other sizes. Each room is a kind and the length of its body.
///
/// Every file of the old image is in the new one: its records under their numbers, or its state
/// and bytes. Free bytes are zero. A file that only the list has is empty. The new image is the
/// start of the target, and is answered; the rest of the target stays as it came. A move that is
/// refused leaves all of the target as it came.
///
/// A card with one record, moved to rooms of 100 bytes:
///
/// ```
/// let rooms = |length| [0x0101, 0x0102, 0x011A].map(|kind| (kind, length));
/// // A move of a card without files makes three empty files.
/// let mut old = [0xFF; 138];
/// malquindo::move_card(&[], &rooms(40), &mut old)?;
/// // A record of one byte in EntryRecords: the count, the record's length, its byte.
/// old[6..11].copy_from_slice(&[1, 0, 1, 0, 0x55]);
///
/// let mut target = [0xFF; 400];
/// let new = malquindo::move_card(&old, &rooms(100), &mut target)?;
/// assert_eq!(new.len(), 318);
/// assert_eq!(new[6..11], old[6..11]);
/// assert!(new[11..106].iter().all(|byte| *byte == 0));
/// assert!(target[318..].iter().all(|byte| *byte == 0xFF));
/// # Ok::<(), malquindo::Refusal>(())
/// ```
pub fn move_card<'t>(
    old: &[u8],
    rooms: &[(u16, u32)],
    target: &'t mut [u8],
) -> Result<&'t mut [u8], Refusal> {
    let length = accepted(malquindo_sys::move_card(old, &list(rooms), target))?;
    Ok(&mut target[..length as usize])
}

/// The list of rooms as the library reads it: for each its length, then its kind, little-endian.
fn list(rooms: &[(u16, u32)]) -> Vec<u8> {
    let row = |(kind, length): &(u16, u32)| {
        let mut row = length.to_le_bytes().to_vec();
        row.extend(kind.to_le_bytes());
        row
    };
    rooms.iter().flat_map(row).collect()
}

/// Where the body of a file stands in a card image; none where the image has no such file, or is
/// not well formed.
///
/// The kind is that of the section, such as 0x011A for travel certificates. Commands move no
/// body, so the place stays good until the card is moved.
///
/// ```
/// let mut image = [0; 138];
/// let rooms = [(0x0101, 40), (0x0102, 40), (0x011A, 40)];
/// malquindo::move_card(&[], &rooms, &mut image)?;
/// assert_eq!(malquindo::file(&image, 0x011A), Some(98..138));
/// assert_eq!(malquindo::file(&image, 0x0203), None);
/// # Ok::<(), malquindo::Refusal>(())
/// ```
pub fn file(image: &[u8], kind: u16) -> Option<Range<usize>> {
    let result = malquindo_sys::file(image, kind);
    let (place, length) = ((result >> 32) as usize, result as u32 as usize);
    // A body stands behind its section's first six bytes, so 0 is the place of none.
    (result != 0).then(|| place..place + length)
}

/// Whose body a certificate is in.
#[derive(Clone, Copy, Debug, PartialEq, Eq)]
pub enum Source {
    Card,
    Desk,
}

/// A certificate that a stamp names.
#[derive(Clone, Copy, Debug, PartialEq, Eq)]
pub struct Certificate<'a> {
    pub source: Source,
    /// The part of that body that is the certificate.
    pub bytes: &'a [u8],
}

/// The certificate that a stamp names: the record of this number in the card's body of travel
/// certificates; where the card has none, in the desk's body; else none.
///
/// The card's body is that of the file 0x011A. The desk's is one of the same form that the caller
/// keeps; with no certificate it is two zero bytes. No record has the number 0x00 or 0xFF.
///
/// A card with one certificate, and a desk's copy with one more:
///
/// ```
/// use malquindo::{Certificate, Source};
///
/// let mut image = [0; 138];
/// let rooms = [(0x0101, 40), (0x0102, 40), (0x011A, 40)];
/// malquindo::move_card(&[], &rooms, &mut image)?;
/// let body = malquindo::file(&image, 0x011A).expect("the card has this file");
/// // One certificate of two bytes: the count, its length, its bytes.
/// image[body.start..][..6].copy_from_slice(&[1, 0, 2, 0, 0xC1, 0xC1]);
///
/// let card = &image[body];
/// let desk = [2, 0, 2, 0, 0xC1, 0xC1, 1, 0, 0xC2];
/// let (source, bytes) = (Source::Card, &card[4..6]);
/// let first = malquindo::certificate(card, &desk, 0x01)?;
/// assert_eq!(first, Some(Certificate { source, bytes }));
/// let (source, bytes) = (Source::Desk, &desk[8..]);
/// let second = malquindo::certificate(card, &desk, 0x02)?;
/// assert_eq!(second, Some(Certificate { source, bytes }));
/// assert_eq!(malquindo::certificate(card, &desk, 0x03)?, None);
/// # Ok::<(), malquindo::Refusal>(())
/// ```
pub fn certificate<'a>(
    card: &'a [u8],
    desk: &'a [u8],
    reference: u8,
) -> Result<Option<Certificate<'a>>, Refusal> {
    let low = accepted(malquindo_sys::certificate(card, desk, reference))?;
    let (source, body) = match low >> 28 {
        0 => return Ok(None),
        1 => (Source::Card, card),
        2 => (Source::Desk, desk),
        other => panic!("body {other} has the certificate, which is not known here"),
    };
    let (place, length) = ((low >> 10 & 0x3FFFF) as usize, (low & 0x3FF) as usize);
    let bytes = &body[place..place + length];
    Ok(Some(Certificate { source, bytes }))
}

#[cfg(test)]
mod tests {
    use super::*;

    #[test]
    fn the_session_length_is_the_librarys() {
        assert_eq!(malquindo_sys::session_len(), SESSION_LEN);
    }

    #[test]
    fn refusals() {
        let mut session = open(&[0xFF; 60]).unwrap();
        let mut response = [0; RESPONSE_LEN];
        assert_eq!(open(&[0xFF; 59]), Err(Refusal::BadRights));
        let short = command(&mut [], &mut session, &[], &mut response[1..]);
        assert_eq!(short, Err(Refusal::ShortBuffer));
        let image = command(&mut [0], &mut session, &[], &mut response);
        assert_eq!(image, Err(Refusal::BadImage));
        let mut malformed = Session::from_bytes([0xFF; SESSION_LEN]);
        let refused = command(&mut [], &mut malformed, &[], &mut response);
        assert_eq!(refused, Err(Refusal::BadSession));
        assert_eq!(malformed.as_bytes(), &[0xFF; SESSION_LEN]);
    }

    #[test]
    fn refusals_of_a_cut() {
        let session = open(&[0xFF; 60]).unwrap();
        let malformed = Session::from_bytes([0xFF; SESSION_LEN]);
        let bad = cut(&mut [0], &malformed, &[], 1);
        assert_eq!(bad, Err(Refusal::BadImage));
        let refused = cut(&mut [], &malformed, &[], 1);
        assert_eq!(refused, Err(Refusal::BadSession));
        assert_eq!(cut(&mut [], &session, &[], 1), Ok(0));
    }

    /// ACTIVATE, cut before its one store and behind it.
    #[test]
    fn an_activation_cut() {
        let mut image = [0; 8 + 11 + 4];
        move_card(&[], &[(0x031A, 2), (0x0401, 5 + 4)], &mut image).unwrap();
        let mut session = open(&[0xFF; 60]).unwrap();
        let select = [0x00, 0xA4, 0x04, 0x0C, 7, 0xA0, 0, 0, 2, 0x47, 0x20, 3];
        assert_eq!(run(&mut image, &mut session, &select), (vec![], 0x9000));
        let file = [0x00, 0xA4, 0x02, 0x0C, 2, 0x02, 0x01];
        assert_eq!(run(&mut image, &mut session, &file), (vec![], 0x9000));
        let activate = [0x00, 0x44, 0x00, 0x00];
        assert_eq!(cut(&mut image, &session, &activate, 0), Ok(1));
        assert_eq!(image[14], 0);
        assert_eq!(cut(&mut image, &session, &activate, usize::MAX), Ok(1));
        assert_eq!(image[14], 1);
        // An Activated file is not activated again.
        assert_eq!(cut(&mut image, &session, &activate, 1), Ok(0));
    }

    #[test]
    fn each_number_is_one_refusal() {
        assert_eq!(accepted(0x0002_9000), Ok(0x0002_9000));
        for number in 1..20 {
            let refusal = accepted(u64::from(number) << 32).unwrap_err();
            assert_eq!(refusal.number(), number);
            let known = matches!(number, 1..=4 | 6 | 9..=13);
            assert_eq!(refusal == Refusal::Unknown(number), !known);
        }
    }

    #[test]
    fn a_missing_flag_closes_the_application() {
        let mut image = Vec::new();
        for kind in [0x0101_u16, 0x0102, 0x011A] {
            image.extend(40_u32.to_le_bytes());
            image.extend(kind.to_le_bytes());
            image.extend([0; 40]);
        }
        let mut rights = [0xFF; 60];
        rights[20] = 0xFE;
        let mut session = open(&rights).unwrap();
        let mut response = [0; RESPONSE_LEN];
        let select = [0x00, 0xA4, 0x04, 0x0C, 7, 0xA0, 0, 0, 2, 0x47, 0x20, 1];
        let answer = command(&mut image, &mut session, &select, &mut response).unwrap();
        assert_eq!((answer.status, answer.data), (0x6982, &[][..]));
    }

    #[test]
    fn refusals_of_a_move() {
        let old = [2, 0, 0, 0, 0x1A, 0x03, 0, 0];
        let rooms = [(0x031A, 7)];
        let mut target = [0xA5; 13];
        let bad = move_card(&old[1..], &rooms, &mut target);
        assert_eq!(bad, Err(Refusal::BadImage));
        let twice = move_card(&old, &[rooms[0], rooms[0]], &mut target);
        assert_eq!(twice, Err(Refusal::BadList));
        let missing = move_card(&old, &[], &mut target);
        assert_eq!(missing, Err(Refusal::MissingKind));
        let held = [5, 0, 0, 0, 0x1A, 0x03, 1, 0, 1, 0, 7];
        let small = move_card(&held, &[(0x031A, 4)], &mut target);
        assert_eq!(small, Err(Refusal::SmallRoom));
        let short = move_card(&old, &rooms, &mut target[1..]);
        assert_eq!(short, Err(Refusal::ShortTarget));
        assert_eq!(target, [0xA5; 13]);
        let new = move_card(&held, &rooms, &mut target).unwrap();
        assert_eq!(new, [7, 0, 0, 0, 0x1A, 0x03, 1, 0, 1, 0, 7, 0, 0]);
    }

    /// The answer to a command, on a card with all rights.
    fn run(image: &mut [u8], session: &mut Session, command: &[u8]) -> (Vec<u8>, u16) {
        let mut response = [0; RESPONSE_LEN];
        let answer = super::command(image, session, command, &mut response).unwrap();
        (answer.data.to_vec(), answer.status)
    }

    /// The object 54 of an offset in three bytes.
    fn at(offset: usize) -> Vec<u8> {
        let [_, bytes @ ..] = (offset as u32).to_be_bytes();
        [&[0x54, 3][..], &bytes].concat()
    }

    /// UPDATE BINARY of Biometrics 1, with at least 256 bytes.
    fn update(offset: usize, bytes: &[u8]) -> Vec<u8> {
        let length = |n: usize| (n as u16).to_be_bytes();
        let data = [&at(offset)[..], &[0x53, 0x82], &length(bytes.len()), bytes].concat();
        [&[0x00, 0xD7, 0x02, 0x01, 0], &length(data.len())[..], &data].concat()
    }

    /// READ BINARY B1 of Biometrics 1, with the longest reply.
    fn read_at(offset: usize) -> Vec<u8> {
        [&[0x00, 0xB1, 0x02, 0x01, 0, 0, 5][..], &at(offset), &[0, 0]].concat()
    }

    /// The bytes in an object 53 of at least 256 bytes.
    fn unwrapped(reply: &[u8]) -> &[u8] {
        let [0x53, 0x82, high, low, bytes @ ..] = reply else {
            panic!("no object 53 of 256 bytes or more");
        };
        assert_eq!(bytes.len(), usize::from(u16::from_be_bytes([*high, *low])));
        bytes
    }

    /// A file in the largest room, written to its end and read back.
    #[test]
    fn a_file_of_131_072_bytes() {
        const ROOM: usize = 131_072;
        let content: Vec<u8> = (0..ROOM)
            .map(|at| (at ^ at >> 8 ^ at >> 16) as u8)
            .collect();
        let mut image = vec![0; 8 + 11 + ROOM];
        move_card(&[], &[(0x031A, 2), (0x0401, 5 + ROOM as u32)], &mut image).unwrap();
        let mut session = open(&[0xFF; 60]).unwrap();
        let select = [0x00, 0xA4, 0x04, 0x0C, 7, 0xA0, 0, 0, 2, 0x47, 0x20, 3];
        assert_eq!(run(&mut image, &mut session, &select), (vec![], 0x9000));
        for (piece, offset) in content.chunks(512).zip((0..).step_by(512)) {
            let command = update(offset, piece);
            assert_eq!(run(&mut image, &mut session, &command), (vec![], 0x9000));
        }
        let more = update(ROOM, &[7; 256]);
        assert_eq!(run(&mut image, &mut session, &more), (vec![], 0x6A84));
        let mut got: Vec<u8> = Vec::new();
        while got.len() < ROOM {
            let (reply, status) = run(&mut image, &mut session, &read_at(got.len()));
            assert_eq!(status, 0x9000);
            got.extend(unwrapped(&reply));
        }
        assert!(got == content);
        assert_eq!(
            run(&mut image, &mut session, &read_at(ROOM)),
            (vec![], 0x6B00)
        );
        // B0 reads from no place behind 32,767.
        let b0 = [0x00, 0xB0, 0x7F, 0xFF, 0, 0, 0];
        let (reply, _) = run(&mut image, &mut session, &b0);
        assert_eq!(reply, content[0x7FFF..][..2_048]);
    }

    #[test]
    fn a_room_of_131_073_bytes_is_none() {
        let mut target = vec![0; 8 + 11 + 131_073];
        let rooms = [(0x031A, 2), (0x0401, 5 + 131_073)];
        assert_eq!(move_card(&[], &rooms, &mut target), Err(Refusal::BadList));
    }

    /// One certificate of one byte; two, with a free byte behind them; none.
    static ONE: [u8; 5] = [1, 0, 1, 0, 0xA1];
    static TWO: [u8; 10] = [2, 0, 1, 0, 0xB1, 2, 0, 0xB2, 0xB2, 0xEE];
    static NONE: [u8; 2] = [0, 0];

    #[test]
    fn where_a_file_stands() {
        let image = [&[5, 0, 0, 0, 0x1A, 0x03][..], &ONE].concat();
        assert_eq!(file(&image, 0x031A), Some(6..11));
        assert_eq!(image[file(&image, 0x031A).unwrap()], ONE);
        assert_eq!(file(&image, 0x011A), None);
        assert_eq!(file(&image[..10], 0x031A), None);
        assert_eq!(file(&[], 0x031A), None);
        // The longest image: place and length are where they belong.
        let rooms = [(0x0203, 131_066), (0x021A, 131_066)];
        let mut longest = vec![0; 262_144];
        move_card(&[], &rooms, &mut longest).unwrap();
        assert_eq!(file(&longest, 0x0203), Some(6..131_072));
        assert_eq!(file(&longest, 0x021A), Some(131_078..262_144));
    }

    #[test]
    fn refused_certificates() {
        for damaged in [&[][..], &[0], &[0xFF, 0], &ONE[..4], &[1, 0, 0, 0]] {
            let copy = damaged.to_vec();
            for reference in 0x00..=0xFF {
                let refused = Err(Refusal::BadCertificates);
                assert_eq!(certificate(damaged, &ONE, reference), refused);
                assert_eq!(certificate(&ONE, damaged, reference), refused);
                assert_eq!(certificate(damaged, &copy, reference), refused);
            }
        }
    }

    #[test]
    fn missing_certificates() {
        for reference in [0x00, 0x03, 0xFE, 0xFF] {
            assert_eq!(certificate(&TWO, &ONE, reference), Ok(None));
            assert_eq!(certificate(&ONE, &TWO, reference), Ok(None));
        }
        assert_eq!(certificate(&NONE, &[0, 0], 0x01), Ok(None));
        // Even where both have as many as a body may have.
        let full = [&[254, 0][..], &[1, 0, 7].repeat(254)].concat();
        let copy = full.clone();
        for reference in 0x00..=0xFF {
            let missing = certificate(&full, &copy, reference) == Ok(None);
            assert_eq!(missing, matches!(reference, 0x00 | 0xFF));
        }
    }

    /// Whose the certificate is, and where its bytes lie in memory: a copy would lie elsewhere.
    fn found(card: &[u8], desk: &[u8], reference: u8) -> (Source, Range<*const u8>) {
        let certificate = certificate(card, desk, reference).unwrap().unwrap();
        (certificate.source, certificate.bytes.as_ptr_range())
    }

    fn on_card(part: &[u8]) -> (Source, Range<*const u8>) {
        (Source::Card, part.as_ptr_range())
    }

    fn at_desk(part: &[u8]) -> (Source, Range<*const u8>) {
        (Source::Desk, part.as_ptr_range())
    }

    #[test]
    fn the_card_comes_before_the_desk() {
        let copy = TWO;
        assert_eq!(found(&ONE, &TWO, 1), on_card(&ONE[4..]));
        assert_eq!(found(&TWO, &ONE, 1), on_card(&TWO[4..5]));
        assert_eq!(found(&TWO, &copy, 2), on_card(&TWO[7..9]));
    }

    #[test]
    fn what_the_card_has_not_the_desk_may_have() {
        assert_eq!(found(&ONE, &TWO, 2), at_desk(&TWO[7..9]));
        assert_eq!(found(&NONE, &TWO, 1), at_desk(&TWO[4..5]));
    }

    /// The last of 254 certificates of 929 bytes stands as far behind as one can.
    #[test]
    fn the_largest_place_and_length() {
        let one = [&[0xA1, 0x03][..], &[7; 929]].concat();
        let full = [&[254, 0][..], &one.repeat(254)].concat();
        let last = &full[full.len() - 929..];
        assert_eq!(found(&full, &NONE, 0xFE), on_card(last));
        assert_eq!(found(&NONE, &full, 0xFE), at_desk(last));
    }
}
