//! A plain implementation of the file machine for passport chips, to compare the proved one with.
//!
//! It was written from the source documents of the rules alone, not from the proved code or its
//! definitions. `docs/RULES.md` states these rules.
//!
//! The parts, from the lowest up:
//! - `stores`: single byte stores, made in their order;
//! - `image`: the card image, its rules, its files and the changes to them;
//! - `rights`: the rights of a certificate chain;
//! - `apdu` and `objects`: readers of the command's shape and its data objects;
//! - `instruction`: which commands there are, and which P1 and P2 each takes;
//! - `chain`: the links so far of a command that comes in links;
//! - `session`: rights, selected application, current place and chain;
//! - `search`: whether a string occurs in a window;
//! - `commands`: the eight commands, READ BINARY in its two forms;
//! - `cut`: what a cut amid a command leaves of the image;
//! - `moving`: the move of a card to rooms of other sizes;
//! - `certificates`: the certificate that a stamp names, on the card or in the desk's copy;
//! - `index`: the places of a body's records, kept to read a record without a walk;
//! - `stamp`: the places of a stamp's fields, or its first fault;
//! - `extensions`: the rights bytes of a chain, from the extensions of its certificates.

#![forbid(unsafe_code)]

mod apdu;
mod certificates;
mod chain;
mod commands;
mod cut;
mod extensions;
mod image;
mod index;
mod instruction;
mod moving;
mod objects;
mod rights;
mod search;
mod session;
pub mod stamp;
mod stores;

use image::Layout;
use rights::Rights;
use session::Session;

/// 20 rights bytes (flags, travel, visa, 17 biometrics bytes), application (0 master file,
/// 1 travel, 2 visa, 3 biometrics), place (0 none, 1 file, 2 file and record), file id
/// (2 bytes, little-endian), record number; then the chain: its length (2 bytes, little-endian; 0
/// for none), INS, P1, P2, 1,024 bytes. What a place or a chain does not use is zero.
pub const SESSION_LEN: usize = 25 + chain::CHAIN_BYTES;

/// The shortest response buffer that a command takes.
const SHORTEST_RESPONSE: usize = 2_050;

/// Why a call gets no status word. 1 is of a buffer too short for a chain's rights too, 6 is of an
/// index, 7 and 8 are of certificate extensions (bad nesting or size; a known one twice in a run),
/// 9 is of a stamp's certificate, 10 to 13 are of a move, 15 is of a list too short for a stamp's
/// places.
#[derive(Clone, Copy)]
enum Refusal {
    Response = 1,
    Image = 2,
    Rights = 3,
    Session = 4,
    Index = 6,
    Extension = 7,
    Twice = 8,
    Certificates = 9,
    List = 10,
    Missing = 11,
    Room = 12,
    Target = 13,
    Short = 15,
}

impl Refusal {
    /// The result of a refused call: all but the number is 0.
    fn result(self) -> u64 {
        (self as u64) << 32
    }
}

/// Opens a session. Rights that are not 60 bytes are refusal 3, and the session written is the
/// one that 60 zero bytes open.
///
/// A session buffer under [`SESSION_LEN`] bytes is refusal 4 (3 if the rights are wrong too)
/// and stays untouched. The result is refusal * 2^32.
pub fn open(rights: &[u8], session: &mut [u8]) -> u64 {
    let chain: Option<&[u8; rights::CHAIN_LEN]> = rights.try_into().ok();
    let opened = Session::opened(Rights::effective(chain.unwrap_or(&[0; rights::CHAIN_LEN])));
    let written = write_session(&opened, session);
    match (chain, written) {
        (None, _) => Refusal::Rights.result(),
        (Some(_), false) => Refusal::Session.result(),
        (Some(_), true) => 0,
    }
}

/// One command, or one link of it. Refusals are tested in the order 1, 2, 4. A command that is not
/// refused writes its data and the status word to the start of the response. The session is written
/// on 9000, and where another status drops a chain; else it is not touched.
///
/// The result is refusal * 2^32 + length * 2^16 + status.
pub fn command(image: &mut [u8], session: &mut [u8], command: &[u8], response: &mut [u8]) -> u64 {
    if response.len() < SHORTEST_RESPONSE {
        return Refusal::Response.result();
    }
    let (layout, before) = match read_card(image, session) {
        Ok(read) => read,
        Err(refusal) => return refusal.result(),
    };
    match commands::run(image, &layout, &before, command, response) {
        Ok(done) => {
            write_session(&done.session, session);
            answer(response, done.data, commands::OK)
        }
        Err(status) => {
            if before.chain.is_some() {
                write_session(&before.without_chain(), session);
            }
            answer(response, 0, status)
        }
    }
}

/// What a cut behind so many stores of a command leaves of the image: makes the first `stores` of
/// its stores, all where it has fewer. The session is only read.
///
/// APPEND RECORD of n bytes has n + 4 stores of one byte each: the record's length (low byte, high
/// byte), its bytes, the count's high byte, the count's low byte. ACTIVATE has one, that of the
/// state. Any other command has none, and neither has one of these two that would not be answered
/// 9000 with a response buffer that is long enough. Of a chained append the last link has the
/// stores of the join, and a link before it has none.
///
/// Refusals are tested in the order 2, 4. The image stays then. The result is refusal * 2^32 + how
/// many stores the command has in all.
pub fn cut(image: &mut [u8], session: &[u8], command: &[u8], stores: usize) -> u64 {
    match cut::cut(image, session, command, stores) {
        Ok(all) => all as u64,
        Err(refusal) => refusal.result(),
    }
}

/// Moves a card to rooms of other sizes: writes the old image's files into the target, each with
/// the room that the list gives it. What is behind the new image stays as it came; on a refusal
/// all of the target does.
///
/// The list's rows are those of a section's head: a 4-byte little-endian body length, a 2-byte
/// little-endian kind. The result is refusal * 2^32 + length of the new image.
pub fn move_card(old: &[u8], list: &[u8], target: &mut [u8]) -> u64 {
    match moving::move_card(old, list, target) {
        Ok(length) => length as u64,
        Err(refusal) => refusal.result(),
    }
}

/// Where the body of a kind stands in an image.
///
/// The result is place * 2^32 + length; the place is that of the body's first byte, behind the
/// section's head. It is 0 where the kind is not there or the image is not well formed. No body
/// has this result, for none is at place 0.
pub fn file(image: &[u8], kind: u16) -> u64 {
    match Layout::read(image).and_then(|layout| layout.body(kind)) {
        Some(body) => ((body.start as u64) << 32) | body.len() as u64,
        None => 0,
    }
}

/// The certificate that a stamp's reference byte names: from the card's body of travel
/// certificates if it has a record of that number, else from the desk's copy of such a body.
/// Either body not well formed is refusal 9, before all.
///
/// The result is refusal * 2^32 + which * 2^28 + place * 2^10 + length. Which is 0 for missing,
/// 1 for the card, 2 for the desk. The place is that of the certificate's first byte in its body.
/// All but the refusal is 0 where the certificate is missing or the call is refused.
pub fn certificate(card: &[u8], desk: &[u8], reference: u8) -> u64 {
    match certificates::find(card, desk, reference) {
        Ok(Some(found)) => {
            let (which, place) = (found.owner as u64, found.place);
            (which << 28) | ((place.start as u64) << 10) | place.len() as u64
        }
        Ok(None) => 0,
        Err(refusal) => refusal.result(),
    }
}

/// Builds an index of a record body: fills the list's first entries with the places of the
/// records, one for each. A place is where a record's length stands in the body.
///
/// Refusal 6 is for a kind that is no record file's, a body not well formed for its kind, and a
/// list of fewer entries than records. All of the list stays then; else the entries behind those
/// filled do. The result is refusal * 2^32 + places filled.
pub fn index_build(kind: u16, body: &[u8], places: &mut [u32]) -> u64 {
    match index::build(kind, body, places) {
        Ok(filled) => filled as u64,
        Err(refusal) => refusal.result(),
    }
}

/// Extends an index of n places after an append: puts the place of record n + 1 behind them.
/// Building gives the same place. All other entries stay, and none is read.
///
/// Refusal 6 is for what building refuses in kind and body, for an n that is not one below the
/// count, and for a list of fewer than n + 1 entries. All of the list stays then. The result is
/// refusal * 2^32 + n + 1.
pub fn index_extend(kind: u16, body: &[u8], places: &mut [u32], n: usize) -> u64 {
    match index::extend(kind, body, places, n) {
        Ok(held) => held as u64,
        Err(refusal) => refusal.result(),
    }
}

/// The record of a number, from 1, by its place in the list alone. The body need not be well
/// formed: a record is what the length at its place says, one of no bytes too.
///
/// Refusal 6 is for number 0, for a number above the list's length, and for a place whose length
/// or record leaves the body. The result is refusal * 2^32 + length of the record, which begins
/// two bytes behind its place.
pub fn index_read(body: &[u8], places: &[u32], number: usize) -> u64 {
    match index::read(body, places, number) {
        Ok(record) => record.len() as u64,
        Err(refusal) => refusal.result(),
    }
}

/// Reads the rights of a chain from its certificates: writes the 60 bytes that [`open`] takes to
/// the start of the buffer, from three runs of extensions, the first for the first certificate and
/// so on. The bytes behind these 60 stay.
///
/// Refusal 7 is for bytes that are no whole extension, and for a known one whose rights have
/// the wrong size. Refusal 8 is for a known one that its run had before. The first faulty extension
/// is told, 7 before 8, and 60 zeros are written, for a refused chain must open nothing.
///
/// A buffer of fewer than 60 bytes is refusal 1, before all, and stays untouched. The result is
/// refusal * 2^32.
pub fn rights(first: &[u8], second: &[u8], third: &[u8], rights: &mut [u8]) -> u64 {
    let Some(written) = rights.first_chunk_mut() else {
        return Refusal::Response.result();
    };
    let (chain, result) = match extensions::chain([first, second, third]) {
        Ok(chain) => (chain, 0),
        Err(refusal) => ([0; rights::CHAIN_LEN], refusal.result()),
    };
    *written = chain;
    result
}

/// The card and the session that a call is given: refusal 2, then 4.
fn read_card(image: &[u8], session: &[u8]) -> Result<(Layout, Session), Refusal> {
    let layout = Layout::read(image).ok_or(Refusal::Image)?;
    let session = read_session(session)
        .filter(|given| given.fits(&layout))
        .ok_or(Refusal::Session)?;
    Ok((layout, session))
}

/// The session in the first 1,054 bytes of a buffer, if they are one.
fn read_session(buffer: &[u8]) -> Option<Session> {
    Session::from_bytes(buffer.first_chunk()?)
}

/// Writes the session into the first 1,054 bytes of a buffer, or nothing and `false` if it is
/// shorter.
fn write_session(session: &Session, buffer: &mut [u8]) -> bool {
    match buffer.first_chunk_mut() {
        Some(bytes) => {
            *bytes = session.to_bytes();
            true
        }
        None => false,
    }
}

/// Puts the status word behind `data` bytes that are written already. The length counts both.
fn answer(response: &mut [u8], data: usize, status: commands::Status) -> u64 {
    let length = data + 2;
    response[data..length].copy_from_slice(&status.to_be_bytes());
    ((length as u64) << 16) | u64::from(status)
}
