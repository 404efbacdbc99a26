//! The certificate that a stamp names: the card's own or, where the card has none of that number,
//! the one in the desk's copy.

use std::ops::Range;

use crate::image::RecordFile;
use crate::Refusal;

/// Whose body has the certificate.
#[derive(Clone, Copy)]
pub enum Owner {
    Card = 1,
    Desk = 2,
}

/// A certificate that was found: whose it is, and where its bytes stand in that body.
pub struct Found {
    pub owner: Owner,
    pub place: Range<usize>,
}

/// The certificate of a stamp's reference byte; none where neither body has a record of that
/// number. No record has number 0, and no body has 255 records, so 00 and FF are always missing.
///
/// Both bodies are tested before anything is looked up, so that a damaged copy is refused even
/// where the card alone would do.
pub fn find(card: &[u8], desk: &[u8], reference: u8) -> Result<Option<Found>, Refusal> {
    let bodies = [
        (Owner::Card, read(card)?, card),
        (Owner::Desk, read(desk)?, desk),
    ];
    let number = usize::from(reference);
    // The card comes first, so its own certificate is preferred.
    Ok(bodies.into_iter().find_map(|(owner, file, body)| {
        let place = file.place(number, body)?;
        Some(Found { owner, place })
    }))
}

/// A body of travel certificates, or refusal 9.
fn read(body: &[u8]) -> Result<RecordFile, Refusal> {
    RecordFile::travel_certificates(body).ok_or(Refusal::Certificates)
}
