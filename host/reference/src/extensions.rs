//! The rights that a chain's certificates give, read from three runs of certificate extensions into
//! the 60 bytes that opening takes.
//!
//! A run is read from its start, and the first extension that is faulty ends all: what stands
//! behind it cannot change the number.

use std::ops::Range;

use crate::objects::Objects;
use crate::rights::{BIOMETRICS_FLAG, CHAIN_LEN, RIGHTS_LEN, TRAVEL_FLAG, VISA_FLAG};
use crate::Refusal;

const EXTENSION: [u8; 1] = [0x73];
const IDENTIFIER: [u8; 1] = [0x06];
const RIGHTS: [u8; 1] = [0x53];

/// What is done with an extension whose identifier is known.
struct Known {
    identifier: [u8; 8],
    flag: u8,
    /// Where its rights stand in the certificate's 20 bytes, and so how many bytes they must have.
    place: Range<usize>,
}

/// The access identifiers of travel, visa and biometrics: id-icao-lds2 1.3, 2.3 and 3.3.
static KNOWN: [Known; 3] = [
    known(1, TRAVEL_FLAG, 1..2),
    known(2, VISA_FLAG, 2..3),
    known(3, BIOMETRICS_FLAG, 3..RIGHTS_LEN),
];

/// An identifier is id-icao-lds2 (2.23.136.1.1.9), the application's number and 3 for access.
const fn known(application: u8, flag: u8, place: Range<usize>) -> Known {
    Known {
        identifier: [0x67, 0x81, 0x08, 0x01, 0x01, 0x09, application, 0x03],
        flag,
        place,
    }
}

/// The rights bytes of a chain, from a run for each certificate. An earlier run is read before a
/// later one, so its fault is the one to tell.
pub fn chain(runs: [&[u8]; 3]) -> Result<[u8; CHAIN_LEN], Refusal> {
    let mut chain = [0; CHAIN_LEN];
    for (certificate, run) in chain.chunks_exact_mut(RIGHTS_LEN).zip(runs) {
        certificate.copy_from_slice(&certificate_rights(run)?);
    }
    Ok(chain)
}

/// The rights bytes of one certificate. An extension that is absent leaves flag and bytes zero.
fn certificate_rights(run: &[u8]) -> Result<[u8; RIGHTS_LEN], Refusal> {
    let mut certificate = [0; RIGHTS_LEN];
    let mut extensions = Objects::of(run);
    while !extensions.is_empty() {
        let extension = Extension::next(&mut extensions).ok_or(Refusal::Extension)?;
        extension.put_into(&mut certificate)?;
    }
    Ok(certificate)
}

/// An extension as it stands in a certificate, known or not.
struct Extension<'a> {
    identifier: &'a [u8],
    rights: &'a [u8],
}

impl<'a> Extension<'a> {
    /// `73`: in it `06` the identifier and `53` the rights, either perhaps empty. None if the next
    /// bytes are anything else.
    fn next(extensions: &mut Objects<'a>) -> Option<Self> {
        let mut inside = extensions.inside(&EXTENSION)?;
        let identifier = inside.value(&IDENTIFIER)?;
        let rights = inside.value(&RIGHTS)?;
        inside.end()?;
        Some(Self { identifier, rights })
    }

    /// Sets flag and bytes of a known extension. The bytes go in as they stand, for opening clears
    /// what means nothing. An unknown extension changes nothing, whatever its rights are.
    ///
    /// The size is tested first: 7 comes before 8. The flag is set only here, so it tells that the
    /// run had this extension before.
    fn put_into(&self, certificate: &mut [u8; RIGHTS_LEN]) -> Result<(), Refusal> {
        let Some(known) = KNOWN.iter().find(|it| it.identifier == self.identifier) else {
            return Ok(());
        };
        if self.rights.len() != known.place.len() {
            return Err(Refusal::Extension);
        }
        if certificate[0] & known.flag != 0 {
            return Err(Refusal::Twice);
        }
        certificate[0] |= known.flag;
        certificate[known.place.clone()].copy_from_slice(self.rights);
        Ok(())
    }
}
