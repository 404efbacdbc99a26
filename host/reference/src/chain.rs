//! The chain of a session: what the links of a command have brought so far.

use crate::apdu::{Header, LONGEST_DATA};
use crate::instruction::Instruction;

/// Bytes of a chain in a session: its length (2 bytes, little-endian), INS, P1, P2, the data.
pub const CHAIN_BYTES: usize = 2 + 3 + LONGEST_DATA;

/// What a session that has no chain holds in its place.
static ZEROS: [u8; CHAIN_BYTES] = [0; CHAIN_BYTES];

/// The header that all links share, and their data joined: 1 to 1,024 bytes.
#[derive(Clone, Debug, PartialEq, Eq)]
pub struct Chain {
    pub header: Header,
    data: Vec<u8>,
}

/// Bytes that are no chain which links could have left.
#[derive(Clone, Copy, Debug)]
pub struct Impossible;

impl Chain {
    /// The chain behind a link that found `before`. None where it would be too long.
    pub fn behind(before: Option<&Self>, header: Header, link: &[u8]) -> Option<Self> {
        let earlier = before.map_or(&[][..], |chain| &chain.data);
        let data = joined(earlier, link)?;
        Some(Self { header, data })
    }

    /// The data of the whole command at its last link, which may have none. None where it would be
    /// too long.
    pub fn ending_with(&self, last: &[u8]) -> Option<Vec<u8>> {
        joined(&self.data, last)
    }

    /// The chain in the bytes of a session, or none. What is not used is zero. A link is held back
    /// only behind step 4, so that a header which fails there was in no link.
    pub fn from_bytes(bytes: &[u8; CHAIN_BYTES]) -> Result<Option<Self>, Impossible> {
        let [low, high, ins, p1, p2, data @ ..] = bytes;
        let (ins, p1, p2) = (*ins, *p1, *p2);
        let length = usize::from(u16::from_le_bytes([*low, *high]));
        if length == 0 {
            return if *bytes == ZEROS {
                Ok(None)
            } else {
                Err(Impossible)
            };
        }
        let (data, unused) = data.split_at_checked(length).ok_or(Impossible)?;
        let instruction = Instruction::of_ins(ins).ok_or(Impossible)?;
        if !instruction.allows(p1, p2) || unused != &ZEROS[..unused.len()] {
            return Err(Impossible);
        }
        Ok(Some(Self {
            header: Header { ins, p1, p2 },
            data: data.to_vec(),
        }))
    }

    /// Writes the chain over zeros.
    pub fn write(&self, zeros: &mut [u8]) {
        let Header { ins, p1, p2 } = self.header;
        // At most 1,024 bytes.
        let [low, high] = (self.data.len() as u16).to_le_bytes();
        let (head, data) = zeros.split_at_mut(5);
        head.copy_from_slice(&[low, high, ins, p1, p2]);
        data[..self.data.len()].copy_from_slice(&self.data);
    }
}

/// Data of links one behind the other, unless that is more than a command can have.
fn joined(earlier: &[u8], link: &[u8]) -> Option<Vec<u8>> {
    (earlier.len() + link.len() <= LONGEST_DATA).then(|| [earlier, link].concat())
}
