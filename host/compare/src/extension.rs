//! Extensions of certificates: the three that are known, the objects that make up a run of them,
//! and the rights that a run gives.

use crate::make::CERTIFICATE_LEN;
use crate::stamp::{bytes_of, Object};

/// How many runs a chain has, one for each certificate.
pub const RUNS: usize = 3;
/// The runs of a chain.
pub type Runs = [Vec<u8>; RUNS];

/// An extension whose rights are read.
pub struct Known {
    pub name: &'static str,
    /// The last two bytes of its identifier.
    end: [u8; 2],
    /// How many bytes its rights have.
    pub size: usize,
    /// Where they stand in the rights of a certificate, behind the flags.
    at: usize,
}

const fn known(name: &'static str, end: [u8; 2], size: usize, at: usize) -> Known {
    Known {
        name,
        end,
        size,
        at,
    }
}

/// The known ones. The flag of the first is b1, and so on.
pub static KNOWN: [Known; 3] = [
    known("travel", [0x01, 0x03], 1, 1),
    known("visa", [0x02, 0x03], 1, 2),
    known("biometrics", [0x03, 0x03], 17, 3),
];

/// Each order in which some of the known ones may stand in a run, none of them twice.
pub static ORDERS: [&[usize]; 16] = [
    &[],
    &[0],
    &[1],
    &[2],
    &[0, 1],
    &[0, 2],
    &[1, 0],
    &[1, 2],
    &[2, 0],
    &[2, 1],
    &[0, 1, 2],
    &[0, 2, 1],
    &[1, 0, 2],
    &[1, 2, 0],
    &[2, 0, 1],
    &[2, 1, 0],
];

/// The identifier of a known one, by its place in [`KNOWN`].
pub fn identifier(which: usize) -> Vec<u8> {
    let start = [0x67, 0x81, 0x08, 0x01, 0x01, 0x09];
    [&start[..], &KNOWN[which].end].concat()
}

/// The place in [`KNOWN`] of the one that has this identifier; none where it is unknown.
pub fn which(identifier: &[u8]) -> Option<usize> {
    (0..KNOWN.len()).find(|which| self::identifier(*which) == identifier)
}

/// The tags of the extension, of the identifier and of the rights.
pub const TAGS: [u8; 3] = [0x73, 0x06, 0x53];

/// A well-formed extension.
#[derive(Clone)]
pub struct Extension {
    pub identifier: Vec<u8>,
    pub rights: Vec<u8>,
}

impl Extension {
    /// A known one. Its rights begin with this byte, and the next is one more each time, so that no
    /// byte can be taken for another.
    pub fn known(which: usize, first: u8) -> Self {
        let bytes = 0..KNOWN[which].size as u8;
        Self {
            identifier: identifier(which),
            rights: bytes.map(|more| first.wrapping_add(more)).collect(),
        }
    }

    /// An unknown one, with rights of so many bytes.
    pub fn unknown(identifier: &[u8], size: usize) -> Self {
        Self {
            identifier: identifier.to_vec(),
            rights: vec![0xE7; size],
        }
    }

    pub fn object(&self) -> Object {
        let [tag, identifier, rights] = TAGS;
        Object {
            inside: vec![
                Object::new(&[identifier], &self.identifier),
                Object::new(&[rights], &self.rights),
            ],
            ..Object::new(&[tag], &[])
        }
    }
}

/// The objects of a run, in which something may then be made wrong.
pub fn objects(extensions: &[Extension]) -> Vec<Object> {
    extensions.iter().map(Extension::object).collect()
}

/// The bytes of a run.
pub fn run(extensions: &[Extension]) -> Vec<u8> {
    bytes_of(&objects(extensions))
}

/// The rights that a run gives which has no known extension twice.
pub fn certificate(extensions: &[Extension]) -> [u8; CERTIFICATE_LEN] {
    let mut rights = [0; CERTIFICATE_LEN];
    for extension in extensions {
        if let Some(which) = which(&extension.identifier) {
            let Known { at, size, .. } = KNOWN[which];
            rights[0] |= 1 << which;
            rights[at..at + size].copy_from_slice(&extension.rights);
        }
    }
    rights
}
