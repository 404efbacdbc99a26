//! The shape of a command.

use std::borrow::Cow;

/// The longest data field of a command, be it of one link or of all links joined.
pub const LONGEST_DATA: usize = 1_024;

/// The bit of CLA that says that more links follow, b5.
const MORE: u8 = 0x10;

/// An Le field as it was sent.
#[derive(Clone, Copy, Debug, PartialEq, Eq)]
pub enum Le {
    Short(u8),
    Extended(u16),
}

impl Le {
    /// Ne, the greatest number of bytes asked for: a zero field stands for 256 or 65,536.
    pub fn ne(self) -> usize {
        match self {
            Self::Short(0) => 256,
            Self::Short(n) => usize::from(n),
            Self::Extended(0) => 65_536,
            Self::Extended(n) => usize::from(n),
        }
    }

    /// Whether all bytes of the field are zero.
    pub fn is_zero(self) -> bool {
        matches!(self, Self::Short(0) | Self::Extended(0))
    }
}

/// What all links of a chain have in common.
#[derive(Clone, Copy, Debug, PartialEq, Eq)]
pub struct Header {
    pub ins: u8,
    pub p1: u8,
    pub p2: u8,
}

/// A command cut into its fields. An Lc that is present is never 0, so `data` is never empty. It is
/// owned where it is a join of links.
#[derive(Clone, Debug)]
pub struct Apdu<'a> {
    cla: u8,
    pub header: Header,
    data: Option<Cow<'a, [u8]>>,
    pub le: Option<Le>,
}

impl<'a> Apdu<'a> {
    /// Step 1. None is 6700.
    pub fn parse(bytes: &'a [u8]) -> Option<Self> {
        let (&[cla, ins, p1, p2], body) = bytes.split_first_chunk()?;
        let (data, le) = parse_body(body)?;
        if data.is_some_and(|data| data.len() > LONGEST_DATA) {
            return None;
        }
        Some(Self {
            cla,
            header: Header { ins, p1, p2 },
            data: data.map(Cow::Borrowed),
            le,
        })
    }

    /// The same command with the join of all links for its data. A chain has a byte at least, so
    /// the join has one too.
    pub fn with_join(self, join: Vec<u8>) -> Self {
        Self {
            data: Some(Cow::Owned(join)),
            ..self
        }
    }

    /// CLA without the bit of chaining.
    pub fn class(&self) -> u8 {
        self.cla & !MORE
    }

    /// Whether this is a link but the last.
    pub fn more_follow(&self) -> bool {
        self.cla & MORE != 0
    }

    pub fn p1(&self) -> u8 {
        self.header.p1
    }

    pub fn p2(&self) -> u8 {
        self.header.p2
    }

    /// P1-P2 as one number: a file id, or an offset of 15 bits.
    pub fn p1_p2(&self) -> u16 {
        u16::from_be_bytes([self.p1(), self.p2()])
    }

    pub fn data(&self) -> Option<&[u8]> {
        self.data.as_deref()
    }
}

type Body<'a> = (Option<&'a [u8]>, Option<Le>);

/// The seven shapes, by what follows the four header bytes: nothing (1); Le (2S); Lc, data
/// (3S); Lc, data, Le (4S); 00, two bytes Le (2E); 00, two bytes Lc, data (3E); 00, two bytes
/// Lc, data, two bytes Le (4E).
fn parse_body(body: &[u8]) -> Option<Body<'_>> {
    match *body {
        [] => Some((None, None)),
        [le] => Some((None, Some(Le::Short(le)))),
        [0, high, low] => Some((None, Some(Le::Extended(u16::from_be_bytes([high, low]))))),
        [0, high, low, ref rest @ ..] => {
            let (data, le) = split_data(rest, usize::from(u16::from_be_bytes([high, low])))?;
            match *le {
                [] => Some((Some(data), None)),
                [high, low] => Some((
                    Some(data),
                    Some(Le::Extended(u16::from_be_bytes([high, low]))),
                )),
                _ => None,
            }
        }
        [lc, ref rest @ ..] => {
            let (data, le) = split_data(rest, usize::from(lc))?;
            match *le {
                [] => Some((Some(data), None)),
                [le] => Some((Some(data), Some(Le::Short(le)))),
                _ => None,
            }
        }
    }
}

/// The data field of Lc bytes, Lc not 0, and what follows it.
fn split_data(rest: &[u8], lc: usize) -> Option<(&[u8], &[u8])> {
    if lc == 0 {
        None
    } else {
        rest.split_at_checked(lc)
    }
}
