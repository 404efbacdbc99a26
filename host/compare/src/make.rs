//! The bytes of images and data objects, put together by the rules.

/// One line of the table of record files.
pub struct Rule {
    pub kind: u16,
    /// 1 travel, 2 visa, 3 biometrics, as in a session.
    pub application: u8,
    pub id: u16,
    pub short_id: u8,
    pub longest: usize,
    pub most: usize,
}

const fn rule(kind: u16, id: u16, longest: usize, most: usize) -> Rule {
    Rule {
        kind,
        application: (kind >> 8) as u8,
        id,
        short_id: id as u8,
        longest,
        most,
    }
}

pub static RULES: [Rule; 6] = [
    rule(0x0101, 0x0101, 391, 254),
    rule(0x0102, 0x0102, 391, 254),
    rule(0x011A, 0x011A, 929, 254),
    rule(0x0203, 0x0103, 512, 254),
    rule(0x021A, 0x011A, 929, 254),
    rule(0x031A, 0x011A, 929, 64),
];

/// The rule of the bodies that a stamp's certificate is taken from.
pub fn travel_certificates() -> &'static Rule {
    &RULES[2]
}

/// The first kind and id of a biometrics file are one above these.
pub const BIOMETRICS_KIND: u16 = 0x0400;
pub const BIOMETRICS_ID: u16 = 0x0200;
pub const LONGEST_IMAGE: usize = 262_144;
pub const LARGEST_ROOM: usize = 131_072;
/// The most bytes that a reply has in front of its status word.
pub const LONGEST_REPLY: usize = 2_048;
pub const SECTION_HEADER: usize = 6;
/// Bytes of a session before its chain: rights, application, place.
pub const STANDING_LEN: usize = 25;
/// Where the data of a session's chain stand: behind its length, INS, P1 and P2.
pub const CHAIN_DATA: usize = STANDING_LEN + 5;
pub const SESSION_LEN: usize = CHAIN_DATA + LONGEST_DATA;
/// The most data that a command has, be it of one link or of all links joined.
pub const LONGEST_DATA: usize = 1_024;
/// The bit of CLA that says that more links follow.
pub const MORE: u8 = 0x10;
/// The rights of one certificate, and of the three of a chain.
pub const CERTIFICATE_LEN: usize = 20;
pub const RIGHTS_LEN: usize = 60;
pub const SHORTEST_RESPONSE: usize = 2_050;

/// The AIDs, eMRTD's first, then by the application's number.
pub fn aid(application: u8) -> [u8; 7] {
    let [high, low] = match application {
        0 => [0x10, 0x01],
        n => [0x20, n],
    };
    [0xA0, 0x00, 0x00, 0x02, 0x47, high, low]
}

pub fn section(kind: u16, body: &[u8]) -> Vec<u8> {
    let mut bytes = (body.len() as u32).to_le_bytes().to_vec();
    bytes.extend(kind.to_le_bytes());
    bytes.extend(body);
    bytes
}

/// The list of a move: for each section its kind and the length of its body.
pub fn list(rows: &[(u16, usize)]) -> Vec<u8> {
    rows.iter()
        .flat_map(|(kind, length)| {
            let mut row = (*length as u32).to_le_bytes().to_vec();
            row.extend(kind.to_le_bytes());
            row
        })
        .collect()
}

/// A record body without free room.
pub fn records<R: AsRef<[u8]>>(records: &[R]) -> Vec<u8> {
    let mut body = (records.len() as u16).to_le_bytes().to_vec();
    for record in records {
        body.extend((record.as_ref().len() as u16).to_le_bytes());
        body.extend(record.as_ref());
    }
    body
}

/// A biometrics body; `room` says how many bytes its room has, of which the first are written.
pub fn biometrics(state: u8, written: usize, room: &[u8]) -> Vec<u8> {
    let mut body = vec![state];
    body.extend((written as u32).to_le_bytes());
    body.extend(room);
    body
}

/// A data object with the length form that the rules ask for.
pub fn object(tag: &[u8], value: &[u8]) -> Vec<u8> {
    [tag, &length(value.len()), value].concat()
}

/// The bytes of an object's length in the form that the rules ask for, which is the shortest.
pub fn length(n: usize) -> Vec<u8> {
    match n {
        0..=0x7F => vec![n as u8],
        0x80..=0xFF => vec![0x81, n as u8],
        _ => vec![0x82, (n >> 8) as u8, n as u8],
    }
}

/// A number in so many bytes, at most four, the highest first.
pub fn number(number: usize, bytes: usize) -> Vec<u8> {
    (number as u32).to_be_bytes()[4 - bytes..].to_vec()
}

/// How many bytes a number needs, at least one.
pub fn fewest_bytes(number: usize) -> usize {
    (1..4).find(|bytes| number >> (8 * bytes) == 0).unwrap_or(4)
}

/// The data field of a SEARCH RECORD, its objects made by a function like [`object`].
pub fn search(
    mut object: impl FnMut(&[u8], &[u8]) -> Vec<u8>,
    file: &[u8],
    how: u8,
    window: [&[u8]; 2],
    string: &[u8],
) -> Vec<u8> {
    let window = window.map(|number| object(&[0x02], number)).concat();
    let configuration = [object(&[0x80], &[how]), object(&[0xB0], &window)].concat();
    let string = object(&[0x81], string);
    let strings = object(&[0xB1], &string);
    let inside = [
        object(&[0x51], file),
        object(&[0xA1], &configuration),
        object(&[0xA3], &strings),
    ];
    object(&[0x7F, 0x76], &inside.concat())
}

/// The value of the object with this tag that bytes begin with, and what is behind it.
pub fn value<'a>(tag: &[u8], bytes: &'a [u8]) -> Option<(&'a [u8], &'a [u8])> {
    let (length, rest) = match bytes.strip_prefix(tag)? {
        [0x82, high, low, rest @ ..] => (u16::from_be_bytes([*high, *low]), rest),
        [0x81, low, rest @ ..] => (u16::from(*low), rest),
        [low @ ..=0x7F, rest @ ..] => (u16::from(*low), rest),
        _ => return None,
    };
    rest.split_at_checked(usize::from(length))
}

/// What [`search`] puts together.
pub struct Search<'a> {
    pub file: &'a [u8],
    pub how: u8,
    /// Offset and number.
    pub window: [&'a [u8]; 2],
    pub string: &'a [u8],
}

/// The parts of a data field that is nested as that of a search is.
pub fn search_parts(data: &[u8]) -> Option<Search<'_>> {
    let (inside, _) = value(&[0x7F, 0x76], data)?;
    let (file, rest) = value(&[0x51], inside)?;
    let (configuration, rest) = value(&[0xA1], rest)?;
    let (how, windows) = value(&[0x80], configuration)?;
    let (window, _) = value(&[0xB0], windows)?;
    let (offset, behind) = value(&[0x02], window)?;
    let (number, _) = value(&[0x02], behind)?;
    let (strings, _) = value(&[0xA3], rest)?;
    let (string, _) = value(&[0xB1], strings)?;
    Some(Search {
        file,
        how: *how.first()?,
        window: [offset, number],
        string: value(&[0x81], string)?.0,
    })
}

/// A command before it is put into one of ISO's seven shapes.
#[derive(Clone, Debug, PartialEq, Eq)]
pub struct Apdu {
    pub cla: u8,
    pub ins: u8,
    pub p1: u8,
    pub p2: u8,
    pub data: Option<Vec<u8>>,
    pub le: Option<u16>,
    pub extended: bool,
}

impl Apdu {
    pub fn new(cla: u8, ins: u8, p1: u8, p2: u8) -> Self {
        Self {
            cla,
            ins,
            p1,
            p2,
            data: None,
            le: None,
            extended: false,
        }
    }

    pub fn data(mut self, data: Vec<u8>) -> Self {
        self.data = Some(data);
        self
    }

    pub fn le(mut self, le: u16) -> Self {
        self.le = Some(le);
        self
    }

    pub fn extended(mut self, extended: bool) -> Self {
        self.extended = extended;
        self
    }

    /// The same header and form without data and Le.
    pub fn bare(&self) -> Self {
        Self::new(self.cla, self.ins, self.p1, self.p2).extended(self.extended)
    }

    /// A link but the last.
    pub fn link(mut self) -> Self {
        self.cla |= MORE;
        self
    }

    /// INS, P1 and P2, which all links of a chain share.
    pub fn header(&self) -> [u8; 3] {
        [self.ins, self.p1, self.p2]
    }

    /// The command of these bytes; none where they have none of the seven shapes.
    pub fn read(bytes: &[u8]) -> Option<Self> {
        let (&[cla, ins, p1, p2], body) = bytes.split_first_chunk()?;
        let new = Self::new(cla, ins, p1, p2);
        match body {
            [] => Some(new),
            [le] => Some(new.le(u16::from(*le))),
            [0, high, low] => Some(new.le(two(*high, *low)).extended(true)),
            [0, high, low, rest @ ..] => new.extended(true).with(two(*high, *low), rest),
            [lc, rest @ ..] => new.with(u16::from(*lc), rest),
        }
    }

    /// With so many of these bytes as data, and with Le behind them or without.
    fn with(self, lc: u16, bytes: &[u8]) -> Option<Self> {
        let (data, le) = bytes.split_at_checked(usize::from(lc))?;
        let extended = self.extended;
        let new = self.data(data.to_vec());
        match le {
            _ if lc == 0 => None,
            [] => Some(new),
            [le] if !extended => Some(new.le(u16::from(*le))),
            [high, low] if extended => Some(new.le(two(*high, *low))),
            _ => None,
        }
    }

    /// How many bytes the reply may have; none where the command has no Le.
    pub fn ne(&self) -> Option<usize> {
        Some(match (self.le?, self.extended) {
            (0, true) => 0x1_0000,
            (0, false) => 0x100,
            (le, _) => usize::from(le),
        })
    }

    /// The command's bytes. Data too long for a short Lc take the extended shape.
    pub fn bytes(&self) -> Vec<u8> {
        let mut bytes = vec![self.cla, self.ins, self.p1, self.p2];
        let length = self.data.as_ref().map_or(0, Vec::len);
        let extended = self.extended || length > 255;
        if extended && (self.data.is_some() || self.le.is_some()) {
            bytes.push(0);
        }
        if let Some(data) = &self.data {
            put_number(&mut bytes, length as u16, extended);
            bytes.extend(data);
        }
        if let Some(le) = self.le {
            put_number(&mut bytes, le, extended);
        }
        bytes
    }
}

fn two(high: u8, low: u8) -> u16 {
    u16::from_be_bytes([high, low])
}

fn put_number(bytes: &mut Vec<u8>, number: u16, extended: bool) {
    let [high, low] = number.to_be_bytes();
    if extended {
        bytes.push(high);
    }
    bytes.push(low);
}
