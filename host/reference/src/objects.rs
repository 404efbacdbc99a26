//! Data objects: reading them out of a data field, and what the four commands that send some
//! say with them: READ BINARY with INS B1, UPDATE BINARY, SEARCH RECORD and FMM. Where a function
//! here gives None, the command's answer is 6A80.
//!
//! Stamps and certificate extensions have the same objects, but answers of their own.

/// How deep objects may be nested.
const DEEPEST: usize = 4;
/// The most bytes of an offset into a file; two would not reach the end of the largest room.
const OFFSET_BYTES: usize = 3;
/// The most bytes of each of the two numbers of a search window.
const WINDOW_BYTES: usize = 2;

/// Data objects that stand side by side, and how deep objects may still be nested from here.
pub struct Objects<'a> {
    rest: &'a [u8],
    depth: usize,
}

impl<'a> Objects<'a> {
    /// The objects of a command's data field, or of a run of certificate extensions.
    pub fn of(data: &'a [u8]) -> Self {
        Self {
            rest: data,
            depth: DEEPEST,
        }
    }

    /// The value of the next object, which must have this tag: the order is fixed.
    pub fn value(&mut self, tag: &[u8]) -> Option<&'a [u8]> {
        if self.depth == 0 {
            return None;
        }
        let (length, rest) = split_length(self.rest.strip_prefix(tag)?)?;
        let (value, rest) = rest.split_at_checked(length)?;
        self.rest = rest;
        Some(value)
    }

    /// The objects inside the next object, which must have this tag.
    pub fn inside(&mut self, tag: &[u8]) -> Option<Objects<'a>> {
        let value = self.value(tag)?;
        Some(Objects {
            rest: value,
            depth: self.depth - 1,
        })
    }

    /// The number in the next object, big-endian: at least one byte, and at most as many as the
    /// command allows there. Zeros may lead.
    fn number(&mut self, tag: &[u8], most_bytes: usize) -> Option<usize> {
        let bytes = self.value(tag)?;
        if bytes.is_empty() || bytes.len() > most_bytes {
            return None;
        }
        Some(
            bytes
                .iter()
                .fold(0, |number, byte| 256 * number + usize::from(*byte)),
        )
    }

    /// The offset into a file in the next object, which must be `54`.
    fn offset(&mut self) -> Option<usize> {
        self.number(&[0x54], OFFSET_BYTES)
    }

    /// Whether no byte is left, where any number of objects may stand.
    pub fn is_empty(&self) -> bool {
        self.rest.is_empty()
    }

    /// No further object may stand here.
    pub fn end(self) -> Option<()> {
        self.is_empty().then_some(())
    }
}

/// A length field and what follows it. Each length has one form, the shortest.
pub fn split_length(bytes: &[u8]) -> Option<(usize, &[u8])> {
    match *bytes {
        [length @ 0..=0x7F, ref rest @ ..] => Some((usize::from(length), rest)),
        [0x81, length @ 0x80..=0xFF, ref rest @ ..] => Some((usize::from(length), rest)),
        [0x82, high @ 0x01..=0xFF, low, ref rest @ ..] => {
            Some((usize::from(u16::from_be_bytes([high, low])), rest))
        }
        _ => None,
    }
}

/// Where READ BINARY with INS B1 is to begin: `54` the offset, and nothing else.
pub fn read_offset(data: &[u8]) -> Option<usize> {
    let mut objects = Objects::of(data);
    let offset = objects.offset()?;
    objects.end()?;
    Some(offset)
}

/// What UPDATE BINARY is to write, and where.
pub struct Update<'a> {
    pub offset: usize,
    pub bytes: &'a [u8],
}

impl<'a> Update<'a> {
    /// `54` the offset, `53` the bytes, perhaps none.
    pub fn read(data: &'a [u8]) -> Option<Self> {
        let mut objects = Objects::of(data);
        let offset = objects.offset()?;
        let bytes = objects.value(&[0x53])?;
        objects.end()?;
        Some(Self { offset, bytes })
    }
}

/// A file named by a `51` object.
#[derive(Clone, Copy)]
pub enum FileName {
    ShortId(u8),
    Id(u16),
}

/// What SEARCH RECORD is to look for, and where.
pub struct Search<'a> {
    /// The value of `51`, which the reply repeats.
    pub sent_file: &'a [u8],
    pub file: FileName,
    /// Whether the first match is enough.
    pub only_first: bool,
    pub offset: usize,
    pub number: usize,
    pub string: &'a [u8],
}

impl<'a> Search<'a> {
    /// `7F76`: in it `51` the file; `A1` the mode (`80`) and the window (`B0`, two numbers); `A3` the
    /// string (`81` in `B1`).
    pub fn read(data: &'a [u8]) -> Option<Self> {
        let mut objects = Objects::of(data);
        let mut template = objects.inside(&[0x7F, 0x76])?;
        objects.end()?;

        let sent_file = template.value(&[0x51])?;
        let file = search_file(sent_file)?;
        let mut configuration = template.inside(&[0xA1])?;
        let mut strings = template.inside(&[0xA3])?;
        template.end()?;

        let only_first = match *configuration.value(&[0x80])? {
            [0x00] => false,
            [0x30] => true,
            _ => return None,
        };
        let mut window = configuration.inside(&[0xB0])?;
        configuration.end()?;

        let offset = window.number(&[0x02], WINDOW_BYTES)?;
        let number = window.number(&[0x02], WINDOW_BYTES)?;
        window.end()?;

        let mut string_template = strings.inside(&[0xB1])?;
        strings.end()?;
        let string = string_template.value(&[0x81])?;
        string_template.end()?;
        if string.is_empty() {
            return None;
        }
        Some(Self {
            sent_file,
            file,
            only_first,
            offset,
            number,
            string,
        })
    }
}

/// The file of a search. Readers write one byte in two ways: the short id itself, or the short id
/// in the upper five bits, with zeros below, as in FMM. No file's short id ends in three zero bits,
/// so no byte means two files.
fn search_file(value: &[u8]) -> Option<FileName> {
    match *value {
        [byte] if byte & 0x07 == 0 => Some(FileName::ShortId(byte >> 3)),
        [short_id] => Some(FileName::ShortId(short_id)),
        [high, low] => Some(FileName::Id(u16::from_be_bytes([high, low]))),
        _ => None,
    }
}

/// The file of FMM. One byte has the short id in its upper five bits, and zeros below.
pub fn read_fmm_file(data: &[u8]) -> Option<FileName> {
    let mut objects = Objects::of(data);
    let value = objects.value(&[0x51])?;
    objects.end()?;
    match *value {
        [byte] if byte & 0x07 == 0 => Some(FileName::ShortId(byte >> 3)),
        [high, low] => Some(FileName::Id(u16::from_be_bytes([high, low]))),
        _ => None,
    }
}
