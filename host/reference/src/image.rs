//! The card image: its rules, the files it holds, and the three changes a command may make. Two of
//! these are given as lists of stores, which [`crate::stores`] makes.
//!
//! [`Layout::read`] checks the whole image once and notes where each file lies; no byte of
//! the image is copied. Every file handed out by a layout is good for the image it was read
//! from, until that image is changed.

use std::ops::Range;

use crate::stores::Store;

/// The most bytes an image has.
const LONGEST_IMAGE: usize = 262_144;
/// Bytes before a section's body: its length (4 bytes), its kind (2 bytes).
pub const SECTION_HEADER: usize = 6;
/// How many biometrics files there can be; their kinds are 0401 to 0440.
const BIOMETRICS_FILES: usize = 64;
const FIRST_BIOMETRICS_KIND: u16 = 0x0401;
const FIRST_BIOMETRICS_ID: u16 = 0x0201;
/// Bytes before a biometrics file's room: the state, and how many bytes are written (4 bytes).
const BIOMETRICS_HEADER: usize = 5;
/// The largest room of a biometrics file.
const LARGEST_ROOM: usize = 131_072;
/// A body of no content, of each length that an image has room for.
static EMPTY_BODY: [u8; LONGEST_IMAGE] = [0; LONGEST_IMAGE];

const ATR_INFO_ID: u16 = 0x2F01;
const ATR_INFO_SHORT_ID: u8 = 0x01;
const DIR_ID: u16 = 0x2F00;
const DIR_SHORT_ID: u8 = 0x1E;

/// What EF.ATR/INFO holds on every card. b8 of E0 says that a command may come in links.
const ATR_INFO: [u8; 16] = [
    0x47, 0x03, 0x86, 0x01, 0xE0, 0x7F, 0x66, 0x08, 0x02, 0x02, 0x04, 0x00, 0x02, 0x02, 0x08, 0x02,
];

const AID_LEN: usize = 7;
/// The AIDs differ in their last two bytes.
const EMRTD_AID: [u8; AID_LEN] = [0xA0, 0x00, 0x00, 0x02, 0x47, 0x10, 0x01];
const TRAVEL_AID: [u8; AID_LEN] = [0xA0, 0x00, 0x00, 0x02, 0x47, 0x20, 0x01];
const VISA_AID: [u8; AID_LEN] = [0xA0, 0x00, 0x00, 0x02, 0x47, 0x20, 0x02];
const BIOMETRICS_AID: [u8; AID_LEN] = [0xA0, 0x00, 0x00, 0x02, 0x47, 0x20, 0x03];
/// What stands before the AID in each entry of EF.DIR.
const DIR_ENTRY_START: [u8; 4] = [0x61, 0x09, 0x4F, 0x07];
const DIR_ENTRY_LEN: usize = DIR_ENTRY_START.len() + AID_LEN;
const LONGEST_CONSTANT: usize = 4 * DIR_ENTRY_LEN;

/// What may be selected: the master file or one of the three applications.
#[derive(Clone, Copy, Debug, PartialEq, Eq)]
pub enum Application {
    MasterFile,
    Travel,
    Visa,
    Biometrics,
}

impl Application {
    /// The application of a whole AID. The eMRTD application is not covered, so its AID has none.
    pub fn of_aid(aid: &[u8]) -> Option<Self> {
        if aid == TRAVEL_AID {
            Some(Self::Travel)
        } else if aid == VISA_AID {
            Some(Self::Visa)
        } else if aid == BIOMETRICS_AID {
            Some(Self::Biometrics)
        } else {
            None
        }
    }
}

/// One line of the table of record files.
#[derive(Debug)]
pub struct RecordRule {
    kind: u16,
    pub application: Application,
    pub id: u16,
    pub short_id: u8,
    pub longest: usize,
    pub most: usize,
    pub certificates: bool,
}

const TRAVEL_CERTIFICATES_KIND: u16 = 0x011A;

/// The table of record files, by ascending kind.
static RECORD_RULES: [RecordRule; 6] = [
    RecordRule {
        kind: 0x0101,
        application: Application::Travel,
        id: 0x0101,
        short_id: 0x01,
        longest: 391,
        most: 254,
        certificates: false,
    },
    RecordRule {
        kind: 0x0102,
        application: Application::Travel,
        id: 0x0102,
        short_id: 0x02,
        longest: 391,
        most: 254,
        certificates: false,
    },
    RecordRule {
        kind: TRAVEL_CERTIFICATES_KIND,
        application: Application::Travel,
        id: 0x011A,
        short_id: 0x1A,
        longest: 929,
        most: 254,
        certificates: true,
    },
    RecordRule {
        kind: 0x0203,
        application: Application::Visa,
        id: 0x0103,
        short_id: 0x03,
        longest: 512,
        most: 254,
        certificates: false,
    },
    RecordRule {
        kind: 0x021A,
        application: Application::Visa,
        id: 0x011A,
        short_id: 0x1A,
        longest: 929,
        most: 254,
        certificates: true,
    },
    RecordRule {
        kind: 0x031A,
        application: Application::Biometrics,
        id: 0x011A,
        short_id: 0x1A,
        longest: 929,
        most: 64,
        certificates: true,
    },
];

/// What stands before a section's body: the body's length, then the kind, both little-endian.
#[derive(Clone, Copy, Debug)]
pub struct Head {
    pub length: usize,
    pub kind: u16,
}

impl Head {
    pub fn read(bytes: &[u8; SECTION_HEADER]) -> Option<Self> {
        let [length @ .., low, high] = bytes;
        Some(Self {
            length: little_u32(length)?,
            kind: u16::from_le_bytes([*low, *high]),
        })
    }
}

/// A record file of the image: its rule, where its body lies and what it holds.
#[derive(Clone, Copy, Debug)]
pub struct RecordFile {
    pub rule: &'static RecordRule,
    start: usize,
    length: usize,
    pub count: usize,
    used: usize,
}

impl RecordFile {
    /// Reads a record body: how many records there are, then each record behind its length, all
    /// numbers of two bytes, little-endian. No record is empty. What follows is free, whatever it
    /// holds.
    fn read(rule: &'static RecordRule, body: &[u8], start: usize) -> Option<Self> {
        let count = little_u16(body)?;
        if count > rule.most {
            return None;
        }
        let mut used = 2;
        for _ in 0..count {
            let length = little_u16(body.get(used..)?)?;
            if length == 0 || length > rule.longest {
                return None;
            }
            used += 2 + length;
        }
        let file = Self {
            rule,
            start,
            length: body.len(),
            count,
            used,
        };
        (used <= body.len()).then_some(file)
    }

    /// Reads a body of a kind that stands by itself: its first byte is at place 0. No image is
    /// around it, so it may be longer than any image. None where the kind is no record file's or
    /// the body is not well formed.
    pub fn alone(kind: u16, body: &[u8]) -> Option<Self> {
        let i = record_rule(kind)?;
        Self::read(&RECORD_RULES[i], body, 0)
    }

    /// Reads a body of travel certificates that stands by itself.
    pub fn travel_certificates(body: &[u8]) -> Option<Self> {
        Self::alone(TRAVEL_CERTIFICATES_KIND, body)
    }

    /// The records in their order, each a part of the image.
    pub fn records<'a>(&self, image: &'a [u8]) -> Records<'a> {
        Records {
            rest: image
                .get(self.start + 2..self.start + self.used)
                .unwrap_or(&[]),
        }
    }

    /// Where the bytes of a record stand in the image, without the length before them. Numbers
    /// start at 1; none where no record has this number.
    pub fn place(&self, number: usize, image: &[u8]) -> Option<Range<usize>> {
        let mut records = self.records(image);
        let before: usize = records
            .by_ref()
            .take(number.checked_sub(1)?)
            .map(|record| 2 + record.len())
            .sum();
        let start = self.start + 2 + before + 2;
        Some(start..start + records.next()?.len())
    }

    /// Where the length before each record stands in the image, in the order of the records. The
    /// first is behind the count, each other one behind the record before it.
    pub fn length_places<'a>(&self, image: &'a [u8]) -> impl Iterator<Item = usize> + 'a {
        let first = self.start + 2;
        self.records(image).scan(first, |next, record| {
            let place = *next;
            *next += 2 + record.len();
            Some(place)
        })
    }

    /// The whole body, with the bytes that are free.
    fn body(&self) -> Range<usize> {
        self.start..self.start + self.length
    }

    /// The part of the body that is used: count and records.
    fn held(&self) -> Range<usize> {
        self.start..self.start + self.used
    }

    /// Whether there is room for a record of n bytes and its length.
    pub fn fits(&self, n: usize) -> bool {
        self.used + 2 + n <= self.length
    }

    /// The stores that put a record that fits behind the last one, in their order: its length,
    /// its bytes, then the count. The count's low byte is last, for that alone makes it a record;
    /// until then all else lies in free room. No count is above 254, so its high byte stays 0.
    pub fn append_stores(&self, record: &[u8]) -> Vec<Store> {
        let [length_low, length_high] = (record.len() as u16).to_le_bytes();
        let [count_low, count_high] = (self.count as u16 + 1).to_le_bytes();
        let free = self.start + self.used;
        let written = [length_low, length_high]
            .into_iter()
            .chain(record.iter().copied());
        let counted = [(self.start + 1, count_high), (self.start, count_low)];
        (free..)
            .zip(written)
            .chain(counted)
            .map(|(place, byte)| Store { place, byte })
            .collect()
    }

    /// The body's bytes without count and lengths.
    fn total(&self) -> usize {
        self.length - 2 - 2 * self.count
    }

    /// How many of the longest records can still be appended, by count and by room.
    pub fn remaining(&self) -> usize {
        let by_count = self.rule.most - self.count;
        let by_room = (self.length - self.used) / (2 + self.rule.longest);
        by_count.min(by_room)
    }
}

/// The record whose length stands at a place of some bytes, whatever they are. It may be empty,
/// and longer than any file's records. None where the length or the record leaves the bytes.
pub fn record_at(bytes: &[u8], place: usize) -> Option<&[u8]> {
    let rest = bytes.get(place..)?;
    Records { rest }.next()
}

/// Walks over records that stand one behind the other.
pub struct Records<'a> {
    rest: &'a [u8],
}

impl<'a> Iterator for Records<'a> {
    type Item = &'a [u8];

    /// A record is behind its own length.
    fn next(&mut self) -> Option<&'a [u8]> {
        let length = little_u16(self.rest)?;
        let (record, rest) = self.rest.get(2..)?.split_at_checked(length)?;
        self.rest = rest;
        Some(record)
    }
}

/// One of the files Biometrics 1 to 64.
#[derive(Clone, Copy, Debug)]
pub struct BiometricsFile {
    /// 0 for Biometrics 1, up to 63 for Biometrics 64.
    pub index: usize,
    start: usize,
    pub room: usize,
    pub activated: bool,
    pub written: usize,
}

impl BiometricsFile {
    /// Reads a biometrics body: the state (0 Deactivated, 1 Activated), how many bytes are written
    /// (w, 4 bytes, little-endian), then the room that they are written in.
    fn read(index: usize, body: &[u8], start: usize) -> Option<Self> {
        let room = body.len().checked_sub(BIOMETRICS_HEADER)?;
        let activated = match body[0] {
            0 => false,
            1 => true,
            _ => return None,
        };
        let written = little_u32(&body[1..])?;
        let file = Self {
            index,
            start,
            room,
            activated,
            written,
        };
        (room <= LARGEST_ROOM && written <= room).then_some(file)
    }

    /// The file id, 0201 to 0240.
    fn id(&self) -> u16 {
        FIRST_BIOMETRICS_ID + self.index as u16
    }

    /// The kind of its section, 0401 to 0440.
    fn kind(&self) -> u16 {
        FIRST_BIOMETRICS_KIND + self.index as u16
    }

    /// The whole body, with the room that is not written yet.
    fn body(&self) -> Range<usize> {
        self.start..self.start + BIOMETRICS_HEADER + self.room
    }

    /// The part of the body that is used: state, w and the bytes written.
    fn held(&self) -> Range<usize> {
        self.start..self.start + BIOMETRICS_HEADER + self.written
    }

    /// The bytes written so far.
    fn content<'a>(&self, image: &'a [u8]) -> &'a [u8] {
        let at = self.start + BIOMETRICS_HEADER;
        image.get(at..at + self.written).unwrap_or(&[])
    }

    /// Writes bytes, which must end within the room. w never falls.
    pub fn write(&self, image: &mut [u8], offset: usize, bytes: &[u8]) {
        let end = offset + bytes.len();
        let room = self.start + BIOMETRICS_HEADER;
        image[room + offset..room + end].copy_from_slice(bytes);
        let written = self.written.max(end) as u32;
        image[self.start + 1..room].copy_from_slice(&written.to_le_bytes());
    }

    /// The one store that sets the state to Activated.
    pub fn activate_stores(&self) -> Vec<Store> {
        vec![Store {
            place: self.start,
            byte: 1,
        }]
    }
}

/// One of the master file's two files, with its bytes.
#[derive(Clone, Copy, Debug)]
pub struct ConstantFile {
    id: u16,
    bytes: [u8; LONGEST_CONSTANT],
    length: usize,
}

impl ConstantFile {
    /// A constant file with no bytes yet.
    fn new(id: u16) -> Self {
        Self {
            id,
            bytes: [0; LONGEST_CONSTANT],
            length: 0,
        }
    }

    /// The same file with a part put behind what it has.
    fn with(mut self, part: &[u8]) -> Self {
        let end = self.length + part.len();
        self.bytes[self.length..end].copy_from_slice(part);
        self.length = end;
        self
    }

    /// All of its bytes.
    fn content(&self) -> &[u8] {
        &self.bytes[..self.length]
    }
}

/// A file that holds bytes rather than records.
#[derive(Clone, Copy, Debug)]
pub enum TransparentFile {
    Constant(ConstantFile),
    Biometrics(BiometricsFile),
}

impl TransparentFile {
    /// The bytes that may be read.
    pub fn content<'a>(&'a self, image: &'a [u8]) -> &'a [u8] {
        match self {
            Self::Constant(file) => file.content(),
            Self::Biometrics(file) => file.content(image),
        }
    }
}

/// Any file of the card.
#[derive(Clone, Copy, Debug)]
pub enum File {
    Records(RecordFile),
    Transparent(TransparentFile),
}

impl File {
    /// The file id within its application.
    pub fn id(&self) -> u16 {
        match self {
            Self::Records(file) => file.rule.id,
            Self::Transparent(TransparentFile::Constant(file)) => file.id,
            Self::Transparent(TransparentFile::Biometrics(file)) => file.id(),
        }
    }

    /// How many bytes of content the file can have.
    pub fn total(&self) -> usize {
        match self {
            Self::Records(file) => file.total(),
            Self::Transparent(TransparentFile::Constant(file)) => file.length,
            Self::Transparent(TransparentFile::Biometrics(file)) => file.room,
        }
    }
}

/// What lies where in a checked image.
#[derive(Debug)]
pub struct Layout {
    /// In the order of [`RECORD_RULES`].
    records: [Option<RecordFile>; RECORD_RULES.len()],
    biometrics: [Option<BiometricsFile>; BIOMETRICS_FILES],
    /// The kind of the last section, 0 before the first.
    last_kind: u16,
    /// Where the last section ends, which is where the image does.
    pub length: usize,
}

impl Layout {
    /// Reads an image that is not too long and ends where its last section does. No section at
    /// all is an image too. None where the image is not well formed.
    pub fn read(image: &[u8]) -> Option<Self> {
        if image.len() > LONGEST_IMAGE {
            return None;
        }
        let mut layout = Self::without_files();
        while layout.length < image.len() {
            let (header, rest) = image[layout.length..].split_first_chunk()?;
            let head = Head::read(header)?;
            layout.add(head.kind, rest.get(..head.length)?)?;
        }
        layout.complete().then_some(layout)
    }

    /// The image of these sections with all of their bodies zero; none where that is no image
    /// by the rules that [`Layout::read`] goes by.
    pub fn of_empty(heads: impl Iterator<Item = Head>) -> Option<Self> {
        let mut layout = Self::without_files();
        for head in heads {
            layout.add(head.kind, EMPTY_BODY.get(..head.length)?)?;
        }
        (layout.length <= LONGEST_IMAGE && layout.complete()).then_some(layout)
    }

    /// The image with no sections.
    fn without_files() -> Self {
        Self {
            records: [None; RECORD_RULES.len()],
            biometrics: [None; BIOMETRICS_FILES],
            last_kind: 0,
            length: 0,
        }
    }

    /// Checks the next section's body by the rules of its kind and notes the file. Its kind must
    /// be above those before it.
    fn add(&mut self, kind: u16, body: &[u8]) -> Option<()> {
        if kind <= self.last_kind {
            return None;
        }
        let start = self.length + SECTION_HEADER;
        if let Some(i) = record_rule(kind) {
            self.records[i] = Some(RecordFile::read(&RECORD_RULES[i], body, start)?);
        } else {
            let index = biometrics_index(kind)?;
            let slot = self.biometrics.get_mut(index)?;
            *slot = Some(BiometricsFile::read(index, body, start)?);
        }
        self.last_kind = kind;
        self.length = start + body.len();
        Some(())
    }

    /// The kinds of the sections there are.
    pub fn kinds(&self) -> impl Iterator<Item = u16> + '_ {
        let records = self.records.iter().flatten().map(|file| file.rule.kind);
        let biometrics = self.biometrics.iter().flatten().map(BiometricsFile::kind);
        records.chain(biometrics)
    }

    /// Where the body of a kind stands; none where the kind is not there.
    pub fn body(&self, kind: u16) -> Option<Range<usize>> {
        match record_rule(kind) {
            Some(i) => self.records[i].as_ref().map(RecordFile::body),
            None => self.biometrics_file(kind).map(BiometricsFile::body),
        }
    }

    /// What the body of a kind holds: count and records, or state, w and the bytes written.
    /// A kind that is not there holds nothing.
    pub fn held<'a>(&self, kind: u16, image: &'a [u8]) -> &'a [u8] {
        let place = match record_rule(kind) {
            Some(i) => self.records[i].as_ref().map(RecordFile::held),
            None => self.biometrics_file(kind).map(BiometricsFile::held),
        };
        place.and_then(|place| image.get(place)).unwrap_or(&[])
    }

    /// The biometrics file of a kind.
    fn biometrics_file(&self, kind: u16) -> Option<&BiometricsFile> {
        self.biometrics.get(biometrics_index(kind)?)?.as_ref()
    }

    /// Whether each application is whole or absent. A biometrics file needs the certificates of
    /// its application.
    fn complete(&self) -> bool {
        let [entry, exit, travel_certificates, visas, visa_certificates, biometrics_certificates] =
            self.records.each_ref().map(Option::is_some);
        entry == exit
            && exit == travel_certificates
            && visas == visa_certificates
            && (biometrics_certificates || self.biometrics.iter().all(Option::is_none))
    }

    /// Whether the card has an application; every card has the master file.
    pub fn has(&self, application: Application) -> bool {
        application == Application::MasterFile || self.record_files(application).next().is_some()
    }

    /// The record files of an application that the image holds.
    fn record_files(&self, application: Application) -> impl Iterator<Item = &RecordFile> {
        self.records
            .iter()
            .flatten()
            .filter(move |file| file.rule.application == application)
    }

    /// The file of an id within the selected application.
    pub fn file_by_id(&self, application: Application, id: u16) -> Option<File> {
        match application {
            Application::MasterFile => match id {
                ATR_INFO_ID => Some(self.atr_info()),
                DIR_ID => Some(self.directory()),
                _ => None,
            },
            Application::Biometrics if id >= FIRST_BIOMETRICS_ID => self
                .biometrics
                .get(usize::from(id - FIRST_BIOMETRICS_ID))
                .copied()
                .flatten()
                .map(|file| File::Transparent(TransparentFile::Biometrics(file))),
            _ => self
                .record_files(application)
                .find(|file| file.rule.id == id)
                .map(|file| File::Records(*file)),
        }
    }

    /// The file of a short id within the selected application; short id 0 names none.
    pub fn file_by_short_id(&self, application: Application, short_id: u8) -> Option<File> {
        match application {
            Application::MasterFile => match short_id {
                ATR_INFO_SHORT_ID => Some(self.atr_info()),
                DIR_SHORT_ID => Some(self.directory()),
                _ => None,
            },
            _ => self
                .record_files(application)
                .find(|file| file.rule.short_id == short_id)
                .map(|file| File::Records(*file)),
        }
    }

    /// EF.ATR/INFO, which is the same on every card.
    fn atr_info(&self) -> File {
        let file = ConstantFile::new(ATR_INFO_ID).with(&ATR_INFO);
        File::Transparent(TransparentFile::Constant(file))
    }

    /// EF.DIR: an entry for eMRTD, then one for each application that the card has.
    fn directory(&self) -> File {
        let mut file = ConstantFile::new(DIR_ID)
            .with(&DIR_ENTRY_START)
            .with(&EMRTD_AID);
        for (application, aid) in [
            (Application::Travel, TRAVEL_AID),
            (Application::Visa, VISA_AID),
            (Application::Biometrics, BIOMETRICS_AID),
        ] {
            if self.has(application) {
                file = file.with(&DIR_ENTRY_START).with(&aid);
            }
        }
        File::Transparent(TransparentFile::Constant(file))
    }
}

/// The place in [`RECORD_RULES`] of a record file's kind.
fn record_rule(kind: u16) -> Option<usize> {
    RECORD_RULES.iter().position(|rule| rule.kind == kind)
}

/// A biometrics file's number from 0, by its kind; a kind above 0440 gives one that no file has.
fn biometrics_index(kind: u16) -> Option<usize> {
    kind.checked_sub(FIRST_BIOMETRICS_KIND).map(usize::from)
}

/// The 2-byte little-endian number at the start of some bytes.
fn little_u16(bytes: &[u8]) -> Option<usize> {
    bytes
        .first_chunk()
        .map(|first| usize::from(u16::from_le_bytes(*first)))
}

/// The 4-byte little-endian number at the start of some bytes.
fn little_u32(bytes: &[u8]) -> Option<usize> {
    bytes
        .first_chunk()
        .and_then(|first| usize::try_from(u32::from_le_bytes(*first)).ok())
}
