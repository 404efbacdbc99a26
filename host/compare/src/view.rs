//! What an image and a session hold, as far as it helps to make up a meaningful command. It
//! judges nothing: of a damaged image it sees what comes before the damage.

use crate::make::{self, Rule, CHAIN_DATA, RULES, SESSION_LEN, STANDING_LEN};
use std::ops::Range;

/// The links so far that a session holds.
#[derive(Clone, Debug, PartialEq, Eq)]
pub struct Chain {
    /// INS, P1, P2.
    pub header: [u8; 3],
    pub data: Vec<u8>,
}

impl Chain {
    /// The chain that a session's bytes tell of, be it one that links could have left or not. None
    /// where the length is 0, or more than a chain has, or the buffer is too short for a session.
    pub fn of(session: &[u8]) -> Option<Self> {
        let chain = session.get(STANDING_LEN..SESSION_LEN)?;
        let (&[low, high, ins, p1, p2], data) = chain.split_first_chunk()?;
        let length = usize::from(u16::from_le_bytes([low, high]));
        let data = data.get(..length).filter(|data| !data.is_empty())?;
        Some(Self {
            header: [ins, p1, p2],
            data: data.to_vec(),
        })
    }

    /// Puts the chain into a session, in place of what was there.
    pub fn put(&self, session: &mut [u8]) {
        let length = (self.data.len() as u16).to_le_bytes();
        session[STANDING_LEN..SESSION_LEN].fill(0);
        session[STANDING_LEN..CHAIN_DATA].copy_from_slice(&[&length[..], &self.header].concat());
        session[CHAIN_DATA..CHAIN_DATA + self.data.len()].copy_from_slice(&self.data);
    }
}

pub enum Content {
    Constant {
        size: usize,
    },
    Records {
        rule: &'static Rule,
        /// Bytes of the body behind the last record.
        free: usize,
        /// Where the records lie in the image.
        records: Vec<Range<usize>>,
    },
    Biometrics {
        activated: bool,
        written: usize,
        room: usize,
    },
}

pub struct File {
    pub application: u8,
    pub id: u16,
    /// 0 where the file has none.
    pub short_id: u8,
    pub content: Content,
}

impl File {
    pub fn has_records(&self) -> bool {
        matches!(self.content, Content::Records { .. })
    }

    /// Whether this is a biometrics file that may still be written.
    pub fn is_open(&self) -> bool {
        matches!(
            self.content,
            Content::Biometrics {
                activated: false,
                ..
            }
        )
    }

    /// Whether this is a biometrics file with places that 15 bits do not reach.
    pub fn is_large(&self) -> bool {
        self.room() > 0x8000
    }

    /// How many bytes a file may come to have that is read by READ BINARY.
    pub fn room(&self) -> usize {
        match self.content {
            Content::Constant { size } => size,
            Content::Biometrics { room, .. } => room,
            Content::Records { .. } => 0,
        }
    }

    /// How many bytes READ BINARY may read.
    pub fn size(&self) -> usize {
        match self.content {
            Content::Constant { size } => size,
            Content::Biometrics { written, .. } => written,
            Content::Records { .. } => 0,
        }
    }

    pub fn records(&self) -> &[Range<usize>] {
        match &self.content {
            Content::Records { records, .. } => records,
            _ => &[],
        }
    }
}

pub struct View {
    /// The files of all applications; those of the master file are numbered 0.
    pub files: Vec<File>,
    /// The selected application.
    pub application: u8,
    /// The current file's id.
    pub current: Option<u16>,
    /// The links so far, where the session is amid a chain.
    pub chain: Option<Chain>,
}

impl View {
    pub fn new(image: &[u8], session: &[u8]) -> Self {
        let mut files: Vec<File> = sections(image)
            .into_iter()
            .filter_map(|(kind, body)| file(image, kind, body))
            .collect();
        let entries = 1 + [1, 2, 3]
            .iter()
            .filter(|n| files.iter().any(|file| file.application == **n))
            .count();
        files.push(constant(0x2F01, 0x01, 16));
        files.push(constant(0x2F00, 0x1E, 11 * entries));
        let byte = |at| session.get(at).copied().unwrap_or(0);
        Self {
            files,
            application: byte(20),
            current: (byte(21) != 0).then(|| u16::from_le_bytes([byte(22), byte(23)])),
            chain: Chain::of(session),
        }
    }

    /// The files of the selected application.
    pub fn here(&self) -> impl Iterator<Item = &File> {
        let application = self.application;
        self.files
            .iter()
            .filter(move |file| file.application == application)
    }

    pub fn current_file(&self) -> Option<&File> {
        let id = self.current?;
        self.here().find(|file| file.id == id)
    }

    pub fn has(&self, application: u8) -> bool {
        self.files
            .iter()
            .any(|file| file.application == application)
    }
}

/// Kind and body of each section, up to the first that does not end within the image.
pub fn sections(image: &[u8]) -> Vec<(u16, Range<usize>)> {
    let mut found = Vec::new();
    let mut at = 0;
    while let Some(&[a, b, c, d, low, high]) = image[at..].first_chunk() {
        let length = u32::from_le_bytes([a, b, c, d]) as usize;
        let start = at + make::SECTION_HEADER;
        if length > image.len() - start {
            break;
        }
        at = start + length;
        found.push((u16::from_le_bytes([low, high]), start..at));
    }
    found
}

/// A section as a move sees it.
#[derive(Clone, Copy)]
pub struct Room {
    pub kind: u16,
    /// The length of the body.
    pub length: usize,
    /// How many bytes of it a move has to keep.
    pub held: usize,
}

/// The sections of an image, as far as [`sections`] sees them.
pub fn rooms(image: &[u8]) -> Vec<Room> {
    let room = |(kind, body): (u16, Range<usize>)| {
        let length = body.len();
        let held = match file(image, kind, body).map(|file| file.content) {
            Some(Content::Records { free, .. }) => length - free,
            Some(Content::Biometrics { written, .. }) => length.min(5 + written),
            _ => 0,
        };
        Room { kind, length, held }
    };
    sections(image).into_iter().map(room).collect()
}

/// Where the body of a kind lies in an image, as far as [`sections`] sees it.
pub fn body(image: &[u8], kind: u16) -> Option<Range<usize>> {
    let mut sections = sections(image).into_iter();
    let (_, body) = sections.find(|(found, _)| *found == kind)?;
    Some(body)
}

/// How many records a body says it has; 0 where it is too short to say.
pub fn count(body: &[u8]) -> usize {
    let count = body.first_chunk().copied().map(u16::from_le_bytes);
    count.map_or(0, usize::from)
}

/// Where the records lie in a body of this rule.
pub fn records(rule: &'static Rule, body: &[u8]) -> Vec<Range<usize>> {
    let file = record_file(body, rule, 0..body.len());
    file.records().to_vec()
}

fn constant(id: u16, short_id: u8, size: usize) -> File {
    File {
        application: 0,
        id,
        short_id,
        content: Content::Constant { size },
    }
}

fn file(image: &[u8], kind: u16, body: Range<usize>) -> Option<File> {
    if let Some(rule) = RULES.iter().find(|rule| rule.kind == kind) {
        return Some(record_file(image, rule, body));
    }
    let [state, a, b, c, d] = *image[body.clone()].first_chunk()?;
    Some(File {
        application: 3,
        id: kind - make::BIOMETRICS_KIND.min(kind) + make::BIOMETRICS_ID,
        short_id: 0,
        content: Content::Biometrics {
            activated: state != 0,
            written: u32::from_le_bytes([a, b, c, d]) as usize,
            room: body.len() - 5,
        },
    })
}

fn record_file(image: &[u8], rule: &'static Rule, body: Range<usize>) -> File {
    let two = |at: usize| {
        let bytes = image[..body.end].get(at..at + 2)?;
        Some(usize::from(u16::from_le_bytes([bytes[0], bytes[1]])))
    };
    let count = two(body.start).unwrap_or(0).min(rule.most);
    let mut records = Vec::with_capacity(count);
    let mut at = body.start + 2;
    while records.len() < count {
        let Some(length) = two(at).filter(|length| at + 2 + length <= body.end) else {
            break;
        };
        records.push(at + 2..at + 2 + length);
        at += 2 + length;
    }
    File {
        application: rule.application,
        id: rule.id,
        short_id: rule.short_id,
        content: Content::Records {
            rule,
            free: body.end.saturating_sub(at),
            records,
        },
    }
}
