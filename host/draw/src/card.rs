//! What a card holds, as far as a picture shows it (`docs/RULES.md`, sections I, K, R and N).

use malquindo::Refusal;

#[derive(Clone, Copy, Debug, PartialEq, Eq)]
pub enum Application {
    Travel,
    Visa,
    Biometrics,
}

#[derive(Debug)]
pub struct Card {
    /// The bytes of the whole image.
    pub length: usize,
    pub files: Vec<File>,
}

#[derive(Debug)]
pub struct File {
    pub kind: u16,
    pub name: String,
    pub application: Application,
    /// The length of the body, as in the list of a move.
    pub room: usize,
    pub content: Content,
}

#[derive(Debug)]
pub enum Content {
    Records { most: usize, records: Vec<Vec<u8>> },
    Biometrics { activated: bool, written: Vec<u8> },
}

/// A stretch of a file's body. The parts of a file make up its room.
#[derive(Clone, Copy, Debug, PartialEq, Eq)]
pub struct Part {
    pub what: What,
    pub start: usize,
    pub length: usize,
}

#[derive(Clone, Copy, Debug, PartialEq, Eq)]
pub enum What {
    /// The count of records, or state and written length.
    Head,
    /// A record with its length in front, by its number.
    Record(usize),
    /// The bytes written of a biometrics file.
    Written,
    Free,
}

/// Kind, name and most records of each record file.
const RECORD_FILES: [(u16, &str, usize); 6] = [
    (0x0101, "EntryRecords", 254),
    (0x0102, "ExitRecords", 254),
    (0x011A, "travel certificates", 254),
    (0x0203, "VisaRecords", 254),
    (0x021A, "visa certificates", 254),
    (0x031A, "biometrics certificates", 64),
];
const BIOMETRICS_KIND: u16 = 0x0400;
const RECORDS_HEAD: usize = 2;
const BIOMETRICS_HEAD: usize = 5;

impl Card {
    /// The proved library says whether the bytes are a card; only then are they read here.
    pub fn read(image: &[u8]) -> Result<Self, Refusal> {
        judge(image)?;
        let files = files(image).ok_or(Refusal::BadImage)?;
        Ok(Self {
            length: image.len(),
            files,
        })
    }

    pub fn file(&self, kind: u16) -> Option<&File> {
        self.files.iter().find(|file| file.kind == kind)
    }

    /// How many records the card has, in all files.
    pub fn records(&self) -> usize {
        self.files.iter().map(|file| file.records().len()).sum()
    }
}

/// Asks the library by a command of no bytes, which changes nothing.
fn judge(image: &[u8]) -> Result<(), Refusal> {
    let mut session = malquindo::open(&[0; 60])?;
    let mut response = [0; malquindo::RESPONSE_LEN];
    malquindo::command(&mut image.to_vec(), &mut session, &[], &mut response).map(|_| ())
}

fn files(image: &[u8]) -> Option<Vec<File>> {
    let mut files = Vec::new();
    let mut rest = image;
    while let Some((&[a, b, c, d, low, high], behind)) = rest.split_first_chunk() {
        let length = u32::from_le_bytes([a, b, c, d]) as usize;
        let (body, next) = behind.split_at_checked(length)?;
        files.push(File::read(u16::from_le_bytes([low, high]), body)?);
        rest = next;
    }
    Some(files)
}

impl File {
    fn read(kind: u16, body: &[u8]) -> Option<Self> {
        let rule = RECORD_FILES.iter().find(|(known, ..)| *known == kind);
        let (name, content) = match rule {
            Some(&(_, name, most)) => {
                let records = records(body)?;
                (name.to_string(), Content::Records { most, records })
            }
            None => (
                format!("Biometrics {}", kind.checked_sub(BIOMETRICS_KIND)?),
                biometrics(body)?,
            ),
        };
        Some(Self {
            kind,
            name,
            application: match kind >> 8 {
                1 => Application::Travel,
                2 => Application::Visa,
                _ => Application::Biometrics,
            },
            room: body.len(),
            content,
        })
    }

    pub fn records(&self) -> &[Vec<u8>] {
        match &self.content {
            Content::Records { records, .. } => records,
            Content::Biometrics { .. } => &[],
        }
    }

    /// The parts of the body from its start to its end. Where nothing is free, there is no such part.
    pub fn parts(&self) -> Vec<Part> {
        let (head, rest): (usize, Vec<(What, usize)>) = match &self.content {
            Content::Records { records, .. } => {
                let parts = records.iter().zip(1..);
                let part =
                    |(record, number): (&Vec<u8>, usize)| (What::Record(number), 2 + record.len());
                (RECORDS_HEAD, parts.map(part).collect())
            }
            Content::Biometrics { written, .. } => {
                (BIOMETRICS_HEAD, vec![(What::Written, written.len())])
            }
        };
        let mut parts = Vec::new();
        let mut start = 0;
        for (what, length) in [(What::Head, head)].into_iter().chain(rest) {
            parts.push(Part {
                what,
                start,
                length,
            });
            start += length;
        }
        let length = self.room - start;
        parts.push(Part {
            what: What::Free,
            start,
            length,
        });
        parts.retain(|part| part.length > 0);
        parts
    }

    pub fn free(&self) -> usize {
        let free = |part: &Part| (part.what == What::Free).then_some(part.length);
        self.parts().last().and_then(free).unwrap_or(0)
    }
}

fn records(body: &[u8]) -> Option<Vec<Vec<u8>>> {
    let (count, mut rest) = little(body)?;
    let mut records = Vec::with_capacity(count);
    for _ in 0..count {
        let (length, behind) = little(rest)?;
        let (record, next) = behind.split_at_checked(length)?;
        records.push(record.to_vec());
        rest = next;
    }
    Some(records)
}

fn biometrics(body: &[u8]) -> Option<Content> {
    let (&[state, a, b, c, d], room) = body.split_first_chunk()?;
    let length = u32::from_le_bytes([a, b, c, d]) as usize;
    Some(Content::Biometrics {
        activated: state == 1,
        written: room.get(..length)?.to_vec(),
    })
}

/// The number in the first two bytes, and what is behind them.
fn little(bytes: &[u8]) -> Option<(usize, &[u8])> {
    let (first, rest) = bytes.split_first_chunk()?;
    Some((usize::from(u16::from_le_bytes(*first)), rest))
}
