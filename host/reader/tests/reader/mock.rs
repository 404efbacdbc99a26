//! What the tests share: a reader that the test plays itself, and the card to try of section T in
//! docs/RULES.md.

use std::fs;
use std::io::{self, Read, Write};
use std::net::{TcpListener, TcpStream};
use std::path::PathBuf;
use std::time::Duration;

/// A reader before the card has come.
pub struct Slot(TcpListener);

impl Slot {
    pub fn new() -> Self {
        Self(TcpListener::bind(("127.0.0.1", 0)).expect("a free port"))
    }

    pub fn port(&self) -> u16 {
        self.0.local_addr().expect("its own address").port()
    }

    /// Waits until a card comes.
    pub fn insert(&self) -> Reader {
        let (card, _) = self.0.accept().expect("a card");
        // A test that waits for an answer in vain has to end.
        card.set_read_timeout(Some(Duration::from_secs(60)))
            .expect("a time limit");
        card.set_nodelay(true).expect("no delay");
        Reader(card)
    }
}

/// A reader with its card.
pub struct Reader(TcpStream);

impl Reader {
    /// Sends bytes as they are.
    pub fn raw(&mut self, bytes: &[u8]) -> io::Result<()> {
        self.0.write_all(bytes)
    }

    fn send(&mut self, message: &[u8]) -> io::Result<()> {
        let length = u16::try_from(message.len()).expect("a message of at most 65,535 bytes");
        self.raw(&[&length.to_be_bytes()[..], message].concat())
    }

    /// Sends a message.
    pub fn tell(&mut self, message: &[u8]) {
        self.send(message).expect("the card reads");
    }

    /// The next answer; none where the card has gone.
    pub fn answer(&mut self) -> Option<Vec<u8>> {
        let mut length = [0; 2];
        self.0.read_exact(&mut length).ok()?;
        let mut answer = vec![0; u16::from_be_bytes(length).into()];
        self.0.read_exact(&mut answer).ok()?;
        Some(answer)
    }

    /// Sends a message and waits for its answer; none where the card goes first.
    pub fn try_ask(&mut self, message: &[u8]) -> Option<Vec<u8>> {
        self.send(message).ok()?;
        self.answer()
    }

    /// Sends a message and waits for its answer.
    pub fn ask(&mut self, message: &[u8]) -> Vec<u8> {
        self.try_ask(message).expect("an answer")
    }
}

/// A new empty folder for one test.
pub fn folder(test: &str) -> PathBuf {
    let folder = PathBuf::from(env!("CARGO_TARGET_TMPDIR")).join(test);
    let _ = fs::remove_dir_all(&folder);
    fs::create_dir_all(&folder).expect("a folder");
    folder
}

/// The travel application's three files, empty, each with a body of so many bytes.
pub fn travel_card(length: u32) -> Vec<u8> {
    let section = |kind: u16| {
        let mut section = length.to_le_bytes().to_vec();
        section.extend(kind.to_le_bytes());
        section.resize(section.len() + length as usize, 0);
        section
    };
    [0x0101, 0x0102, 0x011A].map(section).concat()
}

/// SELECT of the travel application.
pub const SELECT: [u8; 12] = [0x00, 0xA4, 0x04, 0x0C, 7, 0xA0, 0, 0, 2, 0x47, 0x20, 1];

/// APPEND RECORD to EntryRecords, which has the short id 01.
pub fn append(record: &[u8]) -> Vec<u8> {
    let length = u8::try_from(record.len()).expect("a short record");
    [&[0x00, 0xE2, 0x00, 0x08, length], record].concat()
}
