//! How often each sort of READ BINARY B1 occurred, and what else large files bring: offsets of
//! three bytes, windows that may not have them, and moves to the largest room.

use crate::make::{self, Apdu, LARGEST_ROOM, LONGEST_REPLY};
use crate::step::Step;
use std::collections::BTreeMap;
use std::fmt;

/// How many bytes the length of a reply has.
const FORMS: [&str; 3] = ["one byte", "two bytes", "three bytes"];
/// What kept a reply from being longer.
const LIMITS: [&str; 3] = ["Ne", "2,048", "the file's end"];
/// Where an offset lies: what 15 bits reach, what 16 bits reach, behind it.
const REACHES: [(&str, usize); 3] = [
    ("below 32,768", 0x8000),
    ("below 65,536", 0x1_0000),
    ("above", usize::MAX),
];
/// How many bytes an offset may be sent with.
const MOST_BYTES: usize = 4;
/// The answers to UPDATE BINARY that are shown.
const UPDATES: [u16; 3] = [0x9000, 0x6A80, 0x6A84];
/// The shortest reply of B1: a tag, a length and one byte.
const LEAST: usize = 3;
/// The body of a biometrics file is its room and five bytes more.
const LARGEST_BODY: usize = 5 + LARGEST_ROOM;

#[derive(Default)]
pub struct BinaryTally {
    /// B1 answered 9000, by the bytes of the offset (one to three), the form of the length and the
    /// limit (their places in [`FORMS`] and [`LIMITS`]).
    reads: [[[u64; 3]; 3]; 3],
    /// The same by where the offset lies (its place in [`REACHES`]).
    reaches: [u64; 3],
    /// B1 with Ne under 3, answered 6700 and 6B00.
    small: [u64; 2],
    /// UPDATE BINARY by the bytes of the offset and status.
    updates: BTreeMap<(usize, u16), u64>,
    /// Searches answered 6A80 whose window has an offset of three bytes, and a number of three.
    windows: [u64; 2],
    /// Moves with a biometrics room of the largest size that were done, and with one of a byte
    /// more, which were refused (10).
    moves: [u64; 2],
}

impl BinaryTally {
    /// Counts a step by the results of its calls.
    pub fn step(&mut self, step: &Step, results: &[u64]) {
        match (step, results) {
            (Step::Command { command, .. }, [result]) if result >> 32 == 0 => {
                self.command(command, *result);
            }
            (Step::Move { list, .. }, [result]) => self.moved(list, result >> 32),
            _ => {}
        }
    }

    fn command(&mut self, command: &[u8], result: u64) {
        let kind = command.first_chunk().copied();
        if !matches!(kind, Some([0x00, 0xB1 | 0xD7 | 0xA2])) {
            return;
        }
        let Some(apdu) = Apdu::read(command) else {
            return;
        };
        let data = apdu.data.as_deref().unwrap_or_default();
        let status = result as u16;
        match (apdu.ins, status) {
            (0xB1, _) => self.read(data, apdu.ne(), result),
            (0xD7, _) => {
                if let Some((offset, _)) = make::value(&[0x54], data) {
                    *self.updates.entry((offset.len(), status)).or_default() += 1;
                }
            }
            (_, 0x6A80) => self.search(data),
            _ => {}
        }
    }

    fn read(&mut self, data: &[u8], ne: Option<usize>, result: u64) {
        let (Some((offset, [])), Some(ne)) = (make::value(&[0x54], data), ne) else {
            return;
        };
        match result as u16 {
            0x6700 if ne < LEAST => self.small[0] += 1,
            0x6B00 if ne < LEAST => self.small[1] += 1,
            0x9000 if (1..=3).contains(&offset.len()) => {
                let reply = usize::from((result >> 16) as u16) - 2;
                let (form, limit) = (form(reply), limit(reply, ne));
                self.reads[offset.len() - 1][form][limit] += 1;
                let offset = offset
                    .iter()
                    .fold(0, |all, byte| all << 8 | usize::from(*byte));
                let reach = REACHES.iter().position(|(_, end)| offset < *end);
                self.reaches[reach.unwrap_or(REACHES.len() - 1)] += 1;
            }
            _ => {}
        }
    }

    /// Counts the numbers of three bytes in a search's window.
    fn search(&mut self, data: &[u8]) {
        if let Some(search) = make::search_parts(data) {
            for (count, number) in self.windows.iter_mut().zip(search.window) {
                *count += u64::from(number.len() == 3);
            }
        }
    }

    fn moved(&mut self, list: &[u8], refusal: u64) {
        let has = |length: usize| {
            list.chunks_exact(make::SECTION_HEADER)
                .any(|row| row[5] == 0x04 && row[..4] == (length as u32).to_le_bytes())
        };
        self.moves[0] += u64::from(refusal == 0 && has(LARGEST_BODY));
        self.moves[1] += u64::from(refusal == 10 && has(LARGEST_BODY + 1));
    }

    fn updated(&self, bytes: usize, status: u16) -> u64 {
        self.updates.get(&(bytes, status)).copied().unwrap_or(0)
    }

    /// How often B1 was answered 9000 for which this holds: bytes of the offset, form and limit.
    fn reads_where(&self, holds: impl Fn(usize, usize, usize) -> bool) -> u64 {
        let mut count = 0;
        for (bytes, forms) in self.reads.iter().enumerate() {
            for (form, limits) in forms.iter().enumerate() {
                for (limit, reads) in limits.iter().enumerate() {
                    count += if holds(bytes + 1, form, limit) {
                        *reads
                    } else {
                        0
                    };
                }
            }
        }
        count
    }

    /// What is counted, how often it occurred and how often it should.
    pub fn wanted(&self, each: u64) -> Vec<(String, u64, u64)> {
        let mut wanted = self.wanted_reads();
        for bytes in 0..=MOST_BYTES {
            let status = if (1..=3).contains(&bytes) {
                0x9000
            } else {
                0x6A80
            };
            let what = format!("UPDATE BINARY, offset of {bytes} bytes: {status:04X}");
            wanted.push((what, self.updated(bytes, status)));
        }
        let [offset, number] = self.windows;
        wanted.push(("search with an offset of three bytes".to_string(), offset));
        wanted.push(("search with a number of three bytes".to_string(), number));
        let [largest, above] = self.moves;
        wanted.push(("moves to the largest room".to_string(), largest));
        wanted.push(("moves to one byte more".to_string(), above));
        let with_each = |(what, count)| (what, count, each);
        wanted.into_iter().map(with_each).collect()
    }

    /// What is counted of B1, and how often it occurred.
    fn wanted_reads(&self) -> Vec<(String, u64)> {
        let mut wanted = Vec::new();
        for (at, form) in FORMS.iter().enumerate() {
            for (which, limit) in LIMITS.iter().enumerate() {
                if possible(at, which) {
                    let count = self.reads_where(|_, form, limit| (form, limit) == (at, which));
                    wanted.push((format!("B1, length of {form}, limited by {limit}"), count));
                }
            }
        }
        for bytes in 1..=3 {
            let count = self.reads_where(|of_offset, _, _| of_offset == bytes);
            wanted.push((format!("B1, offset of {bytes} bytes"), count));
        }
        for ((name, _), count) in REACHES.iter().zip(self.reaches) {
            wanted.push((format!("B1, offset {name}"), count));
        }
        let [small, behind] = self.small;
        wanted.push(("B1, Ne under 3: 6700".to_string(), small));
        wanted.push(("B1, Ne under 3: 6B00".to_string(), behind));
        wanted
    }
}

/// Whether a reply whose length has this form can have this limit: 2,048 bytes have the longest.
fn possible(form: usize, limit: usize) -> bool {
    limit != 1 || form == 2
}

/// How many bytes a reply of so many file bytes has.
fn wrapped(bytes: usize) -> usize {
    1 + make::length(bytes).len() + bytes
}

/// How many file bytes a reply of this length has.
fn file_bytes(reply: usize) -> usize {
    (2..=4)
        .map(|head| reply.saturating_sub(head))
        .find(|bytes| wrapped(*bytes) == reply)
        .unwrap_or(0)
}

/// The form of the length of such a reply, as a place in [`FORMS`].
fn form(reply: usize) -> usize {
    make::length(file_bytes(reply)).len() - 1
}

/// What kept a reply from one byte more, as a place in [`LIMITS`].
fn limit(reply: usize, ne: usize) -> usize {
    let next = wrapped(file_bytes(reply) + 1);
    match next > ne.min(LONGEST_REPLY) {
        true => usize::from(ne > LONGEST_REPLY),
        false => 2,
    }
}

impl fmt::Display for BinaryTally {
    fn fmt(&self, f: &mut fmt::Formatter<'_>) -> fmt::Result {
        writeln!(f, "\n| B1, 9000: length of | {} |", LIMITS.join(" | "))?;
        writeln!(f, "|---|---|---|---|")?;
        for (at, name) in FORMS.iter().enumerate() {
            let of_limit = |which| self.reads_where(|_, form, limit| (form, limit) == (at, which));
            let counts = [0, 1, 2].map(|which| of_limit(which).to_string());
            writeln!(f, "| {name} | {} |", counts.join(" | "))?;
        }
        writeln!(
            f,
            "\n| bytes of the offset | B1, 9000 | UPDATE BINARY, 9000 | 6A80 | 6A84 |"
        )?;
        writeln!(f, "|---|---|---|---|---|")?;
        for bytes in 0..=MOST_BYTES {
            let reads = self.reads_where(|of_offset, _, _| of_offset == bytes);
            let updates = UPDATES.map(|status| self.updated(bytes, status).to_string());
            writeln!(f, "| {bytes} | {reads} | {} |", updates.join(" | "))?;
        }
        writeln!(f, "\n| B1, 9000: offset | times |\n|---|---|")?;
        for ((name, _), count) in REACHES.iter().zip(self.reaches) {
            writeln!(f, "| {name} | {count} |")?;
        }
        let [small, behind] = self.small;
        writeln!(
            f,
            "\nB1 with Ne under 3: {small} times 6700, {behind} times 6B00"
        )?;
        let [offset, number] = self.windows;
        writeln!(
            f,
            "windows of three bytes: {offset} offsets, {number} numbers"
        )?;
        let [largest, above] = self.moves;
        writeln!(
            f,
            "moves to the largest room: {largest}, to one byte more: {above}"
        )
    }
}
