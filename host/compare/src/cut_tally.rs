//! How often cuts fell where: before and behind which of a command's stores; and how often a file
//! was used again whose append was cut.

use crate::step::Step;
use std::fmt;

/// Where the cut of an append falls: behind the last store that was made, and whether more were
/// asked for than there are.
const APPENDS: [&str; 8] = [
    "no store",
    "the length's low byte",
    "the length's high byte",
    "a byte of the record",
    "its last byte",
    "the count's high byte",
    "all",
    "beyond",
];
/// The same of ACTIVATE.
const ACTIVATIONS: [&str; 3] = ["no store", "all", "beyond"];
/// The commands that have no store: neither of the two, and each of the two answered otherwise.
const WITHOUT: [&str; 3] = ["another command", "an append not done", "ACTIVATE not done"];
/// What a cut may be refused with.
const REFUSALS: [u64; 2] = [2, 4];
/// What comes behind a cut append that has left something in the free room of its file.
const BEHIND: [&str; 2] = ["an append to the file", "another cut append to it"];

const APPEND: [u8; 2] = [0x00, 0xE2];
const ACTIVATE: [u8; 2] = [0x00, 0x44];
/// The stores of an append beside the bytes of the record.
const MORE: u64 = 4;
/// Cuts of appends that have a length of two bytes, and of others.
const LENGTHS: [&str; 2] = ["a length of one byte", "a length of two bytes"];

#[derive(Default)]
pub struct CutTally {
    /// By where they fall (its place in [`APPENDS`]) and the length (its place in [`LENGTHS`]).
    appends: [[u64; 2]; 8],
    activations: [u64; 3],
    without: [u64; 3],
    /// By refusal (its place in [`REFUSALS`]).
    refusals: [u64; 2],
    /// What came next of a file with a torn record (its place in [`BEHIND`]).
    behind: [u64; 2],
    /// Cuts with the largest number there is.
    largest: u64,
    /// P2 of the last append that was cut amid its stores, while its file is not used otherwise.
    torn: Option<u8>,
}

impl CutTally {
    pub fn calls(&self) -> u64 {
        let appends: u64 = self.appends.iter().flatten().sum();
        let others = [&self.activations[..], &self.without, &self.refusals];
        appends + others.into_iter().flatten().sum::<u64>()
    }

    /// Counts a step by the results of its calls. Commands count as far as they use a file with a
    /// torn record.
    pub fn step(&mut self, step: &Step, results: &[u64]) {
        match (step, results) {
            (Step::Cut { stores, command }, [result]) => {
                self.largest += u64::from(*stores == usize::MAX);
                self.cut(*stores as u64, command, *result);
            }
            (Step::Command { command, .. }, [result]) if *result as u32 as u16 == 0x9000 => {
                self.command(command);
            }
            (Step::Image(_) | Step::Open(_) | Step::Move { .. }, _) => self.torn = None,
            _ => {}
        }
    }

    /// A command that was answered 9000.
    fn command(&mut self, command: &[u8]) {
        if command.starts_with(&APPEND) {
            self.behind[0] += u64::from(self.is_torn(command));
            self.torn = None;
        } else if command.starts_with(&[0x00, 0xA4]) {
            // The same P2 may then mean another file.
            self.torn = None;
        }
    }

    fn is_torn(&self, append: &[u8]) -> bool {
        self.torn.is_some() && self.torn == append.get(3).copied()
    }

    fn cut(&mut self, stores: u64, command: &[u8], result: u64) {
        let (append, activate) = (command.starts_with(&APPEND), command.starts_with(&ACTIVATE));
        match (result >> 32, result) {
            (0, 0) => self.without[if append { 1 } else { 2 * usize::from(activate) }] += 1,
            (0, all) if append => self.append(stores, all, command),
            (0, _) => self.activations[stores.min(2) as usize] += 1,
            (number, _) => {
                if let Some(at) = REFUSALS.iter().position(|known| *known == number) {
                    self.refusals[at] += 1;
                }
            }
        }
    }

    /// An append that has so many stores in all.
    fn append(&mut self, stores: u64, all: u64, command: &[u8]) {
        let length = all.saturating_sub(MORE);
        self.appends[place(stores, length)][usize::from(length > 0xFF)] += 1;
        if (1..all).contains(&stores) {
            self.behind[1] += u64::from(self.is_torn(command));
            // Short id 0 is the current file, which may be another one later.
            self.torn = command.get(3).copied().filter(|p2| *p2 != 0);
        } else if stores >= all {
            self.torn = None;
        }
    }

    /// What is counted, how often it occurred and how often it should.
    pub fn wanted(&self, each: u64) -> Vec<(String, u64, u64)> {
        let mut wanted = Vec::new();
        for (what, counts) in APPENDS.iter().zip(self.appends) {
            wanted.push((format!("an append cut: {what}"), counts.iter().sum(), each));
        }
        for (at, what) in LENGTHS.iter().enumerate() {
            let count = self.appends.iter().map(|counts| counts[at]).sum();
            wanted.push((format!("an append cut: {what}"), count, each));
        }
        for (what, count) in ACTIVATIONS.iter().zip(self.activations) {
            wanted.push((format!("ACTIVATE cut: {what}"), count, each));
        }
        for (what, count) in WITHOUT.iter().zip(self.without) {
            wanted.push((format!("cut: {what}"), count, each));
        }
        for (number, count) in REFUSALS.iter().zip(self.refusals) {
            wanted.push((format!("refusal {number} of a cut"), count, each));
        }
        for (what, count) in BEHIND.iter().zip(self.behind) {
            wanted.push((format!("behind a cut append: {what}"), count, each));
        }
        wanted.push((
            "a cut behind the largest number".to_string(),
            self.largest,
            each,
        ));
        wanted
    }
}

/// Where a cut behind so many stores falls in an append of `length` bytes, as a place in
/// [`APPENDS`]. A record of one byte has that as its last.
fn place(stores: u64, length: u64) -> usize {
    match stores {
        0..=2 => stores as usize,
        _ if stores < length + 2 => 3,
        _ if stores == length + 2 => 4,
        _ if stores == length + 3 => 5,
        _ if stores == length + MORE => 6,
        _ => 7,
    }
}

impl fmt::Display for CutTally {
    fn fmt(&self, f: &mut fmt::Formatter<'_>) -> fmt::Result {
        writeln!(f, "\n| an append cut behind | {} |", LENGTHS.join(" | "))?;
        writeln!(f, "|---|---|---|")?;
        for (what, [short, long]) in APPENDS.iter().zip(self.appends) {
            writeln!(f, "| {what} | {short} | {long} |")?;
        }
        writeln!(f, "\n| ACTIVATE cut behind | times |\n|---|---|")?;
        for (what, count) in ACTIVATIONS.iter().zip(self.activations) {
            writeln!(f, "| {what} | {count} |")?;
        }
        writeln!(f, "\n| a cut that does nothing | times |\n|---|---|")?;
        for (what, count) in WITHOUT.iter().zip(self.without) {
            writeln!(f, "| {what} | {count} |")?;
        }
        for (number, count) in REFUSALS.iter().zip(self.refusals) {
            writeln!(f, "| refusal {number} | {count} |")?;
        }
        let [appended, cut] = self.behind;
        write!(
            f,
            "\nbehind a cut append: {appended} times an append to the file, "
        )?;
        writeln!(f, "{cut} times another that was cut")?;
        writeln!(f, "cuts behind the largest number: {}", self.largest)
    }
}
