//! How often each outcome occurred.

use crate::binary_tally::BinaryTally;
use crate::chain_tally::ChainTally;
use crate::command::NAMES;
use crate::cut_tally::CutTally;
use crate::extension_tally::ExtensionTally;
use crate::index_tally::IndexTally;
use crate::make::{self, MORE};
use crate::stamp_tally::StampTally;
use crate::step::{State, Step};
use crate::view;
use std::collections::BTreeMap;
use std::fmt;

/// All status words that the rules have.
pub const STATUSES: [u16; 15] = [
    0x6282, 0x6700, 0x6883, 0x6981, 0x6982, 0x6986, 0x6A80, 0x6A82, 0x6A83, 0x6A84, 0x6A86, 0x6B00,
    0x6D00, 0x6E00, 0x9000,
];

/// How a search may name its file.
const WAYS: [&str; 4] = ["id", "short id", "short id in b8 to b4", "other byte"];
/// The answers to them that are shown.
const SEARCH_STATUSES: [u16; 6] = [0x9000, 0x6282, 0x6700, 0x6981, 0x6982, 0x6A82];

/// What READ BINARY B1 may answer beside 9000 once it is known to be one.
const B1_STATUSES: [u16; 7] = [0x6700, 0x6981, 0x6982, 0x6986, 0x6A80, 0x6A82, 0x6B00];

/// No sort of chain is wanted more often than this: there are many, and the scene has each as often.
const CHAIN_MOST: u64 = 3;

/// What a move may be refused with.
pub const MOVE_REFUSALS: [u64; 5] = [2, 10, 11, 12, 13];

/// What may come of a reference.
const CERTIFICATES: [&str; 4] = ["refusal 9", "missing", "card", "desk"];
/// What the body of certificates may be like that a reference is looked up in.
const FORMS: [&str; 4] = ["damaged", "empty", "full", "other"];

/// Where a link but the last belongs, whatever its command is.
const LINK: usize = NAMES.len();
/// Where a command belongs that has none of the nine pairs of CLA and INS.
const OTHER: usize = LINK + 1;

#[derive(Default)]
pub struct Tally {
    pub commands: u64,
    pub opens: u64,
    pub moves: u64,
    /// By command (its place in [`NAMES`]) and status.
    statuses: BTreeMap<(usize, u16), u64>,
    /// Searches by how they name their file (its place in [`WAYS`]) and status.
    searches: BTreeMap<(usize, u16), u64>,
    /// Of commands and openings.
    refusals: [u64; 5],
    /// Moves by refusal, 0 for those that were done.
    moved: BTreeMap<u64, u64>,
    /// Files that were not there, and those that were.
    files: [u64; 2],
    /// References by what came of them (its place in [`CERTIFICATES`]).
    certificates: [u64; 4],
    /// Steps with references, by the card's body and the desk's (their places in [`FORMS`]).
    bodies: [[u64; 4]; 4],
    /// Calls by reference, without those that were refused.
    references: BTreeMap<u8, u64>,
    pub binary: BinaryTally,
    pub chain: ChainTally,
    pub cut: CutTally,
    pub index: IndexTally,
    pub stamp: StampTally,
    pub extension: ExtensionTally,
}

impl Tally {
    pub fn calls(&self) -> u64 {
        let files: u64 = self.files.iter().sum();
        let certificates: u64 = self.certificates.iter().sum();
        let readings = self.stamp.calls() + self.extension.calls();
        let others = self.cut.calls() + files + certificates + self.index.calls() + readings;
        self.commands + self.opens + self.moves + others
    }

    /// Counts a step by what was held before it and by the results of its calls; an image or a
    /// session has none.
    pub fn step(&mut self, step: &Step, before: &State, results: &[u64]) {
        if let Step::Certificates { card, desk, .. } = step {
            self.bodies[form(card)][form(desk)] += 1;
        }
        self.binary.step(step, results);
        self.chain.step(step, before, results);
        self.cut.step(step, results);
        self.index.step(step, results);
        self.stamp.step(step, results);
        self.extension.step(step, results);
        for (at, result) in results.iter().enumerate() {
            self.call(step, at, *result);
        }
    }

    /// Counts one call of a step.
    fn call(&mut self, step: &Step, at: usize, result: u64) {
        match step {
            Step::Open(_) => {
                self.opens += 1;
                self.refusal(result);
            }
            Step::Command { command, .. } => self.command(command, result),
            Step::Move { .. } => {
                self.moves += 1;
                *self.moved.entry(result >> 32).or_default() += 1;
            }
            Step::File(_) => self.files[usize::from(result != 0)] += 1,
            Step::Certificates { first, .. } => self.certificate(first + at as u8, result),
            // Cuts, indexes, stamps and extensions have tallies of their own.
            Step::Image(_)
            | Step::Session(_)
            | Step::Cut { .. }
            | Step::Index { .. }
            | Step::Stamp { .. }
            | Step::Rights { .. } => {}
        }
    }

    fn certificate(&mut self, reference: u8, result: u64) {
        if result >> 32 != 0 {
            self.certificates[0] += 1;
            return;
        }
        let which = (result >> 28) as usize;
        self.certificates[1 + which] += 1;
        *self.references.entry(reference).or_default() += 1;
    }

    fn command(&mut self, command: &[u8], result: u64) {
        self.commands += 1;
        self.refusal(result);
        if result >> 32 == 0 {
            let key = (place(command), result as u16);
            *self.statuses.entry(key).or_default() += 1;
            if let Some(way) = search_way(command) {
                let key = (way, result as u16);
                *self.searches.entry(key).or_default() += 1;
            }
        }
    }

    fn searched(&self, way: usize, status: u16) -> u64 {
        let key = (way, status);
        self.searches.get(&key).copied().unwrap_or(0)
    }

    fn refusal(&mut self, result: u64) {
        let number = (result >> 32) as usize;
        if let Some(count) = self.refusals.get_mut(number) {
            *count += 1;
        }
    }

    fn count(&self, place: usize, status: u16) -> u64 {
        self.statuses.get(&(place, status)).copied().unwrap_or(0)
    }

    fn total(&self, status: u16) -> u64 {
        (0..=OTHER).map(|place| self.count(place, status)).sum()
    }

    /// How many moves ended with this refusal, or were done (0).
    pub fn moved(&self, refusal: u64) -> u64 {
        self.moved.get(&refusal).copied().unwrap_or(0)
    }

    /// What occurred too seldom: each status, each refusal, 9000 of each command, 9000 of a
    /// search by an id and by either spelling of a short id, 6981 of the last two, 6A82 of a search by
    /// another byte, each status and each sort of READ BINARY B1, offsets and windows of three bytes,
    /// moves to the largest room, moves done, files found and not, what comes of a reference, bodies
    /// that are damaged, empty or full, each of the 256 references, each sort of chain, cuts by where
    /// they fall, each sort of call of an index, each fault of a stamp at each place, each fault of an extension.
    pub fn missing(&self, each: u64, done: u64) -> Vec<String> {
        let moves = MOVE_REFUSALS.iter().map(|number| {
            let what = format!("refusal {number} of a move");
            (what, self.moved(*number), each)
        });
        let moved = [("moves done".to_string(), self.moved(0), done)];
        self.wanted_commands(each, done)
            .into_iter()
            .chain(moves)
            .chain(moved)
            .chain(self.wanted_files_and_certificates(each, done))
            .chain(self.binary.wanted(each))
            .chain(self.chain.wanted(each.min(CHAIN_MOST)))
            .chain(self.cut.wanted(each))
            .chain(self.index.wanted(each, done))
            .chain(self.stamp.wanted(each, done))
            .chain(self.extension.wanted(each, done))
            .filter(|(_, count, wanted)| count < wanted)
            .map(|(what, count, wanted)| format!("{what}: {count} times, {wanted} wanted"))
            .collect()
    }

    /// What is counted of commands and openings, how often it occurred and how often it should.
    fn wanted_commands(&self, each: u64, done: u64) -> Vec<(String, u64, u64)> {
        let mut wanted = Vec::new();
        for status in STATUSES {
            wanted.push((format!("status {status:04X}"), self.total(status), each));
        }
        for (number, count) in self.refusals.iter().enumerate().skip(1) {
            wanted.push((format!("refusal {number}"), *count, each));
        }
        for (place, (_, name, ..)) in NAMES.iter().enumerate() {
            wanted.push((format!("{name} 9000"), self.count(place, 0x9000), done));
        }
        for status in B1_STATUSES {
            let count = self.count(place(&[0x00, 0xB1]), status);
            wanted.push((format!("READ BINARY B1 {status:04X}"), count, each));
        }
        for (way, status, least) in [
            (0, 0x9000, done),
            (1, 0x9000, done),
            (2, 0x9000, done),
            (1, 0x6981, each),
            (2, 0x6981, each),
            (3, 0x6A82, done),
        ] {
            let what = format!("search by {}: {status:04X}", WAYS[way]);
            wanted.push((what, self.searched(way, status), least));
        }
        wanted
    }

    /// What is counted of files and certificates, how often it occurred and how often it should.
    fn wanted_files_and_certificates(&self, each: u64, done: u64) -> Vec<(String, u64, u64)> {
        let [absent, found] = self.files;
        let mut wanted = vec![
            ("files not found".to_string(), absent, done),
            ("files found".to_string(), found, done),
        ];
        for (what, count) in CERTIFICATES.iter().zip(self.certificates) {
            wanted.push((format!("certificates, {what}"), count, done));
        }
        for (at, form) in FORMS.iter().enumerate() {
            let card = self.bodies[at].iter().sum();
            let desk = self.bodies.iter().map(|desks| desks[at]).sum();
            wanted.push((format!("the card's body {form}"), card, each));
            wanted.push((format!("the desk's body {form}"), desk, each));
            wanted.push((format!("both bodies {form}"), self.bodies[at][at], each));
        }
        for reference in 0x00..=0xFF {
            let count = self.references.get(&reference).copied().unwrap_or(0);
            wanted.push((format!("reference {reference:02X}"), count, 1));
        }
        wanted
    }
}

/// What a body of certificates is like, as a place in [`FORMS`].
fn form(body: &[u8]) -> usize {
    // The other body is well formed, so that a refusal is this one's.
    let damaged = reference::certificate(body, &[0, 0], 1) >> 32 != 0;
    let rule = make::travel_certificates();
    match view::records(rule, body).len() {
        _ if damaged => 0,
        0 => 1,
        count if count == rule.most => 2,
        _ => 3,
    }
}

/// The command's place in [`NAMES`], by CLA and INS; one place for all links but the last.
fn place(command: &[u8]) -> usize {
    let Some((cla, ins)) = command.first().zip(command.get(1)) else {
        return OTHER;
    };
    let known = |class: u8| {
        NAMES
            .iter()
            .position(|(_, _, c, i)| *c == class && i == ins)
    };
    match known(cla & !MORE) {
        Some(_) if cla & MORE != 0 => LINK,
        Some(place) => place,
        None => OTHER,
    }
}

/// How a SEARCH RECORD names its file, as a place in [`WAYS`]; none where it is not written as
/// a search is.
fn search_way(command: &[u8]) -> Option<usize> {
    let (header, body) = command.split_at_checked(5)?;
    if place(header) != place(&[0x00, 0xA2]) {
        return None;
    }
    let data = if header[4] == 0 { body.get(2..)? } else { body };
    let inside = match data.strip_prefix(&[0x7F, 0x76])? {
        [0x82, ..] => data.get(5..)?,
        [0x81, ..] => data.get(4..)?,
        _ => data.get(3..)?,
    };
    match inside {
        [0x51, 2, ..] => Some(0),
        [0x51, 1, 0x01 | 0x02 | 0x03 | 0x1A | 0x1E, ..] => Some(1),
        [0x51, 1, 0x08 | 0x10 | 0x18 | 0xD0 | 0xF0, ..] => Some(2),
        [0x51, 1, ..] => Some(3),
        _ => None,
    }
}

impl fmt::Display for Tally {
    fn fmt(&self, f: &mut fmt::Formatter<'_>) -> fmt::Result {
        let Self {
            commands,
            opens,
            moves,
            ..
        } = self;
        let files: u64 = self.files.iter().sum();
        let certificates: u64 = self.certificates.iter().sum();
        let cuts = self.cut.calls();
        write!(f, "{commands} commands, {cuts} cuts, ")?;
        write!(f, "{opens} openings, {moves} moves, ")?;
        let (index, stamps) = (self.index.calls(), self.stamp.calls());
        let rights = self.extension.calls();
        write!(f, "{files} files, {certificates} certificates, ")?;
        writeln!(f, "{index} index calls, {stamps} stamps, {rights} rights\n")?;
        write!(f, "| status |")?;
        let names = NAMES.iter().map(|(_, name, ..)| *name);
        for name in names.chain(["a link", "other", "all"]) {
            write!(f, " {name} |")?;
        }
        write!(f, "\n|---|")?;
        for _ in 0..OTHER + 2 {
            write!(f, "---|")?;
        }
        for status in STATUSES {
            write!(f, "\n| {status:04X} |")?;
            for place in 0..=OTHER {
                write!(f, " {} |", self.count(place, status))?;
            }
            write!(f, " {} |", self.total(status))?;
        }
        writeln!(f, "\n")?;
        write!(f, "| a search by |")?;
        for status in SEARCH_STATUSES {
            write!(f, " {status:04X} |")?;
        }
        writeln!(f, "\n|---|---|---|---|---|---|---|")?;
        for (way, name) in WAYS.iter().enumerate() {
            write!(f, "| {name} |")?;
            for status in SEARCH_STATUSES {
                write!(f, " {} |", self.searched(way, status))?;
            }
            writeln!(f)?;
        }
        writeln!(f, "\n| refusal | times |\n|---|---|")?;
        for (number, count) in self.refusals.iter().enumerate() {
            writeln!(f, "| {number} | {count} |")?;
        }
        writeln!(f, "\n| move | times |\n|---|---|")?;
        writeln!(f, "| done | {} |", self.moved(0))?;
        for number in MOVE_REFUSALS {
            writeln!(f, "| refusal {number} | {} |", self.moved(number))?;
        }
        self.show_files_and_certificates(f)?;
        write!(f, "{}{}", self.binary, self.chain)?;
        write!(f, "{}{}", self.cut, self.index)?;
        write!(f, "{}{}", self.stamp, self.extension)
    }
}

impl Tally {
    fn show_files_and_certificates(&self, f: &mut fmt::Formatter<'_>) -> fmt::Result {
        let [absent, found] = self.files;
        writeln!(f, "\n| file | times |\n|---|---|")?;
        writeln!(f, "| found | {found} |\n| not found | {absent} |")?;
        writeln!(f, "\n| certificate | times |\n|---|---|")?;
        for (what, count) in CERTIFICATES.iter().zip(self.certificates) {
            writeln!(f, "| {what} | {count} |")?;
        }
        writeln!(f, "\n| the card's body | desk's {} |", FORMS.join(" | "))?;
        writeln!(f, "|---|---|---|---|---|")?;
        for (form, desks) in FORMS.iter().zip(self.bodies) {
            writeln!(
                f,
                "| {form} | {} |",
                desks.map(|n| n.to_string()).join(" | ")
            )?;
        }
        let (asked, seldom) = (self.references.len(), self.references.values().min());
        let seldom = seldom.copied().unwrap_or(0);
        writeln!(
            f,
            "\n{asked} of 256 references, each {seldom} times or more"
        )
    }
}
