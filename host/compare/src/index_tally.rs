//! How often each sort of call of an index occurred.

use crate::index;
use crate::make::{self, Rule, LONGEST_IMAGE, RULES};
use crate::sort::{self, Op, Sort, SORTS};
use crate::step::{IndexCall, Step};
use crate::view;
use std::collections::BTreeMap;
use std::fmt;

/// The bodies that an index is built from without a refusal.
const BODIES: [&str; 3] = ["empty", "full", "other"];
/// The lists that records are read by.
const LISTS: [&str; 6] = [
    "the body's places",
    "the body's places and more entries",
    "one place changed",
    "one place changed, inside a record",
    "no place",
    "other places",
];

#[derive(Default)]
pub struct IndexTally {
    sorts: BTreeMap<(Op, Sort), u64>,
    /// Indexes that were built, and that were extended, by the place of the kind in [`RULES`].
    kinds: [[u64; 2]; 6],
    /// Indexes that were built, by the body (its place in [`BODIES`]).
    bodies: [u64; 3],
    /// Calls with a body that is longer than any image.
    pub long_bodies: u64,
    /// Steps that read, by the list (its place in [`LISTS`]).
    lists: [u64; 6],
    /// Indexes that were extended right after an append to the card.
    followed: u64,
    /// Records that an index has read and then READ RECORD.
    read_again: u64,
    /// Whether the last call was an append that was answered 9000.
    appended: bool,
}

impl IndexTally {
    pub fn calls(&self) -> u64 {
        self.sorts.values().sum()
    }

    fn count(&self, op: Op, sort: Sort) -> u64 {
        self.sorts.get(&(op, sort)).copied().unwrap_or(0)
    }

    /// Counts a step by the results of its calls. Steps of other calls count as far as an index
    /// is kept beside them.
    pub fn step(&mut self, step: &Step, results: &[u64]) {
        match step {
            Step::Index { call, places, body } => self.calls_of(*call, places, body, results),
            Step::Command {
                command, record, ..
            } => {
                let done = results.iter().all(|result| *result as u16 == 0x9000);
                self.appended = done && command.starts_with(&[0x00, 0xE2]);
                self.read_again += u64::from(record.is_some());
            }
            _ => {}
        }
    }

    fn calls_of(&mut self, call: IndexCall, places: &[u32], body: &[u8], results: &[u64]) {
        for at in 0..results.len() {
            let key = sort::sort(call, places, body, at);
            *self.sorts.entry(key).or_default() += 1;
        }
        self.long_bodies += u64::from(body.len() > LONGEST_IMAGE);
        let done = results.iter().all(|result| result >> 32 == 0);
        match call {
            IndexCall::Build { kind } if done => {
                self.kind(kind, 0);
                self.bodies[body_form(kind, body)] += 1;
            }
            IndexCall::Extend { kind, .. } if done => {
                self.kind(kind, 1);
                self.followed += u64::from(self.appended);
            }
            IndexCall::Read { .. } => self.lists[list_form(places, body)] += 1,
            IndexCall::Build { .. } | IndexCall::Extend { .. } => {}
        }
        self.appended = false;
    }

    fn kind(&mut self, kind: u16, call: usize) {
        if let Some(at) = RULES.iter().position(|rule| rule.kind == kind) {
            self.kinds[at][call] += 1;
        }
    }

    /// What is counted, how often it occurred and how often it should.
    pub fn wanted(&self, each: u64, done: u64) -> Vec<(String, u64, u64)> {
        let mut wanted = vec![
            ("extended after an append".to_string(), self.followed, done),
            (
                "read by an index and again".to_string(),
                self.read_again,
                done,
            ),
        ];
        for (op, sorts) in SORTS {
            for sort in sorts {
                let what = format!("{}: {}", op.name(), sort.name());
                wanted.push((what, self.count(op, *sort), each));
            }
        }
        for (rule, [built, extended]) in RULES.iter().zip(self.kinds) {
            wanted.push((format!("{:04X} built", rule.kind), built, each));
            wanted.push((format!("{:04X} extended", rule.kind), extended, each));
        }
        for (form, count) in BODIES.iter().zip(self.bodies) {
            wanted.push((format!("built from a body {form}"), count, each));
        }
        for (form, count) in LISTS.iter().zip(self.lists) {
            wanted.push((format!("read by {form}"), count, each));
        }
        wanted
    }
}

/// What a body is like that an index was built from, as a place in [`BODIES`].
fn body_form(kind: u16, body: &[u8]) -> usize {
    let count = view::count(body);
    let full = |rule: &Rule| rule.kind == kind && rule.most == count;
    match count {
        0 => 0,
        _ if RULES.iter().any(full) => 1,
        _ => 2,
    }
}

/// What a list is like that records of this body are read by, as a place in [`LISTS`].
fn list_form(list: &[u32], body: &[u8]) -> usize {
    let rule = make::travel_certificates();
    let places = index::places(rule, body);
    if list.is_empty() {
        return 4;
    }
    if places.is_empty() {
        return 5;
    }
    if let Some(more) = list.strip_prefix(&places[..]) {
        return usize::from(!more.is_empty());
    }
    let pairs = list.iter().zip(&places);
    let changed: Vec<u32> = pairs.filter(|(a, b)| a != b).map(|(a, _)| *a).collect();
    match changed[..] {
        [place] if list.len() == places.len() => {
            let records = view::records(rule, body);
            let inside = records
                .iter()
                .any(|record| record.contains(&(place as usize)));
            2 + usize::from(inside)
        }
        _ => 5,
    }
}

impl fmt::Display for IndexTally {
    fn fmt(&self, f: &mut fmt::Formatter<'_>) -> fmt::Result {
        writeln!(f, "\n| index | call | times |\n|---|---|---|")?;
        for ((op, sort), count) in &self.sorts {
            writeln!(f, "| {} | {} | {count} |", op.name(), sort.name())?;
        }
        writeln!(f, "\n| kind | built | extended |\n|---|---|---|")?;
        for (rule, [built, extended]) in RULES.iter().zip(self.kinds) {
            writeln!(f, "| {:04X} | {built} | {extended} |", rule.kind)?;
        }
        writeln!(f, "\n| built from a body | times |\n|---|---|")?;
        for (form, count) in BODIES.iter().zip(self.bodies) {
            writeln!(f, "| {form} | {count} |")?;
        }
        writeln!(f, "\n| read by | times |\n|---|---|")?;
        for (form, count) in LISTS.iter().zip(self.lists) {
            writeln!(f, "| {form} | {count} |")?;
        }
        let Self {
            long_bodies,
            followed,
            read_again,
            ..
        } = self;
        writeln!(
            f,
            "\n{long_bodies} bodies longer than an image, {followed} indexes extended after an \
             append, {read_again} records read by an index and by READ RECORD"
        )
    }
}
