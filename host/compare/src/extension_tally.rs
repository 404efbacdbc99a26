//! How often each sort of reading of rights occurred.

use crate::extension::{which, KNOWN, ORDERS, RUNS};
use crate::extension_faults::{Part, BAD, PARTS, SECOND};
use crate::extension_sort::{self, walk, Seen, Walk, What};
use crate::make::RIGHTS_LEN;
use crate::step::Step;
use std::collections::BTreeMap;
use std::fmt;

/// What may come of a reading, by its refusal.
pub const REFUSALS: [u64; 4] = [0, 1, 7, 8];
/// The place of the extension at fault in its run.
const NUMBERS: [&str; 4] = ["first", "second", "third", "later"];
/// The identifiers of unknown ones, beside those of known ones.
const IDENTIFIERS: [&str; 4] = ["of no byte", "shorter", "as long", "longer"];
/// The sizes that the rights of unknown ones have at most, above the one before.
const SIZES: [usize; 8] = [0, 1, 16, 17, 127, 255, 32_767, 65_535];
/// How many bytes the lengths of `73`, `06` and `53` have.
const FORMS: [usize; 3] = [1, 2, 3];
/// The refusals of two faults, one behind the other.
const PAIRS: [(u64, u64); 4] = [(BAD, BAD), (BAD, SECOND), (SECOND, BAD), (SECOND, SECOND)];
/// A run of more bytes than a length of two bytes can say.
const LONG_RUN: usize = 65_536;

#[derive(Default)]
pub struct ExtensionTally {
    /// By refusal.
    results: BTreeMap<u64, u64>,
    /// The first fault: by refusal and run; by refusal and place in [`NUMBERS`]; by what is wrong.
    runs: BTreeMap<(u64, usize), u64>,
    numbers: BTreeMap<(u64, usize), u64>,
    faults: BTreeMap<What, u64>,
    /// A further fault: both refusals true of one extension; another one behind it in its run, by
    /// the refusals of the two; another run that is at fault, too.
    both: u64,
    behind: BTreeMap<(u64, u64), u64>,
    other_runs: u64,
    /// Runs of what was accepted: by the order of the known ones (its place in [`ORDERS`]); those
    /// with unknown ones among them; those that are long.
    orders: [u64; 16],
    mixed: u64,
    long_runs: u64,
    /// Unknown ones: by identifier (its place in [`IDENTIFIERS`]) and by size (in [`SIZES`]).
    identifiers: [u64; 4],
    sizes: [u64; 8],
    /// Extensions without a fault, by how many bytes the length has: that of `73`, of `06` and of
    /// `53`.
    forms: [[u64; 3]; 3],
    /// Buffers that are too short, by their length; those just long enough, and longer ones.
    short_buffers: BTreeMap<usize, u64>,
    buffers: [u64; 2],
}

impl ExtensionTally {
    pub fn calls(&self) -> u64 {
        self.results.values().sum()
    }

    /// How often a reading ended with this refusal, or was accepted (0).
    pub fn ended(&self, refusal: u64) -> u64 {
        count(&self.results, refusal)
    }

    /// How often this was the first fault.
    pub fn fault(&self, what: What) -> u64 {
        count(&self.faults, what)
    }

    /// Counts a step by its result; one that reads no rights counts not.
    pub fn step(&mut self, step: &Step, results: &[u64]) {
        let (Step::Rights { runs, room }, [result]) = (step, results) else {
            return;
        };
        *self.results.entry(result >> 32).or_default() += 1;
        match room {
            ..RIGHTS_LEN => *self.short_buffers.entry(*room).or_default() += 1,
            _ => self.buffers[usize::from(*room > RIGHTS_LEN)] += 1,
        }
        let walks = runs.each_ref().map(|run| walk(run));
        match result >> 32 {
            0 => walks.iter().for_each(|walk| self.run(&walk.seen)),
            1 => {}
            _ => self.first_fault(&walks),
        }
        let long = runs.iter().filter(|run| run.len() >= LONG_RUN);
        self.long_runs += long.count() as u64;
    }

    fn first_fault(&mut self, walks: &[Walk<'_>; RUNS]) {
        let found = walks.iter().map(|walk| walk.found).enumerate();
        let mut found = found.filter_map(|(run, found)| Some((run, found?)));
        let Some((run, first)) = found.next() else {
            return;
        };
        let refusal = first.what.refusal();
        let number = first.number.min(NUMBERS.len() - 1);
        *self.runs.entry((refusal, run)).or_default() += 1;
        *self.numbers.entry((refusal, number)).or_default() += 1;
        *self.faults.entry(first.what).or_default() += 1;
        self.both += u64::from(first.also_second);
        if let Some(second) = first.behind {
            let pair = (refusal, second.refusal());
            *self.behind.entry(pair).or_default() += 1;
        }
        self.other_runs += u64::from(found.next().is_some());
    }

    /// Counts a run of what was accepted.
    fn run(&mut self, seen: &[Seen<'_>]) {
        let order: Vec<usize> = seen
            .iter()
            .filter_map(|one| which(one.identifier))
            .collect();
        let place = ORDERS.iter().position(|known| **known == order);
        self.orders[place.expect("no known one is seen twice")] += 1;
        self.mixed += u64::from(!order.is_empty() && order.len() < seen.len());
        for one in seen {
            let lengths = [one.inside, one.identifier.len(), one.rights.len()];
            for (forms, length) in self.forms.iter_mut().zip(lengths) {
                forms[form(length)] += 1;
            }
            if which(one.identifier).is_none() {
                self.identifiers[identifier_form(one.identifier.len())] += 1;
                let size = SIZES.iter().position(|most| one.rights.len() <= *most);
                self.sizes[size.expect("no length is above 65,535")] += 1;
            }
        }
    }

    /// What is counted, how often it occurred and how often it should.
    pub fn wanted(&self, each: u64, done: u64) -> Vec<(String, u64, u64)> {
        let mut wanted = vec![
            ("7 and 8 of one extension".to_string(), self.both, each),
            ("faults in two runs".to_string(), self.other_runs, each),
            ("unknown among known".to_string(), self.mixed, done),
            ("long runs".to_string(), self.long_runs, 1),
        ];
        for refusal in REFUSALS {
            let what = format!("rights with refusal {refusal}");
            wanted.push((what, self.ended(refusal), done));
        }
        for what in extension_sort::all() {
            wanted.push((what.name(), self.fault(what), each / 3));
        }
        for (entries, count) in self.orders.iter().enumerate() {
            wanted.push((format!("order {:?}", ORDERS[entries]), *count, each));
        }
        for length in 0..RIGHTS_LEN {
            let what = format!("a buffer of {length} bytes");
            wanted.push((what, count(&self.short_buffers, length), 1));
        }
        wanted.extend(self.wanted_places(each));
        wanted.extend(self.wanted_forms(each));
        wanted
    }

    /// Where the first fault is. Nothing can stand for the second time in the first place.
    fn wanted_places(&self, each: u64) -> Vec<(String, u64, u64)> {
        let mut wanted = Vec::new();
        for refusal in [7, 8] {
            for run in 0..RUNS {
                let what = format!("refusal {refusal} in run {}", run + 1);
                wanted.push((what, count(&self.runs, (refusal, run)), each));
            }
            for (number, name) in NUMBERS.iter().enumerate().skip(refusal as usize - 7) {
                let what = format!("refusal {refusal} of the {name} extension");
                wanted.push((what, count(&self.numbers, (refusal, number)), each));
            }
        }
        for (first, second) in PAIRS {
            let what = format!("refusal {second} behind refusal {first}");
            wanted.push((what, count(&self.behind, (first, second)), each / 3));
        }
        wanted
    }

    fn wanted_forms(&self, each: u64) -> Vec<(String, u64, u64)> {
        let identifiers = IDENTIFIERS.iter().zip(self.identifiers);
        let identifiers = identifiers.map(|(name, n)| (format!("unknown, {name}"), n, each));
        let sizes = SIZES.iter().zip(self.sizes);
        let sizes = sizes.map(|(most, n)| (format!("unknown, rights up to {most}"), n, 1));
        let forms = PARTS.into_iter().zip(self.forms);
        let forms = forms.flat_map(|(part, counts)| wanted_lengths(part, counts, each));
        let buffers = ["just long enough", "longer"].iter().zip(self.buffers);
        let buffers = buffers.map(|(name, n)| (format!("buffers {name}"), n, each));
        identifiers
            .chain(sizes)
            .chain(forms)
            .chain(buffers)
            .collect()
    }
}

/// How often the lengths of a part should have so many bytes. No made-up identifier is long: only
/// the scene has such.
fn wanted_lengths(part: Part, counts: [u64; 3], each: u64) -> [(String, u64, u64); 3] {
    let wanted = match part {
        Part::Extension => each,
        Part::Identifier => 1,
        Part::Rights => each / 3,
    };
    std::array::from_fn(|at| {
        let what = format!("{} with a length of {}", part.name(), FORMS[at]);
        (what, counts[at], wanted)
    })
}

fn count<K: Ord>(counts: &BTreeMap<K, u64>, key: K) -> u64 {
    counts.get(&key).copied().unwrap_or(0)
}

/// How long an identifier is, as a place in [`IDENTIFIERS`].
fn identifier_form(length: usize) -> usize {
    match length {
        0 => 0,
        1..8 => 1,
        8 => 2,
        _ => 3,
    }
}

/// How many bytes the length of so many bytes has, as a place in [`FORMS`].
fn form(inside: usize) -> usize {
    match inside {
        ..0x80 => 0,
        0x80..0x100 => 1,
        _ => 2,
    }
}

impl fmt::Display for ExtensionTally {
    fn fmt(&self, f: &mut fmt::Formatter<'_>) -> fmt::Result {
        self.write_results(f)?;
        self.write_faults(f)?;
        self.write_runs(f)
    }
}

/// The tables, one after the other.
impl ExtensionTally {
    /// What came of the readings, and where the first fault was.
    fn write_results(&self, f: &mut fmt::Formatter<'_>) -> fmt::Result {
        writeln!(f, "\n| rights | times |\n|---|---|")?;
        writeln!(f, "| read | {} |", self.ended(0))?;
        for refusal in &REFUSALS[1..] {
            writeln!(f, "| refusal {refusal} | {} |", self.ended(*refusal))?;
        }
        write!(f, "\n| first fault | run 1 | run 2 | run 3 |")?;
        writeln!(f, " {} extension |", NUMBERS.join(" | "))?;
        writeln!(f, "|---|---|---|---|---|---|---|---|")?;
        for refusal in [7, 8] {
            let runs = (0..RUNS).map(|run| count(&self.runs, (refusal, run)));
            let numbers = (0..NUMBERS.len()).map(|at| count(&self.numbers, (refusal, at)));
            let cells: Vec<String> = runs.chain(numbers).map(|n| n.to_string()).collect();
            writeln!(f, "| refusal {refusal} | {} |", cells.join(" | "))?;
        }
        let Self {
            both, other_runs, ..
        } = self;
        writeln!(
            f,
            "\n7 and 8 of one extension {both} times, a second run at fault {other_runs} times"
        )?;
        writeln!(
            f,
            "\n| first fault | 7 behind it | 8 behind it |\n|---|---|---|"
        )?;
        for first in [BAD, SECOND] {
            let [bad, second] = [BAD, SECOND].map(|behind| count(&self.behind, (first, behind)));
            writeln!(f, "| refusal {first} | {bad} | {second} |")?;
        }
        Ok(())
    }

    fn write_faults(&self, f: &mut fmt::Formatter<'_>) -> fmt::Result {
        writeln!(f, "\n| first fault | times |\n|---|---|")?;
        for what in extension_sort::all() {
            writeln!(f, "| {} | {} |", what.name(), self.fault(what))?;
        }
        Ok(())
    }

    /// Which runs were accepted, and which unknown extensions they had.
    fn write_runs(&self, f: &mut fmt::Formatter<'_>) -> fmt::Result {
        writeln!(f, "\n| known ones, in this order | runs |\n|---|---|")?;
        for (order, count) in ORDERS.iter().zip(self.orders) {
            let names: Vec<&str> = order.iter().map(|known| KNOWN[*known].name).collect();
            writeln!(f, "| {} | {count} |", names.join(", "))?;
        }
        writeln!(f, "\n| unknown ones, identifier | times |\n|---|---|")?;
        for (name, count) in IDENTIFIERS.iter().zip(self.identifiers) {
            writeln!(f, "| {name} | {count} |")?;
        }
        writeln!(
            f,
            "\n| length of | 1 byte | 2 bytes | 3 bytes |\n|---|---|---|---|"
        )?;
        for (part, [one, two, three]) in PARTS.into_iter().zip(self.forms) {
            writeln!(f, "| {} | {one} | {two} | {three} |", part.name())?;
        }
        let short: u64 = self.short_buffers.values().sum();
        let [enough, longer] = self.buffers;
        let Self {
            mixed, long_runs, ..
        } = self;
        writeln!(
            f,
            "\n{mixed} runs with unknown ones among known ones, {long_runs} runs of 65,536 bytes or \
             more; buffers: {short} too short, {enough} just long enough, {longer} longer"
        )
    }
}
