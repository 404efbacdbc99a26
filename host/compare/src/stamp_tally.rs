//! How often each sort of read of a stamp occurred.

use crate::stamp::{Place, NUMBERS, OPTIONAL, PLACES};
use crate::stamp_faults::Reason;
use crate::stamp_sort::{self, Sort, Wrong, WRONG};
use crate::step::Step;
use std::collections::BTreeMap;
use std::fmt;

/// The shortest stamp and the longest.
const LENGTHS: [usize; 2] = [45, 391];
/// The lists that places are written into, or not.
const LISTS: [&str; 3] = ["too short", "just long enough", "longer"];

#[derive(Default)]
pub struct StampTally {
    sorts: BTreeMap<Sort, u64>,
    /// Stamps by the optional fields that they have, a bit for each.
    combinations: [u64; 32],
    /// Stamps of the [`LENGTHS`].
    lengths: [u64; 2],
    /// Reads by how long the list is (its place in [`LISTS`]).
    lists: [u64; 3],
    /// Lists that are too short, by their entries.
    short_lists: [u64; NUMBERS],
}

impl StampTally {
    pub fn calls(&self) -> u64 {
        self.sorts.values().sum()
    }

    /// Stamps that were accepted.
    pub fn accepted(&self) -> u64 {
        self.count(|sort| sort == Sort::Stamp)
    }

    fn count(&self, wanted: impl Fn(Sort) -> bool) -> u64 {
        let counted = self.sorts.iter().filter(|(sort, _)| wanted(**sort));
        counted.map(|(_, count)| count).sum()
    }

    /// Faults of a reason at a place.
    pub fn at(&self, place: Place, reason: Reason) -> u64 {
        self.count(
            |sort| matches!(sort, Sort::Fault(at, wrong) if at == place && wrong.reason() == reason),
        )
    }

    /// Objects of a place that stand elsewhere.
    fn elsewhere(&self, place: Place) -> u64 {
        self.count(|sort| matches!(sort, Sort::Fault(_, Wrong::Known(known)) if known == place))
    }

    fn wrong(&self, wrong: Wrong) -> u64 {
        self.count(|sort| matches!(sort, Sort::Fault(_, found) if found == wrong))
    }

    /// All faults of a reason.
    fn reason(&self, reason: Reason) -> u64 {
        self.count(|sort| matches!(sort, Sort::Fault(_, wrong) if wrong.reason() == reason))
    }

    /// Counts a step by the results of its calls; one that reads no stamp counts not.
    pub fn step(&mut self, step: &Step, results: &[u64]) {
        let Step::Stamp { record, entries } = step else {
            return;
        };
        for result in results {
            let sort = stamp_sort::sort(record, *result);
            *self.sorts.entry(sort).or_default() += 1;
            if sort == Sort::Stamp {
                self.stamp(record);
            }
        }
        self.lists[list_form(*entries)] += 1;
        if let Some(count) = self.short_lists.get_mut(*entries) {
            *count += 1;
        }
    }

    fn stamp(&mut self, record: &[u8]) {
        let present = stamp_sort::present(record);
        let bits = OPTIONAL.iter().enumerate();
        let combination = bits.filter(|(_, field)| present.contains(field));
        self.combinations[combination.map(|(bit, _)| 1 << bit).sum::<usize>()] += 1;
        for (length, count) in LENGTHS.iter().zip(&mut self.lengths) {
            *count += u64::from(record.len() == *length);
        }
    }

    /// What is counted, how often it occurred and how often it should. What may be wrong in one way
    /// alone is not as frequent as the rest.
    pub fn wanted(&self, each: u64, done: u64) -> Vec<(String, u64, u64)> {
        let mut wanted = vec![("stamps".to_string(), self.accepted(), done)];
        let seldom = each / 3;
        let faults = [Reason::Tag, Reason::Length, Reason::Content];
        for (place, reason) in PLACES
            .into_iter()
            .flat_map(|place| faults.map(|reason| (place, reason)))
            .filter(|(place, reason)| stamp_sort::may_be_wrong(*place, *reason))
        {
            let what = format!("{} at {}", reason.name(), place.name());
            wanted.push((what, self.at(place, reason), each));
        }
        for place in PLACES.into_iter().filter(|place| !place.tag().is_empty()) {
            let what = format!("{} elsewhere", place.name());
            wanted.push((what, self.elsewhere(place), seldom));
        }
        for (reason, all) in WRONG {
            for wrong in all {
                let what = format!("{}: {}", reason.name(), wrong.name());
                wanted.push((what, self.wrong(*wrong), seldom));
            }
        }
        for (combination, count) in self.combinations.iter().enumerate() {
            wanted.push((format!("optional fields {combination:05b}"), *count, 1));
        }
        for (length, count) in LENGTHS.iter().zip(self.lengths) {
            wanted.push((format!("stamps of {length} bytes"), count, 1));
        }
        for (entries, count) in self.short_lists.iter().enumerate() {
            wanted.push((format!("lists of {entries} entries"), *count, 1));
        }
        for (form, count) in LISTS.iter().zip(self.lists) {
            wanted.push((format!("lists {form}"), count, done));
        }
        wanted
    }
}

/// How long a list is, as a place in [`LISTS`].
fn list_form(entries: usize) -> usize {
    match entries {
        ..NUMBERS => 0,
        NUMBERS => 1,
        _ => 2,
    }
}

impl fmt::Display for StampTally {
    fn fmt(&self, f: &mut fmt::Formatter<'_>) -> fmt::Result {
        self.write_results(f)?;
        self.write_places(f)?;
        self.write_faults(f)?;
        self.write_lists(f)?;
        self.write_stamps(f)
    }
}

/// The tables, one after the other.
impl StampTally {
    /// What came of the reads.
    fn write_results(&self, f: &mut fmt::Formatter<'_>) -> fmt::Result {
        writeln!(f, "\n| stamp | times |\n|---|---|")?;
        writeln!(f, "| accepted | {} |", self.accepted())?;
        for (reason, _) in WRONG {
            writeln!(f, "| {} | {} |", reason.name(), self.reason(reason))?;
        }
        let short = self.count(|sort| sort == Sort::ShortList);
        writeln!(f, "| refusal 15 | {short} |")
    }

    /// Faults by their place.
    fn write_places(&self, f: &mut fmt::Formatter<'_>) -> fmt::Result {
        write!(f, "\n| fault at | tag: missing or too many | ")?;
        writeln!(f, "tag: stands elsewhere | length | content |")?;
        writeln!(f, "|---|---|---|---|---|")?;
        for place in PLACES {
            let [tag, length, content] =
                [Reason::Tag, Reason::Length, Reason::Content].map(|reason| self.at(place, reason));
            let elsewhere = self.elsewhere(place);
            let name = place.name();
            writeln!(f, "| {name} | {tag} | {elsewhere} | {length} | {content} |")?;
        }
        Ok(())
    }

    /// Faults by what is wrong.
    fn write_faults(&self, f: &mut fmt::Formatter<'_>) -> fmt::Result {
        writeln!(f, "\n| fault | what | times |\n|---|---|---|")?;
        for (reason, all) in WRONG {
            for wrong in all {
                let (reason, name) = (reason.name(), wrong.name());
                writeln!(f, "| {reason} | {name} | {} |", self.wrong(*wrong))?;
            }
        }
        Ok(())
    }

    fn write_lists(&self, f: &mut fmt::Formatter<'_>) -> fmt::Result {
        writeln!(f, "\n| list | times |\n|---|---|")?;
        for (form, count) in LISTS.iter().zip(self.lists) {
            writeln!(f, "| {form} | {count} |")?;
        }
        Ok(())
    }

    /// Which stamps were accepted.
    fn write_stamps(&self, f: &mut fmt::Formatter<'_>) -> fmt::Result {
        let combinations = self.combinations.iter().filter(|count| **count > 0).count();
        let seldom = self.combinations.iter().min().copied().unwrap_or(0);
        let [shortest, longest] = self.lengths;
        write!(
            f,
            "\n{combinations} of 32 combinations of optional fields, "
        )?;
        writeln!(
            f,
            "each {seldom} times or more; {shortest} stamps of 45 bytes, {longest} of 391"
        )
    }
}
