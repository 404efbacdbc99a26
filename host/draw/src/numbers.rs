//! Which record numbers stand beside a bar.
//!
//! A block that is as wide as its number bears it. Numbers of narrower blocks stand beside the bar:
//! of each run of such blocks the first, the last, and as many round ones between them as there is
//! room for.

use crate::letters::Font;

/// A number, or the first and last of many, and the places of what it names.
#[derive(Clone, Debug, PartialEq)]
pub struct Number {
    pub words: String,
    /// The middle of the words.
    pub x: f64,
    /// The middle of the block.
    pub block: f64,
}

/// Round numbers, the roundest first.
const STEPS: [usize; 5] = [100, 50, 10, 5, 1];
/// How far two numbers stay apart.
const GAP: f64 = 4.0;

#[derive(Clone, Copy)]
struct Place {
    number: usize,
    block: f64,
    x: f64,
    width: f64,
    /// The first or the last: others give way to it.
    end: bool,
}

impl Place {
    /// Whether the next place is far enough. Round numbers keep the distance of the longest, so
    /// that all of a step fit or none.
    fn clear_of(&self, next: &Self, longest: f64) -> bool {
        let both = if self.end || next.end {
            (self.width + next.width) / 2.0
        } else {
            longest
        };
        next.x - self.x >= both + GAP
    }
}

/// The numbers of narrow blocks, each given by its number and its middle. Words stay between left
/// and right.
pub fn beside(narrow: &[(usize, f64)], font: Font, left: f64, right: f64) -> Vec<Number> {
    let mut numbers: Vec<Number> = Vec::new();
    // Records that follow one another are numbered together.
    for run in narrow.chunk_by(|one, next| one.0 + 1 == next.0) {
        for number in of_run(run, font, left, right) {
            let clear = |last: &Number| {
                let both = (font.width(&last.words) + font.width(&number.words)) / 2.0;
                number.x - last.x >= both + GAP
            };
            if numbers.last().is_none_or(clear) {
                numbers.push(number);
            }
        }
    }
    numbers
}

/// The numbers of records that follow one another.
fn of_run(run: &[(usize, f64)], font: Font, left: f64, right: f64) -> Vec<Number> {
    let (Some(first), Some(last)) = (run.first(), run.last()) else {
        return Vec::new();
    };
    let within = |words: &str, x: f64| {
        let half = font.width(words) / 2.0;
        x.min(right - half).max(left + half)
    };
    let longest = font.width(&last.0.to_string());
    if run.len() > 1 && last.1 - first.1 < longest + GAP {
        let words = format!("{}–{}", first.0, last.0);
        let block = (first.1 + last.1) / 2.0;
        let x = within(&words, block);
        return vec![Number { words, x, block }];
    }
    let place = |&(number, block): &(usize, f64)| {
        let words = number.to_string();
        Place {
            number,
            block,
            x: within(&words, block),
            width: font.width(&words),
            end: number == first.0 || number == last.0,
        }
    };
    let places: Vec<Place> = run.iter().map(place).collect();
    chosen(&places, longest)
        .into_iter()
        .map(|place| Number {
            words: place.number.to_string(),
            x: place.x,
            block: place.block,
        })
        .collect()
}

/// Both ends, and step by step what has room between those chosen before. Between two of them a
/// step comes whole or not at all, so that the numbers are regular. Only beside an end may one be
/// left out.
fn chosen(places: &[Place], longest: f64) -> Vec<Place> {
    let mut chosen: Vec<Place> = places.iter().filter(|place| place.end).copied().collect();
    for step in STEPS {
        let mut more = Vec::new();
        for pair in chosen.windows(2) {
            let [low, high] = [pair[0], pair[1]];
            let between = places.iter().filter(|place| {
                low.number < place.number
                    && place.number < high.number
                    && place.number.is_multiple_of(step)
                    && (!low.end || low.clear_of(place, longest))
                    && (!high.end || place.clear_of(&high, longest))
            });
            let row: Vec<Place> = [low].into_iter().chain(between.copied()).collect();
            let next = row.iter().skip(1).chain([&high]);
            let fits = row.iter().zip(next).all(|(a, b)| a.clear_of(b, longest));
            more.extend(if fits { row } else { vec![low] });
        }
        more.extend(chosen.last());
        chosen = more;
    }
    chosen
}

#[cfg(test)]
mod tests {
    use super::*;
    use crate::letters::plain;

    fn words(narrow: &[(usize, f64)]) -> Vec<String> {
        let numbers = beside(narrow, plain(9.0), 0.0, 1_000.0);
        numbers.into_iter().map(|number| number.words).collect()
    }

    fn row(count: usize, width: f64) -> Vec<(usize, f64)> {
        let middle = |n: usize| (n, (n as f64 - 0.5) * width);
        (1..=count).map(middle).collect()
    }

    #[test]
    fn none_and_one() {
        assert_eq!(words(&[]), [""; 0]);
        assert_eq!(words(&[(7, 3.0)]), ["7"]);
    }

    #[test]
    fn every_tenth() {
        let tens: Vec<String> = (1..25).map(|n| (n * 10).to_string()).collect();
        let expected = [vec!["1".to_string()], tens, vec!["254".to_string()]].concat();
        assert_eq!(words(&row(254, 2.5)), expected);
    }

    #[test]
    fn every_fiftieth() {
        assert_eq!(
            words(&row(254, 0.6)),
            ["1", "50", "100", "150", "200", "254"]
        );
    }

    #[test]
    fn all_in_one() {
        assert_eq!(words(&row(254, 0.03)), ["1–254"]);
    }

    #[test]
    fn between_wide_ones() {
        let narrow = [(3, 100.0), (4, 106.0), (7, 160.0), (9, 164.0)];
        assert_eq!(words(&narrow), ["3–4", "7"]);
    }

    #[test]
    fn all() {
        assert_eq!(words(&row(5, 12.0)), ["1", "2", "3", "4", "5"]);
    }
}
