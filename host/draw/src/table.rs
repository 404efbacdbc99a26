//! The columns to the left of the bars: for each file its name, its kind, what it holds, its room
//! and how much of it is free.

use crate::card::{Content, File};
use crate::letters::{many, number, plain};
use crate::picture::{Anchor, Shape, Text};

const COLUMNS: usize = 6;
/// The words above each column, and which end of it is aligned.
const HEADS: [(&str, Anchor); COLUMNS] = [
    ("File", Anchor::Start),
    ("Kind", Anchor::Start),
    ("Move", Anchor::Start),
    ("Holds", Anchor::Start),
    ("Room", Anchor::End),
    ("Free", Anchor::End),
];
const HEAD_SIZE: f64 = 10.5;
const GAP: f64 = 16.0;

/// A line of the table, and the size of its words.
pub struct Line {
    cells: [String; COLUMNS],
    size: f64,
}

impl Line {
    /// The line of a file on one side of a move, or of one that is not there on that side. The
    /// name stands in the first line of a file alone.
    pub fn new(named: &File, file: Option<&File>, side: &str, first: bool, size: f64) -> Self {
        let once = |words: String| if first { words } else { String::new() };
        let holds = match file.map(|file| &file.content) {
            None => "not on the card".to_string(),
            Some(Content::Records { most, records }) => {
                format!("{} of {most} records", records.len())
            }
            Some(Content::Biometrics { activated, written }) => {
                let state = if *activated {
                    "Activated"
                } else {
                    "Deactivated"
                };
                format!("{state}, {}", many(written.len(), "byte"))
            }
        };
        let bytes = |count: Option<usize>| count.map(number).unwrap_or_default();
        Self {
            cells: [
                once(named.name.clone()),
                once(format!("{:04X}", named.kind)),
                side.to_string(),
                holds,
                bytes(file.map(|file| file.room)),
                bytes(file.map(File::free)),
            ],
            size,
        }
    }
}

/// Where each column stands; none for one that has no words.
pub struct Table {
    columns: [Option<f64>; COLUMNS],
    pub right: f64,
}

impl Table {
    /// Each column is as wide as its widest words.
    pub fn new(lines: &[Line], left: f64) -> Self {
        let mut columns = [None; COLUMNS];
        let mut right = left;
        for (i, (head, anchor)) in HEADS.iter().enumerate() {
            let filled = lines.iter().filter(|line| !line.cells[i].is_empty());
            let widest = filled
                .map(|line| plain(line.size).width(&line.cells[i]))
                .reduce(f64::max);
            let Some(widest) = widest else { continue };
            let width = widest.max(plain(HEAD_SIZE).width(head)).ceil();
            let start = if right > left { right + GAP } else { left };
            right = start + width;
            columns[i] = Some(if *anchor == Anchor::End { right } else { start });
        }
        Self { columns, right }
    }

    /// The words of a line that stand at a height.
    pub fn line(&self, line: &Line, y: f64) -> Vec<Shape> {
        let class = |i| if i == 0 || i == 3 { "ink" } else { "muted" };
        self.words(
            &line.cells.each_ref().map(String::as_str),
            line.size,
            y,
            class,
        )
    }

    pub fn heads(&self, y: f64) -> Vec<Shape> {
        self.words(&HEADS.map(|(head, _)| head), HEAD_SIZE, y, |_| "muted")
    }

    fn words(
        &self,
        cells: &[&str; COLUMNS],
        size: f64,
        y: f64,
        class: impl Fn(usize) -> &'static str,
    ) -> Vec<Shape> {
        let mut shapes = Vec::new();
        for (i, words) in cells.iter().enumerate() {
            let Some(x) = self.columns[i].filter(|_| !words.is_empty()) else {
                continue;
            };
            shapes.push(Shape::Text(Text {
                x,
                y,
                words: (*words).to_string(),
                font: plain(size),
                anchor: HEADS[i].1,
                class: class(i).to_string(),
            }));
        }
        shapes
    }
}
