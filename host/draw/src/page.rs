//! The whole picture: title, legend, scale, and a row for each file.

use crate::bar::{self, application_class, centred, Measure};
use crate::card::{Application, Card, Content, File};
use crate::legend;
use crate::letters::{bold, many, number, plain, Font};
use crate::picture::{Anchor, Picture, Shape, Text};
use crate::scale::Scale;
use crate::table::{Line, Table};

/// The width of a picture, and of one with many files or records.
const NARROW: f64 = 960.0;
const WIDE: f64 = 1_240.0;
const EDGE: f64 = 28.0;
const TITLE: Font = bold(19.0);
const SUBTITLE: Font = plain(12.0);
const GROUP: Font = bold(12.0);
const NOTE: Font = plain(10.5);
/// Between the table and the bars.
const GUTTER: f64 = 24.0;
/// With more files than these the bars are low and the picture is wide.
const FEW: usize = 12;
/// With more records in a file than these the picture is wide.
const FEW_RECORDS: usize = 50;
/// Rows that are higher than this in all have the scale at the bottom too.
const TALL: f64 = 600.0;

/// A file on each side: one side for a card, two for a move. The last side has every file.
struct Row<'a> {
    file: &'a File,
    sides: Vec<Option<&'a File>>,
}

/// A card.
pub fn card(card: &Card) -> Picture {
    let row = |file| Row {
        file,
        sides: vec![Some(file)],
    };
    let rows: Vec<Row> = card.files.iter().map(row).collect();
    let free: usize = card.files.iter().map(File::free).sum();
    let title = format!("A card image of {}", many(card.length, "byte"));
    let subtitle = if rows.is_empty() {
        "This card has no files.".to_string()
    } else {
        format!(
            "{} with {}; {} free.",
            many(card.files.len(), "file"),
            many(card.records(), "record"),
            many(free, "byte")
        )
    };
    page(title, &subtitle, &[""], &rows)
}

/// A card before and after a move.
pub fn moved(before: &Card, after: &Card) -> Picture {
    let rows: Vec<Row> = after
        .files
        .iter()
        .map(|file| Row {
            file,
            sides: vec![before.file(file.kind), Some(file)],
        })
        .collect();
    let title = format!(
        "A card moved to other rooms: {} before, {} after",
        many(before.length, "byte"),
        many(after.length, "byte")
    );
    let kept: usize = rows.iter().map(kept).sum();
    let subtitle = format!(
        "{} before the move and {} after it; {} with the number and the bytes of before.",
        many(before.records(), "record"),
        number(after.records()),
        number(kept)
    );
    page(title, &subtitle, &["before", "after"], &rows)
}

/// How many records of a file are what they were before, under the same number.
fn kept(row: &Row) -> usize {
    let old = row.sides[0].map_or(&[][..], File::records);
    let pairs = old.iter().zip(row.file.records());
    pairs.filter(|(old, new)| old == new).count()
}

fn text(x: f64, y: f64, words: &str, font: Font, class: &str) -> Shape {
    Shape::Text(Text {
        x,
        y,
        words: words.to_string(),
        font,
        anchor: Anchor::Start,
        class: class.to_string(),
    })
}

fn page(title: String, subtitle: &str, sides: &[&str], rows: &[Row]) -> Picture {
    let mut shapes = vec![
        text(EDGE, 44.0, &title, TITLE, "ink"),
        text(EDGE, 66.0, subtitle, SUBTITLE, "muted"),
    ];
    let files: Vec<&File> = rows.iter().map(|row| row.file).collect();
    let crowded = |file: &&File| file.records().len() > FEW_RECORDS;
    let width = if rows.len() > FEW || files.iter().any(crowded) {
        WIDE
    } else {
        NARROW
    };
    let keys = legend::keys(&files, sides.len() > 1);
    let (keys, behind) = legend::draw(&keys, EDGE + 0.5, width - EDGE, 82.5);
    shapes.extend(keys);
    let bottom = if rows.is_empty() {
        behind
    } else {
        let (body, bottom) = body(sides, rows, behind + 20.0, width - EDGE);
        shapes.extend(body);
        bottom
    };
    Picture {
        width,
        height: bottom + 12.0,
        title,
        shapes,
    }
}

/// Table, scale and bars from a height on, up to the right edge. Gives the shapes and the height behind them.
fn body(sides: &[&str], rows: &[Row], top: f64, right: f64) -> (Vec<Shape>, f64) {
    let low = rows.len() > FEW;
    let mut lines = Vec::new();
    for row in rows {
        let size = measure(low, row.file).words;
        for (i, (side, file)) in sides.iter().zip(&row.sides).enumerate() {
            lines.push(Line::new(row.file, *file, side, i == 0, size));
        }
    }
    let table = Table::new(&lines, EDGE);
    let left = (table.right + GUTTER).floor() + 0.5;
    let scale = Scale::new(left, right, longest(rows));

    let first = top.floor() + 8.5;
    let (front, last) = all_rows(rows, &lines, &table, &scale, first + 4.0);
    let mut shapes = scale.lines(first, last);
    shapes.extend(front);
    shapes.extend([rule(first, right), rule(last, right)]);
    shapes.extend(table.heads(top));
    shapes.extend(scale.words(top));
    let mut behind = last + 19.0;
    if last - first > TALL {
        shapes.extend(scale.words(behind));
        behind += 20.0;
    }
    let note = "A bar is as long as the file's room, the length of its body. \
                Six bytes more stand before each body: this length, and the kind.";
    shapes.push(text(EDGE, behind, note, NOTE, "muted"));
    (shapes, behind)
}

/// The rows from a height on, with a heading for each application; and the height behind them.
fn all_rows(
    rows: &[Row],
    lines: &[Line],
    table: &Table,
    scale: &Scale,
    top: f64,
) -> (Vec<Shape>, f64) {
    let low = rows.len() > FEW;
    let joined = rows.iter().any(|row| row.sides.len() > 1);
    let numbered = rows.iter().any(|row| {
        let height = measure(low, row.file).bar;
        !bar::narrow(row.file, scale, height).is_empty()
    });

    let mut shapes = Vec::new();
    let mut y = top;
    let mut group = None;
    let mut lines = lines.iter();
    for row in rows {
        if group != Some(row.file.application) {
            group = Some(row.file.application);
            shapes.push(heading(row.file.application, y + 19.0));
            y += 30.0;
        }
        let measure = fitted(measure(low, row.file), joined, numbered);
        let tops = (0..row.sides.len()).map(|side| bar_top(y, side, &measure));
        for (top, line) in tops.zip(&mut lines) {
            let height = centred(top, measure.bar, plain(measure.words));
            shapes.extend(table.line(line, height));
        }
        shapes.extend(bars(row, y, scale, &measure));
        y = bar_top(y, row.sides.len() - 1, &measure) + measure.bar + measure.below + measure.space;
    }
    (shapes, y)
}

fn measure(low: bool, file: &File) -> Measure {
    let records = matches!(file.content, Content::Records { .. });
    let (words, bar, between, below, space) = match (low, records) {
        (false, true) => (12.0, 24.0, 18.0, 15.0, 12.0),
        (false, false) => (12.0, 24.0, 10.0, 0.0, 12.0),
        (true, true) => (11.0, 16.0, 16.0, 15.0, 8.0),
        (true, false) => (10.0, 9.0, 4.0, 0.0, 6.0),
    };
    Measure {
        words,
        bar,
        between,
        below,
        space,
    }
}

/// The numbers of a move stand between its bars, those of a card below them. Where no file has such
/// numbers, rows stand closer. The bars of a move stand closer to each other than to other files.
fn fitted(measure: Measure, joined: bool, numbered: bool) -> Measure {
    let below = if joined || !numbered {
        0.0
    } else {
        measure.below
    };
    let between = if numbered {
        measure.between
    } else {
        measure.between / 2.0
    };
    let space = if joined {
        2.0 * measure.space
    } else {
        measure.space
    };
    Measure {
        between,
        below,
        space,
        ..measure
    }
}

/// The bytes of the longest bar.
fn longest(rows: &[Row]) -> usize {
    let files = rows.iter().flat_map(|row| row.sides.iter().flatten());
    files.map(|file| file.room).max().unwrap_or(0)
}

/// The upper edge of a file's bar on a side.
fn bar_top(top: f64, side: usize, measure: &Measure) -> f64 {
    top + side as f64 * (measure.bar + measure.between)
}

fn bars(row: &Row, top: f64, scale: &Scale, measure: &Measure) -> Vec<Shape> {
    let mut shapes = Vec::new();
    let below_first = top + measure.bar;
    let second = bar_top(top, 1, measure);
    if let [Some(before), Some(after)] = row.sides[..] {
        shapes.extend(bar::bands(before, after, below_first, second, scale));
    }
    for (side, file) in row.sides.iter().enumerate() {
        if let Some(file) = file {
            let top = bar_top(top, side, measure);
            shapes.extend(bar::draw(file, side, top, scale, measure.bar));
        }
    }
    // Numbers are shared by the bars of a move: each record stands where it stood.
    let narrow = bar::narrow(row.file, scale, measure.bar);
    let joined = row.sides.len() > 1;
    let end = if joined {
        second
    } else {
        below_first + measure.below
    };
    shapes.extend(bar::beside(&narrow, scale, below_first, end, joined));
    shapes
}

fn heading(application: Application, y: f64) -> Shape {
    let words = match application {
        Application::Travel => "Travel",
        Application::Visa => "Visa",
        Application::Biometrics => "Biometrics",
    };
    let class = format!("{} name", application_class(application));
    text(EDGE, y, words, GROUP, &class)
}

fn rule(y: f64, right: f64) -> Shape {
    Shape::Line {
        from: (EDGE, y),
        to: (right, y),
        class: "rule".to_string(),
    }
}
