//! The bars of one file: a block for each part, and the numbers of its records.

use crate::card::{Application, Content, File, Part, What};
use crate::letters::{many, plain, Font};
use crate::numbers;
use crate::picture::{Anchor, Area, Block, Of, Shape, Text};
use crate::scale::Scale;

/// The heights of a file's bars and of what stands around them.
#[derive(Clone, Copy, Debug)]
pub struct Measure {
    /// The size of the words to the left.
    pub words: f64,
    pub bar: f64,
    /// Between the bars before and after a move.
    pub between: f64,
    /// Below the last bar, where numbers may stand.
    pub below: f64,
    /// Between two files.
    pub space: f64,
}

/// The size of words in a bar, where it is high enough for them.
const LABEL: Font = plain(10.5);
/// The size of the numbers beside a bar.
const BESIDE: Font = plain(9.0);
/// What a label keeps free on both sides.
const PADDING: f64 = 3.0;
/// Blocks that are wider are set apart by a line.
const APART: f64 = 3.0;
/// The length of the line from a block to its number.
const TICK: f64 = 3.0;

pub fn application_class(application: Application) -> &'static str {
    match application {
        Application::Travel => "travel",
        Application::Visa => "visa",
        Application::Biometrics => "biometrics",
    }
}

/// The area of a part of a file whose bar begins at a height.
fn area(part: &Part, top: f64, scale: &Scale, height: f64) -> Area {
    Area {
        x: scale.x(part.start),
        y: top,
        width: part.length as f64 * scale.byte,
        height,
    }
}

fn class(file: &File, part: &Part, width: f64) -> String {
    let colour = match (part.what, &file.content) {
        (What::Head, _) => return "head".to_string(),
        (What::Free, _) => return "free".to_string(),
        (
            What::Written,
            Content::Biometrics {
                activated: false, ..
            },
        ) => return "hatch".to_string(),
        (What::Written, _) => "even",
        (What::Record(n), _) if n.is_multiple_of(2) => "even",
        (What::Record(_), _) => "odd",
    };
    let apart = if width > APART { " apart" } else { "" };
    format!("{} {colour}{apart}", application_class(file.application))
}

/// What a viewer says of a part.
fn title(file: &File, part: &Part) -> String {
    let name = &file.name;
    let bytes = |count| many(count, "byte");
    match part.what {
        What::Head => format!(
            "{name}: {} of count, or of state and length",
            bytes(part.length)
        ),
        // A block shows the two bytes of the length too.
        What::Record(n) => format!("{name}, record {n}: {}", bytes(part.length - 2)),
        What::Written => format!("{name}: {} written", bytes(part.length)),
        What::Free => format!("{name}: {} free", bytes(part.length)),
    }
}

/// What stands in a block that is wide enough.
fn label(part: &Part) -> Option<(String, &'static str)> {
    let bytes = many(part.length, "byte");
    match part.what {
        What::Head => None,
        What::Record(n) => Some((n.to_string(), "number")),
        What::Written => Some((format!("{bytes} written"), "number")),
        What::Free => Some((format!("{bytes} free"), "muted")),
    }
}

fn fits(words: &str, area: &Area) -> bool {
    LABEL.width(words) + 2.0 * PADDING <= area.width && LABEL.above() + LABEL.below() <= area.height
}

/// The bar of one file on one side, its upper edge at a height.
pub fn draw(file: &File, side: usize, top: f64, scale: &Scale, height: f64) -> Vec<Shape> {
    let whole = Area {
        x: scale.left,
        y: top,
        width: file.room as f64 * scale.byte,
        height,
    };
    let bare = |class: &str| {
        Shape::Block(Block {
            area: whole,
            class: class.to_string(),
            title: String::new(),
            of: None,
        })
    };
    let mut shapes = vec![bare("frame")];
    shapes.extend(ground(file, top, scale, height));
    let mut labels = Vec::new();
    for part in file.parts() {
        let area = area(&part, top, scale, height);
        shapes.push(Shape::Block(Block {
            area,
            class: class(file, &part, area.width),
            title: title(file, &part),
            of: Some(Of {
                side,
                kind: file.kind,
                what: part.what,
            }),
        }));
        if let Some((words, class)) = label(&part).filter(|(words, _)| fits(words, &area)) {
            labels.push(Shape::Text(Text {
                x: area.middle(),
                y: centred(top, height, LABEL),
                words,
                font: LABEL,
                anchor: Anchor::Middle,
                class: class.to_string(),
            }));
        }
    }
    // The outline lies over the lines that set blocks apart.
    shapes.push(bare(match file.content {
        Content::Biometrics {
            activated: false, ..
        } => "outline open",
        _ => "outline",
    }));
    shapes.extend(labels);
    shapes
}

/// A ground for all records. Blocks that are narrower than a dot of the screen would let the free
/// room shine through.
fn ground(file: &File, top: f64, scale: &Scale, height: f64) -> Option<Shape> {
    let parts = file.parts();
    let mut records = parts
        .iter()
        .filter(|part| matches!(part.what, What::Record(_)));
    let first = records.next()?;
    let last = records.next_back().unwrap_or(first);
    let whole = Part {
        length: last.start + last.length - first.start,
        ..*first
    };
    Some(Shape::Block(Block {
        area: area(&whole, top, scale, height),
        class: class(file, first, 0.0),
        title: String::new(),
        of: None,
    }))
}

/// The line on which words stand that are in the middle of a stretch.
pub fn centred(top: f64, height: f64, font: Font) -> f64 {
    top + (height + font.above() - font.below() / 2.0) / 2.0
}

/// The records whose blocks are too narrow for their numbers: the number, and the block's middle.
pub fn narrow(file: &File, scale: &Scale, height: f64) -> Vec<(usize, f64)> {
    let parts = file.parts();
    let narrow = parts.iter().filter_map(|part| {
        let What::Record(n) = part.what else {
            return None;
        };
        let area = area(part, 0.0, scale, height);
        (!fits(&n.to_string(), &area)).then(|| (n, area.middle()))
    });
    narrow.collect()
}

/// The numbers of narrow blocks between two heights, each with a line to its block above; and to
/// the one below, where there is a bar below.
pub fn beside(
    narrow: &[(usize, f64)],
    scale: &Scale,
    from: f64,
    to: f64,
    bar_below: bool,
) -> Vec<Shape> {
    let line = |x: f64, from: f64, to: f64| Shape::Line {
        from: (x, from),
        to: (x, to),
        class: "tick".to_string(),
    };
    let mut shapes = Vec::new();
    for number in numbers::beside(narrow, BESIDE, scale.left, scale.right) {
        shapes.push(line(number.block, from, from + TICK));
        if bar_below {
            shapes.push(line(number.block, to - TICK, to));
        }
        shapes.push(Shape::Text(Text {
            x: number.x,
            y: centred(from + TICK, to - from - 2.0 * TICK, BESIDE),
            words: number.words,
            font: BESIDE,
            anchor: Anchor::Middle,
            class: "ink beside".to_string(),
        }));
    }
    shapes
}

/// A band from each block before a move to the one after it that has the same number and bytes.
pub fn bands(before: &File, after: &File, from: f64, to: f64, scale: &Scale) -> Vec<Shape> {
    let kept = |part: &Part| match part.what {
        What::Record(n) => before.records().get(n - 1) == after.records().get(n - 1),
        What::Written => match (&before.content, &after.content) {
            (
                Content::Biometrics { written: old, .. },
                Content::Biometrics { written: new, .. },
            ) => old == new,
            _ => false,
        },
        What::Head | What::Free => false,
    };
    let band = |part: &Part| {
        let area = area(part, from, scale, to - from);
        Shape::Block(Block {
            area,
            class: format!("{} band", class(after, part, 0.0)),
            title: String::new(),
            of: None,
        })
    };
    after
        .parts()
        .iter()
        .filter(|part| kept(part))
        .map(band)
        .collect()
}
