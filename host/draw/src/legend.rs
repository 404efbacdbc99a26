//! What the shapes of a picture mean.

use crate::bar::{application_class, centred};
use crate::card::{Application, Content, File};
use crate::letters::{plain, Font};
use crate::picture::{Anchor, Area, Block, Shape, Text};

#[derive(Clone, Copy, Debug, PartialEq, Eq)]
pub enum Key {
    Records(Application),
    /// Of record files; of record files and biometrics files.
    Count,
    CountOrState,
    Activated,
    Deactivated,
    Free,
    Band(Application),
}

const FONT: Font = plain(11.0);
const NUMBER: Font = plain(9.0);
const WIDTH: f64 = 32.0;
const HEIGHT: f64 = 14.0;
/// Between a swatch and its words, between two keys, between two lines.
const NEAR: f64 = 7.0;
const GAP: f64 = 24.0;
const LINE: f64 = 22.0;

/// The keys that the files of a picture need. `joined` says whether it shows a move.
pub fn keys(files: &[&File], joined: bool) -> Vec<Key> {
    let with_records = files.iter().find(|file| !file.records().is_empty());
    let has_state = |state: bool| {
        files.iter().any(
            |file| matches!(file.content, Content::Biometrics { activated, .. } if activated == state),
        )
    };
    let mut keys = Vec::new();
    keys.extend(with_records.map(|file| Key::Records(file.application)));
    keys.extend(has_state(true).then_some(Key::Activated));
    keys.extend(has_state(false).then_some(Key::Deactivated));
    if !files.is_empty() {
        let states = has_state(true) || has_state(false);
        keys.push(if states {
            Key::CountOrState
        } else {
            Key::Count
        });
        keys.push(Key::Free);
    }
    let band = with_records.filter(|_| joined);
    keys.extend(band.map(|file| Key::Band(file.application)));
    keys
}

fn words(key: Key) -> &'static str {
    match key {
        Key::Records(_) => "records with their numbers",
        Key::Count => "count of records",
        Key::CountOrState => "count of records, or state and length",
        Key::Activated => "written, Activated",
        Key::Deactivated => "written, Deactivated: may still change",
        Key::Free => "free",
        Key::Band(_) => "same number, same bytes",
    }
}

/// The keys in lines from a height on. Gives the shapes and the height behind them.
pub fn draw(keys: &[Key], left: f64, right: f64, top: f64) -> (Vec<Shape>, f64) {
    let mut shapes = Vec::new();
    let (mut x, mut y) = (left, top);
    for &key in keys {
        let width = WIDTH + NEAR + FONT.width(words(key));
        if x > left && x + width > right {
            (x, y) = (left, y + LINE);
        }
        shapes.extend(swatch(key, x, y));
        shapes.push(Shape::Text(Text {
            x: x + WIDTH + NEAR,
            y: centred(y, HEIGHT, FONT),
            words: words(key).to_string(),
            font: FONT,
            anchor: Anchor::Start,
            class: "muted".to_string(),
        }));
        x += width + GAP;
    }
    let behind = if keys.is_empty() { top } else { y + LINE };
    (shapes, behind)
}

fn swatch(key: Key, x: f64, y: f64) -> Vec<Shape> {
    let block = |at: f64, width: f64, down: f64, height: f64, class: &str| {
        Shape::Block(Block {
            area: Area {
                x: x + at,
                y: y + down,
                width,
                height,
            },
            class: class.to_string(),
            title: String::new(),
            of: None,
        })
    };
    let bar = |at: f64, width: f64, class: &str| block(at, width, 0.0, HEIGHT, class);
    let framed = |inside: Vec<Shape>, outline: &str| {
        let mut shapes = vec![bar(0.0, WIDTH, "frame")];
        shapes.extend(inside);
        shapes.push(bar(0.0, WIDTH, outline));
        shapes
    };
    let half = WIDTH / 2.0;
    match key {
        Key::Records(application) => {
            let name = application_class(application);
            let mut shapes = framed(
                vec![
                    bar(0.0, half, &format!("{name} odd apart")),
                    bar(half, half, &format!("{name} even apart")),
                ],
                "outline",
            );
            for (words, at) in [("1", half / 2.0), ("2", half * 1.5)] {
                shapes.push(Shape::Text(Text {
                    x: x + at,
                    y: centred(y, HEIGHT, NUMBER),
                    words: words.to_string(),
                    font: NUMBER,
                    anchor: Anchor::Middle,
                    class: "number".to_string(),
                }));
            }
            shapes
        }
        Key::Count | Key::CountOrState => framed(vec![bar(0.0, 5.0, "head")], "outline"),
        Key::Activated => framed(vec![bar(0.0, half, "biometrics even")], "outline"),
        Key::Deactivated => framed(vec![bar(0.0, half, "hatch")], "outline open"),
        Key::Free => framed(Vec::new(), "outline"),
        Key::Band(application) => {
            let name = application_class(application);
            let [solid, pale] = [format!("{name} even"), format!("{name} even band")];
            vec![
                block(0.0, WIDTH, 0.0, 4.0, &solid),
                block(0.0, WIDTH, 4.0, 6.0, &pale),
                block(0.0, WIDTH, 10.0, 4.0, &solid),
            ]
        }
    }
}
