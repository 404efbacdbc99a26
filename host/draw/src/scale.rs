//! The scale: one for all bars of a picture.

use crate::letters::{number, plain, Font};
use crate::picture::{Anchor, Shape, Text};

const FONT: Font = plain(10.5);
/// The least distance of two lines of the scale.
const STEP: f64 = 80.0;
/// The longest words of a scale.
const WIDEST: &str = "262,144";

/// Where the bars stand, and how wide a byte is.
#[derive(Clone, Copy, Debug)]
pub struct Scale {
    pub left: f64,
    /// How far words may reach.
    pub right: f64,
    /// The bytes of the longest bar.
    longest: usize,
    pub byte: f64,
}

impl Scale {
    /// The longest bar is as long as there is room for. Words at its end stand half behind it.
    pub fn new(left: f64, right: f64, longest: usize) -> Self {
        let end = right - FONT.width(WIDEST) / 2.0;
        Self {
            left,
            right,
            longest,
            byte: (end - left) / longest as f64,
        }
    }

    pub fn x(&self, bytes: usize) -> f64 {
        self.left + bytes as f64 * self.byte
    }

    /// The bytes at which the scale has a line: multiples of 1, 2 or 5 and a power of ten.
    fn marks(&self) -> Vec<usize> {
        let tens = (0..6).map(|power| 10_usize.pow(power));
        let mut steps = tens.flat_map(|ten| [ten, 2 * ten, 5 * ten]);
        let step = steps.find(|step| *step as f64 * self.byte >= STEP);
        (0..=self.longest)
            .step_by(step.unwrap_or(usize::MAX))
            .collect()
    }

    /// The lines of the scale between two heights.
    pub fn lines(&self, from: f64, to: f64) -> Vec<Shape> {
        let line = |bytes: usize| {
            // In the middle of a dot of the screen, so that it is sharp.
            let x = self.x(bytes).floor() + 0.5;
            Shape::Line {
                from: (x, from),
                to: (x, to),
                class: "grid".to_string(),
            }
        };
        self.marks().into_iter().map(line).collect()
    }

    /// The words of the scale, on a line at a height.
    pub fn words(&self, y: f64) -> Vec<Shape> {
        let words = |mark: usize| {
            let (words, anchor) = match mark {
                0 => ("0 bytes".to_string(), Anchor::Start),
                _ => (number(mark), Anchor::Middle),
            };
            Shape::Text(Text {
                x: self.x(mark),
                y,
                words,
                font: FONT,
                anchor,
                class: "muted".to_string(),
            })
        };
        self.marks().into_iter().map(words).collect()
    }
}

#[cfg(test)]
mod tests {
    use super::*;

    #[test]
    fn marks() {
        let marks = |longest| Scale::new(400.0, 1_200.0, longest).marks();
        assert_eq!(marks(2), [0, 1, 2]);
        assert_eq!(marks(40), [0, 5, 10, 15, 20, 25, 30, 35, 40]);
        assert_eq!(
            marks(262_138),
            [0, 50_000, 100_000, 150_000, 200_000, 250_000]
        );
    }
}
