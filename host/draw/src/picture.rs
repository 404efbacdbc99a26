//! Shapes, and the SVG that they make.

use crate::card::What;
use crate::letters::Font;
use std::fmt::Write;

const STYLE: &str = include_str!("style.css");
const FONTS: &str = "DejaVu Sans, Verdana, sans-serif";

/// A rectangle by its corner at the upper left.
#[derive(Clone, Copy, Debug, PartialEq)]
pub struct Area {
    pub x: f64,
    pub y: f64,
    pub width: f64,
    pub height: f64,
}

impl Area {
    pub fn right(&self) -> f64 {
        self.x + self.width
    }

    pub fn bottom(&self) -> f64 {
        self.y + self.height
    }

    pub fn middle(&self) -> f64 {
        self.x + self.width / 2.0
    }

    pub fn overlaps(&self, other: &Self) -> bool {
        self.x < other.right()
            && other.x < self.right()
            && self.y < other.bottom()
            && other.y < self.bottom()
    }

    pub fn contains(&self, other: &Self) -> bool {
        self.x <= other.x
            && other.right() <= self.right()
            && self.y <= other.y
            && other.bottom() <= self.bottom()
    }
}

/// Which end of a text stands at its place.
#[derive(Clone, Copy, Debug, PartialEq, Eq)]
pub enum Anchor {
    Start,
    Middle,
    End,
}

/// A text that stands at a place on a line. Its class gives it its colour.
#[derive(Clone, Debug)]
pub struct Text {
    pub x: f64,
    pub y: f64,
    pub words: String,
    pub font: Font,
    pub anchor: Anchor,
    pub class: String,
}

impl Text {
    /// The area that its letters cover.
    pub fn area(&self) -> Area {
        let width = self.font.width(&self.words);
        let before = match self.anchor {
            Anchor::Start => 0.0,
            Anchor::Middle => width / 2.0,
            Anchor::End => width,
        };
        Area {
            x: self.x - before,
            y: self.y - self.font.above(),
            width,
            height: self.font.above() + self.font.below(),
        }
    }
}

/// Which part of which file a block shows. In the picture of a move the card before it is side 0,
/// the card after it side 1.
#[derive(Clone, Copy, Debug, PartialEq, Eq)]
pub struct Of {
    pub side: usize,
    pub kind: u16,
    pub what: What,
}

#[derive(Clone, Debug)]
pub struct Block {
    pub area: Area,
    pub class: String,
    /// What a viewer says of it; nothing where this is empty.
    pub title: String,
    /// None for a frame, a swatch of the legend or the page.
    pub of: Option<Of>,
}

#[derive(Clone, Debug)]
pub enum Shape {
    Block(Block),
    Text(Text),
    Line {
        from: (f64, f64),
        to: (f64, f64),
        class: String,
    },
}

#[derive(Clone, Debug)]
pub struct Picture {
    pub width: f64,
    pub height: f64,
    pub title: String,
    pub shapes: Vec<Shape>,
}

impl Picture {
    pub fn texts(&self) -> impl Iterator<Item = &Text> {
        self.shapes.iter().filter_map(|shape| match shape {
            Shape::Text(text) => Some(text),
            _ => None,
        })
    }

    pub fn blocks(&self) -> impl Iterator<Item = &Block> {
        self.shapes.iter().filter_map(|shape| match shape {
            Shape::Block(block) => Some(block),
            _ => None,
        })
    }

    pub fn svg(&self) -> String {
        let (width, height) = (length(self.width), length(self.height));
        let title = escaped(&self.title);
        let mut svg = format!(
            "<svg xmlns=\"http://www.w3.org/2000/svg\" width=\"{width}\" height=\"{height}\" \
             viewBox=\"0 0 {width} {height}\" font-family=\"{FONTS}\" role=\"img\">\n\
             <title>{title}</title>\n<style>\n{STYLE}</style>\n{HATCH}\n\
             <rect class=\"page\" width=\"{width}\" height=\"{height}\"/>\n"
        );
        for shape in &self.shapes {
            write_shape(&mut svg, shape);
        }
        svg.push_str("</svg>\n");
        svg
    }
}

/// Stripes, for what is written but may still change.
const HATCH: &str =
    "<defs><pattern id=\"hatch\" width=\"6\" height=\"6\" patternUnits=\"userSpaceOnUse\" \
    patternTransform=\"rotate(45)\"><rect class=\"biometrics odd\" width=\"6\" height=\"6\"/>\
    <rect class=\"biometrics even\" width=\"3\" height=\"6\"/></pattern></defs>";

fn write_shape(svg: &mut String, shape: &Shape) {
    // A string takes all that is written to it.
    let _ = match shape {
        Shape::Block(block) => write_block(svg, block),
        Shape::Text(text) => write_text(svg, text),
        Shape::Line { from, to, class } => writeln!(
            svg,
            "<line class=\"{class}\" x1=\"{}\" y1=\"{}\" x2=\"{}\" y2=\"{}\"/>",
            length(from.0),
            length(from.1),
            length(to.0),
            length(to.1)
        ),
    };
}

fn write_block(svg: &mut String, block: &Block) -> std::fmt::Result {
    let area = &block.area;
    write!(
        svg,
        "<rect class=\"{}\" x=\"{}\" y=\"{}\" width=\"{}\" height=\"{}\"",
        block.class,
        length(area.x),
        length(area.y),
        length(area.width),
        length(area.height)
    )?;
    if block.title.is_empty() {
        writeln!(svg, "/>")
    } else {
        writeln!(svg, "><title>{}</title></rect>", escaped(&block.title))
    }
}

fn write_text(svg: &mut String, text: &Text) -> std::fmt::Result {
    write!(
        svg,
        "<text class=\"{}\" x=\"{}\" y=\"{}\" font-size=\"{}\"",
        text.class,
        length(text.x),
        length(text.y),
        length(text.font.size)
    )?;
    if text.font.bold {
        write!(svg, " font-weight=\"bold\"")?;
    }
    match text.anchor {
        Anchor::Start => {}
        Anchor::Middle => write!(svg, " text-anchor=\"middle\"")?,
        Anchor::End => write!(svg, " text-anchor=\"end\"")?,
    }
    writeln!(svg, ">{}</text>", escaped(&text.words))
}

/// A length with as many digits as it needs, at most three behind the point.
fn length(value: f64) -> String {
    let digits = format!("{value:.3}");
    digits
        .trim_end_matches('0')
        .trim_end_matches('.')
        .to_string()
}

fn escaped(words: &str) -> String {
    words
        .replace('&', "&amp;")
        .replace('<', "&lt;")
        .replace('>', "&gt;")
}

#[cfg(test)]
mod tests {
    use super::*;

    #[test]
    fn lengths_and_letters() {
        assert_eq!(
            [0.0, 10.0, 1.25, 2.0 / 3.0].map(length),
            ["0", "10", "1.25", "0.667"]
        );
        assert_eq!(escaped("a<b>&c"), "a&lt;b&gt;&amp;c");
    }
}
