//! Draws a card image as an SVG picture, alone or before and after a move.
//!
//! Each module uses only those above it in this list:
//! - [`card`]: what a card holds; [`rooms`]: the list of a move;
//! - [`letters`]: how wide a text is, and how a number is written;
//! - [`picture`]: shapes, and the SVG that they make;
//! - [`numbers`]: which record numbers stand beside a bar;
//! - [`scale`]: how wide a byte is;
//! - [`bar`]: the bars of one file;
//! - [`table`]: the columns to the left of the bars; [`legend`]: what the shapes mean;
//! - [`page`]: the whole picture.

#![forbid(unsafe_code)]

pub mod bar;
pub mod card;
pub mod legend;
pub mod letters;
pub mod numbers;
pub mod page;
pub mod picture;
pub mod rooms;
pub mod scale;
pub mod table;
