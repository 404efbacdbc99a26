//! Tests of the pictures and of the program.

mod cards;
mod pictures;
mod program;
