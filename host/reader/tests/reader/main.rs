//! Tests that play the virtual reader themselves, so they need no packages.
//! - [`mock`]: the reader, and a card for it;
//! - [`conversation`]: what the card answers, and what its file then holds;
//! - [`program`]: the program as a process.

mod conversation;
mod mock;
mod program;
