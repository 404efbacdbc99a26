//! Why the program ends early, in words, and with which exit status.

use std::fmt;

#[derive(Debug, PartialEq, Eq)]
pub enum Fault {
    /// The arguments cannot be read, or there is no reader, or it does not keep to its protocol.
    Use(String),
    /// The card's file cannot be read or written, or is no card.
    Card(String),
}

impl Fault {
    /// The exit status, as the terminal has it.
    pub fn status(&self) -> u8 {
        match self {
            Self::Use(_) => 1,
            Self::Card(_) => 2,
        }
    }
}

impl fmt::Display for Fault {
    fn fmt(&self, f: &mut fmt::Formatter<'_>) -> fmt::Result {
        match self {
            Self::Use(words) | Self::Card(words) => f.write_str(words),
        }
    }
}

impl std::error::Error for Fault {}
