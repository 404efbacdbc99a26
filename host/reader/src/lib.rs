//! The proved card in vsmartcard's virtual reader (vpcd), where any PC/SC program sees it.
//!
//! Each module uses only those above it in this list:
//! - [`fault`]: why the program ends early;
//! - [`atr`]: what the card says of itself when it gets power;
//! - [`connection`]: the connection to the virtual reader; [`vpcd`]: the messages on it;
//! - [`file`]: the card's file;
//! - [`card`]: the card: image, session and file;
//! - [`serve`]: the card's side of the conversation;
//! - [`arguments`]: what the command line asks for.

#![forbid(unsafe_code)]

pub mod arguments;
pub mod atr;
pub mod card;
pub mod connection;
pub mod fault;
pub mod file;
pub mod serve;
pub mod vpcd;
