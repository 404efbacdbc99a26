//! What the command line asks for.

use crate::fault::Fault;
use crate::vpcd;
use std::ffi::{OsStr, OsString};
use std::path::PathBuf;

pub const HELP: &str = "\
usage: reader CARD [--rights HEX120] [--port NUMBER]

Puts a card into vsmartcard's virtual reader, where any PC/SC program sees it.
pcscd has to run, with vsmartcard-vpcd. The card stays until the reader goes.

  CARD              the file of a card image; a change is in it before the
                    answer is sent; no other program may write it meanwhile
  --rights HEX120   the rights of three certificates, 60 bytes in hexadecimal;
                    power on and reset open a session with them; without this
                    option every session has all rights
  --port NUMBER     the reader's port on this machine; 35963 without this option
  --help            prints this

Exit status: 0 the reader has gone, and the card is kept; 1 the arguments cannot
be read, there is no reader, or it broke off; 2 the card's file cannot be read or
written, or is no card.
";

/// How many bytes the rights of three certificates have.
const RIGHTS_LEN: usize = 60;

#[derive(Debug, PartialEq, Eq)]
pub enum Request {
    Help,
    Run(Run),
}

#[derive(Debug, PartialEq, Eq)]
pub struct Run {
    pub card: PathBuf,
    pub rights: Vec<u8>,
    pub port: u16,
}

/// What the arguments behind the program's name ask for.
pub fn read(mut arguments: impl Iterator<Item = OsString>) -> Result<Request, Fault> {
    let mut card = None;
    let mut rights = vec![0xFF; RIGHTS_LEN];
    let mut port = vpcd::PORT;
    while let Some(argument) = arguments.next() {
        match argument.to_str() {
            Some("--help" | "-h") => return Ok(Request::Help),
            Some("--rights") => rights = read_rights(arguments.next())?,
            Some("--port") => port = read_port(arguments.next())?,
            Some(option) if option.starts_with('-') => {
                return Err(wrong(&format!("there is no option {option}")));
            }
            _ if card.is_none() => card = Some(argument.into()),
            _ => return Err(wrong("there can be one card only")),
        }
    }
    let card = card.ok_or_else(|| wrong("the card's file is not given"))?;
    Ok(Request::Run(Run { card, rights, port }))
}

fn wrong(words: &str) -> Fault {
    Fault::Use(format!("{words}; --help says what can be given"))
}

fn read_rights(value: Option<OsString>) -> Result<Vec<u8>, Fault> {
    value
        .as_deref()
        .and_then(OsStr::to_str)
        .and_then(bytes_of)
        .filter(|rights| rights.len() == RIGHTS_LEN)
        .ok_or_else(|| wrong("--rights needs 60 bytes, which are 120 hexadecimal digits"))
}

fn read_port(value: Option<OsString>) -> Result<u16, Fault> {
    value
        .as_deref()
        .and_then(OsStr::to_str)
        .and_then(|digits| digits.parse().ok())
        .filter(|port| *port != 0)
        .ok_or_else(|| wrong("--port needs a number from 1 to 65535"))
}

/// The bytes that hexadecimal digits stand for, two to a byte.
fn bytes_of(digits: &str) -> Option<Vec<u8>> {
    let value = |digit: &u8| char::from(*digit).to_digit(16);
    let byte = |pair: &[u8]| match pair {
        [high, low] => Some((value(high)? << 4 | value(low)?) as u8),
        _ => None,
    };
    digits.as_bytes().chunks(2).map(byte).collect()
}

#[cfg(test)]
mod tests {
    use super::*;

    fn asked(line: &str) -> Result<Request, Fault> {
        read(line.split_whitespace().map(OsString::from))
    }

    fn run(card: &str, rights: Vec<u8>, port: u16) -> Result<Request, Fault> {
        let card = card.into();
        Ok(Request::Run(Run { card, rights, port }))
    }

    #[test]
    fn all_rights_and_the_readers_own_port_where_nothing_is_said() {
        assert_eq!(asked("a.card"), run("a.card", vec![0xFF; 60], 35_963));
    }

    #[test]
    fn rights_and_port() {
        let line = format!("--port 7 a.card --rights {}", "0aF9".repeat(30));
        assert_eq!(asked(&line), run("a.card", [0x0A, 0xF9].repeat(30), 7));
    }

    #[test]
    fn help_comes_before_all() {
        assert_eq!(asked("--help"), Ok(Request::Help));
        assert_eq!(asked("a.card --help b.card"), Ok(Request::Help));
    }

    #[test]
    fn what_cannot_be_read() {
        let odd = format!("a.card --rights {}F", "FF".repeat(59));
        let short = format!("a.card --rights {}", "FF".repeat(59));
        let sign = format!("a.card --rights +F{}", "FF".repeat(59));
        let wide = format!("a.card --rights {}", "é".repeat(60));
        let lines = [
            "",
            "a.card b.card",
            "a.card --rights",
            "a.card --port",
            "a.card --port 0",
            "a.card --port 65536",
            "a.card --ports 7",
            &odd,
            &short,
            &sign,
            &wide,
        ];
        for line in lines {
            let fault = asked(line).expect_err(line);
            assert_eq!(fault.status(), 1, "{line}");
        }
    }
}
