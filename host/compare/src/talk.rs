//! Commands for one card, each with the answer of the library called directly. A program that
//! stands between a caller and the library has to give the same answers.

use crate::card::{self, Size};
use crate::command;
use crate::hex::hex;
use crate::make::{RIGHTS_LEN, SESSION_LEN, SHORTEST_RESPONSE};
use crate::random::Random;
use crate::rights;
use crate::view::View;
use std::fmt::Write;
use std::ops::RangeInclusive;

/// How long a command may be that a virtual reader can carry: a message of one byte controls the
/// card, and the length of a message has two bytes.
pub const CARRIED: RangeInclusive<usize> = 2..=0xFFFF;

/// One thing that a caller does.
pub enum Turn {
    /// A new session, with the rights of the talk.
    Reset,
    Command {
        command: Vec<u8>,
        /// Data and status word.
        answer: Vec<u8>,
    },
}

pub struct Talk {
    /// The card before the first turn.
    pub image: Vec<u8>,
    pub rights: Vec<u8>,
    pub turns: Vec<Turn>,
    /// The card behind the last turn.
    pub after: Vec<u8>,
}

impl Talk {
    /// The talk of this number in the run of this seed; the first has all rights.
    pub fn new(seed: u64, number: u64, commands: usize) -> Self {
        let mut random = Random::part(seed, number);
        let image = some_image(&mut random);
        let rights = match number {
            0 => vec![0xFF; RIGHTS_LEN],
            _ => some_rights(&mut random),
        };
        let mut caller = Caller {
            after: image.clone(),
            session: open(&rights),
            turns: Vec::new(),
        };
        for _ in 0..commands {
            if random.one_in(50) {
                caller.session = open(&rights);
                caller.turns.push(Turn::Reset);
            }
            caller.command(&mut random);
        }
        Self {
            image,
            rights,
            turns: caller.turns,
            after: caller.after,
        }
    }

    /// A line for each turn: `reset`, or a command and its answer in hexadecimal.
    pub fn lines(&self) -> String {
        self.turns.iter().fold(String::new(), |mut text, turn| {
            let _ = match turn {
                Turn::Reset => writeln!(text, "reset"),
                Turn::Command { command, answer } => {
                    writeln!(text, "{} {}", hex(command), hex(answer))
                }
            };
            text
        })
    }
}

/// What the library works on while the turns are made.
struct Caller {
    after: Vec<u8>,
    session: Vec<u8>,
    turns: Vec<Turn>,
}

impl Caller {
    fn command(&mut self, random: &mut Random) {
        let command = self.some_command(random);
        let mut answer = vec![0; SHORTEST_RESPONSE];
        let result =
            malquindo_sys::command(&mut self.after, &mut self.session, &command, &mut answer);
        assert_eq!(
            result >> 32,
            0,
            "a refusal, with an image and a session that fit"
        );
        answer.truncate((result >> 16) as usize);
        self.turns.push(Turn::Command { command, answer });
    }

    /// A command for what the card and the session are now, of a length that can be carried.
    fn some_command(&self, random: &mut Random) -> Vec<u8> {
        let view = View::new(&self.after, &self.session);
        loop {
            let command = command::command(random, &view, &self.after, Size::Any);
            if CARRIED.contains(&command.len()) {
                return command;
            }
        }
    }
}

fn open(rights: &[u8]) -> Vec<u8> {
    let mut session = vec![0; SESSION_LEN];
    malquindo_sys::open(rights, &mut session);
    session
}

/// A card that has files. Made-up images are one byte too long now and then.
fn some_image(random: &mut Random) -> Vec<u8> {
    loop {
        let image = card::image(random, Size::Any);
        if !image.is_empty() && is_card(&image) {
            return image;
        }
    }
}

/// Whether the library takes an image: a command on it is not refused.
fn is_card(image: &[u8]) -> bool {
    let mut session = open(&[0; RIGHTS_LEN]);
    let mut response = vec![0; SHORTEST_RESPONSE];
    malquindo_sys::command(&mut image.to_vec(), &mut session, &[], &mut response) >> 32 == 0
}

fn some_rights(random: &mut Random) -> Vec<u8> {
    loop {
        let rights = rights::chain(random);
        if rights.len() == RIGHTS_LEN {
            return rights;
        }
    }
}
