//! Lines of a scene: a step each, and what must come of it.

use crate::make::{self, Apdu, SESSION_LEN, SHORTEST_RESPONSE};
use crate::step::Step;

/// A step and what comes of it: a command's answer in hexadecimal, or `refusal` and its number; how
/// many stores a cut command has, or `refusal` and its number, and a hash of the image; `refusal` and
/// its number, or how many bytes the new image has; how many bytes a file has and where, or `none`; of
/// each certificate the body that has it, its place there and its bytes, or `missing`, or
/// `refusal 9`, with a comma between them; of an index, a stamp and rights what their own scenes say;
/// nothing for what is no call, and for the opening.
pub type Line = (Step, String);

pub fn card(image: Vec<u8>) -> Line {
    (Step::Image(image), String::new())
}

pub fn run(command: &Apdu, answer: &str) -> Line {
    let step = Step::Command {
        response_len: SHORTEST_RESPONSE,
        command: command.bytes(),
        record: None,
    };
    (step, answer.to_string())
}

pub fn moves(list: Vec<u8>, target_len: usize, outcome: &str) -> Line {
    (Step::Move { target_len, list }, outcome.to_string())
}

/// A move that is done, with a target of `more` bytes than it needs.
pub fn moved(rows: &[(u16, usize)], more: usize) -> Line {
    let length = rows.iter().map(|(_, length)| 6 + length).sum::<usize>();
    moves(make::list(rows), length + more, &format!("{length} bytes"))
}

/// A move that is refused for another reason than the target's length.
pub fn refused(rows: &[(u16, usize)], number: u8) -> Line {
    moves(make::list(rows), 400, &format!("refusal {number}"))
}

pub fn select(application: u8) -> Line {
    select_with(application, "9000")
}

pub fn select_with(application: u8, answer: &str) -> Line {
    let command = Apdu::new(0x00, 0xA4, 0x04, 0x0C).data(make::aid(application).to_vec());
    run(&command, answer)
}

/// A session of these rights in place of the one there was.
pub fn opened(rights: Vec<u8>) -> [Line; 2] {
    [
        (Step::Session(vec![0; SESSION_LEN]), String::new()),
        (Step::Open(rights), String::new()),
    ]
}
