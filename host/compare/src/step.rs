//! One step of a run, and what a side holds between two steps.

use crate::extension::Runs;
use std::fmt;

/// One thing to do. An image or a session stays until another comes; a move that is done brings
/// the image that it wrote.
#[derive(Clone, PartialEq, Eq, Hash)]
pub enum Step {
    Image(Vec<u8>),
    Session(Vec<u8>),
    Open(Vec<u8>),
    Command {
        response_len: usize,
        command: Vec<u8>,
        /// For READ RECORD of a record that an index has read: its bytes, which the data of the
        /// answer must be.
        record: Option<Vec<u8>>,
    },
    /// A command that is cut behind so many stores. The image goes on as the cut left it.
    Cut {
        stores: usize,
        command: Vec<u8>,
    },
    Move {
        target_len: usize,
        list: Vec<u8>,
    },
    /// Where the body of this kind stands in the image.
    File(u16),
    /// The certificate of each reference from `first` to `last`, both included: as many calls.
    Certificates {
        card: Vec<u8>,
        desk: Vec<u8>,
        first: u8,
        last: u8,
    },
    Index {
        call: IndexCall,
        /// The list before the call.
        places: Vec<u32>,
        body: Vec<u8>,
    },
    /// A record, read as a stamp with a list of so many entries.
    Stamp {
        record: Vec<u8>,
        entries: usize,
    },
    /// The rights of three runs of extensions, read into a buffer of so many bytes.
    Rights {
        runs: Runs,
        room: usize,
    },
}

/// What is done with an index.
#[derive(Clone, Copy, PartialEq, Eq, Hash)]
pub enum IndexCall {
    Build {
        kind: u16,
    },
    Extend {
        kind: u16,
        n: usize,
    },
    /// Each number from `first` to `last`, both included: as many calls.
    Read {
        first: usize,
        last: usize,
    },
}

impl fmt::Display for IndexCall {
    fn fmt(&self, f: &mut fmt::Formatter<'_>) -> fmt::Result {
        match self {
            Self::Build { kind } => write!(f, "build {kind:04X}"),
            Self::Extend { kind, n } => write!(f, "extend {kind:04X} of {n} places"),
            Self::Read { first, last } => write!(f, "read {first} to {last}"),
        }
    }
}

impl Step {
    /// Leaves no more than so many calls, which are not 0.
    pub fn shorten(&mut self, calls: u64) {
        match self {
            Self::Certificates { first, last, .. } => {
                let end = u64::from(*first) + calls - 1;
                *last = end.min(u64::from(*last)) as u8;
            }
            Self::Index {
                call: IndexCall::Read { first, last },
                ..
            } => *last = first.saturating_add(calls as usize - 1).min(*last),
            _ => {}
        }
    }
}

/// What one side holds.
#[derive(Clone, Default, PartialEq, Eq)]
pub struct State {
    pub image: Vec<u8>,
    pub session: Vec<u8>,
    /// The result of the last opening, command, cut or move.
    pub result: u64,
    /// The results of the last step that is none of these: one of a file, of a stamp, of rights, and
    /// of building or extending an index; as many as there are references or numbers of certificates
    /// and of reading by an index.
    pub answers: Vec<u64>,
    /// The list after the last call of an index, or of a stamp.
    pub places: Vec<u32>,
    /// The buffer after the last reading of rights.
    pub rights: Vec<u8>,
    /// A session that was then opened with what it holds; none where that is too short.
    pub opened: Vec<u8>,
}

impl State {
    pub fn refusal(&self) -> u64 {
        self.result >> 32
    }

    /// Goes on with the card that a move wrote into the target, if it was done.
    pub fn take_moved(&mut self, target: &[u8]) {
        if self.refusal() == 0 {
            self.image = target[..self.result as usize].to_vec();
        }
    }

    /// The results of the calls of this step, which was the last.
    pub fn results(&self, step: &Step) -> &[u64] {
        match step {
            Step::Image(_) | Step::Session(_) => &[],
            Step::Open(_) | Step::Command { .. } | Step::Cut { .. } | Step::Move { .. } => {
                std::slice::from_ref(&self.result)
            }
            Step::File(_)
            | Step::Certificates { .. }
            | Step::Index { .. }
            | Step::Stamp { .. }
            | Step::Rights { .. } => &self.answers,
        }
    }
}
