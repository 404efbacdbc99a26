//! A sample of calls as data for the program `crates/test_sample`: what it reads, and what it must
//! print. The answers are the reference's alone.

use crate::card::Size;
use crate::extension::Runs;
use crate::extension_scene;
use crate::hex::{fnv, fnv_of_places, hex};
use crate::make::CHAIN_DATA;
use crate::sequence::Sequence;
use crate::stamp_scene;
use crate::step::{IndexCall, State, Step};
use crate::tally::Tally;
use std::ops::RangeInclusive;

/// The seed of the sample that is kept as data.
pub const SEED: u64 = 94_677;
/// The most bytes the sample may have. The program that reads it has room for 786,432 bytes.
pub const LONGEST: usize = 640_000;
/// How many bytes of a session the output has: those before the data of its chain.
const TOLD: usize = CHAIN_DATA;
/// What the response buffer holds before each command, and the target before each move.
const FILL: u8 = 0xA5;

#[derive(Default)]
pub struct Sample {
    pub stdin: Vec<u8>,
    pub stdout: String,
    pub tally: Tally,
}

impl Sample {
    /// As many whole sequences of the seed as fit.
    pub fn generate(seed: u64) -> Self {
        let mut sample = Self::default();
        for number in 0.. {
            let (stdin, lines) = one_sequence(seed, number);
            if sample.stdin.len() + stdin.len() > LONGEST {
                break;
            }
            sample.stdin.extend(stdin);
            for line in lines {
                sample.stdout.push_str(&line.text);
                sample.tally.step(&line.step, &line.before, &line.results);
            }
        }
        sample
    }
}

/// A step that has calls.
struct Lines {
    /// A line of output for each call.
    text: String,
    step: Step,
    before: State,
    results: Vec<u64>,
}

fn one_sequence(seed: u64, number: u64) -> (Vec<u8>, Vec<Lines>) {
    let mut sequence = Sequence::new(seed, number, Size::Small);
    let mut state = State::default();
    let mut stdin = Vec::new();
    let mut lines = Vec::new();
    while let Some(step) = sequence.next(&state) {
        encode(&step, &mut stdin);
        let before = state.clone();
        if let Some(text) = done(&mut state, &step) {
            let results = state.results(&step).to_vec();
            lines.push(Lines {
                text,
                step,
                before,
                results,
            });
        }
    }
    (stdin, lines)
}

/// Does a step and says what it did; nothing of one that is no call.
fn done(state: &mut State, step: &Step) -> Option<String> {
    Some(match step {
        Step::Image(image) => {
            state.image.clone_from(image);
            return None;
        }
        Step::Session(session) => {
            state.session.clone_from(session);
            return None;
        }
        Step::Open(rights) => open(state, rights),
        Step::Command {
            response_len,
            command,
            ..
        } => run(state, *response_len, command),
        Step::Cut { stores, command } => cut(state, *stores, command),
        Step::Move { target_len, list } => move_card(state, *target_len, list),
        Step::File(kind) => find_file(state, *kind),
        Step::Certificates {
            card,
            desk,
            first,
            last,
        } => find_certificates(state, card, desk, *first..=*last),
        Step::Index { call, places, body } => index(state, *call, places, body),
        Step::Stamp { record, entries } => read_stamp(state, record, *entries),
        Step::Rights { runs, room } => read_rights(state, runs, *room),
    })
}

/// Opens a session and says what it is then.
fn open(state: &mut State, rights: &[u8]) -> String {
    state.result = reference::open(rights, &mut state.session);
    format!("{} {}\n", state.result, told(&state.session))
}

/// A session in the output: its first bytes, and a hash of all, since most of them are zeros.
fn told(session: &[u8]) -> String {
    let first = &session[..session.len().min(TOLD)];
    format!("{} {}", hex(first), fnv(session))
}

/// Runs a command and says what it did.
fn run(state: &mut State, response_len: usize, command: &[u8]) -> String {
    let mut response = vec![FILL; response_len];
    state.result = reference::command(&mut state.image, &mut state.session, command, &mut response);
    let length = usize::from((state.result >> 16) as u16);
    format!(
        "{} {} {} {} {}\n",
        state.result,
        hex(&response[..length]),
        told(&state.session),
        fnv(&state.image),
        fnv(&response)
    )
}

/// Cuts a command and says what the image is then.
fn cut(state: &mut State, stores: usize, command: &[u8]) -> String {
    state.result = reference::cut(&mut state.image, &state.session, command, stores);
    format!("{} {}\n", state.result, fnv(&state.image))
}

/// Moves the card and says what that did. The card that a move wrote is the card from then on.
fn move_card(state: &mut State, target_len: usize, list: &[u8]) -> String {
    let mut target = vec![FILL; target_len];
    state.result = reference::move_card(&state.image, list, &mut target);
    state.take_moved(&target);
    format!("{} {}\n", state.result, fnv(&target))
}

/// Finds a file and says which bytes of the image it has.
fn find_file(state: &mut State, kind: u16) -> String {
    let result = reference::file(&state.image, kind);
    state.answers = vec![result];
    let (place, length) = ((result >> 32) as usize, result as u32 as usize);
    format!("{result} {}\n", fnv(&state.image[place..place + length]))
}

/// Finds certificates and says which bytes each has.
fn find_certificates(
    state: &mut State,
    card: &[u8],
    desk: &[u8],
    references: RangeInclusive<u8>,
) -> String {
    state.answers = references
        .map(|reference| reference::certificate(card, desk, reference))
        .collect();
    let answers = state.answers.iter();
    answers.fold(String::new(), |text, result| {
        let (place, length) = ((result >> 10 & 0x3FFFF) as usize, (result & 0x3FF) as usize);
        let body = match result >> 28 {
            1 => card,
            2 => desk,
            // Missing or refused: place and length are 0.
            _ => &[],
        };
        text + &format!("{result} {}\n", hex(&body[place..place + length]))
    })
}

/// Builds or extends an index and says what the list is then; or reads by it and says which bytes
/// each record has.
fn index(state: &mut State, call: IndexCall, places: &[u32], body: &[u8]) -> String {
    state.places = places.to_vec();
    let result = match call {
        IndexCall::Build { kind } => reference::index_build(kind, body, &mut state.places),
        IndexCall::Extend { kind, n } => reference::index_extend(kind, body, &mut state.places, n),
        IndexCall::Read { first, last } => return read(state, body, first..=last),
    };
    state.answers = vec![result];
    format!("{result} {}\n", fnv_of_places(&state.places))
}

fn read(state: &mut State, body: &[u8], numbers: RangeInclusive<usize>) -> String {
    state.answers.clear();
    numbers.fold(String::new(), |text, number| {
        let result = reference::index_read(body, &state.places, number);
        state.answers.push(result);
        let record = match result >> 32 {
            0 => &body[state.places[number - 1] as usize + 2..][..result as usize],
            _ => &[],
        };
        text + &format!("{result} {}\n", hex(record))
    })
}

/// Reads a stamp and says what the list is then.
fn read_stamp(state: &mut State, record: &[u8], entries: usize) -> String {
    state.places = vec![stamp_scene::FILL; entries];
    let result = reference::stamp::read_call(record, &mut state.places);
    state.answers = vec![result];
    format!("{result} {}\n", fnv_of_places(&state.places))
}

/// Reads rights and says what the buffer is then.
fn read_rights(state: &mut State, [first, second, third]: &Runs, room: usize) -> String {
    state.rights = vec![extension_scene::FILL; room];
    let result = reference::rights(first, second, third, &mut state.rights);
    state.answers = vec![result];
    format!("{result} {}\n", hex(&state.rights))
}

/// A case: 1 image, 2 session, 3 open, 4 command, 5 move, 6 file, 7 certificates, 8 an index,
/// 9 a stamp, 10 rights, 11 a cut; numbers are little-endian.
fn encode(step: &Step, bytes: &mut Vec<u8>) {
    match step {
        Step::Image(image) => case(1, &[], &[image], bytes),
        Step::Session(session) => {
            let given = without_zeros(session);
            let lengths = [two(session.len()), two(given.len())].concat();
            case(2, &[&lengths, given], &[], bytes);
        }
        Step::Open(rights) => case(3, &[&two(rights.len()), rights], &[], bytes),
        Step::Command {
            response_len,
            command,
            ..
        } => {
            let lengths = [two(*response_len), two(command.len())].concat();
            case(4, &[&lengths, command], &[], bytes);
        }
        Step::Move { target_len, list } => {
            let room = (*target_len as u32).to_le_bytes();
            case(5, &[&room, &two(list.len()), list], &[], bytes);
        }
        Step::File(kind) => case(6, &[&kind.to_le_bytes()], &[], bytes),
        Step::Certificates {
            card,
            desk,
            first,
            last,
        } => case(7, &[&[*first, *last]], &[card, desk], bytes),
        Step::Index { call, places, body } => {
            case(8, &[&index_head(*call, places)], &[body], bytes);
        }
        Step::Stamp { record, entries } => case(9, &[&two(*entries)], &[record], bytes),
        Step::Rights { runs, room } => case(10, &[&two(*room)], &runs.each_ref(), bytes),
        Step::Cut { stores, command } => {
            let stores = (*stores as u64).to_le_bytes();
            case(11, &[&stores, &two(command.len()), command], &[], bytes);
        }
    }
}

/// The number of a case, the bytes of its head, and its parts: of each the length in four bytes,
/// and its bytes.
fn case(number: u8, head: &[&[u8]], parts: &[&Vec<u8>], bytes: &mut Vec<u8>) {
    bytes.push(number);
    bytes.extend(head.concat());
    for part in parts {
        bytes.extend((part.len() as u32).to_le_bytes());
        bytes.extend(*part);
    }
}

/// The bytes up to the last that is not zero. Of a session no more are given.
fn without_zeros(bytes: &[u8]) -> &[u8] {
    let end = bytes.iter().rposition(|byte| *byte != 0);
    &bytes[..end.map_or(0, |last| last + 1)]
}

/// A number in two bytes.
fn two(number: usize) -> [u8; 2] {
    (number as u16).to_le_bytes()
}

/// What is done with an index, its numbers and the list.
fn index_head(call: IndexCall, places: &[u32]) -> Vec<u8> {
    let (op, kind, first, last) = match call {
        IndexCall::Build { kind } => (0, kind, 0, 0),
        IndexCall::Extend { kind, n } => (1, kind, n, 0),
        IndexCall::Read { first, last } => (2, 0, first, last),
    };
    let mut head = vec![op];
    head.extend(kind.to_le_bytes());
    head.extend((first as u64).to_le_bytes());
    head.extend((last as u64).to_le_bytes());
    head.extend(two(places.len()));
    head.extend(places.iter().flat_map(|place| place.to_le_bytes()));
    head
}

#[cfg(test)]
mod tests {
    use super::*;

    fn encoded(session: Vec<u8>) -> Vec<u8> {
        let mut bytes = Vec::new();
        encode(&Step::Session(session), &mut bytes);
        bytes
    }

    #[test]
    fn a_session_is_given_up_to_its_zeros() {
        assert_eq!(encoded(vec![]), [2, 0, 0, 0, 0]);
        assert_eq!(encoded(vec![0; 3]), [2, 3, 0, 0, 0]);
        assert_eq!(encoded(vec![0, 7, 0]), [2, 3, 0, 2, 0, 0, 7]);
        let mut session = vec![0; 1_054];
        session[0] = 9;
        assert_eq!(encoded(session.clone()), [2, 0x1E, 4, 1, 0, 9]);
        session[1_053] = 1;
        assert_eq!(encoded(session)[..5], [2, 0x1E, 4, 0x1E, 4]);
    }

    #[test]
    fn a_session_is_told_by_its_first_bytes() {
        assert_eq!(told(&[]), format!("- {}", fnv(&[])));
        assert_eq!(told(&[1, 2]), format!("0102 {}", fnv(&[1, 2])));
        let long = [0xAB; 1_054];
        assert_eq!(told(&long), format!("{} {}", "ab".repeat(30), fnv(&long)));
    }
}
