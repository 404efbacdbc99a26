//! Both implementations on the same calls, each with its own copies.

use crate::card::Size;
use crate::hex::hex;
use crate::index;
use crate::make::{CERTIFICATE_LEN, RIGHTS_LEN, SESSION_LEN};
use crate::random::Random;
use crate::sequence::Sequence;
use crate::step::{IndexCall, State, Step};
use crate::tally::Tally;
use std::fmt;

/// Opening: rights, session.
pub type Open = fn(&[u8], &mut [u8]) -> u64;
/// A command: image, session, command, response.
pub type Command = fn(&mut [u8], &mut [u8], &[u8], &mut [u8]) -> u64;
/// A cut: image, session, command, stores.
pub type Cut = fn(&mut [u8], &[u8], &[u8], usize) -> u64;
/// A move: old image, list, target.
pub type MoveCard = fn(&[u8], &[u8], &mut [u8]) -> u64;
/// Where a file stands: image, kind.
pub type File = fn(&[u8], u16) -> u64;
/// The certificate that a stamp names: the card's body, the desk's, reference.
pub type Certificate = fn(&[u8], &[u8], u8) -> u64;
/// Builds an index: kind, body, list.
pub type IndexBuild = fn(u16, &[u8], &mut [u32]) -> u64;
/// Extends an index: kind, body, list, the number of places that it holds.
pub type IndexExtend = fn(u16, &[u8], &mut [u32], usize) -> u64;
/// Reads by an index: body, list, number.
pub type IndexRead = fn(&[u8], &[u32], usize) -> u64;
/// Reads a stamp: record, list.
pub type StampRead = fn(&[u8], &mut [u32]) -> u64;
/// Reads rights: three runs of extensions, buffer.
pub type Rights = fn(&[u8], &[u8], &[u8], &mut [u8]) -> u64;

/// One implementation.
pub struct Machine {
    pub open: Open,
    pub command: Command,
    pub cut: Cut,
    pub move_card: MoveCard,
    pub file: File,
    pub certificate: Certificate,
    pub index_build: IndexBuild,
    pub index_extend: IndexExtend,
    pub index_read: IndexRead,
    pub stamp_read: StampRead,
    pub rights: Rights,
}

pub const PROVED: Machine = Machine {
    open: malquindo_sys::open,
    command: malquindo_sys::command,
    cut: malquindo_sys::cut,
    move_card: malquindo_sys::move_card,
    file: malquindo_sys::file,
    certificate: malquindo_sys::certificate,
    index_build: malquindo_sys::index_build,
    index_extend: malquindo_sys::index_extend,
    index_read: malquindo_sys::index_read,
    stamp_read: malquindo_sys::stamp_read,
    rights: malquindo_sys::rights,
};

pub const REFERENCE: Machine = Machine {
    open: reference::open,
    command: reference::command,
    cut: reference::cut,
    move_card: reference::move_card,
    file: reference::file,
    certificate: reference::certificate,
    index_build: reference::index_build,
    index_extend: reference::index_extend,
    index_read: reference::index_read,
    stamp_read: reference::stamp::read_call,
    rights: reference::rights,
};

/// All that a call may change.
#[derive(Clone, Default, PartialEq, Eq)]
pub struct Outcome {
    pub state: State,
    pub response: Vec<u8>,
    pub target: Vec<u8>,
}

/// A call after which the two sides are not the same; READ RECORD of a record that an index has
/// read otherwise; or rights in a session that was opened after a refusal.
pub struct Difference {
    pub seed: u64,
    pub sequence: u64,
    /// The number of the step in its sequence, from 0.
    pub number: u64,
    pub step: Step,
    pub before: Outcome,
    pub proved: Outcome,
    pub reference: Outcome,
}

/// Compares so many calls of the seed, in as many sequences as it takes.
pub fn compare(seed: u64, calls: u64) -> Result<Tally, Box<Difference>> {
    compare_machines(seed, calls, &PROVED, &REFERENCE)
}

/// Compares so many reads of stamps of the seed, and nothing else.
pub fn compare_stamps(seed: u64, calls: u64) -> Result<Tally, Box<Difference>> {
    compare_stamp_readers(seed, calls, &PROVED, &REFERENCE)
}

/// The same of any two implementations.
pub fn compare_stamp_readers(
    seed: u64,
    calls: u64,
    proved: &Machine,
    reference: &Machine,
) -> Result<Tally, Box<Difference>> {
    compare_sequences(seed, calls, proved, reference, Sequence::of_stamps)
}

/// Compares so many readings of rights of the seed, and nothing else.
pub fn compare_rights(seed: u64, calls: u64) -> Result<Tally, Box<Difference>> {
    compare_rights_readers(seed, calls, &PROVED, &REFERENCE)
}

/// The same of any two implementations.
pub fn compare_rights_readers(
    seed: u64,
    calls: u64,
    proved: &Machine,
    reference: &Machine,
) -> Result<Tally, Box<Difference>> {
    compare_sequences(seed, calls, proved, reference, Sequence::of_rights)
}

/// Compares any two implementations; the sequences go on from what the second one left.
pub fn compare_machines(
    seed: u64,
    calls: u64,
    proved: &Machine,
    reference: &Machine,
) -> Result<Tally, Box<Difference>> {
    let sequence = |seed, number| Sequence::new(seed, number, Size::Any);
    compare_sequences(seed, calls, proved, reference, sequence)
}

/// The same without the calls that every run begins with: what is made up alone.
pub fn compare_without_scene(
    seed: u64,
    calls: u64,
    proved: &Machine,
    reference: &Machine,
) -> Result<Tally, Box<Difference>> {
    let sequence = |seed, number| Sequence::new(seed, 1 + number, Size::Any);
    compare_sequences(seed, calls, proved, reference, sequence)
}

/// The same with the sequences that a seed and a number give.
fn compare_sequences(
    seed: u64,
    calls: u64,
    proved: &Machine,
    reference: &Machine,
    sequence: impl Fn(u64, u64) -> Sequence,
) -> Result<Tally, Box<Difference>> {
    let mut tally = Tally::default();
    let mut sides = Sides::default();
    let mut fill = Random::part(seed, u64::MAX);
    for number in 0.. {
        let mut sequence = sequence(seed, number);
        let mut step_number = 0;
        sides.start();
        while let Some(mut step) = sequence.next(&sides.reference.state) {
            if tally.calls() == calls {
                return Ok(tally);
            }
            step.shorten(calls - tally.calls());
            sides.prepare(&step, &mut fill);
            sides.proved.run(&step, proved);
            sides.reference.run(&step, reference);
            if !sides.agree(&step) {
                return Err(Box::new(Difference {
                    seed,
                    sequence: number,
                    number: step_number,
                    step,
                    before: sides.before,
                    proved: sides.proved,
                    reference: sides.reference,
                }));
            }
            let results = sides.reference.state.results(&step);
            tally.step(&step, &sides.before.state, results);
            sides.go_on(&step);
            step_number += 1;
        }
    }
    Ok(tally)
}

/// The two sides, and what both held before the call at hand.
#[derive(Default)]
struct Sides {
    before: Outcome,
    proved: Outcome,
    reference: Outcome,
}

impl Sides {
    fn start(&mut self) {
        self.proved = Outcome::default();
        self.reference = Outcome::default();
    }

    /// Gives both sides the same response buffer, target, list or buffer for rights, of random
    /// bytes, and keeps what they hold.
    fn prepare(&mut self, step: &Step, fill: &mut Random) {
        let sides = [&mut self.before, &mut self.proved, &mut self.reference];
        match step {
            Step::Command { response_len, .. } => {
                lend(sides, &fill.bytes(*response_len), |side| &mut side.response);
            }
            Step::Move { target_len, .. } => {
                lend(sides, &fill.bytes(*target_len), |side| &mut side.target);
            }
            Step::Stamp { entries, .. } => {
                let places = index::made_up(fill, *entries);
                lend(sides, &places, |side| &mut side.state.places);
            }
            Step::Rights { room, .. } => {
                lend(sides, &fill.bytes(*room), |side| &mut side.state.rights);
            }
            // These have no buffer to fill, or bring their own.
            Step::Image(_)
            | Step::Session(_)
            | Step::Open(_)
            | Step::Cut { .. }
            | Step::File(_)
            | Step::Certificates { .. }
            | Step::Index { .. } => {}
        }
        let held = &self.reference.state;
        self.before.state.image.clone_from(&held.image);
        self.before.state.session.clone_from(&held.session);
    }

    /// Whether nothing is wrong after a step.
    fn agree(&self, step: &Step) -> bool {
        self.proved == self.reference && self.read_again(step) && self.without_rights(step)
    }

    /// Whether a record that an index has read is what READ RECORD answers, on both sides.
    fn read_again(&self, step: &Step) -> bool {
        match step {
            Step::Command {
                record: Some(record),
                ..
            } => [&self.proved, &self.reference]
                .iter()
                .all(|side| side.answer() == [record, &[0x90, 0x00][..]].concat()),
            _ => true,
        }
    }

    /// Whether a session that was opened after rights were refused has none, on both sides.
    fn without_rights(&self, step: &Step) -> bool {
        let refused = |state: &State| match step {
            Step::Rights { .. } => state.answers.iter().any(|result| *result != 0),
            _ => false,
        };
        [&self.proved.state, &self.reference.state]
            .iter()
            .filter(|state| refused(state))
            .flat_map(|state| state.opened.iter().take(CERTIFICATE_LEN))
            .all(|byte| *byte == 0)
    }

    /// After a move that is done the card is the one that it wrote. The old one was compared
    /// before.
    fn go_on(&mut self, step: &Step) {
        if let Step::Move { .. } = step {
            for side in [&mut self.proved, &mut self.reference] {
                side.state.take_moved(&side.target);
            }
        }
    }
}

/// Gives each side the same bytes or places to begin with.
fn lend<T: Clone>(sides: [&mut Outcome; 3], given: &[T], of: impl Fn(&mut Outcome) -> &mut Vec<T>) {
    for side in sides {
        let buffer = of(side);
        buffer.clear();
        buffer.extend_from_slice(given);
    }
}

impl Outcome {
    fn run(&mut self, step: &Step, machine: &Machine) {
        let State {
            image,
            session,
            result,
            answers,
            places,
            rights,
            opened,
        } = &mut self.state;
        match step {
            Step::Image(new) => image.clone_from(new),
            Step::Session(new) => session.clone_from(new),
            Step::Open(rights) => *result = (machine.open)(rights, session),
            Step::Command { command, .. } => {
                *result = (machine.command)(image, session, command, &mut self.response);
            }
            Step::Cut { stores, command } => {
                *result = (machine.cut)(image, session, command, *stores);
            }
            Step::Move { list, .. } => {
                *result = (machine.move_card)(image, list, &mut self.target);
            }
            Step::File(kind) => *answers = vec![(machine.file)(image, *kind)],
            Step::Certificates {
                card,
                desk,
                first,
                last,
            } => {
                let certificate = |reference| (machine.certificate)(card, desk, reference);
                *answers = (*first..=*last).map(certificate).collect();
            }
            Step::Index {
                call,
                places: list,
                body,
            } => {
                places.clone_from(list);
                *answers = index_calls(machine, *call, body, places);
            }
            Step::Stamp { record, .. } => *answers = vec![(machine.stamp_read)(record, places)],
            Step::Rights {
                runs: [first, second, third],
                ..
            } => {
                *answers = vec![(machine.rights)(first, second, third, rights)];
                *opened = open(rights, machine.open);
            }
        }
    }

    /// What a command answered: data and status word.
    fn answer(&self) -> &[u8] {
        let length = usize::from((self.state.result >> 16) as u16);
        self.response.get(..length).unwrap_or_default()
    }
}

/// The results of the calls of an index.
fn index_calls(machine: &Machine, call: IndexCall, body: &[u8], places: &mut [u32]) -> Vec<u64> {
    match call {
        IndexCall::Build { kind } => vec![(machine.index_build)(kind, body, places)],
        IndexCall::Extend { kind, n } => vec![(machine.index_extend)(kind, body, places, n)],
        IndexCall::Read { first, last } => (first..=last)
            .map(|number| (machine.index_read)(body, places, number))
            .collect(),
    }
}

/// The session that is opened with the rights in a buffer; none where it is too short for them.
fn open(rights: &[u8], open: Open) -> Vec<u8> {
    let Some(chain) = rights.get(..RIGHTS_LEN) else {
        return vec![];
    };
    let mut session = vec![0xEE; SESSION_LEN];
    open(chain, &mut session);
    session
}

impl fmt::Display for Difference {
    fn fmt(&self, f: &mut fmt::Formatter<'_>) -> fmt::Result {
        writeln!(
            f,
            "DIFFERENCE seed {} sequence {} step {}",
            self.seed, self.sequence, self.number
        )?;
        match &self.step {
            Step::Open(rights) => writeln!(f, "open     {}", hex(rights))?,
            Step::Command {
                command, record, ..
            } => {
                writeln!(f, "command  {}", hex(command))?;
                if let Some(record) = record {
                    writeln!(f, "record   {} by an index", hex(record))?;
                }
            }
            Step::Cut { stores, command } => {
                writeln!(f, "cut      {} behind {stores} stores", hex(command))?;
            }
            Step::Move { list, .. } => writeln!(f, "move     {}", hex(list))?,
            Step::File(kind) => writeln!(f, "file     {kind:04X}")?,
            Step::Certificates { card, desk, .. } => {
                writeln!(f, "card     {}", hex(card))?;
                writeln!(f, "desk     {}", hex(desk))?;
            }
            Step::Index { call, places, body } => {
                writeln!(f, "index    {call}")?;
                writeln!(f, "list     {places:?}")?;
                writeln!(f, "body     {}", hex(body))?;
            }
            Step::Stamp { record, .. } => writeln!(f, "stamp    {}", hex(record))?,
            Step::Rights { runs, .. } => (1..)
                .zip(runs)
                .try_for_each(|(number, run)| writeln!(f, "run {number}    {}", hex(run)))?,
            Step::Image(_) | Step::Session(_) => writeln!(f, "no call")?,
        }
        self.side(f, "BEFORE", &self.before)?;
        self.side(f, "PROVED", &self.proved)?;
        self.side(f, "REFERENCE", &self.reference)
    }
}

impl Difference {
    fn side(&self, f: &mut fmt::Formatter<'_>, name: &str, outcome: &Outcome) -> fmt::Result {
        let State { image, session, .. } = &outcome.state;
        if name != "BEFORE" {
            self.results(f, name, &outcome.state)?;
        }
        writeln!(f, "{name} session  {}", hex(session))?;
        match &self.step {
            Step::Move { .. } => writeln!(f, "{name} target   {}", hex(&outcome.target))?,
            Step::Cut { .. } | Step::File(_) | Step::Certificates { .. } => {}
            Step::Index { .. } if name == "BEFORE" => {}
            Step::Index { .. } | Step::Stamp { .. } => {
                writeln!(f, "{name} list     {:?}", outcome.state.places)?;
            }
            Step::Rights { .. } => {
                writeln!(f, "{name} rights   {}", hex(&outcome.state.rights))?;
                writeln!(f, "{name} opened   {}", hex(&outcome.state.opened))?;
            }
            _ => writeln!(f, "{name} response {}", hex(&outcome.response))?,
        }
        writeln!(f, "{name} image    {}", hex(image))
    }

    /// The parts of the results; of certificates and of reading by an index, where the two sides
    /// differ.
    fn results(&self, f: &mut fmt::Formatter<'_>, name: &str, state: &State) -> fmt::Result {
        let result = state.result;
        let (refusal, low) = (result >> 32, result as u32);
        let (length, status) = (low >> 16, low & 0xFFFF);
        match &self.step {
            Step::Cut { .. } => {
                writeln!(f, "{name} result {result}: refusal {refusal}, stores {low}")
            }
            Step::Move { .. } => {
                writeln!(f, "{name} result {result}: refusal {refusal}, length {low}")
            }
            Step::File(_) => state.answers.iter().try_for_each(|result| {
                let (place, length) = (result >> 32, *result as u32);
                writeln!(f, "{name} result {result}: place {place}, length {length}")
            }),
            Step::Certificates { first, last, .. } => (*first..=*last)
                .zip(&state.answers)
                .filter(|(reference, _)| self.differs(usize::from(reference - first)))
                .try_for_each(|(reference, result)| certificate(f, name, reference, *result)),
            Step::Index {
                call: IndexCall::Read { first, .. },
                ..
            } => (state.answers.iter().enumerate())
                .filter(|(at, _)| self.differs(*at))
                .try_for_each(|(at, result)| {
                    let (refusal, length) = (result >> 32, *result as u32);
                    write!(f, "{name} number {} result {result}: ", first + at)?;
                    writeln!(f, "refusal {refusal}, length {length}")
                }),
            Step::Index { .. } => state.answers.iter().try_for_each(|result| {
                let (refusal, places) = (result >> 32, *result as u32);
                write!(f, "{name} result {result}: ")?;
                writeln!(f, "refusal {refusal}, places {places}")
            }),
            Step::Stamp { .. } => state.answers.iter().try_for_each(|result| {
                let (reason, offset) = (result >> 32, *result as u32);
                writeln!(
                    f,
                    "{name} result {result}: reason {reason}, offset {offset}"
                )
            }),
            Step::Rights { .. } => state.answers.iter().try_for_each(|result| {
                let (refusal, low) = (result >> 32, *result as u32);
                writeln!(f, "{name} result {result}: refusal {refusal}, and {low}")
            }),
            _ => writeln!(
                f,
                "{name} result {result}: refusal {refusal}, length {length}, status {status:04X}"
            ),
        }
    }

    /// Whether the two sides differ in the answer at this place.
    fn differs(&self, at: usize) -> bool {
        self.proved.state.answers.get(at) != self.reference.state.answers.get(at)
    }
}

fn certificate(f: &mut fmt::Formatter<'_>, name: &str, reference: u8, result: u64) -> fmt::Result {
    let (refusal, which) = (result >> 32, result >> 28 & 0xF);
    let (place, length) = (result >> 10 & 0x3FFFF, result & 0x3FF);
    writeln!(
        f,
        "{name} reference {reference:02X} result {result}: \
         refusal {refusal}, which {which}, place {place}, length {length}"
    )
}
