//! How often each sort of call occurred that has to do with a chain: links taken and not, last
//! links by status, what drops a chain and what leaves it, chains that no links could have left, and
//! cuts.

use crate::command::NAMES;
use crate::make::{Apdu, CHAIN_DATA, LONGEST_DATA, MORE, SESSION_LEN, STANDING_LEN};
use crate::step::{State, Step};
use crate::view::Chain;
use std::collections::BTreeMap;
use std::fmt;

/// Why a command is not what the chain asks for.
#[derive(Clone, Copy, Debug, PartialEq, Eq, PartialOrd, Ord)]
pub enum Reason {
    Shape,
    Class,
    Instruction,
    /// Amid a chain, another INS, P1 or P2.
    Header,
    Parameters,
    // Of a link but the last.
    NoData,
    Le,
    TooLong,
}

/// What no links could have left.
#[derive(Clone, Copy, Debug, PartialEq, Eq, PartialOrd, Ord)]
pub enum Fault {
    Length,
    HeaderWithoutChain,
    BytesWithoutChain,
    BytesBehind,
    Instruction,
    Parameters,
}

/// How much a cut of the last link makes of its stores.
#[derive(Clone, Copy, Debug, PartialEq, Eq, PartialOrd, Ord)]
pub enum Made {
    Nothing,
    Some,
    All,
}

#[derive(Clone, Copy, Debug, PartialEq, Eq, PartialOrd, Ord)]
pub enum Sort {
    /// A link but the last that is taken: without a chain, or amid one.
    First,
    Further,
    /// The join has 1,024 bytes then.
    LinkFull,
    /// A link but the last that is not taken, without a chain.
    NoFirst(Reason),
    /// The same amid one.
    NoFurther(Reason),
    /// The last link, by status.
    Last(u16),
    /// The last link of a command (its place in [`NAMES`]), answered 9000.
    LastOf(usize),
    /// Answered 9000 without data of its own.
    LastBare,
    /// Answered 9000 with a join of 1,024 bytes.
    LastFull,
    LastTooLong,
    /// A command amid a chain that is neither a link nor the last.
    Other(Reason),
    /// A status that drops a chain.
    Dropped,
    /// An opening in place of a chain, done or refused.
    Reopened,
    /// A refusal amid a chain, which stays.
    Kept(u64),
    /// Number 4 for the chain alone.
    Impossible(Fault),
    /// A chain of the longest data that fits.
    LongestFits,
    /// A cut of a link but the last, without a chain and amid one.
    CutFirst,
    CutFurther,
    /// A cut of the last link of a command that has stores, and of one that has none.
    CutLast(Made),
    CutLastWithout,
    /// A cut of a command with another header.
    CutOther,
}

use Sort::*;

const NO_FIRST: [Reason; 6] = [
    Reason::Shape,
    Reason::Class,
    Reason::Instruction,
    Reason::Parameters,
    Reason::NoData,
    Reason::Le,
];
/// P1 and P2 of a chain have passed step 4, so that others are another header.
const NO_FURTHER: [Reason; 7] = [
    Reason::Shape,
    Reason::Class,
    Reason::Instruction,
    Reason::Header,
    Reason::NoData,
    Reason::Le,
    Reason::TooLong,
];
const OTHERS: [Reason; 4] = [
    Reason::Shape,
    Reason::Class,
    Reason::Instruction,
    Reason::Header,
];
/// What the last link may be answered. READ RECORD has no data, so that 6A83 is not among these.
const LAST: [u16; 11] = [
    0x9000, 0x6282, 0x6700, 0x6981, 0x6982, 0x6986, 0x6A80, 0x6A82, 0x6A84, 0x6A86, 0x6B00,
];
/// The commands that have data, and so may be done in links.
const WITH_DATA: [u8; 6] = [0xA4, 0xB1, 0xD7, 0xE2, 0xA2, 0x5E];
const FAULTS: [Fault; 6] = [
    Fault::Length,
    Fault::HeaderWithoutChain,
    Fault::BytesWithoutChain,
    Fault::BytesBehind,
    Fault::Instruction,
    Fault::Parameters,
];
const MADE: [Made; 3] = [Made::Nothing, Made::Some, Made::All];

/// Every sort that there is.
pub fn all() -> Vec<Sort> {
    let places = WITH_DATA.map(|ins| LastOf(place(ins).unwrap_or_default()));
    let mut sorts = vec![First, Further, LinkFull];
    sorts.extend(NO_FIRST.map(NoFirst));
    sorts.extend(NO_FURTHER.map(NoFurther));
    sorts.extend(LAST.map(Last));
    sorts.extend(places);
    sorts.extend([LastBare, LastFull, LastTooLong]);
    sorts.extend(OTHERS.map(Other));
    sorts.extend([Dropped, Reopened, Kept(1), Kept(2), Kept(4), LongestFits]);
    sorts.extend(FAULTS.map(Impossible));
    sorts.extend([CutFirst, CutFurther]);
    sorts.extend(MADE.map(CutLast));
    sorts.extend([CutLastWithout, CutOther]);
    sorts
}

#[derive(Default)]
pub struct ChainTally {
    counts: BTreeMap<Sort, u64>,
}

impl ChainTally {
    /// Counts a step by what was held before it and by the results of its calls.
    pub fn step(&mut self, step: &Step, before: &State, results: &[u64]) {
        let [result] = results else {
            return;
        };
        match step {
            Step::Open(_) if Chain::of(&before.session).is_some() => self.count(Reopened),
            Step::Command { command, .. } => match result >> 32 {
                0 => self.command(command, &before.session, *result as u16),
                number => self.refused(number, before),
            },
            Step::Cut { stores, command } => match result >> 32 {
                0 => self.cut(*stores as u64, command, &before.session, *result),
                number => self.refused(number, before),
            },
            _ => {}
        }
    }

    fn count(&mut self, sort: Sort) {
        *self.counts.entry(sort).or_default() += 1;
    }

    pub fn counted(&self, sort: Sort) -> u64 {
        self.counts.get(&sort).copied().unwrap_or(0)
    }

    /// A command that was answered.
    fn command(&mut self, command: &[u8], session: &[u8], status: u16) {
        let chain = Chain::of(session);
        let done = status == 0x9000;
        if let (Some(chain), false) = (&chain, done) {
            self.count(Dropped);
            if chain.data.len() == LONGEST_DATA {
                self.count(LongestFits);
            }
        }
        let link = command.first().is_some_and(|cla| cla & MORE != 0);
        if !link && chain.is_none() {
            return;
        }
        let (reason, apdu) = judged(command, chain.as_ref());
        match (link, chain, apdu) {
            (true, None, Some(apdu)) if done => self.link(First, own_data(&apdu)),
            (true, Some(chain), Some(apdu)) if done => {
                self.link(Further, chain.data.len() + own_data(&apdu));
            }
            (true, None, _) => self.because(reason, NoFirst),
            (true, Some(_), _) => self.because(reason, NoFurther),
            (false, Some(_), _) if reason.is_some() => self.because(reason, Other),
            (false, Some(chain), Some(apdu)) => self.last(&apdu, &chain, status),
            _ => {}
        }
    }

    /// A link that was taken, and how long the join is then.
    fn link(&mut self, sort: Sort, join: usize) {
        self.count(sort);
        if join == LONGEST_DATA {
            self.count(LinkFull);
        }
    }

    fn because(&mut self, reason: Option<Reason>, sort: fn(Reason) -> Sort) {
        if let Some(reason) = reason {
            self.count(sort(reason));
        }
    }

    fn last(&mut self, apdu: &Apdu, chain: &Chain, status: u16) {
        let own = own_data(apdu);
        let join = chain.data.len() + own;
        self.count(Last(status));
        if join > LONGEST_DATA {
            self.count(LastTooLong);
        }
        if status != 0x9000 {
            return;
        }
        if let Some(place) = place(apdu.ins) {
            self.count(LastOf(place));
        }
        if own == 0 {
            self.count(LastBare);
        }
        if join == LONGEST_DATA {
            self.count(LastFull);
        }
    }

    /// A call that was refused: amid a chain that stays, or for the chain.
    fn refused(&mut self, number: u64, before: &State) {
        match faults(&before.session)[..] {
            [] if Chain::of(&before.session).is_some() => self.count(Kept(number)),
            [fault] if number == 4 && fits_otherwise(before) => self.count(Impossible(fault)),
            _ => {}
        }
    }

    fn cut(&mut self, stores: u64, command: &[u8], session: &[u8], all: u64) {
        let chain = Chain::of(session);
        let (reason, _) = judged(command, chain.as_ref());
        let link = command.first().is_some_and(|cla| cla & MORE != 0);
        let made = match stores {
            0 => Made::Nothing,
            _ if stores < all => Made::Some,
            _ => Made::All,
        };
        match (reason, link, chain) {
            (None, true, None) => self.count(CutFirst),
            (None, true, Some(_)) => self.count(CutFurther),
            (Some(Reason::Header), false, Some(_)) => self.count(CutOther),
            (None, false, Some(_)) if all == 0 => self.count(CutLastWithout),
            (None, false, Some(_)) => self.count(CutLast(made)),
            _ => {}
        }
    }

    /// What is counted, how often it occurred and how often it should.
    pub fn wanted(&self, each: u64) -> Vec<(String, u64, u64)> {
        let wanted = |sort: Sort| (format!("a chain: {sort}"), self.counted(sort), each);
        all().into_iter().map(wanted).collect()
    }
}

/// The command's place in [`NAMES`].
fn place(ins: u8) -> Option<usize> {
    NAMES.iter().position(|(.., known)| *known == ins)
}

/// How many bytes of data a command has by itself.
fn own_data(apdu: &Apdu) -> usize {
    apdu.data.as_ref().map_or(0, Vec::len)
}

/// Why a command is not a link, or not the last of this chain, and its fields, where it has them. A
/// last link that is too long is not judged here.
fn judged(command: &[u8], chain: Option<&Chain>) -> (Option<Reason>, Option<Apdu>) {
    let Some(apdu) = Apdu::read(command) else {
        return (Some(Reason::Shape), None);
    };
    let length = own_data(&apdu);
    let before = chain.map_or(0, |chain| chain.data.len());
    let link = apdu.cla & MORE != 0;
    let class = apdu.cla & !MORE;
    let known = place(apdu.ins).is_some_and(|place| NAMES[place].2 == class);
    let reason = if length > LONGEST_DATA {
        Some(Reason::Shape)
    } else if !matches!(class, 0x00 | 0x80) {
        Some(Reason::Class)
    } else if !known {
        Some(Reason::Instruction)
    } else if chain.is_some_and(|chain| chain.header != apdu.header()) {
        Some(Reason::Header)
    } else if !step_4(apdu.header()) {
        Some(Reason::Parameters)
    } else if !link {
        None
    } else if length == 0 {
        Some(Reason::NoData)
    } else if apdu.le.is_some() {
        Some(Reason::Le)
    } else if before + length > LONGEST_DATA {
        Some(Reason::TooLong)
    } else {
        None
    };
    (reason, Some(apdu))
}

/// Whether a command takes P1 and P2.
fn step_4([ins, p1, p2]: [u8; 3]) -> bool {
    match ins {
        0xA4 => p2 == 0x0C && matches!(p1, 0x00 | 0x02 | 0x04),
        0xB0 => p1 < 0xA0,
        0xB1 | 0xD7 => true,
        0x44 => [p1, p2] == [0, 0],
        0xE2 => p1 == 0 && p2 & 7 == 0,
        0xB2 => matches!(p2 & 7, 4 | 5),
        0xA2 => [p1, p2] == [0x00, 0xF8],
        0x5E => p1 < 2 && p2 < 8,
        _ => false,
    }
}

/// What is wrong with the chain of a session that is long enough.
fn faults(session: &[u8]) -> Vec<Fault> {
    let Some(chain) = session.get(STANDING_LEN..SESSION_LEN) else {
        return vec![];
    };
    let (head, data) = chain.split_at(CHAIN_DATA - STANDING_LEN);
    let [low, high, ins, p1, p2] = *head else {
        return vec![];
    };
    let length = usize::from(u16::from_le_bytes([low, high]));
    let header = [ins, p1, p2];
    let unused = data.get(length..).unwrap_or_default();
    let nonzero = unused.iter().any(|byte| *byte != 0);
    let mut faults = Vec::new();
    match length {
        0 if header != [0; 3] => faults.push(Fault::HeaderWithoutChain),
        0 => {}
        _ if place(ins).is_none() => faults.push(Fault::Instruction),
        _ if !step_4(header) => faults.push(Fault::Parameters),
        _ => {}
    }
    match length {
        0 if nonzero => faults.push(Fault::BytesWithoutChain),
        _ if length > LONGEST_DATA => faults.push(Fault::Length),
        _ if nonzero => faults.push(Fault::BytesBehind),
        _ => {}
    }
    faults
}

/// Whether the session would fit without its chain.
fn fits_otherwise(before: &State) -> bool {
    let mut session = before.session.clone();
    session[STANDING_LEN..SESSION_LEN].fill(0);
    reference::cut(&mut before.image.clone(), &session, &[], 0) == 0
}

impl fmt::Display for Reason {
    fn fmt(&self, f: &mut fmt::Formatter<'_>) -> fmt::Result {
        f.write_str(match self {
            Self::Shape => "its shape (6700)",
            Self::Class => "CLA (6E00)",
            Self::Instruction => "INS (6D00)",
            Self::Header => "another header (6883)",
            Self::Parameters => "P1-P2 (6A86)",
            Self::NoData => "no data (6700)",
            Self::Le => "an Le (6700)",
            Self::TooLong => "a join over 1,024 bytes (6700)",
        })
    }
}

impl fmt::Display for Fault {
    fn fmt(&self, f: &mut fmt::Formatter<'_>) -> fmt::Result {
        f.write_str(match self {
            Self::Length => "a length over 1,024",
            Self::HeaderWithoutChain => "a header without a chain",
            Self::BytesWithoutChain => "bytes without a chain",
            Self::BytesBehind => "bytes behind the chain",
            Self::Instruction => "an INS of no command",
            Self::Parameters => "P1-P2 that step 4 refuses",
        })
    }
}

impl fmt::Display for Sort {
    fn fmt(&self, f: &mut fmt::Formatter<'_>) -> fmt::Result {
        match self {
            First => f.write_str("a first link taken"),
            Further => f.write_str("a further link taken"),
            LinkFull => f.write_str("a link taken, the join 1,024 bytes"),
            NoFirst(reason) => write!(f, "a first link not taken: {reason}"),
            NoFurther(reason) => write!(f, "a further link not taken: {reason}"),
            Last(status) => write!(f, "a last link {status:04X}"),
            LastOf(place) => write!(f, "a last link 9000: {}", NAMES[*place].1),
            LastBare => f.write_str("a last link 9000 without data"),
            LastFull => f.write_str("a last link 9000, the join 1,024 bytes"),
            LastTooLong => f.write_str("a last link, the join over 1,024 bytes"),
            Other(reason) => write!(f, "a command that is no link: {reason}"),
            Dropped => f.write_str("dropped"),
            Reopened => f.write_str("a session opened in its place"),
            Kept(number) => write!(f, "kept on refusal {number}"),
            Impossible(fault) => write!(f, "refusal 4: {fault}"),
            LongestFits => f.write_str("1,024 bytes of it fit"),
            CutFirst => f.write_str("a first link cut"),
            CutFurther => f.write_str("a further link cut"),
            CutLast(Made::Nothing) => f.write_str("a last link cut behind no store"),
            CutLast(Made::Some) => f.write_str("a last link cut behind some stores"),
            CutLast(Made::All) => f.write_str("a last link cut behind all stores"),
            CutLastWithout => f.write_str("a last link without stores cut"),
            CutOther => f.write_str("another header cut"),
        }
    }
}

impl fmt::Display for ChainTally {
    fn fmt(&self, f: &mut fmt::Formatter<'_>) -> fmt::Result {
        writeln!(f, "\n| of a chain | times |\n|---|---|")?;
        for sort in all() {
            writeln!(f, "| {sort} | {} |", self.counted(sort))?;
        }
        Ok(())
    }
}
