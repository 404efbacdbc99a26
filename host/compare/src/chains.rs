//! Made-up chains: a command's data in links, cut anywhere, and what may go wrong on the way; and
//! sessions that hold a chain, be it one that links could have left or not.

use crate::card::Size;
use crate::command::NAMES;
use crate::make::{self, Apdu, CHAIN_DATA, LONGEST_DATA, MORE, SESSION_LEN, SHORTEST_RESPONSE};
use crate::random::Random;
use crate::rights;
use crate::step::Step;
use crate::view::{Chain, File, View};

/// A command that is sent in links, mostly as it should be. A command without data cannot be, and
/// neither can one that is itself a link; they are sent as they are.
pub fn steps(random: &mut Random, command: &Apdu, size: Size) -> Vec<Step> {
    let Some(mut links) = links(random, command) else {
        return vec![run(random, command.bytes())];
    };
    let wrong = random.one_in(3);
    if wrong {
        change_a_link(random, &mut links, size);
    }
    let mut steps: Vec<Step> = links.iter().map(|link| run(random, link.bytes())).collect();
    if !wrong && random.one_in(3) {
        change_the_order(random, command, &mut steps);
    }
    // Only an append has stores.
    let often = if command.ins == 0xE2 { 2 } else { 8 };
    if random.one_in(often) {
        cut_one(random, command, &mut steps);
    }
    steps
}

/// The same with nothing wrong.
pub fn plain(random: &mut Random, command: &Apdu) -> Vec<Step> {
    let links = links(random, command).unwrap_or_else(|| vec![command.clone()]);
    let step = |link: &Apdu| whole(link.bytes(), SHORTEST_RESPONSE);
    links.iter().map(step).collect()
}

/// An UPDATE BINARY with as many data as a command can have, of a file that has the room; none where
/// the application has no such file.
pub fn full(random: &mut Random, view: &View) -> Option<Apdu> {
    let roomy = |file: &&File| file.is_open() && file.room() >= LONGEST_DATA;
    let file = view.here().find(roomy)?;
    let bytes = random.between(1, 3);
    let offset = make::object(&[0x54], &make::number(0, bytes));
    // Tag and length of the bytes take four.
    let length = LONGEST_DATA - offset.len() - 4;
    let written = make::object(&[0x53], &random.bytes(length));
    let [p1, p2] = file.id.to_be_bytes();
    Some(Apdu::new(0x00, 0xD7, p1, p2).data([offset, written].concat()))
}

/// The links of a command: two to five, of which the last has the Le, and may be without data.
fn links(random: &mut Random, command: &Apdu) -> Option<Vec<Apdu>> {
    let data = command.data.as_deref().filter(|data| !data.is_empty())?;
    if command.cla & MORE != 0 {
        return None;
    }
    let cuts = random.weighted(&[(6, 1), (3, 2), (2, 3), (1, 4)]);
    let mut places: Vec<usize> = (0..cuts).map(|_| some_place(random, data.len())).collect();
    places.sort_unstable();
    places.dedup();
    let mut links = Vec::new();
    let mut rest = data;
    for (at, place) in places.iter().enumerate() {
        let before = if at == 0 { 0 } else { places[at - 1] };
        let (part, behind) = rest.split_at(place - before);
        rest = behind;
        let extended = random.one_in(4);
        links.push(command.bare().link().data(part.to_vec()).extended(extended));
    }
    let mut last = Apdu {
        le: command.le,
        ..command.bare()
    };
    last.data = (!rest.is_empty()).then(|| rest.to_vec());
    links.push(last);
    Some(links)
}

/// Where data of so many bytes are cut: behind the first byte, before the last or behind it, else
/// anywhere.
fn some_place(random: &mut Random, length: usize) -> usize {
    match random.below(8) {
        0 => 1,
        1 => length.max(2) - 1,
        2 => length,
        _ => random.between(1, length),
    }
}

/// One link otherwise than it should be: an Le in a link, a link without data, data that make the
/// join too long or just not, another header, class or shape.
fn change_a_link(random: &mut Random, links: &mut [Apdu], size: Size) {
    let at = random.below(links.len());
    let before: usize = links[..at].iter().map(length).sum();
    let link = &mut links[at];
    match random.below(12) {
        0 => link.le = Some(random.pick(&[0, 0, 1, 255])),
        1 => link.data = None,
        2 => (link.data, link.le) = (None, Some(0)),
        3 | 4 if size == Size::Any || random.one_in(6) => {
            let length = random.near(LONGEST_DATA - before.min(LONGEST_DATA)).max(1);
            link.data = Some(random.bytes(length));
        }
        5 => link.cla ^= random.pick(&[0x01, 0x04, 0x08, 0x20, 0x40, 0x80]),
        6 => link.cla ^= MORE,
        7 => link.ins = random.byte(),
        8 => link.ins = random.pick(&NAMES).3,
        9 => link.p1 ^= 1 << random.below(8),
        10 => link.p2 ^= 1 << random.below(8),
        _ => {
            // Some bytes of the data otherwise.
            let data = link.data.get_or_insert_with(Vec::new);
            random.spoil(data);
            if data.is_empty() {
                link.data = None;
            }
        }
    }
}

fn length(link: &Apdu) -> usize {
    link.data.as_ref().map_or(0, Vec::len)
}

/// Something that comes amid the links, or is left out there.
fn change_the_order(random: &mut Random, command: &Apdu, steps: &mut Vec<Step>) {
    let at = random.between(1, steps.len() - 1);
    match random.below(10) {
        // The last, or all from some link on.
        0 => drop(steps.pop()),
        1 => steps.truncate(at),
        // The first: then the last is alone, or begins amid the data.
        2 => drop(steps.remove(0)),
        // A link twice.
        3 => steps.insert(at, steps[at - 1].clone()),
        4 => steps.swap(at - 1, at),
        5 => steps.insert(at, Step::Open(rights::chain(random))),
        // A response buffer that is too short leaves the chain as it is.
        6 => {
            let short = random.pick(&[0, 2, SHORTEST_RESPONSE - 1]);
            let again = match &steps[at] {
                Step::Command { command, .. } => whole(command.clone(), short),
                other => other.clone(),
            };
            steps.insert(at, again);
        }
        7 => {
            let other = torn(random, command);
            steps.insert(at, run(random, other));
        }
        _ => {
            let other = foreign(random, command).bytes();
            steps.insert(at, run(random, other));
        }
    }
}

/// A command with another header, of which some are no commands at all.
fn foreign(random: &mut Random, command: &Apdu) -> Apdu {
    let mut other = match random.coin() {
        true => command.clone(),
        false => command.bare(),
    };
    match random.below(8) {
        0 => other.ins = random.byte(),
        1 => {
            let (_, _, cla, ins) = random.pick(&NAMES);
            (other.cla, other.ins) = (cla, ins);
        }
        2 => other.p1 ^= 1 << random.below(8),
        3 | 4 => other.p2 ^= 1 << random.below(8),
        5 => other.cla ^= 0x80,
        6 => other.cla ^= random.pick(&[0x01, 0x20, 0x40]),
        _ => other = Apdu::new(0x00, 0xA4, 0x00, 0x0C).data(vec![0x3F, 0x00]),
    }
    match random.coin() {
        true => other.link(),
        false => other,
    }
}

/// A command in none of the seven shapes.
fn torn(random: &mut Random, command: &Apdu) -> Vec<u8> {
    let mut bytes = command.bytes();
    match random.below(3) {
        0 => bytes.truncate(random.below(4)),
        1 => bytes.extend([0; 3]),
        _ => bytes.truncate(bytes.len() - 1),
    }
    if random.coin() {
        if let Some(cla) = bytes.first_mut() {
            *cla |= MORE;
        }
    }
    bytes
}

/// A cut of a link just before it is sent: of the last, mostly.
fn cut_one(random: &mut Random, command: &Apdu, steps: &mut Vec<Step>) {
    let Some(last) = steps.len().checked_sub(1) else {
        return;
    };
    let at = match random.below(3) {
        0 => random.between(0, last),
        _ => last,
    };
    if let Step::Command { command: link, .. } = &steps[at] {
        let stores = match random.below(6) {
            0 => usize::MAX,
            1 => 0,
            2 => random.below(4),
            _ => random.between(0, length(command) + 6),
        };
        let command = link.clone();
        steps.insert(at, Step::Cut { stores, command });
    }
}

/// One command amid a chain, which goes on with it or ends it.
pub fn go_on(random: &mut Random, chain: &Chain, size: Size) -> Vec<u8> {
    let [ins, p1, p2] = chain.header;
    let cla = if ins == 0x5E { 0x80 } else { 0x00 };
    let mut apdu = Apdu::new(cla, ins, p1, p2);
    let left = LONGEST_DATA - chain.data.len();
    let long = size == Size::Any || random.one_in(8);
    let length = match random.below(8) {
        0 | 1 => 0,
        2 if long => random.near(left),
        3 if long => left,
        _ => random.between(1, 9),
    };
    if length > 0 {
        apdu.data = Some(random.text(length));
    }
    if random.one_in(3) {
        return apdu.link().bytes();
    }
    match ins {
        0xB0 | 0xB1 | 0xA2 | 0x5E => apdu.le(0).bytes(),
        0xB2 => apdu.le(0).extended(true).bytes(),
        _ => apdu.bytes(),
    }
}

/// A session that holds the first part of a command's data, and the last link of the command.
pub fn held(random: &mut Random, command: &Apdu, given: &[u8]) -> Option<Vec<Step>> {
    let data = command.data.as_deref()?;
    let most = data.len().min(LONGEST_DATA);
    if most == 0 || given.len() < SESSION_LEN {
        return None;
    }
    let (first, rest) = data.split_at(random.between(1, most));
    let mut session = given.to_vec();
    Chain {
        header: command.header(),
        data: first.to_vec(),
    }
    .put(&mut session);
    let mut last = command.clone();
    last.data = (!rest.is_empty()).then(|| rest.to_vec());
    Some(vec![Step::Session(session), run(random, last.bytes())])
}

/// Puts some chain into a session, mostly one that links could have left, or almost.
pub fn put_some(random: &mut Random, session: &mut [u8], size: Size) {
    let length = match random.below(10) {
        0 if size == Size::Any => LONGEST_DATA,
        1 if size == Size::Any => random.between(1, LONGEST_DATA),
        _ => random.between(1, 12),
    };
    Chain {
        header: some_header(random),
        data: random.bytes(length),
    }
    .put(session);
    let (length_at, header_at) = (make::STANDING_LEN, make::STANDING_LEN + 2);
    match random.below(12) {
        // More bytes than a chain has.
        0 => {
            let length = random.pick(&[1_025, 1_026, 2_048, 0x8001, 0xFFFF]);
            put_length(session, length);
        }
        // None, but with a header and bytes.
        1 => put_length(session, 0),
        2 => {
            put_length(session, 0);
            session[CHAIN_DATA..SESSION_LEN].fill(0);
        }
        3 => {
            session[length_at..CHAIN_DATA].fill(0);
            session[CHAIN_DATA..SESSION_LEN].fill(0);
            let some = random.between(header_at, SESSION_LEN - 1);
            let at = random.pick(&[header_at, CHAIN_DATA, SESSION_LEN - 1, some]);
            session[at] = random.pick(&[1, 0x80, 0xFF]);
        }
        // A byte behind the data that is not zero.
        4 if length < LONGEST_DATA => {
            let behind = CHAIN_DATA + length;
            let at = random.pick(&[behind, SESSION_LEN - 1]);
            session[at] = random.pick(&[1, 0x80, 0xFF]);
        }
        5 => session[header_at] = random.byte(),
        6 => session[header_at + random.between(1, 2)] ^= 1 << random.below(8),
        _ => {}
    }
}

fn put_length(session: &mut [u8], length: u16) {
    session[make::STANDING_LEN..make::STANDING_LEN + 2].copy_from_slice(&length.to_le_bytes());
}

/// INS, P1 and P2 of a command, such as its links may have.
fn some_header(random: &mut Random) -> [u8; 3] {
    let (_, _, _, ins) = random.pick(&NAMES);
    let (p1, p2) = match ins {
        0xA4 => (random.pick(&[0x00, 0x02, 0x04]), 0x0C),
        0xB0 => (random.pick(&[0x00, 0x7F, 0x81, 0x9E]), random.byte()),
        0xB1 | 0xD7 => (random.pick(&[0x00, 0x02, 0x2F]), random.byte()),
        0xE2 => (0x00, random.pick(&[0x00, 0x08, 0x10, 0x18, 0xD0])),
        0xB2 => (random.byte(), random.pick(&[0x04, 0x05, 0x0C, 0xD5])),
        0xA2 => (0x00, 0xF8),
        0x5E => (random.pick(&[0x00, 0x01]), random.below(8) as u8),
        _ => (0x00, 0x00),
    };
    [ins, p1, p2]
}

fn run(random: &mut Random, command: Vec<u8>) -> Step {
    let response_len = random.between(SHORTEST_RESPONSE, 2_100);
    whole(command, response_len)
}

fn whole(command: Vec<u8>, response_len: usize) -> Step {
    Step::Command {
        response_len,
        command,
        record: None,
    }
}
