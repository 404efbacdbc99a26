//! An index that is kept beside a card: built from one of its files, and extended after each
//! append to the file that is done, and after one that is cut behind its last store. In the end the index reads the records, and READ RECORD reads
//! them again.

use crate::card::{self, Size};
use crate::chains;
use crate::command;
use crate::cuts::{self, Room};
use crate::index;
use crate::make::{self, Apdu, Rule, RIGHTS_LEN, RULES, SESSION_LEN, SHORTEST_RESPONSE};
use crate::moving;
use crate::random::Random;
use crate::step::{IndexCall, State, Step};
use crate::view::{self, Chain, View};

/// What comes next.
#[derive(Clone, Copy)]
enum Phase {
    Build,
    /// So many commands and moves, and the calls that extend the index.
    Commands(usize),
    Read,
    ReadAgain,
    End,
}

pub struct Follow {
    rule: &'static Rule,
    size: Size,
    phase: Phase,
    /// The places as the calls left them.
    places: Vec<u32>,
    /// Whether the last step was a call that built or extended the index.
    called: bool,
}

impl Follow {
    /// The index of a file on a made-up card, and the steps to begin with: the card, and a session
    /// with all rights.
    pub fn new(random: &mut Random, size: Size) -> (Self, Vec<Step>) {
        let (rule, image) = some_card(random, size);
        let steps = vec![
            Step::Image(image),
            Step::Session(vec![0; SESSION_LEN]),
            Step::Open(vec![0xFF; RIGHTS_LEN]),
        ];
        let follow = Self {
            rule,
            size,
            phase: Phase::Build,
            places: Vec::new(),
            called: false,
        };
        (follow, steps)
    }

    /// The next steps, made for what the calls so far left; none at the end.
    pub fn next(&mut self, random: &mut Random, state: &State) -> Vec<Step> {
        let Some(body) = view::body(&state.image, self.rule.kind) else {
            return vec![];
        };
        let body = &state.image[body];
        match self.phase {
            Phase::Build => {
                let commands = match self.size {
                    Size::Small => random.between(4, 8),
                    Size::Any => random.between(14, 20),
                };
                self.phase = Phase::Commands(commands);
                vec![self.build(random, body)]
            }
            Phase::Commands(left) => {
                self.take(state);
                if view::count(body) == self.places.len() + 1 {
                    return vec![self.extend(random, body)];
                }
                match left.checked_sub(1) {
                    Some(left) => {
                        self.phase = Phase::Commands(left);
                        self.change(random, state)
                    }
                    None => {
                        self.phase = Phase::Read;
                        self.next(random, state)
                    }
                }
            }
            Phase::Read => {
                self.phase = Phase::ReadAgain;
                vec![self.read(body)]
            }
            Phase::ReadAgain => {
                self.phase = Phase::End;
                let mut steps = self.read_again(body, &state.answers);
                if Chain::of(&state.session).is_some() {
                    // The first command ends the chain, or is told to.
                    steps.insert(0, self.select());
                }
                steps
            }
            Phase::End => vec![],
        }
    }

    fn build(&mut self, random: &mut Random, body: &[u8]) -> Step {
        self.called = true;
        let more = random.below(4);
        Step::Index {
            call: IndexCall::Build {
                kind: self.rule.kind,
            },
            places: index::made_up(random, view::count(body) + more),
            body: body.to_vec(),
        }
    }

    /// The list has the places so far, and made-up entries behind them.
    fn extend(&mut self, random: &mut Random, body: &[u8]) -> Step {
        self.called = true;
        let more = random.between(1, 4);
        Step::Index {
            call: IndexCall::Extend {
                kind: self.rule.kind,
                n: self.places.len(),
            },
            places: [&self.places[..], &index::made_up(random, more)].concat(),
            body: body.to_vec(),
        }
    }

    /// Takes the places of the list that was built or extended.
    fn take(&mut self, state: &State) {
        if self.called {
            self.called = false;
            let held = state.answers.first().map_or(0, |result| *result as usize);
            self.places.clone_from(&state.places);
            self.places.truncate(held);
        }
    }

    /// Something that may change the card: an append to the file, mostly.
    fn change(&self, random: &mut Random, state: &State) -> Vec<Step> {
        let view = View::new(&state.image, &state.session);
        match random.below(10) {
            0..=5 => self.append(random, &view),
            6 => vec![moving::step(random, &state.image, self.size)],
            7 => self.cut(random, &view),
            _ => {
                let command = command::command(random, &view, &state.image, self.size);
                vec![run(command, None)]
            }
        }
    }

    /// An append to the file that is cut; one that is not where the file has no room.
    fn cut(&self, random: &mut Random, view: &View) -> Vec<Step> {
        match Room::of_rule(view, self.rule) {
            Some(room) => self.here(view, vec![cuts::append(random, &room, self.size)]),
            None => self.append(random, view),
        }
    }

    fn append(&self, random: &mut Random, view: &View) -> Vec<Step> {
        let longest = match self.size {
            Size::Small => 6,
            Size::Any => random.pick(&[1, 8, 40, self.rule.longest]),
        };
        let length = random.between(1, longest);
        let data = random.bytes(length);
        let append = Apdu::new(0x00, 0xE2, 0x00, self.rule.short_id << 3).data(data);
        let steps = match random.one_in(6) {
            true => chains::plain(random, &append),
            false => vec![run(append.bytes(), None)],
        };
        self.here(view, steps)
    }

    /// The steps in the file's application.
    fn here(&self, view: &View, mut steps: Vec<Step>) -> Vec<Step> {
        if view.application != self.rule.application {
            steps.insert(0, self.select());
        }
        steps
    }

    fn select(&self) -> Step {
        let aid = make::aid(self.rule.application).to_vec();
        run(Apdu::new(0x00, 0xA4, 0x04, 0x0C).data(aid).bytes(), None)
    }

    fn read(&self, body: &[u8]) -> Step {
        Step::Index {
            call: IndexCall::Read {
                first: 1,
                last: self.places.len().max(1),
            },
            places: self.places.clone(),
            body: body.to_vec(),
        }
    }

    /// READ RECORD of each number that was read. One that was refused counts as read with no
    /// byte, which no record is.
    fn read_again(&self, body: &[u8], results: &[u64]) -> Vec<Step> {
        let read = (1..=u8::MAX).zip(&self.places).zip(results);
        let read = read.map(|((number, place), result)| {
            let length = match result >> 32 {
                0 => *result as usize,
                _ => 0,
            };
            let start = *place as usize + 2;
            let record = body.get(start..start + length).unwrap_or_default();
            let p2 = self.rule.short_id << 3 | 0b100;
            let apdu = Apdu::new(0x00, 0xB2, number, p2).le(0).extended(true);
            run(apdu.bytes(), Some(record.to_vec()))
        });
        [self.select()].into_iter().chain(read).collect()
    }
}

fn run(command: Vec<u8>, record: Option<Vec<u8>>) -> Step {
    Step::Command {
        response_len: SHORTEST_RESPONSE,
        command,
        record,
    }
}

/// A card, and one of its record files, which has room for some records more. Where all is to
/// stay small the file has few.
fn some_card(random: &mut Random, size: Size) -> (&'static Rule, Vec<u8>) {
    let (most, room) = match size {
        Size::Small => (9, 60),
        Size::Any if random.one_in(8) => (254, 2_000),
        Size::Any => (40, 2_000),
    };
    loop {
        let rule = &RULES[random.below(RULES.len())];
        let image = card::image(random, size);
        let Some(body) = view::body(&image, rule.kind) else {
            continue;
        };
        let image = with_room(&image, rule.kind, random.below(room));
        // A card that is one byte too long is none.
        if view::count(&image[body]) <= most && reference::file(&image, rule.kind) != 0 {
            return (rule, image);
        }
    }
}

/// The image with so many bytes more in the body of a kind.
fn with_room(image: &[u8], kind: u16, more: usize) -> Vec<u8> {
    let section = |(found, body): (u16, std::ops::Range<usize>)| {
        let mut body = image[body].to_vec();
        if found == kind {
            body.resize(body.len() + more, 0xC7);
        }
        make::section(found, &body)
    };
    view::sections(image)
        .into_iter()
        .flat_map(section)
        .collect()
}
