//! The calls of a run, in sequences on one card each. A sequence goes on from what its own
//! commands left.

use crate::card::{self, Size};
use crate::certificates;
use crate::chains;
use crate::command;
use crate::cuts;
use crate::extension_more;
use crate::extension_scene;
use crate::extensions;
use crate::follow::Follow;
use crate::index;
use crate::make::{Apdu, RIGHTS_LEN, SESSION_LEN, SHORTEST_RESPONSE};
use crate::moving;
use crate::random::Random;
use crate::rights;
use crate::scene;
use crate::stamp_scene;
use crate::stamps;
use crate::step::{State, Step};
use crate::view::View;
use std::collections::VecDeque;

pub struct Sequence {
    random: Random,
    size: Size,
    pending: VecDeque<Step>,
    commands_left: usize,
    damages_left: usize,
    /// The last session that was not refused.
    session: Option<Vec<u8>>,
    /// The image as the commands left it, once damage begins.
    image: Option<Vec<u8>>,
    /// Whether the result at hand is that of a move, which says nothing about the session.
    moved: bool,
    /// The index that is kept beside the card, in a sequence that does nothing else.
    follow: Option<Follow>,
    /// How many stamps are left, in a sequence that does nothing else.
    stamps_left: usize,
    /// How many readings of rights are left, in a sequence that does nothing else.
    rights_left: usize,
    /// Whether a session is opened next, with the rights that were read.
    opens: bool,
}

/// One sequence in so many keeps an index beside its card.
const FOLLOWS: u64 = 10;
/// One command in so many is sent in links, where it has data.
const CHAINS: usize = 8;
/// How many stamps a sequence of stamps reads.
const STAMPS: usize = 40;
/// How often a sequence of rights reads some.
const RIGHTS: usize = 40;

impl Sequence {
    /// The sequence of this number in the run of this seed; each seed's first is the scene.
    pub fn new(seed: u64, number: u64, size: Size) -> Self {
        let random = Random::part(seed, number);
        match number {
            0 => Self::scene(random, size),
            _ if number % FOLLOWS == 1 => Self::beside_an_index(random, size),
            _ => Self::on_a_card(random, size),
        }
    }

    /// The sequence of this number in a run of stamps alone; each seed's first is their scene.
    pub fn of_stamps(seed: u64, number: u64) -> Self {
        let random = Random::part(seed, number);
        match number {
            0 => {
                let steps = stamp_scene::lines().into_iter().map(|(step, _)| step);
                Self::of_steps(random, Size::Any, steps.collect())
            }
            _ => Self {
                stamps_left: STAMPS,
                ..Self::of_steps(random, Size::Any, vec![])
            },
        }
    }

    /// The same of a run of rights alone.
    pub fn of_rights(seed: u64, number: u64) -> Self {
        let random = Random::part(seed, number);
        match number {
            0 => {
                let lines = [extension_scene::lines(), extension_more::more_lines()].concat();
                let steps = lines.into_iter().map(|(step, _)| step);
                Self::of_steps(random, Size::Any, steps.collect())
            }
            _ => Self {
                rights_left: RIGHTS,
                ..Self::of_steps(random, Size::Any, vec![])
            },
        }
    }

    fn scene(random: Random, size: Size) -> Self {
        let steps = scene::lines().into_iter().map(|(step, _)| step).collect();
        Self::of_steps(random, size, steps)
    }

    fn beside_an_index(mut random: Random, size: Size) -> Self {
        let (follow, steps) = Follow::new(&mut random, size);
        Self {
            follow: Some(follow),
            ..Self::of_steps(random, size, steps)
        }
    }

    /// These steps and no more.
    fn of_steps(random: Random, size: Size, steps: Vec<Step>) -> Self {
        Self {
            random,
            size,
            pending: steps.into(),
            commands_left: 0,
            damages_left: 0,
            session: None,
            image: None,
            moved: false,
            follow: None,
            stamps_left: 0,
            rights_left: 0,
            opens: false,
        }
    }

    /// A made-up card, on which the calls are then planned one by one.
    fn on_a_card(mut random: Random, size: Size) -> Self {
        let image = card::image(&mut random, size);
        let session_len = match random.below(8) {
            0 => random.between(SESSION_LEN, SESSION_LEN + 15),
            _ => SESSION_LEN,
        };
        let session = rights::made_up(&mut random, session_len);
        // The session is opened with made-up rights, or with those of made-up certificates.
        let opens = random.one_in(5);
        let rights = match opens {
            true => extensions::chain(&mut random, size),
            false => Step::Open(rights::chain(&mut random)),
        };
        let damages_left = match size {
            Size::Small => random.below(3),
            Size::Any => random.below(6),
        };
        let commands_left = match size {
            // A card takes many bytes of a sample, so that more is done with it.
            Size::Small => random.between(60, 70),
            Size::Any => random.between(36, 44),
        };
        let steps = vec![Step::Image(image), Step::Session(session), rights];
        Self {
            opens,
            commands_left,
            damages_left,
            ..Self::of_steps(random, size, steps)
        }
    }

    /// The next step, made for what the calls so far left; none at the sequence's end.
    pub fn next(&mut self, state: &State) -> Option<Step> {
        if self.pending.is_empty() {
            if let Some(follow) = &mut self.follow {
                self.pending.extend(follow.next(&mut self.random, state));
            } else if self.stamps_left > 0 {
                self.stamps_left -= 1;
                self.plan_stamp();
            } else if self.rights_left > 0 {
                self.rights_left -= 1;
                self.plan_rights();
            } else if self.opens {
                self.opens = false;
                self.plan_open_with(&state.rights);
            } else if self.commands_left > 0 {
                self.commands_left -= 1;
                self.plan(state);
            } else if self.damages_left > 0 {
                self.damages_left -= 1;
                self.plan_damage(state);
            }
        }
        self.pending.pop_front()
    }

    fn plan(&mut self, state: &State) {
        let session = self.good_session(state);
        let view = View::new(&state.image, &session);
        match self.random.below(100) {
            0..=2 => {
                let made_up = rights::session(&mut self.random, &view, &session);
                self.plan_with(made_up, &state.image);
            }
            3..=4 => self.plan_open(),
            5..=9 if self.size == Size::Any || self.random.one_in(4) => {
                self.plan_move(&state.image);
            }
            10..=12 if self.size == Size::Any || self.random.one_in(3) => {
                self.plan_certificates(&state.image);
            }
            13..=14 => self.plan_file(&state.image),
            15..=24 if self.size == Size::Any || self.random.one_in(8) => {
                self.plan_index(&state.image);
            }
            25..=28 if self.size == Size::Any || self.random.one_in(4) => self.plan_stamp(),
            29..=31 if self.size == Size::Any || self.random.one_in(4) => self.plan_rights(),
            32 if self.size == Size::Any || self.random.one_in(4) => {
                let step = extensions::chain(&mut self.random, self.size);
                self.pending.push_back(step);
                self.opens = true;
            }
            33..=36 => self.plan_cut(&view, &state.image),
            37..=38 if session.len() >= SESSION_LEN => {
                let mut made_up = session;
                chains::put_some(&mut self.random, &mut made_up, self.size);
                self.plan_with(made_up, &state.image);
            }
            39 => self.plan_held(&view, &state.image, &session),
            _ => self.plan_command(&view, &state.image),
        }
    }

    /// A made-up session, and something to do with it.
    fn plan_with(&mut self, made_up: Vec<u8>, image: &[u8]) {
        let view = View::new(image, &made_up);
        self.pending.push_back(Step::Session(made_up));
        match self.random.below(6) {
            0 => self.plan_open(),
            1 => self.plan_one_cut(&view, image),
            _ => self.plan_command(&view, image),
        }
    }

    /// A session that holds the first part of a command, and the rest of that command.
    fn plan_held(&mut self, view: &View, image: &[u8], session: &[u8]) {
        let command = command::command(&mut self.random, view, image, self.size);
        let command = match self.size {
            Size::Any if self.random.coin() => chains::full(&mut self.random, view),
            _ => None,
        }
        .or_else(|| Apdu::read(&command));
        let steps = command.and_then(|command| chains::held(&mut self.random, &command, session));
        match steps {
            Some(steps) => {
                self.moved = false;
                self.pending.extend(steps);
            }
            None => self.plan_command(view, image),
        }
    }

    /// The session to go on with. One that was refused gives way to the last that was not.
    fn good_session(&mut self, state: &State) -> Vec<u8> {
        match (&self.session, state.refusal()) {
            (Some(_), _) if self.moved => state.session.clone(),
            (Some(session), 3 | 4) => {
                self.pending.push_back(Step::Session(session.clone()));
                session.clone()
            }
            // These two say nothing about the session.
            (Some(_), 1 | 2) => state.session.clone(),
            _ => {
                self.session = Some(state.session.clone());
                state.session.clone()
            }
        }
    }

    fn plan_open(&mut self) {
        self.moved = false;
        let rights = match self.random.below(3) {
            0 => rights::no_chain(&mut self.random),
            _ => rights::chain(&mut self.random),
        };
        self.pending.push_back(Step::Open(rights));
    }

    /// Opens a session with the rights that were read into a buffer.
    fn plan_open_with(&mut self, rights: &[u8]) {
        self.moved = false;
        let chain = rights[..RIGHTS_LEN.min(rights.len())].to_vec();
        self.pending.push_back(Step::Open(chain));
    }

    /// A command. Amid a chain it goes on with that, mostly; else some that have data are sent in
    /// links.
    fn plan_command(&mut self, view: &View, image: &[u8]) {
        self.moved = false;
        let response_len = match self.random.below(60) {
            0 => self.random.pick(&[0, 1, 2, 256, SHORTEST_RESPONSE - 1]),
            1 => self.random.between(0, SHORTEST_RESPONSE - 1),
            2 | 3 => SHORTEST_RESPONSE,
            _ => self.random.between(SHORTEST_RESPONSE, 2_100),
        };
        let command = match &view.chain {
            Some(chain) if !self.random.one_in(3) => {
                chains::go_on(&mut self.random, chain, self.size)
            }
            _ => command::command(&mut self.random, view, image, self.size),
        };
        if let (None, true) = (&view.chain, self.random.one_in(CHAINS)) {
            if let Some(apdu) = Apdu::read(&command).filter(|apdu| apdu.data.is_some()) {
                let steps = chains::steps(&mut self.random, &apdu, self.size);
                self.pending.extend(steps);
                return;
            }
        }
        self.pending.push_back(Step::Command {
            response_len,
            command,
            record: None,
        });
    }

    /// A cut of a command that does something mostly, with the selections that it needs.
    fn plan_cut(&mut self, view: &View, image: &[u8]) {
        self.moved = false;
        let steps = cuts::steps(&mut self.random, view, image, self.size);
        self.pending.extend(steps);
    }

    /// A cut alone.
    fn plan_one_cut(&mut self, view: &View, image: &[u8]) {
        self.moved = false;
        let step = cuts::step(&mut self.random, view, image, self.size);
        self.pending.push_back(step);
    }

    /// A cut alone on a damaged image, now and then with a session that is none either.
    fn plan_damaged_cut(&mut self, damaged: &[u8], mut session: Vec<u8>) {
        let mut view = View::new(damaged, &session);
        if self.random.one_in(3) {
            session = rights::session(&mut self.random, &view, &session);
            view = View::new(damaged, &session);
            self.pending.push_back(Step::Session(session));
        }
        self.plan_one_cut(&view, damaged);
    }

    /// A move to rooms for what the given image holds.
    fn plan_move(&mut self, image: &[u8]) {
        self.moved = true;
        let step = moving::step(&mut self.random, image, self.size);
        self.pending.push_back(step);
    }

    /// A file to find in the image.
    fn plan_file(&mut self, image: &[u8]) {
        let kind = card::kind(&mut self.random, image);
        self.pending.push_back(Step::File(kind));
    }

    /// Certificates to find, in the image's body of them or in a made-up one.
    fn plan_certificates(&mut self, image: &[u8]) {
        let step = certificates::step(&mut self.random, image, self.size);
        self.pending.push_back(step);
    }

    /// A call of an index, with the image's body of a kind or with a made-up one.
    fn plan_index(&mut self, image: &[u8]) {
        let step = index::step(&mut self.random, image, self.size);
        self.pending.push_back(step);
    }

    /// A record to read as a stamp.
    fn plan_stamp(&mut self) {
        let step = stamps::step(&mut self.random, self.size);
        self.pending.push_back(step);
    }

    /// Runs of extensions to read rights from.
    fn plan_rights(&mut self) {
        let step = extensions::step(&mut self.random, self.size);
        self.pending.push_back(step);
    }

    /// A damaged image in place of the card's, and one step on it: a command, or one that is cut; a
    /// file or certificates to find; a call of an index; or a move to rooms for what can still be
    /// seen of it or for what it was.
    fn plan_damage(&mut self, state: &State) {
        let session = self.good_session(state);
        let image = self.image.get_or_insert_with(|| state.image.clone());
        let damaged = card::damaged(&mut self.random, image, self.size);
        let image = image.clone();
        self.pending.push_back(Step::Image(damaged.clone()));
        match self.random.below(10) {
            0 => self.plan_move(&damaged),
            1 => self.plan_move(&image),
            2 => self.plan_file(&damaged),
            3 => self.plan_certificates(&damaged),
            4 => self.plan_index(&damaged),
            5 => self.plan_damaged_cut(&damaged, session),
            _ => self.plan_command(&View::new(&damaged, &session), &damaged),
        }
    }
}
