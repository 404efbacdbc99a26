//! Machines that are wrong about chains, each in one way, made from the reference.

use compare::make::{
    Apdu, CHAIN_DATA, LONGEST_DATA, MORE, SESSION_LEN, SHORTEST_RESPONSE, STANDING_LEN,
};
use compare::sides::{Command, Cut, Machine, Open, REFERENCE};
use compare::view::{Chain, View};

/// What a command is given and may change.
pub struct Call<'a> {
    pub image: &'a mut [u8],
    pub session: &'a mut [u8],
    pub command: &'a [u8],
    pub response: &'a mut [u8],
}

impl Call<'_> {
    /// The reference's result.
    fn run(&mut self) -> u64 {
        reference::command(self.image, self.session, self.command, self.response)
    }

    /// The reference's result with another command in its place.
    fn run_as(&mut self, command: &[u8]) -> u64 {
        reference::command(self.image, self.session, command, self.response)
    }

    /// What the reference's result would be.
    fn result(&self) -> u64 {
        let (mut image, mut session) = (self.image.to_vec(), self.session.to_vec());
        let mut response = self.response.to_vec();
        reference::command(&mut image, &mut session, self.command, &mut response)
    }

    /// The number that the call is refused with, or 0.
    fn refusal(&self) -> u64 {
        self.result() >> 32
    }

    /// The status word, or 0 where the call is refused.
    fn status(&self) -> u16 {
        self.result() as u16
    }

    /// The chain of the session, in a call that is not refused.
    fn chain(&self) -> Option<Chain> {
        Chain::of(self.session).filter(|_| self.refusal() == 0)
    }

    fn apdu(&self) -> Option<Apdu> {
        Apdu::read(self.command)
    }

    fn is_link(&self) -> bool {
        self.command.first().is_some_and(|cla| cla & MORE != 0)
    }

    /// The fields of a last link and the chain that it ends.
    fn last(&self) -> Option<(Apdu, Chain)> {
        let chain = self.chain()?;
        let apdu = self.apdu()?;
        (!self.is_link() && apdu.header() == chain.header).then_some((apdu, chain))
    }

    /// The fields of a link but the last that is amid a chain of its header.
    fn further(&self) -> Option<(Apdu, Chain)> {
        let chain = self.chain()?;
        let apdu = self.apdu()?;
        (self.is_link() && apdu.header() == chain.header).then_some((apdu, chain))
    }

    /// Drops the chain and answers this status.
    fn answer(&mut self, status: u16) -> u64 {
        clear(self.session);
        self.tell(status)
    }

    /// Answers this status and changes nothing else.
    fn tell(&mut self, status: u16) -> u64 {
        self.response[..2].copy_from_slice(&status.to_be_bytes());
        0x2_0000 | u64::from(status)
    }

    /// The chain bytes of the session.
    fn chain_bytes(&self) -> Vec<u8> {
        self.session
            .get(STANDING_LEN..SESSION_LEN)
            .unwrap_or_default()
            .to_vec()
    }

    fn put_chain_bytes(&mut self, bytes: &[u8]) {
        self.session[STANDING_LEN..SESSION_LEN].copy_from_slice(bytes);
    }
}

fn clear(session: &mut [u8]) {
    session[STANDING_LEN..SESSION_LEN].fill(0);
}

/// The statuses that keep the chain, in a machine that keeps it on some.
fn kept_on(mut call: Call, keeps: fn(u16) -> bool) -> u64 {
    let chain = call.chain().map(|_| call.chain_bytes());
    let result = call.run();
    if let Some(chain) = chain {
        let status = result as u16;
        if status != 0x9000 && keeps(status) {
            call.put_chain_bytes(&chain);
        }
    }
    result
}

/// The last link with another join in place of the chain's data and its own; a join of no byte is no
/// data.
fn joined_by(mut call: Call, join: fn(&[u8], &[u8]) -> Vec<u8>) -> u64 {
    let Some((apdu, chain)) = call.last() else {
        return call.run();
    };
    let own = apdu.data.clone().unwrap_or_default();
    if chain.data.len() + own.len() > LONGEST_DATA {
        return call.run();
    }
    let join = join(&chain.data, &own);
    whole(&mut call, &apdu, join)
}

/// Runs the last link with these data in all: they come as the chain, so that Le stays as it is. The
/// session has no chain where there are none.
fn whole(call: &mut Call, last: &Apdu, data: Vec<u8>) -> u64 {
    let header = last.header();
    clear(call.session);
    if !data.is_empty() {
        Chain { header, data }.put(call.session);
    }
    let mut bare = last.clone();
    bare.data = None;
    call.run_as(&bare.bytes())
}

/// What a further link makes of the chain, in a machine that makes something else of it.
fn extended_by(mut call: Call, join: fn(&[u8], &[u8]) -> Vec<u8>) -> u64 {
    let further = call.further();
    let result = call.run();
    if let (Some((apdu, chain)), 0x9000) = (further, result as u16) {
        let data = join(&chain.data, &apdu.data.unwrap_or_default());
        let header = chain.header;
        Chain { header, data }.put(call.session);
    }
    result
}

/// A machine that says 6883 before this status, which steps 1 to 3 give.
fn header_before(mut call: Call, status: u16) -> u64 {
    let Some(chain) = call.chain() else {
        return call.run();
    };
    let other = call.command.get(1..4) != Some(&chain.header[..]);
    match call.run() as u16 {
        given if given == status && other => call.answer(0x6883),
        given => 0x2_0000 | u64::from(given),
    }
}

/// The result with another status, where there is no data.
fn with_status(call: &mut Call, from: u16, to: u16) -> u64 {
    match call.run() {
        result if result == 0x2_0000 | u64::from(from) => call.tell(to),
        result => result,
    }
}

/// A machine that takes a session which has one fault in its chain as one without a chain.
fn takes(mut call: Call, fault: fn(usize, [u8; 3], &[u8]) -> bool) -> u64 {
    if call.refusal() == 4 && call.session.len() >= SESSION_LEN {
        let bytes = call.chain_bytes();
        let length = usize::from(u16::from_le_bytes([bytes[0], bytes[1]]));
        if fault(length, [bytes[2], bytes[3], bytes[4]], &bytes[5..]) {
            let before = call.session.to_vec();
            clear(call.session);
            let result = call.run();
            if result >> 32 != 0 {
                call.session.copy_from_slice(&before);
            }
            return result;
        }
    }
    call.run()
}

/// A machine that finds no fit for some chains that fit.
fn refuses(mut call: Call, chain: fn(&Chain) -> bool) -> u64 {
    match call.chain() {
        Some(found) if chain(&found) => 4 << 32,
        _ => call.run(),
    }
}

fn known(ins: u8) -> bool {
    [0xA4, 0xB0, 0xB1, 0xD7, 0x44, 0xE2, 0xB2, 0xA2, 0x5E].contains(&ins)
}

/// Commands that are wrong: what is wrong with each, and what it makes of a call.
macro_rules! commands {
    ($($what:literal: $call:ident => $body:expr;)*) => {
        [$(($what, |image, session, command, response| {
            #[allow(unused_mut)]
            let mut $call = Call { image, session, command, response };
            $body
        })),*]
    };
}

/// A wrong machine: what is wrong with it, and its command.
pub type Wrong = (&'static str, Command);

const WRONG_DROPS: [Wrong; 12] = commands! {
    "a chain kept on every status": call => kept_on(call, |_| true);
    "a chain kept on 6883": call => kept_on(call, |status| status == 0x6883);
    "a chain kept on 6282": call => kept_on(call, |status| status == 0x6282);
    "a chain kept on 6700": call => kept_on(call, |status| status == 0x6700);
    "a chain kept on 6D00 and 6E00": call => kept_on(call, |status| status >> 8 >= 0x6D);
    "a chain kept on what step 10 says": call => {
        kept_on(call, |status| matches!(status, 0x6A84 | 0x6B00))
    };
    "a chain kept after the last link": call => {
        let chain = call.last().map(|_| call.chain_bytes());
        let result = call.run();
        if let (Some(chain), 0x9000) = (chain, result as u16) {
            call.put_chain_bytes(&chain);
        }
        result
    };
    "the header left after the last link": call => {
        let chain = call.last().map(|_| call.chain_bytes());
        let result = call.run();
        if let (Some(chain), 0x9000) = (chain, result as u16) {
            call.session[STANDING_LEN + 2..CHAIN_DATA].copy_from_slice(&chain[2..5]);
        }
        result
    };
    "the bytes left after the last link": call => {
        let chain = call.last().map(|_| call.chain_bytes());
        let result = call.run();
        if let (Some(chain), 0x9000) = (chain, result as u16) {
            call.session[CHAIN_DATA..SESSION_LEN].copy_from_slice(&chain[5..]);
        }
        result
    };
    "the bytes left where the chain is dropped": call => {
        let chain = call.chain().map(|_| call.chain_bytes());
        let result = call.run();
        match chain {
            Some(chain) if result as u16 != 0x9000 => {
                call.session[CHAIN_DATA..SESSION_LEN].copy_from_slice(&chain[5..]);
            }
            _ => {}
        }
        result
    };
    "the current place dropped with the chain": call => {
        let amid = call.chain().is_some();
        let result = call.run();
        if amid && result as u16 != 0x9000 {
            call.session[21..25].fill(0);
        }
        result
    };
    "the session stored on 6282": call => {
        let result = call.run();
        if result as u16 == 0x6282 && call.session[21] == 2 {
            // The file is set, so that its record is no more.
            (call.session[21], call.session[24]) = (1, 0);
        }
        result
    };
};

const WRONG_JOINS: [Wrong; 12] = commands! {
    "a join that forgets the first links": call => joined_by(call, |_, own| own.to_vec());
    "a join that forgets the last link": call => joined_by(call, |chain, _| chain.to_vec());
    "a join the other way round": call => joined_by(call, |chain, own| [own, chain].concat());
    "a join with a byte too few": call => joined_by(call, |chain, own| {
        [chain, own][..].concat()[1..].to_vec()
    });
    "a last link without data has none": call => joined_by(call, |chain, own| match own {
        [] => vec![],
        _ => [chain, own].concat(),
    });
    "a link in place of those before it": call => extended_by(call, |_, own| own.to_vec());
    "a link that is forgotten": call => extended_by(call, |chain, _| chain.to_vec());
    "a link before those before it": call => {
        extended_by(call, |chain, own| [own, chain].concat())
    };
    "links of at most 255 bytes kept": call => {
        extended_by(call, |chain, own| {
            let mut join = [chain, own].concat();
            join.truncate(255);
            join
        })
    };
    "the chain's length big-endian": call => {
        let result = call.run();
        if call.is_link() && result as u16 == 0x9000 {
            call.session.swap(STANDING_LEN, STANDING_LEN + 1);
        }
        result
    };
    "P1 and P2 kept the other way round": call => {
        let result = call.run();
        if call.is_link() && result as u16 == 0x9000 {
            call.session.swap(CHAIN_DATA - 2, CHAIN_DATA - 1);
        }
        result
    };
    "INS alone kept": call => {
        let result = call.run();
        if call.is_link() && result as u16 == 0x9000 {
            call.session[CHAIN_DATA - 2..CHAIN_DATA].fill(0);
        }
        result
    };
};

const WRONG_LENGTHS: [Wrong; 6] = commands! {
    "1,025 bytes accepted from a link": call => {
        let over = call.further().filter(|(apdu, chain)| {
            let own = apdu.data.as_ref().map_or(0, Vec::len);
            apdu.le.is_none() && own > 0 && chain.data.len() + own == LONGEST_DATA + 1
        });
        match over {
            Some((apdu, mut chain)) => {
                // There is no room for the last byte.
                chain.data.extend(apdu.data.unwrap_or_default());
                chain.data.truncate(LONGEST_DATA);
                chain.put(call.session);
                call.tell(0x9000)
            }
            None => call.run(),
        }
    };
    "1,025 bytes accepted from the last": call => {
        let over = call.last().filter(|(apdu, chain)| {
            chain.data.len() + apdu.data.as_ref().map_or(0, Vec::len) == LONGEST_DATA + 1
        });
        match over {
            Some((apdu, mut chain)) => {
                chain.data.extend(apdu.data.clone().unwrap_or_default());
                chain.data.truncate(LONGEST_DATA);
                whole(&mut call, &apdu, chain.data)
            }
            None => call.run(),
        }
    };
    "any length accepted from the last": call => {
        let over = call.last().filter(|(apdu, chain)| {
            chain.data.len() + apdu.data.as_ref().map_or(0, Vec::len) > LONGEST_DATA
        });
        match over {
            Some((apdu, chain)) => whole(&mut call, &apdu, chain.data),
            None => call.run(),
        }
    };
    "1,024 bytes refused from a link": call => {
        let just = call.further().is_some_and(|(apdu, chain)| {
            chain.data.len() + apdu.data.map_or(0, |data| data.len()) == LONGEST_DATA
        });
        match just {
            true => call.answer(0x6700),
            false => call.run(),
        }
    };
    "1,024 bytes refused from the last": call => {
        let just = call.last().is_some_and(|(apdu, chain)| {
            chain.data.len() + apdu.data.map_or(0, |data| data.len()) == LONGEST_DATA
        });
        match just {
            true => call.answer(0x6700),
            false => call.run(),
        }
    };
    "a join that is too long told before another header": call => {
        let too_long = call.chain().zip(call.apdu()).is_some_and(|(chain, apdu)| {
            chain.data.len() + apdu.data.map_or(0, |data| data.len()) > LONGEST_DATA
        });
        match too_long {
            true => match call.run() as u16 {
                0x6883 => call.answer(0x6700),
                status => 0x2_0000 | u64::from(status),
            },
            false => call.run(),
        }
    };
};

const WRONG_HEADERS: [Wrong; 9] = commands! {
    "6883 before 6D00": call => header_before(call, 0x6D00);
    "6883 before 6E00": call => header_before(call, 0x6E00);
    "6883 before 6700 of the shape": call => match call.apdu() {
        None => header_before(call, 0x6700),
        Some(_) => call.run(),
    };
    "6A86 before 6883": call => {
        if call.chain().is_some() {
            let mut alone = call.session.to_vec();
            clear(&mut alone);
            let (mut image, mut response) = (call.image.to_vec(), call.response.to_vec());
            let result = reference::command(&mut image, &mut alone, call.command, &mut response);
            let step_4 = call.command.get(1) != Some(&0x5E) && result as u16 == 0x6A86;
            if call.status() == 0x6883 && step_4 {
                return call.answer(0x6A86);
            }
        }
        call.run()
    };
    "6883 not given, the chain dropped": call => match call.status() {
        0x6883 => {
            clear(call.session);
            call.run()
        }
        _ => call.run(),
    };
    "6883 not given, the chain kept": call => match call.status() {
        0x6883 => {
            let chain = call.chain_bytes();
            clear(call.session);
            let result = call.run();
            if !call.is_link() {
                call.put_chain_bytes(&chain);
            }
            result
        }
        _ => call.run(),
    };
    "another P2 goes on with the chain": call => {
        let other = call.chain().zip(call.apdu());
        if let Some((mut chain, apdu)) = other {
            if chain.header[..2] == apdu.header()[..2] && call.status() == 0x6883 {
                chain.header = apdu.header();
                chain.put(call.session);
                if call.refusal() == 4 {
                    return call.answer(0x6A86);
                }
            }
        }
        call.run()
    };
    "6884 in place of 6883": call => with_status(&mut call, 0x6883, 0x6884);
    "6700 in place of 6883": call => with_status(&mut call, 0x6883, 0x6700);
};

/// The kind of the file that P2 of an append names, in the selected application.
fn file_of_p2(image: &[u8], session: &[u8], p2: u8) -> Option<u16> {
    let view = View::new(image, session);
    let mut files = view.here();
    files
        .find(|file| file.short_id == p2 >> 3)
        .map(|file| file.id)
}

const WRONG_LINKS: [Wrong; 14] = commands! {
    "a link that sets a file": call => {
        let result = call.run();
        let append = call.is_link() && call.command.get(1) == Some(&0xE2);
        if append && result as u16 == 0x9000 {
            if let Some(id) = file_of_p2(call.image, call.session, call.command[3]) {
                call.session[21] = 1;
                call.session[22..24].copy_from_slice(&id.to_le_bytes());
                call.session[24] = 0;
            }
        }
        result
    };
    "a link that drops the current record": call => {
        let result = call.run();
        if call.is_link() && result as u16 == 0x9000 && call.session[21] == 2 {
            (call.session[21], call.session[24]) = (1, 0);
        }
        result
    };
    "a link that is done as a whole": call => match call.status() {
        0x9000 if call.is_link() => {
            let mut alone = call.command.to_vec();
            alone[0] &= !MORE;
            let mut session = call.session.to_vec();
            clear(&mut session);
            let mut response = vec![0; SHORTEST_RESPONSE];
            reference::command(call.image, &mut session, &alone, &mut response);
            call.run()
        }
        _ => call.run(),
    };
    "a link that counts Le": call => match call.apdu() {
        Some(apdu) if call.is_link() && apdu.data.is_some() && apdu.le.is_some() => {
            let mut without = apdu;
            without.le = None;
            call.run_as(&without.bytes())
        }
        _ => call.run(),
    };
    "a link without data taken": call => match call.apdu() {
        Some(apdu) if call.is_link() && apdu.data.is_none() && apdu.le.is_none() => {
            match call.status() {
                0x6700 => call.tell(0x9000),
                _ => call.run(),
            }
        }
        _ => call.run(),
    };
    "a link answered 6100": call => match call.run() {
        0x2_9000 if call.is_link() => call.tell(0x6100),
        result => result,
    };
    "a link that passes no step 4": call => match (call.is_link(), call.status()) {
        (true, 0x6A86) => match call.apdu() {
            Some(apdu) if apdu.data.is_some() && apdu.le.is_none() => {
                let (header, data) = (apdu.header(), apdu.data.unwrap_or_default());
                Chain { header, data }.put(call.session);
                call.tell(0x9000)
            }
            _ => call.run(),
        },
        _ => call.run(),
    };
    "data and Le of a link tested before P1 and P2": call => match call.apdu() {
        Some(apdu) if call.is_link() && (apdu.data.is_none() || apdu.le.is_some()) => {
            with_status(&mut call, 0x6A86, 0x6700)
        }
        _ => call.run(),
    };
    "a link that needs its file": call => {
        let append = call.is_link() && call.command.get(1) == Some(&0xE2);
        if append && call.status() == 0x9000 && call.command[3] != 0 {
            let file = file_of_p2(call.image, call.session, call.command[3]);
            if file.is_none() {
                return call.answer(0x6A82);
            }
        }
        call.run()
    };
    "CLA 90 not known": call => match call.command.first() {
        Some(0x90) if call.refusal() == 0 && call.apdu().is_some() => call.answer(0x6E00),
        _ => call.run(),
    };
    "CLA 10 not known": call => match call.command.first() {
        Some(0x10) if call.refusal() == 0 && call.apdu().is_some() => call.answer(0x6E00),
        _ => call.run(),
    };
    "FMM in CLA 10": call => match call.command {
        [0x10, 0x5E, ..] => {
            let mut own = call.command.to_vec();
            own[0] = 0x90;
            call.run_as(&own)
        }
        _ => call.run(),
    };
    "b6 of CLA passed over": call => {
        let mut own = call.command.to_vec();
        if let Some(cla) = own.first_mut() {
            if *cla & MORE != 0 {
                *cla &= !0x20;
            }
        }
        call.run_as(&own)
    };
    "CLA FF a link": call => {
        let mut own = call.command.to_vec();
        if own.first() == Some(&0xFF) {
            own[0] = 0x10;
        }
        call.run_as(&own)
    };
};

const WRONG_FITS: [Wrong; 13] = commands! {
    "a length over 1,024 fits": call => takes(call, |length, _, _| length > LONGEST_DATA);
    "a header without a chain fits": call => {
        takes(call, |length, header, data| {
            length == 0 && header != [0; 3] && data.iter().all(|byte| *byte == 0)
        })
    };
    "bytes without a chain fit": call => {
        takes(call, |length, header, data| {
            length == 0 && header == [0; 3] && data.iter().any(|byte| *byte != 0)
        })
    };
    "the last byte is not looked at": call => {
        takes(call, |length, header, data| {
            let [rest @ .., last] = data else {
                return false;
            };
            *last != 0 && length == 0 && header == [0; 3] && rest.iter().all(|byte| *byte == 0)
        })
    };
    "bytes behind the chain fit": call => {
        takes(call, |length, header, data| {
            known(header[0])
                && (1..LONGEST_DATA).contains(&length)
                && data[length..].iter().any(|byte| *byte != 0)
        })
    };
    "an INS of no command fits": call => {
        takes(call, |length, header, data| {
            !known(header[0])
                && (1..=LONGEST_DATA).contains(&length)
                && data[length..].iter().all(|byte| *byte == 0)
        })
    };
    "P1 and P2 that step 4 refuses fit": call => {
        takes(call, |length, header, data| {
            known(header[0])
                && (1..=LONGEST_DATA).contains(&length)
                && data[length..].iter().all(|byte| *byte == 0)
        })
    };
    "a chain of READ BINARY B0 does not fit": call => {
        refuses(call, |chain| chain.header[0] == 0xB0)
    };
    "a chain of ACTIVATE does not fit": call => refuses(call, |chain| chain.header[0] == 0x44);
    "a chain of FMM does not fit": call => refuses(call, |chain| chain.header[0] == 0x5E);
    "a chain of 1,024 bytes does not fit": call => {
        refuses(call, |chain| chain.data.len() == LONGEST_DATA)
    };
    "a session buffer of one byte too few": call => match call.session.len() {
        1_053 => {
            let mut session = [&*call.session, &[0]].concat();
            let command = call.command;
            let result = reference::command(call.image, &mut session, command, call.response);
            call.session.copy_from_slice(&session[..1_053]);
            result
        }
        _ => call.run(),
    };
    "a session buffer of more refused": call => match call.session.len() > SESSION_LEN {
        true if call.refusal() == 0 => 4 << 32,
        _ => call.run(),
    };
};

const WRONG_REFUSALS: [Wrong; 4] = commands! {
    "refusal 1 drops the chain": call => match (call.refusal(), Chain::of(call.session)) {
        (1, Some(_)) => {
            clear(call.session);
            1 << 32
        }
        _ => call.run(),
    };
    "refusal 2 drops the chain": call => match (call.refusal(), Chain::of(call.session)) {
        (2, Some(_)) => {
            clear(call.session);
            2 << 32
        }
        _ => call.run(),
    };
    "refusal 4 drops the chain": call => match (call.refusal(), Chain::of(call.session)) {
        (4, Some(_)) => {
            clear(call.session);
            4 << 32
        }
        _ => call.run(),
    };
    "4 before 2": call => {
        let chain = call.session.get(STANDING_LEN..SESSION_LEN);
        let long = chain.is_none_or(|chain| u16::from_le_bytes([chain[0], chain[1]]) > 1_024);
        match call.refusal() {
            2 if long => 4 << 32,
            _ => call.run(),
        }
    };
};

const WRONG_LASTS: [Wrong; 5] = commands! {
    "E0 as 60": call => {
        let result = call.run();
        if result as u16 == 0x9000 && call.session[20] == 0 {
            let length = usize::from((result >> 16) as u16);
            let answer = &mut call.response[..length];
            let info = [0x86, 0x01, 0xE0];
            if let Some(at) = answer.windows(3).position(|three| three == info) {
                answer[at + 2] = 0x60;
            }
        }
        result
    };
    "the last link's Le passed over": call => match call.last() {
        Some((apdu, _)) if apdu.le.is_some() => {
            let mut without = apdu;
            without.le = None;
            call.run_as(&without.bytes())
        }
        _ => call.run(),
    };
    "READ BINARY B0 answered at the end of a chain": call => match call.last() {
        Some((apdu, _)) if apdu.ins == 0xB0 => {
            let mut without = apdu;
            without.data = None;
            clear(call.session);
            call.run_as(&without.bytes())
        }
        _ => call.run(),
    };
    "ACTIVATE done at the end of a chain": call => match call.last() {
        Some((apdu, _)) if apdu.ins == 0x44 && apdu.data.is_none() => {
            clear(call.session);
            call.run()
        }
        _ => call.run(),
    };
    "READ BINARY B1 refused at the end of a chain": call => match call.last() {
        Some((apdu, _)) if apdu.ins == 0xB1 => call.answer(0x6700),
        _ => call.run(),
    };
};

/// All machines that are wrong in a command.
pub fn wrong_commands() -> impl Iterator<Item = Wrong> {
    WRONG_DROPS
        .into_iter()
        .chain(WRONG_JOINS)
        .chain(WRONG_LENGTHS)
        .chain(WRONG_HEADERS)
        .chain(WRONG_LINKS)
        .chain(WRONG_FITS)
        .chain(WRONG_REFUSALS)
        .chain(WRONG_LASTS)
}

/// The session without its chain, where it has one that fits.
fn alone(session: &[u8]) -> Vec<u8> {
    let mut alone = session.to_vec();
    if Chain::of(session).is_some() {
        clear(&mut alone);
    }
    alone
}

fn cut_refused(image: &[u8], session: &[u8]) -> bool {
    reference::cut(&mut image.to_vec(), session, &[], 0) != 0
}

/// A cut that is wrong.
pub type WrongCut = (&'static str, Cut);

pub const WRONG_CUTS: [WrongCut; 7] = [
    (
        "a cut of a link makes stores",
        |image, session, command, stores| {
            let mut own = command.to_vec();
            if let (Some(cla), false) = (own.first_mut(), cut_refused(image, session)) {
                *cla &= !MORE;
                return reference::cut(image, session, &own, stores);
            }
            reference::cut(image, session, command, stores)
        },
    ),
    (
        "a cut that forgets the chain",
        |image, session, command, stores| match cut_refused(image, session) {
            true => reference::cut(image, session, command, stores),
            false => reference::cut(image, &alone(session), command, stores),
        },
    ),
    (
        "a cut of another header makes stores",
        |image, session, command, stores| {
            let other = Chain::of(session)
                .is_some_and(|chain| command.get(1..4) != Some(&chain.header[..]));
            match other && !cut_refused(image, session) {
                true => reference::cut(image, &alone(session), command, stores),
                false => reference::cut(image, session, command, stores),
            }
        },
    ),
    (
        "a cut of a last link has no store",
        |image, session, command, stores| match Chain::of(session) {
            Some(_) if !cut_refused(image, session) => 0,
            _ => reference::cut(image, session, command, stores),
        },
    ),
    (
        "a cut of a last link without data has no store",
        |image, session, command, stores| match (Chain::of(session), command) {
            (Some(_), [0x00, 0xE2, _, _]) if !cut_refused(image, session) => 0,
            _ => reference::cut(image, session, command, stores),
        },
    ),
    (
        "a cut of ACTIVATE at the end of a chain has its store",
        |image, session, command, stores| match (Chain::of(session), command) {
            (Some(chain), [0x00, 0x44, 0x00, 0x00])
                if chain.header[0] == 0x44 && !cut_refused(image, session) =>
            {
                reference::cut(image, &alone(session), command, stores)
            }
            _ => reference::cut(image, session, command, stores),
        },
    ),
    (
        "a chain that no links could have left fits a cut",
        |image, session, command, stores| {
            let mut without = session.to_vec();
            if let Some(chain) = without.get_mut(STANDING_LEN..SESSION_LEN) {
                chain.fill(0);
            }
            match reference::cut(&mut image.to_vec(), session, command, 0) >> 32 {
                4 => reference::cut(image, &without, command, stores),
                _ => reference::cut(image, session, command, stores),
            }
        },
    ),
];

/// An opening that is wrong.
pub type WrongOpen = (&'static str, Open);

pub const WRONG_OPENS: [WrongOpen; 3] = [
    ("an opening that leaves the chain", |rights, session| {
        let before = session.to_vec();
        let result = reference::open(rights, session);
        if session.len() >= SESSION_LEN && Chain::of(&before).is_some() {
            session[STANDING_LEN..SESSION_LEN].copy_from_slice(&before[STANDING_LEN..SESSION_LEN]);
        }
        result
    }),
    (
        "a refused opening that leaves the chain",
        |rights, session| {
            let before = session.to_vec();
            let result = reference::open(rights, session);
            if result >> 32 == 3 && session.len() >= SESSION_LEN {
                session[STANDING_LEN..SESSION_LEN]
                    .copy_from_slice(&before[STANDING_LEN..SESSION_LEN]);
            }
            result
        },
    ),
    (
        "25 bytes are enough to open",
        |rights, session| match session.len() {
            STANDING_LEN..SESSION_LEN => {
                let mut whole = [0; SESSION_LEN];
                let result = reference::open(rights, &mut whole);
                let length = session.len();
                session.copy_from_slice(&whole[..length]);
                result
            }
            _ => reference::open(rights, session),
        },
    ),
];

/// Machines made from the same parts with nothing wrong.
pub const RIGHT: [Command; 4] = [
    |image, session, command, response| {
        let call = Call {
            image,
            session,
            command,
            response,
        };
        kept_on(call, |_| false)
    },
    |image, session, command, response| {
        let call = Call {
            image,
            session,
            command,
            response,
        };
        joined_by(call, |chain, own| [chain, own].concat())
    },
    |image, session, command, response| {
        let call = Call {
            image,
            session,
            command,
            response,
        };
        extended_by(call, |chain, own| [chain, own].concat())
    },
    |image, session, command, response| {
        let call = Call {
            image,
            session,
            command,
            response,
        };
        takes(call, |_, _, _| false)
    },
];

/// Every wrong machine.
pub fn all_wrong() -> Vec<(&'static str, Machine)> {
    let commands = wrong_commands().map(|(what, command)| {
        let machine = Machine {
            command,
            ..REFERENCE
        };
        (what, machine)
    });
    let cuts = WRONG_CUTS.map(|(what, cut)| (what, Machine { cut, ..REFERENCE }));
    let opens = WRONG_OPENS.map(|(what, open)| (what, Machine { open, ..REFERENCE }));
    commands.chain(cuts).chain(opens).collect()
}
