//! Commands that come in links: a certificate, a search and more of them whole in the end; every
//! status word amid a chain, another header, joins of the longest data and of a byte more, links that
//! are none; then sessions whose chain no links could have left, session buffers of other lengths,
//! refusals amid a chain, and cuts.

use crate::hex::{fnv, hex};
use crate::line::{card, opened, run, select, Line};
use crate::make::{
    self, Apdu, CERTIFICATE_LEN, CHAIN_DATA, LONGEST_DATA, RIGHTS_LEN, SECTION_HEADER, SESSION_LEN,
    SHORTEST_RESPONSE, STANDING_LEN,
};
use crate::step::Step;
use crate::view::Chain;

const USA: &[u8] = b"\x5F\x44\x03USA";
const FRA: &[u8] = b"\x5F\x44\x03FRA";
/// The room of EntryRecords, which has two records.
const ENTRIES: usize = 120;
/// Of ExitRecords, which is full.
const EXITS: usize = 5;
const CERTIFICATES: usize = 910;
/// The room of Biometrics 5, of which three bytes are written.
const ROOM: usize = 1_020;
/// The certificate that comes in links.
const LONG: usize = 900;

pub fn lines() -> Vec<Line> {
    [
        a_certificate_in_four_links(),
        a_search_in_two_links(),
        other_commands_in_links(),
        a_link_sets_nothing(),
        the_last_ends_the_chain(),
        commands_without_data(),
        links_that_are_none(),
        every_status(),
        another_header(),
        joins(),
        first_links(),
        impossible_chains(),
        possible_chains(),
        lengths_of_the_buffer(),
        refusals_amid_a_chain(),
        opened_amid_a_chain(),
        cuts(),
    ]
    .concat()
}

/// EntryRecords, ExitRecords and certificates; then, where it is not to stay small, biometrics
/// certificates, Biometrics 5, which is open, and 6, which is Activated.
fn image(large: bool) -> Vec<u8> {
    let section = |kind, content: &[u8], length| {
        let mut body = content.to_vec();
        body.resize(length, 0xEE);
        make::section(kind, &body)
    };
    let certificates = if large { CERTIFICATES } else { 2 };
    let travel = [
        section(0x0101, &make::records(&[USA, FRA]), ENTRIES),
        section(0x0102, &make::records(&[[7]]), EXITS),
        section(0x011A, &[0, 0], certificates),
    ];
    let biometrics = [
        section(0x031A, &[0, 0], 2),
        section(0x0405, &make::biometrics(0, 3, b"\xC1\xC2\xC3"), 5 + ROOM),
        section(0x0406, &make::biometrics(1, 2, b"\xD1\xD2"), 9),
    ];
    match large {
        true => [travel.concat(), biometrics.concat()].concat(),
        false => travel.concat(),
    }
}

/// The card with all rights, and the application selected.
fn on(large: bool, application: u8) -> Vec<Line> {
    let [session, open] = opened(vec![0xFF; RIGHTS_LEN]);
    vec![card(image(large)), session, open, select(application)]
}

/// Bytes that tell where they came from.
fn pattern(length: usize) -> Vec<u8> {
    (0..length).map(|at| (at * 7 + at / 256) as u8).collect()
}

/// The command of a header, which is hexadecimal as all commands here.
fn command(header: &str) -> Apdu {
    let [cla, ins, p1, p2] = bytes(header)[..] else {
        panic!("a header has four bytes");
    };
    Apdu::new(cla, ins, p1, p2)
}

fn bytes(text: &str) -> Vec<u8> {
    let digits: Vec<u8> = text
        .bytes()
        .filter(|byte| *byte != b' ')
        .map(|digit| (digit as char).to_digit(16).expect("a digit") as u8)
        .collect();
    digits.chunks(2).map(|two| two[0] << 4 | two[1]).collect()
}

/// A command, and its answer.
fn say(text: &str, answer: &str) -> Line {
    of_bytes(bytes(text), SHORTEST_RESPONSE, answer)
}

fn of_bytes(command: Vec<u8>, response_len: usize, answer: &str) -> Line {
    let step = Step::Command {
        response_len,
        command,
        record: None,
    };
    (step, answer.to_string())
}

/// The links of a command that are not its last, each of which is taken.
fn links(command: &Apdu, parts: &[&[u8]]) -> Vec<Line> {
    let link = |part: &&[u8]| run(&command.bare().link().data(part.to_vec()), "9000");
    parts.iter().map(link).collect()
}

/// A command whose data are cut at these places.
fn in_links(command: &Apdu, places: &[usize], answer: &str) -> Vec<Line> {
    let mut rest = command.data.as_deref().unwrap_or_default();
    let mut lines = Vec::new();
    let mut at = 0;
    for place in places {
        let (part, behind) = rest.split_at(place - at);
        lines.extend(links(command, &[part]));
        (rest, at) = (behind, *place);
    }
    let mut last = command.clone();
    last.data = (!rest.is_empty()).then(|| rest.to_vec());
    lines.push(run(&last, answer));
    lines
}

/// READ RECORD of the current record.
fn read_current(record: &[u8]) -> Line {
    say("00B20004 000000", &format!("{}9000", hex(record)))
}

fn a_certificate_in_four_links() -> Vec<Line> {
    let record = pattern(LONG);
    let append = command("00E200D0").data(record.clone());
    let mut lines = on(true, 1);
    lines.extend(in_links(&append, &[255, 510, 765], "9000"));
    lines.push(read_current(&record));
    // There is room for nothing more, which the last link alone tells.
    lines.extend(in_links(&append, &[1, 2, 899], "6a84"));
    lines.push(read_current(&record));
    lines
}

fn search_data(string: &[u8]) -> Vec<u8> {
    make::search(make::object, &[0x01], 0x00, [&[3], &[3]], string)
}

/// Cut at every place, the last behind all data; and one that finds nothing.
fn a_search_in_two_links() -> Vec<Line> {
    let search = |string| command("00A200F8").data(search_data(string)).le(0);
    let length = search_data(b"FRA").len();
    let found = "7f76065101010201029000";
    let mut lines = on(false, 1);
    for place in 1..=length {
        lines.extend(in_links(&search(b"FRA"), &[place], found));
    }
    lines.push(read_current(FRA));
    for places in [&[9][..], &[1, 2, 3], &[length]] {
        lines.extend(in_links(&search(b"DEU"), places, "6282"));
        lines.push(read_current(FRA));
    }
    // Le is the last link's own, be it short or extended.
    let link = |line: &str| format!("10A200F8 {:02X} {line}", line.len() / 2);
    let data = hex(&search_data(b"USA"));
    for (le, answer) in [
        ("00", "7f76065101010201019000"),
        ("000000", "7f76065101010201019000"),
        ("", "6700"),
        ("01", "6700"),
        ("000001", "6700"),
    ] {
        lines.extend([
            say(&link(&data), "9000"),
            say(&format!("00A200F8 {le}"), answer),
        ]);
    }
    lines
}

fn other_commands_in_links() -> Vec<Line> {
    let aid = |application| command("00A4040C").data(make::aid(application).to_vec());
    let fmm = |data: &str| command("805E0101").data(bytes(data)).le(0);
    let update = command("00D70205").data(bytes("540103 5302 AABB"));
    let b1 = command("00B10205").data(bytes("540101")).le(0);
    let mut lines = on(true, 1);
    for place in 1..=7 {
        lines.extend(in_links(&aid(1), &[place], "9000"));
    }
    lines.extend(in_links(
        &fmm("51020101"),
        &[1, 2, 3, 4],
        "7f78038101729000",
    ));
    lines.extend(in_links(&fmm("510108"), &[2], "7f78038101729000"));
    lines.extend(in_links(&fmm("510108"), &[3], "7f78038101729000"));
    lines.extend(in_links(&fmm("510101"), &[2], "6a80"));
    lines.extend(in_links(&aid(3), &[5], "9000"));
    lines.extend(in_links(&update, &[2, 5], "9000"));
    lines.extend(in_links(&b1, &[1], "5304c2c3aabb9000"));
    lines.extend(in_links(&b1, &[1, 2, 3], "5304c2c3aabb9000"));
    lines.extend(in_links(&b1.clone().le(3), &[2], "5301c29000"));
    lines.extend(in_links(&b1.clone().le(2), &[2], "6700"));
    // EF.ATR/INFO tells that commands may come so.
    lines.extend(in_links(
        &command("00A4000C").data(vec![0x3F, 0x00]),
        &[1],
        "9000",
    ));
    lines.push(say("00B08100 05", "47038601e09000"));
    lines
}

/// The current file and record, and the application, are those from before the first link until
/// the last.
fn a_link_sets_nothing() -> Vec<Line> {
    let mut lines = on(false, 1);
    lines.push(say("00E20008 01 AA", "9000"));
    for (link, last) in [
        ("10E20010 01 01", "00E20018"),
        ("10A4020C 02 0102", "00A4020D"),
        ("10A4040C 07 A0000002472001", "00A4040D"),
        ("10A4000C 02 3F00", "00A4000D"),
        ("10B08100 01 00", "00B08101 00"),
        ("905E0100 03 510110", "805E0101 00"),
    ] {
        // Another header drops the chain, and then the record is still there.
        lines.extend([say(link, "9000"), say(last, "6883"), read_current(&[0xAA])]);
    }
    lines.extend([
        say("10E20008 02 0102", "9000"),
        say("00E20008 01 03", "9000"),
        read_current(&[1, 2, 3]),
        say("10A4020C 01 01", "9000"),
        say("00A4020C 01 01", "9000"),
        say("00B20004 000000", "6a83"),
    ]);
    lines
}

/// What comes behind the last link stands by itself.
fn the_last_ends_the_chain() -> Vec<Line> {
    let mut lines = on(false, 1);
    lines.extend([
        say("10E20008 01 01", "9000"),
        say("00E20008", "9000"),
        read_current(&[1]),
        say("00E20008", "6700"),
        say("10E20008 01 02", "9000"),
        say("00E20008 01 03", "9000"),
        say("00E20008 01 04", "9000"),
        read_current(&[4]),
        // Bytes that a chain has left would make the next one longer, or no session.
        say("10E20008 04 11111111", "9000"),
        say("00E20010", "6883"),
        say("10E20008 01 05", "9000"),
        say("00E20008 01 06", "9000"),
        read_current(&[5, 6]),
        say("00A4000C 02 3F00", "9000"),
    ]);
    lines
}

/// A chain of these always fails, at its last link.
fn commands_without_data() -> Vec<Line> {
    let chain = |link: &str, last: &str| vec![say(link, "9000"), say(last, "6700")];
    let mut lines = on(true, 3);
    lines.push(say("00A4020C 02 0205", "9000"));
    lines.extend(chain("10B00000 01 00", "00B00000 00"));
    lines.extend(chain("10B00000 01 00", "00B00000"));
    lines.extend(chain("10B00000 01 00", "00B00000 01 00 00"));
    lines.push(say("00B00000 00", "c1c2c39000"));
    lines.extend(chain("10440000 01 00", "00440000"));
    lines.extend(chain("10440000 01 00", "00440000 01 00"));
    lines.extend(chain("10B2010C 01 00", "00B2010C 000000"));
    lines.extend(chain("905E0001 01 51", "805E0001 00"));
    lines.push(say("805E0001 00", "7f7804810203fc9000"));
    lines.push(say("00440000", "9000"));
    lines
}

/// A link but the last has data and no Le.
fn links_that_are_none() -> Vec<Line> {
    let mut lines = on(false, 1);
    for link in [
        "10E20008",
        "10E20008 00",
        "10E20008 000000",
        "10E20008 01 77 00",
        "10E20008 000001 77 0000",
        "10E20008 01 77 01",
    ] {
        lines.extend([
            say(link, "6700"),
            say("10E20008 01 01", "9000"),
            say(link, "6700"),
        ]);
    }
    // What they dropped is not in the record.
    lines.extend([
        say("00E20008 01 02", "9000"),
        read_current(&[2]),
        say("10A200F8 01 7F 00", "6700"),
        say("10440000", "6700"),
        say("10B08100 00", "6700"),
        say("905E0000 00", "6700"),
    ]);
    lines
}

/// Each status word that may come amid a chain. Behind each the chain is dropped: the same header
/// without data is no command.
fn every_status() -> Vec<Line> {
    let append = "10E20008 01 77";
    let travel: [(&str, &str, &str); 24] = [
        (append, "00E200", "6700"),
        (append, "", "6700"),
        (append, "00E20008 02 77", "6700"),
        (append, "10E20008 02 77", "6700"),
        (append, "10E20008 00 77", "6700"),
        (append, "10", "6700"),
        (append, "00E20008 01 77 00", "6700"),
        (append, "20E20008 01 77", "6e00"),
        (append, "01E20008 01 77", "6e00"),
        (append, "30E20008 01 77", "6e00"),
        (append, "11E20008 01 77", "6e00"),
        (append, "FFE20008 01 77", "6e00"),
        (append, "00E30008 01 77", "6d00"),
        (append, "90E20008 01 77", "6d00"),
        (append, "10E30008 01 77", "6d00"),
        (append, "00E20010 01 77", "6883"),
        ("10E20010 01 77", "00E20010", "6a84"),
        ("10E20010 02 7778", "00E20010 01 79", "6a84"),
        ("10E20018 01 77", "00E20018", "6a82"),
        ("10A4020C 01 01", "00A4020C 01 03", "6a82"),
        ("10E20000 01 77", "00E20000", "6986"),
        ("10B10000 01 54", "00B10000 02 0100 00", "6986"),
        ("10D70000 01 54", "00D70000 04 01005300", "6986"),
        ("905E0107 01 51", "805E0107 02 0101 00", "6a80"),
    ];
    let mut lines = on(false, 1);
    for (link, last, answer) in travel {
        lines.extend([
            say(link, "9000"),
            say(last, answer),
            say("00E20008", "6700"),
        ]);
    }
    lines.extend([
        say("00A4000C 02 3F00", "9000"),
        say(append, "9000"),
        say("00E20008", "6981"),
        say("905E0102 02 5102", "9000"),
        say("805E0102 02 2F01 00", "6a86"),
        say("905E0104 02 5102", "9000"),
        say("805E0104 02 2F00 00", "6a86"),
        say("905E0107 01 51", "9000"),
        say("805E0107 02 0108 00", "6a86"),
    ]);
    lines.extend(on(true, 3));
    lines.extend([
        say("10B10205 01 54", "9000"),
        say("00B10205 02 0103 00", "6b00"),
        say("10B10205 02 5401", "9000"),
        say("00B10205 01 FF 00", "6b00"),
        say("10B10205 05 5403000003", "9000"),
        say("00B10205 00", "6b00"),
        say("10D70206 01 54", "9000"),
        say("00D70206 04 01005300", "6982"),
        say("10D70206 02 5401", "9000"),
        say("00D70206 03 005300", "6982"),
        say("10D70205 02 5401", "9000"),
        say("00D70205 03 045300", "6a80"),
        say("10B1011A 02 5401", "9000"),
        say("00B1011A 01 00 00", "6981"),
        say("00B10205 03 540100 00", "5303c1c2c39000"),
    ]);
    lines
}

/// INS, P1 or P2 other than the chain's: behind 6D00, before 6A86 and all else. What was sent is
/// not done.
fn another_header() -> Vec<Line> {
    let mut lines = on(false, 1);
    for (other, answer) in [
        ("10E20010 01 77", "6883"),
        ("00E20010 01 77", "6883"),
        ("10E20108 01 77", "6883"),
        ("00E20009 01 77", "6883"),
        ("10B20008 01 77", "6883"),
        ("00A4000C 02 3F00", "6883"),
        ("00A4040D", "6883"),
        ("00440001", "6883"),
        ("905E0008 01 77", "6883"),
        ("805E0000 00", "6883"),
        ("10E20010", "6883"),
        ("00E20010 01 77 00", "6883"),
        ("00E30010 01 77", "6d00"),
        ("80E20008 01 77", "6d00"),
        ("10000000 01 77", "6d00"),
        ("005E0008 00", "6d00"),
        ("01E20010 01 77", "6e00"),
        ("00E20010 00 77", "6700"),
        ("00E2", "6700"),
    ] {
        lines.extend([say("10E20008 02 0102", "9000"), say(other, answer)]);
    }
    // Sent again they are done, for the chain is over.
    lines.extend([
        say("00E20008 01 03", "9000"),
        read_current(&[3]),
        say("10E20008 02 0102", "9000"),
        say("10E20000 01 03", "6883"),
        say("10E20000 01 04", "9000"),
        say("00E20000 01 05", "9000"),
        read_current(&[4, 5]),
        say("905E0107 02 5102", "9000"),
        say("005E0107 02 0101 00", "6d00"),
        say("805E0107 02 0101 00", "6a80"),
    ]);
    lines
}

/// UPDATE BINARY of Biometrics 5 whose data have so many bytes.
fn update(length: usize) -> Apdu {
    let data = [
        make::object(&[0x54], &[0]),
        make::object(&[0x53], &pattern(length - 7)),
    ];
    command("00D70205").data(data.concat())
}

/// Joins of 1,024 bytes and of 1,025, by a link and by the last, which is 6700 before the data are
/// looked at.
fn joins() -> Vec<Line> {
    let full = update(LONGEST_DATA);
    let data = full.data.clone().unwrap_or_default();
    let (most, last) = data.split_at(LONGEST_DATA - 1);
    let mut lines = on(true, 3);
    lines.extend(in_links(&full, &[LONGEST_DATA], "9000"));
    lines.push(say("00B00000 04", &format!("{}9000", hex(&pattern(4)))));
    lines.extend(in_links(&full, &[LONGEST_DATA - 1], "9000"));
    lines.extend(in_links(&full, &[255, 510, 765, 1_020], "9000"));
    // By a link: 1,024 and then one more.
    lines.extend(links(&full, &[most, last]));
    lines.push(say("10D70205 01 00", "6700"));
    lines.push(say("00D70205", "6700"));
    lines.extend(links(&full, &[most]));
    lines.push(say("10D70205 02 0000", "6700"));
    lines.extend(links(&full, &[&[0x54]]));
    lines.push(run(&full.clone().link(), "6700"));
    // By the last; with another header too, which is told first.
    lines.extend(links(&full, &[most]));
    lines.push(say("00D70205 02 0000", "6700"));
    lines.extend(links(&full, &[&data]));
    lines.push(say("00D70205 01 00", "6700"));
    lines.extend(links(&full, &[&data]));
    lines.push(say("00D70206 01 00", "6883"));
    // Where the data would be refused for what they are, were they not too long.
    let name = vec![0x77; LONGEST_DATA];
    let select = command("00A4040C").data(name.clone());
    lines.extend(in_links(&select, &[LONGEST_DATA], "6a82"));
    lines.extend(links(&select, &[&name]));
    lines.push(say("00A4040C 01 77", "6700"));
    lines.push(say("00B00000 01", &format!("{}9000", hex(&pattern(1)))));
    // A link by itself has at most as much.
    lines.push(run(
        &command("10D70205").data(vec![0; LONGEST_DATA + 1]),
        "6700",
    ));
    lines
}

/// A first link passes steps 1 to 4 and no more.
fn first_links() -> Vec<Line> {
    let [session, open] = opened(vec![0; RIGHTS_LEN]);
    let mut lines = vec![card(image(false)), session, open];
    for (link, answer) in [
        ("10", "6700"),
        ("10E20008 02 77", "6700"),
        ("20E20008 01 77", "6e00"),
        ("11E20008 01 77", "6e00"),
        ("50E20008 01 77", "6e00"),
        ("D0E20008 01 77", "6e00"),
        ("FFE20008 01 77", "6e00"),
        ("90E20008 01 77", "6d00"),
        ("105E0100 01 77", "6d00"),
        ("10E30008 01 77", "6d00"),
        ("10E20108 01 77", "6a86"),
        ("10E20009", "6a86"),
        ("10A4040D 01 77", "6a86"),
        ("10B0A000 01 77", "6a86"),
        ("10440001 01 77", "6a86"),
        ("10B20103 01 77", "6a86"),
        ("10A20000 01 77", "6a86"),
        ("905E0200 01 77", "6a86"),
        ("905E0008 01 77", "6a86"),
    ] {
        lines.push(say(link, answer));
    }
    // Neither rights nor files nor what the data say.
    for link in [
        "10E200F8 01 77",
        "10A4040C 01 77",
        "10D7FFFF 01 77",
        "10A200F8 01 77",
    ] {
        lines.extend([
            say(link, "9000"),
            say(link, "9000"),
            say("00440000", "6883"),
        ]);
    }
    lines.extend([
        say("10E20008 01 77", "9000"),
        say("00E20008", "6981"),
        say("10A4040C 07 A0000002472001", "9000"),
        say("00A4040C", "6982"),
    ]);
    lines
}

/// A session with all rights and travel selected, which holds these bytes for a chain.
fn session_with(length: usize, header: [u8; 3], data: &[u8]) -> Vec<u8> {
    let mut session = vec![0; SESSION_LEN];
    session[..4].copy_from_slice(&[0x07, 0x0F, 0x0F, 0x03]);
    session[4..CERTIFICATE_LEN].fill(0xFF);
    session[20] = 1;
    Chain {
        header,
        data: data.to_vec(),
    }
    .put(&mut session);
    session[STANDING_LEN..STANDING_LEN + 2].copy_from_slice(&(length as u16).to_le_bytes());
    session
}

fn session(bytes: Vec<u8>) -> Line {
    (Step::Session(bytes), String::new())
}

/// Each of these gets number 4: for a command and for a cut.
fn impossible_chains() -> Vec<Line> {
    let append = [0xE2, 0x00, 0x08];
    let with_byte = |length, header, at: usize| {
        let mut session = session_with(length, header, &[]);
        session[CHAIN_DATA + at] = 1;
        session
    };
    let full = vec![0x77; LONGEST_DATA];
    let sessions = vec![
        session_with(1_025, append, &full),
        session_with(1_025, append, &[]),
        session_with(0x8001, append, &[1]),
        session_with(0xFFFF, append, &[1]),
        session_with(0, append, &[]),
        session_with(0, [0xE2, 0, 0], &[]),
        session_with(0, [0, 1, 0], &[]),
        session_with(0, [0, 0, 1], &[]),
        session_with(0, append, &[1]),
        with_byte(0, [0, 0, 0], 0),
        with_byte(0, [0, 0, 0], 1_023),
        with_byte(1, append, 1),
        with_byte(1, append, 1_023),
        with_byte(1_023, append, 1_023),
        session_with(1, append, &[1, 2]),
        session_with(1, [0x00, 0x00, 0x00], &[1]),
        session_with(1, [0xE3, 0x00, 0x08], &[1]),
        session_with(1, [0x5F, 0x00, 0x00], &[1]),
        session_with(1, [0xE2, 0x01, 0x08], &[1]),
        session_with(1, [0xE2, 0x00, 0x09], &[1]),
        session_with(1, [0xA4, 0x04, 0x00], &[1]),
        session_with(1, [0xA4, 0x01, 0x0C], &[1]),
        session_with(1, [0xB0, 0xA0, 0x00], &[1]),
        session_with(1, [0xB0, 0xC1, 0x00], &[1]),
        session_with(1, [0x44, 0x00, 0x01], &[1]),
        session_with(1, [0xB2, 0x01, 0x08], &[1]),
        session_with(1, [0xB2, 0x01, 0x0E], &[1]),
        session_with(1, [0xA2, 0x00, 0x00], &[1]),
        session_with(1, [0x5E, 0x02, 0x00], &[1]),
        session_with(1, [0x5E, 0x00, 0x08], &[1]),
    ];
    let mut lines = on(false, 1);
    for bytes in sessions {
        lines.extend([
            session(bytes),
            say("00E20008 01 77", "refusal 4"),
            say("00A4000C 02 3F00", "refusal 4"),
            not_cut("00E20008 01 77", 4),
        ]);
    }
    lines
}

/// Chains that fit, though some of them can come to nothing; and what their last link is answered.
fn possible_chains() -> Vec<Line> {
    let append = [0xE2, 0x00, 0x08];
    let full = vec![0x77; LONGEST_DATA];
    let chains: [(Vec<u8>, &str, &str); 10] = [
        (session_with(0, [0, 0, 0], &[]), "00E20008 01 01", "9000"),
        (session_with(2, append, &[2, 3]), "00E20008", "9000"),
        (
            session_with(3, append, &[0, 0, 0]),
            "00E20008 01 04",
            "9000",
        ),
        (session_with(1_024, append, &full), "00E20008", "6700"),
        (session_with(1_024, append, &full), "00E20008 01 77", "6700"),
        (
            session_with(1, [0xB0, 0x81, 0], &[0]),
            "00B08100 00",
            "6700",
        ),
        (session_with(1, [0x44, 0, 0], &[0]), "00440000", "6700"),
        (
            session_with(1, [0xB2, 1, 0x0C], &[0]),
            "00B2010C 000000",
            "6700",
        ),
        (session_with(1, [0x5E, 0, 7], &[0]), "805E0007 00", "6700"),
        (
            session_with(1, [0xD7, 0xFF, 0xFF], &[0]),
            "00D7FFFF",
            "6a80",
        ),
    ];
    let mut lines = on(false, 1);
    for (bytes, last, answer) in chains {
        lines.extend([session(bytes), say(last, answer)]);
    }
    lines.extend([
        say("00B2030C 000000", "019000"),
        say("00B2040C 000000", "02039000"),
        say("00B2050C 000000", "000000049000"),
    ]);
    lines
}

/// One byte too few is number 4, behind 1 and 2; bytes behind a session are not looked at.
fn lengths_of_the_buffer() -> Vec<Line> {
    let chained = session_with(1, [0xE2, 0x00, 0x08], &[5]);
    let alone = session_with(0, [0, 0, 0], &[]);
    let longer = |session: &[u8]| [session, &[0xFF]].concat();
    let append = bytes("00E20008 01 06");
    let mut lines = on(false, 1);
    for (whole, record) in [(&alone, &[6][..]), (&chained, &[5, 6])] {
        for short in [SESSION_LEN - 1, CHAIN_DATA + 1, STANDING_LEN, 0] {
            lines.push(session(whole[..short].to_vec()));
            lines.push(say("00E20008 01 06", "refusal 4"));
        }
        lines.push(of_bytes(append.clone(), SHORTEST_RESPONSE - 1, "refusal 1"));
        lines.push(session(longer(whole)));
        lines.push(say("00E20008 01 06", "9000"));
        lines.push(read_current(record));
    }
    // Opening needs as many.
    for length in [SESSION_LEN - 1, SESSION_LEN, SESSION_LEN + 1] {
        let selected = if length < SESSION_LEN {
            "refusal 4"
        } else {
            "9000"
        };
        lines.push(session(vec![0xEE; length]));
        lines.push((Step::Open(vec![0xFF; RIGHTS_LEN]), String::new()));
        lines.push(say("00A4040C 07 A0000002472001", selected));
    }
    lines
}

/// They leave the chain as it is, so that the last link still finds it.
fn refusals_amid_a_chain() -> Vec<Line> {
    let append = bytes("00E20008 01 03");
    let mut spoiled = session_with(2, [0xE2, 0x00, 0x08], &[1, 2]);
    let good = spoiled.clone();
    spoiled[24] = 1;
    let mut lines = on(false, 1);
    lines.extend([
        say("10E20008 02 0102", "9000"),
        of_bytes(append.clone(), SHORTEST_RESPONSE - 1, "refusal 1"),
        of_bytes(bytes("00E2"), 0, "refusal 1"),
        of_bytes(bytes("10E20008 01 03"), 2, "refusal 1"),
        card(vec![0]),
        say("00E20008 01 03", "refusal 2"),
        say("10E20008 01 03", "refusal 2"),
        say("10E20010 01 03", "refusal 2"),
        card(image(false)),
        say("00E20008 01 03", "9000"),
        read_current(&[1, 2, 3]),
        session(spoiled.clone()),
        say("00E20008 01 03", "refusal 4"),
        say("10E20008 01 03", "refusal 4"),
        say("FF", "refusal 4"),
        session(good),
        say("00E20008 01 04", "9000"),
        read_current(&[1, 2, 4]),
        // 2 is told before 4.
        card(vec![0]),
        session(spoiled),
        say("00E20008 01 03", "refusal 2"),
        session(session_with(1_025, [0xE2, 0x00, 0x08], &[])),
        say("00E20008 01 03", "refusal 2"),
        session(vec![0; SESSION_LEN - 1]),
        say("00E20008 01 03", "refusal 2"),
    ]);
    lines
}

/// An opening, done or refused, leaves no chain.
fn opened_amid_a_chain() -> Vec<Line> {
    let open = |rights: Vec<u8>| (Step::Open(rights), String::new());
    let mut lines = on(false, 1);
    lines.extend([
        say("10A4040C 01 A0", "9000"),
        open(vec![0xFF; RIGHTS_LEN]),
        say("00A4040C 07 A0000002472001", "9000"),
        say("10E20008 01 01", "9000"),
        open(vec![0xFF; RIGHTS_LEN - 1]),
        say("00A4040C 07 A0000002472001", "6982"),
        say("10A4040C 01 A0", "9000"),
        open(vec![0; RIGHTS_LEN]),
        say("00A4000C 02 3F00", "9000"),
    ]);
    lines
}

/// A cut of a command that has so many stores in all, and what it leaves.
fn cut(stores: usize, text: &str, all: usize, image: &[u8]) -> Line {
    let outcome = format!("{all} stores, image {}", fnv(image));
    let command = bytes(text);
    (Step::Cut { stores, command }, outcome)
}

/// A cut that is refused, on the small card.
fn not_cut(text: &str, number: u8) -> Line {
    let outcome = format!("refusal {number}, image {}", fnv(&image(false)));
    let (stores, command) = (usize::MAX, bytes(text));
    (Step::Cut { stores, command }, outcome)
}

/// A link but the last has no store. The last has those of the join: its length, all its bytes, the
/// count. A cut reads the session alone, so that the chain is there again for the next.
fn cuts() -> Vec<Line> {
    let before = image(false);
    // Count and two records of six bytes.
    let free = SECTION_HEADER + 2 + 2 * 8;
    let left = |stores: usize| {
        let mut image = before.clone();
        for (place, byte) in (free..).zip([5, 0, 1, 2, 3, 4, 5]).take(stores) {
            image[place] = byte;
        }
        if stores >= 9 {
            image[SECTION_HEADER] = 3;
        }
        image
    };
    let last = "00E20008 02 0405";
    let mut lines = on(false, 1);
    lines.extend([
        cut(9, "10E20008 02 0102", 0, &before),
        cut(0, "10E20008 02 0102", 0, &before),
        say("10E20008 02 0102", "9000"),
        cut(9, "10E20008 01 03", 0, &before),
        cut(usize::MAX, "10E20008 01 03", 0, &before),
        say("10E20008 01 03", "9000"),
    ]);
    // None of these is answered 9000.
    for other in [
        "00E20010 02 0405",
        "00E20108 02 0405",
        "80E20008 02 0405",
        "00E20008 02 0405 00",
        "00E20008 00",
        "00440000",
    ] {
        lines.push(cut(usize::MAX, other, 0, &before));
    }
    for stores in [0, 1, 2, 3, 4, 5, 6, 7, 8] {
        lines.push(cut(stores, last, 9, &left(stores)));
    }
    lines.extend([
        say("00B2030C 000000", "6883"),
        // The cuts have left the bytes of a record that does not count.
        say("00B2030C 000000", "6a83"),
        say("10E20008 03 010203", "9000"),
        cut(9, last, 9, &left(9)),
        say(last, "9000"),
        read_current(&[1, 2, 3, 4, 5]),
        say("00B2030C 000000", "01020304059000"),
        say("00B2050C 000000", "6a83"),
        say("10E20008 01 06", "9000"),
    ]);
    let mut after = left(9);
    after[SECTION_HEADER] = 4;
    after[free + 7..free + 14].copy_from_slice(&[5, 0, 1, 2, 3, 4, 5]);
    let mut torn = after.clone();
    torn[free + 14..free + 17].copy_from_slice(&[1, 0, 6]);
    // A last link without data has the stores of what came before; then a join that is too long.
    lines.extend([
        cut(0, "00E20008", 5, &after),
        cut(3, "00E20008", 5, &torn),
        say("00E20008", "9000"),
        read_current(&[6]),
    ]);
    // All stores, and as many as there are numbers.
    for stores in [0, 10, usize::MAX] {
        lines.extend(on(false, 1));
        lines.extend([
            say("10E20008 03 010203", "9000"),
            cut(stores, last, 9, &left(stores)),
        ]);
    }
    // Amid a chain for another file.
    lines.extend(on(false, 1));
    lines.extend([
        say("10E20010 02 0102", "9000"),
        cut(9, last, 0, &before),
        cut(0, "00E20010 02 0405", 0, &before),
    ]);
    lines.extend(on(true, 3));
    let (open, closed) = (image(true), activated());
    lines.extend([
        say("00A4020C 02 0205", "9000"),
        cut(1, "10440000 01 00", 0, &open),
        say("10440000 01 00", "9000"),
        cut(1, "00440000", 0, &open),
        cut(1, "10440000 01 00", 0, &open),
        say("00440000", "6700"),
        cut(1, "00440000", 1, &closed),
    ]);
    lines
}

/// The larger card with Biometrics 5 Activated.
fn activated() -> Vec<u8> {
    let mut image = image(true);
    let before = [ENTRIES, EXITS, CERTIFICATES, 2];
    let state: usize = before.iter().map(|length| SECTION_HEADER + length).sum();
    image[state + SECTION_HEADER] = 1;
    image
}
