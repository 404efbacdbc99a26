//! The calls that every run begins with: a card with the travel application, moved to larger
//! rooms and on to others, with commands before and behind each move, and each refusal of a move;
//! then files that are read and written by offsets in objects; then commands that are cut; then
//! commands that come in links; then files to find, and certificates to find in bodies of each sort;
//! then an index, beside a card and alone; then stamps; then rights, for a card and alone.

use crate::binary_scene;
use crate::chain_scene;
use crate::cut_scene;
use crate::extension_scene::{self, torn_chain, travel_chain};
use crate::hex::hex;
use crate::index_scene::{self, built, extended, not_extended, read};
use crate::line::{card, moved, moves, refused, run, select, select_with, Line};
use crate::make::{self, Apdu, LONGEST_IMAGE, RIGHTS_LEN, SESSION_LEN, SHORTEST_RESPONSE};
use crate::stamp_scene;
use crate::step::Step;
use std::ops::RangeInclusive;

const ENTRY: u16 = 0x0101;
const EXIT: u16 = 0x0102;
const TRAVEL_CERTIFICATES: u16 = 0x011A;
const VISAS: u16 = 0x0203;
const VISA_CERTIFICATES: u16 = 0x021A;
const BIOMETRICS_CERTIFICATES: u16 = 0x031A;
const BIOMETRICS_5: u16 = 0x0405;

const USA: [u8; 6] = [0x5F, 0x44, 0x03, 0x55, 0x53, 0x41];
const FRA: [u8; 6] = [0x5F, 0x44, 0x03, 0x46, 0x52, 0x41];
const BOTH: &str = "5f44035553415f44034652419000";
const LONG: [u8; 21] = [0x55; 21];

pub fn lines() -> Vec<Line> {
    [
        a_card_with_two_records(),
        refused_lists(),
        refused_moves(),
        grown(),
        moved_twice(),
        applications_added(),
        an_activated_file_moved(),
        the_longest_card(),
        binary_scene::lines(),
        cut_scene::lines(),
        chain_scene::lines(),
        bad_and_empty_cards(),
        files(),
        no_files(),
        every_reference(),
        the_cards_before_the_desks(),
        damaged_bodies(),
        bodies_at_the_border(),
        an_index_beside_a_card(),
        index_scene::lines(),
        stamp_scene::lines(),
        rights_for_a_card(),
        extension_scene::lines(),
    ]
    .concat()
}

fn file(kind: u16, outcome: &str) -> Line {
    (Step::File(kind), outcome.to_string())
}

/// The certificates of these references, and what comes of each.
fn certificates(
    card: &[u8],
    desk: &[u8],
    references: RangeInclusive<u8>,
    outcome: impl Fn(u8) -> String,
) -> Line {
    let outcomes: Vec<String> = references.clone().map(outcome).collect();
    let step = Step::Certificates {
        card: card.to_vec(),
        desk: desk.to_vec(),
        first: *references.start(),
        last: *references.end(),
    };
    (step, outcomes.join(", "))
}

/// Refusal 9 for each of these references.
fn refused_bodies(card: &[u8], desk: &[u8], references: RangeInclusive<u8>) -> Line {
    certificates(card, desk, references, |_| "refusal 9".to_string())
}

fn append(short_id: u8, record: &[u8], answer: &str) -> Line {
    let command = Apdu::new(0x00, 0xE2, 0x00, short_id << 3).data(record.to_vec());
    run(&command, answer)
}

/// READ RECORD of this number and all behind it.
fn read_from(number: u8, short_id: u8, answer: &str) -> Line {
    let command = Apdu::new(0x00, 0xB2, number, short_id << 3 | 0b101)
        .le(0)
        .extended(true);
    run(&command, answer)
}

/// SEARCH RECORD of EntryRecords for FRA, which is in the second record.
fn search_fra() -> Line {
    let data = make::search(make::object, &[0x01], 0x00, [&[0], &[0]], b"FRA");
    let command = Apdu::new(0x00, 0xA2, 0x00, 0xF8).data(data).le(0);
    run(&command, "7f76065101010201029000")
}

/// Rooms for the three files of travel.
fn travel(entry: usize, exit: usize, certificates: usize) -> [(u16, usize); 3] {
    [
        (ENTRY, entry),
        (EXIT, exit),
        (TRAVEL_CERTIFICATES, certificates),
    ]
}

/// Three bodies of 40 bytes; what is free is not zero. EntryRecords is then full to 18 bytes.
fn a_card_with_two_records() -> Vec<Line> {
    let mut body = make::records::<&[u8]>(&[]);
    body.resize(40, 0xEE);
    let image = [ENTRY, EXIT, TRAVEL_CERTIFICATES].map(|kind| make::section(kind, &body));
    vec![
        card(image.concat()),
        (Step::Session(vec![0; SESSION_LEN]), String::new()),
        (Step::Open(vec![0xFF; RIGHTS_LEN]), String::new()),
        select(1),
        append(1, &USA, "9000"),
        append(1, &FRA, "9000"),
        append(1, &LONG, "6a84"),
    ]
}

/// Rights that are read and then opened with: those of three certificates select the application;
/// where one has no extension, or a certificate is refused, nobody may.
fn rights_for_a_card() -> Vec<Line> {
    let image = [ENTRY, EXIT, TRAVEL_CERTIFICATES].map(|kind| make::section(kind, &[0; 40]));
    let all = [1, 0x0F].into_iter().chain([0; 18]).collect::<Vec<u8>>();
    let one_without = [&all[..], &[0; 20], &all].concat();
    let opened = |rights: Vec<u8>| (Step::Open(rights), String::new());
    vec![
        card(image.concat()),
        (Step::Session(vec![0; SESSION_LEN]), String::new()),
        travel_chain(false),
        opened(all.repeat(3)),
        select(1),
        append(1, &USA, "9000"),
        travel_chain(true),
        opened(one_without),
        select_with(1, "6982"),
        torn_chain(),
        opened(vec![0; RIGHTS_LEN]),
        select_with(1, "6982"),
    ]
}

fn refused_lists() -> Vec<Line> {
    let [entry, exit, certificates] = travel(40, 40, 40);
    let all = [entry, exit, certificates];
    let torn = |length| moves(make::list(&all)[..length].to_vec(), 400, "refusal 10");
    let biometrics = |room| {
        let rooms = [(BIOMETRICS_CERTIFICATES, 2), (BIOMETRICS_5, room)];
        refused(&[&all[..], &rooms].concat(), 10)
    };
    let too_long = LONGEST_IMAGE + 1 - 2 * 46 - 6;
    vec![
        torn(17),
        torn(1),
        torn(12),
        refused(&[exit, entry, certificates], 10),
        refused(&[entry, entry, exit, certificates], 10),
        refused(&[entry, exit, (0x0103, 40), certificates], 10),
        refused(&[entry, exit, certificates, (0x0441, 40)], 10),
        refused(&[entry, exit, certificates, (BIOMETRICS_5, 40)], 10),
        refused(&[entry, exit, certificates, (VISAS, 40)], 10),
        refused(&travel(40, 1, 40), 10),
        biometrics(4),
        biometrics(131_078),
        refused(&travel(too_long, 40, 40), 10),
        refused(&travel(0xFFFF_FFFF, 40, 40), 10),
        refused(&travel(40, 0xFFFF_FFD2, 40), 10),
    ]
}

fn refused_moves() -> Vec<Line> {
    let visa = [(VISAS, 40), (VISA_CERTIFICATES, 40)];
    let list = make::list(&travel(40, 40, 40));
    vec![
        refused(&[], 11),
        refused(&visa, 11),
        refused(&travel(17, 40, 40), 12),
        moves(list.clone(), 137, "refusal 13"),
        moves(list, 0, "refusal 13"),
        // The card is as it was.
        read_from(1, 1, BOTH),
    ]
}

fn grown() -> Vec<Line> {
    let three = format!("5f4403465241{}9000", "55".repeat(21));
    vec![
        moved(&travel(100, 90, 80), 0),
        read_from(1, 1, BOTH),
        search_fra(),
        append(1, &LONG, "9000"),
        read_from(2, 1, &three),
    ]
}

/// The longer target, and a room of exactly what it has to hold, which takes no record more.
fn moved_twice() -> Vec<Line> {
    let rest = format!("{}9000", "55".repeat(21));
    vec![
        refused(&travel(40, 40, 40), 12),
        moved(&travel(41, 2, 40), 7),
        search_fra(),
        read_from(3, 1, &rest),
        append(1, &[0x55], "6a84"),
        append(2, &[0x55], "6a84"),
        append(0x1A, &USA, "9000"),
    ]
}

/// Rooms for all files of the scene.
fn all(biometrics_certificates: usize, biometrics_5: usize) -> Vec<(u16, usize)> {
    let mut rows = travel(60, 30, 40).to_vec();
    rows.extend([
        (VISAS, 60),
        (VISA_CERTIFICATES, 2),
        (BIOMETRICS_CERTIFICATES, biometrics_certificates),
        (BIOMETRICS_5, biometrics_5),
    ]);
    rows
}

fn applications_added() -> Vec<Line> {
    let visa = b"\x5F\x28\x03DEU";
    let bytes = [make::object(&[0x54], &[0]), make::object(&[0x53], &USA)].concat();
    let update = Apdu::new(0x00, 0xD7, 0x02, 0x05).data(bytes);
    let absent = Apdu::new(0x00, 0xA4, 0x04, 0x0C).data(make::aid(2).to_vec());
    vec![
        run(&absent, "6a82"),
        moved(&all(20, 21), 1),
        search_fra(),
        select(2),
        read_from(1, 3, "6a83"),
        append(3, visa, "9000"),
        read_from(1, 3, "5f28034445559000"),
        select(3),
        append(0x1A, &FRA, "9000"),
        run(&update, "9000"),
        run(&Apdu::new(0x00, 0x44, 0x00, 0x00), "9000"),
    ]
}

/// The file is Activated and has six bytes written.
fn an_activated_file_moved() -> Vec<Line> {
    let read = Apdu::new(0x00, 0xB0, 0x00, 0x00).le(0);
    let total_of_current = Apdu::new(0x80, 0x5E, 0x00, 0x01).le(0);
    vec![
        refused(&all(20, 10), 12),
        moved(&all(20, 11), 0),
        run(&read, "5f44035553419000"),
        run(&Apdu::new(0x00, 0x44, 0x00, 0x00), "6982"),
        moved(&all(20, 131_077), 0),
        run(&read, "5f44035553419000"),
        run(&total_of_current, "7f780581030200009000"),
    ]
}

/// To the longest image there is, and back to small rooms.
fn the_longest_card() -> Vec<Line> {
    let short: usize = all(0, 21).iter().map(|(_, length)| 6 + length).sum();
    let room = LONGEST_IMAGE - short;
    let longest = all(room, 21);
    let list = make::list(&longest);
    vec![
        moves(list, LONGEST_IMAGE - 1, "refusal 13"),
        moved(&longest, 0),
        file(BIOMETRICS_CERTIFICATES, &format!("{room} bytes at 228")),
        read_from(1, 0x1A, "5f44034652419000"),
        moved(&all(10, 11), 0),
        moved(&all(10, 11), 0),
        read_from(1, 0x1A, "5f44034652419000"),
        select(1),
        read_from(1, 0x1A, "5f44035553419000"),
        search_fra(),
    ]
}

fn bad_and_empty_cards() -> Vec<Line> {
    let certificates = [(BIOMETRICS_CERTIFICATES, 9)];
    vec![
        card(vec![0x00]),
        moves(vec![], 0, "refusal 2"),
        refused(&certificates, 2),
        moves(vec![0x00], 0, "refusal 2"),
        card(vec![]),
        moves(vec![], 3, "0 bytes"),
        moved(&certificates, 0),
        moves(vec![], 3, "refusal 11"),
    ]
}

/// Seven files, one behind the other, each behind six bytes of its section. Certificates that are
/// appended do not move them.
fn files() -> Vec<Line> {
    vec![
        moved(&[(BIOMETRICS_CERTIFICATES, 20)], 0),
        file(BIOMETRICS_CERTIFICATES, "20 bytes at 6"),
        file(ENTRY, "none"),
        moved(&all(20, 21), 0),
        file(ENTRY, "60 bytes at 6"),
        file(EXIT, "30 bytes at 72"),
        file(TRAVEL_CERTIFICATES, "40 bytes at 108"),
        file(VISAS, "60 bytes at 154"),
        file(VISA_CERTIFICATES, "2 bytes at 220"),
        file(BIOMETRICS_CERTIFICATES, "20 bytes at 228"),
        file(BIOMETRICS_5, "21 bytes at 254"),
        (Step::Session(vec![0; SESSION_LEN]), String::new()),
        (Step::Open(vec![0xFF; RIGHTS_LEN]), String::new()),
        select(1),
        append(0x1A, &USA, "9000"),
        file(TRAVEL_CERTIFICATES, "40 bytes at 108"),
        file(VISAS, "60 bytes at 154"),
    ]
}

/// Kinds that the card has not, and images that are not well formed.
fn no_files() -> Vec<Line> {
    // Ids of files that the card has, and numbers beside its kinds.
    let others = [
        0x0103, 0x0205, 0x2F00, 0x0000, 0x0100, 0x0400, 0x0404, 0x0406, 0x1A01, 0xFFFF,
    ];
    let empty = make::records::<&[u8]>(&[]);
    let travel = [ENTRY, EXIT, TRAVEL_CERTIFICATES].map(|kind| make::section(kind, &empty));
    let not_whole = travel[..2].concat();
    let mut miscounted = travel.concat();
    miscounted[6] = 1;
    let mut lines: Vec<Line> = others.map(|kind| file(kind, "none")).to_vec();
    lines.extend([
        card(travel.concat()),
        file(TRAVEL_CERTIFICATES, "2 bytes at 22"),
        card(not_whole),
        file(ENTRY, "none"),
        card(miscounted),
        file(ENTRY, "none"),
        file(TRAVEL_CERTIFICATES, "none"),
        card(vec![]),
        file(ENTRY, "none"),
        file(0x0000, "none"),
    ]);
    lines
}

/// A body whose certificates are one byte, their number. Certificate n stands at 3 * n + 1.
fn cards_body(count: u8) -> Vec<u8> {
    let records: Vec<[u8; 1]> = (1..=count).map(|n| [n]).collect();
    make::records(&records)
}

/// A body whose certificates are DE and their number. Certificate n stands at 4 * n.
fn desks_body(count: u8) -> Vec<u8> {
    let records: Vec<[u8; 2]> = (1..=count).map(|n| [0xDE, n]).collect();
    make::records(&records)
}

/// All references, with so many certificates on the card and so many at the desk.
fn of_all_references(card: u8, desk: u8) -> Line {
    certificates(
        &cards_body(card),
        &desks_body(desk),
        0x00..=0xFF,
        |n| match usize::from(n) {
            0 | 255 => "missing".to_string(),
            at if n <= card => format!("card {} {n:02x}", 3 * at + 1),
            at if n <= desk => format!("desk {} de{n:02x}", 4 * at),
            _ => "missing".to_string(),
        },
    )
}

fn every_reference() -> Vec<Line> {
    // The same bodies the other way round, and one beside itself.
    let (one, other) = (cards_body(254), desks_body(254));
    let last = ["card 1012 defd", "card 1016 defe", "missing"];
    let outcome = |n| last[usize::from(n - 0xFD)].to_string();
    vec![
        of_all_references(254, 254),
        certificates(&other, &one, 0xFD..=0xFF, outcome),
        certificates(&other, &other, 0xFD..=0xFF, outcome),
        of_all_references(3, 254),
        of_all_references(0, 0),
    ]
}

/// The certificate that was appended to the card before, and a desk with two others.
fn the_cards_before_the_desks() -> Vec<Line> {
    let mut one = make::records(&[USA]);
    one.resize(40, 0);
    let two = make::records(&[FRA, FRA]);
    let ask = |card, desk, first: &str, second: &str| {
        let outcomes = ["missing", first, second, "missing"];
        certificates(card, desk, 0x00..=0x03, |n| {
            outcomes[usize::from(n)].to_string()
        })
    };
    let (usa, fra) = (hex(&USA), hex(&FRA));
    let (first, second) = (format!("card 4 {fra}"), format!("card 12 {fra}"));
    vec![
        ask(
            &one,
            &two,
            &format!("card 4 {usa}"),
            &format!("desk 12 {fra}"),
        ),
        ask(&two, &one, &first, &second),
        ask(&[0, 0], &one, &format!("desk 4 {usa}"), "missing"),
    ]
}

/// Each way to be damaged, on the card, at the desk and on both sides. The other body has the
/// certificate.
fn damaged_bodies() -> Vec<Line> {
    let one = make::records(&[USA]);
    let (overfull, too_long) = (cards_body(255), make::records(&[[7; 930]]));
    let bodies: [&[u8]; 9] = [
        // No count, half of one, one of 256, one of a record that is not there.
        &[],
        &[0],
        &[0, 1],
        &[1, 0],
        // Half a length, a length of 0, a record that leaves the body by one byte.
        &[1, 0, 1],
        &[1, 0, 0, 0],
        &one[..one.len() - 1],
        &overfull,
        &too_long,
    ];
    let good = cards_body(2);
    bodies
        .iter()
        .flat_map(|damaged| {
            [
                refused_bodies(damaged, &good, 0x00..=0x03),
                refused_bodies(&good, damaged, 0x00..=0x03),
                refused_bodies(damaged, damaged, 0x01..=0x01),
            ]
        })
        .collect()
}

/// What is just not damaged: the longest certificate, and free bytes that look like one more.
fn bodies_at_the_border() -> Vec<Line> {
    let longest = make::records(&[[7; 929]]);
    let free = [&cards_body(1)[..], &[1, 0, 2]].concat();
    let ask = |card, desk, reference, outcome: &str| {
        certificates(card, desk, reference..=reference, |_| outcome.to_string())
    };
    let bytes = "07".repeat(929);
    vec![
        ask(&longest, &[0, 0], 0x01, &format!("card 4 {bytes}")),
        ask(&[0, 0], &longest, 0x01, &format!("desk 4 {bytes}")),
        ask(&free, &desks_body(1), 0x02, "missing"),
        ask(&desks_body(1), &free, 0x02, "missing"),
        ask(&free, &desks_body(2), 0x02, "desk 8 de02"),
    ]
}

/// READ RECORD of a record that an index has read.
fn read_again(number: u8, short_id: u8, record: &[u8]) -> Line {
    let command = Apdu::new(0x00, 0xB2, number, short_id << 3 | 0b100)
        .le(0)
        .extended(true);
    let step = Step::Command {
        response_len: SHORTEST_RESPONSE,
        command: command.bytes(),
        record: Some(record.to_vec()),
    };
    (step, format!("{}9000", hex(record)))
}

/// An index of EntryRecords: built when it is empty, extended after each append that is done, and
/// kept over a move to a larger room.
fn an_index_beside_a_card() -> Vec<Line> {
    let body = |records: &[&[u8]], length| {
        let mut body = make::records(records);
        body.resize(length, 0);
        body
    };
    let (one, two) = (body(&[&USA], 40), body(&[&USA, &FRA], 40));
    let (grown, three) = (body(&[&USA, &FRA], 60), body(&[&USA, &FRA, &LONG], 60));
    let places = [2, 10, 18];
    let records = [Some(&USA[..]), Some(&FRA), Some(&LONG)];
    vec![
        card(vec![]),
        moved(&travel(40, 2, 2), 0),
        (Step::Session(vec![0; SESSION_LEN]), String::new()),
        (Step::Open(vec![0xFF; RIGHTS_LEN]), String::new()),
        select(1),
        built(ENTRY, &body(&[], 40), 3, &[]),
        append(1, &USA, "9000"),
        extended(ENTRY, &one, 3, 0, 2),
        append(1, &FRA, "9000"),
        extended(ENTRY, &two, 3, 1, 10),
        append(1, &LONG, "6a84"),
        not_extended(ENTRY, &two, 3, 2),
        read(&two, &places[..2], 1..=2, &records[..2]),
        read_again(1, 1, &USA),
        read_again(2, 1, &FRA),
        moved(&travel(60, 2, 2), 0),
        read(&grown, &places[..2], 1..=2, &records[..2]),
        read_again(2, 1, &FRA),
        append(1, &LONG, "9000"),
        extended(ENTRY, &three, 3, 2, 18),
        read(&three, &places, 1..=3, &records),
        read_again(1, 1, &USA),
        read_again(2, 1, &FRA),
        read_again(3, 1, &LONG),
        built(ENTRY, &three, 3, &places),
    ]
}
