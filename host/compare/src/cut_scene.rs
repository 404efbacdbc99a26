//! Commands that are cut: an append behind each of its stores, always on the same card, with what
//! is then read, appended and searched; a longer append; ACTIVATE; commands that have no store; and
//! each refusal.

use crate::hex::{fnv, hex};
use crate::line::{card, opened, run, select, Line};
use crate::make::{self, Apdu, RIGHTS_LEN, SECTION_HEADER, SESSION_LEN};
use crate::step::Step;

/// The record that the card has, the one whose append is cut, and the one behind it, which is
/// shorter. E is in the last two, and once more in what is left of the second behind the third.
const FIRST: &[u8] = b"\x5F\x44\x03USA";
const TORN: &[u8] = b"\x5F\x44\x03DEU\x5F\x4C\x05MERGE";
const NEXT: &[u8] = b"\x5F\x44\x03EST";

/// The room of EntryRecords. What is free is EE.
const ROOM: usize = 60;
/// Where the count stands in the image, and where the room is free behind the first record.
const COUNT: usize = SECTION_HEADER;
const FREE: usize = COUNT + 2 + 2 + FIRST.len();
/// The stores of an append beside the bytes of the record: two of the length, two of the count.
const MORE: usize = 4;
/// Biometrics 1, the image's second file: where its state stands.
const STATE: usize = 2 * SECTION_HEADER + 2;

pub fn lines() -> Vec<Line> {
    [
        every_store_of_an_append(),
        a_longer_append(),
        cut_again_and_again(),
        the_current_file(),
        every_store_of_activate(),
        activate_with_one_right(),
        commands_without_a_store(),
        an_append_without_the_right(),
        refused(),
    ]
    .concat()
}

/// Travel, with these records in EntryRecords and a room of so many bytes for them.
fn travel(records: &[&[u8]], room: usize) -> Vec<u8> {
    let mut body = make::records(records);
    body.resize(room, 0xEE);
    [
        make::section(0x0101, &body),
        make::section(0x0102, &[0, 0, 0xEE, 0xEE, 0xEE, 0xEE]),
        make::section(0x011A, &[0, 0]),
    ]
    .concat()
}

/// Biometrics 1 in this state, with four bytes of room and two of them written.
fn biometrics(state: u8) -> Vec<u8> {
    let body = make::biometrics(state, 2, &[0xAA, 0xBB, 0xEE, 0xEE]);
    let files = [make::section(0x031A, &[0, 0]), make::section(0x0401, &body)];
    files.concat()
}

/// The card with all rights, and the application selected.
fn on(image: Vec<u8>, application: u8) -> Vec<Line> {
    let [session, open] = opened(vec![0xFF; RIGHTS_LEN]);
    vec![card(image), session, open, select(application)]
}

/// A cut of a command that has so many stores in all, and what it leaves.
fn cut(stores: usize, command: &Apdu, all: usize, image: &[u8]) -> Line {
    let outcome = format!("{all} stores, image {}", fnv(image));
    let command = command.bytes();
    (Step::Cut { stores, command }, outcome)
}

/// A cut that is refused, on this image.
fn not_cut(command: &Apdu, number: u8, image: &[u8]) -> Line {
    let outcome = format!("refusal {number}, image {}", fnv(image));
    let (stores, command) = (usize::MAX, command.bytes());
    (Step::Cut { stores, command }, outcome)
}

/// An append to the file of a short id; 0 is the current file.
fn append(short_id: u8, record: &[u8]) -> Apdu {
    Apdu::new(0x00, 0xE2, 0x00, short_id << 3).data(record.to_vec())
}

fn activate() -> Apdu {
    Apdu::new(0x00, 0x44, 0x00, 0x00)
}

/// READ RECORD of one record of EntryRecords.
fn read(number: u8, answer: &str) -> Line {
    let command = Apdu::new(0x00, 0xB2, number, 0x0C).le(0).extended(true);
    run(&command, answer)
}

fn read_record(number: u8, record: &[u8]) -> Line {
    read(number, &format!("{}9000", hex(record)))
}

/// SEARCH RECORD of EntryRecords for E, which finds these records.
fn search(numbers: &[u8]) -> Line {
    let data = make::search(make::object, &[0x01], 0x00, [&[0], &[0]], b"E");
    let found = numbers.iter().map(|n| make::object(&[0x02], &[*n]));
    let inside = [
        make::object(&[0x51], &[0x01]),
        found.collect::<Vec<_>>().concat(),
    ]
    .concat();
    let reply = make::object(&[0x7F, 0x76], &inside);
    let answer = match numbers {
        [] => "6282".to_string(),
        _ => format!("{}9000", hex(&reply)),
    };
    run(&Apdu::new(0x00, 0xA2, 0x00, 0xF8).data(data).le(0), &answer)
}

/// What a cut of the record's append leaves behind so many stores: the length and the bytes one
/// behind the other, then the count's high byte, which is 0 already, and last its low byte.
fn left(before: &[u8], record: &[u8], stores: usize) -> Vec<u8> {
    let written = [&(record.len() as u16).to_le_bytes()[..], record].concat();
    let mut image = before.to_vec();
    for (place, byte) in (FREE..).zip(written).take(stores) {
        image[place] = byte;
    }
    if stores >= record.len() + MORE {
        image[COUNT] += 1;
    }
    image
}

/// How many stores are made: each number from none to one more than there are, and large ones.
fn every_store_of_an_append() -> Vec<Line> {
    let all = TORN.len() + MORE;
    (0..=all + 1)
        .chain([1 << 16, 1 << 32, usize::MAX])
        .flat_map(|stores| one_cut(stores, all))
        .collect()
}

/// The append cut once, and what comes behind: the record is there where all stores were made;
/// else its room is that of the next.
fn one_cut(stores: usize, all: usize) -> Vec<Line> {
    let before = travel(&[FIRST], ROOM);
    let mut lines = on(before.clone(), 1);
    lines.push(cut(
        stores,
        &append(1, TORN),
        all,
        &left(&before, TORN, stores),
    ));
    if stores < all {
        lines.extend([
            read(2, "6a83"),
            search(&[]),
            run(&append(1, NEXT), "9000"),
            search(&[2]),
            read_record(2, NEXT),
            read(3, "6a83"),
        ]);
    } else {
        lines.extend([
            read_record(2, TORN),
            search(&[2]),
            run(&append(1, NEXT), "9000"),
            search(&[2, 3]),
            read_record(3, NEXT),
            read_record(2, TORN),
        ]);
    }
    lines.push(read_record(1, FIRST));
    lines
}

/// A record whose length has two bytes. A cut behind the first of them looks like a shorter one.
fn a_longer_append() -> Vec<Line> {
    let record: Vec<u8> = (0..300).map(|at| (at * 7 + 1) as u8).collect();
    let (before, all) = (travel(&[FIRST], 319), record.len() + MORE);
    let of_stores = |stores| {
        let mut lines = on(before.clone(), 1);
        let image = left(&before, &record, stores);
        lines.push(cut(stores, &append(1, &record), all, &image));
        lines
    };
    let torn = |stores| {
        let mut lines = of_stores(stores);
        lines.extend([run(&append(1, NEXT), "9000"), read_record(2, NEXT)]);
        lines
    };
    let mut lines = [1, 2, 258, 302, all - 1].map(torn).concat();
    lines.extend(of_stores(all));
    lines.extend([read_record(2, &record), run(&append(1, NEXT), "6a84")]);
    lines
}

/// Each cut goes on from what the one before left, in the same room.
fn cut_again_and_again() -> Vec<Line> {
    let mut image = travel(&[FIRST], ROOM);
    let mut lines = on(image.clone(), 1);
    let cuts: [(&[u8], usize); 7] = [
        (TORN, 17),
        (NEXT, 9),
        (NEXT, 1),
        (TORN, 9),
        (NEXT, 2),
        (TORN, 16),
        (NEXT, 10),
    ];
    for (record, stores) in cuts {
        image = left(&image, record, stores);
        let all = record.len() + MORE;
        lines.push(cut(stores, &append(1, record), all, &image));
    }
    lines.extend([
        search(&[2]),
        read_record(2, NEXT),
        run(&append(1, TORN), "9000"),
        read_record(3, TORN),
    ]);
    lines
}

/// An append to the current file. The session stays, whatever is made: the current record is the
/// one from before.
fn the_current_file() -> Vec<Line> {
    let before = travel(&[], ROOM);
    let file = COUNT + ROOM + SECTION_HEADER;
    let mut torn = before.clone();
    torn[file + 2..file + 5].copy_from_slice(&[1, 0, 7]);
    let mut done = torn.clone();
    done[file] = 1;
    let command = append(0, &[7]);
    let select_exits = Apdu::new(0x00, 0xA4, 0x02, 0x0C).data(vec![0x01, 0x02]);
    let current = Apdu::new(0x00, 0xB2, 0x00, 0x04).le(0).extended(true);
    let first = Apdu::new(0x00, 0xB2, 0x01, 0x04).le(0).extended(true);
    let mut lines = on(before.clone(), 1);
    lines.extend([
        cut(5, &command, 0, &before),
        run(&select_exits, "9000"),
        cut(0, &command, 5, &before),
        cut(4, &command, 5, &torn),
        run(&first, "6a83"),
        cut(5, &command, 5, &done),
        run(&current, "6a83"),
        run(&first, "079000"),
        // There is no room for another.
        cut(5, &command, 0, &done),
    ]);
    lines
}

/// UPDATE BINARY of the current file, with one byte behind those written.
fn update(answer: &str) -> Line {
    let data = b"\x54\x01\x02\x53\x01\xCC".to_vec();
    run(&Apdu::new(0x00, 0xD7, 0x00, 0x00).data(data), answer)
}

/// READ BINARY of the current file.
fn read_binary(answer: &str) -> Line {
    run(&Apdu::new(0x00, 0xB0, 0x00, 0x00).le(0), answer)
}

fn select_biometrics_1() -> Line {
    let id = vec![0x02, 0x01];
    run(&Apdu::new(0x00, 0xA4, 0x02, 0x0C).data(id), "9000")
}

/// ACTIVATE behind so many stores leaves this state. Only a Deactivated file is written, and only
/// such a one is activated again.
fn every_store_of_activate() -> Vec<Line> {
    let of_stores = |stores: usize| {
        let state = stores.min(1) as u8;
        let left = biometrics(state);
        let mut lines = on(biometrics(0), 3);
        lines.extend([
            cut(stores, &activate(), 0, &biometrics(0)),
            select_biometrics_1(),
            cut(stores, &activate(), 1, &left),
            read_binary("aabb9000"),
            cut(0, &activate(), 1 - usize::from(state), &left),
        ]);
        lines.extend(match state {
            0 => [update("9000"), read_binary("aabbcc9000")],
            _ => [update("6982"), read_binary("aabb9000")],
        });
        lines
    };
    [0, 1, 2, usize::MAX].map(of_stores).concat()
}

/// With the right for the Deactivated file alone: an Activated one is neither written nor read.
fn activate_with_one_right() -> Vec<Line> {
    let mut certificate = [0; 20];
    (certificate[0], certificate[4]) = (0x04, 0x80);
    let of_stores = |stores: usize, answers: [&str; 3]| {
        let [session, open] = opened(certificate.repeat(3));
        let mut left = biometrics(0);
        left[STATE] = stores as u8;
        let [before, updated, after] = answers;
        vec![
            card(biometrics(0)),
            session,
            open,
            select(3),
            select_biometrics_1(),
            cut(stores, &activate(), 1, &left),
            read_binary(before),
            update(updated),
            read_binary(after),
        ]
    };
    [
        of_stores(0, ["aabb9000", "9000", "aabbcc9000"]),
        of_stores(1, ["6982"; 3]),
    ]
    .concat()
}

/// Commands that are answered otherwise than 9000, or are neither of the two. UPDATE BINARY
/// writes, but is not made of stores.
fn commands_without_a_store() -> Vec<Line> {
    let image = travel(&[FIRST], 20);
    let none = |command: Apdu| cut(9, &command, 0, &image);
    let mut lines = on(image.clone(), 1);
    lines.extend([
        none(append(1, &[7; 9])),
        none(append(1, &[7; 392])),
        none(append(3, &[7])),
        none(append(0, &[7])),
        none(append(1, &[7]).le(0)),
        none(Apdu::new(0x00, 0xE2, 0x00, 0x08)),
        none(Apdu::new(0x00, 0xE2, 0x01, 0x08).data(vec![7])),
        none(Apdu::new(0x00, 0xE2, 0x00, 0x09).data(vec![7])),
        none(Apdu::new(0x80, 0xE2, 0x00, 0x08).data(vec![7])),
        none(Apdu::new(0x00, 0xB2, 0x01, 0x0C).le(0).extended(true)),
        none(Apdu::new(0x00, 0xA4, 0x04, 0x0C).data(make::aid(1).to_vec())),
        none(activate()),
        // The current file is still none.
        run(&activate(), "6986"),
    ]);
    let open = biometrics(0);
    let data = b"\x54\x01\x02\x53\x01\xCC".to_vec();
    let update = Apdu::new(0x00, 0xD7, 0x00, 0x00).data(data);
    lines.extend(on(open.clone(), 3));
    lines.extend([
        select_biometrics_1(),
        cut(0, &update, 0, &open),
        cut(1, &update, 0, &open),
        cut(usize::MAX, &update, 0, &open),
        cut(1, &activate().le(0), 0, &open),
        cut(1, &Apdu::new(0x00, 0x44, 0x00, 0x01), 0, &open),
        cut(1, &Apdu::new(0x80, 0x44, 0x00, 0x00), 0, &open),
        read_binary("aabb9000"),
    ]);
    lines
}

/// Where the second certificate has no right to append records.
fn an_append_without_the_right() -> Vec<Line> {
    let mut rights = vec![0xFF; RIGHTS_LEN];
    rights[21] = 0xFD;
    let [session, open] = opened(rights);
    let image = travel(&[FIRST], ROOM);
    vec![
        card(image.clone()),
        session,
        open,
        select(1),
        cut(1, &append(1, TORN), 0, &image),
        cut(usize::MAX, &append(1, TORN), 0, &image),
        read(2, "6a83"),
    ]
}

/// Each refusal with a command that has stores, and both at once, which is 2.
fn refused() -> Vec<Line> {
    let good = travel(&[FIRST], ROOM);
    let bad = good[..good.len() - 1].to_vec();
    let session = |session: Vec<u8>| (Step::Session(session), String::new());
    // Not in cleared form; of an application that is not on the card; no session.
    let mut absent = vec![0; SESSION_LEN];
    absent[20] = 2;
    let command = append(1, TORN);
    let mut lines = on(good.clone(), 1);
    lines.extend([
        card(bad.clone()),
        not_cut(&command, 2, &bad),
        session(vec![0xFF; SESSION_LEN]),
        not_cut(&command, 2, &bad),
        session(vec![]),
        not_cut(&command, 2, &bad),
        not_cut(&activate(), 2, &bad),
        card(good.clone()),
        not_cut(&command, 4, &good),
        session(vec![0xFF; SESSION_LEN]),
        not_cut(&command, 4, &good),
        session(absent),
        not_cut(&command, 4, &good),
        session(vec![0; SESSION_LEN - 1]),
        not_cut(&command, 4, &good),
        session(vec![0; SESSION_LEN + 1]),
        cut(9, &command, 0, &good),
    ]);
    lines
}
