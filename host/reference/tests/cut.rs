//! What a cut leaves: each store of an append and of ACTIVATE, the refusals, commands that have no
//! store, and commands behind a cut.

use reference::{command, cut, open, SESSION_LEN};

const TRAVEL: &str = "00A4040C07A0000002472001";
const VISA: &str = "00A4040C07A0000002472002";
const BIOMETRICS: &str = "00A4040C07A0000002472003";
const ACTIVATE: &str = "00440000";
const OK: u16 = 0x9000;

// ---------------------------------------------------------------- helpers

fn hex(text: &str) -> Vec<u8> {
    let digits: Vec<u8> = text
        .chars()
        .filter(|c| !c.is_whitespace())
        .map(|c| c.to_digit(16).expect("hex digit") as u8)
        .collect();
    assert_eq!(digits.len() % 2, 0);
    digits
        .chunks(2)
        .map(|pair| pair[0] << 4 | pair[1])
        .collect()
}

/// A section whose body begins with the content; what is free is EE.
fn section(kind: u16, length: usize, content: &[u8]) -> Vec<u8> {
    assert!(content.len() <= length);
    let mut bytes = (length as u32).to_le_bytes().to_vec();
    bytes.extend(kind.to_le_bytes());
    bytes.extend(content);
    bytes.resize(6 + length, 0xEE);
    bytes
}

/// Count and records.
fn records(records: &[Vec<u8>]) -> Vec<u8> {
    let mut content = (records.len() as u16).to_le_bytes().to_vec();
    for record in records {
        content.extend((record.len() as u16).to_le_bytes());
        content.extend(record);
    }
    content
}

/// The travel application, with these records in EntryRecords and a body of so many bytes.
fn travel_card(length: usize, entries: &[Vec<u8>]) -> Vec<u8> {
    [
        section(0x0101, length, &records(entries)),
        section(0x0102, 40, &records(&[])),
        section(0x011A, 40, &records(&[])),
    ]
    .concat()
}

/// Biometrics certificates and Biometrics 5, which has four bytes of room and two written.
fn biometrics_card(state: u8) -> Vec<u8> {
    [
        section(0x031A, 9, &records(&[vec![7]])),
        section(0x0405, 9, &[state, 2, 0, 0, 0, 0xAA, 0xBB]),
    ]
    .concat()
}

/// A session with these rights, behind these commands, each of which is answered 9000.
fn session_with(rights: &[u8], image: &[u8], commands: &[&str]) -> Vec<u8> {
    let mut session = vec![0; SESSION_LEN];
    assert_eq!(open(rights, &mut session), 0);
    let mut image = image.to_vec();
    for text in commands {
        assert_eq!(run(&mut image, &mut session, &hex(text)), (vec![], OK));
    }
    session
}

/// The same with all rights.
fn session(image: &[u8], commands: &[&str]) -> Vec<u8> {
    session_with(&[0xFF; 60], image, commands)
}

/// Data and status of a command.
#[track_caller]
fn run(image: &mut [u8], session: &mut [u8], bytes: &[u8]) -> (Vec<u8>, u16) {
    let mut response = [0; 2_050];
    let result = command(image, session, bytes, &mut response);
    assert_eq!(result >> 32, 0, "refused {bytes:02X?}");
    let length = usize::from((result >> 16) as u16);
    (response[..length - 2].to_vec(), result as u16)
}

/// APPEND RECORD to the file of a short id.
fn append(short_id: u8, record: &[u8]) -> Vec<u8> {
    let [high, low] = (record.len() as u16).to_be_bytes();
    let head = [0x00, 0xE2, 0x00, short_id << 3, 0x00, high, low];
    [&head[..], record].concat()
}

/// What a cut leaves, and its result.
fn left(image: &[u8], session: &[u8], command: &[u8], stores: usize) -> (Vec<u8>, u64) {
    let mut image = image.to_vec();
    let result = cut(&mut image, session, command, stores);
    (image, result)
}

// ---------------------------------------------------------------- each store

/// EntryRecords with the record AB and ten free bytes, ExitRecords, certificates; then a record
/// of three bytes. Its length is at 12, the count at 6.
#[test]
fn each_store_of_an_append() {
    let rest = "04000000 0201 0000 EEEE  04000000 1A01 0000 EEEE";
    let bodies = [
        "0100 0200 4142 EEEE EEEEEE EEEEEEEEEE",
        "0100 0200 4142 03EE EEEEEE EEEEEEEEEE",
        "0100 0200 4142 0300 EEEEEE EEEEEEEEEE",
        "0100 0200 4142 0300 58EEEE EEEEEEEEEE",
        "0100 0200 4142 0300 5859EE EEEEEEEEEE",
        "0100 0200 4142 0300 58595A EEEEEEEEEE",
        "0100 0200 4142 0300 58595A EEEEEEEEEE",
        "0200 0200 4142 0300 58595A EEEEEEEEEE",
    ];
    let images = bodies.map(|body| hex(&format!("10000000 0101 {body} {rest}")));
    let session = session(&images[0], &[TRAVEL]);
    let command = hex("00E20008 03 58595A");
    for (stores, image) in images.iter().enumerate() {
        let expected = (image.clone(), 7);
        assert_eq!(left(&images[0], &session, &command, stores), expected);
    }
    // From the last on, all are made.
    for stores in [8, 9, 255, 256, 263, 1 << 32, usize::MAX - 1, usize::MAX] {
        let expected = (images[7].clone(), 7);
        assert_eq!(left(&images[0], &session, &command, stores), expected);
    }
}

/// The count's high byte is stored though it is 0 already: a cut behind it is not one behind the
/// last byte of the record, and both leave the same.
#[test]
fn the_counts_high_byte_is_a_store() {
    let image = travel_card(40, &[]);
    let session = session(&image, &[TRAVEL]);
    let one = append(1, &[7]);
    let behind = |stores| left(&image, &session, &one, stores);
    assert_eq!(behind(5).1, 5);
    assert_eq!(behind(3), behind(4));
    assert_ne!(behind(4), behind(5));
}

/// A length of two bytes: 300 is 012C.
#[test]
fn both_bytes_of_the_length() {
    let image = travel_card(400, &[]);
    let session = session(&image, &[TRAVEL]);
    let record: Vec<u8> = (0..300).map(|at| at as u8).collect();
    let command = append(1, &record);
    let body = |stores| {
        let (image, result) = left(&image, &session, &command, stores);
        assert_eq!(result, 304);
        image[6..406].to_vec()
    };
    assert_eq!(body(0)[..5], [0, 0, 0xEE, 0xEE, 0xEE]);
    assert_eq!(body(1)[..5], [0, 0, 0x2C, 0xEE, 0xEE]);
    assert_eq!(body(2)[..5], [0, 0, 0x2C, 0x01, 0xEE]);
    assert_eq!(body(3)[..6], [0, 0, 0x2C, 0x01, 0x00, 0xEE]);
    assert_eq!(body(301)[302..305], [0x2A, 0xEE, 0xEE]);
    assert_eq!(body(302)[302..305], [0x2A, 0x2B, 0xEE]);
    assert_eq!(body(303)[..4], [0, 0, 0x2C, 0x01]);
    assert_eq!(body(304)[..4], [1, 0, 0x2C, 0x01]);
    assert_eq!(body(304)[4..304], record);
    assert_eq!(body(304)[304..], [0xEE; 96]);
}

/// Places are places in the image, whichever file it is, and however it is named.
#[test]
fn in_each_file() {
    let image = [
        travel_card(40, &[vec![1; 9]]),
        section(0x0203, 30, &records(&[vec![2]])),
        section(0x021A, 30, &records(&[])),
        biometrics_card(0),
    ]
    .concat();
    // The application, the short id, where the body begins, and how much of it is used.
    let files = [
        (TRAVEL, 0x01, 6, 13),
        (TRAVEL, 0x02, 52, 2),
        (TRAVEL, 0x1A, 98, 2),
        (VISA, 0x03, 144, 5),
        (VISA, 0x1A, 180, 2),
        (BIOMETRICS, 0x1A, 216, 5),
    ];
    for (application, short_id, start, used) in files {
        let session = session(&image, &[application]);
        let command = append(short_id, &[0xC1, 0xC2]);
        let mut expected = image.clone();
        let places = [start + used, start + used + 1, start + used + 2];
        for (stores, (place, byte)) in (1..).zip(places.into_iter().zip([2, 0, 0xC1])) {
            expected[place] = byte;
            let outcome = left(&image, &session, &command, stores);
            assert_eq!(outcome, (expected.clone(), 6));
        }
        expected[start + used + 3] = 0xC2;
        expected[start] += 1;
        assert_eq!(left(&image, &session, &command, 6), (expected, 6));
    }
}

#[test]
fn the_current_file_and_the_short_form() {
    let image = travel_card(40, &[]);
    let session = session(&image, &[TRAVEL, "00A4020C020102"]);
    let mut expected = image.clone();
    expected[54..56].copy_from_slice(&[1, 0]);
    let current = hex("00E20000 01 77");
    assert_eq!(left(&image, &session, &current, 2), (expected, 5));
}

#[test]
fn the_store_of_activate() {
    let image = biometrics_card(0);
    let expected = hex("09000000 1A03 0100 0100 07 EEEEEEEE  09000000 0504 01 02000000 AABBEEEE");
    let session = session(&image, &[BIOMETRICS, "00A4020C020205"]);
    let activate = hex(ACTIVATE);
    assert_eq!(left(&image, &session, &activate, 0), (image.clone(), 1));
    for stores in [1, 2, 256, 1 << 32, usize::MAX] {
        let outcome = left(&image, &session, &activate, stores);
        assert_eq!(outcome, (expected.clone(), 1));
    }
    // The session with the right for the Deactivated file alone: bit 8 of byte 3.
    let mut rights = [0; 20];
    (rights[0], rights[5]) = (0x04, 0x80);
    let session = session_with(&rights.repeat(3), &image, &[BIOMETRICS, "00A4020C020205"]);
    assert_eq!(left(&image, &session, &activate, 1), (expected, 1));
}

/// Counts are at most 254, so that the count's high byte is 0 before and behind every append.
#[test]
fn the_last_count_there_is() {
    let full = |count| travel_card(2 + 3 * 254, &vec![vec![7]; count]);
    let image = full(253);
    let session = session(&image, &[TRAVEL]);
    let last = append(1, &[7]);
    assert_eq!(left(&image, &session, &last, 3).0[6..8], [253, 0]);
    assert_eq!(left(&image, &session, &last, 4).0[6..8], [253, 0]);
    assert_eq!(left(&image, &session, &last, 5), (full(254), 5));
    // One more has no store.
    assert_eq!(left(&full(254), &session, &last, 5), (full(254), 0));
}

// ---------------------------------------------------------------- refusals

/// A cut with many stores that is refused, and leaves the image alone.
#[track_caller]
fn refused(image: &[u8], session: &[u8], command: &[u8], number: u64) {
    for stores in [0, 1, usize::MAX] {
        let expected = (image.to_vec(), number << 32);
        assert_eq!(left(image, session, command, stores), expected);
    }
}

#[test]
fn refusal_2() {
    let good = travel_card(40, &[vec![1]]);
    let session = session(&good, &[TRAVEL]);
    let command = append(1, &[7]);
    assert_eq!(left(&good, &session, &command, 0).1, 5);
    for length in 1..good.len() {
        refused(&good[..length], &session, &command, 2);
    }
    let change = |place: usize, byte| {
        let mut image = good.clone();
        image[place] = byte;
        image
    };
    // A count of 255 and of 256, a length of 0 and above the longest, an unknown kind.
    for (place, byte) in [(6, 255), (7, 1), (8, 0), (9, 2), (4, 3)] {
        refused(&change(place, byte), &session, &command, 2);
    }
    refused(&vec![0; 262_145], &session, &command, 2);
    refused(&[&good[..], &[0]].concat(), &session, &command, 2);
}

#[test]
fn refusal_4() {
    let good = travel_card(40, &[vec![1]]);
    let fits = session(&good, &[TRAVEL, "00A4020C020101"]);
    let command = append(1, &[7]);
    assert_eq!(left(&good, &fits, &command, 0).1, 5);
    let change = |place: usize, byte| {
        let mut session = fits.clone();
        session[place] = byte;
        session
    };
    // Rights not in cleared form; no such application, or not on this card; no such place; a file
    // of no application, of another one; a record where a file alone is current.
    for (place, byte) in [
        (0, 0x0F),
        (1, 0x1F),
        (20, 4),
        (20, 2),
        (20, 0),
        (21, 3),
        (21, 0),
        (22, 3),
        (23, 2),
        (24, 1),
    ] {
        refused(&good, &change(place, byte), &command, 4);
    }
    // A record that the file has, number 0, and one above the count.
    let record = |number| {
        let mut session = change(21, 2);
        session[24] = number;
        session
    };
    assert_eq!(left(&good, &record(1), &command, 0).1, 5);
    for number in [0, 2, 255] {
        refused(&good, &record(number), &command, 4);
    }
    // A record of a transparent file.
    let image = biometrics_card(0);
    let mut transparent = session(&image, &[BIOMETRICS, "00A4020C020205"]);
    (transparent[21], transparent[24]) = (2, 1);
    refused(&image, &transparent, &hex(ACTIVATE), 4);
}

/// A buffer of more than 1,054 bytes is a session in its first 1,054; one of fewer is none.
#[test]
fn other_lengths_of_the_session() {
    let good = travel_card(40, &[]);
    let fits = session(&good, &[TRAVEL]);
    let command = append(1, &[7]);
    let longer = [&fits[..], &[0xFF; 9]].concat();
    for length in 0..longer.len() {
        if length < SESSION_LEN {
            refused(&good, &longer[..length], &command, 4);
        } else {
            assert_eq!(left(&good, &longer[..length], &command, 0).1, 5);
        }
    }
}

/// 2 before 4; both before the command is looked at.
#[test]
fn the_order_of_refusals() {
    let commands = [
        vec![],
        hex(ACTIVATE),
        append(1, &[7]),
        hex("FF"),
        vec![0; 9],
    ];
    for command in commands {
        refused(&[0], &[], &command, 2);
        refused(&[0], &[0xFF; SESSION_LEN], &command, 2);
        refused(&travel_card(40, &[]), &[], &command, 4);
        refused(&travel_card(40, &[]), &[0xFF; SESSION_LEN], &command, 4);
        assert_eq!(left(&[], &[0; SESSION_LEN], &command, 9), (vec![], 0));
    }
}

// ---------------------------------------------------------------- commands that have no store

/// Cuts that have nothing to make: the command is answered otherwise, or is another one.
#[track_caller]
fn no_store(image: &[u8], session: &[u8], commands: &[(&str, u16)]) {
    for (text, status) in commands {
        let command = hex(text);
        let (mut image_after, mut session_after) = (image.to_vec(), session.to_vec());
        let (_, answered) = run(&mut image_after, &mut session_after, &command);
        assert_eq!(answered, *status, "{text}");
        for stores in [0, 1, 5, usize::MAX] {
            let expected = (image.to_vec(), 0);
            assert_eq!(left(image, session, &command, stores), expected, "{text}");
        }
    }
}

#[test]
fn appends_that_are_not_done() {
    let image = travel_card(10, &[vec![1; 4]]);
    let travel = session(&image, &[TRAVEL]);
    let appends = [
        ("00E20008 01 77", 0x6A84),
        ("00E20000 01 77", 0x6986),
        ("00E20018 01 77", 0x6A82),
        ("00E200F0 01 77", 0x6A82),
        ("00E20108 01 77", 0x6A86),
        ("00E20009 01 77", 0x6A86),
        ("00E20010 01 77 00", 0x6700),
        ("00E20010", 0x6700),
        ("00E20010 00", 0x6700),
        ("00E20010 02 77", 0x6700),
        ("00E2", 0x6700),
        ("80E20010 01 77", 0x6D00),
        ("01E20010 01 77", 0x6E00),
    ];
    no_store(&image, &travel, &appends);
    // In the master file its own files alone have these short ids.
    let master = session(&image, &[]);
    no_store(&image, &master, &[("00E20008 01 77", 0x6981)]);
    // Without the right to append to ExitRecords.
    let mut rights = [0xFF; 60];
    rights[1] = 0xFD;
    let without = session_with(&rights, &image, &[TRAVEL]);
    no_store(&image, &without, &[("00E20010 01 77", 0x6982)]);
    // Of 392 bytes, and of 391 where they do not fit.
    let long = |n: usize| format!("00E20010 00 {n:04X} {}", "77".repeat(n));
    no_store(&image, &travel, &[(&long(392), 0x6700)]);
    no_store(&image, &travel, &[(&long(391), 0x6A84)]);
}

#[test]
fn activations_that_are_not_done() {
    let (open, closed) = (biometrics_card(0), biometrics_card(1));
    let on = |image: &[u8], id: &str| session(image, &[BIOMETRICS, id]);
    let file = "00A4020C020205";
    no_store(&closed, &on(&closed, file), &[(ACTIVATE, 0x6982)]);
    let certificates = on(&open, "00A4020C02011A");
    no_store(&open, &certificates, &[(ACTIVATE, 0x6981)]);
    let none = session(&open, &[BIOMETRICS]);
    no_store(&open, &none, &[(ACTIVATE, 0x6986)]);
    let constant = session(&open, &["00A4020C022F01"]);
    no_store(&open, &constant, &[(ACTIVATE, 0x6982)]);
    let otherwise = [
        ("00440100", 0x6A86),
        ("00440001", 0x6A86),
        ("00440000 00", 0x6700),
        ("00440000 01 00", 0x6700),
        ("80440000", 0x6D00),
        ("10440000", 0x6700),
        ("10440000 01 00", 0x9000),
        ("20440000", 0x6E00),
    ];
    no_store(&open, &on(&open, file), &otherwise);
}

/// Each of these is answered 9000, or finds nothing. UPDATE BINARY writes, and has no store.
#[test]
fn other_commands() {
    let image = biometrics_card(0);
    let session = session(&image, &[BIOMETRICS, "00A4020C020205"]);
    let commands = [
        (BIOMETRICS, OK),
        ("00A4000C023F00", OK),
        ("00B0000000", OK),
        ("00B1000003 540100 00", OK),
        ("00D70000 07 540100 5302 CCDD", OK),
        ("00D70205 06 540102 5301 CC", OK),
        ("00B201D4 000000", OK),
        ("805E0001 00", OK),
        (
            "00A200F81A 7F7617 51011A A10B800100B006020100020100 A305B10381017E 00",
            0x6282,
        ),
        ("", 0x6700),
        ("00", 0x6700),
    ];
    no_store(&image, &session, &commands);
}

// ---------------------------------------------------------------- behind a cut

/// With all stores made the image is the one that the command leaves.
#[test]
fn all_stores_are_the_command() {
    for length in [1, 2, 3, 128, 255, 256, 257, 390, 391] {
        let record: Vec<u8> = (0..length).map(|at| (at * 5 + 1) as u8).collect();
        let image = travel_card(450, &[vec![1; 9], vec![2; 20]]);
        let (session, bytes) = (session(&image, &[TRAVEL]), append(1, &record));
        let (mut done, mut after) = (image.clone(), session.clone());
        assert_eq!(run(&mut done, &mut after, &bytes), (vec![], OK));
        let all = length as u64 + 4;
        assert_eq!(
            left(&image, &session, &bytes, length + 4),
            (done.clone(), all)
        );
        assert_eq!(left(&image, &session, &bytes, usize::MAX), (done, all));
    }
}

/// READ RECORD of a number and all behind it, in EntryRecords.
fn read_from(number: u8) -> Vec<u8> {
    vec![0x00, 0xB2, number, 0x0D, 0, 0, 0]
}

/// Cut anywhere, the record is not there before its last store; the session still fits; and the
/// next append takes the room, whatever its length is.
#[test]
fn the_next_append_takes_the_room() {
    let image = travel_card(60, &[b"first".to_vec()]);
    let session = session(&image, &[TRAVEL, "00A4020C020101"]);
    let torn = append(1, b"torn record");
    let all = 15;
    for next in [
        &b"x"[..],
        b"next",
        b"next record",
        b"a longer record",
        &[7; 49],
    ] {
        for stores in 0..all {
            let (mut image, result) = left(&image, &session, &torn, stores);
            assert_eq!(result, 15);
            let mut session = session.clone();
            let mut answer = |bytes: &[u8]| run(&mut image, &mut session, bytes);
            assert_eq!(answer(&read_from(1)), (b"first".to_vec(), OK));
            assert_eq!(answer(&read_from(2)), (vec![], 0x6A83));
            assert_eq!(answer(&append(1, next)), (vec![], OK));
            assert_eq!(answer(&read_from(2)), (next.to_vec(), OK));
            assert_eq!(answer(&read_from(3)), (vec![], 0x6A83));
            assert_eq!(answer(&read_from(1)), ([b"first", next].concat(), OK));
        }
        let (mut image, _) = left(&image, &session, &torn, all);
        let both = b"firsttorn record".to_vec();
        assert_eq!(
            run(&mut image, &mut session.clone(), &read_from(1)),
            (both, OK)
        );
    }
}

/// Which bytes a cut left in the free room does not matter: without them the same is answered.
#[test]
fn what_lies_in_the_free_room_does_not_matter() {
    let image = travel_card(60, &[b"first".to_vec()]);
    let session = session(&image, &[TRAVEL]);
    let torn = append(1, &[1, 0, 0x41, 1, 0, 0x42]);
    let search = hex("00A200F81A 7F7617 510101 A10B800100B006020100020100 A305B103810141 00");
    let commands = [
        search.clone(),
        append(1, b"B"),
        read_from(1),
        search.clone(),
        append(1, b"A"),
        search,
        hex("805E0107 03 510108 00"),
        read_from(1),
    ];
    let answers = |mut image: Vec<u8>| {
        let mut session = session.clone();
        commands
            .each_ref()
            .map(|bytes| run(&mut image, &mut session, bytes))
    };
    let expected = answers(image.clone());
    assert_eq!(expected[5].0, hex("7F7606 510101 020103"));
    assert_eq!(expected[7].0, b"firstBA");
    for stores in 0..10 {
        let (image, result) = left(&image, &session, &torn, stores);
        assert_eq!(result, 10);
        assert_eq!(answers(image), expected);
    }
}

/// Many cuts of one append, each on what the one before left, are as good as one.
#[test]
fn cut_again_and_again() {
    let before = travel_card(60, &[]);
    let session = session(&before, &[TRAVEL]);
    let (one, other) = (append(1, b"one record"), append(1, b"another record"));
    let mut image = before.clone();
    for stores in [3, 17, 5, 13, 2, 12, 1, 0] {
        assert_eq!(cut(&mut image, &session, &other, stores), 18);
        assert_eq!(cut(&mut image, &session, &one, stores.min(13)), 14);
    }
    assert_eq!(image[6..8], [0, 0]);
    assert_eq!(cut(&mut image, &session, &one, 14), 14);
    assert_eq!(image[6..20], hex("0100 0A00 6F6E65207265636F7264"));
    let mut session = session.clone();
    let expected = (b"one record".to_vec(), OK);
    assert_eq!(run(&mut image, &mut session, &read_from(1)), expected);
}

/// The state tells whether the one store was made: only a Deactivated file is written.
#[test]
fn an_update_behind_a_cut_activate() {
    let image = biometrics_card(0);
    let session = session(&image, &[BIOMETRICS, "00A4020C020205"]);
    let update = hex("00D70000 06 540102 5301 CC");
    for (stores, status) in [(0, OK), (1, 0x6982), (2, 0x6982)] {
        let (mut image, result) = left(&image, &session, &hex(ACTIVATE), stores);
        assert_eq!(result, 1);
        let answer = run(&mut image, &mut session.clone(), &update);
        assert_eq!(answer, (vec![], status));
    }
}
