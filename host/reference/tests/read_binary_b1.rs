//! READ BINARY with INS B1, and rooms of up to 131,072 bytes with the three-byte offsets that they
//! need: in UPDATE BINARY, in FMM's numbers and after a move.
//!
//! The numbers expected here are worked out from the rules: an object is a tag, a length of one
//! byte up to 7F, of two bytes (81) up to FF and of three (82) from 0100 on, and the value.

use reference::{command, move_card, open, SESSION_LEN};

const RESPONSE_LEN: usize = 2_060;
const FILL: u8 = 0xEE;
const LARGEST_ROOM: usize = 131_072;
const LONGEST_IMAGE: usize = 262_144;
const MASTER_FILE: &str = "00A4000C023F00";
const TRAVEL: &str = "00A4040C07A0000002472001";
const BIOMETRICS: &str = "00A4040C07A0000002472003";

// ---------------------------------------------------------------- helpers

fn hex(text: &str) -> Vec<u8> {
    let digits: Vec<u8> = text
        .chars()
        .filter(|c| !c.is_whitespace())
        .map(|c| c.to_digit(16).expect("hex digit") as u8)
        .collect();
    assert_eq!(digits.len() % 2, 0);
    digits
        .chunks(2)
        .map(|pair| pair[0] << 4 | pair[1])
        .collect()
}

/// A section's head, and a row of a move's list.
fn row(kind: u16, length: usize) -> Vec<u8> {
    let mut bytes = (length as u32).to_le_bytes().to_vec();
    bytes.extend(kind.to_le_bytes());
    bytes
}

/// A record body of `length` bytes; what is free is filled with AA.
fn records(length: usize, records: &[&[u8]]) -> Vec<u8> {
    let mut body = (records.len() as u16).to_le_bytes().to_vec();
    for record in records {
        body.extend((record.len() as u16).to_le_bytes());
        body.extend(*record);
    }
    assert!(body.len() <= length);
    body.resize(length, 0xAA);
    body
}

/// A biometrics body with such a room; what is not written is filled with AA.
fn biometrics(state: u8, room: usize, written: &[u8]) -> Vec<u8> {
    assert!(written.len() <= room);
    let mut body = vec![state];
    body.extend((written.len() as u32).to_le_bytes());
    body.extend(written);
    body.resize(5 + room, 0xAA);
    body
}

fn image(sections: &[(u16, Vec<u8>)]) -> Vec<u8> {
    sections
        .iter()
        .flat_map(|(kind, body)| [row(*kind, body.len()), body.clone()].concat())
        .collect()
}

/// Certificates without records, and Biometrics 1 with such a body.
fn image_with(body: Vec<u8>) -> Vec<u8> {
    image(&[(0x031A, records(2, &[])), (0x0401, body)])
}

/// Bytes that repeat every 251 places, so that no offset that lost a byte finds the same ones: 256,
/// 32,768 and 65,536 are no multiples of 251.
fn pattern(length: usize) -> Vec<u8> {
    (0..length).map(|place| (place % 251) as u8).collect()
}

/// Every application, with some content.
fn full_image() -> Vec<u8> {
    image(&[
        (0x0101, records(40, &[b"USA", b"FRA"])),
        (0x0102, records(40, &[])),
        (0x011A, records(40, &[])),
        (0x0203, records(40, &[])),
        (0x021A, records(40, &[])),
        (0x031A, records(40, &[b"one", b"two"])),
        (0x0401, biometrics(0, 20, &[1, 2, 3, 4, 5])),
        (0x0402, biometrics(1, 8, &[6, 7, 8])),
        (0x0440, biometrics(0, 9, &[])),
    ])
}

struct Machine {
    image: Vec<u8>,
    session: Vec<u8>,
}

impl Machine {
    fn new(image: Vec<u8>, rights: &[u8]) -> Self {
        let mut session = vec![FILL; SESSION_LEN];
        assert_eq!(open(rights, &mut session), 0);
        Self { image, session }
    }

    fn all_rights(image: Vec<u8>) -> Self {
        Self::new(image, &[0xFF; 60])
    }

    /// A card with all rights, after a first command.
    fn after(select: &str, image: Vec<u8>) -> Self {
        let mut card = Self::all_rights(image);
        card.ok(select);
        card
    }

    /// Biometrics 1 with such content in a room of the same size, application and file selected.
    fn with_content(content: &[u8]) -> Self {
        let body = biometrics(0, content.len(), content);
        let mut card = Self::after(BIOMETRICS, image_with(body));
        card.ok("00A4020C020201");
        card
    }

    /// Runs a command and gives data and status; checks what every taken command keeps to.
    fn run(&mut self, bytes: &[u8]) -> (Vec<u8>, u16) {
        let (image, session) = (self.image.clone(), self.session.clone());
        let mut response = [FILL; RESPONSE_LEN];
        let result = command(&mut self.image, &mut self.session, bytes, &mut response);
        assert_eq!(result >> 32, 0, "refused {bytes:02X?}");
        let (length, status) = (usize::from((result >> 16) as u16), result as u16);
        assert!((2..=2_050).contains(&length));
        assert_eq!(response[length - 2..length], status.to_be_bytes());
        assert!(response[length..].iter().all(|byte| *byte == FILL));
        assert_eq!(self.session[..20], session[..20]);
        let is_read = bytes.get(1) == Some(&0xB1);
        assert!(!is_read || self.image == image, "a read changes nothing");
        if status != 0x9000 {
            assert_eq!(length, 2);
            assert!(self.image == image && self.session == session);
        }
        (response[..length - 2].to_vec(), status)
    }

    #[track_caller]
    fn expect_bytes(&mut self, bytes: &[u8], data: &[u8], status: u16) {
        let (got, got_status) = self.run(bytes);
        assert_eq!(
            format!("{got_status:04X}"),
            format!("{status:04X}"),
            "{bytes:02X?}"
        );
        assert!(got == data, "{bytes:02X?}: {got:02X?} for {data:02X?}");
    }

    #[track_caller]
    fn expect(&mut self, text: &str, data: &str, status: u16) {
        self.expect_bytes(&hex(text), &hex(data), status);
    }

    #[track_caller]
    fn ok(&mut self, text: &str) {
        self.expect(text, "", 0x9000);
    }

    #[track_caller]
    fn fails(&mut self, text: &str, status: u16) {
        self.expect(text, "", status);
    }

    /// Application, place, file id, record.
    fn place(&self) -> (u8, u8, u16, u8) {
        let s = &self.session;
        (s[20], s[21], u16::from_le_bytes([s[22], s[23]]), s[24])
    }
}

/// Lc and data, then Le: both of one byte where Le is, else extended.
fn with_lengths(data: &[u8], le: &[u8]) -> Vec<u8> {
    let lc = data.len() as u16;
    let lc = match le {
        [_] => vec![lc as u8],
        _ => [[0].as_slice(), &lc.to_be_bytes()].concat(),
    };
    [&lc, data, le].concat()
}

/// B1 of the current file; Le as it is to be sent.
fn b1(offset: &str, le: &str) -> Vec<u8> {
    let offset = hex(offset);
    let data = [&[0x54, offset.len() as u8], &offset[..]].concat();
    [hex("00B10000"), with_lengths(&data, &hex(le))].concat()
}

/// B1 of the current file with a three-byte offset and extended Le.
fn b1_at(offset: usize, ne: usize) -> Vec<u8> {
    b1(&format!("{offset:06X}"), &format!("{:04X}", ne % 65_536))
}

/// UPDATE BINARY of the current file, in extended form: the offset as it is to be sent.
fn update(offset: &str, bytes: &[u8]) -> Vec<u8> {
    let offset = hex(offset);
    let length = match bytes.len() {
        0..=0x7F => vec![bytes.len() as u8],
        0x80..=0xFF => vec![0x81, bytes.len() as u8],
        _ => [[0x82].as_slice(), &(bytes.len() as u16).to_be_bytes()].concat(),
    };
    let data = [
        &[0x54, offset.len() as u8],
        &offset[..],
        &[0x53],
        &length,
        bytes,
    ]
    .concat();
    [hex("00D70000"), with_lengths(&data, &[])].concat()
}

// ---------------------------------------------------------------- as many as fit

/// Le as it is sent, tag and length of the reply, and how many bytes are behind these.
const FITTING: [(&str, &str, usize); 36] = [
    ("03", "5301", 1),
    ("0003", "5301", 1),
    ("04", "5302", 2),
    ("0004", "5302", 2),
    // 2 + 126 and 2 + 127 bytes.
    ("80", "537E", 126),
    ("0080", "537E", 126),
    ("81", "537F", 127),
    ("0081", "537F", 127),
    // 128 bytes need 3 more, so that a reply of 130 bytes cannot be.
    ("82", "537F", 127),
    ("0082", "537F", 127),
    ("83", "538180", 128),
    ("0083", "538180", 128),
    ("84", "538181", 129),
    ("0084", "538181", 129),
    ("FF", "5381FC", 252),
    ("00FF", "5381FC", 252),
    // Ne 256, sent in two ways.
    ("00", "5381FD", 253),
    ("0100", "5381FD", 253),
    ("0101", "5381FE", 254),
    ("0102", "5381FF", 255),
    // 256 bytes need 4 more, so that a reply of 259 bytes cannot be.
    ("0103", "5381FF", 255),
    ("0104", "53820100", 256),
    ("0105", "53820101", 257),
    ("0106", "53820102", 258),
    ("01FF", "538201FB", 507),
    ("0200", "538201FC", 508),
    ("03E8", "538203E4", 996),
    ("07FE", "538207FA", 2_042),
    ("07FF", "538207FB", 2_043),
    ("0800", "538207FC", 2_044),
    // More than 2,048 bytes are never given.
    ("0801", "538207FC", 2_044),
    ("0802", "538207FC", 2_044),
    ("1000", "538207FC", 2_044),
    ("8000", "538207FC", 2_044),
    ("FFFF", "538207FC", 2_044),
    ("0000", "538207FC", 2_044),
];

#[test]
fn as_many_as_ne_allows() {
    let content = pattern(5_000);
    let mut card = Machine::with_content(&content);
    for (le, head, count) in FITTING {
        for (offset, at) in [("00", 0), ("07", 7), ("0101", 257), ("000800", 2_048)] {
            let reply = [&hex(head), &content[at..at + count]].concat();
            card.expect_bytes(&b1(offset, le), &reply, 0x9000);
        }
    }
}

#[test]
fn ne_under_3() {
    let mut card = Machine::with_content(&pattern(5_000));
    for le in ["01", "02", "0001", "0002"] {
        for offset in ["00", "1387", "001387"] {
            card.expect_bytes(&b1(offset, le), &[], 0x6700);
        }
    }
    // One byte is all that is left, and it needs three.
    card.expect_bytes(&b1("1387", "03"), &hex("5301E6"), 0x9000);
}

#[test]
fn as_many_as_are_left() {
    // How many bytes are left, tag and length of the reply with Ne 65,536.
    for (left, head, count) in [
        (1, "5301", 1),
        (2, "5302", 2),
        (126, "537E", 126),
        (127, "537F", 127),
        (128, "538180", 128),
        (129, "538181", 129),
        (254, "5381FE", 254),
        (255, "5381FF", 255),
        (256, "53820100", 256),
        (257, "53820101", 257),
        (2_043, "538207FB", 2_043),
        (2_044, "538207FC", 2_044),
        (2_045, "538207FC", 2_044),
        (2_048, "538207FC", 2_044),
        (2_999, "538207FC", 2_044),
    ] {
        let content = pattern(3_000);
        let mut card = Machine::with_content(&content);
        let at = 3_000 - left;
        let reply = [&hex(head), &content[at..at + count]].concat();
        card.expect_bytes(&b1_at(at, 65_536), &reply, 0x9000);
        // The same where the file begins there.
        let mut card = Machine::with_content(&content[at..]);
        card.expect_bytes(&b1_at(0, 65_536), &reply, 0x9000);
    }
}

#[test]
fn what_is_left_and_ne_together() {
    // How many bytes are left, Le, tag and length of the reply, how many bytes are behind these.
    for (left, le, head, count) in [
        (1, "03", "5301", 1),
        (1, "04", "5301", 1),
        (2, "03", "5301", 1),
        (126, "82", "537E", 126),
        (127, "80", "537E", 126),
        (127, "81", "537F", 127),
        (127, "82", "537F", 127),
        (127, "83", "537F", 127),
        (128, "82", "537F", 127),
        (128, "83", "538180", 128),
        (128, "84", "538180", 128),
        (255, "0101", "5381FE", 254),
        (255, "0102", "5381FF", 255),
        (255, "0103", "5381FF", 255),
        (255, "0104", "5381FF", 255),
        (256, "0102", "5381FF", 255),
        (256, "0103", "5381FF", 255),
        (256, "0104", "53820100", 256),
        (256, "0105", "53820100", 256),
    ] {
        let content = pattern(left);
        let mut card = Machine::with_content(&content);
        let reply = [&hex(head), &content[..count]].concat();
        card.expect_bytes(&b1("00", le), &reply, 0x9000);
    }
}

/// The size of an object with a one-byte tag and so many bytes.
fn object_size(count: usize) -> usize {
    match count {
        0..=127 => 2 + count,
        128..=255 => 3 + count,
        _ => 4 + count,
    }
}

/// For each Ne: the reply is no longer than Ne and 2,048, and one byte more would be, or would be
/// past the file's end.
#[test]
fn one_byte_more_would_not_fit() {
    for size in [1, 126, 127, 128, 129, 255, 256, 257, 2_043, 2_044, 2_045] {
        let content = pattern(size);
        let mut card = Machine::with_content(&content);
        for ne in 3..=2_060 {
            let (data, status) = card.run(&b1_at(0, ne));
            assert_eq!(status, 0x9000);
            let limit = ne.min(2_048);
            assert!(data.len() <= limit, "{size} bytes, Ne {ne}");
            let head = match data[1] {
                0x81 => 3,
                0x82 => 4,
                _ => 2,
            };
            let count = data.len() - head;
            assert_eq!(object_size(count), data.len(), "{size} bytes, Ne {ne}");
            assert_eq!(data[0], 0x53);
            assert_eq!(data[head..], content[..count]);
            let more_fits = count < size && object_size(count + 1) <= limit;
            assert!(!more_fits, "{size} bytes, Ne {ne}");
        }
    }
}

// ---------------------------------------------------------------- offsets

#[test]
fn offsets_of_one_two_and_three_bytes() {
    let content = pattern(LARGEST_ROOM);
    let mut card = Machine::with_content(&content);
    for (offset, at) in [
        ("00", 0),
        ("0000", 0),
        ("000000", 0),
        ("05", 5),
        ("0005", 5),
        ("000005", 5),
        ("7F", 127),
        ("80", 128),
        ("FF", 255),
        ("00FF", 255),
        ("0000FF", 255),
        ("0100", 256),
        ("000100", 256),
        ("7FFF", 32_767),
        ("007FFF", 32_767),
        ("8000", 32_768),
        ("008000", 32_768),
        ("FFFE", 65_534),
        ("FFFF", 65_535),
        ("00FFFF", 65_535),
        ("010000", 65_536),
        ("010203", 66_051),
        ("018000", 98_304),
        ("01FFFB", 131_067),
    ] {
        let reply = [&hex("5305"), &content[at..at + 5]].concat();
        card.expect_bytes(&b1(offset, "07"), &reply, 0x9000);
        card.expect_bytes(&b1(offset, "0007"), &reply, 0x9000);
    }
    for offset in ["020000", "020001", "028000", "7FFFFF", "800000", "FFFFFF"] {
        card.expect_bytes(&b1(offset, "00"), &[], 0x6B00);
    }
}

/// 131,071 is 522 * 251 + 49, and 49 is 31.
#[test]
fn the_last_byte_and_the_size() {
    let mut card = Machine::with_content(&pattern(LARGEST_ROOM));
    for le in ["03", "04", "00", "0003", "0000"] {
        card.expect_bytes(&b1("01FFFF", le), &hex("530131"), 0x9000);
        card.expect_bytes(&b1("020000", le), &[], 0x6B00);
    }
    card.expect_bytes(&b1("01FFFE", "04"), &hex("53023031"), 0x9000);
    card.expect_bytes(&b1("01FFFE", "03"), &hex("530130"), 0x9000);

    // The size is w, not the room: 300 bytes are written, and the others are AA.
    let body = biometrics(0, 1_000, &pattern(300));
    let mut card = Machine::after(BIOMETRICS, image_with(body));
    card.ok("00A4020C020201");
    card.expect_bytes(&b1("012B", "00"), &hex("530130"), 0x9000);
    card.expect_bytes(&b1("00012B", "00"), &hex("530130"), 0x9000);
    card.expect_bytes(&b1("012A", "00"), &hex("53022F30"), 0x9000);
    card.expect_bytes(&b1("012C", "00"), &[], 0x6B00);
    card.expect_bytes(&b1("0003E8", "00"), &[], 0x6B00);
    // Nothing is written, so no offset is inside.
    let mut card = Machine::after(BIOMETRICS, image_with(biometrics(0, 9, &[])));
    card.ok("00A4020C020201");
    for offset in ["00", "0000", "000000", "01", "000009"] {
        card.expect_bytes(&b1(offset, "00"), &[], 0x6B00);
    }
}

#[test]
fn past_the_size_is_told_before_a_small_ne() {
    let mut card = Machine::with_content(&pattern(5));
    for le in ["01", "02", "0001", "0002"] {
        card.expect_bytes(&b1("04", le), &[], 0x6700);
        card.expect_bytes(&b1("05", le), &[], 0x6B00);
        card.expect_bytes(&b1("000005", le), &[], 0x6B00);
        card.expect_bytes(&b1("FFFFFF", le), &[], 0x6B00);
    }
}

// ---------------------------------------------------------------- the shape of the command

#[test]
fn class_and_shape() {
    let mut card = Machine::with_content(&pattern(5));
    card.expect("00B1000003540100 00", "5305 0001020304", 0x9000);
    card.fails("80B1000003540100 00", 0x6D00);
    card.fails("01B1000003540100 00", 0x6E00);
    card.fails("10B1000003540100 00", 0x6700);
    card.fails("20B1000003540100 00", 0x6E00);
    // Short Lc with extended Le, and the other way round; a data field that is too short.
    card.fails("00B1000003540100 0000", 0x6700);
    card.fails("00B10000000003540100 00", 0x6700);
    card.fails("00B1000004540100", 0x6700);
    // More than 1,024 bytes of data are 6700 at step 1; 1,024 are, at step 6, wrong data.
    let long = |count| [hex("00B10000"), with_lengths(&vec![0x54; count], &[0, 0])].concat();
    card.expect_bytes(&long(1_024), &[], 0x6A80);
    card.expect_bytes(&long(1_025), &[], 0x6700);
}

#[test]
fn lc_or_le_absent() {
    let mut card = Machine::with_content(&pattern(5));
    for p1_p2 in ["0000", "0201", "0209", "011A"] {
        // Neither; Le alone, short and extended; Lc and data alone, short and extended.
        card.fails(&format!("00B1{p1_p2}"), 0x6700);
        card.fails(&format!("00B1{p1_p2} 00"), 0x6700);
        card.fails(&format!("00B1{p1_p2} 05"), 0x6700);
        card.fails(&format!("00B1{p1_p2} 000000"), 0x6700);
        card.fails(&format!("00B1{p1_p2} 03 540100"), 0x6700);
        card.fails(&format!("00B1{p1_p2} 000003 540100"), 0x6700);
        // The same with data that would be wrong.
        card.fails(&format!("00B1{p1_p2} 02 5400"), 0x6700);
    }
}

/// Data fields that are not `54` with one to three bytes and nothing else.
const WRONG_DATA: [&str; 30] = [
    // An offset of no bytes, of four and of more.
    "5400",
    "540400000000",
    "540400000001",
    "540500000000 00",
    "5408 0000000000000000",
    // An object or a byte more, behind or before.
    "540100 5300",
    "540100 5301AA",
    "540100 540100",
    "540100 00",
    "54020000 00",
    "5403000000 00",
    "5300 540100",
    "00 540100",
    // Another tag.
    "530100",
    "550100",
    "510100",
    "C00100",
    "020100",
    "740100",
    "7F54 0100",
    "5F54 0100",
    // Too short for its length, or no length at all.
    "54",
    "5401",
    "540200",
    "54030000",
    // Lengths that are not in the shortest form, and forms that are not known.
    "548101 00",
    "54820001 00",
    "5483000001 00",
    "5480 00 0000",
    // An object around it.
    "7303540100",
];

#[test]
fn wrong_data() {
    let mut card = Machine::with_content(&pattern(5));
    for data in WRONG_DATA {
        let data = hex(data);
        for le in [&[0][..], &[2], &[0, 0], &[0, 2]] {
            let lengths = with_lengths(&data, le);
            for p1_p2 in ["0000", "0201", "0209", "011A"] {
                let bytes = [hex("00B1"), hex(p1_p2), lengths.clone()].concat();
                card.expect_bytes(&bytes, &[], 0x6A80);
            }
        }
    }
    for count in [4, 100, 127, 128, 200, 255, 256, 1_020] {
        let length = match count {
            0..=127 => format!("{count:02X}"),
            128..=255 => format!("81{count:02X}"),
            _ => format!("82{count:04X}"),
        };
        let data = hex(&format!("54{length}{}", "00".repeat(count)));
        let bytes = [hex("00B10000"), with_lengths(&data, &[0, 0])].concat();
        card.expect_bytes(&bytes, &[], 0x6A80);
    }
}

// ---------------------------------------------------------------- files

#[test]
fn the_current_file_or_a_file_id() {
    let mut card = Machine::after(BIOMETRICS, full_image());
    assert_eq!(card.place(), (3, 0, 0, 0));
    card.fails("00B1000003540100 00", 0x6986);
    card.expect("00B1020103540100 00", "5305 0102030405", 0x9000);
    assert_eq!(card.place(), (3, 1, 0x0201, 0));
    card.expect("00B1000003540103 00", "5302 0405", 0x9000);
    card.expect("00B1020203540100 00", "5303 060708", 0x9000);
    assert_eq!(card.place(), (3, 1, 0x0202, 0));
    card.expect("00B1000003540101 03", "5301 07", 0x9000);
    // B0 goes on with the file that B1 set.
    card.expect("00B0000000", "060708", 0x9000);
    card.expect("00B10201000003540100 0000", "5305 0102030405", 0x9000);
    card.expect("00B0000400", "05", 0x9000);
    // A failed read sets nothing.
    card.fails("00B1020203540103 00", 0x6B00);
    card.fails("00B1020203540100 02", 0x6700);
    card.fails("00B1024003540100 00", 0x6B00);
    assert_eq!(card.place(), (3, 1, 0x0201, 0));
}

#[test]
fn ids_that_name_no_file() {
    let mut card = Machine::after(BIOMETRICS, full_image());
    card.ok("00A4020C020201");
    // No such file; files of the master file and other applications; kinds; short ids.
    for id in [
        "0203", "023F", "0241", "0200", "2F01", "2F00", "3F00", "0101", "0103", "0401", "031A",
        "001A", "0001", "8000", "8001", "9E00", "FFFF",
    ] {
        card.fails(&format!("00B1{id}03540100 00"), 0x6A82);
        card.fails(&format!("00B1{id}000003540100 0000"), 0x6A82);
    }
    // With no application but the master file, and with travel.
    card.ok(MASTER_FILE);
    for id in ["0201", "011A", "3F00", "0001", "001E", "0101"] {
        card.fails(&format!("00B1{id}03540100 00"), 0x6A82);
    }
    card.fails("00B1000003540100 00", 0x6986);
    card.ok(TRAVEL);
    for id in ["0201", "2F01", "2F00", "0103", "0001", "0008"] {
        card.fails(&format!("00B1{id}03540100 00"), 0x6A82);
    }
    card.fails("00B1000003540100 00", 0x6986);
}

#[test]
fn record_files() {
    let mut card = Machine::after(BIOMETRICS, full_image());
    card.fails("00B1011A03540100 00", 0x6981);
    card.fails("00B1011A03540100 02", 0x6981);
    card.fails("00B1011A05 5403FFFFFF 00", 0x6981);
    card.ok("00A4020C02011A");
    card.fails("00B1000003540100 00", 0x6981);
    card.ok(TRAVEL);
    for id in ["0101", "0102", "011A"] {
        card.fails(&format!("00B1{id}03540100 00"), 0x6981);
    }
    // Without any right too: step 8 is before step 9.
    let flags = [&[0x07][..], &[0; 19]].concat().repeat(3);
    let mut card = Machine::new(full_image(), &flags);
    card.ok(BIOMETRICS);
    card.fails("00B1011A03540100 00", 0x6981);
}

#[test]
fn the_files_of_the_master_file() {
    let mut card = Machine::new(vec![], &[0; 60]);
    let info = "47 03 86 01 E0 7F 66 08 02 02 04 00 02 02 08 02";
    card.fails("00B1000003540100 00", 0x6986);
    card.expect("00B12F0103540100 00", &format!("5310 {info}"), 0x9000);
    assert_eq!(card.place(), (0, 1, 0x2F01, 0));
    card.expect("00B1000004 54020000 12", &format!("5310 {info}"), 0x9000);
    card.expect("00B1000005 5403000001 04", "5302 0386", 0x9000);
    card.expect("00B100000354010F 00", "5301 02", 0x9000);
    card.fails("00B1000003540110 00", 0x6B00);
    card.fails("00B1000003540110 02", 0x6B00);
    card.fails("00B1000003540100 02", 0x6700);
    card.fails("00B12F0203540100 00", 0x6A82);

    // EF.DIR has 11 bytes for each application, eMRTD's first.
    let entry = |last: &str| format!("61094F07A000000247{last}");
    let reply = format!("530B {}", entry("1001"));
    card.expect("00B12F0003540100 00", &reply, 0x9000);
    assert_eq!(card.place(), (0, 1, 0x2F00, 0));
    card.fails("00B100000354010B 00", 0x6B00);

    let mut card = Machine::new(full_image(), &[0; 60]);
    let all = ["1001", "2001", "2002", "2003"].map(entry).concat();
    card.expect("00B12F0003540100 00", &format!("532C {all}"), 0x9000);
    card.expect("00B12F0003540121 00", "530B 61094F07A0000002472003", 0x9000);
    card.expect("00B12F0003540121 06", "5304 61094F07", 0x9000);
    card.fails("00B12F000354012C 00", 0x6B00);
}

// ---------------------------------------------------------------- rights

/// Rights with the biometrics flag and one byte of the 17, from 1.
fn rights_with(number: usize, byte: u8) -> Vec<u8> {
    let mut one = [0; 20];
    one[0] = 0x04;
    one[2 + number] = byte;
    one.repeat(3)
}

#[test]
fn the_right_of_either_state() {
    // File id, number of its byte, bits of the states Deactivated and Activated.
    for (kind, id, number, bits) in [
        (0x0401, "0201", 2, [0x80, 0x40]),
        (0x0406, "0206", 3, [0x20, 0x10]),
        (0x0440, "0240", 17, [0x02, 0x01]),
    ] {
        for state in [0, 1] {
            let body = biometrics(state, 4, &[0xAB, 0xCD]);
            let card_image = image(&[(0x031A, records(2, &[])), (kind, body)]);
            for bit in (0..8).map(|shift| 1_u8 << shift) {
                let mut card = Machine::new(card_image.clone(), &rights_with(number, bit));
                card.ok(BIOMETRICS);
                let read = format!("00B1{id}03540100 00");
                if bit == bits[usize::from(state)] {
                    card.expect(&read, "5302 ABCD", 0x9000);
                    continue;
                }
                card.fails(&read, 0x6982);
                // Step 9 is before step 10.
                card.fails(&format!("00B1{id}03540102 00"), 0x6982);
                card.fails(&format!("00B1{id}03540100 02"), 0x6982);
                // And behind steps 5 and 6.
                card.fails(&format!("00B1{id}03540100"), 0x6700);
                card.fails(&format!("00B1{id}025400 00"), 0x6A80);
            }
        }
    }
}

#[test]
fn all_bits_but_the_one_of_the_state() {
    for (state, without) in [(0, 0x7F), (1, 0xBF)] {
        let card_image = image_with(biometrics(state, 4, &[0xAB, 0xCD]));
        for certificate in 0..3 {
            // Byte 2 of biometrics stands behind flags, travel, visa and byte 1.
            let mut rights = [0xFF; 60];
            rights[20 * certificate + 4] = without;
            let mut card = Machine::new(card_image.clone(), &rights);
            card.ok(BIOMETRICS);
            card.fails("00B1020103540100 00", 0x6982);
        }
        let mut card = Machine::after(BIOMETRICS, card_image);
        card.expect("00B1020103540100 00", "5302 ABCD", 0x9000);
    }
}

/// The right goes with the state: what may be read while it is written may be closed then.
#[test]
fn activating_ends_the_right() {
    for (byte, status) in [(0x80, 0x6982), (0xC0, 0x9000)] {
        let card_image = image_with(biometrics(0, 4, &[0xAB, 0xCD]));
        let mut card = Machine::new(card_image, &rights_with(2, byte));
        card.ok(BIOMETRICS);
        card.expect("00B1020103540100 00", "5302 ABCD", 0x9000);
        card.ok("00440000");
        let reply = if status == 0x9000 { "5302 ABCD" } else { "" };
        card.expect("00B1000003540100 00", reply, status);
        card.expect("00B1020103540100 00", reply, status);
    }
}

// ---------------------------------------------------------------- the current place

/// Only record files have a current record, and B1 reads none of them: so the record stays where
/// the read fails, and is dropped where it sets a file.
#[test]
fn the_current_record() {
    let mut card = Machine::after(BIOMETRICS, full_image());
    card.ok("00E200D003 746872");
    assert_eq!(card.place(), (3, 2, 0x011A, 3));
    for (text, status) in [
        ("00B1000003540100 00", 0x6981),
        ("00B1011A03540100 00", 0x6981),
        ("00B1020103540100", 0x6700),
        ("00B10201025400 00", 0x6A80),
        ("00B1020303540100 00", 0x6A82),
        ("00B1020103540105 00", 0x6B00),
        ("00B1020103540100 02", 0x6700),
    ] {
        card.fails(text, status);
        assert_eq!(card.place(), (3, 2, 0x011A, 3), "{text}");
    }
    card.expect("00B20004000000", "746872", 0x9000);
    card.expect("00B1020103540104 00", "5301 05", 0x9000);
    assert_eq!(card.place(), (3, 1, 0x0201, 0));
    // The record is not there again when its file is.
    card.fails("00B200D4000000", 0x6A83);
    card.expect("00B201D4000000", "6F6E65", 0x9000);
    assert_eq!(card.place(), (3, 1, 0x011A, 0));
    card.fails("00B20004000000", 0x6A83);
    // Setting the same file, by id and as the current one, leaves the place as it is.
    card.expect("00B1020103540104 00", "5301 05", 0x9000);
    for p1_p2 in ["0000", "0201", "0000"] {
        card.expect(&format!("00B1{p1_p2}03540104 00"), "5301 05", 0x9000);
        assert_eq!(card.place(), (3, 1, 0x0201, 0));
    }
}

// ---------------------------------------------------------------- order of status words

/// Each command has the faults of its own step and of all steps behind it.
#[test]
fn each_step_is_before_the_next() {
    let flags = [&[0x07][..], &[0; 19]].concat().repeat(3);
    let mut card = Machine::new(full_image(), &flags);
    card.ok(BIOMETRICS);
    card.fails("01B1000002540002FF", 0x6700); // 1: no shape
    card.fails("01B1000002540002", 0x6E00); // 2
    card.fails("80B1000002540002", 0x6D00); // 3
    card.fails("00B10000025400", 0x6700); // 5: no Le
    card.fails("00B10000025400 02", 0x6A80); // 6
    card.fails("00B1000003540109 02", 0x6986); // 7
    card.fails("00B1020903540109 02", 0x6A82); // 7
    card.fails("00B1011A03540109 02", 0x6981); // 8
    card.fails("00B1020103540109 02", 0x6982); // 9
    let mut card = Machine::after(BIOMETRICS, full_image());
    card.fails("00B1020103540109 02", 0x6B00); // 10, the offset
    card.fails("00B1020103540104 02", 0x6700); // 10, Ne
    card.expect("00B1020103540104 03", "5301 05", 0x9000);
}

// ---------------------------------------------------------------- B0 and B1

#[test]
fn both_reads_give_the_same_bytes() {
    let content = pattern(40_000);
    let mut card = Machine::with_content(&content);
    for at in [0, 1, 255, 256, 2_048, 30_000, 32_766, 32_767] {
        for le in ["03", "80", "81", "82", "83", "84", "FF", "00"] {
            let (plain, status) = card.run(&hex(&format!("00B0{at:04X}{le}")));
            assert_eq!(status, 0x9000);
            let (wrapped, status) = card.run(&b1(&format!("{at:04X}"), le));
            assert_eq!(status, 0x9000);
            let head = if wrapped[1] == 0x81 { 3 } else { 2 };
            let shorter = wrapped.len() - head;
            assert!(shorter < plain.len());
            assert_eq!(wrapped[head..], plain[..shorter]);
            assert_eq!(plain, content[at..at + plain.len()]);
        }
        let (plain, _) = card.run(&hex(&format!("00B0{at:04X}000000")));
        assert_eq!(plain, content[at..at + 2_048]);
        let reply = [&hex("538207FC"), &content[at..at + 2_044]].concat();
        card.expect_bytes(&b1_at(at, 65_536), &reply, 0x9000);
    }
}

// ---------------------------------------------------------------- rooms of up to 131,072 bytes

/// The shortest way to say an offset.
fn shortest(offset: usize) -> String {
    match offset {
        0..=0xFF => format!("{offset:02X}"),
        0x100..=0xFFFF => format!("{offset:04X}"),
        _ => format!("{offset:06X}"),
    }
}

/// Writes the content to the current file, 1,015 bytes at a time, for the data has at most 1,024:
/// 5 of them are a three-byte offset and its head, and 4 the head of the bytes.
fn write_all(card: &mut Machine, content: &[u8]) {
    let mut at = 0;
    for part in content.chunks(1_015) {
        card.expect_bytes(&update(&shortest(at), part), &[], 0x9000);
        at += part.len();
    }
}

/// All that B1 gives of a file of 131,072 bytes, command by command.
fn read_all(card: &mut Machine) -> Vec<u8> {
    let mut content = Vec::new();
    for at in (0..LARGEST_ROOM).step_by(2_044) {
        let (data, status) = card.run(&b1_at(at, 65_536));
        assert_eq!(status, 0x9000);
        let left = (LARGEST_ROOM - at).min(2_044);
        assert_eq!(data.len(), object_size(left));
        content.extend(&data[data.len() - left..]);
    }
    card.expect_bytes(&b1_at(LARGEST_ROOM, 65_536), &[], 0x6B00);
    content
}

#[test]
fn a_room_written_to_its_end_and_read_back() {
    let content = pattern(LARGEST_ROOM);
    let card_image = image_with(biometrics(0, LARGEST_ROOM, &[]));
    // 6 + 2, then 6 + 5 + 131,072.
    assert_eq!(card_image.len(), 131_091);
    let mut card = Machine::after(BIOMETRICS, card_image);
    card.ok("00A4020C020201");
    write_all(&mut card, &content);
    assert_eq!(card.image[14..19], hex("00 00000200"));
    assert!(card.image[19..] == content);

    // The room is full: nothing more goes in, and behind its end there is no place at all.
    card.expect_bytes(&update("020000", &[]), &[], 0x9000);
    card.expect_bytes(&update("020000", &[1]), &[], 0x6A84);
    card.expect_bytes(&update("01FFFF", &[1, 2]), &[], 0x6A84);
    card.expect_bytes(&update("020001", &[]), &[], 0x6A80);
    card.expect_bytes(&update("020001", &[1]), &[], 0x6A80);
    card.expect_bytes(&update("FFFFFF", &[]), &[], 0x6A80);

    assert!(read_all(&mut card) == content);
    for at in (0..32_768).step_by(2_048).chain([32_767]) {
        let read = hex(&format!("00B0{at:04X}000000"));
        card.expect_bytes(&read, &content[at..at + 2_048], 0x9000);
    }
    // P1 80 is short id 0 for B0, not the offset 32,768.
    card.fails("00B08000000000", 0x6A82);

    card.expect("805E000100", "7F7805 8103020000", 0x9000);
    card.ok("00440000");
    assert!(read_all(&mut card) == content);
    card.expect_bytes(&update("020000", &[]), &[], 0x6982);
}

#[test]
fn updates_with_offsets_of_three_bytes() {
    let card_image = image_with(biometrics(0, 70_000, &pattern(65_536)));
    let mut card = Machine::after(BIOMETRICS, card_image);
    card.ok("00A4020C020201");
    // No byte, four bytes.
    card.expect_bytes(&update("", &[1]), &[], 0x6A80);
    card.expect_bytes(&update("00000000", &[1]), &[], 0x6A80);
    card.expect_bytes(&update("00010000", &[1]), &[], 0x6A80);
    // w is 65,536, the first offset that needs three bytes.
    card.expect_bytes(&update("010001", &[1]), &[], 0x6A80);
    card.expect_bytes(&update("010000", &[0xA1, 0xA2]), &[], 0x9000);
    assert_eq!(card.image[14..19], hex("00 02000100"));
    card.expect_bytes(&b1("FFFF", "00"), &hex("5303 18 A1A2"), 0x9000);
    // Zeros may lead: three bytes of each.
    card.expect_bytes(&update("00", &[0xB0]), &[], 0x9000);
    card.expect_bytes(&update("0001", &[0xB1]), &[], 0x9000);
    card.expect_bytes(&update("000002", &[0xB2]), &[], 0x9000);
    card.expect_bytes(&update("000103", &[0xB3]), &[], 0x9000);
    card.expect("00B0000004", "B0B1B203", 0x9000);
    // 258 and 260 are 7 and 9 modulo 251.
    card.expect("00B0010203", "07B309", 0x9000);
    assert_eq!(card.image[14..19], hex("00 02000100"));
    // The room ends at 70,000, which is 011170.
    let end = vec![0xC5; 1_000];
    let mut at = 65_538;
    while at < 69_538 {
        card.expect_bytes(&update(&shortest(at), &end), &[], 0x9000);
        at += 1_000;
    }
    card.expect_bytes(&update("010FA2", &[0xC6; 463]), &[], 0x6A84);
    card.expect_bytes(&update("010FA2", &[0xC6; 462]), &[], 0x9000);
    card.expect_bytes(&update("011170", &[0xC6]), &[], 0x6A84);
    card.expect_bytes(&b1("01116F", "00"), &hex("5301C6"), 0x9000);
    card.expect_bytes(&b1("011170", "00"), &[], 0x6B00);
}

/// The number of the refusal of SELECT of the master file, 0 for none.
fn refused(mut image: Vec<u8>) -> u64 {
    let mut session = [0; SESSION_LEN];
    let select = hex(MASTER_FILE);
    command(&mut image, &mut session, &select, &mut [FILL; 2_050]) >> 32
}

#[test]
fn rooms_of_an_image() {
    for (room, expected) in [(32_768, 0), (32_769, 0), (131_072, 0), (131_073, 2)] {
        for state in [0, 1] {
            for written in [0, 1, room] {
                let body = biometrics(state, room, &pattern(written));
                assert_eq!(refused(image_with(body)), expected, "{room}, {written}");
            }
        }
    }
    // w past the room.
    let mut body = biometrics(0, LARGEST_ROOM, &pattern(LARGEST_ROOM));
    assert_eq!(body[1..5], hex("00000200"));
    body[1] = 1;
    assert_eq!(refused(image_with(body)), 2);
    // The image's limit stays: two of the largest rooms are past it.
    let both = |second| {
        image(&[
            (0x031A, records(2, &[])),
            (0x0401, biometrics(0, LARGEST_ROOM, &[])),
            (0x0402, biometrics(0, second, &[])),
        ])
    };
    // 262,144 - 8 - 131,083 - 11.
    assert_eq!(both(131_042).len(), LONGEST_IMAGE);
    assert_eq!(refused(both(131_042)), 0);
    assert_eq!(refused(both(131_043)), 2);
    assert_eq!(refused(both(131_072)), 2);
}

#[test]
fn fmm_numbers_of_large_files() {
    for (room, number) in [
        (255, "8101FF"),
        (256, "81020100"),
        (32_768, "81028000"),
        (65_535, "8102FFFF"),
        (65_536, "8103010000"),
        (65_537, "8103010001"),
        (131_071, "810301FFFF"),
        (131_072, "8103020000"),
    ] {
        let mut card = Machine::after(BIOMETRICS, image_with(biometrics(0, room, &[])));
        let reply = format!("7F78{:02X}{number}", number.len() / 2);
        card.expect("805E010104 51020201 00", &reply, 0x9000);
        card.expect("805E0001000000", &reply, 0x9000);
        card.ok("805E000000");
        card.fails("805E000300", 0x6A86);
    }
    // Record files too: L - 2 without records; 64 of the longest are 64 * 931 bytes of room.
    for (length, reply) in [
        (65_537, "7F780A 8102FFFF 820140 830100"),
        (65_538, "7F780B 8103010000 820140 830100"),
        (262_138, "7F780B 810303FFF8 820140 830100"),
    ] {
        let mut card = Machine::after(BIOMETRICS, image(&[(0x031A, records(length, &[]))]));
        card.expect("805E010703 5101D0 00", reply, 0x9000);
    }
}

// ---------------------------------------------------------------- a move into such a room

#[test]
fn a_move_into_the_largest_room() {
    let small = 32_768;
    let content = pattern(LARGEST_ROOM);
    let old = image_with(biometrics(0, small, &content[..small]));
    let list = |body| [row(0x031A, 2), row(0x0401, body)].concat();
    let mut target = vec![FILL; LONGEST_IMAGE];
    // A body is 5 bytes and the room.
    for body in [131_078, 131_079, 262_144] {
        assert_eq!(move_card(&old, &list(body), &mut target), 10 << 32);
        assert!(target.iter().all(|byte| *byte == FILL));
    }
    assert_eq!(move_card(&old, &list(131_077), &mut target), 131_091);
    assert!(target[131_091..].iter().all(|byte| *byte == FILL));
    target.truncate(131_091);
    let mut moved = image_with(biometrics(0, LARGEST_ROOM, &content[..small]));
    moved[14 + 5 + small..].fill(0);
    assert!(target == moved);

    // The new room is written on from where the old one ended. 32,767 is 130 * 251 + 137,
    // and 137 is 89.
    let mut card = Machine::after(BIOMETRICS, target);
    card.expect("00B1020104 54027FFF 03", "530189", 0x9000);
    card.fails("00B1020104 54028000 03", 0x6B00);
    let mut at = small;
    for part in content[small..].chunks(1_000) {
        card.expect_bytes(&update(&shortest(at), part), &[], 0x9000);
        at += part.len();
    }
    assert!(read_all(&mut card) == content);
    // The full room moves on to the same size, and to no smaller one.
    let mut target = vec![FILL; 131_091];
    assert_eq!(
        move_card(&card.image, &list(131_076), &mut target),
        12 << 32
    );
    assert_eq!(move_card(&card.image, &list(131_077), &mut target), 131_091);
    assert!(target == card.image);
}

#[test]
fn a_new_file_with_the_largest_room() {
    let list = [row(0x031A, 2), row(0x0402, 131_077)].concat();
    let mut target = vec![FILL; 131_091];
    assert_eq!(move_card(&[], &list, &mut target), 131_091);
    let mut card = Machine::after(BIOMETRICS, target);
    card.expect("805E010104 51020202 00", "7F7805 8103020000", 0x9000);
    card.fails("00B1000003540100 00", 0x6B00);
    // Two of the largest rooms lay out no image.
    let both = [row(0x031A, 2), row(0x0401, 131_077), row(0x0402, 131_077)].concat();
    let mut target = vec![FILL; 300_000];
    assert_eq!(move_card(&[], &both, &mut target), 10 << 32);
}

// ---------------------------------------------------------------- search windows

#[test]
fn search_windows_keep_two_bytes() {
    // Looks for the byte 46; its window has the numbers given.
    let search = |window: &str| {
        let size = window.len() / 2;
        format!(
            "00A200F8 {:02X} 7F76{:02X} 510101 A1{:02X} 800100 B0{size:02X} {window} \
             A305 B103 810146 00",
            size + 20,
            size + 17,
            size + 5
        )
    };
    let mut card = Machine::after(TRAVEL, full_image());
    let found = "7F7606 510101 020102";
    for window in [
        "020100020100",
        "02020000020100",
        "02010002020000",
        "0202000002020000",
    ] {
        card.expect(&search(window), found, 0x9000);
    }
    for window in [
        "0203000000020100",
        "0201000203000000",
        "02030000000203000000",
        "020300000002020000",
        "020200000203000000",
        "0203010000020100",
        "020402010002020100",
        "02000200",
    ] {
        card.fails(&search(window), 0x6A80);
    }
}
