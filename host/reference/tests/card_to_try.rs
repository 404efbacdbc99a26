//! The card to try with its commands m1 to m10, the refusals, the order of status words, file
//! references of one byte, and a smoke test over random and changed inputs.

use reference::{command, open, SESSION_LEN};

const RESPONSE_LEN: usize = 2_060;
const FILL: u8 = 0xEE;
const MASTER_FILE: &str = "00A4000C023F00";
const TRAVEL: &str = "00A4040C07A0000002472001";
const VISA: &str = "00A4040C07A0000002472002";
const BIOMETRICS: &str = "00A4040C07A0000002472003";

// ---------------------------------------------------------------- helpers

fn hex(text: &str) -> Vec<u8> {
    let digits: Vec<u8> = text
        .chars()
        .filter(|c| !c.is_whitespace())
        .map(|c| c.to_digit(16).expect("hex digit") as u8)
        .collect();
    assert_eq!(digits.len() % 2, 0);
    digits
        .chunks(2)
        .map(|pair| pair[0] << 4 | pair[1])
        .collect()
}

fn section(kind: u16, body: &[u8]) -> Vec<u8> {
    let mut bytes = (body.len() as u32).to_le_bytes().to_vec();
    bytes.extend(kind.to_le_bytes());
    bytes.extend(body);
    bytes
}

/// A record body of `length` bytes; what is free is filled with AA.
fn records(length: usize, records: &[Vec<u8>]) -> Vec<u8> {
    let mut body = (records.len() as u16).to_le_bytes().to_vec();
    for record in records {
        body.extend((record.len() as u16).to_le_bytes());
        body.extend(record);
    }
    assert!(body.len() <= length);
    body.resize(length, 0xAA);
    body
}

fn biometrics(state: u8, room: usize, written: &[u8]) -> Vec<u8> {
    let mut body = vec![state];
    body.extend((written.len() as u32).to_le_bytes());
    body.extend(written);
    body.resize(5 + room, 0xAA);
    body
}

fn image(sections: &[(u16, Vec<u8>)]) -> Vec<u8> {
    sections
        .iter()
        .flat_map(|(kind, body)| section(*kind, body))
        .collect()
}

fn travel_image(length: usize) -> Vec<u8> {
    image(&[
        (0x0101, records(length, &[])),
        (0x0102, records(length, &[])),
        (0x011A, records(length, &[])),
    ])
}

/// Every application, with some content.
fn full_image() -> Vec<u8> {
    let some = |n: u8| (1..=n).map(|i| vec![i; 3 + i as usize]).collect::<Vec<_>>();
    image(&[
        (0x0101, records(600, &some(5))),
        (0x0102, records(40, &some(1))),
        (0x011A, records(2_000, &some(9))),
        (0x0203, records(1_500, &some(2))),
        (0x021A, records(60, &some(1))),
        (0x031A, records(1_000, &some(3))),
        (0x0401, biometrics(0, 20, &[1, 2, 3])),
        (0x0402, biometrics(1, 8, &[4, 5, 6, 7])),
        (0x0440, biometrics(0, 0, &[])),
    ])
}

fn refusal(result: u64) -> u64 {
    result >> 32
}

fn status(result: u64) -> u16 {
    result as u16
}

struct Machine {
    image: Vec<u8>,
    session: Vec<u8>,
}

impl Machine {
    fn new(image: Vec<u8>, rights: &[u8]) -> Self {
        let mut session = vec![FILL; SESSION_LEN + 3];
        assert_eq!(open(rights, &mut session), 0);
        assert_eq!(session[SESSION_LEN..], [FILL; 3]);
        Self { image, session }
    }

    fn all_rights(image: Vec<u8>) -> Self {
        Self::new(image, &[0xFF; 60])
    }

    /// Runs a command and gives data and status; checks what every taken command keeps to.
    fn run(&mut self, bytes: &[u8]) -> (Vec<u8>, u16) {
        let (image, session) = (self.image.clone(), self.session.clone());
        let mut response = [FILL; RESPONSE_LEN];
        let result = command(&mut self.image, &mut self.session, bytes, &mut response);
        assert_eq!(refusal(result), 0, "refused {bytes:02X?}");
        let length = (result >> 16) as u16 as usize;
        let status = status(result);
        assert!((2..=2_050).contains(&length));
        assert_eq!(response[length - 2..length], status.to_be_bytes());
        assert!(response[length..].iter().all(|b| *b == FILL));
        assert_eq!(self.session[SESSION_LEN..], session[SESSION_LEN..]);
        assert_eq!(self.session[..20], session[..20]);
        if status != 0x9000 {
            assert_eq!(length, 2);
            assert_eq!(self.image, image);
            assert_eq!(self.session, session);
        }
        (response[..length - 2].to_vec(), status)
    }

    #[track_caller]
    fn expect(&mut self, text: &str, data: &str, status: u16) {
        let (got, got_status) = self.run(&hex(text));
        assert_eq!(
            format!("{got_status:04X}"),
            format!("{status:04X}"),
            "{text}"
        );
        assert_eq!(got, hex(data), "{text}");
    }

    #[track_caller]
    fn ok(&mut self, text: &str) {
        self.expect(text, "", 0x9000);
    }

    #[track_caller]
    fn fails(&mut self, text: &str, status: u16) {
        self.expect(text, "", status);
    }

    /// Application, place, file id, record.
    fn place(&self) -> (u8, u8, u16, u8) {
        let s = &self.session;
        (s[20], s[21], u16::from_le_bytes([s[22], s[23]]), s[24])
    }
}

/// APPEND RECORD of `n` bytes, short up to 255 and extended above.
fn append(p2: u8, record: &[u8]) -> Vec<u8> {
    let mut bytes = vec![0x00, 0xE2, 0x00, p2];
    match u8::try_from(record.len()) {
        Ok(lc) => bytes.push(lc),
        Err(_) => {
            bytes.push(0);
            bytes.extend((record.len() as u16).to_be_bytes());
        }
    }
    bytes.extend(record);
    bytes
}

// ---------------------------------------------------------------- a card to try

#[test]
fn m1_to_m10() {
    let mut card = Machine::all_rights(travel_image(40));
    card.ok(TRAVEL); // m1
    assert_eq!(card.place(), (1, 0, 0, 0));

    card.ok("00E20008065F4403555341"); // m2
    assert_eq!(card.place(), (1, 2, 0x0101, 1));
    let mut body = records(40, &[hex("5F4403555341")]);
    assert_eq!(card.image[6..46], body);

    card.ok("00E20008065F4403465241"); // m3
    assert_eq!(card.place(), (1, 2, 0x0101, 2));
    body = records(40, &[hex("5F4403555341"), hex("5F4403465241")]);
    assert_eq!(card.image[6..46], body);

    card.expect("00B20105000000", "5F44035553415F4403465241", 0x9000); // m4
    card.fails("00B20304000000", 0x6A83); // m5
    card.expect(
        "00A200F81C7F7619510101A10B800100B006020103020103A307B105810346524100",
        "7F7606510101020102",
        0x9000,
    ); // m6
    assert_eq!(card.place(), (1, 2, 0x0101, 2));
    card.fails(
        "00A200F81C7F7619510101A10B800100B006020102020103A307B105810346524100",
        0x6282,
    ); // m7
    card.expect("805E0107045102010100", "7F7809810122820100830102", 0x9000); // m8

    assert_eq!(card.run(&append(0x08, &[0x55; 21])), (vec![], 0x6A84)); // m9
    assert_eq!(card.run(&append(0x08, &[0x55; 20])), (vec![], 0x9000));
    assert_eq!(card.run(&append(0x08, &[0x55; 392])), (vec![], 0x6700));
    assert_eq!(card.run(&append(0x08, &[0x55; 391])), (vec![], 0x6A84));
    card.fails("00B2010400", 0x6700); // m10
}

#[test]
fn m6_with_either_byte_of_its_file() {
    let mut card = Machine::all_rights(travel_image(40));
    card.ok(TRAVEL);
    card.ok("00E20008065F4403555341");
    card.ok("00E20008065F4403465241");
    for (search, reply) in [
        (
            "00A200F81C7F7619510101A10B800100B006020103020103A307B105810346524100",
            "7F7606510101020102",
        ),
        (
            "00A200F81C7F7619510108A10B800100B006020103020103A307B105810346524100",
            "7F7606510108020102",
        ),
    ] {
        card.ok(TRAVEL);
        assert_eq!(card.place(), (1, 0, 0, 0));
        card.expect(search, reply, 0x9000);
        assert_eq!(card.place(), (1, 2, 0x0101, 2));
    }
}

#[test]
fn m1_without_one_travel_flag() {
    for certificate in 0..3 {
        let mut rights = [0xFF; 60];
        rights[20 * certificate] = 0xFE;
        let mut card = Machine::new(travel_image(40), &rights);
        card.fails(TRAVEL, 0x6982);
    }
}

#[test]
fn eighty_three_and_eighty_four_matches() {
    let search = "00A200F81A7F7617510101A10B800100B006020100020100A305B10381014600";
    for (count, expected) in [(83, 0x9000), (84, 0x6700)] {
        let card_image = image(&[
            (0x0101, records(1_000, &vec![hex("5F46"); count])),
            (0x0102, records(1_000, &[])),
            (0x011A, records(1_000, &[])),
        ]);
        let mut card = Machine::all_rights(card_image);
        card.ok(TRAVEL);
        let (data, status) = card.run(&hex(search));
        assert_eq!(status, expected);
        if count == 83 {
            let mut reply = hex("7F7681FC510101");
            reply.extend((1..=83).flat_map(|n| [0x02, 0x01, n]));
            assert_eq!(data, reply);
            assert_eq!(data.len(), 256);
            assert_eq!(card.place(), (1, 2, 0x0101, 1));
        } else {
            // The same search in extended form has Ne 65,536.
            let mut extended = hex(search);
            extended.insert(4, 0);
            extended.insert(5, 0);
            extended.push(0);
            let (data, status) = card.run(&extended);
            assert_eq!((data.len(), status), (259, 0x9000));
            // 30 lists only the first.
            card.expect(
                &search.replace("800100", "800130"),
                "7F7606510101020101",
                0x9000,
            );
        }
    }
}

fn biometrics_rights(byte_3: u8) -> Vec<u8> {
    let mut one = [0; 20];
    one[0] = 0x07;
    one[3 + 2] = byte_3;
    one.repeat(3)
}

#[test]
fn biometrics_card() {
    let card_image = image(&[(0x031A, records(40, &[])), (0x0405, biometrics(0, 16, &[]))]);
    let mut card = Machine::new(card_image, &biometrics_rights(0x80));
    card.ok(BIOMETRICS);
    card.ok("00D70205075401005302AABB");
    assert_eq!(card.place(), (3, 1, 0x0205, 0));
    card.fails("00D70205075401035302AABB", 0x6A80);
    card.ok("00D70205075401025302CCDD");
    assert_eq!(
        card.image[card.image.len() - 21..][..9],
        hex("0004000000AABBCCDD")
    );
    card.expect("00B0000000", "AABBCCDD", 0x9000);
    card.ok("00440000");
    card.fails("00B0000000", 0x6982);
    card.fails("00440000", 0x6982);
    card.fails("00D70205075401025302CCDD", 0x6982);
    assert_eq!(card.image[card.image.len() - 21], 1);
}

// ---------------------------------------------------------------- refusals

/// A command that would be taken, on buffers that may make it a refusal.
fn refused(image: &[u8], session: &[u8], response_len: usize) -> u64 {
    let (mut image_after, mut session_after) = (image.to_vec(), session.to_vec());
    let mut response = vec![FILL; response_len];
    let select = hex("00A4000C023F00");
    let result = command(&mut image_after, &mut session_after, &select, &mut response);
    if refusal(result) != 0 {
        assert_eq!(result as u32, 0, "length and status of a refusal");
        assert!(image_after == image && session_after == session);
        assert!(response.iter().all(|b| *b == FILL));
    }
    refusal(result)
}

#[test]
fn refusal_1_response() {
    for length in [0, 1, 2, 2_049] {
        assert_eq!(refused(&[], &[0; SESSION_LEN], length), 1);
        assert_eq!(refused(&[1], &[0; 3], length), 1);
    }
    assert_eq!(refused(&[], &[0; SESSION_LEN], 2_050), 0);
}

#[test]
fn refusal_2_image() {
    let good = travel_image(40);
    // Refusal 2 comes before 4.
    assert_eq!(refused(&[0xFF; 6], &[0; 3], 2_050), 2);
    let refused = |image: &[u8]| refused(image, &[0; SESSION_LEN], 2_050);
    assert_eq!(refused(&good), 0);
    assert_eq!(refused(&full_image()), 0);
    for length in 1..good.len() {
        assert_eq!(refused(&good[..length]), 2, "cut at {length}");
    }
    let travel = |first: Vec<u8>| {
        image(&[
            (0x0101, first),
            (0x0102, records(2, &[])),
            (0x011A, records(2, &[])),
        ])
    };
    assert_eq!(refused(&travel(vec![])), 2);
    assert_eq!(refused(&travel(vec![0])), 2);
    assert_eq!(refused(&travel(vec![0, 0])), 0);
    assert_eq!(refused(&travel(hex("0100 0100 AA"))), 0);
    assert_eq!(refused(&travel(hex("0100 0100"))), 2);
    assert_eq!(refused(&travel(hex("0100 0000 AA"))), 2);
    assert_eq!(refused(&travel(hex("0100 0200 AA"))), 2);
    assert_eq!(refused(&travel(records(500, &[vec![7; 391]]))), 0);
    assert_eq!(refused(&travel(records(500, &[vec![7; 392]]))), 2);
    assert_eq!(refused(&travel(records(900, &vec![vec![7]; 254]))), 0);
    assert_eq!(refused(&travel(records(900, &vec![vec![7]; 255]))), 2);

    let certificates = |n| (0x031A, records(400, &vec![vec![7]; n]));
    assert_eq!(refused(&image(&[certificates(64)])), 0);
    assert_eq!(refused(&image(&[certificates(65)])), 2);
    let with = |kind, body| image(&[certificates(0), (kind, body)]);
    assert_eq!(refused(&image(&[(0x0401, biometrics(0, 4, &[]))])), 2);
    assert_eq!(refused(&with(0x0401, biometrics(1, 4, &[1, 2, 3, 4]))), 0);
    assert_eq!(refused(&with(0x0440, biometrics(0, 0, &[]))), 0);
    assert_eq!(refused(&with(0x0400, biometrics(0, 0, &[]))), 2);
    assert_eq!(refused(&with(0x0441, biometrics(0, 0, &[]))), 2);
    assert_eq!(refused(&with(0x0401, biometrics(2, 4, &[]))), 2);
    assert_eq!(refused(&with(0x0401, vec![0; 4])), 2);
    assert_eq!(refused(&with(0x0401, hex("0001000000"))), 2);
    assert_eq!(refused(&with(0x0401, biometrics(0, 32_769, &[]))), 0);
    assert_eq!(refused(&with(0x0401, biometrics(0, 131_072, &[]))), 0);
    assert_eq!(refused(&with(0x0401, biometrics(0, 131_073, &[]))), 2);
    assert_eq!(refused(&with(0x031A, records(2, &[]))), 2);

    let none = || records(2, &[]);
    assert_eq!(refused(&image(&[(0x0101, none())])), 2);
    assert_eq!(refused(&image(&[(0x0101, none()), (0x0102, none())])), 2);
    assert_eq!(refused(&image(&[(0x0102, none()), (0x011A, none())])), 2);
    assert_eq!(refused(&image(&[(0x0203, none())])), 2);
    assert_eq!(refused(&image(&[(0x021A, none())])), 2);
    assert_eq!(refused(&image(&[(0x0203, none()), (0x021A, none())])), 0);
    assert_eq!(refused(&image(&[(0x021A, none()), (0x0203, none())])), 2);

    let largest = 262_144 - 6;
    assert_eq!(refused(&image(&[(0x031A, records(largest, &[]))])), 0);
    assert_eq!(refused(&image(&[(0x031A, records(largest + 1, &[]))])), 2);
    assert_eq!(refused(&[0xFF; 6]), 2);
}

#[test]
fn refusal_3_and_4_of_opening() {
    for length in [0, 1, 59, 61, 120] {
        let mut session = [FILL; SESSION_LEN + 5];
        assert_eq!(open(&vec![0xFF; length], &mut session), 3 << 32);
        assert_eq!(session[..SESSION_LEN], [0; SESSION_LEN]);
        assert_eq!(session[SESSION_LEN..], [FILL; 5]);
        for short in [0, 24, 25, SESSION_LEN - 1] {
            let mut session = vec![FILL; short];
            assert_eq!(open(&vec![0xFF; length], &mut session), 3 << 32);
            assert_eq!(session, vec![FILL; short]);
        }
    }
    for short in [0, 24, 25, SESSION_LEN - 1] {
        let mut session = vec![FILL; short];
        assert_eq!(open(&[0xFF; 60], &mut session), 4 << 32);
        assert_eq!(session, vec![FILL; short]);
    }
}

#[test]
fn refusal_4_session() {
    let card = full_image();
    let session =
        |rights: [u8; 20], tail: [u8; 5]| [&rights[..], &tail[..], &[0; SESSION_LEN - 25]].concat();
    let check = |tail: [u8; 5]| refused(&card, &session([0; 20], tail), 2_050);
    for length in 0..SESSION_LEN {
        assert_eq!(refused(&card, &vec![0; length], 2_050), 4);
    }
    assert_eq!(check([3, 0, 0, 0, 0]), 0);
    assert_eq!(check([4, 0, 0, 0, 0]), 4);
    assert_eq!(check([0, 3, 0, 0, 0]), 4);
    assert_eq!(check([0, 0, 1, 0, 0]), 4);
    assert_eq!(check([0, 0, 0, 1, 0]), 4);
    assert_eq!(check([0, 0, 0, 0, 1]), 4);
    assert_eq!(check([0, 1, 0, 0, 0]), 4);
    assert_eq!(check([0, 1, 0x01, 0x2F, 0]), 0);
    assert_eq!(check([0, 1, 0x00, 0x2F, 0]), 0);
    assert_eq!(check([0, 1, 0x00, 0x2F, 1]), 4);
    assert_eq!(check([0, 2, 0x00, 0x2F, 1]), 4);
    assert_eq!(check([0, 1, 0x01, 0x01, 0]), 4);
    assert_eq!(check([1, 1, 0x01, 0x01, 0]), 0);
    assert_eq!(check([1, 1, 0x01, 0x2F, 0]), 4);
    assert_eq!(check([1, 2, 0x01, 0x01, 0]), 4);
    assert_eq!(check([1, 2, 0x01, 0x01, 5]), 0);
    assert_eq!(check([1, 2, 0x01, 0x01, 6]), 4);
    assert_eq!(check([2, 1, 0x03, 0x01, 0]), 0);
    assert_eq!(check([2, 1, 0x03, 0x02, 0]), 4);
    assert_eq!(check([3, 1, 0x01, 0x02, 0]), 0);
    assert_eq!(check([3, 1, 0x03, 0x02, 0]), 4);
    assert_eq!(check([3, 1, 0x40, 0x02, 0]), 0);
    assert_eq!(check([3, 2, 0x01, 0x02, 1]), 4);
    for application in 0..4 {
        let empty = refused(&[], &session([0; 20], [application, 0, 0, 0, 0]), 2_050);
        assert_eq!(empty, if application == 0 { 0 } else { 4 });
    }

    // Rights in cleared form, bit by bit: all flags on, then no flag but that bit.
    let masks: [u8; 20] = std::array::from_fn(|i| match i {
        0 => 0x07,
        1 | 2 => 0x0F,
        3 => 0x03,
        _ => 0xFF,
    });
    for i in 0..20 {
        for bit in 0..8 {
            let mut rights = [0; 20];
            rights[i] = 1 << bit;
            let expected = if i == 0 && bit < 3 { 0 } else { 4 };
            assert_eq!(refused(&card, &session(rights, [0; 5]), 2_050), expected);
            rights[0] |= 0x07;
            let expected = if masks[i] >> bit & 1 == 1 { 0 } else { 4 };
            assert_eq!(refused(&card, &session(rights, [0; 5]), 2_050), expected);
        }
    }
}

#[test]
fn opening_joins_and_clears() {
    let opened = |rights: &[u8]| {
        let mut session = [FILL; SESSION_LEN];
        assert_eq!(open(rights, &mut session), 0);
        assert_eq!(session[20..], [0; SESSION_LEN - 20]);
        session[..20].to_vec()
    };
    let mut all = vec![0x07, 0x0F, 0x0F, 0x03];
    all.resize(20, 0xFF);
    assert_eq!(opened(&[0xFF; 60]), all);
    let mut rights = [0xFF; 60];
    rights[0] = 0xF5;
    rights[20 + 1] = 0x0C;
    rights[40 + 19] = 0xAA;
    let mut expected = all.clone();
    expected[..3].copy_from_slice(&[0x05, 0x0C, 0x00]);
    expected[19] = 0xAA;
    assert_eq!(opened(&rights), expected);
    rights[40] = 0x02;
    assert_eq!(opened(&rights), [0; 20]);
}

// ---------------------------------------------------------------- order of status words

#[test]
fn steps_1_to_3() {
    let mut card = Machine::all_rights(full_image());
    for text in [
        "",
        "00",
        "00A404",
        "FFFFFFFF0000",
        "00A4040C0000",
        "00A4040C000000AA",
        "00A4040C02AA",
        "00A4040C01AA0000",
        "00A4040C000001",
        "00A4040C000001AA00",
        "00A4040C000001AA000000",
        "00A4040C00000000",
    ] {
        let shaped = matches!(text, "00A4040C000001");
        card.fails(text, 0x6700);
        // A bad shape is told before a bad class; a good one is not.
        if text.len() >= 8 {
            card.fails(
                &text.replacen("00", "FF", 1),
                if shaped { 0x6E00 } else { 0x6700 },
            );
        }
    }
    let long = |n: usize| {
        let mut bytes = hex("01FF000000");
        bytes.extend((n as u16).to_be_bytes());
        bytes.resize(7 + n, 0);
        bytes
    };
    assert_eq!(card.run(&long(1_024)).1, 0x6E00);
    assert_eq!(card.run(&long(1_025)).1, 0x6700);
    assert_eq!(card.run(&long(65_535)).1, 0x6700);
    card.fails("01A4040C", 0x6E00);
    card.fails("80A4040C", 0x6D00);
    card.fails("005E0000", 0x6D00);
    card.fails("805F0000", 0x6D00);
    card.fails("80440000", 0x6D00);
}

#[test]
fn select_rules() {
    let mut card = Machine::all_rights(full_image());
    card.fails("00A4040C", 0x6700);
    card.fails("00A4040007A0000002472001", 0x6A86);
    card.fails("00A4040C07A000000247200100", 0x6700);
    card.fails("00A4040C07A0000002471001", 0x6A82);
    card.fails("00A4040C06A00000024720", 0x6A82);
    card.fails("00A4040C08A000000247200100", 0x6A82);
    card.fails("00A4020C012F", 0x6700);
    card.fails("00A4000C033F0000", 0x6700);
    card.fails("00A4000C023F01", 0x6A82);
    card.fails("00A4020C023F00", 0x6A82);
    card.fails("00A4020C020101", 0x6A82);
    card.ok("00A4020C022F00");
    assert_eq!(card.place(), (0, 1, 0x2F00, 0));
    card.ok(TRAVEL);
    card.fails("00A4020C022F00", 0x6A82);
    card.expect("00B2010C000000", "01010101", 0x9000);
    card.expect("00B2050D000000", "0505050505050505", 0x9000);
    card.ok("00A4020C020101");
    card.expect(
        "00A200F81A7F7617510101A10B800100B006020100020100A305B10381010400",
        "7F7606510101020104",
        0x9000,
    );
    assert_eq!(card.place(), (1, 2, 0x0101, 4));
    card.expect("00B20004000000", "04040404040404", 0x9000);
    card.expect("00B2000C000000", "04040404040404", 0x9000);
    card.expect("00B2010C000000", "01010101", 0x9000);
    assert_eq!(card.place(), (1, 2, 0x0101, 4));
    card.fails("00B20014000000", 0x6A83);
    card.ok("00A4020C020101");
    assert_eq!(card.place(), (1, 1, 0x0101, 0));
    card.fails("00B20004000000", 0x6A83);
    card.fails("00B2FF04000000", 0x6A83);
    card.ok(TRAVEL);
    assert_eq!(card.place(), (1, 0, 0, 0));
    card.fails("00B20104000000", 0x6986);
    card.ok(VISA);
    card.fails("00B2010C000000", 0x6A82);
    card.ok("00A4000C023F00");
    assert_eq!(card.place(), (0, 0, 0, 0));

    let mut empty = Machine::new(vec![], &[0; 60]);
    empty.fails(TRAVEL, 0x6A82);
}

#[test]
fn master_file_rules() {
    let directory = "61094F07A0000002471001";
    let entry = |n: u8| format!("61094F07A00000024720{n:02X}");
    let mut card = Machine::new(vec![], &[0; 60]);
    card.expect("00B09E0000", directory, 0x9000);
    assert_eq!(card.place(), (0, 1, 0x2F00, 0));
    card.expect("00B0810000", "47038601E0 7F66080202040002020802", 0x9000);
    assert_eq!(card.place(), (0, 1, 0x2F01, 0));
    card.expect("00B0000F00", "02", 0x9000);
    card.fails("00B0001000", 0x6B00);
    card.expect("00B0000102", "0386", 0x9000);
    card.expect("00B00001000002", "0386", 0x9000);
    card.fails("00B0800000", 0x6A82);
    card.fails("00B0880000", 0x6A82);
    card.fails("00B0A10000", 0x6A86);
    card.fails("00B0C10000", 0x6A86);
    card.fails("00B08100", 0x6700);
    card.fails("00D72F01055401005300", 0x6982);
    card.fails("00440000", 0x6982);
    card.fails("0044000000", 0x6700);
    card.fails("00440001", 0x6A86);
    card.fails("00E2000801AA", 0x6981);
    card.fails("00B2010C000000", 0x6981);
    card.expect("805E000100", "7F7803810110", 0x9000);
    card.expect("805E0001000000", "7F7803810110", 0x9000);
    card.expect("805E0101045102 2F00 00", "7F780381010B", 0x9000);
    card.expect("805E010103510108 00", "7F7803810110", 0x9000);
    card.ok("805E000000");
    card.fails("805E000200", 0x6A86);
    card.fails("805E000400", 0x6A86);
    card.fails("805E000800", 0x6A86);
    card.fails("805E020000", 0x6A86);
    card.fails("805E0001", 0x6700);
    card.fails("805E000101", 0x6700);
    card.fails("805E010100", 0x6700);
    card.fails("805E0001035101080000", 0x6700);
    card.fails("805E010103510101 00", 0x6A80);
    card.fails("805E010103510100 00", 0x6A82);

    let mut full = Machine::all_rights(full_image());
    let all = [directory, &entry(1), &entry(2), &entry(3)].concat();
    full.expect("00B09E0000", &all, 0x9000);
}

#[test]
fn biometrics_rules() {
    let mut card = Machine::all_rights(full_image());
    card.ok(BIOMETRICS);
    card.fails("00D70000055401005300", 0x6986);
    card.fails("00D70000055401005301", 0x6A80);
    card.fails("00D7011A055401005300", 0x6981);
    card.fails("00D70203055401005300", 0x6A82);
    card.fails("00D7020105540100530000", 0x6700);
    card.fails("00D70201055301005400", 0x6A80);
    card.fails("00D7020104 54005300", 0x6A80);
    card.fails("00D7020108 5404000000005300", 0x6A80);
    card.fails("00D7020108 5403000000530000", 0x6A80);
    card.fails("00D7020106 540100538100", 0x6A80);
    card.fails("00D7020107 54010053820000", 0x6A80);
    card.fails("00D7020105 540100C000", 0x6A80);
    card.ok("00D70201055401035300");
    assert_eq!(card.place(), (3, 1, 0x0201, 0));
    card.fails("00D70000055401045300", 0x6A80);
    card.fails("00D7000007 5403000004 5300", 0x6A80);
    card.ok("00D7000007 5403000003 5300");
    card.ok("00D7000007540200035301AA");
    card.expect("00B0000000", "010203AA", 0x9000);
    let fill = format!("00D7000015 540104 5310 {}", "BB".repeat(16));
    card.ok(&fill);
    card.fails("00D7000006540114 5301CC", 0x6A84);
    card.ok("00D7000006540100 5301CC");
    card.expect("805E000100", "7F7803810114", 0x9000);
    card.fails("805E000200", 0x6A86);
    card.fails("00E2000001AA", 0x6981);
    card.fails("00D70202055401005300", 0x6982);
    card.ok("00A4020C020240");
    card.fails("00B0000000", 0x6B00);
    card.ok("00440000");
    card.fails("00440000", 0x6982);
    card.expect(
        "805E010703 5101D0 00",
        "7F780A 810203E0 820101 830103",
        0x9000,
    );
    assert_eq!(card.place(), (3, 1, 0x011A, 0));
}

#[test]
fn biometrics_bits() {
    for n in 1..=64_u16 {
        for state in [0, 1] {
            let card_image = image(&[
                (0x031A, records(2, &[])),
                (0x0400 + n, biometrics(state, 4, &[9])),
            ]);
            for position in 0..128_u16 {
                let mut one = [0; 20];
                one[0] = 0x04;
                one[4 + usize::from(position / 8)] = 0x80 >> (position % 8);
                let mut card = Machine::new(card_image.clone(), &one.repeat(3));
                card.ok(BIOMETRICS);
                let may_read = position == 2 * (n - 1) + u16::from(state);
                let may_write = may_read && state == 0;
                let either = |may| if may { 0x9000 } else { 0x6982 };
                let id = 0x0200 + n;
                card.expect(&format!("00A4020C02{id:04X}"), "", either(may_read));
                card.expect(&format!("805E0100045102{id:04X}00"), "", either(may_read));
                card.expect(&format!("00D7{id:04X}055401005300"), "", either(may_write));
            }
        }
    }
}

#[test]
fn record_rights() {
    // Right byte, bit to read, bit to append: by application AID, short id.
    for (aid, short_id, byte, read, append_bit) in [
        (TRAVEL, 0x01, 1, 0, 1),
        (TRAVEL, 0x02, 1, 0, 1),
        (TRAVEL, 0x1A, 1, 2, 3),
        (VISA, 0x03, 2, 0, 1),
        (VISA, 0x1A, 2, 2, 3),
        (BIOMETRICS, 0x1A, 3, 0, 1),
    ] {
        for at in 1..4 {
            for bit in 0..8 {
                let mut one = [0; 20];
                one[0] = 0x07;
                one[at] = 1 << bit;
                let mut card = Machine::new(full_image(), &one.repeat(3));
                card.ok(aid);
                let p2 = short_id << 3;
                let either = |may| if may { 0x9000 } else { 0x6982 };
                let may_read = at == byte && bit == read;
                let may_append = at == byte && bit == append_bit;
                card.expect(&format!("805E0100035101{p2:02X}00"), "", either(may_read));
                assert_eq!(card.run(&append(p2, &[1])).1, either(may_append));
                let (_, status) = card.run(&hex(&format!("00B201{:02X}000000", p2 | 4)));
                assert_eq!(status, either(may_read));
            }
        }
    }
}

#[test]
fn append_and_read_rules() {
    let mut card = Machine::all_rights(full_image());
    card.ok(TRAVEL);
    card.fails("00E2010801AA", 0x6A86);
    card.fails("00E2000901AA", 0x6A86);
    card.fails("00E20008", 0x6700);
    card.fails("00E2000801AA00", 0x6700);
    card.fails("00E2000001AA", 0x6986);
    card.fails("00E2001801AA", 0x6A82);
    card.fails("00B2010F000000", 0x6A86);
    card.fails("00B2010B000000", 0x6A86);
    card.fails("00B2010C000001", 0x6700);
    card.fails("00B2010C00000001AA0000", 0x6700);
    card.ok("00A4020C020102");
    card.ok("00E2000001AA");
    assert_eq!(card.place(), (1, 2, 0x0102, 2));
    // A record longer than the longest, where the right is missing: step 9 is before step 10.
    let mut one = [0; 20];
    one[..2].copy_from_slice(&[0x07, 0x01]);
    let mut reader = Machine::new(full_image(), &one.repeat(3));
    reader.ok(TRAVEL);
    assert_eq!(reader.run(&append(0x08, &[1; 392])).1, 0x6982);

    // The most records.
    let card_image = image(&[(0x031A, records(8_000, &vec![vec![7]; 63]))]);
    let mut card = Machine::all_rights(card_image);
    card.ok(BIOMETRICS);
    card.expect(
        "805E010703 5101D0 00",
        "7F780A 81021EC0 820101 83013F",
        0x9000,
    );
    assert_eq!(card.run(&append(0xD0, &[8; 930])).1, 0x6700);
    assert_eq!(card.run(&append(0xD0, &[8; 929])).1, 0x9000);
    assert_eq!(card.place(), (3, 2, 0x011A, 64));
    assert_eq!(card.run(&append(0xD0, &[8; 930])).1, 0x6700);
    assert_eq!(card.run(&append(0xD0, &[8; 1])).1, 0x6A84);

    // Joined records are cut at 2,048 bytes.
    let card_image = image(&[(0x031A, records(4_000, &vec![vec![7; 900]; 3]))]);
    let mut card = Machine::all_rights(card_image);
    card.ok(BIOMETRICS);
    assert_eq!(card.run(&hex("00B201D5000000")), (vec![7; 2_048], 0x9000));
    assert_eq!(card.run(&hex("00B202D5000000")), (vec![7; 1_800], 0x9000));
    assert_eq!(card.run(&hex("00B202D4000000")), (vec![7; 900], 0x9000));
}

#[test]
fn binary_reads_are_cut() {
    let content: Vec<u8> = (0..5_000_u32).map(|i| i as u8).collect();
    let card_image = image(&[
        (0x031A, records(2, &[])),
        (0x0401, biometrics(0, 131_072, &content)),
    ]);
    let mut card = Machine::all_rights(card_image);
    card.ok(BIOMETRICS);
    card.ok("00A4020C020201");
    assert_eq!(card.run(&hex("00B00000000000")).0, content[..2_048]);
    assert_eq!(card.run(&hex("00B0000000FFFF")).0, content[..2_048]);
    assert_eq!(card.run(&hex("00B000010007FF")).0, content[1..2_048]);
    assert_eq!(card.run(&hex("00B0000000")).0, content[..256]);
    assert_eq!(card.run(&hex("00B01387000000")).0, content[4_999..]);
    card.fails("00B01388000000", 0x6B00);
    card.fails("00B07FFF00", 0x6B00);
}

#[test]
fn search_rules() {
    let mut card = Machine::all_rights(full_image());
    card.ok(TRAVEL);
    let template = |file: &str, how: &str, window: &str, string: &str| {
        let object = |tag: &str, inside: &str| format!("{tag}{:02X}{inside}", inside.len() / 2);
        let a1 = object("A1", &(object("80", how) + &object("B0", window)));
        let a3 = object("A3", &object("B1", &object("81", string)));
        let data = object("7F76", &(object("51", file) + &a1 + &a3));
        format!("00A200F8{:02X}{data}00", data.len() / 2)
    };
    let open = "020100020100";
    let by_id = template("0101", "00", open, "03");
    card.expect(&by_id, "7F7607 51020101 020103", 0x9000);
    assert_eq!(card.place(), (1, 2, 0x0101, 3));
    card.fails(&by_id.replacen("00F8", "01F8", 1), 0x6A86);
    card.fails(&by_id.replacen("00F8", "00F0", 1), 0x6A86);
    card.fails(&by_id[..by_id.len() - 2], 0x6700);
    card.fails(&(by_id[..by_id.len() - 2].to_string() + "01"), 0x6700);
    card.fails(&template("0103", "00", open, "03"), 0x6A82);
    card.fails(&template("0108", "00", open, "03"), 0x6A82);
    card.fails(&template("00", "00", open, "03"), 0x6A82);
    card.fails(&template("03", "00", open, "03"), 0x6A82);
    card.fails(&template("21", "00", open, "03"), 0x6A82);
    card.fails(&template("", "00", open, "03"), 0x6A80);
    card.fails(&template("000101", "00", open, "03"), 0x6A80);
    card.fails(&template("01", "01", open, "03"), 0x6A80);
    card.fails(&template("01", "0000", open, "03"), 0x6A80);
    card.fails(&template("01", "00", "020100", "03"), 0x6A80);
    card.fails(&template("01", "00", "02000200", "03"), 0x6A80);
    card.fails(&template("01", "00", "0203000000020100", "03"), 0x6A80);
    card.fails(&template("01", "00", "0201000203000000", "03"), 0x6A80);
    card.fails(&template("01", "00", "020100020100020100", "03"), 0x6A80);
    card.fails(&template("01", "00", open, ""), 0x6A80);
    // Record n is 3 + n bytes of value n: five records, 4 to 8 bytes long.
    card.expect(
        &template("01", "00", "0202000002020000", "05"),
        "7F7606510101020105",
        0x9000,
    );
    card.expect(
        &template("01", "00", "020107020101", "05"),
        "7F7606510101020105",
        0x9000,
    );
    card.fails(&template("01", "00", "020108020101", "05"), 0x6282);
    card.fails(&template("01", "00", "0202FFFF0202FFFF", "05"), 0x6282);
    card.fails(&template("01", "00", "020107020101", "0505"), 0x6282);
    card.ok("00A4000C023F00");
    card.fails(&template("01", "00", open, "03"), 0x6981);
}

// ---------------------------------------------------------------- file references of one byte

/// Looks for the byte 46 in the file that the byte `__` names, and lists all matches.
const SEARCH: &str = "00A200F81A7F76175101__A10B800100B006020100020100A305B10381014600";

/// The bytes with low bits 000.
const LOW_000: &str = "00 08 10 18 20 28 30 38 40 48 50 58 60 68 70 78 \
                       80 88 90 98 A0 A8 B0 B8 C0 C8 D0 D8 E0 E8 F0 F8";
/// The bytes with low bits 100 or 101.
const LOW_100_101: &str = "04 05 0C 0D 14 15 1C 1D 24 25 2C 2D 34 35 3C 3D \
                           44 45 4C 4D 54 55 5C 5D 64 65 6C 6D 74 75 7C 7D \
                           84 85 8C 8D 94 95 9C 9D A4 A5 AC AD B4 B5 BC BD \
                           C4 C5 CC CD D4 D5 DC DD E4 E5 EC ED F4 F5 FC FD";

/// Every file that a card can have. One record of each record file is 46: record 1 of the first
/// file, up to record 6 of the sixth. All other records are 11.
fn image_of_all_files() -> Vec<u8> {
    let with_match = |number: usize| {
        let mut all = vec![vec![0x11]; 6];
        all[number - 1] = vec![0x46];
        records(40, &all)
    };
    let mut sections = vec![
        (0x0101, with_match(1)),
        (0x0102, with_match(2)),
        (0x011A, with_match(3)),
        (0x0203, with_match(4)),
        (0x021A, with_match(5)),
        (0x031A, with_match(6)),
    ];
    sections.extend((0x0401..=0x0440).map(|kind| (kind, biometrics(0, 4, &[0x46]))));
    image(&sections)
}

/// A new card of all files, after a first command.
fn card_of_all_files(select: &str) -> Machine {
    let mut card = Machine::all_rights(image_of_all_files());
    card.ok(select);
    card
}

/// The text with a byte in place of `__`.
fn with_byte(text: &str, byte: u8) -> String {
    text.replace("__", &format!("{byte:02X}"))
}

/// Runs a command with each of the 256 bytes, each on a new card. A row has bytes and the status
/// that they get; the last row with a byte counts. A byte in no row gets the status `others`.
#[track_caller]
fn expect_by_byte(select: &str, text: &str, others: u16, rows: &[(&str, u16)]) {
    for byte in 0x00..=0xFF {
        let row = rows.iter().rfind(|(bytes, _)| hex(bytes).contains(&byte));
        let expected = row.map_or(others, |(_, status)| *status);
        let (_, status) = card_of_all_files(select).run(&hex(&with_byte(text, byte)));
        assert_eq!(
            format!("{status:04X}"),
            format!("{expected:04X}"),
            "{text} with {byte:02X}"
        );
    }
}

#[test]
fn search_by_every_byte() {
    // The bytes of a file, its id, and the record that matches there.
    let travel = [
        ("01 08", 0x0101, 1),
        ("02 10", 0x0102, 2),
        ("1A D0", 0x011A, 3),
    ];
    let visa = [("03 18", 0x0103, 4), ("1A D0", 0x011A, 5)];
    let biometrics = [("1A D0", 0x011A, 6)];
    for (application, select, files) in [
        (1, TRAVEL, &travel[..]),
        (2, VISA, &visa),
        (3, BIOMETRICS, &biometrics),
    ] {
        for byte in 0x00..=0xFF {
            let mut card = card_of_all_files(select);
            let search = with_byte(SEARCH, byte);
            let file = files.iter().find(|(bytes, ..)| hex(bytes).contains(&byte));
            if let Some((_, id, record)) = file {
                let reply = format!("7F76065101{byte:02X}0201{record:02X}");
                card.expect(&search, &reply, 0x9000);
                assert_eq!(card.place(), (application, 2, *id, *record));
            } else {
                card.fails(&search, 0x6A82);
            }
        }
    }
}

#[test]
fn search_by_every_byte_in_the_master_file() {
    expect_by_byte(MASTER_FILE, SEARCH, 0x6A82, &[("01 08 1E F0", 0x6981)]);
}

#[test]
fn search_by_00_is_not_of_the_current_file() {
    for (select, file) in [
        (MASTER_FILE, "00A4020C022F01"),
        (TRAVEL, "00A4020C020101"),
        (VISA, "00A4020C020103"),
        (BIOMETRICS, "00A4020C02011A"),
    ] {
        let mut card = card_of_all_files(select);
        card.ok(file);
        card.fails(&with_byte(SEARCH, 0x00), 0x6A82);
    }
}

/// Runs one search with the two bytes on two cards that are alike, and gives its status. The cards
/// are alike again then, and the replies differ in the byte repeated alone.
#[track_caller]
fn search_with_either(cards: &mut [Machine; 2], search: &str, bytes: [u8; 2]) -> u16 {
    let [plain, upper] = cards;
    let (data, status) = plain.run(&hex(&with_byte(search, bytes[0])));
    let (upper_data, upper_status) = upper.run(&hex(&with_byte(search, bytes[1])));
    assert_eq!(status, upper_status, "{search} with {bytes:02X?}");
    assert_eq!(plain.session, upper.session);
    assert_eq!(plain.image, upper.image);

    assert_eq!(data.len(), upper_data.len());
    let different: Vec<[u8; 2]> = data
        .into_iter()
        .zip(upper_data)
        .filter(|(here, there)| here != there)
        .map(|(here, there)| [here, there])
        .collect();
    if status == 0x9000 {
        assert_eq!(different, [bytes]);
    } else {
        assert!(different.is_empty());
    }
    status
}

#[test]
fn a_search_with_either_byte_does_the_same() {
    let matches = |count| records(1_000, &vec![hex("5F46"); count]);
    let card_image = image(&[
        (0x0101, matches(84)),
        (0x0102, matches(83)),
        (0x011A, matches(1)),
        (0x0203, matches(84)),
        (0x021A, matches(83)),
        (0x031A, matches(64)),
    ]);
    let only_first = SEARCH.replace("800100", "800130");
    let no_mode = SEARCH.replace("800100", "800101");
    let behind_the_records = SEARCH.replace("020100020100", "020102020100");
    let extended = SEARCH.replace("00F81A", "00F800001A") + "00";
    let mut statuses = std::collections::BTreeSet::new();
    for rights in [vec![0xFF; 60], biometrics_rights(0x00)] {
        for select in [MASTER_FILE, TRAVEL, VISA, BIOMETRICS] {
            let mut cards = [(); 2].map(|()| Machine::new(card_image.clone(), &rights));
            for card in &mut cards {
                card.ok(select);
            }
            for search in [
                SEARCH,
                &only_first,
                &no_mode,
                &behind_the_records,
                &extended,
            ] {
                for bytes in [
                    [0x01, 0x08],
                    [0x02, 0x10],
                    [0x03, 0x18],
                    [0x1A, 0xD0],
                    [0x1E, 0xF0],
                ] {
                    statuses.insert(search_with_either(&mut cards, search, bytes));
                }
            }
            assert!(cards.iter().all(|card| card.image == card_image));
        }
    }
    let all = [0x6282, 0x6700, 0x6981, 0x6982, 0x6A80, 0x6A82, 0x9000];
    assert_eq!(Vec::from_iter(statuses), all);
}

#[test]
fn fmm_by_every_byte() {
    for (select, named) in [
        (MASTER_FILE, "08 F0"),
        (TRAVEL, "08 10 D0"),
        (VISA, "18 D0"),
        (BIOMETRICS, "D0"),
    ] {
        let rows = [(LOW_000, 0x6A82), (named, 0x9000)];
        expect_by_byte(select, "805E0100035101__00", 0x6A80, &rows);
    }
}

#[test]
fn append_by_every_p2() {
    for (select, named, status) in [
        (MASTER_FILE, "08 F0", 0x6981),
        (TRAVEL, "08 10 D0", 0x9000),
        (VISA, "18 D0", 0x9000),
        (BIOMETRICS, "D0", 0x9000),
    ] {
        let rows = [(LOW_000, 0x6A82), ("00", 0x6986), (named, status)];
        expect_by_byte(select, "00E200__0155", 0x6A86, &rows);
    }
}

#[test]
fn read_record_by_every_p2() {
    for (select, named, status) in [
        (MASTER_FILE, "0C 0D F4 F5", 0x6981),
        (TRAVEL, "0C 0D 14 15 D4 D5", 0x9000),
        (VISA, "1C 1D D4 D5", 0x9000),
        (BIOMETRICS, "D4 D5", 0x9000),
    ] {
        let rows = [(LOW_100_101, 0x6A82), ("04 05", 0x6986), (named, status)];
        expect_by_byte(select, "00B201__000000", 0x6A86, &rows);
    }
}

// ---------------------------------------------------------------- smoke test

/// xorshift64
struct Random(u64);

impl Random {
    fn next(&mut self) -> u64 {
        self.0 ^= self.0 << 13;
        self.0 ^= self.0 >> 7;
        self.0 ^= self.0 << 17;
        self.0
    }

    fn below(&mut self, n: usize) -> usize {
        (self.next() >> 16) as usize % n
    }

    fn bytes(&mut self, longest: usize) -> Vec<u8> {
        (0..self.below(longest + 1))
            .map(|_| self.next() as u8)
            .collect()
    }

    fn pick<'a, T>(&mut self, from: &'a [T]) -> &'a T {
        &from[self.below(from.len())]
    }

    /// Changes, drops or adds a few bytes.
    fn change(&mut self, bytes: &mut Vec<u8>) {
        for _ in 0..1 + self.below(3) {
            let at = self.below(bytes.len() + 1);
            let byte = *self.pick(&[0, 1, 2, 0x7F, 0x80, 0x81, 0xFF, self.0 as u8]);
            match self.below(4) {
                0 if at < bytes.len() => drop(bytes.remove(at)),
                1 => bytes.insert(at, byte),
                2 => bytes.truncate(at),
                _ if at < bytes.len() => bytes[at] = byte,
                _ => bytes.push(byte),
            }
        }
    }
}

#[test]
fn smoke() {
    let commands: Vec<Vec<u8>> = [
        TRAVEL,
        TRAVEL,
        VISA,
        BIOMETRICS,
        BIOMETRICS,
        "00A4000C023F00",
        "00A4020C020101",
        "00A4020C020201",
        "00A4020C02011A",
        "00A4020C022F00",
        "00B0000000",
        "00B0810000",
        "00B00001000000",
        "00B09E0305",
        "00B102010354010000",
        "00B10000055403000001 05",
        "00B12F01000004540200030000",
        "00D70201075401005302AABB",
        "00D7000007540200035301AA",
        "00440000",
        "00E20008065F4403555341",
        "00E200D00101",
        "00E2000003020304",
        "00E2001803AABBCC",
        "00B20105000000",
        "00B20004000000",
        "00B2010C000000",
        "00B201D5000000",
        "00A200F81A7F7617510101A10B800100B006020100020100A305B10381010400",
        "00A200F81A7F761751011AA10B800130B006020100020100A305B10381010200",
        "00A200F800001B7F7618 5102011A A10B800100B006020100020100A305B1038101020000",
        "805E000700",
        "805E0107045102010100",
        "805E01070351010800",
        "805E000100",
    ]
    .iter()
    .map(|text| hex(text))
    .collect();
    let images = [vec![], travel_image(40), travel_image(3_000), full_image()];

    let mut random = Random(0x0123_4567_89AB_CDEF);
    let mut image = full_image();
    let mut session = vec![0; SESSION_LEN];
    assert_eq!(open(&[0xFF; 60], &mut session), 0);
    let mut statuses = std::collections::BTreeMap::new();
    let mut refusals = [0_u32; 5];
    for turn in 0..200_000 {
        if turn % 200 == 0 {
            image = random.pick(&images).clone();
            let rights = match random.below(3) {
                0 => random.bytes(80),
                1 => random
                    .bytes(300)
                    .into_iter()
                    .chain([0xA5; 60])
                    .take(60)
                    .collect(),
                _ => vec![0xFF; 60],
            };
            session = vec![FILL; SESSION_LEN + random.below(3)];
            let result = open(&rights, &mut session);
            assert_eq!(result, if rights.len() == 60 { 0 } else { 3 << 32 });
        }
        let mut bytes = match random.below(8) {
            0 => random.bytes(40),
            _ => random.pick(&commands).clone(),
        };
        if random.below(3) == 0 {
            random.change(&mut bytes);
        }
        let (mut image_here, mut session_here) = (image.clone(), session.clone());
        let spoiled = random.below(10) == 0;
        if spoiled {
            match random.below(4) {
                0 => random.change(&mut image_here),
                1 => random.change(&mut session_here),
                2 => image_here = random.bytes(60),
                _ => session_here = random.bytes(SESSION_LEN + 30),
            }
        }
        let response_len = if random.below(100) == 0 {
            random.below(2_050)
        } else {
            RESPONSE_LEN
        };
        let mut response = vec![FILL; response_len];
        let (image_before, session_before) = (image_here.clone(), session_here.clone());
        let result = command(&mut image_here, &mut session_here, &bytes, &mut response);
        let length = (result >> 16) as u16 as usize;
        refusals[refusal(result) as usize] += 1;
        assert!(response[length..].iter().all(|b| *b == FILL));
        if refusal(result) != 0 {
            assert_eq!(result as u32, 0);
            // What earlier commands left behind is never refused.
            assert!(spoiled || response_len < 2_050);
        } else {
            assert_eq!(response[length - 2..length], status(result).to_be_bytes());
            *statuses.entry(status(result)).or_insert(0) += 1;
        }
        if status(result) == 0x9000 {
            assert_eq!(session_here[SESSION_LEN..], session_before[SESSION_LEN..]);
            if !spoiled {
                (image, session) = (image_here, session_here);
            }
        } else {
            // A chain that a changed CLA has begun is dropped by a status, and by no refusal.
            let mut expected = session_before;
            if refusal(result) == 0 {
                expected[25..SESSION_LEN].fill(0);
            }
            assert!(image_here == image_before && session_here == expected);
            if refusal(result) == 0 && !spoiled {
                session = session_here;
            }
        }
    }
    assert!(refusals[0] > 150_000 && refusals[1..3].iter().all(|n| *n > 0) && refusals[4] > 0);
    for expected in [
        0x6282, 0x6700, 0x6981, 0x6982, 0x6986, 0x6A80, 0x6A82, 0x6A83, 0x6A84, 0x6A86, 0x6B00,
        0x6D00, 0x6E00, 0x9000,
    ] {
        assert!(
            statuses.contains_key(&expected),
            "never seen: {expected:04X}"
        );
    }
    println!("refusals {refusals:?}, statuses {statuses:04X?}");
}
