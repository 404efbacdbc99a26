//! Where a file stands in an image, and the certificate that a stamp names: the exact numbers,
//! which of the two bodies is used, and what is refused.

use reference::{certificate, command, file, open, SESSION_LEN};

const LONGEST_IMAGE: usize = 262_144;
const MISSING: u64 = 0;
/// 9 * 2^32.
const REFUSED: u64 = 38_654_705_664;
const EMPTY: [u8; 2] = [0, 0];
/// One certificate of one byte, for a body that is not the one under test.
const ONE: [u8; 5] = [1, 0, 1, 0, 0xC1];

// ---------------------------------------------------------------- helpers

/// Bytes written as hexadecimal digits.
fn hex(text: &str) -> Vec<u8> {
    let digits: Vec<u8> = text
        .chars()
        .filter(|c| !c.is_whitespace())
        .map(|c| c.to_digit(16).expect("hex digit") as u8)
        .collect();
    assert_eq!(digits.len() % 2, 0);
    digits
        .chunks(2)
        .map(|pair| 16 * pair[0] + pair[1])
        .collect()
}

/// A count, then each record behind its length.
fn body(count: u16, records: &[Vec<u8>]) -> Vec<u8> {
    let mut bytes = count.to_le_bytes().to_vec();
    for record in records {
        bytes.extend((record.len() as u16).to_le_bytes());
        bytes.extend(record);
    }
    bytes
}

/// A body of records of one length. Each record's bytes are its number.
fn alike(count: u16, length: usize) -> Vec<u8> {
    let records: Vec<Vec<u8>> = (1..=count).map(|n| vec![n as u8; length]).collect();
    body(count, &records)
}

/// Where record n of [`alike`] begins: behind the count, the records before it and its length.
fn place_alike(n: u64, length: u64) -> u64 {
    2 + (n - 1) * (2 + length) + 2
}

fn with_free(mut body: Vec<u8>, free: u8, length: usize) -> Vec<u8> {
    assert!(body.len() <= length);
    body.resize(length, free);
    body
}

/// 1 * 2^28 + place * 2^10 + length.
fn on_card(place: u64, length: u64) -> u64 {
    268_435_456 + place * 1_024 + length
}

/// 2 * 2^28 + place * 2^10 + length.
fn at_desk(place: u64, length: u64) -> u64 {
    536_870_912 + place * 1_024 + length
}

/// A body is not well formed: refusal 9 for each reference, whatever the other body is.
#[track_caller]
fn refused(damaged: &[u8]) {
    let full = alike(254, 1);
    for other in [&EMPTY[..], &ONE, &full, damaged] {
        for reference in 0x00..=0xFF {
            assert_eq!(certificate(damaged, other, reference), REFUSED, "card");
            assert_eq!(certificate(other, damaged, reference), REFUSED, "desk");
        }
    }
}

/// A body is well formed and has these certificates, each as place and length; all other
/// references are missing. So it is on the card and at the desk.
#[track_caller]
fn holds(body: &[u8], certificates: &[(u64, u64)]) {
    for reference in 0x00..=0xFF_u8 {
        let known = usize::from(reference)
            .checked_sub(1)
            .and_then(|i| certificates.get(i));
        let (card, desk) = match known {
            Some((place, length)) => (on_card(*place, *length), at_desk(*place, *length)),
            None => (MISSING, MISSING),
        };
        assert_eq!(
            certificate(body, &EMPTY, reference),
            card,
            "{reference:02X}"
        );
        assert_eq!(
            certificate(&EMPTY, body, reference),
            desk,
            "{reference:02X}"
        );
    }
}

/// The two answers for each reference byte: for the certificates 1 to `card` on the card, else
/// 1 to `desk` at the desk, else missing. The records have `card_len` and `desk_len` bytes.
#[track_caller]
fn every_reference((card, card_len): (u16, u64), (desk, desk_len): (u16, u64)) {
    let card_body = alike(card, card_len as usize);
    let desk_body = alike(desk, desk_len as usize);
    for reference in 0x00..=0xFF_u8 {
        let n = u64::from(reference);
        let expected = if (1..=u64::from(card)).contains(&n) {
            on_card(place_alike(n, card_len), card_len)
        } else if (1..=u64::from(desk)).contains(&n) {
            at_desk(place_alike(n, desk_len), desk_len)
        } else {
            MISSING
        };
        let result = certificate(&card_body, &desk_body, reference);
        assert_eq!(result, expected, "{card} {desk} {reference:02X}");
    }
}

fn section(kind: u16, body: &[u8]) -> Vec<u8> {
    let mut bytes = (body.len() as u32).to_le_bytes().to_vec();
    bytes.extend(kind.to_le_bytes());
    bytes.extend(body);
    bytes
}

fn image(sections: &[(u16, Vec<u8>)]) -> Vec<u8> {
    sections
        .iter()
        .flat_map(|(kind, body)| section(*kind, body))
        .collect()
}

/// An image with travel and these certificates; the other two bodies have no records.
fn travel_image(certificates: &[u8]) -> Vec<u8> {
    image(&[
        (0x0101, EMPTY.to_vec()),
        (0x0102, EMPTY.to_vec()),
        (0x011A, certificates.to_vec()),
    ])
}

fn biometrics(state: u8, room: usize, written: u32) -> Vec<u8> {
    let mut body = vec![state];
    body.extend(written.to_le_bytes());
    body.resize(5 + room, 0x77);
    body
}

/// place * 2^32 + length.
fn stands(place: u64, length: u64) -> u64 {
    place * 4_294_967_296 + length
}

/// No kind that a card can have, and none beside them, is in these bytes.
#[track_caller]
fn no_file(image: &[u8]) {
    for kind in (0x0000..=0x0500).chain([0x2F00, 0x2F01, 0x3F00, 0x8101, 0xFFFF]) {
        assert_eq!(file(image, kind), 0, "{kind:04X}");
    }
}

// ---------------------------------------------------------------- exact numbers

#[test]
fn exact_numbers_of_small_bodies() {
    let one = hex("0100 0100 AA");
    assert_eq!(certificate(&one, &EMPTY, 0x01), 0x0000_0000_1000_1001);
    assert_eq!(certificate(&EMPTY, &one, 0x01), 0x0000_0000_2000_1001);
    // Record 2 begins at 2 + (2 + 3) + 2 = 9, which is 2400 when it is shifted by ten bits.
    let two = hex("0200 0300 A1A2A3 0200 B1B2");
    assert_eq!(certificate(&two, &EMPTY, 0x01), 0x0000_0000_1000_1003);
    assert_eq!(certificate(&two, &EMPTY, 0x02), 0x0000_0000_1000_2402);
    assert_eq!(certificate(&two, &EMPTY, 0x03), 0);
    assert_eq!(certificate(&one, &two, 0x01), 0x0000_0000_1000_1001);
    assert_eq!(certificate(&one, &two, 0x02), 0x0000_0000_2000_2402);
    assert_eq!(certificate(&one, &two, 0x03), 0);
    assert_eq!(certificate(&[], &two, 0x01), 0x0000_0009_0000_0000);
    assert_eq!(certificate(&two, &[], 0x01), 0x0000_0009_0000_0000);
    assert_eq!(certificate(&[], &[], 0x00), 0x0000_0009_0000_0000);
}

/// Place, length and which are as large as they get, and none runs into its neighbour.
#[test]
fn exact_numbers_of_the_largest_body() {
    let full = alike(254, 929);
    assert_eq!(full.len(), 236_476);
    // Record 254 begins at 2 + 253 * 931 + 2 = 235,547, which is 3981B.
    assert_eq!(certificate(&full, &EMPTY, 0xFE), 0x1E60_6FA1);
    assert_eq!(certificate(&full, &EMPTY, 0xFE), 509_636_513);
    assert_eq!(certificate(&EMPTY, &full, 0xFE), 0x2E60_6FA1);
    for (result, which) in [
        (certificate(&full, &EMPTY, 0xFE), 1),
        (certificate(&EMPTY, &full, 0xFE), 2),
    ] {
        assert_eq!(result >> 32, 0);
        assert_eq!(result >> 28 & 0xF, which);
        assert_eq!(result >> 10 & 0x3_FFFF, 235_547);
        assert_eq!(result & 0x3FF, 929);
        let (place, length) = (235_547, 929);
        let (_, behind) = full.split_at(place);
        assert_eq!(behind, vec![0xFE; length]);
    }
}

#[test]
fn places_behind_records_of_many_lengths() {
    let lengths = [1, 929, 255, 256, 2, 511, 512, 928];
    let records: Vec<Vec<u8>> = lengths.iter().map(|n| vec![0xFF; *n]).collect();
    // Each is behind the one before it and two bytes of length.
    let expected = [
        (4, 1),
        (7, 929),
        (938, 255),
        (1_195, 256),
        (1_453, 2),
        (1_457, 511),
        (1_970, 512),
        (2_484, 928),
    ];
    holds(&body(8, &records), &expected);
}

// ---------------------------------------------------------------- bodies

#[test]
fn bodies_without_a_count() {
    refused(&[]);
    for byte in 0x00..=0xFF {
        refused(&[byte]);
    }
}

#[test]
fn bodies_without_records() {
    holds(&hex("0000"), &[]);
    // What is behind is free: not even a good record there counts.
    holds(&hex("0000 00"), &[]);
    holds(&hex("0000 0000 AA"), &[]);
    holds(&hex("0000 0100 AA"), &[]);
    holds(&hex("0000 FFFFFFFF"), &[]);
    holds(&with_free(hex("0000"), 0xFF, 300_000), &[]);
}

#[test]
fn a_body_of_one_record() {
    holds(&hex("0100 0100 00"), &[(4, 1)]);
    holds(&hex("0100 0100 FF"), &[(4, 1)]);
    holds(&hex("0100 0300 AABBCC"), &[(4, 3)]);
    // Free bytes behind the record, whatever they are.
    holds(&hex("0100 0300 AABBCC 00"), &[(4, 3)]);
    holds(&hex("0100 0300 AABBCC 0000"), &[(4, 3)]);
    holds(&hex("0100 0300 AABBCC 0100 DD"), &[(4, 3)]);
    holds(&hex("0100 0300 AABBCC FFFF"), &[(4, 3)]);
}

#[test]
fn records_that_leave_the_body() {
    let whole = hex("0200 0300 A1A2A3 0200 B1B2");
    holds(&whole, &[(4, 3), (9, 2)]);
    for length in 0..whole.len() {
        refused(&whole[..length]);
    }
    // By one byte, by some, by many; in a body of one record and in one of two.
    refused(&hex("0100 0200 AA"));
    refused(&hex("0100 0500 AABBCC"));
    refused(&hex("0100 A103 AABBCC"));
    refused(&hex("0200 0600 A1A2A3 0200 B1B2"));
    // The first record takes the length of the second, or half of it.
    refused(&hex("0200 0700 A1A2A3 0200 B1B2"));
    refused(&hex("0200 0600 A1A2A3 0100 B1"));
    // A count above the records that are there.
    refused(&hex("0300 0300 A1A2A3 0200 B1B2"));
    refused(&hex("0200 0100 AA"));
}

#[test]
fn records_of_no_bytes() {
    refused(&hex("0100 0000"));
    refused(&hex("0100 0000 AA"));
    refused(&hex("0200 0000 0100 AA"));
    refused(&hex("0200 0100 AA 0000"));
    refused(&hex("0200 0100 AA 0000 0100 BB"));
    // Zero lengths behind the last record are free bytes.
    holds(&hex("0100 0100 AA 0000"), &[(4, 1)]);
}

/// The length 929 is A1 03, and 930 is A2 03.
#[test]
fn records_of_929_and_930_bytes() {
    holds(&with_free(hex("0100 A003"), 0xEE, 932), &[(4, 928)]);
    holds(&with_free(hex("0100 A103"), 0xEE, 933), &[(4, 929)]);
    holds(&with_free(hex("0100 A103"), 0xEE, 2_000), &[(4, 929)]);
    refused(&with_free(hex("0100 A103"), 0xEE, 932));
    refused(&with_free(hex("0100 A203"), 0xEE, 934));
    refused(&with_free(hex("0100 A203"), 0xEE, 2_000));
    refused(&with_free(hex("0100 0004"), 0xEE, 2_000));
    refused(&with_free(hex("0100 FFFF"), 0xEE, 70_000));
    let two = |second: usize| body(2, &[vec![1; 929], vec![2; second]]);
    holds(&two(929), &[(4, 929), (935, 929)]);
    refused(&two(930));
}

/// With the high byte first in the count, the length or both, the refused bodies would be good.
#[test]
fn numbers_have_their_low_byte_first() {
    refused(&hex("0001 0100 AA"));
    refused(&hex("0001 0001 AA"));
    refused(&hex("0100 0001 AA"));
    holds(&with_free(hex("0100 0001"), 0xEE, 260), &[(4, 256)]);
}

#[test]
fn counts_of_254_and_255() {
    let places: Vec<(u64, u64)> = (1..=254).map(|n| (place_alike(n, 1), 1)).collect();
    assert_eq!(places[253], (763, 1));
    holds(&alike(254, 1), &places);
    // The count decides, not what stands behind the records.
    let records = vec![vec![7]; 65_535];
    holds(&body(254, &records[..255]), &places);
    holds(&body(253, &records[..255]), &places[..253]);
    refused(&body(255, &records[..255]));
    refused(&body(256, &records[..256]));
    refused(&body(257, &records[..257]));
    refused(&body(0x8001, &records[..0x8001]));
    refused(&body(0xFFFF, &records));
    refused(&body(254, &records[..253]));
    refused(&body(255, &records[..3]));
}

/// The rule is that of kind 011A: 031A has at most 64 records, and others have shorter ones.
#[test]
fn no_other_kind_sets_the_limits() {
    let places: Vec<(u64, u64)> = (1..=65).map(|n| (place_alike(n, 513), 513)).collect();
    holds(&alike(65, 513), &places);
}

/// All of a body is tested, not only the records up to the one that is asked for.
#[test]
fn damage_behind_the_record_that_is_asked_for() {
    let mut full = alike(254, 5);
    let last = full.len() - 7;
    assert_eq!(full[last..], [5, 0, 254, 254, 254, 254, 254]);
    full[last] = 0;
    refused(&full);
    full[last] = 6;
    refused(&full);
    full[last] = 4;
    let mut places: Vec<(u64, u64)> = (1..=254).map(|n| (place_alike(n, 5), 5)).collect();
    places[253].1 = 4;
    holds(&full, &places);
}

/// A body longer than any image has its records where a shorter one has them.
#[test]
fn bodies_longer_than_any_image() {
    let places: Vec<(u64, u64)> = (1..=254).map(|n| (place_alike(n, 929), 929)).collect();
    assert_eq!(places[253], (235_547, 929));
    for (free, length) in [
        (0x00, LONGEST_IMAGE + 1),
        (0x00, 300_000),
        (0xFF, 300_000),
        (0x01, 5_000_000),
    ] {
        holds(&with_free(alike(254, 929), free, length), &places);
        refused(&with_free(vec![255, 0], 1, length));
    }
    // Both of them, and one with a damaged last record.
    let long = with_free(alike(254, 929), 0xFF, 300_000);
    assert_eq!(certificate(&long, &long, 0xFE), on_card(235_547, 929));
    let mut damaged = long.clone();
    damaged[235_545..235_547].copy_from_slice(&930_u16.to_le_bytes());
    assert_eq!(certificate(&long, &damaged, 0xFE), REFUSED);
    assert_eq!(certificate(&damaged, &long, 0x01), REFUSED);
}

// ---------------------------------------------------------------- card or desk

#[test]
fn every_reference_on_full_and_empty_bodies() {
    every_reference((0, 1), (0, 1));
    every_reference((254, 929), (0, 1));
    every_reference((0, 1), (254, 929));
    every_reference((254, 929), (254, 5));
    every_reference((254, 5), (254, 929));
    every_reference((254, 3), (254, 3));
}

#[test]
fn every_reference_on_bodies_that_are_not_full() {
    every_reference((100, 7), (200, 929));
    every_reference((200, 7), (100, 929));
    every_reference((1, 929), (254, 1));
    every_reference((253, 2), (254, 3));
    every_reference((254, 2), (253, 3));
    every_reference((1, 1), (1, 2));
    every_reference((0, 1), (1, 1));
}

/// One number too far is the desk's where the desk has it, and missing where it has not.
#[test]
fn the_number_behind_the_last() {
    let (three, four) = (alike(3, 2), alike(4, 6));
    assert_eq!(certificate(&three, &four, 3), on_card(12, 2));
    assert_eq!(certificate(&three, &four, 4), at_desk(28, 6));
    assert_eq!(certificate(&three, &four, 5), MISSING);
    assert_eq!(certificate(&four, &three, 4), on_card(28, 6));
    assert_eq!(certificate(&four, &three, 5), MISSING);
    assert_eq!(certificate(&three, &three, 4), MISSING);
}

/// 255 records can stand in a body, but no count says so.
#[test]
fn reference_ff_is_missing_though_a_record_stands_there() {
    let more = body(254, &vec![vec![7; 3]; 255]);
    assert_eq!(certificate(&more, &more, 0xFE), on_card(1_269, 3));
    assert_eq!(certificate(&more, &more, 0xFF), MISSING);
    assert_eq!(certificate(&more, &more, 0x00), MISSING);
}

/// A certificate on the card does not hide a damaged copy, nor a copy a damaged card.
#[test]
fn damage_in_the_body_that_is_not_needed() {
    let full = alike(254, 9);
    let damaged = hex("0200 0100 AA 0000");
    for reference in 0x00..=0xFF {
        assert_eq!(certificate(&full, &damaged, reference), REFUSED);
        assert_eq!(certificate(&damaged, &full, reference), REFUSED);
        assert_eq!(certificate(&EMPTY, &damaged, reference), REFUSED);
        assert_eq!(certificate(&damaged, &EMPTY, reference), REFUSED);
        assert_eq!(certificate(&damaged, &damaged, reference), REFUSED);
        // A desk without a copy gives a body of no records; no bytes at all are no body.
        assert_eq!(certificate(&full, &[], reference), REFUSED);
        assert_eq!(certificate(&[], &full, reference), REFUSED);
    }
}

// ---------------------------------------------------------------- files

/// The card to try: three sections of 40 bytes, each behind a head of six.
#[test]
fn exact_numbers_of_files() {
    let body = with_free(EMPTY.to_vec(), 0xAA, 40);
    let card = image(&[
        (0x0101, body.clone()),
        (0x0102, body.clone()),
        (0x011A, body),
    ]);
    assert_eq!(file(&card, 0x0101), 0x0000_0006_0000_0028);
    assert_eq!(file(&card, 0x0102), 0x0000_0034_0000_0028);
    assert_eq!(file(&card, 0x011A), 0x0000_0062_0000_0028);
    assert_eq!(file(&card, 0x0101), 25_769_803_816);
    for kind in [
        0x0000, 0x0100, 0x0103, 0x0203, 0x021A, 0x031A, 0x0401, 0xFFFF,
    ] {
        assert_eq!(file(&card, kind), 0, "{kind:04X}");
    }
}

/// Every kind there is, each body of another length, and every number that is no kind.
#[test]
fn every_kind() {
    let records = |length| with_free(EMPTY.to_vec(), 0xAA, length);
    let mut sections = vec![
        (0x0101, records(2)),
        (0x0102, records(3)),
        (0x011A, records(4)),
        (0x0203, records(5)),
        (0x021A, records(6)),
        (0x031A, records(7)),
    ];
    sections.extend((1..=64).map(|n| (0x0400 + n, biometrics(0, usize::from(n), 0))));
    let card = image(&sections);
    for kind in 0x0000..=0xFFFF_u16 {
        let expected = match kind {
            0x0101 => stands(6, 2),
            0x0102 => stands(14, 3),
            0x011A => stands(23, 4),
            0x0203 => stands(33, 5),
            0x021A => stands(44, 6),
            0x031A => stands(56, 7),
            // A section is 6 + 5 + n bytes, so n - 1 of them are 11 (n - 1) + n (n - 1) / 2.
            0x0401..=0x0440 => {
                let n = u64::from(kind - 0x0400);
                stands(69 + 11 * (n - 1) + n * (n - 1) / 2, 5 + n)
            }
            _ => 0,
        };
        assert_eq!(file(&card, kind), expected, "{kind:04X}");
    }
    // 69 + 63 * 11 + 64 * 63 / 2, and the last body ends where the image does.
    assert_eq!(file(&card, 0x0440), stands(2_778, 69));
    assert_eq!(card.len(), 2_847);
}

/// The length is that of the whole body, whatever it holds.
#[test]
fn what_a_body_holds_does_not_count() {
    let card = image(&[
        (0x0203, with_free(alike(2, 512), 0xAA, 1_030)),
        (0x021A, with_free(alike(254, 1), 0xAA, 900)),
        (0x031A, alike(64, 929)),
        (0x0402, biometrics(1, 131_072, 131_072)),
        (0x0407, biometrics(0, 16, 3)),
        (0x0440, biometrics(1, 0, 0)),
    ]);
    assert_eq!(file(&card, 0x0203), stands(6, 1_030));
    assert_eq!(file(&card, 0x021A), stands(1_042, 900));
    assert_eq!(file(&card, 0x031A), stands(1_948, 59_586));
    assert_eq!(file(&card, 0x0402), stands(61_540, 131_077));
    assert_eq!(file(&card, 0x0407), stands(192_623, 21));
    assert_eq!(file(&card, 0x0440), stands(192_650, 5));
    assert_eq!(card.len(), 192_655);
    for kind in [
        0x0101, 0x0102, 0x011A, 0x0401, 0x0403, 0x0406, 0x043F, 0x0441,
    ] {
        assert_eq!(file(&card, kind), 0, "{kind:04X}");
    }
}

/// The number is a kind, not a file id: 0103 and 0201 to 0240 are ids alone, and the files of the
/// master file have no kind.
#[test]
fn file_ids_are_not_kinds() {
    let visa = image(&[(0x0203, EMPTY.to_vec()), (0x021A, EMPTY.to_vec())]);
    for kind in [0x0103, 0x011A, 0x0003, 0x001A, 0x2F00, 0x2F01, 0x3F00] {
        assert_eq!(file(&visa, kind), 0, "{kind:04X}");
    }
    let fingers = image(&[(0x031A, EMPTY.to_vec()), (0x0401, biometrics(0, 4, 0))]);
    assert_eq!(file(&fingers, 0x0401), stands(14, 9));
    for kind in (0x0201..=0x0240).chain([0x011A]) {
        assert_eq!(file(&fingers, kind), 0, "{kind:04X}");
    }
}

#[test]
fn the_empty_image() {
    for kind in 0x0000..=0xFFFF {
        assert_eq!(file(&[], kind), 0, "{kind:04X}");
    }
}

#[test]
fn the_longest_image() {
    let visa = |length| {
        let certificates = with_free(EMPTY.to_vec(), 0xAA, length);
        image(&[(0x0203, EMPTY.to_vec()), (0x021A, certificates)])
    };
    // The heads and the first body are 6 + 2 + 6 bytes.
    let longest = visa(262_130);
    assert_eq!(longest.len(), LONGEST_IMAGE);
    assert_eq!(file(&longest, 0x0203), stands(6, 2));
    assert_eq!(file(&longest, 0x021A), stands(14, 262_130));
    no_file(&visa(262_131));
    no_file(&visa(300_000));
    // A last section that could not stand further back.
    let mut sections = vec![(0x031A, with_free(EMPTY.to_vec(), 0xAA, 262_127))];
    sections.push((0x0440, biometrics(0, 0, 0)));
    let card = image(&sections);
    assert_eq!(card.len(), LONGEST_IMAGE);
    assert_eq!(file(&card, 0x031A), stands(6, 262_127));
    assert_eq!(file(&card, 0x0440), stands(262_139, 5));
}

#[test]
fn images_that_are_cut_or_have_more() {
    let card = travel_image(&ONE);
    assert_eq!(file(&card, 0x011A), stands(22, 5));
    for length in 0..card.len() {
        no_file(&card[..length]);
    }
    for more in 1..=6 {
        no_file(&[&card[..], &vec![0; more]].concat());
    }
    no_file(&[0]);
    no_file(&[0xFF; 6]);
    no_file(&hex("FFFFFFFF 1A03 0000"));
    no_file(&hex("00000080 1A03 0000"));
}

#[test]
fn images_with_wrong_kinds() {
    let none = || EMPTY.to_vec();
    let no_image = |kinds: &[u16]| {
        let sections: Vec<(u16, Vec<u8>)> = kinds
            .iter()
            .map(|kind| match kind {
                0x0400.. => (*kind, biometrics(0, 0, 0)),
                _ => (*kind, none()),
            })
            .collect();
        no_file(&image(&sections));
    };
    // Part of an application.
    no_image(&[0x0101]);
    no_image(&[0x011A]);
    no_image(&[0x0101, 0x0102]);
    no_image(&[0x0101, 0x011A]);
    no_image(&[0x0102, 0x011A]);
    no_image(&[0x0203]);
    no_image(&[0x021A]);
    no_image(&[0x0101, 0x0102, 0x011A, 0x021A]);
    no_image(&[0x0401]);
    no_image(&[0x0101, 0x0102, 0x011A, 0x0401]);
    // Not in their order, or twice.
    no_image(&[0x0102, 0x0101, 0x011A]);
    no_image(&[0x021A, 0x0203]);
    no_image(&[0x031A, 0x031A]);
    no_image(&[0x031A, 0x0402, 0x0401]);
    no_image(&[0x031A, 0x0401, 0x0401]);
    // No kind of any file.
    for kind in [
        0x0000, 0x0100, 0x0103, 0x0201, 0x031B, 0x0400, 0x0441, 0xFFFF,
    ] {
        no_image(&[kind]);
        no_image(&[0x031A, kind]);
    }
    // The kind's low byte comes first.
    no_file(&hex("02000000 031A 0000"));
    assert_eq!(file(&hex("02000000 1A03 0000"), 0x031A), stands(6, 2));
}

/// A file that is good stands nowhere where another file of the image is damaged.
#[test]
fn images_with_damaged_bodies() {
    let with = |certificates: Vec<u8>, biometrics: Vec<u8>| {
        image(&[(0x031A, certificates), (0x0405, biometrics)])
    };
    let good = with(alike(64, 1), biometrics(1, 4, 4));
    assert_eq!(file(&good, 0x031A), stands(6, 194));
    assert_eq!(file(&good, 0x0405), stands(206, 9));
    no_file(&with(alike(65, 1), biometrics(1, 4, 4)));
    no_file(&with(alike(1, 930), biometrics(1, 4, 4)));
    no_file(&with(hex("0100 0000"), biometrics(1, 4, 4)));
    no_file(&with(hex("0100 0200 AA"), biometrics(1, 4, 4)));
    no_file(&with(hex("00"), biometrics(1, 4, 4)));
    no_file(&with(vec![], biometrics(1, 4, 4)));
    no_file(&with(alike(64, 1), biometrics(2, 4, 4)));
    no_file(&with(alike(64, 1), biometrics(1, 4, 5)));
    no_file(&with(alike(64, 1), biometrics(1, 4, 0x8000_0000)));
    no_file(&with(alike(64, 1), biometrics(1, 131_073, 4)));
    no_file(&with(alike(64, 1), vec![0; 4]));
    no_file(&with(alike(64, 1), vec![]));
    // The longest records of the kinds.
    for (kinds, at, longest) in [
        (&[0x0101, 0x0102, 0x011A][..], 0, 391),
        (&[0x0101, 0x0102, 0x011A], 1, 391),
        (&[0x0101, 0x0102, 0x011A], 2, 929),
        (&[0x0203, 0x021A], 0, 512),
        (&[0x0203, 0x021A], 1, 929),
    ] {
        let card = |count: u16, length: usize| {
            let mut sections: Vec<(u16, Vec<u8>)> =
                kinds.iter().map(|kind| (*kind, EMPTY.to_vec())).collect();
            sections[at].1 = alike(count, length);
            image(&sections)
        };
        // The bodies before it are of two bytes, so each section before it is of eight.
        let place = 6 + 8 * at as u64;
        assert_eq!(
            file(&card(1, longest), kinds[at]),
            stands(place, 4 + longest as u64)
        );
        assert_eq!(file(&card(254, 1), kinds[at]), stands(place, 764));
        no_file(&card(1, longest + 1));
        no_file(&card(255, 1));
    }
}

// ---------------------------------------------------------------- with commands

/// The bytes of a body in an image, as the number of `file` says.
fn body_at(image: &[u8], place_and_length: u64) -> &[u8] {
    let place = (place_and_length >> 32) as usize;
    &image[place..place + place_and_length as u32 as usize]
}

/// The bytes of a certificate, as the number of `certificate` says.
fn bytes_at<'a>(card: &'a [u8], desk: &'a [u8], result: u64) -> &'a [u8] {
    let body = match result >> 28 {
        0 => return &[],
        1 => card,
        2 => desk,
        other => panic!("refused or of no body: {other}"),
    };
    let (place, length) = ((result >> 10 & 0x3_FFFF) as usize, result as usize & 0x3FF);
    &body[place..place + length]
}

/// A session with all rights in travel, and the image it works on.
struct Machine {
    image: Vec<u8>,
    session: [u8; SESSION_LEN],
}

impl Machine {
    fn new(image: Vec<u8>) -> Self {
        let mut session = [0; SESSION_LEN];
        assert_eq!(open(&[0xFF; 60], &mut session), 0);
        let mut machine = Self { image, session };
        let (_, status) = machine.run(&hex("00A4040C07A0000002472001"));
        assert_eq!(status, 0x9000);
        machine
    }

    /// Data and status.
    fn run(&mut self, bytes: &[u8]) -> (Vec<u8>, u16) {
        let mut response = [0; 2_050];
        let result = command(&mut self.image, &mut self.session, bytes, &mut response);
        assert_eq!(result >> 32, 0);
        let data = usize::from((result >> 16) as u16) - 2;
        (response[..data].to_vec(), result as u16)
    }

    /// The certificate of a reference byte, and which of the two bodies has it.
    fn certificate(&self, desk: &[u8], reference: u8) -> (Vec<u8>, u64) {
        let card = body_at(&self.image, file(&self.image, 0x011A));
        let result = certificate(card, desk, reference);
        (bytes_at(card, desk, result).to_vec(), result >> 28)
    }
}

/// A reference finds on the card what READ RECORD of that number answers. 00 is no number.
#[test]
fn the_certificate_is_what_read_record_answers() {
    let records: Vec<Vec<u8>> = (1..=70_u8).map(|n| vec![n; usize::from(n) * 13]).collect();
    let body = with_free(body(70, &records), 0xAA, 40_000);
    let mut card = Machine::new(travel_image(&body));
    for reference in 0x00..=0xFF {
        let answered = card.run(&[0x00, 0xB2, reference, 0xD4, 0x00, 0x00, 0x00]);
        let expected = match reference {
            1..=70 => (vec![reference; usize::from(reference) * 13], 0x9000),
            _ => (vec![], 0x6A83),
        };
        assert_eq!(answered, expected, "{reference:02X}");
        let which = u64::from(answered.1 == 0x9000);
        assert_eq!(card.certificate(&EMPTY, reference), (answered.0, which));
    }
}

/// An append takes a number over from the desk. What was found on the card is found again.
#[test]
fn certificates_stay_over_appends() {
    let desk = body(3, &[b"one".to_vec(), b"two".to_vec(), b"three".to_vec()]);
    let room = with_free(EMPTY.to_vec(), 0xAA, 17);
    let mut card = Machine::new(travel_image(&room));
    assert_eq!(card.certificate(&desk, 1), (b"one".to_vec(), 2));
    assert_eq!(card.certificate(&desk, 4), (vec![], 0));

    assert_eq!(card.run(b"\x00\xE2\x00\xD0\x05first").1, 0x9000);
    assert_eq!(card.certificate(&desk, 1), (b"first".to_vec(), 1));
    assert_eq!(card.certificate(&desk, 2), (b"two".to_vec(), 2));

    assert_eq!(card.run(b"\x00\xE2\x00\xD0\x06second").1, 0x9000);
    assert_eq!(card.run(b"\x00\xE2\x00\xD0\x01x").1, 0x6A84);
    assert_eq!(card.certificate(&desk, 1), (b"first".to_vec(), 1));
    assert_eq!(card.certificate(&desk, 2), (b"second".to_vec(), 1));
    assert_eq!(card.certificate(&desk, 3), (b"three".to_vec(), 2));
    assert_eq!(card.certificate(&desk, 4), (vec![], 0));
}

// ---------------------------------------------------------------- random bodies

/// A small generator (splitmix64).
struct Random(u64);

impl Random {
    fn below(&mut self, n: usize) -> usize {
        self.0 = self.0.wrapping_add(0x9E37_79B9_7F4A_7C15);
        let mut z = self.0;
        z = (z ^ (z >> 30)).wrapping_mul(0xBF58_476D_1CE4_E5B9);
        z = (z ^ (z >> 27)).wrapping_mul(0x94D0_49BB_1331_11EB);
        ((z ^ (z >> 31)) % n as u64) as usize
    }

    /// A body of a few records, now and then with a byte changed or its end cut off.
    fn body(&mut self) -> Vec<u8> {
        let count = self.below(6);
        let records: Vec<Vec<u8>> = (0..count)
            .map(|_| vec![self.below(4) as u8; 1 + self.below(4)])
            .collect();
        let mut bytes = body(count as u16, &records);
        let free = self.below(4);
        bytes.extend(vec![self.below(4) as u8; free]);
        let at = self.below(bytes.len());
        match self.below(4) {
            0 => bytes[at] = self.below(7) as u8,
            1 => bytes.truncate(at),
            _ => {}
        }
        bytes
    }
}

/// The places and lengths of the records, by the words of the rule; none where they are broken.
fn plain_records(body: &[u8]) -> Option<Vec<(u64, u64)>> {
    let number = |at: usize| {
        let (low, high) = (*body.get(at)?, *body.get(at + 1)?);
        Some(usize::from(low) + 256 * usize::from(high))
    };
    let count = number(0)?;
    let mut records = Vec::new();
    let mut at = 2;
    while records.len() < count {
        let length = number(at)?;
        if !(1..=929).contains(&length) || at + 2 + length > body.len() {
            return None;
        }
        records.push((at as u64 + 2, length as u64));
        at += 2 + length;
    }
    (count <= 254).then_some(records)
}

#[test]
fn random_bodies_agree_with_the_plain_rule() {
    let mut random = Random(13);
    let mut seen = [0_u32; 4];
    for _ in 0..20_000 {
        let (card, desk) = (random.body(), random.body());
        let reference = random.below(8) as u8;
        let nth = |records: &[(u64, u64)]| {
            let i = usize::from(reference).checked_sub(1)?;
            records.get(i).copied()
        };
        let (expected, kind) = match (plain_records(&card), plain_records(&desk)) {
            (Some(on_card_all), Some(at_desk_all)) => {
                if let Some((place, length)) = nth(&on_card_all) {
                    (on_card(place, length), 1)
                } else if let Some((place, length)) = nth(&at_desk_all) {
                    (at_desk(place, length), 2)
                } else {
                    (MISSING, 0)
                }
            }
            _ => (REFUSED, 3),
        };
        seen[kind] += 1;
        let result = certificate(&card, &desk, reference);
        assert_eq!(result, expected, "{card:02X?} {desk:02X?} {reference:02X}");
    }
    assert!(seen.iter().all(|n| *n > 1_000), "{seen:?}");
}

/// Whatever the bytes are, there is an answer, and it is in the image.
#[test]
fn random_images_get_an_answer() {
    let mut random = Random(31);
    let (mut there, mut absent) = (0, 0);
    for _ in 0..20_000 {
        let mut card = travel_image(&random.body());
        if random.below(3) == 0 {
            let at = random.below(card.len());
            card[at] ^= 1 << random.below(8);
        }
        if random.below(8) == 0 {
            card.truncate(random.below(card.len() + 1));
        }
        let result = file(&card, 0x011A);
        if result == 0 {
            absent += 1;
        } else {
            there += 1;
            let body = body_at(&card, result);
            assert!(plain_records(body).is_some(), "{card:02X?}");
            assert_eq!(result >> 32, (card.len() - body.len()) as u64);
        }
    }
    assert!(
        there > 1_000 && absent > 1_000,
        "{there} there, {absent} absent"
    );
}
