//! The index of a record body: the places that building and extending give, what reading by a
//! place answers, what is refused, and the index beside appends and READ RECORD.

use reference::{command, file, index_build, index_extend, index_read, open, SESSION_LEN};

/// 6 * 2^32.
const REFUSED: u64 = 25_769_803_776;
const EMPTY: [u8; 2] = [0, 0];
/// What an entry of a list is before a call. It is a place that no body here has.
const FILL: u32 = 0xEEEE_EEEE;
/// Lengths of lists, from none to more entries than any count has.
const LISTS: [usize; 7] = [0, 1, 2, 3, 64, 254, 300];

/// A line of the table of record files, and how commands name the file.
#[derive(Clone, Copy)]
struct Rule {
    kind: u16,
    longest: usize,
    most: u16,
    /// The last byte of the application's AID.
    application: u8,
    /// P2 of APPEND RECORD.
    p2: u8,
}

const fn rule(kind: u16, longest: usize, most: u16, application: u8, p2: u8) -> Rule {
    Rule {
        kind,
        longest,
        most,
        application,
        p2,
    }
}

const RULES: [Rule; 6] = [
    rule(0x0101, 391, 254, 0x01, 0x08),
    rule(0x0102, 391, 254, 0x01, 0x10),
    rule(0x011A, 929, 254, 0x01, 0xD0),
    rule(0x0203, 512, 254, 0x02, 0x18),
    rule(0x021A, 929, 254, 0x02, 0xD0),
    rule(0x031A, 929, 64, 0x03, 0xD0),
];

// ---------------------------------------------------------------- helpers

/// Bytes written as hexadecimal digits.
fn hex(text: &str) -> Vec<u8> {
    let digits: Vec<u8> = text
        .chars()
        .filter(|c| !c.is_whitespace())
        .map(|c| c.to_digit(16).expect("hex digit") as u8)
        .collect();
    assert_eq!(digits.len() % 2, 0);
    digits
        .chunks(2)
        .map(|pair| 16 * pair[0] + pair[1])
        .collect()
}

/// A count, then each record behind its length.
fn body(count: u16, records: &[Vec<u8>]) -> Vec<u8> {
    let mut bytes = count.to_le_bytes().to_vec();
    for record in records {
        bytes.extend((record.len() as u16).to_le_bytes());
        bytes.extend(record);
    }
    bytes
}

/// A body of records of one length. Each record's bytes are its number.
fn alike(count: u16, length: usize) -> Vec<u8> {
    let records: Vec<Vec<u8>> = (1..=count).map(|n| vec![n as u8; length]).collect();
    body(count, &records)
}

/// Where the lengths of the records of [`alike`] stand: behind the count and the records before.
fn places_alike(count: u16, length: u32) -> Vec<u32> {
    (0..u32::from(count))
        .map(|before| 2 + before * (2 + length))
        .collect()
}

fn with_free(mut body: Vec<u8>, free: u8, length: usize) -> Vec<u8> {
    assert!(body.len() <= length);
    body.resize(length, free);
    body
}

fn is_untouched(list: &[u32]) -> bool {
    list.iter().all(|entry| *entry == FILL)
}

/// Building refuses with each list, and leaves it as it came.
#[track_caller]
fn build_refused(kind: u16, body: &[u8]) {
    for length in LISTS {
        let mut list = vec![FILL; length];
        let result = index_build(kind, body, &mut list);
        assert_eq!(result, REFUSED, "{kind:04X}, list of {length}");
        assert!(is_untouched(&list), "{kind:04X}, list of {length}");
    }
}

/// Extending refuses this n with each list, and leaves it as it came.
#[track_caller]
fn extend_refused(kind: u16, body: &[u8], n: usize) {
    for length in LISTS {
        let mut list = vec![FILL; length];
        let result = index_extend(kind, body, &mut list, n);
        assert_eq!(result, REFUSED, "{kind:04X}, {n}, list of {length}");
        assert!(is_untouched(&list), "{kind:04X}, {n}, list of {length}");
    }
}

/// A kind or a body is wrong: nothing is built, and nothing is extended whatever n is.
#[track_caller]
fn refused(kind: u16, body: &[u8]) {
    build_refused(kind, body);
    for n in [0, 1, 2, 3, 63, 64, 65, 252, 253, 254, 255, 256, 65_534] {
        extend_refused(kind, body, n);
    }
    // The count's own number, if there is one, and the one below.
    if let Some(count) = body.first_chunk().map(|count| u16::from_le_bytes(*count)) {
        extend_refused(kind, body, usize::from(count));
        extend_refused(kind, body, usize::from(count).wrapping_sub(1));
    }
    extend_refused(kind, body, usize::MAX);
}

/// A body is well formed and has its records at these places: so building says, and extending by
/// the last. A list too short is refused by both.
#[track_caller]
fn holds(kind: u16, body: &[u8], places: &[u32]) {
    let count = places.len();
    for length in LISTS.into_iter().chain([count, count + 1, count + 7]) {
        let mut list = vec![FILL; length];
        let result = index_build(kind, body, &mut list);
        if length < count {
            assert_eq!(result, REFUSED, "{kind:04X}, list of {length}");
            assert!(is_untouched(&list), "{kind:04X}, list of {length}");
        } else {
            assert_eq!(result, count as u64, "{kind:04X}, list of {length}");
            assert_eq!(list[..count], *places, "{kind:04X}, list of {length}");
            assert!(is_untouched(&list[count..]), "{kind:04X}, list of {length}");
        }
    }
    if let Some((last, before)) = places.split_last() {
        extends(kind, body, before.len(), *last);
    }
    for n in (0..count + 4).filter(|n| n + 1 != count) {
        extend_refused(kind, body, n);
    }
}

/// Extending by n puts this place at n and nothing else anywhere.
#[track_caller]
fn extends(kind: u16, body: &[u8], n: usize, place: u32) {
    for length in LISTS.into_iter().chain([n, n + 1, n + 2]) {
        let mut list = vec![FILL; length];
        let result = index_extend(kind, body, &mut list, n);
        if length < n + 1 {
            assert_eq!(result, REFUSED, "{kind:04X}, {n}, list of {length}");
        } else {
            assert_eq!(result, n as u64 + 1, "{kind:04X}, {n}, list of {length}");
            assert_eq!(list[n], place, "{kind:04X}, {n}, list of {length}");
            list[n] = FILL;
        }
        assert!(is_untouched(&list), "{kind:04X}, {n}, list of {length}");
    }
}

/// The record that reading says is there, by the list's own place; none where it refuses.
#[track_caller]
fn record<'a>(body: &'a [u8], places: &[u32], number: usize) -> Option<&'a [u8]> {
    let result = index_read(body, places, number);
    if result == REFUSED {
        return None;
    }
    assert!(result <= 0xFFFF, "{result:016X}");
    let start = places[number - 1] as usize + 2;
    Some(&body[start..start + result as usize])
}

/// The same, through a list that has this place alone.
#[track_caller]
fn at(body: &[u8], place: u32) -> Option<&[u8]> {
    record(body, &[place], 1)
}

/// The index of a body, in a list that is no longer.
#[track_caller]
fn index(kind: u16, body: &[u8]) -> Vec<u32> {
    let mut list = vec![FILL; 254];
    let filled = index_build(kind, body, &mut list);
    assert!(filled <= 254, "{filled:016X}");
    list.truncate(filled as usize);
    list
}

// ---------------------------------------------------------------- exact numbers

#[test]
fn exact_numbers_of_a_small_body() {
    // The lengths stand at 2 and at 2 + (2 + 3) = 7.
    let two = hex("0200 0300 A1A2A3 0200 B1B2");
    let mut list = [FILL; 4];
    assert_eq!(index_build(0x0101, &two, &mut list), 2);
    assert_eq!(list, [2, 7, FILL, FILL]);
    assert_eq!(index_read(&two, &list, 1), 3);
    assert_eq!(index_read(&two, &list, 2), 2);
    assert_eq!(index_read(&two, &list, 3), 0x0000_0006_0000_0000);
    assert_eq!(index_read(&two, &list, 0), 0x0000_0006_0000_0000);
    assert_eq!(record(&two, &list, 1), Some(&[0xA1, 0xA2, 0xA3][..]));
    assert_eq!(record(&two, &list, 2), Some(&[0xB1, 0xB2][..]));

    let mut list = [FILL; 4];
    assert_eq!(index_extend(0x0101, &two, &mut list, 1), 2);
    assert_eq!(list, [FILL, 7, FILL, FILL]);
    let mut list = [FILL; 4];
    assert_eq!(
        index_extend(0x0101, &two, &mut list, 0),
        0x0000_0006_0000_0000
    );
    assert_eq!(
        index_extend(0x0101, &two, &mut list, 2),
        0x0000_0006_0000_0000
    );
    assert_eq!(
        index_build(0x0101, &two, &mut list[..1]),
        0x0000_0006_0000_0000
    );
    assert_eq!(list, [FILL; 4]);
}

/// Entry 250 of 254 records of 391 bytes is at 2 + 249 * 393 = 97,859.
#[test]
fn exact_numbers_of_a_full_body() {
    let full = alike(254, 391);
    let places = index(0x0101, &full);
    assert_eq!(places[249], 97_859);
    assert_eq!(index_read(&full, &places, 250), 391);
    assert_eq!(full[97_859..97_862], [0x87, 0x01, 250]);
    assert_eq!(record(&full, &places, 250), Some(&[250; 391][..]));
}

/// The last place of the largest body is 2 + 253 * 931 = 235,545, which two bytes do not hold.
#[test]
fn exact_numbers_of_the_largest_body() {
    for kind in [0x011A, 0x021A] {
        let full = alike(254, 929);
        assert_eq!(full.len(), 236_476);
        holds(kind, &full, &places_alike(254, 929));
        let places = index(kind, &full);
        assert_eq!(places[70], 65_172);
        assert_eq!(places[71], 66_103);
        assert_eq!(places[253], 235_545);
        assert_eq!(record(&full, &places, 254), Some(&[254; 929][..]));
    }
}

#[test]
fn places_behind_records_of_many_lengths() {
    let lengths = [1, 929, 255, 256, 2, 511, 512, 928];
    let records: Vec<Vec<u8>> = lengths.iter().map(|n| vec![0xFF; *n]).collect();
    let bytes = body(8, &records);
    // Each is behind the one before it and two bytes of length.
    let expected = [2, 5, 936, 1_193, 1_451, 1_455, 1_968, 2_482];
    for kind in [0x011A, 0x021A, 0x031A] {
        holds(kind, &bytes, &expected);
    }
    for (number, length) in (1..).zip(lengths) {
        assert_eq!(index_read(&bytes, &expected, number), length as u64);
    }
}

// ---------------------------------------------------------------- building

#[test]
fn building_from_an_empty_body() {
    for rule in RULES {
        assert_eq!(index_build(rule.kind, &EMPTY, &mut []), 0);
        holds(rule.kind, &EMPTY, &[]);
        // What is behind is free: not even a good record there counts.
        for bytes in ["0000 00", "0000 0000 AA", "0000 0100 AA", "0000 FFFFFFFF"] {
            assert_eq!(index_build(rule.kind, &hex(bytes), &mut []), 0);
            holds(rule.kind, &hex(bytes), &[]);
        }
        holds(rule.kind, &with_free(EMPTY.to_vec(), 0xFF, 300_000), &[]);
    }
}

#[test]
fn building_from_one_record() {
    for rule in RULES {
        holds(rule.kind, &hex("0100 0100 00"), &[2]);
        holds(rule.kind, &hex("0100 0300 AABBCC"), &[2]);
        holds(rule.kind, &hex("0100 0300 AABBCC 00"), &[2]);
        holds(rule.kind, &hex("0100 0300 AABBCC 0100 DD"), &[2]);
        holds(rule.kind, &hex("0100 0300 AABBCC FFFF"), &[2]);
    }
}

/// A list too short by one is refused; so is each shorter one. One of just the count is filled,
/// and in a longer one the entries behind the count stay.
#[test]
fn building_into_lists_of_every_length() {
    for rule in RULES {
        let count = usize::from(rule.most);
        let full = alike(rule.most, 3);
        let places = places_alike(rule.most, 3);
        for length in 0..=count + 3 {
            let mut list = vec![FILL; length];
            let result = index_build(rule.kind, &full, &mut list);
            if length < count {
                assert_eq!(result, REFUSED, "{:04X} {length}", rule.kind);
                assert!(is_untouched(&list), "{:04X} {length}", rule.kind);
            } else {
                assert_eq!(result, count as u64, "{:04X} {length}", rule.kind);
                assert_eq!(list[..count], places, "{:04X} {length}", rule.kind);
                assert!(is_untouched(&list[count..]), "{:04X} {length}", rule.kind);
            }
        }
    }
    let mut list = [7];
    assert_eq!(index_build(0x0101, &alike(2, 1), &mut list), REFUSED);
    assert_eq!(list, [7]);
    assert_eq!(index_build(0x0101, &alike(1, 1), &mut []), REFUSED);
}

/// Building does not look at what the list held, and building again gives the same.
#[test]
fn building_over_other_entries() {
    let bytes = alike(5, 4);
    for fill in [0, 2, FILL, u32::MAX] {
        let mut list = [fill; 7];
        for _ in 0..2 {
            assert_eq!(index_build(0x0203, &bytes, &mut list), 5);
            assert_eq!(list, [2, 8, 14, 20, 26, fill, fill]);
        }
    }
}

/// The list of a longer body, after one of fewer records: the entries behind stay.
#[test]
fn building_from_a_shorter_body() {
    let mut list = [FILL; 6];
    assert_eq!(index_build(0x0102, &alike(5, 4), &mut list), 5);
    assert_eq!(index_build(0x0102, &alike(2, 9), &mut list), 2);
    assert_eq!(list, [2, 13, 14, 20, 26, FILL]);
    assert_eq!(index_build(0x0102, &EMPTY, &mut list), 0);
    assert_eq!(list, [2, 13, 14, 20, 26, FILL]);
}

// ---------------------------------------------------------------- kinds

/// Of all numbers only six are kinds of record files.
#[test]
fn every_kind() {
    for kind in 0x0000..=0xFFFF_u16 {
        let known = RULES.iter().any(|rule| rule.kind == kind);
        for (bytes, places) in [(&EMPTY[..], &[][..]), (&hex("0100 0100 AA"), &[2])] {
            let mut list = [FILL; 3];
            let result = index_build(kind, bytes, &mut list);
            let filled = if known { places.len() } else { 0 };
            let expected = if known { filled as u64 } else { REFUSED };
            assert_eq!(result, expected, "{kind:04X}");
            assert_eq!(list[..filled], places[..filled], "{kind:04X}");
            assert!(is_untouched(&list[filled..]), "{kind:04X}");
        }
        let mut list = [FILL; 3];
        let result = index_extend(kind, &hex("0100 0100 AA"), &mut list, 0);
        let expected = if known { (1, 2) } else { (REFUSED, FILL) };
        assert_eq!((result, list[0]), expected, "{kind:04X}");
        assert!(is_untouched(&list[1..]), "{kind:04X}");
    }
}

#[test]
fn unknown_kinds() {
    for kind in [
        0x0000, 0x0001, 0x0100, 0x0103, 0x0119, 0x011B, 0x0201, 0x0202, 0x0204, 0x031B, 0x041A,
        0x0441, 0x1A01, 0x2F00, 0x2F01, 0x3F00, 0x8101, 0xFFFF,
    ] {
        refused(kind, &EMPTY);
        refused(kind, &alike(3, 5));
    }
}

/// A biometrics file has no records, though its body may look like one of records.
#[test]
fn biometrics_kinds() {
    for kind in 0x0401..=0x0440 {
        // Deactivated, w 0; as records: none.
        refused(kind, &hex("00 00000000"));
        // Activated, w 256, room of 256; as records: one of one byte.
        refused(kind, &with_free(hex("01 00010000 AA"), 0xAA, 261));
        refused(kind, &EMPTY);
        refused(kind, &alike(2, 5));
    }
}

/// Each kind has its own longest record and its own most records.
#[test]
fn every_kind_has_its_limits() {
    for rule in RULES {
        let Rule { kind, longest, .. } = rule;
        holds(kind, &alike(1, longest), &[2]);
        holds(kind, &alike(2, longest), &places_alike(2, longest as u32));
        holds(kind, &alike(rule.most, 1), &places_alike(rule.most, 1));
        let full = alike(rule.most, longest);
        holds(kind, &full, &places_alike(rule.most, longest as u32));
        refused(kind, &alike(1, longest + 1));
        refused(kind, &alike(rule.most + 1, 1));
    }
}

// ---------------------------------------------------------------- bodies

#[test]
fn bodies_too_short_for_a_count() {
    for rule in RULES {
        refused(rule.kind, &[]);
        for byte in [0x00, 0x01, 0xFF] {
            refused(rule.kind, &[byte]);
        }
    }
}

#[test]
fn torn_bodies() {
    for rule in RULES {
        let whole = hex("0300 0300 A1A2A3 0200 B1B2 0100 C1");
        holds(rule.kind, &whole, &[2, 7, 11]);
        for length in 0..whole.len() {
            refused(rule.kind, &whole[..length]);
        }
        // A record leaves the body by one byte, by some, by many.
        refused(rule.kind, &hex("0100 0200 AA"));
        refused(rule.kind, &hex("0100 0500 AABBCC"));
        refused(rule.kind, &hex("0100 8701 AABBCC"));
        // The first record takes the length of the second, or half of it.
        refused(rule.kind, &hex("0200 0700 A1A2A3 0200 B1B2"));
        refused(rule.kind, &hex("0200 0600 A1A2A3 0100 B1"));
        // A count above the records that are there.
        refused(rule.kind, &hex("0400 0300 A1A2A3 0200 B1B2 0100 C1"));
        refused(rule.kind, &hex("0200 0100 AA"));
        refused(rule.kind, &hex("0100"));
    }
}

#[test]
fn counts_above_the_most() {
    for rule in RULES {
        let most = rule.most;
        let records = vec![vec![7]; 0xFFFF];
        let whole = usize::from(most);
        holds(
            rule.kind,
            &body(most, &records[..whole]),
            &places_alike(most, 1),
        );
        // The count decides, not what stands behind the records.
        holds(
            rule.kind,
            &body(most, &records[..300]),
            &places_alike(most, 1),
        );
        holds(
            rule.kind,
            &body(most - 1, &records[..300]),
            &places_alike(most - 1, 1),
        );
        for count in [most + 1, most + 2, 255, 256, 257, 0x8001, 0xFFFF] {
            refused(rule.kind, &body(count, &records));
        }
    }
}

#[test]
fn records_of_no_bytes() {
    for rule in RULES {
        refused(rule.kind, &hex("0100 0000"));
        refused(rule.kind, &hex("0100 0000 AA"));
        refused(rule.kind, &hex("0200 0000 0100 AA"));
        refused(rule.kind, &hex("0200 0100 AA 0000"));
        refused(rule.kind, &hex("0300 0100 AA 0000 0100 BB"));
        // Zero lengths behind the last record are free bytes.
        holds(rule.kind, &hex("0100 0100 AA 0000"), &[2]);
    }
}

#[test]
fn records_above_the_longest() {
    for rule in RULES {
        let Rule { kind, longest, .. } = rule;
        let of = |lengths: &[usize]| {
            let records: Vec<Vec<u8>> = lengths.iter().map(|n| vec![0xEE; *n]).collect();
            body(lengths.len() as u16, &records)
        };
        let second = 2 + 2 + longest as u32;
        holds(kind, &of(&[longest, longest]), &[2, second]);
        refused(kind, &of(&[longest + 1]));
        refused(kind, &of(&[longest + 1, 1]));
        refused(kind, &of(&[1, longest + 1]));
        refused(kind, &of(&[1, longest + 1, 1]));
        refused(kind, &with_free(of(&[longest + 1]), 0xEE, 2_000));
        refused(kind, &of(&[1_024]));
        refused(kind, &of(&[0x8001]));
        refused(kind, &of(&[0xFFFF]));
    }
}

/// With the high byte first in the count, the length or both, the refused bodies would be good.
#[test]
fn numbers_have_their_low_byte_first() {
    refused(0x0101, &hex("0001 0100 AA"));
    refused(0x0101, &hex("0001 0001 AA"));
    refused(0x0101, &hex("0100 0001 AA"));
    let two = body(2, &[vec![1; 256], vec![2]]);
    assert_eq!(two[..4], [2, 0, 0, 1]);
    holds(0x0101, &two, &[2, 260]);
}

/// The body is tested to its last record before anything is written.
#[test]
fn damage_in_the_last_record() {
    for rule in RULES {
        let mut full = alike(rule.most, 5);
        let last = full.len() - 7;
        for damage in [0, 6, 0xFF] {
            full[last] = damage;
            refused(rule.kind, &full);
        }
        full[last] = 4;
        holds(rule.kind, &full, &places_alike(rule.most, 5));
    }
}

/// A body longer than any image has its records where a shorter one has them.
#[test]
fn bodies_longer_than_any_image() {
    for rule in RULES {
        let longest = rule.longest;
        let places = places_alike(rule.most, longest as u32);
        for (free, length) in [(0x00, 262_145), (0xFF, 300_000), (0x01, 1_000_000)] {
            let long = with_free(alike(rule.most, longest), free, length);
            holds(rule.kind, &long, &places);
            let number = usize::from(rule.most);
            let last = record(&long, &places, number).expect("record");
            assert_eq!(last, vec![rule.most as u8; longest]);
        }
    }
}

// ---------------------------------------------------------------- extending

/// Only the n one below the count is taken, and no number that merely has its low bits.
#[test]
fn n_is_one_below_the_count() {
    for rule in RULES {
        for count in [0, 1, 2, 3, 63, 64, 253, 254] {
            if count > rule.most {
                continue;
            }
            let bytes = alike(count, 3);
            holds(rule.kind, &bytes, &places_alike(count, 3));
            let count = usize::from(count);
            for n in (0..=300).filter(|n| n + 1 != count) {
                extend_refused(rule.kind, &bytes, n);
            }
            for more in [1 << 8, 1 << 16, 1_usize.checked_shl(32).unwrap_or(1 << 8)] {
                let n = more + count - 1;
                extend_refused(rule.kind, &bytes, n);
                // A list that has an entry n all the same.
                let mut list = vec![FILL; 66_000];
                assert_eq!(index_extend(rule.kind, &bytes, &mut list, n), REFUSED);
                assert!(is_untouched(&list));
            }
        }
    }
}

/// One more than the largest number would be 0, the count of an empty body.
#[test]
fn the_largest_n() {
    for rule in RULES {
        for count in [0, 1, 2, rule.most] {
            let bytes = alike(count, 3);
            for n in [
                usize::MAX,
                usize::MAX - 1,
                usize::MAX - 2,
                usize::MAX / 2,
                u32::MAX as usize,
            ] {
                extend_refused(rule.kind, &bytes, n);
            }
        }
    }
}

/// The list has n entries and so no room for one more.
#[test]
fn extending_a_list_too_short() {
    for rule in RULES {
        for count in [1, 2, 5, rule.most] {
            let bytes = alike(count, 2);
            let n = usize::from(count) - 1;
            for length in 0..=n {
                let mut list = vec![FILL; length];
                let result = index_extend(rule.kind, &bytes, &mut list, n);
                assert_eq!(result, REFUSED, "{n} {length}");
                assert!(is_untouched(&list), "{n} {length}");
            }
            let mut list = vec![FILL; n + 1];
            assert_eq!(
                index_extend(rule.kind, &bytes, &mut list, n),
                u64::from(count)
            );
            assert_eq!(list[n], 2 + 4 * n as u32);
            assert!(is_untouched(&list[..n]));
        }
    }
}

/// The entries before are neither read nor mended: the place is the body's, whatever they are.
#[test]
fn extending_behind_other_entries() {
    let bytes = alike(4, 6);
    for before in [
        [0, 0, 0],
        [2, 10, 18],
        [18, 10, 2],
        [FILL, 1, u32::MAX],
        [u32::MAX; 3],
    ] {
        for behind in [0, 26, u32::MAX] {
            let [a, b, c] = before;
            let mut list = [a, b, c, behind, behind];
            assert_eq!(index_extend(0x0101, &bytes, &mut list, 3), 4);
            assert_eq!(list, [a, b, c, 26, behind]);
        }
    }
}

/// An index that already has the new place is not one below the count.
#[test]
fn extending_twice() {
    let bytes = alike(3, 6);
    let mut list = [2, 10, FILL, FILL];
    assert_eq!(index_extend(0x0101, &bytes, &mut list, 2), 3);
    assert_eq!(index_extend(0x0101, &bytes, &mut list, 3), REFUSED);
    assert_eq!(list, [2, 10, 18, FILL]);
    assert_eq!(index_extend(0x0101, &bytes, &mut list, 2), 3);
    assert_eq!(list, [2, 10, 18, FILL]);
}

/// Two records more than places: the call takes one at a time.
#[test]
fn extending_after_two_appends() {
    let mut list = [FILL; 4];
    assert_eq!(index_build(0x0101, &alike(1, 6), &mut list), 1);
    assert_eq!(index_extend(0x0101, &alike(3, 6), &mut list, 1), REFUSED);
    assert_eq!(list, [2, FILL, FILL, FILL]);
}

// ---------------------------------------------------------------- reading

#[test]
fn reading_every_record() {
    for rule in RULES {
        for length in [1, 2, 255, 256, rule.longest] {
            let bytes = with_free(alike(rule.most, length), 0xAA, 262_144);
            let places = index(rule.kind, &bytes);
            assert_eq!(places.len(), usize::from(rule.most));
            for number in 1..=usize::from(rule.most) {
                let expected = vec![number as u8; length];
                assert_eq!(record(&bytes, &places, number), Some(&expected[..]));
            }
        }
    }
}

/// 0, and all numbers above the list's length; this one decides, not the body's count.
#[test]
fn numbers_not_in_the_list() {
    let bytes = alike(5, 3);
    let places = [2, 7, 12, 17, 22];
    for held in 0..=5 {
        let list = &places[..held];
        for number in 0..=300 {
            let expected = if (1..=held).contains(&number) {
                3
            } else {
                REFUSED
            };
            assert_eq!(index_read(&bytes, list, number), expected, "{number}");
        }
        for number in [
            256 + held,
            65_536 + held,
            u32::MAX as usize,
            usize::MAX / 2 + 1,
            usize::MAX - 1,
            usize::MAX,
        ] {
            assert_eq!(index_read(&bytes, list, number), REFUSED, "{number}");
        }
        #[cfg(target_pointer_width = "64")]
        assert_eq!(index_read(&bytes, list, (1 << 32) + 1), REFUSED);
    }
    // A list longer than the count is read as far as it goes.
    assert_eq!(index_read(&bytes, &[2; 300], 300), 3);
    assert_eq!(index_read(&EMPTY, &[0; 300], 300), 0);
}

/// The length field leaves the body by one byte, by both, or is all behind it.
#[test]
fn a_length_that_leaves_the_body() {
    // All zeros, so that a field cut off would say 0 if it were read.
    for length in 0..40 {
        let bytes = vec![0; length];
        for place in 0..60 {
            let inside = place as usize + 2 <= length;
            let expected = if inside { 0 } else { REFUSED };
            assert_eq!(index_read(&bytes, &[place], 1), expected);
        }
    }
    let bytes = alike(5, 3);
    let end = bytes.len() as u32;
    assert_eq!(end, 27);
    assert_eq!(index_read(&bytes, &[end - 1], 1), REFUSED);
    assert_eq!(index_read(&bytes, &[end], 1), REFUSED);
    assert_eq!(index_read(&bytes, &[end + 1], 1), REFUSED);
    assert_eq!(index_read(&[], &[0], 1), REFUSED);
    assert_eq!(index_read(&[0], &[0], 1), REFUSED);
    assert_eq!(index_read(&[0, 0], &[0], 1), 0);
    assert_eq!(index_read(&[0, 0], &[1], 1), REFUSED);
}

/// The bytes leave the body by one, by some, by all.
#[test]
fn bytes_that_leave_the_body() {
    let bytes = hex("0100 0300 AABBCC");
    assert_eq!(at(&bytes, 2), Some(&[0xAA, 0xBB, 0xCC][..]));
    for length in 0..bytes.len() {
        assert_eq!(index_read(&bytes[..length], &[2], 1), REFUSED, "{length}");
    }
    for (length, inside) in [(2, true), (3, true), (4, false), (5, false), (255, false)] {
        let mut other = bytes.clone();
        other[2] = length;
        let expected = if inside { u64::from(length) } else { REFUSED };
        assert_eq!(index_read(&other, &[2], 1), expected, "{length}");
    }
    for (body_len, expected) in [(65_536, REFUSED), (65_537, 65_535), (65_538, 65_535)] {
        let bytes = with_free(vec![0xFF, 0xFF], 0, body_len);
        assert_eq!(index_read(&bytes, &[0], 1), expected, "{body_len}");
    }
}

#[test]
fn places_near_the_largest_number() {
    for bytes in [
        vec![],
        vec![0],
        EMPTY.to_vec(),
        alike(5, 3),
        vec![0; 300_000],
        vec![0xFF; 300_000],
    ] {
        for below in 0..=600 {
            let place = u32::MAX - below;
            assert_eq!(index_read(&bytes, &[place], 1), REFUSED, "{place}");
        }
        for place in [
            0x7FFF_FFFE,
            0x7FFF_FFFF,
            0x8000_0000,
            0x8000_0002,
            0xFFFF_0000,
            // In their low 16 or 24 bits these would be in the longest bodies.
            0x0100_0000,
            0x0100_0002,
            0x0005_0000,
        ] {
            assert_eq!(index_read(&bytes, &[place], 1), REFUSED, "{place}");
        }
    }
}

/// What the length at the place says is the answer: in the count, in the middle of a record, in
/// the free bytes.
#[test]
fn reading_by_a_foreign_list() {
    // Record 1 holds what looks like a record of two bytes; behind record 2 stand free bytes.
    let bytes = hex("0200 0500 0200 A3A4A5 0300 B1B2B3 0400 F1F2F3F4");
    let mut list = vec![0, 1, 2, 3, 4, 5, 9, 14, 15, 16, 17, 18, 19];
    list.push(u32::MAX);
    let expected = [
        // The count is a length of 2, and record 1's length is the bytes of it.
        Some(hex("0500")),
        // 00 and 05 are 0500.
        None,
        Some(hex("0200 A3A4A5")),
        // 00 and 02 are 0200.
        None,
        Some(hex("A3A4")),
        // 00 and A3.
        None,
        Some(hex("B1B2B3")),
        Some(hex("F1F2F3F4")),
        // 00 and F1, then F1 and F2 and so on: too long.
        None,
        None,
        None,
        None,
        // The last byte is half of a length.
        None,
        None,
    ];
    assert_eq!(list.len(), expected.len());
    for (number, expected) in (1..).zip(&expected) {
        let answer = record(&bytes, &list, number);
        assert_eq!(answer, expected.as_deref(), "{number}");
    }
}

/// A length of 0 is a record of no bytes, and no refusal; it may end where the body does.
#[test]
fn reading_a_length_of_0() {
    let bytes = hex("0100 0300 000000 0000");
    for place in [4, 5, 7] {
        assert_eq!(index_read(&bytes, &[place], 1), 0, "{place}");
        assert_eq!(at(&bytes, place), Some(&[][..]), "{place}");
    }
    assert_eq!(index_read(&bytes, &[8], 1), REFUSED);
    // A body that building refuses.
    let empty_record = hex("0200 0000 0100 AA");
    refused(0x0101, &empty_record);
    assert_eq!(index_read(&empty_record, &[2, 4], 1), 0);
    assert_eq!(index_read(&empty_record, &[2, 4], 2), 1);
}

/// No kind is given, so no kind's longest record counts; the length has all 16 bits.
#[test]
fn reading_a_length_above_the_longest() {
    for length in [392, 513, 930, 1_025, 2_049, 0x7FFF, 0x8000, 0xFFFF_usize] {
        let bytes = body(1, &[vec![0xAB; length]]);
        refused(0x0101, &bytes);
        assert_eq!(index_read(&bytes, &[2], 1), length as u64);
        assert_eq!(at(&bytes, 2), Some(&vec![0xAB; length][..]));
        assert_eq!(
            index_read(&bytes[..bytes.len() - 1], &[2], 1),
            REFUSED,
            "{length}"
        );
    }
}

/// The count is not read: a body of too many records, of none, or torn elsewhere will do.
#[test]
fn reading_from_a_body_that_is_not_well_formed() {
    for count in ["0000", "0100", "0300", "FF00", "FFFF"] {
        let bytes = [hex(count), hex("0200 A1A2 0100 B1")].concat();
        assert_eq!(record(&bytes, &[2, 6], 1), Some(&[0xA1, 0xA2][..]));
        assert_eq!(record(&bytes, &[2, 6], 2), Some(&[0xB1][..]));
        // Torn in record 2, which is then refused alone.
        let torn = &bytes[..8];
        assert_eq!(record(torn, &[2, 6], 1), Some(&[0xA1, 0xA2][..]));
        assert_eq!(record(torn, &[2, 6], 2), None);
    }
}

/// Only the place of the number is read: others may be anything, equal, or in another order.
#[test]
fn reading_beside_other_entries() {
    let bytes = body(3, &[vec![1; 4], vec![2; 5], vec![3; 6]]);
    let list = [u32::MAX, 15, 2, 2, 8, bytes.len() as u32];
    assert_eq!(record(&bytes, &list, 1), None);
    assert_eq!(record(&bytes, &list, 2), Some(&[3; 6][..]));
    assert_eq!(record(&bytes, &list, 3), Some(&[1; 4][..]));
    assert_eq!(record(&bytes, &list, 4), Some(&[1; 4][..]));
    assert_eq!(record(&bytes, &list, 5), Some(&[2; 5][..]));
    assert_eq!(record(&bytes, &list, 6), None);
}

// ---------------------------------------------------------------- with commands

fn section(kind: u16, body: &[u8]) -> Vec<u8> {
    let mut bytes = (body.len() as u32).to_le_bytes().to_vec();
    bytes.extend(kind.to_le_bytes());
    bytes.extend(body);
    bytes
}

/// A card with the six record files. One has this body, the others have no records and some room.
fn card(kind: u16, body: &[u8]) -> Vec<u8> {
    RULES
        .iter()
        .flat_map(|rule| {
            if rule.kind == kind {
                section(kind, body)
            } else {
                section(rule.kind, &with_free(EMPTY.to_vec(), 0x55, 30))
            }
        })
        .collect()
}

/// A session with all rights, and the image it works on.
struct Machine {
    image: Vec<u8>,
    session: [u8; SESSION_LEN],
}

impl Machine {
    fn new(image: Vec<u8>) -> Self {
        let mut session = [0; SESSION_LEN];
        assert_eq!(open(&[0xFF; 60], &mut session), 0);
        Self { image, session }
    }

    /// Data and status.
    fn run(&mut self, bytes: &[u8]) -> (Vec<u8>, u16) {
        let mut response = [0; 2_050];
        let result = command(&mut self.image, &mut self.session, bytes, &mut response);
        assert_eq!(result >> 32, 0);
        let data = usize::from((result >> 16) as u16) - 2;
        (response[..data].to_vec(), result as u16)
    }

    /// Selects the application of a file.
    fn select(&mut self, rule: Rule) {
        let mut bytes = hex("00A4040C07A00000024720");
        bytes.push(rule.application);
        assert_eq!(self.run(&bytes), (vec![], 0x9000));
    }

    /// The status of an append to a file of the selected application.
    fn append(&mut self, rule: Rule, record: &[u8]) -> u16 {
        let mut bytes = vec![0x00, 0xE2, 0x00, rule.p2, 0x00];
        bytes.extend((record.len() as u16).to_be_bytes());
        bytes.extend(record);
        self.run(&bytes).1
    }

    /// What READ RECORD of a number answers; none where there is no such record.
    fn read(&mut self, rule: Rule, number: u8) -> Option<Vec<u8>> {
        match self.run(&[0x00, 0xB2, number, rule.p2 | 4, 0x00, 0x00, 0x00]) {
            (data, 0x9000) => Some(data),
            (data, status) => {
                assert_eq!((data, status), (vec![], 0x6A83), "{number}");
                None
            }
        }
    }

    /// The bytes of a body, as the number of `file` says.
    fn body(&self, kind: u16) -> &[u8] {
        let result = file(&self.image, kind);
        let (place, length) = ((result >> 32) as usize, result as u32 as usize);
        assert_ne!(place, 0);
        &self.image[place..place + length]
    }
}

/// An index in a list of its own: how many places it holds, and the list.
struct Index {
    kind: u16,
    held: usize,
    list: Vec<u32>,
}

impl Index {
    #[track_caller]
    fn build(kind: u16, body: &[u8]) -> Self {
        let mut list = vec![FILL; 256];
        let held = index_build(kind, body, &mut list);
        assert!(held <= 254, "{held:016X}");
        let held = held as usize;
        Self { kind, held, list }
    }

    #[track_caller]
    fn extend(&mut self, body: &[u8]) {
        let result = index_extend(self.kind, body, &mut self.list, self.held);
        assert_eq!(result, self.held as u64 + 1);
        self.held += 1;
    }

    /// No place is to be added: the call refuses, and the list stays.
    #[track_caller]
    fn is_whole(&mut self, body: &[u8]) {
        let before = self.list.clone();
        let result = index_extend(self.kind, body, &mut self.list, self.held);
        assert_eq!(result, REFUSED);
        assert_eq!(self.list, before);
    }

    fn places(&self) -> &[u32] {
        &self.list[..self.held]
    }

    /// The index is that of the body: all entries are as if it were built anew, and it reads each
    /// record of the list.
    #[track_caller]
    fn is_right(&self, body: &[u8], records: &[Vec<u8>]) {
        let anew = Self::build(self.kind, body);
        assert_eq!(self.list, anew.list);
        assert_eq!(self.held, records.len());
        for (number, expected) in (1..).zip(records) {
            let answer = record(body, self.places(), number);
            assert_eq!(answer, Some(&expected[..]), "{number}");
        }
        assert_eq!(index_read(body, self.places(), 0), REFUSED);
        assert_eq!(index_read(body, self.places(), self.held + 1), REFUSED);
    }
}

/// From no record to the most, on each file: after each append, extending equals building anew.
#[test]
fn extending_after_each_append() {
    for rule in RULES {
        let room = with_free(EMPTY.to_vec(), 0xFF, 60_000);
        let mut machine = Machine::new(card(rule.kind, &room));
        machine.select(rule);
        let mut index = Index::build(rule.kind, machine.body(rule.kind));
        let mut records = Vec::new();
        for number in 1..=rule.most {
            let length = 1 + usize::from(number) * 37 % rule.longest.min(230);
            records.push(vec![number as u8; length]);
            assert_eq!(machine.append(rule, &records[records.len() - 1]), 0x9000);
            index.extend(machine.body(rule.kind));
            index.is_right(machine.body(rule.kind), &records);
            index.is_whole(machine.body(rule.kind));
        }
        // Another append is refused for the count, and the index stays right.
        assert_eq!(machine.append(rule, b"x"), 0x6A84);
        index.is_whole(machine.body(rule.kind));
        index.is_right(machine.body(rule.kind), &records);
        for number in 0..=0xFF {
            let answer = machine.read(rule, number);
            let number = usize::from(number);
            // 00 is the current record, which is the last.
            let number = if number == 0 { records.len() } else { number };
            let indexed = record(machine.body(rule.kind), index.places(), number);
            assert_eq!(answer.as_deref(), indexed, "{number}");
        }
    }
}

/// Built beside some records that are there already, then extended: the longest records too.
#[test]
fn building_and_then_extending() {
    for rule in RULES {
        let mut records: Vec<Vec<u8>> = (1..=9).map(|n| vec![n; rule.longest]).collect();
        let room = with_free(body(9, &records), 0x00, 20_000);
        let mut machine = Machine::new(card(rule.kind, &room));
        machine.select(rule);
        let mut index = Index::build(rule.kind, machine.body(rule.kind));
        index.is_right(machine.body(rule.kind), &records);
        for length in [rule.longest, 1, rule.longest - 1, 255, 256] {
            records.push(vec![0xAB; length]);
            assert_eq!(machine.append(rule, &records[records.len() - 1]), 0x9000);
            index.extend(machine.body(rule.kind));
            index.is_right(machine.body(rule.kind), &records);
        }
        // Refused for its length.
        assert_eq!(machine.append(rule, &vec![0; rule.longest + 1]), 0x6700);
        index.is_whole(machine.body(rule.kind));
    }
}

/// A record that fills the room to its last byte; the next has none.
#[test]
fn extending_to_the_end_of_the_room() {
    let rule = RULES[0];
    let room = with_free(EMPTY.to_vec(), 0xAA, 17);
    let mut machine = Machine::new(card(rule.kind, &room));
    machine.select(rule);
    let mut index = Index::build(rule.kind, machine.body(rule.kind));
    assert_eq!(machine.append(rule, b"first"), 0x9000);
    index.extend(machine.body(rule.kind));
    assert_eq!(machine.append(rule, b"seconds"), 0x6A84);
    index.is_whole(machine.body(rule.kind));
    assert_eq!(machine.append(rule, b"second"), 0x9000);
    index.extend(machine.body(rule.kind));
    assert_eq!(machine.append(rule, b"x"), 0x6A84);
    index.is_whole(machine.body(rule.kind));
    let records = [b"first".to_vec(), b"second".to_vec()];
    index.is_right(machine.body(rule.kind), &records);
    assert_eq!(index.places(), [2, 9]);
}

/// The places are the body's and not the image's: a copy of the body elsewhere reads the same.
#[test]
fn places_are_of_the_body() {
    let records = [b"one".to_vec(), b"three".to_vec()];
    let bytes = with_free(body(2, &records), 0xAA, 30);
    for rule in RULES {
        let machine = Machine::new(card(rule.kind, &bytes));
        let index = Index::build(rule.kind, machine.body(rule.kind));
        assert_eq!(index.places(), [2, 7]);
        index.is_right(&bytes, &records);
    }
}

/// An index that was not extended reads the records it has, and refuses the new one.
#[test]
fn an_index_left_behind() {
    let rule = RULES[1];
    let bytes = with_free(alike(3, 8), 0xAA, 200);
    let mut machine = Machine::new(card(rule.kind, &bytes));
    machine.select(rule);
    let index = Index::build(rule.kind, machine.body(rule.kind));
    assert_eq!(machine.append(rule, b"new"), 0x9000);
    assert_eq!(machine.append(rule, b"newer"), 0x9000);
    for number in 1..=3_u8 {
        let indexed = record(machine.body(rule.kind), index.places(), usize::from(number));
        assert_eq!(indexed, Some(&[number; 8][..]));
    }
    assert_eq!(
        index_read(machine.body(rule.kind), index.places(), 4),
        REFUSED
    );
}

// ---------------------------------------------------------------- random

/// A small generator (splitmix64).
struct Random(u64);

impl Random {
    fn below(&mut self, n: usize) -> usize {
        self.0 = self.0.wrapping_add(0x9E37_79B9_7F4A_7C15);
        let mut z = self.0;
        z = (z ^ (z >> 30)).wrapping_mul(0xBF58_476D_1CE4_E5B9);
        z = (z ^ (z >> 27)).wrapping_mul(0x94D0_49BB_1331_11EB);
        ((z ^ (z >> 31)) % n as u64) as usize
    }

    /// A body of a few records, now and then with a byte changed or its end cut off.
    fn body(&mut self) -> Vec<u8> {
        let count = self.below(6);
        let records: Vec<Vec<u8>> = (0..count)
            .map(|_| vec![self.below(4) as u8; 1 + self.below(4)])
            .collect();
        let mut bytes = body(count as u16, &records);
        let free = self.below(4);
        bytes.extend(vec![self.below(4) as u8; free]);
        let at = self.below(bytes.len());
        match self.below(4) {
            0 => bytes[at] = self.below(7) as u8,
            1 => bytes.truncate(at),
            _ => {}
        }
        bytes
    }

    /// A kind of a record file, now and then another number.
    fn kind(&mut self) -> u16 {
        const OTHERS: [u16; 4] = [0x0000, 0x0103, 0x0401, 0x0440];
        match self.below(8) {
            0 => OTHERS[self.below(4)],
            _ => RULES[self.below(6)].kind,
        }
    }
}

/// The places of the records, by the words of the rule; none where they are broken.
fn plain_places(kind: u16, body: &[u8]) -> Option<Vec<u32>> {
    let rule = RULES.iter().find(|rule| rule.kind == kind)?;
    let number = |at: usize| {
        let (low, high) = (*body.get(at)?, *body.get(at + 1)?);
        Some(usize::from(low) + 256 * usize::from(high))
    };
    let count = number(0)?;
    let mut places = Vec::new();
    let mut at = 2;
    while places.len() < count {
        let length = number(at)?;
        if !(1..=rule.longest).contains(&length) || at + 2 + length > body.len() {
            return None;
        }
        places.push(at as u32);
        at += 2 + length;
    }
    (count <= usize::from(rule.most)).then_some(places)
}

/// What reading answers, by the words of the rule, in numbers that are too large to wrap.
fn plain_read(body: &[u8], places: &[u32], number: usize) -> u64 {
    let (number, held, end) = (number as i128, places.len() as i128, body.len() as i128);
    if number < 1 || number > held {
        return REFUSED;
    }
    let place = i128::from(places[(number - 1) as usize]);
    if place + 2 > end {
        return REFUSED;
    }
    let at = place as usize;
    let length = i128::from(body[at]) + 256 * i128::from(body[at + 1]);
    if place + 2 + length > end {
        return REFUSED;
    }
    length as u64
}

#[test]
fn random_building_and_extending_agree_with_the_plain_rule() {
    let mut random = Random(8);
    let mut seen = [0_u32; 4];
    for _ in 0..40_000 {
        let (kind, bytes) = (random.kind(), random.body());
        let before: Vec<u32> = (0..random.below(8))
            .map(|_| random.below(1 << 32) as u32)
            .collect();
        let n = random.below(7);
        let places = plain_places(kind, &bytes);

        let (mut list, mut expected) = (before.clone(), before.clone());
        let result = index_build(kind, &bytes, &mut list);
        let answer = match &places {
            Some(places) if places.len() <= before.len() => {
                expected[..places.len()].copy_from_slice(places);
                seen[0] += 1;
                places.len() as u64
            }
            _ => {
                seen[1] += 1;
                REFUSED
            }
        };
        assert_eq!(result, answer, "{kind:04X} {bytes:02X?} {before:?}");
        assert_eq!(list, expected, "{kind:04X} {bytes:02X?} {before:?}");

        let (mut list, mut expected) = (before.clone(), before.clone());
        let result = index_extend(kind, &bytes, &mut list, n);
        let answer = match &places {
            Some(places) if places.len() == n + 1 && n < before.len() => {
                expected[n] = places[n];
                seen[2] += 1;
                n as u64 + 1
            }
            _ => {
                seen[3] += 1;
                REFUSED
            }
        };
        assert_eq!(result, answer, "{kind:04X} {bytes:02X?} {before:?} {n}");
        assert_eq!(list, expected, "{kind:04X} {bytes:02X?} {before:?} {n}");
    }
    assert!(seen.iter().all(|n| *n > 1_000), "{seen:?}");
}

#[test]
fn random_reading_agrees_with_the_plain_rule() {
    let mut random = Random(250);
    let mut seen = [0_u32; 3];
    for _ in 0..40_000 {
        let bytes = random.body();
        let list: Vec<u32> = (0..random.below(5))
            .map(|_| match random.below(8) {
                0 => u32::MAX - random.below(4) as u32,
                _ => random.below(bytes.len() + 3) as u32,
            })
            .collect();
        let number = match random.below(16) {
            0 => usize::MAX - random.below(3),
            _ => random.below(6),
        };
        let expected = plain_read(&bytes, &list, number);
        let result = index_read(&bytes, &list, number);
        assert_eq!(result, expected, "{bytes:02X?} {list:?} {number}");
        seen[match result {
            0 => 0,
            REFUSED => 1,
            _ => 2,
        }] += 1;
    }
    assert!(seen.iter().all(|n| *n > 1_000), "{seen:?}");
}

/// Any commands on any files: six indexes, each built once and extended at each 9000 of an append
/// to its file, stay right.
#[test]
fn random_commands_beside_six_indexes() {
    let mut random = Random(6);
    let mut appended = 0;
    for _ in 0..20 {
        let image: Vec<u8> = RULES
            .iter()
            .flat_map(|rule| {
                let room = with_free(EMPTY.to_vec(), 0x01, 2 + random.below(400));
                section(rule.kind, &room)
            })
            .collect();
        let mut machine = Machine::new(image);
        let mut indexes: Vec<Index> = RULES
            .iter()
            .map(|rule| Index::build(rule.kind, machine.body(rule.kind)))
            .collect();
        let mut records: Vec<Vec<Vec<u8>>> = vec![Vec::new(); RULES.len()];
        for _ in 0..150 {
            let i = random.below(RULES.len());
            let rule = RULES[i];
            machine.select(rule);
            match random.below(4) {
                0 => {
                    let number = random.below(8) as u8;
                    let answer = machine.read(rule, number);
                    let indexed = record(
                        machine.body(rule.kind),
                        indexes[i].places(),
                        usize::from(number),
                    );
                    // Nothing is current after SELECT, so 00 is no record either.
                    assert_eq!(answer.as_deref(), indexed, "{number}");
                }
                // Commands that are refused, or that read.
                1 => {
                    let other = ["00B2", "00E20107", "805E00000000", "00A4020C023F00"];
                    machine.run(&hex(other[random.below(4)]));
                }
                _ => {
                    let record = vec![random.below(256) as u8; 1 + random.below(60)];
                    match machine.append(rule, &record) {
                        0x9000 => {
                            indexes[i].extend(machine.body(rule.kind));
                            records[i].push(record);
                            appended += 1;
                        }
                        status => assert_eq!(status, 0x6A84),
                    }
                }
            }
        }
        for (index, records) in indexes.iter_mut().zip(&records) {
            let bytes = machine.body(index.kind);
            index.is_right(bytes, records);
            index.is_whole(bytes);
        }
    }
    assert!(appended > 500, "{appended}");
}
