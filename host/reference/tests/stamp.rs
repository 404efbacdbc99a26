//! What a stamp says: the places of its fields, and the first fault where Table 11 does not hold.
//! The offsets that are expected were worked out by hand from the table.

use std::collections::HashSet;

use reference::stamp::{read, read_call, Place, Reason, StampFault, COUNT, FIELDS, NUMBERS};
use Reason::{Content, Length, Tag};

/// What the lists hold before a call.
const FILL: u32 = 0xA5A5_A5A5;
/// 15 * 2^32.
const SHORT_LIST: u64 = 64_424_509_440;

/// A row of the table: tag, presence, fewest and most bytes, characters.
type Row = (&'static [u8], char, usize, usize, &'static str);

/// Table 11 without `73`, R for '01' to 'FE'.
const ROWS: [Row; 13] = [
    (b"\x5F\x44", 'M', 3, 3, "A"),
    (b"\x5F\x44", 'M', 3, 3, "A"),
    (b"\x5F\x4C", 'O', 1, 50, "ANS"),
    (b"\x5F\x45", 'M', 8, 8, "N"),
    (b"\x5F\x4B", 'M', 1, 10, "ANS"),
    (b"\x5F\x46", 'M', 1, 10, "ANS"),
    (b"\x5F\x4A", 'M', 1, 20, "ANS"),
    (b"\x5F\x4D", 'O', 1, 50, "ANS"),
    (b"\x5F\x49", 'O', 1, 1, "A"),
    (b"\x5F\x48", 'O', 1, 2, "B"),
    (b"\x5F\x4E", 'O', 1, 50, "ANS"),
    (b"\x5F\x37", 'M', 1, 140, "B"),
    (b"\x5F\x38", 'M', 1, 1, "R"),
];

const COPY: usize = 0;
const STATE: usize = 1;
const VISA: usize = 2;
const DATE: usize = 3;
const AUTHORITY: usize = 4;
const LOCATION: usize = 5;
const INSPECTOR: usize = 6;
const RESULT: usize = 7;
const MODE: usize = 8;
const DURATION: usize = 9;
const CONDITIONS: usize = 10;
const SIGNATURE: usize = 11;
const REFERENCE: usize = 12;

const MANDATORY: [usize; 8] = [
    COPY, STATE, DATE, AUTHORITY, LOCATION, INSPECTOR, SIGNATURE, REFERENCE,
];
const OPTIONAL: [usize; 5] = [VISA, RESULT, MODE, DURATION, CONDITIONS];

/// Where the objects of [`full`] begin. `73` is at 6 and has a length of two bytes, for 234.
const FULL_AT: [usize; 13] = [0, 9, 15, 68, 79, 92, 105, 128, 181, 185, 190, 243, 387];

const FULL_PLACES: [(usize, usize); 13] = [
    (3, 3),
    (12, 3),
    (18, 50),
    (71, 8),
    (82, 10),
    (95, 10),
    (108, 20),
    (131, 50),
    (184, 1),
    (188, 2),
    (193, 50),
    (247, 140),
    (390, 1),
];

/// Where `73` begins in every stamp whose copy of the State is right.
const SIGNED_AT: usize = 6;

const SHORTEST_PLACES: [(usize, usize); 13] = [
    (3, 3),
    (11, 3),
    (0, 0),
    (17, 8),
    (28, 1),
    (32, 1),
    (36, 1),
    (0, 0),
    (0, 0),
    (0, 0),
    (0, 0),
    (40, 1),
    (44, 1),
];

// ---------------------------------------------------------------- helpers

/// Bytes written as hexadecimal digits.
fn hex(text: &str) -> Vec<u8> {
    let digits: Vec<u8> = text
        .chars()
        .filter(|c| !c.is_whitespace())
        .map(|c| c.to_digit(16).expect("hex digit") as u8)
        .collect();
    assert_eq!(digits.len() % 2, 0);
    digits
        .chunks(2)
        .map(|pair| 16 * pair[0] + pair[1])
        .collect()
}

/// A length in its shortest form.
fn length(value: usize) -> Vec<u8> {
    match value {
        0..=127 => vec![value as u8],
        128..=255 => vec![0x81, value as u8],
        256..=65_535 => vec![0x82, (value / 256) as u8, (value % 256) as u8],
        _ => panic!("no form for {value}"),
    }
}

fn object(tag: &[u8], value: &[u8]) -> Vec<u8> {
    [tag, &length(value.len()), value].concat()
}

/// An object whose length is written as it is given, whatever it says.
fn object_with(tag: &[u8], length: &[u8], value: &[u8]) -> Vec<u8> {
    [tag, length, value].concat()
}

/// The object of a field with this value.
fn field(i: usize, value: &[u8]) -> Vec<u8> {
    object(ROWS[i].0, value)
}

/// The bytes of thirteen objects, those of absent fields empty; all but three inside `73`.
fn join(objects: &[Vec<u8>; 13]) -> Vec<u8> {
    let inside = objects[STATE..=CONDITIONS].concat();
    frame(&objects[COPY], &inside, &objects[SIGNATURE..].concat())
}

/// What stands before `73`, inside and behind it.
fn frame(before: &[u8], inside: &[u8], behind: &[u8]) -> Vec<u8> {
    [before, &object(&[0x73], inside), behind].concat()
}

/// Every field with as many bytes as it can have.
fn full_values() -> [Vec<u8>; 13] {
    [
        b"USA".to_vec(),
        b"USA".to_vec(),
        b"Visa 01234 approved<<for a stay of ninety days ABC".to_vec(),
        b"20120814".to_vec(),
        b"CBP<<<<<01".to_vec(),
        b"SFO Gate 9".to_vec(),
        b"SFO00001234 ABCDEFGH".to_vec(),
        b"Admitted after second inspection<<see file 77 00xx".to_vec(),
        b"A".to_vec(),
        vec![0x00, 0xFF],
        b"No work<<no study<<report to the police each month".to_vec(),
        (0..140).map(|n| n as u8 ^ 0x5F).collect(),
        vec![0xFE],
    ]
}

fn full_objects() -> [Vec<u8>; 13] {
    let values = full_values();
    std::array::from_fn(|i| field(i, &values[i]))
}

/// The longest stamp.
fn full() -> Vec<u8> {
    join(&full_objects())
}

/// The longest stamp with the object of one field replaced.
fn full_but(i: usize, object: &[u8]) -> Vec<u8> {
    let mut objects = full_objects();
    objects[i] = object.to_vec();
    join(&objects)
}

/// The longest stamp with another value of one field.
fn full_with(i: usize, value: &[u8]) -> Vec<u8> {
    full_but(i, &field(i, value))
}

/// The shortest stamp, byte by byte.
fn shortest() -> Vec<u8> {
    hex("5F44 03 465241
         73 1D
           5F44 03 465241
           5F45 08 3230323431323331
           5F4B 01 50
           5F46 01 20
           5F4A 01 3C
         5F37 01 00
         5F38 01 01")
}

fn shortest_objects() -> [Vec<u8>; 13] {
    let values: [&[u8]; 13] = [
        b"FRA",
        b"FRA",
        b"",
        b"20241231",
        b"P",
        b" ",
        b"<",
        b"",
        b"",
        b"",
        b"",
        b"\x00",
        b"\x01",
    ];
    std::array::from_fn(|i| match values[i] {
        [] => vec![],
        value => field(i, value),
    })
}

fn shortest_but(i: usize, object: &[u8]) -> Vec<u8> {
    let mut objects = shortest_objects();
    objects[i] = object.to_vec();
    join(&objects)
}

/// The shortest stamp with another value of one field, or with one more field.
fn shortest_with(i: usize, value: &[u8]) -> Vec<u8> {
    shortest_but(i, &field(i, value))
}

/// Whether a byte is one of the set's, by the table's note.
fn in_set(set: &str, byte: u8) -> bool {
    const LETTERS: &[u8] = b"abcdefghijklmnopqrstuvwxyzABCDEFGHIJKLMNOPQRSTUVWXYZ";
    const DIGITS: &[u8] = b"0123456789";
    const SPECIAL: &[u8] = b"< ";
    match set {
        "A" => LETTERS.contains(&byte),
        "N" => DIGITS.contains(&byte),
        "ANS" => [LETTERS, DIGITS, SPECIAL].iter().any(|c| c.contains(&byte)),
        "B" => true,
        "R" => byte != 0x00 && byte != 0xFF,
        _ => panic!("{set}"),
    }
}

/// reason * 2^32 + offset.
fn told(at: usize, reason: Reason) -> u64 {
    let number = match reason {
        Tag => 1,
        Length => 2,
        Content => 3,
    };
    number * 4_294_967_296 + at as u64
}

#[track_caller]
fn accepted(record: &[u8], places: &[(usize, usize); 13]) {
    let expected = places.map(|(at, len)| Place { at, len });
    assert_eq!(read(record), Ok(expected), "{record:02X?}");
    let mut list = [FILL; 26];
    assert_eq!(read_call(record, &mut list), 0);
    let numbers: Vec<u32> = places
        .iter()
        .flat_map(|(at, len)| [*at as u32, *len as u32])
        .collect();
    assert_eq!(list, numbers[..]);
}

/// The record is refused with this fault, and nothing is written.
#[track_caller]
fn faulty(record: &[u8], at: usize, reason: Reason) {
    let fault = StampFault { at, reason };
    let start = &record[..record.len().min(500)];
    assert_eq!(read(record), Err(fault), "{start:02X?}");
    let mut list = [FILL; 30];
    assert_eq!(read_call(record, &mut list), told(at, reason));
    assert_eq!(list, [FILL; 30]);
}

// ---------------------------------------------------------------- accepted

#[test]
fn the_shortest_stamp() {
    assert_eq!(shortest().len(), 45);
    assert_eq!(join(&shortest_objects()), shortest());
    accepted(&shortest(), &SHORTEST_PLACES);
}

#[test]
fn the_longest_stamp() {
    let record = full();
    assert_eq!(record.len(), 391);
    assert_eq!(record[6..9], [0x73, 0x81, 0xEA]);
    accepted(&record, &FULL_PLACES);
    for (value, (at, len)) in full_values().iter().zip(FULL_PLACES) {
        assert_eq!(record[at..at + len], value[..]);
    }
}

/// The examples of the table, with a signature of 64 bytes.
#[test]
fn the_examples_of_the_table() {
    let record = [
        hex("5F44 03 555341
             73 34
               5F44 03 555341
               5F45 08 3230313230383134
               5F4B 03 434250
               5F46 03 53464F
               5F4A 0B 53464F3030303031323334
               5F49 01 41
               5F48 02 00FF
             5F37 40"),
        vec![0xD5; 64],
        hex("5F38 01 FE"),
    ]
    .concat();
    assert_eq!(record.len(), 131);
    accepted(
        &record,
        &[
            (3, 3),
            (11, 3),
            (0, 0),
            (17, 8),
            (28, 3),
            (34, 3),
            (40, 11),
            (0, 0),
            (54, 1),
            (58, 2),
            (0, 0),
            (63, 64),
            (130, 1),
        ],
    );
}

/// The longest stamp without some of the optional fields: the places behind them move, and those of
/// all inner fields do by one where 73's length has only one byte.
#[test]
fn every_choice_of_optional_fields() {
    for choice in 0..32_u32 {
        let mut objects = full_objects();
        let mut sizes: [usize; 13] = [6, 6, 53, 11, 13, 13, 23, 53, 4, 5, 53, 144, 4];
        for (bit, i) in OPTIONAL.into_iter().enumerate() {
            if choice >> bit & 1 == 0 {
                objects[i].clear();
                sizes[i] = 0;
            }
        }
        let inside: usize = sizes[STATE..=CONDITIONS].iter().sum();
        let mut at = 0;
        let places = std::array::from_fn(|i| {
            if i == STATE {
                at += if inside < 128 { 2 } else { 3 };
            }
            let place = match (i, sizes[i]) {
                (_, 0) => (0, 0),
                (SIGNATURE, size) => (at + 4, size - 4),
                (_, size) => (at + 3, size - 3),
            };
            at += sizes[i];
            place
        });
        let record = join(&objects);
        assert_eq!(record.len(), at);
        accepted(&record, &places);
    }
}

/// Where one field of the shortest stamp grows, the others move with it.
#[test]
fn every_size_of_every_variable_field() {
    for (i, (_, _, fewest, most, set)) in ROWS.into_iter().enumerate() {
        for size in fewest..=most {
            let byte = if set == "N" { b'0' } else { b'F' };
            let mut objects = shortest_objects();
            objects[i] = field(i, &vec![byte; size]);
            if i == COPY || i == STATE {
                objects[COPY] = field(COPY, b"FFF");
                objects[STATE] = field(STATE, b"FFF");
            }
            let record = join(&objects);
            let places = read(&record).expect("a stamp");
            assert_eq!(places[i].len, size);
            assert!(record[places[i].at..].starts_with(&vec![byte; size]));
        }
    }
}

/// Of the signature 127 bytes have a length of one byte, and 128 one of two. So it is of `73`.
#[test]
fn lengths_of_127_and_128() {
    for (size, start) in [(127, 40), (128, 41), (139, 41), (140, 41)] {
        let mut places = SHORTEST_PLACES;
        places[SIGNATURE] = (start, size);
        places[REFERENCE] = (start + size + 3, 1);
        let record = shortest_with(SIGNATURE, &vec![0x81; size]);
        accepted(&record, &places);
    }
    // 29 bytes, and 53 of visa approvals and 45 of the result are 127.
    for (size, start) in [(42, 8), (43, 9)] {
        let mut objects = shortest_objects();
        objects[VISA] = field(VISA, &[b'v'; 50]);
        objects[RESULT] = field(RESULT, &vec![b'r'; size]);
        let record = join(&objects);
        accepted(
            &record,
            &[
                (3, 3),
                (start + 3, 3),
                (start + 9, 50),
                (start + 62, 8),
                (start + 73, 1),
                (start + 77, 1),
                (start + 81, 1),
                (start + 85, size),
                (0, 0),
                (0, 0),
                (0, 0),
                (start + 88 + size, 1),
                (start + 92 + size, 1),
            ],
        );
    }
}

/// Eight digits are a date, even of no calendar; any letter is a mode.
#[test]
fn values_that_the_table_does_not_narrow() {
    for date in [b"00000000", b"99999999", b"20230229", b"14082012"] {
        accepted(&full_with(DATE, date), &FULL_PLACES);
    }
    for mode in (b'a'..=b'z').chain(b'A'..=b'Z') {
        accepted(&full_with(MODE, &[mode]), &FULL_PLACES);
    }
    for reference in 0x01..=0xFE {
        let record = full_with(REFERENCE, &[reference]);
        accepted(&record, &FULL_PLACES);
    }
    let mut objects = full_objects();
    for state in [b"aaa", b"zzz", b"AAA", b"ZZZ", b"xYz"] {
        objects[COPY] = field(COPY, state);
        objects[STATE] = field(STATE, state);
        accepted(&join(&objects), &FULL_PLACES);
    }
}

/// Values that look like objects are values.
#[test]
fn values_that_look_like_objects() {
    let mut value = hex("5F38 01 01 5F44 03 465241 73 1D");
    value.resize(140, 0x5F);
    accepted(&full_with(SIGNATURE, &value), &FULL_PLACES);
    let record = full_with(DURATION, &hex("5F4E"));
    accepted(&record, &FULL_PLACES);
    let record = shortest_with(REFERENCE, &[0x5F]);
    accepted(&record, &SHORTEST_PLACES);
}

// ---------------------------------------------------------------- the call

#[test]
fn numbers_of_the_reasons() {
    assert_eq!(Tag.number(), 1);
    assert_eq!(Length.number(), 2);
    assert_eq!(Content.number(), 3);
}

#[test]
fn exact_numbers_of_a_stamp() {
    let mut list = [FILL; 26];
    assert_eq!(read_call(&shortest(), &mut list), 0);
    assert_eq!(
        list,
        [3, 3, 11, 3, 0, 0, 17, 8, 28, 1, 32, 1, 36, 1, 0, 0, 0, 0, 0, 0, 0, 0, 40, 1, 44, 1]
    );
    assert_eq!(read_call(&full(), &mut list), 0);
    assert_eq!(
        list,
        [
            3, 3, 12, 3, 18, 50, 71, 8, 82, 10, 95, 10, 108, 20, 131, 50, 184, 1, 188, 2, 193, 50,
            247, 140, 390, 1
        ]
    );
}

#[test]
fn exact_numbers_of_faults() {
    let mut list = [FILL; 26];
    let mut call = |record: &[u8]| read_call(record, &mut list);
    assert_eq!(call(&[]), 0x0000_0001_0000_0000);
    assert_eq!(call(&hex("5F44")), 0x0000_0002_0000_0000);
    assert_eq!(call(&hex("5F44 03 465241")), 0x0000_0001_0000_0006);
    assert_eq!(call(&hex("5F44 03 46522D")), 0x0000_0003_0000_0000);
    let record = shortest_with(COPY, b"FR-");
    assert_eq!(call(&record), 0x0000_0003_0000_0000);
    let record = [full(), vec![0x00]].concat();
    assert_eq!(call(&record), 0x0000_0001_0000_0187);
    let record = full_but(REFERENCE, &hex("5F38 02 0101"));
    assert_eq!(call(&record), 0x0000_0002_0000_0183);
    let record = full_but(REFERENCE, &hex("5F38 01 FF"));
    assert_eq!(call(&record), 0x0000_0003_0000_0183);
    assert_eq!(list, [FILL; 26]);
}

#[test]
fn lists_that_are_too_short() {
    let records = [vec![], shortest(), full(), hex("5F44"), vec![0; 70_000]];
    for record in &records {
        for entries in 0..26 {
            let mut list = vec![FILL; entries];
            assert_eq!(read_call(record, &mut list), SHORT_LIST);
            assert_eq!(list, vec![FILL; entries]);
        }
    }
}

#[test]
fn entries_behind_the_26_stay() {
    for entries in [26, 27, 28, 39, 100] {
        let mut list = vec![FILL; entries];
        assert_eq!(read_call(&full(), &mut list), 0);
        assert_eq!(list[24..26], [390, 1]);
        assert_eq!(list[26..], vec![FILL; entries - 26]);
    }
}

/// Absent fields are written as zeros over what the list had.
#[test]
fn absent_fields_are_written() {
    let mut list = [FILL; 27];
    assert_eq!(read_call(&full(), &mut list), 0);
    assert_eq!(read_call(&shortest(), &mut list), 0);
    assert_eq!(list[4..6], [0, 0]);
    assert_eq!(list[14..22], [0; 8]);
    assert_eq!(list[26], FILL);
}

#[test]
fn the_table_of_fields() {
    assert_eq!((COUNT, NUMBERS), (13, 26));
    for (field, (tag, presence, fewest, most, set)) in FIELDS.iter().zip(ROWS) {
        assert_eq!(field.tag, tag, "{}", field.name);
        assert_eq!(field.optional, presence == 'O', "{}", field.name);
        assert_eq!(field.sizes, fewest..=most, "{}", field.name);
        for byte in 0x00..=0xFF {
            assert_eq!((field.allows)(byte), in_set(set, byte), "{}", field.name);
        }
    }
    let names: HashSet<&str> = FIELDS.iter().map(|field| field.name).collect();
    assert_eq!(names.len(), 13);
}

// ---------------------------------------------------------------- cut records

/// The shortest stamp, cut anywhere.
#[test]
fn records_that_end_too_early() {
    let faults = [
        // Nothing, half a tag; a tag alone, and parts of the value.
        (0..=1, 0, Tag),
        (2..=5, 0, Length),
        // 73 is missing, is alone, or has too little behind it.
        (6..=6, 6, Tag),
        (7..=36, 6, Length),
        (37..=38, 37, Tag),
        (39..=40, 37, Length),
        (41..=42, 41, Tag),
        (43..=44, 41, Length),
    ];
    for (cuts, at, reason) in faults {
        for cut in cuts {
            faulty(&shortest()[..cut], at, reason);
        }
    }
}

/// What is wrong when only some first bytes of the shortest stamp's 29 are left in `73`.
#[track_caller]
fn faulty_inside(left: usize, record: &[u8]) {
    let (at, reason) = match left {
        0..=1 => (8, Tag),
        2..=5 => (8, Length),
        6..=7 => (14, Tag),
        8..=16 => (14, Length),
        17..=18 => (25, Tag),
        19..=20 => (25, Length),
        21..=22 => (29, Tag),
        23..=24 => (29, Length),
        25..=26 => (33, Tag),
        27..=28 => (33, Length),
        _ => panic!("{left}"),
    };
    faulty(record, at, reason);
}

/// The length of `73` is right for what is left in it.
#[test]
fn signed_parts_that_end_too_early() {
    let record = shortest();
    for left in 0..29 {
        let inside = &record[8..8 + left];
        faulty_inside(left, &frame(&record[..6], inside, &record[37..]));
        // Nothing is behind 73, which is a fault at the same place or further on.
        faulty_inside(left, &frame(&record[..6], inside, &[]));
    }
}

/// Each first byte of 73's length in the shortest stamp. The right one is 1D.
#[test]
fn every_length_of_the_signed_part() {
    for first in 0x00..=0xFF_u8 {
        let mut record = shortest();
        record[7] = first;
        match first {
            0x00..=0x1C => faulty_inside(usize::from(first), &record),
            0x1D => accepted(&record, &SHORTEST_PLACES),
            // The signature begins inside, and is surplus there; at 25 the record ends.
            0x1E..=0x25 => faulty(&record, 37, Tag),
            // Past the record; 81 5F is not the shortest form, 82 5F 44 is past it too.
            0x26..=0xFF => faulty(&record, 6, Length),
        }
    }
}

/// Behind the inspector, each optional field: half its tag, its tag, its length, all of it.
#[test]
fn optional_fields_that_end_too_early() {
    let record = shortest();
    let (before, inside, behind) = (&record[..6], &record[8..37], &record[37..]);
    let with = |more: &[u8]| frame(before, &[inside, more].concat(), behind);
    for i in [RESULT, MODE, DURATION, CONDITIONS] {
        let whole = field(i, b"A");
        faulty(&with(&whole[..1]), 37, Tag);
        faulty(&with(&whole[..2]), 37, Length);
        faulty(&with(&whole[..3]), 37, Length);
        assert!(read(&with(&whole)).is_ok());
    }
    // A length of more bytes whose bytes are not all there.
    for length in ["81", "82", "8201", "8180", "820100"] {
        faulty(&with(&[hex("5F4E"), hex(length)].concat()), 37, Length);
    }
    // A whole object of a tag that has no place there is a wrong tag, as is a tag alone.
    for other in [
        "5F4F 01 41",
        "5F4F",
        "5F00",
        "4D 01 41",
        "4D",
        "73 00",
        "00",
        "FF",
    ] {
        faulty(&with(&hex(other)), 37, Tag);
    }
}

/// The other half of the tag, or the length, stands behind 73 and is not looked at.
#[test]
fn optional_fields_that_go_on_behind_73() {
    let record = shortest();
    let (before, inside) = (&record[..6], &record[8..37]);
    let half = [inside, &[0x5F]].concat();
    faulty(
        &frame(before, &half, &hex("4D 01 41 5F37 01 00 5F38 01 01")),
        37,
        Tag,
    );
    let alone = [inside, &[0x5F, 0x4D]].concat();
    faulty(
        &frame(before, &alone, &hex("01 41 5F37 01 00 5F38 01 01")),
        37,
        Length,
    );
    let no_value = [inside, &[0x5F, 0x4D, 0x01]].concat();
    faulty(
        &frame(before, &no_value, &hex("41 5F37 01 00 5F38 01 01")),
        37,
        Length,
    );
}

#[test]
fn records_that_are_nearly_empty() {
    faulty(&[], 0, Tag);
    for byte in 0x00..=0xFF {
        faulty(&[byte], 0, Tag);
    }
    faulty(&hex("5F44"), 0, Length);
    faulty(&hex("445F"), 0, Tag);
    faulty(&hex("7300"), 0, Tag);
    faulty(&hex("5F4400"), 0, Length);
    // An empty 73, with and without objects behind it.
    faulty(&hex("5F44 03 465241 73 00"), 8, Tag);
    faulty(&hex("5F44 03 465241 73 00 5F37 01 00 5F38 01 01"), 8, Tag);
    // What would be its inner State stands behind it.
    faulty(
        &[hex("5F44 03 465241 73 00"), shortest()[8..].to_vec()].concat(),
        8,
        Tag,
    );
}

// ---------------------------------------------------------------- tags

#[test]
fn each_byte_of_each_tag() {
    for (i, at) in FULL_AT.into_iter().enumerate() {
        for byte in 0x00..=0xFF_u8 {
            let mut first = full();
            first[at] = byte;
            if byte == 0x5F {
                accepted(&first, &FULL_PLACES);
            } else {
                faulty(&first, at, Tag);
            }
            let mut second = full();
            second[at + 1] = byte;
            if byte == ROWS[i].0[1] {
                accepted(&second, &FULL_PLACES);
            } else if ROWS.iter().all(|(tag, ..)| byte != tag[1]) {
                faulty(&second, at, Tag);
            }
        }
    }
    for byte in 0x00..=0xFF_u8 {
        let mut record = full();
        record[SIGNED_AT] = byte;
        if byte == 0x73 {
            accepted(&record, &FULL_PLACES);
        } else {
            faulty(&record, SIGNED_AT, Tag);
        }
    }
}

/// Tags of the table in places that are not theirs.
#[test]
fn each_tag_in_each_place() {
    for (i, at) in FULL_AT.into_iter().enumerate() {
        for (other, (tag, ..)) in ROWS.into_iter().enumerate() {
            if tag == ROWS[i].0 {
                continue;
            }
            let mut record = full();
            record[at..at + 2].copy_from_slice(tag);
            // In the place of an optional field a later one can stand, up to the next mandatory
            // one. Then it is measured as that later field.
            match (i, other) {
                // The date's tag on 50 bytes.
                (VISA, DATE) => faulty(&record, at, Length),
                // 50 bytes as mode or duration.
                (RESULT, MODE | DURATION) => faulty(&record, at, Length),
                // 50 letters as conditions are good; then the mode is surplus.
                (RESULT, CONDITIONS) => faulty(&record, 181, Tag),
                // One letter as duration is good; the second duration is surplus.
                (MODE, DURATION) => faulty(&record, 185, Tag),
                (MODE, CONDITIONS) => faulty(&record, 185, Tag),
                // 00FF is no text.
                (DURATION, CONDITIONS) => faulty(&record, at, Content),
                _ => faulty(&record, at, Tag),
            }
        }
    }
}

#[test]
fn each_mandatory_field_is_missing() {
    for i in MANDATORY {
        let mut objects = full_objects();
        objects[i].clear();
        let record = join(&objects);
        match i {
            // 73 stands in its place.
            COPY => faulty(&record, 0, Tag),
            // Here the record ends.
            REFERENCE => {
                assert_eq!(record.len(), 387);
                faulty(&record, 387, Tag);
            }
            _ => faulty(&record, FULL_AT[i], Tag),
        }
    }
    let missing = [
        (COPY, 0),
        (STATE, 8),
        (DATE, 14),
        (AUTHORITY, 25),
        (LOCATION, 29),
        // The end of 73, where the signature stands.
        (INSPECTOR, 33),
        (SIGNATURE, 37),
        (REFERENCE, 41),
    ];
    for (i, at) in missing {
        faulty(&shortest_but(i, &[]), at, Tag);
    }
}

#[test]
fn the_signed_part_is_missing() {
    let record = shortest();
    faulty(&[&record[..6], &record[37..]].concat(), 6, Tag);
    // Its inner objects stand in the record itself.
    faulty(&[&record[..6], &record[8..]].concat(), 6, Tag);
    faulty(&record[..6], 6, Tag);
    faulty(
        &[&record[..6], &[0x72, 0x1D], &record[8..]].concat(),
        6,
        Tag,
    );
    // Only 73 and what is behind it.
    faulty(&record[6..], 0, Tag);
}

#[test]
fn each_object_stands_twice() {
    for (i, at) in FULL_AT.into_iter().enumerate() {
        let object = &full_objects()[i];
        let twice = full_but(i, &[&object[..], object].concat());
        // With 23 bytes more than 234, or 53, the length of 73 has one byte more.
        let shift = usize::from([VISA, INSPECTOR, RESULT, CONDITIONS].contains(&i));
        faulty(&twice, at + shift + object.len(), Tag);
    }
    let record = shortest();
    let signed = &record[6..37];
    faulty(&[&record[..37], signed, &record[37..]].concat(), 37, Tag);
    // 73 inside 73.
    faulty(&frame(&record[..6], signed, &record[37..]), 8, Tag);
    faulty(
        &frame(
            &record[..6],
            &[&record[8..37], signed].concat(),
            &record[37..],
        ),
        37,
        Tag,
    );
}

/// Two neighbours change places.
#[test]
fn neighbours_out_of_order() {
    let record = full();
    let swapped = |first: usize, second: usize, end: usize| {
        [
            &record[..first],
            &record[second..end],
            &record[first..second],
            &record[end..],
        ]
        .concat()
    };
    // Behind the State the date stands, visa approvals then come too late: behind 11 bytes.
    faulty(&swapped(15, 68, 79), 26, Tag);
    faulty(&swapped(9, 15, 68), 9, Tag);
    faulty(&swapped(68, 79, 92), 68, Tag);
    faulty(&swapped(79, 92, 105), 79, Tag);
    faulty(&swapped(92, 105, 128), 92, Tag);
    faulty(&swapped(105, 128, 181), 105, Tag);
    // The mode without a result is good, the result is then surplus.
    faulty(&swapped(128, 181, 185), 132, Tag);
    faulty(&swapped(181, 185, 190), 186, Tag);
    faulty(&swapped(185, 190, 243), 238, Tag);
    faulty(&swapped(243, 387, 391), 243, Tag);
    // 73 with the State's copy, and with the signature.
    faulty(&swapped(0, 6, 243), 0, Tag);
    faulty(&swapped(6, 243, 387), 6, Tag);
}

/// A field on the wrong side of 73's borders.
#[test]
fn fields_in_the_wrong_container() {
    let record = full();
    // The signature inside 73, which ends 144 bytes later.
    let inside = &record[9..387];
    faulty(&frame(&record[..6], inside, &record[387..]), 244, Tag);
    // The conditions behind 73.
    let behind = [&record[190..243], &record[243..]].concat();
    faulty(&frame(&record[..6], &record[9..190], &behind), 190, Tag);
    // Both State objects before 73.
    let before = [&record[..6], &record[9..15]].concat();
    faulty(&frame(&before, &record[15..243], &record[243..]), 6, Tag);
    // Both inside.
    let inside = [&record[..6], &record[9..243]].concat();
    faulty(&frame(&[], &inside, &record[243..]), 0, Tag);
}

#[test]
fn bytes_behind_the_last_object() {
    for byte in 0x00..=0xFF {
        faulty(&[full(), vec![byte]].concat(), 391, Tag);
        faulty(&[shortest(), vec![byte]].concat(), 45, Tag);
    }
    faulty(&[full(), full()].concat(), 391, Tag);
    faulty(&[shortest(), hex("5F38 01 01")].concat(), 45, Tag);
    faulty(&[shortest(), hex("9000")].concat(), 45, Tag);
    faulty(&[shortest(), vec![0; 70_000]].concat(), 45, Tag);
}

// ---------------------------------------------------------------- lengths

/// Sizes beside those that the table allows; the objects are whole and the rest is in order.
#[test]
fn sizes_that_the_table_does_not_allow() {
    for (i, (tag, _, fewest, most, set)) in ROWS.into_iter().enumerate() {
        let byte = if set == "N" { b'1' } else { b'A' };
        let at = FULL_AT[i];
        for size in (0..fewest).chain([most + 1, most + 2, 127, 128, 129, 200, 255, 256, 300]) {
            if (fewest..=most).contains(&size) {
                continue;
            }
            let object = object(tag, &vec![byte; size]);
            // The length of 73 may have one byte more.
            let grown = 234 - full_objects()[i].len() + object.len();
            let shift = usize::from((STATE..=CONDITIONS).contains(&i) && grown > 255);
            faulty(&full_but(i, &object), at + shift, Length);
        }
    }
}

/// The same in the shortest stamp.
#[test]
fn sizes_that_the_table_does_not_allow_in_the_shortest() {
    let starts = [
        (COPY, 0),
        (STATE, 8),
        (VISA, 14),
        (DATE, 14),
        (AUTHORITY, 25),
        (LOCATION, 29),
        (INSPECTOR, 33),
        (RESULT, 37),
        (MODE, 37),
        (DURATION, 37),
        (CONDITIONS, 37),
        (SIGNATURE, 37),
        (REFERENCE, 41),
    ];
    for (i, at) in starts {
        let (tag, _, fewest, most, _) = ROWS[i];
        faulty(&shortest_but(i, &object(tag, &[])), at, Length);
        faulty(
            &shortest_but(i, &object(tag, &vec![b'1'; fewest - 1])),
            at,
            Length,
        );
        // None makes 73 longer than 127 bytes.
        if i != SIGNATURE {
            faulty(
                &shortest_but(i, &object(tag, &vec![b'1'; most + 1])),
                at,
                Length,
            );
        }
    }
    let object = object(ROWS[SIGNATURE].0, &[b'1'; 141]);
    faulty(&shortest_but(SIGNATURE, &object), 37, Length);
}

/// The right length in another form than the shortest, or in none of the three.
#[test]
fn forms_of_lengths() {
    for i in 0..13 {
        let (tag, ..) = ROWS[i];
        let value = &full_values()[i];
        let size = value.len() as u8;
        let mut forms = vec![
            vec![0x82, 0x00, size],
            vec![0x83, 0x00, 0x00, size],
            vec![0x84, 0x00, 0x00, 0x00, size],
            vec![0x80],
            vec![0x80, size],
            vec![0xFF],
            vec![0xFF, size],
        ];
        if size < 128 {
            forms.push(vec![0x81, size]);
            forms.push(vec![0x80 | size]);
        }
        for form in forms {
            let inner = 231 + form.len();
            assert!(inner <= 255);
            faulty(
                &full_but(i, &object_with(tag, &form, value)),
                FULL_AT[i],
                Length,
            );
        }
    }
}

/// The same of the length of 73.
#[test]
fn forms_of_the_length_of_73() {
    let record = shortest();
    let with = |form: &[u8]| [&record[..7], form, &record[8..]].concat();
    for form in [
        "811D", "82001D", "83001D", "8300001D", "80", "84", "FF", "9D", "8100", "820000",
    ] {
        faulty(&with(&hex(form)), 6, Length);
    }
    let record = full();
    let with = |form: &[u8]| [&record[..7], form, &record[9..]].concat();
    for form in ["8200EA", "830000EA", "EA", "80EA"] {
        faulty(&with(&hex(form)), 6, Length);
    }
}

/// Lengths one past the container, and by much more.
#[test]
fn lengths_past_the_container() {
    // The last object of the record, and the last of 73, with one byte too many.
    faulty(&shortest_but(REFERENCE, &hex("5F38 02 01")), 41, Length);
    faulty(&shortest_but(INSPECTOR, &hex("5F4A 02 3C")), 33, Length);
    faulty(&full_but(CONDITIONS, &hex("5F4E 02 41")), 190, Length);
    // The whole value would have room in the record, but not in 73.
    let record = shortest();
    let mut longer = record.clone();
    longer[35] = 0x02;
    faulty(&longer, 33, Length);
    longer[35] = 0x09;
    faulty(&longer, 33, Length);
    // 73 with some of the signature in it, which is surplus there.
    let mut longer = full();
    longer[8] = 0xFF;
    faulty(&longer, 9 + 234, Tag);
    longer[8] = 0xEB;
    faulty(&longer, 9 + 234, Tag);
    // 73 itself past the record by one, and lengths past everything.
    let mut longer = record[..37].to_vec();
    longer[7] = 0x1E;
    faulty(&longer, 6, Length);
    for length in ["7F", "81FF", "820100", "82FFFF"] {
        faulty(
            &[&record[..7], &hex(length), &record[8..]].concat(),
            6,
            Length,
        );
        let inner = object_with(&hex("5F4A"), &hex(length), b"<");
        faulty(&shortest_but(INSPECTOR, &inner), 33, Length);
        let first = object_with(&hex("5F44"), &hex(length), b"FRA");
        faulty(&shortest_but(COPY, &first), 0, Length);
        let last = object_with(&hex("5F37"), &hex(length), &[0x00]);
        faulty(&shortest_but(SIGNATURE, &last), 37, Length);
    }
}

/// Each length byte of the text fields in the longest stamp: a shorter text is good, and what is
/// left of it then is a wrong tag.
#[test]
fn each_length_of_each_text() {
    for i in [VISA, AUTHORITY, LOCATION, INSPECTOR, RESULT, CONDITIONS] {
        let (at, most) = (FULL_AT[i], ROWS[i].3);
        for length in 0x00..=0xFF_u8 {
            let mut record = full();
            record[at + 2] = length;
            let size = usize::from(length);
            if size == most {
                accepted(&record, &FULL_PLACES);
            } else if size == 0 || size > most {
                faulty(&record, at, Length);
            } else {
                faulty(&record, at + 3 + size, Tag);
            }
        }
    }
}

// ---------------------------------------------------------------- contents

/// Each byte in each place of each value.
#[test]
fn each_byte_of_each_value() {
    for (i, (at, len)) in FULL_PLACES.into_iter().enumerate() {
        for offset in at..at + len {
            for byte in 0x00..=0xFF_u8 {
                let mut record = full();
                let old = record[offset];
                record[offset] = byte;
                if !in_set(ROWS[i].4, byte) {
                    faulty(&record, FULL_AT[i], Content);
                } else if (i == COPY || i == STATE) && byte != old {
                    // Both are good but unequal: the inner one is at fault.
                    faulty(&record, 9, Content);
                } else {
                    accepted(&record, &FULL_PLACES);
                }
            }
        }
    }
}

#[test]
fn states_that_differ() {
    let with = |copy: &[u8], state: &[u8]| {
        let mut objects = shortest_objects();
        objects[COPY] = field(COPY, copy);
        objects[STATE] = field(STATE, state);
        join(&objects)
    };
    accepted(&with(b"USA", b"USA"), &SHORTEST_PLACES);
    faulty(&with(b"FRA", b"USA"), 8, Content);
    faulty(&with(b"USA", b"FRA"), 8, Content);
    faulty(&with(b"USA", b"usa"), 8, Content);
    faulty(&with(b"usA", b"USA"), 8, Content);
    faulty(&with(b"USA", b"USB"), 8, Content);
    faulty(&with(b"TSA", b"USA"), 8, Content);
    // Bad characters: the inner one alone, the outer one alone, both and equal.
    faulty(&with(b"USA", b"U5A"), 8, Content);
    faulty(&with(b"U5A", b"USA"), 0, Content);
    faulty(&with(b"U5A", b"U5A"), 0, Content);
    // Doc 9303-3 writes Germany so, but it is not three letters.
    faulty(&with(b"D<<", b"D<<"), 0, Content);
    faulty(&with(b"D  ", b"D  "), 0, Content);
    // Other lengths go first, equal or not.
    faulty(&with(b"USA", b"US"), 8, Length);
    faulty(&with(b"USA", b"USAA"), 8, Length);
    faulty(&with(b"US", b"US"), 0, Length);
    faulty(&with(b"USAA", b"USA"), 0, Length);
    faulty(&with(b"USA", b""), 8, Length);
    faulty(&with(b"", b""), 0, Length);
}

#[test]
fn references_that_are_no_record_number() {
    for byte in [0x00, 0xFF] {
        faulty(&shortest_with(REFERENCE, &[byte]), 41, Content);
        faulty(&full_with(REFERENCE, &[byte]), 387, Content);
    }
}

/// Bytes beside the sets.
#[test]
fn characters_beside_the_sets() {
    for byte in b"`{@[/:;=!\x1F_-.,\x00\x7F\xC4\xFF\x20\x3C" {
        let date = [b"2012081", &[*byte][..]].concat();
        faulty(&shortest_with(DATE, &date), 14, Content);
        faulty(&shortest_with(MODE, &[*byte]), 37, Content);
        if *byte != b' ' && *byte != b'<' {
            faulty(&shortest_with(AUTHORITY, &[*byte]), 25, Content);
            faulty(&shortest_with(LOCATION, &[*byte]), 29, Content);
            faulty(&shortest_with(INSPECTOR, &[*byte]), 33, Content);
            faulty(&shortest_with(VISA, &[*byte]), 14, Content);
            faulty(&shortest_with(RESULT, &[*byte]), 37, Content);
            faulty(&shortest_with(CONDITIONS, &[*byte]), 37, Content);
        }
        accepted_somehow(&shortest_with(DURATION, &[*byte]));
        accepted_somehow(&shortest_with(SIGNATURE, &[*byte]));
    }
    // A letter is no digit, and a digit no letter.
    faulty(&shortest_with(DATE, b"2012O814"), 14, Content);
    faulty(&shortest_with(MODE, b"1"), 37, Content);
}

#[track_caller]
fn accepted_somehow(record: &[u8]) {
    assert!(read(record).is_ok(), "{record:02X?}");
}

// ---------------------------------------------------------------- more than one fault

/// At equal offset: wrong tag before length before content.
#[test]
fn reasons_at_equal_offset() {
    // One object with all three, in turn made good.
    faulty(
        &shortest_but(DATE, &hex("5F47 81 07 2D2D2D2D2D2D2D")),
        14,
        Tag,
    );
    faulty(
        &shortest_but(DATE, &hex("5F45 81 07 2D2D2D2D2D2D2D")),
        14,
        Length,
    );
    faulty(
        &shortest_but(DATE, &hex("5F45 07 2D2D2D2D2D2D2D")),
        14,
        Length,
    );
    faulty(
        &shortest_but(DATE, &hex("5F45 08 2D2D2D2D2D2D2D2D")),
        14,
        Content,
    );
    faulty(&shortest_but(REFERENCE, &hex("5F39 02 0000")), 41, Tag);
    faulty(&shortest_but(REFERENCE, &hex("5F38 02 0000")), 41, Length);
    faulty(&shortest_but(REFERENCE, &hex("5F38 01 00")), 41, Content);
    faulty(&shortest_but(STATE, &hex("5F44 04 555341 2D")), 8, Length);
    faulty(&shortest_but(MODE, &hex("5F49 02 2D2D")), 37, Length);
    // Past its container and of a size that is not allowed: one reason.
    faulty(&shortest_but(INSPECTOR, &hex("5F4A 15 2D")), 33, Length);
}

/// An inner object is missing at 73's end, which is also where the signature is at fault.
#[test]
fn missing_at_the_end_and_a_fault_behind() {
    for signature in [
        "5F37 00",
        "5F37 81 01 00",
        "5F37 80",
        "5F37 82FFFF",
        "5F37",
        "5F",
        "5F36 01 00",
    ] {
        let mut objects = shortest_objects();
        objects[INSPECTOR].clear();
        objects[SIGNATURE] = hex(signature);
        faulty(&join(&objects), 33, Tag);
        objects[REFERENCE].clear();
        faulty(&join(&objects), 33, Tag);
    }
    // The same with the reference in its place, and with nothing behind.
    let mut objects = shortest_objects();
    objects[INSPECTOR].clear();
    objects[SIGNATURE].clear();
    faulty(&join(&objects), 33, Tag);
    objects[REFERENCE].clear();
    faulty(&join(&objects), 33, Tag);
    // Where all inner objects are there, it is the signature's own fault.
    faulty(&shortest_but(SIGNATURE, &hex("5F37 00")), 37, Length);
}

/// What is surplus inside `73` stands before the signature.
#[test]
fn surplus_inside_and_a_fault_behind() {
    let record = shortest();
    let inside = [&record[8..37], &[0x00]].concat();
    for behind in ["5F37 01 00 5F38 01 01", "5F37 00 5F38 01 01", "", "00"] {
        faulty(&frame(&record[..6], &inside, &hex(behind)), 37, Tag);
    }
}

/// An object that is broken in one way, and the reason.
fn broken(i: usize) -> Vec<(Vec<u8>, Reason)> {
    let (tag, _, _, most, set) = ROWS[i];
    let value = &full_values()[i];
    let mut ways = vec![
        (object(&[0x5F, 0x47], value), Tag),
        (object(&[0x73], value), Tag),
        (object(tag, &[]), Length),
        (object(tag, &vec![b'A'; most + 1]), Length),
        (
            object_with(tag, &[0x82, 0x00, value.len() as u8], value),
            Length,
        ),
        (object_with(tag, &[0x82, 0xFF, 0xFF], value), Length),
        (object_with(tag, &[0x80], value), Length),
    ];
    if set != "B" {
        let mut other = value.clone();
        *other.last_mut().expect("a value") = 0x00;
        ways.push((object(tag, &other), Content));
    }
    if ROWS[i].1 == 'M' {
        ways.push((vec![], Tag));
    }
    ways
}

/// Two fields are broken, each in every way: it is the first that is told.
#[test]
fn every_pair_of_faults() {
    let mut pairs = 0;
    for i in 0..13 {
        for (first, reason) in broken(i) {
            faulty(&full_but(i, &first), FULL_AT[i], reason);
            for j in i + 1..13 {
                for (second, _) in broken(j) {
                    let mut objects = full_objects();
                    objects[i].clone_from(&first);
                    objects[j] = second;
                    // Two fields of 50 bytes may go, and 73 still has a length of two bytes.
                    let inside = objects[STATE..=CONDITIONS].concat().len();
                    assert!((128..=255).contains(&inside));
                    faulty(&join(&objects), FULL_AT[i], reason);
                    pairs += 1;
                }
            }
        }
    }
    assert!(pairs > 4_000, "{pairs}");
}

/// `73` is broken and a field too: fields before it are told, those in it and behind it are not.
#[test]
fn a_broken_signed_part_and_a_broken_field() {
    for i in 0..13 {
        for (object, reason) in broken(i) {
            let record = full_but(i, &object);
            let signed_at = if i == COPY { object.len() } else { SIGNED_AT };
            assert_eq!(record[signed_at..signed_at + 2], [0x73, 0x81]);
            let mut other_tag = record.clone();
            other_tag[signed_at] = 0x72;
            let mut too_long = record.clone();
            too_long[signed_at + 1] = 0x82;
            let mut no_form = record.clone();
            no_form[signed_at + 1] = 0x80;
            for (record, signed_reason) in [(other_tag, Tag), (too_long, Length), (no_form, Length)]
            {
                if i == COPY {
                    faulty(&record, 0, reason);
                } else {
                    faulty(&record, SIGNED_AT, signed_reason);
                }
            }
        }
    }
}

/// The States differ, and something else is wrong too.
#[test]
fn states_that_differ_and_another_fault() {
    for i in VISA..13 {
        for (object, _) in broken(i) {
            let mut objects = full_objects();
            objects[COPY] = field(COPY, b"FRA");
            objects[i] = object;
            faulty(&join(&objects), 9, Content);
        }
    }
    let mut record = shortest();
    record[3] = b'G';
    faulty(&record, 8, Content);
    faulty(&[&record[..], &[0x00]].concat(), 8, Content);
    record[7] = 0x1E;
    faulty(&record, 8, Content);
    record[7] = 0x7F;
    faulty(&record, 6, Length);
}

// ---------------------------------------------------------------- long records

#[test]
fn the_longest_signed_part() {
    let start = hex("5F44 03 465241 73 82 FFFF");
    let inner = shortest()[8..37].to_vec();
    for filler in [0x00, 0x5F, 0x41, 0xFF] {
        let mut value = inner.clone();
        value.resize(65_535, filler);
        let record = [&start[..], &value].concat();
        assert_eq!(record.len(), 65_545);
        // All behind the inspector is surplus, at 10 + 29.
        faulty(&record, 39, Tag);
        faulty(
            &[&record[..], &hex("5F37 01 00 5F38 01 01")].concat(),
            39,
            Tag,
        );
        faulty(&[&record[..], &vec![0; 100_000]].concat(), 39, Tag);
        // One byte is missing.
        faulty(&record[..65_544], 6, Length);
        // Nothing in it is in order.
        let nothing = [&start[..], &vec![filler; 65_535]].concat();
        faulty(&nothing, 10, Tag);
    }
    // An object inside that fills the rest; 65,535 - 29 - 5 is FFDD.
    for (tag, reason) in [("5F4E", Length), ("5F4F", Tag)] {
        let mut value = [&inner[..], &hex(tag), &hex("82 FFDD")].concat();
        value.resize(65_535, b'A');
        faulty(&[&start[..], &value].concat(), 39, reason);
    }
}

#[test]
fn long_objects_in_the_record() {
    // As first object, as signature, as reference: the longest that have a length at all.
    let value = vec![b'A'; 65_535];
    faulty(
        &shortest_but(COPY, &object(&hex("5F44"), &value)),
        0,
        Length,
    );
    faulty(
        &shortest_but(SIGNATURE, &object(&hex("5F37"), &value)),
        37,
        Length,
    );
    faulty(
        &shortest_but(REFERENCE, &object(&hex("5F38"), &value)),
        41,
        Length,
    );
    faulty(&vec![0x5F; 1_000_000], 0, Tag);
    faulty(&vec![0x73; 1_000_000], 0, Tag);
    // A form with three bytes of length, though the value is there.
    let first = object_with(&hex("5F44"), &hex("83 010000"), &vec![b'A'; 65_536]);
    faulty(&shortest_but(COPY, &first), 0, Length);
    let record = shortest();
    let long = [&record[..6], &hex("73 83 010000"), &vec![b'A'; 65_536]].concat();
    faulty(&long, 6, Length);
}

// ---------------------------------------------------------------- random

/// A small generator (splitmix64).
struct Random(u64);

impl Random {
    fn below(&mut self, n: usize) -> usize {
        self.0 = self.0.wrapping_add(0x9E37_79B9_7F4A_7C15);
        let mut z = self.0;
        z = (z ^ (z >> 30)).wrapping_mul(0xBF58_476D_1CE4_E5B9);
        z = (z ^ (z >> 27)).wrapping_mul(0x94D0_49BB_1331_11EB);
        ((z ^ (z >> 31)) % n as u64) as usize
    }

    /// A byte that means something in a stamp.
    fn byte(&mut self) -> u8 {
        const BYTES: &[u8] =
            b"\x5F\x44\x73\x4C\x45\x4B\x46\x4A\x4D\x49\x48\x4E\x37\x38\x00\x01\x02\x03\x08\x0A\
              \x7F\x80\x81\x82\x83\xFE\xFF< 09AZaz";
        match self.below(4) {
            0 => self.below(256) as u8,
            _ => BYTES[self.below(BYTES.len())],
        }
    }

    /// A value of a field, now and then of a wrong size or with a wrong byte.
    fn value(&mut self, i: usize) -> Vec<u8> {
        let (_, _, fewest, most, set) = ROWS[i];
        let size = match self.below(60) {
            0 => self.below(most + 3),
            1 => fewest,
            2 => most,
            _ => fewest + self.below(most - fewest + 1),
        };
        let mut value = Vec::new();
        while value.len() < size {
            let byte = self.below(256) as u8;
            if in_set(set, byte) {
                value.push(byte);
            }
        }
        if size > 0 && self.below(60) == 0 {
            let at = self.below(size);
            value[at] = self.byte();
        }
        value
    }

    /// A record that is nearly a stamp: some fields out of order, some lengths wrong, some bytes
    /// changed, added or left out; often none of it.
    fn record(&mut self) -> Vec<u8> {
        let mut objects: [Vec<u8>; 13] = std::array::from_fn(|i| {
            let absent = if ROWS[i].1 == 'O' { 2 } else { 80 };
            if self.below(absent) == 0 {
                return vec![];
            }
            let value = self.value(i);
            match self.below(80) {
                0 => object_with(ROWS[i].0, &[0x81, value.len() as u8], &value),
                1 => object_with(ROWS[i].0, &[0x82, 0x00, value.len() as u8], &value),
                2 => object_with(ROWS[i].0, &[self.byte()], &value),
                _ => object(ROWS[i].0, &value),
            }
        });
        if self.below(20) != 0 {
            objects[STATE] = objects[COPY].clone();
        }
        if self.below(20) == 0 {
            objects.swap(self.below(13), self.below(13));
        }
        let mut record = join(&objects);
        for _ in 0..self.below(8).saturating_sub(5) {
            let at = self.below(record.len() + 1);
            let byte = self.byte();
            match self.below(4) {
                0 => record.insert(at, byte),
                1 => record.truncate(at),
                2 if at < record.len() => {
                    record.remove(at);
                }
                _ if at < record.len() => record[at] = byte,
                _ => record.push(byte),
            }
        }
        record
    }
}

/// The length at an offset: the first byte behind it, and the length, if it has a good form.
fn plain_length(record: &[u8], at: usize, end: usize) -> Option<(usize, usize)> {
    let byte = |i: usize| (i < end).then(|| usize::from(record[i]));
    let first = byte(at)?;
    let (behind, length) = match first {
        0x81 => (at + 2, byte(at + 1)?),
        0x82 => (at + 3, 256 * byte(at + 1)? + byte(at + 2)?),
        _ => (at + 1, first),
    };
    let bytes_of_length = match length {
        0..=127 => 1,
        128..=255 => 2,
        _ => 3,
    };
    // So 80 and 83 to FF, of one byte, fall out too.
    let shortest = behind - at == bytes_of_length;
    (shortest && behind + length <= end).then_some((behind, length))
}

/// The object of a field at an offset that has its tag: where its value begins, and its length.
fn plain_value(
    record: &[u8],
    i: usize,
    at: usize,
    end: usize,
) -> Result<(usize, usize), (usize, u64)> {
    let (_, _, fewest, most, set) = ROWS[i];
    let (behind, length) = plain_length(record, at + 2, end).ok_or((at, 2_u64))?;
    if length < fewest || length > most {
        return Err((at, 2));
    }
    let value = &record[behind..behind + length];
    if value.iter().any(|byte| !in_set(set, *byte)) || i == STATE && *value != record[3..6] {
        return Err((at, 3));
    }
    Ok((behind, length))
}

/// One walk over the record that ends at the first thing wrong.
fn plain_read(record: &[u8]) -> Result<Vec<(usize, usize)>, (usize, u64)> {
    let mut places = Vec::new();
    let (mut at, mut end) = (0, record.len());
    for (i, (tag, presence, ..)) in ROWS.into_iter().enumerate() {
        if i == STATE {
            if record.get(at) != Some(&0x73) {
                return Err((at, 1));
            }
            let (behind, length) = plain_length(record, at + 1, end).ok_or((at, 2_u64))?;
            at = behind;
            end = behind + length;
        }
        if i == SIGNATURE {
            if at != end {
                return Err((at, 1));
            }
            end = record.len();
        }
        if at + 2 > end || record[at..at + 2] != *tag {
            if presence == 'M' {
                return Err((at, 1));
            }
            places.push((0, 0));
            continue;
        }
        let (behind, length) = plain_value(record, i, at, end)?;
        places.push((behind, length));
        at = behind + length;
    }
    if at == end {
        Ok(places)
    } else {
        Err((at, 1))
    }
}

/// The record is the bytes of the fields at these places, which meet the table's conditions.
#[track_caller]
fn meets_the_table(record: &[u8], places: &[(usize, usize)]) {
    let values: [&[u8]; 13] =
        std::array::from_fn(|i| &record[places[i].0..places[i].0 + places[i].1]);
    for (value, (_, presence, fewest, most, set)) in values.iter().zip(ROWS) {
        let absent = presence == 'O' && value.is_empty();
        assert!(absent || (fewest..=most).contains(&value.len()));
        assert!(value.iter().all(|byte| in_set(set, *byte)));
    }
    assert_eq!(values[COPY], values[STATE]);
    let objects = std::array::from_fn(|i| match values[i] {
        [] => vec![],
        value => field(i, value),
    });
    assert_eq!(join(&objects), record);
    assert!((45..=391).contains(&record.len()));
}

/// Both readings agree. A record that is accepted is the bytes of its fields, which meet the
/// table's conditions. Gives the number of the reason, 0 for none.
#[track_caller]
fn agrees(record: &[u8]) -> usize {
    let result = read(record);
    let mut list = [FILL; 27];
    let number = read_call(record, &mut list);
    assert_eq!(list[26], FILL);
    match plain_read(record) {
        Ok(places) => {
            let fields = result.expect("a stamp");
            let found: Vec<(usize, usize)> = fields.iter().map(|p| (p.at, p.len)).collect();
            assert_eq!(found, places, "{record:02X?}");
            assert_eq!(number, 0);
            let listed: Vec<u32> = found
                .iter()
                .flat_map(|p| [p.0 as u32, p.1 as u32])
                .collect();
            assert_eq!(list[..26], listed);
            meets_the_table(record, &found);
            0
        }
        Err((at, reason)) => {
            let fault = result.expect_err("no stamp");
            assert_eq!(
                (fault.at, fault.reason.number()),
                (at, reason),
                "{record:02X?}"
            );
            assert_eq!(number, reason * 4_294_967_296 + at as u64);
            assert_eq!(list, [FILL; 27]);
            assert!(at <= 391);
            reason as usize
        }
    }
}

#[test]
fn random_stamps_agree_with_a_plain_walk() {
    let mut random = Random(11);
    let mut seen = [0_u32; 4];
    for _ in 0..60_000 {
        seen[agrees(&random.record())] += 1;
    }
    assert!(seen.iter().all(|n| *n > 2_000), "{seen:?}");
}

#[test]
fn random_bytes_agree_with_a_plain_walk() {
    let mut random = Random(391);
    for _ in 0..60_000 {
        let record: Vec<u8> = (0..random.below(60)).map(|_| random.byte()).collect();
        agrees(&record);
    }
}

/// Every change of one byte, every byte left out, every cut, of both ends of the table's range.
#[test]
fn every_small_change_agrees_with_a_plain_walk() {
    let mut seen = [0_u32; 4];
    for record in [shortest(), full()] {
        for at in 0..record.len() {
            for byte in 0x00..=0xFF {
                let mut changed = record.clone();
                changed[at] = byte;
                seen[agrees(&changed)] += 1;
            }
            seen[agrees(&record[..at])] += 1;
            seen[agrees(&[&record[..at], &record[at + 1..]].concat())] += 1;
            seen[agrees(&[&record[..at], &[0x5F], &record[at..]].concat())] += 1;
        }
    }
    assert!(seen.iter().all(|n| *n > 1_000), "{seen:?}");
}
