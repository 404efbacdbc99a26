//! Cards to draw.

use compare::card::{self, Size};
use compare::make::{self, RULES};
use compare::random::Random;

/// The commands m1 to m10 (`docs/RULES.md`, T1) that change the card: two records, and one of 20 bytes.
const WORKED: [&[u8]; 4] = [
    &[
        0x00, 0xA4, 0x04, 0x0C, 7, 0xA0, 0x00, 0x00, 0x02, 0x47, 0x20, 0x01,
    ],
    &[
        0x00, 0xE2, 0x00, 0x08, 6, 0x5F, 0x44, 0x03, 0x55, 0x53, 0x41,
    ],
    &[
        0x00, 0xE2, 0x00, 0x08, 6, 0x5F, 0x44, 0x03, 0x46, 0x52, 0x41,
    ],
    &[
        0x00, 0xE2, 0x00, 0x08, 20, 0, 1, 2, 3, 4, 5, 6, 7, 8, 9, 10, 11, 12, 13, 14, 15, 16, 17,
        18, 19,
    ],
];

pub fn empty_files(room: usize) -> Vec<u8> {
    let section = |kind| make::section(kind, &vec![0; room]);
    [0x0101, 0x0102, 0x011A].map(section).concat()
}

/// The card to try after m1 to m10.
pub fn to_try() -> Vec<u8> {
    let mut image = empty_files(40);
    let mut session = malquindo::open(&[0xFF; 60]).unwrap();
    let mut response = [0; malquindo::RESPONSE_LEN];
    for command in WORKED {
        let answer = malquindo::command(&mut image, &mut session, command, &mut response).unwrap();
        assert_eq!(answer.status, 0x9000);
    }
    image
}

/// Every file with as many records as it may have, and 64 biometrics files.
pub fn full(record: usize, free: usize, room: usize) -> Vec<u8> {
    let mut image = Vec::new();
    for rule in &RULES {
        let mut body = make::records(&vec![vec![5; record]; rule.most]);
        body.resize(body.len() + free, 0);
        image.extend(make::section(rule.kind, &body));
    }
    for n in 1..=64 {
        let written = room * usize::from(n) / 64;
        let body = make::biometrics(u8::from(n % 3 == 0), written, &vec![9; room]);
        image.extend(make::section(make::BIOMETRICS_KIND + n, &body));
    }
    image
}

/// A few files of each application, of mixed sizes.
pub fn small() -> Vec<u8> {
    let records = |lengths: &[usize], free: usize| {
        let records: Vec<Vec<u8>> = lengths.iter().map(|length| vec![7; *length]).collect();
        let mut body = make::records(&records);
        body.resize(body.len() + free, 0);
        body
    };
    [
        make::section(0x0101, &records(&[60, 12, 3, 3, 90, 41, 8], 150)),
        make::section(0x0102, &records(&[30, 30], 300)),
        make::section(0x011A, &records(&[200, 180], 20)),
        make::section(0x0203, &records(&[], 100)),
        make::section(0x021A, &records(&[1], 0)),
        make::section(0x031A, &records(&[33; 5], 60)),
        make::section(0x0401, &make::biometrics(1, 120, &[1; 120])),
        make::section(0x0402, &make::biometrics(0, 60, &[1; 200])),
        make::section(0x0405, &make::biometrics(0, 0, &[0; 64])),
        make::section(0x0440, &make::biometrics(1, 0, &[])),
    ]
    .concat()
}

/// A file of records of one byte beside one that is as long as a file can be.
pub fn uneven() -> Vec<u8> {
    let mut long = make::records(&vec![[7; 391]; 254]);
    long.resize(200_000, 0);
    [
        make::section(0x0101, &make::records(&vec![[7]; 254])),
        make::section(0x0102, &long),
        make::section(0x011A, &make::records(&[[7]])),
    ]
    .concat()
}

/// A full biometrics file in the largest room, one that has as much room as the image leaves, and a
/// small one beside them.
pub fn large() -> Vec<u8> {
    let biometrics = |state, written, room| make::biometrics(state, written, &vec![9; room]);
    let largest = make::LARGEST_ROOM;
    [
        make::section(0x031A, &make::records(&[[7; 40]])),
        make::section(0x0401, &biometrics(1, largest, largest)),
        make::section(0x0402, &biometrics(0, 65_537, 130_000)),
        make::section(0x0440, &biometrics(0, 9, 16)),
    ]
    .concat()
}

/// Cards of every sort, each with a name.
pub fn all() -> Vec<(String, Vec<u8>)> {
    let mut cards = vec![
        ("no bytes".to_string(), Vec::new()),
        ("no room".to_string(), empty_files(2)),
        ("empty files".to_string(), empty_files(40)),
        ("large empty files".to_string(), empty_files(87_000)),
        ("the card to try".to_string(), to_try()),
        ("small".to_string(), small()),
        ("uneven".to_string(), uneven()),
        ("large".to_string(), large()),
        ("full, short records".to_string(), full(1, 0, 0)),
        ("full".to_string(), full(100, 100, 1_800)),
        ("full, larger biometrics".to_string(), full(20, 3, 3_300)),
    ];
    let mut random = Random::new(14);
    for i in 0..300 {
        let size = if i % 2 == 0 { Size::Any } else { Size::Small };
        let image = card::image(&mut random, size);
        // One in many is made a byte too long on purpose.
        if image.len() <= make::LONGEST_IMAGE {
            cards.push((format!("random {i}"), image));
        }
    }
    cards
}
