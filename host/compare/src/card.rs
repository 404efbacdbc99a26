//! Made-up card images, good ones and damaged ones.

use crate::make::{self, Rule, RULES};
use crate::random::Random;
use crate::view;

/// How large images may get: a sample that has to fit into one file keeps them small.
#[derive(Clone, Copy, PartialEq, Eq)]
pub enum Size {
    Small,
    Any,
}

/// How full a record file is.
#[derive(Clone, Copy)]
enum Fill {
    Empty,
    Some,
    /// As many records as the file may have.
    Count,
    /// No room for even one byte.
    Room,
    /// Room for exactly one record more.
    One,
    /// About as many records as a reply of 256 bytes lists.
    Reply,
}

/// One card in so many has a large biometrics file, or two. They are rare, since each call
/// compares all bytes of the image.
const LARGE: usize = 20;

/// A well-formed image with some of the applications.
pub fn image(random: &mut Random, size: Size) -> Vec<u8> {
    if size == Size::Any && random.one_in(LARGE) {
        return large(random);
    }
    let present = if random.coin() { 7 } else { random.below(8) };
    let mut image = record_files(random, size, present);
    if present & 4 != 0 {
        for n in biometrics_numbers(random) {
            let body = biometrics_body(random, size);
            image.extend(make::section(make::BIOMETRICS_KIND + n, &body));
        }
    }
    if size == Size::Any && present & 4 != 0 && random.one_in(200) {
        grow_to_the_longest(random, &mut image);
    }
    image
}

/// The record files of these applications: b1 travel, b2 visa, b3 biometrics.
fn record_files(random: &mut Random, size: Size, present: usize) -> Vec<u8> {
    RULES
        .iter()
        .filter(|rule| present & (1 << (rule.application - 1)) != 0)
        .flat_map(|rule| make::section(rule.kind, &record_body(random, size, rule)))
        .collect()
}

fn record_body(random: &mut Random, size: Size, rule: &Rule) -> Vec<u8> {
    let fill = random.weighted(&[
        (3, Fill::Empty),
        (8, Fill::Some),
        (1, Fill::Count),
        (1, Fill::Room),
        (2, Fill::One),
        (2, Fill::Reply),
    ]);
    let count = match fill {
        Fill::Empty => 0,
        Fill::Some | Fill::One => random.between(1, 9),
        Fill::Room => random.below(9),
        Fill::Count => rule.most,
        Fill::Reply => random.between(81, 85).min(rule.most),
    };
    let longest = longest_record(random, size, rule, count);
    let mut body = make::records(&some_records(random, count, longest));
    let free = match fill {
        Fill::Room => random.below(3),
        Fill::One => 2 + random.between(1, longest),
        _ => some_free_room(random, size, rule),
    };
    body.extend(random.bytes(free));
    body
}

/// The longest record a made-up file has; the more records, the shorter they are.
fn longest_record(random: &mut Random, size: Size, rule: &Rule, count: usize) -> usize {
    match size {
        Size::Any if random.one_in(12) => rule.longest,
        _ if count > 50 => random.between(1, 3),
        Size::Any => random.pick(&[4, 12, 40, 130]),
        Size::Small => random.pick(&[4, 12, 20]),
    }
}

/// Records of one alphabet, all of them of the greatest length or each of its own.
fn some_records(random: &mut Random, count: usize, longest: usize) -> Vec<Vec<u8>> {
    let alike = random.one_in(4);
    let only_a = random.one_in(3);
    (0..count)
        .map(|_| {
            let length = if alike {
                longest
            } else {
                random.between(1, longest)
            };
            if only_a {
                vec![b'a'; length]
            } else {
                random.text(length)
            }
        })
        .collect()
}

/// Free room, also such that one record of the greatest length just fits or just does not.
fn some_free_room(random: &mut Random, size: Size, rule: &Rule) -> usize {
    match (size, random.below(8)) {
        (_, 0) => random.below(4),
        (Size::Any, 1) => random.near(2 + rule.longest),
        (Size::Any, 2) => random.near(2 * (2 + rule.longest)),
        (Size::Any, 3) => random.below(3_000),
        _ => random.below(90),
    }
}

/// Some of the numbers 1 to 64, rising, the first and the last more often than others.
fn biometrics_numbers(random: &mut Random) -> Vec<u16> {
    let count = random.weighted(&[(1, 0), (2, 2), (3, 5), (2, 8)]);
    let mut numbers: Vec<u16> = (0..count)
        .map(|_| match random.below(4) {
            0 => random.pick(&[1, 2, 3, 4, 5, 60, 61, 64]),
            _ => random.between(1, 64) as u16,
        })
        .collect();
    numbers.sort_unstable();
    numbers.dedup();
    numbers
}

fn biometrics_body(random: &mut Random, size: Size) -> Vec<u8> {
    let room = match (size, random.below(12)) {
        (_, 0) => random.below(3),
        (_, 1) => random.near(256),
        (Size::Any, 2..=5) => random.near(2_048) + random.below(300),
        _ => random.between(1, 80),
    };
    let written = match random.below(4) {
        0 => 0,
        1 => room,
        2 => random.near(room).min(room),
        _ => random.between(0, room),
    };
    biometrics(random, written, room)
}

/// A biometrics body of random bytes, Deactivated mostly.
fn biometrics(random: &mut Random, written: usize, room: usize) -> Vec<u8> {
    let state = u8::from(random.one_in(5));
    let bytes = random.bytes(room);
    make::biometrics(state, written, &bytes)
}

/// A card with a biometrics file of 32,767 bytes or more, and at times a second one as far as
/// the image has room for it. The other files are small, since a large one costs enough.
fn large(random: &mut Random) -> Vec<u8> {
    let present = 4 | random.below(4);
    let mut image = record_files(random, Size::Small, present);
    let mut numbers = biometrics_numbers(random);
    if numbers.is_empty() {
        numbers.push(1);
    }
    numbers.truncate(3);
    let two = random.one_in(12);
    for (at, n) in numbers.iter().enumerate() {
        // What the image has room for, a small file behind it and the heads aside.
        let left = make::LONGEST_IMAGE - image.len() - 1_000;
        let body = match at {
            0 => large_body(random, make::LARGEST_ROOM),
            1 if two => large_body(random, left.min(make::LARGEST_ROOM)),
            _ => biometrics_body(random, Size::Small),
        };
        image.extend(make::section(make::BIOMETRICS_KIND + n, &body));
    }
    image
}

/// The first numbers that 15 and 16 bits do not hold.
const BORDERS: [usize; 2] = [0x8000, 0x1_0000];

/// A large body: its room and what is written at the most, at a border, or between.
fn large_body(random: &mut Random, most: usize) -> Vec<u8> {
    let room = match random.below(8) {
        0..=3 => most - random.pick(&[0, 0, 0, 1, 2]),
        4 => random.near(BORDERS[0]),
        5 => random.near(BORDERS[1]),
        _ => random.between(BORDERS[0], most),
    };
    let written = match random.below(10) {
        0..=2 => room,
        3 => room - random.below(2_100),
        4 => random.near(BORDERS[0]),
        5 => random.near(BORDERS[1]),
        6 => BORDERS[1] - random.below(2_100),
        7 => random.below(300),
        _ => random.between(BORDERS[0] - 1, room),
    };
    biometrics(random, written.min(room), room)
}

/// Makes the last section longer, so that the image is as long as an image may be, almost, or
/// one byte longer; nothing where the last section may not be so long.
fn grow_to_the_longest(random: &mut Random, image: &mut Vec<u8>) {
    let Some((kind, body)) = view::sections(image).pop() else {
        return;
    };
    let target = random.near(make::LONGEST_IMAGE);
    if kind < make::BIOMETRICS_KIND && image.len() < target {
        let length = body.len() + target - image.len();
        put_u32(image, body.start - make::SECTION_HEADER, length);
        image.resize(target, 0xA7);
    }
}

fn put_u32(bytes: &mut [u8], at: usize, number: usize) {
    bytes[at..at + 4].copy_from_slice(&(number as u32).to_le_bytes());
}

/// The image with one thing wrong; now and then the damage lies where no rule looks.
pub fn damaged(random: &mut Random, image: &[u8], size: Size) -> Vec<u8> {
    if size == Size::Any && random.one_in(6) {
        return at_the_limit(random);
    }
    let mut bytes = image.to_vec();
    let parts = view::sections(image);
    match random.below(14) {
        0 if !bytes.is_empty() => {
            let at = random.below(bytes.len());
            bytes[at] ^= 1 << random.below(8);
        }
        1 => bytes.truncate(random.below(image.len() + 1)),
        2 => {
            let n = random.between(1, 12);
            bytes.extend(random.bytes(n));
        }
        3 => return rearranged(random, image, &parts),
        4 => {
            let n = random.below(60);
            return random.bytes(n);
        }
        5 => bytes.clear(),
        6 => return with_another_section(random, image),
        _ if parts.is_empty() => bytes.push(random.byte()),
        _ => change_a_section(random, &mut bytes, &parts),
    }
    bytes
}

/// A kind to ask for: one that the image has, one that an image may have, or none of these: a
/// file's id, a kind beside those of the rules, any number.
pub fn kind(random: &mut Random, image: &[u8]) -> u16 {
    let parts = view::sections(image);
    match random.below(10) {
        0..=4 if !parts.is_empty() => parts[random.below(parts.len())].0,
        5 => make::BIOMETRICS_KIND + random.between(0, 65) as u16,
        6 => random.pick(&[0x0103, 0x0205, 0x2F00, 0x2F01, 0x3F00]),
        7 => random.pick(&[
            0x0000, 0x0001, 0x0100, 0x001A, 0x1A01, 0x0301, 0x041A, 0xFFFF,
        ]),
        8 => random.draw() as u16,
        _ => RULES[random.below(RULES.len())].kind,
    }
}

/// Another card, with one thing as large as it may be, or one larger.
fn at_the_limit(random: &mut Random) -> Vec<u8> {
    let large = &RULES[random.below(RULES.len())];
    let more = random.below(2);
    let what = random.below(4);
    let mut image = Vec::new();
    for rule in &RULES {
        let body = match what {
            0 if rule.kind == large.kind => make::records(&vec![[7]; rule.most + more]),
            1 if rule.kind == large.kind => make::records(&[vec![7; rule.longest + more]]),
            _ => vec![0; 2],
        };
        image.extend(make::section(rule.kind, &body));
    }
    match what {
        2 => {
            let room = vec![7; make::LARGEST_ROOM + more];
            let body = make::biometrics(0, random.near(room.len()), &room);
            image.extend(make::section(make::BIOMETRICS_KIND + 1, &body));
        }
        3 => grow_to_the_longest(random, &mut image),
        _ => {}
    }
    image
}

/// Two sections swapped, one doubled or one dropped.
fn rearranged(
    random: &mut Random,
    image: &[u8],
    parts: &[(u16, std::ops::Range<usize>)],
) -> Vec<u8> {
    let mut whole: Vec<&[u8]> = parts
        .iter()
        .map(|(_, body)| &image[body.start - make::SECTION_HEADER..body.end])
        .collect();
    if whole.is_empty() {
        return vec![0];
    }
    let at = random.below(whole.len());
    match random.below(3) {
        0 => {
            let other = random.below(whole.len());
            whole.swap(at, other);
        }
        1 => whole.insert(at, whole[at]),
        _ => drop(whole.remove(at)),
    }
    whole.concat()
}

/// A section of a kind that is not known, or one that another section may want.
fn with_another_section(random: &mut Random, image: &[u8]) -> Vec<u8> {
    let kind = random.pick(&[
        0x0000, 0x0100, 0x0103, 0x0201, 0x0400, 0x0441, 0x0440, 0xFFFF,
    ]);
    let length = random.pick(&[0, 1, 2, 5, 9]);
    let new = make::section(kind, &vec![0; length]);
    if random.coin() {
        [image, &new].concat()
    } else {
        [&new, image].concat()
    }
}

/// A length, kind, count, state or written length changed, at its place in the section.
fn change_a_section(
    random: &mut Random,
    bytes: &mut [u8],
    parts: &[(u16, std::ops::Range<usize>)],
) {
    let (kind, body) = &parts[random.below(parts.len())];
    let (kind, start, end) = (*kind, body.start, body.end);
    match random.below(3) {
        0 => {
            let length = random.near(end - start);
            put_u32(bytes, start - make::SECTION_HEADER, length);
            return;
        }
        1 if random.one_in(3) => {
            bytes[start - 2] = random.byte();
            return;
        }
        _ => {}
    }
    if kind > make::BIOMETRICS_KIND {
        if random.coin() {
            bytes[start] = random.pick(&[0, 1, 2, 0x80, 0xFF]);
        } else {
            let written = random.pick(&[end - start - 5, end - start - 4, 0x0100_0000]);
            put_u32(bytes, start + 1, written);
        }
    } else {
        change_records(random, &mut bytes[start..end]);
    }
}

/// A count or a record's length raised, lowered or set to where a border is.
fn change_records(random: &mut Random, body: &mut [u8]) {
    let read = |body: &[u8], at: usize| usize::from(u16::from_le_bytes([body[at], body[at + 1]]));
    let count = read(body, 0);
    let mut at = 0;
    let mut number = random.near(count);
    if random.coin() && count > 0 {
        at = 2;
        for _ in 0..random.below(count) {
            at += 2 + read(body, at);
        }
        let length = read(body, at);
        number = random.near(length);
    }
    let odd = random.pick(&[
        0, 64, 65, 254, 255, 256, 391, 392, 512, 513, 929, 930, 0xFFFF,
    ]);
    if random.coin() {
        number = odd;
    }
    body[at..at + 2].copy_from_slice(&(number as u16).to_le_bytes());
}
