//! The move of a card: the refusals and their order, what is written, and commands on the new card.

use reference::{command, move_card, open, SESSION_LEN};

const FILL: u8 = 0xEE;
const LONGEST_IMAGE: usize = 262_144;
const RECORD_KINDS: [u16; 6] = [0x0101, 0x0102, 0x011A, 0x0203, 0x021A, 0x031A];

// ---------------------------------------------------------------- helpers

/// A section of `length` bytes that begins with the content; what is free is filled.
fn section(kind: u16, length: usize, content: &[u8], free: u8) -> Vec<u8> {
    assert!(content.len() <= length);
    let mut bytes = row(kind, length);
    bytes.extend(content);
    bytes.resize(6 + length, free);
    bytes
}

/// A section's head, and a row of the list.
fn row(kind: u16, length: usize) -> Vec<u8> {
    let mut bytes = (length as u32).to_le_bytes().to_vec();
    bytes.extend(kind.to_le_bytes());
    bytes
}

fn list(rows: &[(u16, usize)]) -> Vec<u8> {
    rows.iter()
        .flat_map(|(kind, length)| row(*kind, *length))
        .collect()
}

/// Count and records.
fn records(records: &[&[u8]]) -> Vec<u8> {
    let mut content = (records.len() as u16).to_le_bytes().to_vec();
    for record in records {
        content.extend((record.len() as u16).to_le_bytes());
        content.extend(*record);
    }
    content
}

/// State, w and the bytes written.
fn biometrics(state: u8, written: &[u8]) -> Vec<u8> {
    let mut content = vec![state];
    content.extend((written.len() as u32).to_le_bytes());
    content.extend(written);
    content
}

/// What the files of the card below hold.
fn contents() -> Vec<(u16, Vec<u8>)> {
    vec![
        (0x0101, records(&[b"USA", b"FRA"])),
        (0x0102, records(&[])),
        (0x011A, records(&[b"certificate"])),
        (0x031A, records(&[b"another"])),
        (0x0401, biometrics(0, &[1, 2, 3])),
        (0x0440, biometrics(1, &[4, 5])),
    ]
}

/// The card of these contents, each with `more` bytes of free room.
fn card(contents: &[(u16, Vec<u8>)], more: usize, free: u8) -> Vec<u8> {
    contents
        .iter()
        .flat_map(|(kind, content)| section(*kind, content.len() + more, content, free))
        .collect()
}

/// Rooms for these contents, each of `more` bytes more than it needs.
fn rooms(contents: &[(u16, Vec<u8>)], more: usize) -> Vec<(u16, usize)> {
    contents
        .iter()
        .map(|(kind, content)| (*kind, content.len() + more))
        .collect()
}

/// The new image, from a target that has `behind` bytes more than it needs.
#[track_caller]
fn moved(old: &[u8], rooms: &[(u16, usize)], behind: usize) -> Vec<u8> {
    let length = rooms.iter().map(|(_, length)| 6 + length).sum::<usize>();
    let mut target = vec![FILL; length + behind];
    let result = move_card(old, &list(rooms), &mut target);
    assert_eq!(result, length as u64);
    assert!(target[length..].iter().all(|byte| *byte == FILL), "tail");
    target.truncate(length);
    target
}

/// The refusal of a move, and that it left the target alone.
#[track_caller]
fn refusal(old: &[u8], list: &[u8], target_len: usize) -> u64 {
    let mut target = vec![FILL; target_len];
    let result = move_card(old, list, &mut target);
    if result >> 32 != 0 {
        assert_eq!(result as u32, 0, "length of a refusal");
        assert!(target.iter().all(|byte| *byte == FILL), "target");
    }
    result >> 32
}

/// The answer to each command on a card, data and status, in a session with all rights.
fn answers(image: &mut [u8], commands: &[&[u8]]) -> Vec<Vec<u8>> {
    let mut session = [0; SESSION_LEN];
    assert_eq!(open(&[0xFF; 60], &mut session), 0);
    let mut run = |bytes: &&[u8]| {
        let mut response = [FILL; 2_050];
        let result = command(image, &mut session, bytes, &mut response);
        assert_eq!(result >> 32, 0);
        response[..usize::from((result >> 16) as u16)].to_vec()
    };
    commands.iter().map(&mut run).collect()
}

const TRAVEL: &[u8] = b"\x00\xA4\x04\x0C\x07\xA0\x00\x00\x02\x47\x20\x01";
const VISA: &[u8] = b"\x00\xA4\x04\x0C\x07\xA0\x00\x00\x02\x47\x20\x02";
const READ_ALL: &[u8] = b"\x00\xB2\x01\x0D\x00\x00\x00";
const SEARCH_FRA: &[u8] = b"\x00\xA2\x00\xF8\x1C\x7F\x76\x19\x51\x01\x01\xA1\x0B\x80\x01\x00\
    \xB0\x06\x02\x01\x00\x02\x01\x00\xA3\x07\xB1\x05\x81\x03FRA\x00";
const OK: &[u8] = &[0x90, 0x00];

// ---------------------------------------------------------------- refusals

#[test]
fn refusal_2_old_image() {
    let good = card(&contents(), 3, 0xAA);
    let wanted = list(&rooms(&contents(), 3));
    assert_eq!(refusal(&good, &wanted, good.len()), 0);
    for length in 1..good.len() {
        let cut = &good[..length];
        // The travel application alone and the certificates of biometrics alone are cards too.
        let expected = if answers_as_image(cut) { 11 } else { 2 };
        assert_eq!(refusal(cut, &list(&[]), 0), expected, "cut at {length}");
    }
    assert_eq!(refusal(&vec![0; LONGEST_IMAGE + 1], &[], 0), 2);
}

/// Whether a command takes these bytes for an image.
fn answers_as_image(image: &[u8]) -> bool {
    let mut session = [0; SESSION_LEN];
    assert_eq!(open(&[0; 60], &mut session), 0);
    command(&mut image.to_vec(), &mut session, &[], &mut [0; 2_050]) >> 32 == 0
}

/// The refusal of a list for a card with nothing on it.
fn laid_out(rows: &[(u16, usize)]) -> u64 {
    refusal(&[], &list(rows), LONGEST_IMAGE)
}

#[test]
fn refusal_10_kinds() {
    assert_eq!(laid_out(&[]), 0);
    assert_eq!(laid_out(&RECORD_KINDS.map(|kind| (kind, 2))), 0);
    for kind in [
        0x0000, 0x0001, 0x0100, 0x0103, 0x0201, 0x0301, 0x0400, 0x0441, 0xFFFF,
    ] {
        assert_eq!(laid_out(&[(kind, 9)]), 10, "{kind:04X}");
    }
    // Equal kinds, and a kind below the one before.
    assert_eq!(laid_out(&[(0x031A, 2), (0x031A, 2)]), 10);
    assert_eq!(laid_out(&[(0x021A, 2), (0x0203, 2)]), 10);
    assert_eq!(laid_out(&[(0x0401, 5), (0x031A, 2)]), 10);
}

#[test]
fn refusal_10_applications() {
    for missing in RECORD_KINDS {
        let mut rows: Vec<(u16, usize)> = RECORD_KINDS.map(|kind| (kind, 2)).to_vec();
        rows.push((0x0440, 5));
        rows.retain(|(kind, _)| *kind != missing);
        assert_eq!(laid_out(&rows), 10, "{missing:04X}");
    }
    assert_eq!(laid_out(&[(0x0203, 2), (0x021A, 2)]), 0);
    assert_eq!(laid_out(&[(0x031A, 2)]), 0);
    assert_eq!(laid_out(&[(0x0401, 5)]), 10);
}

#[test]
fn refusal_10_rooms() {
    for (length, expected) in [(0, 10), (1, 10), (2, 0), (3, 0)] {
        assert_eq!(laid_out(&[(0x031A, length)]), expected, "{length}");
    }
    for (length, expected) in [
        (0, 10),
        (4, 10),
        (5, 0),
        (32_774, 0),
        (131_077, 0),
        (131_078, 10),
    ] {
        let rows = [(0x031A, 2), (0x0405, length)];
        assert_eq!(laid_out(&rows), expected, "{length}");
    }
}

#[test]
fn refusal_10_length() {
    let longest = LONGEST_IMAGE - 6;
    for (length, expected) in [
        (longest, 0),
        (longest + 1, 10),
        (LONGEST_IMAGE, 10),
        (LONGEST_IMAGE + 1, 10),
        (0xFFFF_FFFF, 10),
    ] {
        assert_eq!(laid_out(&[(0x031A, length)]), expected, "{length}");
    }
    let travel = |length| [(0x0101, length), (0x0102, 100_000), (0x011A, 100_000)];
    assert_eq!(laid_out(&travel(LONGEST_IMAGE - 200_018)), 0);
    assert_eq!(laid_out(&travel(LONGEST_IMAGE - 200_017)), 10);
    // Lengths that would make up a small image in 32 bits.
    let half = 0x8000_0000;
    assert_eq!(laid_out(&[(0x0203, half), (0x021A, half - 12)]), 10);
}

#[test]
fn refusal_10_torn_list() {
    let whole = list(&[(0x0203, 2), (0x021A, 2)]);
    for length in 0..=whole.len() {
        let expected = if length % 12 == 0 { 0 } else { 10 };
        assert_eq!(refusal(&[], &whole[..length], 99), expected, "{length}");
    }
    assert_eq!(refusal(&[], &[&whole[..], &[0]].concat(), 99), 10);
}

/// A list is good where the image of its sections, with all bodies zero, is well formed.
#[test]
fn refusal_10_is_an_empty_image_not_well_formed() {
    let mut random = Random(14);
    let (mut good, mut bad) = (0, 0);
    for _ in 0..3_000 {
        let rows = random.rows();
        let empty: Vec<u8> = rows
            .iter()
            .flat_map(|(kind, length)| section(*kind, *length, &[], 0))
            .collect();
        let expected = if answers_as_image(&empty) { 0 } else { 10 };
        assert_eq!(laid_out(&rows), expected, "{rows:04X?}");
        match expected {
            0 => good += 1,
            _ => bad += 1,
        }
    }
    assert!(good > 300 && bad > 300, "{good} good, {bad} bad");
}

#[test]
fn refusal_11_missing_kind() {
    let (old, whole) = (card(&contents(), 3, 0xAA), rooms(&contents(), 3));
    let without = |kinds: &[u16]| {
        let mut rows = whole.clone();
        rows.retain(|(kind, _)| !kinds.contains(kind));
        refusal(&old, &list(&rows), LONGEST_IMAGE)
    };
    assert_eq!(without(&[]), 0);
    assert_eq!(without(&[0x0401]), 11);
    assert_eq!(without(&[0x0440]), 11);
    assert_eq!(without(&[0x0101, 0x0102, 0x011A]), 11);
    assert_eq!(without(&[0x031A, 0x0401, 0x0440]), 11);
    // What is missing may be empty.
    let empty = card(&[(0x031A, records(&[]))], 0, 0);
    assert_eq!(refusal(&empty, &list(&[]), 0), 11);
    // One kind in place of another.
    let mut rows = whole.clone();
    rows[4].0 = 0x0402;
    assert_eq!(refusal(&old, &list(&rows), LONGEST_IMAGE), 11);
}

#[test]
fn refusal_12_small_room() {
    let old = card(&contents(), 3, 0xAA);
    for i in 0..contents().len() {
        let mut rows = rooms(&contents(), 0);
        assert_eq!(refusal(&old, &list(&rows), LONGEST_IMAGE), 0);
        rows[i].1 -= 1;
        // A room that not even an empty file has is no room at all.
        let expected = if rows[i].1 < 2 { 10 } else { 12 };
        assert_eq!(refusal(&old, &list(&rows), LONGEST_IMAGE), expected, "{i}");
    }
}

#[test]
fn refusal_13_short_target() {
    let old = card(&contents(), 3, 0xAA);
    let rows = rooms(&contents(), 7);
    let length = rows.iter().map(|(_, length)| 6 + length).sum::<usize>();
    for target_len in 0..length {
        assert_eq!(refusal(&old, &list(&rows), target_len), 13);
    }
    assert_eq!(refusal(&old, &list(&rows), length), 0);
    assert_eq!(refusal(&[], &[], 0), 0);
}

#[test]
fn the_order_of_refusals() {
    let old = card(&contents(), 3, 0xAA);
    let good = rooms(&contents(), 0);
    let small = |rows: &[(u16, usize)]| {
        let mut rows = rows.to_vec();
        rows[0].1 -= 1;
        rows
    };
    let missing = [&good[..5], &[]].concat();
    let torn = |rows: &[(u16, usize)]| [list(rows), vec![0]].concat();
    // 2 before all.
    for wanted in [
        torn(&good),
        list(&missing),
        list(&small(&good)),
        list(&good),
    ] {
        assert_eq!(refusal(&old[1..], &wanted, 0), 2);
    }
    // 10 before 11, 12 and 13.
    assert_eq!(refusal(&old, &torn(&missing), LONGEST_IMAGE), 10);
    assert_eq!(refusal(&old, &torn(&small(&good)), LONGEST_IMAGE), 10);
    assert_eq!(refusal(&old, &torn(&good), 0), 10);
    // 11 before 12 and 13, though the small room comes first in the list.
    assert_eq!(refusal(&old, &list(&small(&missing)), LONGEST_IMAGE), 11);
    assert_eq!(refusal(&old, &list(&missing), 0), 11);
    // 12 before 13.
    assert_eq!(refusal(&old, &list(&small(&good)), 0), 12);
}

// ---------------------------------------------------------------- what is written

#[test]
fn the_same_sizes() {
    let rows = rooms(&contents(), 9);
    let zero = card(&contents(), 9, 0);
    assert_eq!(moved(&zero, &rows, 0), zero);
    // Free bytes become zero.
    assert_eq!(moved(&card(&contents(), 9, 0xAA), &rows, 0), zero);
    assert_eq!(moved(&[], &[], 0), []);
}

#[test]
fn larger_and_smaller_rooms() {
    for (before, after) in [(0, 0), (0, 1), (3, 500), (500, 3), (9, 0)] {
        let old = card(&contents(), before, 0xAA);
        let new = moved(&old, &rooms(&contents(), after), 0);
        assert_eq!(new, card(&contents(), after, 0), "{before} to {after}");
    }
}

#[test]
fn a_longer_target_keeps_its_tail() {
    let old = card(&contents(), 3, 0xAA);
    for behind in [1, 2, 500] {
        let new = moved(&old, &rooms(&contents(), 4), behind);
        assert_eq!(new, card(&contents(), 4, 0));
    }
    assert_eq!(moved(&[], &[], 40), []);
}

#[test]
fn moved_twice() {
    let old = card(&contents(), 3, 0xAA);
    let once = moved(&old, &rooms(&contents(), 40), 2);
    let twice = moved(&once, &rooms(&contents(), 0), 5);
    assert_eq!(twice, card(&contents(), 0, 0));
    assert_eq!(twice, moved(&old, &rooms(&contents(), 0), 0));
}

#[test]
fn kinds_that_are_new() {
    let mut wanted = contents();
    wanted.insert(3, (0x0203, records(&[])));
    wanted.insert(4, (0x021A, records(&[])));
    wanted.insert(7, (0x0402, biometrics(0, &[])));
    let new = moved(&card(&contents(), 3, 0xAA), &rooms(&wanted, 30), 0);
    assert_eq!(new, card(&wanted, 30, 0));
    // Onto a chip with nothing on it.
    let empty = [
        (0x031A, records(&[])),
        (0x0401, biometrics(0, &[])),
        (0x0402, biometrics(0, &[])),
    ];
    assert_eq!(moved(&[], &rooms(&empty, 8), 1), card(&empty, 8, 0));
}

#[test]
fn the_longest_card() {
    let mut full = vec![(0x031A, records(&[&[9; 929][..]; 64]))];
    full.push((0x0401, biometrics(1, &vec![7; 131_072])));
    let left = LONGEST_IMAGE - card(&full, 0, 0).len() - 6 - 5;
    full.push((0x0440, biometrics(0, &vec![8; left])));
    let old = card(&full, 0, 0);
    assert_eq!(old.len(), LONGEST_IMAGE);
    assert_eq!(moved(&old, &rooms(&full, 0), 3), old);
}

// ---------------------------------------------------------------- commands on the new card

#[test]
fn a_grown_card_reads_as_before_and_takes_more() {
    let mut old = card(&contents(), 0, 0);
    let mut new = moved(&old, &rooms(&contents(), 5), 0);
    let append: &[u8] = b"\x00\xE2\x00\x08\x03DEU";
    let asked = [TRAVEL, READ_ALL, SEARCH_FRA, append, READ_ALL];
    let matches: &[u8] = b"\x7F\x76\x06\x51\x01\x01\x02\x01\x02\x90\x00";
    let two: &[u8] = b"USAFRA\x90\x00";
    let full: &[u8] = &[0x6A, 0x84];
    assert_eq!(answers(&mut old, &asked), [OK, two, matches, full, two]);
    let three: &[u8] = b"USAFRADEU\x90\x00";
    assert_eq!(answers(&mut new, &asked), [OK, two, matches, OK, three]);
    // And the card that took more moves on.
    let mut contents = contents();
    contents[0].1 = records(&[b"USA", b"FRA", b"DEU"]);
    let again = moved(&new, &rooms(&contents, 12), 0);
    assert_eq!(again, card(&contents, 12, 0));
}

#[test]
fn an_application_that_was_added_is_there() {
    let old = card(&contents(), 3, 0xAA);
    let mut wanted = contents();
    wanted.insert(3, (0x0203, records(&[])));
    wanted.insert(4, (0x021A, records(&[])));
    let mut new = moved(&old, &rooms(&wanted, 20), 0);
    let append: &[u8] = b"\x00\xE2\x00\x18\x04visa";
    let read: &[u8] = b"\x00\xB2\x01\x1D\x00\x00\x00";
    let none: &[u8] = &[0x6A, 0x83];
    assert_eq!(answers(&mut old.clone(), &[VISA]), [[0x6A, 0x82]]);
    assert_eq!(
        answers(&mut new, &[VISA, read, append, read]),
        [OK, none, OK, b"visa\x90\x00"]
    );
}

// ---------------------------------------------------------------- random lists

/// A small generator (splitmix64).
struct Random(u64);

impl Random {
    fn below(&mut self, n: usize) -> usize {
        self.0 = self.0.wrapping_add(0x9E37_79B9_7F4A_7C15);
        let mut z = self.0;
        z = (z ^ (z >> 30)).wrapping_mul(0xBF58_476D_1CE4_E5B9);
        z = (z ^ (z >> 27)).wrapping_mul(0x94D0_49BB_1331_11EB);
        ((z ^ (z >> 31)) % n as u64) as usize
    }

    /// Rows of whole applications, mostly, now and then with a row dropped, doubled or changed.
    fn rows(&mut self) -> Vec<(u16, usize)> {
        let present = self.below(8);
        let mut rows = Vec::new();
        for kind in RECORD_KINDS {
            if present & (1 << ((kind >> 8) - 1)) != 0 {
                let length = [2, 2, 3, 40][self.below(4)];
                rows.push((kind, length));
            }
        }
        if present & 4 != 0 && self.below(2) == 0 {
            rows.push((0x0401 + self.below(64) as u16, 5 + self.below(9)));
        }
        if self.below(3) == 0 && !rows.is_empty() {
            let at = self.below(rows.len());
            match self.below(5) {
                0 => drop(rows.remove(at)),
                1 => rows.insert(at, rows[at]),
                2 => rows[at].0 ^= 1 << self.below(16),
                3 => rows[at].1 = [0, 1, 4, 131_077, 131_078, 262_138, 262_139][self.below(7)],
                _ => rows.swap(0, at),
            }
        }
        rows
    }
}
