//! Files that are read by READ BINARY B1 and written at offsets of up to three bytes: on a small
//! card each status word and each edge of a reply's length, then a file of the largest room there
//! is, which is written to its end.

use crate::hex::hex;
use crate::line::{card, moved, opened, refused, run, select, Line};
use crate::make::{self, Apdu, LARGEST_ROOM, RIGHTS_LEN};

const CERTIFICATES: u16 = 0x031A;
/// A file of [`SIZE`] bytes, an empty one, and one that the session may not read: their kinds.
const FULL: u16 = 0x0401;
const EMPTY: u16 = 0x0402;
const CLOSED: u16 = 0x0403;
/// Their ids in the application, and that of a record file there.
const FULL_ID: u16 = 0x0201;
const EMPTY_ID: u16 = 0x0202;
const CLOSED_ID: u16 = 0x0203;
const CERTIFICATES_ID: u16 = 0x011A;

/// The bytes written in the small file: enough for the longest reply.
const SIZE: usize = 2_100;
const LARGEST_BODY: usize = 5 + LARGEST_ROOM;

const ATR_INFO: [u8; 16] = [
    0x47, 0x03, 0x86, 0x01, 0xE0, 0x7F, 0x66, 0x08, 0x02, 0x02, 0x04, 0x00, 0x02, 0x02, 0x08, 0x02,
];

pub fn lines() -> Vec<Line> {
    [
        the_master_files_files(),
        no_file_to_read(),
        not_as_b1_is_written(),
        every_length(),
        offsets(),
        the_end(),
        the_same_by_b0(),
        written_at_three_bytes(),
        windows_of_three_bytes(),
        to_the_largest_room(),
        the_largest_file(),
    ]
    .concat()
}

/// The byte of a file at this place. Places that differ in one byte of their number differ here.
fn byte(at: usize) -> u8 {
    (at + 7 * (at >> 8) + 11 * (at >> 16)) as u8
}

/// So many bytes of a file from an offset on.
fn bytes(offset: usize, count: usize) -> Vec<u8> {
    (offset..offset + count).map(byte).collect()
}

/// The answer of B0 with so many bytes from an offset on.
fn plain(offset: usize, count: usize) -> String {
    format!("{}9000", hex(&bytes(offset, count)))
}

/// A reply of these bytes: wrapped, and the status word.
fn wrapped(bytes: &[u8]) -> String {
    format!("{}9000", hex(&make::object(&[0x53], bytes)))
}

/// B1 of a file, with an offset in so many bytes, for a reply of at most `ne` bytes.
fn b1(id: u16, offset: usize, of: usize, ne: usize) -> Apdu {
    b1_with(id, make::object(&[0x54], &make::number(offset, of)), ne)
}

/// The same with any data. Ne above 255 takes the extended shape, but for 256, which is Le 00.
fn b1_with(id: u16, data: Vec<u8>, ne: usize) -> Apdu {
    let [p1, p2] = id.to_be_bytes();
    Apdu::new(0x00, 0xB1, p1, p2)
        .data(data)
        .le(if ne == 256 { 0 } else { ne as u16 })
        .extended(ne > 256)
}

/// B1 of the file of this id from an offset on, in as few bytes as that needs: so many file bytes.
fn reads(id: u16, offset: usize, ne: usize, count: usize) -> Line {
    let command = b1(id, offset, make::fewest_bytes(offset), ne);
    run(&command, &wrapped(&bytes(offset, count)))
}

fn fails(id: u16, offset: usize, ne: usize, status: &str) -> Line {
    run(&b1(id, offset, make::fewest_bytes(offset), ne), status)
}

/// UPDATE BINARY of the file of this id.
fn update(id: u16, offset: Vec<u8>, bytes: &[u8], answer: &str) -> Line {
    let [p1, p2] = id.to_be_bytes();
    let data = [make::object(&[0x54], &offset), make::object(&[0x53], bytes)];
    let command = Apdu::new(0x00, 0xD7, p1, p2).data(data.concat());
    run(&command, answer)
}

/// READ BINARY B0 of the current file, so many bytes.
fn b0(offset: usize, ne: u16, answer: &str) -> Line {
    let [high, low] = (offset as u16).to_be_bytes();
    let command = Apdu::new(0x00, 0xB0, high, low)
        .le(ne)
        .extended(ne > 255 || ne == 0);
    run(&command, answer)
}

/// A card with so many bytes written in the first file. The session has all rights but those of the third.
fn a_card(written: usize) -> Vec<Line> {
    let small = |state| make::biometrics(state, 0, &[0xEE; 16]);
    let image = [
        make::section(CERTIFICATES, &[0; 40]),
        make::section(FULL, &make::biometrics(0, written, &bytes(0, written))),
        make::section(EMPTY, &small(0)),
        make::section(CLOSED, &small(1)),
    ];
    let mut rights = vec![0xFF; RIGHTS_LEN];
    // The bits of Biometrics 3, in the second certificate alone.
    rights[24] = 0xF3;
    let [session, open] = opened(rights);
    vec![card(image.concat()), session, open]
}

/// Before an application is selected: EF.ATR/INFO and EF.DIR, with eMRTD and biometrics.
fn the_master_files_files() -> Vec<Line> {
    let entry =
        |application| make::object(&[0x61], &make::object(&[0x4F], &make::aid(application)));
    let directory = [entry(0), entry(3)].concat();
    let mut lines = a_card(SIZE);
    lines.extend([
        fails(0x0000, 0, 256, "6986"),
        run(&b1(0x2F01, 0, 1, 256), &wrapped(&ATR_INFO)),
        run(&b1(0x0000, 15, 3, 256), &wrapped(&ATR_INFO[15..])),
        fails(0x0000, 16, 256, "6b00"),
        run(&b1(0x2F00, 9, 2, 5), &wrapped(&directory[9..12])),
        run(&b1(0x0000, 0, 1, 65_536), &wrapped(&directory)),
        fails(0x2F02, 0, 256, "6a82"),
        fails(FULL_ID, 0, 256, "6a82"),
        fails(CERTIFICATES_ID, 0, 256, "6a82"),
        select(3),
    ]);
    lines
}

fn no_file_to_read() -> Vec<Line> {
    vec![
        fails(0x0000, 0, 256, "6986"),
        fails(0x2F01, 0, 256, "6a82"),
        fails(0x0240, 0, 256, "6a82"),
        fails(CERTIFICATES_ID, 0, 256, "6981"),
        fails(CLOSED_ID, 0, 256, "6982"),
        fails(CLOSED_ID, 0, 2, "6982"),
        // Empty: no offset is before the end, and the end comes before Ne.
        fails(EMPTY_ID, 0, 256, "6b00"),
        fails(EMPTY_ID, 0, 2, "6b00"),
        fails(0x0000, 0, 256, "6986"),
    ]
}

/// What is refused before the file is looked for, which is not there.
fn not_as_b1_is_written() -> Vec<Line> {
    let right = make::object(&[0x54], &[0]);
    let command = |cla| Apdu::new(cla, 0xB1, 0x02, 0x41);
    let data: [&[u8]; 11] = [
        &[0x54, 0x00],
        &[0x54, 0x04, 0, 0, 0, 0],
        &[0x54, 0x81, 0x01, 0],
        &[0x54, 0x82, 0x00, 0x01, 0],
        &[0x53, 0x01, 0],
        &[0xC0, 0x01, 0],
        &[0x54, 0x02, 0],
        &[0x54, 0x01, 0, 0],
        &[0x54, 0x01, 0, 0x53, 0x00],
        &[0x54, 0x01, 0, 0x54, 0x01, 0],
        &[0x54],
    ];
    let mut lines = vec![
        run(&command(0x00), "6700"),
        run(&command(0x00).le(0), "6700"),
        run(&command(0x00).le(0).extended(true), "6700"),
        run(&command(0x00).data(right.clone()), "6700"),
        run(&command(0x00).data(vec![0x53]), "6700"),
        run(&command(0x00).data(vec![0; 1_025]).le(0), "6700"),
        run(&command(0x80).data(right.clone()).le(0), "6d00"),
        run(&command(0x04).data(right).le(0), "6e00"),
    ];
    lines.extend(data.map(|data| run(&b1_with(0x0241, data.to_vec(), 2), "6a80")));
    lines
}

/// How many file bytes a reply has by Ne: two bytes around up to 127, three up to 255, then four.
const LENGTHS: [(usize, usize); 30] = [
    (3, 1),
    (4, 2),
    (127, 125),
    (128, 126),
    (129, 127),
    (130, 127),
    (131, 128),
    (132, 129),
    (133, 130),
    (255, 252),
    (256, 253),
    (257, 254),
    (258, 255),
    (259, 255),
    (260, 256),
    (261, 257),
    (262, 258),
    (511, 507),
    (1_024, 1_020),
    (2_047, 2_043),
    (2_048, 2_044),
    (2_049, 2_044),
    (2_050, 2_044),
    (2_051, 2_044),
    (2_052, 2_044),
    (2_053, 2_044),
    (2_304, 2_044),
    (32_768, 2_044),
    (65_535, 2_044),
    (65_536, 2_044),
];

fn every_length() -> Vec<Line> {
    let mut lines = vec![
        fails(FULL_ID, 0, 1, "6700"),
        fails(FULL_ID, 0, 2, "6700"),
        // It was not set.
        fails(0x0000, 0, 256, "6986"),
    ];
    lines.extend(LENGTHS.map(|(ne, count)| reads(FULL_ID, 0, ne, count)));
    // 256 as an extended Le.
    let command = b1(0x0000, 0, 1, 256).le(256).extended(true);
    lines.push(run(&command, &wrapped(&bytes(0, 253))));
    lines
}

fn offsets() -> Vec<Line> {
    let mut lines = Vec::new();
    for (offset, fewest) in [(0, 1), (5, 1), (255, 1), (256, 2), (2_000, 2)] {
        let answer = wrapped(&bytes(offset, 9));
        lines.extend((fewest..=3).map(|of| run(&b1(FULL_ID, offset, of, 11), &answer)));
        lines.push(run(&b1(FULL_ID, offset, 4, 11), "6a80"));
    }
    lines
}

/// Where the file ends, with each form of the length.
fn the_end() -> Vec<Line> {
    let mut lines: Vec<Line> = [1, 2, 126, 127, 128, 129, 200, 254, 255, 256, 257, 999]
        .map(|count| reads(FULL_ID, SIZE - count, 65_536, count))
        .to_vec();
    lines.extend([
        // All that is left just fits, and does not.
        reads(0x0000, SIZE - 127, 129, 127),
        reads(0x0000, SIZE - 128, 131, 128),
        reads(0x0000, SIZE - 128, 130, 127),
        reads(0x0000, SIZE - 256, 260, 256),
        reads(0x0000, SIZE - 256, 259, 255),
        reads(0x0000, SIZE - 2_044, 2_048, 2_044),
        reads(0x0000, SIZE - 2_045, 2_049, 2_044),
        reads(0x0000, SIZE - 1, 3, 1),
        fails(0x0000, SIZE - 1, 2, "6700"),
        fails(0x0000, SIZE, 65_536, "6b00"),
        fails(0x0000, SIZE, 2, "6b00"),
        fails(0x0000, SIZE + 1, 3, "6b00"),
        fails(0x0000, 65_536, 256, "6b00"),
        fails(0x0000, 0x1_0000 * 0xFF, 1, "6b00"),
        fails(0x0000, 0xFF_FFFF, 256, "6b00"),
    ]);
    lines
}

fn the_same_by_b0() -> Vec<Line> {
    vec![
        b0(0, 0, &plain(0, 2_048)),
        reads(0x0000, 0, 65_536, 2_044),
        b0(SIZE - 1, 9, &plain(SIZE - 1, 1)),
        reads(0x0000, SIZE - 1, 9, 1),
        b0(SIZE, 9, "6b00"),
        fails(0x0000, SIZE, 9, "6b00"),
    ]
}

/// The empty file, written by offsets of each number of bytes, and past its end.
fn written_at_three_bytes() -> Vec<Line> {
    let room = 16;
    let at = make::number;
    vec![
        update(EMPTY_ID, at(0, 3), &bytes(0, 5), "9000"),
        update(EMPTY_ID, at(5, 2), &bytes(5, 2), "9000"),
        update(EMPTY_ID, at(8, 3), &[], "6a80"),
        update(EMPTY_ID, at(0x1_0007, 3), &[], "6a80"),
        update(EMPTY_ID, at(7, 4), &[], "6a80"),
        update(EMPTY_ID, vec![], &[], "6a80"),
        update(EMPTY_ID, at(7, 3), &bytes(7, room - 6), "6a84"),
        reads(0x0000, 0, 256, 7),
        update(0x0000, at(7, 3), &bytes(7, room - 7), "9000"),
        reads(0x0000, 0, 256, room),
        reads(0x0000, room - 1, 256, 1),
    ]
}

/// A search's offset and number have two bytes at the most.
fn windows_of_three_bytes() -> Vec<Line> {
    let append = Apdu::new(0x00, 0xE2, 0x00, 0xD0).data(b"iris".to_vec());
    let search = |window: [usize; 2], answer: &str| {
        let [offset, number] = window.map(|bytes| make::number(0, bytes));
        let data = make::search(make::object, &[0x1A], 0x00, [&offset, &number], b"iris");
        run(&Apdu::new(0x00, 0xA2, 0x00, 0xF8).data(data).le(0), answer)
    };
    vec![
        run(&append, "9000"),
        search([2, 2], "7f760651011a0201019000"),
        search([3, 2], "6a80"),
        search([2, 3], "6a80"),
        search([1, 3], "6a80"),
        search([3, 1], "6a80"),
        search([3, 3], "6a80"),
        search([1, 1], "7f760651011a0201019000"),
    ]
}

/// Rooms for the files of the card, those of the small ones as they are.
fn rooms(full: usize) -> [(u16, usize); 4] {
    [(CERTIFICATES, 40), (FULL, full), (EMPTY, 21), (CLOSED, 21)]
}

/// FMM of the current file: its total.
fn total(answer: &str) -> Line {
    run(&Apdu::new(0x80, 0x5E, 0x00, 0x01).le(0), answer)
}

fn to_the_largest_room() -> Vec<Line> {
    vec![
        reads(FULL_ID, 0, 3, 1),
        total("7f7804810208349000"),
        refused(&rooms(LARGEST_BODY + 1), 10),
        moved(&rooms(65_540), 0),
        total("7f78048102ffff9000"),
        moved(&rooms(65_541), 0),
        total("7f780581030100009000"),
        moved(&rooms(LARGEST_BODY), 0),
        total("7f780581030200009000"),
        reads(0x0000, 0, 65_536, 2_044),
        fails(0x0000, SIZE, 256, "6b00"),
        fails(0x0000, 131_071, 256, "6b00"),
        update(0x0000, make::number(SIZE, 3), &bytes(SIZE, 3), "9000"),
        reads(0x0000, SIZE, 256, 3),
    ]
}

/// The most bytes that one command writes at an offset of three bytes: 1,024 with both heads.
const PIECE: usize = 1_015;
/// The most bytes that one reply of B1 has of a file.
const PORTION: usize = 2_044;

/// Where the parts of the largest room begin that are written or read so many bytes at a time, and
/// how many bytes each has.
fn parts(of: usize) -> impl Iterator<Item = (usize, usize)> {
    let part = move |at| (at, of.min(LARGEST_ROOM - at));
    (0..LARGEST_ROOM).step_by(of).map(part)
}

/// A card with a file of the largest room, written to its end by UPDATE BINARY.
fn written_to_its_end() -> Vec<Line> {
    let at = |offset| make::number(offset, make::fewest_bytes(offset));
    let mut lines = a_card(0);
    lines.extend([
        refused(&rooms(LARGEST_BODY + 1), 10),
        moved(&rooms(LARGEST_BODY), 0),
        select(3),
    ]);
    lines.extend(
        parts(PIECE).map(|(offset, n)| update(FULL_ID, at(offset), &bytes(offset, n), "9000")),
    );
    lines.extend([
        update(FULL_ID, at(LARGEST_ROOM), &[], "9000"),
        update(FULL_ID, at(LARGEST_ROOM), &[0], "6a84"),
        update(FULL_ID, at(LARGEST_ROOM + 1), &[], "6a80"),
        total("7f780581030200009000"),
    ]);
    lines
}

/// That file, read back as a whole by B1, and by B0 as far as that reaches.
fn read_back() -> Vec<Line> {
    let wrapped = parts(PORTION).map(|(offset, n)| reads(0x0000, offset, 65_536, n));
    let offsets = (0..0x8000).step_by(2_048).chain([0x7FFF]);
    wrapped
        .chain(offsets.map(|offset| b0(offset, 0, &plain(offset, 2_048))))
        .collect()
}

/// The largest file, read back as a whole, read where an offset needs one bit more than the one
/// before or one byte, and at its end; and written there anew.
fn the_largest_file() -> Vec<Line> {
    let last = LARGEST_ROOM - 1;
    let border = |border| [border - 1, border, border + 1].map(|at| reads(0x0000, at, 6, 4));
    let mut lines = written_to_its_end();
    lines.extend(read_back());
    lines.extend([0x100, 0x8000, 0x1_0000].map(border).concat());
    lines.extend([
        reads(0x0000, 0x7FFF, 65_536, PORTION),
        reads(0x0000, last, 65_536, 1),
        fails(0x0000, last, 2, "6700"),
        fails(0x0000, last + 1, 2, "6b00"),
        update(0x0000, make::number(0xFFFF, 2), &[1, 2], "9000"),
        run(&b1(0x0000, 0xFFFF, 3, 4), "530201029000"),
        update(0x0000, make::number(last, 3), &[1, 2], "6a84"),
        update(0x0000, make::number(last, 3), &[3], "9000"),
        run(&b1(0x0000, last, 3, 4), "5301039000"),
        run(&Apdu::new(0x00, 0x44, 0x00, 0x00), "9000"),
        run(&b1(0x0000, last, 3, 256), "5301039000"),
        update(0x0000, make::number(last, 3), &[4], "6982"),
    ]);
    lines
}
