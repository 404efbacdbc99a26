//! Made-up commands: each of the eight well formed, READ BINARY in both forms, with parameters that
//! mean something on the card at hand; then, now and then, with something wrong.

use crate::card::Size;
use crate::make::{self, Apdu};
use crate::objects::Objects;
use crate::random::Random;
use crate::view::{Content, File, View};

/// The commands, in the order of the rules.
#[derive(Clone, Copy, Debug, PartialEq, Eq)]
pub enum Name {
    Select,
    ReadBinary,
    /// READ BINARY of the odd instruction, with the offset in an object.
    ReadBinaryB1,
    UpdateBinary,
    Activate,
    AppendRecord,
    ReadRecord,
    SearchRecord,
    Fmm,
}

use Name::*;

/// Name, CLA and INS of each command.
pub const NAMES: [(Name, &str, u8, u8); 9] = [
    (Select, "SELECT", 0x00, 0xA4),
    (ReadBinary, "READ BINARY B0", 0x00, 0xB0),
    (ReadBinaryB1, "READ BINARY B1", 0x00, 0xB1),
    (UpdateBinary, "UPDATE BINARY", 0x00, 0xD7),
    (Activate, "ACTIVATE", 0x00, 0x44),
    (AppendRecord, "APPEND RECORD", 0x00, 0xE2),
    (ReadRecord, "READ RECORD", 0x00, 0xB2),
    (SearchRecord, "SEARCH RECORD", 0x00, 0xA2),
    (Fmm, "FMM", 0x80, 0x5E),
];

/// The bytes of one command for the card and session in view.
pub fn command(random: &mut Random, view: &View, image: &[u8], size: Size) -> Vec<u8> {
    let name = choose(random, view);
    let mut maker = Maker {
        random,
        view,
        image,
        size,
    };
    let mut apdu = match name {
        Select => maker.select(),
        ReadBinary => maker.read_binary(),
        ReadBinaryB1 => maker.read_binary_b1(),
        UpdateBinary => maker.update_binary(),
        Activate => Apdu::new(0x00, 0x44, 0, 0),
        AppendRecord => maker.append_record(),
        ReadRecord => maker.read_record(),
        SearchRecord => maker.search_record(),
        Fmm => maker.fmm(),
    };
    if random.one_in(12) {
        if let Some(data) = &mut apdu.data {
            random.spoil(data);
        }
    }
    if random.one_in(9) {
        spoil_a_field(random, &mut apdu, size);
    }
    let mut bytes = apdu.bytes();
    if random.one_in(14) {
        random.spoil(&mut bytes);
    }
    bytes
}

/// A command, such that those come often which can do something where the session is.
fn choose(random: &mut Random, view: &View) -> Name {
    let open = view.current_file().is_some_and(File::is_open);
    let large = view.files.iter().any(File::is_large);
    let weights = match view.application {
        // A large file is there to be read and written.
        0 if large => [60, 4, 4, 1, 1, 2, 2, 2, 6],
        3 if large => [4, 10, 40, 24, 2, 2, 2, 4, 8],
        0 => [24, 8, 5, 1, 1, 2, 2, 2, 6],
        1 | 2 => [6, 2, 2, 1, 1, 16, 14, 18, 8],
        _ if open => [5, 12, 24, 24, 10, 2, 2, 2, 8],
        _ => [18, 8, 16, 16, 2, 8, 8, 8, 8],
    };
    let names: Vec<(usize, Name)> = weights
        .into_iter()
        .zip(NAMES.map(|(name, ..)| name))
        .collect();
    random.weighted(&names)
}

/// One field of a command otherwise than it was.
fn spoil_a_field(random: &mut Random, apdu: &mut Apdu, size: Size) {
    match random.below(10) {
        // 10 and 90 are links, of which the last is missing.
        0 => apdu.cla = random.pick(&[0x00, 0x80, 0x10, 0x90, 0x01, 0x0C, 0x84, 0xFF]),
        1 => apdu.ins = random.byte(),
        2 => {
            let (_, _, cla, ins) = NAMES[random.below(NAMES.len())];
            (apdu.cla, apdu.ins) = (cla, ins);
        }
        3 => apdu.p1 ^= 1 << random.below(8),
        4 => apdu.p2 ^= 1 << random.below(8),
        5 => apdu.data = None,
        6 if size == Size::Any || random.one_in(8) => {
            let length = if size == Size::Any && random.one_in(30) {
                random.near(0xFFFF)
            } else {
                random.near(1_024)
            };
            let data = apdu.data.get_or_insert_with(Vec::new);
            data.resize(length, 0);
        }
        6 => apdu.data = Some(vec![random.byte()]),
        7 => apdu.le = None,
        8 => apdu.le = Some(random.pick(&[0, 1, 255, 256, 257, 0xFFFF])),
        _ => apdu.extended = !apdu.extended,
    }
}

/// A file that a command is to name: one that is there, mostly.
struct Target<'a> {
    id: u16,
    short_id: u8,
    file: Option<&'a File>,
}

impl<'a> Target<'a> {
    fn of(file: &'a File) -> Self {
        Self {
            id: file.id,
            short_id: file.short_id,
            file: Some(file),
        }
    }
}

struct Maker<'a> {
    random: &'a mut Random,
    view: &'a View,
    image: &'a [u8],
    size: Size,
}

impl<'a> Maker<'a> {
    /// A file of the selected application, of the sort wanted, mostly.
    fn target(&mut self, wanted: fn(&File) -> bool) -> Target<'a> {
        let any = self.random.one_in(14);
        let here: Vec<&'a File> = self
            .view
            .here()
            .filter(|file| any || wanted(file))
            .collect();
        if here.is_empty() || self.random.one_in(14) {
            return self.missing();
        }
        Target::of(self.random.pick(&here))
    }

    /// The same, but mostly the file with the most room: there is most to read and to write.
    fn roomy_target(&mut self, wanted: fn(&File) -> bool) -> Target<'a> {
        let here = self.view.here().filter(|file| wanted(file));
        match here.max_by_key(|file| file.room()) {
            Some(file) if !self.random.one_in(3) => Target::of(file),
            _ => self.target(wanted),
        }
    }

    /// A file of another application, or one that no application has.
    fn missing(&mut self) -> Target<'a> {
        let other = &self.view.files[self.random.below(self.view.files.len())];
        let id = self.random.pick(&[
            other.id, 0x0000, 0x0104, 0x0200, 0x0201, 0x0240, 0x0241, 0x2F02, 0x3F00, 0x0001,
        ]);
        Target {
            id,
            short_id: self.random.pick(&[other.short_id, 0x00, 0x1F, 0x04]),
            file: None,
        }
    }

    fn is_current(&self, target: &Target) -> bool {
        self.view.current == Some(target.id)
    }

    /// A number of a search's window, in one or two bytes; one only where the number fits. Now and
    /// then it has three, as only an offset in a file may.
    fn number(&mut self, number: usize) -> Vec<u8> {
        let number = number.min(0xFFFF);
        let fewest = make::fewest_bytes(number);
        let bytes = match self.random.below(40) {
            0 => 3,
            _ => self.random.between(fewest, 2),
        };
        make::number(number, bytes)
    }

    /// An offset in one to three bytes, mostly in as few as it needs. Now and then it has none, or
    /// four, the first of them perhaps not zero.
    fn offset_bytes(&mut self, offset: usize) -> Vec<u8> {
        let fewest = make::fewest_bytes(offset).min(3);
        match self.random.below(30) {
            0 => vec![],
            1 => make::number(offset | self.random.below(2) << 24, 4),
            2..=8 => make::number(offset, self.random.between(fewest, 3)),
            _ => make::number(offset, fewest),
        }
    }

    /// Whether the current file is meant, and the file then meant.
    fn current_or(&mut self, target: &Target<'a>) -> (bool, Option<&'a File>) {
        let transparent = self
            .view
            .current_file()
            .is_some_and(|file| !file.has_records());
        let current = transparent && self.random.coin() || self.random.one_in(20);
        let file = match current {
            true => self.view.current_file(),
            false => target.file,
        };
        (current, file)
    }

    fn select(&mut self) -> Apdu {
        let to_file = if self.view.application == 0 { 2 } else { 8 };
        let (p1, data) = match self.random.weighted(&[(10, 4), (to_file, 2), (1, 0)]) {
            4 => (4, self.aid()),
            2 => (2, self.file_to_select().to_be_bytes().to_vec()),
            _ => (0, vec![0x3F, 0x00]),
        };
        let mut data = data;
        if self.random.one_in(20) {
            self.random.spoil(&mut data);
        }
        Apdu::new(0x00, 0xA4, p1, 0x0C)
            .data(data)
            .extended(self.random.one_in(6))
    }

    /// Any file, a transparent one more often than its share.
    fn file_to_select(&mut self) -> u16 {
        if self.random.coin() {
            self.target(|file| !file.has_records()).id
        } else {
            self.target(|_| true).id
        }
    }

    /// The AID of an application, present mostly.
    fn aid(&mut self) -> Vec<u8> {
        let mut present: Vec<u8> = [1, 2, 3, 3].to_vec();
        present.retain(|application| self.view.has(*application));
        if self.view.files.iter().any(File::is_large) {
            present.extend([3; 6]);
        }
        let application = if present.is_empty() || self.random.one_in(9) {
            self.random.below(4) as u8
        } else {
            self.random.pick(&present)
        };
        let aid = make::aid(application);
        let length = if self.random.one_in(30) { 5 } else { 7 };
        aid[..length].to_vec()
    }

    fn read_binary(&mut self) -> Apdu {
        let target = self.target(|file| !file.has_records());
        let by_short_id = (self.view.application == 0 && self.random.coin())
            || self
                .random
                .one_in(if self.view.current.is_some() { 12 } else { 3 });
        let file = if by_short_id {
            target.file
        } else {
            self.view.current_file()
        };
        let size = file.map_or(0, File::size);
        let offset = self.offset(size);
        let (p1, p2) = if by_short_id {
            let odd = self.random.weighted(&[(20, 0x00), (1, 0x20), (1, 0x40)]);
            (0x80 | odd | target.short_id, offset.min(255) as u8)
        } else {
            ((offset >> 8) as u8 & 0x7F, offset as u8)
        };
        let extended = self.random.coin();
        let rest = size.saturating_sub(offset);
        let le = match self.random.below(5) {
            0 => self.random.near(rest),
            1 => self.random.near(2_048),
            2 => self.random.near(256),
            3 => self.random.below(20),
            _ => 0,
        };
        Apdu::new(0x00, 0xB0, p1, p2)
            .le(le as u16)
            .extended(extended)
    }

    /// An offset into so many bytes, mostly inside and often at the border.
    fn offset(&mut self, size: usize) -> usize {
        match self.random.below(9) {
            0 => self.random.near(size),
            1 => size.saturating_sub(1),
            2 => self.random.near(size.saturating_sub(2_048)),
            3 => 0x7FFF,
            4 | 5 if size > 0 => self.random.below(size),
            _ => 0,
        }
    }

    fn read_binary_b1(&mut self) -> Apdu {
        let target = match self.random.below(8) {
            0 => self.target(|_| true),
            _ => self.roomy_target(|file| !file.has_records()),
        };
        let (current, file) = self.current_or(&target);
        let size = file.map_or(0, File::size);
        let offset = self.offset_of_b1(size);
        let data = self.data_of_b1(offset);
        let le = self.le_of_b1(size.saturating_sub(offset));
        let extended = le > 0xFF || self.random.coin();
        let [p1, p2] = if current { 0 } else { target.id }.to_be_bytes();
        let apdu = Apdu::new(0x00, 0xB1, p1, p2).extended(extended);
        match self.random.below(24) {
            0 => apdu.le(le as u16),
            1 => apdu.data(data),
            _ => apdu.data(data).le(le as u16),
        }
    }

    /// An offset into so many bytes: at their end, so far before it that the length of the reply
    /// changes its form, or where a number needs a bit more.
    fn offset_of_b1(&mut self, size: usize) -> usize {
        match self.random.below(16) {
            0 => self.random.near(size),
            1 => size.saturating_sub(1),
            2 => size.saturating_sub(self.random.near(0x80)),
            3 => size.saturating_sub(self.random.near(0x100)),
            4 | 5 => size.saturating_sub(self.random.between(0x80, 0xFF)),
            6 | 7 => size.saturating_sub(self.random.between(0x100, 2_045)),
            8 => self.random.near(size.saturating_sub(2_045)),
            9 => {
                let border = self
                    .random
                    .pick(&[0x100, 0x8000, 0x1_0000, 0x2_0000, 0xFF_FFFE]);
                self.random.near(border)
            }
            10..=12 if size > 0 => self.random.below(size),
            _ => 0,
        }
    }

    /// The object of an offset, now and then with another behind it.
    fn data_of_b1(&mut self, offset: usize) -> Vec<u8> {
        let offset = self.offset_bytes(offset);
        let mut data = Objects::new(self.random, 1).object(&[0x54], &offset);
        if self.random.one_in(40) {
            let tag = self.random.pick(&[0x53, 0x54]);
            data.extend(make::object(&[tag], &[]));
        }
        data
    }

    /// How many bytes the reply may have; 0 stands for 256 or 65,536. Mostly it is where the form
    /// of the length changes, or where the rest of the file just fits.
    fn le_of_b1(&mut self, rest: usize) -> usize {
        match self.random.below(12) {
            // At the end of the file Ne does not count.
            0..=3 if rest == 0 => self.random.between(1, 3),
            0 => self.random.between(1, 4),
            1 | 2 => self.random.between(127, 133),
            3 | 4 => self.random.between(255, 262),
            5 => self.random.between(2_047, 2_053),
            6 => make::object(&[0x53], &vec![0; rest.min(2_048)]).len() + self.random.below(3) - 1,
            7 => self.random.below(20),
            8 => self.random.below(0x1_0000),
            _ => 0,
        }
    }

    fn update_binary(&mut self) -> Apdu {
        let target = if self.random.one_in(8) {
            self.target(|file| !file.has_records())
        } else {
            self.roomy_target(File::is_open)
        };
        let (current, file) = self.current_or(&target);
        let (written, room) = match file.map(|file| &file.content) {
            Some(Content::Biometrics { written, room, .. }) => (*written, *room),
            _ => (3, 9),
        };
        let offset = match self.random.below(8) {
            0 | 1 => self.random.near(written),
            2 | 3 => written,
            4 => self.random.between(0, written),
            5 => self.random.near(room),
            _ => 0,
        };
        let left = room.saturating_sub(offset);
        let length = match self.random.below(8) {
            0 | 1 => self.random.near(left),
            2 => self.random.pick(&[0, left]),
            3 => self.random.between(0, left),
            4 if self.size == Size::Any => self.random.near(1_016),
            _ => self.random.below(9).min(left),
        };
        let bytes = self.random.bytes(length.min(1_020));
        let data = self.update_data(offset, &bytes);
        let [p1, p2] = if current { 0 } else { target.id }.to_be_bytes();
        Apdu::new(0x00, 0xD7, p1, p2)
            .data(data)
            .extended(self.random.one_in(4))
    }

    fn update_data(&mut self, offset: usize, bytes: &[u8]) -> Vec<u8> {
        let offset = self.offset_bytes(offset);
        let tag = if self.random.one_in(40) { 0xC0 } else { 0x53 };
        let mut objects = Objects::new(self.random, 2);
        let mut parts = [
            objects.object(&[0x54], &offset),
            objects.object(&[tag], bytes),
        ];
        if self.random.one_in(40) {
            parts.swap(0, 1);
        }
        parts.concat()
    }

    /// P2's short id, 0 where the current file is meant, and the file then meant.
    fn record_p2(&mut self) -> (u8, Option<&'a File>) {
        let target = self.target(File::has_records);
        let current = match self.is_current(&target) {
            true => self.random.coin(),
            false => self.random.one_in(12),
        };
        if current {
            (0, self.view.current_file())
        } else {
            (target.short_id << 3, target.file)
        }
    }

    fn append_record(&mut self) -> Apdu {
        let (p2, file) = self.record_p2();
        let length = match file.map(|file| &file.content) {
            Some(Content::Records { rule, free, .. }) => self.record_length(*free, rule.longest),
            _ => self.random.between(1, 9),
        };
        let record = self.random.text(length);
        Apdu::new(0x00, 0xE2, 0x00, p2)
            .data(record)
            .extended(self.random.one_in(4))
    }

    /// A length that fits, mostly; else about what is left, or about the longest.
    fn record_length(&mut self, free: usize, longest: usize) -> usize {
        let left = free.saturating_sub(2);
        let length = match (self.size, self.random.below(16)) {
            (_, 0 | 1) if left < 100 => self.random.near(left),
            (Size::Small, 2) if self.random.one_in(3) => self.random.near(longest),
            (Size::Any, 2) => self.random.near(longest),
            (Size::Any, 3) => self.random.near(left),
            (Size::Any, 4) => self.random.between(1, longest),
            _ => self.random.between(1, 9),
        };
        length.clamp(1, 1_024)
    }

    fn read_record(&mut self) -> Apdu {
        let (p2, file) = self.record_p2();
        let count = file.map_or(2, |file| file.records().len());
        let p1 = match self.random.below(12) {
            0 | 1 => 0,
            2 => 0xFF,
            3 => self.random.near(count),
            4 => count,
            5 | 6 => 1,
            7 => usize::from(self.random.byte()),
            _ => self.random.between(1, count.max(1)),
        };
        let low = if self.random.coin() { 0b100 } else { 0b101 };
        let le = if self.random.one_in(40) { 5 } else { 0 };
        Apdu::new(0x00, 0xB2, p1 as u8, p2 | low)
            .le(le)
            .extended(!self.random.one_in(40))
    }

    fn search_record(&mut self) -> Apdu {
        // The master file has no records to search. A search of one of its own files is 6981.
        let target = match self.view.application {
            0 => self.target(|_| true),
            _ => self.target(File::has_records),
        };
        let file = self.search_file(&target);
        let (string, offset, number) = self.string_and_window(target.file);
        let (offset, number) = (self.number(offset), self.number(number));
        let how = self.random.weighted(&[(14, 0x00), (7, 0x30), (1, 0x10)]);
        let mut objects = Objects::new(self.random, 10);
        let data = make::search(
            |tag, value| objects.object(tag, value),
            &file,
            how,
            [&offset, &number],
            &string,
        );
        Apdu::new(0x00, 0xA2, 0x00, 0xF8)
            .data(data)
            .le(0)
            .extended(self.random.one_in(3))
    }

    /// The file of a search: its id, or its short id in one of the two spellings; now and then a
    /// byte with one bit otherwise, or any byte.
    fn search_file(&mut self, target: &Target) -> Vec<u8> {
        let spelling = target.short_id << self.random.pick(&[0, 3]);
        match self.random.below(16) {
            0 => vec![self.random.byte()],
            1 => vec![spelling ^ 1 << self.random.below(8)],
            2..=9 if target.short_id != 0 => vec![spelling],
            _ => target.id.to_be_bytes().to_vec(),
        }
    }

    /// A string, out of a stored record mostly, and a window that it lies in or just does not.
    fn string_and_window(&mut self, file: Option<&File>) -> (Vec<u8>, usize, usize) {
        let records = file.map_or(&[][..], File::records);
        if records.is_empty() || self.random.one_in(12) {
            let length = self.random.between(0, 12);
            return (self.random.text(length), 0, 0);
        }
        if records.len() > 80 && self.random.one_in(3) {
            // A reply that may just fit into 256 bytes, where all records begin alike.
            let first = self.image.get(records[0].start).copied();
            return (vec![first.unwrap_or(0)], 0, 0);
        }
        let range = records[self.random.below(records.len())].clone();
        let record = &self.image[range];
        if record.is_empty() {
            // Only a damaged image has such a record.
            return (vec![0], 0, 0);
        }
        let at = self.random.below(record.len());
        let most = (record.len() - at).min(if self.size == Size::Any { 700 } else { 12 });
        let length = match self.random.below(3) {
            0 => most,
            1 => 1,
            _ => self.random.between(1, most),
        };
        let mut string = record[at..at + length].to_vec();
        if self.random.one_in(8) {
            let last = string.len() - 1;
            string[last] ^= 0x03;
        }
        let before = self.random.between(0, at);
        let (offset, number) = match self.random.below(9) {
            0 => (at, length),
            1 => (before, at + length - before),
            2 => (before, at + length - before + self.random.below(5)),
            3 => (at + 1, 0),
            4 => (at, length - 1),
            5 => (self.random.near(record.len()), self.random.below(3)),
            6 => (before, self.random.pick(&[0, 0xFFFF])),
            _ => (0, 0),
        };
        (string, offset, number)
    }

    fn fmm(&mut self) -> Apdu {
        let p2 = if self.random.one_in(20) {
            self.random.byte()
        } else {
            self.random.below(8) as u8
        };
        let target = match self.random.below(4) {
            0 => self.roomy_target(|_| true),
            _ => self.target(|_| true),
        };
        let extended = self.random.one_in(3);
        if self.view.current.is_some() && self.random.coin() || self.random.one_in(12) {
            return Apdu::new(0x80, 0x5E, 0x00, p2).le(0).extended(extended);
        }
        let name = if target.short_id != 0 && self.random.coin() {
            vec![target.short_id << 3]
        } else {
            target.id.to_be_bytes().to_vec()
        };
        let data = Objects::new(self.random, 1).object(&[0x51], &name);
        Apdu::new(0x80, 0x5E, 0x01, p2)
            .data(data)
            .le(0)
            .extended(extended)
    }
}
