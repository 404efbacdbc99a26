//! The calls to time: card, session and command; card and rooms; bodies of certificates; a body
//! with an index; stamps; runs of extensions.

use compare::extension::{self, Extension, Runs};
use compare::make::{self, Apdu, LARGEST_ROOM, LONGEST_IMAGE, RULES};
use compare::random::Random;
use compare::stamp::{self, Draft};
use compare::view;

pub const LONGEST_RECORD: usize = 391;
pub const MOST_RECORDS: usize = 254;

const TRAVEL: u8 = 1;
const BIOMETRICS: u8 = 3;

pub struct Case {
    pub name: String,
    /// What the buffers hold.
    pub held: String,
    pub image: Vec<u8>,
    pub session: Vec<u8>,
    pub command: Vec<u8>,
    pub status: u16,
    /// Whether the command changes the image.
    pub changes: bool,
}

impl Case {
    fn new(name: &str, held: &str, image: &[u8], application: u8, command: Apdu) -> Self {
        Self {
            name: name.to_string(),
            held: held.to_string(),
            image: image.to_vec(),
            session: session(application),
            command: command.bytes(),
            status: 0x9000,
            changes: false,
        }
    }

    /// With Biometrics 1 as the current file.
    fn current(mut self) -> Self {
        self.session[21..24].copy_from_slice(&[1, 0x01, 0x02]);
        self
    }

    fn changes(mut self) -> Self {
        self.changes = true;
        self
    }

    fn status(mut self, status: u16) -> Self {
        self.status = status;
        self
    }
}

/// A session with all rights and this application selected.
fn session(application: u8) -> Vec<u8> {
    let opened = malquindo::open(&[0xFF; make::RIGHTS_LEN]).expect("60 bytes open a session");
    let mut session = opened.as_bytes().to_vec();
    session[20] = application;
    session
}

/// A card with travel alone; EntryRecords holds the records and has `free` bytes left.
fn travel_card(entry_records: &[Vec<u8>], free: usize) -> Vec<u8> {
    let mut entry = make::records(entry_records);
    entry.resize(entry.len() + free, 0);
    [
        make::section(0x0101, &entry),
        make::section(0x0102, &[0; 40]),
        make::section(0x011A, &[0; 40]),
    ]
    .concat()
}

/// Records of 391 random bytes.
fn random_records(count: usize) -> Vec<Vec<u8>> {
    let mut random = Random::new(391);
    (0..count).map(|_| random.bytes(LONGEST_RECORD)).collect()
}

fn records_of_a(count: usize) -> Vec<Vec<u8>> {
    vec![vec![b'a'; LONGEST_RECORD]; count]
}

/// A card with one biometrics file, of which so many bytes are written.
fn biometrics_card(written: usize, room: usize) -> Vec<u8> {
    let bytes = Random::new(4_096).bytes(room);
    [
        make::section(0x031A, &[0; 40]),
        make::section(0x0401, &make::biometrics(0, written, &bytes)),
    ]
    .concat()
}

fn select_travel() -> Apdu {
    Apdu::new(0x00, 0xA4, 0x04, 0x0C).data(make::aid(TRAVEL).to_vec())
}

fn read_record(number: usize, low_bits: u8) -> Apdu {
    Apdu::new(0x00, 0xB2, number as u8, 0x01 << 3 | low_bits)
        .le(0)
        .extended(true)
}

fn search(string: &[u8]) -> Apdu {
    let data = make::search(make::object, &[0x01], 0x00, [&[0], &[0]], string);
    Apdu::new(0x00, 0xA2, 0x00, 0xF8)
        .data(data)
        .le(0)
        .extended(true)
}

pub fn select() -> [Case; 2] {
    let held = "the card to try (138 bytes)";
    let small = travel_card(&[], 38);
    let full = travel_card(&random_records(MOST_RECORDS), 0);
    [
        Case::new("SELECT application", held, &small, 0, select_travel()),
        Case::new(
            "SELECT application",
            "254 records of 391 bytes in EntryRecords",
            &full,
            0,
            select_travel(),
        ),
    ]
}

pub fn read_binary() -> Case {
    let command = Apdu::new(0x00, 0xB0, 0x00, 0x00).le(0).extended(true);
    let held = "Biometrics 1 current, 4,096 bytes written";
    let name = "READ BINARY B0 of 2,048 bytes";
    let card = biometrics_card(4_096, 4_096);
    Case::new(name, held, &card, BIOMETRICS, command).current()
}

/// Where the largest file is read: B0 reaches it, too.
const OFFSET: u16 = 30_000;

/// The longest replies of B0 and of B1, both of the same file from the same place on.
pub fn read_the_largest() -> [Case; 2] {
    let held = "Biometrics 1 current, 131,072 bytes written";
    let card = biometrics_card(LARGEST_ROOM, LARGEST_ROOM);
    let [high, low] = OFFSET.to_be_bytes();
    let offset = make::object(&[0x54], &[high, low]);
    let b0 = Apdu::new(0x00, 0xB0, high, low);
    let b1 = Apdu::new(0x00, 0xB1, 0x00, 0x00).data(offset);
    [
        ("READ BINARY B0 of 2,048 bytes", b0),
        ("READ BINARY B1 of 2,044 bytes", b1),
    ]
    .map(|(name, command)| {
        let command = command.le(0).extended(true);
        Case::new(name, held, &card, BIOMETRICS, command).current()
    })
}

pub fn update_binary() -> Case {
    let bytes = Random::new(1_000).bytes(1_000);
    let data = [make::object(&[0x54], &[0]), make::object(&[0x53], &bytes)];
    let command = Apdu::new(0x00, 0xD7, 0x02, 0x01).data(data.concat());
    let held = "Biometrics 1, Deactivated, room 4,096";
    let name = "UPDATE BINARY of 1,000 bytes";
    let card = biometrics_card(4_096, 4_096);
    Case::new(name, held, &card, BIOMETRICS, command).changes()
}

pub fn append_record() -> Case {
    let card = travel_card(&random_records(253), 2 + LONGEST_RECORD);
    let command = Apdu::new(0x00, 0xE2, 0x00, 0x08).data(vec![7; LONGEST_RECORD]);
    let held = "253 records of 391 bytes";
    let name = "APPEND RECORD of 391 bytes";
    Case::new(name, held, &card, TRAVEL, command).changes()
}

/// READ RECORD of the first and the last of so many records.
pub fn read_one(number: usize, count: usize) -> Case {
    let card = travel_card(&random_records(count), 0);
    let name = format!("READ RECORD {number}");
    let held = format!("{count} records of 391 bytes");
    Case::new(&name, &held, &card, TRAVEL, read_record(number, 0b100))
}

pub fn read_all() -> Case {
    let card = travel_card(&random_records(MOST_RECORDS), 0);
    let held = "254 records of 391 bytes";
    let name = "READ RECORD 1 to last, cut at 2,048 bytes";
    Case::new(name, held, &card, TRAVEL, read_record(1, 0b101))
}

/// A string of three bytes that occurs in no record.
pub fn search_three(count: usize) -> Case {
    let card = travel_card(&random_records(count), 0);
    let held = format!("{count} records of 391 random bytes");
    let name = "SEARCH RECORD, 3 bytes that occur nowhere";
    Case::new(name, &held, &card, TRAVEL, search(b"USA")).status(0x6282)
}

/// Records all of one letter, and a string that almost occurs at every place.
pub fn search_almost(shape: &str, string: &[u8]) -> Case {
    let card = travel_card(&records_of_a(MOST_RECORDS), 0);
    let held = format!(
        "254 records of 391 times 'a', string of {} bytes, {shape}",
        string.len()
    );
    let name = "SEARCH RECORD, a string that almost occurs";
    Case::new(name, &held, &card, TRAVEL, search(string)).status(0x6282)
}

/// Strings that make a search compare much for nothing: the one letter that is not there stands
/// at or near the end, at or near the start, or in the middle.
pub fn almost_strings() -> Vec<(&'static str, Vec<u8>)> {
    let mut strings = Vec::new();
    for length in [
        2, 3, 4, 8, 16, 32, 64, 98, 130, 146, 160, 176, 196, 212, 230, 260, 300, 350, 391,
    ] {
        for (shape, at) in [
            ("'b' last", length - 1),
            ("'b' last but one", length - 2),
            ("'b' in the middle", length / 2),
            ("'b' second", 1),
            ("'b' first", 0),
        ] {
            let mut string = vec![b'a'; length];
            string[at] = b'b';
            strings.push((shape, string));
        }
    }
    strings
}

/// Records of one letter, broken by another at each k-th byte, and a string of that letter as long as k: at each place nearly
/// all of it stands, and no one byte of it tells where it does not.
pub fn search_broken(k: usize) -> Case {
    let mut record = vec![b'a'; LONGEST_RECORD];
    record
        .iter_mut()
        .skip(k - 1)
        .step_by(k)
        .for_each(|b| *b = b'b');
    let card = travel_card(&vec![record; MOST_RECORDS], 0);
    let held =
        format!("254 records of 391 times 'a' with a 'b' every {k} bytes, string of {k} times 'a'");
    let name = "SEARCH RECORD, a string that almost occurs";
    let string = vec![b'a'; k];
    Case::new(name, &held, &card, TRAVEL, search(&string)).status(0x6282)
}

/// How far the broken records' breaks lie from one another.
pub const BREAKS: [usize; 10] = [4, 8, 16, 24, 41, 66, 98, 130, 196, 300];

pub fn fmm() -> Case {
    let card = travel_card(&random_records(MOST_RECORDS), 0);
    let command = Apdu::new(0x80, 0x5E, 0x01, 0x07)
        .data(make::object(&[0x51], &[0x01 << 3]))
        .le(0);
    let held = "254 records of 391 bytes";
    Case::new("FMM, P2 07, by short id", held, &card, TRAVEL, command)
}

/// The longest image there is, with every file, every record and every biometrics file that an
/// image may have. Each file has so many bytes free, which are zero.
fn full_card(free: usize) -> Vec<u8> {
    let mut image = Vec::new();
    for rule in &RULES {
        let mut body = make::records(&vec![vec![5; 100]; rule.most]);
        body.resize(body.len() + free, 0);
        image.extend(make::section(rule.kind, &body));
    }
    let left = LONGEST_IMAGE - image.len();
    for n in 1..=64 {
        // The last file takes what the division left over.
        let whole = if n == 64 {
            left - 63 * (left / 64)
        } else {
            left / 64
        };
        let mut room = vec![9; whole - make::SECTION_HEADER - 5];
        let written = room.len() - free;
        room[written..].fill(0);
        let body = make::biometrics(0, written, &room);
        image.extend(make::section(make::BIOMETRICS_KIND + n, &body));
    }
    assert_eq!(image.len(), LONGEST_IMAGE);
    image
}

/// A command that ends at step 1: the image is all that is checked.
fn validation_of(held: &str, image: &[u8]) -> Case {
    let name = "validation (a command of no bytes)";
    let mut case = Case::new(name, held, image, 0, select_travel());
    case.command.clear();
    case.status(0x6700)
}

/// The longest image there is.
pub fn validation() -> Case {
    validation_of(
        "262,144 bytes: 1,334 records of 100 bytes in six files, 64 biometrics files",
        &full_card(0),
    )
}

/// One biometrics file in a small room, and in the largest, full and empty: its bytes are not looked
/// at, so that the times are the same.
pub fn validation_by_room() -> [Case; 3] {
    [
        ("one biometrics file, room 16, full", 16, 16),
        (
            "one biometrics file, room 131,072, full",
            LARGEST_ROOM,
            LARGEST_ROOM,
        ),
        ("one biometrics file, room 131,072, empty", 0, LARGEST_ROOM),
    ]
    .map(|(held, written, room)| validation_of(held, &biometrics_card(written, room)))
}

/// A card to move, and the rooms that it is moved to.
pub struct Move {
    pub name: String,
    pub held: String,
    pub old: Vec<u8>,
    pub list: Vec<u8>,
}

/// The longest image there is, almost full, to the rooms that it has: the move is a copy.
pub fn move_to_the_same_sizes() -> Move {
    let old = full_card(16);
    let rooms = view::sections(&old);
    let rows: Vec<(u16, usize)> = rooms
        .into_iter()
        .map(|(kind, body)| (kind, body.len()))
        .collect();
    Move {
        name: "move to the same sizes".to_string(),
        held: "262,144 bytes: 1,334 records of 100 bytes in six files, 64 biometrics files, \
               16 bytes free in each"
            .to_string(),
        list: make::list(&rows),
        old,
    }
}

/// Two bodies of certificates, and the reference of one on the card.
pub struct Certificate {
    pub name: String,
    pub held: String,
    pub card: Vec<u8>,
    pub desk: Vec<u8>,
    pub reference: u8,
}

/// The last certificate of a body that is as long as its records can make it. The desk has as
/// many, and all are looked through before the answer.
pub fn last_certificate() -> Certificate {
    let rule = make::travel_certificates();
    let full = make::records(&vec![vec![7; rule.longest]; rule.most]);
    Certificate {
        name: "certificate FE".to_string(),
        held: "254 certificates of 929 bytes on the card, as many at the desk".to_string(),
        desk: full.clone(),
        card: full,
        reference: rule.most as u8,
    }
}

/// The body of a full file, and a record of it to read.
pub struct Indexed {
    pub held: String,
    pub kind: u16,
    pub body: Vec<u8>,
    pub number: usize,
    /// READ RECORD of the same record.
    pub read_record: Case,
}

/// Record `number` of EntryRecords, which is as full as it can be.
pub fn indexed(number: usize) -> Indexed {
    Indexed {
        held: "254 records of 391 bytes".to_string(),
        kind: 0x0101,
        body: make::records(&random_records(MOST_RECORDS)),
        number,
        read_record: read_one(number, MOST_RECORDS),
    }
}

/// A record to read as a stamp.
pub struct Stamp {
    pub name: String,
    pub held: String,
    pub record: Vec<u8>,
    /// What reading it gives.
    pub result: u64,
}

/// The longest stamp, the shortest, and one that is wrong in its last field.
pub fn stamps() -> [Stamp; 3] {
    let longest = Draft::new(&stamp::longest()).bytes();
    let shortest = Draft::new(&stamp::shortest(|_| false)).bytes();
    // Reference 00: a wrong content in an object of four bytes.
    let mut wrong = longest.clone();
    wrong[LONGEST_RECORD - 1] = 0x00;
    let case = |name: &str, held: &str, record, result| Stamp {
        name: name.to_string(),
        held: held.to_string(),
        record,
        result,
    };
    let last = LONGEST_RECORD as u64 - 4;
    [
        case("the longest stamp", "391 bytes, 13 fields", longest, 0),
        case("the shortest stamp", "45 bytes, 8 fields", shortest, 0),
        case(
            "a fault in the last field",
            "the longest stamp, reference 00",
            wrong,
            3 << 32 | last,
        ),
    ]
}

/// Three runs of extensions to read rights from.
pub struct Rights {
    pub name: String,
    pub held: String,
    pub runs: Runs,
    /// What reading them gives.
    pub result: u64,
}

/// The three known extensions in each run; the same behind a long unknown one; and a fault in the
/// last extension of all.
pub fn rights() -> [Rights; 3] {
    let known: Vec<Extension> = (0..3).map(|which| Extension::known(which, 0x0F)).collect();
    let unknown = vec![Extension::unknown(&[0x2A; 8], 1_000)];
    let three = |run: &[Extension]| [0; 3].map(|_| extension::run(run));
    // One byte less, at the end of the third run.
    let mut wrong = three(&known);
    wrong[2].pop();
    let case = |name: &str, held: &str, runs, result| Rights {
        name: name.to_string(),
        held: held.to_string(),
        runs,
        result,
    };
    let held = "travel, visa and biometrics in each of three runs of 61 bytes";
    let behind = "the same, behind an unknown extension with rights of 1,000 bytes";
    [
        case("rights", held, three(&known), 0),
        case("rights", behind, three(&[unknown, known].concat()), 0),
        case(
            "rights, a fault in the last extension",
            "the runs of 61 bytes, the last one cut short",
            wrong,
            7 << 32,
        ),
    ]
}

/// A search with a long string, for the stack; one of 980 bytes is about the longest there is.
pub fn search_long(length: usize) -> Case {
    let mut string = vec![b'a'; length];
    string[length - 1] = b'b';
    let mut case = search_almost("'b' last", &string);
    case.name = "SEARCH RECORD".to_string();
    case
}
