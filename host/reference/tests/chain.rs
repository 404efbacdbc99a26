//! Commands that come in links: what a link does and what the last one does, which status words come
//! amid a chain and what they drop, chains that no links could have left, and cuts.

use reference::{command, cut, open, SESSION_LEN};

const RESPONSE_LEN: usize = 2_060;
const FILL: u8 = 0xEE;
const OK: u16 = 0x9000;
/// Bytes of a session before its chain.
const STANDING: usize = 25;

const TRAVEL: &str = "00A4040C07A0000002472001";
const VISA: &str = "00A4040C07A0000002472002";
const BIOMETRICS: &str = "00A4040C07A0000002472003";
const ENTRIES: &str = "00A4020C020101";
const CERTIFICATES: &str = "00A4020C02011A";
const BIOMETRICS_5: &str = "00A4020C020205";
const BIOMETRICS_6: &str = "00A4020C020206";

/// A search of EntryRecords for FRA, without header, Lc and Le.
const SEARCH: &str = "7F7619510101A10B800100B006020103020103A307B1058103465241";

// ---------------------------------------------------------------- helpers

fn hex(text: &str) -> Vec<u8> {
    let digits: Vec<u8> = text
        .chars()
        .filter(|c| !c.is_whitespace())
        .map(|c| c.to_digit(16).expect("hex digit") as u8)
        .collect();
    assert_eq!(digits.len() % 2, 0);
    digits
        .chunks(2)
        .map(|pair| pair[0] << 4 | pair[1])
        .collect()
}

/// A section whose body begins with the content; what is free is AA.
fn section(kind: u16, length: usize, content: &[u8]) -> Vec<u8> {
    assert!(content.len() <= length);
    let mut bytes = (length as u32).to_le_bytes().to_vec();
    bytes.extend(kind.to_le_bytes());
    bytes.extend(content);
    bytes.resize(6 + length, 0xAA);
    bytes
}

/// Count and records.
fn records(records: &[&[u8]]) -> Vec<u8> {
    let mut content = (records.len() as u16).to_le_bytes().to_vec();
    for record in records {
        content.extend((record.len() as u16).to_le_bytes());
        content.extend(*record);
    }
    content
}

/// Every application. Biometrics 5 is Deactivated and has 2,000 bytes of room, Biometrics 6 is
/// Activated.
fn card() -> Vec<u8> {
    let entries = [&hex("5F4403555341")[..], &hex("5F4403465241")];
    [
        section(0x0101, 700, &records(&entries)),
        section(0x0102, 8, &records(&[&[7; 4]])),
        section(0x011A, 3_000, &records(&[])),
        section(0x0203, 600, &records(&[])),
        section(0x021A, 40, &records(&[])),
        section(0x031A, 40, &records(&[&[1], &[2]])),
        section(0x0405, 2_005, &[0, 3, 0, 0, 0, 0xC1, 0xC2, 0xC3]),
        section(0x0406, 9, &[1, 2, 0, 0, 0, 0xD1, 0xD2]),
    ]
    .concat()
}

/// Bytes that tell where they came from.
fn pattern(length: usize) -> Vec<u8> {
    (0..length).map(|at| (at * 7 + at / 256) as u8).collect()
}

/// Lc and the data, short where that is enough; nothing where there are no data.
fn with_lc(data: &[u8]) -> Vec<u8> {
    let [high, low] = (data.len() as u16).to_be_bytes();
    match data.len() {
        0 => vec![],
        1..=255 => [&[low], data].concat(),
        _ => [&[0, high, low], data].concat(),
    }
}

/// A command whose data may be sent in links: the header with the CLA of the whole, the data, and
/// whether it has an Le of zeros.
#[derive(Clone)]
struct Sent {
    header: [u8; 4],
    data: Vec<u8>,
    le: bool,
}

impl Sent {
    fn new(header: &str, data: &[u8], le: bool) -> Self {
        Self {
            header: hex(header).try_into().expect("four bytes"),
            data: data.to_vec(),
            le,
        }
    }

    /// A link but the last.
    fn link(&self, data: &[u8]) -> Vec<u8> {
        let [cla, ins, p1, p2] = self.header;
        [vec![cla | 0x10, ins, p1, p2], with_lc(data)].concat()
    }

    /// The last link, or a command without links. Le is as long as Lc.
    fn last(&self, data: &[u8]) -> Vec<u8> {
        let le: &[u8] = match (self.le, data.len()) {
            (false, _) => &[],
            (true, 0..=255) => &[0],
            (true, _) => &[0, 0],
        };
        [&self.header[..], &with_lc(data), le].concat()
    }

    fn whole(&self) -> Vec<u8> {
        self.last(&self.data)
    }

    /// All links, cut at these places.
    fn links(&self, cuts: &[usize]) -> Vec<Vec<u8>> {
        let mut at = 0;
        let mut links = vec![];
        for cut in cuts {
            links.push(self.link(&self.data[at..*cut]));
            at = *cut;
        }
        links.push(self.last(&self.data[at..]));
        links
    }
}

fn append(p2: u8, record: &[u8]) -> Sent {
    Sent::new(&format!("00E200{p2:02X}"), record, false)
}

/// UPDATE BINARY of Biometrics 5 at offset 0, whose data has so many bytes.
fn update(length: usize) -> Sent {
    let [high, low] = (length as u16 - 7).to_be_bytes();
    let head = [0x54, 0x01, 0x00, 0x53, 0x82, high, low];
    let data = [&head[..], &pattern(length - 7)].concat();
    Sent::new("00D70205", &data, false)
}

/// INS, P1, P2 and data of a chain.
type Chain<'a> = (&'a str, &'a [u8]);

#[derive(Clone, Debug, PartialEq, Eq)]
struct Machine {
    image: Vec<u8>,
    session: Vec<u8>,
}

impl Machine {
    /// A session with all rights behind these commands, each of which is answered 9000.
    fn new(commands: &[&str]) -> Self {
        Self::with_rights(&[0xFF; 60], commands)
    }

    fn with_rights(rights: &[u8], commands: &[&str]) -> Self {
        let mut session = vec![FILL; SESSION_LEN + 3];
        assert_eq!(open(rights, &mut session), 0);
        let mut machine = Self {
            image: card(),
            session,
        };
        for text in commands {
            machine.expect(text, "", OK);
        }
        machine
    }

    /// Runs a command and gives data and status. Checks what every command keeps to: only 9000
    /// changes the image; another status drops the chain and no more; a link but the last changes
    /// the chain alone.
    #[track_caller]
    fn run(&mut self, bytes: &[u8]) -> (Vec<u8>, u16) {
        let before = self.clone();
        let mut response = [FILL; RESPONSE_LEN];
        let result = command(&mut self.image, &mut self.session, bytes, &mut response);
        assert_eq!(result >> 32, 0, "refused {bytes:02X?}");
        let length = usize::from((result >> 16) as u16);
        let status = result as u16;
        assert_eq!(response[length - 2..length], status.to_be_bytes());
        assert!(response[length..].iter().all(|byte| *byte == FILL));
        assert_eq!(self.session[..20], before.session[..20]);
        assert_eq!(self.session[SESSION_LEN..], [FILL; 3]);
        let link = status == OK && bytes[0] & 0x10 != 0;
        if !link {
            self.expect_no_chain();
        }
        if link || status != OK {
            assert_eq!(length, 2);
            assert_eq!(self.image, before.image);
            assert_eq!(self.session[..STANDING], before.session[..STANDING]);
        }
        (response[..length - 2].to_vec(), status)
    }

    #[track_caller]
    fn expect_bytes(&mut self, bytes: &[u8], data: &[u8], status: u16) {
        let (got, got_status) = self.run(bytes);
        let (got_status, status) = (format!("{got_status:04X}"), format!("{status:04X}"));
        assert_eq!(got_status, status, "{bytes:02X?}");
        assert_eq!(got, data, "{bytes:02X?}");
    }

    #[track_caller]
    fn expect(&mut self, text: &str, data: &str, status: u16) {
        self.expect_bytes(&hex(text), &hex(data), status);
    }

    #[track_caller]
    fn ok(&mut self, text: &str) {
        self.expect(text, "", OK);
    }

    /// A link but the last that is taken.
    #[track_caller]
    fn takes(&mut self, link: &[u8]) {
        self.expect_bytes(link, &[], OK);
    }

    /// A command that is answered otherwise, and so drops the chain there is.
    #[track_caller]
    fn fails(&mut self, text: &str, status: u16) {
        self.expect(text, "", status);
    }

    #[track_caller]
    fn expect_chain(&self, (header, data): Chain) {
        let length = (data.len() as u16).to_le_bytes();
        let mut expected = [&length[..], &hex(header), data].concat();
        expected.resize(SESSION_LEN - STANDING, 0);
        assert_eq!(self.session[STANDING..SESSION_LEN], expected);
    }

    #[track_caller]
    fn expect_no_chain(&self) {
        assert!(self.session[STANDING..SESSION_LEN].iter().all(|b| *b == 0));
    }

    /// Application, place, file id, record.
    fn place(&self) -> (u8, u8, u16, u8) {
        let s = &self.session;
        (s[20], s[21], u16::from_le_bytes([s[22], s[23]]), s[24])
    }

    /// The number of a call that is refused and touches nothing; 0 where it is taken.
    fn refusal(&self, bytes: &[u8], response_len: usize) -> u64 {
        let mut after = self.clone();
        let mut response = vec![FILL; response_len];
        let result = command(&mut after.image, &mut after.session, bytes, &mut response);
        if result >> 32 != 0 {
            assert_eq!(result as u32, 0);
            assert_eq!(after, *self);
            assert!(response.iter().all(|byte| *byte == FILL));
        }
        result >> 32
    }
}

// ---------------------------------------------------------------- whole and in links

#[test]
fn a_session_has_1_054_bytes() {
    assert_eq!(SESSION_LEN, 1_054);
    let machine = Machine::new(&[]);
    machine.expect_no_chain();
}

#[test]
fn a_certificate_of_900_bytes_in_four_links() {
    let record = pattern(900);
    let certificate = append(0xD0, &record);
    let mut whole = Machine::new(&[TRAVEL]);
    let mut linked = whole.clone();
    let links = certificate.links(&[255, 510, 765]);
    assert_eq!(links.len(), 4);
    for (link, end) in links.iter().zip([255, 510, 765]) {
        linked.takes(link);
        linked.expect_chain(("E200D0", &record[..end]));
    }
    linked.expect_bytes(&links[3], &[], OK);
    whole.expect_bytes(&certificate.whole(), &[], OK);
    assert_eq!(linked, whole);
    assert_eq!(linked.place(), (1, 2, 0x011A, 1));
    let (read, status) = linked.run(&hex("00B20004000000"));
    assert_eq!((read, status), (record, OK));
}

#[test]
fn a_search_in_two_links() {
    let data = hex(SEARCH);
    let search = Sent::new("00A200F8", &data, true);
    for cut in 1..=data.len() {
        let mut machine = Machine::new(&[TRAVEL]);
        let links = search.links(&[cut]);
        machine.takes(&links[0]);
        machine.expect_chain(("A200F8", &data[..cut]));
        assert_eq!(machine.place(), (1, 0, 0, 0));
        machine.expect_bytes(&links[1], &hex("7F7606510101020102"), OK);
        assert_eq!(machine.place(), (1, 2, 0x0101, 2));
    }
}

/// Commands that end in many ways, on the card with travel selected.
fn many() -> Vec<Sent> {
    let search = |data: &str| Sent::new("00A200F8", &hex(data), true);
    vec![
        append(0x08, &pattern(20)),
        append(0x08, &pattern(392)),
        append(0x10, &pattern(9)),
        append(0x00, &pattern(9)),
        append(0x18, &pattern(9)),
        append(0xD0, &pattern(929)),
        Sent::new("00A4040C", &hex("A0000002472002"), false),
        Sent::new("00A4040C", &hex("A0000002471001"), false),
        Sent::new("00A4020C", &hex("0102"), false),
        Sent::new("00A4000C", &hex("3F00"), false),
        Sent::new("00A4000C", &hex("3F0000"), false),
        search(SEARCH),
        search(&SEARCH.replace("465241", "465242")),
        search(&SEARCH.replace("A307", "A407")),
        Sent::new("805E0107", &hex("51020101"), true),
        Sent::new("805E0107", &hex("510108"), true),
        Sent::new("805E0107", &hex("510101"), true),
        Sent::new("00B10101", &hex("540100"), true),
        Sent::new("00D70101", &hex("5401005300"), false),
        Sent::new("00B20104", &hex("00"), true),
        Sent::new("00440000", &hex("0000"), false),
        Sent::new("00B08100", &hex("0000"), true),
    ]
}

/// However the data are cut, the end is that of sending the command whole: answer, image, session.
/// The last link may be without data.
#[test]
fn any_cut_ends_as_the_whole() {
    let start = Machine::new(&[TRAVEL]);
    for sent in many() {
        let mut whole = start.clone();
        let answer = whole.run(&sent.whole());
        let length = sent.data.len();
        let places = (1..=length).filter(|at| *at < 20 || length - at < 20);
        for cut in places {
            for cuts in [vec![cut], vec![1, cut]] {
                if cuts.starts_with(&[1, 1]) {
                    continue;
                }
                let mut linked = start.clone();
                let links = sent.links(&cuts);
                let (last, before) = links.split_last().expect("a link at least");
                for link in before {
                    linked.takes(link);
                }
                assert_eq!(linked.run(last), answer, "{:02X?}", sent.header);
                assert_eq!(linked, whole);
            }
        }
    }
}

#[test]
fn a_byte_in_each_link() {
    let record = pattern(391);
    let sent = append(0x08, &record);
    let mut machine = Machine::new(&[TRAVEL]);
    for end in 1..=391 {
        machine.takes(&sent.link(&record[end - 1..end]));
        machine.expect_chain(("E20008", &record[..end]));
    }
    machine.expect("00E20008", "", OK);
    assert_eq!(machine.run(&hex("00B20004000000")), (record, OK));
}

#[test]
fn links_may_be_short_or_extended() {
    let mut machine = Machine::new(&[TRAVEL]);
    machine.ok("10E20008 000002 0102");
    machine.ok("10E20008 01 03");
    machine.ok("00E20008 000002 0405");
    machine.expect("00B20004000000", "0102030405", OK);
    // The last link's own Le counts, in its own form; a whole search would be extended here.
    let data = hex(SEARCH);
    for le in ["00", "000000"] {
        machine.takes(&Sent::new("00A200F8", &data, true).link(&data));
        machine.expect(&format!("00A200F8 {le}"), "7F7606510101020102", OK);
    }
    machine.takes(&Sent::new("00A200F8", &data, true).link(&data));
    machine.fails("00A200F8 01", 0x6700);
    machine.takes(&Sent::new("00A200F8", &data, true).link(&data));
    machine.fails("00A200F8", 0x6700);
}

// ---------------------------------------------------------------- a link but the last

/// No file is set, no record dropped, no application selected before the last link.
#[test]
fn a_link_changes_the_chain_alone() {
    let mut machine = Machine::new(&[TRAVEL, ENTRIES]);
    machine.ok("00E20008 01 77");
    assert_eq!(machine.place(), (1, 2, 0x0101, 3));
    for (link, rest) in [
        ("10E20010 01 01", "00E20018"),
        ("10A4040C 07 A0000002472002", "00A4040D"),
        ("10A4000C 02 3F00", "00A4000D"),
        ("10A4020C 02 0102", "00A4020D"),
        ("10B08100 01 00", "00B08101"),
        ("905E0100 03 510110", "805E0101"),
    ] {
        machine.ok(link);
        assert_eq!(machine.place(), (1, 2, 0x0101, 3), "{link}");
        // Another header drops it.
        machine.fails(rest, 0x6883);
        assert_eq!(machine.place(), (1, 2, 0x0101, 3), "{link}");
    }
    machine.ok("10A4040C 06 A00000024720");
    machine.ok("00A4040C 01 02");
    assert_eq!(machine.place(), (2, 0, 0, 0));
}

/// A link passes steps 1 to 4 by itself, and no other: neither rights nor files nor the data's
/// syntax matter before the last.
#[test]
fn a_link_passes_four_steps() {
    let mut machine = Machine::with_rights(&[0; 60], &[]);
    for link in [
        "10A4040C 01 FF",
        "10A4020C 03 FFFFFF",
        "10A4000C 01 00",
        "10B07FFF 01 00",
        "10B09F00 01 00",
        "10B1FFFF 01 FF",
        "10D7FFFF 01 FF",
        "10440000 01 00",
        "10E200F8 01 00",
        "10B2FFFD 01 00",
        "10B20004 01 00",
        "10A200F8 01 FF",
        "905E0107 01 FF",
        "905E0000 01 FF",
    ] {
        machine.ok(link);
        let header = &link[2..8];
        machine.expect_chain((header, &hex(&link[11..])));
        // A link again, and another header, which drops it.
        machine.ok(link);
        machine.fails("00440000", if header == "440000" { 0x6700 } else { 0x6883 });
    }
    for (link, status) in [
        ("10", 0x6700),
        ("10E20008 02 77", 0x6700),
        ("20E20008 01 77", 0x6E00),
        ("30E20008 01 77", 0x6E00),
        ("11E20008 01 77", 0x6E00),
        ("18E20008 01 77", 0x6E00),
        ("50E20008 01 77", 0x6E00),
        ("81E20008 01 77", 0x6E00),
        ("D0E20008 01 77", 0x6E00),
        ("FFE20008 01 77", 0x6E00),
        ("90E20008 01 77", 0x6D00),
        ("105E0100 01 77", 0x6D00),
        ("10E30008 01 77", 0x6D00),
        ("10000000 01 77", 0x6D00),
        ("10E20108 01 77", 0x6A86),
        ("10E20009 01 77", 0x6A86),
        ("10A40400 01 77", 0x6A86),
        ("10A4010C 01 77", 0x6A86),
        ("10B0A000 01 77", 0x6A86),
        ("10B0C000 01 77", 0x6A86),
        ("10440001 01 77", 0x6A86),
        ("10B20103 01 77", 0x6A86),
        ("10B20106 01 77", 0x6A86),
        ("10A20000 01 77", 0x6A86),
        ("905E0200 01 77", 0x6A86),
        ("905E0008 01 77", 0x6A86),
        // P1-P2 are looked at before data and Le.
        ("10E20108", 0x6A86),
        ("10E20108 01 77 00", 0x6A86),
    ] {
        machine.fails(link, status);
    }
}

#[test]
fn a_link_has_data_and_no_le() {
    let bad = [
        "10E20008",
        "10E20008 00",
        "10E20008 000000",
        "10E20008 01 77 00",
        "10E20008 000001 77 0000",
        "10E20008 01 77 01",
    ];
    for text in bad {
        let mut machine = Machine::new(&[TRAVEL]);
        machine.fails(text, 0x6700);
        machine.ok("10E20008 01 77");
        machine.fails(text, 0x6700);
        // What was sent before is dropped: this append has its own byte alone.
        machine.ok("00E20008 01 78");
        machine.expect("00B20004000000", "78", OK);
    }
    // Even where the whole command has an Le, or no data.
    let mut machine = Machine::new(&[TRAVEL]);
    machine.fails("10A200F8 01 7F 00", 0x6700);
    machine.fails("10B08100 00", 0x6700);
    machine.fails("10440000", 0x6700);
    machine.fails("905E0000 00", 0x6700);
    machine.fails("905E0100 03 510108 00", 0x6700);
}

// ---------------------------------------------------------------- the join's length

#[test]
fn a_join_of_1_024_bytes() {
    let sent = update(1_024);
    let mut whole = Machine::new(&[BIOMETRICS]);
    whole.expect_bytes(&sent.whole(), &[], OK);
    for cuts in [
        vec![1],
        vec![1_023],
        vec![1_024],
        vec![255, 510, 765, 1_020],
    ] {
        let mut machine = Machine::new(&[BIOMETRICS]);
        for link in sent.links(&cuts) {
            machine.expect_bytes(&link, &[], OK);
        }
        assert_eq!(machine, whole);
    }
}

#[test]
fn a_join_of_1_025_bytes_by_a_link() {
    let sent = update(1_024);
    for cut in [1, 512, 1_023, 1_024] {
        let mut machine = Machine::new(&[BIOMETRICS]);
        machine.takes(&sent.link(&sent.data[..cut]));
        let too_many = vec![0; 1_025 - cut];
        machine.expect_bytes(&sent.link(&too_many), &[], 0x6700);
        // Up to 1,024 it is taken.
        machine.takes(&sent.link(&sent.data[..cut]));
        if cut < 1_024 {
            machine.takes(&sent.link(&sent.data[cut..]));
        }
        machine.expect_chain(("D70205", &sent.data));
        machine.expect("00D70205", "", OK);
    }
}

/// At step 5: before the data's syntax, and before whatever the file is.
#[test]
fn a_join_of_1_025_bytes_by_the_last() {
    for (header, le, at_1_024) in [
        ("00D70205", false, 0x6A80),
        ("00D70405", false, 0x6A80),
        ("00A4040C", false, 0x6A82),
        ("00A200F8", true, 0x6A80),
        ("805E0107", true, 0x6A80),
        ("00B10205", true, 0x6A80),
        ("00E20000", false, 0x6986),
        ("00E200D0", false, 0x6700),
    ] {
        let data = vec![0x77; 1_024];
        let sent = Sent::new(header, &data, le);
        for cut in [1, 700, 1_023, 1_024] {
            let mut machine = Machine::new(&[BIOMETRICS]);
            machine.takes(&sent.link(&data[..cut]));
            machine.expect_bytes(&sent.last(&data[cut..]), &[], at_1_024);
            machine.takes(&sent.link(&data[..cut]));
            let too_many = vec![0x77; 1_025 - cut];
            machine.expect_bytes(&sent.last(&too_many), &[], 0x6700);
        }
    }
    // The right is missing, and yet the length is told.
    let mut machine = Machine::with_rights(&[0; 60], &[]);
    let long = append(0x08, &[7; 1_024]);
    machine.takes(&long.link(&long.data));
    machine.fails("00E20008", 0x6981);
    machine.takes(&long.link(&long.data));
    machine.fails("00E20008 01 07", 0x6700);
}

/// A link's own data may have 1,024 bytes, and no more.
#[test]
fn a_link_of_1_025_bytes() {
    let sent = append(0x08, &[]);
    let mut machine = Machine::new(&[TRAVEL]);
    machine.expect_bytes(&sent.link(&[1; 1_025]), &[], 0x6700);
    machine.takes(&sent.link(&[1; 1_024]));
    machine.expect_chain(("E20008", &[1; 1_024]));
    machine.fails("00E20008", 0x6700);
}

// ---------------------------------------------------------------- the last link

#[test]
fn a_last_link_without_data() {
    let mut machine = Machine::new(&[TRAVEL]);
    machine.ok("10E20008 02 0102");
    machine.ok("00E20008");
    machine.expect("00B20004000000", "0102", OK);
    // Without a chain it has no data at all.
    machine.fails("00E20008", 0x6700);
    machine.ok("905E0107 04 51020101");
    machine.expect("805E0107 00", "7F780A810202B4820101830103", OK);
    machine.fails("805E0107 00", 0x6700);
}

#[test]
fn read_binary_b0_ends_a_chain() {
    for last in [
        "00B08100 00",
        "00B08100 000000",
        "00B08100",
        "00B08100 01 00 00",
        "00B08100 01 00",
    ] {
        let mut machine = Machine::new(&[]);
        machine.ok("10B08100 01 00");
        machine.fails(last, 0x6700);
    }
    let mut machine = Machine::new(&[]);
    machine.expect("00B08100 05", "47038601E0", OK);
}

#[test]
fn read_binary_b1_ends_a_chain() {
    let mut machine = Machine::new(&[BIOMETRICS]);
    machine.ok("10B10205 01 54");
    machine.ok("10B10205 01 01");
    assert_eq!(machine.place(), (3, 0, 0, 0));
    machine.expect("00B10205 01 01 00", "5302C2C3", OK);
    assert_eq!(machine.place(), (3, 1, 0x0205, 0));
    machine.ok("10B10205 03 540100");
    machine.expect("00B10205 00", "5303C1C2C3", OK);
    machine.ok("10B10000 01 54");
    machine.expect("00B10000 000002 0102 0003", "5301C3", OK);
    // Le is absent, or too small for the object.
    machine.ok("10B10205 01 54");
    machine.fails("00B10205 02 0100", 0x6700);
    machine.ok("10B10205 01 54");
    machine.fails("00B10205 02 0100 02", 0x6700);
}

#[test]
fn fmm_in_links() {
    for name in ["51020205", "510208"] {
        let data = hex(name);
        let fmm = Sent::new("805E0101", &data, true);
        let expected = match data[1] {
            2 if data.len() == 4 => (hex("7F7804810207D0"), OK),
            _ => (vec![], 0x6A80),
        };
        for cut in 1..=data.len() {
            let mut machine = Machine::new(&[BIOMETRICS]);
            let links = fmm.links(&[cut]);
            assert_eq!(links[0][0], 0x90);
            machine.takes(&links[0]);
            assert_eq!(machine.run(&links[1]), expected);
        }
    }
    // The current file is named without data, which a chain always has.
    let mut machine = Machine::new(&[BIOMETRICS, BIOMETRICS_5]);
    machine.ok("905E0001 01 51");
    machine.fails("805E0001 00", 0x6700);
    machine.expect("805E0001 00", "7F7804810207D0", OK);
}

#[test]
fn activate_as_a_chain() {
    for last in ["00440000", "00440000 01 00", "00440000 00"] {
        let mut machine = Machine::new(&[BIOMETRICS, BIOMETRICS_5]);
        machine.ok("10440000 01 00");
        machine.expect_chain(("440000", &[0]));
        machine.fails(last, 0x6700);
        machine.ok("00440000");
    }
}

#[test]
fn read_record_as_a_chain() {
    let mut machine = Machine::new(&[TRAVEL]);
    for last in ["00B2010C 000000", "00B2010C", "00B2010C 000001 00 0000"] {
        machine.ok("10B2010C 01 00");
        machine.fails(last, 0x6700);
    }
    machine.expect("00B2010C 000000", "5F4403555341", OK);
}

/// Behind the last link a new command stands by itself, whatever its header is.
#[test]
fn the_last_ends_the_chain() {
    let mut machine = Machine::new(&[TRAVEL]);
    machine.ok("10E20008 01 01");
    machine.ok("00E20008 01 02");
    machine.ok("00E20008 01 03");
    machine.expect("00B20004000000", "03", OK);
    machine.ok("10E20008 01 04");
    machine.ok("00E20008 01 05");
    machine.expect("00B20304000000", "0102", OK);
    machine.expect("00B20504000000", "0405", OK);
    let mut machine = Machine::new(&[BIOMETRICS, BIOMETRICS_5]);
    machine.ok("10D70000 03 540100");
    machine.ok("00D70000 03 5301EE");
    machine.ok("00440000");
}

// ---------------------------------------------------------------- status words amid a chain

/// Runs links that are taken, then a command that is not: it drops the chain and no more, which
/// [`Machine::run`] checks. The same header without data then stands by itself.
#[track_caller]
fn drops(commands: &[&str], links: &[&str], text: &str, status: u16) {
    let mut machine = Machine::new(commands);
    for link in links {
        machine.ok(link);
    }
    machine.fails(text, status);
    machine.expect_no_chain();
}

#[test]
fn every_status_drops_the_chain() {
    let entry = "10E20008 01 77";
    drops(&[TRAVEL], &["10E20010 01 77"], "00E20010", 0x6A84);
    drops(&[TRAVEL], &[entry], "00E200", 0x6700);
    drops(&[TRAVEL], &[entry], "", 0x6700);
    drops(&[TRAVEL], &[entry], "00E20008 02 77", 0x6700);
    drops(&[TRAVEL], &[entry], "00E20008 01 77 00", 0x6700);
    drops(&[TRAVEL], &[entry], "00E20010 01 77", 0x6883);
    drops(&[TRAVEL], &[entry], "20E20008 01 77", 0x6E00);
    drops(&[TRAVEL], &[entry], "00E30008 01 77", 0x6D00);
    drops(&[VISA], &[entry], "00E20008", 0x6A82);
    drops(&[TRAVEL], &["10E20000 01 77"], "00E20000", 0x6986);
    drops(&[], &[entry], "00E20008", 0x6981);
    drops(
        &[BIOMETRICS, CERTIFICATES],
        &["10B10000 01 54"],
        "00B10000 02 0100 00",
        0x6981,
    );
    // An Activated file is never written; and offset 4 is past the end.
    let update = ["10D70000 02 5401"];
    let behind = |offset: &str| format!("00D70000 04 {offset} 5301 77");
    drops(&[BIOMETRICS, BIOMETRICS_6], &update, &behind("00"), 0x6982);
    drops(&[BIOMETRICS, BIOMETRICS_5], &update, &behind("04"), 0x6A80);
    drops(
        &[BIOMETRICS],
        &["10B10205 01 54"],
        "00B10205 02 0103 00",
        0x6B00,
    );
    drops(&[], &["905E0102 02 5102"], "805E0102 02 2F01 00", 0x6A86);
    let absent = SEARCH.replace("465241", "465242");
    let (first, rest) = absent.split_at(20);
    drops(
        &[TRAVEL],
        &[&format!("10A200F8 0A {first}")],
        &format!("00A200F8 12 {rest} 00"),
        0x6282,
    );
    // Of a link but the last.
    drops(&[TRAVEL], &[entry], "10E20008", 0x6700);
    drops(&[TRAVEL], &[entry], "10E20010 01 77", 0x6883);
    drops(&[TRAVEL], &[entry], "30E20008 01 77", 0x6E00);
    drops(&[TRAVEL], &[entry], "10E30008 01 77", 0x6D00);
    drops(&[TRAVEL], &[entry], "90E20008 01 77", 0x6D00);
}

/// The room ends behind 2,000 bytes, of which 1,000 are written.
#[test]
fn no_room_at_the_last_link() {
    let mut machine = Machine::new(&[BIOMETRICS, BIOMETRICS_5]);
    machine.expect_bytes(&update(1_007).whole(), &[], OK);
    for (length, status) in [(1_001, 0x6A84), (1_000, OK)] {
        let [high, low] = (length as u16).to_be_bytes();
        let data = [
            &hex("540203E8")[..],
            &[0x53, 0x82, high, low],
            &pattern(length),
        ]
        .concat();
        let links = Sent::new("00D70000", &data, false).links(&[2]);
        machine.takes(&links[0]);
        machine.expect_bytes(&links[1], &[], status);
    }
}

/// Links that a status has dropped are not in the next record.
#[test]
fn dropped_links_are_gone() {
    let mut machine = Machine::new(&[TRAVEL]);
    machine.ok("10E20008 02 0102");
    machine.fails("00E30008 01 03", 0x6D00);
    machine.ok("00E20008 01 03");
    machine.expect("00B20004000000", "03", OK);
    machine.ok("10E20008 02 0102");
    machine.fails("10E20010 01 03", 0x6883);
    machine.ok("10E20008 01 04");
    machine.expect_chain(("E20008", &[4]));
    machine.ok("00E20008 01 05");
    machine.expect("00B20004000000", "0405", OK);
}

#[test]
fn another_header_amid_a_chain() {
    let mut machine = Machine::new(&[TRAVEL]);
    for (text, status) in [
        // INS, P1 or P2 alone is another; in a link and in a whole command.
        ("10A40008 01 77", 0x6883),
        ("00A4000C 02 3F00", 0x6883),
        ("10E20010 01 77", 0x6883),
        ("00E20010 01 77", 0x6883),
        ("10E20108 01 77", 0x6883),
        ("00E20108 01 77", 0x6883),
        ("10B20008 01 77", 0x6883),
        ("805E0000 00", 0x6883),
        ("905E0008 01 77", 0x6883),
        ("00B2010C 000000", 0x6883),
        ("00440000", 0x6883),
        // Before 6A86, and before step 5.
        ("00E20009 01 77", 0x6883),
        ("00440001", 0x6883),
        ("00A4040D", 0x6883),
        ("10E20010", 0x6883),
        ("00E20010", 0x6883),
        ("00E20010 01 77 00", 0x6883),
        // Behind 6D00, 6E00 and the shape.
        ("00E30010 01 77", 0x6D00),
        ("80E20010 01 77", 0x6D00),
        ("80E20008 01 77", 0x6D00),
        ("005E0008 00", 0x6D00),
        ("10000000 01 77", 0x6D00),
        ("01E20010 01 77", 0x6E00),
        ("20E30010 01 77", 0x6E00),
        ("00E20010 00 77", 0x6700),
        ("FFE2", 0x6700),
    ] {
        machine.ok("10E20008 02 0102");
        machine.fails(text, status);
    }
    // It is not done, but can be sent again, for the chain is over.
    machine.ok("10E20008 02 0102");
    machine.fails("00A4000C 02 3F00", 0x6883);
    assert_eq!(machine.place(), (1, 0, 0, 0));
    machine.ok("00A4000C 02 3F00");
    assert_eq!(machine.place(), (0, 0, 0, 0));
    // Over a join that would be too long, the header is told.
    machine.takes(&append(0x08, &[]).link(&[1; 1_024]));
    machine.fails("00E20010 01 77", 0x6883);
}

/// The other way round: FMM's chain, which the class of ISO does not end.
#[test]
fn another_class_amid_a_chain() {
    let mut machine = Machine::new(&[TRAVEL]);
    machine.ok("905E0107 02 5102");
    machine.fails("005E0107 02 0101 00", 0x6D00);
    machine.ok("905E0107 02 5102");
    machine.fails("00A4000C 02 3F00", 0x6883);
    machine.ok("905E0107 02 5102");
    machine.expect("805E0107 02 0101 00", "7F780A810202B6820101830102", OK);
}

// ---------------------------------------------------------------- refusals

/// A session with these bytes for its chain.
fn with_chain(standing: &Machine, length: usize, header: [u8; 3], data: &[u8]) -> Machine {
    let mut machine = standing.clone();
    let chain = &mut machine.session[STANDING..SESSION_LEN];
    chain.fill(0);
    chain[..2].copy_from_slice(&(length as u16).to_le_bytes());
    chain[2..5].copy_from_slice(&header);
    chain[5..5 + data.len()].copy_from_slice(data);
    machine
}

/// Commands that are refused all alike, for the session is tested before they are looked at.
fn any_commands() -> [Vec<u8>; 4] {
    ["", "00E20008 01 77", "10E20008 01 77", "00A4000C023F00"].map(hex)
}

#[track_caller]
fn impossible(machine: &Machine) {
    for bytes in any_commands() {
        assert_eq!(machine.refusal(&bytes, RESPONSE_LEN), 4);
        assert_eq!(machine.refusal(&bytes, 2_049), 1);
        let mut image = machine.image.clone();
        assert_eq!(cut(&mut image, &machine.session, &bytes, 99), 4 << 32);
        assert_eq!(image, machine.image);
    }
}

#[track_caller]
fn possible(machine: &Machine) {
    for bytes in any_commands() {
        assert_eq!(machine.refusal(&bytes, RESPONSE_LEN), 0);
    }
}

#[test]
fn lengths_of_a_chain() {
    let travel = Machine::new(&[TRAVEL]);
    let e2 = [0xE2, 0x00, 0x08];
    let full = [0x77; 1_024];
    possible(&with_chain(&travel, 1, e2, &[1]));
    possible(&with_chain(&travel, 1, e2, &[]));
    possible(&with_chain(&travel, 1_024, e2, &full));
    possible(&with_chain(&travel, 1_024, e2, &[]));
    for length in [1_025, 1_026, 2_048, 0x8001, 0xFFFF] {
        impossible(&with_chain(&travel, length, e2, &full));
        impossible(&with_chain(&travel, length, e2, &[]));
    }
    // None, with a header or with bytes.
    possible(&with_chain(&travel, 0, [0, 0, 0], &[]));
    impossible(&with_chain(&travel, 0, e2, &[]));
    for header in [[0xE2, 0, 0], [0, 1, 0], [0, 0, 1]] {
        impossible(&with_chain(&travel, 0, header, &[]));
    }
    for at in 0..1_024 {
        let mut data = [0; 1_024];
        data[at] = 1;
        impossible(&with_chain(&travel, 0, [0, 0, 0], &data));
    }
    impossible(&with_chain(&travel, 0, e2, &full));
}

/// What the chain's data leave of the 1,024 bytes is zero.
#[test]
fn bytes_behind_a_chain() {
    let travel = Machine::new(&[TRAVEL]);
    let e2 = [0xE2, 0x00, 0x08];
    for length in [1, 2, 500, 1_023] {
        for at in 0..1_024 {
            let mut data = vec![0; 1_024];
            data[at] = 0x80;
            let machine = with_chain(&travel, length, e2, &data);
            if at < length {
                assert_eq!(machine.refusal(&[], RESPONSE_LEN), 0, "{length} {at}");
            } else {
                assert_eq!(machine.refusal(&[], RESPONSE_LEN), 4, "{length} {at}");
            }
        }
    }
}

/// Whether step 4 lets P1 and P2 of an INS pass, from the commands' own lines.
fn step_4(ins: u8, p1: u8, p2: u8) -> Option<bool> {
    Some(match ins {
        0xA4 => p2 == 0x0C && [0x00, 0x02, 0x04].contains(&p1),
        0xB0 => p1 < 0xA0,
        0xB1 | 0xD7 => true,
        0x44 => p1 == 0 && p2 == 0,
        0xE2 => p1 == 0 && p2.is_multiple_of(8),
        0xB2 => p2 % 8 == 4 || p2 % 8 == 5,
        0xA2 => p1 == 0 && p2 == 0xF8,
        0x5E => p1 < 2 && p2 < 8,
        _ => return None,
    })
}

/// Every header: it fits exactly where an INS has such P1 and P2, whatever the class would be. A
/// first link says the same.
#[test]
fn headers_of_a_chain() {
    // Without the card, since each call reads it.
    let mut master = Machine::new(&[]);
    master.image.clear();
    let values = [
        0x00, 0x01, 0x02, 0x03, 0x04, 0x05, 0x06, 0x07, 0x08, 0x09, 0x0C, 0x0D, 0x10, 0x1F, 0x20,
        0x40, 0x60, 0x7F, 0x80, 0x81, 0x9F, 0xA0, 0xBF, 0xC0, 0xDF, 0xE0, 0xF0, 0xF8, 0xFC, 0xFD,
        0xFE, 0xFF,
    ];
    for ins in 0..=0xFF {
        for p1 in values {
            for p2 in values {
                let taken = step_4(ins, p1, p2);
                let machine = with_chain(&master, 1, [ins, p1, p2], &[0x77]);
                let expected = if taken == Some(true) { 0 } else { 4 };
                let got = machine.refusal(&hex("00E20008 01 77"), RESPONSE_LEN);
                assert_eq!(got, expected, "{ins:02X} {p1:02X} {p2:02X}");

                let cla = if ins == 0x5E { 0x90 } else { 0x10 };
                let status = match taken {
                    None => 0x6D00,
                    Some(false) => 0x6A86,
                    Some(true) => OK,
                };
                let mut machine = master.clone();
                machine.expect_bytes(&[cla, ins, p1, p2, 1, 0x77], &[], status);
                if status == OK {
                    let made = with_chain(&master, 1, [ins, p1, p2], &[0x77]);
                    assert_eq!(machine, made);
                }
            }
        }
    }
}

/// A chain that only its last link can fail fits; so does one that no right allows.
#[test]
fn chains_that_come_to_nothing_fit() {
    let none = Machine::with_rights(&[0; 60], &[]);
    for (header, last, status) in [
        ([0xB0, 0x00, 0x00], "00B00000 00", 0x6700),
        ([0x44, 0x00, 0x00], "00440000", 0x6700),
        ([0xB2, 0x01, 0x04], "00B20104 000000", 0x6700),
        ([0x5E, 0x00, 0x01], "805E0001 00", 0x6700),
        ([0xE2, 0x00, 0xF8], "00E200F8", 0x6A82),
        ([0xD7, 0x2F, 0x01], "00D72F01", 0x6A80),
    ] {
        let mut machine = with_chain(&none, 3, header, &[1, 2, 3]);
        possible(&machine);
        machine.fails(last, status);
    }
}

/// The chain does not mend a session that does not fit for another reason.
#[test]
fn other_reasons_of_number_4_stay() {
    let travel = Machine::new(&[TRAVEL]);
    let chained = with_chain(&travel, 1, [0xE2, 0x00, 0x08], &[1]);
    possible(&chained);
    for (at, byte) in [(0, 0xFF), (20, 4), (21, 1), (22, 1), (23, 1), (24, 1)] {
        let mut machine = chained.clone();
        machine.session[at] = byte;
        impossible(&machine);
    }
    let mut machine = chained.clone();
    machine.image.clear();
    impossible(&machine);
}

#[test]
fn lengths_of_the_session_buffer() {
    let travel = Machine::new(&[TRAVEL]);
    let chained = with_chain(&travel, 2, [0xE2, 0x00, 0x08], &[1, 2]);
    for machine in [travel, chained] {
        for length in [0, 25, 26, 29, 30, 32, 1_052, 1_053] {
            let mut short = machine.clone();
            short.session.truncate(length);
            impossible(&short);
            // 1 and 2 come before.
            short.image.push(0);
            assert_eq!(short.refusal(&[], RESPONSE_LEN), 2);
            assert_eq!(short.refusal(&[], 2_049), 1);
        }
        for more in [0, 1, 100] {
            let mut longer = machine.clone();
            longer.session.truncate(SESSION_LEN);
            longer.session.extend(vec![0xFF; more]);
            possible(&longer);
            let mut response = [0; 2_050];
            let append = hex("00E20008 01 77");
            let result = command(
                &mut longer.image,
                &mut longer.session,
                &append,
                &mut response,
            );
            assert_eq!(result, 0x2_9000);
            assert_eq!(longer.session[SESSION_LEN..], vec![0xFF; more]);
            assert_eq!(longer.session[STANDING..SESSION_LEN], [0; 1_029]);
        }
    }
    for length in [1_053, 1_054, 1_055] {
        let mut session = vec![FILL; length];
        let result = open(&[0xFF; 60], &mut session);
        if length < 1_054 {
            assert_eq!((result, session), (4 << 32, vec![FILL; length]));
        } else {
            assert_eq!(result, 0);
            assert_eq!(session[20..1_054], [0; 1_034]);
            assert_eq!(session[1_054..], vec![FILL; length - 1_054]);
        }
    }
}

/// Amid a chain a refusal leaves it there, and the next command goes on with it.
#[test]
fn a_refusal_amid_a_chain_touches_nothing() {
    let mut machine = Machine::new(&[TRAVEL]);
    machine.ok("10E20008 02 0102");
    for text in ["00E20008 01 03", "10E20008 01 03", "00A4000C023F00", "FF"] {
        let bytes = hex(text);
        for length in [0, 2, 2_049] {
            assert_eq!(machine.refusal(&bytes, length), 1);
        }
        let mut spoiled = machine.clone();
        spoiled.image.push(0);
        assert_eq!(spoiled.refusal(&bytes, RESPONSE_LEN), 2);
        let mut spoiled = machine.clone();
        spoiled.session[24] = 1;
        assert_eq!(spoiled.refusal(&bytes, RESPONSE_LEN), 4);
    }
    machine.expect_chain(("E20008", &[1, 2]));
    machine.ok("00E20008 01 03");
    machine.expect("00B20004000000", "010203", OK);
}

/// Opening begins without a chain, whatever the buffer held.
#[test]
fn opening_drops_a_chain() {
    let mut machine = Machine::new(&[TRAVEL]);
    machine.ok("10E20008 02 0102");
    assert_eq!(open(&[0xFF; 60], &mut machine.session), 0);
    machine.expect_no_chain();
    machine.ok("10E20008 02 0102");
    assert_eq!(open(&[0xFF; 59], &mut machine.session), 3 << 32);
    assert_eq!(machine.session[..SESSION_LEN], [0; SESSION_LEN]);
}

// ---------------------------------------------------------------- cuts

/// What a cut leaves of the image, and its result; the session is only read.
fn left(machine: &Machine, bytes: &[u8], stores: usize) -> (Vec<u8>, u64) {
    let mut image = machine.image.clone();
    let result = cut(&mut image, &machine.session, bytes, stores);
    (image, result)
}

#[track_caller]
fn no_store(machine: &Machine, text: &str) {
    for stores in [0, 1, 7, usize::MAX] {
        let expected = (machine.image.clone(), 0);
        assert_eq!(left(machine, &hex(text), stores), expected, "{text}");
    }
}

#[test]
fn a_cut_of_a_link_makes_no_store() {
    let mut machine = Machine::new(&[TRAVEL]);
    no_store(&machine, "10E20008 03 010203");
    machine.ok("10E20008 03 010203");
    no_store(&machine, "10E20008 02 0405");
    let machine = Machine::new(&[BIOMETRICS, BIOMETRICS_5]);
    no_store(&machine, "10440000 01 00");
}

/// The stores of the last link are those of the whole append, one by one.
#[test]
fn a_cut_of_a_last_link_makes_the_stores_of_the_join() {
    let record = pattern(300);
    let sent = append(0x08, &record);
    let start = Machine::new(&[TRAVEL]);
    for cuts in [vec![1], vec![299], vec![300], vec![100, 200]] {
        let mut linked = start.clone();
        let links = sent.links(&cuts);
        let (last, before) = links.split_last().expect("a link at least");
        for link in before {
            linked.takes(link);
        }
        for stores in (0..310).chain([usize::MAX]) {
            let (image, result) = left(&linked, last, stores);
            assert_eq!(result, 304);
            assert!((image, result) == left(&start, &sent.whole(), stores));
        }
        // All stores are what the command leaves.
        let (image, _) = left(&linked, last, 304);
        linked.expect_bytes(last, &[], OK);
        assert!(image == linked.image);
    }
}

/// A last link that is answered otherwise has no store, and neither has another header.
#[test]
fn cuts_amid_a_chain_that_make_no_store() {
    let mut machine = Machine::new(&[TRAVEL]);
    machine.ok("10E20008 02 0102");
    for text in [
        "00E20010 01 03",
        "00E20108 01 03",
        "00E20008 01 03 00",
        "80E20008 01 03",
        "20E20008 01 03",
        "00E2",
        "00440000",
    ] {
        no_store(&machine, text);
    }
    let long = append(0x08, &[7; 390]);
    let with_390 = with_chain(&machine, 390, [0xE2, 0x00, 0x08], &long.data);
    assert_eq!(left(&with_390, &hex("00E20008 01 03"), 0).1, 395);
    no_store(&with_390, "00E20008 02 0304");
    let with_1_024 = with_chain(&machine, 1_024, [0xE2, 0x00, 0x08], &[7; 1_024]);
    no_store(&with_1_024, "00E20008 01 03");

    // ACTIVATE: alone it has one; at the end of a chain, or amid another, none.
    let open = Machine::new(&[BIOMETRICS, BIOMETRICS_5]);
    assert_eq!(left(&open, &hex("00440000"), 0).1, 1);
    no_store(&with_chain(&open, 1, [0x44, 0, 0], &[0]), "00440000");
    no_store(&with_chain(&open, 1, [0xE2, 0, 8], &[0]), "00440000");
    // UPDATE BINARY has no list, in links either.
    no_store(
        &with_chain(&open, 3, [0xD7, 0, 0], &[0x54, 1, 0]),
        "00D70000 03 530177",
    );
}

// ---------------------------------------------------------------- at random

struct Random(u64);

impl Random {
    fn below(&mut self, limit: usize) -> usize {
        self.0 ^= self.0 << 13;
        self.0 ^= self.0 >> 7;
        self.0 ^= self.0 << 17;
        (self.0 >> 16) as usize % limit
    }
}

/// Long talks on two machines, one of which gets each command whole and the other in links: they
/// never differ.
#[test]
fn talks_in_links_and_without() {
    let mut random = Random(0x0123_4567_89AB_CDEF);
    let mut commands = many();
    commands.push(update(600));
    commands.push(Sent::new("00A4040C", &hex("A0000002472001"), false));
    commands.push(Sent::new("00A4040C", &hex("A0000002472003"), false));
    commands.push(Sent::new("00B10205", &hex("540102"), true));
    let mut whole = Machine::new(&[]);
    let mut linked = whole.clone();
    for _ in 0..4_000 {
        let sent = &commands[random.below(commands.len())];
        let answer = whole.run(&sent.whole());
        let mut cuts: Vec<usize> = (0..random.below(5))
            .map(|_| 1 + random.below(sent.data.len()))
            .collect();
        cuts.sort_unstable();
        cuts.dedup();
        let links = sent.links(&cuts);
        let (last, before) = links.split_last().expect("a link at least");
        for link in before {
            linked.takes(link);
        }
        assert_eq!(linked.run(last), answer);
        assert_eq!(linked, whole);
    }
}
