//! The eight commands; READ BINARY has two forms, INS B0 and INS B1. Steps 1 to 4 are made for all
//! of them in one place, with the chain; the function of each command makes the tests of steps 5 to
//! 10 in their order. A status other than 9000 is an `Err`, given before anything is changed.

use crate::apdu::{Apdu, Le};
use crate::chain::Chain;
use crate::image::{Application, BiometricsFile, File, Layout, RecordFile, TransparentFile};
use crate::instruction::Instruction;
use crate::objects::{self, FileName, Search, Update};
use crate::rights::Use;
use crate::search;
use crate::session::{Place, Session};
use crate::stores::{self, Store};

/// 256 * SW1 + SW2.
pub type Status = u16;

pub const OK: Status = 0x9000;
const NOT_FOUND: Status = 0x6282;
const WRONG_LENGTH: Status = 0x6700;
const LINK_EXPECTED: Status = 0x6883;
const WRONG_FILE_TYPE: Status = 0x6981;
const RIGHT_MISSING: Status = 0x6982;
const NO_CURRENT_FILE: Status = 0x6986;
const WRONG_DATA: Status = 0x6A80;
const NO_SUCH_FILE: Status = 0x6A82;
const NO_SUCH_RECORD: Status = 0x6A83;
const NO_ROOM: Status = 0x6A84;
const WRONG_P1_P2: Status = 0x6A86;
const WRONG_OFFSET: Status = 0x6B00;
const WRONG_INS: Status = 0x6D00;
const WRONG_CLA: Status = 0x6E00;

/// The most data that READ BINARY and READ RECORD answer.
const LONGEST_REPLY: usize = 2_048;
/// An object with a tag of one byte and one byte of content; less of a file cannot be wrapped.
const SHORTEST_WRAPPED: usize = 3;
/// The most records that any file has.
const MOST_RECORDS: usize = 254;

/// A command answered 9000: how many data bytes stand in the response, and the session after.
pub struct Done {
    pub data: usize,
    pub session: Session,
}

type Outcome = Result<Done, Status>;

/// An APPEND RECORD or ACTIVATE answered 9000, before anything is changed: its stores in their
/// order, and the session after.
struct Change {
    stores: Vec<Store>,
    session: Session,
}

impl Change {
    /// Makes all stores.
    fn make(self, image: &mut [u8]) -> Session {
        stores::make_first(usize::MAX, &self.stores, image);
        self.session
    }
}

/// What came, behind steps 1 to 4.
enum Received<'a> {
    /// A link but the last, and the session after it, in which it is held.
    Link(Session),
    /// A command that is all there. Amid a chain it is the last link, with the join for its data.
    Whole(Instruction, Apdu<'a>),
}

/// Steps 1 to 4: the shape, the class, the instruction, then P1 and P2. Amid a chain the header must
/// be that of the chain, which is tested behind step 3. Each link passes these steps by itself; what
/// is joined is tested behind them.
fn receive<'a>(session: &Session, bytes: &'a [u8]) -> Result<Received<'a>, Status> {
    let apdu = Apdu::parse(bytes).ok_or(WRONG_LENGTH)?;
    require(matches!(apdu.class(), 0x00 | 0x80), WRONG_CLA)?;
    let instruction = Instruction::of_pair(apdu.class(), apdu.header.ins).ok_or(WRONG_INS)?;
    let chain = session.chain.as_ref();
    require(
        chain.is_none_or(|chain| chain.header == apdu.header),
        LINK_EXPECTED,
    )?;
    require(instruction.allows(apdu.p1(), apdu.p2()), WRONG_P1_P2)?;
    if apdu.more_follow() {
        let link = data_without_le(&apdu)?;
        let chain = Chain::behind(chain, apdu.header, link).ok_or(WRONG_LENGTH)?;
        return Ok(Received::Link(session.amid(chain)));
    }
    Ok(Received::Whole(instruction, with_earlier(chain, apdu)?))
}

/// Step 5 amid a chain: the last link's data is behind that of the links before it.
fn with_earlier<'a>(chain: Option<&Chain>, last: Apdu<'a>) -> Result<Apdu<'a>, Status> {
    let Some(chain) = chain else {
        return Ok(last);
    };
    let join = chain
        .ending_with(last.data().unwrap_or(&[]))
        .ok_or(WRONG_LENGTH)?;
    Ok(last.with_join(join))
}

/// Steps 1 to 4, then the command itself. A link but the last only changes the session.
pub fn run(
    image: &mut [u8],
    layout: &Layout,
    session: &Session,
    bytes: &[u8],
    response: &mut [u8],
) -> Outcome {
    let (instruction, apdu) = match receive(session, bytes)? {
        Received::Link(session) => return Ok(Done { data: 0, session }),
        Received::Whole(instruction, apdu) => (instruction, apdu),
    };
    let card = Card { layout, session };
    let mut reply = Reply::new(response);
    let session = match instruction {
        Instruction::Select => card.select(&apdu),
        Instruction::ReadBinaryB0 => card.read_binary_b0(&apdu, image, &mut reply),
        Instruction::ReadBinaryB1 => card.read_binary_b1(&apdu, image, &mut reply),
        Instruction::UpdateBinary => card.update_binary(&apdu, image),
        Instruction::Activate => card.activate(&apdu).map(|change| change.make(image)),
        Instruction::AppendRecord => card.append_record(&apdu).map(|change| change.make(image)),
        Instruction::ReadRecord => card.read_record(&apdu, image, &mut reply),
        Instruction::SearchRecord => card.search_record(&apdu, image, &mut reply),
        Instruction::Fmm => card.fmm(&apdu, &mut reply),
    }?;
    Ok(Done {
        data: reply.length,
        session,
    })
}

/// The stores of a command in their order. Only an APPEND RECORD or ACTIVATE that would be answered
/// 9000 has some; a link but the last has none, and the last has those of the join. UPDATE BINARY
/// writes too, but has no list.
pub fn stores(layout: &Layout, session: &Session, bytes: &[u8]) -> Vec<Store> {
    let card = Card { layout, session };
    let change = match receive(session, bytes) {
        Ok(Received::Whole(Instruction::Activate, apdu)) => card.activate(&apdu),
        Ok(Received::Whole(Instruction::AppendRecord, apdu)) => card.append_record(&apdu),
        _ => return vec![],
    };
    change.map_or(vec![], |change| change.stores)
}

/// The card and the session that a command meets. Each command gives the session after it, within
/// a [`Change`] where it has stores.
struct Card<'a> {
    layout: &'a Layout,
    session: &'a Session,
}

impl Card<'_> {
    /// SELECT: by P1 an application, a file of the selected application, or the master file.
    fn select(&self, apdu: &Apdu) -> Result<Session, Status> {
        let data = data_without_le(apdu)?;
        match apdu.p1() {
            0x04 => self.select_application(data),
            0x02 => self.select_file(two_bytes(data)?),
            _ => self.select_master_file(two_bytes(data)?),
        }
    }

    /// An application, by its AID. It must be on the card, and its flag must be set.
    fn select_application(&self, aid: &[u8]) -> Result<Session, Status> {
        let application = Application::of_aid(aid)
            .filter(|application| self.layout.has(*application))
            .ok_or(NO_SUCH_FILE)?;
        require(self.session.rights.flag(application), RIGHT_MISSING)?;
        Ok(self.session.selecting(application))
    }

    /// A file, by its id. The current record is dropped even where the file was current before.
    fn select_file(&self, id: u16) -> Result<Session, Status> {
        let file = self.file_by_id(id)?;
        self.require_right(&file, Use::Read)?;
        Ok(self.session.dropping_record(id))
    }

    /// The master file, by the one id that it has.
    fn select_master_file(&self, id: u16) -> Result<Session, Status> {
        require(id == 0x3F00, NO_SUCH_FILE)?;
        Ok(self.session.selecting(Application::MasterFile))
    }

    /// READ BINARY with INS B0. b8 of P1 tells how the file is named: by a short id in P1, and P2
    /// is the offset; or it is the current file, and the offset has 15 bits. The reply is the bytes
    /// themselves.
    fn read_binary_b0(
        &self,
        apdu: &Apdu,
        image: &[u8],
        reply: &mut Reply,
    ) -> Result<Session, Status> {
        let (None, Some(le)) = (apdu.data(), apdu.le) else {
            return Err(WRONG_LENGTH);
        };
        let (file, offset) = if apdu.p1() & 0x80 != 0 {
            let short_id = apdu.p1() & 0x1F;
            (self.file_by_short_id(short_id)?, usize::from(apdu.p2()))
        } else {
            (self.current_file()?, usize::from(apdu.p1_p2()))
        };
        let transparent = self.readable_file(&file)?;

        let rest = content_from(offset, transparent.content(image))?;
        reply.put(&rest[..rest.len().min(le.ne()).min(LONGEST_REPLY)]);
        Ok(self.session.setting_file(file.id()))
    }

    /// READ BINARY with INS B1, of the current file (P1-P2 0000), or of the file whose id P1-P2 is.
    /// The offset is in the data, so that it can reach every byte of the largest room. The reply is
    /// an object: `53` around as many bytes as fit.
    fn read_binary_b1(
        &self,
        apdu: &Apdu,
        image: &[u8],
        reply: &mut Reply,
    ) -> Result<Session, Status> {
        let (Some(data), Some(le)) = (apdu.data(), apdu.le) else {
            return Err(WRONG_LENGTH);
        };
        let offset = objects::read_offset(data).ok_or(WRONG_DATA)?;
        let file = self.file_of_p1_p2(apdu.p1_p2())?;
        let transparent = self.readable_file(&file)?;

        let rest = content_from(offset, transparent.content(image))?;
        require(le.ne() >= SHORTEST_WRAPPED, WRONG_LENGTH)?;
        let fitting = most_wrapped(rest.len(), le.ne().min(LONGEST_REPLY));
        reply.put_object(0x53, &rest[..fitting]);
        Ok(self.session.setting_file(file.id()))
    }

    /// UPDATE BINARY of the current file (P1-P2 0000), or of the file whose id P1-P2 is. The
    /// offset is at most w, so that no byte is left unwritten between.
    fn update_binary(&self, apdu: &Apdu, image: &mut [u8]) -> Result<Session, Status> {
        let update = Update::read(data_without_le(apdu)?).ok_or(WRONG_DATA)?;
        let file = self.file_of_p1_p2(apdu.p1_p2())?;
        let biometrics = self.writable_file(&file)?;

        require(update.offset <= biometrics.written, WRONG_DATA)?;
        require(
            update.offset + update.bytes.len() <= biometrics.room,
            NO_ROOM,
        )?;
        biometrics.write(image, update.offset, update.bytes);
        Ok(self.session.setting_file(file.id()))
    }

    /// ACTIVATE of the current file.
    fn activate(&self, apdu: &Apdu) -> Result<Change, Status> {
        require(apdu.data().is_none() && apdu.le.is_none(), WRONG_LENGTH)?;
        let file = self.current_file()?;
        Ok(Change {
            stores: self.writable_file(&file)?.activate_stores(),
            session: self.session.without_chain(),
        })
    }

    /// APPEND RECORD. The length is tested before the count and the room. The new record is
    /// current then.
    fn append_record(&self, apdu: &Apdu) -> Result<Change, Status> {
        let record = data_without_le(apdu)?;
        let file = self.file_of_p2(apdu.p2())?;
        let records = record_file(&file)?;
        self.require_right(&file, Use::Append)?;

        require(record.len() <= records.rule.longest, WRONG_LENGTH)?;
        require(
            records.count < records.rule.most && records.fits(record.len()),
            NO_ROOM,
        )?;
        let number = records.count as u8 + 1;
        Ok(Change {
            stores: records.append_stores(record),
            session: self.session.setting_record(file.id(), number),
        })
    }

    /// READ RECORD of one record, or of all from one on, joined and cut.
    fn read_record(&self, apdu: &Apdu, image: &[u8], reply: &mut Reply) -> Result<Session, Status> {
        require(
            apdu.data().is_none() && apdu.le == Some(Le::Extended(0)),
            WRONG_LENGTH,
        )?;
        let file = self.file_of_p2(apdu.p2())?;
        let records = record_file(&file)?;
        self.require_right(&file, Use::Read)?;

        let first = self.record_of_p1(apdu.p1(), records)?;
        let only_one = apdu.p2() & 0x01 == 0;
        let count = if only_one { 1 } else { usize::MAX };
        for record in records.records(image).skip(first - 1).take(count) {
            let left = LONGEST_REPLY - reply.length;
            if left == 0 {
                break;
            }
            reply.put(&record[..record.len().min(left)]);
        }
        Ok(self.session.setting_file(file.id()))
    }

    /// The number that P1 means, from 1 to the count. 00 is the current record, which only the
    /// current file has. FF is above every count.
    fn record_of_p1(&self, p1: u8, file: &RecordFile) -> Result<usize, Status> {
        let number = match (p1, self.session.place) {
            (0x00, Place::Record(id, record)) if id == file.rule.id => record,
            (0x00 | 0xFF, _) => return Err(NO_SUCH_RECORD),
            (number, _) => number,
        };
        let number = usize::from(number);
        require((1..=file.count).contains(&number), NO_SUCH_RECORD)?;
        Ok(number)
    }

    /// SEARCH RECORD. The first match is current then. A reply longer than asked for is 6700, and
    /// nothing of it is written.
    fn search_record(
        &self,
        apdu: &Apdu,
        image: &[u8],
        reply: &mut Reply,
    ) -> Result<Session, Status> {
        let (Some(data), Some(le)) = (apdu.data(), apdu.le.filter(|le| le.is_zero())) else {
            return Err(WRONG_LENGTH);
        };
        let search = Search::read(data).ok_or(WRONG_DATA)?;
        let file = self.file_by_name(search.file)?;
        let records = record_file(&file)?;
        self.require_right(&file, Use::Read)?;

        let matches = Matches::find(&search, records, image);
        let first = *matches.numbers().first().ok_or(NOT_FOUND)?;
        let inside = 2 + search.sent_file.len() + 3 * matches.numbers().len();
        let length = 2 + length_field_size(inside) + inside;
        require(length <= le.ne(), WRONG_LENGTH)?;
        reply.put(&[0x7F, 0x76]);
        reply.put_length(inside);
        reply.put_object(0x51, search.sent_file);
        for number in matches.numbers() {
            reply.put_object(0x02, &[*number]);
        }
        Ok(self.session.setting_record(file.id(), first))
    }

    /// FILE AND MEMORY MANAGEMENT of the current file (P1 00), or of the file that the data names
    /// (P1 01). The low three bits of P2 say which numbers are asked for.
    fn fmm(&self, apdu: &Apdu, reply: &mut Reply) -> Result<Session, Status> {
        let by_name = apdu.p1() == 0x01;
        require(apdu.data().is_some() == by_name, WRONG_LENGTH)?;
        require(apdu.le.is_some_and(Le::is_zero), WRONG_LENGTH)?;
        let file = match apdu.data() {
            Some(data) => self.file_by_name(objects::read_fmm_file(data).ok_or(WRONG_DATA)?)?,
            None => self.current_file()?,
        };
        self.require_right(&file, Use::Read)?;

        put_fmm_reply(&file, apdu.p2(), reply)?;
        Ok(self.session.setting_file(file.id()))
    }

    /// The current file; 6986 where there is none.
    fn current_file(&self) -> Result<File, Status> {
        let id = self.session.place.file().ok_or(NO_CURRENT_FILE)?;
        self.file_by_id(id)
    }

    /// The file of an id in the selected application.
    fn file_by_id(&self, id: u16) -> Result<File, Status> {
        self.layout
            .file_by_id(self.session.application, id)
            .ok_or(NO_SUCH_FILE)
    }

    /// The file of a short id in the selected application. 0 names none.
    fn file_by_short_id(&self, short_id: u8) -> Result<File, Status> {
        self.layout
            .file_by_short_id(self.session.application, short_id)
            .ok_or(NO_SUCH_FILE)
    }

    /// The file that a `51` object names.
    fn file_by_name(&self, name: FileName) -> Result<File, Status> {
        match name {
            FileName::ShortId(short_id) => self.file_by_short_id(short_id),
            FileName::Id(id) => self.file_by_id(id),
        }
    }

    /// The file that P2 of APPEND and READ RECORD names: here short id 0 is the current file.
    fn file_of_p2(&self, p2: u8) -> Result<File, Status> {
        match p2 >> 3 {
            0 => self.current_file(),
            short_id => self.file_by_short_id(short_id),
        }
    }

    /// The file that P1-P2 of UPDATE BINARY, and of READ BINARY with INS B1, names: its id, or 0000
    /// for the current file. No file has id 0000.
    fn file_of_p1_p2(&self, p1_p2: u16) -> Result<File, Status> {
        match p1_p2 {
            0x0000 => self.current_file(),
            id => self.file_by_id(id),
        }
    }

    /// Step 9.
    fn require_right(&self, file: &File, wanted: Use) -> Result<(), Status> {
        require(self.session.rights.allow(file, wanted), RIGHT_MISSING)
    }

    /// Steps 8 and 9 of READ BINARY in both forms.
    fn readable_file<'a>(&self, file: &'a File) -> Result<&'a TransparentFile, Status> {
        let transparent = transparent_file(file)?;
        self.require_right(file, Use::Read)?;
        Ok(transparent)
    }

    /// Steps 8 and 9 of UPDATE BINARY and ACTIVATE. The files of the master file are never
    /// written.
    fn writable_file<'a>(&self, file: &'a File) -> Result<&'a BiometricsFile, Status> {
        let transparent = transparent_file(file)?;
        self.require_right(file, Use::Write)?;
        match transparent {
            TransparentFile::Biometrics(biometrics) => Ok(biometrics),
            TransparentFile::Constant(_) => Err(RIGHT_MISSING),
        }
    }
}

/// A status unless the condition holds.
fn require(condition: bool, status: Status) -> Result<(), Status> {
    if condition {
        Ok(())
    } else {
        Err(status)
    }
}

/// The data field of a command that must have one, and no Le.
fn data_without_le<'a>(apdu: &'a Apdu) -> Result<&'a [u8], Status> {
    match (apdu.data(), apdu.le) {
        (Some(data), None) => Ok(data),
        _ => Err(WRONG_LENGTH),
    }
}

/// The id in a data field of SELECT.
fn two_bytes(data: &[u8]) -> Result<u16, Status> {
    data.try_into()
        .map(u16::from_be_bytes)
        .map_err(|_| WRONG_LENGTH)
}

/// Step 8 of the record commands.
fn record_file(file: &File) -> Result<&RecordFile, Status> {
    match file {
        File::Records(records) => Ok(records),
        File::Transparent(_) => Err(WRONG_FILE_TYPE),
    }
}

/// Step 8 of READ BINARY, UPDATE BINARY and ACTIVATE.
fn transparent_file(file: &File) -> Result<&TransparentFile, Status> {
    match file {
        File::Records(_) => Err(WRONG_FILE_TYPE),
        File::Transparent(transparent) => Ok(transparent),
    }
}

/// What a file's content has from an offset on, which is one byte at least.
fn content_from(offset: usize, content: &[u8]) -> Result<&[u8], Status> {
    require(offset < content.len(), WRONG_OFFSET)?;
    Ok(&content[offset..])
}

/// How many of the bytes at hand fit into an object of at most `limit` bytes that has a tag of one
/// byte. Tag and length take four bytes at most, so that few sizes are tried.
fn most_wrapped(at_hand: usize, limit: usize) -> usize {
    (0..=at_hand.min(limit))
        .rev()
        .find(|size| 1 + length_field_size(*size) + size <= limit)
        .unwrap_or(0)
}

/// The numbers of the records to list, in their order.
struct Matches {
    numbers: [u8; MOST_RECORDS],
    count: usize,
}

impl Matches {
    /// The records whose window has the string somewhere, or the first of them alone.
    fn find(search: &Search, file: &RecordFile, image: &[u8]) -> Self {
        let mut matches = Self {
            numbers: [0; MOST_RECORDS],
            count: 0,
        };
        for (number, record) in (1..=MOST_RECORDS as u8).zip(file.records(image)) {
            let window = search::window(record, search.offset, search.number);
            if search::occurs(search.string, window) {
                matches.numbers[matches.count] = number;
                matches.count += 1;
                if search.only_first {
                    break;
                }
            }
        }
        matches
    }

    /// The numbers found.
    fn numbers(&self) -> &[u8] {
        &self.numbers[..self.count]
    }
}

/// The numbers asked for: `81` total, `82` remaining, `83` existing. The last two are of records,
/// so that a transparent file has none of them. Nothing asked for is an answer without data.
fn put_fmm_reply(file: &File, p2: u8, reply: &mut Reply) -> Result<(), Status> {
    let (remaining, existing) = match file {
        File::Records(records) => (records.remaining(), records.count),
        File::Transparent(_) => {
            require(p2 & 0b110 == 0, WRONG_P1_P2)?;
            (0, 0)
        }
    };
    let numbers = [
        (0b001, 0x81, file.total()),
        (0b010, 0x82, remaining),
        (0b100, 0x83, existing),
    ];
    let asked = || numbers.iter().filter(|(bit, _, _)| p2 & bit != 0);
    if p2 != 0 {
        let inside = asked()
            .map(|(_, _, number)| 2 + bytes_needed(*number))
            .sum();
        reply.put(&[0x7F, 0x78]);
        reply.put_length(inside);
        for (_, tag, number) in asked() {
            let bytes = number.to_be_bytes();
            reply.put_object(*tag, &bytes[bytes.len() - bytes_needed(*number)..]);
        }
    }
    Ok(())
}

/// How many bytes a number takes; 0 takes one.
fn bytes_needed(number: usize) -> usize {
    let bits = usize::BITS - number.leading_zeros();
    (bits.div_ceil(8) as usize).max(1)
}

/// How many bytes the length field of a data object takes: the length alone, or behind 81 or 82.
fn length_field_size(length: usize) -> usize {
    match length {
        0..=0x7F => 1,
        0x80..=0xFF => 2,
        _ => 3,
    }
}

/// The data written so far from the start of the response. A command writes here only once
/// nothing can fail any more, so that bytes behind the answer stay as they came.
struct Reply<'a> {
    buffer: &'a mut [u8],
    length: usize,
}

impl<'a> Reply<'a> {
    /// Nothing is written yet.
    fn new(buffer: &'a mut [u8]) -> Self {
        Self { buffer, length: 0 }
    }

    /// Writes bytes behind those already there; no reply is longer than 2,048 bytes.
    fn put(&mut self, bytes: &[u8]) {
        let end = self.length + bytes.len();
        self.buffer[self.length..end].copy_from_slice(bytes);
        self.length = end;
    }

    /// The length field of a data object, in its shortest form.
    fn put_length(&mut self, length: usize) {
        let [.., high, low] = length.to_be_bytes();
        match length_field_size(length) {
            1 => self.put(&[low]),
            2 => self.put(&[0x81, low]),
            _ => self.put(&[0x82, high, low]),
        }
    }

    /// A one-byte tag, the length and a value.
    fn put_object(&mut self, tag: u8, value: &[u8]) {
        self.put(&[tag]);
        self.put_length(value.len());
        self.put(value);
    }
}
