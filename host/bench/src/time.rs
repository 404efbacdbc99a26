//! Timing one call of each implementation, in turns.

use crate::cases::{Case, Certificate, Indexed, Move, Rights, Stamp, LONGEST_RECORD, MOST_RECORDS};
use compare::make::RIGHTS_LEN;
use compare::sides::{IndexBuild, Machine, PROVED, REFERENCE};
use compare::stamp::NUMBERS;
use malquindo::Index;
use std::hint::black_box;
use std::time::{Duration, Instant};

/// A sample of calls that change nothing lasts at least this long, so that the clock's own steps
/// do not count.
const SAMPLE: Duration = Duration::from_micros(40);
/// The time spent on one case and implementation, about.
const BUDGET: Duration = Duration::from_millis(400);
const MOST_SAMPLES: usize = 2_001;
const FEWEST_SAMPLES: usize = 21;

/// Median time of one call, in nanoseconds.
#[derive(Clone, Copy)]
pub struct Times {
    pub proved: f64,
    pub reference: f64,
}

/// Median time of one move, and of a plain copy of as many bytes.
pub struct MoveTimes {
    pub proved: f64,
    pub reference: f64,
    pub copy: f64,
}

/// Median time to obtain one record, and to obtain and copy it.
pub struct ReadTimes {
    pub index: f64,
    pub slice: f64,
    pub index_copied: f64,
    pub slice_copied: f64,
    /// READ RECORD, which walks over the records and copies one.
    pub read_record: f64,
}

/// Median time of building one index, and of a plain walk over the same records.
pub struct BuildTimes {
    pub proved: f64,
    pub reference: f64,
    pub walk: f64,
}

/// Both implementations on the same case, alternating.
pub fn measure(case: &Case) -> Times {
    measure_within(case, BUDGET)
}

/// The same with another time to spend.
pub fn measure_within(case: &Case, budget: Duration) -> Times {
    let mut proved = Bench::new(Command::new(case, &PROVED), case.changes);
    let mut reference = Bench::new(Command::new(case, &REFERENCE), case.changes);
    let [proved, reference] = in_turns([&mut proved, &mut reference], budget);
    Times { proved, reference }
}

/// Both implementations and a plain copy on the same card, alternating.
pub fn measure_move(case: &Move) -> MoveTimes {
    let mut proved = Bench::new(MoveCard::new(case, &PROVED), false);
    let mut reference = Bench::new(MoveCard::new(case, &REFERENCE), false);
    let mut copy = Bench::new(Copy::new(case), false);
    let [proved, reference, copy] = in_turns([&mut proved, &mut reference, &mut copy], BUDGET);
    MoveTimes {
        proved,
        reference,
        copy,
    }
}

/// Both implementations on the same bodies of certificates, alternating.
pub fn measure_certificate(case: &Certificate) -> Times {
    let mut proved = Bench::new(FindCertificate::new(case, &PROVED), false);
    let mut reference = Bench::new(FindCertificate::new(case, &REFERENCE), false);
    let [proved, reference] = in_turns([&mut proved, &mut reference], BUDGET);
    Times { proved, reference }
}

/// Both implementations on the same record, alternating.
pub fn measure_stamp(case: &Stamp) -> Times {
    let mut proved = Bench::new(ReadStamp::new(case, &PROVED), false);
    let mut reference = Bench::new(ReadStamp::new(case, &REFERENCE), false);
    let [proved, reference] = in_turns([&mut proved, &mut reference], BUDGET);
    Times { proved, reference }
}

/// Both implementations on the same runs of extensions, alternating.
pub fn measure_rights(case: &Rights) -> Times {
    let mut proved = Bench::new(ReadRights::new(case, &PROVED), false);
    let mut reference = Bench::new(ReadRights::new(case, &REFERENCE), false);
    let [proved, reference] = in_turns([&mut proved, &mut reference], BUDGET);
    Times { proved, reference }
}

/// One record by the wrapper's index, by a plain slice and by READ RECORD, alternating.
pub fn measure_read(case: &Indexed) -> ReadTimes {
    let mut index = Bench::new(ReadIndexed::new(case), false);
    let mut slice = Bench::new(ReadSlice::new(case), false);
    let mut index_copied = Bench::new(Copied::new(ReadIndexed::new(case)), false);
    let mut slice_copied = Bench::new(Copied::new(ReadSlice::new(case)), false);
    let mut read_record = Bench::new(Command::new(&case.read_record, &PROVED), false);
    let [index, slice, index_copied, slice_copied, read_record] = in_turns(
        [
            &mut index,
            &mut slice,
            &mut index_copied,
            &mut slice_copied,
            &mut read_record,
        ],
        BUDGET,
    );
    ReadTimes {
        index,
        slice,
        index_copied,
        slice_copied,
        read_record,
    }
}

/// Both implementations and a plain walk on the same body, alternating.
pub fn measure_build(case: &Indexed) -> BuildTimes {
    let mut proved = Bench::new(BuildIndex::new(case, PROVED.index_build), false);
    let mut reference = Bench::new(BuildIndex::new(case, REFERENCE.index_build), false);
    let mut walk = Bench::new(BuildIndex::new(case, walk), false);
    let [proved, reference, walk] = in_turns([&mut proved, &mut reference, &mut walk], BUDGET);
    BuildTimes {
        proved,
        reference,
        walk,
    }
}

/// The median of each one's samples.
fn in_turns<const N: usize>(mut benches: [&mut dyn Sampled; N], budget: Duration) -> [f64; N] {
    let samples = benches.iter_mut().map(|bench| bench.samples(budget)).min();
    let mut of_each = [const { Vec::new() }; N];
    for _ in 0..samples.unwrap_or(FEWEST_SAMPLES) {
        for (bench, taken) in benches.iter_mut().zip(&mut of_each) {
            taken.push(bench.sample());
        }
    }
    of_each.map(median)
}

/// What is timed: a call on buffers of its own.
trait Work {
    /// Undoes what calls changed, before the clock starts.
    fn reset(&mut self);
    fn call(&mut self) -> u64;
}

/// One implementation's command.
struct Command<'a> {
    case: &'a Case,
    machine: &'a Machine,
    image: Vec<u8>,
    session: Vec<u8>,
    response: Vec<u8>,
}

impl<'a> Command<'a> {
    fn new(case: &'a Case, machine: &'a Machine) -> Self {
        let mut command = Self {
            case,
            machine,
            image: case.image.clone(),
            session: case.session.clone(),
            response: vec![0; 2_050],
        };
        let result = command.call();
        assert_eq!(result as u16, case.status, "{}", case.name);
        assert_eq!(result >> 32, 0, "{}", case.name);
        command
    }
}

impl Work for Command<'_> {
    /// A call that changes the image gets a fresh copy.
    fn reset(&mut self) {
        if self.case.changes {
            self.image.copy_from_slice(&self.case.image);
        }
        self.session.copy_from_slice(&self.case.session);
    }

    fn call(&mut self) -> u64 {
        (self.machine.command)(
            &mut self.image,
            &mut self.session,
            &self.case.command,
            &mut self.response,
        )
    }
}

/// One implementation's move, to the sizes that the card has.
struct MoveCard<'a> {
    case: &'a Move,
    machine: &'a Machine,
    target: Vec<u8>,
}

impl<'a> MoveCard<'a> {
    fn new(case: &'a Move, machine: &'a Machine) -> Self {
        let mut work = Self {
            case,
            machine,
            target: vec![0xA5; case.old.len()],
        };
        assert_eq!(work.call(), case.old.len() as u64, "{}", case.name);
        assert!(work.target == case.old, "{}", case.name);
        work
    }
}

impl Work for MoveCard<'_> {
    fn reset(&mut self) {}

    fn call(&mut self) -> u64 {
        (self.machine.move_card)(&self.case.old, &self.case.list, &mut self.target)
    }
}

/// One implementation's certificate.
struct FindCertificate<'a> {
    case: &'a Certificate,
    machine: &'a Machine,
}

impl<'a> FindCertificate<'a> {
    fn new(case: &'a Certificate, machine: &'a Machine) -> Self {
        let mut work = Self { case, machine };
        assert_eq!(work.call() >> 28, 1, "{}", case.name);
        work
    }
}

impl Work for FindCertificate<'_> {
    fn reset(&mut self) {}

    fn call(&mut self) -> u64 {
        let Certificate { card, desk, .. } = self.case;
        (self.machine.certificate)(card, desk, self.case.reference)
    }
}

/// One implementation's reading of a stamp, into a list that is there.
struct ReadStamp<'a> {
    case: &'a Stamp,
    machine: &'a Machine,
    places: [u32; NUMBERS],
}

impl<'a> ReadStamp<'a> {
    fn new(case: &'a Stamp, machine: &'a Machine) -> Self {
        let mut work = Self {
            case,
            machine,
            places: [0; NUMBERS],
        };
        assert_eq!(work.call(), case.result, "{}", case.name);
        work
    }
}

impl Work for ReadStamp<'_> {
    fn reset(&mut self) {}

    fn call(&mut self) -> u64 {
        (self.machine.stamp_read)(black_box(&self.case.record), &mut self.places)
    }
}

/// One implementation's reading of rights, into a buffer that is there.
struct ReadRights<'a> {
    case: &'a Rights,
    machine: &'a Machine,
    rights: [u8; RIGHTS_LEN],
}

impl<'a> ReadRights<'a> {
    fn new(case: &'a Rights, machine: &'a Machine) -> Self {
        let mut work = Self {
            case,
            machine,
            rights: [0; RIGHTS_LEN],
        };
        assert_eq!(work.call(), case.result, "{}", case.name);
        work
    }
}

impl Work for ReadRights<'_> {
    fn reset(&mut self) {}

    fn call(&mut self) -> u64 {
        let [first, second, third] = black_box(&self.case.runs);
        (self.machine.rights)(first, second, third, &mut self.rights)
    }
}

/// What obtains a record.
trait Read {
    fn record(&self) -> &[u8];
}

/// A record, obtained alone.
impl<R: Read> Work for R {
    fn reset(&mut self) {}

    fn call(&mut self) -> u64 {
        black_box(self.record()).len() as u64
    }
}

/// By the wrapper's index.
struct ReadIndexed<'a> {
    case: &'a Indexed,
    index: Index,
}

impl<'a> ReadIndexed<'a> {
    fn new(case: &'a Indexed) -> Self {
        let index = Index::build(case.kind, &case.body).expect("a well-formed body");
        let work = Self { case, index };
        assert_eq!(work.record().len(), LONGEST_RECORD);
        work
    }
}

impl Read for ReadIndexed<'_> {
    fn record(&self) -> &[u8] {
        let body = black_box(&self.case.body);
        let record = self.index.read(body, black_box(self.case.number));
        record.expect("the number is in the index")
    }
}

/// By an offset that a plain program stores.
struct ReadSlice<'a> {
    case: &'a Indexed,
    offsets: Vec<u32>,
}

impl<'a> ReadSlice<'a> {
    fn new(case: &'a Indexed) -> Self {
        let mut offsets = vec![0; MOST_RECORDS];
        walk(case.kind, &case.body, &mut offsets);
        let work = Self { case, offsets };
        assert_eq!(work.record(), ReadIndexed::new(case).record());
        work
    }
}

impl Read for ReadSlice<'_> {
    fn record(&self) -> &[u8] {
        let body = black_box(&self.case.body);
        slice(body, &self.offsets, black_box(self.case.number))
    }
}

/// The record at a stored offset. It is a call, as that of the library is.
#[inline(never)]
fn slice<'b>(body: &'b [u8], offsets: &[u32], number: usize) -> &'b [u8] {
    let place = offsets[number - 1] as usize;
    let length = usize::from(u16::from_le_bytes([body[place], body[place + 1]]));
    &body[place + 2..place + 2 + length]
}

/// A record, obtained and copied.
struct Copied<R> {
    read: R,
    buffer: [u8; LONGEST_RECORD],
}

impl<R: Read> Copied<R> {
    fn new(read: R) -> Self {
        let buffer = [0; LONGEST_RECORD];
        Self { read, buffer }
    }
}

impl<R: Read> Work for Copied<R> {
    fn reset(&mut self) {}

    fn call(&mut self) -> u64 {
        let record = black_box(self.read.record());
        self.buffer[..record.len()].copy_from_slice(record);
        u64::from(black_box(&self.buffer)[0])
    }
}

/// The building of an index in a list that is there.
struct BuildIndex<'a> {
    case: &'a Indexed,
    build: IndexBuild,
    places: Vec<u32>,
}

impl<'a> BuildIndex<'a> {
    fn new(case: &'a Indexed, build: IndexBuild) -> Self {
        let mut work = Self {
            case,
            build,
            places: vec![0; MOST_RECORDS],
        };
        assert_eq!(work.call(), MOST_RECORDS as u64);
        let index = Index::build(case.kind, &case.body).expect("a well-formed body");
        assert_eq!(work.places, index.places());
        work
    }
}

impl Work for BuildIndex<'_> {
    fn reset(&mut self) {}

    fn call(&mut self) -> u64 {
        (self.build)(self.case.kind, &self.case.body, &mut self.places)
    }
}

/// A plain walk over the records of EntryRecords that checks each and notes its place, in one
/// pass: a refusal comes when places are written already.
fn walk(_kind: u16, body: &[u8], places: &mut [u32]) -> u64 {
    let mut walk = || {
        let count = usize::from(u16::from_le_bytes(*body.first_chunk()?));
        let list = places.get_mut(..count)?;
        let mut rest = &body[2..];
        for place in list {
            *place = (body.len() - rest.len()) as u32;
            let (length, behind) = rest.split_first_chunk()?;
            let length = usize::from(u16::from_le_bytes(*length));
            if !(1..=LONGEST_RECORD).contains(&length) {
                return None;
            }
            rest = behind.get(length..)?;
        }
        (count <= MOST_RECORDS).then_some(count as u64)
    };
    walk().unwrap_or(6 << 32)
}

/// The bytes of a card, copied.
struct Copy<'a> {
    from: &'a [u8],
    target: Vec<u8>,
}

impl<'a> Copy<'a> {
    fn new(case: &'a Move) -> Self {
        Self {
            from: &case.old,
            target: vec![0; case.old.len()],
        }
    }
}

impl Work for Copy<'_> {
    fn reset(&mut self) {}

    fn call(&mut self) -> u64 {
        self.target.copy_from_slice(black_box(self.from));
        u64::from(black_box(&self.target)[0])
    }
}

/// What samples are taken of, in turns with others.
trait Sampled {
    /// Nanoseconds of one call.
    fn sample(&mut self) -> f64;
    /// How many samples the budget has time for.
    fn samples(&mut self, budget: Duration) -> usize;
}

struct Bench<W> {
    work: W,
    /// Calls in one sample.
    calls: u32,
    clock: f64,
}

impl<W: Work> Bench<W> {
    /// Work that changes something is done once in a sample.
    fn new(work: W, changes: bool) -> Self {
        let mut bench = Self {
            work,
            calls: 1,
            clock: clock_cost(),
        };
        if !changes {
            let once = median((0..21).map(|_| bench.sample()).collect());
            bench.calls = (SAMPLE.as_nanos() as f64 / once.max(1.0)).ceil() as u32;
        }
        bench
    }
}

impl<W: Work> Sampled for Bench<W> {
    fn sample(&mut self) -> f64 {
        self.work.reset();
        let start = Instant::now();
        for _ in 0..self.calls {
            black_box(self.work.call());
        }
        let spent = start.elapsed().as_nanos() as f64;
        (spent - self.clock).max(0.0) / f64::from(self.calls)
    }

    fn samples(&mut self, budget: Duration) -> usize {
        let start = Instant::now();
        self.sample();
        let fit = budget.as_nanos() / start.elapsed().as_nanos().max(1);
        (fit as usize).clamp(FEWEST_SAMPLES, MOST_SAMPLES)
    }
}

/// What it takes to ask the clock twice, in nanoseconds.
fn clock_cost() -> f64 {
    let once = || {
        let start = Instant::now();
        start.elapsed().as_nanos() as f64
    };
    median((0..1_001).map(|_| once()).collect())
}

fn median(mut values: Vec<f64>) -> f64 {
    values.sort_by(f64::total_cmp);
    values[values.len() / 2]
}
