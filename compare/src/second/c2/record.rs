//! The record of 32 bytes (document 01, "What the driver keeps over sleep"): its layout, and which records
//! hold a session within its ranges. Nothing here asks the list of operations or the proved code.

use crate::second::c2::frames::Place;
use crate::second::c2::session::{refusal, Act, Held, Outcome, Point, Stage, State, POLL_LIMIT};
use crate::second::numbers;
use crate::second::settings::{Pairs, Settings};

pub const RECORD_LEN: usize = 32;

pub type Record = [u8; RECORD_LEN];

/// Where each field begins; those of two bytes have the low one first.
pub const DEVICE_ID: usize = 0;
pub const FPDAT: usize = 1;
pub const PAGE_SIZE: usize = 2;
pub const PAGE_COUNT: usize = 4;
pub const FIRST_PAGE: usize = 5;
pub const PAGES: usize = 6;
pub const NUMBER: usize = 7;
pub const OFFSET: usize = 8;
pub const STAGE: usize = 10;
pub const PAGE: usize = 11;
pub const BLOCK: usize = 12;
pub const ACT: usize = 13;
pub const STROBE: usize = 15;
pub const COUNT: usize = 16;
pub const BITS: usize = 17;
pub const WAIT_LIMIT: usize = 18;
pub const PAIR_COUNT: usize = 19;
/// Of each pair in turn its register, then its value.
pub const PAIRS: usize = 20;
pub const SPARE: usize = 28;

pub const STAGES: [Stage; 6] =
    [Stage::Lead, Stage::Erase, Stage::BlockWrite, Stage::BlockRead, Stage::LastReset, Stage::Pairs];

/// Sets the field that begins there.
pub fn set(record: &mut Record, at: usize, number: usize) {
    let number = u16::try_from(number).expect("the record has at most two bytes for a field");
    let [low, high] = number.to_le_bytes();
    record[at] = low;
    if [PAGE_SIZE, OFFSET, ACT].contains(&at) {
        record[at + 1] = high;
    } else {
        assert_eq!(high, 0, "the record has one byte for the field at {at}");
    }
}

fn two(record: &Record, at: usize) -> usize {
    usize::from(u16::from_le_bytes([record[at], record[at + 1]]))
}

/// The one record of a session.
pub fn pack(held: &Held) -> Record {
    let mut record = [0; RECORD_LEN];
    set(&mut record, DEVICE_ID, usize::from(held.settings.device_id));
    set(&mut record, FPDAT, usize::from(held.settings.fpdat));
    set(&mut record, PAGE_SIZE, held.settings.page_size as usize);
    set(&mut record, PAGE_COUNT, held.settings.page_count as usize);
    set(&mut record, FIRST_PAGE, held.first_page);
    set(&mut record, PAGES, held.pages);
    set(&mut record, WAIT_LIMIT, usize::from(held.settings.wait_limit));
    set(&mut record, PAIR_COUNT, usize::from(held.settings.pairs.count));
    for (number, (register, value)) in held.settings.pairs.named().enumerate() {
        record[PAIRS + 2 * number..][..2].copy_from_slice(&[register, value]);
    }
    match &held.state {
        State::Ended(outcome) => {
            set(&mut record, NUMBER, outcome.number as usize);
            set(&mut record, OFFSET, outcome.offset);
        }
        State::Running(point) => pack_point(&mut record, point),
    }
    record
}

fn pack_point(record: &mut Record, point: &Point) {
    let Point { act, place } = point;
    set(record, STAGE, act.stage as usize);
    set(record, PAGE, usize::from(act.page));
    set(record, BLOCK, usize::from(act.block));
    set(record, ACT, usize::from(act.act));
    set(record, STROBE, place.strobe);
    set(record, COUNT, place.count);
    set(record, BITS, place.bits);
}

/// The session that the bytes hold, none unless they are in range.
pub fn read(bytes: &[u8]) -> Option<Held> {
    let record: &Record = bytes.try_into().ok()?;
    let settings = Settings {
        device_id: record[DEVICE_ID],
        fpdat: record[FPDAT],
        page_size: two(record, PAGE_SIZE) as u32,
        page_count: u32::from(record[PAGE_COUNT]),
        wait_limit: record[WAIT_LIMIT],
        pairs: read_pairs(record)?,
    };
    let (first_page, pages) = (usize::from(record[FIRST_PAGE]), usize::from(record[PAGES]));
    let image_len = pages * settings.page_size as usize;
    if refusal(&settings, first_page as u32, image_len).is_some() || !zero(&record[SPARE..]) {
        return None;
    }
    let state = if u32::from(record[NUMBER]) == numbers::RUNNING {
        State::Running(read_point(record, &settings, pages)?)
    } else {
        State::Ended(read_outcome(record, image_len)?)
    };
    Some(Held { settings, first_page, pages, state })
}

/// At most four pairs; entries that are not in use are 0. Their registers are tested with the settings.
fn read_pairs(record: &Record) -> Option<Pairs> {
    let entries: Vec<_> = record[PAIRS..SPARE].chunks(2).map(|entry| (entry[0], entry[1])).collect();
    let (named, unused) = entries.split_at_checked(record[PAIR_COUNT].into())?;
    unused.iter().all(|&entry| entry == (0, 0)).then(|| Pairs::of(named))
}

fn zero(bytes: &[u8]) -> bool {
    bytes.iter().all(|&byte| byte == 0)
}

/// An outcome that ends a session, with an offset inside the image for 14 and 0 otherwise; all of the
/// point is 0.
fn read_outcome(record: &Record, image_len: usize) -> Option<Outcome> {
    let (number, offset) = (u32::from(record[NUMBER]), two(record, OFFSET));
    let ends = (numbers::BAD_REPLY..=numbers::COMPARE_DIFFERS).contains(&number) || number == numbers::DONE;
    let offset_limit = if number == numbers::COMPARE_DIFFERS { image_len } else { 1 };
    let in_range = ends && offset < offset_limit && zero(&record[STAGE..WAIT_LIMIT]);
    in_range.then_some(Outcome { number, offset })
}

/// A point that exists in the session's order; the outcome's offset is not in use.
fn read_point(record: &Record, settings: &Settings, pages: usize) -> Option<Point> {
    let stage = *STAGES.get(usize::from(record[STAGE]))?;
    let act = Act { stage, page: record[PAGE], block: record[BLOCK], act: two(record, ACT) as u16 };
    let [strobe, count, bits] = [STROBE, COUNT, BITS].map(|at| usize::from(record[at]));
    let point = Point { act, place: Place { strobe, count, bits } };
    (two(record, OFFSET) == 0 && exists(&point, settings, pages)).then_some(point)
}

/// How many pages (or pairs), blocks and acts a stage has; one where the field is not in use.
pub fn extent(stage: Stage, settings: &Settings, pages: usize) -> [usize; 3] {
    let blocks = settings.page_size as usize / 256;
    match stage {
        Stage::Lead => [1, 1, 8],
        Stage::Erase => [pages, 1, 13],
        Stage::BlockWrite | Stage::BlockRead => [pages, blocks, 525],
        Stage::LastReset => [1, 1, 1],
        Stage::Pairs => [settings.pairs.count.into(), 1, 2],
    }
}

fn exists(point: &Point, settings: &Settings, pages: usize) -> bool {
    let Point { act, place } = point;
    let [pages, blocks, acts] = extent(act.stage, settings, pages);
    let (page, block) = (usize::from(act.page), usize::from(act.block));
    if page >= pages || block >= blocks || usize::from(act.act) >= acts {
        return false;
    }
    let shape = shape(act);
    place.strobe < shape.strobes()
        && place.count < shape.count_limit(place.strobe, settings.wait_limit)
        && place.bits < shape.bits_limit(place.strobe)
}

/// What an act says on the wire.
#[derive(Clone, Copy, Debug, PartialEq, Eq)]
pub enum Shape {
    /// a reset or the pause
    NoFrame,
    AddressWrite,
    DataWrite,
    /// Address Reads
    Poll,
    DataRead,
}

/// A put is a Data Write and a poll.
const PUT: [Shape; 2] = [Shape::DataWrite, Shape::Poll];
/// A get is a poll and a Data Read.
const GET: [Shape; 2] = [Shape::Poll, Shape::DataRead];

/// What an act that exists says.
pub fn shape(act: &Act) -> Shape {
    let number = usize::from(act.act);
    match act.stage {
        Stage::Lead => lead_shape(number),
        Stage::LastReset => Shape::NoFrame,
        Stage::Pairs => [Shape::AddressWrite, Shape::DataWrite][number],
        Stage::Erase | Stage::BlockWrite | Stage::BlockRead => command_shape(act.stage, number),
    }
}

fn lead_shape(act: usize) -> Shape {
    match act {
        1 => Shape::DataRead,
        3 => Shape::AddressWrite,
        4..=6 => Shape::DataWrite,
        _ => Shape::NoFrame,
    }
}

fn command_shape(stage: Stage, act: usize) -> Shape {
    match (stage, act) {
        (_, 0) => Shape::AddressWrite,
        // the command and its status
        (_, 1..=2) => PUT[act - 1],
        (_, 3..=4) => GET[act - 3],
        (Stage::Erase, 5..=6 | 9..=10) => PUT[(act - 5) % 2],
        (Stage::Erase, _) => GET[(act - 7) % 2],
        // the block's address, the length code and the bytes; then the status
        (Stage::BlockWrite, 5..=522) => PUT[(act - 5) % 2],
        (Stage::BlockWrite, _) => GET[(act - 523) % 2],
        // the block's address and the length code; then the status and the bytes
        (_, 5..=10) => PUT[(act - 5) % 2],
        _ => GET[(act - 11) % 2],
    }
}

impl Shape {
    /// A WAIT counts as one strobe.
    pub fn strobes(self) -> usize {
        match self {
            Shape::NoFrame => 1,
            Shape::AddressWrite | Shape::Poll => 12,
            Shape::DataWrite | Shape::DataRead => 15,
        }
    }

    /// Zeros seen in a WAIT and unsatisfied reads of a poll are below this; elsewhere nothing is counted.
    pub fn count_limit(self, strobe: usize, wait_limit: u8) -> usize {
        match (self, strobe) {
            (Shape::DataWrite, 13) | (Shape::DataRead, 5) => usize::from(wait_limit),
            (Shape::Poll, _) => POLL_LIMIT as usize,
            _ => 1,
        }
    }

    /// Bits not yet sampled are 0.
    pub fn bits_limit(self, strobe: usize) -> usize {
        let first_sampled = match self {
            Shape::Poll => 3,
            Shape::DataRead => 6,
            _ => return 1,
        };
        1 << strobe.saturating_sub(first_sampled).min(8)
    }
}
