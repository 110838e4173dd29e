//! A session (document 01, "Settings and session", "Numbers that come back", "How much is left"; its WAITs by
//! document 02, d, its pairs of register and value by e, how far its pages have come by h).
//!
//! Opening writes the whole session out as a list of operations; a reply moves along that list.

use crate::second::c2::frames::{End, Frame, Kind, Place};
use crate::second::c2::interface::{
    BLOCK_READ, BLOCK_WRITE, FPCTL, IN_BUSY, KEYS, OKAY, OUT_READY, PAGE_ERASE,
};
use crate::second::c2::steps::{OFF, PAUSE, RESET};
use crate::second::numbers;
use crate::second::settings::Settings;

/// Document 01's limit of a WAIT, which old units have in their settings.
pub const WAIT_LIMIT: u8 = 20;
pub const POLL_LIMIT: u32 = 256;

/// What an accepted opening answers.
pub const FIRST_STEP: u8 = RESET;

const BLOCK_SIZE: usize = 256;
/// The length code of a whole block.
const WHOLE_BLOCK: u8 = 0;
/// The act of an erase that puts the last byte, by which the page is erased: after the Address Write and two
/// bytes, each put with its poll and answered with another poll and a read.
const LAST_ERASE_PUT: u16 = 1 + 2 * 4;

/// A byte that is fixed at the opening, or the image's at this offset.
#[derive(Clone, Copy, Debug)]
enum Byte {
    Fixed(u8),
    Image(usize),
}

/// One thing that the master does, judged at its end.
#[derive(Clone, Copy, Debug)]
enum Operation {
    Reset,
    Pause,
    AddressWrite(u8),
    DataWrite(Byte),
    PollInBusy,
    PollOutReady,
    /// a Data Read that must give this byte, or the session ends with this number
    Expect(Byte, u32),
}

impl Operation {
    fn frame(self) -> Option<Kind> {
        match self {
            Operation::Reset | Operation::Pause => None,
            Operation::AddressWrite(_) => Some(Kind::AddressWrite),
            Operation::DataWrite(_) => Some(Kind::DataWrite),
            Operation::PollInBusy | Operation::PollOutReady => Some(Kind::AddressRead),
            Operation::Expect(..) => Some(Kind::DataRead),
        }
    }

    /// Each WAIT counts to its limit and each poll to 256 reads.
    fn most_steps(self, wait_limit: u32) -> u64 {
        let once = self.frame().map_or(1, |kind| kind.most_strobes(wait_limit));
        if self.polls() {
            u64::from(POLL_LIMIT) * once
        } else {
            once
        }
    }

    fn polls(self) -> bool {
        matches!(self, Operation::PollInBusy | Operation::PollOutReady)
    }
}

/// The parts of a session's order, numbered as the record has them: the lead goes up to the pause and
/// includes it, and the pairs come right after it.
#[derive(Clone, Copy, Debug, PartialEq, Eq)]
pub enum Stage {
    Lead,
    Erase,
    BlockWrite,
    BlockRead,
    LastReset,
    Pairs,
}

/// Where an operation stands in the order: the page counts in the image, or is the number of a pair, the
/// block in the page, the act in the stage. As narrow as in the record, for the list is long.
#[derive(Clone, Copy, Debug, PartialEq, Eq)]
pub struct Act {
    pub stage: Stage,
    pub page: u8,
    pub block: u8,
    pub act: u16,
}

/// How many of the image's pages, from its first on, have come so far (document 02, h).
#[derive(Clone, Copy, Debug, PartialEq, Eq)]
pub struct Progress {
    /// the first step of the page's first command was asked for
    pub begun: usize,
    /// the first step of the put that erases the page was asked for
    pub erasing: usize,
    /// the read-back has ended with no byte differing
    pub read_back: usize,
}

impl Progress {
    /// So many pages have come all the way, and no other is begun.
    pub fn all(pages: usize) -> Progress {
        Progress { begun: pages, erasing: pages, read_back: pages }
    }
}

#[derive(Clone, Copy, Debug)]
struct Entry {
    operation: Operation,
    act: Act,
}

/// The list of operations of a session, in the order of document 01 and of document 02, e.
struct Order {
    fpdat: u8,
    /// where the operation to be added next stands
    next: Act,
    entries: Vec<Entry>,
}

impl Order {
    fn of(settings: &Settings, first_page: usize, pages: usize) -> Vec<Entry> {
        let next = Act { stage: Stage::Lead, page: 0, block: 0, act: 0 };
        let mut order = Order { fpdat: settings.fpdat, next, entries: Vec::new() };
        order.identify(settings.device_id);
        order.turn_interface_on();
        for (number, (register, value)) in settings.pairs.named().enumerate() {
            order.enter(Stage::Pairs, number, 0);
            order.add(Operation::AddressWrite(register));
            order.add(Operation::DataWrite(Byte::Fixed(value)));
        }
        for page in 0..pages {
            order.program_page(settings.page_size as usize, first_page + page, page);
        }
        order.enter(Stage::LastReset, 0, 0);
        order.add(Operation::Reset);
        order.entries
    }

    fn enter(&mut self, stage: Stage, page: usize, block: usize) {
        self.next = Act { stage, page: page as u8, block: block as u8, act: 0 };
    }

    fn add(&mut self, operation: Operation) {
        self.entries.push(Entry { operation, act: self.next });
        self.next.act += 1;
    }

    fn put(&mut self, byte: Byte) {
        self.add(Operation::DataWrite(byte));
        self.add(Operation::PollInBusy);
    }

    fn get(&mut self, byte: Byte, otherwise: u32) {
        self.add(Operation::PollOutReady);
        self.add(Operation::Expect(byte, otherwise));
    }

    fn status(&mut self) {
        self.get(Byte::Fixed(OKAY), numbers::BAD_STATUS);
    }

    fn identify(&mut self, device_id: u8) {
        self.add(Operation::Reset);
        self.add(Operation::Expect(Byte::Fixed(device_id), numbers::OTHER_DEVICE));
        self.add(Operation::Reset);
    }

    fn turn_interface_on(&mut self) {
        self.add(Operation::AddressWrite(FPCTL));
        for key in KEYS {
            self.add(Operation::DataWrite(Byte::Fixed(key)));
        }
        self.add(Operation::Pause);
    }

    /// `page` counts in the flash, `image_page` in the image.
    fn program_page(&mut self, page_size: usize, page: usize, image_page: usize) {
        self.enter(Stage::Erase, image_page, 0);
        self.erase(page as u8);
        let (address, offset) = (page * page_size, image_page * page_size);
        for (block, start) in (0..page_size).step_by(BLOCK_SIZE).enumerate() {
            self.enter(Stage::BlockWrite, image_page, block);
            self.block_write(address + start, offset + start);
        }
        for (block, start) in (0..page_size).step_by(BLOCK_SIZE).enumerate() {
            self.enter(Stage::BlockRead, image_page, block);
            self.block_read(address + start, offset + start);
        }
    }

    fn begin_command(&mut self, command: u8) {
        self.add(Operation::AddressWrite(self.fpdat));
        self.put(Byte::Fixed(command));
        self.status();
    }

    fn erase(&mut self, page: u8) {
        self.begin_command(PAGE_ERASE);
        self.put(Byte::Fixed(page));
        self.status();
        self.put(Byte::Fixed(0x00));
        self.status();
    }

    fn put_block_place(&mut self, address: usize) {
        self.put(Byte::Fixed((address / 256) as u8));
        self.put(Byte::Fixed((address % 256) as u8));
        self.put(Byte::Fixed(WHOLE_BLOCK));
    }

    fn block_write(&mut self, address: usize, offset: usize) {
        self.begin_command(BLOCK_WRITE);
        self.put_block_place(address);
        for byte in 0..BLOCK_SIZE {
            self.put(Byte::Image(offset + byte));
        }
        self.status();
    }

    fn block_read(&mut self, address: usize, offset: usize) {
        self.begin_command(BLOCK_READ);
        self.put_block_place(address);
        self.status();
        for byte in 0..BLOCK_SIZE {
            self.get(Byte::Image(offset + byte), numbers::COMPARE_DIFFERS);
        }
    }
}

/// The number a session is at, and the image offset that comes with 14.
#[derive(Clone, Copy, Debug, PartialEq, Eq)]
pub struct Outcome {
    pub number: u32,
    pub offset: usize,
}

impl Outcome {
    pub fn of(number: u32) -> Outcome {
        Outcome { number, offset: 0 }
    }
}

/// The answer to a call that takes replies.
#[derive(Clone, Copy, Debug, PartialEq, Eq)]
pub struct Advanced {
    pub outcome: Outcome,
    pub taken: usize,
}

/// The point that a running session has reached.
#[derive(Clone, Copy, Debug, PartialEq, Eq)]
pub struct Point {
    pub act: Act,
    /// in the act's frame; the count is that of a WAIT's zeros or of a poll's unsatisfied reads
    pub place: Place,
}

#[derive(Clone, Copy, Debug, PartialEq, Eq)]
pub enum State {
    Running(Point),
    Ended(Outcome),
}

/// All that tells one session from another.
#[derive(Clone, Copy, Debug, PartialEq, Eq)]
pub struct Held {
    pub settings: Settings,
    pub first_page: usize,
    pub pages: usize,
    pub state: State,
}

impl Held {
    pub fn image_len(&self) -> usize {
        self.pages * self.settings.page_size as usize
    }
}

#[derive(Clone, Debug)]
pub struct Session {
    settings: Settings,
    first_page: usize,
    pages: usize,
    entries: Vec<Entry>,
    /// for each operation, the most steps of all that come after it
    later: Vec<u64>,
    at: usize,
    /// the frame of the operation, if it has one
    frame: Option<Frame>,
    /// unsatisfied reads of a poll
    reads: u32,
    outcome: Outcome,
}

/// The first refusal in the order of the tests: those of the settings, 4, 5.
pub fn refusal(settings: &Settings, first_page: u32, image_len: usize) -> Option<u32> {
    if let Some(number) = settings.refusal() {
        return Some(number);
    }
    let page_size = settings.page_size as usize;
    if image_len == 0 || !image_len.is_multiple_of(page_size) {
        return Some(numbers::BAD_IMAGE);
    }
    let last_page = u64::from(first_page) + (image_len / page_size) as u64;
    (last_page > u64::from(settings.page_count)).then_some(numbers::PAST_LAST_PAGE)
}

impl Session {
    /// Opens a session, whose first step is a reset, or gives the number of the refusal.
    pub fn open(settings: &Settings, first_page: u32, image: &[u8]) -> Result<Session, u32> {
        if let Some(number) = refusal(settings, first_page, image.len()) {
            return Err(number);
        }
        let pages = image.len() / settings.page_size as usize;
        let settings = Settings { pairs: settings.pairs.kept(), ..*settings };
        Ok(Session::begin(settings, first_page as usize, pages))
    }

    fn begin(settings: Settings, first_page: usize, pages: usize) -> Session {
        let entries = Order::of(&settings, first_page, pages);
        let mut sum = 0;
        let mut later: Vec<u64> = Vec::with_capacity(entries.len());
        for entry in entries.iter().rev() {
            later.push(sum);
            sum += entry.operation.most_steps(settings.wait_limit.into());
        }
        later.reverse();
        let outcome = Outcome::of(numbers::RUNNING);
        Session { settings, first_page, pages, entries, later, at: 0, frame: None, reads: 0, outcome }
    }

    /// The session that this tells of, which is in range.
    pub fn resume(held: &Held) -> Session {
        let mut session = Session::begin(held.settings, held.first_page, held.pages);
        session.go_to(&held.state);
        session
    }

    /// Puts the session somewhere else in its order; the point is one that it has.
    pub fn go_to(&mut self, state: &State) {
        match state {
            State::Running(point) => self.go_to_point(point),
            State::Ended(outcome) => self.outcome = *outcome,
        }
    }

    fn go_to_point(&mut self, point: &Point) {
        let found = self.entries.iter().position(|entry| entry.act == point.act);
        self.at = found.unwrap_or_else(|| panic!("no {:?} in the order", point.act));
        let operation = self.operation();
        self.frame = operation.frame().map(|kind| Frame::at(kind, point.place));
        self.reads = if operation.polls() { point.place.count as u32 } else { 0 };
        self.outcome = Outcome::of(numbers::RUNNING);
    }

    pub fn held(&self) -> Held {
        let Session { settings, first_page, pages, .. } = *self;
        let state = if self.running() { State::Running(self.point()) } else { State::Ended(self.outcome) };
        Held { settings, first_page, pages, state }
    }

    fn image_len(&self) -> usize {
        self.pages * self.settings.page_size as usize
    }

    fn point(&self) -> Point {
        let mut place = self.frame.map_or(Place::default(), |frame| frame.place());
        if self.operation().polls() {
            place.count = self.reads as usize;
        }
        Point { act: self.entries[self.at].act, place }
    }

    fn wait_limit(&self) -> u32 {
        self.settings.wait_limit.into()
    }

    fn operation(&self) -> Operation {
        self.entries[self.at].operation
    }

    /// Every act of the session, in its order.
    pub fn acts(&self) -> impl Iterator<Item = Act> + '_ {
        self.entries.iter().map(|entry| entry.act)
    }

    pub fn outcome(&self) -> Outcome {
        self.outcome
    }

    pub fn running(&self) -> bool {
        self.outcome.number == numbers::RUNNING
    }

    /// How far the pages have come. A session that ended counts by the operation that it ended in; one that was
    /// resumed as ended does not tell.
    pub fn progress(&self) -> Progress {
        let Some(Act { stage, page, act, .. }) = self.entries.get(self.at).map(|entry| entry.act) else {
            return Progress::all(self.pages);
        };
        let before = usize::from(page);
        match stage {
            Stage::Lead | Stage::Pairs => Progress::all(0),
            Stage::Erase if act < LAST_ERASE_PUT => Progress { begun: before + 1, ..Progress::all(before) },
            Stage::Erase | Stage::BlockWrite | Stage::BlockRead => {
                Progress { read_back: before, ..Progress::all(before + 1) }
            }
            Stage::LastReset => Progress::all(self.pages),
        }
    }

    /// The most steps still to come with a reply, by document 01's counting rule as document 02, d and e, has
    /// it.
    pub fn most_steps_left(&self) -> u64 {
        if !self.running() {
            return 0;
        }
        let later_reads = if self.operation().polls() { POLL_LIMIT - 1 - self.reads } else { 0 };
        let a_read = Kind::AddressRead.most_strobes(self.wait_limit());
        let here = self.frame.map_or(1, |frame| frame.most_strobes_left(self.wait_limit()));
        here + u64::from(later_reads) * a_read + self.later[self.at]
    }

    /// Takes replies as a call does: the steps that follow them are written from `place` on.
    pub fn advance(&mut self, image: &[u8], replies: &[u8], steps: &mut [u8], place: usize) -> Advanced {
        if let Some(number) = self.call_refusal(image.len(), replies.len(), steps.len(), place) {
            return Advanced { outcome: Outcome::of(number), taken: 0 };
        }
        let mut taken = 0;
        for &reply in replies {
            if !self.running() {
                break;
            }
            steps[place + taken] = self.reply(reply, image);
            taken += 1;
        }
        Advanced { outcome: self.outcome, taken }
    }

    fn call_refusal(&self, image_len: usize, replies: usize, steps_len: usize, place: usize) -> Option<u32> {
        if image_len != self.image_len() {
            return Some(numbers::OTHER_IMAGE);
        }
        let fits = place.checked_add(replies).is_some_and(|end| end <= steps_len);
        (!fits).then_some(numbers::NO_ROOM)
    }

    /// Takes one reply and gives the step that follows it; an ended session takes none.
    pub fn reply(&mut self, reply: u8, image: &[u8]) -> u8 {
        if !self.running() {
            return OFF;
        }
        match self.follow(reply, image) {
            Ok(step) => step,
            Err(outcome) => {
                self.outcome = outcome;
                OFF
            }
        }
    }

    /// The step that follows the reply, or how the session ends at it.
    fn follow(&mut self, reply: u8, image: &[u8]) -> Result<u8, Outcome> {
        if reply > 1 {
            return Err(Outcome::of(numbers::BAD_REPLY));
        }
        let wait_limit = self.wait_limit();
        match &mut self.frame {
            None => self.next_operation()?,
            Some(frame) => match frame.reply(reply == 1, wait_limit) {
                None => {}
                Some(End::WaitLimit) => return Err(Outcome::of(numbers::WAIT_LIMIT_REACHED)),
                Some(End::Passed(byte)) => self.judge(byte, image)?,
            },
        }
        Ok(self.step(image))
    }

    fn next_operation(&mut self) -> Result<(), Outcome> {
        self.at += 1;
        self.reads = 0;
        match self.entries.get(self.at) {
            None => Err(Outcome::of(numbers::DONE)),
            Some(entry) => {
                self.frame = entry.operation.frame().map(Frame::begin);
                Ok(())
            }
        }
    }

    /// A frame has passed its STOP, having sampled this byte.
    fn judge(&mut self, sampled: u8, image: &[u8]) -> Result<(), Outcome> {
        match self.operation() {
            Operation::PollInBusy => return self.polled(sampled & IN_BUSY == 0),
            Operation::PollOutReady => return self.polled(sampled & OUT_READY != 0),
            Operation::Expect(byte, number) if sampled != value(byte, image) => {
                let offset = match byte {
                    Byte::Image(offset) => offset,
                    Byte::Fixed(_) => 0,
                };
                return Err(Outcome { number, offset });
            }
            _ => {}
        }
        self.next_operation()
    }

    fn polled(&mut self, satisfied: bool) -> Result<(), Outcome> {
        if satisfied {
            return self.next_operation();
        }
        self.reads += 1;
        if self.reads == POLL_LIMIT {
            return Err(Outcome::of(numbers::POLL_LIMIT_REACHED));
        }
        self.frame = Some(Frame::begin(Kind::AddressRead));
        Ok(())
    }

    fn step(&self, image: &[u8]) -> u8 {
        let operation = self.operation();
        let Some(frame) = &self.frame else {
            let pause = matches!(operation, Operation::Pause);
            return if pause { PAUSE } else { RESET };
        };
        let byte = match operation {
            Operation::AddressWrite(address) => address,
            Operation::DataWrite(byte) if frame.wants_byte() => value(byte, image),
            _ => 0,
        };
        frame.step(byte)
    }
}

/// The byte; every image lent is as long as the session's.
fn value(byte: Byte, image: &[u8]) -> u8 {
    match byte {
        Byte::Fixed(byte) => byte,
        Byte::Image(offset) => image[offset],
    }
}
