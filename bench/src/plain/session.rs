//! A session in plain Rust: it programs an image page by page, one reply at a time.

mod face;

pub use face::{advance, open};

use proved::c2::{Pairs, Settings};

use crate::plain::wire::{command, ins, status, Ranges, Refusal, Step, BLOCK, COMMAND_OK, FPCTL, KEYS};

/// How a session ended.
#[derive(Clone, Copy, PartialEq, Eq, Debug)]
pub enum Outcome {
    Done,
    BadReply,
    WaitLimitReached,
    PollLimitReached,
    OtherDevice,
    BadStatus,
    CompareDiffers { offset: usize },
}

impl Outcome {
    /// Its number and the image offset, as include/c2.h has them.
    fn numbers(self) -> (u8, usize) {
        match self {
            Outcome::Done => (32, 0),
            Outcome::BadReply => (9, 0),
            Outcome::WaitLimitReached => (10, 0),
            Outcome::PollLimitReached => (11, 0),
            Outcome::OtherDevice => (12, 0),
            Outcome::BadStatus => (13, 0),
            Outcome::CompareDiffers { offset } => (14, offset),
        }
    }
}

/// What follows the driven bits of a frame.
#[derive(Clone, Copy, PartialEq, Eq)]
enum Kind {
    AddressWrite,
    AddressRead,
    DataWrite,
    DataRead,
}

/// The strobe that awaits its reply.
#[derive(Clone, Copy)]
enum Field {
    Start,
    Driven { left: u8 },
    Wait { zeros: u8 },
    Sampled { left: u8 },
    Stop,
}

/// A frame under way. INS, LENGTH and a written byte leave `bits` lowest first; a byte read gathers in
/// `value`.
#[derive(Clone, Copy)]
struct Frame {
    kind: Kind,
    field: Field,
    bits: u16,
    width: u8,
    value: u8,
}

/// What a reply does to a frame.
enum Progress {
    Next(Step),
    Complete(u8),
    NoAnswer,
}

impl Frame {
    fn new(kind: Kind, bits: u16, width: u8) -> Frame {
        Frame { kind, field: Field::Start, bits, width, value: 0 }
    }

    fn address_write(address: u8) -> Frame {
        Frame::new(Kind::AddressWrite, u16::from(address) << 2 | u16::from(ins::ADDRESS_WRITE), 10)
    }

    fn address_read() -> Frame {
        Frame::new(Kind::AddressRead, ins::ADDRESS_READ.into(), 2)
    }

    // LENGTH is 0, which stands for one byte.
    fn data_write(byte: u8) -> Frame {
        Frame::new(Kind::DataWrite, u16::from(byte) << 4 | u16::from(ins::DATA_WRITE), 12)
    }

    fn data_read() -> Frame {
        Frame::new(Kind::DataRead, ins::DATA_READ.into(), 4)
    }

    fn advance(&mut self, reply: bool, wait_limit: u8) -> Progress {
        match self.field {
            Field::Start => self.drive(self.width),
            Field::Driven { left: 0 } => self.release(match self.kind {
                Kind::AddressWrite => Field::Stop,
                Kind::AddressRead => Field::Sampled { left: 8 },
                Kind::DataWrite | Kind::DataRead => Field::Wait { zeros: 0 },
            }),
            Field::Driven { left } => self.drive(left),
            Field::Wait { .. } if reply => self.release(match self.kind {
                Kind::DataRead => Field::Sampled { left: 8 },
                _ => Field::Stop,
            }),
            Field::Wait { zeros } if zeros + 1 == wait_limit => Progress::NoAnswer,
            Field::Wait { zeros } => self.release(Field::Wait { zeros: zeros + 1 }),
            Field::Sampled { left } => {
                self.value = self.value >> 1 | u8::from(reply) << 7;
                self.release(if left == 1 { Field::Stop } else { Field::Sampled { left: left - 1 } })
            }
            Field::Stop => Progress::Complete(self.value),
        }
    }

    fn drive(&mut self, left: u8) -> Progress {
        let bit = self.bits & 1 == 1;
        self.bits >>= 1;
        self.field = Field::Driven { left: left - 1 };
        Progress::Next(Step::driving(bit))
    }

    fn release(&mut self, field: Field) -> Progress {
        self.field = field;
        Progress::Next(Step::Released)
    }
}

/// What the step or frame under way is for.
#[derive(Clone, Copy)]
enum Task {
    FirstReset,
    ReadId,
    SecondReset,
    SelectFpctl,
    Key(usize),
    Pause,
    SelectRegister(u8),
    WriteRegister(u8),
    SelectFpdat,
    Put,
    AwaitInput,
    AwaitOutput,
    Get,
    LastReset,
}

/// The commands of a page. The numbers are those of the record's stages.
#[derive(Clone, Copy)]
#[repr(u8)]
enum Command {
    Erase = 1,
    Write = 2,
    Read = 3,
}

/// One entry of a command's script. Bytes of the image are named by their offset.
enum Entry {
    Put(u8),
    PutImage(usize),
    Status,
    Compare(usize),
    End,
}

/// A session: settings, place in the order, and the frame under way, none during a reset or the pause.
#[derive(Clone)]
pub struct Session {
    settings: Settings,
    first_page: u32,
    image_len: usize,
    outcome: Option<Outcome>,
    task: Task,
    frame: Option<Frame>,
    command: Command,
    offset: usize,
    entry: usize,
    reads: u16,
}

impl Session {
    const POLL_LIMIT: u16 = 256;

    /// Opens a session that programs the image from `first_page` on; its first step is a reset.
    pub fn open(settings: Settings, first_page: u32, image: &[u8]) -> Result<(Session, Step), Refusal> {
        settings.check()?;
        let page_size = settings.page_size as usize;
        if image.is_empty() || !image.len().is_multiple_of(page_size) {
            return Err(Refusal::BadImage);
        }
        if first_page as usize + image.len() / page_size > settings.page_count as usize {
            return Err(Refusal::PastLastPage);
        }
        Ok((Session::new(settings, first_page, image.len()), Step::Reset))
    }

    fn new(settings: Settings, first_page: u32, image_len: usize) -> Session {
        Session {
            settings,
            first_page,
            image_len,
            outcome: None,
            task: Task::FirstReset,
            frame: None,
            command: Command::Erase,
            offset: 0,
            entry: 0,
            reads: 0,
        }
    }

    /// The session's number, 0 while it runs, and its offset.
    pub fn numbers(&self) -> (u32, u32) {
        let (number, offset) = self.outcome.map_or((0, 0), Outcome::numbers);
        (number.into(), offset as u32)
    }

    /// Takes one reply and gives the step that follows it. Not inlined: a driver calls it across a library's
    /// boundary.
    #[inline(never)]
    pub fn advance(&mut self, reply: u8, image: &[u8]) -> Result<Step, Refusal> {
        if image.len() != self.image_len {
            return Err(Refusal::OtherImage);
        }
        Ok(self.take(reply, image))
    }

    /// Takes replies in a row until the session ends, writes the step that follows each, and counts them.
    #[inline(never)]
    pub fn advance_all(&mut self, replies: &[u8], image: &[u8], steps: &mut [u8]) -> Result<usize, Refusal> {
        if image.len() != self.image_len {
            return Err(Refusal::OtherImage);
        }
        if replies.len() > steps.len() {
            return Err(Refusal::NoRoom);
        }
        Ok(self.take_all(replies, image, steps))
    }

    fn take_all(&mut self, replies: &[u8], image: &[u8], steps: &mut [u8]) -> usize {
        let mut taken = 0;
        for (step, &reply) in steps.iter_mut().zip(replies) {
            if self.outcome.is_some() {
                break;
            }
            *step = self.take(reply, image) as u8;
            taken += 1;
        }
        taken
    }

    /// Takes one reply; the image is the one of the opening.
    #[inline]
    pub fn take(&mut self, reply: u8, image: &[u8]) -> Step {
        if self.outcome.is_some() {
            return Step::Off;
        }
        if reply > 1 {
            return self.end(Outcome::BadReply);
        }
        let Some(frame) = &mut self.frame else {
            return self.after_pulse();
        };
        match frame.advance(reply == 1, self.settings.wait_limit) {
            Progress::Next(step) => step,
            Progress::Complete(value) => self.after_frame(value, image),
            Progress::NoAnswer => self.end(Outcome::WaitLimitReached),
        }
    }

    fn after_pulse(&mut self) -> Step {
        match self.task {
            Task::FirstReset => self.begin(Task::ReadId, Frame::data_read()),
            Task::SecondReset => self.begin(Task::SelectFpctl, Frame::address_write(FPCTL)),
            Task::Pause => self.prepare(0),
            _ => self.end(Outcome::Done),
        }
    }

    fn after_frame(&mut self, value: u8, image: &[u8]) -> Step {
        match self.task {
            Task::ReadId if value != self.settings.device_id => self.end(Outcome::OtherDevice),
            Task::ReadId => self.pulse(Task::SecondReset, Step::Reset),
            Task::SelectFpctl => self.put_key(0),
            Task::Key(index) if index + 1 == KEYS.len() => self.pulse(Task::Pause, Step::Pause),
            Task::Key(index) => self.put_key(index + 1),
            Task::SelectRegister(number) => {
                let value = self.settings.pairs.values[usize::from(number)];
                self.begin(Task::WriteRegister(number), Frame::data_write(value))
            }
            Task::WriteRegister(number) => self.prepare(number + 1),
            Task::SelectFpdat => self.begin_entry(image),
            Task::Put => self.poll(Task::AwaitInput),
            Task::AwaitInput if value & status::IN_BUSY == 0 => self.next_entry(image),
            Task::AwaitOutput if value & status::OUT_READY != 0 => self.begin(Task::Get, Frame::data_read()),
            Task::AwaitInput | Task::AwaitOutput => self.poll_again(),
            Task::Get => self.judge(value, image),
            Task::FirstReset | Task::SecondReset | Task::Pause | Task::LastReset => {
                unreachable!("no frame here")
            }
        }
    }

    fn begin(&mut self, task: Task, frame: Frame) -> Step {
        self.task = task;
        self.frame = Some(frame);
        Step::Released
    }

    fn pulse(&mut self, task: Task, step: Step) -> Step {
        self.task = task;
        self.frame = None;
        step
    }

    fn end(&mut self, outcome: Outcome) -> Step {
        self.outcome = Some(outcome);
        Step::Off
    }

    fn put_key(&mut self, index: usize) -> Step {
        self.begin(Task::Key(index), Frame::data_write(KEYS[index]))
    }

    /// The pairs from this number on, and then the first page.
    fn prepare(&mut self, number: u8) -> Step {
        let Pairs { count, registers, .. } = self.settings.pairs;
        if number == count {
            return self.begin_command(Command::Erase);
        }
        self.begin(Task::SelectRegister(number), Frame::address_write(registers[usize::from(number)]))
    }

    fn poll(&mut self, task: Task) -> Step {
        self.reads = 0;
        self.begin(task, Frame::address_read())
    }

    fn poll_again(&mut self) -> Step {
        self.reads += 1;
        if self.reads == Session::POLL_LIMIT {
            return self.end(Outcome::PollLimitReached);
        }
        self.begin(self.task, Frame::address_read())
    }

    fn begin_command(&mut self, command: Command) -> Step {
        self.command = command;
        self.entry = 0;
        self.begin(Task::SelectFpdat, Frame::address_write(self.settings.fpdat))
    }

    fn next_entry(&mut self, image: &[u8]) -> Step {
        self.entry += 1;
        self.begin_entry(image)
    }

    fn begin_entry(&mut self, image: &[u8]) -> Step {
        match self.script() {
            Entry::Put(byte) => self.begin(Task::Put, Frame::data_write(byte)),
            Entry::PutImage(offset) => self.begin(Task::Put, Frame::data_write(image[offset])),
            Entry::Status | Entry::Compare(_) => self.poll(Task::AwaitOutput),
            Entry::End => self.next_command(),
        }
    }

    /// The entry that the session is at. What is no put, compare or end is a status: entries 1, 3 and 5 of an
    /// erase, 1 and 261 of a block write, 1 and 5 of a block read.
    fn script(&self) -> Entry {
        let [_, _, high, low] = self.flash_address().to_be_bytes();
        match (self.command, self.entry) {
            (Command::Erase, 0) => Entry::Put(command::PAGE_ERASE),
            (Command::Erase, 2) => Entry::Put((self.flash_address() / self.settings.page_size) as u8),
            (Command::Erase, 4) => Entry::Put(0),
            (Command::Erase, 6) => Entry::End,
            (Command::Write, 0) => Entry::Put(command::BLOCK_WRITE),
            (Command::Read, 0) => Entry::Put(command::BLOCK_READ),
            (Command::Write | Command::Read, 2) => Entry::Put(high),
            (Command::Write | Command::Read, 3) => Entry::Put(low),
            (Command::Write | Command::Read, 4) => Entry::Put(0),
            (Command::Write, n @ 5..=260) => Entry::PutImage(self.offset + n - 5),
            (Command::Read, n @ 6..=261) => Entry::Compare(self.offset + n - 6),
            (Command::Write | Command::Read, 262) => Entry::End,
            _ => Entry::Status,
        }
    }

    fn flash_address(&self) -> u32 {
        self.first_page * self.settings.page_size + self.offset as u32
    }

    fn judge(&mut self, value: u8, image: &[u8]) -> Step {
        let Entry::Compare(offset) = self.script() else {
            return if value == COMMAND_OK { self.next_entry(image) } else { self.end(Outcome::BadStatus) };
        };
        if image[offset] != value {
            return self.end(Outcome::CompareDiffers { offset });
        }
        self.next_entry(image)
    }

    /// After an erase all blocks of the page are written, then all are read back.
    fn next_command(&mut self) -> Step {
        let page_size = self.settings.page_size as usize;
        let next = self.offset + BLOCK;
        let page_ends = next.is_multiple_of(page_size);
        match self.command {
            Command::Erase => self.begin_command(Command::Write),
            Command::Write if page_ends => {
                self.offset = next - page_size;
                self.begin_command(Command::Read)
            }
            Command::Read if page_ends => {
                self.offset = next;
                self.next_page()
            }
            same => {
                self.offset = next;
                self.begin_command(same)
            }
        }
    }

    fn next_page(&mut self) -> Step {
        if self.offset == self.image_len {
            return self.pulse(Task::LastReset, Step::Reset);
        }
        self.begin_command(Command::Erase)
    }
}
