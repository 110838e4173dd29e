//! The session's calls in plain Rust: the record (docs/RECORD.md) is taken apart and tested at every call,
//! and written anew.

use proved::c2::{Advanced, Opened, Pairs, Settings, RECORD_BYTES};

use super::{Command, Entry, Field, Frame, Kind, Outcome, Session, Task};
use crate::plain::wire::{named, Ranges, Refusal, Step, BLOCK, FPCTL, KEYS};

type Record = [u8; RECORD_BYTES];

/// Opens a session and writes its record.
#[inline(never)]
pub fn open(record: &mut [u8], image: &[u8], settings: Settings, first_page: u32) -> Opened {
    let (number, step) = match opened(record, image, settings, first_page) {
        Ok(step) => (0, step),
        Err(refusal) => (refusal.into(), Step::Off),
    };
    Opened { number, step: step as u32 }
}

fn opened(record: &mut [u8], image: &[u8], settings: Settings, first_page: u32) -> Result<Step, Refusal> {
    let record: &mut Record = record.try_into().map_err(|_| Refusal::BadRecord)?;
    let (session, step) = Session::open(settings, first_page, image)?;
    *record = session.record();
    Ok(step)
}

/// Takes replies in a row and writes the step that follows each, from `place` on.
#[inline(never)]
pub fn advance(record: &mut [u8], image: &[u8], replies: &[u8], steps: &mut [u8], place: usize) -> Advanced {
    advanced(record, image, replies, steps, place).unwrap_or_else(|refusal| Advanced {
        number: refusal.into(),
        offset: 0,
        taken: 0,
    })
}

fn advanced(
    record: &mut [u8],
    image: &[u8],
    replies: &[u8],
    steps: &mut [u8],
    place: usize,
) -> Result<Advanced, Refusal> {
    let record: &mut Record = record.try_into().map_err(|_| Refusal::BadRecord)?;
    let mut session = Session::held(record).ok_or(Refusal::BadRecord)?;
    if image.len() != session.image_len {
        return Err(Refusal::OtherImage);
    }
    let end = place.checked_add(replies.len()).ok_or(Refusal::NoRoom)?;
    let steps = steps.get_mut(place..end).ok_or(Refusal::NoRoom)?;
    session.load(image);
    let taken = session.take_all(replies, image, steps) as u64;
    session.store(record);
    let (number, offset) = session.numbers();
    Ok(Advanced { number, offset, taken })
}

/// Bytes 10 to 17 of a record.
#[derive(Default)]
struct Point {
    stage: u8,
    page: u8,
    block: u8,
    act: u16,
    strobe: u8,
    count: u8,
    bits: u8,
}

impl Session {
    /// The session of a record, if it holds one. The bits that its frame drives are left to `load`.
    fn held(record: &Record) -> Option<Session> {
        let pair = |at: usize| u16::from_le_bytes([record[at], record[at + 1]]);
        let settings = Settings {
            device_id: record[0],
            fpdat: record[1],
            page_size: pair(2).into(),
            page_count: record[4].into(),
            wait_limit: record[18],
            pairs: Pairs {
                count: record[19],
                registers: [record[20], record[22], record[24], record[26]],
                values: [record[21], record[23], record[25], record[27]],
            },
        };
        settings.check().ok()?;
        let (first_page, pages) = (u32::from(record[5]), u32::from(record[6]));
        // two bytes a pair, the first one lowest
        let entries = u64::from_le_bytes(record[20..28].try_into().expect("eight bytes"));
        let unnamed = entries.checked_shr(16 * u32::from(settings.pairs.count)).unwrap_or(0);
        if pages == 0 || first_page + pages > settings.page_count || unnamed != 0 || record[28..] != [0; 4] {
            return None;
        }
        let mut session = Session::new(settings, first_page, (pages * settings.page_size) as usize);
        let (number, offset) = (record[7], pair(8).into());
        if number != 0 || offset != 0 {
            session.outcome = Some(Outcome::of(number, offset, session.image_len)?);
            return (record[10..18] == [0; 8]).then_some(session);
        }
        session.task = session.task_at(record[10], record[11], record[12], pair(13))?;
        session.frame_at(record[15], record[16], record[17])?;
        Some(session)
    }

    /// What the act is for; settles the command and its entry.
    fn task_at(&mut self, stage: u8, page: u8, block: u8, act: u16) -> Option<Task> {
        self.command = match stage {
            0 if page == 0 && block == 0 => return lead_task(act),
            1 if block == 0 => Command::Erase,
            2 => Command::Write,
            3 => Command::Read,
            4 if page == 0 && block == 0 && act == 0 => return Some(Task::LastReset),
            5 if page < self.settings.pairs.count && block == 0 => return pair_task(page, act),
            _ => return None,
        };
        let page_size = self.settings.page_size as usize;
        let (page_start, block_start) = (usize::from(page) * page_size, usize::from(block) * BLOCK);
        if page_start >= self.image_len || block_start >= page_size || act >= self.command.acts() {
            return None;
        }
        self.offset = page_start + block_start;
        let Some(act) = act.checked_sub(1) else {
            return Some(Task::SelectFpdat);
        };
        // Each entry takes two acts: a put and its poll, or a poll and its read.
        self.entry = usize::from(act / 2);
        Some(match (self.script(), act % 2) {
            (Entry::Put(_) | Entry::PutImage(_), 0) => Task::Put,
            (Entry::Put(_) | Entry::PutImage(_), _) => Task::AwaitInput,
            (_, 0) => Task::AwaitOutput,
            (_, _) => Task::Get,
        })
    }

    /// Settles the frame of the task, as far as it has come, and the reads of a poll.
    fn frame_at(&mut self, strobe: u8, count: u8, bits: u8) -> Option<()> {
        let Some(kind) = self.task.kind() else {
            return (strobe == 0 && count == 0 && bits == 0).then_some(());
        };
        let (reads, zeros) = if kind == Kind::AddressRead { (count, 0) } else { (0, count) };
        self.reads = reads.into();
        let field = kind.field(strobe, zeros, self.settings.wait_limit)?;
        let unsampled = 8 - kind.sampled(field);
        let value = u8::try_from(u16::from(bits) << unsampled).ok()?;
        self.frame = Some(Frame { kind, field, bits: 0, width: kind.width(), value });
        Some(())
    }

    /// The bits that the frame has still to drive; the byte that it puts may be the image's.
    fn load(&mut self, image: &[u8]) {
        let Some(Frame { field: Field::Start | Field::Driven { .. }, width, .. }) = self.frame else {
            return;
        };
        let whole = match self.task {
            Task::SelectFpctl => Frame::address_write(FPCTL),
            Task::SelectFpdat => Frame::address_write(self.settings.fpdat),
            Task::SelectRegister(number) => {
                Frame::address_write(self.settings.pairs.registers[usize::from(number)])
            }
            Task::WriteRegister(number) => Frame::data_write(self.settings.pairs.values[usize::from(number)]),
            Task::Key(index) => Frame::data_write(KEYS[index]),
            Task::Put => Frame::data_write(self.put_byte(image)),
            Task::AwaitInput | Task::AwaitOutput => Frame::address_read(),
            _ => Frame::data_read(),
        };
        if let Some(frame) = &mut self.frame {
            let left = if let Field::Driven { left } = frame.field { left } else { width };
            frame.bits = whole.bits >> (width - left);
        }
    }

    fn put_byte(&self, image: &[u8]) -> u8 {
        match self.script() {
            Entry::Put(byte) => byte,
            Entry::PutImage(offset) => image[offset],
            Entry::Status | Entry::Compare(_) | Entry::End => unreachable!("no put here"),
        }
    }

    fn record(&self) -> Record {
        let Settings { device_id, fpdat, page_size, page_count, wait_limit, pairs } = self.settings;
        let [size_low, size_high, ..] = page_size.to_le_bytes();
        let pages = self.image_len as u32 / page_size;
        let head =
            [device_id, fpdat, size_low, size_high, page_count as u8, self.first_page as u8, pages as u8];
        let mut record = [0; RECORD_BYTES];
        record[..head.len()].copy_from_slice(&head);
        (record[18], record[19]) = (wait_limit, pairs.count);
        for (entry, (register, value)) in record[20..28].chunks_mut(2).zip(named(&pairs)) {
            entry.copy_from_slice(&[register, value]);
        }
        self.store(&mut record);
        record
    }

    /// Writes what replies change: outcome and point. Settings and pages stay.
    fn store(&self, record: &mut Record) {
        let (number, offset) = self.outcome.map_or((0, 0), Outcome::numbers);
        let point = if self.outcome.is_none() { self.point() } else { Point::default() };
        record[7] = number;
        record[8..10].copy_from_slice(&(offset as u16).to_le_bytes());
        record[10] = point.stage;
        record[11] = point.page;
        record[12] = point.block;
        record[13..15].copy_from_slice(&point.act.to_le_bytes());
        record[15] = point.strobe;
        record[16] = point.count;
        record[17] = point.bits;
    }

    fn point(&self) -> Point {
        let (stage, page, block, act) = self.act();
        let mut point = Point { stage, page, block, act, ..Point::default() };
        if let Some(frame) = &self.frame {
            point.strobe = frame.strobe();
            point.count = match frame.field {
                _ if frame.kind == Kind::AddressRead => self.reads as u8,
                Field::Wait { zeros } => zeros,
                _ => 0,
            };
            point.bits = (u16::from(frame.value) >> (8 - frame.kind.sampled(frame.field))) as u8;
        }
        point
    }

    /// Stage, page, block and act.
    fn act(&self) -> (u8, u8, u8, u16) {
        let entry = self.entry as u16;
        let act = match self.task {
            Task::FirstReset => return (0, 0, 0, 0),
            Task::ReadId => return (0, 0, 0, 1),
            Task::SecondReset => return (0, 0, 0, 2),
            Task::SelectFpctl => return (0, 0, 0, 3),
            Task::Key(index) => return (0, 0, 0, 4 + index as u16),
            Task::Pause => return (0, 0, 0, 7),
            Task::LastReset => return (4, 0, 0, 0),
            Task::SelectRegister(number) => return (5, number, 0, 0),
            Task::WriteRegister(number) => return (5, number, 0, 1),
            Task::SelectFpdat => 0,
            Task::Put | Task::AwaitOutput => 1 + 2 * entry,
            Task::AwaitInput | Task::Get => 2 + 2 * entry,
        };
        let (offset, page_size) = (self.offset as u32, self.settings.page_size);
        let block = offset % page_size / BLOCK as u32;
        (self.command as u8, (offset / page_size) as u8, block as u8, act)
    }
}

fn lead_task(act: u16) -> Option<Task> {
    match act {
        0 => Some(Task::FirstReset),
        1 => Some(Task::ReadId),
        2 => Some(Task::SecondReset),
        3 => Some(Task::SelectFpctl),
        4..=6 => Some(Task::Key(usize::from(act) - 4)),
        7 => Some(Task::Pause),
        _ => None,
    }
}

fn pair_task(number: u8, act: u16) -> Option<Task> {
    match act {
        0 => Some(Task::SelectRegister(number)),
        1 => Some(Task::WriteRegister(number)),
        _ => None,
    }
}

impl Outcome {
    fn of(number: u8, offset: usize, image_len: usize) -> Option<Outcome> {
        match (number, offset) {
            (32, 0) => Some(Outcome::Done),
            (9, 0) => Some(Outcome::BadReply),
            (10, 0) => Some(Outcome::WaitLimitReached),
            (11, 0) => Some(Outcome::PollLimitReached),
            (12, 0) => Some(Outcome::OtherDevice),
            (13, 0) => Some(Outcome::BadStatus),
            (14, _) if offset < image_len => Some(Outcome::CompareDiffers { offset }),
            _ => None,
        }
    }
}

impl Command {
    fn acts(self) -> u16 {
        match self {
            Command::Erase => 13,
            Command::Write | Command::Read => 525,
        }
    }
}

impl Task {
    /// The frame that it takes; none for a reset or the pause.
    fn kind(self) -> Option<Kind> {
        match self {
            Task::SelectFpctl | Task::SelectRegister(_) | Task::SelectFpdat => Some(Kind::AddressWrite),
            Task::AwaitInput | Task::AwaitOutput => Some(Kind::AddressRead),
            Task::Key(_) | Task::WriteRegister(_) | Task::Put => Some(Kind::DataWrite),
            Task::ReadId | Task::Get => Some(Kind::DataRead),
            Task::FirstReset | Task::SecondReset | Task::Pause | Task::LastReset => None,
        }
    }
}

impl Kind {
    /// Driven bits.
    fn width(self) -> u8 {
        match self {
            Kind::AddressWrite => 10,
            Kind::AddressRead => 2,
            Kind::DataWrite => 12,
            Kind::DataRead => 4,
        }
    }

    /// The field of a strobe by its number, where a WAIT counts as one. Only a WAIT has zeros.
    fn field(self, strobe: u8, zeros: u8, wait_limit: u8) -> Option<Field> {
        let field = match (self, strobe) {
            (Kind::DataWrite, 13) | (Kind::DataRead, 5) if zeros < wait_limit => {
                return Some(Field::Wait { zeros })
            }
            (_, 0) => Field::Start,
            (_, 1..) if strobe <= self.width() => Field::Driven { left: self.width() - strobe },
            (Kind::AddressRead, 3..=10) => Field::Sampled { left: 11 - strobe },
            (Kind::DataRead, 6..=13) => Field::Sampled { left: 14 - strobe },
            (Kind::AddressWrite | Kind::AddressRead, 11) => Field::Stop,
            (Kind::DataWrite | Kind::DataRead, 14) => Field::Stop,
            _ => return None,
        };
        (zeros == 0).then_some(field)
    }

    /// Bits sampled before this field.
    fn sampled(self, field: Field) -> u8 {
        match (field, self) {
            (Field::Sampled { left }, _) => 8 - left,
            (Field::Stop, Kind::AddressRead | Kind::DataRead) => 8,
            _ => 0,
        }
    }
}

impl Frame {
    fn strobe(&self) -> u8 {
        match (self.field, self.kind) {
            (Field::Start, _) => 0,
            (Field::Driven { left }, _) => self.width - left,
            (Field::Wait { .. }, _) => self.width + 1,
            (Field::Sampled { left }, Kind::AddressRead) => 11 - left,
            (Field::Sampled { left }, _) => 14 - left,
            (Field::Stop, Kind::AddressWrite | Kind::AddressRead) => 11,
            (Field::Stop, Kind::DataWrite | Kind::DataRead) => 14,
        }
    }
}
