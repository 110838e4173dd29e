//! The four C2 frames with one data byte, from the master's side (the maker's note, sections 2.3 and 2.5).
//!
//! A frame is the list of its fields. The place in it is the field and the strobes of that field already
//! answered.

use crate::second::c2::steps::{driven, RELEASED};

/// The frames, numbered by their INS codes.
#[derive(Clone, Copy, Debug, PartialEq, Eq)]
pub enum Kind {
    DataRead = 0,
    DataWrite = 1,
    AddressRead = 2,
    AddressWrite = 3,
}

#[derive(Clone, Copy, PartialEq, Eq)]
enum Field {
    Start,
    Ins,
    Length,
    /// ADDRESS or DATA from the master
    Written,
    /// ADDRESS or DATA from the target
    Sampled,
    Wait,
    Stop,
}

impl Kind {
    pub const ALL: [Kind; 4] = [Kind::DataRead, Kind::DataWrite, Kind::AddressRead, Kind::AddressWrite];

    pub fn ins(self) -> u8 {
        self as u8
    }

    /// The target sends the byte.
    pub fn reads(self) -> bool {
        self.fields().contains(&Field::Sampled)
    }

    pub fn waits(self) -> bool {
        self.fields().contains(&Field::Wait)
    }

    fn fields(self) -> &'static [Field] {
        use Field::*;
        match self {
            Kind::AddressWrite => &[Start, Ins, Written, Stop],
            Kind::AddressRead => &[Start, Ins, Sampled, Stop],
            Kind::DataWrite => &[Start, Ins, Length, Written, Wait, Stop],
            Kind::DataRead => &[Start, Ins, Length, Wait, Sampled, Stop],
        }
    }

    /// The most strobes of the whole frame, its WAIT counted to the limit.
    pub fn most_strobes(self, wait_limit: u32) -> u64 {
        Frame::begin(self).most_strobes_left(wait_limit)
    }
}

impl Field {
    fn most_strobes(self, wait_limit: u32) -> u32 {
        match self {
            Field::Start | Field::Stop => 1,
            Field::Ins | Field::Length => 2,
            Field::Written | Field::Sampled => 8,
            Field::Wait => wait_limit,
        }
    }
}

/// How a frame ends.
#[derive(Clone, Copy, Debug, PartialEq, Eq)]
pub enum End {
    /// STOP has been answered; the byte that was sampled, 0 in a frame that samples none
    Passed(u8),
    WaitLimit,
}

/// A place in a frame, numbered strobe by strobe with a WAIT as one: the proved code's own terms.
#[derive(Clone, Copy, Debug, Default, PartialEq, Eq)]
pub struct Place {
    pub strobe: usize,
    pub count: usize,
    pub bits: usize,
}

#[derive(Clone, Copy, Debug)]
pub struct Frame {
    kind: Kind,
    /// index of the field
    at: usize,
    /// strobes of the field already answered; in a WAIT these are its zeros
    done: u32,
    sampled: u8,
}

impl Frame {
    pub fn begin(kind: Kind) -> Frame {
        Frame { kind, at: 0, done: 0, sampled: 0 }
    }

    /// The frame at a place that it has.
    pub fn at(kind: Kind, place: Place) -> Frame {
        let mut frame = Frame::begin(kind);
        let mut strobe = place.strobe as u32;
        // a WAIT is one strobe in the numbering of places
        while strobe >= frame.field().most_strobes(1) {
            strobe -= frame.field().most_strobes(1);
            frame.at += 1;
        }
        frame.done = if frame.field() == Field::Wait { place.count as u32 } else { strobe };
        frame.sampled = place.bits as u8;
        frame
    }

    fn field(&self) -> Field {
        self.kind.fields()[self.at]
    }

    /// The next strobe drives a bit of the byte to be written.
    pub fn wants_byte(&self) -> bool {
        self.field() == Field::Written
    }

    /// The strobe to come; `byte` is looked at only where it is wanted.
    pub fn step(&self, byte: u8) -> u8 {
        match self.field() {
            Field::Ins => driven(self.kind.ins(), self.done),
            Field::Length => driven(0, self.done),
            Field::Written => driven(byte, self.done),
            Field::Start | Field::Sampled | Field::Wait | Field::Stop => RELEASED,
        }
    }

    /// Takes the line after that strobe.
    pub fn reply(&mut self, high: bool, wait_limit: u32) -> Option<End> {
        match self.field() {
            Field::Stop => return Some(End::Passed(self.sampled)),
            Field::Wait => return self.wait(high, wait_limit),
            Field::Sampled => self.sampled |= u8::from(high) << self.done,
            Field::Start | Field::Ins | Field::Length | Field::Written => {}
        }
        self.done += 1;
        if self.done == self.field().most_strobes(wait_limit) {
            self.next_field();
        }
        None
    }

    fn wait(&mut self, high: bool, wait_limit: u32) -> Option<End> {
        if high {
            self.next_field();
            return None;
        }
        self.done += 1;
        (self.done >= wait_limit).then_some(End::WaitLimit)
    }

    fn next_field(&mut self) {
        self.at += 1;
        self.done = 0;
    }

    /// The strobes of the frame still to come, at most.
    pub fn most_strobes_left(&self, wait_limit: u32) -> u64 {
        let fields = &self.kind.fields()[self.at..];
        let whole: u32 = fields.iter().map(|field| field.most_strobes(wait_limit)).sum();
        u64::from(whole - self.done)
    }

    pub fn place(&self) -> Place {
        let before: u32 = self.kind.fields()[..self.at].iter().map(|field| field.most_strobes(1)).sum();
        let (strobe, count) = match self.field() {
            Field::Wait => (before, self.done),
            _ => (before + self.done, 0),
        };
        Place { strobe: strobe as usize, count: count as usize, bits: usize::from(self.sampled) }
    }
}

/// What a frame said: its steps, the one that awaits a reply included, and its end if it came.
#[derive(Clone, Debug, Default, PartialEq, Eq)]
pub struct Played {
    pub steps: Vec<u8>,
    pub end: Option<End>,
}

/// Plays a frame against the replies given, as far as they reach.
pub fn play(kind: Kind, byte: u8, replies: &[u8], wait_limit: u32) -> Played {
    let mut frame = Frame::begin(kind);
    let mut steps = vec![frame.step(byte)];
    for &reply in replies {
        if let Some(end) = frame.reply(reply != 0, wait_limit) {
            return Played { steps, end: Some(end) };
        }
        steps.push(frame.step(byte));
    }
    Played { steps, end: None }
}
