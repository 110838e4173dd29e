//! The modelled target (document 01, section of that name; its WAITs by document 02, d, what it wants before
//! flash is touched by e), one step at a time.

use std::collections::{HashMap, VecDeque};
use std::ops::Range;

use crate::second::c2::frames::Kind;
use crate::second::c2::interface::{
    BLOCK_READ, BLOCK_WRITE, FAILED, FPCTL, IN_BUSY, KEYS, OKAY, OUT_READY, PAGE_ERASE,
};
use crate::second::c2::steps::{LOW, OFF, PAUSE, RELEASED, RESET};
use crate::second::numbers;
use crate::second::settings::{Pairs, Settings};

/// A target that takes steps.
pub trait Modelled {
    fn fresh() -> Self;

    /// Takes one step; gives the number and the reply.
    fn step(
        &mut self,
        settings: &Settings,
        wanted: &Pairs,
        flash: &mut [u8],
        delays: &[u8],
        step: u8,
    ) -> (u32, u8);

    fn collision(&self) -> bool;
}

/// What a step is lent, besides the target's own state.
struct Lent<'a> {
    settings: &'a Settings,
    wanted: &'a Pairs,
    flash: &'a mut [u8],
    delays: &'a [u8],
}

#[derive(Clone, Copy, Debug, PartialEq, Eq)]
pub enum Field {
    Ins,
    Length,
    /// ADDRESS or DATA from the master
    Written,
    /// ADDRESS or DATA from the target
    Sent,
    Wait,
    Stop,
}

impl Field {
    /// The strobes that the frame rules give to the master.
    fn masters(self) -> bool {
        matches!(self, Field::Ins | Field::Length | Field::Written)
    }
}

/// A frame as far as the target has seen it.
#[derive(Clone, Debug)]
pub struct Frame {
    pub field: Field,
    /// strobes of this field already seen
    pub done: u32,
    pub ins: u8,
    pub length: u8,
    /// the first byte written
    pub written: u8,
    /// the first byte to send; any others are zeros
    pub sent: u8,
    /// zeros still to be sent in the WAIT
    pub zeros: u8,
}

impl Frame {
    /// A frame whose START has been seen.
    pub fn started() -> Frame {
        Frame { field: Field::Ins, done: 0, ins: 0, length: 0, written: 0, sent: 0, zeros: 0 }
    }

    fn is(&self, kind: Kind) -> bool {
        self.ins == kind.ins()
    }

    fn enter(&mut self, field: Field) {
        self.field = field;
        self.done = 0;
    }

    /// Bits of the ADDRESS or DATA field: only data frames have set a length.
    fn width(&self) -> u32 {
        8 * (u32::from(self.length) + 1)
    }
}

#[derive(Clone, Debug, Default)]
pub struct Target {
    pub address: u8,
    pub interface_on: bool,
    pub collision: bool,
    pub delay_place: usize,
    pub frame: Option<Frame>,
    /// the last three Data Writes since the reset, oldest first: address and byte
    pub data_writes: VecDeque<(u8, u8)>,
    /// a frame has begun after the last of them
    pub frame_since: bool,
    /// of each register that was written since the reset, the last value
    pub last_values: HashMap<u8, u8>,
    /// the bytes put so far of a command that has not had them all
    pub command: Vec<u8>,
    pub output: VecDeque<u8>,
    /// Address Reads that will still show InBusy (document 01's d)
    pub busy_reads: u8,
    /// Address Reads after those that will still not show OutReady (document 01's e)
    pub unready_reads: u8,
}

/// The first refusal in the order of the tests: those of the settings, 19 of the wanted pairs, 17, 16.
fn refusal(settings: &Settings, wanted: &Pairs, flash_len: usize, step: u8) -> Option<u32> {
    if let Some(number) = settings.refusal().or_else(|| wanted.refusal(settings.fpdat)) {
        return Some(number);
    }
    if flash_len as u64 != settings.flash_len() {
        return Some(numbers::NO_POINT);
    }
    (step == 1 || step > OFF).then_some(numbers::NO_STEP)
}

impl Modelled for Target {
    fn fresh() -> Target {
        Target::default()
    }

    /// A refused step changes nothing and replies 1.
    fn step(
        &mut self,
        settings: &Settings,
        wanted: &Pairs,
        flash: &mut [u8],
        delays: &[u8],
        step: u8,
    ) -> (u32, u8) {
        if let Some(number) = refusal(settings, wanted, flash.len(), step) {
            return (number, 1);
        }
        let mut lent = Lent { settings, wanted, flash, delays };
        let high = match step {
            RESET => self.reset(),
            PAUSE => self.pause(),
            OFF => true,
            _ => self.strobe(step, &mut lent),
        };
        (numbers::RUNNING, u8::from(high))
    }

    fn collision(&self) -> bool {
        self.collision
    }
}

impl Target {
    /// A frame has begun and not yet passed its STOP.
    pub fn in_frame(&self) -> bool {
        self.frame.is_some()
    }

    /// Drops all but the flash, the mark and the place in the delays.
    fn reset(&mut self) -> bool {
        let (collision, delay_place) = (self.collision, self.delay_place);
        *self = Target { collision, delay_place, ..Target::fresh() };
        true
    }

    fn pause(&mut self) -> bool {
        let keys = KEYS.map(|key| (FPCTL, key));
        if self.data_writes == keys && !self.frame_since {
            self.interface_on = true;
        }
        true
    }

    /// One strobe; gives the line after it.
    fn strobe(&mut self, step: u8, lent: &mut Lent) -> bool {
        let masters = self.frame.as_ref().is_some_and(|frame| frame.field.masters());
        if step != RELEASED && !masters {
            self.collision = true;
        }
        let Some(mut frame) = self.frame.take() else {
            self.frame = Some(Frame::started());
            self.frame_since = true;
            return true;
        };
        let line = step != LOW;
        let high = match frame.field {
            Field::Ins => self.ins(&mut frame, line, lent),
            Field::Length => length(&mut frame, line),
            Field::Written => written(&mut frame, line),
            Field::Wait => self.wait(&mut frame, lent),
            Field::Sent => sent(&mut frame),
            Field::Stop => {
                self.act(&frame, lent);
                return true;
            }
        };
        self.frame = Some(frame);
        high
    }

    fn ins(&mut self, frame: &mut Frame, line: bool, lent: &Lent) -> bool {
        frame.ins |= u8::from(line) << frame.done;
        frame.done += 1;
        if frame.done == 2 {
            if frame.is(Kind::AddressRead) {
                // the status bits are fixed here
                frame.sent = self.address_read(lent);
                frame.enter(Field::Sent);
            } else if frame.is(Kind::AddressWrite) {
                frame.enter(Field::Written);
            } else {
                frame.enter(Field::Length);
            }
        }
        line
    }

    /// The WAIT begins, and takes its delay, at its first strobe.
    fn wait(&mut self, frame: &mut Frame, lent: &Lent) -> bool {
        if frame.done == 0 {
            frame.zeros = self.take_delay(lent) % lent.settings.wait_limit;
        }
        frame.done += 1;
        if frame.zeros > 0 {
            frame.zeros -= 1;
            return false;
        }
        if frame.is(Kind::DataRead) {
            frame.sent = if frame.length == 0 { self.data_read(lent) } else { 0 };
            frame.enter(Field::Sent);
        } else {
            frame.enter(Field::Stop);
        }
        true
    }

    /// The place moves on by one from where the delay was taken, also in a list that is empty.
    fn take_delay(&mut self, lent: &Lent) -> u8 {
        if self.delay_place >= lent.delays.len() {
            self.delay_place = 0;
        }
        let delay = lent.delays.get(self.delay_place).copied().unwrap_or(0);
        self.delay_place += 1;
        delay
    }

    /// The registers of the Programming Interface answer at the FPDAT address, once it is on.
    fn at_interface(&self, lent: &Lent) -> bool {
        self.interface_on && self.address == lent.settings.fpdat
    }

    fn out_ready(&self) -> bool {
        !self.output.is_empty() && self.busy_reads == 0 && self.unready_reads == 0
    }

    /// What an Address Read gives.
    fn address_read(&self, lent: &Lent) -> u8 {
        if !self.at_interface(lent) {
            return self.address;
        }
        let in_busy = if self.busy_reads > 0 { IN_BUSY } else { 0 };
        let out_ready = if self.out_ready() { OUT_READY } else { 0 };
        in_busy | out_ready
    }

    /// What a Data Read gives.
    fn data_read(&self, lent: &Lent) -> u8 {
        if self.address == 0 {
            return lent.settings.device_id;
        }
        if self.at_interface(lent) && self.out_ready() {
            return self.output[0];
        }
        0
    }

    /// A frame acts at its STOP.
    fn act(&mut self, frame: &Frame, lent: &mut Lent) {
        if frame.is(Kind::AddressWrite) {
            self.address = frame.written;
        } else if frame.is(Kind::AddressRead) {
            self.address_was_read(lent);
        } else if frame.length != 0 {
            // more than one byte: no Data Write, and no output is taken
        } else if frame.is(Kind::DataWrite) {
            self.data_was_written(frame.written, lent);
        } else {
            self.data_was_read(lent);
        }
    }

    fn address_was_read(&mut self, lent: &Lent) {
        if !self.at_interface(lent) {
            return;
        }
        if self.busy_reads > 0 {
            self.busy_reads -= 1;
        } else if self.unready_reads > 0 {
            self.unready_reads -= 1;
        }
    }

    fn data_was_read(&mut self, lent: &Lent) {
        if !self.at_interface(lent) || !self.out_ready() {
            return;
        }
        self.output.pop_front();
        if !self.output.is_empty() {
            self.unready_reads = self.take_delay(lent);
        }
    }

    fn data_was_written(&mut self, byte: u8, lent: &mut Lent) {
        if self.data_writes.len() == KEYS.len() {
            self.data_writes.pop_front();
        }
        self.data_writes.push_back((self.address, byte));
        self.frame_since = false;
        self.last_values.insert(self.address, byte);
        if self.at_interface(lent) {
            self.put(byte, lent);
        }
    }

    /// Whether a wanted pair is met: its value was the last one written to its register since the reset.
    pub fn met(&self, (register, value): (u8, u8)) -> bool {
        self.last_values.get(&register) == Some(&value)
    }

    fn prepared(&self, lent: &Lent) -> bool {
        lent.wanted.named().all(|pair| self.met(pair))
    }

    /// A byte for the Programming Interface: the command's next one, or a new command.
    fn put(&mut self, byte: u8, lent: &mut Lent) {
        self.output.clear();
        self.unready_reads = 0;
        self.command.push(byte);
        match self.command[0] {
            PAGE_ERASE | BLOCK_WRITE if self.command.len() == 1 && !self.prepared(lent) => {
                self.end_command(FAILED)
            }
            PAGE_ERASE => self.page_erase(lent),
            BLOCK_WRITE => self.block_write(lent),
            BLOCK_READ => self.block_read(lent),
            _ => self.end_command(FAILED),
        }
        self.busy_reads = self.take_delay(lent);
        if !self.output.is_empty() {
            self.unready_reads = self.take_delay(lent);
        }
    }

    fn answer(&mut self, status: u8) {
        self.output.push_back(status);
    }

    /// The command has had all its bytes; the next put is a new one.
    fn end_command(&mut self, status: u8) {
        self.answer(status);
        self.command.clear();
    }

    fn page_erase(&mut self, lent: &mut Lent) {
        match self.command[..] {
            [_, page] if u32::from(page) >= lent.settings.page_count => self.end_command(FAILED),
            [_, page, 0x00] => {
                let size = lent.settings.page_size as usize;
                let start = usize::from(page) * size;
                lent.flash[start..start + size].fill(0xFF);
                self.end_command(OKAY);
            }
            [_, _, _] => self.end_command(FAILED),
            _ => self.answer(OKAY),
        }
    }

    /// A block past the end has its bytes taken all the same.
    fn block_write(&mut self, lent: &mut Lent) {
        match self.command[..] {
            [_] => self.answer(OKAY),
            [_, high, low, code, ref before @ .., byte] => {
                let index = before.len();
                let block = block_inside(high, low, code, lent.flash.len());
                if let Some(block) = &block {
                    lent.flash[block.start + index] &= byte;
                }
                if index + 1 == block_len(code) {
                    self.end_command(if block.is_some() { OKAY } else { FAILED });
                }
            }
            _ => {}
        }
    }

    fn block_read(&mut self, lent: &Lent) {
        match self.command[..] {
            [_] => self.answer(OKAY),
            [_, high, low, code] => match block_inside(high, low, code, lent.flash.len()) {
                None => self.end_command(FAILED),
                Some(block) => {
                    self.end_command(OKAY);
                    self.output.extend(&lent.flash[block]);
                }
            },
            _ => {}
        }
    }
}

fn length(frame: &mut Frame, line: bool) -> bool {
    frame.length |= u8::from(line) << frame.done;
    frame.done += 1;
    if frame.done == 2 {
        let writes = frame.is(Kind::DataWrite);
        frame.enter(if writes { Field::Written } else { Field::Wait });
    }
    line
}

fn written(frame: &mut Frame, line: bool) -> bool {
    if frame.done < 8 {
        frame.written |= u8::from(line) << frame.done;
    }
    frame.done += 1;
    if frame.done == frame.width() {
        let waits = frame.is(Kind::DataWrite);
        frame.enter(if waits { Field::Wait } else { Field::Stop });
    }
    line
}

fn sent(frame: &mut Frame) -> bool {
    let high = frame.done < 8 && frame.sent >> frame.done & 1 == 1;
    frame.done += 1;
    if frame.done == frame.width() {
        frame.enter(Field::Stop);
    }
    high
}

/// Length code 0 means 256.
fn block_len(code: u8) -> usize {
    if code == 0 {
        256
    } else {
        usize::from(code)
    }
}

/// The block's bytes in the flash; none if any of them is past its end.
fn block_inside(high: u8, low: u8, code: u8, flash_len: usize) -> Option<Range<usize>> {
    let start = usize::from(high) * 256 + usize::from(low);
    let end = start + block_len(code);
    (end <= flash_len).then_some(start..end)
}
