//! The modelled target in plain Rust: a device on the other end of the wire.

mod face;

pub use face::step;

use proved::c2::{Pairs, Settings};

use crate::plain::wire::{
    check_pairs, command, ins, named, status, Ranges, Refusal, Step, BLOCK, COMMAND_OK, FPCTL, KEYS,
};

/// Bits heard of a field, lowest first.
#[derive(Clone, Copy, Default)]
struct Heard {
    value: u8,
    count: u8,
}

impl Heard {
    fn and(self, bit: u8) -> Heard {
        Heard { value: self.value | bit << self.count, count: self.count + 1 }
    }
}

/// The two frames that have a LENGTH and a WAIT.
#[derive(Clone, Copy)]
enum Access {
    Read,
    Write,
}

/// What is left of a frame after its WAIT.
#[derive(Clone, Copy)]
enum Rest {
    Written(Effect),
    Read { length: u8 },
}

/// What a frame does at its STOP.
#[derive(Clone, Copy)]
enum Effect {
    Nothing,
    SetAddress(u8),
    Write(u8),
    CountRead,
    TakeOutput,
}

/// The strobe that comes next.
#[derive(Clone, Copy)]
enum Field {
    Start,
    Ins(Heard),
    Length(Access, Heard),
    Address(Heard),
    Data(Heard),
    LongData { left: u8 },
    WaitBegins(Rest),
    Wait { zeros: u8, rest: Rest },
    Sent { value: u8, left: u8, effect: Effect },
    Stop(Effect),
}

impl Field {
    /// The strobes in which the master may drive.
    fn is_masters(self) -> bool {
        use Field::*;
        matches!(self, Ins(_) | Length(..) | Address(_) | Data(_) | LongData { .. })
    }
}

/// The byte that the Programming Interface waits for.
#[derive(Clone, Copy)]
enum Command {
    New,
    ErasePage,
    EraseConfirm { page: u8 },
    High(Access),
    Low(Access, u8),
    LengthCode(Access, usize),
    Byte { at: usize, left: usize },
    BytePastEnd { left: usize },
}

/// What waits to be read from FPDAT.
#[derive(Clone, Copy)]
enum Output {
    None,
    Status(u8),
    StatusThenBlock { at: usize, len: usize },
    Block { at: usize, len: usize },
}

/// A target without its flash and delays, which each step is lent.
#[derive(Clone)]
pub struct Target {
    settings: Settings,
    wanted: Pairs,
    address: u8,
    interface_on: bool,
    collision: bool,
    keys: usize,
    /// Of each wanted pair, whether its value was the last one written to its register since the reset.
    met: [bool; 4],
    delay_place: usize,
    field: Field,
    command: Command,
    output: Output,
    busy: u8,
    late: u8,
}

impl Target {
    pub fn fresh(settings: Settings, wanted: Pairs) -> Result<Target, Refusal> {
        settings.check()?;
        check_pairs(&wanted, settings.fpdat)?;
        Ok(Target {
            settings,
            wanted,
            address: 0,
            interface_on: false,
            collision: false,
            keys: 0,
            met: [false; 4],
            delay_place: 0,
            field: Field::Start,
            command: Command::New,
            output: Output::None,
            busy: 0,
            late: 0,
        })
    }

    pub fn collision(&self) -> bool {
        self.collision
    }

    /// One step and its reply. Not inlined: a driver calls it across a library's boundary.
    #[inline(never)]
    pub fn step(&mut self, step: u8, flash: &mut [u8], delays: &[u8]) -> Result<u8, Refusal> {
        if flash.len() != self.settings.flash_len() {
            return Err(Refusal::NoPoint);
        }
        Ok(self.reply(Step::try_from(step)?, flash, delays))
    }

    /// The reply to a step; the flash is as long as the settings say.
    #[inline]
    pub fn reply(&mut self, step: Step, flash: &mut [u8], delays: &[u8]) -> u8 {
        match step {
            Step::Released | Step::Low | Step::High => return self.strobe(step, flash, delays),
            Step::Reset => self.reset(),
            Step::Pause => self.interface_on |= self.keys == KEYS.len(),
            Step::Off => {}
        }
        1
    }

    fn reset(&mut self) {
        self.address = 0;
        self.interface_on = false;
        self.keys = 0;
        self.met = [false; 4];
        self.field = Field::Start;
        self.command = Command::New;
        self.drop_output();
    }

    fn drop_output(&mut self) {
        self.output = Output::None;
        self.busy = 0;
        self.late = 0;
    }

    fn strobe(&mut self, strobe: Step, flash: &mut [u8], delays: &[u8]) -> u8 {
        let line = u8::from(strobe != Step::Low);
        self.collision |= strobe != Step::Released && !self.field.is_masters();
        let (next, reply) = match self.field {
            Field::Start => (self.begin_frame(), 1),
            Field::Ins(heard) => (self.after_ins(heard.and(line)), line),
            Field::Length(access, heard) => (after_length(access, heard.and(line)), line),
            Field::Address(heard) => (after_address(heard.and(line)), line),
            Field::Data(heard) => (after_data(heard.and(line)), line),
            Field::LongData { left } => (after_long_data(left - 1), line),
            Field::WaitBegins(rest) => {
                let zeros = self.next_delay(delays) % self.settings.wait_limit;
                self.wait(zeros, rest, flash)
            }
            Field::Wait { zeros, rest } => self.wait(zeros, rest, flash),
            Field::Sent { value, left, effect } => (after_bit(value >> 1, left - 1, effect), value & 1),
            Field::Stop(effect) => {
                self.act(effect, flash, delays);
                (Field::Start, 1)
            }
        };
        self.field = next;
        reply
    }

    /// A frame that begins after the third key spoils the keys.
    fn begin_frame(&mut self) -> Field {
        if self.keys == KEYS.len() {
            self.keys = 0;
        }
        Field::Ins(Heard::default())
    }

    fn after_ins(&self, heard: Heard) -> Field {
        if heard.count < 2 {
            return Field::Ins(heard);
        }
        match heard.value {
            ins::DATA_READ => Field::Length(Access::Read, Heard::default()),
            ins::DATA_WRITE => Field::Length(Access::Write, Heard::default()),
            ins::ADDRESS_READ => {
                Field::Sent { value: self.address_read(), left: 8, effect: Effect::CountRead }
            }
            _ => Field::Address(Heard::default()),
        }
    }

    fn wait(&self, zeros: u8, rest: Rest, flash: &[u8]) -> (Field, u8) {
        if zeros > 0 {
            return (Field::Wait { zeros: zeros - 1, rest }, 0);
        }
        let next = match rest {
            Rest::Written(effect) => Field::Stop(effect),
            Rest::Read { length: 0 } => {
                Field::Sent { value: self.data_read(flash), left: 8, effect: Effect::TakeOutput }
            }
            Rest::Read { length } => {
                Field::Sent { value: 0, left: 8 * (length + 1), effect: Effect::Nothing }
            }
        };
        (next, 1)
    }

    fn fpdat_selected(&self) -> bool {
        self.interface_on && self.address == self.settings.fpdat
    }

    fn out_ready(&self) -> bool {
        self.busy == 0 && self.late == 0 && !matches!(self.output, Output::None)
    }

    fn address_read(&self) -> u8 {
        if !self.fpdat_selected() {
            return self.address;
        }
        let in_busy = if self.busy > 0 { status::IN_BUSY } else { 0 };
        let out_ready = if self.out_ready() { status::OUT_READY } else { 0 };
        in_busy | out_ready
    }

    fn data_read(&self, flash: &[u8]) -> u8 {
        if self.address == 0 {
            return self.settings.device_id;
        }
        if !self.fpdat_selected() || !self.out_ready() {
            return 0;
        }
        match self.output {
            Output::None => 0,
            Output::Status(status) => status,
            Output::StatusThenBlock { .. } => COMMAND_OK,
            Output::Block { at, .. } => flash[at],
        }
    }

    /// The next delay of the list, which starts again at its end.
    fn next_delay(&mut self, delays: &[u8]) -> u8 {
        let place = if self.delay_place < delays.len() { self.delay_place } else { 0 };
        self.delay_place = place + 1;
        delays.get(place).copied().unwrap_or(0)
    }

    fn act(&mut self, effect: Effect, flash: &mut [u8], delays: &[u8]) {
        match effect {
            Effect::Nothing => {}
            Effect::SetAddress(address) => self.address = address,
            Effect::Write(byte) => self.write(byte, flash, delays),
            Effect::CountRead if self.fpdat_selected() => self.count_read(),
            Effect::TakeOutput if self.fpdat_selected() && self.out_ready() => self.take_output(delays),
            Effect::CountRead | Effect::TakeOutput => {}
        }
    }

    fn write(&mut self, byte: u8, flash: &mut [u8], delays: &[u8]) {
        self.keys = match self.address {
            FPCTL if KEYS.get(self.keys) == Some(&byte) => self.keys + 1,
            FPCTL if byte == KEYS[0] => 1,
            _ => 0,
        };
        if self.fpdat_selected() {
            return self.put(byte, flash, delays);
        }
        for ((register, value), met) in named(&self.wanted).zip(&mut self.met) {
            if register == self.address {
                *met = value == byte;
            }
        }
    }

    fn prepared(&self) -> bool {
        self.met[..self.wanted.count.into()].iter().all(|&met| met)
    }

    fn count_read(&mut self) {
        if self.busy > 0 {
            self.busy -= 1;
        } else {
            self.late = self.late.saturating_sub(1);
        }
    }

    fn take_output(&mut self, delays: &[u8]) {
        self.output = match self.output {
            Output::StatusThenBlock { at, len } => Output::Block { at, len },
            Output::Block { at, len } if len > 1 => Output::Block { at: at + 1, len: len - 1 },
            _ => Output::None,
        };
        self.delay_output(delays);
    }

    fn delay_output(&mut self, delays: &[u8]) {
        if !matches!(self.output, Output::None) {
            self.late = self.next_delay(delays);
        }
    }

    fn put(&mut self, byte: u8, flash: &mut [u8], delays: &[u8]) {
        self.drop_output();
        self.busy = self.next_delay(delays);
        (self.command, self.output) = self.obey(byte, flash);
        self.delay_output(delays);
    }

    /// The command's next byte: what it waits for then, and what it answers.
    fn obey(&self, byte: u8, flash: &mut [u8]) -> (Command, Output) {
        match self.command {
            Command::New => self.new_command(byte),
            Command::ErasePage if u32::from(byte) < self.settings.page_count => {
                (Command::EraseConfirm { page: byte }, Output::Status(COMMAND_OK))
            }
            Command::EraseConfirm { page } if byte == 0 => {
                let size = self.settings.page_size as usize;
                let start = usize::from(page) * size;
                flash[start..start + size].fill(0xFF);
                (Command::New, Output::Status(COMMAND_OK))
            }
            Command::ErasePage | Command::EraseConfirm { .. } => {
                (Command::New, Output::Status(COMMAND_FAILED))
            }
            Command::High(access) => (Command::Low(access, byte), Output::None),
            Command::Low(access, high) => {
                (Command::LengthCode(access, u16::from_be_bytes([high, byte]).into()), Output::None)
            }
            Command::LengthCode(access, at) => begin_block(access, at, byte, flash.len()),
            Command::Byte { at, left } => {
                flash[at] &= byte;
                block_written(Command::Byte { at: at + 1, left: left - 1 }, left - 1, COMMAND_OK)
            }
            Command::BytePastEnd { left } => {
                block_written(Command::BytePastEnd { left: left - 1 }, left - 1, COMMAND_FAILED)
            }
        }
    }

    /// What changes flash is turned away until all wanted pairs are met.
    fn new_command(&self, byte: u8) -> (Command, Output) {
        match byte {
            command::PAGE_ERASE if self.prepared() => (Command::ErasePage, Output::Status(COMMAND_OK)),
            command::BLOCK_WRITE if self.prepared() => {
                (Command::High(Access::Write), Output::Status(COMMAND_OK))
            }
            command::BLOCK_READ => (Command::High(Access::Read), Output::Status(COMMAND_OK)),
            _ => (Command::New, Output::Status(COMMAND_FAILED)),
        }
    }
}

/// The status of a command that was not carried out.
const COMMAND_FAILED: u8 = 0x00;

fn after_length(access: Access, heard: Heard) -> Field {
    if heard.count < 2 {
        return Field::Length(access, heard);
    }
    match access {
        Access::Read => Field::WaitBegins(Rest::Read { length: heard.value }),
        Access::Write if heard.value == 0 => Field::Data(Heard::default()),
        Access::Write => Field::LongData { left: 8 * (heard.value + 1) },
    }
}

fn after_address(heard: Heard) -> Field {
    if heard.count < 8 {
        return Field::Address(heard);
    }
    Field::Stop(Effect::SetAddress(heard.value))
}

fn after_data(heard: Heard) -> Field {
    if heard.count < 8 {
        return Field::Data(heard);
    }
    Field::WaitBegins(Rest::Written(Effect::Write(heard.value)))
}

fn after_long_data(left: u8) -> Field {
    if left > 0 {
        return Field::LongData { left };
    }
    Field::WaitBegins(Rest::Written(Effect::Nothing))
}

fn after_bit(value: u8, left: u8, effect: Effect) -> Field {
    if left > 0 {
        return Field::Sent { value, left, effect };
    }
    Field::Stop(effect)
}

fn begin_block(access: Access, at: usize, code: u8, flash_len: usize) -> (Command, Output) {
    let len = if code == 0 { BLOCK } else { code.into() };
    match access {
        Access::Write if at + len > flash_len => (Command::BytePastEnd { left: len }, Output::None),
        Access::Write => (Command::Byte { at, left: len }, Output::None),
        Access::Read if at + len > flash_len => (Command::New, Output::Status(COMMAND_FAILED)),
        Access::Read => (Command::New, Output::StatusThenBlock { at, len }),
    }
}

/// The status follows a block's last byte.
fn block_written(rest: Command, left: usize, status: u8) -> (Command, Output) {
    if left > 0 {
        return (rest, Output::None);
    }
    (Command::New, Output::Status(status))
}
