//! A master that says anything to both targets: the commands, with other frames, odd strobes and refused
//! steps between them. Where a frame goes on is told by our own target.

use crate::harness::c2::driven::any_settings;
use crate::harness::c2::model::Setup;
use crate::harness::c2::pairs::any_pairs;
use crate::harness::c2::twins::Twins;
use crate::harness::random::Random;
use crate::harness::report::Failure;
use crate::second::c2::frames::Kind;
use crate::second::c2::interface::{BLOCK_READ, BLOCK_WRITE, FPCTL, IN_BUSY, KEYS, OUT_READY, PAGE_ERASE};
use crate::second::c2::steps::{driven, HIGH, LOW, OFF, PAUSE, RELEASED, RESET};

/// More reads than d and e together ever ask for.
const PATIENT: usize = 520;

pub struct Master<'a> {
    pub twins: Twins,
    pub random: &'a mut Random,
    /// one step in so many goes wrong, none if this is 0
    pub wrong: usize,
    /// one frame in so many is followed by another that does not belong there, none if this is 0
    pub astray: usize,
    /// how many reads a poll has before it gives up
    patience: usize,
}

/// A frame to be said; only data frames have a LENGTH that is not 0.
#[derive(Clone, Copy, Debug)]
struct Said {
    kind: Kind,
    length: u8,
    data: u32,
}

impl Master<'_> {
    pub fn new(twins: Twins, random: &mut Random) -> Master<'_> {
        let patience = random.pick(&[2, 20, 20, PATIENT]);
        Master { twins, random, wrong: 0, astray: 0, patience }
    }

    fn now_and_then(&mut self, one_in: usize) -> bool {
        one_in > 0 && self.random.below(one_in) == 0
    }

    fn step(&mut self, step: u8) -> Result<u8, Failure> {
        if self.now_and_then(self.wrong) {
            return self.wrong_step(step);
        }
        self.twins.step(step)
    }

    /// Another strobe instead, or something before it.
    fn wrong_step(&mut self, step: u8) -> Result<u8, Failure> {
        if self.random.below(3) == 0 {
            return self.twins.step(self.random.pick(&[RELEASED, LOW, HIGH]));
        }
        let unknown = self.random.pick(&[1, 7, 8, 64, 128, 255]);
        let before = self.random.pick(&[step, OFF, PAUSE, RESET, unknown]);
        self.twins.step(before)?;
        if self.random.below(4) == 0 {
            self.refused_step()?;
        }
        self.twins.step(step)
    }

    /// A step that is lent what it must refuse.
    pub fn refused_step(&mut self) -> Result<(), Failure> {
        let Master { twins, random, .. } = self;
        let step = if random.below(3) == 0 { random.byte() } else { random.below(7) as u8 };
        let len = twins.flash().len();
        if random.below(2) == 0 {
            let wrong_lens = [0, 1, len - 512, len - 1, len + 1, len + 512, 2 * len];
            let wrong_len = random.pick(&wrong_lens);
            let flash = random.bytes(wrong_len);
            return twins.refused(&twins.setup(), &flash, step);
        }
        let setup = bad_setup(random, &twins.setup());
        let flash_len = random.pick(&[0, 512, len]);
        let flash = random.bytes(flash_len);
        twins.refused(&setup, &flash, step)
    }

    fn drive(&mut self, value: u32, width: u32) -> Result<(), Failure> {
        for bit in 0..width {
            let byte = (value >> (bit / 8 * 8)) as u8;
            self.step(driven(byte, bit % 8))?;
        }
        Ok(())
    }

    /// Gives the first byte sampled.
    fn sample(&mut self, width: u32) -> Result<u8, Failure> {
        let mut sampled = 0;
        for bit in 0..width {
            let reply = self.step(RELEASED)?;
            if bit < 8 {
                sampled |= reply << bit;
            }
        }
        Ok(sampled)
    }

    /// Where a step went wrong there may be no WAIT here, and no end to the zeros.
    fn wait(&mut self) -> Result<(), Failure> {
        for _ in 0..self.twins.settings.wait_limit {
            if self.step(RELEASED)? == 1 {
                break;
            }
        }
        Ok(())
    }

    /// Says a frame; gives the byte sampled, 0 where none is.
    fn say(&mut self, said: Said) -> Result<u8, Failure> {
        let Said { kind, length, data } = said;
        let width = 8 * (u32::from(length) + 1);
        self.step(RELEASED)?;
        self.drive(u32::from(kind.ins()), 2)?;
        if kind.waits() {
            self.drive(u32::from(length), 2)?;
        }
        let mut sampled = 0;
        match kind {
            Kind::AddressWrite => self.drive(data, width)?,
            Kind::AddressRead => sampled = self.sample(width)?,
            Kind::DataWrite => {
                self.drive(data, width)?;
                self.wait()?;
            }
            Kind::DataRead => {
                self.wait()?;
                sampled = self.sample(width)?;
            }
        }
        self.step(RELEASED)?;
        self.after_frame()?;
        Ok(sampled)
    }

    /// A frame that went wrong is mostly brought to its end.
    fn after_frame(&mut self) -> Result<(), Failure> {
        if self.twins.in_frame() && self.random.below(4) > 0 {
            self.finish_frame()?;
        }
        self.twins.compare_flash()
    }

    pub fn finish_frame(&mut self) -> Result<(), Failure> {
        while self.twins.in_frame() {
            let step = self.random.pick(&[RELEASED, RELEASED, LOW, HIGH]);
            self.twins.step(step)?;
        }
        Ok(())
    }

    fn frame(&mut self, kind: Kind, byte: u8) -> Result<u8, Failure> {
        let sampled = self.say(Said { kind, length: 0, data: u32::from(byte) })?;
        if self.now_and_then(self.astray) {
            self.stray_frame()?;
        }
        Ok(sampled)
    }

    /// A few puts and reads, whatever the interface waits for.
    pub fn puts_and_gets(&mut self) -> Result<(), Failure> {
        for _ in 0..self.random.between(1, 6) {
            if self.random.below(2) == 0 {
                self.get()?;
            } else {
                let byte = self.any_byte();
                self.put(byte)?;
            }
        }
        Ok(())
    }

    /// Any frame, to any address, with any LENGTH, or a write to a wanted register.
    pub fn stray_frame(&mut self) -> Result<(), Failure> {
        let wanted: Vec<_> = self.twins.wanted.named().collect();
        if !wanted.is_empty() && self.random.below(3) == 0 {
            let (register, value) = self.random.pick(&wanted);
            self.select(register)?;
            let other = self.any_byte();
            let length = self.random.pick(&[0, 0, 0, 0, 1, 3]);
            let data = u32::from(self.random.pick(&[value, value, other]));
            self.say(Said { kind: Kind::DataWrite, length, data })?;
            return self.select(self.twins.settings.fpdat);
        }
        let kind = self.random.pick(&Kind::ALL);
        let length = if kind.waits() { self.random.pick(&[0, 0, 0, 1, 2, 3]) } else { 0 };
        let data = u32::from(self.any_byte()) | (self.random.next() as u32) << 8;
        self.say(Said { kind, length, data })?;
        if kind == Kind::AddressWrite && self.random.below(3) > 0 {
            return self.select(self.twins.settings.fpdat);
        }
        Ok(())
    }

    /// A byte that means something somewhere, or any.
    fn any_byte(&mut self) -> u8 {
        let fpdat = self.twins.settings.fpdat;
        let known = [0x00, 0x01, 0x02, 0x04, fpdat, BLOCK_READ, BLOCK_WRITE, PAGE_ERASE];
        let wanted: Vec<_> =
            self.twins.wanted.named().flat_map(|(register, value)| [register, value]).collect();
        match self.random.below(12) {
            0..=3 => self.random.byte(),
            4..=5 if !wanted.is_empty() => self.random.pick(&wanted),
            _ => self.random.pick(&known),
        }
    }

    fn select(&mut self, address: u8) -> Result<(), Failure> {
        self.say(Said { kind: Kind::AddressWrite, length: 0, data: u32::from(address) })?;
        Ok(())
    }

    /// Turns the interface on, mostly, and writes what the device wants, before or after.
    pub fn connect(&mut self) -> Result<(), Failure> {
        if self.random.below(3) > 0 {
            self.step(RESET)?;
        }
        let before = self.random.below(8) == 0;
        if before {
            self.prepare()?;
        }
        self.frame(Kind::AddressWrite, FPCTL)?;
        for key in KEYS {
            self.frame(Kind::DataWrite, key)?;
            self.slip()?;
        }
        self.step(PAUSE)?;
        if !before {
            self.prepare()?;
        }
        self.frame(Kind::AddressWrite, self.twins.settings.fpdat)?;
        if self.random.below(3) == 0 {
            // nothing of an earlier command may show
            self.get()?;
        }
        Ok(())
    }

    /// Writes the wanted pairs, in any order; now and then one of them is left out or written otherwise.
    fn prepare(&mut self) -> Result<(), Failure> {
        let mut wanted: Vec<_> = self.twins.wanted.named().collect();
        if !wanted.is_empty() {
            let by = self.random.below(wanted.len());
            wanted.rotate_left(by);
        }
        for (register, value) in wanted {
            match self.random.below(24) {
                0 => continue,
                1 => self.write(register, value ^ 1)?,
                2 => {
                    self.write(register, value ^ 0x80)?;
                    self.write(register, value)?;
                }
                _ => self.write(register, value)?,
            }
        }
        Ok(())
    }

    fn write(&mut self, register: u8, value: u8) -> Result<(), Failure> {
        self.frame(Kind::AddressWrite, register)?;
        self.frame(Kind::DataWrite, value).map(|_| ())
    }

    /// Now and then something else between the key writes, or after them.
    fn slip(&mut self) -> Result<(), Failure> {
        match self.random.below(48) {
            0 => self.step(OFF).map(|_| ()),
            1 => self.step(PAUSE).map(|_| ()),
            2 => self.step(RESET).map(|_| ()),
            3 => {
                self.step(RESET)?;
                self.select(FPCTL)
            }
            4 => {
                let key = self.random.pick(&KEYS);
                self.frame(Kind::DataWrite, key).map(|_| ())
            }
            5 => {
                let (address, byte) = (self.any_byte(), self.any_byte());
                self.select(address)?;
                self.frame(Kind::DataWrite, byte)?;
                self.select(FPCTL)
            }
            6 => self.stray_frame(),
            _ => Ok(()),
        }
    }

    /// Reads the status until it is satisfied, or gives up.
    fn poll(&mut self, satisfied: impl Fn(u8) -> bool) -> Result<(), Failure> {
        for _ in 0..self.patience {
            if satisfied(self.frame(Kind::AddressRead, 0)?) {
                break;
            }
        }
        Ok(())
    }

    fn put(&mut self, byte: u8) -> Result<(), Failure> {
        self.frame(Kind::DataWrite, byte)?;
        match self.random.below(4) {
            0 => self.poll(|status| status & IN_BUSY == 0),
            1 => self.frame(Kind::AddressRead, 0).map(|_| ()),
            _ => Ok(()),
        }
    }

    /// A read of the output: early, or as soon as it is ready.
    fn get(&mut self) -> Result<(), Failure> {
        if self.random.below(3) > 0 {
            self.poll(|status| status & OUT_READY != 0)?;
        }
        self.frame(Kind::DataRead, 0)?;
        Ok(())
    }

    /// The status is read, or left for the next put to drop.
    fn status(&mut self) -> Result<(), Failure> {
        if self.random.below(3) == 0 {
            return Ok(());
        }
        self.get()
    }

    fn begin(&mut self, command: u8) -> Result<(), Failure> {
        self.put(command)?;
        self.status()
    }

    pub fn command(&mut self) -> Result<(), Failure> {
        match self.random.below(7) {
            0..=1 => self.erase(),
            2..=3 => self.block_write(),
            4..=5 => self.block_read(),
            _ => {
                let byte = self.random.byte();
                self.begin(byte)
            }
        }
    }

    fn erase(&mut self) -> Result<(), Failure> {
        self.begin(PAGE_ERASE)?;
        let count = self.twins.settings.page_count as usize;
        let inside = self.random.below(count);
        let page = self.random.pick(&[inside, inside, inside, count - 1, count, 255]);
        self.put(page as u8)?;
        self.status()?;
        let other = self.random.byte();
        let confirm = self.random.pick(&[0x00, 0x00, 0x00, other]);
        self.put(confirm)?;
        self.status()
    }

    /// Puts a block's address and length code; gives the bytes that it has.
    fn block_place(&mut self) -> Result<usize, Failure> {
        let any = self.random.byte();
        let code = self.random.pick(&[0, 1, 2, 3, 5, 255, any % 32, any]);
        let len = if code == 0 { 256 } else { usize::from(code) };
        let flash_len = self.twins.flash().len();
        let inside = self.random.below(flash_len - len + 1);
        let anywhere = self.random.below(65_536);
        let last = flash_len - len;
        let address =
            self.random.pick(&[inside, inside, inside, last, last + 1, flash_len - 1, flash_len, anywhere]);
        self.put((address >> 8) as u8)?;
        self.put(address as u8)?;
        self.put(code)?;
        Ok(len)
    }

    fn block_write(&mut self) -> Result<(), Failure> {
        self.begin(BLOCK_WRITE)?;
        let len = self.block_place()?;
        for _ in 0..len {
            let byte = self.random.byte();
            self.put(byte)?;
        }
        self.status()
    }

    /// Some of the output may be left for the next put to drop.
    fn block_read(&mut self) -> Result<(), Failure> {
        self.begin(BLOCK_READ)?;
        let len = self.block_place()?;
        self.status()?;
        let some = self.random.below(len + 1);
        let reads = self.random.pick(&[len, len, len + 1, some]);
        for _ in 0..reads {
            self.get()?;
        }
        Ok(())
    }

    /// Steps without any order.
    pub fn noise(&mut self, count: usize) -> Result<(), Failure> {
        for _ in 0..count {
            let step = match self.random.below(64) {
                0 => self.random.byte(),
                1 => RESET,
                2..=3 => PAUSE,
                4..=5 => OFF,
                _ => self.random.pick(&[RELEASED, LOW, HIGH]),
            };
            self.twins.step(step)?;
        }
        self.twins.compare_flash()
    }
}

/// Settings or wanted pairs with a fault.
fn bad_setup(random: &mut Random, good: &Setup) -> Setup {
    loop {
        let settings = if random.below(3) == 0 { good.settings } else { any_settings(random) };
        let wanted = if random.below(3) == 0 { good.wanted } else { any_pairs(random, settings.fpdat) };
        let setup = Setup { settings, wanted };
        if setup.refusal().is_some() {
            return setup;
        }
    }
}
