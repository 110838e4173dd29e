//! Targets given frames that no session sends, and stray steps: all sides must reply alike.

use proved::c2::{Pairs, Settings};
use proved::c2_target::State;

use crate::checks::damage::{Damage, Held};
use crate::harness::face::Face;
use crate::harness::job::Random;
use crate::harness::ours::Library;
use crate::plain::target;
use crate::plain::wire::{command, ins, named, Ranges, FPCTL, KEYS};
use crate::plain::Plain;

const TARGETS: u64 = 20;
const FRAMES: usize = 5_000;

/// Bytes that mean something to the target come more often than others.
const BYTES: [u8; 7] =
    [0x00, 0x01, 0x02, 0x04, command::BLOCK_READ, command::BLOCK_WRITE, command::PAGE_ERASE];

/// One step in so many has its state damaged, for a call of its own.
const DAMAGED: u32 = 8;

pub fn targets_agree() -> Result<(), String> {
    let mut damage = Damage::new(0);
    for seed in 0..TARGETS {
        Trio::new(seed, &mut damage).run().map_err(|words| format!("target {seed}: {words}"))?;
    }
    damage.enough()
}

/// The plain target as a struct that is kept, and the state that both faces have.
struct Trio<'a> {
    random: Random,
    damage: &'a mut Damage,
    settings: Settings,
    wanted: Pairs,
    delays: Vec<u8>,
    kept: target::Target,
    state: State,
    kept_flash: Vec<u8>,
    plain_flash: Vec<u8>,
    our_flash: Vec<u8>,
}

impl Trio<'_> {
    fn new(seed: u64, damage: &mut Damage) -> Trio<'_> {
        let mut random = Random::new(seed);
        let fpdat = 3 + random.below(253) as u8;
        let settings = Settings {
            device_id: 0x04,
            fpdat,
            page_size: 512 << random.below(2),
            page_count: 1 + random.below(4),
            wait_limit: random.wait_limit(),
            pairs: random.pairs(fpdat),
        };
        let wanted = random.pairs(fpdat);
        let flash: Vec<u8> = (0..settings.flash_len()).map(|_| random.next() as u8).collect();
        Trio {
            damage,
            settings,
            wanted,
            delays: (0..random.below(4)).map(|_| random.below(30) as u8).collect(),
            kept: target::Target::fresh(settings, wanted).expect("the settings are in range"),
            state: Library::fresh(),
            kept_flash: flash.clone(),
            plain_flash: flash.clone(),
            our_flash: flash,
            random,
        }
    }

    fn run(&mut self) -> Result<(), String> {
        self.turn_on()?;
        for _ in 0..FRAMES {
            self.frame()?;
        }
        let same = [&self.kept_flash, &self.plain_flash] == [&self.our_flash; 2];
        let same_mark = u8::from(self.kept.collision()) == self.state.collision;
        (same && same_mark).then_some(()).ok_or("the flash or the collision mark differs".into())
    }

    /// One frame; now and then the interface is reset and turned on again.
    fn frame(&mut self) -> Result<(), String> {
        match self.random.below(64) {
            0 => {
                let address = self.address();
                self.address_write(address)
            }
            1 => self.turn_on(),
            2..=24 => {
                let byte = self.byte();
                self.data_write(byte)
            }
            25..=44 => self.address_read(),
            _ => self.data_read(),
        }
    }

    fn address(&mut self) -> u8 {
        let register = self.wanted.registers[self.random.below(4) as usize];
        [0, FPCTL, register, self.settings.fpdat, self.settings.fpdat][self.random.below(5) as usize]
    }

    fn byte(&mut self) -> u8 {
        let any = self.random.next() as u8;
        *BYTES.get(self.random.below(12) as usize).unwrap_or(&any)
    }

    /// LENGTH is seldom other than 0.
    fn length(&mut self) -> u8 {
        self.random.below(64).saturating_sub(60) as u8
    }

    /// The first key twice changes nothing; a frame after the last key spoils them all.
    fn turn_on(&mut self) -> Result<(), String> {
        self.step(4)?;
        self.address_write(FPCTL)?;
        if self.random.below(4) == 0 {
            self.data_write(KEYS[0])?;
        }
        KEYS.into_iter().try_for_each(|key| self.data_write(key))?;
        if self.random.below(4) == 0 {
            self.address_read()?;
        }
        self.step(5)?;
        if self.random.below(4) > 0 {
            self.prepare()?;
        }
        self.address_write(self.settings.fpdat)
    }

    /// Writes what the device wants.
    fn prepare(&mut self) -> Result<(), String> {
        let pairs: Vec<_> = named(&self.wanted).collect();
        pairs.into_iter().try_for_each(|(register, value)| {
            self.address_write(register)?;
            self.data_write(value)
        })
    }

    fn address_write(&mut self, address: u8) -> Result<(), String> {
        self.begin(ins::ADDRESS_WRITE)?;
        self.drive(address, 8)?;
        self.release(1)
    }

    fn address_read(&mut self) -> Result<(), String> {
        self.begin(ins::ADDRESS_READ)?;
        self.release(8 + 1)
    }

    fn data_write(&mut self, byte: u8) -> Result<(), String> {
        let length = self.length();
        self.begin(ins::DATA_WRITE)?;
        self.drive(length, 2)?;
        (0..=length).try_for_each(|_| self.drive(byte, 8))?;
        self.wait()?;
        self.release(1)
    }

    fn data_read(&mut self) -> Result<(), String> {
        let length = self.length();
        self.begin(ins::DATA_READ)?;
        self.drive(length, 2)?;
        self.wait()?;
        self.release(8 * (length + 1) + 1)
    }

    fn begin(&mut self, ins: u8) -> Result<(), String> {
        self.release(1)?;
        self.drive(ins, 2)
    }

    fn drive(&mut self, value: u8, bits: u8) -> Result<(), String> {
        (0..bits).try_for_each(|bit| self.step(2 + (value >> bit & 1)).map(drop))
    }

    fn release(&mut self, strobes: u8) -> Result<(), String> {
        (0..strobes).try_for_each(|_| self.step(0).map(drop))
    }

    fn wait(&mut self) -> Result<(), String> {
        while self.step(0)? == 0 {}
        Ok(())
    }

    /// The step on all sides; seldom a stray one in its place, which may be no step at all.
    fn step(&mut self, step: u8) -> Result<u8, String> {
        if self.random.below(DAMAGED) == 0 {
            let Trio { settings, wanted, state, .. } = *self;
            let held = Held { settings, wanted, state, flash: self.our_flash.clone() };
            self.damage.state(held, &self.delays)?;
        }
        let step = if self.random.below(1000) == 0 { self.random.below(9) as u8 } else { step };
        let kept = self.kept.step(step, &mut self.kept_flash, &self.delays);
        let plain =
            Plain::step(self.settings, self.wanted, self.state, &mut self.plain_flash, &self.delays, step);
        let ours =
            Library::step(self.settings, self.wanted, self.state, &mut self.our_flash, &self.delays, step);
        let kept = kept.map_or_else(|refusal| (refusal.into(), 1), |reply| (0, reply.into()));
        if plain != ours || kept != (ours.number, ours.reply) {
            return Err(format!("step {step}: kept {kept:?}, plain {plain:?}, ours {ours:?}"));
        }
        self.state = ours.target;
        Ok(ours.reply as u8)
    }
}
