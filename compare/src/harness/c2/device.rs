//! A target together with what each step lends it.
//!
//! The target is our own or the proved one: what is said of a device can be tried on either.

use crate::second::c2::frames::{End, Frame, Kind};
use crate::second::c2::interface::{FPCTL, KEYS};
use crate::second::c2::session::{Session, FIRST_STEP};
use crate::second::c2::target::{Modelled, Target};
use crate::second::numbers;
use crate::second::settings::{Pairs, Settings};

#[derive(Clone, Debug)]
pub struct Device<T = Target> {
    pub settings: Settings,
    /// what it wants before its flash is touched
    pub wanted: Pairs,
    pub target: T,
    pub flash: Vec<u8>,
    pub delays: Vec<u8>,
}

impl Device {
    /// A device with our own target.
    pub fn fresh(settings: Settings, flash: Vec<u8>, delays: Vec<u8>) -> Device {
        Device::new(settings, flash, delays)
    }
}

impl<T: Modelled> Device<T> {
    /// A device that wants the pairs of these settings.
    pub fn new(settings: Settings, flash: Vec<u8>, delays: Vec<u8>) -> Device<T> {
        Device { settings, wanted: settings.pairs, target: T::fresh(), flash, delays }
    }

    /// The reply to a step; the device's own settings and flash are in order.
    pub fn step(&mut self, step: u8) -> u8 {
        let Device { settings, wanted, target, flash, delays } = self;
        let (number, reply) = target.step(settings, wanted, flash, delays, step);
        let len = flash.len();
        assert_eq!(number, numbers::RUNNING, "{settings:?}, wanted {wanted:?}, flash of {len}, step {step}");
        reply
    }

    pub fn steps(&mut self, steps: &[u8]) -> Vec<u8> {
        steps.iter().map(|&step| self.step(step)).collect()
    }

    /// Plays one whole frame.
    pub fn frame(&mut self, kind: Kind, byte: u8) -> End {
        let mut frame = Frame::begin(kind);
        loop {
            let reply = self.step(frame.step(byte));
            if let Some(end) = frame.reply(reply == 1, self.settings.wait_limit.into()) {
                return end;
            }
        }
    }

    pub fn address_write(&mut self, address: u8) {
        self.frame(Kind::AddressWrite, address);
    }

    pub fn address_read(&mut self) -> End {
        self.frame(Kind::AddressRead, 0)
    }

    pub fn data_write(&mut self, byte: u8) {
        self.frame(Kind::DataWrite, byte);
    }

    pub fn data_read(&mut self) -> End {
        self.frame(Kind::DataRead, 0)
    }

    pub fn write_keys(&mut self) {
        self.address_write(FPCTL);
        for key in KEYS {
            self.data_write(key);
        }
    }

    /// Runs a session to its end; `seen` looks at it after each reply. Gives the replies taken.
    pub fn run(&mut self, session: &mut Session, image: &[u8], mut seen: impl FnMut(&Session, u8)) -> u64 {
        let mut step = FIRST_STEP;
        let mut taken = 0;
        while session.running() {
            let reply = self.step(step);
            step = session.reply(reply, image);
            taken += 1;
            seen(session, reply);
        }
        taken
    }
}
