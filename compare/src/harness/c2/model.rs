//! The proved target's steps, on the flash where it stands or on fresh memory.

use std::ptr;

use proved::c2_target::{self, c2_target_step, Replied, State};

use crate::harness::lent::{first_stray, Lent};
use crate::second::c2::target::Modelled;
use crate::second::settings::{Pairs, Settings};

/// What a target is lent by value: settings and the pairs that it wants.
#[derive(Clone, Copy, Debug, PartialEq, Eq)]
pub struct Setup {
    pub settings: Settings,
    pub wanted: Pairs,
}

impl Setup {
    /// The number by which a target refuses them.
    pub fn refusal(&self) -> Option<u32> {
        self.settings.refusal().or_else(|| self.wanted.refusal(self.settings.fpdat))
    }
}

/// A step on the flash where it stands.
pub fn step(setup: &Setup, state: &State, flash: &mut [u8], delays: &[u8], step: u8) -> Replied {
    c2_target::step((&setup.settings).into(), (&setup.wanted).into(), *state, flash, delays, step)
}

/// A step that is lent no delays: null, with length 0.
pub fn step_without_delays(setup: &Setup, state: &State, flash: &mut [u8], step: u8) -> Replied {
    let (settings, wanted) = ((&setup.settings).into(), (&setup.wanted).into());
    let (flash_start, flash_len) = (flash.as_mut_ptr(), flash.len());
    // SAFETY: the flash is a slice; a pointer with length 0 is not followed.
    unsafe { c2_target_step(settings, wanted, *state, flash_start, flash_len, ptr::null(), 0, step) }
}

/// A step that is lent nothing at all: every length is 0 and every pointer null.
pub fn step_on_nothing(setup: &Setup, state: &State, step: u8) -> Replied {
    let (settings, wanted) = ((&setup.settings).into(), (&setup.wanted).into());
    // SAFETY: a pointer with length 0 is not followed.
    unsafe { c2_target_step(settings, wanted, *state, ptr::null_mut(), 0, ptr::null(), 0, step) }
}

/// What came back from a step on fresh memory.
pub struct Stepped {
    pub replied: Replied,
    pub flash: Vec<u8>,
    /// what was written though no step may write it
    pub stray: Option<&'static str>,
}

/// A step that is lent fresh memory, which is garbage and then gone when it has returned.
pub fn step_lent(setup: &Setup, state: &State, flash: &[u8], delays: &[u8], step: u8) -> Stepped {
    let (mut flash, delays) = (Lent::copy(flash), Lent::copy(delays));
    let replied = self::step(setup, state, flash.bytes_mut(), delays.bytes(), step);
    let stray = first_stray(&[(flash.guards_kept(), "beside the flash"), (delays.kept(), "the delays")]);
    Stepped { replied, flash: flash.bytes().to_vec(), stray }
}

/// The proved target as a device has it.
#[derive(Clone, Copy, Debug, PartialEq, Eq)]
pub struct Proved(pub State);

impl Modelled for Proved {
    fn fresh() -> Proved {
        Proved(c2_target::fresh())
    }

    fn step(
        &mut self,
        settings: &Settings,
        wanted: &Pairs,
        flash: &mut [u8],
        delays: &[u8],
        step: u8,
    ) -> (u32, u8) {
        let setup = Setup { settings: *settings, wanted: *wanted };
        let replied = self::step(&setup, &self.0, flash, delays, step);
        self.0 = replied.target;
        // a reply too wide for a byte is none that a target has
        (replied.number, u8::try_from(replied.reply).unwrap_or(u8::MAX))
    }

    fn collision(&self) -> bool {
        self.0.collision != 0
    }
}
