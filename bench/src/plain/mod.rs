//! The same calls in plain Rust.

pub mod dump;
pub mod hex;
pub mod radio;
pub mod session;
pub mod target;
pub mod wire;

use proved::c2::{Advanced, Opened, Pairs, Settings};
use proved::c2_run::Run;
use proved::c2_target::{Replied, State};

use crate::harness::face::Face;
use session::Session;
use target::Target;
use wire::{Ranges, Refusal, Step};

pub struct Plain;

impl Face for Plain {
    fn open(record: &mut [u8], image: &[u8], settings: Settings, first_page: u32) -> Opened {
        session::open(record, image, settings, first_page)
    }

    #[inline]
    fn advance(record: &mut [u8], image: &[u8], replies: &[u8], steps: &mut [u8], place: usize) -> Advanced {
        session::advance(record, image, replies, steps, place)
    }

    fn fresh() -> State {
        State::default()
    }

    #[inline]
    fn step(
        settings: Settings,
        wanted: Pairs,
        state: State,
        flash: &mut [u8],
        delays: &[u8],
        step: u8,
    ) -> Replied {
        target::step(settings, wanted, state, flash, delays, step)
    }
}

/// A whole run in one call, against a target that wants no pairs: what is lent is tested once, and nothing is
/// packed between two steps.
#[inline(never)]
pub fn program(
    settings: Settings,
    first_page: u32,
    image: &[u8],
    flash: &mut [u8],
    delays: &[u8],
    budget: usize,
) -> Run {
    ran(settings, first_page, image, flash, delays, budget)
        .unwrap_or_else(|refusal| Run { number: refusal.into(), ..Run::default() })
}

fn ran(
    settings: Settings,
    first_page: u32,
    image: &[u8],
    flash: &mut [u8],
    delays: &[u8],
    budget: usize,
) -> Result<Run, Refusal> {
    let (mut session, mut step) = Session::open(settings, first_page, image)?;
    if flash.len() != settings.flash_len() {
        return Err(Refusal::NoPoint);
    }
    let mut target = Target::fresh(settings, Pairs::NONE)?;
    let mut replies = 0;
    while step != Step::Off && replies < budget {
        let reply = target.reply(step, flash, delays);
        step = session.take(reply, image);
        replies += 1;
    }
    let (number, offset) = session.numbers();
    Ok(Run { number, offset, replies, collision: target.collision() })
}
