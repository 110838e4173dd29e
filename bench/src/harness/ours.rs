//! The proved library, behind the same face.

use proved::c2::{self, Advanced, Opened, Pairs, Settings};
use proved::c2_target::{self, Replied, State};

use crate::harness::face::Face;

pub struct Library;

impl Face for Library {
    fn open(record: &mut [u8], image: &[u8], settings: Settings, first_page: u32) -> Opened {
        c2::open(record, image, settings, first_page)
    }

    #[inline]
    fn advance(record: &mut [u8], image: &[u8], replies: &[u8], steps: &mut [u8], place: usize) -> Advanced {
        c2::advance(record, image, replies, steps, place)
    }

    fn fresh() -> State {
        c2_target::fresh()
    }

    #[inline]
    fn step(
        settings: Settings,
        wanted: Pairs,
        state: State,
        flash: &mut [u8],
        delays: &[u8],
        step: u8,
    ) -> Replied {
        c2_target::step(settings, wanted, state, flash, delays, step)
    }
}
