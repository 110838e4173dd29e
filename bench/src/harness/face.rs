//! The face of include/c2.h, and a driver's session and target over any code that has this face.

use std::marker::PhantomData;
use std::slice;

use proved::c2::{Advanced, Opened, Pairs, Settings, RECORD_BYTES};
use proved::c2_target::{Replied, State};

use crate::harness::job::Job;
use crate::harness::sides;
use crate::plain::wire::Step;

/// The calls, which take any input and refuse by number.
pub trait Face {
    fn open(record: &mut [u8], image: &[u8], settings: Settings, first_page: u32) -> Opened;
    fn advance(record: &mut [u8], image: &[u8], replies: &[u8], steps: &mut [u8], place: usize) -> Advanced;
    fn fresh() -> State;
    fn step(
        settings: Settings,
        wanted: Pairs,
        state: State,
        flash: &mut [u8],
        delays: &[u8],
        step: u8,
    ) -> Replied;
}

#[cold]
fn refused(number: u32) -> ! {
    panic!("a call was refused with number {number}")
}

/// A session as a driver keeps it: the record alone.
pub struct Session<F> {
    pub record: [u8; RECORD_BYTES],
    face: PhantomData<F>,
}

impl<F: Face> Session<F> {
    #[inline]
    fn call(&mut self, image: &[u8], replies: &[u8], steps: &mut [u8]) -> Advanced {
        let advanced = F::advance(&mut self.record, image, replies, steps, 0);
        if let 6..=8 = advanced.number {
            refused(advanced.number);
        }
        advanced
    }
}

impl<F: Face> sides::Session for Session<F> {
    fn open(job: &Job) -> (Self, u8) {
        let mut record = [0; RECORD_BYTES];
        let opened = F::open(&mut record, &job.image, job.settings, job.first_page);
        if opened.number != 0 {
            refused(opened.number);
        }
        (Session { record, face: PhantomData }, opened.step as u8)
    }

    /// The step is `Off` unless the call writes another: an ended session takes no reply.
    #[inline]
    fn advance(&mut self, reply: u8, image: &[u8]) -> u8 {
        let mut step = Step::Off as u8;
        self.call(image, &[reply], slice::from_mut(&mut step));
        step
    }

    #[inline]
    fn advance_all(&mut self, replies: &[u8], image: &[u8], steps: &mut [u8]) -> usize {
        self.call(image, replies, steps).taken as usize
    }

    /// A call without replies repeats them.
    fn numbers(&self, image: &[u8]) -> (u32, u32) {
        let mut copy = Session::<F> { record: self.record, face: PhantomData };
        let advanced = copy.call(image, &[], &mut []);
        (advanced.number, advanced.offset)
    }
}

/// A target whose state is handed in and back by value at each step.
pub struct Target<F> {
    settings: Settings,
    wanted: Pairs,
    pub state: State,
    face: PhantomData<F>,
}

impl<F: Face> sides::Target for Target<F> {
    fn fresh(job: &Job) -> Self {
        Target { settings: job.settings, wanted: job.wanted, state: F::fresh(), face: PhantomData }
    }

    #[inline]
    fn step(&mut self, step: u8, flash: &mut [u8], delays: &[u8]) -> u8 {
        let replied = F::step(self.settings, self.wanted, self.state, flash, delays, step);
        if replied.number != 0 {
            refused(replied.number);
        }
        self.state = replied.target;
        replied.reply as u8
    }

    fn collision(&self) -> bool {
        self.state.collision == 1
    }
}
