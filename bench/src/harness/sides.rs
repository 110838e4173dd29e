//! The sides behind one trait, so that the same loops run them.

use proved::c2_run::{self, Run};

use crate::harness::face;
use crate::harness::job::Job;
use crate::harness::ours::Library;
use crate::plain::wire::Refusal;
use crate::plain::{self, session, target, Plain};

/// A session. No call is refused here: each is lent what the opening was lent.
pub trait Session: Sized {
    fn open(job: &Job) -> (Self, u8);
    fn advance(&mut self, reply: u8, image: &[u8]) -> u8;
    fn advance_all(&mut self, replies: &[u8], image: &[u8], steps: &mut [u8]) -> usize;
    /// The session's number, 0 while it runs, and its offset.
    fn numbers(&self, image: &[u8]) -> (u32, u32);
}

/// A modelled target.
pub trait Target {
    fn fresh(job: &Job) -> Self;
    fn step(&mut self, step: u8, flash: &mut [u8], delays: &[u8]) -> u8;
    fn collision(&self) -> bool;
}

pub trait Side {
    type Session: Session;
    type Target: Target;
    /// Runs the job from its start in one call, for at most `budget` replies.
    fn program(job: &Job, flash: &mut [u8], budget: usize) -> Run;
}

impl Side for Library {
    type Session = face::Session<Library>;
    type Target = face::Target<Library>;

    #[inline]
    fn program(job: &Job, flash: &mut [u8], budget: usize) -> Run {
        let Job { settings, first_page, image, delays, .. } = job;
        c2_run::program(*settings, *first_page, image, flash, delays, budget)
    }
}

impl Side for Plain {
    type Session = face::Session<Plain>;
    type Target = face::Target<Plain>;

    #[inline]
    fn program(job: &Job, flash: &mut [u8], budget: usize) -> Run {
        let Job { settings, first_page, image, delays, .. } = job;
        plain::program(*settings, *first_page, image, flash, delays, budget)
    }
}

/// The plain structs as they are: kept by the caller between calls, with no record and no state that could be
/// damaged.
pub struct Kept;

impl Side for Kept {
    type Session = session::Session;
    type Target = target::Target;

    #[inline]
    fn program(job: &Job, flash: &mut [u8], budget: usize) -> Run {
        Plain::program(job, flash, budget)
    }
}

fn accepted<T>(answer: Result<T, Refusal>) -> T {
    answer.unwrap_or_else(|refusal| panic!("a call was refused: {refusal:?}"))
}

impl Session for session::Session {
    fn open(job: &Job) -> (Self, u8) {
        let (session, step) = accepted(session::Session::open(job.settings, job.first_page, &job.image));
        (session, step as u8)
    }

    #[inline]
    fn advance(&mut self, reply: u8, image: &[u8]) -> u8 {
        accepted(self.advance(reply, image)) as u8
    }

    #[inline]
    fn advance_all(&mut self, replies: &[u8], image: &[u8], steps: &mut [u8]) -> usize {
        accepted(self.advance_all(replies, image, steps))
    }

    fn numbers(&self, _image: &[u8]) -> (u32, u32) {
        self.numbers()
    }
}

impl Target for target::Target {
    fn fresh(job: &Job) -> Self {
        accepted(target::Target::fresh(job.settings, job.wanted))
    }

    #[inline]
    fn step(&mut self, step: u8, flash: &mut [u8], delays: &[u8]) -> u8 {
        accepted(self.step(step, flash, delays))
    }

    fn collision(&self) -> bool {
        self.collision()
    }
}
