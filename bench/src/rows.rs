//! The rows of the table: what one repetition does. Each loop is written once and run for every side.

use std::hint::black_box;
use std::marker::PhantomData;
use std::ops::Range;

use crate::harness::job::{Job, Recording, Wired, OFF};
use crate::harness::measure::Work;
use crate::harness::sides::{Session, Side, Target};

/// Replies to a call in the row of many, and in that of few.
const MANY: usize = 4096;
const FEW: usize = 64;

#[derive(Clone, Copy)]
pub enum Row {
    Many,
    Few,
    One,
    Target,
    Loop,
    Program,
}

impl Row {
    pub const ALL: [Row; 6] = [Row::Many, Row::Few, Row::One, Row::Target, Row::Loop, Row::Program];
    /// Those of the structs that the caller keeps.
    pub const KEPT: [Row; 4] = [Row::Many, Row::One, Row::Target, Row::Loop];

    /// The name on the command line.
    pub fn name(self) -> &'static str {
        match self {
            Row::Many => "many",
            Row::Few => "few",
            Row::One => "one",
            Row::Target => "target",
            Row::Loop => "loop",
            Row::Program => "program",
        }
    }

    /// The name in the table.
    pub fn title(self) -> &'static str {
        match self {
            Row::Many => "session, 4,096 replies a call",
            Row::Few => "session, 64 replies a call",
            Row::One => "session, one reply a call",
            Row::Target => "target",
            Row::Loop => "whole loop, call by call",
            Row::Program => "whole loop in one call",
        }
    }

    pub fn work<'a, S: Side + 'a>(self, job: &'a Job, recording: &'a Recording) -> Box<dyn Work + 'a> {
        match self {
            Row::Many => Box::new(Many::<S::Session, MANY>::new(job, recording)),
            Row::Few => Box::new(Many::<S::Session, FEW>::new(job, recording)),
            Row::One => Box::new(One::<S::Session>::new(job, recording)),
            Row::Target => Box::new(Alone::<S::Target>::new(job, recording)),
            Row::Loop => Box::new(Whole::<S>::new(job)),
            Row::Program => Box::new(Program::<S>::new(job)),
        }
    }
}

/// A session given the recorded replies, so many to a call.
struct Many<'a, S, const REPLIES: usize> {
    job: &'a Job,
    recording: &'a Recording,
    session: S,
    steps: [u8; REPLIES],
}

impl<'a, S: Session, const REPLIES: usize> Many<'a, S, REPLIES> {
    fn new(job: &'a Job, recording: &'a Recording) -> Self {
        Many { job, recording, session: S::open(job).0, steps: [0; REPLIES] }
    }
}

impl<S: Session, const REPLIES: usize> Work for Many<'_, S, REPLIES> {
    fn restart(&mut self) {
        *self = Many::new(self.job, self.recording);
    }

    fn run(&mut self, piece: Range<usize>) {
        for replies in self.recording.replies[piece].chunks(REPLIES) {
            let taken = self.session.advance_all(replies, &self.job.image, &mut self.steps);
            black_box(&self.steps[..taken]);
        }
    }
}

/// A session given the recorded replies, one to a call.
struct One<'a, S> {
    job: &'a Job,
    recording: &'a Recording,
    session: S,
}

impl<'a, S: Session> One<'a, S> {
    fn new(job: &'a Job, recording: &'a Recording) -> Self {
        One { job, recording, session: S::open(job).0 }
    }
}

impl<S: Session> Work for One<'_, S> {
    fn restart(&mut self) {
        *self = One::new(self.job, self.recording);
    }

    fn run(&mut self, piece: Range<usize>) {
        for &reply in &self.recording.replies[piece] {
            black_box(self.session.advance(reply, &self.job.image));
        }
    }
}

/// A target given the recorded steps, one to a call.
struct Alone<'a, T> {
    job: &'a Job,
    recording: &'a Recording,
    target: T,
    flash: Vec<u8>,
}

impl<'a, T: Target> Alone<'a, T> {
    fn new(job: &'a Job, recording: &'a Recording) -> Self {
        Alone { job, recording, target: T::fresh(job), flash: job.blank_flash() }
    }
}

impl<T: Target> Work for Alone<'_, T> {
    fn restart(&mut self) {
        *self = Alone::new(self.job, self.recording);
    }

    fn run(&mut self, piece: Range<usize>) {
        for &step in &self.recording.steps[piece] {
            black_box(self.target.step(step, &mut self.flash, &self.job.delays));
        }
    }
}

/// A session and a target together, one reply to a call.
struct Whole<'a, S: Side> {
    job: &'a Job,
    wired: Wired<S>,
}

impl<'a, S: Side> Whole<'a, S> {
    fn new(job: &'a Job) -> Self {
        Whole { job, wired: Wired::new(job) }
    }
}

impl<S: Side> Work for Whole<'_, S> {
    fn restart(&mut self) {
        self.wired = Wired::new(self.job);
    }

    fn run(&mut self, piece: Range<usize>) {
        for _ in piece {
            if self.wired.step == OFF {
                break;
            }
            black_box(self.wired.turn(self.job));
        }
    }
}

/// A session and a target together in one call, which starts anew at every piece: it has no place to go on
/// from.
struct Program<'a, S> {
    job: &'a Job,
    flash: Vec<u8>,
    side: PhantomData<S>,
}

impl<'a, S: Side> Program<'a, S> {
    fn new(job: &'a Job) -> Self {
        Program { job, flash: job.blank_flash(), side: PhantomData }
    }
}

impl<S: Side> Work for Program<'_, S> {
    fn restart(&mut self) {
        self.flash.fill(0);
    }

    fn run(&mut self, piece: Range<usize>) {
        black_box(S::program(self.job, &mut self.flash, piece.len()));
    }
}
