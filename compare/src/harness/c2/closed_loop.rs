//! A closed loop: the proved session and the proved target, with our own session and target beside them.

use crate::harness::c2::calls;
use crate::harness::c2::device::Device;
use crate::harness::c2::driven::Driven;
use crate::harness::c2::job::Job;
use crate::harness::c2::model::Setup;
use crate::harness::c2::twins::Twins;
use crate::harness::random::Random;
use crate::harness::report::{expect_bytes, Checked, Failure};
use crate::second::c2::session::FIRST_STEP;
use crate::second::numbers;

pub struct ClosedLoop {
    /// the session on both sides, whose calls take many replies
    pub driven: Driven,
    /// the target on both sides
    pub twins: Twins,
    /// the step that the target has not had yet
    step: u8,
}

/// What a driver sees that gives one reply to a call.
struct Ahead {
    replies: Vec<u8>,
    steps: Vec<u8>,
    record: Vec<u8>,
}

impl ClosedLoop {
    /// The job's session against its device, whose target is fresh.
    pub fn begin(job: &Job, random: &mut Random) -> Result<ClosedLoop, Failure> {
        let Device { settings, wanted, flash, delays, .. } = &job.device;
        let setup = Setup { settings: *settings, wanted: *wanted };
        let twins = Twins::fresh(setup, flash, delays.clone());
        ClosedLoop::anew(twins, job.first_page, &job.image, random)
    }

    /// A new session against the target as it was left.
    pub fn anew(
        twins: Twins,
        first_page: usize,
        image: &[u8],
        random: &mut Random,
    ) -> Result<ClosedLoop, Failure> {
        let driven = Driven::open(&twins.settings, first_page, image, random)?;
        Ok(ClosedLoop { driven, twins, step: FIRST_STEP })
    }

    /// Runs the session to its end; gives the replies taken.
    pub fn run(&mut self, most: usize, random: &mut Random) -> Checked {
        self.run_for(u64::MAX, most, random)
    }

    /// Runs the session for so many replies, or to its end; gives the replies taken.
    pub fn run_for(&mut self, replies: u64, most: usize, random: &mut Random) -> Checked {
        let mut taken = 0;
        while self.driven.session.running() && taken < replies {
            let count = if random.below(4) == 0 { 1 } else { random.between(1, most) };
            taken += self.turn(count.min((replies - taken) as usize), random)?;
        }
        Ok(taken)
    }

    /// The target after so many more steps, whose replies are lost: the one that awaits its reply, or past the
    /// end the drivers off.
    pub fn left_after(&self, steps: u64) -> Result<Twins, Failure> {
        let mut twins = self.twins.clone();
        for _ in 0..steps {
            twins.step(self.step)?;
        }
        Ok(twins)
    }

    /// Some replies of the target, each to the step before: to a call of its own, on a copy of the record,
    /// and then all of them to one call. Steps and records must agree.
    fn turn(&mut self, count: usize, random: &mut Random) -> Checked {
        let Ahead { replies, steps, record } = self.look_ahead(count)?;
        let inputs = || format!("{} replies to one call, and one to each of {0} calls", replies.len());
        let written = self.driven.take(&replies, random)?;
        expect_bytes("steps", &steps, &written, inputs)?;
        expect_bytes("record", &record, &self.driven.record, inputs)?;
        Ok(replies.len() as u64)
    }

    fn look_ahead(&mut self, count: usize) -> Result<Ahead, Failure> {
        let record = self.driven.record.clone();
        let mut ahead = Ahead { replies: Vec::new(), steps: Vec::new(), record };
        for _ in 0..count {
            let reply = self.twins.step(self.step)?;
            let (answer, step) = calls::advance_once(&mut ahead.record, &self.driven.image, reply);
            self.step = step;
            ahead.replies.push(reply);
            ahead.steps.push(step);
            if answer.number != numbers::RUNNING {
                break;
            }
        }
        Ok(ahead)
    }
}
