//! Closed loops to their end.

use proved::c2::Remaining;

use crate::harness::c2::calls;
use crate::harness::c2::closed_loop::ClosedLoop;
use crate::harness::c2::job::Job;
use crate::harness::c2::trouble::random_job;
use crate::harness::check::{Check, Run};
use crate::harness::random::Random;
use crate::harness::report::{expect, expect_bytes, Checked, Failure};
use crate::second::numbers;

pub const CHECKS: &[Check] = &[
    Check { name: "closed loops: random images, flash, delays and cuttings", run: random_loops },
    Check { name: "closed loops: the whole of the largest flash", run: largest },
];

/// The session is done, the image is in its pages and all else as it was, and no strobe collided.
fn compare_end(closed: &ClosedLoop, job: &Job) -> Result<(), Failure> {
    let inputs = || job.describe();
    let done = Remaining { number: numbers::DONE, steps: 0 };
    expect(done, calls::steps_left(&closed.driven.record).answer, inputs)?;
    closed.twins.compare_flash()?;
    expect_bytes("flash", &job.programmed_flash(), closed.twins.flash(), inputs)?;
    expect(0, closed.twins.state().collision, inputs)
}

fn close(job: &Job, most: usize, random: &mut Random) -> Checked {
    let mut closed = ClosedLoop::begin(job, random)?;
    let in_job =
        |failure: Failure| Failure { inputs: format!("{}: {}", job.describe(), failure.inputs), ..failure };
    let taken = closed.run(most, random).map_err(in_job)?;
    compare_end(&closed, job)?;
    Ok(taken)
}

/// Mostly prompt delays, for the others make long sessions.
fn random_loops(run: &mut Run) -> Checked {
    let mut taken = 0;
    for case in 0..run.cases(24, 800) {
        let random = &mut run.random;
        let job = if case % 8 == 0 { Job::random(random, 1) } else { random_job(random) };
        let most = random.pick(&[3, 60, 3_000, 100_000]);
        taken += close(&job, most, random)?;
    }
    Ok(taken)
}

fn largest(run: &mut Run) -> Checked {
    let mut taken = 0;
    for page_size in [512, 1024] {
        let random = &mut run.random;
        let mut job = Job::random(random, 1);
        job.device.settings.page_size = page_size;
        job.device.settings.page_count = 65_536 / page_size;
        job.device.flash = random.bytes(65_536);
        job.device.delays = Vec::new();
        job.first_page = 0;
        job.image = random.bytes(65_536);
        taken += close(&job, 100_000, random)?;
    }
    Ok(taken)
}
