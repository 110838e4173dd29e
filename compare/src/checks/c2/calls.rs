//! The proved driver's calls against our own session: openings, whole sessions, refusals.

use proved::c2::{Advanced, Opened, Remaining};

use crate::harness::c2::calls;
use crate::harness::c2::device::Device;
use crate::harness::c2::driven::{any_settings, mostly, random_replies, Driven, Reasons};
use crate::harness::c2::driver::{open, take, Opening, Taking};
use crate::harness::c2::job::Job;
use crate::harness::c2::slowest::Slowest;
use crate::harness::c2::trouble::{change_device, random_job, replies_of, Fault, FAULTS};
use crate::harness::check::{Check, Run};
use crate::harness::random::Random;
use crate::harness::report::{expect, Checked, Failure};
use crate::second::c2::record::RECORD_LEN;
use crate::second::c2::session::WAIT_LIMIT;
use crate::second::c2::steps::OFF;
use crate::second::numbers;
use crate::second::settings::{Pairs, Settings};

pub const CHECKS: &[Check] = &[
    Check { name: "calls: openings, good and bad", run: openings },
    Check { name: "calls: sessions to their end, whatever goes wrong on the wire", run: sessions },
    Check { name: "calls: the largest sessions", run: largest },
    Check { name: "calls: the slowest replies", run: slowest },
    Check { name: "calls: 6, 7 and 8, alone and together", run: refusals },
    Check { name: "calls: places and room", run: places },
    Check { name: "calls: null for slices of length 0", run: nulls },
];

const SETTINGS: Settings = Settings {
    device_id: 0x04,
    fpdat: 0xB4,
    page_size: 512,
    page_count: 32,
    wait_limit: WAIT_LIMIT,
    pairs: Pairs::NONE,
};

fn openings(run: &mut Run) -> Checked {
    let cases = run.cases(30_000, 600_000);
    let pool = run.random.bytes(200_000);
    for case in 0..cases {
        let random = &mut run.random;
        // the longest images seldom: copying them is what takes the time
        let odd_lens: &[usize] = match case % 64 {
            0 => &[65_535, 65_536, 65_537, 66_048, 131_072, 131_584],
            _ => &[0, 1, 256, 511, 513, 768, 1023, 1025, 2047, 4096],
        };
        let image_len = mostly(random, &[512, 1024, 1536, 2048], odd_lens);
        let odd_firsts = [31, 32, 63, 64, 127, 128, 255, 256, 257, 65_536, u32::MAX - 1, u32::MAX];
        let record_len = mostly(random, &[RECORD_LEN], &[0, 1, 31, 33, 64, 288]);
        let opening = Opening {
            record: &random.bytes(record_len),
            image: &pool[..image_len],
            settings: any_settings(random),
            first_page: mostly(random, &[0, 0, 1, 3, 30], &odd_firsts),
        };
        open(&opening)?;
    }
    Ok(cases)
}

/// A session just opened, and the replies that bring it to its end.
fn opened(fault: Fault, random: &mut Random) -> Result<(Driven, Vec<u8>), Failure> {
    let mut job = random_job(random);
    let driven = Driven::open(&job.device.settings, job.first_page, &job.image, random)?;
    change_device(&mut job, fault, random);
    let replies = replies_of(&mut job, &mut driven.session.clone(), fault, random);
    Ok((driven, replies))
}

/// The same replies, cut into calls of any length with refused calls and questions between them.
fn play(driven: &mut Driven, replies: &[u8], most: usize, random: &mut Random) -> Result<(), Failure> {
    let mut rest = replies;
    while !rest.is_empty() {
        let count = match random.below(8) {
            0 => 0,
            1..=2 => 1,
            _ => random.between(1, most),
        };
        let (now, later) = rest.split_at(count.min(rest.len()));
        driven.take(now, random)?;
        rest = later;
        if random.below(4) == 0 {
            driven.in_between(random)?;
        }
    }
    after_the_end(driven, random)
}

/// An ended session takes no more and repeats its outcome.
fn after_the_end(driven: &mut Driven, random: &mut Random) -> Result<(), Failure> {
    for _ in 0..3 {
        driven.take(&random_replies(random), random)?;
        driven.in_between(random)?;
    }
    Ok(())
}

/// In which session, and with what fault, a difference was found.
fn in_session(case: u64, fault: Fault) -> impl Fn(Failure) -> Failure {
    move |failure| Failure { inputs: format!("session {case}, {fault:?}: {}", failure.inputs), ..failure }
}

fn sessions(run: &mut Run) -> Checked {
    let mut calls = 0;
    for case in 0..run.cases(110, 5_400) {
        let random = &mut run.random;
        let fault = FAULTS[case as usize % FAULTS.len()];
        let (mut driven, replies) = opened(fault, random)?;
        let most = random.pick(&[60, 300, 3_000, 100_000]);
        play(&mut driven, &replies, most, random).map_err(in_session(case, fault))?;
        calls += driven.calls;
    }
    Ok(calls)
}

/// All of the largest flash, in pages of either size.
fn largest(run: &mut Run) -> Checked {
    let mut calls = 0;
    for (page_size, page_count) in [(512, 128), (1024, 64)] {
        let random = &mut run.random;
        let settings = Settings { page_size, page_count, ..SETTINGS };
        let image = random.bytes(65_536);
        let device = Device::fresh(settings, vec![0; 65_536], Vec::new());
        let mut driven = Driven::open(&settings, 0, &image, random)?;
        let mut job = Job { device, first_page: 0, image };
        let replies = replies_of(&mut job, &mut driven.session.clone(), Fault::None, random);
        play(&mut driven, &replies, 100_000, random)?;
        expect(numbers::DONE, driven.session.outcome().number, || "our own session".to_string())?;
        calls += driven.calls;
    }
    Ok(calls)
}

/// Replies that are as many as the figure said at the start: every WAIT and every poll at its limit.
fn slowest(run: &mut Run) -> Checked {
    let mut calls = 0;
    let four = Pairs::of(&[(3, 0), (255, 1), (3, 2), (4, 3)]);
    for (pages, wait_limit, pairs) in [
        (1, 255, four),
        (1, WAIT_LIMIT, Pairs::NONE),
        (3, WAIT_LIMIT, Pairs::NONE),
        (1, 1, Pairs::of(&[(3, 0)])),
    ] {
        if pages > 1 && !run.long {
            continue;
        }
        let random = &mut run.random;
        let settings = Settings { wait_limit, pairs, ..SETTINGS };
        let image = random.bytes(512 * pages);
        let replies = Slowest::session(&settings, &image);
        let mut driven = Driven::open(&settings, 5, &image, random)?;
        expect(replies.len() as u64, driven.session.most_steps_left(), || "our own figure".to_string())?;
        play(&mut driven, &replies, 5_000, random)?;
        expect(numbers::DONE, driven.session.outcome().number, || "our own session".to_string())?;
        calls += driven.calls;
    }
    Ok(calls)
}

/// A session somewhere on its way, or ended.
fn somewhere(random: &mut Random) -> Result<Driven, Failure> {
    let fault = random.pick(&FAULTS);
    let (mut driven, replies) = opened(fault, random)?;
    let count = if random.below(3) == 0 { replies.len() } else { random.below(replies.len()) };
    driven.take(&replies[..count], random)?;
    Ok(driven)
}

/// Every combination of reasons at many points: the number of the lowest comes back, and nothing changes.
fn refusals(run: &mut Run) -> Checked {
    let mut calls = 0;
    for _ in 0..run.cases(100, 3_000) {
        let mut driven = somewhere(&mut run.random)?;
        for reasons in 1..8 {
            for _ in 0..6 {
                driven.refused_taking(Reasons::of(reasons), &mut run.random)?;
                driven.calls += 1;
            }
        }
        calls += driven.calls;
    }
    Ok(calls)
}

/// Every place up to the last one that has room and some past it, for few replies and none.
fn places(run: &mut Run) -> Checked {
    let mut calls = 0;
    for _ in 0..run.cases(20, 400) {
        let driven = somewhere(&mut run.random)?;
        for count in [0, 1, 2, 7] {
            for steps_len in [0, 1, 2, 7, 8, 40] {
                calls += every_place(&driven, count, steps_len, &mut run.random)?;
            }
        }
    }
    Ok(calls)
}

/// The session itself stays where it is: each call goes on from the same record.
fn every_place(driven: &Driven, count: usize, steps_len: usize, random: &mut Random) -> Checked {
    let replies: Vec<u8> = (0..count).map(|_| random.bit()).collect();
    let steps = random.bytes(steps_len);
    let mut session = driven.session.clone();
    let largest = (0..10).map(|less| usize::MAX - less);
    let mut calls = 0;
    for place in (0..=steps_len + 2).chain(largest) {
        let (record, image) = (&driven.record, &driven.image);
        session.go_to(&driven.session.held().state);
        take(Some(&mut session), &Taking { record, image, replies: &replies, steps: &steps, place })?;
        calls += 1;
    }
    Ok(calls)
}

fn nulls(run: &mut Run) -> Checked {
    let refused = |number| Opened { number, step: u32::from(OFF) };
    let inputs = || "null pointers with length 0".to_string();
    let bad_record = Advanced { number: numbers::BAD_RECORD, offset: 0, taken: 0 };
    let no_session = Remaining { number: numbers::BAD_RECORD, steps: 0 };
    let nothing = (refused(numbers::BAD_RECORD), bad_record, no_session);
    expect(nothing, calls::lent_nothing(&SETTINGS), inputs)?;

    let driven = Driven::open(&SETTINGS, 0, &[0x55; 512], &mut run.random)?;
    let other_image = Advanced { number: numbers::OTHER_IMAGE, offset: 0, taken: 0 };
    let record_only = (refused(numbers::BAD_IMAGE), other_image);
    expect(record_only, calls::lent_a_record_only(&driven.record, &SETTINGS), inputs)?;
    let running = Advanced { number: numbers::RUNNING, offset: 0, taken: 0 };
    expect(running, calls::lent_no_replies(&driven.record, &driven.image), inputs)?;
    Ok(6)
}
