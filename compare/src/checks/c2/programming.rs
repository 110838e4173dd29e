//! Our own session, alone and against our own target.

use crate::harness::c2::device::Device;
use crate::harness::c2::job::{open, random_wait_limit, Job};
use crate::harness::c2::pairs::random_pairs;
use crate::harness::c2::slowest::Slowest;
use crate::harness::check::{Check, Run};
use crate::harness::random::Random;
use crate::harness::report::{expect, expect_that, Checked, Failure};
use crate::second::c2::session::{Advanced, Outcome, Session, FIRST_STEP, WAIT_LIMIT};
use crate::second::c2::steps::OFF;
use crate::second::c2::target::Modelled;
use crate::second::numbers;
use crate::second::settings::{Pairs, Settings};

pub const CHECKS: &[Check] = &[
    Check { name: "our session: refused openings", run: refused_openings },
    Check { name: "our session: the most steps to come at the start", run: starting_figures },
    Check { name: "our session: the replies of the program's fresh target", run: fresh_target },
    Check { name: "our session: refused calls", run: refused_calls },
    Check { name: "our session: limits of WAIT and poll", run: limits },
    Check { name: "our session: replies that end it", run: endings },
    Check { name: "our session: some replies reach the starting figure", run: slowest_replies },
    Check { name: "our session: random images, flash and delays", run: random_programming },
    Check { name: "our session: replies in any cutting", run: cuttings },
];

/// The program's settings in document 01.
const SETTINGS: Settings = Settings {
    device_id: 0x04,
    fpdat: 0xB4,
    page_size: 512,
    page_count: 32,
    wait_limit: WAIT_LIMIT,
    pairs: Pairs::NONE,
};

/// How many runs go wrong at a random place, for each way to go wrong.
const WRONG_RUNS: u64 = 20;

fn running() -> Outcome {
    Outcome { number: numbers::RUNNING, offset: 0 }
}

fn ended(number: u32) -> Outcome {
    Outcome { number, offset: 0 }
}

fn refused_openings(_: &mut Run) -> Checked {
    let five = Pairs { count: 5, registers: [3, 4, 5, 6], values: [0; 4] };
    let bad = Settings { device_id: 0, fpdat: 2, page_size: 500, page_count: 0, wait_limit: 0, pairs: five };
    let no_waits = Settings { wait_limit: 0, pairs: five, ..SETTINGS };
    let paired = |pairs: &[(u8, u8)]| Settings { pairs: Pairs::of(pairs), ..SETTINGS };
    let rows = [
        (bad, 0, 0, Some(numbers::BAD_FPDAT)),
        (Settings { fpdat: 3, ..bad }, 0, 0, Some(numbers::BAD_PAGE_SIZE)),
        (Settings { page_count: 0, ..no_waits }, 0, 0, Some(numbers::BAD_PAGE_COUNT)),
        (Settings { page_count: 129, ..SETTINGS }, 0, 512, Some(numbers::BAD_PAGE_COUNT)),
        (Settings { page_count: u32::MAX, ..SETTINGS }, 0, 512, Some(numbers::BAD_PAGE_COUNT)),
        (no_waits, 40, 0, Some(numbers::BAD_WAIT_LIMIT)),
        (no_waits, 0, 512, Some(numbers::BAD_WAIT_LIMIT)),
        (Settings { pairs: five, ..SETTINGS }, 40, 0, Some(numbers::BAD_PAIRS)),
        (paired(&[(3, 0), (2, 0)]), 0, 512, Some(numbers::BAD_PAIRS)),
        (paired(&[(3, 0), (4, 0), (5, 0), (0xB4, 0)]), 0, 512, Some(numbers::BAD_PAIRS)),
        (SETTINGS, 40, 0, Some(numbers::BAD_IMAGE)),
        (SETTINGS, 40, 511, Some(numbers::BAD_IMAGE)),
        (SETTINGS, 32, 512, Some(numbers::PAST_LAST_PAGE)),
        (SETTINGS, u32::MAX, 512, Some(numbers::PAST_LAST_PAGE)),
        (SETTINGS, 31, 1024, Some(numbers::PAST_LAST_PAGE)),
        (SETTINGS, 0, 16_896, Some(numbers::PAST_LAST_PAGE)),
        (SETTINGS, 31, 512, None),
        (SETTINGS, 0, 16_384, None),
        (Settings { page_count: 128, ..SETTINGS }, 0, 65_536, None),
        (Settings { page_size: 1024, page_count: 64, ..SETTINGS }, 63, 1024, None),
        (Settings { wait_limit: 1, ..SETTINGS }, 0, 512, None),
        (Settings { wait_limit: 255, ..SETTINGS }, 0, 512, None),
        (paired(&[(3, 0), (255, 1), (0xB3, 2), (3, 3)]), 0, 512, None),
    ];
    for (settings, first_page, image_len, refusal) in rows {
        let came = Session::open(&settings, first_page, &vec![0; image_len]).err();
        expect(refusal, came, || format!("{settings:?}, first page {first_page}, image of {image_len}"))?;
    }
    Ok(rows.len() as u64)
}

/// P11 and P12, and document 01's formula for every number of pages; the largest flash at the highest limit,
/// without pairs and with four.
fn starting_figures(_: &mut Run) -> Checked {
    let mut cases = 0;
    for (page_size, page_count) in [(512, 128), (1024, 64)] {
        for pages in 1..=page_count {
            let settings = Settings { page_size, page_count, ..SETTINGS };
            let figure = starting_figure(&settings, pages)?;
            let blocks = u64::from(page_size / 256);
            let formula = 152 + u64::from(pages) * (18_648 + 2 * blocks * 813_784);
            expect(formula, figure, || format!("{pages} pages of {page_size}"))?;
            let literal = match (page_size, pages) {
                (512, 1) => 3_273_936,
                (512, 128) => 419_044_504,
                _ => formula,
            };
            expect(literal, figure, || format!("{pages} pages of {page_size}"))?;
            cases += 1;
        }
    }
    let longest = Settings { page_size: 1024, page_count: 64, wait_limit: 255, ..SETTINGS };
    expect(449_466_052, starting_figure(&longest, 64)?, || "64 pages of 1,024, limit 255".to_string())?;
    let longest = Settings { pairs: Pairs::of(&[(3, 0); 4]), ..longest };
    expect(449_467_176, starting_figure(&longest, 64)?, || "the same with four pairs".to_string())?;
    Ok(cases + 2)
}

fn starting_figure(settings: &Settings, pages: u32) -> Result<u64, Failure> {
    let image = vec![0; (pages * settings.page_size) as usize];
    Ok(open(settings, 0, &image)?.most_steps_left())
}

fn fresh_target(run: &mut Run) -> Checked {
    for (len, replies) in [(512, 28_594), (1024, 57_112)] {
        let image = run.random.bytes(len);
        let mut device = Device::fresh(SETTINGS, vec![0; 16_384], Vec::new());
        let mut session = open(&SETTINGS, 0, &image)?;
        let taken = device.run(&mut session, &image, |_, _| ());
        let came = (taken, session.outcome());
        expect((replies, ended(numbers::DONE)), came, || format!("image of {len} bytes"))?;
    }
    Ok(2)
}

/// Calls tested by 7, then 8, of a running session and of one that a compare has ended; a refused
/// call takes no reply and writes nothing, and an accepted one repeats the outcome of an ended session.
fn refused_calls(_: &mut Run) -> Checked {
    let image = [0x55; 512];
    let mut stopped = open(&SETTINGS, 0, &image)?;
    let mut replies = Slowest::session(&SETTINGS, &[0x55, 0x54].repeat(256));
    let mut steps = vec![0; replies.len()];
    let at_compare = Outcome { number: numbers::COMPARE_DIFFERS, offset: 1 };
    let came = stopped.advance(&image, &replies, &mut steps, 0);
    expect(at_compare, came.outcome, || "the second byte read differs".to_string())?;
    replies.truncate(4);

    let rows = [
        (511, 4, usize::MAX, ended(numbers::OTHER_IMAGE)),
        (0, 0, 0, ended(numbers::OTHER_IMAGE)),
        (512, 4, 5, ended(numbers::NO_ROOM)),
        (512, 0, 9, ended(numbers::NO_ROOM)),
        (512, 4, usize::MAX - 3, ended(numbers::NO_ROOM)),
        (512, 4, usize::MAX, ended(numbers::NO_ROOM)),
        (512, 0, 8, running()),
    ];
    for (image_len, count, place, outcome) in rows {
        for (mut session, accepted) in
            [(open(&SETTINGS, 0, &image)?, running()), (stopped.clone(), at_compare)]
        {
            let mut steps = [0xEE; 8];
            let came = session.advance(&image[..image_len], &replies[..count], &mut steps, place);
            let outcome = if outcome == running() { accepted } else { outcome };
            let inputs =
                || format!("image of {image_len}, {count} replies, place {place} of 8, {accepted:?}");
            expect((Advanced { outcome, taken: 0 }, [0xEE; 8]), (came, steps), inputs)?;
            expect(accepted, session.outcome(), inputs)?;
        }
    }
    Ok(2 * rows.len() as u64)
}

/// Takes the replies and tells the outcome with the number of replies taken.
fn take(settings: &Settings, replies: &[u8]) -> Result<(Outcome, usize), Failure> {
    let image = [0; 512];
    let mut session = open(settings, 0, &image)?;
    let mut steps = vec![0xEE; replies.len()];
    let Advanced { outcome, taken } = session.advance(&image, replies, &mut steps, 0);
    Ok((outcome, taken))
}

/// P7 to P10, by hand: a line that is always 0 never ends the first WAIT, and one that is always 1
/// gives device ID 0xFF and never ends the first poll.
fn limits(_: &mut Run) -> Checked {
    const RESET_TO_WAIT: usize = 1 + 5;
    const WHOLE_DATA_FRAME: usize = 15;
    const ADDRESS_FRAME: usize = 12;
    // reset, device ID, reset, FPCTL, three keys, pause, FPDAT, the erase command
    const BEFORE_POLL: usize = 1
        + WHOLE_DATA_FRAME
        + 1
        + ADDRESS_FRAME
        + 3 * WHOLE_DATA_FRAME
        + 1
        + ADDRESS_FRAME
        + WHOLE_DATA_FRAME;

    let zeros = [0; RESET_TO_WAIT + 30];
    let refused = (ended(numbers::WAIT_LIMIT_REACHED), RESET_TO_WAIT + 20);
    expect(refused, take(&SETTINGS, &zeros)?, || "P8: all replies 0".to_string())?;
    let mut passes = [0; RESET_TO_WAIT + 20];
    passes[RESET_TO_WAIT + 19] = 1;
    let taken = (running(), passes.len());
    expect(taken, take(&SETTINGS, &passes)?, || "P7: 19 zeros and a 1".to_string())?;

    let all_ones = Settings { device_id: 0xFF, ..SETTINGS };
    let last_stop = BEFORE_POLL + 256 * ADDRESS_FRAME;
    let ones = vec![1; last_stop + 5];
    let refused = (ended(numbers::POLL_LIMIT_REACHED), last_stop);
    expect(refused, take(&all_ones, &ones)?, || "P10: all replies 1".to_string())?;
    let mut passes = ones;
    // InBusy of the 256th read: START, INS, bit 0, then this one
    passes[last_stop - ADDRESS_FRAME + 4] = 0;
    let taken = (running(), passes.len());
    expect(taken, take(&all_ones, &passes)?, || "P9: the 256th read".to_string())?;
    Ok(4)
}

/// Each of the numbers 9 and 12 to 14, brought about by something wrong that is known.
fn endings(run: &mut Run) -> Checked {
    let ones = [1; 40];
    let inputs = || "device ID 0x04, all replies 1".to_string();
    expect((ended(numbers::OTHER_DEVICE), 16), take(&SETTINGS, &ones)?, inputs)?;
    let random = &mut run.random;
    Ok(1 + bad_replies(random)? + missing_page()? + stuck_bytes(random)?)
}

/// A reply above 1 ends the session where it stands, and counts as taken.
fn bad_replies(random: &mut Random) -> Checked {
    let image = random.bytes(512);
    for _ in 0..WRONG_RUNS {
        let (good, bad) = (random.below(28_594) as u64, random.pick(&[2, 3, 255]));
        let mut device = Device::fresh(SETTINGS, vec![0; 16_384], Vec::new());
        let mut session = open(&SETTINGS, 0, &image)?;
        let mut step = FIRST_STEP;
        for _ in 0..good {
            let reply = device.step(step);
            step = session.reply(reply, &image);
        }
        let last = session.reply(bad, &image);
        let came = (session.outcome(), last, session.most_steps_left());
        let inputs = || format!("{good} replies of the target, then {bad}");
        expect((ended(numbers::BAD_REPLY), OFF, 0), came, inputs)?;
    }
    Ok(WRONG_RUNS)
}

/// A device with fewer pages than the settings say refuses the erase of a page it lacks.
fn missing_page() -> Checked {
    let image = [0; 512];
    let smaller = Settings { page_count: 20, ..SETTINGS };
    let mut device = Device::fresh(smaller, vec![0; 10_240], Vec::new());
    let mut session = open(&SETTINGS, 20, &image)?;
    // the lead, then FPDAT, the command, its status, the page number, its status
    let taken = device.run(&mut session, &image, |_, _| ());
    let inputs = || "page 20 of a device with 20 pages".to_string();
    expect((ended(numbers::BAD_STATUS), 75 + 12 + 4 * 27), (session.outcome(), taken), inputs)?;
    Ok(1)
}

/// A flash byte that stays wrong is found by the compare, with its offset in the image.
fn stuck_bytes(random: &mut Random) -> Checked {
    for _ in 0..WRONG_RUNS {
        let image = random.bytes(1024);
        let (first_page, offset) = (random.below(31), random.below(1024));
        let stuck = first_page * 512 + offset;
        let mut device = Device::fresh(SETTINGS, vec![0; 16_384], Vec::new());
        let mut session = open(&SETTINGS, first_page as u32, &image)?;
        let mut step = FIRST_STEP;
        while session.running() {
            device.flash[stuck] = !image[offset];
            let reply = device.step(step);
            step = session.reply(reply, &image);
        }
        let inputs = || format!("first page {first_page}, flash byte {stuck} stuck");
        expect(Outcome { number: numbers::COMPARE_DIFFERS, offset }, session.outcome(), inputs)?;
    }
    Ok(WRONG_RUNS)
}

/// Runs a job's session and looks at the figure after each reply: it falls, is 0 exactly at the end,
/// and no more replies are taken than it was at the start.
fn run_watched(job: &mut Job, session: &mut Session) -> Result<(), Failure> {
    let start = session.most_steps_left();
    let (mut before, mut taken, mut wrong) = (start, 0u64, None);
    job.device.run(session, &job.image, |session, _| {
        taken += 1;
        let figure = session.most_steps_left();
        if wrong.is_none() && (figure >= before || (figure == 0) == session.running()) {
            wrong = Some((taken, before, figure));
        }
        before = figure;
    });
    let rule = "each reply lowers the figure, to 0 exactly at the end (reply, before, after)";
    expect_that(wrong.is_none(), rule, wrong, || job.describe())?;
    expect_that(taken <= start, &format!("at most {start} replies"), taken, || job.describe())
}

/// These replies are as many as the figure said at the start, and each lowers it by exactly 1.
fn slowest_replies(run: &mut Run) -> Checked {
    let pages = run.cases(1, 4) as usize;
    let random = &mut run.random;
    let (wait_limit, pairs) = (random_wait_limit(random), random_pairs(random, SETTINGS.fpdat));
    let settings = Settings { wait_limit, pairs, ..SETTINGS };
    let image = run.random.bytes(512 * pages);
    let replies = Slowest::session(&settings, &image);
    let inputs = || format!("{settings:?}, {pages} pages, the slowest replies");
    let mut session = open(&settings, 3, &image)?;
    expect(session.most_steps_left(), replies.len() as u64, inputs)?;
    for (taken, &reply) in replies.iter().enumerate() {
        let left = (replies.len() - taken) as u64;
        expect(left, session.most_steps_left(), || format!("{}, {taken} taken", inputs()))?;
        session.reply(reply, &image);
    }
    let came = (session.outcome(), session.most_steps_left());
    expect((ended(numbers::DONE), 0), came, inputs)?;
    Ok(replies.len() as u64)
}

fn random_programming(run: &mut Run) -> Checked {
    let cases = run.cases(15, 300);
    for _ in 0..cases {
        let pages = run.random.between(1, 3);
        let mut job = Job::random(&mut run.random, pages);
        let inputs = job.describe();
        let flash = job.programmed_flash();
        let mut session = job.session()?;
        run_watched(&mut job, &mut session)?;
        expect(ended(numbers::DONE), session.outcome(), || inputs.clone())?;
        let differing = first_difference(&flash, &job.device.flash);
        expect_that(differing.is_none(), "the image on its pages, all else as before", differing, || {
            format!("{inputs}: offset, expected and found byte")
        })?;
        expect(false, job.device.target.collision(), || format!("{inputs}: collision"))?;
    }
    Ok(cases)
}

fn first_difference(expected: &[u8], came: &[u8]) -> Option<(usize, u8, u8)> {
    let offset = expected.iter().zip(came).position(|(a, b)| a != b)?;
    Some((offset, expected[offset], came[offset]))
}

/// The same replies in calls of any length, lent afresh, write the same steps, and nothing beside
/// their place in the buffer.
fn cuttings(run: &mut Run) -> Checked {
    let cases = run.cases(10, 200);
    for _ in 0..cases {
        let random = &mut run.random;
        let mut job = Job::random(random, 1);
        job.device.delays.truncate(random.below(2));
        let inputs = job.describe();
        let mut replies = Vec::new();
        let mut session = job.session()?;
        job.device.run(&mut session, &job.image, |_, reply| replies.push(reply));
        // some replies too many: an ended session takes none of them
        let count = replies.len();
        replies.extend(random.bytes(20));

        let mut whole = vec![0xEE; replies.len()];
        let came = job.session()?.advance(&job.image, &replies, &mut whole, 0);
        let expected = Advanced { outcome: ended(numbers::DONE), taken: count };
        expect(expected, came, || format!("{inputs}: one call"))?;
        let cut = cut_calls(random, &job, &replies)?;
        expect_that(cut == whole[..count], "the same steps in any cutting", cut.len(), || inputs)?;
    }
    Ok(cases)
}

/// Takes the replies in calls of random length; gives the steps joined.
fn cut_calls(random: &mut Random, job: &Job, replies: &[u8]) -> Result<Vec<u8>, Failure> {
    let mut session = job.session()?;
    let mut joined = Vec::new();
    let mut rest = replies;
    while !rest.is_empty() {
        let (now, later) = rest.split_at(random.between(0, rest.len().min(5_000)));
        let (before, after) = (random.below(10), random.below(10));
        let mut steps = vec![0xEE; before + now.len() + after];
        let came = session.advance(&job.image, now, &mut steps, before);
        let (untouched, written) = (&steps[..before], &steps[before..][..came.taken]);
        let beyond = &steps[before + came.taken..];
        let clean = untouched.iter().chain(beyond).all(|&byte| byte == 0xEE);
        expect_that(clean, "bytes beside the steps stay", &steps, || job.describe())?;
        joined.extend_from_slice(written);
        rest = later;
    }
    Ok(joined)
}
