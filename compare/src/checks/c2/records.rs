//! Records: every point of a session, damaged records, and records made up.
//!
//! Which records are in range is decided by our own reading of document 01; one in range, however it came
//! about, is a session, and both sides go on from it alike.

use crate::harness::c2::driver::{ask, take, Taking};
use crate::harness::c2::job::{random_wait_limit, Job};
use crate::harness::c2::pairs::random_pairs;
use crate::harness::check::{Check, Run};
use crate::harness::random::Random;
use crate::harness::report::{expect, expect_bytes, hex, Checked, Failure};
use crate::second::c2::frames::Place;
use crate::second::c2::record::{self, pack, read, Record, RECORD_LEN, STAGES};
use crate::second::c2::session::{Act, Held, Outcome, Point, Session, State};
use crate::second::numbers;
use crate::second::settings::{Pairs, Settings};

pub const CHECKS: &[Check] = &[
    Check { name: "our records: every record of a session is in range and gives it back", run: own_records },
    Check { name: "records: every strobe of every act", run: every_strobe },
    Check { name: "records: any point of any session", run: any_point },
    Check { name: "records: each byte changed to every other value", run: changed_bytes },
    Check { name: "records: fields at and past their edges", run: edges },
    Check { name: "records: other lengths, and random bytes", run: noise },
];

/// A number below a limit; the edges come often.
fn below(random: &mut Random, limit: usize) -> usize {
    match random.below(4) {
        0 => 0,
        1 => limit - 1,
        _ => random.below(limit),
    }
}

/// Any count and bits that an act may have at a strobe.
fn random_place(random: &mut Random, act: &Act, strobe: usize, wait_limit: u8) -> Place {
    let shape = record::shape(act);
    let count = below(random, shape.count_limit(strobe, wait_limit));
    let bits = below(random, shape.bits_limit(strobe));
    Place { strobe, count, bits }
}

fn random_point(random: &mut Random, settings: &Settings, pages: usize) -> Point {
    let stage = random.pick(if settings.pairs.count > 0 { &STAGES } else { &STAGES[..STAGES.len() - 1] });
    let [page, block, act] = record::extent(stage, settings, pages).map(|limit| below(random, limit));
    let act = Act { stage, page: page as u8, block: block as u8, act: act as u16 };
    let strobes = record::shape(&act).strobes();
    // the WAITs and the STOP come often: they are where a frame counts and is judged
    let anywhere = random.below(strobes);
    let strobe = random.pick(&[anywhere, anywhere, 5, 13, strobes - 1]).min(strobes - 1);
    Point { act, place: random_place(random, &act, strobe, settings.wait_limit) }
}

fn random_outcome(random: &mut Random, image_len: usize) -> Outcome {
    let number = random.pick(&[9, 10, 11, 12, 13, 14, 14, 14, 13, numbers::DONE]);
    let offset = if number == numbers::COMPARE_DIFFERS { below(random, image_len) } else { 0 };
    Outcome { number, offset }
}

/// Any session at any point, in a flash of at most so many pages.
fn random_held(random: &mut Random, most_count: usize, most_pages: usize) -> Held {
    let page_size = random.pick(&[512, 1024]);
    let page_count = random.between(1, most_count.min(65_536 / page_size));
    let pages = random.between(1, most_pages.min(page_count));
    let fpdat = random.between(3, 255) as u8;
    let settings = Settings {
        device_id: random.byte(),
        fpdat,
        page_size: page_size as u32,
        page_count: page_count as u32,
        wait_limit: random_wait_limit(random),
        pairs: random_pairs(random, fpdat).kept(),
    };
    let state = if random.below(6) == 0 {
        State::Ended(random_outcome(random, pages * page_size))
    } else {
        State::Running(random_point(random, &settings, pages))
    };
    Held { settings, first_page: random.between(0, page_count - pages), pages, state }
}

/// A few replies, mostly good ones; long runs of one level reach the limits of WAIT and poll.
fn some_replies(random: &mut Random) -> Vec<u8> {
    let count = random.pick(&[0, 1, 1, 2, 15, 30]);
    let mostly = random.below(4);
    (0..count)
        .map(|_| match mostly {
            0 => 0,
            1 => 1,
            _ if random.below(50) == 0 => random.between(2, 255) as u8,
            _ => random.bit(),
        })
        .collect()
}

/// The question and one call with this record: `session` is ours that it holds, if it holds one.
fn call_with(
    session: Option<&mut Session>,
    record: &[u8],
    image: &[u8],
    random: &mut Random,
) -> Result<(), Failure> {
    call_taking(session, record, image, &some_replies(random), random)
}

fn call_taking(
    session: Option<&mut Session>,
    record: &[u8],
    image: &[u8],
    replies: &[u8],
    random: &mut Random,
) -> Result<(), Failure> {
    let (place, after) = (random.below(4), random.below(4));
    let steps = random.bytes(place + replies.len() + after);
    ask(session.as_deref(), record)?;
    take(session, &Taking { record, image, replies, steps: &steps, place }).map(|_| ())
}

fn own_records(run: &mut Run) -> Checked {
    let mut cases = 0;
    for _ in 0..run.cases(3, 30) {
        let pages = run.random.between(1, 2);
        let mut job = Job::random(&mut run.random, pages);
        job.device.delays = vec![0, 3, job.device.settings.wait_limit - 1, 0, 1];
        let mut session = job.session()?;
        let mut wrong = None;
        job.device.run(&mut session, &job.image, |session, _| {
            cases += 1;
            let held = session.held();
            let record = pack(&held);
            if wrong.is_none() && read(&record) != Some(held) {
                wrong = Some((hex(&record), held));
            }
        });
        expect(None, wrong, || job.describe())?;
    }
    Ok(cases)
}

/// Ours at a point that the layout knows: the list of operations must have it, and tell it alike.
fn own_session_at(session: &mut Session, state: &State) -> Result<Record, Failure> {
    session.go_to(state);
    let held = session.held();
    expect(*state, held.state, || "our own session, put at a point".to_string())?;
    Ok(pack(&held))
}

/// Every kind of reply at every strobe of every act of a page, with counts and bits at their edges too; the
/// image is another one at each strobe.
fn every_strobe(run: &mut Run) -> Checked {
    let mut calls = 0;
    let sizes: &[u32] = if run.long { &[512, 1024] } else { &[512] };
    for &page_size in sizes {
        let wait_limit = random_wait_limit(&mut run.random);
        let pairs = Pairs::of(&[(0xB3, 0x5A), (3, 0x00), (255, 0xFF), (3, 0xA5)]);
        let settings = Settings { device_id: 0x2A, fpdat: 0xB4, page_size, page_count: 9, wait_limit, pairs };
        let image = run.random.bytes(page_size as usize);
        let mut session = Session::open(&settings, 8, &image).expect("good settings");
        let acts: Vec<Act> = session.acts().collect();
        for act in acts {
            for strobe in 0..record::shape(&act).strobes() {
                calls += every_reply(&mut session, act, strobe, run)?;
            }
        }
    }
    Ok(calls)
}

fn every_reply(session: &mut Session, act: Act, strobe: usize, run: &mut Run) -> Checked {
    let times = run.cases(1, 10);
    for _ in 0..times {
        let random = &mut run.random;
        let held = session.held();
        let place = random_place(random, &act, strobe, held.settings.wait_limit);
        let state = State::Running(Point { act, place });
        let image = random.bytes(held.image_len());
        let bad = random.between(2, 255) as u8;
        for replies in [vec![0], vec![1], vec![bad], some_replies(random)] {
            let record = own_session_at(session, &state)?;
            call_taking(Some(session), &record, &image, &replies, random)?;
        }
    }
    Ok(4 * times)
}

fn any_point(run: &mut Run) -> Checked {
    let (sessions, points) = (run.cases(40, 400), 150);
    for _ in 0..sessions {
        let random = &mut run.random;
        let most_pages = random.pick(&[1, 3, 128]);
        let held = random_held(random, 128, most_pages);
        let mut session = Session::resume(&held);
        let image = random.bytes(held.image_len());
        for _ in 0..points {
            let state = State::Running(random_point(random, &held.settings, held.pages));
            let record = own_session_at(&mut session, &state)?;
            call_with(Some(&mut session), &record, &image, random)?;
        }
    }
    Ok(sessions * points)
}

/// Sessions for changed records: most changes leave settings and pages, and so the list of operations, alone.
struct Sessions {
    last: Session,
    images: Vec<u8>,
}

impl Sessions {
    fn of(held: &Held, random: &mut Random) -> Sessions {
        Sessions { last: Session::resume(held), images: random.bytes(65_536) }
    }

    fn at(&mut self, held: &Held) -> &mut Session {
        let last = self.last.held();
        let same = (last.settings, last.first_page, last.pages);
        if same == (held.settings, held.first_page, held.pages) {
            self.last.go_to(&held.state);
        } else {
            self.last = Session::resume(held);
        }
        &mut self.last
    }

    /// Calls with any bytes as a record; the image lent is mostly that of the session they hold.
    fn call(&mut self, bytes: &[u8], usual_len: usize, random: &mut Random) -> Result<(), Failure> {
        let Some(held) = read(bytes) else {
            return call_with(None, bytes, &self.images[..usual_len], random);
        };
        let len = if random.below(8) == 0 { usual_len } else { held.image_len() };
        let image = self.images[..len].to_vec();
        let session = self.at(&held);
        expect_bytes("our own record", bytes, &pack(&session.held()), || format!("{held:?}"))?;
        call_with(Some(session), bytes, &image, random)
    }
}

/// A record that changes are made to. In a large flash these make long sessions, so that is not often asked.
fn a_record(random: &mut Random) -> (Held, Record) {
    let most_count = if random.below(16) == 0 { 128 } else { 4 };
    let held = random_held(random, most_count, 3);
    (held, pack(&held))
}

fn changed_bytes(run: &mut Run) -> Checked {
    let mut calls = 0;
    for _ in 0..run.cases(24, 640) {
        let (held, record) = a_record(&mut run.random);
        let mut sessions = Sessions::of(&held, &mut run.random);
        for at in 0..RECORD_LEN {
            for value in 0..=255 {
                let mut changed = record;
                changed[at] = value;
                sessions.call(&changed, held.image_len(), &mut run.random)?;
                calls += 1;
            }
        }
    }
    Ok(calls)
}

/// For each field, values at and just past its edges, whatever else the record holds.
fn edges_of(held: &Held) -> Vec<(usize, Vec<usize>)> {
    let Held { first_page, pages, .. } = *held;
    let (len, count) = (held.image_len(), held.settings.page_count as usize);
    let wait_limit = usize::from(held.settings.wait_limit);
    let (fpdat, pair_count) = (held.settings.fpdat.into(), usize::from(held.settings.pairs.count));
    let registers = (0..4).map(|number| (record::PAIRS + 2 * number, vec![0, 1, 2, 3, fpdat, 255]));
    let values = (0..4).map(|number| (record::PAIRS + 2 * number + 1, vec![0, 1, 2, 255]));
    let zeros = match held.state {
        State::Running(Point { place, .. }) => place.count,
        State::Ended(_) => 0,
    };
    let others = vec![
        (record::FPDAT, vec![0, 1, 2, 3, 4, 255]),
        (record::PAGE_SIZE, vec![0, 256, 511, 512, 513, 768, 1024, 1025, 1536, 2048]),
        (record::PAGE_COUNT, vec![0, 1, first_page, first_page + pages, 63, 64, 65, 127, 128, 129, 255]),
        (record::FIRST_PAGE, vec![0, count - pages, count - pages + 1, count, 128, 255]),
        (record::PAGES, vec![0, 1, count - first_page, count - first_page + 1, count, 128, 255]),
        (record::NUMBER, vec![0, 1, 6, 7, 8, 9, 10, 13, 14, 15, 16, 17, 31, 32, 33, 255]),
        (record::OFFSET, vec![0, 1, 255, 256, len - 1, len, 65_535]),
        (record::STAGE, vec![0, 1, 2, 3, 4, 5, 5, 6, 255]),
        (record::PAGE, vec![0, 1, 2, 3, 4, pages - 1, pages, 127, 128, 255]),
        (record::BLOCK, vec![0, 1, 2, 3, 4, 255]),
        (record::ACT, vec![0, 1, 2, 7, 8, 12, 13, 255, 256, 511, 512, 523, 524, 525, 526, 65_535]),
        (record::STROBE, vec![0, 1, 5, 6, 11, 12, 13, 14, 15, 255]),
        (record::COUNT, vec![0, 1, 18, 19, 20, 21, wait_limit - 1, wait_limit, 254, 255]),
        (record::BITS, vec![0, 1, 2, 3, 4, 127, 128, 255]),
        (record::WAIT_LIMIT, vec![0, 1, 2, 19, 20, 21, zeros, (zeros + 1).min(255), 254, 255]),
        (record::PAIR_COUNT, vec![0, 1, 2, 3, 4, 5, pair_count + 1, pair_count.max(1) - 1, 255]),
    ];
    others.into_iter().chain(registers).chain(values).collect()
}

/// One to three fields changed, now and then a spare byte too.
fn edges(run: &mut Run) -> Checked {
    let (records, changes) = (run.cases(400, 8_000), 100);
    for _ in 0..records {
        let (held, record) = a_record(&mut run.random);
        let mut sessions = Sessions::of(&held, &mut run.random);
        let edges = edges_of(&held);
        for _ in 0..changes {
            let random = &mut run.random;
            let mut changed = record;
            for _ in 0..random.between(1, 3) {
                let (field, values) = &edges[random.below(edges.len())];
                record::set(&mut changed, *field, random.pick(values));
            }
            if random.below(40) == 0 {
                changed[random.between(record::SPARE, RECORD_LEN - 1)] = random.byte();
            }
            sessions.call(&changed, held.image_len(), random)?;
        }
    }
    Ok(records * changes)
}

/// A good record cut short or with bytes behind it is none; random bytes seldom are.
fn noise(run: &mut Run) -> Checked {
    let cases = run.cases(10_000, 200_000);
    let (held, record) = a_record(&mut run.random);
    let mut sessions = Sessions::of(&held, &mut run.random);
    for case in 0..cases {
        let random = &mut run.random;
        let bytes = if case % 2 == 0 {
            let mut bytes = record.to_vec();
            bytes.resize(random.pick(&[0, 1, 8, 16, 31, 33, 40, 64, 192, 288]), 0);
            bytes
        } else {
            let mut bytes = random.bytes(RECORD_LEN);
            let random_from = random.below(RECORD_LEN);
            bytes[..random_from].copy_from_slice(&record[..random_from]);
            bytes
        };
        sessions.call(&bytes, held.image_len(), random)?;
    }
    Ok(cases)
}
