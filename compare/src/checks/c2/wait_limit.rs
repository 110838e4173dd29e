//! The WAIT limit in the settings (document 02, d): the answers that its words give, literally, beside those
//! of our own session, record and model.

use proved::c2::Advanced;
use proved::c2_target::{self, State};

use crate::harness::c2::driver::{take, Taking};
use crate::harness::c2::model::Setup;
use crate::harness::c2::reasons::{Reasons, OF_PAIRS, TESTS};
use crate::harness::c2::{calls, model};
use crate::harness::check::{Check, Run};
use crate::harness::report::{expect, hex as hex_of, Checked, Failure};
use crate::second::c2::frames::Place;
use crate::second::c2::record::{self, pack, read, shape, Record, Shape, RECORD_LEN};
use crate::second::c2::session::{Act, Held, Outcome, Point, Session, Stage, State as Reached};
use crate::second::c2::steps::RELEASED;
use crate::second::numbers;
use crate::second::settings::{Pairs, Settings};

pub const CHECKS: &[Check] = &[
    Check { name: "WAIT limit: 18 wherever 3 is tested, after it", run: refusals },
    Check { name: "WAIT limit: every limit, at each kind of WAIT", run: every_limit },
    Check { name: "WAIT limit: every limit in a record, with every number of zeros", run: records },
    Check { name: "WAIT limit: every limit lent to the model, with every number of zeros", run: states },
    Check { name: "WAIT limit: the most steps to come at the start, for every limit", run: starting_figures },
];

const SETTINGS: Settings = Settings {
    device_id: 0x04,
    fpdat: 0xB4,
    page_size: 512,
    page_count: 32,
    wait_limit: 1,
    pairs: Pairs::NONE,
};

/// Every call that tests 3, for every choice of reasons.
fn refusals(_: &mut Run) -> Checked {
    let mut cases = 0;
    for bits in (0..1 << TESTS.len()).filter(|bits| bits >> OF_PAIRS & 1 == 0) {
        let reasons = Reasons { bits, good: SETTINGS };
        reasons.opening()?;
        reasons.hex_writer()?;
        reasons.hex_reader()?;
        model_step(&reasons)?;
        cases += 4;
    }
    Ok(cases)
}

/// With a flash of another length (17) and a step that is none (16) besides, and without either.
fn model_step(reasons: &Reasons) -> Result<(), Failure> {
    let setup = Setup { settings: reasons.settings(), wanted: Pairs::NONE };
    let state = c2_target::fresh();
    let right_len = SETTINGS.flash_len() as usize;
    for (len, step, otherwise) in
        [(511, 1, numbers::NO_POINT), (right_len, 1, numbers::NO_STEP), (right_len, 0, numbers::RUNNING)]
    {
        let came = model::step_lent(&setup, &state, &vec![0; len], &[], step).replied.number;
        let expected = reasons.of_settings().unwrap_or(otherwise);
        expect(expected, came, || format!("step {step} with {setup:?}, flash of {len}"))?;
    }
    Ok(())
}

/// With a pair, whose Data Write has a WAIT too.
const PAIRED: Settings =
    Settings { pairs: Pairs { count: 1, registers: [3, 0, 0, 0], values: [0; 4] }, ..SETTINGS };

/// The acts with a WAIT: the ID, a key, a pair's value, a put, a status, a byte of the image written, one
/// read.
const WAITS: [(Stage, u16); 7] = [
    (Stage::Lead, 1),
    (Stage::Lead, 4),
    (Stage::Pairs, 1),
    (Stage::Erase, 1),
    (Stage::Erase, 4),
    (Stage::BlockWrite, 11),
    (Stage::BlockRead, 14),
];

/// A WAIT of such an act, after so many zeros.
fn in_wait((stage, act): (Stage, u16), zeros: usize) -> Point {
    let act = Act { stage, page: 0, block: 0, act };
    let strobe = if shape(&act) == Shape::DataWrite { 13 } else { 5 };
    Point { act, place: Place { strobe, count: zeros, bits: 0 } }
}

/// L zeros refuse, at once; L - 1 zeros and a 1 pass.
fn every_limit(run: &mut Run) -> Checked {
    let image = run.random.bytes(512);
    for wait_limit in 1..=255 {
        let settings = Settings { wait_limit, ..PAIRED };
        let mut session = Session::open(&settings, 0, &image).expect("good settings");
        for wait in WAITS {
            let limit = usize::from(wait_limit);
            let refused = Advanced { number: numbers::WAIT_LIMIT_REACHED, offset: 0, taken: limit as u64 };
            from_wait(&mut session, wait, &image, &vec![0; limit + 2], refused)?;
            let mut replies = vec![0; limit];
            replies[limit - 1] = 1;
            let passed = Advanced { number: numbers::RUNNING, offset: 0, taken: limit as u64 };
            from_wait(&mut session, wait, &image, &replies, passed)?;
        }
    }
    Ok(255 * 2 * WAITS.len() as u64)
}

fn from_wait(
    session: &mut Session,
    wait: (Stage, u16),
    image: &[u8],
    replies: &[u8],
    expected: Advanced,
) -> Result<(), Failure> {
    session.go_to(&Reached::Running(in_wait(wait, 0)));
    let record = pack(&session.held());
    let steps = vec![0xEE; replies.len()];
    let call = Taking { record: &record, image, replies, steps: &steps, place: 0 };
    let came = take(Some(session), &call)?.answer;
    expect(expected, came, || format!("{:?}, {wait:?}, replies {replies:?}", session.held().settings))
}

/// Zeros are below the limit, which is not 0; where no WAIT is under way any other limit is in range.
fn records(_: &mut Run) -> Checked {
    let held = Session::open(&PAIRED, 0, &[0; 512]).expect("good settings").held();
    let record_at = |state| pack(&Held { state, ..held });
    let mut cases = 0;
    for zeros in 0..=255 {
        for wait in WAITS {
            cases += every_value(record_at(Reached::Running(in_wait(wait, zeros))), zeros, 0)?;
        }
    }
    cases += every_value(record_at(held.state), 0, 0)?;
    let differs = Outcome { number: numbers::COMPARE_DIFFERS, offset: 511 };
    for outcome in [Outcome::of(numbers::DONE), Outcome::of(numbers::WAIT_LIMIT_REACHED), differs] {
        cases += every_value(record_at(Reached::Ended(outcome)), 0, outcome.number)?;
    }
    Ok(cases)
}

/// Every value in the limit's place: 6 unless the zeros are below it.
fn every_value(record: Record, zeros: usize, number: u32) -> Checked {
    for limit in 0..=255 {
        let mut changed = record;
        record::set(&mut changed, record::WAIT_LIMIT, limit);
        let in_range = zeros < limit;
        let inputs = || format!("limit {limit}, {zeros} zeros, record {}", hex_of(&changed));
        expect(in_range, read(&changed).is_some(), inputs)?;
        let expected = if in_range { number } else { numbers::BAD_RECORD };
        expect(expected, calls::steps_left(&changed).answer.number, inputs)?;
        expect(expected, calls::advance(&changed, &[0; 512], &[], &[], 0).answer.number, inputs)?;
    }
    Ok(256)
}

/// A later strobe of a WAIT: one zero is sent, and so many are left; with it they are below the limit.
fn states(_: &mut Run) -> Checked {
    let mut flash = vec![0; SETTINGS.flash_len() as usize];
    for wait_limit in 1..=255 {
        for zeros in 0..=255 {
            let state = State { point: 8, zeros, effect: 2, ..c2_target::fresh() };
            let setup = Setup { settings: Settings { wait_limit, ..SETTINGS }, wanted: Pairs::NONE };
            let in_range = u32::from(zeros) + 1 < u32::from(wait_limit);
            let expected = match (in_range, zeros) {
                (false, _) => (numbers::NO_POINT, 1),
                (true, 0) => (numbers::RUNNING, 1),
                (true, _) => (numbers::RUNNING, 0),
            };
            let came = model::step(&setup, &state, &mut flash, &[], RELEASED);
            expect(expected, (came.number, came.reply), || format!("limit {wait_limit}, {state:?}"))?;
        }
    }
    Ok(255 * 256)
}

/// The rule of document 02, written out: of the lead 16 strobes and steps, and four frames with a WAIT; of an
/// erase 6 puts and gets, of a block 262, each a frame with a WAIT and a poll, behind an Address Write.
fn starting_figures(_: &mut Run) -> Checked {
    for limit in 1..=255 {
        for (page_size, pages) in [(512, 1), (512, 128), (1024, 1), (1024, 64)] {
            let settings =
                Settings { page_size, page_count: 65_536 / page_size, wait_limit: limit as u8, ..SETTINGS };
            let (byte, blocks) = (14 + limit + 256 * 12, u64::from(page_size / 256));
            let page = 12 + 6 * byte + 2 * blocks * (12 + 262 * byte);
            let expected = 16 + 4 * (14 + limit) + u64::from(pages) * page;
            let image = vec![0; (pages * page_size) as usize];
            let record = calls::open(&[0; RECORD_LEN], &image, &settings, 0).record;
            let inputs = || format!("{settings:?}, {pages} pages");
            expect(expected, calls::steps_left(&record).answer.steps, inputs)?;
            if pages == 1 {
                let own = Session::open(&settings, 0, &image).expect("good settings");
                expect(expected, own.most_steps_left(), || format!("our own, {}", inputs()))?;
            }
        }
    }
    Ok(255 * 4)
}
