//! Pairs of register and value in the settings (document 02, e): the answers that its words give, literally,
//! beside those of our own session and record. What a target wants of them is in `wanted`.

use proved::c2_target;

use crate::harness::c2::calls;
use crate::harness::c2::model::{self, Setup};
use crate::harness::c2::pairs::random_pairs;
use crate::harness::c2::reasons::{Reasons, OF_PAIRS, TESTS};
use crate::harness::check::{Check, Run};
use crate::harness::report::{expect, expect_bytes, hex as hex_of, Checked, Failure};
use crate::second::c2::record::{self, pack, read, Record, RECORD_LEN};
use crate::second::c2::session::{Held, Outcome, Session, State};
use crate::second::c2::steps::{OFF, PAUSE};
use crate::second::numbers;
use crate::second::settings::{Pairs, Settings};

pub const CHECKS: &[Check] = &[
    Check { name: "pairs: 19 wherever 18 is tested, after it", run: refusals },
    Check { name: "pairs: every register in every place, and every count", run: every_register },
    Check { name: "pairs: an Address Write and a Data Write each, after the wait", run: order },
    Check { name: "pairs: the most steps to come, for every count and limit", run: figures },
    Check { name: "pairs: the record, byte by byte", run: records },
    Check { name: "pairs: points of the record", run: points },
];

const SETTINGS: Settings = Settings {
    device_id: 0x04,
    fpdat: 0xB4,
    page_size: 512,
    page_count: 32,
    wait_limit: 20,
    pairs: Pairs::NONE,
};
const IMAGE: [u8; 512] = [0x55; 512];

/// More than four, a register below 3, one that is the FPDAT address.
const BAD: [Pairs; 5] = [
    Pairs { count: 5, registers: [3, 4, 5, 6], values: [0; 4] },
    Pairs { count: 255, registers: [3, 4, 5, 6], values: [0; 4] },
    Pairs { count: 1, registers: [2, 3, 3, 3], values: [0; 4] },
    Pairs { count: 3, registers: [3, 255, 0, 6], values: [1, 2, 3, 4] },
    Pairs { count: 4, registers: [3, 4, 5, SETTINGS.fpdat], values: [0; 4] },
];
/// None of these; what is not named is not looked at.
const GOOD: [Pairs; 4] = [
    Pairs { count: 0, registers: [0, 2, SETTINGS.fpdat, 1], values: [9; 4] },
    Pairs { count: 1, registers: [3, 2, SETTINGS.fpdat, 0], values: [0; 4] },
    Pairs { count: 3, registers: [255, 3, 255, SETTINGS.fpdat], values: [0, 1, 2, 3] },
    Pairs { count: 4, registers: [SETTINGS.fpdat - 1, SETTINGS.fpdat + 1, 3, 3], values: [0xFF; 4] },
];

/// Every call that tests 18, for every choice of reasons.
fn refusals(_: &mut Run) -> Checked {
    let mut cases = 0;
    for bits in 0..1 << TESTS.len() {
        let lists: &[Pairs] = if bits >> OF_PAIRS & 1 == 1 { &BAD } else { &GOOD };
        for &pairs in lists {
            let reasons = Reasons { bits, good: Settings { pairs, ..SETTINGS } };
            reasons.opening()?;
            reasons.hex_writer()?;
            reasons.hex_reader()?;
            model_step(&reasons)?;
            cases += 4;
        }
    }
    Ok(cases)
}

/// With wanted pairs that are refused, a flash of another length (17) and a step that is none (16) besides.
fn model_step(reasons: &Reasons) -> Result<(), Failure> {
    let right_len = SETTINGS.flash_len() as usize;
    for (wanted, len, step, otherwise) in [
        (BAD[0], 511, 1, numbers::BAD_PAIRS),
        (BAD[4], right_len, 0, numbers::BAD_PAIRS),
        (GOOD[1], 511, 1, numbers::NO_POINT),
        (GOOD[2], right_len, 1, numbers::NO_STEP),
        (GOOD[3], right_len, 0, numbers::RUNNING),
    ] {
        let setup = Setup { settings: reasons.settings(), wanted };
        let came = model::step_lent(&setup, &c2_target::fresh(), &vec![0; len], &[], step).replied.number;
        let expected = reasons.of_settings().unwrap_or(otherwise);
        expect(expected, came, || format!("step {step} with {setup:?}, flash of {len}"))?;
    }
    Ok(())
}

/// The numbers that the opening gives for these pairs, and the model for them as the settings' and as its
/// own.
fn numbers_of(fpdat: u8, pairs: Pairs) -> [u32; 3] {
    let without = Settings { fpdat, ..SETTINGS };
    let settings = Settings { pairs, ..without };
    let stepped = |settings, wanted| {
        let flash = &mut vec![0; SETTINGS.flash_len() as usize];
        model::step(&Setup { settings, wanted }, &c2_target::fresh(), flash, &[], OFF).number
    };
    [
        calls::open(&[0; RECORD_LEN], &IMAGE, &settings, 0).answer.number,
        stepped(settings, Pairs::NONE),
        stepped(without, pairs),
    ]
}

/// 19 for a register below 3 or equal to the FPDAT address, if it is named, or for more than four pairs.
fn every_register(_: &mut Run) -> Checked {
    let mut cases = 0;
    for fpdat in [3, 4, 0xB4, 255] {
        for (count, place, register) in
            (0..=4).flat_map(|n| (0..4).flat_map(move |p| (0..=255).map(move |r| (n, p, r))))
        {
            let mut pairs = Pairs { count, registers: [0x10; 4], values: [register; 4] };
            pairs.registers[place] = register;
            let refused = place < usize::from(count) && (register < 3 || register == fpdat);
            let number = if refused { numbers::BAD_PAIRS } else { numbers::RUNNING };
            expect([number; 3], numbers_of(fpdat, pairs), || format!("FPDAT {fpdat}, {pairs:?}"))?;
            cases += 1;
        }
        for count in 5..=255 {
            for registers in [[0x10; 4], [0; 4], [fpdat; 4]] {
                let pairs = Pairs { count, registers, values: [0; 4] };
                let came = numbers_of(fpdat, pairs);
                expect([numbers::BAD_PAIRS; 3], came, || format!("FPDAT {fpdat}, {pairs:?}"))?;
                cases += 1;
            }
        }
    }
    Ok(cases)
}

/// The eight strobes that drive a byte, lowest bit first.
fn driven(byte: u8) -> impl Iterator<Item = u8> {
    (0..8).map(move |bit| if byte >> bit & 1 == 1 { 3 } else { 2 })
}

fn address_write(address: u8) -> Vec<u8> {
    [0, 3, 3].into_iter().chain(driven(address)).chain([0]).collect()
}

/// The WAIT has one strobe.
fn data_write(byte: u8) -> Vec<u8> {
    [0, 3, 2, 2, 2].into_iter().chain(driven(byte)).chain([0, 0]).collect()
}

/// Replies of the lead: reset, ID, reset, Address Write, three keys, the wait of 20 ms.
const LEAD: usize = 1 + 15 + 1 + 12 + 3 * 15 + 1;

/// A line that is always 1 gives the ID 0xFF and ends every WAIT at once.
fn order(run: &mut Run) -> Checked {
    let cases = run.cases(3_000, 100_000);
    for _ in 0..cases {
        let pairs = random_pairs(&mut run.random, SETTINGS.fpdat);
        let settings = Settings { device_id: 0xFF, pairs, ..SETTINGS };
        let mut expected = vec![PAUSE];
        for number in 0..usize::from(pairs.count) {
            expected.extend(address_write(pairs.registers[number]));
            expected.extend(data_write(pairs.values[number]));
        }
        // the first page's first frame
        expected.extend(address_write(settings.fpdat));
        let replies = vec![1; LEAD - 2 + expected.len()];
        let record = calls::open(&[0; RECORD_LEN], &IMAGE, &settings, 0).record;
        let came = calls::advance(&record, &IMAGE, &replies, &vec![0xEE; replies.len()], 0);
        expect_bytes("steps", &expected, &came.steps[LEAD - 2..], || format!("{settings:?}, replies of 1"))?;
    }
    Ok(cases)
}

/// The figure grows by 26 + L for each pair; at the start of each pair it counts those that are left.
fn figures(_: &mut Run) -> Checked {
    let mut cases = 0;
    for limit in 1..=255 {
        for count in 0..=4 {
            let pairs = Pairs { count, registers: [3, 4, 3, 255], values: [0; 4] };
            let settings = Settings { wait_limit: limit as u8, pairs, ..SETTINGS };
            let page = 12 + 6 * (3_086 + limit) + 4 * (12 + 262 * (3_086 + limit));
            let mut record = calls::open(&[0; RECORD_LEN], &IMAGE, &settings, 0).record;
            let inputs = || format!("{settings:?}, one page");
            let figure = |record: &[u8]| calls::steps_left(record).answer.steps;
            let start = 16 + 4 * (14 + limit) + u64::from(count) * (26 + limit) + page;
            expect(start, figure(&record), inputs)?;
            let own = Session::open(&settings, 0, &IMAGE).expect("good settings");
            expect(start, own.most_steps_left(), || format!("our own, {}", inputs()))?;
            for number in 0..count {
                (record[record::STAGE], record[record::PAGE]) = (5, number);
                let left = u64::from(count - number) * (26 + limit) + page + 1;
                expect(left, figure(&record), || format!("{}, pair {number}", inputs()))?;
                record[record::ACT] = 1;
                expect(left - 12, figure(&record), || format!("{}, the value of pair {number}", inputs()))?;
                record[record::ACT] = 0;
            }
            cases += 1;
        }
    }
    Ok(cases)
}

/// Byte 19 is the number of pairs, 20 to 27 are register and value of each in turn, 0 where none is named;
/// all behind is 0.
fn records(_: &mut Run) -> Checked {
    let (registers, values) = ([0xB3, 3, 255, 3], [0x00, 0xFF, 0x5A, 0x01]);
    let mut cases = 0;
    for count in 0..=4 {
        let named = usize::from(count);
        let mut expected = [0; RECORD_LEN - 18];
        expected[..2].copy_from_slice(&[SETTINGS.wait_limit, count]);
        for number in 0..named {
            expected[2 + 2 * number..][..2].copy_from_slice(&[registers[number], values[number]]);
        }
        let opened = |rest: u8| {
            let mut pairs = Pairs { count, registers, values };
            pairs.registers[named..].fill(rest);
            pairs.values[named..].fill(rest);
            calls::open(&[0xEE; RECORD_LEN], &IMAGE, &Settings { pairs, ..SETTINGS }, 0).record
        };
        let record = opened(0);
        expect_bytes("record from byte 18 on", &expected, &record[18..], || format!("{count} pairs"))?;
        for rest in [1, 2, SETTINGS.fpdat, 0xEE, 255] {
            expect_bytes("record", &record, &opened(rest), || {
                format!("{count} pairs, {rest} where none is named")
            })?;
        }
        let held = read(&record).expect("a record in range");
        let differs = Outcome { number: numbers::COMPARE_DIFFERS, offset: 511 };
        for state in [held.state, State::Ended(Outcome::of(numbers::DONE)), State::Ended(differs)] {
            cases += every_byte(&pack(&Held { state, ..held }), named)?;
        }
    }
    Ok(cases)
}

/// Every value of every byte from 19 on.
fn every_byte(record: &Record, named: usize) -> Checked {
    let number = u32::from(record[record::NUMBER]);
    let mut cases = 0;
    for at in 19..RECORD_LEN {
        for byte in 0..=255 {
            let mut changed = *record;
            changed[at] = byte;
            let in_range = match at {
                19 => usize::from(byte) == named,
                _ if at >= 20 + 2 * named => byte == 0,
                20 | 22 | 24 | 26 => byte >= 3 && byte != SETTINGS.fpdat,
                _ => true,
            };
            asked(&changed, in_range.then_some(number))?;
            cases += 1;
        }
    }
    Ok(cases)
}

/// The question, a call without replies, and our own reading; without a number it holds no session in range.
fn asked(record: &Record, number: Option<u32>) -> Result<(), Failure> {
    let inputs = || format!("record {}", hex_of(record));
    expect(number.is_some(), read(record).is_some(), inputs)?;
    let expected = number.unwrap_or(numbers::BAD_RECORD);
    expect(expected, calls::steps_left(record).answer.number, inputs)?;
    expect(expected, calls::advance(record, &IMAGE, &[], &[], 0).answer.number, inputs)
}

/// Stage 5 has the number of a pair, an Address Write and a Data Write with its WAIT, and nothing else.
fn points(_: &mut Run) -> Checked {
    let mut cases = 0;
    for count in 0..=4 {
        let pairs = Pairs { count, registers: [3; 4], values: [0; 4] };
        let record = calls::open(&[0; RECORD_LEN], &IMAGE, &Settings { pairs, ..SETTINGS }, 0).record;
        let record: Record = record.try_into().expect("a record");
        for (number, block, act) in [0, 1, 2, 3, 4, 5, 255]
            .into_iter()
            .flat_map(|number| [0, 1].map(move |block| (number, block)))
            .flat_map(|(number, block)| [0, 1, 2, 256].map(move |act| (number, block, act)))
        {
            let mut there = record;
            record::set(&mut there, record::STAGE, 5);
            record::set(&mut there, record::PAGE, number);
            record::set(&mut there, record::BLOCK, block);
            record::set(&mut there, record::ACT, act);
            let exists = number < usize::from(count) && block == 0 && act < 2;
            cases += every_place(there, exists, act == 1)?;
        }
    }
    Ok(cases)
}

fn every_place(mut record: Record, exists: bool, writes: bool) -> Checked {
    let (strobes, wait) = if writes { (15, Some(13)) } else { (12, None) };
    let mut cases = 0;
    for strobe in (0..17).chain([255]) {
        for zeros in [0, 1, SETTINGS.wait_limit - 1, SETTINGS.wait_limit, 255] {
            for bits in [0, 1, 128] {
                (record[record::STROBE], record[record::COUNT], record[record::BITS]) = (strobe, zeros, bits);
                let most = if Some(strobe) == wait { SETTINGS.wait_limit - 1 } else { 0 };
                let in_range = exists && strobe < strobes && zeros <= most && bits == 0;
                asked(&record, in_range.then_some(numbers::RUNNING))?;
                cases += 1;
            }
        }
    }
    Ok(cases)
}
