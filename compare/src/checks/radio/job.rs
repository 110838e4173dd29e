//! The job: openings at their edges, whole jobs against the modelled module, bad replies at every place,
//! refused calls between, damaged records.

use crate::harness::check::{Check, Run};
use crate::harness::radio::job::{advance, open, Driven, Room, ROOM};
use crate::harness::radio::module::Module;
use crate::harness::random::Random;
use crate::harness::report::{expect, expect_bytes, Checked, Failure};
use crate::second::numbers::{BAD_RECORD, DONE, ERROR_ANSWER};
use crate::second::radio::command::{frame, INF_ERROR, INF_OK, LIST};
use crate::second::radio::job::{End, PAGE};
use crate::second::radio::module::{FLASH, FRESH};
use crate::second::radio::record::RECORD;

pub const CHECKS: &[Check] = &[
    Check { name: "radio: openings at the edges of every length, and masks", run: openings },
    Check { name: "radio: whole jobs against the module, with refused calls between", run: whole },
    Check { name: "radio: bad replies at every place of a job", run: bad_replies },
    Check { name: "radio: records damaged, byte by byte and at random", run: records },
    Check { name: "radio: records with every number at its edges", run: record_edges },
];

/// A mask that names some bytes, 2 and 3 never.
fn random_mask(random: &mut Random) -> Vec<u8> {
    let mut mask: Vec<u8> = (0..PAGE).map(|_| random.pick(&[0x00, 0xFF])).collect();
    mask[2..4].fill(0);
    mask
}

fn openings(run: &mut Run) -> Checked {
    let mut cases = 0;
    let random = &mut run.random;
    let lengths = [0, 1, 255, 256, 257, 32_255, 32_256, 32_257, 65_536];
    for image_len in lengths {
        for record in [0, RECORD - 1, RECORD, RECORD + 1] {
            for out in [0, 8, 255, 256, 300] {
                let mask = random_mask(random);
                for (mask_len, data_len) in [(256, 256), (255, 256), (256, 257), (0, 0)] {
                    let mask = [&mask[..], &[0]].concat();
                    let (image, data) = (random.bytes(image_len), random.bytes(data_len));
                    let _ = open(&image, &mask[..mask_len], &data, Room { record, out })?;
                    cases += 1;
                }
            }
        }
    }
    for at in 0..PAGE {
        for value in [0x00, 0x01, 0x7F, 0x80, 0xFE, 0xFF] {
            let mut mask = random_mask(random);
            mask[at] = value;
            let (image, data) = (random.bytes(300), random.bytes(PAGE));
            let _ = open(&image, &mask, &data, ROOM)?;
            cases += 1;
        }
    }
    Ok(cases)
}

/// Calls that are refused: a record of another length, another image, no room. They change nothing.
fn refused_calls(random: &mut Random, driven: &Driven, image: &[u8], reply: &[u8]) -> Result<(), Failure> {
    match random.below(8) {
        0 => drop(advance(&driven.record[1..], image, reply, 256)?),
        1 => drop(advance(&driven.record, &image[1..], reply, 256)?),
        2 => drop(advance(&driven.record, image, reply, 255)?),
        3 => drop(open(image, &random_mask(random), &[0; PAGE], Room { out: 255, ..ROOM })?),
        _ => {}
    }
    Ok(())
}

/// The reply of the module to what the job sends; none to a message that it refuses.
fn reply_of(module: &mut Module, driven: &Driven) -> Result<Vec<u8>, Failure> {
    Ok(module.step(&driven.message, 256)?.unwrap_or_default())
}

fn accepted(came: Result<Driven, u32>) -> Result<Driven, Failure> {
    came.map_err(|number| Failure {
        inputs: "a call of a job that runs".into(),
        expected: "accepted".into(),
        came: format!("refused by {number}"),
    })
}

/// What a job leaves: the padded image, then 0xFF; the merge but for bytes 2 and 3; the information page.
fn programmed(before: &[u8], image: &[u8], mask: &[u8], data: &[u8]) -> Vec<u8> {
    let mut flash = vec![0xFF; FLASH];
    flash[..image.len()].copy_from_slice(image);
    for i in (0..PAGE).filter(|i| ![2, 3].contains(i)) {
        flash[0x7F00 + i] = if mask[i] == 0xFF { data[i] } else { before[0x7F00 + i] };
    }
    flash[0x8000..].copy_from_slice(&before[0x8000..]);
    flash
}

fn whole(run: &mut Run) -> Checked {
    let cases = run.cases(40, 2_000);
    for case in 0..cases {
        let random = &mut run.random;
        let len = if case == 0 { 32_256 } else { random.pick(&[1, 255, 256, 257, 700, 1_024, 5_000]) };
        let (image, mask, data) = (random.bytes(len), random_mask(random), random.bytes(PAGE));
        let mut before = random.bytes(FLASH);
        let protected = random.below(5) == 0;
        before[0x7F01] = if protected { 0 } else { random.pick(&[1, 0xFF]) };
        let mut module = Module::fresh(before.clone())?;
        let mut driven = accepted(open(&image, &mask, &data, ROOM)?)?;
        let mut replies = 0;
        while driven.job.at.is_ok() {
            let reply = reply_of(&mut module, &driven)?;
            refused_calls(random, &driven, &image, &reply)?;
            driven = accepted(advance(&driven.record, &image, &reply, 256)?)?;
            replies += 1;
        }
        let inputs = || format!("image of {len}, protected {protected}");
        let (end, flash) = if protected {
            (End { number: ERROR_ANSWER, code: 1, offset: 0 }, before)
        } else {
            (End { number: DONE, code: 0, offset: 0 }, programmed(&before, &image, &mask, &data))
        };
        let long = if protected { 3 } else { 3 * len.div_ceil(PAGE) + 7 };
        expect((end, long, FRESH), (driven.job.told(), replies, module.state), inputs)?;
        expect_bytes("flash", &flash, &module.flash, inputs)?;
        // an ended job repeats itself, whatever the reply
        let again = random.bytes(8);
        let _ = advance(&driven.record, &image, &again, 256)?;
    }
    Ok(cases)
}

/// A reply that is not what was expected, in one of the ways that there are.
fn damage(random: &mut Random, reply: &mut Vec<u8>) {
    match random.below(8) {
        0 => reply.clear(),
        1 => reply.push(0),
        2 => drop(reply.pop()),
        3 => *reply = frame(INF_ERROR, [random.byte(), random.byte(), random.byte()]).to_vec(),
        4 => *reply = frame(INF_OK, [random.byte(), random.byte(), random.byte()]).to_vec(),
        5 => *reply = frame(random.pick(&LIST), [0; 3]).to_vec(),
        _ => {
            if !reply.is_empty() {
                let at = random.below(reply.len());
                reply[at] ^= 1 << random.below(8);
            }
        }
    }
}

fn bad_replies(run: &mut Run) -> Checked {
    let jobs = run.cases(1_500, 60_000);
    let mut cases = 0;
    for _ in 0..jobs {
        let random = &mut run.random;
        let len = random.pick(&[1, 256, 257, 600]);
        let (image, mask, data) = (random.bytes(len), random_mask(random), random.bytes(PAGE));
        let mut before = vec![random.byte(); FLASH];
        before[0x7F01] = 0xFF;
        let mut module = Module::fresh(before)?;
        let mut driven = accepted(open(&image, &mask, &data, ROOM)?)?;
        let bad = random.below(3 * len.div_ceil(PAGE) + 7);
        for taken in 0.. {
            if driven.job.at.is_err() {
                break;
            }
            let mut reply = reply_of(&mut module, &driven)?;
            if taken >= bad {
                damage(random, &mut reply);
            }
            driven = accepted(advance(&driven.record, &image, &reply, 256)?)?;
            cases += 1;
        }
        // what comes after the end changes nothing
        let after = random.bytes(8);
        let again = accepted(advance(&driven.record, &image, &after, 256)?)?;
        expect(driven.record, again.record, || "a call after the end".into())?;
    }
    Ok(cases)
}

/// A record of a job at a random place, or at its end.
fn random_record(random: &mut Random, image: &[u8]) -> Result<Vec<u8>, Failure> {
    let mut driven = accepted(open(image, &random_mask(random), &random.bytes(PAGE), ROOM)?)?;
    let mut module = Module::fresh(vec![0x5A; FLASH])?;
    for _ in 0..random.below(3 * image.len().div_ceil(PAGE) + 8) {
        let mut reply = reply_of(&mut module, &driven)?;
        if random.below(20) == 0 {
            damage(random, &mut reply);
        }
        driven = accepted(advance(&driven.record, image, &reply, 256)?)?;
    }
    Ok(driven.record)
}

fn records(run: &mut Run) -> Checked {
    let image = run.random.bytes(600);
    let ok = frame(INF_OK, [0; 3]);
    let mut cases = 0;
    for record in [vec![0x00; RECORD], vec![0xFF; RECORD], Vec::new()] {
        let refused = advance(&record, &image, &ok, 256)?.err();
        expect(Some(BAD_RECORD), refused, || format!("a record of {}, all alike", record.len()))?;
    }
    for _ in 0..run.cases(30, 1_000) {
        let record = random_record(&mut run.random, &image)?;
        // the numbers at the end with every value, the other bytes with one
        for at in 0..RECORD {
            let values: Vec<u8> = if at < 2 * PAGE { vec![run.random.byte()] } else { (0..=255).collect() };
            for value in values {
                let mut other = record.clone();
                other[at] = value;
                let _ = advance(&other, &image, &ok, 256)?;
                cases += 1;
            }
        }
        for _ in 0..200 {
            let mut other = record.clone();
            for _ in 0..run.random.between(2, 4) {
                let at = 2 * PAGE + run.random.below(8);
                other[at] = run.random.pick(&[0, 1, 2, 3, 28, 32, 42, 43, 88, 0xFF]);
            }
            let long = usize::from(u16::from_le_bytes([other[512], other[513]]));
            let lent = run.random.bytes(long);
            let _ = advance(&other, &lent, &ok, 256)?;
            cases += 1;
        }
    }
    Ok(cases)
}

/// Image length, place in the order, page, number, code and offset at the edges of their ranges, in every
/// combination.
fn record_edges(run: &mut Run) -> Checked {
    let random = &mut run.random;
    let lengths = [0, 1, 255, 256, 257, 600, 32_256, 32_257, 65_535];
    let (page, mask, ok) = (random.bytes(PAGE), random_mask(random), frame(INF_OK, [0; 3]));
    let mut cases = 0;
    for len in lengths {
        let (image, pages) = (random.bytes(len), len.div_ceil(PAGE));
        for stage in 0..=10 {
            for at_page in [0, 1, pages.saturating_sub(1), pages] {
                for number in [0, 28, 32, 42, 43, 44] {
                    let offsets = [0, 1, (pages * PAGE).saturating_sub(1), pages * PAGE, 65_535];
                    for (code, offset) in [0, 1, 255].into_iter().flat_map(|code| offsets.map(|o| (code, o)))
                    {
                        let [len_low, len_high] = (len as u16).to_le_bytes();
                        let [low, high] = (offset as u16).to_le_bytes();
                        let numbers = [len_low, len_high, stage, at_page as u8, number, code, low, high];
                        let record = [&page[..], &mask, &numbers].concat();
                        let _ = advance(&record, &image, &ok, 256)?;
                        cases += 1;
                    }
                }
            }
        }
    }
    Ok(cases)
}
