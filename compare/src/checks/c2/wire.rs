//! The proved frames against our own.

use proved::c2_wire::{self, Moved};

use crate::harness::c2::wire;
use crate::harness::check::{Check, Run};
use crate::harness::report::{expect, expect_that, Checked, Failure};
use crate::second::c2::frames::{self, End, Frame, Kind, Place, Played};
use crate::second::c2::steps::{HIGH, LOW, RELEASED};

/// Document 01's limit of a session's WAIT.
const SESSION_LIMIT: usize = 20;

pub const CHECKS: &[Check] = &[
    Check { name: "wire: P1 to P4, literally", run: literal_frames },
    Check { name: "wire: every byte, every number of zeros in a WAIT of 20", run: session_waits },
    Check { name: "wire: every byte, WAITs with other limits", run: other_limits },
    Check { name: "wire: random replies, random limits", run: random_frames },
    Check { name: "wire: only the master's strobes are driven", run: masters_strobes },
    Check { name: "wire: INS codes above 3 and replies above 1", run: wide_numbers },
    Check { name: "wire: places past the end", run: past_the_end },
    Check { name: "wire: WAITs with odd numbers", run: odd_waits },
    Check { name: "wire: any place at all", run: any_place },
];

struct Example {
    kind: Kind,
    byte: u8,
    steps: &'static [u8],
}

/// Document 01's P1 to P4; where there is a WAIT, its first reply is 1.
const EXAMPLES: [Example; 4] = [
    Example { kind: Kind::AddressWrite, byte: 0x02, steps: &[0, 3, 3, 2, 3, 2, 2, 2, 2, 2, 2, 0] },
    Example { kind: Kind::AddressRead, byte: 0, steps: &[0, 2, 3, 0, 0, 0, 0, 0, 0, 0, 0, 0] },
    Example { kind: Kind::DataWrite, byte: 0x04, steps: &[0, 3, 2, 2, 2, 2, 2, 3, 2, 2, 2, 2, 2, 0, 0] },
    Example { kind: Kind::DataRead, byte: 0, steps: &[0, 2, 2, 2, 2, 0, 0, 0, 0, 0, 0, 0, 0, 0, 0] },
];

fn literal_frames(_: &mut Run) -> Checked {
    for example in &EXAMPLES {
        let replies = vec![1; example.steps.len()];
        let byte = if example.kind.reads() { 0xFF } else { 0 };
        let expected = Played { steps: example.steps.to_vec(), end: Some(End::Passed(byte)) };
        let inputs = || format!("{:?} of {:#04x}, all replies 1", example.kind, example.byte);
        let proved = wire::play(example.kind, example.byte, &replies, SESSION_LIMIT);
        expect(&expected, &proved, inputs)?;
        let own = frames::play(example.kind, example.byte, &replies, SESSION_LIMIT as u32);
        expect(&expected, &own, || format!("our own {}", inputs()))?;
    }
    Ok(EXAMPLES.len() as u64)
}

/// One frame to be played: what is written or read, the zeros before the WAIT's 1, and the line
/// wherever the frame does not look at it.
struct Talk {
    kind: Kind,
    byte: u8,
    zeros: usize,
    limit: usize,
    elsewhere: u8,
}

impl Talk {
    fn describe(&self) -> String {
        let Talk { kind, byte, zeros, limit, elsewhere } = self;
        format!(
            "{kind:?} of byte {byte:#04x}, WAIT of {zeros} zeros and a 1, limit {limit}, \
             replies elsewhere the bits of {elsewhere:#04x} in turn"
        )
    }

    fn written(&self) -> u8 {
        if self.kind.reads() {
            !self.byte
        } else {
            self.byte
        }
    }

    /// The replies, written out from document 01's table of frames.
    fn replies(&self) -> Vec<u8> {
        let elsewhere = |count: usize| (0..count).map(|i| self.elsewhere >> (i % 8) & 1);
        let sampled = (0..8).map(|i| self.byte >> i & 1);
        let wait = std::iter::repeat_n(0, self.zeros).chain([1]);
        match self.kind {
            Kind::AddressWrite => elsewhere(12).collect(),
            Kind::AddressRead => elsewhere(3).chain(sampled).chain(elsewhere(1)).collect(),
            Kind::DataWrite => elsewhere(13).chain(wait).chain(elsewhere(1)).collect(),
            Kind::DataRead => elsewhere(5).chain(wait).chain(sampled).chain(elsewhere(1)).collect(),
        }
    }

    /// The end and the number of steps that the frame has then.
    fn end(&self) -> (End, usize) {
        if let Some(before_wait) = wait_strobe(self.kind).filter(|_| self.zeros >= self.limit) {
            return (End::WaitLimit, before_wait + self.limit);
        }
        let byte = if self.kind.reads() { self.byte } else { 0 };
        (End::Passed(byte), self.replies().len())
    }

    fn compare(&self) -> Result<(), Failure> {
        let replies = self.replies();
        let expected = frames::play(self.kind, self.written(), &replies, self.limit as u32);
        let (end, steps) = self.end();
        let inputs = || self.describe();
        expect((Some(end), steps), (expected.end, expected.steps.len()), || {
            format!("our own {}", self.describe())
        })?;
        expect(&expected, &wire::play(self.kind, self.written(), &replies, self.limit), inputs)?;
        compare_places(self.kind, &replies, self.limit, inputs)
    }
}

/// Follows a frame reply by reply: after each one both are at the same place or have the same end.
fn compare_places(
    kind: Kind,
    replies: &[u8],
    limit: usize,
    inputs: impl Fn() -> String,
) -> Result<(), Failure> {
    let mut frame = Frame::begin(kind);
    for (taken, &reply) in replies.iter().enumerate() {
        let place = frame.place();
        let came = wire::follow(kind.ins(), place, reply, limit);
        let end = frame.reply(reply != 0, limit as u32);
        let expected = end.map_or_else(|| wire::within(frame.place()), wire::ended);
        expect(expected, came, || format!("{}; after {taken} replies, {place:?}, reply {reply}", inputs()))?;
        if end.is_some() {
            break;
        }
    }
    Ok(())
}

/// All bytes in all four frames, with these numbers of zeros.
fn every_byte(limit: usize, zeros: &[usize], elsewhere: &[u8]) -> Checked {
    let mut cases = 0;
    for kind in Kind::ALL {
        let zeros = if kind.waits() { zeros } else { &[0] };
        for byte in 0..=255 {
            for &zeros in zeros {
                for &elsewhere in elsewhere {
                    Talk { kind, byte, zeros, limit, elsewhere }.compare()?;
                    cases += 1;
                }
            }
        }
    }
    Ok(cases)
}

fn session_waits(_: &mut Run) -> Checked {
    let zeros: Vec<usize> = (0..=SESSION_LIMIT).collect();
    every_byte(SESSION_LIMIT, &zeros, &[0x00, 0xFF, 0xA5])
}

fn other_limits(run: &mut Run) -> Checked {
    let mut cases = every_byte(1, &[0, 1], &[0x00, 0xFF])?;
    cases += every_byte(2, &[0, 1, 2], &[0x00, 0xFF])?;
    cases += every_byte(255, &[0, 1, 19, 20, 254, 255], &[run.random.byte()])?;
    if run.long {
        for limit in 3..=255 {
            cases += every_byte(limit, &[0, limit / 2, limit - 1, limit], &[run.random.byte()])?;
        }
    }
    Ok(cases)
}

/// Replies of every kind, too few of them also; where a frame stops is the frames' own affair.
fn random_frames(run: &mut Run) -> Checked {
    let cases = run.cases(20_000, 500_000);
    for _ in 0..cases {
        let random = &mut run.random;
        let (kind, byte, limit) = (random.pick(&Kind::ALL), random.byte(), random.between(1, 255));
        let rare = random.between(1, 40);
        let replies: Vec<u8> =
            (0..random.between(0, 300)).map(|_| u8::from(random.below(rare) == 0)).collect();
        let inputs = || format!("{kind:?} of {byte:#04x}, limit {limit}, replies {replies:?}");
        let expected = frames::play(kind, byte, &replies, limit as u32);
        expect(&expected, &wire::play(kind, byte, &replies, limit), inputs)?;
        compare_places(kind, &replies, limit, inputs)?;
    }
    Ok(cases)
}

/// The strobes of each frame's INS, LENGTH, written ADDRESS and written DATA: from 1 to this one.
fn last_driven_strobe(kind: Kind) -> usize {
    match kind {
        Kind::AddressWrite => 2 + 8,
        Kind::AddressRead => 2,
        Kind::DataWrite => 2 + 2 + 8,
        Kind::DataRead => 2 + 2,
    }
}

/// The frame's last strobe, its STOP.
fn stop_strobe(kind: Kind) -> usize {
    if kind.waits() {
        14
    } else {
        11
    }
}

fn masters_strobes(run: &mut Run) -> Checked {
    let mut strobes: Vec<usize> = (0..600).collect();
    strobes.extend(huge_numbers(run));
    for kind in Kind::ALL {
        for byte in 0..=255 {
            for &strobe in &strobes {
                let step = c2_wire::step(kind.ins(), byte, strobe);
                let driven = (1..=last_driven_strobe(kind)).contains(&strobe);
                let inputs = || format!("step of {kind:?} of {byte:#04x}, strobe {strobe}");
                if driven {
                    let rule = "driven: 2 or 3";
                    expect_that(step == LOW || step == HIGH, rule, step, inputs)?;
                } else {
                    expect(RELEASED, step, inputs)?;
                }
            }
        }
    }
    Ok(4 * 256 * strobes.len() as u64)
}

fn wide_numbers(run: &mut Run) -> Checked {
    let mut cases = 0;
    for ins in 0..=255 {
        let byte = run.random.byte();
        for strobe in 0..20 {
            let inputs = || format!("step, INS {ins}, byte {byte:#04x}, strobe {strobe}");
            let (same, came) = (c2_wire::step(ins % 4, byte, strobe), c2_wire::step(ins, byte, strobe));
            expect(same, came, inputs)?;
            for reply in 0..=255 {
                let place = Place { strobe, count: 0, bits: 0 };
                let inputs = || format!("follow, INS {ins}, {place:?}, reply {reply}");
                let same = wire::follow(ins % 4, place, reply.min(1), SESSION_LIMIT);
                expect(same, wire::follow(ins, place, reply, SESSION_LIMIT), inputs)?;
                cases += 1;
            }
        }
    }
    Ok(cases)
}

/// Numbers at the edges of every width up to 32 bits, and some between.
fn huge_numbers(run: &mut Run) -> Vec<usize> {
    const MOST: usize = u32::MAX as usize;
    let mut numbers = Vec::new();
    for width in [8, 15, 16, 31] {
        let edge = 1usize << width;
        numbers.extend([edge - 1, edge, edge + 1]);
    }
    numbers.extend([MOST - 2, MOST - 1, MOST]);
    numbers.extend((0..10).map(|_| run.random.next() as u32 as usize));
    numbers
}

/// A place past the frame's end counts as its STOP: released, and any reply ends the frame.
fn past_the_end(run: &mut Run) -> Checked {
    let huge = huge_numbers(run);
    let mut cases = 0;
    for kind in Kind::ALL {
        let mut strobes: Vec<usize> = (stop_strobe(kind)..300).collect();
        strobes.extend(&huge);
        for &strobe in &strobes {
            for bits in 0..=255 {
                let reply = run.random.bit();
                let place = Place { strobe, count: run.random.pick(&huge), bits };
                let limit = run.random.pick(&huge);
                let inputs = || format!("follow, {kind:?}, {place:?}, reply {reply}, limit {limit}");
                let expected = wire::ended(End::Passed(bits as u8));
                expect(expected, wire::follow(kind.ins(), place, reply, limit), inputs)?;
                cases += 1;
            }
        }
    }
    Ok(cases)
}

/// The strobe that stands for the frame's WAIT.
fn wait_strobe(kind: Kind) -> Option<usize> {
    match kind {
        Kind::DataRead => Some(5),
        Kind::DataWrite => Some(13),
        Kind::AddressRead | Kind::AddressWrite => None,
    }
}

/// The weight of the bit that a strobe samples, 0 where it samples none.
fn sampled_weight(kind: Kind, strobe: usize) -> usize {
    let first = match kind {
        Kind::DataRead => 6,
        Kind::AddressRead => 3,
        Kind::DataWrite | Kind::AddressWrite => return 0,
    };
    if (first..first + 8).contains(&strobe) {
        1 << (strobe - first)
    } else {
        0
    }
}

/// The answer at any place whatever, all sums by mathematics: past the end is STOP, a zero that
/// brings the count to the limit or above refuses, a sampled bit is added within 8 bits, and a
/// strobe that samples none leaves the bits as they were.
fn described(kind: Kind, place: Place, reply: u8, limit: usize) -> Moved {
    let Place { strobe, count, bits } = place;
    if strobe >= stop_strobe(kind) {
        return Moved { kind: c2_wire::STOPPED, strobe: 0, count: 0, bits };
    }
    let next = strobe + 1;
    if wait_strobe(kind) == Some(strobe) {
        return match count.checked_add(1) {
            _ if reply != 0 => wire::within(Place { strobe: next, count: 0, bits }),
            Some(zeros) if zeros < limit => wire::within(Place { count: zeros, ..place }),
            _ => wire::ended(End::WaitLimit),
        };
    }
    let bits = match sampled_weight(kind, strobe) {
        0 => bits,
        weight => (bits % 256 + weight * usize::from(reply != 0)) % 256,
    };
    wire::within(Place { strobe: next, count, bits })
}

fn compare_described(kind: Kind, place: Place, reply: u8, limit: usize) -> Result<(), Failure> {
    let expected = described(kind, place, reply, limit);
    let mut came = wire::follow(kind.ins(), place, reply, limit);
    // outside a WAIT the count means nothing while the frame goes on
    if expected.kind == c2_wire::WITHIN && wait_strobe(kind) != Some(place.strobe) {
        came.count = expected.count;
    }
    let inputs = || format!("follow, {kind:?}, {place:?}, reply {reply}, limit {limit}");
    expect(expected, came, inputs)
}

/// WAITs with every pair of count and limit, the largest numbers too.
fn odd_waits(run: &mut Run) -> Checked {
    let mut numbers: Vec<usize> = (0..=SESSION_LIMIT + 1).collect();
    numbers.extend(huge_numbers(run));
    let mut cases = 0;
    for kind in Kind::ALL {
        let Some(strobe) = wait_strobe(kind) else { continue };
        for &count in &numbers {
            for &limit in &numbers {
                for reply in [0, 1] {
                    compare_described(kind, Place { strobe, count, bits: 0 }, reply, limit)?;
                    cases += 1;
                }
            }
        }
    }
    Ok(cases)
}

fn any_place(run: &mut Run) -> Checked {
    let mut numbers: Vec<usize> = (0..=20).collect();
    numbers.extend(huge_numbers(run));
    let cases = run.cases(200_000, 5_000_000);
    for _ in 0..cases {
        let random = &mut run.random;
        let kind = random.pick(&Kind::ALL);
        let [strobe, count, bits, limit] = [0; 4].map(|_| random.pick(&numbers));
        let reply = random.pick(&[0, 0, 1, 2, 255]);
        compare_described(kind, Place { strobe, count, bits }, reply, limit)?;
    }
    Ok(cases)
}
