//! The proved target's states: made up, changed, and reached by steps.
//!
//! Which states name a point is decided by our own reading of document 01; from one that does, however it
//! came about, both targets go on alike.

use proved::c2_target::{self, State};

use super::model::{in_case, random_delays, random_settings, somewhere};
use crate::harness::c2::master::Master;
use crate::harness::c2::model::Setup;
use crate::harness::c2::pairs::{any_pairs, wanted_once};
use crate::harness::c2::twins::{refused_state, Twins};
use crate::harness::check::{Check, Run};
use crate::harness::random::Random;
use crate::harness::report::{expect_that, Checked, Failure};
use crate::second::settings::{Pairs, Settings};

pub const CHECKS: &[Check] = &[
    Check { name: "states: made up", run: made_up },
    Check { name: "states: each number changed to every other value", run: changed_numbers },
    Check { name: "states: reached by steps, and then lent with other settings", run: reached },
    Check { name: "states: random bytes", run: random_bytes },
];

/// What a made-up state is lent with.
struct Lending {
    settings: Settings,
    /// each of another register: what a made-up state tells of them is then true of some writes
    wanted: Pairs,
    flash: Vec<u8>,
    delays: Vec<u8>,
}

impl Lending {
    fn random(random: &mut Random) -> Lending {
        let settings = random_settings(random, 2_048);
        let flash = random.bytes(settings.flash_len() as usize);
        let delays = random_delays(random, settings.wait_limit);
        let wanted = wanted_once(random, settings.fpdat);
        Lending { settings, wanted, flash, delays }
    }

    /// Both targets in this state, none if it names no point; then it must be refused.
    fn twins(&self, state: &State, random: &mut Random) -> Result<Option<Twins>, Failure> {
        let Lending { settings, wanted, flash, delays } = self;
        let setup = Setup { settings: *settings, wanted: *wanted };
        let twins = Twins::at(state, setup, flash, delays.clone());
        if twins.is_none() {
            refused_state(state, &setup, flash, delays, random.byte() % 8)?;
            // where settings or wanted pairs are refused too, they come first
            let settings = Settings { page_count: 0, ..*settings };
            refused_state(state, &Setup { settings, ..setup }, flash, delays, random.byte() % 8)?;
            let wanted = any_pairs(random, settings.fpdat);
            refused_state(state, &Setup { wanted, ..setup }, flash, delays, random.byte() % 8)?;
        }
        Ok(twins)
    }
}

/// A few steps, now and then more or whole frames.
fn go_on(twins: Twins, random: &mut Random) -> Result<(), Failure> {
    let mut master = Master::new(twins, random);
    match master.random.below(16) {
        0..=1 => {
            master.finish_frame()?;
            master.puts_and_gets()
        }
        2 => master.refused_step(),
        3 => master.noise(60),
        _ => master.noise(4),
    }
}

/// Makes numbers up: below their limits, at the edges often, and now and then past them.
struct Maker<'a> {
    random: &'a mut Random,
    /// one number in so many is past its limit, none if this is 0
    past: usize,
}

impl Maker<'_> {
    fn below(&mut self, limit: usize) -> usize {
        if self.past > 0 && self.random.below(self.past) == 0 {
            return limit + self.random.pick(&[0, 0, 1, 100]);
        }
        match self.random.below(4) {
            0 => 0,
            1 => limit - 1,
            _ => self.random.below(limit),
        }
    }

    fn byte_below(&mut self, limit: usize) -> u8 {
        self.below(limit) as u8
    }

    fn state(&mut self, lent: &Lending) -> State {
        let mut state = c2_target::fresh();
        self.point(&mut state, lent.settings.wait_limit);
        self.command(&mut state, lent);
        self.output(&mut state, lent);
        self.device(&mut state, lent.settings.fpdat);
        state
    }

    fn point(&mut self, state: &mut State, wait_limit: u8) {
        state.point = self.byte_below(11);
        match state.point {
            1..=5 => {
                state.heard = self.byte_below(if state.point < 4 { 2 } else { 8 });
                state.value = self.byte_below(1 << state.heard.min(7));
            }
            6 => state.left = 1 + self.byte_below(32),
            7..=8 => {
                let any = (self.byte_below(33), self.byte_below(5));
                let waits = [(0, 2), (0, 0), (8, 4), (16, 0), (24, 0), (32, 0)];
                (state.left, state.effect) = self.random.pick(&waits);
                if self.past > 0 {
                    (state.left, state.effect) = any;
                }
                // a WAIT of one strobe has no later one
                let most = usize::from(wait_limit - 1).max(1);
                state.zeros = if state.point == 8 { self.byte_below(most) } else { 0 };
            }
            9 => {
                state.effect = self.random.pick(&[0, 3, 4]);
                state.left = 1 + self.byte_below(if state.effect == 0 { 32 } else { 8 });
                let most = if state.effect == 0 { 1 } else { 1 << state.left.min(8) };
                state.value = self.byte_below(most);
            }
            10 => state.effect = self.byte_below(5),
            _ => {}
        }
        if [1, 2].contains(&state.effect) {
            state.byte = self.byte_below(256);
        }
    }

    /// One to 256 bytes, and where they begin in the flash.
    fn block(&mut self, flash_len: usize) -> (u16, u16) {
        let count = 1 + self.below(256);
        let start = self.below(flash_len.saturating_sub(count) + 1);
        (start as u16, count as u16)
    }

    fn command(&mut self, state: &mut State, lent: &Lending) {
        state.command = self.byte_below(8);
        match state.command {
            2 => state.page = self.byte_below(lent.settings.page_count as usize),
            3 => state.write = self.byte_below(2),
            4 => (state.write, state.high) = (self.byte_below(2), self.byte_below(256)),
            5 => (state.write, state.start) = (self.byte_below(2), self.below(65_536) as u16),
            6 => (state.start, state.rest) = self.block(lent.flash.len()),
            7 => state.rest = 1 + self.below(256) as u16,
            _ => {}
        }
    }

    fn output(&mut self, state: &mut State, lent: &Lending) {
        state.output = self.byte_below(4);
        match state.output {
            1 => state.passed = self.byte_below(2),
            2..=3 => (state.next, state.count) = self.block(lent.flash.len()),
            _ => {}
        }
        state.busy = self.random.pick(&[0, 0, 1, 2, 255]);
        state.late = self.random.pick(&[0, 0, 1, 2, 255]);
    }

    fn device(&mut self, state: &mut State, fpdat: u8) {
        let any = self.random.byte();
        state.address = self.random.pick(&[0, 2, fpdat, fpdat, fpdat, any]);
        state.on = self.byte_below(2);
        // all three key writes only between two frames
        state.keys = self.byte_below(if state.point == 0 { 4 } else { 3 });
        [state.met1, state.met2, state.met3, state.met4] = [(); 4].map(|()| self.byte_below(2));
        state.collision = self.byte_below(2);
        let any = self.random.next();
        state.place = self.random.pick(&[0, 1, 2, 300, any, u64::MAX - 1, u64::MAX]);
    }
}

fn made_up(run: &mut Run) -> Checked {
    let (lendings, states) = (run.cases(150, 10_000), 100);
    let mut gone_on = 0;
    for case in 0..lendings {
        let lent = Lending::random(&mut run.random);
        for _ in 0..states {
            let past = run.random.pick(&[0, 20]);
            let state = Maker { random: &mut run.random, past }.state(&lent);
            if let Some(twins) = lent.twins(&state, &mut run.random).map_err(in_case(case))? {
                go_on(twins, &mut run.random).map_err(in_case(case))?;
                gone_on += 1;
            }
        }
    }
    assert!(gone_on > lendings * states / 4, "too few states name a point: {gone_on}");
    Ok(lendings * states)
}

/// The numbers of a state, each with its largest value.
type Number = (u64, fn(&mut State, u64));

const NUMBERS: [Number; 28] = [
    (u64::MAX, |s, n| s.place = n),
    (0xFFFF, |s, n| s.start = n as u16),
    (0xFFFF, |s, n| s.rest = n as u16),
    (0xFFFF, |s, n| s.next = n as u16),
    (0xFFFF, |s, n| s.count = n as u16),
    (0xFF, |s, n| s.point = n as u8),
    (0xFF, |s, n| s.heard = n as u8),
    (0xFF, |s, n| s.value = n as u8),
    (0xFF, |s, n| s.left = n as u8),
    (0xFF, |s, n| s.zeros = n as u8),
    (0xFF, |s, n| s.effect = n as u8),
    (0xFF, |s, n| s.byte = n as u8),
    (0xFF, |s, n| s.collision = n as u8),
    (0xFF, |s, n| s.address = n as u8),
    (0xFF, |s, n| s.on = n as u8),
    (0xFF, |s, n| s.keys = n as u8),
    (0xFF, |s, n| s.met1 = n as u8),
    (0xFF, |s, n| s.met2 = n as u8),
    (0xFF, |s, n| s.met3 = n as u8),
    (0xFF, |s, n| s.met4 = n as u8),
    (0xFF, |s, n| s.command = n as u8),
    (0xFF, |s, n| s.write = n as u8),
    (0xFF, |s, n| s.page = n as u8),
    (0xFF, |s, n| s.high = n as u8),
    (0xFF, |s, n| s.output = n as u8),
    (0xFF, |s, n| s.passed = n as u8),
    (0xFF, |s, n| s.busy = n as u8),
    (0xFF, |s, n| s.late = n as u8),
];

/// Every value of a byte; of wider numbers those at the edges of bytes, of blocks and of the flash.
fn values(largest: u64, flash_len: u64) -> Vec<u64> {
    if largest == 0xFF {
        return (0..=0xFF).collect();
    }
    let mut values: Vec<u64> = [0, 256, 512, flash_len - 256, flash_len, 0x8000, 0x1_0000]
        .iter()
        .flat_map(|&edge| [edge.wrapping_sub(1), edge, edge + 1])
        .collect();
    values.extend([largest / 2, largest]);
    values.retain(|&value| value <= largest);
    values
}

/// Good states, each number of which is changed by itself.
fn changed_numbers(run: &mut Run) -> Checked {
    let mut cases = 0;
    for case in 0..run.cases(30, 1_500) {
        let lent = Lending::random(&mut run.random);
        let state = Maker { random: &mut run.random, past: 0 }.state(&lent);
        for (largest, set) in NUMBERS {
            for value in values(largest, lent.flash.len() as u64) {
                let mut changed = state;
                set(&mut changed, value);
                if let Some(twins) = lent.twins(&changed, &mut run.random).map_err(in_case(case))? {
                    go_on(twins, &mut run.random).map_err(in_case(case))?;
                }
                cases += 1;
            }
        }
    }
    Ok(cases)
}

/// A state that steps led to names a point; lent with the settings and the flash of another device it need
/// not, for its page or block may be past the end, and the zeros of its WAIT too many.
fn reached(run: &mut Run) -> Checked {
    let (cases, changes) = (run.cases(120, 8_000), 10);
    for case in 0..cases {
        let mut master = somewhere(case, run).map_err(in_case(case))?;
        master.noise(20).map_err(in_case(case))?;
        let state = *master.twins.state();
        let same = master.twins.again();
        expect_that(same.is_some(), "a state that names a point", state, || format!("case {case}"))?;
        if let Some(twins) = same {
            go_on(twins, &mut run.random).map_err(in_case(case))?;
        }
        for _ in 0..changes {
            let lent = Lending::random(&mut run.random);
            if let Some(twins) = lent.twins(&state, &mut run.random).map_err(in_case(case))? {
                go_on(twins, &mut run.random).map_err(in_case(case))?;
            }
        }
    }
    Ok(cases * (1 + changes))
}

/// Random numbers in all places seldom name a point; fresh ones with a few of them more often.
fn random_bytes(run: &mut Run) -> Checked {
    let cases = run.cases(100_000, 2_000_000);
    let lent = Lending::random(&mut run.random);
    for case in 0..cases {
        let random = &mut run.random;
        let mut state = c2_target::fresh();
        for _ in 0..random.pick(&[1, 2, 3, 28]) {
            let (largest, set) = NUMBERS[random.below(NUMBERS.len())];
            let number = if random.below(2) == 0 { random.below(12) as u64 } else { random.next() };
            set(&mut state, number & largest);
        }
        if let Some(twins) = lent.twins(&state, random).map_err(in_case(case))? {
            go_on(twins, random).map_err(in_case(case))?;
        }
    }
    Ok(cases)
}
