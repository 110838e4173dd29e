//! The proved target and our own side by side: lent alike, stepped alike, compared after every step.

use std::collections::VecDeque;

use proved::c2_target::{self, Replied, State};

use crate::harness::c2::model::{self, Setup, Stepped};
use crate::harness::c2::state::read;
use crate::harness::report::{expect, expect_bytes, Failure};
use crate::second::c2::steps::OFF;
use crate::second::c2::target::{Modelled, Target};
use crate::second::numbers;
use crate::second::settings::{Pairs, Settings};

/// How many of the last steps a difference is told with.
const TOLD: usize = 100;
/// A flash up to this length is lent in fresh memory, and compared, at every step.
pub const SMALL: usize = 4_096;

/// Numbers of the state that our own target knows by the same names: the place in the delays, the collision
/// mark, the address register, the interface on or off, which wanted pairs are met, and what is left of d and
/// e.
#[derive(Debug, PartialEq, Eq)]
struct Shown {
    place: u64,
    collision: u8,
    address: u8,
    on: u8,
    met: [u8; 4],
    d: u8,
    e: u8,
}

/// 0 in place of what is told of a pair that is not named.
fn of_named(wanted: &Pairs, met: [u8; 4]) -> [u8; 4] {
    std::array::from_fn(|number| if number < usize::from(wanted.count) { met[number] } else { 0 })
}

impl Shown {
    fn of(own: &Target, wanted: &Pairs) -> Shown {
        let (d, e) = (own.busy_reads, own.unready_reads);
        let (collision, on) = (u8::from(own.collision), u8::from(own.interface_on));
        let Pairs { registers, values, .. } = *wanted;
        let met = std::array::from_fn(|number| own.met((registers[number], values[number])).into());
        let met = of_named(wanted, met);
        Shown { place: own.delay_place as u64, collision, address: own.address, on, met, d, e }
    }

    fn by(state: &State, wanted: &Pairs) -> Shown {
        let State { place, collision, address, on, met1, met2, met3, met4, busy: d, late: e, .. } = *state;
        let met = of_named(wanted, [met1, met2, met3, met4]);
        Shown { place, collision, address, on, met, d, e }
    }
}

#[derive(Clone)]
pub struct Twins {
    pub settings: Settings,
    pub wanted: Pairs,
    pub delays: Vec<u8>,
    pub steps: u64,
    own: Target,
    own_flash: Vec<u8>,
    proved: State,
    proved_flash: Vec<u8>,
    last: VecDeque<u8>,
}

impl Twins {
    pub fn fresh(setup: Setup, flash: &[u8], delays: Vec<u8>) -> Twins {
        Twins::new(Target::fresh(), c2_target::fresh(), setup, flash, delays)
    }

    /// Both in this state, none if it names no point.
    pub fn at(state: &State, setup: Setup, flash: &[u8], delays: Vec<u8>) -> Option<Twins> {
        let own = read(state, &setup, flash)?;
        Some(Twins::new(own, *state, setup, flash, delays))
    }

    /// Both in the state that they are in, ours as the numbers tell it.
    pub fn again(&self) -> Option<Twins> {
        Twins::at(&self.proved, self.setup(), &self.own_flash, self.delays.clone())
    }

    fn new(own: Target, proved: State, setup: Setup, flash: &[u8], delays: Vec<u8>) -> Twins {
        let Setup { settings, wanted } = setup;
        let (own_flash, proved_flash) = (flash.to_vec(), flash.to_vec());
        let last = VecDeque::with_capacity(TOLD);
        Twins { settings, wanted, delays, steps: 0, own, own_flash, proved, proved_flash, last }
    }

    pub fn setup(&self) -> Setup {
        Setup { settings: self.settings, wanted: self.wanted }
    }

    pub fn in_frame(&self) -> bool {
        self.own.in_frame()
    }

    pub fn flash(&self) -> &[u8] {
        &self.own_flash
    }

    pub fn state(&self) -> &State {
        &self.proved
    }

    /// Of a step that has been noted and did not yet change the proved state.
    fn describe(&self) -> String {
        let Twins { settings, wanted, delays, steps, proved, last, .. } = self;
        format!(
            "{settings:?}, wanted {wanted:?}, delays {delays:?}, step number {steps}, the last {} steps \
             {last:?}, before it {proved:?}; flash drawn from the seed",
            last.len()
        )
    }

    /// A step on both sides; gives the reply.
    pub fn step(&mut self, step: u8) -> Result<u8, Failure> {
        self.note(step);
        let Twins { settings, wanted, delays, own, own_flash, .. } = self;
        let (number, reply) = own.step(settings, wanted, own_flash, delays, step);
        let came = self.step_proved(step)?;
        expect((number, u32::from(reply)), (came.number, came.reply), || self.describe())?;
        let (own, proved) = (Shown::of(&self.own, &self.wanted), Shown::by(&came.target, &self.wanted));
        expect(own, proved, || self.describe())?;
        if number != numbers::RUNNING || step == OFF {
            expect(self.proved, came.target, || format!("changes nothing; {}", self.describe()))?;
        }
        self.proved = came.target;
        Ok(reply)
    }

    fn note(&mut self, step: u8) {
        if self.last.len() == TOLD {
            self.last.pop_front();
        }
        self.last.push_back(step);
        self.steps += 1;
    }

    fn step_proved(&mut self, step: u8) -> Result<Replied, Failure> {
        let setup = self.setup();
        let Twins { delays, proved, proved_flash, .. } = self;
        if proved_flash.len() > SMALL {
            return Ok(model::step(&setup, proved, proved_flash, delays, step));
        }
        let Stepped { replied, flash, stray } = model::step_lent(&setup, proved, proved_flash, delays, step);
        self.proved_flash = flash;
        self.compare_flash()?;
        expect(None, stray, || self.describe())?;
        Ok(replied)
    }

    pub fn compare_flash(&self) -> Result<(), Failure> {
        expect_bytes("flash", &self.own_flash, &self.proved_flash, || self.describe())
    }

    /// A step on both sides that is lent other settings, other wanted pairs and another flash; both must
    /// refuse it.
    pub fn refused(&mut self, setup: &Setup, flash: &[u8], step: u8) -> Result<(), Failure> {
        let Setup { settings, wanted } = setup;
        let (number, reply) = self.own.step(settings, wanted, &mut flash.to_vec(), &self.delays, step);
        assert_ne!(number, numbers::RUNNING, "{setup:?}, flash of {}, step {step}", flash.len());
        let inputs = || {
            let len = flash.len();
            format!("step {step} with {setup:?} and a flash of {len}, after: {}", self.describe())
        };
        let came = model::step_lent(setup, &self.proved, flash, &self.delays, step);
        let expected = Replied { number, reply: u32::from(reply), target: self.proved };
        expect(expected, came.replied, inputs)?;
        expect_bytes("flash", flash, &came.flash, inputs)?;
        expect(None, came.stray, inputs)
    }
}

/// Refuses to go on from a state that names no point: the settings come first, and any step will do.
pub fn refused_state(
    state: &State,
    setup: &Setup,
    flash: &[u8],
    delays: &[u8],
    step: u8,
) -> Result<(), Failure> {
    let number = setup.refusal().unwrap_or(numbers::NO_POINT);
    let len = flash.len();
    let inputs = || format!("{state:?}, {setup:?}, flash of {len}, delays {delays:?}, step {step}");
    let came = model::step_lent(setup, state, flash, delays, step);
    expect(Replied { number, reply: 1, target: *state }, came.replied, inputs)?;
    expect_bytes("flash", flash, &came.flash, inputs)?;
    expect(None, came.stray, inputs)
}
