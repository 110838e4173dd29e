//! The proved target against our own, step by step.

use proved::c2_target::{self, Replied};

use crate::harness::c2::job::{edges_of_waits, random_wait_limit};
use crate::harness::c2::master::Master;
use crate::harness::c2::model::{self, Setup};
use crate::harness::c2::pairs::{random_pairs, random_wanted};
use crate::harness::c2::twins::Twins;
use crate::harness::check::{Check, Run};
use crate::harness::random::Random;
use crate::harness::report::{expect, Checked, Failure};
use crate::second::numbers;
use crate::second::settings::Settings;

pub const CHECKS: &[Check] = &[
    Check { name: "target: frames and commands", run: commands },
    Check { name: "target: frames and commands with steps gone wrong", run: wrong_steps },
    Check { name: "target: frames and commands in large flashes", run: large_flashes },
    Check { name: "target: steps without any order", run: noise },
    Check { name: "target: refused steps, at any point", run: refused_steps },
    Check { name: "target: null for slices of length 0", run: nulls },
];

/// Settings of a device with at most so much flash.
pub fn random_settings(random: &mut Random, most_bytes: usize) -> Settings {
    let page_size = random.pick(&[512, 1024.min(most_bytes)]);
    let page_count = random.between(1, most_bytes / page_size);
    let any = random.between(3, 255) as u8;
    let fpdat = random.pick(&[3, any, any, 255]);
    Settings {
        device_id: random.byte(),
        fpdat,
        page_size: page_size as u32,
        page_count: page_count as u32,
        wait_limit: random_wait_limit(random),
        pairs: random_pairs(random, fpdat),
    }
}

/// Settings, and a device that wants any pairs of its own.
fn random_setup(random: &mut Random, most_bytes: usize) -> Setup {
    let settings = random_settings(random, most_bytes);
    Setup { settings, wanted: random_wanted(random, settings.fpdat) }
}

/// An FPDAT address with which neither list is refused.
fn random_fpdat(random: &mut Random, setup: &Setup) -> u8 {
    loop {
        let fpdat = random.between(3, 255) as u8;
        let settings = Settings { fpdat, ..setup.settings };
        if (Setup { settings, ..*setup }).refusal().is_none() {
            return fpdat;
        }
    }
}

/// Lists of any length, the empty one too; most delays are small, for others make long polls.
pub fn random_delays(random: &mut Random, wait_limit: u8) -> Vec<u8> {
    let count = random.pick(&[0, 1, 2, 3, 7, 40, 300]);
    let mostly = random.pick(&[1, 3, 6]);
    (0..count)
        .map(|_| match random.below(60) {
            0 => random.pick(&edges_of_waits(wait_limit)),
            1 => random.pick(&[254, 255]),
            2 => random.byte(),
            _ => random.below(mostly) as u8,
        })
        .collect()
}

pub fn fresh_twins(random: &mut Random, most_bytes: usize) -> Twins {
    let setup = random_setup(random, most_bytes);
    let flash = random.bytes(setup.settings.flash_len() as usize);
    Twins::fresh(setup, &flash, random_delays(random, setup.settings.wait_limit))
}

/// Talks to a fresh twins for about so many steps; gives the steps taken.
fn talk(mut master: Master, steps: u64) -> Checked {
    while master.twins.steps < steps {
        // what is lent may be another list of delays, another address of FPDAT, and outside of frames another
        // WAIT limit
        if master.random.below(8) == 0 {
            master.twins.delays = random_delays(master.random, master.twins.settings.wait_limit);
        }
        if !master.twins.in_frame() && master.random.below(16) == 0 {
            master.twins.settings.wait_limit = random_wait_limit(master.random);
        }
        if master.random.below(16) == 0 {
            master.twins.settings.fpdat = random_fpdat(master.random, &master.twins.setup());
            master.twins.settings.device_id = master.random.byte();
        }
        master.connect()?;
        for _ in 0..master.random.between(1, 6) {
            master.command()?;
        }
        if master.random.below(6) == 0 {
            master.stray_frame()?;
        }
    }
    Ok(master.twins.steps)
}

/// Where in the seed's order a difference was found.
pub fn in_case(case: u64) -> impl Fn(Failure) -> Failure {
    move |failure| Failure { inputs: format!("case {case}: {}", failure.inputs), ..failure }
}

fn commands(run: &mut Run) -> Checked {
    let mut steps = 0;
    for case in 0..run.cases(50, 2_000) {
        let twins = fresh_twins(&mut run.random, 2_048);
        let mut master = Master::new(twins, &mut run.random);
        master.astray = master.random.pick(&[0, 0, 400, 40]);
        steps += talk(master, 20_000).map_err(in_case(case))?;
    }
    Ok(steps)
}

fn wrong_steps(run: &mut Run) -> Checked {
    let mut steps = 0;
    for case in 0..run.cases(150, 4_000) {
        let twins = fresh_twins(&mut run.random, 2_048);
        let mut master = Master::new(twins, &mut run.random);
        master.wrong = master.random.pick(&[20, 100, 500, 3_000]);
        master.astray = master.random.pick(&[0, 40]);
        steps += talk(master, 10_000).map_err(in_case(case))?;
    }
    Ok(steps)
}

/// Every other flash is the largest there is.
fn large_flashes(run: &mut Run) -> Checked {
    let mut steps = 0;
    for case in 0..run.cases(64, 2_000) {
        let random = &mut run.random;
        let mut setup = random_setup(random, 65_536);
        if case % 2 == 0 {
            setup.settings.page_count = 65_536 / setup.settings.page_size;
        }
        let flash = random.bytes(setup.settings.flash_len() as usize);
        let twins = Twins::fresh(setup, &flash, random_delays(random, setup.settings.wait_limit));
        let mut master = Master::new(twins, random);
        master.wrong = master.random.pick(&[0, 3_000]);
        master.astray = master.random.pick(&[0, 40]);
        steps += talk(master, 10_000).map_err(in_case(case))?;
    }
    Ok(steps)
}

/// A master in the midst of things: mostly with the interface on, and a command begun or done.
pub fn somewhere<'a>(case: u64, run: &'a mut Run) -> Result<Master<'a>, Failure> {
    let twins = fresh_twins(&mut run.random, 1_024);
    let mut master = Master::new(twins, &mut run.random);
    let depth = case % 4;
    if depth > 0 {
        master.connect()?;
    }
    if depth > 1 {
        master.command()?;
    }
    if depth > 2 {
        master.puts_and_gets()?;
    }
    Ok(master)
}

fn noise(run: &mut Run) -> Checked {
    let mut steps = 0;
    for case in 0..run.cases(500, 20_000) {
        let mut master = somewhere(case, run).map_err(in_case(case))?;
        master.noise(1_000).map_err(in_case(case))?;
        steps += master.twins.steps;
    }
    Ok(steps)
}

/// Every reason for a refusal, alone and with others, at points all over the frames and commands.
fn refused_steps(run: &mut Run) -> Checked {
    let (cases, refusals) = (run.cases(200, 5_000), 50);
    for case in 0..cases {
        let mut master = somewhere(case, run).map_err(in_case(case))?;
        for _ in 0..refusals {
            master.noise(3).map_err(in_case(case))?;
            master.refused_step().map_err(in_case(case))?;
        }
    }
    Ok(cases * refusals)
}

fn nulls(run: &mut Run) -> Checked {
    let setup = random_setup(&mut run.random, 512);
    let mut state = c2_target::fresh();
    let inputs = || "null pointers with length 0".to_string();
    for step in 0..8 {
        let refused = Replied { number: numbers::NO_POINT, reply: 1, target: state };
        expect(refused, model::step_on_nothing(&setup, &state, step), inputs)?;
    }
    // a whole Data Read of the ID, whose WAIT takes a delay
    let mut sampled = 0;
    let mut flash = [0; 512];
    for (strobe, step) in [0, 2, 2, 2, 2, 0, 0, 0, 0, 0, 0, 0, 0, 0, 0].into_iter().enumerate() {
        let replied = model::step_without_delays(&setup, &state, &mut flash, step);
        expect(numbers::RUNNING, replied.number, inputs)?;
        sampled |= replied.reply << strobe;
        state = replied.target;
    }
    // the ID stands after START, INS, LENGTH and the WAIT's 1
    expect(u32::from(setup.settings.device_id), sampled >> 6 & 0xFF, inputs)?;
    Ok(8 + 15)
}
