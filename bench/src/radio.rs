//! The radio module: a job of 32,256 bytes and the modelled module, beside plain Rust.

use std::hint::black_box;
use std::ops::Range;

use proved::radio::{self, Advanced, Opened, Replied, Target};

use crate::harness::job::Random;
use crate::harness::measure::{self, Work};
use crate::harness::tables::Tables;
use crate::plain::radio as plain;

const PAGE: usize = 256;
const IMAGE: usize = 126 * PAGE;
const RECORD: usize = 520;
const FLASH: usize = 129 * PAGE;
const DONE: u32 = 32;

/// The replies of a job, by which a repetition is told.
const REPLIES: usize = 3 * 126 + 7;

/// Calls with something damaged on which both sides must agree.
const DAMAGED: usize = 20_000;

#[derive(Clone, Copy)]
struct Side {
    open: fn(&mut [u8], &[u8], &[u8], &[u8], &mut [u8]) -> Opened,
    advance: fn(&mut [u8], &[u8], &[u8], &mut [u8]) -> Advanced,
    step: fn(Target, &mut [u8], &[u8], &mut [u8]) -> Replied,
}

const PLAIN: Side = Side { open: plain::open, advance: plain::advance, step: plain::step };
const OURS: Side = Side { open: radio::open, advance: radio::advance, step: radio::step };

struct Inputs {
    image: Vec<u8>,
    mask: [u8; PAGE],
    data: [u8; PAGE],
    flash: Vec<u8>,
}

impl Inputs {
    fn new(random: &mut Random) -> Inputs {
        let mut byte = || random.next() as u8;
        let image = (0..IMAGE).map(|_| byte()).collect();
        let mut mask = [0; PAGE].map(|_| if byte() < 128 { 0 } else { 0xFF });
        mask[2..4].fill(0);
        let data = [0; PAGE].map(|_| byte());
        let mut flash: Vec<u8> = (0..FLASH).map(|_| byte()).collect();
        flash[127 * PAGE + 1] = 0xFF;
        Inputs { image, mask, data, flash }
    }
}

/// A job and a module on their way.
#[derive(Clone, PartialEq, Debug)]
struct Played {
    record: [u8; RECORD],
    out: [u8; PAGE],
    at: Advanced,
    target: Target,
    reply: [u8; PAGE],
    flash: Vec<u8>,
}

impl Played {
    fn open(side: Side, inputs: &Inputs) -> Played {
        let (mut record, mut out) = ([0; RECORD], [0; PAGE]);
        let Inputs { image, mask, data, flash } = inputs;
        let Opened { number, send, expect } = (side.open)(&mut record, image, mask, data, &mut out);
        let at = Advanced { number, code: 0, offset: 0, send, expect };
        let target = Target { point: 0, page: 0, left: 0 };
        Played { record, out, at, target, reply: [0; PAGE], flash: flash.clone() }
    }

    fn turn(&mut self, side: Side, image: &[u8]) {
        let send = self.at.send as usize;
        let replied = (side.step)(self.target, &mut self.flash, &self.out[..send], &mut self.reply);
        self.target = replied.target;
        let reply = &self.reply[..replied.reply as usize];
        self.at = (side.advance)(&mut self.record, image, reply, &mut self.out);
    }
}

/// What a row does with the recorded job.
#[derive(Clone, Copy)]
enum Row {
    Job,
    Module,
    Both,
}

/// Every repetition runs the whole job.
struct Whole<'a> {
    row: Row,
    side: Side,
    inputs: &'a Inputs,
    recorded: &'a [Played],
    flash: Vec<u8>,
}

impl Work for Whole<'_> {
    fn restart(&mut self) {
        self.flash.copy_from_slice(&self.inputs.flash);
    }

    fn run(&mut self, _: Range<usize>) {
        let Whole { row, side, inputs, recorded, flash } = self;
        match row {
            Row::Job => {
                let Played { mut record, mut out, .. } = Played::open(*side, inputs);
                for before in recorded.windows(2) {
                    let reply = &before[1].reply[..before[0].at.expect as usize];
                    black_box((side.advance)(&mut record, &inputs.image, reply, &mut out));
                }
            }
            Row::Module => {
                let mut reply = [0; PAGE];
                for before in &recorded[..REPLIES] {
                    let message = &before.out[..before.at.send as usize];
                    black_box((side.step)(before.target, flash, message, &mut reply));
                }
            }
            Row::Both => {
                let mut played = Played::open(*side, inputs);
                while played.at.number == 0 {
                    played.turn(*side, &inputs.image);
                }
                black_box(&played);
            }
        }
    }
}

/// Both sides play the job; every buffer is the same after each reply.
fn recorded(inputs: &Inputs) -> Result<Vec<Played>, String> {
    let (mut plain, mut ours) = (Played::open(PLAIN, inputs), Played::open(OURS, inputs));
    let mut recorded = vec![ours.clone()];
    while plain == ours && ours.at.number == 0 {
        plain.turn(PLAIN, &inputs.image);
        ours.turn(OURS, &inputs.image);
        recorded.push(ours.clone());
    }
    let replies = recorded.len() - 1;
    if plain != ours || ours.at.number != DONE || replies != REPLIES {
        return Err(format!("the radio job differs at reply {replies}: {:?}, {:?}", plain.at, ours.at));
    }
    Ok(recorded)
}

/// A point of the job with one byte of the record, the reply or the message changed, and its state now and then.
fn damaged_agree(inputs: &Inputs, recorded: &[Played], random: &mut Random) -> Result<(), String> {
    for case in 0..DAMAGED {
        let mut below = |most: usize| random.next() as usize % most;
        let mut before = recorded[below(recorded.len() - 1)].clone();
        let (mut reply, bit) = (before.reply, 1u8 << below(8));
        match below(3) {
            0 => before.record[below(RECORD)] ^= bit,
            1 => reply[below(8)] ^= bit,
            _ => before.out[below(8)] ^= bit,
        }
        if below(8) == 0 {
            before.target =
                Target { point: below(5) as u32, page: below(130) as u32, left: below(130) as u32 };
        }
        let long = if below(8) == 0 { below(PAGE) } else { before.at.expect as usize };
        let call = |side: Side, mut now: Played| {
            let at = (side.advance)(&mut now.record, &inputs.image, &reply[..long], &mut now.out);
            let message = &before.out[..before.at.send as usize];
            let replied = (side.step)(now.target, &mut now.flash, message, &mut now.reply);
            (at, replied, now)
        };
        if call(PLAIN, before.clone()) != call(OURS, before.clone()) {
            return Err(format!("damaged radio call {case} differs"));
        }
    }
    Ok(())
}

pub fn table(tables: &mut Tables, repeat: usize) -> Result<(), String> {
    let mut random = Random::new(3);
    let inputs = black_box(Inputs::new(&mut random));
    let recorded = recorded(&inputs)?;
    damaged_agree(&inputs, &recorded, &mut random)?;
    let more = format!(", image of {IMAGE} bytes: {REPLIES} replies to a job, {repeat} repetitions");
    tables.begin("radio module", &more, "ns a reply");
    let rows = [("job", Row::Job), ("module", Row::Module), ("job against the module", Row::Both)];
    for (title, row) in rows {
        let work =
            |side| Whole { row, side, inputs: &inputs, recorded: &recorded, flash: inputs.flash.clone() };
        tables.row(title, &measure::interleaved(&mut work(PLAIN), &mut work(OURS), REPLIES, repeat));
    }
    Ok(())
}
