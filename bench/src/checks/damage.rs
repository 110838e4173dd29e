//! Records and states with one number changed. Both faces must answer alike, and a refused call changes
//! nothing.

use proved::c2::{Advanced, Pairs, Settings, RECORD_BYTES};
use proved::c2_target::{Replied, State};

use crate::harness::face::Face;
use crate::harness::job::Random;
use crate::harness::ours::Library;
use crate::plain::Plain;

/// So many calls of each kind are wanted, refused and accepted ones.
const WANTED: usize = 10_000;

/// Numbers at which the rules turn: widths, limits, counts.
const EDGES: [u16; 12] = [2, 3, 8, 13, 14, 15, 18, 19, 20, 32, 33, 256];

/// Numbers of two bytes in a record: page size, image offset, act.
const OF_TWO_BYTES: [usize; 3] = [2, 8, 13];

pub struct Damage {
    random: Random,
    refused: usize,
    accepted: usize,
}

/// What `advance` is lent, and what it leaves.
#[derive(Clone)]
struct Lent {
    record: Vec<u8>,
    image: Vec<u8>,
    replies: Vec<u8>,
    steps: Vec<u8>,
    place: usize,
}

impl Lent {
    fn advance<F: Face>(&self) -> (Advanced, Lent) {
        let mut lent = self.clone();
        let Lent { record, image, replies, steps, place } = &mut lent;
        let advanced = F::advance(record, image, replies, steps, *place);
        (advanced, lent)
    }
}

/// What `step` is lent.
#[derive(Clone)]
pub struct Held {
    pub settings: Settings,
    pub wanted: Pairs,
    pub state: State,
    pub flash: Vec<u8>,
}

impl Held {
    fn step<F: Face>(&self, delays: &[u8], step: u8) -> (Replied, Vec<u8>) {
        let mut flash = self.flash.clone();
        let replied = F::step(self.settings, self.wanted, self.state, &mut flash, delays, step);
        (replied, flash)
    }

    /// The numbers of the state that have one byte.
    fn bytes(&mut self) -> [&mut u8; 23] {
        let s = &mut self.state;
        [
            &mut s.point,
            &mut s.heard,
            &mut s.value,
            &mut s.left,
            &mut s.zeros,
            &mut s.effect,
            &mut s.byte,
            &mut s.collision,
            &mut s.address,
            &mut s.on,
            &mut s.keys,
            &mut s.met1,
            &mut s.met2,
            &mut s.met3,
            &mut s.met4,
            &mut s.command,
            &mut s.write,
            &mut s.page,
            &mut s.high,
            &mut s.output,
            &mut s.passed,
            &mut s.busy,
            &mut s.late,
        ]
    }

    fn words(&mut self) -> [&mut u16; 4] {
        let s = &mut self.state;
        [&mut s.start, &mut s.rest, &mut s.next, &mut s.count]
    }
}

impl Damage {
    pub fn new(seed: u64) -> Damage {
        Damage { random: Random::new(seed), refused: 0, accepted: 0 }
    }

    /// Whether many calls of both kinds were compared.
    pub fn enough(&self) -> Result<(), String> {
        if self.refused.min(self.accepted) < WANTED {
            return Err(format!("damage: only {} refused, {} accepted", self.refused, self.accepted));
        }
        Ok(())
    }

    fn count(&mut self, refused: bool) {
        *(if refused { &mut self.refused } else { &mut self.accepted }) += 1;
    }

    fn seldom(&mut self) -> bool {
        self.random.below(32) == 0
    }

    /// Another number in the place of one: near it, at an edge, small, or any.
    fn other(&mut self, number: u16, edge: usize) -> u16 {
        let near = self.random.below(2) as u16;
        match self.random.below(8) {
            0 => number.wrapping_add(1),
            1 => number.wrapping_sub(1),
            2 => edge as u16,
            3 | 4 => EDGES[self.random.below(12) as usize].wrapping_add(near),
            5 => self.random.next() as u16,
            _ => self.random.below(5) as u16,
        }
    }

    fn bit(&mut self) -> u8 {
        if self.seldom() {
            return self.random.next() as u8;
        }
        self.random.below(4).min(1) as u8
    }

    /// One number of a record is changed, and then it is given to both sides.
    pub fn record(&mut self, record: &[u8; RECORD_BYTES], image: &[u8]) -> Result<(), String> {
        let mut record = record.to_vec();
        let at = self.random.below(RECORD_BYTES as u32) as usize;
        if OF_TWO_BYTES.contains(&at) {
            let number = u16::from_le_bytes([record[at], record[at + 1]]);
            record[at..at + 2].copy_from_slice(&self.other(number, image.len()).to_le_bytes());
        } else {
            record[at] = self.other(record[at].into(), image.len()) as u8;
        }
        let mut image = image.to_vec();
        if self.random.below(2) == 0 {
            let page_size = usize::from(u16::from_le_bytes([record[2], record[3]]));
            image.resize(page_size * usize::from(record[6]), 0);
        }
        let replies: Vec<u8> = (0..self.random.below(40)).map(|_| self.bit()).collect();
        let lent = Lent {
            record,
            image,
            steps: vec![0xAA; replies.len() + 8],
            replies,
            place: self.random.below(9) as usize,
        };
        let lent = self.mislaid(lent);
        self.advance(lent)
    }

    /// Now and then a length or the place is wrong.
    fn mislaid(&mut self, mut lent: Lent) -> Lent {
        match self.random.below(64) {
            0 => lent.record.push(0),
            1 => lent.record.truncate(RECORD_BYTES - 1),
            2 => lent.image.push(0),
            3 => lent.place += 1 + self.random.below(9) as usize,
            4 => lent.place = usize::MAX - self.random.below(40) as usize,
            _ => {}
        }
        lent
    }

    fn advance(&mut self, lent: Lent) -> Result<(), String> {
        let (plain, plain_left) = lent.advance::<Plain>();
        let (ours, our_left) = lent.advance::<Library>();
        let Lent { record, replies, place, .. } = &lent;
        if plain != ours {
            return Err(format!(
                "record {record:02X?}, replies {replies:?} from {place} on: plain {plain:?}, ours {ours:?}"
            ));
        }
        if plain_left.record != our_left.record || plain_left.steps != our_left.steps {
            return Err(format!("record {record:02X?}, replies {replies:?}: record or steps differ"));
        }
        let refused = (6..=8).contains(&ours.number);
        if refused && (our_left.record != *record || our_left.steps != lent.steps || ours.taken > 0) {
            return Err(format!("record {record:02X?}: refused, but something has changed"));
        }
        self.count(refused);
        Ok(())
    }

    /// One number of a state is changed, and then it takes a step on both sides.
    pub fn state(&mut self, mut held: Held, delays: &[u8]) -> Result<(), String> {
        match self.random.below(28) as usize {
            at @ 0..23 => {
                let edge = held.settings.page_count as usize;
                let number = &mut *held.bytes()[at];
                *number = self.other((*number).into(), edge) as u8;
            }
            at @ 23..27 => {
                // A block that ends just past the flash: its start goes by its length, and its length by its
                // start.
                let partner = usize::from(*held.words()[(at - 23) ^ 1]);
                let edge = (held.flash.len() + 1).wrapping_sub(partner);
                let number = &mut *held.words()[at - 23];
                *number = self.other(*number, edge);
            }
            _ => held.state.place = u64::MAX >> self.random.below(64),
        }
        let step = if self.seldom() { self.random.next() as u8 } else { self.random.below(8) as u8 };
        let held = self.misplaced(held);
        self.step(held, delays, step)
    }

    /// Now and then the settings, the wanted pairs or the length of the flash are wrong.
    fn misplaced(&mut self, mut held: Held) -> Held {
        let (at, register) = (self.random.below(4) as usize, self.random.below(4) as u8);
        match self.random.below(64) {
            0 => held.settings.fpdat = self.random.below(5) as u8,
            1 => held.settings.page_size = self.random.below(1500),
            2 => held.settings.page_count = self.random.below(200),
            3 => held.settings.page_count = self.random.next(),
            4 => held.flash.push(0),
            5 => held.settings.wait_limit = self.random.below(4) as u8,
            6 => held.settings.pairs.count = self.random.below(7) as u8,
            7 => held.settings.pairs.registers[at] = register,
            8 => held.settings.pairs.registers[at] = held.settings.fpdat,
            9 => held.wanted.count = self.random.below(7) as u8,
            10 => held.wanted.registers[at] = register,
            11 => held.wanted.registers[at] = held.settings.fpdat,
            _ => {}
        }
        held
    }

    fn step(&mut self, held: Held, delays: &[u8], step: u8) -> Result<(), String> {
        let (plain, plain_flash) = held.step::<Plain>(delays, step);
        let (ours, our_flash) = held.step::<Library>(delays, step);
        let Held { settings, wanted, state, flash } = &held;
        let inputs = || format!("{settings:?}, wanted {wanted:?}, {state:?}, step {step}");
        if plain != ours {
            return Err(format!("{}: plain {plain:?}, ours {ours:?}", inputs()));
        }
        if plain_flash != our_flash {
            return Err(format!("{}: the flash differs", inputs()));
        }
        let refused = ours.number != 0;
        if refused && (our_flash != *flash || ours.target != *state || ours.reply != 1) {
            return Err(format!("{}: refused, but something has changed", inputs()));
        }
        self.count(refused);
        Ok(())
    }
}
