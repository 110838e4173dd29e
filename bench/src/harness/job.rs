//! The job that all sides do: one image, one device, one delay list, and a recording of the whole session.

use proved::c2::{Pairs, Settings};

use crate::harness::sides::{Session, Side, Target};
use crate::plain::wire::{Ranges, Step};

/// A device of the program's kind, which the image fills from page 0 on.
const SETTINGS: Settings = Settings {
    device_id: 0x04,
    fpdat: 0xB4,
    page_size: 512,
    page_count: 32,
    wait_limit: 20,
    pairs: Pairs::NONE,
};
const IMAGE_BYTES: usize = 16 * 1024;

pub const OFF: u8 = Step::Off as u8;

pub struct Job {
    pub settings: Settings,
    /// What the device wants before its flash is touched.
    pub wanted: Pairs,
    pub first_page: u32,
    pub image: Vec<u8>,
    pub delays: Vec<u8>,
}

impl Job {
    pub fn new(delays: &[u8]) -> Job {
        let mut random = Random::new(1);
        let image = (0..IMAGE_BYTES).map(|_| random.next() as u8).collect();
        Job { settings: SETTINGS, wanted: Pairs::NONE, first_page: 0, image, delays: delays.to_vec() }
    }

    pub fn blank_flash(&self) -> Vec<u8> {
        vec![0; self.settings.flash_len()]
    }
}

/// The steps of a session and the reply to each.
#[derive(Default)]
pub struct Recording {
    pub steps: Vec<u8>,
    pub replies: Vec<u8>,
}

/// A session wired to a target.
pub struct Wired<S: Side> {
    pub session: S::Session,
    pub target: S::Target,
    pub flash: Vec<u8>,
    pub step: u8,
}

impl<S: Side> Wired<S> {
    pub fn new(job: &Job) -> Wired<S> {
        let (session, step) = S::Session::open(job);
        let target = S::Target::fresh(job);
        Wired { session, target, flash: job.blank_flash(), step }
    }

    /// The target's reply to the step that awaits one.
    #[inline]
    pub fn reply(&mut self, job: &Job) -> u8 {
        self.target.step(self.step, &mut self.flash, &job.delays)
    }

    /// Gives the session a reply, which brings the next step.
    #[inline]
    pub fn take(&mut self, reply: u8, job: &Job) -> u8 {
        self.step = self.session.advance(reply, &job.image);
        self.step
    }

    #[inline]
    pub fn turn(&mut self, job: &Job) -> u8 {
        let reply = self.reply(job);
        self.take(reply, job);
        reply
    }

    /// The session's number, 0 while it runs, and its offset.
    pub fn numbers(&self, job: &Job) -> (u32, u32) {
        self.session.numbers(&job.image)
    }

    pub fn collision(&self) -> bool {
        self.target.collision()
    }

    /// Records the session from here on, at most `limit` replies of it.
    pub fn record(&mut self, job: &Job, limit: usize) -> Recording {
        let mut recording = Recording::default();
        while self.step != OFF && recording.replies.len() < limit {
            recording.steps.push(self.step);
            let reply = self.turn(job);
            recording.replies.push(reply);
        }
        recording
    }
}

/// Small, repeatable random numbers (xorshift64*).
pub struct Random(u64);

impl Random {
    pub fn new(seed: u64) -> Random {
        Random(seed.wrapping_mul(0x9E37_79B9_7F4A_7C15) | 1)
    }

    pub fn next(&mut self) -> u32 {
        self.0 ^= self.0 >> 12;
        self.0 ^= self.0 << 25;
        self.0 ^= self.0 >> 27;
        (self.0.wrapping_mul(0x2545_F491_4F6C_DD1D) >> 32) as u32
    }

    pub fn below(&mut self, bound: u32) -> u32 {
        self.next() % bound
    }

    /// A WAIT limit, mostly one at an edge or near that of old units.
    pub fn wait_limit(&mut self) -> u8 {
        [1, 2, 19, 20, 21, 254, 255, 1 + self.below(255) as u8][self.below(8) as usize]
    }

    /// Pairs for a device with this FPDAT address. Few registers, so that some come twice; any bytes where
    /// none is named.
    pub fn pairs(&mut self, fpdat: u8) -> Pairs {
        let count = [0, 0, 1, 2, 3, 4, 4][self.below(7) as usize];
        let registers = [3, 4, 0xB2, 0xFF].map(|register| if register == fpdat { 5 } else { register });
        let mut pairs = Pairs { count, ..Pairs::NONE };
        for at in 0..4 {
            let named = at < usize::from(count);
            let any = self.next() as u8;
            pairs.registers[at] = if named { registers[self.below(4) as usize] } else { any };
            pairs.values[at] = if named { self.below(3) as u8 } else { any };
        }
        pairs
    }
}
