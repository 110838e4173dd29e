//! A session driven on both sides, with refused calls and questions in between.

use crate::harness::c2::driver::{ask, open, take, Opening, Taking};
use crate::harness::c2::job::random_wait_limit;
use crate::harness::c2::pairs::any_pairs;
use crate::harness::random::Random;
use crate::harness::report::Failure;
use crate::second::c2::record::{read, RECORD_LEN};
use crate::second::c2::session::Session;
use crate::second::settings::Settings;

/// Mostly a good choice, else a bad or an odd one.
pub fn mostly<T: Copy>(random: &mut Random, good: &[T], odd: &[T]) -> T {
    let choices = if random.below(3) > 0 { good } else { odd };
    random.pick(choices)
}

/// Settings with any number of faults; the odd page counts make products that wrap in 32 bits.
pub fn any_settings(random: &mut Random) -> Settings {
    let odd_sizes = [0, 1, 256, 511, 513, 768, 1023, 1025, 2048, 65_536, 1 << 31, u32::MAX];
    let odd_counts = [0, 64, 65, 127, 128, 129, 255, 256, 65_536, 1 << 22, 1 << 23, (1 << 23) + 1, u32::MAX];
    let fpdat = mostly(random, &[3, 4, 0xB4, 255], &[0, 1, 2]);
    Settings {
        device_id: random.byte(),
        fpdat,
        page_size: mostly(random, &[512, 1024], &odd_sizes),
        page_count: mostly(random, &[1, 2, 5, 32, 64], &odd_counts),
        wait_limit: if random.below(6) == 0 { 0 } else { random_wait_limit(random) },
        pairs: any_pairs(random, fpdat),
    }
}

/// A session on both sides, and what its driver keeps.
pub struct Driven {
    pub session: Session,
    pub record: Vec<u8>,
    pub image: Vec<u8>,
    pub calls: u64,
}

impl Driven {
    pub fn open(
        settings: &Settings,
        first_page: usize,
        image: &[u8],
        random: &mut Random,
    ) -> Result<Driven, Failure> {
        let first_page = first_page as u32;
        let opening = Opening { record: &random.bytes(RECORD_LEN), image, settings: *settings, first_page };
        let opened = open(&opening)?;
        let (session, record) = opened.expect("an opening that our own session accepts");
        Ok(Driven { session, record, image: image.to_vec(), calls: 1 })
    }

    /// An accepted call: the steps go somewhere into a buffer that holds anything. Gives the steps written.
    pub fn take(&mut self, replies: &[u8], random: &mut Random) -> Result<Vec<u8>, Failure> {
        let (place, after) = (spare_room(random), spare_room(random));
        let steps = random.bytes(place + replies.len() + after);
        let (record, image) = (&self.record, &self.image);
        let call = Taking { record, image, replies, steps: &steps, place };
        let came = take(Some(&mut self.session), &call)?;
        self.record = came.record;
        self.calls += 1;
        Ok(came.steps[place..][..came.answer.taken as usize].to_vec())
    }

    /// A call in between that leaves the session where it is: a question, or a call that is refused.
    pub fn in_between(&mut self, random: &mut Random) -> Result<(), Failure> {
        self.calls += 1;
        match random.below(5) {
            0 => ask(Some(&self.session), &self.record),
            1 => ask(None, &wrong_record(random, &self.record)),
            2 => self.refused_opening(random),
            _ => {
                let reasons = random.between(1, 7);
                self.refused_taking(Reasons::of(reasons), random)
            }
        }
    }

    fn refused_opening(&self, random: &mut Random) -> Result<(), Failure> {
        let settings = Settings { page_count: 0, ..any_settings(random) };
        let opening = Opening { record: &self.record, image: &self.image, settings, first_page: 0 };
        open(&opening).map(|_| ())
    }

    /// Where 6 is among the reasons the record lent is another one; else it must come back as it was.
    pub fn refused_taking(&mut self, reasons: Reasons, random: &mut Random) -> Result<(), Failure> {
        let image = if reasons.image { wrong_image(random, &self.image) } else { self.image.clone() };
        let replies = random_replies(random);
        let steps_len = replies.len() + random.below(9);
        let steps = random.bytes(steps_len);
        let place = if reasons.room { no_room(random, replies.len(), steps.len()) } else { 0 };
        let record = if reasons.record { wrong_record(random, &self.record) } else { self.record.clone() };
        let session = if reasons.record { None } else { Some(&mut self.session) };
        let call = Taking { record: &record, image: &image, replies: &replies, steps: &steps, place };
        take(session, &call).map(|_| ())
    }
}

/// Which of 6, 7 and 8 a call gives reason for.
#[derive(Clone, Copy)]
pub struct Reasons {
    record: bool,
    image: bool,
    room: bool,
}

impl Reasons {
    /// Bit 0 is for 6, bit 1 for 7, bit 2 for 8.
    pub fn of(bits: usize) -> Reasons {
        Reasons { record: bits & 1 != 0, image: bits & 2 != 0, room: bits & 4 != 0 }
    }
}

fn spare_room(random: &mut Random) -> usize {
    match random.below(20) {
        0 => random.between(100, 2_000),
        1..=9 => 0,
        _ => random.below(10),
    }
}

/// None, one or a few, bad ones among them.
pub fn random_replies(random: &mut Random) -> Vec<u8> {
    let count = random.pick(&[0, 1, 2, 5, 20]);
    (0..count).map(|_| if random.below(10) == 0 { random.byte() } else { random.bit() }).collect()
}

/// A record of another length, or damaged so that it holds no session in range.
fn wrong_record(random: &mut Random, record: &[u8]) -> Vec<u8> {
    loop {
        let mut wrong = record.to_vec();
        match random.below(3) {
            0 => wrong.resize(random.pick(&[0, 1, 31, 33, 64]), 0),
            _ => wrong[random.below(RECORD_LEN)] = random.byte(),
        }
        if read(&wrong).is_none() {
            return wrong;
        }
    }
}

/// An image of another length: the same bytes, some fewer or some more.
fn wrong_image(random: &mut Random, image: &[u8]) -> Vec<u8> {
    let len = image.len();
    let mut wrong = image.to_vec();
    wrong.resize(random.pick(&[0, 1, len - 512, len - 1, len + 1, len + 512, 2 * len]), 0);
    wrong
}

/// A place from which the steps don't fit; some sums wrap.
fn no_room(random: &mut Random, replies: usize, steps_len: usize) -> usize {
    let least = steps_len + 1 - replies;
    let wraps = 0usize.wrapping_sub(replies);
    let place = random.pick(&[least, least, least + 1, steps_len + 1, usize::MAX, usize::MAX - 1, wraps]);
    place.max(least)
}
