//! Sessions that meet trouble: faults of the device and of the wire, and the replies they lead to.

use crate::harness::c2::job::{edges_of_waits, Job};
use crate::harness::c2::pairs::not_met_by;
use crate::harness::random::Random;
use crate::second::c2::session::{Session, FIRST_STEP};

/// What goes wrong on the wire or in the device.
#[derive(Clone, Copy, Debug, PartialEq, Eq)]
pub enum Fault {
    None,
    OtherDevice,
    /// a device that may send more zeros in a WAIT than the session waits for
    SlowDevice,
    /// a device that wants other values in its registers than the session leaves
    OtherPairs,
    MissingPage,
    /// a flash byte that never takes the image's
    StuckByte,
    /// the line reads 0 for some replies
    Low,
    High,
    Noise,
    Inverse,
    BadReply,
}

pub const FAULTS: [Fault; 11] = [
    Fault::None,
    Fault::OtherDevice,
    Fault::SlowDevice,
    Fault::OtherPairs,
    Fault::MissingPage,
    Fault::StuckByte,
    Fault::Low,
    Fault::High,
    Fault::Noise,
    Fault::Inverse,
    Fault::BadReply,
];

/// A fault on the line, from this reply on, for so many.
struct Trouble {
    fault: Fault,
    from: usize,
    count: usize,
}

impl Trouble {
    fn random(random: &mut Random, fault: Fault, pages: usize, wait_limit: usize) -> Trouble {
        // early ones meet the lead and the erase, the others everything after it
        let until = random.pick(&[80, 300, 28_000 * pages]);
        let count = random.pick(&[1, 1, 2, wait_limit - 1, wait_limit, wait_limit + 1, usize::MAX]);
        Trouble { fault, from: random.below(until), count }
    }

    /// The driver's reply where the line itself says this.
    fn reply(&self, index: usize, line: u8, random: &mut Random) -> u8 {
        if index < self.from || index - self.from >= self.count {
            return line;
        }
        match self.fault {
            Fault::Low => 0,
            Fault::High => 1,
            Fault::Noise => random.bit(),
            Fault::Inverse => 1 - line,
            Fault::BadReply => random.between(2, 255) as u8,
            _ => line,
        }
    }
}

/// Mostly prompt, with a delay at the edges of WAIT and poll now and then.
pub fn prompt_delays(random: &mut Random, wait_limit: u8) -> Vec<u8> {
    let count = random.between(50, 400);
    let mut delays: Vec<u8> = (0..count).map(|_| random.pick(&[0, 0, 0, 1, 2])).collect();
    delays[random.below(count)] = random.pick(&edges_of_waits(wait_limit));
    delays[random.below(count)] = random.pick(&[0, wait_limit - 1, 254, 255]);
    delays
}

pub fn random_job(random: &mut Random) -> Job {
    let pages = random.pick(&[1, 1, 1, 2, 3]);
    let mut job = Job::random(random, pages);
    job.device.delays = prompt_delays(random, job.device.settings.wait_limit);
    job
}

/// Puts another device at the end of the wire.
pub fn change_device(job: &mut Job, fault: Fault, random: &mut Random) {
    let device = &mut job.device;
    match fault {
        Fault::OtherDevice => device.settings.device_id ^= 1 << random.below(8),
        Fault::SlowDevice => device.settings.wait_limit = 255,
        Fault::OtherPairs => {
            device.wanted = not_met_by(&device.settings.pairs, device.settings.fpdat, random);
        }
        Fault::MissingPage if job.first_page > 0 => {
            device.settings.page_count = job.first_page as u32;
            device.flash.truncate(device.settings.flash_len() as usize);
        }
        _ => {}
    }
}

/// The replies of a whole session, by our own session and target, and some more that come too late.
pub fn replies_of(job: &mut Job, session: &mut Session, fault: Fault, random: &mut Random) -> Vec<u8> {
    let Job { device, first_page, image } = job;
    let wait_limit = usize::from(session.held().settings.wait_limit);
    let trouble = Trouble::random(random, fault, image.len() / 512, wait_limit);
    let offset = random.below(image.len());
    let stuck = *first_page * device.settings.page_size as usize + offset;
    let mut step = FIRST_STEP;
    let mut replies = Vec::new();
    while session.running() {
        if fault == Fault::StuckByte {
            device.flash[stuck] = !image[offset];
        }
        let reply = trouble.reply(replies.len(), device.step(step), random);
        step = session.reply(reply, image);
        replies.push(reply);
    }
    replies.extend((0..random.below(8)).map(|_| random.byte()));
    replies
}
