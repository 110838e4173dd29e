//! All sides must do the same job before their times mean anything.

use proved::c2::{Pairs, Settings};
use proved::c2_run::Run;

use crate::checks::damage::Damage;
use crate::harness::job::{Job, Random, Recording, Wired, OFF};
use crate::harness::ours::Library;
use crate::harness::sides::{Kept, Side};
use crate::plain::wire::named;
use crate::plain::Plain;

/// Every side on the same job, in lock-step.
struct Sides {
    kept: Wired<Kept>,
    plain: Wired<Plain>,
    ours: Wired<Library>,
}

impl Sides {
    fn new(job: &Job) -> Sides {
        Sides { kept: Wired::new(job), plain: Wired::new(job), ours: Wired::new(job) }
    }

    /// The targets' reply to the step that awaits one.
    fn reply(&mut self, job: &Job) -> Result<u8, String> {
        let (kept, plain, ours) = (self.kept.reply(job), self.plain.reply(job), self.ours.reply(job));
        if (kept, plain) != (ours, ours) || self.plain.target.state != self.ours.target.state {
            return Err(format!("replies {kept}, {plain} and {ours}, or the states differ"));
        }
        Ok(ours)
    }

    /// Gives the sessions a reply.
    fn take(&mut self, reply: u8, job: &Job) -> Result<(), String> {
        let kept = self.kept.take(reply, job);
        let (plain, ours) = (self.plain.take(reply, job), self.ours.take(reply, job));
        if (kept, plain) != (ours, ours) || self.plain.session.record != self.ours.session.record {
            return Err(format!("steps {kept}, {plain} and {ours}, or the records differ"));
        }
        Ok(())
    }

    /// The number and offset that all end with.
    fn end(&self, job: &Job) -> Result<(u32, u32), String> {
        let ours = self.ours.numbers(job);
        let (kept, plain) = (self.kept.numbers(job), self.plain.numbers(job));
        if (kept, plain) != (ours, ours) {
            return Err(format!("they end with {kept:?}, {plain:?} and {ours:?}"));
        }
        let flash = &self.ours.flash;
        let mark = self.ours.collision();
        if [&self.kept.flash, &self.plain.flash] != [flash; 2]
            || [self.kept.collision(), self.plain.collision()] != [mark; 2]
        {
            return Err("the flash or the collision mark differs".into());
        }
        Ok(ours)
    }
}

/// The whole session, recorded: all sides must give the same steps, replies, records, states, outcome and
/// flash.
pub fn recorded(job: &Job) -> Result<Recording, String> {
    let mut sides = Sides::new(job);
    let mut recording = Recording::default();
    while sides.ours.step != OFF {
        let place = |words| format!("step {}: {words}", recording.steps.len());
        let step = sides.ours.step;
        let reply = sides.reply(job).map_err(place)?;
        sides.take(reply, job).map_err(place)?;
        recording.steps.push(step);
        recording.replies.push(reply);
    }
    if sides.end(job)? != (32, 0) || sides.ours.flash != job.image {
        return Err("the session did not program the image".into());
    }
    programs_agree(job, recording.replies.len())?;
    Ok(recording)
}

/// Enough for a whole session without delays.
const BUDGET: usize = 1 << 20;

/// The whole loop in one call, as far as the budget goes.
fn programs_agree(job: &Job, steps: usize) -> Result<(), String> {
    let (mut plain_flash, mut our_flash) = (job.blank_flash(), job.blank_flash());
    let plain = Plain::program(job, &mut plain_flash, BUDGET);
    let ours = Library::program(job, &mut our_flash, BUDGET);
    let replies = steps.min(BUDGET);
    let number = if replies == steps { 32 } else { 0 };
    let expected = Run { number, offset: 0, replies, collision: false };
    if [plain, ours] != [expected; 2] || plain_flash != our_flash {
        return Err(format!("in one call: plain {plain:?}, ours {ours:?}, or the flash differs"));
    }
    Ok(())
}

const TROUBLED_SESSIONS: u64 = 500;

/// Sessions on a bad line. They must end alike, and between them in every way that the rules have and a call
/// can reach. Their records are damaged now and then, for a call of its own.
pub fn troubled_sessions_agree() -> Result<(), String> {
    let mut seen = [false; 33];
    let mut damage = Damage::new(0);
    for seed in 0..TROUBLED_SESSIONS {
        let number = troubled_session(seed, &mut damage)
            .map_err(|words| format!("troubled session {seed}: {words}"))?;
        seen[number as usize] = true;
    }
    damage.enough()?;
    match [9, 10, 11, 12, 13, 14, 32].into_iter().find(|&number| !seen[number]) {
        Some(number) => Err(format!("no troubled session ended with {number}")),
        None => Ok(()),
    }
}

/// Turns from one damaged record to the next, and damaged records of an ended session.
const DAMAGED: u32 = 23;

/// One such session, in lock-step; its number.
fn troubled_session(seed: u64, damage: &mut Damage) -> Result<u32, String> {
    let mut random = Random::new(seed);
    let job = small_job(&mut random);
    let mut sides = Sides::new(&job);
    let (trouble, from) = (Trouble::any(&mut random), random.below(60_000) >> random.below(16));
    let mut turn = 0;
    while sides.ours.step != OFF {
        if turn % DAMAGED == 0 {
            damage.record(&sides.ours.session.record, &job.image)?;
        }
        let place = |words| format!("turn {turn}: {words}");
        let reply = sides.reply(&job).map_err(place)?;
        let reply = if turn < from { reply } else { trouble.reply(reply, &mut random) };
        sides.take(reply, &job).map_err(place)?;
        turn += 1;
    }
    (0..DAMAGED).try_for_each(|_| damage.record(&sides.ours.session.record, &job.image))?;
    Ok(sides.end(&job)?.0)
}

fn small_job(random: &mut Random) -> Job {
    let page_size = 512 << random.below(2);
    let page_count = 1 + random.below(3);
    let fpdat = 3 + random.below(253) as u8;
    let settings = Settings {
        device_id: random.next() as u8,
        fpdat,
        page_size,
        page_count,
        wait_limit: random.wait_limit(),
        pairs: random.pairs(fpdat),
    };
    let pages = 1 + random.below(page_count.min(2));
    let longest = [1, 3, 20, 40][random.below(4) as usize];
    Job {
        settings,
        wanted: if random.below(8) == 0 { random.pairs(fpdat) } else { last_pair(&settings.pairs) },
        first_page: random.below(page_count - pages + 1),
        image: (0..pages * page_size).map(|_| random.next() as u8).collect(),
        delays: (0..random.below(9)).map(|_| random.below(longest) as u8).collect(),
    }
}

/// The last pair alone, which a session leaves in its register; none of none.
fn last_pair(pairs: &Pairs) -> Pairs {
    named(pairs).last().map_or(Pairs::NONE, |(register, value)| Pairs {
        count: 1,
        registers: [register; 4],
        values: [value; 4],
    })
}

/// What a bad line does to the replies from some turn on.
enum Trouble {
    None,
    Stuck(u8),
    NoBit,
    /// One reply in so many is flipped.
    Flips(u32),
}

impl Trouble {
    fn any(random: &mut Random) -> Trouble {
        match random.below(8) {
            0 => Trouble::None,
            1 => Trouble::NoBit,
            2 => Trouble::Stuck(0),
            3 => Trouble::Stuck(1),
            _ => Trouble::Flips([8, 40, 400][random.below(3) as usize]),
        }
    }

    fn reply(&self, reply: u8, random: &mut Random) -> u8 {
        match *self {
            Trouble::None => reply,
            Trouble::Stuck(level) => level,
            Trouble::NoBit => 2,
            Trouble::Flips(one_in) => reply ^ u8::from(random.below(one_in) == 0),
        }
    }
}
