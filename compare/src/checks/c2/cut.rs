//! Sessions that are cut (document 02, h): the flash after any number of steps, and the session after that.

use crate::checks::c2::wanted::premise;
use crate::harness::c2::calls;
use crate::harness::c2::closed_loop::ClosedLoop;
use crate::harness::c2::device::Device;
use crate::harness::c2::job::Job;
use crate::harness::c2::model::Proved;
use crate::harness::c2::pairs::{met_by, not_met_by};
use crate::harness::c2::trouble::prompt_delays;
use crate::harness::c2::twins::{Twins, SMALL};
use crate::harness::check::{Check, Run};
use crate::harness::random::Random;
use crate::harness::report::{expect, expect_bytes, expect_that, hex, Checked, Failure};
use crate::second::c2::record::RECORD_LEN;
use crate::second::c2::session::{Progress, Session, FIRST_STEP};
use crate::second::c2::target::Modelled;
use crate::second::numbers;
use crate::second::settings::Pairs;

pub const CHECKS: &[Check] = &[
    Check { name: "our session: when its pages are begun, erased and read back", run: when_pages_come },
    Check { name: "cut: every page after every step", run: every_step },
    Check { name: "cut: a new session, from anywhere in the first", run: new_sessions },
    Check { name: "cut: cuts that follow each other", run: cuts_in_a_row },
];

/// How many steps past the end are looked at.
const PAST_THE_END: u64 = 3;
/// Page size, number of pages, and how many cuts of such a session are followed by a new one.
const NEW_SESSIONS: [(usize, usize, u64); 8] = [
    (512, 1, 80),
    (512, 2, 10),
    (512, 3, 6),
    (512, 4, 4),
    (1024, 1, 10),
    (1024, 2, 4),
    (1024, 3, 3),
    (1024, 4, 2),
];

/// What the device wants of the settings' pairs.
#[derive(Clone, Copy, Debug)]
enum Wanted {
    Nothing,
    Met,
    NotMet,
}

/// A job for some pages of a small flash.
fn small_job(page_size: usize, pages: usize, wanted: Wanted, random: &mut Random) -> Job {
    let mut job = Job::random(random, pages);
    let Job { device, first_page, image } = &mut job;
    // a longer flash is stepped where it stands, which is quicker
    let page_count = SMALL / page_size + random.between(1, 3);
    device.settings.page_size = page_size as u32;
    device.settings.page_count = page_count as u32;
    device.flash = random.bytes(page_size * page_count);
    let limit = device.settings.wait_limit;
    device.delays = if random.bit() == 0 { Vec::new() } else { prompt_delays(random, limit) };
    let pairs = device.settings.pairs;
    match wanted {
        Wanted::Nothing => (device.settings.pairs, device.wanted) = (Pairs::NONE, Pairs::NONE),
        Wanted::Met => device.wanted = met_by(&pairs, random),
        Wanted::NotMet => device.wanted = not_met_by(&pairs, device.settings.fpdat, random),
    }
    *first_page = random.between(0, page_count - pages);
    *image = random_image(random, page_size * pages);
    job
}

/// Any bytes, many of them 0xFF, or none but that or 0x00.
fn random_image(random: &mut Random, len: usize) -> Vec<u8> {
    match random.below(6) {
        0 => vec![random.pick(&[0x00, 0xFF]); len],
        1 | 2 => (0..len).map(|_| if random.bit() == 0 { 0xFF } else { random.byte() }).collect(),
        _ => random.bytes(len),
    }
}

/// The same pages with the same image or another. The flash is still the one before the first session.
fn job_again(job: &Job, random: &mut Random) -> Job {
    let other = random_image(random, job.image.len());
    let image = if random.bit() == 0 { job.image.clone() } else { other };
    Job { device: job.device.clone(), first_page: job.first_page, image }
}

fn is_met(job: &Job) -> bool {
    let named = |pairs: &Pairs| pairs.named().collect::<Vec<_>>();
    premise(&named(&job.device.settings.pairs), &named(&job.device.wanted))
}

/// The same failure, told with where it was met.
fn within(place: impl FnOnce() -> String) -> impl FnOnce(Failure) -> Failure {
    |failure| Failure { inputs: format!("{}: {}", place(), failure.inputs), ..failure }
}

/// What a session was given: the flash before it, and an image for some of its pages.
struct Pages<'a> {
    before: &'a [u8],
    image: &'a [u8],
    first_page: usize,
    page_size: usize,
    met: bool,
}

impl Pages<'_> {
    fn of<'a>(job: &'a Job, before: &'a [u8]) -> Pages<'a> {
        let (page_size, met) = (job.device.settings.page_size as usize, is_met(job));
        Pages { before, image: &job.image, first_page: job.first_page, page_size, met }
    }

    /// The flash at a cut: every page is as before or holds its image, but at most one. A device that wants
    /// other pairs is as before throughout.
    fn compare(&self, progress: Progress, flash: &[u8]) -> Result<(), Failure> {
        let inputs = || format!("{progress:?}");
        if !self.met {
            return expect_bytes("flash that is not touched", self.before, flash, inputs);
        }
        let neither = self.neither(flash);
        expect_that(neither <= 1, "at most one page is neither as before nor its image", neither, inputs)?;
        let pages = self.before.chunks(self.page_size).zip(flash.chunks(self.page_size));
        for (number, (old, now)) in pages.enumerate() {
            self.compare_page(number, old, now, progress)?;
        }
        Ok(())
    }

    /// The image of a page of the flash, if it is named.
    fn image_of(&self, number: usize) -> Option<&[u8]> {
        self.image.chunks(self.page_size).nth(number.wrapping_sub(self.first_page))
    }

    /// How many pages are neither as before nor hold their image.
    fn neither(&self, flash: &[u8]) -> usize {
        let pages = self.before.chunks(self.page_size).zip(flash.chunks(self.page_size)).enumerate();
        pages.filter(|&(number, (old, now))| old != now && self.image_of(number) != Some(now)).count()
    }

    fn compare_page(&self, number: usize, old: &[u8], now: &[u8], progress: Progress) -> Result<(), Failure> {
        let inputs = || format!("page {number}, the first is {}, {progress:?}", self.first_page);
        let at = number.wrapping_sub(self.first_page);
        let Some(image) = self.image_of(number) else {
            return expect_bytes("page not named", old, now, inputs);
        };
        if at < progress.read_back {
            return expect_bytes("page read back", image, now, inputs);
        }
        if at >= progress.begun {
            return expect_bytes("page not yet begun", old, now, inputs);
        }
        if at >= progress.erasing {
            return expect_bytes("page begun and not yet erased", old, now, inputs);
        }
        if now == old || is_written_in_part(image, now) {
            return Ok(());
        }
        let rule = "the page as before, or the first bytes of its image and 0xFF behind them";
        expect_that(false, rule, hex(now), inputs)
    }
}

/// The first bytes of the image, however many, and 0xFF behind them.
fn is_written_in_part(image: &[u8], page: &[u8]) -> bool {
    let written = image.iter().zip(page).take_while(|(a, b)| a == b).count();
    page[written..].iter().all(|&byte| byte == 0xFF)
}

/// Without delays a page is begun after 75 replies, 27 for each pair, and those of the pages before it. Its
/// erase takes 174, of which 120 come before the last put; a block takes 7,086 to write and as many to read.
/// With the reply that ends a read-back the next page is begun.
fn when_pages_come(run: &mut Run) -> Checked {
    let mut cases = 0;
    for (page_size, pages) in page_sizes() {
        let wanted = run.random.pick(&[Wanted::Nothing, Wanted::Met]);
        let mut job = small_job(page_size, pages, wanted, &mut run.random);
        job.device.delays = Vec::new();
        let start = 75 + 27 * u64::from(job.device.settings.pairs.count);
        let whole = 174 + 2 * (page_size as u64 / 256) * 7_086;
        let mut expected = Vec::new();
        for page in 0..pages {
            let begun = start + page as u64 * whole;
            expected.push((begun, Progress { begun: page + 1, ..Progress::all(page) }));
            expected.push((begun + 120, Progress { read_back: page, ..Progress::all(page + 1) }));
        }
        expected.push((start + pages as u64 * whole, Progress::all(pages)));
        expect(expected, changes(&job)?.pages, || job.describe())?;
        cases += 1;
    }
    Ok(cases)
}

/// One to four pages of either size.
fn page_sizes() -> impl Iterator<Item = (usize, usize)> {
    [512, 1024].into_iter().flat_map(|page_size| (1..=4).map(move |pages| (page_size, pages)))
}

/// The replies of a whole session after which something has changed.
struct Changes {
    pages: Vec<(u64, Progress)>,
    flash: Vec<u64>,
    end: u64,
}

/// By our own session and target.
fn changes(job: &Job) -> Result<Changes, Failure> {
    let (mut device, mut session) = (job.device.clone(), job.session()?);
    let (mut flash, mut progress) = (device.flash.clone(), session.progress());
    let mut changes = Changes { pages: Vec::new(), flash: Vec::new(), end: 0 };
    let mut step = FIRST_STEP;
    while session.running() {
        let reply = device.step(step);
        step = session.reply(reply, &job.image);
        changes.end += 1;
        if device.flash != flash {
            flash.clone_from(&device.flash);
            changes.flash.push(changes.end);
        }
        if session.progress() != progress {
            progress = session.progress();
            changes.pages.push((changes.end, progress));
        }
    }
    Ok(changes)
}

/// The proved session and the proved target, one reply to a call, with our own session beside them.
struct Walk<'a> {
    job: &'a Job,
    pages: Pages<'a>,
    device: Device<Proved>,
    record: Vec<u8>,
    session: Session,
    /// times that the flash was looked at
    looks: u64,
}

impl Walk<'_> {
    fn begin(job: &Job) -> Result<Walk<'_>, Failure> {
        let Device { settings, wanted, flash, delays, .. } = &job.device;
        let mut device = Device::new(*settings, flash.clone(), delays.clone());
        device.wanted = *wanted;
        let record = calls::open(&[0; RECORD_LEN], &job.image, settings, job.first_page as u32).record;
        let (pages, session) = (Pages::of(job, flash), job.session()?);
        Ok(Walk { job, pages, device, record, session, looks: 0 })
    }

    fn look(&mut self) -> Result<(), Failure> {
        self.looks += 1;
        self.pages.compare(self.session.progress(), &self.device.flash)?;
        expect(false, self.device.target.collision(), || "the mark".to_string())
    }

    /// To the end and past it; looks before the first step and after each of them, and again once its reply is
    /// taken, if a page has come further by that.
    fn run(&mut self) -> Result<(), Failure> {
        let mut step = FIRST_STEP;
        self.look()?;
        while self.session.running() {
            let reply = self.device.step(step);
            self.look()?;
            let progress = self.session.progress();
            let own = self.session.reply(reply, &self.job.image);
            step = calls::advance_once(&mut self.record, &self.job.image, reply).1;
            expect(own, step, || "the next step".to_string())?;
            if self.session.progress() != progress {
                self.look()?;
            }
        }
        for _ in 0..PAST_THE_END {
            self.device.step(step);
            self.look()?;
        }
        let inputs = || "at the end".to_string();
        let pages = if self.pages.met { self.job.image.len() / self.pages.page_size } else { 0 };
        expect(pages, self.session.progress().read_back, inputs)?;
        expect(outcome(self.job), calls::steps_left(&self.record).answer.number, inputs)
    }
}

/// How the job's sessions end.
fn outcome(job: &Job) -> u32 {
    if is_met(job) {
        numbers::DONE
    } else {
        numbers::BAD_STATUS
    }
}

fn every_step(run: &mut Run) -> Checked {
    let mut looks = 0;
    for _ in 0..run.cases(1, 20) {
        for (page_size, pages) in page_sizes() {
            for wanted in [Wanted::Nothing, Wanted::Met, Wanted::NotMet] {
                let job = small_job(page_size, pages, wanted, &mut run.random);
                let mut walk = Walk::begin(&job)?;
                let walked = walk.run();
                looks += walk.looks;
                walked.map_err(within(|| format!("{}: look {}", job.describe(), walk.looks)))?;
            }
        }
    }
    Ok(looks)
}

/// A cut: after so many replies, and some steps more whose replies are lost.
#[derive(Clone, Copy, Debug)]
struct Cut {
    replies: u64,
    lost: u64,
}

/// The first steps, those at which a page comes further, the end, and those before and after each.
fn edges(changes: &Changes) -> Vec<Cut> {
    let pages = changes.pages.iter().map(|&(replies, _)| replies);
    let around = pages.chain([1, changes.end]).flat_map(|replies| replies - 1..=replies + 1);
    let mut cuts: Vec<_> = around.flat_map(|replies| [0, 1].map(|lost| Cut { replies, lost })).collect();
    cuts.push(Cut { replies: changes.end, lost: PAST_THE_END });
    cuts
}

/// A cut beside a change of the flash, or anywhere.
fn any_cut(changes: &Changes, random: &mut Random) -> Cut {
    let anywhere = random.next() % changes.end;
    let beside = changes.flash.get(random.below(changes.flash.len() + 1)).map(|change| change - 1);
    let replies = random.pick(&[anywhere, beside.unwrap_or(anywhere)]);
    Cut { replies, lost: random.below(2) as u64 }
}

/// So many cuts of a session in their order, at most half of them at its edges.
fn some_cuts(changes: &Changes, count: usize, random: &mut Random) -> Vec<Cut> {
    let mut edges = edges(changes);
    while edges.len() > count / 2 {
        edges.swap_remove(random.below(edges.len()));
    }
    let mut cuts = edges;
    while cuts.len() < count {
        cuts.push(any_cut(changes, random));
    }
    cuts.sort_by_key(|cut| cut.replies);
    cuts
}

/// How many replies a call takes at most.
fn most_replies(random: &mut Random) -> usize {
    random.pick(&[60, 3_000, 100_000])
}

/// The target is what document 02, h, says of the job's session at this point.
fn compare_cut(job: &Job, before: &[u8], session: &Session, left: &Twins) -> Result<(), Failure> {
    left.compare_flash()?;
    Pages::of(job, before).compare(session.progress(), left.flash())?;
    expect(0, left.state().collision, || "the mark".to_string())
}

/// Runs a session that has just begun to its end: within the figure at its opening, as demand 3 says. Bytes
/// that it does not name are as before the first session.
fn finish(mut closed: ClosedLoop, job: &Job, random: &mut Random) -> Result<(), Failure> {
    let inputs = || "at the end of the new session".to_string();
    let figure = calls::steps_left(&closed.driven.record).answer.steps;
    let taken = closed.run(most_replies(random), random)?;
    expect_that(taken <= figure, &format!("at most {figure} replies"), taken, inputs)?;
    expect(outcome(job), calls::steps_left(&closed.driven.record).answer.number, inputs)?;
    closed.twins.compare_flash()?;
    let after = if is_met(job) { job.programmed_flash() } else { job.device.flash.clone() };
    expect_bytes("flash", &after, closed.twins.flash(), inputs)?;
    expect(0, closed.twins.state().collision, inputs)
}

/// Walks along one session; at each cut a new one begins on a copy of the target.
fn cut_and_anew(job: &Job, cuts: &[Cut], random: &mut Random) -> Result<(), Failure> {
    let mut first = ClosedLoop::begin(job, random)?;
    let mut taken = 0;
    for &Cut { replies, lost } in cuts {
        let place = || format!("cut after {replies} replies and {lost} steps");
        taken += first.run_for(replies - taken, most_replies(random), random)?;
        let left = first.left_after(lost)?;
        compare_cut(job, &job.device.flash, &first.driven.session, &left).map_err(within(place))?;
        let again = job_again(job, random);
        let anew = ClosedLoop::anew(left, again.first_page, &again.image, random)?;
        finish(anew, &again, random).map_err(within(place))?;
    }
    Ok(())
}

fn new_sessions(run: &mut Run) -> Checked {
    let mut cases = 0;
    for (page_size, pages, cuts) in NEW_SESSIONS {
        let count = run.cases(cuts, 10 * cuts) as usize;
        let random = &mut run.random;
        for wanted in [random.pick(&[Wanted::Nothing, Wanted::Met]), Wanted::NotMet] {
            let job = small_job(page_size, pages, wanted, random);
            let cuts = some_cuts(&changes(&job)?, count, random);
            cut_and_anew(&job, &cuts, random).map_err(within(|| job.describe()))?;
            cases += cuts.len() as u64;
        }
    }
    Ok(cases)
}

/// Two or three cuts, each of a session that the cut before has left its target; then one that ends.
fn in_a_row(mut job: Job, random: &mut Random) -> Checked {
    let cuts = random.between(2, 3);
    let mut closed = ClosedLoop::begin(&job, random)?;
    for _ in 0..cuts {
        let before = closed.twins.flash().to_vec();
        let until = random.pick(&[2, 80, 300, 8_000, 30_000, 60_000]);
        closed.run_for(random.below(until) as u64, most_replies(random), random)?;
        let left = closed.left_after(random.below(2) as u64)?;
        compare_cut(&job, &before, &closed.driven.session, &left)?;
        job = job_again(&job, random);
        closed = ClosedLoop::anew(left, job.first_page, &job.image, random)?;
    }
    finish(closed, &job, random)?;
    Ok(cuts as u64)
}

fn cuts_in_a_row(run: &mut Run) -> Checked {
    let mut cases = 0;
    for _ in 0..run.cases(40, 1_000) {
        let random = &mut run.random;
        let (page_size, pages) = random.pick(&[(512, 1), (512, 1), (512, 2), (1024, 1)]);
        let wanted = random.pick(&[Wanted::Nothing, Wanted::Met]);
        let job = small_job(page_size, pages, wanted, random);
        let described = job.describe();
        cases += in_a_row(job, random).map_err(within(|| described))?;
    }
    Ok(cases)
}
