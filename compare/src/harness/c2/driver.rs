//! Makes each call on the proved code and on our own session, and compares all that comes back. After each
//! one both sides are asked how much is left.

use proved::c2::{Advanced, Opened, Remaining};

use crate::harness::c2::calls::{self, Called};
use crate::harness::report::{expect, expect_bytes, hex, Failure};
use crate::second::c2::record::{pack, read, RECORD_LEN};
use crate::second::c2::session::{Session, FIRST_STEP};
use crate::second::c2::steps::OFF;
use crate::second::numbers;
use crate::second::settings::Settings;

/// What is longer is drawn from the seed again rather than read from the screen.
const SHOWN: usize = 2_048;

/// What an opening is lent.
pub struct Opening<'a> {
    pub record: &'a [u8],
    pub image: &'a [u8],
    pub settings: Settings,
    pub first_page: u32,
}

/// What a call that takes replies is lent.
pub struct Taking<'a> {
    pub record: &'a [u8],
    pub image: &'a [u8],
    pub replies: &'a [u8],
    pub steps: &'a [u8],
    pub place: usize,
}

fn show(bytes: &[u8]) -> String {
    let content = if bytes.len() > SHOWN { "drawn from the seed".to_string() } else { hex(bytes) };
    format!("{} bytes ({content})", bytes.len())
}

impl Opening<'_> {
    fn describe(&self) -> String {
        let Opening { record, image, settings, first_page } = self;
        let image = image.len();
        format!("opening: {settings:?}, first page {first_page}, image of {image}, record {}", hex(record))
    }

    /// Our own session, or the number of the refusal.
    fn own(&self) -> Result<Session, u32> {
        if self.record.len() != RECORD_LEN {
            return Err(numbers::BAD_RECORD);
        }
        Session::open(&self.settings, self.first_page, self.image)
    }
}

impl Taking<'_> {
    fn describe(&self) -> String {
        let Taking { record, image, replies, steps, place } = self;
        format!(
            "taking replies: record {}, image of {}, {} replies {replies:?}, step buffer of {}, place {place}",
            hex(record),
            show(image),
            replies.len(),
            show(steps),
        )
    }
}

/// Opens on both sides; gives our session and the record of the proved one, if they were accepted.
pub fn open(call: &Opening) -> Result<Option<(Session, Vec<u8>)>, Failure> {
    let session = call.own();
    let (answer, record) = match &session {
        Err(number) => (Opened { number: *number, step: u32::from(OFF) }, call.record.to_vec()),
        Ok(session) => {
            let answer = Opened { number: numbers::RUNNING, step: u32::from(FIRST_STEP) };
            (answer, pack(&session.held()).to_vec())
        }
    };
    let inputs = || call.describe();
    let came = calls::open(call.record, call.image, &call.settings, call.first_page);
    expect(answer, came.answer, inputs)?;
    expect_bytes("record", &record, &came.record, inputs)?;
    expect(None, came.stray, inputs)?;
    let Ok(session) = session else {
        // the record that was lent may hold any session, or none
        let held = read(&came.record).map(|held| Session::resume(&held));
        ask(held.as_ref(), &came.record)?;
        return Ok(None);
    };
    ask(Some(&session), &came.record)?;
    Ok(Some((session, came.record)))
}

/// Takes replies on both sides. `session` is our session that the record holds, none if it holds none in
/// range. Gives what the proved code gave.
pub fn take(mut session: Option<&mut Session>, call: &Taking) -> Result<Called<Advanced>, Failure> {
    let mut steps = call.steps.to_vec();
    let (answer, record) = match &mut session {
        None => (Advanced { number: numbers::BAD_RECORD, offset: 0, taken: 0 }, call.record.to_vec()),
        Some(session) => {
            let own = session.advance(call.image, call.replies, &mut steps, call.place);
            let (number, offset) = (own.outcome.number, own.outcome.offset as u32);
            (Advanced { number, offset, taken: own.taken as u64 }, pack(&session.held()).to_vec())
        }
    };
    let inputs = || call.describe();
    let came = calls::advance(call.record, call.image, call.replies, call.steps, call.place);
    expect(answer, came.answer, inputs)?;
    expect_bytes("record", &record, &came.record, inputs)?;
    expect_bytes("step buffer", &steps, &came.steps, inputs)?;
    expect(None, came.stray, inputs)?;
    ask(session.as_deref(), &came.record)?;
    Ok(came)
}

/// Asks both sides how much is left. `session` is as above; the record must stay as it is.
pub fn ask(session: Option<&Session>, record: &[u8]) -> Result<(), Failure> {
    let answer = match session {
        None => Remaining { number: numbers::BAD_RECORD, steps: 0 },
        Some(session) => Remaining { number: session.outcome().number, steps: session.most_steps_left() },
    };
    let inputs = || format!("asking how much is left: record {}", hex(record));
    let came = calls::steps_left(record);
    expect(answer, came.answer, inputs)?;
    expect_bytes("record", record, &came.record, inputs)?;
    expect(None, came.stray, inputs)
}
