//! The job, call by call.

use proved::radio;

use super::{filled, unfilled};
use crate::harness::lent::{first_stray, Lent};
use crate::harness::report::{expect, expect_bytes, hex, Failure};
use crate::second::numbers::{BAD_RECORD, BUFFER_TOO_SMALL, OTHER_IMAGE};
use crate::second::radio::job::{End, Job, PAGE};
use crate::second::radio::record::{pack, unpack, RECORD};

/// What an opening is given besides image, mask and data.
#[derive(Clone, Copy, Debug)]
pub struct Room {
    pub record: usize,
    pub out: usize,
}

/// As much as an opening asks for.
pub const ROOM: Room = Room { record: RECORD, out: PAGE };

/// A job on both sides: the record that is lent to the proved calls, and our own job, which they are compared
/// with each time.
pub struct Driven {
    pub record: Vec<u8>,
    pub job: Job,
    /// what is to be sent
    pub message: Vec<u8>,
}

/// Opens a job on both sides; the number that refused it, if one did.
pub fn open(image: &[u8], mask: &[u8], data: &[u8], room: Room) -> Result<Result<Driven, u32>, Failure> {
    let inputs =
        || format!("image of {}, mask of {}, data of {}, {room:?}", image.len(), mask.len(), data.len());
    let (before, record_before) = (unfilled(room.out), unfilled(room.record));
    let (mut record, mut out) = (Lent::copy(&record_before), Lent::copy(&before));
    let (lent_image, lent_mask, lent_data) = (Lent::copy(image), Lent::copy(mask), Lent::copy(data));
    let came = radio::open(
        record.bytes_mut(),
        lent_image.bytes(),
        lent_mask.bytes(),
        lent_data.bytes(),
        out.bytes_mut(),
    );
    let stray = first_stray(&[
        (lent_image.kept(), "the image"),
        (lent_mask.kept(), "the mask"),
        (lent_data.kept(), "the data"),
        (record.guards_kept(), "beside the record"),
        (out.guards_kept(), "beside the message"),
    ]);
    let own = opened(image, mask, data, room);
    let (number, message, expected) = match &own {
        Ok(job) => (0, job.message(image).0, job.message(image).1),
        Err(number) => (*number, Vec::new(), 0),
    };
    let told = radio::Opened { number, send: message.len() as u32, expect: expected as u32 };
    expect(told, came, inputs)?;
    expect(None, stray, inputs)?;
    let record_after = own.as_ref().map_or(record_before.clone(), pack);
    expect_bytes("record", &record_after, record.bytes(), inputs)?;
    expect_bytes("message", &filled(&message, room.out), out.bytes(), inputs)?;
    Ok(own.map(|job| Driven { record: record_after, job, message }))
}

/// Our own opening: 29 and 30 first, then 6 and 26.
fn opened(image: &[u8], mask: &[u8], data: &[u8], room: Room) -> Result<Job, u32> {
    let job = Job::open(image, mask, data)?;
    if room.record != RECORD {
        return Err(BAD_RECORD);
    }
    if room.out < PAGE {
        return Err(BUFFER_TOO_SMALL);
    }
    Ok(job)
}

/// One reply to the job that a record holds, on both sides: the record afterwards, and what our own job then
/// is, or the number that refused the call.
pub fn advance(
    record: &[u8],
    image: &[u8],
    reply: &[u8],
    room: usize,
) -> Result<Result<Driven, u32>, Failure> {
    let inputs = || {
        let numbers = hex(record.get(2 * PAGE..).unwrap_or_default());
        let begin = hex(&reply[..reply.len().min(16)]);
        let (image, long) = (image.len(), reply.len());
        format!("record ending in {numbers}, image of {image}, room {room}, reply of {long}: {begin}")
    };
    let before = unfilled(room);
    let (mut lent, mut out) = (Lent::copy(record), Lent::copy(&before));
    let (lent_image, lent_reply) = (Lent::copy(image), Lent::copy(reply));
    let came = radio::advance(lent.bytes_mut(), lent_image.bytes(), lent_reply.bytes(), out.bytes_mut());
    let stray = first_stray(&[
        (lent_image.kept(), "the image"),
        (lent_reply.kept(), "the reply"),
        (lent.guards_kept(), "beside the record"),
        (out.guards_kept(), "beside the message"),
    ]);
    let own = advanced(record, image, reply, room);
    let (End { number, code, offset }, message, expected) = match &own {
        Ok(job) => (job.told(), job.message(image).0, job.message(image).1),
        Err(number) => (End { number: *number, code: 0, offset: 0 }, Vec::new(), 0),
    };
    let (send, expected_bytes) = (message.len() as u32, expected as u32);
    let told = radio::Advanced { number, code: u32::from(code), offset, send, expect: expected_bytes };
    expect(told, came, inputs)?;
    expect(None, stray, inputs)?;
    let record_after = own.as_ref().map_or(record.to_vec(), pack);
    expect_bytes("record", &record_after, lent.bytes(), inputs)?;
    expect_bytes("message", &filled(&message, room), out.bytes(), inputs)?;
    Ok(own.map(|job| Driven { record: record_after, job, message }))
}

/// Our own call: 6, 7 and 26, then the reply.
fn advanced(record: &[u8], image: &[u8], reply: &[u8], room: usize) -> Result<Job, u32> {
    let mut job = unpack(record).ok_or(BAD_RECORD)?;
    if image.len() != job.image_len {
        return Err(OTHER_IMAGE);
    }
    if room < PAGE {
        return Err(BUFFER_TOO_SMALL);
    }
    job.take(image, reply);
    Ok(job)
}
