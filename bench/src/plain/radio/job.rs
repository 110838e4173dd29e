//! The job. It works on the record where it lies: a page, the mask, and eight bytes of numbers.

use proved::radio::{Advanced, Opened};

use super::*;

const RECORD: usize = 2 * PAGE + 8;
const NUMBERS: usize = 2 * PAGE;
const MOST_BYTES: usize = 126 * PAGE;

/// The message that was sent last, or how the job ended.
#[derive(Clone, Copy)]
enum Point {
    ReadConfiguration,
    Configuration,
    WriteArea,
    Feed(u8),
    WriteConfiguration,
    Merged,
    Byte0,
    Read(u8),
    Page(u8),
    Byte1,
    Ended { number: u8, code: u8, offset: u16 },
}

fn is_mask(mask: &[u8]) -> bool {
    mask.len() == PAGE && mask[2] == 0 && mask[3] == 0 && mask.iter().all(|&byte| byte == 0 || byte == 0xFF)
}

fn ended(number: u32) -> Point {
    Point::Ended { number: number as u8, code: 0, offset: 0 }
}

fn image_len(record: &[u8; RECORD]) -> usize {
    usize::from(u16::from_le_bytes([record[NUMBERS], record[NUMBERS + 1]]))
}

/// A page of the image, filled up with 0xFF.
fn put_page(image: &[u8], page: u8, out: &mut [u8; PAGE]) {
    let start = usize::from(page) * PAGE;
    let part = &image[start..image.len().min(start + PAGE)];
    out[..part.len()].copy_from_slice(part);
    out[part.len()..].fill(0xFF);
}

impl Point {
    /// The point that a record holds, if it is a job's.
    fn held(record: &[u8; RECORD]) -> Option<Point> {
        let len = image_len(record);
        let &[_, _, stage, page, number, code, low, high] = record.last_chunk::<8>()?;
        let (offset, pages) = (u16::from_le_bytes([low, high]), len.div_ceil(PAGE));
        if len == 0 || len > MOST_BYTES || !is_mask(&record[PAGE..NUMBERS]) {
            return None;
        }
        if number != 0 {
            let fits = match u32::from(number) {
                BAD_MESSAGE | DONE => code == 0 && offset == 0,
                ERROR_ANSWER => offset == 0,
                PAGE_DIFFERS => code == 0 && usize::from(offset) < pages * PAGE,
                _ => false,
            };
            return (fits && stage == 0 && page == 0).then_some(Point::Ended { number, code, offset });
        }
        let has_page = usize::from(page) < pages;
        let point = match stage {
            0 => Point::ReadConfiguration,
            1 => Point::Configuration,
            2 => Point::WriteArea,
            3 if has_page => Point::Feed(page),
            4 => Point::WriteConfiguration,
            5 => Point::Merged,
            6 => Point::Byte0,
            7 if has_page => Point::Read(page),
            8 if has_page => Point::Page(page),
            9 => Point::Byte1,
            _ => return None,
        };
        let unused = page == 0 || matches!(stage, 3 | 7 | 8);
        (code == 0 && offset == 0 && unused).then_some(point)
    }

    /// What the record tells of it.
    fn told(self) -> [u8; 6] {
        let running = |stage, page| [stage, page, 0, 0, 0, 0];
        match self {
            Point::ReadConfiguration => running(0, 0),
            Point::Configuration => running(1, 0),
            Point::WriteArea => running(2, 0),
            Point::Feed(page) => running(3, page),
            Point::WriteConfiguration => running(4, 0),
            Point::Merged => running(5, 0),
            Point::Byte0 => running(6, 0),
            Point::Read(page) => running(7, page),
            Point::Page(page) => running(8, page),
            Point::Byte1 => running(9, 0),
            Point::Ended { number, code, offset } => {
                let [low, high] = offset.to_le_bytes();
                [0, 0, number, code, low, high]
            }
        }
    }

    /// The point after a reply; the old configuration is merged into the record.
    fn after(self, record: &mut [u8; RECORD], image: &[u8], reply: &[u8]) -> Point {
        let last = image.len().div_ceil(PAGE) as u8 - 1;
        match self {
            Point::ReadConfiguration => answered(reply, Point::Configuration),
            Point::Configuration if reply.len() == PAGE => {
                let (page, mask) = record.split_at_mut(PAGE);
                for ((byte, &mask), &old) in page.iter_mut().zip(&*mask).zip(reply) {
                    *byte = if mask == 0 { old } else { *byte };
                }
                Point::WriteArea
            }
            Point::WriteArea => answered(reply, Point::Feed(0)),
            Point::Feed(page) if page == last => answered(reply, Point::WriteConfiguration),
            Point::Feed(page) if reply.is_empty() => Point::Feed(page + 1),
            Point::WriteConfiguration => answered(reply, Point::Merged),
            Point::Merged => answered(reply, Point::Byte0),
            Point::Byte0 => answered(reply, Point::Read(0)),
            Point::Read(page) => answered(reply, Point::Page(page)),
            Point::Page(page) if reply.len() == PAGE => {
                let mut wanted = [0; PAGE];
                put_page(image, page, &mut wanted);
                if reply == wanted {
                    return if page == last { Point::Byte1 } else { Point::Read(page + 1) };
                }
                let at = reply.iter().zip(&wanted).take_while(|(a, b)| a == b).count();
                let offset = (usize::from(page) * PAGE + at) as u16;
                Point::Ended { number: PAGE_DIFFERS as u8, code: 0, offset }
            }
            Point::Byte1 => answered(reply, ended(DONE)),
            Point::Ended { .. } => self,
            Point::Configuration | Point::Feed(_) | Point::Page(_) => ended(BAD_MESSAGE),
        }
    }

    /// The message of this point, and what the call tells.
    fn say(self, record: &[u8; RECORD], image: &[u8], out: &mut [u8; PAGE]) -> Advanced {
        let last = image.len().div_ceil(PAGE) as u8 - 1;
        let command = |out: &mut [u8; PAGE], byte, p0, p1, p2| {
            out[..8].copy_from_slice(&command(byte, p0, p1, p2));
            (8, 8)
        };
        let (send, expect) = match self {
            Point::ReadConfiguration => command(out, RD_FLASH_PAGE, CONFIGURATION, 0, 0),
            Point::Configuration | Point::Page(_) => (0, 256),
            Point::WriteArea => command(out, WR_PRG_AREA, last + 1, 0, 0),
            Point::Feed(page) => {
                put_page(image, page, out);
                (256, if page == last { 8 } else { 0 })
            }
            Point::WriteConfiguration => command(out, WR_FLASH_PAGE, CONFIGURATION, 0, 0),
            Point::Merged => {
                out.copy_from_slice(&record[..PAGE]);
                (256, 8)
            }
            Point::Byte0 => command(out, WR_FLASH_BYTE, CONFIGURATION, 0, record[0]),
            Point::Read(page) => command(out, RD_FLASH_PAGE, page, 0, 0),
            Point::Byte1 => command(out, WR_FLASH_BYTE, CONFIGURATION, 1, record[1]),
            Point::Ended { number, code, offset } => {
                let (number, code, offset) = (number.into(), code.into(), offset.into());
                return Advanced { number, code, offset, send: 0, expect: 0 };
            }
        };
        Advanced { number: 0, code: 0, offset: 0, send, expect }
    }
}

/// INF_OK goes on, INF_ERROR ends the job with its code, anything else is no answer.
fn answered(reply: &[u8], next: Point) -> Point {
    match *reply {
        [a, b, c, byte, p0, p1, p2, last] if [a, b, c] == HEAD && last == sum(&[c, byte, p0, p1, p2]) => {
            match byte {
                INF_OK => next,
                INF_ERROR => Point::Ended { number: ERROR_ANSWER as u8, code: p0, offset: 0 },
                _ => ended(BAD_MESSAGE),
            }
        }
        _ => ended(BAD_MESSAGE),
    }
}

#[inline(never)]
pub fn open(record: &mut [u8], image: &[u8], mask: &[u8], data: &[u8], out: &mut [u8]) -> Opened {
    let refused = |number| Opened { number, send: 0, expect: 0 };
    opened(record, image, mask, data, out).unwrap_or_else(refused)
}

fn opened(record: &mut [u8], image: &[u8], mask: &[u8], data: &[u8], out: &mut [u8]) -> Result<Opened, u32> {
    if !is_mask(mask) || data.len() != PAGE {
        return Err(BAD_MASK);
    }
    if image.is_empty() || image.len() > MOST_BYTES {
        return Err(BAD_IMAGE_LENGTH);
    }
    let record: &mut [u8; RECORD] = record.try_into().map_err(|_| BAD_RECORD)?;
    let out = out.first_chunk_mut().ok_or(BUFFER_TOO_SMALL)?;
    record[..PAGE].copy_from_slice(data);
    record[PAGE..NUMBERS].copy_from_slice(mask);
    record[NUMBERS..NUMBERS + 2].copy_from_slice(&(image.len() as u16).to_le_bytes());
    record[NUMBERS + 2..].copy_from_slice(&Point::ReadConfiguration.told());
    let Advanced { number, send, expect, .. } = Point::ReadConfiguration.say(record, image, out);
    Ok(Opened { number, send, expect })
}

#[inline(never)]
pub fn advance(record: &mut [u8], image: &[u8], reply: &[u8], out: &mut [u8]) -> Advanced {
    let refused = |number| Advanced { number, code: 0, offset: 0, send: 0, expect: 0 };
    advanced(record, image, reply, out).unwrap_or_else(refused)
}

fn advanced(record: &mut [u8], image: &[u8], reply: &[u8], out: &mut [u8]) -> Result<Advanced, u32> {
    let record: &mut [u8; RECORD] = record.try_into().map_err(|_| BAD_RECORD)?;
    let point = Point::held(record).ok_or(BAD_RECORD)?;
    if image.len() != image_len(record) {
        return Err(OTHER_IMAGE);
    }
    let out = out.first_chunk_mut().ok_or(BUFFER_TOO_SMALL)?;
    let next = point.after(record, image, reply);
    record[NUMBERS + 2..].copy_from_slice(&next.told());
    Ok(next.say(record, image, out))
}
