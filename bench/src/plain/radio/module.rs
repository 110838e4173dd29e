//! The modelled module.

use proved::radio::{Replied, Target};

use super::*;

const FLASH: usize = 129 * PAGE;
const PROTECTION: usize = CONFIGURATION as usize * PAGE + 1;
const INFORMATION: u8 = 128;

const OUT_OF_MEMORY: u8 = 0;
const READONLY: u8 = 1;
const CODEPROTECTION: u8 = 2;
const BYTE_NOT_ERASED: u8 = 3;
const CHECKSUM: u8 = 4;
const BLANK_CHECK: u8 = 5;
const UNKNOW_CMD: u8 = 8;

const WAITS: Target = Target { point: 0, page: 0, left: 0 };

/// The answer to a command and the state after it, or an error code.
type Done = Result<([u8; 8], Target), u8>;

fn ok(code: u8, target: Target) -> Done {
    Ok((command(INF_OK, code, 0, 0), target))
}

fn is_state(Target { point, page, left }: Target) -> bool {
    let spans = |most: u64| left >= 1 && u64::from(page) + u64::from(left) <= most;
    match point {
        0 => page == 0 && left == 0,
        1 => spans(128),
        2 => page == 0 && spans(4),
        3 => spans(129),
        _ => false,
    }
}

#[inline(never)]
pub fn step(target: Target, flash: &mut [u8], message: &[u8], reply: &mut [u8]) -> Replied {
    let refused = |number| Replied { number, reply: 0, target };
    stepped(target, flash, message, reply).unwrap_or_else(refused)
}

fn stepped(target: Target, flash: &mut [u8], message: &[u8], reply: &mut [u8]) -> Result<Replied, u32> {
    if flash.len() != FLASH || !is_state(target) {
        return Err(NO_POINT);
    }
    let reply: &mut [u8; PAGE] = reply.first_chunk_mut().ok_or(BUFFER_TOO_SMALL)?;
    let start = target.page as usize * PAGE;
    let replied = |reply, target| Ok(Replied { number: 0, reply, target });
    match (target.point, message.len()) {
        (0, 8) if message.starts_with(&HEAD) => {
            let (answer, next) =
                run(flash, message).unwrap_or_else(|code| (command(INF_ERROR, code, 0, 0), WAITS));
            reply[..8].copy_from_slice(&answer);
            replied(8, next)
        }
        (1, PAGE) => {
            let kept = if start + 1 == PROTECTION { 4 } else { 0 };
            flash[start + kept..start + PAGE].copy_from_slice(&message[kept..]);
            if target.left > 1 {
                return replied(0, next_page(target));
            }
            reply[..8].copy_from_slice(&command(INF_OK, 0, 0, 0));
            replied(8, WAITS)
        }
        (2, PAGE) => replied(0, Target { page: 0, ..next_page(target) }),
        (3, 0) => {
            reply.copy_from_slice(&flash[start..start + PAGE]);
            replied(PAGE as u32, next_page(target))
        }
        _ => Err(BAD_MESSAGE),
    }
}

/// The state with one page less to come.
fn next_page(Target { point, page, left }: Target) -> Target {
    match left {
        1 => WAITS,
        _ => Target { point, page: page + 1, left: left - 1 },
    }
}

/// What a command does.
fn run(flash: &mut [u8], message: &[u8]) -> Done {
    let &[_, _, _, byte, p0, p1, p2, last] = message else { return Err(UNKNOW_CMD) };
    if last != sum(&message[2..7]) {
        return Err(CHECKSUM);
    }
    let protected = flash[PROTECTION] == 0;
    let (page, at) = (p0, usize::from(p0) * PAGE + usize::from(p1));
    match byte {
        RD_SW_VERSION => Ok((command(INF_SW_VERSION, 0, 0, 0), WAITS)),
        RD_FLASH_BYTE | RD_FLASH_PAGE if page > INFORMATION => Err(OUT_OF_MEMORY),
        RD_FLASH_BYTE | RD_FLASH_PAGE if protected && page < CONFIGURATION => Err(READONLY),
        RD_FLASH_BYTE => ok(flash[at], WAITS),
        RD_FLASH_PAGE => ok(0, Target { point: 3, page: page.into(), left: 1 }),
        WR_FLASH_BYTE => write_byte(flash, page, at, p2, protected),
        RD_PRG_AREA if protected => Err(CODEPROTECTION),
        WR_FLASH_PAGE | WR_PRG_AREA | WR_PRG_XRAM if protected => Err(READONLY),
        WR_FLASH_PAGE if page == INFORMATION => Err(READONLY),
        WR_FLASH_PAGE if page > INFORMATION => Err(OUT_OF_MEMORY),
        WR_FLASH_PAGE => {
            let start = usize::from(page) * PAGE;
            let kept = if page == CONFIGURATION { 4 } else { 0 };
            flash[start + kept..start + PAGE].fill(0xFF);
            then_data(p1, Target { point: 1, page: page.into(), left: 1 })
        }
        RD_PRG_AREA | WR_PRG_AREA if p0 == 0 || p0 > 127 => Err(OUT_OF_MEMORY),
        RD_PRG_AREA => ok(0, Target { point: 3, page: 0, left: p0.into() }),
        WR_PRG_AREA => {
            flash[..128 * PAGE].fill(0xFF);
            then_data(p1, Target { point: 1, page: 0, left: p0.into() })
        }
        WR_PRG_XRAM if p0 == 0 || p0 > 4 => Err(OUT_OF_MEMORY),
        WR_PRG_XRAM => ok(0, Target { point: 2, page: 0, left: p0.into() }),
        WR_BLANK_CHK if flash[..128 * PAGE].iter().all(|&byte| byte == 0xFF) => ok(0, WAITS),
        WR_BLANK_CHK => Err(BLANK_CHECK),
        WR_BIST => ok(1, WAITS),
        _ => Err(UNKNOW_CMD),
    }
}

/// EraseOnly takes no data.
fn then_data(erase_only: u8, target: Target) -> Done {
    ok(0, if erase_only == 1 { WAITS } else { target })
}

fn write_byte(flash: &mut [u8], page: u8, at: usize, byte: u8, protected: bool) -> Done {
    if page == INFORMATION {
        return Err(READONLY);
    }
    if page > INFORMATION {
        return Err(OUT_OF_MEMORY);
    }
    if protected && page < CONFIGURATION {
        return Err(CODEPROTECTION);
    }
    if flash[at] != 0xFF {
        return Err(BYTE_NOT_ERASED);
    }
    flash[at] = byte;
    ok(0, WAITS)
}
