//! The settings that session and target share, and their refusals: 1 to 3, then 18, then 19.

use crate::second::numbers;

const FLASH_LIMIT: u64 = 65_536;
const MOST_PAIRS: usize = 4;

/// Pairs of register and value (document 02, e); entries from the count on are not looked at.
#[derive(Clone, Copy, Debug, PartialEq, Eq)]
pub struct Pairs {
    pub count: u8,
    pub registers: [u8; MOST_PAIRS],
    pub values: [u8; MOST_PAIRS],
}

impl Pairs {
    pub const NONE: Pairs = Pairs { count: 0, registers: [0; MOST_PAIRS], values: [0; MOST_PAIRS] };

    /// At most four pairs in this order; what they don't name is 0.
    pub fn of(pairs: &[(u8, u8)]) -> Pairs {
        let mut made = Pairs { count: pairs.len() as u8, ..Pairs::NONE };
        for (at, &(register, value)) in pairs.iter().enumerate() {
            (made.registers[at], made.values[at]) = (register, value);
        }
        made
    }

    /// The pairs that it names, in order; of more than four only those.
    pub fn named(&self) -> impl Iterator<Item = (u8, u8)> {
        self.registers.into_iter().zip(self.values).take(self.count.into())
    }

    /// The same pairs with 0 where none is named: what a record keeps.
    pub fn kept(&self) -> Pairs {
        Pairs::of(&self.named().collect::<Vec<_>>())
    }

    /// More than four pairs, a register below 3, or one that is the FPDAT address.
    pub fn refusal(&self, fpdat: u8) -> Option<u32> {
        let too_many = usize::from(self.count) > MOST_PAIRS;
        let refused = too_many || self.named().any(|(register, _)| register < 3 || register == fpdat);
        refused.then_some(numbers::BAD_PAIRS)
    }
}

#[derive(Clone, Copy, Debug, PartialEq, Eq)]
pub struct Settings {
    pub device_id: u8,
    pub fpdat: u8,
    pub page_size: u32,
    pub page_count: u32,
    /// so many zeros in a WAIT refuse
    pub wait_limit: u8,
    /// what is written before flash is touched
    pub pairs: Pairs,
}

impl Settings {
    /// The size times the count, by mathematics: neither is in range yet.
    pub fn flash_len(&self) -> u64 {
        u64::from(self.page_size) * u64::from(self.page_count)
    }

    /// The first refusal in the order of the tests: 1, 2, 3, 18, 19.
    pub fn refusal(&self) -> Option<u32> {
        if self.fpdat < 3 {
            Some(numbers::BAD_FPDAT)
        } else if self.page_size != 512 && self.page_size != 1024 {
            Some(numbers::BAD_PAGE_SIZE)
        } else if self.page_count == 0 || self.flash_len() > FLASH_LIMIT {
            Some(numbers::BAD_PAGE_COUNT)
        } else if self.wait_limit == 0 {
            Some(numbers::BAD_WAIT_LIMIT)
        } else {
            self.pairs.refusal(self.fpdat)
        }
    }
}
