//! Pairs of register and value, and what a device wants of them.

use crate::harness::random::Random;
use crate::second::settings::Pairs;

/// A register that a pair may name; the edges come often.
fn random_register(random: &mut Random, fpdat: u8) -> u8 {
    let any = random.between(3, 255) as u8;
    let register = random.pick(&[3, 4, 254, 255, fpdat.wrapping_add(1), fpdat.wrapping_sub(1), any, any]);
    if register < 3 || register == fpdat {
        return if fpdat == 3 { 4 } else { 3 };
    }
    register
}

fn random_value(random: &mut Random) -> u8 {
    let any = random.byte();
    random.pick(&[0x00, 0x01, 0xFF, any, any])
}

/// These pairs, with any bytes where none is named.
fn with_any_rest(pairs: &[(u8, u8)], random: &mut Random) -> Pairs {
    let mut made = Pairs::of(pairs);
    for at in pairs.len()..made.registers.len() {
        (made.registers[at], made.values[at]) = (random.byte(), random.byte());
    }
    made
}

/// Pairs that pass 19: none and four come often, and a register that was named before.
pub fn random_pairs(random: &mut Random, fpdat: u8) -> Pairs {
    let mut pairs: Vec<(u8, u8)> = Vec::new();
    for _ in 0..random.pick(&[0, 0, 0, 1, 2, 3, 4, 4, 4]) {
        let again = !pairs.is_empty() && random.below(4) == 0;
        let register = if again { random.pick(&pairs).0 } else { random_register(random, fpdat) };
        pairs.push((register, random_value(random)));
    }
    with_any_rest(&pairs, random)
}

/// Pairs with any number of reasons for 19, or none.
pub fn any_pairs(random: &mut Random, fpdat: u8) -> Pairs {
    let mut pairs = random_pairs(random, fpdat);
    if random.below(6) == 0 {
        pairs.count = random.pick(&[1, 2, 3, 4, 5, 6, 128, 255]);
    }
    if random.below(6) == 0 {
        pairs.registers[random.below(4)] = random.pick(&[0, 1, 2, fpdat, 3]);
    }
    pairs
}

/// What these leave in their registers: of each register's values the last.
fn left_by(pairs: &Pairs) -> Vec<(u8, u8)> {
    let pairs: Vec<_> = pairs.named().collect();
    let last = |at: usize| pairs[at + 1..].iter().all(|&(register, _)| register != pairs[at].0);
    (0..pairs.len()).filter(|&at| last(at)).map(|at| pairs[at]).collect()
}

/// A list that is met after these pairs were written: all that they leave, some of it, in any order, also
/// twice.
pub fn met_by(pairs: &Pairs, random: &mut Random) -> Pairs {
    let left = left_by(pairs);
    if left.is_empty() {
        return with_any_rest(&[], random);
    }
    let mut wanted = match random.below(3) {
        0 => left,
        _ => (0..random.below(5)).map(|_| random.pick(&left)).collect(),
    };
    for at in (1..wanted.len()).rev() {
        wanted.swap(at, random.below(at + 1));
    }
    with_any_rest(&wanted, random)
}

/// A list that these pairs don't meet: one that they do, with another value, another register, or a value
/// that was written over.
pub fn not_met_by(pairs: &Pairs, fpdat: u8, random: &mut Random) -> Pairs {
    let left = left_by(pairs);
    let mut wanted: Vec<_> = met_by(pairs, random).named().take(3).collect();
    let over: Vec<_> = pairs.named().filter(|pair| !left.contains(pair)).collect();
    let unknown = loop {
        let register = random_register(random, fpdat);
        if random.below(8) == 0 || pairs.named().all(|(named, _)| named != register) {
            break register;
        }
    };
    let known = left.iter().find(|pair| pair.0 == unknown).map(|pair| pair.1);
    let value = random_value(random);
    let other = match known {
        Some(left) if left == value => (unknown, value ^ 1 << random.below(8)),
        _ => (unknown, value),
    };
    let changed = left.first().map_or(other, |&(register, value)| (register, value ^ 1 << random.below(8)));
    let unmet = random.pick(&[other, changed, over.first().copied().unwrap_or(other)]);
    wanted.insert(random.below(wanted.len() + 1), unmet);
    with_any_rest(&wanted, random)
}

/// What a device of its own wants, whatever is written to it: mostly registers that it names once.
pub fn random_wanted(random: &mut Random, fpdat: u8) -> Pairs {
    let pairs = random_pairs(random, fpdat);
    match random.below(4) {
        0 => pairs,
        _ => wanted_once(random, fpdat),
    }
}

/// Wanted pairs, each of another register.
pub fn wanted_once(random: &mut Random, fpdat: u8) -> Pairs {
    let left = left_by(&random_pairs(random, fpdat));
    with_any_rest(&left, random)
}
