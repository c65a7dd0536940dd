//! Set-ups, accepted and refused.
use super::{Limits, Mode};
use crate::call::{LARGEST_READING, MS, SetUp};
use crate::random::Random;

const SHORTEST: u64 = 100 * MS;
const LONGEST: u64 = 10_000 * MS;

// Small ones more often; every one occurs.
fn population(random: &mut Random) -> u64 {
    match random.below(20) {
        0 => 1,
        1..11 => random.between(2, 5),
        11..16 => random.between(1, 16),
        16..19 => random.between(1, 64),
        _ => random.between(60, 64),
    }
}

// In whole ms, half of them such that many drift settings give whole ms again.
fn whole_timeout(random: &mut Random) -> u64 {
    if random.flag() {
        return random.spread(SHORTEST / MS, LONGEST / MS) * MS;
    }
    let step = random.pick(&[12, 60, 63, 77, 90, 108, 126, 130, 140, 184, 210, 225, 227]);
    random.between(100u64.div_ceil(step), 10_000 / step) * step * MS
}

fn timeout(random: &mut Random, mode: Mode) -> u64 {
    match random.below(30) {
        0 => SHORTEST,
        1 => LONGEST,
        2 => 1_000 * MS,
        _ if mode == Mode::Whole => whole_timeout(random),
        _ => random.spread(SHORTEST, LONGEST),
    }
}

// A start near the largest reading lets deadlines pass it.
fn start(random: &mut Random) -> u64 {
    match random.below(60) {
        0..20 => 0,
        20..46 => random.below(1_000_000 * MS),
        46 => LARGEST_READING,
        47..50 => LARGEST_READING - random.below(3_000 * MS),
        50..55 => LARGEST_READING - random.below(3_000_000 * MS),
        _ => random.between(0, LARGEST_READING),
    }
}

pub fn accepted(random: &mut Random, mode: Mode, limits: Limits) -> SetUp {
    let population = population(random).min(limits.population);
    let expire_timeout = timeout(random, mode);
    let most = (expire_timeout - 1) / 2;
    let heartbeat = match random.below(4) {
        0 => 0,
        1 => most,
        _ => random.between(0, most),
    };
    let me = random.below(population);
    SetUp { start: start(random), me, population, expire_timeout, heartbeat }
}

/// A set-up with 1 or 2 wrong, which the Rust judges as well.
pub fn refused_by_both(random: &mut Random, s: SetUp) -> SetUp {
    let wrong_timeout = match random.below(6) {
        0 => SHORTEST - 1,
        1 => LONGEST + 1,
        2 => random.below(SHORTEST),
        3 => random.between(LONGEST + 1, u64::MAX),
        _ => s.expire_timeout,
    };
    let wrong_heartbeat = match random.below(3) {
        0 => s.expire_timeout.div_ceil(2),
        1 => random.between(s.expire_timeout.div_ceil(2), s.expire_timeout),
        _ => random.between(s.expire_timeout.div_ceil(2), u64::MAX),
    };
    let keep = wrong_timeout != s.expire_timeout && random.flag();
    let heartbeat = if keep { s.heartbeat } else { wrong_heartbeat };
    SetUp { expire_timeout: wrong_timeout, heartbeat, ..s }
}

/// A set-up that is refused by any of 1 to 5, by several at times.
pub fn refused(random: &mut Random, s: SetUp) -> SetUp {
    let mut wrong = if random.flag() { refused_by_both(random, s) } else { s };
    if random.chance(500) {
        wrong.population = random.pick(&[0, 65, 66, 255, 256, 300, 1 << 32, u64::MAX]);
    }
    if random.chance(500) {
        wrong.me = random.pick(&[s.population, s.population + 1, 64, 255, 256, u64::MAX]);
    }
    if random.chance(500) {
        wrong.start = random.pick(&[LARGEST_READING + 1, u64::MAX]);
    }
    if wrong == s { SetUp { population: 0, ..s } } else { wrong }
}

/// The drift settings that a session may have. In whole ms: those that keep T and 2T in whole ms,
/// and of the thirty with rate 1 three.
pub fn settings(mode: Mode, expire_timeout: u64) -> Vec<i8> {
    let whole = |d: &i8| {
        let rate = (100 + i64::from(*d)).max(1) as u64;
        let one_of_many = rate > 1 || [i8::MIN, -100, -99].contains(d);
        one_of_many && (100 * expire_timeout).is_multiple_of(rate * MS)
    };
    (i8::MIN..=i8::MAX).filter(|d| mode != Mode::Whole || whole(d)).collect()
}
