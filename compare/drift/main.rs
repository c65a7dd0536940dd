// Compares the crate drift, through leaves_c, with Rust's `Duration::mul_f64` under the rules of
// src/utils/faults.rs, bit for bit. Prints how many cases each part has and how many differ, and
// fails if one does. An argument sets how many random cases each part has.
// The generator of compare/sessions.
#[path = "../sessions/src/random.rs"]
#[allow(dead_code)]
mod random;

use random::Random;
use std::time::Duration;

#[repr(C)]
struct DriftedC {
    ns: u64,
    seconds: f64,
    quotient: f64,
    product: f64,
}

unsafe extern "C" {
    safe fn drift_rate(d: i8) -> u64;
    safe fn drift_quotient(d: i8) -> f64;
    safe fn drift_is_quotient(q: f64) -> bool;
    safe fn drift_in_ns(p: f64) -> u64;
    safe fn drift_true(ns: u64) -> DriftedC;
    safe fn drift_by(q: f64, ns: u64) -> DriftedC;
}

// What the port adds to the Rust: answers stay at 2^20 s from there on, and where `from_secs_f64`
// panics there is an answer as well.
const LONGEST: u64 = (1 << 20) * 1_000_000_000;

// ---- the Rust's side

// faults.rs: `let rate = (100 + i16::from(drift)).max(1);`
fn rate(d: i8) -> i16 {
    (100 + i16::from(d)).max(1)
}

// faults.rs: `dur.mul_f64(100.0 / f64::from(rate))`
fn quotient(d: i8) -> f64 {
    100.0 / f64::from(rate(d))
}

// `Duration::mul_f64` where it is below 2^20 s, and what the port adds elsewhere.
fn answer(q: f64, ns: u64) -> u64 {
    let dur = Duration::from_nanos(ns);
    let product = q * dur.as_secs_f64();
    if product >= 0.0 && product < 1_048_576.0 {
        u64::try_from(dur.mul_f64(q).as_nanos()).unwrap()
    } else {
        in_ns(product)
    }
}

// `Duration::from_secs_f64`, likewise.
fn in_ns(p: f64) -> u64 {
    if p.is_nan() || p < 0.0 {
        0
    } else if p >= 1_048_576.0 {
        LONGEST
    } else {
        u64::try_from(Duration::from_secs_f64(p).as_nanos()).unwrap()
    }
}

// ---- the comparison

struct Part {
    name: &'static str,
    cases: u64,
    differ: u64,
}

impl Part {
    fn new(name: &'static str) -> Part {
        Part {
            name,
            cases: 0,
            differ: 0,
        }
    }

    fn case(&mut self, same: bool, what: impl Fn() -> String) {
        self.cases += 1;
        if !same {
            self.differ += 1;
            if self.differ <= 5 {
                println!("  {}: {}", self.name, what());
            }
        }
    }

    fn end(self) -> u64 {
        println!(
            "{:<12} {:>11} compared, {} differ",
            self.name, self.cases, self.differ
        );
        self.differ
    }
}

fn same_float(a: f64, b: f64) -> bool {
    a.to_bits() == b.to_bits() || (a.is_nan() && b.is_nan())
}

// One duration under one quotient: the answer and the three floats of the working record.
fn compare_by(part: &mut Part, q: f64, ns: u64) {
    let got = drift_by(q, ns);
    let seconds = Duration::from_nanos(ns).as_secs_f64();
    let same = got.ns == answer(q, ns)
        && same_float(got.seconds, seconds)
        && same_float(got.quotient, q)
        && same_float(got.product, q * seconds);
    part.case(same, || {
        format!(
            "quotient {q:e}, {ns} ns: {} ns, {} by the Rust; seconds {:e}, product {:e}",
            got.ns,
            answer(q, ns),
            got.seconds,
            got.product
        )
    });
}

impl Random {
    // Any bit pattern, one between 2^-63 and 2^36, a whole number of half ns, a short binary
    // fraction (where ties are), or close to a setting's quotient.
    fn float(&mut self) -> f64 {
        match self.below(5) {
            0 => f64::from_bits(self.any()),
            1 => f64::from_bits(((960 + self.below(100)) << 52) | self.below(1 << 52)),
            2 => self.below(4_000_000_000_000) as f64 / 2e9,
            3 => self.below(1 << 30) as f64 / (1u64 << (10 + self.below(20))) as f64,
            _ => self.near_quotient(),
        }
    }

    fn near_quotient(&mut self) -> f64 {
        let q = 100.0 / (1 + self.below(230)) as f64;
        f64::from_bits(q.to_bits() + self.below(9) - 4)
    }
}

const SPECIAL: [f64; 16] = [
    0.0,
    -0.0,
    5e-324,
    -5e-324,
    4.9e-10,
    5e-10,
    5.1e-10,
    1.5e-9,
    2.5e-9,
    -1.0,
    1_048_575.999_999_999,
    1_048_576.0,
    1e300,
    f64::NAN,
    f64::INFINITY,
    f64::NEG_INFINITY,
];

// Durations around every boundary: 0, 100 ms, each whole second up to 21 s, and where the answer
// reaches 2^20 s.
fn boundaries(q: f64) -> Vec<u64> {
    let mut centres = vec![5, 100_000_000, (LONGEST as f64 / q) as u64, u64::MAX - 5];
    centres.extend((1..=21).map(|s| s * 1_000_000_000));
    centres.iter().flat_map(|c| c - 5..=c + 5).collect()
}

// Every setting: its rate, its quotient, and durations around the boundaries and between.
fn settings(random: &mut Random, rounds: u64) -> u64 {
    let (mut rates, mut answers) = (Part::new("rate"), Part::new("settings"));
    for d in i8::MIN..=i8::MAX {
        let q = quotient(d);
        let same = drift_rate(d) == rate(d) as u64 && same_float(drift_quotient(d), q);
        rates.case(same, || {
            format!(
                "setting {d}: rate {}, quotient {:e}",
                drift_rate(d),
                drift_quotient(d)
            )
        });
        for ns in boundaries(q) {
            compare_by(&mut answers, q, ns);
        }
        for _ in 0..rounds / 256 {
            compare_by(&mut answers, q, 100_000_000 + random.below(19_900_000_001));
        }
    }
    rates.end() + answers.end()
}

// Any float as the quotient, any duration; and the true clock.
fn clocks(random: &mut Random, rounds: u64) -> u64 {
    let (mut by, mut still) = (Part::new("any quotient"), Part::new("true clock"));
    for q in SPECIAL {
        for ns in [0, 1, 1_000_000_000, u64::MAX] {
            compare_by(&mut by, q, ns);
        }
    }
    for _ in 0..rounds {
        let (q, bits) = (random.float(), random.below(64));
        let ns = random.any() >> bits;
        compare_by(&mut by, q, ns);
        let got = drift_true(ns);
        let zeros = (got.seconds.to_bits() | got.quotient.to_bits() | got.product.to_bits()) == 0;
        still.case(got.ns == ns && zeros, || format!("{ns} ns: {} ns", got.ns));
    }
    by.end() + still.end()
}

// Any float in ns, and whether it is a quotient.
fn floats(random: &mut Random, rounds: u64) -> u64 {
    let quotients: Vec<f64> = (i8::MIN..=i8::MAX).map(quotient).collect();
    let (mut ns, mut found) = (Part::new("in_ns"), Part::new("is_quotient"));
    let mut one = |p: f64| {
        ns.case(drift_in_ns(p) == in_ns(p), || {
            format!("{p:e} s: {} ns, {} by the Rust", drift_in_ns(p), in_ns(p))
        });
        let same = drift_is_quotient(p) == quotients.contains(&p);
        found.case(same, || format!("{p:e}: {}", drift_is_quotient(p)));
    };
    SPECIAL.into_iter().for_each(&mut one);
    for q in &quotients {
        (q.to_bits() - 4..=q.to_bits() + 4).for_each(|b| one(f64::from_bits(b)));
    }
    (0..rounds).for_each(|_| one(random.float()));
    ns.end() + found.end()
}

fn main() {
    let rounds = std::env::args()
        .nth(1)
        .map_or(10_000_000, |n| n.parse().expect("a number of random cases"));
    let mut random = Random::new(1);
    let differ =
        settings(&mut random, rounds) + clocks(&mut random, rounds) + floats(&mut random, rounds);
    std::process::exit(i32::from(differ > 0));
}
