//! Drift: ns, seconds, quotient and product under every setting.
use super::Run;
use crate::call::MS;
use crate::{leaves, text};
use std::io;
use std::time::Instant;

/// Durations up to here have products below 2^20 s at any setting.
const LONGEST: u64 = 1 << 43;

impl Run {
    // Of a true clock the ns alone are compared: the Rust makes no floats there, the leaf gives
    // zeros.
    fn one(&mut self, ns: u64, setting: Option<i8>, beside: bool) -> io::Result<()> {
        self.batch.calls.push(if beside { b'w' } else { b'W' });
        text::numbers(&mut self.batch.calls, &[ns]);
        let drifted = leaves::drifted(ns, setting);
        match setting {
            None => {
                text::words(&mut self.batch.calls, " -");
                text::number(&mut self.batch.answers, drifted.ns);
                text::words(&mut self.batch.answers, " *");
            }
            Some(d) => {
                text::words(&mut self.batch.calls, &format!(" {d}"));
                leaves::write_drifted(&mut self.batch.answers, &drifted);
            }
        }
        self.end_lines()
    }

    fn any_drift(&mut self) -> io::Result<()> {
        let ns = match self.random.below(4) {
            0 => self.random.below(LONGEST),
            1 => self.random.between(1, 20_000) * MS,
            _ => self.random.spread(100 * MS, 20_000 * MS),
        };
        let d = self.random.any() as i8;
        let beside = self.random.flag();
        self.one(ns, Some(d), beside)
    }
}

// 100 ms, each whole second up to 20 s, each power of two, and up to 2 ns around them.
fn boundaries() -> Vec<u64> {
    let mut centres = vec![100 * MS];
    centres.extend((1..=20).map(|s| s * 1_000 * MS));
    centres.extend((1..43).map(|i| 1u64 << i));
    centres.iter().flat_map(|c| c - 2..=c + 2).collect()
}

pub fn run(seed: u64, calls: u64, path: &str) -> io::Result<()> {
    let begin = Instant::now();
    let mut run = Run::new(seed, path)?;
    for ns in boundaries() {
        for beside in [false, true] {
            run.one(ns, None, beside)?;
            for d in i8::MIN..=i8::MAX {
                run.one(ns, Some(d), beside)?;
            }
        }
    }
    while run.sent < calls {
        run.any_drift()?;
    }
    run.finish("drift", begin)
}
