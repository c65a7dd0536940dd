//! The leaves beside the Rust: drift bit for bit, and the calls on sets.
pub mod drift;
pub mod sets;

use crate::oracle::{Batch, Oracle};
use crate::random::Random;
use std::io;
use std::time::Instant;

struct Run {
    random: Random,
    oracle: Oracle,
    batch: Batch,
    sent: u64,
    /// Of these, sets of sizes that the Rust has and the library refuses.
    larger: u64,
    /// Calls that only the library answers.
    alone: u64,
}

impl Run {
    fn new(seed: u64, path: &str) -> io::Result<Run> {
        let oracle = Oracle::start(path, false)?;
        let random = Random::new(seed);
        Ok(Run { random, oracle, batch: Batch::default(), sent: 0, larger: 0, alone: 0 })
    }

    // Ends the call's line and the answer's.
    fn end_lines(&mut self) -> io::Result<()> {
        self.batch.calls.push(b'\n');
        self.batch.answers.push(b'\n');
        self.sent += 1;
        if self.batch.is_full() {
            self.oracle.send(std::mem::take(&mut self.batch))?;
        }
        Ok(())
    }

    fn finish(mut self, name: &str, begin: Instant) -> io::Result<()> {
        self.oracle.send(std::mem::take(&mut self.batch))?;
        let compared = self.oracle.finish()?;
        assert_eq!(compared, self.sent);
        let seconds = begin.elapsed().as_secs_f64();
        println!(
            "mode {name}: {} calls compared, 0 differ; {seconds:.1} s, {:.0} calls a second",
            compared - self.larger,
            compared as f64 / seconds
        );
        if self.larger + self.alone > 0 {
            println!(
                "  {:>11}  of a size over 64, which the Rust has: refused as expected",
                self.larger
            );
            println!("  {:>11}  that the Rust cannot be asked: answered as expected", self.alone);
        }
        Ok(())
    }
}
