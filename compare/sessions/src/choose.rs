//! A short list of calls that meets every event: sessions of few ids are drawn at random, and one is
//! kept if it meets an event that those before it met too seldom.
use crate::events::{Counts, WORDS};
use crate::generate::{Limits, Mode};
use crate::walk::Walk;
use std::io::{self, Write};

/// One session of many ids goes with those of few.
const MANY: Limits = Limits { population: 64, length: 12 };
/// How many sessions of each mode are drawn at the most.
const DRAWN: usize = 200_000;

fn helps(met: &Counts, session: &Counts, times: u64) -> bool {
    met.0.iter().zip(session.0).any(|(n, more)| *n < times && more > 0)
}

fn add(met: &mut Counts, session: &Counts) {
    met.0.iter_mut().zip(session.0).for_each(|(n, more)| *n += more);
}

// The first session drawn that has more than 40 ids.
fn of_many_ids(seed: u64) -> io::Result<Vec<u8>> {
    let mut walk = Walk::new(seed, Mode::Wide, MANY);
    loop {
        let (calls, _) = walk.one_session()?;
        if walk.population() > 40 {
            return Ok(calls);
        }
    }
}

/// Prints such a list, and on standard error which events it does not meet that often.
pub fn choose(seed: u64, times: u64) -> io::Result<()> {
    let mut met = Counts::default();
    let mut walks =
        [Mode::Wide, Mode::Near, Mode::Whole].map(|mode| Walk::new(seed, mode, Limits::FEW));
    let mut out = io::stdout().lock();
    out.write_all(&of_many_ids(seed)?)?;
    for _ in 0..DRAWN {
        for walk in &mut walks {
            let (calls, session) = walk.one_session()?;
            if helps(&met, &session, times) {
                add(&mut met, &session);
                out.write_all(&calls)?;
            }
        }
        if met.0.iter().all(|n| *n >= times) {
            break;
        }
    }
    for (words, n) in WORDS.iter().zip(met.0).filter(|(_, n)| *n < times) {
        eprintln!("met {n} times: {words}");
    }
    Ok(())
}
