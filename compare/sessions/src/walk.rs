//! Random sessions on the library's side: each call is judged, made, noted and written out for the
//! oracle.
use crate::answer::spare_lines_are_zero;
use crate::call::Call;
use crate::events::Counts;
use crate::fired::{self, Timer};
use crate::generate::{Generator, Limits, Mode};
use crate::judge::Judge;
use crate::oracle::{Batch, Oracle};
use crate::side::Side;
use crate::tally::Tally;
use crate::text;
use biasflint::raw::{AnswerC, ManagerC};
use std::io::{self, Write};
use std::time::Instant;

pub struct Walk {
    generator: Generator,
    judge: Judge,
    side: Side,
    tally: Tally,
    batch: Batch,
    /// Whether the oracle is asked in which order timers fired, and how often it was.
    asks_order: bool,
    orders: u64,
}

// The timers that an answer's sets say fired, in the order of their deadlines.
fn due(before: &ManagerC, call: &Call, answer: &AnswerC) -> Vec<Timer> {
    match call {
        Call::Advance(_) if answer.refused == 0 => {
            fired::by_record(before, answer.one.first, answer.one.second)
        }
        _ => Vec::new(),
    }
}

impl Walk {
    pub fn new(seed: u64, mode: Mode, limits: Limits) -> Walk {
        Walk {
            generator: Generator::new(seed, mode, limits),
            judge: Judge::default(),
            side: Side::new(true),
            tally: Tally::new(),
            batch: Batch::default(),
            asks_order: false,
            orders: 0,
        }
    }

    // One call. A refused one stays on this side; a set-up between sessions goes to both.
    fn step(&mut self, call: &Call, between: bool) -> io::Result<()> {
        let expected = self.judge.refusal(call);
        let before = self.side.record;
        let written = self.batch.answers.len();
        let answer = self.side.call(call, &mut self.batch.answers);
        let changed = answer.refused > 0 && self.side.record != before;
        let due = due(&before, call, &answer);
        let odd = !spare_lines_are_zero(&answer) || answer.fired != fired::listed(&due);
        if answer.refused != expected || changed || odd {
            return Err(self.misjudged(call, expected, changed, &answer));
        }
        if expected > 0 && !between {
            self.batch.answers.truncate(written);
            self.tally.refused(expected);
            return Ok(());
        }
        if expected == 0 {
            self.judge.accepted(call);
            self.side.state(&mut self.batch.answers);
        }
        self.batch.answers.push(b'\n');
        call.line(&mut self.batch.calls);
        self.batch.calls.push(b'\n');
        self.tally.both(&before, &self.side.record, call, &answer);
        if self.asks_order && due.len() > 1 {
            self.ask_order(&due);
        }
        Ok(())
    }

    fn ask_order(&mut self, due: &[Timer]) {
        self.batch.calls.extend_from_slice(b"O\n");
        fired::write_order(&mut self.batch.answers, due);
        self.batch.answers.push(b'\n');
        self.orders += 1;
    }

    fn misjudged(&self, call: &Call, expected: u64, changed: bool, answer: &AnswerC) -> io::Error {
        let mut line = Vec::new();
        call.line(&mut line);
        let calls = text::shown(&self.batch.calls);
        let from = calls.rfind("\nU").map_or(0, |at| at + 1);
        io::Error::other(format!(
            "DIFFERENCE at the last of these calls:\n{}{}\n\
             refusal expected: {expected}; record changed: {changed}; answer: {answer:?}",
            &calls[from..],
            text::shown(&line),
        ))
    }

    // A session, or as much of it as fits into the number of calls.
    fn session(&mut self, calls: u64) -> io::Result<()> {
        if let Some(refused) = self.generator.refused_set_up() {
            self.step(&Call::SetUp(refused), true)?;
        }
        let set_up = self.generator.set_up();
        self.step(&Call::SetUp(set_up), true)?;
        for _ in 0..self.generator.length() {
            if self.tally.compared >= calls {
                break;
            }
            let call = self.generator.next(&self.side.record);
            self.step(&call, false)?;
        }
        Ok(())
    }

    /// How many ids the present session has.
    pub fn population(&self) -> usize {
        self.side.record.population
    }

    /// The calls of one more session that go to both sides, and how often each event was met in it.
    pub fn one_session(&mut self) -> io::Result<(Vec<u8>, Counts)> {
        self.tally = Tally::new();
        self.session(u64::MAX)?;
        let batch = std::mem::take(&mut self.batch);
        Ok((batch.calls, std::mem::take(&mut self.tally.events)))
    }
}

/// Runs random sessions on both sides and compares every answer and every state.
pub fn run(name: &str, mode: Mode, seed: u64, calls: u64, path: &str) -> io::Result<()> {
    let begin = Instant::now();
    let mut oracle = Oracle::start(path, true)?;
    let mut walk = Walk { asks_order: true, ..Walk::new(seed, mode, Limits::ALL) };
    while walk.tally.compared < calls {
        walk.session(calls)?;
        if walk.batch.is_full() {
            oracle.send(std::mem::take(&mut walk.batch))?;
        }
    }
    oracle.send(std::mem::take(&mut walk.batch))?;
    let compared = oracle.finish()?;
    let calls = walk.tally.compared;
    assert_eq!(compared, calls + walk.orders);
    let seconds = begin.elapsed().as_secs_f64();
    println!(
        "mode {name}, seed {seed}: {calls} calls compared in {} sessions, 0 differ; {} orders of \
         firing; {seconds:.1} s, {:.0} calls a second",
        walk.tally.sessions,
        walk.orders,
        calls as f64 / seconds
    );
    // a reader that has gone away is no fault of the comparison
    let _ = io::stdout().write_all(walk.tally.shown().as_bytes());
    Ok(())
}

/// Prints the calls that `run` would put to the oracle, were its sessions limited so.
pub fn record(mode: Mode, seed: u64, calls: u64, limits: Limits) -> io::Result<()> {
    let mut walk = Walk::new(seed, mode, limits);
    let mut out = io::stdout().lock();
    while walk.tally.compared < calls {
        walk.session(calls)?;
        out.write_all(&walk.batch.calls)?;
        walk.batch = Batch::default();
    }
    Ok(())
}
