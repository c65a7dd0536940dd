//! Reads calls from standard input, one a line, and answers each with one line.

use std::io::{self, BufRead, Write as _};
use std::panic::{self, AssertUnwindSafe};
use std::sync::mpsc::{self, Sender};
use std::thread::{self, JoinHandle};

use tokio::runtime::{Builder, Runtime};

use crate::leaves;
use crate::server::leaseman::driver::{Session, SetUp};
use crate::words::Words;

struct Options {
    /// Show the state after every answer of a session (also switched by `V`).
    state: bool,
    /// Hand on each answer at once.
    flush: bool,
    /// Let set-ups through that rules 10.3 and 10.4 refuse and the Rust does not judge.
    any: bool,
}

struct Driver {
    options: Options,
    yields: usize,
    session: Option<(Session, Runtime)>,
}

pub fn main() -> io::Result<()> {
    panic::set_hook(Box::new(|info| eprintln!("oracle: {info}")));
    let given = |name: &str| std::env::args().skip(1).any(|arg| arg == name);
    let options = Options {
        state: given("--state"),
        flush: given("--flush"),
        any: given("--any"),
    };
    // 1 is enough, the rest is margin (README.md)
    let yields = number_from_env("ORACLE_YIELDS").unwrap_or(4);
    let mut driver = Driver { options, yields, session: None };
    let mut answers = Answers::start();
    for line in io::stdin().lock().lines() {
        let line = line?;
        answers.push(&driver.answer(&line));
        // an empty line asks for what was answered so far
        if driver.options.flush || line.trim().is_empty() {
            answers.hand_on();
        }
    }
    answers.finish()
}

fn number_from_env(name: &str) -> Option<usize> {
    std::env::var(name).ok()?.parse().ok()
}

impl Driver {
    fn answer(&mut self, line: &str) -> String {
        let words: Vec<&str> = line.split_whitespace().collect();
        let words = Words(&words);
        let mut out = String::new();
        let answered = match words.at(0) {
            None => Some(()),
            Some(w) if w.starts_with('#') => {
                out.push_str(line);
                Some(())
            }
            Some("V") => {
                self.options.state = words.at(1) == Some("1");
                out.push_str("ok");
                Some(())
            }
            Some("W" | "w") => leaves::drift_call(words, &mut out),
            Some("b") => leaves::bitmap_call(words, &mut out),
            Some("U") => self.set_up(words, &mut out),
            Some(_) => self.session_call(words, &mut out),
        };
        if answered.is_none() {
            out.clear();
            out.push_str("bad");
        }
        let of_session = !matches!(words.at(0), None | Some("V" | "W" | "w" | "b"))
            && !line.trim_start().starts_with('#');
        if self.options.state && of_session {
            self.show_state(&mut out);
        }
        out.push('\n');
        out
    }

    fn show_state(&self, out: &mut String) {
        if let Some((session, _)) = &self.session {
            out.push_str(" | ");
            session.show_state(out);
        }
    }

    /// `U start me pop T hb`: a new session on a new runtime, the clock true.
    fn set_up(&mut self, words: Words, out: &mut String) -> Option<()> {
        self.session = None;
        leaves::set_drift(None, false);
        let numbers: Option<Vec<u64>> = words.0[1..].iter().map(|w| w.parse().ok()).collect();
        let Some(set_up) = SetUp::of(&numbers?, self.options.any) else {
            out.push_str("nodom");
            return Some(());
        };
        let runtime = runtime();
        match runtime.block_on(Session::open(&set_up, self.yields)) {
            Ok(session) => {
                self.session = Some((session, runtime));
                out.push_str("ok");
            }
            // the two errors of new_and_setup
            Err(e) if e.to_string().starts_with("invalid lease") => out.push_str("refused 1"),
            Err(_) => out.push_str("refused 2"),
        }
        Some(())
    }

    /// A panic of the Rust ends the session, as it would end the server.
    fn session_call(&mut self, words: Words, out: &mut String) -> Option<()> {
        let Some((session, runtime)) = self.session.as_mut() else {
            out.push_str("nosession");
            return Some(());
        };
        let call = AssertUnwindSafe(|| runtime.block_on(session.call(words, out)));
        panic::catch_unwind(call).unwrap_or_else(|_| {
            self.session = None;
            out.clear();
            out.push_str("panic");
            Some(())
        })
    }
}

/// A runtime of one thread whose clock stands until it is advanced.
fn runtime() -> Runtime {
    let event = number_from_env("ORACLE_EVENT").unwrap_or(1 << 20);
    Builder::new_current_thread()
        .enable_time()
        .start_paused(true)
        // one turn of the scheduler runs every woken sleeper
        .event_interval(event as u32)
        .build()
        .unwrap()
}

/// Standard output behind a thread of its own: a program that writes all its calls
/// before it reads an answer never finds the oracle stuck on a full pipe.
struct Answers {
    waiting: Vec<u8>,
    to_writer: Sender<Vec<u8>>,
    writer: JoinHandle<io::Result<()>>,
}

impl Answers {
    fn start() -> Self {
        let (to_writer, parts) = mpsc::channel::<Vec<u8>>();
        let writer = thread::spawn(move || {
            let mut stdout = io::stdout().lock();
            for part in parts {
                stdout.write_all(&part)?;
                stdout.flush()?;
            }
            Ok(())
        });
        Answers { waiting: vec![], to_writer, writer }
    }

    fn push(&mut self, answer: &str) {
        self.waiting.extend_from_slice(answer.as_bytes());
        if self.waiting.len() >= 1 << 16 {
            self.hand_on();
        }
    }

    fn hand_on(&mut self) {
        // an error means that nobody reads any more; `finish` tells it
        let _ = self.to_writer.send(std::mem::take(&mut self.waiting));
    }

    fn finish(mut self) -> io::Result<()> {
        self.hand_on();
        drop(self.to_writer);
        self.writer.join().expect("the writer does not panic")
    }
}
