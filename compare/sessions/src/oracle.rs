//! The oracle as a process: calls go into its standard input in batches, and a thread compares what
//! comes out with what is expected, line by line.
use crate::fired;
use crate::text;
use std::io::{self, BufRead, BufReader, Write};
use std::process::{Child, ChildStdin, ChildStdout, Command, Stdio, exit};
use std::sync::Arc;
use std::sync::mpsc::{Receiver, SyncSender, sync_channel};
use std::thread::{self, JoinHandle};

/// Calls and the answers that are expected, a line each. An answer that ends in `*` is compared up
/// to there; one that begins with `order~` says which timers fired, and when they were due.
#[derive(Default)]
pub struct Batch {
    pub calls: Vec<u8>,
    pub answers: Vec<u8>,
}

pub struct Oracle {
    process: Child,
    calls: ChildStdin,
    batches: SyncSender<Arc<Batch>>,
    reader: JoinHandle<u64>,
}

/// A batch is sent when it is this long.
const FULL: usize = 1 << 16;

/// Batches that may be under way.
const UNDER_WAY: usize = 8;

impl Batch {
    pub fn is_full(&self) -> bool {
        self.calls.len() + self.answers.len() / 8 > FULL
    }

    /// The calls from the last set-up up to that line.
    fn session(&self, line: usize) -> String {
        let calls: Vec<&[u8]> = self.calls.split(|b| *b == b'\n').take(line + 1).collect();
        let from = calls.iter().rposition(|call| call.starts_with(b"U")).unwrap_or(line);
        calls[from..].iter().map(|call| text::shown(call) + "\n").collect()
    }
}

fn without_newline(line: &[u8]) -> &[u8] {
    line.strip_suffix(b"\n").unwrap_or(line)
}

fn agree(expected: &[u8], got: &[u8]) -> bool {
    if let Some(timers) = expected.strip_prefix(fired::ORDER.as_bytes()) {
        return fired::agrees(timers, got);
    }
    match expected.strip_suffix(b"*") {
        Some(start) => got.starts_with(start),
        None => expected == got,
    }
}

// Prints a difference and ends the run.
fn report(batch: &Batch, line: usize, expected: &[u8], got: &[u8]) -> ! {
    print!("DIFFERENCE at the last of these calls:\n{}", batch.session(line));
    println!("library: {}", text::shown(expected));
    println!("oracle:  {}", text::shown(got));
    exit(1)
}

fn next_line(out: &mut BufReader<ChildStdout>, line: &mut Vec<u8>) {
    line.clear();
    if let Err(error) = out.read_until(b'\n', line) {
        println!("the oracle's answers cannot be read: {error}");
        exit(1)
    }
}

// Compares all batches; answers how many lines.
fn compare(batches: Receiver<Arc<Batch>>, out: ChildStdout) -> u64 {
    let mut out = BufReader::with_capacity(1 << 18, out);
    let mut got = Vec::new();
    let mut compared = 0;
    for batch in batches {
        let answers = batch.answers.split_inclusive(|b| *b == b'\n');
        for (line, expected) in answers.enumerate() {
            next_line(&mut out, &mut got);
            let expected = without_newline(expected);
            if got.is_empty() {
                report(&batch, line, expected, b"(its answers end here)");
            }
            if !agree(expected, without_newline(&got)) {
                report(&batch, line, expected, without_newline(&got));
            }
            compared += 1;
        }
        // the blank line that makes the oracle flush
        next_line(&mut out, &mut got);
    }
    compared
}

impl Oracle {
    /// With the state in every answer; or for calls of the leaves alone, of which some panic in the
    /// Rust by intent: what it says then is not shown.
    pub fn start(path: &str, state: bool) -> io::Result<Oracle> {
        let mut command = Command::new(path);
        if state {
            command.arg("--state");
        } else {
            command.stderr(Stdio::null());
        }
        let mut process = command
            .stdin(Stdio::piped())
            .stdout(Stdio::piped())
            .spawn()
            .map_err(|error| io::Error::new(error.kind(), format!("{path}: {error}")))?;
        let calls = process.stdin.take().expect("a piped input");
        let out = process.stdout.take().expect("a piped output");
        let (batches, queue) = sync_channel(UNDER_WAY);
        let reader = thread::spawn(move || compare(queue, out));
        Ok(Oracle { process, calls, batches, reader })
    }

    /// Puts a batch to the oracle. The blank line at its end makes it flush its answers.
    pub fn send(&mut self, mut batch: Batch) -> io::Result<()> {
        batch.calls.push(b'\n');
        let batch = Arc::new(batch);
        self.batches
            .send(batch.clone())
            .map_err(|_| io::Error::other("the comparison has ended"))?;
        if let Err(error) = self.calls.write_all(&batch.calls) {
            // the reader finds the oracle's end and prints where
            println!("the oracle takes no more calls: {error}");
            thread::park();
        }
        Ok(())
    }

    /// Waits for the rest; answers how many lines were compared.
    pub fn finish(mut self) -> io::Result<u64> {
        drop(self.batches);
        drop(self.calls);
        let compared = self.reader.join().map_err(|_| io::Error::other("the comparison failed"))?;
        let status = self.process.wait()?;
        if !status.success() {
            return Err(io::Error::other(format!("the oracle ended with {status}")));
        }
        Ok(compared)
    }
}
