//! Random sessions as event cards (rules 14.1 to 14.6): each goes through the program `replay`, and
//! what it prints is compared with the oracle's answers written as output lines; and through the
//! program `sheet`, whose sheet is compared with the oracle's state at the end (`sheet`). Calls that
//! no card can carry are left out, on both sides. Among the cards are refused ones and lines spoiled
//! on purpose; what is expected of those is judged here (`read`, then 23, then `judge`).
mod read;
mod sheet;
mod spoil;

use crate::call::Call;
use crate::generate::{Generator, Limits, Mode};
use crate::judge::Judge;
use crate::random::Random;
use crate::sample;
use crate::side::Side;
use sheet::{Met, Sheet};
use std::fs;
use std::io::{self, BufRead, BufReader, Read, Write};
use std::path::Path;
use std::process::{Child, ChildStdin, ChildStdout, Command, Stdio};
use std::thread;
use std::time::Instant;

/// The oracle, asked and answering in turn: a session's calls are less than a pipe holds.
struct Asked {
    process: Child,
    calls: ChildStdin,
    answers: BufReader<ChildStdout>,
}

impl Asked {
    fn start(path: &str) -> io::Result<Asked> {
        let mut process = Command::new(path)
            .arg("--state")
            .stdin(Stdio::piped())
            .stdout(Stdio::piped())
            .spawn()
            .map_err(|error| io::Error::new(error.kind(), format!("{path}: {error}")))?;
        let calls = process.stdin.take().expect("a piped input");
        let answers = BufReader::new(process.stdout.take().expect("a piped output"));
        Ok(Asked { process, calls, answers })
    }

    fn ask(&mut self, calls: &[Call]) -> io::Result<Vec<String>> {
        let mut text = Vec::new();
        for call in calls {
            call.line(&mut text);
            text.push(b'\n');
        }
        text.push(b'\n');
        self.calls.write_all(&text)?;
        let mut answers = Vec::new();
        for _ in 0..=calls.len() {
            let mut answer = String::new();
            self.answers.read_line(&mut answer)?;
            answers.push(answer.trim_end_matches('\n').to_string());
        }
        answers.pop();
        Ok(answers)
    }

    fn end(mut self) -> io::Result<()> {
        drop(self.calls);
        self.process.wait().map(|_| ())
    }
}

/// What is expected of a card.
enum Expected {
    Refused(u64),
    /// The answer to the call of that index.
    Answered(usize),
}

/// A session: its cards, what is expected of each, and the calls that go to the oracle.
#[derive(Default)]
struct Cards {
    input: Vec<u8>,
    /// How much of the input comes before the set-up that is accepted.
    early: usize,
    expected: Vec<Expected>,
    calls: Vec<Call>,
}

/// What the cards so far say of the next one.
#[derive(Default)]
struct Before {
    judge: Judge,
    set_up: bool,
}

impl Before {
    // The call of a line, or its refusal: 21, 22, 23, then the call's own (rule 14.3).
    fn judged(&self, line: &[u8]) -> Result<Call, u64> {
        let call = read::line(line)?;
        if matches!(call, Call::SetUp(_)) == self.set_up {
            return Err(23);
        }
        match self.judge.refusal(&call) {
            0 => Ok(call),
            k => Err(k),
        }
    }

    fn accept(&mut self, call: Call, cards: &mut Cards) {
        self.judge.accepted(&call);
        self.set_up = true;
        cards.expected.push(Expected::Answered(cards.calls.len()));
        cards.calls.push(call);
    }
}

struct Draw {
    generator: Generator,
    random: Random,
    before: Before,
    side: Side,
    /// How often each refusal was met.
    refused: [u64; 24],
}

fn has_card(call: &Call) -> bool {
    matches!(call, Call::SetUp(_) | Call::Advance(_) | Call::Notice(..))
}

impl Draw {
    fn new(seed: u64, mode: Mode, limits: Limits) -> Draw {
        Draw {
            generator: Generator::new(seed, mode, limits),
            random: Random::new(seed ^ 0x5eed),
            before: Before::default(),
            side: Side::new(false),
            refused: [0; 24],
        }
    }

    fn refuse(&mut self, k: u64, cards: &mut Cards) {
        self.refused[k as usize] += 1;
        cards.expected.push(Expected::Refused(k));
    }

    // A card that was drawn as a call. A call that no columns hold, as one of a peer above 9,999, has
    // none.
    fn drawn(&mut self, call: Call, cards: &mut Cards) {
        let Some(card) = sample::card(&call) else { return };
        match self.before.judged(card.trim_end_matches('\n').as_bytes()) {
            Ok(call) => {
                self.side.call(&call, &mut Vec::new());
                self.before.accept(call, cards);
            }
            Err(k) => self.refuse(k, cards),
        }
        cards.input.extend_from_slice(card.as_bytes());
    }

    // Lines made of a card. Those that happen to be accepted are left out: their readings might be too
    // near to a deadline for the oracle.
    fn spoiled(&mut self, call: &Call, cards: &mut Cards) {
        let c = call.card();
        let numbers = [c.code, c.number, c.peer, c.size, c.first, c.second];
        let lines = spoil::lines(&mut self.random, numbers);
        for line in lines.split_inclusive(|b| *b == b'\n') {
            if let Err(k) = self.before.judged(&line[..line.len() - 1]) {
                self.refuse(k, cards);
                cards.input.extend_from_slice(line);
            }
        }
    }

    // At times cards before the set-up, drawn by the record of the session before. A set-up among them
    // is one that is refused.
    fn too_early(&mut self, cards: &mut Cards) {
        if self.side.record.population == 0 {
            return;
        }
        for _ in 0..self.random.below(6) {
            let early = self.generator.next(&self.side.record);
            if has_card(&early) {
                self.drawn(early, cards);
            }
        }
    }

    fn session(&mut self) -> Cards {
        let mut cards = Cards::default();
        self.before = Before::default();
        let set_up = self.generator.set_up();
        self.too_early(&mut cards);
        if let Some(refused) = self.generator.refused_set_up() {
            self.drawn(Call::SetUp(refused), &mut cards);
        }
        cards.early = cards.input.len();
        self.drawn(Call::SetUp(set_up), &mut cards);
        for _ in 0..self.generator.length() {
            let call = self.generator.next(&self.side.record);
            if has_card(&call) {
                if self.random.chance(80) {
                    self.spoiled(&call, &mut cards);
                }
                self.drawn(call, &mut cards);
            }
        }
        // at times a last line that has no newline
        if self.random.chance(200) {
            let call = self.generator.next(&self.side.record);
            if let Some(card) = sample::card(&call) {
                cards.input.extend_from_slice(card.trim_end_matches('\n').as_bytes());
                self.refuse(21, &mut cards);
            }
        }
        cards
    }
}

// What `replay` should print.
fn expected_lines(cards: &Cards, answers: &[String]) -> io::Result<String> {
    let mut text = String::new();
    for (i, expected) in cards.expected.iter().enumerate() {
        let lines = match *expected {
            Expected::Refused(k) => sample::refused_line(k, i as u64 + 1),
            Expected::Answered(at) => {
                let before = if at > 0 { sample::state_of(&answers[at - 1]) } else { "" };
                sample::replay_lines(&cards.calls[at], before, &answers[at])
            }
        };
        let lines =
            lines.ok_or_else(|| io::Error::other(format!("no answer to card {}", i + 1)))?;
        text.push_str(&lines);
    }
    Ok(text)
}

// The sheet of a session; none without an accepted set-up.
fn expected_sheet(cards: &Cards, answers: &[String]) -> io::Result<Option<Sheet>> {
    let (Some(Call::SetUp(set_up)), Some(answer)) = (cards.calls.first(), answers.last()) else {
        return Ok(None);
    };
    let sheet = Sheet::of(set_up, sample::state_of(answer));
    sheet.ok_or_else(|| io::Error::other(format!("no state in the answer {answer}"))).map(Some)
}

// What a program prints, read while a thread hands it the cards.
fn printed(path: &str, input: &[u8]) -> io::Result<Vec<u8>> {
    let mut process = Command::new(path)
        .stdin(Stdio::piped())
        .stdout(Stdio::piped())
        .spawn()
        .map_err(|error| io::Error::new(error.kind(), format!("{path}: {error}")))?;
    let mut cards = process.stdin.take().expect("a piped input");
    let output = thread::scope(|scope| {
        let writer = scope.spawn(move || cards.write_all(input));
        let output = process.wait_with_output()?;
        writer.join().expect("no panic")?;
        io::Result::Ok(output)
    })?;
    if !output.status.success() {
        let (status, cards) = (output.status, String::from_utf8_lossy(input));
        return Err(io::Error::other(format!("{path}: {status} with these cards:\n{cards}")));
    }
    Ok(output.stdout)
}

fn differ(cards: &Cards, expected: &str, got: &[u8]) -> io::Error {
    let got = String::from_utf8_lossy(got).into_owned();
    let same = expected.lines().zip(got.lines()).take_while(|(a, b)| a == b).count();
    io::Error::other(format!(
        "DIFFERENCE in line {} of the output of these cards:\n{}expected: {}\nreplay:   {}",
        same + 1,
        String::from_utf8_lossy(&cards.input),
        expected.lines().nth(same).unwrap_or("(its end)"),
        got.lines().nth(same).unwrap_or("(its end)"),
    ))
}

/// Reads cards on standard input and prints what `replay` should, or `sheet`, by the oracle's answers.
pub fn expect(oracle: &str, sheet: bool) -> io::Result<()> {
    let mut input = Vec::new();
    io::stdin().lock().read_to_end(&mut input)?;
    let (mut before, mut cards) = (Before::default(), Cards::default());
    for line in input.split_inclusive(|b| *b == b'\n') {
        // a last line without a newline is of no card's form
        match line.strip_suffix(b"\n").map_or(Err(21), |line| before.judged(line)) {
            Ok(call) => before.accept(call, &mut cards),
            Err(k) => cards.expected.push(Expected::Refused(k)),
        }
    }
    let mut oracle = Asked::start(oracle)?;
    let answers = oracle.ask(&cards.calls)?;
    oracle.end()?;
    let text = if sheet {
        expected_sheet(&cards, &answers)?.map_or(String::new(), |sheet| sheet.text())
    } else {
        expected_lines(&cards, &answers)?
    };
    io::stdout().write_all(text.as_bytes())
}

/// The programs, by their paths.
pub struct Programs<'a> {
    pub oracle: &'a str,
    pub replay: &'a str,
    pub sheet: &'a str,
}

// Compares all that `replay` prints; answers how many lines.
fn compare_lines(replay: &str, session: &Cards, answers: &[String]) -> io::Result<usize> {
    let expected = expected_lines(session, answers)?;
    let got = printed(replay, &session.input)?;
    if got != expected.as_bytes() {
        return Err(differ(session, &expected, &got));
    }
    Ok(expected.lines().count())
}

// Compares what `sheet` prints.
fn compare_sheet(path: &str, input: &[u8], sheet: Option<&Sheet>, met: &mut Met) -> io::Result<()> {
    let expected = sheet.map_or(String::new(), Sheet::text);
    let got = printed(path, input)?;
    if got != expected.as_bytes() {
        return Err(io::Error::other(format!(
            "DIFFERENCE in the sheet of these cards:\n{}expected:\n{expected}sheet:\n{}",
            String::from_utf8_lossy(input),
            String::from_utf8_lossy(&got),
        )));
    }
    met.add(sheet);
    Ok(())
}

/// Runs random sessions as cards, and compares every line that `replay` prints, the sheet of each
/// session, and the empty one of the cards before its set-up.
pub fn run(name: &str, mode: Mode, seed: u64, least: u64, programs: &Programs) -> io::Result<()> {
    let begin = Instant::now();
    let mut oracle = Asked::start(programs.oracle)?;
    let mut draw = Draw::new(seed, mode, Limits::ALL);
    let (mut cards, mut sessions, mut lines) = (0, 0, 0);
    let mut met = Met::default();
    while cards < least {
        let session = draw.session();
        let answers = oracle.ask(&session.calls)?;
        lines += compare_lines(programs.replay, &session, &answers)?;
        let sheet = expected_sheet(&session, &answers)?;
        compare_sheet(programs.sheet, &session.input, sheet.as_ref(), &mut met)?;
        if session.early > 0 {
            compare_sheet(programs.sheet, &session.input[..session.early], None, &mut met)?;
        }
        cards += session.expected.len() as u64;
        sessions += 1;
    }
    oracle.end()?;
    let seconds = begin.elapsed().as_secs_f64();
    println!(
        "cards, mode {name}, seed {seed}: {cards} cards in {sessions} sessions, {lines} lines \
         compared, 0 differ; {seconds:.1} s"
    );
    let refused: Vec<String> = (1..24)
        .filter(|k| draw.refused[*k] > 0)
        .map(|k| format!("{k}: {}", draw.refused[k]))
        .collect();
    println!("  refused, by number: {}", refused.join(", "));
    print!("{}", met.shown());
    Ok(())
}

/// Writes random sessions of few ids as cards, each to a file of the folder, and the sheet that it
/// should give to a file `.stdout` beside it.
pub fn write_sheets(
    mode: Mode,
    seed: u64,
    sessions: u64,
    oracle: &str,
    folder: &str,
) -> io::Result<()> {
    let mut oracle = Asked::start(oracle)?;
    let mut draw = Draw::new(seed, mode, Limits::FEW);
    for i in 0..sessions {
        let session = draw.session();
        let sheet = expected_sheet(&session, &oracle.ask(&session.calls)?)?;
        let text = sheet.as_ref().map_or(String::new(), Sheet::text);
        fs::write(Path::new(folder).join(format!("session{i}")), &session.input)?;
        fs::write(Path::new(folder).join(format!("session{i}.stdout")), text)?;
    }
    oracle.end()
}
