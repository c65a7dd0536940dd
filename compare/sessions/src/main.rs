//! Lists of calls put to the proved lease manager (the library) and to the Rust that it follows (the
//! oracle), both by the oracle's line protocol, see `oracle/README.md`.
//!
//! - `answer` reads calls on standard input and prints the library's answers. What the library
//!   refuses is `refused k`.
//! - `run` draws calls at random, puts them to both and compares every answer and state. Mode `wide`
//!   keeps readings 2 ms away from deadlines, `near` 1 ns before and 1 ms after them, `whole` has all
//!   times in whole ms and readings on the deadlines; `drift` and `bitmap` compare the leaves. It
//!   stops at the first difference, prints the calls that lead to it, and fails. The list of fired
//!   timers is held to an order worked out from the Rust's deadlines, and the order in which they
//!   fire there to what deadlines a ms or more apart allow.
//! - `record` prints the calls that `run` would put to the oracle; with `--few`, of few ids.
//! - `choose` prints a short list of calls in which every event of `run` is met that many times.
//! - `sample` reads pairs of lines, a call and the oracle's answer with its state, and prints them in
//!   the notation of `crates/examples`: `paste -d '\n' CALLS ANSWERS | sessions sample`.
//! - `cards` draws sessions at random as event cards, puts them to the program `replay` and compares
//!   the lines that it prints with the oracle's answers; and to the program `sheet`, whose sheet is
//!   compared with the oracle's state at the end.
//! - `expect` reads event cards and prints what `replay` should print, with `--sheet` what `sheet`
//!   should, by the oracle's answers.
//! - `sheets` draws short sessions and writes their cards, and the sheets that `sheet` should print,
//!   to files of a folder, as `rt try --cases` takes them.
mod answer;
mod call;
mod cards;
mod choose;
mod events;
mod fired;
mod generate;
mod judge;
mod leaf_runs;
mod leaves;
mod oracle;
mod parse;
mod random;
mod sample;
mod side;
mod state;
mod tally;
mod text;
mod walk;

use generate::{Limits, Mode};
use std::process::ExitCode;

const USAGE: &str = "\
sessions answer [--state]
sessions run --seed S --calls N [--mode wide|near|whole|drift|bitmap] --oracle PATH
sessions record --seed S --calls N [--mode wide|near|whole] [--few]
sessions choose --seed S --times N
sessions sample
sessions cards --seed S --cards N [--mode wide|near|whole] --oracle PATH --replay PATH --sheet PATH
sessions expect --oracle PATH [--sheet]
sessions sheets --seed S --sessions N [--mode wide|near|whole] --oracle PATH --cases FOLDER";

struct Arguments(Vec<String>);

impl Arguments {
    fn value(&self, name: &str) -> Option<&str> {
        let at = self.0.iter().position(|word| word == name)?;
        self.0.get(at + 1).map(String::as_str)
    }

    fn needed(&self, name: &str) -> Result<&str, String> {
        self.value(name).ok_or(format!("{name} is missing\n{USAGE}"))
    }

    fn number(&self, name: &str) -> Result<u64, String> {
        self.needed(name)?.parse().map_err(|_| format!("{name} takes a number\n{USAGE}"))
    }

    fn mode(&self) -> Result<(&str, Mode), String> {
        let name = self.value("--mode").unwrap_or("wide");
        match name {
            "wide" => Ok((name, Mode::Wide)),
            "near" => Ok((name, Mode::Near)),
            "whole" => Ok((name, Mode::Whole)),
            _ => Err(format!("no such mode: {name}\n{USAGE}")),
        }
    }
}

fn run(arguments: &Arguments) -> Result<(), String> {
    let (seed, calls) = (arguments.number("--seed")?, arguments.number("--calls")?);
    let path = arguments.needed("--oracle")?;
    let done = match arguments.value("--mode") {
        Some("drift") => leaf_runs::drift::run(seed, calls, path),
        Some("bitmap") => leaf_runs::sets::run(seed, calls, path),
        _ => {
            let (name, mode) = arguments.mode()?;
            walk::run(name, mode, seed, calls, path)
        }
    };
    done.map_err(|error| error.to_string())
}

fn record(arguments: &Arguments) -> Result<(), String> {
    let (seed, calls) = (arguments.number("--seed")?, arguments.number("--calls")?);
    let few = arguments.0.iter().any(|word| word == "--few");
    let limits = if few { Limits::FEW } else { Limits::ALL };
    walk::record(arguments.mode()?.1, seed, calls, limits).map_err(|error| error.to_string())
}

fn choose(arguments: &Arguments) -> Result<(), String> {
    let (seed, times) = (arguments.number("--seed")?, arguments.number("--times")?);
    choose::choose(seed, times).map_err(|error| error.to_string())
}

fn sample() -> Result<(), String> {
    sample::write().map_err(|error| error.to_string())
}

fn cards(arguments: &Arguments) -> Result<(), String> {
    let (seed, least) = (arguments.number("--seed")?, arguments.number("--cards")?);
    let programs = cards::Programs {
        oracle: arguments.needed("--oracle")?,
        replay: arguments.needed("--replay")?,
        sheet: arguments.needed("--sheet")?,
    };
    let (name, mode) = arguments.mode()?;
    cards::run(name, mode, seed, least, &programs).map_err(|error| error.to_string())
}

fn expect(arguments: &Arguments) -> Result<(), String> {
    let sheet = arguments.0.iter().any(|word| word == "--sheet");
    cards::expect(arguments.needed("--oracle")?, sheet).map_err(|error| error.to_string())
}

fn sheets(arguments: &Arguments) -> Result<(), String> {
    let (seed, sessions) = (arguments.number("--seed")?, arguments.number("--sessions")?);
    let (oracle, folder) = (arguments.needed("--oracle")?, arguments.needed("--cases")?);
    cards::write_sheets(arguments.mode()?.1, seed, sessions, oracle, folder)
        .map_err(|error| error.to_string())
}

fn main() -> ExitCode {
    let arguments = Arguments(std::env::args().skip(1).collect());
    let done = match arguments.0.first().map(String::as_str) {
        Some("answer") => side::answer_all(arguments.0.iter().any(|word| word == "--state"))
            .map_err(|error| error.to_string()),
        Some("run") => run(&arguments),
        Some("record") => record(&arguments),
        Some("choose") => choose(&arguments),
        Some("sample") => sample(),
        Some("cards") => cards(&arguments),
        Some("expect") => expect(&arguments),
        Some("sheets") => sheets(&arguments),
        _ => Err(USAGE.to_string()),
    };
    match done {
        Ok(()) => ExitCode::SUCCESS,
        Err(message) => {
            eprintln!("{message}");
            ExitCode::FAILURE
        }
    }
}
