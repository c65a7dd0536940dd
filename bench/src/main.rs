//! Times the library beside the lease manager that it is a port of, and beside plain arrays:
//! `bench [REPEATS]`. See README.md.

use std::{env, fs};

use bench::measure::{self, CALLER, PLAIN, RAW, TYPED, Times, UNLOOKED, WORKERS};
use bench::replay::LINE;
use bench::{cards, cases, compare};

const POPULATIONS: [usize; 2] = [5, 64];
const RANDOM_CALLS: usize = 100_000;
const RANDOM_INPUTS: u64 = 200;
const CARDS: usize = 1_000_000;
const SEED: u64 = 1;
const REPEATS: usize = 21;

const NOTES: &str = "
ours card: biasflint::raw::call on a lent record, record check included.
ours no look: a notice that does not look at the record first; the library offers none.
ours typed: the same as card by biasflint::LeaseManager.
original: LeaseManager::new_and_setup, its task spawned; add_notice, then get_action().await for
  each action. 1 thread: tokio's current-thread runtime, its best case. workers: the multi-thread
  runtime with 2 worker threads, as the original's server runs it (known of the project; the server
  is not among the seven files).
outdated notice: the original gets 127 in a row and one that it answers, and is not waited for
  in between.
notice refused: the original refuses no notice.
advance: the original has no such call. Its figure is a paused clock that is moved, by
  tokio::time::advance(..).await, and the yields until its sleepers ran. All timers due: its timers
  alone, until each has sent its notice. With the timeout notices: until its task has handled them
  and all actions are taken; ns per event, on every side.";

fn main() {
    let repeats = env::args().nth(1).map_or(REPEATS, |n| n.parse().expect("bench [REPEATS]"));
    let seen = compare::random_calls(RANDOM_CALLS);
    println!(
        "{} random calls ({} refused, {} with actions, {} with timers that fired):",
        seen.calls, seen.refused, seen.actions, seen.fired
    );
    println!(
        "the plain program and the library give the same answers and the same tables after each."
    );
    println!("All sides answer alike on every list that is timed.");
    compare::kept_cards();
    let bytes = compare::random_cards(RANDOM_INPUTS);
    println!(
        "The cards of replay and replay_tour: both replays print the lines that are kept. {RANDOM_INPUTS} random\n\
         inputs of cards, with odd lines and bytes: both print the same {bytes} bytes.\n"
    );
    println!("ns per call, the median of {repeats} repetitions. Load before: {}\n", load());
    table(repeats);
    println!("\nreplay, in memory: ns per card, the median of {repeats} repetitions\n");
    replay_table(repeats);
    println!("\nLoad after: {}", load());
    println!("{NOTES}");
}

fn load() -> String {
    let load = fs::read_to_string("/proc/loadavg").unwrap_or_default();
    let cores = std::thread::available_parallelism().map_or(0, |n| n.get());
    format!("{} on {cores} cores", load.split(' ').take(3).collect::<Vec<_>>().join(" "))
}

fn table(repeats: usize) {
    print_row(
        "",
        "",
        ["plain", "ours", "ours", "ours", "original", "original", "1 thread", "workers", "ours"],
    );
    print_row(
        "",
        "pop",
        ["arrays", "card", "no look", "typed", "1 thread", "workers", "/ours", "/ours", "/plain"],
    );
    let mut spreads = vec![];
    for population in POPULATIONS {
        println!();
        for case in cases::all(population) {
            let mut times = measure::measure(&case, repeats);
            times.iter_mut().for_each(|times| times.sort_by(f64::total_cmp));
            print_row(case.name, &population.to_string(), cells(&times).each_ref().map(|c| &c[..]));
            spreads
                .extend(times.iter().filter(|times| !times.is_empty()).map(|times| spread(times)));
        }
    }
    spreads.sort_by(f64::total_cmp);
    let (middle, widest) = (spreads[spreads.len() / 2], spreads[spreads.len() - 1]);
    println!(
        "\nHalf of a figure's repetitions are within {:.0} % of it (median), {:.0} % (worst).",
        100.0 * middle,
        100.0 * widest
    );
}

fn replay_table(repeats: usize) {
    println!("{:>38} |{:>7}{:>8} |{:>7}", "pop", "plain", "ours", "ours/plain");
    for population in POPULATIONS {
        let input = cards::session(SEED, population, CARDS);
        let count = input.iter().filter(|&&byte| byte == b'\n').count();
        let mut out = vec![0; compare::room_for(&input)];
        let printed = compare::printed_alike(&input, &mut out, "the cards").len();
        let [plain, ours] = measure::replay(&input, count, &mut out, repeats)
            .map(|mut times| measure::median(&mut times));
        println!(
            "{population:>38} |{plain:>7.0}{ours:>8.0} |{:>7}   {count} cards, {} lines, the same bytes",
            two_digits(ours / plain),
            printed / LINE
        );
    }
}

fn print_row(name: &str, population: &str, cells: [&str; 9]) {
    let [plain, card, no_look, typed, caller, workers, by_caller, by_workers, by_plain] = cells;
    println!(
        "{name:<34}{population:>4} |{plain:>7}{card:>8}{no_look:>8}{typed:>8} |{caller:>9}{workers:>9} \
         |{by_caller:>9}{by_workers:>9} |{by_plain:>7}"
    );
}

/// A row of the table, from sorted times.
fn cells(times: &Times) -> [String; 9] {
    let median = |side: usize| times[side].get(times[side].len() / 2).copied();
    let ns = |side| median(side).map_or("-".to_string(), |ns| format!("{ns:.0}"));
    let ratio = |a, b| match median(a).zip(median(b)) {
        Some((a, b)) => two_digits(a / b),
        None => "-".to_string(),
    };
    [
        ns(PLAIN),
        ns(RAW),
        ns(UNLOOKED),
        ns(TYPED),
        ns(CALLER),
        ns(WORKERS),
        ratio(CALLER, RAW),
        ratio(WORKERS, RAW),
        ratio(RAW, PLAIN),
    ]
}

fn two_digits(ratio: f64) -> String {
    match ratio {
        ..1.0 => format!("{ratio:.2}"),
        ..10.0 => format!("{ratio:.1}"),
        _ => format!("{ratio:.0}"),
    }
}

/// How far the quartiles of sorted figures are from their median, as a share of it.
fn spread(sorted: &[f64]) -> f64 {
    let at = |quarter: usize| sorted[(sorted.len() - 1) * quarter / 4];
    (at(3) - at(2)).max(at(2) - at(1)) / at(2)
}
