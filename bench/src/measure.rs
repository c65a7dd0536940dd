//! One case on every side: first that all answer alike, then the times.

use std::hint::black_box;
use std::time::{Duration, Instant};

use biasflint::LeaseNotice;
use biasflint::raw::{AnswerC, CallC, LineC};
use original::timed::{self, Line, On, Original, Step};

use crate::calls::{self, Call, Plain, Raw, SetUp, Side, Typed, Unlooked};
use crate::cases::{self, Case};
use crate::{replay, stream};

/// How many copies of a state are called in a row, where the list is short.
const COPIES: usize = 4;

/// How many calls a repetition has at the least.
const CALLS: usize = 512;
const CALLS_OF_ORIGINAL: usize = 64;

/// How many rounds it has at the most: a round is short, so that few are interrupted, and a
/// repetition's time is the median of its rounds.
const ROUNDS: usize = 128;
const ROUNDS_OF_ORIGINAL: usize = 7;

/// The sides, in the order of the table.
pub const SIDES: usize = 6;
pub const PLAIN: usize = 0;
pub const RAW: usize = 1;
pub const UNLOOKED: usize = 2;
pub const TYPED: usize = 3;
pub const CALLER: usize = 4;
pub const WORKERS: usize = 5;

/// ns per unit of each repetition, by side; none where the side was not measured.
pub type Times = [Vec<f64>; SIDES];

/// A case made ready.
struct Ready<'a> {
    case: &'a Case,
    /// The library's answers to the prelude and to the list.
    prelude: Vec<AnswerC>,
    list: Vec<AnswerC>,
}

pub fn measure(case: &Case, repeats: usize) -> Times {
    let ready = Ready::of(case);
    let (plain, raw, typed) = (start::<Plain>(case), start::<Raw>(case), start::<Typed>(case));
    let mut originals: Vec<(usize, Original)> = ready.originals();
    let idle = clock_cost();
    let mut times = Times::default();
    for _ in 0..repeats {
        times[PLAIN].push(time(&plain, case, idle));
        times[RAW].push(time(&raw, case, idle));
        if calls::WITHOUT_LOOK.is_some() && case.is_of_notices() {
            times[UNLOOKED].push(time(&Unlooked(raw.0), case, idle));
        }
        times[TYPED].push(time(&typed, case, idle));
        for (side, original) in &mut originals {
            times[*side].push(ready.time_original(original));
        }
        if let cases::Original::Timers(count) = case.original {
            let took = timed::time_of_timers(count, Duration::from_nanos(case.set_up.t));
            times[CALLER].push(nanos(took));
        }
    }
    times
}

fn nanos(time: Duration) -> f64 {
    time.as_nanos() as f64
}

// ---- replay

/// ns a card of each repetition of the plain replay and of the library's, in turn. The first of each
/// warms up and does not count.
pub fn replay(input: &[u8], cards: usize, out: &mut [u8], repeats: usize) -> [Vec<f64>; 2] {
    let mut time = |run: fn(&[u8], &mut [u8]) -> usize| {
        let begin = Instant::now();
        black_box(run(black_box(input), out));
        nanos(begin.elapsed()) / cards as f64
    };
    let mut times = [vec![], vec![]];
    for _ in 0..=repeats {
        times[0].push(time(replay::replay));
        times[1].push(time(stream::replay));
    }
    times.map(|times| times[1..].to_vec())
}

/// Sorts the figures.
pub fn median(figures: &mut [f64]) -> f64 {
    figures.sort_by(f64::total_cmp);
    figures[figures.len() / 2]
}

// ---- the sides that are called directly

/// The state in which a list starts.
pub fn start<S: Side>(case: &Case) -> S {
    let mut side = S::set_up(&case.set_up);
    for call in [cases::FIRST].iter().chain(&case.prelude) {
        assert_eq!(side.answer(call).refused, 0, "{call:?}");
    }
    side
}

fn answers<S: Side>(case: &Case) -> Vec<AnswerC> {
    let mut side = start::<S>(case);
    case.list.iter().map(|call| side.answer(call)).collect()
}

/// The first round warms up and does not count.
fn time<S: Side>(start: &S, case: &Case, idle: Duration) -> f64 {
    let list: Vec<S::Given> = case.list.iter().map(S::give).collect();
    let copies = if list.len() < 8 { COPIES } else { 1 };
    let rounds = CALLS.div_ceil(copies * list.len()).clamp(5, ROUNDS);
    let mut times = vec![];
    for _ in 0..=rounds {
        let mut sides = vec![start.clone(); copies];
        let begin = Instant::now();
        for side in &mut sides {
            list.iter().for_each(|given| side.run(given));
        }
        let took = begin.elapsed().saturating_sub(idle);
        black_box(&sides);
        times.push(nanos(took) / (copies * case.units) as f64);
    }
    median(&mut times[1..])
}

/// What looking at the clock costs.
fn clock_cost() -> Duration {
    let mut costs: Vec<f64> = (0..1001).map(|_| nanos(Instant::now().elapsed())).collect();
    Duration::from_nanos(median(&mut costs) as u64)
}

// ---- the original

impl<'a> Ready<'a> {
    /// Panics where two sides answer differently.
    fn of(case: &'a Case) -> Self {
        let mut raw = Raw::set_up(&case.set_up);
        raw.answer(&cases::FIRST);
        let prelude = case.prelude.iter().map(|call| raw.answer(call)).collect();
        let list = answers::<Raw>(case);
        assert!(answers::<Plain>(case) == list, "{}: the plain program", case.name);
        assert!(answers::<Typed>(case) == list, "{}: the typed calls", case.name);
        if calls::WITHOUT_LOOK.is_some() && case.is_of_notices() {
            assert!(answers::<Unlooked>(case) == list, "{}: without the look", case.name);
        }
        let ready = Ready { case, prelude, list };
        ready.on().into_iter().for_each(|(_, on)| ready.check_original(on));
        ready
    }

    fn on(&self) -> Vec<(usize, On)> {
        match self.case.original {
            cases::Original::Manager => vec![(CALLER, On::Caller), (WORKERS, On::Workers)],
            cases::Original::Clock => vec![(CALLER, On::Paused)],
            cases::Original::Timers(_) | cases::Original::Nothing => vec![],
        }
    }

    /// A manager after its first call.
    fn original(&self, on: On) -> Original {
        let SetUp { me, population, t, heartbeat, .. } = self.case.set_up;
        let (t, heartbeat) = (Duration::from_nanos(t), Duration::from_nanos(heartbeat));
        let mut original = Original::new(on, me as u8, population as u8, t, heartbeat);
        original.answers(vec![Step::of(numbers(cases::FIRST.card()), 2).unwrap()]);
        original
    }

    fn originals(&self) -> Vec<(usize, Original)> {
        self.on().into_iter().map(|(side, on)| (side, self.original(on))).collect()
    }

    fn prelude_steps(&self) -> Vec<Step> {
        steps(&self.case.prelude, &self.prelude, self.case.set_up.now)
    }

    fn list_steps(&self) -> Vec<Step> {
        steps(&self.case.list, &self.list, self.case.set_up.now)
    }

    /// Twice, since the prelude must lead to the same tables again.
    fn check_original(&self, on: On) {
        let mut original = self.original(on);
        for _ in 0..2 {
            let what = format!("{}: the original on {on:?}", self.case.name);
            assert!(
                sorted(original.answers(self.prelude_steps())) == lines(&self.prelude),
                "{what}, prelude"
            );
            assert!(sorted(original.answers(self.list_steps())) == lines(&self.list), "{what}");
            // if an action was left over, it would come before this answer
            let last = numbers(cases::last_of(self.case.set_up.population).card());
            let left = original.answers(vec![Step::of(last, 1).unwrap()]);
            assert_eq!(left, [[[6, 0, last[2], 0, 0]]], "{what}, one action more");
        }
    }

    fn time_original(&self, original: &mut Original) -> f64 {
        let rounds = CALLS_OF_ORIGINAL.div_ceil(self.case.units).clamp(3, ROUNDS_OF_ORIGINAL);
        let time = |_| {
            original.time(self.prelude_steps());
            nanos(original.time(self.list_steps())) / self.case.units as f64
        };
        median(&mut (0..rounds).map(time).collect::<Vec<f64>>())
    }
}

fn numbers(card: CallC) -> [u64; 6] {
    [card.code, card.number, card.peer, card.size, card.first, card.second]
}

/// The calls for the original. Timeout notices are its own: they come with the clock, and so do
/// their actions.
fn steps(calls: &[Call], answers: &[AnswerC], mut now: u64) -> Vec<Step> {
    let mut steps: Vec<Step> = vec![];
    for (call, answer) in calls.iter().zip(answers) {
        let count = lines_of(answer).filter(|line| line[0] <= 13).count();
        match call {
            Call::Advance(to) => {
                steps.push(Step::advance(Duration::from_nanos(to.0 - now), count));
                now = to.0;
            }
            Call::Notice(
                _,
                LeaseNotice::GrantTimeout { .. } | LeaseNotice::LeaseTimeout { .. },
            ) => {
                steps.last_mut().expect("the clock was moved before").actions += count;
            }
            _ => steps.push(Step::of(numbers(call.card()), count).expect("a notice or a question")),
        }
    }
    steps
}

/// The lines of an answer that the original has: actions, sets and counts.
fn lines_of(answer: &AnswerC) -> impl Iterator<Item = Line> + use<> {
    let lines = [answer.one, answer.two, answer.three].into_iter().take(answer.count as usize);
    lines
        .filter(|line| line.code <= 13 || (32..=33).contains(&line.code))
        .map(|LineC { code, number, peer, first, second }| [code, number, peer, first, second])
}

/// All of them, in one order: the original's timeouts come in any.
fn lines(answers: &[AnswerC]) -> Vec<Line> {
    sorted(vec![answers.iter().flat_map(lines_of).collect()])
}

fn sorted(lines: Vec<Vec<Line>>) -> Vec<Line> {
    let mut lines = lines.concat();
    if lines.iter().any(|line| line[0] == 10) {
        lines.sort_unstable();
    }
    lines
}
