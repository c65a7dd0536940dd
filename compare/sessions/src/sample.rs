//! Stored samples: calls as cards of fixed columns, and under each the oracle's answer as the lines
//! that must come, in the notation of the program `crates/examples` (its README says what each is).
use crate::answer::ACTIONS;
use crate::call::{Call, Ids};
use crate::fired;
use crate::parse::{self, Line};
use biasflint::raw::LineC;
use std::io::{self, BufRead, BufWriter, Write};

/// The width of each column.
const CARD: [usize; 6] = [2, 21, 4, 4, 21, 21];
const ANSWER: [usize; 5] = [2, 21, 4, 21, 21];

fn columns(numbers: &[u64], widths: &[usize]) -> Option<String> {
    let mut text = String::new();
    for (n, width) in numbers.iter().zip(widths) {
        let decimals = n.to_string();
        if decimals.len() > *width {
            return None;
        }
        text.push_str(&format!("{decimals:>width$}"));
    }
    text.push('\n');
    Some(text)
}

/// A card's columns, without a newline; none where a number has no room.
pub fn card_columns(numbers: &[u64; 6]) -> Option<String> {
    columns(numbers, &CARD).map(|text| text.trim_end().to_string())
}

/// The card of a call, with its newline.
pub fn card(call: &Call) -> Option<String> {
    let c = call.card();
    columns(&[c.code, c.number, c.peer, c.size, c.first, c.second], &CARD)
}

fn line(code: u64, number: u64, peer: u64, first: u64, second: u64) -> LineC {
    LineC { code, number, peer, first, second }
}

// ---- the oracle's words

fn action(words: &str) -> Option<LineC> {
    let w: Vec<&str> = words.split(' ').collect();
    let code = ACTIONS.iter().position(|name| name == w.first().unwrap_or(&""))?;
    let number = |i: usize| w.get(i)?.parse::<u64>().ok();
    let set = |i: usize| parse::set(w.get(i)?);
    let num = number(1)?;
    Some(match code {
        1 => {
            let bar = if *w.get(3)? == "-" { None } else { Some(number(3)?) };
            line(1, num, u64::from(bar.is_some()), set(2)?.bits, bar.unwrap_or(0))
        }
        2 => line(2, num, 0, set(2)?.bits, 0),
        3 | 4 | 7 | 10 | 11 => line(code as u64, num, number(2)?, 0, 0),
        5 | 6 | 8 | 13 => line(code as u64, num, number(2)?, number(3)?, 0),
        9 | 12 => line(code as u64, num, 0, 0, 0),
        _ => return None,
    })
}

fn actions(words: &str) -> Option<Vec<LineC>> {
    if words == "-" {
        return Some(Vec::new());
    }
    words.split("; ").map(action).collect()
}

// `s=ids h=ids acts ..`
fn fired(words: &str) -> Option<Vec<LineC>> {
    let (sets, acts) = words.split_once(" acts ")?;
    let (sent, held) = sets.strip_prefix("s=")?.split_once(" h=")?;
    let mut lines = vec![line(31, 0, 0, parse::bits(sent)?, parse::bits(held)?)];
    lines.extend(actions(acts)?);
    Some(lines)
}

fn set_line(set: Ids) -> LineC {
    line(32, 0, set.size, set.bits, 0)
}

fn left(words: &str) -> Option<LineC> {
    match words {
        "none" => Some(line(34, 0, 0, 0, 0)),
        ms => Some(line(34, 0, 1, ms.parse().ok()?, 0)),
    }
}

// The lines of an answer that is no refusal.
fn answer_lines(call: &Call, words: &str) -> Option<Vec<LineC>> {
    let none = |same: bool| same.then(Vec::new);
    match call {
        Call::SetUp(_) => none(words == "ok"),
        Call::Advance(_) => fired(words.trim_end_matches(" !near").strip_prefix("fired ")?),
        Call::Notice(..) => actions(words.strip_prefix("acts ")?),
        Call::Quiet => none(words == "quiet -"),
        Call::Refresh(_) => {
            let set = words.strip_prefix("refresh ")?.strip_suffix(" -")?;
            Some(vec![set_line(parse::set(set)?)])
        }
        Call::Drift(..) => none(words == "drift"),
        Call::GrantSet => Some(vec![set_line(parse::set(words.strip_prefix("grants ")?)?)]),
        Call::LeaseSet => Some(vec![set_line(parse::set(words.strip_prefix("leases ")?)?)]),
        Call::LeaseCnt => {
            Some(vec![line(33, 0, 0, words.strip_prefix("count ")?.parse().ok()?, 0)])
        }
        Call::TimeLeft(_) => Some(vec![left(words.strip_prefix("left ")?)?]),
    }
}

// ---- the oracle's state

/// A row of the state: the parts of its tag, and a deadline of each side.
#[derive(Clone, Copy, Default)]
struct Row {
    tag: u64,
    sent_at: u64,
    held_at: u64,
}

/// Which timer of an entry is an exploded one.
pub const EXPLODED: usize = 2;

// An entry `peer@timer`: the peer, whether it is revoking, which of (unarmed, armed, exploded) it
// is, the deadline, or 0 if it is not armed.
fn entry(words: &str) -> Option<(usize, bool, usize, u64)> {
    let (peer, timer) = words.split_once('@')?;
    let (timer, revoking) = timer.strip_suffix('r').map_or((timer, false), |t| (t, true));
    let (which, at) = match timer {
        "u" => (0, 0),
        "x" => (EXPLODED, 0),
        at => (1, at.parse().ok()?),
    };
    Some((peer.parse().ok().filter(|peer| *peer < 64)?, revoking, which, at))
}

/// The entries of a table.
pub fn entries(table: &str) -> Option<Vec<(usize, bool, usize, u64)>> {
    table.split(',').filter(|words| !words.is_empty()).map(entry).collect()
}

// The rows of the four tables and the marks.
fn rows(gs: &str, gh: &str, ps: &str, ph: &str, marks: &str) -> Option<[Row; 64]> {
    let mut rows = [Row::default(); 64];
    for (peer, _, which, at) in entries(gs)? {
        rows[peer].tag += [1, 2, 3][which];
        rows[peer].sent_at = at;
    }
    for (peer, revoking, which, at) in entries(ps)? {
        rows[peer].tag += if revoking { [9, 6, 7] } else { [8, 4, 5] }[which];
        rows[peer].sent_at = at;
    }
    for (peer, _, which, at) in entries(gh)? {
        rows[peer].tag += [50, 10, 20][which];
        rows[peer].held_at = at;
    }
    for (peer, _, which, at) in entries(ph)? {
        rows[peer].tag += [60, 30, 40][which];
        rows[peer].held_at = at;
    }
    let marks = parse::bits(marks)?;
    let marked = (0..64).filter(|id| marks >> id & 1 == 1);
    marked.for_each(|id: usize| rows[id].tag += 100);
    Some(rows)
}

/// The parts of a state: now, num, gs, gh, ps, ph, m, q.
pub fn values(state: &str) -> Option<[&str; 8]> {
    let names = ["now=", "num=", "gs=", "gh=", "ps=", "ph=", "m=", "q="];
    let mut values = [""; 8];
    let mut parts = state.split(' ');
    for (value, name) in values.iter_mut().zip(names) {
        *value = parts.next()?.strip_prefix(name)?;
    }
    Some(values)
}

fn rows_of(state: &str) -> Option<[Row; 64]> {
    let [_, _, gs, gh, ps, ph, marks, _] = values(state)?;
    rows(gs, gh, ps, ph, marks)
}

// Line 40, and a line 41 for each id with anything in its row.
fn state_lines(state: &str) -> Option<Vec<LineC>> {
    let [now, num, .., quiet] = values(state)?;
    let quiet = if quiet == "-" { 0 } else { quiet.parse().ok()? };
    let mut lines = vec![line(40, num.parse().ok()?, 0, now.parse().ok()?, quiet)];
    for (id, row) in rows_of(state)?.iter().enumerate().filter(|(_, row)| row.tag > 0) {
        lines.push(line(41, row.tag, id as u64, row.sent_at, row.held_at));
    }
    Some(lines)
}

// ---- fired timers

// Line 31's two sets as lines 14 and 15 under a number, in order: by the deadlines of the state
// before the advance.
fn by_timer(l: &LineC, num: u64, before: &str) -> Option<Vec<LineC>> {
    let rows = rows_of(before)?;
    let at = |held, id: usize| if held { rows[id].held_at } else { rows[id].sent_at };
    let timers = fired::in_order(l.first, l.second, at);
    let line = |(_, held, id)| line(if held { 15 } else { 14 }, num, id as u64, 0, 0);
    Some(timers.into_iter().map(line).collect())
}

// ---- as the program replay prints them

fn show(l: &LineC) -> Option<String> {
    columns(&[l.code, l.number, l.peer, l.first, l.second], &ANSWER)
}

/// The state of an answer; none where there is none.
pub fn state_of(answer: &str) -> &str {
    answer.split_once(" | ").map_or("", |(_, state)| state)
}

/// The oracle's answer to a card that was accepted, as the lines that `replay` prints; `before` is
/// the state before it. Fired timers come under the active number.
pub fn replay_lines(call: &Call, before: &str, answer: &str) -> Option<String> {
    let (words, state) = answer.split_once(" | ")?;
    let active = state.split(' ').find_map(|part| part.strip_prefix("num="))?.parse().ok()?;
    let mut text = String::new();
    for l in answer_lines(call, words)? {
        let lines = if l.code == 31 { by_timer(&l, active, before)? } else { vec![l] };
        for l in lines {
            text.push_str(&show(&l)?);
        }
    }
    Some(text)
}

/// The line of a refused card.
pub fn refused_line(k: u64, card: u64) -> Option<String> {
    show(&line(20, 0, 0, k, card))
}

// ---- the files

fn is_question(call: &Call) -> bool {
    matches!(call, Call::GrantSet | Call::LeaseSet | Call::LeaseCnt | Call::TimeLeft(_))
}

// All lines for one answer of the oracle, with its state; fired timers in order, under 0.
fn answered(call: &Call, before: &str, answer: &str) -> Option<Vec<LineC>> {
    if let Some(k) = answer.strip_prefix("refused ") {
        return Some(vec![line(20, 0, 0, k.parse().ok()?, 0)]);
    }
    let (words, state) = answer.split_once(" | ")?;
    let mut lines = answer_lines(call, words)?;
    if let Some(sets) = lines.first().copied().filter(|l| l.code == 31) {
        lines.extend(by_timer(&sets, 0, before)?);
    }
    if !is_question(call) {
        lines.extend(state_lines(state)?);
    }
    Some(lines)
}

// A call and its answer, as they are stored; `before` is the state before it. Blank lines, comments
// and `V` are not stored.
fn stored(call: &str, before: &str, answer: &str) -> Option<(String, String)> {
    let call = match parse::line(call) {
        Line::Call(call) => call,
        Line::Blank | Line::Comment(_) | Line::Verbose(_) => return Some(Default::default()),
        _ => return None,
    };
    let lines: Option<Vec<String>> = answered(&call, before, answer)?.iter().map(show).collect();
    Some((card(&call)?, lines?.concat()))
}

/// Reads pairs of lines, a call and the oracle's answer with its state, and prints each session as
/// an example: its words, then each card with the lines that must come under it.
pub fn write() -> io::Result<()> {
    let mut output = BufWriter::new(io::stdout().lock());
    let mut lines = io::stdin().lock().lines();
    let (mut state, mut session) = (String::new(), String::new());
    let (mut first, mut count) = (1, 0);
    while let Some(call) = lines.next() {
        let call = call?;
        let answer =
            lines.next().ok_or_else(|| io::Error::other("no answer to the last call"))??;
        let (card, stored) = stored(&call, &state, &answer)
            .ok_or_else(|| io::Error::other(format!("cannot be stored: {call}\n{answer}")))?;
        let is_set_up = matches!(parse::line(&call), Line::Call(Call::SetUp(_)));
        if is_set_up && !answer.starts_with("refused ") && !session.is_empty() {
            write!(output, "the Rust, cards {first} to {count}\n{session}")?;
            session.clear();
            first = count + 1;
        }
        count += u64::from(!card.is_empty());
        session.push_str(&card);
        session.push_str(&stored);
        if answer.contains(" | ") {
            state = state_of(&answer).to_string();
        }
    }
    write!(output, "the Rust, cards {first} to {count}\n{session}")?;
    output.flush()
}
