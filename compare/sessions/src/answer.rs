//! The library's answer to a call as the text that the oracle's protocol gives it. Codes and fields
//! of the lines are those of rule 13.3.
use crate::call::Call;
use crate::text;
use biasflint::raw::{AnswerC, LineC};

/// The name of each action, by the code of its line.
pub const ACTIONS: [&str; 14] = [
    "!line",
    "GUARD",
    "REVOKE",
    "guardreply",
    "promise",
    "promisereply",
    "revokereply",
    "nextrefresh",
    "grantremoved",
    "leasecleared",
    "granttimeout",
    "leasetimeout",
    "highernumber",
    "guardacceptbar",
];

/// The lines that count.
pub fn lines(answer: &AnswerC) -> ([LineC; 3], usize) {
    ([answer.one, answer.two, answer.three], answer.count.min(3) as usize)
}

/// Whether all that does not count is zero.
pub fn spare_lines_are_zero(answer: &AnswerC) -> bool {
    let (all, count) = lines(answer);
    answer.count <= 3 && all[count..].iter().all(|line| *line == LineC::default())
}

// A line that should not be where it stands: all of it, so that no comparison takes it for an
// answer.
fn odd(out: &mut Vec<u8>, l: LineC) {
    text::words(out, "!line");
    text::numbers(out, &[l.code, l.number, l.peer, l.first, l.second]);
}

fn action(out: &mut Vec<u8>, l: LineC, population: u64) {
    if !(1..=13).contains(&l.code) {
        return odd(out, l);
    }
    text::words(out, ACTIONS[l.code as usize]);
    text::numbers(out, &[l.number]);
    match l.code {
        1 | 2 => {
            out.push(b' ');
            text::set(out, population, l.first);
            match (l.code, l.peer) {
                (1, 0) => text::words(out, " -"),
                (1, _) => text::numbers(out, &[l.second]),
                _ => {}
            }
        }
        3 | 4 | 7 | 10 | 11 => text::numbers(out, &[l.peer]),
        5 | 6 | 8 | 13 => text::numbers(out, &[l.peer, l.first]),
        _ => {}
    }
}

fn actions(out: &mut Vec<u8>, lines: &[LineC], population: u64) {
    for (i, line) in lines.iter().enumerate() {
        if i > 0 {
            text::words(out, "; ");
        }
        action(out, *line, population);
    }
    if lines.is_empty() {
        out.push(b'-');
    }
}

fn fired(out: &mut Vec<u8>, lines: &[LineC], population: u64) {
    match lines {
        [l, rest @ ..] if l.code == 31 => {
            text::words(out, "fired s=");
            text::ids(out, l.first);
            text::words(out, " h=");
            text::ids(out, l.second);
            text::words(out, " acts ");
            actions(out, rest, population);
        }
        _ => actions(out, lines, population),
    }
}

fn set(out: &mut Vec<u8>, name: &str, lines: &[LineC]) {
    text::words(out, name);
    match lines {
        [l] if l.code == 32 => text::set(out, l.peer, l.first),
        _ => lines.iter().for_each(|l| odd(out, *l)),
    }
}

fn count(out: &mut Vec<u8>, lines: &[LineC]) {
    text::words(out, "count ");
    match lines {
        [l] if l.code == 33 => text::number(out, l.first),
        _ => lines.iter().for_each(|l| odd(out, *l)),
    }
}

fn time_left(out: &mut Vec<u8>, lines: &[LineC]) {
    text::words(out, "left ");
    match lines {
        [l] if l.code == 34 && l.peer == 0 => text::words(out, "none"),
        [l] if l.code == 34 => text::number(out, l.first),
        _ => lines.iter().for_each(|l| odd(out, *l)),
    }
}

// A call whose answer has no line.
fn done(out: &mut Vec<u8>, name: &str, lines: &[LineC]) {
    text::words(out, name);
    lines.iter().for_each(|l| odd(out, *l));
}

/// The answer to a call on a record of that population. `near` says that an advance's reading is
/// near a deadline.
pub fn write(out: &mut Vec<u8>, call: &Call, answer: &AnswerC, population: u64, near: bool) {
    if answer.refused > 0 {
        text::words(out, "refused");
        return text::numbers(out, &[answer.refused]);
    }
    let (all, n) = lines(answer);
    let lines = &all[..n];
    match call {
        Call::SetUp(_) => done(out, "ok", lines),
        Call::Advance(_) => fired(out, lines, population),
        Call::Notice(..) => {
            text::words(out, "acts ");
            actions(out, lines, population);
        }
        Call::Quiet => done(out, "quiet -", lines),
        Call::Refresh(_) => {
            set(out, "refresh ", lines);
            text::words(out, " -");
        }
        Call::Drift(..) => done(out, "drift", lines),
        Call::GrantSet => set(out, "grants ", lines),
        Call::LeaseSet => set(out, "leases ", lines),
        Call::LeaseCnt => count(out, lines),
        Call::TimeLeft(_) => time_left(out, lines),
    }
    if near {
        text::words(out, " !near");
    }
}
