//! The record as the oracle's protocol shows a state, and the deadlines in it.
use crate::call::MS;
use crate::text;
use biasflint::raw::{ManagerC, PeerC};

/// The oracle says `!near` of a reading nearer than this to an armed deadline.
const NEAR: u64 = 2 * MS;

pub const UNARMED: u8 = 1;
pub const ARMED: u8 = 2;
pub const EXPLODED: u8 = 3;

/// The rows of the ids below the population.
pub fn rows(m: &ManagerC) -> &[PeerC] {
    &m.peers[..m.population.min(64)]
}

/// The deadlines of all armed timers, the quiet one included.
pub fn deadlines(m: &ManagerC) -> impl Iterator<Item = u64> + '_ {
    let of_rows = rows(m).iter().flat_map(|p| {
        [
            (p.guard_sent, p.guard_sent_at),
            (p.promise_sent, p.promise_sent_at),
            (p.guard_held, p.guard_held_at),
            (p.promise_held, p.promise_held_at),
        ]
    });
    let quiet = if m.quiet > 0 { ARMED } else { 0 };
    of_rows.chain([(quiet, m.quiet_until)]).filter(|(tag, _)| *tag == ARMED).map(|(_, at)| at)
}

/// Whether the reading is less than 2 ms from an armed deadline.
pub fn is_near(m: &ManagerC, reading: u64) -> bool {
    reading >= m.now && deadlines(m).any(|at| at.abs_diff(reading) < NEAR)
}

fn timer(out: &mut Vec<u8>, tag: u8, at: u64) {
    match tag {
        UNARMED => out.push(b'u'),
        ARMED => text::number(out, at),
        EXPLODED => out.push(b'x'),
        _ => text::words(out, "!tag"),
    }
}

// One table: ` name=peer@timer,..`, and `r` after a revoking entry.
fn table(out: &mut Vec<u8>, name: &str, m: &ManagerC, entry: fn(&PeerC) -> (u8, u64, u8)) {
    text::words(out, name);
    let mut first = true;
    for (id, row) in rows(m).iter().enumerate() {
        let (tag, at, revoking) = entry(row);
        if tag == 0 {
            continue;
        }
        if !first {
            out.push(b',');
        }
        first = false;
        text::number(out, id as u64);
        out.push(b'@');
        timer(out, tag, at);
        if revoking > 0 {
            out.push(b'r');
        }
    }
}

fn marks(m: &ManagerC) -> u64 {
    let marked = |(id, row): (usize, &PeerC)| u64::from(row.refresh_mark > 0) << id;
    rows(m).iter().enumerate().map(marked).sum()
}

/// `now= num= gs= gh= ps= ph= m= q=`.
pub fn write(out: &mut Vec<u8>, m: &ManagerC) {
    text::words(out, "now=");
    text::number(out, m.now);
    text::words(out, " num=");
    text::number(out, m.active_num);
    table(out, " gs=", m, |p| (p.guard_sent, p.guard_sent_at, 0));
    table(out, " gh=", m, |p| (p.guard_held, p.guard_held_at, 0));
    table(out, " ps=", m, |p| (p.promise_sent, p.promise_sent_at, p.revoking));
    table(out, " ph=", m, |p| (p.promise_held, p.promise_held_at, 0));
    text::words(out, " m=");
    text::ids(out, marks(m));
    text::words(out, " q=");
    if m.quiet > 0 {
        text::number(out, m.quiet_until);
    } else {
        out.push(b'-');
    }
}
