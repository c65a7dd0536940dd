//! The order of fired timers (rule 8.3), worked out here and not by the library: by the
//! deadlines of the state before the advance. Every state is compared with the Rust's, so these are
//! its deadlines.
use crate::call::MS;
use crate::state::ARMED;
use crate::text;
use biasflint::raw::{FiredTimerC, FiredTimersC, ManagerC, PeerC};

/// A deadline, whether the timer is a held one, and its id: as tuples are ordered, so are fired
/// timers.
pub type Timer = (u64, bool, usize);

/// The timers of two sets in order, by the deadline that `at` gives for a side and an id.
pub fn in_order(sent: u64, held: u64, at: impl Fn(bool, usize) -> u64) -> Vec<Timer> {
    let of = |is_held: bool, set: u64| {
        (0..64).filter(move |id| set >> id & 1 == 1).map(move |id| (is_held, id))
    };
    let both = of(false, sent).chain(of(true, held));
    let mut timers: Vec<Timer> = both.map(|(held, id)| (at(held, id), held, id)).collect();
    timers.sort_unstable();
    timers
}

fn armed_at(p: &PeerC, is_held: bool) -> u64 {
    let [guard, promise] = if is_held {
        [(p.guard_held, p.guard_held_at), (p.promise_held, p.promise_held_at)]
    } else {
        [(p.guard_sent, p.guard_sent_at), (p.promise_sent, p.promise_sent_at)]
    };
    if guard.0 == ARMED { guard.1 } else { promise.1 }
}

/// The same by the deadlines of a record.
pub fn by_record(before: &ManagerC, sent: u64, held: u64) -> Vec<Timer> {
    in_order(sent, held, |is_held, id| armed_at(&before.peers[id], is_held))
}

/// As the library is to list them; what does not count is zero.
pub fn listed(timers: &[Timer]) -> FiredTimersC {
    let mut list = FiredTimersC { count: timers.len(), ..FiredTimersC::NONE };
    for (place, (_, held, id)) in list.timers.iter_mut().zip(timers) {
        *place = FiredTimerC { held: u8::from(*held), id: *id as u8 };
    }
    list
}

/// The timers as the oracle names them: `s1,h2`.
pub fn write(out: &mut Vec<u8>, list: &FiredTimersC) {
    for (i, timer) in list.timers.iter().take(list.count).enumerate() {
        if i > 0 {
            out.push(b',');
        }
        out.push(if timer.held > 0 { b'h' } else { b's' });
        text::number(out, u64::from(timer.id));
    }
}

// ---- the Rust's order

/// What the oracle's `order` line is held to.
pub const ORDER: &str = "order~";

/// `order~` and each timer with its deadline, `s1@2000000`.
pub fn write_order(out: &mut Vec<u8>, timers: &[Timer]) {
    text::words(out, ORDER);
    for (i, (at, held, id)) in timers.iter().enumerate() {
        text::words(out, if i > 0 { "," } else { "" });
        text::words(out, if *held { "h" } else { "s" });
        text::number(out, *id as u64);
        out.push(b'@');
        text::number(out, *at);
    }
}

// The same timers; and none fires behind one whose deadline is a ms or more later. The Rust fires
// by the tick of a ms, within one in the order of arming.
fn is_order(timers: &str, got: &str) -> Option<bool> {
    let ours: Option<Vec<(&str, u64)>> = timers
        .split(',')
        .map(|timer| timer.split_once('@').and_then(|(name, at)| Some((name, at.parse().ok()?))))
        .collect();
    let mut left = ours?;
    let mut latest = 0;
    for name in got.strip_prefix("order ")?.split(" |").next()?.split(',') {
        let place = left.iter().position(|(ours, _)| *ours == name)?;
        let (_, at) = left.swap_remove(place);
        if latest >= at + MS {
            return Some(false);
        }
        latest = latest.max(at);
    }
    Some(left.is_empty())
}

/// Whether the oracle's `order` line has the timers of an `order~` line, in an order that their
/// deadlines allow.
pub fn agrees(timers: &[u8], got: &[u8]) -> bool {
    let text = |bytes| std::str::from_utf8(bytes).ok();
    let both = text(timers).zip(text(got));
    both.and_then(|(timers, got)| is_order(timers, got)).unwrap_or(false)
}
