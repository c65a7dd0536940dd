//! Calls as the cards that cross to the library, and the lines that come back as actions and sets.
//! The codes are those of rules 13.2 and 13.3 (`crates/wire/src/calls.rt` and `lines.rt`).

use std::time::Duration;

use crate::notices::whole_ns;
use crate::raw::{AnswerC, CallC, LineC};
use crate::{Actions, Advanced, Bar, Bitmap, DriftSetting, Fired, LeaseAction, LeaseMsg};
use crate::{LeaseNotice, LeaseNum, Line, Reading, Refusal, ReplicaId};

// ---- cards

/// A call that has nothing but its code.
pub(crate) fn plain(code: u64) -> CallC {
    CallC { code, ..CallC::default() }
}

pub(crate) const QUIET: u64 = 9;
pub(crate) const GRANT_SET: u64 = 12;
pub(crate) const LEASE_SET: u64 = 13;
pub(crate) const LEASE_CNT: u64 = 14;

pub(crate) fn setup(
    me: ReplicaId,
    population: usize,
    expire_timeout: Duration,
    hb_send_interval: Duration,
    now: Reading,
) -> CallC {
    CallC {
        code: 1,
        number: now.0,
        peer: me as u64,
        size: population as u64,
        first: whole_ns(expire_timeout),
        second: whole_ns(hb_send_interval),
    }
}

pub(crate) fn advance(to: Reading) -> CallC {
    CallC { number: to.0, ..plain(2) }
}

pub(crate) fn refresh(peers: Option<&Bitmap>) -> CallC {
    with_set(plain(10), peers)
}

pub(crate) fn drift(setting: DriftSetting) -> CallC {
    let (size, first) = match setting {
        DriftSetting::True => (0, 0),
        DriftSetting::Drifting(percent) => (1, (i64::from(percent) + 128) as u64),
    };
    CallC { size, first, ..plain(11) }
}

pub(crate) fn time_left(peer: ReplicaId) -> CallC {
    CallC { peer: peer as u64, ..plain(15) }
}

// A card's size 0 is "no set", so a set of size 0 crosses as one of size 256. A card's size above
// 255 counts as 255, which is no population and not 1 to 64: the library refuses it as the rules
// refuse size 0, and in the same order with other refusals.
fn with_set(card: CallC, peers: Option<&Bitmap>) -> CallC {
    let (size, first) = match peers {
        None => (0, 0),
        Some(set) if set.size() == 0 => (256, 0),
        Some(set) => (set.size() as u64, set.bits()),
    };
    CallC { size, first, ..card }
}

pub(crate) fn notice(num: LeaseNum, notice: LeaseNotice) -> CallC {
    let card = match notice {
        LeaseNotice::NewGrants { peers, accept_bar } => CallC {
            peer: u64::from(accept_bar.is_some()),
            second: accept_bar.unwrap_or_default().0,
            ..with_set(plain(3), peers.as_ref())
        },
        LeaseNotice::DoRevoke { peers } => with_set(plain(4), peers.as_ref()),
        LeaseNotice::ClearHeld => plain(5),
        LeaseNotice::RecvLeaseMsg { peer, msg } => recv(peer, msg),
        LeaseNotice::GrantTimeout { peer } => CallC { peer: peer as u64, ..plain(7) },
        LeaseNotice::LeaseTimeout { peer } => CallC { peer: peer as u64, ..plain(8) },
    };
    CallC { number: num.0, ..card }
}

// A message: its kind in size, what it carries in first.
fn recv(peer: ReplicaId, msg: LeaseMsg) -> CallC {
    let (size, first) = match msg {
        LeaseMsg::Guard { accept_bar: None } => (1, 0),
        LeaseMsg::Guard { accept_bar: Some(bar) } => (2, bar.0),
        LeaseMsg::GuardReply => (3, 0),
        LeaseMsg::Promise => (4, 0),
        LeaseMsg::PromiseReply { held } => (5, u64::from(held)),
        LeaseMsg::Revoke => (6, 0),
        LeaseMsg::RevokeReply { held } => (7, u64::from(held)),
    };
    CallC { peer: peer as u64, size, first, ..plain(6) }
}

// ---- answers

/// The answer of a call that was not refused.
pub(crate) fn accepted(answer: AnswerC) -> Result<AnswerC, Refusal> {
    match answer.refused {
        0 => Ok(answer),
        number => Err(Refusal::from_number(number)
            .unwrap_or_else(|| unreachable!("the library has no refusal {number}"))),
    }
}

/// The actions of a notice, by a manager of that population.
pub(crate) fn actions(answer: AnswerC, population: usize) -> Actions {
    let lines = [answer.one, answer.two, answer.three];
    let count = answer.count as usize;
    Actions::of(lines.into_iter().take(count).map(|l| action(l, population)))
}

/// What fired, in order too, and the quiet-end line after it.
pub(crate) fn advanced(answer: AnswerC, population: usize) -> Advanced {
    let fired = only(answer.one, 31);
    Advanced {
        sent: Bitmap::from_bits(population, fired.first),
        held: Bitmap::from_bits(population, fired.second),
        fired: Fired::from(answer.fired),
        quiet_end: (answer.count == 2).then(|| action(answer.two, population)),
    }
}

pub(crate) fn set(answer: AnswerC) -> Bitmap {
    let line = only(answer.one, 32);
    Bitmap::from_bits(line.peer as usize, line.first)
}

pub(crate) fn count(answer: AnswerC) -> usize {
    only(answer.one, 33).first as usize
}

pub(crate) fn left(answer: AnswerC) -> Option<Duration> {
    let line = only(answer.one, 34);
    (line.peer == 1).then(|| Duration::from_millis(line.first))
}

// The one kind of line that this call answers.
fn only(line: LineC, code: u64) -> LineC {
    if line.code != code {
        unreachable!("the library answers line {code} here, not {line:?}");
    }
    line
}

fn action(line: LineC, population: usize) -> Line {
    let peer = line.peer as ReplicaId;
    let held = line.first == 1;
    let send = |msg| LeaseAction::SendLeaseMsg { peer, msg };
    let bcast =
        |msg| LeaseAction::BcastLeaseMsgs { peers: Bitmap::from_bits(population, line.first), msg };
    let action = match line.code {
        1 => bcast(LeaseMsg::Guard { accept_bar: (line.peer == 1).then_some(Bar(line.second)) }),
        2 => bcast(LeaseMsg::Revoke),
        3 => send(LeaseMsg::GuardReply),
        4 => send(LeaseMsg::Promise),
        5 => send(LeaseMsg::PromiseReply { held }),
        6 => send(LeaseMsg::RevokeReply { held }),
        7 => LeaseAction::NextRefresh { peer },
        8 => LeaseAction::GrantRemoved { peer, held },
        9 => LeaseAction::LeaseCleared,
        10 => LeaseAction::GrantTimeout { peer },
        11 => LeaseAction::LeaseTimeout { peer },
        12 => LeaseAction::HigherNumber,
        13 => LeaseAction::GuardAcceptBar { peer, accept_bar: Bar(line.first) },
        _ => unreachable!("the library has no action {line:?}"),
    };
    (LeaseNum(line.number), action)
}
