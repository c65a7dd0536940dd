//! The lease manager as the repository runs it, its task spawned and its channels in use, timed
//! over lists of calls. Calls and actions are the cards and lines of crates/wire/src/calls.rt and
//! crates/wire/src/lines.rt, as plain numbers.

use std::hint::black_box;
use std::time::Instant;

use tokio::runtime::{Builder, Runtime};
use tokio::sync::mpsc;
use tokio::time::Duration;

use crate::server::leaseman::{LeaseAction, LeaseManager, LeaseMsg, LeaseNotice, LeaseNum};
use crate::utils::{Bitmap, Timer};

/// A card: code, number, peer, size, first, second.
pub type Card = [u64; 6];

/// A line: code, number, peer, first, second.
pub type Line = [u64; 5];

/// Where the manager's task runs.
#[derive(Clone, Copy, Debug, PartialEq)]
pub enum On {
    /// Two worker threads beside the caller's.
    Workers,
    /// The caller's thread alone, on the real clock.
    Caller,
    /// The caller's thread alone, on a clock that stands until it is moved.
    Paused,
}

/// One call, and how many actions are taken after it.
pub struct Step {
    call: Call,
    pub actions: usize,
}

enum Call {
    Notice(LeaseNum, LeaseNotice),
    Move(Duration),
    Quiet,
    Refresh(Option<Bitmap>),
    GrantSet,
    LeaseSet,
    LeaseCnt,
}

/// What a call answers by itself, or an action that is taken after it.
enum Answer {
    Set(Bitmap),
    Count(u8),
    Action(LeaseNum, LeaseAction),
}

impl Step {
    /// A notice, a quiet start, a refresh or a question; `None` for any other call.
    pub fn of(card: Card, actions: usize) -> Option<Self> {
        let [code, number, _, size, first, _] = card;
        let call = match code {
            9 => Call::Quiet,
            10 => Call::Refresh(named(size, first)),
            12 => Call::GrantSet,
            13 => Call::LeaseSet,
            14 => Call::LeaseCnt,
            _ => Call::Notice(number, notice(card)?),
        };
        Some(Step { call, actions })
    }

    /// The paused clock moves, and the sleepers that it wakes run.
    pub fn advance(by: Duration, actions: usize) -> Self {
        Step { call: Call::Move(by), actions }
    }
}

/// A manager in a runtime of its own.
pub struct Original {
    manager: LeaseManager,
    runtime: Runtime,
}

impl Original {
    pub fn new(on: On, me: u8, population: u8, t: Duration, heartbeat: Duration) -> Self {
        let runtime = runtime(on);
        let set_up = async { LeaseManager::new_and_setup(me, population, t, heartbeat) };
        let (manager, _) = runtime.block_on(set_up).expect("set-up is accepted");
        Original { manager, runtime }
    }

    /// Runs the steps; the time from the first to the last.
    pub fn time(&mut self, steps: Vec<Step>) -> Duration {
        let manager = &mut self.manager;
        self.runtime.block_on(async {
            settle().await;
            let start = Instant::now();
            for step in steps {
                run(manager, step, |answer| drop(black_box(answer))).await;
            }
            start.elapsed()
        })
    }

    /// Runs the steps; the actions of each, and what it answers itself.
    pub fn answers(&mut self, steps: Vec<Step>) -> Vec<Vec<Line>> {
        let manager = &mut self.manager;
        self.runtime.block_on(async {
            let mut all = vec![];
            for step in steps {
                let mut lines = vec![];
                run(manager, step, |answer| lines.push(answer_line(answer))).await;
                all.push(lines);
            }
            all
        })
    }
}

/// Lets the tasks run that earlier calls have woken.
async fn settle() {
    for _ in 0..4 {
        tokio::task::yield_now().await;
    }
}

async fn run(manager: &mut LeaseManager, step: Step, mut take: impl FnMut(Answer)) {
    match step.call {
        Call::Notice(num, notice) => manager.add_notice(num, notice).unwrap(),
        Call::Quiet => manager.assume_unknown_grants().unwrap(),
        Call::Refresh(peers) => take(Answer::Set(manager.attempt_refresh(peers.as_ref()).unwrap())),
        Call::GrantSet => take(Answer::Set(manager.grant_set())),
        Call::LeaseSet => take(Answer::Set(manager.lease_set())),
        Call::LeaseCnt => take(Answer::Count(manager.lease_cnt())),
        Call::Move(by) => {
            tokio::time::advance(by).await;
            tokio::task::yield_now().await;
        }
    }
    for _ in 0..step.actions {
        let (num, action) = manager.get_action().await.unwrap();
        take(Answer::Action(num, action));
    }
}

fn runtime(on: On) -> Runtime {
    let mut builder = match on {
        On::Workers => Builder::new_multi_thread(),
        On::Caller | On::Paused => Builder::new_current_thread(),
    };
    builder.enable_time();
    match on {
        On::Workers => builder.worker_threads(2),
        On::Caller => &mut builder,
        // one turn of the scheduler runs every woken sleeper, as in the oracle's driver
        On::Paused => builder.start_paused(true).event_interval(1 << 20),
    };
    builder.build().unwrap()
}

// ---- timers without a manager

/// As many timers as a manager has, all due at once; their notices go to a channel that is kept
/// here, as in the oracle's driver. The time from the move of the clock until all have come.
pub fn time_of_timers(count: usize, t: Duration) -> Duration {
    runtime(On::Paused).block_on(async {
        let (tx, mut rx) = mpsc::unbounded_channel();
        let timers: Vec<Timer> = (0..count).map(|i| timer(i as u8, tx.clone())).collect();
        timers.iter().for_each(|timer| timer.kickoff(t).unwrap());
        settle().await;
        let mut fired = 0;
        let start = Instant::now();
        tokio::time::advance(t).await;
        while fired < count {
            tokio::task::yield_now().await;
            while rx.try_recv().is_ok() {
                fired += 1;
            }
        }
        start.elapsed()
    })
}

/// A timer as leaseman.rs makes them.
fn timer(peer: u8, tx: mpsc::UnboundedSender<(LeaseNum, LeaseNotice)>) -> Timer {
    let explode = move || tx.send((1, LeaseNotice::GrantTimeout { peer })).unwrap();
    Timer::new(false, Some(explode), true)
}

// ---- cards and lines

fn notice([code, _, peer, size, first, second]: Card) -> Option<LeaseNotice> {
    let id = peer as u8;
    Some(match code {
        3 => LeaseNotice::NewGrants {
            peers: named(size, first),
            accept_bar: (peer == 1).then_some(second as usize),
        },
        4 => LeaseNotice::DoRevoke { peers: named(size, first) },
        5 => LeaseNotice::ClearHeld,
        6 => LeaseNotice::RecvLeaseMsg { peer: id, msg: message(size, first)? },
        7 => LeaseNotice::GrantTimeout { peer: id },
        8 => LeaseNotice::LeaseTimeout { peer: id },
        _ => return None,
    })
}

fn message(kind: u64, first: u64) -> Option<LeaseMsg> {
    Some(match kind {
        1 => LeaseMsg::Guard { accept_bar: None },
        2 => LeaseMsg::Guard { accept_bar: Some(first as usize) },
        3 => LeaseMsg::GuardReply,
        4 => LeaseMsg::Promise,
        5 => LeaseMsg::PromiseReply { held: first == 1 },
        6 => LeaseMsg::Revoke,
        7 => LeaseMsg::RevokeReply { held: first == 1 },
        _ => return None,
    })
}

/// The set of a card, none for size 0.
fn named(size: u64, bits: u64) -> Option<Bitmap> {
    let ids: Vec<u8> = (0..size as u8).filter(|&id| bits >> id & 1 == 1).collect();
    (size > 0).then(|| Bitmap::from((size as u8, ids)))
}

fn number(set: &Bitmap) -> u64 {
    Vec::<u8>::from(set).into_iter().map(|id| 1 << id).sum()
}

fn answer_line(answer: Answer) -> Line {
    match answer {
        Answer::Set(set) => [32, 0, set.size().into(), number(&set), 0],
        Answer::Count(count) => [33, 0, 0, count.into(), 0],
        Answer::Action(num, action) => line(num, &action),
    }
}

fn line(num: LeaseNum, action: &LeaseAction) -> Line {
    match *action {
        LeaseAction::SendLeaseMsg { peer, ref msg } => sent(num, peer.into(), msg),
        LeaseAction::BcastLeaseMsgs { ref peers, ref msg } => broadcast(num, number(peers), msg),
        LeaseAction::NextRefresh { peer } => [7, num, peer.into(), 0, 0],
        LeaseAction::GrantRemoved { peer, held } => [8, num, peer.into(), held.into(), 0],
        LeaseAction::LeaseCleared => [9, num, 0, 0, 0],
        LeaseAction::GrantTimeout { peer } => [10, num, peer.into(), 0, 0],
        LeaseAction::LeaseTimeout { peer } => [11, num, peer.into(), 0, 0],
        LeaseAction::HigherNumber => [12, num, 0, 0, 0],
        LeaseAction::GuardAcceptBar { peer, accept_bar } => {
            [13, num, peer.into(), accept_bar as u64, 0]
        }
    }
}

fn sent(num: u64, peer: u64, msg: &LeaseMsg) -> Line {
    match *msg {
        LeaseMsg::GuardReply => [3, num, peer, 0, 0],
        LeaseMsg::Promise => [4, num, peer, 0, 0],
        LeaseMsg::PromiseReply { held } => [5, num, peer, held.into(), 0],
        LeaseMsg::RevokeReply { held } => [6, num, peer, held.into(), 0],
        // never sent to one peer
        LeaseMsg::Guard { .. } | LeaseMsg::Revoke => [0, num, peer, 0, 0],
    }
}

fn broadcast(num: u64, peers: u64, msg: &LeaseMsg) -> Line {
    match *msg {
        LeaseMsg::Guard { accept_bar: None } => [1, num, 0, peers, 0],
        LeaseMsg::Guard { accept_bar: Some(bar) } => [1, num, 1, peers, bar as u64],
        LeaseMsg::Revoke => [2, num, 0, peers, 0],
        // never broadcast
        _ => [0, num, 0, peers, 0],
    }
}
