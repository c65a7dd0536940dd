//! Child of leaseman.rs: drives the unchanged `LeaseManagerLogicTask` and
//! `LeaseManager`, one call at a time, on tokio's paused clock. It never awaits what
//! is pending: an idle runtime would move the paused clock by itself.

use std::fmt::Write as _;

use futures::future::FutureExt;
use tokio::time::Instant;

use super::*;
use crate::leaves::{broken, set_drift};
use crate::utils::timer::probe::{self, State};
use crate::words::{Words, show_ids, show_set};

mod show;

const MS: u128 = 1_000_000;

/// The arguments of a set-up.
pub struct SetUp {
    start: u64,
    me: u8,
    population: u8,
    t: Duration,
    heartbeat: Duration,
}

impl SetUp {
    /// `None` for what the Rust does not judge: a reading over the maximum, and,
    /// unless `any` lets it through, a population of 0 or an own id not below it.
    pub fn of(numbers: &[u64], any: bool) -> Option<Self> {
        let &[start, me, population, t, heartbeat] = numbers else { return None };
        if start > i64::MAX as u64 || !(any || me < population) {
            return None;
        }
        Some(SetUp {
            start,
            me: me.try_into().ok()?,
            population: population.try_into().ok()?,
            t: Duration::from_nanos(t),
            heartbeat: Duration::from_nanos(heartbeat),
        })
    }
}

pub struct Session {
    mgr: LeaseManager,
    /// The repository's logic task; `None` if it was spawned as the repository does
    /// (ORACLE_SPAWN=1: then the guard tables cannot be shown).
    task: Option<LeaseManagerLogicTask>,
    /// Receiver of the `tx_notice` that the timers have: kept by the driver.
    rx_fired: mpsc::UnboundedReceiver<(LeaseNum, LeaseNotice)>,
    /// The runtime's first instant, which is the reading `start`.
    base: Instant,
    start: u64,
    now: u64,
    yields: usize,
    /// Actions are left waiting, as by a protocol that is busy.
    hold: bool,
    /// How the timers of the last advance fired.
    order: Vec<String>,
}

/// The timers that fired in one advance.
#[derive(Default)]
struct Fired {
    sent: Vec<u8>,
    held: Vec<u8>,
    order: Vec<String>,
    /// What should not be there.
    odd: String,
}

impl Session {
    /// Runs inside the session's runtime.
    pub async fn open(set_up: &SetUp, yields: usize) -> Result<Self, SummersetError> {
        let &SetUp { start, me, population, t, heartbeat } = set_up;
        // the repository's own check of T and the heartbeat; its manager is dropped
        drop(LeaseManager::new_and_setup(me, population, t, heartbeat)?);

        let (tx_fired, rx_fired) = mpsc::unbounded_channel();
        let (mgr, mut task) = manager_and_task(set_up, tx_fired);
        let task = if std::env::var_os("ORACLE_SPAWN").is_some() {
            tokio::spawn(async move { task.run().await });
            None
        } else {
            Some(task)
        };
        let session = Session {
            mgr,
            task,
            rx_fired,
            base: Instant::now(),
            start,
            now: start,
            yields,
            hold: false,
            order: vec![],
        };
        session.settle().await;
        Ok(session)
    }

    /// Lets every task that was woken run.
    async fn settle(&self) {
        for _ in 0..self.yields {
            tokio::task::yield_now().await;
        }
    }

    /// An instant of the paused clock as a reading (deadlines may pass u64).
    fn reading(&self, instant: Instant) -> u128 {
        u128::from(self.start) + instant.duration_since(self.base).as_nanos()
    }

    /// One call. `None`: the line is malformed, and nothing was done.
    pub async fn call(&mut self, words: Words<'_>, out: &mut String) -> Option<()> {
        match words.at(0)? {
            "A" => self.advance(words.number(1)?, out).await,
            "Q" => {
                self.mgr.assume_unknown_grants().unwrap();
                out.push_str("quiet ");
                self.finish(out).await;
            }
            "F" => {
                let peers = words.maybe_set(1)?;
                let refreshed = self.mgr.attempt_refresh(peers.as_ref());
                let refreshed = refreshed.map_or_else(|_| "err".into(), |set| show_set(&set));
                let _ = write!(out, "refresh {refreshed} ");
                self.finish(out).await;
            }
            drift @ ("K" | "k") => {
                set_drift(words.drift(1)?, drift == "k");
                out.push_str("drift");
            }
            "H" => {
                self.hold = words.flag(1)?;
                out.push_str("acts ");
                self.finish(out).await;
            }
            "S" | "L" | "M" | "T" | "O" | "Z" => self.question(words, out)?,
            _ => {
                let (num, notice) = (words.number(1)?, notice_of(words)?);
                self.notice(num, notice, out).await;
            }
        }
        Some(())
    }

    async fn notice(&mut self, num: LeaseNum, notice: LeaseNotice, out: &mut String) {
        self.mgr.add_notice(num, notice).unwrap();
        // the repository's loop, until it waits for the next notice
        if let Some(task) = self.task.as_mut() {
            let ended = tokio::task::unconstrained(task.run()).now_or_never();
            if ended.is_some() {
                broken("the logic task has ended");
            }
        }
        out.push_str("acts ");
        self.finish(out).await;
    }

    /// The end of a call other than advance: its actions; no timer may fire.
    async fn finish(&mut self, out: &mut String) {
        self.settle().await;
        self.take_actions(out);
        while let Ok(fired) = self.rx_fired.try_recv() {
            let _ = write!(out, " !fired {fired:?}");
        }
    }

    /// Takes all actions there are with `get_action`.
    fn take_actions(&mut self, out: &mut String) {
        if self.hold {
            out.push_str("held");
            return;
        }
        let mut first = true;
        while let Some(taken) = tokio::task::unconstrained(self.mgr.get_action()).now_or_never() {
            let (num, action) = taken.expect("action channel open");
            if !first {
                out.push_str("; ");
            }
            first = false;
            show::action(out, num, &action);
        }
        if first {
            out.push('-');
        }
    }

    async fn advance(&mut self, to: u64, out: &mut String) {
        if to < self.now {
            out.push_str("nodom backwards");
            return;
        }
        let near = self.near_a_deadline(to);
        tokio::time::advance(Duration::from_nanos(to - self.now)).await;
        self.now = to;
        self.settle().await;
        if self.reading(Instant::now()) != u128::from(to) {
            broken("the paused clock moved by itself");
        }
        let fired = self.take_fired();
        let _ = write!(out, "fired s={} h={} acts ", show_ids(&fired.sent), show_ids(&fired.held));
        self.take_actions(out);
        out.push_str(&fired.odd);
        if near {
            out.push_str(" !near");
        }
        self.order = fired.order;
    }

    /// Less than 2 ms from the deadline of an armed timer.
    fn near_a_deadline(&self, to: u64) -> bool {
        self.timers().into_iter().any(|timer| match timer {
            State::Armed(d) => self.reading(d).abs_diff(u128::from(to)) < 2 * MS,
            _ => false,
        })
    }

    fn timers(&self) -> Vec<State> {
        let mut all: Vec<State> = Vec::new();
        if let Some(task) = self.task.as_ref() {
            all.extend(task.guards_sent.values().map(probe::state));
            all.extend(task.guards_held.values().map(probe::state));
        }
        all.extend(self.mgr.promises_sent.iter().map(|e| probe::state(&e.value().0)));
        all.extend(self.mgr.promises_held.iter().map(|e| probe::state(e.value())));
        all.extend(self.mgr.quiet_timer.iter().map(probe::state));
        all
    }

    fn take_fired(&mut self) -> Fired {
        let mut fired = Fired::default();
        while let Ok((num, notice)) = self.rx_fired.try_recv() {
            if self.task.as_ref().is_some_and(|task| num != task.active_num) {
                let _ = write!(fired.odd, " !num {num}");
            }
            match notice {
                LeaseNotice::GrantTimeout { peer } => {
                    fired.sent.push(peer);
                    fired.order.push(format!("s{peer}"));
                }
                LeaseNotice::LeaseTimeout { peer } => {
                    fired.held.push(peer);
                    fired.order.push(format!("h{peer}"));
                }
                other => {
                    let _ = write!(fired.odd, " !{other:?}");
                }
            }
        }
        fired.sent.sort_unstable();
        fired.held.sort_unstable();
        fired
    }

    fn question(&self, words: Words, out: &mut String) -> Option<()> {
        let _ = match words.at(0)? {
            "S" => write!(out, "grants {}", show_set(&self.mgr.grant_set())),
            "L" => write!(out, "leases {}", show_set(&self.mgr.lease_set())),
            "M" => write!(out, "count {}", self.mgr.lease_cnt()),
            "O" => write!(out, "order {}", self.order.join(",")),
            "T" => match self.time_left(words.byte(1)?) {
                None => write!(out, "left none"),
                Some(ms) => write!(out, "left {ms}"),
            },
            _ => {
                self.show_state(out);
                Ok(())
            }
        };
        Some(())
    }

    /// Of the rules alone (rule 9.4): worked out here from the Rust's deadline, in ms, rounded up.
    fn time_left(&self, peer: u8) -> Option<u128> {
        let timer = self.mgr.promises_held.get(&peer)?;
        Some(match probe::state(timer.value()) {
            State::Armed(d) => self.reading(d).saturating_sub(u128::from(self.now)).div_ceil(MS),
            _ => 0,
        })
    }
}

/// As `LeaseManager::new_and_setup` makes them, but that the timers' notices go to
/// `tx_fired`, and the task is not spawned.
fn manager_and_task(
    set_up: &SetUp,
    tx_fired: mpsc::UnboundedSender<(LeaseNum, LeaseNotice)>,
) -> (LeaseManager, LeaseManagerLogicTask) {
    let &SetUp { me, population, t, .. } = set_up;
    let (tx_notice, rx_notice) = mpsc::unbounded_channel();
    let (tx_action, rx_action) = mpsc::unbounded_channel();
    let promises_sent: Arc<DashMap<ReplicaId, (Timer, bool)>> = Arc::new(DashMap::new());
    let promises_held: Arc<DashMap<ReplicaId, Timer>> = Arc::new(DashMap::new());
    let task = LeaseManagerLogicTask::new(
        me,
        population,
        t,
        t,
        tx_action,
        tx_fired,
        rx_notice,
        promises_sent.clone(),
        promises_held.clone(),
    );
    let mgr = LeaseManager {
        me,
        population,
        expire_timeout: t,
        rx_action,
        tx_notice,
        promises_sent,
        promises_held,
        refresh_mark: HashSet::new(),
        quiet_timer: None,
        _lease_manager_handle: tokio::spawn(async {}),
    };
    (mgr, task)
}

/// The notice that a line gives; its number is word 1.
fn notice_of(words: Words) -> Option<LeaseNotice> {
    let msg = match words.at(0)? {
        "N" => {
            let (peers, accept_bar) = (words.maybe_set(2)?, words.bar(3)?);
            return Some(LeaseNotice::NewGrants { peers, accept_bar });
        }
        "D" => return Some(LeaseNotice::DoRevoke { peers: words.maybe_set(2)? }),
        "C" => return Some(LeaseNotice::ClearHeld),
        "X" => return Some(LeaseNotice::GrantTimeout { peer: words.byte(2)? }),
        "Y" => return Some(LeaseNotice::LeaseTimeout { peer: words.byte(2)? }),
        "G" => LeaseMsg::Guard { accept_bar: words.bar(3)? },
        "g" => LeaseMsg::GuardReply,
        "P" => LeaseMsg::Promise,
        "p" => LeaseMsg::PromiseReply { held: words.flag(3)? },
        "R" => LeaseMsg::Revoke,
        "r" => LeaseMsg::RevokeReply { held: words.flag(3)? },
        _ => return None,
    };
    Some(LeaseNotice::RecvLeaseMsg { peer: words.byte(2)?, msg })
}
