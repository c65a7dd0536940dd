//! What goes into the manager and what comes out of it: numbers, messages, notices and actions.

use std::array;
use std::fmt;
use std::iter::Take;
use std::ops::Deref;
use std::slice;
use std::time::Duration;

use crate::Bitmap;
use crate::raw::{FiredTimerC, FiredTimersC};

/// A controller's id. Wider than the u8 of the Rust it follows, so that an id is judged as it was
/// written: 300 is refused as 300, and never cut to the 44 that a u8 would make of it.
pub type ReplicaId = usize;

/// Lease number, never decreasing. A type of its own, as [`Bar`] and [`Reading`], so that one is
/// never taken for another.
#[derive(Clone, Copy, Debug, Default, PartialEq, Eq, PartialOrd, Ord, Hash)]
pub struct LeaseNum(pub u64);

/// Accept bar: a threshold that a Guard may carry for the protocol above.
#[derive(Clone, Copy, Debug, Default, PartialEq, Eq, PartialOrd, Ord, Hash)]
pub struct Bar(pub u64);

/// A clock reading in ns, at most [`Reading::MAX`], from a start that the host chooses.
#[derive(Clone, Copy, Debug, Default, PartialEq, Eq, PartialOrd, Ord, Hash)]
pub struct Reading(pub u64);

impl Reading {
    /// The largest reading: 9,223,372,036,854,775,807 ns, some 292 years.
    pub const MAX: Reading = Reading(i64::MAX as u64);

    /// The reading that long after the start. A time beyond 64 bits stays above the largest
    /// reading, so that it is refused with 5.
    ///
    /// ```
    /// use biasflint::Reading;
    /// use std::time::Duration;
    ///
    /// assert_eq!(Reading::after(Duration::from_millis(5)), Reading(5_000_000));
    /// assert!(Reading::after(Duration::MAX) > Reading::MAX);
    /// ```
    #[must_use]
    pub fn after(start: Duration) -> Reading {
        Reading(whole_ns(start))
    }
}

/// A duration in ns. One beyond 64 bits counts as the largest u64, which is beyond every limit that
/// a duration or a reading is held against, so it is refused as the duration itself would be.
pub(crate) fn whole_ns(duration: Duration) -> u64 {
    u64::try_from(duration.as_nanos()).unwrap_or(u64::MAX)
}

/// A clock that is true, or that drifts by that many percent.
#[derive(Clone, Copy, Debug, PartialEq, Eq, Hash)]
pub enum DriftSetting {
    /// Durations stay as they are.
    True,
    /// Durations are divided by (100 + percent) / 100, and that rate is 1 / 100 at the least.
    Drifting(i8),
}

/// A message between two managers. The host carries it, with the lease number beside it.
#[derive(Clone, Copy, Debug, PartialEq, Eq, Hash)]
pub enum LeaseMsg {
    /// Opens a grant: the receiver is to expect a promise within T.
    Guard {
        /// What the protocol above is told, if anything.
        accept_bar: Option<Bar>,
    },
    /// The guard is held.
    GuardReply,
    /// Grants the lease for T, or keeps it going for another T.
    Promise,
    /// Answers a promise.
    PromiseReply {
        /// Whether the lease is held from now on.
        held: bool,
    },
    /// Asks for the lease back.
    Revoke,
    /// The lease is given back.
    RevokeReply {
        /// Whether a promise was held; the lease is gone either way.
        held: bool,
    },
}

/// What the host tells the manager.
#[derive(Clone, Copy, Debug, PartialEq, Eq, Hash)]
pub enum LeaseNotice {
    /// Grant leases to peers.
    NewGrants {
        /// To whom; no set means all.
        peers: Option<Bitmap>,
        /// What the Guard messages carry for the protocol above.
        accept_bar: Option<Bar>,
    },
    /// Take leases back from peers.
    DoRevoke {
        /// From whom; no set means all.
        peers: Option<Bitmap>,
    },
    /// Drop every guard and promise held.
    ClearHeld,
    /// A message came from a peer.
    RecvLeaseMsg {
        /// The sender.
        peer: ReplicaId,
        /// The message.
        msg: LeaseMsg,
    },
    /// A sent timer fired, as [`Advanced::sent`] told.
    GrantTimeout {
        /// Whose.
        peer: ReplicaId,
    },
    /// A held timer fired, as [`Advanced::held`] told.
    LeaseTimeout {
        /// Whose.
        peer: ReplicaId,
    },
}

/// What the manager wants done, or tells.
#[derive(Clone, Copy, Debug, PartialEq, Eq, Hash)]
pub enum LeaseAction {
    /// Send a message to a peer.
    SendLeaseMsg {
        /// The receiver.
        peer: ReplicaId,
        /// The message.
        msg: LeaseMsg,
    },
    /// Send a message to each peer of a set.
    BcastLeaseMsgs {
        /// The receivers; there may be none.
        peers: Bitmap,
        /// The message.
        msg: LeaseMsg,
    },
    /// The peer is marked: `attempt_refresh` will name it. The host has nothing to do.
    NextRefresh {
        /// The marked peer.
        peer: ReplicaId,
    },
    /// A grant ended by the peer's reply.
    GrantRemoved {
        /// Whose grant.
        peer: ReplicaId,
        /// What the reply said.
        held: bool,
    },
    /// Every guard and promise held was dropped.
    LeaseCleared,
    /// A grant ran out.
    GrantTimeout {
        /// Whose grant.
        peer: ReplicaId,
    },
    /// A lease ran out.
    LeaseTimeout {
        /// Who granted it.
        peer: ReplicaId,
    },
    /// A higher number is active from now on; grants and leases under the old one are gone.
    HigherNumber,
    /// A Guard came with an accept bar.
    GuardAcceptBar {
        /// The sender.
        peer: ReplicaId,
        /// The bar.
        accept_bar: Bar,
    },
}

/// An action under its lease number.
pub type Line = (LeaseNum, LeaseAction);

/// The actions of one notice, in order: at most three, and none of them on the heap. It is a slice
/// of lines to look at, and an iterator over them to take.
///
/// ```
/// use biasflint::{LeaseAction, LeaseManager, LeaseNotice, LeaseNum, Reading};
/// use std::time::Duration;
///
/// let (t, hb) = (Duration::from_secs(1), Duration::from_millis(100));
/// let mut manager = LeaseManager::new_and_setup(0, 3, t, hb, Reading(0))?;
/// let actions = manager.add_notice(LeaseNum(4), LeaseNotice::ClearHeld)?;
/// assert_eq!(actions.len(), 2);
/// assert_eq!(actions[0], (LeaseNum(4), LeaseAction::HigherNumber));
/// for (num, action) in actions {
///     println!("{num:?}: {action:?}");
/// }
/// # Ok::<(), biasflint::Refusal>(())
/// ```
#[derive(Clone, Copy, PartialEq, Eq)]
pub struct Actions {
    len: usize,
    // Those from `len` on are `NONE`.
    lines: [Line; Actions::MOST],
}

impl Actions {
    /// How many actions one notice has at the most.
    pub const MOST: usize = 3;

    const NONE: Line = (LeaseNum(0), LeaseAction::HigherNumber);

    // The first lines of those that are given, at most three.
    pub(crate) fn of(given: impl Iterator<Item = Line>) -> Actions {
        let mut actions = Actions { len: 0, lines: [Actions::NONE; Actions::MOST] };
        for (place, line) in actions.lines.iter_mut().zip(given) {
            *place = line;
            actions.len += 1;
        }
        actions
    }
}

impl Deref for Actions {
    type Target = [Line];

    fn deref(&self) -> &[Line] {
        &self.lines[..self.len]
    }
}

impl IntoIterator for Actions {
    type Item = Line;
    type IntoIter = Take<array::IntoIter<Line, { Actions::MOST }>>;

    fn into_iter(self) -> Self::IntoIter {
        self.lines.into_iter().take(self.len)
    }
}

impl<'a> IntoIterator for &'a Actions {
    type Item = &'a Line;
    type IntoIter = slice::Iter<'a, Line>;

    fn into_iter(self) -> Self::IntoIter {
        self.iter()
    }
}

impl fmt::Debug for Actions {
    fn fmt(&self, f: &mut fmt::Formatter<'_>) -> fmt::Result {
        f.debug_list().entries(self.iter()).finish()
    }
}

/// A timer that fired.
#[derive(Clone, Copy, Debug, PartialEq, Eq, Hash)]
pub enum FiredTimer {
    /// The timer of a guard or a promise sent to a peer.
    Sent {
        /// To whom.
        peer: ReplicaId,
    },
    /// The timer of a guard or a promise held from a peer.
    Held {
        /// From whom.
        peer: ReplicaId,
    },
}

impl FiredTimer {
    /// The timeout notice that the timer is for.
    #[must_use]
    pub const fn timeout(self) -> LeaseNotice {
        match self {
            FiredTimer::Sent { peer } => LeaseNotice::GrantTimeout { peer },
            FiredTimer::Held { peer } => LeaseNotice::LeaseTimeout { peer },
        }
    }

    const fn of(timer: FiredTimerC) -> FiredTimer {
        let peer = timer.id as ReplicaId;
        if timer.held == 0 { FiredTimer::Sent { peer } } else { FiredTimer::Held { peer } }
    }
}

/// The timers that fired, in order: by deadline, earliest first; at equal deadlines sent before
/// held; then by id. Two for each id at the most, and none of them on the heap.
///
/// ```
/// use biasflint::{FiredTimer, LeaseManager, LeaseMsg, LeaseNotice, LeaseNum, Reading};
/// use std::time::Duration;
///
/// // Controller 0 of 3, T = 1 s. A guard from peer 2 comes first, one from peer 1 after it.
/// let (t, hb) = (Duration::from_secs(1), Duration::from_millis(100));
/// let mut manager = LeaseManager::new_and_setup(0, 3, t, hb, Reading(0))?;
/// for peer in [2, 1] {
///     let notice = LeaseNotice::RecvLeaseMsg { peer, msg: LeaseMsg::Guard { accept_bar: None } };
///     manager.add_notice(LeaseNum(1), notice)?;
///     manager.advance(Reading(manager.now().0 + 1))?;
/// }
/// let fired = manager.advance(Reading::after(2 * t))?.fired;
/// assert!(fired.iter().eq([FiredTimer::Held { peer: 2 }, FiredTimer::Held { peer: 1 }]));
/// # Ok::<(), biasflint::Refusal>(())
/// ```
#[derive(Clone, Copy, PartialEq, Eq)]
pub struct Fired {
    list: FiredTimersC,
}

impl Fired {
    /// How many timers fired.
    #[must_use]
    pub fn len(&self) -> usize {
        self.list.count.min(self.list.timers.len())
    }

    /// Whether none fired.
    #[must_use]
    pub fn is_empty(&self) -> bool {
        self.len() == 0
    }

    /// The timers, in order.
    pub fn iter(&self) -> impl Iterator<Item = FiredTimer> + use<> {
        self.list.timers.into_iter().take(self.len()).map(FiredTimer::of)
    }
}

impl From<FiredTimersC> for Fired {
    fn from(list: FiredTimersC) -> Fired {
        Fired { list }
    }
}

impl From<Fired> for FiredTimersC {
    fn from(fired: Fired) -> FiredTimersC {
        fired.list
    }
}

impl fmt::Debug for Fired {
    fn fmt(&self, f: &mut fmt::Formatter<'_>) -> fmt::Result {
        f.debug_list().entries(self.iter()).finish()
    }
}

/// What an advance of the clock brought. A timer fires once.
#[derive(Clone, Copy, Debug, PartialEq, Eq)]
pub struct Advanced {
    /// The peers whose sent timers fired.
    pub sent: Bitmap,
    /// The peers whose held timers fired.
    pub held: Bitmap,
    /// Exactly those timers, each once, in order.
    pub fired: Fired,
    /// Where quiet time ended: a line under number 0 by which those who wait for a change of the
    /// grant set look at it again.
    pub quiet_end: Option<Line>,
}

impl Advanced {
    /// The timeout notices of the timers that fired, in their order: to be added under the active
    /// number, in any order and at any later time.
    ///
    /// ```
    /// use biasflint::{LeaseManager, LeaseMsg, LeaseNotice, LeaseNum, Reading};
    /// use std::time::Duration;
    ///
    /// let (t, hb) = (Duration::from_secs(1), Duration::from_millis(100));
    /// let mut manager = LeaseManager::new_and_setup(0, 3, t, hb, Reading(0))?;
    /// let guard = LeaseMsg::Guard { accept_bar: None };
    /// manager.add_notice(LeaseNum(1), LeaseNotice::RecvLeaseMsg { peer: 2, msg: guard })?;
    /// let advanced = manager.advance(Reading::after(t))?;
    /// assert!(advanced.timeouts().eq([LeaseNotice::LeaseTimeout { peer: 2 }]));
    /// # Ok::<(), biasflint::Refusal>(())
    /// ```
    pub fn timeouts(&self) -> impl Iterator<Item = LeaseNotice> + use<> {
        self.fired.iter().map(FiredTimer::timeout)
    }
}

#[cfg(test)]
mod tests {
    use super::*;

    const LINES: [Line; 4] = [
        (LeaseNum(1), LeaseAction::HigherNumber),
        (LeaseNum(2), LeaseAction::LeaseCleared),
        (LeaseNum(3), LeaseAction::NextRefresh { peer: 4 }),
        (LeaseNum(4), LeaseAction::LeaseCleared),
    ];

    #[test]
    fn actions_are_what_was_given_and_no_more() {
        for n in 0..=LINES.len() {
            let actions = Actions::of(LINES.into_iter().take(n));
            let want = &LINES[..n.min(Actions::MOST)];
            assert_eq!(*actions, *want);
            assert!(actions.into_iter().eq(want.iter().copied()));
            assert!((&actions).into_iter().eq(want));
            assert_eq!(format!("{actions:?}"), format!("{want:?}"));
        }
    }

    #[test]
    fn long_durations_do_not_wrap() {
        assert_eq!(whole_ns(Duration::from_nanos(u64::MAX)), u64::MAX);
        // 2^64 ns and 1 ns: a wrapped count would be 1.
        assert_eq!(whole_ns(Duration::new(18_446_744_073, 709_551_617)), u64::MAX);
        assert_eq!(whole_ns(Duration::MAX), u64::MAX);
    }
}
