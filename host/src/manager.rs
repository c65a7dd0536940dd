//! The lease manager.

use std::time::Duration;

use crate::raw::{self, CallC, ManagerC};
use crate::{Actions, Advanced, Bitmap, DriftSetting, LeaseNotice, LeaseNum, Reading, Refusal};
use crate::{ReplicaId, cards};

/// The lease manager of one controller.
///
/// It holds the library's record and lends it to one call for each event. It has no clock, no task
/// and no channel: the host tells the time with [`advance`](LeaseManager::advance), carries the
/// messages that the actions name, and hands every event in with
/// [`add_notice`](LeaseManager::add_notice).
///
/// A refused call leaves the record as it was. Before anything else every call looks at the record,
/// and one that is no manager's (rule 5.3) is refused with [`Refusal::InvalidRecord`]: this can
/// only happen after [`from_record`](LeaseManager::from_record). No call allocates or waits, and none
/// panics unless the library breaks its contract.
///
/// ```
/// use biasflint::{LeaseManager, LeaseMsg, LeaseNotice, LeaseNum, Reading};
/// use std::time::Duration;
///
/// // Controller 0 of 3, T = 1 s. Peer 2 grants it a lease.
/// let (t, hb) = (Duration::from_secs(1), Duration::from_millis(100));
/// let mut manager = LeaseManager::new_and_setup(0, 3, t, hb, Reading(0))?;
/// for msg in [LeaseMsg::Guard { accept_bar: None }, LeaseMsg::Promise] {
///     let notice = LeaseNotice::RecvLeaseMsg { peer: 2, msg };
///     for (num, action) in manager.add_notice(LeaseNum(1), notice)? {
///         println!("to be done under {num:?}: {action:?}");
///     }
/// }
/// assert!(manager.lease_set()?.ones().eq([2]));
///
/// // It runs out after T.
/// let fired = manager.advance(Reading::after(t))?;
/// assert!(fired.held.ones().eq([2]));
/// assert_eq!(manager.lease_cnt()?, 1);
/// # Ok::<(), biasflint::Refusal>(())
/// ```
#[derive(Clone, Debug, PartialEq)]
pub struct LeaseManager {
    record: ManagerC,
}

impl LeaseManager {
    /// A manager of own id `me`, with T = `expire_timeout`, at the reading `now`. It starts under
    /// number 0 with nothing granted or held, outside quiet time, with a true clock (rule 6.2).
    ///
    /// # Errors
    /// [`Refusal`] 1 to 5, in that order.
    ///
    /// ```
    /// use biasflint::{LeaseManager, Reading, Refusal};
    /// use std::time::Duration;
    ///
    /// let (t, hb) = (Duration::from_millis(100), Duration::from_millis(50));
    /// let refused = LeaseManager::new_and_setup(0, 5, t, hb, Reading(0));
    /// assert_eq!(refused, Err(Refusal::HeartbeatTooSlow));
    /// ```
    pub fn new_and_setup(
        me: ReplicaId,
        population: usize,
        expire_timeout: Duration,
        hb_send_interval: Duration,
        now: Reading,
    ) -> Result<Self, Refusal> {
        let card = cards::setup(me, population, expire_timeout, hb_send_interval, now);
        let mut record = ManagerC::BLANK;
        cards::accepted(raw::call(&mut record, card))?;
        Ok(LeaseManager { record })
    }

    /// A manager that goes on from a stored record. The record is not looked at here but by each
    /// call: 15 if it is no manager's (rule 5.3).
    ///
    /// ```
    /// use biasflint::{LeaseManager, Reading, Refusal};
    /// use std::time::Duration;
    ///
    /// let (t, hb) = (Duration::from_secs(1), Duration::from_millis(100));
    /// let manager = LeaseManager::new_and_setup(0, 3, t, hb, Reading(0))?;
    /// let mut stored = *manager.record();
    /// assert_eq!(LeaseManager::from_record(stored), manager);
    ///
    /// stored.population = 65;
    /// assert_eq!(LeaseManager::from_record(stored).lease_cnt(), Err(Refusal::InvalidRecord));
    /// # Ok::<(), Refusal>(())
    /// ```
    #[must_use]
    pub const fn from_record(record: ManagerC) -> Self {
        LeaseManager { record }
    }

    /// The record, to be stored.
    #[must_use]
    pub const fn record(&self) -> &ManagerC {
        &self.record
    }

    /// The own id, as the record has it.
    #[must_use]
    pub const fn me(&self) -> ReplicaId {
        self.record.me
    }

    /// How many controllers there are, as the record has it.
    #[must_use]
    pub const fn population(&self) -> usize {
        self.record.population
    }

    /// The reading of the last accepted advance, or set-up's.
    #[must_use]
    pub const fn now(&self) -> Reading {
        Reading(self.record.now)
    }

    /// The active number: the highest of an accepted notice, 0 before one.
    #[must_use]
    pub const fn active_num(&self) -> LeaseNum {
        LeaseNum(self.record.active_num)
    }

    /// Handles one notice, and gives the actions that follow from it, in order. A number below the
    /// active one changes nothing; a higher one first ends all grants and leases under the old
    /// (section 7 of the rules).
    ///
    /// # Errors
    /// 15; for a notice about one peer 7, then 8; for one with a set 9. A refused notice never
    /// raises the number.
    ///
    /// ```
    /// use biasflint::{Bitmap, LeaseAction, LeaseManager, LeaseMsg, LeaseNotice, LeaseNum};
    /// use biasflint::Reading;
    /// use std::time::Duration;
    ///
    /// let (t, hb) = (Duration::from_secs(1), Duration::from_millis(100));
    /// let mut manager = LeaseManager::new_and_setup(0, 3, t, hb, Reading(0))?;
    /// let grant_to_all = LeaseNotice::NewGrants { peers: None, accept_bar: None };
    /// let guard = LeaseAction::BcastLeaseMsgs {
    ///     peers: Bitmap::from_bits(3, 0b110),
    ///     msg: LeaseMsg::Guard { accept_bar: None },
    /// };
    /// assert_eq!(
    ///     *manager.add_notice(LeaseNum(1), grant_to_all)?,
    ///     [(LeaseNum(1), LeaseAction::HigherNumber), (LeaseNum(1), guard)]
    /// );
    /// # Ok::<(), biasflint::Refusal>(())
    /// ```
    pub fn add_notice(
        &mut self,
        lease_num: LeaseNum,
        notice: LeaseNotice,
    ) -> Result<Actions, Refusal> {
        let answer = self.lend(cards::notice(lease_num, notice))?;
        Ok(cards::actions(answer, self.record.population))
    }

    /// Sets the clock, and tells which timers fired, in order: each timer that is due fires once.
    /// The host adds the [timeout notices](Advanced::timeouts) under the active number, now or
    /// later (rules 8.1 to 8.3).
    ///
    /// # Errors
    /// 15; then 5, then 6. The present reading is accepted again.
    pub fn advance(&mut self, reading: Reading) -> Result<Advanced, Refusal> {
        let answer = self.lend(cards::advance(reading))?;
        Ok(cards::advanced(answer, self.record.population))
    }

    /// After a restart: quiet time, in which all peers count as granted to, for 2T from now. It
    /// replaces an earlier quiet time. Its end comes with an advance, as
    /// [`quiet_end`](Advanced::quiet_end) (rule 8.4).
    ///
    /// # Errors
    /// 15.
    ///
    /// ```
    /// use biasflint::{LeaseAction, LeaseManager, LeaseNum, Reading};
    /// use std::time::Duration;
    ///
    /// let (t, hb) = (Duration::from_secs(1), Duration::from_millis(100));
    /// let mut manager = LeaseManager::new_and_setup(0, 3, t, hb, Reading(0))?;
    /// manager.assume_unknown_grants()?;
    /// assert!(manager.grant_set()?.ones().eq([1, 2]));
    /// let fired = manager.advance(Reading::after(2 * t))?;
    /// assert_eq!(fired.quiet_end, Some((LeaseNum(0), LeaseAction::GrantTimeout { peer: 1 })));
    /// assert_eq!(manager.grant_set()?.count(), 0);
    /// # Ok::<(), biasflint::Refusal>(())
    /// ```
    pub fn assume_unknown_grants(&mut self) -> Result<(), Refusal> {
        self.lend(cards::plain(cards::QUIET)).map(|_| ())
    }

    /// Which peers to send a Promise to with the heartbeat that is due: those that are marked, have
    /// a promise sent and are in the set, if there is one. They lose their marks, and their timers
    /// are extended by T. One that is being revoked or has run out loses its mark and is not named
    /// (rule 8.5).
    ///
    /// # Errors
    /// 15; then 12. The set's size need not be the population.
    pub fn attempt_refresh(&mut self, peers: Option<&Bitmap>) -> Result<Bitmap, Refusal> {
        self.lend(cards::refresh(peers)).map(cards::set)
    }

    /// Sets how the clock drifts, for timers armed from now on (rule 8.6).
    ///
    /// # Errors
    /// 15.
    ///
    /// ```
    /// use biasflint::{DriftSetting, LeaseManager, Reading};
    /// use std::time::Duration;
    ///
    /// let (t, hb) = (Duration::from_secs(1), Duration::from_millis(100));
    /// let mut manager = LeaseManager::new_and_setup(0, 3, t, hb, Reading(0))?;
    /// manager.set_drift(DriftSetting::Drifting(25))?;
    /// manager.assume_unknown_grants()?;
    /// assert_eq!(manager.record().quiet_until, 1_600_000_000);
    /// # Ok::<(), biasflint::Refusal>(())
    /// ```
    pub fn set_drift(&mut self, setting: DriftSetting) -> Result<(), Refusal> {
        self.lend(cards::drift(setting)).map(|_| ())
    }

    /// The peers that a promise was sent to, those being revoked or run out included; in quiet time
    /// all peers (rule 9.1).
    ///
    /// # Errors
    /// 15.
    pub fn grant_set(&self) -> Result<Bitmap, Refusal> {
        self.ask(cards::plain(cards::GRANT_SET)).map(cards::set)
    }

    /// The peers from which a promise is held that has not run out (rule 9.2).
    ///
    /// # Errors
    /// 15.
    pub fn lease_set(&self) -> Result<Bitmap, Refusal> {
        self.ask(cards::plain(cards::LEASE_SET)).map(cards::set)
    }

    /// One more than the lease set has, for the controller itself (rule 9.3).
    ///
    /// # Errors
    /// 15.
    pub fn lease_cnt(&self) -> Result<usize, Refusal> {
        self.ask(cards::plain(cards::LEASE_CNT)).map(cards::count)
    }

    /// How long the promise held from a peer lasts, in whole ms rounded up: 0 exactly if it has run
    /// out, so that a peer has some ms left exactly while it is in the lease set. None if there is
    /// no such promise (rule 9.4).
    ///
    /// # Errors
    /// 15; then 7, then 8.
    ///
    /// ```
    /// use biasflint::{LeaseManager, LeaseMsg, LeaseNotice, LeaseNum, Reading, Refusal};
    /// use std::time::Duration;
    ///
    /// let (t, hb) = (Duration::from_secs(1), Duration::from_millis(100));
    /// let mut manager = LeaseManager::new_and_setup(0, 3, t, hb, Reading(0))?;
    /// assert_eq!(manager.time_left(2), Ok(None));
    /// assert_eq!(manager.time_left(300), Err(Refusal::PeerNotBelowPopulation));
    ///
    /// // a promise from peer 2, which lasts until 1 s
    /// for msg in [LeaseMsg::Guard { accept_bar: None }, LeaseMsg::Promise] {
    ///     manager.add_notice(LeaseNum(0), LeaseNotice::RecvLeaseMsg { peer: 2, msg })?;
    /// }
    /// for (now, ms) in [(999_600_000, 1), (999_999_999, 1), (1_000_000_000, 0)] {
    ///     manager.advance(Reading(now))?;
    ///     assert_eq!(manager.time_left(2), Ok(Some(Duration::from_millis(ms))));
    /// }
    /// # Ok::<(), Refusal>(())
    /// ```
    pub fn time_left(&self, peer: ReplicaId) -> Result<Option<Duration>, Refusal> {
        self.ask(cards::time_left(peer)).map(cards::left)
    }

    // A call that may change the record.
    fn lend(&mut self, card: CallC) -> Result<raw::AnswerC, Refusal> {
        cards::accepted(raw::call(&mut self.record, card))
    }

    // A question changes no record, yet the library is lent one to write: it gets a copy.
    fn ask(&self, card: CallC) -> Result<raw::AnswerC, Refusal> {
        let mut copy = self.record;
        cards::accepted(raw::call(&mut copy, card))
    }
}
