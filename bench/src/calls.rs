//! A call as all sides take it, the card that crosses to the library, and the answer in a form to
//! be compared.

use std::hint::black_box;
use std::time::Duration;

use biasflint::raw::{self, AnswerC, CallC, LineC, ManagerC};
use biasflint::{
    Advanced, Bitmap, DriftSetting, LeaseAction, LeaseManager, LeaseMsg, LeaseNotice, LeaseNum,
    Line, Reading, Refusal, ReplicaId,
};

use crate::arrays::{self, FiredList};

#[derive(Clone, Copy, Debug)]
pub enum Call {
    Notice(LeaseNum, LeaseNotice),
    Advance(Reading),
    Quiet,
    Refresh(Option<Bitmap>),
    Drift(DriftSetting),
    GrantSet,
    LeaseSet,
    LeaseCnt,
    TimeLeft(ReplicaId),
}

/// The arguments of a set-up; times in ns.
#[derive(Clone, Copy, Debug)]
pub struct SetUp {
    pub me: ReplicaId,
    pub population: usize,
    pub t: u64,
    pub heartbeat: u64,
    pub now: u64,
}

// ---- cards

impl SetUp {
    pub fn card(&self) -> CallC {
        CallC {
            code: 1,
            number: self.now,
            peer: self.me as u64,
            size: self.population as u64,
            first: self.t,
            second: self.heartbeat,
        }
    }
}

impl Call {
    pub fn card(&self) -> CallC {
        match *self {
            Call::Notice(num, notice) => CallC { number: num.0, ..notice_card(notice) },
            Call::Advance(to) => CallC { number: to.0, ..plain(2) },
            Call::Quiet => plain(9),
            Call::Refresh(set) => with_set(plain(10), set),
            Call::Drift(DriftSetting::True) => plain(11),
            Call::Drift(DriftSetting::Drifting(percent)) => {
                CallC { size: 1, first: (i64::from(percent) + 128) as u64, ..plain(11) }
            }
            Call::GrantSet => plain(12),
            Call::LeaseSet => plain(13),
            Call::LeaseCnt => plain(14),
            Call::TimeLeft(peer) => CallC { peer: peer as u64, ..plain(15) },
        }
    }
}

fn plain(code: u64) -> CallC {
    CallC { code, ..CallC::default() }
}

/// A card's size 0 is no set: a set of size 0 crosses as one of 256, which is refused as 0 is.
fn with_set(card: CallC, set: Option<Bitmap>) -> CallC {
    let size = |set: Bitmap| if set.size() == 0 { 256 } else { set.size() as u64 };
    set.map_or(card, |set| CallC { size: size(set), first: set.bits(), ..card })
}

fn notice_card(notice: LeaseNotice) -> CallC {
    match notice {
        LeaseNotice::NewGrants { peers, accept_bar } => CallC {
            peer: accept_bar.is_some().into(),
            second: accept_bar.unwrap_or_default().0,
            ..with_set(plain(3), peers)
        },
        LeaseNotice::DoRevoke { peers } => with_set(plain(4), peers),
        LeaseNotice::ClearHeld => plain(5),
        LeaseNotice::RecvLeaseMsg { peer, msg } => {
            let (size, first) = message_kind(msg);
            CallC { peer: peer as u64, size, first, ..plain(6) }
        }
        LeaseNotice::GrantTimeout { peer } => CallC { peer: peer as u64, ..plain(7) },
        LeaseNotice::LeaseTimeout { peer } => CallC { peer: peer as u64, ..plain(8) },
    }
}

fn message_kind(msg: LeaseMsg) -> (u64, u64) {
    match msg {
        LeaseMsg::Guard { accept_bar: None } => (1, 0),
        LeaseMsg::Guard { accept_bar: Some(bar) } => (2, bar.0),
        LeaseMsg::GuardReply => (3, 0),
        LeaseMsg::Promise => (4, 0),
        LeaseMsg::PromiseReply { held } => (5, held.into()),
        LeaseMsg::Revoke => (6, 0),
        LeaseMsg::RevokeReply { held } => (7, held.into()),
    }
}

// ---- answers

fn answer(lines: &[LineC]) -> AnswerC {
    let at = |i: usize| lines.get(i).copied().unwrap_or_default();
    let count = lines.len() as u64;
    AnswerC { count, one: at(0), two: at(1), three: at(2), ..AnswerC::default() }
}

fn or_refused(answer: Result<AnswerC, Refusal>) -> AnswerC {
    answer.unwrap_or_else(|refusal| AnswerC { refused: refusal.number(), ..AnswerC::default() })
}

fn of_actions(lines: &[Line]) -> AnswerC {
    let lines: Vec<LineC> = lines.iter().map(|&(num, action)| line_of(num, action)).collect();
    answer(&lines)
}

fn of_advance(fired: Advanced) -> AnswerC {
    let sets =
        LineC { code: 31, first: fired.sent.bits(), second: fired.held.bits(), ..LineC::default() };
    let lines = match fired.quiet_end {
        None => answer(&[sets]),
        Some((num, action)) => answer(&[sets, line_of(num, action)]),
    };
    AnswerC { fired: fired.fired.into(), ..lines }
}

fn of_set(set: Bitmap) -> AnswerC {
    answer(&[LineC { code: 32, peer: set.size() as u64, first: set.bits(), ..LineC::default() }])
}

fn of_count(count: usize) -> AnswerC {
    answer(&[LineC { code: 33, first: count as u64, ..LineC::default() }])
}

fn of_time_left(left: Option<Duration>) -> AnswerC {
    let (peer, first) = left.map_or((0, 0), |left| (1, left.as_millis() as u64));
    answer(&[LineC { code: 34, peer, first, ..LineC::default() }])
}

/// An action as its line.
#[inline]
pub fn line_of(num: LeaseNum, action: LeaseAction) -> LineC {
    let (code, peer, first, second) = match action {
        LeaseAction::SendLeaseMsg { peer, msg } => sent(peer as u64, msg),
        LeaseAction::BcastLeaseMsgs { peers, msg: LeaseMsg::Guard { accept_bar } } => {
            (1, accept_bar.is_some().into(), peers.bits(), accept_bar.unwrap_or_default().0)
        }
        LeaseAction::BcastLeaseMsgs { peers, .. } => (2, 0, peers.bits(), 0),
        LeaseAction::NextRefresh { peer } => (7, peer as u64, 0, 0),
        LeaseAction::GrantRemoved { peer, held } => (8, peer as u64, held.into(), 0),
        LeaseAction::LeaseCleared => (9, 0, 0, 0),
        LeaseAction::GrantTimeout { peer } => (10, peer as u64, 0, 0),
        LeaseAction::LeaseTimeout { peer } => (11, peer as u64, 0, 0),
        LeaseAction::HigherNumber => (12, 0, 0, 0),
        LeaseAction::GuardAcceptBar { peer, accept_bar } => (13, peer as u64, accept_bar.0, 0),
    };
    LineC { code, number: num.0, peer, first, second }
}

#[inline]
fn sent(peer: u64, msg: LeaseMsg) -> (u64, u64, u64, u64) {
    match msg {
        LeaseMsg::GuardReply => (3, peer, 0, 0),
        LeaseMsg::Promise => (4, peer, 0, 0),
        LeaseMsg::PromiseReply { held } => (5, peer, held.into(), 0),
        LeaseMsg::RevokeReply { held } => (6, peer, held.into(), 0),
        // never sent to one peer
        LeaseMsg::Guard { .. } | LeaseMsg::Revoke => (0, peer, 0, 0),
    }
}

// ---- the sides that are called directly

/// A manager that can be copied, to start again from the same state.
pub trait Side: Clone {
    /// A call as this side takes it.
    type Given;
    fn set_up(set_up: &SetUp) -> Self;
    fn give(call: &Call) -> Self::Given;
    /// For a comparison.
    fn answer(&mut self, call: &Call) -> AnswerC;
    /// For timing.
    fn run(&mut self, given: &Self::Given);
}

/// The library as it is: cards on a lent record.
#[derive(Clone)]
pub struct Raw(pub ManagerC);

impl Side for Raw {
    type Given = CallC;

    fn set_up(set_up: &SetUp) -> Self {
        let mut record = ManagerC::BLANK;
        assert_eq!(raw::call(&mut record, set_up.card()).refused, 0, "{set_up:?}");
        Raw(record)
    }

    fn give(call: &Call) -> CallC {
        call.card()
    }

    fn answer(&mut self, call: &Call) -> AnswerC {
        raw::call(&mut self.0, call.card())
    }

    fn run(&mut self, card: &CallC) {
        black_box(raw::call(&mut self.0, *card));
    }
}

/// A notice of the library that does not look at the record first. It has none: where it has, the
/// name goes here, and the table's column is filled.
pub const WITHOUT_LOOK: Option<fn(&mut ManagerC, CallC) -> AnswerC> = None;

/// That notice, on the record of `Raw`.
#[derive(Clone)]
pub struct Unlooked(pub ManagerC);

impl Unlooked {
    fn call(&mut self, card: CallC) -> AnswerC {
        WITHOUT_LOOK.expect("a call without the look at the record")(&mut self.0, card)
    }
}

impl Side for Unlooked {
    type Given = CallC;

    fn set_up(set_up: &SetUp) -> Self {
        Unlooked(Raw::set_up(set_up).0)
    }

    fn give(call: &Call) -> CallC {
        call.card()
    }

    fn answer(&mut self, call: &Call) -> AnswerC {
        self.call(call.card())
    }

    fn run(&mut self, card: &CallC) {
        black_box(self.call(*card));
    }
}

/// The library through its typed calls.
#[derive(Clone)]
pub struct Typed(pub LeaseManager);

impl Side for Typed {
    type Given = Call;

    fn set_up(s: &SetUp) -> Self {
        let (t, heartbeat) = (Duration::from_nanos(s.t), Duration::from_nanos(s.heartbeat));
        Typed(
            LeaseManager::new_and_setup(s.me, s.population, t, heartbeat, Reading(s.now)).unwrap(),
        )
    }

    fn give(call: &Call) -> Call {
        *call
    }

    fn answer(&mut self, call: &Call) -> AnswerC {
        let manager = &mut self.0;
        or_refused(match *call {
            Call::Notice(num, notice) => {
                manager.add_notice(num, notice).map(|actions| of_actions(&actions))
            }
            Call::Advance(to) => manager.advance(to).map(of_advance),
            Call::Quiet => manager.assume_unknown_grants().map(|()| answer(&[])),
            Call::Refresh(set) => manager.attempt_refresh(set.as_ref()).map(of_set),
            Call::Drift(setting) => manager.set_drift(setting).map(|()| answer(&[])),
            Call::GrantSet => manager.grant_set().map(of_set),
            Call::LeaseSet => manager.lease_set().map(of_set),
            Call::LeaseCnt => manager.lease_cnt().map(of_count),
            Call::TimeLeft(peer) => manager.time_left(peer).map(of_time_left),
        })
    }

    fn run(&mut self, call: &Call) {
        match *call {
            Call::Notice(num, notice) => drop(black_box(self.0.add_notice(num, notice))),
            Call::Advance(to) => drop(black_box(self.0.advance(to))),
            Call::Quiet => drop(black_box(self.0.assume_unknown_grants())),
            Call::Refresh(set) => drop(black_box(self.0.attempt_refresh(set.as_ref()))),
            Call::Drift(setting) => drop(black_box(self.0.set_drift(setting))),
            Call::GrantSet => drop(black_box(self.0.grant_set())),
            Call::LeaseSet => drop(black_box(self.0.lease_set())),
            Call::LeaseCnt => drop(black_box(self.0.lease_cnt())),
            Call::TimeLeft(peer) => drop(black_box(self.0.time_left(peer))),
        }
    }
}

/// The plain program. Its actions go to a list that is emptied before each call, and so do the
/// timers that fire.
pub struct Plain {
    pub manager: arrays::Manager,
    actions: Vec<Line>,
    fired: FiredList,
}

impl Plain {
    fn of(manager: arrays::Manager) -> Self {
        Plain { manager, actions: Vec::with_capacity(3), fired: FiredList::EMPTY }
    }
}

impl Clone for Plain {
    fn clone(&self) -> Self {
        Plain::of(self.manager.clone())
    }
}

impl Side for Plain {
    type Given = Call;

    fn set_up(s: &SetUp) -> Self {
        let manager =
            arrays::Manager::new_and_setup(s.me, s.population, s.t, s.heartbeat, Reading(s.now));
        Plain::of(manager.unwrap())
    }

    fn give(call: &Call) -> Call {
        *call
    }

    fn answer(&mut self, call: &Call) -> AnswerC {
        let Plain { manager, actions, fired } = self;
        actions.clear();
        or_refused(match *call {
            Call::Notice(num, notice) => {
                manager.add_notice(num, notice, actions).map(|()| of_actions(actions))
            }
            Call::Advance(to) => manager.advance(to, fired).map(of_advance),
            Call::Quiet => {
                manager.assume_unknown_grants();
                Ok(answer(&[]))
            }
            Call::Refresh(set) => manager.attempt_refresh(set).map(of_set),
            Call::Drift(setting) => {
                manager.set_drift(setting);
                Ok(answer(&[]))
            }
            Call::GrantSet => Ok(of_set(manager.grant_set())),
            Call::LeaseSet => Ok(of_set(manager.lease_set())),
            Call::LeaseCnt => Ok(of_count(manager.lease_cnt())),
            Call::TimeLeft(peer) => manager.time_left(peer).map(of_time_left),
        })
    }

    fn run(&mut self, call: &Call) {
        match *call {
            Call::Notice(num, notice) => {
                self.actions.clear();
                let done = self.manager.add_notice(num, notice, &mut self.actions);
                black_box((done.is_ok(), &self.actions));
            }
            Call::Advance(to) => drop(black_box(self.manager.advance(to, &mut self.fired))),
            Call::Quiet => self.manager.assume_unknown_grants(),
            Call::Refresh(set) => drop(black_box(self.manager.attempt_refresh(set))),
            Call::Drift(setting) => self.manager.set_drift(setting),
            Call::GrantSet => drop(black_box(self.manager.grant_set())),
            Call::LeaseSet => drop(black_box(self.manager.lease_set())),
            Call::LeaseCnt => drop(black_box(self.manager.lease_cnt())),
            Call::TimeLeft(peer) => drop(black_box(self.manager.time_left(peer))),
        }
    }
}
