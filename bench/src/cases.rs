//! The lists of calls that are timed.

use biasflint::raw::CallC;
use biasflint::{DriftSetting, LeaseMsg, LeaseNotice, LeaseNum, Reading, ReplicaId};

use crate::calls::{Call, Raw, SetUp, Side};

const T: u64 = 10_000_000_000;
const MS: u64 = 1_000_000;
const NUM: LeaseNum = LeaseNum(1);
const OLD: LeaseNum = LeaseNum(0);

/// How the original is measured on a case.
#[derive(Clone, Copy, PartialEq)]
pub enum Original {
    /// Notices and questions, on both runtimes.
    Manager,
    /// A clock that is moved.
    Clock,
    /// That many timers without a manager.
    Timers(usize),
    /// It has no such answer.
    Nothing,
}

pub struct Case {
    pub name: &'static str,
    pub set_up: SetUp,
    /// Not timed. It has the same answers and leads to the same tables from wherever the list left
    /// them.
    pub prelude: Vec<Call>,
    /// Timed.
    pub list: Vec<Call>,
    /// The time is divided by this: the list's calls, or 1 where the list is one event.
    pub units: usize,
    pub original: Original,
}

impl Case {
    /// Nothing but notices is timed.
    pub fn is_of_notices(&self) -> bool {
        self.list.iter().all(|call| matches!(call, Call::Notice(..)))
    }
}

/// Answered by one action under the old number, and changes nothing.
pub fn last_of(population: usize) -> Call {
    recv(OLD, Room::of(population).peers().next().unwrap(), LeaseMsg::Revoke)
}

/// The names of the cases that `parts` looks at.
pub const PROMISE: &str = "Promise, kicks off a held promise";
pub const ADVANCE: &str = "advance, nothing due";

/// Every case at a population.
pub fn all(population: usize) -> Vec<Case> {
    use Original::{Clock, Manager, Nothing, Timers};
    let room = Room::of(population);
    let (granted, guarded) = (|| room.granted(), || room.guarded());
    let timers = Timers(2 * (population - 1));
    let timeouts =
        room.case("the same, and its timeout notices", granted(), room.timeouts(), Clock);
    vec![
        room.case(PROMISE, granted(), room.promises(NUM, 256), Manager),
        room.case("GuardReply and PromiseReply", guarded(), room.replies(), Manager),
        room.case("NewGrants to all", guarded(), vec![NEW_GRANTS; 32], Manager),
        room.case("DoRevoke to all", granted(), vec![DO_REVOKE; 32], Manager),
        room.case("outdated notice, nothing", granted(), room.outdated(), Manager),
        room.case("notice refused, peer not known", granted(), room.unknown(), Nothing),
        room.case("grant_set", granted(), vec![Call::GrantSet; 64], Manager),
        room.case("lease_set", granted(), vec![Call::LeaseSet; 64], Manager),
        room.case("lease_cnt", granted(), vec![Call::LeaseCnt; 64], Manager),
        room.case("time_left", granted(), room.times_left(), Nothing),
        room.case("refresh, all marked", granted(), vec![Call::Refresh(None)], Manager),
        room.case("quiet start", granted(), vec![Call::Quiet; 64], Manager),
        room.case(ADVANCE, granted(), room.small_steps(), Clock),
        room.case("advance, one timer due", room.one_short(), vec![room.at_the_end()], Nothing),
        room.case("advance, all timers due", granted(), vec![room.at_the_end()], timers),
        room.case("advance, all due, one by one", room.in_turn(), vec![room.much_later()], Nothing),
        room.case(
            "advance, all due, in reverse",
            room.in_reverse(),
            vec![room.much_later()],
            Nothing,
        ),
        Case { units: 1, ..timeouts },
    ]
}

/// A card of each code, in their order, for the state of `granted`.
pub fn one_of_each(population: usize) -> [(&'static str, CallC); 15] {
    let room = Room::of(population);
    let peer = room.peers().next().expect("a peer");
    let call = |name, call: Call| (name, call.card());
    [
        ("set-up", room.set_up.card()),
        call("advance, all due", room.much_later()),
        call("NewGrants", NEW_GRANTS),
        call("DoRevoke", DO_REVOKE),
        call("ClearHeld", CLEAR_HELD),
        call("message, Promise", recv(NUM, peer, LeaseMsg::Promise)),
        call("GrantTimeout", Call::Notice(NUM, LeaseNotice::GrantTimeout { peer })),
        call("LeaseTimeout", Call::Notice(NUM, LeaseNotice::LeaseTimeout { peer })),
        call("quiet start", Call::Quiet),
        call("refresh", Call::Refresh(None)),
        call("drift setting", Call::Drift(DriftSetting::Drifting(25))),
        call("grant set", Call::GrantSet),
        call("lease set", Call::LeaseSet),
        call("lease count", Call::LeaseCnt),
        call("time left", Call::TimeLeft(peer)),
    ]
}

/// The library's record with a promise sent to each peer and one held from each.
pub fn granted(population: usize) -> Raw {
    let room = Room::of(population);
    let mut side = Raw::set_up(&room.set_up);
    for call in [FIRST].iter().chain(&room.granted()) {
        side.run(&call.card());
    }
    side
}

/// The first call after set-up: the number of all others is active from then on.
pub const FIRST: Call = CLEAR_HELD;

const CLEAR_HELD: Call = Call::Notice(NUM, LeaseNotice::ClearHeld);
const NEW_GRANTS: Call =
    Call::Notice(NUM, LeaseNotice::NewGrants { peers: None, accept_bar: None });
const DO_REVOKE: Call = Call::Notice(NUM, LeaseNotice::DoRevoke { peers: None });

fn recv(num: LeaseNum, peer: ReplicaId, msg: LeaseMsg) -> Call {
    Call::Notice(num, LeaseNotice::RecvLeaseMsg { peer, msg })
}

struct Room {
    set_up: SetUp,
}

impl Room {
    fn of(population: usize) -> Self {
        Room { set_up: SetUp { me: 2, population, t: T, heartbeat: T / 10, now: 1_000 * MS } }
    }

    fn case(
        &self,
        name: &'static str,
        prelude: Vec<Call>,
        list: Vec<Call>,
        original: Original,
    ) -> Case {
        Case { name, set_up: self.set_up, prelude, units: list.len(), list, original }
    }

    fn peers(&self) -> impl Iterator<Item = ReplicaId> + Clone + use<> {
        let SetUp { me, population, .. } = self.set_up;
        (0..population).filter(move |&id| id != me)
    }

    fn each_sends(&self, msgs: &[LeaseMsg]) -> Vec<Call> {
        self.peers().flat_map(|peer| msgs.iter().map(move |&msg| recv(NUM, peer, msg))).collect()
    }

    // ---- preludes

    /// A promise sent to each peer and one held from each, all armed for T.
    fn granted(&self) -> Vec<Call> {
        let mut calls = self.guarded();
        calls.extend(self.each_sends(&[
            LeaseMsg::GuardReply,
            LeaseMsg::PromiseReply { held: true },
            LeaseMsg::Guard { accept_bar: None },
            LeaseMsg::Promise,
        ]));
        calls
    }

    /// A guard sent to each peer, and nothing else.
    fn guarded(&self) -> Vec<Call> {
        let mut calls = self.each_sends(&[LeaseMsg::RevokeReply { held: true }]);
        calls.extend([CLEAR_HELD, NEW_GRANTS]);
        calls
    }

    /// The same, put off by 1 s but for what is held from the first peer.
    fn one_short(&self) -> Vec<Call> {
        let mut calls = self.granted();
        calls.push(self.later(1_000));
        calls.extend(self.each_sends(&[LeaseMsg::PromiseReply { held: true }]));
        calls.extend(self.peers().skip(1).map(|peer| recv(NUM, peer, LeaseMsg::Promise)));
        calls
    }

    /// Every timer armed for T, each a ms after the one before: the sent ones by id, then the held.
    fn in_turn(&self) -> Vec<Call> {
        self.one_by_one([LeaseMsg::PromiseReply { held: true }, LeaseMsg::Promise], false)
    }

    /// The other way round: the last that is armed is the first of an order by side and id.
    fn in_reverse(&self) -> Vec<Call> {
        self.one_by_one([LeaseMsg::Promise, LeaseMsg::PromiseReply { held: true }], true)
    }

    fn one_by_one(&self, msgs: [LeaseMsg; 2], reverse: bool) -> Vec<Call> {
        let mut peers: Vec<ReplicaId> = self.peers().collect();
        if reverse {
            peers.reverse();
        }
        let mut calls = self.granted();
        let each = msgs.iter().flat_map(|&msg| peers.iter().map(move |&peer| (peer, msg)));
        for (ms, (peer, msg)) in (1..).zip(each) {
            calls.extend([self.later(ms), recv(NUM, peer, msg)]);
        }
        calls
    }

    // ---- lists

    fn later(&self, ms: u64) -> Call {
        Call::Advance(Reading(self.set_up.now + ms * MS))
    }

    fn much_later(&self) -> Call {
        Call::Advance(Reading(self.set_up.now + 2 * T))
    }

    fn promises(&self, num: LeaseNum, count: usize) -> Vec<Call> {
        self.peers().cycle().take(count).map(|peer| recv(num, peer, LeaseMsg::Promise)).collect()
    }

    fn replies(&self) -> Vec<Call> {
        self.each_sends(&[LeaseMsg::GuardReply, LeaseMsg::PromiseReply { held: true }])
    }

    /// The last call has an answer: by it the original shows that it is through with the others.
    fn outdated(&self) -> Vec<Call> {
        let mut calls = self.promises(OLD, 127);
        calls.push(last_of(self.set_up.population));
        calls
    }

    fn unknown(&self) -> Vec<Call> {
        vec![recv(NUM, self.set_up.population, LeaseMsg::Promise); 64]
    }

    fn times_left(&self) -> Vec<Call> {
        self.peers().cycle().take(64).map(Call::TimeLeft).collect()
    }

    fn small_steps(&self) -> Vec<Call> {
        (1..=64).map(|step| Call::Advance(Reading(self.set_up.now + step * MS))).collect()
    }

    fn at_the_end(&self) -> Call {
        Call::Advance(Reading(self.set_up.now + T + 2 * MS))
    }

    fn timeouts(&self) -> Vec<Call> {
        let mut calls = vec![self.at_the_end()];
        calls
            .extend(self.peers().map(|peer| Call::Notice(NUM, LeaseNotice::GrantTimeout { peer })));
        calls
            .extend(self.peers().map(|peer| Call::Notice(NUM, LeaseNotice::LeaseTimeout { peer })));
        calls
    }
}
