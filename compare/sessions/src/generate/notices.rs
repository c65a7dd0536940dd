//! Notices, and the question about one peer: their numbers, and peers that have something to do
//! with them.
use super::{Generator, Kind};
use crate::call::{Call, Msg, Notice};
use crate::state::{ARMED, EXPLODED, rows};
use biasflint::raw::{ManagerC, PeerC};

type Row = fn(&PeerC) -> bool;

fn any(_: &PeerC) -> bool {
    true
}

fn guard_sent(p: &PeerC) -> bool {
    p.guard_sent > 0
}

fn promise_sent(p: &PeerC) -> bool {
    p.promise_sent > 0
}

fn promise_sent_armed(p: &PeerC) -> bool {
    p.promise_sent == ARMED && p.revoking == 0
}

fn revoking(p: &PeerC) -> bool {
    p.revoking > 0
}

fn marked(p: &PeerC) -> bool {
    p.refresh_mark > 0
}

fn sent_exploded(p: &PeerC) -> bool {
    p.promise_sent == EXPLODED
}

fn guard_held(p: &PeerC) -> bool {
    p.guard_held > 0
}

fn promise_held(p: &PeerC) -> bool {
    p.promise_held > 0
}

fn held(p: &PeerC) -> bool {
    guard_held(p) || promise_held(p)
}

fn held_exploded(p: &PeerC) -> bool {
    p.guard_held == EXPLODED || p.promise_held == EXPLODED
}

impl Kind {
    // The rows that this kind has to do with.
    fn rows(self) -> &'static [Row] {
        match self {
            Kind::Guard => &[any, any, guard_held, promise_held],
            Kind::GuardReply => &[guard_sent, guard_sent, guard_sent, promise_sent],
            Kind::Promise => &[guard_held, guard_held, promise_held, held_exploded],
            Kind::PromiseReply => &[promise_sent_armed, promise_sent_armed, promise_sent, revoking],
            Kind::Revoke => &[guard_held, promise_held],
            Kind::RevokeReply => &[promise_sent, revoking, guard_sent],
            Kind::GrantTimeout => &[sent_exploded, sent_exploded, promise_sent, guard_sent],
            Kind::LeaseTimeout => &[held_exploded, held_exploded, held],
            Kind::TimeLeft => &[promise_held],
            Kind::Refresh => &[marked],
            _ => &[any],
        }
    }

    /// Whether some row has to do with it.
    pub(super) fn finds_a_row(self, m: &ManagerC) -> bool {
        let fits = |p: &PeerC| self.rows().iter().any(|fits| fits(p));
        rows(m).iter().any(fits)
    }
}

impl Generator {
    fn any_peer(&mut self, m: &ManagerC) -> usize {
        let other = self.random.below(m.population as u64 - 1) as usize;
        if other < m.me { other } else { other + 1 }
    }

    // Four times of five one of the rows that the kind has to do with, if there is one.
    fn peer(&mut self, kind: Kind, m: &ManagerC) -> u64 {
        let from = self.any_peer(m);
        let kinds = kind.rows();
        let first = self.random.below(kinds.len() as u64) as usize;
        if !self.random.chance(800) {
            return from as u64;
        }
        for fits in kinds[first..].iter().chain(&kinds[..first]) {
            let wanted = |i: &usize| *i != m.me && fits(&m.peers[*i]);
            if let Some(peer) = (from..m.population).chain(0..from).find(wanted) {
                return peer as u64;
            }
        }
        from as u64
    }

    fn higher(&mut self, active: u64) -> u64 {
        if active == u64::MAX {
            return active;
        }
        match self.random.below(40) {
            0..24 => active + 1,
            24..36 => active.saturating_add(self.random.between(1, 10)),
            36..38 => self.random.between(active + 1, u64::MAX),
            38 => active.saturating_add(self.random.any_width().max(1)),
            _ => u64::MAX,
        }
    }

    fn old(&mut self, active: u64) -> u64 {
        match self.random.below(4) {
            0..2 => active.saturating_sub(1),
            2 => self.random.below(active.max(1)),
            _ => 0,
        }
    }

    // The active number mostly. A Revoke is old more often, and a session leaves number 0 soon.
    fn number(&mut self, kind: Kind, m: &ManagerC) -> u64 {
        let old = if kind == Kind::Revoke { 400 } else { self.temper.old };
        let higher = if m.active_num == 0 { 250 } else { self.temper.higher };
        let roll = self.random.below(1000);
        if roll < higher {
            self.higher(m.active_num)
        } else if roll < higher + old {
            self.old(m.active_num)
        } else {
            m.active_num
        }
    }

    pub(super) fn bar(&mut self) -> Option<u64> {
        match self.random.below(8) {
            0..4 => None,
            4 => Some(0),
            5 => Some(u64::MAX),
            _ => Some(self.random.any_width()),
        }
    }

    fn message(&mut self, kind: Kind) -> Msg {
        match kind {
            Kind::Guard => Msg::Guard(self.bar()),
            Kind::GuardReply => Msg::GuardReply,
            Kind::Promise => Msg::Promise,
            Kind::PromiseReply => Msg::PromiseReply(!self.random.chance(120)),
            Kind::Revoke => Msg::Revoke,
            _ => Msg::RevokeReply(self.random.flag()),
        }
    }

    // A population of 1 has no peer to speak of.
    pub(super) fn about_peers(&mut self, kind: Kind, m: &ManagerC) -> Call {
        let num = self.number(kind, m);
        match kind {
            Kind::NewGrants => Call::Notice(num, Notice::NewGrants(self.peer_set(m), self.bar())),
            Kind::DoRevoke => Call::Notice(num, Notice::DoRevoke(self.peer_set(m))),
            Kind::ClearHeld => Call::Notice(num, Notice::ClearHeld),
            _ if m.population == 1 => Call::LeaseCnt,
            Kind::TimeLeft => Call::TimeLeft(self.peer(kind, m)),
            _ => {
                let peer = self.peer(kind, m);
                self.about(kind, num, peer)
            }
        }
    }

    /// A notice of that kind about that peer.
    pub(super) fn about(&mut self, kind: Kind, num: u64, peer: u64) -> Call {
        let notice = match kind {
            Kind::GrantTimeout => Notice::GrantTimeout(peer),
            Kind::LeaseTimeout => Notice::LeaseTimeout(peer),
            _ => Notice::Message(peer, self.message(kind)),
        };
        Call::Notice(num, notice)
    }
}
