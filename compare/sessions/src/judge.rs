//! Which calls are refused, and with which number (section 10 of the rules): a few lines that know
//! nothing of the library. What they look at is what the accepted calls said.
use crate::call::{Call, LARGEST_READING, MS, Notice, PeerSet, SetUp};

#[derive(Clone, Copy, Default)]
pub struct Judge {
    me: u64,
    population: u64,
    now: u64,
}

fn setup(s: &SetUp) -> u64 {
    if s.expire_timeout < 100 * MS || s.expire_timeout > 10_000 * MS {
        1
    } else if u128::from(s.heartbeat) * 2 >= u128::from(s.expire_timeout) {
        2
    } else if s.population < 1 || s.population > 64 {
        3
    } else if s.me >= s.population {
        4
    } else if s.start > LARGEST_READING {
        5
    } else {
        0
    }
}

impl Judge {
    fn peer(&self, peer: u64) -> u64 {
        if peer >= self.population {
            7
        } else if peer == self.me {
            8
        } else {
            0
        }
    }

    fn peers(&self, peers: PeerSet) -> u64 {
        if peers.is_some_and(|set| set.size != self.population) { 9 } else { 0 }
    }

    /// 0, or the number of the refusal.
    pub fn refusal(&self, call: &Call) -> u64 {
        match call {
            Call::SetUp(s) => setup(s),
            Call::Advance(reading) if *reading > LARGEST_READING => 5,
            Call::Advance(reading) if *reading < self.now => 6,
            Call::Notice(_, Notice::NewGrants(peers, _) | Notice::DoRevoke(peers)) => {
                self.peers(*peers)
            }
            Call::Notice(_, notice) => notice.peer().map_or(0, |peer| self.peer(peer)),
            Call::TimeLeft(peer) => self.peer(*peer),
            Call::Refresh(Some(set)) if set.size > 64 => 12,
            _ => 0,
        }
    }

    /// Takes note of an accepted call.
    pub fn accepted(&mut self, call: &Call) {
        match *call {
            Call::SetUp(s) => {
                *self = Judge { me: s.me, population: s.population, now: s.start };
            }
            Call::Advance(reading) => self.now = reading,
            _ => {}
        }
    }
}
