//! Calls that are refused (rules 10.1 to 10.12).
use super::{Generator, Kind, setup};
use crate::call::{Call, Ids, Notice};
use biasflint::raw::ManagerC;

/// The kinds of notices about one peer.
const ABOUT_ONE: [Kind; 8] = [
    Kind::Guard,
    Kind::GuardReply,
    Kind::Promise,
    Kind::PromiseReply,
    Kind::Revoke,
    Kind::RevokeReply,
    Kind::GrantTimeout,
    Kind::LeaseTimeout,
];

impl Generator {
    // The own id, or one at or above the population: 300 is 300, not 44.
    fn wrong_peer(&mut self, m: &ManagerC) -> u64 {
        let population = m.population as u64;
        let far = 256 + self.random.below(population);
        let any = self.random.between(population, u64::MAX);
        self.random.pick(&[
            m.me as u64,
            m.me as u64,
            population,
            64.max(population),
            255,
            256 + m.me as u64,
            far,
            (1 << 32) + 1,
            any,
        ])
    }

    fn any_number(&mut self, m: &ManagerC) -> u64 {
        let any = self.random.any_width();
        let active = m.active_num;
        self.random.pick(&[active, active.saturating_add(1), active.saturating_sub(1), any])
    }

    fn refused_refresh(&mut self) -> Call {
        let size = self.random.between(65, 255);
        let size = self.random.pick(&[65, 255, 256, u64::MAX, size]);
        Call::Refresh(Some(Ids { size, bits: self.random.any() }))
    }

    // Of any number, a higher one too: a refused notice does not raise it.
    pub(super) fn refused(&mut self, m: &ManagerC) -> Call {
        let num = self.any_number(m);
        let peer = self.wrong_peer(m);
        match self.random.below(10) {
            0..4 => {
                let kind = self.random.pick(&ABOUT_ONE);
                self.about(kind, num, peer)
            }
            4 => Call::TimeLeft(peer),
            5 => {
                let peers = Some(self.other_size(m.population as u64));
                let bar = self.bar();
                Call::Notice(num, Notice::NewGrants(peers, bar))
            }
            6 => Call::Notice(num, Notice::DoRevoke(Some(self.other_size(m.population as u64)))),
            7 => self.refused_refresh(),
            8 => Call::Advance(self.refused_reading(m)),
            _ => {
                let s = setup::accepted(&mut self.random, self.mode, self.limits);
                Call::SetUp(setup::refused(&mut self.random, s))
            }
        }
    }
}
