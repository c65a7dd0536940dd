//! What the tests of the manager share.
#![allow(dead_code)]

use std::time::Duration;

use biasflint::{LeaseAction, LeaseManager, LeaseMsg, LeaseNotice, LeaseNum, Reading, ReplicaId};

pub const T: Duration = Duration::from_secs(1);

/// The manager of the worked examples (rule 20.1): population 3, own id 0, T = 1 s, start 0.
pub fn set_up() -> LeaseManager {
    set_up_of(0, 3)
}

pub fn set_up_of(me: ReplicaId, population: usize) -> LeaseManager {
    LeaseManager::new_and_setup(me, population, T, Duration::ZERO, Reading(0)).unwrap()
}

pub fn ms(n: u64) -> Reading {
    Reading(n * 1_000_000)
}

pub fn recv(peer: ReplicaId, msg: LeaseMsg) -> LeaseNotice {
    LeaseNotice::RecvLeaseMsg { peer, msg }
}

pub fn send(peer: ReplicaId, msg: LeaseMsg) -> LeaseAction {
    LeaseAction::SendLeaseMsg { peer, msg }
}

pub const GUARD: LeaseMsg = LeaseMsg::Guard { accept_bar: None };

pub const NEW_GRANTS: LeaseNotice = LeaseNotice::NewGrants { peers: None, accept_bar: None };

/// Adds a notice and compares its actions, all under the notice's number.
#[track_caller]
pub fn gives(m: &mut LeaseManager, num: u64, notice: LeaseNotice, want: &[LeaseAction]) {
    let got = m.add_notice(LeaseNum(num), notice).unwrap();
    let want: Vec<_> = want.iter().map(|&action| (LeaseNum(num), action)).collect();
    assert_eq!(*got, *want);
}
