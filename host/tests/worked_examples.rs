//! The worked examples (rule 20.1), every line, through the typed calls.

mod common;

use std::time::Duration;

use biasflint::LeaseAction::{BcastLeaseMsgs, GuardAcceptBar, HigherNumber, NextRefresh};
use biasflint::LeaseMsg::{Guard, GuardReply, Promise, PromiseReply, Revoke, RevokeReply};
use biasflint::{Bar, Bitmap, DriftSetting, LeaseAction, LeaseManager, LeaseNotice, LeaseNum};
use biasflint::{Reading, Refusal};
use common::{GUARD, NEW_GRANTS, gives, ms, recv, send, set_up};

fn set(bits: u64) -> Bitmap {
    Bitmap::from_bits(3, bits)
}

fn guard_to(bits: u64) -> LeaseAction {
    let (peers, msg) = (set(bits), GUARD);
    BcastLeaseMsgs { peers, msg }
}

#[test]
fn limits_of_set_up() {
    for (t, hb, want) in [
        (99_999_999, 0, Err(Refusal::TimeoutOutOfRange)),
        (100_000_000, 49_999_999, Ok(())),
        (100_000_000, 50_000_000, Err(Refusal::HeartbeatTooSlow)),
        (10_000_000_000, 0, Ok(())),
        (10_000_000_001, 0, Err(Refusal::TimeoutOutOfRange)),
    ] {
        let (t, hb) = (Duration::from_nanos(t), Duration::from_nanos(hb));
        let done = LeaseManager::new_and_setup(0, 3, t, hb, Reading(0));
        assert_eq!(done.map(|_| ()), want);
    }
}

#[test]
fn a_grant_and_its_refresh() {
    let mut m = set_up();
    let sent_to_1 = |m: &LeaseManager| Reading(m.record().peers[1].promise_sent_at);
    gives(&mut m, 1, NEW_GRANTS, &[HigherNumber, guard_to(0b110)]);
    m.advance(ms(10)).unwrap();
    gives(&mut m, 1, recv(1, GuardReply), &[send(1, Promise)]);
    assert_eq!(sent_to_1(&m), ms(2_010));
    m.advance(ms(20)).unwrap();
    let reply = recv(1, PromiseReply { held: true });
    gives(&mut m, 1, reply, &[NextRefresh { peer: 1 }]);
    assert_eq!(sent_to_1(&m), ms(1_020));
    assert_eq!(m.attempt_refresh(None), Ok(set(0b010)));
    assert_eq!(sent_to_1(&m), ms(2_020));
    assert_eq!(m.attempt_refresh(None), Ok(set(0)));
}

#[test]
fn the_empty_set() {
    let mut m = set_up();
    let to_none = LeaseNotice::NewGrants { peers: Some(set(0)), accept_bar: None };
    gives(&mut m, 0, to_none, &[guard_to(0)]);
    gives(&mut m, 0, LeaseNotice::DoRevoke { peers: None }, &[]);
}

#[test]
fn a_lease_held() {
    let mut m = set_up();
    m.advance(ms(5)).unwrap();
    let accept_bar = Bar(7);
    let guard = Guard { accept_bar: Some(accept_bar) };
    let told = GuardAcceptBar { peer: 2, accept_bar };
    let actions = [HigherNumber, told, send(2, GuardReply)];
    gives(&mut m, 1, recv(2, guard), &actions);

    assert_eq!(m.advance(ms(1_005)).unwrap().held, set(0b100));
    let reply = send(2, PromiseReply { held: true });
    gives(&mut m, 1, recv(2, Promise), &[reply]);
    assert_eq!(Reading(m.record().peers[2].promise_held_at), ms(2_005));
    gives(&mut m, 1, LeaseNotice::LeaseTimeout { peer: 2 }, &[]);

    let reply = send(2, RevokeReply { held: false });
    gives(&mut m, 0, recv(2, Revoke), &[reply]);
    assert_eq!(m.lease_set(), Ok(set(0b100)));

    m.advance(ms(2_004)).unwrap();
    assert_eq!(m.lease_set(), Ok(set(0b100)));
    m.advance(ms(2_005)).unwrap();
    assert_eq!(m.lease_set(), Ok(set(0)));
}

#[test]
fn a_timeout_of_nothing_is_reported() {
    let notice = LeaseNotice::GrantTimeout { peer: 1 };
    let action = LeaseAction::GrantTimeout { peer: 1 };
    gives(&mut set_up(), 0, notice, &[action]);
}

#[test]
fn drift() {
    for (percent, ns) in
        [(25, 800_000_000), (-50, 2_000_000_000), (-100, 100_000_000_000), (127, 440_528_634)]
    {
        let mut m = set_up();
        m.set_drift(DriftSetting::Drifting(percent)).unwrap();
        gives(&mut m, 0, recv(2, GUARD), &[send(2, GuardReply)]);
        assert_eq!(m.record().peers[2].guard_held_at, ns);
    }
}

#[test]
fn quiet_time() {
    let mut m = set_up();
    m.assume_unknown_grants().unwrap();
    assert_eq!(m.grant_set(), Ok(set(0b110)));
    let line = (LeaseNum(0), LeaseAction::GrantTimeout { peer: 1 });
    assert_eq!(m.advance(ms(2_000)).unwrap().quiet_end, Some(line));
}
