//! Every kind of notice in and every kind of action out, and the outer calls.

mod common;

use std::time::Duration;

use biasflint::LeaseMsg::{Guard, GuardReply, Promise, PromiseReply, Revoke, RevokeReply};
use biasflint::{Bar, Bitmap, DriftSetting, FiredTimer, LeaseAction, LeaseManager, LeaseMsg};
use biasflint::{LeaseNotice, LeaseNum, Reading};
use common::{GUARD, NEW_GRANTS, T, gives, ms, recv, send, set_up, set_up_of};

// The largest number, bar and peer: each crosses whole.
const NUM: u64 = u64::MAX;
const BAR: Bar = Bar(u64::MAX - 1);
const LAST: usize = 63;

const HELD: LeaseMsg = PromiseReply { held: true };

fn last() -> Bitmap {
    Bitmap::from_ids(64, [LAST]).unwrap()
}

fn bcast(peers: Bitmap, msg: LeaseMsg) -> LeaseAction {
    LeaseAction::BcastLeaseMsgs { peers, msg }
}

// Grants to the last peer, up to the promise.
fn grant(m: &mut LeaseManager) {
    let peers = Some(last());
    let accept_bar = None;
    let grants = LeaseNotice::NewGrants { peers, accept_bar };
    gives(m, NUM, grants, &[bcast(last(), GUARD)]);
    let promise = send(LAST, Promise);
    gives(m, NUM, recv(LAST, GuardReply), &[promise]);
}

fn under_num() -> LeaseManager {
    let mut m = set_up_of(62, 64);
    let actions = [LeaseAction::HigherNumber, LeaseAction::LeaseCleared];
    gives(&mut m, NUM, LeaseNotice::ClearHeld, &actions);
    assert_eq!(m.active_num(), LeaseNum(NUM));
    m
}

#[test]
fn notices_of_the_sent_side() {
    let mut m = under_num();
    let peer = LAST;
    let accept_bar = Some(BAR);
    let to_all = LeaseNotice::NewGrants { peers: None, accept_bar };
    let all = Bitmap::from_ids(64, (0..64).filter(|&id| id != 62)).unwrap();
    gives(&mut m, NUM, to_all, &[bcast(all, Guard { accept_bar })]);
    grant(&mut m);
    let marked = LeaseAction::NextRefresh { peer };
    gives(&mut m, NUM, recv(peer, HELD), &[marked]);
    let from_last = LeaseNotice::DoRevoke { peers: Some(last()) };
    for notice in [LeaseNotice::DoRevoke { peers: None }, from_last] {
        gives(&mut m, NUM, notice, &[bcast(last(), Revoke)]);
    }
    assert_eq!(m.grant_set(), Ok(last()));
    for held in [true, false] {
        let removed = LeaseAction::GrantRemoved { peer, held };
        gives(&mut m, NUM, recv(peer, RevokeReply { held }), &[removed]);
    }
    grant(&mut m);
    let held = false;
    let removed = LeaseAction::GrantRemoved { peer, held };
    gives(&mut m, NUM, recv(peer, PromiseReply { held }), &[removed]);
    assert_eq!(m.grant_set(), Ok(Bitmap::new(64, false)));
}

#[test]
fn notices_of_the_held_side() {
    let mut m = under_num();
    let peer = LAST;
    let reply = |held| send(peer, PromiseReply { held });
    let revoked = |held| send(peer, RevokeReply { held });
    gives(&mut m, NUM, recv(peer, Promise), &[reply(false)]);
    let guard = Guard { accept_bar: Some(BAR) };
    let told = LeaseAction::GuardAcceptBar { peer, accept_bar: BAR };
    gives(&mut m, NUM, recv(peer, guard), &[told, send(peer, GuardReply)]);
    gives(&mut m, NUM, recv(peer, Promise), &[reply(true)]);
    assert_eq!(m.lease_set(), Ok(last()));
    assert_eq!(m.lease_cnt(), Ok(2));
    gives(&mut m, NUM, recv(peer, Revoke), &[revoked(true)]);
    gives(&mut m, NUM, recv(peer, Revoke), &[revoked(false)]);
    // Under an outdated number a Revoke is answered under that number, anything else is not.
    gives(&mut m, 3, recv(peer, Revoke), &[revoked(false)]);
    gives(&mut m, 3, recv(peer, Promise), &[]);
}

#[test]
fn timeouts() {
    let mut m = under_num();
    let peer = LAST;
    grant(&mut m);
    gives(&mut m, NUM, recv(peer, GUARD), &[send(peer, GuardReply)]);
    let fired = m.advance(Reading::after(2 * T)).unwrap();
    // The held guard was for T, the sent promise is for 2T.
    let in_order = [FiredTimer::Held { peer }, FiredTimer::Sent { peer }];
    assert_eq!((fired.sent, fired.held, fired.quiet_end), (last(), last(), None));
    assert!(fired.fired.iter().eq(in_order) && fired.fired.len() == 2);
    assert_eq!(format!("{:?}", fired.fired), format!("{in_order:?}"));
    let told = [LeaseAction::LeaseTimeout { peer }, LeaseAction::GrantTimeout { peer }];
    for (notice, action) in fired.timeouts().zip(told) {
        gives(&mut m, NUM, notice, &[action]);
    }
    assert_eq!(fired.timeouts().count(), 2);
    let none = Bitmap::new(64, false);
    let fired = m.advance(Reading::after(3 * T)).unwrap();
    assert_eq!((fired.sent, fired.held), (none, none));
    assert!(fired.fired.is_empty());
}

#[test]
fn every_drift_setting() {
    let mut m = set_up();
    for percent in i8::MIN..=i8::MAX {
        m.set_drift(DriftSetting::Drifting(percent)).unwrap();
        m.assume_unknown_grants().unwrap();
        // As the Rust has it, in src/utils/faults.rs.
        let rate = (100 + i16::from(percent)).max(1);
        let drifted = (2 * T).mul_f64(100.0 / f64::from(rate));
        assert_eq!(Reading(m.record().quiet_until), Reading::after(drifted));
    }
    m.set_drift(DriftSetting::True).unwrap();
    m.assume_unknown_grants().unwrap();
    assert_eq!(Reading(m.record().quiet_until), ms(2_000));
}

#[test]
fn quiet_time_is_replaced_and_ends_once() {
    let mut m = set_up_of(2, 3);
    m.assume_unknown_grants().unwrap();
    m.advance(ms(500)).unwrap();
    m.assume_unknown_grants().unwrap();
    assert_eq!(m.advance(ms(2_499)).unwrap().quiet_end, None);
    assert_eq!(m.grant_set(), Ok(Bitmap::from_bits(3, 0b011)));
    let line = (LeaseNum(0), LeaseAction::GrantTimeout { peer: 0 });
    assert_eq!(m.advance(ms(2_500)).unwrap().quiet_end, Some(line));
    assert_eq!(m.grant_set(), Ok(Bitmap::new(3, false)));
    assert_eq!(m.advance(ms(2_501)).unwrap().quiet_end, None);
}

#[test]
fn refresh_of_a_set() {
    let mut m = set_up();
    m.add_notice(LeaseNum(0), NEW_GRANTS).unwrap();
    for peer in [1, 2] {
        gives(&mut m, 0, recv(peer, GuardReply), &[send(peer, Promise)]);
        let marked = LeaseAction::NextRefresh { peer };
        gives(&mut m, 0, recv(peer, HELD), &[marked]);
    }
    // The set's size is its own; ids of the record that it has no room for are not in it.
    for (size, bits, want) in [
        (3, 0b000, 0b000),
        (2, 0b11, 0b010),
        (64, 0b010, 0b000),
        (64, u64::MAX, 0b100),
        (3, 0b111, 0b000),
    ] {
        let got = m.attempt_refresh(Some(&Bitmap::from_bits(size, bits)));
        assert_eq!(got, Ok(Bitmap::from_bits(3, want)), "{bits:b} of {size}");
    }
}

#[test]
fn time_left_of_a_promise() {
    let mut m = set_up();
    gives(&mut m, 0, recv(2, GUARD), &[send(2, GuardReply)]);
    assert_eq!(m.time_left(2), Ok(None));
    gives(&mut m, 0, recv(2, Promise), &[send(2, HELD)]);
    for (ns, left) in [
        (1_000_000_000, 1_000),
        (999_999_999, 1_000),
        (999_000_001, 1_000),
        (999_000_000, 999),
        (1_000_001, 2),
        (1_000_000, 1),
        (400_000, 1),
        (1, 1),
        (0, 0),
    ] {
        m.advance(Reading(1_000_000_000 - ns)).unwrap();
        let ms = Duration::from_millis(left);
        assert_eq!(m.time_left(2), Ok(Some(ms)), "{ns} ns left");
        assert_eq!(m.lease_set().unwrap().get(2), Ok(left > 0), "{ns} ns left");
    }
    gives(&mut m, 1, LeaseNotice::ClearHeld, &CLEARED);
    assert_eq!(m.time_left(2), Ok(None));
}

const CLEARED: [LeaseAction; 2] = [LeaseAction::HigherNumber, LeaseAction::LeaseCleared];

#[test]
fn a_stored_record_goes_on() {
    let mut m = under_num();
    grant(&mut m);
    m.advance(ms(20)).unwrap();
    let mut again = LeaseManager::from_record(*m.record());
    assert_eq!((again.me(), again.population()), (62, 64));
    assert_eq!((again.now(), again.active_num()), (ms(20), LeaseNum(NUM)));
    for to in [ms(1_999), ms(2_000), ms(2_001)] {
        assert_eq!(again.advance(to), m.advance(to));
        assert_eq!(again, m);
    }
}

#[test]
fn one_controller_alone() {
    let mut m = set_up_of(0, 1);
    let none = Bitmap::new(1, false);
    gives(&mut m, 0, NEW_GRANTS, &[bcast(none, GUARD)]);
    m.assume_unknown_grants().unwrap();
    assert_eq!(m.grant_set(), Ok(none));
    let line = (LeaseNum(0), LeaseAction::GrantTimeout { peer: 0 });
    assert_eq!(m.advance(ms(2_000)).unwrap().quiet_end, Some(line));
    assert_eq!(m.lease_cnt(), Ok(1));
}
