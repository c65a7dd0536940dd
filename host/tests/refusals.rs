//! Every refusal number, which call gives it, in which order, and that a refused call changes
//! nothing.

mod common;

use std::time::Duration;

use biasflint::raw::{self, CallC, ManagerC};
use biasflint::{Bitmap, DriftSetting, LeaseManager, LeaseMsg, LeaseNotice, LeaseNum, Reading};
use biasflint::{Refusal, ReplicaId};
use common::{GUARD, NEW_GRANTS, gives, ms, recv, send, set_up};

// The number of what was refused.
fn number<A>(result: Result<A, Refusal>) -> u64 {
    result.map_or_else(Refusal::number, |_| 0)
}

#[test]
fn of_set_up() {
    const T: Duration = Duration::from_secs(1);
    const HB: Duration = Duration::from_millis(499);
    const LATE: Reading = Reading(Reading::MAX.0 + 1);
    // 2^64 ns and as much as makes an accepted duration of what a cut to 64 bits would leave.
    let cut = |ns: u64| Duration::from_nanos(u64::MAX) + Duration::from_nanos(ns + 1);
    for (me, population, t, hb, now, want) in [
        (2, 3, T, HB, Reading::MAX, 0),
        (0, 64, T, HB, Reading(0), 0),
        // Each alone.
        (0, 3, Duration::ZERO, Duration::ZERO, Reading(0), 1),
        (0, 3, Duration::MAX, HB, Reading(0), 1),
        (0, 3, cut(1_000_000_000), HB, Reading(0), 1),
        (0, 3, T, T / 2, Reading(0), 2),
        (0, 3, T, Duration::MAX, Reading(0), 2),
        (0, 3, T, cut(1_000_000), Reading(0), 2),
        (0, 3, T, Duration::from_nanos(1 << 63), Reading(0), 2),
        (0, 0, T, HB, Reading(0), 3),
        (0, 65, T, HB, Reading(0), 3),
        (0, 256 + 3, T, HB, Reading(0), 3),
        (3, 3, T, HB, Reading(0), 4),
        (256 + 1, 3, T, HB, Reading(0), 4),
        (0, 3, T, HB, LATE, 5),
        (0, 3, T, HB, Reading::after(Duration::MAX), 5),
        // Each before those after it.
        (65, 65, Duration::ZERO, T, LATE, 1),
        (65, 65, T, T, LATE, 2),
        (65, 65, T, HB, LATE, 3),
        (64, 64, T, HB, LATE, 4),
    ] {
        let done = LeaseManager::new_and_setup(me, population, t, hb, now);
        assert_eq!(number(done), want, "{me} {population} {t:?} {hb:?} {now:?}");
    }
}

// A manager of own id 0 of 3 at 10 ms under number 1, with something in every table.
fn busy() -> LeaseManager {
    let mut m = set_up();
    m.advance(ms(10)).unwrap();
    m.add_notice(LeaseNum(1), NEW_GRANTS).unwrap();
    let reply = LeaseMsg::PromiseReply { held: true };
    for msg in [LeaseMsg::GuardReply, reply, GUARD, LeaseMsg::Promise] {
        m.add_notice(LeaseNum(1), recv(1, msg)).unwrap();
    }
    let replied = [send(2, LeaseMsg::GuardReply)];
    gives(&mut m, 1, recv(2, GUARD), &replied);
    m.set_drift(DriftSetting::Drifting(-7)).unwrap();
    m.assume_unknown_grants().unwrap();
    m
}

type Call = Box<dyn Fn(&mut LeaseManager) -> u64>;

fn notice(notice: LeaseNotice) -> Call {
    Box::new(move |m| number(m.add_notice(LeaseNum(9), notice)))
}

fn advance(to: Reading) -> Call {
    Box::new(move |m| number(m.advance(to)))
}

fn time_left(peer: ReplicaId) -> Call {
    Box::new(move |m| number(m.time_left(peer)))
}

fn refresh(size: usize) -> Call {
    Box::new(move |m| number(m.attempt_refresh(Some(&Bitmap::new(size, true)))))
}

fn grants(size: usize) -> Call {
    notice(LeaseNotice::NewGrants { peers: Some(Bitmap::new(size, true)), accept_bar: None })
}

fn revoke(size: usize) -> Call {
    notice(LeaseNotice::DoRevoke { peers: Some(Bitmap::new(size, true)) })
}

// Calls on a record, and what refuses them where the record does not.
fn refused_calls() -> Vec<(Call, u64)> {
    let mut calls = vec![
        (advance(Reading(Reading::MAX.0 + 1)), 5),
        (advance(Reading(u64::MAX)), 5),
        (advance(Reading(ms(10).0 - 1)), 6),
        (advance(Reading(0)), 6),
    ];
    for (peer, want) in [(3, 7), (64, 7), (256 + 1, 7), (usize::MAX, 7), (0, 8)] {
        calls.push((time_left(peer), want));
        calls.push((notice(LeaseNotice::GrantTimeout { peer }), want));
        calls.push((notice(LeaseNotice::LeaseTimeout { peer }), want));
        calls.push((notice(recv(peer, GUARD)), want));
        calls.push((notice(recv(peer, LeaseMsg::Revoke)), want));
    }
    // A set of size 0 is not "no set"; one of size 259 is not one of size 3.
    for size in [0, 2, 4, 64, 65, 255, 256, 256 + 3, usize::MAX] {
        calls.push((grants(size), 9));
        calls.push((revoke(size), 9));
    }
    for size in [0, 65, 255, 256, 256 + 3, usize::MAX] {
        calls.push((refresh(size), 12));
    }
    calls
}

fn accepted_calls() -> Vec<Call> {
    vec![
        advance(ms(10)),
        advance(Reading::MAX),
        notice(LeaseNotice::ClearHeld),
        grants(3),
        revoke(3),
        notice(NEW_GRANTS),
        refresh(1),
        refresh(64),
        time_left(2),
        Box::new(|m| number(m.attempt_refresh(None))),
        Box::new(|m| number(m.assume_unknown_grants())),
        Box::new(|m| number(m.set_drift(DriftSetting::True))),
        Box::new(|m| number(m.grant_set())),
        Box::new(|m| number(m.lease_set())),
        Box::new(|m| number(m.lease_cnt())),
    ]
}

#[test]
fn of_calls_on_a_record() {
    for (i, (call, want)) in refused_calls().into_iter().enumerate() {
        let mut m = busy();
        assert_eq!(call(&mut m), want, "call {i}");
        assert_eq!(m, busy(), "call {i}");
    }
    for (i, call) in accepted_calls().into_iter().enumerate() {
        assert_eq!(call(&mut busy()), 0, "call {i}");
    }
}

#[test]
fn the_record_is_looked_at_first() {
    let mut stored = *busy().record();
    stored.peers[0].refresh_mark = 1;
    let refused = refused_calls().into_iter().map(|(call, _)| call);
    for (i, call) in refused.chain(accepted_calls()).enumerate() {
        let mut m = LeaseManager::from_record(stored);
        assert_eq!(call(&mut m), 15, "call {i}");
        assert_eq!(*m.record(), stored, "call {i}");
    }
}

#[test]
fn of_records() {
    // Each part of rule 5.3 broken, on a record that is accepted without it.
    let changes: [fn(&mut ManagerC); 16] = [
        |r| r.expire_timeout = 99_999_999,
        |r| r.population = 65,
        |r| r.me = 3,
        |r| r.now = Reading::MAX.0 + 1,
        |r| r.peers[0].guard_sent = 1,
        |r| r.peers[0].refresh_mark = 1,
        |r| r.peers[3].promise_held = 3,
        |r| r.peers[1].guard_sent = 1,
        |r| (r.peers[1].guard_held, r.peers[1].guard_held_at) = (3, 0),
        |r| (r.peers[2].guard_sent, r.peers[2].guard_sent_at) = (2, r.now + 1),
        |r| r.peers[2].guard_sent = 3,
        |r| (r.peers[2].guard_held, r.peers[2].guard_held_at) = (1, 0),
        |r| r.peers[1].promise_sent_at = r.now,
        |r| r.peers[1].promise_held_at = r.now + 3_000_000_000_001,
        |r| r.quiet_until = r.now,
        |r| r.quotient = 0.81,
    ];
    for (i, change) in changes.into_iter().enumerate() {
        let mut stored = *busy().record();
        assert_eq!(LeaseManager::from_record(stored).lease_cnt(), Ok(2));
        change(&mut stored);
        let refused = LeaseManager::from_record(stored).lease_cnt();
        assert_eq!(refused, Err(Refusal::InvalidRecord), "change {i}");
    }
}

#[test]
fn of_cards_that_are_no_calls() {
    let card = |code, peer, size, first| CallC { code, peer, size, first, ..CallC::default() };
    for card in [
        card(0, 0, 0, 0),
        card(16, 0, 0, 0),
        card(u64::MAX, 0, 0, 0),
        card(3, 2, 0, 0),
        card(6, 1, 0, 0),
        card(6, 1, 8, 0),
        card(6, 1, 5, 2),
        card(6, 1, 7, 2),
        card(11, 0, 2, 0),
        card(11, 0, 1, 256),
    ] {
        for record in [*busy().record(), ManagerC::BLANK] {
            let mut lent = record;
            let answer = raw::call(&mut lent, card);
            let refusal = Refusal::from_number(answer.refused);
            assert_eq!(refusal, Some(Refusal::NoCall), "{card:?}");
            assert_eq!(lent, record, "{card:?}");
        }
    }
}
