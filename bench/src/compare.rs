//! Random calls to the plain program and to the library: every answer and, after every call, the
//! tables. And random cards to the two replays: every byte.

use std::fs;

use biasflint::raw::{ManagerC, PeerC};
use biasflint::{Bar, Bitmap, DriftSetting, LeaseMsg, LeaseNotice, LeaseNum, Reading};

use crate::arrays::{Clock, Manager, Row, Timer};
use crate::calls::{Call, Plain, Raw, SetUp, Side, Typed};
use crate::random::Random;
use crate::replay::{LINE, Session};
use crate::{cards, replay, stream};

const SESSION: usize = 500;

/// How many answers of each kind came, so that a reader sees that no kind was left out.
#[derive(Default)]
pub struct Seen {
    pub calls: usize,
    pub refused: usize,
    pub actions: usize,
    pub fired: usize,
}

/// Compares that many calls, in sessions from set-ups of their own. Panics where two sides differ.
pub fn random_calls(count: usize) -> Seen {
    let (mut random, mut seen) = (Random::new(1), Seen::default());
    while seen.calls < count {
        session(&mut random, &mut seen);
    }
    seen
}

fn session(random: &mut Random, seen: &mut Seen) {
    let set_up = random.set_up();
    let (mut raw, mut typed, mut plain) =
        (Raw::set_up(&set_up), Typed::set_up(&set_up), Plain::set_up(&set_up));
    for _ in 0..SESSION {
        let call = random.call(&plain.manager);
        let want = raw.answer(&call);
        assert_eq!(
            plain.answer(&call),
            want,
            "the plain program's answer: {call:?} after {set_up:?}"
        );
        assert_eq!(typed.answer(&call), want, "the typed answer: {call:?} after {set_up:?}");
        assert!(flat(&plain.manager) == raw.0, "the plain program's tables after {call:?}");
        assert!(*typed.0.record() == raw.0, "the typed record after {call:?}");
        seen.calls += 1;
        seen.refused += usize::from(want.refused != 0);
        seen.actions += usize::from((1..=13).contains(&want.one.code));
        seen.fired += usize::from(want.one.code == 31 && want.one.first | want.one.second != 0);
    }
}

// ---- cards

/// Room for what the cards print, and more: the library's replay takes a card only where there is
/// room for the most that one can print.
pub fn room_for(input: &[u8]) -> usize {
    const MORE: usize = 1 << 20;
    let (mut session, mut out) = (Session::blank(), vec![0; MORE]);
    let lines = input.split_inclusive(|&byte| byte == b'\n');
    lines.map(|line| session.replay(line, &mut out)).sum::<usize>() + MORE
}

/// Compares what both sides print for the cards of the crates `replay` and `replay_tour` with the
/// lines that are kept there. Panics where they differ.
pub fn kept_cards() {
    for name in ["replay", "replay_tour"] {
        let read = |file| {
            let path = format!("{}/../crates/{name}/{file}", env!("CARGO_MANIFEST_DIR"));
            fs::read(&path).unwrap_or_else(|error| panic!("{path}: {error}"))
        };
        let input = read("stdin");
        let mut out = vec![0; room_for(&input)];
        assert!(printed_alike(&input, &mut out, name) == read("stdout"), "the lines of {name}");
    }
}

/// Compares what both sides print for that many short inputs with odd lines and bytes. Panics where
/// they differ; answers how many bytes they printed.
pub fn random_cards(count: u64) -> usize {
    (0..count)
        .map(|seed| {
            let input = cards::odd_input(seed);
            let mut out = vec![0; room_for(&input)];
            printed_alike(&input, &mut out, &format!("input {seed}")).len()
        })
        .sum()
}

/// What both sides print, left in `out`; each writes no more than that.
pub fn printed_alike<'a>(input: &[u8], out: &'a mut [u8], what: &str) -> &'a [u8] {
    let written = replay::replay(input, out);
    let plain = out[..written].to_vec();
    out.fill(b'*');
    let written = stream::replay(input, out);
    let (ours, behind) = out.split_at(written);
    if let Some(i) = ours.iter().zip(&plain).position(|(a, b)| a != b) {
        let line =
            |text: &[u8]| text.chunks(LINE).nth(i / LINE).unwrap().escape_ascii().to_string();
        panic!("{what}, line {}: ours {}, plain {}", i / LINE, line(ours), line(&plain));
    }
    assert_eq!(written, plain.len(), "{what}: how many bytes are printed");
    assert!(behind.iter().all(|&byte| byte == b'*'), "{what}: what is behind them");
    ours
}

// ---- the plain program's tables as the library's record

fn flat(m: &Manager) -> ManagerC {
    let (drifting, quotient) = match m.clock {
        Clock::True => (0, 1.0),
        Clock::Drifting(quotient) => (1, quotient),
    };
    ManagerC {
        me: m.me,
        population: m.population,
        expire_timeout: m.expire_timeout,
        now: m.now,
        active_num: m.active_num,
        quotient,
        quiet_until: m.quiet_until.unwrap_or(0),
        drifting,
        quiet: m.quiet_until.is_some().into(),
        peers: m.rows.map(|row| flat_row(&row)),
    }
}

fn flat_row(row: &Row) -> PeerC {
    let (promise_sent, promise_sent_at) = flat_timer(row.promise_sent.map(|grant| grant.timer));
    let (guard_held, guard_held_at) = flat_timer(row.guard_held);
    let (promise_held, promise_held_at) = flat_timer(row.promise_held);
    PeerC {
        guard_sent: row.guard_sent.into(),
        promise_sent,
        guard_held,
        promise_held,
        revoking: row.promise_sent.is_some_and(|grant| grant.revoking).into(),
        refresh_mark: row.refresh_mark.into(),
        guard_sent_at: 0,
        promise_sent_at,
        guard_held_at,
        promise_held_at,
    }
}

fn flat_timer(timer: Option<Timer>) -> (u8, u64) {
    match timer {
        None => (0, 0),
        Some(Timer::Unarmed) => (1, 0),
        Some(Timer::Armed(deadline)) => (2, deadline),
        Some(Timer::Exploded) => (3, 0),
    }
}

// ---- random calls

impl Random {
    pub fn one_in(&mut self, n: u64) -> bool {
        self.below(n) == 0
    }

    fn set_up(&mut self) -> SetUp {
        let population = [1, 2, 3, 5, 5, 17, 64, 64][self.below(8) as usize];
        let t = 100_000_000 + self.below(9_900_000_001);
        SetUp {
            me: self.below(population as u64) as usize,
            population,
            t,
            heartbeat: self.below(t.div_ceil(2)),
            now: self.below(1 << 62),
        }
    }

    fn call(&mut self, m: &Manager) -> Call {
        match self.below(40) {
            0..6 => Call::Advance(self.reading(m)),
            6 if self.one_in(4) => Call::Quiet,
            6 => Call::GrantSet,
            7..9 => Call::Refresh(self.set(m)),
            9 if self.one_in(4) => Call::Drift(self.drift()),
            9 => Call::LeaseCnt,
            10 => Call::LeaseSet,
            11 => Call::TimeLeft(self.peer(m)),
            _ => Call::Notice(self.num(m), self.notice(m)),
        }
    }

    /// Mostly a little later; now and then a deadline or just before it, much later, or refused.
    fn reading(&mut self, m: &Manager) -> Reading {
        let deadline = m.rows[self.below(m.population as u64) as usize].promise_held;
        let edge = m.quiet_until.map(Timer::Armed).filter(|_| self.one_in(2)).or(deadline);
        Reading(match (self.below(30), edge) {
            (0, _) => m.now.wrapping_sub(1),
            (1, _) => self.any(),
            (2..5, _) => m.now + self.below(3 * m.expire_timeout),
            (5..10, Some(Timer::Armed(deadline))) => deadline - self.below(2),
            _ => m.now + self.below(m.expire_timeout / 8),
        })
    }

    fn drift(&mut self) -> DriftSetting {
        if self.one_in(3) { DriftSetting::True } else { DriftSetting::Drifting(self.any() as i8) }
    }

    /// Mostly the active number.
    fn num(&mut self, m: &Manager) -> LeaseNum {
        LeaseNum(match self.below(64) {
            0..3 => m.active_num.saturating_sub(1),
            3 => m.active_num + 1 + self.below(3),
            _ => m.active_num,
        })
    }

    /// Few of the peers, so that calls meet; now and then one that is refused.
    fn peer(&mut self, m: &Manager) -> usize {
        let few = (m.population as u64).min(6);
        match self.below(24) {
            0 => m.population + self.below(300) as usize,
            1..6 => self.below(m.population as u64) as usize,
            _ => self.below(few) as usize,
        }
    }

    fn set(&mut self, m: &Manager) -> Option<Bitmap> {
        match self.below(12) {
            0..6 => None,
            6 => Some(Bitmap::from_bits(self.below(300) as usize, self.any())),
            _ => Some(Bitmap::from_bits(m.population, self.any())),
        }
    }

    fn bar(&mut self) -> Option<Bar> {
        let bar = Bar(self.any());
        self.one_in(2).then_some(bar)
    }

    fn notice(&mut self, m: &Manager) -> LeaseNotice {
        match self.below(40) {
            0..5 => LeaseNotice::NewGrants { peers: self.set(m), accept_bar: self.bar() },
            5 => LeaseNotice::DoRevoke { peers: self.set(m) },
            6 if self.one_in(3) => LeaseNotice::ClearHeld,
            6..10 => LeaseNotice::GrantTimeout { peer: self.peer(m) },
            10..14 => LeaseNotice::LeaseTimeout { peer: self.peer(m) },
            _ => LeaseNotice::RecvLeaseMsg { peer: self.peer(m), msg: self.msg() },
        }
    }

    fn msg(&mut self) -> LeaseMsg {
        match self.below(16) {
            0..3 => LeaseMsg::Guard { accept_bar: self.bar() },
            3..7 => LeaseMsg::GuardReply,
            7..11 => LeaseMsg::Promise,
            11..14 => LeaseMsg::PromiseReply { held: !self.one_in(6) },
            14 => LeaseMsg::Revoke,
            _ => LeaseMsg::RevokeReply { held: self.one_in(2) },
        }
    }
}
