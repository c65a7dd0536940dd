//! Lists of calls drawn at random: a set-up, then calls that are chosen by the record as it stands,
//! so that they meet deadlines, peers that have something in their rows, and numbers around the
//! active one.
mod notices;
mod readings;
mod refused;
mod sets;
mod setup;

use crate::call::{Call, SetUp};
use crate::random::Random;
use biasflint::raw::ManagerC;

/// How near to a deadline a reading may be.
#[derive(Clone, Copy, PartialEq)]
pub enum Mode {
    /// 2 ms before or after.
    Wide,
    /// 1 ns before, 1 ms after.
    Near,
    /// On it; all times are whole ms after the start.
    Whole,
}

/// How large a session may be: its population, and its calls beside the set-up.
#[derive(Clone, Copy)]
pub struct Limits {
    pub population: u64,
    pub length: u64,
}

impl Limits {
    /// Every population (rule 1.1).
    pub const ALL: Limits = Limits { population: 64, length: 400 };
    /// Few ids, so that the record is short to print.
    pub const FEW: Limits = Limits { population: 5, length: 60 };
}

/// What the next call is.
#[derive(Clone, Copy, PartialEq)]
enum Kind {
    Advance,
    NewGrants,
    DoRevoke,
    ClearHeld,
    Guard,
    GuardReply,
    Promise,
    PromiseReply,
    Revoke,
    RevokeReply,
    GrantTimeout,
    LeaseTimeout,
    Quiet,
    Refresh,
    Drift,
    GrantSet,
    LeaseSet,
    LeaseCnt,
    TimeLeft,
    Refused,
}

/// Each kind with its usual weight.
const KINDS: [(Kind, u64); 20] = [
    (Kind::Advance, 60),
    (Kind::NewGrants, 18),
    (Kind::DoRevoke, 9),
    (Kind::ClearHeld, 2),
    (Kind::Guard, 22),
    (Kind::GuardReply, 24),
    (Kind::Promise, 24),
    (Kind::PromiseReply, 28),
    (Kind::Revoke, 9),
    (Kind::RevokeReply, 7),
    (Kind::GrantTimeout, 9),
    (Kind::LeaseTimeout, 9),
    (Kind::Quiet, 3),
    (Kind::Refresh, 18),
    (Kind::Drift, 5),
    (Kind::GrantSet, 7),
    (Kind::LeaseSet, 9),
    (Kind::LeaseCnt, 5),
    (Kind::TimeLeft, 7),
    (Kind::Refused, 8),
];

/// How one session goes: the weights of its kinds; how often in a thousand a number is old or
/// higher, and a reading is drawn around a deadline; and the longest usual step of the clock, as a
/// part of T.
struct Temper {
    weights: [u64; 20],
    total: u64,
    old: u64,
    higher: u64,
    aimed: u64,
    pace: u64,
}

pub struct Generator {
    random: Random,
    mode: Mode,
    limits: Limits,
    temper: Temper,
    /// The present session's start, and the drift settings that it may have.
    start: u64,
    settings: Vec<i8>,
}

impl Temper {
    // Each weight is the usual one, up to 16 times: so a session has some kinds rarely and others
    // often.
    fn new(random: &mut Random) -> Temper {
        let weights = KINDS.map(|(_, usual)| usual * random.between(1, 16));
        Temper {
            weights,
            total: weights.iter().sum(),
            old: random.pick(&[0, 20, 60, 150]),
            higher: random.pick(&[0, 2, 5, 15, 40]),
            aimed: random.pick(&[100, 250, 450]),
            pace: random.pick(&[3, 10, 30, 100]),
        }
    }

    fn kind(&self, random: &mut Random) -> Kind {
        let mut rest = random.below(self.total);
        for (i, weight) in self.weights.iter().enumerate() {
            if rest < *weight {
                return KINDS[i].0;
            }
            rest -= weight;
        }
        Kind::Advance
    }
}

impl Generator {
    pub fn new(seed: u64, mode: Mode, limits: Limits) -> Generator {
        let mut random = Random::new(seed);
        let temper = Temper::new(&mut random);
        Generator { random, mode, limits, temper, start: 0, settings: Vec::new() }
    }

    /// How many calls the next session has beside its set-up.
    pub fn length(&mut self) -> u64 {
        let length = match self.random.below(10) {
            0..4 => self.random.between(5, 40),
            4..8 => self.random.between(40, 150),
            _ => self.random.between(150, 400),
        };
        length.min(self.limits.length)
    }

    /// The set-up of a new session.
    pub fn set_up(&mut self) -> SetUp {
        self.temper = Temper::new(&mut self.random);
        let s = setup::accepted(&mut self.random, self.mode, self.limits);
        self.start = s.start;
        self.settings = setup::settings(self.mode, s.expire_timeout);
        s
    }

    /// At times a set-up that the Rust refuses too: 1 or 2.
    pub fn refused_set_up(&mut self) -> Option<SetUp> {
        if !self.random.chance(60) {
            return None;
        }
        let s = setup::accepted(&mut self.random, self.mode, self.limits);
        Some(setup::refused_by_both(&mut self.random, s))
    }

    // A kind; another is drawn, mostly, where no row is there for the first.
    fn kind(&mut self, m: &ManagerC) -> Kind {
        let kind = self.temper.kind(&mut self.random);
        if kind.finds_a_row(m) || self.random.chance(150) {
            return kind;
        }
        self.temper.kind(&mut self.random)
    }

    /// The next call of the session.
    pub fn next(&mut self, m: &ManagerC) -> Call {
        let kind = self.kind(m);
        match kind {
            Kind::Advance => Call::Advance(self.reading(m)),
            Kind::Quiet => Call::Quiet,
            Kind::Refresh => Call::Refresh(self.refresh_set(m)),
            Kind::Drift => self.drift(),
            Kind::GrantSet => Call::GrantSet,
            Kind::LeaseSet => Call::LeaseSet,
            Kind::LeaseCnt => Call::LeaseCnt,
            Kind::Refused => self.refused(m),
            _ => self.about_peers(kind, m),
        }
    }

    fn drift(&mut self) -> Call {
        let beside = self.random.chance(300);
        if self.random.chance(150) {
            return Call::Drift(None, beside);
        }
        if self.random.chance(100) && self.settings.contains(&0) {
            return Call::Drift(Some(0), beside);
        }
        Call::Drift(Some(self.random.pick(&self.settings)), beside)
    }
}
