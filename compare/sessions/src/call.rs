//! A call: as a line of the oracle's protocol, and as the card that the library takes.
use crate::text;
use biasflint::raw::CallC;

/// The largest clock reading.
pub const LARGEST_READING: u64 = i64::MAX as u64;

pub const MS: u64 = 1_000_000;

/// A set of ids as it is written, id i as 2^i. Ones at or above the size may be there.
#[derive(Clone, Copy, Debug, PartialEq)]
pub struct Ids {
    pub size: u64,
    pub bits: u64,
}

/// No set means all peers.
pub type PeerSet = Option<Ids>;

#[derive(Clone, Copy, Debug, PartialEq)]
pub struct SetUp {
    pub start: u64,
    pub me: u64,
    pub population: u64,
    pub expire_timeout: u64,
    pub heartbeat: u64,
}

#[derive(Clone, Copy, Debug, PartialEq)]
pub enum Msg {
    Guard(Option<u64>),
    GuardReply,
    Promise,
    PromiseReply(bool),
    Revoke,
    RevokeReply(bool),
}

#[derive(Clone, Copy, Debug, PartialEq)]
pub enum Notice {
    NewGrants(PeerSet, Option<u64>),
    DoRevoke(PeerSet),
    ClearHeld,
    Message(u64, Msg),
    GrantTimeout(u64),
    LeaseTimeout(u64),
}

#[derive(Clone, Copy, Debug, PartialEq)]
pub enum Call {
    SetUp(SetUp),
    Advance(u64),
    Notice(u64, Notice),
    Quiet,
    Refresh(PeerSet),
    /// No setting is a true clock. The flag asks the oracle to set another fault beside.
    Drift(Option<i8>, bool),
    GrantSet,
    LeaseSet,
    LeaseCnt,
    TimeLeft(u64),
}

impl Msg {
    fn letter(&self) -> u8 {
        match self {
            Msg::Guard(_) => b'G',
            Msg::GuardReply => b'g',
            Msg::Promise => b'P',
            Msg::PromiseReply(_) => b'p',
            Msg::Revoke => b'R',
            Msg::RevokeReply(_) => b'r',
        }
    }
}

impl Notice {
    fn letter(&self) -> u8 {
        match self {
            Notice::NewGrants(..) => b'N',
            Notice::DoRevoke(_) => b'D',
            Notice::ClearHeld => b'C',
            Notice::Message(_, msg) => msg.letter(),
            Notice::GrantTimeout(_) => b'X',
            Notice::LeaseTimeout(_) => b'Y',
        }
    }

    /// The peer of a notice about one.
    pub fn peer(&self) -> Option<u64> {
        match *self {
            Notice::Message(peer, _) | Notice::GrantTimeout(peer) | Notice::LeaseTimeout(peer) => {
                Some(peer)
            }
            _ => None,
        }
    }
}

// ---- as a line of the protocol

fn set_word(out: &mut Vec<u8>, peers: PeerSet) {
    out.push(b' ');
    match peers {
        None => out.push(b'-'),
        Some(set) => text::set(out, set.size, set.bits),
    }
}

fn bar_word(out: &mut Vec<u8>, bar: Option<u64>) {
    match bar {
        None => text::words(out, " -"),
        Some(bar) => text::numbers(out, &[bar]),
    }
}

fn msg_words(out: &mut Vec<u8>, peer: u64, msg: Msg) {
    text::numbers(out, &[peer]);
    match msg {
        Msg::Guard(bar) => bar_word(out, bar),
        Msg::PromiseReply(held) | Msg::RevokeReply(held) => {
            text::numbers(out, &[u64::from(held)]);
        }
        Msg::GuardReply | Msg::Promise | Msg::Revoke => {}
    }
}

fn notice_words(out: &mut Vec<u8>, num: u64, notice: Notice) {
    text::numbers(out, &[num]);
    match notice {
        Notice::NewGrants(peers, bar) => {
            set_word(out, peers);
            bar_word(out, bar);
        }
        Notice::DoRevoke(peers) => set_word(out, peers),
        Notice::ClearHeld => {}
        Notice::Message(peer, msg) => msg_words(out, peer, msg),
        Notice::GrantTimeout(peer) | Notice::LeaseTimeout(peer) => text::numbers(out, &[peer]),
    }
}

fn drift_word(out: &mut Vec<u8>, setting: Option<i8>) {
    out.push(b' ');
    match setting {
        None => out.push(b'-'),
        Some(d) => {
            if d < 0 {
                out.push(b'-');
            }
            text::number(out, u64::from(d.unsigned_abs()));
        }
    }
}

impl Call {
    /// The letter that a line of this call starts with.
    pub fn letter(&self) -> u8 {
        match self {
            Call::SetUp(_) => b'U',
            Call::Advance(_) => b'A',
            Call::Notice(_, notice) => notice.letter(),
            Call::Quiet => b'Q',
            Call::Refresh(_) => b'F',
            Call::Drift(_, false) => b'K',
            Call::Drift(_, true) => b'k',
            Call::GrantSet => b'S',
            Call::LeaseSet => b'L',
            Call::LeaseCnt => b'M',
            Call::TimeLeft(_) => b'T',
        }
    }

    /// The line, without its newline.
    pub fn line(&self, out: &mut Vec<u8>) {
        out.push(self.letter());
        match *self {
            Call::SetUp(s) => {
                let all = [s.start, s.me, s.population, s.expire_timeout, s.heartbeat];
                text::numbers(out, &all);
            }
            Call::Advance(reading) => text::numbers(out, &[reading]),
            Call::Notice(num, notice) => notice_words(out, num, notice),
            Call::Refresh(peers) => set_word(out, peers),
            Call::Drift(setting, _) => drift_word(out, setting),
            Call::TimeLeft(peer) => text::numbers(out, &[peer]),
            Call::Quiet | Call::GrantSet | Call::LeaseSet | Call::LeaseCnt => {}
        }
    }
}

// ---- as a card: codes and fields are those of rule 13.2

fn set_card(code: u64, number: u64, peers: PeerSet) -> CallC {
    let set = peers.unwrap_or(Ids { size: 0, bits: 0 });
    CallC { code, number, size: set.size, first: set.bits, ..CallC::default() }
}

fn msg_card(number: u64, peer: u64, msg: Msg) -> CallC {
    let (size, first) = match msg {
        Msg::Guard(None) => (1, 0),
        Msg::Guard(Some(bar)) => (2, bar),
        Msg::GuardReply => (3, 0),
        Msg::Promise => (4, 0),
        Msg::PromiseReply(held) => (5, u64::from(held)),
        Msg::Revoke => (6, 0),
        Msg::RevokeReply(held) => (7, u64::from(held)),
    };
    CallC { code: 6, number, peer, size, first, second: 0 }
}

fn notice_card(number: u64, notice: Notice) -> CallC {
    match notice {
        Notice::NewGrants(peers, bar) => CallC {
            peer: u64::from(bar.is_some()),
            second: bar.unwrap_or(0),
            ..set_card(3, number, peers)
        },
        Notice::DoRevoke(peers) => set_card(4, number, peers),
        Notice::ClearHeld => CallC { code: 5, number, ..CallC::default() },
        Notice::Message(peer, msg) => msg_card(number, peer, msg),
        Notice::GrantTimeout(peer) => CallC { code: 7, number, peer, ..CallC::default() },
        Notice::LeaseTimeout(peer) => CallC { code: 8, number, peer, ..CallC::default() },
    }
}

fn setup_card(s: SetUp) -> CallC {
    CallC {
        code: 1,
        number: s.start,
        peer: s.me,
        size: s.population,
        first: s.expire_timeout,
        second: s.heartbeat,
    }
}

fn drift_card(setting: Option<i8>) -> CallC {
    let first = setting.map_or(0, |d| (i16::from(d) + 128) as u64);
    CallC { code: 11, size: u64::from(setting.is_some()), first, ..CallC::default() }
}

impl Call {
    pub fn card(&self) -> CallC {
        let plain = |code| CallC { code, ..CallC::default() };
        match *self {
            Call::SetUp(s) => setup_card(s),
            Call::Advance(reading) => CallC { number: reading, ..plain(2) },
            Call::Notice(num, notice) => notice_card(num, notice),
            Call::Quiet => plain(9),
            Call::Refresh(peers) => set_card(10, 0, peers),
            Call::Drift(setting, _) => drift_card(setting),
            Call::GrantSet => plain(12),
            Call::LeaseSet => plain(13),
            Call::LeaseCnt => plain(14),
            Call::TimeLeft(peer) => CallC { peer, ..plain(15) },
        }
    }
}
