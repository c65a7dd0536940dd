//! A line of the oracle's protocol, read. What the oracle takes is taken; ids may be wider than a
//! byte, and a set may have ids at or above its size.
//!
//! Two things cannot be said to the library: on a card size 0 is no set, so that `0:` in a call on
//! a manager is `bad` as with the oracle; and a set is 64 bits, so that ids above 63 are left out
//! (they are above any size that is not refused).
use crate::call::{Call, Ids, Msg, Notice, PeerSet, SetUp};
use crate::leaves::SetCall;

pub enum Line<'a> {
    Blank,
    Comment(&'a str),
    /// State after every answer, or not.
    Verbose(bool),
    Drifted(u64, Option<i8>),
    Sets(SetCall),
    State,
    /// The order in which the timers of the last advance fired.
    Order,
    Call(Call),
    /// No line of the protocol: a set-up, a line of the leaves, or any other.
    BadSetUp,
    BadLeaf,
    Bad,
}

struct Words<'a>(Vec<&'a str>);

impl<'a> Words<'a> {
    fn word(&self, i: usize) -> Option<&'a str> {
        self.0.get(i).copied()
    }

    fn read<T: std::str::FromStr>(&self, i: usize) -> Option<T> {
        self.word(i)?.parse().ok()
    }

    fn flag(&self, i: usize) -> Option<bool> {
        match self.word(i)? {
            "0" => Some(false),
            "1" => Some(true),
            _ => None,
        }
    }

    // A byte that is a flag where it is not 0, as the oracle reads it for sets.
    fn byte_flag(&self, i: usize) -> Option<bool> {
        Some(self.read::<u8>(i)? != 0)
    }

    // `-` is none.
    fn optional<T: std::str::FromStr>(&self, i: usize) -> Option<Option<T>> {
        if self.word(i)? == "-" { Some(None) } else { self.read(i).map(Some) }
    }

    fn ids(&self, i: usize) -> Option<Ids> {
        set(self.word(i)?)
    }

    fn byte_sized(&self, i: usize) -> Option<Ids> {
        self.ids(i).filter(|set| set.size <= 255)
    }

    fn peers(&self, i: usize) -> Option<PeerSet> {
        if self.word(i)? == "-" {
            return Some(None);
        }
        self.ids(i).filter(|set| set.size > 0).map(Some)
    }
}

/// `size:id,id,..`.
pub fn set(word: &str) -> Option<Ids> {
    let (size, rest) = word.split_once(':')?;
    Some(Ids { size: size.parse().ok()?, bits: bits(rest)? })
}

/// `id,id,..`.
pub fn bits(list: &str) -> Option<u64> {
    let mut bits = 0;
    for id in list.split(',').filter(|id| !id.is_empty()) {
        let id: u64 = id.parse().ok()?;
        bits |= if id < 64 { 1 << id } else { 0 };
    }
    Some(bits)
}

fn setup(w: &Words) -> Option<Call> {
    if w.0.len() != 6 {
        return None;
    }
    Some(Call::SetUp(SetUp {
        start: w.read(1)?,
        me: w.read(2)?,
        population: w.read(3)?,
        expire_timeout: w.read(4)?,
        heartbeat: w.read(5)?,
    }))
}

fn notice(w: &Words) -> Option<Call> {
    let message = |msg| Some(Notice::Message(w.read(2)?, msg));
    let notice = match w.word(0)? {
        "N" => Some(Notice::NewGrants(w.peers(2)?, w.optional(3)?)),
        "D" => Some(Notice::DoRevoke(w.peers(2)?)),
        "C" => Some(Notice::ClearHeld),
        "G" => message(Msg::Guard(w.optional(3)?)),
        "g" => message(Msg::GuardReply),
        "P" => message(Msg::Promise),
        "p" => message(Msg::PromiseReply(w.flag(3)?)),
        "R" => message(Msg::Revoke),
        "r" => message(Msg::RevokeReply(w.flag(3)?)),
        "X" => Some(Notice::GrantTimeout(w.read(2)?)),
        "Y" => Some(Notice::LeaseTimeout(w.read(2)?)),
        _ => None,
    };
    Some(Call::Notice(w.read(1)?, notice?))
}

fn call(w: &Words) -> Option<Call> {
    match w.word(0)? {
        "A" => Some(Call::Advance(w.read(1)?)),
        "Q" => Some(Call::Quiet),
        "F" => Some(Call::Refresh(w.peers(1)?)),
        "K" => Some(Call::Drift(w.optional(1)?, false)),
        "k" => Some(Call::Drift(w.optional(1)?, true)),
        "S" => Some(Call::GrantSet),
        "L" => Some(Call::LeaseSet),
        "M" => Some(Call::LeaseCnt),
        "T" => Some(Call::TimeLeft(w.read(1)?)),
        _ => notice(w),
    }
}

fn list(w: &Words) -> Option<Vec<u8>> {
    let ids = w.word(3).unwrap_or("").split(',').filter(|id| !id.is_empty());
    ids.map(|id| id.parse().ok()).collect()
}

fn sets(w: &Words) -> Option<SetCall> {
    Some(match w.word(1)? {
        "new" => SetCall::New { size: w.read(2)?, ones: w.byte_flag(3)? },
        "range" => SetCall::Range { size: w.read(2)?, start: w.read(3)?, end: w.read(4)? },
        "list" => SetCall::List { size: w.read(2)?, ids: list(w)? },
        "set" => SetCall::Set { set: w.byte_sized(2)?, id: w.read(3)?, flag: w.byte_flag(4)? },
        "get" => SetCall::Get { set: w.byte_sized(2)?, id: w.read(3)? },
        "size" => SetCall::Size(w.byte_sized(2)?),
        "count" => SetCall::Count(w.byte_sized(2)?),
        "flip" => SetCall::Flip(w.byte_sized(2)?),
        "clear" => SetCall::Clear(w.byte_sized(2)?),
        "union" => SetCall::Union(w.byte_sized(2)?, w.byte_sized(3)?),
        "super" => SetCall::Superset(w.byte_sized(2)?, w.byte_sized(3)?),
        "ones" => SetCall::Ones(w.byte_sized(2)?),
        _ => return None,
    })
}

fn drifted(w: &Words) -> Option<(u64, Option<i8>)> {
    Some((w.read(1)?, w.optional(2)?))
}

pub fn line(text: &str) -> Line<'_> {
    let w = Words(text.split_whitespace().collect());
    match w.word(0) {
        None => Line::Blank,
        Some(word) if word.starts_with('#') => Line::Comment(text),
        Some("V") => Line::Verbose(w.word(1) == Some("1")),
        Some("W" | "w") => drifted(&w).map_or(Line::BadLeaf, |(ns, d)| Line::Drifted(ns, d)),
        Some("b") => sets(&w).map_or(Line::BadLeaf, Line::Sets),
        Some("U") => setup(&w).map_or(Line::BadSetUp, Line::Call),
        Some("Z") => Line::State,
        Some("O") => Line::Order,
        Some(_) => call(&w).map_or(Line::Bad, Line::Call),
    }
}
