//! What was met on the way: the cases of the rules, told from the record before and after a call.
use crate::call::{Call, Ids, LARGEST_READING, MS, Msg, Notice, PeerSet};
use crate::fired::{self, Timer};
use crate::state::{ARMED, EXPLODED, deadlines, rows};
use biasflint::raw::{AnswerC, ManagerC, PeerC};

macro_rules! events {
    ($($name:ident $words:literal,)*) => {
        #[derive(Clone, Copy)]
        pub enum Event {
            $($name,)*
        }
        /// Each event in words.
        pub const WORDS: &[&str] = &[$($words,)*];
    };
}

events! {
    Outdated "old number: nothing",
    OutdatedRevoke "old Revoke answered, nothing held from the peer",
    OutdatedRevokeHeld "old Revoke answered, a guard or promise from the peer still held",
    Higher "higher number, tables empty before",
    HigherClears "higher number empties tables",
    HigherMarked "higher number, marks stay",
    HighestNumber "the number is the largest u64",
    GrantsNone "NewGrants: Guard to no peer",
    GrantsNew "NewGrants: a guard for a peer that has none",
    GrantsFresh "NewGrants: a fresh guard over a sent one",
    GrantsSkipPromise "NewGrants: a peer with a promise sent is skipped",
    GrantsSkipExploded "NewGrants: a peer with an exploded promise is skipped",
    GrantsOwn "NewGrants: the set names the own id",
    RevokeGuards "DoRevoke: a sent guard is dropped",
    RevokePromises "DoRevoke: a sent promise is marked",
    RevokeAgain "DoRevoke: a revoking promise is marked again",
    RevokeExploded "DoRevoke: an exploded promise is marked",
    RevokeNobody "DoRevoke: no broadcast",
    ClearSome "ClearHeld: something was held",
    ClearNone "ClearHeld: nothing was held",
    GuardNew "Guard: none held before",
    GuardAgain "Guard: replaces an armed guard",
    GuardExploded "Guard: replaces an exploded guard",
    GuardPromised "Guard: nothing, a promise is held",
    GuardPromisedExploded "Guard: nothing, an exploded promise is held",
    ReplyGuard "GuardReply: becomes a promise",
    ReplyNone "GuardReply: no sent guard",
    PromiseOnGuard "Promise on an armed guard",
    PromiseOnExploded "Promise on an exploded guard",
    PromiseAgain "Promise on an armed promise",
    PromiseAgainExploded "Promise on an exploded promise",
    PromiseNone "Promise: held false",
    ReplyTrue "PromiseReply true: kicked off, marked",
    ReplyTrueShorter "PromiseReply true: the deadline becomes earlier",
    ReplyTrueMarked "PromiseReply true: marked already",
    ReplyTrueExploded "PromiseReply true: exploded, nothing",
    ReplyTrueRevoking "PromiseReply true: revoking, nothing",
    ReplyFalse "PromiseReply false: removed",
    ReplyFalseRevoking "PromiseReply false: a revoking one removed",
    ReplyFalseMarked "PromiseReply false: removed, the mark stays",
    ReplyNoPromise "PromiseReply: no sent promise",
    RevokeGuardHeld "Revoke: a held guard is dropped",
    RevokePromiseHeld "Revoke: a held promise is dropped",
    RevokeNoneHeld "Revoke: nothing held",
    RevokedGuard "RevokeReply: a sent guard is dropped",
    RevokedPromise "RevokeReply: a sent promise is dropped",
    RevokedNone "RevokeReply: reported with nothing there",
    GrantExploded "GrantTimeout: an exploded promise is dropped",
    GrantEarly "GrantTimeout: nothing, the promise is not exploded",
    GrantUnarmed "GrantTimeout: nothing, the guard is unarmed",
    GrantDoubled "GrantTimeout: reported with nothing there",
    LeaseExploded "LeaseTimeout: an exploded guard or promise is dropped",
    LeaseEarly "LeaseTimeout: nothing, not exploded",
    LeaseDoubled "LeaseTimeout: reported with nothing there",
    SameReading "advance: to the same reading",
    LargestReading "advance: to the largest reading",
    Fires "advance: something fires",
    FiresNothing "advance: nothing fires",
    FiresSent "explosion of a sent promise",
    FiresRevoking "explosion of a revoking promise",
    FiresGuard "explosion of a held guard",
    FiresPromise "explosion of a held promise",
    FiresMany "advance: more than two explosions",
    OrderDeadlines "fired timers: one behind another by its deadline alone",
    OrderSides "fired timers: sent before held at equal deadlines",
    OrderIds "fired timers: by id at equal deadlines of one side",
    QuietEnds "quiet time ends",
    QuietEndsFires "quiet time ends together with explosions",
    TwoBefore "reading exactly 2 ms before a deadline",
    TwoAfter "reading exactly 2 ms after a deadline",
    NsBefore "reading 1 ns before a deadline",
    MsBefore "reading 1 ms before a deadline",
    OnDeadline "reading on a deadline",
    MsAfter "reading 1 ms after a deadline",
    QuietNew "quiet start",
    QuietLater "quiet start replaces one, later",
    QuietEarlier "quiet start replaces one, earlier or equal",
    RefreshExtends "refresh: extended by T",
    RefreshRevoking "refresh: a revoking peer loses its mark",
    RefreshExploded "refresh: an exploded promise loses its mark",
    RefreshNoPromise "refresh: a mark without a promise stays",
    RefreshNotNamed "refresh: a mark stays, the set does not name it",
    RefreshShortSet "refresh: a mark stays, the set is too short for it",
    RefreshNoMarks "refresh: no marks",
    RefreshFirst "refresh: past 2T drifted, by a mark that outlived its grant",
    RefreshFarthest "refresh: to exactly 3,000 s past now",
    DriftTrue "drift: true",
    DriftZero "drift: 0",
    DriftSlow "drift: below 0",
    DriftFast "drift: above 0",
    GrantsQuiet "grant_set in quiet time",
    GrantsOutside "grant_set outside quiet time",
    GrantsRevoking "grant_set with a revoking or exploded promise",
    LeasesActive "lease_set with active promises",
    LeasesExploded "lease_set leaves out an exploded promise",
    LeftNone "time left: none",
    LeftZero "time left: 0, run out",
    LeftPart "time left: 1, less than 1 ms",
    LeftWhole "time left: whole ms",
    LeftUp "time left: above 1 ms, rounded up",
    PastLargest "a deadline past the largest reading",
}

/// How often each event was met.
pub struct Counts(pub [u64; WORDS.len()]);

fn held_exploded(p: &PeerC) -> bool {
    p.guard_held == EXPLODED || p.promise_held == EXPLODED
}

fn is_held(p: &PeerC) -> bool {
    p.guard_held > 0 || p.promise_held > 0
}

fn is_sent(p: &PeerC) -> bool {
    p.guard_sent > 0 || p.promise_sent > 0
}

fn has(peers: PeerSet, id: usize) -> bool {
    peers.is_none_or(|set| (id as u64) < set.size && set.bits >> id & 1 == 1)
}

impl Default for Counts {
    fn default() -> Counts {
        Counts([0; WORDS.len()])
    }
}

impl Counts {
    fn met(&mut self, event: Event) {
        self.0[event as usize] += 1;
    }

    fn met_if(&mut self, event: Event, seen: bool) {
        self.0[event as usize] += u64::from(seen);
    }

    /// A call that was accepted: the record before it and after it.
    pub fn observe(&mut self, b: &ManagerC, a: &ManagerC, call: &Call, answer: &AnswerC) {
        match call {
            Call::SetUp(_) | Call::LeaseCnt => {}
            Call::Advance(reading) => {
                self.advance(b, a, *reading);
                self.order(&fired::by_record(b, answer.one.first, answer.one.second));
            }
            Call::Notice(num, notice) => self.notice(b, a, *num, notice),
            Call::Quiet => self.quiet(b, a),
            Call::Refresh(peers) => self.refresh(b, a, *peers),
            Call::Drift(setting, _) => self.met(match setting {
                None => Event::DriftTrue,
                Some(0) => Event::DriftZero,
                Some(d) if *d < 0 => Event::DriftSlow,
                Some(_) => Event::DriftFast,
            }),
            Call::GrantSet => self.grant_set(b),
            Call::LeaseSet => self.lease_set(b),
            Call::TimeLeft(peer) => self.time_left(b, &b.peers[*peer as usize]),
        }
    }

    fn notice(&mut self, b: &ManagerC, a: &ManagerC, num: u64, notice: &Notice) {
        if num < b.active_num {
            let row = notice.peer().map(|peer| &b.peers[peer as usize]);
            self.met(match (notice, row) {
                (Notice::Message(_, Msg::Revoke), Some(p)) if is_held(p) => {
                    Event::OutdatedRevokeHeld
                }
                (Notice::Message(_, Msg::Revoke), _) => Event::OutdatedRevoke,
                _ => Event::Outdated,
            });
        } else if num > b.active_num {
            let full = rows(b).iter().any(|p| is_sent(p) || is_held(p));
            self.met(if full { Event::HigherClears } else { Event::Higher });
            self.met_if(Event::HigherMarked, rows(b).iter().any(|p| p.refresh_mark > 0));
            self.met_if(Event::HighestNumber, num == u64::MAX);
        } else {
            self.handled(b, a, notice);
        }
    }

    // A notice under the active number.
    fn handled(&mut self, b: &ManagerC, a: &ManagerC, notice: &Notice) {
        let row = |peer: u64| (&b.peers[peer as usize], &a.peers[peer as usize]);
        match *notice {
            Notice::NewGrants(peers, _) => self.new_grants(b, a, peers),
            Notice::DoRevoke(peers) => self.do_revoke(b, peers),
            Notice::ClearHeld => {
                let some = rows(b).iter().any(is_held);
                self.met(if some { Event::ClearSome } else { Event::ClearNone });
            }
            Notice::Message(peer, msg) => self.message(row(peer).0, row(peer).1, msg),
            Notice::GrantTimeout(peer) => self.met(grant_timeout(row(peer).0)),
            Notice::LeaseTimeout(peer) => self.met(lease_timeout(row(peer).0)),
        }
    }

    fn new_grants(&mut self, b: &ManagerC, a: &ManagerC, peers: PeerSet) {
        self.met_if(Event::GrantsNone, rows(a).iter().all(|p| p.guard_sent == 0));
        let named = |(id, _): &(usize, &PeerC)| has(peers, *id);
        for (id, p) in rows(b).iter().enumerate().filter(named) {
            if id == b.me {
                self.met(Event::GrantsOwn);
            } else if p.promise_sent == EXPLODED {
                self.met(Event::GrantsSkipExploded);
            } else if p.promise_sent > 0 {
                self.met(Event::GrantsSkipPromise);
            } else if p.guard_sent > 0 {
                self.met(Event::GrantsFresh);
            } else {
                self.met(Event::GrantsNew);
            }
        }
    }

    fn do_revoke(&mut self, b: &ManagerC, peers: PeerSet) {
        let mut nobody = true;
        let named = |(id, _): &(usize, &PeerC)| has(peers, *id);
        for (_, p) in rows(b).iter().enumerate().filter(named) {
            self.met_if(Event::RevokeGuards, p.guard_sent > 0);
            if p.promise_sent == 0 {
                continue;
            }
            nobody = false;
            self.met_if(Event::RevokeExploded, p.promise_sent == EXPLODED);
            self.met(if p.revoking > 0 { Event::RevokeAgain } else { Event::RevokePromises });
        }
        self.met_if(Event::RevokeNobody, nobody);
    }

    fn message(&mut self, b: &PeerC, a: &PeerC, msg: Msg) {
        match msg {
            Msg::Guard(_) => self.met(guard(b)),
            Msg::GuardReply if b.guard_sent > 0 => self.met(Event::ReplyGuard),
            Msg::GuardReply => self.met(Event::ReplyNone),
            Msg::Promise => self.met(promise(b)),
            Msg::PromiseReply(held) => self.promise_reply(b, a, held),
            Msg::Revoke => {
                self.met_if(Event::RevokeGuardHeld, b.guard_held > 0);
                self.met_if(Event::RevokePromiseHeld, b.promise_held > 0);
                self.met_if(Event::RevokeNoneHeld, !is_held(b));
            }
            Msg::RevokeReply(_) => {
                self.met_if(Event::RevokedGuard, b.guard_sent > 0);
                self.met_if(Event::RevokedPromise, b.promise_sent > 0);
                self.met_if(Event::RevokedNone, !is_sent(b));
            }
        }
    }

    fn promise_reply(&mut self, b: &PeerC, a: &PeerC, held: bool) {
        if b.promise_sent == 0 {
            self.met(Event::ReplyNoPromise);
        } else if !held {
            self.met_if(Event::ReplyFalseMarked, a.refresh_mark > 0);
            self.met(if b.revoking > 0 { Event::ReplyFalseRevoking } else { Event::ReplyFalse });
        } else if b.promise_sent == EXPLODED {
            self.met(Event::ReplyTrueExploded);
        } else if b.revoking > 0 {
            self.met(Event::ReplyTrueRevoking);
        } else {
            self.met(Event::ReplyTrue);
            self.met_if(Event::ReplyTrueShorter, a.promise_sent_at < b.promise_sent_at);
            self.met_if(Event::ReplyTrueMarked, b.refresh_mark > 0);
        }
    }

    // Neighbours in the list: what puts the one before the other.
    fn order(&mut self, timers: &[Timer]) {
        for pair in timers.windows(2) {
            let ((d, x_held, x), (e, y_held, y)) = (pair[0], pair[1]);
            self.met_if(Event::OrderDeadlines, d < e && (x_held, x) > (y_held, y));
            self.met_if(Event::OrderSides, d == e && !x_held && y_held);
            self.met_if(Event::OrderIds, d == e && x_held == y_held);
        }
    }

    fn advance(&mut self, b: &ManagerC, a: &ManagerC, reading: u64) {
        self.met_if(Event::SameReading, reading == b.now);
        self.met_if(Event::LargestReading, reading == LARGEST_READING);
        let fired = self.explosions(b, a);
        let ended = b.quiet > 0 && a.quiet == 0;
        self.met(if fired > 0 { Event::Fires } else { Event::FiresNothing });
        self.met_if(Event::FiresMany, fired > 2);
        self.met_if(Event::QuietEnds, ended);
        self.met_if(Event::QuietEndsFires, ended && fired > 0);
        for at in deadlines(b) {
            self.met_if(Event::TwoBefore, reading + 2 * MS == at);
            self.met_if(Event::TwoAfter, reading == at + 2 * MS);
            self.met_if(Event::NsBefore, reading + 1 == at);
            self.met_if(Event::MsBefore, reading + MS == at);
            self.met_if(Event::OnDeadline, reading == at);
            self.met_if(Event::MsAfter, reading == at + MS);
            self.met_if(Event::PastLargest, at > LARGEST_READING);
        }
    }

    fn explosions(&mut self, b: &ManagerC, a: &ManagerC) -> u64 {
        let mut fired = 0;
        for (before, after) in rows(b).iter().zip(rows(a)) {
            let sent = before.promise_sent == ARMED && after.promise_sent == EXPLODED;
            let guard = before.guard_held == ARMED && after.guard_held == EXPLODED;
            let promise = before.promise_held == ARMED && after.promise_held == EXPLODED;
            self.met_if(Event::FiresSent, sent);
            self.met_if(Event::FiresRevoking, sent && before.revoking > 0);
            self.met_if(Event::FiresGuard, guard);
            self.met_if(Event::FiresPromise, promise);
            fired += u64::from(sent) + u64::from(guard) + u64::from(promise);
        }
        fired
    }

    fn quiet(&mut self, b: &ManagerC, a: &ManagerC) {
        self.met(if b.quiet == 0 {
            Event::QuietNew
        } else if a.quiet_until > b.quiet_until {
            Event::QuietLater
        } else {
            Event::QuietEarlier
        });
    }

    fn refresh(&mut self, b: &ManagerC, a: &ManagerC, peers: PeerSet) {
        let marked = rows(b).iter().zip(rows(a)).enumerate();
        let mut none = true;
        for (id, (before, after)) in marked.filter(|(_, (p, _))| p.refresh_mark > 0) {
            none = false;
            self.met(marked_peer(id, before, peers));
            let left = after.promise_sent_at.saturating_sub(b.now);
            let twice = 2.0 * b.expire_timeout as f64 * b.quotient;
            self.met_if(Event::RefreshFirst, after.refresh_mark == 0 && left as f64 > twice + 1.0);
            self.met_if(Event::RefreshFarthest, after.refresh_mark == 0 && left == 3_000_000 * MS);
        }
        self.met_if(Event::RefreshNoMarks, none);
    }

    fn grant_set(&mut self, b: &ManagerC) {
        self.met(if b.quiet > 0 { Event::GrantsQuiet } else { Event::GrantsOutside });
        let ends = |p: &PeerC| p.promise_sent > 0 && (p.revoking > 0 || p.promise_sent == EXPLODED);
        self.met_if(Event::GrantsRevoking, b.quiet == 0 && rows(b).iter().any(ends));
    }

    fn lease_set(&mut self, b: &ManagerC) {
        let active = rows(b).iter().any(|p| p.promise_held == ARMED);
        let exploded = rows(b).iter().any(|p| p.promise_held == EXPLODED);
        self.met_if(Event::LeasesActive, active);
        self.met_if(Event::LeasesExploded, exploded);
    }

    fn time_left(&mut self, b: &ManagerC, p: &PeerC) {
        self.met(match (p.promise_held, p.promise_held_at.saturating_sub(b.now)) {
            (0, _) => Event::LeftNone,
            (EXPLODED, _) => Event::LeftZero,
            (_, ..MS) => Event::LeftPart,
            (_, left) if left % MS == 0 => Event::LeftWhole,
            _ => Event::LeftUp,
        });
    }
}

fn guard(p: &PeerC) -> Event {
    match (p.promise_held, p.guard_held) {
        (EXPLODED, _) => Event::GuardPromisedExploded,
        (1.., _) => Event::GuardPromised,
        (0, 0) => Event::GuardNew,
        (0, EXPLODED) => Event::GuardExploded,
        (0, _) => Event::GuardAgain,
    }
}

fn promise(p: &PeerC) -> Event {
    match (p.guard_held, p.promise_held) {
        (EXPLODED, _) => Event::PromiseOnExploded,
        (1.., _) => Event::PromiseOnGuard,
        (0, EXPLODED) => Event::PromiseAgainExploded,
        (0, 1..) => Event::PromiseAgain,
        (0, 0) => Event::PromiseNone,
    }
}

fn grant_timeout(p: &PeerC) -> Event {
    match (p.promise_sent, p.guard_sent) {
        (EXPLODED, _) => Event::GrantExploded,
        (1.., _) => Event::GrantEarly,
        (0, 1..) => Event::GrantUnarmed,
        (0, 0) => Event::GrantDoubled,
    }
}

fn lease_timeout(p: &PeerC) -> Event {
    if held_exploded(p) {
        Event::LeaseExploded
    } else if is_held(p) {
        Event::LeaseEarly
    } else {
        Event::LeaseDoubled
    }
}

// What a refresh makes of a peer that is marked.
fn marked_peer(id: usize, p: &PeerC, peers: PeerSet) -> Event {
    let short = |set: Ids| set.size <= id as u64;
    if p.promise_sent == 0 {
        Event::RefreshNoPromise
    } else if peers.is_some_and(short) {
        Event::RefreshShortSet
    } else if !has(peers, id) {
        Event::RefreshNotNamed
    } else if p.promise_sent == EXPLODED {
        Event::RefreshExploded
    } else if p.revoking > 0 {
        Event::RefreshRevoking
    } else {
        Event::RefreshExtends
    }
}
