//! The C ABI of the proved library as it is: the record that the host owns and lends, a call as a
//! card of six numbers, an answer as at most three lines of numbers with the timers that fired, and
//! the one function that takes them.
//!
//! What each number stands for is in rules 13.1 to 13.4, and in `crates/wire`. No proof reaches these
//! declarations: the sizes and offsets below are asserted when the crate is built, and
//! `tests/layout.rs` shows that the library has the same.
//!
//! A host needs this module only to store a record and to take it back, see
//! [`LeaseManager::from_record`](crate::LeaseManager::from_record).

use std::mem::{offset_of, size_of};

/// One id's row. A tag is 0 absent, 1 unarmed, 2 armed, 3 exploded; a deadline is 0 where nothing
/// is armed.
#[repr(C)]
#[derive(Clone, Copy, Debug, Default, PartialEq)]
pub struct PeerC {
    /// The tag of the sent guard.
    pub guard_sent: u8,
    /// The tag of the sent promise.
    pub promise_sent: u8,
    /// The tag of the held guard.
    pub guard_held: u8,
    /// The tag of the held promise.
    pub promise_held: u8,
    /// 1 where the sent promise is being revoked, else 0.
    pub revoking: u8,
    /// 1 where the next heartbeat is to refresh the sent promise, else 0.
    pub refresh_mark: u8,
    /// The deadline of the sent guard: always 0, since no sent guard is armed.
    pub guard_sent_at: u64,
    /// The deadline of the sent promise, in ns.
    pub promise_sent_at: u64,
    /// The deadline of the held guard, in ns.
    pub guard_held_at: u64,
    /// The deadline of the held promise, in ns.
    pub promise_held_at: u64,
}

/// The record.
#[repr(C)]
#[derive(Clone, Copy, Debug, PartialEq)]
pub struct ManagerC {
    /// The own id.
    pub me: usize,
    /// How many controllers there are.
    pub population: usize,
    /// T, in ns.
    pub expire_timeout: u64,
    /// The clock reading, in ns.
    pub now: u64,
    /// The active lease number.
    pub active_num: u64,
    /// The quotient of a drifting clock, 1.0 where the clock is true.
    pub quotient: f64,
    /// The reading at which quiet time ends, 0 outside quiet time.
    pub quiet_until: u64,
    /// 1 where the clock drifts, 0 where it is true.
    pub drifting: u8,
    /// 1 in quiet time, else 0.
    pub quiet: u8,
    /// The rows, by id; those of the own id and of ids not below the population are empty.
    pub peers: [PeerC; 64],
}

impl ManagerC {
    /// All zeros: no manager's record, which every call but set-up refuses with 15.
    pub const BLANK: ManagerC = ManagerC {
        me: 0,
        population: 0,
        expire_timeout: 0,
        now: 0,
        active_num: 0,
        quotient: 0.0,
        quiet_until: 0,
        drifting: 0,
        quiet: 0,
        peers: [PeerC {
            guard_sent: 0,
            promise_sent: 0,
            guard_held: 0,
            promise_held: 0,
            revoking: 0,
            refresh_mark: 0,
            guard_sent_at: 0,
            promise_sent_at: 0,
            guard_held_at: 0,
            promise_held_at: 0,
        }; 64],
    };
}

/// A call. What the other fields are goes by the code.
#[repr(C)]
#[derive(Clone, Copy, Debug, Default, PartialEq)]
pub struct CallC {
    /// Which call: 1 to 15.
    pub code: u64,
    /// The lease number of a notice, or a clock reading.
    pub number: u64,
    /// A peer's id or the own id, or whether there is an accept bar.
    pub peer: u64,
    /// A set's size with 0 for no set, the population, a message's kind, or whether the clock
    /// drifts.
    pub size: u64,
    /// A set's bits, T, a message's accept bar or `held`, or the percent of a drift plus 128.
    pub first: u64,
    /// The heartbeat interval, or the accept bar of new grants.
    pub second: u64,
}

/// One line of an answer. What the other fields are goes by the code.
#[repr(C)]
#[derive(Clone, Copy, Debug, Default, PartialEq)]
pub struct LineC {
    /// Which line: an action is 1 to 13, any other line 31 to 34.
    pub code: u64,
    /// The lease number of an action.
    pub number: u64,
    /// A peer's id, a set's size, or whether there is an accept bar or a time left.
    pub peer: u64,
    /// A set's bits, an accept bar, `held`, a count, or a time left in ms, rounded up.
    pub first: u64,
    /// The accept bar of a Guard broadcast, or the bits of advance's second set.
    pub second: u64,
}

/// A timer that fired.
#[repr(C)]
#[derive(Clone, Copy, Debug, Default, PartialEq, Eq)]
pub struct FiredTimerC {
    /// 1 for a held timer, 0 for a sent one.
    pub held: u8,
    /// Whose.
    pub id: u8,
}

/// The timers that fired, in order. Those that do not count are zeros.
#[repr(C)]
#[derive(Clone, Copy, Debug, PartialEq, Eq)]
pub struct FiredTimersC {
    /// How many of the timers count.
    pub count: usize,
    /// The timers: room for two of each of 64 ids.
    pub timers: [FiredTimerC; 128],
}

impl FiredTimersC {
    /// No timer.
    pub const NONE: FiredTimersC =
        FiredTimersC { count: 0, timers: [FiredTimerC { held: 0, id: 0 }; 128] };
}

impl Default for FiredTimersC {
    fn default() -> FiredTimersC {
        FiredTimersC::NONE
    }
}

/// An answer: at most three lines, and what an advance made fire. Lines that do not count are
/// zeros.
#[repr(C)]
#[derive(Clone, Copy, Debug, Default, PartialEq)]
pub struct AnswerC {
    /// 0, or the number of the refusal.
    pub refused: u64,
    /// How many of the lines count.
    pub count: u64,
    /// The first line.
    pub one: LineC,
    /// The second line.
    pub two: LineC,
    /// The third line.
    pub three: LineC,
    /// The timers that fired: none but by an accepted advance.
    pub fired: FiredTimersC,
}

// The library is built for 64 bits: an id crosses whole, in a card and in the record.
const _: () = assert!(size_of::<usize>() == 8 && size_of::<ManagerC>() == 2624);

const _: () = {
    assert!(size_of::<PeerC>() == 40 && align_of::<PeerC>() == 8);
    assert!(offset_of!(PeerC, guard_sent) == 0);
    assert!(offset_of!(PeerC, promise_sent) == 1);
    assert!(offset_of!(PeerC, guard_held) == 2);
    assert!(offset_of!(PeerC, promise_held) == 3);
    assert!(offset_of!(PeerC, revoking) == 4);
    assert!(offset_of!(PeerC, refresh_mark) == 5);
    assert!(offset_of!(PeerC, guard_sent_at) == 8);
    assert!(offset_of!(PeerC, promise_sent_at) == 16);
    assert!(offset_of!(PeerC, guard_held_at) == 24);
    assert!(offset_of!(PeerC, promise_held_at) == 32);
};

const _: () = {
    assert!(align_of::<ManagerC>() == 8);
    assert!(offset_of!(ManagerC, me) == 0);
    assert!(offset_of!(ManagerC, population) == 8);
    assert!(offset_of!(ManagerC, expire_timeout) == 16);
    assert!(offset_of!(ManagerC, now) == 24);
    assert!(offset_of!(ManagerC, active_num) == 32);
    assert!(offset_of!(ManagerC, quotient) == 40);
    assert!(offset_of!(ManagerC, quiet_until) == 48);
    assert!(offset_of!(ManagerC, drifting) == 56);
    assert!(offset_of!(ManagerC, quiet) == 57);
    assert!(offset_of!(ManagerC, peers) == 64);
};

const _: () = {
    assert!(size_of::<CallC>() == 48 && align_of::<CallC>() == 8);
    assert!(offset_of!(CallC, code) == 0);
    assert!(offset_of!(CallC, number) == 8);
    assert!(offset_of!(CallC, peer) == 16);
    assert!(offset_of!(CallC, size) == 24);
    assert!(offset_of!(CallC, first) == 32);
    assert!(offset_of!(CallC, second) == 40);
};

const _: () = {
    assert!(size_of::<LineC>() == 40 && align_of::<LineC>() == 8);
    assert!(offset_of!(LineC, code) == 0);
    assert!(offset_of!(LineC, number) == 8);
    assert!(offset_of!(LineC, peer) == 16);
    assert!(offset_of!(LineC, first) == 24);
    assert!(offset_of!(LineC, second) == 32);
};

const _: () = {
    assert!(size_of::<FiredTimerC>() == 2 && align_of::<FiredTimerC>() == 1);
    assert!(offset_of!(FiredTimerC, held) == 0);
    assert!(offset_of!(FiredTimerC, id) == 1);
    assert!(size_of::<FiredTimersC>() == 264 && align_of::<FiredTimersC>() == 8);
    assert!(offset_of!(FiredTimersC, count) == 0);
    assert!(offset_of!(FiredTimersC, timers) == 8);
};

const _: () = {
    assert!(size_of::<AnswerC>() == 400 && align_of::<AnswerC>() == 8);
    assert!(offset_of!(AnswerC, refused) == 0);
    assert!(offset_of!(AnswerC, count) == 8);
    assert!(offset_of!(AnswerC, one) == 16);
    assert!(offset_of!(AnswerC, two) == 56);
    assert!(offset_of!(AnswerC, three) == 96);
    assert!(offset_of!(AnswerC, fired) == 136);
};

unsafe extern "C" {
    // Any call on a lent record. Proved of it: it asks nothing of the record or the card, and the
    // answer and the record that it leaves are what the rules give.
    fn biasflint_call(manager: &mut ManagerC, card: CallC) -> AnswerC;
}

/// Any call on a lent record. Every record and every card has an answer.
///
/// ```
/// use biasflint::raw::{self, CallC, ManagerC};
///
/// // Code 12 asks for the grant set, code 16 is no call.
/// let mut record = ManagerC::BLANK;
/// assert_eq!(raw::call(&mut record, CallC { code: 12, ..CallC::default() }).refused, 15);
/// assert_eq!(raw::call(&mut record, CallC { code: 16, ..CallC::default() }).refused, 22);
/// ```
pub fn call(manager: &mut ManagerC, card: CallC) -> AnswerC {
    // SAFETY: the record is valid for reads and writes while it is lent, every bit pattern of it is
    // a value, and the library keeps no reference to it.
    unsafe { biasflint_call(manager, card) }
}
