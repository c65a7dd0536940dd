//! That the library has the sizes and offsets that `raw` asserts. Fields are overwritten as bytes
//! at those offsets, and the answers show that the library reads and writes them there. The record
//! lies in a larger buffer whose other bytes no call may touch, and its padding may hold anything.

use std::mem::{offset_of, size_of};

use biasflint::raw::{self, AnswerC, CallC, FiredTimerC, FiredTimersC, LineC, ManagerC, PeerC};

const ME: u64 = 5;
const NOW: u64 = 7_000_000_000;
const T: u64 = 1_000_000_000;
// The first row, a middle one and the last.
const ROWS: [usize; 3] = [0, 31, 63];
const SIZE: usize = size_of::<ManagerC>();
const GUARD: [u8; 64] = [0xC3; 64];

#[repr(C, align(8))]
#[derive(Clone, Copy)]
struct Lent {
    before: [u8; 64],
    record: [u8; SIZE],
    after: [u8; 64],
}

// A field's new contents: the offset, and the bytes.
type Write = (usize, Vec<u8>);

macro_rules! byte {
    ($field:ident, $value:expr) => {
        (offset_of!(ManagerC, $field), vec![$value])
    };
}

macro_rules! word {
    ($field:ident, $value:expr) => {
        (offset_of!(ManagerC, $field), $value.to_ne_bytes().to_vec())
    };
}

macro_rules! tag {
    ($id:expr, $field:ident, $value:expr) => {
        (row($id) + offset_of!(PeerC, $field), vec![$value])
    };
}

macro_rules! deadline {
    ($id:expr, $field:ident, $value:expr) => {
        (row($id) + offset_of!(PeerC, $field), u64::to_ne_bytes($value).to_vec())
    };
}

fn row(id: usize) -> usize {
    offset_of!(ManagerC, peers) + id * size_of::<PeerC>()
}

// Which bytes belong to no field: six behind `quiet`, two behind each row's `refresh_mark`.
fn is_padding(at: usize) -> bool {
    let peers = offset_of!(ManagerC, peers);
    match at.checked_sub(peers) {
        None => at > offset_of!(ManagerC, quiet),
        Some(in_rows) => (6..8).contains(&(in_rows % size_of::<PeerC>())),
    }
}

impl Lent {
    // What set-up leaves, with that byte in the padding.
    fn set_up(padding: u8) -> Lent {
        let mut lent = Lent { before: GUARD, record: [padding; SIZE], after: GUARD };
        assert_eq!(lent.call(card(1, NOW, ME, 64, T, 0)), lines(&[]));
        for at in (0..SIZE).filter(|&at| is_padding(at)) {
            lent.record[at] = padding;
        }
        lent
    }

    fn with(mut self, writes: &[Write]) -> Lent {
        for (at, bytes) in writes {
            self.record[*at..at + bytes.len()].copy_from_slice(bytes);
        }
        self
    }

    fn call(&mut self, card: CallC) -> AnswerC {
        let whole: *mut Lent = self;
        // SAFETY: the record's bytes are all there, at a multiple of 8, and any bytes are a record.
        let record = unsafe { &mut *(&raw mut (*whole).record).cast::<ManagerC>() };
        let answer = raw::call(record, card);
        let lent = std::hint::black_box(self);
        assert_eq!((lent.before, lent.after), (GUARD, GUARD));
        answer
    }

    fn manager(&self) -> ManagerC {
        // SAFETY: as above; the copy needs no alignment.
        unsafe { self.record.as_ptr().cast::<ManagerC>().read_unaligned() }
    }

    fn fields(&self) -> Vec<u8> {
        let of_fields = (0..SIZE).filter(|&at| !is_padding(at));
        of_fields.map(|at| self.record[at]).collect()
    }
}

fn card(code: u64, number: u64, peer: u64, size: u64, first: u64, second: u64) -> CallC {
    CallC { code, number, peer, size, first, second }
}

fn line(code: u64, number: u64, peer: u64, first: u64, second: u64) -> LineC {
    LineC { code, number, peer, first, second }
}

fn lines(given: &[LineC]) -> AnswerC {
    let at = |i: usize| given.get(i).copied().unwrap_or_default();
    let count = given.len() as u64;
    AnswerC { count, one: at(0), two: at(1), three: at(2), ..AnswerC::default() }
}

fn refused(number: u64) -> AnswerC {
    AnswerC { refused: number, ..AnswerC::default() }
}

fn advance(to: u64) -> CallC {
    card(2, to, 0, 0, 0, 0)
}

fn clear_held(num: u64) -> CallC {
    card(5, num, 0, 0, 0, 0)
}

fn recv(id: usize, kind: u64, first: u64) -> CallC {
    card(6, 0, id as u64, kind, first, 0)
}

fn question(code: u64) -> CallC {
    card(code, 0, 0, 0, 0, 0)
}

fn set(size: u64, bits: u64) -> AnswerC {
    lines(&[line(32, 0, size, bits, 0)])
}

fn timers(given: &[(u8, u8)]) -> FiredTimersC {
    let mut list = FiredTimersC { count: given.len(), ..FiredTimersC::NONE };
    for (place, &(held, id)) in list.timers.iter_mut().zip(given) {
        *place = FiredTimerC { held, id };
    }
    list
}

// The timers of both sets fired at one deadline: sent before held, each by id.
fn fired(sent: u64, held: u64) -> AnswerC {
    let of = |is_held: u8, set: u64| {
        (0..64).filter(move |id| set >> id & 1 == 1).map(move |id| (is_held, id))
    };
    let in_order: Vec<_> = of(0, sent).chain(of(1, held)).collect();
    AnswerC { fired: timers(&in_order), ..lines(&[line(31, 0, 0, sent, held)]) }
}

// The answer after those writes, on any padding. A refused call leaves every byte of a field.
fn check(what: &str, writes: &[Write], card: CallC, want: AnswerC) {
    for padding in [0x00, 0xAA, 0xFF] {
        let mut lent = Lent::set_up(padding).with(writes);
        let before = lent.fields();
        assert_eq!(lent.call(card), want, "{what}, padding {padding:#x}");
        assert!(want.refused == 0 || lent.fields() == before, "{what}");
    }
}

const CNT: u64 = 14;
const ONE: LineC = LineC { code: 33, number: 0, peer: 0, first: 1, second: 0 };

// The record is accepted after those writes, or refused with 15.
fn check_record(what: &str, writes: &[Write], valid: bool) {
    let want = if valid { lines(&[ONE]) } else { refused(15) };
    check(what, writes, question(CNT), want);
}

#[test]
fn limits_of_the_record() {
    for (what, write, valid) in [
        ("me", word!(me, 63_u64), true),
        ("me", word!(me, 64_u64), false),
        ("population", word!(population, 6_u64), true),
        ("population", word!(population, 5_u64), false),
        ("population", word!(population, 65_u64), false),
        ("T", word!(expire_timeout, 99_999_999_u64), false),
        ("T", word!(expire_timeout, 100_000_000_u64), true),
        ("T", word!(expire_timeout, 10_000_000_000_u64), true),
        ("T", word!(expire_timeout, 10_000_000_001_u64), false),
        ("now", word!(now, 0_u64), true),
        ("now", word!(now, i64::MAX as u64), true),
        ("now", word!(now, i64::MAX as u64 + 1), false),
        ("active_num", word!(active_num, u64::MAX), true),
        ("quotient", word!(quotient, 0.8_f64), false),
        ("quiet_until", word!(quiet_until, NOW + 9), false),
        ("drifting", byte!(drifting, 1), true),
        ("drifting", byte!(drifting, 2), false),
        ("quiet", byte!(quiet, 1), false),
    ] {
        check_record(what, &[write], valid);
    }
    let drifting = |q: f64| [byte!(drifting, 1), word!(quotient, q)];
    for (q, valid) in [(0.8, true), (100.0, true), (0.81, false), (f64::NAN, false)] {
        check_record("a drifting quotient", &drifting(q), valid);
    }
    let quiet = |tag: u8, until: u64| [byte!(quiet, tag), word!(quiet_until, until)];
    for (tag, until, valid) in [(1, NOW + 1, true), (1, NOW, false), (2, NOW + 1, false)] {
        check_record("quiet time", &quiet(tag, until), valid);
    }
}

#[test]
fn fields_of_the_record_are_read() {
    let quiet = [byte!(quiet, 1), word!(quiet_until, NOW + 9)];
    let in_quiet = |write: Write| [&quiet[..], &[write]].concat();
    let grant_set = question(12);
    let fewer = (1 << 63) - 1 - (1 << ME);
    check("quiet", &quiet, grant_set, set(64, !(1 << ME)));
    check("me", &in_quiet(word!(me, 7_u64)), grant_set, set(64, !(1 << 7)));
    let population = in_quiet(word!(population, 63_u64));
    check("population", &population, grant_set, set(63, fewer));

    let ends = lines(&[line(31, 0, 0, 0, 0), line(10, 0, ME + 1, 0, 0)]);
    check("quiet_until", &quiet, advance(NOW + 8), fired(0, 0));
    check("quiet_until", &quiet, advance(NOW + 9), ends);

    let now = [word!(now, NOW + 5)];
    check("now", &now, advance(NOW + 4), refused(6));
    check("now", &now, advance(NOW + 5), fired(0, 0));

    let num = [word!(active_num, 9_u64)];
    let cleared = |n| line(9, n, 0, 0, 0);
    check("active_num", &num, clear_held(8), lines(&[]));
    check("active_num", &num, clear_held(9), lines(&[cleared(9)]));
    let higher = lines(&[line(12, 10, 0, 0, 0), cleared(10)]);
    check("active_num", &num, clear_held(10), higher);
}

#[test]
fn tags_of_a_row_are_read() {
    for r in ROWS {
        let (id, bit) = (r as u64, 1 << r);
        let promise = lines(&[line(4, 0, id, 0, 0)]);
        let reply = |held| lines(&[line(5, 0, id, held, 0)]);
        let left = |there| lines(&[line(34, 0, there, 0, 0)]);
        let time_left = card(15, 0, id, 0, 0, 0);

        check("no guard sent", &[], recv(r, 3, 0), lines(&[]));
        check("guard_sent", &[tag!(r, guard_sent, 1)], recv(r, 3, 0), promise);
        check("no promise sent", &[], question(12), set(64, 0));
        check("promise_sent", &[tag!(r, promise_sent, 3)], question(12), set(64, bit));
        check("no guard held", &[], recv(r, 4, 0), reply(0));
        check("guard_held", &[tag!(r, guard_held, 3)], recv(r, 4, 0), reply(1));
        check("no promise held", &[], time_left, left(0));
        check("promise_held", &[tag!(r, promise_held, 3)], time_left, left(1));

        let sent = [tag!(r, promise_sent, 2), deadline!(r, promise_sent_at, NOW + 9)];
        let and = |write: Write| [&sent[..], &[write]].concat();
        let marks = lines(&[line(7, 0, id, 0, 0)]);
        check("not revoking", &sent, recv(r, 5, 1), marks);
        check("revoking", &and(tag!(r, revoking, 1)), recv(r, 5, 1), lines(&[]));
        check("no mark", &sent, question(10), set(64, 0));
        check("refresh_mark", &and(tag!(r, refresh_mark, 1)), question(10), set(64, bit));
        check_record("revoking 2", &and(tag!(r, revoking, 2)), false);

        for (what, write) in [
            ("guard_sent", tag!(r, guard_sent, 4)),
            ("promise_sent", tag!(r, promise_sent, 4)),
            ("guard_held", tag!(r, guard_held, 4)),
            ("promise_held", tag!(r, promise_held, 4)),
            ("revoking", tag!(r, revoking, 1)),
            ("refresh_mark", tag!(r, refresh_mark, 2)),
        ] {
            check_record(what, &[write], false);
        }
    }
}

#[test]
fn deadlines_of_a_row_are_read() {
    for r in ROWS {
        let bit = 1 << r;
        let due = NOW + 3_000_000;
        let sent = [tag!(r, promise_sent, 2), deadline!(r, promise_sent_at, due)];
        let guard = [tag!(r, guard_held, 2), deadline!(r, guard_held_at, due)];
        let promise = [tag!(r, promise_held, 2), deadline!(r, promise_held_at, due)];
        check("promise_sent_at", &sent, advance(due), fired(bit, 0));
        check("guard_held_at", &guard, advance(due), fired(0, bit));
        check("promise_held_at", &promise, advance(due), fired(0, bit));
        for armed in [&sent, &guard, &promise] {
            check("before it is due", armed, advance(due - 1), fired(0, 0));
        }
        let left = lines(&[line(34, 0, 1, 3, 0)]);
        check("time left", &promise, card(15, 0, r as u64, 0, 0, 0), left);

        // With every other timer armed, its deadline would be accepted in any field but this one.
        let guard_sent_at = deadline!(r, guard_sent_at, due);
        for held in [&guard, &promise] {
            let armed = [&sent[..], held].concat();
            check("all armed", &armed, advance(due), fired(bit, bit));
            let and_this = [&armed[..], std::slice::from_ref(&guard_sent_at)].concat();
            check_record("guard_sent_at", &and_this, false);
        }
    }
}

// What set-up leaves.
const FRESH: ManagerC = ManagerC {
    me: ME as usize,
    population: 64,
    expire_timeout: T,
    now: NOW,
    quotient: 1.0,
    ..ManagerC::BLANK
};

#[test]
fn fields_of_the_record_are_written() {
    let mut lent = Lent::set_up(0xAA);
    let mut want = FRESH;
    assert_eq!(lent.manager(), want);

    lent.call(clear_held(8));
    want.active_num = 8;
    assert_eq!(lent.manager(), want);

    // Drift 25: 2T is 1.6 s.
    lent.call(card(11, 0, 0, 1, 128 + 25, 0));
    (want.drifting, want.quotient) = (1, 0.8);
    assert_eq!(lent.manager(), want);

    lent.call(question(9));
    (want.quiet, want.quiet_until) = (1, NOW + 1_600_000_000);
    assert_eq!(lent.manager(), want);

    lent.call(advance(NOW + 2 * T));
    (want.now, want.quiet, want.quiet_until) = (NOW + 2 * T, 0, 0);
    assert_eq!(lent.manager(), want);

    lent.call(question(11));
    (want.drifting, want.quotient) = (0, 1.0);
    assert_eq!(lent.manager(), want);
}

// What each card makes of the row of r: granted to and refreshed, then held from, then revoked.
fn row_steps(r: usize) -> [(CallC, PeerC); 7] {
    let mut rows = [ManagerC::BLANK.peers[r]; 7];
    rows[0].guard_sent = 1;
    (rows[1].promise_sent, rows[1].promise_sent_at) = (2, NOW + 2 * T);
    rows[2] = rows[1];
    (rows[2].refresh_mark, rows[2].promise_sent_at) = (1, NOW + T);
    rows[3] = rows[2];
    (rows[3].guard_held, rows[3].guard_held_at) = (2, NOW + T);
    rows[4] = rows[2];
    (rows[4].promise_held, rows[4].promise_held_at) = (2, NOW + T);
    rows[5] = rows[4];
    rows[5].revoking = 1;
    rows[6].promise_sent = 3;
    rows[6].promise_held = 3;
    (rows[6].revoking, rows[6].refresh_mark) = (1, 1);
    let cards = [
        card(3, 0, 0, 64, 1 << r, 0),
        recv(r, 3, 0),
        recv(r, 5, 1),
        recv(r, 1, 0),
        recv(r, 4, 0),
        card(4, 0, 0, 64, 1 << r, 0),
        advance(NOW + T),
    ];
    std::array::from_fn(|i| (cards[i], rows[i]))
}

#[test]
fn fields_of_a_row_are_written() {
    for r in ROWS {
        let mut lent = Lent::set_up(0xAA);
        for (i, (card, row)) in row_steps(r).into_iter().enumerate() {
            assert_eq!(lent.call(card).refused, 0, "row {r}, step {i}");
            let mut want = FRESH;
            want.now = lent.manager().now;
            want.peers[r] = row;
            assert_eq!(lent.manager(), want, "row {r}, step {i}");
        }
        assert_eq!(lent.manager().now, NOW + T);
    }
}

#[test]
fn fields_of_a_card_are_read() {
    let set_up = card(1, NOW, ME, 64, T, T / 2 - 1);
    check("set-up", &[], set_up, lines(&[]));
    for (what, card, number) in [
        ("code", CallC { code: 16, ..set_up }, 22),
        ("number", CallC { number: i64::MAX as u64 + 1, ..set_up }, 5),
        ("peer", CallC { peer: 64, ..set_up }, 4),
        ("size", CallC { size: 65, ..set_up }, 3),
        ("first", CallC { first: 99_999_999, ..set_up }, 1),
        ("second", CallC { second: T / 2, ..set_up }, 2),
    ] {
        check(what, &[], card, refused(number));
    }
}

#[test]
fn fields_of_an_answer_are_read() {
    let (bits, bar) = (0x8765_4321_0FED_CB9A, 0xBA5E_BA11);
    let guard = line(1, 11, 1, bits & !(1 << ME), bar);
    let grants = card(3, 11, 1, 64, bits, bar);
    let higher = |num| line(12, num, 0, 0, 0);
    check("two lines", &[], grants, lines(&[higher(11), guard]));

    let (bar_came, reply) = (line(13, 12, 9, bar, 0), line(3, 12, 9, 0, 0));
    let three = lines(&[higher(12), bar_came, reply]);
    check("three lines", &[], card(6, 12, 9, 2, bar, 0), three);

    let due = NOW + 1;
    let timers = [
        tag!(2, promise_sent, 2),
        deadline!(2, promise_sent_at, due),
        tag!(40, guard_held, 2),
        deadline!(40, guard_held_at, due),
    ];
    check("two sets", &timers, advance(due), fired(1 << 2, 1 << 40));
}

// Every timer that can be there fires: all of the list's places but the own id's two are read.
#[test]
fn every_fired_timer_is_listed() {
    let peers: Vec<usize> = (0..64).filter(|r| *r != ME as usize).collect();
    let all = peers.iter().fold(0, |set, r| set | 1 << r);
    let at = |deadline: &dyn Fn(usize) -> [u64; 2]| -> Vec<Write> {
        let row = |&r: &usize| {
            let [sent, held] = deadline(r);
            [
                tag!(r, promise_sent, 2),
                deadline!(r, promise_sent_at, sent),
                tag!(r, promise_held, 2),
                deadline!(r, promise_held_at, held),
            ]
        };
        peers.iter().flat_map(row).collect()
    };
    let want = |given: &[(u8, u8)]| AnswerC { fired: timers(given), ..fired(all, all) };
    let ids = || peers.iter().map(|r| *r as u8);

    let together = at(&|_| [NOW + 9, NOW + 9]);
    check("all at once", &together, advance(NOW + 9), fired(all, all));
    // The last id first, and of each id the held timer first.
    let reversed = at(&|r| [NOW + 200 - 2 * r as u64, NOW + 199 - 2 * r as u64]);
    let last_first: Vec<_> = ids().rev().flat_map(|id| [(1, id), (0, id)]).collect();
    check("one by one", &reversed, advance(NOW + 300), want(&last_first));
    // At equal deadlines sent before held, then by id.
    let paired = at(&|r| [NOW + 9 + r as u64 / 32, NOW + 9 + r as u64 / 32]);
    let half =
        |held: u8, low: bool| ids().filter(move |id| (*id < 32) == low).map(move |id| (held, id));
    let halves: Vec<_> =
        half(0, true).chain(half(1, true)).chain(half(0, false)).chain(half(1, false)).collect();
    check("in two parts", &paired, advance(NOW + 10), want(&halves));
}

#[test]
fn refused_calls_keep_every_byte() {
    let grants = |size| card(3, 9, 0, size, 0b11, 0);
    for (what, card, number) in [
        ("advance too far", advance(u64::MAX), 5),
        ("advance back", advance(NOW - 1), 6),
        ("an unknown peer", recv(64, 1, 0), 7),
        ("the own id", recv(ME as usize, 1, 0), 8),
        ("grants to a set", grants(63), 9),
        ("grants to a set", grants(256), 9),
        ("refresh of a set", card(10, 0, 0, 65, 0, 0), 12),
        ("time left", card(15, 0, 300, 0, 0, 0), 7),
        ("no call", question(16), 22),
    ] {
        check(what, &[word!(active_num, 3_u64)], card, refused(number));
    }
}

#[test]
fn any_bytes_have_an_answer() {
    let mut random = 0x2545_F491_4F6C_DD1D_u64;
    let mut lent = Lent::set_up(0);
    for _ in 0..100 {
        for byte in &mut lent.record {
            random ^= random << 13;
            random ^= random >> 7;
            random ^= random << 17;
            *byte = random as u8;
        }
        let before = lent.fields();
        for code in 2..=16 {
            let want = if code < 16 { 15 } else { 22 };
            assert_eq!(lent.call(card(code, 0, 0, 1, 0, 0)), refused(want));
            assert_eq!(lent.fields(), before);
        }
    }
}
