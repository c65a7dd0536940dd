//! The drift leaf and the calls on sets, through the exports of `crates/leaves_c`, and their answers
//! as text.
use crate::call::Ids;
use crate::text;

#[repr(C)]
#[derive(Clone, Copy)]
pub struct DriftedC {
    pub ns: u64,
    pub seconds: f64,
    pub quotient: f64,
    pub product: f64,
}

#[repr(C)]
#[derive(Clone, Copy)]
pub struct SetC {
    pub refused: u8,
    pub size: u8,
    pub bits: u64,
}

#[repr(C)]
#[derive(Clone, Copy)]
pub struct ValueC {
    pub refused: u8,
    pub value: u8,
}

unsafe extern "C" {
    safe fn drift_quotient(d: i8) -> f64;
    safe fn drift_true(ns: u64) -> DriftedC;
    safe fn drift_by(q: f64, ns: u64) -> DriftedC;
    safe fn bitmap_new(size: u8, ones: bool) -> SetC;
    safe fn bitmap_set(size: u8, bits: u64, id: usize, flag: bool) -> SetC;
    safe fn bitmap_get(size: u8, bits: u64, id: usize) -> ValueC;
    safe fn bitmap_size(size: u8, bits: u64) -> ValueC;
    safe fn bitmap_count(size: u8, bits: u64) -> ValueC;
    safe fn bitmap_flip(size: u8, bits: u64) -> SetC;
    safe fn bitmap_clear(size: u8, bits: u64) -> SetC;
    safe fn bitmap_union(size: u8, bits: u64, other_size: u8, other_bits: u64) -> SetC;
    safe fn bitmap_is_superset(size: u8, bits: u64, other_size: u8, other_bits: u64) -> ValueC;
    safe fn bitmap_range(size: u8, start: usize, end: usize) -> SetC;
    fn bitmap_list(size: u8, ids: *const u8, len: usize) -> SetC;
    fn bitmap_ones(size: u8, bits: u64, out: *mut u8, len: usize) -> ValueC;
}

// ---- drift

/// A duration under a setting; no setting is the true clock.
pub fn drifted(ns: u64, setting: Option<i8>) -> DriftedC {
    match setting {
        None => drift_true(ns),
        Some(d) => drift_by(drift_quotient(d), ns),
    }
}

fn hex(out: &mut Vec<u8>, n: u64) {
    out.push(b' ');
    for i in (0..16).rev() {
        out.push(b"0123456789abcdef"[(n >> (4 * i) & 15) as usize]);
    }
}

/// The answer in ns, and seconds, quotient and product as the bits of an f64.
pub fn write_drifted(out: &mut Vec<u8>, d: &DriftedC) {
    text::number(out, d.ns);
    for float in [d.seconds, d.quotient, d.product] {
        hex(out, float.to_bits());
    }
}

// ---- sets

/// A call on sets. Ids are as wide as the C ABI takes them; a set's size is a byte there.
#[derive(Clone, Debug, PartialEq)]
pub enum SetCall {
    New { size: u8, ones: bool },
    Range { size: u8, start: usize, end: usize },
    List { size: u8, ids: Vec<u8> },
    Set { set: Ids, id: usize, flag: bool },
    Get { set: Ids, id: usize },
    Size(Ids),
    Count(Ids),
    Flip(Ids),
    Clear(Ids),
    Union(Ids, Ids),
    Superset(Ids, Ids),
    Ones(Ids),
}

pub enum SetAnswer {
    Refused(u8),
    Set(u8, u64),
    Value(u8),
    Ones(u64),
}

impl From<SetC> for SetAnswer {
    fn from(s: SetC) -> Self {
        if s.refused > 0 { SetAnswer::Refused(s.refused) } else { SetAnswer::Set(s.size, s.bits) }
    }
}

impl From<ValueC> for SetAnswer {
    fn from(v: ValueC) -> Self {
        if v.refused > 0 { SetAnswer::Refused(v.refused) } else { SetAnswer::Value(v.value) }
    }
}

/// The ids of the ones written into the lent bytes: the answer as it is.
pub fn ones_into(set: Ids, bytes: &mut [u8]) -> ValueC {
    // SAFETY: the bytes are valid for reads and writes, and the library keeps no reference to them.
    unsafe { bitmap_ones(size(set), set.bits, bytes.as_mut_ptr(), bytes.len()) }
}

fn list(size: u8, ids: &[u8]) -> SetC {
    // SAFETY: the bytes are valid for reads, and the library keeps no reference to them.
    unsafe { bitmap_list(size, ids.as_ptr(), ids.len()) }
}

// Sizes of sets are read as bytes.
fn size(set: Ids) -> u8 {
    u8::try_from(set.size).expect("a size of one byte")
}

// The ones as a set again; bytes that are not ascending are shown by a set that no call gives.
fn ones(set: Ids) -> SetAnswer {
    let mut bytes = [0xffu8; 64];
    let answer = ones_into(set, &mut bytes);
    if answer.refused > 0 {
        return SetAnswer::Refused(answer.refused);
    }
    let (ids, rest) = bytes.split_at(usize::from(answer.value));
    let ascending = ids.windows(2).all(|w| w[0] < w[1]) && ids.iter().all(|id| *id < 64);
    assert!(ascending && rest.iter().all(|b| *b == 0xff), "ones of {set:?}: {bytes:?}");
    SetAnswer::Ones(ids.iter().map(|id| 1u64 << id).sum())
}

impl SetCall {
    pub fn answer(&self) -> SetAnswer {
        match self {
            SetCall::New { size, ones } => bitmap_new(*size, *ones).into(),
            SetCall::Range { size, start, end } => bitmap_range(*size, *start, *end).into(),
            SetCall::List { size, ids } => list(*size, ids).into(),
            SetCall::Set { set, id, flag } => bitmap_set(size(*set), set.bits, *id, *flag).into(),
            SetCall::Get { set, id } => bitmap_get(size(*set), set.bits, *id).into(),
            SetCall::Size(set) => bitmap_size(size(*set), set.bits).into(),
            SetCall::Count(set) => bitmap_count(size(*set), set.bits).into(),
            SetCall::Flip(set) => bitmap_flip(size(*set), set.bits).into(),
            SetCall::Clear(set) => bitmap_clear(size(*set), set.bits).into(),
            SetCall::Union(a, b) => bitmap_union(size(*a), a.bits, size(*b), b.bits).into(),
            SetCall::Superset(a, b) => {
                bitmap_is_superset(size(*a), a.bits, size(*b), b.bits).into()
            }
            SetCall::Ones(set) => ones(*set),
        }
    }
}

pub fn write_set_answer(out: &mut Vec<u8>, answer: &SetAnswer) {
    match *answer {
        SetAnswer::Refused(k) => {
            text::words(out, "refused");
            text::numbers(out, &[u64::from(k)]);
        }
        SetAnswer::Set(size, bits) => text::set(out, u64::from(size), bits),
        SetAnswer::Value(n) => text::number(out, u64::from(n)),
        SetAnswer::Ones(bits) => text::ids(out, bits),
    }
}
