//! Sets of ids: each call on them with any arguments, and what the Rust says where the library
//! refuses.
use super::Run;
use crate::call::Ids;
use crate::leaves::{self, SetAnswer, SetCall};
use crate::text;
use std::io;
use std::time::Instant;

// The ids below the size: what the Rust's set has of it.
fn masked(set: Ids) -> Ids {
    let below = if set.size >= 64 { u64::MAX } else { (1 << set.size) - 1 };
    Ids { bits: set.bits & below, ..set }
}

fn set_word(out: &mut Vec<u8>, set: Ids) {
    out.push(b' ');
    text::set(out, set.size, masked(set).bits);
}

fn list_word(out: &mut Vec<u8>, ids: &[u8]) {
    for (i, id) in ids.iter().enumerate() {
        out.push(if i == 0 { b' ' } else { b',' });
        text::number(out, u64::from(*id));
    }
}

fn line(out: &mut Vec<u8>, call: &SetCall) {
    let mut start = |name: &str, numbers: &[u64], sets: &[Ids]| {
        text::words(out, "b ");
        text::words(out, name);
        sets.iter().for_each(|set| set_word(out, *set));
        text::numbers(out, numbers);
    };
    match call {
        SetCall::New { size, ones } => start("new", &[u64::from(*size), u64::from(*ones)], &[]),
        SetCall::Range { size, start: low, end } => {
            start("range", &[u64::from(*size), *low as u64, *end as u64], &[]);
        }
        SetCall::List { size, ids } => {
            start("list", &[u64::from(*size)], &[]);
            list_word(out, ids);
        }
        SetCall::Set { set, id, flag } => start("set", &[*id as u64, u64::from(*flag)], &[*set]),
        SetCall::Get { set, id } => start("get", &[*id as u64], &[*set]),
        SetCall::Size(set) => start("size", &[], &[*set]),
        SetCall::Count(set) => start("count", &[], &[*set]),
        SetCall::Flip(set) => start("flip", &[], &[*set]),
        SetCall::Clear(set) => start("clear", &[], &[*set]),
        SetCall::Union(a, b) => start("union", &[], &[*a, *b]),
        SetCall::Superset(a, b) => start("super", &[], &[*a, *b]),
        SetCall::Ones(set) => start("ones", &[], &[*set]),
    }
}

// The sizes that a call names.
fn sizes(call: &SetCall) -> Vec<u64> {
    match call {
        SetCall::New { size, .. } | SetCall::Range { size, .. } | SetCall::List { size, .. } => {
            vec![u64::from(*size)]
        }
        SetCall::Union(a, b) | SetCall::Superset(a, b) => vec![a.size, b.size],
        SetCall::Set { set, .. } | SetCall::Get { set, .. } => vec![set.size],
        SetCall::Size(set)
        | SetCall::Count(set)
        | SetCall::Flip(set)
        | SetCall::Clear(set)
        | SetCall::Ones(set) => vec![set.size],
    }
}

// The refusal of a call by the rules: 0, or the number.
fn refusal(call: &SetCall) -> u8 {
    let sizes = sizes(call);
    if sizes.iter().any(|size| *size < 1 || *size > 64) {
        return 12;
    }
    let outside = match call {
        SetCall::Range { start, end, .. } => start < end && *end as u64 > sizes[0],
        SetCall::List { ids, .. } => ids.iter().any(|id| u64::from(*id) >= sizes[0]),
        SetCall::Set { id, .. } | SetCall::Get { id, .. } => *id as u64 >= sizes[0],
        _ => false,
    };
    if outside {
        return 10;
    }
    if matches!(call, SetCall::Union(a, b) if a.size != b.size) { 11 } else { 0 }
}

// What the Rust says where the library refuses: it panics where a set is made of size 0 or with an
// id outside, gives an error for an id outside or a union of other sizes, and takes sizes up to
// 255.
fn of_the_rust(call: &SetCall, refused: u8) -> &'static str {
    let made = matches!(call, SetCall::New { .. } | SetCall::Range { .. } | SetCall::List { .. });
    match refused {
        12 if sizes(call)[0] == 0 => "panic",
        12 => "*",
        10 if made => "panic",
        _ => "err",
    }
}

impl Run {
    fn size(&mut self) -> u64 {
        match self.random.below(10) {
            0 => self.random.pick(&[1, 2, 63, 64, 65, 128, 254, 255]),
            1 => self.random.between(65, 255),
            2..5 => self.random.between(1, 8),
            _ => self.random.between(1, 64),
        }
    }

    // Ones above the size too: the library must not see them.
    fn set(&mut self, size: u64) -> Ids {
        let (any, other) = (self.random.any(), self.random.any());
        let bits = self.random.pick(&[0, u64::MAX, any, any & other, any | other]);
        let set = Ids { size, bits };
        if self.random.flag() { masked(set) } else { set }
    }

    // An id as a byte, around the size at times.
    fn id(&mut self, size: u64) -> u64 {
        let any = self.random.below(256);
        let inside = self.random.below(size.max(1));
        let edge = self.random.pick(&[0, size.saturating_sub(1), size, (size + 1).min(255), 255]);
        self.random.pick(&[any, inside, inside, edge])
    }

    fn list(&mut self, size: u64) -> Vec<u8> {
        let outside = self.random.chance(300);
        let n = self.random.below(80);
        let id = |run: &mut Run| match outside {
            true => run.id(size),
            false => run.random.below(size.max(1)),
        };
        (0..n).map(|_| id(self) as u8).collect()
    }

    fn made(&mut self, size: u64) -> SetCall {
        let size = if self.random.chance(100) { 0 } else { size };
        let byte = size as u8;
        match self.random.below(3) {
            0 => SetCall::New { size: byte, ones: self.random.flag() },
            1 => {
                let (start, end) = (self.id(size) as usize, self.id(size) as usize);
                SetCall::Range { size: byte, start, end }
            }
            _ => SetCall::List { size: byte, ids: self.list(size) },
        }
    }

    fn set_call(&mut self) -> SetCall {
        let size = self.size();
        let set = self.set(size);
        let other = if self.random.chance(700) { size } else { self.size() };
        let other = self.set(other);
        let id = self.id(size) as usize;
        match self.random.below(12) {
            0..3 => self.made(size),
            3 => SetCall::Set { set, id, flag: self.random.flag() },
            4 => SetCall::Get { set, id },
            5 => SetCall::Size(set),
            6 => SetCall::Count(set),
            7 => SetCall::Flip(set),
            8 => SetCall::Clear(set),
            9 => SetCall::Union(set, other),
            10 => SetCall::Superset(set, other),
            _ => SetCall::Ones(set),
        }
    }

    fn sets(&mut self, call: &SetCall) -> io::Result<()> {
        let answer = call.answer();
        expect(call, &answer)?;
        line(&mut self.batch.calls, call);
        match answer {
            SetAnswer::Refused(k) => {
                let rust = of_the_rust(call, k);
                self.larger += u64::from(rust == "*");
                text::words(&mut self.batch.answers, rust);
            }
            _ => leaves::write_set_answer(&mut self.batch.answers, &answer),
        }
        self.end_lines()
    }

    // What the Rust cannot be asked: ids wider than a byte, and lent bytes that are too few or too
    // many.
    fn sets_alone(&mut self) -> io::Result<()> {
        let size = self.size();
        let set = self.set(size);
        let wide = 256 + self.random.any_width() as usize % (usize::MAX - 256);
        let flag = self.random.flag();
        let (start, byte) = (self.random.below(300) as usize, size as u8);
        let calls = [
            SetCall::Set { set, id: wide, flag },
            SetCall::Get { set, id: wide },
            SetCall::Range { size: byte, start, end: wide },
            SetCall::Range { size: byte, start: wide, end: start },
        ];
        for call in &calls {
            expect(call, &call.answer())?;
        }
        for length in [0, 1, self.random.below(70) as usize, 64, 80] {
            lent_bytes(set, length)?;
        }
        self.alone += 9;
        Ok(())
    }
}

fn difference(what: String) -> io::Error {
    io::Error::other(format!("DIFFERENCE: {what}"))
}

// The library refuses what the rules refuse.
fn expect(call: &SetCall, answer: &SetAnswer) -> io::Result<()> {
    let got = if let SetAnswer::Refused(k) = answer { *k } else { 0 };
    if got == refusal(call) {
        return Ok(());
    }
    Err(difference(format!("{call:?}: refusal {got}, expected {}", refusal(call))))
}

// The ones into lent bytes of that length: 12, or 13 where they are too few, and then no byte
// changes.
fn lent_bytes(set: Ids, length: usize) -> io::Result<()> {
    let mut bytes = [0xa5u8; 80];
    let answer = leaves::ones_into(set, &mut bytes[..length]);
    let ones = masked(set).bits;
    let count = ones.count_ones() as usize;
    let refused = if set.size < 1 || set.size > 64 {
        12
    } else if count > length {
        13
    } else {
        0
    };
    let mut expected = [0xa5u8; 80];
    if refused == 0 {
        let ids = (0..64).filter(|id| ones >> id & 1 == 1);
        expected.iter_mut().zip(ids).for_each(|(byte, id)| *byte = id);
    }
    let value = if refused == 0 { count as u8 } else { 0 };
    if (answer.refused, answer.value) == (refused, value) && bytes == expected {
        return Ok(());
    }
    Err(difference(format!("ones of {set:?} into {length} bytes: {}, {bytes:?}", answer.refused)))
}

pub fn run(seed: u64, calls: u64, path: &str) -> io::Result<()> {
    let begin = Instant::now();
    let mut run = Run::new(seed, path)?;
    while run.sent < calls {
        let call = run.set_call();
        run.sets(&call)?;
        if run.random.chance(50) {
            run.sets_alone()?;
        }
    }
    run.finish("bitmap", begin)
}
