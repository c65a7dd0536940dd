//! Calls the library many times with one kind of call, for a profiler to look at:
//! `parts promise|advance POPULATION CALLS`. Prints how many calls were made, and what memcpy
//! copied in one. `parts each` prints for one call of each code at population 64 what memcpy copied,
//! and how much stack it took.

use std::arch::asm;
use std::ffi::c_void;
use std::hint::black_box;
use std::sync::atomic::{AtomicU64, Ordering::Relaxed};
use std::{array, env, thread};

use bench::calls::{Raw, Side};
use bench::{cases, measure};
use biasflint::raw::{self, CallC, ManagerC};

static BYTES: AtomicU64 = AtomicU64::new(0);
static COPIES: AtomicU64 = AtomicU64::new(0);

unsafe extern "C" {
    fn __real_memcpy(to: *mut c_void, from: *const c_void, n: usize) -> *mut c_void;
}

/// What the linker puts in memcpy's place (build.rs).
///
/// # Safety
/// As memcpy.
#[unsafe(no_mangle)]
pub unsafe extern "C" fn __wrap_memcpy(
    to: *mut c_void,
    from: *const c_void,
    n: usize,
) -> *mut c_void {
    BYTES.store(BYTES.load(Relaxed) + n as u64, Relaxed);
    COPIES.store(COPIES.load(Relaxed) + 1, Relaxed);
    // SAFETY: as the caller has it.
    unsafe { __real_memcpy(to, from, n) }
}

/// How many bytes were copied, and in how many pieces.
fn copied() -> [u64; 2] {
    [BYTES.load(Relaxed), COPIES.load(Relaxed)]
}

// ---- stack

const GUARD: usize = 1 << 20;
const PATTERN: u8 = 0xa5;

/// How far down one call writes below its caller's frame, in bytes. On a thread of its own, whose
/// stack has room for the guard.
fn stack_of(record: ManagerC, card: CallC) -> usize {
    let thread = thread::Builder::new().stack_size(4 * GUARD);
    thread.spawn(move || written_below(record, card)).expect("a thread").join().expect("its answer")
}

#[inline(never)]
fn written_below(mut record: ManagerC, card: CallC) -> usize {
    let call: fn(&mut ManagerC, CallC) -> raw::AnswerC = black_box(raw::call);
    let top: usize;
    // SAFETY: below the stack pointer nothing is in use, and the thread's stack goes on there for
    // more than the guard.
    unsafe {
        asm!(
            "mov {top}, rsp",
            "lea rdi, [rsp - {guard}]",
            "mov ecx, {guard}",
            "rep stosb",
            top = out(reg) top,
            guard = const GUARD,
            out("rdi") _,
            out("rcx") _,
            in("al") PATTERN,
        );
    }
    black_box(call(&mut record, card));
    // SAFETY: as above; the bytes were written above.
    let is_written = |&at: &usize| unsafe { (at as *const u8).read_volatile() != PATTERN };
    (top - GUARD..top).find(is_written).map_or(0, |lowest| top - lowest)
}

/// A call of each code, where a promise is sent to each peer and one held from each. The advance lets
/// them all run out.
fn each() {
    println!("One call at population 64:  copied  pieces   stack");
    for (name, card) in cases::one_of_each(64) {
        let mut side = cases::granted(64);
        let stack = stack_of(side.0, card);
        let before = copied();
        side.run(&card);
        let [bytes, pieces] = array::from_fn(|i| copied()[i] - before[i]);
        println!("  {:>2}  {name:<20}{bytes:>10}{pieces:>8}{stack:>8}", card.code);
    }
}

// ---- for the profiler

/// What the profiler counts.
#[unsafe(no_mangle)]
#[inline(never)]
pub fn measured_calls(side: &mut Raw, cards: &[CallC]) {
    cards.iter().for_each(|card| side.run(card));
}

fn main() {
    let args: Vec<String> = env::args().skip(1).collect();
    if args == ["each"] {
        return each();
    }
    let [kind, population, calls] = &args[..] else {
        panic!("parts each, or parts promise|advance POPULATION CALLS")
    };
    let name = match &kind[..] {
        "promise" => cases::PROMISE,
        _ => cases::ADVANCE,
    };
    let (population, calls): (usize, usize) = (population.parse().unwrap(), calls.parse().unwrap());
    let case = cases::all(population)
        .into_iter()
        .find(|case| case.name == name)
        .expect("a case of that name");
    let cards: Vec<CallC> = case.list.iter().map(Raw::give).collect();
    let start: Raw = measure::start(&case);
    let mut counted = [0; 3];
    while counted[0] < calls as u64 {
        let mut side = start.clone();
        let before = copied();
        measured_calls(&mut side, &cards);
        let [bytes, copies] = array::from_fn(|i| copied()[i] - before[i]);
        counted = [counted[0] + cards.len() as u64, counted[1] + bytes, counted[2] + copies];
    }
    let [calls, bytes, copies] = counted;
    println!(
        "{calls} calls; memcpy copied {} bytes in {} pieces a call",
        bytes / calls,
        copies / calls
    );
}
