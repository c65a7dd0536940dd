//! Child of timer.rs: reads a timer's private state.
use super::{Instant, Timer};

/// A timer's state (rule 1.9).
#[derive(Clone, Copy, PartialEq, Eq, Debug)]
pub enum State {
    Unarmed,
    Armed(Instant),
    Exploded,
}

pub fn state(timer: &Timer) -> State {
    if timer.exploded() {
        return State::Exploded;
    }
    match *timer.deadline_tx.borrow() {
        None => State::Unarmed,
        Some(deadline) => State::Armed(deadline),
    }
}
