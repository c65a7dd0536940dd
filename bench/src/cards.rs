//! Event cards drawn from a seed (docs/CARDS.md): a session that goes on for as many cards as are
//! wanted, aimed by the tables as they stand, and lines that are spoiled.

use std::io::Write;

use crate::arrays::{Manager, Timer};
use crate::random::Random;
use crate::replay::{self, LINE, Session};

const T: u64 = 2_000_000_000;
const HEARTBEAT: u64 = 100_000_000;
const START: u64 = 1_000_000_000_000;

/// A card's code, number, peer, size, first, second.
type Numbers = [u64; 6];

/// The widths of a card's columns.
const WIDTHS: [usize; 6] = [2, 21, 4, 4, 21, 21];

/// A session of so many lines behind its set-up, as the bytes of its cards. Of 1,000 lines about 770
/// are messages that mostly do something, 50 NewGrants, DoRevoke and ClearHeld, 100 advances, of
/// which a tenth fire timers, 50 timeouts, and 30 refused, for whatever reason there is; one in 500
/// has a higher number.
pub fn session(seed: u64, population: usize, lines: usize) -> Vec<u8> {
    let mut deck = Deck::new(seed, population);
    deck.before_set_up();
    for _ in 0..lines {
        deck.deal();
    }
    deck.text
}

/// A short session at any population, in which many lines are spoiled and the last may have no
/// newline; now and then bytes without any sense.
pub fn odd_input(seed: u64) -> Vec<u8> {
    let mut random = Random::new(!seed);
    if random.one_in(20) {
        return any_line(&mut random);
    }
    let population = random.pick(&[1, 2, 3, 5, 17, 64]);
    let mut deck = Deck::new(seed, population);
    if random.one_in(2) {
        deck.before_set_up();
    }
    deck.set_up();
    let spoiled = random.pick(&[0, 100, 500]);
    for _ in 0..random.between(20, 600) {
        if random.chance(spoiled) {
            deck.spoiled();
        } else {
            deck.deal();
        }
    }
    if random.flag() {
        let end = deck.text.len() - random.below(74) as usize;
        deck.text.truncate(end);
    }
    deck.text
}

struct Deck {
    random: Random,
    /// The own id and the population.
    me: usize,
    population: usize,
    /// As the plain program is left by the cards so far.
    session: Session,
    text: Vec<u8>,
}

impl Deck {
    fn new(seed: u64, population: usize) -> Self {
        let mut random = Random::new(seed);
        let me = random.below(population as u64) as usize;
        Deck { random, me, population, session: Session::blank(), text: vec![] }
    }

    /// Behind the set-up.
    fn manager(&self) -> &Manager {
        self.session.manager.as_ref().expect("a set-up")
    }

    // ---- lines

    fn write(&mut self, card: Numbers) {
        self.write_line(line_of(card).expect("numbers that have room"));
    }

    fn write_line(&mut self, line: Vec<u8>) {
        let mut printed = [0; 300 * LINE];
        self.session.replay(&line, &mut printed);
        self.text.extend(line);
    }

    fn set_up_card(&self) -> Numbers {
        [1, START, self.me as u64, self.population as u64, T, HEARTBEAT]
    }

    fn set_up(&mut self) {
        self.write(self.set_up_card());
    }

    /// Cards before an accepted set-up, and it.
    fn before_set_up(&mut self) {
        let [code, now, me, population, t, heartbeat] = self.set_up_card();
        self.write([2, START, 0, 0, 0, 0]);
        self.write([5, 1, 0, 0, 0, 0]);
        self.write([code, now, me, population, 99_999_999, 0]);
        self.write([code, now, me, population, t, t / 2]);
        self.write([code, now, me, 300, t, heartbeat]);
        self.write([code, now, population, population, t, heartbeat]);
        self.write([code, 1 << 63, me, population, t, heartbeat]);
        self.set_up();
    }

    /// One line more.
    fn deal(&mut self) {
        let card = match self.random.below(1000) {
            0..50 => self.wish(),
            50..150 => self.advance(),
            150..200 => self.timeout(),
            200..202 => self.higher(),
            202..222 => self.outdated(),
            222..252 => return self.refused(),
            _ => self.message(),
        };
        self.write(card);
    }

    // ---- cards that are accepted

    fn peer(&mut self) -> usize {
        let others = self.population.max(2) as u64 - 1;
        (self.me + 1 + self.random.below(others) as usize) % self.population
    }

    fn message(&mut self) -> Numbers {
        let peer = self.peer();
        let (kind, first) =
            if self.random.chance(900) { self.useful(peer) } else { self.any_kind() };
        [6, self.manager().active_num, peer as u64, kind, first, 0]
    }

    /// A message of the peer that the tables wait for.
    fn useful(&mut self, peer: usize) -> (u64, u64) {
        let row = self.manager().rows[peer];
        if self.random.flag() {
            if row.guard_sent {
                return (3, 0);
            }
            if let Some(grant) = row.promise_sent {
                return if grant.revoking { (7, 1) } else { (5, (!self.random.one_in(30)).into()) };
            }
        }
        match (row.guard_held, row.promise_held) {
            (None, None) if self.random.one_in(3) => (2, self.random.any_width()),
            (None, None) => (1, 0),
            (None, Some(_)) if self.random.one_in(15) => (6, 0),
            _ => (4, 0),
        }
    }

    fn any_kind(&mut self) -> (u64, u64) {
        match self.random.between(1, 7) {
            2 => (2, self.random.any()),
            kind @ (5 | 7) => (kind, self.random.below(2)),
            kind => (kind, 0),
        }
    }

    fn wish(&mut self) -> Numbers {
        let number = self.manager().active_num;
        let (size, set) = self.set();
        match self.random.below(10) {
            0 => [5, number, 0, 0, 0, 0],
            1..4 => [4, number, 0, size, set, 0],
            4..6 => [3, number, 1, size, set, self.random.any_width()],
            _ => [3, number, 0, size, set, 0],
        }
    }

    /// No set, or one of the population.
    fn set(&mut self) -> (u64, u64) {
        let population = self.population as u64;
        let ids = self.random.any() >> (64 - population);
        if self.random.flag() { (population, ids) } else { (0, 0) }
    }

    /// Nine times of ten nothing is due; else the earliest deadline, and what comes soon after it.
    fn advance(&mut self) -> Numbers {
        let now = self.manager().now;
        let (soon, fires) = (self.random.below(T / 200), self.random.one_in(10));
        let to = match self.earliest() {
            Some(deadline) if fires => deadline + soon,
            Some(deadline) => (now + soon).min(deadline - 1),
            None => now + soon,
        };
        [2, to, 0, 0, 0, 0]
    }

    fn earliest(&self) -> Option<u64> {
        let rows = self.manager().rows.iter();
        let timers = rows.flat_map(|row| {
            [row.promise_sent.map(|grant| grant.timer), row.guard_held, row.promise_held]
        });
        timers
            .filter_map(|timer| if let Some(Timer::Armed(d)) = timer { Some(d) } else { None })
            .min()
    }

    /// Mostly of a timer that has exploded.
    fn timeout(&mut self) -> Numbers {
        let exploded = |timer| timer == Some(Timer::Exploded);
        let rows = self.manager().rows.iter().enumerate();
        let fired: Vec<(u64, u64)> = rows
            .flat_map(|(id, row)| {
                let sent = exploded(row.promise_sent.map(|grant| grant.timer));
                let held = exploded(row.guard_held) || exploded(row.promise_held);
                [sent.then_some((7, id as u64)), held.then_some((8, id as u64))]
            })
            .flatten()
            .collect();
        let (code, peer) = match fired.is_empty() {
            true => (7 + self.random.below(2), self.peer() as u64),
            false => self.random.pick(&fired),
        };
        [code, self.manager().active_num, peer, 0, 0, 0]
    }

    fn higher(&mut self) -> Numbers {
        let [code, number, rest @ ..] =
            if self.random.flag() { self.message() } else { self.wish() };
        let [peer, size, first, second] = rest;
        let number = number.saturating_add(self.random.between(1, 3));
        [code, number, peer, size, first, second]
    }

    fn outdated(&mut self) -> Numbers {
        let number = self.manager().active_num.saturating_sub(self.random.between(1, 2));
        let (kind, first) = if self.random.flag() { (6, 0) } else { self.any_kind() };
        [6, number, self.peer() as u64, kind, first, 0]
    }

    // ---- lines that are refused, and lines that may be

    fn refused(&mut self) {
        let &Manager { now, active_num, .. } = self.manager();
        let (me, population) = (self.me as u64, self.population as u64);
        let (peer, any) = (self.peer() as u64, self.random.any_width());
        let card = match self.random.below(18) {
            0..6 => return self.not_of_form(),
            6 => [self.random.pick(&[0, 9, 16, 99]), active_num, peer, 0, 0, 0],
            7 => [6, active_num, peer, self.random.pick(&[0, 8, 64]), 0, 0],
            8 => [6, active_num, peer, 5, 2 + any / 2, 0],
            9 => [5, active_num, 0, 0, 0, any | 1],
            10 => [4, active_num, 0, 65 + any % 300, 1, 0],
            11 => [3, active_num, 2, 0, 0, any],
            12 => self.set_up_card(),
            13 => [2, (1 << 63) + any / 2, 0, 0, 0, 0],
            14 => [2, now - 1 - any % START, 0, 0, 0, 0],
            15 => [6, active_num, population + any % 300, 4, 0, 0],
            16 => [7, active_num, me, 0, 0, 0],
            _ => [4, active_num, 0, 1 + population % 64, 1, 0],
        };
        self.write(card);
    }

    fn not_of_form(&mut self) {
        let mut line = self.spoiled_line();
        while replay::has_card(&line) {
            line = self.spoiled_line();
        }
        self.write_line(line);
    }

    /// It may be accepted.
    fn spoiled(&mut self) {
        let line = self.spoiled_line();
        self.write_line(line);
    }

    /// A message, or a card of any numbers, with one thing changed.
    fn spoiled_line(&mut self) -> Vec<u8> {
        let mut card = self.message();
        if self.random.flag() {
            let field = self.random.below(6) as usize;
            let any = self.random.any_width();
            card[field] = self.random.pick(&[0, 1, 2, 8, 9, 64, 65, 300, any, u64::MAX]);
        }
        let mut line = line_of(card).unwrap_or_else(|| any_line(&mut self.random));
        spoil(&mut self.random, &mut line);
        line
    }
}

/// None where a number has no room.
fn line_of(card: Numbers) -> Option<Vec<u8>> {
    let mut line = Vec::with_capacity(74);
    for (n, width) in card.into_iter().zip(WIDTHS) {
        write!(line, "{n:width$}").expect("a Vec takes all");
    }
    line.push(b'\n');
    (line.len() == 74).then_some(line)
}

fn spoil(random: &mut Random, line: &mut Vec<u8>) {
    match random.below(8) {
        0 => *line = any_line(random),
        1 => line.insert(line.len() - 1, b'\r'),
        2..5 => other_byte(random, line),
        _ => other_field(random, line),
    }
}

/// A byte more, a byte fewer, or another byte: any of them, a newline too.
fn other_byte(random: &mut Random, line: &mut Vec<u8>) {
    let at = random.below(line.len() as u64) as usize;
    let any = random.below(256) as u8;
    let byte = random.pick(&[0, b'\r', b'\n', b' ', b'0', b'9', b'-', b':', b'/', 255, any]);
    match random.below(3) {
        0 => line[at] = byte,
        1 => line.insert(at, byte),
        _ => drop(line.remove(at)),
    }
}

/// Columns that hold no number, or one that is too large, or another.
fn other_field(random: &mut Random, line: &mut [u8]) {
    let field = random.below(6) as usize;
    let (from, width) = (WIDTHS[..field].iter().sum(), WIDTHS[field]);
    let Some(columns) = line.get_mut(from..from + width) else { return };
    let old = String::from_utf8_lossy(columns).trim_start().to_string();
    let digits = random.between(1, width as u64) as usize;
    let long: String = (0..digits).map(|_| char::from(b'0' + random.below(10) as u8)).collect();
    let new = match random.below(9) {
        0 => " ".repeat(width),
        1 => format!("{:>width$}", format!("0{old}")),
        2 => format!("{:>width$}", format!("+{old}")),
        3 => format!("{old:<width$}"),
        4 => "9".repeat(width),
        5 => format!("{:>width$}", "18446744073709551615"),
        6 => format!("{:>width$}", "18446744073709551616"),
        _ => format!("{long:>width$}"),
    };
    let new = new.as_bytes();
    columns.copy_from_slice(&new[new.len() - width..]);
}

fn any_line(random: &mut Random) -> Vec<u8> {
    let length = random.pick(&[0, 0, 1, 72, 73, 74, 75, 147, 5000]);
    let digits = random.flag();
    let mut byte = || if digits { b'0' + random.below(10) as u8 } else { random.below(256) as u8 };
    let mut line: Vec<u8> = (0..length).map(|_| byte()).collect();
    line.push(b'\n');
    line
}
