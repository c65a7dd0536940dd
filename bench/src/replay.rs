//! The program `replay` as plain Rust: event cards to output lines (docs/CARDS.md), by the rules of
//! `arrays`. The record stays in its place, nothing is allocated, a card is read where it stands in
//! the input, eight columns at a time, and a line is written where it stands in the output. It is
//! here to be timed beside the library; `compare.rs` shows that both print the same bytes.

use biasflint::raw::LineC;
use biasflint::{
    Bar, Bitmap, CAPACITY, LeaseAction, LeaseMsg, LeaseNotice, LeaseNum, Reading, ReplicaId,
};

use crate::arrays::{Actions, FiredList, Manager};
use crate::calls::line_of;

/// A card and a line with their newlines.
const CARD: usize = 74;
pub const LINE: usize = 70;

const NOT_OF_FORM: u64 = 21;
const NO_CARD: u64 = 22;
const OUT_OF_TURN: u64 = 23;

/// Writes what the cards of `input` print at the start of `out`, and answers how many bytes they
/// are. Panics where `out` has no room for them.
pub fn replay(input: &[u8], out: &mut [u8]) -> usize {
    Session::blank().replay(input, out)
}

/// Whether one of the lines is of the form, a number in each field.
pub fn has_card(text: &[u8]) -> bool {
    let mut lines = text.split_inclusive(|&byte| byte == b'\n');
    lines.any(|line| line.try_into().is_ok_and(|line| Card::read(line).is_some()))
}

/// What stands behind the first newline.
fn behind_line(input: &[u8]) -> &[u8] {
    let end = input.iter().position(|&byte| byte == b'\n');
    end.map_or(&[], |end| &input[end + 1..])
}

// ---- numbers in columns, read

const BLANKS: u64 = u64::from_le_bytes([b' '; 8]);
const ZEROS: u64 = u64::from_le_bytes([b'0'; 8]);

/// The six numbers of a card.
struct Card {
    code: u64,
    number: u64,
    peer: u64,
    size: u64,
    first: u64,
    second: u64,
}

impl Card {
    /// None where the line is not of the form.
    #[inline(always)]
    fn read(line: &[u8; CARD]) -> Option<Card> {
        if line[CARD - 1] != b'\n' {
            return None;
        }
        Some(Card {
            code: eight(word(line, 0) << 48 | BLANKS >> 16)?,
            number: twenty_one(line, 2)?,
            peer: eight(word(line, 23) << 32 | BLANKS >> 32)?,
            size: eight(word(line, 27) << 32 | BLANKS >> 32)?,
            first: twenty_one(line, 31)?,
            second: twenty_one(line, 52)?,
        })
    }
}

/// Eight columns, the first one lowest.
#[inline(always)]
fn word(line: &[u8; CARD], at: usize) -> u64 {
    let columns = line[at..].first_chunk().expect("columns of the line");
    u64::from_le_bytes(*columns)
}

/// The number in 21 columns.
#[inline(always)]
fn twenty_one(line: &[u8; CARD], at: usize) -> Option<u64> {
    let (start, middle, end) = (word(line, at), word(line, at + 5), word(line, at + 13));
    if start == BLANKS && middle == BLANKS {
        eight(end)
    } else {
        long_number(start << 24 | BLANKS >> 40, middle, end)
    }
}

/// A number with more than eight digits. A part that begins with 0 stands behind another.
fn long_number(start: u64, middle: u64, end: u64) -> Option<u64> {
    let end = digits(end)?;
    if start == BLANKS {
        let middle = eight(middle).filter(|&n| n != 0)?;
        return Some(middle * 100_000_000 + end);
    }
    let start = eight(start).filter(|&n| n != 0)?;
    let behind = digits(middle)? * 100_000_000 + end;
    start.checked_mul(10_000_000_000_000_000)?.checked_add(behind)
}

/// The number in eight columns: digits behind blanks, the first of them 0 only if it is alone.
#[inline(always)]
fn eight(columns: u64) -> Option<u64> {
    // one digit, as most numbers of a card have, or no number
    if columns & (u64::MAX >> 8) == BLANKS >> 8 {
        let digit = (columns >> 56).wrapping_sub(b'0'.into());
        return (digit < 10).then_some(digit);
    }
    let blank = (columns ^ BLANKS).trailing_zeros() & !7;
    if columns >> blank & 0xff == u64::from(b'0') {
        return None;
    }
    // with its lower half, a blank is the digit 0
    digits(columns | ZEROS & !(u64::MAX << blank))
}

/// The number of eight digits.
#[inline(always)]
fn digits(columns: u64) -> Option<u64> {
    const HIGH: u64 = u64::from_le_bytes([0xf0; 8]);
    let above_nine = columns.wrapping_add(u64::from_le_bytes([6; 8]));
    if columns & HIGH != ZEROS || above_nine & HIGH != ZEROS {
        return None;
    }
    // pairs of digits, then fours, then all eight
    let ones = columns - ZEROS;
    let pairs = (ones.wrapping_mul(10 << 8 | 1) >> 8) & 0x00ff_00ff_00ff_00ff;
    let fours = (pairs.wrapping_mul(100 << 16 | 1) >> 16) & 0x0000_ffff_0000_ffff;
    Some(fours.wrapping_mul(10_000 << 32 | 1) >> 32)
}

// ---- what a card does

/// What goes on from card to card.
pub struct Session {
    cards: u64,
    /// Where a set-up was accepted.
    pub manager: Option<Manager>,
    fired: FiredList,
}

impl Session {
    pub fn blank() -> Session {
        Session { cards: 0, manager: None, fired: FiredList::EMPTY }
    }

    /// All lines of `input`; see [`replay`].
    pub fn replay(&mut self, input: &[u8], out: &mut [u8]) -> usize {
        let mut out = Output { room: out, written: 0 };
        let mut rest = input;
        while !rest.is_empty() {
            self.cards = self.cards.saturating_add(1);
            let taken = match rest.first_chunk().and_then(Card::read) {
                Some(card) => {
                    rest = &rest[CARD..];
                    self.take(&card, &mut out)
                }
                None => {
                    rest = behind_line(rest);
                    Err(NOT_OF_FORM)
                }
            };
            if let Err(refusal) = taken {
                out.line(20, 0, 0, refusal, self.cards);
            }
        }
        out.written
    }

    /// Writes what the card prints; or why it is refused.
    #[inline(always)]
    fn take(&mut self, card: &Card, out: &mut Output) -> Result<(), u64> {
        let Card { code, number, peer, size, first, second } = *card;
        let id = peer as ReplicaId;
        let notice = match code {
            1 => return self.set_up(card),
            2 if peer | size | first | second == 0 => return self.advance(Reading(number), out),
            3 => {
                let accept_bar = match peer {
                    0 if second == 0 => None,
                    1 => Some(Bar(second)),
                    _ => return Err(NO_CARD),
                };
                LeaseNotice::NewGrants { peers: set(size, first)?, accept_bar }
            }
            4 if peer | second == 0 => LeaseNotice::DoRevoke { peers: set(size, first)? },
            5 if peer | size | first | second == 0 => LeaseNotice::ClearHeld,
            6 if second == 0 => LeaseNotice::RecvLeaseMsg { peer: id, msg: message(size, first)? },
            7 if size | first | second == 0 => LeaseNotice::GrantTimeout { peer: id },
            8 if size | first | second == 0 => LeaseNotice::LeaseTimeout { peer: id },
            _ => return Err(NO_CARD),
        };
        let manager = self.manager.as_mut().ok_or(OUT_OF_TURN)?;
        manager.add_notice(LeaseNum(number), notice, out).map_err(|refusal| refusal.number())
    }

    fn set_up(&mut self, card: &Card) -> Result<(), u64> {
        if self.manager.is_some() {
            return Err(OUT_OF_TURN);
        }
        let &Card { number, peer, size, first, second, .. } = card;
        let (me, population, now) = (peer as ReplicaId, size as usize, Reading(number));
        let manager = Manager::new_and_setup(me, population, first, second, now);
        self.manager = Some(manager.map_err(|refusal| refusal.number())?);
        Ok(())
    }

    #[inline(always)]
    fn advance(&mut self, to: Reading, out: &mut Output) -> Result<(), u64> {
        let manager = self.manager.as_mut().ok_or(OUT_OF_TURN)?;
        let quiet_end = manager.fire(to, &mut self.fired).map_err(|refusal| refusal.number())?;
        for &(_, held, id) in self.fired.timers() {
            out.line(if held { 15 } else { 14 }, manager.active_num, id.into(), 0, 0);
        }
        if let Some((num, action)) = quiet_end {
            out.put(num, action);
        }
        Ok(())
    }
}

fn set(size: u64, bits: u64) -> Result<Option<Bitmap>, u64> {
    match size {
        0 if bits == 0 => Ok(None),
        64 => Ok(Some(Bitmap::from_bits(CAPACITY, bits))),
        1..64 if bits >> size == 0 => Ok(Some(Bitmap::from_bits(size as usize, bits))),
        _ => Err(NO_CARD),
    }
}

#[inline(always)]
fn message(kind: u64, first: u64) -> Result<LeaseMsg, u64> {
    Ok(match (kind, first) {
        (1, 0) => LeaseMsg::Guard { accept_bar: None },
        (2, bar) => LeaseMsg::Guard { accept_bar: Some(Bar(bar)) },
        (3, 0) => LeaseMsg::GuardReply,
        (4, 0) => LeaseMsg::Promise,
        (5, 0..=1) => LeaseMsg::PromiseReply { held: first == 1 },
        (6, 0) => LeaseMsg::Revoke,
        (7, 0..=1) => LeaseMsg::RevokeReply { held: first == 1 },
        _ => return Err(NO_CARD),
    })
}

// ---- lines

/// A line of zeros, but for its code.
const ZERO_LINE: [u8; LINE] =
    *b"                      0   0                    0                    0\n";

/// The digits of 0 to 99, two each.
const PAIRS: [[u8; 2]; 100] = {
    let mut pairs = [[b'0'; 2]; 100];
    let mut n = 0;
    while n < 100 {
        pairs[n] = [b'0' + (n / 10) as u8, b'0' + (n % 10) as u8];
        n += 1;
    }
    pairs
};

struct Output<'a> {
    room: &'a mut [u8],
    written: usize,
}

impl Output<'_> {
    #[inline(always)]
    fn line(&mut self, code: u64, number: u64, peer: u64, first: u64, second: u64) {
        let line: &mut [u8; LINE] =
            self.room[self.written..].first_chunk_mut().expect("room for a line");
        *line = ZERO_LINE;
        write_number(&mut line[..2], code);
        write_number(&mut line[2..23], number);
        write_number(&mut line[23..27], peer);
        write_number(&mut line[27..48], first);
        write_number(&mut line[48..69], second);
        self.written += LINE;
    }
}

/// Puts the digits at the end of the columns, which have room for them.
#[inline(always)]
fn write_number(columns: &mut [u8], mut n: u64) {
    let mut end = columns.len();
    while n >= 100 {
        columns[end - 2..end].copy_from_slice(&PAIRS[(n % 100) as usize]);
        (n, end) = (n / 100, end - 2);
    }
    if n >= 10 {
        columns[end - 2..end].copy_from_slice(&PAIRS[n as usize]);
    } else {
        columns[end - 1] = b'0' + n as u8;
    }
}

/// Each action as its line.
impl Actions for Output<'_> {
    #[inline(always)]
    fn put(&mut self, num: LeaseNum, action: LeaseAction) {
        let LineC { code, number, peer, first, second } = line_of(num, action);
        self.line(code, number, peer, first, second);
    }
}
