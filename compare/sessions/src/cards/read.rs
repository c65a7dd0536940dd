//! An event card read (rules 14.1 to 14.3), in a few lines that know nothing of the program: 21 and
//! 22, and the call that a card says.
use crate::call::{Call, Ids, Msg, Notice, PeerSet, SetUp};

/// Where each field of a card ends.
const ENDS: [usize; 6] = [2, 23, 27, 31, 52, 73];

// Decimal, right-justified, no leading zeros, below 2^64.
fn number(field: &[u8]) -> Option<u64> {
    let blanks = field.iter().take_while(|b| **b == b' ').count();
    let digits = &field[blanks..];
    let zero_first = digits.len() > 1 && digits[0] == b'0';
    if digits.is_empty() || zero_first || !digits.iter().all(u8::is_ascii_digit) {
        return None;
    }
    std::str::from_utf8(digits).ok()?.parse().ok()
}

fn numbers(line: &[u8]) -> Option<[u64; 6]> {
    if line.len() != 73 {
        return None;
    }
    let mut all = [0; 6];
    let mut from = 0;
    for (n, end) in all.iter_mut().zip(ENDS) {
        *n = number(&line[from..end])?;
        from = end;
    }
    Some(all)
}

fn set(size: u64, first: u64) -> Option<PeerSet> {
    match size {
        0 => (first == 0).then_some(None),
        1..64 => (first >> size == 0).then_some(Some(Ids { size, bits: first })),
        64 => Some(Some(Ids { size, bits: first })),
        _ => None,
    }
}

fn bar(flag: u64, second: u64) -> Option<Option<u64>> {
    match (flag, second) {
        (0, 0) => Some(None),
        (1, bar) => Some(Some(bar)),
        _ => None,
    }
}

fn held(first: u64) -> Option<bool> {
    [false, true].get(usize::try_from(first).ok()?).copied()
}

fn msg(kind: u64, first: u64) -> Option<Msg> {
    match (kind, first) {
        (1, 0) => Some(Msg::Guard(None)),
        (2, bar) => Some(Msg::Guard(Some(bar))),
        (3, 0) => Some(Msg::GuardReply),
        (4, 0) => Some(Msg::Promise),
        (5, first) => Some(Msg::PromiseReply(held(first)?)),
        (6, 0) => Some(Msg::Revoke),
        (7, first) => Some(Msg::RevokeReply(held(first)?)),
        _ => None,
    }
}

fn call([code, number, peer, size, first, second]: [u64; 6]) -> Option<Call> {
    let notice = match (code, peer, size, first, second) {
        (1, me, population, expire_timeout, heartbeat) => {
            let start = number;
            return Some(Call::SetUp(SetUp { start, me, population, expire_timeout, heartbeat }));
        }
        (2, 0, 0, 0, 0) => return Some(Call::Advance(number)),
        (3, flag, size, first, second) => Notice::NewGrants(set(size, first)?, bar(flag, second)?),
        (4, 0, size, first, 0) => Notice::DoRevoke(set(size, first)?),
        (5, 0, 0, 0, 0) => Notice::ClearHeld,
        (6, peer, kind, first, 0) => Notice::Message(peer, msg(kind, first)?),
        (7, peer, 0, 0, 0) => Notice::GrantTimeout(peer),
        (8, peer, 0, 0, 0) => Notice::LeaseTimeout(peer),
        _ => return None,
    };
    Some(Call::Notice(number, notice))
}

/// The call of a line, or 21 or 22. The line has no newline.
pub fn line(line: &[u8]) -> Result<Call, u64> {
    call(numbers(line).ok_or(21u64)?).ok_or(22)
}
