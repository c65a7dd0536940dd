//! Numbers, sets and lists of ids as text, written to a buffer that is kept: the runs write some
//! hundred million.

/// The decimals of n.
pub fn number(out: &mut Vec<u8>, n: u64) {
    if n < 10 {
        out.push(b'0' + n as u8);
        return;
    }
    let mut digits = [0u8; 20];
    let mut at = digits.len();
    let mut rest = n;
    while rest > 0 {
        at -= 1;
        digits[at] = b'0' + (rest % 10) as u8;
        rest /= 10;
    }
    out.extend_from_slice(&digits[at..]);
}

pub fn words(out: &mut Vec<u8>, text: &str) {
    out.extend_from_slice(text.as_bytes());
}

/// The ids of the ones, ascending, with commas between.
pub fn ids(out: &mut Vec<u8>, bits: u64) {
    let mut rest = bits;
    while rest > 0 {
        number(out, u64::from(rest.trailing_zeros()));
        rest &= rest - 1;
        if rest > 0 {
            out.push(b',');
        }
    }
}

/// A set: `size:id,id,..`.
pub fn set(out: &mut Vec<u8>, size: u64, bits: u64) {
    number(out, size);
    out.push(b':');
    ids(out, bits);
}

/// A blank and the decimals of n, for each.
pub fn numbers(out: &mut Vec<u8>, all: &[u64]) {
    for &n in all {
        out.push(b' ');
        number(out, n);
    }
}

/// What a buffer holds, for a message.
pub fn shown(bytes: &[u8]) -> String {
    String::from_utf8_lossy(bytes).into_owned()
}
