//! Cards spoiled on purpose, and lines that are none.
use crate::random::Random;
use crate::sample;

const WIDTHS: [usize; 6] = [2, 21, 4, 4, 21, 21];

// The six numbers of a card with one of them changed: unknown codes and kinds, unused fields that are
// not 0, flags above 1, sizes above 64, ones above a size.
fn other_number(random: &mut Random, numbers: [u64; 6]) -> String {
    let mut numbers = numbers;
    let field = random.below(6) as usize;
    let any = random.any_width();
    let last = 10u64.checked_pow(WIDTHS[field] as u32).map_or(u64::MAX, |above| above - 1);
    numbers[field] = random.pick(&[0, 1, 2, 8, 9, 64, 65, 300, any, u64::MAX]).min(last);
    sample::card_columns(&numbers).expect("numbers that have room")
}

// A line of the right length whose bytes are wrong in one field.
fn other_field(random: &mut Random, card: &str) -> String {
    let mut columns = [("", 0); 6];
    let mut from = 0;
    for (column, width) in columns.iter_mut().zip(WIDTHS) {
        *column = (&card[from..from + width], width);
        from += width;
    }
    let field = random.below(6) as usize;
    let (old, width) = columns[field];
    let digits = old.trim_start();
    let new = match random.below(6) {
        0 => " ".repeat(width),
        1 => format!("{:>width$}", format!("0{digits}")),
        2 => format!("{:>width$}", format!("+{digits}")),
        3 => format!("{digits:<width$}"),
        4 => "9".repeat(width),
        _ => format!("{:>width$}", "18446744073709551616"),
    };
    let new: String = new.chars().take(width).collect();
    let before: String = columns[..field].iter().map(|(text, _)| *text).collect();
    let after: String = columns[field + 1..].iter().map(|(text, _)| *text).collect();
    before + &new + &after
}

// A byte more, a byte fewer, or another byte: any of them, a newline too.
fn other_byte(random: &mut Random, card: &str) -> Vec<u8> {
    let mut bytes = card.as_bytes().to_vec();
    let at = random.below(bytes.len() as u64) as usize;
    let any = random.below(256) as u8;
    let byte = random.pick(&[0, b'\r', b'\t', b' ', b'0', b'-', 255, any]);
    match random.below(3) {
        0 => bytes[at] = byte,
        1 => bytes.insert(at, byte),
        _ => drop(bytes.remove(at)),
    }
    bytes
}

fn any_bytes(random: &mut Random) -> Vec<u8> {
    let length = random.pick(&[0, 0, 1, 72, 73, 74, 75, 147, 5000]);
    let digits = random.chance(500);
    let mut byte = || if digits { b'0' + random.below(10) as u8 } else { random.below(256) as u8 };
    (0..length).map(|_| byte()).collect()
}

/// Lines made of a card, each with its newline: mostly one.
pub fn lines(random: &mut Random, numbers: [u64; 6]) -> Vec<u8> {
    let card = sample::card_columns(&numbers);
    let mut lines = match (card, random.below(6)) {
        (Some(card), 0) => other_byte(random, &card),
        (Some(card), 1 | 2) => other_field(random, &card).into_bytes(),
        (Some(_), 3) | (None, _) => any_bytes(random),
        (Some(card), 4) => (card + "\r").into_bytes(),
        (Some(_), _) => other_number(random, numbers).into_bytes(),
    };
    lines.push(b'\n');
    lines
}
