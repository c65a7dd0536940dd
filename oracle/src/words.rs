//! The words of a line: numbers, flags, sets. `None` is a malformed word.

use std::fmt::Write as _;

use crate::utils::Bitmap;

/// The words of one line; word 0 is the call.
#[derive(Clone, Copy)]
pub struct Words<'a>(pub &'a [&'a str]);

impl<'a> Words<'a> {
    pub fn at(self, i: usize) -> Option<&'a str> {
        self.0.get(i).copied()
    }

    pub fn number(self, i: usize) -> Option<u64> {
        self.at(i)?.parse().ok()
    }

    pub fn byte(self, i: usize) -> Option<u8> {
        self.at(i)?.parse().ok()
    }

    pub fn flag(self, i: usize) -> Option<bool> {
        match self.at(i)? {
            "0" => Some(false),
            "1" => Some(true),
            _ => None,
        }
    }

    /// `-` or a bar.
    pub fn bar(self, i: usize) -> Option<Option<usize>> {
        or_none(self.at(i)?, |w| w.parse().ok())
    }

    /// `-` (the true clock) or a drift setting.
    pub fn drift(self, i: usize) -> Option<Option<i8>> {
        or_none(self.at(i)?, |w| w.parse().ok())
    }

    /// `-` or a set.
    pub fn maybe_set(self, i: usize) -> Option<Option<Bitmap>> {
        or_none(self.at(i)?, read_set)
    }

    pub fn set(self, i: usize) -> Option<Bitmap> {
        read_set(self.at(i)?)
    }

    /// Ids with commas between; the empty list may be left out.
    pub fn list(self, i: usize) -> Option<Vec<u8>> {
        read_ids(self.at(i).unwrap_or(""))
    }
}

fn or_none<T>(word: &str, read: impl Fn(&str) -> Option<T>) -> Option<Option<T>> {
    if word == "-" { Some(None) } else { read(word).map(Some) }
}

/// `size:id,id,..`; the size not 0, the ids below it.
fn read_set(word: &str) -> Option<Bitmap> {
    let (size, rest) = word.split_once(':')?;
    let size: u8 = size.parse().ok()?;
    let ids = read_ids(rest)?;
    if size == 0 || ids.iter().any(|&id| id >= size) {
        return None;
    }
    Some(Bitmap::from((size, ids)))
}

fn read_ids(word: &str) -> Option<Vec<u8>> {
    word.split(',')
        .filter(|w| !w.is_empty())
        .map(|w| w.parse().ok())
        .collect()
}

pub fn show_ids(ids: &[u8]) -> String {
    let mut out = String::new();
    for (i, id) in ids.iter().enumerate() {
        let _ = write!(out, "{}{id}", if i > 0 { "," } else { "" });
    }
    out
}

pub fn show_set(set: &Bitmap) -> String {
    format!("{}:{}", set.size(), show_ids(&Vec::<u8>::from(set)))
}
