//! Sets of ids.
use super::Generator;
use crate::call::{Ids, PeerSet};
use biasflint::raw::ManagerC;

/// The ids below the size.
fn below(size: u64) -> u64 {
    if size >= 64 { u64::MAX } else { (1 << size) - 1 }
}

impl Generator {
    // A set of that size: empty, full, full but for the own id, one id, or any.
    fn set(&mut self, size: u64, me: usize) -> Ids {
        let any = self.random.any();
        let sparse = any & self.random.any();
        let bits = match self.random.below(10) {
            0 => 0,
            1 => u64::MAX,
            2 => !(1 << me),
            3..5 => 1 << self.random.below(size.min(64)),
            5 => 1 << me,
            6 => sparse,
            7 => any & !(1 << me),
            _ => any,
        };
        Ids { size, bits: bits & below(size) }
    }

    /// For NewGrants and DoRevoke.
    pub(super) fn peer_set(&mut self, m: &ManagerC) -> PeerSet {
        if self.random.chance(350) {
            return None;
        }
        Some(self.set(m.population as u64, m.me))
    }

    /// For a refresh: of any size.
    pub(super) fn refresh_set(&mut self, m: &ManagerC) -> PeerSet {
        match self.random.below(10) {
            0..4 => None,
            4..7 => Some(self.set(m.population as u64, m.me)),
            _ => {
                let size = self.random.between(1, 64);
                Some(self.set(size, m.me))
            }
        }
    }

    /// Of another size than that: up to a byte's largest, at times more.
    pub(super) fn other_size(&mut self, not: u64) -> Ids {
        let near = self.random.pick(&[not - 1, not + 1, 64, 65, 255, 256, u64::MAX]);
        let size = if self.random.flag() { near } else { self.random.between(1, 255) };
        let size = if size == 0 || size == not { not + 1 } else { size };
        Ids { size, bits: self.random.any() }
    }
}
