//! Sets of ids.

use std::error::Error;
use std::fmt;

use crate::ReplicaId;

/// How many ids a set has room for.
pub const CAPACITY: usize = 64;

/// A set of ids below a size, which is 1 to 64 (rule 2.1).
///
/// A set of another size can be made, so that the manager is the one to judge it: it is refused
/// with 9 in a notice and with 12 in a refresh. Such a set has no ids but those below both its size
/// and 64, and [`set`](Bitmap::set), [`get`](Bitmap::get) and [`union`](Bitmap::union) give
/// [`BitmapError::BadSize`] on it. Nothing here panics.
///
/// ```
/// use biasflint::Bitmap;
///
/// let mut peers = Bitmap::new(5, true);
/// peers.set(2, false)?;
/// assert_eq!(peers.count(), 4);
/// assert_eq!(format!("{peers:?}"), "{0,1,3,4}");
/// # Ok::<(), biasflint::BitmapError>(())
/// ```
#[derive(Clone, Copy, PartialEq, Eq, Hash)]
pub struct Bitmap {
    size: usize,
    // Id i is 2 to the i. No bit at or above the size is set.
    bits: u64,
}

/// Why a set could not do what was asked, under the number of its rule, 10.N.
///
/// ```
/// use biasflint::{Bitmap, BitmapError};
///
/// assert_eq!(Bitmap::new(3, false).get(3), Err(BitmapError::BadId));
/// assert_eq!(BitmapError::BadId.number(), 10);
/// ```
#[derive(Clone, Copy, Debug, PartialEq, Eq, Hash)]
pub enum BitmapError {
    /// 12, looked at first: the size is not 1 to 64.
    BadSize = 12,
    /// 10: the id is not below the size.
    BadId = 10,
    /// 11: the union of sets of different sizes.
    SizesDiffer = 11,
}

impl Bitmap {
    /// A set of that size, of all its ids or of none. Unlike the Rust it follows, it takes size 0.
    ///
    /// ```
    /// use biasflint::Bitmap;
    ///
    /// assert_eq!(Bitmap::new(3, true).count(), 3);
    /// assert_eq!(Bitmap::new(3, false).count(), 0);
    /// ```
    #[must_use]
    pub const fn new(size: usize, ones: bool) -> Self {
        Bitmap::from_bits(size, if ones { u64::MAX } else { 0 })
    }

    /// The set of that size whose ids are the ones of a number, id i as 2 to the i. Ones at or
    /// above the size count as zeros.
    ///
    /// ```
    /// use biasflint::Bitmap;
    ///
    /// assert_eq!(format!("{:?}", Bitmap::from_bits(3, 0b1110)), "{1,2}");
    /// ```
    #[must_use]
    pub const fn from_bits(size: usize, bits: u64) -> Self {
        let within = match size {
            0..CAPACITY => (1 << size) - 1,
            _ => u64::MAX,
        };
        let bits = bits & within;
        Bitmap { size, bits }
    }

    /// The set of that size that has those ids, from a range or a list.
    ///
    /// # Errors
    /// As [`set`](Bitmap::set).
    ///
    /// ```
    /// use biasflint::{Bitmap, BitmapError};
    ///
    /// assert_eq!(Bitmap::from_ids(4, 1..3), Bitmap::from_ids(4, [2, 1]));
    /// assert_eq!(Bitmap::from_ids(4, [0, 4]), Err(BitmapError::BadId));
    /// ```
    pub fn from_ids<I>(size: usize, ids: I) -> Result<Self, BitmapError>
    where
        I: IntoIterator<Item = ReplicaId>,
    {
        let mut map = Bitmap::new(size, false);
        map.check_size()?;
        for id in ids {
            map.set(id, true)?;
        }
        Ok(map)
    }

    fn check_size(&self) -> Result<(), BitmapError> {
        match self.size {
            1..=CAPACITY => Ok(()),
            _ => Err(BitmapError::BadSize),
        }
    }

    // The number of the set that has the id alone, once the size and the id are looked at.
    fn bit_of(&self, idx: ReplicaId) -> Result<u64, BitmapError> {
        self.check_size()?;
        if idx < self.size { Ok(1 << idx) } else { Err(BitmapError::BadId) }
    }

    /// Puts an id in or takes it out.
    ///
    /// # Errors
    /// `BadSize`, then `BadId`; the set is then as before.
    pub fn set(&mut self, idx: ReplicaId, flag: bool) -> Result<(), BitmapError> {
        let bit = self.bit_of(idx)?;
        self.bits = if flag { self.bits | bit } else { self.bits & !bit };
        Ok(())
    }

    /// Whether an id is in.
    ///
    /// # Errors
    /// `BadSize`, then `BadId`.
    pub fn get(&self, idx: ReplicaId) -> Result<bool, BitmapError> {
        Ok(self.bits & self.bit_of(idx)? != 0)
    }

    /// The size that the set was made with.
    #[must_use]
    pub const fn size(&self) -> usize {
        self.size
    }

    /// How many ids are in.
    #[must_use]
    pub const fn count(&self) -> usize {
        self.bits.count_ones() as usize
    }

    /// Takes out what is in and puts in what is not.
    pub const fn flip(&mut self) {
        *self = Bitmap::from_bits(self.size, !self.bits);
    }

    /// Puts in the ids of another set of the same size.
    ///
    /// # Errors
    /// `BadSize` of either, then `SizesDiffer`; the set is then as before.
    ///
    /// ```
    /// use biasflint::{Bitmap, BitmapError};
    ///
    /// let mut map = Bitmap::from_ids(5, [1])?;
    /// map.union(&Bitmap::from_ids(5, [4])?)?;
    /// assert_eq!(map, Bitmap::from_ids(5, [1, 4])?);
    /// assert_eq!(map.union(&Bitmap::new(4, false)), Err(BitmapError::SizesDiffer));
    /// # Ok::<(), BitmapError>(())
    /// ```
    pub fn union(&mut self, other: &Self) -> Result<(), BitmapError> {
        self.check_size()?;
        other.check_size()?;
        if self.size != other.size {
            return Err(BitmapError::SizesDiffer);
        }
        self.bits |= other.bits;
        Ok(())
    }

    /// Whether every id of another set is in. It speaks of the ones alone, so sizes may differ.
    #[must_use]
    pub const fn is_superset(&self, other: &Self) -> bool {
        other.bits & !self.bits == 0
    }

    /// Takes all ids out.
    pub const fn clear(&mut self) {
        self.bits = 0;
    }

    /// The set as a number, id i as 2 to the i.
    #[must_use]
    pub const fn bits(&self) -> u64 {
        self.bits
    }

    /// The ids that are in, ascending.
    ///
    /// ```
    /// use biasflint::Bitmap;
    ///
    /// assert!(Bitmap::from_bits(5, 0b10110).ones().eq([1, 2, 4]));
    /// ```
    #[must_use]
    pub const fn ones(&self) -> Ones {
        Ones { left: self.bits }
    }
}

/// The ids of a set, ascending; see [`Bitmap::ones`].
#[derive(Clone, Debug)]
pub struct Ones {
    left: u64,
}

impl Iterator for Ones {
    type Item = ReplicaId;

    fn next(&mut self) -> Option<ReplicaId> {
        if self.left == 0 {
            return None;
        }
        let id = self.left.trailing_zeros() as ReplicaId;
        // The lowest one goes.
        self.left &= self.left - 1;
        Some(id)
    }
}

// The ids in braces, as the Rust shows them.
impl fmt::Debug for Bitmap {
    fn fmt(&self, f: &mut fmt::Formatter<'_>) -> fmt::Result {
        let ids: Vec<String> = self.ones().map(|id| id.to_string()).collect();
        f.pad(&format!("{{{}}}", ids.join(",")))
    }
}

impl BitmapError {
    /// The number of the refusal: N of rule 10.N.
    #[must_use]
    pub const fn number(self) -> u64 {
        self as u64
    }
}

impl fmt::Display for BitmapError {
    fn fmt(&self, f: &mut fmt::Formatter<'_>) -> fmt::Result {
        let text = match self {
            BitmapError::BadSize => "the set's size is not 1 to 64",
            BitmapError::BadId => "the id is not below the set's size",
            BitmapError::SizesDiffer => "the sets' sizes differ",
        };
        write!(f, "{}: {text}", self.number())
    }
}

impl Error for BitmapError {}

#[cfg(test)]
mod tests {
    use super::*;

    const ANY_SIZES: [usize; 9] = [0, 1, 3, 63, 64, 65, 255, 256, usize::MAX];

    #[test]
    fn no_ones_at_or_above_the_size() {
        for size in ANY_SIZES {
            let mut map = Bitmap::new(size, true);
            assert_eq!((map.size(), map.count()), (size, size.min(CAPACITY)));
            assert!(map.ones().eq(0..size.min(CAPACITY)));
            map.flip();
            assert_eq!(map, Bitmap::new(size, false));
            map.flip();
            map.clear();
            assert_eq!(map.bits(), 0);
        }
    }

    #[test]
    fn ids_are_judged_as_written() {
        for size in ANY_SIZES {
            for id in [0, 1, 62, 63, 64, 300, usize::MAX] {
                let mut map = Bitmap::new(size, false);
                let want = match size {
                    1..=64 if id < size => Ok(()),
                    1..=64 => Err(BitmapError::BadId),
                    _ => Err(BitmapError::BadSize),
                };
                assert_eq!(map.set(id, true), want, "id {id} of size {size}");
                assert_eq!(map.get(id), want.map(|()| true));
                assert_eq!(map.count(), usize::from(want.is_ok()));
                assert_eq!(map.set(id, false), want);
                assert_eq!(map.count(), 0);
                assert_eq!(Bitmap::from_ids(size, [id]).map(|_| ()), want);
            }
            assert_eq!(Bitmap::from_ids(size, []).is_ok(), (1..=64).contains(&size));
        }
    }

    #[test]
    fn unions_and_supersets() {
        let (a, b) = (Bitmap::from_bits(4, 0b0011), Bitmap::from_bits(4, 0b0110));
        let mut both = a;
        assert_eq!(both.union(&b), Ok(()));
        assert_eq!(both, Bitmap::from_bits(4, 0b0111));
        assert!(both.is_superset(&a) && both.is_superset(&b) && !a.is_superset(&b));
        assert!(Bitmap::from_bits(64, 0b0011).is_superset(&a));
        for (size, other, want) in [
            (4, 5, BitmapError::SizesDiffer),
            (0, 4, BitmapError::BadSize),
            (4, 65, BitmapError::BadSize),
            (65, 65, BitmapError::BadSize),
        ] {
            let mut map = Bitmap::new(size, false);
            assert_eq!(map.union(&Bitmap::new(other, true)), Err(want));
            assert_eq!(map, Bitmap::new(size, false));
        }
    }

    #[test]
    fn shown_in_braces() {
        let shown = [0, 0b1, 0b1101].map(|bits| format!("{:?}", Bitmap::from_bits(4, bits)));
        assert_eq!(shown, ["{}", "{0}", "{0,2,3}"]);
        assert_eq!(format!("{:5?}|", Bitmap::from_bits(4, 2)), "{1}  |");
        assert_eq!(BitmapError::SizesDiffer.to_string(), "11: the sets' sizes differ");
    }
}
