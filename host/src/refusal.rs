//! Why a call was refused.

use std::error::Error;
use std::fmt;

/// Why a call was refused. Refusal N is that of rule 10.N of `docs/RULEBOOK.md`, and its name the
/// library's own (`lease::Refusal`). A refused call leaves the record as it was (rule 10.31).
///
/// ```
/// use biasflint::Refusal;
///
/// assert_eq!(Refusal::PeerIsOwn.number(), 8);
/// assert_eq!(Refusal::from_number(8), Some(Refusal::PeerIsOwn));
/// assert_eq!(Refusal::PeerIsOwn.to_string(), "8: the peer is the own id");
/// ```
#[derive(Clone, Copy, Debug, PartialEq, Eq, Hash)]
pub enum Refusal {
    /// Refusal 1, of set-up: T is under 100 ms or over 10 s (rule 10.1).
    TimeoutOutOfRange = 1,
    /// Refusal 2, of set-up: twice the heartbeat interval is not below T (rule 10.2).
    HeartbeatTooSlow = 2,
    /// Refusal 3, of set-up: the population is not 1 to 64 (rule 10.3).
    PopulationOutOfRange = 3,
    /// Refusal 4, of set-up: the own id is not below the population (rule 10.4).
    OwnNotBelowPopulation = 4,
    /// Refusal 5, of set-up and advance: the reading is over 9,223,372,036,854,775,807 ns
    /// (rule 10.5).
    ReadingTooHigh = 5,
    /// Refusal 6, of advance: the reading is below the present one (rule 10.6).
    ReadingBelowPresent = 6,
    /// Refusal 7, of a notice about one peer and of time left: the peer is not below the population
    /// (rule 10.7).
    PeerNotBelowPopulation = 7,
    /// Refusal 8, of a notice about one peer and of time left: the peer is the own id (rule 10.8).
    PeerIsOwn = 8,
    /// Refusal 9, of `NewGrants` and `DoRevoke`: the set's size is not the population (rule 10.9).
    SetSizeNotPopulation = 9,
    /// Refusal 12, of a refresh: the set's size is not 1 to 64 (rule 10.12).
    SetSizeOutOfRange = 12,
    /// Refusal 15, of every call but set-up, and looked at first: the record is no manager's
    /// (rules 5.3 and 10.15).
    InvalidRecord = 15,
    /// Refusal 22: the card is no call (rule 10.22). Only a card made by hand, for
    /// [`raw::call`](crate::raw::call), can be refused so.
    NoCall = 22,
}

impl Refusal {
    /// Every refusal, by number.
    pub const ALL: [Refusal; 12] = [
        Refusal::TimeoutOutOfRange,
        Refusal::HeartbeatTooSlow,
        Refusal::PopulationOutOfRange,
        Refusal::OwnNotBelowPopulation,
        Refusal::ReadingTooHigh,
        Refusal::ReadingBelowPresent,
        Refusal::PeerNotBelowPopulation,
        Refusal::PeerIsOwn,
        Refusal::SetSizeNotPopulation,
        Refusal::SetSizeOutOfRange,
        Refusal::InvalidRecord,
        Refusal::NoCall,
    ];

    /// The number of the refusal: N of rule 10.N.
    #[must_use]
    pub const fn number(self) -> u64 {
        self as u64
    }

    /// The refusal of that number, if there is one.
    #[must_use]
    pub fn from_number(number: u64) -> Option<Refusal> {
        Refusal::ALL.into_iter().find(|r| r.number() == number)
    }

    fn text(self) -> &'static str {
        match self {
            Refusal::TimeoutOutOfRange => "the expire timeout is under 100 ms or over 10 s",
            Refusal::HeartbeatTooSlow => {
                "twice the heartbeat interval is not below the expire timeout"
            }
            Refusal::PopulationOutOfRange => "the population is not 1 to 64",
            Refusal::OwnNotBelowPopulation => "the own id is not below the population",
            Refusal::ReadingTooHigh => "the reading is over the largest",
            Refusal::ReadingBelowPresent => "the reading is below the present one",
            Refusal::PeerNotBelowPopulation => "the peer is not below the population",
            Refusal::PeerIsOwn => "the peer is the own id",
            Refusal::SetSizeNotPopulation => "the set's size is not the population",
            Refusal::SetSizeOutOfRange => "the set's size is not 1 to 64",
            Refusal::InvalidRecord => "the record is no manager's",
            Refusal::NoCall => "the card is no call",
        }
    }
}

impl fmt::Display for Refusal {
    fn fmt(&self, f: &mut fmt::Formatter<'_>) -> fmt::Result {
        write!(f, "{}: {}", self.number(), self.text())
    }
}

impl Error for Refusal {}

#[cfg(test)]
mod tests {
    use std::collections::HashSet;

    use super::*;

    #[test]
    fn numbers_are_those_of_the_rules() {
        let numbers = Refusal::ALL.map(Refusal::number);
        assert_eq!(numbers, [1, 2, 3, 4, 5, 6, 7, 8, 9, 12, 15, 22]);
        for number in 0..30 {
            let refusal = Refusal::from_number(number);
            assert_eq!(refusal.is_some(), numbers.contains(&number), "{number}");
            assert!(refusal.is_none_or(|r| r.number() == number));
        }
    }

    #[test]
    fn every_text_is_one_line_of_its_own() {
        let texts: HashSet<&str> = Refusal::ALL.map(Refusal::text).into();
        assert_eq!(texts.len(), Refusal::ALL.len());
        assert!(texts.iter().all(|t| !t.contains('\n')));
    }
}
