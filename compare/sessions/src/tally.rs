//! What a run has to say of itself at its end.
use crate::answer::{self, ACTIONS};
use crate::call::Call;
use crate::events::{self, Counts};
use biasflint::raw::{AnswerC, ManagerC};

const LETTERS: &str = "UANDCGgPpRrXYQFKkSLMT";

pub struct Tally {
    pub compared: u64,
    pub sessions: u64,
    letters: [u64; 128],
    actions: [u64; 14],
    /// By the number of the refusal: calls that only the library judged.
    refused: [u64; 23],
    refused_by_both: u64,
    populations: [u64; 65],
    settings: [u64; 256],
    pub events: Counts,
}

// A title, and a number and some words on each line.
fn table(title: &str, entries: impl Iterator<Item = (String, u64)>) -> String {
    let lines: String = entries.map(|(name, n)| format!("  {n:>11}  {name}\n")).collect();
    format!("{title}\n{lines}")
}

fn unseen(counts: &[u64]) -> usize {
    counts.iter().filter(|n| **n == 0).count()
}

impl Tally {
    pub fn new() -> Tally {
        Tally {
            compared: 0,
            sessions: 0,
            letters: [0; 128],
            actions: [0; 14],
            refused: [0; 23],
            refused_by_both: 0,
            populations: [0; 65],
            settings: [0; 256],
            events: Counts::default(),
        }
    }

    /// A call that goes to both sides.
    pub fn both(&mut self, b: &ManagerC, a: &ManagerC, call: &Call, answer: &AnswerC) {
        self.compared += 1;
        self.letters[usize::from(call.letter())] += 1;
        if answer.refused > 0 {
            self.refused_by_both += 1;
            return;
        }
        match call {
            Call::SetUp(s) => {
                self.sessions += 1;
                self.populations[s.population as usize] += 1;
            }
            Call::Drift(Some(d), _) => self.settings[(i16::from(*d) + 128) as usize] += 1,
            _ => {}
        }
        let (lines, n) = answer::lines(answer);
        for line in lines[..n].iter().filter(|line| line.code < 14) {
            self.actions[line.code as usize] += 1;
        }
        self.events.observe(b, a, call, answer);
    }

    pub fn refused(&mut self, number: u64) {
        self.refused[number as usize] += 1;
    }

    /// All of it, as lines.
    pub fn shown(&self) -> String {
        let letters = LETTERS.chars().map(|c| (c.to_string(), self.letters[c as usize]));
        let actions = (1..14).map(|i| (ACTIONS[i].to_string(), self.actions[i]));
        let refused = (1..23).filter(|k| self.refused[*k] > 0);
        let refused = refused.map(|k| (format!("refused {k}"), self.refused[k]));
        let met = events::WORDS.iter().zip(self.events.0);
        let both = format!("set-ups refused by both: {}\n", self.refused_by_both);
        let not_seen = format!(
            "populations of 1 to 64 not seen: {}; drift settings of 256 not seen: {}\n",
            unseen(&self.populations[1..]),
            unseen(&self.settings)
        );
        [
            table("calls by their letter", letters),
            table("actions", actions),
            table("refused as expected, not sent to the Rust", refused),
            both,
            not_seen,
            table("met on the way", met.map(|(words, n)| (words.to_string(), n))),
        ]
        .concat()
    }
}
