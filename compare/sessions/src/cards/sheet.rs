//! The shift sheet (rules 15.1 and 15.2) of a session of cards, worked out here from the state that
//! the oracle shows at its end; and what a run has met in its sheets.
use crate::call::{MS, SetUp};
use crate::sample;

/// What a row says of one side of a peer.
#[derive(Clone, Copy, Default)]
struct Side {
    state: u64,
    left: u64,
    exploded: bool,
}

struct Row {
    id: u64,
    grant: Side,
    held: Side,
}

/// A sheet of a session whose set-up was accepted.
pub struct Sheet {
    population: u64,
    peers: Vec<Row>,
}

// Enters a table's rows; a promise that is being revoked has the state one above. The time left is 0
// where the timer is not armed, since there the deadline is read as 0.
fn enter(sides: &mut [Side; 64], table: &str, state: u64, now: u64) -> Option<()> {
    for (peer, revoking, which, at) in sample::entries(table)? {
        let left = at.saturating_sub(now).div_ceil(MS);
        let exploded = which == sample::EXPLODED;
        sides[peer] = Side { state: state + u64::from(revoking), left, exploded };
    }
    Some(())
}

// One side of every id, from its two tables: 1 guard, 2 promise.
fn sides(guards: &str, promises: &str, now: u64) -> Option<[Side; 64]> {
    let mut sides = [Side::default(); 64];
    enter(&mut sides, guards, 1, now)?;
    enter(&mut sides, promises, 2, now)?;
    Some(sides)
}

fn line([id, grant, grant_left, held, held_left]: [u64; 5]) -> String {
    format!("{id:4}{grant:3}{grant_left:8}{held:3}{held_left:8}\n")
}

impl Row {
    fn is_granted(&self) -> bool {
        self.grant.state >= 2
    }

    fn is_leased(&self) -> bool {
        self.held.state == 2 && self.held.left > 0
    }
}

impl Sheet {
    /// By the oracle's state at the end of the session.
    pub fn of(set_up: &SetUp, state: &str) -> Option<Sheet> {
        let [now, _, gs, gh, ps, ph, ..] = sample::values(state)?;
        let now = now.parse().ok()?;
        let (grants, held) = (sides(gs, ps, now)?, sides(gh, ph, now)?);
        let others = (0..set_up.population).filter(|id| *id != set_up.me);
        let peers =
            others.map(|id| Row { id, grant: grants[id as usize], held: held[id as usize] });
        Some(Sheet { population: set_up.population, peers: peers.collect() })
    }

    /// As `sheet` prints it.
    pub fn text(&self) -> String {
        let rows = self.peers.iter();
        let rows =
            rows.map(|r| line([r.id, r.grant.state, r.grant.left, r.held.state, r.held.left]));
        let granted = self.peers.iter().filter(|row| row.is_granted()).count() as u64;
        let leased = self.peers.iter().filter(|row| row.is_leased()).count() as u64;
        rows.chain([line([self.population, granted, 0, leased, 0])]).collect()
    }
}

/// How many sheets and rows were compared, and what their rows were.
#[derive(Default)]
pub struct Met {
    empty: u64,
    sheets: u64,
    /// Rows of peers, by their grant state and by their held state.
    grants: [u64; 4],
    held: [u64; 3],
    grant_left: u64,
    held_left: u64,
    exploded_grants: u64,
    exploded_guards: u64,
    exploded_promises: u64,
}

fn listed(counts: &[u64]) -> String {
    let all: Vec<String> = counts.iter().enumerate().map(|(k, n)| format!("{k}: {n}")).collect();
    all.join(", ")
}

impl Met {
    /// A sheet that was compared; none is an empty one.
    pub fn add(&mut self, sheet: Option<&Sheet>) {
        let Some(sheet) = sheet else {
            self.empty += 1;
            return;
        };
        self.sheets += 1;
        for Row { grant, held, .. } in &sheet.peers {
            self.grants[grant.state as usize] += 1;
            self.held[held.state as usize] += 1;
            self.grant_left += u64::from(grant.left > 0);
            self.held_left += u64::from(held.left > 0);
            self.exploded_grants += u64::from(grant.exploded);
            self.exploded_guards += u64::from(held.exploded && held.state == 1);
            self.exploded_promises += u64::from(held.exploded && held.state == 2);
        }
    }

    /// All of it, as lines.
    pub fn shown(&self) -> String {
        let peers: u64 = self.grants.iter().sum();
        format!(
            "  sheets: {} compared, {} of them empty, with {} rows, {peers} of them of peers, \
             0 differ\n  grant states, {}; ms left above 0: {}; exploded promises: {}\n  \
             held states, {}; ms left above 0: {}; exploded guards: {}, promises: {}\n",
            self.sheets + self.empty,
            self.empty,
            peers + self.sheets,
            listed(&self.grants),
            self.grant_left,
            self.exploded_grants,
            listed(&self.held),
            self.held_left,
            self.exploded_guards,
            self.exploded_promises,
        )
    }
}
