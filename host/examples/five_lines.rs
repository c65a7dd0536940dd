//! A host loop in which five lease managers exchange their events in memory.
//!
//! Each line grants leases on the recipe to all others. The host carries the messages, of which
//! some get lost, moves the clocks, and turns fired timers into notices. It prints for each line
//! the lines from which it holds a lease, every second and when a set changes or something happens.
//!
//! What happens: a round of grants, refreshes that keep the leases, a line that goes silent, a
//! change of the recipe that has to wait until no lease on the old one is left, the line's return.
use std::mem::take;
use std::time::Duration;

use biasflint::{Bitmap, LeaseAction, LeaseManager, LeaseMsg, LeaseNotice, LeaseNum};
use biasflint::{Reading, Refusal, ReplicaId};

const LINES: usize = 5;
const T: Duration = Duration::from_secs(1);
// A message takes a step. Every second step has a heartbeat, every tenth grants to who has none.
const STEP: Duration = Duration::from_millis(100);
const HEARTBEAT: u32 = 2;
const SECOND: u32 = 10;
const STEPS: u32 = 100;
// One message in so many gets lost.
const LOST_IN: u64 = 400;

const GRANT_TO_ALL: LeaseNotice = LeaseNotice::NewGrants { peers: None, accept_bar: None };

/// A message on its way: from whom, to whom, under which number.
type Mail = (ReplicaId, ReplicaId, LeaseNum, LeaseMsg);

/// The five lines and what is between them.
#[derive(Default)]
struct Lines {
    managers: Vec<LeaseManager>,
    mail: Vec<Mail>,
    silent: Option<ReplicaId>,
    // The number of the recipe is the lease number. While it is to change, nothing is granted.
    recipe: LeaseNum,
    changing: bool,
    random: u64,
    // What happened in this step, in words.
    news: Vec<String>,
}

impl Lines {
    fn new() -> Result<Self, Refusal> {
        let (hb, start) = (STEP * HEARTBEAT, Reading(0));
        let set_up = |me| LeaseManager::new_and_setup(me, LINES, T, hb, start);
        Ok(Lines {
            managers: (0..LINES).map(set_up).collect::<Result<_, _>>()?,
            recipe: LeaseNum(1),
            random: 0x2545_F491_4F6C_DD1D,
            news: vec!["grants on recipe 1".into()],
            ..Lines::default()
        })
    }

    /// Hands a notice to a line, and does what its manager wants done.
    fn notify(&mut self, id: ReplicaId, num: LeaseNum, notice: LeaseNotice) -> Result<(), Refusal> {
        for (num, action) in self.managers[id].add_notice(num, notice)? {
            match action {
                LeaseAction::SendLeaseMsg { peer, msg } => self.mail.push((id, peer, num, msg)),
                LeaseAction::BcastLeaseMsgs { peers, msg } => {
                    peers.ones().for_each(|peer| self.mail.push((id, peer, num, msg)));
                }
                // The others tell something to the protocol above, which this loop leaves out.
                _ => {}
            }
        }
        Ok(())
    }

    /// Moves every clock; fired timers become timeout notices under the active number.
    fn advance(&mut self, to: Reading) -> Result<(), Refusal> {
        for id in 0..LINES {
            let fired = self.managers[id].advance(to)?;
            let num = self.managers[id].active_num();
            for notice in fired.timeouts() {
                self.notify(id, num, notice)?;
            }
        }
        Ok(())
    }

    /// What was sent in the step before arrives, but for what gets lost.
    fn deliver(&mut self) -> Result<(), Refusal> {
        for (from, to, num, msg) in take(&mut self.mail) {
            let cut_off = [Some(from), Some(to)].contains(&self.silent);
            if !cut_off && !self.draw().is_multiple_of(LOST_IN) {
                self.notify(to, num, LeaseNotice::RecvLeaseMsg { peer: from, msg })?;
            } else if !cut_off {
                self.news.push(format!("lost {from} to {to}: {msg:?}"));
            }
        }
        Ok(())
    }

    /// The next number of a xorshift generator.
    fn draw(&mut self) -> u64 {
        self.random ^= self.random << 13;
        self.random ^= self.random >> 7;
        self.random ^= self.random << 17;
        self.random
    }

    /// With each heartbeat goes a Promise to the peers that are marked for one.
    fn heartbeat(&mut self) -> Result<(), Refusal> {
        for id in 0..LINES {
            let peers = self.managers[id].attempt_refresh(None)?;
            let num = self.managers[id].active_num();
            let promise = |peer| (id, peer, num, LeaseMsg::Promise);
            self.mail.extend(peers.ones().map(promise));
        }
        Ok(())
    }

    fn reachable(&self) -> Vec<ReplicaId> {
        (0..LINES).filter(|&id| self.silent != Some(id)).collect()
    }

    /// The same notice to each line that can be reached, under the recipe's number.
    fn tell(&mut self, notice: LeaseNotice) -> Result<(), Refusal> {
        for id in self.reachable() {
            self.notify(id, self.recipe, notice)?;
        }
        Ok(())
    }

    /// No line that can be reached has a grant left, so no line has a lease from it.
    fn is_belt_clear(&self) -> bool {
        let none = Ok(Bitmap::new(LINES, false));
        let mut ids = self.reachable().into_iter();
        ids.all(|id| self.managers[id].grant_set() == none)
    }

    /// What happens in a step beside messages and timers.
    fn script(&mut self, step: u32) -> Result<(), Refusal> {
        match step {
            45 => {
                self.silent = Some(4);
                self.news.push("line 4 goes silent".into());
            }
            56 => {
                self.changing = true;
                self.news.push("recipe 1 is to change: revoke".into());
                self.tell(LeaseNotice::DoRevoke { peers: None })?;
            }
            85 => {
                self.silent = None;
                self.news.push("line 4 is back".into());
            }
            _ if step.is_multiple_of(SECOND) && !self.changing => self.tell(GRANT_TO_ALL)?,
            _ if self.changing && self.is_belt_clear() => {
                self.changing = false;
                self.recipe = LeaseNum(2);
                self.news.push("belt clear: grants on recipe 2".into());
                self.tell(GRANT_TO_ALL)?;
            }
            _ => {}
        }
        Ok(())
    }

    /// The lease sets, a column for each line.
    fn row(&self) -> Result<String, Refusal> {
        let column = |m: &LeaseManager| Ok(format!("{:<11?}", m.lease_set()?));
        self.managers.iter().map(column).collect()
    }
}

/// Runs all steps, and gives the table.
pub fn run() -> Result<String, Refusal> {
    let mut lines = Lines::new()?;
    let mut table = "time   line 0     line 1     line 2     line 3     line 4\n".to_string();
    let mut shown = String::new();
    for step in 0..STEPS {
        lines.advance(Reading::after(STEP * step))?;
        lines.deliver()?;
        lines.script(step)?;
        if step.is_multiple_of(HEARTBEAT) {
            lines.heartbeat()?;
        }
        let row = lines.row()?;
        let news = take(&mut lines.news).join("; ");
        if row != shown || !news.is_empty() || step.is_multiple_of(SECOND) {
            let line = format!("{:.1} s  {row}{news}", f64::from(step) / 10.0);
            table += &format!("{}\n", line.trim_end());
            shown = row;
        }
    }
    Ok(table)
}

fn main() -> Result<(), Refusal> {
    print!("{}", run()?);
    Ok(())
}
