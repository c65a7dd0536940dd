//! Child of driver.rs: actions and the state as text.

use super::*;

pub fn action(out: &mut String, num: LeaseNum, action: &LeaseAction) {
    let _ = match action {
        LeaseAction::SendLeaseMsg { peer, msg } => return send(out, num, *peer, msg),
        LeaseAction::BcastLeaseMsgs { peers, msg } => return broadcast(out, num, peers, msg),
        LeaseAction::NextRefresh { peer } => write!(out, "nextrefresh {num} {peer}"),
        LeaseAction::GrantRemoved { peer, held } => {
            write!(out, "grantremoved {num} {peer} {}", u8::from(*held))
        }
        LeaseAction::LeaseCleared => write!(out, "leasecleared {num}"),
        LeaseAction::GrantTimeout { peer } => write!(out, "granttimeout {num} {peer}"),
        LeaseAction::LeaseTimeout { peer } => write!(out, "leasetimeout {num} {peer}"),
        LeaseAction::HigherNumber => write!(out, "highernumber {num}"),
        LeaseAction::GuardAcceptBar { peer, accept_bar } => {
            write!(out, "guardacceptbar {num} {peer} {accept_bar}")
        }
    };
}

fn send(out: &mut String, num: LeaseNum, peer: ReplicaId, msg: &LeaseMsg) {
    let _ = match msg {
        LeaseMsg::GuardReply => write!(out, "guardreply {num} {peer}"),
        LeaseMsg::Promise => write!(out, "promise {num} {peer}"),
        LeaseMsg::PromiseReply { held } => {
            write!(out, "promisereply {num} {peer} {}", u8::from(*held))
        }
        LeaseMsg::RevokeReply { held } => {
            write!(out, "revokereply {num} {peer} {}", u8::from(*held))
        }
        // never sent to one peer
        other => write!(out, "!send {num} {peer} {other:?}"),
    };
}

fn broadcast(out: &mut String, num: LeaseNum, peers: &Bitmap, msg: &LeaseMsg) {
    let peers = show_set(peers);
    let _ = match msg {
        LeaseMsg::Guard { accept_bar: None } => write!(out, "GUARD {num} {peers} -"),
        LeaseMsg::Guard { accept_bar: Some(bar) } => write!(out, "GUARD {num} {peers} {bar}"),
        LeaseMsg::Revoke => write!(out, "REVOKE {num} {peers}"),
        // never broadcast
        other => write!(out, "!bcast {num} {peers} {other:?}"),
    };
}

impl Session {
    /// Nothing if the task was spawned: its tables cannot be seen.
    pub fn show_state(&self, out: &mut String) {
        let Some(task) = self.task.as_ref() else { return };
        let _ = write!(out, "now={} num={}", self.now, task.active_num);
        let guards = |(peer, timer): (&ReplicaId, &Timer)| (*peer, probe::state(timer), false);
        self.show_table(out, "gs", task.guards_sent.iter().map(guards).collect());
        self.show_table(out, "gh", task.guards_held.iter().map(guards).collect());
        let sent = self.mgr.promises_sent.iter();
        let sent = sent.map(|e| (*e.key(), probe::state(&e.value().0), e.value().1));
        self.show_table(out, "ps", sent.collect());
        let held = self.mgr.promises_held.iter();
        let held = held.map(|e| (*e.key(), probe::state(e.value()), false));
        self.show_table(out, "ph", held.collect());
        let mut marks: Vec<u8> = self.mgr.refresh_mark.iter().copied().collect();
        marks.sort_unstable();
        let _ = write!(out, " m={} q=", show_ids(&marks));
        match &self.mgr.quiet_timer {
            None => out.push('-'),
            Some(timer) => self.show_timer(out, probe::state(timer)),
        }
    }

    /// `name=peer@timer,peer@timer`, by peer; `r` after one that is being revoked.
    fn show_table(&self, out: &mut String, name: &str, mut rows: Vec<(ReplicaId, State, bool)>) {
        rows.sort_unstable_by_key(|row| row.0);
        let _ = write!(out, " {name}=");
        for (i, (peer, timer, revoking)) in rows.into_iter().enumerate() {
            let _ = write!(out, "{}{peer}@", if i > 0 { "," } else { "" });
            self.show_timer(out, timer);
            if revoking {
                out.push('r');
            }
        }
    }

    fn show_timer(&self, out: &mut String, timer: State) {
        match timer {
            State::Unarmed => out.push('u'),
            State::Exploded => out.push('x'),
            State::Armed(deadline) => {
                let _ = write!(out, "{}", self.reading(deadline));
            }
        }
    }
}
