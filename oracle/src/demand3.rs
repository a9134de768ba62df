//! Demand 3 by brute force: guarded runs on the model, and for every submission that is accepted every cut from 0 to 2n words, with each
//! clause of the demand looked at. At the real ring sizes by a random walk, at tiny ones over all states that can be reached.

mod check;
mod small;
mod state;
mod walk;

use crate::model::Session;
use crate::rng::Rng;
use check::Clause;
use lifted::calls::*;
pub use small::small;
use state::State;
pub use walk::walk;

#[derive(Default)]
pub struct Count {
    pub cuts: u64,
    pub submissions: u64,
    /// submissions cut while requests were pending
    pub with_pending: u64,
    pub runs: u64,
    pub states: u64,
    /// two stronger readings that are false: how often a pending slot lay at the new cursor, and an active slot's address was zero
    pub at_cursor: u64,
    pub address_zero: u64,
}

impl Count {
    fn note(&mut self, st: &State, t: &Transfer, whole: &Session, cuts: u64) {
        self.cuts += cuts;
        self.submissions += 1;
        self.with_pending += u64::from(!st.put.is_empty());
        self.at_cursor += u64::from(st.put.iter().any(|x| x.slot == whole.cursor));
        self.address_zero += u64::from(t.base == 0);
    }
}

fn told(st: &State, t: &Transfer, lengths: &[u32], k: usize, clause: Clause, steps: &[String]) -> String {
    let mut text = format!("{clause}, at cut {k} of {}\n  {:?}\n", 2 * lengths.len(), st.session.cfg);
    for step in steps {
        text.push_str(&format!("  {step}\n"));
    }
    let pending: Vec<(u64, Vec<u16>)> = st.session.pending.iter().map(|r| (r.id, r.packets.iter().map(|p| p.slot).collect())).collect();
    text.push_str(&format!("  pending slots {pending:?}, cursor {}\n  then {t:?}, lengths {lengths:?}", st.session.cursor));
    text
}

fn some_touches(rng: &mut Rng, ring: &[u32]) -> Vec<(u16, u32)> {
    let slots = ring.len() as u64 / 2;
    (0..rng.below(4)).map(|_| (rng.below(slots) as u16, if rng.one_in(2) { 0 } else { rng.word() })).collect()
}
