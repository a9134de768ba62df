//! The clauses of demand 3, at every cut of a submission.

use super::state::{Laid, State, holds, planned, touch, words_of};
use crate::model::{Endpoint, Session, interval_of, is_active};
use crate::slips::{Slip, slip};
use lifted::calls::*;

/// the clause that fails
pub(super) type Clause = &'static str;

fn ensure(holds: bool, clause: Clause) -> Result<(), Clause> {
    if holds { Ok(()) } else { Err(clause) }
}

/// Every cut of a submission that is accepted. Answers how many.
pub(super) fn cuts(
    st: &State,
    t: &Transfer,
    lengths: &[u32],
    whole: &Session,
    touches: &mut dyn FnMut(&[u32]) -> Vec<(u16, u32)>,
) -> Result<u64, (usize, Clause)> {
    let s = &st.session;
    let words = s.cfg.words();
    let plan = planned(s, t, lengths, &st.ring);
    let stores = words_of(&plan);
    about_plan(st, &plan, lengths, whole).map_err(|clause| (0, clause))?;
    let mut expected = st.ring.clone();
    let mut recovered: Option<Session> = None;
    let mut put_slots = vec![false; words / 2];
    for x in &st.put {
        put_slots[usize::from(x.slot)] = true;
    }
    for k in 0..=stores.len() {
        if k > 0 {
            expected[stores[k - 1].0] = stores[k - 1].1;
        }
        let (mut after, mut ring) = (s.clone(), st.ring.clone());
        let answer = after.submit(&Transfer { words: k as u32, ..*t }, lengths, &mut ring).answer;
        stopped(st, &plan, &put_slots, &ring, &expected, k).map_err(|clause| (k, clause))?;
        if k < stores.len() {
            ensure(answer == Answer::Cut && after == *s, "\"answers cut and hands back the session as it came\"").map_err(|c| (k, c))?;
        }
        for (slot, word) in touches(&ring) {
            touch(&mut ring, slot, word);
        }
        let mut session = if slip(Slip::RecoverAfter) { after } else { s.clone() };
        session.recover(&mut ring);
        about_recovery(s, &session, &ring[..words]).map_err(|clause| (k, clause))?;
        let same = recovered.get_or_insert_with(|| session.clone()) == &session;
        ensure(same, "\"the same wherever the cut fell\"").map_err(|c| (k, c))?;
    }
    Ok(stores.len() as u64 + 1)
}

fn about_plan(st: &State, plan: &[Laid], lengths: &[u32], whole: &Session) -> Result<(), Clause> {
    let pending: Vec<u16> = st.session.pending.iter().flat_map(|r| r.packets.iter().map(|p| p.slot)).collect();
    let put: Vec<u16> = st.put.iter().map(|x| x.slot).collect();
    ensure(put == pending, "what is put is for the pending packets, in their order")?;
    let mut seen = vec![false; st.ring.len() / 2];
    for x in plan {
        ensure(!std::mem::replace(&mut seen[usize::from(x.slot)], true), "\"distinct slots\"")?;
        ensure(x.slot != whole.cursor, "\"none at the new cursor\"")?;
    }
    let ring = u64::from(st.session.cfg.ring());
    let apart = plan.windows(2).all(|p| (u64::from(p[0].slot) + interval_of(st.session.cfg.interval)) % ring == u64::from(p[1].slot));
    ensure(apart && plan.len() == lengths.len(), "\"an interval apart\"")?;
    let new = whole.pending.last().map(|r| r.packets.iter().map(|p| p.slot).collect::<Vec<_>>());
    ensure(new == Some(plan.iter().map(|x| x.slot).collect()), "the record's new slots are the planned ones")
}

fn stopped(st: &State, plan: &[Laid], put_slots: &[bool], ring: &[u32], expected: &[u32], k: usize) -> Result<(), Clause> {
    ensure(st.put.iter().all(|x| holds(ring, x)), "\"Every pending slot holds what its own submission and the controller put there\"")?;
    ensure(ring == expected, "\"The new words are exactly a leading run of the planned ones\"")?;
    let mut new_words = vec![0u8; ring.len()];
    for (i, x) in plan.iter().enumerate() {
        new_words[2 * usize::from(x.slot) + 1] |= u8::from(2 * i < k);
        new_words[2 * usize::from(x.slot)] |= u8::from(2 * i + 1 < k);
    }
    for slot in 0..put_slots.len() {
        let own = &new_words[2 * slot..2 * slot + 2];
        if is_active(ring[2 * slot]) && !put_slots[slot] {
            let whole = own == [1, 1] && plan.iter().any(|x| usize::from(x.slot) == slot && holds(ring, x));
            ensure(whole, "\"Each active slot has both its words\"")?;
        }
        for part in 0..2 {
            let zero = put_slots[slot] || own[part] == 1 || ring[2 * slot + part] == 0;
            ensure(zero, "\"every ring word that is neither a pending slot's nor new is zero\"")?;
        }
    }
    Ok(())
}

fn about_recovery(before: &Session, after: &Session, ring: &[u32]) -> Result<(), Clause> {
    ensure(ring.iter().all(|w| *w == 0), "\"a zero ring\"")?;
    let idle = !after.live && after.pending.is_empty() && after.reason.is_none() && after.cursor == 0 && after.start == 0;
    ensure(idle, "\"an idle session\"")?;
    ensure(after.next == before.next && after.cfg == before.cfg, "\"the number that call drew is drawn again\"")?;
    let done = before.completed.len();
    ensure(after.completed.len() == done + before.pending.len(), "\"each pending request reported .. once\"")?;
    ensure(after.completed[..done] == before.completed[..], "completed results stay")?;
    for (reported, request) in after.completed[done..].iter().zip(&before.pending) {
        let same = reported.id == request.id && reported.packets.len() == request.packets.len();
        ensure(same && reported.failure == Some(Failure::Disconnected), "\"each pending request reported disconnected\", in order")?;
    }
    let mut ids: Vec<u64> = after.completed.iter().map(|r| r.id).collect();
    ids.sort_unstable();
    ensure(ids.windows(2).all(|p| p[0] != p[1]), "\"once\"")
}
