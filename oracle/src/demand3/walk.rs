//! Random runs at the real ring sizes.

use super::check::cuts;
use super::state::{State, accepted};
use super::{Count, some_touches, told};
use crate::gen_calls::{Source, config};
use crate::rng::Rng;
use lifted::calls::*;

/// a random guarded run; a counterexample comes back in words
fn run(rng: &mut Rng, count: &mut Count, twice: bool) -> Result<(), String> {
    let cfg = Config { mode: Mode::Guarded, ..config(rng) };
    if cfg.speed == Speed::Low {
        return Ok(());
    }
    count.runs += 1;
    let mut st = State::open(&cfg);
    let mut source = Source::new(rng, true).numbered_twice(twice);
    let mut steps = Vec::new();
    for _ in 0..10 + rng.below(120) {
        let call = source.call(rng, &st.session, &st.ring);
        if let Call::Submit { transfer, lengths, .. } = &call {
            let n = lengths.len();
            if let Some(whole) = accepted(&st.session, transfer, lengths, &st.ring).filter(|_| n > 0) {
                // long submissions are cut now and then, short ones always
                if n < 24 || rng.one_in(n as u64 / 12) {
                    let touches = &mut |ring: &[u32]| some_touches(rng, ring);
                    let made = cuts(&st, transfer, lengths, &whole, touches);
                    let made = made.map_err(|(k, clause)| told(&st, transfer, lengths, k, clause, &steps))?;
                    count.note(&st, transfer, &whole, made);
                }
            }
        }
        let between = some_touches(rng, &st.ring);
        steps.push(format!("{call:?}"));
        st.call(&call, &between);
    }
    Ok(())
}

/// random runs at the real ring sizes; `twice` leaves out that "no request number is used up twice"
pub fn walk(seed: u64, wanted: u64, twice: bool) -> Result<Count, String> {
    let mut rng = Rng::new(seed);
    let mut count = Count::default();
    while count.cuts < wanted {
        run(&mut rng, &mut count, twice)?;
    }
    Ok(count)
}
