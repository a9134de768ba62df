//! Tiny rings: every state that can be reached, up to what no later call depends on.

use super::check::cuts;
use super::state::{State, accepted};
use super::{Count, some_touches, told};
use crate::model::{Endpoint, is_active};
use crate::rng::Rng;
use lifted::calls::*;
use std::collections::{HashSet, VecDeque};
use std::hash::{DefaultHasher, Hash, Hasher};

/// what a tiny ring's calls are drawn from
struct Alphabet {
    bases: &'static [u64],
    words: &'static [u32],
}

/// the state without what no later call depends on: completed requests, the start, and which numbers the requests have
fn canonical(mut st: State) -> State {
    st.session.completed.clear();
    st.session.start = 0;
    for (i, request) in st.session.pending.iter_mut().enumerate() {
        request.id = i as u64 + 1;
    }
    st.session.next = st.session.pending.len() as u64 + 1;
    st
}

fn print_of(st: &State) -> u64 {
    let mut hasher = DefaultHasher::new();
    st.hash(&mut hasher);
    hasher.finish()
}

fn tiny_transfers(st: &State, alphabet: &Alphabet) -> Vec<(Transfer, Vec<u32>)> {
    let ring = u32::from(st.session.cfg.tiny);
    let starts = if st.session.live { 1 } else { ring };
    let mut all = Vec::new();
    let most = st.session.cfg.capacity().saturating_sub(st.session.pending_packets());
    for n in 1..=most {
        for frame_reading in 0..ring {
            for start_reading in 0..starts {
                for base in alphabet.bases {
                    let lengths = vec![1; n as usize];
                    let transfer = Transfer { base: *base, start_reading, frame_reading, ..Transfer::plain(&lengths) };
                    all.push((transfer, lengths));
                }
            }
        }
    }
    all
}

fn tiny_steps(st: &State, alphabet: &Alphabet) -> Vec<Call> {
    let ring_len = u32::MAX;
    let mut all: Vec<Call> =
        tiny_transfers(st, alphabet).into_iter().map(|(transfer, lengths)| Call::Submit { transfer, lengths, ring_len }).collect();
    for slot in 0..st.session.cfg.tiny {
        for word in alphabet.words {
            if is_active(st.ring[2 * usize::from(slot)]) {
                all.push(Call::Controller { slot, word: *word });
            }
        }
    }
    for hcint in [0, 1, 2, 4] {
        all.push(Call::Poll { event: Event { reported: true, unplugged: false, hcint }, ring_len });
    }
    all.push(Call::Poll { event: Event { reported: true, unplugged: true, hcint: 0 }, ring_len });
    all.push(Call::Cancel { id: 1 });
    all.push(Call::Reset);
    all
}

/// every cut of every submission that a state accepts
fn all_cuts(st: &State, alphabet: &Alphabet, rng: &mut Rng, count: &mut Count) -> Result<(), String> {
    for (transfer, lengths) in tiny_transfers(st, alphabet) {
        if let Some(whole) = accepted(&st.session, &transfer, &lengths, &st.ring) {
            let touches = &mut |ring: &[u32]| some_touches(rng, ring);
            let made = cuts(st, &transfer, &lengths, &whole, touches);
            count.note(st, &transfer, &whole, made.map_err(|(k, clause)| told(st, &transfer, &lengths, k, clause, &[]))?);
        }
    }
    Ok(())
}

/// all states of a ring of `ring` slots at one interval, or the first `most`; answers whether they were all
fn tiny(ring: u16, interval: u16, direction: Direction, alphabet: &Alphabet, most: u64, count: &mut Count) -> Result<bool, String> {
    let cfg = Config {
        speed: Speed::Full,
        direction,
        interval,
        endpoint: 1,
        device: 1,
        max_packet_size: 8,
        mult: 1,
        mode: Mode::Guarded,
        tiny: ring,
    };
    let first = canonical(State::open(&cfg));
    let mut seen = HashSet::from([print_of(&first)]);
    let mut queue = VecDeque::from([first]);
    let mut rng = Rng::new(u64::from(ring) << 16 | u64::from(interval));
    let mut visited = 0;
    while let Some(st) = queue.pop_front() {
        visited += 1;
        count.states += 1;
        if visited > most {
            return Ok(false);
        }
        all_cuts(&st, alphabet, &mut rng, count)?;
        for call in tiny_steps(&st, alphabet) {
            let mut next = st.clone();
            next.call(&call, &[]);
            let next = canonical(next);
            if seen.insert(print_of(&next)) {
                queue.push_back(next);
            }
        }
    }
    Ok(true)
}

/// Small rings, every interval. Prints a line for each ring size.
pub fn small(largest: u16, most: u64, quiet: bool) -> Result<Count, String> {
    let rich = Alphabet { bases: &[0, 16], words: &[0, 0x1000_0001, 0x8000_0000] };
    let plain = Alphabet { bases: &[16], words: &[0, 0x1000_0001] };
    let least = Alphabet { bases: &[16], words: &[0] };
    let mut total = Count::default();
    for ring in 1..=largest {
        let alphabet = match ring {
            1..=3 => &rich,
            4 => &plain,
            _ => &least,
        };
        let mut count = Count::default();
        let mut whole = true;
        for interval in 1..=ring + 1 {
            for direction in [Direction::In, Direction::Out] {
                whole &= tiny(ring, interval, direction, alphabet, most, &mut count)?;
            }
        }
        if !quiet {
            let which = if whole { "all" } else { "the first" };
            println!(
                "  ring of {ring}, intervals 1 to {}: {which} {} states, {} cuts ({} submissions, {} with requests pending)",
                ring + 1,
                count.states,
                count.cuts,
                count.submissions,
                count.with_pending
            );
        }
        total.cuts += count.cuts;
        total.submissions += count.submissions;
        total.with_pending += count.with_pending;
        total.states += count.states;
    }
    Ok(total)
}
