//! Damage to a session's bytes: single bits, fields at and beyond their limits, whole stretches.

use crate::layout::SESSION_BYTES;
use crate::model::Session;
use crate::rng::Rng;

/// Where damage is aimed, so that it falls on entries in use.
struct Aim {
    completed: u16,
    requests: u16,
    /// the byte at which a request begins, and at which a packet's plan does
    request: usize,
    plan: usize,
    /// where the requests in use end, and the plans
    ends: [usize; 2],
}

impl Aim {
    fn at(rng: &mut Rng, s: Option<&Session>) -> Aim {
        let (done, count) = s.map_or((0, 1), |s| (s.completed.len(), (s.completed.len() + s.pending.len()).max(1)));
        let used: usize = s.map_or(1, |s| s.completed.iter().chain(&s.pending).map(|r| r.packets.len()).sum::<usize>().max(1));
        let request = 40 + 20 * rng.below(count as u64) as usize;
        let plan = 1_320 + 7 * rng.below(used as u64) as usize;
        Aim { completed: done as u16, requests: count as u16, request, plan, ends: [40 + 20 * count, 1_320 + 7 * used] }
    }
}

/// a bit of the `count` bytes from `from`, the other way round
fn flipped(rng: &mut Rng, bytes: &[u8], from: usize, count: usize) -> (u32, Vec<u8>) {
    let at = from + rng.below(count as u64) as usize;
    (at as u32, vec![bytes[at] ^ 1 << rng.below(8)])
}

/// a reason or an outcome: its tag, a fault and a word
fn cause(rng: &mut Rng, tags: u64, faults: &[u8]) -> Vec<u8> {
    let mut cause = vec![rng.below(tags) as u8, rng.pick(faults)];
    cause.extend(if rng.one_in(2) { [0; 4] } else { rng.word().to_le_bytes() });
    cause
}

fn stretch(rng: &mut Rng) -> (u32, Vec<u8>) {
    let from = rng.below(SESSION_BYTES as u64) as u32;
    let count = 1 + rng.below((SESSION_BYTES as u64 - u64::from(from)).min(40));
    (from, (0..count).map(|_| rng.word() as u8).collect())
}

/// bytes without a meaning, just behind the entries in use of one of the tables
fn behind(rng: &mut Rng, ends: [usize; 2]) -> (u32, Vec<u8>) {
    let table = rng.below(2) as usize;
    let from = ends[table];
    let room = [1_320, SESSION_BYTES][table].saturating_sub(from).min(600);
    (from as u32, (0..room).map(|_| rng.word() as u8).collect())
}

/// damage to the bytes of a session: where it goes, and what stands there then
pub(super) fn damage(rng: &mut Rng, s: Option<&Session>, bytes: &[u8]) -> (u32, Vec<u8>) {
    let Aim { completed, requests, request, plan, ends } = Aim::at(rng, s);
    let small = |rng: &mut Rng| rng.pick(&[0u16, 1, 2, 63, 64, 65, 255, 256, 257, 1_023, 1_024, 1_025, 3_072, 3_073, 65_535]);
    let word16 = |at: usize, value: u16| (at as u32, value.to_le_bytes().to_vec());
    match rng.below(28) {
        0 => flipped(rng, bytes, 0, 40),
        1 => flipped(rng, bytes, request, 20),
        2 => flipped(rng, bytes, plan, 7),
        3 => flipped(rng, bytes, 0, SESSION_BYTES),
        4 => (rng.below(SESSION_BYTES as u64) as u32, vec![rng.word() as u8]),
        5 => word16(28, small(rng)),
        6 => word16(30, rng.pick(&[0, completed + 1, requests, requests + 1, 64, 65])),
        7 => word16(32, rng.pick(&[0, completed, completed.wrapping_sub(1), requests + 1, 64, 65])),
        8 => word16(request + 12, small(rng)),
        9 => word16(plan, small(rng)),
        10 => word16(plan + 2, small(rng)),
        11 => word16(plan + 4, small(rng)),
        12 => (15, vec![rng.below(3) as u8]),
        13 => (14, vec![rng.below(5) as u8]),
        14 => (12, vec![rng.pick(&[15, 16, 255])]),
        15 => (13, vec![rng.pick(&[127, 128, 255])]),
        16 => word16(10, rng.pick(&[2_047, 2_048, 65_535])),
        17 => (16, (u64::MAX - rng.below(3)).to_le_bytes().to_vec()),
        18 => word16(8, small(rng)),
        19 => (34, cause(rng, 4, &[0, 0, 2, 3, 4, 7, 8, 9, 10, 11])),
        20 => (request as u32, rng.below(8).to_le_bytes().to_vec()),
        21 => ((request + 14) as u32, cause(rng, 6, &[0, 0, 2, 3, 8, 10])),
        22 => (rng.below(3) as u32, vec![rng.word() as u8]),
        23 => stretch(rng),
        _ => behind(rng, ends),
    }
}
