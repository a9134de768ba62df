//! Planning beside the model.

use super::script::Script;
use crate::gen_plans;
use crate::model_plan;
use crate::rng::Rng;
use crate::wire::{self, Party};

/// planning on and off the domain: every border of 01, then random transfers with read-backs and forged stages
pub fn plans(seed: u64, plans: u64, whole: bool, party: &mut dyn Party) -> Result<u64, String> {
    let mut rng = Rng::new(seed);
    let mut made = 0;
    for packet in (0..=2_047).filter(|p| whole || p % 64 < 2 || *p == 2_047) {
        let mut script = Script::new(0xa5);
        for r in gen_plans::data_borders(packet) {
            script.add(wire::data(&r, 2_048, None));
        }
        for r in gen_plans::control_borders(packet) {
            script.add(wire::control(&r, 2_048, None));
        }
        made += script.len() as u64;
        script.run(party)?;
    }
    let plans = plans + made;
    while made < plans {
        let mut script = Script::new(rng.word() as u8);
        for _ in 0..40 {
            one_plan(&mut rng, &mut script);
            made += 1;
        }
        script.run(party)?;
    }
    Ok(made)
}

fn any(rng: &mut Rng) -> u8 {
    rng.word() as u8
}

/// a length or an address about a limit or far beyond
fn far(rng: &mut Rng, near: u64) -> u64 {
    match rng.below(6) {
        0 => near + 1,
        1 => near.wrapping_add(rng.below(3_000)),
        2 => rng.next(),
        3 => u64::MAX,
        4 => gen_plans::LIMIT + rng.below(3),
        _ => gen_plans::LIMIT - rng.below(3_000),
    }
}

/// a transfer on the domain, one part of it now and then off it
fn ask_control(rng: &mut Rng, script: &mut Script, words: u32) {
    let mut r = gen_plans::control_request(rng);
    match rng.below(10) {
        0 => r.len = far(rng, 65_535),
        1 => r.setup_dma = far(rng, r.setup_dma),
        2 => r.data_dma = far(rng, r.data_dma),
        3 => r.status_dma = far(rng, r.status_dma),
        4 => r.device = any(rng),
        5 => r.max_packet_size = rng.word() as u16,
        _ => {}
    }
    let direction = rng.one_in(40).then(|| any(rng));
    script.add(wire::control(&r, words, direction));
}

fn ask_data(rng: &mut Rng, script: &mut Script, words: u32) {
    let mut r = gen_plans::data_request(rng);
    match rng.below(12) {
        0 => r.len = far(rng, model_plan::chunk(u64::from(r.max_packet_size).max(1)) * 1_024),
        1 => r.base = far(rng, r.base),
        2 => r.device = any(rng),
        3 => r.endpoint = any(rng),
        4 => r.max_packet_size = rng.word() as u16,
        _ => {}
    }
    let numbers = rng.one_in(40).then(|| (rng.below(6) as u8, rng.below(4) as u8, rng.below(5) as u8));
    script.add(wire::data(&r, words, numbers));
}

/// the stages in the answer to the plan that was asked last, behind a head of `from` bytes
fn stages_answered(script: &Script, from: usize) -> Vec<[u32; 7]> {
    let answer = script.answered(script.len() - 1);
    answer[from..answer.len() - 8]
        .chunks_exact(28)
        .map(|s| std::array::from_fn(|i| u32::from_le_bytes(s[4 * i..4 * i + 4].try_into().unwrap())))
        .collect()
}

/// the controller writes some statuses back
fn write_back(rng: &mut Rng, script: &mut Script) {
    for _ in 0..rng.below(6) {
        let desc = if rng.one_in(2) { rng.below(4) } else { rng.below(1_024) } as usize;
        let now = script.model.array[2 * desc];
        let word = if rng.one_in(3) { rng.word() } else { now & 0x7ffe_0000 | rng.below(u64::from(now & 0x1_ffff) + 1) as u32 };
        script.add(wire::poke(3, 8 * desc as u32, &word.to_le_bytes()));
    }
}

/// a stage as it was answered, or forged
fn handed_in(rng: &mut Rng, mut stage: [u32; 7]) -> [u32; 7] {
    if rng.one_in(6) {
        let field = rng.below(7) as usize;
        stage[field] = match rng.below(4) {
            0 => rng.word(),
            1 => stage[field].wrapping_add(1),
            2 => stage[field].wrapping_sub(1),
            _ => rng.pick(&[0, 1, 256, 257, 1_023, 1_024, 1_025, u32::MAX]),
        };
    }
    stage
}

fn one_plan(rng: &mut Rng, script: &mut Script) {
    let words = if rng.one_in(20) { rng.pick(&[0, 1, 2_047, 2_048, 2_064]) } else { rng.pick(&[2_048, 2_064]) };
    let head = if rng.one_in(3) {
        ask_control(rng, script, words);
        8
    } else {
        ask_data(rng, script, words);
        12
    };
    let stages = stages_answered(script, head);
    write_back(rng, script);
    for stage in stages {
        script.add(wire::moved(&handed_in(rng, stage), words));
    }
    let m = if rng.one_in(2) { rng.word() as u16 } else { gen_plans::packet(rng) };
    let len = if rng.one_in(3) { rng.next() >> rng.below(64) } else { gen_plans::length(rng, m.min(2_047)) };
    script.add(wire::split(len, m));
    let mut fields = gen_plans::fields(rng);
    if rng.one_in(20) {
        (fields.kind, fields.recipient) = (rng.below(6) as u8, rng.below(6) as u8);
    }
    let direction = if rng.one_in(20) { any(rng) } else { rng.below(2) as u8 };
    let len = if rng.one_in(8) { far(rng, 65_535) } else { rng.below(65_536) };
    script.add(wire::setup(&fields, direction, len));
}
