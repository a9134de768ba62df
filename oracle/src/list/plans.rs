//! The list's plans, each with what the controller writes back and what was moved.

use super::{List, WORDS, sum_longs, sum_words};
use crate::gen_plans::{LIMIT, control_request, data_request, fields, length, packet, speed};
use crate::layout::{direction_number, speed_number};
use crate::model_plan;
use crate::rng::Rng;
use lifted::calls::*;
use lifted::transfers;

const ARRAY_BLANK: u32 = 0xa5a5_a5a5;

fn stage_numbers(stage: &Stage) -> [u64; 7] {
    let role = match stage.role {
        Role::Data => 0,
        Role::ControlSetup => 1,
        Role::ControlData => 2,
        Role::ControlStatus => 3,
    };
    [role, stage.hcchar, stage.hctsiz, stage.dma_addr, stage.desc_base, stage.descs, stage.len].map(u64::from)
}

/// the sums of so many stages, those not there behind the others
fn stage_sums(stages: &[Stage], many: usize) -> Vec<u64> {
    let blank = std::iter::repeat([0; 7]);
    stages.iter().map(stage_numbers).chain(blank).take(many).map(|numbers| sum_longs(&numbers)).collect()
}

/// the Rust's stages, where the model's plan is the same
fn planned(what: &dyn std::fmt::Debug, plan: &Plan, array: &[u32], rust: &transfers::Transferred) -> Result<Vec<Stage>, String> {
    let stages: Vec<Stage> = rust.stages.iter().map(|(stage, _)| *stage).collect();
    let mut words = rust.words.clone();
    words.resize(array.len(), ARRAY_BLANK);
    if plan.stages != stages || words != array {
        return Err(format!("{what:?}\n  model {:?}\n  Rust  {stages:?}", plan.stages));
    }
    Ok(stages)
}

/// the controller's words for a few descriptors, and each stage read back
fn read_back(list: &mut List, rng: &mut Rng, plan: &Plan, array: &mut [u32], rust: &mut transfers::Transferred) -> Result<(), String> {
    let descs = plan.stages.iter().map(|s| s.descs).sum::<u32>();
    for _ in 0..1 + rng.below(u64::from(descs.min(4))) {
        let desc = if rng.one_in(3) { descs - 1 } else { rng.below(descs.into()) as u32 };
        let now = array[2 * desc as usize];
        let word = match rng.below(4) {
            0 => now & 0x7ffe_0000,
            1 => rng.word(),
            _ => now & 0x7ffe_0000 | rng.below(u64::from(now & 0x1_ffff) + 1) as u32,
        };
        array[2 * desc as usize] = word;
        rust.touch(desc, word);
        list.line("poke", &[2 * u64::from(desc), word.into()], &[]);
    }
    for (i, stage) in plan.stages.iter().enumerate() {
        let (ours, theirs) = (model_plan::moved(stage, array), rust.moved(i));
        if ours != Ok(theirs as u32) {
            return Err(format!("{stage:?} moved: model {ours:?}, Rust {theirs}"));
        }
        list.line("moved", &stage_numbers(stage), &[0, theirs]);
    }
    Ok(())
}

fn data_numbers(r: &DataRequest) -> [u64; 10] {
    [
        r.base,
        r.len,
        r.max_packet_size.into(),
        u64::from(r.kind == DataKind::Interrupt),
        direction_number(r.direction).into(),
        speed_number(r.speed).into(),
        r.device.into(),
        r.endpoint.into(),
        r.odd_frame.into(),
        r.toggle.into(),
    ]
}

fn data(list: &mut List, rng: &mut Rng, r: DataRequest) -> Result<(), String> {
    let inputs = data_numbers(&r);
    let mut array = vec![ARRAY_BLANK; WORDS];
    let plan = model_plan::data_plan(&r, &mut array);
    if plan.number == 11 && r.base > LIMIT {
        if transfers::data(&r).err() != Some(11) {
            return Err(format!("{r:?}: the Rust does not refuse"));
        }
        list.refusals[11] += 1;
        let mut answers = vec![11, r.toggle.into(), 0];
        answers.extend(stage_sums(&[], 4));
        answers.push(sum_words(array.into_iter()));
        list.line("data", &inputs, &answers);
        return Ok(());
    }
    if plan.number != 0 {
        return Ok(());
    }
    let mut ended = transfers::data(&r).map_err(|n| format!("{r:?}: the Rust refuses as {n}"))?;
    ended.all_came(&plan, &array);
    let (moved, toggle) = ended.finish();
    if (moved, toggle) != (r.len, plan.toggle) {
        return Err(format!("{r:?}: model {} {}, Rust {moved} {toggle}", r.len, plan.toggle));
    }
    let mut rust = transfers::data(&r).map_err(|n| format!("{r:?}: the Rust refuses as {n}"))?;
    let stages = planned(&r, &plan, &array, &rust)?;
    let mut answers = vec![0, toggle.into(), stages.len() as u64];
    answers.extend(stage_sums(&stages, 4));
    answers.push(sum_words(array.iter().copied()));
    list.line("data", &inputs, &answers);
    read_back(list, rng, &plan, &mut array, &mut rust)
}

fn control(list: &mut List, rng: &mut Rng, r: ControlRequest) -> Result<(), String> {
    let fields = fields(rng);
    let way = direction_number(r.direction).into();
    let inputs = [r.len, r.setup_dma, r.data_dma, r.status_dma, r.max_packet_size.into(), way, r.device.into()];
    let mut array = vec![ARRAY_BLANK; WORDS];
    let plan = model_plan::control_plan(&r, &mut array);
    let rust = transfers::control(&r, speed(rng), &fields);
    if plan.number == 11 && r.setup_dma > LIMIT && rust.as_ref().err() == Some(&11) {
        list.refusals[11] += 1;
        let mut answers = vec![11, 0];
        answers.extend(stage_sums(&[], 3));
        answers.push(sum_words(array.into_iter()));
        list.line("control", &inputs, &answers);
        return Ok(());
    }
    if plan.number != 0 {
        return Ok(());
    }
    let mut rust = rust.map_err(|n| format!("{r:?}: the Rust refuses as {n}"))?;
    let stages = planned(&r, &plan, &array, &rust)?;
    let (last, others) = stages.split_last().ok_or("no stages")?;
    let mut answers = vec![0, u64::from(stages.len() == 3)];
    answers.extend(stage_sums(others, 2));
    answers.extend(stage_sums(&[*last], 1));
    answers.push(sum_words(array.iter().copied()));
    list.line("control", &inputs, &answers);
    let bytes = rust.setup.clone().ok_or("no setup bytes")?;
    if model_plan::setup_packet(&fields, r.direction, r.len).ok().as_ref().map(|b| &b[..]) != Some(&bytes) {
        return Err(format!("{r:?} {fields:?}: setup bytes, Rust {bytes:?}"));
    }
    let named = [fields.kind.into(), fields.recipient.into(), way, fields.request.into(), fields.value.into(), fields.index.into(), r.len];
    let bytes: [u8; 8] = bytes.try_into().map_err(|_| "no eight setup bytes")?;
    list.line("setup", &named, &[0, u64::from_le_bytes(bytes)]);
    read_back(list, rng, &plan, &mut array, &mut rust)
}

fn parts(list: &mut List, rng: &mut Rng) -> Result<(), String> {
    let m = packet(rng);
    let len = length(rng, m);
    let (count, chunk, last) = model_plan::split(len, m);
    let rust = transfers::split(len, m);
    let full = rust[..rust.len() - 1].iter().all(|l| *l == chunk);
    if rust.len() as u64 != count || !full || rust[rust.len() - 1] != last {
        return Err(format!("split({len}, {m}): model {count} {chunk} {last}, Rust {rust:?}"));
    }
    list.line("split", &[len, m.into()], &[rust.len() as u64, chunk, rust[rust.len() - 1]]);
    let any = len.min(LIMIT);
    list.same("packets", &[any, m.into()], model_plan::packets(any, m), transfers::packets(any, m))
}

pub(super) fn plans(list: &mut List, rng: &mut Rng) -> Result<(), String> {
    for i in 0..160 {
        let mut r = data_request(rng);
        if i % 16 == 0 {
            r.base = LIMIT + 1 + (rng.next() >> rng.below(64));
        }
        data(list, rng, r)?;
        if i % 2 == 0 {
            let mut r = control_request(rng);
            if i % 20 == 0 {
                r.setup_dma = LIMIT + 1 + (rng.next() >> rng.below(64));
            }
            control(list, rng, r)?;
            parts(list, rng)?;
        }
    }
    Ok(())
}
