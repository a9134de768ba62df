//! Planning: the model beside the lifted Rust: stages, descriptors, toggles, setup bytes, and the lengths read back.

use crate::gen_plans::{LIMIT, control_borders, control_request, data_borders, data_request, direction, fields, length, packet, speed};
use crate::model_plan as model;
use crate::rng::Rng;
use lifted::calls::*;
use lifted::transfers as rust;

const BLANK: u32 = 0xa5a5_a5a5;

fn same_plan(what: &dyn std::fmt::Debug, plan: &Plan, array: &[u32], rust: &rust::Transferred) -> Result<(), String> {
    let theirs: Vec<Stage> = rust.stages.iter().map(|(stage, _)| *stage).collect();
    if plan.stages != theirs {
        return Err(format!("{what:?}\n  model {:?}\n  Rust  {theirs:?}", plan.stages));
    }
    let used = rust.words.len();
    if array[..used] != rust.words[..] {
        let at = (0..used).find(|i| array[*i] != rust.words[*i]).unwrap();
        return Err(format!("{what:?}\n  word {at}: model {:#010x}, Rust {:#010x}", array[at], rust.words[at]));
    }
    if array[used..].iter().any(|w| *w != BLANK) {
        return Err(format!("{what:?}\n  the model writes behind the plan"));
    }
    Ok(())
}

/// the controller writes back any counts; each stage's length is read
fn read_back(
    what: &dyn std::fmt::Debug,
    rng: &mut Rng,
    plan: &Plan,
    array: &mut [u32],
    rust: &mut rust::Transferred,
) -> Result<(), String> {
    let many = plan.stages.iter().map(|s| s.descs).sum::<u32>();
    for desc in 0..many {
        let now = array[2 * desc as usize];
        let word = match rng.below(6) {
            0 => now,
            1 => now & 0x7ffe_0000,
            2 => rng.word(),
            3 => now & 0x1_ffff,
            _ => now & 0x7ffe_0000 | rng.below(u64::from(now & 0x1_ffff) + 1) as u32,
        };
        array[2 * desc as usize] = word;
        rust.touch(desc, word);
    }
    for (i, stage) in plan.stages.iter().enumerate() {
        let (ours, theirs) = (model::moved(stage, array), rust.moved(i) as u32);
        if ours != Ok(theirs) {
            return Err(format!("{what:?}\n  stage {i} moved: model {ours:?}, Rust {theirs}"));
        }
    }
    Ok(())
}

fn data(rng: &mut Rng, r: DataRequest) -> Result<bool, String> {
    let mut array = vec![BLANK; 2_048];
    let plan = model::data_plan(&r, &mut array);
    if plan.number != 0 {
        return Ok(false);
    }
    let mut lifted = rust::data(&r).map_err(|n| format!("{r:?}\n  model plans, Rust refuses as {n}"))?;
    same_plan(&r, &plan, &array, &lifted)?;
    let m = u64::from(r.max_packet_size).max(1);
    if lifted.alloc_len != model::rounded(r.len, m, r.direction).max(1) {
        return Err(format!("{r:?}\n  the Rust takes a buffer of {}", lifted.alloc_len));
    }
    if rng.one_in(2) {
        read_back(&r, rng, &plan, &mut array, &mut lifted)?;
    } else {
        lifted.all_came(&plan, &array);
        let (moved, toggle) = lifted.finish();
        if moved != r.len || toggle != plan.toggle {
            return Err(format!("{r:?}\n  after the transfer: model {} {}, Rust {moved} {toggle}", r.len, plan.toggle));
        }
    }
    Ok(true)
}

/// docs/DIFFERENCES.md: an address that is not used and is above 32 bits, which the Rust refuses and 01 does not test
fn unused_beyond(r: &ControlRequest) -> bool {
    let status_in = r.len == 0 || r.direction == Direction::Out;
    r.len == 0 && r.data_dma > LIMIT || !status_in && r.status_dma > LIMIT
}

fn control(rng: &mut Rng, r: ControlRequest) -> Result<bool, String> {
    let fields = fields(rng);
    let mut array = vec![BLANK; 2_048];
    let plan = model::control_plan(&r, &mut array);
    if plan.number != 0 {
        return Ok(false);
    }
    let lifted = rust::control(&r, speed(rng), &fields);
    if unused_beyond(&r) && lifted.is_err() {
        return Ok(false);
    }
    let mut lifted = lifted.map_err(|n| format!("{r:?}\n  model plans, Rust refuses as {n}"))?;
    same_plan(&r, &plan, &array, &lifted)?;
    let bytes = model::setup_packet(&fields, r.direction, r.len);
    if bytes.ok().as_ref().map(|b| &b[..]) != lifted.setup.as_deref() {
        return Err(format!("{r:?} {fields:?}\n  setup bytes: model {bytes:?}, Rust {:?}", lifted.setup));
    }
    if rng.one_in(2) {
        read_back(&r, rng, &plan, &mut array, &mut lifted)?;
    } else {
        lifted.all_came(&plan, &array);
        let (moved, _) = lifted.finish();
        if moved != r.len {
            return Err(format!("{r:?}\n  after the transfer: model {}, Rust {moved}", r.len));
        }
    }
    Ok(true)
}

fn parts(rng: &mut Rng) -> Result<bool, String> {
    let m = if rng.one_in(8) { rng.word() as u16 } else { packet(rng) };
    let len = length(rng, m.min(2_047));
    let (count, chunk, last) = model::split(len, m.min(2_047));
    let list = rust::split(len, m.min(2_047));
    let full = list[..list.len() - 1].iter().all(|l| *l == chunk);
    if list.len() as u64 != count || !full || list[list.len() - 1] != last {
        return Err(format!("split({len}, {m}): model {count} {chunk} {last}, Rust {} chunks, last {:?}", list.len(), list.last()));
    }
    // the Rust counts in 32 bits: DIFFERENCES, planning
    let any = len.min(LIMIT);
    if model::packets(any, m) != rust::packets(any, m) {
        return Err(format!("packets({any}, {m}): model {}, Rust {}", model::packets(any, m), rust::packets(any, m)));
    }
    let (fields, direction, short) = (fields(rng), direction(rng), rng.below(65_536));
    let bytes = model::setup_packet(&fields, direction, short);
    if bytes != Ok(rust::setup_bytes(&fields, direction, short)) {
        return Err(format!("setup bytes of {fields:?} {direction:?} {short}: model {bytes:?}"));
    }
    Ok(true)
}

/// plans compared, and requests that the model refuses
pub fn plans(seed: u64, plans: u64) -> Result<(u64, u64), String> {
    let mut rng = Rng::new(seed);
    let (mut compared, mut refused) = (0, 0);
    while compared < plans {
        let made = match rng.below(5) {
            0 => parts(&mut rng)?,
            1 | 2 => {
                let r = control_request(&mut rng);
                control(&mut rng, r)?
            }
            _ => {
                let r = data_request(&mut rng);
                data(&mut rng, r)?
            }
        };
        if made { compared += 1 } else { refused += 1 }
    }
    Ok((compared, refused))
}

/// every border of 01, for every packet size or every 16th and the last
pub fn borders(seed: u64, whole: bool) -> Result<(u64, u64), String> {
    let mut rng = Rng::new(seed);
    let (mut compared, mut refused) = (0, 0);
    for packet in (0..=2_047).filter(|p| whole || p % 16 < 2 || *p == 2_047) {
        for r in data_borders(packet) {
            if data(&mut rng, r)? { compared += 1 } else { refused += 1 }
        }
        for r in control_borders(packet) {
            if control(&mut rng, r)? { compared += 1 } else { refused += 1 }
        }
    }
    Ok((compared, refused))
}
