//! The list's ring sums.

use super::{List, sum_frames};
use crate::layout::{direction_number, speed_number};
use crate::model;
use crate::rng::Rng;
use lifted::calls::*;
use lifted::sums;

fn by_speed(list: &mut List, rng: &mut Rng, of: Speed) -> Result<(), String> {
    let n = u64::from(speed_number(of));
    list.same("size", &[n], model::ring_size(of).into(), sums::ring_size(of).into())?;
    list.same("limit", &[n], model::packet_limit(of).into(), sums::packet_limit(of).into())?;
    let ring = model::ring_size(of);
    for i in 0..24 {
        let interval = [0, 1, 2, 3, 4, 5, 6, 7, 8, 9, 64, 128, 256, 65_535].get(i).copied().unwrap_or(rng.word() as u16 >> rng.below(14));
        let wide = u64::from(interval);
        list.same("capacity", &[wide, n], model::capacity_of(interval, ring), sums::capacity(interval, of).into())?;
        list.same("schinfo", &[n, wide], model::schinfo(of, interval).into(), sums::schinfo(of, interval).into())?;
        let raw = [0, 4, 5, 7, 65_533, 65_534, 65_535, u32::MAX - 15, u32::MAX].get(i).copied().unwrap_or(rng.word());
        let (ours, rust) = (model::starting_frame(raw, of), sums::starting_frame(raw, of));
        list.same("start", &[raw.into(), n], ours.into(), rust.into())?;
        let (ours, rust) = (model::slot_of_frame(of, raw, ring), sums::slot_of_frame(of, raw));
        list.same("slot", &[n, raw.into()], ours.into(), rust.into())?;
        let (ours, rust) = (model::service_frames(raw, interval, of), sums::service_frames(raw, interval, of));
        if ours != rust {
            return Err(format!("frames {raw} {interval} {of:?}: model {ours:?}, Rust {rust:?}"));
        }
        list.line("frames", &[raw.into(), wide, n], &[rust.len() as u64, sum_frames(&rust)]);
    }
    Ok(())
}

pub(super) fn ring_sums(list: &mut List, rng: &mut Rng) -> Result<(), String> {
    for of in [Speed::High, Speed::Full, Speed::Low] {
        by_speed(list, rng, of)?;
        for way in [Direction::Out, Direction::In] {
            for mult in [0, 1, 2, 3, 4, 255] {
                let inputs = [speed_number(of).into(), direction_number(way).into(), mult.into()];
                let (ours, rust) = (model::pid(of, way, mult), sums::pid(of, way, mult));
                list.same("pid", &inputs, model::pid_number(ours).into(), model::pid_number(rust).into())?;
            }
        }
    }
    for i in 0..60 {
        let (a, b) = if i < 4 { (i / 2, i % 2) } else { (rng.word() as u16 >> rng.below(14), rng.word() as u16 >> rng.below(14)) };
        list.same("gcd", &[a.into(), b.into()], model::gcd(a.into(), b.into()), sums::gcd(a, b).into())?;
        let ring = [64, 256, 1 + rng.below(65_535) as u16][usize::from(i % 3)];
        let (c, t, step) = (rng.below(ring.into()) as u16, rng.below(ring.into()) as u16, rng.word() as u16 >> rng.below(16));
        let ours = model::grid(c.into(), t.into(), step, ring.into());
        list.same("grid", &[c.into(), t.into(), step.into(), ring.into()], ours, sums::grid(c, t, step, ring).into())?;
    }
    for number in [0, 1, 2, u64::MAX - 1, u64::MAX].into_iter().chain((0..15).map(|_| rng.next() >> rng.below(64)).collect::<Vec<_>>()) {
        list.same("next", &[number], model::next_number(number), sums::drawn(number).1)?;
    }
    Ok(())
}
