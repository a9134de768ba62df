//! Ring sums: the model beside the lifted Rust. Exhaustive over intervals and speeds, dense over frames.

use crate::model;
use crate::rng::Rng;
use lifted::calls::*;
use lifted::sums as rust;

pub const SPEEDS: [Speed; 3] = [Speed::High, Speed::Full, Speed::Low];

pub struct Sums {
    pub compared: u64,
}

impl Sums {
    fn same<T: PartialEq + std::fmt::Debug>(&mut self, what: impl FnOnce() -> String, model: T, rust: T) -> Result<(), String> {
        self.compared += 1;
        if model == rust { Ok(()) } else { Err(format!("{}: model {model:?}, Rust {rust:?}", what())) }
    }

    fn frame(&mut self, raw: u32) -> Result<(), String> {
        for speed in SPEEDS {
            self.same(|| format!("starting_frame({raw}, {speed:?})"), model::starting_frame(raw, speed), rust::starting_frame(raw, speed))?;
            let slot = model::slot_of_frame(speed, raw, model::ring_size(speed));
            self.same(|| format!("slot_of_frame({speed:?}, {raw})"), slot, rust::slot_of_frame(speed, raw))?;
        }
        Ok(())
    }

    fn grid(&mut self, c: u16, t: u16, interval: u16, ring: u16) -> Result<(), String> {
        let ours = model::grid(c.into(), t.into(), interval, ring.into()) as u32;
        self.same(|| format!("grid({c}, {t}, {interval}, {ring})"), ours, rust::grid(c, t, interval, ring))
    }

    fn interval(&mut self, interval: u16, speed: Speed) -> Result<(), String> {
        let ring = model::ring_size(speed);
        let what = |name: &str| format!("{name}({interval}, {speed:?})");
        self.same(|| what("capacity"), model::capacity_of(interval, ring) as u32, rust::capacity(interval, speed))?;
        self.same(|| what("schinfo"), model::schinfo(speed, interval), rust::schinfo(speed, interval))?;
        self.same(|| what("gcd"), model::gcd(interval.into(), ring.into()) as u32, rust::gcd(interval, ring as u16))?;
        for start in [0, 1, 63, 64, 65_535, 0x1fff_ffff, u32::MAX] {
            let frames = (model::service_frames(start, interval, speed), rust::service_frames(start, interval, speed));
            self.same(|| format!("service_frames({start}, {interval}, {speed:?})"), frames.0, frames.1)?;
        }
        Ok(())
    }

    /// the sums of a speed: the few by direction and mult, every interval, and frame lists
    fn speed(&mut self, speed: Speed) -> Result<(), String> {
        self.same(|| format!("ring_size({speed:?})"), model::ring_size(speed), rust::ring_size(speed))?;
        self.same(|| format!("packet_limit({speed:?})"), model::packet_limit(speed), rust::packet_limit(speed))?;
        for direction in [Direction::Out, Direction::In] {
            for mult in 0..=255 {
                let pids = (model::pid(speed, direction, mult), rust::pid(speed, direction, mult));
                self.same(|| format!("pid({speed:?}, {direction:?}, {mult})"), pids.0, pids.1)?;
            }
        }
        for interval in 0..=65_535 {
            self.interval(interval, speed)?;
        }
        for interval in 0..600 {
            for start in 0..64 {
                let frames = (model::service_frames(start, interval, speed), rust::service_frames(start, interval, speed));
                self.same(|| format!("service_frames({start}, {interval}, {speed:?})"), frames.0, frames.1)?;
            }
        }
        Ok(())
    }

    fn grids(&mut self, whole: bool) -> Result<(), String> {
        for (ring, step) in [(64u16, 1), (256, if whole { 1 } else { 5 })] {
            for interval in 0..=ring + 2 {
                for c in (0..ring).step_by(step) {
                    for t in (0..ring).step_by(step) {
                        self.grid(c, t, interval, ring)?;
                    }
                }
            }
        }
        Ok(())
    }

    fn drawn(&mut self, next: u64) -> Result<(), String> {
        self.same(|| format!("drawn({next})"), (next, model::next_number(next)), rust::drawn(next))
    }

    fn random(&mut self, rng: &mut Rng) -> Result<(), String> {
        let ring = 1 + rng.below(65_535) as u16;
        self.grid(rng.word() as u16, rng.word() as u16, rng.word() as u16, ring)?;
        let (a, b) = (rng.word() as u16 >> rng.below(16), rng.word() as u16 >> rng.below(16));
        self.same(|| format!("gcd({a}, {b})"), model::gcd(a.into(), b.into()) as u32, rust::gcd(a, b))?;
        self.drawn(rng.next() >> rng.below(64))
    }
}

pub fn sums(seed: u64, whole: bool) -> Result<u64, String> {
    let mut s = Sums { compared: 0 };
    let mut rng = Rng::new(seed);
    for speed in SPEEDS {
        s.speed(speed)?;
    }
    let dense = if whole { 1 << 22 } else { 1 << 18 };
    for raw in 0..dense {
        s.frame(raw)?;
        s.frame(u32::MAX - raw)?;
        s.frame(rng.word())?;
    }
    s.grids(whole)?;
    for _ in 0..dense {
        s.random(&mut rng)?;
    }
    s.same(|| "gcd(0, 0)".into(), model::gcd(0, 0) as u32, rust::gcd(0, 0))?;
    for next in [0, 1, u64::MAX - 1, u64::MAX] {
        s.drawn(next)?;
    }
    Ok(s.compared)
}
