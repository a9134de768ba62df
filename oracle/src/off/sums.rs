//! The ring sums beside the model.

use super::script::Script;
use crate::rng::Rng;
use crate::wire::{self, Party, Request};

/// Sums put to a party, many in one script.
struct Asked<'a> {
    party: &'a mut dyn Party,
    script: Script,
    made: u64,
}

impl Asked<'_> {
    fn add(&mut self, request: Request) -> Result<(), String> {
        self.made += 1;
        self.script.add(request);
        if self.script.len() >= 20_000 {
            self.script.run(self.party)?;
            self.script = Script::new(0);
        }
        Ok(())
    }

    /// sums of a speed, every number that a byte can be
    fn speeds(&mut self) -> Result<(), String> {
        for speed in 0..=255u32 {
            self.add(wire::sum(0, speed, 0, 0, 0))?;
            self.add(wire::sum(1, speed, 0, 0, 0))?;
            for direction in [0, 1, 2, 255] {
                for mult in [0, 1, 2, 3, 4, 255] {
                    self.add(wire::sum(8, speed, direction, mult, 0))?;
                }
            }
        }
        Ok(())
    }

    /// sums of an interval, then of a frame number
    fn intervals_and_frames(&mut self, rng: &mut Rng, whole: bool) -> Result<(), String> {
        for speed in 0..4u32 {
            for interval in 0..=65_535u32 {
                self.add(wire::sum(3, interval, speed, 0, 0))?;
                self.add(wire::sum(7, speed, interval, 0, 0))?;
                if whole || interval < 600 || interval % 64 < 2 {
                    self.add(wire::frames(rng.word(), interval as u16, speed as u8))?;
                }
            }
            for raw in 0..if whole { 1u32 << 18 } else { 1 << 14 } {
                for raw in [raw, u32::MAX - raw, rng.word()] {
                    self.add(wire::sum(4, raw, speed, 0, 0))?;
                    self.add(wire::sum(5, speed, raw, 0, 0))?;
                }
            }
        }
        Ok(())
    }

    fn grids(&mut self, whole: bool) -> Result<(), String> {
        for (ring, step) in [(64u32, if whole { 1 } else { 3 }), (256, if whole { 3 } else { 17 })] {
            for interval in 0..=ring + 2 {
                for c in (0..ring).step_by(step) {
                    for t in (0..ring).step_by(step) {
                        self.add(wire::sum(6, c, t, interval, ring))?;
                    }
                }
            }
        }
        Ok(())
    }

    fn random(&mut self, rng: &mut Rng, whole: bool) -> Result<(), String> {
        for _ in 0..if whole { 1 << 19 } else { 1 << 15 } {
            let n = |rng: &mut Rng| (rng.word() & 0xffff) >> rng.below(17);
            self.add(wire::sum(6, n(rng), n(rng), n(rng), n(rng)))?;
            self.add(wire::sum(2, n(rng), n(rng), 0, 0))?;
            self.add(wire::next(rng.next() >> rng.below(64)))?;
        }
        Ok(())
    }
}

/// all sums, beside the model
pub fn sums(seed: u64, whole: bool, party: &mut dyn Party) -> Result<u64, String> {
    let mut rng = Rng::new(seed);
    let mut asked = Asked { party, script: Script::new(0), made: 0 };
    asked.speeds()?;
    asked.intervals_and_frames(&mut rng, whole)?;
    asked.grids(whole)?;
    asked.random(&mut rng, whole)?;
    for number in [0, 1, u64::MAX - 1, u64::MAX] {
        asked.add(wire::next(number))?;
    }
    asked.script.run(asked.party)?;
    Ok(asked.made)
}
