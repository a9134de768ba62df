//! A row of the table: one call on both sides, and its figures.

use crate::probe::Probe;

/// makes the state, makes the call under the probe, and answers what came of it as one number
pub type Once = Box<dyn FnMut(&mut Probe) -> u64>;

pub struct Row {
    pub name: String,
    /// none: the Rust has no such call
    pub rust: Option<Once>,
    pub port: Once,
}

/// First quartile, median, third quartile.
#[derive(Clone, Copy)]
pub struct Spread(pub [f64; 3]);

impl Spread {
    fn of(mut values: Vec<f64>) -> Spread {
        values.sort_by(f64::total_cmp);
        let at = |share: f64| values[((values.len() - 1) as f64 * share).round() as usize];
        Spread([at(0.25), at(0.5), at(0.75)])
    }

    pub fn median(&self) -> f64 {
        self.0[1]
    }
}

pub struct Figures {
    pub name: String,
    /// nanoseconds a call
    pub rust: Option<Spread>,
    pub port: Spread,
    /// port over Rust, sample by sample
    pub ratio: Option<Spread>,
}

impl Row {
    /// both sides must do the same
    pub fn compare(&mut self) {
        let mut probe = Probe::comparing();
        if let Some(rust) = &mut self.rust {
            assert_eq!(rust(&mut probe), (self.port)(&mut probe), "{}: the two sides differ", self.name);
        }
    }

    /// under callgrind: one call of each side, behind three that warm up, written under the name of the row
    pub fn count(&mut self) {
        let count = |side: &str, once: &mut Once| {
            let mut warm = Probe::comparing();
            for _ in 0..3 {
                once(&mut warm);
            }
            let mut probe = Probe::counting();
            once(&mut probe);
            crate::callgrind::dump(&format!("{side}/{}/{}", probe.calls(), self.name));
        };
        if let Some(rust) = &mut self.rust {
            count("rust", rust);
        }
        count("port", &mut self.port);
    }

    /// what one call of the port copies: calls of memcpy and memset, and bytes
    pub fn print_copies(&mut self) {
        let mut probe = Probe::copying();
        (self.port)(&mut probe);
        let (calls, bytes) = probe.copies();
        println!("{}\t{calls}\t{bytes}", self.name);
    }
}

/// One sample of each side, and the slower of the two fixed loops around them.
pub struct Pair {
    rust: Option<f64>,
    port: f64,
    around: u64,
}

/// A pair is quiet where the fixed loop takes at most so many times its least: another thread on the same core slows it by a tenth and more.
const NEAR: f64 = 1.05;

/// A row is taken again, for want of quiet pairs, at most so many times as often as is asked for.
const PATIENCE: usize = 6;

fn is_quiet(pair: &Pair, least: u64) -> bool {
    pair.around as f64 <= NEAR * least as f64
}

fn figures(row: &Row, pairs: &[&Pair]) -> Figures {
    let rusts: Vec<f64> = pairs.iter().filter_map(|p| p.rust).collect();
    let ratios: Vec<f64> = pairs.iter().filter_map(|p| p.rust.map(|rust| p.port / rust)).collect();
    let spread = |values: Vec<f64>| (!values.is_empty()).then(|| Spread::of(values));
    Figures { name: row.name.clone(), rust: spread(rusts), port: Spread::of(pairs.iter().map(|p| p.port).collect()), ratio: spread(ratios) }
}

/// What was measured, and how many pairs of samples were taken and left out.
pub struct Taken {
    pub figures: Vec<Figures>,
    pub pairs: usize,
    pub loud: usize,
}

/// Places of the stack that samples are taken at, one after the other.
const DEPTHS: usize = 67;

/// `act`, with so many frames between: where the stack lies is chance, and a call of a few nanoseconds can take twice as long at one place as at
/// another. Both sides of a pair are at one place.
#[inline(never)]
fn at_depth(frames: usize, act: &mut dyn FnMut()) {
    let mut pad = [0u64; 2];
    std::hint::black_box(&mut pad);
    if frames == 0 {
        act();
    } else {
        at_depth(frames - 1, act);
    }
    std::hint::black_box(&mut pad);
}

/// The pairs of each row, in the order of the rows.
pub type Pairs = Vec<Vec<Pair>>;

/// `turns` over all the rows; in each turn one sample of both sides of each row, so that what else the machine does falls on all alike.
/// Pairs that were not quiet are taken again.
pub fn take(rows: &mut [&mut Row], turns: usize) -> Pairs {
    let mut probe = Probe::clock();
    let mut taken: Pairs = rows.iter().map(|_| Vec::new()).collect();
    let mut least = u64::MAX;
    for turn in 0..PATIENCE * turns {
        for (row, pairs) in rows.iter_mut().zip(&mut taken) {
            if turn >= turns && pairs.iter().filter(|p| is_quiet(p, least)).count() >= turns {
                continue;
            }
            let before = probe.fixed_loop();
            let (mut rust, mut port) = (None, 0.0);
            at_depth(5 * turn % DEPTHS, &mut || {
                rust = row.rust.as_mut().map(|once| probe.sample(once));
                port = probe.sample(&mut row.port);
            });
            let behind = probe.fixed_loop();
            least = least.min(before).min(behind);
            pairs.push(Pair { rust, port, around: before.max(behind) });
        }
    }
    taken
}

/// Pairs that were not quiet are left out; where too few are quiet, fewer than a quarter of the `turns`, all of the row's count.
pub fn sum_up(rows: &[&mut Row], taken: &Pairs, turns: usize) -> Taken {
    let least = taken.iter().flatten().map(|p| p.around).min().unwrap_or(0);
    let mut all = Taken { figures: Vec::new(), pairs: 0, loud: 0 };
    for (row, pairs) in rows.iter().zip(taken) {
        let quiet: Vec<&Pair> = pairs.iter().filter(|p| is_quiet(p, least)).collect();
        let kept = if 4 * quiet.len() < turns { pairs.iter().collect() } else { quiet };
        all.pairs += pairs.len();
        all.loud += pairs.len() - kept.len();
        all.figures.push(figures(row, &kept));
    }
    all
}

/// the pairs as a process hands them to the one that started it: a line a row, three numbers a pair
pub fn to_lines(taken: &Pairs) -> String {
    let number = |p: &Pair| format!("{} {} {}", p.rust.unwrap_or(f64::NAN), p.port, p.around);
    taken.iter().map(|pairs| pairs.iter().map(number).collect::<Vec<_>>().join(" ") + "\n").collect()
}

pub fn from_lines(lines: &str) -> Pairs {
    let pair = |n: &[&str]| {
        let rust: f64 = n[0].parse().expect("a time");
        Pair { rust: (!rust.is_nan()).then_some(rust), port: n[1].parse().expect("a time"), around: n[2].parse().expect("ticks") }
    };
    lines.lines().map(|line| line.split(' ').collect::<Vec<_>>().chunks_exact(3).map(pair).collect()).collect()
}
