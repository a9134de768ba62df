//! The figures as text.

use crate::docs::Measured;
use crate::rows::{Figures, Spread};

fn spread(s: &Spread) -> String {
    format!("{:.1} ({:.1} to {:.1})", s.0[1], s.0[0], s.0[2])
}

fn line(f: &Figures) -> String {
    let rust = f.rust.as_ref().map_or("-".into(), spread);
    let ratio = f.ratio.as_ref().map_or("-".into(), |r| format!("{:.2} ({:.2} to {:.2})", r.0[1], r.0[0], r.0[2]));
    format!("{:<36} {:>28} {:>28} {:>26}\n", f.name, rust, spread(&f.port), ratio)
}

pub fn text(figures: &[Figures], curves: &[Measured]) -> String {
    let mut out = format!("{:<36} {:>28} {:>28} {:>26}\n", "call", "Rust ns", "port ns", "port / Rust");
    figures.iter().for_each(|f| out.push_str(&line(f)));
    out.push_str("\ngrowth\n");
    curves.iter().flat_map(|c| &c.points).for_each(|(_, f)| out.push_str(&line(f)));
    out
}
