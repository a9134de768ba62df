//! `bench`: the lifted Rust beside the port's archive, call by call (oracle/README.md, docs/SPEED.md).
//!
//!   bench [--samples N]                    the table
//!   bench [--samples N] --docs DIR COUNTS  the table, the plots and the tables of DIR/SPEED.md, with what was counted before
//!   bench --count                          under callgrind: the instructions of each row
//!   bench --copies                         with the archive whose copies are counted: the copies of each row
//!   bench --take N                         N samples of each row as numbers, for the process that started it
//!   bench --spin ROW SECONDS               the port's call of one row again and again, for a profile

mod callgrind;
mod copies;
mod counts;
mod docs;
mod least;
mod other_rows;
mod port;
mod port_arm;
mod probe;
mod rows;
mod session_calls;
mod session_rows;
mod sides;
mod svg;
mod table;

use docs::Measured;
use probe::Probe;
use rows::{Figures, Row};
use session_rows::Curve;
use std::path::Path;
use std::process::Command;
use std::time::{Duration, Instant};

fn spin(rows: &mut [Row], name: &str, seconds: u64) {
    let row = rows.iter_mut().find(|row| row.name == name).expect("the name of a row");
    // outside callgrind this probe costs a few rotations
    let (start, mut probe) = (Instant::now(), Probe::counting());
    while start.elapsed() < Duration::from_secs(seconds) {
        for _ in 0..1_000 {
            (row.port)(&mut probe);
        }
    }
}

/// all the rows, those of the curves behind the others
fn all<'a>(rows: &'a mut [Row], curves: &'a mut [Curve]) -> Vec<&'a mut Row> {
    let points = curves.iter_mut().flat_map(|c| c.points.iter_mut().map(|(_, row)| row));
    rows.iter_mut().chain(points).collect()
}

/// Processes that take the samples, one after the other: where the system puts a program is chance, and moves calls of a few nanoseconds.
const PROCESSES: usize = 5;

/// the samples of all processes together, row by row
fn take_in_turn(turns: usize) -> rows::Pairs {
    let mut taken: rows::Pairs = Vec::new();
    let this = std::env::current_exe().expect("the path of this program");
    for _ in 0..PROCESSES {
        let out = Command::new(&this).args(["--take", &turns.to_string()]).output().expect("this program once more");
        assert!(out.status.success(), "a process that took samples failed");
        let more = rows::from_lines(&String::from_utf8(out.stdout).expect("lines of numbers"));
        taken.resize_with(more.len(), Vec::new);
        taken.iter_mut().zip(more).for_each(|(pairs, more)| pairs.extend(more));
    }
    taken
}

fn measure(rows: &mut [Row], curves: &mut [Curve], samples: usize) -> (Vec<Figures>, Vec<Measured>, String) {
    let turns = samples.div_ceil(PROCESSES);
    let count = rows.len();
    let taken = rows::sum_up(&all(rows, curves), &take_in_turn(turns), PROCESSES * turns);
    let quiet = format!("{} of {} pairs of samples left out, since a fixed loop around them was slow", taken.loud, taken.pairs);
    let mut figures = taken.figures;
    let mut behind = figures.split_off(count).into_iter();
    let mut measured = |c: &Curve| {
        let points = c.points.iter().map(|(x, _)| *x).zip(behind.by_ref()).collect();
        Measured { plot: c.plot, name: c.name, points }
    };
    let measured = curves.iter().map(&mut measured).collect();
    (figures, measured, quiet)
}

fn main() {
    let words: Vec<String> = std::env::args().skip(1).collect();
    let has = |name: &str| words.iter().any(|w| w == name);
    let after = |name: &str, nth: usize| words.iter().position(|w| w == name).and_then(|at| words.get(at + nth)).cloned();
    let mut rows: Vec<Row> = session_rows::rows().into_iter().chain(other_rows::rows()).collect();
    let mut curves: Vec<Curve> = session_rows::curves().into_iter().chain(least::curves()).collect();
    let every = |rows: &mut [Row], curves: &mut [Curve], act: fn(&mut Row)| {
        rows.iter_mut().for_each(act);
        curves.iter_mut().flat_map(|c| &mut c.points).for_each(|(_, row)| act(row));
    };
    every(&mut rows, &mut curves, Row::compare);
    if has("--count") {
        return every(&mut rows, &mut curves, Row::count);
    }
    if has("--copies") {
        return every(&mut rows, &mut curves, Row::print_copies);
    }
    if let (Some(name), Some(seconds)) = (after("--spin", 1), after("--spin", 2)) {
        return spin(&mut rows, &name, seconds.parse().expect("seconds"));
    }
    if let Some(turns) = after("--take", 1) {
        return print!("{}", rows::to_lines(&rows::take(&mut all(&mut rows, &mut curves), turns.parse().expect("a number of turns"))));
    }
    let samples = after("--samples", 1).map_or(45, |n| n.parse().expect("a number of samples"));
    println!("{samples} samples of each side, turn by turn in {PROCESSES} processes: median (first to third quartile)");
    let (figures, measured, quiet) = measure(&mut rows, &mut curves, samples);
    println!("{quiet}");
    print!("{}", table::text(&figures, &measured));
    if let (Some(folder), Some(counted)) = (after("--docs", 1), after("--docs", 2)) {
        docs::write(Path::new(&folder), Path::new(&counted), &figures, &measured, &quiet);
    }
}
