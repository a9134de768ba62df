//! docs/SPEED.md and its plots. A table stands in SPEED.md between two comments that name it; the words around it stay.

use crate::counts::{Counts, Parts};
use crate::least::{LEAST, PLOT};
use crate::rows::{Figures, Spread};
use crate::svg;
use std::fs;
use std::path::Path;

/// A measured curve: the plot that it stands in, its name, and its points.
pub struct Measured {
    pub plot: &'static str,
    pub name: &'static str,
    pub points: Vec<(usize, Figures)>,
}

/// a whole number with commas
fn whole(value: f64) -> String {
    let digits = format!("{value:.0}");
    let parts: Vec<&str> = digits.as_bytes().rchunks(3).rev().map(|c| std::str::from_utf8(c).expect("digits")).collect();
    parts.join(",")
}

fn time(value: f64) -> String {
    if value < 99.95 { format!("{value:.1}") } else { whole(value) }
}

fn spread(s: &Spread) -> String {
    format!("{} | {} to {}", time(s.0[1]), time(s.0[0]), time(s.0[2]))
}

fn ratio(r: &Spread) -> String {
    format!("{:.2} | {:.2} to {:.2}", r.0[1], r.0[0], r.0[2])
}

fn table(figures: &[Figures]) -> String {
    let mut out =
        String::from("| Call | Rust ns | quartiles | port ns | quartiles | port / Rust | quartiles |\n|---|--:|--:|--:|--:|--:|--:|\n");
    for f in figures {
        let rust = f.rust.as_ref().map_or("– | –".into(), spread);
        let over = f.ratio.as_ref().map_or("– | –".into(), ratio);
        out.push_str(&format!("| {} | {rust} | {} | {over} |\n", f.name, spread(&f.port)));
    }
    out
}

/// instructions a call, and where the port's lie
fn instructions(figures: &[Figures], counts: &Counts) -> String {
    let mut out = String::from("| Call | Rust | port | port / Rust | both checks | copies | the call itself |\n");
    out.push_str("|---|--:|--:|--:|--:|--:|--:|\n");
    for f in figures {
        let Some(port) = counts.of("port", &f.name) else { continue };
        let rust = counts.of("rust", &f.name);
        let over = rust.map_or("–".into(), |r| format!("{:.2}", port.total / r.total));
        let parts: Vec<String> = [port.checks, port.copies, port.call()].iter().map(|v| whole(*v)).collect();
        let rust = rust.map_or("–".into(), |r| whole(r.total));
        out.push_str(&format!("| {} | {rust} | {} | {over} | {} |\n", f.name, whole(port.total), parts.join(" | ")));
    }
    out
}

/// what each session call copies
fn copies(figures: &[Figures], counts: &Counts) -> String {
    let mut out = String::from("| Call | memcpy and memset | bytes | times 9,784 |\n|---|--:|--:|--:|\n");
    for f in figures {
        let (calls, bytes) = counts.copies(&f.name);
        if bytes > 0 {
            out.push_str(&format!("| {} | {calls} | {} | {:.1} |\n", f.name, whole(bytes as f64), bytes as f64 / 9_784.0));
        }
    }
    out
}

/// least squares: what one more costs, and the time at none
fn slope(points: &[(f64, f64)]) -> (f64, f64) {
    let n = points.len() as f64;
    let (x, y) = (points.iter().map(|p| p.0).sum::<f64>() / n, points.iter().map(|p| p.1).sum::<f64>() / n);
    let across: f64 = points.iter().map(|p| (p.0 - x) * (p.1 - y)).sum();
    let along: f64 = points.iter().map(|p| (p.0 - x) * (p.0 - x)).sum();
    (across / along, y - across / along * x)
}

fn times(curve: &Measured, side: impl Fn(&Figures) -> f64) -> Vec<(f64, f64)> {
    curve.points.iter().map(|(x, f)| (*x as f64, side(f))).collect()
}

fn port_ns(f: &Figures) -> f64 {
    f.port.median()
}

fn rust_ns(f: &Figures) -> f64 {
    f.rust.as_ref().map_or(0.0, Spread::median)
}

fn growth(curves: &[Measured], counts: &Counts) -> String {
    let mut out = String::from(
        "| Against | Call | Rust: at none, ns | one more, ns | instr. | port: at none, ns | one more, ns | instr. at none | instr. |\n",
    );
    out.push_str("|---|---|--:|--:|--:|--:|--:|--:|--:|\n");
    for c in curves.iter().filter(|c| c.plot != PLOT) {
        let told = |side: &'static str| move |f: &Figures| counts.of(side, &f.name).map_or(0.0, |p: &Parts| p.total);
        let (rust, port) = (slope(&times(c, rust_ns)), slope(&times(c, port_ns)));
        let (rust_told, port_told) = (slope(&times(c, told("rust"))), slope(&times(c, told("port"))));
        out.push_str(&format!(
            "| {} | {} | {:.1} | {:.2} | {:.1} | {} | {:.2} | {} | {:.1} |\n",
            c.plot,
            c.name,
            rust.1,
            rust.0,
            rust_told.0,
            time(port.1),
            port.0,
            whole(port_told.1),
            port_told.0
        ));
    }
    out
}

/// what a call costs at the least, beside the port's and the Rust's; of a call that does nothing there is no other
fn least(figures: &[Figures], curves: &[Measured]) -> String {
    let rust = |name: &str| figures.iter().find(|f| f.name == name).map(rust_ns);
    let mut out = String::from("| Call | least | least / Rust | port | port / Rust | Rust |\n|---|--:|--:|--:|--:|--:|\n");
    for (_, f) in curves.iter().filter(|c| c.plot == PLOT).flat_map(|c| &c.points) {
        let name = f.name.trim_start_matches(LEAST);
        let cells = match rust(name) {
            Some(rust) => {
                let of = |ns: f64| format!("{} | {:.2}", time(ns), ns / rust);
                format!("{} | {} | {}", of(rust_ns(f)), of(port_ns(f)), time(rust))
            }
            None => format!("{} | – | – | – | –", time(rust_ns(f))),
        };
        out.push_str(&format!("| {name} | {cells} |\n"));
    }
    out
}

fn plots(folder: &Path, figures: &[Figures], curves: &[Measured]) {
    let write = |name: &str, text: String| fs::write(folder.join(format!("speed-{name}.svg")), text).expect("a plot is written");
    let told = |f: &Figures| Some((f.name.clone(), f.ratio.as_ref()?.median()));
    write(
        "ratios",
        svg::bars(
            "Time of the port over time of the Rust, each call (1 is the Rust; powers of ten)",
            &figures.iter().filter_map(told).collect::<Vec<_>>(),
        ),
    );
    let axes = [("packets", "packets in the request"), ("pending", "requests pending"), ("completed", "completed requests waiting")];
    for (plot, along) in axes {
        let own: Vec<&Measured> = curves.iter().filter(|c| c.plot == plot).collect();
        let lines = |side: fn(&Figures) -> f64| -> Vec<svg::Line> {
            own.iter().map(|c| svg::Line { name: c.name.into(), points: times(c, side) }).collect()
        };
        write(plot, svg::curves(&format!("Time of a call against {along}"), along, &lines(port_ns), &lines(rust_ns)));
    }
}

/// puts `text` between the comments of the part `name`
fn replace(page: &str, name: &str, text: &str) -> String {
    let (open, close) = (format!("<!-- {name} -->\n"), format!("<!-- end of {name} -->"));
    let from = page.find(&open).unwrap_or_else(|| panic!("no part {name} in the page")) + open.len();
    let to = page[from..].find(&close).expect("the end of the part") + from;
    format!("{}{text}{}", &page[..from], &page[to..])
}

/// `counts` also holds the files `machine`, `stack` and `size`, which the script makes
pub fn write(folder: &Path, counted: &Path, figures: &[Figures], curves: &[Measured], quiet: &str) {
    let counts = Counts::read(counted);
    let file = |name: &str| fs::read_to_string(counted.join(name)).unwrap_or_else(|_| panic!("no file {name} of the script"));
    let path = folder.join("SPEED.md");
    let mut page = fs::read_to_string(&path).expect("the page with its parts");
    let parts = [
        ("machine", format!("{}{quiet}.\n", file("machine"))),
        ("table", table(figures)),
        ("instructions", instructions(figures, &counts)),
        ("copies", copies(figures, &counts)),
        ("growth", growth(curves, &counts)),
        ("least", least(figures, curves)),
        ("stack", file("stack")),
        ("size", file("size")),
    ];
    for (name, text) in parts {
        page = replace(&page, name, &text);
    }
    fs::write(&path, page).expect("the page is written");
    plots(folder, figures, curves);
}
