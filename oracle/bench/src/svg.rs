//! Plots: bars of ratios, and curves in two panels, the port's and the Rust's, each with its own scale.

use std::fmt::Write;

const INK: &str = "#222";
const COLOURS: [&str; 6] = ["#0b5fa5", "#c1440e", "#2e7d32", "#6a1b9a", "#8bc34a", "#ba68c8"];

fn text(out: &mut String, x: f64, y: f64, anchor: &str, words: &str) {
    let _ = writeln!(out, "<text x=\"{x:.1}\" y=\"{y:.1}\" text-anchor=\"{anchor}\">{words}</text>");
}

fn line(out: &mut String, from: (f64, f64), to: (f64, f64), colour: &str) {
    let (a, b) = (from, to);
    let _ = writeln!(out, "<line x1=\"{:.1}\" y1=\"{:.1}\" x2=\"{:.1}\" y2=\"{:.1}\" stroke=\"{colour}\"/>", a.0, a.1, b.0, b.1);
}

fn sheet(width: f64, height: f64, body: &str) -> String {
    format!(
        "<svg xmlns=\"http://www.w3.org/2000/svg\" viewBox=\"0 0 {width} {height}\" width=\"{width}\" height=\"{height}\" \
         font-family=\"sans-serif\" font-size=\"12\" fill=\"{INK}\">\n<rect width=\"{width}\" height=\"{height}\" fill=\"white\"/>\n\
         {body}</svg>\n"
    )
}

/// a bar for each ratio, on a scale of powers of ten; 1 is the Rust's own time
pub fn bars(title: &str, ratios: &[(String, f64)]) -> String {
    let (left, right, top, step) = (230.0, 700.0, 60.0, 17.0);
    let logs: Vec<f64> = ratios.iter().map(|r| r.1.log10()).collect();
    let low = logs.iter().copied().fold(0.0, f64::min).floor();
    let high = logs.iter().copied().fold(0.0, f64::max).ceil();
    let at = |log: f64| left + (right - left) * (log - low) / (high - low);
    let bottom = top + step * ratios.len() as f64;
    let mut body = String::new();
    text(&mut body, 10.0, 20.0, "start", title);
    for power in low as i32..=high as i32 {
        let x = at(power.into());
        line(&mut body, (x, top - 6.0), (x, bottom), if power == 0 { INK } else { "#ccc" });
        text(&mut body, x, top - 12.0, "middle", &format!("{}", 10f64.powi(power)));
    }
    for (i, ((name, ratio), log)) in ratios.iter().zip(&logs).enumerate() {
        let y = top + step * i as f64;
        let (from, to) = (at(log.min(0.0)), at(log.max(0.0)));
        let colour = if *log > 0.0 { COLOURS[1] } else { COLOURS[2] };
        let width = to - from;
        let _ = writeln!(body, "<rect x=\"{from:.1}\" y=\"{:.1}\" width=\"{width:.1}\" height=\"11\" fill=\"{colour}\"/>", y + 3.0);
        text(&mut body, left - 8.0, y + 13.0, "end", name);
        text(&mut body, right + 50.0, y + 13.0, "end", &format!("{ratio:.2}"));
    }
    sheet(right + 70.0, bottom + 15.0, &body)
}

/// A line of a plot: its name, and its points.
pub struct Line {
    pub name: String,
    pub points: Vec<(f64, f64)>,
}

/// the least round number above
fn ceiling(value: f64) -> f64 {
    let power = 10f64.powf(value.log10().floor());
    [1.0, 1.5, 2.0, 2.5, 3.0, 4.0, 5.0, 6.0, 8.0, 10.0].iter().map(|m| m * power).find(|c| *c >= value).unwrap_or(10.0 * power)
}

fn panel(body: &mut String, left: f64, title: &str, along: &str, lines: &[Line]) {
    let (width, top, bottom) = (320.0, 60.0, 300.0);
    let all = || lines.iter().flat_map(|l| l.points.iter());
    let most = ceiling(all().map(|p| p.1).fold(1.0, f64::max));
    // to a multiple of 64, so that the marks below are whole
    let far = (all().map(|p| p.0).fold(1.0, f64::max) / 64.0).ceil() * 64.0;
    let place = |p: &(f64, f64)| (left + width * p.0 / far, bottom - (bottom - top) * p.1 / most);
    text(body, left, top - 14.0, "start", title);
    for part in 0..=4 {
        let y = bottom - (bottom - top) * f64::from(part) / 4.0;
        line(body, (left, y), (left + width, y), if part == 0 { INK } else { "#ddd" });
        text(body, left - 6.0, y + 4.0, "end", &format!("{}", most * f64::from(part) / 4.0));
        let x = left + width * f64::from(part) / 4.0;
        text(body, x, bottom + 18.0, "middle", &format!("{:.0}", far * f64::from(part) / 4.0));
    }
    text(body, left + width / 2.0, bottom + 36.0, "middle", along);
    for (i, (l, colour)) in lines.iter().zip(COLOURS).enumerate() {
        let points: Vec<String> = l.points.iter().map(|p| format!("{:.1},{:.1}", place(p).0, place(p).1)).collect();
        let _ = writeln!(body, "<polyline points=\"{}\" fill=\"none\" stroke=\"{colour}\" stroke-width=\"2\"/>", points.join(" "));
        for p in &l.points {
            let (x, y) = place(p);
            let _ = writeln!(body, "<circle cx=\"{x:.1}\" cy=\"{y:.1}\" r=\"2.5\" fill=\"{colour}\"/>");
        }
        let y = bottom + 58.0 + 17.0 * i as f64;
        line(body, (left, y - 4.0), (left + 20.0, y - 4.0), colour);
        text(body, left + 26.0, y, "start", &l.name);
    }
}

/// two panels side by side, both from zero
pub fn curves(title: &str, along: &str, port: &[Line], rust: &[Line]) -> String {
    let mut body = String::new();
    text(&mut body, 10.0, 20.0, "start", title);
    panel(&mut body, 60.0, "port, ns a call", along, port);
    panel(&mut body, 450.0, "Rust, ns a call (its own scale)", along, rust);
    sheet(800.0, 375.0 + 17.0 * port.len() as f64 - 17.0, &body)
}
