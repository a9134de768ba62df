//! 01's worked numbers P1 to P8, on the model and on the lifted Rust.

use crate::model::{self, Endpoint, Session};
use crate::model_plan;
use lifted::calls::*;

/// name, 01's numbers, the model's, and the Rust's where it is at hand
type Row = (&'static str, Vec<u64>, Vec<u64>, Option<Vec<u64>>);

fn numbers<T: Copy, N: Into<u64>>(of: &[T], f: impl Fn(T) -> N) -> Vec<u64> {
    of.iter().map(|x| f(*x).into()).collect()
}

#[cfg(lifted)]
macro_rules! rust {
    ($e:expr) => {
        Some($e)
    };
}
#[cfg(not(lifted))]
macro_rules! rust {
    ($e:expr) => {
        None
    };
}

fn flat((count, chunk, last): (u64, u64, u64)) -> Vec<u64> {
    (1..count).map(|_| chunk).chain([last]).collect()
}

fn stages(len: u64) -> u64 {
    let request = DataRequest {
        kind: DataKind::Bulk,
        direction: Direction::Out,
        speed: Speed::High,
        device: 1,
        endpoint: 1,
        max_packet_size: 512,
        odd_frame: false,
        toggle: false,
        base: 0,
        len,
    };
    model_plan::data_plan(&request, &mut [0; 2_048]).stages.len() as u64
}

fn camera(speed: Speed, interval: u16, mode: Mode) -> Config {
    Config { speed, direction: Direction::In, interval, endpoint: 1, device: 1, max_packet_size: 64, mult: 1, mode, tiny: 0 }
}

fn submission(start_reading: u32, frame_reading: u32, lengths: &[u32]) -> Call {
    let transfer = Transfer { base: 4_096, start_reading, frame_reading, ..Transfer::plain(lengths) };
    Call::Submit { transfer, lengths: lengths.to_vec(), ring_len: u32::MAX }
}

/// the slots of all pending packets, the cursor, and the status words of these slots, after some calls
fn left(view: &View, ring: &[u32]) -> Vec<u64> {
    let slots: Vec<u32> = view.pending.iter().flat_map(|(_, packets)| packets.iter().map(|p| p.slot)).collect();
    let words = slots.iter().map(|s| u64::from(ring[2 * *s as usize]));
    numbers(&slots, |s| s).into_iter().chain([view.cursor.into()]).chain(words).collect()
}

fn on_model(cfg: &Config, calls: &[Call]) -> (Vec<u64>, Answer) {
    let mut ring = vec![0; cfg.words()];
    let (_, mut s) = Session::open(cfg, &mut ring);
    let mut answer = Answer::Done;
    for call in calls {
        answer = s.call(call, &mut ring, &mut [0; 255]).answer;
    }
    (left(&s.view(), &ring), answer)
}

#[cfg(lifted)]
fn on_rust(cfg: &Config, calls: &[Call]) -> Vec<u64> {
    let mut s = lifted::Camera::open(cfg);
    for call in calls {
        s.call(call, &mut [0; 255], true);
    }
    let mut ring = vec![0; cfg.words()];
    s.ring(&mut ring);
    left(&s.view(), &ring)
}

fn sums() -> Vec<Row> {
    let (high, full) = (Speed::High, Speed::Full);
    let p3 = [(4, high), (5, high), (4_294_967_295, high), (65_534, full)];
    let p4 = [(31, high), (32, high), (64, full)];
    let p5 = [(5, 16), (2, 63), (3, 63)];
    vec![
        (
            "P1",
            vec![255, 255, 85, 73, 17, 1],
            numbers(&[0, 1, 2, 3, 4, 8], |i| model::schinfo(high, i)),
            rust!(numbers(&[0, 1, 2, 3, 4, 8], |i| lifted::sums::schinfo(high, i))),
        ),
        (
            "P2",
            vec![255, 127, 1, 0],
            numbers(&[1, 6, 128, 256], |i| model::capacity_of(i, 256)),
            rust!(numbers(&[1, 6, 128, 256], |i| lifted::sums::capacity(i, high))),
        ),
        (
            "P3",
            vec![1, 2, 1, 0],
            numbers(&p3, |(raw, s)| model::starting_frame(raw, s)),
            rust!(numbers(&p3, |(raw, s)| lifted::sums::starting_frame(raw, s))),
        ),
        (
            "P4",
            vec![248, 0, 0],
            numbers(&p4, |(f, s)| model::slot_of_frame(s, f, model::ring_size(s))),
            rust!(numbers(&p4, |(f, s)| lifted::sums::slot_of_frame(s, f))),
        ),
        (
            "P5",
            vec![17, 2, 63],
            numbers(&p5, |(c, t)| model::grid(c, t, 4, 64)),
            rust!(numbers(&p5, |(c, t)| lifted::sums::grid(c as u16, t as u16, 4, 64))),
        ),
    ]
}

fn overrun() -> Vec<Row> {
    let calls = [
        submission(8, 8, &[1, 1]),
        Call::Controller { slot: 10, word: 0 },
        Call::Controller { slot: 11, word: 0 },
        submission(0, 71, &[1, 1]),
    ];
    let cfg = camera(Speed::Full, 1, Mode::Compatible);
    let guarded = on_model(&camera(Speed::Full, 1, Mode::Guarded), &calls).1;
    let left = vec![10, 11, 9, 10, 11, 0x8200_0001, 0, 0x8000_0001, 0x8200_0001];
    vec![
        ("P6, compatible: slots, cursor, words", left, on_model(&cfg, &calls).0, rust!(on_rust(&cfg, &calls))),
        ("P6, guarded", vec![13], vec![if let Answer::Refused(n) = guarded { n.into() } else { 0 }], None),
    ]
}

fn plans() -> Vec<Row> {
    let p7 = [0, 130_560, 130_561];
    vec![
        (
            "P7",
            vec![0, 130_560, 130_560, 1],
            p7.iter().flat_map(|l| flat(model_plan::split(*l, 512))).collect(),
            rust!(p7.iter().flat_map(|l| lifted::transfers::split(*l, 512)).collect()),
        ),
        ("P7, stages", vec![1, 2], vec![stages(33_423_360), stages(33_423_361)], None),
    ]
}

fn camera_at_high_speed() -> Row {
    let cfg = camera(Speed::High, 8, Mode::Compatible);
    let calls = [submission(16, 16, &[192, 192, 192])];
    let left = vec![24, 32, 40, 48, 0x8000_00c0, 0x8000_00c0, 0x8200_00c0];
    ("P8: slots, cursor, words", left, on_model(&cfg, &calls).0, rust!(on_rust(&cfg, &calls)))
}

fn rows() -> Vec<Row> {
    [sums(), overrun(), plans(), vec![camera_at_high_speed()]].concat()
}

pub fn run() -> Result<(), String> {
    let mut wrong = 0;
    for (name, law, ours, rust) in rows() {
        let right = ours == law && rust.as_ref().is_none_or(|r| *r == law);
        wrong += u32::from(!right);
        println!("{} {name}: {law:?}{}", if right { "  " } else { "NO" }, if rust.is_some() { "" } else { " (model only)" });
        if !right {
            println!("   model {ours:?}, Rust {rust:?}");
        }
    }
    println!("01's worked numbers P1 to P8, {wrong} not as 01 has them");
    if wrong > 0 { Err(format!("{wrong} of 01's worked numbers differ")) } else { Ok(()) }
}
