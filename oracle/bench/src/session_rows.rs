//! The rows of the session, and the points of its growth.

use crate::rows::Row;
use crate::session_calls::{Timed, row};
use crate::sides::{COMPLETE, Step};

/// the packets that a ring of 256 slots takes at interval 1
const CAPACITY: usize = 255;

/// `count` requests of one packet each, not served
pub fn pending(count: usize) -> Vec<Step> {
    if count > 0 {
        return vec![Step::Submit(1); count];
    }
    // the channel runs, with nothing in it
    vec![Step::Submit(1), Step::Serve(0, 1), Step::Reclaim(1, COMPLETE)]
}

/// `count` requests that are not alike, of one and two packets in turn, not served
fn unlike(count: usize) -> Vec<Step> {
    if count > 0 {
        return (0..count).map(|i| Step::Submit(1 + i % 2)).collect();
    }
    pending(0)
}

/// `count` requests of one packet each, completed and waiting
fn completed(count: usize) -> Vec<Step> {
    if count == 0 {
        return pending(0);
    }
    let mut steps = vec![Step::Submit(1); count];
    steps.extend([Step::Serve(0, count), Step::Poll(COMPLETE)]);
    steps
}

/// one request of `packets`, served, and `others` of one packet behind it
fn served(packets: usize, others: usize) -> Vec<Step> {
    let mut steps = vec![Step::Submit(packets)];
    steps.extend(vec![Step::Submit(1); others]);
    steps.push(Step::Serve(0, packets));
    steps
}

fn settles(requests: usize, packets: usize) -> Row {
    let mut steps = vec![Step::Submit(packets); requests];
    steps.push(Step::Serve(0, requests * packets));
    row(format!("poll, settles {requests} of {packets} packets"), steps, Timed::Poll(COMPLETE))
}

fn submissions(rows: &mut Vec<Row>) {
    rows.push(row("submit 8, starts the channel".into(), vec![], Timed::Submit(8)));
    for others in [0, 3, 31] {
        for packets in [1, 8, 64, CAPACITY] {
            let packets = packets.min(CAPACITY - others);
            rows.push(row(format!("submit {packets}, {others} pending"), pending(others), Timed::Submit(packets)));
        }
    }
}

fn reclaims(rows: &mut Vec<Row>) {
    for others in [0, 3, 31] {
        for packets in [1, 8, 64, CAPACITY] {
            let packets = packets.min(CAPACITY - others);
            let name = format!("reclaim {packets}, {others} pending");
            rows.push(row(name, served(packets, others), Timed::Reclaim(1, COMPLETE)));
        }
    }
}

pub fn rows() -> Vec<Row> {
    let mut rows = Vec::new();
    submissions(&mut rows);
    reclaims(&mut rows);
    for others in [0, 3, 31] {
        rows.push(row(format!("poll, no event, {others} pending"), pending(others), Timed::Poll(None)));
        rows.push(row(format!("poll, none served, {others} pending"), pending(others), Timed::Poll(Some(0))));
    }
    rows.extend([settles(1, 1), settles(1, 8), settles(8, 1), settles(8, 8)]);
    for others in [0usize, 3, 31] {
        rows.push(row(format!("cancel, {others} others pending"), pending(others + 1), Timed::Cancel(others as u64 + 1)));
    }
    rows.push(row("cancel, completed".into(), completed(1), Timed::Cancel(1)));
    rows.push(row("reset, idle".into(), vec![], Timed::Reset));
    rows.push(row("check, idle".into(), vec![], Timed::Check));
    rows.push(row("check, 31 pending".into(), pending(31), Timed::Check));
    rows.push(row("open".into(), vec![], Timed::Open));
    rows.push(row("recover, 31 pending".into(), pending(31), Timed::Recover));
    rows
}

/// A curve of time against one number.
pub struct Curve {
    /// the plot that it stands in
    pub plot: &'static str,
    pub name: &'static str,
    pub points: Vec<(usize, Row)>,
}

fn curve(plot: &'static str, name: &'static str, along: &[usize], point: impl Fn(usize) -> (Vec<Step>, Timed)) -> Curve {
    let at = |x: usize| {
        let (steps, timed) = point(x);
        (x, row(format!("{name}, {x} {plot}"), steps, timed))
    };
    Curve { plot, name, points: along.iter().map(|x| at(*x)).collect() }
}

pub fn curves() -> Vec<Curve> {
    let packets = [1, 16, 32, 64, 96, 128, 160, 192, 224, 255];
    let waiting = [0, 1, 4, 8, 16, 24, 32, 40, 48, 56, 62];
    let some = &waiting[1..];
    vec![
        curve("packets", "submit", &packets, |n| (pending(0), Timed::Submit(n))),
        curve("packets", "reclaim", &packets, |n| (served(n, 0), Timed::Reclaim(1, COMPLETE))),
        curve("pending", "submit 1", &waiting, |k| (pending(k), Timed::Submit(1))),
        curve("pending", "reclaim 1", &waiting, |k| (served(1, k), Timed::Reclaim(1, COMPLETE))),
        curve("pending", "poll, none served", &waiting, |k| (pending(k), Timed::Poll(Some(0)))),
        curve("pending", "cancel the last", some, |k| (pending(k), Timed::Cancel(k as u64))),
        curve("pending", "poll, none served, several sizes", &waiting, |k| (unlike(k), Timed::Poll(Some(0)))),
        curve("pending", "cancel the last, several sizes", some, |k| (unlike(k), Timed::Cancel(k as u64))),
        curve("completed", "submit 1", &waiting, |c| (completed(c), Timed::Submit(1))),
        curve("completed", "reclaim the first", some, |c| (completed(c), Timed::Reclaim(1, None))),
        curve("completed", "reclaim the last", some, |c| (completed(c), Timed::Reclaim(c as u64, None))),
        curve("completed", "poll, no event", &waiting, |c| (completed(c), Timed::Poll(None))),
    ]
}
