//! Random transfers to plan: all borders of 01, and any.

use crate::model_plan as model;
use crate::rng::Rng;
use lifted::calls::*;

pub const LIMIT: u64 = 4_294_967_295;

pub fn speed(rng: &mut Rng) -> Speed {
    rng.pick(&[Speed::High, Speed::Full, Speed::Low])
}

pub fn direction(rng: &mut Rng) -> Direction {
    rng.pick(&[Direction::Out, Direction::In])
}

pub fn packet(rng: &mut Rng) -> u16 {
    match rng.below(4) {
        0 => rng.pick(&[0, 1, 2, 3, 7, 8, 9, 63, 64, 65, 511, 512, 513, 1_023, 1_024, 2_046, 2_047]),
        1 => rng.pick(&[8, 16, 32, 64, 512, 1_024]),
        _ => rng.below(2_048) as u16,
    }
}

/// a length near a border of 01, or any
pub fn length(rng: &mut Rng, packet: u16) -> u64 {
    let m = u64::from(packet).max(1);
    let chunk = model::chunk(m);
    let near = |at: u64, rng: &mut Rng| (at + rng.below(5)).saturating_sub(2);
    match rng.below(12) {
        0 => near(0, rng),
        1 => near(m * rng.below(5), rng),
        2 => near(chunk * rng.below(6), rng),
        3 => near(chunk * 256, rng),
        4 => near(chunk * rng.pick(&[255, 256, 257, 511, 512, 513, 768, 769, 1_023, 1_024]), rng),
        5 => near(131_071, rng),
        6 => near(65_536, rng),
        7 => rng.below(chunk * 1_024),
        8 => rng.below(chunk * 20),
        _ => rng.below(70_000),
    }
}

pub fn base(rng: &mut Rng, bytes: u64) -> u64 {
    let top = LIMIT.saturating_sub(bytes);
    match rng.below(5) {
        0 => top,
        1 => 0,
        _ => u64::from(rng.word()).min(top),
    }
}

pub fn data_request(rng: &mut Rng) -> DataRequest {
    let max_packet_size = packet(rng);
    let len = length(rng, max_packet_size);
    let direction = direction(rng);
    DataRequest {
        kind: rng.pick(&[DataKind::Bulk, DataKind::Interrupt]),
        direction,
        speed: speed(rng),
        device: rng.below(128) as u8,
        endpoint: rng.below(16) as u8,
        max_packet_size,
        odd_frame: rng.one_in(2),
        toggle: rng.one_in(2),
        base: base(rng, model::rounded(len, u64::from(max_packet_size).max(1), direction)),
        len,
    }
}

pub fn control_request(rng: &mut Rng) -> ControlRequest {
    let max_packet_size = packet(rng);
    let m = u64::from(max_packet_size).max(8);
    let len = if rng.one_in(4) { 0 } else { length(rng, max_packet_size).min(65_535) };
    let direction = direction(rng);
    ControlRequest {
        direction,
        device: rng.below(128) as u8,
        max_packet_size,
        len,
        setup_dma: base(rng, 8),
        data_dma: base(rng, model::rounded(len, m, direction)),
        status_dma: base(rng, m),
    }
}

pub fn fields(rng: &mut Rng) -> SetupFields {
    SetupFields {
        kind: rng.below(4) as u8,
        recipient: rng.below(4) as u8,
        request: rng.word() as u8,
        value: rng.word() as u16,
        index: rng.word() as u16,
    }
}

/// every border of 01 for one packet size: whole packets, whole chunks, 256 descriptors a stage, 1,024 in all, both ends of the addresses
pub fn data_borders(packet: u16) -> Vec<DataRequest> {
    let m = u64::from(packet).max(1);
    let chunk = model::chunk(m);
    let mut all = Vec::new();
    for at in [0, m, 2 * m, 65_536, chunk, 2 * chunk, 255 * chunk, 256 * chunk, 257 * chunk, 512 * chunk, 768 * chunk, 1_024 * chunk] {
        for len in at.saturating_sub(1)..=at + 1 {
            for direction in [Direction::Out, Direction::In] {
                let top = LIMIT - model::rounded(len, m, direction);
                for (toggle, base) in [(false, 0), (true, top), (true, top + 1)] {
                    let kind = if toggle { DataKind::Interrupt } else { DataKind::Bulk };
                    let speed = if m > 64 { Speed::High } else { Speed::Low };
                    let max_packet_size = packet;
                    all.push(DataRequest {
                        kind,
                        direction,
                        speed,
                        device: 127,
                        endpoint: 15,
                        max_packet_size,
                        odd_frame: toggle,
                        toggle,
                        base,
                        len,
                    });
                }
            }
        }
    }
    all
}

pub fn control_borders(packet: u16) -> Vec<ControlRequest> {
    let m = u64::from(packet).max(8);
    let mut all = Vec::new();
    for len in [0, 1, 7, 8, 9, m - 1, m, m + 1, 2 * m, 65_534, 65_535, 65_536] {
        for direction in [Direction::Out, Direction::In] {
            let top = LIMIT - model::rounded(len, m, direction);
            for (setup_dma, data_dma, status_dma) in
                [(0, 0, 0), (LIMIT - 8, top, LIMIT - m), (LIMIT - 7, 0, 0), (0, top + 1, 0), (0, 0, LIMIT - m + 1)]
            {
                all.push(ControlRequest { direction, device: 127, max_packet_size: packet, len, setup_dma, data_dma, status_dma });
            }
        }
    }
    all
}
