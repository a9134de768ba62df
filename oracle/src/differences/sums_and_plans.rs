//! The differences of the sums and of planning.

use super::List;
use crate::layout::direction_number;
use crate::model;
use crate::model_plan;
use crate::wire;
use lifted::calls::*;
use lifted::{sums, transfers};

/// the words of a planning array
const ARRAY: u32 = 2_048;

fn bulk(packet: u16, base: u64, len: u64) -> DataRequest {
    DataRequest {
        kind: DataKind::Bulk,
        direction: Direction::Out,
        speed: Speed::High,
        device: 1,
        endpoint: 1,
        max_packet_size: packet,
        odd_frame: false,
        toggle: false,
        base,
        len,
    }
}

fn data(list: &mut List, r: &DataRequest) -> (String, String) {
    list.ask(wire::data(r, ARRAY, None));
    let ours = model_plan::data_plan(r, &mut [0; 2_048]);
    let ours = if ours.number > 0 { format!("refused {}", ours.number) } else { format!("{} stages", ours.stages.len()) };
    let rust = match transfers::data(r) {
        Ok(t) => format!("{} stages, {} descriptors", t.stages.len(), t.words.len() / 2),
        Err(n) => format!("refused as {n}"),
    };
    (ours, rust)
}

const SETUP: SetupFields = SetupFields { kind: 0, recipient: 0, request: 6, value: 0, index: 0 };

fn control_request(direction: Direction, len: u64) -> ControlRequest {
    ControlRequest { direction, device: 1, max_packet_size: 64, len, setup_dma: 0, data_dma: 64, status_dma: 128 }
}

fn control(list: &mut List, r: &ControlRequest) -> (String, String) {
    list.ask(wire::control(r, ARRAY, None));
    let ours = model_plan::control_plan(r, &mut [0; 2_048]);
    let ours = if ours.number > 0 { format!("refused {}", ours.number) } else { format!("{} stages", ours.stages.len()) };
    let rust = match transfers::control(r, Speed::High, &SETUP) {
        Ok(t) => format!("{} stages", t.stages.len()),
        Err(n) => format!("refused as {n}"),
    };
    (ours, rust)
}

fn quietly<T>(act: impl FnOnce() -> T + std::panic::UnwindSafe) -> Result<T, ()> {
    let hook = std::panic::take_hook();
    std::panic::set_hook(Box::new(|_| {}));
    let done = std::panic::catch_unwind(act);
    std::panic::set_hook(hook);
    done.map_err(|_| ())
}

pub(super) fn sums_and_plans(list: &mut List) {
    let rust = quietly(|| sums::grid(0, 0, 0, 0)).map_or("panics".into(), |n| n.to_string());
    list.entry("R1", "advance_along_grid on a ring of 0", (model::grid(0, 0, 0, 0).to_string(), "0"), (rust, "panics"));
    list.ask(wire::sum(6, 0, 0, 0, 0));
    let many = 4_294_967_296;
    list.ask(wire::split(many, 1));
    list.entry(
        "P9",
        "packet_count of 4,294,967,296 bytes at m 1",
        (model_plan::packets(many, 1).to_string(), "4294967296"),
        (transfers::packets(many, 1).to_string(), "0"),
    );
    let (ours, rust) = (model_plan::setup_packet(&SETUP, Direction::In, 65_536), transfers::setup_bytes(&SETUP, Direction::In, 65_536));
    list.entry(
        "P1",
        "setup bytes of a control length of 65,536",
        (format!("{ours:?}"), "Err(19)"),
        (format!("{rust:?}"), "[128, 6, 0, 0, 0, 0, 0, 0]"),
    );
    list.ask(wire::setup(&SETUP, direction_number(Direction::In), 65_536));
    let (ours, rust) = control(list, &control_request(Direction::In, 65_536));
    list.entry("P1", "a control plan of 65,536 bytes", (ours, "refused 19"), (rust, "3 stages"));
    let (ours, rust) = data(list, &bulk(512, 4_294_967_295, 1));
    list.entry("P2", "bulk OUT of 1 byte at 4,294,967,295", (ours, "refused 11"), (rust, "1 stages, 1 descriptors"));
    let (ours, rust) = data(list, &bulk(1, 0, 134_216_705));
    list.entry("P5", "bulk OUT of 134,216,705 bytes at m 1", (ours, "refused 20"), (rust, "5 stages, 1025 descriptors"));
    let (ours, rust) = data(list, &DataRequest { device: 128, ..bulk(512, 0, 1) });
    list.entry("P6", "bulk to device 128", (ours, "refused 18"), (rust, "1 stages, 1 descriptors"));
    let (ours, rust) = control(list, &ControlRequest { setup_dma: 4_294_967_288, ..control_request(Direction::Out, 0) });
    list.entry("P3", "control without data, setup at 4,294,967,288", (ours, "refused 11"), (rust, "2 stages"));
    let (ours, rust) = control(list, &ControlRequest { status_dma: 4_294_967_232, ..control_request(Direction::Out, 0) });
    list.entry("P3", "control without data, status at 4,294,967,232, m 64", (ours, "refused 11"), (rust, "2 stages"));
    let (ours, rust) = control(list, &ControlRequest { data_dma: 4_294_967_296, ..control_request(Direction::Out, 0) });
    list.entry("P4", "control without data, base 4,294,967,296 (not used)", (ours, "2 stages"), (rust, "refused as 11"));
    let (ours, rust) = control(list, &ControlRequest { status_dma: 4_294_967_296, ..control_request(Direction::In, 1) });
    list.entry("P4", "control IN of 1 byte, status at 4,294,967,296 (not used)", (ours, "3 stages"), (rust, "refused as 11"));
}
