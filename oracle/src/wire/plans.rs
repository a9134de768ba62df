//! Ring sums and planning as the model answers them.

use super::bytes::{In, Out};
use super::party::Model;
use super::requests::{stage_numbers, stage_out};
use crate::layout::{direction_named, speed_named};
use crate::{model, model_plan};
use lifted::calls::*;

impl Model {
    pub(super) fn sum(&self, r: &mut In, out: &mut Out) {
        let which = r.u8();
        let (a, b, c, d) = (r.u32(), r.u32(), r.u32(), r.u32());
        let speed = |n: u32| speed_named(n as u8);
        let value = match which {
            0 => speed(a).map(model::ring_size),
            1 => speed(a).map(model::packet_limit),
            2 => Some(model::gcd((a as u16).into(), (b as u16).into()) as u32),
            3 => speed(b).map(|s| model::capacity_of(a as u16, model::ring_size(s)) as u32),
            4 => speed(b).map(|s| model::starting_frame(a, s)),
            5 => speed(a).map(|s| model::slot_of_frame(s, b, model::ring_size(s))),
            6 => Some(model::grid((a as u16).into(), (b as u16).into(), c as u16, (d as u16).into()) as u32),
            7 => speed(a).map(|s| model::schinfo(s, b as u16)),
            8 => speed(a).zip(direction_named(b as u8)).map(|(s, d)| model::pid_number(model::pid(s, d, c as u8))),
            _ => panic!("no sum {which}"),
        };
        out.u32(if value.is_some() { 0 } else { 18 }).u32(value.unwrap_or(0));
    }

    pub(super) fn plan(&mut self, r: &mut In, out: &mut Out) {
        let words = r.size();
        let (base, len, max_packet_size) = (r.u64(), r.u64(), r.u16());
        let (kind, direction, speed) = (r.u8(), direction_named(r.u8()), speed_named(r.u8()));
        let (device, endpoint, odd_frame, toggle) = (r.u8(), r.u8(), r.u8() != 0, r.u8() != 0);
        let kind = match kind {
            2 => Some(DataKind::Bulk),
            3 => Some(DataKind::Interrupt),
            _ => None,
        };
        let plan = match (kind, direction, speed) {
            (Some(kind), Some(direction), Some(speed)) => {
                let request = DataRequest { kind, direction, speed, device, endpoint, max_packet_size, odd_frame, toggle, base, len };
                model_plan::data_plan(&request, &mut self.array[..words])
            }
            _ => Plan { number: 18, toggle: false, stages: Vec::new() },
        };
        out.u32(plan.number.into()).u32(plan.toggle.into()).u32(plan.stages.len() as u32);
        for i in 0..4 {
            stage_out(out, &plan.stages.get(i).map_or([0; 7], stage_numbers));
        }
    }

    pub(super) fn control(&mut self, r: &mut In, out: &mut Out) {
        let words = r.size();
        let (len, setup_dma, data_dma, status_dma, max_packet_size) = (r.u64(), r.u64(), r.u64(), r.u64(), r.u16());
        let (direction, device) = (direction_named(r.u8()), r.u8());
        let plan = match direction {
            Some(direction) => {
                let request = ControlRequest { direction, device, max_packet_size, len, setup_dma, data_dma, status_dma };
                model_plan::control_plan(&request, &mut self.array[..words])
            }
            None => Plan { number: 18, toggle: false, stages: Vec::new() },
        };
        out.u32(plan.number.into()).u32((plan.stages.len() == 3).into());
        for role in [Role::ControlSetup, Role::ControlData, Role::ControlStatus] {
            stage_out(out, &plan.stages.iter().find(|s| s.role == role).map_or([0; 7], stage_numbers));
        }
    }

    pub(super) fn moved(&self, r: &mut In, out: &mut Out) {
        let words = r.size();
        let n: Vec<u32> = (0..7).map(|_| r.u32()).collect();
        let role = match n[0] {
            0 => Some(Role::Data),
            1 => Some(Role::ControlSetup),
            2 => Some(Role::ControlData),
            3 => Some(Role::ControlStatus),
            _ => None,
        };
        let value = match role {
            Some(role) => {
                let stage = Stage { role, hcchar: n[1], hctsiz: n[2], dma_addr: n[3], desc_base: n[4], descs: n[5], len: n[6] };
                model_plan::moved(&stage, &self.array[..words])
            }
            None => Err(18),
        };
        out.u32(value.err().unwrap_or(0).into()).u32(value.unwrap_or(0));
    }

    pub(super) fn setup(&self, r: &mut In, out: &mut Out) {
        let (kind, recipient, direction, request) = (r.u8(), r.u8(), direction_named(r.u8()), r.u8());
        let (value, index, len) = (r.u16(), r.u16(), r.u64());
        let bytes = match direction {
            Some(direction) if kind < 4 && recipient < 4 => {
                model_plan::setup_packet(&SetupFields { kind, recipient, request, value, index }, direction, len)
            }
            _ => Err(18),
        };
        out.u32(bytes.err().unwrap_or(0).into()).all(&bytes.unwrap_or([0; 8]));
    }

    pub(super) fn frames(&self, r: &mut In, out: &mut Out) {
        let (start, interval, speed) = (r.u32(), r.u16(), speed_named(r.u8()));
        let mut list = speed.map_or(Vec::new(), |s| model::service_frames(start, interval, s));
        out.u32(if speed.is_some() { 0 } else { 18 }).u32(list.len() as u32);
        list.resize(64, 0);
        out.all(&list);
    }

    pub(super) fn next(&self, r: &mut In, out: &mut Out) {
        out.u64(model::next_number(r.u64()));
    }

    pub(super) fn split(&self, r: &mut In, out: &mut Out) {
        let (len, packet) = (r.u64(), r.u16());
        let (count, chunk, last) = model_plan::split(len, packet);
        out.u64(count).u32(chunk as u32).u32(last as u32).u64(model_plan::packets(len, packet));
    }
}
