/*
 * The calls without a session: ring sums and planning. With DRIVER_SESSION_ONLY there are none.
 */
#include "driver.h"

#ifndef DRIVER_SESSION_ONLY
static void give_array_state(void)
{
    if (state == 1)
        give(summed(FIRST_SUM, array, sizeof array), 8);
    else if (state == 2)
        give_bytes(array, sizeof array);
}

static void give_number(dwc2_number n)
{
    give32(n.refusal);
    give32(n.value);
}

static void give_plain(uint32_t value)
{
    give32(0);
    give32(value);
}

static void sum(void)
{
    uint8_t which = take8();
    uint32_t a = take32(), b = take32(), c = take32(), d = take32();
    switch (which) {
    case 0: give_number(dwc2_iso_ring_size((uint8_t)a)); break;
    case 1: give_number(dwc2_iso_max_xfer_size((uint8_t)a)); break;
    case 2: give_plain(dwc2_gcd((uint16_t)a, (uint16_t)b)); break;
    case 3: give_number(dwc2_iso_max_packets((uint16_t)a, (uint8_t)b)); break;
    case 4: give_number(dwc2_iso_starting_frame(a, (uint8_t)b)); break;
    case 5: give_number(dwc2_frame_to_desc_idx((uint8_t)a, b)); break;
    case 6: give_plain(dwc2_advance_along_grid((uint16_t)a, (uint16_t)b, (uint16_t)c, (uint16_t)d)); break;
    case 7: give_number(dwc2_iso_schinfo((uint8_t)a, (uint16_t)b)); break;
    case 8: give_number(dwc2_iso_pid((uint8_t)a, (uint8_t)b, (uint8_t)c)); break;
    default: leave(3);
    }
}

static void frames(void)
{
    uint32_t start = take32();
    uint16_t interval = take16();
    dwc2_service_frames f = dwc2_iso_service_frames(start, interval, take8());
    give32(f.refusal);
    give32(f.count);
    give_bytes(f.frames, 64);
}

static void give_stage(const dwc2_stage *s)
{
    give32(s->role);
    give32(s->hcchar);
    give32(s->hctsiz);
    give32(s->dma_addr);
    give32(s->desc_base);
    give32(s->descs);
    give32(s->len);
}

static void data(void)
{
    size_t words = take_count(ARRAY_ROOM);
    dwc2_data_request r;
    r.base = take64();
    r.len = take64();
    r.max_packet_size = take16();
    r.kind = take8();
    r.direction = take8();
    r.port_speed = take8();
    r.device = take8();
    r.endpoint = take8();
    r.odd_frame = take8();
    r.toggle = take8();
    dwc2_data_plan p = dwc2_data_stages(r, array, words);
    give32(p.refusal);
    give32(p.toggle);
    give32(p.count);
    for (int i = 0; i < 4; i++)
        give_stage(&p.stages[i]);
    give_array_state();
}

static void control(void)
{
    size_t words = take_count(ARRAY_ROOM);
    dwc2_control_request r;
    r.len = take64();
    r.setup_dma = take64();
    r.data_dma = take64();
    r.status_dma = take64();
    r.max_packet_size = take16();
    r.direction = take8();
    r.device = take8();
    dwc2_control_plan p = dwc2_build_control_plan(r, array, words);
    give32(p.refusal);
    give32(p.has_data);
    give_stage(&p.setup);
    give_stage(&p.data);
    give_stage(&p.status);
    give_array_state();
}

static void moved(void)
{
    size_t words = take_count(ARRAY_ROOM);
    dwc2_stage s;
    s.role = take32();
    s.hcchar = take32();
    s.hctsiz = take32();
    s.dma_addr = take32();
    s.desc_base = take32();
    s.descs = take32();
    s.len = take32();
    give_number(dwc2_stage_actual_length(s, array, words));
}

static void setup(void)
{
    uint8_t request_type = take8(), recipient = take8(), direction = take8(), request = take8();
    uint16_t value = take16(), index = take16();
    dwc2_setup_packet p = dwc2_setup_packet_bytes(request_type, recipient, direction, request, value, index, take64());
    give32(p.refusal);
    give_bytes(p.bytes, 8);
}

static void split(void)
{
    uint64_t len = take64();
    uint16_t max_packet_size = take16();
    dwc2_split s = dwc2_split_dma_lengths(len, max_packet_size);
    give(s.count, 8);
    give32(s.chunk);
    give32(s.last);
    give(dwc2_packet_count(len, max_packet_size), 8);
}

void plan_request(uint8_t op)
{
    switch (op) {
    case 0x20: sum(); return;
    case 0x22: frames(); return;
    case 0x23: give(dwc2_next_request_id(take64()), 8); return;
    case 0x30: data(); return;
    case 0x31: control(); return;
    case 0x32: moved(); return;
    case 0x33: setup(); return;
    case 0x34: split(); return;
    default: leave(4);
    }
}
#else
void plan_request(uint8_t op)
{
    (void)op;
    leave(4);
}
#endif
