/*
 * The memory that requests speak of, and the session's calls on it.
 */
#include "driver.h"

#define SESSION_ROOM 8512u
#define RING_ROOM 528u
#define RESULTS_ROOM 264u

/* one byte off, since the port may be lent a session at any address */
static uint8_t session_memory[SESSION_ROOM + 1];
static uint8_t *const session = session_memory + 1;
static uint32_t ring[RING_ROOM];
static uint64_t results[RESULTS_ROOM];
uint32_t array[ARRAY_ROOM];
static uint32_t lengths[65536];
unsigned state;

static void give_session_state(void)
{
    if (state == 1) {
        uint64_t sum = summed(FIRST_SUM, session, SESSION_ROOM);
        sum = summed(sum, ring, sizeof ring);
        give(summed(sum, results, sizeof results), 8);
    } else if (state == 2) {
        give_bytes(session, SESSION_ROOM);
        give_bytes(ring, sizeof ring);
        give_bytes(results, sizeof results);
    }
}

static void fill(void)
{
    uint8_t pattern = take8();
    memset(session, pattern, SESSION_ROOM);
    memset(ring, pattern, sizeof ring);
    memset(results, pattern, sizeof results);
    memset(array, pattern, sizeof array);
}

static void poke(void)
{
    uint8_t stretch = take8();
    size_t offset = take32(), count = take32(), room = 0;
    uint8_t *at = session;
    switch (stretch) {
    case 0: at = session, room = SESSION_ROOM; break;
    case 1: at = (uint8_t *)ring, room = sizeof ring; break;
    case 2: at = (uint8_t *)results, room = sizeof results; break;
    case 3: at = (uint8_t *)array, room = sizeof array; break;
    default: leave(3);
    }
    if (offset > room || count > room - offset)
        leave(3);
    take_bytes(at + offset, count);
}

static void open_session(void)
{
    size_t session_len = take_count(SESSION_ROOM), ring_words = take_count(RING_ROOM);
    uint8_t speed = take8(), direction = take8(), mode = take8();
    uint16_t interval = take16(), max_packet_size = take16();
    uint8_t endpoint = take8(), device = take8(), mult = take8();
    give32(dwc2_iso_open(session, session_len, ring, ring_words, speed, direction, mode, interval, max_packet_size, endpoint, device, mult));
    give_session_state();
}

static void submit(void)
{
    size_t session_len = take_count(SESSION_ROOM), ring_words = take_count(RING_ROOM);
    size_t packets = take_count(sizeof lengths / sizeof lengths[0]);
    dwc2_iso_transfer t;
    t.base = take64();
    t.buffer_len = take32();
    t.start_reading = take32();
    t.frame_reading = take32();
    t.words = take32();
    t.kind = take8();
    t.has_buffer = take8();
    t.channel_free = take8();
    t.gate_program = take8();
    t.gate_enable = take8();
    for (size_t i = 0; i < packets; i++)
        lengths[i] = take32();
    dwc2_iso_submitted s = dwc2_iso_submit(session, session_len, ring, ring_words, lengths, packets, t);
    give(s.value, 8);
    give32(s.refusal);
    give32(s.cut);
    give32(s.first);
    give32(s.hcchar);
    give32(s.hctsiz);
    give32(s.hcintmsk);
    give32(s.frame_count);
    give_bytes(s.frames, 64);
    give_session_state();
}

static void give_reply(dwc2_iso_reply r)
{
    give32(r.refusal);
    give32(r.taken);
    give32(r.halt);
    give_session_state();
}

static void poll(void)
{
    size_t session_len = take_count(SESSION_ROOM), ring_words = take_count(RING_ROOM);
    uint32_t reported = take32(), unplugged = take32(), hcint = take32();
    give_reply(dwc2_iso_poll(session, session_len, ring, ring_words, reported, unplugged, hcint));
}

static void reclaim(void)
{
    size_t session_len = take_count(SESSION_ROOM), ring_words = take_count(RING_ROOM), results_len = take_count(RESULTS_ROOM);
    uint64_t id = take64();
    uint32_t reported = take32(), unplugged = take32(), hcint = take32();
    dwc2_iso_reclaimed r =
        dwc2_iso_reclaim(session, session_len, ring, ring_words, results, results_len, id, reported, unplugged, hcint);
    give32(r.refusal);
    give32(r.completed);
    give32(r.outcome);
    give32(r.fault);
    give32(r.word);
    give32(r.length);
    give32(r.packets);
    give32(r.taken);
    give32(r.halt);
    give_session_state();
}

static void cancel(void)
{
    size_t session_len = take_count(SESSION_ROOM);
    uint64_t id = take64();
    give_reply(dwc2_iso_cancel(session, session_len, id));
}

static void recover(void)
{
    size_t session_len = take_count(SESSION_ROOM), ring_words = take_count(RING_ROOM);
    give_reply(dwc2_iso_recover(session, session_len, ring, ring_words));
}

static void check(void)
{
    give32(dwc2_iso_check(session, take_count(SESSION_ROOM)));
    give_session_state();
}

void session_request(uint8_t op)
{
    switch (op) {
    case 0x01: fill(); return;
    case 0x02: poke(); return;
    case 0x04: state = take8(); return;
    case 0x10: open_session(); return;
    case 0x11: submit(); return;
    case 0x12: poll(); return;
    case 0x13: reclaim(); return;
    case 0x14: cancel(); return;
    case 0x15: give_reply(dwc2_iso_reset(session, take_count(SESSION_ROOM))); return;
    case 0x16: recover(); return;
    case 0x17: check(); return;
    default: leave(3);
    }
}
