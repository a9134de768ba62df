/*
 * The port from C: one camera session and one long write to a disk, with a controller that this program plays itself. The firmware's
 * part is `session`, `ring`, `results` and `array`: plain memory that it keeps and lends. examples/c/build links it, examples/c/expected
 * has what it must print, worked out by hand from document 01.
 */
#include "dwc2_port.h"

#include <stdint.h>

int printf(const char *format, ...);

static uint8_t session[DWC2_ISO_SESSION_BYTES];
static uint8_t before[DWC2_ISO_SESSION_BYTES];
static uint32_t ring[DWC2_ISO_RING_WORDS_HIGH];
static uint64_t results[DWC2_ISO_MAX_RESULTS];
static uint32_t array[2048];

/* Three packets of 192 bytes, both readings of the frame number 16: the worked number P8 of document 01. */
static const uint32_t lengths[3] = {192, 192, 192};

static dwc2_iso_transfer transfer(uint64_t base, uint32_t reading)
{
    dwc2_iso_transfer t = {0};
    t.base = base;
    t.buffer_len = 3 * 192;
    t.start_reading = reading;
    t.frame_reading = reading;
    t.words = 0xffffffffu;
    t.kind = DWC2_KIND_ISOCHRONOUS;
    t.has_buffer = 1;
    t.channel_free = 1;
    t.gate_program = 1;
    t.gate_enable = 1;
    return t;
}

static void show_ring(void)
{
    for (unsigned slot = 0; slot < DWC2_ISO_RING_WORDS_HIGH / 2; slot++) {
        if (ring[2 * slot] != 0 || ring[2 * slot + 1] != 0) {
            printf("  slot %u: status 0x%08X, address 0x%X\n", slot, (unsigned)ring[2 * slot], (unsigned)ring[2 * slot + 1]);
        }
    }
}

static void camera(void)
{
    uint32_t refusal = dwc2_iso_open(session, sizeof session, ring, DWC2_ISO_RING_WORDS_HIGH, DWC2_SPEED_HIGH, DWC2_DIRECTION_IN,
                                     DWC2_MODE_GUARDED, 8, 192, 1, 5, 1);
    printf("open: refusal %u\n", (unsigned)refusal);

    dwc2_iso_submitted s =
        dwc2_iso_submit(session, sizeof session, ring, DWC2_ISO_RING_WORDS_HIGH, lengths, 3, transfer(0x1000, 16));
    printf("submit: refusal %u, request %u, program the channel: %u\n", (unsigned)s.refusal, (unsigned)s.value, (unsigned)s.first);
    show_ring();

    /* The controller serves the packets: 192, 100 and 0 bytes came. It clears the active bit and leaves what remains. */
    ring[2 * 24] = 0;
    ring[2 * 32] = 92;
    ring[2 * 40] = 0x02000000u | 192;
    dwc2_iso_reclaimed r = dwc2_iso_reclaim(session, sizeof session, ring, DWC2_ISO_RING_WORDS_HIGH, results, DWC2_ISO_MAX_RESULTS,
                                            s.value, 1, 0, 1);
    printf("reclaim: refusal %u, completed %u, outcome %u, bytes %u\n", (unsigned)r.refusal, (unsigned)r.completed,
           (unsigned)r.outcome, (unsigned)r.length);
    for (uint32_t i = 0; i < r.packets; i++) {
        printf("  packet %u: %u of %u bytes\n", (unsigned)i, (unsigned)(results[i] & 0xfff), (unsigned)(results[i] >> 12 & 0xfff));
    }
}

/* The power goes while the second submission stores its words; the record of before the call is enough to recover. */
static void cut(void)
{
    for (unsigned i = 0; i < sizeof session; i++) {
        before[i] = session[i];
    }
    dwc2_iso_transfer t = transfer(0x2000, 40);
    t.words = 3;
    dwc2_iso_submitted s = dwc2_iso_submit(session, sizeof session, ring, DWC2_ISO_RING_WORDS_HIGH, lengths, 3, t);
    printf("submit, cut after 3 words: refusal %u, cut %u\n", (unsigned)s.refusal, (unsigned)s.cut);
    show_ring();
    dwc2_iso_reply r = dwc2_iso_recover(before, sizeof before, ring, DWC2_ISO_RING_WORDS_HIGH);
    printf("recover: refusal %u\n", (unsigned)r.refusal);
    show_ring();
}

/* One byte more than one stage holds: the second stage starts at the byte behind the first (document 01, P7). */
static void disk(void)
{
    dwc2_data_request q = {0};
    q.base = 0x100000;
    q.len = 33423361;
    q.max_packet_size = 512;
    q.kind = DWC2_KIND_BULK;
    q.direction = DWC2_DIRECTION_OUT;
    q.port_speed = DWC2_SPEED_HIGH;
    q.device = 5;
    q.endpoint = 2;
    dwc2_data_plan p = dwc2_data_stages(q, array, 2048);
    printf("write of %u bytes: refusal %u, stages %u, toggle after %u\n", (unsigned)q.len, (unsigned)p.refusal, (unsigned)p.count,
           (unsigned)p.toggle);
    for (uint32_t i = 0; i < p.count; i++) {
        printf("  stage %u: %u bytes, %u descriptors, the first at 0x%X\n", (unsigned)i, (unsigned)p.stages[i].len,
               (unsigned)p.stages[i].descs, (unsigned)array[2 * p.stages[i].desc_base + 1]);
    }
}

int main(void)
{
    camera();
    cut();
    disk();
    return 0;
}
