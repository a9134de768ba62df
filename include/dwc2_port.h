/*
 * The C interface of the DWC2 descriptor-DMA planner and camera session (crate `port`; `scripts/archive` makes the x86-64 archive).
 *
 * Every function answers for every input and alters nothing but what is said here. There is no heap, no lock, no register and no
 * global state. Each lent array is a pointer and a count of its elements; the pointer is aligned for its elements and not null
 * (also where the count is 0), and arrays lent to one call do not overlap.
 *
 * dwc2_names.h has the refusal numbers and the numbers that name things.
 *
 * Yes/no inputs: 0 is no, any other number is yes. Yes/no outputs are 0 or 1.
 */
#ifndef DWC2_PORT_H
#define DWC2_PORT_H

#include <stddef.h>
#include <stdint.h>

#include "dwc2_names.h"

#ifdef __cplusplus
extern "C" {
#endif

/* ---- The camera session ("the session", document 01).
 *
 * A session is DWC2_ISO_SESSION_BYTES bytes in the layout of docs/LAYOUT.md, at any alignment. Bytes behind them are never
 * touched. The firmware keeps the bytes, may copy, store and compare them, and hands them to each call.
 *
 * Every call that takes a session tests its bytes first:
 *    17  fewer than DWC2_ISO_SESSION_BYTES bytes;
 *    18  a wrong mark or version, or a byte that names nothing, of the head or an entry in use (docs/LAYOUT.md, "What is refused").
 * The bytes of entries that are not in use have no meaning and are not looked at.
 * Refused so, a call answers that number and zeros, and alters nothing. Else it acts on the session where it stands, as document 01
 * says, and answers. The call's own 17 (its other arrays), 18 (the record) and the rest follow in 01's order. A refusal that leaves
 * the session as it was leaves its bytes as they were. A call that does not return (power lost) may leave the bytes part of the way:
 * dwc2_iso_recover wants those from before the call, so the firmware keeps a copy.
 *
 * The ring: 32-bit words, 2 a slot, the status of slot s at word 2s and its address at 2s + 1; R slots, 256 at high speed, else
 * 64. The call needs at least 2R words (17); words behind them are never touched.
 */

#define DWC2_ISO_SESSION_BYTES 8488u
#define DWC2_ISO_SESSION_VERSION 1u
#define DWC2_ISO_RING_WORDS_HIGH 512u
#define DWC2_ISO_RING_WORDS_FULL 128u
#define DWC2_ISO_MAX_RESULTS 255u
#define DWC2_ISO_FRAME_LIST 64u

/* The answer of poll, cancel, reset and recover. */
typedef struct dwc2_iso_reply {
    uint32_t refusal; /* 0, or the refusal number */
    uint32_t taken;   /* 1: the event was taken */
    uint32_t halt;    /* 1: the caller is to halt the channel */
} dwc2_iso_reply;

/*
 * Opens a session: an idle session of the configuration is written, and the ring's 2R words become zero.
 *   interval         0 to 65,535 microframes (high speed) or frames; 0 counts as 1
 *   max_packet_size  bytes, at most 2,047
 *   endpoint         at most 15
 *   device           at most 127
 *   mult             packets a microframe, at most 3; 0 counts as 1
 * The bytes need not hold a session before. Answers 0 or:
 *   17  fewer than DWC2_ISO_SESSION_BYTES bytes: nothing is altered
 *   18  `speed`, `direction` or `mode` names nothing: nothing is altered
 *   17  fewer than 2R ring words: an idle session of what was offered is written, the ring is not altered
 *   18  a number of the configuration is beyond its limit: likewise
 * in this order.
 */
uint32_t dwc2_iso_open(uint8_t *session, size_t session_len, uint32_t *ring, size_t ring_words, uint8_t speed, uint8_t direction,
                       uint8_t mode, uint16_t interval, uint16_t max_packet_size, uint8_t endpoint, uint8_t device, uint8_t mult);

/* What a submission is given beside the lengths of its packets. */
typedef struct dwc2_iso_transfer {
    uint64_t base;          /* bus address of the buffer */
    uint32_t buffer_len;    /* bytes */
    uint32_t start_reading; /* raw frame number, for the start of a channel (first submission only) */
    uint32_t frame_reading; /* raw frame number, for the insertion */
    uint32_t words;         /* how many ring words may be stored; from 2 a packet on, all */
    uint8_t kind;           /* DWC2_KIND_*; any other number: 18 */
    uint8_t has_buffer;     /* yes/no */
    uint8_t channel_free;   /* yes/no: a channel is to be had (first submission only) */
    uint8_t gate_program;   /* yes/no: connected before programming (first submission only) */
    uint8_t gate_enable;    /* yes/no: connected before enabling (first submission only) */
} dwc2_iso_transfer;

typedef struct dwc2_iso_submitted {
    uint64_t value;       /* accepted: the request's number; refused with 9: the index of the first packet too long; else 0 */
    uint32_t refusal;     /* 0, or the refusal number */
    uint32_t cut;         /* 1: `words` words were stored and no more; recover from the bytes, which are as they were */
    uint32_t first;       /* 1: accepted and the channel starts now: program it with what follows; else what follows is 0 */
    uint32_t hcchar;      /* without the bits 30 and 31 */
    uint32_t hctsiz;
    uint32_t hcintmsk;
    uint32_t frame_count; /* entries of the frame list that name the channel */
    uint8_t frames[64];   /* the first `frame_count`, in the order of service; the others 0 */
} dwc2_iso_submitted;

/*
 * Submits a request of `packets` packets of `lengths` bytes each, and stores its words into the ring. Accepted where `refusal` and
 * `cut` are both 0.
 * Refusals: of the bytes 17, 18; 18 where `kind` names nothing (nothing is altered); then 17 (ring), 18 (record), 1 to 14.
 * 9 to 14 spend a request number; 14 also leaves the ring's 2R words, cursor and start zero.
 */
dwc2_iso_submitted dwc2_iso_submit(uint8_t *session, size_t session_len, uint32_t *ring, size_t ring_words, const uint32_t *lengths,
                                   size_t packets, dwc2_iso_transfer transfer);

/*
 * Polls the channel: `reported` says whether there is an event (an interrupt word of 0 may be one), `unplugged` whether the port is
 * gone, `hcint` is the interrupt word. Refusals: of the bytes 17, 18; then 17 (ring), 18 (record).
 */
dwc2_iso_reply dwc2_iso_poll(uint8_t *session, size_t session_len, uint32_t *ring, size_t ring_words, uint32_t reported,
                             uint32_t unplugged, uint32_t hcint);

typedef struct dwc2_iso_reclaimed {
    uint32_t refusal;   /* 0, or the refusal number */
    uint32_t completed; /* 1: handed out, with what follows; 0 and not refused: not yet */
    uint32_t outcome;   /* DWC2_OUTCOME_* */
    uint32_t fault;     /* DWC2_FAULT_*, of DWC2_OUTCOME_FAULT; else 0 */
    uint32_t word;      /* interrupt word of DWC2_OUTCOME_FAULT and DWC2_OUTCOME_UNEXPECTED_HALT; else 0 */
    uint32_t length;    /* bytes moved; 0 where the outcome is an error */
    uint32_t packets;   /* of the request */
    uint32_t taken;     /* as in dwc2_iso_reply */
    uint32_t halt;
} dwc2_iso_reclaimed;

/*
 * Hands out the completed request with the number `id`; where none is, polls as dwc2_iso_poll does and looks again. `results` has at
 * least 255 words (17). Done, its first `packets` words are a packet each: bytes moved in bits 0 to 11, bytes planned in 12 to 23,
 * packet error in bit 24; the others stay, and all of them where the outcome is an error or nothing is handed out.
 * Refusals: of the bytes 17, 18; then 17 (ring, results), 18 (record), 15 (which keeps what the poll did).
 */
dwc2_iso_reclaimed dwc2_iso_reclaim(uint8_t *session, size_t session_len, uint32_t *ring, size_t ring_words, uint64_t *results,
                                    size_t results_len, uint64_t id, uint32_t reported, uint32_t unplugged, uint32_t hcint);

/*
 * Cancels the request with the number `id`: a completed one becomes cancelled; for a pending one `halt` is 1 unless a halt is already
 * awaited. Refusals: of the bytes 17, 18; then 18 (record), 15.
 */
dwc2_iso_reply dwc2_iso_cancel(uint8_t *session, size_t session_len, uint64_t id);

/* Sets the cursor to 0 where no request and no reason to end is there. Refusals: of the bytes 17, 18; then 18 (record), 16. */
dwc2_iso_reply dwc2_iso_reset(uint8_t *session, size_t session_len);

/*
 * Recovers after a cut submission, from the bytes of before it: every pending request becomes disconnected, the ring's 2R words zero,
 * the session idle. Refusals: of the bytes 17, 18; then 17 (ring), 18 (record).
 */
dwc2_iso_reply dwc2_iso_recover(uint8_t *session, size_t session_len, uint32_t *ring, size_t ring_words);

/* Tests a session and alters nothing: 0, or 17 or 18 of the bytes, or 18 of the record. */
uint32_t dwc2_iso_check(const uint8_t *session, size_t session_len);

/* ---- Ring sums ("Ring sums", document 01). A number that names no speed or direction is refused with 18 and zeros. */

/* An answer that may be refused: `value` is 0 then. */
typedef struct dwc2_number {
    uint32_t refusal; /* 0, or the refusal number */
    uint32_t value;
} dwc2_number;

/* The slots of a ring, and the most bytes of one packet. */
dwc2_number dwc2_iso_ring_size(uint8_t speed);
dwc2_number dwc2_iso_max_xfer_size(uint8_t speed);
/* The greatest common divisor; 1 for 0 and 0. */
uint16_t dwc2_gcd(uint16_t a, uint16_t b);
/* The most packets in flight. */
dwc2_number dwc2_iso_max_packets(uint16_t interval, uint8_t speed);
/* The whole frame in which a channel may start, from a raw frame number. */
dwc2_number dwc2_iso_starting_frame(uint32_t raw_frame, uint8_t speed);
/* The slot of a whole frame. */
dwc2_number dwc2_frame_to_desc_idx(uint8_t speed, uint32_t full_frame);
/* The slot at which to insert; 0 where `ring` is 0. */
uint16_t dwc2_advance_along_grid(uint16_t td_last, uint16_t target, uint16_t interval, uint16_t ring);
/* HCTSIZ's SCHINFO. */
dwc2_number dwc2_iso_schinfo(uint8_t speed, uint16_t interval);
/* The PID as HCTSIZ has it: DATA0 0, DATA2 1, DATA1 2, MDATA 3. */
dwc2_number dwc2_iso_pid(uint8_t speed, uint8_t direction, uint8_t mult);
/* The request number after `id`. */
uint64_t dwc2_next_request_id(uint64_t id);

/* Entries of the frame list. */
typedef struct dwc2_service_frames {
    uint32_t refusal;
    uint32_t count;
    uint8_t frames[64]; /* the first `count`, in the order of service; the others 0 */
} dwc2_service_frames;

dwc2_service_frames dwc2_iso_service_frames(uint32_t start_full_frame, uint16_t interval, uint8_t speed);

/* ---- Planning ("Planning transfers", document 01).
 *
 * The array: 32-bit words, 2 a descriptor, status then address. A call needs at least 2,048 words (17); words behind the plan stay.
 * Lengths are bytes, and addresses are bus addresses. Where a number names nothing, the call is refused with 18 and zeros before any
 * other test; then 17, 18, 19, 20, 11 in this order, as far as a call has them. Refused, nothing is altered.
 */

/* `count` descriptors, each of `chunk` bytes but the last, of `last` bytes. */
typedef struct dwc2_split {
    uint64_t count;
    uint32_t chunk;
    uint32_t last;
} dwc2_split;

dwc2_split dwc2_split_dma_lengths(uint64_t len, uint16_t max_packet_size);
/* The packets of `len` bytes, at least 1. */
uint64_t dwc2_packet_count(uint64_t len, uint16_t max_packet_size);

#define DWC2_ROLE_DATA 0u
#define DWC2_ROLE_SETUP 1u
#define DWC2_ROLE_CONTROL_DATA 2u
#define DWC2_ROLE_STATUS 3u

/* One programming of a channel: `descs` descriptors from number `desc_base` of the array on. */
typedef struct dwc2_stage {
    uint32_t role;
    uint32_t hcchar;
    uint32_t hctsiz;
    uint32_t dma_addr;
    uint32_t desc_base;
    uint32_t descs;
    uint32_t len;
} dwc2_stage;

typedef struct dwc2_data_request {
    uint64_t base;
    uint64_t len;
    uint16_t max_packet_size; /* at most 2,047; 0 counts as 1 */
    uint8_t kind;             /* DWC2_KIND_BULK or DWC2_KIND_INTERRUPT; any other number: 18 */
    uint8_t direction;        /* DWC2_DIRECTION_* */
    uint8_t port_speed;       /* DWC2_SPEED_* */
    uint8_t device;           /* at most 127 */
    uint8_t endpoint;         /* at most 15 */
    uint8_t odd_frame;        /* yes/no, of an interrupt transfer */
    uint8_t toggle;           /* 0 DATA0, else DATA1: as the last transfer left it */
} dwc2_data_request;

typedef struct dwc2_data_plan {
    uint32_t refusal;     /* 0, or 17, 18, 20, 11 */
    uint32_t toggle;      /* 0 or 1: after the transfer; as it came where 17, 18 of a limit, 20 or 11 refused it */
    uint32_t count;       /* stages in use; refused, 0 */
    dwc2_stage stages[4]; /* in the order in which they run; those not in use are zeros */
} dwc2_data_plan;

/* Plans a bulk or interrupt transfer and writes its descriptors into the array. */
dwc2_data_plan dwc2_data_stages(dwc2_data_request request, uint32_t *array, size_t array_words);

typedef struct dwc2_control_request {
    uint64_t len;             /* of the data; 0: none */
    uint64_t setup_dma;       /* of the eight bytes of the setup packet */
    uint64_t data_dma;        /* of the data; not looked at where there is none */
    uint64_t status_dma;      /* for a status packet that comes in; not looked at where it goes out */
    uint16_t max_packet_size; /* at most 2,047; below 8 counts as 8 */
    uint8_t direction;        /* DWC2_DIRECTION_*, of the data */
    uint8_t device;           /* at most 127 */
} dwc2_control_request;

typedef struct dwc2_control_plan {
    uint32_t refusal;  /* 0, or 17, 18, 19, 11 */
    uint32_t has_data; /* 1: the data stage is to be run */
    dwc2_stage setup;
    dwc2_stage data; /* zeros where there is no data */
    dwc2_stage status;
} dwc2_control_plan;

/* Plans a control transfer on endpoint 0 and writes its descriptors into the array. */
dwc2_control_plan dwc2_build_control_plan(dwc2_control_request request, uint32_t *array, size_t array_words);

/*
 * The bytes that a finished stage moved, from the array as the controller left it. Refused with 18 where `role` names nothing; then
 * with 17, and with 18 for a stage that no planning call makes.
 */
dwc2_number dwc2_stage_actual_length(dwc2_stage stage, const uint32_t *array, size_t array_words);

typedef struct dwc2_setup_packet {
    uint32_t refusal; /* 0, or 18, 19 */
    uint8_t bytes[8]; /* refused: zeros */
} dwc2_setup_packet;

/*
 * The setup packet of a control transfer of `len` bytes. `request_type` is 0 standard, 1 class, 2 vendor, 3 reserved; `recipient` is
 * 0 device, 1 interface, 2 endpoint, 3 other; any other number: 18.
 */
dwc2_setup_packet dwc2_setup_packet_bytes(uint8_t request_type, uint8_t recipient, uint8_t direction, uint8_t request, uint16_t value,
                                          uint16_t index, uint64_t len);

#ifdef __cplusplus
}
#endif

#endif
