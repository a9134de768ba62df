/*
 * Numbers of the C interface (dwc2_port.h).
 *
 * Refusal numbers (document 01, "Refusal numbers"); 0 is none:
 *    1 the session is ending              2 low speed                       3 not isochronous
 *    4 no packets                         5 no buffer                       6 over capacity, none pending
 *    7 over capacity with those pending   8 over 64 requests, 1,024 packets 9 a packet too long (gives its index)
 *   10 lengths and buffer differ         11 address limit                  12 no channel to be had
 *   13 slot held (guarded mode)          14 unplugged at a gate            15 unknown number
 *   16 reset while not empty             17 a lent array is short          18 a number or a record beyond its limits
 *   19 control length over 65,535        20 more than 1,024 descriptors
 */
#ifndef DWC2_NAMES_H
#define DWC2_NAMES_H

/* ---- Numbers that name things. Any other number is refused with 18. */

#define DWC2_SPEED_HIGH 0u
#define DWC2_SPEED_FULL 1u
#define DWC2_SPEED_LOW 2u

#define DWC2_DIRECTION_OUT 0u
#define DWC2_DIRECTION_IN 1u

#define DWC2_MODE_COMPATIBLE 0u
#define DWC2_MODE_GUARDED 1u

/* The kind of an endpoint or request, as HCCHAR's type. */
#define DWC2_KIND_CONTROL 0u
#define DWC2_KIND_ISOCHRONOUS 1u
#define DWC2_KIND_BULK 2u
#define DWC2_KIND_INTERRUPT 3u

/* How a completed request ended. */
#define DWC2_OUTCOME_DONE 0u
#define DWC2_OUTCOME_DISCONNECTED 1u
#define DWC2_OUTCOME_CANCELLED 2u
#define DWC2_OUTCOME_FAULT 3u           /* with a fault and an interrupt word */
#define DWC2_OUTCOME_UNEXPECTED_HALT 4u /* with an interrupt word */

/* A fault is named by its bit of HCINT; 0 is none. */
#define DWC2_FAULT_NONE 0u
#define DWC2_FAULT_AHB 2u
#define DWC2_FAULT_STALL 3u
#define DWC2_FAULT_TRANSACTION 7u
#define DWC2_FAULT_BABBLE 8u
#define DWC2_FAULT_FRAME_OVERRUN 9u
#define DWC2_FAULT_DATA_TOGGLE 10u

#endif
