/*
 * What the driver's files share: numbers in and out (driver.c), memory (session.c), and the two sorts of request.
 */
#ifndef DRIVER_H
#define DRIVER_H

#include "dwc2_port.h"

#ifdef DRIVER_FREESTANDING
void *memcpy(void *to, const void *from, size_t count);
void *memset(void *to, int byte, size_t count);
#else
#include <string.h>
#endif

#define ARRAY_ROOM 2064u

extern uint32_t array[ARRAY_ROOM];
/* what follows an answer: 0 nothing, 1 a sum of the memory, 2 the memory */
extern unsigned state;

void leave(int status);

uint8_t take8(void);
uint16_t take16(void);
uint32_t take32(void);
uint64_t take64(void);
size_t take_count(size_t room);
void take_bytes(void *to, size_t count);
void give(uint64_t value, unsigned bytes);
void give32(uint32_t value);
void give_bytes(const void *from, size_t count);

#define FIRST_SUM 0x9e3779b97f4a7c15u
uint64_t summed(uint64_t sum, const void *from, size_t count);

void session_request(uint8_t op);
void plan_request(uint8_t op);

#endif
