/*
 * Speaks the oracle's protocol (oracle/PROTOCOL.md) on standard input and output and makes the port's calls. Needs no C library:
 * with DRIVER_FREESTANDING it is a static x86-64 Linux program of its own, which also runs under an emulator.
 */
#include "driver.h"

static uint8_t input[1u << 22];
static uint8_t output[1u << 24];
static size_t in_at, in_end, out_at;

/* ---- the system */

#ifdef DRIVER_FREESTANDING
static long system_call(long number, long a, long b, long c)
{
    long answer;
    __asm__ volatile("syscall" : "=a"(answer) : "a"(number), "D"(a), "S"(b), "d"(c) : "rcx", "r11", "memory");
    return answer;
}
static long read_some(void *to, size_t count) { return system_call(0, 0, (long)to, (long)count); }
static long write_some(const void *from, size_t count) { return system_call(1, 1, (long)from, (long)count); }
void leave(int status)
{
    for (;;)
        system_call(231, status, 0, 0);
}

void *memcpy(void *to, const void *from, size_t count)
{
    void *start = to;
    __asm__ volatile("rep movsb" : "+D"(to), "+S"(from), "+c"(count) : : "memory");
    return start;
}

void *memset(void *to, int byte, size_t count)
{
    void *start = to;
    __asm__ volatile("rep stosb" : "+D"(to), "+c"(count) : "a"(byte) : "memory");
    return start;
}

void *memmove(void *to, const void *from, size_t count)
{
    if ((uintptr_t)to - (uintptr_t)from >= count)
        return memcpy(to, from, count);
    uint8_t *t = (uint8_t *)to + count;
    const uint8_t *f = (const uint8_t *)from + count;
    while (count--) {
        *--t = *--f;
        __asm__ volatile("" : : : "memory");
    }
    return to;
}

int memcmp(const void *a, const void *b, size_t count)
{
    const uint8_t *x = a, *y = b;
    for (size_t i = 0; i < count; i++)
        if (x[i] != y[i])
            return x[i] - y[i];
    return 0;
}
#else
#include <stdlib.h>
#include <unistd.h>
static long read_some(void *to, size_t count) { return (long)read(0, to, count); }
static long write_some(const void *from, size_t count) { return (long)write(1, from, count); }
void leave(int status) { exit(status); }
#endif

/* fills `count` bytes; ends the program where the input ends */
static void read_all(void *to, size_t count)
{
    uint8_t *at = to;
    while (count > 0) {
        long got = read_some(at, count);
        if (got <= 0)
            leave(0);
        at += got;
        count -= (size_t)got;
    }
}

static void write_all(const void *from, size_t count)
{
    const uint8_t *at = from;
    while (count > 0) {
        long put = write_some(at, count);
        if (put <= 0)
            leave(2);
        at += put;
        count -= (size_t)put;
    }
}

/* ---- numbers of a request and of an answer */

static uint64_t take(unsigned bytes)
{
    uint64_t value = 0;
    if (bytes > in_end - in_at)
        leave(3);
    for (unsigned i = 0; i < bytes; i++)
        value |= (uint64_t)input[in_at++] << (8 * i);
    return value;
}
uint8_t take8(void) { return (uint8_t)take(1); }
uint16_t take16(void) { return (uint16_t)take(2); }
uint32_t take32(void) { return (uint32_t)take(4); }
uint64_t take64(void) { return take(8); }

/* a count of elements that are lent */
size_t take_count(size_t room)
{
    size_t count = take32();
    if (count > room)
        leave(3);
    return count;
}

void take_bytes(void *to, size_t count)
{
    if (count > in_end - in_at)
        leave(3);
    memcpy(to, input + in_at, count);
    in_at += count;
}

void give(uint64_t value, unsigned bytes)
{
    if (bytes > sizeof output - out_at)
        leave(3);
    for (unsigned i = 0; i < bytes; i++)
        output[out_at++] = (uint8_t)(value >> (8 * i));
}
void give32(uint32_t value) { give(value, 4); }

void give_bytes(const void *from, size_t count)
{
    if (count > sizeof output - out_at)
        leave(3);
    memcpy(output + out_at, from, count);
    out_at += count;
}

uint64_t summed(uint64_t sum, const void *from, size_t count)
{
    const uint8_t *at = from;
    for (size_t i = 0; i < count; i += 8) {
        uint64_t word;
        memcpy(&word, at + i, 8);
        sum = (sum ^ word) * 0xff51afd7ed558ccdu;
        sum ^= sum >> 32;
    }
    return sum;
}

/* ---- the requests */

static void request(uint8_t op)
{
    if (op >= 0x20 && op < 0x40)
        plan_request(op);
    else
        session_request(op);
}

static void serve(void)
{
    for (;;) {
        uint8_t head[4];
        read_all(head, 4);
        in_end = (size_t)head[0] | (size_t)head[1] << 8 | (size_t)head[2] << 16 | (size_t)head[3] << 24;
        if (in_end > sizeof input)
            leave(3);
        read_all(input, in_end);
        in_at = 0;
        out_at = 4;
        while (in_at < in_end)
            request(take8());
        size_t count = out_at - 4;
        for (int i = 0; i < 4; i++)
            output[i] = (uint8_t)(count >> (8 * i));
        write_all(output, out_at);
    }
}

#ifdef DRIVER_FREESTANDING
__attribute__((used)) static void begin(void) { serve(); }
__asm__(".globl _start\n_start:\n xor %ebp,%ebp\n and $-16,%rsp\n call begin\n hlt\n");
#else
int main(void) { serve(); }
#endif
