/*
 * A C host for tests: it makes the calls that it is told to, on a buffer that it
 * is told to make, and writes what they answer and what the buffer holds.
 *
 * Standard input is commands, a letter and numbers with their low byte first:
 *
 *   b  length (4), bytes           makes the buffer
 *   f  length (4), bytes of a plan fresh
 *   r  word (4)                    request
 *   c  flow (8), position (8)      credit
 *   t                              tick
 *   l  mask (2)                    lend
 *   z                              reset
 *   s  which (1), flow (8), position (8)   a look into the buffer
 *   k                              check
 *   p  length (4), records, length (4), bytes
 *                                  play; after its result, the length (4) and the
 *                                  bytes of the second buffer are written
 *   g                              writes the length (4) and the bytes of the buffer
 *
 * Each call's result is written as 8 bytes. On both sides of a buffer and of a
 * plan lie GUARD bytes, which have to stay as they were, and a plan has to stay
 * too. With no guard a buffer ends where its memory does, for tools that watch.
 */
#include <stdio.h>
#include <stdlib.h>
#include <string.h>

#include "nazgolv.h"

#ifndef GUARD
#define GUARD 64
#endif
#define MARK 0xA7

struct bytes {
    uint8_t *memory;
    uint8_t *start;
    size_t length;
};

static struct bytes buffer;

static void stop(const char *text)
{
    fflush(stdout);
    fprintf(stderr, "host: %s\n", text);
    exit(1);
}

/* Bytes from standard input. */
static void take(void *to, size_t length)
{
    if (length > 0 && fread(to, 1, length, stdin) != length)
        stop("a command is cut off");
}

static uint64_t number(int length)
{
    uint8_t bytes[8];
    uint64_t sum = 0;
    take(bytes, (size_t)length);
    while (length-- > 0)
        sum = sum << 8 | bytes[length];
    return sum;
}

static void put_number(uint64_t number, int length)
{
    while (length-- > 0) {
        putchar((int)(number & 255));
        number >>= 8;
    }
}

/* Memory for a length that stands in the input, with the bytes after it. */
static struct bytes make(void)
{
    struct bytes made;
    made.length = (size_t)number(4);
    made.memory = malloc(made.length + 2 * GUARD + (made.length + GUARD == 0));
    if (!made.memory)
        stop("no memory");
    memset(made.memory, MARK, made.length + 2 * GUARD);
    made.start = made.memory + GUARD;
    take(made.start, made.length);
    return made;
}

static void check_guards(struct bytes made)
{
    size_t i = GUARD;
    while (i-- > 0)
        if (made.memory[i] != MARK || made.start[made.length + i] != MARK)
            stop("a byte outside of what was lent was written");
}

static uint64_t fresh(void)
{
    struct bytes plan = make();
    uint8_t *copy = malloc(plan.length + 1);
    uint64_t result;
    if (!copy)
        stop("no memory");
    memcpy(copy, plan.start, plan.length);
    result = nazgolv_fresh(plan.start, plan.length, buffer.start, buffer.length);
    if (memcmp(copy, plan.start, plan.length) != 0)
        stop("the plan was written");
    check_guards(plan);
    free(copy);
    free(plan.memory);
    return result;
}

static void put_bytes(struct bytes made)
{
    put_number(made.length, 4);
    fwrite(made.start, 1, made.length, stdout);
}

/* nazgolv_result reads what stands there, and 16 where nothing does. */
static void check_results(struct bytes out)
{
    size_t record, i;
    for (record = 0; record < out.length / 8; record++) {
        uint64_t result = nazgolv_result(out.start, out.length, record);
        for (i = 0; i < 8; i++)
            if ((result >> 8 * i & 255) != out.start[8 * record + i])
                stop("a result is read as another");
    }
    if (nazgolv_result(out.start, out.length, record) != (uint64_t)16 << 32
        || nazgolv_result(out.start, out.length, (size_t)-1) != (uint64_t)16 << 32)
        stop("a result is read that isn't there");
}

/* A play: its result, and the numbers that it leaves. */
static void play(void)
{
    struct bytes records = make(), out = make();
    uint8_t *copy = malloc(records.length + 1);
    if (!copy)
        stop("no memory");
    memcpy(copy, records.start, records.length);
    put_number(nazgolv_play(buffer.start, buffer.length, records.start, records.length, out.start, out.length), 8);
    put_bytes(out);
    check_results(out);
    if (memcmp(copy, records.start, records.length) != 0)
        stop("the records were written");
    check_guards(buffer);
    check_guards(records);
    check_guards(out);
    free(copy);
    free(records.memory);
    free(out.memory);
}

static uint64_t credit(void)
{
    uint64_t flow = number(8), position = number(8);
    return nazgolv_credit(buffer.start, buffer.length, (size_t)flow, (size_t)position);
}

/* What is seen, by its place in the table of tests/images/host.py. */
static uint64_t see(void)
{
    const uint8_t *image = buffer.start;
    size_t length = buffer.length;
    unsigned which = (unsigned)number(1);
    size_t flow = (size_t)number(8), position = (size_t)number(8);
    switch (which) {
    case 0: return nazgolv_current(image, length);
    case 1: return nazgolv_frame_slots(image, length);
    case 2: return nazgolv_window_frames(image, length);
    case 3: return nazgolv_buffer_cells(image, length);
    case 4: return nazgolv_flows(image, length);
    case 5: return nazgolv_share(image, length, flow);
    case 6: return nazgolv_cells(image, length, flow);
    case 7: return nazgolv_source(image, length, flow);
    case 8: return nazgolv_destination(image, length, flow);
    case 9: return nazgolv_injection_frame(image, length, flow);
    case 10: return nazgolv_remainder(image, length, flow);
    case 11: return nazgolv_number(image, length, flow);
    case 12: return nazgolv_owner(image, length, position);
    case 13: return nazgolv_held(image, length, flow, position);
    }
    stop("it can't be seen");
    return 0;
}

static uint64_t call(int letter)
{
    switch (letter) {
    case 'f':
        return fresh();
    case 'r':
        return nazgolv_request(buffer.start, buffer.length, (uint32_t)number(4));
    case 'c':
        return credit();
    case 't':
        return nazgolv_tick(buffer.start, buffer.length);
    case 'l':
        return nazgolv_lend(buffer.start, buffer.length, (uint16_t)number(2));
    case 'z':
        return nazgolv_reset(buffer.start, buffer.length);
    case 's':
        return see();
    case 'k':
        return nazgolv_check(buffer.start, buffer.length);
    }
    stop("an unknown command");
    return 0;
}

int main(void)
{
    int letter;
    while ((letter = getchar()) != EOF) {
        if (letter == 'b') {
            free(buffer.memory);
            buffer = make();
        } else if (letter == 'g') {
            put_bytes(buffer);
        } else if (letter == 'p') {
            play();
        } else {
            put_number(call(letter), 8);
            check_guards(buffer);
        }
    }
    free(buffer.memory);
    if (fflush(stdout) != 0)
        stop("output failed");
    return 0;
}
