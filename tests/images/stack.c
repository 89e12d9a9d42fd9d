/*
 * How much stack each export takes: a file of calls on standard input is made
 * on images, each call by a thread of its own on painted bytes, with a lend, a
 * reset, a check and a play of 64 records after each tick, on copies of the
 * image. Writes a line for each export:
 * its name, and the most bytes that one of its calls wrote below its caller.
 */
#define _XOPEN_SOURCE 700       /* pthread_attr_setstack */
#include <pthread.h>
#include <stdio.h>
#include <string.h>

#include "nazgolv.h"

#define PAINT 0xA5
#define STACK ((size_t)1 << 18)
#define PAGE 4096

enum { NONE, FRESH, REQUEST, CREDIT, TICK, LEND, RESET, CHECK, PLAY, KINDS };

#define RECORDS 64              /* that a play has at most */

static const char *const names[KINDS] = {
    "", "nazgolv_fresh", "nazgolv_request", "nazgolv_credit", "nazgolv_tick",
    "nazgolv_lend", "nazgolv_reset", "nazgolv_check", "nazgolv_play"};
static uint8_t file[1 << 20];
static uint8_t room[STACK + PAGE];
static uint8_t image[NAZGOLV_IMAGE_MAX];
static uint8_t copy[NAZGOLV_IMAGE_MAX];
static uint8_t *stack;          /* a page begins there */
static size_t most[KINDS];
static size_t below;            /* where the caller's own bytes begin */
static int kind;
static const uint8_t *record;
static size_t behind;           /* bytes from the record on */
static uint8_t out[RECORDS * NAZGOLV_RESULT];

static size_t two_bytes(const uint8_t *at)
{
    return at[0] + 256u * at[1];
}

static void *call(void *nothing)
{
    uint8_t here = 0;
    below = (size_t)((uintptr_t)&here - (uintptr_t)stack);
    switch (kind) {
    case FRESH:
        nazgolv_fresh(file, two_bytes(file), image, sizeof image);
        break;
    case REQUEST:
        nazgolv_request(image, sizeof image, (uint32_t)two_bytes(record + 1)
                        + ((uint32_t)two_bytes(record + 3) << 16));
        break;
    case CREDIT:
        nazgolv_credit(image, sizeof image, record[1], two_bytes(record + 2));
        break;
    case TICK:
        nazgolv_tick(image, sizeof image);
        break;
    case LEND:
        nazgolv_lend(image, sizeof image,
                     (uint16_t)((1ul << two_bytes(file + 2)) - 1));
        break;
    case RESET:
        nazgolv_reset(image, sizeof image);
        break;
    case CHECK:
        nazgolv_check(image, sizeof image);
        break;
    case PLAY:
        nazgolv_play(image, sizeof image, record, behind, out, sizeof out);
        break;
    }
    return nothing;
}

/* Makes one call; 0 where no thread can be had. */
static int make(int which)
{
    pthread_attr_t attributes;
    pthread_t thread;
    size_t clean = 0;
    kind = which;
    memset(stack, PAINT, STACK);
    if (pthread_attr_init(&attributes)
        || pthread_attr_setstack(&attributes, stack, STACK)
        || pthread_create(&thread, &attributes, call, NULL)
        || pthread_join(thread, NULL))
        return 0;
    pthread_attr_destroy(&attributes);
    while (clean < STACK && stack[clean] == PAINT)
        clean++;
    if (below - clean > most[which])
        most[which] = below - clean;
    return 1;
}

/* The same on a copy, which is put back. */
static int try(int which)
{
    int made;
    memcpy(copy, image, sizeof image);
    made = make(which);
    memcpy(image, copy, sizeof image);
    return made;
}

int main(void)
{
    size_t length = fread(file, 1, sizeof file, stdin);
    size_t at = two_bytes(file);
    int good;
    stack = room + (PAGE - (uintptr_t)room % PAGE) % PAGE;
    good = make(FRESH) && try(LEND) && try(RESET);
    for (; good && at + 5 <= length; at += 5) {
        record = file + at;
        behind = length - at < RECORDS * NAZGOLV_RECORD ? length - at : RECORDS * NAZGOLV_RECORD;
        good = record[0] >= 1 && record[0] <= 3 && make(record[0] + FRESH);
        if (good && record[0] == 3)
            good = try(LEND) && try(RESET) && try(CHECK) && try(PLAY);
    }
    for (kind = FRESH; good && kind < KINDS; kind++)
        printf("%s %lu\n", names[kind], (unsigned long)most[kind]);
    return !good;
}
