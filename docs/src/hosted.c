/*
 * Measures calls on an image. It reads a call file from standard input, plays it
 * from memory many times over, each time on the image of a fresh link: a call at
 * a time, and 256 records to a play. Each stretch of 64 calls and each play is
 * timed, and its lowest time counts. Then come checks of the image that is left.
 * Beside each figure stand the sum of the results, and that of the image's bytes,
 * each times its place. What library it is linked with tells whose calls these
 * are.
 */
#define _POSIX_C_SOURCE 199309L
#include <stdio.h>
#include <stdlib.h>
#include <time.h>

#include "nazgolv.h"

#define REPEATS 40              /* unless the command line says otherwise */
#define RECORDS 256             /* of a play */
#define STRETCH 64              /* calls that are timed together */
#define MOST (1 << 24)          /* bytes of a file */

static uint8_t file[MOST];
static size_t length, plan_length;
static double lowest[MOST / NAZGOLV_RECORD / STRETCH + 1];
static uint8_t image[NAZGOLV_IMAGE_MAX];
static uint8_t out[NAZGOLV_RESULT * RECORDS];

static void stop(const char *text)
{
    fprintf(stderr, "hosted: %s\n", text);
    exit(2);
}

static double now(void)
{
    struct timespec time;
    clock_gettime(CLOCK_MONOTONIC, &time);
    return 1e9 * (double)time.tv_sec + (double)time.tv_nsec;
}

static unsigned two(const uint8_t *bytes)
{
    return bytes[0] | (unsigned)bytes[1] << 8;
}

/* A record's call. */
static uint64_t call(const uint8_t *record)
{
    switch (record[0]) {
    case 1:
        return nazgolv_request(image, sizeof image,
                               two(record + 1) | (uint32_t)two(record + 3) << 16);
    case 2:
        return nazgolv_credit(image, sizeof image, record[1], two(record + 2));
    case 3:
        return nazgolv_tick(image, sizeof image);
    case 4:
        return nazgolv_lend(image, sizeof image, (uint16_t)two(record + 1));
    case 5:
        return nazgolv_reset(image, sizeof image);
    }
    stop("a record makes no call");
    return 0;
}

/* Records, a call at a time; the sum of the results. */
static uint64_t singly(const uint8_t *records, size_t bytes)
{
    uint64_t sum = 0;
    size_t at;
    for (at = 0; at < bytes; at += NAZGOLV_RECORD)
        sum += call(records + at);
    return sum;
}

/* The same by a play. */
static uint64_t by_play(const uint8_t *records, size_t bytes)
{
    uint64_t sum = nazgolv_play(image, sizeof image, records, bytes, out, sizeof out);
    size_t i;
    for (i = 0; i < bytes / NAZGOLV_RECORD; i++)
        sum += two(out + 8 * i) + ((uint64_t)two(out + 8 * i + 2) << 16)
               + ((uint64_t)two(out + 8 * i + 4) << 32);
    return sum;
}

/* A check for each record. */
static uint64_t checks(const uint8_t *records, size_t bytes)
{
    uint64_t sum = 0;
    size_t at;
    (void)records;
    for (at = 0; at < bytes; at += NAZGOLV_RECORD)
        sum += nazgolv_check(image, sizeof image);
    return sum;
}

/* All records in stretches, each of which keeps its lowest time. */
static uint64_t play(uint64_t (*stretch)(const uint8_t *, size_t), size_t records)
{
    uint64_t sum = 0;
    size_t at = plan_length, k = 0;
    while (at < length) {
        size_t bytes = length - at;
        double spent;
        if (bytes > records * NAZGOLV_RECORD)
            bytes = records * NAZGOLV_RECORD;
        spent = now();
        sum += stretch(file + at, bytes);
        spent = now() - spent;
        if (lowest[k] == 0 || spent < lowest[k])
            lowest[k] = spent;
        at += bytes;
        k++;
    }
    return sum;
}

/* A way to play: its time for a record, and what it comes to. */
static void measure(const char *name, uint64_t (*stretch)(const uint8_t *, size_t),
                    size_t records, int again, int repeats)
{
    double spent = 0;
    uint64_t sum = 0, bytes = 0;
    size_t i, stretches = sizeof lowest / sizeof *lowest;
    for (i = 0; i < stretches; i++)
        lowest[i] = 0;
    while (repeats-- > 0) {
        if (again && nazgolv_fresh(file, plan_length, image, sizeof image) != 0)
            stop("the plan is refused");
        sum = play(stretch, records);
    }
    for (i = 0; i < stretches; i++)
        spent += lowest[i];
    for (i = 0; i < sizeof image; i++)
        bytes += i * image[i];
    printf("%s %.1f ns, results %llu, image %llu\n", name,
           spent / (double)((length - plan_length) / NAZGOLV_RECORD),
           (unsigned long long)sum, (unsigned long long)bytes);
}

int main(int count, char **words)
{
    int repeats = count > 1 ? atoi(words[1]) : REPEATS;
    length = fread(file, 1, sizeof file, stdin);
    if (length < 2)
        stop("standard input is not a call file");
    plan_length = two(file);
    if (length <= plan_length || (length - plan_length) % NAZGOLV_RECORD != 0)
        stop("standard input is not a call file");
    measure("calls", singly, STRETCH, 1, repeats);
    measure("play", by_play, RECORDS, 1, repeats);
    measure("check", checks, STRETCH, 0, repeats);
    return 0;
}
