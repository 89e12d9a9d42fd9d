/*
 * Rule 12.4: a refusal that changes no byte stores none. Calls that are refused
 * so are made on an image in memory that can't be written: one that stores
 * anything ends by a signal. The plan is README's: F = 4, W = 2, N = 4, two flows
 * to node 9 with share 2 and 2 cells each.
 */
#define _DEFAULT_SOURCE
#include <stdio.h>
#include <string.h>
#include <sys/mman.h>

#include "nazgolv.h"

#define SIZE (4 * 4096)
#define REFUSED(number) ((uint64_t)(number) << 32)

static const uint8_t plan[] = {
    20, 0, 2, 0, 12, 0, 4, 0, 2, 0, 4, 0,  2, 2, 1, 9,  2, 2, 2, 9};
static uint8_t *image;
static int wrong;

static void expect(const char *what, uint64_t result, unsigned number)
{
    if (result == REFUSED(number))
        return;
    printf("%s: %llu, not refused with %u\n", what,
           (unsigned long long)result, number);
    wrong = 1;
}

static void protect(int how)
{
    if (mprotect(image, SIZE, how) != 0) {
        printf("mprotect failed\n");
        wrong = 1;
    }
}

int main(void)
{
    image = mmap(NULL, SIZE, PROT_READ | PROT_WRITE,
                 MAP_PRIVATE | MAP_ANONYMOUS, -1, 0);
    if (image == MAP_FAILED
        || nazgolv_fresh(plan, sizeof plan, image, SIZE) != 0) {
        printf("no image\n");
        return 1;
    }
    protect(PROT_READ);
    if (nazgolv_check(image, SIZE) != 0)
        expect("check", 0, 1);
    expect("no such flow", nazgolv_request(image, SIZE, NAZGOLV_WORD(9, 2, 0, 0)), 8);
    expect("destination", nazgolv_request(image, SIZE, NAZGOLV_WORD(8, 0, 0, 0)), 9);
    expect("departure", nazgolv_request(image, SIZE, NAZGOLV_WORD(9, 0, 0, 8)), 10);
    expect("number", nazgolv_request(image, SIZE, NAZGOLV_WORD(9, 0, 1, 0)), 24);
    expect("credit's flow", nazgolv_credit(image, SIZE, 2, 1), 8);
    expect("credit's position", nazgolv_credit(image, SIZE, 0, 8), 13);
    expect("gone by", nazgolv_credit(image, SIZE, 0, 0), 14);
    expect("nothing held", nazgolv_credit(image, SIZE, 0, 1), 15);
    expect("mask", nazgolv_lend(image, SIZE, 4), 8);
    expect("no taker", nazgolv_lend(image, SIZE, 0), 18);
    expect("too short", nazgolv_tick(image, 17), 21);
    protect(PROT_READ | PROT_WRITE);
    if (nazgolv_lend(image, SIZE, 1) != 0)
        expect("lend", 0, 1);
    protect(PROT_READ);
    expect("lent already", nazgolv_lend(image, SIZE, 1), 17);
    expect("not quiet", nazgolv_reset(image, SIZE), 23);
    protect(PROT_READ | PROT_WRITE);
    image[14] = 2;
    protect(PROT_READ);
    expect("no image", nazgolv_tick(image, SIZE), 22);
    return wrong;
}
