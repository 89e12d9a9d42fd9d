/*
 * The header alone, twice, as C and as C++: it compiles without a warning, and
 * its numbers are those of rules 12.1 to 12.6. An array of -1 elements is an error.
 */
#include "nazgolv.h"
#include "nazgolv.h"

#define SAME(name, left, right) typedef char name[(left) == (right) ? 1 : -1]

SAME(header, NAZGOLV_HEADER, 2 * 9);
SAME(longest_plan, NAZGOLV_PLAN_MAX, 12 + 4 * 16);
SAME(longest, NAZGOLV_IMAGE_MAX, NAZGOLV_IMAGE_LENGTH(256, 16));
SAME(longest_in_bytes, NAZGOLV_IMAGE_MAX, 8894);
SAME(of_the_listing, NAZGOLV_IMAGE_LENGTH(8, 2), 98);
SAME(smallest, NAZGOLV_IMAGE_LENGTH(2, 1), 48);
SAME(word, NAZGOLV_WORD(9, 1, 2, 3), 0x24100803);
SAME(all_ones, NAZGOLV_WORD(63, 63, 1023, 1023), 0xFFFFFFFF);
SAME(position, NAZGOLV_POSITION(0x24100803), 3);
SAME(no_refusal, NAZGOLV_REFUSAL((uint64_t)0xFFFFFFFF), 0);
SAME(refusal, NAZGOLV_REFUSAL((uint64_t)NAZGOLV_REFUSED_IMAGE << 32), 22);
SAME(not_quiet, NAZGOLV_REFUSED_NOT_QUIET, 23);
SAME(number, NAZGOLV_REFUSED_NUMBER, 24);
SAME(value, NAZGOLV_VALUE((uint64_t)0x24100803), 0x24100803);
SAME(no_results, NAZGOLV_PLAY_LENGTH(0), 0);
SAME(a_cut_off_record, NAZGOLV_PLAY_LENGTH(1), 8);
SAME(a_record, NAZGOLV_PLAY_LENGTH(5), 8);
SAME(two_records, NAZGOLV_PLAY_LENGTH(6), 16);
SAME(of_no_flow, NAZGOLV_WORD(9, 1, NAZGOLV_NONE, 3) >> 20 & 63, 63);
SAME(of_no_flow_either, NAZGOLV_WORD(9, 1, 2, NAZGOLV_NONE) >> 20 & 63, 63);

/* Its functions have these types. */
uint64_t uses(const uint8_t *plan, uint8_t *image);
uint64_t uses(const uint8_t *plan, uint8_t *image)
{
    size_t length = NAZGOLV_IMAGE_MAX;
    return nazgolv_fresh(plan, NAZGOLV_PLAN_MAX, image, length)
        + nazgolv_request(image, length, (uint32_t)0)
        + nazgolv_credit(image, length, (size_t)0, (size_t)0)
        + nazgolv_tick(image, length)
        + nazgolv_lend(image, length, (uint16_t)0)
        + nazgolv_reset(image, length)
        + nazgolv_check(plan, NAZGOLV_PLAN_MAX)
        + nazgolv_play(image, length, plan, NAZGOLV_PLAN_MAX, image, length);
}

/* What looks into an image takes one that can't be written. */
uint32_t sees(const uint8_t *image, size_t flow, size_t position);
uint32_t sees(const uint8_t *image, size_t flow, size_t position)
{
    size_t length = NAZGOLV_IMAGE_MAX;
    return NAZGOLV_CURRENT(image) + nazgolv_current(image, length)
        + nazgolv_owner(image, length, position) + nazgolv_held(image, length, flow, position)
        + (uint32_t)nazgolv_result(image, length, 0) + (uint32_t)*nazgolv_why(8) + (uint32_t)*nazgolv_version();
}
