/*
 * What the library has besides the proved calls: the version, the symbol by which
 * a header of other images isn't linked, and a look into an image and into what
 * a play leaves.
 *
 * An image's header says where its parts are and how many positions and flows
 * there are. What is read lies below the total length that it states, and that
 * is no longer than the buffer: else there is no such number.
 */
#include "nazgolv.h"

enum { PLAN = 2, POSITIONS = 4, POSITION_COUNT = 6, PARTS = 8, FLOWS = 10, CURRENT = 12 };      /* in the header */
enum { PLAN_FLOWS = 2, F = 6, W = 8, N = 10, ENTRIES = 12 };    /* in the plan */
enum { SHARE, CELLS, SOURCE, DESTINATION, ENTRY };              /* in an entry, and its length */

void NAZGOLV_IMAGES(void)
{
}

const char *nazgolv_version(void)
{
    return NAZGOLV_VERSION;
}

static uint32_t two_bytes(const uint8_t *at)
{
    return at[0] + 256u * at[1];
}

/* The bytes of an image that may be looked at: none, where it is cut off. */
static size_t seen(const uint8_t *image, size_t length)
{
    size_t total = length < NAZGOLV_HEADER ? 0 : two_bytes(image);
    return total < NAZGOLV_HEADER || total > length ? 0 : total;
}

static uint32_t field(const uint8_t *image, size_t length, size_t at)
{
    return at + 2 <= seen(image, length) ? two_bytes(image + at) : NAZGOLV_NONE;
}

/* A field of the plan. */
static uint32_t of_plan(const uint8_t *image, size_t length, size_t at)
{
    return seen(image, length) ? field(image, length, two_bytes(image + PLAN) + at) : NAZGOLV_NONE;
}

/* Whether there is such a flow, or such a position. */
static int counted(const uint8_t *image, size_t length, size_t count, size_t number)
{
    return seen(image, length) && number < two_bytes(image + count);
}

/* A byte of a flow's entry. */
static uint32_t of_entry(const uint8_t *image, size_t length, size_t flow, size_t at)
{
    size_t entry;
    if (!counted(image, length, FLOWS, flow))
        return NAZGOLV_NONE;
    entry = two_bytes(image + PLAN) + ENTRIES + ENTRY * flow;
    return entry + ENTRY <= seen(image, length) ? image[entry + at] : NAZGOLV_NONE;
}

/* A field of a flow's part: IF, C, what is held at each position, and its number. */
static uint32_t of_flow(const uint8_t *image, size_t length, size_t flow, size_t place)
{
    if (!counted(image, length, FLOWS, flow))
        return NAZGOLV_NONE;
    return field(image, length, two_bytes(image + PARTS)
                 + 2 * (flow * (3 + (size_t)two_bytes(image + POSITION_COUNT)) + place));
}

/* ---- a play's results */

uint64_t nazgolv_result(const uint8_t *out, size_t out_length, size_t record)
{
    const uint8_t *at;
    if (record >= out_length / NAZGOLV_RESULT)
        return (uint64_t)NAZGOLV_REFUSED_RECORD << 32;
    at = out + record * NAZGOLV_RESULT;
    return two_bytes(at) | (uint64_t)two_bytes(at + 2) << 16
        | (uint64_t)two_bytes(at + 4) << 32 | (uint64_t)two_bytes(at + 6) << 48;
}

/* ---- the link and its plan */

uint32_t nazgolv_current(const uint8_t *image, size_t image_length)
{
    return field(image, image_length, CURRENT);
}

uint32_t nazgolv_frame_slots(const uint8_t *image, size_t image_length)
{
    return of_plan(image, image_length, F);
}

uint32_t nazgolv_window_frames(const uint8_t *image, size_t image_length)
{
    return of_plan(image, image_length, W);
}

uint32_t nazgolv_buffer_cells(const uint8_t *image, size_t image_length)
{
    return of_plan(image, image_length, N);
}

uint32_t nazgolv_flows(const uint8_t *image, size_t image_length)
{
    return of_plan(image, image_length, PLAN_FLOWS);
}

/* ---- a flow's entry */

uint32_t nazgolv_share(const uint8_t *image, size_t image_length, size_t flow)
{
    return of_entry(image, image_length, flow, SHARE);
}

uint32_t nazgolv_cells(const uint8_t *image, size_t image_length, size_t flow)
{
    return of_entry(image, image_length, flow, CELLS);
}

uint32_t nazgolv_source(const uint8_t *image, size_t image_length, size_t flow)
{
    return of_entry(image, image_length, flow, SOURCE);
}

uint32_t nazgolv_destination(const uint8_t *image, size_t image_length, size_t flow)
{
    return of_entry(image, image_length, flow, DESTINATION);
}

/* ---- positions and flows */

uint32_t nazgolv_owner(const uint8_t *image, size_t image_length, size_t position)
{
    if (!counted(image, image_length, POSITION_COUNT, position))
        return NAZGOLV_NONE;
    return field(image, image_length, two_bytes(image + POSITIONS) + 2 * position);
}

uint32_t nazgolv_held(const uint8_t *image, size_t image_length,
                      size_t flow, size_t position)
{
    if (!counted(image, image_length, POSITION_COUNT, position))
        return NAZGOLV_NONE;
    return of_flow(image, image_length, flow, 2 + position);
}

uint32_t nazgolv_injection_frame(const uint8_t *image, size_t image_length, size_t flow)
{
    return of_flow(image, image_length, flow, 0);
}

uint32_t nazgolv_remainder(const uint8_t *image, size_t image_length, size_t flow)
{
    return of_flow(image, image_length, flow, 1);
}

uint32_t nazgolv_number(const uint8_t *image, size_t image_length, size_t flow)
{
    if (!seen(image, image_length))
        return NAZGOLV_NONE;
    return of_flow(image, image_length, flow, 2 + (size_t)two_bytes(image + POSITION_COUNT));
}
