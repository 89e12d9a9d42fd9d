/*
 * Nazgolv for C and C++: the booking table of one tile link, kept by the caller as bytes.
 *
 * A link is an image: bytes that the caller owns and may store or send. A call
 * reads the image, acts, and writes it back in place. Nothing else is kept
 * between calls; nothing is allocated, and nothing but the caller's bytes is
 * written. So calls on different images may run at once.
 *
 *     static uint8_t image[NAZGOLV_IMAGE_MAX];
 *     uint64_t got = nazgolv_fresh(plan, sizeof plan, image, sizeof image);
 *     if (!NAZGOLV_REFUSAL(got))
 *         got = nazgolv_request(image, sizeof image, NAZGOLV_WORD(
 *             nazgolv_destination(image, sizeof image, 0), 0,
 *             nazgolv_number(image, sizeof image, 0), NAZGOLV_CURRENT(image)));
 *     if (NAZGOLV_REFUSAL(got))
 *         puts(nazgolv_why(NAZGOLV_REFUSAL(got)));
 *     else
 *         printf("position %u\n", (unsigned)NAZGOLV_POSITION(NAZGOLV_VALUE(got)));
 *
 * Flow 0 asks for a tile that has come: its departure is CP, the current
 * position, also after ticks. A departure that lies behind CP in an earlier
 * frame is read as one to come, and may be refused with 20.
 *
 * player/build makes the library, for x86-64. What each call of it does is
 * proved; what it has besides (to look into an image, why and version) is plain
 * C and is tested. docs/C.md has an example in C, Rust and Python,
 * docs/REFUSALS.md explains each refusal.
 *
 * What a caller owes:
 *
 *   pointers    each has the stated number of bytes behind it, and none is NULL,
 *               not even with a length of 0; the buffers of one call don't
 *               overlap
 *   one image   what a call left is given to the next one, whole and unchanged.
 *               An image that was changed, or that was gone back to, may be
 *               taken too; then nothing is promised of the whole list of calls
 *   threads     two calls on one image don't run at once: there is no lock.
 *               Calls on different images may
 *   being cut off   a call that ends while it writes, by a signal that doesn't
 *               come back, a kill or a power cut, may leave bytes that are no
 *               image, or an image that is taken and wrong. Where that can
 *               happen keep two: copy, call on the copy, then switch to it
 *   stack       where there is too little of it the process ends by a signal.
 *               Bytes below the caller, measured on flights/sparse:
 *
 *                   nazgolv_fresh     17,100
 *                   nazgolv_request    7,300
 *                   nazgolv_credit     7,300
 *                   nazgolv_tick       7,300
 *                   nazgolv_lend       7,300
 *                   nazgolv_reset      7,300
 *                   nazgolv_play       7,400
 *                   nazgolv_check      2,100
 *
 * Of the C library memcpy and memset are needed, and no other thing.
 */
#ifndef NAZGOLV_H
#define NAZGOLV_H

#include <stddef.h>
#include <stdint.h>

#ifdef __cplusplus
extern "C" {
#endif

/* ---- the version: the first number goes up where older images are refused */

#define NAZGOLV_VERSION "4.10.0"
#define NAZGOLV_VERSION_MAJOR 4
#define NAZGOLV_VERSION_MINOR 10
#define NAZGOLV_VERSION_PATCH 0

/*
 * The library has a symbol whose name ends with the first number, and what is
 * compiled with this header asks for it: a library with other images isn't linked.
 */
#define NAZGOLV_PASTED(name, number) name##number
#define NAZGOLV_NUMBERED(name, number) NAZGOLV_PASTED(name, number)
#define NAZGOLV_IMAGES NAZGOLV_NUMBERED(nazgolv_images_, NAZGOLV_VERSION_MAJOR)
void NAZGOLV_IMAGES(void);
#ifdef __GNUC__
static void (*const nazgolv_images)(void) __attribute__((used)) = NAZGOLV_IMAGES;
#endif

/* The version of the library that is linked, as NAZGOLV_VERSION. */
const char *nazgolv_version(void);

/* ---- the image
 *
 * 16-bit fields, low byte first, without gaps:
 *
 *   header      total length; where the plan starts; where the positions start,
 *               and how many; where the flows start, and how many; CP; the
 *               taken mark, 0 or 1; the flow that the next lend looks from,
 *               below the number of flows
 *   plan        its bytes, as they were given to fresh
 *   positions   for each the flow that booked it, or 16
 *   flows       for each IF, C, what it holds at positions 0, 1, 2 and so on, and
 *               the quantum number that its next word has to carry, below 1,024
 *
 * Versions: before quantum numbers were tested a flow's part ended with what it
 * holds and was two bytes shorter; before lends went in turn the header, too,
 * ended with the mark and had 16 bytes. An image that a library of then wrote is
 * refused by this one and left as it came: with 22, or with 21 where it is cut
 * off below 18 bytes or below the length that it states. There is nothing to
 * convert: make a link with fresh.
 */

/* ---- sizes, in bytes */

/* The longest plan: a header of 12 and 16 flows of 4. */
#define NAZGOLV_PLAN_MAX 76

/* An image's header. */
#define NAZGOLV_HEADER 18

/* The longest image: F x W = 256 positions and 16 flows. */
#define NAZGOLV_IMAGE_MAX 8894

/* The image of a plan with this many positions (F x W) and flows. */
#define NAZGOLV_IMAGE_LENGTH(positions, flows) \
    ((size_t)NAZGOLV_HEADER + 12 + 4 * (size_t)(flows) + 2 * (size_t)(positions) \
     + 2 * (size_t)(flows) * (3 + (size_t)(positions)))

/* ---- the look-ahead word: destination, flow, quantum, departure */

/*
 * Each part below its limit: destination 64, flow 64, quantum and departure
 * 1,024. A flow's words carry the numbers 0, 1, 2 and so on modulo 1,024 as their
 * quantum: one more after a grant, and the same again after a refusal.
 */
#define NAZGOLV_WORD(destination, flow, quantum, departure) \
    ((uint32_t)(destination) << 26 | (uint32_t)(flow) << 20 \
     | (uint32_t)(quantum) << 10 | (uint32_t)(departure))

/*
 * CP, the current position: the departure of a tile that has come. The image has
 * at least its header's bytes; see nazgolv_current for one that may be shorter.
 */
#define NAZGOLV_CURRENT(image) ((uint32_t)(image)[12] | (uint32_t)(image)[13] << 8)

/* The departure of a word: of a granted one, the position that is booked. */
#define NAZGOLV_POSITION(word) ((uint32_t)(word) & 1023u)

/* ---- results */

/*
 * A result is a refusal, times 2 to the power 32, or else the call's value: 0
 * for fresh, credit, reset and play, the word for request, the flow for tick and
 * lend. A check's number is no result.
 */
#define NAZGOLV_REFUSAL(result) ((uint32_t)((result) >> 32))
#define NAZGOLV_VALUE(result) ((uint32_t)((result) & 0xFFFFFFFFu))

/* What tick answers where nobody booked the slot that has come up. */
#define NAZGOLV_IDLE 16

/* Refusals. The first that applies is returned. */
#define NAZGOLV_REFUSED_PLAN_LENGTH 1       /* plan: below 12 bytes, or not the stated length */
#define NAZGOLV_REFUSED_PLAN_COUNTS 2       /* plan: number of flows, offset or length */
#define NAZGOLV_REFUSED_PLAN_FRAME 3        /* plan: F, W, N or F x W out of range */
#define NAZGOLV_REFUSED_PLAN_ENTRY 4        /* plan: a flow breaks its limits */
#define NAZGOLV_REFUSED_PLAN_PAIR 5         /* plan: two flows with the same ends */
#define NAZGOLV_REFUSED_PLAN_SHARES 6       /* plan: the shares add to more than F */
#define NAZGOLV_REFUSED_PLAN_CELLS 7        /* plan: the cells add to more than N */
#define NAZGOLV_REFUSED_FLOW 8              /* the flow is not below n, or a bit of the mask */
#define NAZGOLV_REFUSED_DESTINATION 9       /* request: not the flow's destination */
#define NAZGOLV_REFUSED_DEPARTURE 10        /* request: the departure is no position */
#define NAZGOLV_REFUSED_SHARE 11            /* request: the newest frame's share is booked */
#define NAZGOLV_REFUSED_FULL 12             /* request: no valid position in the newest frame */
#define NAZGOLV_REFUSED_POSITION 13         /* credit: the position is none */
#define NAZGOLV_REFUSED_PASSED 14           /* credit: the position is not to come */
#define NAZGOLV_REFUSED_HOLDING 15          /* credit: 0 is held there or at some later position */
#define NAZGOLV_REFUSED_RECORD 16           /* play: the record makes no call */
#define NAZGOLV_REFUSED_TAKEN 17            /* lend: the slot is booked or marked taken */
#define NAZGOLV_REFUSED_TAKERS 18           /* lend: no flow of the mask can take it */
#define NAZGOLV_REFUSED_ROOM 19             /* play: no eight bytes for each record */
#define NAZGOLV_REFUSED_NOT_COME 20         /* request: no position after the departure */
#define NAZGOLV_REFUSED_SHORT 21            /* the buffer is shorter than the image */
#define NAZGOLV_REFUSED_IMAGE 22            /* the bytes are no image of a link */
#define NAZGOLV_REFUSED_NOT_QUIET 23        /* reset: a later slot is booked, or a cell held */
#define NAZGOLV_REFUSED_NUMBER 24           /* request: not the flow's next quantum number */

/*
 * When a number is given, and what to do: a sentence of docs/REFUSALS.md, whole
 * and never NULL, also for 0 and for a number that is no refusal.
 */
const char *nazgolv_why(uint32_t number);

/* ---- to look into an image
 *
 * Each of these reads one number out of an image and writes nothing. None reads
 * past the length that it is given, whatever the bytes, the flow and the
 * position: where the image has no such number the answer is NAZGOLV_NONE. In a
 * word that is a flow which no plan has, so that a request is refused with 8.
 */
#define NAZGOLV_NONE 0xFFFFFFFFu

/* CP, the current position. */
uint32_t nazgolv_current(const uint8_t *image, size_t image_length);

/* Of the plan: F, W, N and the number of flows. */
uint32_t nazgolv_frame_slots(const uint8_t *image, size_t image_length);
uint32_t nazgolv_window_frames(const uint8_t *image, size_t image_length);
uint32_t nazgolv_buffer_cells(const uint8_t *image, size_t image_length);
uint32_t nazgolv_flows(const uint8_t *image, size_t image_length);

/* Of the plan's entry of a flow. */
uint32_t nazgolv_share(const uint8_t *image, size_t image_length, size_t flow);
uint32_t nazgolv_cells(const uint8_t *image, size_t image_length, size_t flow);
uint32_t nazgolv_source(const uint8_t *image, size_t image_length, size_t flow);
uint32_t nazgolv_destination(const uint8_t *image, size_t image_length, size_t flow);

/* The flow that booked a position, or NAZGOLV_IDLE where nobody did. */
uint32_t nazgolv_owner(const uint8_t *image, size_t image_length, size_t position);

/* How many cells a flow holds at a position. */
uint32_t nazgolv_held(const uint8_t *image, size_t image_length,
                      size_t flow, size_t position);

/*
 * Of a flow: IF, the frame that it books in, from 0 to W - 1; C, what is left of
 * its share there; and the quantum number that its next word has to carry.
 */
uint32_t nazgolv_injection_frame(const uint8_t *image, size_t image_length, size_t flow);
uint32_t nazgolv_remainder(const uint8_t *image, size_t image_length, size_t flow);
uint32_t nazgolv_number(const uint8_t *image, size_t image_length, size_t flow);

/* ---- calls */

/*
 * Makes the image of a link that nothing was done with, from a plan's bytes.
 * 0, or 1 to 7 for the plan, or 21 where the buffer is shorter than the image;
 * a refusal leaves the buffer as it came. Bytes past the image keep their
 * values, in this call and in all others.
 */
uint64_t nazgolv_fresh(const uint8_t *plan, size_t plan_length,
                       uint8_t *image, size_t image_length);

/*
 * The other calls read an image first. 21: the buffer is shorter than the
 * header, or than the total length that it states. 22: anything else is wrong
 * with it. Both leave the buffer as it came, and no other refusal comes before
 * them. An image that fresh made, that calls alone have changed, and that is
 * handed over whole is never refused so.
 *
 * Of the other refusals 11, 12 and 20 change the image: the flow's IF is then the
 * newest frame, and C what is left there. 8 to 10, 13 to 19, 23 and 24 leave it
 * as it was. A single call that is refused with one of these, or with 21 or 22,
 * stores nothing, so that an image in memory that can't be written may be asked;
 * there a call that isn't refused so, and any play, ends by a signal.
 */

/*
 * Whether bytes are an image that the other calls take: 0, 21 or 22. It is the
 * number itself, and no result: hand it to nazgolv_why as it is. The bytes are
 * read alone, and may be where nothing can be written.
 */
uint64_t nazgolv_check(const uint8_t *image, size_t image_length);

/*
 * Asks for a slot. The word with the position that is booked as its departure,
 * or 8 to 12, 20 or 24; 11, 12 and 20 change the image too.
 */
uint64_t nazgolv_request(uint8_t *image, size_t image_length, uint32_t word);

/* A flow's cell falls free from a position on. 0, or 8 or 13 to 15. */
uint64_t nazgolv_credit(uint8_t *image, size_t image_length,
                        size_t flow, size_t position);

/* Goes on by one slot. The flow that booked it, or NAZGOLV_IDLE. */
uint64_t nazgolv_tick(uint8_t *image, size_t image_length);

/*
 * Lends the current slot, which nobody booked, to a flow of the mask that has a
 * cell free; bit i is for flow i. The flow, or 8, 17 or 18. Flows get it in turn:
 * they are looked at from the one behind the flow that was lent to last, going
 * round, and the first that can take it does; from flow 0 on where no slot was
 * lent since fresh, or since a granted reset. A refused lend is no turn.
 */
uint64_t nazgolv_lend(uint8_t *image, size_t image_length, uint16_t mask);

/*
 * To send a tile ahead of its booked slot: in a slot that nobody booked, lend to
 * flows that have a tile which came, and was asked for, in an earlier slot, and
 * waits for a later position; then credit the flow that was answered, dated the
 * position that is booked for the tile, before any other call. That credit is
 * always taken. The tile leaves in the current slot, and when its position comes
 * up there is nothing to send. A tile that comes up on the link before in the
 * current slot, or is asked for in it, is sent in a later one.
 * Owners, and with them the slots that others get, stay as they are. The credit
 * for the tile's cell is another call, when the next board has it free again.
 */

/*
 * Lets every flow start again in the head frame with its whole share, empties
 * all positions, and lets the next lend look from flow 0. CP, what was held
 * before it, and the quantum numbers stay. A current slot that was booked or
 * marked taken is marked until the next tick. 0, or 23 where the link is not quiet: a position later than CP
 * is booked, or some flow holds a cell at CP or at a later position. 23 changes
 * nothing.
 */
uint64_t nazgolv_reset(uint8_t *image, size_t image_length);

/*
 * Many calls by one: records of five bytes, numbers with their low byte first.
 *
 *   1, a word                                  request
 *   2, a flow, a position in two bytes, 0      credit
 *   3, 0, 0, 0, 0                              tick
 *   4, a mask in two bytes, 0, 0               lend
 *   5, 0, 0, 0, 0                              reset
 *
 * The image is read and tested once, and written once. Results and bytes are
 * those of the single calls, one after another: out gets the result of each
 * record, NAZGOLV_RESULT bytes, the low one first, which nazgolv_result reads.
 * A record that makes no call has refusal 16 there: one of another kind, with a
 * filler that isn't 0, or a last one of fewer than five bytes.
 *
 * 0 where all records were played, or 21 or 22, or 19 where out is shorter than
 * NAZGOLV_PLAY_LENGTH(records_length); then nothing is played, and nothing is
 * written. Bytes of out past the results keep their values. The three buffers
 * don't overlap.
 */
#define NAZGOLV_RECORD 5
#define NAZGOLV_RESULT 8
#define NAZGOLV_PLAY_LENGTH(records_length) \
    (NAZGOLV_RESULT * (((size_t)(records_length) + NAZGOLV_RECORD - 1) / NAZGOLV_RECORD))
uint64_t nazgolv_play(uint8_t *image, size_t image_length,
                      const uint8_t *records, size_t records_length,
                      uint8_t *out, size_t out_length);

/* The result of a record, counted from 0 on; 16 as a refusal where out has none. */
uint64_t nazgolv_result(const uint8_t *out, size_t out_length, size_t record);

#ifdef __cplusplus
}
#endif

#endif
