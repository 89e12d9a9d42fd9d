/*
 * The player for fixed shows. It reads a file of calls from standard input (a
 * plan, then 5-byte records), keeps the link as one image, and writes one line
 * for the plan and one for each record, a burst having a line for each word:
 *
 *   P 0, P n    the plan is accepted, or refused with n
 *   G p         record 1, a word, low byte first: position p is granted
 *   C           record 2, a flow, a position in two bytes, 0: the credit is taken
 *   T f, T -    record 3, four zeros: the slot that has come up is flow f's, or idle
 *   L f         record 4, a mask in two bytes, 0, 0: the slot is lent to flow f
 *   Z           record 5, four zeros: the link is reset
 *   B r p       record 6, a count c of 0 to 20, three zeros, and then c words: a
 *               burst, played as single requests. 0 and the position granted, or
 *               the refusal and 0; of a burst's words only the first 16 are
 *               asked, and the line of another is B 255 255
 *   R n         the record is refused with n
 *
 * With --ahead it also sends tiles ahead of their booked slots, by a lend and a
 * credit that have no lines: at the end of each slot from slot 1 on that nobody
 * booked and that is not lent, one of a flow whose first tile that waits came, and
 * was asked for, in an earlier slot. It knows a tile by the word that asked for it:
 * it comes in the slot of the word's departure. With --ahead FILE it writes to FILE which
 * flow left in each slot, from slot 1 on, or - where none did: what
 * ./check-log --ahead reads.
 *
 * Exit status: 0 the listing and the list are whole; 1 one of them is not, and a
 * sentence says which; 2 wrong arguments.
 */
#include <stdio.h>
#include <string.h>

#include "nazgolv.h"

#define RECORD 5            /* bytes of a record */
#define NO_CALL 16          /* the refusal of a record that makes no call */
#define WORDS 20            /* the most words of a burst */
#define HANDLED 16          /* those of them that are asked */

#define POSITIONS 256       /* the most positions of a window */
#define NOBODY 16           /* no flow */

static uint8_t image[NAZGOLV_IMAGE_MAX];

/*
 * The board's tiles, for --ahead: of each position the flow whose tile waits for
 * it, or nobody, and the slot in which that tile comes. Slots are counted from 0 on.
 */
static struct {
    int wanted;                         /* whether tiles are sent ahead */
    FILE *list;                         /* of what left, or NULL */
    const char *name;                   /* of the list */
    unsigned slots, positions, flows;   /* of the plan: F, F x W, n */
    unsigned long now;                  /* the current slot */
    unsigned left;                      /* the flow that leaves in it, or nobody */
    unsigned waits[POSITIONS];
    unsigned long comes[POSITIONS];
} board;

static unsigned two_bytes(const uint8_t *at)
{
    return at[0] + 256u * at[1];
}

static uint32_t word_at(const uint8_t *at)
{
    return two_bytes(at) + ((uint32_t)two_bytes(at + 2) << 16);
}

/* A line: a letter and a number. */
static void say(char letter, unsigned number)
{
    printf("%c %u\n", letter, number);
}

/* Where a call was refused, its line; whether it was. */
static int refused(uint64_t result)
{
    if (NAZGOLV_REFUSAL(result) == 0)
        return 0;
    say('R', NAZGOLV_REFUSAL(result));
    return 1;
}

/* ---- sending ahead */

/* The slot in which a word's tile is due: now, if its departure is in this frame and not after now. */
static unsigned long comes_in(uint32_t word)
{
    unsigned departure = NAZGOLV_POSITION(word);
    unsigned current = (unsigned)(board.now % board.positions);
    if (departure / board.slots == current / board.slots && departure <= current)
        return board.now;
    return board.now + (departure + board.positions - current) % board.positions;
}

/* A tile waits for the position that its word was granted. */
static void note_grant(uint32_t word, unsigned position)
{
    board.waits[position] = word >> 20 & 63;
    board.comes[position] = comes_in(word);
}

/* The position of a flow's first tile that waits, if that is due before this slot; else a number past all. */
static unsigned first_ready(unsigned flow)
{
    unsigned step;
    for (step = 1; step < board.positions; step++) {
        unsigned position = (unsigned)((board.now + step) % board.positions);
        if (board.waits[position] == flow)
            return board.comes[position] < board.now ? position : POSITIONS;
    }
    return POSITIONS;
}

/* At the end of a slot: lends it to the flows that have a tile ready, and credits the one that gets it. */
static void send_ahead(void)
{
    unsigned mask = 0, flow, position;
    uint64_t result;
    for (flow = 0; flow < board.flows; flow++)
        if (first_ready(flow) < POSITIONS)
            mask |= 1u << flow;
    if (mask == 0)
        return;
    result = nazgolv_lend(image, sizeof image, (uint16_t)mask);
    if (NAZGOLV_REFUSAL(result) != 0)
        return;
    flow = NAZGOLV_VALUE(result);
    position = first_ready(flow);
    nazgolv_credit(image, sizeof image, flow, position);
    board.waits[position] = NOBODY;
    board.left = flow;
}

/* What left in the slot that ends; slot 0 has no line. */
static void list_left(void)
{
    if (board.list == NULL || board.now == 0)
        return;
    if (board.left == NOBODY)
        fputs("-\n", board.list);
    else
        fprintf(board.list, "%u\n", board.left);
}

static void end_slot(void)
{
    if (board.wanted && board.now > 0)
        send_ahead();
    list_left();
}

/* The next slot, with the flow that booked it: its tile leaves, if it still waits. */
static void begin_slot(unsigned owner)
{
    unsigned position = (unsigned)(++board.now % board.positions);
    board.left = board.waits[position] == owner ? owner : NOBODY;
    board.waits[position] = NOBODY;
}

/* ---- calls */

static void request(uint32_t word)
{
    uint64_t result = nazgolv_request(image, sizeof image, word);
    if (refused(result))
        return;
    note_grant(word, NAZGOLV_POSITION(NAZGOLV_VALUE(result)));
    say('G', NAZGOLV_POSITION(NAZGOLV_VALUE(result)));
}

static void credit(unsigned flow, unsigned position)
{
    if (!refused(nazgolv_credit(image, sizeof image, flow, position)))
        puts("C");
}

static void tick(void)
{
    uint64_t result;
    end_slot();
    result = nazgolv_tick(image, sizeof image);
    if (refused(result))
        return;
    begin_slot(NAZGOLV_VALUE(result));
    if (NAZGOLV_VALUE(result) == NAZGOLV_IDLE)
        puts("T -");
    else
        say('T', NAZGOLV_VALUE(result));
}

static void lend(unsigned mask)
{
    uint64_t result = nazgolv_lend(image, sizeof image, (uint16_t)mask);
    if (refused(result))
        return;
    board.left = NAZGOLV_VALUE(result);
    say('L', NAZGOLV_VALUE(result));
}

static void reset(void)
{
    if (!refused(nazgolv_reset(image, sizeof image)))
        puts("Z");
}

/* A word of a burst, as a single request. */
static void ask(uint32_t word)
{
    uint64_t result = nazgolv_request(image, sizeof image, word);
    unsigned refusal = NAZGOLV_REFUSAL(result);
    unsigned position = refusal == 0 ? NAZGOLV_POSITION(NAZGOLV_VALUE(result)) : 0;
    if (refusal == 0)
        note_grant(word, position);
    printf("B %u %u\n", refusal, position);
}

/* A burst, whose words are read first; where they are cut off, one line stands for all the rest. */
static void burst(size_t count)
{
    uint8_t words[4 * WORDS];
    size_t i;
    if (fread(words, 1, 4 * count, stdin) != 4 * count) {
        say('R', NO_CALL);
        return;
    }
    for (i = 0; i < count && i < HANDLED; i++)
        ask(word_at(words + 4 * i));
    for (; i < count; i++)
        puts("B 255 255");
}

/* Plays one record; one with an unknown kind or a filler makes no call. */
static void play(const uint8_t *record)
{
    const uint8_t *at = record + 1;
    if (record[0] == 1)
        request(word_at(at));
    else if (record[0] == 2 && at[3] == 0)
        credit(at[0], two_bytes(at + 1));
    else if (record[0] == 3 && word_at(at) == 0)
        tick();
    else if (record[0] == 4 && two_bytes(at + 2) == 0)
        lend(two_bytes(at));
    else if (record[0] == 5 && word_at(at) == 0)
        reset();
    else if (record[0] == 6 && at[0] <= WORDS && at[1] == 0 && two_bytes(at + 2) == 0)
        burst(at[0]);
    else
        say('R', NO_CALL);
}

/* The board of an accepted plan: no tile waits. */
static void begin_board(const uint8_t *plan)
{
    unsigned position;
    board.flows = two_bytes(plan + 2);
    board.slots = two_bytes(plan + 6);
    board.positions = board.slots * two_bytes(plan + 8);
    board.left = NOBODY;
    for (position = 0; position < POSITIONS; position++)
        board.waits[position] = NOBODY;
}

/* Reads the plan, makes the link and writes the plan's line, but for a plan that can't be read; whether it is accepted. */
static int begin(void)
{
    uint8_t plan[NAZGOLV_PLAN_MAX];
    unsigned refusal = NAZGOLV_REFUSED_PLAN_LENGTH;
    if (fread(plan, 1, 2, stdin) == 2) {
        size_t length = two_bytes(plan);
        if (length >= 12 && length <= sizeof plan
            && fread(plan + 2, 1, length - 2, stdin) == length - 2)
            refusal = NAZGOLV_REFUSAL(nazgolv_fresh(plan, length, image, sizeof image));
    }
    if (ferror(stdin))
        return 0;
    say('P', refusal);
    if (refusal == 0)
        begin_board(plan);
    return refusal == 0;
}

/* Takes the words of the command line; whether they are right, and else why they are not. */
static int begin_words(int argc, char **argv)
{
    if (argc > 3 || (argc > 1 && strcmp(argv[1], "--ahead") != 0)) {
        fprintf(stderr, "%s: a file of calls is read from standard input; there are no arguments "
                "but --ahead, and after it a file for the list of what left\n", argv[0]);
        return 0;
    }
    board.wanted = argc > 1;
    if (argc < 3)
        return 1;
    board.name = argv[2];
    board.list = fopen(board.name, "w");
    if (board.list == NULL)
        fprintf(stderr, "%s: '%s' can't be written\n", argv[0], board.name);
    return board.list != NULL;
}

/* Whether all was read and written; else which of the two is not whole. */
static int whole(const char *player)
{
    int played = !ferror(stdin) && fflush(stdout) == 0 && !ferror(stdout);
    int listed = board.list == NULL || (!ferror(board.list) && fclose(board.list) == 0);
    if (!played)
        fprintf(stderr, "%s: the listing is not whole: input or output failed\n", player);
    if (!listed)
        fprintf(stderr, "%s: '%s', the list of what left, is not whole: it took no more\n", player, board.name);
    return played && listed;
}

int main(int argc, char **argv)
{
    uint8_t record[RECORD];
    size_t got;
    if (!begin_words(argc, argv))
        return 2;
    if (begin()) {
        while ((got = fread(record, 1, RECORD, stdin)) == RECORD)
            play(record);
        if (got > 0 && !ferror(stdin))
            say('R', NO_CALL);
        list_left();
    }
    return whole(argv[0]) ? 0 : 1;
}
