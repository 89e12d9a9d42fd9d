/* Tiles asked for as they come, and one that is sent ahead of its slot. */
#include <stdio.h>

#include "nazgolv.h"

/* F = 4, W = 2, N = 4; two flows to node 9, with share 2 and 2 cells each */
static const uint8_t plan[] = {
    20, 0, 2, 0, 12, 0, 4, 0, 2, 0, 4, 0,  2, 2, 1, 9,  2, 2, 2, 9};
static uint8_t image[NAZGOLV_IMAGE_MAX];

/* Flow 0 asks for a tile that has come: its departure is CP. */
static void ask(void)
{
    unsigned number = nazgolv_number(image, sizeof image, 0);
    uint64_t result = nazgolv_request(image, sizeof image, NAZGOLV_WORD(
        9, 0, number, NAZGOLV_CURRENT(image)));
    if (NAZGOLV_REFUSAL(result))
        printf("number %u is refused with %u\n", number, (unsigned)NAZGOLV_REFUSAL(result));
    else
        printf("number %u has position %u\n", number,
               (unsigned)NAZGOLV_POSITION(NAZGOLV_VALUE(result)));
}

static void tick(void)
{
    unsigned flow = NAZGOLV_VALUE(nazgolv_tick(image, sizeof image));
    if (flow == NAZGOLV_IDLE)
        puts("nobody's slot");
    else
        printf("slot of flow %u\n", flow);
}

/* The tile that flow 0 booked a later position for leaves now. */
static void send_ahead(unsigned position)
{
    if (NAZGOLV_REFUSAL(nazgolv_lend(image, sizeof image, 1)))
        return;
    nazgolv_credit(image, sizeof image, 0, position);
    printf("the tile of position %u leaves at %u\n", position, (unsigned)NAZGOLV_CURRENT(image));
}

int main(void)
{
    if (NAZGOLV_REFUSAL(nazgolv_fresh(plan, sizeof plan, image, sizeof image)))
        return 1;
    ask();
    tick();
    ask();
    ask();
    nazgolv_credit(image, sizeof image, 0, 4);
    ask();
    tick();
    nazgolv_credit(image, sizeof image, 0, 3);
    tick();
    send_ahead(4);
    tick();
    return 0;
}
