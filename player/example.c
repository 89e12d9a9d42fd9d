/* README's plan and its seven calls, on an image. It prints what each is answered. */
#include <stdio.h>

#include "nazgolv.h"

/* F = 4, W = 2, N = 4; two flows to node 9, with share 2 and 2 cells each */
static const uint8_t plan[] = {
    20, 0, 2, 0, 12, 0, 4, 0, 2, 0, 4, 0,  2, 2, 1, 9,  2, 2, 2, 9};
static uint8_t image[NAZGOLV_IMAGE_MAX];

/* Where a call was refused, says why; whether it was. */
static int refused(uint64_t result)
{
    unsigned number = NAZGOLV_REFUSAL(result);
    if (number)
        printf("refused with %u: %s\n", number, nazgolv_why(number));
    return number != 0;
}

/* A flow asks for a slot for a tile that has come: its departure is CP. */
static void request(unsigned flow)
{
    unsigned number = nazgolv_number(image, sizeof image, flow);
    uint64_t result = nazgolv_request(image, sizeof image, NAZGOLV_WORD(
        nazgolv_destination(image, sizeof image, flow), flow, number,
        NAZGOLV_CURRENT(image)));
    if (!refused(result))
        printf("flow %u, number %u: position %u\n", flow, number,
               (unsigned)NAZGOLV_POSITION(NAZGOLV_VALUE(result)));
}

static void credit(unsigned flow, unsigned position)
{
    if (!refused(nazgolv_credit(image, sizeof image, flow, position)))
        printf("flow %u: a cell is free from position %u on\n", flow, position);
}

static void tick(void)
{
    uint64_t result = nazgolv_tick(image, sizeof image);
    unsigned flow = NAZGOLV_VALUE(result);
    if (refused(result))
        return;
    if (flow == NAZGOLV_IDLE)
        printf("position %u: nobody's\n", (unsigned)NAZGOLV_CURRENT(image));
    else
        printf("position %u: flow %u's\n", (unsigned)NAZGOLV_CURRENT(image), flow);
}

int main(void)
{
    if (refused(nazgolv_fresh(plan, sizeof plan, image, sizeof image)))
        return 1;
    request(0);
    request(0);
    request(0);
    credit(0, 4);
    request(0);
    request(1);
    tick();
    return 0;
}
