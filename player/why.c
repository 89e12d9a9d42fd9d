/* The sentences of the refusals. It is made from docs/REFUSALS.md: `python3 player/why.py` prints it. */
#include "nazgolv.h"

static const char *const sentences[] = {
    "it is no refusal: the call is granted",
    /* 1 */
    "the plan has fewer than 12 bytes or another length than it states; at the start of a call file, also"
    " where that is not 12 to 76; what to do: write the plan again",
    /* 2 */
    "n is not 1 to 16, the offset is not 12, or the length is not 12 + 4n; what to do: ask for 1 to 16 "
    "flows; mend the header of a file",
    /* 3 */
    "F is not 1 to 64, W not 2 to 8, N not 1 to 4,095, or the window has more than 256 positions; what to"
    " do: choose F, W and N from these ranges, and a smaller frame or window where there are too many "
    "positions",
    /* 4 */
    "an entry's share is not 1 to F, its cells are 0 or above 255, a node is above 63, or its nodes are "
    "the same; what to do: mend that flow",
    /* 5 */
    "two flows have the same source and the same destination; what to do: make them one flow",
    /* 6 */
    "the shares add to more than F; what to do: lower a share",
    /* 7 */
    "the cells add to more than N; what to do: lower a flow's cells",
    /* 8 */
    "the word's or the credit's flow is not below n; what to do: look at the sender's flow number; or the"
    " lend's mask has a bit for a flow that is not below n; what to do: look at the sender's mask",
    /* 9 */
    "the word's destination is not the flow's; what to do: look at the sender's routing",
    /* 10 */
    "the word's departure is not a position of the window; what to do: give both boards the same plan",
    /* 11 */
    "the flow has booked its share of the newest frame; what to do: ask again in the next frame",
    /* 12 */
    "the flow has share left in the newest frame, but no position that would be valid, whatever the "
    "word's departure: its cells are all held, or the slots are booked; what to do: wait for credits or "
    "the next frame",
    /* 13 */
    "the credit's position is not in the window; what to do: give both boards the same plan",
    /* 14 */
    "the credit's position lies in the head frame and not after the current one; what to do: date it with"
    " a position to come",
    /* 15 */
    "the flow holds nothing at the credit's position, or at some later one; what to do: send one credit "
    "for each cell that falls free, and none twice",
    /* 16 */
    "the record's kind is unknown, a filler is not 0, or fewer than five bytes are left; of a burst, more"
    " than 20 words, or fewer bytes left than its words have; what to do: look at the writer of the call "
    "file",
    /* 17 */
    "the slot that is to be lent is booked, lent already, or was booked when the link was reset in it; "
    "what to do: lend again in the next slot",
    /* 18 */
    "no flow of the lend's mask can take the slot: each holds all of its cells at the current or a later "
    "position, or the mask is empty; what to do: wait for credits",
    /* 19 */
    "the buffer that is to take the plan is shorter than the plan, which has 12 + 4n bytes; of "
    "nazgolv_play, the buffer for its numbers has fewer than eight bytes for each record; what to do: "
    "lend a buffer of 76 bytes, which takes any plan; for a play, eight bytes for each record",
    /* 20 */
    "the tile is still to come: the word's departure is later than the current position, and the newest "
    "frame has positions that would be valid, but none of them later than it; what to do: ask again in "
    "the next frame; for a tile that has come name the current position, since the position of a slot of "
    "an earlier frame is read as one to come",
    /* 21 */
    "the buffer is shorter than an image's header of 18 bytes, or than the total length that the header "
    "states; for nazgolv_fresh, than the image that is to be written; what to do: hand over the whole "
    "buffer: NAZGOLV_IMAGE_MAX bytes are enough for every plan",
    /* 22 */
    "the buffer is long enough, but its bytes are no image: the header or the plan is wrong, or some "
    "number breaks a condition of rule 12.3; what to do: start from nazgolv_fresh, and pass the image on "
    "unaltered",
    /* 23 */
    "the link is not quiet: a later position is booked, or some flow holds a cell at the current position"
    " or at a later one; a slot that was just lent is held until the next tick at least, and until its "
    "credit; what to do: reset again when the slots have come up and the cells are back",
    /* 24 */
    "the word's quantum number is not the one that is expected of its flow: the words that it was granted"
    " so far, in requests and bursts, modulo 1,024; what to do: go on by one after a grant, and send the "
    "same number again after a refusal; lends and resets leave it",
    /* 25 */
    "on some link of the mesh the streams' shares add to more than F, or there are more than 64 streams; "
    "what to do: lower a share or send a stream from another board, mesh-over names the links; ask for at"
    " most 64 streams",
    /* 26 */
    "the frame whose share lists are to be counted has not 1 to 16 slots, or its flows are not 1 to 8; "
    "what to do: ask with F from 1 to 16 and n from 1 to 8",
    /* 27 */
    "of a choice of layers, the budget is 0, there are more than 12 layers or more than 64 slots left, or"
    " some layer has a share that is not 1 to 64 or a worth above 1,000; what to do: mend that number; a "
    "layer that takes more than the slots left is no fault",
    /* 28 */
    "a showing's start is not before its end, or it lies outside the week, which has the minutes 0 to "
    "10,079 and ends at 10,080; or the programme has more than 64 entries; or the minute that is asked "
    "about is not 0 to 10,079; what to do: mend that entry, or the minute; a showing over the end of the "
    "week is two entries",
    /* 29 */
    "two entries of the programme share a minute, whichever minute is asked about; what to do: let a "
    "showing end where the next one starts, or before",
};

const char *nazgolv_why(uint32_t number)
{
    return number < sizeof sentences / sizeof *sentences
        ? sentences[number] : "there is no such refusal";
}
