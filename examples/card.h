/*
 * The firmware of a card that has no reference clock, over the local clock of include/ujamniq.h: the part to copy from. It makes the clock at power-on, reads
 * the bytes of each message, looks at every event and answer, and says when the clock is lost. Clause numbers are those of SUBSET-056.
 *
 * What a board has to give stands at the end.
 */
#ifndef CARD_H
#define CARD_H

#include "ujamniq.h"

/* All that a card keeps: its clock, and whether it has lost it. */
typedef struct card {
    uj_clock clock;
    int lost;
} card;

/* At power-on, and at no other time: a clock that is isolated stays so. */
void card_start(card *c);

/* An answer of the card itself, beside the events and the answers of uj_clock_read: the command is another's. */
#define CARD_OTHER_COMMAND 203u

/* A multicast telegram from the reference clock that passed its check and is no copy: its command, its net data, and the card's counter at its reception.
 * Gives back what the message did, or why the bytes are no Sync and Reference Time message; CARD_OTHER_COMMAND where the command is another's. */
uint32_t card_received(card *c, uint32_t command, const uint8_t *net, size_t length, uj_local_time local);

/* The Reference Time of this moment. Ask regularly, also where nobody needs the time: nothing else notices that no message comes. A counter
 * that was read just before the last message was taken is good. Once the clock is lost there is no time any more. */
uj_reference card_time(card *c, uj_local_time local);

/* LostSync: disconnects all logical connections of the node, multicast included (7.4.1.7.4.4). It comes once. */
void board_lost(card *c);

#endif
