/*
 * The firmware of one node over include/ujamniq.h: the part to copy from. It stores the head, looks at every answer, sends what was written, tells
 * the layer above what happened, ticks every record, and ends a connection at the second incorrect telegram.
 *
 * What a board has to give stands at the end: a random number, the bus driver and the layer above.
 */
#ifndef NODE_H
#define NODE_H

#include "ujamniq.h"

/* The connections of a node are known when the firmware is built: a table of fixed length, and no heap. */
enum { MOST_CONNECTIONS = 4 };

/* The idle time that we declare, and how often we tick: well within half of it. We name the idle time, so that no default decides it. */
enum { IDLE_TIME = 500, TICK_TIME = 50 };

/* Within how many milliseconds a second incorrect telegram ends a connection (11.3.5.1.2, 11.4.5.1.2). */
enum { PERIOD_AT_4 = 25000, PERIOD_AT_2 = 64000 };

/* All that a node keeps: its head, its table, for each record the time of the latest incorrect telegram, if there was one, and one buffer for the
 * telegram that a call writes. */
typedef struct node {
    uj_head head;
    uj_record table[MOST_CONNECTIONS];
    int incorrect[MOST_CONNECTIONS];
    uint64_t incorrect_at[MOST_CONNECTIONS];
    size_t count;
    uint8_t out[UJ_LONGEST];
} node;

/* The way of a telegram, seen from this node. */
typedef struct route {
    uint32_t partner, partner_sap, local_sap;
} route;

/* A received frame as the bus driver has it. */
typedef struct frame {
    uint32_t sender, destination_sap, source_sap;
    const uint8_t *telegram;
    size_t length;
} frame;

/* A node without connections, and one more connection for it; its place in the table comes back. */
void node_start(node *n, uint32_t own);
size_t node_add(node *n, uint32_t partner, uint32_t partner_sap, uint32_t local_sap, uint32_t level);

/* The place of the record on a route; one past the table where there is none. */
size_t node_place(const node *n, route r);

/* The five calls. Each gives back its answer: UJ_DONE, or why it was refused; look at it. `new_setup` is UJ_FINAL or UJ_NEW_SETUP. At the second
 * incorrect telegram node_received makes the final closing too, and the answer is that one's. node_tick ticks every record, and answers for the first
 * that was refused. */
uint32_t node_open(node *n, uint64_t time, size_t place);
uint32_t node_close(node *n, uint64_t time, size_t place, uint32_t new_setup, uint32_t reason, const char *text);
uint32_t node_send(node *n, uint64_t time, size_t place, uint32_t command, const uint8_t *net, size_t length);
uint32_t node_received(node *n, uint64_t time, frame f);
uint32_t node_tick(node *n, uint64_t time);

/* A new random number for each call, from a generator that doesn't begin alike at every start of the card. */
uint32_t board_random(const node *n);

/* Hands a telegram to the bus driver. The next call writes over it, so the driver sends or copies it before it returns. */
void board_send(const node *n, route r, const uint8_t *telegram, size_t length);

/* Tells the layer above. With UJ_EVENT_DATA, `net` are the `h.count` bytes of net data, inside the telegram received: use or copy them before it
 * returns. It may make a call in turn. */
void board_happened(node *n, route r, uj_happened h, const uint8_t *net);

/* For whoever looks on: the call's name and its whole outcome, whatever it was. */
void board_watched(const node *n, route r, const char *call, uj_outcome o);

#endif
