#include "node.h"
#include <string.h>

void node_start(node *n, uint32_t own)
{
    n->head = uj_new_head(own);
    n->count = 0;
}

size_t node_add(node *n, uint32_t partner, uint32_t partner_sap, uint32_t local_sap, uint32_t level)
{
    /* A full table gives a place past it, which every call refuses. */
    if (n->count == MOST_CONNECTIONS)
        return MOST_CONNECTIONS;
    /* From the configuration, never from an arriving frame: that is what keeps two partners apart. */
    n->table[n->count] = uj_fresh(partner, partner_sap, local_sap, level);
    n->incorrect[n->count] = 0;
    return n->count++;
}

static int on_route(uj_record record, route r)
{
    return record.partner == r.partner && record.partner_sap == r.partner_sap && record.local_sap == r.local_sap;
}

size_t node_place(const node *n, route r)
{
    size_t place = 0;

    while (place < n->count && !on_route(n->table[place], r))
        place++;
    return place;
}

static route route_of(const node *n, size_t place)
{
    route r = {0, 0, 0};

    /* A place past the table has no record to look at; the call has refused it. */
    if (place < n->count) {
        r.partner = n->table[place].partner;
        r.partner_sap = n->table[place].partner_sap;
        r.local_sap = n->table[place].local_sap;
    }
    return r;
}

/* What every call asks for afterwards. `telegram` is the one received, if any. */
static uint32_t finish(node *n, route r, const char *call, uj_outcome o, const uint8_t *telegram)
{
    const uint8_t *net = NULL;

    board_watched(n, r, call, o);
    /* A refused call has changed nothing: there is nothing to store and nothing to send. */
    if (o.answer.number != UJ_DONE)
        return o.answer.number;
    /* The head holds the latest time. With the old one, the timers that this call has set would lie after it, and every later call would be refused
     * with UJ_OUT_OF_RANGE. */
    n->head = o.head;
    /* First the telegram, then the layer above: it may make a call in turn, and that call writes into the same buffer. */
    if (o.answer.telegram != UJ_TELEGRAM_NONE)
        board_send(n, r, n->out, o.answer.length);
    if (o.happened.event == UJ_EVENT_DATA)
        net = telegram + o.happened.start;
    if (o.happened.event != UJ_EVENT_NOTHING)
        board_happened(n, r, o.happened, net);
    return UJ_DONE;
}

uint32_t node_open(node *n, uint64_t time, size_t place)
{
    const uj_outcome o = uj_open(n->table, n->count, n->head, time, place, board_random(n), 1, IDLE_TIME, NULL, 0, n->out, sizeof n->out);

    return finish(n, route_of(n, place), "open", o, NULL);
}

uint32_t node_close(node *n, uint64_t time, size_t place, uint32_t new_setup, uint32_t reason, const char *text)
{
    const uj_outcome o =
        uj_close(n->table, n->count, n->head, time, place, new_setup, reason, (const uint8_t *)text, strlen(text), n->out, sizeof n->out);

    return finish(n, route_of(n, place), "close", o, NULL);
}

uint32_t node_send(node *n, uint64_t time, size_t place, uint32_t command, const uint8_t *net, size_t length)
{
    const uj_outcome o = uj_send(n->table, n->count, n->head, time, place, command, net, length, n->out, sizeof n->out);

    return finish(n, route_of(n, place), "send", o, NULL);
}

/* The caller's duty. The link closes with 06h at each incorrect telegram and keeps no time of it; SUBSET-057 wants the second within a period to end
 * the connection for good (5.2.5.8.4). An open and a final close do that here, and their two telegrams do it at the partner. The answer is UJ_DONE where
 * it is not the second. */
static uint32_t count_incorrect(node *n, uint64_t time, size_t place)
{
    const uint64_t period = n->table[place].level == 4 ? PERIOD_AT_4 : PERIOD_AT_2;
    const int second = n->incorrect[place] && time - n->incorrect_at[place] <= period;
    uint32_t answer = UJ_DONE;

    n->incorrect[place] = 1;
    n->incorrect_at[place] = time;
    if (!second)
        return UJ_DONE;
    /* Only a record that is not closed can be closed; the layer above may have opened it again already. It may also have made a call with a later time
     * meanwhile; the latest time is never refused. */
    if (n->table[place].phase == UJ_CLOSED)
        answer = node_open(n, n->head.latest, place);
    if (answer != UJ_DONE)
        return answer;
    return node_close(n, n->head.latest, place, UJ_FINAL, UJ_REASON_INCORRECT_2ND, "");
}

uint32_t node_received(node *n, uint64_t time, frame f)
{
    /* The table may hold the record anywhere, and an answer goes back the way the telegram came: to its sender, with the SAPs exchanged. */
    const route back = {f.sender, f.source_sap, f.destination_sap};
    const uj_outcome o = uj_received(n->table, n->count, n->head, time, f.sender, f.destination_sap, f.source_sap, board_random(n), 1, IDLE_TIME,
                                     f.telegram, f.length, NULL, 0, n->out, sizeof n->out);
    const uint32_t answer = finish(n, back, "received", o, f.telegram);

    /* Closed with 06h by ourselves: we wrote the disconnect. Where the partner's closed the connection, the incorrect telegram was ours to it. */
    if (o.answer.telegram == UJ_TELEGRAM_DISCONNECT && o.happened.reason == UJ_REASON_INCORRECT_1ST)
        return count_incorrect(n, time, node_place(n, back));
    return answer;
}

uint32_t node_tick(node *n, uint64_t time)
{
    uint32_t first_refusal = UJ_DONE;

    /* Every record, since each has its own waits and its own watch, and one call writes one telegram at most. */
    for (size_t place = 0; place < n->count; place++) {
        uint32_t answer;

        /* Of a finally closed one the answer is known: UJ_ENDED. */
        if (n->table[place].phase == UJ_FINALLY_CLOSED)
            continue;
        answer = finish(n, route_of(n, place), "tick", uj_tick(n->table, n->count, n->head, time, place, n->out, sizeof n->out), NULL);
        if (first_refusal == UJ_DONE)
            first_refusal = answer;
    }
    return first_refusal;
}
