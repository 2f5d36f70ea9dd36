/*
 * A node of the tests, and the calls on it. A call is made once for each place of guarded.h, with guards around each of its runs, and what the header
 * promises of every call is checked each time.
 */
#ifndef NODES_H
#define NODES_H

#include "guarded.h"
#include "papers.h"
#include "ujamniq.h"

/* A node: its table, one record longer than a table may be, its head, and the telegram that it wrote last. */
typedef struct node {
    uj_record table[UJ_MOST_RECORDS + 1];
    size_t count;
    uj_head head;
    uint8_t out[UJ_LONGEST];
    size_t length;
} node;

enum which { OPEN, CLOSE, SEND, RECEIVED, TICK, CALLS };
static const char *const call_names[CALLS] = {"open", "close", "send", "received", "tick"};

/* What a call is asked for beside table and head. A call looks only at what it has. `net` is the text of a close too, `room` the length of the
 * buffer. */
typedef struct asked {
    enum which which;
    uint64_t time;
    size_t place;
    uint32_t sender, destination_sap, source_sap;
    uint32_t random, named, idle_time;
    uint32_t new_setup, reason, command;
    const uint8_t *telegram, *net;
    size_t telegram_length, net_length, room;
} asked;

static room table_room;

/* Field by field, since what stands between the fields is nobody's. */
static int same_record(const uj_record *a, const uj_record *b)
{
    return a->partner == b->partner && a->partner_sap == b->partner_sap && a->local_sap == b->local_sap && a->level == b->level &&
           a->phase == b->phase && a->sending == b->sending && a->expected == b->expected && a->declared == b->declared && a->watched == b->watched &&
           a->sent_at == b->sent_at && a->taken_at == b->taken_at;
}

static int same_answer(uj_answer a, uj_answer b)
{
    return a.number == b.number && a.telegram == b.telegram && a.length == b.length;
}

static int same_happened(uj_happened a, uj_happened b)
{
    return a.event == b.event && a.command == b.command && a.start == b.start && a.count == b.count && a.reason == b.reason && a.last == b.last;
}

static int same_outcome(uj_outcome a, uj_outcome b)
{
    return a.head.own == b.head.own && a.head.latest == b.head.latest && same_answer(a.answer, b.answer) && same_happened(a.happened, b.happened);
}

/* The call of the library, with the runs as they were lent. */
static uj_outcome call_library(uj_record *table, size_t count, uj_head head, asked a, const uint8_t *telegram, const uint8_t *net, uint8_t *out)
{
    switch (a.which) {
    case OPEN:
        return uj_open(table, count, head, a.time, a.place, a.random, a.named, a.idle_time, net, a.net_length, out, a.room);
    case CLOSE:
        return uj_close(table, count, head, a.time, a.place, a.new_setup, a.reason, net, a.net_length, out, a.room);
    case SEND:
        return uj_send(table, count, head, a.time, a.place, a.command, net, a.net_length, out, a.room);
    case RECEIVED:
        return uj_received(table, count, head, a.time, a.sender, a.destination_sap, a.source_sap, a.random, a.named, a.idle_time, telegram,
                           a.telegram_length, net, a.net_length, out, a.room);
    default:
        return uj_tick(table, count, head, a.time, a.place, out, a.room);
    }
}

/* Parts that the event does not name are 0. */
static void check_unused_parts(uj_happened h)
{
    CHECK(h.event <= UJ_EVENT_CLOSED);
    CHECK(h.event == UJ_EVENT_DATA || (h.command == 0 && h.start == 0 && h.count == 0));
    CHECK(h.event == UJ_EVENT_CLOSED || (h.reason == 0 && h.last == 0));
}

/* A call that is refused changes nothing; one that is done sets the head's time, and changes at most one record. */
static void check_promises(const node *before, asked a, const uj_record *after, uj_outcome o)
{
    const int done = o.answer.number == UJ_DONE;
    size_t changed = 0;

    for (size_t i = 0; i < before->count; i++)
        changed += !same_record(&before->table[i], &after[i]);
    CHECK(changed <= (done ? 1u : 0u));
    CHECK(o.head.own == before->head.own && o.head.latest == (done ? a.time : before->head.latest));
    CHECK(done || (o.answer.telegram == UJ_TELEGRAM_NONE && o.happened.event == UJ_EVENT_NOTHING));
    CHECK((o.answer.telegram == UJ_TELEGRAM_NONE) == (o.answer.length == 0));
    check_unused_parts(o.happened);
}

/* Makes the call on the node. The node keeps table, head and telegram, as firmware would. */
static uj_outcome call(node *n, asked a)
{
    const node before = *n;
    uj_outcome first = {{0, 0}, {0, 0, 0}, {0, 0, 0, 0, 0, 0}};

    for (int place = 0; place < PLACES; place++) {
        uint8_t *table = lend(&table_room, place, (const uint8_t *)before.table, before.count * sizeof *before.table);
        const uint8_t *telegram = lend(&first_room, place, a.telegram, a.telegram_length), *net = lend(&second_room, place, a.net, a.net_length);
        uint8_t *out = lend(&out_room, place, blank[place], a.room);
        uj_outcome o = call_library((uj_record *)(void *)table, before.count, before.head, a, telegram, net, out);
        size_t length = o.answer.length <= a.room && o.answer.length <= UJ_LONGEST ? o.answer.length : 0;

        CHECK(untouched(&first_room, 0) && untouched(&second_room, 0));
        CHECK(untouched(&table_room, table_room.length));
        CHECK(untouched(&out_room, length));
        check_promises(&before, a, (const uj_record *)(const void *)table_room.run, o);
        if (place == 0) {
            first = o;
            memcpy(n->table, table_room.run, table_room.length);
            memcpy(n->out, out_room.run, length);
            n->head = o.head;
            n->length = length;
        }
        CHECK(same_outcome(o, first) && memcmp(n->out, out_room.run, length) == 0);
        for (size_t i = 0; i < before.count; i++)
            CHECK(same_record(&n->table[i], (const uj_record *)(const void *)table_room.run + i));
    }
    return first;
}

#endif
