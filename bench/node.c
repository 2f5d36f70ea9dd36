/*
 * Times of the five calls over a table, of 1, 8 and 64 records. It prints figures and tests nothing, but stops where a call does something else than
 * what is to be measured.
 *
 * All records are at level 4, and the call is for the last one. Data have NET bytes, the other telegrams none. The record is put back before each
 * call, which is in the time too. Each call of a round goes with another number: the bits of the check word decide branches, and a processor learns to
 * foresee those of a telegram that comes again and again.
 */
#define _POSIX_C_SOURCE 199309L
#include <stdio.h>
#include <stdlib.h>
#include <string.h>
#include <time.h>

#include "ujamniq.h"

/* The best of ROUNDS rounds of CALLS calls counts: whatever else the machine does makes a round longer, never shorter. */
enum { ROUNDS = 15, CALLS = 1000, NET = 32, LATEST = 1000 };

enum { OWN = 8, PARTNER_SAP = 9, LOCAL_SAP = 5, DATA_COMMAND = 0x09 };

/* What a call is measured on: the table, its last record as it stands before each call but for the number, that number, the data telegram that has it, and a
 * buffer. */
typedef struct bench {
    uj_record table[UJ_MOST_RECORDS];
    size_t count;
    uj_record record;
    uj_head head;
    uint32_t number;
    uint8_t net[NET], out[UJ_LONGEST];
    const uint8_t *telegram;
    size_t length;
} bench;

/* The data telegrams of a round, in the order of its calls. */
static uint8_t telegrams[CALLS][UJ_LONGEST];

/* The number that a call goes with. */
static uint32_t number_at(int call)
{
    return (uint32_t)call * 2654435761u + 12345;
}

/* The address of the partner at a place: no two are alike, and none is ours. */
static uint32_t partner_at(size_t place)
{
    return (uint32_t)place + 20;
}

static uj_record open_record(size_t place)
{
    uj_record r = uj_fresh(partner_at(place), PARTNER_SAP, LOCAL_SAP, 4);

    r.phase = UJ_OPEN;
    r.declared = r.watched = 500;
    r.sent_at = r.taken_at = LATEST;
    return r;
}

/* The data telegrams come from the partner's own end, so that nothing but the calls is needed to make them. */
static void receive_data(bench *b)
{
    uj_record r = uj_fresh(OWN, LOCAL_SAP, PARTNER_SAP, 4);
    uj_head head = uj_new_head(partner_at(b->count - 1));

    r.phase = UJ_OPEN;
    for (int i = 0; i < CALLS; i++) {
        r.sending = number_at(i);
        r.sent_at = 0;
        b->length = uj_send(&r, 1, head, LATEST, 0, DATA_COMMAND, b->net, NET, telegrams[i], UJ_LONGEST).answer.length;
    }
}

static bench new_bench(size_t count)
{
    bench b;

    memset(&b, 0, sizeof b);
    b.count = count;
    b.head = uj_new_head(OWN);
    b.head.latest = LATEST;
    for (size_t i = 0; i < count; i++)
        b.table[i] = open_record(i);
    b.record = open_record(count - 1);
    for (size_t i = 0; i < NET; i++)
        b.net[i] = (uint8_t)(37 * i + 11);
    receive_data(&b);
    return b;
}

static uj_outcome open_call(bench *b)
{
    return uj_open(b->table, b->count, b->head, LATEST, b->count - 1, b->number, 0, 0, NULL, 0, b->out, UJ_LONGEST);
}

static uj_outcome close_call(bench *b)
{
    return uj_close(b->table, b->count, b->head, LATEST, b->count - 1, UJ_NEW_SETUP, 0x20, NULL, 0, b->out, UJ_LONGEST);
}

static uj_outcome send_call(bench *b)
{
    return uj_send(b->table, b->count, b->head, LATEST, b->count - 1, DATA_COMMAND, b->net, NET, b->out, UJ_LONGEST);
}

static uj_outcome received_call(bench *b)
{
    return uj_received(b->table, b->count, b->head, LATEST, partner_at(b->count - 1), LOCAL_SAP, PARTNER_SAP, 0, 0, 0, b->telegram, b->length,
                       NULL, 0, b->out, UJ_LONGEST);
}

static uj_outcome quiet_tick(bench *b)
{
    return uj_tick(b->table, b->count, b->head, LATEST + 249, b->count - 1, b->out, UJ_LONGEST);
}

static uj_outcome idle_tick(bench *b)
{
    return uj_tick(b->table, b->count, b->head, LATEST + 250, b->count - 1, b->out, UJ_LONGEST);
}

/* The calls, and the telegram and event that show that each did its work. */
static const struct {
    const char *name;
    uj_outcome (*call)(bench *);
    uint32_t telegram, event;
} rows[] = {
    {"uj_send", send_call, UJ_TELEGRAM_DATA, UJ_EVENT_NOTHING},
    {"uj_received, data", received_call, UJ_TELEGRAM_NONE, UJ_EVENT_DATA},
    {"uj_tick, nothing due", quiet_tick, UJ_TELEGRAM_NONE, UJ_EVENT_NOTHING},
    {"uj_tick, idle due", idle_tick, UJ_TELEGRAM_IDLE, UJ_EVENT_NOTHING},
    {"uj_open", open_call, UJ_TELEGRAM_REQUEST, UJ_EVENT_NOTHING},
    {"uj_close", close_call, UJ_TELEGRAM_DISCONNECT, UJ_EVENT_CLOSED},
};

static double now(void)
{
    struct timespec t;

    clock_gettime(CLOCK_MONOTONIC, &t);
    return 1e9 * (double)t.tv_sec + (double)t.tv_nsec;
}

/* Stops where the call did something else than what the row says: its time would be that of something else. */
static void expect(size_t row, uj_outcome o)
{
    if (o.answer.number == UJ_DONE && o.answer.telegram == rows[row].telegram && o.happened.event == rows[row].event)
        return;
    printf("bench: %s answered %u, telegram %u, event %u: nothing is measured\n", rows[row].name, (unsigned)o.answer.number,
           (unsigned)o.answer.telegram, (unsigned)o.happened.event);
    exit(1);
}

/* Nanoseconds per call. */
static double measured(size_t row, size_t count)
{
    bench b = new_bench(count);
    uj_record *const record = &b.table[count - 1];
    double best = 0;

    if (rows[row].call == open_call)
        b.record = uj_fresh(partner_at(count - 1), PARTNER_SAP, LOCAL_SAP, 4);
    for (int round = 0; round < ROUNDS; round++) {
        uj_outcome o = {{0, 0}, {0, 0, 0}, {0, 0, 0, 0, 0, 0}};
        const double start = now();
        for (int i = 0; i < CALLS; i++) {
            *record = b.record;
            b.number = number_at(i);
            b.telegram = telegrams[i];
            if (record->phase == UJ_OPEN)
                record->sending = record->expected = b.number;
            o = rows[row].call(&b);
        }
        const double spent = (now() - start) / CALLS;
        best = round == 0 || spent < best ? spent : best;
        expect(row, o);
    }
    return best;
}

int main(void)
{
    static const size_t counts[] = {1, 8, 64};
    double unit = 0;

    printf("%-22s %8s %12s %27s\n", "call", "records", "ns per call", "ratio to uj_send, 1 record");
    for (size_t row = 0; row < sizeof rows / sizeof *rows; row++)
        for (size_t i = 0; i < sizeof counts / sizeof *counts; i++) {
            const double spent = measured(row, counts[i]);
            unit = row == 0 && i == 0 ? spent : unit;
            printf("%-22s %8u %12.0f %27.2f\n", rows[row].name, (unsigned)counts[i], spent, spent / unit);
        }
    return 0;
}
