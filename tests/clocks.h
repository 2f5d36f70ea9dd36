/*
 * The clocks of the tests: the functions on a clock, a bus that brings it messages, and clocks in the states that the tests begin with. A function is called
 * once for each place of guarded.h, with guards around what it was lent, and what the header promises of every call is checked each time. Clause numbers are
 * those of SUBSET-056.
 */
#ifndef CLOCKS_H
#define CLOCKS_H

#include "guarded.h"
#include "ujamniq.h"

static room clock_room;

static uj_local_time local_time(uint32_t ms)
{
    const uj_local_time t = {ms};
    return t;
}

/* Byte for byte: nothing stands between the fields of a clock. */
static int same_clock(const uj_clock *a, const uj_clock *b)
{
    return memcmp(a, b, sizeof *a) == 0;
}

/* What the functions take, lent at a place. */
static uj_clock *lend_clock(int place, const uj_clock *c)
{
    return (uj_clock *)(void *)lend(&clock_room, place, (const uint8_t *)c, sizeof *c);
}

static uj_clock new_clock(void)
{
    uj_clock first;

    for (int place = 0; place < PLACES; place++) {
        uj_clock *c = (uj_clock *)(void *)lend(&clock_room, place, blank[place], sizeof first);
        *c = uj_clock_new();
        CHECK(untouched(&clock_room, sizeof first));
        first = place == 0 ? *c : first;
        CHECK(same_clock(c, &first));
    }
    return first;
}

/* What the bytes are read as. The fields of what is no message are 0. */
static uj_reading read_bytes(const uint8_t *bytes, size_t length)
{
    uj_reading first = {0, {0, {0}}};

    for (int place = 0; place < PLACES; place++) {
        const uj_reading r = uj_clock_read(lend(&first_room, place, bytes, length), length);
        CHECK(untouched(&first_room, 0));
        CHECK(r.answer == UJ_DONE || (r.message.number == 0 && r.message.reference.ms == 0));
        first = place == 0 ? r : first;
        CHECK(r.answer == first.answer && r.message.number == first.message.number && r.message.reference.ms == first.message.reference.ms);
    }
    return first;
}

/* Each state has its answers, and each answer leads to one state (7.4.1.7.2). */
static void check_state(uint32_t before, uint32_t after, uint32_t answer)
{
    switch (before) {
    case UJ_CLOCK_UNSYNCHRONISED:
        CHECK(answer <= UJ_CLOCK_NOW_SYNCHRONISED || answer == UJ_CLOCK_NOT_ABOVE || answer == UJ_CLOCK_REFERENCE_NOT_LATER ||
              answer == UJ_CLOCK_LOCAL_NOT_LATER);
        CHECK(after == (answer == UJ_CLOCK_NOW_SYNCHRONISED ? UJ_CLOCK_SYNCHRONISED : UJ_CLOCK_UNSYNCHRONISED));
        break;
    case UJ_CLOCK_SYNCHRONISED:
        CHECK(answer == UJ_CLOCK_KEPT || answer == UJ_CLOCK_RESYNCHRONISED || answer == UJ_CLOCK_DROPPED ||
              (answer >= UJ_CLOCK_NO_FACTOR && answer <= UJ_CLOCK_LONG_TERM));
        CHECK(after == (answer >= UJ_CLOCK_FAILED ? UJ_CLOCK_ISOLATED : UJ_CLOCK_SYNCHRONISED));
        break;
    default:
        CHECK(answer == UJ_CLOCK_STAYS_ISOLATED && after == before);
    }
}

/* A new pair stands in front of the others and is counted; after a failed test none counts; else the pairs are as they were. */
static void check_pairs(const uj_clock *before, uj_sync_message m, const uj_clock *after, uint32_t answer)
{
    if (answer >= UJ_CLOCK_FAILED) {
        CHECK(after->count == 0);
        return;
    }
    if (answer != UJ_CLOCK_PAIRED && answer != UJ_CLOCK_NOW_SYNCHRONISED && answer != UJ_CLOCK_RESYNCHRONISED) {
        CHECK(after->count == before->count && memcmp(after->pairs, before->pairs, sizeof after->pairs) == 0);
        return;
    }
    CHECK(after->count == (before->count < UJ_CLOCK_PAIRS ? before->count + 1 : UJ_CLOCK_PAIRS));
    CHECK(after->pairs[0].reference.ms == m.reference.ms && after->pairs[0].local.ms == before->last.local.ms);
    CHECK(memcmp(after->pairs + 1, before->pairs, (UJ_CLOCK_PAIRS - 1) * sizeof *after->pairs) == 0);
}

/* The moment of the last resynchronisation, and the period: it goes on with one message more, or the next one begins where it ended. */
static void check_moments(const uj_clock *before, uj_local_time local, const uj_clock *after, uint32_t answer)
{
    const int now = answer == UJ_CLOCK_NOW_SYNCHRONISED || answer == UJ_CLOCK_RESYNCHRONISED;
    const int over = local.ms - before->period.begun.ms >= 30000;

    CHECK(after->resynchronised.ms == (now ? local.ms : before->resynchronised.ms));
    if (answer == UJ_CLOCK_NOW_SYNCHRONISED) {
        CHECK(after->period.begun.ms == local.ms && after->period.messages == 1);
    } else if (after->state == UJ_CLOCK_SYNCHRONISED) {
        CHECK(after->period.begun.ms == before->period.begun.ms + (over ? 30000 : 0));
        CHECK(over || after->period.factor == before->period.factor);
        CHECK(after->period.messages == (over ? 1 : before->period.messages + (before->period.messages < UINT32_MAX)));
    }
}

/* What the header promises of every message. */
static void check_message(const uj_clock *before, uj_sync_message m, uj_local_time local, const uj_clock *after, uint32_t answer)
{
    check_state(before->state, after->state, answer);
    check_pairs(before, m, after, answer);
    if (answer == UJ_CLOCK_DROPPED || answer == UJ_CLOCK_STAYS_ISOLATED) {
        CHECK(same_clock(before, after));
    } else if (answer == UJ_CLOCK_NOT_ABOVE) {
        CHECK(after->last.received == 0);
    } else if (after->state != UJ_CLOCK_ISOLATED) {
        CHECK(after->last.received == 1 && after->last.number == m.number && after->last.local.ms == local.ms);
        check_moments(before, local, after, answer);
    }
}

/* A message, for the clock where it stands. */
static uint32_t heard(uj_clock *c, uj_sync_message m, uj_local_time local)
{
    const uj_clock before = *c;
    uint32_t first = 0;

    for (int place = 0; place < PLACES; place++) {
        uj_clock *lent = lend_clock(place, &before);
        const uint32_t answer = uj_clock_message(lent, m, local);
        CHECK(untouched(&clock_room, sizeof before));
        check_message(&before, m, local, lent, answer);
        if (place == 0) {
            first = answer;
            *c = *lent;
        }
        CHECK(answer == first && same_clock(lent, c));
    }
    return first;
}

/* The factor and the Reference Time are told at the moment or are not, both alike, and nothing of the clock changes. */
static void check_told(const uj_clock *c, uint32_t local, uint32_t answer, uint32_t factor, uint32_t time)
{
    for (int place = 0; place < PLACES; place++) {
        const uj_clock *lent = lend_clock(place, c);
        const uj_factor f = uj_clock_factor(lent, local_time(local));
        const uj_reference r = uj_clock_reference_time(lent, local_time(local));
        CHECK(untouched(&clock_room, 0));
        CHECK(f.answer == answer && f.factor == factor);
        CHECK(r.answer == answer && r.time.ms == time);
    }
}

/* 7.4.5.1: Reference Time is the local time and the factor. */
static void check_factor(const uj_clock *c, uint32_t local, uint32_t factor)
{
    check_told(c, local, UJ_DONE, factor, local + factor);
}

static void check_nothing_told(const uj_clock *c, uint32_t local)
{
    check_told(c, local, UJ_TOO_FEW_PAIRS, 0, 0);
}

/* A reference clock and a card on one bus: the card's clock, the number of the message that is sent next and the Reference Time that it carries, and the
 * moment that it is now, in both times. */
typedef struct bus {
    uj_clock clock;
    uint32_t number, carried;
    uint32_t reference, local;
} bus;

/* Where both times stand at the first message. */
typedef struct start {
    uint32_t reference, local;
} start;

static bus new_bus(uint32_t number, start s)
{
    const bus b = {new_clock(), number, 0, s.reference, s.local};
    return b;
}

/* Time passes, in milliseconds of each clock. */
static void pass(bus *b, uint32_t reference, uint32_t local)
{
    b->reference += reference;
    b->local += local;
}

/* A message is on the bus. The next one has the number behind it (6.3.1.3), and carries the Reference Time of this moment (6.3.1.7). */
static void sent(bus *b)
{
    b->number++;
    b->carried = b->reference;
}

/* A message is on the bus now, and the card hears it. */
static uint32_t hear(bus *b)
{
    const uj_sync_message m = {b->number, {b->carried}};
    const uint32_t answer = heard(&b->clock, m, local_time(b->local));

    sent(b);
    return answer;
}

/* A message is on the bus so many milliseconds later, and is heard, or lost. */
static uint32_t hear_after(bus *b, uint32_t ms)
{
    pass(b, ms, ms);
    return hear(b);
}

static void lose_after(bus *b, uint32_t ms)
{
    pass(b, ms, ms);
    sent(b);
}

/* Where both times stand at the first message: anywhere; so that the local time, the Reference Time or both go around 2^32 a second after the clock is
 * synchronised; and so that their difference lies on either side of 2^31. */
static const start starts[] = {{50000, 1000}, {70000, 0u - 9000}, {0u - 9000, 70000}, {0u - 9000, 0u - 9000}, {0x7FFFFFFF, 0}, {5000, 0x80000000}};
enum { STARTS = sizeof starts / sizeof *starts };

/* The number of the first message on the busses of the tests. */
enum { FIRST = 100 };

/* What Reference Time is ahead of local time. */
static uint32_t ahead(start s)
{
    return s.reference - s.local;
}

/* A clock that has heard messages FIRST to FIRST + 15, which are 500 ms apart: 15 pairs. */
static bus nearly_synchronised(start s)
{
    bus b = new_bus(FIRST, s);

    CHECK(hear(&b) == UJ_CLOCK_KEPT);
    for (uint32_t i = 1; i < 16; i++)
        CHECK(hear_after(&b, 500) == UJ_CLOCK_PAIRED);
    return b;
}

/* With one message more it is synchronised, 8,000 ms after the first. */
static bus synchronised(start s)
{
    bus b = nearly_synchronised(s);

    CHECK(hear_after(&b, 500) == UJ_CLOCK_NOW_SYNCHRONISED);
    return b;
}

/* So many messages, so many milliseconds apart, all of which resynchronise the clock. */
static void keeps(bus *b, uint32_t count, uint32_t ms)
{
    for (uint32_t i = 0; i < count; i++)
        CHECK(hear_after(b, ms) == UJ_CLOCK_RESYNCHRONISED);
}

/* The message that was on the bus last comes once more, and is dropped. */
static void drops(const bus *b)
{
    bus again = *b;

    again.number--;
    CHECK(hear(&again) == UJ_CLOCK_DROPPED && same_clock(&again.clock, &b->clock));
}

/* The message that is on the bus now has that answer. Where a test fails no pair counts, and no time is told. The bus is a copy, so that another message can
 * be tried in its place. */
static void answers(bus b, uint32_t answer)
{
    CHECK(hear(&b) == answer);
    if (answer < UJ_CLOCK_FAILED)
        return;
    CHECK(b.clock.count == 0 && b.clock.state != UJ_CLOCK_SYNCHRONISED);
    check_nothing_told(&b.clock, b.local);
}

/* A synchronised clock, laid by hand. Its pairs are 500 ms apart and make the factor; message 40 resynchronised it at 100,500 and is the thirtieth of the
 * period that began at 71,000. */
static uj_clock laid(uint32_t factor)
{
    uj_clock c;

    memset(&c, 0, sizeof c);
    for (uint32_t i = 0; i < 16; i++) {
        c.pairs[i].local.ms = 100000 - 500 * i;
        c.pairs[i].reference.ms = c.pairs[i].local.ms + factor;
    }
    c.count = 16;
    c.state = UJ_CLOCK_SYNCHRONISED;
    c.last.received = 1;
    c.last.number = 40;
    c.last.local.ms = c.resynchronised.ms = 100500;
    c.period.begun.ms = 71000;
    c.period.factor = factor;
    c.period.messages = 30;
    return c;
}

/* What comes next to it: message 41, at 101,000, which ends the period too. */
static bus laid_bus(uint32_t factor)
{
    const bus b = {laid(factor), 41, 100500 + factor, 101000 + factor, 101000};
    return b;
}

#endif
