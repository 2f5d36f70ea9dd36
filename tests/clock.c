/*
 * The local clock of include/ujamniq.h, held to SUBSET-056 version 3.0.0 and to the request for it. Clause numbers are those of SUBSET-056; the limits have
 * their values in SUBSET-059, 4.3.1.2.
 *
 * In this order: the layout, new and zeroed clocks, reading, synchronising, the factor, the tests of a message at both sides of their limits and in their
 * order, the period, isolation, asking, clocks that no message makes.
 */
#define _DEFAULT_SOURCE
#define PROGRAM "clock"
#include "clocks.h"

/* What firmware and library must agree on, byte by byte. */
#define HAS_SIZE(type, size) _Static_assert(sizeof(type) == (size), #type)
HAS_SIZE(uj_local_time, 4);
HAS_SIZE(uj_ref_time, 4);
HAS_SIZE(uj_pair, 8);
HAS_SIZE(uj_sync_message, 8);
HAS_SIZE(uj_clock, 164);
HAS_SIZE(uj_reading, 12);
HAS_SIZE(uj_factor, 8);
HAS_SIZE(uj_reference, 8);
#define LIES(type, field, at) _Static_assert(offsetof(type, field) == (at), #type "." #field)
LIES(uj_pair, reference, 0);
LIES(uj_pair, local, 4);
LIES(uj_sync_message, number, 0);
LIES(uj_sync_message, reference, 4);
LIES(uj_clock, pairs, 0);
LIES(uj_clock, pairs[15], 120);
LIES(uj_clock, count, 128);
LIES(uj_clock, state, 132);
LIES(uj_clock, last.received, 136);
LIES(uj_clock, last.number, 140);
LIES(uj_clock, last.local, 144);
LIES(uj_clock, resynchronised, 148);
LIES(uj_clock, period.begun, 152);
LIES(uj_clock, period.factor, 156);
LIES(uj_clock, period.messages, 160);
LIES(uj_reading, answer, 0);
LIES(uj_reading, message, 4);
LIES(uj_factor, answer, 0);
LIES(uj_factor, factor, 4);
LIES(uj_reference, answer, 0);
LIES(uj_reference, time, 4);

/* Neither time stands in for the other, or for a number. */
#define IS(value, type) _Generic((value), type: 1, default: 0)
_Static_assert(!IS(((uj_pair *)0)->local, uj_ref_time) && !IS(((uj_pair *)0)->reference, uj_local_time), "two types of time");
_Static_assert(!IS(((uj_pair *)0)->local, uint32_t) && !IS(((uj_pair *)0)->reference, uint32_t), "times are no numbers");

/* 7.4.1.1, 7.4.1.7.2: a new clock is unsynchronised, all else is 0, and no time is told. */
static void test_new(void)
{
    static const uint32_t moments[] = {0, 1, 3000, 3001, 0x80000000, UINT32_MAX};
    const uj_clock c = new_clock();
    uj_clock expected;

    case_is("new", 0, 0);
    memset(&expected, 0, sizeof expected);
    expected.state = UJ_CLOCK_UNSYNCHRONISED;
    CHECK(same_clock(&c, &expected));
    for (size_t i = 0; i < sizeof moments / sizeof *moments; i++)
        check_nothing_told(&c, moments[i]);
}

/* A zeroed clock is no new one but isolated: it takes no message, and tells no time. */
static void test_zeroed(void)
{
    bus b = new_bus(0, starts[0]);
    uj_clock zeroed;

    case_is("zeroed", 0, 0);
    memset(&zeroed, 0, sizeof zeroed);
    b.clock = zeroed;
    for (int i = 0; i < 20; i++) {
        CHECK(hear_after(&b, 500) == UJ_CLOCK_STAYS_ISOLATED && same_clock(&b.clock, &zeroed));
        check_nothing_told(&b.clock, b.local);
    }
    check_nothing_told(&b.clock, 0);
}

/* 6.3.1.9, 6.1.1.1: the message with that number and Reference Time, byte by byte. */
static void lay(uint32_t number, uint32_t reference, uint8_t bytes[11])
{
    static const uint8_t prefix[] = {3, 0, 0};

    memcpy(bytes, prefix, sizeof prefix);
    for (int i = 0; i < 4; i++) {
        bytes[3 + i] = (uint8_t)(number >> 8 * i);
        bytes[7 + i] = (uint8_t)(reference >> 8 * i);
    }
}

/* A good message is read as it was laid. */
static void reads(const uint8_t bytes[11], uint32_t number, uint32_t reference)
{
    const uj_reading r = read_bytes(bytes, 11);

    CHECK(r.answer == UJ_DONE && r.message.number == number && r.message.reference.ms == reference);
}

/* 6.3.1.9, 6.1.1.1: number and Reference Time, lowest byte first; every bit of both. */
static void test_read(void)
{
    static const uint8_t by_hand[11] = {3, 0, 0, 0x78, 0x56, 0x34, 0x12, 0xF0, 0xDE, 0xBC, 0x9A};
    static const uint8_t lowest[11] = {3}, greatest[11] = {3, 0, 0, 0xFF, 0xFF, 0xFF, 0xFF, 0xFF, 0xFF, 0xFF, 0xFF};
    uint8_t bytes[11];

    case_is("read", 0, 0);
    reads(by_hand, 0x12345678, 0x9ABCDEF0);
    reads(lowest, 0, 0);
    reads(greatest, UINT32_MAX, UINT32_MAX);
    for (int bit = 0; bit < 32; bit++) {
        case_is("read, bit", (unsigned long)bit, 0);
        lay((uint32_t)1 << bit, 0, bytes);
        reads(bytes, (uint32_t)1 << bit, 0);
        lay(0, (uint32_t)1 << bit, bytes);
        reads(bytes, 0, (uint32_t)1 << bit);
    }
}

/* 6.3.1.9: eleven bytes, whatever they are; lengths too that a narrower type would take for eleven. The length is looked at before the prefix. */
static void test_read_lengths(void)
{
    static const size_t wide[] = {0x100 + 11, 0x10000 + 11};
    static uint8_t bytes[0x10000 + 11];

    for (int good = 0; good < 2; good++) {
        bytes[0] = good ? 3 : 4;
        for (size_t length = 0; length <= 40; length++) {
            case_is("read, length", length, (unsigned long)good);
            CHECK(read_bytes(bytes, length).answer == (length != 11 ? UJ_CLOCK_NOT_ELEVEN : good ? UJ_DONE : UJ_CLOCK_OTHER_PREFIX));
        }
        for (size_t i = 0; i < sizeof wide / sizeof *wide; i++)
            CHECK(read_bytes(bytes, wide[i]).answer == UJ_CLOCK_NOT_ELEVEN);
    }
}

/* 6.3.1.9: the prefix is 3, 0, 0; every other value in each of its places. */
static void test_read_prefixes(void)
{
    uint8_t bytes[11];

    for (size_t at = 0; at < 3; at++)
        for (unsigned value = 0; value < 256; value++) {
            const unsigned good = at == 0 ? 3 : 0;
            case_is("read, prefix", at, value);
            lay(0x12345678, 0x9ABCDEF0, bytes);
            bytes[at] = (uint8_t)value;
            CHECK(read_bytes(bytes, sizeof bytes).answer == (value == good ? UJ_DONE : UJ_CLOCK_OTHER_PREFIX));
        }
}

/* 7.4.2.2: the first message makes no pair, whatever its number; its local time is saved for the next (7.2.1.13). */
static void test_first_message(void)
{
    static const uint32_t numbers[] = {0, 1, FIRST, UINT32_MAX};

    for (size_t i = 0; i < sizeof numbers / sizeof *numbers; i++) {
        bus b = new_bus(numbers[i], starts[0]);
        case_is("first message", numbers[i], 0);
        b.carried = 49500;
        CHECK(hear(&b) == UJ_CLOCK_KEPT && b.clock.count == 0 && b.clock.last.number == numbers[i] && b.clock.last.local.ms == 1000);
    }
}

/* 6.3.1.8: the Reference Time of message 0 is not used, whatever it is. The pair behind it is of its own local time and of what message 1 carries. */
static void test_message_0(void)
{
    bus b = new_bus(0, starts[0]);

    case_is("message 0", 0, 0);
    b.carried = 12345;
    CHECK(hear(&b) == UJ_CLOCK_KEPT && b.clock.count == 0);
    CHECK(hear_after(&b, 500) == UJ_CLOCK_PAIRED && b.clock.count == 1);
    CHECK(b.clock.pairs[0].reference.ms == 50000 && b.clock.pairs[0].local.ms == 1000);
}

/* 6.3.1.5, 6.3.1.8: nor is it used behind message 2^32 - 1. While unsynchronised all is forgotten, and message 1 is the first; while synchronised both are
 * dropped. */
static void test_message_0_behind_the_last(void)
{
    static const uint32_t dropped[] = {UJ_CLOCK_DROPPED, UJ_CLOCK_DROPPED, UJ_CLOCK_DROPPED};
    static const uint32_t forgotten[] = {UJ_CLOCK_NOT_ABOVE, UJ_CLOCK_KEPT, UJ_CLOCK_PAIRED};

    for (uint32_t pairs = 1; pairs <= 16; pairs += 15) {
        bus b = new_bus(UINT32_MAX - pairs, starts[0]);
        hear(&b);
        for (uint32_t i = 0; i < pairs; i++)
            hear_after(&b, 500);
        CHECK(b.clock.last.number == UINT32_MAX && b.clock.count == pairs && b.number == 0);
        for (uint32_t n = 0; n < 3; n++) {
            case_is("message 0 behind the last", pairs, n);
            CHECK(hear_after(&b, 500) == (pairs == 16 ? dropped : forgotten)[n]);
        }
        CHECK(b.clock.count == pairs);
    }
}

/* 7.4.4.2.2, 7.4.1.1: seventeen messages in a row make sixteen pairs. No time is told before the last of them. */
static void test_synchronise(void)
{
    for (size_t i = 0; i < STARTS; i++) {
        bus b = new_bus(FIRST, starts[i]);
        for (uint32_t heard_so_far = 1; heard_so_far <= 17; heard_so_far++) {
            case_is("synchronise", i, heard_so_far);
            CHECK(hear(&b) == (heard_so_far == 1 ? 0 : heard_so_far == 17 ? 2 : 1));
            CHECK(b.clock.count == heard_so_far - 1 && b.clock.state == (heard_so_far == 17 ? 2 : 1));
            if (heard_so_far < 17)
                check_nothing_told(&b.clock, b.local);
            else
                check_told(&b.clock, b.local, 0, ahead(starts[i]), b.reference);
            pass(&b, 500, 500);
        }
        CHECK(b.clock.resynchronised.ms == starts[i].local + 8000 && b.clock.period.begun.ms == starts[i].local + 8000);
        CHECK(b.clock.period.factor == ahead(starts[i]) && b.clock.period.messages == 1);
    }
}

/* 7.2.1.15, 6.3.1.7: message n carries the Reference Time of message n - 1, and makes a pair with the local time saved at that one. The newest pair is the
 * first. */
static void test_pairs(void)
{
    static const uint32_t references[] = {50000, 50480, 51010, 51500}, locals[] = {1000, 1490, 2020, 2490};
    uj_clock c = new_clock();

    case_is("pairs", 0, 0);
    for (uint32_t n = 0; n < 4; n++) {
        const uj_sync_message m = {7 + n, {n == 0 ? 0 : references[n - 1]}};
        CHECK(heard(&c, m, local_time(locals[n])) == (n == 0 ? UJ_CLOCK_KEPT : UJ_CLOCK_PAIRED));
    }
    CHECK(c.count == 3);
    for (uint32_t i = 0; i < 3; i++)
        CHECK(c.pairs[i].reference.ms == references[2 - i] && c.pairs[i].local.ms == locals[2 - i]);
    for (uint32_t i = 3; i < 16; i++)
        CHECK(c.pairs[i].reference.ms == 0 && c.pairs[i].local.ms == 0);
}

/* 7.2.1.15, 7.4.4.2.1: a message makes a pair only if the one before it was received. Behind a gap the local time is saved, and the next one is used. */
static void test_lost_message(void)
{
    for (uint32_t lost = 1; lost <= 3; lost++) {
        bus unsynchronised = nearly_synchronised(starts[0]), b = synchronised(starts[0]);
        case_is("lost message", lost, 0);
        for (uint32_t i = 0; i < lost; i++) {
            lose_after(&unsynchronised, 500);
            lose_after(&b, 500);
        }
        CHECK(hear_after(&unsynchronised, 500) == UJ_CLOCK_KEPT && unsynchronised.clock.count == 15);
        CHECK(hear_after(&unsynchronised, 500) == UJ_CLOCK_NOW_SYNCHRONISED && unsynchronised.clock.count == 16);
        check_factor(&unsynchronised.clock, unsynchronised.local, 49000);
        CHECK(hear_after(&b, 500) == UJ_CLOCK_KEPT && b.clock.resynchronised.ms == 9000);
        check_factor(&b.clock, b.local, 49000);
        CHECK(hear_after(&b, 500) == UJ_CLOCK_RESYNCHRONISED && b.clock.resynchronised.ms == 9000 + 500 * (lost + 2));
        CHECK(b.clock.pairs[0].local.ms == 9000 + 500 * (lost + 1));
    }
}

/* 7.4.4.2, and the request for the clock: signed distances from the newest difference, summed, a sixteenth of it rounded down, and added back modulo 2^32. In
 * a row so many of the older differences lie so far from the newest one, and the others are equal to it. */
static void test_factor(void)
{
    static const struct {
        uint32_t newest, count, distance, factor;
    } rows[] = {
        {0, 0, 0, 0},
        {1000, 0, 0, 1000},
        {0x80000000, 0, 0, 0x80000000},
        {UINT32_MAX, 0, 0, UINT32_MAX},
        {1000, 15, 16, 1015},                          /* 240 / 16 = 15 */
        {1000, 1, 15, 1000},                           /* 15 / 16 down to 0 */
        {1000, 1, 16, 1001},                           /* 16 / 16 = 1 */
        {1000, 15, 1, 1000},                           /* 15 / 16 down to 0 */
        {1000, 1, 0u - 1, 999},                        /* -1 / 16 down to -1 */
        {1000, 1, 0u - 16, 999},                       /* -16 / 16 = -1 */
        {1000, 1, 0u - 17, 998},                       /* -17 / 16 down to -2 */
        {1000, 15, 0u - 1, 999},                       /* -15 / 16 down to -1 */
        {0, 1, 0u - 1, UINT32_MAX},                    /* -1, from 0 */
        {5, 8, 0u - 16, 0u - 3},                       /* -128 / 16 = -8, from 5: the differences lie around 0 */
        {0u - 4, 8, 16, 4},                            /* 128 / 16 = 8, from -4 */
        {0x7FFFFFFF, 8, 2, 0x80000000},                /* 16 / 16 = 1: they lie around 2^31 */
        {0x80000000, 8, 0u - 2, 0x7FFFFFFF},           /* -16 / 16 = -1 */
        {1000, 1, 0x7FFFFFFF, 1000 + 0x07FFFFFF},      /* (2^31 - 1) / 16 down to 2^27 - 1 */
        {1000, 1, 0x80000000, 1000 - 0x08000000u},     /* 2^31 away is -2^31: -2^27 */
        {0, 15, 0x7FFFFFFF, 0x77FFFFFF},               /* 15 * 2^27 - 15 / 16 down to 15 * 2^27 - 1 */
        {0, 15, 0x80000000, 0u - 0x78000000},          /* -15 * 2^27 */
    };

    for (size_t i = 0; i < sizeof rows / sizeof *rows; i++)
        for (int oldest = 0; oldest < 2; oldest++) {
            uj_clock c = laid(rows[i].newest);
            case_is("factor", i, (unsigned long)oldest);
            for (uint32_t k = 0; k < rows[i].count; k++)
                c.pairs[oldest ? 15 - k : 1 + k].reference.ms += rows[i].distance;
            check_factor(&c, 100500, rows[i].factor);
            check_factor(&c, 103500, rows[i].factor);
        }
}

/* 7.4.4.2: the same over messages. The differences are 0 to 15 more than at the start, upwards or downwards; their mean is 7.5. */
static void test_factor_of_messages(void)
{
    for (size_t i = 0; i < STARTS; i++)
        for (int up = 0; up < 2; up++) {
            bus b = new_bus(FIRST, starts[i]);
            case_is("factor of messages", i, (unsigned long)up);
            b.reference += up ? 0 : 15;
            hear(&b);
            for (int k = 0; k < 16; k++) {
                pass(&b, up ? 501 : 499, 500);
                hear(&b);
            }
            check_factor(&b.clock, b.local, ahead(starts[i]) + 7);
        }
}

/* 7.4.4.1.1: the mean runs. Each pair that is 16 ms away moves it by one, until sixteen of them are all there is. */
static void test_running_mean(void)
{
    for (size_t i = 0; i < STARTS; i++) {
        bus b = synchronised(starts[i]);
        b.carried += 16;
        b.reference += 16;
        for (uint32_t k = 1; k <= 20; k++) {
            case_is("running mean", i, k);
            keeps(&b, 1, 500);
            check_factor(&b.clock, b.local, ahead(starts[i]) + (k < 16 ? k : 16));
        }
    }
}

/* 7.1.1.3: both times go around 2^32, in the middle of pairs and of periods; the clock doesn't notice. */
static void test_around(void)
{
    for (size_t i = 0; i < STARTS; i++) {
        bus b = synchronised(starts[i]);
        for (uint32_t k = 1; k <= 200; k++) {
            case_is("around", i, k);
            keeps(&b, 1, 500);
            check_told(&b.clock, b.local, 0, ahead(starts[i]), b.reference);
            check_told(&b.clock, b.local + 499, 0, ahead(starts[i]), b.reference + 499);
        }
    }
}

/* Steps of both times from one pair to the next, and what the message answers that brings the second: unsynchronised, synchronised. */
static const struct {
    uint32_t reference, local, unsynchronised, synchronised;
} steps[] = {
    {500, 500, UJ_CLOCK_PAIRED, UJ_CLOCK_RESYNCHRONISED},
    {1, 1, UJ_CLOCK_PAIRED, UJ_CLOCK_RESYNCHRONISED},
    {0, 1, UJ_CLOCK_REFERENCE_NOT_LATER, UJ_CLOCK_REFERENCE_NOT_LATER},
    {0u - 1, 1, UJ_CLOCK_REFERENCE_NOT_LATER, UJ_CLOCK_REFERENCE_NOT_LATER},
    {1, 0, UJ_CLOCK_LOCAL_NOT_LATER, UJ_CLOCK_LOCAL_NOT_LATER},
    {1, 0u - 1, UJ_CLOCK_LOCAL_NOT_LATER, UJ_CLOCK_LOCAL_NOT_LATER},
    {0, 0, UJ_CLOCK_REFERENCE_NOT_LATER, UJ_CLOCK_REFERENCE_NOT_LATER},
    {0x7FFFFFFF, 1, UJ_CLOCK_PAIRED, UJ_CLOCK_SHORT_TERM},
    {0x80000000, 1, UJ_CLOCK_REFERENCE_NOT_LATER, UJ_CLOCK_REFERENCE_NOT_LATER},
    {1, 0x7FFFFFFF, UJ_CLOCK_PAIRED, UJ_CLOCK_SHORT_TERM},
    {1, 0x80000000, UJ_CLOCK_LOCAL_NOT_LATER, UJ_CLOCK_LOCAL_NOT_LATER},
    {0x7FFFFFFF, 0x7FFFFFFF, UJ_CLOCK_PAIRED, UJ_CLOCK_RESYNCHRONISED},
};
enum { STEPS = sizeof steps / sizeof *steps };

/* 7.4.2.2.1, 7.4.2.2.2: while unsynchronised both times are later than those of the newest pair, or the pairs begin anew. The message is kept, and the pair
 * of the next one is compared with nothing. */
static void test_later_unsynchronised(void)
{
    for (size_t i = 0; i < STARTS; i++)
        for (size_t k = 0; k < STEPS; k++) {
            bus b = new_bus(FIRST, starts[i]);
            const int passes = steps[k].unsynchronised == UJ_CLOCK_PAIRED;
            case_is("later, unsynchronised", i, k);
            CHECK(hear(&b) == UJ_CLOCK_KEPT);
            pass(&b, steps[k].reference, steps[k].local);
            CHECK(hear(&b) == UJ_CLOCK_PAIRED);
            CHECK(hear_after(&b, 500) == steps[k].unsynchronised);
            CHECK(b.clock.state == UJ_CLOCK_UNSYNCHRONISED && b.clock.count == (passes ? 2 : 0));
            CHECK(hear_after(&b, 500) == UJ_CLOCK_PAIRED && b.clock.count == (passes ? 3 : 1));
        }
}

/* 7.4.3.3, 7.4.3.4: while synchronised the same isolates. */
static void test_later_synchronised(void)
{
    for (size_t i = 0; i < STARTS; i++)
        for (size_t k = 0; k < STEPS; k++) {
            bus b = nearly_synchronised(starts[i]);
            case_is("later, synchronised", i, k);
            pass(&b, steps[k].reference, steps[k].local);
            CHECK(hear(&b) == UJ_CLOCK_NOW_SYNCHRONISED);
            /* The sixteenth pair is of the message before; the one of this moment comes with the next message, and the factor is still that of before. */
            check_factor(&b.clock, b.local, ahead(starts[i]));
            pass(&b, 500, 500);
            answers(b, steps[k].synchronised);
        }
}

/* The message on the bus now is heard and the next one lost. The one behind the gap makes no pair, and the one after it has that answer. */
static void answers_behind_a_gap(bus b, size_t step, uint32_t answer)
{
    hear(&b);
    sent(&b);
    pass(&b, steps[step].reference, steps[step].local);
    CHECK(hear(&b) == UJ_CLOCK_KEPT);
    pass(&b, 500, 500);
    answers(b, answer);
}

/* 7.4.2.2, 7.4.3.3, 7.4.3.4: where the message before brought no pair, the newest pair there is counts. The messages of both pairs are as far apart as the
 * steps say; while synchronised a long one comes too late (7.4.1.6). */
static void test_later_behind_a_gap(void)
{
    for (size_t i = 0; i < STARTS; i++)
        for (size_t k = 0; k < STEPS; k++) {
            bus b = new_bus(FIRST, starts[i]);
            case_is("later, behind a gap", i, k);
            hear(&b);
            answers_behind_a_gap(b, k, steps[k].unsynchronised);
            if (steps[k].local <= 500)
                answers_behind_a_gap(nearly_synchronised(starts[i]), k, steps[k].synchronised);
        }
}

/* 7.4.3.5: less than 100 ms away from the factor, on either side. */
static void test_short_term(void)
{
    static const struct {
        uint32_t away, answer;
    } rows[] = {{99, UJ_CLOCK_RESYNCHRONISED}, {0u - 99, UJ_CLOCK_RESYNCHRONISED}, {100, UJ_CLOCK_SHORT_TERM}, {0u - 100, UJ_CLOCK_SHORT_TERM},
                {0u - 499, UJ_CLOCK_SHORT_TERM}, {0x7FFFFFFF - 500, UJ_CLOCK_SHORT_TERM}};

    for (size_t i = 0; i < STARTS; i++)
        for (size_t k = 0; k < sizeof rows / sizeof *rows; k++) {
            bus b = synchronised(starts[i]);
            case_is("short term", i, rows[k].away);
            b.carried += rows[k].away;
            pass(&b, 500, 500);
            answers(b, rows[k].answer);
        }
}

/* 7.4.3.5: the factor is the one in use before the pair. A pair 96 ms away moves it by 6, and the limits with it. */
static void test_short_term_moves(void)
{
    static const uint32_t good[] = {6 + 99, 6u - 99}, bad[] = {6 + 100, 6u - 100};

    for (size_t i = 0; i < STARTS; i++) {
        bus b = synchronised(starts[i]);
        case_is("short term moves", i, 0);
        b.carried += 96;
        keeps(&b, 1, 500);
        check_factor(&b.clock, b.local, ahead(starts[i]) + 6);
        pass(&b, 500, 500);
        for (int k = 0; k < 2; k++) {
            bus near = b, far = b;
            near.carried += good[k];
            answers(near, UJ_CLOCK_RESYNCHRONISED);
            far.carried += bad[k];
            answers(far, UJ_CLOCK_SHORT_TERM);
        }
    }
}

/* 7.4.1.6: a resynchronisation within 3,000 ms of the last one, or of the synchronisation. A moment before it is as far as one long after it. */
static void test_too_late(void)
{
    static const uint32_t late[] = {3001, 30000, 0x7FFFFFFF, 0x80000000, UINT32_MAX};

    for (size_t i = 0; i < STARTS; i++)
        for (int again = 0; again < 2; again++) {
            bus b = synchronised(starts[i]), in_time;
            case_is("too late", i, (unsigned long)again);
            keeps(&b, again ? 1 : 0, 700);
            in_time = b;
            pass(&in_time, 3000, 3000);
            answers(in_time, UJ_CLOCK_RESYNCHRONISED);
            for (size_t k = 0; k < sizeof late / sizeof *late; k++) {
                bus too_late = b;
                pass(&too_late, late[k], late[k]);
                answers(too_late, UJ_CLOCK_TOO_LATE);
            }
        }
}

/* 7.4.1.6: only a pair is a resynchronisation, neither a message behind a gap nor one that is dropped; and none of them is looked at when it is too late. */
static void test_too_late_without_pair(void)
{
    for (uint32_t late = 0; late < 2; late++) {
        bus b = synchronised(starts[0]), gap, dropped;
        case_is("too late without pair", late, 0);
        lose_after(&b, 500);
        CHECK(hear_after(&b, 500) == UJ_CLOCK_KEPT);
        drops(&b);
        CHECK(b.clock.resynchronised.ms == 9000);
        pass(&b, 2000 + late, 2000 + late);
        gap = dropped = b;
        gap.number++;
        dropped.number--;
        answers(b, late ? UJ_CLOCK_TOO_LATE : UJ_CLOCK_RESYNCHRONISED);
        answers(gap, late ? UJ_CLOCK_TOO_LATE : UJ_CLOCK_KEPT);
        answers(dropped, late ? UJ_CLOCK_TOO_LATE : UJ_CLOCK_DROPPED);
    }
}

/* 6.3.1.3, 6.3.1.5: while unsynchronised all is forgotten at a number that is not above the last. The next message is the first, whatever its number, and the
 * one behind it makes the first pair. */
static void test_numbers_not_above(void)
{
    static const uint32_t not_above[] = {0, FIRST, FIRST + 14, FIRST + 15}, next[] = {0, FIRST, FIRST + 15, FIRST + 16};

    for (size_t i = 0; i < sizeof not_above / sizeof *not_above; i++)
        for (size_t k = 0; k < sizeof next / sizeof *next; k++) {
            bus b = nearly_synchronised(starts[0]);
            case_is("numbers not above", not_above[i], next[k]);
            b.number = not_above[i];
            CHECK(hear_after(&b, 500) == UJ_CLOCK_NOT_ABOVE && b.clock.state == UJ_CLOCK_UNSYNCHRONISED && b.clock.count == 0);
            b.number = next[k];
            CHECK(hear_after(&b, 500) == UJ_CLOCK_KEPT && b.clock.count == 0);
            CHECK(hear_after(&b, 500) == UJ_CLOCK_PAIRED && b.clock.count == 1 && b.clock.pairs[0].local.ms == 1000 + 17 * 500);
        }
}

/* 7.2.1.15: a number that is above the last, but not the next, makes no pair. */
static void test_numbers_above(void)
{
    static const uint32_t above[] = {FIRST + 18, FIRST + 1000, UINT32_MAX};

    for (size_t i = 0; i < sizeof above / sizeof *above; i++) {
        bus unsynchronised = nearly_synchronised(starts[0]), b = synchronised(starts[0]);
        case_is("numbers above", above[i], 0);
        unsynchronised.number = b.number = above[i];
        CHECK(hear_after(&unsynchronised, 500) == UJ_CLOCK_KEPT && unsynchronised.clock.count == 15);
        CHECK(hear_after(&b, 500) == UJ_CLOCK_KEPT && b.clock.count == 16);
    }
}

/* 6.3.1.3, 6.3.1.5: while synchronised it is dropped, and the number behind the last is good as if nothing had come. */
static void test_numbers_dropped(void)
{
    static const uint32_t not_above[] = {0, FIRST, FIRST + 15, FIRST + 16};

    for (size_t i = 0; i < sizeof not_above / sizeof *not_above; i++) {
        bus b = synchronised(starts[0]), other;
        const uj_clock before = b.clock;
        case_is("numbers dropped", not_above[i], 0);
        pass(&b, 500, 500);
        other = b;
        other.number = not_above[i];
        other.carried = 0;
        CHECK(hear(&other) == UJ_CLOCK_DROPPED && same_clock(&other.clock, &before));
        b.clock = other.clock;
        answers(b, UJ_CLOCK_RESYNCHRONISED);
    }
}

/* 7.4.3.6: eighteen messages in 30,000 ms, the one that synchronised first. One at 29,999 ms is the eighteenth; at 30,000 it belongs to the next period. */
static void test_too_few(void)
{
    for (size_t i = 0; i < STARTS; i++) {
        bus b = synchronised(starts[i]), early;
        case_is("too few", i, 0);
        keeps(&b, 16, 1764);
        CHECK(b.clock.period.messages == 17 && b.local == starts[i].local + 8000 + 28224);
        early = b;
        keeps(&early, 1, 1775);
        CHECK(early.clock.period.messages == 18);
        keeps(&early, 1, 1);
        CHECK(early.clock.period.begun.ms == starts[i].local + 8000 + 30000 && early.clock.period.messages == 1);
        pass(&b, 1776, 1776);
        answers(b, UJ_CLOCK_TOO_FEW);
    }
}

/* 7.4.3.6: a message that is dropped is not counted. */
static void test_too_few_dropped(void)
{
    bus b = synchronised(starts[0]);

    case_is("too few, dropped", 0, 0);
    keeps(&b, 16, 1764);
    pass(&b, 1775, 1775);
    drops(&b);
    pass(&b, 1, 1);
    answers(b, UJ_CLOCK_TOO_FEW);
}

/* 7.4.3.6: one that makes no pair is. Every third message is lost; twenty come before the end of the period, of which ten make a pair, the one that synchronised among them. */
static void test_too_few_behind_gaps(void)
{
    bus b = synchronised(starts[0]);

    for (uint32_t k = 1; k <= 10; k++) {
        case_is("too few, behind gaps", k, 0);
        lose_after(&b, 1000);
        CHECK(hear_after(&b, 1000) == UJ_CLOCK_KEPT && b.clock.period.messages == 2 * k);
        keeps(&b, 1, 1000);
    }
    CHECK(b.clock.period.begun.ms == 39000 && b.clock.period.messages == 1);
}

/* Messages that are 500 ms apart, up to 500 ms before the end of the period. Reference Time moves after the fortieth, so that all sixteen pairs move. */
static bus moved(start s, uint32_t by)
{
    bus b = synchronised(s);

    keeps(&b, 40, 500);
    b.reference += by;
    keeps(&b, 19, 500);
    CHECK(b.clock.period.messages == 60 && b.clock.period.begun.ms == s.local + 8000);
    check_factor(&b.clock, b.local, ahead(s) + by);
    return b;
}

/* 7.4.3.7: from one end of the period to the other the factor moves by 30 ms at most, to either side. */
static void test_long_term(void)
{
    static const uint32_t good[] = {0, 30, 0u - 30}, bad[] = {31, 0u - 31, 99, 0u - 99};

    for (size_t i = 0; i < STARTS; i++) {
        for (size_t k = 0; k < sizeof good / sizeof *good; k++) {
            bus b = moved(starts[i], good[k]);
            case_is("long term", i, good[k]);
            keeps(&b, 1, 500);
            CHECK(b.clock.period.begun.ms == starts[i].local + 8000 + 30000 && b.clock.period.factor == ahead(starts[i]) + good[k]);
        }
        for (size_t k = 0; k < sizeof bad / sizeof *bad; k++) {
            bus b = moved(starts[i], bad[k]);
            case_is("long term", i, bad[k]);
            pass(&b, 500, 500);
            answers(b, UJ_CLOCK_LONG_TERM);
        }
    }
}

/* 7.4.3.7.1: the factor at the end is the one in use until the message that shows the end. The pair of that message moves it by one, and is not asked. */
static void test_long_term_before_the_pair(void)
{
    bus good = moved(starts[0], 30), bad = moved(starts[0], 31);

    case_is("long term before the pair", 0, 0);
    good.carried += 16;
    keeps(&good, 1, 500);
    CHECK(good.clock.period.factor == 49030);
    check_factor(&good.clock, good.local, 49031);
    bad.carried -= 16;
    pass(&bad, 500, 500);
    answers(bad, UJ_CLOCK_LONG_TERM);
}

/* 7.4.3.6, 7.4.3.7: a message behind a gap shows the end of the period too. */
static void test_long_term_behind_a_gap(void)
{
    bus good = moved(starts[0], 30), bad = moved(starts[0], 31);

    case_is("long term behind a gap", 0, 0);
    lose_after(&good, 500);
    CHECK(hear_after(&good, 500) == UJ_CLOCK_KEPT);
    CHECK(good.clock.period.begun.ms == 39000 && good.clock.period.factor == 49030 && good.clock.period.messages == 1);
    lose_after(&bad, 500);
    pass(&bad, 500, 500);
    answers(bad, UJ_CLOCK_LONG_TERM);
}

/* From the first message on, one every 1,000 ms of the local clock, which are so many on the reference clock. The one that shows the end of the first period
 * is on the bus now. */
static bus drifting(start s, uint32_t reference)
{
    bus b = new_bus(FIRST, s);

    CHECK(hear(&b) == UJ_CLOCK_KEPT);
    for (uint32_t i = 1; i < 16 + 30; i++) {
        pass(&b, reference, 1000);
        CHECK(hear(&b) == (i < 16 ? UJ_CLOCK_PAIRED : i == 16 ? UJ_CLOCK_NOW_SYNCHRONISED : UJ_CLOCK_RESYNCHRONISED));
    }
    pass(&b, reference, 1000);
    return b;
}

/* 7.4.3.7: a clock that is off by 0.1 % stays synchronised for hours, one that is off by 0.2 % is found out at the first message after 30 s. */
static void test_drift(void)
{
    static const uint32_t good[] = {999, 1001}, bad[] = {998, 1002};

    for (size_t i = 0; i < STARTS; i++)
        for (int k = 0; k < 2; k++) {
            bus b;
            case_is("drift", i, bad[k]);
            answers(drifting(starts[i], bad[k]), UJ_CLOCK_LONG_TERM);
            case_is("drift", i, good[k]);
            b = drifting(starts[i], good[k]);
            for (uint32_t s = 0; s < 2 * 3600; s++) {
                CHECK(hear(&b) == UJ_CLOCK_RESYNCHRONISED);
                pass(&b, good[k], 1000);
            }
        }
}

/* 7.4.3.6: the period is not floating. The message at 30,400 ms shows the end of the first, and the second has begun at 30,000: a message at 60,000 shows its
 * end, and it has 37, from 30,400 to 59,200. */
static void test_periods(void)
{
    for (size_t i = 0; i < STARTS; i++) {
        const uint32_t begun = starts[i].local + 8000;
        bus b = synchronised(starts[i]);
        case_is("periods", i, 0);
        keeps(&b, 37, 800);
        CHECK(b.clock.period.begun.ms == begun && b.clock.period.messages == 38);
        keeps(&b, 1, 800);
        CHECK(b.local == begun + 30400 && b.clock.period.begun.ms == begun + 30000 && b.clock.period.messages == 1);
        keeps(&b, 36, 800);
        CHECK(b.local == begun + 59200 && b.clock.period.begun.ms == begun + 30000 && b.clock.period.messages == 37);
        keeps(&b, 1, 800);
        CHECK(b.clock.period.begun.ms == begun + 60000 && b.clock.period.messages == 1);
    }
}

/* 7.4.3.7.1: each period is judged by its own beginning. The factor moves by 30 ms in each of two, which is 60 in all. */
static void test_long_term_of_each_period(void)
{
    bus b = moved(starts[0], 30), far;

    case_is("long term of each period", 0, 0);
    keeps(&b, 41, 500);
    CHECK(b.clock.period.begun.ms == 39000 && b.clock.period.factor == 49030);
    far = b;
    b.reference += 30;
    keeps(&b, 20, 500);
    CHECK(b.clock.period.begun.ms == 69000 && b.clock.period.factor == 49060);
    far.reference += 31;
    keeps(&far, 19, 500);
    pass(&far, 500, 500);
    answers(far, UJ_CLOCK_LONG_TERM);
}

/* The tests of a message for a synchronised clock, in their order. A number that is not above the last has its place among them. */
static const uint32_t order[] = {UJ_CLOCK_NO_FACTOR,       UJ_CLOCK_TOO_LATE,   UJ_CLOCK_DROPPED, UJ_CLOCK_REFERENCE_NOT_LATER,
                                 UJ_CLOCK_LOCAL_NOT_LATER, UJ_CLOCK_SHORT_TERM, UJ_CLOCK_TOO_FEW, UJ_CLOCK_LONG_TERM};
enum { TESTS = sizeof order / sizeof *order };

/* Makes the message of laid_bus one that has that answer, and repairs no other fault. */
static void spoil(bus *b, uint32_t answer)
{
    uj_clock *c = &b->clock;

    switch (answer) {
    case UJ_CLOCK_NO_FACTOR:
        c->count = 15;
        break;
    case UJ_CLOCK_TOO_LATE:
        c->resynchronised.ms = b->local - 3001;
        break;
    case UJ_CLOCK_DROPPED:
        b->number = c->last.number;
        break;
    case UJ_CLOCK_REFERENCE_NOT_LATER:
        b->carried -= 500;
        break;
    case UJ_CLOCK_LOCAL_NOT_LATER:
        c->last.local = c->pairs[0].local;
        break;
    case UJ_CLOCK_SHORT_TERM:
        b->carried -= 100;
        break;
    case UJ_CLOCK_TOO_FEW:
        c->period.messages = 17;
        break;
    default:
        c->period.factor += 31;
    }
}

/* 7.4.1.5.1, 7.4.1.6, 7.4.3.3 to 7.4.3.7: every set of faults. The first in the order is answered, and a resynchronisation where there is none. */
static void test_order(void)
{
    for (unsigned set = 0; set < 1u << TESTS; set++) {
        bus b = laid_bus(49000);
        uint32_t expected = UJ_CLOCK_RESYNCHRONISED;
        case_is("order", set, 0);
        for (int i = TESTS - 1; i >= 0; i--)
            if (set >> i & 1) {
                spoil(&b, order[i]);
                expected = order[i];
            }
        answers(b, expected);
    }
}

/* 7.4.2.2: the same while unsynchronised: a number that is not above the last, then the Reference Time, then the local time. */
static void test_order_unsynchronised(void)
{
    static const uint32_t expected[] = {UJ_CLOCK_PAIRED,          UJ_CLOCK_NOT_ABOVE, UJ_CLOCK_REFERENCE_NOT_LATER, UJ_CLOCK_NOT_ABOVE,
                                        UJ_CLOCK_LOCAL_NOT_LATER, UJ_CLOCK_NOT_ABOVE, UJ_CLOCK_REFERENCE_NOT_LATER, UJ_CLOCK_NOT_ABOVE};

    for (unsigned set = 0; set < 8; set++) {
        bus b = laid_bus(49000);
        case_is("order, unsynchronised", set, 0);
        b.clock.state = UJ_CLOCK_UNSYNCHRONISED;
        b.clock.count = 7;
        b.number -= set & 1;
        b.carried -= set & 2 ? 500 : 0;
        b.clock.last.local.ms -= set & 4 ? 500 : 0;
        CHECK(hear(&b) == expected[set]);
        CHECK(b.clock.state == UJ_CLOCK_UNSYNCHRONISED && b.clock.count == (set ? 0 : 8));
    }
}

/* 7.4.2.2, 7.4.3: the tests of a synchronised clock are not asked of one that is not: long pauses, far differences, few messages. */
static void test_untested_while_unsynchronised(void)
{
    bus b = new_bus(FIRST, starts[0]);

    case_is("untested while unsynchronised", 0, 0);
    hear(&b);
    for (uint32_t k = 1; k <= 16; k++) {
        pass(&b, 100000 + 500 * k, 100000);
        CHECK(hear(&b) == (k < 16 ? UJ_CLOCK_PAIRED : UJ_CLOCK_NOW_SYNCHRONISED));
    }
}

/* 7.4.1.7.2.3: isolated for good. A hundred good messages, and questions, leave every byte of the clock as it is. */
static void test_isolated(void)
{
    for (size_t i = 0; i < STARTS; i++) {
        bus b = synchronised(starts[i]);
        uj_clock lost;
        b.carried += 100;
        CHECK(hear_after(&b, 500) == UJ_CLOCK_SHORT_TERM);
        lost = b.clock;
        for (uint32_t k = 0; k < 100; k++) {
            case_is("isolated", i, k);
            CHECK(hear_after(&b, 500) == UJ_CLOCK_STAYS_ISOLATED && same_clock(&b.clock, &lost));
            check_nothing_told(&b.clock, b.local);
            check_nothing_told(&b.clock, lost.resynchronised.ms);
        }
    }
}

/* 7.4.1.1, 7.4.1.6, 7.4.5.1: Reference Time is told up to 3,000 ms before and after the last resynchronisation, and at no other moment. */
static void test_asking(void)
{
    static const uint32_t outside[] = {3001, 3500, 0x7FFFFFFF, 0x80000000, 0u - 3500, 0u - 3001};

    for (size_t i = 0; i < STARTS; i++)
        for (uint32_t again = 0; again < 3; again++) {
            bus b = synchronised(starts[i]);
            case_is("asking", i, again);
            keeps(&b, again, 700);
            for (uint32_t ms = 0; ms <= 3000; ms += 250) {
                check_told(&b.clock, b.local + ms, 0, ahead(starts[i]), b.reference + ms);
                check_told(&b.clock, b.local - ms, 0, ahead(starts[i]), b.reference - ms);
            }
            for (size_t k = 0; k < sizeof outside / sizeof *outside; k++)
                check_nothing_told(&b.clock, b.local + outside[k]);
        }
}

/* 7.4.1.6: a message without a pair is no resynchronisation for whoever asks either. */
static void test_asking_behind_a_gap(void)
{
    bus b = synchronised(starts[0]);

    case_is("asking behind a gap", 0, 0);
    lose_after(&b, 500);
    CHECK(hear_after(&b, 500) == UJ_CLOCK_KEPT);
    check_told(&b.clock, 9000, 0, 49000, 58000);
    check_told(&b.clock, 12000, 0, 49000, 61000);
    check_nothing_told(&b.clock, 12001);
}

/* 7.4.4.2.2: a count over 16 counts as 16. */
static void test_count_over_16(void)
{
    static const uint32_t counts[] = {16, 17, 0x100, 0x10000, UINT32_MAX};

    for (size_t i = 0; i < sizeof counts / sizeof *counts; i++) {
        bus b = laid_bus(49000), unsynchronised;
        case_is("count over 16", counts[i], 0);
        b.clock.count = counts[i];
        check_factor(&b.clock, 100500, 49000);
        unsynchronised = b;
        CHECK(hear(&b) == UJ_CLOCK_RESYNCHRONISED && b.clock.count == 16);
        unsynchronised.clock.state = UJ_CLOCK_UNSYNCHRONISED;
        check_nothing_told(&unsynchronised.clock, 100500);
        CHECK(hear(&unsynchronised) == UJ_CLOCK_NOW_SYNCHRONISED && unsynchronised.clock.count == 16);
    }
}

/* 7.4.1.5.1: a synchronised clock with fewer pairs tells no time, and the next message isolates it. */
static void test_fewer_than_16(void)
{
    for (uint32_t count = 0; count < 16; count++) {
        bus b = laid_bus(49000);
        case_is("fewer than 16", count, 0);
        b.clock.count = count;
        check_nothing_told(&b.clock, 100500);
        answers(b, UJ_CLOCK_NO_FACTOR);
    }
}

/* 7.4.1.7.2: a state that is no state is isolated; numbers too that a narrower type would take for a good one. */
static void test_other_states(void)
{
    static const uint32_t states[] = {0, UJ_CLOCK_ISOLATED, 4, 0x101, 0x102, 0x10002, 0x80000002, UINT32_MAX};

    for (size_t i = 0; i < sizeof states / sizeof *states; i++) {
        bus b = laid_bus(49000);
        uj_clock before;
        case_is("other states", states[i], 0);
        b.clock.state = states[i];
        before = b.clock;
        check_nothing_told(&b.clock, 100500);
        CHECK(hear(&b) == UJ_CLOCK_STAYS_ISOLATED && same_clock(&b.clock, &before));
    }
}

/* Any number but 0 says that a message was received. Before the first one nothing is asked of its number. */
static void test_received(void)
{
    static const uint32_t received[] = {0, 1, 2, 0x100, 0x80000000};

    for (size_t i = 0; i < sizeof received / sizeof *received; i++) {
        uj_clock follows = new_clock(), below;
        const uj_sync_message next = {41, {50000}}, again = {40, {50000}};
        case_is("received", received[i], 0);
        follows.last.received = received[i];
        follows.last.number = 40;
        below = follows;
        CHECK(heard(&follows, next, local_time(1000)) == (received[i] == 0 ? UJ_CLOCK_KEPT : UJ_CLOCK_PAIRED));
        CHECK(heard(&below, again, local_time(1000)) == (received[i] == 0 ? UJ_CLOCK_KEPT : UJ_CLOCK_NOT_ABOVE));
    }
}

/* The messages of a period are counted up to the greatest number, which is enough for 7.4.3.6. */
static void test_most_messages(void)
{
    bus b = laid_bus(49000);

    case_is("most messages", 0, 0);
    b.clock.period.messages = UINT32_MAX;
    b.clock.period.begun.ms = 71500;
    CHECK(hear(&b) == UJ_CLOCK_RESYNCHRONISED && b.clock.period.messages == UINT32_MAX);
    keeps(&b, 1, 500);
    CHECK(b.clock.period.messages == 1);
}

int main(void)
{
    static void (*const tests[])(void) = {
        test_new, test_zeroed, test_read, test_read_lengths, test_read_prefixes, test_first_message, test_message_0, test_message_0_behind_the_last,
        test_synchronise, test_pairs, test_lost_message, test_factor, test_factor_of_messages, test_running_mean, test_around,
        test_later_unsynchronised, test_later_synchronised, test_later_behind_a_gap, test_short_term, test_short_term_moves, test_too_late,
        test_too_late_without_pair, test_numbers_not_above, test_numbers_above, test_numbers_dropped, test_too_few, test_too_few_dropped,
        test_too_few_behind_gaps, test_long_term, test_long_term_before_the_pair, test_long_term_behind_a_gap, test_drift, test_periods,
        test_long_term_of_each_period, test_order, test_order_unsynchronised, test_untested_while_unsynchronised, test_isolated, test_asking,
        test_asking_behind_a_gap, test_count_over_16, test_fewer_than_16, test_other_states, test_received, test_most_messages,
    };

    open_rooms();
    open_room(&clock_room);
    for (size_t i = 0; i < sizeof tests / sizeof *tests; i++)
        tests[i]();
    printf("clock: %lu checks, %lu failed\n", checks, failures);
    return failures != 0;
}
