/*
 * The C interface of include/ujamniq.h, held to SUBSET-057 version 2.2.0 and to the worked numbers of the scope. Clause numbers are those of SUBSET-057.
 *
 * In this order: what is asked of the calls of writers.h, the check word, whole telegrams, what the writers refuse, the check, the net data.
 */
#define _DEFAULT_SOURCE
#define PROGRAM "firmware"
#include "writers.h"

/* Bytes without a pattern, for net data and for words over long runs. */
enum { SAMPLE = 0x10000 + 0x400 };
static uint8_t sample[SAMPLE];

/* The end that the tests use where its numbers do not matter; all five differ, so that no two can be taken for each other unseen. */
static end usual_end(uint32_t level)
{
    end e = {{8, 1, 9, 5, level}};
    return e;
}

/* An order that every writer takes, with that much net data. */
static order usual_order(int kind, size_t net_length)
{
    order o = {(enum kind)kind, 0x01234568, 0x89ABCDEF, 500, 1, 0x05, 0x09, sample, net_length};
    return o;
}

/* The writer writes what the papers say. Gives the telegram and its length. */
static size_t writes(end e, order o, size_t room, uint8_t telegram[UJ_LONGEST])
{
    uint8_t expected[UJ_LONGEST];
    const size_t length = compose(e, o, expected);
    const uj_written w = written(e, o, room, telegram);

    CHECK(w.answer == UJ_DONE);
    CHECK(w.length == length);
    CHECK(w.length == length && memcmp(telegram, expected, length) == 0);
    return length;
}

/* The writer refuses, with that answer. */
static void refuses(end e, order o, size_t room, uint32_t answer)
{
    uint8_t telegram[UJ_LONGEST];
    const uj_written w = written(e, o, room, telegram);

    CHECK(w.answer == answer);
    CHECK(w.length == 0);
}

/* The writer writes, or refuses a value. */
static void judges(end e, order o, int allowed)
{
    uint8_t telegram[UJ_LONGEST];

    if (allowed)
        writes(e, o, UJ_LONGEST, telegram);
    else
        refuses(e, o, UJ_LONGEST, UJ_BAD_VALUE);
}

/* Whether the telegram passes. */
static int passes(end e, uint32_t expected, const uint8_t *telegram, size_t length)
{
    return checked(e, expected, telegram, length) == UJ_DONE;
}

/* Whether the telegram fails, which is not to be refused. */
static int fails(end e, uint32_t expected, const uint8_t *telegram, size_t length)
{
    return checked(e, expected, telegram, length) >= UJ_FAILED;
}

/* What SUBSET-057 prints. */
static const struct {
    const char *clause;
    int width;
    size_t length;
    uint8_t bytes[19];
    uint64_t word;
} vectors[] = {
    {"5.3.1.7 authentication", 48, 14, {0x0C, 0x01, 0x08, 0x03, 0x03, 0x45, 0x23, 0x01, 0x68, 0x83, 0xF0, 0xCD, 0xAB, 0x89}, 0x202A5DE9BA6D},
    {"5.3.1.7 acknowledgement", 48, 14, {0x0C, 0x08, 0x01, 0x03, 0x03, 0xCD, 0xAB, 0x89, 0xF0, 0x84, 0x68, 0x45, 0x23, 0x01}, 0xA62A7197C585},
    {"5.3.1.8 idle", 32, 10, {0x08, 0x01, 0x08, 0x09, 0x09, 0x49, 0x34, 0x60, 0x31, 0x06}, 0x236790C6},
    {"6.2.1.6 multicast", 48, 13, {0x0E, 0x7F, 0x53, 0x21, 0x21, 0x03, 0x00, 0x0A, 0x8D, 0xEF, 0xCD, 0xAB, 0x89}, 0x48966F0C4AD9},
    {"10.2.1.2.1", 48, 19,
     {0x0E, 0x7F, 0x53, 0x21, 0x21, 0x03, 0x00, 0x0A, 0x8D, 0xEF, 0xCD, 0xAB, 0x89, 0x48, 0x96, 0x6F, 0x0C, 0x4A, 0xD9}, 0},
    {"10.2.1.2.2", 32, 19,
     {0x0E, 0x7F, 0x53, 0x21, 0x21, 0x03, 0x00, 0x0A, 0x8D, 0xEF, 0xCD, 0xAB, 0x89, 0x48, 0x96, 0x6F, 0x0C, 0x4A, 0xD9}, 0},
    {"10.2.1.3.2", 48, 13, {0x0E, 0x7F, 0x53, 0x21, 0x21, 0x03, 0x00, 0x0A, 0x8D, 0xEF, 0xCD, 0xAB, 0x89}, 0x48966F0C4AD9},
    {"10.2.1.3.3", 32, 15, {0x0E, 0x7F, 0x53, 0x21, 0x21, 0x03, 0x00, 0x0A, 0x8D, 0xEF, 0xCD, 0xAB, 0x89, 0x48, 0x96}, 0x6F0C4AD9},
};

/* Each published vector, at every cut into two runs. */
static void test_vectors(void)
{
    for (size_t v = 0; v < sizeof vectors / sizeof *vectors; v++) {
        const uint8_t *bytes = vectors[v].bytes;
        size_t length = vectors[v].length;
        case_is(vectors[v].clause, length, 0);
        CHECK(divide(vectors[v].width, bytes, length) == vectors[v].word);
        for (size_t cut = 0; cut <= length; cut++) {
            case_is(vectors[v].clause, length, cut);
            CHECK(word(vectors[v].width, bytes, cut, bytes + cut, length - cut) == vectors[v].word);
        }
    }
}

/* Words of other runs: none, short, of a telegram's length, long, and runs that overlap. */
static void test_words(void)
{
    for (int width = 32; width <= 48; width += 16) {
        case_is("word of no bytes", (unsigned long)width, 0);
        CHECK(word(width, sample, 0, sample, 0) == 0);
        for (size_t length = 0; length <= SAMPLE; length += length == 260 ? SAMPLE - length : 1) {
            const uint64_t rest = divide(width, sample, length);
            const size_t cut = length * 3 / 7;
            case_is("word of any bytes", (unsigned long)width, length);
            CHECK(word(width, sample, 0, sample, length) == rest);
            CHECK(word(width, sample, cut, sample + cut, length - cut) == rest);
            CHECK(word(width, sample, length, sample, 0) == rest);
        }
    }
    uint8_t joined[60];
    memcpy(joined, sample, 30);
    memcpy(joined + 30, sample + 20, 30);
    case_is("word of runs that overlap", 30, 30);
    CHECK(uj_word48(sample, 30, sample + 20, 30) == divide(48, joined, 60));
    CHECK(uj_word32(sample, 30, sample + 20, 30) == divide(32, joined, 60));
}

/* A telegram passes at its receiver, and at no end and for no number that differs in one point. Request and confirm bring their own number. */
static void passes_only_at(end e, uint32_t number, const uint8_t *telegram, size_t length)
{
    static const uint32_t steps[] = {1, 2, 128, 255, 256, 512, 0x10000, 0x1000000, 0x80000000};
    const int own_number = (telegram[1] & 0x3F) == 0x00 || (telegram[1] & 0x3F) == 0x02;
    const end swapped_addresses = with(with(e, OWN, e.n[PARTNER]), PARTNER, e.n[OWN]);
    const end swapped_saps = with(with(e, PARTNER_SAP, e.n[LOCAL_SAP]), LOCAL_SAP, e.n[PARTNER_SAP]);

    CHECK(passes(e, number, telegram, length));
    for (size_t i = 0; i < sizeof steps / sizeof *steps; i++) {
        CHECK(own_number ? passes(e, number + steps[i], telegram, length) : fails(e, number + steps[i], telegram, length));
        CHECK(own_number ? passes(e, number - steps[i], telegram, length) : fails(e, number - steps[i], telegram, length));
    }
    CHECK(fails(with(e, OWN, (e.n[OWN] + 1) % 127), number, telegram, length));
    CHECK(fails(with(e, PARTNER, (e.n[PARTNER] + 1) % 127), number, telegram, length));
    CHECK(fails(with(e, PARTNER_SAP, (e.n[PARTNER_SAP] + 1) % 63), number, telegram, length));
    CHECK(fails(with(e, LOCAL_SAP, (e.n[LOCAL_SAP] + 1) % 63), number, telegram, length));
    CHECK(fails(with(e, LEVEL, 6 - e.n[LEVEL]), number, telegram, length));
    CHECK(e.n[OWN] == e.n[PARTNER] || fails(swapped_addresses, number, telegram, length));
    CHECK(e.n[PARTNER_SAP] == e.n[LOCAL_SAP] || fails(swapped_saps, number, telegram, length));
}

/* 5.3.1.7: node 8 authenticates to node 1, which acknowledges. */
static void test_5_3_1_7(void)
{
    static const uint8_t printed[2][12] = {{0x68, 0x83, 0xF0, 0xCD, 0xAB, 0x89, 0x20, 0x2A, 0x5D, 0xE9, 0xBA, 0x6D},
                                           {0xF0, 0x84, 0x68, 0x45, 0x23, 0x01, 0xA6, 0x2A, 0x71, 0x97, 0xC5, 0x85}};
    static const end ends[2] = {{{8, 1, 3, 3, 4}}, {{1, 8, 3, 3, 4}}};
    static const uint32_t numbers[2] = {0x01234568, 0x89ABCDF0}, received[2] = {0x89ABCDEF, 0x01234567};
    uint8_t telegram[UJ_LONGEST];

    for (int i = 0; i < 2; i++) {
        order o = usual_order(i == 0 ? AUTHENTICATION : ACKNOWLEDGEMENT, 0);
        o.number = numbers[i];
        o.received = received[i];
        case_is("5.3.1.7", (unsigned long)i, 0);
        CHECK(writes(ends[i], o, UJ_LONGEST, telegram) == 12);
        CHECK(memcmp(telegram, printed[i], 12) == 0);
        passes_only_at(ends[1 - i], numbers[i], printed[i], 12);
    }
}

/* 5.3.1.8 prints a length of 8 for an idle telegram of 6 bytes. The writer counts 6, and the telegram as printed does not pass. */
static void test_5_3_1_8(void)
{
    static const uint8_t printed[6] = {0x31, 0x06, 0x23, 0x67, 0x90, 0xC6}, implicit[8] = {0x06, 0x01, 0x08, 0x09, 0x09, 0x49, 0x34, 0x60};
    static const end e = {{8, 1, 9, 9, 2}};
    uint8_t telegram[UJ_LONGEST];
    order o = usual_order(IDLE, 0);

    case_is("5.3.1.8", 0, 0);
    o.number = 0x60344931;
    CHECK(writes(e, o, UJ_LONGEST, telegram) == 6);
    CHECK(telegram[0] == 0x31 && telegram[1] == 0x06 && memcmp(telegram + 2, printed + 2, 4) != 0);
    CHECK(word(32, implicit, 8, telegram, 6) == 0); /* the method of 10.2.1.2 */
    CHECK(passes(mirrored(e), o.number, telegram, 6));
    CHECK(fails(mirrored(e), o.number, printed, 6));
}

/* The worked numbers of the scope: lengths, byte 1, idle times, version and dual bus as they are written. */
static void test_worked_lengths_and_times(void)
{
    uint8_t t[UJ_LONGEST];
    order o;

    case_is("worked lengths", 0, 0);
    CHECK(writes(usual_end(4), usual_order(DATA, 236), UJ_LONGEST, t) == 244);
    CHECK(writes(usual_end(2), usual_order(DATA, 238), UJ_LONGEST, t) == 244);
    CHECK(writes(usual_end(4), usual_order(IDLE, 0), UJ_LONGEST, t) == 8);
    CHECK(writes(usual_end(2), usual_order(IDLE, 0), UJ_LONGEST, t) == 6);
    refuses(usual_end(4), usual_order(DATA, 237), UJ_LONGEST, UJ_BAD_VALUE);
    refuses(usual_end(2), usual_order(DATA, 239), UJ_LONGEST, UJ_BAD_VALUE);
    for (int kind = REQUEST; kind <= CONFIRM; kind++) {
        case_is("worked idle times", (unsigned long)kind, 0);
        o = usual_order(kind, 0);
        writes(usual_end(4), o, UJ_LONGEST, t);
        CHECK(t[0] == 0x68 && t[6] == 0xF4 && t[7] == 0x01 && t[8] == 3 && t[9] == 0 && t[10] == 0 && t[11] == 0);
        o.idle_time = 0;
        writes(usual_end(2), o, UJ_LONGEST, t);
        CHECK(t[0] == 0x68 && t[6] == 0x00 && t[7] == 0x00 && t[8] == 3 && t[9] == 0 && t[10] == 0 && t[11] == 0);
    }
}

/* 5.1.4: plus 1 at level 4, plus 2 at level 2, and 0 comes after FFFFFFFFh. */
static void test_worked_authentication_numbers(void)
{
    static const struct {
        uint32_t level, received;
        uint8_t number[4];
    } rows[] = {
        {4, 0x89ABCDEF, {0xF0, 0xCD, 0xAB, 0x89}}, {2, 0x89ABCDEF, {0xF1, 0xCD, 0xAB, 0x89}}, {4, 0xFFFFFFFF, {0x00, 0x00, 0x00, 0x00}},
        {2, 0xFFFFFFFF, {0x01, 0x00, 0x00, 0x00}}, {4, 0xFFFFFFFE, {0xFF, 0xFF, 0xFF, 0xFF}}, {2, 0xFFFFFFFE, {0x00, 0x00, 0x00, 0x00}},
        {4, 0x000000FF, {0x00, 0x01, 0x00, 0x00}}, {2, 0x00FFFFFE, {0x00, 0x00, 0x00, 0x01}}, {4, 0x00000000, {0x01, 0x00, 0x00, 0x00}},
    };
    uint8_t telegram[UJ_LONGEST];

    for (size_t i = 0; i < sizeof rows / sizeof *rows; i++)
        for (int kind = AUTHENTICATION; kind <= ACKNOWLEDGEMENT; kind++) {
            order o = usual_order(kind, 0);
            o.received = rows[i].received;
            case_is("authentication number", i, (unsigned long)kind);
            CHECK(writes(usual_end(rows[i].level), o, UJ_LONGEST, telegram) == 6 + word_bytes(rows[i].level));
            CHECK(telegram[0] == 0x68 && memcmp(telegram + 2, rows[i].number, 4) == 0);
        }
}

/* One end writes, the mirrored end checks, and the net data come back. */
static void goes_the_whole_way(end e, order o)
{
    uint8_t telegram[UJ_LONGEST];
    const size_t length = writes(e, o, UJ_LONGEST, telegram), head = kinds[o.kind].head;

    passes_only_at(mirrored(e), o.number, telegram, length);
    has_part(telegram, length, head, o.net_length);
    CHECK(memcmp(telegram + head, o.net, o.net_length) == 0);
}

/* Each kind at both levels, between several ends and with several numbers and lengths. */
static void test_each_kind(void)
{
    static const end ends[] = {{{8, 1, 3, 3, 0}}, {{8, 1, 9, 5, 0}}, {{0, 126, 0, 62, 0}}, {{126, 0, 62, 0, 0}}, {{0, 0, 0, 0, 0}}, {{126, 126, 62, 62, 0}}};
    static const uint32_t numbers[] = {0x01234568, 0, 1, 0xFF, 0x100, 0x89ABCDEF, 0x7FFFFFFF, 0xFFFFFFFF};

    for (int kind = 0; kind < KINDS; kind++)
        for (uint32_t level = 2; level <= 4; level += 2) {
            const size_t most = most_net(kind, level), lengths[] = {0, has_net(kind), most / 3, most};
            for (size_t i = 0; i < sizeof ends / sizeof *ends; i++)
                for (size_t l = 0; l < sizeof lengths / sizeof *lengths; l++) {
                    case_is(kinds[kind].name, level, lengths[l]);
                    goes_the_whole_way(with(ends[i], LEVEL, level), usual_order(kind, lengths[l]));
                }
            for (size_t i = 0; i < sizeof numbers / sizeof *numbers; i++) {
                order o = usual_order(kind, most / 7);
                o.number = numbers[i];
                o.received = ~numbers[i];
                case_is(kinds[kind].name, level, numbers[i]);
                goes_the_whole_way(usual_end(level), o);
            }
        }
}

/* Every length of net data up to the limit is written, one past it and lengths that would wrap are refused. */
static void test_net_lengths(void)
{
    static const size_t wrapping[] = {0xFF, 0x100, 0x105, 0x128, 0x10000, 0x10005, 0x100EC};
    uint8_t telegram[UJ_LONGEST];

    for (int kind = 0; kind < KINDS; kind++)
        for (uint32_t level = 2; has_net(kind) && level <= 4; level += 2) {
            const size_t most = most_net(kind, level);
            for (size_t length = 0; length <= most + 40; length++) {
                case_is(kinds[kind].name, level, length);
                judges(usual_end(level), usual_order(kind, length), length <= most);
            }
            CHECK(writes(usual_end(level), usual_order(kind, most), UJ_LONGEST, telegram) == (kind == DISCONNECT ? 44 + word_bytes(level) : 244));
            for (size_t i = 0; i < sizeof wrapping / sizeof *wrapping; i++) {
                case_is(kinds[kind].name, level, wrapping[i]);
                refuses(usual_end(level), usual_order(kind, wrapping[i]), UJ_LONGEST, UJ_BAD_VALUE);
            }
        }
}

/* Numbers that a narrower type would take for `good`, and the greatest of all. */
enum { WRAPPING = 7 };
static uint32_t wrapping_number(size_t i, uint32_t good)
{
    static const uint32_t added[WRAPPING - 1] = {0x100, 0x10000, 0x10100, 0x1000000, 0x80000000, 0xFFFFFF00};
    return i < WRAPPING - 1 ? good + added[i] : 0xFFFFFFFF;
}

/* Every multiple of 50, its neighbours, and times that would wrap. */
static void test_idle_times(void)
{
    static const uint32_t single[] = {65500, 65535, 65536, 65600, 65636, 1638400, 1638500, 4294967200, 4294967295, 2147483700};

    for (int kind = REQUEST; kind <= CONFIRM; kind++)
        for (uint32_t level = 2; level <= 4; level += 2) {
            order o = usual_order(kind, 0);
            for (size_t i = 0; i < sizeof single / sizeof *single; i++) {
                o.idle_time = single[i];
                case_is("idle time", level, o.idle_time);
                judges(usual_end(level), o, idle_time_allowed(o.idle_time));
            }
            for (uint32_t time = 0; time <= 66000; time += time % 50 == 1 ? 48 : 1) {
                o.idle_time = time;
                case_is("idle time", level, time);
                judges(usual_end(level), o, idle_time_allowed(time));
            }
        }
}

/* A data command is named by its low six bits alone. */
static void test_commands_of_data(void)
{
    for (uint32_t level = 2; level <= 4; level += 2) {
        order o = usual_order(DATA, 3);
        for (o.command = 0; o.command < 0x200; o.command++) {
            case_is("command", level, o.command);
            judges(usual_end(level), o, is_data(o.command));
        }
        for (size_t i = 0; i < 2 * WRAPPING; i++) {
            o.command = wrapping_number(i / 2, i % 2 ? 0x09 : 0x20);
            case_is("command", level, o.command);
            refuses(usual_end(level), o, UJ_LONGEST, UJ_BAD_VALUE);
        }
    }
}

/* Type and reason of a disconnect are judged apart. */
static void test_types_and_reasons(void)
{
    static const uint32_t types[] = {0, 1, 2, 3, 0x80, 0xFF};

    for (uint32_t level = 2; level <= 4; level += 2) {
        order o = usual_order(DISCONNECT, 4);
        for (size_t t = 0; t < sizeof types / sizeof *types; t++)
            for (o.type = types[t], o.reason = 0; o.reason < 0x180; o.reason++) {
                case_is("type and reason", o.type, o.reason);
                judges(usual_end(level), o, o.type <= 1 && is_listed(o.reason));
            }
        for (size_t i = 0; i < WRAPPING; i++) {
            o.type = 0;
            o.reason = wrapping_number(i, 0x07);
            case_is("type and reason", o.type, o.reason);
            refuses(usual_end(level), o, UJ_LONGEST, UJ_BAD_VALUE);
            o.type = wrapping_number(i, i % 2);
            o.reason = 0;
            case_is("type and reason", o.type, o.reason);
            refuses(usual_end(level), o, UJ_LONGEST, UJ_BAD_VALUE);
        }
    }
}

/* Out of range in each of the five numbers: one past the limit, and numbers that would wrap into a good one. */
static const struct {
    int place;
    uint32_t past, good;
} ranges[] = {{OWN, 127, 8}, {PARTNER, 127, 1}, {PARTNER_SAP, 63, 9}, {LOCAL_SAP, 63, 5}, {LEVEL, 5, 4}, {LEVEL, 3, 2}, {LEVEL, 1, 1}, {LEVEL, 0, 0}};
enum { RANGES = sizeof ranges / sizeof *ranges, PER_RANGE = WRAPPING + 1, BAD_ENDS = RANGES * PER_RANGE };

/* The end of the tests with one number out of range; `i` is below BAD_ENDS. */
static end bad_end(uint32_t level, size_t i)
{
    size_t r = i / PER_RANGE, which = i % PER_RANGE;
    return with(usual_end(level), ranges[r].place, which == 0 ? ranges[r].past : wrapping_number(which - 1, ranges[r].good));
}

/* No writer and no check takes an end that is out of range. */
static void test_ends_refused(void)
{
    uint8_t telegram[UJ_LONGEST];

    for (int kind = 0; kind < KINDS; kind++)
        for (uint32_t level = 2; level <= 4; level += 2)
            for (size_t i = 0; i < BAD_ENDS; i++) {
                order o = usual_order(kind, 0);
                size_t length = compose(mirrored(usual_end(level)), o, telegram);
                case_is(kinds[kind].name, level, i);
                refuses(bad_end(level, i), o, UJ_LONGEST, UJ_OUT_OF_RANGE);
                CHECK(checked(bad_end(level, i), o.number, telegram, length) == UJ_OUT_OF_RANGE);
            }
}

/* Every address and every SAP in range is taken, equal ones too. */
static void test_ends_taken(void)
{
    uint8_t telegram[UJ_LONGEST];

    for (int place = OWN; place <= LOCAL_SAP; place++)
        for (uint32_t number = 0; number < (place <= PARTNER ? 127u : 63u); number++) {
            end e = with(usual_end(4), place, number);
            case_is("number in range", (unsigned long)place, number);
            size_t length = writes(e, usual_order(IDLE, 0), UJ_LONGEST, telegram);
            CHECK(passes(mirrored(e), usual_order(IDLE, 0).number, telegram, length));
        }
}

/* Room for the longest telegram is asked for, however short the telegram; more room changes nothing. */
static void test_room(void)
{
    static const size_t rooms[] = {0, 1, 6, 7, 8, 12, 100, 243, 244, 245, 255, 256, 300, 0x10000, 0x10005};
    uint8_t telegram[UJ_LONGEST];

    for (int kind = 0; kind < KINDS; kind++)
        for (uint32_t level = 2; level <= 4; level += 2)
            for (size_t i = 0; i < 2 * sizeof rooms / sizeof *rooms; i++) {
                order o = usual_order(kind, i % 2 ? most_net(kind, level) : 0);
                case_is(kinds[kind].name, level, rooms[i / 2]);
                if (rooms[i / 2] < UJ_LONGEST)
                    refuses(usual_end(level), o, rooms[i / 2], UJ_NO_ROOM);
                else
                    writes(usual_end(level), o, rooms[i / 2], telegram);
            }
}

/* Four orders with values that are not allowed, as far as the kind has them. */
enum { BAD_ORDERS = 4 };
static order bad_order(int kind, uint32_t level, int i)
{
    order o = usual_order(kind, has_net(kind) && i == 0 ? most_net(kind, level) + 1 : 0);
    o.idle_time = i == 1 ? 50 : 500;
    o.type = i == 2 ? 2 : 1;
    o.reason = i == 3 ? 0x08 : 0x05;
    o.command = i == 1 ? 0x0D : i == 2 ? 0x40 : i == 3 ? 0x89 : 0x09;
    return o;
}

/* Whether the kind has what is wrong in that order. */
static int is_bad(int kind, int i)
{
    const int net = i == 0 && has_net(kind), time = i == 1 && (kind == REQUEST || kind == CONFIRM);
    return net || time || (kind == DISCONNECT && i >= 2) || (kind == DATA && i >= 1);
}

/* Several refusals at once: the first of 1, 4, 5 is answered. */
static void test_order_of_refusals(void)
{
    for (int kind = 0; kind < KINDS; kind++)
        for (uint32_t level = 2; level <= 4; level += 2)
            for (int i = 0; i < BAD_ORDERS; i++) {
                const order bad = bad_order(kind, level, i);
                case_is(kinds[kind].name, level, (unsigned long)i);
                judges(usual_end(level), bad, !is_bad(kind, i));
                refuses(usual_end(level), bad, UJ_LONGEST - 1, UJ_NO_ROOM);
                refuses(usual_end(level), bad, 0, UJ_NO_ROOM);
                for (size_t r = 0; r < BAD_ENDS; r++) {
                    refuses(bad_end(level, r), bad, UJ_LONGEST, UJ_OUT_OF_RANGE);
                    refuses(bad_end(level, r), bad, UJ_LONGEST - 1, UJ_OUT_OF_RANGE);
                    refuses(bad_end(level, r), bad, 0, UJ_OUT_OF_RANGE);
                }
            }
}

/* Lengths that are refused, with a good telegram at their start, and an end out of range before that. */
static void test_lengths_refused(void)
{
    static const size_t lengths[] = {0, 1, 2, 3, 4, 5, 245, 246, 255, 256, 256 + 6, 256 + 8, 0x10000, 0x10000 + 6, 0x10000 + 8};
    static uint8_t long_run[0x10000 + 8];

    for (uint32_t level = 2; level <= 4; level += 2)
        for (size_t i = 0; i < sizeof lengths / sizeof *lengths; i++) {
            order o = usual_order(IDLE, 0);
            memcpy(long_run, sample, sizeof long_run);
            compose(mirrored(usual_end(level)), o, long_run);
            case_is("length refused", level, lengths[i]);
            CHECK(checked(usual_end(level), o.number, long_run, lengths[i]) == UJ_BAD_TELEGRAM);
            CHECK(checked(with(usual_end(level), OWN, 127), o.number, long_run, lengths[i]) == UJ_OUT_OF_RANGE);
            CHECK(checked(with(usual_end(level), LEVEL, 0), o.number, long_run, lengths[i]) == UJ_OUT_OF_RANGE);
            has_part(long_run, lengths[i], 0, 0);
        }
}

/* A sealed telegram whose fields are right for every kind: byte 1 and the random number agree, and byte 3 is a type of disconnect. */
static void telegram_with(uint32_t level, uint32_t number, uint8_t command, size_t length, uint8_t *telegram)
{
    memcpy(telegram, sample, UJ_LONGEST);
    put(telegram, 0, number & 0xFF, 1);
    put(telegram, 1, command, 1);
    put(telegram, 2, number, 4);
    put(telegram, 6, 500, 2);
    put(telegram, 8, 3, 4);
    seal(mirrored(usual_end(level)), number, telegram, length - word_bytes(level));
}

/* A telegram with a right check word passes exactly when its command is of the level and known, and its length suits the command. */
static void suits(uint32_t level, uint8_t command, size_t length)
{
    static const uint32_t number = 0x89ABCD01;
    uint8_t telegram[UJ_LONGEST];
    const int good = (command & 0xC0) == (level == 4 ? 0x80 : 0x00) && kind_of(command, length) >= 0;

    telegram_with(level, number, command, length, telegram);
    CHECK(good ? passes(usual_end(level), number, telegram, length) : fails(usual_end(level), number, telegram, length));
}

/* Every command at some lengths, and every kind at every length. */
static void test_commands_and_lengths(void)
{
    static const size_t bodies[] = {2, 4, 6, 7, 12, 44, 45, 100};

    for (uint32_t level = 2; level <= 4; level += 2) {
        for (unsigned command = 0; command < 0x100; command++)
            for (size_t i = 0; i < sizeof bodies / sizeof *bodies; i++) {
                case_is("command and length", command, bodies[i] + word_bytes(level));
                suits(level, (uint8_t)command, bodies[i] + word_bytes(level));
            }
        for (int kind = 0; kind < KINDS; kind++)
            for (size_t length = 2 + word_bytes(level); length <= UJ_LONGEST; length++) {
                case_is(kinds[kind].name, level, length);
                suits(level, (level == 4 ? 0x80 : 0x00) | kinds[kind].command, length);
            }
    }
}

/* Whether a telegram passes with `value` in the `bytes` bytes from `at` on, under a right check word. */
static int passes_with(uint32_t level, int kind, size_t at, uint32_t value, size_t bytes)
{
    uint8_t telegram[UJ_LONGEST];
    order o = usual_order(kind, most_net(kind, level) / 5);
    const size_t length = compose(mirrored(usual_end(level)), o, telegram);

    put(telegram, at, value, bytes);
    seal(mirrored(usual_end(level)), o.number, telegram, length - word_bytes(level));
    const uint32_t answer = checked(usual_end(level), o.number, telegram, length);
    CHECK(answer == UJ_DONE || answer >= UJ_FAILED);
    return answer == UJ_DONE;
}

/* Request and confirm: dual bus 0 or 1, an idle time that a writer would take, any version, and byte 1 as the random number has it. */
static void test_fields_of_connect(void)
{
    for (uint32_t level = 2; level <= 4; level += 2)
        for (int kind = REQUEST; kind <= CONFIRM; kind++) {
            for (uint32_t value = 0; value < 0x100; value++) {
                case_is(kinds[kind].name, level, value);
                CHECK(passes_with(level, kind, 11, value, 1) == (value <= 1));
                CHECK(passes_with(level, kind, 8, value * 0x010101, 3));
                CHECK(passes_with(level, kind, 0, value, 1) == (value == 0x68));
                CHECK(passes_with(level, kind, 2, value, 1) == (value == 0x68));
            }
            for (uint32_t time = 0; time <= 65535; time += time % 50 == 1 ? 48 : 1) {
                case_is(kinds[kind].name, level, time);
                CHECK(passes_with(level, kind, 6, time, 2) == idle_time_allowed(time));
            }
            CHECK(!passes_with(level, kind, 6, 65535, 2));
        }
}

/* Disconnect: the type is 0 or 1, and the reason any (5.2.5.9), so that a final disconnect with a reason that is not listed still passes. */
static void test_fields_of_disconnect(void)
{
    for (uint32_t level = 2; level <= 4; level += 2)
        for (uint32_t value = 0; value < 0x100; value++) {
            case_is("fields of a disconnect", level, value);
            CHECK(passes_with(level, DISCONNECT, 2, value, 1) == (value <= 1));
            CHECK(passes_with(level, DISCONNECT, 2, value << 8 | 0, 2));
            CHECK(passes_with(level, DISCONNECT, 2, value << 8 | 1, 2));
            CHECK(!passes_with(level, DISCONNECT, 2, value << 8 | 2, 2));
        }
}

/* While a confirm is awaited 0 is expected: a disconnect with number 0 passes then, one with another number does not. */
static void test_confirm_awaited(void)
{
    uint8_t telegram[UJ_LONGEST];

    for (uint32_t level = 2; level <= 4; level += 2)
        for (uint32_t number = 0; number <= 0x100; number += 0x100) {
            order o = usual_order(DISCONNECT, 3);
            o.number = number;
            case_is("confirm awaited", level, number);
            size_t length = compose(mirrored(usual_end(level)), o, telegram);
            CHECK(number == 0 ? passes(usual_end(level), 0, telegram, length) : fails(usual_end(level), 0, telegram, length));
        }
}

/* A telegram fails with any single bit changed, cut short, or with a byte more. */
static void fails_when_damaged(end e, order o)
{
    uint8_t telegram[UJ_LONGEST + 1];
    const size_t length = compose(mirrored(e), o, telegram);

    CHECK(passes(e, o.number, telegram, length));
    for (size_t bit = 0; bit < 8 * length; bit++) {
        case_is(kinds[o.kind].name, e.n[LEVEL], bit);
        telegram[bit / 8] ^= (uint8_t)(1 << bit % 8);
        CHECK(fails(e, o.number, telegram, length));
        telegram[bit / 8] ^= (uint8_t)(1 << bit % 8);
    }
    for (size_t cut = 6; cut < length; cut++) {
        case_is(kinds[o.kind].name, e.n[LEVEL], cut);
        CHECK(fails(e, o.number, telegram, cut));
    }
    telegram[length] = 0;
    CHECK(length == UJ_LONGEST || fails(e, o.number, telegram, length + 1));
}

/* One telegram of each kind, and the longest. */
static void test_damage(void)
{
    for (uint32_t level = 2; level <= 4; level += 2) {
        for (int kind = 0; kind < KINDS; kind++)
            fails_when_damaged(usual_end(level), usual_order(kind, has_net(kind) ? 9 : 0));
        fails_when_damaged(usual_end(level), usual_order(DATA, most_net(DATA, level)));
    }
}

/* Bytes that nobody sealed: all 0, all FFh, and without a pattern, at every length that is not refused. */
static void test_foreign_bytes(void)
{
    uint8_t bytes[3][UJ_LONGEST];

    memset(bytes[0], 0x00, UJ_LONGEST);
    memset(bytes[1], 0xFF, UJ_LONGEST);
    memcpy(bytes[2], sample, UJ_LONGEST);
    for (uint32_t level = 2; level <= 4; level += 2)
        for (size_t length = 6; length <= UJ_LONGEST; length++)
            for (int i = 0; i < 3; i++) {
                case_is("foreign bytes", level, length);
                CHECK(fails(usual_end(level), bytes[i][0], bytes[i], length));
            }
}

/* Where the net data lie hangs on command and length alone: every command at every length. */
static void test_net_data(void)
{
    uint8_t bytes[300];

    memcpy(bytes, sample, sizeof bytes);
    for (unsigned command = 0; command < 0x100; command++)
        for (size_t length = 0; length <= sizeof bytes; length++) {
            const int kind = kind_of((uint8_t)command, length);
            const size_t head = kind < 0 ? 0 : kinds[kind].head, word_length = command & 0x80 ? 6 : 4;
            bytes[1] = (uint8_t)command;
            case_is("net data", command, length);
            has_part(bytes, length, head, kind < 0 ? 0 : length - head - word_length);
        }
}

/* Runs longer than 2^32 bytes: a length that is cut to 32 bits would look right. */
static void test_long_runs(void)
{
    const size_t past = (size_t)1 << 32;
    uint8_t *run = mmap(NULL, past + ROOM, PROT_READ | PROT_WRITE, MAP_PRIVATE | MAP_ANONYMOUS | MAP_NORESERVE, -1, 0);
    uint8_t expected[UJ_LONGEST], out[UJ_LONGEST];

    if (run == MAP_FAILED) {
        puts("firmware: no runs longer than 2^32 bytes here, they are left out");
        return;
    }
    for (int kind = 0; kind < KINDS; kind++) {
        const end e = usual_end(4);
        order o = usual_order(kind, 0);
        size_t length = compose(e, o, expected);
        case_is(kinds[kind].name, 4, past);
        uj_written w = call_writer(e, o, NULL, run, past + 5);
        CHECK(w.answer == UJ_DONE && w.length == length && memcmp(run, expected, length) == 0);
        CHECK(uj_check(END(mirrored(e)), o.number, run, past + length) == UJ_BAD_TELEGRAM);
        CHECK(uj_net_data(run, past + length).start == 0 && uj_net_data(run, past + length).count == 0);
        o.net_length = past + 5;
        memcpy(out, sample, UJ_LONGEST);
        w = call_writer(e, o, run, out, UJ_LONGEST);
        CHECK(!has_net(kind) || (w.answer == UJ_BAD_VALUE && w.length == 0 && memcmp(out, sample, UJ_LONGEST) == 0));
    }
    munmap(run, past + ROOM);
}

int main(void)
{
    static void (*const tests[])(void) = {
        test_vectors, test_words, test_5_3_1_7, test_5_3_1_8, test_worked_lengths_and_times, test_worked_authentication_numbers, test_each_kind,
        test_net_lengths, test_idle_times, test_commands_of_data, test_types_and_reasons, test_ends_refused, test_ends_taken, test_room,
        test_order_of_refusals, test_lengths_refused, test_commands_and_lengths, test_fields_of_connect, test_fields_of_disconnect,
        test_confirm_awaited, test_damage, test_foreign_bytes, test_net_data, test_long_runs,
    };
    uint32_t state = 1;

    for (size_t i = 0; i < SAMPLE; i++) {
        state = state * 1103515245 + 12345;
        sample[i] = (uint8_t)(state >> 16);
    }
    open_rooms();
    for (size_t i = 0; i < sizeof tests / sizeof *tests; i++)
        tests[i]();
    printf("firmware: %lu checks, %lu failed\n", checks, failures);
    return failures != 0;
}
