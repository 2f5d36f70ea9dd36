/*
 * The stack that the functions of include/ujamniq.h use when they run, held to what bench/stack reads from their compiled code: no call goes deeper than the
 * figure of its function, and over all cases each function comes down to its figure. A function that is exported and has no case here does not, and fails the
 * test. What the functions do is for the other tests; here every call counts for its depth (painted.h).
 *
 * In this order: functions with known figures to try the measuring on, the check word, the writers, the check, the calls over a table, the local clock, what
 * was seen.
 */
#define _DEFAULT_SOURCE
#define PROGRAM "stack"
#include "clocks.h"
#include "nodes.h"
#include "painted.h"
#include "writers.h"

/* Functions whose figure is known: one that only returns, two with variables, of which they write the lowest byte alone, one that writes below the stack
 * pointer, and one that writes the paint. */
__asm__(".pushsection .text\n"
        "returns:\n"
        "    ret\n"
        "keeps_64:\n"
        "    subq  $64, %rsp\n"
        "    movb  $1, (%rsp)\n"
        "    addq  $64, %rsp\n"
        "    ret\n"
        "keeps_1000:\n"
        "    subq  $1000, %rsp\n"
        "    movb  $1, (%rsp)\n"
        "    addq  $1000, %rsp\n"
        "    ret\n"
        "below_21:\n"
        "    movb  $1, -21(%rsp)\n"
        "    ret\n"
        "paints_64:\n"
        "    movb  $" TEXT_OF(PAINT) ", -64(%rsp)\n"
        "    ret\n"
        ".popsection\n");
MEASURED("measured_returns", "returns", returns, 8);
MEASURED("measured_keeps_64", "keeps_64", keeps_64, 72);
MEASURED("measured_keeps_1000", "keeps_1000", keeps_1000, 1008);
MEASURED("measured_below_21", "below_21", below_21, 29);
MEASURED("measured_paints_64", "paints_64", paints_64, 72);
void measured_returns(void);
void measured_keeps_64(void);
void measured_keeps_1000(void);
void measured_below_21(void);
void measured_paints_64(void);

/* The measuring sees each known figure, on either paint; the paint itself it sees on the other one alone. */
static void test_known(void)
{
    static const struct {
        void (*call)(void);
        const function *record;
        size_t seen[2];
    } known[] = {
        {measured_returns, &figure_returns, {8, 8}},
        {measured_keeps_64, &figure_keeps_64, {72, 72}},
        {measured_keeps_1000, &figure_keeps_1000, {1008, 1008}},
        {measured_below_21, &figure_below_21, {29, 29}},
        {measured_paints_64, &figure_paints_64, {8, 72}},
    };

    for (size_t i = 0; i < 4 * sizeof known / sizeof *known; i++) {
        case_is(known[i / 4].record->name, i % 4, 0);
        known[i / 4].call();
        CHECK(known[i / 4].record->last == known[i / 4].seen[i % 2]);
    }
}

/* Bytes without a pattern, for net data and texts, and numbers without one. */
static uint8_t sample[300];
static uint32_t state = 1;

/* A number below `limit`. */
static uint32_t any(uint32_t limit)
{
    state = state * 1103515245 + 12345;
    return (state >> 16) % limit;
}

static uint32_t any_number(void)
{
    const uint32_t high = any(0x10000);
    return high << 16 | any(0x10000);
}

/* Most idle times and commands are such as may be sent, most ends are in range. */
static uint32_t any_idle_time(void)
{
    const uint32_t time = 100 * any(656);
    return any(16) ? time : time + 1;
}

static uint32_t any_command(void)
{
    return any(8) ? 0x20 + any(0x20) : any(0x40);
}

static end any_end(void)
{
    end e;

    for (int i = OWN; i <= LOCAL_SAP; i++)
        e.n[i] = any(i <= PARTNER ? 128 : 64);
    e.n[LEVEL] = any(16) ? 2 + 2 * any(2) : any(6);
    return e;
}

/* Changes one byte. */
static void damage(uint8_t *bytes, uint32_t length)
{
    const uint32_t at = any(length);
    bytes[at] ^= (uint8_t)(1 + any(255));
}

/* The check word of runs of several lengths. */
static void test_words(void)
{
    static const size_t lengths[] = {0, 1, 8, 238};

    for (int width = 32; width <= 48; width += 16)
        for (size_t i = 0; i < sizeof lengths / sizeof *lengths; i++)
            for (size_t k = 0; k < sizeof lengths / sizeof *lengths; k++) {
                case_is("word", lengths[i], lengths[k]);
                CHECK(word(width, sample, lengths[i], sample, lengths[k]) < (uint64_t)1 << width);
            }
}

static end usual_end(uint32_t level)
{
    end e = {{8, 1, 9, 5, level}};
    return e;
}

/* An order that every writer takes, with that much net data. */
static order usual_order(int kind, uint32_t number, size_t net_length)
{
    order o = {(enum kind)kind, number, 0x89ABCDEF, 500, 1, 0x05, 0x09, sample, net_length};
    return o;
}

/* The telegram that the end at the other side writes; it passes the check, and its net data are found. */
static size_t passing(end e, order o, uint8_t telegram[UJ_LONGEST])
{
    const size_t length = compose(mirrored(e), o, telegram);

    CHECK(checked(e, o.number, telegram, length) == UJ_DONE);
    has_part(telegram, length, kinds[o.kind].head, o.net_length);
    return length;
}

/* Every writer, done and refused: for an end out of range, for want of room, for a value or for the length of its net data. */
static void test_writers(void)
{
    uint8_t telegram[UJ_LONGEST];

    for (int kind = 0; kind < KINDS; kind++)
        for (uint32_t level = 2; level <= 4; level += 2) {
            const size_t most = most_net(kind, level), lengths[] = {0, has_net(kind), most / 2, most};
            const end e = usual_end(level);
            order bad = usual_order(kind, 0x01234568, has_net(kind) ? most + 1 : 0);
            for (size_t i = 0; i < sizeof lengths / sizeof *lengths; i++) {
                const order o = usual_order(kind, 0x01234568, lengths[i]);
                case_is(kinds[kind].name, level, lengths[i]);
                CHECK(written(e, o, UJ_LONGEST, telegram).answer == UJ_DONE);
                CHECK(written(with(e, LOCAL_SAP, 63), o, UJ_LONGEST, telegram).answer == UJ_OUT_OF_RANGE);
                CHECK(written(e, o, UJ_LONGEST - 1, telegram).answer == UJ_NO_ROOM);
            }
            CHECK(written(e, bad, UJ_LONGEST, telegram).answer == (has_net(kind) ? UJ_BAD_VALUE : UJ_DONE));
            bad.net_length = 0;
            bad.idle_time = bad.type = bad.reason = bad.command = 13;
            CHECK(written(e, bad, UJ_LONGEST, telegram).answer == (has_net(kind) ? UJ_BAD_VALUE : UJ_DONE));
        }
}

/* The check refuses an end out of range and lengths that no telegram has. */
static void check_refused(end e, order o, const uint8_t *telegram, size_t length)
{
    CHECK(checked(with(e, OWN, 127), o.number, telegram, length) == UJ_OUT_OF_RANGE);
    CHECK(checked(e, o.number, telegram, 5) == UJ_BAD_TELEGRAM);
    CHECK(checked(e, o.number, sample, UJ_LONGEST + 1) == UJ_BAD_TELEGRAM);
}

/* A good telegram fails with one byte changed, under a check word that is worked out anew, or is not. */
static void check_failed(end e, order o, const uint8_t *good, size_t length, size_t at, uint8_t byte, int sealed)
{
    uint8_t telegram[UJ_LONGEST];

    memcpy(telegram, good, length);
    telegram[at] = byte;
    if (sealed)
        seal(mirrored(e), o.number, telegram, length - word_bytes(e.n[LEVEL]));
    CHECK(checked(e, o.number, telegram, length) >= UJ_FAILED);
    uj_net_data(telegram, length);
}

/* The check passes, and fails at each of its clauses: level, command, length, number, fields, word. */
static void test_check(void)
{
    uint8_t telegram[UJ_LONGEST];

    for (int kind = 0; kind < KINDS; kind++)
        for (uint32_t level = 2; level <= 4; level += 2) {
            const size_t most = most_net(kind, level), lengths[] = {0, most / 2, most};
            const end e = usual_end(level);
            for (size_t i = 0; i < sizeof lengths / sizeof *lengths; i++) {
                const order o = usual_order(kind, 0x01234568, lengths[i]);
                case_is(kinds[kind].name, level, lengths[i]);
                const size_t length = passing(e, o, telegram);
                check_refused(e, o, telegram, length);
                for (int sealed = 0; sealed < 2; sealed++) {
                    check_failed(e, o, telegram, length, 1, telegram[1] ^ 0x80, sealed);
                    check_failed(e, o, telegram, length, 1, telegram[1] ^ 0x40, sealed);
                    check_failed(e, o, telegram, length, 1, (telegram[1] & 0xC0) | 0x1F, sealed);
                    check_failed(e, o, telegram, length, 0, telegram[0] ^ 1, sealed);
                }
                if (kind == REQUEST || kind == CONFIRM)
                    check_failed(e, o, telegram, length, 6, 1, 1);
                if (kind == DISCONNECT)
                    check_failed(e, o, telegram, length, 2, 2, 1);
                check_failed(e, o, telegram, length, length - 1, telegram[length - 1] ^ 1, 0);
                CHECK(length == 6 || checked(e, o.number, telegram, length - 1) >= UJ_FAILED);
                CHECK(checked(e, o.number + 0x100, telegram, length) == (kind <= CONFIRM ? UJ_DONE : UJ_FAILED));
            }
        }
}

/* Orders of any kind for any end, now and then with what is not allowed; what is written is checked and read, whole or with one byte changed. */
static void test_any_telegrams(void)
{
    for (unsigned long i = 0; i < 3000; i++) {
        const end e = any_end();
        uint8_t telegram[UJ_LONGEST];
        order o = usual_order((int)any(KINDS), 0, 0);

        case_is("any telegram", i, 0);
        o.number = any_number();
        o.received = any_number();
        o.idle_time = any_idle_time();
        o.type = any(8) ? any(2) : any(3);
        o.reason = any(0x48);
        o.command = any_command();
        o.net_length = has_net(o.kind) ? any((uint32_t)most_net(o.kind, e.n[LEVEL]) + 2) : 0;
        const uj_written w = written(e, o, any(16) ? UJ_LONGEST : any(UJ_LONGEST), telegram);
        const int damaged = w.answer == UJ_DONE && any(4) == 0;
        if (damaged)
            damage(telegram, w.length);
        CHECK(w.answer != UJ_DONE || checked(mirrored(e), o.number, telegram, w.length) == (damaged ? UJ_FAILED : UJ_DONE));
        checked(e, any_number(), telegram, w.length);
        uj_net_data(telegram, w.length);
        word(i % 2 ? 48 : 32, sample, any(sizeof sample), telegram, w.length);
    }
}

/* The node of the tests, its partner, the time up to which it has come, and the numbers that a record sends and expects next. */
enum { HERE = 8, THERE = 1, LATEST = 10000, SENDING = 0x1234, EXPECTED = 0xA000 };

/* What the calls have done so far: each telegram with each event, and each refusal. */
static struct {
    unsigned long done[CALLS][UJ_TELEGRAM_DATA + 1][UJ_EVENT_CLOSED + 1], refused[CALLS][UJ_TOO_FEW_PAIRS];
} seen;

static uj_outcome called(node *n, asked a)
{
    const uj_outcome o = call(n, a);

    if (o.answer.number == UJ_DONE)
        seen.done[a.which][o.answer.telegram][o.happened.event]++;
    else
        seen.refused[a.which][o.answer.number]++;
    return o;
}

/* A call that is good as far as it does not hang on the record; the telegram received is none. */
static asked usual(enum which which, uint64_t time, size_t place)
{
    asked a = {which, time, place, THERE, 5, 9, 0x89ABCDEF, 0, 0, 1, 0x20, 0x09, sample, sample, 6, 0, UJ_LONGEST};
    return a;
}

/* A record in the phase. The numbers are such that the partner's telegrams below are good; while a confirm is awaited none is expected. */
static uj_record record_in(uint32_t phase, uint32_t level, uint32_t partner_sap, uint32_t local_sap)
{
    uj_record r = uj_fresh(THERE, partner_sap, local_sap, level);

    r.phase = phase;
    if (phase == UJ_CLOSED || phase == UJ_FINALLY_CLOSED)
        return r;
    r.sending = SENDING;
    r.expected = phase == UJ_CONFIRM_AWAITED ? 0 : EXPECTED;
    r.declared = r.watched = 500;
    r.sent_at = r.taken_at = LATEST;
    return r;
}

/* A node whose last record is in the phase, under the SAP that `usual` names. The records before it are open, at either level. */
static node node_in(uint32_t phase, uint32_t level, size_t count)
{
    node n;

    memset(&n, 0, sizeof n);
    n.head = uj_new_head(HERE);
    n.head.latest = LATEST;
    n.count = count;
    for (uint32_t i = 0; i + 1 < count; i++)
        n.table[i] = record_in(UJ_OPEN, 2 + i % 2 * 2, i, 6);
    n.table[count - 1] = record_in(phase, level, 9, 5);
    return n;
}

/* Faults of a telegram: a number that is not expected, a wrong check word, the other level, and, with a right check word, a wrong number returned, another
 * version, a final disconnect or a command that is none. */
enum fault { NO_FAULT, BAD_NUMBER, BAD_WORD, BAD_LEVEL, BAD_FIELD, FAULTS };

/* The telegram of the kind that the partner sends to the record of node_in. */
static size_t partners(int kind, enum fault fault, const uj_record *r, size_t net_length, uint8_t telegram[UJ_LONGEST])
{
    const end e = {{THERE, HERE, r->local_sap, r->partner_sap, r->level}};
    order o = usual_order(kind, r->expected + (fault == BAD_NUMBER), net_length);

    /* The random number was that of our first telegram; an acknowledgement finds the authentication sent too. */
    o.received = r->sending - (fault == BAD_FIELD ? 0 : kind == ACKNOWLEDGEMENT ? 2 : 1);
    o.type = fault != BAD_FIELD;
    size_t length = compose(e, o, telegram);
    if (fault == BAD_FIELD && (kind == REQUEST || kind == CONFIRM)) {
        telegram[8] = 4;
        length = seal(e, o.number, telegram, length - word_bytes(r->level));
    }
    if (fault == BAD_FIELD && kind == DATA)
        telegram[1] ^= 0x10;
    if (fault == BAD_LEVEL)
        telegram[1] ^= 0x80;
    if (fault == BAD_WORD)
        telegram[length - 1] ^= 1;
    return length;
}

/* In time; when idle is due; when the partner has been silent for too long; when any wait has. */
static const uint64_t times[] = {LATEST, LATEST + 300, LATEST + 600, LATEST + 6000};
enum { TIMES = sizeof times / sizeof *times };

/* Every telegram, good and with each fault, comes to a record in the phase: without net data and with the most, for a confirm that would answer it too. */
static void receives(uint32_t phase, uint32_t level, size_t count)
{
    uint8_t telegram[UJ_LONGEST];

    for (int kind = 0; kind < KINDS; kind++)
        for (int fault = 0; fault < FAULTS; fault++)
            for (int i = 0; i < 2 * TIMES; i++) {
                node n = node_in(phase, level, count);
                asked a = usual(RECEIVED, times[i / 2], 0);
                case_is(kinds[kind].name, phase, (unsigned long)fault);
                a.net_length = i % 2 ? most_net(CONFIRM, level) : 0;
                a.telegram = telegram;
                a.telegram_length = partners(kind, (enum fault)fault, &n.table[count - 1], i % 2 ? most_net(kind, level) : 0, telegram);
                called(&n, a);
            }
}

/* Every other call on a record in the phase, with net data or text of several lengths, some of them too long. */
static void calls(uint32_t phase, uint32_t level, size_t count)
{
    static const enum which others[] = {OPEN, CLOSE, SEND, TICK};
    static const size_t lengths[] = {0, 1, 40, 226, 236, 239};

    for (size_t w = 0; w < sizeof others / sizeof *others; w++)
        for (size_t t = 0; t < TIMES; t++)
            for (size_t l = 0; l < sizeof lengths / sizeof *lengths; l++) {
                node n = node_in(phase, level, count);
                asked a = usual(others[w], times[t], count - 1);
                case_is(call_names[a.which], phase, t);
                a.net_length = lengths[l];
                called(&n, a);
            }
}

/* What a call is refused for beside the phase: the first four by every call. */
enum spoiled { OWN_ADDRESS, ROOM_FOR_TELEGRAM, TIME_BACK, RECORD, SHORT_TELEGRAM, VALUES, LONG_NET, SPOILED };

/* Every call on a record in the phase, each time with one thing that is not allowed. */
static void refused_calls(uint32_t phase, uint32_t level, size_t count)
{
    for (int which = 0; which < CALLS; which++)
        for (int i = 0; i < SPOILED; i++) {
            node n = node_in(phase, level, count);
            asked a = usual((enum which)which, i == TIME_BACK ? LATEST - 1 : LATEST, i == RECORD ? count : count - 1);
            case_is(call_names[which], phase, (unsigned long)i);
            n.head.own = i == OWN_ADDRESS ? 127 : HERE;
            a.room = i == ROOM_FOR_TELEGRAM ? UJ_LONGEST - 1 : UJ_LONGEST;
            a.source_sap = i == RECORD ? 10 : 9;
            a.telegram_length = i == SHORT_TELEGRAM ? 5 : 6;
            if (i == VALUES)
                a.named = a.idle_time = a.reason = a.command = 13;
            a.net_length = i == LONG_NET ? 240 : 0;
            CHECK(called(&n, a).answer.number != UJ_DONE || i > RECORD);
        }
}

/* What each call can do, all of which the cases before have brought about. */
static void check_done(void)
{
    static const struct {
        enum which which;
        uint32_t telegram, event;
    } done[] = {
        {OPEN, UJ_TELEGRAM_REQUEST, UJ_EVENT_NOTHING},
        {CLOSE, UJ_TELEGRAM_DISCONNECT, UJ_EVENT_CLOSED},
        {SEND, UJ_TELEGRAM_DATA, UJ_EVENT_NOTHING},
        {RECEIVED, UJ_TELEGRAM_NONE, UJ_EVENT_NOTHING},
        {RECEIVED, UJ_TELEGRAM_CONFIRM, UJ_EVENT_NOTHING},
        {RECEIVED, UJ_TELEGRAM_AUTHENTICATION, UJ_EVENT_NOTHING},
        {RECEIVED, UJ_TELEGRAM_ACKNOWLEDGEMENT, UJ_EVENT_OPENED},
        {RECEIVED, UJ_TELEGRAM_NONE, UJ_EVENT_OPENED},
        {RECEIVED, UJ_TELEGRAM_NONE, UJ_EVENT_DATA},
        {RECEIVED, UJ_TELEGRAM_NONE, UJ_EVENT_CLOSED},
        {RECEIVED, UJ_TELEGRAM_DISCONNECT, UJ_EVENT_CLOSED},
        {TICK, UJ_TELEGRAM_NONE, UJ_EVENT_NOTHING},
        {TICK, UJ_TELEGRAM_IDLE, UJ_EVENT_NOTHING},
        {TICK, UJ_TELEGRAM_DISCONNECT, UJ_EVENT_CLOSED},
    };

    for (size_t i = 0; i < sizeof done / sizeof *done; i++)
        CHECK(seen.done[done[i].which][done[i].telegram][done[i].event] != 0);
}

/* The same of the numbers that each call can be refused with, as the header lists them. */
static void check_refusals(void)
{
    static const char *const numbers[CALLS] = {"1472835", "1472835", "1472835", "1476285", "14728"};

    for (int which = 0; which < CALLS; which++)
        for (const char *number = numbers[which]; *number; number++)
            CHECK(seen.refused[which][*number - '0'] != 0);
}

/* Each call in every phase, over the shortest table and the longest, at both levels. */
static void test_calls(void)
{
    for (uint32_t level = 2; level <= 4; level += 2)
        for (size_t count = 1; count <= UJ_MOST_RECORDS; count += UJ_MOST_RECORDS - 1) {
            memset(&seen, 0, sizeof seen);
            for (uint32_t phase = UJ_CLOSED; phase <= UJ_FINALLY_CLOSED; phase++) {
                receives(phase, level, count);
                calls(phase, level, count);
                refused_calls(phase, level, count);
            }
            case_is("seen", level, count);
            check_done();
            check_refusals();
        }
}

/* Two nodes with a number of connections between them, all closed. */
static void set_up(node nodes[2], size_t count)
{
    for (uint32_t i = 0; i < 2; i++) {
        memset(&nodes[i], 0, sizeof nodes[i]);
        nodes[i].head = uj_new_head(i ? THERE : HERE);
        nodes[i].count = count;
        for (uint32_t k = 0; k < count; k++)
            nodes[i].table[k] = uj_fresh(i ? HERE : THERE, k % 63, k / 63, k % 3 ? 4 : 2);
    }
    for (uint32_t k = 0; k < count; k++) {
        nodes[1].table[k].partner_sap = nodes[0].table[k].local_sap;
        nodes[1].table[k].local_sap = nodes[0].table[k].partner_sap;
    }
}

/* Any call, for the record at the place; most are good. What the other node has written is received, where that is on its way. */
static asked any_call(const node *other, uint64_t time, size_t place)
{
    static const enum which unasked[] = {OPEN, OPEN, SEND, SEND, TICK, TICK, CLOSE, RECEIVED};
    const uj_record *r = &other->table[place];
    const int arrives = other->length > 0 && any(16);
    asked a = usual(arrives ? RECEIVED : unasked[any(sizeof unasked / sizeof *unasked)], time, place);

    a.sender = other->head.own;
    a.destination_sap = r->partner_sap;
    a.source_sap = r->local_sap;
    a.random = any_number();
    a.named = any(2);
    a.idle_time = any_idle_time();
    a.new_setup = any(8) != 0;
    a.reason = any(0x42);
    a.command = any_command();
    a.net_length = any(4) ? any(40) : any(240);
    a.room = any(32) ? UJ_LONGEST : any(UJ_LONGEST);
    if (arrives) {
        a.telegram = other->out;
        a.telegram_length = other->length;
    }
    return a;
}

/* Two nodes go any way together, for a while each time from anew: they open, send, close and receive, with a bus between them that loses, repeats and changes
 * telegrams at times, and time passes, mostly little. */
static void test_any_calls(void)
{
    static node nodes[2];
    uint64_t time = 0;
    size_t place = 0;

    memset(&seen, 0, sizeof seen);
    for (unsigned long i = 0; i < 6000; i++) {
        if (i % 100 == 0) {
            set_up(nodes, i % 200 ? 1 : 1 + any(UJ_MOST_RECORDS));
            place = any((uint32_t)nodes[0].count);
        }
        const int which = nodes[1].length ? 0 : nodes[0].length ? 1 : (int)any(2);
        node *n = &nodes[which], *other = &nodes[1 - which];
        case_is("any call", i, n->count);
        time += any(8) ? any(50) : any(32) ? any(500) : 5001;
        if (any(32) == 0)
            place = any((uint32_t)n->count);
        if (any(32) == 0)
            damage(other->out, UJ_LONGEST);
        called(n, any_call(other, time, place));
        if (any(32))
            other->length = 0;
    }
    check_done();
}

/* Bytes that are a message of the clock, and bytes that are none, for their length or their first three. */
static void test_read(void)
{
    uint8_t bytes[12];

    for (unsigned i = 0; i < 64; i++) {
        const uint8_t prefix[] = {(uint8_t)(3 + i % 2), (uint8_t)(i / 2 % 2), (uint8_t)(i / 4 % 2)};
        const size_t length = i / 32 ? 11 : i % 13;
        case_is("read", i, length);
        memcpy(bytes, sample + i, sizeof bytes);
        memcpy(bytes, prefix, sizeof prefix);
        CHECK((read_bytes(bytes, length).answer == UJ_DONE) == (length == 11 && i % 8 == 0));
    }
}

/* A clock from power-on until it is isolated, with messages that are taken, lost, dropped, late and wrong, over the end of a period. */
static void test_clock(void)
{
    for (size_t i = 0; i < STARTS; i++) {
        bus b = synchronised(starts[i]), late;
        case_is("clock", i, 0);
        check_factor(&b.clock, b.local, ahead(starts[i]));
        check_nothing_told(&b.clock, b.local + 3001);
        keeps(&b, 70, 500);
        drops(&b);
        lose_after(&b, 500);
        CHECK(hear_after(&b, 500) == UJ_CLOCK_KEPT);
        keeps(&b, 1, 500);
        late = b;
        pass(&late, 3500, 3500);
        answers(late, UJ_CLOCK_TOO_LATE);
        b.reference += 100;
        CHECK(hear_after(&b, 500) == UJ_CLOCK_RESYNCHRONISED);
        pass(&b, 500, 500);
        answers(b, UJ_CLOCK_SHORT_TERM);
        CHECK(hear(&b) == UJ_CLOCK_SHORT_TERM && hear_after(&b, 500) == UJ_CLOCK_STAYS_ISOLATED);
        check_nothing_told(&b.clock, b.local);
    }
}

/* The message that ends a period: it is taken, or fails at one of the tests. */
static void test_period(void)
{
    static const uint32_t expected[] = {UJ_CLOCK_RESYNCHRONISED, UJ_CLOCK_TOO_FEW, UJ_CLOCK_LONG_TERM, UJ_CLOCK_NO_FACTOR, UJ_CLOCK_REFERENCE_NOT_LATER};

    for (unsigned i = 0; i < sizeof expected / sizeof *expected; i++) {
        bus b = laid_bus(49000);
        case_is("period", i, 0);
        b.clock.period.messages = i == 1 ? 17 : 18;
        b.clock.period.factor += i == 2 ? 31 : 0;
        b.clock.count = i == 3 ? 15 : 16;
        b.carried -= i == 4 ? 500 : 0;
        answers(b, expected[i]);
    }
}

/* Any messages, most of them good, and questions at any moment; a clock that is isolated gives way to a new one. */
static void test_any_messages(void)
{
    bus b = new_bus(FIRST, starts[0]);

    for (unsigned long i = 0; i < 6000; i++) {
        const uint32_t ms = any(64) ? 400 + any(300) : any(5000);
        case_is("any message", i, b.clock.state);
        if (b.clock.state == UJ_CLOCK_ISOLATED && any(4) == 0)
            b = new_bus(FIRST, starts[any(STARTS)]);
        pass(&b, ms, ms + (any(8) ? 0 : any(3)));
        if (any(64) == 0)
            b.number -= any(3);
        if (any(64) == 0)
            b.carried += any(200);
        if (any(32) == 0)
            sent(&b);
        hear(&b);
        for (int k = 0; k < 2; k++) {
            const uj_local_time moment = local_time(b.local + any(3200));
            CHECK(uj_clock_factor(&b.clock, moment).answer == uj_clock_reference_time(&b.clock, moment).answer);
        }
    }
}

/* Every function has come down to its figure. */
static void test_figures(void)
{
    for (size_t i = 0; i < sizeof functions / sizeof *functions; i++) {
        const function *f = functions[i];
        printf("stack: %-25s %4zu bytes by the code, %4zu seen\n", f->name, f->figure, f->deepest);
        case_is(f->name, f->figure, f->deepest);
        CHECK(f->deepest == f->figure);
    }
}

int main(void)
{
    static void (*const tests[])(void) = {
        test_known, test_words, test_writers, test_check, test_any_telegrams, test_calls, test_any_calls, test_read, test_clock, test_period,
        test_any_messages, test_figures,
    };

    for (size_t i = 0; i < sizeof sample; i++)
        sample[i] = (uint8_t)any(0x100);
    open_rooms();
    open_room(&table_room);
    open_room(&clock_room);
    for (size_t i = 0; i < sizeof tests / sizeof *tests; i++)
        tests[i]();
    printf("stack: %lu checks, %lu failed\n", checks, failures);
    return failures != 0;
}
