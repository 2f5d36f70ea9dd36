/*
 * The calls of include/ujamniq.h over a table, held to SUBSET-057 version 2.2.0 and to the rules of the scope. Clause numbers are those of
 * SUBSET-057.
 *
 * In this order: the layout and the constructors, whole connections of two nodes, times, closing, what is refused and in which order, tables,
 * matching.
 */
#define _DEFAULT_SOURCE
#define PROGRAM "node"
#include "nodes.h"

/* What firmware and library must agree on, byte by byte. */
#define HAS_SIZE(type, size) _Static_assert(sizeof(type) == (size), #type)
HAS_SIZE(uj_record, 56);
HAS_SIZE(uj_head, 16);
HAS_SIZE(uj_answer, 12);
HAS_SIZE(uj_happened, 24);
HAS_SIZE(uj_outcome, 56);
#define LIES(type, field, at) _Static_assert(offsetof(type, field) == (at), #type "." #field)
LIES(uj_record, partner, 0);
LIES(uj_record, partner_sap, 4);
LIES(uj_record, local_sap, 8);
LIES(uj_record, level, 12);
LIES(uj_record, phase, 16);
LIES(uj_record, sending, 20);
LIES(uj_record, expected, 24);
LIES(uj_record, declared, 28);
LIES(uj_record, watched, 32);
LIES(uj_record, sent_at, 40);
LIES(uj_record, taken_at, 48);
LIES(uj_head, own, 0);
LIES(uj_head, latest, 8);
LIES(uj_answer, number, 0);
LIES(uj_answer, telegram, 4);
LIES(uj_answer, length, 8);
LIES(uj_happened, event, 0);
LIES(uj_happened, command, 4);
LIES(uj_happened, start, 8);
LIES(uj_happened, count, 12);
LIES(uj_happened, reason, 16);
LIES(uj_happened, last, 20);
LIES(uj_outcome, head, 0);
LIES(uj_outcome, answer, 16);
LIES(uj_outcome, happened, 28);

/* Bytes without a pattern, for net data. */
static uint8_t sample[300];

/* The addresses and random numbers of 5.3.1.7: node 8 opens to node 1. */
enum { OPENER = 8, RESPONDER = 1 };
static const uint32_t opener_random = 0x01234567, responder_random = 0x89ABCDEF;

/* A node with one fresh record. */
static node new_node(uint32_t own, uint32_t partner, uint32_t partner_sap, uint32_t local_sap, uint32_t level)
{
    node n;

    memset(&n, 0, sizeof n);
    n.head = uj_new_head(own);
    n.table[0] = uj_fresh(partner, partner_sap, local_sap, level);
    n.count = 1;
    return n;
}

/* A call that is good as far as it does not hang on the record; an idle time of 500 is named. */
static asked usual(enum which which, uint64_t time)
{
    asked a = {which, time, 0, 0, 0, 0, opener_random, 1, 500, 1, 0x20, 0x09, sample, sample, 0, 0, UJ_LONGEST};
    return a;
}

/* What the other node is asked when the telegram that `from` wrote last, for its record at the place, comes in. */
static asked delivered(const node *from, size_t place, uint64_t time)
{
    const uj_record *r = &from->table[place];
    asked a = usual(RECEIVED, time);

    a.sender = from->head.own;
    a.destination_sap = r->partner_sap;
    a.source_sap = r->local_sap;
    a.random = responder_random;
    a.telegram = from->out;
    a.telegram_length = from->length;
    return a;
}

/* An order of that kind, with the values that `usual` names. */
static order usual_order(enum kind kind, uint32_t number)
{
    order o = {kind, number, 0, 500, 1, 0x20, 0x09, sample, 0};
    return o;
}

/* The node answered 0 and wrote, for its record at the place, exactly what the papers say. */
static void check_wrote(const node *n, size_t place, uj_outcome o, order expected)
{
    const uj_record *r = &n->table[place];
    const end e = {{n->head.own, r->partner, r->partner_sap, r->local_sap, r->level}};
    uint8_t telegram[UJ_LONGEST];
    const size_t length = compose(e, expected, telegram);

    CHECK(o.answer.number == UJ_DONE && o.answer.telegram == (uint32_t)expected.kind + 1);
    CHECK(o.answer.length == length && n->length == length && memcmp(n->out, telegram, length) == 0);
}

/* The node answered 0 and wrote nothing. */
static void check_quiet(uj_outcome o)
{
    CHECK(o.answer.number == UJ_DONE && o.answer.telegram == UJ_TELEGRAM_NONE);
}

/* The event is closed, with that reason, and the record is at rest in the phase that goes with it. */
static void check_closed(const node *n, uj_outcome o, uint32_t reason, uint32_t last)
{
    uj_record r = uj_fresh(n->table[0].partner, n->table[0].partner_sap, n->table[0].local_sap, n->table[0].level);

    r.phase = last ? UJ_FINALLY_CLOSED : UJ_CLOSED;
    CHECK(o.happened.event == UJ_EVENT_CLOSED && o.happened.reason == reason && o.happened.last == last);
    CHECK(same_record(&n->table[0], &r));
}

/* Both ends of one connection. */
typedef struct pair {
    node opener, responder;
} pair;

static pair new_pair(uint32_t opener_sap, uint32_t responder_sap, uint32_t level)
{
    pair p = {new_node(OPENER, RESPONDER, responder_sap, opener_sap, level), new_node(RESPONDER, OPENER, opener_sap, responder_sap, level)};
    return p;
}

/* The first of the four telegrams, at time 1000. */
static void request(pair *p)
{
    const uj_outcome o = call(&p->opener, usual(OPEN, 1000));

    check_wrote(&p->opener, 0, o, usual_order(REQUEST, opener_random));
    CHECK(o.happened.event == UJ_EVENT_NOTHING && p->opener.table[0].phase == UJ_CONFIRM_AWAITED && p->opener.table[0].declared == 500);
}

/* The second, at time 1010. */
static void confirm(pair *p)
{
    const uj_outcome o = call(&p->responder, delivered(&p->opener, 0, 1010));

    check_wrote(&p->responder, 0, o, usual_order(CONFIRM, responder_random));
    CHECK(o.happened.event == UJ_EVENT_NOTHING && p->responder.table[0].phase == UJ_AUTHENTICATION_AWAITED && p->responder.table[0].watched == 500);
}

/* The third, at time 1020. */
static void authenticate(pair *p)
{
    const uj_outcome o = call(&p->opener, delivered(&p->responder, 0, 1020));
    order expected = usual_order(AUTHENTICATION, opener_random + 1);

    expected.received = responder_random;
    check_wrote(&p->opener, 0, o, expected);
    CHECK(o.happened.event == UJ_EVENT_NOTHING && p->opener.table[0].phase == UJ_ACKNOWLEDGEMENT_AWAITED);
}

/* The fourth, at time 1030, with which the responder's end is open. */
static void acknowledge(pair *p)
{
    const uj_outcome o = call(&p->responder, delivered(&p->opener, 0, 1030));
    order expected = usual_order(ACKNOWLEDGEMENT, responder_random + 1);

    expected.received = opener_random;
    check_wrote(&p->responder, 0, o, expected);
    CHECK(o.happened.event == UJ_EVENT_OPENED && p->responder.table[0].phase == UJ_OPEN);
}

/* The opener takes the acknowledgement, at time 1040, and its end is open too. */
static void open_opener(pair *p)
{
    const uj_outcome o = call(&p->opener, delivered(&p->responder, 0, 1040));

    check_quiet(o);
    CHECK(o.happened.event == UJ_EVENT_OPENED && p->opener.table[0].phase == UJ_OPEN);
}

/* A connection that is open at both ends since the times above; SAPs that differ, so that none can be taken for the other unseen. */
static pair open_pair(uint32_t level)
{
    pair p = new_pair(5, 9, level);

    request(&p);
    confirm(&p);
    authenticate(&p);
    acknowledge(&p);
    open_opener(&p);
    return p;
}

/* The constructors take any numbers, and leave the judgement to the calls. */
static void test_constructors(void)
{
    static const uint32_t numbers[] = {0, 8, 126, 127, 256, 0xFFFFFFFF};

    for (size_t i = 0; i < sizeof numbers / sizeof *numbers; i++) {
        const uint32_t x = numbers[i];
        const uj_head h = uj_new_head(x);
        const uj_record r = uj_fresh(x, x + 1, x + 2, x + 3), expected = {x, x + 1, x + 2, x + 3, UJ_CLOSED, 0, 0, 0, 0, 0, 0};
        case_is("constructors", x, 0);
        CHECK(h.own == x && h.latest == 0);
        CHECK(same_record(&r, &expected));
    }
}

/* 5.3.1.7: the authentication and its acknowledgement are the telegrams printed there. */
static void test_5_3_1_7(void)
{
    static const uint8_t printed[2][12] = {{0x68, 0x83, 0xF0, 0xCD, 0xAB, 0x89, 0x20, 0x2A, 0x5D, 0xE9, 0xBA, 0x6D},
                                           {0xF0, 0x84, 0x68, 0x45, 0x23, 0x01, 0xA6, 0x2A, 0x71, 0x97, 0xC5, 0x85}};
    pair p = new_pair(3, 3, 4);

    case_is("5.3.1.7", 0, 0);
    request(&p);
    confirm(&p);
    authenticate(&p);
    CHECK(p.opener.length == 12 && memcmp(p.opener.out, printed[0], 12) == 0);
    acknowledge(&p);
    CHECK(p.responder.length == 12 && memcmp(p.responder.out, printed[1], 12) == 0);
    open_opener(&p);
}

/* Data of that length and command go over, and the net data lie in the telegram that was given. */
static void goes_over(node *from, node *to, uint64_t time, uint32_t command, size_t length)
{
    asked a = usual(SEND, time);
    order expected = usual_order(DATA, from->table[0].sending);

    a.command = expected.command = command;
    a.net_length = expected.net_length = length;
    uj_outcome o = call(from, a);
    check_wrote(from, 0, o, expected);
    CHECK(o.happened.event == UJ_EVENT_NOTHING);
    o = call(to, delivered(from, 0, time));
    check_quiet(o);
    CHECK(o.happened.event == UJ_EVENT_DATA && o.happened.command == command && o.happened.start == 2 && o.happened.count == length);
    CHECK(o.happened.start + o.happened.count <= from->length && memcmp(from->out + o.happened.start, sample, length) == 0);
}

/* A whole set-up at both levels, and data both ways. */
static void test_data(void)
{
    static const uint32_t commands[] = {0x09, 0x20, 0x2A, 0x3F};

    for (uint32_t level = 2; level <= 4; level += 2) {
        pair p = open_pair(level);
        for (size_t i = 0; i < sizeof commands / sizeof *commands; i++) {
            const size_t most = most_net(DATA, level), lengths[] = {0, 1, most / 2, most};
            case_is("data", level, lengths[i]);
            goes_over(&p.opener, &p.responder, 1100, commands[i], lengths[i]);
            goes_over(&p.opener, &p.responder, 1100, commands[i], lengths[i]);
            goes_over(&p.responder, &p.opener, 1100, commands[i], lengths[i]);
        }
    }
}

/* A telegram of before, or one with a bit changed, brings no data: the record is closed with 06h, and the partner is told. */
static void test_bad_telegrams(void)
{
    for (uint32_t level = 2; level <= 4; level += 2)
        for (int again = 0; again < 2; again++) {
            pair p = open_pair(level);
            case_is("bad telegram", level, (unsigned long)again);
            goes_over(&p.opener, &p.responder, 1100, 0x09, 10);
            order expected = usual_order(DISCONNECT, p.responder.table[0].sending);
            expected.reason = 0x06;
            if (!again) {
                call(&p.opener, usual(SEND, 1100));
                p.opener.out[3] ^= 0x10;
            }
            const uj_outcome o = call(&p.responder, delivered(&p.opener, 0, 1100));
            check_wrote(&p.responder, 0, o, expected);
            check_closed(&p.responder, o, 0x06, 0);
        }
}

/* An opening or confirm that names no idle time declares 1,000, whatever stands beside the flag; any flag but 0 names
   one, and naming 0 is naming one. */
static void test_idle_time_named(void)
{
    static const struct {
        uint32_t named, idle_time, declared;
    } rows[] = {{0, 0, 1000},  {0, 50, 1000},     {0, 65535, 1000},  {1, 0, 0},         {1, 100, 100},
                {1, 500, 500}, {2, 65500, 65500}, {0x100, 300, 300}, {0x80000000, 0, 0}};

    for (size_t i = 0; i < 2 * sizeof rows / sizeof *rows; i++) {
        pair p = new_pair(5, 9, i % 2 ? 4 : 2);
        asked a = usual(OPEN, 1000);
        order expected = usual_order(REQUEST, opener_random);
        const uint32_t declared = expected.idle_time = rows[i / 2].declared;

        case_is("idle time named", rows[i / 2].named, rows[i / 2].idle_time);
        a.named = rows[i / 2].named;
        a.idle_time = rows[i / 2].idle_time;
        check_wrote(&p.opener, 0, call(&p.opener, a), expected);
        CHECK(p.opener.out[6] == (declared & 0xFF) && p.opener.out[7] == declared >> 8);
        a = delivered(&p.opener, 0, 1010);
        a.named = rows[i / 2].named;
        a.idle_time = rows[i / 2].idle_time;
        expected.kind = CONFIRM;
        expected.number = responder_random;
        check_wrote(&p.responder, 0, call(&p.responder, a), expected);
        CHECK(p.opener.table[0].declared == declared && p.responder.table[0].declared == declared && p.responder.table[0].watched == declared);
    }
}

/* Idle is due once half of the time declared has passed since we last sent, and not before; the partner takes it. */
static void test_idle(void)
{
    for (uint32_t level = 2; level <= 4; level += 2) {
        pair p = open_pair(level);
        const uint32_t number = p.opener.table[0].sending;
        case_is("idle", level, 0);
        check_quiet(call(&p.opener, usual(TICK, 1020 + 249)));
        check_wrote(&p.opener, 0, call(&p.opener, usual(TICK, 1020 + 250)), usual_order(IDLE, number));
        CHECK(p.opener.length == (level == 4 ? 8u : 6u));
        uj_outcome o = call(&p.responder, delivered(&p.opener, 0, 1280));
        check_quiet(o);
        CHECK(o.happened.event == UJ_EVENT_NOTHING && p.responder.table[0].taken_at == 1280);
        check_quiet(call(&p.opener, usual(TICK, 1020 + 250)));
        p.opener.table[0].declared = 0;
        check_quiet(call(&p.opener, usual(TICK, 1040 + 500)));
    }
}

/* A node whose record sent and took its last telegrams at these times, where neither end named an idle time: idle is due
   500 after it last sent, and not before; 1,000 of silence are borne, and 1,001 close with 05h. */
static void check_keeps_1000(node n, uint64_t sent_at, uint64_t taken_at)
{
    const uint32_t number = n.table[0].sending;
    node silent = n;
    order expected = usual_order(DISCONNECT, number);

    check_quiet(call(&n, usual(TICK, sent_at + 499)));
    check_wrote(&n, 0, call(&n, usual(TICK, sent_at + 500)), usual_order(IDLE, number));
    silent.table[0].declared = 0; /* so that no idle telegram is due */
    check_quiet(call(&silent, usual(TICK, taken_at + 1000)));
    const uj_outcome o = call(&silent, usual(TICK, taken_at + 1001));
    expected.reason = 0x05;
    check_wrote(&silent, 0, o, expected);
    check_closed(&silent, o, 0x05, 0);
}

static void test_no_idle_time_named(void)
{
    for (uint32_t level = 2; level <= 4; level += 2) {
        pair p = new_pair(5, 9, level);
        asked a = usual(OPEN, 1000);

        case_is("no idle time named", level, 0);
        a.named = a.idle_time = 0;
        call(&p.opener, a);
        a = delivered(&p.opener, 0, 1010);
        a.named = a.idle_time = 0;
        call(&p.responder, a);
        authenticate(&p);
        acknowledge(&p);
        open_opener(&p);
        check_keeps_1000(p.opener, 1020, 1040);
        check_keeps_1000(p.responder, 1030, 1030);
    }
}

/* The watch takes the partner's time: a gap equal to it is allowed, one more closes with 05h. */
static void test_watch(void)
{
    for (uint32_t level = 2; level <= 4; level += 2) {
        pair p = open_pair(level);
        case_is("watch", level, 0);
        p.opener.table[0].declared = 0; /* so that no idle telegram is due */
        p.opener.table[0].watched = 700;
        order expected = usual_order(DISCONNECT, p.opener.table[0].sending);
        expected.reason = 0x05;
        check_quiet(call(&p.opener, usual(TICK, 1040 + 700)));
        const uj_outcome o = call(&p.opener, usual(TICK, 1040 + 701));
        check_wrote(&p.opener, 0, o, expected);
        check_closed(&p.opener, o, 0x05, 0);
    }
}

/* A wait has failed one millisecond after it has lasted 5,000; before, the tick does nothing. */
static void wait_fails(node *n, uint64_t since, uint32_t reason, uint32_t last)
{
    order expected = usual_order(DISCONNECT, n->table[0].sending);

    expected.reason = reason;
    expected.type = last ? 0 : 1;
    check_quiet(call(n, usual(TICK, since + 5000)));
    const uj_outcome o = call(n, usual(TICK, since + 5001));
    check_wrote(n, 0, o, expected);
    check_closed(n, o, reason, last);
}

/* The three waits, and a telegram that comes when the wait is just over. */
static void test_waits(void)
{
    for (uint32_t level = 2; level <= 4; level += 2) {
        pair p = new_pair(5, 9, level);
        case_is("waits", level, 0);
        request(&p);
        pair first = p;
        wait_fails(&first.opener, 1000, 0x02, 0);
        confirm(&p);
        pair second = p;
        wait_fails(&second.responder, 1010, 0x03, 1);
        second = p;
        CHECK(call(&second.opener, delivered(&second.responder, 0, 1000 + 5000)).answer.telegram == UJ_TELEGRAM_AUTHENTICATION);
        second = p;
        check_closed(&second.opener, call(&second.opener, delivered(&second.responder, 0, 1000 + 5001)), 0x02, 0);
        authenticate(&p);
        wait_fails(&p.opener, 1020, 0x03, 1);
    }
}

/* A close writes a disconnect with its text, and the partner's record closes with the reason, finally or not as the type says. */
static void test_close(void)
{
    for (uint32_t level = 2; level <= 4; level += 2)
        for (uint32_t new_setup = 0; new_setup < 2; new_setup++) {
            pair p = open_pair(level);
            asked a = usual(CLOSE, 2000);
            order expected = usual_order(DISCONNECT, p.opener.table[0].sending);
            case_is("close", level, new_setup);
            p.responder.table[0].watched = 0; /* so that the watch has not run out by then */
            a.new_setup = expected.type = new_setup;
            a.reason = expected.reason = 0x40;
            a.net_length = expected.net_length = 40;
            uj_outcome o = call(&p.opener, a);
            check_wrote(&p.opener, 0, o, expected);
            check_closed(&p.opener, o, 0x40, !new_setup);
            o = call(&p.responder, delivered(&p.opener, 0, 2010));
            check_quiet(o);
            check_closed(&p.responder, o, 0x40, !new_setup);
            o = call(&p.opener, usual(OPEN, 2020));
            CHECK(o.answer.number == (new_setup ? UJ_DONE : UJ_ENDED));
            o = call(&p.responder, delivered(&p.opener, 0, 2030));
            CHECK(o.answer.number == (new_setup ? UJ_DONE : UJ_BAD_TELEGRAM));
            CHECK(o.answer.telegram == (new_setup ? UJ_TELEGRAM_CONFIRM : UJ_TELEGRAM_NONE));
        }
}

/* The numbers a call can answer, in the order of the scope. */
static const uint32_t refusals[] = {UJ_OUT_OF_RANGE, UJ_NO_ROOM, UJ_TIME_BACKWARDS, UJ_BAD_TELEGRAM,
                                    UJ_NO_RECORD, UJ_ENDED, UJ_WRONG_PHASE, UJ_BAD_VALUE};
enum { REFUSALS = sizeof refusals / sizeof *refusals, TARGET = 1, RECORDS = 3, LATEST = 1000 };

/* An open record, whose partner has sent the number 0000A000h next. */
static uj_record open_record(uint32_t partner, uint32_t partner_sap, uint32_t local_sap, uint32_t level)
{
    uj_record r = uj_fresh(partner, partner_sap, local_sap, level);

    r.phase = UJ_OPEN;
    r.sending = 0x00001234;
    r.expected = 0x0000A000;
    r.declared = r.watched = 500;
    r.sent_at = r.taken_at = LATEST;
    return r;
}

/* A node of three records, whose record TARGET is one that the call is for. */
static node ready_node(enum which which, uint32_t level)
{
    node n = new_node(OPENER, 2, 3, 4, 2);

    n.head.latest = LATEST;
    n.count = RECORDS;
    n.table[TARGET] = which == OPEN ? uj_fresh(RESPONDER, 9, 5, level) : open_record(RESPONDER, 9, 5, level);
    n.table[2] = open_record(RESPONDER, 9, 6, level);
    return n;
}

/* A call on that record that is done; a telegram received is data that it expects. The time equals the latest, which is allowed. */
static asked ready_call(enum which which, uint32_t level)
{
    static uint8_t telegram[UJ_LONGEST];
    static const end sender = {{RESPONDER, OPENER, 5, 9, 0}};
    asked a = usual(which, LATEST);

    a.place = TARGET;
    a.sender = RESPONDER;
    a.destination_sap = 5;
    a.source_sap = 9;
    a.telegram = telegram;
    a.telegram_length = compose(with(sender, LEVEL, level), usual_order(DATA, 0x0000A000), telegram);
    return a;
}

/* Whether a call can be refused with that number. */
static int can_be(enum which which, uint32_t number)
{
    if (number == UJ_BAD_TELEGRAM)
        return which == RECEIVED;
    if (number == UJ_WRONG_PHASE)
        return which == OPEN || which == CLOSE || which == SEND;
    return number != UJ_BAD_VALUE || which != TICK;
}

/* Makes the good call one that is refused with that number. */
static void spoil(node *n, asked *a, uint32_t number)
{
    uj_record *r = &n->table[TARGET];
    const uint32_t level = r->level;

    switch (number) {
    case UJ_OUT_OF_RANGE:
        n->head.own = 127;
        break;
    case UJ_NO_ROOM:
        a->room = UJ_LONGEST - 1;
        break;
    case UJ_TIME_BACKWARDS:
        a->time = LATEST - 1;
        break;
    case UJ_BAD_TELEGRAM:
        a->telegram_length = 5;
        break;
    case UJ_NO_RECORD:
        a->place = RECORDS;
        a->source_sap = 10;
        break;
    case UJ_ENDED:
        *r = uj_fresh(RESPONDER, 9, 5, level);
        r->phase = UJ_FINALLY_CLOSED;
        break;
    case UJ_WRONG_PHASE:
        *r = a->which == OPEN ? open_record(RESPONDER, 9, 5, level) : uj_fresh(RESPONDER, 9, 5, level);
        break;
    default:
        a->named = 1;
        a->idle_time = 50;
        a->reason = 0x08;
        a->command = 0x0D;
    }
}

/* Every call, refused for every set of reasons that it has: the first in the order is answered, 0 where there is none. The last spoiling of a phase
 * is that of a finally closed record, which is of the wrong phase too. */
static void test_refusals(void)
{
    for (int which = 0; which < CALLS; which++)
        for (unsigned set = 0; set < 2u << REFUSALS; set++) {
            const uint32_t level = set >> REFUSALS ? 4 : 2;
            node n = ready_node((enum which)which, level);
            asked a = ready_call((enum which)which, level);
            uint32_t expected = UJ_DONE;
            for (int i = REFUSALS - 1; i >= 0; i--)
                if ((set >> i & 1) && can_be(a.which, refusals[i])) {
                    spoil(&n, &a, refusals[i]);
                    expected = refusals[i];
                }
            case_is(call_names[which], level, set);
            CHECK(call(&n, a).answer.number == expected);
        }
}

/* The node is refused with 1 by every call, or by none. */
static void judges_table(const node *table, int accepted)
{
    for (int which = 0; which < CALLS; which++) {
        node n = *table;
        asked a = ready_call((enum which)which, 4);
        a.place = n.count == 1 ? 0 : TARGET;
        CHECK((call(&n, a).answer.number != UJ_OUT_OF_RANGE) == accepted);
    }
}

/* Puts a number of 4 or 8 bytes into a field of the record. */
static void put_field(uj_record *r, size_t offset, uint64_t number)
{
    const uint32_t narrow = (uint32_t)number;

    if (offset >= offsetof(uj_record, sent_at))
        memcpy((uint8_t *)r + offset, &number, sizeof number);
    else
        memcpy((uint8_t *)r + offset, &narrow, sizeof narrow);
}

#define FIELD(name) offsetof(uj_record, name)

/* Fields of an open record, in range and out of it; numbers too that a narrower type would take for a good one. */
static const struct {
    size_t offset;
    uint64_t number;
    int good;
} fields[] = {
    {FIELD(partner), 0, 1},         {FIELD(partner), 126, 1},        {FIELD(partner), 127, 0},         {FIELD(partner), 0x101, 0},
    {FIELD(partner_sap), 0, 1},     {FIELD(partner_sap), 62, 1},     {FIELD(partner_sap), 63, 0},      {FIELD(partner_sap), 0x10009, 0},
    {FIELD(local_sap), 0, 1},       {FIELD(local_sap), 62, 1},       {FIELD(local_sap), 63, 0},        {FIELD(local_sap), 0x1000005, 0},
    {FIELD(level), 2, 1},           {FIELD(level), 0, 0},            {FIELD(level), 3, 0},             {FIELD(level), 0x104, 0},
    {FIELD(phase), 2, 1},           {FIELD(phase), 0, 0},            {FIELD(phase), 7, 0},             {FIELD(phase), 0x105, 0},
    {FIELD(declared), 0, 1},        {FIELD(declared), 65500, 1},     {FIELD(declared), 50, 0},         {FIELD(declared), 65600, 0},
    {FIELD(watched), 100, 1},       {FIELD(watched), 65500, 1},      {FIELD(watched), 150, 0},         {FIELD(watched), 65535, 0},
    {FIELD(sent_at), 0, 1},         {FIELD(sent_at), LATEST, 1},     {FIELD(sent_at), LATEST + 1, 0},  {FIELD(sent_at), (uint64_t)1 << 32, 0},
    {FIELD(taken_at), 0, 1},        {FIELD(taken_at), LATEST, 1},    {FIELD(taken_at), LATEST + 1, 0}, {FIELD(taken_at), UINT64_MAX, 0},
    {FIELD(sending), UINT32_MAX, 1}, {FIELD(expected), UINT32_MAX, 1},
};

/* One field changed, in any record of the table. */
static void test_fields(void)
{
    for (size_t i = 0; i < sizeof fields / sizeof *fields; i++)
        for (size_t place = 0; place < RECORDS; place++) {
            node n = ready_node(TICK, 4);
            case_is("field", fields[i].offset, fields[i].number);
            n.table[0] = open_record(2, 3, 4, 2);
            put_field(&n.table[place], fields[i].offset, fields[i].number);
            judges_table(&n, fields[i].good);
        }
}

/* A closed record, finally or not, has 0 in every field from `sending` on. */
static void test_fields_at_rest(void)
{
    static const size_t offsets[] = {FIELD(sending), FIELD(expected), FIELD(declared), FIELD(watched), FIELD(sent_at), FIELD(taken_at)};

    for (size_t i = 0; i < sizeof offsets / sizeof *offsets; i++)
        for (int final = 0; final < 2; final++) {
            node n = ready_node(OPEN, 4);
            case_is("field of a closed record", offsets[i], (unsigned long)final);
            n.table[0].phase = final ? UJ_FINALLY_CLOSED : UJ_CLOSED;
            judges_table(&n, 1);
            put_field(&n.table[0], offsets[i], 100);
            judges_table(&n, 0);
        }
}

/* Two records alike are refused wherever they stand; two that differ in one of the three numbers are good. The level does not matter. */
static void test_alike(void)
{
    for (size_t first = 0; first < RECORDS; first++)
        for (size_t second = 0; second < RECORDS; second++)
            for (int differing = 0; differing < 4 && first != second; differing++) {
                node n = ready_node(TICK, 4);
                case_is("two alike", first, second);
                n.table[0] = open_record(2, 3, 4, 4);
                n.table[second] = open_record(n.table[first].partner, n.table[first].partner_sap, n.table[first].local_sap, 2);
                n.table[second].partner += differing == 1 ? 100 : 0;
                n.table[second].partner_sap += differing == 2 ? 30 : 0;
                n.table[second].local_sap += differing == 3 ? 30 : 0;
                judges_table(&n, differing != 0);
            }
}

/* Tables of 0 and 65 records are refused, those of 1 and 64 taken; every record of the longest can be used, and the one behind it is none. */
static void test_table_sizes(void)
{
    static const size_t counts[] = {0, 1, 2, 63, 64, 65};

    for (size_t i = 0; i < sizeof counts / sizeof *counts; i++) {
        node n = ready_node(TICK, 4);
        case_is("table size", counts[i], 0);
        n.count = counts[i];
        for (size_t r = 0; r < counts[i]; r++)
            n.table[r] = open_record((uint32_t)r + 1, 9, 5, 4);
        judges_table(&n, counts[i] >= 1 && counts[i] <= UJ_MOST_RECORDS);
        asked a = usual(SEND, LATEST);
        for (a.place = 0; a.place <= counts[i] && counts[i] <= UJ_MOST_RECORDS && counts[i] >= 1; a.place++) {
            case_is("table size", counts[i], a.place);
            const uj_outcome o = call(&n, a);
            if (a.place < counts[i])
                check_wrote(&n, a.place, o, usual_order(DATA, 0x00001234));
            else
                CHECK(o.answer.number == UJ_NO_RECORD);
        }
        a.place = (size_t)1 << 32; /* cut to 32 bits it would be the first */
        CHECK(counts[i] < 1 || counts[i] > UJ_MOST_RECORDS || call(&n, a).answer.number == UJ_NO_RECORD);
    }
}

/* Data that the record of ready_node expects, numbered from A000h on, reach the record at the place and no other. */
static void reaches(node *n, uint32_t number, size_t place)
{
    static const end sender = {{RESPONDER, OPENER, 5, 9, 4}};
    const uj_record before = n->table[place];
    uint8_t telegram[UJ_LONGEST];
    asked a = ready_call(RECEIVED, 4);

    a.telegram = telegram;
    a.telegram_length = compose(sender, usual_order(DATA, number), telegram);
    CHECK(call(n, a).happened.event == UJ_EVENT_DATA);
    CHECK(before.expected == number && n->table[place].expected == number + 1);
}

/* A record is found by its route: before and after it has changed places with the one that differs in our SAP alone, which stays as it was. */
static void test_found_by_route(void)
{
    node n = ready_node(RECEIVED, 4);
    const uj_record other = n.table[2];

    case_is("found by route", 0, 0);
    reaches(&n, 0x0000A000, TARGET);
    CHECK(same_record(&n.table[2], &other));
    case_is("found by route", 1, 0);
    n.table[2] = n.table[TARGET];
    n.table[TARGET] = other;
    reaches(&n, 0x0000A001, 2);
    CHECK(same_record(&n.table[TARGET], &other));
}

/* A telegram under a route that no record has is answered 2: another sender, another SAP, the SAPs exchanged, numbers that would wrap. */
static void test_unknown_route(void)
{
    static const uint32_t routes[][3] = {{7, 5, 9}, {0, 5, 9}, {127, 5, 9}, {RESPONDER, 9, 5}, {RESPONDER, 7, 9}, {RESPONDER, 5, 8},
                                         {OPENER, 5, 9}, {0x101, 5, 9}, {RESPONDER, 0x105, 9}, {RESPONDER, 5, 0x109}};

    for (size_t i = 0; i < sizeof routes / sizeof *routes; i++) {
        node n = ready_node(RECEIVED, 4);
        asked a = ready_call(RECEIVED, 4);
        case_is("unknown route", i, 0);
        a.sender = routes[i][0];
        a.destination_sap = routes[i][1];
        a.source_sap = routes[i][2];
        CHECK(call(&n, a).answer.number == UJ_NO_RECORD);
    }
}

/* The telegram of one connection, put to another record of the same node, closes that one and brings no data: addresses and SAPs come from the
 * record. */
static void test_crossed_telegrams(void)
{
    for (uint32_t level = 2; level <= 4; level += 2) {
        node n = ready_node(RECEIVED, level);
        asked a = ready_call(RECEIVED, level);
        case_is("crossed telegram", level, 0);
        a.destination_sap = 6;
        const uj_outcome o = call(&n, a);
        CHECK(o.answer.telegram == UJ_TELEGRAM_DISCONNECT && o.happened.event == UJ_EVENT_CLOSED && o.happened.reason == 0x06);
        CHECK(n.table[2].phase == UJ_CLOSED && n.table[TARGET].phase == UJ_OPEN);
    }
}

/* Runs that are only read may overlap each other: the telegram of a request, lent as the net data of its confirm too. */
static void test_overlap(void)
{
    for (uint32_t level = 2; level <= 4; level += 2) {
        pair p = new_pair(5, 9, level);
        node *n = &p.responder;
        order expected = usual_order(CONFIRM, responder_random);

        case_is("overlap", level, 0);
        request(&p);
        asked a = delivered(&p.opener, 0, 1010);
        expected.net = a.telegram;
        expected.net_length = a.net_length = a.telegram_length;
        const uj_outcome o = call_library(n->table, n->count, n->head, a, a.telegram, a.telegram, n->out);
        n->length = o.answer.length;
        check_wrote(n, 0, o, expected);
    }
}

int main(void)
{
    static void (*const tests[])(void) = {
        test_constructors, test_5_3_1_7, test_data, test_bad_telegrams, test_idle_time_named, test_idle,
        test_no_idle_time_named, test_watch, test_waits, test_close, test_refusals, test_fields, test_fields_at_rest,
        test_alike, test_table_sizes, test_found_by_route, test_unknown_route, test_crossed_telegrams, test_overlap,
    };
    uint32_t state = 1;

    for (size_t i = 0; i < sizeof sample; i++) {
        state = state * 1103515245 + 12345;
        sample[i] = (uint8_t)(state >> 16);
    }
    open_rooms();
    open_room(&table_room);
    for (size_t i = 0; i < sizeof tests / sizeof *tests; i++)
        tests[i]();
    printf("node: %lu checks, %lu failed\n", checks, failures);
    return failures != 0;
}
