/*
 * The writers, the check, the net data and the check word, as the tests call them: once for each place of guarded.h, with guards around each of their runs.
 */
#ifndef WRITERS_H
#define WRITERS_H

#include "guarded.h"
#include "papers.h"
#include "ujamniq.h"

/* The writer of the order's kind. */
static uj_written call_writer(end e, order o, const uint8_t *net, uint8_t *out, size_t room)
{
    switch (o.kind) {
    case REQUEST:
        return uj_write_request(END(e), o.number, o.idle_time, net, o.net_length, out, room);
    case CONFIRM:
        return uj_write_confirm(END(e), o.number, o.idle_time, net, o.net_length, out, room);
    case AUTHENTICATION:
        return uj_write_authentication(END(e), o.number, o.received, out, room);
    case ACKNOWLEDGEMENT:
        return uj_write_acknowledgement(END(e), o.number, o.received, out, room);
    case DISCONNECT:
        return uj_write_disconnect(END(e), o.number, o.type, o.reason, net, o.net_length, out, room);
    case IDLE:
        return uj_write_idle(END(e), o.number, out, room);
    default:
        return uj_write_data(END(e), o.number, o.command, net, o.net_length, out, room);
    }
}

/* Calls the writer. Checks that it changed nothing but the telegram, and nothing at all when it refused. Gives its answer and what it wrote. */
static uj_written written(end e, order o, size_t room, uint8_t telegram[UJ_LONGEST])
{
    uj_written first = {0, 0};

    memset(telegram, 0, UJ_LONGEST);
    for (int place = 0; place < PLACES; place++) {
        const uint8_t *net = lend(&first_room, place, o.net, o.net_length);
        uint8_t *out = lend(&out_room, place, blank[place], room);
        uj_written w = call_writer(e, o, net, out, room);
        size_t length = w.length <= room && w.length <= UJ_LONGEST ? w.length : 0;

        CHECK(untouched(&first_room, 0));
        CHECK(untouched(&out_room, w.answer == UJ_DONE ? length : 0));
        if (place == 0) {
            first = w;
            memcpy(telegram, out_room.run, length);
        }
        CHECK(w.answer == first.answer && w.length == first.length && memcmp(telegram, out_room.run, length) == 0);
    }
    return first;
}

/* The answer of the check. */
static uint32_t checked(end e, uint32_t expected, const uint8_t *telegram, size_t length)
{
    uint32_t first = 0;

    for (int place = 0; place < PLACES; place++) {
        uint32_t answer = uj_check(END(e), expected, lend(&first_room, place, telegram, length), length);
        CHECK(untouched(&first_room, 0));
        first = place == 0 ? answer : first;
        CHECK(answer == first);
    }
    return first;
}

/* The net data lie where the papers say: `start` and `count`. */
static void has_part(const uint8_t *telegram, size_t length, size_t start, size_t count)
{
    for (int place = 0; place < PLACES; place++) {
        uj_part part = uj_net_data(lend(&first_room, place, telegram, length), length);
        CHECK(untouched(&first_room, 0));
        CHECK(part.start == start && part.count == count);
    }
}

/* The word of the library, of 48 or 32 bits. */
static uint64_t word(int width, const uint8_t *first, size_t first_length, const uint8_t *second, size_t second_length)
{
    uint64_t answer = 0;

    for (int place = 0; place < PLACES; place++) {
        const uint8_t *a = lend(&first_room, place, first, first_length), *b = lend(&second_room, place, second, second_length);
        uint64_t w = width == 48 ? uj_word48(a, first_length, b, second_length) : uj_word32(a, first_length, b, second_length);
        CHECK(untouched(&first_room, 0) && untouched(&second_room, 0));
        answer = place == 0 ? w : answer;
        CHECK(w == answer);
    }
    return answer;
}

#endif
