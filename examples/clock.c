/*
 * A card without a reference clock on a bus in memory, and a trace of how it learns Reference Time and loses it. The firmware of the card is in card.c; here
 * are the bus, and what happens, scene by scene. Clause numbers are those of SUBSET-056.
 *
 * Everything repeats: time is counted, and the delays come from a fixed generator.
 */
#include "card.h"
#include <stdio.h>
#include <stdlib.h>

static card board;

/* The bus: the milliseconds since power-on; when the next message is due, its number, and the Reference Time that it carries. */
enum { INTERVAL = 500 };
static uint32_t now, due, number, carried;

/* What a fault in the example, or another event or answer than the scene says, comes to. */
static void must(int holds, const char *what)
{
    if (holds)
        return;
    printf("clock: %s\n", what);
    exit(1);
}

/* The card's counter starts 10 s before it goes around, and gains 0.02 %. */
static uj_local_time local_time(void)
{
    const uj_local_time t = {0u - 10000 + now + now / 5000};
    return t;
}

/* What the reference clock shows. The card learns of it by messages alone. */
static uint32_t true_time(void)
{
    return 1000000 + now;
}

/* A delay of up to 3 ms. */
static uint32_t delay(void)
{
    static uint32_t state = 1;

    state = state * 1664525u + 1013904223u;
    return state >> 30;
}

/* How far a lies after b, of two times or factors that are near each other. */
static int distance(uint32_t a, uint32_t b)
{
    return a - b < 0x80000000 ? (int)(a - b) : -(int)(b - a);
}

/* The events, in the order of UJ_CLOCK_KEPT .. UJ_CLOCK_STAYS_ISOLATED. Of the tests this card fails one. */
static const char *event_name(uint32_t event)
{
    static const char *const names[] = {"kept, and no pair", "one pair more", "the sixteenth pair: synchronised", "one pair more: resynchronised", "dropped",
                                        "not looked at: isolated"};

    return event < sizeof names / sizeof *names ? names[event] : "more than 3 s since the last resynchronisation: isolated";
}

static void trace_time(void)
{
    printf("%6u  %10u  ", (unsigned)now, (unsigned)local_time().ms);
}

/* The line stands below the one that tells why. */
static int lost_now;

void board_lost(card *c)
{
    lost_now = c->lost;
}

static void trace_lost(void)
{
    if (lost_now)
        printf("%20sthe clock is lost: the card disconnects all logical connections, multicast included (7.4.1.7.4.4)\n", "");
    lost_now = 0;
}

/* A message is on the bus, with the bytes of 6.3.1.9. The next one will carry the Reference Time of this moment (6.3.1.7). */
static void on_bus(uint8_t net[11])
{
    net[0] = 3;
    net[1] = net[2] = 0;
    for (int i = 0; i < 4; i++) {
        net[3 + i] = (uint8_t)(number >> 8 * i);
        net[7 + i] = (uint8_t)(carried >> 8 * i);
    }
    now = due + delay();
    carried = true_time();
    number++;
    due += INTERVAL;
}

/* So many messages come in, all of which must have that event. One line tells of them, with the time of the last. */
static void hear(uint32_t count, uint32_t event)
{
    for (uint32_t i = 0; i < count; i++) {
        uint8_t net[11];
        on_bus(net);
        now += delay();
        must(card_received(&board, UJ_CLOCK_COMMAND, net, sizeof net, local_time()) == event, "a message has another event");
    }
    trace_time();
    if (count == 1)
        printf("message %u", (unsigned)(number - 1));
    else
        printf("messages %u to %u", (unsigned)(number - count), (unsigned)(number - 1));
    printf(": event %u, %s\n", (unsigned)event, event_name(event));
    trace_lost();
}

/* The card asks at that moment. What it is told is a little off, since messages take their time and the counter drifts. */
static void ask(uint32_t moment, uint32_t answer)
{
    uj_reference r;

    now = moment;
    r = card_time(&board, local_time());
    must(r.answer == answer, "a question has another answer");
    must(answer != UJ_DONE || abs(distance(r.time.ms, true_time())) <= 3, "the Reference Time told is far off");
    trace_time();
    if (answer == UJ_DONE)
        printf("the card asks and is told %u; the reference clock shows %u\n", (unsigned)r.time.ms, (unsigned)true_time());
    else
        printf("the card asks: answer %u, no Reference Time\n", (unsigned)answer);
    trace_lost();
}

static void scene_synchronise(void)
{
    printf("\n1. The card is switched on. Sixteen pairs make a factor (7.4.4.2.2); before that no time is told (7.4.1.1).\n\n");
    card_start(&board);
    ask(0, UJ_TOO_FEW_PAIRS);
    hear(1, UJ_CLOCK_KEPT);
    hear(15, UJ_CLOCK_PAIRED);
    ask(7750, UJ_TOO_FEW_PAIRS);
    hear(1, UJ_CLOCK_NOW_SYNCHRONISED);
    ask(8250, UJ_DONE);
}

static void scene_run(void)
{
    static const uint8_t startup[] = {3, 0, 0, 33, 0, 0, 0, 0, 0, 0, 0}; /* 6.6.1.5: the same form, another command */
    const uint32_t factor = board.clock.period.factor;
    uint8_t lost[11];

    printf("\n2. The card's counter goes around 2^32, which is allowed (7.1.1.3).\n\n");
    hear(3, UJ_CLOCK_RESYNCHRONISED);
    ask(9990, UJ_DONE);
    hear(1, UJ_CLOCK_RESYNCHRONISED);
    ask(10250, UJ_DONE);
    printf("\n3. Message 30 is lost. The one behind it makes no pair (7.2.1.15), and the next one is used (7.4.4.2.1).\n\n");
    hear(9, UJ_CLOCK_RESYNCHRONISED);
    on_bus(lost);
    hear(1, UJ_CLOCK_KEPT);
    hear(1, UJ_CLOCK_RESYNCHRONISED);
    must(card_received(&board, 0xA4, startup, sizeof startup, local_time()) == CARD_OTHER_COMMAND, "another multicast message is taken for the clock's");
    printf("\n4. A period of 30 s ends. The factor may have moved by 30 ms in it (7.4.3.7).\n\n");
    hear(52, UJ_CLOCK_RESYNCHRONISED);
    printf("%20sit has moved by %d ms, of which the drift is -6\n", "", distance(board.clock.period.factor, factor));
    must(abs(distance(board.clock.period.factor, factor) + 6) <= 1, "the factor has not moved with the drift");
    ask(42250, UJ_DONE);
}

static void scene_silence(void)
{
    printf("\n5. The bus falls silent. More than 3 s after the last resynchronisation no time is told (7.4.1.6). The next message isolates the clock, "
           "however good it is, and only a restart of the card ends that.\n\n");
    while (local_time().ms - board.clock.resynchronised.ms < 3000)
        now++;
    ask(now, UJ_DONE);
    ask(now + 1, UJ_TOO_FEW_PAIRS);
    due += 4000;
    hear(1, UJ_CLOCK_TOO_LATE);
    hear(5, UJ_CLOCK_STAYS_ISOLATED);
    ask(now + 100, UJ_TOO_FEW_PAIRS);
    must(board.clock.state == UJ_CLOCK_ISOLATED && board.lost, "the clock is not lost");
}

int main(void)
{
    printf("A card whose counter gains 0.02 %%, and a reference clock that sends every %d ms. Messages are up to 3 ms under way.\n", INTERVAL);
    printf("The time is in ms since power-on, the local time is the card's counter. Messages in a row with one event have one line, that of the last.\n");
    printf("\n%6s  %10s\n", "time", "local time");
    scene_synchronise();
    scene_run();
    scene_silence();
    return 0;
}
