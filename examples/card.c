#include "card.h"

void card_start(card *c)
{
    /* Zeros are no new clock: they count as isolated. */
    c->clock = uj_clock_new();
    c->lost = 0;
}

static void lost(card *c)
{
    if (c->lost)
        return;
    c->lost = 1;
    board_lost(c);
}

uint32_t card_received(card *c, uint32_t command, const uint8_t *net, size_t length, uj_local_time local)
{
    uj_reading r;
    uint32_t event;

    /* Only the command tells: Safe Time Layer Startup has the same form. */
    if (command != UJ_CLOCK_COMMAND)
        return CARD_OTHER_COMMAND;
    r = uj_clock_read(net, length);
    if (r.answer != UJ_DONE)
        return r.answer;
    event = uj_clock_message(&c->clock, r.message, local);
    /* A failed test isolates a clock that was synchronised. One that was not synchronised is not lost: it begins anew. */
    if (event >= UJ_CLOCK_FAILED && c->clock.state == UJ_CLOCK_ISOLATED)
        lost(c);
    return event;
}

uj_reference card_time(card *c, uj_local_time local)
{
    static const uj_reference none = {UJ_TOO_FEW_PAIRS, {0}};
    const uj_reference r = uj_clock_reference_time(&c->clock, local);

    /* Synchronised, and no time: the Synchronised Timer has run out, which is LostSync too (7.4.1.7.3.3). */
    if (r.answer != UJ_DONE && c->clock.state == UJ_CLOCK_SYNCHRONISED)
        lost(c);
    return c->lost ? none : r;
}
