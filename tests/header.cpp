// The header in C++: it compiles, its functions keep their C names, and the three archives link together.
#include "ujamniq.h"
#include <type_traits>

// Neither time of the local clock stands in for the other, or for a number.
static_assert(!std::is_convertible<uj_local_time, uj_ref_time>::value && !std::is_convertible<uj_ref_time, uj_local_time>::value, "two types of time");
static_assert(!std::is_convertible<uint32_t, uj_ref_time>::value && !std::is_convertible<uj_local_time, uint32_t>::value, "times are no numbers");

// 5.3.1.8, cut after the implicit bytes.
static bool word_is_printed()
{
    const uint8_t implicit[] = {0x08, 0x01, 0x08, 0x09, 0x09, 0x49, 0x34, 0x60}, telegram[] = {0x31, 0x06};
    return uj_word32(implicit, sizeof implicit, telegram, sizeof telegram) == 0x236790C6;
}

// Each call over a table once: open and close are done, the others refused.
static bool calls_answer()
{
    uj_head head = uj_new_head(8);
    uj_record table[] = {uj_fresh(1, 3, 3, 4)};
    uint8_t out[UJ_LONGEST];

    const uj_outcome opened = uj_open(table, 1, head, 1000, 0, 0x01234567, 0, 0, nullptr, 0, out, sizeof out);
    head = opened.head;
    const uj_outcome sent = uj_send(table, 1, head, 1000, 0, 0x09, nullptr, 0, out, sizeof out);
    const uj_outcome closed = uj_close(table, 1, head, 1000, 0, UJ_FINAL, UJ_REASON_APPLICATION, nullptr, 0, out, sizeof out);
    head = closed.head;
    const uj_outcome ticked = uj_tick(table, 1, head, 1000, 0, out, sizeof out);
    const uj_outcome received = uj_received(table, 1, head, 1000, 1, 3, 3, 0, 0, 0, nullptr, 0, nullptr, 0, out, sizeof out);
    return opened.answer.telegram == UJ_TELEGRAM_REQUEST && sent.answer.number == UJ_WRONG_PHASE && closed.happened.event == UJ_EVENT_CLOSED &&
           ticked.answer.number == UJ_ENDED && received.answer.number == UJ_BAD_TELEGRAM;
}

// Seventeen messages synchronise a local clock, which then tells Reference Time: 10,000 ms more than its own.
static bool clock_tells()
{
    uj_clock clock = uj_clock_new();
    uint32_t answer = UJ_CLOCK_KEPT;

    for (uint32_t n = 0; n <= UJ_CLOCK_PAIRS; n++) {
        const uint32_t before = n == 0 ? 0 : 10000 + 500 * (n - 1);
        const uint8_t bytes[] = {3, 0, 0, uint8_t(n), 0, 0, 0, uint8_t(before), uint8_t(before >> 8), 0, 0};
        const uj_reading reading = uj_clock_read(bytes, sizeof bytes);
        if (reading.answer != UJ_DONE)
            return false;
        answer = uj_clock_message(&clock, reading.message, uj_local_time{500 * n});
    }
    return answer == UJ_CLOCK_NOW_SYNCHRONISED && uj_clock_factor(&clock, clock.resynchronised).factor == 10000 &&
           uj_clock_reference_time(&clock, uj_local_time{11000}).time.ms == 21000 &&
           uj_clock_reference_time(&clock, uj_local_time{11001}).answer == UJ_TOO_FEW_PAIRS;
}

int main()
{
    return word_is_printed() && calls_answer() && clock_tells() ? 0 : 1;
}
