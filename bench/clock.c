/*
 * Times of the local clock, beside that of the check word of a telegram of 64 bytes at level 4. It prints figures and tests nothing, but stops where a function
 * does something else than what is to be measured.
 *
 * The clock is synchronised and put back before each call, which is in the time too.
 */
#define _POSIX_C_SOURCE 199309L
#include <stdio.h>
#include <stdlib.h>
#include <time.h>

#include "ujamniq.h"

/* The best of ROUNDS rounds of CALLS calls counts: whatever else the machine does makes a round longer, never shorter. */
enum { ROUNDS = 15, CALLS = 10000, INTERVAL = 500 };

/* The clock before each call, the message that comes next and when, and its bytes. */
static uj_clock before, clock_at_work;
static uj_sync_message message;
static uj_local_time local;
static uint8_t bytes[11] = {3, 0, 0};

/* A telegram of 64 bytes, its check word included, with the implicit bytes of 5.3.1.7. */
static const uint8_t implicit[] = {64, 1, 8, 3, 3, 0x45, 0x23, 0x01};
static uint8_t telegram[58];

/* Message n is sent when the reference clock shows 100,000 + INTERVAL n, and comes when the local clock shows 40,000 + INTERVAL n. */
static void next(uint32_t n)
{
    message.number = n;
    message.reference.ms = n == 0 ? 0 : 100000 + INTERVAL * (n - 1);
    local.ms = 40000 + INTERVAL * n;
}

static void put(uint8_t *at, uint32_t number)
{
    for (int i = 0; i < 4; i++)
        at[i] = (uint8_t)(number >> 8 * i);
}

static void prepare(void)
{
    uint32_t n = 0;

    before = uj_clock_new();
    for (; before.state != UJ_CLOCK_SYNCHRONISED; n++) {
        next(n);
        uj_clock_message(&before, message, local);
    }
    next(n);
    for (size_t i = 0; i < sizeof telegram; i++)
        telegram[i] = (uint8_t)(37 * i + 11);
    put(bytes + 3, message.number);
    put(bytes + 7, message.reference.ms);
}

static uint64_t word_call(void)
{
    return uj_word48(implicit, sizeof implicit, telegram, sizeof telegram) != 0;
}

static uint64_t read_call(void)
{
    return uj_clock_read(bytes, sizeof bytes).answer;
}

static uint64_t message_call(void)
{
    return uj_clock_message(&clock_at_work, message, local);
}

static uint64_t time_call(void)
{
    return uj_clock_reference_time(&clock_at_work, local).answer;
}

/* The functions, and what shows that each did its work. */
static const struct {
    const char *name;
    uint64_t (*call)(void);
    uint64_t expected;
} rows[] = {
    {"uj_word48, 64 bytes", word_call, 1},
    {"uj_clock_message, a pair", message_call, UJ_CLOCK_RESYNCHRONISED},
    {"uj_clock_reference_time", time_call, UJ_DONE},
    {"uj_clock_read", read_call, UJ_DONE},
};

static double now(void)
{
    struct timespec t;

    clock_gettime(CLOCK_MONOTONIC, &t);
    return 1e9 * (double)t.tv_sec + (double)t.tv_nsec;
}

/* Nanoseconds per call. */
static double measured(size_t row)
{
    double best = 0;

    for (int round = 0; round < ROUNDS; round++) {
        uint64_t got = 0;
        const double start = now();
        for (int i = 0; i < CALLS; i++) {
            clock_at_work = before;
            got = rows[row].call();
        }
        const double spent = (now() - start) / CALLS;
        best = round == 0 || spent < best ? spent : best;
        if (got != rows[row].expected) {
            printf("bench: %s answered %lu: nothing is measured\n", rows[row].name, (unsigned long)got);
            exit(1);
        }
    }
    return best;
}

int main(void)
{
    double unit = 0;

    prepare();
    printf("%-26s %12s %27s\n", "function", "ns per call", "ratio to the check word");
    for (size_t row = 0; row < sizeof rows / sizeof *rows; row++) {
        const double spent = measured(row);
        unit = row == 0 ? spent : unit;
        printf("%-26s %12.0f %27.2f\n", rows[row].name, spent, spent / unit);
    }
    return 0;
}
