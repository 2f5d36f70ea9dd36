/*
 * Counted checks, and runs of bytes that show when somebody touches what was not lent.
 *
 * Every call of the library is made once for each place of PLACES. A byte written outside a run shows in the guard bytes around it; a byte read outside a run
 * ends the program, since at two of the places the run borders on a page that nobody may touch.
 *
 * The test that includes it defines PROGRAM, the name that its reports begin with.
 */
#ifndef GUARDED_H
#define GUARDED_H

#include <signal.h>
#include <stdint.h>
#include <stdio.h>
#include <stdlib.h>
#include <string.h>
#include <sys/mman.h>

/* Where a run lies in its room: guard bytes on both sides, the room's end right behind it, or the room's start right before it. A run of no bytes is passed
 * as a null pointer at the last place. */
enum place { INSIDE, AT_END, AT_START, PLACES };

/* ROOM and BORDER are whole pages on every machine that runs this. */
enum { GUARD = 64, BORDER = 0x10000, ROOM = 0x20000, SHOWN = 20 };

static unsigned long checks, failures;

/* The case at hand, for the report of a failure: a name and two numbers. */
static const char *case_name = "";
static unsigned long case_first, case_second;

static void case_is(const char *name, unsigned long first, unsigned long second)
{
    case_name = name;
    case_first = first;
    case_second = second;
}

/* Counts a check. The first failures are printed, and all are counted. */
static void count_check(int holds, int line, const char *text)
{
    checks++;
    if (holds)
        return;
    if (failures++ < SHOWN)
        printf(PROGRAM ": line %d, %s (%lu, %lu): %s\n", line, case_name, case_first, case_second, text);
}

#define CHECK(holds) count_check((holds) != 0, __LINE__, #holds)

typedef struct room {
    uint8_t *start;        /* ROOM bytes, with a border on both sides */
    uint8_t *run;          /* the run that is lent, or null */
    size_t length;         /* its length */
    size_t before, behind; /* the number of guard bytes on each side of it */
    const uint8_t *filled; /* what was put into it */
    const uint8_t *guard;  /* what was put around it */
} room;

/* What guards and output buffers hold before a call; another row for each place, so that no byte can be written unseen at all of them. */
static uint8_t blank[PLACES][ROOM];

static room first_room, second_room, out_room;

static void open_room(room *r)
{
    uint8_t *pages = mmap(NULL, BORDER + ROOM + BORDER, PROT_NONE, MAP_PRIVATE | MAP_ANONYMOUS, -1, 0);

    if (pages == MAP_FAILED || mprotect(pages + BORDER, ROOM, PROT_READ | PROT_WRITE) != 0) {
        puts(PROGRAM ": no memory for the runs");
        exit(1);
    }
    r->start = pages + BORDER;
}

/* Somebody touched a border. The library calls nothing of stdio, so printing is safe here. */
static void outside(int number)
{
    printf(PROGRAM ": signal %d, %s (%lu, %lu): a byte outside a run was touched\n", number, case_name, case_first, case_second);
    fflush(stdout);
    _Exit(1);
}

static void open_rooms(void)
{
    signal(SIGSEGV, outside);
    signal(SIGBUS, outside);
    for (int place = 0; place < PLACES; place++)
        for (size_t i = 0; i < ROOM; i++)
            blank[place][i] = (uint8_t)(0x5a + 0x35 * place + 0x1d * i + i / 251);
    open_room(&first_room);
    open_room(&second_room);
    open_room(&out_room);
}

/* Lays `length` bytes into the room at the place, guards around them, and gives the run to pass on. */
static uint8_t *lend(room *r, int place, const uint8_t *bytes, size_t length)
{
    r->length = length;
    r->filled = bytes;
    r->guard = blank[place];
    r->before = place == AT_START ? 0 : GUARD;
    r->behind = place == AT_END ? 0 : GUARD;
    r->run = place == AT_END ? r->start + ROOM - length : r->start + r->before;
    memcpy(r->run - r->before, r->guard, r->before);
    memcpy(r->run + length, r->guard, r->behind);
    if (length == 0)
        return place == AT_START ? NULL : r->run;
    memcpy(r->run, bytes, length);
    return r->run;
}

/* Whether guards and run, from index `from` on, are as they were lent. */
static int untouched(const room *r, size_t from)
{
    return memcmp(r->run - r->before, r->guard, r->before) == 0 && memcmp(r->run + r->length, r->guard, r->behind) == 0 &&
           (from >= r->length || memcmp(r->run + from, r->filled + from, r->length - from) == 0);
}

#endif
