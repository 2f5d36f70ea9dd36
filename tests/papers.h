/*
 * What the papers ask of the C interface, said a second time: section 10 is `divide`, 5.1.3 `seal`, 5.2 `compose` and `kind_of`.
 *
 * The functions are inline, since no test needs them all: a function that is not, and that nobody uses, is a warning.
 */
#ifndef PAPERS_H
#define PAPERS_H

#include <stddef.h>
#include <stdint.h>
#include <string.h>

/* The longest telegram (5.1.1.5), check word included. */
enum { LONGEST = 244 };

/* An end of a connection: five numbers, in the order of the header. */
enum { OWN, PARTNER, PARTNER_SAP, LOCAL_SAP, LEVEL, NUMBERS };
typedef struct end {
    uint32_t n[NUMBERS];
} end;
#define END(e) (e).n[OWN], (e).n[PARTNER], (e).n[PARTNER_SAP], (e).n[LOCAL_SAP], (e).n[LEVEL]

/* The seven telegrams: command, bytes in front of the net data, most net data at level 4 and at level 2 (5.2.1 to 5.2.7). */
enum kind { REQUEST, CONFIRM, AUTHENTICATION, ACKNOWLEDGEMENT, DISCONNECT, IDLE, DATA, KINDS };
static const struct {
    const char *name;
    uint8_t command;
    size_t head, most4, most2;
} kinds[KINDS] = {
    {"request", 0x00, 12, 226, 228},
    {"confirm", 0x02, 12, 226, 228},
    {"authentication", 0x03, 6, 0, 0},
    {"acknowledgement", 0x04, 6, 0, 0},
    {"disconnect", 0x05, 4, 40, 40},
    {"idle", 0x06, 2, 0, 0},
    {"data", 0x09, 2, 236, 238},
};

/* What a writer is asked for. It looks only at what its telegram has. `net` is the text of a disconnect. */
typedef struct order {
    enum kind kind;
    uint32_t number, received, idle_time, type, reason, command;
    const uint8_t *net;
    size_t net_length;
} order;

/* The end at the other side. */
static inline end mirrored(end e)
{
    end m = {{e.n[PARTNER], e.n[OWN], e.n[LOCAL_SAP], e.n[PARTNER_SAP], e.n[LEVEL]}};
    return m;
}

/* The end with one of its numbers changed. */
static inline end with(end e, int place, uint32_t number)
{
    e.n[place] = number;
    return e;
}

/* Bytes of the check word (section 10). */
static inline size_t word_bytes(uint32_t level)
{
    return level == 4 ? 6 : 4;
}

/* The most net data of the kind at the level. */
static inline size_t most_net(int kind, uint32_t level)
{
    return level == 4 ? kinds[kind].most4 : kinds[kind].most2;
}

/* Whether the kind has net data of a length to choose. */
static inline int has_net(int kind)
{
    return kinds[kind].most4 != 0;
}

/* 5.2.1.3, bytes 7..8. */
static inline int idle_time_allowed(uint32_t time)
{
    return time == 0 || (time >= 100 && time <= 65500 && time % 100 == 0);
}

/* 5.2.7.2, byte 2, without the bits of the level. */
static inline int is_data(uint32_t command)
{
    return command == 0x09 || (command >= 0x20 && command <= 0x3F);
}

/* The reasons that 5.2.5.9 lists, and those that 5.2.5.9.1 gives to the layer above. */
static inline int is_listed(uint32_t reason)
{
    return reason <= 0x07 || (reason >= 0x1F && reason <= 0x40);
}

/* Section 10: the remainder by the generator, given as 10.2 prints it, of the bytes with `width` zero bits behind them. */
static inline uint64_t divide(int width, const uint8_t *bytes, size_t length)
{
    const uint64_t generator = width == 48 ? 0xD28DB3FA4AAD : 0x4A503DF1;
    const uint64_t highest = (uint64_t)1 << (width - 1);
    uint64_t rest = 0;

    for (size_t i = 0; i < 8 * length; i++) {
        int bit = bytes[i / 8] >> (7 - i % 8) & 1;
        int out = ((rest & highest) != 0) ^ bit;
        rest = (rest & (highest - 1)) << 1 ^ (out ? generator : 0);
    }
    return rest;
}

/* 5.1.1.6: puts a number of some bytes, lowest byte first, and gives the place behind it. */
static inline size_t put(uint8_t *telegram, size_t at, uint32_t number, size_t bytes)
{
    for (size_t i = 0; i < bytes; i++)
        telegram[at + i] = (uint8_t)(number >> 8 * i);
    return at + bytes;
}

/* 5.1.3: puts the check word of the sender `e` behind the first `length` bytes of the telegram, and gives the length of the whole. */
static inline size_t seal(end e, uint32_t number, uint8_t *telegram, size_t length)
{
    const size_t word_length = word_bytes(e.n[LEVEL]), whole = length + word_length;
    const uint32_t implicit[5] = {(uint32_t)whole, e.n[PARTNER], e.n[OWN], e.n[PARTNER_SAP], e.n[LOCAL_SAP]};
    uint8_t covered[8 + LONGEST];

    for (size_t i = 0; i < 5; i++)
        put(covered, i, implicit[i], 1);
    put(covered, 5, number >> 8, 3);
    memcpy(covered + 8, telegram, length);
    const uint64_t word = divide(8 * (int)word_length, covered, 8 + length);
    for (size_t i = 0; i < word_length; i++)
        telegram[length + i] = (uint8_t)(word >> 8 * (word_length - 1 - i));
    return whole;
}

/* 5.2: the telegram that the end has to write, and its length. */
static inline size_t compose(end e, order o, uint8_t *telegram)
{
    const uint32_t level = e.n[LEVEL], command = o.kind == DATA ? o.command : kinds[o.kind].command;
    size_t at = put(telegram, 0, o.number & 0xFF, 1);

    at = put(telegram, at, (level == 4 ? 0x80 : 0x00) | command, 1);
    if (o.kind == REQUEST || o.kind == CONFIRM) {
        at = put(telegram, at, o.number, 4);
        at = put(telegram, at, o.idle_time, 2);
        at = put(telegram, at, 3, 4); /* version 3.0.0, dual bus 0 */
    }
    if (o.kind == AUTHENTICATION || o.kind == ACKNOWLEDGEMENT)
        at = put(telegram, at, o.received + (level == 4 ? 1 : 2), 4);
    if (o.kind == DISCONNECT)
        at = put(telegram, put(telegram, at, o.type, 1), o.reason, 1);
    memcpy(telegram + at, o.net, o.net_length);
    return seal(e, o.number, telegram, at + o.net_length);
}

/* The kind of telegram that a command and a length make, or -1 (5.1.1.5, 5.2). */
static inline int kind_of(uint8_t command, size_t length)
{
    const int top = command >> 6, low = command & 0x3F;
    const uint32_t level = top == 2 ? 4 : 2;

    if (top != 2 && top != 0)
        return -1;
    for (int kind = 0; kind < KINDS; kind++) {
        size_t least = kinds[kind].head + word_bytes(level);
        if (kind == DATA ? is_data((uint32_t)low) : low == kinds[kind].command)
            return length >= least && length <= least + most_net(kind, level) ? kind : -1;
    }
    return -1;
}

#endif
