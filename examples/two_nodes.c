/*
 * An on-board computer and national modules on a bus in memory, and a trace of all that they say. The firmware of a node is in node.c; here are the
 * bus, the boards, and what happens, scene by scene. Clause numbers are those of SUBSET-057.
 *
 * Everything repeats: time is counted, and the random numbers are fixed. On a card they must not be.
 */
#include "node.h"
#include "trace.h"
#include <stdio.h>
#include <stdlib.h>
#include <string.h>

/* A node's board. Its address is the place where it is plugged in, under which the bus carries what it sends; the firmware's own address is part of
 * its configuration. Only the workshop can make the two differ. */
typedef struct board {
    const char *name, *name_elsewhere;
    uint32_t address;
    uint32_t random;
    int fitted;
    node node;
} board;

enum { ON_BOARD, MODULE_8, MODULE_9, MODULE_10, MODULE_20, BOARDS };
static board boards[BOARDS];

/* The bus: the time, and the frames in the order of their sending. It carries one at a time, each for two milliseconds. */
enum { UNDER_WAY = 2, MOST_FRAMES = 16 };
typedef struct sent {
    uint64_t time;
    const board *from;
    uint32_t sender, receiver, number;
    route route;
    uint8_t telegram[UJ_LONGEST];
    size_t length;
} sent;
static sent frames[MOST_FRAMES];
static size_t frame_count;
static uint64_t now = 1000;
static int damage_next;

/* What the layers above got: data, and data whose text names another than the partner under whose name it came up. */
static unsigned data_count, mistaken_count;

/* What a fault in the example itself, or in a call that must be done, comes to. */
static void must(int holds, const char *what)
{
    if (holds)
        return;
    printf("two_nodes: %s\n", what);
    exit(1);
}

static board *board_of(const node *n)
{
    for (size_t i = 0; i < BOARDS; i++)
        if (&boards[i].node == n)
            return &boards[i];
    must(0, "a node without a board");
    return NULL;
}

/* The board that is plugged in at an address, or none. */
static board *board_at(uint32_t address)
{
    for (size_t i = 0; i < BOARDS; i++)
        if (boards[i].fitted && boards[i].address == address)
            return &boards[i];
    return NULL;
}

/* The name of a board, with the place where it is plugged in if that is not its own. */
static const char *name_on_bus(const board *b)
{
    return b->address == b->node.head.own ? b->name : b->name_elsewhere;
}

/* The name under which a node knows a partner: by its address alone. */
static const char *partner_name(uint32_t partner)
{
    for (size_t i = 0; i < BOARDS; i++)
        if (boards[i].node.head.own == partner)
            return boards[i].name;
    return "nobody";
}

/* The random numbers of a board begin with the one that the scene has set. A card takes its own from a generator that doesn't begin alike at every
 * start. */
uint32_t board_random(const node *n)
{
    board *b = board_of(n);
    const uint32_t random = b->random;

    b->random = random * 1664525u + 1013904223u;
    return random;
}

/* The whole sequence number of a telegram, as an onlooker knows it: a request or confirm tells it in bytes 3..6, and later ones of the same way
 * follow on it, with their lowest byte in byte 1. */
static uint32_t number_of(const board *from, route r, const uint8_t *telegram)
{
    static struct {
        const board *from;
        route route;
        uint32_t number;
    } seen[2 * BOARDS];
    const uint32_t kind = telegram[1] & 0x3F;
    size_t i = 0;

    while (i < 2 * BOARDS - 1 && seen[i].from != NULL && (seen[i].from != from || memcmp(&seen[i].route, &r, sizeof r) != 0))
        i++;
    seen[i].from = from;
    seen[i].route = r;
    if (kind == 0x00 || kind == 0x02)
        seen[i].number = telegram[2] | (uint32_t)telegram[3] << 8 | (uint32_t)telegram[4] << 16 | (uint32_t)telegram[5] << 24;
    else
        seen[i].number += (uint8_t)(telegram[0] - seen[i].number);
    return seen[i].number;
}

/* The bus driver copies the telegram before it returns. The sender's address is that of the place on the bus. */
void board_send(const node *n, route r, const uint8_t *telegram, size_t length)
{
    const board *b = board_of(n);
    sent *s = &frames[frame_count];

    must(frame_count++ < MOST_FRAMES, "too many frames under way");
    s->time = s > frames && s[-1].time + UNDER_WAY > now ? s[-1].time + UNDER_WAY : now;
    s->from = b;
    s->sender = b->address;
    s->receiver = r.partner;
    s->number = number_of(b, r, telegram);
    s->route = r;
    memcpy(s->telegram, telegram, length);
    s->length = length;
}

/* The layer above. The data of this example say whose they are. */
void board_happened(node *n, route r, uj_happened h, const uint8_t *net)
{
    const char *name = partner_name(r.partner);

    (void)n;
    if (h.event != UJ_EVENT_DATA)
        return;
    trace_data(net, h.count);
    data_count++;
    mistaken_count += h.count < strlen(name) || memcmp(net, name, strlen(name)) != 0;
}

void board_watched(const node *n, route r, const char *call, uj_outcome o)
{
    const size_t place = node_place(n, r);
    const uj_record none = {0};

    trace_outcome(now, name_on_bus(board_of(n)), partner_name(r.partner), call, o, place < n->count ? n->table[place] : none);
}

/* Damages one bit in the middle of a telegram, as a cable may. */
static void damage(sent *s)
{
    const size_t at = s->length / 2;

    trace_damage(now, at + 1, s->telegram[at], s->telegram[at] ^ 0x10);
    s->telegram[at] ^= 0x10;
}

/* The oldest frame reaches the board at the address that it was sent to, with addresses and SAPs as the frame had them. */
static void arrive(void)
{
    sent s = frames[0];
    board *to = board_at(s.receiver);
    const frame f = {s.sender, s.route.partner_sap, s.route.local_sap, s.telegram, s.length};
    uint32_t answer = UJ_DONE;

    memmove(frames, frames + 1, --frame_count * sizeof *frames);
    trace_telegram(s.time, name_on_bus(s.from), to ? name_on_bus(to) : "nobody", s.route, s.number, s.telegram, s.length);
    if (damage_next)
        damage(&s);
    damage_next = 0;
    if (to)
        answer = node_received(&to->node, now, f);
    must(answer == UJ_DONE || answer == UJ_ENDED, "a telegram is refused");
}

/* Lets time pass, millisecond by millisecond: frames arrive, and every board ticks. */
static void pass(uint64_t milliseconds)
{
    for (const uint64_t end = now + milliseconds; now < end;) {
        now++;
        while (frame_count > 0 && frames[0].time + UNDER_WAY <= now)
            arrive();
        for (size_t i = 0; i < BOARDS && now % TICK_TIME == 0; i++)
            if (boards[i].fitted)
                must(node_tick(&boards[i].node, now) == UJ_DONE, "a tick is refused");
    }
}

/* A call that must be done, of the scene's making. */
static void open_from(int from, size_t place)
{
    must(node_open(&boards[from].node, now, place) == UJ_DONE, "open is refused");
}

static void send_from(int from, size_t place, uint32_t command, const char *text)
{
    must(node_send(&boards[from].node, now, place, command, (const uint8_t *)text, strlen(text)) == UJ_DONE, "send is refused");
}

static void fit(int which, const char *name, const char *name_elsewhere, uint32_t own, uint32_t random)
{
    board *b = &boards[which];

    b->name = name;
    b->name_elsewhere = name_elsewhere;
    b->address = own;
    b->random = random;
    b->fitted = 1;
    node_start(&b->node, own);
}

/* The configuration. Both ends name a connection from their own side: what is the partner's here is our own there. The places in the on-board
 * computer's table: */
enum { TO_8, TO_9, TO_10, TO_20 };
static void configure(void)
{
    node *on_board = &boards[ON_BOARD].node;

    fit(ON_BOARD, "on-board 1", "", 1, 0x89ABCDEF);
    fit(MODULE_8, "module 8", "", 8, 0x01234567);
    fit(MODULE_9, "module 9", "", 9, 0x9ABCDEF0);
    fit(MODULE_10, "module 10", "module 10 at 20", 10, 0x600DCAFE);
    fit(MODULE_20, "module 20", "module 20 at 10", 20, 0x600DCAFE);
    node_add(on_board, 8, 3, 3, 4);
    node_add(on_board, 9, 4, 6, 2);
    node_add(on_board, 10, 5, 5, 4);
    node_add(on_board, 20, 5, 5, 4);
    node_add(&boards[MODULE_8].node, 1, 3, 3, 4);
    node_add(&boards[MODULE_9].node, 1, 6, 4, 2);
    node_add(&boards[MODULE_10].node, 1, 5, 5, 4);
    node_add(&boards[MODULE_20].node, 1, 5, 5, 4);
}

static void scene_level_4(void)
{
    trace_heading("1. Module 8 opens a connection at level 4. Addresses, SAPs and numbers are those of 5.3.1.7, which prints the "
                  "third and the fourth telegram.");
    open_from(MODULE_8, 0);
    pass(10);
    send_from(MODULE_8, 0, 0x20, "module 8: ready");
    send_from(ON_BOARD, TO_8, 0x21, "on-board 1: 120");
    pass(10);
}

static void scene_level_2(void)
{
    trace_heading("2. The on-board computer opens a connection at level 2 with module 9. The SAPs differ, the check word has four bytes.");
    boards[ON_BOARD].random = 0x000000FE;
    open_from(ON_BOARD, TO_9);
    pass(10);
    send_from(ON_BOARD, TO_9, 0x09, "on-board 1: 120");
    send_from(MODULE_9, 0, 0x3F, "module 9: here");
    pass(10);
}

static void scene_idle(void)
{
    trace_heading("3. Nobody has anything to say. The ticks write idle telegrams, half of the declared 500 ms after the last sending.");
    pass(560);
}

static void scene_damage(void)
{
    trace_heading("4. A data telegram is damaged under way. Its data do not come up; both ends close, and may open again (5.2.5.7.3).");
    damage_next = 1;
    send_from(MODULE_8, 0, 0x20, "module 8: ready");
    pass(10);
}

static void scene_final(void)
{
    trace_heading("5. The on-board computer closes the connection with module 9 for good (5.2.5.8.1). Neither end opens it again.");
    must(node_close(&boards[ON_BOARD].node, now, TO_9, UJ_FINAL, UJ_REASON_APPLICATION, "end of run") == UJ_DONE, "close is refused");
    pass(10);
    must(node_open(&boards[ON_BOARD].node, now, TO_9) == UJ_ENDED, "a finally closed record opens");
    must(node_open(&boards[MODULE_9].node, now, 0) == UJ_ENDED, "a finally closed record opens");
}

static void scene_wait(void)
{
    trace_heading("6. Module 8 is unplugged, and a request is never answered. The wait lasts 5000 ms; the first tick after it "
                  "closes (5.2.5.7.2).");
    boards[MODULE_8].fitted = 0;
    open_from(ON_BOARD, TO_8);
    pass(5200);
    boards[MODULE_8].fitted = 1;
}

/* The workshop exchanges the cards of modules 10 and 20, or puts them back. */
static void exchange(void)
{
    const uint32_t address = boards[MODULE_10].address;

    boards[MODULE_10].address = boards[MODULE_20].address;
    boards[MODULE_20].address = address;
}

static void scene_exchange(void)
{
    trace_heading("7. Modules 10 and 20 have the same level, SAPs and numbers: only their addresses differ. Both are open.");
    for (size_t place = TO_10; place <= TO_20; place++) {
        boards[ON_BOARD].random = 0x12345678;
        open_from(ON_BOARD, place);
        pass(10);
    }
    send_from(MODULE_10, 0, 0x20, "module 10: shut");
    send_from(MODULE_20, 0, 0x20, "module 20: open");
    pass(10);
    trace_heading("8. The workshop exchanges their cards: \"module 10 at 20\" is module 10's card in the place of module 20. What it sends comes from "
                  "address 20, and has the very number that is expected from there.");
    exchange();
    data_count = 0;
    send_from(MODULE_10, 0, 0x20, "module 10: shut");
    pass(10);
    send_from(ON_BOARD, TO_10, 0x21, "on-board 1: 80");
    pass(10);
    printf("\nData sent between the exchanged cards: 2. Handed up: %u.\n", data_count);
    trace_heading("9. Nor does a connection open: the request of one, under the other's address, is dropped, and its wait runs out.");
    open_from(MODULE_10, 0);
    pass(5200);
    trace_heading("10. The cards are put back. The connection opens, and data come up again.");
    exchange();
    open_from(MODULE_10, 0);
    pass(10);
    send_from(MODULE_10, 0, 0x20, "module 10: shut");
    pass(10);
}

/* Whether both ends of a connection of the on-board computer are closed for good. */
static int ended(size_t place, int module)
{
    return boards[ON_BOARD].node.table[place].phase == UJ_FINALLY_CLOSED && boards[module].node.table[0].phase == UJ_FINALLY_CLOSED;
}

static void scene_second_damage(void)
{
    trace_heading("11. Module 8 is plugged in again, and opens its connection. Another of its telegrams is damaged, the second within 25 s. The link "
                  "closes as before; the firmware has counted, and ends the connection for good (5.2.5.8.4).");
    open_from(MODULE_8, 0);
    pass(10);
    damage_next = 1;
    send_from(MODULE_8, 0, 0x20, "module 8: ready");
    pass(10);
    must(ended(TO_8, MODULE_8), "a connection goes on after the second incorrect telegram");
}

int main(void)
{
    printf("The on-board computer, address 1, and the national modules 8, 9, 10 and 20 on one bus.\n");
    printf("A line for each telegram, as below: the time is in ms, the number is the sequence number. Under it what the receiver did, and why.\n");
    trace_columns();
    configure();
    scene_level_4();
    scene_level_2();
    scene_idle();
    scene_damage();
    scene_final();
    scene_wait();
    scene_exchange();
    scene_second_damage();
    printf("\nData that came up under another's name: %u.\n", mistaken_count);
    return mistaken_count != 0;
}
