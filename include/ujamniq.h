/*
 * Ujamniq: the Safe Link Layer of the STM bus (SUBSET-057 version 2.2.0), levels 4 and 2, and the local clock of its Safe Time Layer, for C firmware.
 *
 * Link libujamniq.a, which `./install FOLDER` makes: every function of this header is in it. It uses no heap; what each function needs of the stack at
 * worst stands in docs/MEASURED.md, and what to keep in mind on an interrupt stack in docs/LINKING.md.
 *
 * A node uses the five calls over its table: uj_open, uj_close, uj_send, uj_received, uj_tick. They write every telegram and check every telegram by
 * themselves. The writers, the check and the check word also stand alone, and so does the local clock of SUBSET-056, the last part of this header.
 *
 * Every function here takes any numbers and any bytes, ends, and keeps nothing between two calls. Four rules on memory are yours; nothing can check
 * them for you:
 *   - Runs, of bytes or of records, are passed as a pointer and a length; the length of a table counts records. The pointer must be readable (for
 *     `out` and `table`: writable) for that length; a null pointer goes only with length 0.
 *   - `out` and `table` must not overlap each other or any other run of the same call. Runs that are only read may overlap each other.
 *   - `table` is aligned as C aligns an array of uj_record. Runs of bytes may stand at any address.
 *   - Until a call returns, no other thread and no interrupt changes a run that it was lent, or uses its `table` or `out`. There is no state of the
 *     library's own, so calls with different tables and buffers need no lock. Threads that share a table hold one lock from the reading of the head to
 *     the storing of the one that comes back.
 *
 * An end of a connection is named by five plain numbers, in this order:
 *   own          this node's bus address, 0..126
 *   partner      the partner's bus address, 0..126
 *   partner_sap  the partner's service access point, 0..62
 *   local_sap    this end's service access point, 0..62
 *   level        the Safety Level, 4 or 2
 * They come from your configuration and never from the arriving frame: that is what keeps two partners apart. Both ends name a connection from their own
 * side: what is partner and partner_sap here is own and local_sap there. On the wire the destination SAP (DSAP) is the receiver's, the source SAP (SSAP) the
 * sender's.
 *
 * Numbers are 32 bits wide where a narrower type would let a wrong number wrap into a good one: 256 as an address is refused, not taken as 0.
 */
#ifndef UJAMNIQ_H
#define UJAMNIQ_H

#include <stddef.h>
#include <stdint.h>

#ifdef __cplusplus
extern "C" {
#endif

/* The version of this library. */
#define UJ_VERSION "0.2.0"

/* The longest telegram, check word included. Every output buffer needs this much room, however short the telegram. */
#define UJ_LONGEST 244

/* Answers. Several at once: the first that holds, in this order. Those marked "calls" are given by the calls over a table alone. */
#define UJ_DONE 0u            /* done; the check: passes */
#define UJ_OUT_OF_RANGE 1u    /* an address, SAP or level out of range; calls: a table that is not accepted, see uj_record; own address over 126 */
#define UJ_NO_ROOM 4u         /* output buffer shorter than UJ_LONGEST */
#define UJ_TIME_BACKWARDS 7u  /* calls: time smaller than the head's latest */
#define UJ_BAD_TELEGRAM 6u    /* telegram to check, or received, of 0..5 or over 244 bytes */
#define UJ_NO_RECORD 2u       /* calls: record number past the table, or no record matches the telegram */
#define UJ_ENDED 8u           /* calls: the record is finally closed */
#define UJ_WRONG_PHASE 3u     /* calls: open on a record not closed, send on one not open, close on a closed one */
#define UJ_BAD_VALUE 5u       /* idle time, command, new_setup, reason, or length of net data or text not allowed */
#define UJ_TOO_FEW_PAIRS 9u   /* the local clock: fewer than 16 pairs count, so that there is no factor and no Reference Time */
#define UJ_FAILED 100u        /* the check: this number or a greater one means failed */

/* Which answers there are beside UJ_DONE, in their order:
 *   uj_write_request, uj_write_confirm, uj_write_disconnect, uj_write_data    1, 4, 5
 *   uj_write_authentication, uj_write_acknowledgement, uj_write_idle          1, 4
 *   uj_check                                                                  1, 6, then UJ_FAILED
 *   uj_open, uj_close, uj_send                                                1, 4, 7, 2, 8, 3, 5
 *   uj_received                                                               1, 4, 7, 6, 2, 8, 5
 *   uj_tick                                                                   1, 4, 7, 2, 8
 *   uj_clock_factor, uj_clock_reference_time                                  9
 *   uj_clock_read                                                             201, 202, see there
 * The other functions refuse nothing. */

/* New set-up desired (5.2.5.9, byte 3), the type of a disconnect: whether the connection may be set up anew. */
#define UJ_FINAL 0u      /* it may not: final, the connection never opens again */
#define UJ_NEW_SETUP 1u  /* it may, from either end */

/* Reasons of a disconnect (5.2.5.9, byte 4). 20h..40h are of the layer above (5.2.5.9.1). */
#define UJ_REASON_APPLICATION 0x00u     /* disconnect request from application */
#define UJ_REASON_VERSION 0x01u         /* bad version error */
#define UJ_REASON_SET_UP 0x02u          /* error during connection set-up */
#define UJ_REASON_AUTHENTICATION 0x03u  /* authentication error */
#define UJ_REASON_EXISTING 0x04u        /* connection set-up for existing connection */
#define UJ_REASON_IDLE 0x05u            /* idle cycle time-out */
#define UJ_REASON_INCORRECT_1ST 0x06u   /* 1st incorrect receive */
#define UJ_REASON_INCORRECT_2ND 0x07u   /* 2nd incorrect receive */
#define UJ_REASON_OTHER 0x1Fu           /* other reason of the Safe Link Layer */

/* What a writer did. When `answer` is not UJ_DONE, `length` is 0 and nothing was written. When it is, the telegram stands in the first `length` bytes of
 * `out`, and the bytes behind it are as they were. */
typedef struct uj_written {
    uint32_t answer;
    uint32_t length;
} uj_written;

/* Connect request and connect confirm (5.2.1, 5.2.2). `random` is the telegram's sequence number. `idle_time` in milliseconds: 0, or a multiple of 100 in
 * 100..65500. `net` of up to 226 bytes at level 4, 228 at level 2. The version written is 3.0.0, the dual bus byte 0. */
uj_written uj_write_request(uint32_t own, uint32_t partner, uint32_t partner_sap, uint32_t local_sap, uint32_t level, uint32_t random, uint32_t idle_time,
                            const uint8_t *net, size_t net_length, uint8_t *out, size_t out_length);
uj_written uj_write_confirm(uint32_t own, uint32_t partner, uint32_t partner_sap, uint32_t local_sap, uint32_t level, uint32_t random, uint32_t idle_time,
                            const uint8_t *net, size_t net_length, uint8_t *out, size_t out_length);

/* Authentication and its acknowledgement (5.2.3, 5.2.4). `number` is the sequence number to send with. `received` is the random number RECEIVED at set-up;
 * the function adds what 5.1.4 asks for at the level. */
uj_written uj_write_authentication(uint32_t own, uint32_t partner, uint32_t partner_sap, uint32_t local_sap, uint32_t level, uint32_t number,
                                   uint32_t received, uint8_t *out, size_t out_length);
uj_written uj_write_acknowledgement(uint32_t own, uint32_t partner, uint32_t partner_sap, uint32_t local_sap, uint32_t level, uint32_t number,
                                    uint32_t received, uint8_t *out, size_t out_length);

/* Disconnect (5.2.5). `new_setup` is UJ_FINAL or UJ_NEW_SETUP. `reason`: 00h..07h, 1Fh, or 20h..40h of the layer above. `text` of up to 40 bytes for
 * diagnostics, written as they are. */
uj_written uj_write_disconnect(uint32_t own, uint32_t partner, uint32_t partner_sap, uint32_t local_sap, uint32_t level, uint32_t number,
                               uint32_t new_setup, uint32_t reason, const uint8_t *text, size_t text_length, uint8_t *out, size_t out_length);

/* Idle (5.2.6). */
uj_written uj_write_idle(uint32_t own, uint32_t partner, uint32_t partner_sap, uint32_t local_sap, uint32_t level, uint32_t number, uint8_t *out,
                         size_t out_length);

/* Data (5.2.7). `command` is the command's low six bits, 09h or 20h..3Fh. `net` of up to 236 bytes at level 4, 238 at level 2. */
uj_written uj_write_data(uint32_t own, uint32_t partner, uint32_t partner_sap, uint32_t local_sap, uint32_t level, uint32_t number, uint32_t command,
                         const uint8_t *net, size_t net_length, uint8_t *out, size_t out_length);

/* The check of a received telegram. `expected` is the sequence number expected next; a connect request or confirm is checked with its own random
 * number instead. While a confirm is awaited, pass 0. The version in a request or confirm is not part of the check; nor is the reason in a
 * disconnect. Answers UJ_DONE when the telegram passes, UJ_OUT_OF_RANGE or UJ_BAD_TELEGRAM when refused, and UJ_FAILED or a greater number when it
 * fails. A telegram that fails must not be used. */
uint32_t uj_check(uint32_t own, uint32_t partner, uint32_t partner_sap, uint32_t local_sap, uint32_t level, uint32_t expected, const uint8_t *telegram,
                  size_t telegram_length);

/* Where the net data of a telegram lie: `count` bytes from index `start` on, after the fixed header and before the check word; of a disconnect, its text.
 * Both are 0 for bytes that have no telegram's command, level and length. Use it on a telegram that passed the check. */
typedef struct uj_part {
    uint32_t start;
    uint32_t count;
} uj_part;
uj_part uj_net_data(const uint8_t *telegram, size_t telegram_length);

/* The check word of section 10 over `first` and then `second`, as if they stood one after the other. The word of no bytes is 0. */

/* Level 4 (CRC_SL4): 48 bits, so the two highest bytes of the result are 0. */
uint64_t uj_word48(const uint8_t *first, size_t first_length, const uint8_t *second, size_t second_length);

/* Level 2 (CRC_SL2). */
uint32_t uj_word32(const uint8_t *first, size_t first_length, const uint8_t *second, size_t second_length);

/*
 * The calls of a node.
 *
 * The node lends a table of 1 to 64 connection records and one output buffer to each call, and gives its head by value. No call keeps any of them.
 *
 * Time is 64-bit milliseconds of a clock of yours that never goes back and never wraps. A time equal to the latest is allowed.
 *
 * A call that answers anything but UJ_DONE changes nothing: not the table, not the buffer, and the head comes back as it was. A call that answers
 * UJ_DONE changes at most one record. Store the head that comes back before the next call: it holds the latest time, and with an older head the timers
 * that the call has set are out of range, so that every later call answers UJ_OUT_OF_RANGE.
 *
 * A telegram written is yours to send: to the record's partner, with partner_sap as DSAP and local_sap as SSAP. After uj_received that is the sender
 * of the telegram received, with the two SAPs exchanged. Send it before the next call uses the buffer.
 *
 * Look at the event of every call: uj_received and uj_tick close a connection by themselves, and write a disconnect with the reason, for the partner:
 *   01h, finally  a confirm of another version than 3.0
 *   02h           no confirm within 5,000 ms after our request
 *   03h, finally  an error during authentication: no authentication or acknowledgement within 5,000 ms after what we sent last, another telegram in
 *                 its place, or a wrong number in it
 *   04h           a request, confirm, authentication or acknowledgement on an open connection
 *   05h           the partner silent for longer than it declared
 *   06h           a telegram that fails the check, in every phase but the closed ones
 * Where uj_received tells UJ_EVENT_CLOSED and wrote no telegram, the partner's disconnect has closed the connection, and the reason is the partner's.
 *
 * An error upon transmission is seen by your bus driver alone. Where it reports one of a set-up telegram, close by yourself: 02h with UJ_NEW_SETUP for
 * a request or confirm (5.2.5.7.2), 03h with UJ_FINAL for an authentication or acknowledgement (5.2.5.8.3).
 *
 * Your duty, the second incorrect telegram: SUBSET-057 wants a connection to end for good when a second telegram fails the check within 25 s at level
 * 4, within 64 s at level 2 (5.2.5.8.4, 11.3.5.1.2, 11.4.5.1.2). A record has no place for the time of the first, so the link closes with 06h each
 * time, and the connection may open again. Count, for each connection, the times when uj_received closes with 06h by itself. At the second within the
 * period end it: uj_open, then uj_close with UJ_FINAL and UJ_REASON_INCORRECT_2ND, both telegrams sent in that order, so that the partner ends it
 * too. `node_received` of examples/node.c does this.
 * A closed record drops an incorrect telegram and tells no event, though 5.5.1.5 counts it too (column Idle, f_13): to count it, put each telegram for a
 * closed record to uj_check as well, with 0 expected. A late telegram of the connection before fails there too.
 */

/* Phases of a record. A record of zeros is in none of them. */
#define UJ_CLOSED 1u                   /* may be opened, from either end */
#define UJ_CONFIRM_AWAITED 2u          /* opener: the request has gone out */
#define UJ_AUTHENTICATION_AWAITED 3u   /* responder: the confirm has gone out */
#define UJ_ACKNOWLEDGEMENT_AWAITED 4u  /* opener: the authentication has gone out */
#define UJ_OPEN 5u                     /* data may go both ways */
#define UJ_FINALLY_CLOSED 6u           /* never opens again; the calls answer UJ_ENDED */

/* The most records of a table. */
#define UJ_MOST_RECORDS 64

/* One connection. Make it with uj_fresh, since fields may be added later; afterwards only the calls change it. Read what you like.
 *
 * A table is accepted when it has 1 to 64 records, every field is in range, and no two records agree in partner, partner_sap and local_sap: two that
 * differ in one SAP alone are good. In range are, besides the addresses, SAPs and levels named above: the six phases; idle times of 0 or a multiple
 * of 100 in 100..65500; timers not later than the head's latest time; and on a closed record, finally or not, 0 in every field from `sending` on. */
typedef struct uj_record {
    uint32_t partner;     /* the partner's bus address, 0..126 */
    uint32_t partner_sap; /* the partner's SAP, 0..62 */
    uint32_t local_sap;   /* our SAP, 0..62 */
    uint32_t level;       /* 4 or 2 */
    uint32_t phase;       /* UJ_CLOSED .. UJ_FINALLY_CLOSED */
    uint32_t sending;     /* the number of the next telegram sent */
    uint32_t expected;    /* the number of the next telegram taken */
    uint32_t declared;    /* the idle time that we declared, in milliseconds; 0: we send no idle telegrams */
    uint32_t watched;     /* the idle time that the partner declared, which we watch; 0: no watch */
    uint64_t sent_at;     /* when it last sent */
    uint64_t taken_at;    /* when it last took a telegram */
} uj_record;

/* The node's own bus address, 0..126, and the latest time seen. Make it with uj_new_head, since fields may be added later. */
typedef struct uj_head {
    uint32_t own;
    uint64_t latest;
} uj_head;

/* Which telegram a call wrote. */
#define UJ_TELEGRAM_NONE 0u
#define UJ_TELEGRAM_REQUEST 1u
#define UJ_TELEGRAM_CONFIRM 2u
#define UJ_TELEGRAM_AUTHENTICATION 3u
#define UJ_TELEGRAM_ACKNOWLEDGEMENT 4u
#define UJ_TELEGRAM_DISCONNECT 5u
#define UJ_TELEGRAM_IDLE 6u
#define UJ_TELEGRAM_DATA 7u

/* The answer of a call. The telegram, if any, stands in the first `length` bytes of `out`, and the bytes behind it are as they were. Where none was
 * written, `length` is 0 and `out` is as it was. */
typedef struct uj_answer {
    uint32_t number;   /* UJ_DONE, or why the call was refused */
    uint32_t telegram; /* UJ_TELEGRAM_NONE .. UJ_TELEGRAM_DATA */
    uint32_t length;
} uj_answer;

/* Events, for the layer above. */
#define UJ_EVENT_NOTHING 0u
#define UJ_EVENT_OPENED 1u /* the connection is open */
#define UJ_EVENT_DATA 2u   /* data of the partner: command, start, count */
#define UJ_EVENT_CLOSED 3u /* the connection is closed: reason, last; also after a uj_close of yours */

/* What happened. Parts that the event does not name are 0. The net data of UJ_EVENT_DATA are the `count` bytes from `telegram + start` on, in the
 * telegram that you gave to uj_received: nothing is copied. */
typedef struct uj_happened {
    uint32_t event;
    uint32_t command; /* the command's low six bits, 09h or 20h..3Fh */
    uint32_t start;
    uint32_t count;
    uint32_t reason;  /* the reason of 5.2.5.9: ours, or the one that the partner's disconnect gives, which may be any byte */
    uint32_t last;    /* 1: finally closed; 0: the record may be opened again */
} uj_happened;

/* What a call gives back beside table and buffer. */
typedef struct uj_outcome {
    uj_head head; /* to store */
    uj_answer answer;
    uj_happened happened;
} uj_outcome;

/* The head of a node that has seen no time yet. */
uj_head uj_new_head(uint32_t own);

/* A closed record that has never been used. Both constructors take any numbers; the calls refuse what is out of range. Only a restart of the node may
 * make a finally closed record anew (5.2.5.5.1): never put a uj_fresh over one. */
uj_record uj_fresh(uint32_t partner, uint32_t partner_sap, uint32_t local_sap, uint32_t level);

/* In the calls: `table` of `count` records; `place` is a record's number in it, from 0 on. `out` needs room for UJ_LONGEST bytes in every call, also
 * where no telegram is written.
 *
 * `random` becomes the number of our first telegram, and the partner proves by it that it heard us (5.3.1.2, 5.3.1.3). Give a new one to each call, from a
 * generator that doesn't begin alike at every start of the card and that gives different connections different numbers (5.3.1.5). Where a number
 * comes again, telegrams of an earlier connection can fit again. The library cannot see whether a number is new.
 *
 * `named` is 0 where you name no idle time: then 1,000 is declared, and `idle_time` is not looked at. (Up to version
 * 0.1.0 then 500 was declared; who relied on that names 500.) Any other `named` declares `idle_time`; naming 0 is
 * naming one, and no idle telegrams are sent then. */

/* Opens a closed connection: a request goes out. `net` of up to 226 bytes at level 4, 228 at level 2 goes with it.
 * UJ_EVENT_OPENED comes with a later uj_received.
 *
 * One end opens, by configuration, and the other waits for its request (3.3.1.7, 3.3.1.8: a connection has one master).
 * Where both open at once, each ignores the other's request, and nothing opens. The end whose wait of 5,000 ms runs out
 * first closes with 02h; its disconnect is not numbered as the other end expects (unless its random number was
 * FFFFFFFFh), so that the other closes with 06h, or with 02h where its own wait has run out too. Either may open again,
 * but that 06h counts as an incorrect telegram: see "Your duty" above. */
uj_outcome uj_open(uj_record *table, size_t count, uj_head head, uint64_t time, size_t place, uint32_t random, uint32_t named, uint32_t idle_time,
                   const uint8_t *net, size_t net_length, uint8_t *out, size_t out_length);

/* Closes a connection in any phase but closed: a disconnect goes out. `new_setup`, the field New_setup_desired of 5.2.5.9: UJ_FINAL, and the record
 * never opens again; or UJ_NEW_SETUP, and it may be opened again. `reason`: 00h..07h, 1Fh, or 20h..40h of the layer above. `text` of up to 40 bytes
 * for diagnostics: written as they are, without an end mark. A disconnect that the link writes by itself has none. The event doesn't hand the text of
 * a received disconnect up; uj_net_data finds it in the telegram. */
uj_outcome uj_close(uj_record *table, size_t count, uj_head head, uint64_t time, size_t place, uint32_t new_setup, uint32_t reason,
                    const uint8_t *text, size_t text_length, uint8_t *out, size_t out_length);

/* Sends data on an open connection. `command` is the command's low six bits, 09h or 20h..3Fh. `net` of up to 236 bytes at level 4, 238 at level 2. */
uj_outcome uj_send(uj_record *table, size_t count, uj_head head, uint64_t time, size_t place, uint32_t command, const uint8_t *net, size_t net_length,
                   uint8_t *out, size_t out_length);

/* Takes a telegram, for the record that matches it, wherever that stands in the table: `sender`, the sender's address, is its partner;
 * `destination_sap` its local_sap; `source_sap` its partner_sap. All three are the bus driver's, as the frame had them. `random`, `named` with
 * `idle_time`, and `net` (limits of uj_open) are for a confirm, should the telegram be a good request; they are measured against their limits in any
 * case. A telegram that fails the check, comes too late or in a phase that is not for it brings no data: the record is closed, or the telegram
 * dropped, as 5.5 says.
 *
 * The net data of a request or confirm are no event. Where uj_received wrote a confirm or an authentication, uj_net_data finds them in the telegram.
 *
 * A telegram that comes after its wait or after the partner's idle time isn't looked at, however good it is: the record closes. So an acknowledgement
 * that is late by one millisecond closes finally (03h), and the disconnect ends the connection for the partner too, for whom it was already open. While
 * the acknowledgement is awaited we send no idle telegrams, but the partner's watch runs from its acknowledgement on: where that may take longer to
 * arrive than the idle time that you declare, declare a longer one, or the partner closes with 05h. */
uj_outcome uj_received(uj_record *table, size_t count, uj_head head, uint64_t time, uint32_t sender, uint32_t destination_sap, uint32_t source_sap,
                       uint32_t random, uint32_t named, uint32_t idle_time, const uint8_t *telegram, size_t telegram_length, const uint8_t *net,
                       size_t net_length, uint8_t *out, size_t out_length);

/* Lets time pass for one record. Call it for every record regularly, well within half of the idle time that you declare: nothing else notices that a
 * partner is silent. It closes a record whose wait for a confirm, an authentication or an acknowledgement has lasted more than 5,000 ms, or whose
 * partner has been silent for longer than it declared; else, on an open record, it writes an idle telegram once half of the time that we declared has
 * passed since we last sent. */
uj_outcome uj_tick(uj_record *table, size_t count, uj_head head, uint64_t time, size_t place, uint8_t *out, size_t out_length);

/*
 * The local clock (SUBSET-056 version 3.0.0, sections 6.3, 7.2 and 7.4): Reference Time on a node that has no reference clock. It stands beside the calls: it
 * knows no table and no telegram, and no call looks at it.
 *
 * The clock is yours, one for the node. Make it with uj_clock_new at power-on, lend it to uj_clock_message for each Sync and Reference Time message, each
 * once and in the order in which they came, and ask it with uj_clock_reference_time. A message is the net data of a multicast telegram with
 * UJ_CLOCK_COMMAND from the reference clock, which you have checked and of which you have suppressed the copies (SUBSET-057, 6.1.1.9): whether it is
 * genuine is not asked here, and a copy makes an unsynchronised clock begin anew. This library has no multicast: check, net data (from the ninth byte on,
 * SUBSET-057, 6.2.1.7) and copies are yours, and uj_check and uj_net_data are not for such a telegram.
 *
 * A `uj_clock *` is not null, readable (for uj_clock_message: writable) and aligned as C aligns a uj_clock. Until the call returns no other thread and no
 * interrupt changes it or, during uj_clock_message, uses it. A clock may be copied: nothing in it points anywhere.
 *
 * Both times are counted in milliseconds and wrap at 2^32. Each has a type of its own, so that none stands in for the other. Only
 * uj_clock_reference_time makes a Reference Time out of a local time. What it gives is the paper's Local_Reference_Time, this node's estimate of Reference
 * Time (3.4.8.1, 7.4.5.1); the factor is its Adjustment Factor (7.4.4).
 *
 * Nothing runs by itself. That the bus is silent is noticed by asking alone: ask regularly, well within 3 s. An answer UJ_TOO_FEW_PAIRS from a clock whose
 * state is UJ_CLOCK_SYNCHRONISED means that synchronisation is lost (7.4.1.7.3.3): the next message that is received after that moment isolates the clock.
 * Take the messages that wait before you ask.
 */

/* Local_Clock_Time: the reading of this node's own free running counter (3.4.7.2). */
typedef struct uj_local_time {
    uint32_t ms;
} uj_local_time;

/* Reference Time, which the messages on the bus define (3.4.6.1). */
typedef struct uj_ref_time {
    uint32_t ms;
} uj_ref_time;

/* How many pairs make a factor (7.4.4.2.2). */
#define UJ_CLOCK_PAIRS 16

/* One moment in both times: a message was on the bus then. */
typedef struct uj_pair {
    uj_ref_time reference;
    uj_local_time local;
} uj_pair;

/* A Sync and Reference Time message (6.3.1.9): its number, and the Reference Time of the message BEFORE it. */
typedef struct uj_sync_message {
    uint32_t number;
    uj_ref_time reference;
} uj_sync_message;

/* States (7.4.1.7.2). Any other number counts as isolated, so that a zeroed clock is never a new one. */
#define UJ_CLOCK_UNSYNCHRONISED 1u
#define UJ_CLOCK_SYNCHRONISED 2u
#define UJ_CLOCK_ISOLATED 3u

/* The estimator. Only the functions here change it. Any values are taken. Pairs that don't count, the fields of `last` while `received` is 0, and
 * `resynchronised` and `period` while the state is not UJ_CLOCK_SYNCHRONISED have no meaning. */
typedef struct uj_clock {
    uj_pair pairs[UJ_CLOCK_PAIRS]; /* newest first */
    uint32_t count;                /* how many of them count; more than 16 count as 16 */
    uint32_t state;
    struct {
        uint32_t received;   /* 0 before the first message */
        uint32_t number;     /* the number of the message received last, .. */
        uj_local_time local; /* .. and the local time at its reception */
    } last;
    uj_local_time resynchronised; /* the local time of the last resynchronisation */
    struct {
        uj_local_time begun; /* the 30 s period: where it began, .. */
        uint32_t factor;     /* .. the factor that was valid there, .. */
        uint32_t messages;   /* .. and how many messages came in it so far */
    } period;
} uj_clock;

/* A clock that has received no message. A clock that is isolated stays so: only a restart of the node may put a new one in its place. */
uj_clock uj_clock_new(void);

/* Further answers of uj_clock_read. */
#define UJ_CLOCK_NOT_ELEVEN 201u   /* no Sync and Reference Time message: it has not 11 bytes */
#define UJ_CLOCK_OTHER_PREFIX 202u /* no Sync and Reference Time message of this version: it does not begin with 3, 0, 0 */

/* What a run of bytes is. When `answer` is not UJ_DONE, the message's fields are 0 and it must not be used. */
typedef struct uj_reading {
    uint32_t answer;
    uj_sync_message message;
} uj_reading;

/* The command of a multicast telegram that carries a Sync and Reference Time message (6.1.1.3). */
#define UJ_CLOCK_COMMAND 0xA1u

/* Reads a message from its bytes: 3, 0, 0, then number and Reference Time of four bytes each, lowest byte first (6.3.1.9, 6.1.1.1). Give it the net data of
 * telegrams with UJ_CLOCK_COMMAND alone: a Safe Time Layer Startup message (A4h, 6.6.1.5) has the same form, and the bytes do not tell. */
uj_reading uj_clock_read(const uint8_t *bytes, size_t length);

/* What a message did: events, which are no answers and refuse nothing. From UJ_CLOCK_FAILED on it is the test that failed. A clock that was synchronised is
 * then isolated; on one that was not no pair counts any more, and it goes on from this message, or, after UJ_CLOCK_NOT_ABOVE, from the next. */
#define UJ_CLOCK_KEPT 0u                  /* no pair: the message before this one was not received. The local time of this one is kept for the next */
#define UJ_CLOCK_PAIRED 1u                /* one pair more, and not yet 16 */
#define UJ_CLOCK_NOW_SYNCHRONISED 2u      /* the sixteenth pair: synchronised from now on */
#define UJ_CLOCK_RESYNCHRONISED 3u        /* one pair more, and all tests passed */
#define UJ_CLOCK_DROPPED 4u               /* synchronised, and the number is not above the last: not looked at, the clock is as it was */
#define UJ_CLOCK_STAYS_ISOLATED 5u        /* isolated: not looked at, the clock is as it was */
#define UJ_CLOCK_FAILED 101u              /* this number or a greater one: a test failed */
#define UJ_CLOCK_NOT_ABOVE 101u           /* not synchronised, and the number is not above the last: no message counts as received any more */
#define UJ_CLOCK_NO_FACTOR 102u           /* synchronised with fewer than 16 pairs, which no message brings about (7.4.1.5.1) */
#define UJ_CLOCK_TOO_LATE 103u            /* more than 3 s since the last resynchronisation (7.4.1.6), or the counter went back */
#define UJ_CLOCK_REFERENCE_NOT_LATER 104u /* the Reference Time is not later than that of the newest pair (7.4.2.2.1, 7.4.3.3) */
#define UJ_CLOCK_LOCAL_NOT_LATER 105u     /* the same of the local time (7.4.2.2.2, 7.4.3.4) */
#define UJ_CLOCK_SHORT_TERM 106u          /* 100 ms or more away from the factor (7.4.3.5) */
#define UJ_CLOCK_TOO_FEW 107u             /* fewer than 18 messages in the 30 s period that ended (7.4.3.6) */
#define UJ_CLOCK_LONG_TERM 108u           /* the factor moved by more than 30 ms in the 30 s period that ended (7.4.3.7) */

/* Takes a message that was received at `local`, for the clock where it stands, and returns the event. Look at clock->state after each: where it has become
 * UJ_CLOCK_ISOLATED, all logical connections of the node are to be disconnected, multicast included (7.4.1.7.4.4): finally, with reason 22h (5.3.1.3). */
uint32_t uj_clock_message(uj_clock *clock, uj_sync_message message, uj_local_time local);

/* The factor and the Reference Time at the moment `local`. Answers UJ_DONE or UJ_TOO_FEW_PAIRS. Pairs count on a synchronised clock alone, and at moments
 * that are at most 3 s away from the last resynchronisation: so none is given by a factor that is more than 3 s old (but see docs/TRUST.md on a silence of 49.7 days).
 * A counter that was read just before the last message was taken is good. When `answer` is not UJ_DONE, the other part is 0 and must not be used. The clock stays as it is. */
typedef struct uj_factor {
    uint32_t answer;
    uint32_t factor; /* Reference Time less local time, modulo 2^32 */
} uj_factor;
uj_factor uj_clock_factor(const uj_clock *clock, uj_local_time local);

typedef struct uj_reference {
    uint32_t answer;
    uj_ref_time time;
} uj_reference;
uj_reference uj_clock_reference_time(const uj_clock *clock, uj_local_time local);

#ifdef __cplusplus
}
#endif

#endif
