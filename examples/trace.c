#include "trace.h"
#include <stdio.h>
#include <string.h>

/* The names of 5.2, in the order of UJ_TELEGRAM_NONE .. UJ_TELEGRAM_DATA. */
static const char *const telegram_names[] = {
    "nothing", "request", "confirm", "authentication", "acknowledgement", "disconnect", "idle", "data",
};

void trace_columns(void)
{
    printf("\n%6s  %-15s   %-15s  %-7s  %-15s  %-9s  %3s  %s\n", "time", "from", "to", "SAPs", "telegram", "number", "len", "bytes | check word");
}

void trace_heading(const char *text)
{
    printf("\n%s\n\n", text);
}

void trace_damage(uint64_t time, size_t at, unsigned was, unsigned is)
{
    printf("%6llu      damaged under way: byte %zu, sent as %02X, arrives as %02X\n", (unsigned long long)time, at, was, is);
}

/* The low six bits of a command (5.1.1.5) and the telegram that they name. */
static const char *name_of(uint32_t command)
{
    switch (command) {
    case 0x00:
        return telegram_names[UJ_TELEGRAM_REQUEST];
    case 0x02:
        return telegram_names[UJ_TELEGRAM_CONFIRM];
    case 0x03:
        return telegram_names[UJ_TELEGRAM_AUTHENTICATION];
    case 0x04:
        return telegram_names[UJ_TELEGRAM_ACKNOWLEDGEMENT];
    case 0x05:
        return telegram_names[UJ_TELEGRAM_DISCONNECT];
    case 0x06:
        return telegram_names[UJ_TELEGRAM_IDLE];
    default:
        return telegram_names[UJ_TELEGRAM_DATA];
    }
}

void trace_telegram(uint64_t time, const char *from, const char *to, route r, uint32_t number, const uint8_t *telegram, size_t length)
{
    /* The command's top two bits give the level, and the level the length of the check word. */
    const size_t word = telegram[1] >> 6 == 2 ? 6 : 4;

    printf("%6llu  %-15s → %-15s  %2u → %-2u  %-15s  %08Xh  %3zu  ", (unsigned long long)time, from, to, (unsigned)r.local_sap,
           (unsigned)r.partner_sap, name_of(telegram[1] & 0x3F), (unsigned)number, length);
    for (size_t i = 0; i < length; i++)
        printf("%s%02X", i == 0 ? "" : i == length - word ? " | " : " ", (unsigned)telegram[i]);
    printf("\n");
}

/* The reasons of 5.2.5.9. A partner's may be any byte. */
static const char *reason_name(uint32_t reason)
{
    static const char *const names[] = {
        "disconnect request from application",       "bad version error",   "error during connection set-up", "authentication error",
        "connection set-up for existing connection", "idle cycle time-out", "1st incorrect receive",          "2nd incorrect receive",
    };

    if (reason < sizeof names / sizeof *names)
        return names[reason];
    if (reason == UJ_REASON_OTHER)
        return "other reason of the Safe Link Layer";
    return 0x20 <= reason && reason <= 0x40 ? "a reason of the layer above" : "a reason that is not used";
}

/* Why a call was refused, as include/ujamniq.h says it. */
static const char *refusal_name(uint32_t number)
{
    static const char *const names[] = {
        "done",
        "an address, SAP, level or table out of range",
        "no record matches",
        "not in this phase",
        "no room for a telegram",
        "a value that is not allowed",
        "a length that no telegram has",
        "time goes backwards",
        "the record is finally closed",
    };

    return number < sizeof names / sizeof *names ? names[number] : "unknown";
}

/* Why a connection was closed, in plain words. Where we close we write a disconnect; where we write none, the partner's has closed. */
static const char *why_closed(uj_outcome o)
{
    if (o.answer.telegram == UJ_TELEGRAM_NONE)
        return "the partner's disconnect says so";
    switch (o.happened.reason) {
    case UJ_REASON_VERSION:
        return "the confirm has another version than 3.0";
    case UJ_REASON_SET_UP:
        return "no confirm came within 5000 ms";
    case UJ_REASON_AUTHENTICATION:
        return "the authentication is wrong or late";
    case UJ_REASON_EXISTING:
        return "the telegram is not for this phase";
    case UJ_REASON_IDLE:
        return "the partner is silent for longer than it declared";
    case UJ_REASON_INCORRECT_1ST:
        return "the telegram fails the check";
    case UJ_REASON_INCORRECT_2ND:
        return "the firmware has counted two incorrect telegrams within the period";
    default:
        /* 00h, 1Fh and 20h..40h: the link itself gives none of them. */
        return "the application wants it";
    }
}

static void trace_closed(const char *partner, uj_outcome o)
{
    printf("closes the connection with %s%s: %s (%02Xh, %s)", partner, o.happened.last ? " finally" : "", why_closed(o), (unsigned)o.happened.reason,
           reason_name(o.happened.reason));
    if (o.answer.telegram != UJ_TELEGRAM_NONE)
        printf("; the disconnect goes out");
}

/* The responder opens as it acknowledges, the opener when it takes the acknowledgement. Each has got its own random number back, plus 1 at level 4 and
 * plus 2 at level 2 (5.1.4). */
static void trace_opened(const char *partner, uj_outcome o, uint32_t level)
{
    const int responder = o.answer.telegram == UJ_TELEGRAM_ACKNOWLEDGEMENT;

    printf("takes the %s: it passes the check and returns our random number plus %d; %sthe connection with %s is open",
           responder ? "authentication" : "acknowledgement", level == 4 ? 1 : 2, responder ? "the acknowledgement goes out, and " : "", partner);
}

/* No event: the set-up goes on with the next telegram; else idle was taken, or the telegram dropped. */
static void trace_nothing(const char *partner, uj_outcome o, uint32_t phase)
{
    if (o.answer.telegram == UJ_TELEGRAM_CONFIRM)
        printf("takes the request: it passes the check and has version 3.0; the confirm goes out, the authentication is awaited");
    else if (o.answer.telegram == UJ_TELEGRAM_AUTHENTICATION)
        printf("takes the confirm: it passes the check and has version 3.0; the authentication goes out, the acknowledgement is awaited");
    else if (phase == UJ_OPEN)
        printf("takes the idle telegram: it passes the check; the watch on %s begins anew", partner);
    else if (phase == UJ_CLOSED)
        printf("drops it: the connection with %s is closed, and only a good request is taken", partner);
    else
        printf("drops it: a confirm of %s is awaited", partner);
}

static void trace_event(const char *partner, uj_outcome o, uj_record record)
{
    switch (o.happened.event) {
    case UJ_EVENT_OPENED:
        trace_opened(partner, o, record.level);
        break;
    case UJ_EVENT_DATA:
        printf("takes the data: they pass the check; %u bytes of %s are handed up under %02Xh", (unsigned)o.happened.count, partner,
               (unsigned)o.happened.command);
        break;
    case UJ_EVENT_CLOSED:
        trace_closed(partner, o);
        break;
    default:
        trace_nothing(partner, o, record.phase);
    }
    printf("\n");
}

void trace_outcome(uint64_t time, const char *name, const char *partner, const char *call, uj_outcome o, uj_record record)
{
    const int received = strcmp(call, "received") == 0;

    if (o.answer.number == UJ_DONE && !received && o.happened.event == UJ_EVENT_NOTHING)
        return;
    printf("%6llu      %s ", (unsigned long long)time, name);
    if (o.answer.number == UJ_DONE)
        trace_event(partner, o, record);
    else if (received)
        printf("refuses it, answer %u: %s\n", (unsigned)o.answer.number, refusal_name(o.answer.number));
    else
        printf("tries \"%s\" and is refused, answer %u: %s\n", call, (unsigned)o.answer.number, refusal_name(o.answer.number));
}

void trace_data(const uint8_t *net, size_t count)
{
    printf("%14s\"%.*s\"\n", "", (int)count, (const char *)net);
}
