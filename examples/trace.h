/* The trace: one line for a telegram, and lines below it for what the receiver did and why, read off its outcome. */
#ifndef TRACE_H
#define TRACE_H

#include "node.h"

/* What stands in the columns of a telegram's line. */
void trace_columns(void);

void trace_heading(const char *text);

/* A telegram on the bus, from one name to another. The number is the whole sequence number, of which the telegram itself holds the lowest byte. */
void trace_telegram(uint64_t time, const char *from, const char *to, route r, uint32_t number, const uint8_t *telegram, size_t length);

/* What the cable did to it: byte `at`, counted from 1, arrives as another. */
void trace_damage(uint64_t time, size_t at, unsigned was, unsigned is);

/* What came of a call, by the node of that name. A call of the node's own that does nothing but send is told by the telegram alone. The record is the
 * one after the call; zeros where there is none. */
void trace_outcome(uint64_t time, const char *name, const char *partner, const char *call, uj_outcome o, uj_record record);

/* The net data handed up. */
void trace_data(const uint8_t *net, size_t count);

#endif
