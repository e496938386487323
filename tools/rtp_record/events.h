/* The telephone events of a stream (RFC 4733), as a list. */
#ifndef RTP_RECORD_EVENTS_H
#define RTP_RECORD_EVENTS_H

#include <stdbool.h>
#include <stddef.h>
#include <stdint.h>

typedef struct events events;

/* Creates the list of events of a payload type. `rate` is the clock rate of their durations. NULL: out of memory. */
events *events_new(uint8_t payload_type, uint32_t rate);

/* Adds the reports of an RTP packet. Packets of other payload types and invalid reports are skipped. Reports of one event have
 * the same timestamp; the event's duration is the longest one. */
void events_datagram(events *it, uint64_t now, const uint8_t *datagram, size_t size);

/* How many events there are. */
size_t events_count(const events *it);

/* Writes the events as JSON. Each has its number, its name on a keypad, its start in seconds after the first packet, its duration in
 * seconds, its volume in dBm0, and whether a report marked its end. false: the file cannot be written; a message was printed. */
bool events_write(const events *it, const char *path);

void events_free(events *it);

#endif
