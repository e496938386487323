/* Packets of a capture or of an interface, by libpcap. */
#ifndef RTP_RECORD_CAPTURE_H
#define RTP_RECORD_CAPTURE_H

#include <stddef.h>
#include <stdint.h>

typedef struct {
    uint64_t time; /* in nanoseconds since 1970 */
    const uint8_t *bytes;
    size_t captured; /* how many of them are there */
    size_t length;   /* how many there were */
} capture_packet;

typedef struct capture capture;

/* A file of pcap or pcapng, or `-` for the standard input; of an interface where `live`. Packets pass a filter of libpcap's language,
 * if there is one. NULL: what failed is said. */
capture *capture_open(const char *name, int live, const char *filter);

/* Its link type, a DLT_* of libpcap. */
int capture_link(const capture *it);

/* The next packet, which stands until the call after: 1; 0 at the end, or once capture_stop was called; -1 where the capture goes on as
 * none, which is said. */
int capture_next(capture *it, capture_packet *packet);

/* How many bytes of packets were read so far, and how many the file has, or 0. */
uint64_t capture_position(const capture *it);
uint64_t capture_size(const capture *it);

/* Ends the reading; for signal handlers. And whether that was called. */
void capture_stop(void);
int capture_stopped(void);

void capture_close(capture *it);

#endif
