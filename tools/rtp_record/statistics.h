/* Statistics from the headers of a stream: lost, late and duplicate packets, and the jitter. */
#ifndef RTP_RECORD_STATISTICS_H
#define RTP_RECORD_STATISTICS_H

#include <codec_payload.h>
#include <stdbool.h>
#include <stdint.h>

enum { STATISTICS_WINDOW = 1024 /* numbers that are remembered, behind the greatest */ };

/* Begin with {0}. */
typedef struct {
    bool begun;
    uint64_t greatest;      /* of the numbers, without wrapping, from 65536 on */
    uint64_t base;          /* the least of them */
    uint64_t came;          /* numbers since then, each once */
    uint64_t came_before;   /* the same of the time before the latest restart */
    uint64_t wanted_before; /* numbers that were sent until then */
    uint16_t suspect;       /* the number after that of a suspect packet, which is outside the windows */
    bool has_suspect;
    bool has_transit;
    double transit; /* the latest packet's time of arrival less its timestamp, in ticks of the RTP clock */
    uint64_t seen[STATISTICS_WINDOW / 64]; /* a bit for each number, by its place modulo the window */
    uint64_t duplicates;
    uint64_t reordered; /* came behind one with a greater number */
    uint64_t late;      /* so far behind that no jitter buffer waits for it: by more than 64 */
    uint64_t restarts;
    double jitter; /* in ticks of the RTP clock (RFC 3550, section 6.4.1) */
} statistics;

/* Adds the header of a packet that arrived at `time`, in nanoseconds. `rate` is the rate of its RTP clock. A number outside the
 * windows begins a restart once the next number follows it (RFC 3550, appendix A.1). */
void statistics_packet(statistics *it, uint64_t time, uint32_t rate, const cpay_rtp_info *packet);

/* How many numbers did not come between the least and the greatest, over all restarts. */
uint64_t statistics_lost(const statistics *it);

#endif
