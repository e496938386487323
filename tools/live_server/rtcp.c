/* RTCP of viewers: what they report, and the reports that they get. */
#include "server.h"

#include <string.h>

enum { REPORT = 28, NAME = 268 }; /* bytes of a sender report without blocks, and the most of a name */

/* The last block about a stream in a compound packet. */
bool rtcp_read_block(const uint8_t *bytes, size_t size, uint32_t ssrc, report_block *block) {
    bool found = false;
    cpay_rtcp_report_info report = {0};
    cpay_report_block_info it = {0};
    for (size_t index = 0; cpay_read_report(bytes, size, false, index, &report) == CPAY_OK; index++) {
        for (size_t place = 0; place < report.blocks; place++) {
            if (cpay_read_report_block(bytes, size, false, index, place, &it) || it.ssrc != ssrc) continue;
            int32_t lost = (int32_t)it.cumulative_lost;
            *block = (report_block){lost >= 1 << 23 ? lost - (1 << 24) : lost, it.last_sender_report, it.delay_since_sender_report};
            found = true;
        }
    }
    return found;
}

/* A sender report, and a name of at most 255 bytes (RFC 3550, sections 6.4.1 and 6.5). Returns their size, at most 296 bytes, or 0 out
 * of memory. */
size_t rtcp_write_report(uint8_t *to, uint64_t ntp_time, const cpay_sender_report_info *report, const char *name) {
    size_t first = 0, second = 0;
    if (cpay_write_sender_report(ntp_time, report, NULL, 0, to, REPORT, &first)) return 0;
    if (cpay_write_cname(report->ssrc, (const uint8_t *)name, strnlen(name, 255), to + first, NAME, &second)) return 0;
    return first + second;
}
