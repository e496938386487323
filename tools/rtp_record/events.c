#include "events.h"

#include "message.h"

#include <codec_payload.h>
#include <errno.h>
#include <stdio.h>
#include <stdlib.h>
#include <string.h>

enum { MOST = 100000 }; /* events that are kept; an hour of keys pressed at 20 a second has fewer */

typedef struct {
    uint32_t timestamp;
    uint64_t began; /* in nanoseconds of the capture's clock */
    cpay_tele_event report;
} event;

struct events {
    uint8_t payload_type;
    uint32_t rate;
    uint64_t first; /* when the first packet came */
    bool any;
    event *list;
    size_t count, room;
};

events *events_new(uint8_t payload_type, uint32_t rate) {
    events *it = calloc(1, sizeof *it);
    if (!it) return NULL;
    it->payload_type = payload_type;
    it->rate = rate;
    return it;
}

/* Returns the event with this timestamp; adds it if none of the latest events has it. */
static event *event_at(events *it, uint32_t timestamp, uint64_t now) {
    for (size_t i = it->count; i > 0 && i + 16 > it->count; i--)
        if (it->list[i - 1].timestamp == timestamp) return &it->list[i - 1];
    if (it->count == it->room) {
        size_t room = it->room ? 2 * it->room : 16;
        event *grown = room <= MOST ? realloc(it->list, room * sizeof *grown) : NULL;
        if (!grown) return NULL;
        it->list = grown;
        it->room = room;
    }
    it->list[it->count] = (event){.timestamp = timestamp, .began = now};
    return &it->list[it->count++];
}

void events_datagram(events *it, uint64_t now, const uint8_t *datagram, size_t size) {
    cpay_rtp_info packet = {0};
    cpay_tele_event report = {0};
    if (!it->any) it->first = now;
    it->any = true;
    if (cpay_rtp_read(datagram, size, &packet) || packet.payload_type != it->payload_type) return;
    if (cpay_tele_read(datagram + packet.payload_at, packet.payload_len, it->rate, 0, &report)) return;
    event *to = event_at(it, packet.timestamp, now);
    if (!to) return;
    report.end = report.end || to->report.end;
    if (report.duration < to->report.duration) report.duration = to->report.duration;
    to->report = report;
}

size_t events_count(const events *it) { return it->count; }

/* What a key is called: RFC 4733, section 3.2. */
static const char *name_of(uint8_t number) {
    static const char *const names[] = {"0", "1", "2", "3", "4", "5", "6", "7", "8", "9", "*", "#", "A", "B", "C", "D", "flash"};
    return number < sizeof names / sizeof *names ? names[number] : "";
}

bool events_write(const events *it, const char *path) {
    FILE *file = fopen(path, "w");
    if (!file) {
        complain("%s: %s", path, strerror(errno));
        return false;
    }
    fputs("[", file);
    for (size_t i = 0; i < it->count; i++) {
        const event *one = &it->list[i];
        fprintf(file, "%s\n  {\"event\": %u, \"name\": \"%s\", \"time\": %.3f, \"duration\": %.3f, \"volume\": -%u, \"ended\": %s}",
                i ? "," : "", one->report.event, name_of(one->report.event), (double)(one->began - it->first) / 1e9,
                (double)one->report.duration / 1e9, one->report.volume, one->report.end ? "true" : "false");
    }
    fputs("\n]\n", file);
    bool whole = !ferror(file);
    if (fclose(file) != 0) whole = false;
    if (!whole) complain("%s: cannot be written", path);
    return whole;
}

void events_free(events *it) {
    if (it) free(it->list);
    free(it);
}
