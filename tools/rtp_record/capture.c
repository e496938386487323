#include "capture.h"

#include "message.h"

#include <errno.h>
#include <pcap/pcap.h>
#include <signal.h>
#include <stdio.h>
#include <stdlib.h>
#include <string.h>
#include <sys/stat.h>

enum {
    SNAPSHOT = 262144,
    TIMEOUT = 100, /* milliseconds */
    AT_ONCE = 1 << 17, /* bytes that are read of a file at a time */
};

struct capture {
    pcap_t *pcap;
    char *name;
    uint64_t read;
    uint64_t size;
    int live;
};

static volatile sig_atomic_t stopped;
static pcap_t *volatile running; /* the capture that is open */

/* On a silent interface libpcap waits until this call stops it. A signal handler may call pcap_breakloop. */
void capture_stop(void) {
    stopped = 1;
    if (running) pcap_breakloop(running);
}

int capture_stopped(void) { return stopped; }

static int set_filter(capture *it, const char *filter) {
    struct bpf_program program;
    if (!filter) return 1;
    if (pcap_compile(it->pcap, &program, filter, 1, PCAP_NETMASK_UNKNOWN) != 0) {
        complain("filter: %s", pcap_geterr(it->pcap));
        return 0;
    }
    int set = pcap_setfilter(it->pcap, &program);
    pcap_freecode(&program);
    if (set != 0) complain("filter: %s", pcap_geterr(it->pcap));
    return set == 0;
}

static pcap_t *open_live(const char *name, char *error) {
    pcap_t *pcap = pcap_create(name, error);
    if (!pcap) return NULL;
    pcap_set_snaplen(pcap, SNAPSHOT);
    pcap_set_timeout(pcap, TIMEOUT);
    pcap_set_buffer_size(pcap, 16 << 20);
    pcap_set_tstamp_precision(pcap, PCAP_TSTAMP_PRECISION_NANO);
    int status = pcap_activate(pcap);
    if (status >= 0) return pcap;
    const char *said = pcap_geterr(pcap);
    strncpy(error, *said ? said : pcap_statustostr(status), PCAP_ERRBUF_SIZE - 1);
    pcap_close(pcap);
    return NULL;
}

/* A file is opened here and not by libpcap, which would read it in pieces of 4 KiB. One is open at a time. */
static pcap_t *open_file(const char *name, char *error) {
    static char buffer[AT_ONCE]; /* with NULL glibc would ignore the size */
    int is_input = strcmp(name, "-") == 0;
    FILE *file = is_input ? stdin : fopen(name, "rb");
    if (!file) {
        snprintf(error, PCAP_ERRBUF_SIZE, "%s", strerror(errno));
        return NULL;
    }
    setvbuf(file, buffer, _IOFBF, sizeof buffer);
    pcap_t *pcap = pcap_fopen_offline_with_tstamp_precision(file, PCAP_TSTAMP_PRECISION_NANO, error);
    if (!pcap && !is_input) fclose(file);
    return pcap;
}

capture *capture_open(const char *name, int live, const char *filter) {
    char error[PCAP_ERRBUF_SIZE] = "";
    struct stat about;
    capture *it = calloc(1, sizeof *it);
    if (it) it->name = strdup(name);
    if (!it || !it->name) {
        complain("%s: out of memory", name);
        capture_close(it);
        return NULL;
    }
    it->live = live;
    it->pcap = live ? open_live(name, error) : open_file(name, error);
    if (!it->pcap) complain("%s: %s", name, error);
    if (!it->pcap || !set_filter(it, filter)) {
        capture_close(it);
        return NULL;
    }
    running = it->pcap;
    if (!live && stat(name, &about) == 0 && S_ISREG(about.st_mode)) it->size = (uint64_t)about.st_size;
    return it;
}

int capture_link(const capture *it) { return pcap_datalink(it->pcap); }

int capture_next(capture *it, capture_packet *packet) {
    struct pcap_pkthdr *header = NULL;
    const u_char *bytes = NULL;
    int status = 0;
    while (!stopped && (status = pcap_next_ex(it->pcap, &header, &bytes)) == 0) {}
    if (stopped || status == PCAP_ERROR_BREAK) return 0;
    if (status != 1) {
        complain("%s: %s", it->name, pcap_geterr(it->pcap));
        return -1;
    }
    uint64_t fraction = (uint64_t)header->ts.tv_usec;
    if (pcap_get_tstamp_precision(it->pcap) == PCAP_TSTAMP_PRECISION_MICRO) fraction *= 1000;
    packet->time = (uint64_t)header->ts.tv_sec * 1000000000u + fraction;
    packet->bytes = bytes;
    packet->captured = header->caplen;
    packet->length = header->len;
    it->read += 16 + header->caplen;
    return 1;
}

uint64_t capture_position(const capture *it) { return it->read; }

uint64_t capture_size(const capture *it) { return it->size; }

void capture_close(capture *it) {
    if (!it) return;
    running = NULL;
    if (it->pcap) pcap_close(it->pcap);
    free(it->name);
    free(it);
}
