/* The UDP port of all peers: many datagrams a call, in and out. On the way SRTP is lost, delayed and reordered as asked, so that
 * a person sees what the library does about it. */
#include "server.h"

#include <arpa/inet.h>
#include <errno.h>
#include <netinet/udp.h>
#include <stdlib.h>
#include <string.h>
#include <sys/param.h>
#include <sys/queue.h>
#include <sys/socket.h>

enum {
    BATCH = 64,          /* datagrams a call of the system */
    ROUNDS = 16,         /* such calls, then others are served */
    MOST_DELAYED = 8192, /* datagrams; more are lost */
    MOST_CUT = 60000,    /* bytes that are cut into datagrams */
    OVERTAKEN = 30       /* ms that a datagram is behind its place */
};

typedef struct delayed {
    STAILQ_ENTRY(delayed) link;
    uint64_t due;
    struct sockaddr_in at;
    bool out;
    size_t size;
    uint8_t bytes[];
} delayed;

int network_port = -1;
uint64_t network_dropped;

/* The datagrams that wait to be sent. */
static uint8_t out_bytes[BATCH][MOST_DATAGRAM + SRTP_ROOM];
static struct iovec out_parts[BATCH];
static struct sockaddr_in out_to[BATCH];
static unsigned out_len;
static bool cuts = true; /* the system cuts datagrams of one size out of a large one (UDP_SEGMENT) */

/* What says how large they are. */
typedef union {
    struct cmsghdr head;
    uint8_t bytes[CMSG_SPACE(sizeof(uint16_t))];
} segment_size;

/* Two queues of what is delayed: datagrams in their places, and those that others overtake. */
static STAILQ_HEAD(, delayed) queues[2] = {STAILQ_HEAD_INITIALIZER(queues[0]), STAILQ_HEAD_INITIALIZER(queues[1])};
static size_t delayed_len;

void network_start(void) {
    struct sockaddr_in at = {.sin_family = AF_INET, .sin_port = htons(the.udp), .sin_addr.s_addr = htonl(INADDR_ANY)};
    int room = 4 << 20;
    network_port = socket(AF_INET, SOCK_DGRAM | SOCK_CLOEXEC, 0);
    if (network_port < 0 || bind(network_port, (struct sockaddr *)&at, sizeof at))
        give_up("the UDP port (--udp)", strerror(errno));
    setsockopt(network_port, SOL_SOCKET, SO_RCVBUF, &room, sizeof room);
    setsockopt(network_port, SOL_SOCKET, SO_SNDBUF, &room, sizeof room);
}

uint8_t *network_room(void) {
    if (out_len == BATCH) network_flush();
    return out_bytes[out_len];
}

void network_send(const struct sockaddr_in *to, size_t size) {
    out_to[out_len] = *to;
    out_parts[out_len] = (struct iovec){out_bytes[out_len], size};
    out_len++;
}

/* How many datagrams from this place on the system cuts out of one: to one address, all of one size, and the last at most of it.
 */
static unsigned segments_at(unsigned at) {
    size_t size = out_parts[at].iov_len, all = size;
    unsigned count = 1;
    if (!cuts) return 1;
    for (; at + count < out_len; count++) {
        const struct sockaddr_in *next = &out_to[at + count];
        size_t more = out_parts[at + count].iov_len;
        bool fits = more <= size && out_parts[at + count - 1].iov_len == size && all + more <= MOST_CUT;
        if (!fits || next->sin_port != out_to[at].sin_port || next->sin_addr.s_addr != out_to[at].sin_addr.s_addr) break;
        all += more;
    }
    return count;
}

static struct mmsghdr head_at(unsigned at, unsigned count, segment_size *room) {
    struct mmsghdr head = {.msg_hdr = {&out_to[at], sizeof out_to[at], &out_parts[at], count, NULL, 0, 0}};
    if (count == 1) return head;
    *room = (segment_size){.head = {.cmsg_len = CMSG_LEN(sizeof(uint16_t)), .cmsg_level = SOL_UDP, .cmsg_type = UDP_SEGMENT}};
    *(uint16_t *)CMSG_DATA(&room->head) = (uint16_t)out_parts[at].iov_len;
    head.msg_hdr.msg_control = room->bytes;
    head.msg_hdr.msg_controllen = sizeof room->bytes;
    return head;
}

void network_flush(void) {
    static struct mmsghdr heads[BATCH];
    static segment_size rooms[BATCH];
    for (unsigned done = 0; done < out_len;) {
        unsigned count = 0, firsts[BATCH + 1];
        for (unsigned at = done; at < out_len; count++) {
            unsigned segments = segments_at(at);
            heads[count] = head_at(at, segments, &rooms[count]);
            firsts[count] = at;
            at += segments;
        }
        firsts[count] = out_len;
        int sent = sendmmsg(network_port, heads, count, MSG_DONTWAIT);
        bool refused = sent < 0 && heads[0].msg_hdr.msg_iovlen > 1 && (errno == EIO || errno == EINVAL || errno == EOPNOTSUPP);
        if (refused) cuts = false;               /* each datagram alone from now on */
        else done = firsts[sent > 0 ? sent : 1]; /* what the system refuses is lost */
    }
    out_len = 0;
}

void network_receive(void (*take)(const struct sockaddr_in *from, uint8_t *bytes, size_t size)) {
    static uint8_t bytes[BATCH][2048];
    static struct iovec parts[BATCH];
    static struct sockaddr_in from[BATCH];
    static struct mmsghdr heads[BATCH];
    for (int round = 0, count = BATCH; round < ROUNDS && count == BATCH; round++) {
        for (int i = 0; i < BATCH; i++) {
            parts[i] = (struct iovec){bytes[i], sizeof bytes[i]};
            heads[i] = (struct mmsghdr){.msg_hdr = {&from[i], sizeof from[i], &parts[i], 1, NULL, 0, 0}};
        }
        count = recvmmsg(network_port, heads, BATCH, MSG_DONTWAIT, NULL);
        for (int i = 0; i < count; i++) take(&from[i], bytes[i], heads[i].msg_len);
    }
}

/* ---- a worse network ---- */

bool happens(double percent) { return percent > 0 && drand48() * 100 < percent; }

bool network_passes(bool out, const struct sockaddr_in *at, const uint8_t *bytes, size_t size) {
    bool lost = happens(the.network.loss), overtaken = happens(the.network.reorder);
    unsigned delay = the.network.delay + (overtaken ? OVERTAKEN : 0);
    network_dropped += lost;
    if (lost || delay == 0) return !lost;
    delayed *it = delayed_len < MOST_DELAYED ? malloc(sizeof *it + size) : NULL;
    if (!it) return false;
    *it = (delayed){.due = now_ms() + delay, .at = *at, .out = out, .size = size};
    memcpy(it->bytes, bytes, size);
    STAILQ_INSERT_TAIL(&queues[overtaken], it, link);
    delayed_len++;
    return false;
}

void network_deliver(uint64_t now) {
    for (int i = 0; i < 2; i++) {
        for (delayed *it; (it = STAILQ_FIRST(&queues[i])) && it->due <= now; free(it)) {
            STAILQ_REMOVE_HEAD(&queues[i], link);
            delayed_len--;
            if (!it->out) {
                take_media(&it->at, it->bytes, it->size);
                continue;
            }
            memcpy(network_room(), it->bytes, it->size);
            network_send(&it->at, it->size);
        }
    }
}

uint64_t network_deadline(void) {
    uint64_t first = UINT64_MAX;
    for (int i = 0; i < 2; i++)
        if (!STAILQ_EMPTY(&queues[i])) first = MIN(first, STAILQ_FIRST(&queues[i])->due);
    return first;
}
