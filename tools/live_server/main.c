/* Options, and the loop: one thread waits for the UDP port and for HTTP. */
#include "server.h"

#include <argp.h>
#include <arpa/inet.h>
#include <errno.h>
#include <ifaddrs.h>
#include <limits.h>
#include <net/if.h>
#include <poll.h>
#include <signal.h>
#include <stdlib.h>
#include <string.h>
#include <sys/param.h>
#include <sys/stat.h>
#include <time.h>
#include <unistd.h>

enum {
    TICK = 50,   /* ms between two looks at all peers */
    TOGETHER = 2 /* ms: what is due for viewers within them leaves at once */
};

options the = {
    .address = "127.0.0.1", .folder = "recordings", .http = 8080, .udp = 8081, .peers = 1024, .bitrate = 2500000};
static volatile sig_atomic_t ended;

static const struct argp_option names[] = {
    {"address", 'a', "A", 0, "address of the page (127.0.0.1)", 0},
    {"http", 'h', "N", 0, "port of the page (8080)", 0},
    {"udp", 'u', "N", 0, "port of the media (8081)", 0},
    {"candidate", 'c', "A", 0, "address under which browsers reach the UDP port; up to 4 (those of the interfaces)", 0},
    {"peers", 'n', "N", 0, "at most N browsers at once (1024)", 0},
    {"folder", 'f', "F", 0, "folder of the recordings (recordings)", 0},
    {"page", 'p', "F", 0, "file of the page (page.html here, or beside the program)", 0},
    {"token", 't', "WORD", 0, "who publishes, watches or changes something must know this word", 0},
    {"feedback", 'k', "KIND", 0, "transport: feedback about each packet (default); remb: a rate that the server estimates; none", 0},
    {"bitrate", 'b', "N", 0, "the most that remb offers, in kbit/s (2500)", 0},
    {"loss", 'l', "P", 0, "loses P percent of the media, each way", 0},
    {"reorder", 'r', "P", 0, "lets other packets overtake P percent of it", 0},
    {"delay", 'd', "N", 0, "delays it by N ms", 0},
    {"damage", 'x', "P", 0, "for tests: changes a byte of P percent of the packets after they were authenticated", 0},
    {0}};

uint64_t now_us(void) {
    struct timespec time;
    clock_gettime(CLOCK_MONOTONIC, &time);
    return (uint64_t)time.tv_sec * 1000000 + (uint64_t)time.tv_nsec / 1000;
}

uint64_t now_ms(void) { return now_us() / 1000; }

void give_up(const char *what, const char *why) {
    fprintf(stderr, "live_server: %s: %s\n", what, why);
    exit(EXIT_FAILURE);
}

/* The number in an option, from 0 to `most`. */
static double number_of(const char *value, double most) {
    char *end;
    double number = strtod(value, &end);
    if (end == value || *end || !(number >= 0 && number <= most)) give_up(value, "not a number, or out of range");
    return number;
}

/* How the sender of video learns what the network carries. */
static void choose_feedback(const char *name) {
    the.transport = !strcmp(name, "transport");
    the.remb = !strcmp(name, "remb");
    if (!the.transport && !the.remb && strcmp(name, "none")) give_up(name, "not a feedback: transport, remb or none");
}

static void add_candidate(const char *address) {
    struct in_addr any;
    if (inet_pton(AF_INET, address, &any) != 1) give_up(address, "not an address of IPv4");
    if (the.candidates_len < MOST_ADDRESSES) the.candidates[the.candidates_len++] = address;
}

static error_t read_option(int option, char *value, struct argp_state *state) {
    (void)state;
    switch (option) {
    case 'a': the.address = value; break;
    case 'h': the.http = (uint16_t)number_of(value, 65535); break;
    case 'u': the.udp = (uint16_t)number_of(value, 65535); break;
    case 'c': add_candidate(value); break;
    case 'n': the.peers = (unsigned)number_of(value, MOST_PEERS); break;
    case 'f': the.folder = value; break;
    case 'p': the.page = value; break;
    case 't': the.token = value; break;
    case 'k': choose_feedback(value); break;
    case 'b': the.bitrate = (uint32_t)(1000 * number_of(value, 1e6)); break;
    case 'l': the.network.loss = number_of(value, 100); break;
    case 'r': the.network.reorder = number_of(value, 100); break;
    case 'd': the.network.delay = (unsigned)number_of(value, 1000); break;
    case 'x': the.damage = number_of(value, 100); break;
    default: return ARGP_ERR_UNKNOWN;
    }
    return 0;
}

/* Without --candidate browsers get the addresses of the interfaces: Firefox pairs nothing with 127.0.0.1. */
static void find_candidates(void) {
    struct ifaddrs *all = NULL;
    if (the.candidates_len > 0 || getifaddrs(&all)) return;
    for (struct ifaddrs *it = all; it && the.candidates_len < MOST_ADDRESSES; it = it->ifa_next) {
        if (!it->ifa_addr || it->ifa_addr->sa_family != AF_INET || !(it->ifa_flags & IFF_UP)) continue;
        add_candidate(strdup(inet_ntoa(((const struct sockaddr_in *)it->ifa_addr)->sin_addr)));
    }
    freeifaddrs(all);
}

/* SRTP and SRTCP: first decrypted and authenticated, so that no stranger reaches a session of the library. */
void take_media(const struct sockaddr_in *from, uint8_t *bytes, size_t size) {
    peer *it = peer_at(from);
    bool rtcp = cpay_is_rtcp(bytes, size);
    int length = (int)size;
    if (!it || !it->secure || it->ended || (rtcp ? srtp_unprotect_rtcp : srtp_unprotect)(it->in, bytes, &length)) return;
    it->heard = now_ms();
    if (length > 0 && happens(the.damage)) bytes[(int)(drand48() * length)] ^= (uint8_t)lrand48();
    if (it->publisher) publisher_take(it, bytes, (size_t)length);
    else if (rtcp) viewer_take(it, bytes, (size_t)length);
}

/* RFC 7983, section 7: the first byte says what a datagram is. */
static void take(const struct sockaddr_in *from, uint8_t *bytes, size_t size) {
    if (size == 0 || ice_take(from, bytes, size)) return;
    peer *it = peer_at(from);
    if (!it) return;
    if (bytes[0] >= 20 && bytes[0] < 64) dtls_take(peer_handshaking_at(from), from, bytes, size);
    else if (bytes[0] >= 128 && bytes[0] < 192 && network_passes(false, from, bytes, size)) take_media(from, bytes, size);
}

/* The page: the one of --page, page.html here, or the one beside the program. */
static void find_page(void) {
    static char beside[PATH_MAX];
    if (!the.page && !access("page.html", R_OK)) the.page = "page.html";
    ssize_t size = the.page ? -1 : readlink("/proc/self/exe", beside, sizeof beside - sizeof "page.html");
    char *name = size > 0 ? memrchr(beside, '/', (size_t)size) : NULL;
    if (name) {
        strcpy(name + 1, "page.html");
        the.page = beside;
    }
    if (!the.page || access(the.page, R_OK)) give_up(the.page ? the.page : "page.html", "cannot be read; --page names the file");
}

static void on_signal(int number) { ended = number; }

static void start(void) {
    signal(SIGINT, on_signal);
    signal(SIGTERM, on_signal);
    signal(SIGPIPE, SIG_IGN);
    signal(SIGXFSZ, SIG_IGN); /* a recording that becomes too large for the system is a fault of that recording alone */
    if (mkdir(the.folder, 0777) && errno != EEXIST) give_up(the.folder, strerror(errno));
    if (access(the.folder, W_OK | X_OK)) give_up(the.folder, strerror(errno));
    find_page();
    find_candidates();
    if (the.candidates_len == 0) add_candidate(the.address);
    peers_start();
    dtls_start();
    network_start();
}

/* How long nothing is due. */
static struct timespec wait_until(uint64_t tick) {
    uint64_t now = now_us(), http = http_deadline(now / 1000), until = MIN(tick, MIN(http, network_deadline()));
    EACH_PEER (it)
        if (it->publisher) until = MIN(until, publisher_deadline(it));
    until = until < UINT64_MAX / 1000 ? until * 1000 : UINT64_MAX;
    uint64_t viewers = UINT64_MAX;
    EACH_PEER (it)
        if (it->viewer && it->secure && !it->ended) viewers = MIN(viewers, path_deadline(it));
    if (viewers > now && viewers < UINT64_MAX) viewers = (viewers / (TOGETHER * 1000) + 1) * TOGETHER * 1000;
    until = MIN(until, viewers);
    uint64_t wait = until > now ? until - now : 0;
    return (struct timespec){(time_t)(wait / 1000000), (long)(wait % 1000000) * 1000};
}

/* What leaves for viewers now, and which layers they get. */
static void serve_viewers(void) {
    uint64_t now = now_us();
    peer *from = NULL;
    EACH_PEER (it) {
        if (!it->viewer || !it->secure || it->ended || path_deadline(it) > now) continue;
        if (!from || strcmp(from->name, it->name)) from = peer_publisher(it->name);
        path_serve(it, from, now);
    }
}

int main(int argc, char **argv) {
    const struct argp parser = {
        .options = names, .parser = read_option, .doc = "Publish from a browser, watch in others, record."};
    uint64_t tick = 0;
    choose_feedback("transport");
    argp_parse(&parser, argc, argv, 0, NULL, NULL);
    start();
    struct pollfd ports[] = {{network_port, POLLIN, 0}, {http_start(), POLLIN, 0}};
    printf("http://%s:%u\n", the.address, the.http);
    fflush(stdout);
    while (!ended) {
        struct timespec wait = wait_until(tick);
        if (ppoll(ports, 2, &wait, NULL) > 0 && ports[0].revents) network_receive(take);
        network_deliver(now_ms());
        http_run();
        EACH_PEER (it)
            if (it->publisher) publisher_poll(it); /* once for all datagrams: what one of them misses may be in the next one */
        if (now_ms() >= tick) {
            peers_tick(now_ms());
            tick = now_ms() + TICK;
        }
        serve_viewers();
        network_flush();
    }
    EACH_PEER (it) peer_free(it);
    http_stop();
    srtp_shutdown();
    return EXIT_SUCCESS;
}
