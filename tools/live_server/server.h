/* live_server: a browser publishes by WHIP (RFC 9725), others watch by WHEP, and each publisher is recorded. What all files
 * share. */
#ifndef LIVE_SERVER_H
#define LIVE_SERVER_H

#include <codec_payload.h>
#include <codec_payload_sdp.h>
#include <inttypes.h>
#include <netinet/in.h>
#include <openssl/ssl.h>
#include <srtp2/srtp.h>
#include <stdio.h>

/* Bounds. */
enum {
    MOST_PEERS = 65535,      /* that the option --peers may name */
    MOST_PUBLISHERS = 32,
    MOST_LAYERS = 3,         /* of simulcast */
    MOST_SPATIAL = 3,        /* spatial layers of a stream; higher ones count as the highest */
    MOST_TEMPORAL = 4,       /* temporal layers, in the same way */
    MOST_SIZES = 3,          /* of the picture of a publisher */
    MOST_ADDRESSES = 4,      /* of a peer, and of the server */
    MOST_DATAGRAM = 1500,    /* bytes of a datagram without SRTP */
    MOST_NAME = 32,          /* bytes of a name with the 0 at its end */
    SRTP_ROOM = 64,          /* bytes that SRTP may add */
    LONGEST_SILENCE = 15000, /* ms after which a peer that sends neither STUN nor SRTP is gone */
    LONGEST_QUIET = 4000,    /* ms after which the counts call it silent: Chromium sends STUN each 2.5 s */
    LONGEST_START = 20000    /* ms that a peer has for ICE and DTLS */
};

/* Kinds of media. A publisher has a track for audio, and one for each layer of its video. */
enum { AUDIO = 0, VIDEO = 1, KINDS = 2, TRACKS = VIDEO + MOST_LAYERS };

static inline int kind_of(int track) { return track == AUDIO ? AUDIO : VIDEO; }

/* What an offer and its answer agreed on for one kind of media. */
typedef struct {
    bool used;
    size_t line; /* the number of the `m=` line in the offer */
    cpay_codec codec;
    char name[CPAY_SDP_NAME]; /* of the codec, as the offer has it */
    uint8_t payload_type;
    uint8_t rtx_payload_type; /* of retransmissions (RFC 4588); 0: none */
    uint8_t red_payload_type; /* of RED (RFC 2198); 0: none */
} agreed;

typedef struct publisher publisher; /* receive.c */
typedef struct outgoing outgoing;   /* viewers.c */
typedef struct viewer_path viewer_path; /* path.c */
typedef struct protection protection;   /* protect.c */

/* A browser: a publisher or a viewer. */
typedef struct {
    bool used;
    uint64_t number;                          /* for people: it shows nothing that ends the session */
    char id[33];                              /* of its HTTP resource: a secret */
    char name[MOST_NAME];                     /* under which it publishes or watches */
    char ufrag[9], password[33];              /* of ICE, ours */
    char fingerprint[96];                     /* of its certificate, by its offer */
    struct sockaddr_in at;                    /* the address that ICE nominated last: datagrams go there */
    struct sockaddr_in known[MOST_ADDRESSES]; /* all addresses that ICE checked: media comes from any of them */
    unsigned known_len;
    bool secure;           /* DTLS has ended, and the keys of SRTP are there */
    bool ended;            /* it said goodbye */
    char why[96];          /* a sentence: why it ended, if it did not say goodbye */
    uint64_t began, heard; /* ms: when its offer came, and its latest STUN request or packet of SRTP */
    SSL *ssl;
    srtp_t in, out;
    protection *quick; /* of what leaves, in place of `out`; NULL: the profile is another one */
    agreed media[KINDS];
    char layers[MOST_LAYERS][MOST_NAME]; /* the RIDs of simulcast, in the order of the offer; 0 or 1: no simulcast */
    int layers_len;
    uint8_t transport_id; /* id of the header extension with the transport-wide number; 0: none */
    uint8_t send_time_id; /* of a publisher with REMB: that of abs-send-time; 0: none */
    publisher *publisher;         /* one of the two: a publisher, or the streams of a viewer by their kinds */
    outgoing *viewer;
    viewer_path *path;            /* of a viewer */
} peer;

/* How the network is made worse, each way. */
typedef struct {
    double loss;    /* percent of the SRTP datagrams */
    double reorder; /* percent of them that others overtake */
    unsigned delay; /* ms */
} impairment;

typedef struct {
    const char *address, *folder, *page, *token;
    const char *candidates[MOST_ADDRESSES]; /* addresses under which browsers reach the UDP port */
    int candidates_len;
    uint16_t http, udp;
    unsigned peers; /* the most at once */
    bool transport, remb; /* feedback about each packet, or a rate that is offered */
    uint32_t bitrate;     /* the most that REMB offers, in bits per second */
    impairment network;
    double damage; /* percent of the packets whose bytes are changed after SRTP, for tests */
} options;

extern options the;

/* main.c */
uint64_t now_ms(void);
uint64_t now_us(void);
void take_media(const struct sockaddr_in *from, uint8_t *bytes, size_t size); /* SRTP and SRTCP */
__attribute__((noreturn)) void give_up(const char *what, const char *why);

/* network.c: the UDP port */
void network_start(void);
extern int network_port;
extern uint64_t network_dropped;
bool happens(double percent); /* whether something happens that has this probability */
void network_receive(void (*take)(const struct sockaddr_in *from, uint8_t *bytes, size_t size));
bool network_passes(bool out, const struct sockaddr_in *at, const uint8_t *bytes, size_t size); /* false: it is lost, or waits */
uint8_t *network_room(void); /* where the next datagram is written: MOST_DATAGRAM + SRTP_ROOM bytes */
void network_send(const struct sockaddr_in *to, size_t size);
void network_deliver(uint64_t now); /* what was delayed */
uint64_t network_deadline(void);
void network_flush(void);

/* peers.c: the table of peers */
extern peer *peers, *peers_end; /* room for --peers of them; behind the end none is used */
#define EACH_PEER(it)                                                                                                            \
    for (peer *it = peers; it < peers_end; it++)                                                                                 \
        if (it->used)
void secret(void *bytes, size_t size); /* random bytes */
bool is_name(const char *text);
peer *peer_new(const char *name, bool publishes);
void peer_free(peer *it);
void peer_says(const peer *it, const char *what); /* a line of the log, with the time since its offer */
peer *peer_publisher(const char *name);           /* who publishes under the name */
peer *peer_session(const char *path);             /* whose id the path begins with */
bool peer_end(const char *id, char *to, size_t room); /* why a session ended; false: it lives, or is forgotten */
bool peer_is_silent(const peer *it);
void peers_start(void);
peer *peer_at(const struct sockaddr_in *from);
peer *peer_handshaking_at(const struct sockaddr_in *from); /* the one whose keys are not there yet, if there is one */
void peer_seen(peer *it, const struct sockaddr_in *at, bool nominated);
void peer_owns(peer *it, const struct sockaddr_in *at); /* all others that are known at the address are not there any more */
void peer_secured(peer *it);
void peers_tick(uint64_t now);

/* answer.c: returns the answer to an offer, or what is wrong with it, with its status of HTTP */
const char *answer(peer *it, const char *offer, bool publishes, unsigned *status);

/* ice.c */
bool ice_take(const struct sockaddr_in *from, const uint8_t *bytes, size_t size); /* false: it is not STUN */

/* dtls.c */
extern char dtls_fingerprint[96];
void dtls_start(void);
void dtls_take(peer *it, const struct sockaddr_in *from, const uint8_t *bytes, size_t size);
void dtls_tick(peer *it);
void dtls_end(peer *it);
void srtp_send(peer *to, uint8_t *bytes, size_t size, bool rtcp); /* `bytes` are those of network_room */

/* protect.c: SRTP of what leaves */
protection *protect_new(const uint8_t *key, const uint8_t *salt); /* NULL: out of memory */
bool protect_packet(protection *it, uint8_t *bytes, int *size);   /* behind the packet is room for the tag of 16 bytes */
void protect_free(protection *it);

/* rates.c: what a track sends */
typedef struct {
    int spatial, temporal;
} layer; /* of a stream */
typedef struct {
    uint64_t at;                                      /* ms: when the rates were measured */
    uint64_t counted[MOST_SPATIAL][MOST_TEMPORAL];    /* bytes since then */
    uint64_t rates[MOST_SPATIAL][MOST_TEMPORAL];      /* bits per second */
    uint64_t latest[MOST_SPATIAL][MOST_TEMPORAL];     /* of the latest interval alone */
    int highest;                                      /* the highest spatial layer of which a packet came */
    bool has_keyframe;                                /* one came */
    uint32_t time;                                    /* RTP time of the latest keyframe */
    uint64_t keyframe[MOST_SPATIAL];                  /* its bytes so far */
    uint64_t last_keyframe[MOST_SPATIAL];             /* those of the one before */
} rates;
void rates_count(rates *of, bool video, const cpay_rtp_info *info, layer at, bool begins_keyframe); /* counts a packet */
void rates_measure(rates *of, uint64_t now);
uint64_t rates_of(const rates *of, layer up_to); /* of the layers up to this one, in bits per second; 0: none comes now */
uint64_t rates_latest(const rates *of, layer up_to); /* the same of the latest interval alone */
uint64_t rates_keyframe(const rates *of, int spatial); /* bytes of a keyframe up to this spatial layer */

/* receive.c: publishers */
typedef struct {
    bool arrived; /* a packet came */
    uint32_t ssrc;
    cpay_history store;                                                           /* its latest packets, for all viewers */
} source;                                                                         /* the latest stream of a track */
const char *publisher_begin(peer *it, const cpay_sdp_media *media, size_t count); /* NULL, or what is wrong */
void publisher_take(peer *it, uint8_t *bytes, size_t size);
void publisher_poll(peer *it);
void publisher_tick(peer *it, uint64_t now);
uint64_t publisher_deadline(peer *it);
void publisher_wants_keyframe(peer *it, int track);
bool publisher_clock(peer *it, int track, cpay_sender_clock_info *clock);
source *publisher_source(peer *it, int track);
void publisher_count(peer *it, int track, const cpay_rtp_info *info, layer at, bool begins_keyframe);
const rates *publisher_rates(const peer *it, int track);
int publisher_sizes(const peer *it);
int publisher_size_track(const peer *it, int size);
const char *publisher_size_name(const peer *it, int size);
void publisher_stats(peer *it, FILE *to);
void publisher_free(peer *it);
int last_track(const peer *it); /* of video: the layer that is recorded, and that a viewer gets first */

/* offer.c: the rate that is offered to a publisher. Times are in microseconds. */
typedef struct {
    cpay_rate_offer offer;
    uint64_t time;        /* the latest RTP time of the video as 64 bits; 0: none yet */
    int64_t lost[TRACKS]; /* packets of each track that were noted as lost */
    uint64_t rate;        /* the latest offer, in bits per second; 0: none yet */
} offering;
bool offer_begin(offering *it); /* false: out of memory */
void offer_note(offering *it, uint8_t send_time_id, const uint8_t *datagram, size_t size, uint64_t now); /* by abs-send-time */
void offer_note_by(offering *it, uint32_t rtp_time, size_t size, uint64_t now);
void offer_losses(offering *it, int track, int64_t lost); /* how many packets of the track are lost since its beginning */
bool offer_due(offering *it, uint64_t now, uint64_t round_trip); /* `rate` is to be offered now */
void offer_free(offering *it);

/* viewers.c */
const char *viewer_begin(peer *it, peer *of);   /* NULL, or what is wrong */
uint32_t viewer_ssrc(const peer *it, int kind); /* that of retransmissions is one more */
bool viewers_forward(peer *from, int track, const uint8_t *datagram, size_t size); /* false: the packet came before */
bool viewer_wants_layer(peer *it, const char *name);
void viewer_take(peer *it, const uint8_t *bytes, size_t size); /* RTCP */
void viewer_tick(peer *it, uint64_t now);
void viewer_stats(peer *it, FILE *to);
void viewer_free(peer *it);

/* path.c: the path to a viewer. Times are in microseconds. */
void path_send(peer *it, peer *from, uint64_t now); /* what may leave now */
void path_serve(peer *it, peer *from, uint64_t now); /* the same, and layers are chosen when it is time */
uint64_t path_deadline(const peer *it);

/* rtcp.c: RTCP of viewers */
typedef struct {
    int32_t lost;   /* packets, since the stream began */
    uint32_t last;  /* the middle 32 bits of the NTP time of the last sender report; 0: none */
    uint32_t delay; /* since that report, in 1/65536 s */
} report_block;     /* what a receiver reports about a stream (RFC 3550, section 6.4.1) */
bool rtcp_read_block(const uint8_t *bytes, size_t size, uint32_t ssrc, report_block *block);
size_t rtcp_write_report(uint8_t *to, uint64_t ntp_time, const cpay_sender_report_info *report, const char *name);

/* record.c */
typedef struct recording recording;
recording *record_new(const char *name, const agreed media[KINDS]);
void record_unit(recording *it, int kind, const cpay_unit *unit, const uint8_t *bytes);
void record_clock(recording *it, int kind, const cpay_sender_clock_info *clock);
void record_stats(const recording *it, FILE *to);
void record_free(recording *it);

/* stats.c: counts as JSON */
#define COUNT(name) "\"" name "\":%" PRIu64 "," /* the format of a number of 64 bits */
void stats(FILE *to);
void stats_stream(FILE *to, int kind, const agreed *media, const char *layer); /* the beginning of a stream */

/* http.c */
int http_start(void); /* the descriptor to wait for */
void http_run(void);
uint64_t http_deadline(uint64_t now);
void http_stop(void);

#endif
