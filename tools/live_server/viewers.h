/* A viewer: its streams, and the path to it. What viewers.c, path.c and choices.c share. */
#ifndef LIVE_SERVER_VIEWERS_H
#define LIVE_SERVER_VIEWERS_H

#include "server.h"

enum {
    ALL_LAYERS = 3, /* more than the highest temporal layer of VP8 that browsers send */
    HEADER = 12,    /* bytes of an RTP header without extension */
    MOST_CHOICES = 3 + 2 * (MOST_SIZES - 1) + 1,
    MOST_FILLED = 64,  /* packets of padding that are kept for requests */
    MOST_LEFT = 1024,  /* packets that left of which a report may come */
    MOST_NOTED = 2048, /* packets that left of which the marker is known: as many as a store has */
    MOST_ORDERED = 512 /* packets of video that wait for a viewer, those that are left out among them */
};

/* What waits for a viewer: the id that the path has of it. LAST_PACKET: a packet that gets the marker, since the picture of the
 * viewer ends with it. */
typedef enum { PACKET, LAST_PACKET, LEFT_OUT, AGAIN, FILLED } waiting_kind;
typedef struct {
    uint8_t what, track; /* of the publisher, or with AGAIN and FILLED of the viewer: AUDIO or VIDEO */
    uint16_t number;     /* of the source, or with AGAIN and FILLED of the viewer's stream */
    uint32_t ssrc;       /* of the source */
} waiting;

/* One stream of a viewer. */
struct outgoing {
    cpay_forwarder forwarder;
    cpay_red_sender red;  /* with RED */
    uint32_t ssrc;        /* of the viewer; that of retransmissions is one more */
    int track, wanted;    /* the publisher's track that it gets, and the one to go over to */
    bool begun;           /* packets of the source wait or were sent: from a keyframe on */
    uint32_t source;      /* its SSRC */
    uint16_t first;       /* no packet before this number of the source is sent */
    bool without_red;     /* the path has no room for RED */
    int temporal, layers; /* the highest temporal layer that it is to get, and that of the picture that it gets now */
    cpay_spatial_filter_state filter; /* of VP9 */
    struct {
        uint16_t number;
        uint8_t layer : 5; /* spatial; BEFORE: the viewer has begun again since then */
        bool left : 1, marked : 1;
    } notes[MOST_NOTED]; /* packets of video that left, by their numbers */
    uint16_t newest;      /* a number that was sent lately, of a large packet */
    size_t newest_len;    /* its bytes; 0: there is none */
    uint64_t requested, refused, not_kept, keyframes_wanted;
    uint64_t report_sent;  /* ms */
    uint32_t report_ntp;   /* the middle 32 bits of its NTP time */
    report_block reported; /* by the viewer */
    uint64_t round_trip;   /* ms, by reports */
    uint64_t sent_before;  /* packets that were sent until an earlier report */
    int32_t lost_before;   /* packets that were lost until then */
    unsigned losses;       /* thousandths of the packets: an eighth of it is the latest report */
    struct {
        uint64_t sent; /* ms */
        uint8_t bytes[HEADER + 1];
    } filled[MOST_FILLED]; /* the latest packets of padding, in a ring */
    size_t filled_count;
};

/* What a person wishes. */
typedef struct {
    int least, most; /* sizes: both are the same if the person chose one */
    int temporal;    /* the highest temporal layer */
} wishes;

/* The path to a viewer. Times are in microseconds. */
struct viewer_path {
    cpay_path carries;
    bool begun;                 /* a packet was pushed */
    bool follows;               /* the viewer reports when each packet arrived */
    uint64_t deadline;          /* when a packet leaves next */
    uint64_t next_choice;       /* when layers are chosen next */
    uint64_t filled;            /* when a trial was filled last; 0: never */
    uint64_t first_left, heard; /* when the first packet left, and when the latest feedback came; 0: never */
    uint64_t round_trip;        /* by feedback */
    uint64_t dropped, padding;  /* packets for which the queue had no room; bytes that filled trials */
    cpay_path_state_info state; /* at the latest choice */
    cpay_path_estimate_info knows;
    struct {
        uint32_t at;             /* when it left, modulo 2^32 */
        uint16_t number;         /* transport-wide */
        uint16_t repeats;        /* the number in the viewer's stream, with a retransmission the one that it repeats */
        bool is_video;           /* if it is lost, it leaves again without a request */
    } left[MOST_LEFT];           /* the latest packets that left, by their numbers */
    waiting order[MOST_ORDERED]; /* of video, in a ring: what is left out keeps its place */
    size_t order_first, order_len;
    bool tails; /* the last packet of a frame leaves twice: the viewer would see its loss with the next frame */
    wishes wishes;
    int choice;                   /* the place in the list of choices; -1: none yet */
    uint64_t rates[MOST_CHOICES]; /* of the choices, in bits per second */
    size_t rates_len;
};

/* viewers.c */
size_t viewer_write(peer *it, peer *from, const waiting *one, uint8_t *out, size_t room); /* 0: there is nothing to send */
void viewer_leave_out(peer *it, peer *from, const waiting *one);
void viewer_resend(peer *it, peer *from, int kind, uint16_t number);
void viewer_stops(peer *it); /* its video goes on with the next keyframe */
bool viewer_goes_to(peer *it, peer *from, int track, layer up_to, bool red); /* whether it falls to a lower spatial layer */
void viewer_offer_again(peer *it, peer *from, waiting one, cpay_spatial_filter_state *filter);
int viewer_size(const peer *it, const peer *from); /* that it gets now */

/* path.c */
bool path_begin(peer *it);
void path_push(peer *it, cpay_path_kind kind, waiting one, size_t size);
void path_leave_out(peer *it, peer *from, waiting one); /* in its place among the packets of video */
void path_remove_video(peer *it);
bool path_thin(peer *it, peer *from, cpay_spatial_filter_state *filter); /* what waits passes the filter; false: no picture begins */
bool path_may_resend(peer *it, uint16_t number, size_t size);
void path_hear(peer *it, peer *from, const uint8_t *rtcp, size_t size);
void path_fill(peer *it, uint32_t bytes);
void path_free(peer *it);

/* choices.c */
void path_choose(peer *it, peer *from, uint64_t now);

#endif
