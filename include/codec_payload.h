/** @file
 * codec_payload: RTP payloads of media frames, and the datagrams that carry them, for C and C++.
 *
 * A sender cuts the frames of one stream into datagrams. A receiver accepts the datagrams of a socket, in any order and among any
 * other bytes, and returns units in order. A session does so for all streams of a port. For callers that handle RTP headers
 * themselves there are a packetizer, a buffer, depacketizers and RED. Sockets, clocks and threads stay with you. The library is
 * proved: no input makes it crash or read out of bounds. docs/use/FORMATS.md has the formats, docs/use/BUFFER.md the rules of the
 * buffer, and docs/use/C.md is a guide.
 *
 * FRAMES. For each codec: the rate of its RTP clock in hertz, the frame or unit, and the result for a frame longer than the MTU:
 *
 *   CPAY_OPUS              48000  a packet of Opus (RFC 6716)                                 pieces
 *   CPAY_PCMU, CPAY_PCMA    8000  samples of a byte each, any number (RFC 3551)               pieces
 *   CPAY_G722               8000  two samples of 16 kHz a byte, any number (RFC 3551)         pieces
 *   CPAY_CN                 8000  a level, and coefficients (RFC 3389)                        CPAY_PAYLOAD_TOO_LARGE
 *   CPAY_AMR_WB            16000  frames in storage form, without the file's magic (RFC 4867) CPAY_PAYLOAD_TOO_LARGE
 *   CPAY_TELE              audio  whole reports of four bytes (RFC 4733)                      CPAY_PAYLOAD_TOO_LARGE
 *   CPAY_VP8               90000  a frame (RFC 6386)                                          pieces
 *   CPAY_VP9               90000  a frame or a superframe (VP9 bitstream, Annex B)            pieces
 *   CPAY_AV1               90000  a temporal unit: OBUs with their sizes (AV1, section 5.2)   pieces
 *   CPAY_NULL                any  any bytes                                                   one payload of any length
 *
 * After loss, a unit can lack its first bytes and still be released. This concerns AV1, VP9 with spatial layers, and VP8 from
 * senders that mark each partition as a start. See docs/use/LIMITS.md.
 *
 * STATUSES. A call returns a status; a few return a bool or a number. 0 is success, 1 to 17 are errors of payloads and of
 * memory, 32 to 41 are the library's own, 42 to 65 say why a datagram is not accepted, 66 to 73 why feedback is not read, and
 * 74 and 75 why a datagram gets no number; 76 is a unit above the bound, 77 a full queue, 78 to 81 say why feedback of RFC 8888
 * is not read, 82 to 86 why a packet of FEC is not, 87 to 89 which settings of FEC are out of range, and 90 to 93 why a packet
 * is not sent with FEC. The enum below names them. If a call fails, its output buffer and its other output arguments are
 * unchanged. Exception: with CPAY_TOO_SMALL it writes the required size, and the other outputs except the bytes, unless its
 * comment says otherwise.
 *
 * HANDLES. A packetizer, a depacketizer, a buffer, a RED sender, a sender, a history, a forwarder, a receiver, an adaptive
 * wait, a counter of freezes, a transport reporter, the sent packets of a transport, a path, a resend limit, an offer of a
 * rate, a packet store, a receiver, a port and a sender of FEC, and a session each live in a handle: a struct of that type in
 * your own memory. Initialise it with CPAY_INIT, create the object by the call named *_new, and end with the call named *_free,
 * which leaves the handle empty. You may free an empty handle. Other calls on an empty handle return CPAY_EMPTY; calls on a
 * handle of another type, as after a cast, return CPAY_OTHER_KIND. Exception: a path, a resend limit, an offer of a rate, a
 * packet store and the three of FEC recognise each other alone; never cast one to a type other than these seven, or a handle of
 * another type to one of them. Never write into a handle. Never copy a handle in use: the library cannot detect that another
 * copy was freed. You may move it in memory if you forget the old place.
 *
 * MEMORY. The library allocates with the program's malloc and realloc and releases with free, only in calls marked [m]. These
 * functions must belong to one allocator. Each block must be aligned for the type stored in it, at most 8 bytes, as in glibc, musl,
 * jemalloc and mimalloc. If an allocation fails, the call returns CPAY_OUT_OF_MEMORY and changes nothing, unless its comment says
 * otherwise; you may call again. No call keeps a pointer that you pass: frames and payloads are copied.
 *
 * OUTPUT BUFFERS. A call that returns bytes writes them to the front of your buffer, and their number to a `bytes` field or to
 * *size. If the buffer is too small, the call returns CPAY_TOO_SMALL, reports the required size, and nothing is lost: the packet or
 * unit waits for the next call of the same name. So a first call may pass a length of 0. (cpay_history_resend and the
 * calls of a forwarder spend nothing, and keep nothing waiting.)
 *
 * LENT BYTES. Six calls need no output buffer and copy nothing: cpay_session_poll, cpay_receiver_lend, cpay_depacketizer_unit,
 * cpay_fec_port_receive, cpay_fec_port_next and cpay_fec_sender_push return a pointer to bytes in the library's memory. Read them
 * until the call that their comments name, and never write them.
 *
 * POINTERS. NULL is allowed with a length of 0; with another length the call returns CPAY_INVALID (false, if it returns a bool).
 * All other pointers must be valid, except the argument of *_free. An argument that a call writes must not overlap any other
 * argument. Structs must be initialised before the call, also if the call only writes them: start from {0}. Output buffers for
 * bytes need no initial values. A bool must be true or false, never another byte.
 *
 * THREADS. Use a handle from one thread at a time. You may pass it to another thread if a mutex, or the start or end of a thread,
 * orders the calls. Different handles share nothing. Make no call from a signal handler, or in the forked child of a process with
 * threads. No call blocks, prints, ends the process or reads a clock.
 *
 * FILES. codec_payload_media.h, which this file includes, has calls that read payloads and frames.
 *
 * AN EXAMPLE: examples/first.c, in full. */
#if 0
#include "codec_payload.h"
#include <stdio.h>

/* Passes a datagram that came from a socket at time `now`. A datagram that is not an RTP packet is counted and skipped. */
static cpay_status take(cpay_receiver *receiver, uint64_t now, const uint8_t *datagram, size_t size) {
    cpay_outcome outcome = CPAY_HELD;
    cpay_status status = cpay_receiver_receive(receiver, now, datagram, size, &outcome);
    if (status == CPAY_OK || status == CPAY_OUT_OF_MEMORY) return status;
    printf("skipped: %s\n", cpay_status_text(status));
    return CPAY_OK;
}

int main(void) {
    static uint8_t frame[3000], datagram[1500], bytes[3000];
    cpay_spec vp8 = {.codec = CPAY_VP8, .rate = 90000};
    cpay_sender_settings sends = {.spec = vp8, .mtu = 1200, .ssrc = 0x12345678, .payload_type = 96};
    cpay_receiver_settings receives;
    cpay_sender sender = CPAY_INIT;
    cpay_receiver receiver = CPAY_INIT;
    cpay_unit unit = {0};
    size_t count = 0, size = 0;
    cpay_receiver_settings_init(&receives, CPAY_VP8, 90000, 96, CPAY_FOR_LIVE);
    cpay_status status = cpay_sender_new(&sender, &sends);
    if (!status) status = cpay_receiver_new(&receiver, &receives, NULL, 0);
    if (!status) status = take(&receiver, 0, (const uint8_t *)"hello", 5);
    if (!status) status = cpay_sender_send(&sender, 3000, false, frame, sizeof frame, &count);
    for (size_t place = 0; !status && place < count; place++) {
        status = cpay_sender_datagram(&sender, place, datagram, sizeof datagram, &size);
        if (!status) status = take(&receiver, 20, datagram, size);
    }
    while (!status && !(status = cpay_receiver_pop(&receiver, 120, &unit, bytes, sizeof bytes))) {
        if (unit.fault) printf("a frame is lost: %s\n", cpay_status_text(unit.fault));
        else printf("packets %u to %u: a frame of %zu bytes\n", (unsigned)unit.first, (unsigned)unit.last, unit.bytes);
    }
    printf("%s\n", cpay_status_text(status));
    cpay_sender_free(&sender);
    cpay_receiver_free(&receiver);
    return status != CPAY_NONE;
}
#endif

#ifndef CODEC_PAYLOAD_H
#define CODEC_PAYLOAD_H

#include <stdbool.h>
#include <stddef.h>
#include <stdint.h>

/** The version of this header. */
#define CPAY_VERSION_MAJOR 0
#define CPAY_VERSION_MINOR 1
#define CPAY_VERSION_PATCH 0
#define CPAY_VERSION (CPAY_VERSION_MAJOR * 10000 + CPAY_VERSION_MINOR * 100 + CPAY_VERSION_PATCH)

/** Lets compilers that can do so warn if a status is ignored. */
#if defined(__cplusplus) && __cplusplus >= 201703L
#define CPAY_CHECKED [[nodiscard]]
#elif defined(__GNUC__)
#define CPAY_CHECKED __attribute__((warn_unused_result))
#else
#define CPAY_CHECKED
#endif

#ifdef __cplusplus
extern "C" {
#endif

/** Returns the version of the linked library, in the form of CPAY_VERSION. */
uint32_t cpay_version(void);

typedef enum {
    CPAY_OK = 0,
    CPAY_SHORT_PACKET = 1,      /**< a payload ends before its format allows */
    CPAY_PAYLOAD_TOO_LARGE = 2, /**< a frame that must fit one packet is longer than the MTU */
    CPAY_TOO_MANY_LAYERS = 3,   /**< a VP9 payload announces more than three spatial layers */
    CPAY_TOO_MANY_P_DIFF = 4,   /**< a VP9 payload refers to too many frames */
    CPAY_VP8_CORRUPTED = 11,    /**< 5 to 10 are reserved for H.26x, which is unsupported */
    CPAY_VP9_CORRUPTED = 12,
    CPAY_AV1_CORRUPTED = 13,  /**< a frame is not a sequence of OBUs, or a payload does not consist of elements */
    CPAY_RED_CORRUPTED = 14,  /**< the bytes are not a RED payload */
    CPAY_TELE_INVALID = 15,   /**< the payload does not consist of one or more whole reports */
    CPAY_AMR_WB_CORRUPTED = 16,
    CPAY_OUT_OF_MEMORY = 17,
    CPAY_NONE = 32,       /**< no unit is due, no packet is left, or the block, report or field does not exist */
    CPAY_TOO_SMALL = 33,  /**< the output buffer is too small: the required size was written, and nothing is lost */
    CPAY_EMPTY = 34,      /**< the handle is not initialised */
    CPAY_OTHER_KIND = 35, /**< the handle is of another type */
    CPAY_FULL = 36,       /**< the handle is already in use, and is unchanged */
    CPAY_INVALID = 37,    /**< an argument is invalid; the comment of the call says which are */
    CPAY_FRAME_TOO_SHORT = 38, /**< a frame ends before its format allows */
    CPAY_FRAME_MARKER = 39,    /**< a marker, a sync code or a start code of a frame differs from the standard's */
    CPAY_FRAME_RESERVED = 40,  /**< a field of a frame has a value that the standard reserves or forbids */
    CPAY_FRAME_SIZES = 41,     /**< a size in a frame does not match the bytes of the frame */
    CPAY_RTP_HEADER_TOO_SHORT = 42, /**< 42 to 48 say why a datagram is not an RTP packet: it has fewer than 12 bytes */
    CPAY_RTP_VERSION = 43,          /**< its version is not 2 */
    CPAY_RTP_CSRCS_TOO_SHORT = 44,  /**< it ends inside the contributing sources */
    CPAY_RTP_EXTENSION_HEADER_TOO_SHORT = 45, /**< it ends inside the four bytes that announce its header extension */
    CPAY_RTP_EXTENSION_TOO_SHORT = 46,        /**< it ends inside its header extension */
    CPAY_RTP_PADDING_OF_ZERO = 47,            /**< its padding has 0 bytes */
    CPAY_RTP_PADDING_TOO_LONG = 48,           /**< its padding is longer than the bytes after the header */
    CPAY_RTX_TOO_SHORT = 49, /**< a retransmission ends inside its original sequence number (RFC 4588) */
    CPAY_RTCP_HEADER_TOO_SHORT = 50, /**< 50 to 65 say why a datagram is not a compound RTCP packet: fewer than 4 bytes are left
                                          for the header of a packet */
    CPAY_RTCP_VERSION = 51,          /**< the version of a packet is not 2 */
    CPAY_RTCP_FIRST_NOT_REPORT = 52, /**< the first packet is not a sender report or a receiver report */
    CPAY_RTCP_PACKET_TOO_SHORT = 53, /**< the length of a packet passes the end of the datagram */
    CPAY_RTCP_PADDING_NOT_LAST = 54, /**< a packet that is not the last has padding */
    CPAY_RTCP_PADDING_OF_ZERO = 55,  /**< the padding has 0 bytes */
    CPAY_RTCP_PADDING_TOO_LONG = 56, /**< the padding is longer than the bytes after the header */
    CPAY_RTCP_REPORT_TOO_SHORT = 57, /**< a report ends inside its fixed fields or its report blocks */
    CPAY_RTCP_CHUNK_TOO_SHORT = 58,  /**< a source description ends inside the SSRC of a chunk */
    CPAY_RTCP_ITEMS_TOO_SHORT = 59,  /**< it ends inside the items of a chunk, or before the end of the chunk */
    CPAY_RTCP_BYE_TOO_SHORT = 60,    /**< a BYE ends inside its SSRCs */
    CPAY_RTCP_REASON_TOO_SHORT = 61, /**< a BYE ends inside its reason for leaving */
    CPAY_RTCP_FEEDBACK_TOO_SHORT = 62, /**< feedback ends inside its two SSRCs */
    CPAY_RTCP_NACK_LENGTH = 63,        /**< a generic NACK names no packet, or ends inside an entry */
    CPAY_RTCP_PLI_LENGTH = 64,         /**< a PLI has bytes after its two SSRCs */
    CPAY_RTCP_FIR_LENGTH = 65,         /**< a FIR has no entries, or ends inside one */
    CPAY_REMB_TOO_SHORT = 66, /**< 66 to 69 say why application layer feedback is not REMB: it has fewer than 8 bytes */
    CPAY_REMB_OTHER = 67,     /**< its identifier is another one */
    CPAY_REMB_TOO_LARGE = 68, /**< its bitrate has more than 64 bits */
    CPAY_REMB_SOURCES_TOO_SHORT = 69,   /**< it ends inside its SSRCs */
    CPAY_TRANSPORT_HEADER_TOO_SHORT = 70, /**< 70 to 73 say why transport-wide feedback is not read: it has fewer than 8 bytes */
    CPAY_TRANSPORT_CHUNKS_TOO_SHORT = 71, /**< its chunks end before each packet has a status */
    CPAY_TRANSPORT_RESERVED = 72,         /**< a status is 3, which is reserved */
    CPAY_TRANSPORT_DELTAS_TOO_SHORT = 73, /**< it ends before the delta of a packet that arrived */
    CPAY_EXTENSION_PROFILE = 74, /**< a header extension has another profile than those of RFC 8285 */
    CPAY_EXTENSION_ROOM = 75,    /**< a header extension has no room for the number, or its id is 0 */
    CPAY_UNIT_TOO_LARGE = 76,    /**< a unit has more bytes than the settings of its receiver allow */
    CPAY_QUEUE_FULL = 77,        /**< with this packet more bytes than the settings of a path allow would wait to leave */
    CPAY_CCFB_TOO_SHORT = 78, /**< 78 to 81 say why feedback of RFC 8888 is not read: it has fewer than 8 bytes */
    CPAY_CCFB_BLOCK_TOO_SHORT = 79,   /**< it ends inside the first 8 bytes of a block */
    CPAY_CCFB_TOO_MANY = 80,          /**< a block reports on more than 16384 packets */
    CPAY_CCFB_METRICS_TOO_SHORT = 81, /**< it ends inside the packets of a block */
    CPAY_FEC_HEADER_TOO_SHORT = 82, /**< 82 to 86 say why a packet of FEC is not read: it has fewer than 10 bytes */
    CPAY_FEC_EXTENDED = 83,         /**< its extension flag is set, which the RFC reserves */
    CPAY_FEC_LEVEL_TOO_SHORT = 84,  /**< it ends inside the header of level 0 */
    CPAY_FEC_EMPTY_MASK = 85,       /**< it protects no packet */
    CPAY_FEC_PAYLOAD_TOO_SHORT = 86, /**< it ends inside the payload of level 0 */
    CPAY_FEC_STREAMS = 87, /**< 87 to 89 say which settings of a port with FEC or of a sender of FEC are out of range: the number of
                                streams is not 1 to 256 */
    CPAY_FEC_PAYLOAD_TYPE = 88, /**< a payload type */
    CPAY_FEC_TWO_MEANINGS = 89, /**< a payload type has two meanings */
    CPAY_FEC_PACKET_TOO_LARGE = 90, /**< 90 to 93 say why a sender of FEC does not take a packet: it has more than 65547 bytes */
    CPAY_FEC_OTHER_STREAM = 91,     /**< it has another SSRC */
    CPAY_FEC_PACKET_TYPE = 92,      /**< its payload type is that of RED or of ULPFEC */
    CPAY_FEC_TOO_OLD = 93           /**< FEC was made 64 times since */
} cpay_status;

/** Codecs. */
typedef enum {
    CPAY_OPUS = 0,
    CPAY_PCMU = 1,
    CPAY_PCMA = 2,
    CPAY_G722 = 3,
    CPAY_CN = 4, /**< comfort noise (RFC 3389) */
    CPAY_AMR_WB = 5,
    CPAY_VP8 = 9,
    CPAY_VP9 = 10,
    CPAY_AV1 = 11,
    CPAY_NULL = 12, /**< payloads that carry any bytes */
    CPAY_TELE = 13  /**< telephone events (RFC 4733) */
} cpay_codec;

/** Which codec-specific data a unit has: the field `kind` of a cpay_extra. */
typedef enum {
    CPAY_EXTRA_NONE = 0,
    CPAY_EXTRA_VP8 = 1,
    CPAY_EXTRA_VP9 = 2,
    CPAY_EXTRA_AV1 = 3,
    CPAY_EXTRA_TELE = 4
} cpay_extra_kind;

/** A handle: the caller's memory for an object of the library. All zeros are an empty handle: initialise it with CPAY_INIT. Its
 * fields belong to the library. */
typedef struct {
    void *at;
} cpay_place;

typedef struct {
    bool full;
    cpay_place place;
} cpay_handle;

typedef struct {
    cpay_handle handle;
} cpay_packetizer;

typedef struct {
    cpay_handle handle;
} cpay_buffer;

typedef struct {
    cpay_handle handle;
} cpay_depacketizer;

typedef struct {
    cpay_handle handle;
} cpay_red_sender;

typedef struct {
    cpay_handle handle;
} cpay_sender;

typedef struct {
    cpay_handle handle;
} cpay_history;

typedef struct {
    cpay_handle handle;
} cpay_forwarder;

typedef struct {
    cpay_handle handle;
} cpay_receiver;

typedef struct {
    cpay_handle handle;
} cpay_adaptive_wait;

typedef struct {
    cpay_handle handle;
} cpay_freezes;

typedef struct {
    cpay_handle handle;
} cpay_transport_reporter;

typedef struct {
    cpay_handle handle;
} cpay_sent_packets;

typedef struct {
    cpay_handle handle;
} cpay_path;

typedef struct {
    cpay_handle handle;
} cpay_resend_limit;

typedef struct {
    cpay_handle handle;
} cpay_rate_offer;

typedef struct {
    cpay_handle handle;
} cpay_packet_store;

typedef struct {
    cpay_handle handle;
} cpay_fec_receiver;

typedef struct {
    cpay_handle handle;
} cpay_fec_port;

typedef struct {
    cpay_handle handle;
} cpay_fec_sender;

typedef struct {
    cpay_handle handle;
} cpay_session;

#define CPAY_INIT { { false, { NULL } } }

/** Frees the object, and leaves the handle empty. NULL and an empty handle are ignored. */
void cpay_packetizer_free(cpay_packetizer *packetizer);
void cpay_buffer_free(cpay_buffer *buffer);
void cpay_depacketizer_free(cpay_depacketizer *depacketizer);
void cpay_red_sender_free(cpay_red_sender *sender);
void cpay_sender_free(cpay_sender *sender);
void cpay_history_free(cpay_history *history);
void cpay_forwarder_free(cpay_forwarder *forwarder);
void cpay_receiver_free(cpay_receiver *receiver);
void cpay_adaptive_wait_free(cpay_adaptive_wait *wait);
void cpay_freezes_free(cpay_freezes *freezes);
void cpay_transport_reporter_free(cpay_transport_reporter *reporter);
void cpay_sent_packets_free(cpay_sent_packets *packets);
void cpay_path_free(cpay_path *path);
void cpay_resend_limit_free(cpay_resend_limit *limit);
void cpay_rate_offer_free(cpay_rate_offer *offer);
void cpay_packet_store_free(cpay_packet_store *store);
void cpay_fec_receiver_free(cpay_fec_receiver *receiver);
void cpay_fec_port_free(cpay_fec_port *port);
void cpay_fec_sender_free(cpay_fec_sender *sender);
void cpay_session_free(cpay_session *session);

/** A codec with its settings. Settings of other codecs are ignored, with two exceptions: `rate` is always checked, and
 * cpay_packetizer_new checks `first_id` for every codec. Buffers and depacketizers ignore `first_id`. */
typedef struct {
    cpay_codec codec;  /**< CPAY_OPUS and so on */
    uint32_t rate;     /**< rate of the RTP clock in hertz, above 0: 48000 for Opus, 90000 for video, 8000 for G.711 and G.722 */
    uint16_t first_id; /**< first picture id to send, 0 to 32767: for VP9, and for VP8 with vp8_ids */
    bool octet_align;  /**< AMR-WB payloads are octet-aligned (RFC 4867, section 4.4) */
    bool vp8_ids;      /**< send VP8 with picture ids */
    bool vp9_flexible; /**< send VP9 in flexible mode */
} cpay_spec;

/* ---- Sending: a frame in, its packets out one by one ---- */

/** Creates a packetizer in an empty handle. CPAY_INVALID: unsupported codec, `rate` 0, or `first_id` above 32767. [m] */
CPAY_CHECKED cpay_status cpay_packetizer_new(cpay_packetizer *packetizer, const cpay_spec *spec);

/** Cuts a frame into payloads of at most `mtu` bytes, and reports their number: 0 for an empty frame. CPAY_NULL ignores `mtu`: a
 * frame of any length, including 0, is one payload. Packets of the previous frame that were not fetched are discarded. If
 * `starts_talk_spurt` is true, Opus, G.711, G.722, AMR-WB and telephone events mark all packets of the frame; comfort noise,
 * video and CPAY_NULL ignore it. If the call fails, the packets of the previous frame stay. [m] */
CPAY_CHECKED cpay_status cpay_packetize(cpay_packetizer *packetizer, size_t mtu, bool starts_talk_spurt, const uint8_t *frame,
                                        size_t frame_len, size_t *count);

typedef struct {
    size_t bytes;  /**< size of the packet's payload */
    bool marker;   /**< marker bit of its RTP header */
    bool nackable; /**< a receiver may request a retransmission (RFC 4585, section 6.2.1) */
} cpay_packet_info;

/** Returns the next packet of the frame. CPAY_NONE: all packets were fetched. */
CPAY_CHECKED cpay_status cpay_packet(cpay_packetizer *packetizer, cpay_packet_info *info, uint8_t *bytes, size_t bytes_len);

/** How cpay_packetize_into cuts a frame, and the room around each packet. */
typedef struct {
    size_t mtu;             /**< maximum size of a payload */
    size_t headroom;        /**< bytes left free in front of each payload: for an RTP header, 12 or more */
    size_t tailroom;        /**< bytes left free after each payload: for an authentication tag */
    bool starts_talk_spurt; /**< see cpay_packetize */
} cpay_frame_cut;

typedef struct {
    size_t offset; /**< start of the packet's payload in the output buffer; its headroom is right in front of it */
    size_t bytes;  /**< size of the payload */
    bool marker;   /**< marker bit of its RTP header */
    bool nackable; /**< a receiver may request a retransmission (RFC 4585, section 6.2.1) */
} cpay_placed_packet;

typedef struct {
    size_t bytes; /**< size of all packets, with headroom and tailroom; SIZE_MAX if it is larger */
    size_t count; /**< number of packets */
} cpay_frame_room;

/** Cuts a frame as cpay_packetize does, and writes all its packets to the front of `bytes`, one after another: headroom,
 * payload, tailroom. Headroom, tailroom and the bytes after the last packet are unchanged. Each packet gets one element of
 * `packets`, in order. *room is written with CPAY_OK and CPAY_TOO_SMALL.
 * CPAY_TOO_SMALL: `bytes` or `packets` is too short. If the call fails, the packetizer (with its picture ids), `bytes` and
 * `packets` are unchanged: you may pass the same frame again. Packets of an earlier cpay_packetize can still be fetched. Each
 * byte is copied twice. The call allocates only if a frame is larger than all before it, so a steady stream allocates nothing.
 * [m] */
CPAY_CHECKED cpay_status cpay_packetize_into(cpay_packetizer *packetizer, const cpay_frame_cut *cut, const uint8_t *frame,
                                             size_t frame_len, uint8_t *bytes, size_t bytes_len, cpay_placed_packet *packets,
                                             size_t packets_len, cpay_frame_room *room);

/* ---- Codec-specific data from payloads ---- */

/** A report on a telephone event (RFC 4733, section 2.3). */
typedef struct {
    uint64_t duration; /**< duration of the event so far, in nanoseconds */
    uint8_t event;     /**< 0 to 9 are the digits of a keypad */
    uint8_t volume;    /**< power of the tone in dBm0, without its sign: 0 to 63 */
    bool end;          /**< the event has ended */
} cpay_tele_event;

/** A spatial layer of VP9. */
typedef struct {
    size_t end; /**< end of its bytes in the unit */
    uint16_t width;
    uint16_t height;
    bool has_end; /**< the unit has this layer */
    bool has_width;
    bool has_height;
} cpay_vp9_layer;

/** Codec-specific data of a unit. Fields of other codecs are 0. */
typedef struct {
    uint64_t picture_id;     /**< VP8, VP9: extended beyond the bits of the payload */
    uint64_t tl0_picture_id; /**< VP8, VP9: id of the base layer, extended in the same way */
    cpay_extra_kind kind;    /**< CPAY_EXTRA_NONE and so on */
    bool has_picture_id;
    bool has_tl0_picture_id;
    bool has_temporal_layer; /**< VP8: always true */
    uint8_t temporal_layer;  /**< VP8, VP9 */
    bool is_keyframe;        /**< VP8: it can be decoded without any other frame. VP9: from the P bit of descriptors, which some
                                  senders never set. AV1: from the N bit, a coded video sequence starts here. cpay_frame_info
                                  examines the frame itself */
    bool discardable;        /**< VP8: no other frame depends on this one */
    bool sync;               /**< VP8: this frame depends only on frames of the base layer */
    cpay_tele_event event;    /**< telephone events */
    cpay_vp9_layer layers[3]; /**< VP9 */
} cpay_extra;

/* ---- Receiving: packets in any order in, whole units out in order ---- */

/** Creates a buffer in an empty handle. It holds at most `limit` packets, 1 to 65536; one more evicts the packet with the lowest
 * number. A complete frame after missing packets waits until more than `hold_back` complete frames are held; with 0 it never
 * waits. CPAY_INVALID: unsupported codec, `rate` 0, or `limit` out of range. [m] */
CPAY_CHECKED cpay_status cpay_buffer_new(cpay_buffer *buffer, const cpay_spec *spec, size_t hold_back, size_t limit);

/** A received packet. The buffer does not handle header extensions and sender reports. */
typedef struct {
    uint64_t number;   /**< extended sequence number (cpay_extend_number); its low 16 bits are in the RTP header */
    uint64_t received; /**< receive time, by your clock */
    uint64_t rtp_time; /**< timestamp of its RTP header, extended or not. All packets of a frame have the same */
    bool marker;
} cpay_received;

/** Stores a packet. A packet that is already held, or that arrives too late, is dropped with CPAY_OK. [m] */
CPAY_CHECKED cpay_status cpay_buffer_push(cpay_buffer *buffer, const cpay_received *packet, const uint8_t *payload,
                                          size_t payload_len);

/** When a frame passed the stages of its sender (video-timing), in milliseconds since its capture. */
typedef struct {
    uint16_t encode_start;
    uint16_t encode_finish;
    uint16_t packetize_complete;
    uint16_t last_left_pacer;
    uint16_t network_1;
    uint16_t network_2;
    uint8_t flags; /**< why the times were sent: 1 for a timer, 2 for a frame of unusual size */
} cpay_video_timing;

/** Values of header extensions (RFC 8285) of a frame, each with a flag that it is present: {0} has none. An absent field is
 * written as 0, and ignored if you pass it. docs/use/DATAGRAMS.md has the bytes of each extension. */
typedef struct {
    uint64_t abs_capture_time;          /**< capture time: seconds since 1900, with their fraction in the low 32 bits */
    int64_t clock_offset;               /**< with has_clock_offset: offset to add to get the sender's clock, in the same unit */
    cpay_video_timing video_timing;     /**< when the frame passed the stages of its sender */
    uint8_t video_orientation;          /**< camera, flip and rotation, as in the byte of 3GPP TS 26.114, section 7.4.5 */
    uint8_t video_content_type;         /**< 0 for a camera, 1 for a screen */
    int8_t audio_level;                 /**< in dBov, 0 to -127 (RFC 6464). Other levels are not sent */
    uint8_t layers_allocation_len;      /**< number of bytes used in `layers_allocation` */
    uint8_t layers_allocation[255];     /**< bytes of video-layers-allocation, not interpreted */
    bool has_abs_capture_time;
    bool has_clock_offset;              /**< ignored without has_abs_capture_time */
    bool has_video_timing;
    bool has_video_orientation;
    bool has_video_content_type;
    bool has_audio_level;
    bool has_layers_allocation;
    bool has_voice_activity;            /**< sent only with has_audio_level */
    bool voice_activity;                /**< the packet has speech (RFC 6464) */
} cpay_extension_values;

/** A unit: a video frame, for AV1 a temporal unit, or for audio the media of one packet. */
typedef struct {
    uint64_t first;         /**< extended sequence number of its first packet. Of a receiver or a session: the first packet of a
                                 stream has 65,536 plus the 16 bits of its header */
    uint64_t last;          /**< extended sequence number of its last packet */
    uint64_t rtp_time;      /**< RTP time of its packets. Of a cpay_buffer: as pushed. Of a receiver or a session: without wrapping;
                                 the first unit of a stream has 4,294,967,296 plus the 32 bits of its packets */
    uint64_t received;      /**< receive time of its first packet to arrive */
    size_t bytes;           /**< size of the unit */
    bool contiguous;        /**< it directly follows the previous unit, by its sequence numbers or its picture ids */
    bool starts_talk_spurt; /**< marker bit of its first packet, which audio sets at the start of a talk spurt */
    bool decodable;         /**< of cpay_receiver_pop: a decoder can show it; see `from_keyframe`. cpay_buffer_pop: true */
    bool keyframe;          /**< of cpay_receiver_pop: its frame header says so; false with CPAY_KEYFRAME_OFF and for audio.
                                 cpay_buffer_pop: false */
    cpay_extra extra;
    cpay_status fault;      /**< of cpay_receiver_pop: CPAY_OK for a unit; 1 to 16 for a frame that the depacketizer refused, and
                                 CPAY_UNIT_TOO_LARGE for a unit above `max_unit`; then all other fields are 0. Otherwise 0 */
} cpay_unit;

/** Returns the next unit that is due. CPAY_NONE: no unit is due. CPAY_TOO_SMALL: *unit is written, and the unit waits for the
 * next call. 1 to 16: the depacketizer refused a frame; that frame is discarded, and the next call continues after it.
 * CPAY_OUT_OF_MEMORY: the frame stays, and the next call tries it again. [m] */
CPAY_CHECKED cpay_status cpay_buffer_pop(cpay_buffer *buffer, cpay_unit *unit, uint8_t *bytes, size_t bytes_len);

typedef struct {
    size_t held;  /**< packets held */
    size_t ready; /**< complete frames held, due or not */
    size_t limit; /**< maximum number of packets held */
    bool waiting; /**< a unit waits for a larger output buffer */
} cpay_buffer_counts_info;

/** Reports how full a buffer is. Allocates nothing. */
CPAY_CHECKED cpay_status cpay_buffer_counts(cpay_buffer *buffer, cpay_buffer_counts_info *counts);

/** Changes `hold_back` of a running buffer: a complete frame after missing packets waits until more than `hold_back` complete
 * frames are held. At the end of a stream set it to 0 and pop until CPAY_NONE: frames after gaps are released too. Packets held
 * after that belong to incomplete frames. */
CPAY_CHECKED cpay_status cpay_buffer_set_hold_back(cpay_buffer *buffer, size_t hold_back);

/** Reports that the packet with this number arrived and carries no media, such as padding only. If all packets before it were
 * released or discarded, the buffer does not wait for it. Otherwise nothing changes. */
CPAY_CHECKED cpay_status cpay_buffer_skip_number(cpay_buffer *buffer, uint64_t number);

/* ---- Datagrams: RTP packets (RFC 3550, section 5.1) ---- */

/** Returns whether a datagram on a port shared by RTP and RTCP is RTCP. Its second byte decides: 192 to 223 (RFC 5761, section
 * 4). */
bool cpay_is_rtcp(const uint8_t *datagram, size_t datagram_len);

/** An RTP packet, by offsets into the datagram. */
typedef struct {
    size_t extension_at;  /**< start of the header extension, after its profile and length */
    size_t extension_len; /**< size of the header extension: a multiple of 4 */
    size_t payload_at;    /**< start of the payload */
    size_t payload_len;   /**< size of the payload, without padding */
    uint32_t timestamp;
    uint32_t ssrc;
    uint16_t sequence_number;
    uint16_t extension_profile; /**< 0xBEDE, or 0x1000 to 0x100F: elements by RFC 8285, in the one-byte or the two-byte form */
    uint8_t payload_type;       /**< 0 to 127 */
    uint8_t csrc_count;         /**< 0 to 15 contributing sources, of four bytes each, from byte 12 on */
    uint8_t padding;            /**< number of padding bytes after the payload */
    bool marker;
    bool has_extension;
} cpay_rtp_info;

/** Parses a datagram as an RTP packet. CPAY_RTP_HEADER_TOO_SHORT to CPAY_RTP_PADDING_TOO_LONG: not an RTP packet; the status is
 * the first fault from left to right. Does not allocate. */
CPAY_CHECKED cpay_status cpay_rtp_read(const uint8_t *datagram, size_t datagram_len, cpay_rtp_info *packet);

/** Reads the value of the first element with this id in the header extension of a datagram (RFC 8285, both forms): 1 to 16
 * bytes, or 0 to 255 in the two-byte form. CPAY_NONE: no such element, no extension, or an extension of another profile.
 * CPAY_RTP_HEADER_TOO_SHORT to CPAY_RTP_PADDING_TOO_LONG: not an RTP packet, as for cpay_rtp_read. Elements after one that
 * extends beyond the end are ignored; in the one-byte form, elements after an id of 15, or of 0 with a length above 0, too. Bytes
 * of padding between elements are skipped. Does not allocate. */
CPAY_CHECKED cpay_status cpay_extension(const uint8_t *datagram, size_t datagram_len, uint8_t id, uint8_t *bytes,
                                        size_t bytes_len, size_t *size);

/** Ids of header extensions from signalling (RFC 8285, section 5), 1 to 255; 0 means not negotiated. */
typedef struct {
    uint8_t abs_capture_time;   /**< 8 bytes, or 16 with the offset of the clock */
    uint8_t video_orientation;  /**< 1 byte */
    uint8_t video_content_type; /**< 1 byte */
    uint8_t video_timing;       /**< 13 bytes */
    uint8_t layers_allocation;  /**< 0 to 255 bytes */
    uint8_t audio_level;        /**< 1 byte, with the voice activity (RFC 6464) */
} cpay_extension_ids;

/** Reads the values in the header extension of a datagram under these ids: for each, the first element with the id, if its
 * length matches its format. Missing values are reported as absent, with CPAY_OK. CPAY_RTP_HEADER_TOO_SHORT to
 * CPAY_RTP_PADDING_TOO_LONG: not an RTP packet, as for cpay_rtp_read; *values is unchanged. Elements are found as in
 * cpay_extension. Does not allocate. */
CPAY_CHECKED cpay_status cpay_extension_values_of(const uint8_t *datagram, size_t datagram_len, const cpay_extension_ids *ids,
                                                  cpay_extension_values *values);

/* ---- A sender: frames in, the datagrams of one stream out ---- */

typedef struct {
    cpay_spec spec;
    size_t mtu;            /**< maximum size of a payload; the RTP header adds 12 bytes, and header extensions up to 304 */
    uint32_t ssrc;         /**< choose it at random (RFC 3550, section 8) */
    uint16_t first_number; /**< sequence number of the first packet; choose it at random too */
    uint8_t payload_type;  /**< 0 to 127 */
    cpay_extension_ids extension_ids; /**< values without an id are not sent; ids must differ. A packet with an id above 14, or a
                                           value of 0 or more than 16 bytes, has the two-byte form: docs/use/DATAGRAMS.md */
} cpay_sender_settings;

/** Creates a sender in an empty handle. CPAY_INVALID: as for cpay_packetizer_new, `payload_type` above 127, or two header
 * extensions with the same id. [m] */
CPAY_CHECKED cpay_status cpay_sender_new(cpay_sender *sender, const cpay_sender_settings *settings);

/** Cuts a frame into packets, and reports the number of datagrams: see cpay_packetize. They replace the datagrams of the
 * previous frame, and reuse its memory. `rtp_time` is in ticks of the RTP clock; its low 32 bits are sent. If the call fails,
 * there are no datagrams, and the next sequence number is unchanged. [m] */
CPAY_CHECKED cpay_status cpay_sender_send(cpay_sender *sender, uint64_t rtp_time, bool starts_talk_spurt, const uint8_t *frame,
                                          size_t frame_len, size_t *count);

/** The data sent with a frame. */
typedef struct {
    uint64_t rtp_time;            /**< in ticks of the RTP clock; its low 32 bits are sent */
    bool starts_talk_spurt;       /**< the first frame after a silence */
    cpay_extension_values values; /**< {0} sends none */
} cpay_sample;

/** Does the same as cpay_sender_send, and sends values of header extensions that have an id. Capture time and layers allocation
 * go only on the frame's first packet; orientation, content type and timing only on the last; level and voice activity on each.
 * A level above 0 or below -127 dBov is not sent; voice activity is sent only with a level. [m] */
CPAY_CHECKED cpay_status cpay_sender_send_sample(cpay_sender *sender, const cpay_sample *sample, const uint8_t *frame,
                                                 size_t frame_len, size_t *count);

/** Copies datagram `place`, from 0, of the last frame. CPAY_NONE: `place` is past the last datagram. You may fetch each one
 * again until the next frame is sent. */
CPAY_CHECKED cpay_status cpay_sender_datagram(cpay_sender *sender, size_t place, uint8_t *bytes, size_t bytes_len, size_t *size);

/** Does the same if the output buffer also has room for `tail` bytes after the datagram. These bytes are unchanged: SRTP encrypts
 * the payload in place and writes its tag there (RFC 3711, section 3.1). With CPAY_OK *size is the size of the datagram. With
 * CPAY_TOO_SMALL it is the size of datagram and tail together, at most SIZE_MAX. */
CPAY_CHECKED cpay_status cpay_sender_datagram_with_tail(cpay_sender *sender, size_t place, size_t tail, uint8_t *bytes,
                                                        size_t bytes_len, size_t *size);

/** Continues the stream in another format: with the packetizer and the rate of `spec`, and this payload type. Sequence numbers,
 * SSRC, counts, MTU and extension ids go on, and the datagrams of the last frame stay. RTP times are in ticks of the new rate.
 * With another rate receivers lose the clock of the stream, so RFC 7160, section 4.1, wants another SSRC: create another sender.
 * CPAY_INVALID: as for cpay_packetizer_new, or `payload_type` above 127; the sender is unchanged. Does not allocate. */
CPAY_CHECKED cpay_status cpay_sender_set_format(cpay_sender *sender, const cpay_spec *spec, uint8_t payload_type);

/** The fields for sender reports (RFC 3550, section 6.4.1). */
typedef struct {
    uint32_t packets;     /**< packets sent, modulo 2^32 */
    uint32_t octets;      /**< payload bytes sent, modulo 2^32 */
    uint32_t rtp_time;    /**< with has_rtp_time: RTP time of the last frame; otherwise 0 */
    uint16_t next_number; /**< the sequence number of the next packet */
    bool has_rtp_time;    /**< at least one frame was sent */
} cpay_sender_counts_info;

/** Reports the counters of a sender. Allocates nothing. */
CPAY_CHECKED cpay_status cpay_sender_counts(cpay_sender *sender, cpay_sender_counts_info *counts);

/** The fields of a sender report (RFC 3550, section 6.4.1), except its NTP time, which your clock has. */
typedef struct {
    uint32_t ssrc;
    uint32_t rtp_time; /**< RTP time of the moment of the report */
    uint32_t packets;  /**< packets sent, modulo 2^32 */
    uint32_t octets;   /**< payload bytes sent, modulo 2^32 */
} cpay_sender_report_info;

/** Reports for the moment `now`, in ticks of the RTP clock on the time line of the frames. The moment may lie before or after the
 * last frame. The NTP time of the report must be of the same moment. Does not allocate. */
CPAY_CHECKED cpay_status cpay_sender_report(cpay_sender *sender, uint64_t now, cpay_sender_report_info *report);

/* ---- A history: the last datagrams of a stream, which are resent when a receiver requests them by NACK ---- */

/** The largest number of packets that a history keeps. */
#define CPAY_MAX_HISTORY 32768

typedef struct {
    size_t limit;              /**< how many numbers the history covers, 1 to CPAY_MAX_HISTORY: the highest number that was kept,
                                    and those below it */
    uint64_t interval;         /**< how many ticks of your clock have to pass before the same packet is resent again; 0: none. About
                                    a round-trip time is useful: a receiver that requests the packet again before that has not
                                    yet seen the answer */
    uint32_t rtx_ssrc;         /**< with has_rtx: SSRC of the retransmissions */
    uint16_t rtx_first_number; /**< with has_rtx: sequence number of the first retransmission */
    uint8_t rtx_payload_type;  /**< with has_rtx: payload type of the retransmissions, 0 to 127 */
    bool has_rtx;              /**< retransmissions are a separate stream (RFC 4588). If not, a packet is resent as it was */
} cpay_history_settings;

/** Creates a history of the sent packets of one stream, in an empty handle. CPAY_INVALID: `limit` or `rtx_payload_type` out of
 * range. [m] */
CPAY_CHECKED cpay_status cpay_history_new(cpay_history *history, const cpay_history_settings *settings);

/** What cpay_history_keep did with a datagram. */
typedef enum {
    CPAY_KEPT_STORED = 0, /**< the history keeps it at its number */
    CPAY_KEPT_TOO_OLD = 1 /**< its number is `limit` or more below the highest one. The history does not keep it, and keeps all that
                               it had */
} cpay_kept;

/** Keeps a copy of a datagram at the place of its number. Call it when you send the datagram or, in a forwarder, when you receive
 * it, before SRTP encrypts it. Numbers may come in any order, and may be missing. A number above the highest one becomes the
 * highest one, and packets `limit` or more numbers below it leave. A packet with a kept number replaces the one that was kept; the
 * time at which that one was resent last stays. *kept is what the call did: CPAY_KEPT_STORED or CPAY_KEPT_TOO_OLD; `kept` may be
 * NULL. If the call after CPAY_KEPT_TOO_OLD has the packet with the number after it, and would be too old as well, the sender has
 * restarted: all others leave, and the history begins with that packet. CPAY_RTP_HEADER_TOO_SHORT to CPAY_RTP_PADDING_TOO_LONG: not
 * an RTP packet. If the call fails, the history and *kept are unchanged. Copies the datagram once. A number ahead of the highest
 * one costs a step for each number in between, at most `limit`. Once a history is full and its memory has grown to the largest
 * packets, the call does not allocate. [m] */
CPAY_CHECKED cpay_status cpay_history_keep(cpay_history *history, const uint8_t *datagram, size_t datagram_len, cpay_kept *kept);

/** What cpay_history_keep_once did with a datagram. */
typedef enum {
    CPAY_KEPT_NEW = 0,     /**< no packet had its number. The history keeps it: forward it */
    CPAY_KEPT_KNOWN = 1,   /**< the history has a packet with its number, and keeps that one */
    CPAY_KEPT_OUTDATED = 2 /**< its number is `limit` or more below the highest one. The history does not keep it */
} cpay_kept_once;

/** Keeps a copy of a datagram as cpay_history_keep does, unless the history has a packet with its number. *kept is what the call
 * did. It is the call of a server, which keeps what arrived once for all viewers of a stream, and forwards each packet once. Make
 * one history for each source, with `interval` 0 and without has_rtx. The packet that was forwarded is then the one that is resent.
 * Numbers may come in any order, and may be missing. Pass a retransmission as cpay_rtx_original writes it.
 * CPAY_RTP_HEADER_TOO_SHORT to CPAY_RTP_PADDING_TOO_LONG: not an RTP packet. If the call fails, the history and *kept are
 * unchanged. [m] */
CPAY_CHECKED cpay_status cpay_history_keep_once(cpay_history *history, const uint8_t *datagram, size_t datagram_len,
                                                cpay_kept_once *kept);

/** Writes the packet that a retransmission repeats (RFC 4588, section 4), and its size to *size. It has the SSRC and the payload
 * type of the stream, which you name; the type is 0 to 127. Its number is in front of the payload of the retransmission, the
 * payload is the rest, and padding is left out. All other fields are those of the retransmission. The size is 2 bytes less than
 * that of the retransmission without its padding. CPAY_TOO_SMALL: *size is written. CPAY_RTP_HEADER_TOO_SHORT to
 * CPAY_RTP_PADDING_TOO_LONG: not an RTP packet. CPAY_RTX_TOO_SHORT: its payload has fewer than 2 bytes, as that of padding that
 * probes the bandwidth. CPAY_INVALID: `payload_type` above 127. [m] */
CPAY_CHECKED cpay_status cpay_rtx_original(uint32_t ssrc, uint8_t payload_type, const uint8_t *datagram, size_t datagram_len,
                                           uint8_t *bytes, size_t bytes_len, size_t *size);

/** What a call of cpay_history_resend did. */
typedef enum {
    CPAY_RESENT_WRITTEN = 0,  /**< the packet is in the output buffer: send it */
    CPAY_RESENT_NOT_KEPT = 1, /**< the packet is not in the history: it was never kept, or its number is too old */
    CPAY_RESENT_TOO_SOON = 2  /**< the packet was resent less than `interval` ago */
} cpay_resent;

/** Resends the packet with that number at time `now`, in ticks of your clock: writes the datagram to the output buffer, and its
 * size to *size. *resent is what was done: CPAY_RESENT_WRITTEN and so on. With has_rtx the datagram has the SSRC, the payload type
 * and the next number of the retransmissions. The original number is in front of its payload, and padding is left out (RFC 4588,
 * section 4). Otherwise it is the packet as it was. Unless the packet is written, *size is 0, and the output buffer is unchanged.
 * CPAY_TOO_SMALL: the datagram needs *size bytes. Nothing else has changed, *resent too: the number of the retransmission is not
 * used, and the packet does not count as resent. So a first call may pass a length of 0, and you may also leave it at that. If the
 * call fails, the history is unchanged. It allocates only if a datagram is larger than all resent before it. [m] */
CPAY_CHECKED cpay_status cpay_history_resend(cpay_history *history, uint64_t now, uint16_t number, uint8_t *bytes,
                                             size_t bytes_len, size_t *size, cpay_resent *resent);

/** Reads what RTCP feedback requests of the stream with this SSRC: its sender answers it. `rtcp` is one datagram, a compound packet
 * (RFC 3550, section 6.1). If `full` is true, it must begin with a report; false also accepts packets of reduced size (RFC 5506).
 * The sequence numbers of all generic NACKs (RFC 4585, section 6.2.1) go to `numbers` in their order, as many as fit; the rest of
 * `numbers` is unchanged. A number that is named twice is written twice. *count is how many numbers there are, also those that do
 * not fit: pass 17 numbers for each four bytes of `rtcp`, and all fit. *wants_keyframe is whether a PLI (RFC 4585, section 6.3.1)
 * or a FIR (RFC 5104, section 4.3.1) requests a keyframe. Feedback for other streams requests nothing.
 * CPAY_RTCP_HEADER_TOO_SHORT to CPAY_RTCP_FIR_LENGTH: not a compound RTCP packet. Then nothing of it counts. Does not allocate. */
CPAY_CHECKED cpay_status cpay_read_requests(const uint8_t *rtcp, size_t rtcp_len, uint32_t ssrc, bool full, uint16_t *numbers,
                                            size_t numbers_len, size_t *count, bool *wants_keyframe);

/* ---- A forwarder: packets of one source after another in, the packets of one stream of a viewer out ---- */

/** How a viewer's stream is sent. Begin with cpay_forwarder_settings_init. */
typedef struct {
    cpay_codec codec;          /**< codec of all sources. It says with which packets a viewer can begin: see cpay_forwarder_write */
    uint32_t ssrc;             /**< SSRC of the viewer's stream */
    uint32_t first_time;       /**< RTP time of its first packet. Choose it at random (RFC 3550, section 5.1) */
    uint32_t rtx_ssrc;         /**< with has_rtx: SSRC of the retransmissions */
    uint16_t first_number;     /**< sequence number of the first packet. Choose it at random */
    uint16_t rtx_first_number; /**< with has_rtx: sequence number of the first retransmission */
    uint8_t payload_type;      /**< payload type of the viewer's stream, 0 to 127 */
    uint8_t rtx_payload_type;  /**< with has_rtx: payload type of the retransmissions, 0 to 127 */
    bool has_rtx;              /**< retransmissions are a separate stream (RFC 4588). If not, a packet is resent as it was sent */
} cpay_forwarder_settings;

/** Sets how a viewer's stream begins: first number and first time are 0, and a packet is resent as it was sent. Does not allocate.
 * */
void cpay_forwarder_settings_init(cpay_forwarder_settings *settings, cpay_codec codec, uint32_t ssrc, uint8_t payload_type);

/** Creates a forwarder in an empty handle. It wants no source yet: call cpay_forwarder_want. CPAY_INVALID: unsupported codec, or a
 * payload type above 127. [m] */
CPAY_CHECKED cpay_status cpay_forwarder_new(cpay_forwarder *forwarder, const cpay_forwarder_settings *settings);

/** Wants the source with this SSRC: the forwarder goes over to it at its next keyframe. Request one from its sender. Until it
 * comes, the source before is forwarded. Does not allocate. */
CPAY_CHECKED cpay_status cpay_forwarder_want(cpay_forwarder *forwarder, uint32_t ssrc);

/** Forwards nothing until you want a source again. Then the viewer's stream goes on with a keyframe, also of the same source. So
 * call this, and then cpay_forwarder_want, if a sender has restarted under its SSRC. Does not allocate. */
CPAY_CHECKED cpay_status cpay_forwarder_mute(cpay_forwarder *forwarder);

/** Reports the SSRC of the source that is forwarded. CPAY_NONE: the viewer gets nothing now. Does not allocate. */
CPAY_CHECKED cpay_status cpay_forwarder_source(cpay_forwarder *forwarder, uint32_t *ssrc);

/** Reports the SSRC of the source that the forwarder goes over to, or has gone over to. CPAY_NONE: it wants none. Does not
 * allocate. */
CPAY_CHECKED cpay_status cpay_forwarder_wanted(cpay_forwarder *forwarder, uint32_t *ssrc);

/** What cpay_forwarder_write or cpay_forwarder_leave_out did with a packet. */
typedef enum {
    CPAY_FORWARDED_BEGAN = 0,        /**< the packet was written: send it. It is the first of another source. Packets of this source
                                          with higher numbers may have come before it: pass those that follow it again, from the
                                          store */
    CPAY_FORWARDED_WRITTEN = 1,      /**< the packet was written: send it */
    CPAY_FORWARDED_NO_KEYFRAME = 2,  /**< the packet is of the wanted source, but a viewer cannot begin with it */
    CPAY_FORWARDED_OTHER_SOURCE = 3, /**< the packet is of a source that the viewer does not get */
    CPAY_FORWARDED_TOO_OLD = 4,      /**< the packet is older than the keyframe with which its source began, or too old to have a
                                          number */
    CPAY_FORWARDED_LEFT_OUT = 5,     /**< the packet is left out, or was left out before, and has no number. The numbers after it
                                          close up */
    CPAY_FORWARDED_FILLED = 6        /**< the packet was left out late. A packet of padding was written under its number: send it,
                                          or the viewer requests the number */
} cpay_forwarded;

/** Writes a packet that arrived, of any source, as the viewer's stream has it, its size to *size, and what was done to *forwarded.
 * Call it before SRTP encrypts the packet. With CPAY_FORWARDED_BEGAN and CPAY_FORWARDED_WRITTEN the packet is in the output buffer.
 * It has the viewer's SSRC and payload type, a number and a time of the viewer's stream, and marker, payload and padding of the
 * packet that arrived. CSRCs and header extensions are left out. In VP8 and VP9 PictureID and TL0PICIDX are those of the viewer's
 * stream, in the widths that arrived. With any other answer *size is 0, and the output buffer is unchanged. `now` is the time of
 * your clock in ticks of the RTP clock. At a switch the time goes on by the ticks since the packet with the highest number was
 * written, at least 1, at most 2^31 - 1. A viewer begins with:
 * - CPAY_VP8: the first packet of a keyframe (RFC 7741, section 4.2);
 * - CPAY_VP9: the first packet of the lowest spatial layer of a picture that refers to no other: P is clear, B is set, and L is
 *   clear or SID is 0 (RFC 9628, section 4.2);
 * - CPAY_AV1: the first packet of a coded video sequence: N is set, and Z is clear;
 * - other codecs: any packet.
 * CPAY_TOO_SMALL: the output buffer has fewer than *size bytes: 12, the payload and the padding. So a buffer of `datagram_len`
 * bytes is always enough. The call is refused whatever the answer would be, and nothing else has changed: call it again.
 * CPAY_RTP_HEADER_TOO_SHORT to CPAY_RTP_PADDING_TOO_LONG: not an RTP packet. If the call fails, the forwarder is unchanged. It
 * allocates only if a packet is larger than all before it. [m] */
CPAY_CHECKED cpay_status cpay_forwarder_write(cpay_forwarder *forwarder, uint64_t now, const uint8_t *datagram, size_t datagram_len,
                                              uint8_t *bytes, size_t bytes_len, size_t *size, cpay_forwarded *forwarded);

/** Leaves a packet out that the viewer is not to get, such as one of a temporal layer that it does not want: call it instead of
 * cpay_forwarder_write. A packet above all others takes no number, so the viewer does not miss it: CPAY_FORWARDED_LEFT_OUT. For a
 * packet that comes late a packet of padding, 13 bytes, is written under its number: CPAY_FORWARDED_FILLED. With any other answer
 * *size is 0, and the output buffer is unchanged. Before the source has begun the answer is CPAY_FORWARDED_OTHER_SOURCE.
 * CPAY_TOO_SMALL: the output buffer has fewer than 13 bytes, which *size says; nothing else has changed. In VP8 PictureIDs close up
 * behind each picture that is left out: leave out all packets of a picture, or none. PictureIDs of VP9 keep their gaps. For
 * upper spatial layers see cpay_spatial_filter_take, which moves the marker of the picture. The last 4096 packets and, in VP8,
 * pictures that were left out are remembered, 8 bytes each. CPAY_RTP_HEADER_TOO_SHORT to CPAY_RTP_PADDING_TOO_LONG: not an RTP
 * packet. If the call fails, the forwarder is unchanged. [m] */
CPAY_CHECKED cpay_status cpay_forwarder_leave_out(cpay_forwarder *forwarder, const uint8_t *datagram, size_t datagram_len,
                                                  uint8_t *bytes, size_t bytes_len, size_t *size, cpay_forwarded *forwarded);

/** Answers the viewer's request for a number (cpay_read_requests with the viewer's SSRC) from the store of the source that is
 * forwarded. The store is a history that has what arrived as it was (without has_rtx). *resent is CPAY_RESENT_WRITTEN: the packet
 * is in the output buffer as it was sent under this number, or with has_rtx as a retransmission (RFC 4588, section 4), and *size is
 * its size. Or it is CPAY_RESENT_NOT_KEPT: no packet was sent under this number, it is too old, or the store does not have it. Then
 * *size is 0, and the output buffer is unchanged. Never CPAY_RESENT_TOO_SOON: limit yourself how often a number is resent, for
 * example once in a round trip. For the number of a packet of padding (CPAY_FORWARDED_FILLED) the packet that was left out is
 * written, and the viewer waits for the rest of its frame: keep padding that you send, and send it again instead. The history does
 * not change. CPAY_TOO_SMALL: the packet needs *size bytes; nothing else has changed. If the call fails, the forwarder is
 * unchanged. CPAY_EMPTY and CPAY_OTHER_KIND apply to the history too. It allocates only if a packet is larger than all before it.
 * [m] */
CPAY_CHECKED cpay_status cpay_forwarder_resend(cpay_forwarder *forwarder, cpay_history *history, uint16_t number, uint8_t *bytes,
                                               size_t bytes_len, size_t *size, cpay_resent *resent);

/** What a forwarder wrote, and what it did not. Each is modulo 2^64. */
typedef struct {
    uint64_t packets;  /**< packets under the viewer's SSRC: CPAY_FORWARDED_BEGAN, _WRITTEN and _FILLED and, without has_rtx, those
                            that were resent */
    uint64_t octets;   /**< payload bytes of these, without padding */
    uint64_t switches; /**< sources that began: CPAY_FORWARDED_BEGAN */
    uint64_t filled;   /**< packets of padding: CPAY_FORWARDED_FILLED */
    uint64_t left_out; /**< CPAY_FORWARDED_LEFT_OUT */
    uint64_t refused;  /**< CPAY_FORWARDED_NO_KEYFRAME, _OTHER_SOURCE and _TOO_OLD */
    uint64_t resent;   /**< packets that were resent, under either SSRC */
} cpay_forwarder_counts_info;

/** Reports the counts. Does not allocate. */
CPAY_CHECKED cpay_status cpay_forwarder_counts(cpay_forwarder *forwarder, cpay_forwarder_counts_info *counts);

/** Reports the fields of a sender report for the viewer's stream (RFC 3550, section 6.4.1), except its NTP time. Take that of the
 * source's sender report, whose SSRC and RTP time you pass (cpay_session_sender_clock). So audio and video stay together. Packets
 * and octets are the counts, modulo 2^32. CPAY_NONE: this source is not forwarded. Does not allocate. */
CPAY_CHECKED cpay_status cpay_forwarder_report(cpay_forwarder *forwarder, uint32_t ssrc, uint32_t rtp_time,
                                               cpay_sender_report_info *report);

/* ---- A receiver: datagrams of a socket in, whole units of one stream out in order ---- */

/** For a receiver: no frame is released by count alone. */
#define CPAY_NO_HOLD_BACK SIZE_MAX

/** For a receiver or a session: a unit may have any number of bytes. */
#define CPAY_NO_MAX_UNIT SIZE_MAX

/** What a receiver of video does with units that a decoder cannot show. A decoder can show a keyframe. It can show a unit of VP8
 * with PictureID and TL0PICIDX if it can show all to which that unit may refer (RFC 7741, section 4.2). The same applies to a unit
 * that names its references: by a dependency descriptor, whose id the settings have, or by P_DIFFs of VP9 in the flexible mode. It
 * can show any other contiguous unit after one that it can show. A unit is a keyframe by its frame header. Audio and custom codecs
 * are never inspected. */
enum {
    CPAY_KEYFRAME_OFF = 0,  /**< units are not inspected: `decodable` is true, `keyframe` is false */
    CPAY_KEYFRAME_MARK = 1, /**< each unit is released, and `decodable` says whether a decoder can show it; all initialisers set
                                 this */
    CPAY_KEYFRAME_DROP = 2  /**< a unit that a decoder cannot show is counted as `undecodable` and dropped */
};

/** What settings are for. Any other number counts as CPAY_FOR_LIVE. */
typedef enum {
    CPAY_FOR_LIVE = 0,           /**< live media without retransmission: after a loss the first complete frame waits at most 100 ms
                                      */
    CPAY_FOR_LIVE_WITH_NACK = 1, /**< live media with retransmission (RFC 4585): at most 200 ms. For a known round-trip time, set
                                      `max_wait` to twice that time plus 100 ms */
    CPAY_FOR_FILE = 2            /**< packets from a file: a frame after a gap waits for the missing packets until the end, or until
                                      little room is left */
} cpay_purpose;

/** Begin with cpay_receiver_settings_init. */
typedef struct {
    cpay_spec spec;
    size_t hold_back;         /**< reordering depth: a complete frame after a gap is released once more than this many complete
                                   frames are held. CPAY_NO_HOLD_BACK: no frame is released by count alone */
    size_t start;             /**< the first frame is released once more than this many complete frames are held */
    size_t limit;             /**< maximum number of packets held, 1 to 65536; while less than an eighth of these places is free,
                                   no frame waits */
    size_t max_unit;          /**< maximum size of a unit in bytes, or CPAY_NO_MAX_UNIT. A larger unit is CPAY_UNIT_TOO_LARGE in
                                   `fault` of its description, and counts as a refused frame */
    uint64_t max_wait;        /**< with has_max_wait: the first complete frame is released once this number of ticks of your
                                   clock has passed since its last packet was received; frames behind it wait with it */
    uint32_t ssrc;            /**< with has_ssrc: SSRC of the stream; otherwise two packets choose it: see cpay_receiver_receive */
    uint32_t tick_rate;       /**< ticks per second of your clock, above 0; used for the jitter in reports, and for two seconds
                                   without packets */
    uint32_t red_step;        /**< with has_red: RTP timestamp increment per packet, 1 to 16383; 960 is 20 ms at 48 kHz */
    uint32_t rtx_ssrc;        /**< with has_rtx: SSRC of the retransmission stream */
    uint16_t forward;         /**< accepted distance ahead of the highest sequence number, exclusive: 1 to 32768 */
    uint16_t backward;        /**< accepted distance below it, inclusive; must be less than `forward` */
    uint8_t payload_type;     /**< 0 to 127 */
    uint8_t red_payload_type; /**< with has_red: payload type of RED; must differ from `payload_type`, which the blocks have */
    uint8_t rtx_payload_type; /**< with has_rtx: payload type of retransmissions */
    uint8_t red_rtx_payload_type; /**< with has_red_rtx: payload type of retransmitted RED packets, 0 to 127: the one whose `apt`
                                       (RFC 4588, section 8.1) is `red_payload_type`; must differ from all other payload types */
    uint8_t from_keyframe;    /**< what happens to video units that a decoder cannot show: CPAY_KEYFRAME_OFF, CPAY_KEYFRAME_MARK
                                   or CPAY_KEYFRAME_DROP */
    bool has_max_wait;
    bool has_ssrc;
    bool has_red; /**< the stream uses RED (RFC 2198): redundant blocks fill in missing packets. No two packets may have the same
                       RTP time, as in audio: no time of the latest 64 is stored twice */
    bool has_rtx; /**< retransmissions arrive in a separate stream (RFC 4588) */
    bool has_red_rtx; /**< with has_red and has_rtx: RED packets are retransmitted in that stream too; otherwise it is ignored */
    cpay_extension_ids extension_ids; /**< for cpay_receiver_values; two equal ids read the same element */
    uint8_t dependency_descriptor;    /**< id of the header extension with the dependency descriptor (AV1 RTP specification,
                                           appendix A), 1 to 255: `decodable` of VP8, VP9 and AV1 follows it. 0: it is not read */
} cpay_receiver_settings;

/** Sets how a receiver of this codec, clock rate and payload type begins, for a purpose (CPAY_FOR_LIVE and so on). Then change what
 * differs. The limit is 4096 packets, a unit has at most 1048576 bytes, and your clock has ticks of milliseconds. No frame is
 * released by count alone (CPAY_NO_HOLD_BACK), and units of video are marked (CPAY_KEYFRAME_MARK). RED, retransmissions and header
 * extensions are off. The windows of audio are 3000 numbers ahead (MAX_DROPOUT of RFC 3550, appendix A.1) and 1000 behind. The
 * windows of VP8, VP9 and AV1, and of files, are 12000 and 5000: 12 s and 5 s of 1000 packets per second. Does not allocate. */
void cpay_receiver_settings_init(cpay_receiver_settings *settings, cpay_codec codec, uint32_t rate, uint8_t payload_type,
                                 cpay_purpose purpose);

/** A time of `ticks` of a clock with `before` ticks per second, by a clock with `after` ticks per second. It is rounded up to whole
 * ticks, and at most 2^64 - 1. `before` 0 counts as 1. Does not allocate. */
static inline uint64_t cpay_ticks_at(uint32_t before, uint32_t after, uint64_t ticks) {
    const uint64_t from = before ? before : 1, whole = ticks / from, part = (ticks % from * after + (from - 1)) / from;
    if (after && whole > (UINT64_MAX - part) / after) return UINT64_MAX;
    return whole * after + part;
}

/** Sets the number of ticks per second of your clock. The time for which a frame waits stays the same: `max_wait` gets its number
 * of ticks of the new clock (cpay_ticks_at). So settings by purpose serve each clock. CPAY_INVALID, and nothing changes:
 * `tick_rate` or that of the settings is 0. Does not allocate. */
static inline cpay_status cpay_receiver_settings_set_tick_rate(cpay_receiver_settings *settings, uint32_t tick_rate) {
    if (!tick_rate || !settings->tick_rate) return CPAY_INVALID;
    settings->max_wait = cpay_ticks_at(settings->tick_rate, tick_rate, settings->max_wait);
    settings->tick_rate = tick_rate;
    return CPAY_OK;
}

/** The settings `forward` and `backward` for a stream of at most `rate` packets per second: 12 s of packets ahead and 5 s behind.
 * They are at least 3000 and 1000, and at most 32760 and 13650 (2730 packets per second). A burst that is late by more packets
 * than `backward` is reported as a restart, so use the highest rate of the stream. */
#define CPAY_FORWARD_FOR(rate) ((uint16_t)((rate) >= 2730 ? 32760 : (rate) > 250 ? 12 * (rate) : 3000))
#define CPAY_BACKWARD_FOR(rate) ((uint16_t)((rate) >= 2730 ? 13650 : (rate) > 200 ? 5 * (rate) : 1000))

/** Creates a receiver in an empty handle. `no_media` lists payload types that share the stream's SSRC and numbers and carry none
 * of its media: telephone events beside audio, comfort noise, forward error correction. CPAY_INVALID: unsupported codec, `rate` or
 * `tick_rate` 0, or a payload type, limit, step, window or `from_keyframe` out of range. [m] */
CPAY_CHECKED cpay_status cpay_receiver_new(cpay_receiver *receiver, const cpay_receiver_settings *settings,
                                           const uint8_t *no_media, size_t no_media_len);

/** The outcome of a datagram. */
typedef enum {
    CPAY_HELD = 0,             /**< stored */
    CPAY_HELD_AND_EVICTED = 1, /**< stored, but there was no room: the packet with the lowest number was evicted, which can be
                                    this one */
    CPAY_DUPLICATE = 2,        /**< dropped: a packet with this number is already held */
    CPAY_LATE = 3,             /**< dropped: its number was already released, discarded or evicted */
    CPAY_SUSPECT = 4,          /**< its number is outside the windows, arrived before with another RTP time, or is below the first
                                    number with an RTP time that does not fit; it is kept aside until another suspect packet or
                                    a restart. Or it is of the former sender after a restart, and was dropped */
    CPAY_RESTARTED = 5,        /**< the sender has restarted: this packet and the suspect packet before it were stored */
    CPAY_RESTARTED_ALONE = 6,  /**< the sender has restarted, and only this packet was stored: the packet before it had no media,
                                    or you called cpay_receiver_restart */
    CPAY_NO_MEDIA = 7,         /**< padding only, a payload type without media, a retransmission without payload, RED whose primary
                                    block has another type, or a packet whose RTP time a stored block of RED has; no frame waits
                                    for its number */
    CPAY_OTHER_STREAM = 8,     /**< another SSRC or payload type; ignored */
    CPAY_RTCP = 9,             /**< RTCP on the same port; ignored */
    CPAY_UNDECIDED = 10        /**< the stream is not chosen yet: the datagram is kept until it is */
} cpay_outcome;

/** Processes one datagram received at time `now`, in ticks of your clock, and reports its outcome: CPAY_HELD and so on. Any
 * bytes are accepted.
 * CPAY_RTP_HEADER_TOO_SHORT to CPAY_RTP_PADDING_TOO_LONG: not an RTP packet. CPAY_RED_CORRUPTED: invalid RED.
 * CPAY_RTX_TOO_SHORT: a retransmission without its original number. In these cases the datagram is counted as malformed,
 * *outcome is unchanged, and the stream continues. For a RED packet the outcome describes its primary block.
 *
 * If the settings name no SSRC, the first packet of each of up to four SSRCs waits (CPAY_UNDECIDED). The first two packets of
 * one SSRC whose numbers are 1 to 100 apart, in either direction, choose the stream. The waiting packet is then received first,
 * with its own receive time, and then this one; the other waiting packets count as other streams. If no packet of the
 * stream arrives for two seconds (by `tick_rate`), packets of other SSRCs wait again, and two of them choose again, as after
 * cpay_receiver_restart.
 *
 * CPAY_OUT_OF_MEMORY: nothing changed, and you may pass the same datagram again. Two exceptions:
 * - A RED packet was stored, but memory ran out for a redundant block. Passed again, it is a duplicate, and its redundant blocks
 *   are stored.
 * - This packet chooses the stream, and memory ran out for it alone. The waiting packet was received, and the stream is chosen. If
 *   memory runs out for the waiting packet, nothing changed, and a stream that was silent is still the chosen one. [m] */
CPAY_CHECKED cpay_status cpay_receiver_receive(cpay_receiver *receiver, uint64_t now, const uint8_t *datagram,
                                               size_t datagram_len, cpay_outcome *outcome);

/** Returns the next unit, or the next frame without one, that is due at time `now`. Call it until CPAY_NONE. CPAY_TOO_SMALL: *unit
 * is written, and the unit waits for the next call. CPAY_OUT_OF_MEMORY: the frame stays, and the next call tries it again.
 * With CPAY_OK look at `fault` of *unit first. 1 to 16: the depacketizer refused a frame. CPAY_UNIT_TOO_LARGE: a unit is above
 * `max_unit`. In both cases it is discarded, and there are no bytes. Any peer can send such a frame: count it, and continue with
 * the next call. 0: a unit. Its `rtp_time` is extended to 64 bits. The
 * first unit has the timestamp of its packets plus 2^32; each later unit has the value nearest to the previous unit's.
 * With CPAY_KEYFRAME_DROP the call continues after a unit that a decoder cannot show. [m] */
CPAY_CHECKED cpay_status cpay_receiver_pop(cpay_receiver *receiver, uint64_t now, cpay_unit *unit, uint8_t *bytes,
                                           size_t bytes_len);

/** Does the same as cpay_receiver_pop with room for any unit, and lends the bytes of the unit instead of copying them. `*at` is
 * where they are, in the receiver's memory: `unit->bytes` bytes, of which read none if that is 0. They stay there until the next
 * cpay_receiver_lend or cpay_receiver_pop with this receiver, which may move or free them, or until cpay_receiver_free. No other
 * call changes them. Never write them. A unit that waits since cpay_receiver_pop returned CPAY_TOO_SMALL is lent first. With
 * `fault` of *unit set, with CPAY_NONE and with CPAY_OUT_OF_MEMORY nothing is lent and *at is unchanged; bytes that it still points
 * to are lent no longer. [m] */
CPAY_CHECKED cpay_status cpay_receiver_lend(cpay_receiver *receiver, uint64_t now, cpay_unit *unit, const uint8_t **at);

/** Reports the header extension values of the unit that cpay_receiver_pop or cpay_receiver_lend returned last. They come from the
 * last packet of the unit. Capture time and layers allocation come from the first packet, if it has them. CPAY_NONE: no unit was
 * returned yet. Does not allocate. */
CPAY_CHECKED cpay_status cpay_receiver_values(cpay_receiver *receiver, cpay_extension_values *values);

/** Reports whether to request a keyframe (by PLI, RFC 4585, section 6.3.1, or FIR, RFC 5104, section 4.3.1). True from one of these
 * events until a pop returns a keyframe:
 * - a pop found a unit that a decoder cannot show;
 * - a pop gave a refused frame or a unit above `max_unit`;
 * - a pop returned CPAY_NONE and discarded complete frames, as after a backward jump of picture ids;
 * - you called cpay_receiver_restart.
 * A unit of VP8 above the base layer is not such a unit, if a decoder can show its base unit. A unit of that
 * base layer that a decoder can show ends the need too. False for audio, and with CPAY_KEYFRAME_OFF. Does not allocate. */
CPAY_CHECKED cpay_status cpay_receiver_wants_keyframe(cpay_receiver *receiver, bool *wants);

/** Reports the time at which a pop may return a unit although no datagram arrives: 0 while a unit waits that did not fit
 * (CPAY_TOO_SMALL). CPAY_NONE: only a datagram can help. */
CPAY_CHECKED cpay_status cpay_receiver_next_deadline(cpay_receiver *receiver, uint64_t *at);

/** How long frames wait for missing packets. */
typedef struct {
    uint64_t max_wait; /**< with has_max_wait: the first complete frame is released once this number of ticks of your clock has
                            passed since its last packet was received; frames behind it wait with it */
    size_t hold_back;  /**< a complete frame after a gap is released once more than this many complete frames are held.
                            CPAY_NO_HOLD_BACK: no frame is released by count alone */
    size_t start;      /**< the first frame is released once more than this many complete frames are held */
    bool has_max_wait;
} cpay_wait_limits;

/** Replaces the wait limits of a running receiver. Held packets stay, and this call releases nothing: the next pop and the next
 * deadline use the new limits. Shorter waits can make frames due at once; longer waits can delay frames that were due. After the
 * first unit, `start` has no effect. */
CPAY_CHECKED cpay_status cpay_receiver_set_wait_limits(cpay_receiver *receiver, const cpay_wait_limits *wait_limits);

/** Ends the stream: from now on pops wait for nothing, and return all complete frames. Packets within the windows are still
 * accepted; restarts are not detected until cpay_receiver_restart. If no SSRC was chosen yet, the first waiting packet chooses
 * it. CPAY_OUT_OF_MEMORY: the packets still wait; call again. [m] */
CPAY_CHECKED cpay_status cpay_receiver_finish(cpay_receiver *receiver);

/** Announces that the sender has restarted, as signalling or a new SSRC shows. The next packet of the stream gets a number above
 * all others, pops wait again, and a keyframe is needed. If the settings name no SSRC, two packets choose it again; waiting
 * packets count as other streams. */
CPAY_CHECKED cpay_status cpay_receiver_restart(cpay_receiver *receiver);

/** Does the same if you know the new SSRC, which the receiver accepts from then on: packets of the previous SSRC belong to
 * another stream. `rtx_ssrc` is the new SSRC of retransmissions; without has_rtx in the settings it is ignored. */
CPAY_CHECKED cpay_status cpay_receiver_restart_as(cpay_receiver *receiver, uint32_t ssrc, uint32_t rtx_ssrc);

/** Reports the missing sequence numbers. Writes as many as fit to `numbers`, lowest first, and the number of them to *count. The
 * rest of `numbers` is unchanged. If *count is numbers_len, more can be missing.
 * The missing numbers are above the last one released, discarded or evicted, above the lowest one received since the start or
 * restart, and below the highest one received. Held packets, and packets known to carry no media, are not missing. The numbers
 * are extended; their low 16 bits go into a generic NACK (RFC 4585, section 6.2.1). */
CPAY_CHECKED cpay_status cpay_receiver_missing(cpay_receiver *receiver, uint64_t *numbers, size_t numbers_len, size_t *count);

/** The fields of a receiver report (RFC 3550, section 6.4.1 and appendix A). */
typedef struct {
    int32_t cumulative_lost; /**< packets expected minus packets received, duplicates included: a signed 24-bit value */
    uint32_t highest;        /**< highest sequence number in the low 16 bits, and the number of wraps above them */
    uint32_t jitter;         /**< interarrival jitter, in ticks of the RTP clock */
    uint8_t fraction_lost;   /**< fraction of packets lost since the previous report, in 1/256 */
} cpay_report_info;

/** Reports on the packets of the stream's sender as they arrived, and starts the next interval of `fraction_lost`. CPAY_NONE: no
 * packet arrived yet. */
CPAY_CHECKED cpay_status cpay_receiver_report(cpay_receiver *receiver, cpay_report_info *report);

/** Counters of datagrams by outcome, modulo 2^64. `received` plus `recovered` is always the sum of rtcp, malformed,
 * other_streams, undecided, no_media, duplicates, late, suspect, evicted, held, released and left. */
typedef struct {
    uint64_t received;
    uint64_t rtcp;
    uint64_t malformed; /**< neither RTCP nor RTP, or an invalid RED payload or retransmission */
    uint64_t other_streams; /**< another SSRC or payload type, and waiting packets that are not of the chosen stream */
    uint64_t undecided;     /**< packets that wait for the choice of the stream: at most 4 */
    uint64_t no_media;
    uint64_t duplicates;
    uint64_t late;
    uint64_t suspect;
    uint64_t evicted;
    uint64_t released; /**< packets released in a unit */
    uint64_t left;     /**< packets discarded with a frame: incomplete + skipped + refused */
    uint64_t incomplete; /**< discarded packets of frames that were never complete: packets were lost, or came too late */
    uint64_t skipped;    /**< discarded packets of complete frames whose picture ids of VP8 or VP9 are too old */
    uint64_t refused;    /**< discarded packets of frames that the depacketizer refused, since the sender's payloads are not valid,
                              and of units above `max_unit` */
    uint64_t restarts; /**< restarts of the sender */
    uint64_t retransmitted; /**< missing packets filled in by retransmissions */
    uint64_t recovered;     /**< missing packets filled in by redundant blocks of RED; they are not in `received` */
    uint64_t units;
    uint64_t undecodable; /**< units of video that a decoder cannot show; they are in `units`, also if they were dropped */
    uint64_t too_large;   /**< units above `max_unit`; they are not in `units` */
    size_t held;   /**< packets held now */
    uint32_t ssrc; /**< with has_ssrc: SSRC of the stream; otherwise 0 */
    bool has_ssrc;
    bool waiting; /**< a unit waits for a larger output buffer; its packets are in `released` */
} cpay_receiver_counts_info;

/** Reports the counters of a receiver. Allocates nothing. */
CPAY_CHECKED cpay_status cpay_receiver_counts(cpay_receiver *receiver, cpay_receiver_counts_info *counts);

/* ---- An adaptive wait: a limit of waiting that follows how late missing packets arrive ---- */

/** Within which bounds the limit moves, in ticks of your clock. Any values are accepted. Begin with
 * cpay_adaptive_wait_settings_init. */
typedef struct {
    uint64_t shortest;   /**< the lowest limit */
    uint64_t longest;    /**< the highest limit; if it is below `shortest` or `first`, it wins */
    uint64_t first;      /**< the lowest limit while fewer than 8 missing packets arrived or were lost */
    uint64_t lost_after; /**< a packet that is missing for this number of ticks is lost. It then counts as a packet that arrived at
                              once, since waiting longer would not have helped */
} cpay_adaptive_wait_settings;

/** Sets how an adaptive wait begins, for a clock of milliseconds: 20 ms to 400 ms, at first at least 200 ms; a packet is lost after
 * 1 s. Does not allocate. */
void cpay_adaptive_wait_settings_init(cpay_adaptive_wait_settings *settings);

/** Creates the limit of one stream in an empty handle. The limit is 5/4 of the greatest of the latest 32 ages, within the bounds.
 * The age of a missing packet is the time from the first report that it is missing until its arrival. If missing packets never
 * arrive, the limit falls to `shortest`. The latest 64 missing packets are followed. examples/waits.c has the loop around a
 * session. It takes about 2 kB. [m] */
CPAY_CHECKED cpay_status cpay_adaptive_wait_new(cpay_adaptive_wait *wait, const cpay_adaptive_wait_settings *settings);

/** Records that a packet arrived at time `now`. `number` is its sequence number; for a retransmission (RFC 4588) it is the original
 * number. If the packet was missing, its age is noted. Does not allocate. */
CPAY_CHECKED cpay_status cpay_adaptive_wait_arrived(cpay_adaptive_wait *wait, uint64_t now, uint16_t number);

/** Records at time `now` that packets are missing: the numbers that cpay_receiver_missing wrote. A number that is not above all
 * numbers before it changes nothing, so you may pass all missing numbers again and again. Does not allocate. */
CPAY_CHECKED cpay_status cpay_adaptive_wait_missing(cpay_adaptive_wait *wait, uint64_t now, const uint64_t *numbers,
                                                    size_t numbers_len);

/** Reports the limit in ticks: the `max_wait` for cpay_receiver_set_wait_limits, or for cpay_session_set_wait_limits. Does not
 * allocate. */
CPAY_CHECKED cpay_status cpay_adaptive_wait_limit(cpay_adaptive_wait *wait, uint64_t *limit);

/* ---- Freezes: how often and how long a viewer saw a picture stand still ---- */

/** Creates a counter of the freezes of a video in an empty handle (W3C, webrtc-stats, `freezeCount` and `totalFreezesDuration`),
 * for a clock with `tick_rate` ticks per second. The duration of a frame is the time until the next one is shown. It is a freeze if
 * it is at least three times the average, and at least 150 ms above the average. The average is over the durations of the last 30
 * frames, with the one that is judged; of the first frames, over those that there are. It takes about 300 bytes. CPAY_INVALID:
 * `tick_rate` is 0. [m] */
CPAY_CHECKED cpay_status cpay_freezes_new(cpay_freezes *freezes, uint32_t tick_rate);

/** Records that a frame is shown at time `at`, or that your receiver releases it. Any times are accepted: after a time below the
 * one before, the duration is 0. Does not allocate. */
CPAY_CHECKED cpay_status cpay_freezes_shown(cpay_freezes *freezes, uint64_t at);

/** The counts of freezes, each modulo 2^64. */
typedef struct {
    uint64_t freezes; /**< `freezeCount`: how many frames were frozen */
    uint64_t frozen;  /**< how long these frames were shown, in ticks: `totalFreezesDuration`, which is in seconds */
} cpay_freeze_counts_info;

/** Reports the counts. Does not allocate. */
CPAY_CHECKED cpay_status cpay_freezes_counts(cpay_freezes *freezes, cpay_freeze_counts_info *counts);

/* ---- Congestion control: when the packets of a transport arrived, and the largest bitrate ---- */

/** How the arrivals of a transport are reported. Begin with cpay_transport_reporter_settings_init. */
typedef struct {
    uint64_t interval;    /**< number of ticks between two feedbacks: 50 to 250 ms suit video; 0 counts as 1 */
    size_t size;          /**< maximum number of bytes of the control information of a feedback, which comes after 20 bytes of the
                               packet and, with has_report, after the report and the name. At least one number is reported */
    size_t window;        /**< how many numbers are remembered, 1 to 32768: 8 bytes each. 500 ms of packets suit */
    uint32_t tick_rate;   /**< ticks per second of your clock, above 0. Arrivals are reported in quarters of a millisecond: whole
                               milliseconds suffice, and a clock of microseconds is better */
    uint32_t ssrc;        /**< SSRC of the reporter as a sender of RTCP */
    uint8_t extension_id; /**< id of the header extension with the transport-wide number, 1 to 255: `a=extmap` with
                               `http://www.ietf.org/id/draft-holmer-rmcat-transport-wide-cc-extensions-01` */
    bool has_report;      /**< each packet begins with an empty receiver report and the name (RFC 3550, section 6.1); else it has
                               reduced size (RFC 5506), which browsers accept */
} cpay_transport_reporter_settings;

/** Sets how a reporter begins, for a clock of milliseconds: a feedback of at most 1100 bytes each 100 ms about the last 2048
 * numbers, of reduced size. Does not allocate. */
void cpay_transport_reporter_settings_init(cpay_transport_reporter_settings *settings, uint8_t extension_id, uint32_t ssrc);

/** Creates a reporter in an empty handle. It reports when each packet of a transport arrived, as the congestion control of a
 * browser needs it (draft-holmer-rmcat-transport-wide-cc-extensions-01). It is for one transport, that is one peer: the numbers
 * count all packets that this peer sends. `cname` is the canonical name of the reporter (RFC 3550, section 6.5.1), at most 255
 * bytes; without has_report it is not sent. The name is copied. Do not accept `transport-cc` in an answer unless you send this
 * feedback: docs/use/FEEDBACK.md. CPAY_INVALID: `tick_rate` or `extension_id` 0, `window` out of range, or a longer name. [m] */
CPAY_CHECKED cpay_status cpay_transport_reporter_new(cpay_transport_reporter *reporter,
                                                     const cpay_transport_reporter_settings *settings, const uint8_t *cname,
                                                     size_t cname_len);

/** Records that a datagram arrived at time `now`, in ticks of your clock. Pass each datagram of the transport: media,
 * retransmissions, padding, unknown payload types, duplicates. Any bytes are accepted. A datagram that is not an RTP packet, or
 * that has no number, changes nothing. The first time of a number counts, and a number before the window is ignored. A number that
 * was reported as missing is reported again, with all numbers after it. CPAY_OUT_OF_MEMORY: nothing changed. [m] */
CPAY_CHECKED cpay_status cpay_transport_reporter_receive(cpay_transport_reporter *reporter, uint64_t now,
                                                         const uint8_t *datagram, size_t datagram_len);

/** Writes the packet that is due at time `now`, a compound packet of RTCP for the peer, to the output buffer, and its size to
 * *size: send it. Call it until CPAY_NONE, after each datagram and at each deadline: a feedback that is larger than the setting
 * `size` is split, and its parts are due at once. CPAY_NONE: nothing is due. CPAY_TOO_SMALL: *size is written, and the packet waits
 * for the next call. CPAY_OUT_OF_MEMORY: the feedback stays due. [m] */
CPAY_CHECKED cpay_status cpay_transport_reporter_poll(cpay_transport_reporter *reporter, uint64_t now, uint8_t *bytes,
                                                      size_t bytes_len, size_t *size);

/** Reports when the next packet is due: `interval` after the last feedback. It is 0 before the first feedback, while parts of a
 * feedback are left, or while a packet waits that did not fit. CPAY_NONE: everything is reported. Does not allocate. */
CPAY_CHECKED cpay_status cpay_transport_reporter_next_deadline(cpay_transport_reporter *reporter, uint64_t *at);

/** Forgets all numbers, and the packet that waits: the peer begins again. Without this call numbers behind the window are ignored
 * until they pass the highest one. */
CPAY_CHECKED cpay_status cpay_transport_reporter_restart(cpay_transport_reporter *reporter);

/** Creates the counter of a transport on which you send in an empty handle. Its first number is 0. The times of the last `limit`
 * packets are remembered, 1 to 32768, 8 bytes each: those of the round-trip time and of the interval between two feedbacks suit.
 * One counter serves all streams of a transport, their retransmissions and padding. CPAY_INVALID: `limit` out of range. [m] */
CPAY_CHECKED cpay_status cpay_sent_packets_new(cpay_sent_packets *packets, size_t limit);

/** Counts the next packet of the transport, which is sent at time `now`, and writes its number, for cpay_number_datagram.
 * CPAY_OUT_OF_MEMORY: nothing changed, and the number is not used. [m] */
CPAY_CHECKED cpay_status cpay_sent_packets_assign(cpay_sent_packets *packets, uint64_t now, uint16_t *number);

/** Reports when the packet with this number was sent. CPAY_NONE: it is not among the remembered packets. Does not allocate. */
CPAY_CHECKED cpay_status cpay_sent_packets_sent_at(cpay_sent_packets *packets, uint16_t number, uint64_t *at);

/** Writes a copy of a datagram with this transport-wide number in its header extension, under this id, 1 to 255, and its size to
 * *size. Elements with other ids stay, in their order, and the number is the last one; an element with the same id is replaced. All
 * else of the packet stays, and the bytes of padding become 0. The datagram grows by at most 8 bytes; if an id above 14 needs the
 * two-byte form (RFC 8285), by one more for each other element. Call it before SRTP encrypts the datagram. CPAY_TOO_SMALL: *size is
 * written. CPAY_RTP_HEADER_TOO_SHORT to CPAY_RTP_PADDING_TOO_LONG: not an RTP packet. CPAY_EXTENSION_PROFILE: its extension has no
 * elements. CPAY_EXTENSION_ROOM: its extension would be longer than 65535 words, or the id is 0. [m] */
CPAY_CHECKED cpay_status cpay_number_datagram(uint8_t extension_id, uint16_t number, const uint8_t *datagram, size_t datagram_len,
                                              uint8_t *bytes, size_t bytes_len, size_t *size);

/** What a transport-wide feedback reports on. */
typedef struct {
    size_t count;         /**< how many numbers it reports on, one after another */
    uint32_t sender_ssrc; /**< SSRC of the sender of the feedback */
    uint32_t media_ssrc;  /**< SSRC of any stream of the transport */
    uint16_t base;        /**< the first number */
    uint8_t counter;      /**< the number of the feedback, modulo 256 */
} cpay_transport_feedback_info;

/** What a transport-wide feedback says about a packet. */
typedef struct {
    uint32_t time;   /**< when it arrived, in quarters of a millisecond of the receiver's clock, modulo 2^32; 0 if it did not */
    uint16_t number; /**< its transport-wide number: see cpay_sent_packets_sent_at */
    bool arrived;    /**< false: it is missing so far */
} cpay_packet_arrival;

/** Reads transport-wide feedback number `index`, from 0, of one datagram of RTCP: what it says about each packet goes to `packets`,
 * in the order of the numbers. `full` is as for cpay_read_requests. With CPAY_OK, elements after the first `count` are unchanged.
 * CPAY_NONE: the datagram has no feedback with this index. CPAY_TOO_SMALL: `packets` is too short; *info is written.
 * CPAY_RTCP_HEADER_TOO_SHORT to CPAY_RTCP_FIR_LENGTH: not a compound RTCP packet. CPAY_TRANSPORT_HEADER_TOO_SHORT to
 * CPAY_TRANSPORT_DELTAS_TOO_SHORT: the first fault of the feedback; others in the datagram may be read. Any peer can make it
 * allocate 600 kB for the time of the call. [m] */
CPAY_CHECKED cpay_status cpay_read_transport_feedback(const uint8_t *rtcp, size_t rtcp_len, bool full, size_t index,
                                                      cpay_transport_feedback_info *info, cpay_packet_arrival *packets,
                                                      size_t packets_len);

/** Writes a packet of REMB to the output buffer, and its size to *size: 20 bytes, and 4 for each SSRC. It asks the sender of these
 * streams, at most 255, to send at most this bitrate together (draft-alvestrand-rmcat-remb-03). The bitrate, in bits per second, is
 * rounded down to 18 binary digits. The packet has no padding, and may stand anywhere in a compound packet. CPAY_TOO_SMALL: *size
 * is written. CPAY_INVALID: more than 255 SSRCs. [m] */
CPAY_CHECKED cpay_status cpay_write_remb(uint32_t sender_ssrc, uint64_t bitrate, const uint32_t *ssrcs, size_t ssrcs_len,
                                         uint8_t *bytes, size_t bytes_len, size_t *size);

/** Reads application layer feedback number `index`, from 0, of one datagram of RTCP, as REMB. `full` is as for cpay_read_requests.
 * The SSRCs go to `ssrcs`, as many as fit; the rest is unchanged. *count is how many there are, at most 255. *bitrate is in bits
 * per second. CPAY_NONE: the datagram has no such feedback with this index. CPAY_RTCP_HEADER_TOO_SHORT to CPAY_RTCP_FIR_LENGTH: not
 * a compound RTCP packet. CPAY_REMB_TOO_SHORT to CPAY_REMB_SOURCES_TOO_SHORT: this feedback is not REMB; another one in the
 * datagram may be. Does not allocate. */
CPAY_CHECKED cpay_status cpay_read_remb(const uint8_t *rtcp, size_t rtcp_len, bool full, size_t index, uint64_t *bitrate,
                                        uint32_t *ssrcs, size_t ssrcs_len, size_t *count);

/* ---- The path to a viewer: what leaves now, what may be retransmitted, and which layers fit ---- */

/** How the path to a viewer is used. Rates are in bits per second, times in microseconds. */
typedef struct {
    uint64_t start;       /**< estimate of the path at the beginning: 300000 by default */
    uint64_t least;       /**< no estimate is below this rate: 50000 by default */
    uint64_t most;        /**< no estimate is above this rate: 10000000 by default */
    size_t choice;        /**< index of the choice of layers at the beginning: 0 by default */
    uint64_t bound;       /**< the most bytes that wait: 250000 by default, a second at 2 Mbit/s */
    uint64_t pause;       /**< how long the choice does not rise after a fall: 2000000 by default */
    uint64_t half_window; /**< half of the time whose sent bytes count for retransmissions: 500000 by default; 0 counts as 1 */
    uint32_t share;       /**< in thousandths: the most bytes that are retransmitted, of those that are sent: 250 by default */
    uint32_t burst;       /**< bytes that may leave at once, before one packet more: 2500 by default */
} cpay_path_settings;

/** What a packet is for: the field `kind` of a cpay_path_packet. Packets of a kind leave before those of the kinds below it. */
typedef enum {
    CPAY_PATH_AUDIO = 0,
    CPAY_PATH_RESENT = 1, /**< a retransmission: a frame waits for it */
    CPAY_PATH_MEDIA = 2,  /**< video that is sent for the first time */
    CPAY_PATH_PADDING = 3 /**< padding, which fills the rate of a trial */
} cpay_path_kind;

/** A packet that waits to leave. */
typedef struct {
    uint64_t id;         /**< your name of the packet, for example its index among your packets; it is not interpreted */
    uint32_t size;       /**< its bytes, with the headers that the path carries */
    cpay_path_kind kind; /**< CPAY_PATH_AUDIO and so on */
} cpay_path_packet;

/** A packet that leaves now. */
typedef struct {
    cpay_path_packet packet;
    uint16_t number; /**< the transport-wide number for its header extension: see cpay_number_datagram */
} cpay_path_leaving;

/** One choice of what a viewer gets: for example a size of simulcast, and how many temporal layers of it. */
typedef struct {
    uint64_t rate;  /**< rate of all that is sent with it, in bits per second, as you measure it */
    uint64_t begin; /**< least rate to begin it, if it begins with a keyframe: one that carries the keyframe soon enough; or 0 */
} cpay_path_choice;

/** What a choice says. */
typedef struct {
    size_t choice;    /**< index of the choice of layers that the viewer gets */
    uint32_t padding; /**< how many bytes of padding to push now: a trial has to be filled; 0 without a trial */
    bool fell;        /**< the choice before had a higher index: remove what waits of its layers */
    bool rose;        /**< the choice before had a lower index */
} cpay_path_order_info;

/** The state of a path. */
typedef struct {
    uint64_t estimate; /**< estimate of the rate that the path carries, in bits per second */
    uint64_t waiting;  /**< how many bytes wait */
    size_t choice;     /**< index of the current choice */
} cpay_path_state_info;

/** Whether a packet may be retransmitted. */
typedef enum {
    CPAY_RESEND_NOW = 0,
    CPAY_RESEND_TOO_SOON = 1, /**< it was retransmitted less than a round trip ago: the request was sent before it could arrive */
    CPAY_RESEND_SHARE = 2,    /**< the share of what was sent is used up */
    CPAY_RESEND_TOO_MANY = 3  /**< 128 packets were retransmitted less than a round trip ago */
} cpay_resend_answer;

/** Sets the defaults. Does not allocate. */
void cpay_path_settings_init(cpay_path_settings *settings);

/** Creates the path to one viewer in an empty handle: a pacer, a limit of retransmissions, a choice of layers, and an estimate
 * of what the path carries. `now` is in microseconds of your clock, as in all calls on a path; times do not fall. Push the
 * packets of all streams of the viewer, send what cpay_path_pop returns with the number that it gets, hand in the viewer's
 * feedback, and ask cpay_path_choose each 10 ms or so which layers to forward. Allocates about 45 kB. [m] */
CPAY_CHECKED cpay_status cpay_path_new(cpay_path *path, uint64_t now, const cpay_path_settings *settings);

/** Stores a packet after those of its kind. CPAY_INVALID: no such kind. CPAY_QUEUE_FULL: with the packet more bytes than
 * `bound` would wait. CPAY_OUT_OF_MEMORY: nothing changed. [m] */
CPAY_CHECKED cpay_status cpay_path_push(cpay_path *path, const cpay_path_packet *packet);

/** Removes the packet that leaves now, and writes it with its transport-wide number: send it. Call it until CPAY_NONE. In `t`
 * seconds at a pace of `r` bits per second at most r * t / 8 + burst bytes leave, and one packet more. CPAY_NONE: nothing
 * waits, or the pace allows no packet yet. Does not allocate. */
CPAY_CHECKED cpay_status cpay_path_pop(cpay_path *path, uint64_t now, cpay_path_leaving *leaving);

/** Removes the first packet of a kind that waits, and writes it: it is not to leave any more. CPAY_INVALID: no such kind.
 * CPAY_NONE: no packet of this kind waits. Does not allocate. */
CPAY_CHECKED cpay_status cpay_path_remove(cpay_path *path, cpay_path_kind kind, cpay_path_packet *packet);

/** Reports the time from which on cpay_path_pop returns a packet: the time-out of your poll. CPAY_NONE: nothing waits, or the
 * pace is 0. Does not allocate. */
CPAY_CHECKED cpay_status cpay_path_next_deadline(cpay_path *path, uint64_t *deadline);

/** Asks whether the packet with this sequence number of its stream may be retransmitted now; then push it as CPAY_PATH_RESENT.
 * `size` is in bytes, `round_trip` that of the viewer. With CPAY_RESEND_NOW it counts as retransmitted; else nothing is
 * counted. If several reasons apply, the answer is the first in the order of cpay_resend_answer. Does not allocate. */
CPAY_CHECKED cpay_status cpay_path_resend(cpay_path *path, uint64_t now, uint16_t number, uint32_t size, uint64_t round_trip,
                                          cpay_resend_answer *answer);

/** Hands in transport-wide feedback number `index`, from 0, of one datagram of RTCP of the viewer: call it with 0, 1, .. until
 * CPAY_NONE. `full` is as for cpay_read_requests. Numbers that did not leave on this path change nothing. On each status except
 * CPAY_OK nothing changes. CPAY_NONE and the other statuses: as for cpay_read_transport_feedback. [m] */
CPAY_CHECKED cpay_status cpay_path_feedback(cpay_path *path, uint64_t now, uint64_t round_trip, const uint8_t *rtcp,
                                            size_t rtcp_len, bool full, size_t index);

/** Chooses layers, begins and fills trials, and sets the pace, which is never below the rate of the first choice and a
 * quarter. List the choices from the lowest to the highest; the chosen index is below `choices_len`, or 0. CPAY_OUT_OF_MEMORY:
 * nothing changed. [m] */
CPAY_CHECKED cpay_status cpay_path_choose(cpay_path *path, uint64_t now, const cpay_path_choice *choices, size_t choices_len,
                                          cpay_path_order_info *order);

/** Reports the estimate, the bytes that wait, and the current choice. Does not allocate. */
CPAY_CHECKED cpay_status cpay_path_state(cpay_path *path, cpay_path_state_info *state);

/** What a path knows, for statistics. */
typedef struct {
    uint64_t estimate;     /**< estimate of the rate that the path carries, in bits per second */
    uint64_t carries;      /**< what is left of it for first transmissions, in bits per second */
    uint64_t standing;     /**< how long packets wait in the queue of the path, in microseconds */
    uint64_t usual_losses; /**< share of packets that are lost usually, in thousandths */
    uint64_t trial_rate;   /**< rate that the trial under way goes to, in bits per second; 0 without one */
    bool has_trial;        /**< a trial of a higher rate is under way */
    bool is_draining;      /**< a queue is being emptied: the pace is 3/4 of the estimate */
} cpay_path_estimate_info;

/** Reports what the path knows. Does not allocate. */
CPAY_CHECKED cpay_status cpay_path_estimate(cpay_path *path, cpay_path_estimate_info *info);

/** Names the packets that transport-wide feedback number `index` of a datagram reports lost, by their transport-wide numbers in the
 * order of leaving. Call it before cpay_path_feedback with the same feedback: then each lost packet is named once, whatever later
 * feedback repeats. `full` is as for cpay_read_requests. *count is how many there are. CPAY_TOO_SMALL: `numbers` has less room, and
 * *count is written. CPAY_NONE and the other statuses: as for cpay_read_transport_feedback. The path is unchanged. [m] */
CPAY_CHECKED cpay_status cpay_path_lost(cpay_path *path, const uint8_t *rtcp, size_t rtcp_len, bool full, size_t index,
                                        uint16_t *numbers, size_t numbers_len, size_t *count);

/** Takes back the latest packet that cpay_path_pop wrote, if it has this number and you could not send it: the next packet gets
 * its number, and feedback has no gap. The packet still counts for the pace and for the share of retransmissions. CPAY_NONE:
 * another packet left after it, or feedback reported on it; nothing changed. Does not allocate. */
CPAY_CHECKED cpay_status cpay_path_take_back(cpay_path *path, uint16_t number);

/** How much may be retransmitted to a viewer. */
typedef struct {
    uint64_t half_window; /**< half of the time whose sent bytes count, in ticks of your clock: 500000 by default; 0 counts as 1 */
    uint32_t share;       /**< in thousandths: the most bytes that are retransmitted, of those that are sent: 250 by default */
} cpay_resend_limit_settings;

/** Sets the defaults, for a clock of microseconds. Does not allocate. */
void cpay_resend_limit_settings_init(cpay_resend_limit_settings *settings);

/** Creates a limit of retransmissions to one viewer in an empty handle, for callers without a path: a number is retransmitted
 * at most once in a round trip, and the bytes that are retransmitted are at most a share of those that were sent in the last
 * second. So requests cannot flood the path. Ask it before cpay_history_resend or cpay_forwarder_resend. Allocates about 2 kB.
 * [m] */
CPAY_CHECKED cpay_status cpay_resend_limit_new(cpay_resend_limit *limit, const cpay_resend_limit_settings *settings);

/** Counts a packet of this many bytes that is sent for the first time. Does not allocate. */
CPAY_CHECKED cpay_status cpay_resend_limit_sent(cpay_resend_limit *limit, uint64_t now, uint32_t size);

/** Asks whether the packet with this number may be retransmitted now, as cpay_path_resend does. Does not allocate. */
CPAY_CHECKED cpay_status cpay_resend_limit_ask(cpay_resend_limit *limit, uint64_t now, uint16_t number, uint32_t size,
                                               uint64_t round_trip, cpay_resend_answer *answer);

/* ---- The rate that is offered to a publisher ---- */

/** How a rate is offered to a publisher. Rates are in bits per second, from 0 to UINT64_MAX. */
typedef struct {
    uint64_t start; /**< estimate of the publisher's path at the beginning: 300000 by default */
    uint64_t least; /**< no estimate is below this rate: 50000 by default */
    uint64_t most;  /**< no estimate is above this rate: 10000000 by default */
    uint64_t wants; /**< what you want from the publisher: no offer is above it, 2500000 by default */
} cpay_rate_offer_settings;

/** Sets the defaults. Does not allocate. */
void cpay_rate_offer_settings_init(cpay_rate_offer_settings *settings);

/** Creates an offer of a rate to one publisher in an empty handle, for a session with REMB in place of transport-wide feedback:
 * what the publisher's path carries, and at most what you want. Note each packet of RTP that arrives, and send the rate of
 * cpay_rate_offer_take_due with cpay_write_remb. The estimate falls to what the path carries while packets wait in a queue.
 * While none waits, the publisher is offered a fifth more for 0.8 s; if it sends at least 84 percent of its rate then, the
 * estimate rises by that fifth. `now` is in microseconds of your clock in all calls on an offer. Allocates about 8 kB. [m] */
CPAY_CHECKED cpay_status cpay_rate_offer_new(cpay_rate_offer *offer, const cpay_rate_offer_settings *settings);

/** Notes a packet of `size` bytes that arrives now. `abs_send_time` is the value of its header extension
 * http://www.webrtc.org/experiments/rtp-hdrext/abs-send-time: seconds with 18 binary digits after the point, 24 bits; higher bits
 * are ignored. Does not allocate. */
CPAY_CHECKED cpay_status cpay_rate_offer_arrived(cpay_rate_offer *offer, uint64_t now, uint32_t abs_send_time, uint32_t size);

/** Notes a packet of `size` bytes that arrives now, and was sent at this time in microseconds of the publisher's clock: for
 * example its RTP time as 64 bits, times 1000000, by the clock rate. Use one of the two calls for all packets. Does not
 * allocate. */
CPAY_CHECKED cpay_status cpay_rate_offer_arrived_by(cpay_rate_offer *offer, uint64_t now, uint64_t sent, uint32_t size);

/** Notes that a packet is lost. Does not allocate. */
CPAY_CHECKED cpay_status cpay_rate_offer_lost(cpay_rate_offer *offer);

/** Sets what you want from the publisher, in bits per second: no later offer is above it. Does not allocate. */
CPAY_CHECKED cpay_status cpay_rate_offer_set_wants(cpay_rate_offer *offer, uint64_t wants);

/** Judges the path, each 50 ms at most, and writes the rate to offer now, in bits per second. One is due each second, and at once
 * if it changed by a thirty-second. Call it with each packet, or each 50 ms. `round_trip` is that of the publisher, in
 * microseconds. CPAY_NONE: no offer is due; *rate is unchanged. Does not allocate. */
CPAY_CHECKED cpay_status cpay_rate_offer_take_due(cpay_rate_offer *offer, uint64_t now, uint64_t round_trip, uint64_t *rate);

/* ---- Extended reports: the round trip of a receiver that sends nothing (RFC 3611) ---- */

/** What a peer has learned by extended reports. Initialise it with {0}. You may copy it; nothing is freed. */
typedef struct {
    uint64_t round_trip;   /**< with has_round_trip: the round trip by the latest answer, in ticks; else 0 */
    uint32_t peer_ssrc;    /**< with has_peer: the peer whose reference time the next report answers */
    uint32_t peer_last_rr; /**< with has_peer: the middle 32 bits of this time */
    uint32_t peer_arrived; /**< with has_peer: when it came, by your clock in units of 1/65536 s */
    uint8_t unanswered;    /**< how many reports were sent since the latest answer, at most 3 */
    bool has_round_trip;   /**< an answer came to one of the latest three reports */
    bool has_peer;         /**< a reference time waits for an answer */
} cpay_xr_exchange;

/** Takes one datagram of RTCP that came at time `now`, in ticks of a clock with `tick_rate` ticks per second, for your own
 * SSRC. *answered: it has an answer that gives a round trip. The latest answer and the latest reference time count; an
 * extended report with a fault is skipped. `full` is as for cpay_read_requests. CPAY_INVALID: `tick_rate` 0.
 * CPAY_RTCP_HEADER_TOO_SHORT to CPAY_RTCP_FIR_LENGTH: not a compound RTCP packet. Does not allocate. */
CPAY_CHECKED cpay_status cpay_xr_receive(cpay_xr_exchange *exchange, uint32_t ssrc, uint32_t tick_rate, uint64_t now,
                                         const uint8_t *rtcp, size_t rtcp_len, bool full, bool *answered);

/** Writes what a report that leaves at time `now` has to say: your reference time, in 20 bytes, and the answer to the
 * reference time that waits, in 24 bytes. Append these whole RTCP packets to each report that you send, and then call
 * cpay_xr_sent. CPAY_INVALID: `tick_rate` 0. CPAY_TOO_SMALL: *size is written. [m] */
CPAY_CHECKED cpay_status cpay_xr_write(const cpay_xr_exchange *exchange, uint32_t ssrc, uint32_t tick_rate, uint64_t now,
                                       uint8_t *bytes, size_t bytes_len, size_t *size);

/** Notes that the report was sent, and returns whether the round trip ends with it: three others had no answer. */
bool cpay_xr_sent(cpay_xr_exchange *exchange);

/* ---- Congestion control feedback about the sequence numbers of a stream (RFC 8888) ---- */

/** What congestion control feedback says about a stream. */
typedef struct {
    size_t count;         /**< how many packets it reports on, one after another; cpay_ccfb_write ignores it */
    uint32_t sender_ssrc; /**< SSRC of the sender of the feedback */
    uint32_t ssrc;        /**< SSRC of the stream */
    uint32_t timestamp;   /**< time of the report: the middle 32 bits of an NTP timestamp */
    uint16_t first;       /**< the first sequence number */
} cpay_ccfb_info;

/** What is reported about a packet. */
typedef struct {
    uint16_t offset; /**< how long before the report it arrived, in 1/1024 s, 0 to 8189; 8190: longer; 8191: unknown, or later */
    uint8_t ecn;     /**< its two ECN bits (RFC 3168): 0 to 3; 0 if they are unknown */
    bool arrived;    /**< false: it did not arrive, and the other fields are 0 */
} cpay_ccfb_packet;

/** Reads what congestion control feedback number `index` of one datagram of RTCP says about its stream number `stream`, both
 * from 0: one element of `packets` for each sequence number from `first` on. `full` is as for cpay_read_requests. With
 * CPAY_OK, elements after the first `count` are unchanged. CPAY_NONE: no feedback or no stream with this index.
 * CPAY_TOO_SMALL: `packets` is too short; *info is written. CPAY_RTCP_HEADER_TOO_SHORT to CPAY_RTCP_FIR_LENGTH: not a compound
 * RTCP packet. CPAY_CCFB_TOO_SHORT to CPAY_CCFB_METRICS_TOO_SHORT: the first fault of the feedback. Any peer can make it
 * allocate three times the size of the datagram for the time of the call. [m] */
CPAY_CHECKED cpay_status cpay_ccfb_read(const uint8_t *rtcp, size_t rtcp_len, bool full, size_t index, size_t stream,
                                        cpay_ccfb_info *info, cpay_ccfb_packet *packets, size_t packets_len);

/** Writes feedback about one stream, one element of `packets` for each sequence number from `first` on: a whole RTCP packet,
 * for any place in a compound packet. Its time is the moment of sending. CPAY_INVALID: more than 16384 packets, ECN bits above
 * 3, or an offset above 8191. CPAY_TOO_SMALL: *size is written. [m] */
CPAY_CHECKED cpay_status cpay_ccfb_write(const cpay_ccfb_info *info, const cpay_ccfb_packet *packets, size_t packets_len,
                                         uint8_t *bytes, size_t bytes_len, size_t *size);

/** Returns the offset of a packet that arrived at `time`, for a report at `now`, both in microseconds of one clock. */
uint16_t cpay_ccfb_offset(uint64_t now, uint64_t time);

/* ---- Forward error correction (ULPFEC, RFC 5109, in RED, RFC 2198) ---- */

/** What a packet of FEC protects. */
typedef struct {
    uint64_t mask; /**< 48 bits: bit 47 stands for sequence number `base`, bit 0 for the number 47 after it */
    size_t bytes;  /**< how many bytes after the fixed header of 12 bytes it protects of each packet, at most 65535 */
    uint16_t base; /**< sequence number of the first bit of the mask */
} cpay_fec_info;

/** Reads the payload of a packet of FEC, of an RTP packet or of a block of RED. CPAY_FEC_HEADER_TOO_SHORT to
 * CPAY_FEC_PAYLOAD_TOO_SHORT: the first fault. Does not allocate. */
CPAY_CHECKED cpay_status cpay_fec_read(const uint8_t *fec, size_t fec_len, cpay_fec_info *info);

/** Creates a store for the latest 512 packets of one stream in an empty handle. `bytes`: how much memory they may take in all;
 * a packet that is larger than the 512th part of it is not kept. Allocates 16 kB. [m] */
CPAY_CHECKED cpay_status cpay_packet_store_new(cpay_packet_store *store, size_t bytes);

/** Keeps a copy of a packet of the stream: a whole RTP packet before RED, at its sequence number modulo 512. Pass each one
 * that came, and each one that was rebuilt. CPAY_OUT_OF_MEMORY: nothing changed. [m] */
CPAY_CHECKED cpay_status cpay_packet_store_keep(cpay_packet_store *store, const uint8_t *packet, size_t packet_len);

/** Writes the only missing one of the packets that a packet of FEC protects: a whole RTP packet with this SSRC. For FEC of the
 * sender of these packets it is a packet that was sent, byte for byte. CPAY_NONE: none is missing, or several are, or the
 * result is not an RTP packet; try again once more packets came. CPAY_TOO_SMALL: *size is written. CPAY_FEC_HEADER_TOO_SHORT
 * to CPAY_FEC_PAYLOAD_TOO_SHORT: not a packet of FEC. The store stays as it is. [m] */
CPAY_CHECKED cpay_status cpay_packet_store_rebuild(cpay_packet_store *store, uint32_t ssrc, const uint8_t *fec, size_t fec_len,
                                                   uint8_t *bytes, size_t bytes_len, size_t *size);

/** Settings of a receiver of FEC. Each id is that of a header extension that the sender fills in after it made the FEC, as
 * a=extmap gives it; 0: not agreed on. A wrong id rebuilds wrong packets. Begin with { 0 }. */
typedef struct {
    size_t bytes;               /**< how much memory packets of media may take; a packet above the 512th part of it is not kept */
    uint32_t ssrc;              /**< SSRC of the media and of its FEC */
    uint8_t red_type;           /**< payload type of RED; above 127: none */
    uint8_t fec_type;           /**< payload type of ULPFEC; above 127: none */
    uint8_t transport_number;   /**< id of the transport-wide sequence number */
    uint8_t abs_send_time;      /**< id of abs-send-time */
    uint8_t transmission_offset; /**< id of toffset */
    uint8_t video_timing;       /**< id of video-timing */
} cpay_fec_receiver_settings;

/** Creates a receiver that rebuilds lost packets of one stream, in an empty handle. It keeps the latest 512 packets of media and 64
 * of FEC: at most 9/8 of `bytes` and 20 kB. Allocates 16 kB. [m] */
CPAY_CHECKED cpay_status cpay_fec_receiver_new(cpay_fec_receiver *receiver, const cpay_fec_receiver_settings *settings);

/** Takes a datagram of the stream as it came: media or FEC, in RED with one block or without RED. Others are ignored. Pass no
 * retransmissions: their header extensions differ. CPAY_OUT_OF_MEMORY: nothing changed. [m] */
CPAY_CHECKED cpay_status cpay_fec_receiver_receive(cpay_fec_receiver *receiver, const uint8_t *datagram, size_t datagram_len);

/** Writes a packet that was rebuilt: a whole RTP packet as it was before RED. Call it after each datagram: at most one packet is
 * rebuilt then. For FEC of the sender of these packets it is a packet that was sent, byte for byte, with zeros in the extensions of
 * the settings. CPAY_NONE: no packet can be rebuilt now. CPAY_TOO_SMALL: *size is written, and the next call returns the same
 * packet. CPAY_OUT_OF_MEMORY: nothing is lost; call it again. [m] */
CPAY_CHECKED cpay_status cpay_fec_receiver_next(cpay_fec_receiver *receiver, uint8_t *bytes, size_t bytes_len, size_t *size);

/** Drops all packets. Call it if the sender restarts. */
CPAY_CHECKED cpay_status cpay_fec_receiver_restart(cpay_fec_receiver *receiver);

/** A packet that is lent, in memory of a port or of a sender. */
typedef struct {
    const uint8_t *at; /**< where its bytes begin */
    size_t bytes;      /**< how many they are */
} cpay_lent_packet;

/** A payload type of media and that of its retransmissions (RFC 4588), as `a=fmtp:97 apt=96` names them. */
typedef struct {
    uint8_t media;          /**< payload type of the media, as blocks of RED have it */
    uint8_t retransmission; /**< payload type of its retransmissions without RED */
} cpay_retransmission_type;

/** Settings of a port with FEC. Payload types are 0 to 63 or 96 to 127 (RFC 5761, section 4), and each has one meaning. Each id
 * is that of a header extension that senders fill in after they made the FEC; 0: not agreed on. A wrong id rebuilds wrong
 * packets. cpay_sdp_fec_port reads all of them from a session description. */
typedef struct {
    size_t bytes;               /**< how much memory packets of media of a stream may take; a packet above the 512th part of it is
                                     not kept. Packets of FEC take at most an eighth of it more. 768000 by default */
    size_t max_streams;         /**< the largest number of streams, 1 to 256; 64 by default */
    uint8_t red_type;           /**< payload type of RED */
    uint8_t fec_type;           /**< payload type of ULPFEC, in RED or without it */
    uint8_t red_retransmission; /**< with has_red_retransmission: payload type of retransmissions whose `apt` is RED */
    bool has_red_retransmission; /**< packets in RED are retransmitted too */
    uint8_t transport_number;   /**< id of the transport-wide sequence number */
    uint8_t abs_send_time;      /**< id of abs-send-time */
    uint8_t transmission_offset; /**< id of toffset */
    uint8_t video_timing;       /**< id of video-timing */
} cpay_fec_port_settings;

/** Writes the defaults. Set the payload types, and the ids of the extensions that senders fill in late. */
void cpay_fec_port_settings_init(cpay_fec_port_settings *settings);

/** Creates a port in an empty handle: error correction for all streams in front of a session, a forwarder or receivers. A stream
 * is an SSRC, and begins with its first packet of RED or of ULPFEC. Each takes 16 kB then. If all `max_streams` places are
 * taken, a new stream replaces the first one, in the order in which they began, that may go. A stream may go if it has fewer
 * than 16 packets of media and of FEC each, or had no packet among the latest 16384 of all streams. If no stream may go, the
 * packets of the new one pass, and are not rebuilt.
 *
 * `retransmissions` lists each media with retransmissions; if a payload type of media is listed twice, the first entry counts.
 * CPAY_FEC_STREAMS, CPAY_FEC_PAYLOAD_TYPE, CPAY_FEC_TWO_MEANINGS: the first fault, `max_streams` before payload types. List the
 * payload type of ULPFEC in `no_media` of the session. [m] */
CPAY_CHECKED cpay_status cpay_fec_port_new(cpay_fec_port *port, const cpay_fec_port_settings *settings,
                                           const cpay_retransmission_type *retransmissions, size_t retransmissions_len);

/** Takes a datagram as it came. If another packet passes in its place, *passed becomes that packet. It is lent until the next
 * call of cpay_fec_port_receive or cpay_fec_port_free with this port. If the datagram passes as it is, *passed is unchanged. So
 * set *passed to the datagram before the call, and pass *passed to the session after it. Then call cpay_fec_port_next.
 *
 * - RED with one block of media becomes the packet as it was before RED (RFC 2198).
 * - A retransmission (RFC 4588) of such a packet becomes a retransmission of the packet before RED.
 * - FEC, in RED or without it, becomes a byte of padding under its number.
 * - All else passes as it is: RTCP, packets without RED, RED with several blocks, other bytes.
 *
 * CPAY_OUT_OF_MEMORY: nothing changed, except that the packet that was lent is lent no longer. [m] */
CPAY_CHECKED cpay_status cpay_fec_port_receive(cpay_fec_port *port, const uint8_t *datagram, size_t datagram_len,
                                               cpay_lent_packet *passed);

/** Lends a packet that was rebuilt: a whole RTP packet as it was before RED, with padding in the place of the extensions of the
 * settings. Pass it to the session. It is lent until cpay_fec_port_next returns another packet, or cpay_fec_port_free. Call
 * this after each datagram, until CPAY_NONE: no packet can be rebuilt now. A datagram tries at most two packets of FEC of its
 * stream, and rebuilds at most one packet. CPAY_OUT_OF_MEMORY: no packet is lost; call it again. [m] */
CPAY_CHECKED cpay_status cpay_fec_port_next(cpay_fec_port *port, cpay_lent_packet *packet);

/** Drops all packets of the stream with this SSRC. Call it if its sender restarts with other numbers. */
CPAY_CHECKED cpay_status cpay_fec_port_restart(cpay_fec_port *port, uint32_t ssrc);

/** Ends the stream with this SSRC, and frees its memory. It begins again with a packet of RED or of ULPFEC. */
CPAY_CHECKED cpay_status cpay_fec_port_end(cpay_fec_port *port, uint32_t ssrc);

/** How many packets there were, modulo 2^64. */
typedef struct {
    uint64_t media;   /**< packets of media that came, padding among them */
    uint64_t fec;     /**< packets of FEC that came */
    uint64_t rebuilt; /**< packets that were rebuilt */
} cpay_fec_counts_info;

/** Writes how many packets all streams had, also streams that ended. */
CPAY_CHECKED cpay_status cpay_fec_port_counts(cpay_fec_port *port, cpay_fec_counts_info *counts);

/** Writes how many packets the stream with this SSRC had since it began. CPAY_NONE: there is none. */
CPAY_CHECKED cpay_status cpay_fec_port_stream_counts(cpay_fec_port *port, uint32_t ssrc, cpay_fec_counts_info *counts);

/** Settings of a sender of FEC. `protection` and `keyframe_protection` are shares of FEC in 256ths. 0 makes none; each other
 * value makes at least one packet of FEC for each group of up to 48 packets. Each id is the id of a header extension that you
 * fill in after the packet was passed; 0: there is none. FEC protects zeros there. Begin with { 0 }. */
typedef struct {
    uint32_t ssrc;               /**< SSRC of the stream */
    uint16_t first_number;       /**< sequence number of the first packet */
    uint8_t red_type;            /**< payload type of RED, 0 to 127 */
    uint8_t fec_type;            /**< payload type of ULPFEC in RED, 0 to 127, another one */
    uint8_t protection;          /**< share for frames that are no keyframes */
    uint8_t keyframe_protection; /**< share for keyframes */
    uint8_t transport_number;    /**< id of the transport-wide sequence number */
    uint8_t abs_send_time;       /**< id of abs-send-time */
    uint8_t transmission_offset; /**< id of toffset */
    uint8_t video_timing;        /**< id of video-timing */
} cpay_fec_sender_settings;

/** Creates a sender in an empty handle, for use between a cpay_sender or a cpay_forwarder and the socket. It puts packets of one
 * stream in RED (RFC 2198), and writes FEC (RFC 5109) behind each frame. Media and FEC share the sequence numbers of the
 * stream: a packet has its own number, plus a constant, plus one for each packet of FEC below it. Keep what it writes in a
 * cpay_history. CPAY_FEC_PAYLOAD_TYPE, CPAY_FEC_TWO_MEANINGS: the first fault, `red_type` before `fec_type`. [m] */
CPAY_CHECKED cpay_status cpay_fec_sender_new(cpay_fec_sender *sender, const cpay_fec_sender_settings *settings);

/** Puts a packet of the media in RED with one block, under its number of the stream. *packet is the packet in RED, which is lent
 * until the next call of cpay_fec_sender_push or cpay_fec_sender_free with this sender. It has the header extension and the
 * CSRCs of the packet, and no padding. A packet without a payload, such as padding, gets its number, is not in RED, and is not
 * protected. *ends is whether the packet ends its frame: it has the marker and the highest number so far. Send the packet. If
 * *ends, then call cpay_fec_sender_finish_frame.
 *
 * The sender holds a copy of the packet for the FEC of its frame: 512 at most, and none if both shares are 0. A packet after
 * the FEC of its frame gets the number that was kept free for it, and is not protected. CPAY_RTP_HEADER_TOO_SHORT to
 * CPAY_RTP_PADDING_TOO_LONG: not an RTP packet. CPAY_FEC_PACKET_TOO_LARGE to CPAY_FEC_TOO_OLD: the first fault of the packet.
 * If the call fails, it uses no number, and the packet that was lent is lent no longer. [m] */
CPAY_CHECKED cpay_status cpay_fec_sender_push(cpay_fec_sender *sender, const uint8_t *datagram, size_t datagram_len,
                                              cpay_lent_packet *packet, bool *ends);

/** Makes the FEC for the packets since the last call, under the numbers after the highest one, and writes to *count how many
 * packets of FEC it is. They take the place of the FEC before. CPAY_OUT_OF_MEMORY: no number is used, and there is no FEC; call
 * it again. [m] */
CPAY_CHECKED cpay_status cpay_fec_sender_finish_frame(cpay_fec_sender *sender, bool keyframe, size_t *count);

/** Writes packet `place` of the latest FEC, from 0: a whole RTP packet of RED. Send them in order, behind the frame. CPAY_NONE:
 * there are no more. CPAY_TOO_SMALL: *size is written. Does not allocate. */
CPAY_CHECKED cpay_status cpay_fec_sender_packet(cpay_fec_sender *sender, size_t place, uint8_t *bytes, size_t bytes_len,
                                                size_t *size);

/** Changes the shares of protection, from the next FEC on. */
CPAY_CHECKED cpay_status cpay_fec_sender_protect(cpay_fec_sender *sender, uint8_t protection, uint8_t keyframe_protection);

/* ---- A session: all datagrams of a port in, the events of its streams out ---- */

/** A payload format of a port, as a=rtpmap and a=fmtp of a session description name it (RFC 8866, section 6). */
typedef struct {
    cpay_spec spec;           /**< `first_id`, `vp8_ids` and `vp9_flexible` are ignored */
    uint32_t red_step;        /**< with has_red: RTP timestamp increment per packet, 1 to 16383; 960 is 20 ms at 48 kHz */
    uint8_t payload_type;     /**< this one and the next three are 0 to 63 or 96 to 127: with a marker, packets of 64 to 95 look
                                   like RTCP (RFC 5761, section 4). Each payload type of a session has one meaning */
    uint8_t red_payload_type; /**< with has_red: payload type of RED */
    uint8_t rtx_payload_type; /**< with has_rtx: payload type of retransmissions */
    uint8_t red_rtx_payload_type; /**< with has_red_rtx: payload type of retransmitted RED packets: the one whose `apt` (RFC 4588,
                                       section 8.1) is `red_payload_type` */
    bool has_red;             /**< packets of the format may arrive in RED (RFC 2198) */
    bool has_rtx;             /**< packets of the format may be retransmitted under another SSRC (RFC 4588); see cpay_ssrc_pair */
    bool has_red_rtx;         /**< with has_red and has_rtx: RED packets may be retransmitted too; otherwise it is ignored, and
                                   `red_rtx_payload_type` is not checked */
    bool nack;                /**< its sender answers requests for missing packets: a=rtcp-fb with nack (RFC 4585, section 4.2) */
    bool pli;                 /**< its sender answers requests for keyframes: a=rtcp-fb with nack pli */
    bool fixed_wait;          /**< frames wait as the session's `audio` or `video` says, also with has_longest_wait. Without it, and
                                   without late_wait, waiting follows the round trip if the session has a `longest_wait` */
    bool late_wait;           /**< frames wait by how late missing packets arrive, within the session's `late`, as by a
                                   cpay_adaptive_wait for each stream, 1.9 kB; then `fixed_wait` is ignored */
} cpay_session_format;

/** Two SSRCs of one source, as a=ssrc-group:FID names them (RFC 5576, section 4.2). A session that requests packets also finds
 * pairs by the answers to its requests: see CPAY_ARRIVAL_UNASSOCIATED. */
typedef struct {
    uint32_t ssrc;     /**< SSRC of the stream */
    uint32_t rtx_ssrc; /**< SSRC of its retransmissions */
} cpay_ssrc_pair;

/** Who requests missing packets and keyframes and sends receiver reports, and when. Times are in ticks of your clock. */
typedef struct {
    uint64_t keyframe_interval; /**< least time between two requests of a stream for a keyframe; once the round trip is known, they
                                     are also one and a half round trips apart */
    uint64_t silence;           /**< a stream requests nothing once its latest datagram is older than this: nobody answers then */
    uint64_t first_wait;        /**< time from the moment that a number is first missing until its first request */
    uint64_t retry;             /**< time between two requests of a number until two requests were answered. Then it is 9/8 of the
                                     round trip and half of `first_wait`, within the next two times. It is always at most a
                                     quarter of the longest time for which a frame of the stream waits, but not below
                                     `shortest_retry` */
    uint64_t shortest_retry;    /**< least time between two requests of a number once the round-trip time is known */
    uint64_t longest_retry;     /**< largest time between them; if it is below `shortest_retry`, it wins */
    uint64_t longest_wait;      /**< with has_longest_wait: a frame waits as long as a request of one of its packets can still be
                                     answered: `first_wait`, and `tries` times the time between two requests. At least as long
                                     as `max_wait` of the settings, and at most this time. Until two requests were answered,
                                     video with nack waits for this time, and all else as the settings say. For a stricter
                                     delay, set it to that delay */
    uint64_t report_interval;   /**< with has_report_interval: time between two receiver reports of the session; 0 counts as 1. See
                                     CPAY_EVENT_REPORT */
    size_t max_report;          /**< largest number of bytes of a receiver report. If more streams are announced than blocks fit,
                                     they take turns (RFC 3550, section 6.1); one block is written also if it does not fit */
    size_t capacity;            /**< how many missing numbers of a stream are followed at most: the lowest */
    uint32_t tries;             /**< how often a number is requested at most; 0 requests nothing */
    uint32_t ssrc;              /**< SSRC of the session as a sender of RTCP */
    uint8_t cname[255];         /**< canonical name of the session (RFC 3550, section 6.5.1). Each compound packet has it: reports,
                                     and with has_report requests */
    uint8_t cname_len;          /**< bytes of the name, 1 to 255 */
    bool has_report;            /**< each packet of requests begins with an empty receiver report and the name (RFC 3550, section
                                     6.1); else it has reduced size (RFC 5506), which the other side has to accept */
    bool has_longest_wait;      /**< waiting follows the measured round trip */
    bool has_report_interval;   /**< the session sends receiver reports */
    bool extended;              /**< reports also measure the round trip (RFC 3611, sections 4.4 and 4.5), in 20 to 44 bytes: the
                                     answers count for all streams, in place of the answers to requests, until three reports in a
                                     row have none. The session answers the reference times of others too. Set by
                                     cpay_session_settings_init; in a struct that you fill yourself it is off */
} cpay_session_feedback;

/** How the arrivals of packets are reported to the sender, for its congestion control: transport-wide feedback
 * (draft-holmer-rmcat-transport-wide-cc-extensions-01). cpay_session_settings_init sets everything except the id. */
typedef struct {
    uint64_t interval;    /**< number of ticks between two feedbacks; 0 counts as 1. 100 by default: 50 to 250 ms suit video */
    size_t size;          /**< maximum size of the control information of a feedback in bytes; 1100 to begin with. A larger feedback
                               is split */
    size_t window;        /**< number of packets that are remembered, 1 to 32768, 8 bytes each; 2048 to begin with. A packet that
                               comes late is reported if it is among them */
    uint8_t extension_id; /**< id of the header extension with the transport-wide number (`a=extmap`), 1 to 255 */
} cpay_session_transport;

/** Ids of the header extensions that name streams (RFC 8285, section 5), 1 to 255; 0 means not negotiated, which is the default.
 * Two equal ids read the same element. */
typedef struct {
    uint8_t mid;          /**< `urn:ietf:params:rtp-hdrext:sdes:mid` (RFC 9143, section 15) */
    uint8_t rid;          /**< `urn:ietf:params:rtp-hdrext:sdes:rtp-stream-id` (RFC 8852, section 3) */
    uint8_t repaired_rid; /**< `urn:ietf:params:rtp-hdrext:sdes:repaired-rtp-stream-id` (RFC 8852, section 3) */
} cpay_stream_name_ids;

/** Begin with cpay_session_settings_init. */
typedef struct {
    cpay_wait_limits audio;   /**< how long frames of audio wait for missing packets */
    cpay_wait_limits video;   /**< how long frames of VP8, VP9 and AV1 wait for missing packets */
    cpay_adaptive_wait_settings late; /**< within which bounds frames of formats with late_wait wait */
    uint64_t idle_timeout;    /**< a stream ends once this number of ticks has passed since its last datagram */
    uint64_t bye_wait;        /**< a stream takes packets for this number of ticks after its BYE (RFC 3550, section 6.6), since
                                   packets may arrive after it */
    uint64_t probation;       /**< a stream is announced once this number of datagrams was accepted: a stray packet announces
                                   nothing. Duplicates, late and suspect packets do not count */
    size_t limit;             /**< maximum number of packets that a stream holds, 1 to 65536 */
    size_t max_unit;          /**< maximum size of a unit in bytes, or CPAY_NO_MAX_UNIT. A larger unit is CPAY_EVENT_FAULT, and
                                   counts as a refused frame: so no peer can choose how large your buffer must be */
    size_t max_streams;       /**< maximum number of streams, above 0; announced or not */
    uint32_t tick_rate;       /**< ticks per second of your clock, above 0 */
    uint8_t from_keyframe;    /**< what happens to video units that a decoder cannot show: CPAY_KEYFRAME_OFF, CPAY_KEYFRAME_MARK
                                   or CPAY_KEYFRAME_DROP */
    bool has_feedback;        /**< the session requests what its streams miss: see CPAY_EVENT_FEEDBACK */
    bool has_transport;       /**< the session reports when packets arrive: see CPAY_EVENT_TRANSPORT_FEEDBACK. Set it exactly if
                                   your session description accepts the header extension and `transport-cc`: a browser that finds
                                   them accepted and gets no feedback sends almost nothing. It works only with has_feedback, and for
                                   one peer: the numbers count all packets of one transport */
    cpay_session_feedback feedback;   /**< with has_feedback: see cpay_session_settings_feedback */
    cpay_extension_ids extension_ids; /**< for cpay_session_values; two equal ids read the same element */
    cpay_session_transport transport; /**< with has_transport */
    cpay_stream_name_ids name_ids;    /**< for cpay_session_names */
    uint8_t dependency_descriptor;    /**< id of the header extension with the dependency descriptor (AV1 RTP specification,
                                           appendix A), 1 to 255, which streams of VP8, VP9 and AV1 may have: `decodable` follows
                                           it. Set it exactly if your session description accepts the extension. 0: it is not read
                                           */
} cpay_session_settings;

/** Sets how a session begins, for a purpose (CPAY_FOR_LIVE and so on) and a clock of milliseconds. Audio waits as the purpose says,
 * and live video for at most 200 ms. A session has at most 64 streams of 4096 packets, and a unit at most 1048576 bytes. A stream
 * is announced with its second datagram, ends 30 s after its last one, and takes packets for 200 ms after its BYE. Units that a
 * decoder cannot show are marked. Nothing is requested, and no report is sent: see cpay_session_settings_feedback. Does not
 * allocate. */
void cpay_session_settings_init(cpay_session_settings *settings, cpay_purpose purpose);

/** Sets that the session sends feedback, as a sender of RTCP with this SSRC and this canonical name (RFC 3550, section 6.5.1). As
 * cpay_session_settings_init sets it, a missing number is requested after 10 ms and at most 6 times, if the format has `nack`. If
 * it has `pli`, a keyframe is requested at most once in 100 ms. Both go on for 2 s after the latest datagram of the stream. Waiting
 * follows the round trip, up to 1500 ms. A receiver report is sent each second. CPAY_INVALID: the name does not have 1 to 255
 * bytes.
 * Does not allocate. */
CPAY_CHECKED cpay_status cpay_session_settings_feedback(cpay_session_settings *settings, uint32_t ssrc, const uint8_t *cname,
                                                        size_t cname_len);

/** Sets the number of ticks per second of your clock. All times of the settings stay the same, those of `feedback` and `transport`
 * among them: each gets its number of ticks of the new clock (cpay_ticks_at). So settings by purpose serve each clock. Call it once
 * all times are set. CPAY_INVALID, and nothing changes: `tick_rate` or that of the settings is 0. Does not allocate. */
static inline cpay_status cpay_session_settings_set_tick_rate(cpay_session_settings *settings, uint32_t tick_rate) {
    uint64_t *const times[] = {
        &settings->audio.max_wait,            &settings->video.max_wait,           &settings->late.shortest,
        &settings->late.longest,              &settings->late.first,               &settings->late.lost_after,
        &settings->idle_timeout,              &settings->bye_wait,                 &settings->feedback.keyframe_interval,
        &settings->feedback.silence,          &settings->feedback.first_wait,      &settings->feedback.retry,
        &settings->feedback.shortest_retry,   &settings->feedback.longest_retry,   &settings->feedback.longest_wait,
        &settings->feedback.report_interval,  &settings->transport.interval,
    };
    if (!tick_rate || !settings->tick_rate) return CPAY_INVALID;
    for (size_t i = 0; i < sizeof times / sizeof *times; i++)
        *times[i] = cpay_ticks_at(settings->tick_rate, tick_rate, *times[i]);
    settings->tick_rate = tick_rate;
    return CPAY_OK;
}

/** In `no_media` of cpay_session_new: added to the payload type of telephone events (RFC 4733), see CPAY_EVENT_TELEPHONE. */
#define CPAY_TELEPHONE 128

/** Creates a session in an empty handle, for these payload formats. `no_media` lists payload types that share the SSRC and the
 * numbers of a stream and carry none of its media: comfort noise, error correction. A payload type plus CPAY_TELEPHONE is one of
 * telephone events beside audio: polls report its packets. `pairs` names the SSRCs of retransmissions. The lists are copied.
 * CPAY_INVALID: unsupported codec, a rate, payload type, step, `limit`, `max_streams` or `from_keyframe` out of range, a payload
 * type with two meanings, or with has_feedback no name: cpay_session_settings_check says which. [m] */
CPAY_CHECKED cpay_status cpay_session_new(cpay_session *session, const cpay_session_settings *settings,
                                          const cpay_session_format *formats, size_t formats_len, const uint8_t *no_media,
                                          size_t no_media_len, const cpay_ssrc_pair *pairs, size_t pairs_len);

/** What is wrong with a setting. The settings are checked in this order: CPAY_SETTINGS_TICK_RATE to
 * CPAY_SETTINGS_MAX_STREAMS; the formats one after another; types without media, and then those of telephone events;
 * CPAY_SETTINGS_CNAME to CPAY_SETTINGS_TRANSPORT_WINDOW. */
typedef enum {
    CPAY_SETTINGS_FIT = 0,           /**< no fault */
    CPAY_SETTINGS_TICK_RATE = 1,     /**< `tick_rate` is 0 */
    CPAY_SETTINGS_FROM_KEYFRAME = 2, /**< `from_keyframe` is above CPAY_KEYFRAME_DROP */
    CPAY_SETTINGS_RATE = 3,          /**< the clock rate of the format is 0 */
    CPAY_SETTINGS_LIMIT = 4,         /**< `limit` is not 1 to 65536 */
    CPAY_SETTINGS_MAX_STREAMS = 5,   /**< `max_streams` is 0 */
    CPAY_SETTINGS_CODEC = 6,         /**< the codec of the format has no depacketizer */
    CPAY_SETTINGS_RED_STEP = 7,      /**< `red_step` of the format is not 1 to 16383 */
    CPAY_SETTINGS_PAYLOAD_TYPE = 8,  /**< the payload type is not 0 to 63 or 96 to 127 */
    CPAY_SETTINGS_TWO_MEANINGS = 9,  /**< the payload type has a meaning already, in this format, an earlier one or a list */
    CPAY_SETTINGS_CNAME = 10,        /**< with has_feedback: the name does not have 1 to 255 bytes */
    CPAY_SETTINGS_TRANSPORT_ID = 11, /**< with has_transport: `extension_id` is 0 */
    CPAY_SETTINGS_TRANSPORT_WINDOW = 12 /**< with has_transport: `window` is not 1 to 32768 */
} cpay_settings_fault_kind;

/** A setting that no session can meet. */
typedef struct {
    size_t format;                 /**< with has_format: index of the format in `formats` */
    cpay_settings_fault_kind kind; /**< what is wrong: cpay_settings_fault_text has a text for it */
    uint8_t payload_type;          /**< with has_payload_type: the payload type; of telephone events without CPAY_TELEPHONE */
    bool has_format;               /**< the fault is in a format. Without it a payload type is in `no_media` */
    bool has_payload_type;         /**< the fault is about a payload type */
} cpay_settings_fault;

/** Reports whether a session can meet these settings: the first fault goes to *fault. Call it if cpay_session_new answered
 * CPAY_INVALID, with the same arguments. CPAY_OK: there is no fault, and `kind` is CPAY_SETTINGS_FIT. CPAY_INVALID: *fault is
 * written; or a list is NULL with a length, and it is not. CPAY_OUT_OF_MEMORY: *fault is unchanged. [m] */
CPAY_CHECKED cpay_status cpay_session_settings_check(const cpay_session_settings *settings, const cpay_session_format *formats,
                                                     size_t formats_len, const uint8_t *no_media, size_t no_media_len,
                                                     cpay_settings_fault *fault);

/** What a session did with a datagram. */
typedef enum {
    CPAY_ARRIVAL_STREAM = 0,      /**< a stream received it: see `status` and `outcome` */
    CPAY_ARRIVAL_RTCP = 1,        /**< a valid compound packet of RTCP (RFC 3550, section 6.1), also of reduced size (RFC 5506);
                                       streams that its BYE names end after `bye_wait`, and its sender reports state the clocks of
                                       streams: see cpay_session_sender_clock */
    CPAY_ARRIVAL_MALFORMED = 2,   /**< neither RTP nor such a packet of RTCP */
    CPAY_ARRIVAL_UNKNOWN = 3,     /**< a payload type that no format names, or one of `no_media` whose SSRC has no stream */
    CPAY_ARRIVAL_REFUSED = 4,     /**< it would begin a stream, but all places are taken, or you called cpay_session_finish */
    CPAY_ARRIVAL_UNASSOCIATED = 5 /**< a retransmission whose stream is not known: its SSRC is in no pair, and none or several
                                       streams fit. A stream fits if it plays, has no pair and has requested the packet, and the RTP
                                       time is within 10 s of its sender's clock (RFC 4588, section 5.3). If one fits, the pair is
                                       added, and the stream receives the datagram */
} cpay_arrival_kind;

typedef struct {
    cpay_arrival_kind kind; /**< CPAY_ARRIVAL_STREAM and so on; without a stream all other fields are 0 */
    uint32_t ssrc;        /**< SSRC of the stream */
    cpay_status status;   /**< CPAY_OK, or why the payload was not accepted: CPAY_RED_CORRUPTED or CPAY_RTX_TOO_SHORT; or
                               CPAY_OUT_OF_MEMORY: a RED packet was stored, but not all of its redundant blocks */
    cpay_outcome outcome; /**< with `status` CPAY_OK: CPAY_HELD and so on, as cpay_receiver_receive reports it */
    uint8_t payload_type; /**< payload type of the stream */
} cpay_arrival;

/** Processes one datagram of the port, received at time `now`, in ticks of your clock, and reports what was done with it. Any bytes
 * are accepted. Its SSRC and its payload type identify the stream, which it begins if there is none and a place is free. If all
 * places are taken, the new stream replaces the first one that is not announced yet. The stream is found by a search, so the time
 * grows with the logarithm of the number of streams. CPAY_OUT_OF_MEMORY: the datagram is not counted, and you may pass it again.
 * [m] */
CPAY_CHECKED cpay_status cpay_session_receive(cpay_session *session, uint64_t now, const uint8_t *datagram, size_t datagram_len,
                                              cpay_arrival *arrival);

/** Does the same for a datagram that arrived at `micros`, in microseconds of any clock: the time stamp of your socket, say.
 * CPAY_EVENT_TRANSPORT_FEEDBACK then reports this time instead of `now`; all else goes by `now`. A browser estimates by differences
 * of a millisecond, so it sends more if the times are finer than your ticks. Use one of the two calls for all datagrams. [m] */
CPAY_CHECKED cpay_status cpay_session_receive_at(cpay_session *session, uint64_t now, uint64_t micros, const uint8_t *datagram,
                                                 size_t datagram_len, cpay_arrival *arrival);

/** The kinds of events. New ones may be added: ignore those that you do not know. */
typedef enum {
    CPAY_EVENT_BEGUN = 0, /**< a stream is announced: the first event of the stream */
    CPAY_EVENT_UNIT = 1,  /**< a unit: see `unit`; its bytes are at `data` */
    CPAY_EVENT_FAULT = 2, /**< the depacketizer refused a frame, or a unit is above `max_unit`: see `status`. It is discarded. Any
                               peer can send such a frame: count it, and go on polling */
    CPAY_EVENT_ENDED = 3, /**< a stream was removed: the last event of the stream; see `why` */
    CPAY_EVENT_FEEDBACK = 4, /**< a compound packet of RTCP for the sender of the stream is at `data`: send it. It has a
                                 NACK of missing packets, and a PLI if a keyframe is needed (RFC 4585, sections 6.2.1, 6.3.1) */
    CPAY_EVENT_REPORT = 5,   /**< a compound packet of RTCP for all senders is at `data`: send it. It has a block about each
                                 announced stream that has one, of two streams with one SSRC only about the later (RFC 3550, section
                                 6.4.2). `ssrc` and `payload_type` are 0 */
    CPAY_EVENT_TELEPHONE = 6, /**< a packet of telephone events beside audio (RFC 4733): its payload is at `data`, with 4
                                 bytes for each event (cpay_tele_read). All packets of an event have the same `unit.rtp_time`,
                                 its last one comes three times, and a network can repeat any of them, so go by that time. An
                                 event of more than 65535 ticks has segments with a time each (section 2.5.1.3). It is also
                                 reported for a stream that is not announced yet */
    CPAY_EVENT_TRANSPORT_FEEDBACK = 7 /**< a packet of RTCP for the peer is at `data`: send it. It says when each packet of
                                 the transport arrived since the last one, or that it is missing. It comes each `interval` of
                                 cpay_session_transport while packets arrive. `ssrc` and `payload_type` are 0 */
} cpay_event_kind;

/** Why a stream ended. */
typedef enum {
    CPAY_ENDED_BY_BYE = 0,     /**< its sender left (RFC 3550, section 6.6) */
    CPAY_ENDED_BY_TIMEOUT = 1, /**< no datagram arrived for `idle_timeout` */
    CPAY_ENDED_BY_CALL = 2,    /**< you called cpay_session_end or cpay_session_finish */
    CPAY_ENDED_BY_CHANGE = 3   /**< its sender continues in another format under the same SSRC, or its format is gone
                                    (cpay_session_set_formats) */
} cpay_ending;

typedef struct {
    cpay_event_kind kind; /**< CPAY_EVENT_BEGUN and so on */
    uint32_t ssrc;        /**< SSRC of the stream */
    cpay_status status;   /**< of CPAY_EVENT_FAULT: the error, 1 to 16 or CPAY_UNIT_TOO_LARGE; of other events CPAY_OK */
    cpay_ending why;      /**< of CPAY_EVENT_ENDED: CPAY_ENDED_BY_BYE and so on; of other events 0 */
    const uint8_t *data;  /**< its bytes: of the unit, the RTCP packet, or the payload of telephone events. Read none if `bytes` is
                               0 */
    size_t bytes;         /**< how many bytes are at `data`; 0 for other events */
    uint8_t payload_type; /**< payload type of the stream's format, also if the unit came in RED or was retransmitted; of
                               CPAY_EVENT_TELEPHONE the payload type of the packet */
    cpay_unit unit;       /**< of CPAY_EVENT_UNIT: the unit, as cpay_receiver_pop reports it. Of CPAY_EVENT_TELEPHONE: `rtp_time`,
                               32 bits as in the packet, `bytes`, and the marker in `starts_talk_spurt`. All other fields are 0 */
} cpay_event;

/** Reports the next event at time `now`. Call it until CPAY_NONE after each datagram and at each deadline. Telephone events that
 * wait come first, at most 32 of them. Then the streams are asked in the order in which they began; each stream has
 * CPAY_EVENT_BEGUN first, then its units in order, and CPAY_EVENT_ENDED last. `event->data` lends `event->bytes` bytes in the
 * session's memory. They stay there until the next cpay_session_poll with this session, which may move or free them, or until
 * cpay_session_free. No other call changes them. Never write them. CPAY_NONE: there is no event. CPAY_OUT_OF_MEMORY: the frame, the
 * request or the report stays, and the next call tries it again. Both leave *event unchanged; bytes that it still points to are
 * lent no longer. [m] */
CPAY_CHECKED cpay_status cpay_session_poll(cpay_session *session, uint64_t now, cpay_event *event);

/** Reports the header extension values of the unit that cpay_session_poll returned last: see cpay_receiver_values.
 * CPAY_NONE: no unit was returned yet. Does not allocate. */
CPAY_CHECKED cpay_status cpay_session_values(cpay_session *session, cpay_extension_values *values);

/** Reports the time at which a poll may have an event although no datagram arrives: 0 while telephone events wait. CPAY_NONE: only
 * a datagram can help. If a poll had no event and no packet left a stream in it, no earlier poll has one: docs/use/SESSION.md. */
CPAY_CHECKED cpay_status cpay_session_next_deadline(cpay_session *session, uint64_t *at);

/** Ends the streams of this SSRC at time `now`: polls report their complete units, and then CPAY_EVENT_ENDED. Without such a stream
 * nothing changes. A later packet of the SSRC begins a new stream. */
CPAY_CHECKED cpay_status cpay_session_end(cpay_session *session, uint64_t now, uint32_t ssrc);

/** Forgets which packets of the transport arrived. Call it if another peer takes over the transport, or the peer counts from a new
 * number: without this call, numbers behind the last `window` ones are ignored until they pass the highest one. Without
 * has_transport nothing changes. */
CPAY_CHECKED cpay_status cpay_session_restart_transport(cpay_session *session);

/** Ends all streams at time `now`, announced or not: polls report their complete units, and then CPAY_EVENT_ENDED for each. From
 * now on no stream begins. */
CPAY_CHECKED cpay_status cpay_session_finish(cpay_session *session, uint64_t now);

/** Counters of datagrams by result, modulo 2^64. `received` is always the sum of rtcp, malformed, unknown, refused, unassociated,
 * ended, and `taken` of each stream. */
typedef struct {
    uint64_t received;
    uint64_t rtcp;         /**< CPAY_ARRIVAL_RTCP, and so on */
    uint64_t malformed;
    uint64_t unknown;
    uint64_t refused;
    uint64_t unassociated;
    uint64_t ended;        /**< datagrams that streams received which were removed since */
    uint64_t telephone_dropped; /**< packets of telephone events that a stream received and no poll reports, since 32 others waited;
                                     not part of the sum */
    size_t streams;        /**< streams now, announced or not */
} cpay_session_counts_info;

/** Reports the counters of a session. Allocates nothing. */
CPAY_CHECKED cpay_status cpay_session_counts(cpay_session *session, cpay_session_counts_info *counts);

/** The stage of a stream. */
typedef enum {
    CPAY_STREAM_PROBATION = 0, /**< too few datagrams were accepted, and the stream is not announced */
    CPAY_STREAM_PLAYING = 1,
    CPAY_STREAM_LEAVING = 2, /**< it takes datagrams until `ends_at`, and then ends */
    CPAY_STREAM_DRAINING = 3 /**< polls return the complete units that it holds, and then it is removed */
} cpay_stage;

/** A stream of a session. */
typedef struct {
    uint64_t taken;       /**< datagrams that the stream received, modulo 2^64 */
    uint64_t bytes;       /**< bytes of payload of these datagrams, without headers and padding, modulo 2^64: `bytesReceived` of the
                               W3C's statistics */
    uint64_t ends_at;     /**< of CPAY_STREAM_LEAVING: the time, in ticks of your clock; in other stages 0 */
    uint64_t round_trip;  /**< with has_round_trip: round-trip time, the median of the latest five answers to requests, each from
                               the first request of its number, in ticks of your clock; else 0 */
    uint64_t numbers_requested;   /**< missing packets that the session requested, each request counted, modulo 2^64 */
    uint64_t keyframes_requested; /**< keyframes that the session requested, modulo 2^64 */
    uint32_t ssrc;
    cpay_stage stage;     /**< CPAY_STREAM_PROBATION and so on */
    cpay_ending why;      /**< of CPAY_STREAM_LEAVING and CPAY_STREAM_DRAINING: CPAY_ENDED_BY_BYE and so on; in other stages 0 */
    uint8_t payload_type; /**< payload type of the stream's format */
    bool has_round_trip;  /**< a request of the session was answered */
    cpay_receiver_counts_info counts; /**< `late` and `duplicates` are without `probes`. `waiting` is false: no unit of a session
                                           waits */
    uint64_t probes;      /**< retransmissions (RFC 4588) of numbers that came before, modulo 2^64: a sender sends such ones to
                               find out what the network carries. Of all numbers with the same remainder by 2,048 the latest is
                               remembered */
} cpay_session_stream;

/** Describes the stream at a place, from 0, in the order in which the streams began. CPAY_NONE: there is no such stream. */
CPAY_CHECKED cpay_status cpay_session_stream_at(cpay_session *session, size_t place, cpay_session_stream *stream);

/** Describes the stream that the session removed last, as it was then: at CPAY_EVENT_ENDED the stream of the event, with its last
 * counts. A stream in probation that a new stream replaced is described too, without an event. CPAY_NONE: none was removed. Does
 * not allocate. */
CPAY_CHECKED cpay_status cpay_session_last_stream(cpay_session *session, cpay_session_stream *stream);

/** Reports the missing sequence numbers of the stream with this SSRC and payload type: see cpay_receiver_missing. CPAY_NONE: there
 * is no such stream. Does not allocate. */
CPAY_CHECKED cpay_status cpay_session_missing(cpay_session *session, uint32_t ssrc, uint8_t payload_type, uint64_t *numbers,
                                              size_t numbers_len, size_t *count);

/** Reports whether to request a keyframe of the stream with this SSRC and payload type: see cpay_receiver_wants_keyframe.
 * CPAY_NONE: there is no such stream. Does not allocate. */
CPAY_CHECKED cpay_status cpay_session_wants_keyframe(cpay_session *session, uint32_t ssrc, uint8_t payload_type, bool *wants);

/** A block of a receiver report (RFC 3550, section 6.4.1). */
typedef struct {
    uint32_t ssrc;            /**< SSRC of the stream */
    uint32_t cumulative_lost; /**< packets expected minus packets received, duplicates included: 24 bits in two's complement */
    uint32_t highest;         /**< highest sequence number in the low 16 bits, and the number of wraps above them */
    uint32_t jitter;          /**< interarrival jitter, in ticks of the RTP clock */
    uint32_t last_sender_report; /**< LSR: middle 32 bits of the NTP time of the last sender report; 0 if there was none */
    uint32_t delay_since_sender_report; /**< DLSR: time since that report arrived, in 1/65536 s; 0 if there was none */
    uint8_t fraction_lost;    /**< fraction of packets lost since the previous block, in 1/256 */
} cpay_report_block_info;

/** Returns the block of a receiver report about the stream with this SSRC and payload type at time `now`, and starts the next
 * interval of `fraction_lost`. In the packet the block is `ssrc`, then `fraction_lost` and the 24 bits of `cumulative_lost`, and
 * then the other fields in their order, each of 32 bits in network byte order. A stream in probation has a block too. CPAY_NONE:
 * there is no such stream, or no packet of it arrived yet. */
CPAY_CHECKED cpay_status cpay_session_report(cpay_session *session, uint64_t now, uint32_t ssrc, uint8_t payload_type,
                                             cpay_report_block_info *block);

/** Returns the block that cpay_session_report would return, and changes nothing: the next block starts its fraction where it would
 * have. For statistics beside the reports that the session sends. CPAY_NONE: there is no such stream, or no packet of it arrived
 * yet. Does not allocate. */
CPAY_CHECKED cpay_status cpay_session_peek_report(cpay_session *session, uint64_t now, uint32_t ssrc, uint8_t payload_type,
                                                  cpay_report_block_info *block);

/** What the latest sender report about a stream says (RFC 3550, section 6.4.1): one moment by the wall clock of the sender and as
 * an RTP time. */
typedef struct {
    uint64_t ntp_time; /**< seconds since 1900 in the upper 32 bits, fractions of a second in the lower 32 bits */
    uint64_t arrived;  /**< when the report arrived, in ticks of your clock */
    uint32_t rtp_time; /**< the same moment as an RTP time of the stream */
} cpay_sender_clock_info;

/** Reports the clock of the sender of the stream with this SSRC and payload type. CPAY_NONE: there is no such stream, or no sender
 * report about it arrived since it began. */
CPAY_CHECKED cpay_status cpay_session_sender_clock(cpay_session *session, uint32_t ssrc, uint8_t payload_type,
                                                   cpay_sender_clock_info *clock);

/** The names of a stream. A length of 0: no packet of the stream had the name so far. A name can have any bytes, so check them
 * before you print it; zeros follow them, but no zero follows a name of 32 bytes. */
typedef struct {
    uint8_t mid[32];          /**< which media description (`a=mid`) the stream belongs to */
    uint8_t rid[32];          /**< which of the streams of a simulcast (`a=rid`) it is */
    uint8_t repaired_rid[32]; /**< RID that retransmissions of the stream have */
    uint8_t mid_len;          /**< number of bytes of `mid`, 0 to 32 */
    uint8_t rid_len;
    uint8_t repaired_rid_len;
} cpay_stream_names;

/** Reports the names of the stream with this SSRC and payload type. Call it at CPAY_EVENT_BEGUN: so a server that receives a
 * simulcast knows which stream is which before any SSRC was signalled. A stream takes names from the packets that it accepts, under
 * `name_ids` of the settings: of media, of retransmissions, and without media. The latest value of each name is kept; a value
 * without a byte, or of more than 32, is ignored. Senders stop sending names once they know that they arrived. So a stream begins
 * with the names of the first other stream of its SSRC, as one in another format that its sender left. CPAY_NONE: there is no such
 * stream. Does not allocate. */
CPAY_CHECKED cpay_status cpay_session_names(cpay_session *session, uint32_t ssrc, uint8_t payload_type, cpay_stream_names *names);

/** Replaces the wait limits of the stream with this SSRC and payload type: see cpay_receiver_set_wait_limits. CPAY_NONE: there is
 * no such stream. */
CPAY_CHECKED cpay_status cpay_session_set_wait_limits(cpay_session *session, uint32_t ssrc, uint8_t payload_type,
                                                      const cpay_wait_limits *wait_limits);

/** Sets the round trip of the stream with this SSRC and payload type, in ticks, as reports measured it: extended reports (RFC
 * 3611), or the checks of ICE (RFC 8445). From now on the times of its requests and its waits follow it, in place of the answers to
 * requests: call it when the stream begins, and with each report. 0: the answers count, so pass 1 for a shorter one. CPAY_NONE:
 * there is no such stream. Does not allocate. */
CPAY_CHECKED cpay_status cpay_session_set_round_trip(cpay_session *session, uint32_t ssrc, uint8_t payload_type,
                                                     uint64_t round_trip);

/** Names the SSRC of the retransmissions of `ssrc` (`a=ssrc-group:FID`), for a sender that joins later: streams that exist take
 * them too. The later pair wins: it replaces the pair with the same `ssrc`, and the pair with the same `retransmission`.
 * CPAY_OUT_OF_MEMORY: the pairs are unchanged. [m] */
CPAY_CHECKED cpay_status cpay_session_add_pair(cpay_session *session, uint32_t ssrc, uint32_t retransmission);

/** Forgets the SSRC of the retransmissions of `ssrc`. Without such a pair nothing changes. The end of a stream removes no pair.
 * Does not allocate. */
CPAY_CHECKED cpay_status cpay_session_remove_pair(cpay_session *session, uint32_t ssrc);

/** What a session does with a request for a keyframe. */
typedef enum {
    CPAY_KEYFRAME_REQUESTED = 0,     /**< the stream requests a keyframe as soon as its limit allows */
    CPAY_KEYFRAME_NO_STREAM = 1,     /**< no stream has this SSRC, or the first one that has it is about to end */
    CPAY_KEYFRAME_NOT_NEGOTIATED = 2 /**< its sender answers no requests for keyframes: the format has no `pli`, or the settings no
                                          feedback */
} cpay_keyframe_answer;

/** Asks the sender of the stream with this SSRC for a keyframe, by a PLI (RFC 4585, section 6.3.1), for another receiver that needs
 * one: a viewer that joins, or that sent a PLI. *answer is what the session does. The PLI is in the stream's next
 * CPAY_EVENT_FEEDBACK, beside what the session requests itself. All share one limit: two PLIs of a stream are at least
 * `keyframe_interval` apart, and within the interval a request waits. cpay_session_next_deadline is at most the time at which it
 * can leave. One PLI answers all requests before it, and so does a keyframe that a poll reports. A PLI can be lost: call this as
 * often as you like, as long as you need a keyframe. A stream in probation sends its PLI once it is announced, and a stream whose
 * sender is silent once a datagram arrives. With two streams of the SSRC, as after a change of format, the first one asks. Does not
 * allocate. */
CPAY_CHECKED cpay_status cpay_session_request_keyframe(cpay_session *session, uint32_t ssrc, cpay_keyframe_answer *answer);

/** Replaces the payload formats, as a new session description states them. Streams whose format is still there, with all of its
 * fields, go on. All other streams end at `now`: polls report their complete units, and then CPAY_EVENT_ENDED with
 * CPAY_ENDED_BY_CHANGE. Media of a new format begin a stream as usual. Datagrams of a payload type that is gone are
 * CPAY_ARRIVAL_UNKNOWN, also for a stream that ends. All other settings stay. The list is copied. CPAY_INVALID: the formats are
 * none that cpay_session_new accepts with the other settings, and nothing has changed. CPAY_OUT_OF_MEMORY: nothing has changed. [m]
 * */
CPAY_CHECKED cpay_status cpay_session_set_formats(cpay_session *session, uint64_t now, const cpay_session_format *formats,
                                                  size_t formats_len);

/* ---- RTCP: reports, names and requests for keyframes, without a session ---- */

/** A sender report or a receiver report (RFC 3550, sections 6.4.1 and 6.4.2). */
typedef struct {
    uint64_t ntp_time; /**< with is_sender: seconds since 1900 in the upper 32 bits, fractions of a second in the lower 32 bits */
    size_t blocks;     /**< number of report blocks, 0 to 31: see cpay_read_report_block */
    uint32_t ssrc;     /**< SSRC of the sender of the report */
    uint32_t rtp_time; /**< with is_sender: the same moment as an RTP time */
    uint32_t packets;  /**< with is_sender: packets sent, modulo 2^32 */
    uint32_t octets;   /**< with is_sender: payload bytes sent, modulo 2^32 */
    bool is_sender;    /**< it is a sender report. A receiver report has neither times nor counts */
} cpay_rtcp_report_info;

/** Reads report number `index`, from 0, of one datagram of RTCP: sender reports and receiver reports count together. `full` is as
 * for cpay_read_requests. CPAY_NONE: the datagram has no report with this index. CPAY_RTCP_HEADER_TOO_SHORT to
 * CPAY_RTCP_FIR_LENGTH: not a compound RTCP packet. Does not allocate. */
CPAY_CHECKED cpay_status cpay_read_report(const uint8_t *rtcp, size_t rtcp_len, bool full, size_t index,
                                          cpay_rtcp_report_info *report);

/** Reads block number `place`, from 0, of report number `index`. CPAY_NONE: there is no such report, or it has fewer blocks. Other
 * statuses are those of cpay_read_report. Does not allocate. */
CPAY_CHECKED cpay_status cpay_read_report_block(const uint8_t *rtcp, size_t rtcp_len, bool full, size_t index, size_t place,
                                                cpay_report_block_info *block);

/** Copies the canonical name (CNAME) that one datagram of RTCP gives the source with this SSRC to the output buffer, and its size
 * to *size: at most 255 bytes of UTF-8, which is not checked (RFC 3550, section 6.5.1). Streams of one participant have the same
 * name. `full` is as for cpay_read_requests. CPAY_NONE: the datagram does not name this source. CPAY_TOO_SMALL: *size is written.
 * CPAY_RTCP_HEADER_TOO_SHORT to CPAY_RTCP_FIR_LENGTH: not a compound RTCP packet. Does not allocate. */
CPAY_CHECKED cpay_status cpay_read_cname(const uint8_t *rtcp, size_t rtcp_len, bool full, uint32_t ssrc, uint8_t *bytes,
                                         size_t bytes_len, size_t *size);

/** Writes a sender report to the output buffer, and its size to *size: 28 bytes, and 24 for each of its blocks, at most 31. The
 * fields are those of cpay_sender_report or cpay_forwarder_report, and `ntp_time` is the same moment: seconds since 1900 in the
 * upper 32 bits, fractions of a second in the lower 32 bits. It has no padding: packets that you write one after another are a
 * compound packet (RFC 3550, section 6.1), which begins with a report and has a name. CPAY_TOO_SMALL: *size is written.
 * CPAY_INVALID: more than 31 blocks, or `cumulative_lost` above 24 bits. [m] */
CPAY_CHECKED cpay_status cpay_write_sender_report(uint64_t ntp_time, const cpay_sender_report_info *report,
                                                  const cpay_report_block_info *blocks, size_t blocks_len, uint8_t *bytes,
                                                  size_t bytes_len, size_t *size);

/** Does the same for a receiver report by the sender of RTCP with this SSRC: 8 bytes, and 24 for each block. [m] */
CPAY_CHECKED cpay_status cpay_write_receiver_report(uint32_t ssrc, const cpay_report_block_info *blocks, size_t blocks_len,
                                                    uint8_t *bytes, size_t bytes_len, size_t *size);

/** Writes a source description with the canonical name (CNAME) of a source (RFC 3550, section 6.5) to the output buffer, and its
 * size to *size. CPAY_TOO_SMALL: *size is written. CPAY_INVALID: the name has more than 255 bytes. [m] */
CPAY_CHECKED cpay_status cpay_write_cname(uint32_t ssrc, const uint8_t *cname, size_t cname_len, uint8_t *bytes, size_t bytes_len,
                                          size_t *size);

/** Writes a PLI, which asks the sender of the stream `media_ssrc` for a keyframe (RFC 4585, section 6.3.1), to the output buffer,
 * and its size to *size: 12 bytes. With a session call cpay_session_request_keyframe instead. CPAY_TOO_SMALL: *size is written. [m]
 * */
CPAY_CHECKED cpay_status cpay_write_pli(uint32_t sender_ssrc, uint32_t media_ssrc, uint8_t *bytes, size_t bytes_len, size_t *size);

/** Writes a FIR, which asks the sender of the stream `media_ssrc` for a keyframe (RFC 5104, section 4.3.1), to the output buffer,
 * and its size to *size: 20 bytes. `command` counts the requests to this stream, modulo 256; a request that you repeat keeps its
 * number. CPAY_TOO_SMALL: *size is written. [m] */
CPAY_CHECKED cpay_status cpay_write_fir(uint32_t sender_ssrc, uint32_t media_ssrc, uint8_t command, uint8_t *bytes,
                                        size_t bytes_len, size_t *size);

/** Writes a BYE, which says that a source leaves (RFC 3550, section 6.6), to the output buffer, and its size to *size. It has a
 * reason if `reason` has bytes: a text in UTF-8, at most 255 bytes. CPAY_TOO_SMALL: *size is written. CPAY_INVALID: the reason has
 * more than 255 bytes. [m] */
CPAY_CHECKED cpay_status cpay_write_bye(uint32_t ssrc, const uint8_t *reason, size_t reason_len, uint8_t *bytes, size_t bytes_len,
                                        size_t *size);

/* ---- A depacketizer alone, for callers that order packets themselves ---- */

/** Creates a depacketizer in an empty handle. CPAY_INVALID: unsupported codec, or `rate` 0. [m] */
CPAY_CHECKED cpay_status cpay_depacketizer_new(cpay_depacketizer *depacketizer, const cpay_spec *spec);

/** Reads a payload, and appends its media bytes. docs/use/FORMATS.md says for each codec what an error leaves. [m] */
CPAY_CHECKED cpay_status cpay_depacketize(cpay_depacketizer *depacketizer, const uint8_t *payload, size_t payload_len);

/** A unit in the memory of a depacketizer. */
typedef struct {
    const uint8_t *at; /**< its bytes; read none if `bytes` is 0 */
    size_t bytes;      /**< how many they are */
    cpay_extra extra;
} cpay_lent_unit;

/** Lends the bytes and the codec-specific data of the payloads since the unit began, and changes nothing: call it once a frame is
 * complete. Read the bytes until the next call with this handle, which may move or free them; never write them. Then call
 * cpay_depacketizer_clear. Nothing is copied. */
CPAY_CHECKED cpay_status cpay_depacketizer_unit(cpay_depacketizer *depacketizer, cpay_lent_unit *unit);

/** Begins the next unit: forgets the bytes and the codec-specific data so far, and keeps their memory. What continues in a stream
 * stays: ids of VP8 and VP9, the beginning of an OBU of AV1. */
CPAY_CHECKED cpay_status cpay_depacketizer_clear(cpay_depacketizer *depacketizer);

/** Copies the unit to a buffer of yours, and begins the next unit: both calls above in one, for a caller who keeps the bytes. */
CPAY_CHECKED cpay_status cpay_depacketized(cpay_depacketizer *depacketizer, size_t *size, cpay_extra *extra, uint8_t *bytes,
                                           size_t bytes_len);

/* ---- RED (RFC 2198) ---- */

/** Creates a sender that repeats earlier payloads, in an empty handle. `red_pt` is the payload type of its packets, `primary_pt`
 * the payload type of the media. A distance is how many payloads back to repeat. Distances rise strictly, from 1 to 8; an empty
 * list is allowed. CPAY_INVALID: other distances. [m] */
CPAY_CHECKED cpay_status cpay_red_sender_new(cpay_red_sender *sender, uint8_t red_pt, uint8_t primary_pt,
                                             const uint32_t *distances, size_t distances_len);

/** Sets new payload types and distances, with the same rules. */
CPAY_CHECKED cpay_status cpay_red_sync(cpay_red_sender *sender, uint8_t red_pt, uint8_t primary_pt, const uint32_t *distances,
                                       size_t distances_len);

/** Returns the RED payload for a media payload, in at most `budget` bytes; the payload is then remembered. A payload of `budget`
 * bytes or more is returned unchanged, and is not a RED payload. CPAY_TOO_SMALL: the output buffer is smaller than `budget` or
 * than the payload; nothing changed, so call again with the same payload. [m] */
CPAY_CHECKED cpay_status cpay_red_wrap(cpay_red_sender *sender, uint32_t rtp_time, size_t budget, const uint8_t *payload,
                                       size_t payload_len, uint8_t *bytes, size_t bytes_len, size_t *size);

/** An older block, whose bytes are in the caller's `media`. */
typedef struct {
    size_t start;    /**< start of its bytes in `media` */
    size_t bytes;    /**< size of the block; larger blocks than 1023 bytes are left out */
    uint32_t offset; /**< its age relative to the primary block, in ticks; blocks above 16383 are left out */
    uint8_t payload_type;
} cpay_red_older;

/** Encodes a RED payload of the first 32 older blocks that fit, and of the primary block. Remembers nothing. CPAY_INVALID: a
 * block extends beyond `media`. [m] */
CPAY_CHECKED cpay_status cpay_red_encode(uint8_t primary_pt, const uint8_t *primary, size_t primary_len,
                                         const cpay_red_older *older, size_t older_len, const uint8_t *media, size_t media_len,
                                         uint8_t *bytes, size_t bytes_len, size_t *size);

typedef struct {
    size_t bytes;    /**< size of the block */
    uint32_t offset; /**< its age relative to the primary block, in ticks; 0 for the primary block */
    uint8_t payload_type;
    bool is_primary; /**< this is the packet's own media */
} cpay_red_block_info;

/** Copies block `index`, from 0, of a RED payload; the primary block is the last. CPAY_NONE: `index` is past the last block. [m] */
CPAY_CHECKED cpay_status cpay_red_block(const uint8_t *payload, size_t payload_len, size_t index, cpay_red_block_info *info,
                                        uint8_t *bytes, size_t bytes_len);

/** A block by its place in the payload, for reading without a copy. */
typedef struct {
    size_t start;    /**< start of its bytes in the payload */
    size_t bytes;    /**< size of the block */
    uint32_t offset; /**< its age relative to the primary block, in ticks; 0 for the primary block */
    uint8_t payload_type;
    bool is_primary; /**< this is the packet's own media */
} cpay_red_block_place;

/** Writes the places of all blocks of a RED payload to `blocks`, in their order; the primary block is the last, and there are at
 * most 33. *count is their number, also with CPAY_TOO_SMALL. CPAY_TOO_SMALL: `blocks` is too short. CPAY_RED_CORRUPTED: the
 * bytes are not a RED payload. [m] */
CPAY_CHECKED cpay_status cpay_red_blocks(const uint8_t *payload, size_t payload_len, cpay_red_block_place *blocks,
                                         size_t blocks_len, size_t *count);

typedef struct {
    uint64_t number;   /**< extended sequence number of the packet */
    size_t bytes;      /**< size of its media */
    uint32_t rtp_time; /**< RTP time of the packet */
    bool is_primary;   /**< it is the packet whose payload was read */
} cpay_recovered_info;

/** Copies packet `index`, from 0, of the packets in the RED payload of the packet with this number and time, in the order of its
 * blocks. CPAY_NONE: `index` is past the last packet. CPAY_INVALID: `step` out of range. [m]
 * `step` is the distance of the stream's packets in ticks, 1 to 16383. Only blocks with the payload type `primary_pt` (low 7
 * bits) are packets of the stream. The primary block is the packet itself, and comes last; it is not reported if it has another
 * type. An older block is skipped if its offset is 0 or not a multiple of `step`, or if it goes back more than 8 steps or below
 * number 0. Push all reported packets: the buffer drops duplicates. */
CPAY_CHECKED cpay_status cpay_red_recover(uint8_t primary_pt, uint32_t step, uint64_t number, uint32_t rtp_time,
                                          const uint8_t *payload, size_t payload_len, size_t index, cpay_recovered_info *info,
                                          uint8_t *bytes, size_t bytes_len);

/** Returns an English text for each status. */
static inline const char *cpay_status_text(cpay_status status) {
    switch (status) {
    case CPAY_OK: return "success";
    case CPAY_SHORT_PACKET: return "the packet is too short";
    case CPAY_PAYLOAD_TOO_LARGE: return "the payload exceeds the MTU";
    case CPAY_TOO_MANY_LAYERS: return "too many spatial layers";
    case CPAY_TOO_MANY_P_DIFF: return "too many references";
    case CPAY_VP8_CORRUPTED: return "the VP8 packet is corrupted";
    case CPAY_VP9_CORRUPTED: return "the VP9 packet is corrupted";
    case CPAY_AV1_CORRUPTED: return "the AV1 packet or frame is corrupted";
    case CPAY_RED_CORRUPTED: return "the RED packet is corrupted";
    case CPAY_TELE_INVALID: return "invalid telephone-event payload";
    case CPAY_AMR_WB_CORRUPTED: return "the AMR-WB packet or frame is corrupted";
    case CPAY_OUT_OF_MEMORY: return "out of memory";
    case CPAY_NONE: return "nothing available";
    case CPAY_TOO_SMALL: return "output buffer too small";
    case CPAY_EMPTY: return "handle not initialised";
    case CPAY_OTHER_KIND: return "handle of another type";
    case CPAY_FULL: return "handle already in use";
    case CPAY_INVALID: return "invalid argument";
    case CPAY_FRAME_TOO_SHORT: return "frame truncated";
    case CPAY_FRAME_MARKER: return "wrong start code or marker in frame";
    case CPAY_FRAME_RESERVED: return "reserved value in frame";
    case CPAY_FRAME_SIZES: return "inconsistent sizes in frame";
    case CPAY_RTP_HEADER_TOO_SHORT: return "the RTP packet is shorter than its fixed header";
    case CPAY_RTP_VERSION: return "the RTP version is not 2";
    case CPAY_RTP_CSRCS_TOO_SHORT: return "the RTP packet ends inside its CSRCs";
    case CPAY_RTP_EXTENSION_HEADER_TOO_SHORT: return "the RTP packet ends inside the header of its extension";
    case CPAY_RTP_EXTENSION_TOO_SHORT: return "the RTP packet ends inside its extension";
    case CPAY_RTP_PADDING_OF_ZERO: return "RTP padding length is 0";
    case CPAY_RTP_PADDING_TOO_LONG: return "RTP padding exceeds the payload";
    case CPAY_RTX_TOO_SHORT: return "the retransmission has no original sequence number";
    case CPAY_RTCP_HEADER_TOO_SHORT: return "the RTCP packet is shorter than its header";
    case CPAY_RTCP_VERSION: return "the RTCP version is not 2";
    case CPAY_RTCP_FIRST_NOT_REPORT: return "the compound RTCP packet does not begin with a report";
    case CPAY_RTCP_PACKET_TOO_SHORT: return "the RTCP length passes the end";
    case CPAY_RTCP_PADDING_NOT_LAST: return "RTCP padding before the last packet";
    case CPAY_RTCP_PADDING_OF_ZERO: return "RTCP padding length is 0";
    case CPAY_RTCP_PADDING_TOO_LONG: return "RTCP padding exceeds the packet";
    case CPAY_RTCP_REPORT_TOO_SHORT: return "the RTCP report ends inside its report blocks";
    case CPAY_RTCP_CHUNK_TOO_SHORT: return "the RTCP SDES ends inside an SSRC";
    case CPAY_RTCP_ITEMS_TOO_SHORT: return "the RTCP SDES ends inside a chunk";
    case CPAY_RTCP_BYE_TOO_SHORT: return "the RTCP BYE ends inside its SSRCs";
    case CPAY_RTCP_REASON_TOO_SHORT: return "the RTCP BYE ends inside its reason";
    case CPAY_RTCP_FEEDBACK_TOO_SHORT: return "the RTCP feedback ends inside its SSRCs";
    case CPAY_RTCP_NACK_LENGTH: return "the RTCP NACK has a wrong length";
    case CPAY_RTCP_PLI_LENGTH: return "the RTCP PLI has a wrong length";
    case CPAY_RTCP_FIR_LENGTH: return "the RTCP FIR has a wrong length";
    case CPAY_REMB_TOO_SHORT: return "REMB is shorter than its bitrate";
    case CPAY_REMB_OTHER: return "the feedback is not REMB";
    case CPAY_REMB_TOO_LARGE: return "the bitrate of REMB has more than 64 bits";
    case CPAY_REMB_SOURCES_TOO_SHORT: return "REMB ends inside its SSRCs";
    case CPAY_TRANSPORT_HEADER_TOO_SHORT: return "the transport-wide feedback is shorter than its header";
    case CPAY_TRANSPORT_CHUNKS_TOO_SHORT: return "the transport-wide feedback ends inside its chunks";
    case CPAY_TRANSPORT_RESERVED: return "the transport-wide feedback has a reserved status";
    case CPAY_TRANSPORT_DELTAS_TOO_SHORT: return "the transport-wide feedback ends inside its deltas";
    case CPAY_EXTENSION_PROFILE: return "the header extension has no elements";
    case CPAY_EXTENSION_ROOM: return "the header extension has no room for the number";
    case CPAY_UNIT_TOO_LARGE: return "the unit is larger than the settings allow";
    case CPAY_QUEUE_FULL: return "more bytes would wait than the settings allow";
    case CPAY_CCFB_TOO_SHORT: return "the RFC 8888 feedback is shorter than its SSRC and its timestamp";
    case CPAY_CCFB_BLOCK_TOO_SHORT: return "the RFC 8888 feedback ends inside the head of a block";
    case CPAY_CCFB_TOO_MANY: return "the RFC 8888 feedback has a block of more than 16384 packets";
    case CPAY_CCFB_METRICS_TOO_SHORT: return "the RFC 8888 feedback ends inside the packets of a block";
    case CPAY_FEC_HEADER_TOO_SHORT: return "the FEC packet is shorter than its header";
    case CPAY_FEC_EXTENDED: return "the FEC packet has its extension flag set";
    case CPAY_FEC_LEVEL_TOO_SHORT: return "the FEC packet ends inside the header of level 0";
    case CPAY_FEC_EMPTY_MASK: return "the FEC packet protects no packet";
    case CPAY_FEC_PAYLOAD_TOO_SHORT: return "the FEC packet ends inside the payload of level 0";
    case CPAY_FEC_STREAMS: return "the streams of the port with FEC are not 1 to 256";
    case CPAY_FEC_PAYLOAD_TYPE: return "a payload type of the settings is out of range";
    case CPAY_FEC_TWO_MEANINGS: return "a payload type of the settings has two meanings";
    case CPAY_FEC_PACKET_TOO_LARGE: return "the packet exceeds 65547 bytes";
    case CPAY_FEC_OTHER_STREAM: return "the packet is of another stream";
    case CPAY_FEC_PACKET_TYPE: return "the packet has the payload type of RED or of ULPFEC";
    case CPAY_FEC_TOO_OLD: return "the packet comes too late";
    default: return "unknown status";
    }
}

/** Returns an English text for each reason why a stream ended: `why` of an event or of a stream. */
static inline const char *cpay_ending_text(cpay_ending why) {
    switch (why) {
    case CPAY_ENDED_BY_BYE: return "a BYE";
    case CPAY_ENDED_BY_TIMEOUT: return "the idle timeout";
    case CPAY_ENDED_BY_CALL: return "a call";
    case CPAY_ENDED_BY_CHANGE: return "a change of format";
    default: return "unknown reason";
    }
}

/** Returns an English text for each kind of fault of the settings of a session. */
static inline const char *cpay_settings_fault_text(cpay_settings_fault_kind kind) {
    switch (kind) {
    case CPAY_SETTINGS_FIT: return "no fault";
    case CPAY_SETTINGS_TICK_RATE: return "the clock of the session has no rate";
    case CPAY_SETTINGS_FROM_KEYFRAME: return "from_keyframe has no such value";
    case CPAY_SETTINGS_RATE: return "the clock of the format has no rate";
    case CPAY_SETTINGS_LIMIT: return "the limit of held packets is not 1 to 65536";
    case CPAY_SETTINGS_MAX_STREAMS: return "the session has no place for a stream";
    case CPAY_SETTINGS_CODEC: return "the codec of the format has no depacketizer";
    case CPAY_SETTINGS_RED_STEP: return "the RED step of the format is not 1 to 16383";
    case CPAY_SETTINGS_PAYLOAD_TYPE: return "the payload type is not 0 to 63 or 96 to 127";
    case CPAY_SETTINGS_TWO_MEANINGS: return "the payload type has two meanings";
    case CPAY_SETTINGS_CNAME: return "the canonical name does not have 1 to 255 bytes";
    case CPAY_SETTINGS_TRANSPORT_ID: return "the extension id of the transport is 0";
    case CPAY_SETTINGS_TRANSPORT_WINDOW: return "the window of the transport is not 1 to 32768";
    default: return "unknown fault";
    }
}

#ifdef __cplusplus
}
#endif

#include "codec_payload_media.h"

#endif
