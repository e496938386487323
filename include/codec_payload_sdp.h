/** @file
 * codec_payload_sdp: from a session description (SDP, RFC 8866) to the settings of receivers and of sessions, for C and C++.
 *
 * cpay_sdp_read reads the `m=` sections of a description: payload types and what each is for, ids of header extensions, SSRCs,
 * feedback, names of sections and layers, direction, ICE, DTLS. cpay_sdp_receiver turns a section into settings of a receiver,
 * cpay_sdp_session all sections of a port into settings of a session, and cpay_sdp_fec_port into those of a port with FEC in
 * front of it. None of them allocates. Any bytes may be given. This
 * part is ordinary C, tested with sanitizers and by fuzzing; unlike the rest of the library it is not proved. codec_payload.h does
 * not include this file. The rules of codec_payload.h for pointers and for failing calls apply. */
#ifndef CODEC_PAYLOAD_SDP_H
#define CODEC_PAYLOAD_SDP_H

#include "codec_payload.h"

#ifdef __cplusplus
extern "C" {
#endif

/** Bounds. A description above one of them is refused. */
enum {
    CPAY_SDP_MAX_MEDIA = 1024,     /**< `m=` sections of a description */
    CPAY_SDP_MAX_FORMATS = 128,    /**< payload types of a section: all that exist */
    CPAY_SDP_MAX_SOURCES = 128,    /**< SSRCs of a section, and apart from them SSRCs of repair */
    CPAY_SDP_MAX_PAIRS = 1024,     /**< pairs of SSRCs in the settings of a session */
    CPAY_SDP_MAX_FINGERPRINTS = 8, /**< fingerprints of a section */
    CPAY_SDP_NAME = 32             /**< bytes of an encoding name with the 0 at its end; a longer name is cut */
};

/** Room in a section. Further ones are counted. */
enum {
    CPAY_SDP_MAX_CANDIDATES = 64,
    CPAY_SDP_MAX_RIDS = 16,
    CPAY_SDP_MAX_LAYERS = 32,
    CPAY_SDP_MAX_MSIDS = 8
};

/** A piece of the description, as it was written. It points into the text that you passed: keep that text as long. `len` is 0 if
 * the description has none. There is no 0 at its end: print it by `printf("%.*s", (int)it.len, it.at)`. */
typedef struct {
    const char *at;
    size_t len;
} cpay_sdp_text;

/** Returns the next word of `*rest`, and moves `*rest` behind it. Words are separated by spaces or tabs. `len` is 0 at the end.
 * For `mids` of a group, `ice_options`, and candidates. */
cpay_sdp_text cpay_sdp_word(cpay_sdp_text *rest);

/** Whether a text is `other`, case included. */
bool cpay_sdp_text_is(cpay_sdp_text it, const char *other);

/** What a payload type is for: the field `role` of a cpay_sdp_format. */
enum {
    CPAY_SDP_IGNORED = 0,        /**< a codec that the library lacks, or a payload type without `a=rtpmap` */
    CPAY_SDP_MEDIA = 1,          /**< media of a codec of the library */
    CPAY_SDP_RED = 2,            /**< redundant audio, or video with error correction (RFC 2198) */
    CPAY_SDP_RETRANSMISSION = 3, /**< retransmissions (RFC 4588) */
    CPAY_SDP_EVENTS = 4,         /**< telephone events (RFC 4733) */
    CPAY_SDP_COMFORT_NOISE = 5,  /**< comfort noise (RFC 3389) */
    CPAY_SDP_FEC = 6             /**< forward error correction (RFC 5109, RFC 8627) */
};

/** A payload type of an `m=` line, with its `a=rtpmap`, `a=fmtp` and `a=rtcp-fb` lines. */
typedef struct {
    cpay_codec codec;         /**< of media: CPAY_OPUS and so on; of events CPAY_TELE, of comfort noise CPAY_CN, else CPAY_NULL */
    uint32_t clock_rate;      /**< of the RTP clock, in hertz; 0 if neither `a=rtpmap` nor RFC 3551 gives it */
    uint32_t channels;        /**< of audio; 1 if the description gives none */
    uint32_t profile;         /**< VP9: `profile-id` (RFC 9628, section 6); AV1: `profile`; 0 by default */
    uint8_t payload_type;     /**< 0 to 127 */
    uint8_t role;             /**< CPAY_SDP_MEDIA and so on */
    uint8_t of;               /**< with has_of: the payload type that is retransmitted (`apt`), or of the primary block in RED */
    bool has_of;              /**< the description gives `of`; only for RED and retransmissions */
    bool octet_align;         /**< AMR-WB: `octet-align=1` (RFC 4867, section 8.1) */
    bool nack;                /**< `nack`: packets may be requested (RFC 4585, section 4.2) */
    bool pli;                 /**< `nack pli`: keyframes may be requested */
    bool fir;                 /**< `ccm fir` (RFC 5104, section 7.1) */
    bool transport_cc;        /**< `transport-cc` */
    bool remb;                /**< `goog-remb` */
    char name[CPAY_SDP_NAME]; /**< the encoding name, as it was written; empty if there is none */
    cpay_sdp_text fmtp;       /**< what follows the payload type in its last `a=fmtp` (RFC 8866, section 6.15) */
} cpay_sdp_format;

/** An SSRC of media, by `a=ssrc` or `a=ssrc-group` (RFC 5576). SSRCs of repair alone are left out. */
typedef struct {
    uint32_t ssrc;
    uint32_t rtx_ssrc; /**< with has_rtx: the second SSRC of its FID group, for retransmissions */
    bool has_rtx;
} cpay_sdp_source;

/** The kind of media of a section. */
enum { CPAY_SDP_OTHER = 0, CPAY_SDP_AUDIO = 1, CPAY_SDP_VIDEO = 2 };

/** Which way media of a section goes, as its author sees it (RFC 8866, section 6.7). */
enum { CPAY_SDP_SENDRECV = 0, CPAY_SDP_SENDONLY = 1, CPAY_SDP_RECVONLY = 2, CPAY_SDP_INACTIVE = 3 };

/** `a=setup`: who begins DTLS (RFC 4145, section 4; RFC 5763, section 5). */
enum { CPAY_SDP_NO_SETUP = 0, CPAY_SDP_ACTIVE = 1, CPAY_SDP_PASSIVE = 2, CPAY_SDP_ACTPASS = 3, CPAY_SDP_HOLDCONN = 4 };

/** `a=fingerprint`: of a certificate for DTLS (RFC 8122, section 5). */
typedef struct {
    cpay_sdp_text hash;  /**< the hash function, such as `sha-256`; compare it without case */
    cpay_sdp_text value; /**< pairs of hexadecimal digits, with `:` between them */
} cpay_sdp_fingerprint;

/** ICE (RFC 8839) and DTLS of a section. What a section lacks is that of the session, except candidates. In a bundle only the first
 * section of the group needs these lines (RFC 9143, section 7.1.3). */
typedef struct {
    cpay_sdp_text ice_ufrag;   /**< `a=ice-ufrag` (section 5.4), 4 to 256 characters */
    cpay_sdp_text ice_pwd;     /**< `a=ice-pwd`, 22 to 256 characters */
    cpay_sdp_text ice_options; /**< `a=ice-options` (section 5.6): words */
    bool ice_lite;             /**< `a=ice-lite` of the session (section 5.3) */
    bool end_of_candidates;    /**< `a=end-of-candidates` (RFC 8840) */
    uint8_t setup;             /**< CPAY_SDP_ACTIVE and so on, or CPAY_SDP_NO_SETUP */
    size_t fingerprint_count;
    size_t candidate_count;
    size_t more_candidates; /**< candidates of the section that had no room */
    cpay_sdp_fingerprint fingerprints[CPAY_SDP_MAX_FINGERPRINTS];
    cpay_sdp_text candidates[CPAY_SDP_MAX_CANDIDATES]; /**< what follows `a=candidate:` (section 5.1): at least eight words */
} cpay_sdp_transport;

/** `a=msid`: the stream and the track of a section (RFC 8830, section 2). */
typedef struct {
    cpay_sdp_text stream; /**< `-`: a track without stream */
    cpay_sdp_text track;
} cpay_sdp_msid;

/** `a=rid`: a layer, or another stream that packets name by its id (RFC 8851, section 4). */
typedef struct {
    cpay_sdp_text id;
    cpay_sdp_text restrictions; /**< such as `pt=97;max-width=1280` */
    bool sent;                  /**< `send`; else `recv`, as the author of the description sees it */
} cpay_sdp_rid;

/** A layer of `a=simulcast` (RFC 8853, section 5.1). */
typedef struct {
    cpay_sdp_text rid; /**< its id, of an `a=rid` line */
    uint32_t stream;   /**< the number of its simulcast stream, from 0 in each direction; alternatives have the same number */
    bool sent;         /**< `send`; else `recv` */
    bool paused;       /**< `~`: not sent at first */
} cpay_sdp_layer;

/** `a=group`: sections that belong together (RFC 5888, section 5). */
typedef struct {
    cpay_sdp_text semantics; /**< such as `BUNDLE` (RFC 9143) */
    cpay_sdp_text mids;      /**< `mid` of each section: words */
} cpay_sdp_group;

/** An `m=` section. About 15 kB. If a line that may occur once occurs again, the last one counts. */
typedef struct {
    size_t line;                      /**< the number of its `m=` line, from 1 */
    uint16_t port;                    /**< of RTP; 0: the section is refused, or, with `bundle_only`, bundled with another */
    uint8_t kind;                     /**< CPAY_SDP_AUDIO and so on */
    uint8_t direction;                /**< CPAY_SDP_SENDRECV and so on; that of the session if the section has none */
    bool is_rtp;                      /**< its protocol is RTP; else it has no formats */
    bool encrypted;                   /**< SRTP, by protocol (RFC 3711, RFC 5764), `a=crypto` or `a=fingerprint` */
    bool rtcp_mux;                    /**< RTCP comes on the port of RTP (RFC 5761) */
    bool bundle_only;                 /**< `a=bundle-only`: port 0 refuses nothing (RFC 9143, section 6) */
    uint32_t packet_time;             /**< `a=ptime`, in microseconds; 0 if absent */
    cpay_extension_ids extension_ids; /**< ids of header extensions that the library reads and writes (RFC 8285); 0 if absent */
    uint8_t mid_id;                   /**< the same for `sdes:mid` (RFC 9143) */
    uint8_t rid_id;                   /**< `sdes:rtp-stream-id` (RFC 8852) */
    uint8_t repaired_rid_id;          /**< `sdes:repaired-rtp-stream-id` (RFC 8852) */
    uint8_t transport_cc_id;          /**< transport-wide sequence numbers */
    uint8_t send_time_id;             /**< abs-send-time */
    uint8_t offset_id;                /**< transmission time offset (RFC 5450) */
    uint8_t dependency_descriptor_id; /**< dependency descriptor (AV1 RTP specification, appendix A) */
    bool receiver_rtt;                /**< `a=rtcp-xr` with `rcvr-rtt`, for all or for senders (RFC 3611, section 5.1), in the
                                           section or the session: extended reports measure the round trip. Repeat the line in
                                           an answer; `extended` of cpay_session_feedback is set by default */
    cpay_sdp_text type;               /**< of media, such as `audio`: the first word of the `m=` line, which an answer repeats */
    cpay_sdp_text protocol;           /**< the third word of the `m=` line, such as `UDP/TLS/RTP/SAVPF` */
    cpay_sdp_text mid;                /**< `a=mid`: the name of the section (RFC 5888, section 4) */
    cpay_sdp_transport transport;     /**< ICE and DTLS */
    size_t msid_count, more_msids;    /**< `a=msid` lines, and those that had no room; 0 if not RTP */
    size_t rid_count, more_rids;      /**< `a=rid` lines, the same */
    size_t layer_count, more_layers;  /**< layers of `a=simulcast`, the same */
    size_t format_count;
    size_t source_count;
    cpay_sdp_msid msids[CPAY_SDP_MAX_MSIDS];
    cpay_sdp_rid rids[CPAY_SDP_MAX_RIDS];
    cpay_sdp_layer layers[CPAY_SDP_MAX_LAYERS]; /**< in the order of the line */
    cpay_sdp_format formats[CPAY_SDP_MAX_FORMATS]; /**< in the order of the `m=` line */
    cpay_sdp_source sources[CPAY_SDP_MAX_SOURCES]; /**< in the order of their first lines */
} cpay_sdp_media;

/** What is wrong with a description. */
typedef enum {
    CPAY_SDP_NO_ERROR = 0,
    CPAY_SDP_BAD_LINE = 1,         /**< not a letter of RFC 8866, section 5, and `=` */
    CPAY_SDP_BAD_MEDIA = 2,        /**< `m=` without media, port 0 to 65535, protocol, or formats of RTP */
    CPAY_SDP_BAD_PAYLOAD_TYPE = 3, /**< a payload type is not a number from 0 to 127 */
    CPAY_SDP_BAD_RTPMAP = 4,       /**< not NAME/RATE or NAME/RATE/CHANNELS, or a number in it is 0 */
    CPAY_SDP_BAD_FMTP = 5,         /**< a parameter that is read has no value of its range */
    CPAY_SDP_BAD_EXTMAP = 6,       /**< no id, an id above 255, no URI, or one id for two extensions */
    CPAY_SDP_BAD_SSRC = 7,         /**< an SSRC is not a number of 32 bits */
    CPAY_SDP_BAD_PTIME = 8,        /**< not a number of milliseconds above 0, at most 100000 */
    CPAY_SDP_BAD_RTCP_FB = 9,      /**< `a=rtcp-fb` without a type */
    CPAY_SDP_TOO_MANY_MEDIA = 10,  /**< more than CPAY_SDP_MAX_MEDIA sections */
    CPAY_SDP_TOO_MANY_SOURCES = 11, /**< more than CPAY_SDP_MAX_SOURCES SSRCs in a section */
    CPAY_SDP_BAD_MID = 12,          /**< `a=mid` is not one word */
    CPAY_SDP_BAD_MSID = 13,         /**< `a=msid` is not one or two words */
    CPAY_SDP_BAD_RID = 14,          /**< `a=rid` without an id of letters, digits, `-`, `_`, or without `send` or `recv` */
    CPAY_SDP_BAD_SIMULCAST = 15,    /**< `a=simulcast` is not `send` or `recv` with ids, each at most once */
    CPAY_SDP_BAD_ICE_UFRAG = 16,    /**< not 4 to 256 letters, digits, `+`, `/`, or, of older peers, `-`, `_`, `=`, `#` */
    CPAY_SDP_BAD_ICE_PWD = 17,      /**< not 22 to 256 of the same characters */
    CPAY_SDP_BAD_ICE_OPTIONS = 18,  /**< `a=ice-options` without an option */
    CPAY_SDP_BAD_CANDIDATE = 19,    /**< not at least eight words, the seventh `typ` */
    CPAY_SDP_BAD_FINGERPRINT = 20,  /**< not a hash function, and pairs of hexadecimal digits with `:` between them */
    CPAY_SDP_BAD_SETUP = 21,        /**< none of `active`, `passive`, `actpass` and `holdconn` */
    CPAY_SDP_BAD_GROUP = 22,        /**< `a=group` without semantics */
    CPAY_SDP_TOO_MANY_FINGERPRINTS = 23 /**< more than CPAY_SDP_MAX_FINGERPRINTS of a section */
} cpay_sdp_error;

typedef struct {
    size_t line; /**< from 1 */
    cpay_sdp_error error;
} cpay_sdp_fault;

/** Reads all `m=` sections of a description of `text_len` bytes into `media`, in order, and writes their number to *count. Lines
 * end with LF or CRLF. Attributes that the library does not need are ignored, as are attributes of a payload type that the `m=`
 * line does not have. `media` points into the text. Cost: reads the text four times.
 *
 * CPAY_INVALID: a line is malformed; *fault has its number and the reason. CPAY_TOO_SMALL: `media_len` is too small; *count is the
 * number of sections. If the call fails, all else is unchanged. */
CPAY_CHECKED cpay_status cpay_sdp_read(const char *text, size_t text_len, cpay_sdp_media *media, size_t media_len, size_t *count,
                                       cpay_sdp_fault *fault);

/** Reads the groups in front of the first `m=` section into `groups`, in order, and writes their number to *count. Other lines are
 * ignored: cpay_sdp_read finds what is wrong with them. `groups` points into the text.
 *
 * CPAY_INVALID: a group is malformed; *fault has its line. CPAY_TOO_SMALL: `groups_len` is too small; *count is the number of
 * groups. If the call fails, all else is unchanged. */
CPAY_CHECKED cpay_status cpay_sdp_groups(const char *text, size_t text_len, cpay_sdp_group *groups, size_t groups_len,
                                         size_t *count,
                                         cpay_sdp_fault *fault);

/** Returns the format of a payload type, or NULL if the section has none. */
const cpay_sdp_format *cpay_sdp_format_of(const cpay_sdp_media *media, uint8_t payload_type);

/** Writes settings of a receiver for media of a payload type. The payload types without media (events, comfort noise, error
 * correction) go to the front of `no_media`, and their number to *no_media_len. Pass both to cpay_receiver_new.
 *
 * - Wait limits: for live audio or video, with retransmission if `a=rtcp-fb` has nack for the payload type.
 * - RED: the RED format over the payload type, or one that names no payload type. The step is `a=ptime`, 20 ms by default, in ticks
 *   of the RTP clock, 1 to 16383. If a format of RTX has the payload type of RED as `apt`, retransmitted RED is set too.
 * - If the section has exactly one SSRC of media, it is the SSRC of the stream. If it has retransmissions, and a format of RTX has
 *   the payload type as `apt`, they are set too.
 * - Ids of header extensions, with `dependency_descriptor`.
 *
 * CPAY_INVALID: the section has no media of this payload type. */
CPAY_CHECKED cpay_status cpay_sdp_receiver(const cpay_sdp_media *media, uint8_t payload_type, cpay_receiver_settings *settings,
                                           uint8_t no_media[CPAY_SDP_MAX_FORMATS], size_t *no_media_len);

/** Settings of a session: what cpay_session_new takes. About 13 kB. */
typedef struct {
    cpay_session_settings settings;
    size_t formats_len;
    size_t no_media_len;
    size_t pairs_len;
    cpay_session_format formats[CPAY_SDP_MAX_FORMATS];
    uint8_t no_media[CPAY_SDP_MAX_FORMATS]; /**< CPAY_TELEPHONE is added to payload types of telephone events */
    cpay_ssrc_pair pairs[CPAY_SDP_MAX_PAIRS];
} cpay_sdp_session_settings;

/** Why the sections of a port give no settings of a session. */
typedef enum {
    CPAY_SDP_NO_CLASH = 0,
    CPAY_SDP_NO_MEDIA = 1,              /**< no section has media of a codec of the library */
    CPAY_SDP_PAYLOAD_TYPE_CLASHES = 2,  /**< a payload type is 64 to 95 (RFC 5761, section 4) or above 127, or two
                                             sections use it differently */
    CPAY_SDP_EXTENSION_ID_CLASHES = 3,  /**< two sections use an id for different header extensions, or another id for the same */
    CPAY_SDP_TOO_MANY_PAIRS = 4         /**< more than CPAY_SDP_MAX_PAIRS pairs of SSRCs */
} cpay_sdp_session_error;

typedef struct {
    uint8_t value; /**< the payload type or the id that clashes; of other errors 0 */
    cpay_sdp_session_error error;
} cpay_sdp_session_fault;

/** Writes settings of a session that receives these sections on one port: all sections of a bundle (RFC 9143), or the one section
 * of a port that has no other section. Leave out sections that were refused. Sections that are not RTP are ignored.
 *
 * - Formats: all media, in the order of the sections. RED is over the payload type that it names first; RED that names none is over
 *   the first format of media of its section. Retransmissions have the first format of RTX whose `apt` is the payload type, and
 *   those of RED the first one whose `apt` is RED's. `nack` and `pli` are as in `a=rtcp-fb`. If two sections have a payload type,
 *   packets or keyframes of it are requested only if both agree on that. If RED that names no payload type would be over two
 *   formats, it is over the first. Video has no RED if the section lists `ulpfec` or other error correction: put a cpay_fec_port
 *   in front of the session (cpay_sdp_fec_port), or refuse `red` and `ulpfec` of video. RED of audio stays.
 * - `no_media`: comfort noise, error correction, and telephone events, whose packets polls report.
 * - Pairs of SSRCs (`a=ssrc-group:FID`), and ids of header extensions, of all sections: those of values, those of MID, RID and
 *   repaired RID (`name_ids`), and `dependency_descriptor`.
 * - Wait limits: for live audio and video, with retransmission if a format of the kind has `nack`.
 * - Transport: the id of transport-wide-cc, if a section has its `a=extmap` and a format of media has `transport-cc`. So pass the
 *   description that both sides agreed on, or the offer if you accept both.
 * - All else is as cpay_session_settings_init sets it. Nothing is requested until you call cpay_session_settings_feedback.
 *
 * A later description may have further pairs: pass each source with `has_rtx` to cpay_session_add_pair. The cost is a step for each
 * format and each SSRC.
 *
 * cpay_session_new accepts the settings. CPAY_INVALID: *fault has the reason. If the call fails, all else is unchanged. */
CPAY_CHECKED cpay_status cpay_sdp_session(const cpay_sdp_media *media, size_t media_len, cpay_sdp_session_settings *session,
                                          cpay_sdp_session_fault *fault);

/** Settings of a port with FEC: what cpay_fec_port_new takes. */
typedef struct {
    cpay_fec_port_settings settings;
    size_t retransmissions_len;
    cpay_retransmission_type retransmissions[CPAY_SDP_MAX_FORMATS];
} cpay_sdp_fec_port_settings;

/** Writes settings of a cpay_fec_port in front of a session whose settings cpay_sdp_session wrote for the same sections.
 *
 * - RED and ULPFEC: the first ones of the first section of video that has both. RED whose `a=fmtp` names payload types is none.
 * - Retransmissions: the payload type whose `apt` is RED, and for each format of media of the section the one whose `apt` is it.
 * - Late elements: the ids of the section for the transport-wide number, abs-send-time, toffset and video-timing.
 * - All else is as cpay_fec_port_settings_init sets it.
 *
 * cpay_fec_port_new accepts the settings. CPAY_NONE: no section has both, or a payload type is 64 to 95 (RFC 5761, section 4). If
 * the call fails, *port is unchanged. */
CPAY_CHECKED cpay_status cpay_sdp_fec_port(const cpay_sdp_media *media, size_t media_len, cpay_sdp_fec_port_settings *port);

/** A text for each error, in English. */
static inline const char *cpay_sdp_session_error_text(cpay_sdp_session_error error) {
    switch (error) {
    case CPAY_SDP_NO_CLASH: return "no error";
    case CPAY_SDP_NO_MEDIA: return "no media of a supported codec";
    case CPAY_SDP_PAYLOAD_TYPE_CLASHES: return "payload type is 64 to 95, exceeds 127 or has two uses";
    case CPAY_SDP_EXTENSION_ID_CLASHES: return "header extension id differs between sections";
    case CPAY_SDP_TOO_MANY_PAIRS: return "more than 1024 pairs of SSRCs";
    default: return "unknown error";
    }
}

/** A text for each error, in English. */
static inline const char *cpay_sdp_error_text(cpay_sdp_error error) {
    switch (error) {
    case CPAY_SDP_NO_ERROR: return "no error";
    case CPAY_SDP_BAD_LINE: return "not a line of SDP";
    case CPAY_SDP_BAD_MEDIA: return "m= line without media, port, protocol or formats";
    case CPAY_SDP_BAD_PAYLOAD_TYPE: return "payload type is not 0 to 127";
    case CPAY_SDP_BAD_RTPMAP: return "rtpmap is not NAME/RATE or NAME/RATE/CHANNELS";
    case CPAY_SDP_BAD_FMTP: return "fmtp parameter out of range";
    case CPAY_SDP_BAD_EXTMAP: return "extmap without id or URI, or id used twice";
    case CPAY_SDP_BAD_SSRC: return "SSRC is not a number of 32 bits";
    case CPAY_SDP_BAD_PTIME: return "ptime is not a time of at most 100000 milliseconds";
    case CPAY_SDP_BAD_RTCP_FB: return "rtcp-fb without a type";
    case CPAY_SDP_TOO_MANY_MEDIA: return "more than 1024 media sections";
    case CPAY_SDP_TOO_MANY_SOURCES: return "more than 128 SSRCs in a section";
    case CPAY_SDP_BAD_MID: return "mid is not one word";
    case CPAY_SDP_BAD_MSID: return "msid is not one or two words";
    case CPAY_SDP_BAD_RID: return "rid without id, or without send or recv";
    case CPAY_SDP_BAD_SIMULCAST: return "simulcast is not send or recv with ids";
    case CPAY_SDP_BAD_ICE_UFRAG: return "ice-ufrag is not 4 to 256 characters of ICE";
    case CPAY_SDP_BAD_ICE_PWD: return "ice-pwd is not 22 to 256 characters of ICE";
    case CPAY_SDP_BAD_ICE_OPTIONS: return "ice-options without an option";
    case CPAY_SDP_BAD_CANDIDATE: return "candidate lacks a field";
    case CPAY_SDP_BAD_FINGERPRINT: return "fingerprint is not a hash function and pairs of hexadecimal digits";
    case CPAY_SDP_BAD_SETUP: return "setup is not active, passive, actpass or holdconn";
    case CPAY_SDP_BAD_GROUP: return "group without semantics";
    case CPAY_SDP_TOO_MANY_FINGERPRINTS: return "more than 8 fingerprints in a section";
    default: return "unknown error";
    }
}

#ifdef __cplusplus
}
#endif

#endif
