/** @file
 * codec_payload: calls that read payloads and frames, for C and C++: VP8 descriptors, reports on telephone events, keyframes,
 * the first and last packets of units, and headers of frames. codec_payload.h includes this file; its rules for all calls
 * apply here. No call here allocates. */
#ifndef CODEC_PAYLOAD_MEDIA_H
#define CODEC_PAYLOAD_MEDIA_H

#include "codec_payload.h"

#ifdef __cplusplus
extern "C" {
#endif

/* ---- VP8 descriptors (RFC 7741, section 4.2) ---- */

typedef struct {
    uint16_t picture_id; /**< 7 or 15 bits */
    uint8_t tl0_pic_idx;
    uint8_t key_idx; /**< 0 to 31 */
    bool has_picture_id;
    bool has_tl0_pic_idx;
    bool has_key_idx;
    uint8_t picture_id_bits; /**< width of the picture id in bits: 7 or 15, or 0 without one; cpay_vp8_patch ignores this field
                                  and keeps the width */
} cpay_vp8_fields_info;

/** Reads the fields of a payload's descriptor, and whether a keyframe starts in the payload. CPAY_SHORT_PACKET: a byte of the
 * descriptor is missing, or no byte follows it. CPAY_VP8_CORRUPTED: TL0PICIDX is present without a temporal layer. */
CPAY_CHECKED cpay_status cpay_vp8_fields(const uint8_t *payload, size_t payload_len, cpay_vp8_fields_info *fields,
                                         bool *starts_keyframe);

/** Overwrites the fields of a payload's descriptor that are set in `values`, in place; no byte moves. CPAY_NONE: a field is
 * absent from the descriptor. CPAY_INVALID: a value does not fit its field. If the call fails, the payload is unchanged. */
CPAY_CHECKED cpay_status cpay_vp8_patch(uint8_t *payload, size_t payload_len, const cpay_vp8_fields_info *values);

/* ---- Telephone events (RFC 4733) ---- */

/** Reads report `index`, from 0, of a telephone-event payload. `rate` is the rate of the clock that durations count, in hertz.
 * CPAY_NONE: `index` is past the last report. CPAY_TELE_INVALID: the payload does not consist of whole reports. CPAY_INVALID:
 * `rate` is 0. */
CPAY_CHECKED cpay_status cpay_tele_read(const uint8_t *payload, size_t payload_len, uint32_t rate, size_t index,
                                        cpay_tele_event *event);

/** Writes the four bytes of a report. CPAY_INVALID: `rate` is 0, or the duration exceeds 65535 ticks. */
CPAY_CHECKED cpay_status cpay_tele_write(const cpay_tele_event *event, uint32_t rate, uint8_t *bytes, size_t bytes_len);

/* ---- Questions about one payload ---- */

/** Returns whether a keyframe starts in a payload of VP8. */
bool cpay_vp8_is_keyframe(const uint8_t *payload, size_t payload_len);

/** Returns whether a payload of VP9 says that its frame depends on no other frame. */
bool cpay_vp9_is_keyframe(const uint8_t *payload, size_t payload_len);

/** Returns whether a whole frame of VP9, without a payload descriptor, is a keyframe. */
bool cpay_vp9_frame_is_keyframe(const uint8_t *frame, size_t frame_len);

/** Returns whether a new coded video sequence starts in a payload of AV1. */
bool cpay_av1_is_keyframe(const uint8_t *payload, size_t payload_len);

/** Reports whether a payload begins a unit, or ends one if its RTP header has this marker. CPAY_INVALID: unsupported codec. */
CPAY_CHECKED cpay_status cpay_is_head(cpay_codec codec, const uint8_t *payload, size_t payload_len, bool *is_head);
CPAY_CHECKED cpay_status cpay_is_tail(cpay_codec codec, bool marker, const uint8_t *payload, size_t payload_len, bool *is_tail);

/** Reports whether a payload is the first packet of a keyframe, so that a viewer can begin with it. A forwarder begins with the
 * same packets: see cpay_forwarder_write, which has them by codec. For codecs of audio each packet is one. CPAY_INVALID:
 * unsupported codec. */
CPAY_CHECKED cpay_status cpay_begins_keyframe(cpay_codec codec, const uint8_t *payload, size_t payload_len, bool *begins);

/** The temporal layer of a packet. */
typedef struct {
    uint8_t id; /**< TID: 0 is the base layer */
    bool sync;  /**< VP8: Y, the frame refers to frames of the base layer alone. VP9: U, from this frame on a decoder can have a
                     higher layer */
} cpay_temporal_layer_info;

/** Reads the temporal layer of a payload of VP8 (RFC 7741, section 4.2) or VP9 (RFC 9628, section 4.2). A server leaves packets out
 * by it: see cpay_forwarder_leave_out. CPAY_NONE: the payload names no layer, or the codec is another one. */
CPAY_CHECKED cpay_status cpay_temporal_layer(cpay_codec codec, const uint8_t *payload, size_t payload_len,
                                             cpay_temporal_layer_info *layer);

/** What a packet says of the spatial layer that it belongs to. For AV1 take it from the dependency descriptor. */
typedef struct {
    uint8_t layer; /**< SID: 0 is the lowest layer */
    bool begins;   /**< the packet is the first one of its layer in a picture */
    bool ends;     /**< the packet is the last one of its layer in a picture */
    bool intra;    /**< the layer's frame refers to no picture before it */
} cpay_spatial_place_info;

/** Reads the place of a payload of VP9 (RFC 9628, section 4.2): SID, B, E, and whether P is clear. Without layers (L is clear) the
 * layer is 0. CPAY_NONE: the payload is empty, or ends before SID. */
CPAY_CHECKED cpay_status cpay_vp9_spatial_place(const uint8_t *payload, size_t payload_len, cpay_spatial_place_info *place);

/** Which spatial layers a viewer gets of one source. Begin with { 0 } and the layer that it wants; later change `wanted` alone. */
typedef struct {
    uint64_t since;   /**< the extended number of the first packet for which `kept` holds */
    uint64_t highest; /**< the highest extended number that was taken */
    bool has_highest;
    uint8_t wanted;   /**< the highest layer that the viewer wants. A fall takes effect with the next picture, a rise with the
                           next one whose lowest layer is intra: request a keyframe */
    uint8_t kept;     /**< the highest layer that is kept */
    uint8_t before;   /**< the highest layer that was kept below `since` */
} cpay_spatial_filter_state;

/** Takes the next packet of the source, with its marker in *marker. CPAY_OK: set its marker (0x80 of its second byte) to *marker,
 * and pass it to cpay_forwarder_write. CPAY_NONE: pass it to cpay_forwarder_leave_out; *marker is unchanged. The marker is set on
 * the last packet of the highest layer that is kept. Packets may come in any order, less than 32,768 numbers from the highest. */
CPAY_CHECKED cpay_status cpay_spatial_filter_take(cpay_spatial_filter_state *filter, uint16_t number,
                                                  const cpay_spatial_place_info *place, bool *marker);

/** Returns the same for a packet that was taken before, for a request. Of the changes between layers the filter knows the latest. A
 * store that has packets as they arrived has their own markers: answer a request from what was sent to the viewer. */
CPAY_CHECKED cpay_status cpay_spatial_filter_again(const cpay_spatial_filter_state *filter, uint16_t number,
                                                   const cpay_spatial_place_info *place, bool *marker);

/** Returns the extended sequence number of a packet: the number nearest to `previous`, the highest so far, whose low 16 bits
 * equal `number`; half the range counts as ahead. The first packet gets its 16 bits unchanged. If packets from before the first
 * one may still arrive, begin with 65536 as the previous number. */
uint64_t cpay_extend_number(uint64_t previous, bool has_previous, uint16_t number);

/* ---- Headers of frames, as encoders give them; a unit after a loss can lack its first bytes ---- */

/** Facts from the bytes of a frame. Missing facts are 0. */
typedef struct {
    uint64_t duration; /**< audio: in ticks of the RTP clock */
    uint32_t width;    /**< in pixels; AV1: the largest of the sequence header */
    uint32_t height;
    bool has_keyframe; /**< `keyframe` is set: always for VP8 and VP9, for AV1 if the unit has a frame header */
    bool keyframe;
    bool has_size; /**< VP8: keyframes; VP9: keyframes and intra-only frames; AV1: units with a sequence header */
    bool has_duration;
} cpay_frame_facts;

/** Reads facts from the bytes of a frame of VP8, VP9, AV1, Opus, AMR-WB (in storage form), G.711 or G.722. Other and unsupported
 * codecs give no facts. CPAY_FRAME_TOO_SHORT to CPAY_FRAME_SIZES: the frame is malformed; the status is the first fault from
 * left to right. Reads only as many bytes as it needs. */
CPAY_CHECKED cpay_status cpay_frame_info(cpay_codec codec, const uint8_t *frame, size_t frame_len, cpay_frame_facts *facts);

/** An OBU of a temporal unit. */
typedef struct {
    size_t start; /**< start of its payload in the unit; the next OBU begins at start + bytes */
    size_t bytes;
    uint8_t obu_type;    /**< 1 a sequence header, 2 a temporal delimiter, 3 a frame header, 6 a frame */
    uint8_t temporal_id; /**< layers; 0 if the OBU has no extension */
    uint8_t spatial_id;
    bool has_extension;
} cpay_obu_info;

/** Reads the OBU at an offset of a temporal unit: 0 for the first, then each start + bytes for the next. CPAY_NONE: the end.
 * CPAY_INVALID: an offset beyond the end. CPAY_FRAME_TOO_SHORT to CPAY_FRAME_SIZES: the OBU is malformed. */
CPAY_CHECKED cpay_status cpay_av1_obu(const uint8_t *unit, size_t unit_len, size_t offset, cpay_obu_info *info);

/** A frame of an AMR-WB unit. */
typedef struct {
    size_t start; /**< start of its speech in the unit; the next frame begins at start + bytes */
    size_t bytes;
    uint8_t frame_type; /**< 0 to 8 speech, 9 comfort noise, 14 lost, 15 no data */
    bool quality;       /**< whether the frame is undamaged */
} cpay_amr_wb_frame_info;

/** Reads the frame at an offset of an AMR-WB unit in storage form, in the same way as cpay_av1_obu. Each frame lasts 20 ms. */
CPAY_CHECKED cpay_status cpay_amr_wb_frame(const uint8_t *unit, size_t unit_len, size_t offset, cpay_amr_wb_frame_info *info);

/** A frame of a VP9 unit. */
typedef struct {
    size_t start; /**< start of the frame in the unit; the next frame begins at start + bytes */
    size_t bytes;
} cpay_vp9_frame_info;

/** Finds frame `index`, from 0, of a VP9 unit: for a superframe the frames of the index at its end, hidden ones included;
 * otherwise the unit is the only frame. CPAY_NONE: fewer frames. CPAY_FRAME_TOO_SHORT: an empty unit. CPAY_FRAME_SIZES: the
 * frames together are longer than the bytes before the index. Reads only the index. */
CPAY_CHECKED cpay_status cpay_vp9_frame(const uint8_t *unit, size_t unit_len, size_t index, cpay_vp9_frame_info *info);

/** Writes the av1C record of a stream (AV1 codec ISO media file format binding, 2.3), 4 bytes and the OBU, from its sequence
 * header OBU with header and size. *size is written with CPAY_OK and CPAY_TOO_SMALL. CPAY_INVALID: another OBU, or bytes after
 * it. */
CPAY_CHECKED cpay_status cpay_av1c(const uint8_t *obu, size_t obu_len, uint8_t *bytes, size_t bytes_len, size_t *size);

/** Writes the 19 bytes of an Opus stream's identification header (RFC 7845, 5.1), without gain, in mapping family 0. `pre_skip`
 * counts samples at 48 kHz; `input_sample_rate` is the rate of the input in hertz, or 0. CPAY_INVALID: `channels` is not 1 or 2. */
CPAY_CHECKED cpay_status cpay_opus_head(uint8_t channels, uint16_t pre_skip, uint32_t input_sample_rate, uint8_t *bytes,
                                        size_t bytes_len);

#ifdef __cplusplus
}
#endif

#endif
