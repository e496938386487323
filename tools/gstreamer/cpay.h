/* The elements of the plugin share this: a table of the codecs, and session descriptions from caps. */
#ifndef CPAY_H
#define CPAY_H

#include <codec_payload.h>
#include <codec_payload_sdp.h>
#include <gst/gst.h>

G_BEGIN_DECLS

/** A codec as GStreamer names it. */
typedef struct {
    const char *element;  /**< suffix of the payloader: "vp8" gives cpayvp8pay */
    const char *name;     /**< what people call it */
    const char *encoding; /**< encoding-name of application/x-rtp */
    const char *media;    /**< "video" or "audio" */
    const char *caps;     /**< caps of the media that leave a receiver and enter a payloader */
    guint rate;           /**< of the RTP clock, in Hz */
    guint payload_type;   /**< default of a payloader */
    cpay_codec codec;
    gboolean is_static; /**< the payload type is of RFC 3551 */
} CpayCodec;

extern const CpayCodec cpay_codecs[];
const CpayCodec *cpay_codec_of(cpay_codec codec);

/** Writes a session description from one or more application/x-rtp structures, or says what is missing. Free it. */
gchar *cpay_sdp_of_caps(const GstCaps *caps, GError **error);

/** Returns an id for a stream of an element: the id of the incoming stream, and `part`. Free it. */
gchar *cpay_stream_id(GstElement *element, GstPad *sink, const gchar *part);

/** Pushes the events that have to come before the first RTCP packet of a pad: stream-start, caps and segment. */
void cpay_begin_rtcp(GstElement *element, GstPad *sink, GstPad *pad);

GType gst_cpay_session_get_type(void);
GType gst_cpay_send_get_type(void);
GType gst_cpay_forward_get_type(void);
gboolean cpay_register_payloaders(GstPlugin *plugin);

GST_DEBUG_CATEGORY_EXTERN(cpay_debug);

G_END_DECLS

#endif
