/* The units of a schedule through libavformat's demuxer of RTP: ffmpeg KIND. The demuxer reads the packets from memory, one for each
 * call, and its clock is at the packet that was read last. */
#include <libavformat/avformat.h>

#include "schedule.h"

static int64_t now; /* milliseconds */
static int is_done;

/* Takes the place of libavutil's clock, by which the demuxer decides how long a packet waits. */
int64_t av_gettime_relative(void) {
    return 1000 * now + 1000000;
}

static const char *const opus = "v=0\r\no=- 0 0 IN IP4 127.0.0.1\r\ns=-\r\nc=IN IP4 127.0.0.1\r\nt=0 0\r\nm=audio 5004 RTP/AVP 96\r\n"
                                "a=rtpmap:96 opus/48000/2\r\n";
static const char *const vp8 = "v=0\r\no=- 0 0 IN IP4 127.0.0.1\r\ns=-\r\nc=IN IP4 127.0.0.1\r\nt=0 0\r\nm=video 5004 RTP/AVP 96\r\n"
                               "a=rtpmap:96 VP8/90000\r\n";

typedef struct {
    const char *text;
    size_t read;
} description;

static int read_description(void *of, uint8_t *to, int most) {
    description *from = of;
    size_t left = strlen(from->text) - from->read, count = left < (size_t)most ? left : (size_t)most;
    if (count == 0) return AVERROR_EOF;
    memcpy(to, from->text + from->read, count);
    from->read += count;
    return (int)count;
}

static int read_packet(void *of, uint8_t *to, int most) {
    static arrival packet;
    (void)of;
    if (!next_arrival(&packet)) {
        is_done = 1;
        return AVERROR_EOF;
    }
    if ((size_t)most < packet.size) return AVERROR(EINVAL);
    memcpy(to, packet.bytes, packet.size);
    now = packet.at;
    return (int)packet.size;
}

static int drop_report(void *of, uint8_t *bytes, int count) {
    (void)of, (void)bytes;
    return count;
}

int main(int count, char **words) {
    av_log_set_level(AV_LOG_QUIET);
    AVPacket *packet = av_packet_alloc();
    AVFormatContext *context = avformat_alloc_context();
    unsigned char *room = av_malloc(4096), *next = av_malloc(MOST_BYTES);
    if (count != 2 || !packet || !context || !room || !next) return EXIT_FAILURE;
    description from = {!strcmp(words[1], "vp8") ? vp8 : opus, 0};
    context->pb = avio_alloc_context(room, 4096, 0, &from, read_description, NULL, NULL);
    context->flags |= AVFMT_FLAG_CUSTOM_IO;
    AVDictionary *options = NULL;
    av_dict_set(&options, "sdp_flags", "custom_io", 0);
    if (avformat_open_input(&context, "peer.sdp", av_find_input_format("sdp"), &options) < 0) fail("the description is refused");
    context->pb = avio_alloc_context(next, MOST_BYTES, 0, NULL, read_packet, drop_report, NULL);
    context->pb->direct = 1;
    while (!is_done && av_read_frame(context, packet) >= 0 && !is_done) {
        print_unit(now, packet->data, (size_t)packet->size);
        av_packet_unref(packet);
    }
    return EXIT_SUCCESS;
}
