/* Receives packets of Opus or VP8 through libavformat's demuxer of RTP: ffmpeg KIND RUNS. The packets come from memory by an AVIOContext, as
 * `sdp_flags=custom_io` reads them. It prints the nanoseconds of processor time of a packet, as the least of several runs, and with
 * `idle` the bytes of a stream that got one packet. No packets are held: the queue of the demuxer gives each packet in order at once. */
#define _POSIX_C_SOURCE 199309L
#include <libavformat/avformat.h>

#include <malloc.h>
#include <stdio.h>
#include <stdlib.h>
#include <string.h>
#include <time.h>

enum { ROUNDS = 2176, HEADER = 12, FRAME = 17, STREAMS = 50, MOST = 1500 };

static const char *const opus = "v=0\r\no=- 0 0 IN IP4 127.0.0.1\r\ns=-\r\nc=IN IP4 127.0.0.1\r\nt=0 0\r\nm=audio 5004 RTP/AVP 96\r\n"
                                "a=rtpmap:96 opus/48000/2\r\n";
static const char *const vp8 = "v=0\r\no=- 0 0 IN IP4 127.0.0.1\r\ns=-\r\nc=IN IP4 127.0.0.1\r\nt=0 0\r\nm=video 5004 RTP/AVP 96\r\n"
                               "a=rtpmap:96 VP8/90000\r\n";

typedef struct {
    const char *description;
    size_t read;
    uint64_t number, packets_a_frame;
    size_t payload_len;
} source;

static void fail(const char *what) {
    fprintf(stderr, "ffmpeg: %s\n", what);
    exit(EXIT_FAILURE);
}

static int read_description(void *of, uint8_t *to, int most) {
    source *from = of;
    size_t left = strlen(from->description) - from->read, count = left < (size_t)most ? left : (size_t)most;
    if (count == 0) return AVERROR_EOF;
    memcpy(to, from->description + from->read, count);
    from->read += count;
    return (int)count;
}

/* One packet for each call, in order. */
static int read_packet(void *of, uint8_t *to, int most) {
    source *from = of;
    uint64_t number = from->number++, frame = number / from->packets_a_frame;
    if ((size_t)most < HEADER + from->payload_len) return AVERROR(EINVAL);
    int ends = from->packets_a_frame > 1 && number % from->packets_a_frame == from->packets_a_frame - 1;
    uint32_t time = (uint32_t)(frame * 960);
    memset(to, 0, HEADER + from->payload_len);
    to[0] = 0x80, to[1] = (uint8_t)(96 | (ends ? 0x80 : 0)), to[2] = (uint8_t)(number >> 8), to[3] = (uint8_t)number;
    for (int i = 0; i < 4; i++) to[4 + i] = (uint8_t)(time >> (24 - 8 * i));
    to[11] = 7;
    if (from->packets_a_frame > 1 && number % from->packets_a_frame == 0) to[HEADER] = 0x10;
    return (int)(HEADER + from->payload_len);
}

/* The demuxer writes receiver reports into the context that it reads from. */
static int drop_report(void *of, uint8_t *bytes, int count) {
    (void)of, (void)bytes;
    return count;
}

/* A demuxer of this stream, which reads its packets by `io`. */
static AVFormatContext *open_stream(source *from, AVIOContext **io) {
    AVFormatContext *context = avformat_alloc_context();
    unsigned char *room = av_malloc(4096);
    if (!context || !room) fail("out of memory");
    AVIOContext *text = avio_alloc_context(room, 4096, 0, from, read_description, NULL, NULL);
    context->pb = text;
    context->flags |= AVFMT_FLAG_CUSTOM_IO;
    AVDictionary *options = NULL;
    av_dict_set(&options, "sdp_flags", "custom_io", 0);
    if (avformat_open_input(&context, "peer.sdp", av_find_input_format("sdp"), &options) < 0) fail("the description is refused");
    av_dict_free(&options);
    room = av_malloc(MOST);
    if (!room) fail("out of memory");
    *io = avio_alloc_context(room, MOST, 0, from, read_packet, drop_report, NULL);
    (*io)->direct = 1;
    context->pb = *io;
    av_freep(&text->buffer);
    avio_context_free(&text);
    return context;
}

static double time_now(void) {
    struct timespec time;
    clock_gettime(CLOCK_PROCESS_CPUTIME_ID, &time);
    return 1e9 * (double)time.tv_sec + (double)time.tv_nsec;
}

static void read_frames(AVFormatContext *context, AVPacket *packet, uint64_t count) {
    for (uint64_t i = 0; i < count; i++) {
        if (av_read_frame(context, packet) < 0) fail("a frame is missing");
        av_packet_unref(packet);
    }
}

static source source_of(int is_video) {
    return (source){.description = is_video ? vp8 : opus, .packets_a_frame = is_video ? FRAME : 1, .payload_len = is_video ? 1200 : 120};
}

static void print_idle(AVPacket *packet) {
    static source from[STREAMS];
    AVIOContext *io;
    size_t before = mallinfo2().uordblks;
    for (int i = 0; i < STREAMS; i++) {
        from[i] = source_of(0);
        read_frames(open_stream(&from[i], &io), packet, 1);
    }
    printf("%zu\n", (mallinfo2().uordblks - before) / STREAMS);
}

int main(int count, char **words) {
    av_log_set_level(AV_LOG_QUIET);
    AVPacket *packet = av_packet_alloc();
    if (count != 3 || !packet) return EXIT_FAILURE;
    if (!strcmp(words[1], "idle")) return print_idle(packet), EXIT_SUCCESS;
    source from = source_of(!strcmp(words[1], "vp8"));
    AVIOContext *io;
    AVFormatContext *context = open_stream(&from, &io);
    read_frames(context, packet, 64);
    double least = 0;
    for (int run = 0; run < atoi(words[2]); run++) {
        double start = time_now();
        read_frames(context, packet, ROUNDS / from.packets_a_frame);
        double took = (time_now() - start) / ROUNDS;
        if (run == 0 || took < least) least = took;
    }
    printf("%.1f\n", least);
    return EXIT_SUCCESS;
}
