#include "guess.h"

enum { LEAST = 16, MOST = 16384 /* pixels of a side */ };

/* Whether frames of the codec come of the packets, one of them a keyframe with a size in range, and none malformed. */
static bool gives_pictures(const stream *it, uint32_t number) {
    static uint8_t frame[1 << 20];
    cpay_receiver receiver = CPAY_INIT;
    cpay_receiver_settings settings;
    cpay_unit unit = {0};
    cpay_outcome outcome = CPAY_HELD;
    cpay_status status;
    bool sized = false, malformed = false;
    cpay_receiver_settings_init(&settings, number, 90000, it->kept[0].header.payload_type, CPAY_FOR_FILE);
    settings.hold_back = 0;
    if (cpay_receiver_new(&receiver, &settings, NULL, 0)) return false;
    for (size_t i = 0; i < it->kept_count; i++)
        if (cpay_receiver_receive(&receiver, i, it->kept[i].bytes, it->kept[i].size, &outcome)) break;
    while ((status = cpay_receiver_pop(&receiver, it->kept_count, &unit, frame, sizeof frame)) == CPAY_OK) {
        cpay_frame_facts facts = {0};
        malformed |= unit.fault || cpay_frame_info(number, frame, unit.bytes, &facts) != CPAY_OK;
        sized |= facts.has_size && facts.width >= LEAST && facts.width <= MOST && facts.height >= LEAST && facts.height <= MOST;
    }
    cpay_receiver_free(&receiver);
    return status == CPAY_NONE && sized && !malformed;
}

/* Whether times mostly go on by what the packets before last as Opus, one packet a time. */
static bool steps_as_opus(const stream *it) {
    size_t steps = 0;
    uint32_t before = 0;
    for (size_t i = 0; i < it->kept_count; i++) {
        cpay_frame_facts facts = {0};
        const record_packet *kept = &it->kept[i];
        if (cpay_frame_info(CPAY_OPUS, kept->bytes + kept->header.payload_at, kept->header.payload_len, &facts)) return false;
        uint32_t step = kept->header.timestamp - before;
        if (i > 0 && step == 0) return false;
        if (i > 0 && step == facts.duration) steps++;
        before = kept->header.timestamp;
    }
    return steps >= 4 && 2 * steps > it->kept_count;
}

codec_use guess_codec(const stream *it) {
    static const struct {
        uint32_t codec;
        const char *name;
    } videos[] = {{CPAY_VP8, "VP8"}, {CPAY_VP9, "VP9"}, {CPAY_AV1, "AV1"}};
    codec_use use = codec_use_unknown();
    if (it->kept_count == 0) return use;
    for (size_t v = 0; v < sizeof videos / sizeof *videos && use.codec->kind == CODEC_UNKNOWN; v++)
        if (gives_pictures(it, videos[v].codec)) use = codec_use_of(videos[v].name, 0, 0);
    if (use.codec->kind == CODEC_UNKNOWN && steps_as_opus(it)) use = codec_use_of("opus", 0, 0);
    use.guessed = use.codec->kind != CODEC_UNKNOWN;
    return use;
}
