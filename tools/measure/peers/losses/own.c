/* The units of a schedule through a receiver of this library with the settings for live media: own [drop] KIND. With `drop` it gives out
 * what a decoder can show alone. It pops each millisecond. */
#include "codec_payload.h"
#include "schedule.h"

int main(int count, char **words) {
    static uint8_t bytes[1 << 20];
    static arrival packet;
    if (count < 2) return EXIT_FAILURE;
    int is_video = !strcmp(words[count - 1], "vp8");
    cpay_receiver_settings settings;
    cpay_receiver receiver = CPAY_INIT;
    cpay_receiver_settings_init(&settings, is_video ? CPAY_VP8 : CPAY_OPUS, is_video ? 90000 : 48000, 96, CPAY_FOR_LIVE);
    settings.has_ssrc = true, settings.ssrc = 7;
    if (count == 3) settings.from_keyframe = CPAY_KEYFRAME_DROP;
    if (cpay_receiver_new(&receiver, &settings, NULL, 0)) fail("no receiver");
    int64_t now = 0;
    for (int more = next_arrival(&packet); more; now++) {
        for (; more && packet.at <= now; more = next_arrival(&packet)) {
            cpay_outcome outcome;
            if (cpay_receiver_receive(&receiver, (uint64_t)now, packet.bytes, packet.size, &outcome)) fail("a packet is refused");
        }
        cpay_unit unit = {0};
        while (!cpay_receiver_pop(&receiver, (uint64_t)now, &unit, bytes, sizeof bytes))
            if (!unit.fault) print_unit(now, bytes, unit.bytes);
    }
    cpay_receiver_free(&receiver);
    return EXIT_SUCCESS;
}
