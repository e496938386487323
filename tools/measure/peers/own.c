/* Prints the bytes of a stream of this library that got one packet of Opus, in 120 bytes. */
#include "codec_payload.h"

#include <malloc.h>
#include <stdio.h>
#include <stdlib.h>

enum { STREAMS = 1000, LEN = 132 };

static cpay_receiver streams[STREAMS];

static void check(cpay_status status) {
    if (status == CPAY_OK) return;
    fprintf(stderr, "own: %s\n", cpay_status_text(status));
    exit(EXIT_FAILURE);
}

int main(void) {
    static const uint8_t datagram[LEN] = {0x80, 96, [11] = 7};
    cpay_receiver_settings settings;
    cpay_receiver_settings_init(&settings, CPAY_OPUS, 48000, 96, CPAY_FOR_LIVE);
    size_t before = mallinfo2().uordblks;
    for (int i = 0; i < STREAMS; i++) {
        cpay_outcome outcome;
        check(cpay_receiver_new(&streams[i], &settings, NULL, 0));
        check(cpay_receiver_receive(&streams[i], 0, datagram, LEN, &outcome));
    }
    printf("%zu\n", (mallinfo2().uordblks - before) / STREAMS);
    return EXIT_SUCCESS;
}
