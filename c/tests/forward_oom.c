/* Memory of forwarders and stores. Each allocation is refused in turn: the call that asked for it must return 17 and change no output, is
 * made once more, and all goes on as with all memory. Memory that was not released is counted, and forwarding in steady state does
 * not allocate. Linked with -Wl,--wrap=malloc,--wrap=realloc,--wrap=free. */
#include "codec_payload.h"
#include "refuse.h"

#include <stdio.h>
#include <stdlib.h>

/* Four packets arrive, one is left out, one is resent, and a retransmission is turned into its packet. */
static int forwarder(int *met) {
    long before = kept;
    const cpay_history_settings keeps = {.limit = 4};
    cpay_forwarder_settings settings;
    cpay_forwarder_settings_init(&settings, CPAY_VP8, 9, 101);
    cpay_forwarder it = CPAY_INIT;
    cpay_history store = CPAY_INIT;
    cpay_forwarder_counts_info counts = {0};
    cpay_status status;
    uint8_t bytes[16] = {0};
    size_t size = 99;
    AGAIN(status, cpay_forwarder_new(&it, &settings));
    if (status) return 1;
    AGAIN(status, cpay_history_new(&store, &keeps));
    if (status || cpay_forwarder_want(&it, 7)) return 2;
    for (uint8_t number = 0; number < 4; number++) {
        const uint8_t sent[16] = {0x80, 96, 0, number, 0, 0, 0, 0, 0, 0, 0, 7, 0x10, 0, number, 0};
        size_t length = number ? 16u : 15u; /* the second packet is larger */
        cpay_kept_once found = (cpay_kept_once)99;
        cpay_forwarded did = (cpay_forwarded)99;
        AGAIN(status, cpay_history_keep_once(&store, sent, length, &found));
        if (status || found != CPAY_KEPT_NEW) return 3;
        if (number == 2) {
            AGAIN(status, cpay_forwarder_leave_out(&it, sent, length, bytes, 13, &size, &did));
            if (status || did != CPAY_FORWARDED_LEFT_OUT || size) return 4;
            continue;
        }
        size = 99;
        AGAIN(status, cpay_forwarder_write(&it, 0, sent, length, bytes, sizeof bytes, &size, &did));
        if (status || size != length || bytes[1] != 101 || bytes[3] != (number == 3 ? 2 : number) || bytes[14] != number) return 5;
        if (did != (number ? CPAY_FORWARDED_WRITTEN : CPAY_FORWARDED_BEGAN)) return 6;
    }
    cpay_resent resent = (cpay_resent)99;
    AGAIN(status, cpay_forwarder_resend(&it, &store, 1, bytes, sizeof bytes, &size, &resent));
    if (status || resent != CPAY_RESENT_WRITTEN || size != 16 || bytes[3] != 1 || bytes[14] != 1) return 7;
    const uint8_t again[17] = {0x80, 97, 0, 0, 0, 0, 0, 0, 0, 0, 0, 8, 0, 5, 1, 2, 3};
    AGAIN(status, cpay_rtx_original(7, 96, again, sizeof again, bytes, sizeof bytes, &size));
    if (status || size != 15 || bytes[3] != 5 || bytes[14] != 3) return 8;
    if (cpay_forwarder_counts(&it, &counts) || counts.packets != 4 || counts.left_out != 1 || counts.refused) return 9;
    cpay_forwarder_free(&it);
    cpay_history_free(&store);
    return kept == before ? 0 : 10;
}

/* A forwarder that is freed before its first packet, and with the memory of packets and of numbers that were left out. */
static int left_in_forwarder(void) {
    for (uint8_t packets = 0; packets < 4; packets++) {
        long before = kept;
        cpay_forwarder it = CPAY_INIT;
        cpay_forwarder_settings settings;
        cpay_forwarded did;
        uint8_t bytes[15];
        size_t size = 0;
        cpay_forwarder_settings_init(&settings, CPAY_VP8, 9, 101);
        if (cpay_forwarder_new(&it, &settings) || cpay_forwarder_want(&it, 7)) return 1;
        for (uint8_t number = 0; number < packets; number++) {
            const uint8_t sent[15] = {0x80, 96, 0, number, 0, 0, 0, 0, 0, 0, 0, 7, 0x10, 0, 0};
            cpay_status status = number == 2 ? cpay_forwarder_leave_out(&it, sent, 15, bytes, 15, &size, &did)
                                             : cpay_forwarder_write(&it, 0, sent, 15, bytes, 15, &size, &did);
            if (status) return 2;
        }
        if (kept == before) return 3;
        cpay_forwarder_free(&it);
        if (kept != before || it.handle.full) return 4;
    }
    return 0;
}

/* Packets of one size: only the first of them allocates. */
static int steady_state(void) {
    cpay_forwarder it = CPAY_INIT;
    cpay_forwarder_settings settings;
    cpay_forwarder_settings_init(&settings, CPAY_VP8, 9, 101);
    if (cpay_forwarder_new(&it, &settings) || cpay_forwarder_want(&it, 7)) return 1;
    for (uint8_t number = 0; number < 40; number++) {
        const uint8_t sent[15] = {0x80, 96, 0, number, 0, 0, 0, 0, 0, 0, 0, 7, 0x10, 0, 0};
        uint8_t bytes[15];
        size_t size = 0;
        cpay_forwarded did;
        long steady = asked;
        if (cpay_forwarder_write(&it, 0, sent, 15, bytes, 15, &size, &did) || size != 15) return 2;
        if (number > 0 && asked != steady) return 3;
    }
    cpay_forwarder_free(&it);
    return 0;
}

int main(void) {
    int met = 0, bad = 0, ended;
    if ((ended = left_in_forwarder())) printf("memory left by a forwarder: ended %d\n", ended), bad++;
    if ((ended = steady_state())) printf("forwarding in steady state: ended %d\n", ended), bad++;
    asked = 0;
    ended = forwarder(&met);
    long all = asked;
    if (ended || met) printf("with all memory: ended %d, met %d\n", ended, met), bad++;
    for (refuse_at = 1; refuse_at <= all; refuse_at++) {
        asked = met = 0;
        ended = forwarder(&met);
        /* Std may ask for more room than it needs, and ask again for less. */
        if (ended || met > 1) printf("at allocation %ld: ended %d, met %d\n", refuse_at, ended, met), bad++;
    }
    printf("%ld allocations refused in turn, %d went wrong, %s\n", all, bad, total ? "memory was counted" : "none was counted");
    return bad || !all ? EXIT_FAILURE : EXIT_SUCCESS;
}
