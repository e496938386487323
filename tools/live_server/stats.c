/* What the server and the library count, as JSON. Times are in ms. */
#include "server.h"

void stats_stream(FILE *to, int kind, const agreed *media, const char *layer) {
    fprintf(to, "{\"kind\":\"%s\",\"codec\":\"%s\",\"layer\":\"%s\",\"red\":%s,", kind == VIDEO ? "video" : "audio", media->name,
            layer, media->red_payload_type ? "true" : "false");
}

static void add_peers(FILE *to, bool viewers) {
    const char *comma = "";
    EACH_PEER (it) {
        if (viewers ? !it->viewer : !it->publisher) continue;
        fprintf(to, "%s{" COUNT("number") "\"name\":\"%s\",\"connected\":%s,\"silent\":%s,", comma, it->number, it->name,
                it->secure ? "true" : "false", peer_is_silent(it) ? "true" : "false");
        if (viewers) viewer_stats(it, to);
        else publisher_stats(it, to);
        fputs("}", to);
        comma = ",";
    }
    fputs("]", to);
}

void stats(FILE *to) {
    static uint32_t run;
    if (!run) secret(&run, sizeof run);
    fprintf(to, "{" COUNT("now") "\"run\":%" PRIu32 ",\"network\":{\"loss\":%g,\"reorder\":%g," COUNT("dropped") "\"delay\":%u},\"publishers\":[",
            now_ms(), run, the.network.loss, the.network.reorder, network_dropped, the.network.delay);
    add_peers(to, false);
    fputs(",\"viewers\":[", to);
    add_peers(to, true);
    fputs("}", to);
}
