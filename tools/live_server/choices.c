/* Which layers a viewer gets. The server lists what it can send to the viewer, with the rates that it measures; the path chooses
 * the highest choice that it carries. */
#include "viewers.h"

#include <sys/param.h>

enum {
    INTERVAL = 50000,      /* us between two choices, beside those after a report */
    IN_TRIAL = 10000,      /* the same while a trial is filled */
    TRIAL_ENDS = 200000,   /* us after its latest padding */
    KEYFRAME_WITHIN = 200, /* ms: a keyframe of a larger size is to be through by then */
    LITTLE = 150,          /* ms: while more waits, of video the lowest temporal layer alone is sent, and no RED */
    LOSSY = 20,            /* thousandths of the packets that are lost: see list_choices */
    AHEAD = 150            /* percent: the path is tried up to this share of the highest choice */
};

/* What a viewer gets with a choice. */
typedef struct {
    int track;
    layer up_to;
} layers;

typedef struct {
    layers layers[MOST_CHOICES];
    cpay_path_choice rates[MOST_CHOICES];
    size_t len;
} list;

static uint64_t rate_of(const peer *from, layers of) { return rates_of(publisher_rates(from, of.track), of.up_to); }

static uint64_t audio_rate(const peer *from) { return rate_of(from, (layers){AUDIO, {0, ALL_LAYERS}}); }

/* A size of the publisher, with temporal layers. */
static layers layers_of(const peer *from, int size, int temporal) {
    return (layers){publisher_size_track(from, size), {from->layers_len > 1 ? MOST_SPATIAL - 1 : size, temporal}};
}

/* Whether the publisher sends a size now. */
static bool is_sent(const peer *from, int size) {
    uint64_t rate = rate_of(from, layers_of(from, size, ALL_LAYERS));
    return rate > 0 && (size == 0 || from->layers_len > 1 || rate > rate_of(from, layers_of(from, size - 1, ALL_LAYERS)));
}

/* The highest size up to `most` that the publisher sends now. */
static int highest_sent(const peer *from, int most) {
    int size = MIN(most, publisher_sizes(from) - 1);
    while (size > 0 && !is_sent(from, size)) size--;
    return size;
}

/* Adds a choice. What a person does not wish, or the publisher does not send, is the nearest choice that is. */
static void add(list *to, const peer *it, const peer *from, int size, int temporal) {
    const wishes *wish = &it->path->wishes;
    int most = highest_sent(from, wish->most), least = MIN(wish->least, most);
    if (size > most) size = most, temporal = ALL_LAYERS;
    if (size < least) size = least, temporal = MIN(temporal, 1);
    layers got = layers_of(from, size, MIN(temporal, wish->temporal));
    bool begins = it->viewer[VIDEO].begun && size > viewer_size(it, from);
    uint64_t video = it->media[VIDEO].used ? rate_of(from, got) : 0;
    uint64_t keyframe = begins ? rates_keyframe(publisher_rates(from, got.track), got.up_to.spatial) : 0;
    to->layers[to->len] = got;
    to->rates[to->len++] = (cpay_path_choice){.rate = video + audio_rate(from), .begin = keyframe * 8 * 1000 / KEYFRAME_WITHIN};
}

/* From the lowest to the highest. A larger size with a quarter of its frames is no choice: a person sees it stutter. On a path
 * that loses packets one with half of them is none either: a frame that waits for a retransmission is seen, too. The last choice
 * is the highest again, with a rate to spare: the path is tried up to it. */
static void list_choices(list *to, const peer *it, const peer *from) {
    bool lossy = it->viewer[VIDEO].losses > LOSSY;
    to->len = 0;
    for (int temporal = 0; temporal < 2; temporal++) add(to, it, from, 0, temporal);
    add(to, it, from, 0, ALL_LAYERS);
    for (int size = 1; size < publisher_sizes(from); size++) {
        if (lossy) add(to, it, from, size - 1, ALL_LAYERS);
        else add(to, it, from, size, 1);
        add(to, it, from, size, ALL_LAYERS);
    }
    to->layers[to->len] = to->layers[to->len - 1];
    to->rates[to->len] = (cpay_path_choice){.rate = to->rates[to->len - 1].rate * AHEAD / 100};
    to->len++;
}

/* If there is nothing to choose, all is sent: it leaves at the rate at which it comes now, and what waits within a second. */
static void follow(list *to, const peer *it, const peer *from) {
    size_t highest = to->len - 2;
    layers all = to->layers[highest];
    if (to->rates[0].rate < to->rates[highest].rate || !it->media[VIDEO].used) return;
    uint64_t now = rates_latest(publisher_rates(from, all.track), all.up_to) + audio_rate(from), waits = it->path->state.waiting * 8;
    for (size_t i = 0; i <= highest; i++) to->rates[i].rate = MAX(to->rates[i].rate, now) + waits;
    to->rates[highest + 1].rate = MAX(to->rates[highest + 1].rate, to->rates[highest].rate);
}

/* Whether the path has room for RED beside a choice: half of the audio's rate more, and a twentieth of all. */
static bool has_room_for_red(const viewer_path *path, const peer *from, uint64_t rate) {
    return !path->follows || path->state.estimate >= (rate + audio_rate(from) / 2) * 21 / 20;
}

/* Whether the last packet of each frame leaves twice: on a path that loses packets, with half of the frames or fewer, and room
 * for a third of the rate. */
static bool has_room_for_tails(const peer *it, int temporal, uint64_t rate) {
    return it->path->follows && it->viewer[VIDEO].losses > LOSSY && temporal < 2 && it->path->state.estimate >= rate * 4 / 3;
}

/* Whether much waits for the pace. */
static bool is_late(const viewer_path *path) {
    return path->follows && path->state.waiting * 8 * 1000 > (uint64_t)LITTLE * MAX(path->state.estimate, 1);
}

void path_choose(peer *it, peer *from, uint64_t now) {
    viewer_path *path = it->path;
    cpay_path_order_info order = {0};
    list all;
    uint64_t interval = path->filled && now - path->filled < TRIAL_ENDS ? IN_TRIAL : INTERVAL;
    path->next_choice = (now / interval + 1) * interval;    /* of all viewers at once */
    if (!from || !it->secure || !path->begun) return;
    list_choices(&all, it, from);
    follow(&all, it, from);
    if (it->media[VIDEO].used && (all.rates[0].rate == 0 || !it->viewer[VIDEO].newest_len)) return;
    if (cpay_path_choose(&path->carries, now, all.rates, all.len, &order)) return;
    if (cpay_path_state(&path->carries, &path->state) || cpay_path_estimate(&path->carries, &path->knows)) return;
    path->choice = (int)order.choice;
    path->rates_len = all.len;
    for (size_t i = 0; i < all.len; i++) path->rates[i] = all.rates[i].rate;
    size_t chosen = MIN(order.choice, all.len - 1);
    uint64_t rate = all.rates[chosen < all.len - 1 ? chosen : chosen - 1].rate;
    bool late = is_late(path);
    layers got = all.layers[chosen];
    path->tails = !late && has_room_for_tails(it, got.up_to.temporal, rate);
    if (late) got.up_to.temporal = 0;
    bool falls = viewer_goes_to(it, from, got.track, got.up_to, !late && has_room_for_red(path, from, rate));
    if (falls && !cpay_path_state(&path->carries, &path->state) && is_late(path)) viewer_stops(it); /* a large picture has begun */
    if (it->media[VIDEO].used && order.padding > 0) {
        path_fill(it, order.padding);
        path->filled = now;
    }
    path->deadline = 0; /* the pace may be another one */
}
