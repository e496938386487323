/* The table of peers: by the secrets of their offers, by the addresses that ICE has checked, by name. */
#include "server.h"

#include <openssl/rand.h>
#include <stdlib.h>
#include <string.h>

peer *peers, *peers_end;

/* The peer that was seen last at an address with this port. It is only a guess, and compared. */
static peer *by_port[65536];

/* Why the latest sessions ended, in a ring: their pages ask. */
enum { MOST_ENDS = 64 };
static struct {
    char id[sizeof peers->id];
    char why[sizeof peers->why];
} ends[MOST_ENDS];
static size_t ends_count;

void secret(void *bytes, size_t size) {
    if (RAND_bytes(bytes, (int)size) != 1) give_up("random bytes", "none");
}

/* Random digits and letters, as many as fit in front of the 0. */
static void write_secret(char *to, size_t room) {
    uint8_t bytes[16];
    secret(bytes, sizeof bytes);
    OPENSSL_buf2hexstr_ex(to, room, NULL, bytes, (room - 1) / 2, 0);
}

bool is_name(const char *name) {
    size_t size = strspn(name, "abcdefghijklmnopqrstuvwxyzABCDEFGHIJKLMNOPQRSTUVWXYZ0123456789_-");
    return size > 0 && size < MOST_NAME && name[size] == 0;
}

void peers_start(void) {
    peers = peers_end = calloc(the.peers, sizeof *peers);
    if (!peers) give_up("the table of peers (--peers)", "out of memory");
}

/* A place in the table. If it is full, the place of a peer that is silent: its browser may have ended without a word. */
static peer *free_place(void) {
    peer *silent = NULL;
    for (peer *it = peers; it < peers + the.peers; it++) {
        if (!it->used) return it;
        if (peer_is_silent(it) && (!silent || it->heard < silent->heard)) silent = it;
    }
    if (silent) {
        snprintf(silent->why, sizeof silent->why, "It was silent.");
        peer_free(silent);
    }
    return silent;
}

peer *peer_new(const char *name, bool publishes) {
    static uint64_t latest;
    int publishers = 0;
    EACH_PEER (it) publishers += it->publisher != NULL;
    if (publishes && publishers == MOST_PUBLISHERS) return NULL;
    peer *it = free_place();
    if (!it) return NULL;
    *it = (peer){.used = true, .number = ++latest, .began = now_ms(), .heard = now_ms()};
    if (it >= peers_end) peers_end = it + 1;
    write_secret(it->ufrag, sizeof it->ufrag);
    write_secret(it->password, sizeof it->password);
    write_secret(it->id, sizeof it->id);
    snprintf(it->name, sizeof it->name, "%s", name);
    return it;
}

void peer_says(const peer *it, const char *what) {
    fprintf(stderr, "%s %llu of %s: %s, %llu ms after its offer\n", it->publisher ? "publisher" : "viewer",
            (unsigned long long)it->number, it->name, what, (unsigned long long)(now_ms() - it->began));
}

/* Notes why a session ended. */
static void remember_end(const peer *it) {
    size_t place = ends_count++ % MOST_ENDS;
    memcpy(ends[place].id, it->id, sizeof it->id);
    snprintf(ends[place].why, sizeof ends[place].why, "%s", it->why[0] ? it->why : "It said goodbye.");
}

bool peer_end(const char *id, char *to, size_t room) {
    for (size_t i = 0; i < MOST_ENDS && i < ends_count; i++) {
        if (strlen(id) != strlen(ends[i].id) || CRYPTO_memcmp(id, ends[i].id, strlen(id))) continue;
        snprintf(to, room, "%s\n", ends[i].why);
        return true;
    }
    return false;
}

bool peer_is_silent(const peer *it) { return now_ms() - it->heard > LONGEST_QUIET; }

void peer_free(peer *it) {
    if (it->publisher || it->viewer) {
        peer_says(it, "it leaves");
        remember_end(it);
    }
    network_flush();
    if (it->publisher) publisher_free(it);
    if (it->viewer) viewer_free(it);
    dtls_end(it);
    *it = (peer){.used = false};
    while (peers_end > peers && !peers_end[-1].used) peers_end--;
}

peer *peer_publisher(const char *name) {
    peer *found = NULL;
    EACH_PEER (it)
        if (it->publisher && !it->ended && !strcmp(it->name, name) && (!found || it->secure)) found = it;
    return found;
}

peer *peer_session(const char *id) {
    EACH_PEER (it)
        if (strlen(id) >= strlen(it->id) && !CRYPTO_memcmp(it->id, id, strlen(it->id))) return it;
    return NULL;
}

static bool is_at(const peer *it, const struct sockaddr_in *from) {
    if (!it || !it->used) return false;
    for (unsigned i = 0; i < it->known_len && i < MOST_ADDRESSES; i++)
        if (it->known[i].sin_port == from->sin_port && it->known[i].sin_addr.s_addr == from->sin_addr.s_addr) return true;
    return false;
}

peer *peer_at(const struct sockaddr_in *from) {
    peer **guess = &by_port[ntohs(from->sin_port)];
    if (is_at(*guess, from)) return *guess;
    EACH_PEER (it)
        if (is_at(it, from)) return *guess = it;
    return NULL;
}

/* A system may give the port of a browser that ended to the next one, while the table still has the first. Its handshake counts. */
peer *peer_handshaking_at(const struct sockaddr_in *from) {
    peer *it = peer_at(from);
    if (!it || !it->secure) return it;
    EACH_PEER (other)
        if (!other->secure && is_at(other, from)) return other;
    return it;
}

void peer_owns(peer *it, const struct sockaddr_in *at) {
    EACH_PEER (other)
        for (unsigned i = 0; other != it && i < other->known_len && i < MOST_ADDRESSES; i++)
            if (other->known[i].sin_port == at->sin_port && other->known[i].sin_addr.s_addr == at->sin_addr.s_addr)
                other->known[i] = (struct sockaddr_in){0};
    by_port[ntohs(at->sin_port)] = it;
}

/* A browser checks several addresses, and sends media from any of them. The one that it nominated last gets the media. An address of
 * a peer that is silent is of the one that speaks. */
void peer_seen(peer *it, const struct sockaddr_in *at, bool nominated) {
    it->heard = now_ms();
    if (nominated || it->known_len == 0) it->at = *at;
    if (!is_at(it, at)) it->known[it->known_len++ % MOST_ADDRESSES] = *at;
    peer *owner = peer_at(at);
    if (owner != it && (owner->ended || peer_is_silent(owner))) peer_owns(it, at);
}

static bool has_other_codec(const peer *viewer, const peer *of) {
    for (int kind = 0; kind < KINDS; kind++)
        if (viewer->media[kind].used && of->media[kind].used && viewer->media[kind].codec != of->media[kind].codec) return true;
    return false;
}

/* A publisher whose keys are there replaces the one before, such as a page that was loaded again. An offer alone replaces nobody.
 * Viewers stay, unless the codec is another one: their pages ask again. */
void peer_secured(peer *of) {
    EACH_PEER (it) {
        if (!of->publisher || it == of || it->ended || strcmp(it->name, of->name)) continue;
        if (!(it->publisher ? it->secure : has_other_codec(it, of))) continue;
        it->ended = true;
        snprintf(it->why, sizeof it->why, it->publisher ? "Publisher %llu took the name %s." : "Publisher %llu of %s sends another codec.",
                 (unsigned long long)of->number, of->name);
    }
}

void peers_tick(uint64_t now) {
    EACH_PEER (it) {
        dtls_tick(it);
        if (it->publisher) publisher_tick(it, now);
        if (it->viewer) viewer_tick(it, now);
        bool silent = now - it->heard > LONGEST_SILENCE, late = !it->secure && now - it->began > LONGEST_START;
        if (!it->ended && (silent || late)) snprintf(it->why, sizeof it->why, late ? "No media came through." : "It was silent.");
        if (it->ended || silent || late) peer_free(it);
    }
}
