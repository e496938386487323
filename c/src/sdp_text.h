/* Lines, words and numbers of a session description: for sdp.c. */
#ifndef SDP_TEXT_H
#define SDP_TEXT_H

#include "codec_payload_sdp.h"

#include <string.h>

typedef cpay_sdp_text text;

static bool is_space(char it) { return it == ' ' || it == '\t'; }

static char lower(char it) { return it >= 'A' && it <= 'Z' ? (char)(it - 'A' + 'a') : it; }

static text front(text it, size_t size) {
    it.len = size;
    return it;
}

static void skip(text *it, size_t size) {
    it->at += size;
    it->len -= size;
}

/* The text up to the first `separator`, which is skipped too. */
static text part(text *it, char separator) {
    size_t size = 0;
    while (size < it->len && it->at[size] != separator) size++;
    text found = front(*it, size);
    skip(it, size < it->len ? size + 1 : size);
    return found;
}

/* The next line, without its end. */
static text line_of(text *it) {
    text found = part(it, '\n');
    if (found.len > 0 && found.at[found.len - 1] == '\r') found.len--;
    return found;
}

/* The next word; empty at the end. */
static text word(text *it) {
    size_t size = 0;
    while (it->len > 0 && is_space(*it->at)) skip(it, 1);
    while (size < it->len && !is_space(it->at[size])) size++;
    text found = front(*it, size);
    skip(it, size);
    return found;
}

static text trimmed(text it) {
    while (it.len > 0 && is_space(*it.at)) skip(&it, 1);
    while (it.len > 0 && is_space(it.at[it.len - 1])) it.len--;
    return it;
}

/* Whether two texts are equal if case is ignored. */
static bool same(text it, const char *other) {
    size_t size = strlen(other);
    if (it.len != size) return false;
    for (size_t i = 0; i < size; i++)
        if (lower(it.at[i]) != lower(other[i])) return false;
    return true;
}

/* Whether two texts are the same, case too. */
static bool equals(text it, const char *other) { return it.len == strlen(other) && memcmp(it.at, other, it.len) == 0; }

static bool begins(text it, const char *other) {
    size_t size = strlen(other);
    return it.len >= size && memcmp(it.at, other, size) == 0;
}

static bool skips(text *it, const char *prefix) {
    bool found = begins(*it, prefix);
    if (found) skip(it, strlen(prefix));
    return found;
}

/* A number of digits alone, at most `most`. */
static bool number(text it, uint32_t most, uint32_t *value) {
    uint64_t found = 0;
    if (it.len == 0) return false;
    for (size_t i = 0; i < it.len; i++) {
        if (it.at[i] < '0' || it.at[i] > '9') return false;
        found = 10 * found + (uint64_t)(it.at[i] - '0');
        if (found > most) return false;
    }
    *value = (uint32_t)found;
    return true;
}

#endif
