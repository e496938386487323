#include "report.h"

#include <inttypes.h>
#include <stdio.h>
#include <time.h>

enum { TIME_TEXT = 48, TIME_OF_DAY = 11 /* where it begins in such a text */, TYPES_TEXT = 512 };

/* In milliseconds. */
static double jitter(const stream *it) { return 1000.0 * it->headers.jitter / it->use.rate; }

static double seconds(const stream *it) { return (double)(it->last - it->first) / 1e9; }

static const char *codec_text(const stream *it) { return it->encrypted ? "SRTP" : it->use.name; }

/* A time of the capture as RFC 3339 has it, to milliseconds, in UTC. */
static void time_text(uint64_t time, char text[TIME_TEXT]) {
    time_t whole = (time_t)(time / 1000000000u);
    struct tm parts;
    char format[TIME_TEXT];
    text[0] = '\0';
    if (!gmtime_r(&whole, &parts)) return;
    strftime(format, sizeof format, "%Y-%m-%dT%H:%M:%S", &parts);
    snprintf(text, TIME_TEXT, "%.19s.%03u", format, (unsigned)(time / 1000000u % 1000u));
}

/* The payload types that came, with commas between. */
static void types_text(const stream *it, char text[TYPES_TEXT]) {
    size_t at = 0;
    text[0] = '\0';
    for (unsigned type = 0; type < PAYLOAD_TYPES; type++)
        if (it->of_type[type] > 0 && at < TYPES_TEXT)
            at += (size_t)snprintf(text + at, TYPES_TEXT - at, at > 0 ? ",%u" : "%u", type);
}

static void print_row(stream *it) {
    char from[WIRE_END_TEXT], to[WIRE_END_TEXT], first[TIME_TEXT], last[TIME_TEXT], types[TYPES_TEXT], name[CODEC_NAME + 1];
    wire_source_text(&it->flow, from);
    wire_destination_text(&it->flow, to);
    time_text(it->first, first);
    time_text(it->last, last);
    types_text(it, types);
    snprintf(name, sizeof name, "%s%s", it->use.guessed ? "?" : "", codec_text(it));
    printf("%08" PRIx32 "  %-7s %-10s %8" PRIu64 " %6" PRIu64 " %5" PRIu64 " %7" PRIu64 " %5" PRIu64 " %8" PRIu64
           " %7.1fms %9.3f  %s  %s  %s > %s\n",
           it->ssrc, types, name, it->packets, statistics_lost(&it->headers), it->headers.duplicates, it->headers.reordered,
           it->headers.late, it->headers.restarts, jitter(it), seconds(it), first, last + TIME_OF_DAY, from, to);
    if (it->recorded && it->totals.frames == 0)
        printf("          nothing was written: %" PRIu64 " left out\n", it->totals.skipped + it->totals.refused);
    else if (it->path && it->totals.frames > 0)
        printf("          %s: %" PRIu64 " frames, %.3f s, %" PRIu64 " gaps, %" PRIu64 " left out (%" PRIu64 " undecodable), %" PRIu64
               " damaged\n",
               it->path, it->totals.frames, it->totals.seconds, it->totals.gaps, it->totals.skipped + it->totals.refused,
               it->totals.undecodable, it->totals.damaged);
}

void report_table(const streams *it) {
    printf("%-8s  %-7s %-10s %8s %6s %5s %7s %5s %8s %9s %9s  %-23s  %-12s  %s\n", "SSRC", "TYPES", "CODEC", "PACKETS", "LOST", "TWICE",
           "REORDER", "LATE", "RESTARTS", "JITTER", "SECONDS", "FIRST", "LAST", "FROM > TO");
    for (size_t i = 0; i < it->count; i++)
        if (it->list[i]->valid) print_row(it->list[i]);
    printf("%" PRIu64 " datagrams: %" PRIu64 " RTP, %" PRIu64 " RTCP, %" PRIu64 " STUN, %" PRIu64 " DTLS, %" PRIu64 " ZRTP, %" PRIu64
           " others; %" PRIu64 " fragments, %" PRIu64 " cut, %" PRIu64 " malformed, %" PRIu64 " of too many streams\n",
           it->packets, it->rtp, it->rtcp, it->stun, it->dtls, it->zrtp, it->other, it->fragments, it->cut, it->malformed,
           it->too_many);
}

/* Text as JSON has it. All of it comes from names of codecs, addresses and paths. */
static void print_text(const char *name, const char *text) {
    printf("\"%s\": \"", name);
    for (const unsigned char *at = (const unsigned char *)text; *at; at++) {
        if (*at == '"' || *at == '\\') printf("\\%c", *at);
        else if (*at < 0x20) printf("\\u%04x", *at);
        else putchar(*at);
    }
    printf("\"");
}

static void print_types(const stream *it) {
    const char *between = "";
    printf("\"payload_types\": {");
    for (unsigned type = 0; type < PAYLOAD_TYPES; type++) {
        if (it->of_type[type] == 0) continue;
        printf("%s\"%u\": %" PRIu64, between, type, it->of_type[type]);
        between = ", ";
    }
    printf("}");
}

static void print_totals(const record_totals *totals) {
    printf("\"frames\": %" PRIu64 ", \"frame_bytes\": %" PRIu64 ", \"gaps\": %" PRIu64 ", \"left_out\": %" PRIu64
           ", \"undecodable\": %" PRIu64 ", \"damaged\": %" PRIu64 ", \"refused\": %" PRIu64 ", \"filled\": %" PRIu64
           ", \"recovered\": %" PRIu64 ", \"retransmitted\": %" PRIu64 ", \"media_seconds\": %.3f",
           totals->frames, totals->bytes, totals->gaps, totals->skipped, totals->undecodable, totals->damaged, totals->refused,
           totals->filled, totals->recovered, totals->retransmitted, totals->seconds);
}

static void print_stream(stream *it) {
    char from[WIRE_END_TEXT], to[WIRE_END_TEXT];
    wire_source_text(&it->flow, from);
    wire_destination_text(&it->flow, to);
    printf("    {\"ssrc\": \"%08" PRIx32 "\", ", it->ssrc);
    print_text("from", from);
    printf(", ");
    print_text("to", to);
    printf(", ");
    print_text("codec", codec_text(it));
    printf(", \"guessed\": %s, ", it->use.guessed ? "true" : "false");
    print_types(it);
    printf(",\n     \"packets\": %" PRIu64 ", \"bytes\": %" PRIu64 ", \"lost\": %" PRIu64 ", \"duplicates\": %" PRIu64
           ", \"reordered\": %" PRIu64 ", \"late\": %" PRIu64 ", \"restarts\": %" PRIu64 ", \"jitter_ms\": %.3f",
           it->packets, it->bytes, statistics_lost(&it->headers), it->headers.duplicates, it->headers.reordered,
           it->headers.late, it->headers.restarts, jitter(it));
    printf(",\n     \"first\": %.6f, \"last\": %.6f, \"seconds\": %.6f", (double)it->first / 1e9, (double)it->last / 1e9, seconds(it));
    bool is_written = it->path && it->totals.frames > 0;
    if (is_written || it->recorded) {
        printf(",\n     ");
        if (is_written) print_text("file", it->path);
        else printf("\"file\": null");
        printf(", ");
        print_totals(&it->totals);
    }
    printf("}");
}

void report_json(const streams *it) {
    const char *between = "\n";
    printf("{\n  \"streams\": [");
    for (size_t i = 0; i < it->count; i++) {
        if (!it->list[i]->valid) continue;
        printf("%s", between);
        print_stream(it->list[i]);
        between = ",\n";
    }
    printf("\n  ],\n  \"datagrams\": %" PRIu64 ", \"rtp\": %" PRIu64 ", \"rtcp\": %" PRIu64 ", \"stun\": %" PRIu64 ", \"dtls\": %" PRIu64
           ", \"zrtp\": %" PRIu64 ", \"others\": %" PRIu64 ", \"fragments\": %" PRIu64 ", \"cut\": %" PRIu64 ", \"malformed\": %" PRIu64
           ", \"of_too_many_streams\": %" PRIu64 "\n}\n",
           it->packets, it->rtp, it->rtcp, it->stun, it->dtls, it->zrtp, it->other, it->fragments, it->cut, it->malformed,
           it->too_many);
}
