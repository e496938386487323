#include "message.h"

#include <stdarg.h>
#include <stdbool.h>
#include <stdio.h>
#include <time.h>
#include <unistd.h>

static unsigned long failures;
static bool quiet;
static bool line_open; /* a progress line stands on the terminal */

void progress_end(void) {
    if (line_open) fputs("\r\033[K", stderr);
    line_open = false;
}

static void say(const char *format, va_list words) {
    progress_end();
    fputs("rtp_record: ", stderr);
    vfprintf(stderr, format, words);
    fputc('\n', stderr);
}

void complain(const char *format, ...) {
    va_list words;
    va_start(words, format);
    say(format, words);
    va_end(words);
    failures++;
}

void remark(const char *format, ...) {
    va_list words;
    if (quiet) return;
    va_start(words, format);
    say(format, words);
    va_end(words);
}

unsigned long complaints(void) { return failures; }

void messages_quiet(void) { quiet = true; }

/* Whether progress is shown: asked once, because each packet needs the answer. */
static bool shows_progress(void) {
    static enum { UNKNOWN, SHOWN, HIDDEN } state;
    if (state == UNKNOWN) state = !quiet && isatty(STDERR_FILENO) ? SHOWN : HIDDEN;
    return state == SHOWN;
}

void progress(uint64_t bytes, uint64_t size, uint64_t packets) {
    static struct timespec before;
    struct timespec now;
    if (!shows_progress() || clock_gettime(CLOCK_MONOTONIC, &now) != 0) return;
    if ((now.tv_sec - before.tv_sec) * 1000 + (now.tv_nsec - before.tv_nsec) / 1000000 < 500) return;
    before = now;
    fprintf(stderr, "\r\033[K%llu packets, %.1f MB", (unsigned long long)packets, (double)bytes / 1e6);
    if (size > 0) fprintf(stderr, " of %.1f MB", (double)size / 1e6);
    fflush(stderr);
    line_open = true;
}
