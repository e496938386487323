/* For tests: counts allocations, and refuses one of them. Linked with -Wl,--wrap=malloc,--wrap=realloc,--wrap=free. */
#ifndef REFUSE_H
#define REFUSE_H

#include <stdbool.h>
#include <stddef.h>

static long refuse_at, asked;
static long kept;   /* allocations less frees */
static size_t total; /* bytes of all allocations */
static bool refused;

void *__real_malloc(size_t size);
void *__real_realloc(void *at, size_t size);
void __real_free(void *at);
void *__wrap_malloc(size_t size);
void *__wrap_realloc(void *at, size_t size);
void __wrap_free(void *at);

static bool refuses(void) {
    if (++asked != refuse_at) return false;
    return refused = true;
}

void *__wrap_malloc(size_t size) {
    void *made = refuses() ? NULL : __real_malloc(size);
    if (made) kept++, total += size;
    return made;
}

void *__wrap_realloc(void *at, size_t size) {
    void *made = refuses() ? NULL : __real_realloc(at, size);
    if (made && !at) kept++;
    return made;
}

void __wrap_free(void *at) {
    if (at) kept--;
    __real_free(at);
}

/* The status of a call; if it is 17, the status of the same call made again. */
#define AGAIN(status, call) \
    do { \
        refused = false; \
        (status) = (call); \
        if (refused && (status) != CPAY_OUT_OF_MEMORY && (status) != CPAY_OK) return -1; \
        if (!refused && (status) == CPAY_OUT_OF_MEMORY) return -2; \
        if ((status) == CPAY_OUT_OF_MEMORY) { \
            (*met)++; \
            (status) = (call); \
        } \
    } while (0)

#endif
