/* The memory functions of the proved code, over the C library: each returns whether memory was found, and where. No alignment
 * above 8 is requested. */
#include <stdint.h>
#include <stdlib.h>

typedef struct {
    uint64_t found;
    void *at;
} memory;

memory rattle_alloc(size_t size, size_t align);
memory rattle_realloc(void *old, size_t old_size, size_t size, size_t align);
void rattle_dealloc(void *old);

static uint64_t none; /* if no memory was found, the pointer still needs a value */

static memory told(void *at) { return (memory){at != NULL, at ? at : &none}; }

memory rattle_alloc(size_t size, size_t align) { return told(malloc(size ? size : align)); }

memory rattle_realloc(void *old, size_t old_size, size_t size, size_t align) {
    (void)old_size;
    return told(realloc(old, size ? size : align));
}

void rattle_dealloc(void *old) { free(old); }
