/* A heap that lies on the C library's, and of which the file that includes this says which blocks
 * it refuses. */
#ifndef EMBED_REFUSING_H
#define EMBED_REFUSING_H

#include "dvg_heap.h"

#include <stdlib.h>
#include <string.h>

/* Whether a new block of this many bytes is refused. */
static bool is_refused(size_t bytes);

/* How many blocks were refused, and how many live. */
static long refused = 0;
static long living = 0;

static unsigned char nowhere;

dvg_block dvg_heap_alloc(size_t bytes, size_t align)
{
    dvg_block got = {false, &nowhere};
    if (is_refused(bytes)) {
        refused++;
        return got;
    }
    void *block = malloc(bytes == 0 ? align : bytes);
    if (block != NULL) {
        living++;
        got.ok = true;
        got.block = block;
    }
    return got;
}

dvg_block dvg_heap_realloc(void *old, size_t kept, size_t bytes, size_t align)
{
    dvg_block got = dvg_heap_alloc(bytes, align);
    if (got.ok) {
        memcpy(got.block, old, kept);
        dvg_heap_free(old);
    }
    return got;
}

void dvg_heap_free(void *old)
{
    living--;
    free(old);
}

#endif
