/* The heap of the library for C: malloc, realloc and free. It is an object of its own in the
 * archive, so that a program that has these three functions gets its own. */

/* ./lib has given the functions that the archive calls the names of dvg_heap.h. Who links this file
 * with an archive in which they still have Rattle's leaves these lines in. */
#ifndef DVG_IS_RENAMED
#define dvg_heap_alloc rattle_alloc
#define dvg_heap_realloc rattle_realloc
#define dvg_heap_free rattle_dealloc
#endif
#include "dvg_heap.h"

#include <stdlib.h>

/* A block, or that it was refused. */
static dvg_block answer(void *block)
{
    static unsigned char nowhere;
    dvg_block got = {block != NULL, block != NULL ? block : &nowhere};
    return got;
}

dvg_block dvg_heap_alloc(size_t bytes, size_t align)
{
    return answer(malloc(bytes == 0 ? align : bytes));
}

dvg_block dvg_heap_realloc(void *old, size_t kept, size_t bytes, size_t align)
{
    (void)kept;
    return answer(realloc(old, bytes == 0 ? align : bytes));
}

void dvg_heap_free(void *old)
{
    free(old);
}
