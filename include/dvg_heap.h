/* A heap of one's own for build/libdvg.a, for C99 and C++. Nobody needs this header but who defines
 * these three functions: then the archive's own, which call malloc, realloc and free, aren't
 * linked. The shared library has taken its own already: there these functions are never called.
 * The pieces that cargo makes without GNU binutils (docs/C.md) call them rattle_alloc,
 * rattle_realloc and rattle_dealloc.
 *
 * The three are of one allocator. A block is of `bytes` bytes, or of `align` where that is 0, and
 * is aligned to each power of two up to 16 that divides its size. `align` is a power of two, 16 at
 * most. Where there is no memory, `ok` is false, and `block` must still point to some byte that
 * stays. */
#ifndef DVG_HEAP_H
#define DVG_HEAP_H

#include <stdbool.h>
#include <stddef.h>

#ifdef __cplusplus
extern "C" {
#endif

typedef struct dvg_block {
    bool ok;
    void *block;
} dvg_block;

/* A new block. */
dvg_block dvg_heap_alloc(size_t bytes, size_t align);

/* The block at `old` with another size: its first `kept` bytes stay, and where `ok` is false it
 * stays as it is. */
dvg_block dvg_heap_realloc(void *old, size_t kept, size_t bytes, size_t align);

/* Frees a block. */
void dvg_heap_free(void *old);

#ifdef __cplusplus
}
#endif

#endif
