/* Memory of a caller's own in place of the library's: it counts, and it refuses what it is told to. */
#include "tansyattic.h"
#include <stdatomic.h>
#include <stdlib.h>
#include <string.h>

/* Blocks that weren't given back, requests so far, how many of them were refused, and how many asked for a place that no
   block here has. */
static atomic_long blocks, requests, refusals, misaligned;
/* The request that is refused, and the one from which on all are, none at 0. */
static long refused, refused_from;

/* Adds to a count, and orders nothing else, so that the thread sanitizer sees what it would see of another program. */
static inline long add(atomic_long *count, long more) {
    return atomic_fetch_add_explicit(count, more, memory_order_relaxed) + more;
}

struct tansyattic_block rattle_alloc(size_t size, size_t align) {
    static char none;
    long number = add(&requests, 1);
    bool is_refused = number == refused || (refused_from != 0 && number >= refused_from);
    void *block = is_refused ? NULL : malloc(size != 0 ? size : align);
    add(&misaligned, align == 0 || 16 % align != 0);
    add(block != NULL ? &blocks : &refusals, 1);
    if (block != NULL) memset(block, 0xa5, size);
    return (struct tansyattic_block){block != NULL, block != NULL ? block : &none};
}

/* A block that grows moves, with the bytes that are kept and no others, so that they are as many as the library means. */
struct tansyattic_block rattle_realloc(void *block, size_t kept, size_t size, size_t align) {
    struct tansyattic_block larger = rattle_alloc(size, align);
    if (larger.found) {
        memcpy(larger.block, block, kept < size ? kept : size);
        rattle_dealloc(block);
    }
    return larger;
}

void rattle_dealloc(void *block) {
    free(block);
    add(&blocks, -1);
}
