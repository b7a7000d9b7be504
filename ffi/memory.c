/* The memory of the library, over malloc, realloc and free, which align to 16 bytes where a block is so large. A
 * program's own three functions go before these, which are weak where the compiler knows how to say so. */
#include "tansyattic.h"
#include <stdlib.h>

#if defined(__GNUC__)
#define WEAK __attribute__((weak))
#else
#define WEAK
#endif

/* The address of no block. */
static char none;

static struct tansyattic_block block_of(void *found) {
    return (struct tansyattic_block){found != NULL, found != NULL ? found : &none};
}

WEAK struct tansyattic_block rattle_alloc(size_t size, size_t align) {
    return block_of(malloc(size != 0 ? size : align));
}

WEAK struct tansyattic_block rattle_realloc(void *block, size_t kept, size_t size, size_t align) {
    (void)kept; /* realloc keeps all that fits */
    return block_of(realloc(block, size != 0 ? size : align));
}

WEAK void rattle_dealloc(void *block) { free(block); }
