/* The heap that the toolchain's code calls, over malloc, realloc and free: for a processor for which the
 * toolchain brings none.
 *
 * The contracts of these calls are in the toolchain's crate libc, in src/heap.rt: an alignment divides 16, which
 * malloc keeps on every 64-bit Linux, and a block of no bytes takes as many as its alignment, so that its
 * address is its own. */
#include <stdbool.h>
#include <stddef.h>
#include <stdlib.h>

/* Whether there is memory, and where. If there is none, `memory` points to a byte that nobody reads. */
typedef struct {
    bool is_there;
    void *memory;
} allocation;

_Static_assert(_Alignof(max_align_t) >= 16, "malloc aligns to 16 bytes");

allocation rattle_alloc(size_t size, size_t alignment);
allocation rattle_realloc(void *block, size_t kept, size_t size, size_t alignment);
void rattle_dealloc(void *block);

static allocation answer(void *memory) {
    static char none;
    return memory ? (allocation){true, memory} : (allocation){false, &none};
}

allocation rattle_alloc(size_t size, size_t alignment) { return answer(malloc(size ? size : alignment)); }

allocation rattle_realloc(void *block, size_t kept, size_t size, size_t alignment) {
    (void)kept; /* realloc keeps the first bytes by itself */
    return answer(realloc(block, size ? size : alignment));
}

void rattle_dealloc(void *block) { free(block); }
