// Each memory has a page before it and one behind it that nobody may touch, so a byte too far ends the program.
#define _GNU_SOURCE
#include <stdlib.h>
#include <string.h>
#include <sys/mman.h>

#include "guarded.h"

enum { PAGE = 4096, CAPACITY = 2048 * PAGE, MARK = 0xA5, MARGIN = 256 };

static void map(guarded *memory) {
    unsigned char *all = mmap(NULL, CAPACITY + 2 * PAGE, PROT_NONE, MAP_PRIVATE | MAP_ANONYMOUS, -1, 0);
    if (all == MAP_FAILED || mprotect(all + PAGE, CAPACITY, PROT_READ | PROT_WRITE)) abort();
    memory->first = all + PAGE, memory->end = memory->first + CAPACITY;
}

static size_t margin_before(const guarded *memory) {
    const size_t room = (size_t)(memory->bytes - memory->first);
    return room < MARGIN ? room : MARGIN;
}

static size_t margin_behind(const guarded *memory) {
    const size_t room = (size_t)(memory->end - memory->bytes) - memory->size;
    return room < MARGIN ? room : MARGIN;
}

void *take(guarded *from, size_t size, int at_end) {
    if (!from->first) map(from);
    if (size > CAPACITY) abort();
    protect(from, 0);
    from->size = size;
    from->bytes = at_end ? from->end - size : from->first;
    memset(from->bytes - margin_before(from), MARK, margin_before(from));
    memset(from->bytes + size, MARK, margin_behind(from));
    memset(from->bytes, MARK, size);
    return size ? from->bytes : from->end;
}

void *take_copy(guarded *from, const void *bytes, size_t size, int at_end) {
    void *found = take(from, size, at_end);
    if (size) memcpy(found, bytes, size);
    return found;
}

void protect(const guarded *memory, int is_constant) {
    if (!memory->bytes) return;
    unsigned char *page = memory->first + (memory->bytes - memory->first) / PAGE * PAGE;
    const size_t size = (size_t)(memory->bytes + memory->size - page);
    if (size && mprotect(page, size, is_constant ? PROT_READ : PROT_READ | PROT_WRITE)) abort();
}

int is_marked(const guarded *memory) {
    size_t k;
    if (!memory->bytes) return 1;
    for (k = 1; k <= margin_before(memory); k++)
        if (memory->bytes[-(ptrdiff_t)k] != MARK) return 0;
    for (k = 0; k < margin_behind(memory); k++)
        if (memory->bytes[memory->size + k] != MARK) return 0;
    return 1;
}
