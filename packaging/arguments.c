/* The arguments of a program and errno, as the toolchain's code asks for them: for a processor for which the
 * toolchain brings neither.
 *
 * The contracts of these calls are in the toolchain's crate os, in src/c.rt. */
#include <errno.h>
#include <stddef.h>
#include <stdint.h>
#include <string.h>

static size_t argument_count;
static char **arguments;

/* glibc gives main's arguments to each constructor. */
__attribute__((constructor)) static void keep(int count, char **values) {
    argument_count = (size_t)count;
    arguments = values;
}

ptrdiff_t rattle_arg(size_t index, uint8_t *buffer, size_t size);
int32_t rattle_errno(void);
void rattle_set_errno(int32_t error);

/* Copies an argument to the beginning of the buffer. Returns its length; -1 if there is no such argument; or -2 if it
 * is longer than the buffer, which then is full. */
ptrdiff_t rattle_arg(size_t index, uint8_t *buffer, size_t size) {
    if (index >= argument_count || !arguments[index]) return -1;
    size_t length = strlen(arguments[index]);
    memcpy(buffer, arguments[index], length < size ? length : size);
    return length <= size ? (ptrdiff_t)length : -2;
}

int32_t rattle_errno(void) { return errno; }

void rattle_set_errno(int32_t error) { errno = error; }
