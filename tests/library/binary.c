// Part of each test program for Windows: standard input and output hold bytes, as elsewhere.
#include <fcntl.h>
#include <io.h>

__attribute__((constructor)) static void keep_bytes(void) {
    _setmode(0, _O_BINARY);
    _setmode(1, _O_BINARY);
}
