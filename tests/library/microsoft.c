/* Draws the draw list of standard input to standard output as a PPM file, over the static library for Microsoft's
 * linker. It is compiled without a header of C's own and linked without start-up code: ucrtbase.dll has what it calls.
 * tests/library/microsoft.py builds and runs it. */
#include <trirast.h>

enum { INPUT, OUTPUT, BINARY = 0x8000, MOST_BYTES = 1 << 20 };

int _setmode(int file, int mode);
int _read(int file, void *bytes, unsigned size);
int _write(int file, const void *bytes, unsigned size);
void _exit(int status);

/* The compiler names it where floating point is used. */
int _fltused = 0;

static char json[MOST_BYTES];
static uint8_t picture[MOST_BYTES];

static int draw(void) {
    trirast_image_info info;
    unsigned length = 0;
    int count;
    _setmode(INPUT, BINARY);
    _setmode(OUTPUT, BINARY);
    while ((count = _read(INPUT, json + length, MOST_BYTES - length)) > 0) length += (unsigned)count;
    if (trirast_list_info(json, length, &info, NULL)) return 1;
    if (trirast_list_draw(json, length, 32, picture, sizeof picture, NULL)) return 2;
    return _write(OUTPUT, picture, (unsigned)info.file_bytes) != (int)info.file_bytes;
}

void start(void) { _exit(draw()); }
