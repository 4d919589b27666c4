// Writes the picture of tests/program/tall_picture.py as bin/trirast does, with the same ways out where memory or a
// thread is refused, or with the mistake that MISTAKE names. tests/program/test_injection.py shows by it that each of
// these mistakes is caught.
#include <pthread.h>
#include <stdatomic.h>
#include <stdlib.h>
#include <string.h>
#include <unistd.h>

enum { COLUMNS = 8, ROWS = 24, TOGETHER = 3, TILE = 8, TILE_BYTES = 192, ROW_BYTES = 1536, MOST_WORKERS = 16 };

struct batch {
    int first;
    atomic_int next, refused;
    unsigned char *tiles[TOGETHER * COLUMNS];
};

static unsigned char bytes[TOGETHER * ROW_BYTES];

static int is(const char *mistake) {
    const char *text = getenv("MISTAKE");
    return text && strcmp(text, mistake) == 0;
}

static void end_out_of_memory(void) {
    static const char line[] = "trirast: out of memory\n";
    _exit(write(STDERR_FILENO, line, sizeof line - 1) < 0 ? 2 : 1);
}

static void put(const void *from, size_t count) {
    if (write(STDOUT_FILENO, from, count) != (ssize_t)count) _exit(2);
}

static unsigned char *draw_tile(int row, int column) {
    unsigned char *tile = malloc(TILE_BYTES);
    for (int k = 0; tile && k < TILE * TILE; k++) {
        int x = column * TILE + k % TILE, y = row * TILE + k / TILE;
        memset(tile + 3 * k, 3 * x + y + 2 < 192 ? 255 : 0, 3);
    }
    return tile;
}

static void join_tile(const unsigned char *tile, unsigned char *row, int column) {
    for (int j = 0; j < TILE; j++) memcpy(row + 3 * TILE * (j * COLUMNS + column), tile + 3 * TILE * j, 3 * TILE);
}

static void draw_row(int row, unsigned char *to) {
    if (!malloc(72)) end_out_of_memory();
    for (int column = 0; column < COLUMNS; column++) {
        unsigned char *tile = draw_tile(row, column);
        if (!tile) end_out_of_memory();
        join_tile(tile, to, column);
    }
}

static void write_alone(int first, int end) {
    if (!malloc(4096)) end_out_of_memory();
    if (is("ask for the next row before this one is written")) {
        for (int row = first; row < end; row++) {
            draw_row(row, bytes);
            if (row + 1 < end && !malloc(72)) end_out_of_memory();
            put(bytes, ROW_BYTES);
        }
        return;
    }
    int again = end - first == TOGETHER;
    if (again && is("draw all rows again before one is written")) {
        for (int row = first; row < end; row++) draw_row(row, bytes + (row - first) * ROW_BYTES);
        put(bytes, (size_t)(end - first) * ROW_BYTES);
        return;
    }
    for (int row = again && is("begin with the second row") ? first + 1 : first; row < end; row++) {
        draw_row(row, bytes);
        put(bytes, ROW_BYTES);
        if (row == first && is("write a row twice")) put(bytes, ROW_BYTES);
    }
}

static void *work(void *argument) {
    struct batch *batch = argument;
    for (int n; (n = atomic_fetch_add(&batch->next, 1)) < TOGETHER * COLUMNS;) {
        batch->tiles[n] = draw_tile(batch->first + n / COLUMNS, n % COLUMNS);
        if (!batch->tiles[n] || !malloc(48)) batch->refused = 1;
        if (batch->refused) break;
    }
    return NULL;
}

// Whether the batch was drawn by its workers.
static int is_drawn(struct batch *batch, int workers) {
    pthread_t threads[MOST_WORKERS];
    int started = 0;
    if (!malloc(200) || !malloc(176)) return 0;
    while (started < workers && pthread_create(&threads[started], NULL, work, batch) == 0) started++;
    for (int k = 0; k < started; k++) pthread_join(threads[k], NULL);
    return malloc(960) && malloc(112) && started == workers && !batch->refused;
}

static void write_batch(struct batch *batch) {
    for (int n = 0; n < TOGETHER * COLUMNS; n++)
        join_tile(batch->tiles[n], bytes + n / COLUMNS * ROW_BYTES, n % COLUMNS);
    put(bytes, sizeof bytes);
}

static void write_together(int workers) {
    static struct batch batches[ROWS / TOGETHER];
    struct batch *above = NULL;
    for (int k = 0; k < ROWS / TOGETHER; k++) {
        struct batch *batch = &batches[k];
        batch->first = k * TOGETHER;
        int drawn = is_drawn(batch, workers);
        if (!drawn && is("give up")) end_out_of_memory();
        if (!drawn && is("fail before the batch above is written") && !malloc(1)) end_out_of_memory();
        if (above && (drawn || !is("lose the batch above"))) write_batch(above);
        if (above && !drawn && is("write the batch above twice")) write_batch(above);
        if (!drawn) write_alone(batch->first, batch->first + TOGETHER);
        above = drawn ? batch : NULL;
    }
    if (above) write_batch(above);
}

int main(int count, char **words) {
    int workers = count == 5 ? atoi(words[4]) : 0;
    if (workers < 1 || workers > MOST_WORKERS) return 2;
    if (!malloc(sizeof bytes)) end_out_of_memory();
    put("P6\n64 192\n255\n", 14);
    if (workers == 1) write_alone(0, ROWS);
    else write_together(workers);
    return 0;
}
