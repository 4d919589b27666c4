// Measures what one processor of this machine does at the most: cycles, operations on vectors of 128 and of 256 bits,
// and bytes from and to memory.
//
//     clang -O2 -mavx2 -o bench/out/machine bench/machine.c && bench/out/machine
//
// Prints the best of eleven rounds of each. x86-64 with AVX2 alone; bench/limits.py runs it.

#include <immintrin.h>
#include <stdint.h>
#include <stdio.h>
#include <stdlib.h>
#include <string.h>
#include <time.h>

enum { ROUNDS = 11, STEPS = 2000000, CHAINS = 12 };

// More than caches hold.
static const size_t BYTES = (size_t)256 << 20;

static double seconds(void) {
    struct timespec now;
    clock_gettime(CLOCK_MONOTONIC, &now);
    return (double)now.tv_sec + (double)now.tv_nsec * 1e-9;
}

// Additions of which each waits for the one before: one a cycle.
static double additions(void) {
    uint64_t sum = 0;
    double begin = seconds();
    for (int step = 0; step < STEPS; ++step)
        for (int k = 0; k < CHAINS; ++k) __asm__ volatile("addq $1, %0" : "+r"(sum));
    return (double)CHAINS * STEPS / (seconds() - begin);
}

#define TWELVE(operation) \
    operation(0) operation(1) operation(2) operation(3) operation(4) operation(5) operation(6) operation(7) \
        operation(8) operation(9) operation(10) operation(11)

// Additions of four or eight lanes, of which as many run at once as the processor can.
static double vectors_of_128(void) {
    double begin = seconds();
    for (int step = 0; step < STEPS; ++step) {
#define ADD(k) "vpaddd %%xmm15, %%xmm" #k ", %%xmm" #k "\n\t"
        __asm__ volatile(TWELVE(ADD)::: "xmm0", "xmm1", "xmm2", "xmm3", "xmm4", "xmm5", "xmm6", "xmm7", "xmm8", "xmm9",
                         "xmm10", "xmm11");
#undef ADD
    }
    return (double)CHAINS * STEPS / (seconds() - begin);
}

static double vectors_of_256(void) {
    double begin = seconds();
    for (int step = 0; step < STEPS; ++step) {
#define ADD(k) "vpaddd %%ymm15, %%ymm" #k ", %%ymm" #k "\n\t"
        __asm__ volatile(TWELVE(ADD)::: "xmm0", "xmm1", "xmm2", "xmm3", "xmm4", "xmm5", "xmm6", "xmm7", "xmm8", "xmm9",
                         "xmm10", "xmm11");
#undef ADD
    }
    return (double)CHAINS * STEPS / (seconds() - begin);
}

static uint8_t* memory;

static double read_bytes(void) {
    __m256i sum[4] = {_mm256_setzero_si256(), _mm256_setzero_si256(), _mm256_setzero_si256(), _mm256_setzero_si256()};
    double begin = seconds();
    for (size_t at = 0; at < BYTES; at += sizeof sum)
        for (size_t k = 0; k < 4; ++k)
            sum[k] = _mm256_xor_si256(sum[k], _mm256_load_si256((const __m256i*)(memory + at) + k));
    double taken = seconds() - begin;
    sum[0] = _mm256_xor_si256(_mm256_xor_si256(sum[0], sum[1]), _mm256_xor_si256(sum[2], sum[3]));
    volatile long long kept = _mm256_extract_epi64(sum[0], 0);
    (void)kept;
    return (double)BYTES / taken;
}

static double write_bytes(void) {
    double begin = seconds();
    memset(memory, (int)begin, BYTES);
    __asm__ volatile("" ::"r"(memory) : "memory");
    return (double)BYTES / (seconds() - begin);
}

static void print(const char* name, double (*rate)(void)) {
    double best = 0;
    for (int round = 0; round < ROUNDS; ++round) {
        double now = rate();
        if (now > best) best = now;
    }
    printf("%s %.3f\n", name, best / 1e9);
}

int main(void) {
    memory = aligned_alloc(64, BYTES);
    if (!memory) return 1;
    memset(memory, 1, BYTES);
    print("cycles", additions);
    print("vectors_of_128", vectors_of_128);
    print("vectors_of_256", vectors_of_256);
    print("read", read_bytes);
    print("written", write_bytes);
    free(memory);
    return 0;
}
