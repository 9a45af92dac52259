// Times `record_layout` of the largest record: 64 nodes, 256 child entries, 2,048 label bytes, 12,352 bytes. Prints the median of 101 runs of
// 2,000 calls each, and the least. bench/record builds and runs it.
#include <stdbool.h>
#include <stdint.h>
#include <stdio.h>
#include <stdlib.h>
#include <string.h>
#include <time.h>

bool record_layout(const uint8_t *bytes, size_t length);

enum { NODES = 64, ENTRIES = 256, LABEL = 32, LENGTH = 64 + 128 * NODES + 8 * ENTRIES + LABEL * NODES, RUNS = 101, CALLS = 2000 };

static void put(uint8_t *at, unsigned width, uint64_t value) {
    for (unsigned i = 0; i < width; i++) at[i] = (uint8_t)(value >> (8 * i));
}

static void put_f64(uint8_t *at, double value) {
    uint64_t bits;
    memcpy(&bits, &value, 8);
    put(at, 8, bits);
}

// Every flag is set, so no test of a field under a clear flag ends early.
static void make(uint8_t *b) {
    memset(b, 0, LENGTH);
    put(b, 2, NODES), put(b + 2, 2, ENTRIES), put(b + 4, 2, NODES * LABEL), put(b + 6, 2, 1);
    put(b + 8, 4, 64), put(b + 12, 4, 64 + 128 * NODES), put(b + 16, 4, 64 + 128 * NODES + 8 * ENTRIES), put(b + 20, 4, LENGTH);
    put(b + 40, 8, 1), put(b + 48, 8, 1);
    for (int i = 0; i < NODES; i++) {
        uint8_t *r = b + 64 + 128 * i;
        put(r, 8, 1 + i), put(r + 8, 8, 1), put(r + 16, 8, 5), put(r + 24, 8, 6);
        put(r + 32, 2, 4 * i), put(r + 34, 2, 4), put(r + 36, 2, LABEL * i), put(r + 38, 2, LABEL);
        r[40] = 4, r[41] = 63;
        for (int k = 0; k < 10; k++) put_f64(r + 48 + 8 * k, i + 0.5 * k);
    }
    for (int j = 0; j < ENTRIES; j++) put(b + 64 + 128 * NODES + 8 * j, 8, 100 + j);
    memset(b + 64 + 128 * NODES + 8 * ENTRIES, 'a', NODES * LABEL);
}

static double microseconds(void) {
    struct timespec t;
    clock_gettime(CLOCK_MONOTONIC, &t);
    return t.tv_sec * 1e6 + t.tv_nsec / 1e3;
}

static int by_size(const void *a, const void *b) {
    double x = *(const double *)a, y = *(const double *)b;
    return (x > y) - (x < y);
}

int main(void) {
    static uint8_t bytes[LENGTH];
    static double took[RUNS];
    unsigned passed = 0;
    make(bytes);
    for (int run = 0; run < RUNS; run++) {
        double start = microseconds();
        for (int call = 0; call < CALLS; call++) {
            __asm__ volatile("" : : "r"(bytes) : "memory");
            passed += record_layout(bytes, LENGTH);
        }
        took[run] = (microseconds() - start) / CALLS;
    }
    if (passed != RUNS * CALLS) return fputs("the record does not pass\n", stderr), 1;
    qsort(took, RUNS, sizeof *took, by_size);
    printf("layout of %d bytes: median %.2f us, least %.2f us\n", LENGTH, took[RUNS / 2], took[0]);
    return 0;
}
