// ISA-L's part of code.sh: nanoseconds to decode two lost blocks of four from two rows and two known ones, the best of many runs, for blocks of two sizes.
#include <isa-l.h>
#include <stdio.h>
#include <stdlib.h>
#include <string.h>
#include <time.h>

enum { K = 4, M = 2, RUNS = 400 };

static long nanoseconds(void) {
    struct timespec now;
    clock_gettime(CLOCK_MONOTONIC, &now);
    return now.tv_sec * 1000000000L + now.tv_nsec;
}

// The tables that make blocks 0 and 1 of rows 0 and 1 and blocks 2 and 3.
static void prepare(unsigned char *tables) {
    unsigned char code[(K + M) * K], left[K * K], inverse[K * K];
    gf_gen_cauchy1_matrix(code, K + M, K);
    memcpy(left, code + 2 * K, sizeof left);
    if (gf_invert_matrix(left, inverse, K) != 0) exit(1);
    ec_init_tables(K, M, inverse, tables);
}

int main(void) {
    unsigned char tables[K * M * 32], *blocks[K], *lost[M];
    prepare(tables);
    for (int size = 4096; size <= 65536; size *= 16) {
        long best = 1L << 62;
        for (int i = 0; i < K; i++) memset(blocks[i] = malloc(size), i + 1, size);
        for (int i = 0; i < M; i++) lost[i] = malloc(size);
        for (int run = 0; run < RUNS; run++) {
            long start = nanoseconds();
            ec_encode_data(size, K, M, tables, blocks, lost);
            long spent = nanoseconds() - start;
            if (spent < best) best = spent;
        }
        printf("%d %ld %d\n", size, best, lost[0][size - 1]);
    }
    return 0;
}
