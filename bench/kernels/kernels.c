// The same work in C: plain loops, and a shuffle by hand over tables that are made beforehand.
#include <stdint.h>
#include <stdio.h>
#include <stdlib.h>
#include <string.h>
#include <time.h>
#include <tmmintrin.h>

enum { RUNS = 9 };
static const size_t BYTES_A_RUN = 268435456;

static uint8_t products[256][256];
static uint8_t halves[256][32];

static uint8_t product(uint8_t a, uint8_t b) {
    uint8_t sum = 0;
    for (; b; b >>= 1) {
        if (b & 1) sum ^= a;
        a = (uint8_t)(a << 1) ^ (a & 128 ? 0x1D : 0);
    }
    return sum;
}

__attribute__((noinline)) static void xor_plain(const uint8_t *src, uint8_t *dst, size_t len) {
    for (size_t at = 0; at < len; at++) dst[at] ^= src[at];
}

__attribute__((noinline)) static void mul_plain(uint8_t coef, const uint8_t *src, uint8_t *dst, size_t len) {
    const uint8_t *row = products[coef];
    for (size_t at = 0; at < len; at++) dst[at] ^= row[src[at]];
}

__attribute__((noinline)) static void mul_shuffle(uint8_t coef, const uint8_t *src, uint8_t *dst, size_t len) {
    const __m128i low = _mm_loadu_si128((const __m128i *)halves[coef]);
    const __m128i high = _mm_loadu_si128((const __m128i *)(halves[coef] + 16));
    const __m128i mask = _mm_set1_epi8(15);
    size_t at = 0;
    for (; at + 64 <= len; at += 64) {
        for (size_t part = at; part < at + 64; part += 16) {
            __m128i from = _mm_loadu_si128((const __m128i *)(src + part));
            __m128i to = _mm_loadu_si128((const __m128i *)(dst + part));
            __m128i lows = _mm_shuffle_epi8(low, _mm_and_si128(from, mask));
            __m128i highs = _mm_shuffle_epi8(high, _mm_and_si128(_mm_srli_epi64(from, 4), mask));
            _mm_storeu_si128((__m128i *)(dst + part), _mm_xor_si128(to, _mm_xor_si128(lows, highs)));
        }
    }
    mul_plain(coef, src + at, dst + at, len - at);
}

static uint64_t now(void) {
    struct timespec t;
    clock_gettime(CLOCK_MONOTONIC, &t);
    return (uint64_t)t.tv_sec * 1000000000u + (uint64_t)t.tv_nsec;
}

int main(void) {
    for (int a = 0; a < 256; a++)
        for (int b = 0; b < 256; b++) products[a][b] = product((uint8_t)a, (uint8_t)b);
    for (int a = 0; a < 256; a++)
        for (int k = 0; k < 16; k++) {
            halves[a][k] = products[a][k];
            halves[a][16 + k] = products[a][16 * k];
        }
    static const size_t sizes[] = {64, 4096, 65536, 1048576};
    for (int s = 0; s < 4; s++) {
        size_t size = sizes[s], turns = BYTES_A_RUN / size;
        uint8_t *src = malloc(size), *dst = malloc(size), sum = 0;
        memset(src, 0xC3, size);
        memset(dst, 0x5A, size);
        uint64_t best[3] = {UINT64_MAX, UINT64_MAX, UINT64_MAX};
        for (int run = 0; run < RUNS; run++)
            for (int kind = 0; kind < 3; kind++) {
                uint64_t start = now();
                for (size_t turn = 0; turn < turns; turn++) {
                    uint8_t coef = (uint8_t)(turn % 254 + 2);
                    if (kind == 0) xor_plain(src, dst, size);
                    if (kind == 1) mul_plain(coef, src, dst, size);
                    if (kind == 2) mul_shuffle(coef, src, dst, size);
                }
                uint64_t spent = now() - start;
                if (spent < best[kind]) best[kind] = spent;
            }
        for (size_t at = 0; at < size; at++) sum ^= dst[at];
        printf("%zu %llu %llu %llu %u\n", size, (unsigned long long)best[0], (unsigned long long)best[1], (unsigned long long)best[2], sum);
        free(src);
        free(dst);
    }
    return 0;
}
