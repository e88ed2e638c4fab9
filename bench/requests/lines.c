// The same bytes: each line ended by memchr, a data block taken by its length and copied to memory of
// its own, and nothing else.
#include <stdint.h>
#include <stdio.h>
#include <stdlib.h>
#include <string.h>
#include <time.h>

enum { BYTES = 1 << 26, RUNS = 5 };

static uint64_t now(void) {
    struct timespec t;
    clock_gettime(CLOCK_PROCESS_CPUTIME_ID, &t);
    return (uint64_t)t.tv_sec * 1000000000u + t.tv_nsec;
}

static size_t block_of(const char *line, const char *end) {
    if (memcmp(line, "set ", 4) != 0) return 0;
    while (end[-1] != ' ') end--;
    return strtoul(end, NULL, 10) + 2;
}

static uint64_t lines(const char *at, const char *end) {
    uint64_t count = 0;
    while (at < end) {
        const char *stop = memchr(at, '\n', end - at);
        if (!stop) break;
        size_t block = block_of(at, stop);
        if (block) {
            char *value = malloc(block - 2);
            memcpy(value, stop + 1, block - 2);
            __asm__ volatile("" : : "r"(value) : "memory");
            free(value);
        }
        at = stop + 1 + block;
        count++;
    }
    return count;
}

static void measured(const char *name, const char *request, size_t length) {
    char *input = malloc(BYTES);
    size_t bytes = 0, count = 0;
    for (; bytes + length <= BYTES; bytes += length, count++) memcpy(input + bytes, request, length);
    uint64_t best = UINT64_MAX, read = 0;
    for (int run = 0; run < RUNS; run++) {
        uint64_t start = now();
        read = lines(input, input + bytes);
        uint64_t spent = now() - start;
        if (spent < best) best = spent;
    }
    printf("%s %llu %zu %zu %llu\n", name, (unsigned long long)best, bytes, count, (unsigned long long)read);
    free(input);
}

static void store(const char *name, size_t length) {
    char *request = malloc(length + 64);
    size_t at = sprintf(request, "set key:1234 0 0 %zu\r\n", length);
    memset(request + at, 'x', length);
    memcpy(request + at + length, "\r\n", 2);
    measured(name, request, at + length + 2);
    free(request);
}

int main(void) {
    static const char one[] = "get key:1234\r\n";
    static const char ten[] = "get key:0001 key:0002 key:0003 key:0004 key:0005 key:0006 key:0007 key:0008 key:0009 key:0010\r\n";
    measured("get_1", one, sizeof one - 1);
    measured("get_10", ten, sizeof ten - 1);
    store("set_100", 100);
    store("set_64K", 65536);
    return 0;
}
