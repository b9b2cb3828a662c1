/*
 * The baseline of the benchmark: the engine's two tables filled by plain C, over the same records, for a network of
 * 1,000 events and 20,000 waits drawn by a linear congruence. It prints a checksum of the tables, and with the word
 * "time" the milliseconds that filling them took.
 */
#include <inttypes.h>
#include <stdint.h>
#include <stdio.h>
#include <stdlib.h>
#include <string.h>
#include <time.h>

enum { EVENTS = 1000, WAITS = 20000, SPAN = 86400 };

struct wait {
    uint32_t start;
    uint32_t end;
    int64_t amount;
};

static uint64_t state = 1;

static uint32_t below(uint32_t limit)
{
    state = state * UINT64_C(6364136223846793005) + UINT64_C(1442695040888963407);
    return (uint32_t)(state >> 33) % limit;
}

/* Entry k * n + v: the greatest total of a walk of k waits to v, and 1 plus the lowest wait that ends one; else 0, 0. */
__attribute__((noinline)) static void fill(const struct wait *waits, uint32_t m, size_t n, int64_t *rows, uint32_t *marks)
{
    for (size_t v = 0; v < n; v++) {
        rows[v] = 0;
        marks[v] = 0;
    }
    for (size_t k = 0; k < n; k++) {
        const int64_t *old_rows = rows + k * n;
        const uint32_t *old_marks = marks + k * n;
        int64_t *new_rows = rows + (k + 1) * n;
        uint32_t *new_marks = marks + (k + 1) * n;
        for (size_t v = 0; v < n; v++) {
            new_rows[v] = 0;
            new_marks[v] = 0;
        }
        for (uint32_t e = 0; e < m; e++) {
            struct wait w = waits[e];
            if (k == 0 || old_marks[w.start] > 0) {
                int64_t total = old_rows[w.start] + w.amount;
                if (new_marks[w.end] == 0 || total > new_rows[w.end]) {
                    new_rows[w.end] = total;
                    new_marks[w.end] = e + 1;
                }
            }
        }
    }
}

int main(int argc, char **argv)
{
    size_t size = (size_t)(EVENTS + 1) * EVENTS;
    struct wait *waits = malloc(WAITS * sizeof *waits);
    int64_t *rows = calloc(size, sizeof *rows);
    uint32_t *marks = calloc(size, sizeof *marks);
    if (waits == NULL || rows == NULL || marks == NULL) {
        fprintf(stderr, "tables: no memory\n");
        return 1;
    }
    for (int e = 0; e < WAITS; e++) {
        waits[e].start = below(EVENTS);
        waits[e].end = below(EVENTS);
        waits[e].amount = (int64_t)below(2 * SPAN + 1) - SPAN;
    }
    memset(rows, 0, size * sizeof *rows);
    struct timespec from, to;
    clock_gettime(CLOCK_MONOTONIC, &from);
    fill(waits, WAITS, EVENTS, rows, marks);
    clock_gettime(CLOCK_MONOTONIC, &to);
    uint64_t sum = 0;
    for (size_t i = 0; i < size; i++) {
        sum = sum * 31 + (uint64_t)rows[i];
        sum = sum * 31 + marks[i];
    }
    printf("tables %" PRIu64 "\n", sum);
    if (argc > 1 && strcmp(argv[1], "time") == 0) {
        printf("milliseconds %ld\n", (long)((to.tv_sec - from.tv_sec) * 1000 + (to.tv_nsec - from.tv_nsec) / 1000000));
    }
    return 0;
}
