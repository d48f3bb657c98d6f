/* The plain loop beside which crate way_curve is measured: for each set a list of the last 32 lines, the one used last in front,
 * and a count for each place.
 *
 *     cc -O2 -o /tmp/way_curve bench/way_curve.c && perf stat -e instructions:u /tmp/way_curve 64 4000000 1000
 *
 * The words are sets (a power of two), lines to note, and how many different lines there are. It prints the hits by ways. */
#include <stdint.h>
#include <stdio.h>
#include <stdlib.h>

enum { WAYS = 32 };

struct set {
    uint64_t lines[WAYS];
    size_t len;
};

static uint64_t at_distance[WAYS];

static void note(struct set *set, uint64_t line) {
    uint64_t carried = line;
    for (size_t place = 0; place < set->len; place++) {
        uint64_t passed = set->lines[place];
        set->lines[place] = carried;
        if (passed == line) {
            at_distance[place]++;
            return;
        }
        carried = passed;
    }
    if (set->len < WAYS)
        set->lines[set->len++] = carried;
}

int main(int argc, char **argv) {
    if (argc != 4)
        return 1;
    uint64_t sets = strtoull(argv[1], 0, 10), count = strtoull(argv[2], 0, 10), different = strtoull(argv[3], 0, 10);
    struct set *table = calloc(sets, sizeof *table);
    if (!table)
        return 1;
    uint64_t number = 1;
    for (uint64_t i = 0; i < count; i++) {
        number = number * 6364136223846793005u + 1442695040888963407u;
        uint64_t line = (number >> 33) % different;
        note(&table[line & (sets - 1)], line);
    }
    uint64_t hits = 0;
    for (int ways = 1; ways <= WAYS; ways++)
        printf("%d %llu\n", ways, (unsigned long long)(hits += at_distance[ways - 1]));
    free(table);
    return 0;
}
