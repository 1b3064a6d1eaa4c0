/* How the time to read a text grows with its length: prints nanoseconds a byte for texts of 1 to 64 KiB, and the ratio to the first. */
#include <stdio.h>
#include <stdlib.h>
#include <string.h>
#include <time.h>

#include "sverdhyll.h"

enum { MOST = SVERDHYLL_MOST_SCRIPT };

static double now(void)
{
    struct timespec t;
    clock_gettime(CLOCK_MONOTONIC, &t);
    return t.tv_sec * 1e9 + t.tv_nsec;
}

/* The shortest of many times to read the text once. */
static double shortest(const uint8_t *text, size_t size, uint32_t *table, uint64_t *values)
{
    double best = 1e18;
    size_t place, count;
    for (int turn = 0; turn < 400; turn++) {
        double start = now();
        uint8_t answer = sverdhyll_words(text, size, MOST, MOST, 64, table, 5 * MOST, values, MOST, &place, &count);
        double time = now() - start;
        if (answer != 0) {
            printf("refused: %d at %zu\n", answer, place);
            exit(1);
        }
        if (time < best) best = time;
    }
    return best;
}

static void measure(const char *name, const char *piece)
{
    static uint8_t text[MOST];
    static uint32_t table[5 * MOST];
    static uint64_t values[MOST];
    double first = 0;
    size_t part = strlen(piece);
    printf("%s\n", name);
    for (size_t size = 1024; size <= sizeof text; size *= 2) {
        memset(text, ' ', size);
        for (size_t at = 0; at + part <= size; at += part) memcpy(text + at, piece, part);
        double each = shortest(text, size, table, values) / size;
        if (first == 0) first = each;
        printf("  %2zu KiB  %6.2f ns a byte  ratio %.2f\n", size / 1024, each, each / first);
    }
}

int main(void)
{
    measure("a script's text", "(constraint (= (bvadd x #x0000000F) (f x y))) ; sum\n");
    measure("short words side by side", "a ");
    measure("lists side by side", "(a)");
    measure("one comment", ";");
    return 0;
}
