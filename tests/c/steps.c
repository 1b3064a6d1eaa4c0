/* The runner of steps, called from C on a thread of 2 MiB: what include/sverdhyll.h says, with the decided readings of request E11 by their numbers. */
#include <pthread.h>
#include <stdio.h>
#include <stdlib.h>
#include <string.h>

#include "sverdhyll.h"

enum { STACK = 2 << 20, PAINT = 0xa5, LONG = 10000, MOST_STEPS = 2 * LONG + 1,
       NOT = 0, AND = 1, EQUAL = 5, ITE = 7, BVNOT = 8, BVADD = 13, CONCAT = 21, EXTRACT = 22, BVSDIV = 23, PAST = 34 };

/* A list of numbers: a pointer and a length. */
#define LIST(...) (const uint64_t[]){__VA_ARGS__}, sizeof((const uint64_t[]){__VA_ARGS__}) / sizeof(uint64_t)

/* No numbers at all. */
#define EMPTY NULL, 0

/* Steps. */
#define ARGUMENT(k) SVERDHYLL_PUSH_ARGUMENT, k, 0, 0
#define CONSTANT(value, width) SVERDHYLL_PUSH_CONSTANT, value, width, 0
#define APPLY(o, count) SVERDHYLL_APPLY, o, count, 0
#define CUT(i, j) SVERDHYLL_APPLY, EXTRACT, i, j

static int failures = 0;

/* A list that is put together step by step. */
static uint64_t list[SVERDHYLL_STEP * MOST_STEPS];
static size_t numbers;

/* Begins the list anew. */
static void begin(void)
{
    numbers = 0;
}

/* Adds a step so many times. */
static void add(size_t times, uint64_t first, uint64_t second, uint64_t third, uint64_t fourth)
{
    const uint64_t step[SVERDHYLL_STEP] = {first, second, third, fourth};
    for (; times > 0 && numbers + SVERDHYLL_STEP <= sizeof list / sizeof *list; times--, numbers += SVERDHYLL_STEP) memcpy(list + numbers, step, sizeof step);
    if (times > 0) failures++, printf("failed: the list has no room\n");
}

/* Runs a list and expects this number, place, value and sort. */
static void expect(const char *what, const uint64_t *sorts, size_t sorts_len, const uint64_t *arguments, size_t arguments_len, const uint64_t *steps,
                   size_t steps_len, uint8_t number, uint64_t place, uint64_t value, uint64_t sort)
{
    uint64_t found[3] = {99, 99, 99};
    const uint8_t answer = sverdhyll_run(sorts, sorts_len, arguments, arguments_len, steps, steps_len, &found[0], &found[1], &found[2]);
    if (answer == number && found[0] == place && found[1] == value && found[2] == sort) return;
    failures++;
    printf("failed: %s: answer %d, place %llu, value %llu, sort %llu\n", what, answer, (unsigned long long)found[0], (unsigned long long)found[1],
           (unsigned long long)found[2]);
}

/* Expects a value and its sort of a list without arguments. */
static void gives(const char *what, const uint64_t *steps, size_t steps_len, uint64_t value, uint64_t sort)
{
    expect(what, EMPTY, EMPTY, steps, steps_len, 0, 0, value, sort);
}

/* Expects that a list without arguments is refused at this step. */
static void refused(const char *what, const uint64_t *steps, size_t steps_len, uint64_t step)
{
    expect(what, EMPTY, EMPTY, steps, steps_len, SVERDHYLL_BAD_STEP, step, 0, 0);
}

/* Expects that arguments are refused at this index, whatever the steps are. */
static void bad(const char *what, const uint64_t *sorts, size_t sorts_len, const uint64_t *arguments, size_t arguments_len, uint64_t index)
{
    expect(what, sorts, sorts_len, arguments, arguments_len, LIST(CONSTANT(1, 8)), SVERDHYLL_BAD_ARGUMENT, index, 0, 0);
    expect(what, sorts, sorts_len, arguments, arguments_len, LIST(9), SVERDHYLL_BAD_ARGUMENT, index, 0, 0);
}

/* The lists that bodies have, on the arguments x = 200 of width 8 and p = 1 of Bool. */
static void bodies(void)
{
    expect("E11.1: (bvadd x #x0F)", LIST(8, 0), LIST(200, 1), LIST(ARGUMENT(0), CONSTANT(15, 8), APPLY(BVADD, 2)), 0, 0, 215, 8);
    expect("E11.2: ((_ extract 7 0) x)", LIST(8, 0), LIST(200, 1), LIST(ARGUMENT(0), CUT(7, 0)), 0, 0, 200, 8);
    expect("E11.3: (bvsdiv x x)", LIST(8, 0), LIST(200, 1), LIST(ARGUMENT(0), ARGUMENT(0), APPLY(BVSDIV, 2)), 0, 0, 1, 8);
    expect("E11.4: true", LIST(8, 0), LIST(200, 1), LIST(CONSTANT(1, 0)), 0, 0, 1, 0);
    expect("E11.5: (and p p p)", LIST(8, 0), LIST(200, 1), LIST(ARGUMENT(1), ARGUMENT(1), ARGUMENT(1), APPLY(AND, 3)), 0, 0, 1, 0);
    expect("E11.6: (_ bv15 8)", LIST(8, 0), LIST(200, 1), LIST(CONSTANT(15, 8)), 0, 0, 15, 8);
    expect("E11.31: arguments are numbered from 0", LIST(8, 0), LIST(200, 1), LIST(ARGUMENT(1)), 0, 0, 1, 0);
    expect("(ite p (bvadd x x) x)", LIST(8, 0), LIST(200, 1), LIST(ARGUMENT(1), ARGUMENT(0), ARGUMENT(0), APPLY(BVADD, 2), ARGUMENT(0), APPLY(ITE, 3)), 0, 0,
           144, 8);
}

/* Steps that are malformed, and lists that are cut short or do not end with one value. */
static void malformed(void)
{
    refused("E11.12: the second step", LIST(CONSTANT(1, 8), 4, 0, 0, 0, CONSTANT(1, 8)), 1);
    refused("E11.13: two values at the end", LIST(CONSTANT(1, 8), CONSTANT(1, 8)), 2);
    refused("E11.14: the empty list", EMPTY, 0);
    refused("E11.15: five numbers", LIST(CONSTANT(1, 8), 2), 1);
    refused("one number", LIST(2), 0);
    refused("two numbers", LIST(2, 1), 0);
    refused("three numbers", LIST(2, 1, 8), 0);
    refused("seven numbers", LIST(CONSTANT(1, 8), 2, 1, 8), 1);
    refused("a refused step before one that is cut short", LIST(CONSTANT(2, 1), 2), 0);
    refused("E11.16: an unused number that is not 0, of a constant", LIST(2, 1, 8, 1), 0);
    refused("an unused number that is not 0, of an operator", LIST(CONSTANT(1, 8), 3, BVNOT, 1, 1), 1);
    expect("an unused third number that is not 0, of an argument", LIST(8), LIST(1), LIST(1, 0, 1, 0), SVERDHYLL_BAD_STEP, 0, 0, 0);
    expect("an unused fourth number that is not 0, of an argument", LIST(8), LIST(1), LIST(1, 0, 0, 1), SVERDHYLL_BAD_STEP, 0, 0, 0);
    refused("no step is 0", LIST(0, 0, 0, 0), 0);
    refused("no step is 4", LIST(4, 1, 8, 0), 0);
    refused("no step is 2^64 - 1", LIST(UINT64_MAX, 1, 8, 0), 0);
    refused("no step is 2^32 + 2", LIST((1ull << 32) + 2, 1, 8, 0), 0);
    refused("E11.17: 256 at width 8", LIST(CONSTANT(256, 8)), 0);
    refused("2 as a Bool", LIST(CONSTANT(2, 0)), 0);
    refused("a width of 65", LIST(CONSTANT(1, 65)), 0);
    refused("a width of 2^64 - 1", LIST(CONSTANT(1, UINT64_MAX)), 0);
    refused("2^63 at width 63", LIST(CONSTANT(1ull << 63, 63)), 0);
    gives("2^64 - 1 at width 64", LIST(CONSTANT(UINT64_MAX, 64)), UINT64_MAX, 64);
    gives("255 at width 8", LIST(CONSTANT(255, 8)), 255, 8);
    gives("1 at width 1", LIST(CONSTANT(1, 1)), 1, 1);
    gives("false", LIST(CONSTANT(0, 0)), 0, 0);
}

/* Operands that are too few, too many or wrongly sorted. */
static void operands(void)
{
    refused("E11.19: `not` with count 2", LIST(CONSTANT(1, 0), CONSTANT(1, 0), APPLY(NOT, 2)), 2);
    refused("`not` with count 0", LIST(CONSTANT(1, 0), APPLY(NOT, 0)), 1);
    refused("`and` with count 1", LIST(CONSTANT(1, 0), APPLY(AND, 1)), 1);
    refused("`and` with count 0", LIST(CONSTANT(1, 0), APPLY(AND, 0)), 1);
    refused("`bvadd` with count 3", LIST(CONSTANT(1, 8), CONSTANT(1, 8), CONSTANT(1, 8), APPLY(BVADD, 3)), 3);
    refused("an operator on an empty stack", LIST(APPLY(NOT, 1)), 0);
    refused("`extract` on an empty stack", LIST(CUT(7, 0)), 0);
    refused("`bvadd` on one value", LIST(CONSTANT(1, 8), APPLY(BVADD, 2)), 1);
    refused("`and` of three on two values", LIST(CONSTANT(1, 0), CONSTANT(1, 0), APPLY(AND, 3)), 2);
    refused("E11.32: an operand count of 2^64 - 1", LIST(CONSTANT(1, 0), CONSTANT(1, 0), APPLY(AND, UINT64_MAX)), 2);
    refused("an operand count of 2^32 + 2", LIST(CONSTANT(1, 0), CONSTANT(1, 0), APPLY(AND, (1ull << 32) + 2)), 2);
    refused("`bvadd` of two widths", LIST(CONSTANT(1, 8), CONSTANT(1, 7), APPLY(BVADD, 2)), 2);
    refused("`bvadd` of two Bools", LIST(CONSTANT(1, 0), CONSTANT(1, 0), APPLY(BVADD, 2)), 2);
    refused("`and` of two vectors", LIST(CONSTANT(1, 1), CONSTANT(1, 1), APPLY(AND, 2)), 2);
    refused("`=` whose third operand has another sort", LIST(CONSTANT(1, 8), CONSTANT(1, 8), CONSTANT(1, 0), APPLY(EQUAL, 3)), 3);
    refused("`ite` without a Bool", LIST(CONSTANT(1, 1), CONSTANT(1, 8), CONSTANT(1, 8), APPLY(ITE, 3)), 3);
    refused("E11.27: `concat` wider than 64", LIST(CONSTANT(1, 33), CONSTANT(1, 32), APPLY(CONCAT, 2)), 2);
    refused("`concat` of two operands of 64", LIST(CONSTANT(1, 64), CONSTANT(1, 64), APPLY(CONCAT, 2)), 2);
    refused("`concat` with a Bool", LIST(CONSTANT(1, 8), CONSTANT(1, 0), APPLY(CONCAT, 2)), 2);
    gives("`concat` of 64", LIST(CONSTANT(1, 32), CONSTANT(2, 32), APPLY(CONCAT, 2)), (1ull << 32) + 2, 64);
    refused("E11.28: `extract` with i < j", LIST(CONSTANT(1, 8), CUT(3, 4)), 1);
    refused("E11.28: `extract` past the width", LIST(CONSTANT(1, 8), CUT(8, 0)), 1);
    refused("`extract` of a Bool", LIST(CONSTANT(1, 0), CUT(0, 0)), 1);
    refused("`extract` with i of 2^64 - 1", LIST(CONSTANT(1, 64), CUT(UINT64_MAX, 0)), 1);
    refused("`extract` with i and j of 2^64 - 1", LIST(CONSTANT(1, 64), CUT(UINT64_MAX, UINT64_MAX)), 1);
    gives("`extract` of all bits", LIST(CONSTANT(UINT64_MAX, 64), CUT(63, 0)), UINT64_MAX, 64);
    gives("`extract` of one bit", LIST(CONSTANT(16, 8), CUT(4, 4)), 1, 1);
}

/* Each operator by its number: those of Bool on 1 and 0, those of vectors on #xF9 and #x03; E11.30: the table may only grow at its end. */
static void table(void)
{
    static const struct { uint64_t o, count, width, value, sort; } rows[] = {
        {0, 1, 0, 0, 0}, {1, 2, 0, 0, 0}, {2, 2, 0, 1, 0}, {3, 2, 0, 1, 0}, {4, 2, 0, 0, 0}, {5, 2, 8, 0, 0}, {6, 2, 8, 1, 0}, {8, 1, 8, 0x06, 8},
        {9, 1, 8, 0x07, 8}, {10, 2, 8, 0x01, 8}, {11, 2, 8, 0xfb, 8}, {12, 2, 8, 0xfa, 8}, {13, 2, 8, 0xfc, 8}, {14, 2, 8, 0xf6, 8}, {15, 2, 8, 0xeb, 8},
        {16, 2, 8, 0x53, 8}, {17, 2, 8, 0x00, 8}, {18, 2, 8, 0xc8, 8}, {19, 2, 8, 0x1f, 8}, {20, 2, 8, 0, 0}, {21, 2, 8, 0xf903, 16}, {23, 2, 8, 0xfe, 8},
        {24, 2, 8, 0xff, 8}, {25, 2, 8, 0x02, 8}, {26, 2, 8, 0xff, 8}, {27, 2, 8, 1, 0}, {28, 2, 8, 1, 0}, {29, 2, 8, 0, 0}, {30, 2, 8, 0, 0},
        {31, 2, 8, 0, 0}, {32, 2, 8, 1, 0}, {33, 2, 8, 1, 0},
    };
    char what[32];
    for (size_t i = 0; i < sizeof rows / sizeof *rows; i++) {
        snprintf(what, sizeof what, "operator %llu", (unsigned long long)rows[i].o);
        begin();
        add(1, CONSTANT(rows[i].width == 0 ? 1 : 0xf9, rows[i].width));
        if (rows[i].count == 2) add(1, CONSTANT(rows[i].width == 0 ? 0 : 0x03, rows[i].width));
        add(1, APPLY(rows[i].o, rows[i].count));
        gives(what, list, numbers, rows[i].value, rows[i].sort);
    }
    gives("operator 7", LIST(CONSTANT(0, 0), CONSTANT(0xf9, 8), CONSTANT(3, 8), APPLY(7, 3)), 3, 8);
    gives("operator 22", LIST(CONSTANT(0xf9, 8), CUT(6, 3)), 15, 4);
    refused("E11.29: an operator that is not in the table", LIST(CONSTANT(1, 8), CONSTANT(1, 8), APPLY(PAST, 2)), 2);
    refused("the number past the table with no operands", LIST(APPLY(PAST, 0), CONSTANT(1, 8)), 0);
    refused("operator 35", LIST(CONSTANT(1, 0), CONSTANT(1, 0), APPLY(35, 2)), 2);
    refused("operator 256 + 13", LIST(CONSTANT(1, 8), CONSTANT(1, 8), APPLY(256 + BVADD, 2)), 2);
    refused("operator 2^32 + 22", LIST(CONSTANT(1, 8), SVERDHYLL_APPLY, (1ull << 32) + EXTRACT, 7, 0), 1);
    refused("operator 2^64 - 1", LIST(CONSTANT(1, 8), CONSTANT(1, 8), APPLY(UINT64_MAX, 2)), 2);
}

/* Arguments against the sorts given along. */
static void arguments(void)
{
    refused("E11.18: an argument that is not there", LIST(ARGUMENT(0)), 0);
    expect("an argument past the last", LIST(8), LIST(1), LIST(ARGUMENT(1)), SVERDHYLL_BAD_STEP, 0, 0, 0);
    expect("argument 2^64 - 1", LIST(8), LIST(1), LIST(ARGUMENT(UINT64_MAX)), SVERDHYLL_BAD_STEP, 0, 0, 0);
    expect("argument 2^32", LIST(8), LIST(1), LIST(ARGUMENT(1ull << 32)), SVERDHYLL_BAD_STEP, 0, 0, 0);
    bad("E11.22: counts differ and a bad sort", LIST(65, 8), LIST(1), 1);
    bad("more arguments than sorts", LIST(8), LIST(1, 2, 3), 3);
    bad("sorts and no arguments", LIST(8), EMPTY, 0);
    bad("arguments and no sorts", EMPTY, LIST(1, 2), 2);
    bad("E11.23: sort 65", LIST(8, 65), LIST(1, 1), 1);
    bad("sort 2^64 - 1", LIST(8, 8, UINT64_MAX), LIST(1, 1, 0), 2);
    bad("E11.24: Bool argument 2", LIST(0), LIST(2), 0);
    bad("256 at width 8", LIST(0, 8), LIST(1, 256), 1);
    bad("2 at width 1", LIST(64, 1), LIST(UINT64_MAX, 2), 1);
    bad("the first of two bad arguments", LIST(8, 8, 8), LIST(1, 256, 256), 1);
    expect("2^64 - 1 at width 64", LIST(64), LIST(UINT64_MAX), LIST(ARGUMENT(0)), 0, 0, UINT64_MAX, 64);
    expect("E11.25: nine arguments", LIST(8, 8, 8, 8, 8, 8, 8, 8, 8), LIST(1, 2, 3, 4, 5, 6, 7, 8, 9), LIST(ARGUMENT(8)), 0, 0, 9, 8);
    expect("arguments that no step pushes", LIST(8, 0), LIST(1, 1), LIST(CONSTANT(7, 3)), 0, 0, 7, 3);
}

/* The stack at its size, and lists longer than that. */
static void sizes(void)
{
    begin();
    add(SVERDHYLL_MOST_VALUES, CONSTANT(1, 0));
    refused("256 values at the end", list, numbers, 256);
    add(1, APPLY(NOT, 1));
    add(1, APPLY(NOT, 1));
    add(1, APPLY(AND, 256));
    gives("E11.21: 256 values and `and` of 256, with two `not`s on the full stack", list, numbers, 1, 0);
    begin();
    add(SVERDHYLL_MOST_VALUES, CONSTANT(1, 0));
    add(1, APPLY(AND, 257));
    refused("`and` of 257 on 256 values", list, numbers, 256);
    begin();
    add(SVERDHYLL_MOST_VALUES + 2, CONSTANT(1, 0));
    add(1, APPLY(AND, 258));
    refused("E11.20: 256 values, then 257", list, numbers, 256);
    begin();
    add(SVERDHYLL_MOST_VALUES + 1, ARGUMENT(0));
    add(1, APPLY(AND, 257));
    expect("256 values, then 257, by arguments", LIST(0), LIST(1), list, numbers, SVERDHYLL_BAD_STEP, 256, 0, 0);
    begin();
    add(1, CONSTANT(1, 8));
    add(SVERDHYLL_MOST_VALUES, APPLY(BVNOT, 1));
    gives("E11.26: 257 steps", list, numbers, 1, 8);
    begin();
    add(1, CONSTANT(0, 32));
    for (int i = 0; i < LONG; i++) add(1, CONSTANT(1, 32)), add(1, APPLY(BVADD, 2));
    gives("20,001 steps", list, numbers, LONG, 32);
    refused("20,001 steps, the last one cut short", list, numbers - 1, 2 * LONG);
}

/* All of them, on the thread. */
static void *all(void *unused)
{
    bodies();
    malformed();
    operands();
    table();
    arguments();
    sizes();
    return unused;
}

int main(void)
{
    pthread_t thread;
    pthread_attr_t attributes;
    size_t untouched = 0;
    unsigned char *stack = aligned_alloc(4096, STACK);
    if (stack == NULL) return 1;
    memset(stack, PAINT, STACK);
    pthread_attr_init(&attributes);
    if (pthread_attr_setstack(&attributes, stack, STACK) || pthread_create(&thread, &attributes, all, NULL) || pthread_join(thread, NULL)) return 1;
    while (untouched < STACK && stack[untouched] == PAINT) untouched++;
    printf("stack used: %zu KiB of %d KiB\n", (STACK - untouched) / 1024, STACK / 1024);
    if (failures) printf("%d failed\n", failures);
    else printf("the runner from C: as the header says\n");
    return failures != 0;
}
