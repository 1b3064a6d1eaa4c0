/* What the tests of the checker from C share: a call with its answer, and texts that are put together from pieces. */
#ifndef CALLS_H
#define CALLS_H

#include <stdarg.h>
#include <stdio.h>
#include <stdlib.h>
#include <string.h>

#include "sverdhyll.h"

/* An answer: its number, its text, its place, its second number and the units spent; of `sverdhyll_answer` and `sverdhyll_read` also the end, the line and the
   column, and the weights. */
struct answer {
    uint8_t number, text;
    uint64_t place, second, units, end, line, column, weights[SVERDHYLL_MOST_FUNCTIONS];
};

/* The area of every call, with two entries behind it. */
static uint16_t area[SVERDHYLL_AREA + 2];

/* A call with all that a caller may choose. */
static inline struct answer check_all(const char *script, size_t script_size, const char *response, size_t response_size, const uint64_t *points, size_t count,
                                      uint64_t budget, uint16_t *shown, size_t size)
{
    struct answer a = {99, 99, 99, 99, 99, 0, 0, 0, {0}};
    a.number = sverdhyll_check((const uint8_t *)script, script_size, (const uint8_t *)response, response_size, points, count, budget, shown, size, &a.text,
                               &a.place, &a.second, &a.units);
    return a;
}

/* Whether derivations are shown after an answer. */
static inline int is_showing(uint8_t number)
{
    return number == SVERDHYLL_ACCEPTED || number == SVERDHYLL_FALSE || number == SVERDHYLL_BUDGET_ENDED;
}

/* An answer that was returned with its sixteen numbers; one that is not formed as the header says has the number 99. */
static inline struct answer formed(uint8_t number, const uint64_t *n)
{
    int well = n[SVERDHYLL_NUMBER] == number && n[SVERDHYLL_TEXT] <= SVERDHYLL_NONE;
    for (int i = SVERDHYLL_WEIGHT; i < SVERDHYLL_ANSWER; i++) well &= n[i] == 0 || is_showing(number);
    struct answer a = {well ? number : 99, (uint8_t)n[SVERDHYLL_TEXT], n[SVERDHYLL_PLACE], n[SVERDHYLL_SECOND], n[SVERDHYLL_UNITS],
                       n[SVERDHYLL_END], n[SVERDHYLL_LINE], n[SVERDHYLL_COLUMN], {0}};
    memcpy(a.weights, n + SVERDHYLL_WEIGHT, sizeof a.weights);
    return a;
}

/* The same call by `sverdhyll_answer`. */
static inline struct answer answer_all(const char *script, size_t script_size, const char *response, size_t response_size, const uint64_t *points, size_t count,
                                       uint64_t budget, uint16_t *shown, size_t size)
{
    uint64_t n[SVERDHYLL_ANSWER];
    memset(n, 99, sizeof n);
    const uint8_t number = sverdhyll_answer((const uint8_t *)script, script_size, (const uint8_t *)response, response_size, points, count, budget, shown,
                                            size, n);
    return formed(number, n);
}

/* The texts' own answer, by `sverdhyll_read`. */
static inline struct answer read_all(const char *script, size_t script_size, const char *response, size_t response_size)
{
    uint64_t n[SVERDHYLL_ANSWER];
    memset(n, 99, sizeof n);
    const uint8_t number = sverdhyll_read((const uint8_t *)script, script_size, (const uint8_t *)response, response_size, n);
    return formed(number, n);
}

/* The area of every call for steps, with two numbers behind it. */
static uint64_t listed[SVERDHYLL_STEPS_AREA + 2];

/* Lends the area for steps with this number everywhere. */
static inline void lend(uint64_t lent)
{
    for (size_t i = 0; i < sizeof listed / sizeof *listed; i++) listed[i] = lent;
}

/* Whether the area for steps has the number that it was lent with, from here on. */
static inline int is_lent(size_t from, uint64_t lent)
{
    for (size_t i = from; i < sizeof listed / sizeof *listed; i++)
        if (listed[i] != lent) return 0;
    return 1;
}

/* The steps of a function's body, by `sverdhyll_steps`; `size` is said to be that of the area. */
static inline struct answer steps_all(const char *script, size_t script_size, const char *response, size_t response_size, const uint64_t *points,
                                      size_t points_count, uint64_t budget, uint64_t function, size_t size, size_t *count)
{
    uint64_t n[SVERDHYLL_ANSWER];
    memset(n, 99, sizeof n);
    *count = 99;
    const uint8_t number = sverdhyll_steps((const uint8_t *)script, script_size, (const uint8_t *)response, response_size, points, points_count, budget,
                                           function, listed, size, count, n);
    return formed(number, n);
}

/* A call with two texts, no points and the area. */
static inline struct answer check_texts(const char *script, const char *response, uint64_t budget)
{
    return check_all(script, strlen(script), response, strlen(response), NULL, 0, budget, area, SVERDHYLL_AREA);
}

/* Whether an answer is as given, but for the end, the line and the column. */
static inline int is_answer(struct answer a, uint8_t number, uint8_t text, uint64_t place, uint64_t second, uint64_t units)
{
    return a.number == number && a.text == text && a.place == place && a.second == second && a.units == units;
}

/* Whether the end, the line and the column of an answer are as given. */
static inline int is_at(struct answer a, uint64_t end, uint64_t line, uint64_t column)
{
    return a.end == end && a.line == line && a.column == column;
}

/* Whether two answers are the same. */
static inline int is_same(struct answer a, struct answer b)
{
    return is_answer(a, b.number, b.text, b.place, b.second, b.units) && is_at(a, b.end, b.line, b.column) && !memcmp(a.weights, b.weights, sizeof a.weights);
}

/* Whether the weights of an answer are those of the first two functions, and 0. */
static inline int weighs(struct answer a, uint64_t first, uint64_t next)
{
    int well = a.weights[0] == first && a.weights[1] == next;
    for (int k = 2; k < SVERDHYLL_MOST_FUNCTIONS; k++) well &= a.weights[k] == 0;
    return well;
}

/* Whether the texts' own answer is that both pass. */
static inline int passes(struct answer own)
{
    return is_answer(own, SVERDHYLL_ACCEPTED, SVERDHYLL_NONE, 0, 0, 0) && is_at(own, 0, 0, 0) && weighs(own, 0, 0);
}

/* Whether the texts' own answer agrees with that of `sverdhyll_answer` for points and an area of right sizes: it is the same where a text is refused, and else that
   both pass. */
static inline int agrees(struct answer own, struct answer a)
{
    if (a.number < SVERDHYLL_TOO_LONG || a.number > SVERDHYLL_HEADER) return passes(own);
    return is_answer(own, a.number, a.text, a.place, a.second, 0) && is_at(own, a.end, a.line, a.column) && a.units == 0;
}

/* How many entries the list of a function has, if all behind it up to the next list are unused; else -1. */
static inline int list_size(size_t function)
{
    const uint16_t *list = area + SVERDHYLL_LIST * function;
    int size = 0, i;
    while (size < SVERDHYLL_LIST && list[size] != SVERDHYLL_UNUSED) size++;
    for (i = size; i < SVERDHYLL_LIST; i++)
        if (list[i] != SVERDHYLL_UNUSED) return -1;
    return size;
}

/* Whether the area shows no list. */
static inline int is_blank(void)
{
    for (size_t i = 0; i < SVERDHYLL_AREA; i++)
        if (area[i] != SVERDHYLL_UNUSED) return 0;
    return 1;
}

/* A text, and how many words it has. */
struct text {
    char bytes[SVERDHYLL_MOST_SCRIPT + 4096];
    size_t size, words;
};

/* How many words a piece has that begins and ends with whole words. */
static inline size_t words_in(const char *piece)
{
    size_t count = 0;
    for (size_t i = 0; piece[i] != 0; i++) {
        const int bracket = piece[i] == '(' || piece[i] == ')', white = piece[i] == ' ' || piece[i] == '\n';
        const char next = piece[i + 1];
        const int ends = next == 0 || next == ' ' || next == '\n' || next == '(' || next == ')';
        count += bracket || (!white && ends);
    }
    return count;
}

/* Adds a piece to a text. */
static inline void add(struct text *text, const char *format, ...)
{
    va_list given;
    va_start(given, format);
    const size_t start = text->size;
    text->size += vsnprintf(text->bytes + start, sizeof text->bytes - start, format, given);
    va_end(given);
    if (text->size >= sizeof text->bytes) {
        printf("a text is too long\n");
        exit(1);
    }
    text->words += words_in(text->bytes + start);
}

/* Adds a piece so many times. */
static inline void repeat(struct text *text, const char *piece, size_t times)
{
    while (times-- > 0) add(text, "%s", piece);
}

/* Makes a text so long with a comment. */
static inline void pad(struct text *text, size_t size)
{
    memset(text->bytes + text->size, ';', size - text->size);
    text->size = size;
    text->bytes[size] = 0;
}

/* How many non-terminals a grammar may have, and how many operands a term of 256 nodes. */
enum { CHAIN = 16, MOST_OPERANDS = 255 };

/* Adds a function in whose derivation each node takes as many rules as it can, and an `and` of so many `t`s as its body: each non-terminal is the chain rule of the one
   before it (rules 0 to 14), and the last has the rules `t` (15) and an `and` of so many of the first (16). */
static inline void add_chain(struct text *script, struct text *response, const char *name, size_t operands)
{
    add(script, "(synth-fun %s () Bool (", name);
    for (int i = 0; i < CHAIN; i++) add(script, "(A%d Bool)", i);
    add(script, ") (");
    for (int i = 0; i < CHAIN - 1; i++) add(script, "(A%d Bool (A%d))", i, i + 1);
    add(script, "(A%d Bool (t (and", CHAIN - 1);
    repeat(script, " A0", operands);
    add(script, ")))))");
    add(response, "(define-fun %s () Bool (and", name);
    repeat(response, " t", operands);
    add(response, "))");
}

#endif
