/* The reader of words, called from C: what include/sverdhyll.h says, on a few texts. */
#include <stdio.h>
#include <string.h>

#include "sverdhyll.h"

static int failures = 0;

static void expect(const char *what, int holds)
{
    if (!holds) {
        failures++;
        printf("failed: %s\n", what);
    }
}

static size_t word(const char *text, size_t at)
{
    return sverdhyll_word((const uint8_t *)text, strlen(text), at);
}

/* Whether a place of a text has this line and this column. */
static int stands(const char *text, size_t place, uint64_t line, uint64_t column)
{
    uint64_t found[2] = {99, 99};
    sverdhyll_position((const uint8_t *)text, strlen(text), place, &found[0], &found[1]);
    return found[0] == line && found[1] == column;
}

static uint8_t words(const char *text, uint32_t *table, size_t rows, uint64_t *values, size_t *place, size_t *count)
{
    return sverdhyll_words((const uint8_t *)text, strlen(text), 100, 10, 2, table, SVERDHYLL_ROW * rows, values, rows, place, count);
}

int main(void)
{
    uint32_t table[60];
    uint64_t values[12];
    size_t place, count;
    const uint32_t rows[15] = {SVERDHYLL_OPEN, 0, 1, 0, 3, SVERDHYLL_LITERAL, 1, 5, 8, 2, SVERDHYLL_CLOSE, 5, 6, 0, 3};

    expect("a word's length", word("(ab 12)", 1) == 2);
    expect("no word starts within a word", word("(ab 12)", 2) == 0);
    expect("no word starts in a comment", word(";(ab", 1) == 0);
    expect("no word starts past the end", word("ab", 2) == 0 && word("ab", 99) == 0);
    expect("an empty text has no word", sverdhyll_word(NULL, 0, 0) == 0);

    expect("places of a text", stands("(ab\n 12)", 0, 1, 1) && stands("(ab\n 12)", 3, 1, 4) && stands("(ab\n 12)", 5, 2, 2) && stands("(ab\n 12)", 6, 2, 3));
    expect("the end of a text", stands("ab", 2, 1, 3) && stands("ab\n", 3, 2, 1) && stands("", 0, 1, 1) && stands("ab", 99, 1, 3));

    memset(table, 0xff, sizeof table);
    memset(values, 0xff, sizeof values);
    expect("a whole text", words("(#xF0)", table, 12, values, &place, &count) == 0 && place == 0 && count == 3);
    expect("its rows", memcmp(table, rows, sizeof rows) == 0);
    expect("its values", values[0] == 0 && values[1] == 240 && values[2] == 0);
    expect("what is behind them stays", table[15] == UINT32_MAX && values[3] == UINT64_MAX);

    expect("keywords", words(":weights (:weight)", table, 12, values, &place, &count) == 0 && count == 4 && table[0] == SVERDHYLL_KEYWORD &&
           table[2 * SVERDHYLL_ROW] == SVERDHYLL_KEYWORD && table[2 * SVERDHYLL_ROW + 1] == 10 && table[2 * SVERDHYLL_ROW + 2] == 17);
    expect("another keyword", words("a :weighted", table, 12, values, &place, &count) == 6 && place == 2 && count == 1);

    expect("a bad word", words("(ab 00)", table, 12, values, &place, &count) == 2 && place == 4 && count == 2);
    expect("a bracket closed too often", words("())", table, 12, values, &place, &count) == 3 && place == 2 && count == 2);
    expect("a bracket never closed", words("(()", table, 12, values, &place, &count) == 3 && place == 3 && count == 3);
    expect("nesting", words("(((", table, 12, values, &place, &count) == 4 && place == 2 && count == 2);
    expect("a word that is not carried", words("a |b|", table, 12, values, &place, &count) == 6 && place == 2 && count == 1);
    expect("no room", words("a b", table, 1, values, &place, &count) == 4 && place == 2 && count == 1);
    expect("too long", sverdhyll_words((const uint8_t *)"ab", 2, 1, 10, 2, table, 60, values, 12, &place, &count) == 1 && place == 2 && count == 0);

    printf(failures ? "%d failed\n" : "words from C: as the header says\n", failures);
    return failures != 0;
}
