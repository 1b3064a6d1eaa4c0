/* A console that underlines the fault of a script or of a response, and the declaration of a name that is taken: console SCRIPT RESPONSE. Points are none, so that
   only texts and derivations are checked, unless the script has no variables. include/sverdhyll.h says how to link it. */
#include <stdio.h>

#include "sverdhyll.h"

/* A text, or so much of one that is too long that the checker finds that. */
struct text {
    uint8_t bytes[SVERDHYLL_MOST_SCRIPT + 1];
    size_t length;
};

/* Reads a file; returns 0 where there is none. */
static int read_text(const char *name, struct text *text)
{
    FILE *file = fopen(name, "rb");
    if (!file) return 0;
    text->length = fread(text->bytes, 1, sizeof text->bytes, file);
    return !fclose(file);
}

/* Prints the line that has a place in a column, and carets under the word that ends there, or one where the text ends. */
static void underline(const struct text *text, uint64_t place, uint64_t column, uint64_t end)
{
    const uint64_t line = place + 1 - column;
    for (uint64_t at = line; at < text->length && text->bytes[at] != '\n'; at++) putchar(text->bytes[at]);
    putchar('\n');
    for (uint64_t at = line; at < place; at++) putchar(text->bytes[at] == '\t' ? '\t' : ' ');
    for (uint64_t at = place; at == place || at < end; at++) putchar('^');
    putchar('\n');
}

/* Prints where a name that is taken was declared, which the second number of answer 7 says. */
static void declaration(const char *name, const struct text *script, uint64_t place)
{
    uint64_t line, column;
    sverdhyll_position(script->bytes, script->length, place, &line, &column);
    printf("%s:%d:%d: declared here\n", name, (int)line, (int)column);
    underline(script, place, column, place + sverdhyll_word(script->bytes, script->length, place));
}

int main(int count, char **names)
{
    static struct text texts[2];
    static uint16_t shown[SVERDHYLL_AREA];
    uint64_t answer[SVERDHYLL_ANSWER];
    if (count != 3 || !read_text(names[1], &texts[SVERDHYLL_SCRIPT]) || !read_text(names[2], &texts[SVERDHYLL_RESPONSE])) return 2;
    const uint8_t number = sverdhyll_answer(texts[0].bytes, texts[0].length, texts[1].bytes, texts[1].length, NULL, 0, 1000000, shown, SVERDHYLL_AREA, answer);
    const uint64_t text = answer[SVERDHYLL_TEXT];
    if (answer[SVERDHYLL_LINE] > 0) printf("%s:%d:%d: ", names[1 + text], (int)answer[SVERDHYLL_LINE], (int)answer[SVERDHYLL_COLUMN]);
    printf("answer %d\n", number);
    if (answer[SVERDHYLL_LINE] > 0) underline(&texts[text], answer[SVERDHYLL_PLACE], answer[SVERDHYLL_COLUMN], answer[SVERDHYLL_END]);
    if (number == SVERDHYLL_NAME && answer[SVERDHYLL_SECOND] > 0) declaration(names[1], &texts[0], answer[SVERDHYLL_SECOND]);
    return number != SVERDHYLL_ACCEPTED;
}
