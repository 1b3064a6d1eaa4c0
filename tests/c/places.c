/* Where places stand, from C: the end, the line and the column in the answers of `sverdhyll_answer` and `sverdhyll_read`, and by `sverdhyll_position` of any
   place. */
#include "calls.h"

#define LOGIC "(set-logic BV)"
#define F "(synth-fun f ((x Bool)) Bool ((A Bool)) ((A Bool (x (not A)))))"
#define SCRIPT LOGIC "\n" F "\n(declare-var v Bool)\n(constraint (not v))\n(check-synth)\n"
#define RESPONSE "((define-fun f ((x Bool)) Bool x))"

static int failures = 0;

static void expect(const char *what, int holds)
{
    if (!holds) {
        failures++;
        printf("failed: %s\n", what);
    }
}

/* The answer to two texts and a point, with a budget; the texts' own must agree with it. */
static struct answer to(const char *script, const char *response, uint64_t point, uint64_t budget)
{
    const struct answer a = answer_all(script, strlen(script), response, strlen(response), &point, 1, budget, area, SVERDHYLL_AREA);
    expect("the texts' own answer agrees", agrees(read_all(script, strlen(script), response, strlen(response)), a));
    return a;
}

/* An answer of a script: its number, its place, and the end, the line and the column there. */
static void script_at(const char *what, const char *script, uint8_t number, uint64_t place, uint64_t end, uint64_t line, uint64_t column)
{
    const struct answer a = to(script, RESPONSE, 0, 100);
    expect(what, is_answer(a, number, SVERDHYLL_SCRIPT, place, 0, 0) && is_at(a, end, line, column));
}

/* An answer of a response: its number, its place, and the end, the line and the column there. */
static void response_at(const char *what, const char *response, uint8_t number, uint64_t place, uint64_t end, uint64_t line, uint64_t column)
{
    const struct answer a = to(SCRIPT, response, 0, 100);
    expect(what, is_answer(a, number, SVERDHYLL_RESPONSE, place, 0, 0) && is_at(a, end, line, column));
}

/* Places of a script: words, brackets, and its end. */
static void scripts(void)
{
    const char *seventy = "aaaaaaaaaaaaaaaaaaaaaaaaaaaaaaaaaaaaaaaaaaaaaaaaaaaaaaaaaaaaaaaaaaaaaa";
    script_at("an empty text", "", SVERDHYLL_UNKNOWN_SHAPE, 0, 0, 1, 1);
    script_at("the end of a text", LOGIC, SVERDHYLL_UNKNOWN_SHAPE, 14, 14, 1, 15);
    script_at("the end after byte 10", LOGIC "\n", SVERDHYLL_UNKNOWN_SHAPE, 15, 15, 2, 1);
    script_at("the end after byte 10 and a space", LOGIC "\n ", SVERDHYLL_UNKNOWN_SHAPE, 16, 16, 2, 2);
    script_at("the end after byte 13", LOGIC "\r", SVERDHYLL_UNKNOWN_SHAPE, 15, 15, 1, 16);
    script_at("a bracket never closed", "\n(", SVERDHYLL_BRACKET, 2, 2, 2, 2);
    script_at("a bracket closed too often", "\n\n)", SVERDHYLL_BRACKET, 2, 3, 3, 1);
    script_at("a command's bracket", LOGIC "(foo)", SVERDHYLL_UNKNOWN_SHAPE, 14, 15, 1, 15);
    script_at("byte 13 ends no line", LOGIC "\r\r00", SVERDHYLL_BAD_WORD, 16, 18, 1, 17);
    script_at("bytes 13 and 10 end one line", LOGIC "\r\n00", SVERDHYLL_BAD_WORD, 16, 18, 2, 1);
    script_at("a tab is one column", "\t\t00 ", SVERDHYLL_BAD_WORD, 2, 4, 1, 3);
    script_at("bytes above 127 are one column each", ";\xc3\xa9\xff\r00", SVERDHYLL_BAD_WORD, 5, 7, 1, 6);
    script_at("a word of bytes above 127", " \xc3\xa9(", SVERDHYLL_BAD_WORD, 1, 3, 1, 2);
    script_at("a word past its size", seventy, SVERDHYLL_PAST_LIMIT, 0, 70, 1, 1);
    script_at("a name", LOGIC "\n(constraint\n\tyes)", SVERDHYLL_NAME, 28, 31, 3, 2);
}

/* Places of a response, which may stand in other lines than the same places of the script; answer 13 is that of the body's first word. */
static void responses(void)
{
    response_at("an empty response", "", SVERDHYLL_UNKNOWN_SHAPE, 0, 0, 1, 1);
    response_at("a bad word of a response", "\n\n\n 00", SVERDHYLL_BAD_WORD, 4, 6, 4, 2);
    response_at("another name", "((define-fun\ngg ((x Bool)) Bool x))", SVERDHYLL_HEADER, 13, 15, 2, 1);
    response_at("a function is missing", "(\n )\n", SVERDHYLL_HEADER, 3, 4, 2, 2);
    response_at("no derivation", "((define-fun f ((x Bool)) Bool\n  (or x x)))", SVERDHYLL_NO_DERIVATION, 33, 34, 2, 3);
}

/* Answers without a place in a text. */
static void others(void)
{
    static char text[SVERDHYLL_MOST_RESPONSE + 2];
    const struct {
        const char *what, *response;
        uint64_t point, budget;
        uint8_t number;
    } cases[] = {{"accepted", RESPONSE, 0, 100, SVERDHYLL_ACCEPTED},       {"too long", text, 0, 100, SVERDHYLL_TOO_LONG},
                 {"fail", "\nfail", 0, 100, SVERDHYLL_FAIL},               {"infeasible", "\ninfeasible", 0, 100, SVERDHYLL_INFEASIBLE},
                 {"false", RESPONSE, 1, 100, SVERDHYLL_FALSE},             {"the budget ends", RESPONSE, 0, 1, SVERDHYLL_BUDGET_ENDED},
                 {"outside its sort", RESPONSE, 2, 100, SVERDHYLL_BAD_POINTS}};
    memset(text, '\n', sizeof text - 1);
    for (size_t i = 0; i < sizeof cases / sizeof *cases; i++) {
        const struct answer a = to(SCRIPT, cases[i].response, cases[i].point, cases[i].budget);
        expect(cases[i].what, a.number == cases[i].number && is_at(a, 0, 0, 0));
    }
}

/* Every place of a text, its end, and places past it. */
static void positions(void)
{
    const uint8_t text[] = "a\n\n\tb\r\xff\n";
    const uint64_t lines[] = {1, 1, 2, 3, 3, 3, 3, 3, 4, 4}, columns[] = {1, 2, 1, 1, 2, 3, 4, 5, 1, 1};
    uint64_t line, column;
    for (size_t place = 0; place < 10; place++) {
        line = column = 99;
        sverdhyll_position(text, sizeof text - 1, place, &line, &column);
        expect("a place of a text", line == lines[place] && column == columns[place]);
    }
    sverdhyll_position(text, 7, SIZE_MAX, &line, &column);
    expect("a place far past the end", line == 3 && column == 5);
    sverdhyll_position(NULL, 0, 0, &line, &column);
    expect("a text of no bytes", line == 1 && column == 1);
}

int main(void)
{
    scripts();
    responses();
    others();
    positions();
    printf(failures ? "%d failed\n" : "places from C: as the header says\n", failures);
    return failures != 0;
}
