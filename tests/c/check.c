/* The checker, called from C in both ways, and the texts' own answer: what include/sverdhyll.h says, with a case for each answer. */
#include "calls.h"

#define SCRIPT(commands) "(set-logic BV)" commands "(check-synth)"
#define F "(synth-fun f ((x Bool)) Bool ((A Bool)) ((A Bool (x (not A)))))"
#define RESPONSE(body) "((define-fun f ((x Bool)) Bool " body "))"
#define V "(declare-var v Bool)"

static int failures = 0;

static void expect(const char *what, int holds)
{
    if (!holds) {
        failures++;
        printf("failed: %s\n", what);
    }
}

/* The offset of the first occurrence of a part. */
static uint64_t at(const char *text, const char *part)
{
    return strstr(text, part) - text;
}

/* Fills the area and what is behind it with one number. */
static void fill(uint16_t entry)
{
    for (size_t i = 0; i < SVERDHYLL_AREA + 2; i++) area[i] = entry;
}

/* Whether every entry is this number. */
static int all_are(uint16_t entry)
{
    for (size_t i = 0; i < SVERDHYLL_AREA + 2; i++)
        if (area[i] != entry) return 0;
    return 1;
}

/* Whether nothing behind the area has changed. */
static int behind_stays(void)
{
    return area[SVERDHYLL_AREA] == 4660 && area[SVERDHYLL_AREA + 1] == 4660;
}

/* Both calls, with the area or none: they must agree, and leave the same in and behind the area. The texts' own answer must agree with them, or with the answer
   for no points and an area of its size where these refuse points or area. */
static struct answer asked(const char *script, size_t script_size, const char *response, size_t response_size, const uint64_t *points, size_t count,
                           uint64_t budget, uint16_t *shown, size_t size)
{
    static uint16_t other[SVERDHYLL_AREA + 2];
    memcpy(other, area, sizeof other);
    const struct answer a = answer_all(script, script_size, response, response_size, points, count, budget, shown ? other : NULL, size);
    const struct answer b = check_all(script, script_size, response, response_size, points, count, budget, shown, size);
    const int carries = (2 <= a.number && a.number <= 9) || a.number == 12 || a.number == 13;
    expect("both calls agree", is_answer(b, a.number, a.text, a.place, a.second, a.units) && memcmp(area, other, sizeof other) == 0);
    expect("which answers carry a line", carries ? a.line > 0 && a.column > 0 : is_at(a, 0, 0, 0));
    const int unsized = a.number == SVERDHYLL_TOO_LONG && a.text >= SVERDHYLL_POINTS;
    const struct answer right = unsized ? answer_all(script, script_size, response, response_size, NULL, 0, 0, other, SVERDHYLL_AREA) : a;
    expect("the texts' own answer agrees", agrees(read_all(script, script_size, response, response_size), right));
    return a;
}

/* A refusal of either text, which has one line: the answer, an area that shows nothing, and nothing behind it changed. */
static void refused(const char *what, const char *script, const char *response, uint8_t number, uint8_t text, uint64_t place, uint64_t second)
{
    const char *faulty = text == SVERDHYLL_SCRIPT ? script : response;
    fill(4660);
    const struct answer a = asked(script, strlen(script), response, strlen(response), NULL, 0, 100, area, SVERDHYLL_AREA);
    expect(what, is_answer(a, number, text, place, second, 0) && is_blank() && behind_stays());
    if (number == SVERDHYLL_FAIL || number == SVERDHYLL_INFEASIBLE) return;
    expect(what, is_at(a, place + sverdhyll_word((const uint8_t *)faulty, strlen(faulty), place), 1, place + 1));
}

/* An answer that shows the derivation 1, 0 of (not x). */
static void shows(const char *what, const char *script, const uint64_t *points, size_t count, uint64_t budget, struct answer wanted)
{
    const char *response = RESPONSE("(not x)");
    fill(4660);
    const struct answer a = asked(script, strlen(script), response, strlen(response), points, count, budget, area, SVERDHYLL_AREA);
    expect(what, is_answer(a, wanted.number, wanted.text, wanted.place, wanted.second, wanted.units) && weighs(a, 0, 0));
    expect(what, list_size(0) == 2 && area[0] == 1 && area[1] == 0 && list_size(1) == 0 && list_size(7) == 0 && behind_stays());
}

/* Answers 2 to 9, of a script. */
static void scripts(void)
{
    const char *none = RESPONSE("x");
    const char *bad = SCRIPT(F "(constraint 00)"), *often = SCRIPT(")"), *open = "(set-logic BV)(", *wide = SCRIPT("(declare-var v (_ BitVec 65))");
    const char *unknown = SCRIPT("(foo)"), *other = "(set-logic LIA)", *name = SCRIPT(F "(constraint y)"), *sort = SCRIPT(F "(constraint #x00)");
    const char *rule = SCRIPT("(synth-fun g () Bool ((B Bool)) ((B Bool (true #x00))))"), *word = SCRIPT(F "(declare-var let Bool)");
    const char *dead = SCRIPT("(synth-fun g () Bool ((B Bool) (C Bool)) ((B Bool (true)) (C Bool ((not C) (Variable Bool)))))");
    const char *taken = SCRIPT(F V "(define-fun d ((v Bool)) Bool v)"), *twice = SCRIPT(F "(define-fun d ((a Bool) (a Bool) (a Bool)) Bool a)");
    refused("a bad word is 2", bad, none, SVERDHYLL_BAD_WORD, SVERDHYLL_SCRIPT, at(bad, "00"), 0);
    refused("a bracket closed too often is 3", often, none, SVERDHYLL_BRACKET, SVERDHYLL_SCRIPT, at(often, ")("), 0);
    refused("a bracket never closed is 3", open, none, SVERDHYLL_BRACKET, SVERDHYLL_SCRIPT, strlen(open), 0);
    refused("a width past its limit is 4", wide, none, SVERDHYLL_PAST_LIMIT, SVERDHYLL_SCRIPT, at(wide, "65"), 0);
    refused("an unknown command is 5", unknown, none, SVERDHYLL_UNKNOWN_SHAPE, SVERDHYLL_SCRIPT, at(unknown, "(foo"), 0);
    refused("another logic is 6", other, none, SVERDHYLL_NOT_CARRIED, SVERDHYLL_SCRIPT, 0, 0);
    refused("an unknown name is 7", name, none, SVERDHYLL_NAME, SVERDHYLL_SCRIPT, at(name, "y)(check"), 0);
    refused("a reserved name is 7", word, none, SVERDHYLL_NAME, SVERDHYLL_SCRIPT, at(word, "let"), 0);
    refused("a name that is taken is 7, with its declaration", taken, none, SVERDHYLL_NAME, SVERDHYLL_SCRIPT, at(taken, "v Bool))"), at(taken, "v Bool)"));
    refused("of three that are alike the second is 7, with the first", twice, none, SVERDHYLL_NAME, SVERDHYLL_SCRIPT, at(twice, "a Bool) (a Bool))"), at(twice, "a Bool)"));
    refused("a constraint that is not Bool is 8", sort, none, SVERDHYLL_SORT, SVERDHYLL_SCRIPT, at(sort, "#x00"), 0);
    refused("a non-terminal that derives no term is 9", dead, none, SVERDHYLL_GRAMMAR, SVERDHYLL_SCRIPT, at(dead, "C Bool"), 0);
    refused("a rule of another sort is 9", rule, none, SVERDHYLL_GRAMMAR, SVERDHYLL_SCRIPT, at(rule, "#x00"), 0);
}

/* Answers 10 to 13, of a response, and answers of a script that a response may have too. */
static void responses(void)
{
    const char *script = SCRIPT(F), *bad = RESPONSE("00"), *name = RESPONSE("v");
    const char *header = "((define-fun g ((x Bool)) Bool x))", *underived = RESPONSE("(or x x)");
    refused("`fail` is 10", script, " fail ;", SVERDHYLL_FAIL, SVERDHYLL_RESPONSE, 0, 0);
    refused("`infeasible` is 11", script, "infeasible", SVERDHYLL_INFEASIBLE, SVERDHYLL_RESPONSE, 0, 0);
    refused("another name is 12", script, header, SVERDHYLL_HEADER, SVERDHYLL_RESPONSE, at(header, "g ("), 0);
    refused("no derivation is 13", script, underived, SVERDHYLL_NO_DERIVATION, SVERDHYLL_RESPONSE, at(underived, "(or"), 0);
    refused("a bad word of a response is 2", script, bad, SVERDHYLL_BAD_WORD, SVERDHYLL_RESPONSE, at(bad, "00"), 0);
    refused("an unknown name of a response is 7", script, name, SVERDHYLL_NAME, SVERDHYLL_RESPONSE, at(name, "v))"), 0);
}

/* Answers 0, 14, 15 and 16, and the units: a constraint costs 7, that of the body (not x) among it. */
static void points(void)
{
    const char *script = SCRIPT(F V "(constraint (= (f v) (not v)))" "(constraint (not v))");
    const uint64_t good[3] = {0, 0, 0}, late[3] = {0, 0, 1}, bad[3] = {0, 1, 2};
    shows("three points are accepted", script, good, 3, 100, (struct answer){SVERDHYLL_ACCEPTED, SVERDHYLL_NONE, 0, 3, 27, 0, 0, 0, {0}});
    shows("no points are accepted", script, NULL, 0, 0, (struct answer){SVERDHYLL_ACCEPTED, SVERDHYLL_NONE, 0, 0, 0, 0, 0, 0, {0}});
    shows("a false constraint is 14", script, late, 3, 100, (struct answer){SVERDHYLL_FALSE, SVERDHYLL_POINTS, 2, 1, 27, 0, 0, 0, {0}});
    shows("a budget that ends is 15", script, good, 3, 26, (struct answer){SVERDHYLL_BUDGET_ENDED, SVERDHYLL_POINTS, 2, 1, 25, 0, 0, 0, {0}});
    fill(4660);
    const struct answer a = asked(script, strlen(script), RESPONSE("x"), strlen(RESPONSE("x")), bad, 3, 100, area, SVERDHYLL_AREA);
    expect("a number outside its sort is 16", is_answer(a, SVERDHYLL_BAD_POINTS, SVERDHYLL_POINTS, 2, 0, 0) && is_blank() && behind_stays());
}

/* Of several derivations the least one is shown: with fewest rules, then with the least rule numbers at the first difference. */
static void least(void)
{
    const char *response = RESPONSE("(not x)"), *tangled =
        SCRIPT("(synth-fun f ((x Bool)) Bool ((A Bool) (B Bool)) ((A Bool (B (not B) (not A) (not B))) (B Bool (A (Variable Bool) x))))");
    fill(4660);
    const struct answer a = asked(tangled, strlen(tangled), response, strlen(response), NULL, 0, 0, area, SVERDHYLL_AREA);
    expect("of several derivations the least", is_answer(a, SVERDHYLL_ACCEPTED, SVERDHYLL_NONE, 0, 1, 0) && weighs(a, 0, 0));
    expect("its list", list_size(0) == 2 && area[0] == 1 && area[1] == 5 && list_size(1) == 0 && behind_stays());
}

/* The least weight comes before the fewest rules, and each function has its total. */
static void weights(void)
{
    const char *script = "(set-logic BV)(set-feature :weights true)"
        "(synth-fun f () Bool ((A Bool) (B Bool)) ((A Bool ((! true :weight 5) B)) (B Bool ((! true :weight 1)))))"
        "(synth-fun g () Bool ((A Bool)) ((A Bool ((! true :weight 65535) (! (not A) :weight 65535)))))(check-synth)";
    const char *response = "((define-fun f () Bool true)(define-fun g () Bool (not (not true))))";
    const char *unasked = SCRIPT("(synth-fun f () Bool ((A Bool)) ((A Bool ((! true :weight 5)))))"), *past = "(set-logic BV)(set-feature :weights true)"
        "(synth-fun f () Bool ((A Bool)) ((A Bool ((! true :weight 65536)))))(check-synth)";
    const uint64_t number = 0;
    fill(4660);
    struct answer a = asked(script, strlen(script), response, strlen(response), NULL, 0, 0, area, SVERDHYLL_AREA);
    expect("the weights of both", is_answer(a, SVERDHYLL_ACCEPTED, SVERDHYLL_NONE, 0, 1, 0) && weighs(a, 1, 3 * 65535));
    expect("the lists of both", list_size(0) == 2 && area[0] == 1 && area[1] == 2 && list_size(1) == 3 && list_size(2) == 0 && behind_stays());
    a = asked(script, strlen(script), response, strlen(response), &number, 1, 0, area, SVERDHYLL_AREA);
    expect("no weights after 16", is_answer(a, SVERDHYLL_BAD_POINTS, SVERDHYLL_POINTS, 1, 0, 0) && weighs(a, 0, 0));
    refused("a weighted rule without the feature is 6", unasked, response, SVERDHYLL_NOT_CARRIED, SVERDHYLL_SCRIPT, at(unasked, "(synth"), 0);
    refused("a weight past its limit is 4", past, response, SVERDHYLL_PAST_LIMIT, SVERDHYLL_SCRIPT, at(past, "65536"), 0);
}

/* Answer 1, and the areas that it leaves unchanged. */
static void sizes(void)
{
    static char text[SVERDHYLL_MOST_SCRIPT + 1];
    static uint64_t numbers[SVERDHYLL_MOST_POINTS + 1];
    const char *script = SCRIPT(F), *response = RESPONSE("x");
    const size_t size = strlen(script), most = strlen(response);
    struct answer a;
    memset(text, ' ', sizeof text);
    fill(4660);
    a = asked(text, SVERDHYLL_MOST_SCRIPT + 1, response, most, NULL, 0, 0, area, SVERDHYLL_AREA);
    expect("a script too long is 1", is_answer(a, SVERDHYLL_TOO_LONG, SVERDHYLL_SCRIPT, SVERDHYLL_MOST_SCRIPT + 1, 0, 0) && is_blank() && behind_stays());
    a = asked(script, size, text, SVERDHYLL_MOST_RESPONSE + 1, NULL, 0, 0, area, SVERDHYLL_AREA);
    expect("a response too long is 1", is_answer(a, SVERDHYLL_TOO_LONG, SVERDHYLL_RESPONSE, SVERDHYLL_MOST_RESPONSE + 1, 0, 0));
    a = asked(script, size, response, most, numbers, SVERDHYLL_MOST_POINTS + 1, 0, area, SVERDHYLL_AREA);
    expect("too many numbers are 1", is_answer(a, SVERDHYLL_TOO_LONG, SVERDHYLL_POINTS, SVERDHYLL_MOST_POINTS + 1, 0, 0));
    for (size_t lent = SVERDHYLL_AREA - 1; lent <= SVERDHYLL_AREA + 1; lent += 2) {
        fill(4660);
        a = asked(script, size, response, most, NULL, 0, 100, area, lent);
        expect("an area of wrong size is 1", is_answer(a, SVERDHYLL_TOO_LONG, SVERDHYLL_NONE, lent, 0, 0));
        asked(text, SVERDHYLL_MOST_SCRIPT + 1, response, most, NULL, 0, 0, area, lent);
        expect("an area of wrong size is unchanged", all_are(4660));
    }
}

/* Texts, points and areas of no bytes, at no address. */
static void nothing(void)
{
    expect("nothing at all", is_answer(asked(NULL, 0, NULL, 0, NULL, 0, 0, NULL, 0), SVERDHYLL_TOO_LONG, SVERDHYLL_NONE, 0, 0, 0));
    expect("no script", is_answer(asked(NULL, 0, NULL, 0, NULL, 0, 0, area, SVERDHYLL_AREA), SVERDHYLL_UNKNOWN_SHAPE, SVERDHYLL_SCRIPT, 0, 0, 0));
    const struct answer a = asked(SCRIPT(F), strlen(SCRIPT(F)), NULL, 0, NULL, 0, 0, area, SVERDHYLL_AREA);
    expect("no response", is_answer(a, SVERDHYLL_UNKNOWN_SHAPE, SVERDHYLL_RESPONSE, 0, 0, 0) && is_blank());
}

/* The enquiry, which stands in the same library. */
static void enquiries(void)
{
    const uint8_t text[] = "(ab 12);(c";
    const size_t size = sizeof text - 1;
    expect("a word's length", sverdhyll_word(text, size, 0) == 1 && sverdhyll_word(text, size, 1) == 2 && sverdhyll_word(text, size, 4) == 2);
    expect("no word starts there", sverdhyll_word(text, size, 2) == 0 && sverdhyll_word(text, size, 8) == 0 && sverdhyll_word(text, size, 99) == 0);
    expect("an empty text has no word", sverdhyll_word(NULL, 0, 0) == 0);
}

int main(void)
{
    scripts();
    responses();
    points();
    least();
    weights();
    sizes();
    nothing();
    enquiries();
    printf(failures ? "%d failed\n" : "the checker from C: as the header says\n", failures);
    return failures != 0;
}
