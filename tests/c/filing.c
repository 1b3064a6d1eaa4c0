/* The writer of evidence files, called from C on a thread of 2 MiB: what include/sverdhyll.h says of `sverdhyll_write_evidence`, with the decided readings of
   request E12 by their numbers; and that what it writes is accepted, whole and not with a byte changed. */
#include <pthread.h>

#include "evidence.h"

enum { STACK = 2 << 20, PAINT = 0xa5, LENT = 77 };

/* Two functions, rules of both with weights: of f rule 0 is x, rule 1 (bvadd W W) and rule 2 a literal; of g rule 0 is true. */
#define SCRIPT \
    "(set-logic BV)(set-feature :weights true)(synth-fun f ((x (_ BitVec 8))) (_ BitVec 8) ((W (_ BitVec 8))) ((W (_ BitVec 8) (x (! (bvadd W W) :weight 5)" \
    " (Constant (_ BitVec 8))))))(synth-fun g () Bool ((B Bool)) ((B Bool ((! true :weight 7)))))(constraint (distinct (f #x01) (f #x01)))(check-synth)"
#define RESPONSE "((define-fun f ((x (_ BitVec 8))) (_ BitVec 8) (bvadd x #x0F))(define-fun g () Bool true))"

static int failures = 0;
static uint8_t written[ROOM];

/* Notes a failure. */
static void failed(const char *what, struct answer a, size_t length)
{
    failures++;
    printf("failed: %s: answer %d, text %d, place %llu, %zu bytes\n", what, a.number, a.text, (unsigned long long)a.place, length);
}

/* Whether the area is as it was lent from here on. */
static int is_as_lent(size_t from)
{
    for (size_t i = from; i < sizeof written; i++)
        if (written[i] != LENT) return 0;
    return 1;
}

/* Writes the file of two texts to an area that is said to have so many bytes. */
static struct answer write_file(const char *script, size_t script_size, const char *response, size_t response_size, size_t room, size_t *length)
{
    uint64_t n[SVERDHYLL_ANSWER];
    memset(n, 99, sizeof n);
    memset(written, LENT, sizeof written);
    *length = 99;
    const uint8_t number = sverdhyll_write_evidence((const uint8_t *)script, script_size, (const uint8_t *)response, response_size, written, room, length, n);
    return formed(number, n);
}

/* The answer of the check of what was written. */
static struct answer audit(size_t length)
{
    uint64_t n[SVERDHYLL_ANSWER];
    memset(n, 99, sizeof n);
    return formed(sverdhyll_check_evidence(written, length, n), n);
}

/* Expects the file that the payload was cut into, with these weights, in an area of so many bytes; it is accepted. */
static void gives(const char *what, const char *script, size_t script_size, const char *response, size_t response_size, size_t room, uint64_t first, uint64_t next)
{
    size_t length;
    const struct answer a = write_file(script, script_size, response, response_size, room, &length);
    const int well = is_answer(a, SVERDHYLL_ACCEPTED, SVERDHYLL_NONE, 0, 0, 0) && is_at(a, 0, 0, 0) && weighs(a, first, next);
    if (!well || length != size || memcmp(written, file, size) || !is_as_lent(length)) failed(what, a, length);
    if (!passes(audit(length))) failed("its check", audit(length), length);
}

/* Expects an answer, no file, and the area as it was lent. */
static void refused(const char *what, const char *script, const char *response, size_t room, struct answer wanted)
{
    size_t length;
    const struct answer a = write_file(script, strlen(script), response, strlen(response), room, &length);
    if (!is_same(a, wanted) || length != 0 || !is_as_lent(0)) failed(what, a, length);
}

/* Files as the layout says, in areas of any room that suffices. */
static void files(void)
{
    make(SCRIPT, RESPONSE, RULES(1, 0, 2));
    list(1, RULES(0));
    lay(SCRIPT, strlen(SCRIPT), RESPONSE, strlen(RESPONSE));
    cut();
    for (size_t room = size; room <= size + 2; room++) gives("a file in its room", SCRIPT, strlen(SCRIPT), RESPONSE, strlen(RESPONSE), room, 5, 7);
    gives("E12.24: answer 0, though a constraint is false", SCRIPT, strlen(SCRIPT), RESPONSE, strlen(RESPONSE), SVERDHYLL_MOST_EVIDENCE, 5, 7);
    static char script[SVERDHYLL_MOST_SCRIPT], response[SVERDHYLL_MOST_RESPONSE];
    memset(script, '\n', sizeof script);
    memset(response, ' ', sizeof response);
    memcpy(script, SCRIPT, strlen(SCRIPT));
    memcpy(response, RESPONSE, strlen(RESPONSE));
    lay(script, sizeof script, response, sizeof response);
    cut();
    gives("the longest texts", script, sizeof script, response, sizeof response, SVERDHYLL_MOST_EVIDENCE, 5, 7);
    const size_t ends = SVERDHYLL_PAYLOAD * 2 - HEAD - strlen(RESPONSE) - 8;
    lay(script, ends, RESPONSE, strlen(RESPONSE));
    cut();
    gives("E12.15: payload that ends with a block", script, ends, RESPONSE, strlen(RESPONSE), size, 5, 7);
    if (size != 2 * SVERDHYLL_BLOCK) failures++, printf("failed: two blocks\n");
    make_chain();
    make(chain_script.bytes, chain_response.bytes, chain_rules, LONGEST);
    gives("a list of 4,096 rules", chain_script.bytes, chain_script.size, chain_response.bytes, chain_response.size, size, 0, 0);
}

/* Two texts, and the answer to them. */
struct pair {
    uint8_t number;
    const char *script, *response;
};

/* Answers 1 to 13, of the script and of the response where both can have it, and 17: nothing is written. */
static void refusals(void)
{
    static char script[SVERDHYLL_MOST_SCRIPT + 2], response[SVERDHYLL_MOST_RESPONSE + 2];
    memset(script, ' ', sizeof script - 1);
    memset(response, ' ', sizeof response - 1);
#define F(body) "(define-fun f ((x (_ BitVec 8))) (_ BitVec 8) " body ")"
#define G(body) "(define-fun g () Bool " body ")"
    const struct pair pairs[] = {
        {SVERDHYLL_TOO_LONG, script, RESPONSE},
        {SVERDHYLL_TOO_LONG, SCRIPT, response},
        {SVERDHYLL_BAD_WORD, "00", RESPONSE},
        {SVERDHYLL_BAD_WORD, SCRIPT, "00"},
        {SVERDHYLL_BRACKET, "(set-logic BV", RESPONSE},
        {SVERDHYLL_BRACKET, SCRIPT, RESPONSE ")"},
        {SVERDHYLL_PAST_LIMIT, "(set-logic BV)(declare-var v (_ BitVec 65))", RESPONSE},
        {SVERDHYLL_PAST_LIMIT, SCRIPT, "(1234567890)"},
        {SVERDHYLL_UNKNOWN_SHAPE, "(set-logic BV)(foo)", RESPONSE},
        {SVERDHYLL_UNKNOWN_SHAPE, SCRIPT, "((foo))"},
        {SVERDHYLL_NOT_CARRIED, "(set-logic LIA)", RESPONSE},
        {SVERDHYLL_NOT_CARRIED, SCRIPT, "(|f|)"},
        {SVERDHYLL_NAME, "(set-logic BV)(constraint w)", RESPONSE},
        {SVERDHYLL_NAME, SCRIPT, "(" F("w") G("true") ")"},
        {SVERDHYLL_SORT, "(set-logic BV)(constraint #b1)", RESPONSE},
        {SVERDHYLL_SORT, SCRIPT, "(" F("true") G("true") ")"},
        {SVERDHYLL_GRAMMAR, "(set-logic BV)(synth-fun f () Bool ((A Bool)) ((A Bool (A))))(check-synth)", RESPONSE},
        {SVERDHYLL_FAIL, SCRIPT, "fail"},
        {SVERDHYLL_INFEASIBLE, SCRIPT, "infeasible"},
        {SVERDHYLL_HEADER, SCRIPT, "(" G("true") ")"},
        {SVERDHYLL_NO_DERIVATION, SCRIPT, "(" F("(bvsub x x)") G("true") ")"},
        {SVERDHYLL_NO_DERIVATION, SCRIPT, "(" F("x") G("false") ")"},
    };
    const size_t rooms[] = {0, SVERDHYLL_BLOCK - 1, SVERDHYLL_MOST_EVIDENCE};
    for (size_t i = 0; i < sizeof pairs / sizeof *pairs; i++) {
        const struct pair p = pairs[i];
        const struct answer own = answer_all(p.script, strlen(p.script), p.response, strlen(p.response), NULL, 0, UINT64_MAX, area, SVERDHYLL_AREA);
        if (own.number != p.number) failed("a text that is refused", own, 0);
        for (size_t j = 0; j < sizeof rooms / sizeof *rooms; j++)
            refused("E12.19, E12.21, E12.25: the texts through 13, then the area", p.script, p.response, rooms[j], own);
    }
    make(SCRIPT, RESPONSE, RULES(1, 0, 2));
    const size_t rooms_short[] = {0, 1, size / 2, size - 1};
    for (size_t j = 0; j < sizeof rooms_short / sizeof *rooms_short; j++) {
        const struct answer missized = {SVERDHYLL_AREA_MISSIZED, SVERDHYLL_NONE, rooms_short[j], 0, 0, 0, 0, 0, {0}};
        refused("E12.20: an area that is too short", SCRIPT, RESPONSE, rooms_short[j], missized);
    }
}

/* What is written, with any one byte changed, is refused at its block. */
static void changes(void)
{
    size_t length;
    write_file(SCRIPT, strlen(SCRIPT), RESPONSE, strlen(RESPONSE), SVERDHYLL_MOST_EVIDENCE, &length);
    for (size_t at = 0; at < length; at++) {
        const uint8_t held = written[at], others[] = {held ^ 1, ~held, held + 127};
        for (size_t i = 0; i < sizeof others; i++) {
            written[at] = others[i];
            const struct answer a = audit(length);
            if (!is_answer(a, SVERDHYLL_WRONG_BLOCK, SVERDHYLL_NONE, at / SVERDHYLL_BLOCK, 0, 0)) failed("a changed byte", a, at);
        }
        written[at] = held;
    }
}

/* All of them, on the thread. */
static void *all(void *unused)
{
    files();
    refusals();
    changes();
    return unused;
}

int main(void)
{
    pthread_t thread;
    pthread_attr_t attributes;
    size_t untouched = 0;
    unsigned char *stack = aligned_alloc(4096, STACK);
    if (stack == NULL) return 1;
    memset(stack, PAINT, STACK);
    pthread_attr_init(&attributes);
    if (pthread_attr_setstack(&attributes, stack, STACK) || pthread_create(&thread, &attributes, all, NULL) || pthread_join(thread, NULL)) return 1;
    while (untouched < STACK && stack[untouched] == PAINT) untouched++;
    printf("stack used: %zu KiB of %d KiB\n", (STACK - untouched) / 1024, STACK / 1024);
    if (failures) printf("%d failed\n", failures);
    else printf("the writer of evidence from C: as the header says\n");
    return failures != 0;
}
