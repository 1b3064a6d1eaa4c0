/* The check of evidence files, called from C on a thread of 2 MiB: what include/sverdhyll.h says of `sverdhyll_check_evidence`, with the decided readings of
   request E12 by their numbers. It is linked with the library that has this call alone, and with that of the checker. */
#include <pthread.h>

#include "evidence.h"

enum { STACK = 2 << 20, PAINT = 0xa5 };

/* A function whose grammar has a ring: rule 0 is T, rule 1 (not S), rule 2 S, rule 3 true. */
#define SCRIPT "(set-logic BV)(synth-fun f () Bool ((S Bool) (T Bool)) ((S Bool (T (not S))) (T Bool (S true))))(check-synth)"
#define RESPONSE "((define-fun f () Bool true))"

static int failures = 0;

/* Checks the file and expects this number, text and place, and the end, the line and the column; all else is 0. */
static void expect_at(const char *what, uint8_t number, uint64_t text, uint64_t place, uint64_t end, uint64_t line, uint64_t column)
{
    const uint64_t wanted[SVERDHYLL_ANSWER] = {number, text, place, 0, 0, end, line, column};
    uint64_t found[SVERDHYLL_ANSWER];
    memset(found, 99, sizeof found);
    const uint8_t answer = sverdhyll_check_evidence(file, size, found);
    if (answer == number && !memcmp(found, wanted, sizeof found)) return;
    failures++;
    printf("failed: %s: answer %d, text %d, place %llu, line %llu\n", what, answer, (int)found[SVERDHYLL_TEXT], (unsigned long long)found[SVERDHYLL_PLACE],
           (unsigned long long)found[SVERDHYLL_LINE]);
}

/* Expects an answer that has no place in a text. */
static void expect(const char *what, uint8_t number, uint64_t text, uint64_t place)
{
    expect_at(what, number, text, place, 0, 0, 0);
}

/* Files that are accepted. */
static void accepted(void)
{
    make(SCRIPT, RESPONSE, RULES(0, 3));
    expect("E12.1: lengths of lists are numbers of rules", SVERDHYLL_ACCEPTED, SVERDHYLL_NONE, 0);
    make(SCRIPT, "((define-fun f () Bool (not true)))", RULES(1, 0, 3));
    expect("rules in their order", SVERDHYLL_ACCEPTED, SVERDHYLL_NONE, 0);
    make("(set-logic BV)(synth-fun f () Bool ((S Bool) (T Bool)) ((S Bool (true T)) (T Bool (true))))(check-synth)", RESPONSE, RULES(1, 2));
    expect("E12.2: a list that is not the least", SVERDHYLL_ACCEPTED, SVERDHYLL_NONE, 0);
    static char script[SVERDHYLL_PAYLOAD];
    memset(script, ' ', sizeof script);
    memcpy(script, SCRIPT, strlen(SCRIPT));
    make(SCRIPT, RESPONSE, RULES(0, 3));
    lay(script, SVERDHYLL_PAYLOAD - HEAD - strlen(RESPONSE) - 4, RESPONSE, strlen(RESPONSE));
    cut();
    expect("E12.15: payload that ends just at 510", SVERDHYLL_ACCEPTED, SVERDHYLL_NONE, 0);
    if (size != SVERDHYLL_BLOCK) failures++, printf("failed: one block\n");
}

/* Files whose blocks, lengths or filling are wrong. */
static void blocks(void)
{
    make(SCRIPT, RESPONSE, RULES(0, 3));
    const size_t needed = HEAD + strlen(SCRIPT) + strlen(RESPONSE) + 4;
    size = 0;
    expect("E12.9: the empty file", SVERDHYLL_WRONG_BLOCK, SVERDHYLL_NONE, 0);
    size = SVERDHYLL_BLOCK - 1;
    expect("a block without its last byte", SVERDHYLL_WRONG_BLOCK, SVERDHYLL_NONE, 0);
    size = SVERDHYLL_BLOCK + 1;
    expect("E12.10: a file cut in its last block", SVERDHYLL_WRONG_BLOCK, SVERDHYLL_NONE, 1);
    file[0] ^= 1;
    expect("E12.11: a wrong sum before a cut block", SVERDHYLL_WRONG_BLOCK, SVERDHYLL_NONE, 0);
    file[0] ^= 1;
    size = 2 * SVERDHYLL_BLOCK;
    memset(file + SVERDHYLL_BLOCK, 0, SVERDHYLL_BLOCK);
    expect("E12.12: a spare block of zeros", SVERDHYLL_WRONG_BLOCK, SVERDHYLL_NONE, 1);
    file[needed] = 1;
    seal(0);
    expect("E12.13: a wrongly filled last block and a spare one", SVERDHYLL_WRONG_BLOCK, SVERDHYLL_NONE, 0);
    make(SCRIPT, RESPONSE, RULES(0, 3));
    file[SVERDHYLL_PAYLOAD - 1] = 1;
    seal(0);
    expect("the last byte of the filling", SVERDHYLL_WRONG_BLOCK, SVERDHYLL_NONE, 0);
    make(SCRIPT, RESPONSE, RULES(0, 3));
    file[22] = 200;
    seal(0);
    expect("E12.14: lengths past the file", SVERDHYLL_WRONG_BLOCK, SVERDHYLL_NONE, 0);
    memset(file, 0xff, 8);
    seal(0);
    expect("E12.26: lengths that overflow 32 bits when added", SVERDHYLL_WRONG_BLOCK, SVERDHYLL_NONE, 0);
    memset(file, 0, SVERDHYLL_BLOCK);
    file[0] = 241;
    file[255] = 255;
    file[SVERDHYLL_PAYLOAD] = 0xf1;
    file[SVERDHYLL_PAYLOAD + 1] = 0xff;
    expect("E12.17: a stored sum plus 65,521", SVERDHYLL_WRONG_BLOCK, SVERDHYLL_NONE, 0);
    static char script[SVERDHYLL_BLOCK + 100];
    memset(script, '\n', sizeof script);
    memcpy(script, SCRIPT, strlen(SCRIPT));
    make(SCRIPT, RESPONSE, RULES(0, 3));
    lay(script, sizeof script, RESPONSE, strlen(RESPONSE));
    cut();
    for (size_t at = 0; at < size; at++) {
        const uint8_t held = file[at], others[] = {held ^ 1, ~held, held + 127};
        for (size_t i = 0; i < sizeof others; i++) {
            file[at] = others[i];
            expect("a changed byte", SVERDHYLL_WRONG_BLOCK, SVERDHYLL_NONE, at / SVERDHYLL_BLOCK);
        }
        file[at] = held;
    }
    expect("the file as it was", SVERDHYLL_ACCEPTED, SVERDHYLL_NONE, 0);
    uint64_t sum = 0;
    for (size_t i = SVERDHYLL_PAYLOAD; i < 2 * SVERDHYLL_PAYLOAD; i++) sum += (i + 1) * payload[i];
    file[2 * SVERDHYLL_BLOCK - 2] = sum % SVERDHYLL_MODULUS % 256;
    file[2 * SVERDHYLL_BLOCK - 1] = sum % SVERDHYLL_MODULUS / 256;
    expect("E12.16: positions that go on from block to block", SVERDHYLL_WRONG_BLOCK, SVERDHYLL_NONE, 1);
}

/* Files whose texts are refused. */
static void texts(void)
{
    static char text[SVERDHYLL_MOST_SCRIPT + 1];
    memset(text, ' ', sizeof text);
    make(SCRIPT, "fail", RULES(0, 3));
    expect("E12.8: the response fail", SVERDHYLL_FAIL, SVERDHYLL_RESPONSE, 0);
    make(SCRIPT, "infeasible", RULES(9));
    expect("the texts' own answers come before 22", SVERDHYLL_INFEASIBLE, SVERDHYLL_RESPONSE, 0);
    make("(set-logic BV)\n 00", RESPONSE, RULES(0, 3));
    expect_at("E12.23: line and column in the script", SVERDHYLL_BAD_WORD, SVERDHYLL_SCRIPT, 16, 18, 2, 2);
    make(SCRIPT, "(\n)", RULES(0, 3));
    expect_at("line and column in the response", SVERDHYLL_HEADER, SVERDHYLL_RESPONSE, 2, 3, 2, 1);
    lay(text, sizeof text, RESPONSE, strlen(RESPONSE));
    cut();
    expect("E12.18: a script of 65,537 bytes", SVERDHYLL_TOO_LONG, SVERDHYLL_SCRIPT, SVERDHYLL_MOST_SCRIPT + 1);
    lay(SCRIPT, strlen(SCRIPT), text, SVERDHYLL_MOST_RESPONSE + 1);
    cut();
    expect("a response of 8,193 bytes", SVERDHYLL_TOO_LONG, SVERDHYLL_RESPONSE, SVERDHYLL_MOST_RESPONSE + 1);
    file[size - 3] = 1;
    seal(size / SVERDHYLL_BLOCK - 1);
    expect("21 comes before the texts' own answers", SVERDHYLL_WRONG_BLOCK, SVERDHYLL_NONE, size / SVERDHYLL_BLOCK - 1);
    memcpy(text, SCRIPT, strlen(SCRIPT));
    static char response[SVERDHYLL_MOST_RESPONSE];
    memset(response, ' ', sizeof response);
    memcpy(response, RESPONSE, strlen(RESPONSE));
    make(SCRIPT, RESPONSE, RULES(0, 3));
    lay(text, SVERDHYLL_MOST_SCRIPT, response, sizeof response);
    cut();
    expect("the longest texts", SVERDHYLL_ACCEPTED, SVERDHYLL_NONE, 0);
}

/* Lists at their limits: one of 4,096 rules, the most that a derivation can have, one of a rule less or more, and one of as many rules as two bytes can say. */
static void longest(void)
{
    make_chain();
    make(chain_script.bytes, chain_response.bytes, chain_rules, LONGEST);
    expect("a list of 4,096 rules", SVERDHYLL_ACCEPTED, SVERDHYLL_NONE, 0);
    make(chain_script.bytes, chain_response.bytes, chain_rules, LONGEST + 1);
    expect("a list of 4,097 rules", SVERDHYLL_NOT_FOLLOWED, SVERDHYLL_NONE, 0);
    make(chain_script.bytes, chain_response.bytes, chain_rules, LONGEST - 1);
    expect("a list of 4,095 rules", SVERDHYLL_NOT_FOLLOWED, SVERDHYLL_NONE, 0);
    make(chain_script.bytes, chain_response.bytes, chain_rules, NUMBERED);
    expect("a list of 65,535 rules", SVERDHYLL_NOT_FOLLOWED, SVERDHYLL_NONE, 0);
    make(SCRIPT, RESPONSE, RULES(0, 3));
    list(1, chain_rules, NUMBERED);
    lay(SCRIPT, strlen(SCRIPT), RESPONSE, strlen(RESPONSE));
    cut();
    expect("a list of 65,535 rules for an absent function", SVERDHYLL_NOT_FOLLOWED, SVERDHYLL_NONE, 1);
}

/* Files of which a list is refused. */
static void unfollowed(void)
{
    make(SCRIPT, RESPONSE, RULES(0, 2, 0, 3));
    expect("E12.3: a non-terminal twice at one place", SVERDHYLL_NOT_FOLLOWED, SVERDHYLL_NONE, 0);
    make(SCRIPT, RESPONSE, RULES(0, 3, 3));
    expect("E12.4: a list with one rule too many", SVERDHYLL_NOT_FOLLOWED, SVERDHYLL_NONE, 0);
    make(SCRIPT, RESPONSE, RULES(0));
    expect("a list with one rule too few", SVERDHYLL_NOT_FOLLOWED, SVERDHYLL_NONE, 0);
    make(SCRIPT, RESPONSE, NULL, 0);
    expect("E12.5: a present function with an empty list", SVERDHYLL_NOT_FOLLOWED, SVERDHYLL_NONE, 0);
    make(SCRIPT, RESPONSE, RULES(0, 3));
    list(3, RULES(1));
    lay(SCRIPT, strlen(SCRIPT), RESPONSE, strlen(RESPONSE));
    cut();
    expect("E12.6: an absent function with a list", SVERDHYLL_NOT_FOLLOWED, SVERDHYLL_NONE, 3);
    make(SCRIPT, "((define-fun f () Bool false))", RULES(0, 3));
    expect("E12.7: a body without a derivation", SVERDHYLL_NOT_FOLLOWED, SVERDHYLL_NONE, 0);
    make(SCRIPT, RESPONSE, RULES(0, 768));
    expect("E12.22: rules have their low byte first", SVERDHYLL_NOT_FOLLOWED, SVERDHYLL_NONE, 0);
    make(SCRIPT, RESPONSE, RULES(0, 65535));
    expect("a rule that is no entry", SVERDHYLL_NOT_FOLLOWED, SVERDHYLL_NONE, 0);
}

/* All of them, on the thread. */
static void *all(void *unused)
{
    accepted();
    blocks();
    texts();
    unfollowed();
    longest();
    return unused;
}

int main(void)
{
    pthread_t thread;
    pthread_attr_t attributes;
    size_t untouched = 0;
    unsigned char *stack = aligned_alloc(4096, STACK);
    if (stack == NULL) return 1;
    memset(stack, PAINT, STACK);
    pthread_attr_init(&attributes);
    if (pthread_attr_setstack(&attributes, stack, STACK) || pthread_create(&thread, &attributes, all, NULL) || pthread_join(thread, NULL)) return 1;
    while (untouched < STACK && stack[untouched] == PAINT) untouched++;
    printf("stack used: %zu KiB of %d KiB\n", (STACK - untouched) / 1024, STACK / 1024);
    if (failures) printf("%d failed\n", failures);
    else printf("the check of evidence from C: as the header says\n");
    return failures != 0;
}
