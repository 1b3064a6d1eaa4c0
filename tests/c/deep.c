/* How much stack a call of the checker needs at the limits of all inputs: calls on a thread of 2 MiB, each of which must give its answer. Prints for each how much
   of the stack was touched, by `sverdhyll_check`, by `sverdhyll_answer`, by `sverdhyll_read`, by `sverdhyll_steps`, by `sverdhyll_write_evidence`, and by
   `sverdhyll_check_evidence` of what that wrote.

   No call may take more than `sverdhyll_read` of the same texts and SLACK: the tables of reading must be gone from the stack when derivations are searched and points
   are run. A compiler that merges the frame of reading, of 640 KiB, into that of its caller leaves them there. The deepest evaluation goes through 2,175 frames of 352
   bytes, which are 748 KiB, and then passes the slack by far: it would take some 2,100 KiB, where reading takes 1,502. */
#include <pthread.h>

#include "calls.h"

enum { STACK = 2 << 20, PAINT = 0xa5, MOST_WORDS = 8192, MOST_ANSWERED = 2048, DEEPEST = 63, DEFINED = 32, FUNCTIONS = 8, NON_TERMINALS = 16, LEAVES = 61,
       OPERANDS = 8, LEVELS = 31, SLACK = 256 << 10 };

static struct text script, response;
static struct answer given;
static unsigned char *stack;
static uint8_t evidence[SVERDHYLL_MOST_EVIDENCE];
static size_t evidence_size;

/* The first call, on the thread. */
static void *check(void *unused)
{
    given = check_all(script.bytes, script.size, response.bytes, response.size, NULL, 0, UINT64_MAX, area, SVERDHYLL_AREA);
    return unused;
}

/* The second call, on the thread. */
static void *answer(void *unused)
{
    given = answer_all(script.bytes, script.size, response.bytes, response.size, NULL, 0, UINT64_MAX, area, SVERDHYLL_AREA);
    return unused;
}

/* The third call, on the thread. */
static void *read_texts(void *unused)
{
    given = read_all(script.bytes, script.size, response.bytes, response.size);
    return unused;
}

/* The fourth call, on the thread. */
static void *steps(void *unused)
{
    size_t count;
    given = steps_all(script.bytes, script.size, response.bytes, response.size, NULL, 0, UINT64_MAX, 0, SVERDHYLL_STEPS_AREA, &count);
    return unused;
}

/* The fifth call, on the thread. */
static void *write_evidence(void *unused)
{
    uint64_t n[SVERDHYLL_ANSWER];
    given = formed(sverdhyll_write_evidence((const uint8_t *)script.bytes, script.size, (const uint8_t *)response.bytes, response.size, evidence, sizeof evidence,
                                            &evidence_size, n), n);
    return unused;
}

/* The sixth call, on the thread. */
static void *check_evidence(void *unused)
{
    uint64_t n[SVERDHYLL_ANSWER];
    given = formed(sverdhyll_check_evidence(evidence, evidence_size, n), n);
    return unused;
}

/* Makes a call on a painted stack; returns how much of it was touched. */
static size_t touched(void *(*call)(void *))
{
    pthread_t thread;
    pthread_attr_t attributes;
    size_t untouched = 0;
    memset(stack, PAINT, STACK);
    pthread_attr_init(&attributes);
    pthread_attr_setstack(&attributes, stack, STACK);
    if (pthread_create(&thread, &attributes, call, NULL) || pthread_join(thread, NULL)) return STACK;
    while (untouched < STACK && stack[untouched] == PAINT) untouched++;
    return STACK - untouched;
}

/* Whether a call that touched so much of the stack took no more than reading alone and the slack; else says what that means. */
static int is_apart(const char *call, size_t used, size_t reading)
{
    if (used <= reading + SLACK) return used < STACK;
    printf("failed: %s takes %zu KiB, more than reading alone (%zu KiB) and %d KiB: the tables of reading stay on the stack while it goes on, so that the compiler has"
           " merged the frame of reading into that of its caller\n", call, used / 1024, reading / 1024, SLACK / 1024);
    return 0;
}

/* Makes the last two calls, prints how much of the stack each touched, and says whether both answer 0, and take little more than reading alone. */
static int measure_evidence(size_t reading)
{
    const size_t first = touched(write_evidence);
    const struct answer one = given;
    const size_t second = touched(check_evidence);
    printf("  for evidence of %zu bytes (answer %d) %zu, and for its check (answer %d) %zu KiB of %d KiB\n", evidence_size, one.number, first / 1024,
           given.number, second / 1024, STACK / 1024);
    const int apart = is_apart("sverdhyll_write_evidence", first, reading) & is_apart("sverdhyll_check_evidence", second, reading);
    return apart && one.number == SVERDHYLL_ACCEPTED && given.number == SVERDHYLL_ACCEPTED;
}

/* Makes all calls, prints how much of the stack each touched, and says whether the first two answer this number with so many units, the texts' own answer is that
   both pass, the fourth answers this one, and the last two 0; and whether none takes much more than reading alone. */
static int measure(const char *what, uint8_t number, uint64_t units, uint8_t stepped)
{
    const size_t first = touched(check);
    const struct answer one = given;
    const size_t second = touched(answer);
    const struct answer two = given;
    const size_t third = touched(read_texts);
    const struct answer own = given;
    const size_t fourth = touched(steps);
    printf("%s (%zu and %zu words): answer %d, units %llu, stack used %zu, %zu, by reading alone %zu, and for steps (answer %d) %zu KiB of %d KiB\n", what,
           script.words, response.words, two.number, (unsigned long long)two.units, first / 1024, second / 1024, third / 1024, given.number, fourth / 1024,
           STACK / 1024);
    const int answered = one.number == number && one.units == units && two.number == number && two.units == units && passes(own) && given.number == stepped;
    const int apart = is_apart("sverdhyll_check", first, third) & is_apart("sverdhyll_answer", second, third) & is_apart("sverdhyll_steps", fourth, third);
    return measure_evidence(third) && answered && apart && third < STACK;
}

/* Begins both texts. */
static void begin(void)
{
    script.size = script.words = response.size = response.words = 0;
    add(&script, "(set-logic BV)");
    add(&response, "(");
}

/* Ends both texts. */
static void end(void)
{
    add(&script, "(check-synth)");
    add(&response, ")");
}

/* Adds a name under so many `not`s. */
static void negated(struct text *text, size_t times, const char *name)
{
    repeat(text, "(not ", times);
    add(text, "%s", name);
    repeat(text, ")", times);
}

/* Adds a shallow term of so many leaves joined by `or`: 4 * leaves - 3 words and 2 * leaves - 1 nodes. */
static void joined(struct text *text, size_t leaves, const char *leaf)
{
    if (leaves == 1) {
        add(text, "%s", leaf);
        return;
    }
    add(text, "(or ");
    joined(text, leaves / 2, leaf);
    add(text, " ");
    joined(text, leaves - leaves / 2, leaf);
    add(text, ")");
}

/* The deepest evaluation: as many `define-fun`s as there may be, nested as deep as lists may be, each applying the one before it at its deepest place; a function
   that applies the last of them, and a constraint that applies the function. All 2,175 nodes are on one path, in some 6,530 words. */
static int deepest(void)
{
    const size_t nots = (DEFINED + 2) * DEEPEST - 1;
    char name[8] = "true";
    begin();
    for (int i = 0; i < DEFINED; i++) {
        add(&script, "(define-fun d%d () Bool ", i);
        negated(&script, DEEPEST, name);
        add(&script, ")");
        sprintf(name, "d%d", i);
    }
    add(&script, "(synth-fun f () Bool ((A Bool)) ((A Bool (%s (not A)))))(constraint ", name);
    negated(&script, DEEPEST, "f");
    add(&script, ")");
    add(&response, "(define-fun f () Bool ");
    negated(&response, DEEPEST - 1, name);
    add(&response, ")");
    end();
    const uint8_t number = nots % 2 == 0 ? SVERDHYLL_ACCEPTED : SVERDHYLL_FALSE;
    return measure("the deepest evaluation", number, nots + DEFINED + 2, nots % 2 == 0 ? SVERDHYLL_NO_STEPS : number) && script.words <= MOST_WORDS;
}

/* Adds a name under so many `distinct`s of eight operands, of which it is the last: OPERANDS nodes and OPERANDS + 2 words each. */
static void distinguished(struct text *text, size_t times, const char *name)
{
    for (size_t k = 0; k < times; k++) {
        add(text, "(distinct ");
        repeat(text, "false ", OPERANDS - 1);
    }
    add(text, "%s", name);
    repeat(text, ")", times);
}

/* The widest evaluation: as the deepest, but each body is as many `distinct`s of eight operands as its 256 nodes allow, so that the values of seven operands wait
   at each node of the path; there are as many `define-fun`s as the words allow. */
static int widest(void)
{
    const size_t beside = 8, level = OPERANDS + 2, after = 32 + 7 + LEVELS * level + 3;
    size_t count = 0;
    uint64_t units = 1;
    char name[8] = "true";
    begin();
    while (script.words + beside + level + after <= MOST_WORDS) {
        const size_t room = (MOST_WORDS - after - script.words - beside) / level, depth = room < LEVELS ? room : LEVELS;
        add(&script, "(define-fun d%zu () Bool ", count);
        distinguished(&script, depth, name);
        add(&script, ")");
        sprintf(name, "d%zu", count++);
        units += depth * OPERANDS + 1;
    }
    add(&script, "(synth-fun f () Bool ((A Bool)) ((A Bool (%s false (distinct A A A A A A A A)))))(constraint (not ", name);
    distinguished(&script, LEVELS, "f");
    add(&script, "))");
    add(&response, "(define-fun f () Bool ");
    distinguished(&response, LEVELS, name);
    add(&response, ")");
    end();
    return measure("the widest evaluation", SVERDHYLL_ACCEPTED, units + 2 * LEVELS * OPERANDS + 2, SVERDHYLL_NO_STEPS);
}

/* As many words as both texts may have: eight functions, and constraints of 512 words and one of what is left. */
static int most_words(void)
{
    uint64_t units = 0;
    begin();
    for (int k = 0; k < FUNCTIONS; k++) {
        const size_t leaves = k < FUNCTIONS - 1 ? 62 : 68;
        add(&script, "(synth-fun f%d () Bool ((A Bool)) ((A Bool (true (or A A) (not A)", k);
        if (k == FUNCTIONS - 1) repeat(&script, " false", (MOST_WORDS - script.words - 7) % 4);
        add(&script, "))))");
        add(&response, k < FUNCTIONS - 1 ? "(define-fun f%d () Bool " : "(define-fun f%d () Bool (not (not ", k);
        joined(&response, leaves, "true");
        add(&response, k < FUNCTIONS - 1 ? ")" : ")))");
    }
    while (script.words + 3 < MOST_WORDS) {
        const size_t room = (MOST_WORDS - 3 - script.words) / 4, leaves = room < 128 ? room : 128;
        add(&script, "(constraint ");
        joined(&script, leaves, "true");
        add(&script, ")");
        units += 2 * leaves - 1;
    }
    end();
    return measure("the most words", SVERDHYLL_ACCEPTED, units, SVERDHYLL_ACCEPTED) && script.words == MOST_WORDS && response.words == MOST_ANSWERED;
}

/* As many functions, non-terminals and rules as there may be: every non-terminal is a chain rule of the one before it. */
static int most_rules(void)
{
    begin();
    for (int k = 0; k < FUNCTIONS; k++) {
        add(&script, "(synth-fun f%d ((x Bool)) Bool (", k);
        for (int i = 0; i < NON_TERMINALS; i++) add(&script, "(A%d Bool)", i);
        add(&script, ") (");
        for (int i = 0; i < NON_TERMINALS - 1; i++) add(&script, "(A%d Bool (false false false false false false false A%d))", i, i + 1);
        add(&script, "(A15 Bool (false false false false false x (or A0 A0) (not A0)))))");
        add(&response, "(define-fun f%d ((x Bool)) Bool ", k);
        joined(&response, LEAVES, "x");
        add(&response, ")");
    }
    end();
    return measure("the most functions, non-terminals and rules", SVERDHYLL_ACCEPTED, 0, SVERDHYLL_ACCEPTED) && list_size(FUNCTIONS - 1) == NON_TERMINALS * (2 * LEAVES - 1);
}

/* The largest evidence file: eight functions with as many nodes as a response of 2,048 words has room for, 1,974, each of which takes 16 rules, and texts of as many
   bytes as there may be. */
static int largest_file(void)
{
    const size_t nodes = 1974, payload = 24 + SVERDHYLL_MOST_SCRIPT + SVERDHYLL_MOST_RESPONSE + 2 * CHAIN * nodes;
    int shown = 0;
    begin();
    add(&script, "(define-fun t () Bool true)");
    for (int k = 0; k < FUNCTIONS; k++) {
        char name[8];
        sprintf(name, "f%d", k);
        add_chain(&script, &response, name, k < FUNCTIONS - 1 ? 246 : 244);
    }
    end();
    pad(&script, SVERDHYLL_MOST_SCRIPT);
    pad(&response, SVERDHYLL_MOST_RESPONSE);
    const int well = measure("the largest evidence file", SVERDHYLL_ACCEPTED, 0, SVERDHYLL_NO_STEPS);
    for (int k = 0; k < FUNCTIONS; k++) shown += list_size(k);
    return well && response.words == MOST_ANSWERED && shown == CHAIN * (int)nodes &&
           evidence_size == (payload + SVERDHYLL_PAYLOAD - 1) / SVERDHYLL_PAYLOAD * SVERDHYLL_BLOCK;
}

int main(void)
{
    if (posix_memalign((void **)&stack, 4096, STACK)) return 1;
    return !(deepest() & widest() & most_words() & most_rules() & largest_file());
}
