/* The steps of bodies, called from C on a thread of 2 MiB: what include/sverdhyll.h says of `sverdhyll_steps`, with the decided readings of request E11 by their
   numbers, and the limits. */
#include <pthread.h>

#include "calls.h"

enum { STACK = 2 << 20, PAINT = 0xa5, LENT = 77, UNITS = 1000, DEEP = 62, MOST_NODES = 256,
       NOT = 0, AND = 1, ITE = 7, BVNEG = 9, BVADD = 13, BVULT = 20, EXTRACT = 22, BVSDIV = 23 };

/* A list of numbers: a pointer and a length. */
#define LIST(...) (const uint64_t[]){__VA_ARGS__}, sizeof((const uint64_t[]){__VA_ARGS__}) / sizeof(uint64_t)

/* Steps. */
#define ARGUMENT(k) SVERDHYLL_PUSH_ARGUMENT, k, 0, 0
#define CONSTANT(value, width) SVERDHYLL_PUSH_CONSTANT, value, width, 0
#define APPLY(o, count) SVERDHYLL_APPLY, o, count, 0
#define CUT(i, j) SVERDHYLL_APPLY, EXTRACT, i, j

/* Two functions of an argument x of 8 bits and one p of Bool, and a `define-fun` that the second may use; a `define-fun` behind them has the name of an argument.
   Rules of both have weights, so that answers carry totals. */
#define ARGUMENTS "((x (_ BitVec 8)) (p Bool))"
static const char *const SCRIPT =
    "(set-logic BV)(set-feature :weights true)(define-fun d ((y Bool)) Bool (not y))(define-fun e () Bool true)"
    "(synth-fun f " ARGUMENTS " (_ BitVec 8) ((W (_ BitVec 8)) (B Bool)) ((W (_ BitVec 8) ((Variable (_ BitVec 8)) (Constant (_ BitVec 8)) (! (bvadd W W) :weight 5) (bvsdiv W W)"
    " ((_ extract 7 0) W) (ite B W W))) (B Bool ((Variable Bool) (bvult W W)))))"
    "(synth-fun g " ARGUMENTS " Bool ((B Bool)) ((B Bool ((! p :weight 7) true false (not B) (and B B) (and B B B) (d B) e))))"
    "(define-fun x () Bool true)(constraint (= (f #x01 true) (f #x01 true)))(constraint (or (g #x01 true) x))(check-synth)";

/* A function whose value at the variable v must be v. */
static const char *const POINTED =
    "(set-logic BV)(synth-fun f ((x (_ BitVec 8))) (_ BitVec 8) ((W (_ BitVec 8))) ((W (_ BitVec 8) (x (bvneg W)))))"
    "(declare-var v (_ BitVec 8))(constraint (= (f v) v))(check-synth)";
#define POINTED_BODY(body) "((define-fun f ((x (_ BitVec 8))) (_ BitVec 8) " body "))"

static int failures = 0;
static struct text script, response, made;

/* The response with these two bodies. */
static const char *bodies(const char *f, const char *g)
{
    response.size = response.words = 0;
    add(&response, "((define-fun f " ARGUMENTS " (_ BitVec 8) %s)(define-fun g " ARGUMENTS " Bool %s))", f, g);
    return response.bytes;
}

/* Notes a failure. */
static void failed(const char *what, struct answer a, size_t count)
{
    failures++;
    printf("failed: %s: answer %d, text %d, place %llu, %zu steps\n", what, a.number, a.text, (unsigned long long)a.place, count);
}

/* Expects a list of the function's body at these points; the answer is the checker's own, with its totals, and what is behind the list stays as it was lent. */
static void gives_at(const char *what, const char *commands, const char *text, const uint64_t *points, size_t points_count, uint64_t function,
                     const uint64_t *steps, size_t size)
{
    size_t count;
    lend(LENT);
    const struct answer own = answer_all(commands, strlen(commands), text, strlen(text), points, points_count, UNITS, area, SVERDHYLL_AREA);
    const struct answer a = steps_all(commands, strlen(commands), text, strlen(text), points, points_count, UNITS, function, SVERDHYLL_STEPS_AREA, &count);
    const int well = a.number == 0 && is_same(a, own) && SVERDHYLL_STEP * count == size;
    if (!well || memcmp(listed, steps, size * sizeof *steps) || !is_lent(size, LENT)) failed(what, a, count);
}

/* The same for the script above, at no points. */
static void gives(const char *what, const char *text, uint64_t function, const uint64_t *steps, size_t size)
{
    gives_at(what, SCRIPT, text, NULL, 0, function, steps, size);
}

/* Expects an answer about no text, no steps, and the area as it was lent; the area is said to have so many numbers. */
static void refused(const char *what, const char *text, uint64_t function, size_t size, uint8_t number, uint64_t place)
{
    size_t count;
    lend(LENT);
    const struct answer a = steps_all(SCRIPT, strlen(SCRIPT), text, strlen(text), NULL, 0, UNITS, function, size, &count);
    if (!is_answer(a, number, SVERDHYLL_NONE, place, 0, 0) || !is_at(a, 0, 0, 0) || count != 0 || !is_lent(0, LENT)) failed(what, a, count);
}

/* Expects the checker's own answer at these points, which is this one, no steps, and the area as it was lent, whatever the function is. */
static void unaccepted_at(const char *what, const char *commands, const char *text, const uint64_t *points, size_t points_count, uint64_t budget,
                          uint8_t number)
{
    static const uint64_t functions[] = {0, 1, 5, UINT64_MAX};
    for (size_t i = 0; i < sizeof functions / sizeof *functions; i++) {
        size_t count;
        lend(LENT);
        const struct answer own = answer_all(commands, strlen(commands), text, strlen(text), points, points_count, budget, area, SVERDHYLL_AREA);
        const struct answer a = steps_all(commands, strlen(commands), text, strlen(text), points, points_count, budget, functions[i], SVERDHYLL_STEPS_AREA,
                                          &count);
        if (a.number != number || !is_same(a, own) || count != 0 || !is_lent(0, LENT)) failed(what, a, count);
    }
}

/* The same at no points. */
static void unaccepted(const char *what, const char *commands, const char *text, uint64_t budget, uint8_t number)
{
    unaccepted_at(what, commands, text, NULL, 0, budget, number);
}

/* The lists of bodies. */
static void lists(void)
{
    gives("E11.1, and E11.11: three steps, counted beside the answer: (bvadd x #x0F)", bodies("(bvadd x #x0F)", "p"), 0, LIST(ARGUMENT(0), CONSTANT(15, 8), APPLY(BVADD, 2)));
    gives("E11.2: ((_ extract 7 0) x)", bodies("((_ extract 7 0) x)", "p"), 0, LIST(ARGUMENT(0), CUT(7, 0)));
    gives("E11.3: (bvsdiv x x)", bodies("(bvsdiv x x)", "p"), 0, LIST(ARGUMENT(0), ARGUMENT(0), APPLY(BVSDIV, 2)));
    gives("E11.4: true", bodies("x", "true"), 1, LIST(CONSTANT(1, 0)));
    gives("false", bodies("x", "false"), 1, LIST(CONSTANT(0, 0)));
    gives("E11.5: (and p p p)", bodies("x", "(and p p p)"), 1, LIST(ARGUMENT(1), ARGUMENT(1), ARGUMENT(1), APPLY(AND, 3)));
    gives("E11.6: (_ bv15 8)", bodies("(_ bv15 8)", "p"), 0, LIST(CONSTANT(15, 8)));
    gives("E11.31: arguments are numbered from 0", bodies("x", "p"), 1, LIST(ARGUMENT(1)));
    gives("an argument with the name of a later define-fun", bodies("x", "p"), 0, LIST(ARGUMENT(0)));
    gives("operands in order, operator after them", bodies("(ite (bvult x #x02) (bvadd x #x03) #x04)", "p"), 0,
          LIST(ARGUMENT(0), CONSTANT(2, 8), APPLY(BVULT, 2), ARGUMENT(0), CONSTANT(3, 8), APPLY(BVADD, 2), CONSTANT(4, 8), APPLY(ITE, 3)));
    gives("white space and comments", bodies("( bvadd\n x ;x\n#b00001111 )", "p"), 0, LIST(ARGUMENT(0), CONSTANT(15, 8), APPLY(BVADD, 2)));
}

/* Answers 17 and 18, and responses that are not accepted. */
static void refusals(void)
{
    refused("E11.7: a body that uses a define-fun", bodies("x", "(and p (d p))"), 1, SVERDHYLL_STEPS_AREA, SVERDHYLL_NO_STEPS, 1);
    refused("a define-fun without arguments", bodies("x", "e"), 1, SVERDHYLL_STEPS_AREA, SVERDHYLL_NO_STEPS, 1);
    gives("the body beside it", bodies("x", "(and p (d p))"), 0, LIST(ARGUMENT(0)));
    refused("E11.8: a function number that the script lacks", bodies("x", "p"), 5, SVERDHYLL_STEPS_AREA, SVERDHYLL_NO_STEPS, 5);
    refused("the number past the last function", bodies("x", "p"), 2, SVERDHYLL_STEPS_AREA, SVERDHYLL_NO_STEPS, 2);
    refused("function 2^32", bodies("x", "p"), 1ull << 32, SVERDHYLL_STEPS_AREA, SVERDHYLL_NO_STEPS, 1ull << 32);
    refused("function 2^64 - 1", bodies("x", "p"), UINT64_MAX, SVERDHYLL_STEPS_AREA, SVERDHYLL_NO_STEPS, UINT64_MAX);
    unaccepted("a sort fault in a body", SCRIPT, bodies("(bvadd x p)", "p"), UNITS, SVERDHYLL_SORT);
    unaccepted("E11.9: no derivation comes before a function that is not there", SCRIPT, bodies("(bvudiv x x)", "p"), UNITS, SVERDHYLL_NO_DERIVATION);
    unaccepted("fail", SCRIPT, "fail", UNITS, SVERDHYLL_FAIL);
    unaccepted("a script with a fault", "(set-logic BV)(foo)", "fail", UNITS, SVERDHYLL_UNKNOWN_SHAPE);
    unaccepted("a budget that ends", SCRIPT, bodies("x", "p"), 3, SVERDHYLL_BUDGET_ENDED);
    unaccepted("a false constraint", "(set-logic BV)(synth-fun f () Bool ((B Bool)) ((B Bool (true false))))(constraint f)(check-synth)",
               "((define-fun f () Bool false))", UNITS, SVERDHYLL_FALSE);
    made.size = made.words = 0;
    add(&made, "(and");
    repeat(&made, " p", MOST_NODES);
    add(&made, ")");
    unaccepted("a body of 257 nodes", SCRIPT, bodies("x", made.bytes), UNITS, SVERDHYLL_PAST_LIMIT);
    refused("E11.10: an area of 1,023 numbers and a bad function", bodies("x", "p"), 5, 1023, SVERDHYLL_AREA_MISSIZED, 1023);
    refused("an area of 1,025 numbers", bodies("x", "p"), 0, 1025, SVERDHYLL_AREA_MISSIZED, 1025);
    refused("an area of no numbers, and no response", "", 0, 0, SVERDHYLL_AREA_MISSIZED, 0);
}

/* Points: accepted at those given, refused at others. */
static void pointed(void)
{
    const uint64_t right[] = {0, 128}, wrong[] = {0, 1}, outside[] = {128, 256};
    const char *negated = POINTED_BODY("(bvneg x)");
    gives_at("points at which the constraint holds", POINTED, negated, right, 2, 0, LIST(ARGUMENT(0), APPLY(BVNEG, 1)));
    gives_at("no points", POINTED, negated, NULL, 0, 0, LIST(ARGUMENT(0), APPLY(BVNEG, 1)));
    unaccepted_at("a point at which the constraint is false", POINTED, negated, wrong, 2, UNITS, SVERDHYLL_FALSE);
    unaccepted_at("a point outside its sort", POINTED, negated, outside, 2, UNITS, SVERDHYLL_BAD_POINTS);
    unaccepted_at("no derivation comes before a point outside its sort", POINTED, POINTED_BODY("(bvnot x)"), outside, 2, UNITS, SVERDHYLL_NO_DERIVATION);
}

/* Asks for the steps of g's body, which is in `made`, and expects so many; the last one is this operator's, and the list ends with this value where p is true. */
static void large_of(const char *what, const char *commands, size_t steps, uint64_t operator, uint64_t value)
{
    size_t count;
    uint64_t place, found, sort;
    const char *text = bodies("x", made.bytes);
    lend(LENT);
    const struct answer a = steps_all(commands, strlen(commands), text, strlen(text), NULL, 0, UNITS, 1, SVERDHYLL_STEPS_AREA, &count);
    const uint64_t *last = listed + SVERDHYLL_STEP * (steps - 1);
    if (a.number != 0 || count != steps || last[0] != SVERDHYLL_APPLY || last[1] != operator || !is_lent(SVERDHYLL_STEP * steps, LENT)) failed(what, a, count);
    const uint64_t sorts[] = {8, 0}, given[] = {3, 1};
    const uint8_t number = sverdhyll_run(sorts, 2, given, 2, listed, SVERDHYLL_STEP * count, &place, &found, &sort);
    if (number != 0 || found != value || sort != 0) failed("its run", a, count);
}

/* The same for the script above. */
static void large(const char *what, size_t steps, uint64_t operator, uint64_t value)
{
    large_of(what, SCRIPT, steps, operator, value);
}

/* The body with most values on the stack: an `and` of 255 operands, which are all there before it is applied. */
static void wide(void)
{
    script.size = script.words = made.size = made.words = 0;
    add(&script, "(set-logic BV)(synth-fun f " ARGUMENTS " (_ BitVec 8) ((W (_ BitVec 8))) ((W (_ BitVec 8) (x))))");
    add(&script, "(synth-fun g " ARGUMENTS " Bool ((B Bool)) ((B Bool (p (and");
    repeat(&script, " B", MOST_NODES - 1);
    add(&script, ")))))(check-synth)");
    add(&made, "(and");
    repeat(&made, " p", MOST_NODES - 1);
    add(&made, ")");
    large_of("a body of 256 nodes with 255 values on the stack", script.bytes, MOST_NODES, AND, 1);
    for (size_t i = 0; i < MOST_NODES - 1; i++)
        if (listed[SVERDHYLL_STEP * i] != SVERDHYLL_PUSH_ARGUMENT) failures++, printf("failed: step %zu pushes\n", i);
    if (listed[SVERDHYLL_STEP * (MOST_NODES - 1) + 2] != MOST_NODES - 1) failures++, printf("failed: an operator of 255 operands\n");
}

/* Bodies at the limits: 256 nodes, and as deep as lists may be, which is nesting 64 within the list of the response and that of the command. */
static void limits(void)
{
    made.size = made.words = 0;
    repeat(&made, "(and p ", DEEP);
    add(&made, "p");
    repeat(&made, ")", DEEP);
    large("a body as deep as lists may be", 2 * DEEP + 1, AND, 1);
    made.size = made.words = 0;
    repeat(&made, "(and p ", DEEP + 1);
    add(&made, "p");
    repeat(&made, ")", DEEP + 1);
    unaccepted("a body one list deeper", SCRIPT, bodies("x", made.bytes), UNITS, SVERDHYLL_PAST_LIMIT);
    made.size = made.words = 0;
    for (int i = 0; i < 42; i++) add(&made, "(and %s ", i % 2 ? "(and p p)" : "(and p p p)");
    add(&made, "(not (not (not p)))");
    repeat(&made, ")", 42);
    large("a body of 235 nodes", 42 + 21 * 3 + 21 * 4 + 4, AND, 0);
    made.size = made.words = 0;
    add(&made, "(not ");
    for (int i = 0; i < 50; i++) add(&made, "(and (and p p p) ");
    add(&made, "(and (not p) (not p))");
    repeat(&made, ")", 50);
    add(&made, ")");
    large("a body of 256 nodes", 1 + 50 * 5 + 5, NOT, 1);
    wide();
}

/* All of them, on the thread. */
static void *all(void *unused)
{
    lists();
    refusals();
    pointed();
    limits();
    return unused;
}

int main(void)
{
    pthread_t thread;
    pthread_attr_t attributes;
    size_t untouched = 0;
    unsigned char *stack = aligned_alloc(4096, STACK);
    if (stack == NULL) return 1;
    memset(stack, PAINT, STACK);
    pthread_attr_init(&attributes);
    if (pthread_attr_setstack(&attributes, stack, STACK) || pthread_create(&thread, &attributes, all, NULL) || pthread_join(thread, NULL)) return 1;
    while (untouched < STACK && stack[untouched] == PAINT) untouched++;
    printf("stack used: %zu KiB of %d KiB\n", (STACK - untouched) / 1024, STACK / 1024);
    if (failures) printf("%d failed\n", failures);
    else printf("the steps of bodies from C: as the header says\n");
    return failures != 0;
}
