/* How the time to search for the least derivation grows, on four grammars in which each node is much work:

   - unmatched: 16 non-terminals, each the last rule of the one before it, and only the last of them derives a node by itself, so that a node takes 16 turns; all other
     rules have seven nodes and differ from the body in the last of them only. Every list shown has 16 entries a node, the most there are.
   - matched: the same, but the rules of seven nodes end in a non-terminal, so that they match wherever the body is as deep, and every turn goes through all of them.
   - chains: the same, but in the place of the rules of seven nodes are chain rules, to the next non-terminal and from the last to the first, which every turn goes through
     at every node, whatever the body is.
   - one: one non-terminal with `x`, a complement and a disjunction, and then rules of seven nodes that match wherever the body is as deep: whoever looks for any derivation
     may stop at the first three, and whoever looks for the least goes through all.

   A call is measured with two functions of such a grammar; the time of the same call with bodies of one node is taken off, which leaves the search and the reading of the
   bodies. Prints that time, of the shortest of 20 calls each, and its ratio to the time with half the nodes, and with half the rules. */
#include <time.h>

#include "calls.h"

enum { FUNCTIONS = 2, SIZES = 4, COUNTS = 2 };

/* What the rules of a grammar are that stand beside `x`, a complement and a disjunction. */
enum kind { UNMATCHED, MATCHED, CHAINS };

/* A grammar: its name, how many non-terminals it has, what its other rules are, and how many entries a list has for each node, if that is known. */
struct grammar {
    const char *name;
    size_t non_terminals;
    enum kind others;
    size_t entries;
};

static const struct grammar grammars[] = {
    {"unmatched", 16, UNMATCHED, 16}, {"matched", 16, MATCHED, 0}, {"chains", 16, CHAINS, 16}, {"one", 1, MATCHED, 0}};

static const char *const HEAD = "((x (_ BitVec 8))) (_ BitVec 8)";

/* The rules by which every body can be derived. */
#define COMMON "x (bvnot A0) (bvor A0 A0) "

static struct text script, response;

/* Adds the term (bvor x (bvor x .. last)) of so many nodes. */
static void spine(struct text *text, size_t nodes, const char *last)
{
    repeat(text, "(bvor x ", nodes / 2);
    add(text, "%s", last);
    repeat(text, ")", nodes / 2);
}

/* Adds a body of so many nodes: a complement of four spines; or the argument alone. */
static void add_body(size_t nodes)
{
    if (nodes == 1) {
        add(&response, "x");
        return;
    }
    add(&response, "(bvnot (bvor ");
    for (int half = 0; half < 2; half++) {
        add(&response, "(bvor ");
        spine(&response, (nodes - 4) / 4, "x");
        add(&response, " ");
        spine(&response, (nodes - 4) / 4, "x");
        add(&response, ")");
    }
    add(&response, "))");
}

/* Adds so many other rules of a non-terminal; `next` is the one behind it. */
static void add_others(enum kind kind, size_t count, size_t next)
{
    for (size_t r = 0; r < count; r++) {
        switch (kind) {
        case UNMATCHED: spine(&script, 7, "#x00"); break;
        case MATCHED: spine(&script, 7, "A0"); break;
        case CHAINS: add(&script, "A%zu", next); break;
        }
        add(&script, " ");
    }
}

/* Makes both texts: functions of so many rules and bodies of so many nodes. */
static void make(const struct grammar *g, size_t nodes, size_t rules)
{
    const size_t each = rules / g->non_terminals;
    script.size = script.words = response.size = response.words = 0;
    add(&script, "(set-logic BV)");
    add(&response, "(");
    for (int k = 0; k < FUNCTIONS; k++) {
        add(&script, "(synth-fun f%d %s (", k, HEAD);
        for (size_t i = 0; i < g->non_terminals; i++) add(&script, "(A%zu (_ BitVec 8))", i);
        add(&script, ") (");
        for (size_t i = 0; i < g->non_terminals; i++) {
            const int last = i == g->non_terminals - 1, only = g->non_terminals == 1;
            add(&script, "(A%zu (_ BitVec 8) (", i);
            if (only) add(&script, COMMON);
            add_others(g->others, each - (last ? 3 : 1), (i + 1) % g->non_terminals);
            if (!only && last) add(&script, COMMON);
            if (!last) add(&script, "A%zu", i + 1);
            add(&script, "))");
        }
        add(&script, "))");
        add(&response, "(define-fun f%d %s ", k, HEAD);
        add_body(nodes);
        add(&response, ")");
    }
    add(&script, "(check-synth)");
    add(&response, ")");
}

static double now(void)
{
    struct timespec t;
    clock_gettime(CLOCK_MONOTONIC, &t);
    return t.tv_sec * 1e3 + t.tv_nsec / 1e6;
}

/* The time of a call in milliseconds; the list has as many entries as it must. */
static double time_of(const struct grammar *g, size_t nodes, size_t rules)
{
    make(g, nodes, rules);
    const double start = now();
    const struct answer a = check_all(script.bytes, script.size, response.bytes, response.size, NULL, 0, 0, area, SVERDHYLL_AREA);
    const double time = now() - start;
    const int entries = list_size(FUNCTIONS - 1);
    if (a.number != SVERDHYLL_ACCEPTED || entries < 1 || (g->entries > 0 && entries != (int)(g->entries * nodes))) {
        printf("answer %d at %llu, a list of %d entries\n", a.number, (unsigned long long)a.place, entries);
        exit(1);
    }
    return time;
}

/* Measures a grammar, and prints its times. */
static void measure(const struct grammar *g)
{
    const size_t nodes[SIZES] = {1, 64, 128, 256}, rules[COUNTS] = {64, 128};
    double best[SIZES][COUNTS];
    for (int turn = 0; turn < 20; turn++)
        for (int n = 0; n < SIZES; n++)
            for (int r = 0; r < COUNTS; r++) {
                const double time = time_of(g, nodes[n], rules[r]);
                if (turn == 0 || time < best[n][r]) best[n][r] = time;
            }
    for (int n = 1; n < SIZES; n++)
        for (int r = 0; r < COUNTS; r++) {
            const double time = best[n][r] - best[0][r];
            printf("%-9s %d functions of %3zu nodes and %3zu rules: %7.3f ms", g->name, FUNCTIONS, nodes[n], rules[r], time);
            if (n > 1) printf(", %.2f times that of half the nodes", time / (best[n - 1][r] - best[0][r]));
            if (r > 0) printf(", %.2f times that of half the rules", time / (best[n][0] - best[0][0]));
            printf("\n");
        }
    printf("%-9s the last of these texts have %zu and %zu words\n", g->name, script.words, response.words);
}

int main(void)
{
    for (size_t g = 0; g < sizeof grammars / sizeof *grammars; g++) measure(grammars + g);
    return 0;
}
