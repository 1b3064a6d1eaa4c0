/* How the time to read a script grows with its words: prints, for three kinds of script of 512 to 8,192 words, the time of each further word of a call of the
   checker, and its ratio to that of the first step from one script in the largest tables to the next. There is a variable and no point, so that nothing is evaluated. */
#include <time.h>

#include "calls.h"

static const char *const RESPONSE = "((define-fun f ((a (_ BitVec 32))) (_ BitVec 32) a))";

/* How many bytes a script has at most for which there are smaller tables. */
enum { SMALLER = 4096 };

static struct text script;

/* A function with so many rules, some of them applications. */
static void add_function(int rules)
{
    add(&script, "(synth-fun f ((a (_ BitVec 32))) (_ BitVec 32) ((S (_ BitVec 32))) ((S (_ BitVec 32) (a");
    for (int i = 0; i < rules; i++) add(&script, " (bvadd S (bvnot (bvadd a (bvnot a))))");
    add(&script, "))))");
}

/* A constraint with so many sums. */
static void add_constraint(int sums)
{
    add(&script, "(constraint (= x");
    for (int i = 0; i < sums; i++) add(&script, " (bvadd x");
    add(&script, " (f x)");
    for (int i = 0; i < sums; i++) add(&script, ")");
    add(&script, "))");
}

/* A script of about so many words: `kind` 0 has many constraints, 1 a grammar of many rules, 2 few deep constraints. */
static void make(int kind, size_t most)
{
    script.size = script.words = 0;
    add(&script, "(set-logic BV)");
    add_function(kind == 1 ? (int)(most / 64) - 4 : 1);
    add(&script, "(declare-var x (_ BitVec 32))");
    int sums = kind == 0 ? 30 : 50;
    size_t each = 11 + 4 * (size_t)sums;
    for (int i = 0; i < 64 && script.words + each + 3 <= most; i++) add_constraint(sums);
    add(&script, "(check-synth)");
}

static double now(void)
{
    struct timespec t;
    clock_gettime(CLOCK_MONOTONIC, &t);
    return t.tv_sec * 1e9 + t.tv_nsec;
}

/* The shortest of many times of a call. */
static double shortest(void)
{
    double best = 1e18;
    for (int turn = 0; turn < 50; turn++) {
        double start = now();
        const struct answer a = check_all(script.bytes, script.size, RESPONSE, strlen(RESPONSE), NULL, 0, 0, area, SVERDHYLL_AREA);
        double time = now() - start;
        if (a.number != SVERDHYLL_ACCEPTED) {
            printf("answer %d at %llu\n", a.number, (unsigned long long)a.place);
            exit(1);
        }
        if (time < best) best = time;
    }
    return best;
}

int main(void)
{
    const char *const names[] = {"many constraints", "many rules", "deep constraints"};
    make(0, 512);
    shortest();
    for (int kind = 0; kind < 3; kind++) {
        double first = 0, time_before = 0;
        size_t words_before = 0, size_before = 0;
        printf("%s\n", names[kind]);
        for (size_t most = 512; most <= 8192; most += 512) {
            make(kind, most);
            double time = shortest();
            if (words_before != 0) {
                double each = (time - time_before) / (script.words - words_before);
                if (first == 0 && size_before > SMALLER) first = each;
                printf("  %4zu words  %7.1f ns a further word", script.words, each);
                if (first == 0) printf("\n");
                else printf("  ratio %.2f\n", each / first);
            }
            time_before = time;
            words_before = script.words;
            size_before = script.size;
        }
    }
    return 0;
}
