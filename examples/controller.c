/* A small stack controller of its own, written from docs/STEPS.md: runs a stored list of steps on arguments and prints the value.

     cc -O2 -o target/controller examples/controller.c
     target/controller examples/assumed.steps 8:40 8:10

   An argument is its width, 0 for a Bool, a colon and its value. Nothing of the library is called or linked: what a controller takes is the list alone.

   It is for lists that `sverdhyll_steps` wrote (`./sverdhyll steps .. --numbers`), on arguments of the function's sorts: of these it is proved that every step finds what it
   takes. A list from elsewhere needs the tests of docs/STEPS.md, "Running any list", most of which are not made here: `sverdhyll_run` makes them all. */
#include <inttypes.h>
#include <stdint.h>
#include <stdio.h>
#include <stdlib.h>

enum { MOST_VALUES = 256, MOST_ARGUMENTS = 16, MOST_WIDTH = 64, STEP = 4, PUSH_ARGUMENT = 1, PUSH_CONSTANT = 2, APPLY = 3, ITE = 7, EXTRACT = 22 };

/* A value of so many bits; a Bool has the width 0. */
struct value {
    uint64_t bits;
    unsigned width;
};

static struct value stack[MOST_VALUES], arguments[MOST_ARGUMENTS];
static size_t height, given;

/* Ends the program with a word. */
static void stop(const char *why)
{
    fprintf(stderr, "controller: %s\n", why);
    exit(1);
}

/* All ones of a width. */
static uint64_t ones(unsigned width)
{
    return width == 0 ? 1 : UINT64_MAX >> (64 - width);
}

/* Puts a value on the stack, cut to its width. */
static void push(uint64_t bits, unsigned width)
{
    if (height == MOST_VALUES) stop("the stack is full");
    stack[height++] = (struct value){bits & ones(width), width};
}

/* The whole number with a sign that a value stands for. */
static int64_t whole(struct value a)
{
    const uint64_t sign = 1ull << (a.width - 1);
    return (int64_t)((a.bits ^ sign) - sign);
}

/* A whole number without its sign. */
static uint64_t size_of(int64_t a)
{
    return a < 0 ? 0 - (uint64_t)a : (uint64_t)a;
}

/* Quotient of whole numbers, without its fraction. By 0 it is 1 for a negative dividend, else all ones. */
static uint64_t signed_quotient(int64_t a, int64_t b)
{
    if (b == 0) return a < 0 ? 1 : UINT64_MAX;
    const uint64_t size = size_of(a) / size_of(b);
    return (a < 0) != (b < 0) ? 0 - size : size;
}

/* Remainder of whole numbers with the dividend's sign; by 0 the dividend. */
static uint64_t signed_remainder(int64_t a, int64_t b)
{
    if (b == 0) return (uint64_t)a;
    const uint64_t size = size_of(a) % size_of(b);
    return a < 0 ? 0 - size : size;
}

/* Remainder of whole numbers with the divisor's sign; by 0 the dividend. */
static uint64_t signed_modulus(int64_t a, int64_t b)
{
    const uint64_t rest = signed_remainder(a, b);
    return b != 0 && rest != 0 && (a < 0) != (b < 0) ? rest + (uint64_t)b : rest;
}

/* A value shifted down, the highest bit staying what it is. */
static uint64_t shifted_down(struct value a, uint64_t by)
{
    const uint64_t sign = whole(a) < 0 ? UINT64_MAX : 0;
    return by >= a.width ? sign : (a.bits >> by) | (by == 0 ? 0 : sign << (a.width - by));
}

/* Operators of any number of Bools, `=` and `distinct`. */
static int joined(uint64_t operator, const struct value *x, size_t count)
{
    int truth = operator == 4 ? x[count - 1].bits != 0 : x[0].bits != 0, apart = 1, alike = 1;
    for (size_t i = 1; i < count; i++) {
        const int next = operator == 4 ? x[count - 1 - i].bits != 0 : x[i].bits != 0;
        if (operator == 1) truth = truth && next;
        if (operator == 2) truth = truth || next;
        if (operator == 3) truth = truth != next;
        if (operator == 4) truth = !next || truth;
        alike = alike && x[i].bits == x[i - 1].bits;
        for (size_t j = 0; j < i; j++) apart = apart && x[i].bits != x[j].bits;
    }
    return operator == 5 ? alike : operator == 6 ? apart : truth;
}

/* Comparisons of two words: `bvult` and from `bvslt` on. */
static int compared(uint64_t operator, struct value a, struct value b)
{
    switch (operator) {
    case 20: return a.bits < b.bits;
    case 27: return whole(a) < whole(b);
    case 28: return whole(a) <= whole(b);
    case 29: return whole(a) > whole(b);
    case 30: return whole(a) >= whole(b);
    case 31: return a.bits <= b.bits;
    case 32: return a.bits > b.bits;
    default: return a.bits >= b.bits;
    }
}

/* Operators of words, the result still to be cut to the width. */
static uint64_t computed(uint64_t operator, struct value a, struct value b)
{
    switch (operator) {
    case 8: return ~a.bits;
    case 9: return 0 - a.bits;
    case 10: return a.bits & b.bits;
    case 11: return a.bits | b.bits;
    case 12: return a.bits ^ b.bits;
    case 13: return a.bits + b.bits;
    case 14: return a.bits - b.bits;
    case 15: return a.bits * b.bits;
    case 16: return b.bits == 0 ? UINT64_MAX : a.bits / b.bits;
    case 17: return b.bits == 0 ? a.bits : a.bits % b.bits;
    case 18: return b.bits >= a.width ? 0 : a.bits << b.bits;
    case 19: return b.bits >= a.width ? 0 : a.bits >> b.bits;
    case 23: return signed_quotient(whole(a), whole(b));
    case 24: return signed_remainder(whole(a), whole(b));
    case 25: return signed_modulus(whole(a), whole(b));
    case 26: return shifted_down(a, b.bits);
    default: stop("an operator that is not in the table");
    }
    return 0;
}

/* Applies an operator to the newest values of the stack, in whose place its value comes. */
static void apply(uint64_t operator, uint64_t third, uint64_t fourth)
{
    const uint64_t count = operator == EXTRACT ? 1 : third;
    if (count == 0 || count > height) stop("too few values on the stack");
    height -= count;
    const struct value *x = stack + height;
    const struct value a = x[0], b = count > 1 ? x[1] : a;
    if (operator == 0) push(a.bits == 0, 0);
    else if (operator <= 6) push(joined(operator, x, count), 0);
    else if (operator == ITE) push(a.bits ? b.bits : x[2].bits, b.width);
    else if (operator == 21) push(a.bits << b.width | b.bits, a.width + b.width);
    else if (operator == EXTRACT) push(a.bits >> fourth, third - fourth + 1);
    else if (operator == 20 || operator >= 27) push(compared(operator, a, b), 0);
    else push(computed(operator, a, b), a.width);
}

/* Does one step. */
static void run(const uint64_t step[STEP])
{
    switch (step[0]) {
    case PUSH_ARGUMENT:
        if (step[1] >= given) stop("an argument that is not there");
        push(arguments[step[1]].bits, arguments[step[1]].width);
        break;
    case PUSH_CONSTANT: push(step[1], step[2]); break;
    case APPLY: apply(step[1], step[2], step[3]); break;
    default: stop("no step");
    }
}

int main(int count, char **words)
{
    uint64_t step[STEP];
    FILE *list = count > 1 ? fopen(words[1], "r") : NULL;
    if (list == NULL) stop("usage: controller STEPS WIDTH:VALUE..");
    for (int i = 2; i < count; i++) {
        struct value *next = arguments + given;
        if (given == MOST_ARGUMENTS || sscanf(words[i], "%u:%" SCNu64, &next->width, &next->bits) != 2) stop("a wrong argument");
        if (next->width > MOST_WIDTH || next->bits > ones(next->width)) stop("an argument outside its sort");
        given++;
    }
    int numbers;
    while ((numbers = fscanf(list, "%" SCNu64 "%" SCNu64 "%" SCNu64 "%" SCNu64, &step[0], &step[1], &step[2], &step[3])) == STEP) run(step);
    if (numbers != EOF || ferror(list)) stop("the list is cut short within a step, or holds something else than numbers");
    fclose(list);
    if (height != 1) stop("the list does not end with one value");
    printf("%" PRIu64 "\n", stack[0].bits);
    return 0;
}
