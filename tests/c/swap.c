/* The swap case of document 01 ("Settled on the bench"): each of the three constraints costs 8, so that a budget of 24 accepts, and one of 23 ends before the
   third, with 16 units spent; the body is derived by the rules 7, 15, 3 and 8. */
#include "calls.h"

#define WORD "(_ BitVec 32)"
#define HALF "(_ BitVec 16)"

static const char SCRIPT[] = "(set-logic BV)"
    "(synth-fun f ((x " WORD ")) " WORD " ((BV32 " WORD ") (BV16 " HALF "))"
    " ((BV32 " WORD " (#x00000000 #x00000001 #xFFFFFFFF x (bvand BV32 BV32) (bvor BV32 BV32) (bvnot BV32) (concat BV16 BV16)))"
    "  (BV16 " HALF " (#x0000 #x0001 #xFFFF (bvand BV16 BV16) (bvor BV16 BV16) (bvnot BV16) ((_ extract 31 16) BV32) ((_ extract 15 0) BV32)))))"
    "(constraint (= (f #x0782ECAD) #xECAD0000))"
    "(constraint (= (f #xFFFF008E) #x008E0000))"
    "(constraint (= (f #x00000000) #x00000000))"
    "(check-synth)";
static const char RESPONSE[] = "((define-fun f ((x " WORD ")) " WORD " (concat ((_ extract 15 0) x) #x0000)))";

/* Whether the area shows the derivation, and nothing else. */
static int is_shown(void)
{
    const uint16_t rules[4] = {7, 15, 3, 8};
    int others = 0;
    for (size_t k = 1; k < 8; k++) others |= list_size(k) != 0;
    return list_size(0) == 4 && memcmp(area, rules, sizeof rules) == 0 && !others;
}

/* Whether the answer to a budget is as given, and the derivation is shown. */
static int with(uint64_t budget, uint8_t number, uint8_t text, uint64_t second, uint64_t units)
{
    const struct answer a = check_texts(SCRIPT, RESPONSE, budget);
    const int right = is_answer(a, number, text, 0, second, units) && is_shown();
    printf("budget %2llu: answer %d, units %llu%s\n", (unsigned long long)budget, a.number, (unsigned long long)a.units, right ? "" : ", which is wrong");
    return right;
}

int main(void)
{
    const int accepted = with(24, 0, SVERDHYLL_NONE, 1, 24) & with(1000, 0, SVERDHYLL_NONE, 1, 24);
    const int ended = with(23, 15, SVERDHYLL_POINTS, 2, 16) & with(16, 15, SVERDHYLL_POINTS, 2, 16) & with(0, 15, SVERDHYLL_POINTS, 0, 0);
    return !(accepted && ended);
}
