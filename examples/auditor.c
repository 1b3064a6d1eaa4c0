/* Checks an evidence file, and prints the verdict: auditor FILE. It needs the check alone, which has no search in it:

     tools/staticlib auditing
     tools/link target/auditor examples/auditor.c target/staticlib/libauditing.a
     tools/run target/auditor examples/swap.evidence

   The status is 0 where the file is accepted, 1 where it is not, and 2 where it cannot be read. docs/EVIDENCE.md says what a file holds. */
#include <stdio.h>
#include <stdlib.h>

#include "sverdhyll.h"

/* The bytes of a file, whatever it holds. */
struct bytes {
    uint8_t *bytes;
    size_t length, room;
};

/* Reads a whole file; returns 0 where that cannot be done. */
static int read_file(const char *name, struct bytes *into)
{
    FILE *file = fopen(name, "rb");
    if (!file) return 0;
    for (;;) {
        if (into->length == into->room) {
            into->room = into->room == 0 ? SVERDHYLL_MOST_EVIDENCE + 1 : 2 * into->room;
            into->bytes = realloc(into->bytes, into->room);
            if (!into->bytes) break;
        }
        const size_t more = fread(into->bytes + into->length, 1, into->room - into->length, file);
        if (more == 0) break;
        into->length += more;
    }
    const int whole = into->bytes && !ferror(file);
    fclose(file);
    return whole;
}

/* Prints what an answer says. Of 2 to 9 and 12 it has the line and the column in its text, of 1 how long the text is; 10 and 11 are the whole response. */
static void print_verdict(const uint64_t answer[SVERDHYLL_ANSWER])
{
    const char *text = answer[SVERDHYLL_TEXT] == SVERDHYLL_SCRIPT ? "script" : "response";
    const int number = (int)answer[SVERDHYLL_NUMBER];
    const unsigned long place = (unsigned long)answer[SVERDHYLL_PLACE];
    switch (number) {
    case SVERDHYLL_ACCEPTED: printf("accepted: its blocks are right, its texts pass, and its lists derive the bodies\n"); break;
    case SVERDHYLL_WRONG_BLOCK: printf("answer 21: block %lu is cut short, spare, or wrongly summed or filled, or the lengths are past the file\n", place); break;
    case SVERDHYLL_NOT_FOLLOWED: printf("answer 22: the list of function %lu does not derive its body, or there is no such function\n", place); break;
    case SVERDHYLL_TOO_LONG: printf("answer 1: its %s is too long: %lu bytes\n", text, place); break;
    case SVERDHYLL_FAIL:
    case SVERDHYLL_INFEASIBLE: printf("answer %d: its %s\n", number, text); break;
    default: printf("answer %d: its %s, at %lu:%lu\n", number, text, (unsigned long)answer[SVERDHYLL_LINE], (unsigned long)answer[SVERDHYLL_COLUMN]);
    }
}

int main(int count, char **names)
{
    struct bytes file = {NULL, 0, 0};
    uint64_t answer[SVERDHYLL_ANSWER];
    if (count != 2 || !read_file(names[1], &file)) {
        fprintf(stderr, "auditor: a file that can be read is needed\n");
        return 2;
    }
    const uint8_t number = sverdhyll_check_evidence(file.bytes, file.length, answer);
    free(file.bytes);
    printf("%s: ", names[1]);
    print_verdict(answer);
    return number != SVERDHYLL_ACCEPTED;
}
