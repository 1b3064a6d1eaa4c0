/* The worker: the proved checker behind two pipes, for machines that cannot run its code themselves (see src/worker.rs).
   A frame is eight bytes with a length, low byte first, then so many bytes. When it is ready it sends the frame "sverdhyll" and one with the digest of the
   library (SHA-256, LIBRARY below, in hexadecimal). Then it reads requests and answers each:
   "check", script, response, points, budget, area: the sixteen numbers of the answer, and the area, a frame each;
   "read", script, response: the sixteen numbers of the texts' own answer;
   "word", text, offset: the length of the word that starts there;
   "position", text, offset: the offset past the word that starts there, the line and the column, in one frame;
   "steps", script, response, points, budget and function, area: the sixteen numbers of the answer, the number of steps, and the area, a frame each;
   "run", sorts, arguments, steps: the answer's number, its place, the value and its sort, in one frame;
   "write evidence", script, response, area: the sixteen numbers of the answer, the length of the file, and the area, a frame each;
   "check evidence", file: the sixteen numbers of the answer.
   It ends as soon as nobody can write to standard input any more, also in the middle of a check: however the process that started it ends, it ends too.
   Its machine is x86-64, so numbers in memory have their low byte first, as in the frames. */
#include <poll.h>
#include <pthread.h>
#include <stdint.h>
#include <stdio.h>
#include <stdlib.h>
#include <string.h>
#include <unistd.h>

#include "sverdhyll.h"

/* A frame received, with room that is used again. */
struct frame {
    void *bytes;
    uint64_t length, room;
};

/* Reads a frame; returns 0 where standard input ends or memory does. */
static int receive(struct frame *frame)
{
    if (fread(&frame->length, sizeof frame->length, 1, stdin) != 1) return 0;
    if (!frame->bytes || frame->length > frame->room) {
        free(frame->bytes);
        frame->bytes = malloc(frame->length + 1);
        frame->room = frame->length;
    }
    return frame->bytes && fread(frame->bytes, 1, frame->length, stdin) == frame->length;
}

/* Writes a frame. */
static void send(const void *bytes, uint64_t length)
{
    fwrite(&length, sizeof length, 1, stdout);
    fwrite(bytes, 1, length, stdout);
}

/* Whether a frame is this word. */
static int is(const struct frame *frame, const char *word)
{
    return frame->length == strlen(word) && !memcmp(frame->bytes, word, frame->length);
}

/* Reads what a check takes, and answers; returns 0 where standard input ends. */
static int check(void)
{
    static struct frame script, response, points, budget, area;
    uint64_t answer[SVERDHYLL_ANSWER];

    if (!receive(&script) || !receive(&response) || !receive(&points) || !receive(&budget) || !receive(&area)) return 0;
    if (budget.length != sizeof(uint64_t)) return 0;
    sverdhyll_answer(script.bytes, script.length, response.bytes, response.length, points.bytes, points.length / sizeof(uint64_t),
                     *(uint64_t *)budget.bytes, area.bytes, area.length / sizeof(uint16_t), answer);
    send(answer, sizeof answer);
    send(area.bytes, area.length);
    return 1;
}

/* Reads two texts and gives their own answer; returns 0 where standard input ends. */
static int read_texts(void)
{
    static struct frame script, response;
    uint64_t answer[SVERDHYLL_ANSWER];

    if (!receive(&script) || !receive(&response)) return 0;
    sverdhyll_read(script.bytes, script.length, response.bytes, response.length, answer);
    send(answer, sizeof answer);
    return 1;
}

/* Reads what an enquiry takes; returns 0 where standard input ends. */
static int enquired(struct frame *text, uint64_t *at)
{
    static struct frame offset;

    if (!receive(text) || !receive(&offset) || offset.length != sizeof *at) return 0;
    *at = *(uint64_t *)offset.bytes;
    return 1;
}

/* Answers an enquiry for a word; returns 0 where standard input ends. */
static int word(void)
{
    static struct frame text;
    uint64_t at, length;

    if (!enquired(&text, &at)) return 0;
    length = sverdhyll_word(text.bytes, text.length, at);
    send(&length, sizeof length);
    return 1;
}

/* Answers an enquiry for a place; returns 0 where standard input ends. */
static int position(void)
{
    static struct frame text;
    uint64_t at, found[3];

    if (!enquired(&text, &at)) return 0;
    found[0] = at + sverdhyll_word(text.bytes, text.length, at);
    sverdhyll_position(text.bytes, text.length, at, &found[1], &found[2]);
    send(found, sizeof found);
    return 1;
}

/* Reads what the steps of a body take, and answers; returns 0 where standard input ends. */
static int steps(void)
{
    static struct frame script, response, points, chosen, area;
    uint64_t answer[SVERDHYLL_ANSWER], number;
    size_t count;

    if (!receive(&script) || !receive(&response) || !receive(&points) || !receive(&chosen) || !receive(&area)) return 0;
    if (chosen.length != 2 * sizeof(uint64_t)) return 0;
    sverdhyll_steps(script.bytes, script.length, response.bytes, response.length, points.bytes, points.length / sizeof(uint64_t),
                    ((uint64_t *)chosen.bytes)[0], ((uint64_t *)chosen.bytes)[1], area.bytes, area.length / sizeof(uint64_t), &count, answer);
    number = count;
    send(answer, sizeof answer);
    send(&number, sizeof number);
    send(area.bytes, area.length);
    return 1;
}

/* Runs a list of steps; returns 0 where standard input ends. */
static int run(void)
{
    static struct frame sorts, arguments, list;
    uint64_t found[4];

    if (!receive(&sorts) || !receive(&arguments) || !receive(&list)) return 0;
    found[0] = sverdhyll_run(sorts.bytes, sorts.length / sizeof(uint64_t), arguments.bytes, arguments.length / sizeof(uint64_t), list.bytes,
                             list.length / sizeof(uint64_t), &found[1], &found[2], &found[3]);
    send(found, sizeof found);
    return 1;
}

/* Reads what an evidence file is made of, and writes it; returns 0 where standard input ends. */
static int write_evidence(void)
{
    static struct frame script, response, area;
    uint64_t answer[SVERDHYLL_ANSWER], number;
    size_t length;

    if (!receive(&script) || !receive(&response) || !receive(&area)) return 0;
    sverdhyll_write_evidence(script.bytes, script.length, response.bytes, response.length, area.bytes, area.length, &length, answer);
    number = length;
    send(answer, sizeof answer);
    send(&number, sizeof number);
    send(area.bytes, area.length);
    return 1;
}

/* Checks an evidence file; returns 0 where standard input ends. */
static int check_evidence(void)
{
    static struct frame file;
    uint64_t answer[SVERDHYLL_ANSWER];

    if (!receive(&file)) return 0;
    sverdhyll_check_evidence(file.bytes, file.length, answer);
    send(answer, sizeof answer);
    return 1;
}

/* Answers a request; returns 0 where it is none, or standard input ends. */
static int served(const struct frame *request)
{
    if (is(request, "check")) return check();
    if (is(request, "read")) return read_texts();
    if (is(request, "word")) return word();
    if (is(request, "position")) return position();
    if (is(request, "steps")) return steps();
    if (is(request, "run")) return run();
    if (is(request, "write evidence")) return write_evidence();
    return is(request, "check evidence") && check_evidence();
}

/* Ends the process when standard input has nobody left who can write to it. */
static void *watch(void *unused)
{
    struct pollfd input = {STDIN_FILENO, 0, 0};

    while (poll(&input, 1, -1) <= 0) continue;
    _exit(0);
    return unused;
}

int main(void)
{
    static struct frame request;
    pthread_t watching;

    if (pthread_create(&watching, NULL, watch, NULL)) return 1;
    send("sverdhyll", strlen("sverdhyll"));
    send(LIBRARY, strlen(LIBRARY));
    fflush(stdout);
    while (receive(&request)) {
        if (!served(&request) || fflush(stdout)) return 1;
    }
    return 0;
}
