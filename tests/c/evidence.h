/* What the tests of the evidence file share: files that are put together from texts and lists, by the layout of docs/EVIDENCE.md. */
#ifndef EVIDENCE_H
#define EVIDENCE_H

#include "calls.h"

enum { ROOM = SVERDHYLL_MOST_EVIDENCE + 4 * SVERDHYLL_BLOCK, HEAD = 24 };

/* Rules: a pointer and a count. */
#define RULES(...) (const uint16_t[]){__VA_ARGS__}, sizeof((const uint16_t[]){__VA_ARGS__}) / sizeof(uint16_t)

/* A list of rules. */
struct rules {
    const uint16_t *rules;
    size_t count;
};

/* The lists that the next file has. */
static struct rules lists[SVERDHYLL_MOST_FUNCTIONS];

/* The payload, and the file that it is cut into. */
static uint8_t payload[ROOM], file[ROOM];
static size_t paid, size;

/* Adds a number of so many bytes to the payload, low byte first. */
static inline void put(uint64_t number, size_t bytes)
{
    for (; bytes > 0; bytes--, number /= 256) payload[paid++] = number % 256;
}

/* The sum of the payload of a block. */
static inline uint64_t sum_of(const uint8_t *block)
{
    uint64_t sum = 0;
    for (size_t i = 0; i < SVERDHYLL_PAYLOAD; i++) sum += (i + 1) * block[i];
    return sum % SVERDHYLL_MODULUS;
}

/* Puts the sum of a block of the file behind its payload. */
static inline void seal(size_t block)
{
    uint8_t *at = file + SVERDHYLL_BLOCK * block;
    const uint64_t sum = sum_of(at);
    at[SVERDHYLL_PAYLOAD] = sum % 256;
    at[SVERDHYLL_PAYLOAD + 1] = sum / 256;
}

/* Cuts the payload into blocks, with its zeros. */
static inline void cut(void)
{
    while (paid % SVERDHYLL_PAYLOAD != 0) put(0, 1);
    size = paid / SVERDHYLL_PAYLOAD * SVERDHYLL_BLOCK;
    for (size_t block = 0; block < size / SVERDHYLL_BLOCK; block++) {
        memcpy(file + SVERDHYLL_BLOCK * block, payload + SVERDHYLL_PAYLOAD * block, SVERDHYLL_PAYLOAD);
        seal(block);
    }
}

/* Sets the list of a function. */
static inline void list(size_t function, const uint16_t *rules, size_t count)
{
    lists[function] = (struct rules){rules, count};
}

/* Makes the payload of two texts and the lists that were set. */
static inline void lay(const char *script, size_t script_size, const char *response, size_t response_size)
{
    paid = 0;
    put(script_size, 4);
    put(response_size, 4);
    for (size_t k = 0; k < SVERDHYLL_MOST_FUNCTIONS; k++) put(lists[k].count, 2);
    for (size_t i = 0; i < script_size; i++) put((uint8_t)script[i], 1);
    for (size_t i = 0; i < response_size; i++) put((uint8_t)response[i], 1);
    for (size_t k = 0; k < SVERDHYLL_MOST_FUNCTIONS; k++)
        for (size_t i = 0; i < lists[k].count; i++) put(lists[k].rules[i], 2);
}

/* Makes the file of two texts, the list of the first function being this one and the others empty. */
static inline void make(const char *script, const char *response, const uint16_t *rules, size_t count)
{
    memset(lists, 0, sizeof lists);
    list(0, rules, count);
    lay(script, strlen(script), response, strlen(response));
    cut();
}

/* The most rules that a list can have: 16 for each of 256 nodes. */
enum { LONGEST = CHAIN * (MOST_OPERANDS + 1), NUMBERED = 65535 };

/* A script and a response whose one function has a list of so many rules, and the list, with more rules behind it. */
static struct text chain_script, chain_response;
static uint16_t chain_rules[NUMBERED];

/* Makes these. */
static inline void make_chain(void)
{
    chain_script.size = chain_script.words = chain_response.size = chain_response.words = 0;
    add(&chain_script, "(set-logic BV)(define-fun t () Bool true)");
    add(&chain_response, "(");
    add_chain(&chain_script, &chain_response, "f", MOST_OPERANDS);
    add(&chain_script, "(check-synth)");
    add(&chain_response, ")");
    for (size_t i = 0; i < NUMBERED; i++) chain_rules[i] = i == CHAIN - 1 ? CHAIN : i % CHAIN;
}

#endif
