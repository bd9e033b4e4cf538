/*
 * Parts that are lent to a call, each in an allocation of exactly its size, so that valgrind and the sanitizers see a step past its end. A part keeps a copy
 * of what it held before the call; afterwards every byte is held to what the promise says.
 */
#ifndef LENT_H
#define LENT_H

#include "biscuit.h"

#include <stdio.h>
#include <stdlib.h>
#include <string.h>

struct part {
    uint8_t *bytes, *before;
    size_t size;
};

static unsigned failures, cases;
static char naming[80];

/* Names the cases that follow. */
static inline void name_case(size_t set, const char *call)
{
    sprintf(naming, "set %lu, %s", (unsigned long)set, call);
}

/* Whether fault number `fault` is there in the case: alone, or with all above it. */
static inline int wrong(unsigned fault, unsigned lowest, int alone)
{
    return alone ? fault == lowest : fault >= lowest && lowest != 0;
}

static inline void expect(int holds, const char *what, unsigned long number)
{
    if (!holds) {
        failures++;
        printf("%s: %s (%lu)\n", naming, what, number);
    }
}

static inline void *room(size_t size)
{
    void *bytes = malloc(size ? size : 1);
    if (!bytes) {
        printf("no memory\n");
        exit(2);
    }
    return bytes;
}

/* A part of so many bytes that holds `from` first, as far as there is room, and a pattern behind it. */
static inline struct part lend(const uint8_t *from, size_t from_size, size_t size)
{
    struct part part;
    size_t i;
    part.bytes = (uint8_t *)room(size);
    part.before = (uint8_t *)room(size);
    part.size = size;
    for (i = 0; i < size; i++)
        part.bytes[i] = i < from_size ? from[i] : (uint8_t)(0xa5 ^ (i * 29));
    if (size)
        memcpy(part.before, part.bytes, size);
    return part;
}

/* Turns over one bit before the call. */
static inline void damage(struct part *part, size_t at)
{
    part->bytes[at] ^= 1;
    part->before[at] ^= 1;
}

static inline void give_back(struct part *part)
{
    free(part->bytes);
    free(part->before);
}

/* Whether the part is as it was, from a place on. */
static inline int kept(const struct part *part, size_t from)
{
    return from >= part->size || memcmp(part->bytes + from, part->before + from, part->size - from) == 0;
}

/* After 0 an output holds the result first and keeps its later bytes; otherwise it keeps all. */
static inline void expect_output(uint8_t answer, const struct part *output, const uint8_t *result, size_t size)
{
    if (answer != BISCUIT_DONE) {
        expect(kept(output, 0), "a refusal changed an output", answer);
        return;
    }
    expect(output->size >= size && memcmp(output->bytes, result, size) == 0, "an output does not hold the result", answer);
    expect(kept(output, size), "bytes behind the result changed", answer);
}

/* After 0, 8 and 9 work has its first bytes zero and keeps the rest; otherwise it keeps all. */
static inline void expect_work(uint8_t answer, const struct part *work)
{
    size_t i, zeros = 0;
    if (answer != BISCUIT_DONE && answer != BISCUIT_KEY_NOT_CONSISTENT && answer != BISCUIT_NOT_ACCEPTED) {
        expect(kept(work, 0), "a refusal changed work", answer);
        return;
    }
    for (i = 0; i < BISCUIT_WORK_SIZE && i < work->size; i++)
        zeros += work->bytes[i] == 0;
    expect(zeros == BISCUIT_WORK_SIZE, "work is not cleared", answer);
    expect(kept(work, BISCUIT_WORK_SIZE), "bytes behind work changed", answer);
}

static inline void expect_answer(uint8_t answer, unsigned right)
{
    cases++;
    if (answer != right) {
        failures++;
        printf("%s: answers %u (%s), and %u is right (%s)\n", naming, answer, biscuit_words(answer), right, biscuit_words(right));
    }
}

#endif
