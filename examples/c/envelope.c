/*
 * Makes a key pair, signs a message into a clip envelope, reads the envelope and verifies it under the key that the reader knows, and shows what happens to one
 * that was damaged, cut, or signed with another key. Compile it from the top of the repository, once `bench/archive desk` has made the library:
 *
 *     cc -std=c99 -Iinclude examples/c/envelope.c target/bench/libdesk.a -o target/envelope
 */
#include "biscuit.h"

#include <stdio.h>

static uint8_t work[BISCUIT_WORK_SIZE];

/* A message signed with a key of its own, in an envelope. */
struct clip {
    uint8_t public_key[BISCUIT_128F_PUBLIC_KEY_SIZE], envelope[BISCUIT_LARGEST_ENVELOPE_SIZE];
    size_t size;
};

/* Makes a key pair of set 128f from a secret seed and signs the message into an envelope. */
static uint8_t record(struct clip *clip, const uint8_t *secret_seed, const uint8_t *message, size_t message_size)
{
    /* The circuit seed is public: it stands in both keys. */
    static const uint8_t circuit_seed[BISCUIT_128F_SEED_SIZE] = {1};
    static uint8_t secret_key[BISCUIT_128F_SECRET_KEY_SIZE], signature[BISCUIT_128F_SIGNATURE_SIZE];
    uint8_t answer = biscuit_make_keys(BISCUIT_128F, circuit_seed, sizeof circuit_seed, secret_seed, BISCUIT_128F_SEED_SIZE, secret_key, sizeof secret_key,
                                       clip->public_key, sizeof clip->public_key, work, sizeof work);
    if (answer == BISCUIT_DONE)
        answer = biscuit_sign(BISCUIT_128F, secret_key, sizeof secret_key, message, message_size, NULL, 0, signature, sizeof signature, work, sizeof work);
    biscuit_clear(secret_key, sizeof secret_key);
    if (answer == BISCUIT_DONE)
        answer = envelope_write(BISCUIT_128F, clip->public_key, sizeof clip->public_key, signature, sizeof signature, message, message_size,
                                clip->envelope, sizeof clip->envelope);
    clip->size = biscuit_envelope_size(BISCUIT_128F, message_size);
    return answer;
}

/* Reads an envelope and verifies it under a known key of set 128f, whatever key it carries. */
static uint8_t check(const uint8_t *known_key, const uint8_t *envelope, size_t size, struct biscuit_parts *parts)
{
    uint8_t answer = biscuit_parts_of(envelope, size, parts);
    if (answer != BISCUIT_DONE)
        return answer;
    return biscuit_verify(BISCUIT_128F, known_key, BISCUIT_128F_PUBLIC_KEY_SIZE, parts->message, parts->message_size, parts->signature, parts->signature_size,
                          work, sizeof work);
}

static void show(const char *what, const uint8_t *known_key, const uint8_t *envelope, size_t size)
{
    struct biscuit_parts parts;
    uint8_t answer = check(known_key, envelope, size, &parts);
    if (answer == BISCUIT_DONE)
        printf("%s: genuine %u %u: %.*s\n", what, (unsigned)parts.set, (unsigned)parts.message_size, (int)parts.message_size, (const char *)parts.message);
    else
        printf("%s: refused %u: %s\n", what, answer, biscuit_words(answer));
}

int main(void)
{
    /* In a real program a secret seed is S bytes that nobody can foretell, as from /dev/urandom. */
    static const uint8_t our_seed[BISCUIT_128F_SEED_SIZE] = {2}, foreign_seed[BISCUIT_128F_SEED_SIZE] = {3};
    static const uint8_t message[] = "Good evening.";
    static struct clip ours, foreign;
    uint8_t answer = record(&ours, our_seed, message, sizeof message - 1);
    if (answer == BISCUIT_DONE)
        answer = record(&foreign, foreign_seed, message, sizeof message - 1);
    if (answer != BISCUIT_DONE) {
        printf("no envelope: %u, %s\n", answer, biscuit_words(answer));
        return 1;
    }

    show("as it was written", ours.public_key, ours.envelope, ours.size);
    show("signed with another key", ours.public_key, foreign.envelope, foreign.size);
    ours.envelope[ours.size - 1] ^= 1;
    show("with one bit of the message changed", ours.public_key, ours.envelope, ours.size);
    ours.envelope[ours.size - 1] ^= 1;
    show("with the last byte missing", ours.public_key, ours.envelope, ours.size - 1);
    ours.envelope[0] = 0x22;
    show("as version 2", ours.public_key, ours.envelope, ours.size);
    return 0;
}
