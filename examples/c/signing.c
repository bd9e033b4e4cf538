/*
 * Makes a key pair, signs a message and verifies it, and shows three refusals. Compile it from the top of the repository, once `bench/archive desk` has made the library:
 *
 *     cc -std=c99 -Iinclude examples/c/signing.c target/bench/libdesk.a -o target/signing
 */
#include "biscuit.h"

#include <stdio.h>

static void say(const char *what, uint8_t answer)
{
    printf("%s: %u, %s\n", what, answer, biscuit_words(answer));
}

int main(void)
{
    /* The circuit seed is public. In a real program the secret seed and the random bytes are bytes that nobody can foretell, as from /dev/urandom. Here they are
       fixed, so that the example always does the same. */
    static const uint8_t circuit_seed[BISCUIT_128F_SEED_SIZE] = {1}, secret_seed[BISCUIT_128F_SEED_SIZE] = {2}, random_bytes[BISCUIT_128F_RANDOM_SIZE] = {3};
    static const uint8_t message[] = "Good evening.";
    static uint8_t secret_key[BISCUIT_128F_SECRET_KEY_SIZE], public_key[BISCUIT_128F_PUBLIC_KEY_SIZE];
    static uint8_t signature[BISCUIT_128F_SIGNATURE_SIZE], work[BISCUIT_WORK_SIZE];
    const size_t message_size = sizeof message - 1;
    uint8_t answer;

    answer = biscuit_make_keys(BISCUIT_128F, circuit_seed, sizeof circuit_seed, secret_seed, sizeof secret_seed, secret_key, sizeof secret_key,
                               public_key, sizeof public_key, work, sizeof work);
    say("make keys", answer);
    if (answer != BISCUIT_DONE)
        return 1;

    answer = biscuit_sign(BISCUIT_128F, secret_key, sizeof secret_key, message, message_size, random_bytes, sizeof random_bytes - 1,
                          signature, sizeof signature, work, sizeof work);
    say("sign with a random byte too few", answer);
    /* NULL and 0 in the place of random bytes lend none: the same key and message then always give the same signature. */
    answer = biscuit_sign(BISCUIT_128F, secret_key, sizeof secret_key, message, message_size, random_bytes, sizeof random_bytes,
                          signature, sizeof signature, work, sizeof work);
    biscuit_clear(secret_key, sizeof secret_key);
    say("sign", answer);
    if (answer != BISCUIT_DONE)
        return 1;

    answer = biscuit_verify(BISCUIT_128F, public_key, sizeof public_key, message, message_size, signature, sizeof signature, work, sizeof work);
    say("verify", answer);
    if (answer != BISCUIT_DONE)
        return 1;

    answer = biscuit_verify(BISCUIT_128F, public_key, sizeof public_key, message, message_size - 1, signature, sizeof signature, work, sizeof work);
    say("verify without the full stop", answer);
    answer = biscuit_verify(BISCUIT_128S, public_key, sizeof public_key, message, message_size, signature, sizeof signature, work, sizeof work);
    say("verify as another set", answer);
    return 0;
}
