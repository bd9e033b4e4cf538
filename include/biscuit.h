/*
 * The signing desk for programs in C and C++: the calls of the proved static library libdesk.a, what each of them promises,
 * the sizes of the six sets, and the words of each answer. It wants C99 or C++.
 *
 * What holds for every call:
 *   - A part is lent as a pointer and its number of bytes. An output or work must not overlap any other part that is lent to the
 *     same call; inputs may overlap. A part of 0 bytes may have any pointer, also NULL. Inputs are not changed.
 *   - The answer of a call that gives a uint8_t is a number of the table below. Where several refusals apply, the lowest number is
 *     given; a call tests only what it has. envelope_read alone has an order of its own.
 *   - Answers 1 to 7, 10 and 11 change nothing. After 0, 8 and 9 the first BISCUIT_WORK_SIZE bytes of work are zero and its
 *     later bytes are as they were. After 8 and 9 no output has changed. After 0 an output holds the result first, and its later
 *     bytes are as they were.
 *   - What work held before does not matter, so one buffer serves many calls, one after another.
 *   - Nothing is allocated, nothing is kept from call to call, and no random number is drawn. Calls may run at the same time, each
 *     with its own work and outputs.
 *   - The stack that a call takes is at most 4 KB for biscuit_make_keys and biscuit_public_half, 72 KB for biscuit_sign and
 *     biscuit_verify, 1 KB for an envelope, as measured on x86-64 (docs/DECISIONS.md, "Stack"); bench/stack measures it on another
 *     machine. What was on it is not all cleared.
 *   - The four high bits behind an odd last element of a key mean nothing (the last byte of public keys of sets 1, 2, 5 and 6, and
 *     of secret keys of sets 3 and 4): the library writes them as 0 and ignores them in a key that it is lent. Salt and roots
 *     of a signature are hashed from the secret key's bytes as given, these bits included, so two keys that differ in them alone give
 *     two signatures.
 * The promises are proved of the libraries' calls (crates/desk, crates/shake). Sizes and numbers in this file are held to the calls
 * by tests/c/run, its words to those of the Rust crate by bindings/rust/tests/desk.rs.
 */
#ifndef BISCUIT_H
#define BISCUIT_H

#include <stddef.h>
#include <stdint.h>

#ifdef __cplusplus
extern "C" {
#endif

/* The six sets. A call takes the number as a size_t, so that no number is cut off before it is tested. */
enum biscuit_set {
    BISCUIT_128S = 1, BISCUIT_128F = 2,
    BISCUIT_192S = 3, BISCUIT_192F = 4,
    BISCUIT_256S = 5, BISCUIT_256F = 6
};

/* What the desk says. */
enum biscuit_answer {
    BISCUIT_DONE = 0,
    BISCUIT_NO_SUCH_SET = 1,
    BISCUIT_SEED_OR_RANDOM_LENGTH = 2,
    BISCUIT_MESSAGE_TOO_LONG = 3,
    BISCUIT_KEY_LENGTH = 4,
    BISCUIT_SIGNATURE_LENGTH = 5,
    BISCUIT_OUTPUT_TOO_SHORT = 6,
    BISCUIT_WORK_TOO_SHORT = 7,
    BISCUIT_KEY_NOT_CONSISTENT = 8,
    BISCUIT_NOT_ACCEPTED = 9,
    BISCUIT_ENVELOPE_LENGTH = 10,
    BISCUIT_ENVELOPE_VERSION = 11
};

/* The bytes of work that a call wants, the longest message, and the header of an envelope. */
#define BISCUIT_WORK_SIZE 65536u
#define BISCUIT_MESSAGE_LIMIT 32768u
#define BISCUIT_HEADER_SIZE 3u

/* Room that is enough for every set. */
#define BISCUIT_LARGEST_SEED_SIZE 32u
#define BISCUIT_LARGEST_SECRET_KEY_SIZE 212u
#define BISCUIT_LARGEST_PUBLIC_KEY_SIZE 93u
#define BISCUIT_LARGEST_SIGNATURE_SIZE 27348u
#define BISCUIT_LARGEST_RANDOM_SIZE 64u
#define BISCUIT_LARGEST_ENVELOPE_SIZE 60212u

/* The sizes of each set, in bytes. RANDOM_SIZE is what biscuit_sign takes where it is lent random bytes: that many, or none. */
#define BISCUIT_128S_SEED_SIZE 16u
#define BISCUIT_128S_SECRET_KEY_SIZE 115u
#define BISCUIT_128S_PUBLIC_KEY_SIZE 50u
#define BISCUIT_128S_SIGNATURE_SIZE 4758u
#define BISCUIT_128S_RANDOM_SIZE 32u
#define BISCUIT_128F_SEED_SIZE 16u
#define BISCUIT_128F_SECRET_KEY_SIZE 115u
#define BISCUIT_128F_PUBLIC_KEY_SIZE 50u
#define BISCUIT_128F_SIGNATURE_SIZE 6726u
#define BISCUIT_128F_RANDOM_SIZE 32u
#define BISCUIT_192S_SEED_SIZE 24u
#define BISCUIT_192S_SECRET_KEY_SIZE 158u
#define BISCUIT_192S_PUBLIC_KEY_SIZE 69u
#define BISCUIT_192S_SIGNATURE_SIZE 11349u
#define BISCUIT_192S_RANDOM_SIZE 48u
#define BISCUIT_192F_SEED_SIZE 24u
#define BISCUIT_192F_SECRET_KEY_SIZE 158u
#define BISCUIT_192F_PUBLIC_KEY_SIZE 69u
#define BISCUIT_192F_SIGNATURE_SIZE 15129u
#define BISCUIT_192F_RANDOM_SIZE 48u
#define BISCUIT_256S_SEED_SIZE 32u
#define BISCUIT_256S_SECRET_KEY_SIZE 212u
#define BISCUIT_256S_PUBLIC_KEY_SIZE 93u
#define BISCUIT_256S_SIGNATURE_SIZE 20192u
#define BISCUIT_256S_RANDOM_SIZE 64u
#define BISCUIT_256F_SEED_SIZE 32u
#define BISCUIT_256F_SECRET_KEY_SIZE 212u
#define BISCUIT_256F_PUBLIC_KEY_SIZE 93u
#define BISCUIT_256F_SIGNATURE_SIZE 27348u
#define BISCUIT_256F_RANDOM_SIZE 64u

/*
 * The same by the set's number: all 0 where there is no such set. S, in words, is the bytes of a seed: 16, 24 or 32. Random bytes
 * for signing number 0 or 2S, and `random` is 2S. The s and f sets of one strength have keys of the same form, so a key made for 128f
 * also works as one of 128s: what a key was made for is for the caller to know.
 */
struct biscuit_sizes { size_t seed, secret_key, public_key, signature, random; };

static inline struct biscuit_sizes biscuit_sizes_of(size_t set)
{
    static const struct biscuit_sizes sizes[] = {
        {0, 0, 0, 0, 0},
        {BISCUIT_128S_SEED_SIZE, BISCUIT_128S_SECRET_KEY_SIZE, BISCUIT_128S_PUBLIC_KEY_SIZE, BISCUIT_128S_SIGNATURE_SIZE,
         BISCUIT_128S_RANDOM_SIZE},
        {BISCUIT_128F_SEED_SIZE, BISCUIT_128F_SECRET_KEY_SIZE, BISCUIT_128F_PUBLIC_KEY_SIZE, BISCUIT_128F_SIGNATURE_SIZE,
         BISCUIT_128F_RANDOM_SIZE},
        {BISCUIT_192S_SEED_SIZE, BISCUIT_192S_SECRET_KEY_SIZE, BISCUIT_192S_PUBLIC_KEY_SIZE, BISCUIT_192S_SIGNATURE_SIZE,
         BISCUIT_192S_RANDOM_SIZE},
        {BISCUIT_192F_SEED_SIZE, BISCUIT_192F_SECRET_KEY_SIZE, BISCUIT_192F_PUBLIC_KEY_SIZE, BISCUIT_192F_SIGNATURE_SIZE,
         BISCUIT_192F_RANDOM_SIZE},
        {BISCUIT_256S_SEED_SIZE, BISCUIT_256S_SECRET_KEY_SIZE, BISCUIT_256S_PUBLIC_KEY_SIZE, BISCUIT_256S_SIGNATURE_SIZE,
         BISCUIT_256S_RANDOM_SIZE},
        {BISCUIT_256F_SEED_SIZE, BISCUIT_256F_SECRET_KEY_SIZE, BISCUIT_256F_PUBLIC_KEY_SIZE, BISCUIT_256F_SIGNATURE_SIZE,
         BISCUIT_256F_RANDOM_SIZE}
    };
    return sizes[set <= BISCUIT_256F ? set : 0];
}

/* The bytes of an envelope: 0 where there is no such set, or the message is over BISCUIT_MESSAGE_LIMIT. */
static inline size_t biscuit_envelope_size(size_t set, size_t message_size)
{
    struct biscuit_sizes sizes = biscuit_sizes_of(set);
    if (sizes.seed == 0 || message_size > BISCUIT_MESSAGE_LIMIT)
        return 0;
    return BISCUIT_HEADER_SIZE + sizes.public_key + sizes.signature + message_size;
}

/* Writes zeros that a compiler may not leave out, as over a secret key that is not needed any more. */
static inline void biscuit_clear(uint8_t *bytes, size_t size)
{
    volatile uint8_t *place = bytes;
    while (size-- > 0)
        *place++ = 0;
}

/* The words of an answer. */
static inline const char *biscuit_words(unsigned answer)
{
    switch (answer) {
    case BISCUIT_DONE: return "done or genuine";
    case BISCUIT_NO_SUCH_SET: return "set outside 1 to 6";
    case BISCUIT_SEED_OR_RANDOM_LENGTH: return "a key seed isn't S bytes, or random bytes are neither 0 nor 2S";
    case BISCUIT_MESSAGE_TOO_LONG: return "message over 32,768 bytes";
    case BISCUIT_KEY_LENGTH: return "key length wrong";
    case BISCUIT_SIGNATURE_LENGTH: return "signature length wrong";
    case BISCUIT_OUTPUT_TOO_SHORT: return "an output is shorter than the result";
    case BISCUIT_WORK_TOO_SHORT: return "work buffer under 65,536 bytes";
    case BISCUIT_KEY_NOT_CONSISTENT: return "secret key not consistent";
    case BISCUIT_NOT_ACCEPTED: return "verification doesn't accept";
    case BISCUIT_ENVELOPE_LENGTH: return "envelope under 3 bytes, or total length wrong";
    case BISCUIT_ENVELOPE_VERSION: return "envelope version isn't 1";
    default: return "no answer of the desk";
    }
}

/*
 * Makes a key pair from two seeds of S bytes: from the same seeds always the same pair. circuit_seed stands in both keys and so is
 * public; secret_seed is S bytes that nobody can foretell. Never lend the same bytes for both: the public key would show the secret
 * seed.
 *   1  set outside 1 to 6
 *   2  a seed isn't S bytes
 *   6  secret_key or public_key has less room than its key
 *   7  work under 65,536 bytes
 *   0  secret_key holds the secret key first, public_key the public key
 */
uint8_t biscuit_make_keys(size_t set,
                          const uint8_t *circuit_seed, size_t circuit_seed_size,
                          const uint8_t *secret_seed, size_t secret_seed_size,
                          uint8_t *secret_key, size_t secret_key_size,
                          uint8_t *public_key, size_t public_key_size,
                          uint8_t *work, size_t work_size);

/*
 * Gives the public half of a secret key.
 *   1  set outside 1 to 6
 *   4  secret_key has another length than a secret key
 *   6  public_key has less room than a public key
 *   7  work under 65,536 bytes
 *   8  the secret key is not consistent: its own circuit seed and s give other values than it holds
 *   0  public_key holds the public key first
 */
uint8_t biscuit_public_half(size_t set,
                            const uint8_t *secret_key, size_t secret_key_size,
                            uint8_t *public_key, size_t public_key_size,
                            uint8_t *work, size_t work_size);

/*
 * Signs a message. Random bytes are the caller's: 2S bytes (the set's RANDOM_SIZE) that nobody can foretell, or none at all, and then
 * the same key and message always give the same signature.
 *   1  set outside 1 to 6
 *   2  random bytes are neither 0 nor 2S
 *   3  message over 32,768 bytes
 *   4  secret_key has another length than a secret key
 *   6  signature has less room than a signature
 *   7  work under 65,536 bytes
 *   8  the secret key is not consistent
 *   0  signature holds the signature first; biscuit_verify accepts it under the public half of the key
 */
uint8_t biscuit_sign(size_t set,
                     const uint8_t *secret_key, size_t secret_key_size,
                     const uint8_t *message, size_t message_size,
                     const uint8_t *random, size_t random_size,
                     uint8_t *signature, size_t signature_size,
                     uint8_t *work, size_t work_size);

/*
 * Verifies a signature.
 *   1  set outside 1 to 6
 *   3  message over 32,768 bytes
 *   4  public_key has another length than a public key
 *   5  signature has another length than a signature
 *   7  work under 65,536 bytes
 *   9  the signature is not accepted
 *   0  genuine: the signature is accepted for this message under this key
 */
uint8_t biscuit_verify(size_t set,
                       const uint8_t *public_key, size_t public_key_size,
                       const uint8_t *message, size_t message_size,
                       const uint8_t *signature, size_t signature_size,
                       uint8_t *work, size_t work_size);

/*
 * Writes a clip envelope: a header of three bytes (version 1 in four bits, the set in four, the length of the message in
 * sixteen, most significant first), the public key, the signature, the message, and nothing after. What key and signature hold
 * is not looked at.
 *   1  set outside 1 to 6
 *   3  message over 32,768 bytes
 *   4  public_key has another length than a public key
 *   5  signature has another length than a signature
 *   6  envelope has less room than header, key, signature and message together
 *   0  envelope holds the envelope first
 */
uint8_t envelope_write(size_t set,
                       const uint8_t *public_key, size_t public_key_size,
                       const uint8_t *signature, size_t signature_size,
                       const uint8_t *message, size_t message_size,
                       uint8_t *envelope, size_t envelope_size);

/*
 * Reads a clip envelope. It tests in an order of its own, and whether the signature is genuine is for biscuit_verify to say. An
 * envelope carries its own key: that its signature is accepted under it says nothing of whose key it is. Verify under a key that you
 * trust.
 *   10  under 3 bytes
 *   11  version isn't 1
 *   1   set outside 1 to 6
 *   3   message over 32,768 bytes
 *   10  the total length is another than the header says
 *   0   header and places say what it holds and where
 */
uint8_t envelope_read(const uint8_t *envelope, size_t envelope_size);

/* The header of an envelope: its version, its set and the length of its message. All 0 where envelope_read refuses. */
struct biscuit_header { size_t version, set, length; };
struct biscuit_header envelope_header(const uint8_t *envelope, size_t envelope_size);

/* Where public key, signature and message begin in an envelope, and where the message ends. All 0 where envelope_read refuses. */
struct biscuit_places { size_t public_key, signature, message, end; };
struct biscuit_places envelope_places(const uint8_t *envelope, size_t envelope_size);

/*
 * The parts of an envelope as parts of the caller's own bytes. On refusal each is the part of length 0 at the start of the
 * envelope, and set is 0.
 */
struct biscuit_parts {
    size_t set;
    const uint8_t *public_key, *signature, *message;
    size_t public_key_size, signature_size, message_size;
};

/* The three calls together, with the parts in the place of numbers; answers what envelope_read answers. */
static inline uint8_t biscuit_parts_of(const uint8_t *envelope, size_t envelope_size, struct biscuit_parts *parts)
{
    uint8_t answer = envelope_read(envelope, envelope_size);
    struct biscuit_places places = envelope_places(envelope, envelope_size);
    parts->set = envelope_header(envelope, envelope_size).set;
    parts->public_key = answer == BISCUIT_DONE ? envelope + places.public_key : envelope;
    parts->public_key_size = places.signature - places.public_key;
    parts->signature = answer == BISCUIT_DONE ? envelope + places.signature : envelope;
    parts->signature_size = places.message - places.signature;
    parts->message = answer == BISCUIT_DONE ? envelope + places.message : envelope;
    parts->message_size = places.end - places.message;
    return answer;
}

/* Fills the whole of out with SHAKE256 of the message. In an archive of its own, libshake.a, which
 * bench/archive shake makes. */
void biscuit_shake256(const uint8_t *message, size_t message_size, uint8_t *out, size_t out_size);

#ifdef __cplusplus
}
#endif

#endif
