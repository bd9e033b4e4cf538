/*
 * Calls every function of biscuit.h with wrong sizes and with right ones, and holds the answer and every lent byte to the promise. For each number that a call
 * can refuse with there are two cases: that fault alone, and that fault with every fault of a higher number beside it.
 */
#include "lent.h"

/* The keys and the signature of a set, from fixed seeds. */
struct genuine {
    size_t set;
    struct biscuit_sizes size;
    uint8_t circuit_seed[BISCUIT_LARGEST_SEED_SIZE], secret_seed[BISCUIT_LARGEST_SEED_SIZE];
    uint8_t secret_key[BISCUIT_LARGEST_SECRET_KEY_SIZE], public_key[BISCUIT_LARGEST_PUBLIC_KEY_SIZE];
    uint8_t signature[BISCUIT_LARGEST_SIGNATURE_SIZE];
};

static const uint8_t MESSAGE[] = "take 3";
static const size_t NO_SETS[] = {0, 7, 8, 255, 257, 65537, (size_t)-1};

static size_t short_of(size_t size, int is_short)
{
    return is_short ? size - 1 : size + 3;
}

static void make_keys(const struct genuine *g, unsigned lowest, int alone, size_t set)
{
    int two = wrong(2, lowest, alone), six = wrong(6, lowest, alone);
    struct part circuit = lend(g->circuit_seed, g->size.seed, g->size.seed - (size_t)(two && alone));
    struct part secret = lend(g->secret_seed, g->size.seed, g->size.seed + (size_t)(two && !alone));
    struct part secret_key = lend(NULL, 0, short_of(g->size.secret_key, six && alone));
    struct part public_key = lend(NULL, 0, short_of(g->size.public_key, six && !alone));
    struct part work = lend(NULL, 0, short_of(BISCUIT_WORK_SIZE, wrong(7, lowest, alone)));
    uint8_t answer = biscuit_make_keys(set, circuit.bytes, circuit.size, secret.bytes, secret.size, secret_key.bytes, secret_key.size,
                                       public_key.bytes, public_key.size, work.bytes, work.size);
    expect_answer(answer, lowest);
    expect_output(answer, &secret_key, g->secret_key, g->size.secret_key);
    expect_output(answer, &public_key, g->public_key, g->size.public_key);
    expect_work(answer, &work);
    expect(kept(&circuit, 0) && kept(&secret, 0), "an input changed", answer);
    give_back(&circuit); give_back(&secret); give_back(&secret_key); give_back(&public_key); give_back(&work);
}

static void public_half(const struct genuine *g, unsigned lowest, int alone, size_t set)
{
    struct part secret_key = lend(g->secret_key, g->size.secret_key, g->size.secret_key + (size_t)wrong(4, lowest, alone));
    struct part public_key = lend(NULL, 0, short_of(g->size.public_key, wrong(6, lowest, alone)));
    struct part work = lend(NULL, 0, short_of(BISCUIT_WORK_SIZE, wrong(7, lowest, alone)));
    uint8_t answer;
    if (wrong(8, lowest, alone))
        damage(&secret_key, g->size.seed);
    answer = biscuit_public_half(set, secret_key.bytes, secret_key.size, public_key.bytes, public_key.size, work.bytes, work.size);
    expect_answer(answer, lowest);
    expect_output(answer, &public_key, g->public_key, g->size.public_key);
    expect_work(answer, &work);
    expect(kept(&secret_key, 0), "an input changed", answer);
    give_back(&secret_key); give_back(&public_key); give_back(&work);
}

static void sign(const struct genuine *g, unsigned lowest, int alone, size_t set)
{
    struct part secret_key = lend(g->secret_key, g->size.secret_key, g->size.secret_key - (size_t)wrong(4, lowest, alone));
    struct part message = lend(MESSAGE, sizeof MESSAGE, wrong(3, lowest, alone) ? BISCUIT_MESSAGE_LIMIT + 1 : sizeof MESSAGE);
    struct part random = lend(NULL, 0, wrong(2, lowest, alone) ? g->size.random - 1 : 0);
    struct part signature = lend(NULL, 0, short_of(g->size.signature, wrong(6, lowest, alone)));
    struct part work = lend(NULL, 0, short_of(BISCUIT_WORK_SIZE, wrong(7, lowest, alone)));
    uint8_t answer;
    if (wrong(8, lowest, alone))
        damage(&secret_key, 0);
    answer = biscuit_sign(set, secret_key.bytes, secret_key.size, message.bytes, message.size, random.size ? random.bytes : NULL, random.size,
                          signature.bytes, signature.size, work.bytes, work.size);
    expect_answer(answer, lowest);
    expect_output(answer, &signature, g->signature, g->size.signature);
    expect_work(answer, &work);
    expect(kept(&secret_key, 0) && kept(&message, 0) && kept(&random, 0), "an input changed", answer);
    give_back(&secret_key); give_back(&message); give_back(&random); give_back(&signature); give_back(&work);
}

static void verify(const struct genuine *g, unsigned lowest, int alone, size_t set)
{
    struct part public_key = lend(g->public_key, g->size.public_key, g->size.public_key + (size_t)wrong(4, lowest, alone));
    struct part message = lend(MESSAGE, sizeof MESSAGE, wrong(3, lowest, alone) ? BISCUIT_MESSAGE_LIMIT + 1 : sizeof MESSAGE);
    struct part signature = lend(g->signature, g->size.signature, g->size.signature - (size_t)wrong(5, lowest, alone));
    struct part work = lend(NULL, 0, short_of(BISCUIT_WORK_SIZE, wrong(7, lowest, alone)));
    uint8_t answer;
    if (wrong(9, lowest, alone))
        damage(&signature, signature.size / 2);
    answer = biscuit_verify(set, public_key.bytes, public_key.size, message.bytes, message.size, signature.bytes, signature.size, work.bytes, work.size);
    expect_answer(answer, lowest);
    expect_work(answer, &work);
    expect(kept(&public_key, 0) && kept(&message, 0) && kept(&signature, 0), "an input changed", answer);
    give_back(&public_key); give_back(&message); give_back(&signature); give_back(&work);
}

/* One call: first every refusal, ending in 0, then the set's numbers that are none. `refusals` ends in 0. */
static void every_case(const struct genuine *g, const char *name, void (*call)(const struct genuine *, unsigned, int, size_t), const unsigned *refusals)
{
    size_t i;
    name_case(g->set, name);
    for (i = 0; i < sizeof NO_SETS / sizeof *NO_SETS; i++) {
        call(g, BISCUIT_NO_SUCH_SET, 1, NO_SETS[i]);
        call(g, BISCUIT_NO_SUCH_SET, 0, NO_SETS[i]);
    }
    for (; *refusals; refusals++) {
        call(g, *refusals, 1, g->set);
        call(g, *refusals, 0, g->set);
    }
    call(g, 0, 1, g->set);
}

/* Makes what the cases start from, in parts of exactly the right size. */
static void make_genuine(struct genuine *g, size_t set, uint8_t *work)
{
    memset(g->circuit_seed, (int)set, sizeof g->circuit_seed);
    memset(g->secret_seed, (int)set + 100, sizeof g->secret_seed);
    g->set = set;
    g->size = biscuit_sizes_of(set);
    name_case(set, "what the cases start from");
    expect_answer(biscuit_make_keys(set, g->circuit_seed, g->size.seed, g->secret_seed, g->size.seed, g->secret_key, g->size.secret_key,
                                    g->public_key, g->size.public_key, work, BISCUIT_WORK_SIZE), 0);
    expect_answer(biscuit_sign(set, g->secret_key, g->size.secret_key, MESSAGE, sizeof MESSAGE, NULL, 0, g->signature, g->size.signature,
                               work, BISCUIT_WORK_SIZE), 0);
}

/* Messages of no bytes and of the most, with random bytes: signed, accepted, and refused for another message. */
static void messages(const struct genuine *g, uint8_t *work)
{
    struct part random = lend(NULL, 0, g->size.random), signature = lend(NULL, 0, g->size.signature), longest = lend(NULL, 0, BISCUIT_MESSAGE_LIMIT);
    size_t sizes[2] = {0, BISCUIT_MESSAGE_LIMIT};
    int i;
    name_case(g->set, "shortest and longest message");
    for (i = 0; i < 2; i++) {
        const uint8_t *message = sizes[i] ? longest.bytes : NULL;
        expect_answer(biscuit_sign(g->set, g->secret_key, g->size.secret_key, message, sizes[i], random.bytes, random.size, signature.bytes,
                                   signature.size, work, BISCUIT_WORK_SIZE), 0);
        expect_answer(biscuit_verify(g->set, g->public_key, g->size.public_key, message, sizes[i], signature.bytes, signature.size, work, BISCUIT_WORK_SIZE), 0);
        expect_answer(biscuit_verify(g->set, g->public_key, g->size.public_key, MESSAGE, 1, signature.bytes, signature.size, work, BISCUIT_WORK_SIZE), 9);
    }
    give_back(&random); give_back(&signature); give_back(&longest);
}

/* Random bytes are taken where they are none or as many as the header says, and every other number up to one more is refused. */
static void random_bytes(const struct genuine *g, uint8_t *work)
{
    struct part signature = lend(NULL, 0, g->size.signature);
    size_t size;
    name_case(g->set, "random bytes");
    for (size = 0; size <= g->size.random + 1; size++) {
        struct part random = lend(NULL, 0, size);
        int right = size == 0 || size == g->size.random;
        expect_answer(biscuit_sign(g->set, g->secret_key, g->size.secret_key, MESSAGE, sizeof MESSAGE, random.bytes, random.size, signature.bytes,
                                   signature.size, work, BISCUIT_WORK_SIZE), right ? BISCUIT_DONE : BISCUIT_SEED_OR_RANDOM_LENGTH);
        give_back(&random);
    }
    expect(memcmp(signature.bytes, g->signature, signature.size) != 0, "random bytes make no other signature", g->set);
    give_back(&signature);
}

/* The four bits behind an odd last element of a key are written as 0, and read as if they were; a secret key's go into its signatures. */
static void unused_bits(const struct genuine *g, uint8_t *work)
{
    int public_odd = g->set <= 2 || g->set >= 5;
    struct part public_key = lend(g->public_key, g->size.public_key, g->size.public_key);
    struct part secret_key = lend(g->secret_key, g->size.secret_key, g->size.secret_key);
    struct part signature = lend(NULL, 0, g->size.signature);
    uint8_t *last = public_odd ? public_key.bytes + public_key.size - 1 : secret_key.bytes + secret_key.size - 1;
    name_case(g->set, "unused bits");
    expect(*last >> 4 == 0, "unused bits are written as others than 0", *last);
    *last |= 0xf0;
    expect_answer(biscuit_sign(g->set, secret_key.bytes, secret_key.size, MESSAGE, sizeof MESSAGE, NULL, 0, signature.bytes, signature.size,
                               work, BISCUIT_WORK_SIZE), 0);
    expect((memcmp(signature.bytes, g->signature, signature.size) == 0) == public_odd, "the secret key's bytes are not signed as given", g->set);
    expect_answer(biscuit_verify(g->set, public_key.bytes, public_key.size, MESSAGE, sizeof MESSAGE, signature.bytes, signature.size,
                                 work, BISCUIT_WORK_SIZE), 0);
    expect_answer(biscuit_public_half(g->set, secret_key.bytes, secret_key.size, public_key.bytes, public_key.size, work, BISCUIT_WORK_SIZE), 0);
    expect(memcmp(public_key.bytes, g->public_key, public_key.size) == 0, "another public half", g->set);
    give_back(&public_key); give_back(&secret_key); give_back(&signature);
}

/* The keys of a set work in the other set of its strength too. */
static void other_set(const struct genuine *g, uint8_t *work)
{
    size_t other = g->set % 2 ? g->set + 1 : g->set - 1;
    struct part signature = lend(NULL, 0, biscuit_sizes_of(other).signature);
    name_case(g->set, "keys in the other set of the strength");
    expect_answer(biscuit_sign(other, g->secret_key, g->size.secret_key, MESSAGE, sizeof MESSAGE, NULL, 0, signature.bytes, signature.size,
                               work, BISCUIT_WORK_SIZE), 0);
    expect_answer(biscuit_verify(other, g->public_key, g->size.public_key, MESSAGE, sizeof MESSAGE, signature.bytes, signature.size,
                                 work, BISCUIT_WORK_SIZE), 0);
    give_back(&signature);
}

/* What the header works out by itself: room for every set, the sizes of no set and of no envelope, and clearing. */
static void header(void)
{
    struct biscuit_sizes largest = biscuit_sizes_of(BISCUIT_256F);
    struct part cleared = lend(NULL, 0, 9);
    size_t set, i, zeros = 0;
    name_case(0, "header");
    for (set = BISCUIT_128S; set <= BISCUIT_256F; set++) {
        struct biscuit_sizes size = biscuit_sizes_of(set);
        expect(size.seed <= BISCUIT_LARGEST_SEED_SIZE && size.secret_key <= BISCUIT_LARGEST_SECRET_KEY_SIZE && size.public_key <= BISCUIT_LARGEST_PUBLIC_KEY_SIZE
               && size.signature <= BISCUIT_LARGEST_SIGNATURE_SIZE && size.random <= BISCUIT_LARGEST_RANDOM_SIZE, "larger than the largest", set);
    }
    expect(largest.seed == BISCUIT_LARGEST_SEED_SIZE && largest.secret_key == BISCUIT_LARGEST_SECRET_KEY_SIZE && largest.public_key == BISCUIT_LARGEST_PUBLIC_KEY_SIZE
           && largest.signature == BISCUIT_LARGEST_SIGNATURE_SIZE && largest.random == BISCUIT_LARGEST_RANDOM_SIZE, "the largest is another", 0);
    expect(biscuit_envelope_size(BISCUIT_256F, BISCUIT_MESSAGE_LIMIT) == BISCUIT_LARGEST_ENVELOPE_SIZE, "the largest envelope is another", 0);
    expect(biscuit_sizes_of(0).seed == 0 && biscuit_sizes_of(7).signature == 0 && biscuit_sizes_of((size_t)-1).random == 0, "sizes of no set", 0);
    expect(biscuit_envelope_size(0, 1) == 0 && biscuit_envelope_size(7, 1) == 0, "an envelope of no set", 0);
    expect(biscuit_envelope_size(BISCUIT_128S, BISCUIT_MESSAGE_LIMIT + 1) == 0 && biscuit_envelope_size(BISCUIT_128S, (size_t)-1) == 0, "an envelope that is too long", 0);
    biscuit_clear(cleared.bytes, 7);
    for (i = 0; i < 7; i++)
        zeros += cleared.bytes[i] == 0;
    expect(zeros == 7 && kept(&cleared, 7), "other bytes are cleared", zeros);
    cases += 12;
    give_back(&cleared);
}

/* SHAKE256 of no bytes, as published (the first 32 bytes), and output of no bytes. */
static void shake256(void)
{
    static const uint8_t published[] = {0x46, 0xb9, 0xdd, 0x2b, 0x0b, 0xa8, 0x8d, 0x13, 0x23, 0x3b, 0x3f, 0xeb, 0x74, 0x3e, 0xeb, 0x24,
                                        0x3f, 0xcd, 0x52, 0xea, 0x62, 0xb8, 0x1b, 0x82, 0xb5, 0x0c, 0x27, 0x64, 0x6e, 0xd5, 0x76, 0x2f};
    uint8_t out[sizeof published];
    biscuit_shake256(NULL, 0, out, sizeof out);
    expect(memcmp(out, published, sizeof out) == 0, "SHAKE256 of no bytes is not the published one", 0);
    biscuit_shake256(MESSAGE, sizeof MESSAGE, NULL, 0);
    cases += 2;
}

int main(void)
{
    static const unsigned keys_refuse[] = {BISCUIT_SEED_OR_RANDOM_LENGTH, BISCUIT_OUTPUT_TOO_SHORT, BISCUIT_WORK_TOO_SHORT, 0};
    static const unsigned half_refuses[] = {BISCUIT_KEY_LENGTH, BISCUIT_OUTPUT_TOO_SHORT, BISCUIT_WORK_TOO_SHORT, BISCUIT_KEY_NOT_CONSISTENT, 0};
    static const unsigned sign_refuses[] = {BISCUIT_SEED_OR_RANDOM_LENGTH, BISCUIT_MESSAGE_TOO_LONG, BISCUIT_KEY_LENGTH, BISCUIT_OUTPUT_TOO_SHORT,
                                            BISCUIT_WORK_TOO_SHORT, BISCUIT_KEY_NOT_CONSISTENT, 0};
    static const unsigned verify_refuses[] = {BISCUIT_MESSAGE_TOO_LONG, BISCUIT_KEY_LENGTH, BISCUIT_SIGNATURE_LENGTH, BISCUIT_WORK_TOO_SHORT, BISCUIT_NOT_ACCEPTED, 0};
    static struct genuine g;
    uint8_t *work = (uint8_t *)room(BISCUIT_WORK_SIZE);
    size_t set;
    for (set = BISCUIT_128S; set <= BISCUIT_256F; set++) {
        unsigned before = cases;
        make_genuine(&g, set, work);
        every_case(&g, "make keys", make_keys, keys_refuse);
        every_case(&g, "public half", public_half, half_refuses);
        every_case(&g, "sign", sign, sign_refuses);
        every_case(&g, "verify", verify, verify_refuses);
        messages(&g, work);
        random_bytes(&g, work);
        unused_bits(&g, work);
        other_set(&g, work);
        printf("set %lu: %u cases\n", (unsigned long)set, cases - before);
    }
    header();
    shake256();
    free(work);
    printf("%u cases, %u failures\n", cases, failures);
    return failures != 0;
}
