/*
 * Writes envelopes with wrong sizes and with right ones, and reads envelopes that are cut, too long or wrong in their header. The answer, every lent byte and the parts that are handed back are held to the promise.
 */
#include "lent.h"

static const uint8_t MESSAGE[] = "take 3";

/* One call of envelope_write, with the faults of the case; what it writes is put together here by hand. */
static void write_one(size_t set, struct biscuit_sizes size, unsigned lowest, int alone, size_t given)
{
    struct part public_key = lend(NULL, 0, size.public_key + (size_t)wrong(4, lowest, alone));
    struct part signature = lend(NULL, 0, size.signature - (size_t)wrong(5, lowest, alone));
    struct part message = lend(MESSAGE, sizeof MESSAGE, wrong(3, lowest, alone) ? BISCUIT_MESSAGE_LIMIT + 1 : sizeof MESSAGE);
    size_t whole = BISCUIT_HEADER_SIZE + public_key.size + signature.size + message.size;
    struct part envelope = lend(NULL, 0, wrong(6, lowest, alone) ? whole - 1 : whole + 5);
    uint8_t *right = (uint8_t *)room(whole), answer;
    right[0] = (uint8_t)(0x10 + set);
    right[1] = (uint8_t)(message.size / 256);
    right[2] = (uint8_t)(message.size % 256);
    memcpy(right + 3, public_key.bytes, public_key.size);
    memcpy(right + 3 + public_key.size, signature.bytes, signature.size);
    memcpy(right + 3 + public_key.size + signature.size, message.bytes, message.size);
    answer = envelope_write(given, public_key.bytes, public_key.size, signature.bytes, signature.size, message.bytes, message.size, envelope.bytes, envelope.size);
    expect_answer(answer, lowest);
    expect_output(answer, &envelope, right, whole);
    expect(answer != BISCUIT_DONE || whole == biscuit_envelope_size(set, message.size), "the envelope's size is another", answer);
    expect(kept(&public_key, 0) && kept(&signature, 0) && kept(&message, 0), "an input changed", answer);
    free(right);
    give_back(&public_key); give_back(&signature); give_back(&message); give_back(&envelope);
}

/* Reads so many bytes that start with these three; header and parts have to be what the sizes say, or all 0 and empty at the start. */
static void read_one(unsigned first, unsigned second, unsigned third, size_t total, unsigned right)
{
    uint8_t header[3];
    struct part envelope;
    struct biscuit_parts parts;
    struct biscuit_header says;
    struct biscuit_sizes size = biscuit_sizes_of(right ? 0 : first % 16);
    size_t key_at = right ? 0 : BISCUIT_HEADER_SIZE, signature_at = key_at + size.public_key, message_at = signature_at + size.signature;
    uint8_t answer;
    header[0] = (uint8_t)first, header[1] = (uint8_t)second, header[2] = (uint8_t)third;
    envelope = lend(header, sizeof header, total);
    memset(&parts, 0xa5, sizeof parts);
    answer = biscuit_parts_of(envelope.bytes, envelope.size, &parts);
    expect_answer(answer, right);
    expect(kept(&envelope, 0), "an input changed", answer);
    says = envelope_header(envelope.bytes, envelope.size);
    expect(says.version == (right ? 0 : 1) && says.length == (right ? 0 : second * 256 + third), "another version or length", answer);
    expect(says.set == (right ? 0 : first % 16) && parts.set == says.set, "another set", answer);
    expect(parts.public_key == envelope.bytes + key_at && parts.public_key_size == size.public_key, "the public key is another part", answer);
    expect(parts.signature == envelope.bytes + signature_at && parts.signature_size == size.signature, "the signature is another part", answer);
    expect(parts.message == envelope.bytes + message_at && parts.message_size == (right ? 0 : total - message_at), "the message is another part", answer);
    give_back(&envelope);
}

static void writing(size_t set)
{
    static const unsigned refusals[] = {BISCUIT_MESSAGE_TOO_LONG, BISCUIT_KEY_LENGTH, BISCUIT_SIGNATURE_LENGTH, BISCUIT_OUTPUT_TOO_SHORT};
    static const size_t no_sets[] = {0, 7, 8, 16, 17, 257, (size_t)-1};
    struct biscuit_sizes size = biscuit_sizes_of(set);
    size_t i;
    name_case(set, "write");
    for (i = 0; i < sizeof no_sets / sizeof *no_sets; i++) {
        write_one(set, size, BISCUIT_NO_SUCH_SET, 1, no_sets[i]);
        write_one(set, size, BISCUIT_NO_SUCH_SET, 0, no_sets[i]);
    }
    for (i = 0; i < sizeof refusals / sizeof *refusals; i++) {
        write_one(set, size, refusals[i], 1, set);
        write_one(set, size, refusals[i], 0, set);
    }
    write_one(set, size, 0, 1, set);
}

static void reading(size_t set)
{
    struct biscuit_sizes size = biscuit_sizes_of(set);
    size_t empty = BISCUIT_HEADER_SIZE + size.public_key + size.signature;
    unsigned first = 0x10 + (unsigned)set;
    name_case(set, "read");
    read_one(first, 0, 0, empty - 1, BISCUIT_ENVELOPE_LENGTH);
    read_one(first, 0, 0, empty, BISCUIT_DONE);
    read_one(first, 0, 0, empty + 1, BISCUIT_ENVELOPE_LENGTH);
    read_one(first, 1, 2, empty + 258, BISCUIT_DONE);
    read_one(first, 2, 1, empty + 258, BISCUIT_ENVELOPE_LENGTH);
    read_one(first, 0x80, 0, empty + 32767, BISCUIT_ENVELOPE_LENGTH);
    read_one(first, 0x80, 0, empty + 32768, BISCUIT_DONE);
    read_one(first, 0x80, 1, empty + 32769, BISCUIT_MESSAGE_TOO_LONG);
    read_one(first, 0xff, 0xff, 3, BISCUIT_MESSAGE_TOO_LONG);
    read_one(first, 0, 0, 3, BISCUIT_ENVELOPE_LENGTH);
    read_one(first + 0x10, 0, 0, empty, BISCUIT_ENVELOPE_VERSION);
    read_one(first - 0x10, 0xff, 0xff, 3, BISCUIT_ENVELOPE_VERSION);
}

static void no_envelopes(void)
{
    struct biscuit_parts parts;
    size_t total;
    unsigned set;
    name_case(0, "read");
    expect_answer(biscuit_parts_of(NULL, 0, &parts), BISCUIT_ENVELOPE_LENGTH);
    expect(parts.set == 0 && parts.public_key == NULL && parts.message == NULL && parts.message_size == 0, "parts of nothing", 0);
    for (total = 0; total < 3; total++) {
        read_one(0x12, 0, 0, total, BISCUIT_ENVELOPE_LENGTH);
        read_one(0x20, 0, 0, total, BISCUIT_ENVELOPE_LENGTH);
    }
    for (set = 7; set < 16; set++)
        read_one(0x10 + set, 0xff, 0xff, 3, BISCUIT_NO_SUCH_SET);
    read_one(0x10, 0, 0, 6779, BISCUIT_NO_SUCH_SET);
    read_one(0x00, 0, 0, 6779, BISCUIT_ENVELOPE_VERSION);
}

int main(void)
{
    size_t set;
    no_envelopes();
    for (set = BISCUIT_128S; set <= BISCUIT_256F; set++) {
        writing(set);
        reading(set);
    }
    printf("%u cases, %u failures\n", cases, failures);
    return failures != 0;
}
