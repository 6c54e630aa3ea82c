// Compares the library with OpenSSL's DES on random input: compare [SEED]

#include <inttypes.h>
#include <stdbool.h>
#include <stdio.h>
#include <stdlib.h>
#include <string.h>

#include <openssl/des.h>

uint64_t door_encipher(uint64_t key, uint64_t block);
uint64_t door_decipher(uint64_t key, uint64_t block);
uint8_t door_mode(uint8_t tag, uint64_t key, uint64_t *vector, const uint8_t *text,
                  size_t text_len, uint8_t *out, size_t out_len);
uint8_t door_fixity(uint64_t key, uint64_t vector, const uint8_t *record, size_t len,
                    uint64_t *value);

enum { ECBE = 0x0A, ECBD, CBCE, CBCD, CFBE, CFBD };
enum { DONE = 0, LENGTH_REFUSED = 12, OUT_REFUSED = 13, TAG_REFUSED = 16 };
enum { LONGEST = 32768, EDGE = 16, ROOM = LONGEST + 3 * EDGE };
enum { SHOWN = 10 };

// One call of door_mode. The text and the out both begin `lead` bytes into their
// buffers, so that odd addresses are tried too.
struct call {
    uint8_t tag;
    uint64_t key, vector;
    size_t text_len, out_len, lead;
};

struct result {
    uint8_t answer;
    uint64_t vector;
};

static uint64_t state;

// Refusals are counted apart, since OpenSSL has no part in them. The differences are
// those of both.
static unsigned long comparisons, refusals, differences;

// Both outs begin with the same random bytes. Each side writes its own, and then the
// two are compared from end to end, the bytes around the text included.
static uint8_t text[ROOM], out_door[ROOM], out_openssl[ROOM];

// The splitmix64 generator.
static uint64_t draw(void)
{
    uint64_t z = state += 0x9E3779B97F4A7C15;
    z = (z ^ (z >> 30)) * 0xBF58476D1CE4E5B9;
    z = (z ^ (z >> 27)) * 0x94D049BB133111EB;
    return z ^ (z >> 31);
}

static size_t draw_between(size_t least, size_t most)
{
    return least + draw() % (most - least + 1);
}

static void draw_bytes(uint8_t *bytes, size_t len)
{
    for (size_t at = 0; at < len; at += 8) {
        uint64_t eight = draw();
        memcpy(bytes + at, &eight, len - at < 8 ? len - at : 8);
    }
}

// The bytes that are random around a call: its longer text with an edge on both sides.
static size_t room(const struct call *c)
{
    return EDGE + (c->text_len > c->out_len ? c->text_len : c->out_len) + EDGE;
}

static struct call draw_call(uint8_t tag, size_t text_len, size_t out_len)
{
    struct call c = {.tag = tag, .text_len = text_len, .out_len = out_len};
    c.key = draw();
    c.vector = draw();
    c.lead = draw_between(1, EDGE);
    draw_bytes(text, room(&c));
    draw_bytes(out_door, room(&c));
    memcpy(out_openssl, out_door, room(&c));
    return c;
}

static void put_block(DES_cblock bytes, uint64_t block)
{
    for (int i = 0; i < 8; i++)
        bytes[i] = (uint8_t)(block >> (56 - 8 * i));
}

static uint64_t get_block(const DES_cblock bytes)
{
    uint64_t block = 0;
    for (int i = 0; i < 8; i++)
        block = block << 8 | bytes[i];
    return block;
}

static DES_key_schedule openssl_schedule(uint64_t key)
{
    DES_cblock bytes;
    DES_key_schedule schedule;
    put_block(bytes, key);
    DES_set_key_unchecked(&bytes, &schedule);
    return schedule;
}

static uint64_t openssl_block(uint64_t key, uint64_t block, int direction)
{
    DES_cblock bytes;
    DES_key_schedule schedule = openssl_schedule(key);
    put_block(bytes, block);
    DES_ecb_encrypt(&bytes, &bytes, &schedule, direction);
    return get_block(bytes);
}

static struct result openssl_mode(const struct call *c)
{
    const uint8_t *in = text + c->lead;
    uint8_t *out = out_openssl + c->lead;
    long len = (long)c->text_len;
    int direction = c->tag % 2 == 0 ? DES_ENCRYPT : DES_DECRYPT;
    DES_key_schedule schedule = openssl_schedule(c->key);
    DES_cblock vector;
    int used = 0;

    put_block(vector, c->vector);
    if (c->tag == ECBE || c->tag == ECBD)
        for (long at = 0; at < len; at += 8)
            DES_ecb_encrypt((const_DES_cblock *)(in + at), (DES_cblock *)(out + at),
                            &schedule, direction);
    else if (c->tag == CBCE || c->tag == CBCD)
        DES_ncbc_encrypt(in, out, len, &schedule, &vector, direction);
    else
        DES_cfb64_encrypt(in, out, len, &schedule, &vector, &used, direction);
    return (struct result){DONE, get_block(vector)};
}

// DES_cbc_cksum fills a short last block with zero bytes on the right.
static uint64_t openssl_fixity(uint64_t key, uint64_t vector, const uint8_t *record, size_t len)
{
    DES_key_schedule schedule = openssl_schedule(key);
    DES_cblock first, last;
    put_block(first, vector);
    DES_cbc_cksum(record, &last, (long)len, &schedule, &first);
    return get_block(last);
}

static struct result door_one_call(const struct call *c)
{
    struct result r = {.vector = c->vector};
    r.answer = door_mode(c->tag, c->key, &r.vector, text + c->lead, c->text_len,
                         out_door + c->lead, c->out_len);
    return r;
}

static struct result door_two_calls(const struct call *c, size_t cut)
{
    const uint8_t *in = text + c->lead;
    uint8_t *out = out_door + c->lead;
    struct result r = {.vector = c->vector};
    r.answer = door_mode(c->tag, c->key, &r.vector, in, cut, out, cut);
    if (r.answer == DONE)
        r.answer = door_mode(c->tag, c->key, &r.vector, in + cut, c->text_len - cut, out + cut,
                             c->out_len - cut);
    return r;
}

// Counts a difference, and tells whether it is one of the few to print.
static bool count_difference(void)
{
    differences++;
    return differences <= SHOWN;
}

static void judge_number(const char *name, uint64_t key, uint64_t vector, size_t len,
                         uint64_t found, uint64_t expected)
{
    if (found != expected && count_difference())
        printf("%s, key %016" PRIx64 ", vector or block %016" PRIx64 ", length %zu: "
               "%016" PRIx64 " instead of %016" PRIx64 "\n",
               name, key, vector, len, found, expected);
}

static void judge_call(const char *name, const struct call *c, struct result found,
                       struct result expected)
{
    size_t at = 0;
    while (at < room(c) && out_door[at] == out_openssl[at])
        at++;

    bool same_answer = found.answer == expected.answer;
    bool same_vector = found.vector == expected.vector;
    bool same_out = at == room(c);
    if ((same_answer && same_vector && same_out) || !count_difference())
        return;

    printf("%s, tag %02x, key %016" PRIx64 ", vector %016" PRIx64 ", length %zu, out %zu:",
           name, c->tag, c->key, c->vector, c->text_len, c->out_len);
    if (!same_answer)
        printf(" answer %u instead of %u;", found.answer, expected.answer);
    if (!same_vector)
        printf(" vector afterwards %016" PRIx64 " instead of %016" PRIx64 ";", found.vector,
               expected.vector);
    if (!same_out)
        printf(" out differs first at offset %ld;", (long)at - (long)c->lead);
    printf("\n");
}

static void compare_blocks(void)
{
    for (int i = 0; i < 20000; i++) {
        uint64_t key = draw(), block = draw();
        judge_number("encipher", key, block, 8, door_encipher(key, block),
                     openssl_block(key, block, DES_ENCRYPT));
        judge_number("decipher", key, block, 8, door_decipher(key, block),
                     openssl_block(key, block, DES_DECRYPT));
        comparisons += 2;
    }
}

static void compare_text(uint8_t tag, size_t len, size_t most_spare)
{
    struct call c = draw_call(tag, len, len + draw_between(0, most_spare));
    struct result expected = openssl_mode(&c);
    judge_call("text", &c, door_one_call(&c), expected);
    comparisons++;
}

static void compare_texts(void)
{
    for (uint8_t tag = ECBE; tag <= CFBD; tag++) {
        for (size_t len = 0; len <= 2048; len += 8) {
            compare_text(tag, len, 0);
            compare_text(tag, len, EDGE);
        }
        for (int i = 0; i < 10000; i++)
            compare_text(tag, 8 * draw_between(0, 16), EDGE);
        for (int i = 0; i < 400; i++)
            compare_text(tag, 8 * draw_between(257, LONGEST / 8), EDGE);
        compare_text(tag, LONGEST, 0);
        compare_text(tag, LONGEST, EDGE);
    }
}

// A text in two calls, cut between any two blocks, is what OpenSSL makes of it in one.
static void compare_join(uint8_t tag, size_t len)
{
    struct call c = draw_call(tag, len, len);
    struct result expected = openssl_mode(&c);
    judge_call("two calls", &c, door_two_calls(&c, 8 * draw_between(0, len / 8)), expected);
    comparisons++;
}

static void compare_joins(void)
{
    for (uint8_t tag = ECBE; tag <= CFBD; tag++) {
        for (int i = 0; i < 2000; i++)
            compare_join(tag, 8 * draw_between(0, 64));
        for (int i = 0; i < 20; i++)
            compare_join(tag, 8 * draw_between(65, LONGEST / 8));
    }
}

static void compare_record(size_t len)
{
    uint64_t key = draw(), vector = draw(), value = draw();
    const uint8_t *record = text + draw_between(0, EDGE);
    draw_bytes(text, EDGE + len + EDGE);

    uint8_t answer = door_fixity(key, vector, record, len, &value);
    judge_number("answer to a record", key, vector, len, answer, DONE);
    judge_number("fixity value", key, vector, len, value,
                 openssl_fixity(key, vector, record, len));
    comparisons++;
}

static void compare_records(void)
{
    for (int i = 0; i < 10; i++)
        for (size_t len = 1; len <= 520; len++)
            compare_record(len);
    for (int i = 0; i < 500; i++)
        compare_record(draw_between(521, LONGEST));
    compare_record(LONGEST - 1);
    compare_record(LONGEST);
}

static uint8_t expected_refusal(const struct call *c)
{
    if (c->tag < ECBE || c->tag > CFBD)
        return TAG_REFUSED;
    if (c->text_len % 8 != 0)
        return LENGTH_REFUSED;
    if (c->out_len < c->text_len)
        return OUT_REFUSED;
    return DONE;
}

// A refusal leaves the vector and the out as they were.
static void try_refusal(uint8_t tag, size_t text_len, size_t out_len)
{
    struct call c = draw_call(tag, text_len, out_len);
    struct result expected = {expected_refusal(&c), c.vector};
    if (expected.answer == DONE)
        return;
    judge_call("refusal", &c, door_one_call(&c), expected);
    refusals++;
}

static void try_empty_record(void)
{
    uint64_t key = draw(), vector = draw(), value = draw();
    uint8_t answer = door_fixity(key, vector, text, 0, &value);
    judge_number("answer to an empty record", key, vector, 0, answer, LENGTH_REFUSED);
    judge_number("value of an empty record", key, vector, 0, value, 0);
    refusals++;
}

static void try_refusals(void)
{
    for (int tag = 0; tag <= 255; tag++)
        for (size_t text_len = 0; text_len <= 24; text_len++)
            for (size_t out_len = 0; out_len <= 32; out_len++)
                try_refusal((uint8_t)tag, text_len, out_len);
    for (uint8_t tag = ECBE; tag <= CFBD; tag++) {
        for (int i = 0; i < 200; i++) {
            size_t text_len = draw_between(0, LONGEST);
            try_refusal(tag, text_len, draw_between(0, LONGEST));
        }
        try_refusal(tag, LONGEST, LONGEST - 1);
    }
    for (int i = 0; i < 10; i++)
        try_empty_record();
}

static void run_part(const char *name, void (*part)(void), const unsigned long *count)
{
    unsigned long count_before = *count, differences_before = differences;
    part();
    printf("%-13s %7lu, differences %lu\n", name, *count - count_before,
           differences - differences_before);
    fflush(stdout);
}

int main(int argc, char **argv)
{
    uint64_t seed = argc > 1 ? strtoull(argv[1], NULL, 0) : 1;
    state = seed;
    printf("seed %" PRIu64 "\n", seed);
    run_part("blocks", compare_blocks, &comparisons);
    run_part("texts", compare_texts, &comparisons);
    run_part("two calls", compare_joins, &comparisons);
    run_part("fixity values", compare_records, &comparisons);
    run_part("refusals", try_refusals, &refusals);
    printf("openssl: %lu comparisons, %lu differences (seed %" PRIu64 ")\n", comparisons,
           differences, seed);
    return differences == 0 ? EXIT_SUCCESS : EXIT_FAILURE;
}
