// Times the library beside OpenSSL's DES, on the same buffers.

#define _POSIX_C_SOURCE 200809L // for clock_gettime

#include <stdint.h>
#include <stdio.h>
#include <stdlib.h>
#include <string.h>
#include <time.h>

#include <openssl/des.h>

uint8_t door_mode(uint8_t tag, uint64_t key, uint64_t *vector, const uint8_t *text,
                  size_t text_len, uint8_t *out, size_t out_len);
uint8_t door_fixity(uint64_t key, uint64_t vector, const uint8_t *record, size_t len,
                    uint64_t *value);

// A row is a tag of the library, or one of the last two.
enum row { ECBE = 0x0A, CBCE = 0x0C, CBCD, CFBE, CFBD, FIXITY, NEW_KEYS };
enum { LEN = 32768, BLOCKS = LEN / 8, TRIES = 3 };

static const double SECONDS_A_TRY = 0.5;
static const uint64_t VECTOR = 0xFEDCBA9876543210;

// The same keys twice, as each side takes them. The long rows use the first.
static uint64_t keys[BLOCKS];
static DES_cblock key_bytes[BLOCKS];

static uint8_t text[LEN], out[LEN];

struct seconds {
    double door, openssl;
};

static double now(void)
{
    struct timespec t;
    clock_gettime(CLOCK_MONOTONIC, &t);
    return (double)t.tv_sec + (double)t.tv_nsec / 1e9;
}

static void put_block(uint8_t *bytes, uint64_t block)
{
    for (int i = 0; i < 8; i++)
        bytes[i] = (uint8_t)(block >> (56 - 8 * i));
}

static void prepare(void)
{
    for (size_t i = 0; i < BLOCKS; i++) {
        keys[i] = 0x0123456789ABCDEF + i * 0x9E3779B97F4A7C15;
        put_block(key_bytes[i], keys[i]);
        put_block(text + 8 * i, i * 0xBF58476D1CE4E5B9);
    }
}

static void door_work(enum row row)
{
    uint64_t vector = VECTOR, value;
    switch (row) {
    case FIXITY:
        door_fixity(keys[0], VECTOR, text, LEN, &value);
        put_block(out, value);
        break;
    case NEW_KEYS:
        for (size_t i = 0; i < BLOCKS; i++)
            door_mode(ECBE, keys[i], &vector, text + 8 * i, 8, out + 8 * i, 8);
        break;
    default:
        door_mode((uint8_t)row, keys[0], &vector, text, LEN, out, LEN);
    }
}

static void openssl_block(size_t i, DES_key_schedule *schedule)
{
    DES_ecb_encrypt((const_DES_cblock *)(text + 8 * i), (DES_cblock *)(out + 8 * i), schedule,
                    DES_ENCRYPT);
}

static void openssl_work(enum row row)
{
    DES_key_schedule schedule;
    DES_cblock vector;
    int used = 0;

    put_block(vector, VECTOR);
    DES_set_key_unchecked(&key_bytes[0], &schedule);
    switch (row) {
    case ECBE:
        for (size_t i = 0; i < BLOCKS; i++)
            openssl_block(i, &schedule);
        break;
    case CBCE:
    case CBCD:
        DES_ncbc_encrypt(text, out, LEN, &schedule, &vector, row == CBCE);
        break;
    case CFBE:
    case CFBD:
        DES_cfb64_encrypt(text, out, LEN, &schedule, &vector, &used, row == CFBE);
        break;
    case FIXITY:
        DES_cbc_cksum(text, (DES_cblock *)out, LEN, &schedule, &vector);
        break;
    case NEW_KEYS:
        for (size_t i = 0; i < BLOCKS; i++) {
            DES_set_key_unchecked(&key_bytes[i], &schedule);
            openssl_block(i, &schedule);
        }
    }
}

// Both sides must have written the same before they are timed.
static void check(enum row row)
{
    static uint8_t door_out[LEN];
    memset(out, 0, LEN);
    door_work(row);
    memcpy(door_out, out, LEN);
    memset(out, 0, LEN);
    openssl_work(row);
    if (memcmp(door_out, out, LEN) != 0) {
        printf("the library and OpenSSL differ in row %d\n", row);
        exit(EXIT_FAILURE);
    }
}

static double time_once(void (*work)(enum row), enum row row)
{
    double start = now(), passed;
    int times = 0;
    do {
        work(row);
        times++;
        passed = now() - start;
    } while (passed < SECONDS_A_TRY);
    return passed / times;
}

static double less(double a, double b)
{
    return a < b ? a : b;
}

// The best time of one pass over the buffer. The sides take turns, so that a busy
// machine slows both.
static struct seconds measure(enum row row)
{
    check(row);
    struct seconds best = {1e9, 1e9};
    for (int i = 0; i < TRIES; i++) {
        best.door = less(best.door, time_once(door_work, row));
        best.openssl = less(best.openssl, time_once(openssl_work, row));
    }
    return best;
}

static void print_row(const char *name, const char *unit, double door, double openssl,
                      double ratio)
{
    printf("%-20s %-5s %9.1f %9.1f %7.1f\n", name, unit, door, openssl, ratio);
    fflush(stdout);
}

static struct seconds print_rate(const char *name, enum row row)
{
    struct seconds s = measure(row);
    print_row(name, "MB/s", LEN / s.door / 1e6, LEN / s.openssl / 1e6, s.door / s.openssl);
    return s;
}

static void print_time(const char *name, struct seconds pass)
{
    double door = pass.door / BLOCKS * 1e9, openssl = pass.openssl / BLOCKS * 1e9;
    print_row(name, "ns", door, openssl, door / openssl);
}

int main(void)
{
    prepare();
    printf("%d bytes a call, best of %d tries of %.1f s, 1 MB is 1,000,000 bytes;\n", LEN, TRIES,
           SECONDS_A_TRY);
    printf("the ratio is the library's time over OpenSSL's.\n\n");
    printf("%-20s %-5s %9s %9s %7s\n", "", "", "library", "OpenSSL", "ratio");

    struct seconds ecb = print_rate("ECB encipher", ECBE);
    print_rate("CBC encipher", CBCE);
    print_rate("CBC decipher", CBCD);
    print_rate("CFB encipher", CFBE);
    print_rate("CFB decipher", CFBD);
    print_rate("fixity value", FIXITY);

    struct seconds both = measure(NEW_KEYS);
    struct seconds schedule = {both.door - ecb.door, both.openssl - ecb.openssl};
    print_time("new key + one block", both);
    print_time("  less the block", schedule);
    return EXIT_SUCCESS;
}
