// Times the facility's commands in a full house: sixteen users, or fifteen where the sixteenth logs in.

#define _POSIX_C_SOURCE 200809L // for clock_gettime

#include <stdint.h>
#include <stdio.h>
#include <stdlib.h>
#include <string.h>
#include <time.h>

// Each carries out n commands and returns how many of them were refused.
uint64_t speed_ras(const uint8_t *table, size_t table_len, uint64_t n);
uint64_t speed_ldk(uint64_t n);
uint64_t speed_ecbe(uint64_t n);
uint64_t speed_rpw(uint8_t *table, size_t table_len, uint64_t n);

enum { ENTRY = 12, ENTRIES = 4096, NOTARY_ENTRIES = 64, TRIES = 3 };

static const double SECONDS_A_TRY = 0.5;

// User 5 with the password of eight zero bytes, as the library's key 1 keeps it.
static const uint8_t USER_5[ENTRY] = {0,    0,    0,    5,    0x8C, 0xA6,
                                      0x4D, 0xE9, 0xC1, 0xB1, 0x23, 0xA7};

static uint8_t table[ENTRIES * ENTRY], short_table[NOTARY_ENTRIES * ENTRY];

static uint64_t ras(uint64_t n) { return speed_ras(short_table, sizeof short_table, n); }

static uint64_t rpw(uint64_t n) { return speed_rpw(table, sizeof table, n); }

// RPW: every entry another user's, with bytes of its own. RAS: NOTARY's 64 entries, the user's the last.
static void prepare(void)
{
    for (size_t i = 0; i < ENTRIES; i++) {
        uint64_t mixed = (i + 1) * 0x9E3779B97F4A7C15;
        uint32_t user = (uint32_t)(mixed >> 36);
        for (size_t k = 0; k < 4; k++)
            table[i * ENTRY + k] = (uint8_t)(user >> (24 - 8 * k));
        for (size_t k = 0; k < 8; k++)
            table[i * ENTRY + 4 + k] = (uint8_t)(mixed * 0xBF58476D1CE4E5B9 >> (56 - 8 * k));
    }
    memset(short_table, 0xFF, sizeof short_table);
    memcpy(short_table + sizeof short_table - ENTRY, USER_5, ENTRY);
}

static double now(void)
{
    struct timespec t;
    clock_gettime(CLOCK_MONOTONIC, &t);
    return (double)t.tv_sec + (double)t.tv_nsec / 1e9;
}

static void run(const char *name, uint64_t (*work)(uint64_t), uint64_t n)
{
    uint64_t refused = work(n);
    if (refused != 0) {
        printf("%s: %llu of %llu refused\n", name, (unsigned long long)refused,
               (unsigned long long)n);
        exit(EXIT_FAILURE);
    }
}

// The best time of one command, of several tries.
static double measure(const char *name, uint64_t (*work)(uint64_t), uint64_t n)
{
    double best = 1e9;
    for (int i = 0; i < TRIES; i++) {
        double start = now(), passed;
        uint64_t times = 0;
        do {
            run(name, work, n);
            times += n;
            passed = now() - start;
        } while (passed < SECONDS_A_TRY);
        if (passed / (double)times < best)
            best = passed / (double)times;
    }
    return best;
}

// n commands are carried out between two looks at the clock.
static void print_rate(const char *name, uint64_t (*work)(uint64_t), uint64_t n)
{
    double s = measure(name, work, n);
    printf("%-34s %10.0f a second, %10.2f us each\n", name, 1 / s, s * 1e6);
    fflush(stdout);
}

int main(void)
{
    prepare();
    printf("\nCommands with all places taken, best of %d tries of %.1f s\n\n", TRIES, SECONDS_A_TRY);
    print_rate("RAS, the last of 64 entries", ras, 1000);
    print_rate("LDK", speed_ldk, 1000);
    print_rate("ECBE of 8 bytes", speed_ecbe, 1000);
    print_rate("RPW over 4096 entries", rpw, 1);
    return EXIT_SUCCESS;
}
