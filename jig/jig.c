// Compares the two exported functions with a loop that goes bit by bit, on many lists, whole and damaged. Then measures the throughput beside
// the plain table loop. Ends with status 1 on any difference.
#define _GNU_SOURCE
#include <stdint.h>
#include <stdio.h>
#include <stdlib.h>
#include <string.h>
#include <sys/mman.h>
#include <time.h>

#include "fcs.h"

uint16_t plain_check_sequence(const uint8_t *bytes, size_t length);

enum { LONGEST = 600, LISTS_PER_LENGTH = 50, PAGE = 4096, ROUNDS = 9 };

static long differences = 0;

static void same(const char *what, size_t length, unsigned got, unsigned expected) {
    if (got == expected)
        return;
    differences++;
    if (differences <= 10)
        printf("%s, length %zu: %04X, and not %04X\n", what, length, got, expected);
}

// xorshift64: the same numbers in every run
static uint64_t state = 0x9E3779B97F4A7C15u;

static uint64_t next(void) {
    state ^= state << 13;
    state ^= state >> 7;
    state ^= state << 17;
    return state;
}

static void fill(uint8_t *bytes, size_t length) {
    for (size_t i = 0; i < length; i++)
        bytes[i] = (uint8_t)(next() >> 24);
}

static uint16_t bitwise_register(const uint8_t *bytes, size_t length) {
    uint16_t r = 0xFFFF;
    for (size_t i = 0; i < length; i++)
        for (int k = 0; k < 8; k++) {
            int t = ((bytes[i] >> k) ^ r) & 1;
            r >>= 1;
            if (t)
                r ^= 0x8408;
        }
    return r;
}

static void compare(const uint8_t *bytes, size_t length) {
    uint16_t r = bitwise_register(bytes, length);
    same("check sequence", length, fcs_check_sequence(bytes, length), (uint16_t)~r);
    same("match", length, fcs_matches(bytes, length), r == 0xF0B8);
}

// Flips bits in at most sixteen neighbouring places, the first of them always.
static void damage_by_burst(uint8_t *bytes, size_t length) {
    size_t bits = 8 * length;
    size_t first = next() % bits;
    uint16_t flips = (uint16_t)next() | 1;
    for (size_t k = 0; k < 16 && first + k < bits; k++)
        if ((flips >> k) & 1)
            bytes[(first + k) / 8] ^= (uint8_t)(1u << ((first + k) % 8));
}

// One list of this length: as it is, with its check sequence, with a burst of errors, and with any bytes overwritten.
static void try_list(uint8_t *end, size_t length) {
    uint8_t *bytes = end - length;
    fill(bytes, length);
    compare(bytes, length);

    uint8_t *sent = end - (length + 2);
    memmove(sent, bytes, length);
    uint16_t check = fcs_check_sequence(sent, length);
    sent[length] = (uint8_t)(check & 0xFF);
    sent[length + 1] = (uint8_t)(check >> 8);
    same("match of a whole list", length + 2, fcs_matches(sent, length + 2), 1);
    compare(sent, length + 2);

    uint8_t copy[LONGEST + 2];
    memcpy(copy, sent, length + 2);
    damage_by_burst(sent, length + 2);
    same("match after a burst", length + 2, fcs_matches(sent, length + 2), 0);
    compare(sent, length + 2);

    memcpy(sent, copy, length + 2);
    for (int k = 0; k < 4; k++)
        sent[next() % (length + 2)] = (uint8_t)(next() >> 24);
    compare(sent, length + 2);
}

// The lists end where readable memory ends, so that a read past the end stops the program.
static void try_lists(void) {
    uint8_t *page = mmap(NULL, 2 * PAGE, PROT_READ | PROT_WRITE, MAP_PRIVATE | MAP_ANONYMOUS, -1, 0);
    if (page == MAP_FAILED || mprotect(page + PAGE, PAGE, PROT_NONE) != 0) {
        perror("mmap");
        exit(2);
    }
    for (size_t length = 0; length <= LONGEST; length++)
        for (int k = 0; k < LISTS_PER_LENGTH; k++)
            try_list(page + PAGE, length);
    munmap(page, 2 * PAGE);
    printf("%d lists of the lengths 0 to %d, each whole and damaged: %ld differences\n", (LONGEST + 1) * LISTS_PER_LENGTH, LONGEST, differences);
}

static void try_examples(void) {
    const uint8_t four[] = {0x03, 0x3F, 0x5B, 0xEC};
    const uint8_t zeros[] = {0, 0};
    same("check sequence of 03 3F", 2, fcs_check_sequence(four, 2), 0xEC5B);
    same("match of 03 3F 5B EC", 4, fcs_matches(four, 4), 1);
    same("match of 00 00", 2, fcs_matches(zeros, 2), 1);
    same("check sequence of none", 0, fcs_check_sequence(NULL, 0), 0);
    same("match of none", 0, fcs_matches(NULL, 0), 0);
}

static double seconds(void) {
    struct timespec t;
    clock_gettime(CLOCK_MONOTONIC, &t);
    return (double)t.tv_sec + (double)t.tv_nsec * 1e-9;
}

typedef uint16_t check_function(const uint8_t *, size_t);

static double timed(check_function *f, const uint8_t *bytes, size_t length, uint16_t *result) {
    double start = seconds();
    *result = f(bytes, length);
    return seconds() - start;
}

// The best of several rounds; the two take turns at going first.
static void measure(const uint8_t *bytes, size_t mebibytes) {
    check_function *f[2] = {fcs_check_sequence, plain_check_sequence};
    size_t length = mebibytes << 20;
    double best[2] = {1e9, 1e9};
    uint16_t result[2] = {0, 0};
    for (int round = 0; round < ROUNDS; round++)
        for (int k = 0; k < 2; k++) {
            int which = (round + k) % 2;
            double t = timed(f[which], bytes, length, &result[which]);
            if (t < best[which])
                best[which] = t;
        }
    same("check sequence beside the plain loop", length, result[0], result[1]);
    printf("%3zu MiB: fcs %.4f s (%.2f ns a byte), plain C %.4f s (%.2f ns a byte), ratio %.3f\n", mebibytes, best[0],
           best[0] * 1e9 / (double)length, best[1], best[1] * 1e9 / (double)length, best[0] / best[1]);
}

int main(void) {
    try_examples();
    try_lists();
    size_t most = 64;
    uint8_t *bytes = malloc(most << 20);
    if (bytes == NULL) {
        perror("malloc");
        return 2;
    }
    fill(bytes, most << 20);
    for (size_t mebibytes = 1; mebibytes <= most; mebibytes *= 4)
        measure(bytes, mebibytes);
    free(bytes);
    puts(differences == 0 ? "ok" : "DIFFERENCES");
    return differences != 0;
}
