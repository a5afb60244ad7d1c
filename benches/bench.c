// Times the proved code beside the plain C, in one run. 'bench' prints the table; 'bench count CASE ours|plain N' does a
// case N times and nothing else, so that its instructions can be counted.
#include <stdio.h>
#include <stdlib.h>
#include <string.h>
#include <time.h>

#include "plain.h"

// What the crate `timing` exports: a slice is a pointer and a length.
uint8_t dikhelwa_skinny_encrypt(uint8_t *work, size_t length, size_t n);
uint8_t dikhelwa_skinny_decrypt(uint8_t *work, size_t length, size_t n);
uint8_t dikhelwa_cascade_encrypt(uint8_t *work, size_t length, size_t n);
uint8_t dikhelwa_cascade_decrypt(uint8_t *work, size_t length, size_t n);
uint8_t dikhelwa_aes_encrypt(uint8_t *work, size_t length, size_t n);
uint8_t dikhelwa_aes_decrypt(uint8_t *work, size_t length, size_t n);
uint8_t dikhelwa_skinny_encipher(const uint8_t *key, size_t length, uint8_t *message, size_t bytes, size_t n);
uint8_t dikhelwa_cascade_encipher(const uint8_t *key, size_t length, uint8_t *message, size_t bytes, size_t n);

static uint8_t work[64], message[65536], other[65536], round_keys[176];

static void ours_skinny_encrypt(size_t bytes, size_t n) { (void)bytes, dikhelwa_skinny_encrypt(work, 64, n); }
static void ours_skinny_decrypt(size_t bytes, size_t n) { (void)bytes, dikhelwa_skinny_decrypt(work, 64, n); }
static void ours_cascade_encrypt(size_t bytes, size_t n) { (void)bytes, dikhelwa_cascade_encrypt(work, 64, n); }
static void ours_cascade_decrypt(size_t bytes, size_t n) { (void)bytes, dikhelwa_cascade_decrypt(work, 64, n); }
static void ours_aes_encrypt(size_t bytes, size_t n) { (void)bytes, dikhelwa_aes_encrypt(work, 32, n); }
static void ours_aes_decrypt(size_t bytes, size_t n) { (void)bytes, dikhelwa_aes_decrypt(work, 32, n); }
static void ours_skinny_encipher(size_t bytes, size_t n) { dikhelwa_skinny_encipher(work, 16, message, bytes, n); }
static void ours_cascade_encipher(size_t bytes, size_t n) { dikhelwa_cascade_encipher(work, 16, message, bytes, n); }

#define REPEAT(call) \
    do { \
        (void)bytes; \
        while (n-- > 0) \
            call; \
    } while (0)
static void plain_skinny_e(size_t bytes, size_t n) { REPEAT(plain_skinny_encrypt(work, work + 16, work + 32, work + 48)); }
static void plain_skinny_d(size_t bytes, size_t n) { REPEAT(plain_skinny_decrypt(work, work + 16, work + 32, work + 48)); }
static void plain_cascade_e(size_t bytes, size_t n) { REPEAT(plain_cascade_encrypt(round_keys, work + 16, work + 32, work + 48)); }
static void plain_cascade_d(size_t bytes, size_t n) { REPEAT(plain_cascade_decrypt(round_keys, work + 16, work + 32, work + 48)); }
static void plain_aes_e(size_t bytes, size_t n) { REPEAT(plain_aes_encrypt(round_keys, work + 16)); }
static void plain_aes_d(size_t bytes, size_t n) { REPEAT(plain_aes_decrypt(round_keys, work + 16)); }
static void plain_skinny_mode(size_t bytes, size_t n) {
    struct cipher c = {work, plain_skinny_encrypt};
    while (n-- > 0)
        plain_encipher(&c, message, bytes);
}
static void plain_cascade_mode(size_t bytes, size_t n) {
    struct cipher c = {round_keys, plain_cascade_encrypt};
    while (n-- > 0)
        plain_encipher(&c, message, bytes);
}

struct row {
    const char *name;
    void (*ours)(size_t, size_t), (*plain)(size_t, size_t);
    size_t bytes;
};

static const struct row rows[] = {
    {"SKINNY encrypt", ours_skinny_encrypt, plain_skinny_e, 16},
    {"SKINNY decrypt", ours_skinny_decrypt, plain_skinny_d, 16},
    {"AES encrypt", ours_aes_encrypt, plain_aes_e, 16},
    {"AES decrypt", ours_aes_decrypt, plain_aes_d, 16},
    {"cascade encrypt", ours_cascade_encrypt, plain_cascade_e, 16},
    {"cascade decrypt", ours_cascade_decrypt, plain_cascade_d, 16},
    {"SKINNY encipher", ours_skinny_encipher, plain_skinny_mode, 64},
    {"SKINNY encipher", ours_skinny_encipher, plain_skinny_mode, 512},
    {"SKINNY encipher", ours_skinny_encipher, plain_skinny_mode, 4096},
    {"SKINNY encipher", ours_skinny_encipher, plain_skinny_mode, 65536},
    {"cascade encipher", ours_cascade_encipher, plain_cascade_mode, 64},
    {"cascade encipher", ours_cascade_encipher, plain_cascade_mode, 512},
    {"cascade encipher", ours_cascade_encipher, plain_cascade_mode, 4096},
    {"cascade encipher", ours_cascade_encipher, plain_cascade_mode, 65536},
};
#define ROWS (sizeof rows / sizeof rows[0])

static double now(void) {
    struct timespec t;
    clock_gettime(CLOCK_MONOTONIC, &t);
    return (double)t.tv_sec * 1e9 + (double)t.tv_nsec;
}

static double once(void (*f)(size_t, size_t), size_t bytes, size_t n) {
    double start = now();
    f(bytes, n);
    return (now() - start) / (double)n;
}

static void start(void) {
    for (size_t i = 0; i < sizeof work; i++)
        work[i] = (uint8_t)(7 * i + 1);
    for (size_t i = 0; i < sizeof message; i++)
        message[i] = (uint8_t)(13 * i + i / 256);
    plain_aes_expand(work, round_keys);
}

// Both sides give the same bytes.
static int agree(const struct row *r) {
    uint8_t same[64];
    start();
    r->ours(r->bytes, 3);
    memcpy(same, work, 64);
    memcpy(other, message, sizeof message);
    start();
    r->plain(r->bytes, 3);
    return memcmp(same, work, 64) == 0 && memcmp(other, message, sizeof message) == 0;
}

static void table(void) {
    double ours[ROWS], plain[ROWS];
    printf("%-18s %7s %12s %12s %7s\n", "", "bytes", "ours, ns", "plain C, ns", "ratio");
    for (size_t i = 0; i < ROWS; i++) {
        const struct row *r = &rows[i];
        if (!agree(r)) {
            printf("%s, %zu bytes: THE TWO DIFFER\n", r->name, r->bytes);
            exit(1);
        }
        size_t n = 1 + 400000 / (r->bytes + 4);
        ours[i] = plain[i] = 1e18;
        for (int turn = 0; turn < 15; turn++) {
            double a = once(r->ours, r->bytes, n), b = once(r->plain, r->bytes, n);
            if (a < ours[i]) ours[i] = a;
            if (b < plain[i]) plain[i] = b;
        }
        printf("%-18s %7zu %12.1f %12.1f %7.2f\n", r->name, r->bytes, ours[i], plain[i], ours[i] / plain[i]);
    }
    // 128 di-blocks: three calls for each of 127, one link, eight for the last.
    printf("enciphering 4,096 bytes, beside its 390 cipher calls alone: SKINNY %.3f, cascade %.3f\n", ours[8] / (390 * ours[0]), ours[12] / (390 * ours[4]));
}

int main(int argc, char **argv) {
    start();
    if (argc == 5 && strcmp(argv[1], "count") == 0) {
        const struct row *r = &rows[atoi(argv[2])];
        (strcmp(argv[3], "ours") == 0 ? r->ours : r->plain)(r->bytes, (size_t)atoi(argv[4]));
        return 0;
    }
    if (argc == 2 && strcmp(argv[1], "names") == 0) {
        for (size_t i = 0; i < ROWS; i++)
            printf("%zu %s, %zu bytes\n", i, rows[i].name, rows[i].bytes);
        return 0;
    }
    table();
    return 0;
}
