// The mode straight from its steps, byte by byte, over any cipher: the plain C that the proved code is measured against.
#include "plain.h"

static void copy(uint8_t *to, const uint8_t *from, size_t n) {
    for (size_t i = 0; i < n; i++)
        to[i] = from[i];
}

static void add(uint8_t *to, const uint8_t *what, size_t n) {
    for (size_t i = 0; i < n; i++)
        to[i] ^= what[i];
}

static void alpha(uint8_t x[16]) {
    uint8_t carry = 0;
    for (int i = 15; i >= 0; i--) {
        uint8_t next = x[i] >> 7;
        x[i] = (uint8_t)(x[i] << 1 | carry);
        carry = next;
    }
    x[15] ^= (uint8_t)(carry * 0x87);
}

enum { T = 1, S, C, B, XL, XR, YL, YR, P, TS, SS, CS, BS };

static void head_of(uint8_t head[16], int domain, uint32_t index) {
    for (int i = 0; i < 16; i++)
        head[i] = 0;
    head[0] = (uint8_t)domain;
    for (int i = 0; i < 4; i++)
        head[12 + i] = (uint8_t)(index >> (24 - 8 * i));
}

static void encrypt(const struct cipher *c, int domain, uint32_t index, const uint8_t *body, uint8_t *block) {
    uint8_t head[16];
    head_of(head, domain, index);
    c->encrypt(c->state, head, body, block);
}

static void decrypt(const struct cipher *c, int domain, uint32_t index, const uint8_t *body, uint8_t *block) {
    uint8_t head[16];
    head_of(head, domain, index);
    c->decrypt(c->state, head, body, block);
}

// The chain's block is renewed at the first of each 128 di-blocks.
static void next_link(const struct cipher *c, uint32_t k, uint8_t link[16]) {
    uint8_t j[16] = {0};
    if (k % 128 == 1) {
        j[14] = (uint8_t)((k / 128 + 1) >> 8);
        j[15] = (uint8_t)(k / 128 + 1);
        encrypt(c, S, 0, j, link);
    }
}

static void hash(const struct cipher *c, uint32_t i, const uint8_t pair[32], uint8_t out[32]) {
    for (int half = 0; half < 2; half++) {
        copy(out + 16 * half, pair, 16);
        encrypt(c, P, i + (uint32_t)half, pair + 16, out + 16 * half);
    }
}

static void tail_hash(const struct cipher *c, uint32_t i, const uint8_t *tail, size_t r, uint8_t last[32]) {
    uint8_t padded[32] = {0}, out[32];
    copy(padded, tail, r);
    padded[r] = 0x80;
    hash(c, i, padded, out);
    add(last, out, 32);
}

// Two sums, each encrypted with the other for its body, added to the last di-block.
static void add_crossed(const struct cipher *c, int left, int right, uint32_t l, const uint8_t sums[32], uint8_t last[32]) {
    uint8_t x[32];
    copy(x, sums, 32);
    encrypt(c, left, l, sums + 16, x);
    encrypt(c, right, l, sums, x + 16);
    add(last, x, 32);
}

void plain_encipher(const struct cipher *c, uint8_t *m, size_t n) {
    uint32_t l = (uint32_t)(n / 32);
    size_t r = n % 32;
    uint8_t *tail = m + 32 * (size_t)l, before[32], st[32], link[16], last[32], sums[32] = {0};
    copy(last, m + 32 * (size_t)(l - 1), 32);
    if (r > 0)
        tail_hash(c, 0, tail, r, last);
    copy(before, last, 32);
    for (uint32_t i = 1; i < l; i++) {
        uint8_t *d = m + 32 * (size_t)(i - 1);
        encrypt(c, T, i, d + 16, d);
        alpha(sums);
        add(sums, d, 16);
        alpha(sums + 16);
        alpha(sums + 16);
        add(sums + 16, d, 16);
        add(sums + 16, d + 16, 16);
    }
    add_crossed(c, XL, XR, l, sums, last);
    copy(st, last, 32);
    encrypt(c, TS, l, last + 16, st);
    encrypt(c, SS, l, st, st + 16);
    copy(link, st, 16);
    for (int i = 0; i < 32; i++)
        sums[i] = 0;
    for (uint32_t k = 1; k < l; k++) {
        uint8_t *d = m + 32 * (size_t)(k - 1), z[16];
        next_link(c, k, link);
        copy(z, link, 16);
        encrypt(c, C, k, st + 16, z);
        add(d, z, 16);
        add(d + 16, z, 16);
        add(d + 16, link, 16);
        alpha(sums);
        alpha(sums);
        add(sums, d, 16);
        add(sums, d + 16, 16);
        alpha(sums + 16);
        add(sums + 16, d + 16, 16);
        encrypt(c, B, k, d, d + 16);
    }
    encrypt(c, CS, l, st + 16, st);
    copy(last, st, 32);
    encrypt(c, BS, l, st, last + 16);
    add_crossed(c, YL, YR, l, sums, last);
    if (r > 0) {
        uint8_t mask[32];
        add(before, last, 32);
        hash(c, 2, before, mask);
        add(tail, mask, r);
        tail_hash(c, 4, tail, r, last);
    }
    copy(m + 32 * (size_t)(l - 1), last, 32);
}

void plain_decipher(const struct cipher *c, uint8_t *m, size_t n) {
    uint32_t l = (uint32_t)(n / 32);
    size_t r = n % 32;
    uint8_t *tail = m + 32 * (size_t)l, after[32], st[32], link[16], last[32], sums[32] = {0};
    copy(last, m + 32 * (size_t)(l - 1), 32);
    if (r > 0)
        tail_hash(c, 4, tail, r, last);
    copy(after, last, 32);
    for (uint32_t k = 1; k < l; k++) {
        uint8_t *d = m + 32 * (size_t)(k - 1);
        decrypt(c, B, k, d, d + 16);
        alpha(sums);
        alpha(sums);
        add(sums, d, 16);
        add(sums, d + 16, 16);
        alpha(sums + 16);
        add(sums + 16, d + 16, 16);
    }
    add_crossed(c, YL, YR, l, sums, last);
    copy(st, last, 32);
    decrypt(c, BS, l, last, st + 16);
    decrypt(c, CS, l, st + 16, st);
    copy(link, st, 16);
    for (int i = 0; i < 32; i++)
        sums[i] = 0;
    for (uint32_t k = 1; k < l; k++) {
        uint8_t *d = m + 32 * (size_t)(k - 1), z[16];
        next_link(c, k, link);
        copy(z, link, 16);
        encrypt(c, C, k, st + 16, z);
        add(d, z, 16);
        add(d + 16, z, 16);
        add(d + 16, link, 16);
        alpha(sums);
        add(sums, d, 16);
        alpha(sums + 16);
        alpha(sums + 16);
        add(sums + 16, d, 16);
        add(sums + 16, d + 16, 16);
        decrypt(c, T, k, d + 16, d);
    }
    decrypt(c, SS, l, st, st + 16);
    copy(last, st, 32);
    decrypt(c, TS, l, st + 16, last);
    add_crossed(c, XL, XR, l, sums, last);
    if (r > 0) {
        uint8_t mask[32];
        add(after, last, 32);
        hash(c, 2, after, mask);
        add(tail, mask, r);
        tail_hash(c, 0, tail, r, last);
    }
    copy(m + 32 * (size_t)(l - 1), last, 32);
}
