// The store's calls for commissioning sheets over the plain mode, straight from docs/FORMATS.md and docs/STORE.md: the plain
// C that the proved code is measured against. Each call expands its key.
#include <string.h>

#include "plain.h"

static struct cipher make(uint32_t cascade, const uint8_t key[16], uint8_t round_keys[176]) {
    if (!cascade)
        return (struct cipher){key, plain_skinny_encrypt, plain_skinny_decrypt};
    plain_aes_expand(key, round_keys);
    return (struct cipher){round_keys, plain_cascade_encrypt, plain_cascade_decrypt};
}

void plain_encipher_under(uint32_t cascade, const uint8_t key[16], uint8_t *message, size_t n) {
    uint8_t round_keys[176];
    struct cipher c = make(cascade, key, round_keys);
    plain_encipher(&c, message, n);
}

void plain_decipher_under(uint32_t cascade, const uint8_t key[16], uint8_t *message, size_t n) {
    uint8_t round_keys[176];
    struct cipher c = make(cascade, key, round_keys);
    plain_decipher(&c, message, n);
}

// A field of the sheet is wrong.
static int wrong(const uint32_t sheet[7]) {
    if (sheet[0] < 1 || sheet[0] > 9999 || sheet[1] < 1 || sheet[1] > 9999 || sheet[0] == sheet[1])
        return 1;
    for (int i = 2; i < 7; i++)
        if (sheet[i] > 1000)
            return 1;
    return 0;
}

// What an opened page of a slot says.
static int say(const uint8_t *p, size_t page, size_t slot, uint32_t sheet[7], int *found) {
    static const uint8_t zeros[10];
    if (memcmp(p, "COMM", 4) != 0 || p[4] > 1 || p[5] != slot || memcmp(p + 6, zeros, 10) != 0)
        return 6;
    for (size_t i = p[4] == 1 ? 30 : 16; i < page; i++)
        if (p[i] != 0)
            return 6;
    *found = p[4];
    if (p[4] == 0)
        return 0;
    for (int i = 0; i < 7; i++)
        sheet[i] = (uint32_t)p[16 + 2 * i] << 8 | p[17 + 2 * i];
    return wrong(sheet) ? 7 : 0;
}

int plain_put(uint32_t cascade, const uint8_t key[16], size_t slots, size_t page,
              uint8_t *memory, size_t slot, const uint32_t sheet[7]) {
    if (wrong(sheet))
        return 8;
    if (slot >= slots)
        return 4;
    uint8_t *p = memory + slot * page;
    memset(p, 0, page);
    memcpy(p, "COMM", 4);
    p[4] = 1;
    p[5] = (uint8_t)slot;
    for (int i = 0; i < 7; i++) {
        p[16 + 2 * i] = (uint8_t)(sheet[i] >> 8);
        p[17 + 2 * i] = (uint8_t)sheet[i];
    }
    plain_encipher_under(cascade, key, p, page);
    return 0;
}

int plain_get(uint32_t cascade, const uint8_t key[16], size_t slots, size_t page,
              const uint8_t *memory, size_t slot, uint8_t *working, uint32_t sheet[7], int *found) {
    if (slot >= slots)
        return 4;
    memcpy(working, memory + slot * page, page);
    plain_decipher_under(cascade, key, working, page);
    int refused = say(working, page, slot, sheet, found);
    memset(working, 0, page);
    return refused;
}

// Every page is opened before one is written, and then each is opened again and sealed under the new key.
int plain_change(uint32_t cascade, const uint8_t key[16], size_t slots, size_t page,
                 uint8_t *memory, const uint8_t new_key[16], uint8_t *working) {
    uint8_t round_keys[176], new_round_keys[176];
    struct cipher from = make(cascade, key, round_keys), to = make(cascade, new_key, new_round_keys);
    int refused = 0;
    for (size_t slot = 0; slot < slots && !refused; slot++) {
        uint32_t sheet[7];
        int found;
        memcpy(working, memory + slot * page, page);
        plain_decipher(&from, working, page);
        refused = say(working, page, slot, sheet, &found);
    }
    for (size_t slot = 0; slot < slots && !refused; slot++) {
        memcpy(working, memory + slot * page, page);
        plain_decipher(&from, working, page);
        plain_encipher(&to, working, page);
        memcpy(memory + slot * page, working, page);
    }
    memset(working, 0, page);
    return refused;
}
