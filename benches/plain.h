// The plain C that the proved code is measured against.
#include <stddef.h>
#include <stdint.h>

void plain_skinny_encrypt(const uint8_t key[16], const uint8_t head[16], const uint8_t body[16], uint8_t block[16]);
void plain_skinny_decrypt(const uint8_t key[16], const uint8_t head[16], const uint8_t body[16], uint8_t block[16]);

void plain_aes_expand(const uint8_t key[16], uint8_t round_keys[176]);
void plain_aes_encrypt(const uint8_t round_keys[176], uint8_t block[16]);
void plain_aes_decrypt(const uint8_t round_keys[176], uint8_t block[16]);
void plain_cascade_encrypt(const uint8_t round_keys[176], const uint8_t head[16], const uint8_t body[16], uint8_t block[16]);
void plain_cascade_decrypt(const uint8_t round_keys[176], const uint8_t head[16], const uint8_t body[16], uint8_t block[16]);

typedef void plain_call(const uint8_t *state, const uint8_t head[16], const uint8_t body[16], uint8_t block[16]);

// A cipher for the mode: its two directions, over its key or round keys.
struct cipher {
    const uint8_t *state;
    plain_call *encrypt, *decrypt;
};

// A message of 32 to 65,536 bytes in place.
void plain_encipher(const struct cipher *c, uint8_t *message, size_t n);
void plain_decipher(const struct cipher *c, uint8_t *message, size_t n);

// The calls that start from a key; `cascade` is 0 for SKINNY and 1 for the cascade.
void plain_encipher_under(uint32_t cascade, const uint8_t key[16], uint8_t *message, size_t n);
void plain_decipher_under(uint32_t cascade, const uint8_t key[16], uint8_t *message, size_t n);

// The store's calls for commissioning sheets, as docs/STORE.md tells them. They answer 0, or the number of the refusal; a
// get also whether a record was found. The caller answers for the lengths, and hands over a working buffer of one page.
int plain_put(uint32_t cascade, const uint8_t key[16], size_t slots, size_t page,
              uint8_t *memory, size_t slot, const uint32_t sheet[7]);
int plain_get(uint32_t cascade, const uint8_t key[16], size_t slots, size_t page,
              const uint8_t *memory, size_t slot, uint8_t *working, uint32_t sheet[7], int *found);
int plain_change(uint32_t cascade, const uint8_t key[16], size_t slots, size_t page,
                 uint8_t *memory, const uint8_t new_key[16], uint8_t *working);
