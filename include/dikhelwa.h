/*
 * Dikhelwa: sealed pages, for C.
 *
 * Every call is made of its arguments alone: nothing is kept between calls, nothing is allocated, and calls on different
 * memories can be made at the same time. The caller keeps the key, the geometry and the memory.
 *
 * What the caller owes, since C cannot tell it to us: a pointer is not null and points to as many bytes as the length
 * behind it says (or to the struct that it is declared to point to), and the memories handed to one call do not overlap.
 * Everything else is checked, and answered.
 */
#ifndef DIKHELWA_H
#define DIKHELWA_H

#include <stddef.h>
#include <stdint.h>

#ifdef __cplusplus
extern "C" {
#endif

/* The ciphers. Any other selector is refused 100. */
enum {
    DIKHELWA_SKINNY = 0,  /* SKINNY-128-384 */
    DIKHELWA_CASCADE = 1, /* the cascade over AES-128 */
    DIKHELWA_BENCH = 2    /* the bench cipher: it has no key and hides nothing */
};

/*
 * What a call answers. `number` is 0 where it was accepted, and else the refusal's number:
 *
 *     1  the message is not of 32 to 65,536 bytes
 *     2  not 1 to 64 slots, or not 64 to 4,096 bytes in a page
 *     3  the memory is not exactly slots x page_length bytes
 *     4  the slot is not below `slots`
 *     5  the working buffer is shorter than a page
 *     6  a page's head is wrong, or a byte that must be zero is not: `slot` tells which page
 *     7  a page's record is out of range: `slot` and `field` tell where
 *     8  the record handed over is out of range: `field` tells where
 *   100  there is no such cipher
 *   101  the key is not of 16 bytes
 *
 * `slot` and `field` are 0 where the number has no such value. Fields count from 1. `found` is 1 where a get was accepted
 * and the slot holds a record, and else 0.
 */
typedef struct {
    uint32_t number;
    uint32_t slot;
    uint32_t field;
    uint32_t found;
} dikhelwa_answer;

/* A commissioning sheet: sensors 1 to 9,999, not the same; temperatures 0 to 1,000 tenths of a degree. */
typedef struct {
    uint32_t sensor1;
    uint32_t sensor2;
    uint32_t flow;
    uint32_t returned;
    uint32_t water;
    uint32_t room;
    uint32_t brine;
} dikhelwa_sheet;

/* A parameter set: slope 10 to 350 hundredths, shift -100 to 100 tenths, flow maximum 200 to 650 tenths, hot water target
 * from 300 tenths to the flow maximum, mode 0 to 3. */
typedef struct {
    uint32_t slope;
    int32_t shift;
    uint32_t flow;
    uint32_t water;
    uint32_t mode;
} dikhelwa_parameters;

/*
 * A message of 32 to 65,536 bytes, in place. Refused 100, 101, 1, in this order; then the message is as it was.
 */
dikhelwa_answer dikhelwa_encipher(uint32_t cipher, const uint8_t *key, size_t key_length, uint8_t *message,
                                  size_t message_length);
dikhelwa_answer dikhelwa_decipher(uint32_t cipher, const uint8_t *key, size_t key_length, uint8_t *message,
                                  size_t message_length);

/*
 * The calls of a store, for sheets and for parameter sets. Each is refused 100, 101 and 2 first, in this order, then 8 at
 * a put, and then as the store refuses: 3, 4, 5, 6, 7. A refused call leaves the memory as it was.
 *
 * get and change open pages in the working buffer, of at least `page_length` bytes. Once the checks up to 5 are passed, its
 * first `page_length` bytes are zero afterwards and the others as they were; else no byte of it has changed. get writes the
 * record only where `found` is 1. After an accepted change the memory is sealed under `new_key`; a change is refused 101 where
 * either key is not of 16 bytes.
 */
dikhelwa_answer dikhelwa_sheet_form(uint32_t cipher, const uint8_t *key, size_t key_length, size_t slots,
                                    size_t page_length, uint8_t *memory, size_t memory_length);
dikhelwa_answer dikhelwa_sheet_put(uint32_t cipher, const uint8_t *key, size_t key_length, size_t slots,
                                   size_t page_length, uint8_t *memory, size_t memory_length, size_t slot,
                                   const dikhelwa_sheet *sheet);
dikhelwa_answer dikhelwa_sheet_get(uint32_t cipher, const uint8_t *key, size_t key_length, size_t slots,
                                   size_t page_length, const uint8_t *memory, size_t memory_length, size_t slot,
                                   uint8_t *working, size_t working_length, dikhelwa_sheet *sheet);
dikhelwa_answer dikhelwa_sheet_clear(uint32_t cipher, const uint8_t *key, size_t key_length, size_t slots,
                                     size_t page_length, uint8_t *memory, size_t memory_length, size_t slot);
dikhelwa_answer dikhelwa_sheet_change(uint32_t cipher, const uint8_t *key, size_t key_length, size_t slots,
                                      size_t page_length, uint8_t *memory, size_t memory_length,
                                      const uint8_t *new_key, size_t new_key_length, uint8_t *working,
                                      size_t working_length);

dikhelwa_answer dikhelwa_parameters_form(uint32_t cipher, const uint8_t *key, size_t key_length, size_t slots,
                                         size_t page_length, uint8_t *memory, size_t memory_length);
dikhelwa_answer dikhelwa_parameters_put(uint32_t cipher, const uint8_t *key, size_t key_length, size_t slots,
                                        size_t page_length, uint8_t *memory, size_t memory_length, size_t slot,
                                        const dikhelwa_parameters *parameters);
dikhelwa_answer dikhelwa_parameters_get(uint32_t cipher, const uint8_t *key, size_t key_length, size_t slots,
                                        size_t page_length, const uint8_t *memory, size_t memory_length, size_t slot,
                                        uint8_t *working, size_t working_length, dikhelwa_parameters *parameters);
dikhelwa_answer dikhelwa_parameters_clear(uint32_t cipher, const uint8_t *key, size_t key_length, size_t slots,
                                          size_t page_length, uint8_t *memory, size_t memory_length, size_t slot);
dikhelwa_answer dikhelwa_parameters_change(uint32_t cipher, const uint8_t *key, size_t key_length, size_t slots,
                                           size_t page_length, uint8_t *memory, size_t memory_length,
                                           const uint8_t *new_key, size_t new_key_length, uint8_t *working,
                                           size_t working_length);

#ifdef __cplusplus
}
#endif

#endif
