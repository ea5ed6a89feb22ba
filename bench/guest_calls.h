/* The calls of a guest's end, ours or plain C, in one place. */
#ifndef GUEST_CALLS_H
#define GUEST_CALLS_H

#include "zwerfen.h"

typedef struct guest_calls {
    void (*set_up)(zwerfen_guest *guest);
    uint32_t (*start_get_flags)(zwerfen_guest *guest, uint8_t *page, size_t page_length);
    uint32_t (*start_set_flags)(zwerfen_guest *guest, uint8_t *page, size_t page_length, uint64_t flags);
    uint32_t (*start_set_key)(zwerfen_guest *guest, uint8_t *page, size_t page_length, const uint8_t *key,
                              size_t key_length);
    uint32_t (*start_set_mapping)(zwerfen_guest *guest, uint8_t *page, size_t page_length, const uint64_t *entries,
                                  size_t entry_count);
    uint32_t (*event)(zwerfen_guest *guest, uint8_t *page, size_t page_length, uint32_t *status, uint32_t *flags);
} guest_calls;

extern const guest_calls our_guest_calls, plain_guest_calls;

#endif
