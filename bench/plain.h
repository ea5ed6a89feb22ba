/* Both ends of the ring and the packet question in plain, unproved C: the peers of our calls, on the same state. */
#ifndef PLAIN_H
#define PLAIN_H

#include "zwerfen.h"

uint32_t plain_set_up(zwerfen_interface *interface, uint32_t queues);
uint32_t plain_event(zwerfen_interface *interface, uint8_t *page, size_t page_length);
uint32_t plain_steer(const zwerfen_interface *interface, const uint8_t *packet, size_t packet_length,
                     uint32_t *hash_type, uint32_t *hash, uint32_t *queue);

void plain_guest_set_up(zwerfen_guest *guest);
uint32_t plain_guest_start_get_flags(zwerfen_guest *guest, uint8_t *page, size_t page_length);
uint32_t plain_guest_start_set_flags(zwerfen_guest *guest, uint8_t *page, size_t page_length, uint64_t flags);
uint32_t plain_guest_start_set_key(zwerfen_guest *guest, uint8_t *page, size_t page_length, const uint8_t *key,
                                   size_t key_length);
uint32_t plain_guest_start_set_mapping(zwerfen_guest *guest, uint8_t *page, size_t page_length,
                                       const uint64_t *entries, size_t entry_count);
uint32_t plain_guest_event(zwerfen_guest *guest, uint8_t *page, size_t page_length, uint32_t *status, uint32_t *flags);

#endif
