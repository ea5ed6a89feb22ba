/* The guest's part of the benchmark: how requests get onto the page. */
#ifndef GUEST_H
#define GUEST_H

#include "zwerfen.h"

typedef uint32_t event_call(zwerfen_interface *interface, uint8_t *page, size_t page_length);

/* Puts octets into the request area behind those that are there, and moves req_prod over them. */
void put_requests(uint8_t *page, const uint8_t *octets, size_t length);

void put_header(uint8_t *message, uint32_t type, uint32_t size);

/* A set mapping of 128 entries, random and below the number of queues: header and payload. */
void put_set_mapping(uint8_t *message, uint32_t queues);

/* Has a whole request carried out, in pieces where the area cannot hold it. The benchmark ends if that goes wrong. */
void request(event_call *event, zwerfen_interface *interface, uint8_t *page, const uint8_t *message, size_t length);

/* A distance of two counts that is one octet too far or, more seldom, just not too far. */
uint32_t about_the_limit(void);

#endif
