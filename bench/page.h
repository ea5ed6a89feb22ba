/* Where things stand on the shared page and in a message by document 01, and how numbers are got from there and put. */
#ifndef PAGE_H
#define PAGE_H

#include <stdint.h>
#include <string.h>

enum { REQ_CONS = 0, REQ_PROD = 4, RSP_CONS = 8, RSP_PROD = 12, REQUESTS = 16, RESPONSES = 1040 };

/* Octets of a message's header, of the number for flags, and of each mapping entry. */
enum { HEADER = 8, FLAGS = 8, ENTRY = 8 };

_Static_assert(__BYTE_ORDER__ == __ORDER_LITTLE_ENDIAN__, "numbers are loaded as they stand");

static inline uint32_t load32(const uint8_t *from)
{
    uint32_t value;
    memcpy(&value, from, sizeof value);
    return value;
}

static inline uint64_t load64(const uint8_t *from)
{
    uint64_t value;
    memcpy(&value, from, sizeof value);
    return value;
}

static inline void store32(uint8_t *to, uint32_t value)
{
    memcpy(to, &value, sizeof value);
}

static inline void store64(uint8_t *to, uint64_t value)
{
    memcpy(to, &value, sizeof value);
}

#endif
