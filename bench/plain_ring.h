/* What both ends in plain C share: octets of an area, which go on at its start where they reach its end. */
#ifndef PLAIN_RING_H
#define PLAIN_RING_H

#include "page.h"
#include "zwerfen.h"

#include <string.h>

enum { MESSAGE_ACK = 1, STATUS = 8, SUPPORTED_FLAGS = 15 };

static inline uint64_t least(uint64_t a, uint64_t b)
{
    return a < b ? a : b;
}

/* A count has 32 bits and is kept in 64, so it is cut where it moves. */
static inline uint64_t moved(uint64_t count, size_t octets)
{
    return (uint32_t)(count + octets);
}

/* How far a count is ahead of another. */
static inline uint32_t distance(uint64_t ahead, uint64_t behind)
{
    return (uint32_t)(ahead - behind);
}

/* Octets of an area from the one with this count on. */
static inline void copy_from_area(uint8_t *to, const uint8_t *area, uint64_t count, size_t length)
{
    size_t at = count % ZWERFEN_AREA;
    size_t to_the_end = ZWERFEN_AREA - at;
    if (length <= to_the_end) {
        memcpy(to, area + at, length);
    } else {
        memcpy(to, area + at, to_the_end);
        memcpy(to + to_the_end, area, length - to_the_end);
    }
}

/*
 * Takes what is missing of a header, as far as it is there, and answers how many octets that is. Most headers come
 * whole and in one piece, so they are spared the copy of a length known only at run time.
 */
static inline size_t take_header(uint8_t *header, uint64_t taken, const uint8_t *area, uint64_t count, size_t unread)
{
    size_t at = count % ZWERFEN_AREA;
    size_t length = least(unread, HEADER - taken);
    if (length == HEADER && at <= ZWERFEN_AREA - HEADER)
        memcpy(header, area + at, HEADER);
    else
        copy_from_area(header + taken, area, count, length);
    return length;
}

/* Copies by words what was stored a moment ago: a wider load would have to wait for those stores. */
static inline void copy_words(uint8_t *to, const uint8_t *from, size_t length)
{
    for (; length >= 8; length -= 8, to += 8, from += 8)
        store64(to, load64(from));
    if (length > 0)
        memcpy(to, from, length);
}

typedef void copying(uint8_t *to, const uint8_t *from, size_t length);

/* Octets to an area from the place with this count on, each of the two parts by the copying that suits them. */
static inline void copy_to_area(uint8_t *area, uint64_t count, const uint8_t *from, size_t length, copying *copy)
{
    size_t at = count % ZWERFEN_AREA;
    size_t end_part = least(length, ZWERFEN_AREA - at);
    copy(area + at, from, end_part);
    copy(area, from + end_part, length - end_part);
}

#endif
