/* The guest's part of the benchmark: octets put into the request area, messages made, and whole requests sent. */
#include "guest.h"

#include "measure.h"
#include "page.h"

void put_requests(uint8_t *page, const uint8_t *octets, size_t length)
{
    uint32_t req_prod = load32(page + REQ_PROD);
    for (size_t i = 0; i < length; i++)
        page[REQUESTS + (req_prod + i) % ZWERFEN_AREA] = octets[i];
    store32(page + REQ_PROD, req_prod + (uint32_t)length);
}

void put_header(uint8_t *message, uint32_t type, uint32_t size)
{
    store32(message, type);
    store32(message + 4, size);
}

void put_set_mapping(uint8_t *message, uint32_t queues)
{
    put_header(message, ZWERFEN_SET_MAPPING, ZWERFEN_MAX_ENTRIES * ENTRY);
    for (size_t i = 0; i < ZWERFEN_MAX_ENTRIES; i++)
        store64(message + HEADER + i * ENTRY, random_below(queues));
}

void request(event_call *event, zwerfen_interface *interface, uint8_t *page, const uint8_t *message, size_t length)
{
    while (length > 0) {
        size_t piece = length < ZWERFEN_AREA ? length : ZWERFEN_AREA;
        put_requests(page, message, piece);
        message += piece;
        length -= piece;
        store32(page + RSP_CONS, (uint32_t)interface->rsp_prod);
        if (event(interface, page, ZWERFEN_PAGE) != (length > 0 ? ZWERFEN_WAITING : ZWERFEN_ACK_WRITTEN))
            stop_because("a whole request was not carried out");
    }
}

uint32_t about_the_limit(void)
{
    return one_in(16) ? ZWERFEN_AREA : ZWERFEN_AREA + 1;
}
