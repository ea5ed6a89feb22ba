/* The rules of document 01 as a C programmer writes them with care for speed; the hash is that of Xen's header. */
#include "plain.h"

#include "page.h"
#include "plain_ring.h"

#include <stdbool.h>
#include <string.h>

#define XEN_NETIF_DEFINE_TOEPLITZ
#include <xen/io/netif.h>

enum { PROTOCOL_TCP = 6 };

uint32_t plain_set_up(zwerfen_interface *interface, uint32_t queues)
{
    if (queues == 0 || queues > ZWERFEN_MAX_QUEUES)
        return ZWERFEN_QUEUES;
    memset(interface, 0, sizeof *interface);
    interface->queues = queues;
    interface->entry_count = 1;
    return ZWERFEN_DONE;
}

static void count_taken(zwerfen_interface *interface, size_t length)
{
    interface->req_cons = moved(interface->req_cons, length);
    interface->taken += length;
}

/* Reads until the request is whole or nothing is left, and says whether it is whole. */
static bool read_request(zwerfen_interface *interface, const uint8_t *requests, size_t unread)
{
    if (interface->taken < HEADER) {
        size_t length = take_header(interface->header, interface->taken, requests, interface->req_cons, unread);
        count_taken(interface, length);
        unread -= length;
        if (interface->taken < HEADER)
            return false;
    }
    uint64_t size = load32(interface->header + 4);
    uint64_t taken = interface->taken - HEADER;
    size_t length = least(unread, size - taken);
    /* Payload that has no place is counted alone. */
    if (length > 0 && taken < ZWERFEN_MAX_PAYLOAD)
        copy_from_area(interface->payload + taken, requests, interface->req_cons,
                       least(length, ZWERFEN_MAX_PAYLOAD - taken));
    count_taken(interface, length);
    return taken + length == size;
}

static uint32_t set_flags(zwerfen_interface *interface, uint32_t size, const uint8_t *payload)
{
    if (size != FLAGS || load64(payload) > SUPPORTED_FLAGS)
        return ZWERFEN_INVALID_PARAMETER;
    interface->flags = payload[0];
    return ZWERFEN_SUCCESS;
}

static uint32_t set_key(zwerfen_interface *interface, uint32_t size, const uint8_t *payload)
{
    if (size != ZWERFEN_KEY)
        return ZWERFEN_INVALID_PARAMETER;
    memcpy(interface->key, payload, ZWERFEN_KEY);
    return ZWERFEN_SUCCESS;
}

/* The table is made in a second place and moved in whole, so that a late bad entry leaves no half table. */
static uint32_t set_mapping(zwerfen_interface *interface, uint32_t size, const uint8_t *payload)
{
    uint32_t count = size / ENTRY;
    if (size % ENTRY != 0 || count == 0 || (count & (count - 1)) != 0)
        return ZWERFEN_INVALID_PARAMETER;
    if (count > ZWERFEN_MAX_ENTRIES)
        return ZWERFEN_BUFFER_OVERFLOW;
    uint8_t entries[ZWERFEN_MAX_ENTRIES];
    uint64_t any_bit = 0;
    uint8_t highest = 0;
    for (uint32_t i = 0; i < count; i++) {
        uint64_t entry = load64(payload + i * ENTRY);
        any_bit |= entry;
        entries[i] = (uint8_t)entry;
    }
    for (uint32_t i = 0; i < count; i++)
        highest = entries[i] > highest ? entries[i] : highest;
    /* Both loops can be done on many entries at once; a comparison of each whole entry could not. */
    if (any_bit > UINT8_MAX || highest >= interface->queues)
        return ZWERFEN_INVALID_PARAMETER;
    memcpy(interface->entries, entries, count);
    interface->entry_count = count;
    return ZWERFEN_SUCCESS;
}

static uint32_t judge(zwerfen_interface *interface, uint32_t type, uint32_t size, const uint8_t *payload)
{
    switch (type) {
    case ZWERFEN_GET_FLAGS:
        return size == 0 ? ZWERFEN_SUCCESS : ZWERFEN_INVALID_PARAMETER;
    case ZWERFEN_SET_FLAGS:
        return set_flags(interface, size, payload);
    case ZWERFEN_SET_KEY:
        return set_key(interface, size, payload);
    case ZWERFEN_SET_MAPPING:
        return set_mapping(interface, size, payload);
    default:
        return ZWERFEN_NOT_SUPPORTED;
    }
}

static void carry_out(zwerfen_interface *interface)
{
    uint32_t type = load32(interface->header);
    uint32_t size = load32(interface->header + 4);
    uint32_t status = judge(interface, type, size, interface->payload);
    bool has_flags = type == ZWERFEN_GET_FLAGS && status == ZWERFEN_SUCCESS;
    uint8_t *ack = interface->ack;
    store64(ack, MESSAGE_ACK | (has_flags ? 16ull : 8ull) << 32);
    store64(ack + HEADER, status);
    store64(ack + HEADER + 8, SUPPORTED_FLAGS);
    interface->ack_length = has_flags ? HEADER + 16 : HEADER + 8;
    interface->ack_written = 0;
    interface->taken = 0;
}

/* As much of the ack as fits. */
static uint32_t write_ack(zwerfen_interface *interface, uint8_t *responses, size_t room)
{
    const uint8_t *ack = interface->ack + interface->ack_written;
    size_t length = least(interface->ack_length - interface->ack_written, room);
    copy_to_area(responses, interface->rsp_prod, ack, length, copy_words);
    interface->ack_written += length;
    interface->rsp_prod = moved(interface->rsp_prod, length);
    return interface->ack_written == interface->ack_length ? ZWERFEN_ACK_WRITTEN : ZWERFEN_ACK_OWED;
}

uint32_t plain_event(zwerfen_interface *interface, uint8_t *page, size_t page_length)
{
    if (page_length != ZWERFEN_PAGE)
        return ZWERFEN_PAGE_LENGTH;
    uint32_t unread = distance(load32(page + REQ_PROD), interface->req_cons);
    if (unread > ZWERFEN_AREA)
        return ZWERFEN_REQUEST_COUNT;
    uint32_t unread_by_guest = distance(interface->rsp_prod, load32(page + RSP_CONS));
    if (unread_by_guest > ZWERFEN_AREA)
        return ZWERFEN_RESPONSE_COUNT;

    uint32_t answer = ZWERFEN_WAITING;
    bool owed = interface->ack_written < interface->ack_length;
    if (!owed && unread > 0 && read_request(interface, page + REQUESTS, unread)) {
        carry_out(interface);
        owed = true;
    }
    if (owed)
        answer = write_ack(interface, page + RESPONSES, ZWERFEN_AREA - unread_by_guest);
    store32(page + REQ_CONS, (uint32_t)interface->req_cons);
    store32(page + RSP_PROD, (uint32_t)interface->rsp_prod);
    return answer;
}

uint32_t plain_steer(const zwerfen_interface *interface, const uint8_t *packet, size_t packet_length,
                     uint32_t *hash_type, uint32_t *hash, uint32_t *queue)
{
    uint32_t plain_type, tcp_type, start, length;
    bool tcp;
    *queue = 0;
    if (packet_length >= 20 && packet[0] == 0x45) {
        plain_type = ZWERFEN_IPV4, tcp_type = ZWERFEN_IPV4_TCP, start = 12, length = 8;
        tcp = packet_length >= 24 && packet[9] == PROTOCOL_TCP && ((packet[6] & 0x3F) | packet[7]) == 0;
    } else if (packet_length >= 40 && packet[0] >> 4 == 6) {
        plain_type = ZWERFEN_IPV6, tcp_type = ZWERFEN_IPV6_TCP, start = 8, length = 32;
        tcp = packet_length >= 44 && packet[6] == PROTOCOL_TCP;
    } else {
        return ZWERFEN_UNHASHED;
    }
    if (tcp && interface->flags >> tcp_type & 1) {
        *hash_type = tcp_type;
        length += 4;
    } else if (interface->flags >> plain_type & 1) {
        *hash_type = plain_type;
    } else {
        return ZWERFEN_UNHASHED;
    }
    *hash = xen_netif_toeplitz_hash(interface->key, ZWERFEN_KEY, packet + start, length);
    /* The count is a power of two, so the remainder needs no division. */
    *queue = interface->entries[*hash & (interface->entry_count - 1)];
    return ZWERFEN_HASHED;
}
