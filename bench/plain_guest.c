/* The guest's end of the ring as a C programmer writes it with care for speed, with the checks of the library. */
#include "plain.h"

#include "page.h"
#include "plain_ring.h"

#include <stdbool.h>
#include <string.h>

/* What a call finds on the page: why it is refused, or 0 with the room for requests and the octets unread of acks. */
typedef struct found {
    uint32_t refusal;
    uint32_t room;
    uint32_t unread;
} found;

static found look(const zwerfen_guest *guest, const uint8_t *page, size_t page_length)
{
    if (page_length != ZWERFEN_PAGE)
        return (found){.refusal = ZWERFEN_PAGE_LENGTH};
    uint32_t unread_by_host = distance(guest->req_prod, load32(page + REQ_CONS));
    if (unread_by_host > ZWERFEN_AREA)
        return (found){.refusal = ZWERFEN_REQUEST_COUNT};
    uint32_t unread = distance(load32(page + RSP_PROD), guest->rsp_cons);
    if (unread > ZWERFEN_AREA)
        return (found){.refusal = ZWERFEN_RESPONSE_COUNT};
    if (guest->phase == ZWERFEN_GUEST_FAILED)
        return (found){.refusal = ZWERFEN_NOT_AN_ACK};
    return (found){.room = ZWERFEN_AREA - unread_by_host, .unread = unread};
}

static found look_before_start(const zwerfen_guest *guest, const uint8_t *page, size_t page_length)
{
    found found = look(guest, page, page_length);
    if (found.refusal == 0 && guest->phase == ZWERFEN_GUEST_OUTSTANDING)
        found.refusal = ZWERFEN_REQUEST_OUTSTANDING;
    return found;
}

static void put_own_counts(const zwerfen_guest *guest, uint8_t *page)
{
    store32(page + REQ_PROD, (uint32_t)guest->req_prod);
    store32(page + RSP_CONS, (uint32_t)guest->rsp_cons);
}

/* Of a long request only the first octets were stored a moment ago, so the faster copy is worth a wait. */
static void copy_request(uint8_t *to, const uint8_t *from, size_t length)
{
    if (length > 64)
        memcpy(to, from, length);
    else
        copy_words(to, from, length);
}

/* As much of the request as fits. */
static uint32_t write_request(zwerfen_guest *guest, uint8_t *page, size_t room)
{
    size_t length = least(guest->length - guest->written, room);
    copy_to_area(page + REQUESTS, guest->req_prod, guest->request + guest->written, length, copy_request);
    guest->written += length;
    guest->req_prod = moved(guest->req_prod, length);
    return guest->written == guest->length ? ZWERFEN_REQUEST_PENDING : ZWERFEN_REQUEST_OWED;
}

/* Begins a request whose payload is in its place. */
static uint32_t begin(zwerfen_guest *guest, uint8_t *page, size_t room, uint32_t type, size_t size)
{
    store64(guest->request, type | (uint64_t)size << 32);
    guest->phase = ZWERFEN_GUEST_OUTSTANDING;
    guest->length = HEADER + size;
    guest->written = 0;
    uint32_t answer = write_request(guest, page, room);
    put_own_counts(guest, page);
    return answer;
}

void plain_guest_set_up(zwerfen_guest *guest)
{
    memset(guest, 0, sizeof *guest);
}

uint32_t plain_guest_start_get_flags(zwerfen_guest *guest, uint8_t *page, size_t page_length)
{
    found found = look_before_start(guest, page, page_length);
    if (found.refusal != 0)
        return found.refusal;
    return begin(guest, page, found.room, ZWERFEN_GET_FLAGS, 0);
}

uint32_t plain_guest_start_set_flags(zwerfen_guest *guest, uint8_t *page, size_t page_length, uint64_t flags)
{
    found found = look_before_start(guest, page, page_length);
    if (found.refusal != 0)
        return found.refusal;
    if (flags > SUPPORTED_FLAGS)
        return ZWERFEN_VALUE;
    store64(guest->request + HEADER, flags);
    return begin(guest, page, found.room, ZWERFEN_SET_FLAGS, FLAGS);
}

uint32_t plain_guest_start_set_key(zwerfen_guest *guest, uint8_t *page, size_t page_length, const uint8_t *key,
                                   size_t key_length)
{
    found found = look_before_start(guest, page, page_length);
    if (found.refusal != 0)
        return found.refusal;
    if (key_length != ZWERFEN_KEY)
        return ZWERFEN_KEY_LENGTH;
    memcpy(guest->request + HEADER, key, ZWERFEN_KEY);
    return begin(guest, page, found.room, ZWERFEN_SET_KEY, ZWERFEN_KEY);
}

uint32_t plain_guest_start_set_mapping(zwerfen_guest *guest, uint8_t *page, size_t page_length,
                                       const uint64_t *entries, size_t entry_count)
{
    found found = look_before_start(guest, page, page_length);
    if (found.refusal != 0)
        return found.refusal;
    if (entry_count == 0 || entry_count > ZWERFEN_MAX_ENTRIES || (entry_count & (entry_count - 1)) != 0)
        return ZWERFEN_VALUE;
    memcpy(guest->request + HEADER, entries, entry_count * ENTRY);
    return begin(guest, page, found.room, ZWERFEN_SET_MAPPING, entry_count * ENTRY);
}

static void count_taken(zwerfen_guest *guest, size_t length)
{
    guest->rsp_cons = moved(guest->rsp_cons, length);
    guest->taken += length;
}

/* The reader's judgement of a whole ack, whose size is 8 or 16. */
static bool is_good_ack(const zwerfen_guest *guest, bool has_flags)
{
    uint64_t right_size = has_flags ? STATUS + FLAGS : STATUS;
    return load64(guest->header) == (MESSAGE_ACK | right_size << 32) &&
           load64(guest->payload) <= ZWERFEN_BUFFER_OVERFLOW &&
           (!has_flags || load64(guest->payload + STATUS) <= SUPPORTED_FLAGS);
}

static uint32_t judge_ack(zwerfen_guest *guest, uint32_t *status, uint32_t *flags)
{
    bool has_flags = load32(guest->request) == ZWERFEN_GET_FLAGS && load64(guest->payload) == ZWERFEN_SUCCESS;
    if (!is_good_ack(guest, has_flags))
        return ZWERFEN_NOT_AN_ACK;
    *status = guest->payload[0];
    if (has_flags)
        *flags = guest->payload[STATUS];
    guest->phase = ZWERFEN_GUEST_IDLE;
    guest->taken = 0;
    return ZWERFEN_ACK_READ;
}

/* Reads until the ack is whole or nothing is left; a wrong size shows at the header. */
static uint32_t read_ack(zwerfen_guest *guest, const uint8_t *responses, size_t unread, uint32_t *status,
                         uint32_t *flags)
{
    if (guest->taken < HEADER) {
        size_t length = take_header(guest->header, guest->taken, responses, guest->rsp_cons, unread);
        count_taken(guest, length);
        unread -= length;
        if (guest->taken < HEADER)
            return ZWERFEN_REQUEST_PENDING;
    }
    uint64_t size = load32(guest->header + 4);
    if (size != STATUS && size != STATUS + FLAGS)
        return ZWERFEN_NOT_AN_ACK;
    size_t taken = guest->taken - HEADER;
    size_t length = least(unread, size - taken);
    copy_from_area(guest->payload + taken, responses, guest->rsp_cons, length);
    count_taken(guest, length);
    return taken + length == size ? judge_ack(guest, status, flags) : ZWERFEN_REQUEST_PENDING;
}

uint32_t plain_guest_event(zwerfen_guest *guest, uint8_t *page, size_t page_length, uint32_t *status, uint32_t *flags)
{
    found found = look(guest, page, page_length);
    if (found.refusal != 0)
        return found.refusal;
    uint32_t answer = ZWERFEN_REQUEST_PENDING;
    if (guest->phase == ZWERFEN_GUEST_OUTSTANDING) {
        uint64_t rsp_cons = guest->rsp_cons;
        if (guest->written < guest->length)
            answer = write_request(guest, page, found.room);
        else if (found.unread > 0)
            answer = read_ack(guest, page + RESPONSES, found.unread, status, flags);
        if (answer == ZWERFEN_NOT_AN_ACK) {
            guest->phase = ZWERFEN_GUEST_FAILED;
            guest->taken = 0;
            guest->rsp_cons = rsp_cons;
            return answer;
        }
    }
    put_own_counts(guest, page);
    return answer;
}
