/* Random guests, honest and not, on two hosts: zwerfen_event and plain_event must leave the same answers and traces. */
#include "guest.h"
#include "measure.h"
#include "page.h"
#include "plain.h"
#include "tables.h"

#include <stdbool.h>
#include <stdio.h>
#include <string.h>

#define GUESTS 300u
#define EVENTS_EACH 200u
#define MOST_SIZE 2200u
#define ANSWERS 6u

typedef struct guest {
    bool reads_seldom; /* so that acks come to be owed */
    uint8_t message[HEADER + MOST_SIZE];
    size_t length;
    size_t sent; /* octets of the message that are on the page */
} guest;

typedef struct host {
    event_call *event;
    zwerfen_interface interface;
    uint8_t page[ZWERFEN_PAGE + 1]; /* one octet more, to lend a page that is too long */
} host;

static uint32_t right_size(uint32_t type)
{
    switch (type) {
    case ZWERFEN_SET_FLAGS:
        return FLAGS;
    case ZWERFEN_SET_KEY:
        return ZWERFEN_KEY;
    case ZWERFEN_SET_MAPPING:
        return ENTRY << random_below(9);
    default:
        return 0;
    }
}

/* Numbers of 8 octets below a limit, of which at times one is the limit or has a bit in a high octet. */
static void fill_numbers(uint8_t *payload, size_t count, uint64_t limit)
{
    memset(payload, 0, count * ENTRY);
    for (size_t i = 0; i < count; i++)
        payload[i * ENTRY] = (uint8_t)random_below(limit);
    if (count > 0 && one_in(4))
        payload[random_below(count) * ENTRY] = (uint8_t)limit;
    if (count > 0 && one_in(8))
        payload[random_below(count * ENTRY)] |= 1;
}

static void next_message(guest *guest, uint32_t queues)
{
    uint32_t type = (uint32_t)(one_in(8) ? random_below(8) : ZWERFEN_GET_FLAGS + random_below(4));
    uint32_t size = one_in(8) ? (uint32_t)random_below(MOST_SIZE + 1) : right_size(type);
    uint8_t *payload = guest->message + HEADER;
    random_octets(payload, size);
    if (type == ZWERFEN_SET_FLAGS || type == ZWERFEN_SET_MAPPING)
        fill_numbers(payload, size / ENTRY, type == ZWERFEN_SET_FLAGS ? 16 : queues);
    /* At times the header tells more than will ever come. */
    put_header(guest->message, type, one_in(1000) ? (uint32_t)next_random() : size);
    guest->length = HEADER + size;
    guest->sent = 0;
}

static void send_some(guest *guest, host *host)
{
    size_t unread = load32(host->page + REQ_PROD) - (uint32_t)host->interface.req_cons;
    size_t room = random_below(ZWERFEN_AREA - unread + 1);
    while (room > 0) {
        if (guest->sent == guest->length)
            next_message(guest, (uint32_t)host->interface.queues);
        size_t left = guest->length - guest->sent;
        size_t piece = left < room ? left : room;
        put_requests(host->page, guest->message + guest->sent, piece);
        guest->sent += piece;
        room -= piece;
    }
}

static void read_some(const guest *guest, host *host)
{
    uint32_t rsp_cons = load32(host->page + RSP_CONS);
    uint32_t unread = (uint32_t)host->interface.rsp_prod - rsp_cons;
    if (!guest->reads_seldom || one_in(50))
        store32(host->page + RSP_CONS, rsp_cons + (uint32_t)random_below(unread + 1));
}

/* Makes one of the guest's counts wrong, or answers a wrong length of the page. */
static size_t damage(host *host)
{
    uint32_t any = (uint32_t)next_random();
    switch (random_below(3)) {
    case 0:
        any = one_in(2) ? any : (uint32_t)host->interface.req_cons + about_the_limit();
        store32(host->page + REQ_PROD, any);
        return ZWERFEN_PAGE;
    case 1:
        any = one_in(2) ? any : (uint32_t)host->interface.rsp_prod - about_the_limit();
        store32(host->page + RSP_CONS, any);
        return ZWERFEN_PAGE;
    default:
        return one_in(2) ? ZWERFEN_PAGE + 1 : random_below(ZWERFEN_PAGE);
    }
}

static bool same_settings(const zwerfen_interface *a, const zwerfen_interface *b)
{
    return a->queues == b->queues && a->flags == b->flags && memcmp(a->key, b->key, ZWERFEN_KEY) == 0 &&
           a->entry_count == b->entry_count && memcmp(a->entries, b->entries, a->entry_count) == 0;
}

/* The numbers of the ring; octets that are read or written already do not matter any more. */
static bool same_numbers(const zwerfen_interface *a, const zwerfen_interface *b)
{
    return a->taken == b->taken && a->req_cons == b->req_cons && a->rsp_prod == b->rsp_prod &&
           a->ack_length - a->ack_written == b->ack_length - b->ack_written;
}

/* The page of the first host is the guest's; the second gets a copy. Both give the answer, or the benchmark ends. */
static uint32_t event_of_both(host hosts[2], size_t page_length)
{
    memcpy(hosts[1].page, hosts[0].page, ZWERFEN_PAGE);
    uint32_t answer = hosts[0].event(&hosts[0].interface, hosts[0].page, page_length);
    if (hosts[1].event(&hosts[1].interface, hosts[1].page, page_length) != answer)
        stop_because("zwerfen_event and plain_event answer differently");
    if (memcmp(hosts[0].page, hosts[1].page, ZWERFEN_PAGE) != 0)
        stop_because("zwerfen_event and plain_event leave different pages");
    if (!same_settings(&hosts[0].interface, &hosts[1].interface))
        stop_because("zwerfen_event and plain_event leave different settings");
    if (!same_numbers(&hosts[0].interface, &hosts[1].interface))
        stop_because("zwerfen_event and plain_event leave different numbers");
    return answer;
}

static void play_guest(host hosts[2], size_t seen[ANSWERS])
{
    guest guest = {.reads_seldom = one_in(2)};
    random_octets(hosts[0].page, ZWERFEN_PAGE);
    store32(hosts[0].page + REQ_PROD, 0);
    store32(hosts[0].page + RSP_CONS, 0);
    for (size_t i = 0; i < EVENTS_EACH; i++) {
        send_some(&guest, &hosts[0]);
        read_some(&guest, &hosts[0]);
        /* What the page says for the host's own counts must make no difference. */
        random_octets(hosts[0].page + REQ_CONS, 4);
        random_octets(hosts[0].page + RSP_PROD, 4);
        uint32_t req_prod = load32(hosts[0].page + REQ_PROD);
        uint32_t rsp_cons = load32(hosts[0].page + RSP_CONS);
        uint32_t answer = event_of_both(hosts, one_in(10) ? damage(&hosts[0]) : ZWERFEN_PAGE);
        if (answer > ZWERFEN_ACK_OWED) {
            store32(hosts[0].page + REQ_PROD, req_prod);
            store32(hosts[0].page + RSP_CONS, rsp_cons);
        }
        seen[answer]++;
    }
}

void see_events_agree(void)
{
    static host hosts[2] = {{.event = zwerfen_event}, {.event = plain_event}};
    size_t seen[ANSWERS] = {0};
    for (size_t g = 0; g < GUESTS; g++) {
        uint32_t queues = 1 + (uint32_t)random_below(ZWERFEN_MAX_QUEUES);
        if (zwerfen_set_up(&hosts[0].interface, queues) != ZWERFEN_DONE ||
            plain_set_up(&hosts[1].interface, queues) != ZWERFEN_DONE)
            stop_because("setup is refused");
        play_guest(hosts, seen);
    }
    printf("%u random events: both hosts agree (", GUESTS * EVENTS_EACH);
    for (size_t answer = 0; answer < ANSWERS; answer++) {
        if (seen[answer] == 0)
            stop_because("the random guests do not reach every answer");
        printf("%s%zu answered %zu", answer > 0 ? ", " : "", seen[answer], answer);
    }
    printf(")\n");
}
