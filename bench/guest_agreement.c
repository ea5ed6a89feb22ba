/* Random hosts, honest and not, for two guests: ours and that in plain C must leave the same answers and traces. */
#include "guest.h"
#include "guest_calls.h"
#include "measure.h"
#include "page.h"
#include "tables.h"

#include <stdbool.h>
#include <stdio.h>
#include <string.h>

#define HOSTS 300u
#define CALLS_EACH 200u
#define ANSWERS 14u

/* The host's part: its two counts, and the ack that it is writing. */
typedef struct host {
    bool reads_seldom; /* and acks what it has not read, so that requests come to be owed */
    uint32_t req_cons;
    uint32_t rsp_prod;
    uint8_t ack[ZWERFEN_MAX_ACK];
    size_t length;
    size_t sent;
} host;

typedef struct end {
    const guest_calls *calls;
    zwerfen_guest guest;
    uint8_t page[ZWERFEN_PAGE + 1]; /* one octet more, to lend a page that is too long */
    uint32_t status;
    uint32_t flags;
} end;

/* What a call is asked to start, or that it is an event. */
typedef struct wish {
    uint32_t type; /* 0: an event */
    uint64_t flags;
    uint8_t key[ZWERFEN_KEY + 1];
    size_t key_length;
    uint64_t entries[2 * ZWERFEN_MAX_ENTRIES];
    size_t entry_count;
} wish;

/* An ack to a request of this type, at times one with a wrong status, size or octet. */
static void next_ack(host *host, uint32_t type)
{
    uint64_t status = random_below(one_in(8) ? 6 : 4);
    bool has_flags = (type == ZWERFEN_GET_FLAGS && status == ZWERFEN_SUCCESS) != one_in(16);
    put_header(host->ack, 1, has_flags ? 16 : 8);
    store64(host->ack + HEADER, status);
    store64(host->ack + HEADER + 8, random_below(one_in(8) ? 32 : 16));
    host->length = has_flags ? HEADER + 16 : HEADER + 8;
    host->sent = 0;
    if (one_in(8))
        host->ack[random_below(host->length)] ^= (uint8_t)(1u << random_below(8));
}

/* The host reads some of the request and, mostly once it has read it all, writes some of the ack. */
static void play_host(host *host, const zwerfen_guest *guest, uint8_t *page)
{
    uint32_t unread = (uint32_t)guest->req_prod - host->req_cons;
    if (!host->reads_seldom || one_in(20))
        host->req_cons += one_in(2) ? unread : (uint32_t)random_below(unread + 1);
    bool may_ack = guest->phase == ZWERFEN_GUEST_OUTSTANDING && guest->written == guest->length &&
                   (host->reads_seldom || host->req_cons == guest->req_prod);
    if (may_ack && host->sent == host->length && guest->taken == 0)
        next_ack(host, load32(guest->request));
    size_t left = host->length - host->sent;
    for (size_t octets = one_in(2) ? left : random_below(left + 1); octets > 0; octets--)
        page[RESPONSES + host->rsp_prod++ % ZWERFEN_AREA] = host->ack[host->sent++];
    store32(page + REQ_CONS, host->req_cons);
    store32(page + RSP_PROD, host->rsp_prod);
}

/* Makes one of the host's counts wrong, or answers a wrong length of the page. */
static size_t damage(const zwerfen_guest *guest, uint8_t *page)
{
    uint32_t any = (uint32_t)next_random();
    switch (random_below(3)) {
    case 0:
        store32(page + REQ_CONS, one_in(2) ? any : (uint32_t)guest->req_prod - about_the_limit());
        return ZWERFEN_PAGE;
    case 1:
        store32(page + RSP_PROD, one_in(2) ? any : (uint32_t)guest->rsp_cons + about_the_limit());
        return ZWERFEN_PAGE;
    default:
        return one_in(2) ? ZWERFEN_PAGE + 1 : random_below(ZWERFEN_PAGE);
    }
}

/* Starts come mostly while no request is outstanding, and mostly with values that are good. */
static wish next_wish(const zwerfen_guest *guest)
{
    wish wish = {.flags = random_below(18), .key_length = ZWERFEN_KEY, .entry_count = 1u << random_below(9)};
    if (guest->phase == ZWERFEN_GUEST_OUTSTANDING ? one_in(8) : one_in(2))
        wish.type = ZWERFEN_GET_FLAGS + (uint32_t)random_below(4);
    random_octets(wish.key, sizeof wish.key);
    for (size_t i = 0; i < 2 * ZWERFEN_MAX_ENTRIES; i++)
        wish.entries[i] = next_random() >> random_below(64);
    if (one_in(8))
        wish.key_length = random_below(sizeof wish.key + 1);
    if (one_in(8))
        wish.entry_count = random_below(2 * ZWERFEN_MAX_ENTRIES + 1);
    return wish;
}

static uint32_t grant(end *end, const wish *wish, size_t page_length)
{
    const guest_calls *calls = end->calls;
    switch (wish->type) {
    case ZWERFEN_GET_FLAGS:
        return calls->start_get_flags(&end->guest, end->page, page_length);
    case ZWERFEN_SET_FLAGS:
        return calls->start_set_flags(&end->guest, end->page, page_length, wish->flags);
    case ZWERFEN_SET_KEY:
        return calls->start_set_key(&end->guest, end->page, page_length, wish->key, wish->key_length);
    case ZWERFEN_SET_MAPPING:
        return calls->start_set_mapping(&end->guest, end->page, page_length, wish->entries, wish->entry_count);
    default:
        return calls->event(&end->guest, end->page, page_length, &end->status, &end->flags);
    }
}

/* What is read of an ack that was refused does not matter any more. */
static bool same_guests(const zwerfen_guest *a, const zwerfen_guest *b)
{
    size_t payload = a->taken > HEADER ? a->taken - HEADER : 0;
    return a->phase == b->phase && a->length == b->length && memcmp(a->request, b->request, a->length) == 0 &&
           a->written == b->written && a->req_prod == b->req_prod && a->rsp_cons == b->rsp_cons &&
           a->taken == b->taken && memcmp(a->header, b->header, a->taken - payload) == 0 &&
           memcmp(a->payload, b->payload, payload) == 0;
}

/* The page of the first guest is the host's; the second gets a copy. Both give the answer, or the benchmark ends. */
static uint32_t call_both(end ends[2], const wish *wish, size_t page_length)
{
    memcpy(ends[1].page, ends[0].page, ZWERFEN_PAGE);
    uint32_t answer = grant(&ends[0], wish, page_length);
    if (grant(&ends[1], wish, page_length) != answer)
        stop_because("the two guests answer differently");
    if (memcmp(ends[0].page, ends[1].page, ZWERFEN_PAGE) != 0)
        stop_because("the two guests leave different pages");
    if (ends[0].status != ends[1].status || ends[0].flags != ends[1].flags)
        stop_because("the two guests hand back different statuses or flags");
    if (!same_guests(&ends[0].guest, &ends[1].guest))
        stop_because("the two guests differ in their states");
    return answer;
}

/* Both ends begin again; a guest must do so once it has failed. */
static void set_up(end ends[2], host *host)
{
    for (size_t e = 0; e < 2; e++)
        ends[e].calls->set_up(&ends[e].guest);
    *host = (struct host){.reads_seldom = one_in(2)};
}

static void play_calls(end ends[2], size_t seen[ANSWERS])
{
    host host;
    set_up(ends, &host);
    random_octets(ends[0].page, ZWERFEN_PAGE);
    for (size_t i = 0; i < CALLS_EACH; i++) {
        if (ends[0].guest.phase == ZWERFEN_GUEST_FAILED && one_in(4))
            set_up(ends, &host);
        play_host(&host, &ends[0].guest, ends[0].page);
        /* What the page says for the guest's own counts must make no difference. */
        random_octets(ends[0].page + REQ_PROD, 4);
        random_octets(ends[0].page + RSP_CONS, 4);
        wish wish = next_wish(&ends[0].guest);
        seen[call_both(ends, &wish, one_in(10) ? damage(&ends[0].guest, ends[0].page) : ZWERFEN_PAGE)]++;
    }
}

void see_guests_agree(void)
{
    static const uint32_t answers[] = {
        ZWERFEN_REQUEST_PENDING, ZWERFEN_ACK_READ,       ZWERFEN_REQUEST_OWED, ZWERFEN_PAGE_LENGTH,
        ZWERFEN_REQUEST_COUNT,   ZWERFEN_RESPONSE_COUNT, ZWERFEN_KEY_LENGTH,   ZWERFEN_VALUE,
        ZWERFEN_NOT_AN_ACK,      ZWERFEN_REQUEST_OUTSTANDING,
    };
    static end ends[2] = {{.calls = &our_guest_calls}, {.calls = &plain_guest_calls}};
    size_t seen[ANSWERS] = {0};
    for (size_t h = 0; h < HOSTS; h++)
        play_calls(ends, seen);
    printf("%u random calls: both guests agree (", HOSTS * CALLS_EACH);
    for (size_t a = 0; a < sizeof answers / sizeof *answers; a++) {
        if (seen[answers[a]] == 0)
            stop_because("the random hosts do not reach every answer");
        printf("%s%zu answered %u", a > 0 ? ", " : "", seen[answers[a]], answers[a]);
    }
    printf(")\n");
}
