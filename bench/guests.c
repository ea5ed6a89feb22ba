/*
 * The fourth table: the guest's end, ours and in plain C.
 *
 * A request is its start, and then events of host and guest in turns until the guest has its status. The two ends go on
 * from request to request on one page, as a driver's do, so that now and then a request lies over the end of its area.
 */
#include "guest.h"
#include "guest_calls.h"
#include "measure.h"
#include "page.h"
#include "plain.h"
#include "tables.h"

#include <stdio.h>
#include <string.h>

#define REQUESTS_EACH 4096u
#define QUEUES 16u

const guest_calls our_guest_calls = {
    zwerfen_guest_set_up,        zwerfen_guest_start_get_flags,   zwerfen_guest_start_set_flags,
    zwerfen_guest_start_set_key, zwerfen_guest_start_set_mapping, zwerfen_guest_event,
};
const guest_calls plain_guest_calls = {
    plain_guest_set_up,        plain_guest_start_get_flags,   plain_guest_start_set_flags,
    plain_guest_start_set_key, plain_guest_start_set_mapping, plain_guest_event,
};

/* Both ends and their page. */
typedef struct ring {
    const guest_calls *calls;
    uint32_t (*set_up_host)(zwerfen_interface *interface, uint32_t queues);
    event_call *host_event;
    zwerfen_guest guest;
    zwerfen_interface host;
    _Alignas(ZWERFEN_PAGE) uint8_t page[ZWERFEN_PAGE];
} ring;

static ring ours = {.calls = &our_guest_calls, .set_up_host = zwerfen_set_up, .host_event = zwerfen_event};
static ring plain = {.calls = &plain_guest_calls, .set_up_host = plain_set_up, .host_event = plain_event};

static uint8_t key[ZWERFEN_KEY];
static uint64_t entries[ZWERFEN_MAX_ENTRIES];

/* What a row does once for each of its contestants; it answers the last answer and the status together. */
typedef uint32_t playing(ring *ring);

static uint32_t event_of_guest(ring *ring)
{
    uint32_t status = 0, flags = 0;
    uint32_t answer = ring->calls->event(&ring->guest, ring->page, ZWERFEN_PAGE, &status, &flags);
    return answer | status << 8;
}

/* The ends take turns from the start's answer on, to the ack or to a refusal. */
static uint32_t take_turns(ring *ring, uint32_t answer)
{
    while (answer == ZWERFEN_REQUEST_PENDING || answer == ZWERFEN_REQUEST_OWED) {
        ring->host_event(&ring->host, ring->page, ZWERFEN_PAGE);
        answer = event_of_guest(ring);
    }
    return answer;
}

static uint32_t set_key(ring *ring)
{
    return take_turns(ring, ring->calls->start_set_key(&ring->guest, ring->page, ZWERFEN_PAGE, key, sizeof key));
}

static uint32_t set_mapping(ring *ring)
{
    return take_turns(ring, ring->calls->start_set_mapping(&ring->guest, ring->page, ZWERFEN_PAGE, entries,
                                                           ZWERFEN_MAX_ENTRIES));
}

/* In place of a host: counts the request as read and writes an ack of 16 octets, which never crosses the area's end. */
static void acknowledge(uint8_t *page)
{
    uint32_t rsp_prod = load32(page + RSP_PROD);
    uint8_t *ack = page + RESPONSES + rsp_prod % ZWERFEN_AREA;
    put_header(ack, 1, 8);
    store64(ack + HEADER, ZWERFEN_SUCCESS);
    store32(page + REQ_CONS, load32(page + REQ_PROD));
    store32(page + RSP_PROD, rsp_prod + HEADER + 8);
}

static uint32_t set_key_without_host(ring *ring)
{
    ring->calls->start_set_key(&ring->guest, ring->page, ZWERFEN_PAGE, key, sizeof key);
    acknowledge(ring->page);
    return event_of_guest(ring);
}

typedef struct subject {
    const char *name;
    playing *play;
    uint32_t answer;
} subject;

static const subject subjects[] = {
    {"guest event, idle", event_of_guest, ZWERFEN_REQUEST_PENDING},
    {"set key", set_key, ZWERFEN_ACK_READ},
    {"set key, no host", set_key_without_host, ZWERFEN_ACK_READ},
    {"set mapping of 128", set_mapping, ZWERFEN_ACK_READ},
};
#define SUBJECTS (sizeof subjects / sizeof *subjects)

/* A ring for a row, and the row that is played on it. */
typedef struct scene {
    ring *ring;
    const subject *subject;
} scene;

static double guest_batch(const void *context)
{
    const scene *scene = context;
    uint32_t results = 0;
    uint64_t start = now();
    for (size_t i = 0; i < REQUESTS_EACH; i++)
        results ^= scene->subject->play(scene->ring);
    return time_per_call(now() - start, REQUESTS_EACH, results);
}

static void make_ring(ring *ring, const subject *subject)
{
    memset(ring->page, 0, sizeof ring->page);
    ring->calls->set_up(&ring->guest);
    if (ring->set_up_host(&ring->host, QUEUES) != ZWERFEN_DONE)
        stop_because("setup is refused");
    /* The status is in the answer too, so this sees that it is 0. */
    if (subject->play(ring) != subject->answer)
        stop_because("a request of the fourth table is not what its row says");
}

static void prepare(const void *context)
{
    random_octets(key, sizeof key);
    for (size_t i = 0; i < ZWERFEN_MAX_ENTRIES; i++)
        entries[i] = random_below(QUEUES);
    make_ring(&ours, context);
    make_ring(&plain, context);
}

void print_guest_table(size_t rounds)
{
    contest contests[SUBJECTS];
    scene scenes[SUBJECTS][2];
    see_guests_agree();
    printf("\nD. Guest's end: ns for each whole request, start and events of both ends, ours / plain C\n");
    printf("%-18s %8s %15s\n", "request", "zwerfen", "plain C");
    for (size_t s = 0; s < SUBJECTS; s++) {
        scenes[s][0] = (scene){&ours, &subjects[s]};
        scenes[s][1] = (scene){&plain, &subjects[s]};
        contests[s] = (contest){prepare, &subjects[s], 2, rounds,
                                {{guest_batch, &scenes[s][0], NULL}, {guest_batch, &scenes[s][1], NULL}}};
    }
    compete(contests, SUBJECTS);
    for (size_t s = 0; s < SUBJECTS; s++)
        printf("%-18s %8.1f %9.1f %5.2f\n", subjects[s].name, median_ns(&contests[s], 0), median_ns(&contests[s], 1),
               median_ratio(&contests[s], 0, 1));
    printf("\n");
    dismiss(contests, SUBJECTS);
}
