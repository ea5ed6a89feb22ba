/*
 * The third table: zwerfen_event against plain_event.
 *
 * A batch is many turns. For each turn, 32 copies are made of an interface that stands before the request, and then
 * each copy gets its event, all on one page as the guest left it: an event reads nothing that an earlier one wrote
 * there, so nothing has to be prepared between two calls. Timed are the calls and their loop. The making of the copies
 * is not, and what reading the clock costs is measured as a third contestant and taken off the other two.
 */
#include "guest.h"
#include "measure.h"
#include "page.h"
#include "plain.h"
#include "tables.h"

#include <stdio.h>
#include <string.h>

#define TURNS 128u
/* Few enough for the first cache. */
#define COPIES 32u
#define QUEUES 16u
#define MOST_STEPS 2u
#define SEAM 1016u

static zwerfen_interface copies[COPIES];
static _Alignas(ZWERFEN_PAGE) uint8_t our_pages[MOST_STEPS][ZWERFEN_PAGE], plain_pages[MOST_STEPS][ZWERFEN_PAGE];

typedef uint32_t set_up_call(zwerfen_interface *interface, uint32_t queues);

/* A host before a request, and the page at each event that the request takes. */
typedef struct scene {
    set_up_call *set_up;
    event_call *event;
    uint8_t (*pages)[ZWERFEN_PAGE];
    zwerfen_interface interface;
    size_t steps;
} scene;

static scene ours = {.set_up = zwerfen_set_up, .event = zwerfen_event, .pages = our_pages};
static scene plain = {.set_up = plain_set_up, .event = plain_event, .pages = plain_pages};
static const scene no_event;

/* One more event, before which the guest puts these octets on the page. */
static void add_step(scene *scene, const uint8_t *octets, size_t length)
{
    uint8_t *page = scene->pages[scene->steps];
    if (scene->steps > 0)
        memcpy(page, scene->pages[scene->steps - 1], ZWERFEN_PAGE);
    put_requests(page, octets, length);
    scene->steps++;
}

static void make_idle(scene *scene)
{
    add_step(scene, NULL, 0);
}

static void make_set_key(scene *scene)
{
    uint8_t message[HEADER + ZWERFEN_KEY];
    random_octets(message, sizeof message);
    put_header(message, ZWERFEN_SET_KEY, ZWERFEN_KEY);
    add_step(scene, message, sizeof message);
}

/* With its header the request is 8 octets longer than the area, so it takes two events. */
static void make_set_mapping(scene *scene)
{
    uint8_t message[HEADER + ZWERFEN_MAX_ENTRIES * ENTRY];
    put_set_mapping(message, QUEUES);
    add_step(scene, message, ZWERFEN_AREA);
    add_step(scene, message + ZWERFEN_AREA, sizeof message - ZWERFEN_AREA);
}

/* The acks before this one end 8 octets before the end of the response area. */
static void make_ack_over_the_seam(scene *scene)
{
    uint8_t message[HEADER];
    put_header(message, ZWERFEN_GET_FLAGS, 0);
    while (scene->interface.rsp_prod % ZWERFEN_AREA != SEAM)
        request(scene->event, &scene->interface, scene->pages[0], message, sizeof message);
    store32(scene->pages[0] + RSP_CONS, (uint32_t)scene->interface.rsp_prod);
    add_step(scene, message, sizeof message);
}

typedef struct subject {
    const char *name;
    void (*make)(scene *scene);
    uint32_t answer; /* to the last event */
} subject;

static const subject subjects[] = {
    {"idle", make_idle, ZWERFEN_WAITING},
    {"set key", make_set_key, ZWERFEN_ACK_WRITTEN},
    {"set mapping of 128", make_set_mapping, ZWERFEN_ACK_WRITTEN},
    {"ack over the seam", make_ack_over_the_seam, ZWERFEN_ACK_WRITTEN},
};
#define SUBJECTS (sizeof subjects / sizeof *subjects)

/* All events but the last answer waiting, which is 0, so the answers together are the last one. */
static uint32_t play(const scene *scene, zwerfen_interface *interface)
{
    uint32_t answers = 0;
    for (size_t step = 0; step < scene->steps; step++)
        answers |= scene->event(interface, scene->pages[step], ZWERFEN_PAGE);
    return answers;
}

static void make_scene(scene *scene, const subject *subject)
{
    memset(scene->pages, 0, MOST_STEPS * ZWERFEN_PAGE);
    scene->steps = 0;
    if (scene->set_up(&scene->interface, QUEUES) != ZWERFEN_DONE)
        stop_because("setup is refused");
    subject->make(scene);
    zwerfen_interface rehearsed = scene->interface;
    if (play(scene, &rehearsed) != subject->answer)
        stop_because("an event of the third table is not what its row says");
}

static double event_batch(const void *context)
{
    const scene *scene = context;
    uint64_t spent = 0;
    uint32_t results = 0;
    for (size_t turn = 0; turn < TURNS; turn++) {
        for (size_t i = 0; i < COPIES; i++)
            copies[i] = scene->interface;
        uint64_t start = now();
        for (size_t i = 0; i < COPIES; i++)
            results ^= play(scene, &copies[i]);
        spent += now() - start;
    }
    return time_per_call(spent, TURNS * COPIES, results);
}

static void prepare(const void *context)
{
    make_scene(&ours, context);
    make_scene(&plain, context);
}

static void print_row(const subject *subject, contest *contest)
{
    double clock_share = median_ns(contest, 2);
    take_off_last(contest);
    printf("%-18s %8.1f %9.1f %5.2f %15.1f\n", subject->name, median_ns(contest, 0), median_ns(contest, 1),
           median_ratio(contest, 0, 1), clock_share);
}

void print_event_table(size_t rounds)
{
    contest contests[SUBJECTS];
    see_events_agree();
    printf("\nC. Event: ns for each request (a set mapping takes two events), ours / plain C, less the clock\n");
    printf("%-18s %8s %15s %15s\n", "event", "zwerfen", "plain C", "clock");
    for (size_t s = 0; s < SUBJECTS; s++)
        contests[s] = (contest){prepare, &subjects[s], 3, rounds,
                                {{event_batch, &ours, NULL},
                                 {event_batch, &plain, NULL},
                                 {event_batch, &no_event, NULL}}};
    compete(contests, SUBJECTS);
    for (size_t s = 0; s < SUBJECTS; s++)
        print_row(&subjects[s], &contests[s]);
    printf("\n");
    dismiss(contests, SUBJECTS);
}
