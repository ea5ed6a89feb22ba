/* The second table: zwerfen_steer against the same work in C around Xen's hash, and against zwerfen_hash alone. */
#include "guest.h"
#include "measure.h"
#include "page.h"
#include "plain.h"
#include "tables.h"

#include <stdio.h>

#define SETTINGS 100u
#define PACKETS_EACH 100u
#define PACKET 64u
#define QUEUES 16u
#define ALL_FLAGS 15u

static uint8_t packets[POOL][PACKET];
static zwerfen_interface ours, plain;

typedef uint32_t steer_call(const zwerfen_interface *interface, const uint8_t *packet, size_t packet_length,
                            uint32_t *hash_type, uint32_t *hash, uint32_t *queue);

typedef struct steerer {
    steer_call *steer;
    const zwerfen_interface *interface;
} steerer;

/* What the packets of a row have in common, and where their hash input stands. */
typedef struct kind {
    const char *name;
    uint8_t first;
    size_t protocol_at;
    uint8_t protocol;
    uint8_t fragment; /* octet 6 of an IPv4 packet; octet 7 is 0 */
    size_t input_at;
    size_t input_length; /* 0: no hash */
} kind;

static const kind kinds[] = {
    {"IPv4 TCP", 0x45, 9, 6, 0x40, 12, 12},
    {"IPv6 TCP", 0x60, 6, 6, 0, 8, 36},
    {"IPv4, not TCP", 0x45, 9, 17, 0x40, 12, 8},
    {"IPv4 fragment", 0x45, 9, 6, 0x20, 12, 8},
    {"not IP", 0x08, 9, 6, 0, 0, 0},
};
#define KINDS (sizeof kinds / sizeof *kinds)

static void request_of_both(const uint8_t *message, size_t length)
{
    static uint8_t our_page[ZWERFEN_PAGE], plain_page[ZWERFEN_PAGE];
    request(zwerfen_event, &ours, our_page, message, length);
    request(plain_event, &plain, plain_page, message, length);
}

/* The same for both hosts: these flags, a random key and a random mapping of 128 entries. */
static void change_settings(uint64_t flags)
{
    uint8_t set_flags[HEADER + FLAGS];
    uint8_t set_key[HEADER + ZWERFEN_KEY];
    uint8_t set_mapping[HEADER + ZWERFEN_MAX_ENTRIES * ENTRY];
    put_header(set_flags, ZWERFEN_SET_FLAGS, FLAGS);
    store64(set_flags + HEADER, flags);
    request_of_both(set_flags, sizeof set_flags);
    put_header(set_key, ZWERFEN_SET_KEY, ZWERFEN_KEY);
    random_octets(set_key + HEADER, ZWERFEN_KEY);
    request_of_both(set_key, sizeof set_key);
    put_set_mapping(set_mapping, QUEUES);
    request_of_both(set_mapping, sizeof set_mapping);
}

static void make_packet(uint8_t *packet, const kind *kind)
{
    random_octets(packet, PACKET);
    packet[0] = kind->first;
    packet[6] = kind->fragment;
    packet[7] = 0;
    packet[kind->protocol_at] = kind->protocol;
}

/* The places begin with what no packet gives, so that a place left alone is seen too. */
static void see_packet_agree(const uint8_t *packet, size_t length)
{
    uint32_t type = 9, hash = 9, queue = 99, plain_type = 9, plain_hash = 9, plain_queue = 99;
    uint32_t answer = zwerfen_steer(&ours, packet, length, &type, &hash, &queue);
    uint32_t plain_answer = plain_steer(&plain, packet, length, &plain_type, &plain_hash, &plain_queue);
    if (answer != plain_answer || type != plain_type || hash != plain_hash || queue != plain_queue)
        stop_because("zwerfen_steer and plain_steer differ");
}

static void see_packets_agree(void)
{
    for (size_t s = 0; s < SETTINGS; s++) {
        change_settings(random_below(ALL_FLAGS + 1));
        for (size_t i = 0; i < PACKETS_EACH; i++) {
            uint8_t packet[PACKET];
            make_packet(packet, &kinds[random_below(KINDS)]);
            packet[0] ^= random_below(4) == 0 ? (uint8_t)next_random() : 0;
            packet[6 + random_below(2)] ^= random_below(4) == 0 ? (uint8_t)(1u << random_below(8)) : 0;
            see_packet_agree(packet, random_below(2) == 0 ? random_below(PACKET + 1) : PACKET);
        }
    }
    printf("%u random packets: both packet questions agree\n", SETTINGS * PACKETS_EACH);
}

static double steer_batch(const void *context)
{
    const steerer *steerer = context;
    uint32_t results = 0;
    uint64_t start = now();
    for (size_t i = 0; i < POOL; i++) {
        uint32_t type = 0, hash = 0, queue = 0;
        uint32_t answer = steerer->steer(steerer->interface, packets[i], PACKET, &type, &hash, &queue);
        results ^= answer ^ type ^ hash ^ queue;
    }
    return time_per_call(now() - start, POOL, results);
}

static hash_inputs inputs = {.key = ours.key, .stride = PACKET};

static void prepare(const void *context)
{
    const kind *kind = context;
    inputs.first = packets[0] + kind->input_at;
    inputs.length = kind->input_length;
    for (size_t i = 0; i < POOL; i++)
        make_packet(packets[i], kind);
}

static void print_row(const kind *kind, const contest *contest)
{
    printf("%-18s %8.1f %9.1f %5.2f", kind->name, median_ns(contest, 0), median_ns(contest, 1),
           median_ratio(contest, 0, 1));
    if (kind->input_length > 0)
        printf(" %15.1f %15.1f", median_ns(contest, 2), median_difference(contest, 0, 2));
    printf("\n");
}

void print_packet_table(size_t rounds)
{
    static const steerer our_steerer = {zwerfen_steer, &ours}, plain_steerer = {plain_steer, &plain};
    contest contests[KINDS];
    if (zwerfen_set_up(&ours, QUEUES) != ZWERFEN_DONE || plain_set_up(&plain, QUEUES) != ZWERFEN_DONE)
        stop_because("setup is refused");
    see_packets_agree();
    change_settings(ALL_FLAGS);
    printf("\nB. Packet question: ns for each call, ours / plain C, and what it takes beside the hash of its input\n");
    printf("%-18s %8s %15s %15s %15s\n", "packet", "zwerfen", "plain C", "zwerfen_hash", "steer - hash");
    for (size_t k = 0; k < KINDS; k++)
        contests[k] = (contest){prepare, &kinds[k], kinds[k].input_length > 0 ? 3 : 2, rounds,
                                {{steer_batch, &our_steerer, NULL},
                                 {steer_batch, &plain_steerer, NULL},
                                 {our_hash_batch, &inputs, NULL}}};
    compete(contests, KINDS);
    for (size_t k = 0; k < KINDS; k++)
        print_row(&kinds[k], &contests[k]);
    printf("\n");
    dismiss(contests, KINDS);
}
