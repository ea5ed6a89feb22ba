/* A host of one interface and a guest that take turns on one page, to show how the library's calls belong together. */
#include <inttypes.h>
#include <stdarg.h>
#include <stdbool.h>
#include <stdio.h>
#include <stdlib.h>
#include <string.h>

#include "zwerfen.h"

/* Where the counts and the areas stand on the shared page. */
enum { REQ_CONS = 0, REQ_PROD = 4, RSP_CONS = 8, RSP_PROD = 12, REQUESTS = 16, RESPONSES = 1040 };

enum { COUNT = 4, QUEUES = 4, LONGEST_PACKET = 64 };

/* Both ends of the ring, and the page that both can write at any time. */
struct ring {
    uint8_t shared_page[ZWERFEN_PAGE];
    zwerfen_interface host;
    zwerfen_guest guest;
};

/* A request that a driver wants to make: its type, and what a request of this type sets. */
struct request {
    const char *name;
    uint32_t type;
    uint64_t flags;
    const uint8_t *key;
    const uint64_t *entries;
    size_t entry_count;
};

struct packet {
    const char *name;
    uint8_t octets[LONGEST_PACKET];
    size_t length;
};

/* What the library says of a packet. */
struct steering {
    uint32_t answer;
    uint32_t hash_type;
    uint32_t hash;
    uint32_t queue;
};

static const char *const TYPE_NAMES[] = {"IPv4", "IPv4 TCP", "IPv6", "IPv6 TCP"};

/* ---- Checks ---- */

/* Stops the program unless what should be so is so. */
static void must(bool is_so, const char *what, ...)
{
    if (is_so) {
        return;
    }
    va_list values;
    va_start(values, what);
    fflush(stdout);
    fputs("stopped: ", stderr);
    vfprintf(stderr, what, values);
    fputc('\n', stderr);
    va_end(values);
    exit(EXIT_FAILURE);
}

static void must_answer(const char *call, uint32_t answer, uint32_t expected)
{
    must(answer == expected, "%s answered %" PRIu32 ", and %" PRIu32 " was expected", call, answer, expected);
}

/* ---- The host ---- */

/*
 * One event. The host works on a copy, because the guest may write to the shared page meanwhile, and copies back only
 * what the host owns, because the rest of its copy may be out of date by then.
 */
static uint32_t host_event(struct ring *ring)
{
    uint8_t page[ZWERFEN_PAGE];
    memcpy(page, ring->shared_page, sizeof page);
    uint32_t answer = zwerfen_event(&ring->host, page, sizeof page);
    memcpy(ring->shared_page + RESPONSES, page + RESPONSES, ZWERFEN_AREA);
    memcpy(ring->shared_page + REQ_CONS, page + REQ_CONS, COUNT);
    memcpy(ring->shared_page + RSP_PROD, page + RSP_PROD, COUNT);
    return answer;
}

static struct steering host_steer(const zwerfen_interface *host, const struct packet *packet)
{
    struct steering steering = {0, 0, 0, 0};
    steering.answer = zwerfen_steer(host, packet->octets, packet->length, &steering.hash_type, &steering.hash,
                                    &steering.queue);
    must(steering.answer == ZWERFEN_HASHED || steering.answer == ZWERFEN_UNHASHED,
         "zwerfen_steer answered %" PRIu32, steering.answer);
    must(steering.queue < QUEUES, "there is no queue %" PRIu32, steering.queue);
    return steering;
}

/* ---- The guest ---- */

/* What the guest owns. The counts come last: only then are the octets there for the host. */
static void guest_copy_back(struct ring *ring, const uint8_t *page)
{
    memcpy(ring->shared_page + REQUESTS, page + REQUESTS, ZWERFEN_AREA);
    memcpy(ring->shared_page + REQ_PROD, page + REQ_PROD, COUNT);
    memcpy(ring->shared_page + RSP_CONS, page + RSP_CONS, COUNT);
}

static uint32_t start(zwerfen_guest *guest, uint8_t *page, const struct request *request)
{
    switch (request->type) {
    case ZWERFEN_SET_FLAGS:
        return zwerfen_guest_start_set_flags(guest, page, ZWERFEN_PAGE, request->flags);
    case ZWERFEN_SET_KEY:
        return zwerfen_guest_start_set_key(guest, page, ZWERFEN_PAGE, request->key, ZWERFEN_KEY);
    case ZWERFEN_SET_MAPPING:
        return zwerfen_guest_start_set_mapping(guest, page, ZWERFEN_PAGE, request->entries, request->entry_count);
    default:
        return zwerfen_guest_start_get_flags(guest, page, ZWERFEN_PAGE);
    }
}

/* The guest works on a copy as the host does, because it need not trust the host either. */
static uint32_t guest_start(struct ring *ring, const struct request *request)
{
    uint8_t page[ZWERFEN_PAGE];
    memcpy(page, ring->shared_page, sizeof page);
    uint32_t answer = start(&ring->guest, page, request);
    guest_copy_back(ring, page);
    return answer;
}

static uint32_t guest_event(struct ring *ring, uint32_t *status, uint32_t *flags)
{
    uint8_t page[ZWERFEN_PAGE];
    memcpy(page, ring->shared_page, sizeof page);
    uint32_t answer = zwerfen_guest_event(&ring->guest, page, sizeof page, status, flags);
    guest_copy_back(ring, page);
    return answer;
}

/* ---- A request and its ack ---- */

/*
 * Has both ends take turns from the start's answer on, until the guest has read its ack. While octets of the request
 * are owed, the host can only wait for them; after that it carries the request out. Gives the number of host events.
 */
static unsigned take_turns(struct ring *ring, uint32_t answer, uint32_t *status, uint32_t *flags)
{
    unsigned events = 0;
    while (answer == ZWERFEN_REQUEST_OWED) {
        must_answer("zwerfen_event", host_event(ring), ZWERFEN_WAITING);
        answer = guest_event(ring, status, flags);
        events++;
    }
    must_answer("the guest's last call that writes", answer, ZWERFEN_REQUEST_PENDING);
    must_answer("zwerfen_event", host_event(ring), ZWERFEN_ACK_WRITTEN);
    must_answer("zwerfen_guest_event", guest_event(ring, status, flags), ZWERFEN_ACK_READ);
    return events + 1;
}

static bool same_settings(const zwerfen_interface *a, const zwerfen_interface *b)
{
    return a->queues == b->queues && a->flags == b->flags && memcmp(a->key, b->key, sizeof a->key) == 0 &&
           a->entry_count == b->entry_count && memcmp(a->entries, b->entries, sizeof a->entries) == 0;
}

/* Has a request carried out and its ack read, and prints a line about both. */
static void ask(struct ring *ring, struct request request, uint32_t expected_status)
{
    zwerfen_interface before = ring->host;
    uint32_t status, flags;
    unsigned events = take_turns(ring, guest_start(ring, &request), &status, &flags);
    must(status == expected_status, "%s: the ack has status %" PRIu32, request.name, status);

    printf("  %-40s %6" PRIu64 " %6u    status %" PRIu32, request.name, ring->guest.length, events, status);
    if (request.type == ZWERFEN_GET_FLAGS) {
        must(flags == 15, "the host supports all four hash types");
        printf(", flags %" PRIu32 " are supported", flags);
    }
    if (status != ZWERFEN_SUCCESS) {
        must(same_settings(&before, &ring->host), "a refused request changed the settings");
        printf(", and nothing has changed");
    }
    putchar('\n');
}

static void ask_to_get_flags(struct ring *ring)
{
    ask(ring, (struct request){.name = "get flags", .type = ZWERFEN_GET_FLAGS}, ZWERFEN_SUCCESS);
}

static void ask_to_set_flags(struct ring *ring, const char *name, uint64_t flags)
{
    ask(ring, (struct request){.name = name, .type = ZWERFEN_SET_FLAGS, .flags = flags}, ZWERFEN_SUCCESS);
}

static void ask_to_set_key(struct ring *ring, const char *key_name, const uint8_t *key)
{
    char name[64];
    snprintf(name, sizeof name, "set key %s", key_name);
    ask(ring, (struct request){.name = name, .type = ZWERFEN_SET_KEY, .key = key}, ZWERFEN_SUCCESS);
}

static void ask_to_set_mapping(struct ring *ring, const char *name, const uint64_t *entries, size_t count,
                               uint32_t expected_status)
{
    struct request request = {.name = name, .type = ZWERFEN_SET_MAPPING, .entries = entries, .entry_count = count};
    ask(ring, request, expected_status);
}

/* ---- Packets ---- */

static void put_port(uint8_t *octets, uint16_t port)
{
    octets[0] = (uint8_t)(port >> 8);
    octets[1] = (uint8_t)port;
}

/* A TCP packet as far as steering looks at it: version, protocol, addresses and ports. */
static struct packet tcp_packet(const char *name, bool is_ipv6, const uint8_t *source, uint16_t source_port,
                                const uint8_t *destination, uint16_t destination_port)
{
    size_t address = is_ipv6 ? 16 : 4;
    size_t addresses_at = is_ipv6 ? 8 : 12;
    size_t ports_at = addresses_at + 2 * address;
    struct packet packet = {.name = name, .length = ports_at + 20};
    packet.octets[0] = is_ipv6 ? 0x60 : 0x45;
    packet.octets[is_ipv6 ? 6 : 9] = 6;
    memcpy(packet.octets + addresses_at, source, address);
    memcpy(packet.octets + addresses_at + address, destination, address);
    put_port(packet.octets + ports_at, source_port);
    put_port(packet.octets + ports_at + 2, destination_port);
    return packet;
}

/* An IPv4 packet as a fragment of its datagram: how many eights of octets before it, and whether more come behind it. */
static struct packet fragment_of(const struct packet *whole, const char *name, uint16_t eights, bool more)
{
    static const size_t content_at = 20;
    struct packet packet = *whole;
    packet.name = name;
    packet.octets[6] = (uint8_t)((more ? 0x20 : 0) | eights >> 8);
    packet.octets[7] = (uint8_t)eights;
    if (eights > 0) { /* only the first has the ports */
        memset(packet.octets + content_at, 'z', packet.length - content_at);
    }
    return packet;
}

/* The first octets of an ARP request, which is no IP packet. */
static struct packet arp_request(const char *name)
{
    static const uint8_t beginning[] = {0, 1, 8, 0, 6, 4, 0, 1};
    struct packet packet = {.name = name, .length = 28};
    memcpy(packet.octets, beginning, sizeof beginning);
    return packet;
}

static struct steering print_steering(const zwerfen_interface *host, const struct packet *packet)
{
    struct steering steering = host_steer(host, packet);
    if (steering.answer == ZWERFEN_HASHED) {
        printf("  %-40s %-8s  %08" PRIx32 "  %5" PRIu32 "\n", packet->name, TYPE_NAMES[steering.hash_type],
               steering.hash, steering.queue);
    } else {
        printf("  %-40s %-8s  %-8s  %5" PRIu32 "\n", packet->name, "none", "none", steering.queue);
    }
    return steering;
}

/* The hash can be asked for by itself too, from key, addresses and ports; it must be the one that steers. */
static void check_hash(const zwerfen_interface *host, const struct packet *packet, const struct steering *steering)
{
    bool is_ipv6 = steering->hash_type == ZWERFEN_IPV6_TCP;
    uint32_t hash;
    uint32_t answer = zwerfen_hash(host->key, ZWERFEN_KEY, packet->octets + (is_ipv6 ? 8 : 12),
                                   is_ipv6 ? 36 : 12, &hash);
    must_answer("zwerfen_hash", answer, ZWERFEN_DONE);
    must(hash == steering->hash, "%s: zwerfen_hash and zwerfen_steer give different hashes", packet->name);
}

/* Steers a packet in each direction, and says whether both have one hash and so one queue. */
static bool directions_meet(const zwerfen_interface *host, const struct packet *there, const struct packet *back)
{
    struct steering steering_there = print_steering(host, there);
    struct steering steering_back = print_steering(host, back);
    check_hash(host, there, &steering_there);
    check_hash(host, back, &steering_back);
    bool meet = steering_there.hash == steering_back.hash;
    must(!meet || steering_there.queue == steering_back.queue, "packets with one hash have different queues");
    return meet;
}

/* Steers the fragments of a packet's datagram: they have the same addresses, so they go to one queue. */
static void steer_fragments(const zwerfen_interface *host, const struct packet *whole)
{
    struct packet first = fragment_of(whole, "  its first fragment, with the ports", 0, true);
    struct packet last = fragment_of(whole, "  its last fragment, without", 185, false);
    struct steering steering_first = print_steering(host, &first);
    struct steering steering_last = print_steering(host, &last);
    must(steering_first.hash_type == ZWERFEN_IPV4 && steering_last.hash_type == ZWERFEN_IPV4, "fragments are not TCP");
    must(steering_first.hash == steering_last.hash && steering_first.queue == steering_last.queue,
         "fragments of one datagram go to different queues");
}

/* Steers two conversations and something else, under a key that lets all conversations meet or none of these two. */
static void steer_packets(const zwerfen_interface *host, const char *key_name, bool expected_to_meet)
{
    static const uint8_t client[] = {192, 0, 2, 1}, server[] = {198, 51, 100, 7};
    static const uint8_t client_6[16] = {0x20, 0x01, 0x0d, 0xb8, [15] = 1};
    static const uint8_t server_6[16] = {0x20, 0x01, 0x0d, 0xb8, [15] = 7};
    struct packet there = tcp_packet("192.0.2.1:40000 to 198.51.100.7:443", false, client, 40000, server, 443);
    struct packet back = tcp_packet("198.51.100.7:443 to 192.0.2.1:40000", false, server, 443, client, 40000);
    struct packet there_6 =
        tcp_packet("[2001:db8::1]:40000 to [2001:db8::7]:443", true, client_6, 40000, server_6, 443);
    struct packet back_6 =
        tcp_packet("[2001:db8::7]:443 to [2001:db8::1]:40000", true, server_6, 443, client_6, 40000);
    struct packet arp = arp_request("an ARP request");

    printf("\nPackets under the key %-20s %-8s  %-8s  queue\n", key_name, "type", "hash");
    must(directions_meet(host, &there, &back) == expected_to_meet, "IPv4 under the key %s", key_name);
    steer_fragments(host, &back);
    must(directions_meet(host, &there_6, &back_6) == expected_to_meet, "IPv6 under the key %s", key_name);
    struct steering steering = print_steering(host, &arp);
    must(steering.answer == ZWERFEN_UNHASHED && steering.queue == 0, "what is no IP packet goes to queue 0");
}

/* ---- The two-way question ---- */

/* Prints for each hash type whether the two directions of every conversation have one hash under the key. */
static void print_two_way(const char *key_name, const uint8_t *key, bool expected_to_meet)
{
    printf("  %-40s", key_name);
    for (uint32_t hash_type = ZWERFEN_IPV4; hash_type <= ZWERFEN_IPV6_TCP; hash_type++) {
        uint32_t meet;
        size_t bit;
        must_answer("zwerfen_two_way", zwerfen_two_way(key, ZWERFEN_KEY, hash_type, &meet, &bit), ZWERFEN_DONE);
        must((meet == 1) == expected_to_meet, "%s under the key %s", TYPE_NAMES[hash_type], key_name);
        char words[32];
        if (meet == 1) {
            snprintf(words, sizeof words, "yes");
        } else {
            snprintf(words, sizeof words, "no, bit %zu", bit);
        }
        printf(" %10s", words);
    }
    putchar('\n');
}

/* ---- The whole ---- */

static void set_up(struct ring *ring)
{
    memset(ring, 0, sizeof *ring);
    must_answer("zwerfen_set_up", zwerfen_set_up(&ring->host, QUEUES), ZWERFEN_DONE);
    zwerfen_guest_set_up(&ring->guest);
    printf("An interface with %d queues is set up.\n", QUEUES);
}

static void print_request_heading(void)
{
    printf("\n%-42s %6s %6s    %s\n", "The guest asks", "octets", "events", "and is told");
}

/* The requests of a guest that wants to steer by all four hash types, and one request that names a queue too many. */
static void ask_for_settings(struct ring *ring, const char *key_name, const uint8_t *key)
{
    static const uint64_t good[] = {0, 1, 2, 3}, wrong[] = {0, 1, 2, 4};
    print_request_heading();
    ask_to_get_flags(ring);
    ask_to_set_key(ring, key_name, key);
    ask_to_set_flags(ring, "set flags 15", 15);
    ask_to_set_mapping(ring, "set mapping 0 1 2 3", good, 4, ZWERFEN_SUCCESS);
    ask_to_set_mapping(ring, "set mapping 0 1 2 4", wrong, 4, ZWERFEN_INVALID_PARAMETER);
}

/*
 * Another key, and the same queues in the longest mapping. With its header that request is 8 octets longer than the
 * request area, so its start leaves octets owed, and the two ends need two rounds.
 */
static void ask_for_other_settings(struct ring *ring, const char *key_name, const uint8_t *key)
{
    uint64_t entries[ZWERFEN_MAX_ENTRIES];
    for (size_t i = 0; i < ZWERFEN_MAX_ENTRIES; i++) {
        entries[i] = i % QUEUES;
    }
    print_request_heading();
    ask_to_set_key(ring, key_name, key);
    ask_to_set_mapping(ring, "set mapping 0 1 2 3 x 32", entries, ZWERFEN_MAX_ENTRIES, ZWERFEN_SUCCESS);
}

int main(void)
{
    static struct ring ring;
    uint8_t two_way_key[ZWERFEN_KEY], counting_key[ZWERFEN_KEY];
    for (unsigned i = 0; i < ZWERFEN_KEY; i++) {
        two_way_key[i] = i % 2 == 0 ? 0x6d : 0x5a;
        counting_key[i] = (uint8_t)i;
    }
    set_up(&ring);
    ask_for_settings(&ring, "6d 5a x 20", two_way_key);
    steer_packets(&ring.host, "6d 5a x 20", true);
    ask_for_other_settings(&ring, "00 01 .. 27", counting_key);
    steer_packets(&ring.host, "00 01 .. 27", false);

    printf("\n%-42s", "Do both directions always meet?");
    for (uint32_t hash_type = ZWERFEN_IPV4; hash_type <= ZWERFEN_IPV6_TCP; hash_type++) {
        printf(" %10s", TYPE_NAMES[hash_type]);
    }
    putchar('\n');
    print_two_way("6d 5a x 20", two_way_key, true);
    print_two_way("00 01 .. 27", counting_key, false);
    return EXIT_SUCCESS;
}
