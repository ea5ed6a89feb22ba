/*
 * Zwerfen: both ends of one network interface's control ring, and receive-side steering.
 *
 * A guest and a host share a page, and neither has to trust the other. At the host's end the library takes the guest's
 * requests from that page, writes the acks, keeps the interface's settings, and says which queue a packet goes to. At the
 * guest's end it writes a driver's request to the page, as much as fits at a time, and reads the ack. The writer of requests
 * and the reader of acks can also be called by themselves. Every call is proved to meet its contract: no octets on the page,
 * in a message or in a packet can make it fault or fail to return.
 *
 * Memory. The library allocates nothing, keeps nothing between calls and has no global state; of the C library it needs
 * memcpy and memset alone. Whatever a call is given stays the caller's: it is read or written during the call and not kept.
 * Calls on different memory may run at the same time. What is written must not overlap anything else that is given.
 * A pointer may be null where its length is 0, and nowhere else.
 *
 * Results. A call answers a number. Values come through the places that are lent for them. Where a call is refused, each
 * such place, and the interface, guest, page or buffer, is as it was before the call, but for one case: where an event of
 * the guest refuses an ack, page and places are as they were, and the guest has failed.
 */
#ifndef ZWERFEN_H
#define ZWERFEN_H

#include <stddef.h>
#include <stdint.h>

#ifdef __cplusplus
#define ZWERFEN_STATIC_ASSERT(condition, message) static_assert(condition, message)
extern "C" {
#else
#define ZWERFEN_STATIC_ASSERT(condition, message) _Static_assert(condition, message)
#endif

/* What an event of the host answers. */
#define ZWERFEN_WAITING 0u     /* no whole request yet */
#define ZWERFEN_ACK_WRITTEN 1u /* the ack is wholly written */
#define ZWERFEN_ACK_OWED 2u    /* octets of the ack are still owed: call again once the guest has read some */

/* What a start and an event of the guest answer. */
#define ZWERFEN_REQUEST_PENDING 0u /* the request is wholly written and there is no ack yet; or there is no request */
#define ZWERFEN_ACK_READ 1u        /* the ack is read, and its status is handed back; only an event answers this */
#define ZWERFEN_REQUEST_OWED 2u    /* octets of the request are still owed: call again once the host has read some */

/* What the packet question answers. */
#define ZWERFEN_UNHASHED 0u /* no hash type is used for the packet; its queue is 0 */
#define ZWERFEN_HASHED 1u   /* type, hash and queue */

/* What every other call answers where it is not refused. */
#define ZWERFEN_DONE 0u

/* Refusals. */
#define ZWERFEN_PAGE_LENGTH 3u          /* the page is not 4,096 octets */
#define ZWERFEN_REQUEST_COUNT 4u        /* req_prod less req_cons is above 1,024; one of the two is the caller's own */
#define ZWERFEN_RESPONSE_COUNT 5u       /* rsp_prod less rsp_cons is above 1,024; one of the two is the caller's own */
#define ZWERFEN_QUEUES 6u               /* 0 queues, or more than 64 */
#define ZWERFEN_INPUT_LENGTH 7u         /* the hash input is longer than 36 octets */
#define ZWERFEN_KEY_LENGTH 8u           /* the key is not 40 octets */
#define ZWERFEN_HASH_TYPE 9u            /* the hash type is above 3 */
#define ZWERFEN_BUFFER_LENGTH 10u       /* the buffer is shorter than the message */
#define ZWERFEN_VALUE 11u               /* flags above 15, or a mapping whose length is not 1, 2, 4, .. 128 */
#define ZWERFEN_NOT_AN_ACK 12u          /* not an ack to this request; of a guest, now or at an earlier call */
#define ZWERFEN_REQUEST_OUTSTANDING 13u /* a request is begun while another is outstanding */

/* Hash types. The flag of type t is 1 << t. */
#define ZWERFEN_IPV4 0u
#define ZWERFEN_IPV4_TCP 1u
#define ZWERFEN_IPV6 2u
#define ZWERFEN_IPV6_TCP 3u

/* Types of a guest's requests, and the statuses of their acks. */
#define ZWERFEN_GET_FLAGS 2u
#define ZWERFEN_SET_FLAGS 3u
#define ZWERFEN_SET_KEY 4u
#define ZWERFEN_SET_MAPPING 5u

#define ZWERFEN_SUCCESS 0u
#define ZWERFEN_NOT_SUPPORTED 1u
#define ZWERFEN_INVALID_PARAMETER 2u
#define ZWERFEN_BUFFER_OVERFLOW 3u

/* Phases of a guest. */
#define ZWERFEN_GUEST_IDLE 0u        /* no request is outstanding */
#define ZWERFEN_GUEST_OUTSTANDING 1u /* one is */
#define ZWERFEN_GUEST_FAILED 2u      /* an ack was refused; only a new setup ends this */

/* Sizes in octets, and limits. */
#define ZWERFEN_PAGE 4096u
#define ZWERFEN_AREA 1024u
#define ZWERFEN_KEY 40u
#define ZWERFEN_MAX_INPUT 36u
#define ZWERFEN_MAX_ENTRIES 128u
#define ZWERFEN_MAX_PAYLOAD 1024u
#define ZWERFEN_MAX_REQUEST 1032u
#define ZWERFEN_MAX_ACK 24u
#define ZWERFEN_MAX_ACK_PAYLOAD 16u
#define ZWERFEN_MAX_QUEUES 64u

/*
 * The two structs below have no padding: the 64-bit numbers stand first and the arrays, each of a multiple of eight octets,
 * behind them. A setup that is not refused writes every octet, and the calls after it add only what the page and the caller
 * gave them. So a host which stores or sends a struct gives nothing else away: nothing of what this memory, or a stack, had
 * in it before.
 */

/*
 * One interface, in the host's memory. zwerfen_set_up fills it and zwerfen_event changes it. A host may read it and may
 * copy it while no call runs on it; it must not write into it. A state that did not come from these two calls is the one
 * thing that the library presumes away.
 */
typedef struct zwerfen_interface {
    uint64_t queues;                      /* queues in operation, as given at setup */
    uint64_t flags;                       /* the hash types to use */
    uint64_t entry_count;                 /* entries of the mapping */
    uint64_t taken;                       /* octets read of the present request */
    uint64_t req_cons;                    /* a 32-bit count, as on the page */
    uint64_t ack_length;                  /* octets of the ack */
    uint64_t ack_written;                 /* how many of them are on the page */
    uint64_t rsp_prod;                    /* a 32-bit count, as on the page */
    uint8_t header[8];                    /* of the present request, as is the payload */
    uint8_t payload[ZWERFEN_MAX_PAYLOAD];
    uint8_t ack[ZWERFEN_MAX_ACK];
    uint8_t key[ZWERFEN_KEY];             /* as the guest wrote it */
    uint8_t entries[ZWERFEN_MAX_ENTRIES]; /* the queue of each entry of the mapping */
} zwerfen_interface;

ZWERFEN_STATIC_ASSERT(sizeof(size_t) == 8, "the library is for 64-bit hosts");
ZWERFEN_STATIC_ASSERT(offsetof(zwerfen_interface, queues) == 0, "queues stands first");
ZWERFEN_STATIC_ASSERT(offsetof(zwerfen_interface, flags) == 8, "flags stands behind queues");
ZWERFEN_STATIC_ASSERT(offsetof(zwerfen_interface, entry_count) == 16, "entry_count stands behind flags");
ZWERFEN_STATIC_ASSERT(offsetof(zwerfen_interface, taken) == 24, "taken stands behind entry_count");
ZWERFEN_STATIC_ASSERT(offsetof(zwerfen_interface, req_cons) == 32, "req_cons stands behind taken");
ZWERFEN_STATIC_ASSERT(offsetof(zwerfen_interface, ack_length) == 40, "ack_length stands behind req_cons");
ZWERFEN_STATIC_ASSERT(offsetof(zwerfen_interface, ack_written) == 48, "ack_written stands behind ack_length");
ZWERFEN_STATIC_ASSERT(offsetof(zwerfen_interface, rsp_prod) == 56, "rsp_prod stands behind ack_written");
ZWERFEN_STATIC_ASSERT(offsetof(zwerfen_interface, header) == 64, "header stands behind rsp_prod");
ZWERFEN_STATIC_ASSERT(offsetof(zwerfen_interface, payload) == 72, "payload stands behind header");
ZWERFEN_STATIC_ASSERT(offsetof(zwerfen_interface, ack) == 1096, "ack stands behind payload");
ZWERFEN_STATIC_ASSERT(offsetof(zwerfen_interface, key) == 1120, "key stands behind ack");
ZWERFEN_STATIC_ASSERT(offsetof(zwerfen_interface, entries) == 1160, "entries stands behind key");
ZWERFEN_STATIC_ASSERT(sizeof(zwerfen_interface) == 1288, "zwerfen_interface ends with entries");

/*
 * The guest's end of one ring, in the driver's memory. zwerfen_guest_set_up fills it, and the other calls of a guest change
 * it. A driver may read it and may copy it while no call runs on it; it must not write into it. Here too, a state that did
 * not come from these calls is presumed away.
 */
typedef struct zwerfen_guest {
    uint64_t phase;
    uint64_t length;                      /* octets of the request */
    uint64_t written;                     /* how many of them are on the page */
    uint64_t req_prod;                    /* a 32-bit count, as on the page */
    uint64_t taken;                       /* octets read of the present ack */
    uint64_t rsp_cons;                    /* a 32-bit count, as on the page */
    uint8_t request[ZWERFEN_MAX_REQUEST]; /* the present request, or the last one */
    uint8_t header[8];                    /* of the present ack, as is the payload */
    uint8_t payload[ZWERFEN_MAX_ACK_PAYLOAD];
} zwerfen_guest;

ZWERFEN_STATIC_ASSERT(offsetof(zwerfen_guest, phase) == 0, "phase stands first");
ZWERFEN_STATIC_ASSERT(offsetof(zwerfen_guest, length) == 8, "length stands behind phase");
ZWERFEN_STATIC_ASSERT(offsetof(zwerfen_guest, written) == 16, "written stands behind length");
ZWERFEN_STATIC_ASSERT(offsetof(zwerfen_guest, req_prod) == 24, "req_prod stands behind written");
ZWERFEN_STATIC_ASSERT(offsetof(zwerfen_guest, taken) == 32, "taken stands behind req_prod");
ZWERFEN_STATIC_ASSERT(offsetof(zwerfen_guest, rsp_cons) == 40, "rsp_cons stands behind taken");
ZWERFEN_STATIC_ASSERT(offsetof(zwerfen_guest, request) == 48, "request stands behind rsp_cons");
ZWERFEN_STATIC_ASSERT(offsetof(zwerfen_guest, header) == 1080, "header stands behind request");
ZWERFEN_STATIC_ASSERT(offsetof(zwerfen_guest, payload) == 1088, "payload stands behind header");
ZWERFEN_STATIC_ASSERT(sizeof(zwerfen_guest) == 1104, "zwerfen_guest ends with payload");

/* ---- The host ---- */

/*
 * Sets up an interface with this many queues in operation, 1 to 64: no flags, a key of zeros, a mapping of one entry with
 * queue 0, nothing read and no ack owed. What was in *interface before does not matter, and nothing of it stays.
 * Refuses by ZWERFEN_QUEUES.
 */
uint32_t zwerfen_set_up(zwerfen_interface *interface, uint32_t queues);

/*
 * One event of the control ring.
 *
 * The page is the host's own copy of the shared page: copy it before the call, so that it is still during the call, and
 * copy back afterwards only what the host owns: req_cons (octets 0 to 3), rsp_prod (12 to 15) and the response area (1040
 * to 2063). The counts req_cons and rsp_prod on the page are written and never read.
 *
 * If ack octets are owed, as many are written as fit, and nothing is read. Otherwise octets of the present request are read
 * until it is whole or none is left, and a whole request is carried out and its ack written as far as it fits. A request
 * behind it waits for the next event, so call again after ZWERFEN_ACK_WRITTEN while octets are unread.
 *
 * Answers ZWERFEN_WAITING, ZWERFEN_ACK_WRITTEN or ZWERFEN_ACK_OWED. Refuses by ZWERFEN_PAGE_LENGTH, ZWERFEN_REQUEST_COUNT
 * or ZWERFEN_RESPONSE_COUNT, in this order.
 */
uint32_t zwerfen_event(zwerfen_interface *interface, uint8_t *page, size_t page_length);

/*
 * Type, hash and queue of an IP packet under the settings of the interface: one question, so that the three belong together.
 * Every queue is below the number of queues in operation. Nothing is copied and nothing is refused. A fragment of an IPv4
 * datagram goes by its addresses alone, as ZWERFEN_IPV4, so that all fragments of a datagram go to one queue.
 *
 * Answers ZWERFEN_HASHED, with all three; or ZWERFEN_UNHASHED, with *queue 0, and *hash_type and *hash as they were.
 */
uint32_t zwerfen_steer(const zwerfen_interface *interface, const uint8_t *packet, size_t packet_length,
                       uint32_t *hash_type, uint32_t *hash, uint32_t *queue);

/* ---- The hash, by itself ---- */

/*
 * The Toeplitz hash of an input of at most 36 octets under a key of 40.
 * Refuses by ZWERFEN_KEY_LENGTH, then ZWERFEN_INPUT_LENGTH.
 */
uint32_t zwerfen_hash(const uint8_t *key, size_t key_length, const uint8_t *input, size_t input_length, uint32_t *hash);

/*
 * Whether the two directions of every conversation have one hash under the key: whether each input of the hash type has the
 * hash of its reverse, with addresses and ports exchanged. *meet is then 1. Otherwise *meet is 0, and *bit the lowest bit
 * that, alone set in an input, gives it another hash than its reverse; bit 0 is the top bit of octet 0. Where *meet is 1,
 * *bit is as it was.
 * Refuses by ZWERFEN_KEY_LENGTH, then ZWERFEN_HASH_TYPE.
 */
uint32_t zwerfen_two_way(const uint8_t *key, size_t key_length, uint32_t hash_type, uint32_t *meet, size_t *bit);

/* ---- The guest's end of the ring ---- */

/*
 * A driver sets up a guest once for a ring, starts a request, and then calls zwerfen_guest_event each time the host has
 * moved its counts, until ZWERFEN_ACK_READ hands back the status of the request. Then it may start the next one.
 *
 * The page is the driver's own copy of the shared page: copy it before a call, so that it is still during the call, and copy
 * back afterwards only what the guest owns: req_prod (octets 4 to 7), rsp_cons (8 to 11) and the request area (16 to 1039).
 * Copy the counts last, for they tell the host that the octets are there. The counts req_prod and rsp_cons on the page are
 * never read; a call that answers ZWERFEN_REQUEST_PENDING, ZWERFEN_ACK_READ or ZWERFEN_REQUEST_OWED writes both. Then send
 * the host an event, for it may have octets to read, or room for octets of an ack that it owes.
 *
 * Every call but the setup refuses first by ZWERFEN_PAGE_LENGTH, ZWERFEN_REQUEST_COUNT, ZWERFEN_RESPONSE_COUNT, and by
 * ZWERFEN_NOT_AN_ACK if an ack has been refused since setup, in this order.
 */

/*
 * Sets up a guest: no request, nothing written and nothing read, both own counts 0, as on a zeroed page. What was in *guest
 * before does not matter, and nothing of it stays. Refuses nothing.
 */
void zwerfen_guest_set_up(zwerfen_guest *guest);

/*
 * Each starts one of the four requests: writes as much of it as fits into the request area, and reads nothing. Key and
 * entries are copied, so they need not stay. Queue numbers are not judged here; the host does.
 *
 * Answers ZWERFEN_REQUEST_PENDING or ZWERFEN_REQUEST_OWED. Refuses, behind what every call refuses, by
 * ZWERFEN_REQUEST_OUTSTANDING, then by ZWERFEN_KEY_LENGTH (set key) or ZWERFEN_VALUE (set flags, set mapping).
 */
uint32_t zwerfen_guest_start_get_flags(zwerfen_guest *guest, uint8_t *page, size_t page_length);
uint32_t zwerfen_guest_start_set_flags(zwerfen_guest *guest, uint8_t *page, size_t page_length, uint64_t flags);
uint32_t zwerfen_guest_start_set_key(zwerfen_guest *guest, uint8_t *page, size_t page_length, const uint8_t *key,
                                     size_t key_length);
uint32_t zwerfen_guest_start_set_mapping(zwerfen_guest *guest, uint8_t *page, size_t page_length, const uint64_t *entries,
                                         size_t entry_count);

/*
 * One event of the guest. If octets of the request are owed, as many are written as fit, and nothing is read. Otherwise
 * octets of the ack are read until it is whole or none is left. Without a request nothing is read.
 *
 * Answers ZWERFEN_REQUEST_PENDING or ZWERFEN_REQUEST_OWED, with *status and *flags as they were; or ZWERFEN_ACK_READ, with
 * *status, and for a get flags with status 0 also with *flags, those that the host supports; else *flags is as it was.
 *
 * An ack that zwerfen_read_ack refuses, or whose header has a size other than 8 and 16, is refused by ZWERFEN_NOT_AN_ACK,
 * with page and own counts as they were. The guest has then failed, and each later call with good counts is refused alike
 * until a new setup, for which host and guest must both begin again on a zeroed page.
 */
uint32_t zwerfen_guest_event(zwerfen_guest *guest, uint8_t *page, size_t page_length, uint32_t *status, uint32_t *flags);

/* ---- The guest's messages, by themselves ---- */

/*
 * The four requests. Each is put at the start of the buffer, *length is its number of octets, and the octets behind it stay
 * as they are. Queue numbers are not judged here; the host does.
 * They refuse by ZWERFEN_KEY_LENGTH (set key) or ZWERFEN_VALUE (set flags, set mapping), then ZWERFEN_BUFFER_LENGTH.
 */
uint32_t zwerfen_write_get_flags(uint8_t *buffer, size_t buffer_length, size_t *length);
uint32_t zwerfen_write_set_flags(uint8_t *buffer, size_t buffer_length, uint64_t flags, size_t *length);
uint32_t zwerfen_write_set_key(uint8_t *buffer, size_t buffer_length, const uint8_t *key, size_t key_length,
                               size_t *length);
uint32_t zwerfen_write_set_mapping(uint8_t *buffer, size_t buffer_length, const uint64_t *entries, size_t entry_count,
                                   size_t *length);

/*
 * Reads the ack to a request of the given type: *status is its status. Only the ack to a get flags with status 0 has flags,
 * those that the host supports; else *flags is as it was.
 * Refuses by ZWERFEN_NOT_AN_ACK.
 */
uint32_t zwerfen_read_ack(uint32_t request_type, const uint8_t *message, size_t message_length, uint32_t *status,
                          uint32_t *flags);

#ifdef __cplusplus
}
#endif

#endif
