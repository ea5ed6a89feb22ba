/* The first table: zwerfen_hash against the hashes of DPDK, of Xen and of plain Rust. */
#include "measure.h"
#include "peers.h"
#include "tables.h"
#include "zwerfen.h"

#include <stdio.h>
#include <string.h>

#define AGREEMENTS 10000u

/* DPDK reads its keys as words. */
static _Alignas(uint32_t) uint8_t key[ZWERFEN_KEY], converted_key[ZWERFEN_KEY];

static uint8_t inputs[POOL][ZWERFEN_MAX_INPUT];
static hash_inputs pool = {key, inputs[0], sizeof inputs[0], 0};

typedef struct peer {
    const char *name;
    peer_hash *hash;
    const uint8_t *key;
} peer;

static const peer peers[] = {
    {"rte_softrss", dpdk_softrss, key},
    {"rte_softrss_be", dpdk_softrss_be, converted_key},
    {"Xen's header", xen_hash, key},
    {"plain Rust", rust_hash, key},
};
#define PEERS (sizeof peers / sizeof *peers)

/* DPDK's two, which come first, hash words of four octets and have no part in an input of another length. */
static size_t first_peer(size_t length)
{
    return length % 4 == 0 ? 0 : 2;
}

static void change_key(void)
{
    random_octets(key, sizeof key);
    dpdk_convert_key(key, converted_key);
}

static void see_hashes_agree(void)
{
    for (size_t i = 0; i < AGREEMENTS; i++) {
        uint8_t input[ZWERFEN_MAX_INPUT];
        size_t length = random_below(ZWERFEN_MAX_INPUT + 1);
        uint32_t hash = 0;
        change_key();
        random_octets(input, length);
        if (zwerfen_hash(key, ZWERFEN_KEY, input, length, &hash) != ZWERFEN_DONE)
            stop_because("zwerfen_hash refuses an input");
        for (size_t p = first_peer(length); p < PEERS; p++)
            if (peers[p].hash(peers[p].key, input, length) != hash)
                stop_because("the hashes differ");
    }
    printf("%u random inputs: all five hashes agree\n", AGREEMENTS);
}

double our_hash_batch(const void *context)
{
    const hash_inputs *of = context;
    const uint8_t *input = of->first;
    uint32_t results = 0;
    uint64_t start = now();
    for (size_t i = 0; i < POOL; i++, input += of->stride) {
        uint32_t hash = 0;
        zwerfen_hash(of->key, ZWERFEN_KEY, input, of->length, &hash);
        results ^= hash;
    }
    return time_per_call(now() - start, POOL, results);
}

static double peer_batch(const void *context)
{
    const peer *peer = context;
    uint32_t results = 0;
    uint64_t start = now();
    for (size_t i = 0; i < POOL; i++)
        results ^= peer->hash(peer->key, inputs[i], pool.length);
    return time_per_call(now() - start, POOL, results);
}

static void fill_random(void)
{
    random_octets(inputs[0], sizeof inputs);
}

/* Two different bits are set, which suits a hash that goes from set bit to set bit. */
static void fill_sparse(void)
{
    memset(inputs, 0, sizeof inputs);
    for (size_t i = 0; i < POOL; i++) {
        uint64_t bits = 8 * pool.length;
        uint64_t first = random_below(bits);
        uint64_t second = (first + 1 + random_below(bits - 1)) % bits;
        inputs[i][first / 8] |= 0x80 >> first % 8;
        inputs[i][second / 8] |= 0x80 >> second % 8;
    }
}

typedef struct row {
    size_t length;
    const char *kind;
    void (*fill)(void);
} row;

static const row rows[] = {
    {8, "random", fill_random},  {8, "sparse", fill_sparse},  {12, "random", fill_random}, {12, "sparse", fill_sparse},
    {32, "random", fill_random}, {32, "sparse", fill_sparse}, {36, "random", fill_random}, {36, "sparse", fill_sparse},
    /* lengths that no hash type has */
    {3, "random", fill_random},  {7, "random", fill_random},  {11, "random", fill_random}, {35, "random", fill_random},
};
#define ROWS (sizeof rows / sizeof *rows)

static void prepare(const void *context)
{
    const row *row = context;
    pool.length = row->length;
    row->fill();
}

static void print_row(const row *row, const contest *contest)
{
    size_t first = first_peer(row->length);
    printf("%2zu octets, %-7s %8.1f", row->length, row->kind, median_ns(contest, 0));
    for (size_t p = 0; p < first; p++)
        printf(" %15s", "");
    for (size_t p = first; p < PEERS; p++)
        printf(" %9.1f %5.2f", median_ns(contest, 1 + p - first), median_ratio(contest, 0, 1 + p - first));
    printf("\n");
}

void print_hash_table(size_t rounds)
{
    contest contests[ROWS];
    see_hashes_agree();
    printf("\nA. Hash: ns for each call and, behind each peer's, ours / peer; sparse inputs have two bits set\n");
    printf("%-18s %8s", "input", "zwerfen");
    for (size_t p = 0; p < PEERS; p++)
        printf(" %15s", peers[p].name);
    printf("\n");
    for (size_t r = 0; r < ROWS; r++) {
        size_t first = first_peer(rows[r].length);
        contests[r] = (contest){prepare, &rows[r], 1 + PEERS - first, rounds, {{our_hash_batch, &pool, NULL}}};
        for (size_t p = first; p < PEERS; p++)
            contests[r].contestants[1 + p - first] = (contestant){peer_batch, &peers[p], NULL};
    }
    compete(contests, ROWS);
    for (size_t r = 0; r < ROWS; r++)
        print_row(&rows[r], &contests[r]);
    printf("\n");
    dismiss(contests, ROWS);
}
