/* DPDK's two software hashes, given the input octets as a packet has them. */
#include "peers.h"
#include "zwerfen.h"

#include <rte_thash.h>
#include <string.h>

#define MAX_WORDS (ZWERFEN_MAX_INPUT / 4)

/* DPDK hashes words in the host's order, so making them is part of every call. */
static uint32_t to_words(const uint8_t *input, size_t length, uint32_t *words)
{
    uint32_t count = (uint32_t)(length / sizeof *words);
    for (uint32_t i = 0; i < count; i++) {
        uint32_t word;
        memcpy(&word, input + i * sizeof word, sizeof word);
        words[i] = rte_be_to_cpu_32(word);
    }
    return count;
}

uint32_t dpdk_softrss(const uint8_t *key, const uint8_t *input, size_t length)
{
    uint32_t words[MAX_WORDS];
    return rte_softrss(words, to_words(input, length, words), key);
}

uint32_t dpdk_softrss_be(const uint8_t *key, const uint8_t *input, size_t length)
{
    uint32_t words[MAX_WORDS];
    return rte_softrss_be(words, to_words(input, length, words), key);
}

void dpdk_convert_key(const uint8_t *key, uint8_t *converted)
{
    rte_convert_rss_key((const uint32_t *)key, (uint32_t *)converted, ZWERFEN_KEY);
}
