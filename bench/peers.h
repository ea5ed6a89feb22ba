/* The hashes that zwerfen_hash is measured against, each in a file of its own so that no call is inlined. */
#ifndef PEERS_H
#define PEERS_H

#include <stddef.h>
#include <stdint.h>

/* The Toeplitz hash of the input octets under a key of 40 octets; DPDK's two take whole words of 4 octets only. */
typedef uint32_t peer_hash(const uint8_t *key, const uint8_t *input, size_t length);

peer_hash dpdk_softrss;
peer_hash dpdk_softrss_be; /* under a key that dpdk_convert_key made */
peer_hash xen_hash;
peer_hash rust_hash;

void dpdk_convert_key(const uint8_t *key, uint8_t *converted);

#endif
