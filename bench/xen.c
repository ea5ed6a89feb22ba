/* The hash that Xen's public header io/netif.h gives to whoever has none. */
#include "peers.h"
#include "zwerfen.h"

#define XEN_NETIF_DEFINE_TOEPLITZ
#include <xen/io/netif.h>

uint32_t xen_hash(const uint8_t *key, const uint8_t *input, size_t length)
{
    return xen_netif_toeplitz_hash(key, ZWERFEN_KEY, input, (unsigned int)length);
}
