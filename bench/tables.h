/* The four timed tables. Each first sees ours and the peers agree, and ends the program where they do not. */
#ifndef TABLES_H
#define TABLES_H

#include <stddef.h>
#include <stdint.h>

void print_hash_table(size_t rounds);
void print_packet_table(size_t rounds);
void print_event_table(size_t rounds);
void print_guest_table(size_t rounds);

/* Both hosts under the same random events, good and damaged. */
void see_events_agree(void);

/* Both guests under the same random hosts, honest and not. */
void see_guests_agree(void);

/* Inputs of one length for the hash, each a stride behind the one before. */
typedef struct hash_inputs {
    const uint8_t *key;
    const uint8_t *first;
    size_t stride;
    size_t length;
} hash_inputs;

/* A batch of zwerfen_hash; the context is hash_inputs. */
double our_hash_batch(const void *context);

#endif
