/* The benchmark's program: pins itself to one processor and prints the four timed tables. Its argument: the rounds. */
#define _GNU_SOURCE
#include "tables.h"

#include <sched.h>
#include <stdio.h>
#include <stdlib.h>

/* Moving between processors in the middle of a round would be measured too. */
static void stay_on_this_processor(void)
{
    cpu_set_t processors;
    CPU_ZERO(&processors);
    CPU_SET((size_t)sched_getcpu(), &processors);
    if (sched_setaffinity(0, sizeof processors, &processors) != 0) {
        perror("sched_setaffinity");
        exit(1);
    }
}

int main(int count, char **arguments)
{
    size_t rounds = count == 2 ? strtoul(arguments[1], NULL, 10) : 0;
    if (rounds == 0) {
        fprintf(stderr, "usage: bench ROUNDS\n");
        return 2;
    }
    stay_on_this_processor();
    print_hash_table(rounds);
    print_packet_table(rounds);
    print_event_table(rounds);
    print_guest_table(rounds);
    return 0;
}
