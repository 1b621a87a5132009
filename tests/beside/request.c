/* Schedules a request for one slot and prints the block that carries its grant; the sizes are those that the Rust crate tests. */
#include "bs_sched.h"
#include <stdio.h>

_Static_assert(sizeof(struct bs_sched_grant) == 4, "grant");
_Static_assert(sizeof(struct bs_sched_built) == 36, "built");
_Static_assert(sizeof(struct bs_sched_owners) == 16, "owners");
_Static_assert(sizeof(struct bs_sched_slot_usage) == 3, "usage");

static uint32_t station[BS_SCHED_STATION_WORDS];
static uint32_t queue[BS_SCHED_QUEUE_WORDS];
static uint8_t store[BS_SCHED_STORE_OCTETS];
static uint8_t block[BS_SCHED_BLOCK_OCTETS];

int main(void) {
    if (bs_sched_new(station, BS_SCHED_STATION_WORDS, 0, 1, 1, 1) != BS_SCHED_DONE)
        return 1;
    struct bs_sched_grant grant = bs_sched_request(station, BS_SCHED_STATION_WORDS, queue, BS_SCHED_QUEUE_WORDS, store,
                                                   BS_SCHED_STORE_OCTETS, 1, 1, 0, 1);
    printf("R %u %u %u %u\n", grant.refusal, grant.capacity, grant.delay, grant.usage_marker);
    struct bs_sched_built built = bs_sched_build(station, BS_SCHED_STATION_WORDS, queue, BS_SCHED_QUEUE_WORDS, store,
                                                 BS_SCHED_STORE_OCTETS, block, BS_SCHED_BLOCK_OCTETS);
    printf("B %u ", built.refusal);
    for (int i = 0; i < BS_SCHED_BLOCK_OCTETS; i++)
        printf("%02x", block[i]);
    printf("\n");
    return built.built == 1 ? 0 : 1;
}
