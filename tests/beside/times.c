/* Nanoseconds of each call of include/bs_sched.h, the least of many rounds. A call is timed on a copy of the state that it needs, less the
   time of the copy. */
#define _POSIX_C_SOURCE 199309L
#include "bs_sched.h"
#include <stdio.h>
#include <string.h>
#include <time.h>

struct memory {
    uint32_t station[BS_SCHED_STATION_WORDS];
    uint32_t queue[BS_SCHED_QUEUE_WORDS];
    uint8_t store[BS_SCHED_STORE_OCTETS];
};

static struct memory now;
static uint8_t block[BS_SCHED_BLOCK_OCTETS];
static uint8_t sdu[256];

#define STATION now.station, BS_SCHED_STATION_WORDS
#define QUEUE now.queue, BS_SCHED_QUEUE_WORDS
#define STORE now.store, BS_SCHED_STORE_OCTETS

static void nothing(void) {}
static void advance(void) { bs_sched_advance(STATION); }
static void request(void) { bs_sched_request(STATION, QUEUE, STORE, 1, 1, 0, 1); }
static void refused(void) { bs_sched_request(STATION, QUEUE, STORE, 9, 1, 0, 1); }
static void usage(void) { bs_sched_usage(STATION, 0, 1, 1, 1); }

static void enqueue_for(uint8_t timeslot, uint32_t number, uint32_t bits) {
    uint32_t record[BS_SCHED_RECORD_WORDS] = {2, 0, number};
    record[21] = bits;
    bs_sched_enqueue(STATION, QUEUE, STORE, timeslot, record, BS_SCHED_RECORD_WORDS, sdu, sizeof sdu);
}

static void enqueue(void) { enqueue_for(1, 20, 40); }
static void build(void) { bs_sched_build(STATION, QUEUE, STORE, block, BS_SCHED_BLOCK_OCTETS); }

static void fill(int timeslots, int count, uint32_t bits) {
    memset(&now, 0, sizeof now);
    bs_sched_new(STATION, 0, 1, 1, 1);
    for (int t = 1; t <= timeslots; t++)
        for (int n = 1; n <= count; n++)
            enqueue_for((uint8_t)t, (uint32_t)n, bits);
}

static double seconds(void) {
    struct timespec t;
    clock_gettime(CLOCK_MONOTONIC, &t);
    return (double)t.tv_sec + 1e-9 * (double)t.tv_nsec;
}

static double least(const struct memory *before, void (*call)(void)) {
    enum { TIMES = 200 };
    double best = 1;
    for (int round = 0; round < 400; round++) {
        double start = seconds();
        for (int i = 0; i < TIMES; i++) {
            memcpy(&now, before, sizeof now);
            __asm__ volatile("" ::: "memory");
            call();
        }
        double took = (seconds() - start) / TIMES;
        if (took < best)
            best = took;
    }
    return 1e9 * best;
}

static void row(const char *name, void (*call)(void)) {
    static struct memory before;
    before = now;
    printf("%-44s %8.0f\n", name, least(&before, call) - least(&before, nothing));
}

int main(void) {
    memset(sdu, 0xa5, sizeof sdu);
    fill(0, 0, 0);
    row("advance", advance);
    row("usage of a slot", usage);
    row("request refused with 3", refused);
    row("request granted, one slot", request);
    row("record queued, 40 bits", enqueue);
    row("build, nothing queued", build);
    fill(1, 1, 40);
    row("build, 1 record of 40 bits", build);
    fill(1, 1, 2048);
    row("build, one record of 2,048 bits", build);
    fill(4, 16, 40);
    row("request refused with 3, all places filled", refused);
    row("build, 16 records of 40 bits", build);
    return 0;
}
