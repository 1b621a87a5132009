/* Calls every function of include/bs_sched.h with right and with wrong lengths, as C and as C++. Each buffer ends where its allocation
   ends, so that a checker of memory sees one octet too far: by malloc, or with the word `guard` before a page that no one may touch. */
#include "bs_sched.h"
#include <stdio.h>
#include <stdlib.h>
#include <string.h>
#include <sys/mman.h>
#include <unistd.h>

static int guard;
static int failures;

static void expect(int holds, const char *what, int line) {
    if (!holds) {
        printf("line %d: %s\n", line, what);
        failures++;
    }
}
#define EXPECT(holds) expect(!!(holds), #holds, __LINE__)

/* n octets at the very end of an allocation, all zero */
static uint8_t *lend(size_t n) {
    if (!guard) {
        uint8_t *p = (uint8_t *)calloc(n ? n : 1, 1);
        if (!p)
            exit(2);
        return n ? p : p + 1;
    }
    size_t page = (size_t)sysconf(_SC_PAGESIZE);
    size_t room = (n + page - 1) / page * page;
    uint8_t *p = (uint8_t *)mmap(NULL, room + page, PROT_READ | PROT_WRITE, MAP_PRIVATE | MAP_ANONYMOUS, -1, 0);
    if (p == (uint8_t *)MAP_FAILED || mprotect(p + room, page, PROT_NONE))
        exit(2);
    return p + room - n;
}

static uint32_t *lend_words(size_t n) { return (uint32_t *)(void *)lend(4 * n); }

struct memory {
    uint32_t *station;
    uint32_t *queue;
    uint8_t *store;
    uint8_t *block;
};

static struct memory fresh(void) {
    struct memory m;
    m.station = lend_words(BS_SCHED_STATION_WORDS);
    m.queue = lend_words(BS_SCHED_QUEUE_WORDS);
    m.store = lend(BS_SCHED_STORE_OCTETS);
    m.block = lend(BS_SCHED_BLOCK_OCTETS);
    EXPECT(bs_sched_new(m.station, BS_SCHED_STATION_WORDS, 0, 1, 1, 1) == BS_SCHED_DONE);
    return m;
}

#define STATION m.station, BS_SCHED_STATION_WORDS
#define QUEUE m.queue, BS_SCHED_QUEUE_WORDS
#define STORE m.store, BS_SCHED_STORE_OCTETS
#define BLOCK m.block, BS_SCHED_BLOCK_OCTETS

/* a copy of what the calls may alter, to compare with after a refusal */
static uint8_t before[4 * (BS_SCHED_STATION_WORDS + BS_SCHED_QUEUE_WORDS) + BS_SCHED_STORE_OCTETS + BS_SCHED_BLOCK_OCTETS];

static void each(const struct memory *m, int compare) {
    const void *parts[4] = {m->station, m->queue, m->store, m->block};
    const size_t sizes[4] = {4 * BS_SCHED_STATION_WORDS, 4 * BS_SCHED_QUEUE_WORDS, BS_SCHED_STORE_OCTETS, BS_SCHED_BLOCK_OCTETS};
    size_t at = 0;
    for (int i = 0; i < 4; i++) {
        if (compare)
            EXPECT(memcmp(before + at, parts[i], sizes[i]) == 0);
        else
            memcpy(before + at, parts[i], sizes[i]);
        at += sizes[i];
    }
}

static void keep(const struct memory *m) { each(m, 0); }
static void unaltered(const struct memory *m) { each(m, 1); }

static void station_alone(void) {
    struct memory m = fresh();
    keep(&m);
    EXPECT(bs_sched_new(STATION, 0, 1, 19, 1) == BS_SCHED_UNSOUND);
    EXPECT(bs_sched_new(m.station, 227, 0, 1, 1, 1) == BS_SCHED_LENGTHS);
    EXPECT(bs_sched_new(m.station, 227, 0, 61, 1, 1) == BS_SCHED_UNSOUND);
    EXPECT(bs_sched_new(lend_words(0), 0, 0, 1, 1, 1) == BS_SCHED_LENGTHS);
    EXPECT(bs_sched_advance(m.station, 227) == BS_SCHED_LENGTHS);
    EXPECT(bs_sched_advance(lend_words(0), 0) == BS_SCHED_LENGTHS);
    EXPECT(bs_sched_slot_owner(m.station, 227, 0, 1, 1, 1).refusal == BS_SCHED_LENGTHS);
    EXPECT(bs_sched_slot_owner(STATION, 0, 1, 1, 5).refusal == BS_SCHED_UNSOUND);
    EXPECT(bs_sched_usage(m.station, 227, 0, 1, 1, 1).refusal == BS_SCHED_LENGTHS);
    EXPECT(bs_sched_usage(STATION, 0, 61, 1, 1).refusal == BS_SCHED_UNSOUND);
    EXPECT(bs_sched_usage(STATION, 0, 1, 1, 1).usage == 0);
    unaltered(&m);
    EXPECT(bs_sched_advance(STATION) == BS_SCHED_DONE);
    EXPECT(m.station[0] == 2);
    m.station[0] = 5;
    keep(&m);
    EXPECT(bs_sched_advance(STATION) == BS_SCHED_UNSOUND);
    unaltered(&m);
}

static void requests(void) {
    struct memory m = fresh();
    keep(&m);
    EXPECT(bs_sched_request(m.station, 227, QUEUE, STORE, 1, 1, 0, 1).refusal == BS_SCHED_LENGTHS);
    EXPECT(bs_sched_request(STATION, m.queue, 1471, STORE, 1, 1, 0, 1).refusal == BS_SCHED_LENGTHS);
    EXPECT(bs_sched_request(STATION, lend_words(0), 0, STORE, 1, 1, 0, 1).refusal == BS_SCHED_LENGTHS);
    EXPECT(bs_sched_request(STATION, QUEUE, m.store, 16383, 1, 1, 0, 1).refusal == BS_SCHED_LENGTHS);
    EXPECT(bs_sched_request(STATION, QUEUE, STORE, 5, 1, 0, 1).refusal == BS_SCHED_TIMESLOT);
    EXPECT(bs_sched_request(STATION, QUEUE, STORE, 1, 16, 0, 1).refusal == BS_SCHED_REQUIREMENT);
    EXPECT(bs_sched_request(STATION, QUEUE, STORE, 1, 1, 3, 1).refusal == BS_SCHED_ADDRESS);
    EXPECT(bs_sched_request(STATION, QUEUE, STORE, 1, 11, 0, 1).refusal == BS_SCHED_NO_RUN);
    EXPECT(bs_sched_enqueue_ack(m.station, 229, QUEUE, STORE, 1, 0, 7) == BS_SCHED_LENGTHS);
    EXPECT(bs_sched_enqueue_ack(STATION, m.queue, 0, STORE, 1, 0, 7) == BS_SCHED_LENGTHS);
    EXPECT(bs_sched_enqueue_ack(STATION, QUEUE, m.store, 0, 1, 0, 7) == BS_SCHED_LENGTHS);
    EXPECT(bs_sched_enqueue_ack(STATION, QUEUE, STORE, 0, 0, 7) == BS_SCHED_TIMESLOT);
    EXPECT(bs_sched_enqueue_ack(STATION, QUEUE, STORE, 1, 0, 1u << 24) == BS_SCHED_ADDRESS);
    unaltered(&m);
    struct bs_sched_grant grant = bs_sched_request(STATION, QUEUE, STORE, 1, 2, 0, 9);
    EXPECT(grant.refusal == 0 && grant.capacity == 2 && grant.delay == 0 && grant.usage_marker == 4);
    struct bs_sched_owners owners = bs_sched_slot_owner(STATION, 0, 1, 1, 1);
    EXPECT(owners.refusal == 0 && owners.both == BS_SCHED_OF(9) && owners.first == owners.both && owners.second == owners.both);
    struct bs_sched_slot_usage usage = bs_sched_usage(STATION, 0, 1, 2, 1);
    EXPECT(usage.refusal == 0 && usage.usage == 3 && usage.usage_marker == 4);
    EXPECT(bs_sched_enqueue_ack(STATION, QUEUE, STORE, 1, 0, 7) == BS_SCHED_DONE);
    EXPECT(m.station[224] == 2);
}

static void records_and_blocks(void) {
    struct memory m = fresh();
    uint32_t *record = lend_words(BS_SCHED_RECORD_WORDS);
    uint8_t *sdu = lend(256);
    memset(sdu, 0xa5, 256);
    record[2] = 3;
    record[3] = BS_SCHED_OF(77);
    record[21] = 2048;
    m.block[0] = 0x11;
    keep(&m);
    EXPECT(bs_sched_enqueue(m.station, 227, QUEUE, STORE, 1, record, 23, sdu, 256) == BS_SCHED_LENGTHS);
    EXPECT(bs_sched_enqueue(STATION, m.queue, 1471, STORE, 1, record, 23, sdu, 256) == BS_SCHED_LENGTHS);
    EXPECT(bs_sched_enqueue(STATION, QUEUE, m.store, 16383, 1, record, 23, sdu, 256) == BS_SCHED_LENGTHS);
    EXPECT(bs_sched_enqueue(STATION, QUEUE, STORE, 1, record, 22, sdu, 256) == BS_SCHED_LENGTHS);
    m.station[1] = 19;
    EXPECT(bs_sched_enqueue(STATION, QUEUE, STORE, 1, record, 22, sdu, 256) == BS_SCHED_UNSOUND);
    m.station[1] = 1;
    EXPECT(bs_sched_enqueue(STATION, QUEUE, STORE, 1, lend_words(0), 0, sdu, 256) == BS_SCHED_LENGTHS);
    EXPECT(bs_sched_enqueue(STATION, QUEUE, STORE, 1, record, 23, sdu, 255) == BS_SCHED_SDU);
    EXPECT(bs_sched_enqueue(STATION, QUEUE, STORE, 1, record, 23, lend(0), 0) == BS_SCHED_SDU);
    struct bs_sched_built built = bs_sched_build(STATION, QUEUE, STORE, BLOCK);
    EXPECT(built.refusal == 0 && built.built == 0 && built.tag_count == 0);
    unaltered(&m);
    EXPECT(bs_sched_enqueue(STATION, QUEUE, STORE, 1, record, 23, sdu, 256) == BS_SCHED_DONE);
    keep(&m);
    EXPECT(bs_sched_build(m.station, 227, QUEUE, STORE, BLOCK).refusal == BS_SCHED_LENGTHS);
    EXPECT(bs_sched_build(STATION, m.queue, 1471, STORE, BLOCK).refusal == BS_SCHED_LENGTHS);
    EXPECT(bs_sched_build(STATION, QUEUE, m.store, 16383, BLOCK).refusal == BS_SCHED_LENGTHS);
    EXPECT(bs_sched_build(STATION, QUEUE, STORE, m.block, 33).refusal == BS_SCHED_LENGTHS);
    EXPECT(bs_sched_build(STATION, QUEUE, STORE, lend(0), 0).refusal == BS_SCHED_LENGTHS);
    unaltered(&m);
    int tag = 0;
    for (int slot = 0; slot < 60 && !tag; slot++) {
        built = bs_sched_build(STATION, QUEUE, STORE, BLOCK);
        EXPECT(built.refusal == 0);
        if (built.tag_count)
            tag = built.tags[0];
        EXPECT(bs_sched_advance(STATION) == BS_SCHED_DONE);
    }
    EXPECT(tag == 77);
    /* sixteen are queued, a seventeenth is not */
    m = fresh();
    for (int i = 0; i < 16; i++)
        EXPECT(bs_sched_enqueue(STATION, QUEUE, STORE, 4, record, 23, sdu, 256) == BS_SCHED_DONE);
    EXPECT(bs_sched_enqueue(STATION, QUEUE, STORE, 4, record, 23, sdu, 256) == BS_SCHED_QUEUE_FULL);
}

static void buffers(void) {
    struct memory m = fresh();
    uint32_t *headers = lend_words(BS_SCHED_HEADERS_WORDS);
    EXPECT(bs_sched_request(STATION, QUEUE, STORE, 1, 1, 0, 1).refusal == 0);
    EXPECT(bs_sched_build(STATION, QUEUE, STORE, BLOCK).built == 1);
    memset(headers, 0xff, 4 * BS_SCHED_HEADERS_WORDS);
    EXPECT(bs_sched_read_block(m.block, 33, headers, 384).refusal == BS_SCHED_LENGTHS);
    EXPECT(bs_sched_read_block(lend(0), 0, headers, 384).refusal == BS_SCHED_LENGTHS);
    EXPECT(bs_sched_read_block(BLOCK, headers, 383).refusal == BS_SCHED_LENGTHS);
    EXPECT(bs_sched_read_block(BLOCK, lend_words(0), 0).refusal == BS_SCHED_LENGTHS);
    m.block[33] = 1;
    EXPECT(bs_sched_read_block(BLOCK, headers, 384).refusal == BS_SCHED_MALFORMED);
    m.block[33] = 0;
    for (int i = 0; i < 384; i++)
        EXPECT(headers[i] == 0xffffffffu);
    struct bs_sched_read read = bs_sched_read_block(BLOCK, headers, 384);
    EXPECT(read.refusal == 0 && read.count == 2);
    EXPECT(headers[7] == 1 && headers[8] == 1 && headers[12] == BS_SCHED_OF(0x10));
    EXPECT(headers[24] == 56 && headers[24 + 6] == 2 && headers[24 + 7] == 0);
    for (int i = 48; i < 384; i++)
        EXPECT(headers[i] == 0);
    /* what was listed is written again, where it stood */
    uint8_t *again = lend(BS_SCHED_BLOCK_OCTETS);
    uint32_t *header = lend_words(BS_SCHED_HEADER_WORDS);
    memcpy(header, headers, 4 * BS_SCHED_HEADER_WORDS);
    struct bs_sched_written written = bs_sched_write_header(again, 34, 0, header, 24);
    EXPECT(written.refusal == 0 && written.end == 51 && memcmp(again, m.block, 6) == 0);
    /* the header's last bit is the buffer's last */
    uint8_t *tight = lend(7);
    EXPECT(bs_sched_write_header(tight, 7, 5, header, 24).end == 56);
    memset(tight, 0, 7);
    EXPECT(bs_sched_write_header(tight, 7, 6, header, 24).refusal == BS_SCHED_NO_ROOM);
    EXPECT(bs_sched_write_header(tight, 7, UINT64_MAX, header, 24).refusal == BS_SCHED_NO_ROOM);
    EXPECT(bs_sched_write_header(tight, 7, 0, header, 23).refusal == BS_SCHED_LENGTHS);
    EXPECT(bs_sched_write_header(tight, 7, 0, lend_words(0), 0).refusal == BS_SCHED_LENGTHS);
    EXPECT(bs_sched_write_header(lend(0), 0, 0, header, 24).refusal == BS_SCHED_NO_ROOM);
    header[1] = 1;
    written = bs_sched_write_header(tight, 7, 0, header, 24);
    EXPECT(written.refusal == BS_SCHED_HEADER && written.end == 0);
    header[1] = 0;
    header[8] = 1u << 24;
    EXPECT(bs_sched_write_header(tight, 7, 0, header, 24).refusal == BS_SCHED_ADDRESS);
    for (int i = 0; i < 7; i++)
        EXPECT(tight[i] == 0);
    /* fill */
    tight[0] = 0x80;
    struct bs_sched_fill fill = bs_sched_fill_bits(tight, 7, 0, 56);
    EXPECT(fill.refusal == 0 && fill.bits == 56);
    EXPECT(bs_sched_fill_bits(tight, 7, 1, 56).bits == 0);
    fill = bs_sched_fill_bits(tight, 7, 0, 57);
    EXPECT(fill.refusal == BS_SCHED_NO_ROOM && fill.bits == 0);
    EXPECT(bs_sched_fill_bits(lend(0), 0, 0, 0).refusal == 0);
    EXPECT(bs_sched_fill_bits(lend(65536), 65536, 0, 8 * 65536).bits == 0);
}

int main(int argc, char **argv) {
    guard = argc > 1 && strcmp(argv[1], "guard") == 0;
    station_alone();
    requests();
    records_and_blocks();
    buffers();
    printf("%s: %d wrong\n", BS_SCHED_VERSION, failures);
    return failures ? 1 : 0;
}
