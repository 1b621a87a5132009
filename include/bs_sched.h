/* The signalling scheduler of a TETRA base station: the functions of libbs_sched_c.a.

   Each answers document 01's number (enum bs_sched_refusal): 0 done, else the question that was answered no. On a number other
   than 0 nothing of the caller's is altered, and all other fields of a struct that comes back are 0. Over each function stand the
   numbers that it can give, in the order in which it asks; the first no is the answer. A wrong length or content gets a number.

   Each pointer is valid for its length (also where that is 0), aligned and not null, and what it points at is initialised; what is
   written overlaps no other buffer of the call, and nobody else touches the buffers during the call.

   The library has no state, no heap and no thread of its own. Of the host it needs memcpy, memmove and memset, and nothing else.

   A value that may be absent is 0 if it is, else the value and 1 (BS_SCHED_OF).

   A station is 228 words:
       0 to 3      timeslot, frame, multiframe, hyperframe
       4 to 219    timeslots 1 to 4, frames 1 to 18 of each, 3 words: owner of the first half or none, owner of the second half
                   or none, usage marker or none
       220 to 223  the counters of usage markers, timeslots 1 to 4
       224 to 227  the numbers of records queued, timeslots 1 to 4

   A queue is 64 records, sixteen to a timeslot, 23 words each:
       0 to 3      kind (0 grant, 1 ack, 2 record, 3 waiting, 4 started), address kind (0 SSI, 1 GSSI, 2 ISSI), number, tag or none
       4 to 6      position of grant, encryption, random access flag
       7 to 10     event label, usage marker, power control, grant octet, each or none
       11          1 with a channel allocation, else 0, and then 12 to 20 are 0
       12 to 19    type, timeslots, direction, CLCH permission, cell change, carrier, extended carrier, monitoring pattern
       20          frame-18 monitoring pattern or none
       21, 22      bits of the SDU, bits sent

   Words that no station or queue has are refused like an unsound one (1). In a record that is offered to the queue a word that is too
   wide gets the number of its question: 5 address kind or number, 6 a field of the header or the tag, 7 bits; kind and bits sent do
   not count.

   A header is 24 words:
       0           bit position in the block; does not count when the header is written
       1           0 MAC-RESOURCE, 1 MAC-FRAG, 2 MAC-END; the writer takes 0 only
       2 to 6      fill, position of grant, encryption, random access flag, length code
       7           address type: 0 null, 1 SSI, 2 event label, 3 USSI, 4 SMI, 5 SSI and label, 6 SSI and marker, 7 SMI and label
       8 to 10     number (SSI, USSI, SMI), event label, usage marker, each 0 where the type has none
       11, 12      power control, grant octet, each or none
       13 to 22    channel allocation, as words 11 to 20 of a record
       23          0
   A MAC-FRAG has fill, a MAC-END fill, position of grant and length code; their other words are 0. */
#ifndef BS_SCHED_H
#define BS_SCHED_H

#include <stddef.h>
#include <stdint.h>

#ifdef __cplusplus
extern "C" {
#endif

#define BS_SCHED_VERSION "0.1.0"
#define BS_SCHED_VERSION_MAJOR 0
#define BS_SCHED_VERSION_MINOR 1
#define BS_SCHED_VERSION_PATCH 0

#define BS_SCHED_STATION_WORDS 228
#define BS_SCHED_RECORD_WORDS 23
#define BS_SCHED_QUEUE_WORDS 1472 /* 64 records */
#define BS_SCHED_STORE_OCTETS 16384 /* 64 cells of 256 octets */
#define BS_SCHED_BLOCK_OCTETS 34 /* 268 bits */
#define BS_SCHED_HEADER_WORDS 24
#define BS_SCHED_BLOCK_HEADERS 16 /* the most headers that a block has */
#define BS_SCHED_HEADERS_WORDS 384 /* 16 headers */

#define BS_SCHED_ABSENT 0u
#define BS_SCHED_OF(value) ((uint32_t)(value) + 1u)

enum bs_sched_refusal {
    BS_SCHED_DONE = 0,
    BS_SCHED_UNSOUND = 1,
    BS_SCHED_LENGTHS = 2,
    BS_SCHED_TIMESLOT = 3,
    BS_SCHED_REQUIREMENT = 4,
    BS_SCHED_ADDRESS = 5,
    BS_SCHED_HEADER = 6,
    BS_SCHED_SDU = 7,
    BS_SCHED_QUEUE_FULL = 8,
    BS_SCHED_NO_RUN = 9,
    BS_SCHED_TOO_LATE = 10,
    BS_SCHED_NO_ROOM = 11,
    BS_SCHED_MALFORMED = 12
};

/* capacity: 0 the first half of a slot, 15 the second half, 1 to 14 the slots of requirement 1 to 14; delay: the usable slots passed
   over, 0 to 13; usage_marker: 4 to 62, 0 if none */
struct bs_sched_grant {
    uint8_t refusal;
    uint8_t capacity;
    uint8_t delay;
    uint8_t usage_marker;
};

/* built: 1 if the block is written; refusal 0 and built 0: in frame 18, or with nothing queued, there is no block, and the lent one stays
   as it was; tags[0 .. tag_count - 1]: the tags of the records that are finished, in order, zeros behind them */
struct bs_sched_built {
    uint8_t refusal;
    uint8_t built;
    uint8_t tag_count;
    uint16_t tags[16];
};

/* each owner 0 for none, else the number and 1; both: the owner of the whole slot, none if the halves have different ones */
struct bs_sched_owners {
    uint8_t refusal;
    uint32_t both;
    uint32_t first;
    uint32_t second;
};

/* usage: 0 no half taken, 1 first only, 2 both, 3 any taken with a marker; usage_marker: 0 if none */
struct bs_sched_slot_usage {
    uint8_t refusal;
    uint8_t usage;
    uint8_t usage_marker;
};

/* count: the headers listed, 0 to 16 */
struct bs_sched_read {
    uint8_t refusal;
    uint8_t count;
};

/* end: the bit position behind the header */
struct bs_sched_written {
    uint8_t refusal;
    uint64_t end;
};

/* bits: the number of fill bits */
struct bs_sched_fill {
    uint8_t refusal;
    uint64_t bits;
};

/* A new station at hyperframe h, multiframe m (1 to 60), frame f (1 to 18), timeslot t (1 to 4). The queue and the store of a new
   station are all zero.
   1 (the time), 2 (the station's words) */
uint8_t bs_sched_new(uint32_t *station, size_t station_len, uint16_t h, uint8_t m, uint8_t f, uint8_t t);

/* One slot on.
   2 (the station's words), 1 (the state) */
uint8_t bs_sched_advance(uint32_t *station, size_t station_len);

/* A request for capacity with its requirement code, 0 to 15; its grant is queued. kind: 0 SSI, 1 GSSI, 2 ISSI.
   2 (the station's words), 1 (the state), 2 (queue, store), 1 (records and cells), 3, 4, 5, 8, 9, 10 */
struct bs_sched_grant bs_sched_request(uint32_t *station, size_t station_len, uint32_t *queue, size_t queue_len,
                                       const uint8_t *store, size_t store_len, uint8_t timeslot, uint8_t code,
                                       uint8_t kind, uint32_t number);

/* An acknowledgement of a random access is queued.
   2 (the station's words), 1 (the state), 2 (queue, store), 1 (records and cells), 3, 5, 8 */
uint8_t bs_sched_enqueue_ack(uint32_t *station, size_t station_len, uint32_t *queue, size_t queue_len,
                             const uint8_t *store, size_t store_len, uint8_t timeslot, uint8_t kind, uint32_t number);

/* A record is queued with the first bits of the SDU. The record is 23 words as above; its kind and its bits sent do not count.
   2 (the station's words), 1 (the state), 2 (queue, store, record), 1 (records and cells), 3, 5, 6, 7, 8 */
uint8_t bs_sched_enqueue(uint32_t *station, size_t station_len, uint32_t *queue, size_t queue_len, uint8_t *store,
                         size_t store_len, uint8_t timeslot, const uint32_t *record, size_t record_len, const uint8_t *sdu,
                         size_t sdu_len);

/* The block of the current slot.
   2 (the station's words), 1 (the state), 2 (queue, store, block), 1 (records and cells) */
struct bs_sched_built bs_sched_build(uint32_t *station, size_t station_len, uint32_t *queue, size_t queue_len,
                                     uint8_t *store, size_t store_len, uint8_t *block, size_t block_len);

/* Who holds the slot at a time.
   1 (the time), 2 (the station's words), 1 (the state) */
struct bs_sched_owners bs_sched_slot_owner(const uint32_t *station, size_t station_len, uint16_t h, uint8_t m, uint8_t f,
                                           uint8_t t);

/* How the slot at a time is used.
   1 (the time), 2 (the station's words), 1 (the state) */
struct bs_sched_slot_usage bs_sched_usage(const uint32_t *station, size_t station_len, uint16_t h, uint8_t m, uint8_t f,
                                          uint8_t t);

/* The headers of a block, 24 words each: headers is 384 words, of which those behind the last header are zero.
   2 (headers, block), 12 */
struct bs_sched_read bs_sched_read_block(const uint8_t *block, size_t block_len, uint32_t *headers, size_t headers_len);

/* One MAC-RESOURCE header into a buffer of any length, from bit at on.
   2 (header), 6 (words that no MAC-RESOURCE has), 5, 6, 11 */
struct bs_sched_written bs_sched_write_header(uint8_t *buf, size_t buf_len, uint64_t at, const uint32_t *header,
                                              size_t header_len);

/* The fill bits at the end of the bits from start up to end: those from the last set bit on, 0 if none is set.
   11 */
struct bs_sched_fill bs_sched_fill_bits(const uint8_t *buf, size_t buf_len, uint64_t start, uint64_t end);

#ifdef __cplusplus
}
#endif

#endif
