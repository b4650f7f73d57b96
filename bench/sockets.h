/* Declares what the benchmarks of sockets share: a round that is written on several channels, with
 * a thread for each channel that writes and one that reads. */
#ifndef SOCKETS_H
#define SOCKETS_H

#include "yardstick.h"
#include <pthread.h>
#include <stdatomic.h>
#include <sys/uio.h>

/* The most pages of a packet, its bytes before them, and all of its bytes. */
enum { PACKET = 128, HEAD = ZIMGASOL_HEAD_LEN(PAGE), ROOM = HEAD + PACKET * PAGE };

enum { RUNS = 5 };

/* How a round is written: packets of as many bytes, of which nothing is said but their first page;
 * the same of pages that are tested for zeros, with the numbers of all (plain_head); by
 * zimgasol_worker_head; or by zimgasol_worker_pack. */
typedef enum way { PLAIN, TESTED, HEADS, COPIES } way;

/* The head of a plain packet of pages that are tested: how many have contents, how many are zeros,
 * and their numbers, those with contents first. It is as long as a packet's head. */
typedef struct plain_head {
    uint64_t normal, zero, pages[PACKET];
    uint8_t rest[HEAD - 16 - 8 * PACKET];
} plain_head;

/* What a round takes: the clock's nanoseconds, and the processor's of those who write, of those who
 * read, and of the whole program. */
typedef struct cost {
    uint64_t nanos, writing, reading, processor, bytes;
} cost;

/* A round that is written. A plain one has no sender: `next` is the first page of its next
 * packet. */
typedef struct writing {
    const guest *guest;
    unsigned zero_tenths;
    way by;
    zimgasol_send multi;
    _Atomic uint64_t next;
} writing;

/* A connection with its two threads, and where the reader puts what it reads. */
typedef struct channel {
    writing *of;
    void *into;
    size_t number;
    zimgasol_worker worker;
    pthread_t writer, reader;
    int ends[2];
    uint64_t writing, reading, bytes;
} channel;

/* Returns the nanoseconds of the processor for this thread. */
uint64_t processor_now(void);

/* Returns those for all threads of the program. */
uint64_t program_now(void);

/* Adds a page to a list of parts. One that adjoins the last part makes it longer. Returns how many
 * parts there are. */
int with_page(struct iovec *parts, int count, uint8_t *page);

bool is_zero(const uint8_t *page);

/* Tests the pages from `first` to `end`, writes their head, and lists its part and those of the
 * pages that aren't zeros. Returns how many parts there are. */
int list_tested(const guest *of, uint64_t first, uint64_t end, plain_head *head,
    struct iovec *parts);

/* Writes all of some buffers, of which it changes the list. */
void write_parts(int to, struct iovec *parts, int count);

/* Writes the next packet of a channel, or its last one. `room` has ROOM bytes. Returns whether
 * another one follows. */
bool write_packet(channel *c, uint8_t *room);

/* Connects a channel, makes its worker, and starts its threads. */
void start_channel(channel *c, writing *of, size_t number, void *(*read)(void *), void *into);

/* Ends its threads, and adds what it took. */
void end_channel(channel *c, cost *all);

#endif
