/* Declares what the benchmarks share: how a work is timed, the copies that it is compared with, the
 * guest that is sent and loaded, and streams that are kept in memory.
 *
 * A figure is the least time of five runs, as a ratio to a copy of the same bytes in the same run
 * of the program, since times alone don't compare from one machine to another. Transfers have
 * medians, since their threads share the processors.
 */
#ifndef YARDSTICK_H
#define YARDSTICK_H

#include "zimgasol.h"

enum { PAGE = 4096, PIECE = 1 << 16, KINDS = 3, COUNTS = 3, MOST = 4 };

/* The UUID of the senders on several channels. */
extern const uint8_t uuid[16];

/* ---- ending the program, with status 3 */

/* Ends the program if a call didn't return DONE, and says which one it was. */
void check(zimgasol_status status, const char *call);

/* Ends the program, and says why. */
void give_up(const char *why);

/* Returns `at`; ends the program if it is null, and says what is missing. */
void *taken(void *at, const char *what);

/* ---- measuring */

/* A work that is timed. It returns a number that depends on all that it did, so that no compiler
 * leaves out a part. */
typedef uint64_t work(void *of);

/* The least time of the runs of a work, and what the last of them returned. */
typedef struct measured {
    uint64_t nanos, answer;
} measured;

/* Returns the nanoseconds of a clock that only goes forward. */
uint64_t now(void);

/* Runs a work five times, and takes the least time, since other load on the machine only adds to
 * it. */
measured best_of_five(work *run, void *of);

/* Returns the ratio of two numbers; one to 0 is as one to 1. */
double ratio(uint64_t number, uint64_t unit);

/* The times of copies of the same bytes: page by page, as a guest's pages are handled, and at
 * once. */
typedef struct yardstick {
    uint64_t by_pages, at_once;
} yardstick;

/* Copies `len` bytes, in memory that it frees. */
yardstick yardstick_of(size_t len);

/* Prints what is measured, on how many pages. */
void put_title(const char *title, uint64_t pages);

/* Measures a work, and prints its time beside those of the copies, and what it returned. */
void report(const char *name, const char *unit, const yardstick *copies, work *run, void *of);

/* ---- streams in memory */

/* A stream, or a part of one, in a buffer that grows. All zeros are one without bytes. */
typedef struct stream {
    uint8_t *bytes;
    size_t len, room;
} stream;

/* Makes room for `more` bytes after those that a stream has, and returns where they go. */
uint8_t *room_for(stream *to, size_t more);

void append(stream *to, const void *bytes, size_t len);

/* Frees the buffer. The stream has no bytes then. */
void stream_free(stream *of);

/* Returns how many bytes the piece of at most `most` bytes has that begins at `at`. */
size_t piece_len(const stream *of, size_t at, size_t most);

/* ---- the guest */

/* A guest of one block, its memory, and the list of all its pages. */
typedef struct guest {
    zimgasol_table table;
    uint8_t *bytes;
    zimgasol_place *places;
    uint64_t pages;
    size_t len;
} guest;

/* How many of ten pages are zeros, in the order in which they are measured, each with a name. */
typedef struct kind {
    unsigned zero_tenths;
    const char *name;
} kind;

extern const kind kinds[KINDS];

/* On how many channels a round is sent and loaded. */
extern const size_t channel_counts[COUNTS];

guest guest_of(uint64_t pages);

/* Fills the first `zero_tenths` of each ten pages with zeros, and the others with ones. */
void guest_fill(guest *of, unsigned zero_tenths);

void guest_free(guest *of);

/* Ends the program if `page` isn't the guest's last page. */
void check_last_page(const guest *of, const uint8_t *page);

/* ---- senders */

/* Sends all pages of a guest by one stream, which is appended, `rounds` times. The sections have
 * at most 256 pages. A stream in the frame MACHINE has no end byte. */
void send_single(guest *of, zimgasol_frame frame, unsigned rounds, stream *to);

/* The streams of a sender on several channels, and the nanoseconds until all packets of the last
 * round were made. */
typedef struct streams {
    stream main, channels[MOST];
    size_t count;
    uint64_t packing;
} streams;

zimgasol_send multi_of(guest *of, size_t channels);

/* Sends all pages in one round, a thread for each channel, and appends the bytes. */
void send_round(zimgasol_send *multi, const guest *of, streams *to);

/* Sends all pages in one round by a new sender, to the end of its streams. */
void send_multi(guest *of, streams *to);

/* Returns how many bytes the channels have. */
uint64_t channels_len(const streams *of);

/* Removes all bytes, and keeps the buffers. */
void streams_clear(streams *of);

void streams_free(streams *of);

/* ---- the words */

void run_load(uint64_t pages);
void run_multi(uint64_t pages);
void run_sockets(uint64_t pages);
void run_transfer(uint64_t pages, uint64_t runs);
void run_load_multi(uint64_t pages);
void run_mapped(uint64_t pages);
void run_hostile(void);

#endif
