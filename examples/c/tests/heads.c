/* Heads of packets, whose pages their caller sends from where they lie. A guest is sent by heads
 * and pages, by whole packets, and by each in turn: the streams are the same, and are loaded. Each
 * status of zimgasol_worker_head is asked for, and what stands after it. */
#include "sends.h"
#include "standing.h"
#include "zimgasol.h"
#include <stdio.h>
#include <stdlib.h>
#include <string.h>

enum { CHANNELS = 2, PAGES = 45, OTHER = 3, LIMIT = 8, LARGE = 8192, MOST = 1 << 20 };

#define WANT(test)                                                                                 \
    do {                                                                                           \
        if (!(test)) {                                                                             \
            printf("line %d: %s\n", __LINE__, #test);                                              \
            return 1;                                                                              \
        }                                                                                          \
    } while (0)

/* How a packet is written: whole, of the blocks or of a copy; by its head; or each in turn. */
typedef enum way { WHOLE, COPY, HEAD, MIXED } way;

/* The main stream and those of the channels. */
typedef struct streams {
    uint8_t bytes[1 + CHANNELS][MOST];
    size_t len[1 + CHANNELS];
} streams;

static size_t page_len, head_len;
static uint8_t guest[2][PAGES * LARGE], loaded[2][PAGES * LARGE];
static const uint8_t uuid[16] = {3, 2, 1};

static uint8_t *page_of(size_t block, uint64_t page) {
    return guest[block] + page * page_len;
}

/* Two of five pages are zeros, and one has its only byte that isn't 0 at its end. */
static void write_guest(unsigned seed) {
    for (size_t b = 0; b < 2; b++)
        for (size_t p = 0; p < PAGES; p++) {
            memset(page_of(b, p), (p + seed) % 5 < 3 ? 0 : (int)(p + seed), page_len);
            page_of(b, p)[page_len - 1] = (p + seed) % 5 > 1;
        }
}

static bool is_zero(const uint8_t *page) {
    return page[0] == 0 && memcmp(page, page + 1, page_len - 1) == 0;
}

static void append(streams *to, size_t source, const void *bytes, size_t len) {
    memcpy(to->bytes[source] + to->len[source], bytes, len);
    to->len[source] += len;
}

static void drain_main(zimgasol_send *multi, streams *to) {
    uint8_t out[100];
    size_t len;
    while ((len = zimgasol_send_drain(multi, ZIMGASOL_MAIN, out, sizeof out)) > 0)
        append(to, 0, out, len);
}

static void drain_worker(zimgasol_worker *worker, size_t source, streams *to) {
    uint8_t out[3000];
    size_t len;
    while ((len = zimgasol_worker_drain(worker, out, sizeof out)) > 0) append(to, source, out, len);
}

/* ---- a packet */

/* Asks for the head of a packet as it isn't to be asked for. Nothing is written. */
static int refuse_head(zimgasol_worker *worker, const uint8_t *zeros, size_t count) {
    uint8_t out[2000], same[2000];
    size_t written = 77;
    memset(out, 0xEE, sizeof out);
    memset(same, 0xEE, sizeof same);
    WANT(zimgasol_worker_head(worker, zeros, count - 1, out, sizeof out, &written) ==
        ZIMGASOL_BAD_LENGTH);
    WANT(zimgasol_worker_head(worker, zeros, count + 1, out, sizeof out, &written) ==
        ZIMGASOL_BAD_LENGTH);
    WANT(zimgasol_worker_head(worker, zeros, count, out, head_len - 1, &written) ==
        ZIMGASOL_BAD_LENGTH);
    WANT(written == 77 && memcmp(out, same, sizeof out) == 0);
    WANT(zimgasol_worker_drain(worker, out, sizeof out) == 0);
    return 0;
}

/* Sends the head of the packet, and the pages that aren't zeros. A flag is any byte but 0. */
static int send_head(zimgasol_worker *worker, size_t source, const zimgasol_batch *batch,
    streams *to) {
    size_t written = 77;
    uint8_t zeros[129] = {0}, out[2000];
    for (size_t i = 0; i < batch->count; i++)
        if (is_zero(page_of(batch->block, batch->pages[i]))) zeros[i] = (uint8_t)(255 - i);
    if (refuse_head(worker, zeros, batch->count)) return 1;
    memset(out, 0xEE, sizeof out);
    WANT(zimgasol_worker_head(worker, zeros, batch->count, out, head_len, &written) ==
        ZIMGASOL_RUNNING);
    WANT(written == head_len && out[head_len] == 0xEE);
    append(to, source, out, written);
    for (size_t i = 0; i < batch->count; i++)
        if (!zeros[i]) append(to, source, page_of(batch->block, batch->pages[i]), page_len);
    WANT(zimgasol_worker_head(worker, zeros, batch->count, out, sizeof out, &written) ==
        ZIMGASOL_OUT_OF_TURN);
    WANT(zimgasol_worker_drain(worker, out, sizeof out) == 0);
    return 0;
}

/* Before its channel is drained, a worker gives no head. */
static int drain_before(zimgasol_worker *worker, size_t source, const zimgasol_batch *batch,
    streams *to) {
    uint8_t zeros[128] = {0}, out[2000];
    size_t written = 77;
    WANT(zimgasol_worker_head(worker, zeros, batch->count, out, sizeof out, &written) ==
        ZIMGASOL_OUT_OF_TURN);
    WANT(zimgasol_worker_drain(worker, out, 10) == 10);
    append(to, source, out, 10);
    WANT(zimgasol_worker_head(worker, zeros, batch->count, out, sizeof out, &written) ==
        ZIMGASOL_OUT_OF_TURN);
    WANT(written == 77);
    drain_worker(worker, source, to);
    return 0;
}

static zimgasol_status send_copy(zimgasol_worker *worker, const zimgasol_batch *batch) {
    static uint8_t copy[LIMIT * LARGE];
    for (size_t i = 0; i < batch->count; i++)
        memcpy(copy + i * page_len, page_of(batch->block, batch->pages[i]), page_len);
    return pack_copy(worker, copy, batch->count, page_len);
}

/* Sends the next packet of a worker, or ends it, which is noted. With the hello, and after a packet
 * of another way, bytes wait. */
static int send_next(zimgasol_worker *worker, size_t source, way by, bool waits, streams *to,
    bool *ended) {
    zimgasol_lent lent[2] = {{guest[0], PAGES * page_len}, {guest[1], OTHER * page_len}};
    zimgasol_batch batch;
    zimgasol_status status;
    uint8_t zeros[1] = {0}, out[2000];
    size_t written;
    if (by == WHOLE) {
        status = pack_next(worker, lent, page_len);
    } else if ((status = zimgasol_worker_next(worker, &batch)) == ZIMGASOL_RUNNING) {
        if (by == COPY) status = send_copy(worker, &batch);
        else if (waits && drain_before(worker, source, &batch, to)) return 1;
        else if (send_head(worker, source, &batch, to)) return 1;
    } else {
        WANT(zimgasol_worker_head(worker, zeros, 1, out, sizeof out, &written) ==
            ZIMGASOL_OUT_OF_TURN);
    }
    WANT(status == ZIMGASOL_RUNNING || status == ZIMGASOL_DONE);
    *ended = status == ZIMGASOL_DONE;
    return 0;
}

/* ---- a guest */

static int send_round(zimgasol_send *multi, const zimgasol_place *dirty, size_t count, way by,
    bool hello, streams *to) {
    zimgasol_worker workers[CHANNELS] = {{0}};
    bool ended[CHANNELS] = {false}, waits[CHANNELS];
    uint8_t zeros[1] = {0}, out[2000];
    size_t written;
    WANT(zimgasol_send_begin_round_pages(multi, dirty, count) == ZIMGASOL_DONE);
    for (size_t j = 0; j < CHANNELS; j++) {
        WANT(zimgasol_send_worker(multi, &workers[j]) == ZIMGASOL_DONE);
        waits[j] = hello;
    }
    WANT(zimgasol_worker_head(&workers[0], zeros, 1, out, sizeof out, &written) ==
        ZIMGASOL_OUT_OF_TURN);
    for (int turn = 0; !ended[0] || !ended[1]; turn++) {
        size_t j = (size_t)turn % CHANNELS;
        way now = by != MIXED ? by : turn / 2 % 4 == 3 ? HEAD : (way)(turn / 2 % 4);
        if (ended[j]) continue;
        if (send_next(&workers[j], ZIMGASOL_CHANNEL(j), now, waits[j], to, &ended[j])) return 1;
        waits[j] = now != HEAD;
    }
    for (size_t j = 0; j < CHANNELS; j++) {
        drain_worker(&workers[j], ZIMGASOL_CHANNEL(j), to);
        WANT(zimgasol_send_give_back(multi, &workers[j]) == ZIMGASOL_DONE);
    }
    WANT(zimgasol_send_end_round(multi) == ZIMGASOL_DONE);
    drain_main(multi, to);
    return 0;
}

/* Two rounds: all pages, and then some. */
static int send_guest(zimgasol_table *table, way by, streams *to) {
    static zimgasol_place all[PAGES + OTHER];
    zimgasol_place some[5] = {{1, 1}, {0, 5}, {0, 4}, {0, 3}, {0, 30}};
    zimgasol_send multi = {0};
    memset(to->len, 0, sizeof to->len);
    for (size_t p = 0; p < PAGES + OTHER; p++)
        all[p] = p < PAGES ? (zimgasol_place){0, p} : (zimgasol_place){1, p - PAGES};
    WANT(new_on_channels(&multi, table, uuid, CHANNELS, LIMIT) == ZIMGASOL_DONE);
    write_guest(1);
    if (send_round(&multi, all, PAGES + OTHER, by, true, to)) return 1;
    for (size_t i = 0; i < 5; i++)
        memset(page_of(some[i].block, some[i].page), i % 2 ? 0 : 90, page_len);
    if (send_round(&multi, some, 5, by, false, to)) return 1;
    WANT(zimgasol_send_finish(&multi, false) == ZIMGASOL_DONE);
    drain_main(&multi, to);
    zimgasol_send_free(&multi);
    return 0;
}

static int load_guest(zimgasol_table *table, const streams *from) {
    const zimgasol_settings settings = {.frame = ZIMGASOL_FRAME_RAM};
    zimgasol_load load = {0};
    zimgasol_buffer into[2] = {{loaded[0], PAGES * page_len}, {loaded[1], OTHER * page_len}};
    zimgasol_fault fault;
    size_t given[1 + CHANNELS] = {0}, taken;
    memset(loaded, 0xEE, sizeof loaded);
    WANT(zimgasol_load_new(&load, table, uuid, 16, CHANNELS, &settings) == ZIMGASOL_DONE);
    for (bool moved = true; moved;) {
        moved = false;
        for (size_t s = 0; s <= CHANNELS; s++) {
            size_t len = from->len[s] - given[s];
            if (len == 0 || !zimgasol_load_takes(&load, s)) continue;
            WANT(told_feed(&load, into, 2, s, from->bytes[s] + given[s], len, &taken) ==
                ZIMGASOL_DONE);
            given[s] += taken;
            moved = moved || taken > 0;
        }
    }
    for (size_t s = 0; s <= CHANNELS; s++) WANT(zimgasol_load_end(&load, s) == ZIMGASOL_DONE);
    WANT(zimgasol_load_verdict(&load, &fault) == ZIMGASOL_DONE && told_rounds(&load) == 2);
    WANT(memcmp(loaded[0], guest[0], PAGES * page_len) == 0 &&
        memcmp(loaded[1], guest[1], OTHER * page_len) == 0);
    zimgasol_load_free(&load);
    return 0;
}

static int send_all(size_t size, size_t head) {
    static streams packets, others;
    zimgasol_block blocks[2] = {{.id = "pc.ram", .pages = PAGES},
        {.id = "pc.bios", .pages = OTHER}};
    zimgasol_table table = {0};
    size_t entry;
    page_len = size;
    head_len = head;
    WANT(zimgasol_table_new(&table, size, blocks, 2, &entry) == ZIMGASOL_DONE);
    if (send_guest(&table, WHOLE, &packets)) return 1;
    for (way by = COPY; by <= MIXED; by++) {
        if (send_guest(&table, by, &others)) return 1;
        for (size_t s = 0; s <= CHANNELS; s++)
            WANT(others.len[s] == packets.len[s] &&
                memcmp(others.bytes[s], packets.bytes[s], packets.len[s]) == 0);
    }
    if (load_guest(&table, &others)) return 1;
    printf("pages of %zu bytes: %zu bytes on the main stream, %zu and %zu on the channels, by "
           "heads "
           "as by packets\n",
        size, packets.len[0], packets.len[1], packets.len[2]);
    zimgasol_table_free(&table);
    return 0;
}

int main(void) {
    return send_all(4096, 1344) || send_all(LARGE, 832);
}
