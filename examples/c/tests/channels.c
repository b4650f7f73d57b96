/* The calls for several channels, in both directions: a guest of two blocks is sent in rounds, by
 * workers that are stepped by turns, and loaded into blocks, by whole rounds too. The bytes that a
 * source doesn't take are kept until it does. Each status of a call is asked for once, and what
 * stands after it. */
#include "sends.h"
#include "standing.h"
#include "zimgasol.h"
#include <stdio.h>
#include <stdlib.h>
#include <string.h>

enum {
    PAGE = 4096,
    CHANNELS = 3,
    PAGES = 300,
    OTHER = 2,
    OTHER_LEN = OTHER * PAGE,
    MOST = 1 << 22
};

#define WANT(test)                                                                                 \
    do {                                                                                           \
        if (!(test)) {                                                                             \
            printf("line %d: %s\n", __LINE__, #test);                                              \
            return 1;                                                                              \
        }                                                                                          \
    } while (0)

static uint8_t guest[2][PAGES * PAGE], loaded[2][PAGES * PAGE];
/* the guest of the first round */
static uint8_t first_guest[2][PAGES * PAGE];
static uint8_t stream[1 + CHANNELS][MOST];
static size_t length[1 + CHANNELS], given[1 + CHANNELS];
static const uint8_t uuid[16] = {1, 2, 3};
static const zimgasol_settings plain = {.frame = ZIMGASOL_FRAME_RAM};
static const zimgasol_settings whole = {.zero_blocks = 1, .whole_rounds = 1};

static zimgasol_lent lent[2] = {{guest[0], sizeof guest[0]}, {guest[1], OTHER_LEN}};
static zimgasol_buffer into[2] = {{loaded[0], sizeof loaded[0]}, {loaded[1], OTHER_LEN}};

static void write_guest(unsigned seed) {
    for (size_t p = 0; p < PAGES; p++)
        if ((p + seed) % 3) memset(guest[0] + p * PAGE, (int)(p * 7 + seed), PAGE);
        else memset(guest[0] + p * PAGE, 0, PAGE);
    memset(guest[1], (int)seed, OTHER * PAGE);
}

static int drain_main(zimgasol_send *multi) {
    size_t len;
    while ((len = zimgasol_send_drain(multi, ZIMGASOL_MAIN, stream[0] + length[0], 1000)) > 0)
        length[0] += len;
    return 0;
}

static int drain_worker(zimgasol_worker *worker, size_t channel, size_t most) {
    size_t len;
    while ((len = zimgasol_worker_drain(worker, stream[1 + channel] + length[1 + channel], most)) >
        0) {
        length[1 + channel] += len;
        WANT(length[1 + channel] + most < MOST);
    }
    return 0;
}

/* Packs the next packet of a worker from copies, and tries first what isn't to be done. `count` and
 * `pages` stay where no batch is left. */
static uint32_t pack_copied(zimgasol_worker *worker) {
    static uint8_t copy[128 * PAGE];
    zimgasol_batch batch = {.block = 99, .count = 77}, again;
    zimgasol_lent short_one[16];
    uint32_t status = zimgasol_worker_next(worker, &batch);
    if (status == ZIMGASOL_DONE) {
        if (batch.block != 99 || batch.count != 77) return 1;
        if (pack_copy(worker, copy, 0, PAGE) != ZIMGASOL_OUT_OF_TURN) return 2;
        return ZIMGASOL_DONE;
    }
    if (status != ZIMGASOL_RUNNING || batch.block > 1 || batch.count < 1 || batch.count > 16)
        return 3;
    if (zimgasol_worker_next(worker, &again) != ZIMGASOL_RUNNING) return 4;
    if (again.block != batch.block || again.count != batch.count) return 5;
    if (memcmp(again.pages, batch.pages, batch.count * sizeof *batch.pages) != 0) return 6;
    for (size_t i = 0; i < batch.count; i++)
        memcpy(copy + i * PAGE, guest[batch.block] + batch.pages[i] * PAGE, PAGE);
    for (size_t i = 0; i < batch.count; i++) short_one[i] = (zimgasol_lent){copy, PAGE};
    short_one[batch.count - 1].len = PAGE - 1;
    if (zimgasol_worker_pack(worker, short_one, batch.count) != ZIMGASOL_BAD_LENGTH) return 7;
    if (pack_copy(worker, copy, batch.count - 1, PAGE) != ZIMGASOL_BAD_LENGTH) return 8;
    if (pack_copy(worker, copy, batch.count + 1, PAGE) != ZIMGASOL_BAD_LENGTH) return 8;
    status = pack_copy(worker, copy, batch.count, PAGE);
    if (pack_copy(worker, copy, batch.count, PAGE) != ZIMGASOL_OUT_OF_TURN) return 9;
    return status;
}

/* A round of these pages, and the statuses of its calls on the way. It is begun from a list, taken
 * back, and begun from bitmaps. A worker's packets are packed from the blocks or from copies, and
 * its batch may be asked for before. */
static int send_round(zimgasol_send *multi, const zimgasol_place *dirty, size_t count) {
    zimgasol_worker workers[CHANNELS] = {{0}}, none = {0};
    zimgasol_place outside = {1, OTHER};
    uint64_t marks[2][PAGES / 64 + 1] = {{0}};
    zimgasol_bitmap bitmaps[2] = {{marks[0], PAGES / 64 + 1}, {marks[1], 1}};
    uint8_t out[100];
    for (size_t i = 0; i < count; i++)
        marks[dirty[i].block][dirty[i].page / 64] |= (uint64_t)1 << dirty[i].page % 64;
    WANT(zimgasol_send_end_round(multi) == ZIMGASOL_OUT_OF_TURN);
    WANT(zimgasol_send_cancel_round(multi, false) == ZIMGASOL_OUT_OF_TURN);
    WANT(zimgasol_send_worker(multi, &none) == ZIMGASOL_OUT_OF_TURN && none.full == 0);
    WANT(zimgasol_send_begin_round_pages(multi, &outside, 1) == ZIMGASOL_NO_PAGE);
    WANT(zimgasol_send_begin_round_pages(multi, dirty, count) == ZIMGASOL_DONE);
    WANT(zimgasol_send_begin_round_pages(multi, dirty, count) == ZIMGASOL_OUT_OF_TURN);
    WANT(zimgasol_send_cancel_round(multi, false) == ZIMGASOL_DONE);
    WANT(zimgasol_send_begin_round_bitmaps(multi, bitmaps, 1) == ZIMGASOL_BAD_LENGTH);
    WANT(zimgasol_send_begin_round_bitmaps(multi, bitmaps, 2) == ZIMGASOL_DONE);
    WANT(zimgasol_send_begin_round_bitmaps(multi, bitmaps, 2) == ZIMGASOL_OUT_OF_TURN);
    WANT(zimgasol_send_finish(multi, false) == ZIMGASOL_OUT_OF_TURN &&
        zimgasol_send_finish(multi, true) == ZIMGASOL_OUT_OF_TURN);
    for (size_t j = 0; j < CHANNELS; j++) {
        WANT(zimgasol_send_worker(multi, &workers[j]) == ZIMGASOL_DONE);
    }
    WANT(zimgasol_send_worker(multi, &none) == ZIMGASOL_OUT_OF_TURN && none.full == 0);
    WANT(zimgasol_send_cancel_round(multi, false) == ZIMGASOL_OUT_OF_TURN);
    WANT(pack_copy(&workers[0], guest[0], 1, PAGE) == ZIMGASOL_OUT_OF_TURN);
    WANT(zimgasol_send_put_page(multi, 0, 0, guest[0], PAGE) == ZIMGASOL_OUT_OF_TURN);
    WANT(zimgasol_send_give_back(multi, &workers[0]) == ZIMGASOL_OUT_OF_TURN &&
        workers[0].full != 0);
    int running = CHANNELS;
    for (int turn = 0; running > 0; turn++) {
        zimgasol_worker *worker = &workers[turn % CHANNELS];
        zimgasol_batch batch;
        if (turn % 5 == 1) WANT(zimgasol_worker_next(worker, &batch) != ZIMGASOL_NO_MEMORY);
        uint32_t status = turn % 5 < 2 ? pack_next(worker, lent, PAGE) : pack_copied(worker);
        WANT(status == ZIMGASOL_DONE || status == ZIMGASOL_RUNNING);
        if (turn % 2 == 0 && drain_worker(worker, (size_t)(turn % CHANNELS), 10000)) return 1;
        running = status == ZIMGASOL_DONE ? running - 1 : CHANNELS;
    }
    WANT(pack_next(&workers[0], lent, PAGE) == ZIMGASOL_DONE);
    WANT(zimgasol_send_give_back(multi, &workers[1]) == ZIMGASOL_OUT_OF_TURN &&
        workers[1].full != 0);
    WANT(zimgasol_send_end_round(multi) == ZIMGASOL_OUT_OF_TURN);
    for (size_t j = 0; j < CHANNELS; j++) {
        if (drain_worker(&workers[j], j, 77777)) return 1;
        WANT(zimgasol_worker_drain(&workers[j], out, sizeof out) == 0);
        WANT(zimgasol_send_give_back(multi, &workers[j]) == ZIMGASOL_DONE && workers[j].full == 0);
        zimgasol_worker_free(&workers[j]);
    }
    WANT(zimgasol_send_end_round(multi) == ZIMGASOL_DONE);
    WANT(zimgasol_send_drain(multi, ZIMGASOL_CHANNEL(0), out, sizeof out) == 0);
    return drain_main(multi);
}

/* Two rounds: all pages, and then some, one of them named twice. */
static int send_all(zimgasol_table *table) {
    static zimgasol_place all[PAGES + OTHER];
    zimgasol_place some[4] = {{1, 1}, {0, 5}, {0, 4}, {0, 5}};
    zimgasol_send multi = {0};
    uint8_t out[1000];
    for (size_t p = 0; p < PAGES + OTHER; p++)
        all[p] = p < PAGES ? (zimgasol_place){0, p} : (zimgasol_place){1, p - PAGES};
    WANT(new_on_channels(&multi, table, uuid, 256, 0) == ZIMGASOL_CHANNELS);
    WANT(new_on_channels(&multi, table, uuid, CHANNELS, 0) == ZIMGASOL_BATCH_LIMIT);
    WANT(new_on_channels(&multi, table, uuid, CHANNELS, 129) == ZIMGASOL_BATCH_LIMIT &&
        multi.full == 0);
    WANT(new_on_channels(&multi, table, uuid, CHANNELS, 16) == ZIMGASOL_DONE);
    write_guest(1);
    if (send_round(&multi, all, PAGES + OTHER)) return 1;
    write_guest(1);
    memcpy(first_guest, guest, sizeof guest);
    memset(guest[0] + 5 * PAGE, 55, PAGE);
    memset(guest[0] + 4 * PAGE, 0, PAGE);
    guest[1][2 * PAGE - 1] = 9;
    if (send_round(&multi, some, 4)) return 1;
    WANT(zimgasol_send_finish(&multi, false) == ZIMGASOL_DONE);
    WANT(zimgasol_send_finish(&multi, false) == ZIMGASOL_OUT_OF_TURN);
    WANT(zimgasol_send_begin_round_pages(&multi, some, 4) == ZIMGASOL_OUT_OF_TURN);
    WANT(zimgasol_send_drain(&multi, ZIMGASOL_CHANNEL(0), out, sizeof out) == 0);
    WANT(zimgasol_send_drain(&multi, ZIMGASOL_CHANNEL(CHANNELS), out, sizeof out) == 0);
    if (drain_main(&multi)) return 1;
    zimgasol_send_free(&multi);
    WANT(multi.full == 0);
    return 0;
}

/* Where no round was sent, the hellos are left of the channels, and each is that of zimgasol_hello.
 */
static int send_none(zimgasol_table *table) {
    zimgasol_send multi = {0};
    uint8_t out[100], hello[64];
    WANT(new_on_channels(&multi, table, uuid, 2, 16) == ZIMGASOL_DONE);
    /* a round without pages, which is left out */
    WANT(zimgasol_send_begin_round(&multi) == ZIMGASOL_DONE);
    WANT(zimgasol_send_begin_round(&multi) == ZIMGASOL_OUT_OF_TURN);
    WANT(zimgasol_send_cancel_round(&multi, false) == ZIMGASOL_DONE);
    WANT(zimgasol_send_finish(&multi, false) == ZIMGASOL_DONE);
    size_t waits = zimgasol_send_waiting(&multi, ZIMGASOL_MAIN);
    WANT(zimgasol_send_peek(&multi, ZIMGASOL_MAIN, out, 8) == 8 && memcmp(out, "QEVM", 4) == 0);
    WANT(zimgasol_send_skip(&multi, ZIMGASOL_MAIN, 8) == 8);
    WANT(zimgasol_send_waiting(&multi, ZIMGASOL_MAIN) == waits - 8);
    for (uint8_t j = 0; j < 2; j++) {
        WANT(zimgasol_send_waiting(&multi, ZIMGASOL_CHANNEL(j)) == 64);
        WANT(
            zimgasol_send_peek(&multi, ZIMGASOL_CHANNEL(j), out, sizeof out) == 64 && out[24] == j);
        if (j == 1)
            WANT(zimgasol_send_peek(&multi, ZIMGASOL_CHANNEL(j), out, 60) == 60 &&
                zimgasol_send_skip(&multi, ZIMGASOL_CHANNEL(j), 60) == 60);
        else WANT(zimgasol_send_drain(&multi, ZIMGASOL_CHANNEL(j), out, 60) == 60);
        WANT(zimgasol_send_drain(&multi, ZIMGASOL_CHANNEL(j), out + 60, 40) == 4);
        WANT(zimgasol_send_drain(&multi, ZIMGASOL_CHANNEL(j), out, sizeof out) == 0);
        WANT(zimgasol_send_waiting(&multi, ZIMGASOL_CHANNEL(j)) == 0);
        WANT(zimgasol_send_peek(&multi, ZIMGASOL_CHANNEL(j), out, sizeof out) == 0);
        WANT(zimgasol_send_skip(&multi, ZIMGASOL_CHANNEL(j), 1) == 0);
        WANT(
            zimgasol_hello(uuid, 16, j, hello, 64) == ZIMGASOL_DONE && memcmp(out, hello, 60) == 0);
    }
    zimgasol_send_free(&multi);
    return 0;
}

/* Feeds all streams in pieces of `cut` bytes, each source by turns as long as it takes some, and
 * ends them. */
static int feed_all(zimgasol_load *load, size_t cut) {
    size_t taken = 7;
    memset(given, 0, sizeof given);
    for (int moved = 1; moved;) {
        moved = 0;
        for (size_t source = 0; source <= CHANNELS; source++) {
            size_t left = length[source] - given[source], len = left < cut ? left : cut;
            if (len == 0 || !zimgasol_load_takes(load, source)) continue;
            WANT(told_feed(load, into, 2, source, stream[source] + given[source], len,
                     &taken) == ZIMGASOL_DONE);
            WANT(taken <= len);
            given[source] += taken;
            WANT(told_fed(load, source) == given[source]);
            moved = moved || taken > 0;
        }
        /* the array of the blocks stays as it is */
        WANT(into[0].bytes == loaded[0] && into[0].len == PAGES * PAGE &&
            into[1].bytes == loaded[1] && into[1].len == OTHER * PAGE);
    }
    /* all rounds are in before a source ends */
    WANT(told_has_all_rounds(load));
    for (size_t source = 0; source <= CHANNELS; source++) {
        WANT(given[source] == length[source]);
        WANT(zimgasol_load_end(load, source) == ZIMGASOL_DONE);
        WANT(told_feed(load, into, 2, source, stream[0], 1, &taken) == ZIMGASOL_IS_OVER &&
            taken == 0);
    }
    return 0;
}

/* A round of three pages, whose main stream is a machine's where there is a name. */
static int send_some(zimgasol_table *table, const char *name) {
    zimgasol_send multi = {0};
    zimgasol_place some[3] = {{0, 1}, {1, 0}, {0, 7}};
    memset(length, 0, sizeof length);
    if (name == NULL) WANT(new_on_channels(&multi, table, uuid, CHANNELS, 16) == ZIMGASOL_DONE);
    else
        WANT(new_named_on_channels(&multi, table, uuid, CHANNELS, 16, (const uint8_t *)name,
                 strlen(name)) == ZIMGASOL_DONE);
    if (send_round(&multi, some, 3)) return 1;
    WANT((name == NULL ? zimgasol_send_finish(&multi, false)
                       : zimgasol_send_finish(&multi, true)) == ZIMGASOL_DONE);
    WANT(zimgasol_send_finish(&multi, true) == ZIMGASOL_OUT_OF_TURN &&
        zimgasol_send_finish(&multi, false) == ZIMGASOL_OUT_OF_TURN);
    if (drain_main(&multi)) return 1;
    zimgasol_send_free(&multi);
    return 0;
}

/* A machine's main stream is that of RAM with a configuration after the file header and without the
 * end byte, and its channels are the same. It is loaded in its frame, with what follows it. */
static int send_named(zimgasol_table *table) {
    enum { LITTLE = 1 << 16 };
    static const uint8_t configuration[] = {7, 0, 0, 0, 4, 'v', 'i', 'r', 't'},
                         long_name[1025] = {'m'};
    static uint8_t named[1 + CHANNELS][LITTLE];
    size_t named_length[1 + CHANNELS], rest = 8 + sizeof configuration;
    zimgasol_settings settings = {.frame = ZIMGASOL_FRAME_MACHINE};
    zimgasol_load load = {0};
    zimgasol_send multi = {0};
    zimgasol_fault fault;
    uint64_t at = 7;
    WANT(new_named_on_channels(&multi, table, uuid, CHANNELS, 16, long_name, 1025) ==
            ZIMGASOL_BAD_LENGTH &&
        multi.full == 0);
    WANT(
        new_named_on_channels(&multi, table, uuid, 256, 16, long_name, 1024) == ZIMGASOL_CHANNELS &&
        multi.full == 0);
    WANT(new_named_on_channels(&multi, table, uuid, CHANNELS, 129, long_name, 1024) ==
            ZIMGASOL_BATCH_LIMIT &&
        multi.full == 0);
    write_guest(1);
    if (send_some(table, "virt")) return 1;
    for (size_t s = 0; s <= CHANNELS; s++) {
        WANT(length[s] < LITTLE);
        memcpy(named[s], stream[s], named_length[s] = length[s]);
    }
    if (send_some(table, NULL)) return 1;
    WANT(named_length[0] == length[0] + sizeof configuration - 1 &&
        memcmp(named[0], stream[0], 8) == 0);
    WANT(memcmp(named[0] + 8, configuration, sizeof configuration) == 0);
    WANT(memcmp(named[0] + rest, stream[0] + 8, length[0] - 9) == 0 &&
        stream[0][length[0] - 1] == 0);
    for (size_t s = 1; s <= CHANNELS; s++)
        WANT(named_length[s] == length[s] && memcmp(named[s], stream[s], length[s]) == 0);
    memcpy(stream[0], named[0], named_length[0]);
    memcpy(stream[0] + named_length[0], "\4 and so on", 11);
    length[0] = named_length[0] + 11;
    memset(loaded, 0, sizeof loaded);
    WANT(zimgasol_load_new(&load, table, uuid, 16, CHANNELS, &settings) == ZIMGASOL_DONE);
    if (feed_all(&load, 777)) return 1;
    WANT(zimgasol_load_verdict(&load, &fault) == ZIMGASOL_DONE && told_rounds(&load) == 1);
    WANT(told_closed_at(&load, &at) == ZIMGASOL_DONE && at == named_length[0]);
    WANT(memcmp(loaded[0] + PAGE, guest[0] + PAGE, PAGE) == 0 &&
        memcmp(loaded[0] + 7 * PAGE, guest[0] + 7 * PAGE, PAGE) == 0);
    WANT(memcmp(loaded[1], guest[1], PAGE) == 0);
    zimgasol_load_free(&load);
    return 0;
}

/* A round is given up in its middle: one worker was drained of a part of its bytes, one wasn't
 * stepped, and one wasn't handed out. Those that are out go on, and are freed before the sender and
 * after it. */
static int give_up(zimgasol_table *table) {
    static zimgasol_place all[PAGES];
    zimgasol_send multi = {0};
    zimgasol_worker workers[2] = {{0}}, none = {0};
    uint8_t out[1000];
    for (size_t p = 0; p < PAGES; p++) all[p] = (zimgasol_place){0, p};
    WANT(new_on_channels(&multi, table, uuid, CHANNELS, 16) == ZIMGASOL_DONE);
    WANT(zimgasol_send_cancel_round(&multi, true) == ZIMGASOL_OUT_OF_TURN);
    WANT(zimgasol_send_drain(&multi, ZIMGASOL_MAIN, out, 10) == 10);
    WANT(zimgasol_send_begin_round_pages(&multi, all, PAGES) == ZIMGASOL_DONE);
    for (size_t j = 0; j < 2; j++) WANT(zimgasol_send_worker(&multi, &workers[j]) == ZIMGASOL_DONE);
    WANT(pack_next(&workers[0], lent, PAGE) == ZIMGASOL_RUNNING);
    WANT(zimgasol_worker_drain(&workers[0], out, sizeof out) == sizeof out);
    WANT(zimgasol_send_cancel_round(&multi, true) == ZIMGASOL_DONE && multi.full != 0);
    WANT(zimgasol_send_cancel_round(&multi, true) == ZIMGASOL_OUT_OF_TURN);
    WANT(zimgasol_send_begin_round_pages(&multi, all, PAGES) == ZIMGASOL_OUT_OF_TURN);
    WANT(zimgasol_send_worker(&multi, &none) == ZIMGASOL_OUT_OF_TURN && none.full == 0);
    WANT(zimgasol_send_give_back(&multi, &workers[0]) == ZIMGASOL_OUT_OF_TURN &&
        workers[0].full != 0);
    WANT(zimgasol_send_end_round(&multi) == ZIMGASOL_OUT_OF_TURN);
    WANT(zimgasol_send_finish(&multi, false) == ZIMGASOL_OUT_OF_TURN &&
        zimgasol_send_finish(&multi, true) == ZIMGASOL_OUT_OF_TURN);
    /* what waited of the main stream is gone, and so is the hello of the third channel */
    WANT(zimgasol_send_drain(&multi, ZIMGASOL_MAIN, out, sizeof out) == 0);
    WANT(zimgasol_send_drain(&multi, ZIMGASOL_CHANNEL(2), out, sizeof out) == 0);
    WANT(pack_next(&workers[1], lent, PAGE) == ZIMGASOL_RUNNING);
    WANT(zimgasol_worker_drain(&workers[1], out, 100) == 100);
    zimgasol_worker_free(&workers[0]);
    zimgasol_send_free(&multi);
    WANT(multi.full == 0 && pack_next(&workers[1], lent, PAGE) == ZIMGASOL_RUNNING);
    zimgasol_worker_free(&workers[1]);
    /* a sender that is freed in a round */
    WANT(new_on_channels(&multi, table, uuid, CHANNELS, 16) == ZIMGASOL_DONE);
    WANT(zimgasol_send_begin_round_pages(&multi, all, PAGES) == ZIMGASOL_DONE);
    WANT(zimgasol_send_worker(&multi, &workers[0]) == ZIMGASOL_DONE);
    zimgasol_send_free(&multi);
    WANT(pack_next(&workers[0], lent, PAGE) == ZIMGASOL_RUNNING);
    zimgasol_worker_free(&workers[0]);
    return 0;
}

/* Loads all streams, fed in pieces of `cut` bytes. */
static int load_all(zimgasol_table *table, size_t cut) {
    zimgasol_load load = {0};
    zimgasol_fault fault;
    size_t taken = 7;
    uint64_t pages = 0, at = 7;
    memset(loaded, 0xEE, sizeof loaded);
    WANT(zimgasol_load_new(&load, table, uuid, 16, CHANNELS, &plain) == ZIMGASOL_DONE);
    WANT(zimgasol_load_verdict(&load, &fault) == ZIMGASOL_RUNNING);
    WANT(told_closed_at(&load, &at) == ZIMGASOL_RUNNING && at == 7);
    WANT(!told_has_all_rounds(&load));
    WANT(!zimgasol_load_takes(&load, 1 + CHANNELS));
    WANT(told_feed(&load, into, 2, 1 + CHANNELS, stream[0], 1, &taken) ==
            ZIMGASOL_BAD_SOURCE &&
        taken == 0);
    WANT(told_feed(&load, into, 1, 0, stream[0], 1, &taken) == ZIMGASOL_BAD_LENGTH &&
        taken == 0);
    WANT(zimgasol_load_end(&load, 1 + CHANNELS) == ZIMGASOL_BAD_SOURCE);
    if (feed_all(&load, cut)) return 1;
    WANT(zimgasol_load_verdict(&load, &fault) == ZIMGASOL_DONE && fault.number == 0);
    WANT(told_rounds(&load) == 2);
    WANT(told_closed_at(&load, &at) == ZIMGASOL_DONE && at == length[0]);
    for (size_t source = 0; source <= CHANNELS; source++)
        WANT(told_valid_up_to(&load, source, &at) && at == length[source]);
    for (size_t p = 0; p < PAGES; p++)
        pages += memcmp(loaded[0] + p * PAGE, guest[0] + p * PAGE, PAGE) != 0;
    WANT(pages == 0);
    WANT(memcmp(loaded[1], guest[1], OTHER * PAGE) == 0);
    zimgasol_load_free(&load);
    WANT(load.full == 0);
    return 0;
}

/* A packet that comes twice is found at the round's end, and nothing more is taken. */
static int load_wrong(zimgasol_table *table) {
    zimgasol_load load = {0};
    zimgasol_fault fault;
    size_t taken;
    uint64_t at = 7;
    WANT(zimgasol_load_new(&load, table, uuid, 16, CHANNELS, &plain) == ZIMGASOL_DONE);
    stream[2][64] ^= 1; /* the first byte of a packet's magic */
    for (size_t source = 0; source <= CHANNELS; source++)
        WANT(told_feed(&load, into, 2, source, stream[source], length[source], &taken) ==
            ZIMGASOL_DONE);
    stream[2][64] ^= 1;
    WANT(zimgasol_load_verdict(&load, &fault) == ZIMGASOL_CHANNEL_PACKET_MAGIC);
    WANT(fault.source == ZIMGASOL_CHANNEL(1) && fault.round == 0 &&
        fault.number == ZIMGASOL_CHANNEL_PACKET_MAGIC);
    WANT(zimgasol_load_fault_of(&load, ZIMGASOL_CHANNEL(1), &fault) ==
        ZIMGASOL_CHANNEL_PACKET_MAGIC);
    WANT(zimgasol_load_fault_of(&load, ZIMGASOL_CHANNEL(0), &fault) == ZIMGASOL_DONE);
    WANT(!told_has_all_rounds(&load));
    WANT(told_valid_up_to(&load, ZIMGASOL_CHANNEL(1), &at) && at == 64);
    at = 7;
    WANT(!told_valid_up_to(&load, ZIMGASOL_CHANNEL(CHANNELS), &at) && at == 7);
    WANT(!told_valid_up_to(&load, ZIMGASOL_ROUND, &at) && at == 7);
    /* the main stream was taken whole, and is closed */
    WANT(told_closed_at(&load, &at) == ZIMGASOL_DONE && at == length[0]);
    WANT(!zimgasol_load_takes(&load, 0));
    WANT(
        told_feed(&load, into, 2, 0, stream[0], 1, &taken) == ZIMGASOL_DONE && taken == 0);
    WANT(told_rounds(&load) == 0);
    zimgasol_load_free(&load);
    return 0;
}

/* A channel that ends within its hello is reported as cut at once, while the load goes on. */
static int load_cut(zimgasol_table *table) {
    zimgasol_load load = {0};
    zimgasol_fault fault = {.number = 7};
    size_t taken;
    WANT(zimgasol_load_new(&load, table, uuid, 16, CHANNELS, &plain) == ZIMGASOL_DONE);
    WANT(zimgasol_load_fault_of(&load, 1 + CHANNELS, &fault) == ZIMGASOL_BAD_SOURCE &&
        fault.number == 7);
    WANT(told_feed(&load, into, 2, ZIMGASOL_CHANNEL(1), stream[2], 20, &taken) ==
        ZIMGASOL_DONE);
    WANT(zimgasol_load_fault_of(&load, ZIMGASOL_CHANNEL(1), &fault) == ZIMGASOL_DONE &&
        fault.number == 0);
    WANT(zimgasol_load_end(&load, ZIMGASOL_CHANNEL(1)) == ZIMGASOL_DONE);
    WANT(zimgasol_load_fault_of(&load, ZIMGASOL_CHANNEL(1), &fault) == ZIMGASOL_CHANNEL_TRUNCATED);
    WANT(fault.source == ZIMGASOL_CHANNEL(1) && fault.round == 0 &&
        fault.number == ZIMGASOL_CHANNEL_TRUNCATED);
    WANT(zimgasol_load_fault_of(&load, ZIMGASOL_MAIN, &fault) == ZIMGASOL_DONE);
    WANT(zimgasol_load_verdict(&load, &fault) == ZIMGASOL_RUNNING);
    zimgasol_load_free(&load);
    return 0;
}

/* ---- whole rounds */

/* The blocks, which were zeros, have these rounds and nothing else. */
static int has_rounds(uint64_t rounds) {
    static const uint8_t zeros[PAGES * PAGE];
    const uint8_t *ram = rounds == 0 ? zeros : rounds == 1 ? first_guest[0] : guest[0];
    const uint8_t *bios = rounds == 0 ? zeros : rounds == 1 ? first_guest[1] : guest[1];
    return rounds <= 2 && memcmp(loaded[0], ram, PAGES * PAGE) == 0 &&
        memcmp(loaded[1], bios, OTHER_LEN) == 0;
}

/* Feeds the first `len[source]` bytes of each source in pieces of `cut` bytes, by turns. After each
 * piece the blocks have the rounds counted. */
static int feed_whole(zimgasol_load *load, const size_t len[1 + CHANNELS], size_t cut) {
    for (int moved = 1; moved;) {
        moved = 0;
        for (size_t source = 0; source <= CHANNELS; source++) {
            size_t left = len[source] - given[source], taken = 7;
            if (left == 0 || !zimgasol_load_takes(load, source)) continue;
            WANT(told_feed(load, into, 2, source, stream[source] + given[source],
                     left < cut ? left : cut, &taken) == ZIMGASOL_DONE);
            given[source] += taken;
            moved = moved || taken > 0;
            WANT(has_rounds(told_rounds(load)));
        }
    }
    for (size_t source = 0; source <= CHANNELS; source++) WANT(given[source] == len[source]);
    return 0;
}

static int begin_whole(zimgasol_table *table, zimgasol_load *load) {
    memset(loaded, 0, sizeof loaded);
    memset(given, 0, sizeof given);
    WANT(zimgasol_load_new(load, table, uuid, 16, CHANNELS, &whole) == ZIMGASOL_DONE);
    WANT(told_missing(load) == PAGES + OTHER && has_rounds(0));
    return 0;
}

/* By whole rounds a channel that lacks its last byte is reported as cut while the main stream goes
 * on, and still once the verdict is there. The blocks have the first round, and keep it. The main
 * stream stops before the FLUSH of the second round, after which it has 8 bytes of that, 13 of its
 * section's end, 18 of END and the end byte. */
static int whole_cut(zimgasol_table *table) {
    zimgasol_load load = {0};
    zimgasol_fault fault = {.number = 7};
    size_t cut = ZIMGASOL_CHANNEL(1), len[1 + CHANNELS];
    uint64_t at = 7;
    memcpy(len, length, sizeof len);
    len[cut]--;
    len[ZIMGASOL_MAIN] -= 8 + 13 + 18 + 1;
    WANT(stream[ZIMGASOL_MAIN][len[ZIMGASOL_MAIN] + 6] == 0x200 >> 8);
    if (begin_whole(table, &load)) return 1;
    WANT(zimgasol_load_fault_of(&load, 1 + CHANNELS, &fault) == ZIMGASOL_BAD_SOURCE &&
        fault.number == 7);
    if (feed_whole(&load, len, 5000)) return 1;
    WANT(told_rounds(&load) == 1 && told_missing(&load) == 0);
    WANT(zimgasol_load_fault_of(&load, cut, &fault) == ZIMGASOL_DONE && fault.number == 0);
    WANT(zimgasol_load_end(&load, cut) == ZIMGASOL_DONE);
    WANT(zimgasol_load_verdict(&load, &fault) == ZIMGASOL_RUNNING);
    WANT(zimgasol_load_fault_of(&load, cut, &fault) == ZIMGASOL_CHANNEL_TRUNCATED);
    WANT(fault.source == cut && fault.round == 1 && fault.number == ZIMGASOL_CHANNEL_TRUNCATED);
    WANT(zimgasol_load_fault_of(&load, ZIMGASOL_MAIN, &fault) == ZIMGASOL_DONE);
    WANT(zimgasol_load_fault_of(&load, ZIMGASOL_CHANNEL(0), &fault) == ZIMGASOL_DONE);
    len[ZIMGASOL_MAIN] = length[ZIMGASOL_MAIN];
    if (feed_whole(&load, len, 5000)) return 1;
    for (size_t source = 1; source <= CHANNELS; source++)
        if (source != cut) WANT(zimgasol_load_end(&load, source) == ZIMGASOL_DONE);
    WANT(zimgasol_load_verdict(&load, &fault) == ZIMGASOL_CHANNEL_TRUNCATED &&
        fault.source == cut && fault.round == 1);
    WANT(zimgasol_load_fault_of(&load, cut, &fault) == ZIMGASOL_CHANNEL_TRUNCATED &&
        fault.source == cut && fault.round == 1);
    WANT(zimgasol_load_fault_of(&load, ZIMGASOL_MAIN, &fault) == ZIMGASOL_DONE);
    /* the cut item is the last SYNC packet, of 1,344 bytes */
    WANT(told_valid_up_to(&load, cut, &at) && at == length[cut] - 1344);
    WANT(!told_has_all_rounds(&load));
    WANT(told_rounds(&load) == 1 && has_rounds(1));
    zimgasol_load_free(&load);
    return 0;
}

/* A load of whole rounds has all of them once the last source was fed, before a channel ends. */
static int whole_ends(zimgasol_table *table, size_t cut) {
    zimgasol_load load = {0};
    zimgasol_fault fault;
    size_t len[1 + CHANNELS];
    memcpy(len, length, sizeof len);
    len[CHANNELS]--;
    if (begin_whole(table, &load) || feed_whole(&load, len, cut)) return 1;
    WANT(told_rounds(&load) == 1 && !told_has_all_rounds(&load) && has_rounds(1));
    if (feed_whole(&load, length, cut)) return 1;
    WANT(zimgasol_load_verdict(&load, &fault) == ZIMGASOL_RUNNING);
    WANT(told_rounds(&load) == 2 && told_has_all_rounds(&load) && has_rounds(2));
    for (size_t source = 1; source <= CHANNELS; source++)
        WANT(zimgasol_load_end(&load, source) == ZIMGASOL_DONE);
    WANT(zimgasol_load_verdict(&load, &fault) == ZIMGASOL_DONE);
    WANT(told_has_all_rounds(&load) && has_rounds(2));
    zimgasol_load_free(&load);
    return 0;
}

/* A packet of 16 pages counts 17: where 16 may wait in a channel's round, the first one is at
 * fault, after the hello's 64 bytes. Of `PAGES` and `OTHER` pages twice as many and one are enough.
 */
static int load_limited(zimgasol_table *table) {
    zimgasol_load load = {0};
    zimgasol_settings settings = {.frame = ZIMGASOL_FRAME_RAM, .waiting = 16};
    zimgasol_fault fault;
    size_t taken;
    uint64_t at = 7;
    WANT(zimgasol_load_new(&load, table, uuid, 16, CHANNELS, &settings) == ZIMGASOL_DONE);
    for (size_t source = 0; source <= CHANNELS; source++)
        WANT(told_feed(&load, into, 2, source, stream[source], length[source], &taken) ==
            ZIMGASOL_DONE);
    WANT(zimgasol_load_verdict(&load, &fault) == ZIMGASOL_CHANNEL_WAITING);
    WANT(fault.source == ZIMGASOL_CHANNEL(0) && fault.round == 0 &&
        fault.number == ZIMGASOL_CHANNEL_WAITING);
    WANT(told_valid_up_to(&load, fault.source, &at) && at == 64);
    WANT(told_rounds(&load) == 0);
    zimgasol_load_free(&load);
    settings.waiting = 2 * (PAGES + OTHER) + 1;
    WANT(zimgasol_load_new(&load, table, uuid, 16, CHANNELS, &settings) == ZIMGASOL_DONE);
    if (feed_all(&load, 4096)) return 1;
    WANT(zimgasol_load_verdict(&load, &fault) == ZIMGASOL_DONE && told_rounds(&load) == 2);
    zimgasol_load_free(&load);
    return 0;
}

/* Steps a worker until it has ended. */
static int step_all(zimgasol_worker *worker) {
    zimgasol_status status;
    while ((status = pack_next(worker, lent, PAGE)) == ZIMGASOL_RUNNING) continue;
    WANT(status == ZIMGASOL_DONE);
    return 0;
}

/* A worker that is given back to another sender than its own, against the header's rule: nothing
 * refuses it, and no load takes the streams for whole ones. The first sender's worker has packed
 * packets 0 to 18, all of the round; the second sender's own first one has drawn packet 0, and the
 * others the packets from 1 on. So packet 1 comes twice. */
static int foreign(zimgasol_table *table) {
    static zimgasol_place all[PAGES];
    zimgasol_send other = {0}, multi = {0};
    zimgasol_worker stray = {0}, workers[CHANNELS] = {{0}};
    zimgasol_load load = {0};
    zimgasol_fault fault;
    size_t len, taken;
    for (size_t p = 0; p < PAGES; p++) all[p] = (zimgasol_place){0, p};
    WANT(new_on_channels(&other, table, uuid, CHANNELS, 16) == ZIMGASOL_DONE);
    WANT(zimgasol_send_begin_round_pages(&other, all, PAGES) == ZIMGASOL_DONE);
    WANT(zimgasol_send_worker(&other, &stray) == ZIMGASOL_DONE);
    if (step_all(&stray)) return 1;
    WANT(new_on_channels(&multi, table, uuid, CHANNELS, 16) == ZIMGASOL_DONE);
    WANT(zimgasol_send_begin_round_pages(&multi, all, PAGES) == ZIMGASOL_DONE);
    for (size_t j = 0; j < CHANNELS; j++)
        WANT(zimgasol_send_worker(&multi, &workers[j]) == ZIMGASOL_DONE);
    WANT(pack_next(&workers[0], lent, PAGE) == ZIMGASOL_RUNNING);
    for (size_t j = 1; j < CHANNELS; j++)
        if (step_all(&workers[j])) return 1;
    WANT(zimgasol_send_give_back(&multi, &stray) == ZIMGASOL_DONE && stray.full == 0);
    WANT(zimgasol_send_give_back(&multi, &workers[0]) == ZIMGASOL_OUT_OF_TURN &&
        workers[0].full != 0);
    for (size_t j = 1; j < CHANNELS; j++)
        WANT(zimgasol_send_give_back(&multi, &workers[j]) == ZIMGASOL_DONE);
    WANT(zimgasol_send_end_round(&multi) == ZIMGASOL_DONE &&
        zimgasol_send_finish(&multi, false) == ZIMGASOL_DONE);
    memset(length, 0, sizeof length);
    if (drain_main(&multi)) return 1;
    for (size_t j = 0; j < CHANNELS; j++)
        while ((len = zimgasol_send_drain(&multi, ZIMGASOL_CHANNEL(j),
                    stream[1 + j] + length[1 + j], 10000)) > 0)
            length[1 + j] += len;
    WANT(zimgasol_load_new(&load, table, uuid, 16, CHANNELS, &plain) == ZIMGASOL_DONE);
    for (size_t source = 0; source <= CHANNELS; source++)
        WANT(told_feed(&load, into, 2, source, stream[source], length[source], &taken) ==
            ZIMGASOL_DONE);
    WANT(zimgasol_load_verdict(&load, &fault) == ZIMGASOL_ROUND_DOUBLED && fault.first == 1 &&
        fault.round == 0);
    zimgasol_load_free(&load);
    zimgasol_worker_free(&workers[0]);
    zimgasol_send_free(&multi);
    zimgasol_send_free(&other);
    return 0;
}

int main(void) {
    zimgasol_block blocks[2] = {{.id = "pc.ram", .pages = PAGES},
        {.id = "pc.bios", .pages = OTHER}};
    zimgasol_table table = {0};
    size_t entry;
    WANT(zimgasol_table_new(&table, PAGE, blocks, 2, &entry) == ZIMGASOL_DONE);
    if (send_all(&table) || send_none(&table) || give_up(&table)) return 1;
    size_t cuts[] = {MOST, 100000, 4096, 777};
    for (size_t i = 0; i < sizeof cuts / sizeof cuts[0]; i++)
        if (load_all(&table, cuts[i])) return 1;
    if (load_wrong(&table) || load_cut(&table) || load_limited(&table)) return 1;
    for (size_t i = 0; i < 3; i++)
        if (whole_ends(&table, cuts[i])) return 1;
    if (whole_cut(&table)) return 1;
    printf("%zu bytes on the main stream, %zu, %zu and %zu on the channels; 0 pages differ\n",
        length[0], length[1], length[2], length[3]);
    if (send_named(&table) || foreign(&table)) return 1;
    zimgasol_table_free(&table);
    return 0;
}
