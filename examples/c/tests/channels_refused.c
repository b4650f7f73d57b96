/* Each allocation of the calls for several channels refused in turn. A guest is sent in two rounds
 * by workers that are stepped by turns, and loaded into blocks, by pieces and by packets whose
 * pages are copied here, with the nth call of malloc or realloc refused. The call that wanted it
 * says so, and is made again; a load that failed for good is made anew. The streams are those of a
 * run without a refusal, the blocks have the guest, and nothing is left. */
#include "sends.h"
#include "standing.h"
#include "zimgasol.h"
#include "refusing.h"
#include <string.h>

enum { PAGE = 4096, CHANNELS = 3, PAGES = 11, SOURCES = 1 + CHANNELS, MOST = 1 << 17 };
enum { HEAD = ZIMGASOL_HEAD_LEN(PAGE) };

static uint8_t guest[PAGES * PAGE], loaded[PAGES * PAGE];
static uint8_t stream[SOURCES][MOST], first[SOURCES][MOST];
static size_t length[SOURCES], first_length[SOURCES];
static const uint8_t uuid[16] = {4, 5};
static const zimgasol_settings plain = {.frame = ZIMGASOL_FRAME_RAM};
static zimgasol_lent lent[1] = {{guest, sizeof guest}};
static zimgasol_buffer into[1] = {{loaded, sizeof loaded}};

static void drain_main(zimgasol_send *multi) {
    size_t len;
    while ((len = zimgasol_send_drain(multi, ZIMGASOL_MAIN, stream[0] + length[0], 100)) > 0)
        length[0] += len;
}

static void drain_worker(zimgasol_worker *worker, size_t channel) {
    size_t source = ZIMGASOL_CHANNEL(channel), len;
    while ((len = zimgasol_worker_drain(worker, stream[source] + length[source], 3000)) > 0) {
        length[source] += len;
        WANT(length[source] + 3000 < MOST);
    }
}

/* How a worker's next packet is written. */
typedef uint32_t way(zimgasol_worker *, size_t channel);

static uint32_t pack_lent(zimgasol_worker *worker, size_t channel) {
    (void)channel;
    return pack_next(worker, lent, PAGE);
}

/* The pages of the next packet are copied first. */
static uint32_t pack_copied(zimgasol_worker *worker, size_t channel) {
    uint8_t copy[2 * PAGE];
    zimgasol_batch batch;
    uint32_t status = zimgasol_worker_next(worker, &batch);
    if (status != ZIMGASOL_RUNNING) return status;
    WANT(channel == 1 && batch.block == 0 && batch.count <= 2);
    for (size_t i = 0; i < batch.count; i++)
        memcpy(copy + i * PAGE, guest + batch.pages[i] * PAGE, PAGE);
    return pack_copy(worker, copy, batch.count, PAGE);
}

/* The next packet's head is written, and its pages follow from where they lie. */
static uint32_t send_head(zimgasol_worker *worker, size_t channel) {
    uint8_t zeros[2], head[HEAD];
    zimgasol_batch batch;
    size_t source = ZIMGASOL_CHANNEL(channel), len = 0;
    uint32_t status = zimgasol_worker_next(worker, &batch);
    if (status != ZIMGASOL_RUNNING) return status;
    drain_worker(worker, channel);
    for (size_t i = 0; i < batch.count; i++) zeros[i] = guest[batch.pages[i] * PAGE] == 0;
    status = zimgasol_worker_head(worker, zeros, batch.count, head, sizeof head, &len);
    if (status != ZIMGASOL_RUNNING) {
        WANT(len == 0);
        return status;
    }
    memcpy(stream[source] + length[source], head, len);
    length[source] += len;
    for (size_t i = 0; i < batch.count; i++) {
        if (zeros[i]) continue;
        memcpy(stream[source] + length[source], guest + batch.pages[i] * PAGE, PAGE);
        length[source] += PAGE;
    }
    return status;
}

/* Writes a worker's next packet, again where it was refused: from the blocks, from a copy, or by a
 * head. Returns whether its channel goes on. */
static int steps(zimgasol_worker *worker, size_t channel) {
    static way *const ways[CHANNELS] = {pack_lent, pack_copied, send_head};
    way *step = ways[channel];
    uint32_t status = step(worker, channel);
    if (status == ZIMGASOL_NO_MEMORY) {
        WANT(refusals == 1);
        status = step(worker, channel);
    }
    WANT(status == ZIMGASOL_DONE || status == ZIMGASOL_RUNNING);
    return status == ZIMGASOL_RUNNING;
}

static void send_round(zimgasol_send *multi, const zimgasol_place *dirty, size_t count) {
    zimgasol_worker workers[CHANNELS] = {{0}};
    AGAIN(zimgasol_send_begin_round_pages(multi, dirty, count));
    for (size_t j = 0; j < CHANNELS; j++) AGAIN(zimgasol_send_worker(multi, &workers[j]));
    for (int running = 1; running;) {
        running = 0;
        for (size_t j = 0; j < CHANNELS; j++) {
            running += steps(&workers[j], j);
            if (j == 0) drain_worker(&workers[j], j);
        }
    }
    for (size_t j = 0; j < CHANNELS; j++) {
        drain_worker(&workers[j], j);
        AGAIN(zimgasol_send_give_back(multi, &workers[j]));
        WANT(workers[j].full == 0);
    }
    AGAIN(zimgasol_send_end_round(multi));
    drain_main(multi);
}

static void send(zimgasol_table *table) {
    zimgasol_send multi = {0};
    zimgasol_place all[PAGES], some[2] = {{0, 6}, {0, 1}};
    memset(length, 0, sizeof length);
    for (size_t p = 0; p < PAGES; p++) {
        all[p] = (zimgasol_place){0, p};
        memset(guest + p * PAGE, (int)(p % 3), PAGE);
    }
    AGAIN(new_on_channels(&multi, table, uuid, CHANNELS, 2));
    send_round(&multi, all, PAGES);
    memset(guest + 6 * PAGE, 77, PAGE);
    memset(guest + PAGE, 0, PAGE);
    send_round(&multi, some, 2);
    AGAIN(zimgasol_send_finish(&multi, false));
    drain_main(&multi);
    zimgasol_send_free(&multi);
}

/* A machine's streams without a round, ended and left open; and given up in the middle of a round.
 * The main stream has the file header, a configuration of 9 bytes, START of one block and END. */
static void send_named(zimgasol_table *table) {
    zimgasol_send multi = {0};
    zimgasol_worker worker = {0};
    zimgasol_place place = {0, 3};
    uint8_t out[10];
    size_t len, total = 0;
    AGAIN(new_named_on_channels(&multi, table, uuid, CHANNELS, 2, (const uint8_t *)"virt", 4));
    AGAIN(zimgasol_send_finish(&multi, true));
    while ((len = zimgasol_send_drain(&multi, ZIMGASOL_MAIN, out, sizeof out)) > 0) total += len;
    WANT(total == 8 + 9 + (17 + 8 + 15 + 13) + (5 + 13));
    zimgasol_send_free(&multi);
    AGAIN(new_named_on_channels(&multi, table, uuid, CHANNELS, 2, (const uint8_t *)"virt", 4));
    AGAIN(zimgasol_send_begin_round_pages(&multi, &place, 1));
    AGAIN(zimgasol_send_worker(&multi, &worker));
    WANT(steps(&worker, 0));
    WANT(zimgasol_send_cancel_round(&multi, true) == ZIMGASOL_DONE);
    zimgasol_send_free(&multi);
    zimgasol_worker_free(&worker);
}

/* Feeds all sources by turns, and ends them. Returns whether the load goes on or is done: no where
 * it has failed for good. */
static int feeds(zimgasol_load *load, size_t cut) {
    size_t given[SOURCES] = {0}, taken;
    zimgasol_fault fault;
    for (int moved = 1; moved;) {
        moved = 0;
        for (size_t source = 0; source < SOURCES; source++) {
            size_t left = length[source] - given[source], len = left < cut ? left : cut;
            if (len == 0 || !zimgasol_load_takes(load, source)) continue;
            uint32_t status = told_feed(load, into, 1, source,
                stream[source] + given[source], len, &taken);
            WANT(into[0].bytes == loaded && into[0].len == sizeof loaded);
            if (status == ZIMGASOL_NO_MEMORY) {
                WANT(refusals == 1 && taken == 0);
                if (zimgasol_load_verdict(load, &fault) == ZIMGASOL_NO_MEMORY) return 0;
                WANT(told_fed(load, source) == given[source]);
            } else {
                WANT(status == ZIMGASOL_DONE);
            }
            given[source] += taken;
            moved = moved || taken > 0 || status == ZIMGASOL_NO_MEMORY;
        }
    }
    for (size_t source = 0; source < SOURCES; source++) {
        WANT(given[source] == length[source]);
        WANT(zimgasol_load_end(load, source) == ZIMGASOL_DONE);
    }
    return 1;
}

static void load(zimgasol_table *table, size_t cut) {
    zimgasol_load load = {0};
    zimgasol_fault fault;
    memset(loaded, 0xEE, sizeof loaded);
    AGAIN(zimgasol_load_new(&load, table, uuid, 16, CHANNELS, &plain));
    if (!feeds(&load, cut)) {
        WANT(told_rounds(&load) <= 2);
        zimgasol_load_free(&load);
        AGAIN(zimgasol_load_new(&load, table, uuid, 16, CHANNELS, &plain));
        WANT(feeds(&load, cut));
    }
    WANT(zimgasol_load_verdict(&load, &fault) == ZIMGASOL_DONE && fault.number == 0);
    WANT(told_rounds(&load) == 2 && memcmp(loaded, guest, sizeof guest) == 0);
    zimgasol_load_free(&load);
}

/* ---- the pages copied to their places here */

/* Takes the next packet of a channel, again where it was refused. Returns how many bytes it has, or
 * 0 where they are to be fed. */
static size_t take_packet(zimgasol_load *load, size_t source, const uint8_t *head, size_t left) {
    zimgasol_lent contents[2];
    zimgasol_pages pages;
    uint64_t claimed;
    uint32_t status;
    if (left < HEAD) return 0;
    status = zimgasol_load_claim(load, source - 1, head, HEAD, &pages);
    if (status == ZIMGASOL_TO_FEED) return 0;
    WANT(status == ZIMGASOL_RUNNING && pages.block == 0);
    claimed = told_claimed(load); /* pages of zeros that needn't be cleared, too */
    WANT(claimed <= 2 && claimed >= pages.normal + pages.zero);
    for (size_t i = 0; i < pages.normal + pages.zero; i++) {
        uint8_t *page = loaded + pages.pages[i] * PAGE;
        if (i < pages.normal) memcpy(page, head + HEAD + i * PAGE, PAGE);
        else memset(page, 0, PAGE);
        if (i < pages.normal) contents[i] = (zimgasol_lent){page, PAGE};
    }
    status = zimgasol_load_take(load, source - 1, head, HEAD, contents, pages.normal);
    if (status == ZIMGASOL_NO_MEMORY) {
        WANT(refusals == 1 && told_claimed(load) == claimed);
        status = zimgasol_load_take(load, source - 1, head, HEAD, contents, pages.normal);
    }
    WANT(status == ZIMGASOL_RUNNING && told_claimed(load) == 0);
    return HEAD + pages.normal * PAGE;
}

/* Feeds the next bytes of a source, up to a packet's end. Returns how many were taken: none where
 * the allocation was refused. */
static size_t feed_next(zimgasol_load *load, size_t source, size_t at) {
    size_t left = length[source] - at, len = source == 0 ? 100 : at == 0 ? 64 : HEAD, taken;
    zimgasol_fault fault;
    uint32_t status = told_feed(load, into, 1, source, stream[source] + at,
        left < len ? left : len, &taken);
    if (status == ZIMGASOL_DONE) return taken;
    WANT(status == ZIMGASOL_NO_MEMORY && refusals == 1 && taken == 0);
    if (zimgasol_load_verdict(load, &fault) != ZIMGASOL_NO_MEMORY)
        WANT(told_fed(load, source) == at);
    return 0;
}

/* Passes all sources on by turns, and ends them. Returns whether the load is done: no where it has
 * failed for good. */
static int passes(zimgasol_load *load) {
    size_t given[SOURCES] = {0}, source = 0, idle = 0;
    zimgasol_fault fault;
    for (; idle <= 2 * SOURCES; source = (source + 1) % SOURCES) {
        size_t at = given[source], left = length[source] - at, len = 0;
        if (left > 0 && zimgasol_load_takes(load, source)) {
            if (source > 0) len = take_packet(load, source, stream[source] + at, left);
            given[source] += len > 0 ? len : feed_next(load, source, at);
        }
        idle = given[source] > at ? 0 : idle + 1;
    }
    if (zimgasol_load_verdict(load, &fault) == ZIMGASOL_NO_MEMORY) return 0;
    for (source = 0; source < SOURCES; source++) {
        WANT(given[source] == length[source]);
        WANT(zimgasol_load_end(load, source) == ZIMGASOL_DONE);
    }
    return 1;
}

/* Loads into blocks that are zeros, of which the load is told, or hold something else. */
static void load_claimed(zimgasol_table *table, bool zeros) {
    zimgasol_load load = {0};
    zimgasol_settings settings = {.zero_blocks = zeros};
    zimgasol_fault fault;
    memset(loaded, zeros ? 0 : 0xEE, sizeof loaded);
    AGAIN(zimgasol_load_new(&load, table, uuid, 16, CHANNELS, &settings));
    if (!passes(&load)) {
        zimgasol_load_free(&load);
        memset(loaded, zeros ? 0 : 0xEE, sizeof loaded);
        AGAIN(zimgasol_load_new(&load, table, uuid, 16, CHANNELS, &settings));
        WANT(passes(&load));
    }
    WANT(zimgasol_load_verdict(&load, &fault) == ZIMGASOL_DONE && fault.number == 0);
    WANT(told_rounds(&load) == 2 && memcmp(loaded, guest, sizeof guest) == 0);
    zimgasol_load_free(&load);
}

int main(void) {
    zimgasol_block block = {.id = "pc.ram", .pages = PAGES};
    zimgasol_table table = {0};
    size_t entry;
    long runs = 0, most = 0;
    for (refused = 0;; refused++) {
        counted = refusals = 0;
        AGAIN(zimgasol_table_new(&table, PAGE, &block, 1, &entry));
        send(&table);
        for (size_t s = 0; s < SOURCES; s++) {
            if (refused == 0) memcpy(first[s], stream[s], first_length[s] = length[s]);
            WANT(length[s] == first_length[s] && memcmp(first[s], stream[s], length[s]) == 0);
        }
        send_named(&table);
        load(&table, MOST);
        load(&table, 1000);
        load_claimed(&table, false);
        load_claimed(&table, true);
        zimgasol_table_free(&table);
        WANT(held == 0);
        runs++;
        most = counted > most ? counted : most;
        if (refused > 0 && refusals == 0) break;
    }
    printf("%ld runs of up to %ld allocations on channels, with none refused, then the first, then "
           "the second: all streams and blocks right, no block left\n",
        runs, most);
    return 0;
}
