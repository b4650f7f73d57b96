/* Channels whose pages are read to their places by threads, a thread for each channel and one for
 * the main stream, behind one lock. A guest is loaded, pages of 4096 and of 8192 bytes; and
 * streams with a page twice, or that are cut, end with the fault of a load that is fed all bytes.
 * The connections are buffers in memory. Each status of a call out of turn is asked for. */
#include "sends.h"
#include "standing.h"
#include "zimgasol.h"
#include <pthread.h>
#include <sched.h>
#include <stdio.h>
#include <stdlib.h>
#include <string.h>

enum { CHANNELS = 2, PAGES = 120, OTHER = 3, LIMIT = 4, ROUNDS = 3, LARGE = 8192, MOST = 1 << 22 };

#define WANT(test)                                                                                 \
    do {                                                                                           \
        if (!(test)) {                                                                             \
            printf("line %d: %s\n", __LINE__, #test);                                              \
            return 1;                                                                              \
        }                                                                                          \
    } while (0)

/* The main stream and those of the channels. */
typedef struct streams {
    uint8_t bytes[1 + CHANNELS][MOST];
    size_t len[1 + CHANNELS];
} streams;

static size_t page_len, head_len;
static uint8_t guest[2][PAGES * LARGE], loaded[2][PAGES * LARGE];
static const uint8_t uuid[16] = {3, 2, 1};
static const zimgasol_settings settings = {.round_end = ZIMGASOL_AS_SHOWN};

static uint8_t *page_of(size_t block, uint64_t page) {
    return guest[block] + page * page_len;
}

/* ---- the sender */

static void append(streams *to, size_t source, const void *bytes, size_t len) {
    memcpy(to->bytes[source] + to->len[source], bytes, len);
    to->len[source] += len;
}

static void drain_main(zimgasol_send *multi, streams *to) {
    uint8_t out[1000];
    size_t len;
    while ((len = zimgasol_send_drain(multi, ZIMGASOL_MAIN, out, sizeof out)) > 0)
        append(to, 0, out, len);
}

static void drain_worker(zimgasol_worker *worker, size_t channel, streams *to) {
    uint8_t out[3000];
    size_t len;
    while ((len = zimgasol_worker_drain(worker, out, sizeof out)) > 0)
        append(to, ZIMGASOL_CHANNEL(channel), out, len);
}

/* A round of all pages, of which every third is zeros. */
static int send_round(zimgasol_send *multi, unsigned seed, streams *to) {
    static zimgasol_place all[PAGES + OTHER];
    zimgasol_lent lent[2] = {{guest[0], PAGES * page_len}, {guest[1], OTHER * page_len}};
    zimgasol_worker workers[CHANNELS] = {{0}};
    bool ended[CHANNELS] = {false};
    for (size_t p = 0; p < PAGES + OTHER; p++) {
        all[p] = p < PAGES ? (zimgasol_place){0, p} : (zimgasol_place){1, p - PAGES};
        memset(page_of(all[p].block, all[p].page), (p + seed) % 3 ? (int)(p + seed) : 0, page_len);
    }
    WANT(zimgasol_send_begin_round_pages(multi, all, PAGES + OTHER) == ZIMGASOL_DONE);
    for (size_t j = 0; j < CHANNELS; j++)
        WANT(zimgasol_send_worker(multi, &workers[j]) == ZIMGASOL_DONE);
    for (size_t turn = 0; !ended[0] || !ended[1]; turn++) {
        size_t j = turn % CHANNELS;
        if (ended[j]) continue;
        zimgasol_status status = pack_next(&workers[j], lent, page_len);
        WANT(status == ZIMGASOL_RUNNING || status == ZIMGASOL_DONE);
        ended[j] = status == ZIMGASOL_DONE;
        drain_worker(&workers[j], j, to);
    }
    for (size_t j = 0; j < CHANNELS; j++)
        WANT(zimgasol_send_give_back(multi, &workers[j]) == ZIMGASOL_DONE);
    WANT(zimgasol_send_end_round(multi) == ZIMGASOL_DONE);
    drain_main(multi, to);
    return 0;
}

static int send_guest(zimgasol_table *table, streams *to) {
    zimgasol_send multi = {0};
    memset(to->len, 0, sizeof to->len);
    WANT(new_on_channels(&multi, table, uuid, CHANNELS, LIMIT) == ZIMGASOL_DONE);
    for (unsigned round = 0; round < ROUNDS; round++)
        if (send_round(&multi, 7 * round, to)) return 1;
    WANT(zimgasol_send_finish(&multi, false) == ZIMGASOL_DONE);
    drain_main(&multi, to);
    zimgasol_send_free(&multi);
    return 0;
}

/* ---- the loader */

/* A load, with the lock around its calls, and the connections. */
static struct apart {
    zimgasol_load load;
    pthread_mutex_t held;
    pthread_cond_t turned;
    zimgasol_buffer blocks[2];
    const streams *from;
    bool given_up;
    size_t taken; /* packets */
    zimgasol_status wrong; /* of a call that has no such status here */
} run = {.held = PTHREAD_MUTEX_INITIALIZER, .turned = PTHREAD_COND_INITIALIZER};

/* A connection: a source, and how many of its bytes were read. */
typedef struct source {
    size_t number;
    size_t at;
} source;

/* Reads up to `len` bytes of a connection. Returns fewer where it ends. */
static size_t read_up_to(source *from, void *to, size_t len) {
    size_t left = run.from->len[from->number] - from->at;
    if (len > left) len = left;
    memcpy(to, run.from->bytes[from->number] + from->at, len);
    from->at += len;
    sched_yield();
    return len;
}

/* Whether the load goes on. The caller holds the lock. */
static bool is_running(void) {
    zimgasol_fault fault;
    return !run.given_up && zimgasol_load_verdict(&run.load, &fault) == ZIMGASOL_RUNNING;
}

static void wait_for_turn(void) {
    pthread_cond_wait(&run.turned, &run.held);
}

/* Feeds all of some bytes, each as soon as it may be fed. Returns whether all were taken. */
static bool feed(const source *from, const uint8_t *bytes, size_t len) {
    pthread_mutex_lock(&run.held);
    while (len > 0 && is_running()) {
        size_t taken;
        if (told_claimed(&run.load) > 0 || !zimgasol_load_takes(&run.load, from->number)) {
            wait_for_turn();
            continue;
        }
        zimgasol_status status =
            told_feed(&run.load, run.blocks, 2, from->number, bytes, len, &taken);
        if (status != ZIMGASOL_DONE) run.wrong = status;
        bytes += taken;
        len -= taken;
        pthread_cond_broadcast(&run.turned);
    }
    pthread_mutex_unlock(&run.held);
    return len == 0;
}

static void end(const source *from) {
    pthread_mutex_lock(&run.held);
    zimgasol_status status = zimgasol_load_end(&run.load, from->number);
    if (status != ZIMGASOL_DONE) run.wrong = status;
    pthread_cond_broadcast(&run.turned);
    pthread_mutex_unlock(&run.held);
}

static void *load_main(void *arg) {
    source *from = arg;
    uint8_t piece[100];
    size_t len;
    do {
        len = read_up_to(from, piece, sizeof piece);
        if (!feed(from, piece, len)) return NULL;
    } while (len > 0);
    end(from);
    return NULL;
}

/* Claims the pages of the next packet, once bytes of its channel are taken and no other packet has
 * claimed one of them. */
static zimgasol_status claim(const source *from, const uint8_t *head, zimgasol_pages *pages) {
    zimgasol_status status = ZIMGASOL_IS_CLAIMED;
    pthread_mutex_lock(&run.held);
    while (is_running() && !zimgasol_load_takes(&run.load, from->number)) wait_for_turn();
    while (is_running()) {
        status = zimgasol_load_claim(&run.load, from->number - 1, head, head_len, pages);
        if (status != ZIMGASOL_IS_CLAIMED) break;
        wait_for_turn();
    }
    pthread_mutex_unlock(&run.held);
    return status;
}

/* Reads the claimed pages to their places, and takes their packet. Returns false where the
 * connection ends in one of them. */
static bool take(source *from, const uint8_t *head, const zimgasol_pages *pages) {
    uint8_t *block = run.blocks[pages->block].bytes;
    zimgasol_lent contents[128];
    for (size_t i = 0; i < pages->normal; i++) {
        contents[i] = (zimgasol_lent){block + pages->pages[i] * page_len, page_len};
        if (read_up_to(from, block + pages->pages[i] * page_len, page_len) < page_len) return false;
    }
    for (size_t i = 0; i < pages->zero; i++)
        memset(block + pages->pages[pages->normal + i] * page_len, 0, page_len);
    pthread_mutex_lock(&run.held);
    zimgasol_status status =
        zimgasol_load_take(&run.load, from->number - 1, head, head_len, contents, pages->normal);
    if (status != ZIMGASOL_RUNNING) run.wrong = status;
    run.taken++;
    pthread_cond_broadcast(&run.turned);
    pthread_mutex_unlock(&run.held);
    return true;
}

/* How many bytes follow a head that is fed. */
static size_t contents_len(const uint8_t *head) {
    size_t len = 0;
    if (!(head[16] | head[17] | head[18] | head[19])) return 0;
    for (size_t i = 20; i < 24; i++) len = 256 * len + head[i];
    return len;
}

/* Feeds the head of a packet that isn't taken apart, and what follows. Returns whether all was
 * taken. */
static bool feed_packet(source *from, const uint8_t *head) {
    uint8_t bytes[LARGE];
    size_t left = contents_len(head), len = 1;
    if (!feed(from, head, head_len)) return false;
    for (; left > 0 && len > 0; left -= len) {
        len = read_up_to(from, bytes, left < sizeof bytes ? left : sizeof bytes);
        if (!feed(from, bytes, len)) return false;
    }
    return true;
}

/* A page was cut off: nothing is fed any more. */
static void give_up(void) {
    pthread_mutex_lock(&run.held);
    run.given_up = true;
    pthread_mutex_unlock(&run.held);
}

static void *load_channel(void *arg) {
    source *from = arg;
    uint8_t head[ZIMGASOL_HEAD_LEN(4096)];
    zimgasol_pages pages;
    size_t len = read_up_to(from, head, ZIMGASOL_HELLO_LEN);
    if (!feed(from, head, len)) return NULL;
    while ((len = read_up_to(from, head, head_len)) == head_len) {
        zimgasol_status status = claim(from, head, &pages);
        if (status == ZIMGASOL_RUNNING) {
            if (take(from, head, &pages)) continue;
            give_up();
            end(from);
            return NULL;
        }
        if (status != ZIMGASOL_TO_FEED || !feed_packet(from, head)) return NULL;
    }
    if (feed(from, head, len)) end(from);
    return NULL;
}

static int begin(zimgasol_table *table, const streams *from) {
    memset(loaded, 0xEE, sizeof loaded);
    run.blocks[0] = (zimgasol_buffer){loaded[0], PAGES * page_len};
    run.blocks[1] = (zimgasol_buffer){loaded[1], OTHER * page_len};
    run.from = from;
    run.given_up = false;
    run.taken = 0;
    run.wrong = ZIMGASOL_DONE;
    WANT(zimgasol_load_new(&run.load, table, uuid, 16, CHANNELS, &settings) == ZIMGASOL_DONE);
    return 0;
}

/* Loads streams by threads. */
static int load_apart(zimgasol_table *table, const streams *from) {
    pthread_t threads[1 + CHANNELS];
    source sources[1 + CHANNELS];
    if (begin(table, from)) return 1;
    for (size_t s = 0; s <= CHANNELS; s++) {
        sources[s] = (source){s, 0};
        WANT(
            pthread_create(&threads[s], NULL, s == 0 ? load_main : load_channel, &sources[s]) == 0);
    }
    for (size_t s = 0; s <= CHANNELS; s++) pthread_join(threads[s], NULL);
    WANT(run.wrong == ZIMGASOL_DONE);
    return 0;
}

/* Loads the same streams by feeding them, and returns the verdict and the number of rounds. */
static int load_fed(zimgasol_table *table, const streams *from, zimgasol_fault *fault,
    uint64_t *rounds) {
    static uint8_t copy[2][PAGES * LARGE];
    zimgasol_buffer into[2] = {{copy[0], PAGES * page_len}, {copy[1], OTHER * page_len}};
    zimgasol_load load = {0};
    size_t given[1 + CHANNELS] = {0}, taken;
    WANT(zimgasol_load_new(&load, table, uuid, 16, CHANNELS, &settings) == ZIMGASOL_DONE);
    for (bool moved = true; moved;) {
        moved = false;
        for (size_t s = 0; s <= CHANNELS; s++) {
            size_t len = from->len[s] - given[s];
            if (len == 0 || !zimgasol_load_takes(&load, s)) continue;
            WANT(told_feed(&load, into, 2, s, from->bytes[s] + given[s], len, &taken) ==
                ZIMGASOL_DONE);
            given[s] += taken;
            moved = moved || taken > 0;
        }
    }
    for (size_t s = 0; s <= CHANNELS; s++) WANT(zimgasol_load_end(&load, s) == ZIMGASOL_DONE);
    zimgasol_status verdict = zimgasol_load_verdict(&load, fault);
    WANT(verdict == fault->number);
    *rounds = told_rounds(&load);
    zimgasol_load_free(&load);
    return 0;
}

/* The fault of streams is that of a load which is fed all bytes. */
static int same_fault(zimgasol_table *table, const streams *from, zimgasol_status wanted) {
    zimgasol_fault fault = {0}, other = {0};
    uint64_t rounds;
    if (load_fed(table, from, &other, &rounds) || load_apart(table, from)) return 1;
    WANT(zimgasol_load_verdict(&run.load, &fault) == wanted);
    WANT(other.number == wanted && fault.number == wanted && fault.round == other.round &&
        fault.source == other.source && fault.first == other.first && fault.second == other.second);
    WANT(told_rounds(&run.load) == rounds && !told_has_all_rounds(&run.load));
    WANT(told_claimed(&run.load) == 0);
    zimgasol_load_free(&run.load);
    return 0;
}

static int load_guest(zimgasol_table *table, const streams *from) {
    zimgasol_fault fault;
    uint64_t at;
    if (load_apart(table, from)) return 1;
    WANT(zimgasol_load_verdict(&run.load, &fault) == ZIMGASOL_DONE);
    WANT(told_rounds(&run.load) == ROUNDS && told_has_all_rounds(&run.load));
    WANT(told_missing(&run.load) == 0);
    WANT(told_claimed(&run.load) == 0 && run.taken == ROUNDS * (PAGES / LIMIT + 1));
    WANT(told_closed_at(&run.load, &at) == ZIMGASOL_DONE && at == from->len[0]);
    for (size_t s = 0; s <= CHANNELS; s++) {
        WANT(told_fed(&run.load, s) == from->len[s]);
        WANT(told_valid_up_to(&run.load, s, &at) && at == from->len[s]);
    }
    WANT(!told_valid_up_to(&run.load, 1 + CHANNELS, &at) && at == from->len[CHANNELS]);
    WANT(memcmp(loaded[0], guest[0], PAGES * page_len) == 0 &&
        memcmp(loaded[1], guest[1], OTHER * page_len) == 0);
    zimgasol_load_free(&run.load);
    return 0;
}

/* The connection of channel 1 ends in the first page of its second packet, while its thread reads
 * it. The other threads stop, after this round at the latest. */
static int cut_page(zimgasol_table *table, streams *from) {
    size_t whole = from->len[2], first = contents_len(from->bytes[2] + ZIMGASOL_HELLO_LEN);
    zimgasol_fault fault;
    zimgasol_status status;
    from->len[2] = ZIMGASOL_HELLO_LEN + head_len + first + head_len + page_len / 2;
    if (load_apart(table, from)) return 1;
    WANT(run.given_up && told_claimed(&run.load) > 0);
    status = zimgasol_load_verdict(&run.load, &fault);
    WANT(status == ZIMGASOL_RUNNING || status == ZIMGASOL_CHANNEL_UNSYNCED);
    WANT(zimgasol_load_fault_of(&run.load, ZIMGASOL_CHANNEL(1), &fault) ==
        ZIMGASOL_CHANNEL_UNSYNCED);
    zimgasol_load_free(&run.load);
    from->len[2] = whole;
    return 0;
}

/* ---- calls out of turn */

/* Feeds the hellos and the main stream up to its table, and the calls that come too early. */
static int feed_fronts(const uint8_t *head, zimgasol_pages *pages) {
    const streams *from = run.from;
    size_t taken;
    for (size_t j = 0; j < CHANNELS; j++)
        WANT(told_feed(&run.load, run.blocks, 2, ZIMGASOL_CHANNEL(j), from->bytes[1 + j],
                 ZIMGASOL_HELLO_LEN, &taken) == ZIMGASOL_DONE &&
            taken == ZIMGASOL_HELLO_LEN);
    WANT(zimgasol_load_claim(&run.load, 0, head, head_len, pages) == ZIMGASOL_TO_FEED);
    WANT(!zimgasol_load_takes(&run.load, ZIMGASOL_CHANNEL(0)));
    WANT(told_feed(&run.load, run.blocks, 2, ZIMGASOL_MAIN, from->bytes[0], 100, &taken) ==
        ZIMGASOL_DONE);
    WANT(zimgasol_load_takes(&run.load, ZIMGASOL_CHANNEL(0)));
    WANT(zimgasol_load_claim(&run.load, CHANNELS, head, head_len, pages) == ZIMGASOL_BAD_SOURCE);
    WANT(zimgasol_load_claim(&run.load, 0, head, head_len - 1, pages) == ZIMGASOL_TO_FEED);
    return 0;
}

static int ask_out_of_turn(zimgasol_table *table, const streams *from) {
    const uint8_t *head = from->bytes[1] + ZIMGASOL_HELLO_LEN, *contents = head + head_len;
    zimgasol_lent lent[128];
    zimgasol_pages pages = {0};
    size_t taken = 77, count = contents_len(head) / page_len;
    if (begin(table, from)) return 1;
    for (size_t i = 0; i < count; i++) lent[i] = (zimgasol_lent){contents + i * page_len, page_len};
    if (feed_fronts(head, &pages)) return 1;
    WANT(pages.normal == 0 && told_claimed(&run.load) == 0);
    WANT(zimgasol_load_take(&run.load, 0, head, head_len, lent, count) == ZIMGASOL_OUT_OF_TURN);
    WANT(zimgasol_load_claim(&run.load, 0, head, head_len, &pages) == ZIMGASOL_RUNNING);
    WANT(pages.normal == count && pages.normal + pages.zero == LIMIT && pages.block == 0);
    WANT(told_claimed(&run.load) == LIMIT);
    WANT(zimgasol_load_claim(&run.load, 0, head, head_len, &pages) == ZIMGASOL_IS_CLAIMED);
    WANT(told_feed(&run.load, run.blocks, 2, ZIMGASOL_MAIN, from->bytes[0] + 100, 10,
             &taken) == ZIMGASOL_OUT_OF_TURN &&
        taken == 0);
    WANT(zimgasol_load_take(&run.load, CHANNELS, head, head_len, lent, count) ==
        ZIMGASOL_BAD_SOURCE);
    WANT(zimgasol_load_take(&run.load, 0, head, head_len, lent, count - 1) == ZIMGASOL_OUT_OF_TURN);
    lent[0].len--;
    WANT(zimgasol_load_take(&run.load, 0, head, head_len, lent, count) == ZIMGASOL_OUT_OF_TURN);
    lent[0].len++;
    WANT(told_claimed(&run.load) == LIMIT);
    WANT(zimgasol_load_take(&run.load, 0, head, head_len, lent, count) == ZIMGASOL_RUNNING);
    WANT(told_claimed(&run.load) == 0);
    WANT(told_fed(&run.load, ZIMGASOL_CHANNEL(0)) ==
        ZIMGASOL_HELLO_LEN + head_len + count * page_len);
    WANT(zimgasol_load_take(&run.load, 0, head, head_len, lent, count) == ZIMGASOL_OUT_OF_TURN);
    zimgasol_load_free(&run.load);
    zimgasol_load_free(&run.load);
    return 0;
}

static int load_all(size_t size) {
    static streams sent, changed;
    zimgasol_block blocks[2] = {{.id = "pc.ram", .pages = PAGES},
        {.id = "pc.bios", .pages = OTHER}};
    zimgasol_table table = {0};
    size_t entry;
    page_len = size;
    head_len = ZIMGASOL_HEAD_LEN(size);
    WANT(zimgasol_table_new(&table, size, blocks, 2, &entry) == ZIMGASOL_DONE);
    if (send_guest(&table, &sent)) return 1;
    for (int turn = 0; turn < 5; turn++)
        if (load_guest(&table, &sent)) return 1;
    if (ask_out_of_turn(&table, &sent)) return 1;
    /* the first packets of both channels have a page in common */
    changed = sent;
    memcpy(changed.bytes[2] + ZIMGASOL_HELLO_LEN + 320, changed.bytes[1] + ZIMGASOL_HELLO_LEN + 320,
        8);
    for (int turn = 0; turn < 5; turn++)
        if (same_fault(&table, &changed, ZIMGASOL_ROUND_DOUBLE_PAGE)) return 1;
    /* a channel is cut in a head, and in a page */
    changed = sent;
    changed.len[1] = ZIMGASOL_HELLO_LEN + head_len - 1;
    if (same_fault(&table, &changed, ZIMGASOL_CHANNEL_TRUNCATED)) return 1;
    if (cut_page(&table, &sent)) return 1;
    zimgasol_table_free(&table);
    printf("pages of %zu bytes: read to their places by a thread for each of %d channels; a page "
           "twice, and channels that are cut\n",
        size, CHANNELS);
    return 0;
}

int main(void) {
    return load_all(4096) || load_all(LARGE);
}
