/* A live migration within one process, on several channels over socket pairs: a thread goes on
 * writing to a guest's memory while its pages are sent, by a thread for each channel. Another
 * thread for each channel reads them straight to their places in the loader's blocks.
 *
 *   channels [-m MIB] [-c CHANNELS] [-b PAGES] [-d MICROSECONDS] [-r ROUNDS] [-x LOST] [-k] [-p]
 *            [-t]
 *
 * The guest has two blocks, `pc.ram` of MIB (16) and `vga.vram` of 1 MiB, and CHANNELS (4) channels
 * carry packets of at most PAGES (128) pages. Of each block there is a dirty log as KVM's, a bit
 * for each page. A round takes the log, which is empty then, and sends its pages while the guest
 * runs: each worker writes the head of a packet, and its thread sends the head and the pages, from
 * where they lie, by one `writev`. With -k it copies the pages instead, and the worker packs the
 * copy.
 *
 * If a round leaves more than half as many pages dirty as it sent, the writer is slowed down, a
 * step each time: it sleeps 20 percent of the time, then 30, and so on up to 99. (QEMU's
 * auto-converge has these steps; it takes one at every second such round.) Rounds go on until what
 * is dirty would be sent within MICROSECONDS (1000) at the last round's rate, but for ROUNDS (30)
 * at the most. Then the writer stops, and the last round is sent, with -k too from the guest's own
 * memory.
 *
 * With -p one thread reads all connections, by `poll`, and feeds what it reads to a load that
 * copies the pages. With -x a connection is lost in the middle of a round, at the sender's end (s)
 * or the loader's (l): s0 and l0 are the main stream's, s1 and l1 channel 0's, and so on. Then both
 * ends give up, and the guest runs on.
 *
 * The loader's blocks are fresh, so a page that comes as zeros isn't touched unless another one was
 * read there before (`zero_blocks`). A load is complete where it is DONE and no page is missing.
 *
 * At the end both memories are compared: it prints `0 pages differ`, with status 0; 1 where pages
 * differ; 2 where a connection was lost, and the fault with which the load ended; 3 where it can't
 * go on. -t writes to standard error what each round was. It then sends the stopped guest once
 * more, without zero pages, and does so plainly: as many threads `write` their part of each block,
 * and others `read` it into place. It writes both times.
 */
#define _GNU_SOURCE
#include "zimgasol.h"
#include <poll.h>
#include <pthread.h>
#include <signal.h>
#include <stdatomic.h>
#include <stdio.h>
#include <stdlib.h>
#include <string.h>
#include <sys/mman.h>
#include <sys/socket.h>
#include <sys/syscall.h>
#include <sys/uio.h>
#include <time.h>
#include <unistd.h>

enum { PAGE = 4096, BLOCKS = 2, WORDS = PAGE / 8, PIECE = 1 << 16, MOST = 16 };

/* The most pages of a packet, and the length of its head. */
enum { PACKET = 128, HEAD = ZIMGASOL_HEAD_LEN(PAGE) };

/* The ends of a connection. */
enum { SENDER, LOADER, NEITHER };

/* A block: the guest's words, the block that is loaded, and two bitmaps of as many words, the log
 * of the pages that were written, and the pages of the next round. */
static struct ram {
    _Atomic uint64_t *guest;
    uint8_t *loaded;
    _Atomic uint64_t *log;
    uint64_t *round;
    uint64_t pages, words;
} rams[BLOCKS];

static zimgasol_block blocks[BLOCKS] = {{.id = "pc.ram"}, {.id = "vga.vram", .pages = 256}};
static const uint8_t uuid[16] = {7, 1};
static size_t channels = 4, limit = 128, rounds = 30;
static double downtime = 1; /* milliseconds */
static int sockets[1 + MOST][2], loses = NEITHER;
static size_t lost_source = ZIMGASOL_CHANNEL(0);
static bool copies, polls, shows;
static _Atomic bool is_running, is_lost;
static _Atomic unsigned throttle; /* percent */

static void *taken(void *at, const char *what) {
    if (at != NULL) return at;
    perror(what);
    _Exit(3); /* other threads may run */
}

static void check(zimgasol_status status, const char *call) {
    if (status == ZIMGASOL_DONE) return;
    fprintf(stderr, "%s: %s\n", call, zimgasol_status_text(status));
    _Exit(3);
}

static void start(pthread_t *thread, void *(*run)(void *), void *arg) {
    if (pthread_create(thread, NULL, run, arg) != 0) taken(NULL, "thread");
}

static double now(void) {
    struct timespec at;
    clock_gettime(CLOCK_MONOTONIC, &at);
    return at.tv_sec * 1e3 + at.tv_nsec / 1e6;
}

/* Shuts down all connections of an end, so that none of its threads goes on waiting for one. They
 * are closed once all threads have ended. */
static void shut_down(int end) {
    for (size_t s = 0; s <= channels; s++) shutdown(sockets[s][end], SHUT_RDWR);
}

/* Loses the connection that -x names, where it is used for the second time. */
static void may_lose(int end, size_t source) {
    static size_t uses;
    if (loses == end && source == lost_source && ++uses == 2)
        shutdown(sockets[source][end], SHUT_RDWR);
}

/* ---- the guest */

/* Writes some words of a page, and then marks it in the log. Whoever takes the mark sees them. */
static void write_words(struct ram *r, uint64_t page, size_t from, size_t to, uint64_t value) {
    for (size_t w = from; w < to; w++)
        atomic_store_explicit(&r->guest[page * WORDS + w], value, memory_order_relaxed);
    atomic_fetch_or(&r->log[page / 64], (uint64_t)1 << page % 64);
}

static void sleep_for(double milliseconds) {
    long nanos = milliseconds < 100 ? (long)(milliseconds * 1e6) : 100000000;
    nanosleep(&(struct timespec){.tv_nsec = nanos}, NULL);
}

/* Writes all the time but for what the throttle takes, in sleeps of a millisecond and more.
 * Sometimes a page becomes zeros. */
static void *run_guest(void *arg) {
    uint64_t seed = 1;
    double owed = 0;
    while (atomic_load(&is_running)) {
        double began = now(), percent = atomic_load(&throttle);
        for (int i = 0; i < 100; i++) {
            seed = seed * 6364136223846793005u + 1442695040888963407u;
            struct ram *r = &rams[seed >> 63];
            uint64_t page = (seed >> 20) % r->pages, word = (seed >> 11) % WORDS;
            if (i == 0) write_words(r, page, 0, WORDS, 0);
            else write_words(r, page, word, word + 1, seed);
        }
        owed += (now() - began) * percent / (100 - percent);
        if (owed < 1) continue;
        sleep_for(owed);
        owed = 0;
    }
    return arg;
}

static void slow_down(void) {
    unsigned percent = atomic_load(&throttle);
    percent = percent == 0 ? 20 : percent + 10;
    atomic_store(&throttle, percent < 99 ? percent : 99);
}

/* Takes the log into the next round, as KVM_GET_DIRTY_LOG does, and leaves it empty. Returns how
 * many pages the round has. */
static uint64_t take_log(void) {
    uint64_t pages = 0;
    for (struct ram *r = rams; r < rams + BLOCKS; r++)
        for (uint64_t w = 0; w < r->words; w++) {
            r->round[w] |= atomic_exchange(&r->log[w], 0);
            pages += (uint64_t)__builtin_popcountll(r->round[w]);
        }
    return pages;
}

/* ---- the sender: a thread for each channel */

/* A connection of the sender is lost: its threads end, and send nothing more. */
static void lose(void) {
    atomic_store(&is_lost, true);
    shut_down(SENDER);
}

static void send_all(int to, const uint8_t *bytes, size_t len) {
    while (len > 0) {
        ssize_t sent = write(to, bytes, len);
        if (sent < 0) {
            lose();
            return;
        }
        bytes += sent;
        len -= (size_t)sent;
    }
}

/* Has the kernel read the guest's memory while the guest may write it. What it reads may be torn:
 * a page that is written from here on is in the log, and is sent again. It is the one read of the
 * guest that isn't atomic. ThreadSanitizer takes a `writev` for plain reads of its buffers; it
 * doesn't know `syscall`, so it leaves out this read and no other. */
static ssize_t write_while_written(int to, const struct iovec *parts, int count) {
    return syscall(SYS_writev, to, parts, count);
}

/* Sends all of some buffers, of which it changes the list. */
static void send_parts(int to, struct iovec *parts, int count) {
    while (count > 0) {
        ssize_t sent = write_while_written(to, parts, count);
        if (sent < 0) {
            lose();
            return;
        }
        for (; count > 0 && (size_t)sent >= parts->iov_len; parts++, count--)
            sent -= (ssize_t)parts->iov_len;
        if (count == 0) return;
        parts->iov_base = (uint8_t *)parts->iov_base + sent;
        parts->iov_len -= (size_t)sent;
    }
}

static bool is_zero(const struct ram *r, uint64_t page) {
    for (size_t w = 0; w < WORDS; w++)
        if (atomic_load_explicit(&r->guest[page * WORDS + w], memory_order_relaxed)) return false;
    return true;
}

/* Lists a packet's head, and its pages that aren't zeros, one after another where they adjoin. */
static int list_parts(const zimgasol_batch *batch, const uint8_t *zeros, struct iovec *parts) {
    int count = 1;
    for (size_t i = 0; i < batch->count; i++) {
        uint8_t *page = (uint8_t *)rams[batch->block].guest + batch->pages[i] * PAGE;
        struct iovec *last = &parts[count - 1];
        if (zeros[i]) continue;
        if ((uint8_t *)last->iov_base + last->iov_len == page) last->iov_len += PAGE;
        else parts[count++] = (struct iovec){page, PAGE};
    }
    return count;
}

/* Sends the next packet of a guest that may run on, without a copy. The log was taken before its
 * pages are read: one that is written from then on is marked again, and comes in the next round,
 * too. */
static zimgasol_status send_packet(zimgasol_worker *worker, int to) {
    struct iovec parts[1 + PACKET];
    uint8_t zeros[PACKET], head[HEAD];
    zimgasol_batch batch;
    size_t len;
    zimgasol_status status = zimgasol_worker_next(worker, &batch);
    if (status != ZIMGASOL_RUNNING) return status;
    for (size_t i = 0; i < batch.count; i++) zeros[i] = is_zero(&rams[batch.block], batch.pages[i]);
    status = zimgasol_worker_head(worker, zeros, batch.count, head, sizeof head, &len);
    if (status != ZIMGASOL_RUNNING) return status;
    parts[0] = (struct iovec){head, len};
    send_parts(to, parts, list_parts(&batch, zeros, parts));
    return status;
}

/* Packs the next packet: of a guest that runs on from a copy of its pages, and of one that is
 * stopped from its own memory, without a copy. */
static zimgasol_status pack_packet(zimgasol_worker *worker, uint64_t *copy) {
    zimgasol_lent contents[PACKET];
    zimgasol_batch batch;
    zimgasol_status status = zimgasol_worker_next(worker, &batch);
    if (status != ZIMGASOL_RUNNING) return status;
    for (size_t i = 0; i < batch.count; i++) {
        _Atomic uint64_t *page = rams[batch.block].guest + batch.pages[i] * WORDS;
        contents[i] = (zimgasol_lent){(uint8_t *)page, PAGE};
        if (copy == NULL) continue;
        contents[i].bytes = (uint8_t *)(copy + i * WORDS);
        for (size_t w = 0; w < WORDS; w++)
            copy[i * WORDS + w] = atomic_load_explicit(&page[w], memory_order_relaxed);
    }
    return zimgasol_worker_pack(worker, contents, batch.count);
}

static void drain_worker(zimgasol_worker *worker, int to) {
    uint8_t out[PIECE];
    size_t len;
    while ((len = zimgasol_worker_drain(worker, out, sizeof out)) > 0) send_all(to, out, len);
}

/* A channel's worker, with its thread and its source. */
struct part {
    zimgasol_worker worker;
    pthread_t thread;
    size_t source;
};

/* One channel's part of a round, on a thread of its own. */
static void *work(void *arg) {
    struct part *part = arg;
    zimgasol_worker *worker = &part->worker;
    uint64_t *copy = taken(malloc(limit * PAGE), "malloc");
    size_t source = part->source;
    int to = sockets[source][SENDER];
    bool stopped = !atomic_load(&is_running);
    zimgasol_status status;
    drain_worker(worker, to); /* the hello, of which no head is given before it is drained */
    do {
        may_lose(SENDER, source);
        if (!copies) status = send_packet(worker, to);
        else status = pack_packet(worker, stopped ? NULL : copy);
        if (status != ZIMGASOL_RUNNING) check(status, "worker");
        if (copies || status == ZIMGASOL_DONE) drain_worker(worker, to);
    } while (status == ZIMGASOL_RUNNING && !atomic_load(&is_lost));
    free(copy);
    return NULL;
}

static void drain_main(zimgasol_send *sender) {
    uint8_t out[4096];
    size_t len;
    may_lose(SENDER, ZIMGASOL_MAIN);
    while ((len = zimgasol_send_drain(sender, ZIMGASOL_MAIN, out, sizeof out)) > 0)
        send_all(sockets[ZIMGASOL_MAIN][SENDER], out, len);
}

static void begin_round(zimgasol_send *sender) {
    zimgasol_bitmap bitmaps[BLOCKS];
    for (size_t b = 0; b < BLOCKS; b++)
        bitmaps[b] = (zimgasol_bitmap){rams[b].round, rams[b].words};
    check(zimgasol_send_begin_round_bitmaps(sender, bitmaps, BLOCKS), "begin_round");
    for (size_t b = 0; b < BLOCKS; b++) memset(rams[b].round, 0, rams[b].words * 8);
}

/* Sends the next round. Returns false where a connection is lost: then the streams are given up. */
static bool send_round(zimgasol_send *sender) {
    struct part parts[MOST] = {0};
    begin_round(sender);
    for (size_t j = 0; j < channels; j++) {
        parts[j].source = ZIMGASOL_CHANNEL(j);
        check(zimgasol_send_worker(sender, &parts[j].worker), "worker");
        start(&parts[j].thread, work, &parts[j]);
    }
    for (size_t j = 0; j < channels; j++) pthread_join(parts[j].thread, NULL);
    if (atomic_load(&is_lost)) {
        check(zimgasol_send_cancel_round(sender, true), "cancel_round");
        for (size_t j = 0; j < channels; j++) zimgasol_worker_free(&parts[j].worker);
        return false;
    }
    for (size_t j = 0; j < channels; j++)
        check(zimgasol_send_give_back(sender, &parts[j].worker), "give_back");
    check(zimgasol_send_end_round(sender), "end_round");
    drain_main(sender);
    return !atomic_load(&is_lost);
}

/* Sends rounds of a guest that runs on, until the next one fits the downtime. */
static bool send_running(zimgasol_send *sender) {
    uint64_t dirty = take_log();
    for (size_t round = 1; round <= rounds; round++) {
        uint64_t sent = dirty;
        double began = now();
        if (!send_round(sender)) return false;
        double took = now() - began;
        dirty = take_log();
        if (shows)
            fprintf(stderr, "round %zu: %llu pages in %.1f ms, throttle %u; %llu dirty\n", round,
                (unsigned long long)sent, took, atomic_load(&throttle), (unsigned long long)dirty);
        if (dirty * took <= downtime * sent) break;
        if (2 * dirty > sent) slow_down();
    }
    return true;
}

/* Stops the guest, and sends what is left of it. */
static bool send_stopped(zimgasol_send *sender, pthread_t *guest) {
    double began = now();
    atomic_store(&is_running, false);
    if (guest != NULL) pthread_join(*guest, NULL);
    uint64_t sent = take_log();
    if (!send_round(sender)) return false;
    check(zimgasol_send_finish(sender, false), "finish");
    drain_main(sender);
    if (shows && guest != NULL)
        fprintf(stderr, "stopped: %llu pages, %.1f ms\n", (unsigned long long)sent, now() - began);
    for (size_t s = 0; s <= channels; s++) shutdown(sockets[s][SENDER], SHUT_WR);
    return !atomic_load(&is_lost);
}

/* ---- the loader: a thread for each connection, and one lock */

/* Whether all of the guest is loaded, and else why not. */
static bool is_loaded;
static char why[200];

/* The load, with the lock around its calls. */
static struct loader {
    zimgasol_load load;
    pthread_mutex_t held;
    pthread_cond_t turned;
    zimgasol_buffer into[BLOCKS];
    size_t hellos; /* channels whose hello was fed */
    bool given_up;
} loader = {.held = PTHREAD_MUTEX_INITIALIZER, .turned = PTHREAD_COND_INITIALIZER};

/* Whether more is taken. The caller holds the lock. */
static bool goes_on(void) {
    zimgasol_fault fault;
    return !loader.given_up && zimgasol_load_verdict(&loader.load, &fault) == ZIMGASOL_RUNNING;
}

/* Gives the load up if a source has a fault: the verdict would wait for the other sources, and
 * their sender for this one, of which nothing is taken any more. The caller holds the lock. */
static void give_up_on(zimgasol_status status, const zimgasol_fault *fault) {
    if (loader.given_up || status == ZIMGASOL_DONE) return;
    loader.given_up = true;
    zimgasol_fault_text(fault, why, sizeof why);
}

/* Fills some buffers from a connection, and changes their list. Returns how many bytes there were:
 * fewer where the connection ends. */
static size_t read_parts(size_t source, struct iovec *parts, int count) {
    size_t all = 0;
    while (count > 0) {
        ssize_t len = readv(sockets[source][LOADER], parts, count);
        if (len <= 0) break;
        all += (size_t)len;
        for (; count > 0 && (size_t)len >= parts->iov_len; parts++, count--)
            len -= (ssize_t)parts->iov_len;
        if (count == 0) break;
        parts->iov_base = (uint8_t *)parts->iov_base + len;
        parts->iov_len -= (size_t)len;
    }
    return all;
}

static size_t read_bytes(size_t source, void *bytes, size_t len) {
    struct iovec part = {bytes, len};
    return read_parts(source, &part, 1);
}

static zimgasol_standing standing(zimgasol_load *load) {
    zimgasol_standing now;
    zimgasol_load_standing(load, &now);
    return now;
}

/* Feeds all of some bytes, each as soon as it may be fed. Returns whether all were taken. */
static bool feed(size_t source, const uint8_t *bytes, size_t len) {
    zimgasol_fault fault;
    pthread_mutex_lock(&loader.held);
    while (len > 0 && goes_on()) {
        zimgasol_fed fed;
        zimgasol_status status = ZIMGASOL_OUT_OF_TURN; /* so it is, too, where pages are claimed */
        if (zimgasol_load_takes(&loader.load, source))
            status =
                zimgasol_load_feed(&loader.load, loader.into, BLOCKS, source, bytes, len, &fed);
        if (status == ZIMGASOL_OUT_OF_TURN) {
            pthread_cond_wait(&loader.turned, &loader.held);
            continue;
        }
        check(status, "feed");
        bytes += fed.taken;
        len -= fed.taken;
        give_up_on(zimgasol_load_fault_of(&loader.load, source, &fault), &fault);
        pthread_cond_broadcast(&loader.turned);
    }
    pthread_mutex_unlock(&loader.held);
    return len == 0;
}

/* Ends a source. If its connection was lost, it has a fault of its own, or the pages of its packet
 * stay claimed. */
static void end_source(size_t source, bool is_claimed) {
    zimgasol_fault fault;
    pthread_mutex_lock(&loader.held);
    check(zimgasol_load_end(&loader.load, source), "end");
    zimgasol_status status = zimgasol_load_fault_of(&loader.load, source, &fault);
    if (is_claimed) {
        status = fault.number = ZIMGASOL_CHANNEL_TRUNCATED;
        fault.source = source;
        fault.round = standing(&loader.load).rounds;
    }
    give_up_on(status, &fault);
    pthread_cond_broadcast(&loader.turned);
    pthread_mutex_unlock(&loader.held);
}

/* Feeds the hello of a channel. Until all channels have theirs no thread claims pages: bytes are
 * fed only where nothing is claimed, so this channel's would wait. */
static bool feed_hello(size_t source) {
    uint8_t hello[ZIMGASOL_HELLO_LEN];
    size_t len = read_bytes(source, hello, sizeof hello);
    if (!feed(source, hello, len)) return false;
    pthread_mutex_lock(&loader.held);
    loader.hellos += len == sizeof hello;
    pthread_cond_broadcast(&loader.turned);
    pthread_mutex_unlock(&loader.held);
    return true;
}

/* Claims the pages of the next packet, once bytes of its channel are taken and no other packet has
 * one of them. */
static zimgasol_status claim(size_t source, const uint8_t *head, zimgasol_pages *pages) {
    zimgasol_status status = ZIMGASOL_IS_CLAIMED;
    pthread_mutex_lock(&loader.held);
    while (goes_on() && (loader.hellos < channels || !zimgasol_load_takes(&loader.load, source)))
        pthread_cond_wait(&loader.turned, &loader.held);
    while (goes_on()) {
        status = zimgasol_load_claim(&loader.load, source - 1, head, HEAD, pages);
        if (status != ZIMGASOL_IS_CLAIMED) break;
        pthread_cond_wait(&loader.turned, &loader.held);
    }
    pthread_mutex_unlock(&loader.held);
    return status;
}

/* Reads claimed pages to their places, and clears those of zeros. Returns false where the
 * connection ends before. */
static bool read_pages(size_t source, const zimgasol_pages *pages, zimgasol_lent *contents) {
    uint8_t *block = loader.into[pages->block].bytes;
    struct iovec parts[PACKET];
    for (size_t i = 0; i < pages->normal; i++) {
        parts[i] = (struct iovec){block + pages->pages[i] * PAGE, PAGE};
        contents[i] = (zimgasol_lent){parts[i].iov_base, PAGE};
    }
    for (size_t i = pages->normal; i < pages->normal + pages->zero; i++)
        memset(block + pages->pages[i] * PAGE, 0, PAGE);
    return read_parts(source, parts, (int)pages->normal) == pages->normal * PAGE;
}

/* Loads a packet whose pages are claimed. Returns false where the connection ends in it. */
static bool take(size_t source, const uint8_t *head, const zimgasol_pages *pages) {
    zimgasol_lent contents[PACKET];
    if (!read_pages(source, pages, contents)) return false;
    pthread_mutex_lock(&loader.held);
    zimgasol_status status =
        zimgasol_load_take(&loader.load, source - 1, head, HEAD, contents, pages->normal);
    if (status != ZIMGASOL_RUNNING) check(status, "take");
    pthread_cond_broadcast(&loader.turned);
    pthread_mutex_unlock(&loader.held);
    return true;
}

/* How many bytes follow a head that is fed. */
static size_t contents_len(const uint8_t *head) {
    size_t len = 0;
    for (size_t i = 20; i < 24; i++) len = 256 * len + head[i];
    return head[16] | head[17] | head[18] | head[19] ? len : 0;
}

/* Feeds a packet that isn't taken apart: a SYNC packet, or one with a fault. */
static bool feed_packet(size_t source, const uint8_t *head) {
    uint8_t bytes[PAGE];
    size_t left = contents_len(head), len = 1;
    if (!feed(source, head, HEAD)) return false;
    for (; left > 0 && len > 0; left -= len) {
        len = read_bytes(source, bytes, left < PAGE ? left : PAGE);
        if (!feed(source, bytes, len)) return false;
    }
    return true;
}

/* Loads a channel until its connection ends, or the load takes nothing any more. */
static void load_packets(size_t source) {
    uint8_t head[HEAD];
    zimgasol_pages pages;
    size_t len;
    if (!feed_hello(source)) return;
    while ((len = read_bytes(source, head, HEAD)) == HEAD) {
        zimgasol_status status = claim(source, head, &pages);
        may_lose(LOADER, source);
        if (status == ZIMGASOL_RUNNING) {
            if (take(source, head, &pages)) continue;
            end_source(source, true);
            return;
        }
        if (status != ZIMGASOL_TO_FEED || !feed_packet(source, head)) return;
    }
    if (feed(source, head, len)) end_source(source, false);
}

/* After a fault, or where the load is given up, the sender's next write fails. */
static void *load_channel(void *arg) {
    size_t source = (size_t)arg;
    load_packets(source);
    shutdown(sockets[source][LOADER], SHUT_RDWR);
    return NULL;
}

static void *load_main(void *arg) {
    uint8_t piece[PAGE];
    size_t source = ZIMGASOL_MAIN;
    ssize_t len;
    do {
        may_lose(LOADER, source);
        len = read(sockets[source][LOADER], piece, PAGE);
        if (len <= 0) end_source(source, false);
    } while (len > 0 && feed(source, piece, (size_t)len));
    shutdown(sockets[source][LOADER], SHUT_RDWR);
    return arg;
}

/* Loads the guest by a thread for each connection. */
static void *load_apart(void *table) {
    pthread_t threads[1 + MOST];
    zimgasol_settings settings = {.zero_blocks = 1};
    zimgasol_fault fault;
    for (size_t b = 0; b < BLOCKS; b++)
        loader.into[b] = (zimgasol_buffer){rams[b].loaded, rams[b].pages * PAGE};
    check(zimgasol_load_new(&loader.load, table, uuid, 16, channels, &settings), "load_new");
    loader.hellos = 0;
    for (size_t s = 0; s <= channels; s++)
        start(&threads[s], s == ZIMGASOL_MAIN ? load_main : load_channel, (void *)s);
    for (size_t s = 0; s <= channels; s++) pthread_join(threads[s], NULL);
    is_loaded = zimgasol_load_verdict(&loader.load, &fault) == ZIMGASOL_DONE &&
        standing(&loader.load).missing == 0;
    if (!loader.given_up) zimgasol_fault_text(&fault, why, sizeof why);
    zimgasol_load_free(&loader.load);
    return NULL;
}

/* ---- the loader: one thread */

/* The load, and of each source the bytes that were read and weren't taken yet. A source that has
 * ended isn't open. */
static struct turns {
    zimgasol_load load;
    zimgasol_buffer into[BLOCKS];
    uint8_t kept[1 + MOST][PIECE];
    size_t from[1 + MOST], to[1 + MOST];
    bool is_open[1 + MOST], given_up;
} turns;

/* Gives the load up if a source has a fault, as above. */
static void test_source(struct turns *t, size_t s) {
    zimgasol_fault fault;
    zimgasol_status status = zimgasol_load_fault_of(&t->load, s, &fault);
    if (t->given_up || status == ZIMGASOL_DONE) return;
    t->given_up = true;
    zimgasol_fault_text(&fault, why, sizeof why);
}

/* Feeds what is taken now. Returns whether any was. */
static bool feed_kept(struct turns *t) {
    bool moved = false;
    for (size_t s = 0; s <= channels; s++) {
        zimgasol_fed fed;
        if (t->from[s] == t->to[s] || !zimgasol_load_takes(&t->load, s)) continue;
        check(zimgasol_load_feed(&t->load, t->into, BLOCKS, s, t->kept[s] + t->from[s],
                  t->to[s] - t->from[s], &fed),
            "feed");
        t->from[s] += fed.taken;
        moved = moved || fed.taken > 0;
        test_source(t, s);
    }
    return moved;
}

/* Reads a source. One whose connection was lost ends with a fault of its own. */
static void read_source(struct turns *t, size_t s) {
    may_lose(LOADER, s);
    ssize_t len = read(sockets[s][LOADER], t->kept[s], PIECE);
    t->from[s] = 0;
    t->to[s] = len > 0 ? (size_t)len : 0;
    if (len > 0) return;
    check(zimgasol_load_end(&t->load, s), "end");
    t->is_open[s] = false;
    test_source(t, s);
}

/* Waits for bytes of sources of which nothing is kept, and reads them. Returns false where there
 * is no such source. */
static bool read_some(struct turns *t) {
    struct pollfd polled[1 + MOST] = {{0}};
    bool waits = false;
    for (size_t s = 0; s <= channels; s++) {
        bool reads = t->is_open[s] && t->from[s] == t->to[s];
        polled[s] = (struct pollfd){reads ? sockets[s][LOADER] : -1, POLLIN, 0};
        waits = waits || reads;
    }
    if (waits && poll(polled, 1 + channels, -1) < 0) taken(NULL, "poll");
    for (size_t s = 0; s <= channels; s++)
        if (polled[s].revents != 0) read_source(t, s);
    return waits;
}

/* Loads the guest by one thread. After a fault nothing is taken any more, and the sender's next
 * write fails. */
static void *load_by_turns(void *table) {
    struct turns *t = &turns;
    zimgasol_settings settings = {.zero_blocks = 1};
    zimgasol_fault fault;
    memset(t, 0, sizeof *t);
    for (size_t b = 0; b < BLOCKS; b++)
        t->into[b] = (zimgasol_buffer){rams[b].loaded, rams[b].pages * PAGE};
    for (size_t s = 0; s <= channels; s++) t->is_open[s] = true;
    check(zimgasol_load_new(&t->load, table, uuid, 16, channels, &settings), "load_new");
    while (zimgasol_load_verdict(&t->load, &fault) == ZIMGASOL_RUNNING && !t->given_up)
        if (!feed_kept(t) && !read_some(t)) break;
    shut_down(LOADER);
    is_loaded = zimgasol_load_verdict(&t->load, &fault) == ZIMGASOL_DONE &&
        standing(&t->load).missing == 0;
    if (!t->given_up) zimgasol_fault_text(&fault, why, sizeof why);
    zimgasol_load_free(&t->load);
    return NULL;
}

/* ---- a migration */

static void connect_all(void) {
    for (size_t s = 0; s <= channels; s++)
        if (socketpair(AF_UNIX, SOCK_STREAM, 0, sockets[s]) != 0) taken(NULL, "socketpair");
}

static void close_all(void) {
    for (size_t s = 0; s <= channels; s++)
        for (int end = SENDER; end <= LOADER; end++) close(sockets[s][end]);
}

/* Sends the guest by the library, and loads it: one that runs, or one that is stopped. Returns
 * whether all of it was sent and loaded. */
static bool migrate(bool runs) {
    zimgasol_table table = {0}, other = {0};
    zimgasol_send sender = {0};
    zimgasol_send_settings settings = {.channels = channels, .limit = limit};
    pthread_t guest, loading;
    size_t entry;
    memcpy(settings.uuid, uuid, sizeof uuid);
    connect_all();
    check(zimgasol_table_new(&table, PAGE, blocks, BLOCKS, &entry), "table_new");
    check(zimgasol_table_new(&other, PAGE, blocks, BLOCKS, &entry), "table_new");
    check(zimgasol_send_new(&sender, &table, &settings), "send_new");
    start(&loading, polls ? load_by_turns : load_apart, &other);
    atomic_store(&is_running, runs);
    if (runs) start(&guest, run_guest, NULL);
    drain_main(&sender); /* the table, before which no packet is taken */
    bool sent = (!runs || send_running(&sender)) && send_stopped(&sender, runs ? &guest : NULL);
    pthread_join(loading, NULL);
    if (runs && atomic_exchange(&is_running, false)) pthread_join(guest, NULL);
    close_all();
    zimgasol_send_free(&sender);
    zimgasol_table_free(&table);
    zimgasol_table_free(&other);
    return sent && is_loaded;
}

/* ---- the same pages without the library */

static void *write_part(void *arg) {
    size_t j = (size_t)arg;
    for (size_t b = 0; b < BLOCKS; b++) {
        uint64_t from = rams[b].pages * j / channels, to = rams[b].pages * (j + 1) / channels;
        send_all(sockets[1 + j][SENDER], (uint8_t *)rams[b].guest + from * PAGE,
            (to - from) * PAGE);
    }
    return NULL;
}

static void *read_part(void *arg) {
    size_t j = (size_t)arg;
    for (size_t b = 0; b < BLOCKS; b++) {
        uint64_t from = rams[b].pages * j / channels, to = rams[b].pages * (j + 1) / channels;
        read_bytes(1 + j, rams[b].loaded + from * PAGE, (to - from) * PAGE);
    }
    return NULL;
}

static void copy_plainly(void) {
    pthread_t writers[MOST], readers[MOST];
    connect_all();
    for (size_t j = 0; j < channels; j++) {
        start(&readers[j], read_part, (void *)j);
        start(&writers[j], write_part, (void *)j);
    }
    for (size_t j = 0; j < channels; j++) {
        pthread_join(writers[j], NULL);
        pthread_join(readers[j], NULL);
    }
    close_all();
}

/* ---- both */

static size_t count_differing(void) {
    size_t differ = 0;
    for (size_t b = 0; b < BLOCKS; b++)
        for (uint64_t at = 0; at < rams[b].pages * PAGE; at += PAGE)
            differ += memcmp((uint8_t *)rams[b].guest + at, rams[b].loaded + at, PAGE) != 0;
    return differ;
}

static void *mapped(size_t len) {
    void *at = mmap(NULL, len, PROT_READ | PROT_WRITE, MAP_PRIVATE | MAP_ANONYMOUS, -1, 0);
    return taken(at == MAP_FAILED ? NULL : at, "mmap");
}

/* Returns how many milliseconds a transfer of all pages takes, into fresh blocks. */
static double timed(bool plain) {
    for (struct ram *r = rams; r < rams + BLOCKS; r++) {
        munmap(r->loaded, r->pages * PAGE);
        r->loaded = mapped(r->pages * PAGE);
        for (uint64_t p = 0; p < r->pages; p++) write_words(r, p, 0, 1, p + 1);
    }
    double began = now();
    if (plain) copy_plainly();
    else migrate(false);
    return now() - began;
}

/* Makes a guest in which every fourth page is zeros. All of its pages are dirty. */
static void make_guest(uint64_t mib) {
    blocks[0].pages = mib * 256;
    for (size_t b = 0; b < BLOCKS; b++) {
        struct ram *r = &rams[b];
        r->pages = blocks[b].pages;
        r->words = r->pages / 64;
        r->guest = mapped(r->pages * PAGE);
        r->loaded = mapped(r->pages * PAGE);
        r->log = mapped(r->words * 8);
        r->round = mapped(r->words * 8);
        memset((void *)r->log, 0xFF, r->words * 8);
        for (uint64_t p = 0; p < r->pages; p++)
            if (p % 4 != 3) write_words(r, p, 0, WORDS, p + 1);
    }
}

static void free_guest(void) {
    for (struct ram *r = rams; r < rams + BLOCKS; r++) {
        munmap((void *)r->guest, r->pages * PAGE);
        munmap(r->loaded, r->pages * PAGE);
        munmap((void *)r->log, r->words * 8);
        munmap(r->round, r->words * 8);
    }
}

/* Takes the end and the source whose connection is lost. */
static bool read_lost(const char *word) {
    loses = word[0] == 's' ? SENDER : LOADER;
    lost_source = strtoul(word + 1, NULL, 10);
    return (word[0] == 's' || word[0] == 'l') && lost_source <= MOST;
}

/* Takes the words of the command line. Returns false if one of them is none. */
static bool read_words(int count, char **words, uint64_t *mib) {
    int option;
    while ((option = getopt(count, words, "m:c:b:d:r:x:kpt")) != -1) {
        unsigned long number = optarg != NULL ? strtoul(optarg, NULL, 10) : 0;
        if (option == 'm' && number >= 1) *mib = number;
        else if (option == 'c' && number >= 1 && number <= MOST) channels = number;
        else if (option == 'b' && number >= 1) limit = number;
        else if (option == 'd') downtime = number / 1e3;
        else if (option == 'r') rounds = number;
        else if (option == 'x' && read_lost(optarg)) continue;
        else if (option == 'k') copies = true;
        else if (option == 'p') polls = true;
        else if (option == 't') shows = true;
        else return false;
    }
    return true;
}

int main(int count, char **words) {
    uint64_t mib = 16;
    if (!read_words(count, words, &mib)) return 3;
    signal(SIGPIPE, SIG_IGN); /* a write to a lost connection fails */
    make_guest(mib);
    if (!migrate(true)) {
        printf("not loaded: %s\n", why);
        free_guest();
        return 2;
    }
    size_t differ = count_differing();
    if (shows) {
        double plain = timed(true), library = timed(false);
        fprintf(stderr, "stopped: plain %.1f ms, library %.1f ms, %.2f times\n", plain, library,
            library / plain);
        differ += count_differing();
    }
    free_guest();
    printf("%zu pages differ\n", differ);
    return differ != 0;
}
