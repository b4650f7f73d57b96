/* Moves all pages of a guest in one round over sockets, on one channel, on two and on four, with a
 * thread for each that writes and one that reads the pages to their places: by heads of packets and
 * zimgasol_load_claim, and plainly, which does the same but for a load. Then it does so with a
 * receiver alone, whose channels are files in memory. */
#define _GNU_SOURCE
#include "sockets.h"
#include <errno.h>
#include <stddef.h>
#include <stdio.h>
#include <stdlib.h>
#include <string.h>
#include <sys/mman.h>
#include <unistd.h>

/* The memory that pages are read to, and the load, with the lock around its calls, and how many of
 * its channels are to come before packets are claimed. */
typedef struct loading {
    zimgasol_buffer block;
    zimgasol_load load;
    size_t awaited;
    pthread_mutex_t held;
    pthread_cond_t turned;
} loading;

/* ---- reading */

/* Fills all of some buffers, of which it changes the list. Returns false where the connection ends
 * before the first byte. */
static bool read_parts(channel *c, struct iovec *parts, int count) {
    bool begun = false;
    while (count > 0) {
        ssize_t len = readv(c->ends[1], parts, count);
        if (len < 0 && errno == EINTR) continue;
        if (len == 0 && !begun) return false;
        if (len <= 0) give_up("a socket can't be read");
        begun = true;
        c->bytes += (uint64_t)len;
        for (; count > 0 && (size_t)len >= parts->iov_len; parts++, count--)
            len -= (ssize_t)parts->iov_len;
        if (count == 0) break;
        parts->iov_base = (uint8_t *)parts->iov_base + len;
        parts->iov_len -= (size_t)len;
    }
    return true;
}

static bool read_bytes(channel *c, void *bytes, size_t len) {
    struct iovec part = {bytes, len};
    return read_parts(c, &part, 1);
}

/* Reads pages to their places, where neighbours are one part. */
static void read_pages(channel *c, uint8_t *block, const uint64_t *pages, size_t count) {
    struct iovec parts[PACKET];
    int used = 1;
    if (count == 0) return;
    parts[0] = (struct iovec){block + pages[0] * PAGE, PAGE};
    for (size_t i = 1; i < count; i++) used = with_page(parts, used, block + pages[i] * PAGE);
    if (!read_parts(c, parts, used)) give_up("a packet is cut");
}

/* Reads the pages of a packet to their places, and clears those of zeros. */
static void place_pages(channel *c, const uint64_t *pages, size_t normal, size_t zero) {
    uint8_t *block = ((loading *)c->into)->block.bytes;
    read_pages(c, block, pages, normal);
    for (size_t i = normal; i < normal + zero; i++) {
        uint8_t *page = block + pages[i] * PAGE;
        if (!is_zero(page)) memset(page, 0, PAGE);
    }
}

/* ---- plain packets, whose pages their head says */

static void *read_plain(void *of) {
    channel *c = of;
    uint64_t began = processor_now();
    plain_head head;
    while (read_bytes(c, &head, sizeof head)) place_pages(c, head.pages, head.normal, head.zero);
    close(c->ends[1]);
    c->reading = processor_now() - began;
    return NULL;
}

/* ---- packets that are loaded */

/* Feeds all of some bytes, each as soon as it may be fed. */
static void feed(loading *to, size_t source, const uint8_t *bytes, size_t len) {
    zimgasol_fed fed;
    pthread_mutex_lock(&to->held);
    while (len > 0) {
        zimgasol_status status = ZIMGASOL_OUT_OF_TURN; /* so it is, too, where pages are claimed */
        if (zimgasol_load_takes(&to->load, source))
            status = zimgasol_load_feed(&to->load, &to->block, 1, source, bytes, len, &fed);
        if (status == ZIMGASOL_OUT_OF_TURN) {
            pthread_cond_wait(&to->turned, &to->held);
            continue;
        }
        check(status, "feed");
        bytes += fed.taken;
        len -= fed.taken;
        pthread_cond_broadcast(&to->turned);
    }
    pthread_mutex_unlock(&to->held);
}

/* Feeds the hello of a channel. Until all channels have theirs nothing is claimed, since bytes are
 * fed only where nothing is. */
static void feed_hello(loading *to, size_t number, const uint8_t *hello) {
    feed(to, ZIMGASOL_CHANNEL(number), hello, ZIMGASOL_HELLO_LEN);
    pthread_mutex_lock(&to->held);
    to->awaited--;
    pthread_cond_broadcast(&to->turned);
    pthread_mutex_unlock(&to->held);
}

static void end(loading *to, size_t source) {
    pthread_mutex_lock(&to->held);
    check(zimgasol_load_end(&to->load, source), "end");
    pthread_cond_broadcast(&to->turned);
    pthread_mutex_unlock(&to->held);
}

static zimgasol_status claim(channel *c, const uint8_t *head, zimgasol_pages *pages) {
    loading *to = c->into;
    zimgasol_status status;
    pthread_mutex_lock(&to->held);
    while (to->awaited > 0 || !zimgasol_load_takes(&to->load, ZIMGASOL_CHANNEL(c->number)))
        pthread_cond_wait(&to->turned, &to->held);
    while ((status = zimgasol_load_claim(&to->load, c->number, head, HEAD, pages)) ==
        ZIMGASOL_IS_CLAIMED)
        pthread_cond_wait(&to->turned, &to->held);
    pthread_mutex_unlock(&to->held);
    return status;
}

/* Places claimed pages, and takes their packet. */
static void take(channel *c, const uint8_t *head, const zimgasol_pages *pages) {
    loading *to = c->into;
    zimgasol_lent contents[PACKET];
    place_pages(c, pages->pages, pages->normal, pages->zero);
    for (size_t i = 0; i < pages->normal; i++)
        contents[i] = (zimgasol_lent){to->block.bytes + pages->pages[i] * PAGE, PAGE};
    pthread_mutex_lock(&to->held);
    zimgasol_status status =
        zimgasol_load_take(&to->load, c->number, head, HEAD, contents, pages->normal);
    if (status != ZIMGASOL_RUNNING) check(status, "take");
    pthread_cond_broadcast(&to->turned);
    pthread_mutex_unlock(&to->held);
}

static void *load_channel(void *of) {
    channel *c = of;
    uint64_t began = processor_now();
    uint8_t head[HEAD];
    zimgasol_pages pages;
    if (!read_bytes(c, head, ZIMGASOL_HELLO_LEN)) give_up("a channel has no hello");
    feed_hello(c->into, c->number, head);
    while (read_bytes(c, head, HEAD)) {
        zimgasol_status status = claim(c, head, &pages);
        if (status == ZIMGASOL_RUNNING) take(c, head, &pages);
        else feed(c->into, ZIMGASOL_CHANNEL(c->number), head, HEAD); /* a SYNC packet */
    }
    end(c->into, ZIMGASOL_CHANNEL(c->number));
    close(c->ends[1]);
    c->reading = processor_now() - began;
    return NULL;
}

/* ---- a load */

static void begin_load(loading *to, guest *of, size_t count) {
    zimgasol_settings settings = {0};
    check(zimgasol_load_new(&to->load, &of->table, uuid, 16, count, &settings), "load_new");
    to->awaited = count;
}

static void end_load(loading *to) {
    zimgasol_fault fault;
    check(zimgasol_load_verdict(&to->load, &fault), "verdict");
    zimgasol_load_free(&to->load);
}

/* ---- a transfer */

static void feed_main(loading *to, zimgasol_send *multi) {
    uint8_t out[1000];
    size_t len;
    while ((len = zimgasol_send_drain(multi, ZIMGASOL_MAIN, out, sizeof out)) > 0)
        feed(to, ZIMGASOL_MAIN, out, len);
}

static void move_channels(writing *of, size_t count, loading *to, cost *all) {
    channel channels[MOST] = {0};
    for (size_t j = 0; j < count; j++)
        start_channel(&channels[j], of, j, of->by == TESTED ? read_plain : load_channel, to);
    for (size_t j = 0; j < count; j++) end_channel(&channels[j], all);
}

/* Moves the guest by a new sender and a new load. */
static void move_loaded(guest *from, size_t count, loading *to, cost *all) {
    writing w = {.guest = from, .by = HEADS, .multi = multi_of(from, count)};
    begin_load(to, from, count);
    feed_main(to, &w.multi);
    check(zimgasol_send_begin_round_pages(&w.multi, from->places, from->pages), "begin_round");
    move_channels(&w, count, to, all);
    check(zimgasol_send_end_round(&w.multi), "end_round");
    check(zimgasol_send_finish(&w.multi, false), "finish");
    feed_main(to, &w.multi);
    end(to, ZIMGASOL_MAIN);
    end_load(to);
    zimgasol_send_free(&w.multi);
}

/* Moves the guest, and returns what it took. */
static cost move(guest *from, way by, size_t count, loading *to) {
    writing w = {.guest = from, .by = by};
    cost all = {0};
    uint64_t began = now(), program = program_now();
    if (by == TESTED) move_channels(&w, count, to, &all);
    else move_loaded(from, count, to, &all);
    all.nanos = now() - began;
    all.processor = program_now() - program;
    return all;
}

/* ---- the receiver alone, of channels that are files in memory */

/* The bytes of a round: of each channel a file of plain packets, and one of packets that are
 * loaded; and the main stream. */
typedef struct round_kept {
    size_t count;
    int plain[MOST], packets[MOST];
    stream main;
} round_kept;

static int new_file(void) {
    int file = memfd_create("channel", 0);
    if (file < 0) give_up("no file in memory");
    return file;
}

static void keep_main(round_kept *to, zimgasol_send *multi) {
    size_t len;
    while ((len = zimgasol_send_drain(multi, ZIMGASOL_MAIN, room_for(&to->main, PAGE), PAGE)) > 0)
        to->main.len += len;
}

/* Keeps the packets of a sender whose channels have them by turns. */
static void keep_packets(round_kept *to, guest *from) {
    writing w = {.guest = from, .by = HEADS, .multi = multi_of(from, to->count)};
    channel channels[MOST] = {0};
    bool goes_on[MOST] = {false};
    uint8_t *room = taken(malloc(ROOM), "a packet");
    keep_main(to, &w.multi);
    check(zimgasol_send_begin_round_pages(&w.multi, from->places, from->pages), "begin_round");
    for (size_t j = 0; j < to->count; j++) {
        channels[j] = (channel){.of = &w, .number = j, .ends = {to->packets[j], -1}};
        check(zimgasol_send_worker(&w.multi, &channels[j].worker), "send_worker");
        goes_on[j] = true;
    }
    for (size_t j = 0, left = to->count; left > 0; j = (j + 1) % to->count) {
        if (!goes_on[j]) continue;
        goes_on[j] = write_packet(&channels[j], room);
        if (!goes_on[j]) left--;
    }
    for (size_t j = 0; j < to->count; j++)
        check(zimgasol_send_give_back(&w.multi, &channels[j].worker), "give_back");
    check(zimgasol_send_end_round(&w.multi), "end_round");
    check(zimgasol_send_finish(&w.multi, false), "finish");
    keep_main(to, &w.multi);
    zimgasol_send_free(&w.multi);
    free(room);
}

static void keep_plainly(round_kept *to, const guest *from) {
    struct iovec parts[1 + PACKET];
    plain_head head = {0};
    for (uint64_t first = 0; first < from->pages; first += PACKET) {
        uint64_t end = from->pages - first < PACKET ? from->pages : first + PACKET;
        int count = list_tested(from, first, end, &head, parts);
        write_parts(to->plain[first / PACKET % to->count], parts, count);
    }
}

static round_kept keep_round(guest *from, size_t count) {
    round_kept kept = {.count = count};
    for (size_t j = 0; j < count; j++) {
        kept.plain[j] = new_file();
        kept.packets[j] = new_file();
    }
    keep_plainly(&kept, from);
    keep_packets(&kept, from);
    return kept;
}

static void round_free(round_kept *of) {
    for (size_t j = 0; j < of->count; j++) {
        close(of->plain[j]);
        close(of->packets[j]);
    }
    stream_free(&of->main);
}

/* Reads the channels of a round by a thread for each. */
static void read_channels(const int *files, size_t count, void *(*read)(void *), loading *to,
    cost *all) {
    channel channels[MOST] = {0};
    for (size_t j = 0; j < count; j++) {
        channel *c = &channels[j];
        *c = (channel){.into = to, .number = j, .ends = {-1, dup(files[j])}};
        if (c->ends[1] < 0 || lseek(files[j], 0, SEEK_SET) != 0) give_up("a file can't be read");
        if (pthread_create(&c->reader, NULL, read, c) != 0) give_up("a thread can't be started");
    }
    for (size_t j = 0; j < count; j++) {
        if (pthread_join(channels[j].reader, NULL) != 0) give_up("a thread can't be joined");
        all->reading += channels[j].reading;
        all->bytes += channels[j].bytes;
    }
}

/* Receives a round, and returns what it took. The main stream is there first. */
static cost receive(const round_kept *from, guest *of, way by, loading *to) {
    cost all = {0};
    uint64_t began = now(), program = program_now();
    if (by == TESTED) {
        read_channels(from->plain, from->count, read_plain, to, &all);
    } else {
        begin_load(to, of, from->count);
        feed(to, ZIMGASOL_MAIN, from->main.bytes, from->main.len);
        end(to, ZIMGASOL_MAIN);
        read_channels(from->packets, from->count, load_channel, to, &all);
        end_load(to);
    }
    all.nanos = now() - began;
    all.processor = program_now() - program;
    return all;
}

/* ---- medians */

static int compare_numbers(const void *a, const void *b) {
    uint64_t first = *(const uint64_t *)a, second = *(const uint64_t *)b;
    return (first > second) - (first < second);
}

/* Returns the median of a number of some costs, which is `at` bytes into each of them. */
static uint64_t median(const cost *of, size_t count, size_t at) {
    uint64_t *numbers = taken(calloc(count, sizeof *numbers), "medians");
    for (size_t i = 0; i < count; i++)
        memcpy(&numbers[i], (const uint8_t *)&of[i] + at, sizeof *numbers);
    qsort(numbers, count, sizeof *numbers, compare_numbers);
    uint64_t found = numbers[count / 2];
    free(numbers);
    return found;
}

static cost medians(const cost *of, size_t count) {
    return (cost){.nanos = median(of, count, offsetof(cost, nanos)),
        .writing = median(of, count, offsetof(cost, writing)),
        .reading = median(of, count, offsetof(cost, reading)),
        .processor = median(of, count, offsetof(cost, processor)),
        .bytes = median(of, count, offsetof(cost, bytes))};
}

static void put(const char *name, size_t count, const cost *found, const cost *plain) {
    printf("  %-12s%zu: %.2f of plain (%.1f ms, %.1f ms); processor %.2f (%.3f s, %.3f s); "
           "%llu bytes\n",
        name, count, ratio(found->nanos, plain->nanos), found->nanos / 1e6, plain->nanos / 1e6,
        ratio(found->processor, plain->processor), found->processor / 1e9, plain->processor / 1e9,
        (unsigned long long)found->bytes);
}

/* ---- what is measured */

/* Gives the block other bytes than any guest has, before a run that is compared with the guest. */
static void spoil(loading *to) {
    memset(to->block.bytes, 2, to->block.len);
}

static void compare_with(const guest *of, const loading *to) {
    if (memcmp(to->block.bytes, of->bytes, of->len) != 0) give_up("a page differs");
}

/* Moves a guest plainly and by the library in turn, and prints the medians. A first run of each is
 * compared, and doesn't count. */
static void measure_moves(guest *from, size_t count, loading *to, size_t runs) {
    cost *found = taken(calloc(2 * runs, sizeof *found), "costs");
    for (way by = TESTED; by <= HEADS; by++) {
        spoil(to);
        move(from, by, count, to);
        compare_with(from, to);
    }
    for (size_t i = 0; i < runs; i++) {
        found[i] = move(from, TESTED, count, to);
        found[runs + i] = move(from, HEADS, count, to);
    }
    cost plain = medians(found, runs), loaded = medians(found + runs, runs);
    put("both ends,", count, &loaded, &plain);
    printf("               processor %.2f to write, %.2f to read\n",
        ratio(loaded.writing, plain.writing), ratio(loaded.reading, plain.reading));
    free(found);
}

/* Receives a round so. */
static void measure_receipts(guest *from, size_t count, loading *to, size_t runs) {
    cost *found = taken(calloc(2 * runs, sizeof *found), "costs");
    round_kept kept = keep_round(from, count);
    for (way by = TESTED; by <= HEADS; by++) {
        spoil(to);
        receive(&kept, from, by, to);
        compare_with(from, to);
    }
    for (size_t i = 0; i < runs; i++) {
        found[i] = receive(&kept, from, TESTED, to);
        found[runs + i] = receive(&kept, from, HEADS, to);
    }
    cost plain = medians(found, runs), loaded = medians(found + runs, runs);
    put("receiver,", count, &loaded, &plain);
    round_free(&kept);
    free(found);
}

void run_transfer(uint64_t pages, uint64_t runs) {
    guest sent = guest_of(pages);
    loading to = {.held = PTHREAD_MUTEX_INITIALIZER, .turned = PTHREAD_COND_INITIALIZER};
    to.block = (zimgasol_buffer){taken(calloc(pages, PAGE), "a block"), sent.len};
    printf("a guest moved over sockets into a block, and received alone from files in memory, %llu "
           "pages of %d bytes: the medians of %llu runs, as a ratio to those of plain transfers\n",
        (unsigned long long)pages, PAGE, (unsigned long long)runs);
    printf("a plain transfer, by as many threads, tests each page for zeros, writes the numbers of "
           "all "
           "pages and the contents of the others by writev, reads these to their places by readv, "
           "and clears pages of zeros that aren't clear; it has no load\n");
    for (size_t i = 0; i < KINDS; i++) {
        guest_fill(&sent, kinds[i].zero_tenths);
        printf("%s\n", kinds[i].name);
        for (size_t j = 0; j < COUNTS; j++) {
            measure_moves(&sent, channel_counts[j], &to, runs);
            measure_receipts(&sent, channel_counts[j], &to, runs);
        }
    }
    free(to.block.bytes);
    guest_free(&sent);
}
