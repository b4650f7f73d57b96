/* Writes all pages of a guest in one round to sockets, on one channel, on two and on four, with a
 * thread for each that writes and one that reads: by heads of packets and pages from where they
 * lie, by copies of the pages, and plainly, as many bytes without a test of the pages. */
#define _GNU_SOURCE
#include "sockets.h"
#include <errno.h>
#include <stdio.h>
#include <stdlib.h>
#include <string.h>
#include <sys/socket.h>
#include <time.h>
#include <unistd.h>

/* How many bytes are read at once. */
enum { READ = 1 << 18 };

static uint64_t clock_now(clockid_t clock) {
    struct timespec at;
    if (clock_gettime(clock, &at) != 0) give_up("the clock can't be read");
    return (uint64_t)at.tv_sec * 1000000000 + (uint64_t)at.tv_nsec;
}

uint64_t processor_now(void) {
    return clock_now(CLOCK_THREAD_CPUTIME_ID);
}

uint64_t program_now(void) {
    return clock_now(CLOCK_PROCESS_CPUTIME_ID);
}

/* ---- the writer */

void write_parts(int to, struct iovec *parts, int count) {
    while (count > 0) {
        ssize_t len = writev(to, parts, count);
        if (len < 0 && errno == EINTR) continue;
        if (len < 0) give_up("a socket can't be written");
        for (; count > 0 && (size_t)len >= parts->iov_len; parts++, count--)
            len -= (ssize_t)parts->iov_len;
        if (count == 0) return;
        parts->iov_base = (uint8_t *)parts->iov_base + len;
        parts->iov_len -= (size_t)len;
    }
}

static void write_bytes(int to, void *bytes, size_t len) {
    struct iovec part = {bytes, len};
    write_parts(to, &part, 1);
}

int with_page(struct iovec *parts, int count, uint8_t *page) {
    struct iovec *last = &parts[count - 1];
    if ((uint8_t *)last->iov_base + last->iov_len == page) {
        last->iov_len += PAGE;
        return count;
    }
    parts[count] = (struct iovec){page, PAGE};
    return count + 1;
}

bool is_zero(const uint8_t *page) {
    static const uint8_t zeros[PAGE];
    return memcmp(page, zeros, PAGE) == 0;
}

/* Writes packets of as many bytes, without a test of the pages. */
static void write_plain(channel *c) {
    const guest *g = c->of->guest;
    struct iovec parts[1 + PACKET];
    uint8_t head[HEAD] = {0};
    uint64_t first;
    while ((first = atomic_fetch_add(&c->of->next, PACKET)) < g->pages) {
        uint64_t end = g->pages - first < PACKET ? g->pages : first + PACKET;
        int count = 1;
        memcpy(head, &first, sizeof first);
        parts[0] = (struct iovec){head, HEAD};
        for (uint64_t page = first; page < end; page++)
            if (page % 10 >= c->of->zero_tenths)
                count = with_page(parts, count, g->bytes + page * PAGE);
        write_parts(c->ends[0], parts, count);
    }
}

int list_tested(const guest *of, uint64_t first, uint64_t end, plain_head *head,
    struct iovec *parts) {
    uint64_t zeros[PACKET];
    int count = 1;
    parts[0] = (struct iovec){head, sizeof *head};
    head->normal = head->zero = 0;
    for (uint64_t page = first; page < end; page++) {
        uint8_t *bytes = of->bytes + page * PAGE;
        if (is_zero(bytes)) {
            zeros[head->zero++] = page;
            continue;
        }
        head->pages[head->normal++] = page;
        count = with_page(parts, count, bytes);
    }
    memcpy(head->pages + head->normal, zeros, head->zero * sizeof *zeros);
    return count;
}

/* Writes packets of as many bytes, of pages that are tested. */
static void write_tested(channel *c) {
    const guest *g = c->of->guest;
    struct iovec parts[1 + PACKET];
    plain_head head = {0};
    uint64_t first;
    while ((first = atomic_fetch_add(&c->of->next, PACKET)) < g->pages) {
        uint64_t end = g->pages - first < PACKET ? g->pages : first + PACKET;
        write_parts(c->ends[0], parts, list_tested(g, first, end, &head, parts));
    }
}

static void drain(channel *c, uint8_t *room) {
    size_t len;
    while ((len = zimgasol_worker_drain(&c->worker, room, ROOM)) > 0)
        write_bytes(c->ends[0], room, len);
}

/* Writes the next packet by its head and its pages from where they lie. */
static zimgasol_status write_head(channel *c, const zimgasol_batch *batch) {
    const guest *g = c->of->guest;
    struct iovec parts[1 + PACKET];
    uint8_t zeros[PACKET], head[HEAD];
    size_t len;
    int count = 1;
    for (size_t i = 0; i < batch->count; i++) zeros[i] = is_zero(g->bytes + batch->pages[i] * PAGE);
    zimgasol_status status =
        zimgasol_worker_head(&c->worker, zeros, batch->count, head, HEAD, &len);
    if (status != ZIMGASOL_RUNNING) return status;
    parts[0] = (struct iovec){head, len};
    for (size_t i = 0; i < batch->count; i++)
        if (!zeros[i]) count = with_page(parts, count, g->bytes + batch->pages[i] * PAGE);
    write_parts(c->ends[0], parts, count);
    return status;
}

/* Writes the next packet by a copy of its pages. */
static zimgasol_status write_copy(channel *c, const zimgasol_batch *batch, uint8_t *copy) {
    zimgasol_lent contents[PACKET];
    for (size_t i = 0; i < batch->count; i++) {
        contents[i] = (zimgasol_lent){copy + i * PAGE, PAGE};
        memcpy(copy + i * PAGE, c->of->guest->bytes + batch->pages[i] * PAGE, PAGE);
    }
    zimgasol_status status = zimgasol_worker_pack(&c->worker, contents, batch->count);
    if (status == ZIMGASOL_RUNNING) drain(c, copy);
    return status;
}

bool write_packet(channel *c, uint8_t *room) {
    zimgasol_batch batch;
    drain(c, room); /* the hello, at first */
    zimgasol_status status = zimgasol_worker_next(&c->worker, &batch);
    if (status == ZIMGASOL_RUNNING)
        status = c->of->by == HEADS ? write_head(c, &batch) : write_copy(c, &batch, room);
    if (status == ZIMGASOL_RUNNING) return true;
    check(status, "worker");
    drain(c, room);
    return false;
}

static void write_packets(channel *c) {
    uint8_t *room = taken(malloc(ROOM), "a packet");
    while (write_packet(c, room)) continue;
    free(room);
}

static void *write_channel(void *of) {
    channel *c = of;
    uint64_t began = processor_now();
    if (c->of->by == PLAIN) write_plain(c);
    else if (c->of->by == TESTED) write_tested(c);
    else write_packets(c);
    close(c->ends[0]);
    c->writing = processor_now() - began;
    return NULL;
}

/* ---- the reader, who drops what he reads */

static void *read_channel(void *of) {
    channel *c = of;
    uint64_t began = processor_now();
    uint8_t *piece = taken(malloc(READ), "what is read");
    ssize_t len;
    while ((len = read(c->ends[1], piece, READ)) != 0) {
        if (len < 0 && errno != EINTR) give_up("a socket can't be read");
        if (len > 0) c->bytes += (uint64_t)len;
    }
    close(c->ends[1]);
    free(piece);
    c->reading = processor_now() - began;
    return NULL;
}

/* ---- a round */

void start_channel(channel *c, writing *of, size_t number, void *(*read)(void *), void *into) {
    c->of = of;
    c->number = number;
    c->into = into;
    if (of->by >= HEADS) check(zimgasol_send_worker(&of->multi, &c->worker), "send_worker");
    if (socketpair(AF_UNIX, SOCK_STREAM, 0, c->ends) != 0) give_up("no sockets");
    if (pthread_create(&c->reader, NULL, read, c) != 0 ||
        pthread_create(&c->writer, NULL, write_channel, c) != 0)
        give_up("a thread can't be started");
}

void end_channel(channel *c, cost *all) {
    if (pthread_join(c->writer, NULL) != 0 || pthread_join(c->reader, NULL) != 0)
        give_up("a thread can't be joined");
    if (c->of->by >= HEADS) check(zimgasol_send_give_back(&c->of->multi, &c->worker), "give_back");
    all->writing += c->writing;
    all->reading += c->reading;
    all->bytes += c->bytes;
}

static cost write_round(writing *of, size_t count) {
    channel channels[MOST] = {0};
    uint8_t out[100];
    cost all = {0};
    uint64_t began = now();
    of->next = 0;
    if (of->by != PLAIN)
        check(zimgasol_send_begin_round_pages(&of->multi, of->guest->places, of->guest->pages),
            "begin_round");
    for (size_t j = 0; j < count; j++) start_channel(&channels[j], of, j, read_channel, NULL);
    for (size_t j = 0; j < count; j++) end_channel(&channels[j], &all);
    if (of->by != PLAIN) {
        check(zimgasol_send_end_round(&of->multi), "end_round");
        while (zimgasol_send_drain(&of->multi, ZIMGASOL_MAIN, out, sizeof out) > 0) continue;
    }
    all.nanos = now() - began;
    return all;
}

/* Returns the cost of the round that took the least time of five. */
static cost least_cost(guest *of, unsigned zero_tenths, way by, size_t count) {
    writing w = {.guest = of, .zero_tenths = zero_tenths, .by = by};
    cost least = {.nanos = UINT64_MAX};
    if (by != PLAIN) w.multi = multi_of(of, count);
    for (int i = 0; i < RUNS; i++) {
        cost one = write_round(&w, count);
        if (one.nanos < least.nanos) least = one;
    }
    zimgasol_send_free(&w.multi);
    return least;
}

static void put(const char *name, size_t count, const cost *found, const cost *plain) {
    printf("  %-12s%zu: %.2f of plain writes; processor %.2f to write, %.2f to read; "
           "%llu bytes sent\n",
        name, count, ratio(found->nanos, plain->nanos), ratio(found->writing, plain->writing),
        ratio(found->reading, plain->reading), (unsigned long long)found->bytes);
}

void run_sockets(uint64_t pages) {
    guest sent = guest_of(pages);
    printf("a round written to sockets, %llu pages of %d bytes: the least time of five runs, as a "
           "ratio to plain writes of as many bytes\n",
        (unsigned long long)pages, PAGE);
    for (size_t i = 0; i < KINDS; i++) {
        unsigned zero_tenths = kinds[i].zero_tenths;
        guest_fill(&sent, zero_tenths);
        printf("%s\n", kinds[i].name);
        for (size_t j = 0; j < COUNTS; j++) {
            size_t count = channel_counts[j];
            cost plain = least_cost(&sent, zero_tenths, PLAIN, count);
            cost heads = least_cost(&sent, zero_tenths, HEADS, count);
            cost copies = least_cost(&sent, zero_tenths, COPIES, count);
            put("by heads,", count, &heads, &plain);
            put("by copies,", count, &copies, &plain);
        }
    }
    guest_free(&sent);
}
