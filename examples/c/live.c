/* A live migration within one process, over a socket pair: a thread goes on writing to a guest's
 * memory while its pages are sent, and another thread loads them into blocks of its own.
 *
 *   live [-m MIB] [-n PAGES] [-s] [-t]
 *
 * The guest has two blocks, `pc.ram` of MIB (16) and `vga.vram` of 1 MiB. The first round sends all
 * pages, each further one those that were written since, and the last one is sent with the writer
 * stopped. A section has at most PAGES (64) pages, and is drained before the next one begins. At
 * the end both memories are compared: it prints `0 pages differ`, with status 0; 1 where pages
 * differ, and 3 where it can't go on. With -s each page is read from the socket straight into its
 * block, and no byte beyond the stream is read. -t writes times to standard error, and those of a
 * plain transfer of the same pages (`write` from the guest, `read` into the blocks).
 */
#define _GNU_SOURCE
#include "zimgasol.h"
#include <errno.h>
#include <fcntl.h>
#include <poll.h>
#include <pthread.h>
#include <signal.h>
#include <stdatomic.h>
#include <stdio.h>
#include <stdlib.h>
#include <string.h>
#include <sys/mman.h>
#include <sys/socket.h>
#include <time.h>
#include <unistd.h>

enum { PAGE = 4096, BLOCKS = 2, WORDS = PAGE / 8, PIECE = 1 << 16, MOST_ROUNDS = 30, FEW = 64 };

/* A block of the guest: its memory as words, since the writer and the sender touch it at once, and
 * a bit for each page that was written since it was sent. */
typedef struct ram {
    _Atomic uint64_t *words;
    _Atomic uint8_t *dirty;
    uint64_t pages;
} ram;

typedef struct machine {
    zimgasol_block blocks[BLOCKS];
    ram rams[BLOCKS];
} machine;

static _Atomic bool is_running;

static double now(void) {
    struct timespec at;
    clock_gettime(CLOCK_MONOTONIC, &at);
    return at.tv_sec * 1e3 + at.tv_nsec / 1e6;
}

static void give_up(const char *what) {
    perror(what);
    _Exit(3); /* other threads may run */
}

static void *mapped(size_t len) {
    void *at = mmap(NULL, len, PROT_READ | PROT_WRITE, MAP_PRIVATE | MAP_ANONYMOUS, -1, 0);
    if (at == MAP_FAILED) give_up("mmap");
    return at;
}

static uint8_t *bytes_of(const ram *r) {
    return (uint8_t *)r->words;
}

static void make_machine(machine *m, uint64_t mib) {
    memset(m, 0, sizeof *m);
    strcpy((char *)m->blocks[0].id, "pc.ram");
    strcpy((char *)m->blocks[1].id, "vga.vram");
    for (size_t b = 0; b < BLOCKS; b++) {
        ram *r = &m->rams[b];
        r->pages = m->blocks[b].pages = (b == 0 ? mib : 1) * ((1 << 20) / PAGE);
        r->words = mapped(r->pages * PAGE);
        r->dirty = mapped(r->pages);
    }
}

static void free_machine(machine *m) {
    for (size_t b = 0; b < BLOCKS; b++) {
        munmap((void *)m->rams[b].words, m->rams[b].pages * PAGE);
        munmap((void *)m->rams[b].dirty, m->rams[b].pages);
    }
}

/* ---- the guest, which runs on */

/* Writes a word, and then marks its page. A copy of the page that lacks the word was begun before,
 * and so the page is dirty after it. */
static void write_word(ram *r, uint64_t page, uint64_t word, uint64_t value) {
    atomic_store_explicit(&r->words[page * WORDS + word], value, memory_order_relaxed);
    atomic_store(&r->dirty[page], 1);
}

static uint64_t drawn(uint64_t *seed) {
    *seed ^= *seed << 13;
    *seed ^= *seed >> 7;
    *seed ^= *seed << 17;
    return *seed;
}

/* Writes to some pages often and to others seldom; sometimes a page becomes zeros. */
static void *run_guest(void *given) {
    machine *m = given;
    uint64_t seed = 88172645463325252u;
    struct timespec pause = {.tv_nsec = 100000};
    for (uint64_t turn = 0; atomic_load(&is_running); turn++) {
        ram *r = &m->rams[drawn(&seed) % BLOCKS];
        uint64_t page = drawn(&seed) % (turn % 8 == 0 ? r->pages : r->pages / 16);
        for (uint64_t word = 0; word < WORDS; word += turn % 5 == 0 ? 1 : 37)
            write_word(r, page, word, turn % 5 == 0 ? 0 : drawn(&seed));
        if (turn % 4 == 0) nanosleep(&pause, NULL);
    }
    return NULL;
}

/* Fills three pages of four; the others stay zeros. */
static void fill_guest(machine *m) {
    uint64_t seed = 42;
    for (size_t b = 0; b < BLOCKS; b++)
        for (uint64_t page = 0; page < m->rams[b].pages; page++) {
            m->rams[b].dirty[page] = 1;
            for (uint64_t word = 0; page % 4 != 3 && word < WORDS; word++)
                m->rams[b].words[page * WORDS + word] = drawn(&seed);
        }
}

/* ---- the sender */

/* Writes some of the bytes. Waits if the socket takes none now. Returns how many, or -1. */
static ssize_t write_some(int socket, const uint8_t *bytes, size_t len) {
    for (;;) {
        ssize_t count = write(socket, bytes, len);
        if (count >= 0 || (errno != EAGAIN && errno != EINTR)) return count;
        struct pollfd writable = {socket, POLLOUT, 0};
        if (errno == EAGAIN) poll(&writable, 1, -1);
    }
}

static int write_all(int socket, const uint8_t *bytes, size_t len) {
    while (len > 0) {
        ssize_t count = write_some(socket, bytes, len);
        if (count < 0) return 0;
        bytes += count;
        len -= (size_t)count;
    }
    return 1;
}

static int drain(zimgasol_send *sender, int socket) {
    uint8_t out[PIECE];
    size_t len;
    while ((len = zimgasol_send_peek(sender, ZIMGASOL_MAIN, out, sizeof out)) > 0) {
        ssize_t count = write_some(socket, out, len);
        if (count < 0) return 0;
        /* as many as were taken; the others come again */
        zimgasol_send_skip(sender, ZIMGASOL_MAIN, (size_t)count);
    }
    return 1;
}

/* Copies a page that the guest may be writing to. */
static void copy_page(const ram *r, uint64_t page, uint64_t *copy) {
    for (size_t word = 0; word < WORDS; word++)
        copy[word] = atomic_load_explicit(&r->words[page * WORDS + word], memory_order_relaxed);
}

/* Sends one section: the next dirty pages from a place on, `most` at most. Returns how many. */
static long send_section(zimgasol_send *sender, machine *m, size_t *b, uint64_t *page, long most) {
    uint64_t copy[WORDS];
    long sent = 0;
    if (zimgasol_send_begin_round(sender) != ZIMGASOL_DONE) return -1;
    for (; *b < BLOCKS; ++*b, *page = 0) {
        ram *r = &m->rams[*b];
        for (; *page < r->pages; ++*page) {
            if (sent == most) return zimgasol_send_end_round(sender) == ZIMGASOL_DONE ? sent : -1;
            if (!atomic_load_explicit(&r->dirty[*page], memory_order_relaxed)) continue;
            /* cleared before the copy begins: what is written from here on sets it again */
            if (!atomic_exchange(&r->dirty[*page], 0)) continue;
            copy_page(r, *page, copy);
            if (zimgasol_send_put_page(sender, *b, *page, (uint8_t *)copy, PAGE) != ZIMGASOL_DONE)
                return -1;
            sent++;
        }
    }
    return zimgasol_send_end_round(sender) == ZIMGASOL_DONE ? sent : -1;
}

/* Sends all pages that are dirty. Returns how many, or -1. */
static long send_dirty(zimgasol_send *sender, machine *m, int socket, long most) {
    size_t b = 0;
    uint64_t page = 0;
    long all = 0;
    while (b < BLOCKS) {
        long sent = send_section(sender, m, &b, &page, most);
        if (sent < 0 || !drain(sender, socket)) return -1;
        all += sent;
    }
    return all;
}

/* Sends the guest, in rounds, and stops it for the last one. Returns how many pages, or -1. */
static long send_guest(machine *m, zimgasol_send *sender, int socket, long most, pthread_t guest,
    double *stopped) {
    long all = 0, sent = FEW;
    for (int round = 0; round < MOST_ROUNDS && sent >= FEW; round++, all += sent)
        if ((sent = send_dirty(sender, m, socket, most)) < 0) break;
    atomic_store(&is_running, false);
    pthread_join(guest, NULL);
    *stopped = now();
    if (sent < 0 || (sent = send_dirty(sender, m, socket, most)) < 0) return -1;
    if (zimgasol_send_finish(sender, false) != ZIMGASOL_DONE || !drain(sender, socket)) return -1;
    return all + sent;
}

/* ---- the receiver, on a thread of its own */

typedef struct receiver {
    machine m;
    int socket;
    zimgasol_table *table;
    zimgasol_status status;
    uint64_t sections, missing;
    bool straight;
} receiver;

/* Feeds pieces as they come. */
static zimgasol_status feed_pieces(zimgasol_load *load, zimgasol_buffer *blocks, int socket) {
    uint8_t piece[PIECE];
    zimgasol_status status = ZIMGASOL_DONE;
    ssize_t len;
    zimgasol_fed fed;
    while (status == ZIMGASOL_DONE && (len = read(socket, piece, sizeof piece)) > 0)
        status = zimgasol_load_feed(load, blocks, BLOCKS, ZIMGASOL_MAIN, piece, (size_t)len, &fed);
    return status;
}

/* Reads each page into its block, and feeds what stands between the pages. */
static zimgasol_status read_pages(zimgasol_load *load, zimgasol_buffer *blocks, int socket) {
    uint8_t piece[64];
    zimgasol_status status = ZIMGASOL_DONE;
    zimgasol_next next;
    zimgasol_fed fed;
    size_t there = 0; /* bytes of the next page that were read */
    while (status == ZIMGASOL_DONE && zimgasol_load_wanted(load, &next)) {
        uint8_t *to = next.is_page ? blocks[next.block].bytes + next.offset + there : piece;
        size_t most = next.len - there;
        if (!next.is_page && most > sizeof piece) most = sizeof piece;
        ssize_t len = read(socket, to, most);
        if (len <= 0) break;
        if (!next.is_page) {
            status =
                zimgasol_load_feed(load, blocks, BLOCKS, ZIMGASOL_MAIN, piece, (size_t)len, &fed);
        } else if ((there += (size_t)len) == next.len) {
            status = zimgasol_load_page_read(load, blocks, BLOCKS);
            there = 0;
        }
    }
    return status;
}

static void *receive(void *given) {
    receiver *r = given;
    const zimgasol_settings settings = {.frame = ZIMGASOL_FRAME_RAM};
    zimgasol_load load = {0};
    zimgasol_buffer blocks[BLOCKS];
    zimgasol_fault fault;
    for (size_t b = 0; b < BLOCKS; b++)
        blocks[b] = (zimgasol_buffer){bytes_of(&r->m.rams[b]), r->m.rams[b].pages * PAGE};
    /* no channels: one stream, which has no UUID */
    r->status = zimgasol_load_new(&load, r->table, (const uint8_t *)"", 0, 0, &settings);
    if (r->status == ZIMGASOL_DONE) {
        r->status = (r->straight ? read_pages : feed_pieces)(&load, blocks, r->socket);
        if (r->status == ZIMGASOL_DONE) r->status = zimgasol_load_end(&load, ZIMGASOL_MAIN);
        if (r->status == ZIMGASOL_DONE) r->status = zimgasol_load_verdict(&load, &fault);
        zimgasol_standing standing;
        zimgasol_load_standing(&load, &standing);
        r->sections = standing.rounds;
        r->missing = standing.missing;
        zimgasol_load_free(&load);
    }
    /* where it gave up early the sender's next write fails */
    close(r->socket);
    return NULL;
}

/* ---- both */

static long differing(const machine *a, const machine *b) {
    long count = 0;
    for (size_t i = 0; i < BLOCKS; i++)
        for (size_t at = 0; at < a->rams[i].pages * PAGE; at += PAGE)
            count += memcmp(bytes_of(&a->rams[i]) + at, bytes_of(&b->rams[i]) + at, PAGE) != 0;
    return count;
}

static int migrate(machine *m, receiver *r, zimgasol_table *sent_table, zimgasol_table *table,
    long most, bool times) {
    int sockets[2];
    pthread_t guest, loader;
    zimgasol_send sender = {0};
    if (zimgasol_send_new(&sender, sent_table, &(zimgasol_send_settings){0}) != ZIMGASOL_DONE)
        return 3;
    if (socketpair(AF_UNIX, SOCK_STREAM, 0, sockets) != 0) give_up("socketpair");
    if (fcntl(sockets[0], F_SETFL, O_NONBLOCK) != 0) give_up("fcntl");
    r->socket = sockets[1];
    r->table = table;
    atomic_store(&is_running, true);
    double began = now(), stopped = began;
    if (pthread_create(&loader, NULL, receive, r) != 0) give_up("thread");
    if (pthread_create(&guest, NULL, run_guest, m) != 0) give_up("thread");
    long sent = send_guest(m, &sender, sockets[0], most, guest, &stopped);
    close(sockets[0]);
    pthread_join(loader, NULL);
    double ended = now();
    zimgasol_send_free(&sender);
    if (sent < 0 || r->status != ZIMGASOL_DONE || r->missing != 0) {
        fprintf(stderr, "sent %ld, status %d, %llu pages missing\n", sent, (int)r->status,
            (unsigned long long)r->missing);
        return 3;
    }
    if (times)
        fprintf(stderr, "live: %ld pages, %llu sections, %.1f ms, of which stopped %.1f\n", sent,
            (unsigned long long)r->sections, ended - began, ended - stopped);
    long differ = differing(m, &r->m);
    printf("%ld pages differ\n", differ);
    return differ == 0 ? 0 : 1;
}

/* ---- the same pages without the library */

static void *read_plain(void *given) {
    receiver *r = given;
    for (size_t b = 0; b < BLOCKS; b++) {
        uint8_t *at = bytes_of(&r->m.rams[b]), *end = at + r->m.rams[b].pages * PAGE;
        ssize_t len;
        while (at < end && (len = read(r->socket, at, (size_t)(end - at))) > 0) at += len;
    }
    close(r->socket);
    return NULL;
}

static int write_plain(machine *m, int socket) {
    int done = 1;
    for (size_t b = 0; done && b < BLOCKS; b++)
        done = write_all(socket, bytes_of(&m->rams[b]), m->rams[b].pages * PAGE);
    return done;
}

static int write_by_library(machine *m, zimgasol_table *table, int socket, long most) {
    zimgasol_send sender = {0};
    if (zimgasol_send_new(&sender, table, &(zimgasol_send_settings){0}) != ZIMGASOL_DONE) return 0;
    for (size_t b = 0; b < BLOCKS; b++) memset((void *)m->rams[b].dirty, 1, m->rams[b].pages);
    int done = send_dirty(&sender, m, socket, most) >= 0;
    done = done && zimgasol_send_finish(&sender, false) == ZIMGASOL_DONE && drain(&sender, socket);
    zimgasol_send_free(&sender);
    return done;
}

/* Sends all pages of a guest that is stopped, plainly (`table` is null) or by the library, into
 * fresh blocks. Returns how many milliseconds it takes, or -1. */
static double measured(machine *m, uint64_t mib, zimgasol_table *table, zimgasol_table *loaded,
    long most, bool straight) {
    int sockets[2];
    pthread_t reader;
    receiver r = {.table = loaded, .straight = straight};
    if (socketpair(AF_UNIX, SOCK_STREAM, 0, sockets) != 0) give_up("socketpair");
    make_machine(&r.m, mib);
    r.socket = sockets[1];
    double began = now();
    if (pthread_create(&reader, NULL, table == NULL ? read_plain : receive, &r) != 0)
        give_up("thread");
    int done =
        table == NULL ? write_plain(m, sockets[0]) : write_by_library(m, table, sockets[0], most);
    close(sockets[0]);
    pthread_join(reader, NULL);
    double took = now() - began;
    done = done && differing(m, &r.m) == 0;
    free_machine(&r.m);
    return done ? took : -1;
}

static int compare_times(machine *m, uint64_t mib, zimgasol_table *sent, zimgasol_table *loaded,
    long most, bool straight) {
    double plain = measured(m, mib, NULL, loaded, most, straight);
    double library = measured(m, mib, sent, loaded, most, straight);
    if (plain < 0 || library < 0) return 3;
    fprintf(stderr, "stopped: plain %.1f ms, library %.1f ms, %.2f times\n", plain, library,
        library / plain);
    return 0;
}

int main(int count, char **words) {
    uint64_t mib = 16;
    long most = 64;
    bool times = false, straight = false;
    for (int i = 1; i < count; i++) {
        if (strcmp(words[i], "-t") == 0) times = true;
        else if (strcmp(words[i], "-s") == 0) straight = true;
        else if (strcmp(words[i], "-m") == 0 && i + 1 < count) mib = strtoull(words[++i], NULL, 10);
        else if (strcmp(words[i], "-n") == 0 && i + 1 < count) most = strtol(words[++i], NULL, 10);
    }
    if (mib == 0 || mib > 4096 || most < 1) {
        fprintf(stderr, "live [-m MIB] [-n PAGES] [-s] [-t]\n");
        return 3;
    }
    signal(SIGPIPE, SIG_IGN);
    machine m;
    receiver r = {.straight = straight};
    zimgasol_table sent = {0}, loaded = {0};
    size_t entry;
    make_machine(&m, mib);
    make_machine(&r.m, mib);
    fill_guest(&m);
    int status = 3;
    /* a table for each thread: a call that is passed one works on it */
    if (zimgasol_table_new(&sent, PAGE, m.blocks, BLOCKS, &entry) == ZIMGASOL_DONE) {
        if (zimgasol_table_new(&loaded, PAGE, m.blocks, BLOCKS, &entry) == ZIMGASOL_DONE) {
            status = migrate(&m, &r, &sent, &loaded, most, times);
            if (status == 0 && times)
                status = compare_times(&m, mib, &sent, &loaded, most, straight);
            zimgasol_table_free(&loaded);
        }
        zimgasol_table_free(&sent);
    }
    free_machine(&m);
    free_machine(&r.m);
    return status;
}
