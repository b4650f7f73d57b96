/* Sends a guest over connections while it runs.
 *
 *   send_live MAIN CHANNEL ..
 *
 * Each word is a connection that the program inherits, as QEMU's `migrate fd:FD`. The guest has two
 * blocks, `mem0` and `mem1`, of 8 MiB each, and a thread that writes to them. When all is sent, the
 * program waits for the receiver's answer, and then ends the channels. It writes the guest's memory
 * to standard output. Status 1: the receiver hasn't loaded the guest; 3: the program can't go on.
 */
#define _POSIX_C_SOURCE 200809L
#include "zimgasol.h"
#include <pthread.h>
#include <stdatomic.h>
#include <stdio.h>
#include <stdlib.h>
#include <string.h>
#include <sys/socket.h>
#include <time.h>
#include <unistd.h>

enum { PAGE = 4096, PAGES = 2048, BLOCKS = 2, WORDS = PAGE / 8, PACKET = 128, MOST = 1 + 255 };

/* The guest is stopped if so few pages are dirty, or after so many rounds. */
enum { FEW = 64, ROUNDS = 30 };

static _Atomic uint64_t ram[BLOCKS][PAGES * WORDS];
static _Atomic uint64_t dirty[BLOCKS][PAGES / 64]; /* a bit for each page, as KVM's dirty log */
static uint64_t next[BLOCKS][PAGES / 64]; /* the pages of the next round */
static _Atomic bool is_running = true;
static zimgasol_send sender;
static int connections[MOST];
static size_t channels;

static void die(const char *what) {
    fprintf(stderr, "%s\n", what);
    _Exit(3); /* other threads may run */
}

static void check(zimgasol_status status) {
    if (status != ZIMGASOL_DONE) die(zimgasol_status_text(status));
}

/* Writes words to the guest now and then, and marks the page after each. */
static void *run_guest(void *arg) {
    for (uint64_t seed = 1; is_running; seed = seed * 6364136223846793005u + 1442695040888963407u) {
        size_t block = seed >> 63, word = (seed >> 11) % (PAGES * WORDS), page = word / WORDS;
        nanosleep(&(struct timespec){.tv_nsec = 20000}, NULL);
        ram[block][word] = seed;
        dirty[block][page / 64] |= (uint64_t)1 << page % 64;
    }
    return arg;
}

/* Moves the marks to the next round. A page that is written from now on is marked again. Returns
 * how many pages the round has. */
static size_t take_marks(void) {
    size_t pages = 0;
    for (size_t b = 0; b < BLOCKS; b++)
        for (size_t w = 0; w < PAGES / 64; w++) {
            next[b][w] |= atomic_exchange(&dirty[b][w], 0);
            pages += (size_t)__builtin_popcountll(next[b][w]);
        }
    return pages;
}

static void send_all(size_t source, const uint8_t *bytes, size_t len) {
    while (len > 0) {
        ssize_t sent = send(connections[source], bytes, len, MSG_NOSIGNAL);
        if (sent < 0) die("a connection is lost");
        bytes += sent;
        len -= (size_t)sent;
    }
}

static void drain_main(void) {
    uint8_t out[PAGE];
    size_t len;
    while ((len = zimgasol_send_drain(&sender, ZIMGASOL_MAIN, out, sizeof out)) > 0)
        send_all(ZIMGASOL_MAIN, out, len);
}

/* A channel's worker, with the connection that its bytes go to. */
typedef struct channel {
    zimgasol_worker worker;
    size_t source;
    pthread_t thread;
} channel;

static void drain_worker(channel *c) {
    uint8_t out[16 * PAGE];
    size_t len;
    while ((len = zimgasol_worker_drain(&c->worker, out, sizeof out)) > 0)
        send_all(c->source, out, len);
}

/* Sends one channel's part of a round, on a thread of its own. A packet is made of a copy of its
 * pages. Such a copy may be torn: the page is marked then, and comes again. */
static void *send_channel(void *of) {
    channel *c = of;
    uint64_t copy[PACKET * WORDS];
    zimgasol_lent contents[PACKET];
    zimgasol_batch batch;
    zimgasol_status status;
    for (size_t i = 0; i < PACKET; i++)
        contents[i] = (zimgasol_lent){(uint8_t *)(copy + i * WORDS), PAGE};
    while ((status = zimgasol_worker_next(&c->worker, &batch)) == ZIMGASOL_RUNNING) {
        for (size_t i = 0; i < batch.count * WORDS; i++)
            copy[i] = ram[batch.block][batch.pages[i / WORDS] * WORDS + i % WORDS];
        status = zimgasol_worker_pack(&c->worker, contents, batch.count);
        if (status != ZIMGASOL_RUNNING) check(status);
        drain_worker(c);
    }
    check(status);
    drain_worker(c); /* the SYNC packet */
    return NULL;
}

static void send_round(void) {
    zimgasol_bitmap bitmaps[BLOCKS] = {{next[0], PAGES / 64}, {next[1], PAGES / 64}};
    channel parts[MOST] = {0};
    check(zimgasol_send_begin_round_bitmaps(&sender, bitmaps, BLOCKS));
    memset(next, 0, sizeof next);
    for (size_t j = 0; j < channels; j++) {
        channel *c = &parts[j];
        c->source = ZIMGASOL_CHANNEL(j);
        check(zimgasol_send_worker(&sender, &c->worker));
        if (pthread_create(&c->thread, NULL, send_channel, c) != 0) die("no thread");
    }
    for (size_t j = 0; j < channels; j++) pthread_join(parts[j].thread, NULL);
    for (size_t j = 0; j < channels; j++) check(zimgasol_send_give_back(&sender, &parts[j].worker));
    check(zimgasol_send_end_round(&sender));
    drain_main();
}

/* Makes the sender, and sends its first bytes: the table, without which no packet is taken. */
static void begin(void) {
    const zimgasol_block blocks[BLOCKS] = {{"mem0", PAGES}, {"mem1", PAGES}};
    zimgasol_send_settings settings = {.channels = channels, .limit = PACKET};
    zimgasol_table table = {0};
    size_t entry;
    check(zimgasol_table_new(&table, PAGE, blocks, BLOCKS, &entry));
    check(zimgasol_send_new(&sender, &table, &settings));
    zimgasol_table_free(&table);
    drain_main();
}

/* Waits for the receiver's answer. Returns whether the guest is whole there. */
static bool is_loaded(void) {
    static const uint8_t wanted[8] = {0, 1, 0, 4, 0, 0, 0, 0};
    uint8_t answer[8];
    ssize_t len = recv(connections[ZIMGASOL_MAIN], answer, sizeof answer, MSG_WAITALL);
    return len == sizeof answer && memcmp(answer, wanted, sizeof answer) == 0;
}

int main(int argc, char **argv) {
    pthread_t guest;
    if (argc < 3 || argc > 1 + MOST) die("send_live MAIN CHANNEL ..");
    for (int i = 1; i < argc; i++) connections[i - 1] = atoi(argv[i]);
    channels = (size_t)argc - 2;
    for (size_t page = 0; page < PAGES; page++) ram[page % BLOCKS][page * WORDS] = page + 1;
    if (pthread_create(&guest, NULL, run_guest, NULL) != 0) die("no thread");
    begin();
    send_round(); /* without pages: QEMU's receiver needs it */
    memset(next, 0xFF, sizeof next);
    for (int round = 0; round < ROUNDS; round++) {
        send_round();
        if (take_marks() <= FEW) break;
    }
    is_running = false;
    pthread_join(guest, NULL);
    take_marks();
    send_round();
    check(zimgasol_send_finish(&sender, false));
    drain_main();
    zimgasol_send_free(&sender);
    bool loaded = is_loaded(); /* if not, the guest runs on here */
    for (size_t source = channels + 1; source-- > 0;) close(connections[source]); /* main last */
    fwrite((const void *)ram, 1, sizeof ram, stdout);
    return fflush(stdout) != 0 ? 3 : !loaded;
}
