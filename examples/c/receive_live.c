/* Receives a guest over connections into blocks of its own.
 *
 *   receive_live FD ..
 *
 * Each FD is a connection that the program inherits, as QEMU's `-incoming fd:FD`: that of one
 * stream, or those of a main stream and its channels, in any order. The machine has two blocks,
 * `mem0` and `mem1`, of 8 MiB each. When all rounds are in, it answers the sender as QEMU does, and
 * waits until the channels have ended. Then it writes the blocks to standard output. Status 1: the
 * streams have a fault; 2: they lack pages; 3: the program can't go on.
 */
#define _POSIX_C_SOURCE 200809L
#include "zimgasol.h"
#include <poll.h>
#include <stdio.h>
#include <stdlib.h>
#include <string.h>
#include <sys/socket.h>
#include <unistd.h>

enum { PAGE = 4096, PAGES = 2048, BLOCKS = 2, MOST = 1 + 255, PIECE = 65536, PATIENCE = 30000 };

/* The connections, by source. `bytes` from `from` to `to` were read, and weren't taken yet. */
static struct source {
    int fd;
    size_t from, to;
    uint8_t bytes[PIECE];
} sources[MOST + 1];

static size_t count, channels; /* of the sources, and of the channels among them */
static uint64_t rounds;        /* that were judged */
static zimgasol_load load;
static zimgasol_buffer into[BLOCKS];

static void die(const char *what) {
    fprintf(stderr, "%s\n", what);
    exit(3);
}

static void check(zimgasol_status status) {
    if (status != ZIMGASOL_DONE) die(zimgasol_status_text(status));
}

/* Takes a connection. A main stream begins with QEVM, and a channel's hello with 11 22 33 44. */
static void take_connection(int fd) {
    uint8_t first[4];
    if (recv(fd, first, 4, MSG_WAITALL) != 4) die("a connection has no stream");
    bool is_main = memcmp(first, "QEVM", 4) == 0;
    struct source *s = &sources[is_main ? ZIMGASOL_MAIN : ZIMGASOL_CHANNEL(channels++)];
    s->fd = fd;
    memcpy(s->bytes, first, s->to = 4);
}

/* Makes the load. The blocks are fresh, so a page that comes as zeros need not be touched. The UUID
 * is the guest's: zeros, as in QEMU without `-uuid`. */
static void make_load(void) {
    const zimgasol_settings settings = {.frame = ZIMGASOL_FRAME_MACHINE,
        .round_end = ZIMGASOL_AS_SHOWN,
        .zero_blocks = 1};
    const zimgasol_block blocks[] = {{"mem0", PAGES}, {"mem1", PAGES}};
    const uint8_t uuid[16] = {0};
    zimgasol_table table = {0};
    size_t entry;
    for (size_t b = 0; b < BLOCKS; b++) {
        into[b] = (zimgasol_buffer){calloc(PAGES, PAGE), (size_t)PAGES * PAGE};
        if (into[b].bytes == NULL) die("no memory for the blocks");
    }
    check(zimgasol_table_new(&table, PAGE, blocks, BLOCKS, &entry));
    check(zimgasol_load_new(&load, &table, uuid, sizeof uuid, channels, &settings));
    zimgasol_table_free(&table);
}

static void fail(const zimgasol_fault *fault, bool has_at, uint64_t at) {
    uint8_t text[256];
    zimgasol_read_fault_text(fault, has_at, at, text, sizeof text);
    fprintf(stderr, "not received: %s\n", (char *)text);
    exit(1);
}

/* Gives up if a source has a fault. The verdict would wait for the other sources, and their sender
 * may wait for this one, of which nothing is taken any more. */
static void test_source(size_t s) {
    zimgasol_fault fault;
    zimgasol_source of;
    if (zimgasol_load_fault_of(&load, s, &fault) == ZIMGASOL_DONE) return;
    zimgasol_load_source(&load, s, &of);
    fail(&fault, of.is_known, of.valid_up_to);
}

/* Feeds what is kept of a source, if it is taken now. Returns whether the other sources are to be
 * asked again: the main stream took bytes, or a round was judged. */
static bool feed(size_t s) {
    struct source *kept = &sources[s];
    zimgasol_fed fed;
    if (kept->from == kept->to || !zimgasol_load_takes(&load, s)) return false;
    check(zimgasol_load_feed(&load, into, BLOCKS, s, kept->bytes + kept->from,
        kept->to - kept->from, &fed));
    bool is_judged = fed.rounds > rounds;
    kept->from += fed.taken;
    rounds = fed.rounds;
    test_source(s);
    return s == ZIMGASOL_MAIN || is_judged;
}

static void feed_all(void) {
    for (bool again = true; again;) {
        again = false;
        for (size_t s = 0; s < count; s++) again = feed(s) || again;
    }
}

/* Reads a source of which nothing is kept. If its connection is over, the source ends. */
static void read_source(size_t s) {
    ssize_t len = read(sources[s].fd, sources[s].bytes, PIECE);
    sources[s].from = 0;
    sources[s].to = len > 0 ? (size_t)len : 0;
    if (len > 0) return;
    check(zimgasol_load_end(&load, s));
    test_source(s);
}

/* Waits for bytes of the sources that take some and of which nothing is kept. What others have
 * waits in their connections. */
static void read_some(void) {
    struct pollfd polled[MOST];
    for (size_t s = 0; s < count; s++) {
        bool is_read = sources[s].from == sources[s].to && zimgasol_load_takes(&load, s);
        polled[s] = (struct pollfd){is_read ? sources[s].fd : -1, POLLIN, 0};
    }
    if (poll(polled, count, PATIENCE) <= 0) die("nothing comes any more");
    for (size_t s = 0; s < count; s++)
        if (polled[s].revents != 0) read_source(s);
}

/* Answers on the main connection: 0 if the guest is whole, and is this end's from now on. After 1
 * it runs on at the other end. A machine with devices loads these before. */
static bool answer(uint64_t missing) {
    const uint8_t bytes[8] = {0, 1, 0, 4, 0, 0, 0, missing > 0};
    if (send(sources[ZIMGASOL_MAIN].fd, bytes, 8, MSG_NOSIGNAL) != 8) die("the sender is gone");
    return true;
}

int main(int argc, char **argv) {
    zimgasol_fault fault;
    zimgasol_standing standing;
    zimgasol_source stream;
    bool is_answered = false;
    count = (size_t)argc - 1;
    if (count < 1 || count > MOST) die("receive_live FD ..");
    for (int i = 1; i < argc; i++) take_connection(atoi(argv[i]));
    if (channels + 1 != count) die("there isn't one main stream");
    make_load();
    feed_all();
    while (zimgasol_load_verdict(&load, &fault) == ZIMGASOL_RUNNING) {
        read_some();
        feed_all();
        zimgasol_load_standing(&load, &standing);
        if (!is_answered && standing.has_all_rounds) is_answered = answer(standing.missing);
    }
    if (fault.number != ZIMGASOL_DONE) fail(&fault, false, 0);
    zimgasol_load_standing(&load, &standing);
    zimgasol_load_source(&load, ZIMGASOL_MAIN, &stream);
    fprintf(stderr, "received: %llu %s, %llu pages missing, %llu bytes after RAM\n",
        (unsigned long long)standing.rounds, channels > 0 ? "rounds" : "sections",
        (unsigned long long)standing.missing,
        (unsigned long long)(stream.fed - standing.closed_at));
    zimgasol_load_free(&load);
    for (size_t b = 0; b < BLOCKS; b++) {
        fwrite(into[b].bytes, 1, into[b].len, stdout);
        free(into[b].bytes);
    }
    return fflush(stdout) != 0 ? 3 : standing.missing > 0 ? 2 : 0;
}
