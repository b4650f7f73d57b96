/* Receives a machine from QEMU over connections: its RAM, and the bytes of its devices.
 *
 *   from_qemu [-r] OUT FD ..
 *
 * Each FD is a connection that the program inherits: that of one stream, or those of a main stream
 * and its channels, in any order. With -r the source has a return path: it is answered once all
 * rounds are in and the devices' bytes were read to their end. Then the blocks are written to OUT,
 * one after another, and a line for each to standard output. Status 1: the streams have a fault; 2:
 * pages or bytes of the devices are missing; 3: the program can't go on.
 */
#define _POSIX_C_SOURCE 200809L
#include "zimgasol.h"
#include <poll.h>
#include <stdio.h>
#include <stdlib.h>
#include <string.h>
#include <sys/socket.h>
#include <unistd.h>

enum { PAGE = 4096, MOST = 1 + 255, PIECE = 1 << 17, DEVICES = 1 << 24, PATIENCE = 30000 };

/* The connections, by source. `bytes` from `from` to `to` were read, and weren't taken yet. */
static struct source {
    int fd;
    bool is_over;
    size_t from, to;
    uint8_t bytes[PIECE];
} sources[MOST + 1];

static size_t count, channels, blocks; /* of the sources, the channels among them, the blocks */
static uint64_t rounds;                /* that were judged */
static zimgasol_load load;
static zimgasol_table table;
static zimgasol_buffer into[256];
static uint8_t devices[DEVICES]; /* what follows RAM on the main stream */
static size_t devices_len;
static bool is_closed;

static void die(const char *what) {
    fprintf(stderr, "%s\n", what);
    exit(3);
}

static void check(zimgasol_status status) {
    if (status != ZIMGASOL_DONE) die(zimgasol_status_text(status));
}

static void fail(const zimgasol_fault *fault) {
    char text[256];
    zimgasol_fault_text(fault, text, sizeof text);
    fprintf(stderr, "not received: fault %u: %s\n", fault->number, text);
    exit(1);
}

static void lack(const char *what) {
    fprintf(stderr, "not received: %s\n", what);
    exit(2);
}

/* Takes a connection. A main stream begins with QEVM, and a channel's hello with 11 22 33 44. */
static void take_connection(int fd) {
    uint8_t first[4];
    if (recv(fd, first, 4, MSG_WAITALL) != 4) lack("a connection has no stream");
    bool is_main = memcmp(first, "QEVM", 4) == 0;
    struct source *s = &sources[is_main ? ZIMGASOL_MAIN : ZIMGASOL_CHANNEL(channels++)];
    s->fd = fd;
    memcpy(s->bytes, first, s->to = 4);
}

/* Reads the main stream until it has the list of blocks, from which the table is made. */
static void read_table(void) {
    struct source *s = &sources[ZIMGASOL_MAIN];
    zimgasol_status status;
    uint64_t at;
    while ((status = zimgasol_table_of_stream(&table, PAGE, ZIMGASOL_FRAME_MACHINE, s->bytes,
                s->to, &at)) == ZIMGASOL_RUNNING) {
        struct pollfd polled = {s->fd, POLLIN, 0};
        if (s->to == PIECE) die("no list of blocks");
        if (poll(&polled, 1, PATIENCE) <= 0) die("nothing comes any more");
        ssize_t len = read(s->fd, s->bytes + s->to, PIECE - s->to);
        if (len <= 0) lack("the list of blocks is cut");
        s->to += (size_t)len;
    }
    if (status != ZIMGASOL_DONE) {
        fprintf(stderr, "not received: %s\n", zimgasol_status_text(status));
        exit(1);
    }
}

/* Makes fresh blocks, and the load. The UUID is that of QEMU without `-uuid`. */
static void make_load(void) {
    const zimgasol_settings settings = {.frame = ZIMGASOL_FRAME_MACHINE,
        .round_end = ZIMGASOL_AS_SHOWN,
        .zero_blocks = 1};
    const uint8_t uuid[16] = {0};
    zimgasol_block block;
    blocks = zimgasol_table_blocks(&table);
    for (size_t b = 0; b < blocks; b++) {
        check(zimgasol_table_block(&table, b, &block));
        into[b] = (zimgasol_buffer){calloc(block.pages, PAGE), block.pages * PAGE};
        if (into[b].bytes == NULL) die("no memory for the blocks");
    }
    check(zimgasol_load_new(&load, &table, uuid, sizeof uuid, channels, &settings));
}

static zimgasol_standing standing(void) {
    zimgasol_standing now;
    zimgasol_load_standing(&load, &now);
    return now;
}

/* Gives up if a source has a fault: the others may wait for it. */
static void test_source(size_t s) {
    zimgasol_fault fault;
    if (zimgasol_load_fault_of(&load, s, &fault) != ZIMGASOL_DONE) fail(&fault);
}

/* Moves what is kept of the main stream to the bytes of the devices. */
static void keep_devices(void) {
    struct source *s = &sources[ZIMGASOL_MAIN];
    size_t len = s->to - s->from;
    if (len > DEVICES - devices_len) die("too many bytes follow RAM");
    memcpy(devices + devices_len, s->bytes + s->from, len);
    devices_len += len;
    s->from = s->to;
}

/* Tests whether RAM ended in the main stream. What was fed of the bytes after it goes back. */
static void test_end_of_ram(void) {
    zimgasol_standing now = standing();
    zimgasol_source fed;
    if (is_closed || !now.is_closed) return;
    is_closed = true;
    zimgasol_load_source(&load, ZIMGASOL_MAIN, &fed);
    sources[ZIMGASOL_MAIN].from -= fed.fed - now.closed_at;
    keep_devices();
}

/* Feeds what is kept of a source, if it is taken now. Returns whether the other sources are to be
 * asked again: the main stream took bytes, or a round was judged. */
static bool feed(size_t s) {
    struct source *kept = &sources[s];
    zimgasol_fed fed;
    if (kept->from == kept->to || !zimgasol_load_takes(&load, s)) return false;
    check(zimgasol_load_feed(&load, into, blocks, s, kept->bytes + kept->from,
        kept->to - kept->from, &fed));
    bool is_judged = fed.rounds > rounds;
    kept->from += fed.taken;
    rounds = fed.rounds;
    test_source(s);
    if (s == ZIMGASOL_MAIN) test_end_of_ram();
    return s == ZIMGASOL_MAIN || is_judged;
}

static void feed_all(void) {
    for (bool again = true; again;) {
        again = false;
        for (size_t s = 0; s < count; s++) again = feed(s) || again;
    }
}

/* Reads a source of which nothing is kept. If its connection is over, the source ends. */
static void read_source(size_t s) {
    struct source *source = &sources[s];
    ssize_t len = read(source->fd, source->bytes, PIECE);
    source->from = 0;
    source->to = len > 0 ? (size_t)len : 0;
    if (len > 0 && s == ZIMGASOL_MAIN && is_closed) keep_devices();
    if (len > 0) return;
    source->is_over = true;
    check(zimgasol_load_end(&load, s));
    test_source(s);
}

static bool is_read(size_t s) {
    if (sources[s].is_over || sources[s].from < sources[s].to) return false;
    return (s == ZIMGASOL_MAIN && is_closed) || zimgasol_load_takes(&load, s);
}

static void read_some(void) {
    struct pollfd polled[MOST];
    for (size_t s = 0; s < count; s++)
        polled[s] = (struct pollfd){is_read(s) ? sources[s].fd : -1, POLLIN, 0};
    if (poll(polled, count, PATIENCE) <= 0) die("nothing comes any more");
    for (size_t s = 0; s < count; s++)
        if (polled[s].revents != 0) read_source(s);
}

/* Tests whether the devices' bytes are at their end: the end byte, and QEMU's description of them,
 * `06`, its length and a text. A program that loads the devices knows their end by itself. */
static bool has_devices(void) {
    for (size_t at = 0; at + 7 <= devices_len; at++) {
        const uint8_t *d = devices + at;
        size_t len = (size_t)d[2] << 24 | (size_t)d[3] << 16 | (size_t)d[4] << 8 | d[5];
        if (d[0] == 0 && d[1] == 6 && d[6] == '{' && at + 6 + len == devices_len) return true;
    }
    return false;
}

/* Answers on the main connection: the guest is whole, and is this end's from now on. */
static bool answer(void) {
    const uint8_t bytes[8] = {0, 1, 0, 4, 0, 0, 0, 0};
    if (send(sources[ZIMGASOL_MAIN].fd, bytes, 8, MSG_NOSIGNAL) != 8) lack("the source is gone");
    return true;
}

/* Returns whether the streams are complete. Gives up if they have a fault, as a round may. */
static bool is_done(void) {
    zimgasol_fault fault;
    zimgasol_status status = zimgasol_load_verdict(&load, &fault);
    if (status != ZIMGASOL_DONE && status != ZIMGASOL_RUNNING) fail(&fault);
    return status == ZIMGASOL_DONE;
}

/* Loads until the streams are complete and the main connection is over. */
static void receive(bool returns) {
    bool is_answered = false;
    while (!is_done() || !sources[ZIMGASOL_MAIN].is_over) {
        read_some();
        feed_all();
        if (!returns || is_answered || !has_devices()) continue;
        zimgasol_standing now = standing();
        if (now.has_all_rounds && now.missing == 0) is_answered = answer();
    }
    if (standing().missing > 0) lack("pages have no record");
    if (!has_devices()) lack("the devices' bytes are cut");
}

static void write_blocks(const char *name) {
    zimgasol_block block;
    FILE *file = fopen(name, "wb");
    if (file == NULL) die("no file for the blocks");
    for (size_t b = 0; b < blocks; b++) {
        check(zimgasol_table_block(&table, b, &block));
        printf("%s %llu\n", (char *)block.id, (unsigned long long)into[b].len);
        fwrite(into[b].bytes, 1, into[b].len, file);
        free(into[b].bytes);
    }
    if (fclose(file) != 0) die("the blocks aren't written");
}

int main(int argc, char **argv) {
    bool returns = argc > 1 && strcmp(argv[1], "-r") == 0;
    int first = returns ? 3 : 2;
    if (argc <= first || argc - first > MOST) die("from_qemu [-r] OUT FD ..");
    count = (size_t)(argc - first);
    for (int i = first; i < argc; i++) take_connection(atoi(argv[i]));
    if (channels + 1 != count) die("there isn't one main stream");
    read_table();
    make_load();
    feed_all();
    receive(returns);
    zimgasol_load_free(&load);
    write_blocks(argv[first - 1]);
    zimgasol_table_free(&table);
    printf("DONE\n");
    return fflush(stdout) != 0 ? 3 : 0;
}
