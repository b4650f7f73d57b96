/* Times a load that reads each page from a file straight into its block, beside plain reads of the
 * same file into the same blocks.
 *
 *   next_buffer FILE PAGES
 *
 * FILE is a stream of one block, `pc.ram` of PAGES pages of 4096 bytes, in a file system in memory.
 * One `readv` reads a page and the head of the record after it. Prints the least of five times
 * each, in milliseconds: of the load; of the same `readv`s without the library; of plain reads of a
 * page each, which lie at page boundaries of the file; and of plain reads of 1 MiB.
 */
#define _GNU_SOURCE
#include "standing.h"
#include "zimgasol.h"
#include <fcntl.h>
#include <stdio.h>
#include <stdlib.h>
#include <sys/mman.h>
#include <sys/uio.h>
#include <time.h>
#include <unistd.h>

enum { PAGE = 4096, HEAD = 8, LARGE = 1 << 20, TURNS = 5 };

static zimgasol_table table;
static uint8_t *ram;
static size_t ram_len;

static double now(void) {
    struct timespec at;
    clock_gettime(CLOCK_MONOTONIC, &at);
    return at.tv_sec * 1e3 + at.tv_nsec / 1e6;
}

/* Reads the page that comes next into its block, and the head of the next record. */
static zimgasol_status read_page(zimgasol_load *load, zimgasol_buffer *block,
    const zimgasol_next *next, int file) {
    uint8_t head[HEAD];
    struct iovec parts[2] = {{block->bytes + next->offset, next->len}, {head, HEAD}};
    size_t taken;
    ssize_t len = readv(file, parts, 2);
    if (len < (ssize_t)next->len) return ZIMGASOL_STREAM_TRUNCATED;
    zimgasol_status status = zimgasol_load_page_read(load, block, 1);
    if (status != ZIMGASOL_DONE) return status;
    return told_feed(load, block, 1, ZIMGASOL_MAIN, head, (size_t)len - next->len, &taken);
}

/* Reads other bytes of the stream. */
static zimgasol_status read_bytes(zimgasol_load *load, zimgasol_buffer *block, size_t len,
    int file) {
    uint8_t piece[64];
    size_t taken;
    ssize_t count = read(file, piece, len < sizeof piece ? len : sizeof piece);
    if (count <= 0) return ZIMGASOL_STREAM_TRUNCATED;
    return told_feed(load, block, 1, ZIMGASOL_MAIN, piece, (size_t)count, &taken);
}

static int load_pages(int file) {
    const zimgasol_settings settings = {.frame = ZIMGASOL_FRAME_RAM};
    zimgasol_load load = {0};
    zimgasol_buffer block = {ram, ram_len};
    zimgasol_next next;
    zimgasol_fault fault;
    zimgasol_status status = zimgasol_load_new(&load, &table, (const uint8_t *)"", 0, 0, &settings);
    while (status == ZIMGASOL_DONE && zimgasol_load_wanted(&load, &next))
        status = next.is_page ? read_page(&load, &block, &next, file)
                              : read_bytes(&load, &block, next.len, file);
    if (status == ZIMGASOL_DONE) status = zimgasol_load_verdict(&load, &fault);
    zimgasol_load_free(&load);
    return status == ZIMGASOL_DONE;
}

/* Reads as many bytes as the block has, by pieces of one length. */
static int read_plain(int file, size_t piece) {
    for (size_t at = 0; at < ram_len;) {
        ssize_t len = read(file, ram + at, piece < ram_len - at ? piece : ram_len - at);
        if (len <= 0) return 0;
        at += (size_t)len;
    }
    return 1;
}

/* Reads as many pages as the block has, and with each as many bytes as a record's head has. */
static int read_alike(int file) {
    uint8_t head[HEAD];
    for (size_t at = 0; at < ram_len; at += PAGE) {
        struct iovec parts[2] = {{ram + at, PAGE}, {head, HEAD}};
        if (readv(file, parts, 2) < PAGE) return 0;
    }
    return 1;
}

enum way { LOAD, ALIKE, PAGES, PIECES };

static int read_in(enum way way, int file) {
    if (way == LOAD) return load_pages(file);
    if (way == ALIKE) return read_alike(file);
    return read_plain(file, way == PAGES ? PAGE : LARGE);
}

/* Returns the least time of a way to read the file. */
static double least_time(const char *name, enum way way) {
    double least = -1;
    for (int turn = 0; turn < TURNS; turn++) {
        int file = open(name, O_RDONLY);
        double began = now();
        int done = file >= 0 && read_in(way, file);
        double took = now() - began;
        if (!done) {
            fprintf(stderr, "%s can't be read, or isn't such a stream\n", name);
            exit(3);
        }
        close(file);
        if (least < 0 || took < least) least = took;
    }
    return least;
}

int main(int count, char **words) {
    zimgasol_block block = {.id = "pc.ram", .pages = count == 3 ? strtoull(words[2], NULL, 10) : 0};
    size_t entry;
    ram_len = block.pages * PAGE;
    if (zimgasol_table_new(&table, PAGE, &block, 1, &entry) != ZIMGASOL_DONE) return 3;
    ram = mmap(NULL, ram_len, PROT_READ | PROT_WRITE, MAP_PRIVATE | MAP_ANONYMOUS, -1, 0);
    if (ram == MAP_FAILED) return 3;
    read_plain(open(words[1], O_RDONLY), LARGE); /* the block is in use from here on */
    double load = least_time(words[1], LOAD), alike = least_time(words[1], ALIKE);
    double page = least_time(words[1], PAGES), large = least_time(words[1], PIECES);
    printf("load %.1f ms; the same readvs alone %.1f ms: %.2f times; plain, a page each, %.1f ms: "
           "%.2f times; plain, 1 MiB each, %.1f ms: %.2f\n",
        load, alike, load / alike, page, load / page, large, load / large);
    munmap(ram, ram_len);
    zimgasol_table_free(&table);
    return 0;
}
