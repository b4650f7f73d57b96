/* Loads a stream from standard input, as it comes, and prints the result.
 *
 *   load [-p PAGE_SIZE] [-l LIMIT] [-c BYTES] [-o FILE] [-f machine] [ID=PAGES ..]
 *
 * Each ID=PAGES is a block of the machine that is to run the guest, in the stream's order. Its
 * pages are written as they come: after a fault the blocks have the page records before it. Without
 * blocks the program finds those of the stream, of at most LIMIT bytes (2^30), and writes complete
 * sections alone. -p sets the page size (4096), and -c the length of the pieces that are fed
 * (65536). -o writes the blocks to a file, one after another, with holes for pages of zeros. With
 * `-f machine` it reads a machine's stream, as QEMU writes it, up to the end of RAM.
 *
 * It prints `single BYTES sections S`, with status 0. After a fault it prints `fault N round R`,
 * with status 1, and the fault's text to standard error. If it can't go on it prints why, with
 * status 3.
 */
#define _DEFAULT_SOURCE
#include "zimgasol.h"
#include <fcntl.h>
#include <stdio.h>
#include <stdlib.h>
#include <string.h>
#include <unistd.h>

enum { MOST = 256 };

/* What is asked for. */
static uint64_t page_size = 4096, limit = 1 << 30;
static size_t cut = 65536;
static const char *output;
static zimgasol_settings settings = {.zero_blocks = 1};

static zimgasol_block blocks[MOST];
static zimgasol_buffer into[MOST];
static size_t count;

/* The first bytes of the stream, up to its table and some more, where the program has to find it:
 * 256 blocks have less than 70,000. */
static uint8_t first[1 << 17];
static size_t first_len;

static int fail(const char *what) {
    fprintf(stderr, "%s\n", what);
    return 3;
}

static int print_fault(uint32_t number, uint64_t round, const char *text) {
    fprintf(stderr, "%s\n", text);
    printf("fault %u round %llu\n", number, (unsigned long long)round);
    return 1;
}

/* ---- the blocks */

/* Takes a block's id and number of pages from a word. Returns 0 if the word has none. */
static int add_block(const char *word) {
    const char *equals = strchr(word, '=');
    uint64_t pages = equals == NULL ? 0 : strtoull(equals + 1, NULL, 10);
    if (pages == 0 || pages > (1ULL << 40) / page_size || equals - word > 255 || count == MOST)
        return 0;
    memcpy(blocks[count].id, word, (size_t)(equals - word));
    blocks[count++].pages = pages;
    return 1;
}

/* Reads the first bytes of the stream until they have its table. */
static zimgasol_status find_table(zimgasol_table *table) {
    zimgasol_status status;
    uint64_t at;
    size_t more;
    do {
        more = sizeof first - first_len < 4096 ? sizeof first - first_len : 4096;
        more = fread(first + first_len, 1, more, stdin);
        first_len += more;
        status = zimgasol_table_of_stream(table, page_size, settings.frame, first, first_len,
            &at);
    } while (status == ZIMGASOL_RUNNING && more > 0);
    if (status == ZIMGASOL_DONE)
        while (zimgasol_table_block(table, count, &blocks[count]) == ZIMGASOL_DONE) count++;
    return status == ZIMGASOL_RUNNING ? ZIMGASOL_STREAM_TRUNCATED : status;
}

/* Allocates the blocks, of zeros: `calloc` takes no memory of the system for pages that aren't
 * written. Returns 0 if there is none. */
static int allocate(void) {
    for (size_t i = 0; i < count; i++) {
        into[i].len = blocks[i].pages * page_size;
        into[i].bytes = calloc(blocks[i].pages, page_size);
        if (into[i].bytes == NULL) return 0;
    }
    return 1;
}

static uint64_t total(void) {
    uint64_t bytes = 0;
    for (size_t i = 0; i < count; i++) bytes += blocks[i].pages * page_size;
    return bytes;
}

/* ---- the load */

/* Feeds a piece of one stream, which takes all of it. */
static zimgasol_status feed(zimgasol_load *load, const uint8_t *piece, size_t len) {
    zimgasol_fed fed;
    return zimgasol_load_feed(load, into, count, ZIMGASOL_MAIN, piece, len, &fed);
}

/* Feeds what was read already, and then the rest of standard input. */
static zimgasol_status feed_input(zimgasol_load *load) {
    uint8_t *piece = malloc(cut);
    zimgasol_status status = piece == NULL ? ZIMGASOL_NO_MEMORY : ZIMGASOL_DONE;
    size_t len;
    for (size_t at = 0; status == ZIMGASOL_DONE && at < first_len; at += len) {
        len = first_len - at < cut ? first_len - at : cut;
        status = feed(load, first + at, len);
    }
    while (status == ZIMGASOL_DONE && (len = fread(piece, 1, cut, stdin)) > 0)
        status = feed(load, piece, len);
    free(piece);
    return status == ZIMGASOL_DONE ? zimgasol_load_end(load, ZIMGASOL_MAIN) : status;
}

/* Prints how the load ended. Returns the status of the program. */
static int report(zimgasol_load *load) {
    zimgasol_fault fault;
    char text[256];
    if (zimgasol_load_verdict(load, &fault) == ZIMGASOL_DONE) {
        zimgasol_standing standing;
        zimgasol_source stream;
        zimgasol_load_standing(load, &standing);
        zimgasol_load_source(load, ZIMGASOL_MAIN, &stream);
        printf("single %llu sections %llu\n", (unsigned long long)stream.fed,
            (unsigned long long)standing.rounds);
        return 0;
    }
    zimgasol_fault_text(&fault, text, sizeof text);
    return print_fault(fault.number, fault.round, text);
}

/* Loads into the blocks, of zeros, and says how it ended. */
static int load_input(zimgasol_table *table) {
    zimgasol_load load = {0};
    /* no channels: one stream, which has no UUID */
    zimgasol_status status = zimgasol_load_new(&load, table, first, 0, 0, &settings);
    if (status == ZIMGASOL_DONE) status = feed_input(&load);
    int ended = status == ZIMGASOL_DONE ? report(&load) : fail(zimgasol_status_text(status));
    if (ferror(stdin)) ended = fail("standard input can't be read");
    zimgasol_load_free(&load);
    return ended;
}

/* ---- the output */

static int is_zero(const uint8_t *page) {
    return page[0] == 0 && memcmp(page, page + 1, page_size - 1) == 0;
}

/* Writes the pages of a block that aren't zeros to their places in a file. */
static int write_block(const zimgasol_buffer *block, int file, uint64_t start) {
    size_t at = 0, end;
    for (; at < block->len; at = end) {
        for (end = at; end < block->len && !is_zero(block->bytes + end);) end += page_size;
        for (size_t from = at; from < end;) {
            ssize_t len = pwrite(file, block->bytes + from, end - from, (off_t)(start + from));
            if (len <= 0) return 0;
            from += (size_t)len;
        }
        while (end < block->len && is_zero(block->bytes + end)) end += page_size;
    }
    return 1;
}

/* Writes the blocks to a file, which is as long as the guest, also if its last pages are zeros. */
static int write_blocks(void) {
    int file = open(output, O_WRONLY | O_CREAT | O_TRUNC, 0644), done = file >= 0;
    uint64_t start = 0;
    for (size_t i = 0; done && i < count; start += into[i++].len)
        done = write_block(&into[i], file, start);
    done = done && ftruncate(file, (off_t)start) == 0;
    if (file >= 0 && close(file) != 0) done = 0;
    return done;
}

int main(int argc, char **argv) {
    zimgasol_table table = {0};
    zimgasol_status status;
    size_t entry;
    int i = 1;
    for (; i + 1 < argc && argv[i][0] == '-'; i += 2) {
        if (strcmp(argv[i], "-p") == 0) page_size = strtoull(argv[i + 1], NULL, 10);
        else if (strcmp(argv[i], "-l") == 0) limit = strtoull(argv[i + 1], NULL, 10);
        else if (strcmp(argv[i], "-c") == 0) cut = strtoull(argv[i + 1], NULL, 10);
        else if (strcmp(argv[i], "-o") == 0) output = argv[i + 1];
        else if (strcmp(argv[i], "-f") == 0 && strcmp(argv[i + 1], "machine") == 0)
            settings.frame = ZIMGASOL_FRAME_MACHINE;
        else break;
    }
    while (i < argc && page_size > 0 && cut > 0 && add_block(argv[i])) i++;
    if (i < argc || page_size == 0 || cut == 0)
        return fail("load [-p PAGE_SIZE] [-l LIMIT] [-c BYTES] [-o FILE] [-f machine] "
                    "[ID=PAGES ..]");
    settings.whole_rounds = count == 0;
    status = count > 0 ? zimgasol_table_new(&table, page_size, blocks, count, &entry) :
                         find_table(&table);
    if (status >= 11 && status < ZIMGASOL_NO_MEMORY)
        return print_fault(status, 0, zimgasol_status_text(status));
    if (status != ZIMGASOL_DONE) return fail(zimgasol_status_text(status));
    if (settings.whole_rounds && total() > limit) return fail("the guest is too large");
    if (!allocate()) return fail("no memory for the blocks");
    int ended = load_input(&table);
    zimgasol_table_free(&table);
    if (ended != 3 && output != NULL && !write_blocks()) ended = fail(output);
    for (size_t b = 0; b < count; b++) free(into[b].bytes);
    return fflush(stdout) != 0 ? fail("standard output") : ended;
}
