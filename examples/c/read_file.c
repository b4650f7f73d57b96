/* Loads the file of a saved stream into blocks that it finds in the file.
 *
 *   read_file FILE [OUTPUT]
 *
 * FILE is one stream of 4096-byte pages, as QEMU or this library writes it. The program prints each
 * block, how many pages the stream left out, and where RAM ends in the file. It writes the blocks
 * to OUTPUT, one after another. Status 1: the stream has a fault; 2: it lacks pages; 3: the program
 * can't go on.
 */
#include "zimgasol.h"
#include <stdio.h>
#include <stdlib.h>

enum { PAGE = 4096, MOST = 256 };

/* How much memory a guest may have. The file says how much it wants. */
#define LIMIT ((uint64_t)64 << 30)

static uint8_t piece[32 * PAGE]; /* longer than what stands before the pages */
static zimgasol_buffer into[MOST];
static size_t blocks;

static int fail(const char *what) {
    fprintf(stderr, "%s\n", what);
    return 3;
}

/* Finds the table in the first bytes of a file, and returns how many were read. If there is none,
 * *at is the byte at which the fault begins. */
static size_t find_table(FILE *file, zimgasol_table *table, zimgasol_status *status,
    uint64_t *at) {
    size_t len = 0, more;
    do {
        more = sizeof piece - len < PAGE ? sizeof piece - len : PAGE;
        more = fread(piece + len, 1, more, file);
        len += more;
        *status = zimgasol_table_of_stream(table, PAGE, ZIMGASOL_FRAME_MACHINE, piece, len, at);
    } while (*status == ZIMGASOL_RUNNING && more > 0);
    return len;
}

/* Allocates the blocks of a table, of zeros. `calloc` takes no memory of the system for pages that
 * aren't written, and a mapping of a file does as well. */
static int allocate(zimgasol_table *table) {
    zimgasol_block block;
    uint64_t total = 0;
    for (; zimgasol_table_block(table, blocks, &block) == ZIMGASOL_DONE; blocks++) {
        total += block.pages * PAGE;
        into[blocks].len = block.pages * PAGE;
        into[blocks].bytes = total > LIMIT ? NULL : calloc(block.pages, PAGE);
        if (into[blocks].bytes == NULL) return 0;
        printf("%s: %llu pages\n", (const char *)block.id, (unsigned long long)block.pages);
    }
    return 1;
}

/* Feeds the first `len` bytes, which were read already, and then the rest of the file. */
static zimgasol_status feed_file(zimgasol_load *load, FILE *file, size_t len) {
    zimgasol_status status = ZIMGASOL_DONE;
    zimgasol_fed fed; /* of one stream all bytes are taken */
    for (; status == ZIMGASOL_DONE && len > 0; len = fread(piece, 1, sizeof piece, file))
        status = zimgasol_load_feed(load, into, blocks, ZIMGASOL_MAIN, piece, len, &fed);
    return status == ZIMGASOL_DONE ? zimgasol_load_end(load, ZIMGASOL_MAIN) : status;
}

/* Prints how the load ended. Returns the status of the program. */
static int report(zimgasol_load *load) {
    zimgasol_fault fault;
    zimgasol_source stream;
    zimgasol_standing standing;
    char text[256];
    if (zimgasol_load_verdict(load, &fault) != ZIMGASOL_DONE) {
        zimgasol_load_source(load, ZIMGASOL_MAIN, &stream);
        if (stream.is_known)
            zimgasol_fault_text_at(&fault, stream.valid_up_to, text, sizeof text);
        else zimgasol_fault_text(&fault, text, sizeof text);
        fprintf(stderr, "%s\n", text);
        return 1;
    }
    zimgasol_load_standing(load, &standing);
    printf("%llu sections, %llu pages missing, RAM ends at byte %llu\n",
        (unsigned long long)standing.rounds, (unsigned long long)standing.missing,
        (unsigned long long)standing.closed_at);
    return standing.missing > 0 ? 2 : 0;
}

static int write_blocks(const char *name) {
    FILE *file = fopen(name, "wb");
    if (file == NULL) return 0;
    int done = 1;
    for (size_t i = 0; i < blocks; i++)
        done = done && fwrite(into[i].bytes, 1, into[i].len, file) == into[i].len;
    return fclose(file) == 0 && done;
}

int main(int argc, char **argv) {
    const zimgasol_settings settings = {.frame = ZIMGASOL_FRAME_MACHINE, .zero_blocks = 1};
    zimgasol_table table = {0};
    zimgasol_load load = {0};
    zimgasol_status status;
    FILE *file = argc == 2 || argc == 3 ? fopen(argv[1], "rb") : NULL;
    if (file == NULL) return fail("read_file FILE [OUTPUT]");
    uint64_t at = 0;
    size_t len = find_table(file, &table, &status, &at);
    if (status == ZIMGASOL_RUNNING) status = ZIMGASOL_STREAM_TRUNCATED;
    if (status != ZIMGASOL_DONE) {
        fprintf(stderr, "no blocks: byte %llu: %s\n", (unsigned long long)at,
            zimgasol_status_text(status));
        return 1;
    }
    if (!allocate(&table)) return fail("the guest is too large");
    /* no channels: one stream, which has no UUID */
    status = zimgasol_load_new(&load, &table, (const uint8_t *)"", 0, 0, &settings);
    zimgasol_table_free(&table);
    if (status == ZIMGASOL_DONE) status = feed_file(&load, file, len);
    if (status != ZIMGASOL_DONE) return fail(zimgasol_status_text(status));
    if (ferror(file)) return fail("the file can't be read");
    fclose(file);
    int ended = report(&load);
    zimgasol_load_free(&load);
    if (argc == 3 && !write_blocks(argv[2])) ended = fail(argv[2]);
    for (size_t i = 0; i < blocks; i++) free(into[i].bytes);
    return fflush(stdout) != 0 ? 3 : ended;
}
