/* Prints how much memory a load into blocks takes beside the guest.
 *
 *   held PAGES MAIN [CHANNEL ..]
 *
 * MAIN is a stream of one block, `pc.ram` of PAGES pages of 4096 bytes; with channels it is their
 * main stream, and the files are read by turns, 64 KiB each. The block is in use before, so that
 * what the process takes more at its peak is the load's, with the buffers of this program.
 */
#define _GNU_SOURCE
#include "standing.h"
#include "zimgasol.h"
#include <fcntl.h>
#include <stdbool.h>
#include <stdio.h>
#include <stdlib.h>
#include <string.h>
#include <sys/mman.h>
#include <unistd.h>

enum { PAGE = 4096, PIECE = 1 << 16, MOST = 16 };

/* A file, and what was read of it and not taken yet. */
typedef struct source {
    int file;
    bool ended;
    size_t from, to;
    uint8_t bytes[PIECE];
} source;

static const uint8_t uuid[16] = {0};
static zimgasol_buffer block;
static zimgasol_fault fault;

static void give_up(const char *why) {
    fprintf(stderr, "%s\n", why);
    exit(3);
}

/* Returns a number of /proc/self/status, in KiB. */
static long status_of(const char *name) {
    char line[256];
    long found = -1;
    FILE *file = fopen("/proc/self/status", "r");
    while (file != NULL && fgets(line, sizeof line, file) != NULL)
        if (strncmp(line, name, strlen(name)) == 0)
            found = strtol(line + strlen(name) + 1, NULL, 10);
    if (file != NULL) fclose(file);
    return found;
}

/* Reads the next piece of a source, if all that was read before is taken. */
static void fill(source *of) {
    if (of->from < of->to || of->ended) return;
    ssize_t len = read(of->file, of->bytes, PIECE);
    if (len < 0) give_up("a file can't be read");
    of->from = 0;
    of->to = (size_t)len;
    of->ended = len == 0;
}

/* Gives a source its turn. */
static void take_turn(zimgasol_load *load, source *sources, size_t s) {
    size_t taken;
    source *of = &sources[s];
    if (!zimgasol_load_takes(load, s)) return;
    fill(of);
    zimgasol_status status;
    if (of->ended) {
        status = zimgasol_load_end(load, s);
        if (status != ZIMGASOL_DONE) give_up(zimgasol_status_text(status));
        return;
    }
    status =
        told_feed(load, &block, 1, s, of->bytes + of->from, of->to - of->from, &taken);
    if (status != ZIMGASOL_DONE) give_up(zimgasol_status_text(status));
    of->from += taken;
}

/* Loads one stream, if there are no channels, or the main stream and these. */
static zimgasol_status load(zimgasol_table *table, source *sources, size_t channels) {
    const zimgasol_settings settings = {.frame = ZIMGASOL_FRAME_RAM};
    zimgasol_load load = {0};
    zimgasol_status status = zimgasol_load_new(&load, table, uuid, 16, channels, &settings);
    if (status != ZIMGASOL_DONE) return status;
    while ((status = zimgasol_load_verdict(&load, &fault)) == ZIMGASOL_RUNNING)
        for (size_t s = 0; s <= channels; s++) take_turn(&load, sources, s);
    zimgasol_load_free(&load);
    return status;
}

int main(int count, char **words) {
    static source sources[1 + MOST];
    zimgasol_table table = {0};
    zimgasol_block named = {.id = "pc.ram", .pages = count > 2 ? strtoull(words[1], NULL, 10) : 0};
    size_t entry, channels = count > 3 ? (size_t)count - 3 : 0;
    if (channels > MOST) give_up("too many channels");
    if (zimgasol_table_new(&table, PAGE, &named, 1, &entry) != ZIMGASOL_DONE) give_up("no table");
    for (size_t s = 0; s <= channels; s++)
        if ((sources[s].file = open(words[2 + s], O_RDONLY)) < 0) give_up("a file can't be opened");
    block.len = named.pages * PAGE;
    block.bytes = mmap(NULL, block.len, PROT_READ | PROT_WRITE, MAP_PRIVATE | MAP_ANONYMOUS, -1, 0);
    if (block.bytes == MAP_FAILED) give_up("no memory");
    memset(block.bytes, 1, block.len);
    long before = status_of("VmRSS:");
    zimgasol_status status = load(&table, sources, channels);
    if (status != ZIMGASOL_DONE) give_up(zimgasol_status_text(status));
    printf("%ld KiB beside the guest\n", status_of("VmHWM:") - before);
    munmap(block.bytes, block.len);
    zimgasol_table_free(&table);
    return 0;
}
