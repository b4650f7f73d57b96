/* Sends a file of memory, page by page, as one stream to standard output.
 *
 *   send [-p PAGE_SIZE] [-b ID] [-n PAGES] [-m NAME] FILE
 *
 * The guest has one block, of as many pages as the file has; the last one is filled up with zeros.
 * -p sets the page size (4096), -b the block's id (pc.ram), -n the most pages of a round (256). A
 * round is a section of the stream, and is drained before the next one begins. With -m it is RAM of
 * the stream of the machine NAME: a configuration stands before it, and no end byte after it.
 * Status 3: the file can't be read to its end, the output fails, or there is no memory.
 */
#include "zimgasol.h"
#include <stdio.h>
#include <stdlib.h>
#include <string.h>

/* Writes what waits of the stream. */
static int drain(zimgasol_send *sender) {
    uint8_t out[65536];
    size_t len;
    while ((len = zimgasol_send_drain(sender, ZIMGASOL_MAIN, out, sizeof out)) > 0)
        if (fwrite(out, 1, len, stdout) != len) return 0;
    return 1;
}

/* What is sent: a file of `len` bytes, page by page, through a buffer for one page. `machine` is
 * the machine's name, or null. */
typedef struct source {
    FILE *file;
    uint64_t len;
    size_t page_size;
    uint8_t *page;
    const char *machine;
} source;

/* Reads page `number`; what the last one lacks is zeros. Returns 0 if the file ends early or can't
 * be read. */
static int read_page(const source *from, uint64_t number) {
    uint64_t left = from->len - number * from->page_size;
    size_t len = left < from->page_size ? (size_t)left : from->page_size;
    if (fread(from->page, 1, len, from->file) != len) {
        fprintf(stderr, "the file can't be read to its end\n");
        return 0;
    }
    memset(from->page + len, 0, from->page_size - len);
    return 1;
}

/* Sends a round of the file's next pages. */
static int send_round(zimgasol_send *sender, const source *from, uint64_t first, uint64_t end) {
    if (zimgasol_send_begin_round(sender) != ZIMGASOL_DONE) return 0;
    for (uint64_t number = first; number < end; number++) {
        if (!read_page(from, number)) return 0;
        zimgasol_status status =
            zimgasol_send_put_page(sender, 0, number, from->page, from->page_size);
        if (status != ZIMGASOL_DONE) return 0;
    }
    return zimgasol_send_end_round(sender) == ZIMGASOL_DONE && drain(sender);
}

static int send_all(zimgasol_send *sender, source *from, uint64_t pages, uint64_t most) {
    from->page = malloc(from->page_size);
    int done = from->page != NULL;
    for (uint64_t first = 0; done && first < pages; first += most) {
        uint64_t end = pages - first < most ? pages : first + most;
        done = send_round(sender, from, first, end);
    }
    free(from->page);
    if (!done) return 0;
    return zimgasol_send_finish(sender, from->machine != NULL) == ZIMGASOL_DONE && drain(sender);
}

static int send_file(FILE *file, size_t page_size, const char *id, uint64_t most,
    const char *machine) {
    if (fseek(file, 0, SEEK_END) != 0) return 3;
    long len = ftell(file);
    if (len <= 0) return 3;
    rewind(file);

    zimgasol_block block = {.pages = ((uint64_t)len + page_size - 1) / page_size};
    /* an id without a byte 0 is too long, and the table says so */
    memcpy(block.id, id, strlen(id) < sizeof block.id ? strlen(id) : sizeof block.id);
    zimgasol_table table = {0};
    zimgasol_send sender = {0};
    zimgasol_send_settings settings = {.named = machine != NULL};
    size_t entry = 0;
    if (machine != NULL) {
        settings.name_len = strlen(machine);
        memcpy(settings.name, machine, settings.name_len < 1024 ? settings.name_len : 1024);
    }
    zimgasol_status status = zimgasol_table_new(&table, page_size, &block, 1, &entry);
    if (status != ZIMGASOL_DONE) {
        fprintf(stderr, "no table: %d\n", (int)status);
        return 3;
    }
    status = zimgasol_send_new(&sender, &table, &settings);
    zimgasol_table_free(&table);
    if (status != ZIMGASOL_DONE) return 3;
    source from = {.file = file, .len = (uint64_t)len, .page_size = page_size, .machine = machine};
    int done = send_all(&sender, &from, block.pages, most);
    zimgasol_send_free(&sender);
    return done && fflush(stdout) == 0 ? 0 : 3;
}

int main(int count, char **words) {
    size_t page_size = 4096;
    uint64_t most = 256;
    const char *id = "pc.ram", *machine = NULL;
    int i = 1;
    for (; i + 1 < count && words[i][0] == '-'; i += 2) {
        if (strcmp(words[i], "-p") == 0) page_size = strtoull(words[i + 1], NULL, 10);
        else if (strcmp(words[i], "-b") == 0) id = words[i + 1];
        else if (strcmp(words[i], "-n") == 0) most = strtoull(words[i + 1], NULL, 10);
        else if (strcmp(words[i], "-m") == 0) machine = words[i + 1];
    }
    FILE *file = i < count && page_size > 0 && most > 0 ? fopen(words[i], "rb") : NULL;
    if (file == NULL) {
        fprintf(stderr, "send [-p PAGE_SIZE] [-b ID] [-n PAGES] [-m NAME] FILE\n");
        return 3;
    }
    int status = send_file(file, page_size, id, most, machine);
    fclose(file);
    return status;
}
