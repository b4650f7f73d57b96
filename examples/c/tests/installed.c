/* A program of somebody who has the library installed: it sends a page, loads it, and prints the
 * version. The header and the library have to be of one version. */
#include <stdio.h>
#include <string.h>
#include <zimgasol.h>

#define MAJOR ZIMGASOL_VERSION_MAJOR
#define MINOR ZIMGASOL_VERSION_MINOR
#define PATCH ZIMGASOL_VERSION_PATCH
#if !ZIMGASOL_VERSION_AT_LEAST(MAJOR, MINOR, PATCH) || !ZIMGASOL_VERSION_AT_LEAST(0, 0, 1)
#error "the header hasn't its own version, or an earlier one"
#endif
#if ZIMGASOL_VERSION_AT_LEAST(MAJOR, MINOR, PATCH + 1) ||                                          \
    ZIMGASOL_VERSION_AT_LEAST(MAJOR, MINOR + 1, 0) || ZIMGASOL_VERSION_AT_LEAST(MAJOR + 1, 0, 0)
#error "the header has a later version"
#endif

static int send_page(zimgasol_table *table, const uint8_t *page, uint8_t *stream, size_t len,
    size_t *sent) {
    zimgasol_send sender = {0};
    int done = zimgasol_send_new(&sender, table, &(zimgasol_send_settings){0}) == ZIMGASOL_DONE &&
        zimgasol_send_begin_round(&sender) == ZIMGASOL_DONE &&
        zimgasol_send_put_page(&sender, 0, 0, page, 4096) == ZIMGASOL_DONE &&
        zimgasol_send_end_round(&sender) == ZIMGASOL_DONE &&
        zimgasol_send_finish(&sender, false) == ZIMGASOL_DONE;
    *sent = done ? zimgasol_send_drain(&sender, ZIMGASOL_MAIN, stream, len) : 0;
    zimgasol_send_free(&sender);
    return done;
}

static int load_page(zimgasol_table *table, const uint8_t *stream, size_t len, uint8_t *page) {
    const zimgasol_settings settings = {.zero_blocks = 1, .whole_rounds = 1};
    zimgasol_buffer block = {page, 4096};
    zimgasol_load load = {0};
    zimgasol_fault fault;
    zimgasol_fed fed;
    int done = zimgasol_load_new(&load, table, stream, 0, 0, &settings) == ZIMGASOL_DONE &&
        zimgasol_load_feed(&load, &block, 1, ZIMGASOL_MAIN, stream, len, &fed) == ZIMGASOL_DONE &&
        zimgasol_load_verdict(&load, &fault) == ZIMGASOL_DONE && fed.taken == len;
    zimgasol_load_free(&load);
    return done;
}

int main(void) {
    static uint8_t page[4096], loaded[4096], stream[8192];
    zimgasol_block block = {.id = "pc.ram", .pages = 1};
    zimgasol_table table = {0};
    size_t entry, sent;
    memset(page, 7, sizeof page);
    if (zimgasol_version() != ZIMGASOL_VERSION_NUMBER) return 2;
    if (zimgasol_table_new(&table, 4096, &block, 1, &entry) != ZIMGASOL_DONE) return 3;
    if (!send_page(&table, page, stream, sizeof stream, &sent)) return 3;
    if (!load_page(&table, stream, sent, loaded) || memcmp(page, loaded, sizeof page) != 0)
        return 4;
    zimgasol_table_free(&table);
    puts(ZIMGASOL_VERSION);
    return 0;
}
