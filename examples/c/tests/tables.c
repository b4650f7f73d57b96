/* The table of a stream, from its first bytes: of each number of them, in each frame, with a fault
 * before the table, and with each allocation refused in turn. The blocks are read out of it, and a
 * load into blocks of it reads the stream. */
#include "refusing.h"
#include "sends.h"
#include "standing.h"
#include "zimgasol.h"
#include <string.h>

enum { PAGE = 4096, MOST = 1 << 16, TABLE_AT = 65 };

static const zimgasol_block blocks[2] = {{"pc.ram", 2}, {"vga.vram", 1}};
static uint8_t stream[MOST], guest[3 * PAGE];
static size_t stream_len;

/* A stream of three pages; or with a name that of a machine, which isn't ended. */
static int send(const char *name) {
    zimgasol_table table = {0};
    zimgasol_send sender = {0};
    size_t entry;
    WANT(zimgasol_table_new(&table, PAGE, blocks, 2, &entry) == ZIMGASOL_DONE);
    if (name != NULL)
        WANT(new_named(&sender, &table, (const uint8_t *)name, strlen(name)) ==
             ZIMGASOL_DONE);
    else
        WANT(zimgasol_send_new(&sender, &table, &(zimgasol_send_settings){0}) == ZIMGASOL_DONE);
    zimgasol_table_free(&table);
    WANT(zimgasol_send_begin_round(&sender) == ZIMGASOL_DONE);
    for (size_t p = 0; p < 3; p++)
        WANT(zimgasol_send_put_page(&sender, p / 2, p % 2, guest + p * PAGE, PAGE) ==
             ZIMGASOL_DONE);
    WANT(zimgasol_send_end_round(&sender) == ZIMGASOL_DONE);
    if (name != NULL)
        WANT(zimgasol_send_finish(&sender, true) == ZIMGASOL_DONE);
    else
        WANT(zimgasol_send_finish(&sender, false) == ZIMGASOL_DONE);
    stream_len = zimgasol_send_drain(&sender, ZIMGASOL_MAIN, stream, MOST);
    zimgasol_send_free(&sender);
    return 0;
}

/* The table has the two blocks, and no third one. */
static int has_blocks(zimgasol_table *table) {
    zimgasol_block found;
    WANT(zimgasol_table_blocks(table) == 2);
    for (size_t i = 0; i < 2; i++) {
        memset(&found, 0xFF, sizeof found);
        WANT(zimgasol_table_block(table, i, &found) == ZIMGASOL_DONE);
        WANT(memcmp(&found, &blocks[i], sizeof found) == 0);
    }
    zimgasol_block before = found;
    WANT(zimgasol_table_block(table, 2, &found) == ZIMGASOL_NO_PAGE);
    WANT(zimgasol_table_block(table, SIZE_MAX, &found) == ZIMGASOL_NO_PAGE);
    WANT(memcmp(&found, &before, sizeof found) == 0);
    return 0;
}

/* With as many of the first bytes as have the table, and more, it is there; with fewer more of them
 * are needed. */
static int in_frame(zimgasol_frame frame, size_t table_at) {
    zimgasol_table table = {0};
    for (size_t n = 0; n <= stream_len; n += n < 2 * table_at ? 1 : 1000) {
        uint64_t at = UINT64_MAX;
        zimgasol_status status = zimgasol_table_of_stream(&table, PAGE, frame, stream, n, &at);
        WANT(status == (n < table_at ? ZIMGASOL_RUNNING : ZIMGASOL_DONE));
        WANT(at <= n && (n >= table_at || at < table_at));
        if (status == ZIMGASOL_DONE && has_blocks(&table)) return 1;
        zimgasol_table_free(&table);
    }
    return 0;
}

/* A load into blocks of the table reads the stream. */
static int is_loaded(void) {
    static uint8_t ram[2 * PAGE], vram[PAGE];
    zimgasol_buffer into[2] = {{ram, sizeof ram}, {vram, sizeof vram}};
    zimgasol_settings settings = {.frame = ZIMGASOL_FRAME_RAM};
    zimgasol_table table = {0};
    zimgasol_load load = {0};
    zimgasol_fault found;
    size_t taken;
    uint64_t at;
    WANT(zimgasol_table_of_stream(&table, PAGE, ZIMGASOL_FRAME_RAM, stream, stream_len, &at) ==
         ZIMGASOL_DONE);
    WANT(zimgasol_load_new(&load, &table, guest, 0, 0, &settings) == ZIMGASOL_DONE);
    WANT(told_feed(&load, into, 2, ZIMGASOL_MAIN, stream, stream_len, &taken) ==
         ZIMGASOL_DONE);
    WANT(zimgasol_load_verdict(&load, &found) == ZIMGASOL_DONE && taken == stream_len);
    WANT(memcmp(ram, guest, sizeof ram) == 0);
    WANT(memcmp(vram, guest + sizeof ram, sizeof vram) == 0);
    zimgasol_load_free(&load);
    zimgasol_table_free(&table);
    return 0;
}

static zimgasol_status first_bytes(zimgasol_table *table, const uint8_t *bytes, size_t len,
    uint64_t *at) {
    return zimgasol_table_of_stream(table, PAGE, ZIMGASOL_FRAME_RAM, bytes, len, at);
}

/* Wrong arguments, and a fault before the table, at the byte where its item begins. None behind it
 * counts. */
static int faults(void) {
    zimgasol_table table = {0};
    zimgasol_frame none = (zimgasol_frame)7;
    uint8_t bytes[2 * TABLE_AT];
    uint64_t at = 7;
    memcpy(bytes, stream, sizeof bytes);
    WANT(zimgasol_table_of_stream(&table, 4095, none, bytes, 0, &at) == ZIMGASOL_BAD_PAGE_SIZE);
    WANT(zimgasol_table_of_stream(&table, PAGE, none, bytes, 0, &at) == ZIMGASOL_BAD_FRAME);
    WANT(at == 7);
    bytes[0] = 'q';
    WANT(first_bytes(&table, bytes, 3, &at) == ZIMGASOL_RUNNING && at == 0);
    WANT(first_bytes(&table, bytes, TABLE_AT, &at) == 11 && at == 0);
    bytes[0] = 'Q', bytes[7] = 4;
    WANT(first_bytes(&table, bytes, TABLE_AT, &at) == 12 && at == 0); /* the header is one item */
    bytes[7] = 3, bytes[8] = 9; /* the section type of START */
    WANT(first_bytes(&table, bytes, TABLE_AT, &at) == 13 && at == 8);
    WANT(table.full == 0);
    bytes[8] = 1, bytes[TABLE_AT] = 0xFF;
    WANT(first_bytes(&table, bytes, sizeof bytes, &at) == ZIMGASOL_DONE);
    zimgasol_table_free(&table);
    return 0;
}

/* Each allocation refused: the table isn't there, and nothing is held. */
static int refusals_of(void) {
    zimgasol_table table = {0};
    zimgasol_status status = ZIMGASOL_NO_MEMORY;
    uint64_t at = 7;
    long before = held;
    for (long nth = 1; status != ZIMGASOL_DONE; nth++) {
        counted = 0, refused = nth;
        status = first_bytes(&table, stream, stream_len, &at);
        refused = 0;
        WANT(status == ZIMGASOL_DONE || at == 7);
        WANT(status == (counted < nth ? ZIMGASOL_DONE : ZIMGASOL_NO_MEMORY));
        WANT(status == ZIMGASOL_DONE || (held == before && table.full == 0));
    }
    zimgasol_table_free(&table);
    WANT(held == before && refusals > 2);
    return 0;
}

int main(void) {
    for (size_t i = 0; i < sizeof guest; i++) guest[i] = (uint8_t)(i / PAGE + 1);
    if (send(NULL) || in_frame(ZIMGASOL_FRAME_RAM, TABLE_AT) || is_loaded() || faults()) return 1;
    if (refusals_of()) return 1;
    /* before RAM's section a machine's stream has a byte 7, the name's length in 4 bytes and the
     * name */
    if (send("pc-q35") || in_frame(ZIMGASOL_FRAME_MACHINE, TABLE_AT + 1 + 4 + 6)) return 1;
    printf("tables of streams: each number of first bytes, %ld refused allocations\n", refusals);
    return 0;
}
