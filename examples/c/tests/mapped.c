/* Files with mapped-ram: one is sent and loaded again, in memory. It is cut at each byte of its
 * parts, has faults, is passed in pieces, and each allocation is refused in turn. Calls out of
 * order and without a page are refused. */
#include "refusing.h"
#include "zimgasol.h"
#include <stdbool.h>
#include <string.h>

enum { PAGE = 4096, RAM = 70, VRAM = 3, MIB = 1 << 20, ROOM = 3 * MIB };

static const zimgasol_block blocks[2] = {{"pc.ram", RAM}, {"vga.vram", VRAM}};
static const size_t pages[2] = {RAM, VRAM};
static uint8_t guest[2][RAM * PAGE], loaded[2][RAM * PAGE];
static uint8_t file[ROOM];
static size_t file_len, list_at, heads[3], head_lens[2];

/* Whether a page isn't zeros: 0, 1, 2, 5, 63, 64, 69 of the first block, and 1 of the second. */
static bool has(size_t block, uint64_t page) {
    return block ? page == 1 : page < 3 || page == 5 || page == 63 || page == 64 || page == 69;
}

/* Writes a page that was marked, if it isn't zeros. */
static void put(zimgasol_mapped_send *send, size_t block, uint64_t page, bool has_content) {
    uint64_t offset = 0;
    WANT(zimgasol_mapped_send_mark(send, block, page, has_content, &offset) == ZIMGASOL_DONE);
    WANT(offset % PAGE == 0 && offset + PAGE <= ROOM);
    if (has_content) memcpy(file + offset, guest[block] + page * PAGE, PAGE);
}

/* Sends the guest: all pages as if they had contents, and then each as it is. */
static void send_file(zimgasol_mapped_send *send) {
    zimgasol_part at = {0, 0};
    for (size_t b = 0; b < 2; b++)
        for (uint64_t p = 0; p < pages[b]; p++) put(send, b, p, true);
    for (size_t b = 0; b < 2; b++)
        for (uint64_t p = 0; p < pages[b]; p++) put(send, b, p, has(b, p));
    uint64_t offset = 7;
    WANT(zimgasol_mapped_send_mark(send, 2, 0, true, &offset) == ZIMGASOL_NO_PAGE);
    WANT(zimgasol_mapped_send_mark(send, 1, VRAM, true, &offset) == ZIMGASOL_NO_PAGE);
    WANT(zimgasol_mapped_send_mark(send, SIZE_MAX, UINT64_MAX, true, &offset) == ZIMGASOL_NO_PAGE);
    WANT(offset == 7);
    static uint8_t bytes[4096];
    for (size_t part = 0; part < 4; part++) {
        zimgasol_status status = zimgasol_mapped_send_part(send, part, bytes, 1, &at);
        if (status == ZIMGASOL_NO_MEMORY && refusals == 1)
            status = zimgasol_mapped_send_part(send, part, bytes, 1, &at);
        WANT(status == ZIMGASOL_BAD_LENGTH);
        AGAIN(zimgasol_mapped_send_part(send, part, bytes, at.len, &at));
        WANT(at.offset + at.len <= ROOM);
        memcpy(file + at.offset, bytes, at.len);
        if (part == 0) list_at = at.len;
        if (part == 1 || part == 2) head_lens[part - 1] = at.len;
        if (part > 0) heads[part - 1] = at.offset;
        file_len = at.offset + at.len;
    }
    zimgasol_part before = at;
    WANT(zimgasol_mapped_send_part(send, 4, bytes, sizeof bytes, &at) == ZIMGASOL_NO_PAGE);
    WANT(zimgasol_mapped_send_part(send, SIZE_MAX, bytes, sizeof bytes, &at) == ZIMGASOL_NO_PAGE);
    WANT(memcmp(&before, &at, sizeof at) == 0);
    WANT(list_at == heads[0] && file_len == heads[2] + 32);
}

static void make_file(void) {
    zimgasol_table table = {0};
    zimgasol_mapped_send send = {0};
    size_t entry;
    uint8_t long_name[1025] = {0};
    AGAIN(zimgasol_table_new(&table, PAGE, blocks, 2, &entry));
    WANT(zimgasol_mapped_send_new(&send, &table, false, long_name, 1025) == ZIMGASOL_BAD_LENGTH);
    AGAIN(zimgasol_mapped_send_new(&send, &table, false, (const uint8_t *)"none", 4));
    zimgasol_table_free(&table);
    send_file(&send);
    zimgasol_mapped_send_free(&send);
    zimgasol_mapped_send_free(&send);
}

/* Takes the file up to the byte `len`, in pieces of at most `most` bytes after the pages. Returns
 * the status, and where it is. */
static zimgasol_status take(zimgasol_mapped_load *load, size_t len, size_t most, uint64_t *place) {
    zimgasol_status status = ZIMGASOL_RUNNING;
    while (status == ZIMGASOL_RUNNING) {
        size_t rest = *place < len ? len - *place : 0;
        if (*place >= heads[2] && rest > most) rest = most;
        const uint8_t *bytes = *place < len ? file + *place : file;
        status = zimgasol_mapped_load_take(load, bytes, rest, place);
        if (status == ZIMGASOL_NO_MEMORY && refusals == 1)
            status = zimgasol_mapped_load_take(load, bytes, rest, place);
    }
    return status;
}

/* Reads the pages that the file has. The others are zeros. */
static void read_pages(zimgasol_mapped_load *load) {
    zimgasol_run run;
    memset(loaded, 0, sizeof loaded);
    for (size_t b = 0; b < 2; b++) {
        for (uint64_t from = 0;; from = run.page + run.pages) {
            WANT(zimgasol_mapped_load_run(load, b, from, &run) == ZIMGASOL_DONE);
            for (uint64_t p = from; p < run.page; p++) WANT(!has(b, p));
            for (uint64_t p = run.page; p < run.page + run.pages; p++) WANT(has(b, p));
            if (run.pages == 0) break;
            memcpy(loaded[b] + run.page * PAGE, file + run.offset, run.pages * PAGE);
        }
        WANT(run.page == pages[b] && run.offset == 0);
        zimgasol_run before = run;
        WANT(zimgasol_mapped_load_run(load, b, pages[b], &run) == ZIMGASOL_DONE);
        WANT(zimgasol_mapped_load_run(load, b, pages[b] + 1, &run) == ZIMGASOL_NO_PAGE);
        WANT(zimgasol_mapped_load_run(load, 2, 0, &run) == ZIMGASOL_NO_PAGE);
        WANT(zimgasol_mapped_load_run(load, SIZE_MAX, 0, &run) == ZIMGASOL_NO_PAGE);
        WANT(memcmp(&before, &run, sizeof run) == 0);
    }
}

/* The table of the file is that of the guest. */
static void is_table(zimgasol_mapped_load *load) {
    zimgasol_table table = {0};
    zimgasol_block found;
    AGAIN(zimgasol_mapped_load_table(load, &table));
    WANT(zimgasol_table_blocks(&table) == 2);
    for (size_t b = 0; b < 2; b++) {
        WANT(zimgasol_table_block(&table, b, &found) == ZIMGASOL_DONE);
        WANT(memcmp(&found, &blocks[b], sizeof found) == 0);
    }
    zimgasol_table_free(&table);
}

static void load_file(size_t most) {
    zimgasol_mapped_load load = {0};
    zimgasol_table table = {0};
    zimgasol_run run = {7, 7, 7};
    uint64_t place = 7;
    AGAIN(zimgasol_mapped_load_new(&load, PAGE, false, 0, file, file_len, &place));
    WANT(place == list_at);
    WANT(zimgasol_mapped_load_table(&load, &table) == ZIMGASOL_OUT_OF_TURN && table.full == 0);
    WANT(zimgasol_mapped_load_run(&load, 0, 0, &run) == ZIMGASOL_NO_PAGE && run.page == 7);
    zimgasol_status status = take(&load, file_len, most, &place);
    if (status == ZIMGASOL_NO_MEMORY) { /* for good */
        WANT(zimgasol_mapped_load_take(&load, file + place, 1, &place) == ZIMGASOL_NO_MEMORY);
    } else {
        WANT(status == ZIMGASOL_DONE && place == file_len - 1);
        WANT(zimgasol_mapped_load_take(&load, file, 1, &place) == ZIMGASOL_DONE);
        WANT(place == file_len - 1);
        is_table(&load);
        read_pages(&load);
        WANT(memcmp(loaded, guest, sizeof guest) == 0);
    }
    zimgasol_mapped_load_free(&load);
    zimgasol_mapped_load_free(&load);
}

/* Takes a file of `len` bytes, and returns how it ends. */
static zimgasol_status ended(size_t len, uint64_t *place) {
    zimgasol_mapped_load load = {0};
    WANT(zimgasol_mapped_load_new(&load, PAGE, false, 0, file, len, place) == ZIMGASOL_DONE);
    zimgasol_status status = take(&load, len, len, place);
    /* a head's fault is that of the bytes, and one after the pages stays */
    uint64_t again = 7;
    zimgasol_status wanted = *place < heads[2] ? ZIMGASOL_STREAM_TRUNCATED : status;
    WANT(zimgasol_mapped_load_take(&load, file, 0, &again) == wanted && again == *place);
    zimgasol_mapped_load_free(&load);
    return status;
}

/* Cut at each byte of its parts, and of the pages between them. */
static void cut(void) {
    zimgasol_mapped_load load = {0};
    for (size_t len = 0; len < list_at; len++) {
        uint64_t place = 7;
        WANT(zimgasol_mapped_load_new(&load, PAGE, false, 0, file, len, &place) ==
             ZIMGASOL_RUNNING);
        WANT(place == 7 && load.full == 0);
    }
    for (size_t len = list_at; len < file_len - 1; len += len < heads[0] + 400 ||
         (len >= heads[1] && len < heads[1] + 400) || len >= heads[2] ? 1 : 99) {
        uint64_t place = 7, wanted = len < heads[0] + head_lens[0] ? heads[0]
            : len < heads[1] + head_lens[1] ? heads[1] : len < heads[2] ? heads[2] : len;
        WANT(ended(len, &place) == ZIMGASOL_STREAM_TRUNCATED && place == wanted);
    }
}

/* A file with one byte changed has a fault, at the head or the item where it is. */
static void bad(size_t at, uint8_t byte, uint32_t status, uint64_t wanted) {
    uint8_t was = file[at];
    uint64_t place = 7;
    file[at] ^= byte;
    zimgasol_status found = ended(file_len, &place);
    if (found != status || place != wanted)
        printf("byte %zu: %u at %llu\n", at, (unsigned)found, (unsigned long long)place);
    WANT(found == status && place == wanted);
    file[at] = was;
}

static void faults(void) {
    size_t ram = heads[0] + 15, vram = heads[1] + 17, end = heads[2];
    bad(heads[0] + 1, 0x80, 21, heads[0]);
    bad(ram - 1, 1, 23, heads[0]);
    bad(vram - 4, 1, 25, heads[1]);
    bad(ram + 3, 3, ZIMGASOL_MAPPED_HEADER_VERSION, heads[0]);
    bad(vram + 10, 0x30, ZIMGASOL_MAPPED_HEADER_PAGE_SIZE, heads[1]);
    bad(ram + 19, 1, ZIMGASOL_MAPPED_BITMAP_OFFSET, heads[0]);
    bad(vram + 27, 1, ZIMGASOL_MAPPED_PAGES_OFFSET, heads[1]);
    bad(vram + 20, 0x80, ZIMGASOL_MAPPED_PAGES_OFFSET, heads[1]);
    bad(vram + 28, 8, ZIMGASOL_MAPPED_BITMAP_TAIL, heads[1]);
    bad(end + 7, 0x18, ZIMGASOL_STREAM_WAITING, end); /* a page record */
    bad(end + 7, 0x04, ZIMGASOL_STREAM_FLAGS, end);
    bad(end + 8, 1, ZIMGASOL_STREAM_FOOTER, end + 8);
    bad(end + 13, 1, ZIMGASOL_STREAM_SECTION_TYPE, file_len - 1); /* a PART, and no END */
    bad(end + 17, 2, ZIMGASOL_STREAM_SECTION_ID, end + 14);
}

/* Wrong arguments. */
static void refusals_of_calls(void) {
    zimgasol_mapped_load load = {0};
    uint64_t place = 7;
    WANT(zimgasol_mapped_load_new(&load, 4095, false, 0, file, file_len, &place) ==
         ZIMGASOL_BAD_PAGE_SIZE);
    WANT(zimgasol_mapped_load_new(&load, PAGE, false, INT64_MAX, file, file_len, &place) ==
         ZIMGASOL_TOO_LONG);
    WANT(zimgasol_mapped_load_new(&load, PAGE, false, UINT64_MAX, file, file_len, &place) ==
         ZIMGASOL_TOO_LONG);
    WANT(load.full == 0 && place == 7);
    /* offsets count from the first byte of the file */
    WANT(zimgasol_mapped_load_new(&load, PAGE, false, 4096, file, file_len, &place) ==
         ZIMGASOL_DONE);
    WANT(place == 4096 + list_at);
    WANT(zimgasol_mapped_load_take(&load, file + list_at, file_len - list_at, &place) ==
         ZIMGASOL_MAPPED_BITMAP_OFFSET);
    zimgasol_mapped_load_free(&load);
    /* the other order of bitmaps' words, and the other page size */
    WANT(zimgasol_mapped_load_new(&load, PAGE, true, 0, file, file_len, &place) == ZIMGASOL_DONE);
    WANT(take(&load, file_len, 99, &place) == ZIMGASOL_MAPPED_BITMAP_TAIL);
    zimgasol_mapped_load_free(&load);
    WANT(zimgasol_mapped_load_new(&load, 8192, false, 0, file, file_len, &place) == ZIMGASOL_DONE);
    /* as a stream: the total is no multiple of it */
    WANT(take(&load, file_len, 99, &place) == ZIMGASOL_STREAM_FLAGS && place == list_at);
    zimgasol_mapped_load_free(&load);
}

int main(void) {
    for (size_t b = 0; b < 2; b++)
        for (uint64_t p = 0; p < pages[b]; p++)
            if (has(b, p)) memset(guest[b] + p * PAGE, (int)(1 + 100 * b + p), PAGE);
    make_file();
    for (size_t most = 1; most < 40; most++) load_file(most);
    cut();
    faults();
    refusals_of_calls();
    long before = held, nth = 0, all = 0;
    do {
        counted = 0, refusals = 0, refused = ++nth;
        make_file();
        load_file(nth % 2 ? 7 : 4096);
        refused = 0;
        all += refusals;
        WANT(held == before);
    } while (refusals > 0);
    WANT(all > 10);
    printf("files with mapped-ram: cut at each byte, with faults, %ld refused allocations\n", all);
    return 0;
}
