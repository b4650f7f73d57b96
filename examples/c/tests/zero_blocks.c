/* Blocks that were zeros when a load began (`zero_blocks`): a page that comes as zeros is neither
 * read nor written, unless something else may be in it. Such pages are protected here, so that a
 * load which touches one ends this program. Two rounds are loaded: of one stream by pieces, also by
 * whole sections, and by pages that are read to their places; of a main stream and its channel by
 * pieces, also by whole rounds, and by packets whose pages are read to their places. Each load says
 * how many pages no round had. */
#define _DEFAULT_SOURCE
#include "sends.h"
#include "standing.h"
#include "zimgasol.h"
#include <stdio.h>
#include <string.h>
#include <sys/mman.h>

enum { PAGE = 4096, PAGES = 12, SENT = 10, MOST = 1 << 18, PIECE = 700 };

#define WANT(test)                                                                                 \
    do {                                                                                           \
        if (!(test)) {                                                                             \
            printf("line %d: %s\n", __LINE__, #test);                                              \
            return 1;                                                                              \
        }                                                                                          \
    } while (0)

static const uint8_t uuid[16] = {9};
static uint8_t guest[PAGES * PAGE];
static const zimgasol_settings settings = {.zero_blocks = 1};
static const zimgasol_settings whole = {.zero_blocks = 1, .whole_rounds = 1};

/* A stream, and how many of its bytes were drained. Of two the second one is the channel's. */
static uint8_t stream[2][MOST];
static size_t length[2];

/* the block that is loaded */
static zimgasol_buffer into[1];

/* ---- what is sent */

/* Whether a page is zeros in each round, or isn't sent, and so is never touched. */
static bool is_left_alone(size_t page) {
    return page % 3 == 0 || page >= SENT;
}

/* The first round has pages 0 to 9, the second one 0 to 4. */
static size_t round_pages(int round) {
    return round == 0 ? SENT : 5;
}

/* Writes the pages of a round. Page 1 is zeros in the second one, in which page 3 comes again. */
static void write_guest(int round) {
    for (size_t p = 0; p < round_pages(round); p++)
        if (!is_left_alone(p)) memset(guest + p * PAGE, (int)(0x40 * round + p), PAGE);
    if (round == 1) memset(guest + PAGE, 0, PAGE);
}

static int send_single(zimgasol_table *table) {
    zimgasol_send sender = {0};
    WANT(zimgasol_send_new(&sender, table, &(zimgasol_send_settings){0}) == ZIMGASOL_DONE);
    for (int round = 0; round < 2; round++) {
        write_guest(round);
        WANT(zimgasol_send_begin_round(&sender) == ZIMGASOL_DONE);
        for (size_t p = 0; p < round_pages(round); p++)
            WANT(zimgasol_send_put_page(&sender, 0, p, guest + p * PAGE, PAGE) == ZIMGASOL_DONE);
        WANT(zimgasol_send_end_round(&sender) == ZIMGASOL_DONE);
    }
    WANT(zimgasol_send_finish(&sender, false) == ZIMGASOL_DONE);
    length[0] = zimgasol_send_drain(&sender, ZIMGASOL_MAIN, stream[0], MOST);
    WANT(length[0] < MOST);
    zimgasol_send_free(&sender);
    return 0;
}

static int send_round(zimgasol_send *multi, int round) {
    zimgasol_place places[SENT];
    zimgasol_lent lent[1] = {{guest, sizeof guest}};
    zimgasol_worker worker = {0};
    zimgasol_status status;
    write_guest(round);
    for (size_t p = 0; p < round_pages(round); p++) places[p] = (zimgasol_place){0, p};
    WANT(zimgasol_send_begin_round_pages(multi, places, round_pages(round)) == ZIMGASOL_DONE);
    WANT(zimgasol_send_worker(multi, &worker) == ZIMGASOL_DONE);
    do {
        status = pack_next(&worker, lent, PAGE);
        length[1] += zimgasol_worker_drain(&worker, stream[1] + length[1], MOST - length[1]);
    } while (status == ZIMGASOL_RUNNING);
    WANT(status == ZIMGASOL_DONE && zimgasol_send_give_back(multi, &worker) == ZIMGASOL_DONE);
    WANT(zimgasol_send_end_round(multi) == ZIMGASOL_DONE);
    return 0;
}

static int send_channel(zimgasol_table *table) {
    zimgasol_send multi = {0};
    length[1] = 0;
    WANT(new_on_channels(&multi, table, uuid, 1, 4) == ZIMGASOL_DONE);
    if (send_round(&multi, 0) || send_round(&multi, 1)) return 1;
    WANT(zimgasol_send_finish(&multi, false) == ZIMGASOL_DONE);
    length[0] = zimgasol_send_drain(&multi, ZIMGASOL_MAIN, stream[0], MOST);
    WANT(length[0] < MOST && length[1] < MOST);
    zimgasol_send_free(&multi);
    return 0;
}

/* ---- the block */

/* Maps the block anew, and protects the pages that no load may touch. */
static int map_block(void) {
    uint8_t *block =
        mmap(NULL, PAGES * PAGE, PROT_READ | PROT_WRITE, MAP_PRIVATE | MAP_ANONYMOUS, -1, 0);
    WANT(block != MAP_FAILED);
    for (size_t p = 0; p < PAGES; p++)
        if (is_left_alone(p)) WANT(mprotect(block + p * PAGE, PAGE, PROT_NONE) == 0);
    into[0] = (zimgasol_buffer){block, PAGES * PAGE};
    return 0;
}

/* The block holds the guest of the second round. It is unmapped. */
static int is_guest(void) {
    WANT(mprotect(into[0].bytes, PAGES * PAGE, PROT_READ) == 0);
    WANT(memcmp(into[0].bytes, guest, sizeof guest) == 0);
    WANT(munmap(into[0].bytes, PAGES * PAGE) == 0);
    return 0;
}

/* ---- loads */

/* Loads by pieces: one stream, or the main stream and its channel. */
static int load_pieces(zimgasol_table *table, size_t channels, const zimgasol_settings *with) {
    zimgasol_load load = {0};
    zimgasol_fault fault;
    size_t fed[2] = {0}, taken;
    WANT(zimgasol_load_new(&load, table, uuid, 16, channels, with) == ZIMGASOL_DONE);
    WANT(told_missing(&load) == PAGES);
    for (bool moved = true; moved;) {
        moved = false;
        for (size_t s = 0; s <= channels; s++) {
            size_t len = length[s] - fed[s] < PIECE ? length[s] - fed[s] : PIECE;
            if (len == 0 || !zimgasol_load_takes(&load, s)) continue;
            WANT(told_feed(&load, into, 1, s, stream[s] + fed[s], len, &taken) ==
                ZIMGASOL_DONE);
            fed[s] += taken;
            moved = moved || taken > 0;
        }
    }
    for (size_t s = 0; s <= channels; s++)
        WANT(fed[s] == length[s] && zimgasol_load_end(&load, s) == ZIMGASOL_DONE);
    WANT(zimgasol_load_verdict(&load, &fault) == ZIMGASOL_DONE);
    WANT(told_missing(&load) == PAGES - SENT);
    zimgasol_load_free(&load);
    return 0;
}

/* Loads one stream by pages that are read to their places. */
static int load_wanted(zimgasol_table *table) {
    zimgasol_load load = {0};
    zimgasol_fault fault;
    zimgasol_next next;
    size_t at = 0, taken;
    WANT(zimgasol_load_new(&load, table, uuid, 0, 0, &settings) == ZIMGASOL_DONE);
    while (zimgasol_load_wanted(&load, &next) && at < length[0]) {
        if (next.is_page) {
            memcpy(into[0].bytes + next.offset, stream[0] + at, next.len);
            WANT(zimgasol_load_page_read(&load, into, 1) == ZIMGASOL_DONE);
        } else {
            WANT(told_feed(&load, into, 1, ZIMGASOL_MAIN, stream[0] + at, next.len,
                     &taken) == ZIMGASOL_DONE);
        }
        at += next.len;
    }
    WANT(zimgasol_load_end(&load, ZIMGASOL_MAIN) == ZIMGASOL_DONE);
    WANT(at == length[0] && zimgasol_load_verdict(&load, &fault) == ZIMGASOL_DONE);
    WANT(told_missing(&load) == PAGES - SENT);
    zimgasol_load_free(&load);
    return 0;
}

/* Reads a claimed packet to its places, clears those that are named, and takes it. */
static int take(zimgasol_load *load, const uint8_t *head, const zimgasol_pages *pages,
    size_t *read) {
    const uint8_t *contents = head + ZIMGASOL_HEAD_LEN(PAGE);
    zimgasol_lent lent[128];
    for (size_t i = 0; i < pages->normal; i++) {
        lent[i] = (zimgasol_lent){contents + i * PAGE, PAGE};
        memcpy(into[0].bytes + pages->pages[i] * PAGE, lent[i].bytes, PAGE);
    }
    for (size_t i = pages->normal; i < pages->normal + pages->zero; i++)
        memset(into[0].bytes + pages->pages[i] * PAGE, 0, PAGE);
    *read = ZIMGASOL_HEAD_LEN(PAGE) + pages->normal * PAGE;
    WANT(zimgasol_load_take(load, 0, head, ZIMGASOL_HEAD_LEN(PAGE), lent, pages->normal) ==
        ZIMGASOL_RUNNING);
    return 0;
}

/* Goes on with the channel by a packet, and counts the pages that it was told to clear. */
static int step_channel(zimgasol_load *load, size_t *at, size_t *cleared) {
    const uint8_t *next = stream[1] + *at;
    zimgasol_pages pages;
    size_t len = *at == 0 ? ZIMGASOL_HELLO_LEN : ZIMGASOL_HEAD_LEN(PAGE), read = 0;
    if (*at > 0 && zimgasol_load_claim(load, 0, next, len, &pages) == ZIMGASOL_RUNNING) {
        *cleared += pages.zero;
        if (take(load, next, &pages, &read)) return 1;
    } else {
        WANT(told_feed(load, into, 1, ZIMGASOL_CHANNEL(0), next, len, &read) ==
            ZIMGASOL_DONE);
    }
    *at += read;
    return 0;
}

/* Loads the main stream by pieces, and the channel by packets whose pages are copied here. */
static int load_claimed(zimgasol_table *table) {
    zimgasol_load load = {0};
    zimgasol_fault fault;
    size_t fed = 0, at = 0, cleared = 0, taken;
    WANT(zimgasol_load_new(&load, table, uuid, 16, 1, &settings) == ZIMGASOL_DONE);
    while (fed < length[0] || at < length[1]) {
        if (fed < length[0] && zimgasol_load_takes(&load, ZIMGASOL_MAIN)) {
            size_t len = length[0] - fed < 50 ? length[0] - fed : 50;
            WANT(told_feed(&load, into, 1, ZIMGASOL_MAIN, stream[0] + fed, len, &taken) ==
                    ZIMGASOL_DONE &&
                taken == len);
            fed += len;
        }
        if (at < length[1] && zimgasol_load_takes(&load, ZIMGASOL_CHANNEL(0)) &&
            step_channel(&load, &at, &cleared))
            return 1;
    }
    for (size_t s = 0; s < 2; s++) WANT(zimgasol_load_end(&load, s) == ZIMGASOL_DONE);
    WANT(zimgasol_load_verdict(&load, &fault) == ZIMGASOL_DONE);
    WANT(cleared == 1 && told_missing(&load) == PAGES - SENT);
    zimgasol_load_free(&load);
    return 0;
}

int main(void) {
    zimgasol_block blocks[1] = {{.id = "ram", .pages = PAGES}};
    zimgasol_table table = {0};
    size_t entry;
    WANT(zimgasol_table_new(&table, PAGE, blocks, 1, &entry) == ZIMGASOL_DONE);
    if (send_single(&table)) return 1;
    if (map_block() || load_pieces(&table, 0, &settings) || is_guest()) return 1;
    if (map_block() || load_pieces(&table, 0, &whole) || is_guest()) return 1;
    if (map_block() || load_wanted(&table) || is_guest()) return 1;
    if (send_channel(&table)) return 1;
    if (map_block() || load_pieces(&table, 1, &settings) || is_guest()) return 1;
    if (map_block() || load_pieces(&table, 1, &whole) || is_guest()) return 1;
    if (map_block() || load_claimed(&table) || is_guest()) return 1;
    zimgasol_table_free(&table);
    printf("blocks that were zeros: no load touched a page that came as zeros alone; pages that "
           "didn't come were counted\n");
    return 0;
}
