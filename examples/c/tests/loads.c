/* A load into blocks, by its sources. A load of one stream has the main stream alone, and one of
 * several channels has no call that reads a page of one stream: each call is asked of sources that
 * the load has, and of others. One stream is whole, cut, has a fault, or is of another table. It is
 * loaded record by record, and by whole sections. Each argument that no load is made of is tried,
 * in the order in which they are refused. */
#include "sends.h"
#include "standing.h"
#include "zimgasol.h"
#include <stdio.h>
#include <string.h>

enum { PAGE = 4096, PAGES = 3, MOST = 1 << 16, HEAD = ZIMGASOL_HEAD_LEN(PAGE) };

#define WANT(test)                                                                                 \
    do {                                                                                           \
        if (!(test)) {                                                                             \
            printf("line %d: %s\n", __LINE__, #test);                                              \
            return 1;                                                                              \
        }                                                                                          \
    } while (0)

static const uint8_t uuid[16] = {8};
static const zimgasol_settings plain = {.frame = ZIMGASOL_FRAME_RAM};
static const zimgasol_settings whole = {.whole_rounds = 1};

/* One stream; and a main stream and its channel. */
static uint8_t single[MOST], stream[2][MOST];
static size_t single_len, length[2];

static uint8_t guest[PAGES * PAGE], loaded[PAGES * PAGE];
static zimgasol_buffer into[1] = {{loaded, sizeof loaded}};

/* Sources that neither a load of one stream has nor one of a single channel. */
static const size_t others[] = {ZIMGASOL_CHANNEL(1), ZIMGASOL_CHANNEL(255), ZIMGASOL_ROUND};
enum { OTHERS = sizeof others / sizeof others[0] };

/* ---- what is sent: pages 0 and 1 of a guest, of which page 1 is zeros */

static int send_single(zimgasol_table *table) {
    zimgasol_send sender = {0};
    WANT(zimgasol_send_new(&sender, table, &(zimgasol_send_settings){0}) == ZIMGASOL_DONE);
    WANT(zimgasol_send_begin_round(&sender) == ZIMGASOL_DONE);
    for (size_t p = 0; p < 2; p++)
        WANT(zimgasol_send_put_page(&sender, 0, p, guest + p * PAGE, PAGE) == ZIMGASOL_DONE);
    WANT(zimgasol_send_end_round(&sender) == ZIMGASOL_DONE);
    WANT(zimgasol_send_finish(&sender, false) == ZIMGASOL_DONE);
    single_len = zimgasol_send_drain(&sender, ZIMGASOL_MAIN, single, MOST);
    WANT(single_len > PAGE && single_len < MOST);
    zimgasol_send_free(&sender);
    return 0;
}

static int send_several(zimgasol_table *table) {
    const zimgasol_place dirty[2] = {{0, 0}, {0, 1}};
    const zimgasol_lent lent[1] = {{guest, sizeof guest}};
    zimgasol_send multi = {0};
    zimgasol_worker worker = {0};
    WANT(new_on_channels(&multi, table, uuid, 1, 128) == ZIMGASOL_DONE);
    WANT(zimgasol_send_begin_round_pages(&multi, dirty, 2) == ZIMGASOL_DONE);
    WANT(zimgasol_send_worker(&multi, &worker) == ZIMGASOL_DONE);
    while (pack_next(&worker, lent, PAGE) == ZIMGASOL_RUNNING) continue;
    length[1] = zimgasol_worker_drain(&worker, stream[1], MOST);
    WANT(length[1] == ZIMGASOL_HELLO_LEN + HEAD + PAGE + HEAD);
    WANT(zimgasol_send_give_back(&multi, &worker) == ZIMGASOL_DONE);
    WANT(zimgasol_send_end_round(&multi) == ZIMGASOL_DONE);
    WANT(zimgasol_send_finish(&multi, false) == ZIMGASOL_DONE);
    length[0] = zimgasol_send_drain(&multi, ZIMGASOL_MAIN, stream[0], MOST);
    WANT(length[0] > 0 && length[0] < MOST);
    zimgasol_send_free(&multi);
    return 0;
}

/* ---- what no load is made of */

/* Tries to make a load that is refused: then the handle stays empty. */
static int refuse(zimgasol_table *table, size_t uuid_len, size_t channels,
    const zimgasol_settings *settings, zimgasol_status wanted) {
    zimgasol_load load = {0};
    WANT(zimgasol_load_new(&load, table, uuid, uuid_len, channels, settings) == wanted);
    WANT(load.full == 0 && load.at == NULL);
    return 0;
}

static int make(zimgasol_table *table, size_t uuid_len, size_t channels,
    const zimgasol_settings *settings) {
    zimgasol_load load = {0};
    zimgasol_fault fault;
    WANT(zimgasol_load_new(&load, table, uuid, uuid_len, channels, settings) == ZIMGASOL_DONE);
    WANT(load.full != 0 && zimgasol_load_verdict(&load, &fault) == ZIMGASOL_RUNNING);
    zimgasol_load_free(&load);
    WANT(load.full == 0);
    return 0;
}

static int refuse_all(zimgasol_table *table) {
    const zimgasol_settings both = {.frame = (zimgasol_frame)2, .round_end = (zimgasol_round_end)3};
    const zimgasol_settings round_end = {.round_end = (zimgasol_round_end)3};
    const zimgasol_settings shown = {.round_end = ZIMGASOL_AS_SHOWN};
    zimgasol_settings wrong_whole = both;
    wrong_whole.whole_rounds = 2;
    /* several channels: each one has the arguments that are tested later wrong, too */
    if (refuse(table, 15, 256, &both, ZIMGASOL_BAD_CHANNELS)) return 1;
    if (refuse(table, 15, SIZE_MAX, &both, ZIMGASOL_BAD_CHANNELS)) return 1;
    if (refuse(table, 15, 1, &both, ZIMGASOL_BAD_LENGTH)) return 1;
    if (refuse(table, 0, 255, &both, ZIMGASOL_BAD_LENGTH)) return 1;
    if (refuse(table, 16, 1, &both, ZIMGASOL_BAD_FRAME)) return 1;
    if (refuse(table, 16, 1, &round_end, ZIMGASOL_BAD_ROUND_END)) return 1;
    if (make(table, 16, 1, &shown) || make(table, 16, 255, &plain)) return 1;
    /* by whole rounds, too */
    if (refuse(table, 15, 256, &wrong_whole, ZIMGASOL_BAD_CHANNELS)) return 1;
    if (refuse(table, 15, 255, &wrong_whole, ZIMGASOL_BAD_LENGTH)) return 1;
    if (refuse(table, 16, 255, &wrong_whole, ZIMGASOL_BAD_FRAME)) return 1;
    if (make(table, 16, 1, &whole) || make(table, 16, 255, &whole)) return 1;
    /* one stream: neither a UUID nor an end of rounds is looked at */
    if (refuse(table, 15, 0, &both, ZIMGASOL_BAD_FRAME)) return 1;
    if (refuse(table, 15, 0, &wrong_whole, ZIMGASOL_BAD_FRAME)) return 1;
    wrong_whole.frame = ZIMGASOL_FRAME_MACHINE;
    if (make(table, 15, 0, &wrong_whole) || make(table, 0, 0, &whole)) return 1;
    return make(table, 15, 0, &round_end) || make(table, 0, 0, &plain);
}

/* ---- sources that a load doesn't have */

/* Asks of a source that a load hasn't, and of its blocks, of which there would be too few, too. */
static int ask_foreign(zimgasol_load *load, size_t source) {
    const zimgasol_fault before = {.round = 5, .source = 6, .number = 7, .first = 8, .second = 9};
    zimgasol_fault found = before;
    size_t taken = 7;
    uint64_t at = 7;
    WANT(!zimgasol_load_takes(load, source) && told_fed(load, source) == 0);
    WANT(told_feed(load, into, 1, source, single, 1, &taken) == ZIMGASOL_BAD_SOURCE &&
        taken == 0);
    taken = 7;
    WANT(told_feed(load, into, 0, source, single, 1, &taken) == ZIMGASOL_BAD_SOURCE &&
        taken == 0);
    WANT(zimgasol_load_end(load, source) == ZIMGASOL_BAD_SOURCE);
    WANT(zimgasol_load_fault_of(load, source, &found) == ZIMGASOL_BAD_SOURCE &&
        memcmp(&found, &before, sizeof found) == 0);
    WANT(!told_valid_up_to(load, source, &at) && at == 7);
    return 0;
}

/* Asks for packets of a channel that a load hasn't. */
static int ask_no_packet(zimgasol_load *load, size_t channel) {
    const zimgasol_lent content = {guest, PAGE};
    const uint8_t *head = stream[1] + ZIMGASOL_HELLO_LEN;
    zimgasol_pages pages = {.block = 7, .normal = 8, .zero = 9};
    WANT(zimgasol_load_claim(load, channel, head, HEAD, &pages) == ZIMGASOL_BAD_SOURCE);
    WANT(pages.block == 7 && pages.normal == 8 && pages.zero == 9 && pages.pages[0] == 0);
    WANT(zimgasol_load_take(load, channel, head, HEAD, &content, 1) == ZIMGASOL_BAD_SOURCE);
    return 0;
}

/* ---- one stream */

/* How it is loaded, and whether by whole sections: then no page is read straight to its place. */
static const zimgasol_settings *loads_with;

static bool is_whole(void) {
    return loads_with->whole_rounds != 0;
}

/* What a load of one stream says of every other source, however it stands. */
static int ask_others_of_one(zimgasol_load *load) {
    if (ask_foreign(load, ZIMGASOL_CHANNEL(0))) return 1;
    for (size_t i = 0; i < OTHERS; i++)
        if (ask_foreign(load, others[i])) return 1;
    if (ask_no_packet(load, 0) || ask_no_packet(load, 1) || ask_no_packet(load, SIZE_MAX)) return 1;
    WANT(told_claimed(load) == 0);
    if (is_whole()) WANT(zimgasol_load_page_read(load, into, 1) == ZIMGASOL_OUT_OF_TURN);
    return 0;
}

/* Feeds the main stream, all of which is taken. */
static int feed_main(zimgasol_load *load, const uint8_t *bytes, size_t len) {
    uint64_t before = told_fed(load, ZIMGASOL_MAIN);
    size_t taken = 7;
    WANT(told_feed(load, into, 1, ZIMGASOL_MAIN, bytes, len, &taken) == ZIMGASOL_DONE);
    WANT(taken == len && told_fed(load, ZIMGASOL_MAIN) == before + len);
    return 0;
}

/* A load of one stream that goes on, with no fault so far. */
static int ask_running(zimgasol_load *load) {
    zimgasol_fault found = {.number = 7};
    zimgasol_next next = {.len = 7, .offset = 7};
    uint64_t at = 7;
    WANT(zimgasol_load_verdict(load, &found) == ZIMGASOL_RUNNING &&
        found.number == ZIMGASOL_RUNNING && found.source == 0);
    WANT(zimgasol_load_fault_of(load, ZIMGASOL_MAIN, &found) == ZIMGASOL_DONE &&
        found.number == 0 && found.round == 0 && found.source == 0);
    WANT(zimgasol_load_takes(load, ZIMGASOL_MAIN));
    WANT(zimgasol_load_wanted(load, &next) == !is_whole());
    if (is_whole()) WANT(next.len == 7 && next.is_page == 0 && next.offset == 7);
    WANT(!told_has_all_rounds(load));
    WANT(told_closed_at(load, &at) == ZIMGASOL_RUNNING && at == 7);
    WANT(told_valid_up_to(load, ZIMGASOL_MAIN, &at) &&
        at <= told_fed(load, ZIMGASOL_MAIN));
    return ask_others_of_one(load);
}

/* A load of one stream that isn't closed and takes nothing any more, with a fault. */
static int ask_failed(zimgasol_load *load, zimgasol_status wanted, uint64_t round) {
    zimgasol_fault verdict, found;
    zimgasol_next next = {.len = 7};
    uint64_t at = 7;
    WANT(zimgasol_load_verdict(load, &verdict) == wanted && verdict.number == wanted);
    WANT(verdict.round == round && told_rounds(load) == round);
    WANT(zimgasol_load_fault_of(load, ZIMGASOL_MAIN, &found) == wanted &&
        memcmp(&found, &verdict, sizeof found) == 0);
    WANT(!zimgasol_load_takes(load, ZIMGASOL_MAIN) && !told_has_all_rounds(load));
    WANT(told_closed_at(load, &at) == ZIMGASOL_RUNNING && at == 7);
    if (wanted != ZIMGASOL_STREAM_TRUNCATED)
        WANT(!zimgasol_load_wanted(load, &next) && next.len == 7);
    return ask_others_of_one(load);
}

/* Ends a load of one stream, twice, which then takes no bytes, whatever its blocks. */
static int end_main(zimgasol_load *load) {
    uint64_t fed = told_fed(load, ZIMGASOL_MAIN);
    size_t taken = 7;
    for (int turn = 0; turn < 2; turn++)
        WANT(zimgasol_load_end(load, ZIMGASOL_MAIN) == ZIMGASOL_DONE);
    WANT(told_feed(load, into, 0, ZIMGASOL_MAIN, single, 1, &taken) == ZIMGASOL_IS_OVER &&
        taken == 0);
    WANT(!zimgasol_load_takes(load, ZIMGASOL_MAIN));
    WANT(told_fed(load, ZIMGASOL_MAIN) == fed);
    return 0;
}

/* A stream that is closed, and 3 bytes that follow it: they are taken, and only counted. */
static int load_single(zimgasol_table *table) {
    zimgasol_load load = {0};
    zimgasol_fault found;
    zimgasol_next next = {.len = 7};
    uint64_t at = 7;
    memset(loaded, 0xEE, sizeof loaded);
    WANT(zimgasol_load_new(&load, table, uuid, 0, 0, loads_with) == ZIMGASOL_DONE);
    WANT(told_rounds(&load) == 0 && told_missing(&load) == PAGES);
    if (ask_running(&load) || feed_main(&load, single, 0) || ask_running(&load)) return 1;
    for (size_t len = single_len - 1, fed = 0; fed < len; fed += len / 2) {
        size_t left = len - fed;
        if (feed_main(&load, single + fed, left < len / 2 ? left : len / 2)) return 1;
        if (ask_running(&load)) return 1;
    }
    if (feed_main(&load, single + single_len - 1, 1)) return 1;
    for (int turn = 0; turn < 3; turn++) {
        WANT(zimgasol_load_verdict(&load, &found) == ZIMGASOL_DONE && found.number == 0);
        WANT(zimgasol_load_fault_of(&load, ZIMGASOL_MAIN, &found) == ZIMGASOL_DONE &&
            found.number == 0);
        WANT(!zimgasol_load_takes(&load, ZIMGASOL_MAIN) && told_has_all_rounds(&load));
        WANT(!zimgasol_load_wanted(&load, &next) && next.len == 7);
        WANT(told_closed_at(&load, &at) == ZIMGASOL_DONE && at == single_len);
        WANT(told_valid_up_to(&load, ZIMGASOL_MAIN, &at) && at == single_len);
        WANT(told_rounds(&load) == 3 && told_missing(&load) == 1);
        if (ask_others_of_one(&load)) return 1;
        if (turn == 0 && feed_main(&load, (const uint8_t *)"\4ab", 3)) return 1;
        if (turn == 1 && end_main(&load)) return 1;
    }
    WANT(told_fed(&load, ZIMGASOL_MAIN) == single_len + 3);
    zimgasol_load_free(&load);
    WANT(memcmp(loaded, guest, 2 * PAGE) == 0 && loaded[2 * PAGE] == 0xEE);
    return 0;
}

/* A stream of `len` bytes that has a fault, and further bytes, which are only counted. */
static int load_failing(zimgasol_table *table, const uint8_t *bytes, size_t len,
    zimgasol_status wanted, uint64_t round) {
    zimgasol_load load = {0};
    uint64_t valid = 7, at = 7;
    WANT(zimgasol_load_new(&load, table, uuid, 0, 0, loads_with) == ZIMGASOL_DONE);
    if (feed_main(&load, bytes, len) || ask_failed(&load, wanted, round)) return 1;
    WANT(told_valid_up_to(&load, ZIMGASOL_MAIN, &valid) ==
        (wanted != ZIMGASOL_OTHER_TABLE));
    if (feed_main(&load, single, 9) || ask_failed(&load, wanted, round)) return 1;
    if (end_main(&load) || ask_failed(&load, wanted, round)) return 1;
    if (wanted == ZIMGASOL_OTHER_TABLE) WANT(valid == 7 && told_missing(&load) == PAGES);
    else WANT(told_valid_up_to(&load, ZIMGASOL_MAIN, &at) && at == valid && valid < len);
    zimgasol_load_free(&load);
    return 0;
}

/* A stream that is cut: it goes on until it is ended. */
static int load_cut(zimgasol_table *table, size_t len) {
    zimgasol_load load = {0};
    WANT(zimgasol_load_new(&load, table, uuid, 0, 0, loads_with) == ZIMGASOL_DONE);
    if (feed_main(&load, single, len) || ask_running(&load)) return 1;
    uint64_t round = told_rounds(&load);
    if (end_main(&load) || ask_failed(&load, ZIMGASOL_STREAM_TRUNCATED, round)) return 1;
    zimgasol_load_free(&load);
    return 0;
}

static int load_one_stream(zimgasol_table *table, const zimgasol_settings *settings) {
    loads_with = settings;
    if (load_single(table)) return 1;
    for (size_t len = 0; len < single_len; len += 500)
        if (load_cut(table, len)) return 1;
    if (load_cut(table, single_len - 1)) return 1;
    /* the first byte, and the last footer's first byte, before its section id and the end byte */
    single[0] ^= 1;
    if (load_failing(table, single, single_len, ZIMGASOL_STREAM_MAGIC, 0)) return 1;
    single[0] ^= 1;
    single[single_len - 6] ^= 1;
    if (load_failing(table, single, single_len, ZIMGASOL_STREAM_FOOTER, 2)) return 1;
    single[single_len - 6] ^= 1;
    /* a main stream, whose rounds end with FLUSH */
    if (load_failing(table, stream[0], length[0], ZIMGASOL_STREAM_FLUSH, 1)) return 1;
    return 0;
}

/* A stream of a block with another id: nothing is written. */
static int load_other(const zimgasol_settings *settings) {
    zimgasol_block block = {.id = "rom", .pages = PAGES};
    zimgasol_table table = {0};
    size_t entry;
    loads_with = settings;
    memset(loaded, 0xEE, sizeof loaded);
    WANT(zimgasol_table_new(&table, PAGE, &block, 1, &entry) == ZIMGASOL_DONE);
    if (load_failing(&table, single, single_len, ZIMGASOL_OTHER_TABLE, 0)) return 1;
    for (size_t i = 0; i < sizeof loaded; i++) WANT(loaded[i] == 0xEE);
    zimgasol_table_free(&table);
    return 0;
}

/* ---- several channels */

/* What a load of one channel says of every source that it hasn't, and of pages of one stream,
 * however it stands. */
static int ask_others_of_several(zimgasol_load *load) {
    zimgasol_next next = {.len = 7, .is_page = 8, .block = 9, .offset = 10};
    for (size_t i = 0; i < OTHERS; i++)
        if (told_claimed(load) == 0 && ask_foreign(load, others[i])) return 1;
    if (ask_no_packet(load, 1) || ask_no_packet(load, SIZE_MAX)) return 1;
    WANT(!zimgasol_load_wanted(load, &next) && next.len == 7 && next.is_page == 8 &&
        next.block == 9 && next.offset == 10);
    WANT(zimgasol_load_page_read(load, into, 1) == ZIMGASOL_OUT_OF_TURN &&
        zimgasol_load_page_read(load, into, 0) == ZIMGASOL_OUT_OF_TURN);
    return 0;
}

/* Feeds bytes of a source, and asks. */
static int feed_and_ask(zimgasol_load *load, size_t source, size_t at, size_t len) {
    size_t taken = 7;
    WANT(zimgasol_load_takes(load, source));
    WANT(told_feed(load, into, 1, source, stream[source] + at, len, &taken) ==
            ZIMGASOL_DONE &&
        taken == len);
    return ask_others_of_several(load);
}

/* Takes the packet of the channel by a claim. While its pages are claimed nothing is fed, of no
 * source. */
static int take_packet(zimgasol_load *load) {
    const uint8_t *head = stream[1] + ZIMGASOL_HELLO_LEN;
    const zimgasol_lent content = {loaded, PAGE};
    zimgasol_pages pages = {0};
    size_t taken = 7;
    WANT(zimgasol_load_claim(load, 0, head, HEAD, &pages) == ZIMGASOL_RUNNING);
    WANT(pages.normal == 1 && pages.zero == 1 && pages.pages[0] == 0 && pages.pages[1] == 1);
    WANT(told_claimed(load) == 2);
    for (size_t source = 0; source < 3; source++) {
        WANT(told_feed(load, into, 1, source, stream[0], 1, &taken) ==
                ZIMGASOL_OUT_OF_TURN &&
            taken == 0);
        taken = 7;
    }
    if (ask_others_of_several(load)) return 1;
    memcpy(loaded, head + HEAD, PAGE);
    memset(loaded + PAGE, 0, PAGE);
    WANT(zimgasol_load_take(load, 0, head, HEAD, &content, 1) == ZIMGASOL_RUNNING);
    WANT(told_claimed(load) == 0);
    return ask_others_of_several(load);
}

/* Feeds the packet of the channel to a load of whole rounds, which claims none of its pages. The
 * blocks have nothing of it yet. */
static int feed_packet(zimgasol_load *load) {
    const uint8_t *head = stream[1] + ZIMGASOL_HELLO_LEN;
    const zimgasol_lent content = {head + HEAD, PAGE};
    zimgasol_pages pages = {.block = 7, .normal = 8, .zero = 9};
    for (int turn = 0; turn < 2; turn++) {
        WANT(zimgasol_load_claim(load, 0, head, HEAD, &pages) == ZIMGASOL_TO_FEED);
        WANT(pages.block == 7 && pages.normal == 8 && pages.zero == 9 && pages.pages[0] == 0);
        WANT(zimgasol_load_take(load, 0, head, HEAD, &content, 1) == ZIMGASOL_OUT_OF_TURN);
        WANT(told_claimed(load) == 0);
        if (turn == 0 && feed_and_ask(load, ZIMGASOL_CHANNEL(0), ZIMGASOL_HELLO_LEN, HEAD + PAGE))
            return 1;
    }
    for (size_t i = 0; i < sizeof loaded; i++) WANT(loaded[i] == 0xEE);
    return 0;
}

/* Loads what is of several channels: page by page, or by whole rounds. */
static int load_several(zimgasol_table *table, const zimgasol_settings *settings) {
    size_t packet = ZIMGASOL_HELLO_LEN + HEAD + PAGE, taken = 7;
    zimgasol_load load = {0};
    zimgasol_fault found;
    memset(loaded, 0xEE, sizeof loaded);
    WANT(zimgasol_load_new(&load, table, uuid, 16, 1, settings) == ZIMGASOL_DONE);
    WANT(told_missing(&load) == PAGES);
    if (ask_others_of_several(&load)) return 1;
    if (feed_and_ask(&load, ZIMGASOL_CHANNEL(0), 0, ZIMGASOL_HELLO_LEN)) return 1;
    WANT(!zimgasol_load_takes(&load, ZIMGASOL_CHANNEL(0)));
    if (feed_and_ask(&load, ZIMGASOL_MAIN, 0, length[0])) return 1;
    if (settings->whole_rounds ? feed_packet(&load) : take_packet(&load)) return 1;
    WANT(!told_has_all_rounds(&load));
    if (feed_and_ask(&load, ZIMGASOL_CHANNEL(0), packet, HEAD)) return 1;
    WANT(told_has_all_rounds(&load));
    WANT(zimgasol_load_verdict(&load, &found) == ZIMGASOL_RUNNING);
    for (size_t source = 0; source < 2; source++) {
        WANT(zimgasol_load_end(&load, source) == ZIMGASOL_DONE);
        WANT(told_fed(&load, source) == length[source]);
        WANT(told_feed(&load, into, 0, source, stream[0], 1, &taken) == ZIMGASOL_IS_OVER &&
            taken == 0);
    }
    WANT(zimgasol_load_verdict(&load, &found) == ZIMGASOL_DONE && found.number == 0);
    WANT(told_rounds(&load) == 1 && told_missing(&load) == 1);
    if (ask_others_of_several(&load)) return 1;
    zimgasol_load_free(&load);
    WANT(memcmp(loaded, guest, 2 * PAGE) == 0 && loaded[2 * PAGE] == 0xEE);
    return 0;
}

int main(void) {
    zimgasol_block block = {.id = "ram", .pages = PAGES};
    zimgasol_table table = {0};
    size_t entry;
    memset(guest, 0x5A, PAGE);
    WANT(zimgasol_table_new(&table, PAGE, &block, 1, &entry) == ZIMGASOL_DONE);
    if (send_single(&table) || send_several(&table)) return 1;
    if (refuse_all(&table) || load_one_stream(&table, &plain) || load_other(&plain)) return 1;
    if (load_one_stream(&table, &whole) || load_other(&whole)) return 1;
    if (load_several(&table, &plain) || load_several(&table, &whole)) return 1;
    zimgasol_table_free(&table);
    printf("loads of one stream and of several channels: each call, of sources that a load has and "
           "of others\n");
    return 0;
}
