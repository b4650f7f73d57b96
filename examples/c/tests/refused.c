/* Each allocation refused in turn. A guest of two blocks is sent, and loaded into blocks by whole
 * sections and record by record, with the nth call of malloc or realloc refused: the call that
 * wanted it says so, and is made again. So is a main stream with its channel, by whole rounds. What
 * comes of it is the same as with no refusal, and no block is left. One stream by whole sections is
 * also cut everywhere, has faults, and is of another table. */
#include "sends.h"
#include "standing.h"
#include "zimgasol.h"
#include "refusing.h"
#include <string.h>

enum { PAGE = 4096, MOST = 1 << 17 };

static const zimgasol_settings plain = {.frame = ZIMGASOL_FRAME_RAM};
static const zimgasol_settings whole = {.whole_rounds = 1};
static const zimgasol_settings whole_zeros = {.zero_blocks = 1, .whole_rounds = 1};

static uint8_t page[PAGE], text[MOST], main_text[MOST], channel_text[MOST];
static size_t text_len, main_len, channel_len;

static void fill(uint8_t first, uint8_t other) {
    memset(page, other, PAGE);
    page[0] = first;
}

static void drain(zimgasol_send *sender) {
    size_t len;
    /* a call of drain, and one of its two halves, by turns */
    for (int turn = 0;; turn++) {
        size_t waits = zimgasol_send_waiting(sender, ZIMGASOL_MAIN);
        if (turn % 2 == 0) {
            len = zimgasol_send_drain(sender, ZIMGASOL_MAIN, text + text_len, 1000);
        } else {
            len = zimgasol_send_peek(sender, ZIMGASOL_MAIN, text + text_len, 1000);
            WANT(zimgasol_send_peek(sender, ZIMGASOL_MAIN, text + text_len, 1000) == len);
            WANT(zimgasol_send_waiting(sender, ZIMGASOL_MAIN) == waits);
            len -= len > 1;
            WANT(zimgasol_send_skip(sender, ZIMGASOL_MAIN, len) == len);
        }
        /* once these have gone more may follow, as after a configuration */
        WANT(waits == len || zimgasol_send_waiting(sender, ZIMGASOL_MAIN) == waits - len);
        if (len == 0) break;
        text_len += len;
        WANT(text_len + 1000 < MOST);
    }
}

/* Sends three rounds, of which one is left out. A machine's stream where there is a name: without
 * the end byte. */
static void send_rounds(const char *name) {
    zimgasol_block blocks[2] = {{.id = "a", .pages = 3}, {.id = "pc.ram", .pages = 2}};
    zimgasol_table table = {0};
    zimgasol_send sender = {0};
    size_t entry;
    AGAIN(zimgasol_table_new(&table, PAGE, blocks, 2, &entry));
    if (name == NULL) AGAIN(zimgasol_send_new(&sender, &table, &(zimgasol_send_settings){0}));
    else AGAIN(new_named(&sender, &table, (const uint8_t *)name, strlen(name)));
    text_len = 0;
    for (int round = 0; round < 3; round++) {
        AGAIN(zimgasol_send_begin_round(&sender));
        fill((uint8_t)(round + 1), 7);
        AGAIN(zimgasol_send_put_page(&sender, 0, 2, page, PAGE));
        fill(0, 0);
        AGAIN(zimgasol_send_put_page(&sender, 1, (uint64_t)(round & 1), page, PAGE));
        if (round == 1) AGAIN(zimgasol_send_cancel_round(&sender, false));
        else AGAIN(zimgasol_send_end_round(&sender));
        /* between two rounds the bytes of those that were ended are there */
        if (round == 0) drain(&sender);
        if (round == 0) WANT(text_len > PAGE);
    }
    if (name == NULL) AGAIN(zimgasol_send_finish(&sender, false));
    else AGAIN(zimgasol_send_finish(&sender, true));
    WANT(zimgasol_send_finish(&sender, false) == ZIMGASOL_OUT_OF_TURN &&
        zimgasol_send_finish(&sender, true) == ZIMGASOL_OUT_OF_TURN);
    WANT(zimgasol_send_begin_round(&sender) == ZIMGASOL_OUT_OF_TURN &&
        zimgasol_send_end_round(&sender) == ZIMGASOL_OUT_OF_TURN);
    drain(&sender);
    zimgasol_table_free(&table);
    zimgasol_send_free(&sender);
}

/* A machine's stream is that of RAM's sections, with a configuration after the file header and
 * without the end byte. */
static void send(void) {
    static const uint8_t configuration[] = {7, 0, 0, 0, 4, 'v', 'i', 'r', 't'};
    static uint8_t named[MOST];
    send_rounds("virt");
    size_t named_len = text_len;
    memcpy(named, text, text_len);
    send_rounds(NULL);
    WANT(named_len == text_len + sizeof configuration - 1 && memcmp(named, text, 8) == 0);
    WANT(memcmp(named + 8, configuration, sizeof configuration) == 0);
    WANT(memcmp(named + 8 + sizeof configuration, text + 8, text_len - 9) == 0 &&
        text[text_len - 1] == 0);
}

/* The guest's blocks, and the byte that they hold before the stream comes. */
static uint8_t first_block[3 * PAGE], second_block[2 * PAGE], at_first;
static zimgasol_buffer into[2] = {{first_block, sizeof first_block},
    {second_block, sizeof second_block}};

static int is_filled(const uint8_t *bytes, size_t len, uint8_t byte) {
    for (size_t i = 0; i < len; i++)
        if (bytes[i] != byte) return 0;
    return 1;
}

static void make_in_place(zimgasol_load *load, const zimgasol_settings *settings) {
    zimgasol_block blocks[2] = {{.id = "a", .pages = 3}, {.id = "pc.ram", .pages = 2}};
    zimgasol_table table = {0};
    size_t entry;
    AGAIN(zimgasol_table_new(&table, PAGE, blocks, 2, &entry));
    AGAIN(zimgasol_load_new(load, &table, (const uint8_t *)"", 0, 0, settings));
    zimgasol_table_free(&table);
    at_first = settings->zero_blocks ? 0 : 0xEE;
    memset(first_block, at_first, sizeof first_block);
    memset(second_block, at_first, sizeof second_block);
}

/* ---- the stream by whole sections */

/* Where the sections of the stream end: START, two PARTs of two records each, and END, which the
 * end byte follows. A PART has its head, a page's record with an id, the record of a page of zeros
 * with the other id, EOS and footer. */
enum { START = 71, SECOND = 5 + 8 + 2 + PAGE, PART = SECOND + 8 + 7 + 1 + 8 + 5, END = 5 + 8 + 5 };
static const size_t section_ends[4] = {START, START + PART, START + 2 * PART,
    START + 2 * PART + END};

static uint64_t sections_in(uint64_t bytes) {
    uint64_t sections = 0;
    while (sections < 4 && section_ends[sections] <= bytes) sections++;
    return sections;
}

/* The blocks have the first sections, and nothing else: a PART has page 2 of the first block, and
 * page 0 of the second one, which is zeros. */
static int has_sections(uint64_t sections) {
    uint8_t first = sections > 2 ? 3 : sections > 1 ? 1 : at_first;
    uint8_t rest = sections > 1 ? 7 : at_first, zeros = sections > 1 ? 0 : at_first;
    return is_filled(first_block, 2 * PAGE, at_first) && first_block[2 * PAGE] == first &&
        is_filled(first_block + 2 * PAGE + 1, PAGE - 1, rest) &&
        is_filled(second_block, PAGE, zeros) && is_filled(second_block + PAGE, PAGE, at_first);
}

/* No page is read straight to its place, nor claimed. */
static void check_fed_alone(zimgasol_load *load) {
    const zimgasol_pages untouched = {.block = 77, .normal = 78, .zero = 79, .pages = {80}};
    const zimgasol_lent content = {page, PAGE};
    zimgasol_next next = {.len = 77, .is_page = 78, .block = 79, .offset = 80};
    zimgasol_pages pages = untouched;
    WANT(!zimgasol_load_wanted(load, &next) && next.len == 77 && next.is_page == 78 &&
        next.block == 79 && next.offset == 80);
    WANT(zimgasol_load_page_read(load, into, 2) == ZIMGASOL_OUT_OF_TURN);
    WANT(zimgasol_load_claim(load, 0, text, ZIMGASOL_HEAD_LEN(PAGE), &pages) ==
            ZIMGASOL_BAD_SOURCE &&
        memcmp(&pages, &untouched, sizeof pages) == 0);
    WANT(zimgasol_load_take(load, 0, text, ZIMGASOL_HEAD_LEN(PAGE), &content, 1) ==
        ZIMGASOL_BAD_SOURCE);
    WANT(told_claimed(load) == 0);
}

/* What a load of these first bytes of the stream says, and its blocks. */
static void check_sections(zimgasol_load *load, uint64_t fed) {
    zimgasol_fault fault;
    uint64_t sections = sections_in(fed), at = 7;
    int is_closed = fed >= text_len;
    WANT(told_fed(load, ZIMGASOL_MAIN) == fed && has_sections(sections));
    WANT(told_rounds(load) == sections &&
        told_missing(load) == (sections > 1 ? 3 : 5));
    WANT(zimgasol_load_verdict(load, &fault) == (is_closed ? ZIMGASOL_DONE : ZIMGASOL_RUNNING) &&
        fault.round == (is_closed ? 0 : sections) && fault.source == 0 && fault.first == 0);
    WANT(zimgasol_load_fault_of(load, ZIMGASOL_MAIN, &fault) == ZIMGASOL_DONE);
    WANT(zimgasol_load_takes(load, ZIMGASOL_MAIN) == !is_closed &&
        told_has_all_rounds(load) == is_closed);
    WANT(told_closed_at(load, &at) == (is_closed ? ZIMGASOL_DONE : ZIMGASOL_RUNNING) &&
        at == (is_closed ? text_len : 7));
    WANT(told_valid_up_to(load, ZIMGASOL_MAIN, &at) && at <= fed &&
        (!is_closed || at == text_len));
}

/* Feeds the next bytes of the stream. A refused allocation changes nothing, and they are fed again.
 */
static void feed_sections(zimgasol_load *load, size_t at, size_t len) {
    size_t taken = 7;
    zimgasol_status status =
        told_feed(load, into, 2, ZIMGASOL_MAIN, text + at, len, &taken);
    if (status == ZIMGASOL_NO_MEMORY) {
        WANT(refusals == 1 && taken == 0);
        check_sections(load, at);
        status = told_feed(load, into, 2, ZIMGASOL_MAIN, text + at, len, &taken);
    }
    WANT(status == ZIMGASOL_DONE && taken == len);
    WANT(into[0].bytes == first_block && into[0].len == sizeof first_block &&
        into[1].bytes == second_block && into[1].len == sizeof second_block);
    check_sections(load, at + len);
}

/* Ends a load that is closed. Bytes after the stream's end are only counted. */
static void end_sections(zimgasol_load *load) {
    zimgasol_fault fault;
    uint64_t at = 7;
    size_t taken = 7;
    AGAIN(told_feed(load, into, 2, ZIMGASOL_MAIN, text, 9, &taken));
    WANT(taken == 9 && told_fed(load, ZIMGASOL_MAIN) == text_len + 9);
    WANT(told_closed_at(load, &at) == ZIMGASOL_DONE && at == text_len);
    for (int turn = 0; turn < 2; turn++)
        WANT(zimgasol_load_end(load, ZIMGASOL_MAIN) == ZIMGASOL_DONE);
    WANT(told_feed(load, into, 0, ZIMGASOL_MAIN, text, 1, &taken) == ZIMGASOL_IS_OVER &&
        taken == 0);
    check_fed_alone(load);
    WANT(zimgasol_load_verdict(load, &fault) == ZIMGASOL_DONE && fault.number == 0 &&
        told_rounds(load) == 4 && told_missing(load) == 3);
    zimgasol_load_free(load);
    WANT(load->full == 0 && load->at == NULL && has_sections(4));
}

/* Loads in pieces of `cut` bytes, and tries first what isn't to be done. */
static void load_sections(const zimgasol_settings *settings, size_t cut) {
    zimgasol_load load = {0};
    size_t taken = 7;
    make_in_place(&load, settings);
    for (size_t at = 0; at < text_len; at += cut) {
        size_t len = text_len - at < cut ? text_len - at : cut;
        WANT(told_feed(&load, into, 1, ZIMGASOL_MAIN, text + at, len, &taken) ==
                ZIMGASOL_BAD_LENGTH &&
            taken == 0);
        into[1].len--;
        WANT(told_feed(&load, into, 2, ZIMGASOL_MAIN, text + at, len, &taken) ==
                ZIMGASOL_BAD_LENGTH &&
            taken == 0);
        into[1].len++;
        WANT(told_feed(&load, into, 2, ZIMGASOL_CHANNEL(0), text + at, len, &taken) ==
                ZIMGASOL_BAD_SOURCE &&
            taken == 0);
        check_fed_alone(&load);
        feed_sections(&load, at, len);
    }
    end_sections(&load);
}

/* Cuts the stream at each byte: into two pieces, and into pieces of one byte. Before a page's
 * content none is asked for. */
static void cut_sections(void) {
    zimgasol_load load = {0};
    WANT(text_len == section_ends[3] + 1);
    for (size_t at = 0; at <= text_len; at++) {
        make_in_place(&load, at % 2 == 0 ? &whole : &whole_zeros);
        check_sections(&load, 0);
        feed_sections(&load, 0, at);
        if (at < text_len) feed_sections(&load, at, text_len - at);
        zimgasol_load_free(&load);
        WANT(has_sections(4));
    }
    load_sections(&whole, 1);
    load_sections(&whole_zeros, 1);
}

/* Feeds a stream with a fault in its second PART or after it, and ends it. The blocks have the
 * sections before, and nothing else; record by record they have the records before, too. `valid` is
 * where the item at fault begins. */
static void fail_section(size_t cut, size_t len, zimgasol_status wanted, uint64_t valid) {
    static uint8_t before[2][sizeof first_block];
    zimgasol_load load = {0};
    zimgasol_fault fault;
    for (int is_whole = 0; is_whole < 2; is_whole++) {
        uint64_t sections = sections_in(valid), at = 7;
        size_t taken = 0;
        make_in_place(&load, is_whole ? &whole : &plain);
        for (size_t from = 0; from < len; from += taken)
            AGAIN(told_feed(&load, into, 2, ZIMGASOL_MAIN, text + from,
                len - from < cut ? len - from : cut, &taken));
        memcpy(before[0], first_block, sizeof first_block);
        memcpy(before[1], second_block, sizeof second_block);
        if (wanted == ZIMGASOL_STREAM_TRUNCATED) WANT(zimgasol_load_takes(&load, ZIMGASOL_MAIN));
        else AGAIN(told_feed(&load, into, 2, ZIMGASOL_MAIN, text, text_len, &taken));
        WANT(zimgasol_load_end(&load, ZIMGASOL_MAIN) == ZIMGASOL_DONE);
        WANT(zimgasol_load_verdict(&load, &fault) == wanted && fault.number == wanted &&
            fault.round == sections && fault.source == ZIMGASOL_MAIN);
        WANT(zimgasol_load_fault_of(&load, ZIMGASOL_MAIN, &fault) == wanted &&
            fault.round == sections);
        WANT(told_rounds(&load) == sections && told_missing(&load) == 3 &&
            !zimgasol_load_takes(&load, ZIMGASOL_MAIN) && !told_has_all_rounds(&load));
        WANT(told_valid_up_to(&load, ZIMGASOL_MAIN, &at) && at == valid);
        at = 7;
        WANT(told_closed_at(&load, &at) == ZIMGASOL_RUNNING && at == 7);
        if (is_whole) check_fed_alone(&load);
        zimgasol_load_free(&load);
        /* record by record the page of the second PART is there */
        WANT(has_sections(is_whole ? sections : 3));
        WANT(memcmp(before[0], first_block, sizeof first_block) == 0 &&
            memcmp(before[1], second_block, sizeof second_block) == 0);
    }
}

/* Faults of several kinds, each made in one byte: where, what is changed in it, and where the item
 * at fault begins. */
static void fail_sections(void) {
    static const struct {
        size_t at;
        uint8_t change;
        zimgasol_status wanted;
        size_t valid;
    } faults[] = {
        /* the second record of the second PART: its flags, its id, its fill byte */
        {START + PART + SECOND + 7, 0x40, ZIMGASOL_STREAM_FLAGS, START + PART + SECOND},
        {START + PART + SECOND + 9, 1, ZIMGASOL_STREAM_UNKNOWN_BLOCK, START + PART + SECOND + 8},
        {START + PART + SECOND + 15, 1, ZIMGASOL_STREAM_FILL, START + PART + SECOND + 15},
        /* its footer, and END's type and section id */
        {START + 2 * PART - 5, 1, ZIMGASOL_STREAM_FOOTER, START + 2 * PART - 5},
        {START + 2 * PART, 8, ZIMGASOL_STREAM_SECTION_TYPE, START + 2 * PART},
        {START + 2 * PART + 4, 1, ZIMGASOL_STREAM_SECTION_ID, START + 2 * PART + 1},
    };
    for (size_t cut = 1000; cut <= MOST; cut += MOST - 1000)
        for (size_t i = 0; i < sizeof faults / sizeof faults[0]; i++) {
            text[faults[i].at] ^= faults[i].change;
            fail_section(cut, text_len, faults[i].wanted, faults[i].valid);
            text[faults[i].at] ^= faults[i].change;
        }
    /* cut after the second PART's page, before its footer, and before the end byte */
    fail_section(MOST, START + PART + SECOND, ZIMGASOL_STREAM_TRUNCATED, START + PART + SECOND);
    fail_section(700, START + 2 * PART - 5, ZIMGASOL_STREAM_TRUNCATED, START + 2 * PART - 5);
    fail_section(MOST, text_len - 1, ZIMGASOL_STREAM_TRUNCATED, text_len - 1);
}

/* A stream of another table: nothing is written, and nothing more of it is kept. */
static void load_other_sections(size_t cut) {
    zimgasol_load load = {0};
    zimgasol_fault fault;
    size_t taken = 0;
    uint64_t at = 7;
    /* the second block is `qc.ram` in the stream: its id ends before its length, EOS and footer */
    uint8_t *id = text + START - 13 - 8 - 6;
    WANT(memcmp(id, "pc.ram", 6) == 0);
    make_in_place(&load, &whole);
    id[0] = 'q';
    for (size_t from = 0; from < text_len; from += taken) {
        AGAIN(told_feed(&load, into, 2, ZIMGASOL_MAIN, text + from,
            text_len - from < cut ? text_len - from : cut, &taken));
        if (from + taken < START) continue;
        WANT(zimgasol_load_verdict(&load, &fault) == ZIMGASOL_OTHER_TABLE && fault.round == 0 &&
            fault.source == ZIMGASOL_MAIN);
    }
    long then = held;
    for (int more = 0; more < 9; more++)
        AGAIN(told_feed(&load, into, 2, ZIMGASOL_MAIN, text, text_len, &taken));
    WANT(held == then && told_fed(&load, ZIMGASOL_MAIN) == 10 * text_len);
    WANT(zimgasol_load_fault_of(&load, ZIMGASOL_MAIN, &fault) == ZIMGASOL_OTHER_TABLE);
    WANT(told_rounds(&load) == 0 && told_missing(&load) == 5 &&
        !zimgasol_load_takes(&load, ZIMGASOL_MAIN) && !told_has_all_rounds(&load));
    WANT(!told_valid_up_to(&load, ZIMGASOL_MAIN, &at) &&
        told_closed_at(&load, &at) == ZIMGASOL_RUNNING && at == 7);
    check_fed_alone(&load);
    WANT(zimgasol_load_end(&load, ZIMGASOL_MAIN) == ZIMGASOL_DONE);
    WANT(zimgasol_load_verdict(&load, &fault) == ZIMGASOL_OTHER_TABLE);
    zimgasol_load_free(&load);
    WANT(has_sections(0));
    id[0] = 'p';
}

/* ---- the stream record by record */

/* Feeds the stream, and tries first what isn't to be done. A piece is fed again where nothing had
 * changed. Returns NO_MEMORY where the load has failed. */
static uint32_t feed_in_place(zimgasol_load *load, size_t cut) {
    zimgasol_buffer blocks[2] = {{first_block, sizeof first_block},
        {second_block, sizeof second_block}};
    zimgasol_fault fault;
    for (size_t at = 0; at < text_len; at += cut) {
        size_t len = text_len - at < cut ? text_len - at : cut, taken = 7;
        WANT(told_feed(load, blocks, 1, ZIMGASOL_MAIN, text + at, len, &taken) ==
                ZIMGASOL_BAD_LENGTH &&
            taken == 0);
        blocks[1].len--;
        WANT(told_feed(load, blocks, 2, ZIMGASOL_MAIN, text + at, len, &taken) ==
                ZIMGASOL_BAD_LENGTH &&
            taken == 0);
        blocks[1].len++;
        WANT(told_fed(load, ZIMGASOL_MAIN) == at);
        uint32_t status =
            told_feed(load, blocks, 2, ZIMGASOL_MAIN, text + at, len, &taken);
        if (status == ZIMGASOL_NO_MEMORY) {
            WANT(refusals == 1 && taken == 0);
            if (zimgasol_load_verdict(load, &fault) == ZIMGASOL_NO_MEMORY) {
                WANT(fault.source == ZIMGASOL_ROUND && fault.round == told_rounds(load));
                WANT(zimgasol_load_fault_of(load, ZIMGASOL_MAIN, &fault) == ZIMGASOL_NO_MEMORY);
                WANT(!zimgasol_load_takes(load, ZIMGASOL_MAIN) &&
                    !told_has_all_rounds(load));
                /* it has failed for good, and only counts */
                WANT(told_fed(load, ZIMGASOL_MAIN) == at + len);
                WANT(told_feed(load, blocks, 2, ZIMGASOL_MAIN, text, 1, &taken) ==
                        ZIMGASOL_DONE &&
                    told_fed(load, ZIMGASOL_MAIN) == at + len + 1);
                WANT(zimgasol_load_verdict(load, &fault) == ZIMGASOL_NO_MEMORY);
                return status;
            }
            WANT(fault.number == ZIMGASOL_RUNNING && told_fed(load, ZIMGASOL_MAIN) == at);
            status = told_feed(load, blocks, 2, ZIMGASOL_MAIN, text + at, len, &taken);
        }
        WANT(status == ZIMGASOL_DONE && taken == len &&
            told_fed(load, ZIMGASOL_MAIN) == at + len);
        WANT(blocks[0].bytes == first_block && blocks[1].bytes == second_block &&
            blocks[0].len == sizeof first_block && blocks[1].len == sizeof second_block);
    }
    size_t taken = 7;
    WANT(zimgasol_load_end(load, ZIMGASOL_MAIN) == ZIMGASOL_DONE);
    WANT(told_feed(load, blocks, 0, ZIMGASOL_MAIN, text, 1, &taken) == ZIMGASOL_IS_OVER &&
        taken == 0);
    return ZIMGASOL_DONE;
}

/* Reads each page into its block, as from a socket in two parts, and feeds what stands between
 * them. What isn't to be done is tried first. Returns NO_MEMORY where the load has failed. */
static uint32_t read_in_place(zimgasol_load *load) {
    zimgasol_buffer blocks[2] = {{first_block, sizeof first_block},
        {second_block, sizeof second_block}};
    zimgasol_next next;
    zimgasol_fault fault;
    size_t at = 0, pages = 0, taken;
    while (zimgasol_load_wanted(load, &next)) {
        WANT(at < text_len && next.len > 0 && next.len <= text_len - at &&
            told_fed(load, ZIMGASOL_MAIN) == at);
        if (!next.is_page) {
            WANT(next.block == 0 && next.offset == 0 &&
                zimgasol_load_page_read(load, blocks, 2) == ZIMGASOL_OUT_OF_TURN);
            uint32_t status =
                told_feed(load, blocks, 2, ZIMGASOL_MAIN, text + at, next.len, &taken);
            if (status == ZIMGASOL_NO_MEMORY) {
                WANT(refusals == 1);
                if (zimgasol_load_verdict(load, &fault) == ZIMGASOL_NO_MEMORY) {
                    WANT(!zimgasol_load_wanted(load, &next) &&
                        zimgasol_load_page_read(load, blocks, 2) == ZIMGASOL_OUT_OF_TURN);
                    return status;
                }
                status =
                    told_feed(load, blocks, 2, ZIMGASOL_MAIN, text + at, next.len, &taken);
            }
            WANT(status == ZIMGASOL_DONE);
        } else {
            WANT(next.len == PAGE && next.block < 2 && next.offset % PAGE == 0 &&
                next.offset + PAGE <= blocks[next.block].len);
            memcpy(blocks[next.block].bytes + next.offset, text + at, 100);
            WANT(zimgasol_load_page_read(load, blocks, 1) == ZIMGASOL_BAD_LENGTH);
            memcpy(blocks[next.block].bytes + next.offset + 100, text + at + 100, PAGE - 100);
            WANT(zimgasol_load_page_read(load, blocks, 2) == ZIMGASOL_DONE);
            pages++;
        }
        at += next.len;
    }
    WANT(at == text_len && pages > 0);
    WANT(zimgasol_load_end(load, ZIMGASOL_MAIN) == ZIMGASOL_DONE);
    WANT(zimgasol_load_page_read(load, blocks, 2) == ZIMGASOL_IS_OVER);
    next.len = 7;
    WANT(!zimgasol_load_wanted(load, &next) && next.len == 7);
    return ZIMGASOL_DONE;
}

/* Loads into blocks, in pieces of `cut` bytes or, where that is 0, by what comes next. A load that
 * has failed is made again, with blocks as they were at first. */
static void load_in_place(size_t cut) {
    zimgasol_load load = {0};
    zimgasol_fault fault;
    uint64_t at = 7;
    make_in_place(&load, &plain);
    if ((cut > 0 ? feed_in_place(&load, cut) : read_in_place(&load)) == ZIMGASOL_NO_MEMORY) {
        WANT(told_closed_at(&load, &at) == ZIMGASOL_RUNNING && at == 7);
        zimgasol_load_free(&load);
        make_in_place(&load, &plain);
        WANT((cut > 0 ? feed_in_place(&load, cut) : read_in_place(&load)) == ZIMGASOL_DONE);
    }
    WANT(told_closed_at(&load, &at) == ZIMGASOL_DONE && at == text_len);
    WANT(zimgasol_load_verdict(&load, &fault) == ZIMGASOL_DONE && fault.number == 0 &&
        told_rounds(&load) == 4 && told_missing(&load) == 3);
    zimgasol_load_free(&load);
    WANT(load.at == NULL);
    WANT(is_filled(first_block, 2 * PAGE, 0xEE) && first_block[2 * PAGE] == 3 &&
        is_filled(first_block + 2 * PAGE + 1, PAGE - 1, 7));
    WANT(is_filled(second_block, PAGE, 0) && is_filled(second_block + PAGE, PAGE, 0xEE));
}

/* A stream that is cut amid its first round: its page is there, and no section after START is
 * complete. */
static void cut_in_place(void) {
    zimgasol_load load = {0};
    zimgasol_buffer blocks[2] = {{first_block, sizeof first_block},
        {second_block, sizeof second_block}};
    zimgasol_fault fault;
    size_t page_end = 0, taken;
    make_in_place(&load, &plain);
    while (first_block[2 * PAGE] != 1)
        AGAIN(told_feed(&load, blocks, 2, ZIMGASOL_MAIN, text + page_end++, 1, &taken));
    WANT(is_filled(first_block, 2 * PAGE, 0xEE) &&
        is_filled(first_block + 2 * PAGE + 1, PAGE - 1, 7) &&
        is_filled(second_block, 2 * PAGE, 0xEE));
    WANT(zimgasol_load_verdict(&load, &fault) == ZIMGASOL_RUNNING && fault.round == 1 &&
        told_rounds(&load) == 1 && told_missing(&load) == 4);
    WANT(zimgasol_load_end(&load, ZIMGASOL_MAIN) == ZIMGASOL_DONE);
    WANT(zimgasol_load_verdict(&load, &fault) == ZIMGASOL_STREAM_TRUNCATED && fault.round == 1 &&
        first_block[2 * PAGE] == 1);
    zimgasol_load_free(&load);
}

/* The main stream of a round of a block of two pages, which may be records of zeros on it, and its
 * channel. */
static void put_be(uint64_t number, int bytes) {
    while (bytes-- > 0) main_text[main_len++] = (uint8_t)(number >> 8 * bytes);
}

static void put_main_with(int zero_pages) {
    main_len = 0;
    put_be(0x5145564D, 4), put_be(3, 4);
    put_be(1, 1), put_be(1, 4), put_be(3, 1), put_be(0x72616D, 3), put_be(0, 4), put_be(4, 4);
    put_be(2 * PAGE | 4, 8), put_be(1, 1), put_be('a', 1), put_be(2 * PAGE, 8), put_be(0x10, 8),
        put_be(0x7E, 1), put_be(1, 4);
    put_be(2, 1), put_be(1, 4);
    if (zero_pages)
        put_be(2, 8), put_be(1, 1), put_be('a', 1), put_be(0, 1), put_be(PAGE | 0x22, 8),
            put_be(0, 1);
    put_be(0x200, 8), put_be(0x10, 8), put_be(0x7E, 1), put_be(1, 4);
    put_be(3, 1), put_be(1, 4), put_be(0x10, 8), put_be(0x7E, 1), put_be(1, 4), put_be(0, 1);
}

static void put_main(void) {
    put_main_with(0);
}

static void put_channel(void) {
    static const uint8_t uuid[16] = {1, 2, 3};
    static const uint64_t normal[1] = {PAGE}, zero[1] = {0};
    size_t written;
    channel_len = 0;
    AGAIN(zimgasol_hello(uuid, 16, 0, channel_text, 64));
    channel_len = 64;
    fill(9, 0);
    AGAIN(zimgasol_put_packet(PAGE, 0, false, (const uint8_t *)"a", 1, normal, 1, page, PAGE, zero,
        1, channel_text + channel_len, MOST - channel_len, &written));
    channel_len += written;
    AGAIN(zimgasol_put_packet(PAGE, 1, true, (const uint8_t *)"", 0, normal, 0, page, 0, zero, 0,
        channel_text + channel_len, MOST - channel_len, &written));
    channel_len += written;
    WANT(channel_len == 6848);
    WANT(zimgasol_put_packet(PAGE, 1, true, (const uint8_t *)"", 0, normal, 0, page, 0, zero, 0,
             channel_text, 10, &written) != ZIMGASOL_DONE);
    WANT(zimgasol_put_packet(4095, 1, true, (const uint8_t *)"", 0, normal, 0, page, 0, zero, 0,
             channel_text, 10, &written) == ZIMGASOL_BAD_PAGE_SIZE);
    WANT(zimgasol_hello(uuid, 15, 0, page, 64) == ZIMGASOL_BAD_LENGTH &&
        zimgasol_hello(uuid, 16, 0, page, 63) == ZIMGASOL_BAD_LENGTH);
}

/* ---- a main stream and its channel, by whole rounds */

/* The only block of their table, and the first byte of its page 1 after the round. All its other
 * bytes are zeros, before the round as after it. */
static uint8_t only_block[2 * PAGE], sent_byte;
static zimgasol_buffer only[1] = {{only_block, sizeof only_block}};

/* The block has the round, or is as before it. */
static int has_rounds(uint64_t rounds) {
    return is_filled(only_block, PAGE, 0) && only_block[PAGE] == (rounds > 0 ? sent_byte : 0) &&
        is_filled(only_block + PAGE + 1, PAGE - 1, 0);
}

/* Makes a load of the table that the main stream brings: of a block of two pages. */
static void make_several(zimgasol_load *load, uint64_t waiting) {
    static const uint8_t uuid[16] = {1, 2, 3};
    zimgasol_settings settings = {.waiting = waiting, .zero_blocks = 1, .whole_rounds = 1};
    zimgasol_table table = {0};
    zimgasol_block block;
    uint64_t at;
    AGAIN(zimgasol_table_of_stream(&table, PAGE, ZIMGASOL_FRAME_RAM, main_text, main_len, &at));
    WANT(zimgasol_table_blocks(&table) == 1 &&
        zimgasol_table_block(&table, 0, &block) == ZIMGASOL_DONE);
    WANT(block.pages == 2 && block.id[0] == 'a' && block.id[1] == 0);
    AGAIN(zimgasol_load_new(load, &table, uuid, 16, 1, &settings));
    zimgasol_table_free(&table);
    memset(only_block, 0, sizeof only_block);
}

/* A piece was refused: nothing has changed, or the load has failed for good. In both the blocks
 * have whole rounds. Returns NO_MEMORY in the second case. */
static uint32_t after_refusal(zimgasol_load *load, size_t source, uint64_t fed) {
    zimgasol_fault fault;
    size_t taken = 7;
    WANT(refusals == 1 && has_rounds(told_rounds(load)));
    if (zimgasol_load_verdict(load, &fault) == ZIMGASOL_RUNNING) {
        WANT(told_fed(load, source) == fed);
        return ZIMGASOL_DONE;
    }
    WANT(fault.number == ZIMGASOL_NO_MEMORY && fault.source == ZIMGASOL_ROUND &&
        fault.round == told_rounds(load));
    WANT(told_feed(load, only, 1, source, page, 1, &taken) == ZIMGASOL_DONE && taken == 0);
    WANT(has_rounds(told_rounds(load)));
    return ZIMGASOL_NO_MEMORY;
}

/* Feeds both texts in turn, as far as they are taken, and ends them. Returns NO_MEMORY where the
 * load has failed for good. */
static uint32_t feed_several(zimgasol_load *load, size_t cut) {
    const uint8_t *const texts[2] = {main_text, channel_text};
    size_t lengths[2] = {main_len, channel_len}, fed[2] = {0}, taken;
    for (int moved = 1; moved;) {
        moved = 0;
        for (size_t turn = 0; turn < 2; turn++) {
            size_t s = 1 - turn, left = lengths[s] - fed[s], len = left < cut ? left : cut;
            if (len == 0 || !zimgasol_load_takes(load, s)) continue;
            moved = 1;
            uint32_t status = told_feed(load, only, 1, s, texts[s] + fed[s], len, &taken);
            WANT(status == ZIMGASOL_DONE || (status == ZIMGASOL_NO_MEMORY && taken == 0));
            if (status == ZIMGASOL_NO_MEMORY && after_refusal(load, s, fed[s]) != ZIMGASOL_DONE)
                return status;
            fed[s] += taken;
            WANT(told_fed(load, s) == fed[s] && has_rounds(told_rounds(load)));
        }
    }
    WANT(zimgasol_load_end(load, ZIMGASOL_MAIN) == ZIMGASOL_DONE &&
        zimgasol_load_end(load, ZIMGASOL_CHANNEL(0)) == ZIMGASOL_DONE);
    WANT(zimgasol_load_end(load, ZIMGASOL_CHANNEL(1)) == ZIMGASOL_BAD_SOURCE);
    return ZIMGASOL_DONE;
}

/* Loads them in pieces of `cut` bytes. A load that has failed is made again. */
static void load_several(size_t cut) {
    zimgasol_load load = {0};
    zimgasol_fault fault;
    size_t taken = 7;
    sent_byte = 9;
    make_several(&load, 0);
    WANT(zimgasol_load_verdict(&load, &fault) == ZIMGASOL_RUNNING);
    WANT(told_missing(&load) == 2);
    uint32_t found = feed_several(&load, cut);
    if (found == ZIMGASOL_NO_MEMORY) {
        WANT(zimgasol_load_verdict(&load, &fault) == ZIMGASOL_NO_MEMORY);
        zimgasol_load_free(&load);
        make_several(&load, 0);
        found = feed_several(&load, cut);
    }
    WANT(found == ZIMGASOL_DONE && zimgasol_load_verdict(&load, &fault) == ZIMGASOL_DONE &&
        fault.number == 0);
    WANT(told_feed(&load, only, 1, ZIMGASOL_MAIN, page, 1, &taken) == ZIMGASOL_IS_OVER &&
        taken == 0);
    WANT(told_feed(&load, only, 1, 2, page, 1, &taken) == ZIMGASOL_BAD_SOURCE &&
        taken == 0);
    WANT(told_rounds(&load) == 1 && told_missing(&load) == 0 && has_rounds(1));
    zimgasol_load_free(&load);
    WANT(load.full == 0 && has_rounds(1));
}

/* Each section of the stream has two page records: with a limit of one, the second one of the first
 * round is at fault. It begins after START, the head of the section, and a record with its own
 * head, an id and a page. */
static void limit_one_stream(uint64_t waiting, bool is_whole) {
    static const uint64_t second = START + SECOND;
    static const char words[] = "64, stream: too many records wait, after 1 rounds, at byte 4182";
    zimgasol_settings settings = {.waiting = waiting, .whole_rounds = is_whole};
    zimgasol_load load = {0};
    zimgasol_fault fault;
    char told[100], few[10];
    size_t taken;
    uint64_t at = 7;
    make_in_place(&load, &settings);
    WANT(told_feed(&load, into, 2, ZIMGASOL_MAIN, text, text_len, &taken) ==
        ZIMGASOL_DONE);
    uint32_t wanted = waiting == 1 ? ZIMGASOL_STREAM_WAITING : ZIMGASOL_DONE;
    uint64_t valid = waiting == 1 ? second : text_len;
    WANT(zimgasol_load_verdict(&load, &fault) == wanted &&
        told_valid_up_to(&load, ZIMGASOL_MAIN, &at) && at == valid);
    /* record by record the first record is there */
    if (is_whole || waiting > 1) WANT(has_sections(waiting == 1 ? 1 : 4));
    else WANT(first_block[2 * PAGE] == 1 && is_filled(second_block, 2 * PAGE, 0xEE));
    if (waiting == 1) {
        WANT(fault.round == 1 && fault.source == ZIMGASOL_MAIN);
        WANT(zimgasol_fault_text_at(&fault, at, told, sizeof told) == (int)strlen(words) &&
            strcmp(told, words) == 0);
        WANT(zimgasol_fault_text_at(&fault, at, few, sizeof few) == (int)strlen(words) &&
            strncmp(few, words, 9) == 0 && few[9] == 0);
        WANT(zimgasol_fault_text_at(&fault, at, told, strlen(words)) == (int)strlen(words) &&
            strncmp(told, words, strlen(words) - 1) == 0);
    }
    zimgasol_load_free(&load);
    /* of a stream of another table it isn't known how much is valid */
    make_in_place(&load, &settings);
    text[START - 13 - 8 - 6]++;
    WANT(told_feed(&load, into, 2, ZIMGASOL_MAIN, text, text_len, &taken) ==
            ZIMGASOL_DONE &&
        zimgasol_load_verdict(&load, &fault) == ZIMGASOL_OTHER_TABLE);
    text[START - 13 - 8 - 6]--;
    at = 7;
    WANT(!told_valid_up_to(&load, ZIMGASOL_MAIN, &at) && at == 7);
    zimgasol_load_free(&load);
}

/* The main stream of a round has two records of zero pages, and the channel a SYNC packet alone:
 * with a limit of one the second record is at fault. */
static void limit_channels(uint64_t waiting) {
    static const uint8_t uuid[16] = {1, 2, 3};
    static const uint64_t none[1] = {0};
    zimgasol_load load = {0};
    zimgasol_fault fault;
    uint64_t at = 7;
    put_main_with(1);
    AGAIN(zimgasol_hello(uuid, 16, 0, channel_text, 64));
    AGAIN(zimgasol_put_packet(PAGE, 0, true, (const uint8_t *)"", 0, none, 0, page, 0, none, 0,
        channel_text + 64, MOST - 64, &channel_len));
    channel_len += 64;
    sent_byte = 0;
    make_several(&load, waiting);
    WANT(told_closed_at(&load, &at) == ZIMGASOL_RUNNING && at == 7);
    WANT(feed_several(&load, MOST) == ZIMGASOL_DONE);
    WANT(zimgasol_load_verdict(&load, &fault) ==
        (waiting == 1 ? ZIMGASOL_STREAM_WAITING : ZIMGASOL_DONE));
    WANT(told_valid_up_to(&load, ZIMGASOL_MAIN, &at) &&
        at == (waiting == 1 ? 56 + 5 + 11 : main_len));
    at = 7;
    WANT(told_closed_at(&load, &at) ==
            (waiting == 1 ? ZIMGASOL_RUNNING : ZIMGASOL_DONE) &&
        at == (waiting == 1 ? 7 : main_len));
    at = 7;
    WANT(!told_valid_up_to(&load, ZIMGASOL_CHANNEL(1), &at) &&
        !told_valid_up_to(&load, ZIMGASOL_ROUND, &at) && at == 7);
    WANT(told_rounds(&load) == waiting - 1 && has_rounds(waiting - 1));
    zimgasol_load_free(&load);
    put_main();
}

/* The magic of a channel's second packet is wrong: the hello has 64 bytes, and the first packet
 * 1,344 and a page. No round is complete, so that page isn't in the block. */
static void wrong_packet(void) {
    static const uint64_t second = 64 + 1344 + PAGE;
    zimgasol_load load = {0};
    zimgasol_fault fault;
    uint64_t at = 7;
    put_channel();
    channel_text[second]++;
    sent_byte = 9;
    make_several(&load, 0);
    WANT(feed_several(&load, MOST) == ZIMGASOL_DONE);
    WANT(zimgasol_load_verdict(&load, &fault) == ZIMGASOL_CHANNEL_PACKET_MAGIC &&
        fault.source == ZIMGASOL_CHANNEL(0));
    WANT(told_valid_up_to(&load, fault.source, &at) && at == second);
    WANT(told_rounds(&load) == 0 && has_rounds(0));
    zimgasol_load_free(&load);
}

/* Calls that aren't to be made so. */
static void misuse(void) {
    static const uint8_t uuid[16] = {0};
    static const uint64_t marks[1] = {1};
    const zimgasol_place place = {0, 0};
    const zimgasol_bitmap bitmap = {marks, 1};
    zimgasol_settings wrong = whole;
    zimgasol_block blocks[2] = {{.id = "a", .pages = 1}, {.id = "a", .pages = 1}};
    zimgasol_table table = {0};
    zimgasol_load load = {0};
    zimgasol_send sender = {0};
    zimgasol_worker worker = {0};
    size_t entry = 9;
    WANT(zimgasol_table_new(&table, 100, blocks, 1, &entry) == ZIMGASOL_BAD_PAGE_SIZE);
    WANT(zimgasol_table_new(&table, PAGE, blocks, 0, &entry) == ZIMGASOL_NO_BLOCKS);
    WANT(zimgasol_table_new(&table, PAGE, blocks, 2, &entry) == ZIMGASOL_ID_TWICE && entry == 1);
    blocks[0].pages = 0;
    WANT(zimgasol_table_new(&table, PAGE, blocks, 1, &entry) == ZIMGASOL_NO_PAGES && entry == 0);
    blocks[0].pages = 1ull << 60;
    WANT(zimgasol_table_new(&table, PAGE, blocks, 1, &entry) == ZIMGASOL_TOO_LARGE);
    memset(blocks[0].id, 'b', 256);
    WANT(zimgasol_table_new(&table, PAGE, blocks, 1, &entry) == ZIMGASOL_ID && entry == 0 &&
        table.at == NULL);
    WANT(zimgasol_table_new(&table, PAGE, blocks + 1, 1, &entry) == ZIMGASOL_DONE &&
        zimgasol_send_new(&sender, &table, &(zimgasol_send_settings){0}) == ZIMGASOL_DONE);
    wrong.frame = (zimgasol_frame)2;
    WANT(zimgasol_load_new(&load, &table, uuid, 16, 256, &whole) == ZIMGASOL_BAD_CHANNELS &&
        zimgasol_load_new(&load, &table, uuid, 15, 1, &whole) == ZIMGASOL_BAD_LENGTH);
    WANT(zimgasol_load_new(&load, &table, uuid, 16, 0, &wrong) == ZIMGASOL_BAD_FRAME &&
        load.at == NULL);
    WANT(zimgasol_send_put_page(&sender, 0, 0, page, PAGE) == ZIMGASOL_OUT_OF_TURN &&
        zimgasol_send_end_round(&sender) == ZIMGASOL_OUT_OF_TURN);
    /* what channels alone have */
    WANT(zimgasol_send_begin_round_pages(&sender, &place, 1) == ZIMGASOL_OUT_OF_TURN &&
        zimgasol_send_begin_round_bitmaps(&sender, &bitmap, 1) == ZIMGASOL_OUT_OF_TURN);
    WANT(zimgasol_send_worker(&sender, &worker) == ZIMGASOL_OUT_OF_TURN && worker.full == 0);
    WANT(zimgasol_send_drain(&sender, ZIMGASOL_CHANNEL(0), page, PAGE) == 0 &&
        zimgasol_send_peek(&sender, ZIMGASOL_CHANNEL(0), page, PAGE) == 0);
    WANT(zimgasol_send_skip(&sender, ZIMGASOL_CHANNEL(0), 1) == 0 &&
        zimgasol_send_waiting(&sender, ZIMGASOL_CHANNEL(0)) == 0);
    WANT(zimgasol_send_cancel_round(&sender, false) == ZIMGASOL_OUT_OF_TURN &&
        zimgasol_send_begin_round(&sender) == ZIMGASOL_DONE);
    WANT(zimgasol_send_begin_round(&sender) == ZIMGASOL_OUT_OF_TURN &&
        zimgasol_send_finish(&sender, false) == ZIMGASOL_OUT_OF_TURN);
    WANT(zimgasol_send_put_page(&sender, 0, 1, page, PAGE) == ZIMGASOL_NO_PAGE &&
        zimgasol_send_put_page(&sender, 0, 0, page, 1) == ZIMGASOL_BAD_LENGTH);
    zimgasol_send_free(&sender);
    static const uint8_t long_name[1025] = {'m'};
    WANT(new_named(&sender, &table, long_name, 1025) == ZIMGASOL_BAD_LENGTH &&
        sender.at == NULL);
    WANT(new_named(&sender, &table, long_name, 1024) == ZIMGASOL_DONE &&
        zimgasol_send_waiting(&sender, ZIMGASOL_MAIN) == 8 + 5 + 1024);
    zimgasol_send_free(&sender);
    WANT(new_named(&sender, &table, long_name, 0) == ZIMGASOL_DONE &&
        zimgasol_send_waiting(&sender, ZIMGASOL_MAIN) == 8 + 5);
    zimgasol_send_free(&sender);
    zimgasol_table_free(&table);
    /* once more does nothing */
    zimgasol_send_free(&sender);
    zimgasol_table_free(&table);
    WANT(table.at == NULL && sender.at == NULL && table.full == 0 && sender.full == 0);
}

int main(int count, char **words) {
    long first = count > 1 ? strtol(words[1], NULL, 10) : 0,
         last = count > 2 ? strtol(words[2], NULL, 10) : 100000, runs = 0, most = 0;
    misuse();
    put_main();
    send();
    cut_in_place();
    cut_sections();
    fail_sections();
    load_other_sections(1);
    load_other_sections(MOST);
    for (uint64_t waiting = 1; waiting <= 2; waiting++) {
        limit_one_stream(waiting, false);
        limit_one_stream(waiting, true);
        limit_channels(waiting);
    }
    wrong_packet();
    for (refused = first; refused <= last; refused++) {
        counted = refusals = 0;
        send();
        load_sections(&whole, 1000);
        load_sections(&whole_zeros, 5000);
        load_sections(&whole, MOST);
        load_in_place(0);
        load_in_place(900);
        load_in_place(5000);
        put_channel();
        load_several(700);
        WANT(held == 0);
        runs++;
        most = counted > most ? counted : most;
        if (refused > 0 && refusals == 0) break;
    }
    printf("%ld runs of up to %ld allocations, with none refused, then the first, then the second: "
           "all answers right, no block left\n",
        runs, most);
    return 0;
}
