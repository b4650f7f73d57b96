/* A load of several channels by whole rounds (`whole_rounds`): after each call the blocks have the
 * rounds counted, and nothing else. The streams are written here, round by round, and so is the
 * memory that they have after each round. They are fed in pieces of many lengths, by turns; with a
 * fault in each round; and with each allocation refused in turn. A load without the setting is fed
 * the same pieces, and reports the same. */
#include "standing.h"
#include "zimgasol.h"
#include "refusing.h"
#include <string.h>

enum { PAGE = 4096, FIRST = 3, PAGES = 6, CHANNELS = 2, SOURCES = 1 + CHANNELS, ROUNDS = 4 };
enum { MOST = 1 << 17, HEAD = ZIMGASOL_HEAD_LEN(PAGE), HELLO = ZIMGASOL_HELLO_LEN };

/* How each round sends each page: with a content on a channel (a, b), as zeros there (A, B), or on
 * the main stream (m, M); or not at all. The first three pages are block `a`, the others `pc.ram`.
 */
static const char *const sent_pages[ROUNDS] = {"abAm..", "......", "bBa.a.", "aaMbB."};
static const char *const ids[2] = {"a", "pc.ram"};

/* The streams: a main stream and its channels, and where each round ends in them. */
typedef struct streams {
    uint8_t bytes[SOURCES][MOST];
    size_t len[SOURCES];
    size_t round_end[SOURCES][ROUNDS];
    size_t opening;              /* of the main stream: up to the end of START */
    size_t pair_source[ROUNDS];  /* a packet of two pages, if the round has one: its source, or 0 */
    size_t pair_at[ROUNDS];      /* and its first byte */
    uint64_t next_number;        /* of a packet */
} streams;

static const uint8_t uuid[16] = {8, 9};
static streams sent;

/* ---- what is sent */

static size_t first_page(size_t block) {
    return block == 0 ? 0 : FIRST;
}

/* The byte that fills a page as a round sends it. */
static int content_of(size_t round, size_t page) {
    char way = sent_pages[round][page];
    return way == 'A' || way == 'B' || way == 'M' ? 0 : (int)(16 * (round + 1) + page + 1);
}

static void put(streams *to, size_t source, const void *bytes, size_t len) {
    WANT(to->len[source] + len <= MOST);
    memcpy(to->bytes[source] + to->len[source], bytes, len);
    to->len[source] += len;
}

static void put_number(streams *to, uint64_t number, int bytes) {
    while (bytes-- > 0) {
        uint8_t byte = (uint8_t)(number >> 8 * bytes);
        put(to, ZIMGASOL_MAIN, &byte, 1);
    }
}

/* A string of the main stream, after its length. */
static void put_id(streams *to, const char *id) {
    put_number(to, strlen(id), 1);
    put(to, ZIMGASOL_MAIN, id, strlen(id));
}

static void begin_section(streams *to, uint64_t type) {
    put_number(to, type, 1);
    put_number(to, 1, 4);
}

static void end_section(streams *to) {
    put_number(to, 0x10, 8);
    put_number(to, 0x7E, 1);
    put_number(to, 1, 4);
}

static void put_opening(streams *to) {
    put(to, ZIMGASOL_MAIN, "QEVM\0\0\0\3", 8);
    begin_section(to, 1);
    put_id(to, "ram");
    put_number(to, 0, 4);
    put_number(to, 4, 4);
    put_number(to, PAGES * PAGE | 4, 8);
    put_id(to, ids[0]);
    put_number(to, FIRST * PAGE, 8);
    put_id(to, ids[1]);
    put_number(to, (PAGES - FIRST) * PAGE, 8);
    end_section(to);
    to->opening = to->len[ZIMGASOL_MAIN];
    for (uint8_t j = 0; j < CHANNELS; j++) {
        uint8_t hello[HELLO];
        WANT(zimgasol_hello(uuid, sizeof uuid, j, hello, HELLO) == ZIMGASOL_DONE);
        put(to, ZIMGASOL_CHANNEL(j), hello, HELLO);
    }
}

/* The records of a round on the main stream. */
static void put_records(streams *to, size_t round) {
    uint8_t page[PAGE];
    for (size_t block = 0; block < 2; block++)
        for (size_t p = first_page(block); p < (block == 0 ? FIRST : PAGES); p++) {
            char way = sent_pages[round][p];
            if (way != 'm' && way != 'M') continue;
            put_number(to, (p - first_page(block)) * PAGE | (way == 'm' ? 8 : 2), 8);
            put_id(to, ids[block]);
            memset(page, content_of(round, p), PAGE);
            put(to, ZIMGASOL_MAIN, page, way == 'm' ? PAGE : 1);
        }
}

/* The packet of a round's pages of a block on a channel, if there are any. */
static void put_packet(streams *to, size_t round, size_t channel, size_t block) {
    uint8_t contents[FIRST * PAGE], packet[HEAD + FIRST * PAGE];
    uint64_t normal[FIRST], zero[FIRST];
    size_t normals = 0, zeros = 0, source = ZIMGASOL_CHANNEL(channel), written;
    for (size_t i = 0; i < FIRST; i++) {
        size_t p = first_page(block) + i;
        if (sent_pages[round][p] == 'A' + (char)channel) zero[zeros++] = i * PAGE;
        if (sent_pages[round][p] != 'a' + (char)channel) continue;
        memset(contents + normals * PAGE, content_of(round, p), PAGE);
        normal[normals++] = i * PAGE;
    }
    if (normals + zeros == 0) return;
    if (normals + zeros > 1) {
        to->pair_source[round] = source;
        to->pair_at[round] = to->len[source];
    }
    WANT(zimgasol_put_packet(PAGE, to->next_number++, false, (const uint8_t *)ids[block],
             strlen(ids[block]), normal, normals, contents, normals * PAGE, zero, zeros, packet,
             sizeof packet, &written) == ZIMGASOL_DONE);
    put(to, source, packet, written);
}

static void put_sync(streams *to, size_t channel) {
    static const uint64_t none[1] = {0};
    static const uint8_t nothing[1] = {0};
    uint8_t packet[HEAD];
    size_t written;
    WANT(zimgasol_put_packet(PAGE, to->next_number++, true, nothing, 0, none, 0, nothing, 0, none,
             0, packet, sizeof packet, &written) == ZIMGASOL_DONE &&
        written == HEAD);
    put(to, ZIMGASOL_CHANNEL(channel), packet, written);
}

static void put_round(streams *to, size_t round) {
    begin_section(to, 2);
    put_records(to, round);
    put_number(to, 0x200, 8);
    to->round_end[ZIMGASOL_MAIN][round] = to->len[ZIMGASOL_MAIN];
    end_section(to);
    for (size_t j = 0; j < CHANNELS; j++) {
        for (size_t block = 0; block < 2; block++) put_packet(to, round, j, block);
        put_sync(to, j);
        to->round_end[ZIMGASOL_CHANNEL(j)][round] = to->len[ZIMGASOL_CHANNEL(j)];
    }
}

static void put_all(streams *to) {
    put_opening(to);
    for (size_t round = 0; round < ROUNDS; round++) put_round(to, round);
    begin_section(to, 3);
    end_section(to);
    put_number(to, 0, 1);
}

/* ---- what the blocks have to hold */

static uint8_t expected[1 + ROUNDS][PAGES * PAGE];

/* Works out the memory after each round, on top of what it holds at first. */
static void expect(int at_first) {
    memset(expected[0], at_first, sizeof expected[0]);
    for (size_t round = 0; round < ROUNDS; round++) {
        memcpy(expected[1 + round], expected[round], sizeof expected[round]);
        for (size_t p = 0; p < PAGES; p++)
            if (sent_pages[round][p] != '.')
                memset(expected[1 + round] + p * PAGE, content_of(round, p), PAGE);
    }
}

/* How many pages none of the first rounds has. */
static uint64_t missing_of(uint64_t rounds) {
    uint64_t missing = PAGES;
    for (size_t p = 0; p < PAGES; p++)
        for (size_t round = 0; round < rounds; round++)
            if (sent_pages[round][p] != '.') {
                missing--;
                break;
            }
    return missing;
}

/* How many rounds all sources have, of which this many bytes were taken. */
static uint64_t rounds_of(const size_t *taken) {
    for (uint64_t rounds = 0; rounds < ROUNDS; rounds++)
        for (size_t source = 0; source < SOURCES; source++)
            if (taken[source] < sent.round_end[source][rounds]) return rounds;
    return ROUNDS;
}

/* ---- a load */

static uint8_t memory[PAGES * PAGE], twin_memory[PAGES * PAGE];
static zimgasol_buffer blocks[2] = {{memory, FIRST * PAGE},
    {memory + FIRST * PAGE, (PAGES - FIRST) * PAGE}};
static zimgasol_buffer twin_blocks[2] = {{twin_memory, FIRST * PAGE},
    {twin_memory + FIRST * PAGE, (PAGES - FIRST) * PAGE}};

/* A load, what it is fed, and how many bytes of each source it took. The first `lawful` rounds have
 * no fault. The twin is a load without the setting, if there is one. */
typedef struct run {
    zimgasol_load load, twin;
    const streams *from;
    uint64_t lawful;
    size_t taken[SOURCES];
    bool ended[SOURCES];
} run;

static uint32_t seed;

/* Returns a number from 1 to `most`. */
static size_t length_up_to(size_t most) {
    seed = seed * 1664525 + 1013904223;
    return 1 + (seed >> 8) % most;
}

static run begin(zimgasol_table *table, const streams *from, uint64_t lawful, bool zeros,
    bool has_twin) {
    zimgasol_settings settings = {.zero_blocks = zeros, .whole_rounds = 1};
    run made = {.from = from, .lawful = lawful};
    memset(memory, zeros ? 0 : 0xEE, sizeof memory);
    memset(twin_memory, zeros ? 0 : 0xEE, sizeof twin_memory);
    expect(zeros ? 0 : 0xEE);
    seed = 1;
    AGAIN(zimgasol_load_new(&made.load, table, uuid, sizeof uuid, CHANNELS, &settings));
    settings.whole_rounds = 0;
    if (has_twin)
        AGAIN(zimgasol_load_new(&made.twin, table, uuid, sizeof uuid, CHANNELS, &settings));
    return made;
}

static bool is_running(run *r) {
    zimgasol_fault fault;
    return zimgasol_load_verdict(&r->load, &fault) == ZIMGASOL_RUNNING;
}

/* Two faults are one. */
static bool same(const zimgasol_fault *a, const zimgasol_fault *b) {
    return a->round == b->round && a->source == b->source && a->number == b->number &&
        a->first == b->first && a->second == b->second;
}

/* Both loads report the same. */
static void check_twin(run *r) {
    zimgasol_load *load = &r->load, *twin = &r->twin;
    zimgasol_fault fault = {0}, other = {0};
    uint64_t at = 7, other_at = 7;
    WANT(zimgasol_load_verdict(load, &fault) == zimgasol_load_verdict(twin, &other) &&
        same(&fault, &other));
    WANT(told_rounds(load) == told_rounds(twin) &&
        told_missing(load) == told_missing(twin) &&
        told_has_all_rounds(load) == told_has_all_rounds(twin));
    WANT(told_closed_at(load, &at) == told_closed_at(twin, &other_at) &&
        at == other_at);
    for (size_t source = 0; source <= SOURCES; source++) {
        at = other_at = 7;
        WANT(zimgasol_load_takes(load, source) == zimgasol_load_takes(twin, source) &&
            told_fed(load, source) == told_fed(twin, source));
        WANT(told_valid_up_to(load, source, &at) ==
                told_valid_up_to(twin, source, &other_at) &&
            at == other_at);
        WANT(zimgasol_load_fault_of(load, source, &fault) ==
                zimgasol_load_fault_of(twin, source, &other) &&
            same(&fault, &other));
    }
}

/* The blocks have the lawful rounds of which all bytes were taken, and nothing else. */
static void check(run *r) {
    uint64_t rounds = rounds_of(r->taken);
    if (rounds > r->lawful) rounds = r->lawful;
    WANT(told_rounds(&r->load) == rounds);
    WANT(memcmp(memory, expected[rounds], sizeof memory) == 0);
    WANT(told_missing(&r->load) == missing_of(rounds));
    WANT(blocks[0].bytes == memory && blocks[0].len == FIRST * PAGE &&
        blocks[1].bytes == memory + FIRST * PAGE && blocks[1].len == (PAGES - FIRST) * PAGE);
    if (r->twin.full != 0) check_twin(r);
}

/* No page is claimed, whatever the next bytes of a channel are. */
static void check_claims(run *r, size_t channel, const uint8_t *head, size_t len) {
    static const zimgasol_pages untouched = {.block = 77, .normal = 78, .zero = 79, .pages = {80}};
    static const uint8_t content[PAGE];
    zimgasol_lent contents[1] = {{content, PAGE}};
    zimgasol_pages pages = untouched;
    WANT(zimgasol_load_claim(&r->load, channel, head, len, &pages) == ZIMGASOL_TO_FEED);
    WANT(memcmp(&pages, &untouched, sizeof pages) == 0);
    WANT(zimgasol_load_take(&r->load, channel, head, len, contents, 1) == ZIMGASOL_OUT_OF_TURN);
    WANT(zimgasol_load_claim(&r->load, CHANNELS, head, len, &pages) == ZIMGASOL_BAD_SOURCE &&
        zimgasol_load_take(&r->load, CHANNELS, head, len, contents, 1) == ZIMGASOL_BAD_SOURCE);
    WANT(memcmp(&pages, &untouched, sizeof pages) == 0 && told_claimed(&r->load) == 0);
}

/* The calls for pages of one stream. */
static void check_wanted(run *r) {
    zimgasol_next next = {.len = 77, .is_page = 78, .block = 79, .offset = 80};
    WANT(!zimgasol_load_wanted(&r->load, &next) && next.len == 77 && next.is_page == 78 &&
        next.block == 79 && next.offset == 80);
    WANT(zimgasol_load_page_read(&r->load, blocks, 2) == ZIMGASOL_OUT_OF_TURN);
}

/* A load that has ended takes nothing more, and leaves the blocks as they are. */
static void check_over(run *r) {
    static uint8_t before[sizeof memory];
    uint64_t rounds = told_rounds(&r->load);
    memcpy(before, memory, sizeof memory);
    for (size_t source = 0; source < SOURCES; source++) {
        size_t taken = 7, len = sent.len[source];
        WANT(!zimgasol_load_takes(&r->load, source));
        if (!r->ended[source])
            WANT(told_feed(&r->load, blocks, 2, source, sent.bytes[source], len, &taken) ==
                    ZIMGASOL_DONE &&
                taken == 0);
        WANT(zimgasol_load_end(&r->load, source) == ZIMGASOL_DONE);
        WANT(told_feed(&r->load, blocks, 2, source, sent.bytes[source], len, &taken) ==
                ZIMGASOL_IS_OVER &&
            taken == 0);
    }
    WANT(memcmp(memory, before, sizeof memory) == 0 && told_rounds(&r->load) == rounds);
}

/* An allocation was refused. If the load goes on nothing has changed. If it has failed the blocks
 * have the rounds counted: at least those of the calls before, and none that lacks a byte. */
static void check_refused(run *r, size_t source, size_t len) {
    size_t reached[SOURCES];
    zimgasol_fault fault;
    uint64_t rounds = told_rounds(&r->load), fed = told_fed(&r->load, source);
    WANT(refusals == 1);
    if (is_running(r)) {
        WANT(fed == r->taken[source]);
        check(r);
        return;
    }
    WANT(zimgasol_load_verdict(&r->load, &fault) == ZIMGASOL_NO_MEMORY &&
        fault.source == ZIMGASOL_ROUND && fault.round == rounds);
    WANT(fed >= r->taken[source] && fed <= r->taken[source] + len);
    memcpy(reached, r->taken, sizeof reached);
    reached[source] = fed;
    WANT(rounds_of(r->taken) <= rounds && rounds <= rounds_of(reached));
    WANT(memcmp(memory, expected[rounds], sizeof memory) == 0);
    check_over(r);
    WANT(zimgasol_load_verdict(&r->load, &fault) == ZIMGASOL_NO_MEMORY);
}

/* Feeds the next bytes of a source, and checks what the blocks have. Returns whether bytes were
 * taken, or can be fed again. */
static bool feed(run *r, size_t source, size_t len) {
    const uint8_t *piece = r->from->bytes[source] + r->taken[source];
    size_t left = r->from->len[source] - r->taken[source], taken = 7, twin_taken = 7;
    if (source != ZIMGASOL_MAIN) check_claims(r, source - 1, piece, left < HEAD ? left : HEAD);
    zimgasol_status status = told_feed(&r->load, blocks, 2, source, piece, len, &taken);
    if (status == ZIMGASOL_NO_MEMORY) {
        WANT(taken == 0);
        check_refused(r, source, len);
        return is_running(r);
    }
    WANT(status == ZIMGASOL_DONE && taken <= len);
    if (r->twin.full != 0)
        WANT(told_feed(&r->twin, twin_blocks, 2, source, piece, len, &twin_taken) ==
                ZIMGASOL_DONE &&
            twin_taken == taken);
    r->taken[source] += taken;
    WANT(told_fed(&r->load, source) == r->taken[source]);
    check(r);
    return taken > 0;
}

static void end(run *r, size_t source) {
    WANT(zimgasol_load_end(&r->load, source) == ZIMGASOL_DONE);
    if (r->twin.full != 0) WANT(zimgasol_load_end(&r->twin, source) == ZIMGASOL_DONE);
    r->ended[source] = true;
    check(r);
}

/* Feeds all sources by turns, in pieces of 1 to `most` bytes, as long as one of them takes some.
 * With `ends` a source is ended once all of it was taken. */
static void feed_by_turns(run *r, size_t most, bool ends) {
    for (bool moved = true; moved;) {
        moved = false;
        for (size_t turn = length_up_to(SOURCES), i = 0; i < SOURCES && is_running(r); i++) {
            size_t source = (turn + i) % SOURCES, left = r->from->len[source] - r->taken[source];
            size_t len = length_up_to(most);
            if (r->ended[source]) continue;
            if (left == 0 && ends) {
                end(r, source);
                moved = true;
            } else if (left > 0 && zimgasol_load_takes(&r->load, source)) {
                moved = feed(r, source, len < left ? len : left) || moved;
            }
        }
    }
}

/* All bytes were taken: the load has all rounds, and is done once its sources are ended. */
static void finish(run *r) {
    zimgasol_fault fault;
    WANT(is_running(r) && told_has_all_rounds(&r->load));
    WANT(memcmp(memory, expected[ROUNDS], sizeof memory) == 0);
    for (size_t source = 0; source < SOURCES; source++) {
        WANT(r->taken[source] == r->from->len[source]);
        end(r, source);
    }
    WANT(zimgasol_load_verdict(&r->load, &fault) == ZIMGASOL_DONE && fault.number == 0);
    WANT(told_rounds(&r->load) == ROUNDS && told_missing(&r->load) == 1);
    check_over(r);
    check(r);
    zimgasol_load_free(&r->load);
    zimgasol_load_free(&r->twin);
    WANT(r->load.full == 0);
}

/* ---- streams without a fault */

static void load_all(zimgasol_table *table, size_t most, bool zeros) {
    run r = begin(table, &sent, ROUNDS, zeros, true);
    check(&r);
    check_wanted(&r);
    feed_by_turns(&r, most, false);
    check_wanted(&r);
    finish(&r);
}

/* A packet whose pages a load without the setting lets the caller read is fed. */
static void feed_unclaimed(zimgasol_table *table) {
    run r = begin(table, &sent, ROUNDS, true, true);
    const uint8_t *head = sent.bytes[1] + HELLO;
    zimgasol_pages pages;
    feed(&r, ZIMGASOL_MAIN, sent.opening);
    for (size_t j = 0; j < CHANNELS; j++) feed(&r, ZIMGASOL_CHANNEL(j), HELLO);
    WANT(zimgasol_load_claim(&r.twin, 0, head, HEAD, &pages) == ZIMGASOL_RUNNING &&
        told_claimed(&r.twin) == 2);
    check_claims(&r, 0, head, HEAD);
    zimgasol_load_free(&r.twin);
    feed_by_turns(&r, MOST, false);
    finish(&r);
}

/* Settings that are no load of whole rounds, and one that is. */
static void make(zimgasol_table *table) {
    zimgasol_settings settings = {.whole_rounds = UINT64_MAX}, wrong = {.whole_rounds = 1};
    zimgasol_load load = {0};
    WANT(zimgasol_load_new(&load, table, uuid, sizeof uuid, 256, &settings) ==
            ZIMGASOL_BAD_CHANNELS &&
        zimgasol_load_new(&load, table, uuid, 15, 1, &settings) == ZIMGASOL_BAD_LENGTH);
    wrong.round_end = (zimgasol_round_end)3;
    WANT(zimgasol_load_new(&load, table, uuid, sizeof uuid, 1, &wrong) == ZIMGASOL_BAD_ROUND_END);
    wrong.frame = (zimgasol_frame)2;
    WANT(zimgasol_load_new(&load, table, uuid, sizeof uuid, 1, &wrong) == ZIMGASOL_BAD_FRAME);
    WANT(load.full == 0 && load.at == NULL);
    WANT(zimgasol_load_new(&load, table, uuid, sizeof uuid, 255, &settings) == ZIMGASOL_DONE);
    WANT(told_rounds(&load) == 0 && told_missing(&load) == PAGES &&
        told_claimed(&load) == 0);
    zimgasol_load_free(&load);
}

/* Streams of another table: nothing of them is written. */
static void load_other(void) {
    zimgasol_block named[2] = {{.id = "a", .pages = FIRST},
        {.id = "pc.rom", .pages = PAGES - FIRST}};
    zimgasol_table table = {0};
    zimgasol_fault fault;
    size_t entry;
    WANT(zimgasol_table_new(&table, PAGE, named, 2, &entry) == ZIMGASOL_DONE);
    run r = begin(&table, &sent, 0, false, false);
    zimgasol_table_free(&table);
    for (size_t source = 0; source < SOURCES; source++) {
        size_t taken;
        WANT(told_feed(&r.load, blocks, 2, source, sent.bytes[source], sent.len[source],
                 &taken) == ZIMGASOL_DONE &&
            zimgasol_load_end(&r.load, source) == ZIMGASOL_DONE);
        WANT(memcmp(memory, expected[0], sizeof memory) == 0);
    }
    WANT(zimgasol_load_verdict(&r.load, &fault) == ZIMGASOL_OTHER_TABLE && fault.round == 0 &&
        told_rounds(&r.load) == 0);
    zimgasol_load_free(&r.load);
}

/* ---- faults */

/* Makes a fault in a round. Returns its number, or DONE if the round has no such place. */
typedef zimgasol_status fault_in(streams *in, size_t round);

static uint8_t *sync_of(streams *in, size_t channel, size_t round) {
    size_t source = ZIMGASOL_CHANNEL(channel);
    return in->bytes[source] + in->round_end[source][round] - HEAD;
}

static zimgasol_status wrong_magic(streams *in, size_t round) {
    sync_of(in, 1, round)[0] ^= 1;
    return ZIMGASOL_CHANNEL_PACKET_MAGIC;
}

/* A packet's number, in its bytes 24 to 31, is none of the round. */
static zimgasol_status wrong_number(streams *in, size_t round) {
    sync_of(in, 1, round)[24 + 6] ^= 0x40;
    return ZIMGASOL_ROUND_MISSING;
}

/* A packet has its first page twice: the offsets of pages follow byte 320. */
static zimgasol_status page_twice(streams *in, size_t round) {
    if (in->pair_source[round] == 0) return ZIMGASOL_DONE;
    uint8_t *offsets = in->bytes[in->pair_source[round]] + in->pair_at[round] + 320;
    memcpy(offsets + 8, offsets, 8);
    return ZIMGASOL_ROUND_DOUBLE_PAGE;
}

/* The FLUSH that ends the round on the main stream has other flags. */
static zimgasol_status wrong_flags(streams *in, size_t round) {
    in->bytes[ZIMGASOL_MAIN][in->round_end[ZIMGASOL_MAIN][round] - 2] ^= 6;
    return ZIMGASOL_STREAM_FLAGS;
}

static zimgasol_status cut_main(streams *in, size_t round) {
    in->len[ZIMGASOL_MAIN] = in->round_end[ZIMGASOL_MAIN][round] - 1;
    return ZIMGASOL_STREAM_TRUNCATED;
}

static zimgasol_status cut_sync(streams *in, size_t round) {
    in->len[ZIMGASOL_CHANNEL(1)] = in->round_end[ZIMGASOL_CHANNEL(1)][round] - 1;
    return ZIMGASOL_CHANNEL_TRUNCATED;
}

/* A channel ends before its SYNC packet: after other packets of the round, or as the round begins.
 */
static zimgasol_status no_sync(streams *in, size_t round) {
    const char *pages = sent_pages[round];
    in->len[ZIMGASOL_CHANNEL(0)] = in->round_end[ZIMGASOL_CHANNEL(0)][round] - HEAD;
    return strpbrk(pages, "aA") != NULL ? ZIMGASOL_CHANNEL_UNSYNCED : ZIMGASOL_SHORT;
}

/* Streams with a fault in a round: the blocks have the rounds before it. Returns how many loads
 * there were. */
static int load_fault(zimgasol_table *table, fault_in *make_fault, size_t round, size_t most,
    bool zeros) {
    static streams changed;
    zimgasol_fault fault;
    changed = sent;
    zimgasol_status wanted = make_fault(&changed, round);
    if (wanted == ZIMGASOL_DONE) return 0;
    run r = begin(table, &changed, round, zeros, true);
    feed_by_turns(&r, most, true);
    WANT(zimgasol_load_verdict(&r.load, &fault) == wanted && fault.number == wanted &&
        fault.round == round);
    WANT(told_rounds(&r.load) == round && !told_has_all_rounds(&r.load));
    WANT(memcmp(memory, expected[round], sizeof memory) == 0);
    check_over(&r);
    WANT(memcmp(memory, expected[round], sizeof memory) == 0);
    zimgasol_load_free(&r.load);
    zimgasol_load_free(&r.twin);
    return 1;
}

static int load_faults(zimgasol_table *table) {
    static fault_in *const kinds[] = {wrong_magic, wrong_number, page_twice, wrong_flags, cut_main,
        cut_sync, no_sync};
    int loads = 0;
    for (size_t i = 0; i < sizeof kinds / sizeof kinds[0]; i++)
        for (size_t round = 0; round < ROUNDS; round++) {
            loads += load_fault(table, kinds[i], round, 900, round % 2 == 0);
            loads += load_fault(table, kinds[i], round, MOST, round % 2 == 1);
        }
    return loads;
}

/* A load that is given up in the middle of each round: its blocks have the rounds before. */
static void give_up(zimgasol_table *table) {
    static streams cut;
    for (size_t round = 0; round < ROUNDS; round++) {
        cut = sent;
        cut.len[ZIMGASOL_CHANNEL(1)] = cut.round_end[ZIMGASOL_CHANNEL(1)][round] - 1;
        run r = begin(table, &cut, ROUNDS, true, false);
        feed_by_turns(&r, 3000, false);
        WANT(is_running(&r) && told_rounds(&r.load) == round);
        zimgasol_load_free(&r.load);
        WANT(memcmp(memory, expected[round], sizeof memory) == 0);
    }
}

/* ---- allocations that are refused */

/* Loads, and makes a load that has failed anew. */
static void load_refused(zimgasol_table *table, size_t most, bool zeros) {
    run r = begin(table, &sent, ROUNDS, zeros, false);
    feed_by_turns(&r, most, false);
    if (!is_running(&r)) {
        WANT(refusals == 1);
        zimgasol_load_free(&r.load);
        r = begin(table, &sent, ROUNDS, zeros, false);
        feed_by_turns(&r, most, false);
    }
    finish(&r);
}

static void make_table(zimgasol_table *table) {
    zimgasol_block named[2] = {{.id = "a", .pages = FIRST},
        {.id = "pc.ram", .pages = PAGES - FIRST}};
    size_t entry;
    AGAIN(zimgasol_table_new(table, PAGE, named, 2, &entry));
}

int main(void) {
    static const size_t lengths[] = {40, 700, 5000, MOST};
    zimgasol_table table = {0};
    long runs = 0, most = 0;
    put_all(&sent);
    make_table(&table);
    make(&table);
    for (size_t i = 0; i < sizeof lengths / sizeof lengths[0]; i++)
        for (int zeros = 0; zeros < 2; zeros++) load_all(&table, lengths[i], zeros);
    feed_unclaimed(&table);
    load_other();
    int faults = load_faults(&table);
    give_up(&table);
    zimgasol_table_free(&table);
    WANT(held == 0);
    for (refused = 1;; refused++) {
        counted = refusals = 0;
        make_table(&table);
        load_refused(&table, 4000, true);
        load_refused(&table, MOST, false);
        zimgasol_table_free(&table);
        WANT(held == 0);
        runs++;
        most = counted > most ? counted : most;
        if (refusals == 0) break;
    }
    printf("whole rounds: the blocks have those counted after each piece, and after %d faults; %ld "
           "runs of up to %ld allocations, of which one is refused: whole rounds alone\n",
        faults, runs, most);
    return 0;
}
