/* What ends a round of a main stream: FLUSH, EOS, or what the stream shows. Each stream is written
 * here by hand: a table of 4 pages, and two channels with an empty round first, a round of pages,
 * and in two of them an empty round last. It is loaded as it comes and by whole rounds, cut into
 * pieces, by each setting. The round of pages has a zero record on the main stream. */
#include "standing.h"
#include "zimgasol.h"
#include <stdio.h>
#include <stdlib.h>
#include <string.h>

enum { PAGE = 4096, PAGES = 4, MOST = 1 << 17 };

#define WANT(test)                                                                                 \
    do {                                                                                           \
        if (!(test)) {                                                                             \
            printf("line %d: %s\n", __LINE__, #test);                                              \
            return 1;                                                                              \
        }                                                                                          \
    } while (0)

static const uint8_t uuid[16] = {7};
static uint8_t stream[3][MOST], memory[PAGES * PAGE];
static size_t length[3];
static zimgasol_buffer into[1] = {{memory, sizeof memory}};

/* ---- a main stream, byte by byte */

static void put(const void *bytes, size_t len) {
    memcpy(stream[0] + length[0], bytes, len);
    length[0] += len;
}

static void put_number(uint64_t number, int bytes) {
    for (int i = bytes - 1; i >= 0; i--) {
        uint8_t byte = (uint8_t)(number >> (8 * i));
        put(&byte, 1);
    }
}

static void begin_section(int type) {
    put_number((uint64_t)type, 1);
    put_number(1, 4);
}

static void flush(void) {
    put_number(0x200, 8);
}

static void end_section(void) {
    put_number(0x10, 8);
    put_number(0x7E, 1);
    put_number(1, 4);
}

static void begin_start(void) {
    length[0] = 0;
    put("QEVM\0\0\0\3", 8);
    begin_section(1);
    put("\3ram\0\0\0\0\0\0\0\4", 12);
    put_number(PAGES * PAGE + 4, 8);
    put("\3ram", 4);
    put_number(PAGES * PAGE, 8);
}

/* a record of page 3, of zeros */
static void put_zero(void) {
    put_number(3 * PAGE + 2, 8);
    put("\3ram\0", 5);
}

static void put_end(void) {
    begin_section(3);
    end_section();
    put_number(0, 1);
}

/* ---- the channels, with so many rounds, the second of which has page 1 + j on channel j */

static int write_channels(int rounds) {
    static uint8_t page[PAGE];
    uint64_t number = 0;
    size_t written;
    for (size_t j = 0; j < 2; j++) {
        WANT(zimgasol_hello(uuid, 16, (uint8_t)j, stream[1 + j], 64) == ZIMGASOL_DONE);
        length[1 + j] = 64;
    }
    for (int round = 0; round < rounds; round++)
        for (size_t j = 0; j < 2; j++) {
            uint64_t offset = (1 + j) * PAGE;
            memset(page, (int)(0x31 + j), PAGE);
            if (round == 1) {
                WANT(zimgasol_put_packet(PAGE, number++, false, (const uint8_t *)"ram", 3, &offset,
                         1, page, PAGE, &offset, 0, stream[1 + j] + length[1 + j],
                         MOST - length[1 + j], &written) == ZIMGASOL_DONE);
                length[1 + j] += written;
            }
            WANT(zimgasol_put_packet(PAGE, number++, true, (const uint8_t *)"", 0, &offset, 0, page,
                     0, &offset, 0, stream[1 + j] + length[1 + j], MOST - length[1 + j],
                     &written) == ZIMGASOL_DONE);
            length[1 + j] += written;
        }
    return 0;
}

/* ---- loads */

/* The memory has these rounds and nothing else. The second one alone has pages, all but page 0. */
static int has_rounds(uint64_t rounds) {
    static uint8_t before[PAGES * PAGE], after[PAGES * PAGE];
    if (before[0] == 0) {
        memset(before, 0xEE, sizeof before);
        memset(after, 0xEE, PAGE);
        memset(after + PAGE, 0x31, PAGE);
        memset(after + 2 * PAGE, 0x32, PAGE);
    }
    return memcmp(memory, rounds < 2 ? before : after, sizeof memory) == 0;
}

/* How streams are loaded: what ends a round, by whole rounds or not, and how many bytes a piece has
 * at most. */
typedef struct way {
    zimgasol_round_end ends;
    uint64_t whole_rounds;
    size_t cut;
} way;

/* Loads by turns, as long as a piece is taken. By whole rounds that are the streams' own (`is_own`)
 * the memory has those counted after each piece. */
static uint32_t load(zimgasol_table *table, way by, int is_own, uint64_t *rounds) {
    zimgasol_settings settings = {.round_end = by.ends, .whole_rounds = by.whole_rounds};
    zimgasol_load load = {0};
    zimgasol_fault fault = {0};
    size_t fed[3] = {0};
    memset(memory, 0xEE, sizeof memory);
    if (zimgasol_load_new(&load, table, uuid, 16, 2, &settings) != ZIMGASOL_DONE) return 1000;
    for (int moves = 1; moves;) {
        moves = 0;
        for (size_t s = 0; s < 3; s++) {
            size_t left = length[s] - fed[s], len = left < by.cut ? left : by.cut, taken = 0;
            if (len == 0) continue;
            if (told_feed(&load, into, 1, s, stream[s] + fed[s], len, &taken) !=
                ZIMGASOL_DONE)
                return 1001;
            fed[s] += taken;
            moves |= taken > 0;
            if (by.whole_rounds && is_own && !has_rounds(told_rounds(&load))) return 1003;
        }
    }
    for (size_t s = 0; s < 3; s++)
        if (fed[s] == length[s] && zimgasol_load_end(&load, s) != ZIMGASOL_DONE) return 1002;
    uint32_t verdict = zimgasol_load_verdict(&load, &fault);
    *rounds = told_rounds(&load);
    zimgasol_load_free(&load);
    return verdict;
}

/* The streams are done by these settings, with this many rounds and the guest's memory, and by the
 * other ones they aren't. */
static int try_all(zimgasol_table *table, const int done[3], uint64_t want) {
    static const size_t cuts[] = {1, 7, 100, MOST};
    uint64_t rounds = 0;
    for (int ends = 0; ends < 3; ends++)
        for (size_t i = 0; i < 8; i++) {
            way by = {(zimgasol_round_end)ends, i / 4, cuts[i % 4]};
            uint32_t verdict = load(table, by, done[ends], &rounds);
            if (!done[ends]) WANT(verdict != ZIMGASOL_DONE && verdict < 1000);
            else WANT(verdict == ZIMGASOL_DONE && rounds == want && has_rounds(want));
        }
    return 0;
}

int main(void) {
    static const int by_eos[3] = {0, 1, 1}, by_flush[3] = {1, 0, 1};
    zimgasol_block block = {.id = "ram", .pages = PAGES};
    zimgasol_settings settings = {.round_end = (zimgasol_round_end)3, .whole_rounds = 1};
    zimgasol_load none = {0};
    zimgasol_table table = {0};
    size_t entry;
    WANT(zimgasol_table_new(&table, PAGE, &block, 1, &entry) == ZIMGASOL_DONE);
    WANT(zimgasol_load_new(&none, &table, uuid, 16, 2, &settings) == ZIMGASOL_BAD_ROUND_END &&
        none.full == 0);

    /* as QEMU writes machine types of 8.0 and older: no FLUSH */
    begin_start();
    end_section();
    begin_section(2);
    put_zero();
    end_section();
    put_end();
    if (write_channels(3) || try_all(&table, by_eos, 3)) return 1;

    /* as QEMU writes newer ones: a FLUSH in START, one in a PART, and one in END */
    begin_start();
    flush();
    end_section();
    begin_section(2);
    put_zero();
    flush();
    end_section();
    begin_section(3);
    flush();
    end_section();
    put_number(0, 1);
    if (write_channels(3) || try_all(&table, by_flush, 3)) return 1;

    /* as this library writes: the first record behind START is a FLUSH */
    begin_start();
    end_section();
    begin_section(2);
    flush();
    end_section();
    begin_section(2);
    put_zero();
    flush();
    end_section();
    put_end();
    if (write_channels(2) || try_all(&table, by_flush, 2)) return 1;

    zimgasol_table_free(&table);
    printf(
        "streams whose rounds end with FLUSH and with EOS: each by what it says, and as shown\n");
    return 0;
}
