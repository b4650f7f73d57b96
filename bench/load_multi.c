/* Loads a round of all pages of a guest from one channel, from two and from four: by whole rounds
 * into a block of zeros, and page by page into a block in use. The main stream is fed first, and
 * then pieces of 64 KiB of the channels in turn. */
#include "yardstick.h"
#include <stdio.h>
#include <stdlib.h>

/* What is loaded, and the block that a load page by page writes into. It is in use, and holds what
 * the load before left. */
typedef struct loading {
    guest *guest;
    const streams *sent;
    uint8_t *block;
} loading;

/* A load, and the block that it writes into. */
typedef struct placing {
    zimgasol_load load;
    zimgasol_buffer block;
} placing;

static void feed(placing *to, size_t source, const uint8_t *piece, size_t len) {
    zimgasol_fed fed;
    check(zimgasol_load_feed(&to->load, &to->block, 1, source, piece, len, &fed), "load_feed");
    if (fed.taken != len) give_up("a piece of the only round wasn't taken");
}

/* Feeds the main stream, and then pieces of the channels in turn. */
static void feed_all(const streams *of, placing *to) {
    feed(to, ZIMGASOL_MAIN, of->main.bytes, of->main.len);
    size_t longest = 0;
    for (size_t j = 0; j < of->count; j++)
        if (of->channels[j].len > longest) longest = of->channels[j].len;
    for (size_t at = 0; at < longest; at += PIECE)
        for (size_t j = 0; j < of->count; j++)
            if (at < of->channels[j].len)
                feed(to, ZIMGASOL_CHANNEL(j), of->channels[j].bytes + at,
                    piece_len(&of->channels[j], at, PIECE));
}

/* Loads the streams into a block. Returns how many rounds they had. */
static uint64_t load_into(const loading *l, uint8_t *block, const zimgasol_settings *settings) {
    placing p = {.block = {block, l->guest->len}};
    zimgasol_fault fault;
    check(zimgasol_load_new(&p.load, &l->guest->table, uuid, sizeof uuid, l->sent->count, settings),
        "load_new");
    feed_all(l->sent, &p);
    for (size_t source = 0; source <= l->sent->count; source++)
        check(zimgasol_load_end(&p.load, source), "load_end");
    check(zimgasol_load_verdict(&p.load, &fault), "load_verdict");
    check_last_page(l->guest, block + l->guest->len - PAGE);
    zimgasol_standing standing;
    zimgasol_load_standing(&p.load, &standing);
    zimgasol_load_free(&p.load);
    return standing.rounds;
}

/* Loads by whole rounds, into a block of zeros that is made here and freed. */
static uint64_t load_whole(void *of) {
    const loading *l = of;
    const zimgasol_settings settings = {.zero_blocks = 1, .whole_rounds = 1};
    uint8_t *block = taken(calloc(l->guest->pages, PAGE), "a block");
    uint64_t rounds = load_into(l, block, &settings);
    free(block);
    return rounds;
}

/* Loads page by page, into the block that holds what the load before left. */
static uint64_t load_placing(void *of) {
    const loading *l = of;
    const zimgasol_settings settings = {.frame = ZIMGASOL_FRAME_RAM};
    return load_into(l, l->block, &settings);
}

/* ---- both */

/* Measures a load, and prints its time as a ratio to the copies and to that on one channel. */
static void report_load(const char *name, const yardstick *copies, work *run, loading *l,
    uint64_t *alone) {
    measured found = best_of_five(run, l);
    if (*alone == 0) *alone = found.nanos;
    printf("  %-14s%zu: %.2f by pages, %.2f at once, %.2f to one channel; %llu rounds loaded\n",
        name, l->sent->count, ratio(found.nanos, copies->by_pages),
        ratio(found.nanos, copies->at_once), ratio(found.nanos, *alone),
        (unsigned long long)found.answer);
}

void run_load_multi(uint64_t pages) {
    guest loaded = guest_of(pages);
    yardstick copies = yardstick_of(loaded.len);
    uint8_t *block = taken(calloc(pages, PAGE), "a block");
    put_title("a round loaded from several channels", pages);
    for (size_t i = 0; i < KINDS; i++) {
        uint64_t whole = 0, placed = 0;
        guest_fill(&loaded, kinds[i].zero_tenths);
        printf("%s\n", kinds[i].name);
        for (size_t k = 0; k < COUNTS; k++) {
            streams sent = {.count = channel_counts[k]};
            send_multi(&loaded, &sent);
            loading l = {&loaded, &sent, block};
            report_load("whole rounds,", &copies, load_whole, &l, &whole);
            report_load("in place,", &copies, load_placing, &l, &placed);
            streams_free(&sent);
        }
    }
    free(block);
    guest_free(&loaded);
}
