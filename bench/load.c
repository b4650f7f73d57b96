/* Sends a guest as one stream, and loads the stream: by whole sections into a block of zeros, as
 * one piece and in pieces of 64 KiB, and in such pieces record by record. It does so as a stream of
 * RAM alone and as a machine's. */
#define _GNU_SOURCE
#include "yardstick.h"
#include <stdlib.h>
#include <sys/mman.h>

/* ---- sending */

/* What is sent, and the stream that it is appended to where that is kept from run to run. */
typedef struct sending {
    guest *guest;
    stream kept;
} sending;

/* Sends the guest into a new buffer. */
static uint64_t send_new(void *of) {
    sending *s = of;
    stream to = {0};
    send_single(s->guest, ZIMGASOL_FRAME_RAM, 1, &to);
    uint64_t len = to.len;
    stream_free(&to);
    return len;
}

/* Sends the guest into a buffer that is used again. */
static uint64_t send_kept(void *of) {
    sending *s = of;
    s->kept.len = 0;
    send_single(s->guest, ZIMGASOL_FRAME_RAM, 1, &s->kept);
    return s->kept.len;
}

static void report_sending(const char *name, guest *of, const yardstick *copies) {
    sending s = {.guest = of};
    report(name, "bytes sent", copies, send_new, &s);
    report("  drained", "bytes sent", copies, send_kept, &s);
    stream_free(&s.kept);
}

/* ---- loading */

/* What is loaded, how many bytes are fed at once, and the block that a load record by record writes
 * into: null for one of fresh memory. */
typedef struct loading {
    guest *guest;
    const stream *stream;
    zimgasol_frame frame;
    size_t piece;
    uint8_t *block;
} loading;

/* Loads the stream into a block. Returns how many sections it had. */
static uint64_t load_into(uint8_t *bytes, const loading *l, const zimgasol_settings *settings) {
    zimgasol_load load = {0};
    zimgasol_buffer block = {bytes, l->guest->len};
    zimgasol_fault fault;
    zimgasol_fed fed;
    zimgasol_standing standing;
    size_t len;
    check(zimgasol_load_new(&load, &l->guest->table, uuid, 0, 0, settings), "load_new");
    for (size_t at = 0; (len = piece_len(l->stream, at, l->piece)) > 0; at += len)
        check(zimgasol_load_feed(&load, &block, 1, ZIMGASOL_MAIN, l->stream->bytes + at, len,
                  &fed),
            "load_feed");
    check(zimgasol_load_end(&load, ZIMGASOL_MAIN), "load_end");
    check(zimgasol_load_verdict(&load, &fault), "load_verdict");
    check_last_page(l->guest, bytes + block.len - PAGE);
    zimgasol_load_standing(&load, &standing);
    zimgasol_load_free(&load);
    return standing.rounds;
}

/* Loads into a block of zeros that is made here and freed. */
static uint64_t load_fresh(const loading *l, const zimgasol_settings *settings) {
    size_t len = l->guest->len;
    void *fresh = mmap(NULL, len, PROT_READ | PROT_WRITE, MAP_PRIVATE | MAP_ANONYMOUS, -1, 0);
    uint64_t rounds = load_into(taken(fresh == MAP_FAILED ? NULL : fresh, "a block"), l, settings);
    munmap(fresh, len);
    return rounds;
}

/* Loads by whole sections. */
static uint64_t load_whole(void *of) {
    const loading *l = of;
    const zimgasol_settings settings = {.frame = l->frame, .zero_blocks = 1, .whole_rounds = 1};
    return load_fresh(l, &settings);
}

/* Loads record by record. */
static uint64_t place(void *of) {
    const loading *l = of;
    const zimgasol_settings settings = {.frame = l->frame};
    if (l->block != NULL) return load_into(l->block, l, &settings);
    return load_fresh(l, &settings);
}

/* The names of the loads: by whole sections as one piece, and so in pieces, in place, and so in
 * fresh memory. */
static const char *const names[2][4] = {
    {"  whole", "  in pieces", "  in place", "  in place, fresh"},
    {"  machine's, whole", "  machine's, pieces", "  machine's, in place", "  machine's, fresh"},
};

/* Measures all loads. `block` is in use, and holds what the load before left. */
static void report_loading(guest *of, zimgasol_frame frame, const yardstick *copies,
    uint8_t *block) {
    stream sent = {0};
    send_single(of, frame, 1, &sent);
    loading l = {of, &sent, frame, sent.len, block};
    report(names[frame][0], "rounds loaded", copies, load_whole, &l);
    l.piece = PIECE;
    report(names[frame][1], "rounds loaded", copies, load_whole, &l);
    report(names[frame][2], "rounds loaded", copies, place, &l);
    l.block = NULL;
    report(names[frame][3], "rounds loaded", copies, place, &l);
    stream_free(&sent);
}

void run_load(uint64_t pages) {
    guest sent = guest_of(pages);
    yardstick copies = yardstick_of(sent.len);
    uint8_t *block = taken(calloc(pages, PAGE), "a block");
    put_title("a guest sent and loaded", pages);
    for (size_t i = 0; i < KINDS; i++) {
        guest_fill(&sent, kinds[i].zero_tenths);
        report_sending(kinds[i].name, &sent, &copies);
        report_loading(&sent, ZIMGASOL_FRAME_RAM, &copies, block);
        report_loading(&sent, ZIMGASOL_FRAME_MACHINE, &copies, block);
    }
    free(block);
    guest_free(&sent);
}
