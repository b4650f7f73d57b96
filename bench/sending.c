/* Makes a guest, and sends all of its pages: by one stream, and on several channels. */
#include "yardstick.h"
#include <pthread.h>
#include <stdlib.h>
#include <string.h>

/* The most pages of a section, and of a packet. */
enum { SECTION = 256, PACKET = 128 };

const uint8_t uuid[16] = {0};
const kind kinds[KINDS] = {{0, "no zeros"}, {5, "half zeros"}, {9, "nine tenths zeros"}};
const size_t channel_counts[COUNTS] = {1, 2, 4};

/* ---- the guest */

guest guest_of(uint64_t pages) {
    guest made = {.pages = pages, .len = pages * PAGE};
    zimgasol_block block = {.id = "pc.ram", .pages = pages};
    size_t entry = 0;
    check(zimgasol_table_new(&made.table, PAGE, &block, 1, &entry), "table_new");
    made.bytes = taken(calloc(pages, PAGE), "the guest");
    made.places = taken(calloc(pages, sizeof *made.places), "the list of pages");
    for (uint64_t page = 0; page < pages; page++) made.places[page].page = page;
    return made;
}

void guest_fill(guest *of, unsigned zero_tenths) {
    for (uint64_t page = 0; page < of->pages; page++)
        memset(of->bytes + page * PAGE, page % 10 >= zero_tenths, PAGE);
}

void guest_free(guest *of) {
    zimgasol_table_free(&of->table);
    free(of->bytes);
    free(of->places);
}

void check_last_page(const guest *of, const uint8_t *page) {
    if (memcmp(of->bytes + of->len - PAGE, page, PAGE) != 0)
        give_up("a page was loaded that isn't the one that was sent");
}

/* ---- one stream */

static void drain_single(zimgasol_send *sender, stream *to) {
    size_t len;
    while ((len = zimgasol_send_drain(sender, ZIMGASOL_MAIN, room_for(to, PIECE), PIECE)) > 0)
        to->len += len;
}

/* Sends a round of the pages from `first` on, at most SECTION, and drains it. */
static void send_section(zimgasol_send *sender, const guest *of, uint64_t first, stream *to) {
    uint64_t end = of->pages - first < SECTION ? of->pages : first + SECTION;
    check(zimgasol_send_begin_round(sender), "begin_round");
    for (uint64_t page = first; page < end; page++)
        check(zimgasol_send_put_page(sender, 0, page, of->bytes + page * PAGE, PAGE), "put_page");
    check(zimgasol_send_end_round(sender), "end_round");
    drain_single(sender, to);
}

void send_single(guest *of, zimgasol_frame frame, unsigned rounds, stream *to) {
    zimgasol_send sender = {0};
    check(zimgasol_send_new(&sender, &of->table, &(zimgasol_send_settings){0}), "send_new");
    for (unsigned round = 0; round < rounds; round++)
        for (uint64_t first = 0; first < of->pages; first += SECTION)
            send_section(&sender, of, first, to);
    check(zimgasol_send_finish(&sender, frame != ZIMGASOL_FRAME_RAM), "finish");
    drain_single(&sender, to);
    zimgasol_send_free(&sender);
}

/* ---- several channels */

/* A worker with what its thread needs, and when it made its last packet. */
typedef struct channel {
    zimgasol_worker worker;
    pthread_t thread;
    const uint8_t *block;
    stream *to;
    uint64_t made;
} channel;

zimgasol_send multi_of(guest *of, size_t channels) {
    zimgasol_send multi = {0};
    zimgasol_send_settings settings = {.channels = channels, .limit = PACKET};
    memcpy(settings.uuid, uuid, sizeof uuid);
    check(zimgasol_send_new(&multi, &of->table, &settings), "send_new");
    return multi;
}

/* Packs the next packet of a channel from the guest's block. */
static zimgasol_status pack(channel *c) {
    zimgasol_batch batch;
    zimgasol_lent contents[PACKET];
    zimgasol_status status = zimgasol_worker_next(&c->worker, &batch);
    if (status != ZIMGASOL_RUNNING) return status;
    for (size_t i = 0; i < batch.count; i++)
        contents[i] = (zimgasol_lent){c->block + batch.pages[i] * PAGE, PAGE};
    return zimgasol_worker_pack(&c->worker, contents, batch.count);
}

/* Makes the packets of one channel, on a thread of its own. */
static void *work_on(void *of) {
    channel *c = of;
    zimgasol_status status;
    size_t len;
    do {
        status = pack(c);
        if (status != ZIMGASOL_RUNNING) check(status, "worker");
        c->made = now();
        while ((len = zimgasol_worker_drain(&c->worker, room_for(c->to, PIECE), PIECE)) > 0)
            c->to->len += len;
    } while (status == ZIMGASOL_RUNNING);
    return NULL;
}

static void drain_main(zimgasol_send *multi, stream *to) {
    size_t len;
    while ((len = zimgasol_send_drain(multi, ZIMGASOL_MAIN, room_for(to, PIECE), PIECE)) > 0)
        to->len += len;
}

void send_round(zimgasol_send *multi, const guest *of, streams *to) {
    channel channels[MOST] = {0};
    uint64_t began = now(), made = began;
    check(zimgasol_send_begin_round_pages(multi, of->places, of->pages), "begin_round");
    for (size_t j = 0; j < to->count; j++) {
        channels[j].block = of->bytes;
        channels[j].to = &to->channels[j];
        check(zimgasol_send_worker(multi, &channels[j].worker), "send_worker");
        if (pthread_create(&channels[j].thread, NULL, work_on, &channels[j]) != 0)
            give_up("a thread can't be started");
    }
    for (size_t j = 0; j < to->count; j++) {
        if (pthread_join(channels[j].thread, NULL) != 0) give_up("a thread can't be joined");
        check(zimgasol_send_give_back(multi, &channels[j].worker), "give_back");
        if (channels[j].made > made) made = channels[j].made;
    }
    check(zimgasol_send_end_round(multi), "end_round");
    drain_main(multi, &to->main);
    to->packing = made - began;
}

void send_multi(guest *of, streams *to) {
    zimgasol_send multi = multi_of(of, to->count);
    send_round(&multi, of, to);
    check(zimgasol_send_finish(&multi, false), "finish");
    drain_main(&multi, &to->main);
    zimgasol_send_free(&multi);
}

uint64_t channels_len(const streams *of) {
    uint64_t len = 0;
    for (size_t j = 0; j < of->count; j++) len += of->channels[j].len;
    return len;
}

void streams_clear(streams *of) {
    of->main.len = 0;
    for (size_t j = 0; j < of->count; j++) of->channels[j].len = 0;
}

void streams_free(streams *of) {
    stream_free(&of->main);
    for (size_t j = 0; j < of->count; j++) stream_free(&of->channels[j]);
}
