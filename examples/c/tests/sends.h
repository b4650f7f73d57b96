/* Sends that are made in one line, and packets that are packed from a guest's blocks. */
#ifndef SENDS_H
#define SENDS_H

#include "zimgasol.h"
#include <string.h>

/* The settings of a send on channels, under a UUID of 16 bytes. */
static inline zimgasol_send_settings on_channels(const uint8_t *uuid, size_t channels,
    size_t limit) {
    zimgasol_send_settings settings = {0};
    settings.channels = channels;
    settings.limit = limit;
    memcpy(settings.uuid, uuid, sizeof settings.uuid);
    return settings;
}

/* The same, of a machine's stream. Of a name that is too long the first bytes are there. */
static inline zimgasol_send_settings with_name(zimgasol_send_settings settings, const uint8_t *name,
    size_t len) {
    settings.named = 1;
    settings.name_len = len;
    memcpy(settings.name, name, len < sizeof settings.name ? len : sizeof settings.name);
    return settings;
}

static inline zimgasol_status new_on_channels(zimgasol_send *send, zimgasol_table *table,
    const uint8_t *uuid, size_t channels, size_t limit) {
    zimgasol_send_settings settings = on_channels(uuid, channels, limit);
    return zimgasol_send_new(send, table, &settings);
}

static inline zimgasol_status new_named_on_channels(zimgasol_send *send, zimgasol_table *table,
    const uint8_t *uuid, size_t channels, size_t limit, const uint8_t *name, size_t len) {
    zimgasol_send_settings settings = with_name(on_channels(uuid, channels, limit), name, len);
    return zimgasol_send_new(send, table, &settings);
}

static inline zimgasol_status new_named(zimgasol_send *send, zimgasol_table *table,
    const uint8_t *name, size_t len) {
    zimgasol_send_settings settings = with_name((zimgasol_send_settings){0}, name, len);
    return zimgasol_send_new(send, table, &settings);
}

/* Packs the next packet of a worker from a guest's blocks, or ends its channel. */
static inline zimgasol_status pack_next(zimgasol_worker *worker, const zimgasol_lent *blocks,
    size_t page_size) {
    zimgasol_batch batch;
    zimgasol_lent contents[128];
    zimgasol_status status = zimgasol_worker_next(worker, &batch);
    if (status != ZIMGASOL_RUNNING) return status;
    for (size_t i = 0; i < batch.count; i++)
        contents[i] =
            (zimgasol_lent){blocks[batch.block].bytes + batch.pages[i] * page_size, page_size};
    return zimgasol_worker_pack(worker, contents, batch.count);
}

/* Packs the packet of a batch from pages that lie one after another. */
static inline zimgasol_status pack_copy(zimgasol_worker *worker, const uint8_t *pages, size_t count,
    size_t page_size) {
    zimgasol_lent contents[128];
    for (size_t i = 0; i < count && i < 128; i++)
        contents[i] = (zimgasol_lent){pages + i * page_size, page_size};
    return zimgasol_worker_pack(worker, contents, count);
}

#endif
