/* What a load reports, one thing at a time. Each piece that is fed is also tested for the rounds
 * that are counted after it. */
#ifndef STANDING_H
#define STANDING_H

#include "zimgasol.h"
#include <stdio.h>
#include <stdlib.h>

static inline zimgasol_standing told_standing(zimgasol_load *load) {
    zimgasol_standing standing = {7, 7, 7, 7, 7, 7, {7, 7, 7, 7}};
    zimgasol_load_standing(load, &standing);
    for (size_t i = 0; i < 4; i++)
        if (standing.reserved[i] != 0) abort();
    if (standing.has_all_rounds > 1 || standing.is_closed > 1) abort();
    if (standing.is_closed == 0 && standing.closed_at != 0) abort();
    return standing;
}

static inline zimgasol_source told_source(zimgasol_load *load, size_t source) {
    zimgasol_source seen = {7, 7, 7, {7, 7, 7, 7}};
    zimgasol_load_source(load, source, &seen);
    for (size_t i = 0; i < 4; i++)
        if (seen.reserved[i] != 0) abort();
    if (seen.is_known > 1 || (seen.is_known == 0 && seen.valid_up_to != 0)) abort();
    return seen;
}

static inline uint64_t told_rounds(zimgasol_load *load) { return told_standing(load).rounds; }
static inline uint64_t told_missing(zimgasol_load *load) { return told_standing(load).missing; }
static inline uint64_t told_claimed(zimgasol_load *load) { return told_standing(load).claimed; }

static inline bool told_has_all_rounds(zimgasol_load *load) {
    return told_standing(load).has_all_rounds == 1;
}

/* Reports where the main stream is closed; *at stays where it isn't. */
static inline zimgasol_status told_closed_at(zimgasol_load *load, uint64_t *at) {
    zimgasol_standing standing = told_standing(load);
    if (standing.is_closed == 0) return ZIMGASOL_RUNNING;
    *at = standing.closed_at;
    return ZIMGASOL_DONE;
}

static inline uint64_t told_fed(zimgasol_load *load, size_t source) {
    return told_source(load, source).fed;
}

/* Reports how many bytes of a source are valid; *at stays where that isn't known. */
static inline bool told_valid_up_to(zimgasol_load *load, size_t source, uint64_t *at) {
    zimgasol_source seen = told_source(load, source);
    if (seen.is_known == 1) *at = seen.valid_up_to;
    return seen.is_known == 1;
}

static inline zimgasol_status told_feed(zimgasol_load *load, zimgasol_buffer *blocks, size_t count,
    size_t source, const uint8_t *piece, size_t len, size_t *taken) {
    zimgasol_fed fed = {SIZE_MAX, UINT64_MAX};
    zimgasol_status status = zimgasol_load_feed(load, blocks, count, source, piece, len, &fed);
    if (fed.rounds != told_rounds(load)) {
        fprintf(stderr, "a piece is told to come to %llu rounds\n", (unsigned long long)fed.rounds);
        abort();
    }
    *taken = fed.taken;
    return status;
}

#endif
