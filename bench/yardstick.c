/* Times works and the copies that they are compared with, and keeps streams in memory. */
#define _GNU_SOURCE
#include "yardstick.h"
#include <stdio.h>
#include <stdlib.h>
#include <string.h>
#include <time.h>
#include <unistd.h>

enum { RUNS = 5 };

void give_up(const char *why) {
    fflush(stdout);
    fprintf(stderr, "%s\n", why);
    _exit(3); /* other threads may run */
}

void check(zimgasol_status status, const char *call) {
    if (status == ZIMGASOL_DONE) return;
    fprintf(stderr, "zimgasol_%s: ", call);
    give_up(zimgasol_status_text(status));
}

void *taken(void *at, const char *what) {
    if (at == NULL) {
        fprintf(stderr, "no memory for ");
        give_up(what);
    }
    return at;
}

/* ---- measuring */

uint64_t now(void) {
    struct timespec at;
    if (clock_gettime(CLOCK_MONOTONIC, &at) != 0) give_up("the clock can't be read");
    return (uint64_t)at.tv_sec * 1000000000 + (uint64_t)at.tv_nsec;
}

measured best_of_five(work *run, void *of) {
    measured found = {.nanos = UINT64_MAX};
    for (int i = 0; i < RUNS; i++) {
        uint64_t began = now();
        found.answer = run(of);
        uint64_t took = now() - began;
        if (took < found.nanos) found.nanos = took;
    }
    return found;
}

double ratio(uint64_t number, uint64_t unit) {
    return (double)number / (double)(unit > 0 ? unit : 1);
}

/* What is copied, and how many bytes at once. The step is no constant, so that each copy is a call
 * of `memcpy`, as it is in the library. */
typedef struct copying {
    const uint8_t *from;
    uint8_t *to;
    size_t len, step;
} copying;

static uint64_t copy(void *of) {
    const copying *c = of;
    for (size_t at = 0; at < c->len; at += c->step) memcpy(c->to + at, c->from + at, c->step);
    return c->to[c->len - 1];
}

yardstick yardstick_of(size_t len) {
    uint8_t *from = taken(malloc(len), "a copy"), *to = taken(malloc(len), "a copy");
    memset(from, 1, len);
    memset(to, 1, len);
    copying by_pages = {from, to, len, PAGE}, at_once = {from, to, len, len};
    yardstick copies = {.by_pages = best_of_five(copy, &by_pages).nanos};
    copies.at_once = best_of_five(copy, &at_once).nanos;
    free(from);
    free(to);
    return copies;
}

void put_title(const char *title, uint64_t pages) {
    printf("%s, %llu pages of %d bytes: the least time of five runs, as a ratio to a copy of "
           "them\n",
        title, (unsigned long long)pages, PAGE);
}

void report(const char *name, const char *unit, const yardstick *copies, work *run, void *of) {
    measured found = best_of_five(run, of);
    printf("%-22s%.2f by pages, %.2f at once; %llu %s\n", name,
        ratio(found.nanos, copies->by_pages), ratio(found.nanos, copies->at_once),
        (unsigned long long)found.answer, unit);
}

/* ---- streams in memory */

uint8_t *room_for(stream *to, size_t more) {
    if (to->room - to->len < more) {
        size_t room = 2 * to->room > to->len + more ? 2 * to->room : to->len + more;
        to->bytes = taken(realloc(to->bytes, room), "a stream");
        to->room = room;
    }
    return to->bytes + to->len;
}

void append(stream *to, const void *bytes, size_t len) {
    memcpy(room_for(to, len), bytes, len);
    to->len += len;
}

void stream_free(stream *of) {
    free(of->bytes);
    *of = (stream){0};
}

size_t piece_len(const stream *of, size_t at, size_t most) {
    return of->len - at < most ? of->len - at : most;
}
