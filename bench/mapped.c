/* Loads a file with mapped-ram into a block in use, by 1, 2 and 4 threads, beside plain reads of
 * the same pages at the same offsets. The file is in memory. All of its pages have contents, or
 * every second one. Both are read in pieces of at most 4 MiB, in the file's order. A load and plain
 * reads take turns: a figure is the median of nine ratios, so that other work on the machine does
 * little to it. */
#define _GNU_SOURCE
#include "yardstick.h"
#include <pthread.h>
#include <stdatomic.h>
#include <stdio.h>
#include <stdlib.h>
#include <string.h>
#include <sys/mman.h>
#include <unistd.h>

enum { MOST_PAGES = 1024, THREADS = 4, HEADS = 1 << 16, PAIRS = 9 };

/* Pages that are read at once: an offset in the file, one in the block, and their number. */
typedef struct reading {
    uint64_t offset, page, pages;
} reading;

/* A file, the block that it is loaded into, and how. */
typedef struct mapping {
    guest *guest;
    uint8_t *block;
    reading *plain;
    size_t count;
    size_t threads;
    int file;
    atomic_size_t next;
    pthread_mutex_t lock;
    zimgasol_mapped_load load;
    zimgasol_run rest;
    uint64_t page;
} mapping;

static void read_pages(const mapping *m, reading r) {
    size_t len = r.pages * PAGE;
    if (pread(m->file, m->block + r.page * PAGE, len, (off_t)r.offset) != (ssize_t)len)
        give_up("the file can't be read");
}

static void in_threads(mapping *m, void *(*run)(void *)) {
    pthread_t others[THREADS];
    for (size_t i = 1; i < m->threads; i++)
        if (pthread_create(&others[i], NULL, run, m) != 0) give_up("no thread");
    run(m);
    for (size_t i = 1; i < m->threads; i++) pthread_join(others[i], NULL);
}

/* ---- plain reads */

static void *read_plain(void *of) {
    mapping *m = of;
    for (size_t i; (i = atomic_fetch_add(&m->next, 1)) < m->count;) read_pages(m, m->plain[i]);
    return NULL;
}

static uint64_t plain(mapping *m) {
    uint64_t began = now();
    atomic_store(&m->next, 0);
    in_threads(m, read_plain);
    return now() - began;
}

/* ---- a load */

/* Takes the next pages of the last run, or looks up the next one. Returns false if none is left. */
static bool next_pages(mapping *m, reading *next) {
    pthread_mutex_lock(&m->lock);
    if (m->rest.pages == 0) {
        check(zimgasol_mapped_load_run(&m->load, 0, m->page, &m->rest), "mapped_load_run");
        m->page = m->rest.page + m->rest.pages;
    }
    uint64_t pages = m->rest.pages < MOST_PAGES ? m->rest.pages : MOST_PAGES;
    *next = (reading){m->rest.offset, m->rest.page, pages};
    m->rest = (zimgasol_run){m->rest.page + pages, m->rest.pages - pages,
        m->rest.offset + pages * PAGE};
    pthread_mutex_unlock(&m->lock);
    return pages > 0;
}

static void *read_runs(void *of) {
    mapping *m = of;
    for (reading next; next_pages(m, &next);) read_pages(m, next);
    return NULL;
}

static void take_heads(mapping *m) {
    static uint8_t bytes[HEADS];
    uint64_t place = 0;
    ssize_t len = pread(m->file, bytes, sizeof bytes, 0);
    check(zimgasol_mapped_load_new(&m->load, PAGE, false, 0, bytes, (size_t)len, &place),
        "mapped_load_new");
    zimgasol_status status = ZIMGASOL_RUNNING;
    while (status == ZIMGASOL_RUNNING) {
        len = pread(m->file, bytes, sizeof bytes, (off_t)place);
        status = zimgasol_mapped_load_take(&m->load, bytes, (size_t)len, &place);
    }
    check(status, "mapped_load_take");
}

static uint64_t loaded(mapping *m) {
    uint64_t began = now();
    take_heads(m);
    m->page = 0;
    in_threads(m, read_runs);
    zimgasol_mapped_load_free(&m->load);
    return now() - began;
}

static int compare(const void *a, const void *b) {
    const double *one = a, *other = b;
    return (*one > *other) - (*one < *other);
}

/* Measures a load beside plain reads, in turns, and prints the medians. */
static void measure(mapping *m, const char *what) {
    double ratios[PAIRS], loads[PAIRS], plains[PAIRS];
    for (size_t i = 0; i < PAIRS; i++) {
        plains[i] = (double)plain(m);
        loads[i] = (double)loaded(m);
        ratios[i] = loads[i] / plains[i];
    }
    qsort(ratios, PAIRS, sizeof *ratios, compare);
    qsort(loads, PAIRS, sizeof *loads, compare);
    qsort(plains, PAIRS, sizeof *plains, compare);
    printf("%s, %zu threads: %.3f (%.1f ms, plain %.1f)\n", what, m->threads, ratios[PAIRS / 2],
        loads[PAIRS / 2] / 1e6, plains[PAIRS / 2] / 1e6);
}

/* ---- the file */

/* Writes the file of the guest, with every page or every second one. */
static void write_file(mapping *m, uint64_t step) {
    static uint8_t bytes[HEADS];
    zimgasol_mapped_send send = {0};
    zimgasol_part at;
    uint64_t offset;
    zimgasol_status status = ZIMGASOL_DONE;
    m->file = memfd_create("mapped", 0);
    if (m->file < 0) give_up("no file in memory");
    check(zimgasol_mapped_send_new(&send, &m->guest->table, false, (const uint8_t *)"none", 4),
        "mapped_send_new");
    m->count = 0;
    for (uint64_t p = 0; p < m->guest->pages; p += step) {
        check(zimgasol_mapped_send_mark(&send, 0, p, true, &offset), "mapped_send_mark");
        if (pwrite(m->file, m->guest->bytes + p * PAGE, PAGE, (off_t)offset) != PAGE)
            give_up("the file can't be written");
        reading *last = m->count > 0 ? &m->plain[m->count - 1] : NULL;
        if (step == 1 && last != NULL && last->pages < MOST_PAGES) last->pages++;
        else m->plain[m->count++] = (reading){offset, p, 1};
    }
    for (size_t part = 0; status == ZIMGASOL_DONE; part++) {
        status = zimgasol_mapped_send_part(&send, part, bytes, sizeof bytes, &at);
        if (status == ZIMGASOL_DONE && pwrite(m->file, bytes, at.len, (off_t)at.offset) < 0)
            give_up("the file can't be written");
    }
    if (status != ZIMGASOL_NO_PAGE) check(status, "mapped_send_part");
    zimgasol_mapped_send_free(&send);
}

void run_mapped(uint64_t pages) {
    guest g = guest_of(pages);
    mapping m = {.guest = &g, .lock = PTHREAD_MUTEX_INITIALIZER};
    m.block = taken(malloc(g.len), "the block");
    m.plain = taken(calloc(pages, sizeof *m.plain), "the list of reads");
    memset(m.block, 1, g.len);
    guest_fill(&g, 0);
    printf("a file with mapped-ram of %llu pages, loaded in place: the ratio to plain reads\n",
        (unsigned long long)pages);
    for (uint64_t step = 1; step <= 2; step++) {
        write_file(&m, step);
        for (m.threads = 1; m.threads <= THREADS; m.threads *= 2)
            measure(&m, step == 1 ? "all pages" : "every second page");
        if (memcmp(m.block, g.bytes, step == 1 ? g.len : PAGE) != 0) give_up("another memory");
        close(m.file);
    }
    free(m.plain);
    free(m.block);
    guest_free(&g);
}
