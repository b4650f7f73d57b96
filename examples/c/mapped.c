/* Loads and saves files with mapped-ram, in which each page of a guest has an offset of its own.
 *
 *   mapped load FILE MEMORY [THREADS]
 *   mapped save FILE MACHINE THREADS ID=MEMORY..
 *
 * `load` reads the pages of FILE, which QEMU or this library wrote, straight into MEMORY: a file
 * with the blocks one after another, which it makes and maps. It prints each block, and where RAM
 * ends in FILE. `save` maps the memory of each block and writes FILE, as that of a machine with
 * this name and no devices. Status 1: FILE has a fault; 3: the program can't go on.
 *
 * The threads share a position. Under a lock each takes the next pages, at most 4 MiB of them, and
 * without the lock it reads or writes them by `pread` or `pwrite`. Pages have 4096 bytes.
 */
#define _GNU_SOURCE
#include "zimgasol.h"
#include <errno.h>
#include <fcntl.h>
#include <pthread.h>
#include <stdio.h>
#include <stdlib.h>
#include <string.h>
#include <sys/mman.h>
#include <sys/stat.h>
#include <unistd.h>

enum { PAGE = 4096, MOST = 256, PIECE = 1024, MOST_THREADS = 64, FRONT = 65536 };

/* How much memory a guest may have. The file says how much it wants. */
#define LIMIT ((uint64_t)64 << 30)

static zimgasol_block blocks[MOST];
static uint8_t *memory[MOST];
static size_t count;
static int file;

/* The next page, which the threads share, and those of the last run that none has taken. */
static pthread_mutex_t lock = PTHREAD_MUTEX_INITIALIZER;
static size_t next_block;
static uint64_t next_page;
static zimgasol_run rest;
static bool has_failed;

static zimgasol_mapped_load load;
static zimgasol_mapped_send sending;

static void die(const char *what) {
    fprintf(stderr, "%s\n", what);
    exit(3);
}

static void check(zimgasol_status status) {
    if (status != ZIMGASOL_DONE) die(zimgasol_status_text(status));
}

/* Reads up to `len` bytes at an offset, fewer only at the end of the file. */
static size_t read_at(uint8_t *bytes, size_t len, uint64_t offset) {
    size_t done = 0;
    while (done < len) {
        ssize_t more = pread(file, bytes + done, len - done, (off_t)(offset + done));
        if (more < 0 && errno == EINTR) continue;
        if (more < 0) die("the file can't be read");
        if (more == 0) break;
        done += (size_t)more;
    }
    return done;
}

static void write_at(const uint8_t *bytes, size_t len, uint64_t offset) {
    while (len > 0) {
        ssize_t more = pwrite(file, bytes, len, (off_t)offset);
        if (more < 0 && errno == EINTR) continue;
        if (more <= 0) die("the file can't be written");
        bytes += more, len -= (size_t)more, offset += (uint64_t)more;
    }
}

/* Runs `work` on so many threads, this one among them. */
static void run_threads(void *(*work)(void *), int threads) {
    pthread_t others[MOST_THREADS];
    for (int i = 1; i < threads; i++)
        if (pthread_create(&others[i], NULL, work, NULL) != 0) die("no thread");
    work(NULL);
    for (int i = 1; i < threads; i++) pthread_join(others[i], NULL);
}

/* ---- load */

static int refuse(zimgasol_status status, uint64_t place) {
    fprintf(stderr, "%d, %s, at byte %llu\n", (int)status, zimgasol_status_text(status),
        (unsigned long long)place);
    return 1;
}

/* Takes the heads of all blocks, and what follows the pages. A head that isn't complete is passed
 * again, in a larger buffer. */
static zimgasol_status take_all(uint64_t *place) {
    size_t room = FRONT;
    uint8_t *bytes = malloc(room);
    zimgasol_status status = ZIMGASOL_RUNNING;
    while (status == ZIMGASOL_RUNNING && bytes != NULL) {
        size_t len = read_at(bytes, room, *place);
        status = zimgasol_mapped_load_take(&load, bytes, len, place);
        if (status == ZIMGASOL_STREAM_TRUNCATED && len == room) {
            free(bytes);
            bytes = malloc(room *= 2);
            status = ZIMGASOL_RUNNING;
        }
    }
    if (bytes == NULL) status = ZIMGASOL_NO_MEMORY;
    free(bytes);
    return status;
}

/* Takes the next pages whose contents are in the file: of the run that was looked up last, or of
 * the next one. Returns false if none is left. */
static bool take_run(size_t *block, zimgasol_run *run) {
    pthread_mutex_lock(&lock);
    while (rest.pages == 0 && next_block < count) {
        check(zimgasol_mapped_load_run(&load, next_block, next_page, &rest));
        next_page = rest.page + rest.pages;
        if (rest.pages == 0) next_block++, next_page = 0;
    }
    *block = next_block;
    *run = rest;
    if (run->pages > PIECE) run->pages = PIECE;
    rest.page += run->pages, rest.pages -= run->pages, rest.offset += run->pages * PAGE;
    pthread_mutex_unlock(&lock);
    return run->pages > 0;
}

/* Reads pages to their places until none is left. The others are zeros, as the memory is. */
static void *read_pages(void *unused) {
    size_t block;
    zimgasol_run run;
    while (take_run(&block, &run)) {
        size_t len = run.pages * PAGE;
        if (read_at(memory[block] + run.page * PAGE, len, run.offset) != len) {
            pthread_mutex_lock(&lock);
            has_failed = true; /* the file was cut after its heads were read */
            pthread_mutex_unlock(&lock);
        }
    }
    return unused;
}

/* Makes the file of the memory, a hole, and maps its blocks. */
static void map_memory(const char *name) {
    uint64_t total = 0;
    zimgasol_table table = {0};
    check(zimgasol_mapped_load_table(&load, &table));
    for (; zimgasol_table_block(&table, count, &blocks[count]) == ZIMGASOL_DONE; count++) {
        total += blocks[count].pages * PAGE;
        printf("%s: %llu pages\n", (const char *)blocks[count].id,
            (unsigned long long)blocks[count].pages);
    }
    zimgasol_table_free(&table);
    if (total > LIMIT) die("the guest is too large");
    int into = open(name, O_RDWR | O_CREAT | O_TRUNC, 0666);
    if (into < 0 || ftruncate(into, (off_t)total) != 0) die(name);
    uint8_t *all = mmap(NULL, total, PROT_READ | PROT_WRITE, MAP_SHARED, into, 0);
    if (all == MAP_FAILED) die(name);
    close(into);
    for (size_t i = 0; i < count; i++) {
        memory[i] = all;
        all += blocks[i].pages * PAGE;
    }
}

static int load_file(const char *name, const char *into, int threads) {
    static uint8_t front[FRONT];
    uint64_t place = 0;
    file = open(name, O_RDONLY);
    if (file < 0) die(name);
    size_t len = read_at(front, sizeof front, 0);
    zimgasol_status status = zimgasol_mapped_load_new(&load, PAGE, false, 0, front, len, &place);
    if (status == ZIMGASOL_RUNNING) {
        fprintf(stderr, "no file with mapped-ram\n");
        return 1;
    }
    check(status);
    status = take_all(&place);
    if (status != ZIMGASOL_DONE) return refuse(status, place);
    map_memory(into);
    run_threads(read_pages, threads);
    if (has_failed) return refuse(ZIMGASOL_STREAM_TRUNCATED, place);
    printf("RAM ends at byte %llu\n", (unsigned long long)place);
    zimgasol_mapped_load_free(&load);
    return fflush(stdout) == 0 ? 0 : 3;
}

/* ---- save */

/* Takes the next pages, of whatever content. Returns false if none is left. */
static bool take_pages(size_t *block, uint64_t *page, uint64_t *pages) {
    pthread_mutex_lock(&lock);
    bool is_left = next_block < count;
    if (is_left) {
        *block = next_block;
        *page = next_page;
        *pages = blocks[next_block].pages - next_page;
        if (*pages > PIECE) *pages = PIECE;
        next_page += *pages;
        if (next_page == blocks[next_block].pages) next_block++, next_page = 0;
    }
    pthread_mutex_unlock(&lock);
    return is_left;
}

/* Marks pages of a block, each as zeros or not. Returns the offset of the first one. */
static uint64_t mark(size_t block, uint64_t page, uint64_t pages, const bool *zeros) {
    uint64_t offset, first = 0;
    pthread_mutex_lock(&lock);
    for (uint64_t i = 0; i < pages; i++) {
        check(zimgasol_mapped_send_mark(&sending, block, page + i, !zeros[i], &offset));
        if (i == 0) first = offset;
    }
    pthread_mutex_unlock(&lock);
    return first;
}

/* Writes the pages that aren't zeros to their offsets, as many at once as follow each other. */
static void *write_pages(void *unused) {
    static const uint8_t zero[PAGE];
    size_t block;
    uint64_t page, pages;
    bool zeros[PIECE];
    while (take_pages(&block, &page, &pages)) {
        const uint8_t *bytes = memory[block] + page * PAGE;
        for (uint64_t i = 0; i < pages; i++) zeros[i] = memcmp(bytes + i * PAGE, zero, PAGE) == 0;
        uint64_t offset = mark(block, page, pages, zeros);
        for (uint64_t i = 0, end; i < pages; i = end) {
            for (end = i + 1; end < pages && zeros[end] == zeros[i]; end++);
            if (!zeros[i]) write_at(bytes + i * PAGE, (end - i) * PAGE, offset + i * PAGE);
        }
    }
    return unused;
}

/* Writes the parts that aren't pages: front, heads with bitmaps, and end. */
static void write_parts(void) {
    size_t room = FRONT;
    uint8_t *bytes = malloc(room);
    zimgasol_part at;
    for (size_t part = 0; bytes != NULL;) {
        zimgasol_status status = zimgasol_mapped_send_part(&sending, part, bytes, room, &at);
        if (status == ZIMGASOL_NO_PAGE) break;
        if (status == ZIMGASOL_BAD_LENGTH) {
            free(bytes);
            bytes = malloc(room = at.len);
            continue;
        }
        check(status);
        write_at(bytes, at.len, at.offset);
        part++;
    }
    if (bytes == NULL) die("no memory");
    free(bytes);
}

/* Maps the memory of a block, given as ID=MEMORY. */
static void map_block(char *word) {
    struct stat found;
    char *name = strchr(word, '=');
    if (name == NULL || name - word >= 256 || count == MOST) die(word);
    memcpy(blocks[count].id, word, (size_t)(name - word));
    int from = open(++name, O_RDONLY);
    if (from < 0 || fstat(from, &found) != 0 || found.st_size % PAGE != 0) die(name);
    blocks[count].pages = (uint64_t)found.st_size / PAGE;
    memory[count] = mmap(NULL, (size_t)found.st_size, PROT_READ, MAP_SHARED, from, 0);
    if (memory[count] == MAP_FAILED) die(name);
    close(from);
    count++;
}

static int save_file(const char *name, const char *machine, int threads) {
    zimgasol_table table = {0};
    size_t entry;
    check(zimgasol_table_new(&table, PAGE, blocks, count, &entry));
    check(zimgasol_mapped_send_new(&sending, &table, false, (const uint8_t *)machine,
        strlen(machine)));
    zimgasol_table_free(&table);
    file = open(name, O_RDWR | O_CREAT | O_TRUNC, 0666);
    if (file < 0) die(name);
    run_threads(write_pages, threads);
    write_parts();
    zimgasol_mapped_send_free(&sending);
    return close(file) == 0 ? 0 : 3;
}

int main(int argc, char **argv) {
    bool is_load = argc >= 4 && argc <= 5 && strcmp(argv[1], "load") == 0;
    bool is_save = argc >= 6 && strcmp(argv[1], "save") == 0;
    int threads = argc > 4 ? atoi(argv[4]) : 1;
    if ((!is_load && !is_save) || threads < 1 || threads > MOST_THREADS)
        die("mapped load FILE MEMORY [THREADS], or mapped save FILE MACHINE THREADS ID=MEMORY..");
    if (is_load) return load_file(argv[2], argv[3], threads);
    for (int i = 5; i < argc; i++) map_block(argv[i]);
    return save_file(argv[2], argv[3], threads);
}
