/* Measures what hostile and costly streams take of loads: time and memory for each byte. So a
 * caller knows what a limit on the stream bounds.
 *
 * Some streams are small and declare a large guest. Others have records of a few bytes, each of
 * which takes more memory than it has bytes, or a search of the table. A plain guest is there to
 * compare them with. Each is fed in pieces of 64 KiB, but for main streams, which are one piece. It
 * is loaded by whole sections, and record by record.
 *
 * The memory is the most that is resident during the five runs, less what was resident before them,
 * with the stream and the blocks. Linux reports it as `VmHWM` in `/proc/self/status`; writing 5 to
 * `/proc/self/clear_refs` resets it. The C library is set to return at once what is freed.
 */
#define _GNU_SOURCE
#include "yardstick.h"
#include <malloc.h>
#include <stdlib.h>
#include <string.h>
#include <sys/mman.h>

/* Pages of the guests whose pages are sent, and how often the guest of zeros is sent; records of
 * the streams made by hand. */
enum { PAGES = 1 << 16, ZERO_ROUNDS = 8, BLOCKS = 256, NAMING = 1 << 18, FLUSHES = 1 << 19 };
enum { SMALL_ROUNDS = 1 << 18, COMMANDS = 1000000, LONG_COMMANDS = 512, SECTIONS = 1 << 18 };

/* The guest of an open section, the most of its page records that may wait, how many are fed at
 * once, and how many such pieces are fed at least: 16 MiB. */
enum { OPEN_PAGES = 256, WAITING = 4 * OPEN_PAGES, PIECE_RECORDS = 16, PIECES = 256 };

/* The bytes of END, and the end byte. */
enum { CLOSING = 19 };

/* The bytes before the records of a PART and after them: the head with the section id; EOS and
 * footer. */
static const uint8_t part_head[] = {2, 0, 0, 0, 1};
static const uint8_t section_end[] = {0, 0, 0, 0, 0, 0, 0, 0x10, 0x7E, 0, 0, 0, 1};

static const uint8_t flush[] = {0, 0, 0, 0, 0, 0, 2, 0};

/* A zero record for the first page of the block named last, and one that names the block `a`. */
static const uint8_t continued_zeros[] = {0, 0, 0, 0, 0, 0, 0, 0x22, 0};
static const uint8_t named_zeros[] = {0, 0, 0, 0, 0, 0, 0, 2, 1, 'a', 0};

/* The heads of such records of a page with bytes. */
static const uint8_t continued_page[] = {0, 0, 0, 0, 0, 0, 0, 0x28};
static const uint8_t named_page[] = {0, 0, 0, 0, 0, 0, 0, 8, 1, 'a'};

/* OPEN_RETURN_PATH and PING, as QEMU writes them, and the first bytes of a PING of 65,535. */
static const uint8_t open_return_path[] = {8, 0, 1, 0, 0};
static const uint8_t ping[] = {8, 0, 2, 0, 4, 0, 0, 0, 1};
static const uint8_t long_ping[] = {8, 0, 2, 0xFF, 0xFF};
static const uint8_t long_content[65535];

/* The ids of a table's blocks. MIRRORED ids differ in the first two bytes, and in the last two,
 * which mirror them: if a table's key of an id lets its last bytes cancel the first ones, all of
 * them share a key. Those of ONE_FRONT share the first sixteen bytes, by which a table looks for an
 * id first. */
typedef enum ids { ONE, SHORT, MIRRORED, ONE_FRONT } ids;

/* Writes the id of a block, of a buffer of 32. */
static void put_id(char *id, ids of, unsigned block) {
    char pair[3];
    snprintf(pair, sizeof pair, "%02x", block % BLOCKS);
    if (of == ONE) strcpy(id, "a");
    else if (of == SHORT) sprintf(id, "r%s", pair);
    else if (of == MIRRORED) sprintf(id, "%c%cxxxxxx%s", pair[1], pair[0], pair);
    else sprintf(id, "0000:00:02.0/rom%s", pair);
}

/* ---- measuring */

/* Returns a number of /proc/self/status, in bytes; 0 if the system doesn't report it. */
static uint64_t resident(const char *name) {
    char line[256];
    uint64_t found = 0;
    FILE *file = fopen("/proc/self/status", "r");
    while (file != NULL && fgets(line, sizeof line, file) != NULL)
        if (strncmp(line, name, strlen(name)) == 0)
            found = strtoull(line + strlen(name), NULL, 10) * 1024;
    if (file != NULL) fclose(file);
    return found;
}

/* Resets the peak to what is resident now. Returns whether the system can. */
static bool reset_peak(void) {
    FILE *file = fopen("/proc/self/clear_refs", "w");
    if (file == NULL) return false;
    bool is_written = fputs("5", file) >= 0;
    return fclose(file) == 0 && is_written;
}

/* Measures a work on a stream of `len` bytes, and prints what a byte costs. */
static void report_cost(const char *name, const char *unit, uint64_t len, work *run, void *of) {
    malloc_trim(0);
    bool is_reset = reset_peak();
    uint64_t before = resident("VmRSS:");
    measured found = best_of_five(run, of);
    uint64_t peak = resident("VmHWM:"), taken = peak > before ? peak - before : 0;
    printf("%-24s%9llu bytes; %llu %s; %.2f ns a byte; ", name, (unsigned long long)len,
        (unsigned long long)found.answer, unit, ratio(found.nanos, len));
    if (is_reset && before > 0 && peak > 0)
        printf("memory: %.2f times the stream, %.2f MB\n", ratio(taken, len),
            ratio(taken, 1000000));
    else printf("memory: unknown\n");
}

/* ---- loads */

/* A stream, its table, whether all its pages are zeros, and what a load of it ends with. The load
 * writes into `blocks`, of `pages` pages each, fresh ones or others, by whole sections or not. */
typedef struct hostile {
    stream bytes;
    guest guest; /* it has the stream's table */
    size_t count;
    uint64_t pages;
    bool is_zeros, is_fresh, is_whole;
    zimgasol_frame frame;
    zimgasol_status verdict;
    zimgasol_buffer blocks[BLOCKS];
} hostile;

static void check_verdict(zimgasol_status found, const hostile *h, const char *call) {
    if (found == h->verdict) return;
    fprintf(stderr, "zimgasol_%s: %s, and not: ", call, zimgasol_status_text(found));
    give_up(zimgasol_status_text(h->verdict));
}

/* Loads a stream into blocks. Returns how many sections it had. */
static uint64_t load(void *of) {
    hostile *h = of;
    const zimgasol_settings settings = {.frame = h->frame,
        .zero_blocks = h->is_fresh,
        .whole_rounds = h->is_whole};
    zimgasol_load load = {0};
    zimgasol_fault fault;
    zimgasol_fed fed;
    size_t len;
    check(zimgasol_load_new(&load, &h->guest.table, uuid, 0, 0, &settings), "load_new");
    for (size_t at = 0; (len = piece_len(&h->bytes, at, PIECE)) > 0; at += len)
        check(zimgasol_load_feed(&load, h->blocks, h->count, ZIMGASOL_MAIN, h->bytes.bytes + at,
                  len, &fed),
            "load_feed");
    check(zimgasol_load_end(&load, ZIMGASOL_MAIN), "load_end");
    check_verdict(zimgasol_load_verdict(&load, &fault), h, "load_verdict");
    zimgasol_standing standing;
    zimgasol_load_standing(&load, &standing);
    zimgasol_load_free(&load);
    return standing.rounds;
}

/* Feeds a main stream, as one piece, to a load of whole rounds whose only channel has nothing. So
 * the load keeps all rounds; of a second piece it would take nothing. Returns how many bytes it
 * took. */
static uint64_t feed_main(void *of) {
    hostile *h = of;
    const zimgasol_settings settings = {.frame = h->frame, .zero_blocks = 1, .whole_rounds = 1};
    zimgasol_load load = {0};
    zimgasol_fault fault;
    zimgasol_fed fed;
    zimgasol_source stream;
    check(zimgasol_load_new(&load, &h->guest.table, uuid, sizeof uuid, 1, &settings), "load_new");
    check(zimgasol_load_feed(&load, h->blocks, h->count, ZIMGASOL_MAIN, h->bytes.bytes,
              h->bytes.len, &fed),
        "load_feed");
    check(zimgasol_load_end(&load, ZIMGASOL_MAIN), "load_end");
    check_verdict(zimgasol_load_verdict(&load, &fault), h, "load_verdict");
    zimgasol_load_source(&load, ZIMGASOL_MAIN, &stream);
    zimgasol_load_free(&load);
    return stream.fed;
}

/* ---- streams */

/* Returns a stream of `count` blocks of `pages` pages that has no byte yet. */
static hostile hostile_of(ids of, size_t count, uint64_t pages, zimgasol_frame frame) {
    hostile made = {.count = count, .pages = pages, .is_zeros = true, .frame = frame};
    zimgasol_block *blocks = taken(calloc(count, sizeof *blocks), "a table");
    size_t entry = 0;
    for (size_t i = 0; i < count; i++) {
        char id[32];
        put_id(id, of, (unsigned)i);
        memcpy(blocks[i].id, id, strlen(id));
        blocks[i].pages = pages;
    }
    check(zimgasol_table_new(&made.guest.table, PAGE, blocks, count, &entry), "table_new");
    free(blocks);
    return made;
}

/* Makes the stream of the table, with these sections between START and END. */
static void fill_with(hostile *h, stream *sections) {
    stream whole = {0};
    send_single(&h->guest, ZIMGASOL_FRAME_RAM, 0, &whole);
    append(&h->bytes, whole.bytes, whole.len - CLOSING);
    if (sections->len > 0) append(&h->bytes, sections->bytes, sections->len);
    append(&h->bytes, whole.bytes + whole.len - CLOSING, CLOSING);
    stream_free(&whole);
    stream_free(sections);
}

/* Appends the zero record of the first page of a block, with its id. */
static void put_naming(stream *to, ids of, unsigned block) {
    char id[32];
    put_id(id, of, block);
    const uint8_t head[] = {0, 0, 0, 0, 0, 0, 0, 2, (uint8_t)strlen(id)};
    append(to, head, sizeof head);
    append(to, id, strlen(id));
    append(to, "", 1);
}

/* Returns zero records of the blocks in turn: in one PART, or each in a PART of its own. */
static stream naming_sections(ids of, bool is_one_part) {
    stream made = {0};
    if (is_one_part) append(&made, part_head, sizeof part_head);
    for (unsigned i = 0; i < NAMING; i++) {
        if (!is_one_part) append(&made, part_head, sizeof part_head);
        put_naming(&made, of, i);
        if (!is_one_part) append(&made, section_end, sizeof section_end);
    }
    if (is_one_part) append(&made, section_end, sizeof section_end);
    return made;
}

/* Returns a PART of FLUSH records, which end rounds: without pages, or of a zero record each. */
static stream flush_section(bool has_records) {
    stream made = {0};
    append(&made, part_head, sizeof part_head);
    if (has_records) put_naming(&made, SHORT, 0);
    for (unsigned i = 0; i < (has_records ? SMALL_ROUNDS : FLUSHES - 1); i++) {
        append(&made, flush, sizeof flush);
        if (has_records) append(&made, continued_zeros, sizeof continued_zeros);
    }
    append(&made, flush, sizeof flush);
    append(&made, section_end, sizeof section_end);
    return made;
}

/* ---- what is measured of a stream */

/* Makes blocks of zeros, of which the system has no memory before they are written, and returns
 * their memory. */
static uint8_t *make_blocks(hostile *h) {
    size_t len = h->pages * PAGE;
    int flags = MAP_PRIVATE | MAP_ANONYMOUS | MAP_NORESERVE;
    void *memory = mmap(NULL, h->count * len, PROT_READ | PROT_WRITE, flags, -1, 0);
    if (memory == MAP_FAILED) give_up("no memory for the blocks");
    for (size_t i = 0; i < h->count; i++)
        h->blocks[i] = (zimgasol_buffer){(uint8_t *)memory + i * len, len};
    return memory;
}

static void unmake_blocks(const hostile *h) {
    munmap(h->blocks[0].bytes, h->count * h->blocks[0].len);
}

/* Measures a load into blocks that are in use before, or into fresh ones, which the load is told;
 * by whole sections, or not. */
static void report_load(const char *name, hostile *h, bool is_whole, bool is_fresh) {
    uint8_t *memory = make_blocks(h);
    for (size_t at = 0; !is_fresh && at < h->count * h->pages * PAGE; at += PAGE)
        ((volatile uint8_t *)memory)[at] = 0;
    h->is_fresh = is_fresh;
    h->is_whole = is_whole;
    const char *unit = "rounds by sections";
    if (!is_whole) unit = is_fresh ? "rounds, fresh blocks" : "rounds in place";
    report_cost(name, unit, h->bytes.len, load, h);
    unmake_blocks(h);
}

static void hostile_free(hostile *h) {
    zimgasol_table_free(&h->guest.table);
    stream_free(&h->bytes);
}

/* Measures the loads of a stream, and where `cut` names it those without its last byte: a fault
 * that shows after all else was read. If all its pages are zeros the loads by whole sections are
 * into fresh blocks. */
static void report_both(const char *name, const char *cut, hostile *h) {
    report_load(name, h, true, h->is_zeros);
    report_load(name, h, false, false);
    if (h->is_zeros) report_load(name, h, false, true);
    if (cut != NULL) {
        h->bytes.len--;
        h->verdict = ZIMGASOL_STREAM_TRUNCATED;
        report_load(cut, h, true, h->is_zeros);
    }
    hostile_free(h);
}

/* Measures a small stream that declares a large guest. */
static void report_claim(const char *name, ids of, size_t count, uint64_t pages) {
    hostile h = hostile_of(of, count, pages, ZIMGASOL_FRAME_RAM);
    stream none = {0};
    fill_with(&h, &none);
    report_load(name, &h, true, true);
    hostile_free(&h);
}

/* Measures a stream of the table with the most blocks, of one page each. */
static void report_sections(const char *name, const char *cut, ids of, stream sections) {
    hostile h = hostile_of(of, BLOCKS, 1, ZIMGASOL_FRAME_RAM);
    fill_with(&h, &sections);
    report_both(name, cut, &h);
}

/* Measures zero records that name their blocks, in one PART and each in a PART of its own. */
static void report_naming(const char *name, ids of) {
    report_sections(name, "  its last byte cut", of, naming_sections(of, true));
    report_sections("  a PART for each", NULL, of, naming_sections(of, false));
}

/* Measures a guest that is sent `rounds` times, full of ones or of zeros. */
static void report_guest(const char *name, const char *cut, bool is_zeros, unsigned rounds) {
    hostile h = {.count = 1, .pages = PAGES, .is_zeros = is_zeros};
    guest sent = guest_of(PAGES);
    if (!is_zeros) guest_fill(&sent, 0);
    send_single(&sent, ZIMGASOL_FRAME_RAM, rounds, &h.bytes);
    h.guest.table = sent.table;
    sent.table = (zimgasol_table){0};
    guest_free(&sent);
    report_both(name, cut, &h);
}

/* Measures a main stream that is fed to a load whose channel has nothing. */
static void report_main(const char *name, bool has_records) {
    hostile h = hostile_of(SHORT, BLOCKS, 1, ZIMGASOL_FRAME_RAM);
    stream section = flush_section(has_records);
    fill_with(&h, &section);
    h.verdict = ZIMGASOL_RUNNING;
    make_blocks(&h);
    report_cost(name, "bytes taken", h.bytes.len, feed_main, &h);
    unmake_blocks(&h);
    hostile_free(&h);
}

/* ---- a machine's stream, whose COMMANDs a load passes over */

/* Bytes that are repeated in a stream. */
typedef struct part {
    const uint8_t *bytes;
    size_t len;
} part;

/* Measures a machine's stream of one page that has `parts` between START and END, `times` times. */
static void report_machine(const char *name, const part *parts, size_t count, unsigned times) {
    hostile h = hostile_of(ONE, 1, 1, ZIMGASOL_FRAME_MACHINE);
    stream sections = {0};
    for (unsigned i = 0; i < times; i++)
        for (size_t j = 0; j < count; j++) append(&sections, parts[j].bytes, parts[j].len);
    fill_with(&h, &sections);
    report_both(name, NULL, &h);
}

static void report_commands(void) {
    const part short_one = {open_return_path, sizeof open_return_path};
    const part long_one[] = {{long_ping, sizeof long_ping}, {long_content, sizeof long_content}};
    const part pinged[] = {{ping, sizeof ping}, {part_head, sizeof part_head},
        {named_zeros, sizeof named_zeros}, {section_end, sizeof section_end}};
    report_machine("COMMANDs, no bytes", &short_one, 1, COMMANDS);
    report_machine("sections of one record", pinged + 1, 3, SECTIONS);
    report_machine("  a COMMAND before each", pinged, 4, SECTIONS);
    report_machine("COMMANDs, 65,535 bytes", long_one, 2, LONG_COMMANDS);
}

/* ---- a section that repeats one page and never ends */

/* The bytes up to the section's first record and that record; a piece of others; the most records
 * that may wait, or 0; and how many pieces are fed. They are fed again and again, so that only one
 * piece of the stream is resident. `into` has the table and the block. */
typedef struct open_section {
    stream opening, piece;
    uint64_t waiting, pieces;
    hostile into;
} open_section;

static open_section open_section_of(void) {
    open_section made = {.into = hostile_of(ONE, 1, OPEN_PAGES, ZIMGASOL_FRAME_RAM)};
    stream whole = {0};
    uint8_t page[PAGE];
    memset(page, 7, PAGE);
    make_blocks(&made.into);
    send_single(&made.into.guest, ZIMGASOL_FRAME_RAM, 0, &whole);
    append(&made.opening, whole.bytes, whole.len - CLOSING);
    append(&made.opening, part_head, sizeof part_head);
    append(&made.opening, named_page, sizeof named_page);
    append(&made.opening, page, PAGE);
    for (unsigned i = 0; i < PIECE_RECORDS; i++) {
        append(&made.piece, continued_page, sizeof continued_page);
        append(&made.piece, page, PAGE);
    }
    stream_free(&whole);
    return made;
}

/* Feeds the section to a load by whole sections. Returns how many pieces were fed. */
static uint64_t feed_open_section(void *of) {
    open_section *s = of;
    const zimgasol_settings settings = {.waiting = s->waiting, .zero_blocks = 1, .whole_rounds = 1};
    zimgasol_load load = {0};
    zimgasol_fault fault;
    zimgasol_fed fed;
    check(zimgasol_load_new(&load, &s->into.guest.table, uuid, 0, 0, &settings), "load_new");
    for (uint64_t i = 0; i <= s->pieces; i++) {
        const stream *piece = i == 0 ? &s->opening : &s->piece;
        check(zimgasol_load_feed(&load, s->into.blocks, 1, ZIMGASOL_MAIN, piece->bytes, piece->len,
                  &fed),
            "load_feed");
    }
    zimgasol_status wanted = s->waiting > 0 ? ZIMGASOL_STREAM_WAITING : ZIMGASOL_RUNNING;
    if (zimgasol_load_verdict(&load, &fault) != wanted)
        give_up("an open section has another verdict than it should");
    zimgasol_load_free(&load);
    return s->pieces;
}

/* Measures an open section of 16, 32 and 64 MiB, with a limit on what waits and without. */
static void report_open_sections(void) {
    open_section section = open_section_of();
    for (int is_limited = 1; is_limited >= 0; is_limited--) {
        section.waiting = is_limited ? WAITING : 0;
        for (section.pieces = PIECES; section.pieces <= 4 * PIECES; section.pieces *= 2)
            report_cost(is_limited ? "open section, limited" : "open section, any length",
                "pieces fed", section.pieces * section.piece.len, feed_open_section, &section);
    }
    stream_free(&section.opening);
    stream_free(&section.piece);
    unmake_blocks(&section.into);
    hostile_free(&section.into);
}

void run_hostile(void) {
    printf("hostile streams: the least time of five runs, and the peak of the memory that they "
           "take beside the stream\n");
    mallopt(M_MMAP_THRESHOLD, 131072);
    mallopt(M_TRIM_THRESHOLD, 131072);
    report_claim("2 GiB claimed", ONE, 1, 1 << 19);
    report_naming("zeros that name blocks", SHORT);
    report_naming("zeros, mirrored ids", MIRRORED);
    report_naming("zeros, ids of one front", ONE_FRONT);
    report_guest("zeros with CONTINUE", NULL, true, ZERO_ROUNDS);
    report_commands();
    report_claim("256 * 4 GiB claimed", SHORT, BLOCKS, 1 << 20);
    report_main("FLUSH records", false);
    report_main("rounds of one record", true);
    report_guest("a plain guest", "a plain guest, cut", false, 1);
    report_open_sections();
}
